//! Replies: the marks of loops and scans and the packages inside them, as rows in a table that the caller lends.

use crate::package;
use crate::{hex_number, refuse, Lines, Refusal};

const LONGEST: usize = 65_536;
const MOST_OPEN: usize = 8;
/// The rows of the table behind the C entry points and the program.
pub const ROWS: usize = 1_024;

#[derive(Clone, Copy, Debug, PartialEq, Eq)]
pub struct Row {
    pub kind: u8,
    pub mark: u16,
    pub parent: usize,
    pub packages: usize,
}

pub const EMPTY: Row = Row { kind: b'S', mark: 0, parent: 0, packages: 0 };

#[derive(Clone, Copy, Debug, PartialEq, Eq)]
pub struct Reply {
    pub code: u16,
    pub used: usize,
    pub rows: usize,
}

/// Reads a reply into the lent rows; refused, no row is changed.
pub fn read(reply: &[u8], rows: &mut [Row]) -> Result<Reply, Refusal> {
    let mut own = Vec::new();
    let answer = walk(reply, rows.len(), &mut own)?;
    rows[..own.len()].copy_from_slice(&own);
    Ok(answer)
}

/// One row of a reply, by number.
pub fn row(reply: &[u8], number: usize) -> Result<Row, Refusal> {
    let mut rows = Vec::new();
    walk(reply, ROWS, &mut rows)?;
    rows.get(number).copied().map_or(refuse(56, 0), Ok)
}

fn walk(reply: &[u8], most_rows: usize, rows: &mut Vec<Row>) -> Result<Reply, Refusal> {
    if reply.len() > LONGEST {
        return refuse(55, 0);
    }
    let mut lines = Lines::of(reply);
    let mut number = 1;
    let first = match lines.next() {
        None => return refuse(50, 1),
        Some(b"e") => 0,
        Some(line) => error_code(line).map_or(refuse(51, 1), Ok)?,
    };
    if most_rows == 0 {
        return refuse(54, 1);
    }
    rows.push(EMPTY);
    if first != 0 {
        return Ok(Reply { code: first, used: lines.at(), rows: 1 });
    }
    let mut open = Vec::with_capacity(MOST_OPEN);
    loop {
        number += 1;
        let Some(line) = lines.next() else {
            return refuse(50, number);
        };
        let code = match line {
            [] if open.is_empty() => 0,
            [] => return refuse(52, number),
            [b'e', ..] => error_code(line).map_or(refuse(51, number), Ok)?,
            _ => {
                take(line, &mut open, most_rows, rows).or_else(|fault| refuse(fault, number))?;
                continue;
            }
        };
        return Ok(Reply { code, used: lines.at(), rows: rows.len() });
    }
}

/// What a line inside the reply does.
fn take(line: &[u8], open: &mut Vec<usize>, most_rows: usize, rows: &mut Vec<Row>) -> Result<(), u16> {
    let parent = open.last().copied().unwrap_or(0);
    let (kind, mark) = match line {
        [b'P', ..] => {
            package::walk(line, |_| ()).map_err(|refusal| refusal.number)?;
            rows[parent].packages += 1;
            return Ok(());
        }
        [b'T', ..] | [b'h' | b'H' | b'Y' | b'Z'] => return Ok(()),
        [b'*'] => return close(b'M', open, rows),
        [b'+'] => return close(b'L', open, rows),
        [b'-'] => return close(b'C', open, rows),
        [b'L'] => (b'L', 0),
        [b'M', digits @ ..] if digits.len() == 4 => (b'M', hex_number(digits).ok_or(51u16)? as u16),
        [b'C', number @ ..] if is_scan_number(number) => (b'C', 0),
        _ => return Err(51),
    };
    if !stands_in(kind, rows[parent].kind) {
        return Err(52);
    }
    if open.len() == MOST_OPEN {
        return Err(53);
    }
    if rows.len() == most_rows {
        return Err(54);
    }
    open.push(rows.len());
    rows.push(Row { kind, mark, parent, packages: 0 });
    Ok(())
}

/// What may follow a scan's `C`: nothing, or four decimal digits, as the instrument prints it. They are not kept.
fn is_scan_number(text: &[u8]) -> bool {
    text.is_empty() || text.len() == 4 && text.iter().all(u8::is_ascii_digit)
}

/// Whether one kind stands directly inside another: a scan in a measuring loop alone, a loop in anything but a scan.
fn stands_in(kind: u8, outer: u8) -> bool {
    if kind == b'C' {
        outer == b'M'
    } else {
        outer != b'C'
    }
}

/// Closes the innermost that is open, which must be of this kind.
fn close(kind: u8, open: &mut Vec<usize>, rows: &[Row]) -> Result<(), u16> {
    match open.pop() {
        Some(row) if rows[row].kind == kind => Ok(()),
        _ => Err(52),
    }
}

/// The code of an error line: `e!hhhh`, not 0000, alone or followed by `: ` and anything.
fn error_code(line: &[u8]) -> Option<u16> {
    let (digits, behind) = line.strip_prefix(b"e!")?.split_at_checked(4)?;
    let code = hex_number(digits)? as u16;
    (code != 0 && (behind.is_empty() || behind.starts_with(b": "))).then_some(code)
}

#[cfg(test)]
mod tests {
    use super::*;

    fn answer(lines: &str) -> Result<Reply, Refusal> {
        read(lines.replace('|', "\n").as_bytes(), &mut [EMPTY; 20])
    }

    #[test]
    fn the_listing() {
        let mut rows = [EMPTY; 4];
        rows[3].packages = 77;
        assert_eq!(read(b"e\nM0000\n*\n\n", &mut rows), Ok(Reply { code: 0, used: 11, rows: 2 }));
        assert_eq!(rows[1], Row { kind: b'M', mark: 0, parent: 0, packages: 0 });
        assert_eq!(rows[3].packages, 77);
    }

    #[test]
    fn endings() {
        assert_eq!(answer(""), refuse(50, 1));
        assert_eq!(answer("|"), refuse(51, 1));
        assert_eq!(answer("e|"), refuse(50, 2));
        assert_eq!(answer("e|L||"), refuse(52, 3));
        assert_eq!(answer("e|L|e!4001: x|"), Ok(Reply { code: 0x4001, used: 14, rows: 2 }));
        assert_eq!(answer("e!4001:|"), refuse(51, 1));
        assert_eq!(answer("e|e|"), refuse(51, 2));
        assert_eq!(answer("e!0000|"), refuse(51, 1));
    }
}
