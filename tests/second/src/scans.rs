//! Replies with scans by name, and what is answered to each.
//!
//! A reply stands on one line, `|` for newline; a line `p` is a good package. A name begins with the number of what it
//! shows among the readings of 02's first request.

use crate::reply::{Reply, Row, ROWS};
use crate::{Lines, Refusal};

/// A row: kind, mark, parent, packages.
type Written = (char, u16, usize, usize);

const SCRIPT: Written = ('S', 0, 0, 0);
const LOOP: Written = ('L', 0, 0, 0);
/// A measuring loop and an empty scan, each the first in row 0.
const SWEEP: Written = ('M', 5, 0, 0);
const SCAN: Written = ('C', 0, 1, 0);

/// A reply that is read to its last byte.
pub struct Read {
    pub name: &'static str,
    pub reply: &'static str,
    pub code: u16,
    rows: &'static [Written],
}

impl Read {
    pub fn rows(&self) -> Vec<Row> {
        let row = |&(kind, mark, parent, packages): &Written| Row { kind: kind as u8, mark, parent, packages };
        self.rows.iter().map(row).collect()
    }
}

/// One that an empty line ends.
const fn read(name: &'static str, reply: &'static str, rows: &'static [Written]) -> Read {
    Read { name, reply, code: 0, rows }
}

pub const READ: [Read; 16] = [
    read("1.1 the mark alone", "e|M0005|C|-|*||", &[SCRIPT, SWEEP, SCAN]),
    read("1.1 with digits", "e|M0005|C0001|-|*||", &[SCRIPT, SWEEP, SCAN]),
    read("1.1 the least digits", "e|M0005|C0000|-|*||", &[SCRIPT, SWEEP, SCAN]),
    read("1.1 the most digits", "e|M0005|C9999|-|*||", &[SCRIPT, SWEEP, SCAN]),
    read("1.1 digits are not compared", "e|M0005|C0007|-|C|-|C0007|-|*||", &[SCRIPT, SWEEP, SCAN, SCAN, SCAN]),
    read("1.1 what the instrument prints", PRINTED, &[SCRIPT, SWEEP, ('C', 0, 1, 2), ('C', 0, 1, 2)]),
    read("1.5 a scan as the eighth that is open", "e|L|L|L|L|L|L|M0000|C|p|-|p|*|+|+|+|+|+|+||", &EIGHT_OPEN),
    read(
        "1.7 packages in scans and beside them",
        "e|p|M0005|p|C|p|p|-|C|-|p|*||",
        &[('S', 0, 0, 1), ('M', 5, 0, 2), ('C', 0, 1, 2), SCAN],
    ),
    read("1.7 nothing but empty scans", "e|M0005|C|-|C|-|*||", &[SCRIPT, SWEEP, SCAN, SCAN]),
    read("1.7 rows in opening order", "e|L|+|M0005|C|-|*|L|+||", &[SCRIPT, LOOP, SWEEP, ('C', 0, 2, 0), LOOP]),
    Read { name: "1.8 an error line in it", reply: "e|M0005|C|e!0007: Line 3|", code: 7, rows: &[SCRIPT, SWEEP, SCAN] },
    read(
        "1.10 a sweep in a sweep, both with scans",
        "e|M0005|M0006|C|-|*|C|-|*||",
        &[SCRIPT, SWEEP, ('M', 6, 1, 0), ('C', 0, 2, 0), SCAN],
    ),
    read(
        "1.10 scans apart from each other",
        "e|M0005|L|p|+|C|p|-|p|h|C|-|*||",
        &[SCRIPT, ('M', 5, 0, 1), ('L', 0, 1, 1), ('C', 0, 1, 1), SCAN],
    ),
    read("1.10 scans of two sweeps", "e|M0005|C|-|*|M0005|C|-|*||", &[SCRIPT, SWEEP, SCAN, SWEEP, ('C', 0, 3, 0)]),
    read("1.12 any other line in it", "e|M0005|C|p|T|Tx|h|H|Y|Z|p|-|*||", &[SCRIPT, SWEEP, ('C', 0, 1, 2)]),
    read("1.12 text that looks like a mark", "e|M0005|C|TC|T-|TL|-|*||", &[SCRIPT, SWEEP, SCAN]),
];

/// Source 001, 9.3, without the lines that its dots stand for.
const PRINTED: &str = "e|M0005|\
    C0000|Pda8000000 ;ba9AE0ABCf,14,212,40|Pda899FAA9n;ba8100E0Dp,14,212,40|-|\
    C0001|Pda8000000 ;ba9AE0ABCf,14,212,40|Pda899FAA9n;ba8100E0Dp,14,212,40|-|*||";

const EIGHT_OPEN: [Written; 9] = [
    SCRIPT,
    LOOP,
    ('L', 0, 1, 0),
    ('L', 0, 2, 0),
    ('L', 0, 3, 0),
    ('L', 0, 4, 0),
    ('L', 0, 5, 0),
    ('M', 0, 6, 1),
    ('C', 0, 7, 1),
];

/// A reply that is refused: its number and line, and into how many rows it is read.
pub struct Refused {
    pub name: &'static str,
    pub reply: &'static str,
    pub number: u16,
    pub line: usize,
    pub lent: usize,
}

const fn refused(name: &'static str, reply: &'static str, number: u16, line: usize) -> Refused {
    Refused { name, reply, number, line, lent: ROWS }
}

const fn lent(rows: usize, refused: Refused) -> Refused {
    Refused { lent: rows, ..refused }
}

pub const REFUSED: [Refused; 47] = [
    refused("1.1 two digits", "e|M0005|C12|-|*||", 51, 3),
    refused("1.1 three digits", "e|M0005|C000|-|*||", 51, 3),
    refused("1.1 five digits", "e|M0005|C00000|-|*||", 51, 3),
    refused("1.1 a hex digit", "e|M0005|C000A|-|*||", 51, 3),
    refused("1.1 a sign among the digits", "e|M0005|C-001|-|*||", 51, 3),
    refused("1.1 a small letter", "e|M0005|c|-|*||", 51, 3),
    refused("1.1 a small letter with digits", "e|M0005|c0001|-|*||", 51, 3),
    refused("1.1 a blank behind", "e|M0005|C |-|*||", 51, 3),
    refused("1.1 a blank behind the digits", "e|M0005|C0001 |-|*||", 51, 3),
    refused("1.1 a blank in front", "e|M0005| C|-|*||", 51, 3),
    refused("1.1 a carriage return behind", "e|M0005|C0001\r|-|*||", 51, 3),
    refused("1.1 two marks on a line", "e|M0005|CC|-|*||", 51, 3),
    refused("1.1 two closing marks on a line", "e|M0005|C|--|*||", 51, 4),
    refused("1.1 a closing mark with digits", "e|M0005|C|-0000|*||", 51, 4),
    refused("1.1 a closing mark with a letter", "e|M0005|C|-x|*||", 51, 4),
    refused("1.1 a closing mark with a blank", "e|M0005|C|- |*||", 51, 4),
    refused("1.1 an unknown line, whatever is open", "e|C12||", 51, 2),
    refused("1.2 in nothing", "e|C|-||", 52, 2),
    refused("1.2 with digits, in nothing", "e|C0001|-||", 52, 2),
    refused("1.2 in a loop", "e|L|C|-|+||", 52, 3),
    refused("1.2 in a scan", "e|M0005|C|C|-|-|*||", 52, 4),
    refused("1.2 in a loop in a sweep", "e|M0005|L|C|-|+|*||", 52, 4),
    refused("1.2 behind a sweep", "e|M0005|*|C|-||", 52, 4),
    refused("1.3 a loop in a scan", "e|M0005|C|L|+|-|*||", 52, 4),
    refused("1.3 a sweep in a scan", "e|M0005|C|M0006|*|-|*||", 52, 4),
    refused("1.4 closing with no scan open", "e|M0005|-|*||", 52, 3),
    refused("1.4 closing with nothing open", "e|-||", 52, 2),
    refused("1.4 closing in a loop", "e|L|-|+||", 52, 3),
    refused("1.4 the sweep closed in a scan", "e|M0005|C|*|-||", 52, 4),
    refused("1.4 a loop closed in a scan", "e|M0005|C|+|-||", 52, 4),
    refused("1.4 a second closing", "e|M0005|C|-|-|*||", 52, 5),
    refused("1.4 closing in a loop in the sweep", "e|M0005|L|-|+|*||", 52, 4),
    refused("1.5 a scan as the ninth that is open", "e|L|L|L|L|L|L|L|M0000|C|", 53, 10),
    refused("1.5 a loop in a scan, eight open", "e|L|L|L|L|L|L|M0000|C|L|", 52, 10),
    refused("1.5 a scan in a loop, eight open", "e|L|L|L|L|L|L|L|L|C|", 52, 10),
    refused("1.5 a scan in a scan, eight open", "e|L|L|L|L|L|L|M0000|C|C|", 52, 10),
    lent(9, refused("1.5 the ninth, with no row left", "e|L|L|L|L|L|L|L|M0000|C|", 53, 10)),
    lent(2, refused("1.6 two rows", "e|M0005|C|-|*||", 54, 3)),
    lent(3, refused("1.6 three rows, two scans", "e|M0005|C|-|C|-|*||", 54, 5)),
    lent(2, refused("1.6 no row left, in a loop", "e|L|C|-|+||", 52, 3)),
    lent(3, refused("1.6 no row left, in a scan", "e|M0005|C|L|", 52, 4)),
    refused("1.9 the empty line in a scan", "e|M0005|C||", 52, 4),
    refused("1.9 the empty line behind a scan", "e|M0005|C|-||", 52, 5),
    refused("1.9 no ending line", "e|M0005|C|-|*|", 50, 6),
    refused("1.11 an opening first line", "C||", 51, 1),
    refused("1.11 an opening first line with digits", "C0000||", 51, 1),
    refused("1.11 a closing first line", "-||", 51, 1),
];

/// The bytes of a reply on one line.
pub fn bytes_of(reply: &str) -> Vec<u8> {
    let lines: Vec<&str> = reply.split('|').map(|line| if line == "p" { "Pda8000000 " } else { line }).collect();
    lines.join("\n").into()
}

/// The lines of a reply as far as a reader comes that gives this answer: the line that is refused is the last.
pub fn lines_met<'a>(reply: &'a [u8], answer: &Result<Reply, Refusal>) -> Vec<&'a [u8]> {
    match answer {
        Ok(read) => Lines::of(&reply[..read.used]).collect(),
        Err(refusal) => Lines::of(reply).take(refusal.place).collect(),
    }
}

/// Whether a mark of a scan is among the lines, be it spoilt.
pub fn any_mark(lines: &[&[u8]]) -> bool {
    lines.iter().any(|line| matches!(line, [b'C' | b'-', ..]))
}

#[cfg(test)]
mod tests {
    use super::*;
    use crate::{refuse, reply};

    /// What every row holds before it is lent; no reply makes such a row.
    const BEFORE: Row = Row { kind: b'L', mark: 999, parent: 77, packages: 99 };

    /// So many rows behind the last, which stay as they were.
    const SPARE: usize = 2;

    #[test]
    fn read_into_just_enough_rows_and_into_more() {
        for example in &READ {
            let (name, bytes, rows) = (example.name, bytes_of(example.reply), example.rows());
            let answer = Ok(Reply { code: example.code, used: bytes.len(), rows: rows.len() });
            for spare in [0, SPARE] {
                let mut lent = vec![BEFORE; rows.len() + spare];
                assert_eq!(reply::read(&bytes, &mut lent), answer, "{name}");
                assert_eq!(lent, [&rows[..], &[BEFORE; SPARE][..spare]].concat(), "{name}");
            }
            let last = rows.len() - 1;
            assert_eq!(reply::row(&bytes, last), Ok(rows[last]), "{name}");
            assert_eq!(reply::row(&bytes, last + 1), refuse(56, 0), "{name}");
        }
    }

    #[test]
    fn refused_with_no_row_changed() {
        for &Refused { name, reply, number, line, lent } in &REFUSED {
            let mut rows = vec![BEFORE; lent];
            assert_eq!(reply::read(&bytes_of(reply), &mut rows), refuse(number, line), "{name}");
            assert_eq!(rows, vec![BEFORE; lent], "{name}");
        }
    }
}
