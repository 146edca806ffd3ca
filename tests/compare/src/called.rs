//! The C entry points: what is asked of them, and what they must answer. They are called from Rust only where their
//! archive can be linked.

use second::cases::{answer, as_asked, Case};
use second::reply::{self, Reply, Row, EMPTY, ROWS};
use second::{frame, rules, Refusal};

/// What is asked of the C entry points for a case: of a reply, with a table of 1,024 rows too, which two of them have.
pub fn asked_in_c(case: &Case) -> Vec<Case> {
    match case {
        Case::Reply { rows, bytes } if *rows != ROWS => {
            vec![case.clone(), Case::Reply { rows: ROWS, bytes: bytes.clone() }]
        }
        case => vec![case.clone()],
    }
}

/// Whether an entry point answers such a case.
pub fn is_called(case: &Case) -> bool {
    matches!(
        case,
        Case::FrameRead { .. } | Case::FrameWrite { .. } | Case::Reply { .. } | Case::Row { .. } | Case::Check { .. }
    )
}

/// What the entry points must answer: the answer to the case, of a reply how many of all 1,024 rows hold what they held
/// before, then every number that the entry point gives back.
pub fn expected_of_c(case: &Case) -> String {
    let said = match case {
        Case::Reply { rows, bytes } => {
            let written = read(bytes, *rows).map_or(0, |reply| reply.rows);
            format!("{}kept={}\n", as_asked(&answer(case), false), ROWS - written)
        }
        case => answer(case),
    };
    format!("{said}numbers={}\n", numbers(case))
}

fn read(bytes: &[u8], rows: usize) -> Result<Reply, Refusal> {
    reply::read(bytes, &mut vec![EMPTY; rows.min(ROWS)])
}

/// The numbers of the struct that an entry point gives back, in its order. Refused, a frame's next number is the one
/// that was handed in, a reply, a row and a script have their line, and all else is 0.
fn numbers(case: &Case) -> String {
    match case {
        Case::FrameRead { line, expected } => frame_numbers(frame::read(line, *expected), *expected),
        Case::FrameWrite { content, number, buffer } => {
            frame_numbers(frame::write(content, *number, &mut vec![0; *buffer]), *number)
        }
        Case::Reply { rows, bytes } => match read(bytes, *rows) {
            Ok(Reply { code, used, rows }) => format!("0 {code} 0 {used} {rows}"),
            Err(Refusal { number, place }) => format!("{number} 0 {place} 0 0"),
        },
        Case::Row { row, bytes } => match reply::row(bytes, *row) {
            Ok(Row { kind, mark, parent, packages }) => format!("0 {kind} {mark} 0 {parent} {packages}"),
            Err(Refusal { number, place }) => format!("{number} 0 0 {place} 0 0"),
        },
        Case::Check { script } => match rules::check_text(script) {
            Ok(()) => "0 0".into(),
            Err(Refusal { number, place }) => format!("{number} {place}"),
        },
        _ => "no entry point answers this".into(),
    }
}

fn frame_numbers(read: Result<(usize, u8), Refusal>, handed_in: u8) -> String {
    match read {
        Ok((length, next)) => format!("0 {next} {length}"),
        Err(Refusal { number, .. }) => format!("{number} {handed_in} 0"),
    }
}

#[cfg(linked)]
pub use linked::Linked;

#[cfg(linked)]
mod linked {
    use super::expected_of_c;
    use crate::proved::Answering;
    use second::cases::{lent_before, Case};
    use second::reply::ROWS;

    #[repr(C)]
    struct SatvFrame {
        result: u16,
        next: u8,
        length: usize,
    }

    #[repr(C)]
    #[derive(PartialEq)]
    struct SatvReply {
        result: u16,
        code: u32,
        line: usize,
        used: usize,
        rows: usize,
    }

    #[repr(C)]
    struct SatvRow {
        result: u16,
        kind: u8,
        mark: u32,
        line: usize,
        parent: usize,
        packages: usize,
    }

    #[repr(C)]
    struct SatvVerdict {
        result: u16,
        line: usize,
    }

    unsafe extern "C" {
        fn satv_frame_read(line: *const u8, length: usize, expected: u8) -> SatvFrame;
        fn satv_frame_write(content: *const u8, length: usize, number: u8, buf: *mut u8, room: usize) -> SatvFrame;
        fn satv_reply_read(reply: *const u8, length: usize) -> SatvReply;
        fn satv_reply_rows(reply: *const u8, length: usize, numbers: *mut u32, room: usize) -> SatvReply;
        fn satv_reply_row(reply: *const u8, length: usize, row: usize) -> SatvRow;
        fn satv_script_check(script: *const u8, length: usize) -> SatvVerdict;
    }

    /// What every row holds before it is lent; no reply makes such a row.
    const NO_ROW: [u32; 4] = [b'L' as u32, 999, 77, 99];

    /// The entry points of the archive that this program is linked with.
    pub struct Linked;

    impl Answering for Linked {
        fn name(&self) -> &str {
            "the C entry points, from Rust"
        }

        fn answers(&self, cases: &[Case]) -> Vec<String> {
            cases.iter().map(one).collect()
        }

        fn expected(&self, case: &Case) -> String {
            expected_of_c(case)
        }
    }

    fn one(case: &Case) -> String {
        match case {
            Case::FrameRead { line, expected } => frame_read(line, *expected),
            Case::FrameWrite { content, number, buffer } => {
                frame_write(content, *number, &mut lent_before(case, *buffer))
            }
            Case::Reply { rows, bytes } => reply(bytes, (*rows).min(ROWS)),
            Case::Row { row, bytes } => one_row(bytes, *row),
            Case::Check { script } => check(script),
            _ => "no entry point answers this\n".into(),
        }
    }

    fn refused(result: u16, key: &str, place: usize) -> String {
        format!("result={result}\n{key}={place}\n")
    }

    fn hex(bytes: &[u8]) -> String {
        bytes.iter().map(|byte| format!("{byte:02X}")).collect()
    }

    fn frame_read(line: &[u8], expected: u8) -> String {
        let SatvFrame { result, next, length } = unsafe { satv_frame_read(line.as_ptr(), line.len(), expected) };
        let said = match result {
            0 => format!("result=0\ncontent={}\nnext={next:02X}\n", hex(&line[..length])),
            _ => refused(result, "place", 0),
        };
        format!("{said}numbers={result} {next} {length}\n")
    }

    fn frame_write(content: &[u8], number: u8, lent: &mut [u8]) -> String {
        let (buffer, room) = (lent.as_mut_ptr(), lent.len());
        let SatvFrame { result, next, length } =
            unsafe { satv_frame_write(content.as_ptr(), content.len(), number, buffer, room) };
        let said = match result {
            0 => format!("result=0\nbytes={}\nhost={next:02X}\n", hex(&lent[..length])),
            _ => refused(result, "place", 0),
        };
        format!("{said}lent={}\nnumbers={result} {next} {length}\n", hex(lent))
    }

    fn check(script: &[u8]) -> String {
        let SatvVerdict { result, line } = unsafe { satv_script_check(script.as_ptr(), script.len()) };
        let said = if result == 0 { "result=0\n".into() } else { refused(result, "place", line) };
        format!("{said}numbers={result} {line}\n")
    }

    /// All rows by one call, into so many of 1,024 rows.
    fn reply(bytes: &[u8], rows: usize) -> String {
        let mut numbers = NO_ROW.repeat(ROWS);
        let lent = &mut numbers[..rows * NO_ROW.len()];
        let read = unsafe { satv_reply_rows(bytes.as_ptr(), bytes.len(), lent.as_mut_ptr(), lent.len()) };
        let kept = numbers.chunks(NO_ROW.len()).filter(|row| **row == NO_ROW).count();
        let listed = numbers.chunks(NO_ROW.len()).take(read.rows);
        let SatvReply { result, code, line, used, rows: count } = read;
        let mut said = if result == 0 {
            let lines = listed.clone().enumerate().map(|(place, row)| format!("row={place}\n{}", row_lines(row)));
            format!("result=0\ncode={code:04X}\nused={used}\nrows={count}\n{}", lines.collect::<String>())
        } else {
            refused(result, "line", line)
        };
        let others_agree = read == unsafe { satv_reply_read(bytes.as_ptr(), bytes.len()) }
            && listed.enumerate().all(|(place, four)| *four == four_of(&row(bytes, place)));
        if rows == ROWS && !others_agree {
            said += "the entry points differ\n";
        }
        format!("{said}kept={kept}\nnumbers={result} {code} {line} {used} {count}\n")
    }

    fn one_row(bytes: &[u8], number: usize) -> String {
        let read = row(bytes, number);
        let SatvRow { result, kind, mark, line, parent, packages } = read;
        let said = match result {
            0 => format!("result=0\n{}", row_lines(&four_of(&read))),
            _ => refused(result, "line", line),
        };
        format!("{said}numbers={result} {kind} {mark} {line} {parent} {packages}\n")
    }

    fn row(bytes: &[u8], number: usize) -> SatvRow {
        unsafe { satv_reply_row(bytes.as_ptr(), bytes.len(), number) }
    }

    fn four_of(row: &SatvRow) -> [u32; 4] {
        [row.kind.into(), row.mark, row.parent as u32, row.packages as u32]
    }

    fn row_lines(row: &[u32]) -> String {
        let kind = char::from_u32(row[0]).unwrap_or('?');
        format!("kind={kind}\nmark={:04X}\nparent={}\npackages={}\n", row[1], row[2], row[3])
    }
}
