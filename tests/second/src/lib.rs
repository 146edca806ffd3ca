//! The second program: the rules once more, in plain Rust, written from the paper and not from the proved crates.
//! `tests/run` compares the two on seeded cases; `benches/run` times them side by side.

pub mod cases;
pub mod frame;
pub mod load;
pub mod machine;
pub mod package;
pub mod reply;
pub mod rules;
pub mod scans;
pub mod seeded;
pub mod table;
pub mod value;

/// A refusal: the paper's number and the line or part it concerns, 0 where there is none.
#[derive(Clone, Copy, Debug, PartialEq, Eq)]
pub struct Refusal {
    pub number: u16,
    pub place: usize,
}

/// The refusal with this number at this place.
pub fn refuse<T>(number: u16, place: usize) -> Result<T, Refusal> {
    Err(Refusal { number, place })
}

/// The value of an upper-case hex digit.
pub fn hex_digit(byte: u8) -> Option<u32> {
    match byte {
        b'0'..=b'9' => Some(u32::from(byte - b'0')),
        b'A'..=b'F' => Some(u32::from(byte - b'A') + 10),
        _ => None,
    }
}

/// The number that the bytes write in upper-case hex, all of them digits (at most seven).
pub fn hex_number(digits: &[u8]) -> Option<u32> {
    digits.iter().try_fold(0, |sum, &byte| Some(sum * 16 + hex_digit(byte)?))
}

/// The lines of a text, each without its newline; bytes after the last newline are no line.
pub struct Lines<'a> {
    text: &'a [u8],
    at: usize,
}

impl<'a> Lines<'a> {
    pub fn of(text: &'a [u8]) -> Self {
        Lines { text, at: 0 }
    }

    /// Where the next line begins.
    pub fn at(&self) -> usize {
        self.at
    }
}

impl<'a> Iterator for Lines<'a> {
    type Item = &'a [u8];

    fn next(&mut self) -> Option<&'a [u8]> {
        let rest = &self.text[self.at..];
        let end = rest.iter().position(|&byte| byte == b'\n')?;
        self.at += end + 1;
        Some(&rest[..end])
    }
}
