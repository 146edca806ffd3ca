//! Cases by name: the documents' examples, every refusal at its bounds, every item in its ways.

mod frames;
mod replies;
mod runs;
mod scripts;

use second::cases::Case;

/// A case, and its answer where the documents or the rules say it outright.
pub struct Example {
    pub case: Case,
    pub expected: Option<String>,
}

pub fn all() -> Vec<Example> {
    [frames::all(), replies::all(), scripts::all(), runs::all()].into_iter().flatten().collect()
}

fn expect(case: Case, expected: String) -> Example {
    Example { case, expected: Some(expected) }
}

/// Only that both programs answer alike.
fn alike(case: Case) -> Example {
    Example { case, expected: None }
}

fn refused(number: u16, place: usize) -> String {
    format!("result={number}\nplace={place}\n")
}

/// A script or reply written on one line, `|` for newline.
fn lines(text: &str) -> Vec<u8> {
    text.bytes().map(|byte| if byte == b'|' { b'\n' } else { byte }).collect()
}
