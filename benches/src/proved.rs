//! The proved code behind the entry points of crate `timed`: bytes go in, numbers come back.

unsafe extern "C" {
    fn timed_crc(bytes: *const u8, length: usize) -> u16;
    fn timed_four(bytes: *const u8, length: usize, at: usize) -> u32;
    fn timed_seven(bytes: *const u8, length: usize, at: usize) -> u32;
    fn timed_frame(line: *const u8, length: usize, expected: u8) -> bool;
    fn timed_package(bytes: *const u8, length: usize) -> bool;
    fn timed_reply(bytes: *const u8, length: usize) -> usize;
    fn timed_load(text: *const u8, length: usize) -> usize;
    fn timed_check(text: *const u8, length: usize, times: usize) -> usize;
    fn timed_steps(
        text: *const u8,
        length: usize,
        first: *const u8,
        first_length: usize,
        letters: *const u8,
        letters_length: usize,
        times: usize,
    ) -> usize;
    fn timed_runs(
        text: *const u8,
        length: usize,
        first: *const u8,
        first_length: usize,
        letters: *const u8,
        letters_length: usize,
        times: usize,
    ) -> usize;
}

pub fn crc16(bytes: &[u8]) -> u16 {
    unsafe { timed_crc(bytes.as_ptr(), bytes.len()) }
}

/// One more than the number of the four digits at a place; 0 where one is bad.
pub fn four_digits(bytes: &[u8], at: usize) -> u32 {
    unsafe { timed_four(bytes.as_ptr(), bytes.len(), at) }
}

/// The same of seven digits.
pub fn seven_digits(bytes: &[u8], at: usize) -> u32 {
    unsafe { timed_seven(bytes.as_ptr(), bytes.len(), at) }
}

/// Whether a line is good.
pub fn frame(line: &[u8], expected: u8) -> bool {
    unsafe { timed_frame(line.as_ptr(), line.len(), expected) }
}

/// Whether a package is good.
pub fn package(bytes: &[u8]) -> bool {
    unsafe { timed_package(bytes.as_ptr(), bytes.len()) }
}

/// How many bytes a reply takes, none where it is refused.
pub fn reply(bytes: &[u8]) -> usize {
    unsafe { timed_reply(bytes.as_ptr(), bytes.len()) }
}

/// How many items a script has, none where it is refused.
pub fn load(script: &[u8]) -> usize {
    unsafe { timed_load(script.as_ptr(), script.len()) }
}

/// How often a script is accepted, loaded once and checked so many times.
pub fn check(script: &[u8], times: usize) -> usize {
    unsafe { timed_check(script.as_ptr(), script.len(), times) }
}

/// How many things a run hands out behind its first steps, in so many steps as 64 letters tell over and over.
pub fn steps(script: &[u8], first: &[u8], letters: &[u8], times: usize) -> usize {
    let (text, before, told) = (script.as_ptr(), first.as_ptr(), letters.as_ptr());
    unsafe { timed_steps(text, script.len(), before, first.len(), told, letters.len(), times) }
}

/// The same, so many times the 64 letters at one asking.
pub fn runs(script: &[u8], first: &[u8], letters: &[u8], times: usize) -> usize {
    let (text, before, told) = (script.as_ptr(), first.as_ptr(), letters.as_ptr());
    unsafe { timed_runs(text, script.len(), before, first.len(), told, letters.len(), times) }
}
