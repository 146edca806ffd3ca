//! The second program, asked the same as the proved code and answering the same numbers.

use std::hint::black_box;

use second::machine::{Control, Machine, Offer, State, MOST_STEPS};
use second::reply::Row;
use second::table::Table;

pub use second::frame::crc16;

/// One more than the number of the four digits at a place; 0 where one is bad.
#[inline(never)]
pub fn four_digits(bytes: &[u8], at: usize) -> u32 {
    digits(bytes, at, 4)
}

/// The same of seven digits.
#[inline(never)]
pub fn seven_digits(bytes: &[u8], at: usize) -> u32 {
    digits(bytes, at, 7)
}

fn digits(bytes: &[u8], at: usize, width: usize) -> u32 {
    second::hex_number(&bytes[at..at + width]).map_or(0, |number| number + 1)
}

/// Whether a line is good.
pub fn frame(line: &[u8], expected: u8) -> bool {
    second::frame::read(line, expected).is_ok()
}

/// Whether a package is good.
pub fn package(bytes: &[u8]) -> bool {
    let look = |part| {
        black_box(part);
    };
    second::package::walk(bytes, look).is_ok()
}

/// How many bytes a reply takes, none where it is refused.
pub fn reply(bytes: &[u8], rows: &mut [Row]) -> usize {
    second::reply::read(bytes, rows).map_or(0, |reply| reply.used)
}

fn table(script: &[u8]) -> Table {
    second::load::load(script).expect("good form")
}

/// How many items a script has.
pub fn load(script: &[u8]) -> usize {
    black_box(table(script)).slots.len()
}

/// How often a script is accepted, loaded once and checked so many times.
pub fn check(script: &[u8], times: usize) -> usize {
    let table = table(script);
    (0..times).filter(|_| second::rules::check(black_box(&table), script.len()).is_ok()).count()
}

/// What a letter of `crates/timed` offers.
fn offer(letter: u8) -> Offer {
    match letter {
        b'f' => Offer::Float(0.25),
        b'p' => Offer::Point(0.25, 0.5),
        b'i' => Offer::Point(f64::INFINITY, 0.5),
        b'd' => Offer::Done,
        _ => Offer::Nothing,
    }
}

fn told(letters: &[u8]) -> Vec<(Control, Offer)> {
    letters.iter().map(|&letter| (Control::None, offer(letter))).collect()
}

/// How many things a run hands out behind its first steps, in so many steps as the letters tell over and over.
pub fn steps(script: &[u8], first: &[u8], letters: &[u8], times: usize) -> usize {
    let table = table(script);
    let machine = Machine::new(&table, script.len());
    let mut state = machine.run(&State::default(), &told(first), MOST_STEPS).state;
    let (mut things, mut handed) = (Vec::new(), 0);
    for &(control, offer) in told(letters).iter().cycle().take(times) {
        black_box(machine.step(&mut state, control, offer, &mut things));
        handed += things.len();
    }
    handed
}

/// The same, so many times the letters at one asking.
pub fn runs(script: &[u8], first: &[u8], letters: &[u8], times: usize) -> usize {
    let table = table(script);
    let machine = Machine::new(&table, script.len());
    let mut state = machine.run(&State::default(), &told(first), MOST_STEPS).state;
    let (row, mut handed) = (told(letters), 0);
    for _ in 0..times {
        let ran = black_box(machine.run(&state, &row, MOST_STEPS));
        (state, handed) = (ran.state, handed + ran.things.len());
    }
    handed
}
