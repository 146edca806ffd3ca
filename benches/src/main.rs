//! Speed of the proved code beside the second program: the best of several turns, both in one run.

mod inputs;
mod plain;
mod proved;

use std::fmt::Debug;
use std::hint::black_box;

use second::machine::MOST_STEPS;
use second::reply::{EMPTY, ROWS};

const TURNS: usize = 40;
const LEAST: f64 = 1e6;
/// How often a script is checked that is loaded once.
const TIMES: usize = 1_000;

#[repr(C)]
struct TimeSpec {
    seconds: i64,
    nanoseconds: i64,
}

unsafe extern "C" {
    fn clock_gettime(clock: i32, time: *mut TimeSpec) -> i32;
}

const THREAD_CPU_TIME: i32 = 3;

/// What this thread has used of the processor, in nanoseconds: others on the machine do not count.
fn used() -> f64 {
    let mut time = TimeSpec { seconds: 0, nanoseconds: 0 };
    unsafe { clock_gettime(THREAD_CPU_TIME, &mut time) };
    time.seconds as f64 * 1e9 + time.nanoseconds as f64
}

/// The time of one call, in nanoseconds.
fn time(calls: u32, call: &mut dyn FnMut()) -> f64 {
    let start = used();
    for _ in 0..calls {
        call();
    }
    (used() - start) / f64::from(calls)
}

/// So many calls that the clock can tell.
fn calls_for(call: &mut dyn FnMut()) -> u32 {
    let mut calls = 1;
    while time(calls, call) * f64::from(calls) < LEAST {
        calls *= 2;
    }
    calls
}

/// Both in turn, the best of each; they answer the same, or it is not the same work. `units` are what one call does.
fn race<A: PartialEq + Debug>(
    what: &str,
    units: (usize, &str),
    mut proved: impl FnMut() -> A,
    mut second: impl FnMut() -> A,
) {
    assert_eq!(proved(), second(), "{what}");
    let mut proved = || {
        black_box(proved());
    };
    let mut second = || {
        black_box(second());
    };
    let (proved_calls, second_calls) = (calls_for(&mut proved), calls_for(&mut second));
    let mut best = (f64::MAX, f64::MAX);
    for _ in 0..TURNS {
        best.0 = best.0.min(time(proved_calls, &mut proved));
        best.1 = best.1.min(time(second_calls, &mut second));
    }
    let each = |nanoseconds: f64| nanoseconds / units.0 as f64;
    println!("| {what} | {:.1} | {:.1} | {} | {:.2} |", each(best.0), each(best.1), units.1, best.1 / best.0);
}

fn frames() {
    let bytes = [b'x'; 127];
    race("CRC of 127 bytes", (1, "call"), || proved::crc16(black_box(&bytes)), || plain::crc16(black_box(&bytes)));
    let lines = inputs::framed_lines();
    race(
        "reading framed lines, 0 to 127 bytes of content",
        (lines.len(), "line"),
        || lines.iter().filter(|(line, number)| proved::frame(line, *number)).count(),
        || lines.iter().filter(|(line, number)| plain::frame(line, *number)).count(),
    );
}

/// Numbers that are called for one by one, of the proved code and of the second program alike.
fn digits() {
    let sum = |bytes: &[u8], width: usize, read: fn(&[u8], usize) -> u32| {
        (0..bytes.len()).step_by(width).fold(0, |sum: u32, at| sum.wrapping_add(read(bytes, at)))
    };
    for (what, good) in [("good", true), ("the last one bad", false)] {
        for (name, width, proved, plain) in [
            ("four", 4, proved::four_digits as fn(&[u8], usize) -> u32, plain::four_digits as fn(&[u8], usize) -> u32),
            ("seven", 7, proved::seven_digits, plain::seven_digits),
        ] {
            let bytes = inputs::numbers(width, good);
            race(
                &format!("reading {name} hex digits, {what}"),
                (inputs::NUMBERS, "number"),
                || sum(black_box(&bytes), width, proved),
                || sum(black_box(&bytes), width, plain),
            );
        }
    }
}

fn packages() {
    for parts in [1, 4, 16] {
        let package = inputs::package(parts);
        race(
            &format!("judging a package, {parts} parts"),
            (1, "package"),
            || proved::package(black_box(&package)),
            || plain::package(black_box(&package)),
        );
    }
}

fn replies() {
    for kilobytes in [4, 16, 64] {
        let reply = inputs::reply(kilobytes * 1024);
        let mut rows = [EMPTY; ROWS];
        race(
            &format!("reading a reply, {kilobytes} KB"),
            (reply.len(), "byte"),
            || proved::reply(black_box(&reply)),
            || plain::reply(black_box(&reply), black_box(&mut rows)),
        );
    }
}

fn scripts() {
    for items in [16, 64, 128] {
        let script = inputs::script(items);
        race(
            &format!("loading a script, {items} items"),
            (1, "script"),
            || proved::load(black_box(&script)),
            || plain::load(black_box(&script)),
        );
    }
}

fn checks() {
    for items in [16, 64, 128] {
        let script = inputs::script(items);
        race(
            &format!("checking the rules, {items} items"),
            (TIMES, "check"),
            || proved::check(&script, TIMES),
            || plain::check(&script, TIMES),
        );
    }
}

/// Steps one by one, each judged and its mates found anew, and 64 at one asking, judged once. An ended run does the
/// same but its items: what is left is copying and judging, and at 64 a call nearly nothing but copying.
fn sweeps() {
    const STEPS: usize = 8_000;
    const CALLS: usize = STEPS / MOST_STEPS;
    let (script, points) = (inputs::sweep(), inputs::points());
    for (what, first) in [
        ("sweep of 1,000 points with a package each", inputs::TO_SWEEP),
        ("the same steps of a run that has ended", inputs::TO_END),
    ] {
        race(
            &format!("{what}, step by step"),
            (STEPS, "step"),
            || proved::steps(&script, first, &points, STEPS),
            || plain::steps(&script, first, &points, STEPS),
        );
        race(
            &format!("{what}, 64 steps a call"),
            (STEPS, "step"),
            || proved::runs(&script, first, &points, CALLS),
            || plain::runs(&script, first, &points, CALLS),
        );
    }
}

fn main() {
    println!("| What | Proved, ns | Second, ns | each | Second / proved |");
    println!("|---|---|---|---|---|");
    frames();
    digits();
    packages();
    replies();
    scripts();
    checks();
    sweeps();
}
