//! The programs `rows` and `vet`, run on seeded input; what they write is held to the second program.

use std::io::Write;
use std::path::Path;
use std::process::{Command, ExitStatus, Stdio};

use second::cases::{listing, Case};
use second::reply::{self, EMPTY, ROWS};
use second::rules;
use second::seeded::{self, Seed, Wild};

const RUNS: u64 = 400;
const SHOWN: usize = 3;

/// What a program writes when it reads these bytes, and whether it ends well.
fn output(program: &Path, input: &[u8]) -> std::io::Result<(Vec<u8>, ExitStatus)> {
    let launch = std::env::var("SATVRENGI_LAUNCH").expect("tests/run says what starts a program");
    let mut child = Command::new(launch).arg(program).stdin(Stdio::piped()).stdout(Stdio::piped()).spawn()?;
    if let Some(mut stdin) = child.stdin.take() {
        // A program may stop reading early, once it knows enough.
        let _ = stdin.write_all(input);
    }
    let ended = child.wait_with_output()?;
    Ok((ended.stdout, ended.status))
}

fn reply_input(seed: u64, number: u64) -> (Vec<u8>, String) {
    let seed = &mut Seed::of(seed, 100, number);
    let mut bytes = match seeded::reply(seed) {
        Case::Reply { bytes, .. } => bytes,
        _ => unreachable!("a reply was asked for"),
    };
    if number % 20 == 0 {
        bytes.resize(65_534 + number as usize / 20 % 6, b'x');
    }
    let mut rows = [EMPTY; ROWS];
    let answer = reply::read(&bytes, &mut rows);
    (bytes, listing(answer, &rows))
}

fn script_input(seed: u64, number: u64) -> (Vec<u8>, String) {
    let seed = &mut Seed::of(seed, 101, number);
    let wild = Wild::any(seed);
    let script = seeded::script(seed, wild);
    let verdict = match rules::check_text(&script) {
        Ok(()) => "result=0\n".into(),
        Err(refusal) => format!("result={}\nline={}\n", refusal.number, refusal.place),
    };
    (script, verdict)
}

/// Runs the program `rows`; says how many runs failed.
pub fn rows(program: &Path, seed: u64) -> usize {
    run(program, seed, reply_input)
}

/// Runs the program `vet`; says how many runs failed.
pub fn vet(program: &Path, seed: u64) -> usize {
    run(program, seed, script_input)
}

/// Each input by its number, with what is to be written.
type Input = fn(u64, u64) -> (Vec<u8>, String);

fn run(program: &Path, seed: u64, input: Input) -> usize {
    let name = program.display();
    let mut wrong = 0;
    for number in 0..RUNS {
        let (bytes, expected) = input(seed, number);
        let (written, status) = output(program, &bytes).unwrap_or_else(|error| panic!("{name}: {error}"));
        if written == expected.as_bytes() && status.success() {
            continue;
        }
        wrong += 1;
        if wrong <= SHOWN {
            let written = String::from_utf8_lossy(&written);
            let input = bytes.escape_ascii();
            println!("{name}, run {number} of seed {seed}, {status}:\n{input}");
            println!("expected:\n{expected}\nwritten:\n{written}");
        }
    }
    println!("{name}: {} runs passed, {wrong} failed", RUNS as usize - wrong);
    wrong
}
