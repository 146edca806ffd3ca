//! The proved code beside the second program; `USAGE` says what can be asked.

use std::io::Read;
use std::panic::{catch_unwind, resume_unwind, AssertUnwindSafe};
use std::process::exit;
use std::time::Instant;

use compare::called::{asked_in_c, is_called};
use compare::examples;
use compare::judge::{asked, Hits, WITH_SCANS};
use compare::programs;
use compare::proved::{fits, Answering, Program};
use second::cases::{answer, as_asked, read_case, write_case, Case};
use second::reply::ROWS;
use second::seeded::{self, Seed};

const USAGE: &str = "\
usage: compare cases [states]                        the proved code's answers to cases from standard input
       compare examples                              the documents' examples and the bounds
       compare seeded all|emulated|some [SEED]       seeded cases, asked of the library and of the C entry points
       compare again SORT NUMBER [SEED]              one of the seeded cases once more, shown with both answers
       compare programs ROWS VET [SEED]              the two programs on seeded input
SEED is a whole number below 2^64 that all cases come from; without it it is 0, as in the gate. A case that differs is
shown with the words that ask it again.
";

/// A sort of seeded cases.
struct Sort {
    name: &'static str,
    /// How many there are.
    count: u64,
    /// One in so many is asked where programs are emulated, as far as that takes long.
    slow: u64,
    make: fn(&mut Seed) -> Case,
    /// Whether the C entry points have it too.
    called: bool,
}

const SORTS: &[Sort] = &[
    Sort { name: "frame_read", count: 60_000, slow: 1, make: seeded::frame_read, called: true },
    Sort { name: "frame_write", count: 40_000, slow: 1, make: seeded::frame_write, called: true },
    Sort { name: "package", count: 50_000, slow: 1, make: seeded::package, called: false },
    Sort { name: "reply", count: 80_000, slow: 1, make: seeded::reply, called: true },
    Sort { name: "row", count: 10_000, slow: 1, make: seeded::row, called: true },
    Sort { name: "load", count: 100_000, slow: 1, make: seeded::load, called: false },
    Sort { name: "check", count: 100_000, slow: 2, make: seeded::check, called: true },
    Sort { name: "check_table", count: 20_000, slow: 1, make: seeded::check_table, called: false },
    Sort { name: "run", count: 50_000, slow: 4, make: seeded::run, called: false },
    Sort { name: "run_table", count: 20_000, slow: 1, make: seeded::run_table, called: false },
    Sort { name: "lines", count: 20_000, slow: 1, make: seeded::lines, called: false },
    Sort { name: "content", count: 10_000, slow: 1, make: seeded::content, called: false },
];

/// How many of the seeded cases are asked.
#[derive(Clone, Copy, PartialEq)]
enum Extent {
    All,
    /// What an emulator gets through in some minutes.
    Emulated,
    /// One in a hundred.
    Some,
}

impl Extent {
    fn read(word: &str) -> Extent {
        match word {
            "all" => Extent::All,
            "emulated" => Extent::Emulated,
            "some" => Extent::Some,
            _ => usage(),
        }
    }

    fn of(self, sort: &Sort) -> u64 {
        match self {
            Extent::All => sort.count,
            Extent::Emulated => sort.count / sort.slow,
            Extent::Some => sort.count / 100,
        }
    }
}

/// Every number, fault and stop that the seeded cases must meet at least `LEAST` times.
const NUMBERS: &[&str] = &[
    "01", "02", "03", "04", "05", "10", "11", "12", "13", "14", "15", "16", "17", "18", "19", "20", "21", "22", "23",
    "24", "25", "26", "30", "31", "40", "41", "50", "51", "52", "53", "54", "55", "56", "fault 60", "fault 61",
    "fault 62", "fault 63", "fault 64", "stop 0010", "stop 0028", "waiting", "finished", "budget 0", "budget 1",
    "budget under the count", "budget the count", "budget over the count", "budget the most", "over 64 steps",
];
const LEAST: u64 = 50;
/// How many of the replies must be such with scans.
const LEAST_WITH_SCANS: u64 = 50_000;
const SHOWN: usize = 3;
/// How many cases a program is asked at one start, and how many programs run beside each other.
const AT_ONCE: usize = 4000;
const WORKERS: usize = 2;

fn main() {
    let words: Vec<String> = std::env::args().skip(1).collect();
    let words: Vec<&str> = words.iter().map(String::as_str).collect();
    let failed = match words[..] {
        ["--help"] => return print!("{USAGE}"),
        ["cases"] => return answer_cases(false),
        ["cases", "states"] => return answer_cases(true),
        ["examples"] => named_cases(),
        ["seeded", extent, ref seed @ ..] => seeded_cases(Extent::read(extent), seed_of(seed)),
        ["again", sort, number, ref seed @ ..] => ask_again(sort, number_of(number), seed_of(seed)),
        ["programs", rows, vet, ref seed @ ..] => {
            let seed = seed_of(seed);
            programs::rows(rows.as_ref(), seed) + programs::vet(vet.as_ref(), seed)
        }
        _ => usage(),
    };
    if failed > 0 {
        exit(1);
    }
}

fn usage() -> ! {
    eprint!("{USAGE}");
    exit(2);
}

fn number_of(word: &str) -> u64 {
    word.parse().unwrap_or_else(|_| usage())
}

/// The seed of all cases, 0 where none is given.
fn seed_of(words: &[&str]) -> u64 {
    match words {
        [] => 0,
        [seed] => number_of(seed),
        _ => usage(),
    }
}

/// Which of the seeded cases one is, or follows from.
#[derive(Clone, Copy)]
struct Made {
    sort: &'static str,
    number: u64,
    seed: u64,
}

impl Made {
    fn say(&self) {
        let Made { sort, number, seed } = self;
        println!("from {sort} {number} of seed {seed}: tests/run again {sort} {number} {seed}");
    }
}

/// A case that was answered otherwise than the second program expects.
struct Difference {
    made: Option<Made>,
    case: Case,
    expected: String,
    answer: String,
}

impl Difference {
    fn show(&self) {
        let Difference { made, case, expected, answer } = self;
        made.iter().for_each(Made::say);
        println!("{}\nsecond program:\n{expected}\nproved code:\n{answer}", write_case(case));
    }
}

/// Cases that are asked at one start, and on which of all so far the answers differ.
struct Batch<'a> {
    whom: &'a dyn Answering,
    cases: Vec<Case>,
    /// Where each of the cases comes from.
    made: Vec<Option<Made>>,
    different: Vec<Difference>,
}

impl<'a> Batch<'a> {
    fn of(whom: &'a dyn Answering) -> Batch<'a> {
        Batch { whom, cases: Vec::new(), made: Vec::new(), different: Vec::new() }
    }

    fn take(&mut self, cases: Vec<Case>, made: Option<Made>) {
        self.made.resize(self.made.len() + cases.len(), made);
        self.cases.extend(cases);
        if self.cases.len() >= AT_ONCE {
            self.ask();
        }
    }

    fn ask(&mut self) {
        let (cases, made) = (std::mem::take(&mut self.cases), std::mem::take(&mut self.made));
        let answers = self.whom.answers(&cases);
        for ((case, made), answer) in cases.into_iter().zip(made).zip(answers) {
            let expected = self.whom.expected(&case);
            if answer != expected {
                self.different.push(Difference { made, case, expected, answer });
            }
        }
    }

    /// Asks what is left, and gives all that differ.
    fn end(mut self) -> Vec<Difference> {
        self.ask();
        self.different
    }
}

/// Answers the cases of standard input, each answer ended by an empty line.
fn answer_cases(states: bool) {
    let mut text = String::new();
    std::io::stdin().read_to_string(&mut text).expect("standard input is text");
    let cases = text.split("\n\n").filter(|case| !case.trim().is_empty());
    let cases: Vec<Case> = cases.map(|case| read_case(case).unwrap_or_else(|| refuse("not a case", case))).collect();
    let library = Program::of_library();
    for cases in cases.chunks(AT_ONCE) {
        if let Some(long) = cases.iter().find(|case| !fits(case)) {
            refuse("a case of more text than can be asked", &write_case(long));
        }
        for (case, answer) in cases.iter().zip(library.answers(cases)) {
            if matches!(case, Case::Reply { rows, .. } if *rows > ROWS) && answer.starts_with("result=54\n") {
                refuse("more rows than can be lent here", &write_case(case));
            }
            println!("{}", as_asked(&answer, states));
        }
    }
}

fn refuse(why: &str, case: &str) -> Case {
    eprintln!("{why}:\n{case}");
    exit(2);
}

/// Runs the cases by name, by the C entry points too where they answer such a case; says how many failed.
fn named_cases() -> usize {
    let examples = examples::all();
    let library = Program::of_library();
    let mut batch = Batch::of(&library);
    let mut failed = 0;
    for example in &examples {
        let second = as_asked(&answer(&example.case), false);
        if example.expected.as_ref().is_some_and(|known| *known != second) {
            failed += 1;
            println!("{}\nexpected:\n{}", write_case(&example.case), example.expected.as_deref().unwrap_or(""));
        }
        batch.take(asked(&example.case, &mut Hits::default()), None);
    }
    let mut different = batch.end();
    for whom in &in_c() {
        let mut batch = Batch::of(&**whom);
        for example in examples.iter().filter(|example| is_called(&example.case)) {
            batch.take(asked_in_c(&example.case), None);
        }
        different.extend(batch.end());
    }
    different.iter().take(SHOWN).for_each(Difference::show);
    failed += different.len();
    println!("cases by name: {}, {failed} failed", examples.len());
    failed
}

/// Compares the seeded cases; says how many failed.
fn seeded_cases(extent: Extent, seed: u64) -> usize {
    let mut hits = Hits::default();
    let mut failed = 0;
    let library = Program::of_library();
    let from_c = in_c();
    if seed != 0 {
        println!("all cases from seed {seed}");
    }
    for (place, sort) in SORTS.iter().enumerate() {
        let seeds = Seeds { seed, sort: place as u64, count: extent.of(sort) };
        failed += sort.compare(&seeds, &library, asked, &mut hits);
        for whom in from_c.iter().filter(|_| sort.called) {
            failed += sort.compare(&seeds, &**whom, from_c_alone, &mut Hits::default());
        }
    }
    if extent == Extent::Some {
        println!("so few cases that it is not asked how often each number was met");
        return failed;
    }
    failed + seldom(&hits)
}

/// What the C entry points are asked for a case.
fn from_c_alone(case: &Case, _: &mut Hits) -> Vec<Case> {
    asked_in_c(case)
}

/// Asks one of the seeded cases, and what follows from it, once more; shows all, and says how many answers differ.
fn ask_again(name: &str, number: u64, seed: u64) -> usize {
    let Some(place) = SORTS.iter().position(|sort| sort.name == name) else { usage() };
    let sort = &SORTS[place];
    let case = (sort.make)(&mut Seed::of(seed, place as u64, number));
    let mut failed = show_all(&Program::of_library(), asked(&case, &mut Hits::default()));
    for whom in in_c().iter().filter(|_| sort.called) {
        failed += show_all(&**whom, asked_in_c(&case));
    }
    failed
}

/// Shows the cases with both answers; says how many differ.
fn show_all(whom: &dyn Answering, cases: Vec<Case>) -> usize {
    let mut failed = 0;
    let answers = whom.answers(&cases);
    for (case, answer) in cases.into_iter().zip(answers) {
        let expected = whom.expected(&case);
        let differ = answer != expected;
        failed += usize::from(differ);
        println!("{}: {}", whom.name(), if differ { "different" } else { "alike" });
        Difference { made: None, case, expected, answer }.show();
    }
    failed
}

/// Who answers for the C entry points: a C program, and this program itself where it is linked with them.
fn in_c() -> Vec<Box<dyn Answering>> {
    let from_c: Box<dyn Answering> = Box::new(Program::of_c());
    #[cfg(linked)]
    return vec![from_c, Box::new(compare::called::Linked)];
    #[cfg(not(linked))]
    {
        println!("the C entry points are asked from C alone: their archive can't be linked here");
        vec![from_c]
    }
}

/// How many numbers were met too seldom.
fn seldom(hits: &Hits) -> usize {
    let mut failed = 0;
    let numbers = NUMBERS.iter().map(|what| (*what, LEAST));
    for (what, least) in numbers.chain([(WITH_SCANS, LEAST_WITH_SCANS)]) {
        let met = hits.0.get(what).copied().unwrap_or(0);
        let enough = met >= least;
        println!("{what}: met {met} times{}", if enough { "" } else { ", too seldom" });
        failed += usize::from(!enough);
    }
    failed
}

/// The seeds of one sort's cases: the seed of all, the sort's place among the sorts, and how many there are.
struct Seeds {
    seed: u64,
    sort: u64,
    count: u64,
}

impl Sort {
    /// Says on how many of the cases, and of those that follow from them, the answers differ, and shows some.
    fn compare(&self, seeds: &Seeds, whom: &dyn Answering, follow: Follow, hits: &mut Hits) -> usize {
        let start = Instant::now();
        let mut different = Vec::new();
        std::thread::scope(|scope| {
            let part = |first| scope.spawn(move || self.part(seeds, first, whom, follow));
            let workers: Vec<_> = (0..WORKERS as u64).map(part).collect();
            for worker in workers {
                let (differ, met) = worker.join().expect("no worker panics");
                different.extend(differ);
                hits.add(&met);
            }
        });
        let seconds = start.elapsed().as_secs_f32();
        let (name, count, whom) = (self.name, seeds.count, whom.name());
        println!("{name}: {count} seeded cases, {} different, {seconds:.1} s ({whom})", different.len());
        different.iter().take(SHOWN).for_each(Difference::show);
        different.len()
    }

    /// One worker's part.
    fn part(&self, seeds: &Seeds, first: u64, whom: &dyn Answering, follow: Follow) -> (Vec<Difference>, Hits) {
        let mut hits = Hits::default();
        let mut batch = Batch::of(whom);
        for number in (first..seeds.count).step_by(WORKERS) {
            let made = Made { sort: self.name, number, seed: seeds.seed };
            let case = || follow(&(self.make)(&mut Seed::of(seeds.seed, seeds.sort, number)), &mut hits);
            let cases = catch_unwind(AssertUnwindSafe(case)).unwrap_or_else(|panic| {
                made.say();
                resume_unwind(panic)
            });
            batch.take(cases, Some(made));
        }
        (batch.end(), hits)
    }
}

/// The cases that are asked for one that was made.
type Follow = fn(&Case, &mut Hits) -> Vec<Case>;
