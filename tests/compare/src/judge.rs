//! What is asked of the proved code for one case, and how often each number was met.

use second::cases::Case;
use second::machine::{Answer, Machine, Ran, State, Stepped, Steps, MOST_STEPS};
use second::reply::EMPTY;
use second::scans::{any_mark, lines_met};
use second::table::{Table, MOST_ITEMS};
use second::{frame, load, package, reply, rules, Refusal};

use crate::handed::reply_of;

/// What a reply counts as in which a reader comes as far as a mark of a scan.
pub const WITH_SCANS: &str = "reply with scans";

/// How often each number, fault and stop was met.
#[derive(Default, Clone)]
pub struct Hits(pub std::collections::BTreeMap<String, u64>);

impl Hits {
    fn count(&mut self, what: String) {
        *self.0.entry(what).or_default() += 1;
    }

    fn refusal<T>(&mut self, answer: &Result<T, Refusal>) {
        if let Err(refusal) = answer {
            self.count(format!("{:02}", refusal.number));
        }
    }

    fn run(&mut self, run: &[Stepped]) {
        let mut last = None;
        for step in run {
            match step.answer {
                Answer::Refused(number) => self.count(format!("{number}")),
                answer if last == Some(answer) => {}
                Answer::Fault(number) => self.count(format!("fault {number}")),
                Answer::Stopped(code) => self.count(format!("stop {code:04X}")),
                Answer::Finished => self.count("finished".into()),
                Answer::Waiting => self.count("waiting".into()),
                Answer::Running => {}
            }
            last = Some(step.answer);
        }
    }

    pub fn add(&mut self, other: &Hits) {
        for (what, count) in &other.0 {
            *self.0.entry(what.clone()).or_default() += count;
        }
    }
}

/// The case itself and those that follow from it.
pub fn asked(case: &Case, hits: &mut Hits) -> Vec<Case> {
    let mut asked = vec![case.clone()];
    match case {
        Case::FrameRead { line, expected } => hits.refusal(&frame::read(line, *expected)),
        Case::FrameWrite { content, number, buffer } => {
            hits.refusal(&frame::write(content, *number, &mut vec![0; *buffer]));
        }
        Case::Load { script } => hits.refusal(&load::load(script)),
        Case::Check { script } => hits.refusal(&rules::check_text(script)),
        Case::CheckTable { length, table } => {
            hits.refusal(&rules::check(table, *length));
            // A table with a count of its own is not given back as it was.
            if table.count == table.slots.len() && table.count <= MOST_ITEMS {
                asked.push(Case::Table { table: table.clone() });
            }
        }
        Case::Run { script, steps } => asked.extend(of_run(script, steps, hits)),
        Case::RunTable { length, table, state, steps } => {
            let run = Machine::new(table, *length).steps(state, steps);
            hits.run(&run);
            asked.push(within(*length, table, state, steps, &run, hits));
        }
        Case::Package { bytes } => hits.refusal(&package::read(bytes)),
        Case::Reply { rows, bytes } => {
            let answer = reply::read(bytes, &mut vec![EMPTY; *rows]);
            hits.refusal(&answer);
            if any_mark(&lines_met(bytes, &answer)) {
                hits.count(WITH_SCANS.into());
            }
        }
        Case::Row { row, bytes } => hits.refusal(&reply::row(bytes, *row)),
        Case::Table { .. } | Case::RunWithin { .. } | Case::RunSafe { .. } => {}
        Case::Lines { .. } | Case::Content { .. } => {}
    }
    asked
}

/// What follows from the run of a script: the reply that it makes, and its steps at one asking.
fn of_run(script: &[u8], steps: &Steps, hits: &mut Hits) -> Vec<Case> {
    let mut asked = vec![Case::RunSafe { script: script.to_vec(), steps: steps.to_vec() }];
    let table = load::load(script);
    hits.refusal(&table);
    if let Ok(table) = table {
        let fresh = State::default();
        let run = Machine::new(&table, script.len()).steps(&fresh, steps);
        hits.run(&run);
        assert!(rules::check_text(script).is_err() || never_faults(&run), "an accepted script never stops half way");
        asked.push(as_reply(script, &run));
        asked.push(within(script.len(), &table, &fresh, steps, &run, hits));
    }
    asked
}

/// What an accepted script is promised: neither 30 nor a fault, whatever was offered.
fn never_faults(run: &[Stepped]) -> bool {
    run.iter().all(|step| !matches!(step.answer, Answer::Fault(_) | Answer::Refused(30)))
}

/// What the run handed out, put together as a reply, which must be read with a row for each loop.
fn as_reply(script: &[u8], run: &[Stepped]) -> Case {
    let (bytes, rows) = reply_of(script, run);
    let mut read = vec![EMPTY; rows.len()];
    assert!(reply::read(&bytes, &mut read).is_ok() && read == rows, "a run's own reply is read");
    Case::Reply { rows: rows.len(), bytes }
}

/// The steps taken at one asking, which must come to what they come to one by one.
fn within(length: usize, table: &Table, state: &State, steps: &Steps, run: &[Stepped], hits: &mut Hits) -> Case {
    let (budget, what) = budget_of(length, steps.len());
    hits.count(format!("budget {what}"));
    if steps.len() > MOST_STEPS {
        hits.count("over 64 steps".into());
    }
    let ran = Machine::new(table, length).run(state, steps, budget);
    assert!(ran == first_of(state, run, budget), "steps at one asking are steps one by one");
    Case::RunWithin { length, table: table.clone(), state: state.clone(), steps: steps.to_vec(), budget }
}

/// A budget, which differs from case to case, and how it stands to the count.
fn budget_of(length: usize, count: usize) -> (usize, &'static str) {
    match (length + count) % 6 {
        0 => (0, "0"),
        1 => (1, "1"),
        2 => (count / 2, "under the count"),
        3 => (count, "the count"),
        4 => (count + 1, "over the count"),
        _ => (usize::MAX, "the most"),
    }
}

/// What the first steps of a run came to, as many as the budget allows and 64 at most.
fn first_of(state: &State, run: &[Stepped], budget: usize) -> Ran {
    let run = &run[..run.len().min(budget).min(MOST_STEPS)];
    Ran {
        state: run.last().map_or(state, |step| &step.state).clone(),
        answers: run.iter().map(|step| (step.answer, step.things.len())).collect(),
        things: run.iter().flat_map(|step| step.things.clone()).collect(),
    }
}
