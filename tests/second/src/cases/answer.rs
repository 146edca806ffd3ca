//! What the second program answers to a case.
//!
//! Beside the answer proper stand lines that only the comparison wants: what lent memory holds, what another function
//! says of the same bytes, what is left over where nothing should be.

use std::fmt::Write;

use super::{write_case, Case, ALONE, ARITHMETIC};
use crate::machine::{Answer, Machine, Ran, State, Stepped, Thing, MOST_STEPS};
use crate::package::{self, Number, Part};
use crate::reply::{self, Reply, Row, EMPTY, ROWS};
use crate::table::{Condition, Item, Operand, Table, MOST_BOXES};
use crate::value::{Value, COMPARISONS};
use crate::{frame, load, rules, Lines, Refusal};

/// How many bytes are lent at the most, and what they are where the case's own text is too long to be laid in them.
const MOST_LENT: usize = 4096;
const BEFORE: u8 = 165;

/// No more of a reply is read there, one byte over the longest.
const MOST_READ: usize = 65_537;

/// The keys of the lines beside an answer, and that of the states of a run that goes on.
const BESIDE: [&str; 6] = ["host=", "lent=", "kept=", "judged=", "spare=", "keeps="];
const STATE: &str = "state=";

/// The answer as a caller asks for it: without the lines beside it, and with the states of a run or without.
pub fn as_asked(answer: &str, states: bool) -> String {
    let is_beside = |line: &str| BESIDE.iter().any(|key| line.starts_with(key)) || !states && line.starts_with(STATE);
    answer.split_inclusive('\n').filter(|line| !is_beside(line)).collect()
}

/// The answer to a case, with the lines beside it.
pub fn answer(case: &Case) -> String {
    match case {
        Case::FrameRead { line, expected } => match frame::read(line, *expected) {
            Ok((length, next)) => format!("result=0\ncontent={}\nnext={next:02X}\n", hex(&line[..length])),
            Err(refusal) => refused(refusal),
        },
        Case::FrameWrite { content, number, buffer } => {
            let mut lent = lent_before(case, *buffer);
            let said = match frame::write(content, *number, &mut lent) {
                Ok((length, next)) => format!("result=0\nbytes={}\nhost={next:02X}\n", hex(&lent[..length])),
                Err(refusal) => refused(refusal),
            };
            format!("{said}lent={}\n", hex(&lent))
        }
        Case::Load { script } => {
            let said = load::load(script).map_or_else(refused, |table| format!("result=0\n{}", write_table(&table)));
            format!("{said}spare=0\n")
        }
        Case::Check { script } => verdict(rules::check_text(script)),
        Case::CheckTable { length, table } => verdict(rules::check(table, *length)),
        Case::Table { table } => write_table(table),
        Case::Run { script, steps } => match load::load(script) {
            Ok(table) => {
                let run = Machine::new(&table, script.len()).steps(&State::default(), steps);
                format!("{}spare=0\n", write_run(&run))
            }
            Err(refusal) => refused(refusal),
        },
        Case::RunTable { length, table, state, steps } => {
            let run = Machine::new(table, *length).steps(state, steps);
            let untouched = run.iter().take_while(|step| stays(state, step.answer)).count();
            format!("{}spare={}\n", write_run(&run), untouched * spare_boxes(state))
        }
        Case::RunWithin { length, table, state, steps, budget } => {
            let ran = Machine::new(table, *length).run(state, steps, *budget);
            let untouched = ran.answers.iter().all(|(answer, _)| stays(state, *answer));
            format!("{}spare={}\n", write_ran(&ran), if untouched { spare_boxes(state) } else { 0 })
        }
        Case::RunSafe { script, steps } => match rules::check_text(script).and_then(|()| load::load(script)) {
            Ok(table) => {
                let ran = Machine::new(&table, script.len()).run(&State::default(), steps, MOST_STEPS);
                format!("{}spare=0\n", write_ran(&ran))
            }
            Err(refusal) => refused(refusal),
        },
        Case::Package { bytes } => {
            let read = package::read(bytes);
            let judged = match &read {
                Ok(_) => "0".into(),
                Err(refusal) => format!("{} {}", refusal.number, refusal.place),
            };
            format!("{}judged={judged}\nspare=0\n", read.map_or_else(refused, |parts| write_parts(&parts)))
        }
        Case::Reply { rows, bytes } => {
            let mut lent = vec![EMPTY; *rows];
            let answer = reply::read(bytes, &mut lent);
            let written = answer.as_ref().map_or(0, |reply| reply.rows);
            let before = rows_before(*rows, bytes);
            format!("{}kept={before} {}\n", listing(answer, &lent), (ROWS - before).saturating_sub(written))
        }
        Case::Row { row, bytes } => match reply::row(bytes, *row) {
            Ok(row) => format!("result=0\n{}", write_row(&row)),
            Err(refusal) => refused_at_line(refusal),
        },
        Case::Lines { bytes } => write_lines(bytes),
        Case::Content { line, length } => format!("content={}\n", hex(&line[..line.len().min(*length)])),
    }
}

/// How many of 1,024 rows stand in front of those that are lent: the reply's length says where the lent part lies.
fn rows_before(lent: usize, reply: &[u8]) -> usize {
    (reply.len().min(MOST_READ) % ROWS).min(ROWS - lent.min(ROWS))
}

/// Where a new reader of lines stands, then each line by its place, where the reader stands behind it, and its bytes;
/// twice, that there is none.
fn write_lines(bytes: &[u8]) -> String {
    let mut lines = Lines::of(bytes);
    let mut text = format!("at={}\n", lines.at());
    let mut none = 0;
    while none < 2 {
        let start = lines.at();
        match lines.next() {
            Some(line) => {
                let (end, at) = (start + line.len(), lines.at());
                text += &format!("start={start} end={end} at={at} line={}\n", hex(line));
            }
            None => {
                none += 1;
                text += &format!("none at={}\n", lines.at());
            }
        }
    }
    text
}

/// What a lent buffer holds before it is lent: the case's own text, so that hardly a byte is like the next.
pub fn lent_before(case: &Case, length: usize) -> Vec<u8> {
    let mut lent = vec![BEFORE; MOST_LENT];
    let text = write_case(case);
    let text = text.trim_end().as_bytes();
    if text.len() <= MOST_LENT {
        lent[..text.len()].copy_from_slice(text);
    }
    lent.truncate(length);
    lent
}

/// Whether a step leaves the state as it was, but for the control of a wait: it is refused or waits, or the run has
/// ended before it. As long as only such steps are taken, the state before the first says whether it has.
fn stays(before: &State, answer: Answer) -> bool {
    before.ended.is_some() || matches!(answer, Answer::Waiting | Answer::Refused(_))
}

/// How many places for open boxes a state leaves unused. The proved code is handed something in each of them, which
/// stays where the whole state does, and is gone after any step that runs an item.
fn spare_boxes(state: &State) -> usize {
    MOST_BOXES.saturating_sub(state.boxes.len())
}

fn refused(refusal: Refusal) -> String {
    format!("result={}\nplace={}\n", refusal.number, refusal.place)
}

fn refused_at_line(refusal: Refusal) -> String {
    format!("result={}\nline={}\n", refusal.number, refusal.place)
}

fn verdict(verdict: Result<(), Refusal>) -> String {
    verdict.map_or_else(refused, |()| "result=0\n".into())
}

/// The listing that the program of rows writes.
pub fn listing(answer: Result<Reply, Refusal>, rows: &[Row]) -> String {
    match answer {
        Err(refusal) => refused_at_line(refusal),
        Ok(reply) => {
            let mut text = format!("result=0\ncode={:04X}\nused={}\nrows={}\n", reply.code, reply.used, reply.rows);
            for (number, row) in rows.iter().take(reply.rows).enumerate() {
                text += &format!("row={number}\n{}", write_row(row));
            }
            text
        }
    }
}

fn write_row(row: &Row) -> String {
    let Row { kind, mark, parent, packages } = row;
    format!("kind={}\nmark={mark:04X}\nparent={parent}\npackages={packages}\n", *kind as char)
}

fn write_parts(parts: &[Part]) -> String {
    let meta = |number: Option<u32>| number.map_or("-".into(), |number| number.to_string());
    let mut text = format!("result=0\nparts={}\n", parts.len());
    for (place, part) in parts.iter().enumerate() {
        let number = match part.number {
            Number::Float(whole, exponent) => format!("f{whole}e{exponent}"),
            Number::Integer(whole) => format!("i{whole}"),
            Number::Invalid => "nan".into(),
        };
        let (status, range, noise) = (meta(part.status), meta(part.range), meta(part.noise));
        text += &format!(
            "part={} type={:04X} value={number} status={status} range={range} noise={noise}\n",
            place + 1,
            part.kind
        );
    }
    text
}

fn write_run(run: &[Stepped]) -> String {
    let mut text = String::new();
    for (place, step) in run.iter().enumerate() {
        let things = joined(step.things.iter().map(write_thing));
        text += &format!("step={} answer={} things={things}\n", place + 1, write_answer(step.answer));
        text += &write_left(&step.state);
    }
    text
}

fn write_ran(ran: &Ran) -> String {
    let answers = joined(ran.answers.iter().map(|(answer, things)| format!("{}/{things}", write_answer(*answer))));
    let things = joined(ran.things.iter().map(write_thing));
    format!("answers={answers}\nthings={things}\n{}", write_left(&ran.state))
}

/// The line of the state that a step left; of a run that has ended, beside the answer, what it keeps and how it ended.
fn write_left(state: &State) -> String {
    match state.ended {
        None => write_state(state),
        Some(answer) => format!("keeps={} status={}\n", state_words(state), write_answer(answer)),
    }
}

pub(super) fn write_answer(answer: Answer) -> String {
    match answer {
        Answer::Running => "running".into(),
        Answer::Waiting => "waiting".into(),
        Answer::Finished => "finished".into(),
        Answer::Stopped(code) => format!("stopped:{code:04X}"),
        Answer::Fault(number) => format!("fault:{number}"),
        Answer::Refused(number) => format!("refused:{number}"),
    }
}

fn write_thing(thing: &Thing) -> String {
    match thing {
        Thing::SweepMark => "M0000".into(),
        Thing::LoopMark => "L".into(),
        Thing::SweepEnd => "*".into(),
        Thing::LoopEnd => "+".into(),
        Thing::Start => "start".into(),
        Thing::Part(kind, value) => format!("part:{kind:04X}:{}", write_value(value)),
        Thing::End => "end".into(),
        Thing::Text(start, end) => format!("text:{start}:{end}"),
        Thing::Wait(value) => format!("wait:{}", &write_value(value)[1..]),
        Thing::SetE(value) => format!("set_e:{}", &write_value(value)[1..]),
        Thing::SetPgstatMode(mode) => format!("set_pgstat_mode:{mode}"),
        Thing::CellOn => "cell_on".into(),
        Thing::CellOff => "cell_off".into(),
    }
}

pub(super) fn write_state(state: &State) -> String {
    format!("{STATE}{}\n", state_words(state))
}

fn state_words(state: &State) -> String {
    let boxes = joined(state.boxes.iter().map(usize::to_string));
    let values = state.values.iter().enumerate().filter_map(|(name, written)| Some((name, (*written)?)));
    let values = joined(values.map(|(name, (value, kind))| format!("{name}:{}:{kind:04X}", write_value(&value))));
    let (abort, skip, package) = (u8::from(state.abort), u8::from(state.skip), u8::from(state.package));
    format!("{} boxes={boxes} abort={abort} skip={skip} package={package} values={values}", state.at)
}

/// The parts joined by commas, `-` for none.
fn joined(parts: impl Iterator<Item = String>) -> String {
    let parts: Vec<String> = parts.collect();
    if parts.is_empty() {
        return "-".into();
    }
    parts.join(",")
}

pub(super) fn write_table(table: &Table) -> String {
    let mut text = format!("names={}\nend={}\nitems={}\n", table.names, table.end, table.count);
    for slot in &table.slots {
        text += &format!("item={} {}\n", slot.line, write_item(&slot.item));
    }
    text
}

fn write_item(item: &Item) -> String {
    match item {
        Item::Var(name) => format!("var v{name}"),
        Item::StoreVar(name, value, kind) => format!("store_var v{name} {} t{kind:04X}", write_value(value)),
        Item::CopyVar(source, target) => format!("copy_var v{source} v{target}"),
        Item::Arithmetic(operation, name, operand) => {
            format!("{} v{name} {}", word_of(&ARITHMETIC, operation), write_operand(operand))
        }
        Item::If(condition) => format!("if {}", write_condition(condition)),
        Item::ElseIf(condition) => format!("elseif {}", write_condition(condition)),
        Item::Loop(condition) => format!("loop {}", write_condition(condition)),
        Item::MeasLoopLsv(first, second, operands) => {
            let operands: Vec<String> = operands.iter().map(write_operand).collect();
            format!("meas_loop_lsv v{first} v{second} {}", operands.join(" "))
        }
        Item::Meas(operand, name, kind) => format!("meas {} v{name} t{kind:04X}", write_operand(operand)),
        Item::TimerGet(name) => format!("timer_get v{name}"),
        Item::PckAdd(name) => format!("pck_add v{name}"),
        Item::SendString(start, end) => format!("send_string s{start}:{end}"),
        Item::Wait(operand) => format!("wait {}", write_operand(operand)),
        Item::SetE(operand) => format!("set_e {}", write_operand(operand)),
        Item::SetPgstatMode(mode) => format!("set_pgstat_mode n{mode}"),
        alone => word_of(&ALONE, alone).into(),
    }
}

fn word_of<T: PartialEq>(words: &[(&'static str, T)], sought: &T) -> &'static str {
    words.iter().find(|(_, known)| known == sought).map_or("", |&(word, _)| word)
}

fn write_condition(condition: &Condition) -> String {
    let sign = word_of(&COMPARISONS, &condition.comparison);
    format!("{} o{sign} {}", write_operand(&condition.left), write_operand(&condition.right))
}

fn write_operand(operand: &Operand) -> String {
    match operand {
        Operand::Name(name) => format!("v{name}"),
        Operand::Literal(value) => write_value(value),
    }
}

fn write_value(value: &Value) -> String {
    match value {
        Value::Whole(whole) => format!("i{whole}"),
        Value::Real(x) => format!("f{}", write_float(*x)),
    }
}

/// A float's bits. All NaN are one, since the proved code cannot tell one from another.
pub(super) fn write_float(x: f64) -> String {
    let bits = if x.is_nan() { 0x7FF8_0000_0000_0000 } else { x.to_bits() };
    format!("{bits:016X}")
}

pub(super) fn hex(bytes: &[u8]) -> String {
    let mut text = String::with_capacity(2 * bytes.len());
    for byte in bytes {
        let _ = write!(text, "{byte:02X}");
    }
    text
}

#[cfg(test)]
mod tests {
    use super::super::read_case;
    use super::*;

    /// What is kept by the last of these steps, in a sweep whose names hold 1 and 2 and whose body has one item.
    fn kept(item: &str, told: &str) -> String {
        let zeros = ["f0000000000000000"; 4].join(" ");
        let table = format!("names=2\nend=9\nitems=3\nitem=1 meas_loop_lsv v0 v1 {zeros}\nitem=2 {item}\n");
        let point = "3FF0000000000000 4000000000000000";
        let state = "state=0 boxes=- abort=0 skip=0 package=0 values=-\nended=-\nsteps=2\n";
        let case = format!("op=run_table\nlength=0\n{table}item=3 endloop\n{state}do=none point {point}\ndo={told}\n");
        let answer = answer(&read_case(&case).expect("a case"));
        answer.lines().find_map(|line| line.strip_prefix("keeps=")).expect("an ended run").into()
    }

    const NAMES: &str = "values=0:f3FF0000000000000:6461,1:f4000000000000000:6261";

    #[test]
    fn a_stop_changes_no_name() {
        let stopped = format!("1 boxes=0 abort=0 skip=0 package=0 {NAMES} status=stopped:0010");
        assert_eq!(kept("meas f0000000000000000 v0 t0000", "none float 7FF0000000000000"), stopped);
        let divided = format!("1 boxes=0 abort=0 skip=1 package=0 {NAMES} status=stopped:0028");
        assert_eq!(kept("div_var v0 f0000000000000000", "Y nothing"), divided);
    }

    #[test]
    fn a_fault_keeps_the_control() {
        let fault = format!("1 boxes=0 abort=1 skip=0 package=0 {NAMES} status=fault:64");
        assert_eq!(kept("pck_end", "Z nothing"), fault);
        let fault = format!("1 boxes=0 abort=0 skip=1 package=0 {NAMES} status=fault:61");
        assert_eq!(kept("wait i1", "Y float 0000000000000000"), fault);
    }
}
