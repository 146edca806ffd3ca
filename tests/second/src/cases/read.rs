//! Cases read from text.

use super::answer::write_answer;
use super::{Case, ALONE, ARITHMETIC};
use crate::machine::{Answer, Control, Offer, State};
use crate::table::{Condition, Item, Operand, Slot, Table, Type, MOST_ITEMS, MOST_NAMES};
use crate::value::{Comparison, Value, NOT_FINITE, ZERO_DIVISOR};

/// The lines of one case, read in order.
struct Fields<'a> {
    lines: std::iter::Peekable<std::str::Lines<'a>>,
}

/// Reads one case from its lines.
pub fn read_case(text: &str) -> Option<Case> {
    let mut fields = Fields { lines: text.lines().peekable() };
    let case = match fields.take("op")? {
        "frame_read" => Case::FrameRead { line: fields.bytes("line")?, expected: fields.byte("expected")? },
        "frame_write" => Case::FrameWrite {
            content: fields.bytes("content")?,
            number: fields.byte("number")?,
            buffer: fields.number("buffer")?,
        },
        "load" => Case::Load { script: fields.bytes("script")? },
        "check" => Case::Check { script: fields.bytes("script")? },
        "run" => Case::Run { script: fields.bytes("script")?, steps: fields.steps()? },
        "check_table" => Case::CheckTable { length: fields.number("length")?, table: fields.table()? },
        "run_table" => Case::RunTable {
            length: fields.number("length")?,
            table: fields.table()?,
            state: fields.state()?,
            steps: fields.steps()?,
        },
        "run_within" => {
            let budget = fields.number("budget")?;
            let (length, table) = (fields.number("length")?, fields.table()?);
            Case::RunWithin { length, table, state: fields.state()?, steps: fields.steps()?, budget }
        }
        "run_safe" => Case::RunSafe { script: fields.bytes("script")?, steps: fields.steps()? },
        "table" => Case::Table { table: fields.table()? },
        "package" => Case::Package { bytes: fields.bytes("bytes")? },
        "reply" => Case::Reply { rows: fields.number("rows")?, bytes: fields.bytes("bytes")? },
        "row" => Case::Row { row: fields.number("row")?, bytes: fields.bytes("bytes")? },
        "lines" => Case::Lines { bytes: fields.bytes("bytes")? },
        "content" => Case::Content { line: fields.bytes("line")?, length: fields.number("length")? },
        _ => return None,
    };
    fields.lines.next().is_none().then_some(case)
}

impl<'a> Fields<'a> {
    fn take(&mut self, key: &str) -> Option<&'a str> {
        self.lines.next()?.strip_prefix(key)?.strip_prefix('=')
    }

    /// The value of the next line if it has this key.
    fn more(&mut self, key: &str) -> Option<&'a str> {
        let value = self.lines.peek()?.strip_prefix(key)?.strip_prefix('=')?;
        self.lines.next();
        Some(value)
    }

    fn number(&mut self, key: &str) -> Option<usize> {
        self.take(key)?.parse().ok()
    }

    fn byte(&mut self, key: &str) -> Option<u8> {
        u8::from_str_radix(self.take(key)?, 16).ok()
    }

    fn bytes(&mut self, key: &str) -> Option<Vec<u8>> {
        let digits = self.take(key)?;
        if !digits.is_ascii() || digits.len() % 2 != 0 {
            return None;
        }
        (0..digits.len()).step_by(2).map(|at| u8::from_str_radix(&digits[at..at + 2], 16).ok()).collect()
    }

    fn table(&mut self) -> Option<Table> {
        let (names, end, count) = (self.number("names")?, self.number("end")?, self.number("items")?);
        let mut slots = Vec::new();
        while let Some(text) = self.more("item") {
            let (line, item) = text.split_once(' ')?;
            slots.push(Slot { item: read_item(item)?, line: line.parse().ok()? });
        }
        (count > MOST_ITEMS || slots.len() == count).then_some(Table { names, end, count, slots })
    }

    fn state(&mut self) -> Option<State> {
        let mut words = self.take("state")?.split(' ');
        let at = words.next()?.parse().ok()?;
        let mut field = |key: &str| words.next()?.strip_prefix(key)?.strip_prefix('=');
        let boxes = listed(field("boxes")?).map(|open| open.parse().ok()).collect::<Option<Vec<usize>>>()?;
        let (abort, skip, package) = (field("abort")? == "1", field("skip")? == "1", field("package")? == "1");
        let mut values = [None; MOST_NAMES];
        for written in listed(field("values")?) {
            let mut parts = written.split(':');
            let name: usize = parts.next()?.parse().ok()?;
            *values.get_mut(name)? = Some((read_value(parts.next()?)?, read_type(parts.next()?)?));
        }
        let ended = match self.take("ended")? {
            "-" => None,
            answer => Some(read_end(answer)?),
        };
        Some(State { at, boxes, values, abort, skip, package, ended })
    }

    fn steps(&mut self) -> Option<Vec<(Control, Offer)>> {
        let count = self.number("steps")?;
        let steps: Vec<_> = std::iter::from_fn(|| self.more("do").map(read_step)).collect::<Option<_>>()?;
        (steps.len() == count).then_some(steps)
    }
}

fn listed(text: &str) -> impl Iterator<Item = &str> {
    text.split(',').filter(|&part| part != "-")
}

fn read_step(text: &str) -> Option<(Control, Offer)> {
    let mut words = text.split(' ');
    let control = match words.next()? {
        "none" => Control::None,
        "Z" => Control::Z,
        "Y" => Control::Y,
        _ => return None,
    };
    let offer = match words.next()? {
        "nothing" => Offer::Nothing,
        "float" => Offer::Float(read_float(words.next()?)?),
        "point" => Offer::Point(read_float(words.next()?)?, read_float(words.next()?)?),
        "done" => Offer::Done,
        _ => return None,
    };
    words.next().is_none().then_some((control, offer))
}

/// The answer with which a run has ended.
fn read_end(text: &str) -> Option<Answer> {
    let ends = [Answer::Finished, Answer::Stopped(ZERO_DIVISOR), Answer::Stopped(NOT_FINITE)];
    let faults = (60..=64).map(Answer::Fault);
    ends.into_iter().chain(faults).find(|&end| write_answer(end) == text)
}

fn read_float(text: &str) -> Option<f64> {
    u64::from_str_radix(text, 16).ok().map(f64::from_bits)
}

fn read_type(text: &str) -> Option<Type> {
    u16::from_str_radix(text, 16).ok()
}

fn read_value(text: &str) -> Option<Value> {
    match text.split_at_checked(1)? {
        ("i", whole) => whole.parse().ok().map(Value::Whole),
        ("f", bits) => read_float(bits).map(Value::Real),
        _ => None,
    }
}

fn read_item(text: &str) -> Option<Item> {
    let mut words = text.split(' ');
    let command = words.next()?;
    let mut a = ItemWords { words };
    let item = match command {
        "var" => Item::Var(a.name()?),
        "store_var" => Item::StoreVar(a.name()?, read_value(a.next()?)?, a.kind()?),
        "copy_var" => Item::CopyVar(a.name()?, a.name()?),
        "if" => Item::If(a.condition()?),
        "elseif" => Item::ElseIf(a.condition()?),
        "loop" => Item::Loop(a.condition()?),
        "meas_loop_lsv" => {
            Item::MeasLoopLsv(a.name()?, a.name()?, [a.operand()?, a.operand()?, a.operand()?, a.operand()?])
        }
        "meas" => Item::Meas(a.operand()?, a.name()?, a.kind()?),
        "timer_get" => Item::TimerGet(a.name()?),
        "pck_add" => Item::PckAdd(a.name()?),
        "send_string" => {
            let (start, end) = a.next()?.strip_prefix('s')?.split_once(':')?;
            Item::SendString(start.parse().ok()?, end.parse().ok()?)
        }
        "wait" => Item::Wait(a.operand()?),
        "set_e" => Item::SetE(a.operand()?),
        "set_pgstat_mode" => Item::SetPgstatMode(a.next()?.strip_prefix('n')?.parse().ok()?),
        word => match ARITHMETIC.iter().find(|(known, _)| *known == word) {
            Some(&(_, operation)) => Item::Arithmetic(operation, a.name()?, a.operand()?),
            None => ALONE.iter().find(|(known, _)| *known == word)?.1,
        },
    };
    a.words.next().is_none().then_some(item)
}

struct ItemWords<'a> {
    words: std::str::Split<'a, char>,
}

impl<'a> ItemWords<'a> {
    fn next(&mut self) -> Option<&'a str> {
        self.words.next()
    }

    fn name(&mut self) -> Option<usize> {
        self.next()?.strip_prefix('v')?.parse().ok()
    }

    fn kind(&mut self) -> Option<Type> {
        read_type(self.next()?.strip_prefix('t')?)
    }

    fn operand(&mut self) -> Option<Operand> {
        let word = self.next()?;
        match word.strip_prefix('v') {
            Some(name) => name.parse().ok().map(Operand::Name),
            None => read_value(word).map(Operand::Literal),
        }
    }

    fn condition(&mut self) -> Option<Condition> {
        let left = self.operand()?;
        let comparison = Comparison::read(self.next()?.strip_prefix('o')?.as_bytes())?;
        Some(Condition { left, comparison, right: self.operand()? })
    }
}
