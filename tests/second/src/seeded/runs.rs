//! Seeded runs, and tables and states as made by hand.

use super::scripts::{script, Wild};
use super::Seed;
use crate::cases::Case;
use crate::load::load;
use crate::machine::{Answer, Control, Machine, Offer, State, Wants};
use crate::table::{Condition, Item, Operand, Slot, Table, Type};
use crate::value::{Operation, Value, COMPARISONS};

const MOST_STEPS: usize = 300;

pub fn run(seed: &mut Seed) -> Case {
    let wild = if seed.one_in(20) { Wild::any(seed) } else { Wild::in_form(seed) };
    let script = script(seed, wild);
    let steps = match load(&script) {
        Ok(table) => steps(seed, script.len(), &table, &State::default()),
        Err(_) => vec![(Control::None, Offer::Nothing)],
    };
    Case::Run { script, steps }
}

/// Controls and offers for a run: mostly what is wanted, now and then anything.
fn steps(seed: &mut Seed, length: usize, table: &Table, state: &State) -> Vec<(Control, Offer)> {
    let machine = Machine::new(table, length);
    let mut state = state.clone();
    let mut things = Vec::new();
    let mut steps = Vec::new();
    let most = if seed.one_in(4) { MOST_STEPS } else { seed.within(1..=80) };
    let mut after = 2;
    let calm = seed.one_in(3);
    while steps.len() < most && after > 0 {
        let control = match seed.below(if calm { 400 } else { 60 }) {
            0 => Control::Z,
            1 | 2 => Control::Y,
            _ => Control::None,
        };
        let offer = if seed.one_in(if calm { 100 } else { 10 }) { any_offer(seed) } else { wanted(seed, &machine, &state) };
        steps.push((control, offer));
        let answer = machine.step(&mut state, control, offer, &mut things);
        after -= usize::from(state.ended.is_some() || answer == Answer::Refused(30));
    }
    steps
}

fn wanted(seed: &mut Seed, machine: &Machine, state: &State) -> Offer {
    match machine.wants(state.at) {
        Wants::Nothing => Offer::Nothing,
        _ if seed.one_in(20) => Offer::Nothing,
        Wants::Float => Offer::Float(reading(seed)),
        Wants::Point if seed.one_in(4) => Offer::Done,
        Wants::Point => Offer::Point(reading(seed), reading(seed)),
    }
}

fn reading(seed: &mut Seed) -> f64 {
    if seed.one_in(12) {
        seed.float()
    } else {
        seed.finite()
    }
}

fn any_offer(seed: &mut Seed) -> Offer {
    match seed.below(4) {
        0 => Offer::Nothing,
        1 => Offer::Float(seed.float()),
        2 => Offer::Point(seed.float(), seed.float()),
        _ => Offer::Done,
    }
}

/// A table made by hand: a loaded one with slots changed, or one of random slots; sometimes out of shape.
fn table(seed: &mut Seed) -> (usize, Table) {
    let wild = Wild::in_form(seed);
    let text = script(seed, wild);
    let mut table = load(&text).unwrap_or_default();
    if seed.one_in(2) {
        table.names = seed.within(1..=6);
        let count = if seed.one_in(10) { 128 } else { seed.below(24) };
        table.slots = (0..count).map(|line| Slot { item: item(seed, table.names, 60), line: line + 1 }).collect();
    } else if table.names > 0 {
        for _ in 0..seed.below(5) {
            change(seed, &mut table);
        }
    }
    table.count = table.slots.len();
    match seed.below(60) {
        0 => table.names = seed.pick(&[33, 64, 1 << 40, usize::MAX]),
        1 => table.count = seed.pick(&[129, 200, 1 << 40, usize::MAX]),
        2 => table.names = table.names.saturating_sub(1),
        _ => {}
    }
    if seed.one_in(4) {
        table.end = seed.pick(&[0, 1, 9_000, 1 << 20, usize::MAX]);
        for slot in &mut table.slots {
            slot.line = seed.below(70_000);
        }
    }
    (if seed.one_in(3) { seed.below(60) } else { 8_192 }, table)
}

fn change(seed: &mut Seed, table: &mut Table) {
    let at = seed.within(0..=table.slots.len());
    let slot = Slot { item: item(seed, table.names, 400), line: at + 1 };
    match seed.below(3) {
        0 if table.slots.len() < 128 => table.slots.insert(at, slot),
        1 if at < table.slots.len() => drop(table.slots.remove(at)),
        _ if at < table.slots.len() => table.slots[at] = slot,
        _ => {}
    }
}

/// An item with its names below the count; one field in `odd` is out of shape.
fn item(seed: &mut Seed, names: usize, odd: usize) -> Item {
    let mut f = FieldsOf { seed, names, odd };
    match f.seed.below(29) {
        0 => Item::Var(f.name()),
        1 | 2 => Item::StoreVar(f.name(), f.value(), f.kind()),
        3 => Item::CopyVar(f.name(), f.name()),
        4..=6 => {
            let operation = f.seed.pick(&[Operation::Add, Operation::Sub, Operation::Mul, Operation::Div]);
            Item::Arithmetic(operation, f.name(), f.operand())
        }
        7 | 8 => Item::If(f.condition()),
        9 => Item::ElseIf(f.condition()),
        10 => Item::Else,
        11 | 12 => Item::EndIf,
        13 => Item::Loop(f.condition()),
        14 => Item::MeasLoopLsv(f.name(), f.name(), [f.operand(), f.operand(), f.operand(), f.operand()]),
        15 | 16 => Item::EndLoop,
        17 => Item::BreakLoop,
        18 => Item::Meas(f.operand(), f.name(), f.kind()),
        19 => Item::TimerGet(f.name()),
        20 => Item::PckStart,
        21 => Item::PckAdd(f.name()),
        22 => Item::PckEnd,
        23 => f.text(),
        24 => Item::Wait(f.operand()),
        25 => Item::SetE(f.operand()),
        26 => Item::SetPgstatMode(f.seed.byte()),
        27 => f.seed.pick(&[Item::CellOn, Item::CellOff, Item::TimerStart]),
        _ => f.seed.pick(&[Item::Abort, Item::OnFinished]),
    }
}

struct FieldsOf<'a> {
    seed: &'a mut Seed,
    names: usize,
    odd: usize,
}

impl FieldsOf<'_> {
    fn name(&mut self) -> usize {
        if self.seed.one_in(self.odd) {
            return self.seed.pick(&[self.names, 32, 255, 256, 1 << 33, usize::MAX]);
        }
        self.seed.below(self.names)
    }

    fn kind(&mut self) -> Type {
        self.seed.next() as Type
    }

    fn value(&mut self) -> Value {
        if self.seed.one_in(self.odd) {
            return Value::Real(self.seed.pick(&[f64::NAN, f64::INFINITY, f64::NEG_INFINITY]));
        }
        match self.seed.below(5) {
            0 => Value::Whole(self.seed.next() as i32),
            1 | 2 => Value::Whole(self.seed.below(5) as i32 - 2),
            _ => Value::Real(self.seed.finite()),
        }
    }

    fn operand(&mut self) -> Operand {
        if self.seed.one_in(2) {
            Operand::Name(self.name())
        } else {
            Operand::Literal(self.value())
        }
    }

    fn condition(&mut self) -> Condition {
        let (_, comparison) = self.seed.pick(&COMPARISONS);
        Condition { left: self.operand(), comparison, right: self.operand() }
    }

    fn text(&mut self) -> Item {
        if self.seed.one_in(self.odd) {
            let far = usize::MAX;
            let (start, end) = self.seed.pick(&[(9, 8), (0, 8_193), (far, far), (far, 2), (0, far), (8_193, 8_193)]);
            return Item::SendString(start, end);
        }
        let start = self.seed.below(20);
        Item::SendString(start, start + self.seed.below(20))
    }
}

pub fn check_table(seed: &mut Seed) -> Case {
    let (length, table) = table(seed);
    Case::CheckTable { length, table }
}

/// A state made by hand, mostly in shape.
fn state(seed: &mut Seed, table: &Table) -> State {
    let mut state = State { at: seed.within(0..=table.slots.len()), ..State::default() };
    let heads: Vec<usize> =
        (0..table.slots.len()).filter(|&place| table.slots[place].item.is_opening() || seed.one_in(60)).collect();
    if !heads.is_empty() {
        let depth = seed.pick(&[0, 0, 1, 2, 4, 7, 8, 8, 9]);
        state.boxes = (0..depth).map(|_| seed.pick(&heads)).collect();
        if seed.one_in(2) {
            state.boxes.sort_unstable();
        }
        if seed.one_in(3) {
            state.at = state.boxes.last().copied().unwrap_or(state.at);
        }
    }
    for written in &mut state.values {
        if !seed.one_in(4) {
            let value = if seed.one_in(2) { Value::Whole(seed.below(5) as i32 - 2) } else { Value::Real(seed.finite()) };
            *written = Some((value, seed.next() as Type));
        }
    }
    (state.abort, state.skip, state.package) = (seed.one_in(8), seed.one_in(5), seed.one_in(5));
    match seed.below(40) {
        0 => state.at = seed.pick(&[table.slots.len() + 1, 129, 255, 1 << 40, usize::MAX]),
        1 => state.values[seed.below(32)] = Some((Value::Real(f64::NAN), 0)),
        2 => state.boxes.insert(0, seed.pick(&[127, 128, 200, 1 << 40, usize::MAX])),
        3 | 4 => {
            let ends = [Answer::Finished, Answer::Stopped(0x28), Answer::Stopped(0x10)];
            let fault = Answer::Fault(seed.within(60..=64) as u16);
            state.ended = Some(if seed.one_in(2) { fault } else { seed.pick(&ends) });
        }
        _ => {}
    }
    state
}

pub fn run_table(seed: &mut Seed) -> Case {
    let (length, table) = table(seed);
    let state = state(seed, &table);
    let steps = steps(seed, length, &table, &state);
    Case::RunTable { length, table, state, steps }
}
