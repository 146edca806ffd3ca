//! The machine: one step takes a control and an offer, and names what it handed out.

use crate::table::{type_of, Condition, Item, Operand, Table, Type, MOST_BOXES, MOST_NAMES};
use crate::value::{calculate, real, Kind, Value};

const POTENTIAL: Type = type_of(b"da");
const CURRENT: Type = type_of(b"ba");
const TIME: Type = type_of(b"eb");

#[derive(Clone, Copy, Debug, PartialEq, Eq)]
pub enum Control {
    None,
    Z,
    Y,
}

#[derive(Clone, Copy, Debug, PartialEq)]
pub enum Offer {
    Nothing,
    Float(f64),
    Point(f64, f64),
    Done,
}

#[derive(Clone, Copy, Debug, PartialEq, Eq)]
pub enum Answer {
    Running,
    Waiting,
    Finished,
    Stopped(u16),
    Fault(u16),
    Refused(u16),
}

#[derive(Clone, Copy, Debug, PartialEq)]
pub enum Thing {
    SweepMark,
    LoopMark,
    SweepEnd,
    LoopEnd,
    Start,
    Part(Type, Value),
    End,
    Text(usize, usize),
    Wait(Value),
    SetE(Value),
    SetPgstatMode(u8),
    CellOn,
    CellOff,
}

#[derive(Clone, Debug, PartialEq, Default)]
pub struct State {
    pub at: usize,
    /// The opening items of the open boxes, outermost first.
    pub boxes: Vec<usize>,
    pub values: [Option<(Value, Type)>; MOST_NAMES],
    pub abort: bool,
    pub skip: bool,
    pub package: bool,
    pub ended: Option<Answer>,
}

/// The most steps that are taken one after the other at one asking.
pub const MOST_STEPS: usize = 64;

/// What steps taken one after the other came to.
#[derive(Clone, Debug, PartialEq)]
pub struct Ran {
    pub state: State,
    /// Each step's answer, and how many things it handed out.
    pub answers: Vec<(Answer, usize)>,
    pub things: Vec<Thing>,
}

/// What one step answered, handed out and left.
#[derive(Clone, Debug, PartialEq)]
pub struct Stepped {
    pub answer: Answer,
    pub things: Vec<Thing>,
    pub state: State,
}

/// What each step is told.
pub type Steps = [(Control, Offer)];

/// Where the marks of a table belong.
struct Mates {
    /// Of a closing or branch mark: its opening mark.
    opening: Vec<Option<usize>>,
    /// Of an opening mark: its closing mark.
    closing: Vec<Option<usize>>,
    /// Of an `if` or branch mark: the next mark of the same box.
    next: Vec<Option<usize>>,
}

impl Mates {
    fn of(table: &Table) -> Mates {
        let none = vec![None; table.slots.len()];
        let mut mates = Mates { opening: none.clone(), closing: none.clone(), next: none };
        // The unclosed opening marks, each with the last mark of its box so far.
        let mut unclosed: Vec<(usize, usize)> = Vec::new();
        for (place, slot) in table.slots.iter().enumerate() {
            if slot.item.is_opening() {
                unclosed.push((place, place));
                continue;
            }
            let closes = match slot.item {
                Item::ElseIf(_) | Item::Else => false,
                Item::EndIf | Item::EndLoop => true,
                _ => continue,
            };
            let Some((opening, last)) = unclosed.last_mut() else { continue };
            if table.slots[*opening].item.is_loop() != matches!(slot.item, Item::EndLoop) {
                continue;
            }
            mates.opening[place] = Some(*opening);
            mates.next[*last] = Some(place);
            *last = place;
            if closes {
                mates.closing[*opening] = Some(place);
                unclosed.pop();
            }
        }
        mates
    }
}

/// A table made ready for running beside a script of a certain length.
pub struct Machine<'a> {
    table: &'a Table,
    in_shape: bool,
    mates: Mates,
    tag: Option<usize>,
}

/// What a step does once it is known to have no fault.
enum Turn {
    /// A condition was tried: where it was found true, if it was, or the closing mark.
    Tried(Option<usize>),
    Plain,
}

impl<'a> Machine<'a> {
    pub fn new(table: &'a Table, length: usize) -> Machine<'a> {
        let in_shape = table.in_shape(length);
        let tag = table.slots.iter().position(|slot| matches!(slot.item, Item::OnFinished));
        Machine { table, in_shape, mates: Mates::of(table), tag }
    }

    /// One step; what was handed out stands in `things` alone.
    pub fn step(&self, state: &mut State, control: Control, offer: Offer, things: &mut Vec<Thing>) -> Answer {
        things.clear();
        if !self.in_shape || !self.state_in_shape(state) {
            return Answer::Refused(30);
        }
        if let Some(answer) = state.ended {
            return answer;
        }
        let sweeping = state.boxes.iter().any(|&open| self.item(open).is_sweep());
        let abort = state.abort || control == Control::Z;
        let skip = state.skip || (control == Control::Y && sweeping);
        if abort && !sweeping && !state.package {
            return self.abort(state, offer, things);
        }
        let turn = match self.turn(state) {
            Ok(turn) => turn,
            Err(fault) => {
                (state.abort, state.skip) = (abort, skip);
                return end(state, Answer::Fault(fault));
            }
        };
        match (self.wants(state.at), offer) {
            (Wants::Nothing, Offer::Nothing) | (Wants::Float, Offer::Float(_)) => {}
            (Wants::Point, Offer::Point(..) | Offer::Done) => {}
            (_, Offer::Nothing) => {
                (state.abort, state.skip) = (abort, skip);
                return Answer::Waiting;
            }
            _ => return Answer::Refused(31),
        }
        (state.abort, state.skip) = (abort, skip);
        if state.at == self.table.slots.len() {
            return end(state, Answer::Finished);
        }
        match self.act(state, turn, offer, things) {
            Ok(()) => Answer::Running,
            Err(code) => end(state, Answer::Stopped(code)),
        }
    }

    /// One step after the other, each with what it left.
    pub fn steps(&self, state: &State, steps: &Steps) -> Vec<Stepped> {
        let mut state = state.clone();
        let mut things = Vec::new();
        let one = |&(control, offer): &(Control, Offer)| {
            let answer = self.step(&mut state, control, offer, &mut things);
            Stepped { answer, things: things.clone(), state: state.clone() }
        };
        steps.iter().map(one).collect()
    }

    /// The first steps, as many as the budget allows and 64 at most, one after the other.
    pub fn run(&self, state: &State, steps: &Steps, budget: usize) -> Ran {
        let mut ran = Ran { state: state.clone(), answers: Vec::new(), things: Vec::new() };
        let mut things = Vec::new();
        for &(control, offer) in steps.iter().take(budget.min(MOST_STEPS)) {
            let answer = self.step(&mut ran.state, control, offer, &mut things);
            ran.answers.push((answer, things.len()));
            ran.things.append(&mut things);
        }
        ran
    }

    /// What the item at this place, or the end, wants to be offered.
    pub fn wants(&self, at: usize) -> Wants {
        match self.table.slots.get(at).map(|slot| slot.item) {
            Some(Item::MeasLoopLsv(..)) => Wants::Point,
            Some(Item::Meas(..) | Item::TimerGet(_)) => Wants::Float,
            _ => Wants::Nothing,
        }
    }

    fn item(&self, at: usize) -> &Item {
        &self.table.slots[at].item
    }

    fn state_in_shape(&self, state: &State) -> bool {
        state.at <= self.table.slots.len()
            && state.boxes.len() <= MOST_BOXES
            && state.boxes.iter().all(|&open| self.mates.closing.get(open).is_some_and(Option::is_some))
            && state.values.iter().flatten().all(|(value, _)| value.is_finite())
    }

    /// A pending abort takes effect: all boxes close, and the run goes on behind the tag or finishes.
    fn abort(&self, state: &mut State, offer: Offer, things: &mut Vec<Thing>) -> Answer {
        if offer != Offer::Nothing {
            return Answer::Refused(31);
        }
        while let Some(open) = state.boxes.pop() {
            self.leaving_mark(open, things);
        }
        (state.abort, state.skip) = (false, false);
        match self.tag {
            Some(tag) if state.at <= tag => {
                state.at = tag + 1;
                Answer::Running
            }
            _ => end(state, Answer::Finished),
        }
    }

    /// The lowest fault of the place where the run stands, or which way the item goes.
    fn turn(&self, state: &State) -> Result<Turn, u16> {
        let Some(slot) = self.table.slots.get(state.at) else {
            return match (state.boxes.is_empty(), state.package) {
                (false, _) => Err(62),
                (true, true) => Err(64),
                (true, false) => Ok(Turn::Plain),
            };
        };
        let item = &slot.item;
        // A branch mark at which the run stands reads nothing: a branch was taken before it.
        if !matches!(item, Item::ElseIf(_)) {
            self.readable(state, item)?;
        }
        if self.misplaced(state, item) {
            return Err(62);
        }
        if item.is_opening() && state.boxes.len() >= MOST_BOXES && !(item.is_loop() && self.is_back(state)) {
            return Err(63);
        }
        if breaks_package(item, state.package) {
            return Err(64);
        }
        match item {
            Item::If(condition) => self.try_branches(state, *condition).map(Turn::Tried),
            Item::Loop(condition) => Ok(Turn::Tried(holds(state, *condition).then_some(state.at))),
            _ => Ok(Turn::Plain),
        }
    }

    /// 60 where a name read is not written, 61 where kinds are at odds.
    fn readable(&self, state: &State, item: &Item) -> Result<(), u16> {
        if !item.every_read(|name| state.values[name].is_some()) {
            return Err(60);
        }
        let kind = |operand: Operand| value_of(state, operand).kind();
        if item.floats().iter().any(|&operand| kind(operand) == Kind::Whole)
            || item.pair().is_some_and(|(a, b)| kind(a) != kind(b))
        {
            return Err(61);
        }
        Ok(())
    }

    fn misplaced(&self, state: &State, item: &Item) -> bool {
        if item.is_opening() {
            return self.mates.closing[state.at].is_none();
        }
        if item.is_box_mark() {
            let opening = self.mates.opening[state.at];
            return opening.is_none() || opening != state.boxes.last().copied();
        }
        matches!(item, Item::BreakLoop) && !state.boxes.iter().any(|&open| self.item(open).is_loop())
    }

    /// Whether the run has come back to the head whose box is the innermost.
    fn is_back(&self, state: &State) -> bool {
        state.boxes.last() == Some(&state.at)
    }

    /// The mark of the `if` at hand whose branch is taken, none where no branch is.
    fn try_branches(&self, state: &State, condition: Condition) -> Result<Option<usize>, u16> {
        if holds(state, condition) {
            return Ok(Some(state.at));
        }
        let mut place = state.at;
        while let Some(next) = self.mates.next[place] {
            match self.item(next) {
                item @ Item::ElseIf(condition) => {
                    self.readable(state, item)?;
                    if holds(state, *condition) {
                        return Ok(Some(next));
                    }
                }
                Item::Else => return Ok(Some(next)),
                _ => return Ok(None),
            }
            place = next;
        }
        Ok(None)
    }

    fn act(&self, state: &mut State, turn: Turn, offer: Offer, things: &mut Vec<Thing>) -> Result<(), u16> {
        let at = state.at;
        match *self.item(at) {
            Item::StoreVar(name, value, kind) => state.values[name] = Some((value, kind)),
            Item::CopyVar(source, target) => state.values[target] = state.values[source],
            Item::Arithmetic(operation, name, operand) => {
                let b = value_of(state, operand);
                if let Some((a, _)) = &mut state.values[name] {
                    *a = calculate(operation, *a, b)?;
                }
            }
            Item::Meas(_, name, kind) => state.values[name] = Some((reading(offer)?, kind)),
            Item::TimerGet(name) => state.values[name] = Some((reading(offer)?, TIME)),
            Item::PckStart => {
                state.package = true;
                things.push(Thing::Start);
            }
            Item::PckAdd(name) => things.extend(state.values[name].map(|(value, kind)| Thing::Part(kind, value))),
            Item::PckEnd => {
                state.package = false;
                things.push(Thing::End);
            }
            Item::SendString(start, end) => things.push(Thing::Text(start, end)),
            Item::Wait(operand) => things.push(Thing::Wait(value_of(state, operand))),
            Item::SetE(operand) => things.push(Thing::SetE(value_of(state, operand))),
            Item::SetPgstatMode(mode) => things.push(Thing::SetPgstatMode(mode)),
            Item::CellOn => things.push(Thing::CellOn),
            Item::CellOff => things.push(Thing::CellOff),
            Item::Abort => state.abort = true,
            Item::Var(_) | Item::TimerStart | Item::OnFinished => {}
            _ => return self.act_box(state, turn, offer, things),
        }
        state.at = at + 1;
        Ok(())
    }

    fn act_box(&self, state: &mut State, turn: Turn, offer: Offer, things: &mut Vec<Thing>) -> Result<(), u16> {
        let at = state.at;
        match *self.item(at) {
            Item::If(_) => match turn {
                Turn::Tried(Some(mark)) => {
                    state.boxes.push(at);
                    state.at = mark + 1;
                }
                _ => state.at = self.past(at),
            },
            Item::Loop(_) => match turn {
                Turn::Tried(Some(_)) => self.enter(state, things),
                _ => self.leave_head(state, things),
            },
            Item::MeasLoopLsv(first, second, _) => match offer {
                Offer::Point(potential, current) => {
                    let point = (real(potential)?, real(current)?);
                    state.values[first] = Some((point.0, POTENTIAL));
                    state.values[second] = Some((point.1, CURRENT));
                    self.enter(state, things);
                }
                _ => self.leave_head(state, things),
            },
            Item::ElseIf(_) | Item::Else | Item::EndIf => {
                let opening = state.boxes.pop().unwrap_or(at);
                state.at = self.past(opening);
            }
            Item::EndLoop => {
                let head = state.boxes.last().copied().unwrap_or(at);
                if self.item(head).is_sweep() && (state.abort || state.skip) {
                    self.leave(state, things);
                } else {
                    state.at = head;
                }
            }
            Item::BreakLoop => {
                while state.boxes.last().is_some_and(|&open| !self.item(open).is_loop()) {
                    state.boxes.pop();
                }
                self.leave(state, things);
            }
            _ => {}
        }
        Ok(())
    }

    /// Into the body of the loop at hand, whose box is opened unless it is the innermost.
    fn enter(&self, state: &mut State, things: &mut Vec<Thing>) {
        if !self.is_back(state) {
            things.push(if self.item(state.at).is_sweep() { Thing::SweepMark } else { Thing::LoopMark });
            state.boxes.push(state.at);
        }
        state.at += 1;
    }

    /// Past the loop at hand, which is empty or has come to its end.
    fn leave_head(&self, state: &mut State, things: &mut Vec<Thing>) {
        self.enter(state, things);
        self.leave(state, things);
    }

    /// Out of the innermost box, a loop.
    fn leave(&self, state: &mut State, things: &mut Vec<Thing>) {
        if let Some(head) = state.boxes.pop() {
            self.leaving_mark(head, things);
            if self.item(head).is_sweep() {
                state.skip = false;
            }
            state.at = self.past(head);
        }
    }

    fn leaving_mark(&self, open: usize, things: &mut Vec<Thing>) {
        match self.item(open) {
            Item::MeasLoopLsv(..) => things.push(Thing::SweepEnd),
            Item::Loop(_) => things.push(Thing::LoopEnd),
            _ => {}
        }
    }

    /// The place past the closing mark of the box that opens here.
    fn past(&self, opening: usize) -> usize {
        self.mates.closing[opening].map_or(opening, |closing| closing + 1)
    }
}

#[derive(Clone, Copy, Debug, PartialEq, Eq)]
pub enum Wants {
    Nothing,
    Float,
    Point,
}

fn end(state: &mut State, answer: Answer) -> Answer {
    state.ended = Some(answer);
    answer
}

fn reading(offer: Offer) -> Result<Value, u16> {
    match offer {
        Offer::Float(x) => real(x),
        _ => unreachable!("the offer is tested before"),
    }
}

/// The value of an operand that is known to be written.
fn value_of(state: &State, operand: Operand) -> Value {
    match operand {
        Operand::Name(name) => state.values[name].map_or(Value::Whole(0), |(value, _)| value),
        Operand::Literal(value) => value,
    }
}

fn holds(state: &State, condition: Condition) -> bool {
    condition.comparison.holds(value_of(state, condition.left), value_of(state, condition.right))
}

fn breaks_package(item: &Item, open: bool) -> bool {
    match item {
        Item::PckAdd(_) | Item::PckEnd => !open,
        Item::PckStart | Item::BreakLoop | Item::OnFinished => open,
        _ => open && item.is_box_mark(),
    }
}
