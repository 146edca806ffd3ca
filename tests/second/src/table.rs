//! The script table: items with their lines, as the loader makes it or as made by hand.

use crate::value::{Comparison, Kind, Operation, Value};

pub const MOST_ITEMS: usize = 128;
pub const MOST_NAMES: usize = 32;
pub const MOST_BOXES: usize = 8;

#[derive(Clone, Copy, Debug, PartialEq)]
pub enum Operand {
    Name(usize),
    Literal(Value),
}

#[derive(Clone, Copy, Debug, PartialEq)]
pub struct Condition {
    pub left: Operand,
    pub comparison: Comparison,
    pub right: Operand,
}

/// A type's two letters, the first the higher byte.
pub type Type = u16;

pub const fn type_of(letters: &[u8; 2]) -> Type {
    u16::from_be_bytes(*letters)
}

#[derive(Clone, Copy, Debug, PartialEq)]
pub enum Item {
    Var(usize),
    StoreVar(usize, Value, Type),
    CopyVar(usize, usize),
    Arithmetic(Operation, usize, Operand),
    If(Condition),
    ElseIf(Condition),
    Else,
    EndIf,
    Loop(Condition),
    MeasLoopLsv(usize, usize, [Operand; 4]),
    EndLoop,
    BreakLoop,
    Meas(Operand, usize, Type),
    TimerStart,
    TimerGet(usize),
    PckStart,
    PckAdd(usize),
    PckEnd,
    /// The text's start and end in the script.
    SendString(usize, usize),
    Wait(Operand),
    SetE(Operand),
    SetPgstatMode(u8),
    CellOn,
    CellOff,
    Abort,
    OnFinished,
}

#[derive(Clone, Copy, Debug, PartialEq)]
pub struct Slot {
    pub item: Item,
    pub line: usize,
}

/// A table. One made by hand may say a count of items that is not that of its slots: over 128 it is out of shape anyway.
#[derive(Clone, Debug, PartialEq, Default)]
pub struct Table {
    pub names: usize,
    pub end: usize,
    pub count: usize,
    pub slots: Vec<Slot>,
}

impl Item {
    pub fn is_sweep(&self) -> bool {
        matches!(self, Item::MeasLoopLsv(..))
    }

    pub fn is_loop(&self) -> bool {
        matches!(self, Item::Loop(_) | Item::MeasLoopLsv(..))
    }

    pub fn is_opening(&self) -> bool {
        matches!(self, Item::If(_)) || self.is_loop()
    }

    pub fn is_box_mark(&self) -> bool {
        matches!(self, Item::ElseIf(_) | Item::Else | Item::EndIf | Item::EndLoop) || self.is_opening()
    }

    /// The operands that must be floats.
    pub fn floats(&self) -> &[Operand] {
        match self {
            Item::MeasLoopLsv(_, _, operands) => operands,
            Item::Meas(operand, _, _) | Item::Wait(operand) | Item::SetE(operand) => std::slice::from_ref(operand),
            _ => &[],
        }
    }

    /// The two operands that must be of one kind.
    pub fn pair(&self) -> Option<(Operand, Operand)> {
        match *self {
            Item::Arithmetic(_, name, operand) => Some((Operand::Name(name), operand)),
            Item::If(c) | Item::ElseIf(c) | Item::Loop(c) => Some((c.left, c.right)),
            _ => None,
        }
    }

    /// A name that is read and may have either kind.
    pub fn free_read(&self) -> Option<usize> {
        match *self {
            Item::CopyVar(source, _) => Some(source),
            Item::PckAdd(name) => Some(name),
            _ => None,
        }
    }

    /// Whether the test holds of every name that is read.
    pub fn every_read(&self, test: impl Fn(usize) -> bool) -> bool {
        let good = |operand: &Operand| match *operand {
            Operand::Name(name) => test(name),
            Operand::Literal(_) => true,
        };
        self.floats().iter().all(good)
            && self.pair().is_none_or(|(a, b)| good(&a) && good(&b))
            && self.free_read().is_none_or(&test)
    }

    /// The names that are written, if any.
    pub fn writes(&self) -> [Option<usize>; 2] {
        match *self {
            Item::StoreVar(name, _, _) | Item::CopyVar(_, name) | Item::Arithmetic(_, name, _) => [Some(name), None],
            Item::Meas(_, name, _) | Item::TimerGet(name) => [Some(name), None],
            Item::MeasLoopLsv(first, second, _) => [Some(first), Some(second)],
            _ => [None, None],
        }
    }

    fn in_shape(&self, names: usize, length: usize) -> bool {
        let named = |name: usize| name < names;
        let whole = |operand: &Operand| match *operand {
            Operand::Name(_) => true,
            Operand::Literal(value) => value.is_finite(),
        };
        let own = match *self {
            Item::Var(name) => named(name),
            Item::StoreVar(_, value, _) => value.is_finite(),
            Item::SendString(start, end) => start <= end && end <= length,
            _ => true,
        };
        own && self.every_read(named)
            && self.writes().iter().flatten().all(|&name| named(name))
            && self.floats().iter().all(whole)
            && self.pair().is_none_or(|(a, b)| whole(&a) && whole(&b))
    }
}

impl Table {
    /// At most 128 items and 32 names, every name number below the count, every literal finite, every text inside
    /// the script of this length.
    pub fn in_shape(&self, length: usize) -> bool {
        self.count <= MOST_ITEMS
            && self.names <= MOST_NAMES
            && self.slots.iter().all(|slot| slot.item.in_shape(self.names, length))
    }
}

/// What the kind of an operand is by the kinds of the names, if it has one.
pub fn kind_of(operand: Operand, kinds: &[Option<Kind>; MOST_NAMES]) -> Option<Kind> {
    match operand {
        Operand::Name(name) => kinds[name],
        Operand::Literal(value) => Some(value.kind()),
    }
}
