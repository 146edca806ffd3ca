//! The checker's rules: 30, then 19 to 26 over the items in order.

use crate::table::{kind_of, Item, Operand, Table, MOST_BOXES, MOST_NAMES};
use crate::value::Kind;
use crate::{load, refuse, Refusal};

/// The verdict on a script: form, then the rules.
pub fn check_text(script: &[u8]) -> Result<(), Refusal> {
    check(&load::load(script)?, script.len())
}

pub fn check(table: &Table, length: usize) -> Result<(), Refusal> {
    if !table.in_shape(length) {
        return refuse(30, 0);
    }
    let mut walk = Walk { kinds: kinds(table), written: 0, boxes: Vec::with_capacity(MOST_BOXES), package: false, tag: false };
    for slot in &table.slots {
        if let Some(number) = walk.broken(&slot.item) {
            return refuse(number, slot.line);
        }
        walk.pass(&slot.item);
    }
    if !walk.boxes.is_empty() {
        return refuse(21, table.end);
    }
    if walk.package {
        return refuse(23, table.end);
    }
    Ok(())
}

type Kinds = [Option<Kind>; MOST_NAMES];

/// Each name's kind: that of its first writing, arithmetic and copies of what has no kind yet passed over.
fn kinds(table: &Table) -> Kinds {
    let mut kinds: Kinds = [None; MOST_NAMES];
    for slot in &table.slots {
        let given = match slot.item {
            Item::StoreVar(_, value, _) => Some(value.kind()),
            Item::CopyVar(source, _) => kinds[source],
            Item::Meas(..) | Item::TimerGet(_) | Item::MeasLoopLsv(..) => Some(Kind::Real),
            _ => None,
        };
        for name in slot.item.writes().into_iter().flatten() {
            kinds[name] = kinds[name].or(given);
        }
    }
    kinds
}

#[derive(Clone, Copy, PartialEq, Eq)]
enum Sort {
    If,
    Loop,
    Sweep,
}

/// An open box. Sets of names are words with a bit for each.
struct Open {
    sort: Sort,
    before: u32,
    /// What holds at the end of every branch so far.
    every: u32,
    other: bool,
}

struct Walk {
    kinds: Kinds,
    written: u32,
    boxes: Vec<Open>,
    package: bool,
    tag: bool,
}

impl Walk {
    /// The lowest rule that the item breaks.
    fn broken(&self, item: &Item) -> Option<u16> {
        let tests: [(u16, bool); 8] = [
            (19, self.kinds_at_odds(item)),
            (20, !item.every_read(|name| self.held(item) & bit(name) != 0)),
            (21, self.out_of_order(item)),
            (22, item.is_opening() && self.boxes.len() >= MOST_BOXES),
            (23, self.breaks_package(item)),
            (24, matches!(item, Item::OnFinished) && (self.tag || !self.boxes.is_empty())),
            (25, matches!(item, Item::MeasLoopLsv(first, second, _) if first == second)),
            (26, item.is_sweep() && self.boxes.iter().any(|open| open.sort == Sort::Sweep)),
        ];
        tests.into_iter().find(|&(_, breaks)| breaks).map(|(number, _)| number)
    }

    fn kinds_at_odds(&self, item: &Item) -> bool {
        let kind = |operand: Operand| kind_of(operand, &self.kinds);
        let is_whole = |name: usize| self.kinds[name] == Some(Kind::Whole);
        let writing = match *item {
            Item::StoreVar(name, value, _) => differ(self.kinds[name], Some(value.kind())),
            Item::CopyVar(source, target) => differ(self.kinds[source], self.kinds[target]),
            Item::Meas(_, name, _) | Item::TimerGet(name) => is_whole(name),
            Item::MeasLoopLsv(first, second, _) => is_whole(first) || is_whole(second),
            _ => false,
        };
        writing
            || item.floats().iter().any(|&operand| kind(operand) == Some(Kind::Whole))
            || item.pair().is_some_and(|(a, b)| differ(kind(a), kind(b)))
    }

    /// What is surely written where the item reads: for a branch, what held before its `if`.
    fn held(&self, item: &Item) -> u32 {
        match (item, self.boxes.last()) {
            (Item::ElseIf(_), Some(open)) if open.sort == Sort::If => open.before,
            _ => self.written,
        }
    }

    fn out_of_order(&self, item: &Item) -> bool {
        let innermost = self.boxes.last();
        match item {
            Item::ElseIf(_) | Item::Else => !innermost.is_some_and(|open| open.sort == Sort::If && !open.other),
            Item::EndIf => !innermost.is_some_and(|open| open.sort == Sort::If),
            Item::EndLoop => !innermost.is_some_and(|open| open.sort != Sort::If),
            Item::BreakLoop => !self.boxes.iter().any(|open| open.sort != Sort::If),
            _ => false,
        }
    }

    fn breaks_package(&self, item: &Item) -> bool {
        match item {
            Item::PckAdd(_) | Item::PckEnd => !self.package,
            Item::PckStart | Item::BreakLoop | Item::OnFinished => self.package,
            _ => self.package && item.is_box_mark(),
        }
    }

    /// Goes past an item that breaks no rule.
    fn pass(&mut self, item: &Item) {
        let before = self.written;
        for name in item.writes().into_iter().flatten() {
            self.written |= bit(name);
        }
        match item {
            Item::If(_) => self.enter(Sort::If, before),
            Item::Loop(_) => self.enter(Sort::Loop, before),
            Item::MeasLoopLsv(..) => self.enter(Sort::Sweep, before),
            Item::ElseIf(_) => self.end_branch(false),
            Item::Else => self.end_branch(true),
            Item::EndIf => {
                self.end_branch(false);
                if let Some(open) = self.boxes.pop() {
                    self.written = if open.other { open.every } else { open.every & open.before };
                }
            }
            Item::EndLoop => {
                if let Some(open) = self.boxes.pop() {
                    self.written = open.before;
                }
            }
            Item::PckStart => self.package = true,
            Item::PckEnd => self.package = false,
            Item::OnFinished => {
                self.tag = true;
                self.written = 0;
            }
            _ => {}
        }
    }

    fn enter(&mut self, sort: Sort, before: u32) {
        self.boxes.push(Open { sort, before, every: u32::MAX, other: false });
    }

    fn end_branch(&mut self, other: bool) {
        if let Some(open) = self.boxes.last_mut() {
            open.every &= self.written;
            open.other |= other;
            self.written = open.before;
        }
    }
}

fn bit(name: usize) -> u32 {
    1 << name
}

fn differ(a: Option<Kind>, b: Option<Kind>) -> bool {
    matches!((a, b), (Some(a), Some(b)) if a != b)
}

#[cfg(test)]
mod tests {
    use super::*;
    use crate::load::load;

    fn number(script: &str) -> (u16, usize) {
        let text = (script.replace('|', "\n") + "\n\n").into_bytes();
        match load(&text).and_then(|table| check(&table, text.len())) {
            Ok(()) => (0, 0),
            Err(refusal) => (refusal.number, refusal.place),
        }
    }

    #[test]
    fn kinds() {
        assert_eq!(number("var a|wait a|store_var a 1i ja"), (19, 2));
        assert_eq!(number("if 1 == 1i|endif"), (19, 1));
        assert_eq!(number("var a|var b|copy_var a b|store_var a 1i ja"), (20, 3));
        assert_eq!(number("var a|store_var a 1i ja|timer_get a"), (19, 3));
    }

    #[test]
    fn surely_written() {
        assert_eq!(number("var a|loop 1 == 1|store_var a 1 ja|elseif a == 1"), (21, 4));
        assert_eq!(number("var a|if 1 == 1|store_var a 1 ja|endif|wait a"), (20, 5));
        assert_eq!(number("var a|if 1 == 1|store_var a 1 ja|else|store_var a 1 ja|endif|wait a"), (0, 0));
        assert_eq!(number("var a|if 1 == 1|store_var a 1 ja|elseif a == 1|endif"), (20, 4));
        assert_eq!(number("var a|var b|meas_loop_lsv a b 1 1 1 1|wait a|endloop|wait b"), (20, 6));
        assert_eq!(number("var a|store_var a 1 ja|on_finished:|wait a"), (20, 4));
    }

    #[test]
    fn order_of_marks() {
        assert_eq!(number("if 1 == 1|else|elseif 1 == 1|endif"), (21, 3));
        assert_eq!(number("breakloop"), (21, 1));
        assert_eq!(number("loop 1 == 1|if 1 == 1|breakloop|endif|endloop"), (0, 0));
        assert_eq!(number("loop 1 == 1"), (21, 2));
        assert_eq!(number("pck_start"), (23, 2));
        assert_eq!(number("pck_start|loop 1 == 1"), (23, 2));
        assert_eq!(number("on_finished:|on_finished:"), (24, 2));
        assert_eq!(number("loop 1 == 1|on_finished:|endloop"), (24, 2));
        assert_eq!(number("var a|meas_loop_lsv a a 1 1 1 1|endloop"), (25, 2));
        assert_eq!(number(&["loop 1 == 1"; 9].join("|")), (22, 9));
    }
}
