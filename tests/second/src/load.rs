//! The loader: a script's text becomes a table, or is refused by 10 to 18.

use crate::table::{Condition, Item, Operand, Slot, Table, Type, MOST_ITEMS, MOST_NAMES};
use crate::value::{literal, Comparison, Operation, Value};
use crate::{refuse, Lines, Refusal};

const LONGEST_SCRIPT: usize = 8192;
const LONGEST_LINE: usize = 127;
const LONGEST_NAME: usize = 16;

pub fn load(text: &[u8]) -> Result<Table, Refusal> {
    if text.len() > LONGEST_SCRIPT {
        return refuse(10, 0);
    }
    let mut loader = Loader { names: Vec::with_capacity(MOST_NAMES), slots: Vec::with_capacity(MOST_ITEMS) };
    let mut lines = Lines::of(text);
    let mut number = 1;
    loop {
        let start = lines.at();
        match lines.next() {
            None => return refuse(11, number),
            Some([]) => break,
            Some(line) => loader.line(line, start, number).or_else(|fault| refuse(fault, number))?,
        }
        number += 1;
    }
    Ok(Table { names: loader.names.len(), end: number, count: loader.slots.len(), slots: loader.slots })
}

struct Loader<'a> {
    names: Vec<&'a [u8]>,
    slots: Vec<Slot>,
}

impl<'a> Loader<'a> {
    fn line(&mut self, line: &'a [u8], start: usize, number: usize) -> Result<(), u16> {
        if line.len() > LONGEST_LINE {
            return Err(12);
        }
        let mut words = Words { line, at: 0 };
        let command = words.next();
        if command.first().is_none_or(|&byte| byte == b'#') {
            return Ok(());
        }
        if self.slots.len() == MOST_ITEMS {
            return Err(13);
        }
        let item = if command == b"var" { self.declare(words)? } else { self.item(command, words, start)? };
        self.slots.push(Slot { item, line: number });
        Ok(())
    }

    fn declare(&mut self, mut words: Words<'a>) -> Result<Item, u16> {
        let name = words.next();
        if !is_name(name) || !words.next().is_empty() {
            return Err(15);
        }
        if self.names.contains(&name) {
            return Err(17);
        }
        if self.names.len() == MOST_NAMES {
            return Err(18);
        }
        self.names.push(name);
        Ok(Item::Var(self.names.len() - 1))
    }

    fn item(&self, command: &[u8], words: Words, start: usize) -> Result<Item, u16> {
        let mut a = Arguments { words, names: &self.names, fault: None };
        let item = match command {
            b"store_var" => Item::StoreVar(a.name(), a.literal(), a.kind()),
            b"copy_var" => Item::CopyVar(a.name(), a.name()),
            b"add_var" => Item::Arithmetic(Operation::Add, a.name(), a.operand()),
            b"sub_var" => Item::Arithmetic(Operation::Sub, a.name(), a.operand()),
            b"mul_var" => Item::Arithmetic(Operation::Mul, a.name(), a.operand()),
            b"div_var" => Item::Arithmetic(Operation::Div, a.name(), a.operand()),
            b"if" => Item::If(a.condition()),
            b"elseif" => Item::ElseIf(a.condition()),
            b"loop" => Item::Loop(a.condition()),
            b"meas_loop_lsv" => {
                Item::MeasLoopLsv(a.name(), a.name(), [a.operand(), a.operand(), a.operand(), a.operand()])
            }
            b"meas" => Item::Meas(a.operand(), a.name(), a.kind()),
            b"timer_get" => Item::TimerGet(a.name()),
            b"pck_add" => Item::PckAdd(a.name()),
            b"send_string" => a.text(start),
            b"wait" => Item::Wait(a.operand()),
            b"set_e" => Item::SetE(a.operand()),
            b"set_pgstat_mode" => Item::SetPgstatMode(a.number()),
            b"else" => Item::Else,
            b"endif" => Item::EndIf,
            b"endloop" => Item::EndLoop,
            b"breakloop" => Item::BreakLoop,
            b"timer_start" => Item::TimerStart,
            b"pck_start" => Item::PckStart,
            b"pck_end" => Item::PckEnd,
            b"cell_on" => Item::CellOn,
            b"cell_off" => Item::CellOff,
            b"abort" => Item::Abort,
            b"on_finished:" => Item::OnFinished,
            _ => return Err(14),
        };
        a.finish(item)
    }
}

fn is_blank(byte: u8) -> bool {
    byte == b' ' || byte == b'\t'
}

fn is_name(word: &[u8]) -> bool {
    let Some(first) = word.first() else { return false };
    word.len() <= LONGEST_NAME
        && !first.is_ascii_digit()
        && word.iter().all(|&byte| byte.is_ascii_alphanumeric() || byte == b'_')
}

/// The words of a line; past the last one they are empty.
struct Words<'a> {
    line: &'a [u8],
    at: usize,
}

impl<'a> Words<'a> {
    fn skip_blanks(&mut self) {
        while self.line.get(self.at).is_some_and(|&byte| is_blank(byte)) {
            self.at += 1;
        }
    }

    fn next(&mut self) -> &'a [u8] {
        self.skip_blanks();
        let rest = &self.line[self.at..];
        let end = rest.iter().position(|&byte| is_blank(byte)).unwrap_or(rest.len());
        self.at += end;
        &rest[..end]
    }
}

/// The arguments behind a command, and the lowest fault found in them.
struct Arguments<'a> {
    words: Words<'a>,
    names: &'a [&'a [u8]],
    fault: Option<u16>,
}

impl Arguments<'_> {
    fn blame(&mut self, number: u16) {
        self.fault = Some(self.fault.map_or(number, |known| known.min(number)));
    }

    fn known(&mut self, name: &[u8]) -> usize {
        self.names.iter().position(|&known| known == name).unwrap_or_else(|| {
            self.blame(16);
            0
        })
    }

    fn name(&mut self) -> usize {
        let word = self.words.next();
        if is_name(word) {
            return self.known(word);
        }
        self.blame(15);
        0
    }

    fn literal(&mut self) -> Value {
        literal(self.words.next()).unwrap_or_else(|| {
            self.blame(15);
            Value::Whole(0)
        })
    }

    fn operand(&mut self) -> Operand {
        let word = self.words.next();
        if is_name(word) {
            return Operand::Name(self.known(word));
        }
        Operand::Literal(literal(word).unwrap_or_else(|| {
            self.blame(15);
            Value::Whole(0)
        }))
    }

    fn condition(&mut self) -> Condition {
        let left = self.operand();
        let comparison = Comparison::read(self.words.next()).unwrap_or_else(|| {
            self.blame(15);
            Comparison::Equal
        });
        Condition { left, comparison, right: self.operand() }
    }

    fn kind(&mut self) -> Type {
        match *self.words.next() {
            [first @ b'a'..=b'z', second @ b'a'..=b'z'] => u16::from_be_bytes([first, second]),
            _ => {
                self.blame(15);
                0
            }
        }
    }

    fn number(&mut self) -> u8 {
        let word = self.words.next();
        let digits = !word.is_empty() && word.iter().all(u8::is_ascii_digit);
        let sum = word.iter().try_fold(0u8, |sum, byte| sum.checked_mul(10)?.checked_add(byte.wrapping_sub(b'0')));
        match sum {
            Some(number) if digits => number,
            _ => {
                self.blame(15);
                0
            }
        }
    }

    /// A quoted text that ends the line but for blanks; `start` is where the line begins in the script.
    fn text(&mut self, start: usize) -> Item {
        self.words.skip_blanks();
        let from = self.words.at + 1;
        if let Some((b'"', rest)) = self.words.line[self.words.at..].split_first() {
            if let Some(length) = rest.iter().position(|&byte| byte == b'"') {
                self.words.at = from + length + 1;
                if rest[length + 1..].first().is_some_and(|&byte| !is_blank(byte)) {
                    self.blame(15);
                }
                return Item::SendString(start + from, start + from + length);
            }
        }
        self.blame(15);
        Item::Else
    }

    fn finish(mut self, item: Item) -> Result<Item, u16> {
        if !self.words.next().is_empty() {
            self.blame(15);
        }
        self.fault.map_or(Ok(item), Err)
    }
}

#[cfg(test)]
mod tests {
    use super::*;

    fn number(script: &str) -> (u16, usize) {
        match load(script.replace('|', "\n").as_bytes()) {
            Ok(_) => (0, 0),
            Err(refusal) => (refusal.number, refusal.place),
        }
    }

    #[test]
    fn cases_k_and_l() {
        assert_eq!(number(""), (11, 1));
        assert_eq!(number("|"), (0, 0));
    }

    #[test]
    fn lines_and_their_ends() {
        assert_eq!(number("cell_on"), (11, 1));
        assert_eq!(number("cell_on|"), (11, 2));
        assert_eq!(number("cell_on||no such command|"), (0, 0));
        assert_eq!(number("cell_on\r||"), (14, 1));
        assert_eq!(number(" \t# x|\t|cell_on \t||"), (0, 0));
    }

    #[test]
    fn arguments() {
        assert_eq!(number("var a|add_var b 1||"), (16, 2));
        assert_eq!(number("var a|add_var b||"), (15, 2));
        assert_eq!(number("var a|var a||"), (17, 2));
        assert_eq!(number("var abcdefghijklmnop||"), (0, 0));
        assert_eq!(number("var abcdefghijklmnopq||"), (15, 1));
        assert_eq!(number("set_pgstat_mode 0000000000000000000000000000255||"), (0, 0));
        assert_eq!(number("set_pgstat_mode 256||"), (15, 1));
        assert_eq!(number("wait 1 # x||"), (15, 1));
        assert_eq!(number("send_string\"x\"||"), (14, 1));
        assert_eq!(number("send_string \"\" ||"), (0, 0));
        assert_eq!(number("send_string \"a\" \"||"), (15, 1));
        assert_eq!(number("send_string \"a\"b||"), (15, 1));
        assert_eq!(number("send_string a\"b\"||"), (15, 1));
        assert_eq!(number("send_string \"a||"), (15, 1));
    }

    #[test]
    fn a_text_is_a_range_of_the_script() {
        let table = load(b"cell_on\nsend_string  \"Hello\"\n\n").unwrap();
        assert_eq!(table.slots[1].item, Item::SendString(22, 27));
    }
}
