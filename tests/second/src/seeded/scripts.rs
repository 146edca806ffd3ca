//! Seeded scripts: mostly ones that keep the rules, with as many breaches as asked, and spoilt in form where asked.

use super::Seed;
use crate::cases::Case;
use crate::value::Kind;

/// How far a script strays.
#[derive(Clone, Copy)]
pub struct Wild {
    /// One choice in so many is made without regard to the rules; 0 for none.
    pub rules: usize,
    /// Whether the text is spoilt in form.
    pub form: bool,
    /// Whether a bound is come near to.
    pub bounds: bool,
}

impl Wild {
    pub fn any(seed: &mut Seed) -> Wild {
        Wild { rules: seed.pick(&[0, 0, 6, 20, 60]), form: seed.one_in(3), bounds: seed.one_in(8) }
    }

    /// Good form, rules mostly kept.
    pub fn in_form(seed: &mut Seed) -> Wild {
        Wild { rules: seed.pick(&[0, 0, 0, 8, 30]), form: false, bounds: seed.one_in(20) }
    }
}

struct Name {
    word: String,
    kind: Kind,
}

struct Writer<'a> {
    seed: &'a mut Seed,
    lines: Vec<String>,
    names: Vec<Name>,
    /// The names that the script has surely written, a bit for each.
    written: u64,
    rules: usize,
    left: usize,
}

const TYPES: [&str; 6] = ["aa", "ba", "da", "eb", "ja", "zz"];
const SIGNS: [&str; 6] = ["==", "!=", "<", "<=", ">", ">="];

pub fn script(seed: &mut Seed, wild: Wild) -> Vec<u8> {
    let rules = wild.rules;
    let mut writer = Writer { seed, lines: Vec::new(), names: Vec::new(), written: 0, rules, left: 0 };
    writer.left = writer.seed.pick(&[2, 6, 12, 25, 50]);
    writer.declare();
    if wild.bounds {
        writer.near_bounds();
    }
    writer.body(0, false, false);
    if writer.seed.one_in(3) {
        writer.lines.push("on_finished:".into());
        writer.written = 0;
        writer.left += 4;
        writer.body(0, false, false);
    }
    let mut lines = writer.lines;
    if seed.one_in(3) {
        dress(seed, &mut lines);
    }
    if wild.form && seed.one_in(2) {
        spoil_words(seed, &mut lines);
    }
    let mut text = lines.concat_lines();
    if !(wild.form && seed.one_in(12)) {
        text.push(b'\n');
    }
    if wild.form && seed.one_in(3) {
        seed.damage(&mut text);
    }
    if wild.bounds && seed.one_in(6) {
        text.resize(seed.within(8_189..=8_195), b'x');
    } else if seed.one_in(10) {
        text.extend(b"behind the end\n\nnothing is read");
    }
    text
}

pub fn load(seed: &mut Seed) -> Case {
    let wild = Wild::any(seed);
    Case::Load { script: script(seed, wild) }
}

pub fn check(seed: &mut Seed) -> Case {
    let wild = if seed.one_in(10) { Wild::any(seed) } else { Wild::in_form(seed) };
    Case::Check { script: script(seed, wild) }
}

trait ConcatLines {
    fn concat_lines(&self) -> Vec<u8>;
}

impl ConcatLines for Vec<String> {
    /// The lines, each ended by a newline, every character one byte.
    fn concat_lines(&self) -> Vec<u8> {
        let mut text = Vec::new();
        for line in self {
            text.extend(line.chars().map(|c| c as u8));
            text.push(b'\n');
        }
        text
    }
}

impl Writer<'_> {
    fn wild(&mut self) -> bool {
        self.rules > 0 && self.seed.one_in(self.rules)
    }

    fn put(&mut self, line: String) {
        self.lines.push(line);
    }

    fn declare(&mut self) {
        let count = if self.seed.one_in(12) { self.seed.within(28..=32) } else { self.seed.within(0..=6) };
        for number in 0..count {
            let word = match self.seed.below(6) {
                0 => format!("{}_{number:0>14}", self.seed.pick(&["n", "_"])),
                1 => format!("V{number}"),
                _ => format!("{}{number}", self.seed.pick(&["a", "_x", "Long_name"])),
            };
            let kind = if self.seed.one_in(3) { Kind::Whole } else { Kind::Real };
            self.put(format!("var {word}"));
            self.names.push(Name { word, kind });
        }
    }

    /// Brings one of the bounds near: names, items, a line's length.
    fn near_bounds(&mut self) {
        match self.seed.below(4) {
            0 => {
                for number in self.names.len()..self.seed.within(31..=34) {
                    self.put(format!("var bound{number}"));
                }
            }
            1 => {
                let count = self.seed.within(124..=130);
                while self.lines.len() < count {
                    self.put("cell_on".into());
                }
                self.left = self.left.min(6);
            }
            2 => {
                let length = self.seed.within(125..=130);
                let start = self.seed.pick(&["#", "cell_on", "send_string \"x\"", " "]);
                self.put(format!("{start:<length$}"));
            }
            _ => {
                let depth = self.seed.within(7..=10);
                for _ in 0..depth {
                    let head = self.seed.pick(&["loop 1i == 1i", "if 1 < 2", "if 2i > 3i"]);
                    self.put(head.into());
                }
                let heads = self.lines.split_off(self.lines.len() - depth);
                let ends: Vec<String> = heads.iter().rev().map(|head| closing_word(head).into()).collect();
                self.lines.extend(heads);
                self.lines.extend(ends);
            }
        }
    }

    fn is_written(&self, name: usize) -> bool {
        self.written >> name & 1 == 1
    }

    /// A name of this kind that may be read, or any where wild.
    fn readable(&mut self, kind: Option<Kind>) -> Option<usize> {
        if self.wild() && !self.names.is_empty() {
            return Some(self.seed.below(self.names.len()));
        }
        let fits = |name: &usize| self.is_written(*name) && kind.is_none_or(|kind| self.names[*name].kind == kind);
        let fitting: Vec<usize> = (0..self.names.len()).filter(fits).collect();
        (!fitting.is_empty()).then(|| self.seed.pick(&fitting))
    }

    /// A name of this kind to be written, or any where wild.
    fn writable(&mut self, kind: Option<Kind>) -> Option<usize> {
        let wild = self.wild();
        let fits = |name: &usize| wild || kind.is_none_or(|kind| self.names[*name].kind == kind);
        let fitting: Vec<usize> = (0..self.names.len()).filter(fits).collect();
        (!fitting.is_empty()).then(|| self.seed.pick(&fitting))
    }

    fn kind(&mut self) -> Kind {
        if self.seed.one_in(2) {
            Kind::Whole
        } else {
            Kind::Real
        }
    }

    fn literal(&mut self, kind: Kind) -> String {
        let kind = if self.wild() { self.kind() } else { kind };
        let number = match self.seed.below(12) {
            0 => self.seed.pick(&[i32::MIN, i32::MAX, 65_536, -65_537, 46_341]).to_string(),
            1 => self.seed.pick(&["-0", "0000000000", "-0000000001", "0"]).into(),
            _ => (self.seed.below(9) as i32 - 3).to_string(),
        };
        match kind {
            Kind::Whole => number + "i",
            Kind::Real => {
                number + self.seed.pick(&["", "", "", "m", "u", "a", "f", "p", "n", "k", "M", "G", "T", "P", "E"])
            }
        }
    }

    fn operand(&mut self, kind: Kind) -> String {
        if self.seed.one_in(2) {
            if let Some(name) = self.readable(Some(kind)) {
                return self.names[name].word.clone();
            }
        }
        self.literal(kind)
    }

    fn condition(&mut self) -> String {
        let kind = self.kind();
        let sign = self.seed.pick(&SIGNS);
        format!("{} {sign} {}", self.operand(kind), self.operand(kind))
    }

    fn wrote(&mut self, name: usize) {
        self.written |= 1 << name;
    }

    /// A row of items in a box of this depth.
    fn body(&mut self, depth: usize, in_loop: bool, in_sweep: bool) {
        let stop = if depth == 0 { 0 } else { self.left.saturating_sub(self.seed.within(1..=10)) };
        while self.left > stop {
            self.left -= 1;
            match self.seed.below(13) {
                0 if depth < 8 || self.wild() => self.branches(depth, in_loop, in_sweep),
                1 if depth < 8 || self.wild() => self.condition_loop(depth, in_sweep),
                2 if depth < 8 && !in_sweep || self.wild() => self.sweep(depth),
                3 => self.package(),
                4 if in_loop && self.seed.one_in(3) || self.wild() => self.put("breakloop".into()),
                5 if self.wild() => self.stray(),
                _ => self.plain(),
            }
        }
    }

    fn branches(&mut self, depth: usize, in_loop: bool, in_sweep: bool) {
        let before = self.written;
        let mut every = u64::MAX;
        let condition = self.condition();
        self.put(format!("if {condition}"));
        self.body(depth + 1, in_loop, in_sweep);
        for _ in 0..self.seed.pick(&[0, 0, 1, 2]) {
            every &= self.written;
            self.written = before;
            let condition = self.condition();
            self.put(format!("elseif {condition}"));
            self.body(depth + 1, in_loop, in_sweep);
        }
        every &= self.written;
        self.written = before;
        if self.seed.one_in(2) {
            self.put("else".into());
            self.body(depth + 1, in_loop, in_sweep);
        }
        self.written &= every;
        self.put("endif".into());
    }

    fn condition_loop(&mut self, depth: usize, in_sweep: bool) {
        let before = self.written;
        let condition = self.condition();
        self.put(format!("loop {condition}"));
        self.body(depth + 1, true, in_sweep);
        self.counting();
        self.put("endloop".into());
        self.written = before;
    }

    /// Often something that will end the loop around it.
    fn counting(&mut self) {
        if let Some(name) = self.readable(Some(Kind::Whole)) {
            let (word, by) = (self.names[name].word.clone(), self.seed.within(1..=2));
            self.put(format!("add_var {word} {by}i"));
        } else if self.seed.one_in(2) {
            self.put("breakloop".into());
        }
    }

    fn sweep(&mut self, depth: usize) {
        let Some(first) = self.writable(Some(Kind::Real)) else { return };
        let Some(second) = self.writable(Some(Kind::Real)) else { return };
        if first == second && !self.wild() {
            return;
        }
        let before = self.written;
        let places: Vec<String> = (0..4).map(|_| self.operand(Kind::Real)).collect();
        let (a, b) = (&self.names[first].word, &self.names[second].word);
        self.lines.push(format!("meas_loop_lsv {a} {b} {}", places.join(" ")));
        self.wrote(first);
        self.wrote(second);
        self.body(depth + 1, true, true);
        self.put("endloop".into());
        self.written = before;
    }

    fn package(&mut self) {
        self.put("pck_start".into());
        for _ in 0..self.seed.below(4) {
            if let Some(name) = self.readable(None) {
                let word = self.names[name].word.clone();
                self.put(format!("pck_add {word}"));
            }
            if self.seed.one_in(8) {
                self.plain();
            }
            if self.wild() {
                self.stray();
            }
        }
        if !self.wild() {
            self.put("pck_end".into());
        }
    }

    /// An item that has no place here, most times.
    fn stray(&mut self) {
        let condition = self.condition();
        let line = match self.seed.below(12) {
            0 => format!("if {condition}"),
            1 => format!("loop {condition}"),
            2 => format!("elseif {condition}"),
            n => ["else", "endif", "endloop", "breakloop", "pck_start", "pck_end", "on_finished:", "abort", "endif"][n - 3].into(),
        };
        self.put(line);
    }

    fn plain(&mut self) {
        let line = match self.seed.below(16) {
            0..=2 => self.store(),
            3 => self.copy(),
            4..=6 => self.arithmetic(),
            7 => self.measure(),
            8 => self.writable(Some(Kind::Real)).map(|name| {
                self.wrote(name);
                format!("timer_get {}", self.names[name].word)
            }),
            9 => Some(format!("wait {}", self.operand(Kind::Real))),
            10 => Some(format!("set_e {}", self.operand(Kind::Real))),
            11 => Some(format!("set_pgstat_mode {}", self.seed.pick(&["0", "2", "255", "007", "000000000000255"]))),
            12 => Some(format!("send_string \"{}\"", self.seed.pick(&["", "Hello World!", "# no comment", "\t; 'x' \r"]))),
            13 if self.seed.one_in(3) => Some("abort".into()),
            _ => Some(self.seed.pick(&["cell_on", "cell_off", "timer_start"]).into()),
        };
        if let Some(line) = line {
            self.put(line);
        }
    }

    fn store(&mut self) -> Option<String> {
        let name = self.writable(None)?;
        let literal = self.literal(self.names[name].kind);
        self.wrote(name);
        Some(format!("store_var {} {literal} {}", self.names[name].word, self.seed.pick(&TYPES)))
    }

    fn copy(&mut self) -> Option<String> {
        let source = self.readable(None)?;
        let target = self.writable(Some(self.names[source].kind))?;
        self.wrote(target);
        Some(format!("copy_var {} {}", self.names[source].word, self.names[target].word))
    }

    fn arithmetic(&mut self) -> Option<String> {
        let name = self.readable(None)?;
        let command = self.seed.pick(&["add_var", "sub_var", "mul_var", "div_var"]);
        let operand = self.operand(self.names[name].kind);
        Some(format!("{command} {} {operand}", self.names[name].word))
    }

    fn measure(&mut self) -> Option<String> {
        let place = self.operand(Kind::Real);
        let name = self.writable(Some(Kind::Real))?;
        self.wrote(name);
        Some(format!("meas {place} {} {}", self.names[name].word, self.seed.pick(&TYPES)))
    }
}

fn closing_word(head: &str) -> &'static str {
    if head.starts_with("if") {
        "endif"
    } else {
        "endloop"
    }
}

/// Blanks, blank lines and comments that change nothing.
fn dress(seed: &mut Seed, lines: &mut Vec<String>) {
    for _ in 0..seed.within(1..=4) {
        let at = seed.within(0..=lines.len());
        lines.insert(at, seed.pick(&[" ", "\t \t", "# a comment", "  \t# x == y", "#"]).into());
    }
    for line in lines.iter_mut().filter(|line| !line.contains('"')) {
        if seed.one_in(3) {
            *line = format!("{}{}{}", seed.pick(&["", " ", "\t"]), line.replace(' ', "\t "), seed.pick(&["", "  ", "\t"]));
        }
    }
}

/// Changes one word of one line, or puts in a line that has something wrong.
fn spoil_words(seed: &mut Seed, lines: &mut Vec<String>) {
    const WORDS: [&str; 40] = [
        "", "a0", "b", "nowhere", "1", "1i", "-1", "--1", "-", "1x", "1mm", "2147483648", "-2147483648", "-2147483649i",
        "99999999999", "12345678901i", "1 i", "i", "m", "256", "0255", "+1", "==", "=", "=>", "!", "da", "Da", "d", "daa",
        "a0\r", "cell_on", "var", "\"", "\"x\"", "#", "1.5", "0x10", "long_name_of_16_b", "_",
    ];
    const LINES: [&str; 22] = [
        "Cell_on", "cell_on\r", "on_finished", "on_finished: x", "nothing", "var", "var 1a", "var a b", "var a-b",
        "send_string", "send_string \"x", "send_string\"x\"", "send_string \"x\" y", "send_string \"x\"y", "wait", "wait 1 # x",
        "set_pgstat_mode -1", "set_pgstat_mode 99999999999999999999", "if 1==1", "meas 1 nowhere da", "\u{e9}\0", "else x",
    ];
    let at = seed.within(0..=lines.len());
    match seed.below(4) {
        0 => lines.insert(at, seed.pick(&LINES).into()),
        1 if !lines.is_empty() => {
            let line = lines[at % lines.len()].clone();
            lines.insert(at, line);
        }
        _ if !lines.is_empty() => {
            let count = lines.len();
            let line = &mut lines[at % count];
            spoil_line(seed, line, &WORDS);
        }
        _ => {}
    }
}

fn spoil_line(seed: &mut Seed, line: &mut String, words: &[&str]) {
    let mut parts: Vec<&str> = line.split(' ').collect();
    let at = seed.below(parts.len());
    match seed.below(4) {
        0 => drop(parts.remove(at)),
        1 => parts.insert(at + 1, seed.pick(words)),
        _ => parts[at] = seed.pick(words),
    }
    let spoilt = parts.join(" ");
    *line = spoilt;
}
