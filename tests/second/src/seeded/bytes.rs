//! Seeded frames, packages and replies.

use super::Seed;
use crate::cases::Case;
use crate::frame::crc16;
use crate::Lines;

/// A length that is often near a bound.
fn length_near(seed: &mut Seed, bound: usize) -> usize {
    match seed.below(4) {
        0 => seed.within(bound - 2..=bound + 3),
        1 => seed.below(bound),
        _ => seed.below(24),
    }
}

fn any_content(seed: &mut Seed) -> Vec<u8> {
    let length = length_near(seed, 127);
    let any = seed.one_in(4);
    let mut bytes: Vec<u8> = (0..length)
        .map(|_| match seed.byte() {
            b'\n' => b' ',
            byte if any => byte,
            byte => b' ' + byte % 95,
        })
        .collect();
    if length > 0 && seed.one_in(12) {
        let at = seed.below(length);
        bytes[at] = b'\n';
    }
    bytes
}

pub fn frame_write(seed: &mut Seed) -> Case {
    let content = any_content(seed);
    let exact = content.len() + 7;
    let buffer = match seed.below(5) {
        0 => exact - 1,
        1 => seed.below(exact + 20),
        2 => exact + seed.below(40),
        _ => exact,
    };
    Case::FrameWrite { content, number: seed.pick(&[0, 0x0A, 0xFE, 0xFF, seed.0 as u8]), buffer }
}

pub fn frame_read(seed: &mut Seed) -> Case {
    let mut line = any_content(seed);
    let number = if seed.one_in(6) { 0xFF } else { seed.byte() };
    let digits = match seed.below(12) {
        0 => format!("{number:02x}"),
        1 => format!("{}{:X}", seed.telling_byte() as char, number & 15),
        _ => format!("{number:02X}"),
    };
    line.extend(digits.bytes());
    let sum = crc16(&line);
    line.extend(if seed.one_in(10) { format!("{sum:04x}") } else { format!("{sum:04X}") }.bytes());
    if seed.one_in(2) {
        seed.damage(&mut line);
    }
    let expected = match seed.below(8) {
        0 => number.wrapping_add(1),
        1 => seed.byte(),
        _ => number,
    };
    Case::FrameRead { line, expected }
}

fn part(seed: &mut Seed, text: &mut Vec<u8>) {
    text.extend([b'a' + seed.byte() % 26, b'a' + seed.byte() % 26]);
    match seed.below(8) {
        0 => text.extend(b"     nan"),
        _ => {
            let number = match seed.below(4) {
                0 => seed.pick(&[0, 0xFFF_FFFF, 0x800_0000, 0x7FF_FFFF]),
                _ => seed.below(1 << 28),
            };
            text.extend(format!("{number:07X}").bytes());
            text.push(seed.pick(b"afpnum kMGTPEi"));
        }
    }
    if seed.one_in(2) {
        text.extend(format!(",1{:X}", seed.below(16)).bytes());
    }
    if seed.one_in(3) {
        text.extend(format!(",2{:02X}", seed.below(256)).bytes());
    }
    if seed.one_in(3) {
        text.extend(format!(",4{:X}", seed.below(16)).bytes());
    }
}

/// A package, one in so many near the bound of 16 parts.
fn package_line(seed: &mut Seed, one_in: usize) -> Vec<u8> {
    let parts = if seed.one_in(one_in) { seed.within(14..=18) } else { seed.within(1..=4) };
    let mut text = b"P".to_vec();
    for place in 0..parts {
        if place > 0 {
            text.push(b';');
        }
        part(seed, &mut text);
    }
    text
}

pub fn package(seed: &mut Seed) -> Case {
    let mut bytes = package_line(seed, 4);
    if seed.one_in(2) {
        seed.damage(&mut bytes);
    }
    if seed.one_in(20) {
        bytes.extend(b";");
    }
    Case::Package { bytes }
}

/// A line that opens and closes nothing: mostly a package.
fn plain_line(seed: &mut Seed) -> Vec<u8> {
    match seed.below(7) {
        0 => [&b"T"[..], &any_content(seed).iter().map(|byte| byte | 32).collect::<Vec<u8>>()].concat(),
        1 => vec![seed.pick(b"hHYZ")],
        _ => package_line(seed, 100),
    }
}

/// Lines of a reply that open and close their loops and scans in order.
struct ReplyLines {
    lines: Vec<Vec<u8>>,
    /// The letters of the loops that are open.
    open: Vec<u8>,
}

impl ReplyLines {
    fn open(&mut self, seed: &mut Seed, letter: u8) {
        self.open.push(letter);
        self.lines.push(match letter {
            b'M' => format!("M{:04X}", seed.below(20)).into_bytes(),
            _ => vec![letter],
        });
    }

    fn close(&mut self) {
        self.lines.extend(self.open.pop().map(closing));
    }

    fn close_all(&mut self) {
        (0..self.open.len()).for_each(|_| self.close());
    }

    fn in_a_sweep(&self) -> bool {
        self.open.last() == Some(&b'M')
    }

    /// Some scans, empty ones too, with lines beside them.
    fn scans(&mut self, seed: &mut Seed) {
        for _ in 0..seed.pick(&[1, 1, 2, 3]) {
            self.lines.push(scan_mark(seed));
            self.lines.extend((0..seed.pick(&[0, 1, 2, 5])).map(|_| plain_line(seed)));
            self.lines.push(closing(b'C'));
            if seed.one_in(4) {
                self.lines.push(plain_line(seed));
            }
        }
    }

    /// Loops and a sweep in them, so many that a scan in it is about the eighth that is open.
    fn near_the_eighth(&mut self, seed: &mut Seed) {
        for _ in 0..seed.within(MOST_OPEN - 3..=MOST_OPEN - 1) {
            let letter = seed.pick(b"ML");
            self.open(seed, letter);
        }
        self.open(seed, b'M');
        self.scans(seed);
    }
}

/// How many may be open.
const MOST_OPEN: usize = 8;

fn reply_lines(seed: &mut Seed) -> Vec<Vec<u8>> {
    let mut reply = ReplyLines { lines: vec![b"e".to_vec()], open: Vec::new() };
    let deep = seed.one_in(3);
    let most = if deep { MOST_OPEN + 1 } else { 4 };
    let scans = !seed.one_in(6);
    for _ in 0..seed.pick(&[0, 3, 8, 20, 60]) {
        match seed.below(if deep { 6 } else { 10 }) {
            0 | 1 if reply.open.len() < most => {
                let letter = seed.pick(b"ML");
                reply.open(seed, letter);
            }
            2 => reply.close(),
            3 | 4 if scans && reply.in_a_sweep() => reply.scans(seed),
            _ if !deep || seed.one_in(2) => reply.lines.push(plain_line(seed)),
            _ => {}
        }
    }
    if scans && seed.one_in(10) {
        reply.close_all();
        reply.near_the_eighth(seed);
    } else if scans && reply.open.len() < most && !reply.lines.iter().any(|line| is_scan_mark(line)) {
        reply.open(seed, b'M');
        reply.scans(seed);
    }
    if seed.one_in(8) {
        reply.lines.push(error_line(seed));
    } else {
        reply.close_all();
    }
    reply.lines
}

/// The mark that closes what this letter opens.
fn closing(letter: u8) -> Vec<u8> {
    match letter {
        b'M' => b"*".to_vec(),
        b'C' => b"-".to_vec(),
        _ => b"+".to_vec(),
    }
}

/// A mark that opens a scan, mostly with digits, as the instrument prints it.
fn scan_mark(seed: &mut Seed) -> Vec<u8> {
    let number = match seed.below(4) {
        0 => return b"C".to_vec(),
        1 => seed.pick(&[9, 10, 99, 100, 999, 1_000, 9_999]),
        2 => seed.below(10_000),
        _ => seed.below(4),
    };
    format!("C{number:04}").into_bytes()
}

fn error_line(seed: &mut Seed) -> Vec<u8> {
    let code = seed.pick(&[1, 0x4001, 0xFFFF, 0]);
    let behind = seed.pick(&["", ": Line 3", ":", ": ", " ", ":x"]);
    format!("e!{code:04X}{behind}").into_bytes()
}

/// Whether a line of a good reply opens a scan.
fn is_scan_mark(line: &[u8]) -> bool {
    line.starts_with(b"C")
}

/// Lines that hardly ever belong where they are put.
const ODD_LINES: [&[u8]; 15] =
    [b"*", b"+", b"-", b"L", b"C", b"C0000", b"M0000", b"M000", b"M000a", b"e", b"", b"!4001", b"hh", b"x", b"P"];

/// Changes the lines: one dropped, doubled, put elsewhere, or one that does not belong.
fn spoil_lines(seed: &mut Seed, lines: &mut Vec<Vec<u8>>) {
    let at = seed.below(lines.len());
    match seed.below(6) {
        0 => drop(lines.remove(at)),
        1 => lines.insert(at, lines[at].clone()),
        2 => {
            let line = lines.remove(at);
            let to = seed.within(0..=lines.len());
            lines.insert(to, line);
        }
        3 => lines.insert(at, error_line(seed)),
        4 => lines.insert(at, seed.pick(&ODD_LINES).to_vec()),
        _ => seed.damage(&mut lines[at]),
    }
}

/// Lines that are nearly a mark of a scan.
const NEARLY_MARKS: [&[u8]; 12] =
    [b"C12", b"C000", b"C00000", b"C000A", b"C 001", b"c", b"C ", b" C", b"--", b"-x", b"- ", b"-0000"];

/// Spoils a scan of a good reply, if there is one: its marks, where it stands, or what is in it.
fn spoil_scan(seed: &mut Seed, lines: &mut Vec<Vec<u8>>) {
    let scans: Vec<usize> = (0..lines.len()).filter(|&at| is_scan_mark(&lines[at])).collect();
    if scans.is_empty() {
        return;
    }
    let start = seed.pick(&scans);
    let end = (start..lines.len()).find(|&at| lines[at] == b"-").expect("a good reply closes its scans");
    match seed.below(6) {
        0 => lines[seed.pick(&[start, end])] = seed.pick(&NEARLY_MARKS).to_vec(),
        1 => lines[end] = seed.pick(&[&b"*"[..], b"+", b"C", b""]).to_vec(),
        2 => lines.insert(seed.within(start + 1..=end), seed.pick(&[&b"L"[..], b"M0006", b"C0001", b"C"]).to_vec()),
        3 => lines.insert(start, b"L".to_vec()),
        4 => lines.insert(end, error_line(seed)),
        _ => lines.swap(start - 1, start),
    }
}

/// So many rows that a table of 1,024 is about full: loops, or the scans of one.
fn many_rows(seed: &mut Seed) -> Vec<Vec<u8>> {
    let pairs = seed.within(1018..=1026);
    if seed.one_in(2) {
        return [&b"M0001"[..], b"*"].repeat(pairs).into_iter().map(Vec::from).collect();
    }
    let scans = [&b"C0001"[..], b"-"].repeat(pairs);
    [&[&b"M0001"[..]], &scans[..], &[b"*"]].concat().into_iter().map(Vec::from).collect()
}

fn reply_bytes(seed: &mut Seed) -> Vec<u8> {
    let mut lines = reply_lines(seed);
    match seed.below(6) {
        0 | 1 => spoil_lines(seed, &mut lines),
        2 => spoil_scan(seed, &mut lines),
        _ => {}
    }
    match seed.below(400) {
        0 => lines.resize(seed.within(1..=9) + lines.len(), b"L".to_vec()),
        1 => {
            let at = lines.len().min(1);
            lines.splice(at..at, many_rows(seed));
        }
        _ => {}
    }
    let mut bytes = lines.join(&b'\n');
    if !lines.is_empty() {
        bytes.push(b'\n');
    }
    if !seed.one_in(20) {
        bytes.push(b'\n');
    }
    match seed.below(200) {
        0 => bytes.resize(seed.within(65_530..=65_542), seed.pick(b"x\n ")),
        1..=10 => bytes.extend(b"what follows\nis not read"),
        11..=20 => {
            let at = seed.within(0..=bytes.len());
            bytes.truncate(at);
        }
        21..=30 => seed.damage(&mut bytes),
        _ => {}
    }
    bytes
}

/// How many lines look like one that opens a loop or a scan.
fn opening_lines(bytes: &[u8]) -> usize {
    Lines::of(bytes).filter(|line| matches!(line, [b'L' | b'M' | b'C', ..])).count()
}

pub fn reply(seed: &mut Seed) -> Case {
    let bytes = reply_bytes(seed);
    let rows = match seed.below(6) {
        0 => seed.below(6),
        1 => opening_lines(&bytes).min(1_022) + seed.below(3),
        2 => 1_024,
        _ => seed.within(10..=80),
    };
    Case::Reply { rows, bytes }
}

pub fn row(seed: &mut Seed) -> Case {
    let bytes = reply_bytes(seed);
    let row = match seed.below(8) {
        0 => seed.pick(&[1_023, 1_024, 1_025, 65_536, 1 << 32, usize::MAX]),
        1 => seed.below(40),
        _ => seed.below(4),
    };
    Case::Row { row, bytes }
}

/// The most bytes that a reader of lines is put over here.
const MOST_IN_LINES: usize = 4_096;

pub fn lines(seed: &mut Seed) -> Case {
    let mut bytes = match seed.below(4) {
        0 => (0..length_near(seed, 200)).map(|_| seed.pick(b"\n\n\rx\0 e\x0B\x0C\xFF")).collect(),
        1 => (0..seed.below(24)).map(|_| seed.telling_byte()).collect(),
        _ => reply_bytes(seed),
    };
    if seed.one_in(40) {
        bytes.resize(seed.within(MOST_IN_LINES - 3..=MOST_IN_LINES), seed.pick(b"\nx"));
    }
    bytes.truncate(MOST_IN_LINES);
    Case::Lines { bytes }
}

/// A length below, at and above that of the line.
pub fn content(seed: &mut Seed) -> Case {
    let line = any_content(seed);
    let length = match seed.below(4) {
        0 => line.len(),
        1 => seed.pick(&[line.len() + 1, line.len().saturating_sub(1), 0, 127, 1 << 32, usize::MAX]),
        _ => seed.within(0..=line.len()),
    };
    Case::Content { line, length }
}

#[cfg(test)]
mod tests {
    use super::*;
    use crate::reply::{read, Row, EMPTY};
    use crate::scans::{any_mark, lines_met};
    use std::collections::BTreeMap;

    /// How many replies are looked at, and how many there must be of each sort.
    const LOOKED_AT: u64 = 10_000;
    const LEAST: [(&str, u64); 17] = [
        ("with scans", 6_400),
        ("read", 2_000),
        ("read, an empty scan", 500),
        ("read, several scans of a sweep", 500),
        ("read, scans of two sweeps", 200),
        ("read, packages in a scan and beside it", 500),
        ("read, an error line in a scan", 50),
        ("read, a scan the eighth that is open", 50),
        ("51", 100),
        ("52, a scan in no sweep", 100),
        ("52, a scan in a scan", 100),
        ("52, a loop in a scan", 50),
        ("52, no scan to close", 50),
        ("52, a loop closed in a scan", 50),
        ("52, the empty line in a scan", 50),
        ("53", 100),
        ("54", 100),
    ];

    #[test]
    fn scans_of_every_sort() {
        let mut met: BTreeMap<&str, u64> = BTreeMap::new();
        for number in 0..LOOKED_AT {
            let Case::Reply { rows, bytes } = reply(&mut Seed::of(0, 0, number)) else { panic!("a reply is made") };
            for sort in sorts(rows, &bytes) {
                *met.entry(sort).or_default() += 1;
            }
        }
        for (sort, least) in LEAST {
            let count = met.get(sort).copied().unwrap_or(0);
            assert!(count >= least, "{sort}: {count} of {LOOKED_AT}, not {least}");
        }
    }

    /// The sorts of replies with scans that one is of.
    fn sorts(lent: usize, bytes: &[u8]) -> Vec<&'static str> {
        let mut rows = vec![EMPTY; lent];
        let answer = read(bytes, &mut rows);
        let lines = lines_met(bytes, &answer);
        if !any_mark(&lines) {
            return Vec::new();
        }
        let last = lines.len() - 1;
        let before = open_after(&lines[..last]);
        let mut sorts = vec!["with scans"];
        match answer {
            Ok(reply) if rows[..reply.rows].iter().any(|row| row.kind == b'C') => {
                sorts.extend(sorts_read(&rows[..reply.rows]));
                if before.last() == Some(&b'C') {
                    sorts.push("read, an error line in a scan");
                }
                if (0..last).any(|end| matches!(open_after(&lines[..end])[..], [_, _, _, _, _, _, _, b'C'])) {
                    sorts.push("read, a scan the eighth that is open");
                }
            }
            Ok(_) => {}
            Err(refusal) => sorts.extend(sort_refused(refusal.number, lines[last], before.last().copied())),
        }
        sorts
    }

    /// The letters of what is open behind these lines of a good reply.
    fn open_after(lines: &[&[u8]]) -> Vec<u8> {
        let mut open = Vec::new();
        for line in lines {
            match line.first() {
                Some(&letter @ (b'L' | b'M' | b'C')) => open.push(letter),
                Some(b'*' | b'+' | b'-') => drop(open.pop()),
                _ => {}
            }
        }
        open
    }

    fn sorts_read(rows: &[Row]) -> Vec<&'static str> {
        let scans: Vec<&Row> = rows.iter().filter(|row| row.kind == b'C').collect();
        let beside = |scan: &Row| rows[scan.parent].packages;
        let two = |same: bool| scans.windows(2).any(|pair| (pair[0].parent == pair[1].parent) == same);
        let found = [
            (true, "read"),
            (scans.iter().any(|scan| scan.packages == 0), "read, an empty scan"),
            (two(true), "read, several scans of a sweep"),
            (two(false), "read, scans of two sweeps"),
            (scans.iter().any(|scan| scan.packages > 0 && beside(scan) > 0), "read, packages in a scan and beside it"),
        ];
        found.into_iter().filter(|(is, _)| *is).map(|(_, sort)| sort).collect()
    }

    /// The sort of a refusal that comes of a scan, by the line that is refused and what is the innermost open there.
    fn sort_refused(number: u16, line: &[u8], innermost: Option<u8>) -> Option<&'static str> {
        match (number, line, innermost) {
            (51, [b'C' | b'-', ..], _) => Some("51"),
            (52, [b'C', ..], Some(b'C')) => Some("52, a scan in a scan"),
            (52, [b'C', ..], _) => Some("52, a scan in no sweep"),
            (52, [b'L' | b'M', ..], _) => Some("52, a loop in a scan"),
            (52, [b'-'], _) => Some("52, no scan to close"),
            (52, [b'*' | b'+'], Some(b'C')) => Some("52, a loop closed in a scan"),
            (52, [], Some(b'C')) => Some("52, the empty line in a scan"),
            (53, [b'C', ..], _) => Some("53"),
            (54, [b'C', ..], _) => Some("54"),
            _ => None,
        }
    }
}
