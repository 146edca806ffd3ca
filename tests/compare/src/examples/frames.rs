use super::{alike, expect, refused, Example};
use second::cases::Case;

/// The framed lines of source 004, section 6.3, and of source 003, section 7.5.
const LINES: [&str; 22] = [
    "t0A9524",
    "<0A>04935F",
    "tes4_hr1000#Jun  7 2021 16:51:380569DC",
    "D*47EE4F",
    "e03BFA2",
    "<03>4CFEF6",
    "e4D7D16",
    "send_string \"Hello World!\"04640F",
    "<04>4ECF1D",
    "057E6C",
    "<05>4F89CA",
    "50D13C",
    "THello World!51D393",
    "52F17E",
    "S0900000000AA9D43",
    "<0A>454FBA",
    "tes4_lr1000#Jun 7 2021 16:51:38463321",
    "R*47D271",
    "send_string \"Hello World\"04A94C",
    "THello World5142CE",
    "05",
    "",
];

pub fn all() -> Vec<Example> {
    [printed(), refusals(), bounds(), contents()].into_iter().flatten().collect()
}

fn hex(bytes: &[u8]) -> String {
    bytes.iter().map(|byte| format!("{byte:02X}")).collect()
}

fn read(line: &[u8], expected: u8) -> Case {
    Case::FrameRead { line: line.to_vec(), expected }
}

fn write(content: &[u8], number: u8, buffer: usize) -> Case {
    Case::FrameWrite { content: content.to_vec(), number, buffer }
}

/// Each line is read as it is printed, and written so again; spoilt in any one byte it is refused.
fn printed() -> Vec<Example> {
    let mut examples = Vec::new();
    for line in LINES.iter().map(|line| line.as_bytes()) {
        if line.len() < 6 {
            examples.push(expect(read(line, 5), refused(2, 0)));
            continue;
        }
        let (content, tail) = line.split_at(line.len() - 6);
        let number = u8::from_str_radix(std::str::from_utf8(&tail[..2]).expect("printed"), 16).expect("printed");
        let next = number.wrapping_add(1);
        let good = format!("result=0\ncontent={}\nnext={next:02X}\n", hex(content));
        examples.push(expect(read(line, number), good));
        examples.push(expect(read(line, next), refused(4, 0)));
        let written = format!("result=0\nbytes={}0A\n", hex(line));
        examples.push(expect(write(content, number, line.len() + 1), written.clone()));
        examples.push(expect(write(content, number, 200), written));
        examples.push(expect(write(content, number, line.len()), refused(5, 0)));
        for at in 0..line.len() {
            let mut spoilt = line.to_vec();
            spoilt[at] ^= 1;
            examples.push(expect(read(&spoilt, number), refused(3, 0)));
        }
    }
    examples
}

fn refusals() -> Vec<Example> {
    let as_printed = b"tes4_hr1000#Jun 7 2021 16:51:380569DC";
    vec![
        expect(read(as_printed, 0x05), refused(3, 0)),
        expect(read(b"S090000000AA9D43", 0xAA), refused(3, 0)),
        expect(read(b"e03bfa2", 0x03), refused(3, 0)),
        expect(read(b"e0\n3BFA2", 0x03), refused(3, 0)),
        expect(read(b"e03BFA2\n", 0x03), refused(3, 0)),
        expect(write(b"a\nb", 0, 200), refused(1, 0)),
        expect(write(b"a\nb", 0, 0), refused(1, 0)),
        expect(write(b"", 0, 6), refused(5, 0)),
    ]
}

/// Content of 0, 126, 127 and 128 bytes; the last number; every number digit that is none.
fn bounds() -> Vec<Example> {
    let mut examples = Vec::new();
    for length in [0, 1, 126, 127, 128, 129, 300] {
        let content = vec![b'x'; length];
        for number in [0, 0x7F, 0xFE, 0xFF] {
            for buffer in [length + 6, length + 7, length + 8] {
                examples.push(alike(write(&content, number, buffer)));
            }
            let framed = framed(&content, &format!("{number:02X}"));
            examples.push(alike(read(&framed, number)));
            if length > 127 {
                examples.push(expect(read(&framed, number), refused(1, 0)));
            }
        }
    }
    for byte in 0..=255u8 {
        for digits in [[byte, b'0'], [b'0', byte], [byte, byte]] {
            let mut line = b"content".to_vec();
            line.extend(digits);
            let sum = second::frame::crc16(&line);
            line.extend(format!("{sum:04X}").bytes());
            examples.push(alike(read(&line, 0)));
            examples.push(alike(read(&line, 0xAA)));
        }
        let mut line = b"057E6C".to_vec();
        line[2 + usize::from(byte % 4)] = byte;
        examples.push(alike(read(&line, 0x05)));
    }
    examples
}

fn framed(content: &[u8], digits: &str) -> Vec<u8> {
    let mut line = [content, digits.as_bytes()].concat();
    let sum = second::frame::crc16(&line);
    line.extend(format!("{sum:04X}").bytes());
    line
}

/// The content of a line by each length, also by more than it has.
fn contents() -> Vec<Example> {
    let line = b"e03BFA2";
    let lengths = (0..=line.len() + 1).chain([127, usize::MAX]);
    let content = |length: usize| Case::Content { line: line.to_vec(), length };
    let good = |length: usize| format!("content={}\n", hex(&line[..line.len().min(length)]));
    lengths.map(|length| expect(content(length), good(length))).collect()
}
