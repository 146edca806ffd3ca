use super::{alike, expect, lines, refused, Example};
use second::cases::{self, Case};
use second::reply::{Reply, ROWS};
use second::scans::{bytes_of, READ, REFUSED};

pub fn all() -> Vec<Example> {
    let packages = [packages(), cut_packages()];
    let replies = [replies(), refused_replies(), bounds(), cut_replies(), rows(), line_readers()];
    let scans = [scans(), refused_scans(), many_scans()];
    packages.into_iter().chain(replies).chain(scans).flatten().collect()
}

fn package(text: &str) -> Case {
    Case::Package { bytes: text.into() }
}

fn parts(texts: &[&str]) -> String {
    let mut answer = format!("result=0\nparts={}\n", texts.len());
    for (place, text) in texts.iter().enumerate() {
        answer += &format!("part={} {text}\n", place + 1);
    }
    answer
}

/// Cases F to J, the examples of source 001 (5.3 and 6.3), and each way to spoil a part.
fn packages() -> Vec<Example> {
    let mut examples = vec![
        expect(package("Pda7F0BDF9u"), parts(&["type=6461 value=f-999943e-6 status=- range=- noise=-"])),
        expect(package("Pda0000000m"), parts(&["type=6461 value=f-134217728e-3 status=- range=- noise=-"])),
        expect(package("PdaFFFFFFF "), parts(&["type=6461 value=f134217727e0 status=- range=- noise=-"])),
        expect(package("Pja8000001i"), parts(&["type=6A61 value=i1 status=- range=- noise=-"])),
        expect(package("Paa     nan,4F"), parts(&["type=6161 value=nan status=- range=- noise=15"])),
        expect(
            package("Pda8000800u;ba8000800u,10,20B"),
            parts(&[
                "type=6461 value=f2048e-6 status=- range=- noise=-",
                "type=6261 value=f2048e-6 status=0 range=11 noise=-",
            ]),
        ),
        expect(
            package("PdaDF5CB18n;ba9699F74p,14,218,40"),
            parts(&[
                "type=6461 value=f99994392e-9 status=- range=- noise=-",
                "type=6261 value=f23699316e-12 status=4 range=24 noise=0",
            ]),
        ),
    ];
    let bad = [
        "", "P", "p", "Q", "da8000000u", "P;", "Pda8000000", "Pda800000u", "PdA8000000u", "Pd18000000u", "Pda800000au",
        "Pda8000000x", "Pda8000000U", "Pda8000000u,", "Pda8000000u,1", "Pda8000000u,1g", "Pda8000000u,1a", "Pda8000000u,100",
        "Pda8000000u,2A", "Pda8000000u,20b", "Pda8000000u,30", "Pda8000000u,40,10", "Pda8000000u,10,10", "Pda8000000u;",
        "Pda8000000u ", " Pda8000000u", "Pda    nan", "Pda      nan", "Pda     NaN", "Pda     nani", "Pda     nan,1",
    ];
    examples.extend(bad.iter().map(|text| expect(package(text), refused(40, if text.ends_with("u;") { 2 } else { 1 }))));
    for letter in 0..=255u8 {
        let mut bytes = b"Pda8000001?,10".to_vec();
        bytes[10] = letter;
        examples.push(alike(Case::Package { bytes: bytes.clone() }));
        bytes[10] = b'm';
        bytes[12] = letter;
        examples.push(alike(Case::Package { bytes: bytes.clone() }));
        bytes[12] = b'1';
        bytes[3 + usize::from(letter % 7)] = letter;
        examples.push(alike(Case::Package { bytes }));
    }
    for count in 15..=18 {
        let good = ["da8000000u"; 18][..count].join(";");
        let answer = if count > 16 { refused(41, 17) } else { parts(&vec!["type=6461 value=f0e-6 status=- range=- noise=-"; count]) };
        examples.push(expect(package(&format!("P{good}")), answer));
        let place = if count >= 16 { (41, 17) } else { (40, count + 1) };
        examples.push(expect(package(&format!("P{good};")), refused(place.0, place.1)));
        for bad in 0..count {
            let mut texts = vec!["da8000000u"; count];
            texts[bad] = "da8000000";
            let answer = if bad < 16 { refused(40, bad + 1) } else { refused(41, 17) };
            examples.push(expect(package(&format!("P{}", texts.join(";"))), answer));
        }
    }
    examples
}

/// A good package cut at every byte.
fn cut_packages() -> Vec<Example> {
    let text = "PdaDF5CB18n;ba9699F74p,14,218,40;ja     nan,1F;eb8000001i";
    (0..=text.len()).map(|at| alike(package(&text[..at]))).collect()
}

fn reply(text: &str) -> Case {
    Case::Reply { rows: 1_024, bytes: lines(text) }
}

/// The listing, from the first answers and the rows as kind, mark, parent and packages.
fn listing(code: &str, used: usize, rows: &[(&str, &str, usize, usize)]) -> String {
    let mut text = format!("result=0\ncode={code}\nused={used}\nrows={}\n", rows.len());
    for (number, (kind, mark, parent, packages)) in rows.iter().enumerate() {
        text += &format!("row={number}\nkind={kind}\nmark={mark}\nparent={parent}\npackages={packages}\n");
    }
    text
}

fn replies() -> Vec<Example> {
    let five = ["PdaDF5CB18n;ba9699F74p,14,218,40"; 5].join("|");
    vec![
        expect(reply("e|M0000|*||"), listing("0000", 11, &[("S", "0000", 0, 0), ("M", "0000", 0, 0)])),
        expect(
            reply(&format!("e|M0007|{five}|*||")),
            listing("0000", 11 + 5 * 33, &[("S", "0000", 0, 0), ("M", "0007", 0, 5)]),
        ),
        expect(reply("e||"), listing("0000", 3, &[("S", "0000", 0, 0)])),
        expect(reply("e!4001|"), listing("4001", 7, &[("S", "0000", 0, 0)])),
        expect(reply("e!4001: Line 2, Col 3|L|"), listing("4001", 22, &[("S", "0000", 0, 0)])),
        expect(
            reply("e|L|M0001|Paa8000000 |*|Paa8000000 |+|Paa8000000 |M00FF|e!0010|"),
            listing("0010", 63, &[("S", "0000", 0, 1), ("L", "0000", 0, 1), ("M", "0001", 1, 1), ("M", "00FF", 0, 0)]),
        ),
        expect(reply("e|h|H|Y|Z|T|Tany e!; bytes|||"), listing("0000", 28, &[("S", "0000", 0, 0)])),
        expect(
            reply("e|M0000|M0001|*|*||"),
            listing("0000", 19, &[("S", "0000", 0, 0), ("M", "0000", 0, 0), ("M", "0001", 1, 0)]),
        ),
    ]
}

fn refused_line(number: u16, line: usize) -> String {
    format!("result={number}\nline={line}\n")
}

fn refused_replies() -> Vec<Example> {
    let table: [(&str, u16, usize); 44] = [
        ("", 50, 1),
        ("e", 50, 1),
        ("e|", 50, 2),
        ("e|L", 50, 2),
        ("e|L|+|", 50, 4),
        ("|", 51, 1),
        ("E|", 51, 1),
        ("ee|", 51, 1),
        ("M0000|", 51, 1),
        ("e!0000|", 51, 1),
        ("e!400|", 51, 1),
        ("e!400a|", 51, 1),
        ("e!4001:|", 51, 1),
        ("e!4001:x|", 51, 1),
        ("e!4001 |", 51, 1),
        ("!4001|", 51, 1),
        ("e|e|", 51, 2),
        ("e|!4001|", 51, 2),
        ("e|e!0000|", 51, 2),
        ("e|M|", 51, 2),
        ("e|M000|", 51, 2),
        ("e|M00000|", 51, 2),
        ("e|M000a|", 51, 2),
        ("e|L |", 51, 2),
        ("e|LL|", 51, 2),
        ("e|**|", 51, 2),
        ("e|+*|", 51, 2),
        ("e|hh|", 51, 2),
        ("e| |", 51, 2),
        ("e|\r|", 51, 2),
        ("e|c|", 51, 2),
        ("e|L|x|", 51, 3),
        ("e|P|", 40, 2),
        ("e|L|Pda8000000u;|", 40, 3),
        ("e|*|", 52, 2),
        ("e|+|", 52, 2),
        ("e|M0000|+|", 52, 3),
        ("e|L|*|", 52, 3),
        ("e|L|M0000|+|", 52, 4),
        ("e|L|+|+|", 52, 4),
        ("e|L||", 52, 3),
        ("e|M0000|L|+||", 52, 5),
        ("e|L|L|L|L|L|L|L|L|L|", 53, 10),
        ("e|L|M0000|L|M0000|L|M0000|L|M0000|M0000|", 53, 10),
    ];
    let mut examples: Vec<Example> =
        table.iter().map(|(text, number, line)| expect(reply(text), refused_line(*number, *line))).collect();
    let parts = ["da8000000u"; 17].join(";");
    examples.push(expect(reply(&format!("e|T|P{parts}|")), refused_line(41, 3)));
    examples
}

/// Tables, loops and lengths at their ends.
fn bounds() -> Vec<Example> {
    let mut examples = Vec::new();
    let lent = |rows: usize, text: &str| Case::Reply { rows, bytes: lines(text) };
    examples.push(expect(lent(0, "e||"), refused_line(54, 1)));
    examples.push(expect(lent(0, "x|"), refused_line(51, 1)));
    examples.push(expect(lent(0, ""), refused_line(50, 1)));
    examples.push(expect(lent(1, "e|L|+||"), refused_line(54, 2)));
    examples.push(expect(lent(2, "e|L|+|M0000|*||"), refused_line(54, 4)));
    examples.push(alike(lent(3, "e|L|+|M0000|*||")));
    examples.push(expect(lent(8, "e|L|L|L|L|L|L|L|L|"), refused_line(54, 9)));
    examples.push(expect(lent(9, "e|L|L|L|L|L|L|L|L|L|"), refused_line(53, 10)));
    examples.push(alike(lent(9, "e|L|L|L|L|L|L|L|L|+|+|+|+|+|+|+|+||")));
    for loops in [1_022, 1_023, 1_024, 1_025] {
        let text = format!("e|{}|", "L|+|".repeat(loops));
        examples.push(alike(lent(1_024, &text)));
        if loops > 1_023 {
            examples.push(expect(lent(1_024, &text), refused_line(54, 2 * 1_023 + 2)));
        }
        for row in [0, 1, loops - 1, loops, loops + 1] {
            examples.push(alike(Case::Row { row, bytes: lines(&text) }));
        }
    }
    for length in [65_534, 65_535, 65_536, 65_537, 65_538, 100_000] {
        for (start, fill) in [("e||", b'x'), ("e|T", b'x'), ("", b'\n'), ("e|", b'h'), ("e|L|P", b';')] {
            let mut bytes = lines(start);
            bytes.resize(length, fill);
            let case = Case::Reply { rows: 1_024, bytes };
            examples.push(if length > 65_536 { expect(case, refused_line(55, 0)) } else { alike(case) });
        }
    }
    examples
}

/// A good reply cut at every byte.
fn cut_replies() -> Vec<Example> {
    let text = "e|M0000|PdaDF5CB18n;ba9699F74p,14|L|h|Tx|Paa     nan|+|*|M0001|*|L|M0002|C0001|h|-|C|-|*|+||more";
    let text = lines(text);
    (0..=text.len()).map(|at| alike(Case::Reply { rows: 20, bytes: text[..at].to_vec() })).collect()
}

fn rows() -> Vec<Example> {
    let good = "e|L|M0001|Paa8000000 |*|+||";
    let scan = "e|M0005|C0001|Paa8000000 |-|C|-|*||";
    let row = |row: usize, text: &str| Case::Row { row, bytes: lines(text) };
    vec![
        expect(row(0, good), "result=0\nkind=S\nmark=0000\nparent=0\npackages=0\n".into()),
        expect(row(1, good), "result=0\nkind=L\nmark=0000\nparent=0\npackages=0\n".into()),
        expect(row(2, good), "result=0\nkind=M\nmark=0001\nparent=1\npackages=1\n".into()),
        expect(row(2, scan), "result=0\nkind=C\nmark=0000\nparent=1\npackages=1\n".into()),
        expect(row(3, scan), "result=0\nkind=C\nmark=0000\nparent=1\npackages=0\n".into()),
        expect(row(3, good), refused_line(56, 0)),
        expect(row(usize::MAX, good), refused_line(56, 0)),
        expect(row(99, "e|*|"), refused_line(52, 2)),
    ]
}

/// A reader of lines over a few bytes, and over as many lines as there can be here.
fn line_readers() -> Vec<Example> {
    let read = |text: &str| Case::Lines { bytes: lines(text) };
    let one = "at=0\nstart=0 end=1 at=2 line=65\nnone at=2\nnone at=2\n";
    let mut examples = vec![
        expect(read(""), "at=0\nnone at=0\nnone at=0\n".into()),
        expect(read("e"), "at=0\nnone at=0\nnone at=0\n".into()),
        expect(read("e|"), one.into()),
        expect(read("e|more"), one.into()),
        expect(read("|"), "at=0\nstart=0 end=0 at=1 line=\nnone at=1\nnone at=1\n".into()),
    ];
    for count in [1, 2, 4_094, 4_095, 4_096] {
        examples.push(alike(read(&"|".repeat(count))));
        examples.push(alike(read(&"x".repeat(count))));
        examples.push(alike(read(&format!("{}|", "x".repeat(count - 1)))));
    }
    examples
}

/// So many rows more than a reply has.
const SPARE: usize = 2;

/// Replies with scans by name, into just enough rows, into a few more, and into all.
fn scans() -> Vec<Example> {
    let mut examples = Vec::new();
    for example in &READ {
        let (bytes, rows) = (bytes_of(example.reply), example.rows());
        let read = Reply { code: example.code, used: bytes.len(), rows: rows.len() };
        let listing = cases::listing(Ok(read), &rows);
        for lent in [rows.len(), rows.len() + SPARE, ROWS] {
            examples.push(expect(Case::Reply { rows: lent, bytes: bytes.clone() }, listing.clone()));
        }
        for row in 0..=rows.len() {
            examples.push(alike(Case::Row { row, bytes: bytes.clone() }));
        }
    }
    examples
}

/// Those that are refused; also one row of them, which is refused alike where 1,024 are lent.
fn refused_scans() -> Vec<Example> {
    let mut examples = Vec::new();
    for example in &REFUSED {
        let (bytes, answer) = (bytes_of(example.reply), refused_line(example.number, example.line));
        if example.lent == ROWS {
            examples.push(expect(Case::Row { row: 0, bytes: bytes.clone() }, answer.clone()));
        }
        examples.push(expect(Case::Reply { rows: example.lent, bytes }, answer));
    }
    examples
}

/// As many scans in one sweep as a table of 1,024 rows has room for, one fewer and one more.
fn many_scans() -> Vec<Example> {
    let mut examples = Vec::new();
    for scans in [1_021, 1_022, 1_023] {
        let bytes = lines(&format!("e|M0001|{}*||", "C0001|-|".repeat(scans)));
        for row in [0, 1, scans, scans + 1, scans + 2] {
            examples.push(alike(Case::Row { row, bytes: bytes.clone() }));
        }
        let case = Case::Reply { rows: 1_024, bytes };
        examples.push(if scans > 1_022 { expect(case, refused_line(54, 2 * 1_022 + 3)) } else { alike(case) });
    }
    examples
}
