use super::{alike, expect, lines, refused, Example};
use second::cases::Case;

pub fn all() -> Vec<Example> {
    [commands(), spoilt_lines(), form(), form_bounds(), literals(), rules(), rule_bounds(), tables()]
        .into_iter()
        .flatten()
        .collect()
}

fn load(text: &[u8]) -> Case {
    Case::Load { script: text.to_vec() }
}

/// Every command in good form, and how it stands in the table.
const GOOD: [(&str, &str); 32] = [
    ("var c", "var v2"),
    ("store_var a -5m ja", "store_var v0 fBF747AE147AE147B t6A61"),
    ("store_var b 7i zz", "store_var v1 i7 t7A7A"),
    ("copy_var a b", "copy_var v0 v1"),
    ("add_var a b", "add_var v0 v1"),
    ("sub_var a 1", "sub_var v0 f3FF0000000000000"),
    ("mul_var a -2i", "mul_var v0 i-2"),
    ("div_var b a", "div_var v1 v0"),
    ("if a == 1", "if v0 o== f3FF0000000000000"),
    ("elseif 1i != b", "elseif i1 o!= v1"),
    ("loop a < b", "loop v0 o< v1"),
    ("loop a <= b", "loop v0 o<= v1"),
    ("loop a > b", "loop v0 o> v1"),
    ("loop a >= b", "loop v0 o>= v1"),
    ("meas_loop_lsv a b 1 2 b 0", "meas_loop_lsv v0 v1 f3FF0000000000000 f4000000000000000 v1 f0000000000000000"),
    ("meas 1500m a da", "meas f3FF8000000000000 v0 t6461"),
    ("timer_get a", "timer_get v0"),
    ("pck_add b", "pck_add v1"),
    ("send_string \"# a\t\r;\"", "send_string s25:31"),
    ("send_string \"\"", "send_string s25:25"),
    ("wait a", "wait v0"),
    ("set_e -0", "set_e f0000000000000000"),
    ("set_pgstat_mode 255", "set_pgstat_mode n255"),
    ("else", "else"),
    ("endif", "endif"),
    ("endloop", "endloop"),
    ("breakloop", "breakloop"),
    ("timer_start", "timer_start"),
    ("pck_start", "pck_start"),
    ("pck_end", "pck_end"),
    ("cell_on", "cell_on"),
    ("on_finished:", "on_finished:"),
];

fn commands() -> Vec<Example> {
    let mut examples = Vec::new();
    for (line, item) in GOOD {
        let names = if line == "var c" { 3 } else { 2 };
        let answer = format!("result=0\nnames={names}\nend=4\nitems=3\nitem=1 var v0\nitem=2 var v1\nitem=3 {item}\n");
        examples.push(expect(load(&lines(&format!("var a|var b|{line}||"))), answer.clone()));
        if !line.contains('"') {
            let blanks = format!("var a|var b| \t{}\t ||", line.replace(' ', "\t  "));
            examples.push(expect(load(&lines(&blanks)), answer));
        }
    }
    for alone in ["cell_off", "abort"] {
        examples.push(alike(load(&lines(&format!("{alone}||")))));
    }
    examples
}

/// Every command with a word too few or too many, and with each word in each other form.
fn spoilt_lines() -> Vec<Example> {
    const WORDS: [&str; 34] = [
        "a", "b", "c", "A", "_", "a-", "1a", "abcdefghijklmnop", "abcdefghijklmnopq", "1", "-1", "--1", "1i", "1m", "1x", "1mm",
        "+1", "1.0", "2147483647", "2147483648", "-2147483648", "-2147483649", "0000000001", "00000000001", "==", "=", "da",
        "dA", "d", "daa", "255", "256", "\"x\"", "#",
    ];
    let mut examples = Vec::new();
    for (line, _) in GOOD.into_iter().chain([("cell_off", ""), ("abort", "")]) {
        let words: Vec<&str> = line.split(' ').collect();
        let mut spoilt = |words: Vec<&str>| examples.push(alike(load(&lines(&format!("var a|var b|{}||", words.join(" "))))));
        for at in 0..words.len() {
            spoilt([&words[..at], &words[at + 1..]].concat());
            for word in WORDS {
                spoilt([&words[..at], &[word], &words[at + 1..]].concat());
                spoilt([&words[..=at], &[word], &words[at + 1..]].concat());
            }
        }
    }
    examples
}

/// The numbers 10 to 18 as the rules name them.
fn form() -> Vec<Example> {
    let table: [(&str, u16, usize); 40] = [
        ("", 11, 1),
        ("cell_on", 11, 1),
        ("cell_on|", 11, 2),
        ("cell_on|bad", 11, 2),
        ("bad|", 14, 1),
        ("bad||", 14, 1),
        ("#|  |\t#x|bad||", 14, 4),
        ("Cell_on||", 14, 1),
        ("on_finished||", 14, 1),
        ("C||", 14, 1),
        ("-||", 14, 1),
        ("cell_on\r||", 14, 1),
        ("cell_on\0||", 14, 1),
        ("\r||", 14, 1),
        ("send_string\"x\"||", 14, 1),
        ("send_string||", 15, 1),
        ("send_string \"||", 15, 1),
        ("send_string \"x\" y||", 15, 1),
        ("send_string \"x\"y||", 15, 1),
        ("send_string x \"y\"||", 15, 1),
        ("cell_on x||", 15, 1),
        ("wait 1 # x||", 15, 1),
        ("wait nowhere 1||", 15, 1),
        ("var||", 15, 1),
        ("var 1||", 15, 1),
        ("var a b||", 15, 1),
        ("var abcdefghijklmnopq||", 15, 1),
        ("set_pgstat_mode 256||", 15, 1),
        ("set_pgstat_mode 0x1||", 15, 1),
        ("set_pgstat_mode -1||", 15, 1),
        ("set_pgstat_mode 18446744073709551617||", 15, 1),
        ("store_var nowhere 1 jaa||", 15, 1),
        ("wait nowhere||", 16, 1),
        ("wait a|var a||", 16, 1),
        ("var a|wait A||", 16, 2),
        ("var a|copy_var a b||", 16, 2),
        ("var a|var a||", 17, 2),
        ("var a|cell_on|var a||", 17, 3),
        ("var a|var a x||", 15, 2),
        ("var a|if 1 == 1 1||", 15, 2),
    ];
    table.iter().map(|(text, number, line)| expect(load(&lines(text)), refused(*number, *line))).collect()
}

/// Lengths, counts of items and of names at their ends.
fn form_bounds() -> Vec<Example> {
    let mut examples = vec![expect(load(b"\n"), "result=0\nnames=0\nend=1\nitems=0\n".into())];
    for length in [8_191, 8_192, 8_193, 20_000] {
        for start in ["|", "cell_on||", "bad|", ""] {
            let mut text = lines(start);
            text.resize(length, b'x');
            examples.push(if length > 8_192 { expect(load(&text), refused(10, 0)) } else { alike(load(&text)) });
        }
    }
    for length in [126, 127, 128, 129] {
        for start in ["#", " ", "cell_on", "bad", "send_string \"x\"", "wait 1 "] {
            let text = lines(&format!("cell_on|{start:<length$}||"));
            examples.push(if length > 127 { expect(load(&text), refused(12, 2)) } else { alike(load(&text)) });
        }
    }
    for count in [127, 128, 129, 130] {
        for last in ["cell_off", "bad", "wait", "# no item", "var x"] {
            let text = lines(&format!("{}{last}||", "cell_on|".repeat(count - 1)));
            let over = count > 129 || (count == 129 && last != "# no item");
            examples.push(if over { expect(load(&text), refused(13, 129)) } else { alike(load(&text)) });
        }
    }
    for count in [31, 32, 33, 34] {
        for last in ["var n0", "var x", "var x y", "wait n31"] {
            let names: String = (0..count - 1).map(|number| format!("var n{number}|")).collect();
            examples.push(alike(load(&lines(&format!("{names}{last}||")))));
        }
    }
    let names: String = (0..32).map(|number| format!("var n{number}|")).collect();
    examples.push(expect(load(&lines(&format!("{names}var x||"))), refused(18, 33)));
    examples.push(expect(load(&lines(&format!("{names}var n31||"))), refused(17, 33)));
    for byte in 0..=255u8 {
        for text in [&b"var a?||"[..], b"var ?||", b"wait 1?||", b"?cell_on||", b"cell_on?||", b"send_string \"?\"||", b"?||"] {
            let text = text.iter().map(|&known| if known == b'?' { byte } else { known }).collect::<Vec<u8>>();
            let text = text.into_iter().map(|known| if known == b'|' { b'\n' } else { known }).collect::<Vec<u8>>();
            examples.push(alike(load(&text)));
        }
    }
    examples
}

/// Each letter behind numbers of all sizes.
fn literals() -> Vec<Example> {
    let mut examples = Vec::new();
    let numbers = [
        "0", "-0", "1", "-1", "7", "1500", "999999999", "1234567890", "2147483647", "-2147483648", "2147483648", "-2147483649",
        "4294967296", "9999999999", "10000000000", "00000000000", "0000000007", "-0000000007", "-",
    ];
    let letters = ["", "a", "f", "p", "n", "u", "m", "k", "M", "G", "T", "P", "E", "i", "I", "K", " ", "mi", "e", "y"];
    for number in numbers {
        for letter in letters {
            examples.push(alike(load(&lines(&format!("wait {number}{letter}||")))));
            examples.push(alike(load(&lines(&format!("var a|store_var a {number}{letter} aa||")))));
        }
    }
    examples.push(expect(
        load(&lines("wait 1500m||")),
        "result=0\nnames=0\nend=2\nitems=1\nitem=1 wait f3FF8000000000000\n".into(),
    ));
    examples.push(expect(
        load(&lines("wait -0||")),
        "result=0\nnames=0\nend=2\nitems=1\nitem=1 wait f0000000000000000\n".into(),
    ));
    examples
}

fn check(text: &str) -> Case {
    Case::Check { script: lines(&format!("{text}||")) }
}

/// Each of 19 to 26 in the ways that the rules name, alone and with a higher one; 0 for accepted.
fn rules() -> Vec<Example> {
    let table: &[(&str, u16, usize)] = &[
        // 19: operands, places for floats, writings; two literals too; kinds that are known further down
        ("if 1 == 1i|endif", 19, 1),
        ("loop 1i == 1|endloop", 19, 1),
        ("if 1 == 1|elseif 1 == 1i|endif", 19, 2),
        ("wait 1i", 19, 1),
        ("set_e 1i", 19, 1),
        ("var a|meas 1i a ja", 19, 2),
        ("var a|var b|meas_loop_lsv a b 1 1 1 1i|endloop", 19, 3),
        ("var a|store_var a 1i ja|store_var a 1 ja", 19, 3),
        ("var a|store_var a 1i ja|meas 1 a ja", 19, 3),
        ("var a|store_var a 1i ja|timer_get a", 19, 3),
        ("var a|var b|store_var b 1i ja|meas_loop_lsv a b 1 1 1 1|endloop", 19, 4),
        ("var a|store_var a 1i ja|add_var a 1", 19, 3),
        ("var a|var b|store_var a 1 ja|store_var b 1i ja|copy_var a b", 19, 5),
        ("var a|var b|store_var a 1 ja|store_var b 1i ja|div_var a b", 19, 5),
        ("var a|wait a|store_var a 1i ja", 19, 2),
        ("var a|var b|copy_var a b|store_var a 1i ja|store_var b 1 ja", 19, 3),
        ("var a|add_var a 1|store_var a 1i ja", 19, 2),
        ("var a|on_finished:|store_var a 1i ja|wait a", 19, 4),
        ("var a|store_var a 1i ja|pck_start|pck_add a|pck_end", 0, 0),
        ("var a|copy_var a a", 20, 2),
        // 20: what is surely written
        ("var a|wait a", 20, 2),
        ("var a|add_var a 1", 20, 2),
        ("var a|var b|store_var a 1 ja|add_var a b", 20, 4),
        ("var a|var b|copy_var a b", 20, 3),
        ("var a|if a == 1|endif", 20, 2),
        ("var a|loop 1 == a|endloop", 20, 2),
        ("var a|pck_start|pck_add a", 20, 3),
        ("var a|meas a a ja", 20, 2),
        ("var a|var b|meas_loop_lsv a b a 1 1 1|endloop", 20, 3),
        ("var a|var b|meas_loop_lsv a b 1 1 1 1|wait a|wait b|endloop", 0, 0),
        ("var a|var b|meas_loop_lsv a b 1 1 1 1|endloop|wait a", 20, 5),
        ("var a|loop 1 == 1|store_var a 1 ja|endloop|wait a", 20, 5),
        ("var a|store_var a 1 ja|loop 1 == 1|wait a|endloop|wait a", 0, 0),
        ("var a|if 1 == 1|store_var a 1 ja|endif|wait a", 20, 5),
        ("var a|if 1 == 1|store_var a 1 ja|else|store_var a 2 ja|endif|wait a", 0, 0),
        ("var a|if 1 == 1|store_var a 1 ja|elseif 1 == 2|store_var a 1 ja|endif|wait a", 20, 7),
        ("var a|if 1 == 1|store_var a 1 ja|elseif 1 == 2|cell_on|else|store_var a 1 ja|endif|wait a", 20, 9),
        ("var a|if 1 == 1|store_var a 1 ja|elseif a == 2|endif", 20, 4),
        ("var a|if 1 == 1|store_var a 1 ja|else|wait a|endif", 20, 5),
        ("var a|if 1 == 1|abort|else|store_var a 1 ja|endif|wait a", 20, 7),
        ("var a|store_var a 1 ja|on_finished:|wait a", 20, 4),
        ("var a|on_finished:|store_var a 1 ja|wait a", 0, 0),
        ("var a|loop 1 == 1|store_var a 1 ja|elseif a == 1", 21, 4),
        // 21: marks out of order
        ("else", 21, 1),
        ("elseif 1 == 1", 21, 1),
        ("endif", 21, 1),
        ("endloop", 21, 1),
        ("breakloop", 21, 1),
        ("if 1 == 1|endloop", 21, 2),
        ("loop 1 == 1|endif", 21, 2),
        ("loop 1 == 1|else", 21, 2),
        ("if 1 == 1|else|else|endif", 21, 3),
        ("if 1 == 1|else|elseif 1 == 1|endif", 21, 3),
        ("if 1 == 1|breakloop|endif", 21, 2),
        ("loop 1 == 1|if 1 == 1|breakloop|endif|endloop", 0, 0),
        ("loop 1 == 1|endloop|breakloop", 21, 3),
        ("if 1 == 1", 21, 2),
        ("loop 1 == 1|if 1 == 1|endif", 21, 4),
        ("if 1 == 1|elseif 1 == 2|elseif 1 == 3|else|endif", 0, 0),
        // 23: packages
        ("pck_start|pck_start", 23, 2),
        ("pck_end", 23, 1),
        ("var a|store_var a 1 ja|pck_add a", 23, 3),
        ("pck_start|if 1 == 1", 23, 2),
        ("pck_start|loop 1 == 1", 23, 2),
        ("var a|var b|pck_start|meas_loop_lsv a b 1 1 1 1", 23, 4),
        ("if 1 == 1|pck_start|else", 23, 3),
        ("if 1 == 1|pck_start|elseif 1 == 1", 23, 3),
        ("if 1 == 1|pck_start|endif", 23, 3),
        ("loop 1 == 1|pck_start|endloop", 23, 3),
        ("loop 1 == 1|pck_start|breakloop", 23, 3),
        ("pck_start|on_finished:", 23, 2),
        ("pck_start", 23, 2),
        ("pck_start|pck_end|pck_end", 23, 3),
        ("pck_start|cell_on|send_string \"x\"|abort|pck_end", 0, 0),
        ("loop 1 == 1|pck_start", 21, 3),
        ("pck_start|endif", 21, 2),
        // 24: the tag
        ("on_finished:|on_finished:", 24, 2),
        ("if 1 == 1|on_finished:|endif", 24, 2),
        ("loop 1 == 1|on_finished:", 24, 2),
        ("cell_on|on_finished:|cell_off", 0, 0),
        // 25, 26: measuring loops
        ("var a|meas_loop_lsv a a 1 1 1 1|endloop", 25, 2),
        ("var a|var b|meas_loop_lsv a b 1 1 1 1|meas_loop_lsv a a 1 1 1 1", 25, 4),
        ("var a|var b|meas_loop_lsv a b 1 1 1 1|meas_loop_lsv a b 1 1 1 1", 26, 4),
        ("var a|var b|meas_loop_lsv a b 1 1 1 1|loop 1 == 1|if 1 == 1|meas_loop_lsv a b 1 1 1 1", 26, 6),
        ("var a|var b|loop 1 == 1|meas_loop_lsv a b 1 1 1 1|endloop|meas_loop_lsv a b 1 1 1 1|endloop|endloop", 0, 0),
        ("var a|pck_start|meas_loop_lsv a a 1 1 1 1", 23, 3),
    ];
    let verdict = |number: u16, line: usize| if number == 0 { "result=0\n".into() } else { refused(number, line) };
    table.iter().map(|(text, number, line)| expect(check(text), verdict(*number, *line))).collect()
}

/// Eight and nine open boxes of each sort.
fn rule_bounds() -> Vec<Example> {
    let mut examples = Vec::new();
    for (head, end) in [("if 1 == 1", "endif"), ("loop 1 == 1", "endloop")] {
        for depth in [7, 8, 9, 10] {
            let text = format!("{}{}cell_on", format!("{head}|").repeat(depth), format!("{end}|").repeat(depth));
            let answer = if depth > 8 { refused(22, 9) } else { "result=0\n".into() };
            examples.push(expect(check(&text), answer));
            let mut items = format!("cell_on|{}", format!("{head}|").repeat(depth));
            items += "var a|var b|meas_loop_lsv a b 1 1 1 1|endloop";
            examples.push(alike(check(&items)));
        }
    }
    examples
}

/// Tables made by hand, in and out of shape.
fn tables() -> Vec<Example> {
    let table = |length: usize, text: &str| {
        let text = format!("op=check_table\nlength={length}\n{}", text.replace('|', "\n"));
        second::cases::read_case(&text).expect("a case")
    };
    let good = || "result=0\n".to_string();
    let nan = "f7FF8000000000000";
    vec![
        expect(table(0, "names=0|end=1|items=0"), good()),
        expect(table(0, "names=32|end=1|items=0"), good()),
        expect(table(0, "names=33|end=1|items=0"), refused(30, 0)),
        expect(table(0, "names=0|end=1|items=129"), refused(30, 0)),
        expect(table(0, "names=1|end=1|items=1|item=7 var v0"), good()),
        expect(table(0, "names=1|end=1|items=1|item=7 var v1"), refused(30, 0)),
        expect(table(0, "names=1|end=1|items=1|item=7 copy_var v0 v1"), refused(30, 0)),
        expect(table(0, "names=1|end=1|items=1|item=7 timer_get v18446744073709551615"), refused(30, 0)),
        expect(table(0, "names=0|end=9|items=1|item=7 wait v0"), refused(30, 0)),
        expect(table(0, &format!("names=0|end=9|items=1|item=7 wait {nan}")), refused(30, 0)),
        expect(table(0, "names=0|end=9|items=1|item=7 wait fFFF0000000000000"), refused(30, 0)),
        expect(table(0, &format!("names=1|end=9|items=1|item=7 store_var v0 {nan} t0000")), refused(30, 0)),
        expect(table(0, &format!("names=0|end=9|items=1|item=7 if i1 o== {nan}")), refused(30, 0)),
        expect(table(5, "names=0|end=9|items=1|item=7 send_string s2:5"), good()),
        expect(table(5, "names=0|end=9|items=1|item=7 send_string s5:5"), good()),
        expect(table(5, "names=0|end=9|items=1|item=7 send_string s2:6"), refused(30, 0)),
        expect(table(5, "names=0|end=9|items=1|item=7 send_string s3:2"), refused(30, 0)),
        expect(table(5, "names=0|end=9|items=1|item=7 send_string s18446744073709551615:2"), refused(30, 0)),
        expect(table(0, "names=0|end=9|items=1|item=7 endif"), refused(21, 7)),
        expect(table(0, "names=0|end=9|items=1|item=7 if i1 o== i1"), refused(21, 9)),
        expect(table(0, "names=1|end=9|items=1|item=0 wait v0"), refused(20, 0)),
    ]
}
