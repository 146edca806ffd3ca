use super::{alike, expect, lines, Example};
use second::cases::{read_case, Case};
use second::machine::{Control, Offer};

pub fn all() -> Vec<Example> {
    [printed(), items(), faults(), controls(), numbers(), states(), held()].into_iter().flatten().collect()
}

/// Steps as words: `.` offers nothing, `f` a float, `p` a point, `d` done; `Z` or `Y` before it is the control.
fn steps(words: &str) -> Vec<(Control, Offer)> {
    words.split(' ').map(step).collect()
}

fn step(word: &str) -> (Control, Offer) {
    let (control, offer) = match word.split_at(1) {
        ("Z", rest) => (Control::Z, rest),
        ("Y", rest) => (Control::Y, rest),
        _ => (Control::None, word),
    };
    let number = |text: &str| text.parse::<f64>().expect("a number");
    let offer = match offer.split_at(1) {
        (".", _) => Offer::Nothing,
        ("f", x) => Offer::Float(number(x)),
        ("d", _) => Offer::Done,
        ("p", point) => {
            let (x, y) = point.split_once(',').expect("two numbers");
            Offer::Point(number(x), number(y))
        }
        _ => unreachable!("a step is one of these"),
    };
    (control, offer)
}

fn run(text: &str, words: &str) -> Case {
    Case::Run { script: lines(&format!("{text}||")), steps: steps(words) }
}

/// A run with its answers in order, each with what it handed out, `-` for running and nothing.
fn runs(text: &str, words: &str, answers: &str) -> Example {
    let mut expected = String::new();
    for (place, answer) in answers.split(' ').enumerate() {
        let (answer, things) = match answer {
            "-" => ("running", "-"),
            "waiting" | "finished" => (answer, "-"),
            _ if answer.starts_with("fault:") || answer.starts_with("refused:") || answer.starts_with("stopped:") => (answer, "-"),
            _ => answer.strip_prefix("finished,").map_or(("running", answer), |things| ("finished", things)),
        };
        expected += &format!("step={} answer={answer} things={things}\n", place + 1);
    }
    expect(run(text, words), expected)
}

/// Source 001's example of abort and tag, its output as printed.
fn printed() -> Vec<Example> {
    let script = "var i|store_var i 0i ja|loop i < 10i|  send_string \"before if\"|  if i == 2i|    send_string \"abort\"\
                  |    abort|  endif|  send_string \"after if\"|  add_var i 1i|endloop|on_finished:|send_string \"finished\"";
    let before = text_of(script, "before if");
    let (abort, after, finished) = (text_of(script, "abort"), text_of(script, "after if"), text_of(script, "finished"));
    let turn = format!("{before} - {after} - -");
    let answers = format!("- - L {turn} - {turn} - {before} - {abort} - + {finished} finished");
    let counter = "var i|store_var i 0i aa|loop i < 10i|  add_var i 1i|endloop";
    let turns = ["- - -"; 9].join(" ");
    vec![
        runs(script, &["."; 22].join(" "), &answers),
        runs("send_string \"Hello World!\"", ". .", "text:13:25 finished"),
        runs(counter, &["."; 34].join(" "), &format!("- - L - - {turns} + finished")),
    ]
}

fn text_of(script: &str, text: &str) -> String {
    let start = script.find(&format!("\"{text}\"")).expect("the text stands there") + 1;
    format!("text:{start}:{}", start + text.len())
}

const SWEEP: &str = "var a|var b|meas_loop_lsv a b 1 1 1 1";

/// Every item at its work.
fn items() -> Vec<Example> {
    let (one, two) = ("f3FF0000000000000", "f4000000000000000");
    let sweep_package = format!("{SWEEP}|pck_start|pck_add a|pck_add b|pck_end|endloop");
    let sweep_answers = format!("- - M0000 start part:6461:{one} part:6261:{two} end - * finished");
    vec![
        runs("", ". .", "finished finished"),
        runs("cell_on|cell_off|timer_start", ". . . .", "cell_on cell_off - finished"),
        runs("set_pgstat_mode 7|wait 1|set_e 2", ". . . .", "set_pgstat_mode:7 wait:3FF0000000000000 set_e:4000000000000000 finished"),
        runs("var a|store_var a 7i ja|pck_start|pck_add a|pck_end", ". . . . . .", "- - start part:6A61:i7 end finished"),
        runs("var a|meas 1 a da|pck_start|pck_add a", ". . f2 . .", &format!("- waiting - start part:6461:{two}")),
        runs("var a|timer_get a|pck_start|pck_add a", ". f2 . .", &format!("- - start part:6562:{two}")),
        runs("var a|var b|meas 1 a da|copy_var a b|add_var b 1|pck_start|pck_add b", ". . f1 . . . .", &format!("- - - - - start part:6461:{two}")),
        runs(&sweep_package, ". . p1,2 . . . . . d .", &sweep_answers),
        runs(&format!("{SWEEP}|endloop"), ". . d .", "- - M0000,* finished"),
        runs(&format!("{SWEEP}|endloop"), ". . p1,1 . p1,1 . p1,1 . d .", "- - M0000 - - - - - * finished"),
        runs("var a|meas_loop_lsv a a 1 1 1 1|pck_start|pck_add a", ". p1,2", "- fault:62"),
        runs("var a|meas_loop_lsv a a 1 1 1 1|endloop|pck_start|pck_add a", ". p1,2 . d . .", &format!("- M0000 - * start part:6261:{two}")),
        runs("loop 1 == 2|cell_on|endloop|cell_off", ". . .", "L,+ cell_off finished"),
        runs("if 1 == 2|cell_on|elseif 1 == 1|cell_off|else|cell_on|endif", ". . . .", "- cell_off - finished"),
        runs("if 1 == 2|cell_on|elseif 1 == 2|cell_off|else|cell_on|endif", ". . . .", "- cell_on - finished"),
        runs("if 1 == 2|cell_on|elseif 1 == 2|cell_off|endif|wait 1", ". . .", "- wait:3FF0000000000000 finished"),
        runs("if 1 == 1|cell_on|elseif 1 == 1|cell_off|endif", ". . . .", "- cell_on - finished"),
        runs("if 1 == 2|else|cell_on|else|cell_off|elseif 1 == 1|endif", ". . . .", "- cell_on - finished"),
        runs("loop 1 == 1|if 1 == 1|breakloop|endif|endloop|cell_on", ". . . . .", "L - + cell_on finished"),
        runs(&format!("{SWEEP}|breakloop|endloop|cell_on"), ". . p1,1 . . .", "- - M0000 * cell_on finished"),
        runs("cell_on", "f1 p1,1 d . .", "refused:31 refused:31 refused:31 cell_on finished"),
        runs("var a|meas 1 a da", ". d p1,1 . f1 f1 .", "- refused:31 refused:31 waiting - refused:31 finished"),
        runs(&format!("{SWEEP}|endloop"), ". . f1 . p1,1 f1 .", "- - refused:31 waiting M0000 refused:31 -"),
    ]
}

/// Each of 60 to 64 in its ways, also two at once and before the offer.
fn faults() -> Vec<Example> {
    let ifs = "if 1 == 1|".repeat(9) + &"endif|".repeat(9);
    let loops = "loop 1 == 1|".repeat(8) + "endloop|" + &"endloop|".repeat(7);
    let nine_marks = ["-"; 8].join(" ");
    vec![
        runs("var a|wait a", ". . .", "- fault:60 fault:60"),
        runs("var a|wait a", ". f1 .", "- fault:60 fault:60"),
        runs("var a|add_var a 1i", ". .", "- fault:60"),
        runs("var a|var b|copy_var a b", ". . .", "- - fault:60"),
        runs("var a|if a == 1i|endif", ". .", "- fault:60"),
        runs("var a|meas a a da", ". .", "- fault:60"),
        runs("var a|pck_add a", ". .", "- fault:60"),
        runs("var a|if 1 == 2|elseif a == 1|endif", ". .", "- fault:60"),
        runs("var a|if 1 == 1|elseif a == 1|endif", ". . . .", "- - - finished"),
        runs("wait 1i", ".", "fault:61"),
        runs("set_e 1i", "f1", "fault:61"),
        runs("if 1 == 1i|endif", ".", "fault:61"),
        runs("if 1 == 1i", ".", "fault:61"),
        runs("if 1 == 2|elseif 1 == 1i|endif", "f1", "fault:61"),
        runs("var a|store_var a 1i ja|add_var a 1", ". . .", "- - fault:61"),
        runs("var a|store_var a 1i ja|store_var a 1 ja|wait a", ". . . .", "- - - wait:3FF0000000000000"),
        runs("var a|store_var a 1i ja|meas a a da", ". . .", "- - fault:61"),
        runs("endif", ".", "fault:62"),
        runs("else", ".", "fault:62"),
        runs("elseif 1 == 1i", ".", "fault:62"),
        runs("endloop", "d", "fault:62"),
        runs("breakloop", ".", "fault:62"),
        runs("if 1 == 1", ".", "fault:62"),
        runs("loop 1 == 1|endif|endloop", ". .", "L fault:62"),
        runs("loop 1 == 1|if 1 == 1|endloop|endif", ".", "fault:62"),
        runs("if 1 == 1|breakloop|endif", ". .", "- fault:62"),
        runs("pck_start|endif", ". .", "start fault:62"),
        runs(&ifs, &["."; 9].join(" "), &format!("{nine_marks} fault:63")),
        runs(&loops, &["."; 10].join(" "), "L L L L L L L L - -"),
        runs("pck_end", ".", "fault:64"),
        runs("pck_start|pck_start", ". .", "start fault:64"),
        runs("pck_start", ". .", "start fault:64"),
        runs("pck_start|if 1 == 1|endif", ". .", "start fault:64"),
        runs("pck_start|on_finished:", ". .", "start fault:64"),
        runs("loop 1 == 1|pck_start|breakloop|endloop", ". . .", "L start fault:64"),
        runs("loop 1 == 1|pck_start|endloop", ". . .", "L start fault:64"),
    ]
}

/// Z and Y at places that matter, then at every place.
fn controls() -> Vec<Example> {
    let sweep = format!("{SWEEP}|cell_on|endloop|cell_off|on_finished:|timer_start");
    let eight = "loop 1 == 1|".repeat(8) + &"endloop|".repeat(8);
    let mut examples = vec![
        runs("cell_on|cell_off", "Z. .", "finished finished"),
        runs("cell_on|cell_off", "Zf1 . . .", "refused:31 cell_on cell_off finished"),
        runs("cell_on|on_finished:|cell_off", "Z. . .", "- cell_off finished"),
        runs("cell_on|on_finished:|cell_off|cell_on", ". . Z. .", "cell_on - finished finished"),
        runs("cell_on|on_finished:|cell_off", ". Z. . .", "cell_on - cell_off finished"),
        runs("abort|cell_on|on_finished:|cell_off", ". . . .", "- - cell_off finished"),
        runs("pck_start|pck_end|cell_on", ". Z. .", "start end finished"),
        runs(&sweep, ". . p1,1 Z. . . . .", "- - M0000 cell_on * - - finished"),
        runs(&sweep, ". . p1,1 Y. . . . . .", "- - M0000 cell_on * cell_off - - finished"),
        runs(&sweep, ". . Yp1,1 . . p1,1", "- - M0000 cell_on - -"),
        runs(&sweep, ". . p1,1 . . Z. p1,1 . . .", "- - M0000 cell_on - waiting - cell_on * -"),
        runs(&sweep, ". . p1,1 . . Y. d . .", "- - M0000 cell_on - waiting * cell_off -"),
        runs(&eight, &[["."; 8].join(" "), "Z. .".into()].join(" "), "L L L L L L L L finished,+,+,+,+,+,+,+,+ finished"),
        runs(&format!("{SWEEP}|meas_loop_lsv a b 1 1 1 1|endloop|endloop"), ". . p1,1 Yd . . d", "- - M0000 M0000,* - waiting *"),
        runs(&format!("loop 1 == 1|{SWEEP}|endloop|endloop"), ". . . p1,1 Z. . .", "L - - M0000 * finished,+ finished"),
        // A control is kept by the step that ends the run.
        runs(&format!("{SWEEP}|pck_end|endloop"), ". . p1,2 Z.", "- - M0000 fault:64"),
        runs(&format!("{SWEEP}|wait 1i|endloop"), ". . p1,2 Yf1", "- - M0000 fault:61"),
        runs(&format!("{SWEEP}|div_var a 0|endloop"), ". . p1,2 Y. .", "- - M0000 stopped:0028 stopped:0028"),
        runs(&format!("{SWEEP}|meas 1 a ba|endloop"), ". . p1,2 Zfinf", "- - M0000 stopped:0010"),
    ];
    let nested = format!("{SWEEP}|endloop|if 1 == 1|loop 1 == 1|{}|pck_start|pck_add a|pck_end|breakloop|endloop|breakloop|endloop|endif|on_finished:|cell_off", &SWEEP[12..]);
    let calm = ". . p1,1 . d . . p1,2 . . . . . . . . . .";
    let count = calm.split(' ').count();
    for control in ["Z", "Y"] {
        for first in 0..count {
            for second in first..count {
                let words: Vec<String> = calm
                    .split(' ')
                    .enumerate()
                    .map(|(place, word)| if place == first || place == second { format!("{control}{word}") } else { word.into() })
                    .collect();
                examples.push(alike(run(&nested, &words.join(" "))));
            }
        }
    }
    examples
}

/// Wraps, quotients, divisors of zero, what is not finite.
fn numbers() -> Vec<Example> {
    let whole = |command: &str, a: &str, b: &str, result: &str| {
        let script = format!("var a|store_var a {a}i ja|{command} a {b}i|pck_start|pck_add a");
        runs(&script, ". . . . .", &format!("- - - start part:6A61:i{result}"))
    };
    let stops = |command: &str, a: &str, b: &str, code: &str| {
        let script = format!("var a|store_var a {a} ja|{command} a {b}");
        runs(&script, ". . . .", &format!("- - stopped:{code} stopped:{code}"))
    };
    let reading = |x: &str| runs("var a|meas 1 a da|wait a", &format!(". f{x} ."), "- stopped:0010 stopped:0010");
    let point = |x: &str| runs(&format!("{SWEEP}|endloop"), &format!(". . p{x} ."), "- - stopped:0010 stopped:0010");
    let mut examples = vec![
        whole("add_var", "2147483647", "1", "-2147483648"),
        whole("sub_var", "-2147483648", "1", "2147483647"),
        whole("mul_var", "65536", "65536", "0"),
        whole("mul_var", "46341", "46341", "-2147479015"),
        whole("mul_var", "-2147483648", "-1", "-2147483648"),
        whole("div_var", "-2147483648", "-1", "-2147483648"),
        whole("div_var", "-7", "2", "-3"),
        whole("div_var", "7", "-2", "-3"),
        stops("div_var", "7i", "0i", "0028"),
        stops("div_var", "7", "0", "0028"),
        stops("div_var", "0", "-0", "0028"),
        point("nan,1"),
        point("1,inf"),
        point("-inf,nan"),
        runs("var a|meas 1 a da|mul_var a a", ". f1e300 . .", "- - stopped:0010 stopped:0010"),
        runs("var a|meas 1 a da|div_var a 1a", ". f1e300 . .", "- - stopped:0010 stopped:0010"),
        runs("var a|meas 1 a da|add_var a a", ". f-0 . .", "- - - finished"),
        runs("var a|var b|meas 1 a da|meas 1 b da|mul_var a b|div_var b a", ". . f-1 f0 . .", "- - - - - stopped:0028"),
    ];
    examples.extend(["nan", "inf", "-inf"].map(reading));
    for a in ["0", "-0", "1", "-1", "1500m", "3E", "1a"] {
        for b in ["0", "-0", "1", "-1", "1500m", "3E", "1a"] {
            for sign in ["==", "!=", "<", "<=", ">", ">="] {
                examples.push(alike(run(&format!("if {a} {sign} {b}|cell_on|else|cell_off|endif"), ". .")));
                examples.push(alike(run(&format!("if {}i {sign} {}i|cell_on|else|cell_off|endif", &a[..1].replace('-', "2"), &b[..1].replace('-', "2")), ". .")));
            }
            for command in ["add_var", "sub_var", "mul_var", "div_var"] {
                examples.push(alike(run(&format!("var a|store_var a {a} ja|{command} a {b}|wait a"), ". . . .")));
            }
        }
    }
    examples
}

/// States made by hand, in and out of shape.
fn states() -> Vec<Example> {
    let table = "names=1|end=9|items=4|item=1 loop i1 o== i1|item=2 if i1 o== i1|item=3 endif|item=4 endloop";
    let case = |state: &str, ended: &str, step: &str| {
        let text = format!("op=run_table\nlength=9\n{}\nstate={state}\nended={ended}\nsteps=1\ndo={step}\n", table.replace('|', "\n"));
        read_case(&text).expect("a case")
    };
    let flags = "abort=0 skip=0 package=0 values=-";
    let one = |state: String, ended: &str, step: &str, answer: &str| expect(case(&state, ended, step), format!("step=1 answer={answer}\n"));
    let nan = "abort=0 skip=0 package=0 values=31:f7FF0000000000000:0000";
    vec![
        one(format!("5 boxes=- {flags}"), "-", "none nothing", "refused:30 things=-"),
        one(format!("4 boxes=- {flags}"), "-", "none nothing", "finished things=-"),
        one(format!("4 boxes=0 {flags}"), "-", "none nothing", "fault:62 things=-"),
        one(format!("0 boxes=2 {flags}"), "-", "none nothing", "refused:30 things=-"),
        one(format!("0 boxes=4 {flags}"), "-", "none nothing", "refused:30 things=-"),
        one(format!("0 boxes=0,0,0,0,0,0,0,0,0 {flags}"), "-", "none nothing", "refused:30 things=-"),
        one(format!("0 boxes=0,0,0,0,0,0,0,0 {flags}"), "-", "none nothing", "running things=-"),
        one(format!("0 boxes=0,0,0,0,0,0,0,1 {flags}"), "-", "none nothing", "fault:63 things=-"),
        one(format!("1 boxes=1,1,1,1,1,1,1,1 {flags}"), "-", "none nothing", "fault:63 things=-"),
        one(format!("1 boxes=1 {flags}"), "-", "none nothing", "running things=-"),
        one(format!("3 boxes=1 {flags}"), "-", "none nothing", "fault:62 things=-"),
        one(format!("0 boxes=- {nan}"), "-", "none nothing", "refused:30 things=-"),
        one(format!("0 boxes=- {nan}"), "finished", "none nothing", "refused:30 things=-"),
        one(format!("0 boxes=- {flags}"), "finished", "Z float 0000000000000000", "finished things=-"),
        one(format!("0 boxes=- {flags}"), "stopped:0028", "none done", "stopped:0028 things=-"),
        one(format!("0 boxes=- {flags}"), "fault:63", "none done", "fault:63 things=-"),
        one("0 boxes=0 abort=1 skip=0 package=0 values=-".into(), "-", "none nothing", "finished things=+"),
        one("0 boxes=0 abort=1 skip=0 package=1 values=-".into(), "-", "none nothing", "fault:64 things=-"),
        one("4 boxes=- abort=0 skip=0 package=1 values=-".into(), "-", "none nothing", "fault:64 things=-"),
    ]
}

/// Steps that take no item hand the state back as it was, its unused places too, which only the comparison sees.
fn held() -> Vec<Example> {
    let one = "f3FF0000000000000";
    let table = format!("names=2\nend=3\nitems=2\nitem=1 meas_loop_lsv v0 v1 {one} {one} {one} {one}\nitem=2 endloop");
    let case = |op: &str, state: &str, ended: &str, steps: &[&str]| {
        let budget = if op == "run_within" { "budget=64\n" } else { "" };
        let told: String = steps.iter().map(|step| format!("do={step}\n")).collect();
        let start = format!("{table}\nstate={state}\nended={ended}\nsteps={}\n{told}", steps.len());
        let text = format!("op={op}\n{budget}length=9\n{start}");
        read_case(&text).expect("a case")
    };
    let inside = "0 boxes=0 abort=0 skip=0 package=0 values=-";
    let waits = ["Y nothing", "none float 0000000000000000", "Z nothing"];
    let moves = ["Y nothing", "none done", "none nothing"];
    let waiting = "waiting things=-";
    let said = |answers: &[&str]| {
        let lines = answers.iter().enumerate().map(|(place, answer)| format!("step={} answer={answer}\n", place + 1));
        lines.collect::<String>()
    };
    vec![
        expect(case("run_table", inside, "-", &waits), said(&[waiting, "refused:31 things=-", waiting])),
        expect(case("run_table", inside, "-", &moves), said(&[waiting, "running things=*", "finished things=-"])),
        expect(case("run_table", inside, "stopped:0010", &waits), said(&["stopped:0010 things=-"; 3])),
        alike(case("run_within", inside, "-", &waits)),
        alike(case("run_within", inside, "-", &moves)),
        alike(case("run_within", inside, "fault:60", &moves)),
    ]
}
