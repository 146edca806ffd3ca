//! The second program's own answers to cases from standard input; with the word `states` the states of runs too.

use second::cases::{answer, as_asked, read_case};
use std::io::Read;

fn main() {
    let states = std::env::args().any(|word| word == "states");
    let mut text = String::new();
    std::io::stdin().read_to_string(&mut text).expect("standard input is text");
    for case in text.split("\n\n").filter(|case| !case.trim().is_empty()) {
        match read_case(case) {
            Some(case) => println!("{}", as_asked(&answer(&case), states)),
            None => println!("not a case\n"),
        }
    }
}
