//! Cases as text: one `key=value` a line, each case ended by an empty line; answers in the same form.
//!
//! An op is a variant of [`Case`], its answer ([`answer()`]), its text written ([`write_case`]) and read
//! ([`read_case`]).

mod answer;
mod read;
mod write;

pub use answer::{answer, as_asked, lent_before, listing};
pub use read::read_case;
pub use write::write_case;

use crate::machine::{Control, Offer, State};
use crate::table::{Item, Table};
use crate::value::Operation;

#[derive(Clone, Debug, PartialEq)]
pub enum Case {
    FrameRead { line: Vec<u8>, expected: u8 },
    FrameWrite { content: Vec<u8>, number: u8, buffer: usize },
    Load { script: Vec<u8> },
    Check { script: Vec<u8> },
    Run { script: Vec<u8>, steps: Vec<(Control, Offer)> },
    CheckTable { length: usize, table: Table },
    RunTable { length: usize, table: Table, state: State, steps: Vec<(Control, Offer)> },
    Package { bytes: Vec<u8> },
    Reply { rows: usize, bytes: Vec<u8> },
    Row { row: usize, bytes: Vec<u8> },
    /// A table, to be given back as it was read.
    Table { table: Table },
    /// The first steps at one asking, as many as the budget allows and 64 at most.
    RunWithin { length: usize, table: Table, state: State, steps: Vec<(Control, Offer)>, budget: usize },
    /// The script loaded, checked and run from fresh, 64 steps at most.
    RunSafe { script: Vec<u8>, steps: Vec<(Control, Offer)> },
    /// A reader of lines over these bytes, asked until no line is left, and once more.
    Lines { bytes: Vec<u8> },
    /// The content of a line, by its length.
    Content { line: Vec<u8>, length: usize },
}

const ARITHMETIC: [(&str, Operation); 4] = [
    ("add_var", Operation::Add),
    ("sub_var", Operation::Sub),
    ("mul_var", Operation::Mul),
    ("div_var", Operation::Div),
];

const ALONE: [(&str, Item); 11] = [
    ("else", Item::Else),
    ("endif", Item::EndIf),
    ("endloop", Item::EndLoop),
    ("breakloop", Item::BreakLoop),
    ("timer_start", Item::TimerStart),
    ("pck_start", Item::PckStart),
    ("pck_end", Item::PckEnd),
    ("cell_on", Item::CellOn),
    ("cell_off", Item::CellOff),
    ("abort", Item::Abort),
    ("on_finished:", Item::OnFinished),
];

#[cfg(test)]
mod tests {
    use super::*;
    use crate::seeded::{self, Seed};

    #[test]
    fn what_is_written_is_read() {
        let sorts: [fn(&mut Seed) -> Case; 12] = [
            seeded::frame_read,
            seeded::frame_write,
            seeded::package,
            seeded::reply,
            seeded::row,
            seeded::load,
            seeded::check,
            seeded::check_table,
            seeded::run,
            seeded::run_table,
            seeded::lines,
            seeded::content,
        ];
        for (sort, make) in sorts.iter().enumerate() {
            for number in 0..200 {
                let text = write_case(&make(&mut Seed::of(0, sort as u64, number)));
                let again = read_case(&text).map(|case| write_case(&case));
                assert_eq!(again, Some(text));
            }
        }
    }
}
