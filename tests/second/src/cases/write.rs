//! Cases written as text.

use super::answer::{hex, write_answer, write_float, write_state, write_table};
use super::Case;
use crate::machine::{Control, Offer, State, Steps};
use crate::table::Table;

/// A case in the form that `read_case` takes, without the empty line.
pub fn write_case(case: &Case) -> String {
    match case {
        Case::FrameRead { line, expected } => {
            format!("op=frame_read\nline={}\nexpected={expected:02X}\n", hex(line))
        }
        Case::FrameWrite { content, number, buffer } => {
            format!("op=frame_write\ncontent={}\nnumber={number:02X}\nbuffer={buffer}\n", hex(content))
        }
        Case::Load { script } => format!("op=load\nscript={}\n", hex(script)),
        Case::Check { script } => format!("op=check\nscript={}\n", hex(script)),
        Case::Run { script, steps } => format!("op=run\nscript={}\n{}", hex(script), write_steps(steps)),
        Case::CheckTable { length, table } => format!("op=check_table\nlength={length}\n{}", write_table(table)),
        Case::RunTable { length, table, state, steps } => {
            format!("op=run_table\nlength={length}\n{}", write_start(table, state, steps))
        }
        Case::RunWithin { length, table, state, steps, budget } => {
            format!("op=run_within\nbudget={budget}\nlength={length}\n{}", write_start(table, state, steps))
        }
        Case::RunSafe { script, steps } => format!("op=run_safe\nscript={}\n{}", hex(script), write_steps(steps)),
        Case::Table { table } => format!("op=table\n{}", write_table(table)),
        Case::Package { bytes } => format!("op=package\nbytes={}\n", hex(bytes)),
        Case::Reply { rows, bytes } => format!("op=reply\nrows={rows}\nbytes={}\n", hex(bytes)),
        Case::Row { row, bytes } => format!("op=row\nrow={row}\nbytes={}\n", hex(bytes)),
        Case::Lines { bytes } => format!("op=lines\nbytes={}\n", hex(bytes)),
        Case::Content { line, length } => format!("op=content\nline={}\nlength={length}\n", hex(line)),
    }
}

/// A table, the state that a run starts in, and its steps.
fn write_start(table: &Table, state: &State, steps: &Steps) -> String {
    let ended = state.ended.map_or("-".into(), write_answer);
    format!("{}{}ended={ended}\n{}", write_table(table), write_state(state), write_steps(steps))
}

fn write_steps(steps: &Steps) -> String {
    let mut text = format!("steps={}\n", steps.len());
    for (control, offer) in steps {
        let offer = match offer {
            Offer::Nothing => "nothing".into(),
            Offer::Float(x) => format!("float {}", write_float(*x)),
            Offer::Point(x, y) => format!("point {} {}", write_float(*x), write_float(*y)),
            Offer::Done => "done".into(),
        };
        let control = match control {
            Control::None => "none",
            Control::Z => "Z",
            Control::Y => "Y",
        };
        text += &format!("do={control} {offer}\n");
    }
    text
}
