//! What a run hands out, put together as a reply: the reply reader must find a row for each loop, empty ones too.

use second::machine::{Answer, Stepped, Thing};
use second::reply::{Row, EMPTY};

const MOST_PARTS: usize = 16;

/// The reply that an instrument would print of this run, and the rows that it must have.
pub fn reply_of(script: &[u8], run: &[Stepped]) -> (Vec<u8>, Vec<Row>) {
    let mut reply = b"e\n".to_vec();
    let mut rows = vec![EMPTY];
    let mut open = vec![0];
    let mut parts: Vec<String> = Vec::new();
    for thing in run.iter().flat_map(|step| &step.things) {
        match *thing {
            Thing::SweepMark | Thing::LoopMark => {
                let kind = if *thing == Thing::SweepMark { b'M' } else { b'L' };
                let parent = open.last().copied().unwrap_or(0);
                open.push(rows.len());
                rows.push(Row { kind, mark: 0, parent, packages: 0 });
                reply.extend(if kind == b'M' { &b"M0000\n"[..] } else { b"L\n" });
            }
            Thing::SweepEnd | Thing::LoopEnd => {
                open.pop();
                reply.extend(if *thing == Thing::SweepEnd { b"*\n" } else { b"+\n" });
            }
            Thing::Start => parts.clear(),
            Thing::Part(kind, _) => parts.push(String::from_utf8_lossy(&kind.to_be_bytes()).into_owned() + "8000001m"),
            // An instrument prints no package without parts, and none with more than it can send.
            Thing::End if parts.is_empty() || parts.len() > MOST_PARTS => {}
            Thing::End => {
                reply.extend(format!("P{}\n", parts.join(";")).bytes());
                rows[open.last().copied().unwrap_or(0)].packages += 1;
            }
            Thing::Text(start, end) => reply.extend([b"T", &script[start..end], b"\n"].concat()),
            _ => {}
        }
    }
    let finished = run.last().is_some_and(|step| step.answer == Answer::Finished);
    reply.extend(if finished { &b"\n"[..] } else { b"e!0010\n" });
    (reply, rows)
}
