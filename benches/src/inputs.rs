//! What is timed: lines, packages, replies and scripts of fixed sizes.

use second::frame;
use second::seeded::Seed;

/// How many numbers are read in one call: so many, and each another, that no processor learns them by heart.
pub const NUMBERS: usize = 16_384;

/// Numbers of so many digits, one behind the other; where they are bad, each has a last digit that is none.
pub fn numbers(digits: usize, good: bool) -> Vec<u8> {
    let mut seed = Seed::of(0, digits as u64, u64::from(good));
    let mut bytes = Vec::new();
    for _ in 0..NUMBERS {
        bytes.extend((1..digits).map(|_| seed.pick(b"0123456789ABCDEF")));
        bytes.push(seed.pick(if good { b"0123456789ABCDEF" } else { b"/:@Ga" }));
    }
    bytes
}

/// A good framed line of every length of content.
pub fn framed_lines() -> Vec<(Vec<u8>, u8)> {
    (0..=127u8)
        .map(|length| {
            let content: Vec<u8> = (0..length).map(|place| b' ' + place % 90).collect();
            let mut line = vec![0; content.len() + 7];
            frame::write(&content, length, &mut line).expect("good content");
            line.pop();
            (line, length)
        })
        .collect()
}

pub fn package(parts: usize) -> Vec<u8> {
    let text = vec!["ba9699F74p,14,218,40"; parts].join(";");
    format!("P{text}").into_bytes()
}

/// A reply of at most so many bytes: loops in loops, with packages, to the last byte that fits.
pub fn reply(length: usize) -> Vec<u8> {
    const ROW: &[u8] = b"L\nM0000\nPda8000800u;ba8000800u,10,20B\nPda8000801u;ba8000801u,10,20B\n\
        Pda8000802u;ba8000802u,10,20B\nPda8000803u;ba8000803u,10,20B\n*\nTnext\n+\n";
    let mut reply = b"e\n".to_vec();
    while reply.len() + ROW.len() < length {
        reply.extend(ROW);
    }
    reply.push(b'\n');
    reply
}

/// A script of so many items that keeps the rules: boxes in boxes, a sweep, packages, arithmetic.
pub fn script(items: usize) -> Vec<u8> {
    const ROW: [&str; 14] = [
        "if n < 10i",
        "add_var n 1i",
        "elseif n == 20i",
        "sub_var n 2i",
        "else",
        "store_var n 0i ja",
        "endif",
        "meas_loop_lsv e c 0 1 10m 100m",
        "pck_start",
        "pck_add e",
        "pck_add c",
        "pck_end",
        "endloop",
        "wait 10m",
    ];
    let mut lines = vec!["var n", "var e", "var c", "store_var n 0i ja"];
    while lines.len() + ROW.len() <= items {
        lines.extend(ROW);
    }
    lines.resize(items, "cell_on");
    (lines.join("\n") + "\n\n").into_bytes()
}

/// A sweep that sends a package of time, potential and current for each point: eight steps a point.
pub fn sweep() -> Vec<u8> {
    b"var e\nvar c\nvar t\nmeas_loop_lsv e c 0 1 1m 100m\ntimer_get t\n\
        pck_start\npck_add t\npck_add e\npck_add c\npck_end\nendloop\n\n"
        .to_vec()
}

/// The letters of the steps to the sweep's first point.
pub const TO_SWEEP: &[u8] = b"nnn";

/// The same, and a first point that is infinite: the run has ended.
pub const TO_END: &[u8] = b"nnni";

/// The letters of eight points, 64 steps.
pub fn points() -> Vec<u8> {
    b"pfnnnnnn".repeat(8)
}
