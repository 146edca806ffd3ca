//! Seeded cases: the same seed, sort and number give the same case on every machine.

mod bytes;
mod runs;
mod scripts;

pub use bytes::{content, frame_read, frame_write, lines, package, reply, row};
pub use runs::{check_table, run, run_table};
pub use scripts::{check, load, script, Wild};

/// A small generator of numbers (splitmix64).
pub struct Seed(u64);

impl Seed {
    /// The seed of one case of one sort, by the seed of them all; the gate's is 0.
    pub fn of(all: u64, sort: u64, case: u64) -> Seed {
        let (all, sort) = (all.wrapping_mul(0xE703_7ED1_A0B4_28DB), sort.wrapping_mul(0xA076_1D64_78BD_642F));
        let mut seed = Seed(all ^ sort ^ case);
        seed.next();
        seed
    }

    pub fn next(&mut self) -> u64 {
        self.0 = self.0.wrapping_add(0x9E37_79B9_7F4A_7C15);
        let mut x = self.0;
        x = (x ^ (x >> 30)).wrapping_mul(0xBF58_476D_1CE4_E5B9);
        x = (x ^ (x >> 27)).wrapping_mul(0x94D0_49BB_1331_11EB);
        x ^ (x >> 31)
    }

    /// A number below the bound, which is not 0.
    pub fn below(&mut self, bound: usize) -> usize {
        (self.next() % bound as u64) as usize
    }

    pub fn within(&mut self, range: std::ops::RangeInclusive<usize>) -> usize {
        range.start() + self.below(range.end() - range.start() + 1)
    }

    pub fn one_in(&mut self, count: usize) -> bool {
        self.below(count) == 0
    }

    pub fn pick<T: Copy>(&mut self, from: &[T]) -> T {
        from[self.below(from.len())]
    }

    pub fn byte(&mut self) -> u8 {
        self.next() as u8
    }

    /// A byte that often matters to some reader.
    pub fn telling_byte(&mut self) -> u8 {
        let telling = b"\n\n\r\t \0\"#;,:!*+-_0189AFafgzeiLMPTZ<=>\x7f\x80\xff";
        if self.one_in(4) {
            self.byte()
        } else {
            self.pick(telling)
        }
    }

    /// A float as a meter may offer it, or may not.
    pub fn float(&mut self) -> f64 {
        match self.below(16) {
            0 => self.pick(&[f64::NAN, f64::INFINITY, f64::NEG_INFINITY, -f64::NAN]),
            1 => self.pick(&[1e300, -1e300, f64::MAX, f64::MIN, 1e155]),
            2 => self.pick(&[5e-324, -5e-324, f64::MIN_POSITIVE, -0.0, 0.0]),
            3 => f64::from_bits(self.next()),
            _ => self.finite(),
        }
    }

    pub fn finite(&mut self) -> f64 {
        (self.below(9) as f64 - 4.0) * self.pick(&[1.0, 0.5, 1e-3, 1e-9, 1e6])
    }

    /// Spoils some bytes: one, two neighbours, two anywhere, or the length.
    pub fn damage(&mut self, bytes: &mut Vec<u8>) {
        if bytes.is_empty() {
            return bytes.push(self.telling_byte());
        }
        let at = self.below(bytes.len());
        match self.below(7) {
            0 => bytes[at] ^= 1 << self.below(8),
            1 => bytes[at] = self.telling_byte(),
            2 => {
                bytes[at] = self.telling_byte();
                let next = (at + 1) % bytes.len();
                bytes[next] = self.byte();
            }
            3 => {
                bytes[at] = self.byte();
                let other = self.below(bytes.len());
                bytes[other] = self.telling_byte();
            }
            4 => bytes.truncate(at),
            5 => drop(bytes.remove(at)),
            _ => bytes.insert(at, self.telling_byte()),
        }
    }
}
