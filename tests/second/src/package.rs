//! Packages: `P` and 1 to 16 parts joined by `;`.

use crate::table::Type;
use crate::value::exponent;
use crate::{hex_number, refuse, Refusal};

const MOST_PARTS: usize = 16;
const ZERO: i32 = 0x800_0000;

#[derive(Clone, Copy, Debug, PartialEq, Eq)]
pub enum Number {
    /// Whole number and exponent.
    Float(i32, i32),
    Integer(i32),
    Invalid,
}

#[derive(Clone, Copy, Debug, PartialEq, Eq)]
pub struct Part {
    pub kind: Type,
    pub number: Number,
    pub status: Option<u32>,
    pub range: Option<u32>,
    pub noise: Option<u32>,
}

/// Reads a package; each good part is handed to `take`.
pub fn walk(bytes: &[u8], mut take: impl FnMut(Part)) -> Result<usize, Refusal> {
    let Some((b'P', parts)) = bytes.split_first() else {
        return refuse(40, 1);
    };
    let mut count = 0;
    for text in parts.split(|&byte| byte == b';') {
        if count == MOST_PARTS {
            return refuse(41, count + 1);
        }
        count += 1;
        take(part(text).map_or_else(|| refuse(40, count), Ok)?);
    }
    Ok(count)
}

pub fn read(bytes: &[u8]) -> Result<Vec<Part>, Refusal> {
    let mut parts = Vec::with_capacity(MOST_PARTS);
    walk(bytes, |part| parts.push(part))?;
    Ok(parts)
}

fn part(text: &[u8]) -> Option<Part> {
    let (kind, rest) = text.split_at_checked(2)?;
    let (value, mut rest) = rest.split_at_checked(8)?;
    if !kind.iter().all(u8::is_ascii_lowercase) {
        return None;
    }
    let part = Part {
        kind: u16::from_be_bytes([kind[0], kind[1]]),
        number: number(value)?,
        status: metadatum(&mut rest, b",1", 1),
        range: metadatum(&mut rest, b",2", 2),
        noise: metadatum(&mut rest, b",4", 1),
    };
    rest.is_empty().then_some(part)
}

fn number(value: &[u8]) -> Option<Number> {
    if value == b"     nan" {
        return Some(Number::Invalid);
    }
    let whole = hex_number(&value[..7])? as i32 - ZERO;
    match value[7] {
        b'i' => Some(Number::Integer(whole)),
        b' ' => Some(Number::Float(whole, 0)),
        letter => Some(Number::Float(whole, exponent(letter)?)),
    }
}

/// The metadatum with this mark and this many digits, if the rest begins with it.
fn metadatum(rest: &mut &[u8], mark: &[u8], digits: usize) -> Option<u32> {
    let (number, behind) = rest.strip_prefix(mark)?.split_at_checked(digits)?;
    let number = hex_number(number)?;
    *rest = behind;
    Some(number)
}

#[cfg(test)]
mod tests {
    use super::*;

    fn one(text: &str) -> Number {
        read(text.as_bytes()).unwrap()[0].number
    }

    #[test]
    fn cases_f_to_j() {
        assert_eq!(one("Pda7F0BDF9u"), Number::Float(-999943, -6));
        assert_eq!(one("Pda0000000u"), Number::Float(-134217728, -6));
        assert_eq!(one("PdaFFFFFFF "), Number::Float(134217727, 0));
        assert_eq!(one("Pja8000001i"), Number::Integer(1));
        assert_eq!(one("Pja     nan"), Number::Invalid);
        assert_eq!(read(b"P"), refuse(40, 1));
    }

    #[test]
    fn metadata_in_order() {
        let parts = read(b"Pda8000800u;ba8000800u,10,20B").unwrap();
        assert_eq!((parts[1].status, parts[1].range, parts[1].noise), (Some(0), Some(11), None));
        assert_eq!(read(b"Pda8000800u,20B,10"), refuse(40, 1));
        assert_eq!(read(b"Pda8000800u,10,10"), refuse(40, 1));
    }

    #[test]
    fn sixteen_parts() {
        let mut text = b"P".to_vec();
        text.extend([&b"da8000800u"[..]; 16].join(&b';'));
        assert_eq!(read(&text).map(|parts| parts.len()), Ok(16));
        text.push(b';');
        assert_eq!(read(&text), refuse(41, 17));
    }
}
