//! Frames: content, two hex digits of line number, four of CRC, newline.

use crate::{hex_number, refuse, Refusal};

const LONGEST: usize = 127;
const NUMBER_DIGITS: usize = 2;
const SUM_DIGITS: usize = 4;
const TAIL: usize = NUMBER_DIGITS + SUM_DIGITS;
const DIGITS: &[u8; 16] = b"0123456789ABCDEF";

const SUMS: [u16; 256] = sums();

/// What each first byte does to the sum, by the rule for single bits.
const fn sums() -> [u16; 256] {
    let mut table = [0; 256];
    let mut byte = 0;
    while byte < 256 {
        let mut sum = (byte as u16) << 8;
        let mut bit = 0;
        while bit < 8 {
            sum = if sum & 0x8000 != 0 { (sum << 1) ^ 0x1021 } else { sum << 1 };
            bit += 1;
        }
        table[byte] = sum;
        byte += 1;
    }
    table
}

pub fn crc16(bytes: &[u8]) -> u16 {
    bytes.iter().fold(0xFFFF, |sum, &byte| (sum << 8) ^ SUMS[usize::from((sum >> 8) as u8 ^ byte)])
}

/// Reads one line without its newline: the content's length and the next expected number.
pub fn read(line: &[u8], expected: u8) -> Result<(usize, u8), Refusal> {
    if line.len() < TAIL {
        return refuse(2, 0);
    }
    let content = line.len() - TAIL;
    if content > LONGEST {
        return refuse(1, 0);
    }
    let (body, sum) = line.split_at(content + NUMBER_DIGITS);
    if body.contains(&b'\n') || hex_number(sum) != Some(u32::from(crc16(body))) {
        return refuse(3, 0);
    }
    if hex_number(&body[content..]) != Some(u32::from(expected)) {
        return refuse(4, 0);
    }
    Ok((content, expected.wrapping_add(1)))
}

/// Writes one framed line: the bytes written and the next number.
pub fn write(content: &[u8], number: u8, buffer: &mut [u8]) -> Result<(usize, u8), Refusal> {
    if content.len() > LONGEST || content.contains(&b'\n') {
        return refuse(1, 0);
    }
    let length = content.len() + TAIL + 1;
    let Some(frame) = buffer.get_mut(..length) else {
        return refuse(5, 0);
    };
    let (body, end) = frame.split_at_mut(content.len() + NUMBER_DIGITS);
    body[..content.len()].copy_from_slice(content);
    put_hex(&mut body[content.len()..], u16::from(number));
    let sum = crc16(body);
    put_hex(&mut end[..SUM_DIGITS], sum);
    end[SUM_DIGITS] = b'\n';
    Ok((length, number.wrapping_add(1)))
}

fn put_hex(place: &mut [u8], number: u16) {
    for (i, byte) in place.iter_mut().rev().enumerate() {
        *byte = DIGITS[usize::from(number >> (4 * i)) & 15];
    }
}

#[cfg(test)]
mod tests {
    use super::*;

    #[test]
    fn cases_a_b_c() {
        assert_eq!(crc16(b"05"), 0x7E6C);
        assert_eq!(crc16(b"52"), 0xF17E);
        assert_eq!(crc16(b"e03"), 0xBFA2);
    }

    #[test]
    fn what_is_written_is_read_back() {
        let mut buffer = [0; 134];
        assert_eq!(write(&[b'x'; 127], 0xFF, &mut buffer), Ok((134, 0)));
        assert_eq!(read(&buffer[..133], 0xFF), Ok((127, 0)));
        assert_eq!(write(&[b'x'; 127], 0xFF, &mut buffer[..133]), refuse(5, 0));
        assert_eq!(write(&[b'x'; 128], 0xFF, &mut buffer[..3]), refuse(1, 0));
    }
}
