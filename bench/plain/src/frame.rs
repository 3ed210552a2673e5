//! Lines of hexadecimal digits, and the letters that begin their frames.

const LONGEST: usize = 10;
const DIGITS: &[u8; 16] = b"0123456789ABCDEF";

/// The bytes of a line.
pub struct Frame {
    bytes: [u8; LONGEST],
    length: usize,
}

impl Frame {
    /// Reads an even number of digits, 2 to 20 of them.
    pub fn decode(line: &[u8]) -> Option<Frame> {
        let length = line.len() / 2;
        if !line.len().is_multiple_of(2) || !(1..=LONGEST).contains(&length) {
            return None;
        }
        let mut bytes = [0; LONGEST];
        for (byte, digits) in bytes.iter_mut().zip(line.chunks_exact(2)) {
            *byte = value(digits[0])? << 4 | value(digits[1])?;
        }
        Some(Frame { bytes, length })
    }

    pub fn bytes(&self) -> &[u8] {
        &self.bytes[..self.length]
    }
}

fn value(digit: u8) -> Option<u8> {
    match digit {
        b'0'..=b'9' => Some(digit - b'0'),
        b'A'..=b'F' => Some(digit - b'A' + 10),
        b'a'..=b'f' => Some(digit - b'a' + 10),
        _ => None,
    }
}

/// Writes bytes as digits.
pub fn encode(bytes: &[u8], out: &mut Vec<u8>) {
    for byte in bytes {
        out.push(DIGITS[usize::from(byte >> 4)]);
        out.push(DIGITS[usize::from(byte & 15)]);
    }
}

#[derive(Clone, Copy, Debug, PartialEq, Eq)]
pub enum Letter {
    Open,
    Quote,
    Withdraw,
    Post,
    Strike,
    Settle,
    Forward,
    DiscountFactor,
    ZeroRate,
    Reserve,
}

impl Letter {
    pub fn of_byte(byte: u8) -> Option<Letter> {
        Some(match byte {
            b'O' => Letter::Open,
            b'Q' => Letter::Quote,
            b'W' => Letter::Withdraw,
            b'P' => Letter::Post,
            b'X' => Letter::Strike,
            b'S' => Letter::Settle,
            b'F' => Letter::Forward,
            b'D' => Letter::DiscountFactor,
            b'Z' => Letter::ZeroRate,
            b'R' => Letter::Reserve,
            _ => return None,
        })
    }
}
