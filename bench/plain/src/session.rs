//! A session: lines in, answers out.

use crate::book::Book;
use crate::frame::{encode, Frame, Letter};
use crate::instrument::{Class, Instrument, Kind};
use crate::refusal::{Reason, Refusal};
use crate::terms::blend_of_code;

type Reply = Result<Option<(i64, i64)>, Refusal>;

#[derive(Default)]
pub struct Session {
    book: Option<Book>,
}

impl Session {
    /// Answers a line.
    pub fn answer(&mut self, line: &[u8], out: &mut Vec<u8>) {
        let Some(frame) = Frame::decode(line) else {
            return write_refusal(b'?', Reason::Malformed.into(), out);
        };
        let bytes = frame.bytes();
        let Some(letter) = Letter::of_byte(bytes[0]) else {
            return write_refusal(b'?', Reason::UnknownLetter.into(), out);
        };
        match self.call(letter, bytes) {
            Ok(figures) => write_figures(bytes[0], figures, out),
            Err(refusal) => write_refusal(bytes[0], refusal, out),
        }
    }

    fn call(&mut self, letter: Letter, bytes: &[u8]) -> Reply {
        match (&mut self.book, letter) {
            (None, Letter::Open) => {
                self.book = Some(open(bytes)?);
                Ok(None)
            }
            (Some(_), Letter::Open) | (None, _) => Err(Reason::OutOfTurn.into()),
            (Some(book), _) => call_on(book, letter, bytes),
        }
    }
}

fn open(bytes: &[u8]) -> Result<Book, Refusal> {
    let &[_, kind, class, a, b, c] = bytes else {
        return Err(Reason::WrongLength.into());
    };
    let kind = match kind {
        b'S' => Kind::Swap,
        b'B' => Kind::Bond,
        _ => return Err(Reason::UnknownKind.into()),
    };
    let class = match class {
        0 => Class::OccupationalPension,
        1 => Class::OtherInsurance,
        _ => return Err(Reason::UnknownKind.into()),
    };
    Ok(Book::open(kind, class, blend_of_code([a, b, c])?))
}

/// Makes a call on an open book.
fn call_on(book: &mut Book, letter: Letter, bytes: &[u8]) -> Reply {
    use Letter::*;
    match (letter, bytes) {
        (Quote, _) => book.enter(quotation(book, bytes)?).map(|()| None),
        (Withdraw, &[_, maturity]) => book.withdraw(maturity).map(|()| None),
        (Post, &[_, year, a, b, c, d]) => {
            let amount = i32::from_be_bytes([a, b, c, d]);
            book.post(year, amount).map(|()| None)
        }
        (Strike, &[_, year]) => book.strike(year).map(|()| None),
        (Settle, [_]) => book.settle().map(|()| None),
        (Forward, &[_, year]) => book.curve()?.forward(year).map(Some),
        (DiscountFactor, &[_, year]) => book.curve()?.discount_factor(year).map(Some),
        (ZeroRate, &[_, year]) => book.curve()?.zero_rate(year).map(Some),
        (Reserve, [_]) => book.reserve().map(Some),
        _ => Err(Reason::WrongLength.into()),
    }
}

/// Reads a quotation of the book's kind.
fn quotation(book: &Book, bytes: &[u8]) -> Result<Instrument, Refusal> {
    match (book.kind, bytes) {
        (Kind::Swap, &[_, maturity, a, b, c, d]) => {
            Instrument::swap(maturity, i32::from_be_bytes([a, b, c, d]), book.class)
        }
        (Kind::Bond, &[_, maturity, a, b, c, d, e, f, g, h]) => {
            let coupon = u32::from_be_bytes([a, b, c, d]);
            let price = u32::from_be_bytes([e, f, g, h]);
            Instrument::bond(maturity, coupon, price)
        }
        _ => Err(Reason::WrongLength.into()),
    }
}

fn write_refusal(letter: u8, refusal: Refusal, out: &mut Vec<u8>) {
    encode(&[letter, refusal.reason as u8, refusal.year], out);
    out.push(b'\n');
}

fn write_figures(letter: u8, figures: Option<(i64, i64)>, out: &mut Vec<u8>) {
    encode(&[letter, 0, 0], out);
    if let Some((low, high)) = figures {
        encode(&low.to_be_bytes(), out);
        encode(&high.to_be_bytes(), out);
    }
    out.push(b'\n');
}
