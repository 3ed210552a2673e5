//! Why a line is refused.

#[derive(Clone, Copy, Debug, PartialEq, Eq)]
#[repr(u8)]
pub enum Reason {
    Malformed = 1,
    UnknownLetter = 2,
    OutOfTurn = 3,
    WrongLength = 4,
    UnknownKind = 5,
    BadCode = 6,
    BadMaturity = 7,
    BadQuotation = 8,
    BadPrice = 9,
    AfterConvergence = 10,
    MaturityHeld = 11,
    NoPlaceLeft = 12,
    NoneHeld = 13,
    BadYear = 14,
    BadAmount = 15,
    FlowHeld = 16,
    NoFlow = 17,
    TooShort = 18,
    ForwardBelowRange = 19,
    ForwardAboveRange = 20,
    ForwardTooWide = 21,
    Unsettled = 22,
    OutsideHorizon = 23,
}

/// A reason and the year that it is about, or 0.
#[derive(Clone, Copy, Debug, PartialEq, Eq)]
pub struct Refusal {
    pub reason: Reason,
    pub year: u8,
}

impl Reason {
    pub fn at(self, year: u8) -> Refusal {
        Refusal { reason: self, year }
    }
}

impl From<Reason> for Refusal {
    fn from(reason: Reason) -> Self {
        reason.at(0)
    }
}
