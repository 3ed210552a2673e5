//! Quoted instruments: swaps at par and bonds at a price.

use crate::refusal::{Reason, Refusal};

const LONGEST: u8 = 90;
const HIGHEST_QUOTATION: u32 = 100_000;
const HIGHEST_PRICE: u32 = 2_000_000_000;
const PAR: u32 = 1_000_000_000;
/// What is paid besides at maturity, in ppm.
pub const NOMINAL: u64 = 1_000_000;

#[derive(Clone, Copy, Debug, PartialEq, Eq)]
pub enum Class {
    OccupationalPension,
    OtherInsurance,
}

impl Class {
    /// What is deducted from a swap's quotation, in ppm.
    fn deduction(self) -> u32 {
        match self {
            Class::OccupationalPension => 3_500,
            Class::OtherInsurance => 5_500,
        }
    }
}

#[derive(Clone, Copy, Debug, PartialEq, Eq)]
pub enum Kind {
    Swap,
    Bond,
}

/// A level payment each year in ppm, the nominal at maturity, and a price in units.
#[derive(Clone, Copy, Debug)]
pub struct Instrument {
    pub maturity: u8,
    coupon: u32,
    pub price: u32,
}

impl Instrument {
    pub fn swap(maturity: u8, quotation: i32, class: Class) -> Result<Self, Refusal> {
        check_maturity(maturity)?;
        let quotation = u32::try_from(quotation)
            .ok()
            .filter(|&q| q <= HIGHEST_QUOTATION)
            .ok_or(Reason::BadQuotation.at(maturity))?;
        Ok(Instrument {
            maturity,
            coupon: quotation.saturating_sub(class.deduction()),
            price: PAR,
        })
    }

    pub fn bond(maturity: u8, coupon: u32, price: u32) -> Result<Self, Refusal> {
        check_maturity(maturity)?;
        if coupon > HIGHEST_QUOTATION {
            return Err(Reason::BadQuotation.at(maturity));
        }
        if !(1..=HIGHEST_PRICE).contains(&price) {
            return Err(Reason::BadPrice.at(maturity));
        }
        Ok(Instrument {
            maturity,
            coupon,
            price,
        })
    }

    /// What is paid each year, in ppm.
    pub fn coupon(&self) -> u64 {
        u64::from(self.coupon)
    }
}

fn check_maturity(maturity: u8) -> Result<(), Refusal> {
    if (1..=LONGEST).contains(&maturity) {
        Ok(())
    } else {
        Err(Reason::BadMaturity.at(maturity))
    }
}
