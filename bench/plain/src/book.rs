//! A book: the quotations and cash flows held, and the curve once it is settled.

use crate::curve::{Curve, HORIZON, YEARS};
use crate::instrument::{Class, Instrument, Kind};
use crate::refusal::{Reason, Refusal};
use crate::terms::Blend;

const PLACES: usize = 60;
const GREATEST_AMOUNT: u32 = 1_000_000_000;

pub struct Book {
    pub kind: Kind,
    pub class: Class,
    blend: Option<Blend>,
    held: Vec<Instrument>,
    flows: [Option<i32>; YEARS],
    curve: Option<Curve>,
}

impl Book {
    pub fn open(kind: Kind, class: Class, blend: Option<Blend>) -> Self {
        Book {
            kind,
            class,
            blend,
            held: Vec::with_capacity(PLACES),
            flows: [None; YEARS],
            curve: None,
        }
    }

    fn place(&self, maturity: u8) -> Result<usize, usize> {
        self.held.binary_search_by_key(&maturity, |i| i.maturity)
    }

    pub fn enter(&mut self, instrument: Instrument) -> Result<(), Refusal> {
        let maturity = instrument.maturity;
        if self.blend.is_some_and(|b| maturity > b.convergence) {
            return Err(Reason::AfterConvergence.at(maturity));
        }
        let Err(place) = self.place(maturity) else {
            return Err(Reason::MaturityHeld.at(maturity));
        };
        if self.held.len() >= PLACES {
            return Err(Reason::NoPlaceLeft.at(maturity));
        }
        self.held.insert(place, instrument);
        self.curve = None;
        Ok(())
    }

    pub fn withdraw(&mut self, maturity: u8) -> Result<(), Refusal> {
        let Ok(place) = self.place(maturity) else {
            return Err(Reason::NoneHeld.at(maturity));
        };
        self.held.remove(place);
        self.curve = None;
        Ok(())
    }

    pub fn post(&mut self, year: u8, amount: i32) -> Result<(), Refusal> {
        if !(1..=HORIZON).contains(&year) {
            return Err(Reason::BadYear.at(year));
        }
        if amount.unsigned_abs() > GREATEST_AMOUNT {
            return Err(Reason::BadAmount.at(year));
        }
        let flow = &mut self.flows[usize::from(year)];
        if flow.is_some() {
            return Err(Reason::FlowHeld.at(year));
        }
        *flow = Some(amount);
        Ok(())
    }

    pub fn strike(&mut self, year: u8) -> Result<(), Refusal> {
        self.flows
            .get_mut(usize::from(year))
            .and_then(Option::take)
            .map(|_| ())
            .ok_or(Reason::NoFlow.at(year))
    }

    pub fn settle(&mut self) -> Result<(), Refusal> {
        self.curve = Some(Curve::settle(self.blend, &self.held)?);
        Ok(())
    }

    pub fn curve(&self) -> Result<&Curve, Refusal> {
        self.curve.as_ref().ok_or(Reason::Unsettled.into())
    }

    pub fn reserve(&self) -> Result<(i64, i64), Refusal> {
        self.curve()?.reserve(&self.flows)
    }
}
