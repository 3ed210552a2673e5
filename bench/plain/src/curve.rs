//! The curve: forwards and discount factors of each year, each a bracket in units of 10^-9.

use crate::instrument::{Instrument, NOMINAL};
use crate::refusal::{Reason, Refusal};
use crate::terms::Blend;

pub const HORIZON: u8 = 120;
pub const YEARS: usize = HORIZON as usize + 1;

const UNIT: u64 = 1_000_000_000;
const LEAST: u64 = UNIT;
const MOST: u64 = UNIT + 250_000_000;
const ULTIMATE: u64 = UNIT + 42_000_000;
const TOLERANCE: u64 = 1_000_000;
const WIDEST: u64 = 1_000;
const AMOUNT_SCALE: u64 = 10_000_000;

#[derive(Clone, Copy, Debug)]
struct Bracket {
    low: u64,
    high: u64,
}

impl Bracket {
    fn exactly(value: u64) -> Self {
        Bracket {
            low: value,
            high: value,
        }
    }

    /// Discount factors one year on.
    fn discounted(self, growth: Bracket) -> Self {
        Bracket {
            low: discount_down(self.low, growth.high),
            high: discount_up(self.high, growth.low),
        }
    }
}

fn discount_down(factor: u64, growth: u64) -> u64 {
    factor * UNIT / growth
}

fn discount_up(factor: u64, growth: u64) -> u64 {
    divide_up(factor * UNIT, growth)
}

/// A quotient rounded up, of a number far below 2^64: one division and no test.
#[allow(clippy::manual_div_ceil)]
fn divide_up(number: u64, by: u64) -> u64 {
    (number + by - 1) / by
}

/// The first growth from one to another, the last left out, at which a condition holds that holds from there on, or that last.
fn first_growth(mut from: u64, mut to: u64, holds: impl Fn(u64) -> bool) -> u64 {
    while from < to {
        let middle = from + (to - from) / 2;
        if holds(middle) {
            to = middle;
        } else {
            from = middle + 1;
        }
    }
    from
}

/// The discount factor after some years of one growth.
fn compounded(years: u8, growth: u64, discount: impl Fn(u64, u64) -> u64) -> u64 {
    (0..years).fold(UNIT, |factor, _| discount(factor, growth))
}

/// The years between the last known one and an instrument's maturity.
struct Gap<'a> {
    instrument: &'a Instrument,
    years: u8,
    start: Bracket,
    known: Bracket,
}

impl Gap<'_> {
    fn worth_low(&self, growth: u64) -> u64 {
        self.worth(self.known.low, self.start.low, growth, discount_down)
    }

    fn worth_high(&self, growth: u64) -> u64 {
        self.worth(self.known.high, self.start.high, growth, discount_up)
    }

    fn worth(
        &self,
        known: u64,
        start: u64,
        growth: u64,
        discount: impl Fn(u64, u64) -> u64,
    ) -> u64 {
        let (mut factors, mut factor) = (0, start);
        for _ in 0..self.years {
            factor = discount(factor, growth);
            factors += factor;
        }
        known + self.instrument.coupon() * factors + NOMINAL * factor
    }

    /// The growths between which the instrument is worth its price.
    fn growths(&self) -> Result<Bracket, Refusal> {
        let maturity = self.instrument.maturity;
        let (below, above) = priced(self.instrument);
        if self.worth_high(LEAST) < below {
            return Err(Reason::ForwardBelowRange.at(maturity));
        }
        if self.worth_low(MOST) > above {
            return Err(Reason::ForwardAboveRange.at(maturity));
        }
        let low = first_growth(LEAST + 1, MOST, |g| self.worth_low(g) <= above) - 1;
        // further off it is refused anyway
        let widest = MOST.min(low + WIDEST + 1);
        let high = first_growth(low, widest, |g| self.worth_high(g) < below);
        if high > low + WIDEST {
            return Err(Reason::ForwardTooWide.at(maturity));
        }
        Ok(Bracket { low, high })
    }
}

/// The price less and plus the tolerance, in ppm of units.
fn priced(instrument: &Instrument) -> (u64, u64) {
    let price = u64::from(instrument.price) * 1_000_000;
    (price - TOLERANCE, price + TOLERANCE)
}

pub struct Curve {
    last: u8,
    growths: [Bracket; YEARS],
    factors: [Bracket; YEARS],
}

impl Curve {
    /// The discount curve of instruments in rising order of maturity.
    pub fn settle(blend: Option<Blend>, instruments: &[Instrument]) -> Result<Self, Refusal> {
        let last = instruments.last().map_or(0, |i| i.maturity);
        if last < blend.map_or(1, |b| b.liquid) {
            return Err(Reason::TooShort.at(last));
        }
        let mut curve = Curve {
            last: 0,
            growths: [Bracket::exactly(UNIT); YEARS],
            factors: [Bracket::exactly(UNIT); YEARS],
        };
        for instrument in instruments {
            curve.extend(instrument)?;
        }
        if let Some(blend) = blend {
            curve.blend(blend);
        }
        Ok(curve)
    }

    /// The worth of an instrument's coupons of the first years.
    fn coupons_to(&self, instrument: &Instrument, year: usize) -> Bracket {
        let mut worth = Bracket::exactly(0);
        for factor in &self.factors[1..=year] {
            worth.low += factor.low;
            worth.high += factor.high;
        }
        worth.low *= instrument.coupon();
        worth.high *= instrument.coupon();
        worth
    }

    /// Goes on to an instrument's maturity.
    fn extend(&mut self, instrument: &Instrument) -> Result<(), Refusal> {
        let last = usize::from(self.last);
        let maturity = usize::from(instrument.maturity);
        let gap = Gap {
            instrument,
            years: instrument.maturity - self.last,
            start: self.factors[last],
            known: self.coupons_to(instrument, last),
        };
        let growths = gap.growths()?;
        self.growths[last + 1..].fill(growths);
        for year in last + 1..=maturity {
            self.factors[year] = self.factors[year - 1].discounted(growths);
        }
        self.tighten(instrument);
        self.last = instrument.maturity;
        Ok(())
    }

    /// Narrows the discount factor at maturity to what the price leaves for it.
    fn tighten(&mut self, instrument: &Instrument) {
        let maturity = usize::from(instrument.maturity);
        let (below, above) = priced(instrument);
        let rest = self.coupons_to(instrument, maturity - 1);
        let redemption = NOMINAL + instrument.coupon();
        let least = below.saturating_sub(rest.high) / redemption;
        let greatest = divide_up(above.saturating_sub(rest.low), redemption);
        let factor = &mut self.factors[maturity];
        factor.low = factor.low.max(least);
        factor.high = factor.high.min(greatest);
    }

    /// Blends the forwards after the liquid years with the ultimate one, up to the horizon.
    fn blend(&mut self, blend: Blend) {
        let whole = u64::from(blend.convergence - blend.liquid) + 1;
        for year in blend.liquid + 1..=HORIZON {
            let at = usize::from(year);
            let part = u64::from(year - blend.liquid);
            let market = self.growths[at];
            self.growths[at] = if year > blend.convergence {
                Bracket::exactly(ULTIMATE)
            } else {
                let sum = |growth| (whole - part) * growth + part * ULTIMATE;
                Bracket {
                    low: sum(market.low) / whole,
                    high: divide_up(sum(market.high), whole),
                }
            };
            self.factors[at] = self.factors[at - 1].discounted(self.growths[at]);
        }
        self.last = HORIZON;
    }

    fn check_year(&self, first: u8, year: u8) -> Result<usize, Refusal> {
        if (first..=self.last).contains(&year) {
            Ok(usize::from(year))
        } else {
            Err(Reason::OutsideHorizon.at(year))
        }
    }

    pub fn forward(&self, year: u8) -> Result<(i64, i64), Refusal> {
        let growth = self.growths[self.check_year(1, year)?];
        Ok(((growth.low - UNIT) as i64, (growth.high - UNIT) as i64))
    }

    pub fn discount_factor(&self, year: u8) -> Result<(i64, i64), Refusal> {
        let factor = self.factors[self.check_year(0, year)?];
        Ok((factor.low as i64, factor.high as i64))
    }

    pub fn zero_rate(&self, year: u8) -> Result<(i64, i64), Refusal> {
        let factor = self.factors[self.check_year(1, year)?];
        let low = first_growth(LEAST + 1, MOST + 1, |g| {
            compounded(year, g, discount_down) < factor.high
        });
        let high = first_growth(LEAST, MOST, |g| {
            compounded(year, g, discount_up) <= factor.low
        });
        Ok(((low - 1 - UNIT) as i64, (high - UNIT) as i64))
    }

    /// The reserve of the cash flows by year.
    pub fn reserve(&self, flows: &[Option<i32>; YEARS]) -> Result<(i64, i64), Refusal> {
        let (mut low, mut high) = (0, 0);
        let last = usize::from(self.last);
        if let Some(late) = flows[last + 1..].iter().position(Option::is_some) {
            return Err(Reason::OutsideHorizon.at((last + 1 + late) as u8));
        }
        for (flow, factor) in flows[..=last].iter().zip(&self.factors) {
            let Some(amount) = *flow else { continue };
            let size = u64::from(amount.unsigned_abs());
            let less = (size * factor.low / AMOUNT_SCALE) as i64;
            let more = divide_up(size * factor.high, AMOUNT_SCALE) as i64;
            if amount >= 0 {
                low += less;
                high += more;
            } else {
                low -= more;
                high -= less;
            }
        }
        Ok((low, high))
    }
}
