//! The terms of a currency: from which year to which the curve is blended with the ultimate forward.

use crate::refusal::Reason;

#[derive(Clone, Copy, Debug)]
pub struct Blend {
    /// The last year that the market alone decides.
    pub liquid: u8,
    /// The last year in which the market has a weight.
    pub convergence: u8,
}

/// The blend of a currency code, or none for the code that asks for the market curve itself.
pub fn blend_of_code(code: [u8; 3]) -> Result<Option<Blend>, Reason> {
    if !code.iter().all(u8::is_ascii_uppercase) {
        return Err(Reason::BadCode);
    }
    let (liquid, convergence) = match &code {
        b"XXX" => return Ok(None),
        b"DKK" => (20, 30),
        b"EUR" => (20, 60),
        b"GBP" => (50, 90),
        b"USD" => (30, 70),
        _ => (10, 20),
    };
    Ok(Some(Blend {
        liquid,
        convergence,
    }))
}
