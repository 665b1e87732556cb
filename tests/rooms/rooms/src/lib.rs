//! Single rooms of the proved code as tests call them (librooms_c.a), and what every comparison ends in.

mod calls;
mod tally;

pub use calls::*;
pub use tally::Tally;

/// The bits of the NaN that is handed out.
pub const NAN: u64 = 0x7ff8_0000_0000_0000;

/// The bits of a number that is handed out.
pub fn one_nan(x: f64) -> u64 {
    if x.is_nan() { NAN } else { x.to_bits() }
}

/// The same bits.
pub fn same(x: &[f64], y: &[f64]) -> bool {
    x.len() == y.len() && x.iter().zip(y).all(|(a, b)| a.to_bits() == b.to_bits())
}

/// The same bits, or both a NaN: inside a fit, where nothing is handed out, no bits of a NaN are promised.
pub fn alike(x: f64, y: f64) -> bool {
    x.to_bits() == y.to_bits() || (x.is_nan() && y.is_nan())
}

/// Times are left out where an emulator runs the proved code.
pub fn timed() -> bool {
    std::env::var_os("UNTIMED").is_none()
}
