//! The room `floats` against Rust's own `f64`, bit for bit.
//!
//! A NaN's bits are compared only where the room promises them: in `handed_out`, in `get` past the end, and in the order
//! of magnitudes. Elsewhere all NaNs count as one.

use std::process::ExitCode;

use chance::Rng;
use rooms::{NAN, Tally, one_nan};

pub fn compare(count: u64, seed: u64) -> ExitCode {
    println!("floats: {count} patterns, seed {seed}");
    let (mut tally, rng) = (Tally::default(), &mut Rng::new(seed, 0));
    for i in 0..count {
        let (a, b) = (pattern(rng), pattern(rng));
        one_number(&mut tally, a);
        two_numbers(&mut tally, a, b);
        if i % 100 == 0 {
            places(&mut tally, rng);
        }
    }
    tally.end()
}

/// Any bits, or, one time in four, one of a field's ends: zeros, subnormals, infinities and NaNs are common.
fn pattern(rng: &mut Rng) -> f64 {
    let bits = rng.bits();
    f64::from_bits(match rng.below(4) {
        0 => (bits & 0x8000_0000_0000_0003) | rng.pick(&[0, 0x7ff << 52, NAN, 1 << 52]),
        _ => bits,
    })
}

fn note(tally: &mut Tally, what: &str, of: f64, ours: u64, theirs: u64) {
    tally.note(ours == theirs, || format!("{what} of {:016x}: {ours:016x}, and Rust's {theirs:016x}", of.to_bits()));
}

fn one_number(tally: &mut Tally, x: f64) {
    note(tally, "abs", x, one_nan(rooms::abs(x)), one_nan(x.abs()));
    note(tally, "is_finite", x, rooms::is_finite(x).into(), x.is_finite().into());
    note(tally, "magnitude", x, rooms::magnitude(x), one_nan(x.abs()));
    note(tally, "handed_out", x, rooms::handed_out(x).to_bits(), one_nan(x));
}

fn two_numbers(tally: &mut Tally, a: f64, b: f64) {
    // Rust leaves the larger of two zeros of unlike sign open; the room keeps the first.
    let theirs = if a == 0.0 && b == 0.0 { a } else { a.max(b) };
    note(tally, "max", a, one_nan(rooms::max(a, b)), one_nan(theirs));
}

/// Reads and writes at every place of a short slice and past its end.
fn places(tally: &mut Tally, rng: &mut Rng) {
    let slice: Vec<f64> = (0..rng.below(5)).map(|_| pattern(rng)).collect();
    for i in (0..7).chain([usize::MAX]) {
        let theirs = slice.get(i).map_or(NAN, |x| x.to_bits());
        let ours = rooms::get(&slice, i).to_bits();
        tally.note(ours == theirs, || format!("get {i} of {slice:?}: {ours:016x}, and Rust's {theirs:016x}"));
        let (mut ours, mut theirs, v) = (slice.clone(), slice.clone(), pattern(rng));
        rooms::put(&mut ours, i, v);
        if let Some(place) = theirs.get_mut(i) {
            *place = v;
        }
        tally.note(rooms::same(&ours, &theirs), || format!("put {i} in {slice:?}: {ours:?}, and Rust's {theirs:?}"));
    }
}
