//! The root against `f64::sqrt`, bit for bit. A NaN is handed out, so it must have the one bits of its own.

use std::hint::black_box;
use std::process::ExitCode;
use std::time::Instant;

use chance::Rng;
use rooms::{Tally, one_nan};

const FIELD: u64 = 1 << 52;
const CLASSES: [(&str, fn(&mut Rng) -> u64); 5] = [
    ("random", Rng::bits),
    ("subnormal", subnormal),
    ("near a square", near_square),
    ("near a halfway point's square", near_halfway),
    ("NaN or negative", nan_or_negative),
];

pub fn compare(count: u64, seed: u64) -> ExitCode {
    println!("root: seed {seed}");
    let (mut tally, rng) = (Tally::default(), &mut Rng::new(seed, 0));
    for (name, class) in CLASSES {
        told(name, &mut tally, |t| (0..count.div_ceil(CLASSES.len() as u64)).for_each(|_| take(t, class(rng))));
    }
    told("ends of every exponent", &mut tally, ends);
    if rooms::timed() {
        let positive: Vec<f64> = (0..1 << 14).map(|_| f64::from_bits(1 + below(rng, 0x7ff * FIELD - 1))).collect();
        times("every exponent", &positive);
        let common: Vec<f64> = (0..1 << 14).map(|_| below(rng, 1 << 40) as f64 / 1024.0).collect();
        times("0 to 2 ^ 30", &common);
    }
    tally.end()
}

/// A class with a line of its own.
fn told(name: &str, tally: &mut Tally, class: impl FnOnce(&mut Tally)) {
    let before = (tally.same, tally.differ);
    class(tally);
    println!("{name}: {} same, {} differ", tally.same - before.0, tally.differ - before.1);
}

fn take(tally: &mut Tally, bits: u64) {
    let x = f64::from_bits(bits);
    let (ours, theirs) = (rooms::sqrt(x).to_bits(), one_nan(x.sqrt()));
    tally.note(ours == theirs, || format!("{bits:016x}: {ours:016x}, and {theirs:016x} is right"));
}

fn below(rng: &mut Rng, n: u64) -> u64 {
    rng.below(n as usize) as u64
}

/// Of every length, with all digits random.
fn subnormal(rng: &mut Rng) -> u64 {
    let length = rng.below(52);
    (1 << length) + below(rng, 1 << length)
}

/// The square of a value, and its neighbours on both sides.
fn near_square(rng: &mut Rng) -> u64 {
    let digits = rng.below(53);
    let root = f64::from_bits((512 + below(rng, 1023)) * FIELD + (below(rng, FIELD) >> digits << digits));
    (root * root).to_bits() + below(rng, 7) - 3
}

/// The values on both sides of the square of a point halfway between two roots: the hardest to round.
fn near_halfway(rng: &mut Rng) -> u64 {
    let odd = 2 * u128::from(FIELD + below(rng, FIELD)) + 1;
    let square = odd * odd;
    let dropped = 128 - square.leading_zeros() - 53;
    let digits = (square >> dropped) as u64 + below(rng, 2);
    let exponent = 2 * below(rng, 1022) + 1 + u64::from(dropped) % 2;
    exponent * FIELD + (digits - FIELD)
}

fn nan_or_negative(rng: &mut Rng) -> u64 {
    let sign = 1 << 63;
    match rng.below(3) {
        0 => 0x7ff * FIELD + 1 + below(rng, FIELD - 1),
        1 => sign + 0x7ff * FIELD + below(rng, FIELD),
        _ => sign + below(rng, 0x7ff * FIELD),
    }
}

/// Both ends of every exponent, with either sign: the zeros, the infinities and the least and largest values among them.
fn ends(tally: &mut Tally) {
    for high in 0..4096 {
        for low in 0..64 {
            take(tally, high * FIELD + low);
            take(tally, high * FIELD + (FIELD - 1 - low));
        }
    }
}

/// Hardware's root as a call too, so that the times compare like with like.
#[inline(never)]
fn hardware(x: f64) -> f64 {
    x.sqrt()
}

fn nanoseconds(f: fn(f64) -> f64, xs: &[f64]) -> f64 {
    let start = Instant::now();
    let mut sum = 0u64;
    for &x in xs {
        sum = sum.wrapping_add(f(x).to_bits());
    }
    black_box(sum);
    start.elapsed().as_nanos() as f64 / xs.len() as f64
}

/// Throughput: the least time of a call over many rounds of independent calls, in turn.
fn times(name: &str, xs: &[f64]) {
    let (mut ours, mut theirs) = (f64::MAX, f64::MAX);
    for _ in 0..400 {
        ours = ours.min(nanoseconds(black_box(rooms::sqrt), xs));
        theirs = theirs.min(nanoseconds(black_box(hardware), xs));
    }
    println!("{name}: {ours:.2} ns a call, hardware {theirs:.2} ns: {:.2} times", ours / theirs);
}
