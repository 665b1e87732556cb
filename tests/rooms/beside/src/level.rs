//! Levelled points, and the measures and the largest residual at any points. Levelling only copies, so the bits of a NaN are compared too;
//! a measure that is a NaN has the bits of the one that is handed out, and a residual that is not finite counts as infinity.

use std::process::ExitCode;

use chance::Rng;
use job::{Build, EQUATIONS, Field, MAX_EQUATIONS, MAX_LINES, MAX_MEASURES, MAX_POINTS, MEASURES, Slot, State};
use plain::Rig;
use rooms::{NAN, Tally, same};

use crate::draw::{self, Reach};

/// Stands in places that nothing may change.
const UNTOUCHED: f64 = 7.5;

pub fn compare(count: u64, seed: u64) -> ExitCode {
    let (mut tally, mut seen) = (Tally::default(), Seen::default());
    for i in 0..count {
        let rng = &mut Rng::new(seed, i);
        let build = build(rng);
        let kind = rng.below(5);
        let points: Vec<f64> = (0..2 * build.points.len()).map(|_| number(rng, kind)).collect();
        let (text, rig) = (job::write(&build), Rig::new(&build));
        let mut levelled = points.clone();
        rig.level(&mut levelled);
        let (measured, worst) = (rig.measures(&levelled), plain::bare::max_abs(&rig.residuals_at(&points)));
        seen.add(&points, &levelled, &measured, worst);
        tally.note(same(&[rooms::worst(&text, &points)], &[worst]), || format!("build {i}, worst:\n{}", String::from_utf8_lossy(&text)));
        tally.note(points_agree(rng, &text, points, &levelled), || format!("build {i}, points:\n{}", String::from_utf8_lossy(&text)));
        tally.note(measures_agree(rng, &text, &levelled, &measured), || format!("build {i}, measures:\n{}", String::from_utf8_lossy(&text)));
    }
    let Seen { moved, copied, nans, finite, infinite } = seen;
    println!("{moved} builds in which levelling moves a point, {copied} in which it copies a NaN over other bits; {nans} measures that are a NaN");
    println!("{finite} builds in which worst is above zero and finite, {infinite} in which it is infinite");
    tally.end()
}

#[derive(Default)]
struct Seen {
    moved: usize,
    copied: usize,
    nans: usize,
    finite: usize,
    infinite: usize,
}

impl Seen {
    fn add(&mut self, before: &[f64], after: &[f64], measures: &[f64], worst: f64) {
        self.moved += usize::from(!same(before, after));
        self.copied += usize::from(after.iter().zip(before).any(|(a, b)| a.is_nan() && a.to_bits() != b.to_bits()));
        self.nans += measures.iter().filter(|v| v.is_nan()).count();
        self.finite += usize::from(worst > 0.0 && worst.is_finite());
        self.infinite += usize::from(worst.is_infinite());
    }
}

/// What stands past the points stays.
fn points_agree(rng: &mut Rng, text: &[u8], mut points: Vec<f64>, levelled: &[f64]) -> bool {
    let rest: Vec<f64> = (0..rng.below(4)).map(|_| f64::from_bits(rng.bits())).collect();
    points.extend(&rest);
    rooms::level(text, &mut points);
    same(&points, &[levelled, &rest].concat())
}

/// As many measures as there is room for; the rest of the output stays.
fn measures_agree(rng: &mut Rng, text: &[u8], levelled: &[f64], measured: &[f64]) -> bool {
    let room = rng.between(0, measured.len() + 3);
    let (mut ours, mut theirs) = (vec![UNTOUCHED; room], vec![UNTOUCHED; room]);
    for (place, v) in theirs.iter_mut().zip(measured) {
        *place = if v.is_nan() { f64::from_bits(NAN) } else { *v };
    }
    rooms::measures(text, levelled, &mut ours);
    same(&ours, &theirs)
}

/// Plain numbers; few of them, so that points meet; signed zeros; the odd ones, NaNs with any payload among them; any bits.
fn number(rng: &mut Rng, kind: usize) -> f64 {
    match kind {
        0 => rng.range(-100.0, 100.0),
        1 => rng.below(5) as f64 - 2.0,
        2 => rng.pick(&[0.0, -0.0, 1.0, -1.0]),
        3 => match rng.below(4) {
            0 => f64::from_bits(0x7ff0_0000_0000_0000 | (rng.bits() & 0x800f_ffff_ffff_ffff)),
            1 => rng.pick(&[f64::INFINITY, f64::NEG_INFINITY, f64::MAX, f64::MIN_POSITIVE, f64::from_bits(1), -0.0]),
            _ => rng.range(-1.0, 1.0),
        },
        _ => f64::from_bits(rng.bits()),
    }
}

fn build(rng: &mut Rng) -> Build {
    let n = rng.between(0, MAX_POINTS);
    let mut build = draw::bare(n);
    build.centre = [rng.range(-1.0, 1.0), rng.range(-1.0, 1.0)];
    build.size = rng.pick(&[1.0, 2.0, 0.3, 1e6, 1.0 / 1024.0]);
    if n == 0 {
        return build;
    }
    let fixed = rng.pick(&[0.0, 0.1, 0.2, 0.5, 0.9]);
    for point in &mut build.points {
        if rng.chance(fixed) {
            point.state = rng.pick(&[State::Kept, State::Placed([1.0, 1.0])]);
        }
    }
    let all: Vec<usize> = (0..n).collect();
    build.lines = (0..rng.between(0, MAX_LINES)).map(|_| [rng.below(n), rng.below(n)]).collect();
    let reach = Reach { points: &all, lines: build.lines.len(), number: &|rng| rng.range(-1.0, 1.0) };
    // Runs far apart, or long chains whose links come in any order.
    let step = rng.pick(&[n, 1, 2, 6]);
    for _ in 0..rng.between(0, MAX_EQUATIONS) {
        let (a, by) = (rng.below(n), rng.between(1, step));
        build.equations.push(if rng.chance(0.6) { draw::level(a, (a + by) % n, rng.below(2)) } else { reach.equation(rng, &EQUATIONS) });
    }
    for _ in 0..rng.between(0, MAX_MEASURES) {
        let mut measure = reach.equation(rng, &MEASURES);
        let at = measure.kind.slots().iter().position(|slot| *slot == Slot::Value).expect("a measure has a value");
        measure.fields[at] = Field::Value(0.0);
        build.measures.push(measure);
    }
    build
}
