//! Residuals and dense gradients of the 21 kinds. Inside a fit only the value of these is promised, so all NaNs count as one.

use std::hint::black_box;
use std::process::ExitCode;
use std::time::Instant;

use chance::Rng;
use job::{Build, EQUATIONS, MAX_EQUATIONS, MAX_LINES, MAX_POINTS};
use plain::Rig;
use rooms::{Sweep, Tally, alike};

use crate::draw::{self, Reach};

/// Stands in places that nothing may change.
const UNTOUCHED: f64 = 7.5;
/// A coordinate that is not free has no column.
const NO_COLUMN: u8 = 255;
/// How many kinds of numbers there are.
const NUMBERS: usize = 6;

/// As many rows at least, residuals and gradients each.
pub fn compare(count: u64, seed: u64) -> ExitCode {
    let (mut tally, mut index) = (Tally::default(), 0);
    while tally.same + tally.differ < 2 * count {
        let rng = &mut Rng::new(seed, index);
        let (equations, points, kind, fixed) = (rng.between(1, MAX_EQUATIONS), rng.between(1, MAX_POINTS), rng.below(NUMBERS), rng.below(4));
        case(rng, equations, points, kind, fixed).compare(&mut tally, index);
        index += 1;
    }
    if rooms::timed() {
        time();
    }
    tally.end()
}

/// Some equations of a build, as if they were a group on these points.
struct Case {
    build: Build,
    points: Vec<usize>,
    free: Vec<usize>,
    sweep: Sweep,
}

/// Any in the unit square; small whole ones; signed zeros; any bits; odd ones; of any magnitude.
fn number(rng: &mut Rng, kind: usize) -> f64 {
    match kind {
        0 => rng.range(-1.0, 1.0),
        1 => rng.below(5) as f64 - 2.0,
        2 => rng.pick(&[0.0, -0.0, 1.0, -1.0]),
        3 => f64::from_bits(rng.bits()),
        4 => {
            let plain = rng.range(-1.0, 1.0);
            rng.pick(&[0.0, -0.0, f64::INFINITY, f64::NEG_INFINITY, f64::NAN, f64::from_bits(1), f64::MAX, 1e-160, plain])
        }
        _ => rng.range(-1.0, 1.0) * 10f64.powi(rng.below(40) as i32 - 20),
    }
}

/// About `count` points that rise; few of them, so that an equation meets one point twice.
fn case(rng: &mut Rng, equations: usize, count: usize, kind: usize, fixed: usize) -> Case {
    let mut points: Vec<usize> = (0..MAX_POINTS).filter(|_| rng.below(MAX_POINTS) < count).collect();
    if points.is_empty() {
        points.push(rng.below(MAX_POINTS));
    }
    let mut build = draw::bare(MAX_POINTS);
    build.lines = (0..MAX_LINES).map(|_| [rng.pick(&points), rng.pick(&points)]).collect();
    let reach = Reach { points: &points, lines: MAX_LINES, number: &|rng| number(rng, kind) };
    build.equations = (0..equations).map(|_| reach.equation(rng, &EQUATIONS)).collect();
    let chosen = (0..equations).filter(|_| rng.below(8) > 0).collect();
    let mut places = vec![0; MAX_POINTS];
    points.iter().enumerate().for_each(|(k, &p)| places[p] = k as u8);
    let coordinates = 2 * points.len();
    let free: Vec<usize> = (0..coordinates).filter(|c| (c / 2 * 7919 + fixed) % 4 != 0 || fixed == 0).collect();
    let mut columns = vec![NO_COLUMN; coordinates];
    free.iter().enumerate().for_each(|(k, &c)| columns[c] = k as u8);
    let x = (0..coordinates).map(|_| number(rng, kind)).collect();
    let sweep = Sweep { text: job::write(&build), chosen, places, columns, free: free.len(), x };
    Case { build, points, free, sweep }
}

impl Case {
    fn compare(&self, tally: &mut Tally, index: u64) {
        let (rig, sweep) = (Rig::new(&self.build), &self.sweep);
        let (mut theirs, mut again) = (Vec::new(), Vec::new());
        let mut rust = rig.sweep(&self.points, &sweep.chosen, &self.free);
        rust.residuals(&sweep.x, &mut theirs);
        let dense = rust.jacobian(&sweep.x, &mut again);
        let (mut r, mut j, n) = (vec![UNTOUCHED; 90], vec![UNTOUCHED; 80 * 80 + 9], sweep.free);
        let rows = theirs.len();
        let counts = [sweep.residuals(&mut r, 1), sweep.jacobian(&mut j, 1)];
        let rest = r.iter().skip(rows).chain(j.iter().skip(rows * n));
        let whole = counts == [rows; 2] && rest.into_iter().all(|&v| v == UNTOUCHED);
        if rows == 0 {
            tally.note(whole, || format!("build {index}, without rows, {counts:?} answered"));
        }
        for i in 0..rows {
            let gradient = (0..n).all(|c| alike(j[i * n + c], dense[i * n + c]));
            tally.note(whole && alike(r[i], theirs[i]), || format!("build {index}, residual {i} of {rows}, {counts:?} answered"));
            tally.note(whole && gradient, || format!("build {index}, gradient {i} of {rows}, {counts:?} answered"));
        }
    }
}

/// The least time of one call, of many short runs; the two sides take turns, so that they share the machine's weather.
fn turns(mut ours: impl FnMut(usize), mut rust: impl FnMut(usize)) -> [f64; 2] {
    let (times, mut least) = (200, [f64::INFINITY; 2]);
    for _ in 0..400 {
        let start = Instant::now();
        ours(times);
        let middle = Instant::now();
        rust(times);
        let both = [middle - start, middle.elapsed()].map(|t| t.as_nanos() as f64 / times as f64);
        least = [least[0].min(both[0]), least[1].min(both[1])];
    }
    least
}

/// On the same build whatever the seed.
fn time() {
    let mut case = case(&mut Rng::new(0, 0), MAX_EQUATIONS, MAX_POINTS, 0, 1);
    case.sweep.chosen = (0..MAX_EQUATIONS).collect();
    let (rig, sweep) = (Rig::new(&case.build), &case.sweep);
    let mut rust = rig.sweep(&case.points, &sweep.chosen, &case.free);
    let (mut r, mut j, mut v) = (vec![0.0; 90], vec![0.0; 6400], Vec::new());
    let [ours, theirs] =
        turns(|times| _ = sweep.residuals(&mut r, times), |times| (0..times).for_each(|_| rust.residuals(black_box(&sweep.x), black_box(&mut v))));
    println!("residual sweep, 40 equations: {ours:.0} ns, the Rust's {theirs:.0} ns");
    let [ours, theirs] = turns(
        |times| _ = sweep.jacobian(&mut j, times),
        |times| (0..times).for_each(|_| drop(black_box(rust.jacobian(black_box(&sweep.x), black_box(&mut v))))),
    );
    println!("Jacobian sweep, 40 equations: {ours:.0} ns, the Rust's {theirs:.0} ns");
}
