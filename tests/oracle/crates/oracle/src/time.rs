//! How long the unmodified sources take: the best of several rounds, each the mean of N runs.

use std::hint::black_box;
use std::io::{self, Write};
use std::time::Instant;

use crate::answer;
use crate::generate;

const ROUNDS: usize = 9;

/// The best round's mean, in nanoseconds.
fn best<T>(runs: usize, work: impl Fn() -> T) -> f64 {
    let round = || {
        let start = Instant::now();
        for _ in 0..runs {
            black_box(work());
        }
        start.elapsed().as_nanos() as f64 / runs as f64
    };
    (0..ROUNDS).map(|_| round()).fold(f64::INFINITY, f64::min)
}

fn print(output: &mut impl Write, what: &str, runs: usize, ns: f64) -> io::Result<()> {
    writeln!(output, "{what}: {ns:.0} ns (best of {ROUNDS} rounds of {runs})")
}

/// One job: from its text to its reply, and from its build to its answer.
pub fn job(output: &mut impl Write, text: &[u8], runs: usize) -> io::Result<()> {
    let whole = || match job::read(black_box(text)) {
        Ok(build) => job::reply(&answer::unmodified(&build)),
        Err(status) => job::reply(&job::Answer::Refused(status)),
    };
    print(output, "text to reply", runs, best(runs, whole))?;
    if let Ok(build) = job::read(text) {
        print(output, "build to answer", runs, best(runs, || answer::unmodified(black_box(&build))))?;
    }
    Ok(())
}

/// The calls below a job, on fixed numbers.
pub fn calls(output: &mut impl Write, runs: usize) -> io::Result<()> {
    for n in [10, 40, 64] {
        let (a, b) = (generate::numbers(n * n), generate::numbers(n));
        let ns = best(runs, || plain::bare::eliminate(black_box(&a).clone(), black_box(&b).clone(), n));
        print(output, &format!("elimination n = {n}, copies of its arguments included"), runs, ns)?;
    }
    let (rows, columns) = (40, 60);
    let m = plain::bare::sparse(&generate::numbers(rows * columns), rows, columns);
    let ns = best(runs, || plain::bare::null_space(black_box(&m), columns));
    print(output, "null space 40 x 60, basis included", runs, ns)?;
    sweeps(output, runs)
}

/// One sweep over a group with two equations of each kind that has rows.
fn sweeps(output: &mut impl Write, runs: usize) -> io::Result<()> {
    let rig = plain::Rig::new(&generate::sweep());
    assert_eq!((rig.groups(), rig.equations_of(0).len()), (1, 40), "the sweep is over one group of forty equations");
    let x = rig.scaled(0);
    let ns = best(runs, || rig.residuals(0, black_box(&x)));
    print(output, "residuals of 40 equations", runs, ns)?;
    let ns = best(runs, || rig.jacobian(0, black_box(&x)));
    print(output, "residuals and dense Jacobian of 40 equations", runs, ns)
}
