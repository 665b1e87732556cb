//! Answers a job. The Rust groups, fits, counts freedom, unscales, levels, measures, works the
//! residuals at the printed points out and names suspects; the order in which its parts are called
//! is the job's of document 01.

use job::{Answer, Build, Failure, Fitted, Group, Status};
use plain::{Rig, Run};

/// An answer in which every fit ran in both copies of the solver.
pub struct Checked {
    pub answer: Answer,
    /// Groups whose freedom hangs on the sign of a NaN, by their place in the answer.
    pub nan_groups: Vec<usize>,
}

impl Checked {
    pub fn refused(status: Status) -> Self {
        Self { answer: Answer::Refused(status), nan_groups: Vec::new() }
    }
}

pub fn checked(text: &[u8]) -> Checked {
    match job::read(text) {
        Ok(build) => checked_build(&build),
        Err(status) => Checked::refused(status),
    }
}

pub fn checked_build(build: &Build) -> Checked {
    let (rig, counted) = (Rig::new(build), counted::Rig::new(build));
    let fit = |group| agreed(rig.fit(group), counted.fit(group));
    let suspects = |group| agreed_suspects(&rig, &counted, group);
    let (answer, fitted) = run(&rig, fit, suspects);
    let nan_groups = fitted.iter().enumerate().filter(|(g, x)| rig.nan_in_gradients(*g, x)).map(|(g, _)| g).collect();
    Checked { answer, nan_groups }
}

/// The answer of the unmodified sources alone, which count nothing and say no reason.
pub fn unmodified(build: &Build) -> Answer {
    let rig = Rig::new(build);
    run(&rig, |group| rig.fit(group), |group| rig.suspects(group)).0
}

/// Fits every group in order until one fails; with the answer, the fitted coordinates of each
/// group (none after a failure).
fn run(rig: &Rig, fit: impl Fn(usize) -> Run, suspects: impl Fn(usize) -> Vec<usize>) -> (Answer, Vec<Vec<f64>>) {
    let (mut groups, mut fitted) = (Vec::new(), Vec::new());
    for group in 0..rig.groups() {
        let lowest = rig.points_of(group)[0];
        let Run { x, iterations, tries, reason, .. } = fit(group);
        let Some(x) = x else {
            let failure = Failure { lowest, iterations, tries, reason, suspects: suspects(group) };
            return (Answer::Failed(failure), Vec::new());
        };
        groups.push(Group { lowest, freedom: rig.freedom(group, &x), iterations, tries });
        fitted.push(x);
    }
    let (points, measures) = rig.finish(&fitted);
    let worst = plain::bare::max_abs(&rig.residuals_at(points.as_flattened()));
    let freedom = groups.iter().map(|g| g.freedom).sum::<usize>() + 2 * rig.untied();
    (Answer::Fitted(Fitted { freedom, worst, groups, points, measures }), fitted)
}

/// One fit from both copies: the coordinates must agree in every bit; the counts and the reason are
/// the second copy's.
fn agreed(plain: Run, counted: counted::Run) -> Run {
    let bits = |x: &Option<Vec<f64>>| x.as_ref().map(|x| x.iter().map(|v| v.to_bits()).collect::<Vec<_>>());
    assert_eq!(bits(&plain.x), bits(&counted.x), "the two copies of the solver differ");
    let counted::Run { iterations, tries, reason, round, .. } = counted;
    Run { x: plain.x, iterations, tries, reason, round }
}

/// The Rust's suspects, each of the fits behind them run in both copies.
fn agreed_suspects(rig: &Rig, counted: &counted::Rig, group: usize) -> Vec<usize> {
    let suspects = rig.suspects(group);
    let converging = |&k: &usize| agreed(rig.fit_without(group, k), counted.fit_without(group, k)).x.is_some();
    let again: Vec<usize> = rig.equations_of(group).iter().copied().filter(converging).collect();
    assert_eq!(suspects, again, "suspects differ from the fits behind them");
    suspects
}
