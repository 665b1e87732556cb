//! The reply to a job.

use crate::{Status, hex};

/// A group of a fitted build.
pub struct Group {
    pub lowest: usize,
    pub freedom: usize,
    pub iterations: usize,
    pub tries: usize,
}

pub struct Fitted {
    pub freedom: usize,
    pub worst: f64,
    pub groups: Vec<Group>,
    pub points: Vec<[f64; 2]>,
    pub measures: Vec<f64>,
}

/// The first group that does not converge.
pub struct Failure {
    pub lowest: usize,
    pub iterations: usize,
    pub tries: usize,
    pub reason: Reason,
    pub suspects: Vec<usize>,
}

/// Why a fit failed: nothing is free, the last try of a round without success, or the rounds are spent.
#[derive(Clone, Copy, Debug, PartialEq, Eq, PartialOrd, Ord)]
pub enum Reason {
    NothingFree,
    /// Elimination found no pivot in this column, counted from 1.
    NoPivot(usize),
    /// Elimination's result is not finite.
    NotFinite,
    /// The cost is not finite or not less.
    NotLess,
    /// Every round was begun, and the last one took a try.
    Spent,
}

impl Reason {
    /// The number that stands for it in a reply.
    pub fn code(self) -> usize {
        match self {
            Self::NothingFree => 1,
            Self::NoPivot(_) => 2,
            Self::NotFinite => 3,
            Self::NotLess => 4,
            Self::Spent => 5,
        }
    }

    /// The column without a pivot, and 0 with any other reason.
    pub fn column(self) -> usize {
        if let Self::NoPivot(column) = self { column } else { 0 }
    }
}

pub enum Answer {
    Fitted(Fitted),
    Failed(Failure),
    Refused(Status),
}

pub fn reply(answer: &Answer) -> String {
    match answer {
        Answer::Fitted(f) => fitted(f),
        Answer::Failed(f) => failed(f),
        Answer::Refused(status) => format!("status={status}\n"),
    }
}

fn fitted(f: &Fitted) -> String {
    let mut text = format!("status=0\ngroups={}\nfreedom={}\nworst={}\n", f.groups.len(), f.freedom, hex(f.worst));
    for g in &f.groups {
        text += &format!("g={},{},{},{}\n", g.lowest, g.freedom, g.iterations, g.tries);
    }
    for p in &f.points {
        text += &format!("x={},{}\n", hex(p[0]), hex(p[1]));
    }
    for &m in &f.measures {
        text += &format!("m={}\n", hex(m));
    }
    text
}

fn failed(f: &Failure) -> String {
    let mut text = format!("status=7\ng={},{},{},{},{}\n", f.lowest, f.iterations, f.tries, f.reason.code(), f.reason.column());
    for s in &f.suspects {
        text += &format!("c={s}\n");
    }
    text
}
