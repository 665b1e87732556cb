//! Single calls by bits, from the text that tests/README.md describes.

use std::fmt::Write;

use counted::counters;
use job::{Build, Call, Reason, TOO_MANY, TOO_SHORT, hex};

use crate::answer::{self, Checked};
use crate::generate::Named;

const MAX_ELIMINATION: usize = 80;
const MAX_MATRIX_ROWS: usize = 64;
const MAX_MATRIX_COLUMNS: usize = 80;
/// The f64 that each of the three work areas must hold.
const AREA: usize = 6_400;
/// What the lent places of a `lent` call hold before it.
const LENT: f64 = 7.0;
/// The whole reply where the Rust's answer hangs on the sign that the processor gives a NaN.
pub const NAN: &str = "nan\n";

/// The reply to one call; a text outside the grammar is an error in words.
pub fn answer(text: &[u8]) -> Result<String, String> {
    Ok(match job::read_call(text)? {
        Call::Sqrt(v) => lines(v.iter().map(|v| v.sqrt())),
        Call::MaxAbs(v) => lines([plain::bare::max_abs(&v)]),
        Call::Norm2(v) => lines([plain::bare::norm2(&v)]),
        Call::Eliminate(n, a, b) => eliminate(n, a, b, |a, b, n| eliminated(a, b, n).map_err(no_answer)),
        Call::EliminateZeroSum(n, a, b) => {
            eliminate(n, a, b, |a, b, n| zerosum::harness::eliminate(a.to_vec(), b.to_vec(), n).ok_or("none".to_string()))
        }
        Call::NullSpace { rows, columns, matrix, out } => null_space(rows, columns, &matrix, out),
        Call::Level(build) => level(&build),
        Call::Groups(build) => groups(&build),
        Call::Rows(build) => rows(&build),
        Call::Lent { build, out, areas } => lent(&build, out, areas),
    })
}

fn lines(values: impl IntoIterator<Item = f64>) -> String {
    values.into_iter().map(|v| hex(v) + "\n").collect()
}

/// The Rust's elimination in both copies, which must agree in every bit; where there is no answer,
/// why, as the second copy says.
pub fn eliminated(a: &[f64], b: &[f64], n: usize) -> Result<Vec<f64>, Reason> {
    counters::reset();
    let (plain, counted) = (plain::bare::eliminate(a.to_vec(), b.to_vec(), n), counted::bare::eliminate(a.to_vec(), b.to_vec(), n));
    let bits = |y: &Option<Vec<f64>>| y.as_ref().map(|y| y.iter().map(|v| v.to_bits()).collect::<Vec<_>>());
    assert_eq!(bits(&plain), bits(&counted), "the two copies of elimination differ");
    plain.ok_or_else(counters::said)
}

/// Whether rows trade places and elimination ends as the case names.
pub fn shows(case: &Named) -> bool {
    let Named { n, a, b, .. } = case;
    let ends = eliminated(&a[..n * n], &b[..*n], *n).map(|_| ());
    ends == case.ends && counters::exchanges() == case.columns
}

fn no_answer(reason: Reason) -> String {
    match reason {
        Reason::NoPivot(column) => format!("nopivot={column}"),
        Reason::NotFinite => "notfinite".to_string(),
        other => panic!("elimination has no answer since {other:?}"),
    }
}

/// Elimination, and what 01 leaves in the lent places: the matrix zeroed, the right side the
/// answer or zeros, nothing else touched. `call` answers, or has the first line of the reply.
fn eliminate(n: usize, mut a: Vec<f64>, mut b: Vec<f64>, call: impl Fn(&[f64], &[f64], usize) -> Result<Vec<f64>, String>) -> String {
    let first = if n > MAX_ELIMINATION {
        format!("status={TOO_MANY}")
    } else if a.len() < n * n || b.len() < n {
        format!("status={TOO_SHORT}")
    } else {
        let y = call(&a[..n * n], &b[..n], n);
        a[..n * n].fill(0.0);
        b[..n].copy_from_slice(y.as_deref().unwrap_or(&vec![0.0; n]));
        match y {
            Ok(_) => "answer".to_string(),
            Err(line) => line,
        }
    };
    format!("{first}\n{}{}", lines(a), lines(b))
}

/// Rank and basis; the matrix is only read.
fn null_space(rows: usize, columns: usize, matrix: &[f64], mut out: Vec<f64>) -> String {
    let first = if rows > MAX_MATRIX_ROWS || columns > MAX_MATRIX_COLUMNS {
        format!("status={TOO_MANY}")
    } else if matrix.len() < rows * columns || out.len() < columns * columns {
        format!("status={TOO_SHORT}")
    } else if plain::bare::nan_in_matrix(matrix, rows, columns) {
        return NAN.to_string();
    } else {
        let (rank, basis) = plain::bare::null_space(&plain::bare::sparse(matrix, rows, columns), columns);
        for (place, v) in out.iter_mut().zip(basis.iter().flatten()) {
            *place = *v;
        }
        format!("rank={rank}")
    };
    format!("{first}\n{}", lines(out))
}

/// Levelling only copies, so a NaN keeps its bits here.
fn level(build: &Build) -> String {
    let mut at: Vec<f64> = build.points.iter().flat_map(|p| p.start).collect();
    plain::Rig::new(build).level(&mut at);
    at.chunks(2).map(|p| format!("{:016x} {:016x}\n", p[0].to_bits(), p[1].to_bits())).collect()
}

/// Each group's points and equations.
fn groups(build: &Build) -> String {
    let rig = plain::Rig::new(build);
    let list = |numbers: &[usize]| numbers.iter().map(usize::to_string).collect::<Vec<_>>().join(",");
    (0..rig.groups()).map(|g| format!("p={}\ne={}\n", list(rig.points_of(g)), list(rig.equations_of(g)))).collect()
}

/// Each residual of each group at its start, with its gradient over all the group's coordinates.
fn rows(build: &Build) -> String {
    let rig = plain::Rig::new(build);
    let mut text = String::new();
    for g in 0..rig.groups() {
        let x = rig.scaled(g);
        let jacobian = rig.jacobian(g, &x);
        for (r, gradient) in rig.residuals(g, &x).iter().zip(jacobian.chunks(x.len())) {
            writeln!(text, "r={}", hex(*r)).expect("a string takes every line");
            writeln!(text, "d={}", gradient.iter().map(|d| hex(*d)).collect::<Vec<_>>().join(",")).expect("a string takes every line");
        }
    }
    text
}

/// A job as the library is called: an output and three work areas are lent, every place of them
/// 7.0. After the reply come the output's places, then for each area how many of its places were
/// zeroed and how many are as they were lent.
fn lent(build: &Build, out: usize, areas: [usize; 3]) -> String {
    let needed = 2 * build.points.len() + build.measures.len();
    let refusal = if out < needed || areas.iter().any(|&a| a < AREA) { Err(TOO_SHORT) } else { job::check(build) };
    let (checked, zeroed) = match refusal {
        Err(status) => (Checked::refused(status), 0),
        Ok(()) => (answer::checked_build(build), AREA),
    };
    if !checked.nan_groups.is_empty() {
        return NAN.to_string();
    }
    let mut places = vec![LENT; out];
    if let job::Answer::Fitted(f) = &checked.answer {
        for (place, v) in places.iter_mut().zip(f.points.iter().flatten().chain(&f.measures)) {
            *place = *v;
        }
    }
    let areas: String = areas.iter().map(|a| format!("a={zeroed},{}\n", a - zeroed)).collect();
    let places: String = places.iter().map(|v| format!("o={}\n", hex(*v))).collect();
    job::reply(&checked.answer) + &places + &areas
}
