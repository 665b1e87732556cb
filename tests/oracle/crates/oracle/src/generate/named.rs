//! Eliminations by their names: those in which rows trade places, and those that have no answer or all but none.

use job::Reason;

use super::calls;

/// A call, and what it shows.
pub struct Named {
    pub name: &'static str,
    pub n: usize,
    pub a: Vec<f64>,
    pub b: Vec<f64>,
    /// The columns in which its rows trade places, counted from 0.
    pub columns: Vec<usize>,
    /// Whether it has an answer, and why not.
    pub ends: Result<(), Reason>,
}

impl Named {
    /// A call in which no rows trade places and that has an answer, as long as nothing else is said.
    fn new(name: &'static str, a: &[f64], b: &[f64]) -> Self {
        Self { name, n: b.len(), a: a.to_vec(), b: b.to_vec(), columns: Vec::new(), ends: Ok(()) }
    }

    fn trades(self, columns: impl IntoIterator<Item = usize>) -> Self {
        Self { columns: columns.into_iter().collect(), ..self }
    }

    /// The column is counted from 1.
    fn no_pivot(self, column: usize) -> Self {
        Self { ends: Err(Reason::NoPivot(column)), ..self }
    }

    fn not_finite(self) -> Self {
        Self { ends: Err(Reason::NotFinite), ..self }
    }

    /// The text of the call.
    pub fn text(&self) -> Vec<u8> {
        calls::elimination(self.n, &self.a, &self.b).into_bytes()
    }
}

pub fn named() -> Vec<Named> {
    let mut all = exchanges();
    all.extend(endings());
    all
}

fn exchanges() -> Vec<Named> {
    const M: f64 = f64::MAX;
    let b = &[1.0, -2.0, 3.0, 0.5];
    // The first exchange sends the second row down, the next one brings it back up; its own place the pivot's row has taken.
    let brought_back = &[5.1, 1.3, -0.7, 0.4, 0.7, 0.3, 2.9, -0.2, 1.9, 0.8, 0.3, 2.1, -0.9, 3.6, 1.7, 1.2];
    // Clearing leaves a little in the first column of the two last rows, and it is not the same.
    let late = &[5.1, 1.3, -0.7, 0.4, 0.3, 4.3, 1.1, -0.2, 0.7, 0.8, 0.3, 2.1, -0.35, 0.6, 3.7, 1.2];
    // A place of the second column overflows and is the pivot: the others there are divided by it to zero and stay as they are.
    let infinity = &[M, -M, 0.0, 0.0, 0.0, 3.0, M / 8.0, 1.0, M, M, 5.0, 7.0, 0.0, 7.0, M / 4.0, -M / 2.0];
    // Two do, and the second of them, divided by the first, makes its row NaN, which then comes up.
    let nan = &[M, -M, 1.0, 1.0, 0.0, 3.0, 2.0, 1.0, M, M, 5.0, 7.0, M, M, 4.0, -1.0];
    let minus_zero = &[2.0, 1.0, 3.0, 1.0, -0.0, 0.0, 2.0, -1.0, -0.0, -3.0, 1.0, -0.0, 0.0, -0.0, 5.0, -0.0];
    let singular = &[3.0, 1.0, 2.0, 1.0, 1.0, 1.0, 1.0, 2.0, 6.0, 2.0, 4.0, -1.0, -3.0, 5.0, 1.0, 2.0];
    let mut longer = Named::new("longer-than-its-shape", brought_back, b).trades([1, 2]);
    longer.a.extend([f64::NEG_INFINITY, -0.0, 9.0]);
    longer.b.extend([f64::MAX, -0.0]);
    vec![
        permutation("permutation-7", 7, |r| (r + 1) % 7, 6),
        permutation("permutation-80", 80, |r| (r + 1) % 80, 79),
        permutation("reversed-7", 7, |r| 6 - r, 3),
        permutation("reversed-80", 80, |r| 79 - r, 40),
        Named::new("last-column-but-one", late, b).trades([2]),
        Named::new("brought-back", brought_back, b).trades([1, 2]),
        Named::new("infinity-on-the-left", infinity, b).trades([1, 2]),
        Named::new("nan-on-the-left", nan, b).trades([1, 2]).not_finite(),
        Named::new("nan-first", &[1.0, 2.0, f64::NAN, 3.0], &b[..2]).trades([0]).not_finite(),
        Named::new("minus-zero-on-the-left", minus_zero, &[1.0, -0.0, 3.0, -0.0]).trades([1, 2]),
        Named::new("singular-right-after", singular, b).trades([0, 1]).no_pivot(3),
        longer,
    ]
}

/// Row r has its one in column `at(r)`; rows trade places in the first `columns` columns.
fn permutation(name: &'static str, n: usize, at: impl Fn(usize) -> usize, columns: usize) -> Named {
    let b: Vec<f64> = (1..=n).map(|v| v as f64).collect();
    Named::new(name, &ones(n, at), &b).trades(0..columns)
}

/// Row r has its one in column `at(r)`.
fn ones(n: usize, at: impl Fn(usize) -> usize) -> Vec<f64> {
    let mut a = vec![0.0; n * n];
    (0..n).for_each(|r| a[r * n + at(r)] = 1.0);
    a
}

/// No pivot, a result that is not finite, and their nearest neighbours that have an answer.
fn endings() -> Vec<Named> {
    const INFINITY: f64 = f64::INFINITY;
    const NAN: f64 = f64::NAN;
    // What counts as no pivot where every place is at most 1, and where the scale is the least.
    let (edge, least) = (1e-15f64, 1e-300f64 * 1e-15);
    let b = &[1.0, 2.0];
    // Its third column is the first two together.
    let middle = &[4.0, 2.0, 6.0, 1.0, 0.0, 2.0, 4.0, 6.0, 0.0, 1.0, 1.0, 1.0, 2.0, 3.0, 1.0, 0.0, 2.0, 2.0, 1.0, 1.0, 2.0, 0.0, 2.0, 1.0, 5.0];
    // The last row is all others together.
    let mut last = ones(80, |r| r);
    last[79 * 80..].fill(1.0);
    last[80 * 80 - 1] = 0.0;
    let counted: Vec<f64> = (1..=80).map(|v| v as f64).collect();
    vec![
        Named::new("no-pivot-in-column-1", &[0.0, 1.0, -0.0, 2.0], b).no_pivot(1),
        Named::new("no-pivot-in-the-middle", middle, &[1.0, 2.0, 3.0, 4.0, 5.0]).no_pivot(3),
        Named::new("no-pivot-in-the-last-of-80", &last, &counted).no_pivot(80),
        Named::new("at-the-edge", &[1.0, 0.0, 0.0, edge], &[1.0, edge]).no_pivot(2),
        Named::new("above-the-edge", &[1.0, 0.0, 0.0, edge.next_up()], &[1.0, edge]),
        Named::new("at-the-edge-below-zero", &[1.0, 0.0, 0.0, -edge], &[1.0, edge]).no_pivot(2),
        Named::new("at-the-least-scale", &[least], &[least]).no_pivot(1),
        Named::new("above-the-least-scale", &[least.next_up()], &[least]),
        Named::new("infinite-entry", &[1.0, 2.0, 3.0, INFINITY], b).no_pivot(1),
        Named::new("infinite-pivot", &[INFINITY, 0.0, 0.0, 1.0], b).no_pivot(1),
        Named::new("nan-pivot", &[NAN, 2.0, 3.0, 4.0], b).not_finite(),
        Named::new("nan-pivot-beside-an-infinity", &[NAN, 2.0, 3.0, INFINITY], b).not_finite(),
        Named::new("nan-pivot-last", &[1.0, 2.0, 0.0, NAN], b).not_finite(),
        Named::new("result-overflows", &[1.0, 0.0, 0.0, 1e-10], &[1.0, 1e300]).not_finite(),
        Named::new("nan-on-the-right-side", &[1.0, 0.0, 0.0, 1.0], &[1.0, NAN]).not_finite(),
        Named::new("infinity-on-the-right-side", &[1.0, 0.0, 0.0, 1.0], &[INFINITY, 1.0]).not_finite(),
        Named::new("nothing-at-all", &[], &[]),
    ]
}
