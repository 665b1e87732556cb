//! The calls on bare matrices, of every size up to the bounds: the answer and every lent place. Now and then a slice is too short or a
//! count too large, and nothing may change.

use std::hint::black_box;
use std::process::ExitCode;
use std::time::Instant;

use chance::Rng;
use counted::counters;
use job::Reason;
use oracle::calls;
use oracle::generate::{Named, named};
use plain::bare;
use rooms::{NO_PIVOT, NOT_FINITE, REFUSED, SOLVED, Tally, one_nan, same};

const TOO_MANY: usize = job::TOO_MANY as usize;
const TOO_SHORT: usize = job::TOO_SHORT as usize;
/// The kinds of tables, as `table` makes them.
const KINDS: usize = 11;
const ANY_BITS: usize = 7;
const PRODUCT: usize = 9;
const TRADING: usize = 10;

pub fn compare(count: u64, seed: u64) -> ExitCode {
    let (mut tally, mut nans) = (Tally::default(), 0);
    for case in named() {
        tally.note(shown(&case), || case.name.to_string());
    }
    for i in 0..count {
        let rng = &mut Rng::new(seed, i);
        let (kind, n) = ((i / 81) as usize % KINDS, i as usize % 81);
        let told = |what: &str| format!("{what} {i}, kind {kind}, size {n}");
        tally.note(elimination(rng, kind, n), || told("elimination"));
        if i % 16 == 0 {
            tally.note(figures(rng, kind, n), || told("figures"));
            tally.note(too_many(rng), || told("too many"));
            tally.note(too_large(rng), || told("too large"));
        }
        let rows = rng.between(0, 64);
        tally.note(space(rng, kind, rows, n, &mut nans), || told("null space"));
    }
    println!("{nans} null spaces with a NaN among the scaled rows, held to their rank and to the bits of their NaNs");
    if rooms::timed() {
        time();
    }
    tally.end()
}

fn special(rng: &mut Rng) -> f64 {
    rng.pick(&[0.0, -0.0, f64::INFINITY, f64::NEG_INFINITY, f64::NAN, -f64::NAN, f64::from_bits(1), f64::MAX, f64::MIN_POSITIVE])
}

fn unit(rng: &mut Rng) -> f64 {
    rng.range(-1.0, 1.0)
}

/// A table of `rows` rows and `cols` columns.
fn table(rng: &mut Rng, kind: usize, rows: usize, cols: usize) -> Vec<f64> {
    let place = |rng: &mut Rng| match kind {
        1 => rng.below(7) as f64 - 3.0,
        5 => {
            let plain = unit(rng);
            rng.pick(&[0.0, 0.0, 0.0, -0.0, 1.0, -1.0, plain])
        }
        ANY_BITS => f64::from_bits(rng.bits()),
        _ => unit(rng),
    };
    let mut a: Vec<f64> = (0..rows * cols).map(|_| place(rng)).collect();
    match kind {
        2 | 3 if rows > 1 => combined(rng, &mut a, rows, cols, kind == 3),
        4 => graded(rng, &mut a, rows, cols),
        // A few places that are special.
        6 if rows * cols > 0 => (0..rng.between(1, 4)).for_each(|_| a[rng.below(rows * cols)] = special(rng)),
        8 if rows * cols > 0 => edge(rng, &mut a, rows, cols),
        PRODUCT if rows == cols => a = product(&a, rows),
        TRADING if rows == cols => trading(rng, &mut a, rows),
        _ => {}
    }
    a
}

/// Some rows are multiples of others, or sums of two, now and then off by a little.
fn combined(rng: &mut Rng, a: &mut [f64], rows: usize, cols: usize, nearly: bool) {
    for _ in 0..rng.between(1, 3) {
        let (r, p, q) = (rng.below(rows), rng.below(rows), rng.below(rows));
        let (x, y) = (unit(rng), rng.pick(&[0.0, 1.0]));
        let off = if nearly { 10f64.powi(-(rng.below(20) as i32)) } else { 0.0 };
        for c in 0..cols {
            a[r * cols + c] = x * a[p * cols + c] + y * a[q * cols + c] + off * unit(rng);
        }
    }
}

/// Each row on a scale of its own.
fn graded(rng: &mut Rng, a: &mut [f64], rows: usize, cols: usize) {
    for r in 0..rows {
        let f = 10f64.powi(rng.below(300) as i32 - 150);
        a[r * cols..(r + 1) * cols].iter_mut().for_each(|v| *v *= f);
    }
}

/// A permutation with one place at the very edge of being singular.
fn edge(rng: &mut Rng, a: &mut [f64], rows: usize, cols: usize) {
    a.fill(0.0);
    let shift = rng.below(cols);
    (0..rows).for_each(|r| a[r * cols + (r + shift) % cols] = 1.0);
    let (r, edge) = (rng.below(rows), 1e-15f64);
    a[r * cols + (r + shift) % cols] = rng.pick(&[edge, edge.next_up(), edge.next_down(), -edge]);
}

/// What the fit makes: a product with its own transpose and a little on the diagonal.
fn product(j: &[f64], n: usize) -> Vec<f64> {
    let dot = |i: usize, k: usize| (0..n).map(|c| j[i * n + c] * j[k * n + c]).sum::<f64>();
    (0..n * n).map(|at| dot(at / n, at % n) + if at / n == at % n { 1e-10 } else { 0.0 }).collect()
}

/// In each column one place outweighs all others, and it is in the row before: rows trade places in every column but the last.
fn trading(rng: &mut Rng, a: &mut [f64], n: usize) {
    (0..n).for_each(|r| a[r * n + (r + 1) % n] = rng.sign() * (n as f64 + 1.0));
}

/// Places past the shape, of any bits.
fn lengthened(rng: &mut Rng, mut places: Vec<f64>) -> Vec<f64> {
    let more = rng.pick(&[0, 0, 1, 7]);
    places.extend((0..more).map(|_| f64::from_bits(rng.bits())));
    places
}

fn elimination(rng: &mut Rng, kind: usize, n: usize) -> bool {
    let matrix = table(rng, kind, n, n);
    let right_kind = rng.pick(&[0, 1, 5, ANY_BITS]);
    let right = table(rng, right_kind, n, 1);
    let trades = kind != TRADING || traded(&matrix, &right, n).into_iter().eq(0..n.saturating_sub(1));
    let (mut a, mut b) = (lengthened(rng, matrix), lengthened(rng, right));
    match rng.below(40) {
        0 if n > 0 => a.truncate(n * n - 1),
        1 if n > 0 => b.truncate(n - 1),
        _ => {}
    }
    trades && eliminated(a, b, n)
}

/// The answer, why there is none, and every lent place.
fn eliminated(mut a: Vec<f64>, mut b: Vec<f64>, n: usize) -> bool {
    let (mut their_a, mut their_b) = (a.clone(), b.clone());
    let theirs = if a.len() < n * n || b.len() < n {
        TOO_SHORT
    } else {
        let answer = calls::eliminated(&a[..n * n], &b[..n], n);
        their_a[..n * n].fill(0.0);
        their_b[..n].copy_from_slice(answer.as_deref().unwrap_or(&vec![0.0; n]));
        number(answer)
    };
    let ours = rooms::solve_dense(&mut a, &mut b, n);
    ours == theirs && same(&a, &their_a) && same(&b, &their_b)
}

/// What the proved code is to answer where the Rust does so.
fn number(answer: Result<Vec<f64>, Reason>) -> usize {
    match answer {
        Ok(_) => SOLVED,
        Err(Reason::NoPivot(column)) => NO_PIVOT + column,
        Err(Reason::NotFinite) => NOT_FINITE,
        Err(other) => panic!("elimination has no answer since {other:?}"),
    }
}

/// An elimination that must trade rows and end just as it names.
fn shown(case: &Named) -> bool {
    calls::shows(case) && eliminated(case.a.clone(), case.b.clone(), case.n)
}

/// The columns in which the Rust's elimination trades rows, counted from 0.
fn traded(a: &[f64], b: &[f64], n: usize) -> Vec<usize> {
    counters::reset();
    counted::bare::eliminate(a[..n * n].to_vec(), b[..n].to_vec(), n);
    counters::exchanges()
}

fn too_many(rng: &mut Rng) -> bool {
    let n = rng.between(81, 1080);
    let (mut a, mut b) = (table(rng, ANY_BITS, 9, 9), table(rng, ANY_BITS, 9, 1));
    let (before_a, before_b) = (a.clone(), b.clone());
    let ours = rooms::solve_dense(&mut a, &mut b, n);
    ours == TOO_MANY && same(&a, &before_a) && same(&b, &before_b)
}

/// The rank, the basis and every lent place. With a NaN among the scaled rows the Rust goes by the sign that the processor picked for
/// it; the definition takes that column first, it spreads, and the rank is the lesser of rows and columns. Of the basis then the bits
/// of its NaNs are held.
fn space(rng: &mut Rng, kind: usize, rows: usize, n: usize, nans: &mut usize) -> bool {
    // The Rust takes sparse rows, whose places start from +0.0.
    let m: Vec<f64> = table(rng, kind, rows, n).iter().map(|x| 0.0 + x).collect();
    let (more_work, more_out) = (rng.below(3), rng.below(3));
    let (mut work, mut out) = (table(rng, ANY_BITS, rows * n + more_work, 1), table(rng, ANY_BITS, n * n + more_out, 1));
    match rng.below(40) {
        0 if rows * n > 0 => work.truncate(rows * n - 1),
        1 if n > 0 => out.truncate(n * n - 1),
        _ => {}
    }
    let refused = work.len() < rows * n || out.len() < n * n;
    let nan = !refused && bare::nan_in_matrix(&m, rows, n);
    let (lent, mut their_work, mut their_out) = (out.clone(), work.clone(), out.clone());
    let theirs = if refused {
        REFUSED + TOO_SHORT
    } else {
        let (rank, basis) = bare::null_space(&bare::sparse(&m, rows, n), n);
        their_work[..rows * n].fill(0.0);
        their_out.iter_mut().zip(basis.iter().flatten()).for_each(|(place, v)| *place = *v);
        *nans += usize::from(nan);
        if nan { rows.min(n) } else { rank }
    };
    let ours = rooms::null_space(&m, rows, n, &mut work, &mut out);
    if ours != theirs || !same(&work, &their_work) {
        return false;
    }
    if !nan {
        return same(&out, &their_out);
    }
    let basis = (n - ours) * n;
    out[..basis].iter().all(|v| v.to_bits() == one_nan(*v)) && same(&out[basis..], &lent[basis..])
}

fn too_large(rng: &mut Rng) -> bool {
    let (rows, n) = if rng.chance(0.5) { (rng.between(65, 73), rng.below(90)) } else { (rng.below(70), rng.between(81, 89)) };
    let mut tables = || table(rng, ANY_BITS, 9, 9);
    let (m, mut work, mut out) = (tables(), tables(), tables());
    let (before_work, before_out) = (work.clone(), out.clone());
    let ours = rooms::null_space(&m, rows, n, &mut work, &mut out);
    ours == REFUSED + TOO_MANY && same(&work, &before_work) && same(&out, &before_out)
}

fn figures(rng: &mut Rng, kind: usize, n: usize) -> bool {
    let v = table(rng, kind, n, 1);
    rooms::max_abs(&v).to_bits() == bare::max_abs(&v).to_bits() && rooms::norm2(&v).to_bits() == one_nan(bare::norm2(&v))
}

fn time() {
    for (kind, which) in [(PRODUCT, ""), (TRADING, ", rows traded in every column but the last")] {
        for n in [10, 40, 64] {
            let [ours, theirs] = timed_elimination(kind, n);
            println!("elimination at {n}{which}: {ours:.0} ns beside the Rust's {theirs:.0} ns, {:.2} of its time", ours / theirs);
        }
    }
    let [ours, theirs] = timed_space(40, 60);
    println!("null space at 40 x 60: {ours:.0} ns beside the Rust's {theirs:.0} ns, {:.2} of its time", ours / theirs);
}

/// The least time of one call, in nanoseconds, on each side: turn about, on the same matrices.
fn timed_elimination(kind: usize, n: usize) -> [f64; 2] {
    let (rng, copies, mut least) = (&mut Rng::new(0, n as u64), 20_000 / (n * n) + 4, [f64::INFINITY; 2]);
    for _ in 0..300 {
        let theirs: Vec<(Vec<f64>, Vec<f64>)> = (0..copies).map(|_| (table(rng, kind, n, n), table(rng, 0, n, 1))).collect();
        let mut ours = theirs.clone();
        let start = Instant::now();
        for (a, b) in &mut ours {
            rooms::solve_dense(a, b, n);
        }
        least[0] = least[0].min(start.elapsed().as_nanos() as f64 / copies as f64);
        black_box(&ours);
        let start = Instant::now();
        for (a, b) in theirs {
            black_box(bare::eliminate(a, b, n));
        }
        least[1] = least[1].min(start.elapsed().as_nanos() as f64 / copies as f64);
    }
    least
}

/// The same for null space.
fn timed_space(rows: usize, n: usize) -> [f64; 2] {
    let (rng, mut least) = (&mut Rng::new(0, 0), [f64::INFINITY; 2]);
    for _ in 0..300 {
        let m = table(rng, 0, rows, n);
        let sparse = bare::sparse(&m, rows, n);
        let (mut work, mut out) = (vec![0.0; rows * n], vec![0.0; n * n]);
        let start = Instant::now();
        rooms::null_space(&m, rows, n, &mut work, &mut out);
        least[0] = least[0].min(start.elapsed().as_nanos() as f64);
        black_box(&out);
        let start = Instant::now();
        black_box(bare::null_space(&sparse, n));
        least[1] = least[1].min(start.elapsed().as_nanos() as f64);
    }
    least
}
