//! Single calls from a seed.

use chance::Rng;

use super::{Made, several, soups, true_soup};

type Case = fn(&mut Rng, u64) -> String;

const CASES: [(&str, Case); 30] = [
    ("sqrt-bits", |rng, _| sqrt(rng, |rng| f64::from_bits(rng.bits()))),
    ("sqrt-subnormal", |rng, _| sqrt(rng, subnormal)),
    ("sqrt-near-square", |rng, _| sqrt(rng, near_square)),
    ("sqrt-exponents", |_, turn| sqrt_exponents(turn)),
    ("sqrt-odd", |rng, _| sqrt(rng, odd)),
    ("maxabs", |rng, _| vector(rng, "maxabs")),
    ("norm2", |rng, _| vector(rng, "norm2")),
    ("eliminate-random", |rng, turn| eliminate(rng, (turn % 81) as usize, random_matrix)),
    ("eliminate-small", |rng, turn| eliminate(rng, (turn % 13) as usize, random_matrix)),
    ("eliminate-singular", |rng, _| eliminate_some(rng, dependent_matrix)),
    ("eliminate-nearly", |rng, _| eliminate_some(rng, nearly_dependent_matrix)),
    ("eliminate-graded", |rng, _| eliminate_some(rng, graded_matrix)),
    ("eliminate-zeros", |rng, _| eliminate_some(rng, sparse_matrix)),
    ("eliminate-ties", |rng, _| eliminate_some(rng, tied_matrix)),
    ("eliminate-odd", |rng, _| eliminate_some(rng, odd_matrix)),
    ("eliminate-signs", |rng, _| eliminate_signs(rng)),
    ("eliminate-edge", |rng, _| eliminate_edge(rng)),
    ("eliminate-refused", |rng, _| eliminate_refused(rng)),
    ("nullspace-random", null_space_of_every_shape),
    ("nullspace-dependent", |rng, _| null_space_some(rng, dependent_matrix)),
    ("nullspace-nearly", |rng, _| null_space_some(rng, nearly_dependent_matrix)),
    ("nullspace-graded", |rng, _| null_space_some(rng, graded_matrix)),
    ("nullspace-zeros", |rng, _| null_space_some(rng, sparse_matrix)),
    ("nullspace-ties", |rng, _| null_space_some(rng, tied_matrix)),
    ("nullspace-odd", |rng, _| null_space_some(rng, odd_matrix)),
    ("nullspace-edge", |rng, _| null_space_edge(rng)),
    ("nullspace-refused", |rng, _| null_space_refused(rng)),
    ("level", |rng, _| level(rng, |rng| rng.range(-9.0, 9.0))),
    ("level-odd", |rng, _| level(rng, |rng| if rng.chance(0.5) { odd(rng) } else { f64::from_bits(rng.bits()) })),
    ("build", |rng, _| on_build(rng)),
];

/// Call `index` of the seed; the classes come in turn.
pub fn call(seed: u64, index: u64) -> Made {
    let (class, case) = CASES[(index % CASES.len() as u64) as usize];
    let text = case(&mut Rng::new(!seed, index), index / CASES.len() as u64);
    Made { class, text: text.into_bytes() }
}

fn floats(values: impl IntoIterator<Item = f64>) -> String {
    values.into_iter().map(|v| format!("{:016x}\n", v.to_bits())).collect()
}

/// Values on the edges of binary64.
const ODD: [f64; 16] = [
    0.0,
    -0.0,
    1.0,
    -1.0,
    f64::INFINITY,
    f64::NEG_INFINITY,
    f64::NAN,
    -f64::NAN,
    f64::MAX,
    f64::MIN,
    f64::MIN_POSITIVE,
    5e-324,
    -5e-324,
    1e-300,
    1e154,
    1e-162,
];

fn odd(rng: &mut Rng) -> f64 {
    rng.pick(&ODD)
}

fn subnormal(rng: &mut Rng) -> f64 {
    let width = rng.between(1, 52);
    f64::from_bits(rng.bits() >> (64 - width))
}

/// A square, or a neighbour of one.
fn near_square(rng: &mut Rng) -> f64 {
    let bits = rng.between(1, 53);
    let r = (rng.bits() >> (64 - bits)) as f64;
    let scale = f64::from_bits((rng.between(1023 - 400, 1023 + 400) as u64) << 52);
    let r = if rng.chance(0.5) { r * scale } else { r };
    let square = (r * r).to_bits();
    f64::from_bits(square.saturating_add(rng.below(5) as u64).saturating_sub(2))
}

const ROOTS: usize = 64;

fn sqrt(rng: &mut Rng, value: impl Fn(&mut Rng) -> f64) -> String {
    format!("sqrt {ROOTS}\n{}", floats((0..ROOTS).map(|_| value(rng))))
}

/// The ends of sixteen exponents in a row, the exponents of each turn after those of the last.
fn sqrt_exponents(turn: u64) -> String {
    let ends = |exponent: u64| [0, 1, (1 << 52) - 2, (1 << 52) - 1].map(|significand| f64::from_bits(exponent << 52 | significand));
    let values = (0..16).flat_map(|i| ends((16 * turn + i) % 2048));
    format!("sqrt {ROOTS}\n{}", floats(values))
}

fn vector(rng: &mut Rng, name: &str) -> String {
    let n = rng.pick(&[0, 1, 2, 3, 5, 10, 40, 64]);
    let strange = rng.pick(&[0.0, 0.05, 0.5]);
    let values = (0..n).map(|_| if rng.chance(strange) { odd(rng) } else { wide(rng) });
    format!("{name} {n}\n{}", floats(values))
}

/// A number of any sign and of a magnitude from 1e-8 to 1e8.
fn wide(rng: &mut Rng) -> f64 {
    rng.sign() * 10f64.powf(rng.range(-8.0, 8.0))
}

type Matrix = fn(&mut Rng, usize, usize) -> Vec<f64>;

fn random_matrix(rng: &mut Rng, rows: usize, columns: usize) -> Vec<f64> {
    (0..rows * columns).map(|_| rng.range(-1.0, 1.0)).collect()
}

/// Some rows repeat others or add two of them up, some columns are zero.
fn dependent_matrix(rng: &mut Rng, rows: usize, columns: usize) -> Vec<f64> {
    let whole = rng.chance(0.5);
    let mut m: Vec<f64> = random_matrix(rng, rows, columns).iter().map(|v| if whole { (v * 8.0).round() } else { *v }).collect();
    for _ in 0..rng.between(1, 3) {
        if rows > 0 && columns > 0 {
            combine(rng, &mut m, rows, columns, 0.0);
        }
    }
    m
}

/// Rows that are others added up but for the last bits.
fn nearly_dependent_matrix(rng: &mut Rng, rows: usize, columns: usize) -> Vec<f64> {
    let mut m = random_matrix(rng, rows, columns);
    let off = rng.pick(&[1e-6, 1e-9, 1e-10, 3e-11, 1e-12, 1e-14, 1e-15, 3e-16, 1e-17]);
    if rows > 0 && columns > 0 {
        combine(rng, &mut m, rows, columns, off);
    }
    m
}

/// Row `i` becomes a combination of two others, up to `off`; or column `i` becomes zero.
fn combine(rng: &mut Rng, m: &mut [f64], rows: usize, columns: usize, off: f64) {
    let (i, j, k) = (rng.below(rows), rng.below(rows), rng.below(rows));
    let zero_column = off == 0.0 && rng.chance(0.2);
    let zero = rng.below(columns);
    for c in 0..columns {
        if !zero_column {
            m[i * columns + c] = m[j * columns + c] + m[k * columns + c] + rng.range(-off, off);
        }
    }
    for r in 0..rows {
        if zero_column {
            m[r * columns + zero] = 0.0;
        }
    }
}

/// Each row, or each column, on a scale of its own.
fn graded_matrix(rng: &mut Rng, rows: usize, columns: usize) -> Vec<f64> {
    let (by_row, reach) = (rng.chance(0.5), rng.pick(&[1.0, 5.0, 16.0, 150.0, 300.0]));
    let scales: Vec<f64> = (0..rows.max(columns)).map(|_| 10f64.powf(rng.range(-reach, reach))).collect();
    let scale = |i: usize| scales[if by_row { i / columns } else { i % columns }];
    random_matrix(rng, rows, columns).iter().enumerate().map(|(i, v)| v * scale(i)).collect()
}

/// Mostly zeros of both signs.
fn sparse_matrix(rng: &mut Rng, rows: usize, columns: usize) -> Vec<f64> {
    let full = rng.range(0.1, 0.6);
    let diagonal = rng.chance(0.5);
    let place = |rng: &mut Rng, i: usize| {
        let kept = rng.chance(full) || (diagonal && columns > 0 && i / columns == i % columns);
        if kept { rng.range(-1.0, 1.0) } else { rng.pick(&[0.0, -0.0]) }
    };
    (0..rows * columns).map(|i| place(rng, i)).collect()
}

/// Small whole numbers, so that many pivots and norms are alike.
fn tied_matrix(rng: &mut Rng, rows: usize, columns: usize) -> Vec<f64> {
    (0..rows * columns).map(|_| rng.pick(&[1.0, -1.0, 1.0, -1.0, 0.0, -0.0, 2.0])).collect()
}

fn odd_matrix(rng: &mut Rng, rows: usize, columns: usize) -> Vec<f64> {
    let strange = rng.pick(&[0.02, 0.1, 0.5]);
    (0..rows * columns).map(|_| if rng.chance(strange) { odd(rng) } else { rng.range(-1.0, 1.0) }).collect()
}

/// Mostly small, sometimes as large as they come.
fn some_size(rng: &mut Rng, most: usize) -> usize {
    if rng.chance(0.9) { rng.below(13) } else { rng.between(0, most) }
}

fn eliminate_some(rng: &mut Rng, matrix: Matrix) -> String {
    let n = some_size(rng, 80);
    eliminate(rng, n, matrix)
}

/// A call with slices as long as their shape, or a little longer.
fn eliminate(rng: &mut Rng, n: usize, matrix: Matrix) -> String {
    let (more_a, more_b) = (rng.pick(&[0, 0, 3]), rng.pick(&[0, 0, 2]));
    let mut a = matrix(rng, n, n);
    a.extend(random_matrix(rng, 1, more_a));
    let mut b: Vec<f64> = (0..n).map(|_| right_side(rng)).collect();
    b.extend(random_matrix(rng, 1, more_b));
    elimination(n, &a, &b)
}

pub fn elimination(n: usize, a: &[f64], b: &[f64]) -> String {
    format!("eliminate {n} {} {}\n{}{}", a.len(), b.len(), floats(a.iter().copied()), floats(b.iter().copied()))
}

fn right_side(rng: &mut Rng) -> f64 {
    match rng.below(20) {
        0 => -0.0,
        1 => 0.0,
        2 => wide(rng),
        _ => rng.range(-1.0, 1.0),
    }
}

/// Few numbers other than zeros of both signs, on the right side too, so that the signs of the
/// answer's zeros tell how it was worked out.
fn eliminate_signs(rng: &mut Rng) -> String {
    let n = rng.between(2, 6);
    let zero = rng.pick(&[0.3, 0.5, 0.7]);
    let number = |rng: &mut Rng| if rng.chance(zero) { rng.pick(&[0.0, -0.0]) } else { rng.pick(&[1.0, -1.0, 2.0]) };
    let a: Vec<f64> = (0..n * n).map(|i| if i % (n + 1) == 0 { rng.pick(&[1.0, -1.0, 4.0]) } else { number(rng) }).collect();
    let b: Vec<f64> = (0..n).map(|_| number(rng)).collect();
    elimination(n, &a, &b)
}

/// A value, or a neighbour of it.
fn about(rng: &mut Rng, v: f64) -> f64 {
    f64::from_bits(v.to_bits() + rng.pick(&[0, 0, 1, 2]) - rng.pick(&[0, 0, 1]))
}

/// A diagonal whose least pivot is about where elimination calls it zero. The right side is small
/// enough that the answer stays finite, or it would be none for that reason.
fn eliminate_edge(rng: &mut Rng) -> String {
    let n = rng.between(1, 4);
    let scale = rng.pick(&[1.0, 0.3, 1e6, 1e-290, 1e-300, 1e-305]);
    let least = about(rng, f64::max(scale, 1e-300) * 1e-15);
    let (rows, place) = (rng.order(n), rng.below(n));
    let mut a = vec![0.0; n * n];
    for (column, &row) in rows.iter().enumerate() {
        a[row * n + column] = rng.sign() * if column == place { least } else { scale };
    }
    let b: Vec<f64> = (0..n).map(|_| right_side(rng) * scale).collect();
    elimination(n, &a, &b)
}

/// Two rows that part by about as little as null space still tells apart.
fn null_space_edge(rng: &mut Rng) -> String {
    let columns = rng.between(2, 4);
    let (first, second) = (rng.below(columns), rng.between(1, columns - 1));
    let mut m = vec![0.0; 2 * columns];
    m[first] = 1.0;
    m[columns + first] = 1.0;
    m[columns + (first + second) % columns] = rng.sign() * about(rng, 1e-10);
    let out = vec![0.0; columns * columns];
    format!("nullspace 2 {columns} {} {}\n{}{}", m.len(), out.len(), floats(m), floats(out))
}

/// A shape beyond its bound, a slice too short, or both.
fn eliminate_refused(rng: &mut Rng) -> String {
    let n = rng.pick(&[81, 82, 100, 5, 80, 1]);
    let short = n <= 80 || rng.chance(0.3);
    let (a, b) = if short { rng.pick(&[(n * n - 1, n), (n * n, n - 1), (0, 0)]) } else { (n * n, n) };
    // Long slices tell no more than short ones once the shape is beyond its bound.
    let (a, b) = if n > 80 { (a.min(20), b.min(20)) } else { (a, b) };
    format!("eliminate {n} {a} {b}\n{}", floats((0..a + b).map(|_| right_side(rng))))
}

/// Every row count with every column count, in turn.
fn null_space_of_every_shape(rng: &mut Rng, turn: u64) -> String {
    let (rows, columns) = ((turn % 65) as usize, (turn % 81) as usize);
    null_space(rng, rows, columns, random_matrix)
}

fn null_space_some(rng: &mut Rng, matrix: Matrix) -> String {
    let (rows, columns) = (some_size(rng, 64), some_size(rng, 80));
    null_space(rng, rows, columns, matrix)
}

fn null_space(rng: &mut Rng, rows: usize, columns: usize, matrix: Matrix) -> String {
    let mut m = matrix(rng, rows, columns);
    let more = rng.pick(&[0, 0, 4]);
    m.extend(random_matrix(rng, 1, more));
    let lent = columns * columns + rng.pick(&[0, 0, 3]);
    let out = random_matrix(rng, 1, lent);
    format!("nullspace {rows} {columns} {} {lent}\n{}{}", m.len(), floats(m), floats(out))
}

fn null_space_refused(rng: &mut Rng) -> String {
    let (rows, columns, m, out) =
        rng.pick(&[(65, 3, 195, 9), (3, 81, 9, 9), (64, 81, 0, 0), (65, 80, 5, 5), (2, 3, 5, 9), (2, 3, 6, 8), (0, 2, 0, 3), (1, 1, 0, 1)]);
    format!("nullspace {rows} {columns} {m} {out}\n{}", floats(random_matrix(rng, 1, m + out)))
}

fn level(rng: &mut Rng, coordinate: fn(&mut Rng) -> f64) -> String {
    let points = rng.pick(&[0, 1, 2, 3, 5, 12, 40]);
    let equations = if points == 0 { 0 } else { rng.pick(&[0, 1, 2, 4, 8, 40]) };
    let held = rng.pick(&[0.0, 0.1, 0.4]);
    let mut text = format!("level {points} {equations}\n");
    for _ in 0..points {
        let state = if rng.chance(held) { "fixed" } else { "free" };
        text += &format!("{:016x} {:016x} {state}\n", coordinate(rng).to_bits(), coordinate(rng).to_bits());
    }
    for _ in 0..equations {
        text += &format!("{} {} {}\n", rng.below(points), rng.below(points), rng.pick(&["x", "y"]));
    }
    text
}

/// The calls that take a whole build: its groups, its rows, or the job with lent places.
fn on_build(rng: &mut Rng) -> String {
    let build = match rng.below(3) {
        0 => several(rng),
        1 => true_soup(rng),
        _ => soups::wild_soup(rng),
    };
    let text = String::from_utf8(job::write(&build)).expect("a job's text is ASCII");
    match rng.below(3) {
        0 => format!("groups\n{text}"),
        1 => format!("rows\n{text}"),
        _ => format!("lent {}\n{text}", lent(rng, 2 * build.points.len() + build.measures.len())),
    }
}

/// The lengths of the output and of three work areas, at their bounds and off them.
fn lent(rng: &mut Rng, needed: usize) -> String {
    let out = (needed + rng.pick(&[0, 0, 1, 5])).saturating_sub(rng.pick(&[0, 0, 0, 1]));
    let areas: Vec<String> = (0..3).map(|_| rng.pick(&[6400, 6400, 6400, 8192, 6401, 9000, 6399, 0]).to_string()).collect();
    format!("{out} {}", areas.join(" "))
}
