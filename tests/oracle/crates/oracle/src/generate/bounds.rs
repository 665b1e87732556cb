//! Jobs at every bound, and one step beyond.

use chance::Rng;
use job::{Build, Equation, Field, Kind, MAX_MAGNITUDE, MAX_TEXT, MIN_SIZE, Point, Radius, State};

use super::figure::{Figure, Hold, plus, times};
use super::{Made, finish};

type Case = fn(&mut Rng) -> Vec<u8>;

const CASES: [(&str, Case); 9] = [
    ("bound-points", points),
    ("bound-lines", lines),
    ("bound-equations", equations),
    ("bound-measures", measures),
    ("bound-rows", rows),
    ("bound-number", number),
    ("bound-size", size),
    ("bound-text", text),
    ("bound-tolerance", tolerance),
];

/// The cases come in turn, so that a few hundred jobs already hold each of them.
pub fn job(rng: &mut Rng, index: u64) -> Made {
    let (class, case) = CASES[(index % CASES.len() as u64) as usize];
    Made { class, text: case(rng) }
}

/// A ring of `count` free points, the first kept, each at its distance from the one before as
/// far as the equations go.
fn ring(count: usize) -> Figure {
    let mut fig = Figure::default();
    for i in 0..count {
        let turn = i as f64 / count as f64 * 6.0;
        let p = fig.point([100.0 * turn.cos(), 100.0 * turn.sin()]);
        if p > 0 && p < 40 {
            fig.distance(p - 1, p);
        }
    }
    if count > 0 {
        fig.hold(0, Hold::Kept);
    }
    fig
}

fn points(rng: &mut Rng) -> Vec<u8> {
    let mut fig = ring(rng.pick(&[0, 1, 39, 40, 40, 41]));
    if rng.chance(0.3) {
        fig.add(Kind::Held, &[]);
    }
    job::write(&finish(rng, &fig))
}

fn lines(rng: &mut Rng) -> Vec<u8> {
    let mut fig = ring(rng.between(3, 12));
    for _ in 0..rng.pick(&[39, 40, 40, 41]) {
        let (a, b) = fig.two_points(rng);
        fig.line(a, b);
    }
    fig.length(38);
    job::write(&finish(rng, &fig))
}

fn equations(rng: &mut Rng) -> Vec<u8> {
    let mut fig = ring(rng.between(3, 30));
    let count = rng.pick(&[39, 40, 40, 41]);
    while fig.equations.len() < count {
        if rng.chance(0.5) { fig.add(Kind::Held, &[]) } else { fig.redundant(rng) }
    }
    job::write(&finish(rng, &fig))
}

fn measures(rng: &mut Rng) -> Vec<u8> {
    let mut fig = ring(rng.between(3, 12));
    fig.measure(rng, 20);
    match rng.below(4) {
        0 => fig.measures.truncate(19),
        1 => fig.measures.push(fig.measures[0].clone()),
        _ => {}
    }
    job::write(&finish(rng, &fig))
}

/// 63, 64 or 65 rows in at most 40 equations: midpoints and copies of points make two each.
fn rows(rng: &mut Rng) -> Vec<u8> {
    let pairs = rng.pick(&[23, 24, 24, 25]);
    let mut fig = Figure::default();
    let base = 14;
    for i in 0..base {
        fig.point([40.0 * i as f64, rng.range(-100.0, 100.0)]);
    }
    fig.hold(0, Hold::Kept);
    for i in 0..pairs {
        let (a, b) = (i % base, (i + 1 + i / base) % base);
        if i % 2 == 0 {
            let l = fig.line(a, b);
            let p = fig.point(times(0.5, plus(fig.at(a), fig.at(b))));
            fig.midpoint(p, l);
        } else {
            let p = fig.point(fig.at(a));
            fig.points_eq(Kind::Coincident, &[a, p]);
        }
    }
    for i in 0..40 - pairs {
        if i < base - 1 { fig.distance(i, i + 1) } else { fig.axis_distance(0, i - base + 2, 0) }
    }
    if rng.chance(0.3) {
        fig.shuffle(rng);
    }
    job::write(&finish(rng, &fig))
}

/// A value at the bound for magnitudes, just within it, just beyond it, or none at all.
fn edge(rng: &mut Rng) -> f64 {
    let beyond = f64::from_bits(MAX_MAGNITUDE.to_bits() + 1);
    let within = f64::from_bits(MAX_MAGNITUDE.to_bits() - 1);
    rng.sign() * rng.pick(&[MAX_MAGNITUDE, MAX_MAGNITUDE, MAX_MAGNITUDE, within, beyond, f64::INFINITY, f64::NAN, 5e-324])
}

/// One number of a small build at an edge; sometimes a missing point as well, to see which wins.
fn number(rng: &mut Rng) -> Vec<u8> {
    let mut build = triangle(rng);
    let v = edge(rng);
    match rng.below(7) {
        0 => build.centre[rng.below(2)] = v,
        1 => build.points[rng.below(3)].start[rng.below(2)] = v,
        2 => build.points[1].state = State::Placed([build.points[1].start[0], v]),
        3 => set_value(&mut build.equations[0], v),
        4 => build.equations.push(touching(Radius::Value(v))),
        5 => build.points[0] = Point { start: [v, v], state: State::Kept },
        _ => build.points[1].state = State::Placed([v, -v]),
    }
    if rng.chance(0.2) {
        build.lines[0][1] = rng.pick(&[3, 40, 99_999]);
    }
    job::write(&build)
}

fn size(rng: &mut Rng) -> Vec<u8> {
    let step = |v: f64, by: i64| f64::from_bits((v.to_bits() as i64 + by) as u64);
    let mut build = triangle(rng);
    let (low, high) = (MIN_SIZE, MAX_MAGNITUDE);
    build.size = rng.pick(&[low, low, step(low, 1), step(low, -1), high, high, step(high, -1), step(high, 1)]);
    if rng.chance(0.3) {
        build.size = rng.pick(&[0.0, -0.0, -1.0, -low, f64::INFINITY, f64::NEG_INFINITY, f64::NAN, 5e-324]);
    }
    job::write(&build)
}

/// Texts around the longest. None of these can be well formed to the end, so a count line decides.
fn text(rng: &mut Rng) -> Vec<u8> {
    let points = rng.pick(&["41", "99999", "40", "1"]);
    let mut text = format!("points={points}\nlines=0\nequations=0\nmeasures=0\n").into_bytes();
    if rng.chance(0.2) {
        text.clear();
    }
    text.resize(rng.pick(&[MAX_TEXT - 1, MAX_TEXT, MAX_TEXT + 1, 2 * MAX_TEXT]), rng.pick(b"0\np"));
    text
}

/// A residual that starts at the tolerance, one step off it, or near it. The sizes are powers of
/// two, so that scaling leaves the residual's bits alone.
fn tolerance(rng: &mut Rng) -> Vec<u8> {
    let edge: f64 = 1e-12;
    let off = f64::from_bits(edge.to_bits() + rng.pick(&[0, 0, 1, 2]) - rng.pick(&[0, 0, 1]));
    let size = rng.pick(&[1.0, 1.0, 2.0, 0.5, 256.0]);
    let state = |rng: &mut Rng| rng.pick(&[State::Free, State::Kept, State::Kept]);
    let (axis, side) = (rng.below(2), rng.sign());
    let mut start = [0.0; 2];
    start[axis] = side * off * size;
    let (near, far) = ([0.0, 0.0], [3.0 * size, -0.0]);
    let points = [near, start, far].map(|start| Point { start, state: state(rng) });
    let level = Equation { kind: Kind::Level, fields: vec![Field::Point(0), Field::Point(1), Field::Axis(axis)] };
    let fields = vec![Field::Point(0), Field::Point(1), Field::Axis(axis), Field::Value(0.0), Field::Side(side)];
    let along = Equation { kind: Kind::AxisDistance, fields };
    let equations = rng.pick(&[&[0][..], &[1], &[0, 1]]).iter().map(|&k: &usize| [&level, &along][k].clone()).collect();
    let build = Build { centre: [0.0; 2], size, points: points.to_vec(), lines: Vec::new(), equations, measures: Vec::new() };
    job::write(&build)
}

/// A small sound build.
fn triangle(rng: &mut Rng) -> Build {
    let mut fig = ring(3);
    fig.line(0, 1);
    fig.measure(rng, 2);
    finish(rng, &fig)
}

fn set_value(e: &mut Equation, v: f64) {
    for field in &mut e.fields {
        if let Field::Value(old) = field {
            *old = v;
        }
    }
}

fn touching(radius: Radius) -> Equation {
    let fields = vec![Field::Line(0), Field::Point(2), Field::Radius(radius), Field::Side(1.0)];
    Equation { kind: Kind::LineCircle, fields }
}
