//! Holds the harness to the Rust's own way in: a sketch with names goes through the whole of
//! `solve` in lib.rs, the same drawing goes through the oracle as a build, and the two must agree
//! in every bit. Only kinds that a sketch states without arcs take part.

use datum_math::Vec2;
use datum_math::expr::Num;
use job::{Answer, Build, Equation, Field, Kind, Point, State};
use plain::{Constraint, Line, Measure, Sketch, SketchError};

use crate::answer::checked_build;
use crate::generate;

/// Goes through `count` jobs of a seed; how many of them could be put as sketches.
pub fn agree(seed: u64, count: u64) -> Result<usize, String> {
    let mut compared = 0;
    for index in 0..count {
        let Ok(build) = job::read(&generate::job(seed, index).text) else { continue };
        let Some(drawing) = drawing(build) else { continue };
        let (expected, actual) = (solved(&sketch(&drawing)), answered(&scaled(&drawing)));
        if expected != actual {
            return Err(format!("job {index}: the sketch gives {expected:?}, the build {actual:?}"));
        }
        compared += 1;
    }
    Ok(compared)
}

/// What both ways must agree on: points, freedom and measures, or the suspects.
type Common = Result<(Vec<[u64; 2]>, usize, Vec<u64>), Vec<usize>>;

fn solved(sketch: &Sketch) -> Common {
    match plain::solve(sketch) {
        Ok(s) => {
            let points = s.points.values().map(|p| [p.x, p.y].map(f64::to_bits)).collect();
            Ok((points, s.dof, s.measures.values().map(|m| m.to_bits()).collect()))
        }
        Err(SketchError::Conflict(described)) => Err(described.iter().map(|d| number(d)).collect()),
        Err(SketchError::Invalid(words)) => panic!("a drawing is refused as a sketch: {words}"),
    }
}

/// The number in a description that begins `#number `.
fn number(described: &str) -> usize {
    let digits = described.strip_prefix('#').and_then(|d| d.split(' ').next());
    digits.and_then(|d| d.parse().ok()).unwrap_or_else(|| panic!("no number in {described:?}"))
}

fn answered(build: &Build) -> Common {
    match checked_build(build).answer {
        Answer::Fitted(f) => {
            let points = f.points.iter().map(|p| p.map(f64::to_bits)).collect();
            Ok((points, f.freedom, f.measures.iter().map(|m| m.to_bits()).collect()))
        }
        Answer::Failed(f) => Err(f.suspects),
        Answer::Refused(status) => panic!("a drawing is refused as a build with {status}"),
    }
}

/// The part of a build that a sketch can say, its values in drawing units, its sides as drawn;
/// `None` where a line has no length or everything is at one place.
fn drawing(mut build: Build) -> Option<Build> {
    let (points, lines) = (build.points.clone(), build.lines.clone());
    let flat = lines.iter().any(|l| points[l[0]].start == points[l[1]].start);
    if flat || frame(&points).1 == 0.0 {
        return None;
    }
    for p in &mut build.points {
        if p.state == State::Placed(p.start) {
            p.state = State::Kept;
        }
    }
    let size = build.size;
    build.equations.iter_mut().for_each(|e| redraw(e, &points, &lines, size));
    build.measures.iter_mut().for_each(|m| redraw(m, &points, &lines, size));
    build.equations.retain(|e| constraint(e).is_some() && e.fields.iter().all(|f| !matches!(f, Field::Value(v) if *v <= 0.0)));
    build.measures.retain(|m| measure(m).is_some());
    Some(build)
}

/// Values times the size, sides from the starts.
fn redraw(e: &mut Equation, points: &[Point], lines: &[[usize; 2]], size: f64) {
    let start = |p: usize| points[p].start;
    let drawn = match e.fields[..] {
        [Field::Point(a), Field::Point(b), Field::Axis(axis), ..] => start(b)[axis] - start(a)[axis],
        [Field::Point(p), Field::Line(l), ..] => {
            let [a, b] = lines[l].map(start);
            (b[0] - a[0]) * (start(p)[1] - a[1]) - (b[1] - a[1]) * (start(p)[0] - a[0])
        }
        _ => 0.0,
    };
    for field in &mut e.fields {
        match field {
            Field::Value(v) => *v *= size,
            Field::Side(s) => *s = if drawn < 0.0 { -1.0 } else { 1.0 },
            _ => {}
        }
    }
}

/// Centre and diagonal of the box around the starts, worked out as the Rust does.
fn frame(points: &[Point]) -> ([f64; 2], f64) {
    let end = |axis: usize, pick: fn(f64, f64) -> f64, from: f64| points.iter().fold(from, |m, p| pick(m, p.start[axis]));
    let low = [0, 1].map(|axis| end(axis, f64::min, f64::INFINITY));
    let high = [0, 1].map(|axis| end(axis, f64::max, f64::NEG_INFINITY));
    if points.is_empty() {
        return ([0.0; 2], 0.0);
    }
    let span = [high[0] - low[0], high[1] - low[1]];
    ([0, 1].map(|i| (low[i] + high[i]) * 0.5), (span[0] * span[0] + span[1] * span[1]).sqrt())
}

/// The drawing as a build: lengths divided by its size, an equation `held` for each fixed point.
fn scaled(drawing: &Build) -> Build {
    let mut build = drawing.clone();
    (build.centre, build.size) = frame(&build.points);
    for field in build.equations.iter_mut().flat_map(|e| &mut e.fields) {
        if let Field::Value(v) = field {
            *v /= build.size;
        }
    }
    let fixed = build.points.iter().filter(|p| p.state != State::Free);
    build.equations.extend(fixed.map(|_| Equation { kind: Kind::Held, fields: Vec::new() }));
    build
}

fn sketch(drawing: &Build) -> Sketch {
    let named = |(n, p): (usize, &Point)| (point(n), Vec2::new(p.start[0], p.start[1]));
    let fix = |(n, p): (usize, &Point)| match p.state {
        State::Free => None,
        State::Kept => Some(Constraint::Fix { point: point(n), at: None }),
        State::Placed(at) => Some(Constraint::Fix { point: point(n), at: Some(Vec2::new(at[0], at[1])) }),
    };
    let ends = |(n, l): (usize, &[usize; 2])| (line(n), Line { from: point(l[0]), to: point(l[1]), construction: false });
    Sketch {
        points: drawing.points.iter().enumerate().map(named).collect(),
        lines: drawing.lines.iter().enumerate().map(ends).collect(),
        constraints: drawing.equations.iter().filter_map(constraint).chain(drawing.points.iter().enumerate().filter_map(fix)).collect(),
        measures: drawing.measures.iter().enumerate().filter_map(|(n, m)| Some((format!("m{n:02}"), measure(m)?))).collect(),
        ..Sketch::default()
    }
}

/// Names rise with their numbers.
fn point(n: usize) -> String {
    format!("p{n:02}")
}

fn line(n: usize) -> String {
    format!("l{n:02}")
}

fn constraint(e: &Equation) -> Option<Constraint> {
    use Field::{Axis, Line as L, Point as P, Value as V};
    let two_points = |a, b| [point(a), point(b)];
    let two_lines = |i, j| [line(i), line(j)];
    Some(match (e.kind, &e.fields[..]) {
        (Kind::Coincident, &[P(a), P(b)]) => Constraint::Coincident { points: two_points(a, b) },
        (Kind::Level, &[P(a), P(b), Axis(0)]) => Constraint::Vertical { line: None, points: Some(two_points(a, b)) },
        (Kind::Level, &[P(a), P(b), Axis(_)]) => Constraint::Horizontal { line: None, points: Some(two_points(a, b)) },
        (Kind::Parallel, &[L(i), L(j)]) => Constraint::Parallel { lines: two_lines(i, j) },
        (Kind::Perpendicular, &[L(i), L(j)]) => Constraint::Perpendicular { lines: two_lines(i, j) },
        (Kind::Collinear, &[L(i), L(j)]) => Constraint::Collinear { lines: two_lines(i, j) },
        (Kind::Equal, &[L(i), L(j)]) => Constraint::Equal { lines: two_lines(i, j) },
        (Kind::Distance, &[P(a), P(b), V(v)]) => Constraint::Distance { points: two_points(a, b), value: Num::Value(v) },
        (Kind::AxisDistance, &[P(a), P(b), Axis(0), V(v), _]) => Constraint::HorizontalDistance { points: two_points(a, b), value: Num::Value(v) },
        (Kind::AxisDistance, &[P(a), P(b), _, V(v), _]) => Constraint::VerticalDistance { points: two_points(a, b), value: Num::Value(v) },
        (Kind::Length, &[L(l), V(v)]) => Constraint::Length { line: line(l), value: Num::Value(v) },
        (Kind::PointLine, &[P(p), L(l), V(v), _]) => Constraint::PointLine { point: point(p), line: line(l), value: Num::Value(v) },
        (Kind::Midpoint, &[P(p), L(l)]) => Constraint::Midpoint { point: point(p), line: line(l) },
        (Kind::Symmetric, &[P(p), P(q), L(l)]) => Constraint::Symmetric { points: two_points(p, q), line: line(l) },
        _ => return None,
    })
}

fn measure(m: &Equation) -> Option<Measure> {
    use Field::{Axis, Line as L, Point as P};
    Some(match (m.kind, &m.fields[..]) {
        (Kind::Distance, &[P(a), P(b), _]) => Measure::Distance { points: [point(a), point(b)] },
        (Kind::AxisDistance, &[P(a), P(b), Axis(0), ..]) => Measure::HorizontalDistance { points: [point(a), point(b)] },
        (Kind::AxisDistance, &[P(a), P(b), ..]) => Measure::VerticalDistance { points: [point(a), point(b)] },
        (Kind::Length, &[L(l), _]) => Measure::Length { line: line(l) },
        (Kind::PointLine, &[P(p), L(l), ..]) => Measure::PointLine { point: point(p), line: line(l) },
        _ => return None,
    })
}
