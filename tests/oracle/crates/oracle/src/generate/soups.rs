//! Soups: equations of every kind thrown together. In a true soup each new equation holds where
//! the points truly belong; a wild one asks for anything at all.

use std::f64::consts::PI;

use chance::Rng;
use job::{Build, Contact, EQUATIONS, Equation, Field, Kind, MEASURES, Point, Radius, Slot, State};

use super::figure::{At, Figure, Hold, length, minus, plus, polar, times};

/// A figure of about `equations` equations, each kind as likely as any other.
pub fn true_soup(rng: &mut Rng, equations: usize) -> Figure {
    let mut fig = Figure::default();
    while fig.equations.len() < equations && fig.room(7, 2, 2) {
        let kind = rng.pick(&EQUATIONS);
        add_true(rng, &mut fig, kind);
    }
    for p in 0..fig.points.len() {
        let hold = rng.pick(&[Hold::Free, Hold::Free, Hold::Free, Hold::Free, Hold::Free, Hold::Kept, Hold::Placed]);
        fig.hold(p, hold);
    }
    fig
}

/// A point anywhere, or one the figure has already.
fn some_point(rng: &mut Rng, fig: &mut Figure) -> usize {
    if !fig.points.is_empty() && rng.chance(0.5) { rng.below(fig.points.len()) } else { fig.point(anywhere(rng)) }
}

/// A line anywhere, or one the figure has already.
fn some_line(rng: &mut Rng, fig: &mut Figure) -> usize {
    if !fig.lines.is_empty() && rng.chance(0.5) {
        return rng.below(fig.lines.len());
    }
    let a = some_point(rng, fig);
    let b = fig.point(plus(fig.at(a), polar(rng.range(50.0, 300.0), rng.range(-PI, PI))));
    fig.line(a, b)
}

/// A new line with the direction of `along`, at its own length.
fn new_line(rng: &mut Rng, fig: &mut Figure, from: At, along: At) -> usize {
    let k = rng.sign() * rng.range(50.0, 300.0) / length(along);
    let (a, b) = (fig.point(from), fig.point(plus(from, times(k, along))));
    fig.line(a, b)
}

fn anywhere(rng: &mut Rng) -> At {
    [rng.range(-500.0, 500.0), rng.range(-500.0, 500.0)]
}

/// A new point on the circle of radius `r` around `c`.
fn on_circle(rng: &mut Rng, fig: &mut Figure, c: usize, r: f64) -> usize {
    fig.point(plus(fig.at(c), polar(r, rng.range(-PI, PI))))
}

/// A radius of length `r` around `c`, in one of its two forms.
fn some_radius(rng: &mut Rng, fig: &mut Figure, c: usize, r: f64) -> Radius {
    if rng.chance(0.5) { Radius::Value(r) } else { Radius::Point(on_circle(rng, fig, c, r)) }
}

/// An equation of this kind that holds, with the points and lines it needs.
fn add_true(rng: &mut Rng, fig: &mut Figure, kind: Kind) {
    match kind {
        Kind::Held => fig.add(kind, &[]),
        Kind::Coincident | Kind::Level | Kind::Distance | Kind::AxisDistance | Kind::Radius => add_between_points(rng, fig, kind),
        Kind::Parallel | Kind::Perpendicular | Kind::Collinear | Kind::Equal => add_between_lines(rng, fig, kind),
        Kind::Length | Kind::PointLine | Kind::Midpoint | Kind::Symmetric => add_on_line(rng, fig, kind),
        Kind::ArcEnds | Kind::EqualRadius | Kind::ArcArcAt | Kind::ArcMidpoint => add_on_arcs(rng, fig, kind),
        Kind::LineCircle | Kind::CircleCircle | Kind::LineArcAt => add_touching(rng, fig, kind),
    }
}

fn add_between_points(rng: &mut Rng, fig: &mut Figure, kind: Kind) {
    let (a, axis) = (some_point(rng, fig), rng.below(2));
    match kind {
        Kind::Coincident => {
            let b = fig.point(fig.at(a));
            fig.points_eq(kind, &[a, b]);
        }
        Kind::Level => {
            let mut at = anywhere(rng);
            at[axis] = fig.at(a)[axis];
            let b = fig.point(at);
            fig.level(b, a, axis);
        }
        _ => {
            let b = some_point(rng, fig);
            match kind {
                Kind::Distance => fig.distance(a, b),
                Kind::AxisDistance => fig.axis_distance(a, b, axis),
                _ => fig.radius(a, b),
            }
        }
    }
}

fn add_between_lines(rng: &mut Rng, fig: &mut Figure, kind: Kind) {
    let i = some_line(rng, fig);
    let along = fig.along(i);
    let j = match kind {
        Kind::Parallel => {
            let from = anywhere(rng);
            new_line(rng, fig, from, along)
        }
        Kind::Perpendicular => {
            let from = anywhere(rng);
            new_line(rng, fig, from, [-along[1], along[0]])
        }
        Kind::Collinear => {
            let from = plus(fig.at(fig.lines[i][0]), times(rng.range(-3.0, 3.0), along));
            new_line(rng, fig, from, along)
        }
        _ => {
            let a = some_point(rng, fig);
            let b = on_circle(rng, fig, a, length(along));
            fig.line(a, b)
        }
    };
    let (i, j) = if rng.chance(0.5) { (i, j) } else { (j, i) };
    fig.lines_eq(kind, i, j);
}

fn add_on_line(rng: &mut Rng, fig: &mut Figure, kind: Kind) {
    let l = some_line(rng, fig);
    let (from, along) = (fig.at(fig.lines[l][0]), fig.along(l));
    match kind {
        Kind::Length => fig.length(l),
        Kind::PointLine => {
            let p = some_point(rng, fig);
            fig.point_line(p, l);
        }
        Kind::Midpoint => {
            let p = fig.point(plus(from, times(0.5, along)));
            fig.midpoint(p, l);
        }
        _ => {
            let p = fig.point(anywhere(rng));
            let across = times(-2.0 * fig.offset(p, l) / length(along), [-along[1], along[0]]);
            let q = fig.point(plus(fig.at(p), across));
            fig.symmetric(p, q, l);
        }
    }
}

fn add_on_arcs(rng: &mut Rng, fig: &mut Figure, kind: Kind) {
    let (c, r) = (some_point(rng, fig), rng.range(30.0, 250.0));
    let f = on_circle(rng, fig, c, r);
    match kind {
        Kind::ArcEnds => {
            let t = on_circle(rng, fig, c, r);
            fig.points_eq(kind, &[c, f, t]);
        }
        Kind::EqualRadius => {
            let c2 = some_point(rng, fig);
            let f2 = on_circle(rng, fig, c2, r);
            fig.points_eq(kind, &[c, f, c2, f2]);
        }
        Kind::ArcArcAt => {
            let k = rng.sign() * rng.range(0.3, 2.0);
            let c2 = fig.point(plus(fig.at(f), times(k, minus(fig.at(f), fig.at(c)))));
            fig.points_eq(kind, &[c, c2, f]);
        }
        _ => {
            let d = minus(fig.at(f), fig.at(c));
            let (turn, half) = (d[1].atan2(d[0]), rng.range(0.2, 1.4));
            let p = fig.point(plus(fig.at(c), polar(r, turn + half)));
            let t = fig.point(plus(fig.at(c), polar(r, turn + 2.0 * half)));
            fig.points_eq(kind, &[p, c, f, t]);
        }
    }
}

fn add_touching(rng: &mut Rng, fig: &mut Figure, kind: Kind) {
    match kind {
        Kind::LineCircle => {
            let (l, c) = (some_line(rng, fig), some_point(rng, fig));
            let radius = some_radius(rng, fig, c, fig.offset(c, l).abs());
            fig.line_circle(l, c, radius);
        }
        Kind::CircleCircle => {
            let (c1, r1, r2) = (some_point(rng, fig), rng.range(30.0, 250.0), rng.range(30.0, 250.0));
            let inside = if r1 < r2 { -1.0 } else { 1.0 };
            let (gap, contact) = rng.pick(&[(r1 + r2, Contact::Outside), ((r1 - r2).abs(), Contact::Inside(inside))]);
            let c2 = on_circle(rng, fig, c1, gap);
            let (f1, f2) = (some_radius(rng, fig, c1, r1), some_radius(rng, fig, c2, r2));
            fig.circle_circle((c1, f1), (c2, f2), contact);
        }
        _ => {
            let l = some_line(rng, fig);
            let (p, along) = (rng.pick(&fig.lines[l]), fig.along(l));
            let k = rng.sign() * rng.range(30.0, 200.0) / length(along);
            let c = fig.point(plus(fig.at(p), times(k, [-along[1], along[0]])));
            fig.line_arc_at(l, c, p);
        }
    }
}

/// Numbers that sit on the edges of the rules.
const ODD: [f64; 14] = [0.0, -0.0, 1.0, -1.0, 0.5, 2.0, -2.0, 0.1, 1e-13, 1e-12, 1e3, -1e6, 5e-324, 1e6];

fn odd(rng: &mut Rng) -> f64 {
    if rng.chance(0.6) { rng.range(-3.0, 3.0) } else { rng.pick(&ODD) }
}

/// Points (many in one place), lines (some of no length) and equations with no thought for
/// whether they can hold.
pub fn wild_soup(rng: &mut Rng) -> Build {
    let points: Vec<Point> = (0..rng.between(1, 12)).map(|_| wild_point(rng)).collect();
    let point = |rng: &mut Rng| rng.below(points.len());
    let lines = (0..rng.below(7)).map(|_| [point(rng), point(rng)]).collect();
    let size = rng.pick(&[1.0, 1.0, 1.0, 2.0, 0.5, 10.0, 1.0 / 1024.0, 1e6]);
    let centre = rng.pick(&[[0.0, 0.0], [-0.0, -0.0], [0.5, -1.5]]);
    let equations = rng.between(1, 9);
    soup_on(rng, Build { centre, size, points, lines, equations: Vec::new(), measures: Vec::new() }, equations)
}

/// A few equations on a square grid: many gradients are exactly zero there, where what is asked
/// for lies at right angles to what is drawn.
pub fn grid_soup(rng: &mut Rng) -> Build {
    let cell = |rng: &mut Rng| rng.below(3) as f64;
    let state = |rng: &mut Rng| rng.pick(&[State::Free, State::Free, State::Free, State::Kept]);
    let points: Vec<Point> = (0..rng.between(3, 6)).map(|_| Point { start: [cell(rng), cell(rng)], state: state(rng) }).collect();
    let lines = (1..points.len()).map(|p| [p - 1, p]).collect();
    let equations = rng.between(1, 3);
    soup_on(rng, Build { centre: [0.0; 2], size: 1.0, points, lines, equations: Vec::new(), measures: Vec::new() }, equations)
}

/// The build with so many equations, and up to four measures, of any kind it has the parts for.
fn soup_on(rng: &mut Rng, mut build: Build, equations: usize) -> Build {
    let (points, lines) = (build.points.len(), build.lines.len());
    let usable = |kind: &Kind| lines > 0 || !kind.slots().contains(&Slot::Line);
    let kinds: Vec<Kind> = EQUATIONS.into_iter().filter(usable).collect();
    let measures: Vec<Kind> = MEASURES.into_iter().filter(usable).collect();
    build.equations = (0..equations).map(|_| wild_equation(rng, &kinds, points, lines)).collect();
    build.measures = (0..rng.below(5)).map(|_| without_value(wild_equation(rng, &measures, points, lines))).collect();
    build
}

fn wild_point(rng: &mut Rng) -> Point {
    let coordinate = |rng: &mut Rng| if rng.chance(0.5) { rng.pick(&[0.0, -0.0, 1.0, 2.0, -1.0]) } else { odd(rng) };
    let start = [coordinate(rng), coordinate(rng)];
    let state = match rng.below(6) {
        0 => State::Kept,
        1 => State::Placed(if rng.chance(0.5) { start } else { [coordinate(rng), coordinate(rng)] }),
        _ => State::Free,
    };
    Point { start, state }
}

pub fn wild_equation(rng: &mut Rng, kinds: &[Kind], points: usize, lines: usize) -> Equation {
    let kind = rng.pick(kinds);
    let fields = kind.slots().iter().map(|slot| match slot {
        Slot::Point => Field::Point(rng.below(points)),
        Slot::Line => Field::Line(rng.below(lines)),
        Slot::Axis => Field::Axis(rng.below(2)),
        Slot::Value => Field::Value(odd(rng)),
        Slot::Side => Field::Side(rng.sign()),
        Slot::Radius if rng.chance(0.5) => Field::Radius(Radius::Point(rng.below(points))),
        Slot::Radius => Field::Radius(Radius::Value(odd(rng))),
        Slot::Contact => Field::Contact(rng.pick(&[Contact::Outside, Contact::Inside(1.0), Contact::Inside(-1.0)])),
    });
    Equation { kind, fields: fields.collect() }
}

fn without_value(mut e: Equation) -> Equation {
    for field in &mut e.fields {
        if let Field::Value(v) = field {
            *v = 0.0;
        }
    }
    e
}
