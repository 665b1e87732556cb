//! The sections that a plate shop draws. Each is exactly determined once its first point is held.

use std::f64::consts::{FRAC_PI_2, PI};

use chance::Rng;
use job::{Contact, Kind, Radius};

use super::figure::{At, Figure, Hold, plus, polar, times};

/// A length as drawings have them: in steps of a half.
fn size(rng: &mut Rng, low: usize, high: usize) -> f64 {
    rng.between(2 * low, 2 * high) as f64 * 0.5
}

fn start(fig: &mut Figure, at: At) -> usize {
    let p = fig.point(at);
    fig.hold(p, Hold::Kept);
    p
}

/// Points and the closed line through them.
fn outline(fig: &mut Figure, corners: &[At]) -> (Vec<usize>, Vec<usize>) {
    let points: Vec<usize> = corners.iter().map(|&c| fig.point(c)).collect();
    let lines = (0..points.len()).map(|i| fig.line(points[i], points[(i + 1) % points.len()])).collect();
    (points, lines)
}

pub fn rectangle(rng: &mut Rng) -> Figure {
    let mut fig = Figure::default();
    let (w, h) = (size(rng, 10, 900), size(rng, 10, 900));
    let (p, l) = outline(&mut fig, &[[0.0, 0.0], [w, 0.0], [w, h], [0.0, h]]);
    fig.hold(p[0], Hold::Kept);
    fig.level(p[0], p[1], 1);
    if rng.chance(0.5) {
        fig.level(p[3], p[2], 1);
        fig.level(p[0], p[3], 0);
        fig.level(p[1], p[2], 0);
    } else {
        fig.lines_eq(Kind::Parallel, l[0], l[2]);
        fig.lines_eq(Kind::Perpendicular, l[0], l[1]);
        fig.lines_eq(Kind::Parallel, l[1], l[3]);
    }
    fig.length(l[0]);
    fig.distance(p[0], p[3]);
    fig
}

pub fn square(rng: &mut Rng) -> Figure {
    let mut fig = Figure::default();
    let (w, turn) = (size(rng, 10, 900), rng.range(0.1, 1.4));
    let (u, v) = (polar(w, turn), polar(w, turn + FRAC_PI_2));
    let (p, l) = outline(&mut fig, &[[0.0, 0.0], u, plus(u, v), v]);
    fig.hold(p[0], Hold::Kept);
    fig.lines_eq(Kind::Perpendicular, l[0], l[1]);
    fig.lines_eq(Kind::Equal, l[0], l[1]);
    fig.lines_eq(Kind::Parallel, l[2], l[0]);
    fig.lines_eq(Kind::Equal, l[3], l[1]);
    fig.length(l[0]);
    fig.axis_distance(p[0], p[1], 0);
    fig
}

pub fn trapezoid(rng: &mut Rng) -> Figure {
    let mut fig = Figure::default();
    let (bottom, top, h) = (size(rng, 100, 900), size(rng, 50, 600), size(rng, 20, 500));
    let even = rng.chance(0.5);
    let left = if even { 0.5 * (bottom - top) } else { size(rng, 0, 80) };
    let (p, l) = outline(&mut fig, &[[0.0, 0.0], [bottom, 0.0], [left + top, h], [left, h]]);
    fig.hold(p[0], Hold::Kept);
    fig.level(p[0], p[1], 1);
    fig.length(l[0]);
    fig.length(l[2]);
    fig.point_line(p[3], l[0]);
    if even {
        fig.lines_eq(Kind::Parallel, l[0], l[2]);
        fig.lines_eq(Kind::Equal, l[1], l[3]);
    } else {
        fig.level(p[2], p[3], 1);
        fig.axis_distance(p[0], p[3], 0);
    }
    fig
}

/// An upright channel with two rounded corners, each round tangent to wall and bottom.
pub fn chute(rng: &mut Rng) -> Figure {
    let mut fig = Figure::default();
    let (w, h, r) = (size(rng, 200, 900), size(rng, 150, 700), size(rng, 10, 80));
    let top_left = start(&mut fig, [0.0, h]);
    let wall_left = fig.point([0.0, r]);
    let (c1, from) = (fig.point([r, r]), fig.point([r, 0.0]));
    let (to, c2) = (fig.point([w - r, 0.0]), fig.point([w - r, r]));
    let (wall_right, top_right) = (fig.point([w, r]), fig.point([w, h]));
    let (left, bottom, right) = (fig.line(top_left, wall_left), fig.line(from, to), fig.line(wall_right, top_right));
    fig.level(top_left, wall_left, 0);
    fig.line_arc_at(left, c1, wall_left);
    fig.points_eq(Kind::ArcEnds, &[c1, wall_left, from]);
    fig.line_arc_at(bottom, c1, from);
    fig.level(from, to, 1);
    fig.line_arc_at(bottom, c2, to);
    fig.points_eq(Kind::ArcEnds, &[c2, to, wall_right]);
    fig.line_arc_at(right, c2, wall_right);
    fig.level(wall_right, top_right, 0);
    fig.radius(c1, wall_left);
    fig.points_eq(Kind::EqualRadius, &[c1, wall_left, c2, to]);
    fig.axis_distance(top_left, top_right, 0);
    fig.axis_distance(from, top_left, 1);
    fig.level(top_left, top_right, 1);
    fig
}

/// A wall and a bottom at a slant, with a round that touches both without ending on them.
pub fn slanted_chute(rng: &mut Rng) -> Figure {
    let mut fig = Figure::default();
    let (w, r, wall) = (size(rng, 200, 900), size(rng, 10, 60), size(rng, 100, 500));
    let turn = rng.range(0.6, 2.5);
    let corner = start(&mut fig, [0.0, 0.0]);
    let (end, top) = (fig.point([w, 0.0]), fig.point(polar(wall, turn)));
    let (bottom, side) = (fig.line(corner, end), fig.line(corner, top));
    // The centre lies on the bisector, at the distance that leaves the radius to both lines.
    let c = fig.point(polar(r / (0.5 * turn).sin(), 0.5 * turn));
    fig.level(corner, end, 1);
    fig.length(bottom);
    fig.length(side);
    fig.axis_distance(corner, top, 1);
    if rng.chance(0.5) {
        let on = fig.point(plus(fig.at(c), polar(r, rng.range(0.0, 6.0))));
        fig.line_circle(bottom, c, Radius::Point(on));
        fig.line_circle(side, c, Radius::Point(on));
        fig.radius(c, on);
        fig.axis_distance(c, on, 1);
    } else {
        fig.line_circle(bottom, c, Radius::Value(r));
        fig.line_circle(side, c, Radius::Value(r));
    }
    fig
}

/// Two half circles and two lines between them; sometimes the tip of one end is marked.
pub fn slot(rng: &mut Rng) -> Figure {
    let mut fig = Figure::default();
    let (d, r) = (size(rng, 40, 600), size(rng, 5, 60));
    let c0 = start(&mut fig, [0.0, 0.0]);
    let c1 = fig.point([d, 0.0]);
    let (a, b) = (fig.point([0.0, r]), fig.point([d, r]));
    let (e, f) = (fig.point([d, -r]), fig.point([0.0, -r]));
    let (top, bottom) = (fig.line(a, b), fig.line(f, e));
    fig.points_eq(Kind::ArcEnds, &[c0, a, f]);
    fig.points_eq(Kind::ArcEnds, &[c1, e, b]);
    for (l, c, p) in [(top, c0, a), (top, c1, b), (bottom, c0, f), (bottom, c1, e)] {
        fig.line_arc_at(l, c, p);
    }
    fig.points_eq(Kind::EqualRadius, &[c0, a, c1, b]);
    fig.radius(c0, a);
    fig.distance(c0, c1);
    fig.level(c0, c1, 1);
    if rng.chance(0.5) {
        let tip = fig.point([d + r, 0.0]);
        fig.points_eq(Kind::ArcMidpoint, &[tip, c1, e, b]);
    }
    fig
}

/// Pairs of points mirrored in an upright axis.
pub fn mirrored(rng: &mut Rng) -> Figure {
    let mut fig = Figure::default();
    let h = size(rng, 50, 800);
    let foot = start(&mut fig, [0.0, 0.0]);
    let head = fig.point([0.0, h]);
    let axis = fig.line(foot, head);
    fig.level(foot, head, 0);
    fig.length(axis);
    for _ in 0..rng.between(1, 5) {
        let at = [size(rng, 5, 300), size(rng, 1, 400)];
        let (p, q) = (fig.point(at), fig.point([-at[0], at[1]]));
        fig.symmetric(p, q, axis);
        fig.point_line(p, axis);
        fig.axis_distance(foot, p, 1);
        if rng.chance(0.4) {
            let span = fig.line(p, q);
            let middle = fig.point([0.0, at[1]]);
            fig.midpoint(middle, span);
        }
    }
    fig
}

/// Steps of a stair: runs of level points, each step dimensioned.
pub fn levels(rng: &mut Rng) -> Figure {
    let mut fig = Figure::default();
    let mut last = start(&mut fig, [0.0, 0.0]);
    let mut axis = rng.below(2);
    for _ in 0..rng.between(2, 9) {
        for _ in 0..rng.between(1, 2) {
            let mut at = fig.at(last);
            at[1 - axis] += size(rng, 5, 120) * rng.sign();
            let next = fig.point(at);
            fig.level(last, next, axis);
            fig.axis_distance(last, next, 1 - axis);
            last = next;
        }
        axis = 1 - axis;
    }
    fig
}

/// A long run of points on one height, tied to each other at random and not dimensioned. Held
/// points may be off the height by less than the tolerance: the fit lets that pass, and levelling
/// must choose.
pub fn run_of_levels(rng: &mut Rng) -> Figure {
    let mut fig = Figure::default();
    let (axis, height) = (rng.below(2), size(rng, 0, 300));
    let count = rng.between(3, 14);
    for i in 0..count {
        let across = size(rng, 0, 20) + 40.0 * i as f64;
        let p = fig.point(if axis == 0 { [height, across] } else { [across, height] });
        if i > 0 {
            let to = rng.below(p);
            let (a, b) = if rng.chance(0.5) { (p, to) } else { (to, p) };
            fig.level(a, b, axis);
        }
    }
    for _ in 0..rng.below(3) {
        let held = rng.below(count);
        let hold = rng.pick(&[Hold::Kept, Hold::Placed]);
        fig.hold(held, hold);
        fig.points[held].0[axis] += rng.pick(&[0.0, 0.0, 1e-12, 3e-11, -1e-11]);
    }
    fig
}

/// Circles that touch a first one outside or inside, their radii points or plain values.
pub fn circles(rng: &mut Rng) -> Figure {
    let mut fig = Figure::default();
    let mut radius = size(rng, 40, 300);
    let mut centre = start(&mut fig, [0.0, 0.0]);
    let mut form = Radius::Value(radius);
    for _ in 0..rng.between(1, 5) {
        let next_radius = size(rng, 10, 200) + 0.25;
        let turn = rng.range(-PI, PI);
        let (gap, contact) = if rng.chance(0.5) {
            (radius + next_radius, Contact::Outside)
        } else {
            let inside = radius - next_radius;
            (inside.abs(), Contact::Inside(if inside < 0.0 { -1.0 } else { 1.0 }))
        };
        let next = fig.point(plus(fig.at(centre), polar(gap, turn)));
        let next_form = circle_radius(rng, &mut fig, next, next_radius);
        fig.circle_circle((centre, form), (next, next_form), contact);
        fig.axis_distance(centre, next, usize::from(turn.sin().abs() > turn.cos().abs()));
        (centre, radius, form) = (next, next_radius, next_form);
    }
    fig
}

/// A circle's radius as a plain value, or as a point on it that is dimensioned.
fn circle_radius(rng: &mut Rng, fig: &mut Figure, centre: usize, radius: f64) -> Radius {
    if rng.chance(0.5) {
        return Radius::Value(radius);
    }
    let on = fig.point(plus(fig.at(centre), polar(radius, rng.range(-PI, PI))));
    fig.radius(centre, on);
    Radius::Point(on)
}

/// Two arcs that run into each other, with straight ends tangent to them.
pub fn bend(rng: &mut Rng) -> Figure {
    let mut fig = Figure::default();
    let (r1, r2) = (size(rng, 30, 300), size(rng, 30, 300));
    let (first, meet) = (rng.range(1.8, 2.6), rng.range(0.3, 1.2));
    let c1 = start(&mut fig, [0.0, 0.0]);
    let from = fig.point(polar(r1, first));
    let p = fig.point(polar(r1, meet));
    let c2 = fig.point(polar(r1 + r2, meet));
    let to = fig.point(plus(fig.at(c2), polar(r2, meet + PI + rng.range(0.4, 1.2))));
    fig.points_eq(Kind::ArcEnds, &[c1, p, from]);
    fig.points_eq(Kind::ArcEnds, &[c2, p, to]);
    fig.points_eq(Kind::ArcArcAt, &[c1, c2, p]);
    fig.radius(c1, from);
    fig.radius(c2, p);
    fig.axis_distance(c1, from, 0);
    fig.axis_distance(c1, p, 1);
    fig.axis_distance(c2, to, 1);
    let tangent = times(size(rng, 20, 100) / r1, polar(r1, first + FRAC_PI_2));
    let end = fig.point(plus(fig.at(from), tangent));
    let tail = fig.line(from, end);
    fig.line_arc_at(tail, c1, from);
    fig.length(tail);
    fig
}

/// Triangles side by side, and rails that stay on one line.
pub fn truss(rng: &mut Rng) -> Figure {
    let mut fig = Figure::default();
    let (mut a, mut b) = (start(&mut fig, [0.0, 0.0]), fig.point([size(rng, 50, 200), 0.0]));
    fig.level(a, b, 1);
    fig.distance(a, b);
    let rail = fig.line(a, b);
    for i in 0..rng.between(1, 8) {
        let up = if i % 2 == 0 { 1.0 } else { 0.0 };
        let next = fig.point([fig.at(b)[0] + size(rng, 20, 100) - 40.0, up * size(rng, 60, 200) - size(rng, 0, 20)]);
        fig.distance(a, next);
        fig.distance(b, next);
        (a, b) = (b, next);
    }
    if rng.chance(0.6) {
        let x = fig.at(fig.lines[rail][1])[0];
        let (c, d) = (fig.point([x + 40.0, 0.0]), fig.point([x + size(rng, 60, 300), 0.0]));
        let next = fig.line(c, d);
        fig.lines_eq(Kind::Collinear, rail, next);
        fig.length(next);
        fig.axis_distance(fig.lines[rail][1], c, 0);
    }
    fig
}

/// A hole pattern: holes tied to each other, a copy of the first laid on it, a midpoint between.
pub fn holes(rng: &mut Rng) -> Figure {
    let mut fig = Figure::default();
    let first = start(&mut fig, [0.0, 0.0]);
    let mut last = first;
    for _ in 0..rng.between(1, 4) {
        let at = [fig.at(last)[0] + size(rng, 20, 150), size(rng, 0, 90)];
        let hole = fig.point(at);
        fig.axis_distance(last, hole, 0);
        fig.axis_distance(first, hole, 1);
        let copy = fig.point(at);
        fig.points_eq(Kind::Coincident, &[hole, copy]);
        let span = fig.line(last, copy);
        let middle = fig.point(times(0.5, plus(fig.at(last), at)));
        fig.midpoint(middle, span);
        last = copy;
    }
    fig
}

/// Two circles on a shaft with straight edges. Where an edge touches its circle at its own end the
/// equations meet at a double root, so these fits take many rounds.
pub fn spanner(rng: &mut Rng) -> Figure {
    let mut fig = Figure::default();
    let (r1, r2, d) = (size(rng, 20, 80), size(rng, 20, 80), size(rng, 200, 500));
    let turn = rng.range(-PI, PI);
    let c1 = start(&mut fig, [0.0, 0.0]);
    let c2 = fig.point(polar(d, turn));
    fig.hold(c2, Hold::Placed);
    let shaft = fig.line(c1, c2);
    // Straight edges parallel to the shaft, each tangent to a circle of a plain radius.
    for (c, r, side) in [(c1, r1, 1.0), (c2, r2, -1.0)] {
        let across = polar(side * r, turn + FRAC_PI_2);
        let (a, b) = (fig.point(plus(fig.at(c), across)), fig.point(plus(plus(fig.at(c), across), polar(0.4 * d, turn))));
        let edge = fig.line(a, b);
        fig.lines_eq(Kind::Parallel, shaft, edge);
        fig.line_circle(edge, c, Radius::Value(r));
        fig.length(edge);
        fig.distance(c, a);
    }
    fig
}
