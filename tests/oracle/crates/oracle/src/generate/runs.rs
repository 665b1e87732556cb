//! Runs of level points with fixed ones among them, and other equations on the same points.

use chance::Rng;
use job::{Build, Kind, MAX_MAGNITUDE, MIN_SIZE, State};

use super::figure::{Figure, Hold, plus, times};

/// How far a fixed point is off its runs, in sizes: by nothing, or by less than a fit notices.
const OFF: [f64; 6] = [0.0, 0.0, 1e-15, 1e-13, 4e-13, 9e-13];

/// The points of each row or column of a grid.
type Runs = Vec<Vec<usize>>;

/// A grid whose columns and rows are runs, with one or several fixed points. The fit leaves these where they are, so levelling has to
/// choose among them, and what it moves is seen by the other equations: most by a direction across a short drawing.
pub fn placed_runs(rng: &mut Rng) -> Build {
    let size = rng.pick(&[MIN_SIZE, 1.0, 256.0, 1000.0, 1e5, MAX_MAGNITUDE]);
    let extent = size * rng.pick(&[0.5, 0.1, 1e-3]);
    let mut fig = Figure::default();
    let runs = grid(rng, &mut fig, extent);
    fix(rng, &mut fig, size);
    tie(rng, &mut fig, &runs);
    for _ in 0..rng.between(1, 6) {
        other(rng, &mut fig, &runs);
    }
    if rng.chance(0.2) {
        twin(rng, &mut fig, size);
    }
    let measures = rng.below(3);
    fig.measure(rng, measures);
    if rng.chance(0.5) {
        fig.shuffle(rng);
    }
    let centre = rng.pick(&[fig.frame().0, [0.0; 2], [extent, -extent]]);
    let noise = rng.pick(&[0.0, 0.0, 1e-9, 1e-6, 1e-3, 0.03]);
    let mut build = fig.build(rng, centre, size, noise);
    start_elsewhere(rng, &mut build, 0.1 * extent);
    build
}

/// The columns, level in x, and the rows, level in y.
fn grid(rng: &mut Rng, fig: &mut Figure, extent: f64) -> [Runs; 2] {
    let steps = |rng: &mut Rng, count: usize| (0..count).map(|i| extent * (i as f64 + rng.range(0.1, 0.9)) / count as f64).collect::<Vec<_>>();
    let (columns, rows) = (rng.between(2, 4), rng.between(2, 3));
    let (xs, ys) = (steps(rng, columns), steps(rng, rows));
    for &y in &ys {
        for &x in &xs {
            fig.point([x, y]);
        }
    }
    let column = |i| (0..rows).map(|j| j * columns + i).collect();
    let row = |j| (0..columns).map(|i| j * columns + i).collect();
    [(0..columns).map(column).collect(), (0..rows).map(row).collect()]
}

fn fix(rng: &mut Rng, fig: &mut Figure, size: f64) {
    for _ in 0..rng.between(1, 4) {
        let p = rng.below(fig.points.len());
        fig.points[p].0 = plus(fig.at(p), [size * rng.pick(&OFF), size * rng.pick(&OFF)]);
        let hold = rng.pick(&[Hold::Kept, Hold::Placed]);
        fig.hold(p, hold);
    }
}

/// Each point to one before it in its run, now and then to none.
fn tie(rng: &mut Rng, fig: &mut Figure, runs: &[Runs; 2]) {
    for (axis, runs) in runs.iter().enumerate() {
        for run in runs {
            for i in 1..run.len() {
                if rng.chance(0.9) {
                    fig.level(rng.pick(&run[..i]), run[i], axis);
                }
            }
        }
    }
}

/// An equation that holds, but for how far its points are off their runs.
fn other(rng: &mut Rng, fig: &mut Figure, runs: &[Runs; 2]) {
    let (a, b) = fig.two_points(rng);
    let axis = rng.below(2);
    match rng.below(8) {
        0 => fig.distance(a, b),
        1 => fig.axis_distance(a, b, axis),
        2 => {
            let l = fig.line(a, b);
            let p = fig.point(times(0.5, plus(fig.at(a), fig.at(b))));
            fig.midpoint(p, l);
        }
        3 => {
            let l = fig.line(a, b);
            fig.length(l);
        }
        4 => {
            let l = along(rng, fig, &runs[axis]);
            fig.point_line(a, l);
        }
        5 => between(rng, fig, Kind::Perpendicular, [&runs[0], &runs[1]]),
        6 => between(rng, fig, Kind::Parallel, [&runs[axis], &runs[axis]]),
        _ => {
            let run = [runs[axis][rng.below(runs[axis].len())].clone()];
            between(rng, fig, Kind::Collinear, [&run, &run]);
        }
    }
}

fn between(rng: &mut Rng, fig: &mut Figure, kind: Kind, runs: [&[Vec<usize>]; 2]) {
    let [i, j] = runs.map(|runs| along(rng, fig, runs));
    fig.lines_eq(kind, i, j);
}

/// A line between two points of one of the runs.
fn along(rng: &mut Rng, fig: &mut Figure, runs: &[Vec<usize>]) -> usize {
    let run = &runs[rng.below(runs.len())];
    let (from, by) = (rng.below(run.len()), rng.between(1, run.len() - 1));
    fig.line(run[from], run[(from + by) % run.len()])
}

/// A point so near another that levelling puts them in one place, where the line between them has no direction.
fn twin(rng: &mut Rng, fig: &mut Figure, size: f64) {
    let (p, axis) = (rng.below(fig.points.len()), rng.below(2));
    let mut at = fig.at(p);
    at[axis] += 4e-13 * size;
    let q = fig.point(at);
    fig.level(p, q, axis);
    let l = fig.line(p, q);
    fig.lines_eq(Kind::Parallel, l, l);
}

/// A placed point starts anywhere about its place: only so it shows which of the two counts.
fn start_elsewhere(rng: &mut Rng, build: &mut Build, reach: f64) {
    for point in &mut build.points {
        if let State::Placed(at) = point.state {
            point.start = plus(at, [rng.range(-reach, reach), rng.range(-reach, reach)]);
        }
    }
}
