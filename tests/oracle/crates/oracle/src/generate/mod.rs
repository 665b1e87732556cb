//! Jobs and calls from a seed: what each class is good for is told in tests/README.md.

mod bounds;
mod calls;
mod damage;
mod figure;
mod named;
mod runs;
mod sections;
mod soups;
mod strings;

pub use calls::call;
pub use named::{Named, named};
pub use strings::{damaged, string};

use chance::Rng;
use job::{Build, EQUATIONS, Field, Kind, MAX_EQUATIONS, MAX_ROWS};

use figure::{Figure, Hold};

/// A text with the class it belongs to.
pub struct Made {
    pub class: &'static str,
    pub text: Vec<u8>,
}

type Section = fn(&mut Rng) -> Figure;

const SECTIONS: [(&str, Section); 13] = [
    ("rectangle", sections::rectangle),
    ("square", sections::square),
    ("trapezoid", sections::trapezoid),
    ("chute", sections::chute),
    ("slanted-chute", sections::slanted_chute),
    ("slot", sections::slot),
    ("mirrored", sections::mirrored),
    ("levels", sections::levels),
    ("run-of-levels", sections::run_of_levels),
    ("circles", sections::circles),
    ("bend", sections::bend),
    ("truss", sections::truss),
    ("holes", sections::holes),
];

/// Job `index` of the seed.
pub fn job(seed: u64, index: u64) -> Made {
    let rng = &mut Rng::new(seed, index);
    match rng.below(100) {
        // Out of the sections' rolls, so that every other job is the one that it was.
        1..=3 => made("placed-runs", &runs::placed_runs(rng)),
        0..=49 => section(rng),
        50..=55 => made("several", &several(rng)),
        56..=57 => made("spanner", &drawn(rng, sections::spanner)),
        58..=72 => made("true-soup", &true_soup(rng)),
        73..=77 => made("wild-soup", &soups::wild_soup(rng)),
        78..=79 => made("grid-soup", &soups::grid_soup(rng)),
        80..=86 => made("contradictory", &contradictory(rng)),
        87..=89 => made("far", &far(rng)),
        90..=92 => bounds::job(rng, index),
        _ => damage::job(rng),
    }
}

fn made(class: &'static str, build: &Build) -> Made {
    Made { class, text: job::write(build) }
}

fn section(rng: &mut Rng) -> Made {
    let (class, section) = rng.pick(&SECTIONS);
    made(class, &drawn(rng, section))
}

/// A section as someone draws it: less, exactly or more than determined, numbered as it comes,
/// held here or there, with measures and points that nothing ties.
fn drawn(rng: &mut Rng, section: Section) -> Build {
    let mut fig = section(rng);
    determine(rng, &mut fig);
    decorate(rng, &mut fig);
    finish(rng, &fig)
}

/// One in three loses equations, one in three gains some that hold already.
fn determine(rng: &mut Rng, fig: &mut Figure) {
    match rng.below(3) {
        0 => {
            for _ in 0..rng.between(1, 3) {
                if fig.equations.len() > 1 {
                    let k = rng.below(fig.equations.len());
                    fig.equations.remove(k);
                }
            }
        }
        1 => {
            for _ in 0..rng.between(1, 3) {
                if fig.room(0, 0, 2) {
                    fig.redundant(rng);
                }
            }
        }
        _ => {}
    }
}

fn decorate(rng: &mut Rng, fig: &mut Figure) {
    if rng.chance(0.2) && fig.room(0, 0, 0) {
        fig.add(Kind::Held, &[]);
    }
    if rng.chance(0.3) {
        let p = rng.below(fig.points.len());
        let hold = rng.pick(&[Hold::Free, Hold::Kept, Hold::Placed]);
        fig.hold(p, hold);
    }
    for _ in 0..rng.below(3) {
        if rng.chance(0.4) && fig.room(1, 0, 0) {
            let p = fig.point([rng.pick(&[-0.0, 0.0, 12.5]), rng.range(-50.0, 50.0)]);
            let hold = rng.pick(&[Hold::Free, Hold::Kept, Hold::Placed]);
            fig.hold(p, hold);
        }
    }
    if rng.chance(0.1) && fig.room(0, 1, 0) {
        // A line of no length: measured, it gives NaN.
        let p = rng.below(fig.points.len());
        fig.line(p, p);
    }
    let measures = rng.below(5);
    fig.measure(rng, measures);
    if rng.chance(0.3) {
        fig.shuffle(rng);
    }
}

/// The build at the size a drawing program takes: mostly the diagonal, sometimes a plain number.
fn finish(rng: &mut Rng, fig: &Figure) -> Build {
    let (centre, diagonal) = fig.frame();
    let size = if rng.chance(0.8) { diagonal } else { rng.pick(&[1.0, 100.0, 256.0, 1000.0]) };
    let noise = rng.pick(&[0.0, 1e-12, 1e-9, 1e-6, 1e-4, 1e-3, 0.01, 0.01, 0.03, 0.03, 0.1, 0.2]);
    let mut build = fig.build(rng, centre, size, noise);
    if rng.chance(0.2) {
        build.centre = [0.0; 2];
    }
    if rng.chance(0.1) {
        negate_zeros(&mut build);
    }
    build
}

/// Every start at 0.0 becomes -0.0.
fn negate_zeros(build: &mut Build) {
    for v in build.points.iter_mut().flat_map(|p| &mut p.start) {
        if *v == 0.0 {
            *v = -0.0;
        }
    }
}

/// Two to four small sections side by side.
fn several(rng: &mut Rng) -> Build {
    let mut fig = Figure::default();
    for i in 0..rng.between(2, 4) {
        let section = rng.pick(&SECTIONS).1;
        let next = section(rng);
        let room = fig.room(next.points.len(), next.lines.len(), next.rows());
        if room && fig.equations.len() + next.equations.len() <= MAX_EQUATIONS {
            fig.append(&next, [1000.0 * i as f64, rng.range(-200.0, 200.0)]);
        }
    }
    decorate(rng, &mut fig);
    finish(rng, &fig)
}

fn true_soup(rng: &mut Rng) -> Build {
    let equations = rng.between(1, 24);
    let mut fig = soups::true_soup(rng, equations);
    if fig.points.is_empty() {
        fig.point([1.0, -0.0]);
    }
    let measures = rng.below(6);
    fig.measure(rng, measures);
    if rng.chance(0.5) {
        fig.shuffle(rng);
    }
    finish(rng, &fig)
}

/// An exactly determined section and a dimension or two that do not fit it.
fn contradictory(rng: &mut Rng) -> Build {
    let section = rng.pick(&SECTIONS).1;
    let mut fig = section(rng);
    for _ in 0..rng.between(1, 2) {
        if fig.rows() < MAX_ROWS && fig.equations.len() < MAX_EQUATIONS {
            fig.redundant(rng);
            spoil(rng, &mut fig);
        }
    }
    decorate(rng, &mut fig);
    finish(rng, &fig)
}

/// Makes the last equation ask for another length than the figure has.
fn spoil(rng: &mut Rng, fig: &mut Figure) {
    let factor = rng.pick(&[0.5, 0.9, 0.999, 1.000001, 1.01, 1.2, 3.0]);
    let last = fig.equations.last_mut().expect("a figure to spoil has equations");
    for field in &mut last.fields {
        if let Field::Value(v) = field {
            *v = *v * factor + 1.0;
        }
    }
}

/// A section at a size or a place far from its own.
fn far(rng: &mut Rng) -> Build {
    let section = rng.pick(&SECTIONS).1;
    let mut fig = Figure::default();
    let by = rng.pick(&[[0.0, 0.0], [9e5, -9e5], [1e4, 1e4], [-3e5, 2.0]]);
    fig.append(&section(rng), by);
    decorate(rng, &mut fig);
    let (middle, diagonal) = fig.frame();
    let size = rng.pick(&[1.0 / 1024.0, 0.01, 1.0, diagonal, 1e5, 1e6]);
    let centre = rng.pick(&[middle, [0.0; 2], [1e6, -1e6]]);
    let noise = rng.pick(&[0.0, 1e-6, 1e-3, 0.03]);
    let mut build = fig.build(rng, centre, size, noise);
    // The truth of a large figure can lie beyond the bounds in units of a small size.
    build.equations.retain(|e| !e.fields.iter().any(|f| matches!(f, Field::Value(v) if v.abs() > job::MAX_MAGNITUDE)));
    build
}

/// Fixed numbers from −1 to 1.
pub fn numbers(count: usize) -> Vec<f64> {
    let rng = &mut Rng::new(0, 0);
    (0..count).map(|_| rng.range(-1.0, 1.0)).collect()
}

/// A fixed build whose one group has two equations of each kind that has rows.
pub fn sweep() -> Build {
    let rng = &mut Rng::new(0, 1);
    let mut fig = Figure::default();
    for i in 0..24 {
        let p = fig.point([rng.range(-1.0, 1.0), rng.range(-1.0, 1.0)]);
        if i > 0 {
            fig.line(p - 1, p);
        }
    }
    let lines = fig.lines.len();
    for kind in EQUATIONS.into_iter().filter(|&k| k != Kind::Held) {
        for _ in 0..2 {
            fig.equations.push(soups::wild_equation(rng, &[kind], 24, lines));
        }
    }
    fig.build(rng, [0.0; 2], 1.0, 0.0)
}
