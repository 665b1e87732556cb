//! The groups of builds of many shapes. Each build has passed the job's own check, so that both sides are asked the same.

use std::process::ExitCode;

use chance::Rng;
use job::{Build, EQUATIONS, Equation, Kind, MAX_EQUATIONS, MAX_LINES, MAX_POINTS, MAX_ROWS, Slot};
use plain::Rig;
use rooms::{NO_GROUP, Tally};

use crate::draw::{self, Reach};

const CLASSES: [&str; 8] = ["sparse", "dense", "chain", "star", "ring", "held", "lines", "mixed"];
const PAIRS: [Kind; 5] = [Kind::Coincident, Kind::Level, Kind::Distance, Kind::AxisDistance, Kind::Radius];
const HELD: Equation = Equation { kind: Kind::Held, fields: Vec::new() };
/// Stands in places that nothing may change.
const UNTOUCHED: usize = 77;

pub fn compare(count: u64, seed: u64) -> ExitCode {
    let (mut tally, mut seen) = (Tally::default(), [Seen::default(); CLASSES.len()]);
    for i in 0..count {
        let (rng, class) = (&mut Rng::new(seed, i), i as usize % CLASSES.len());
        let build = build(rng, CLASSES[class]);
        assert_eq!(job::check(&build), Ok(()), "{build:?}");
        let (theirs, ours) = (expected(&build), answered(rng, &build));
        seen[class].add(&theirs);
        tally.note(ours.agrees(&theirs), || format!("build {i} ({}): {build:?}\nours {ours:?}\nRust {theirs:?}", CLASSES[class]));
    }
    for (class, seen) in CLASSES.iter().zip(&seen) {
        println!("{class:8} {:7} builds, {:7} groups, the largest of {:2} points", seen.builds, seen.groups, seen.largest);
    }
    tally.end()
}

/// How many groups there are, and the group of each point and of each equation.
#[derive(Debug)]
struct Grouping {
    count: usize,
    points: Vec<usize>,
    equations: Vec<usize>,
}

impl Grouping {
    /// Whether these tables are the others as far as there is room for them, and untouched beyond.
    fn agrees(&self, whole: &Self) -> bool {
        let table = |part: &[usize], whole: &[usize]| part.iter().enumerate().all(|(i, &g)| g == *whole.get(i).unwrap_or(&UNTOUCHED));
        self.count == whole.count && table(&self.points, &whole.points) && table(&self.equations, &whole.equations)
    }
}

/// The tables that are lent have 40 places; now and then fewer, or some that stay as they are.
fn answered(rng: &mut Rng, build: &Build) -> Grouping {
    let table = |rng: &mut Rng| vec![UNTOUCHED; rng.pick(&[40, 40, 40, 43, 17, 0])];
    let (mut points, mut equations) = (table(rng), table(rng));
    let count = rooms::groups(&job::write(build), &mut points, &mut equations);
    Grouping { count, points, equations }
}

fn expected(build: &Build) -> Grouping {
    let rig = Rig::new(build);
    let (mut points, mut equations) = (vec![NO_GROUP; MAX_POINTS], vec![NO_GROUP; MAX_EQUATIONS]);
    for g in 0..rig.groups() {
        rig.points_of(g).iter().for_each(|&p| points[p] = g);
        rig.equations_of(g).iter().for_each(|&k| equations[k] = g);
        // The tables say no less than the Rust's lists only if these rise.
        assert!(rig.points_of(g).is_sorted_by(|a, b| a < b) && rig.equations_of(g).is_sorted_by(|a, b| a < b));
    }
    Grouping { count: rig.groups(), points, equations }
}

#[derive(Clone, Copy, Default)]
struct Seen {
    builds: usize,
    groups: usize,
    largest: usize,
}

impl Seen {
    fn add(&mut self, grouping: &Grouping) {
        let size = |g| grouping.points.iter().filter(|&&of| of == g).count();
        self.builds += 1;
        self.groups += grouping.count;
        self.largest = self.largest.max((0..grouping.count).map(size).max().unwrap_or(0));
    }
}

fn build(rng: &mut Rng, class: &str) -> Build {
    let points = match class {
        "chain" | "star" | "ring" => rng.between(2, MAX_POINTS),
        "held" => rng.between(0, MAX_POINTS),
        _ => rng.between(1, MAX_POINTS),
    };
    let lines = match class {
        _ if points == 0 => 0,
        "lines" => rng.between(1, MAX_LINES),
        _ => rng.between(0, MAX_LINES),
    };
    let mut build = draw::bare(points);
    build.lines = (0..lines).map(|_| [rng.below(points), rng.below(points)]).collect();
    build.equations = equations(rng, class, points, lines);
    build
}

fn equations(rng: &mut Rng, class: &str, points: usize, lines: usize) -> Vec<Equation> {
    let all: Vec<usize> = (0..points).collect();
    let reach = Reach { points: &all, lines, number: &|_| 1.0 };
    let some = |rng: &mut Rng, count: usize, kinds: &[Kind]| (0..count).map(|_| reach.equation(rng, kinds)).collect();
    let on_lines: Vec<Kind> = EQUATIONS.into_iter().filter(|k| k.slots().contains(&Slot::Line)).collect();
    let list: Vec<Equation> = match (class, rng.below(41)) {
        ("chain" | "star" | "ring", _) => shaped(rng, points, class),
        ("held", n) => vec![HELD; n],
        ("lines", n) => some(rng, 1 + n % 8, &on_lines),
        ("sparse", n) => some(rng, n % 5, &EQUATIONS),
        ("dense", n) => some(rng, 20 + n / 2, &EQUATIONS),
        (_, n) => some(rng, n / 2, &EQUATIONS),
    };
    let mut list: Vec<Equation> = rng.order(list.len()).into_iter().map(|k| list[k].clone()).collect();
    if class != "held" && rng.chance(0.25) {
        list.insert(rng.between(0, list.len()), HELD);
    }
    // Both bounds of 01.
    list.truncate(MAX_EQUATIONS);
    while list.iter().map(|e| e.kind.rows()).sum::<usize>() > MAX_ROWS {
        list.pop();
    }
    list
}

/// An equation for each pair of points that the shape ties. Now and then the shape falls into pieces.
fn shaped(rng: &mut Rng, points: usize, class: &str) -> Vec<Equation> {
    let order = rng.order(points);
    let mut pairs: Vec<[usize; 2]> = match class {
        "chain" => order.windows(2).map(|w| [w[0], w[1]]).collect(),
        "star" => order[1..].iter().map(|&q| [order[0], q]).collect(),
        _ => (0..points).map(|i| [order[i], order[(i + 1) % points]]).collect(),
    };
    let cut = rng.pick(&[0.0, 0.0, 0.0, 0.125]);
    pairs.retain(|_| !rng.chance(cut));
    pairs.into_iter().map(|[a, b]| pair(rng, a, b)).collect()
}

/// Either way round.
fn pair(rng: &mut Rng, a: usize, b: usize) -> Equation {
    let (first, second) = rng.pick(&[(a, b), (b, a)]);
    let mut e = Reach { points: &[first], lines: 0, number: &|_| 1.0 }.equation(rng, &PAIRS);
    e.fields[1] = job::Field::Point(second);
    e
}
