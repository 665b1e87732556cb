//! Writes a sample of jobs and calls with the Rust's answers, for a replay without any Rust: each
//! record is a line `LENGTH REPLYLENGTH`, the text, the reply. The sample is the smallest texts
//! that between them show every trait below.

use std::collections::BTreeSet;
use std::error::Error;
use std::fs;
use std::io::Write;
use std::path::Path;

use job::{Answer, Build, Contact, Equation, Field, Kind, MAX_MAGNITUDE, MIN_SIZE, Radius, State, pack};

use crate::answer::{Checked, checked};
use crate::calls;
use crate::figures::{Seen, TOLERANCE, Worst, ending, look, sort};
use crate::generate::{self, Made};

/// Texts to choose from.
const JOBS: u64 = 20_000;
const CALLS: u64 = 30 * 120;
/// A text beyond this is taken for its status alone.
const LONG: usize = 8_000;
/// A call and its reply beyond this are left out.
const LONG_CALL: usize = 3_500;
/// Examples of each class in each status, and of each class of calls.
const EXAMPLES: usize = 2;
const FORM_EXAMPLES: usize = 30;
const CALL_EXAMPLES: usize = 4;

type Traits = BTreeSet<String>;

/// `extra` are files with jobs that no seed finds quickly; they are always taken.
pub fn jobs(output: &mut impl Write, path: &Path, seed: u64, extra: &[&str]) -> Result<(), Box<dyn Error>> {
    let mut jobs = Vec::new();
    for path in extra {
        jobs.push(fs::read(path)?);
    }
    jobs.extend(chosen_jobs(seed));
    let replies = jobs.iter().map(|text| job::reply(&checked(text).answer));
    write(output, path, jobs.iter().zip(replies))
}

/// `extra` are files with calls that are always taken.
pub fn calls(output: &mut impl Write, path: &Path, seed: u64, extra: &[&str]) -> Result<(), Box<dyn Error>> {
    let mut calls = chosen_calls(seed)?;
    for path in extra {
        let text = fs::read(path)?;
        let reply = calls::answer(&text)?;
        calls.push((text, reply));
    }
    write(output, path, calls.iter().map(|(text, reply)| (text, reply.clone())))
}

fn write<'a>(output: &mut impl Write, path: &Path, records: impl Iterator<Item = (&'a Vec<u8>, String)>) -> Result<(), Box<dyn Error>> {
    let (mut bytes, mut count) = (Vec::new(), 0);
    for (text, reply) in records {
        pack::put_answered(&mut bytes, text, reply.as_bytes())?;
        count += 1;
    }
    fs::write(path, &bytes)?;
    writeln!(output, "{}: {count} records, {} bytes", path.display(), bytes.len())?;
    Ok(())
}

/// The shortest jobs first; each is taken if it shows something new. A job whose freedom hangs
/// on a NaN's sign is not: the replay compares every byte.
fn chosen_jobs(seed: u64) -> Vec<Vec<u8>> {
    let mut made: Vec<Made> = (0..JOBS).map(|index| generate::job(seed, index)).collect();
    made.sort_by_key(|m| m.text.len());
    let mut shown = Traits::new();
    made.retain(|m| {
        let judged = checked(&m.text);
        judged.nan_groups.is_empty() && is_new(&mut shown, job_traits(m, &judged))
    });
    made.into_iter().map(|m| m.text).collect()
}

fn chosen_calls(seed: u64) -> Result<Vec<(Vec<u8>, String)>, String> {
    let (mut shown, mut chosen) = (Traits::new(), Vec::new());
    let fits = |text: &[u8], reply: &str| text.len() + reply.len() <= LONG_CALL;
    for index in 0..CALLS {
        let made = generate::call(seed, index);
        let reply = calls::answer(&made.text)?;
        let sound = fits(&made.text, &reply) && reply != calls::NAN;
        if sound && is_new(&mut shown, call_traits(&made, &reply)) {
            chosen.push((made.text, reply));
        }
    }
    for case in generate::named() {
        if !calls::shows(&case) {
            return Err(format!("{} does not show what it names", case.name));
        }
        let text = case.text();
        let reply = calls::answer(&text)?;
        if fits(&text, &reply) {
            chosen.push((text, reply));
        }
    }
    Ok(chosen)
}

/// Whether some trait has fewer examples so far than it wants.
fn is_new(shown: &mut Traits, traits: Vec<(String, usize)>) -> bool {
    let mut new = false;
    for (name, examples) in traits {
        let free = (0..examples).map(|n| format!("{name}#{n}")).find(|t| !shown.contains(t));
        new |= free.map(|t| shown.insert(t)).is_some();
    }
    new
}

/// What a job shows, each with the number of examples wanted.
fn job_traits(made: &Made, judged: &Checked) -> Vec<(String, usize)> {
    let seen = look(&made.text);
    if made.text.len() > LONG {
        return vec![(format!("long {}", seen.status), 1)];
    }
    let examples = if made.class == "damaged-form" { FORM_EXAMPLES } else { EXAMPLES };
    let mut traits = vec![(format!("class {} {}", made.class, seen.status), examples)];
    if let Some(build) = &seen.build {
        let worst = seen.worst.iter().flat_map(|worst| worst_traits(build, worst));
        let one = fit_traits(&seen).into_iter().chain(build_traits(build)).chain(answer_traits(&judged.answer)).chain(worst);
        traits.extend(one.map(|t| (t, 1)));
    }
    traits
}

/// Every ending and iteration count of a group, and every kind with every ending.
fn fit_traits(seen: &Seen) -> Vec<String> {
    let mut traits = Vec::new();
    for (kinds, run) in &seen.groups {
        let ending = ending(run);
        let size = run.iterations.checked_ilog2();
        traits.push(format!("{ending:?} after 2^{size:?} in {}", seen.status));
        traits.extend(kinds.iter().map(|k| format!("{} {ending:?}", k.name())));
    }
    traits.push(format!("{} groups in {}", seen.groups.len().min(5), seen.status));
    traits
}

/// Every form of every field, every state of a point, every bound that is met.
fn build_traits(build: &Build) -> Vec<String> {
    let mut traits: Vec<String> = build.equations.iter().map(|e| format!("e {}", forms(e))).collect();
    traits.extend(build.measures.iter().map(|e| format!("m {}", forms(e))));
    traits.extend(build.points.iter().map(|p| {
        let state = match p.state {
            State::Free => "free",
            State::Kept => "kept",
            State::Placed(at) if at == p.start => "placed where it starts",
            State::Placed(_) => "placed",
        };
        let zero = if p.start.iter().any(|v| v.to_bits() == (-0.0f64).to_bits()) { "with -0.0" } else { "" };
        format!("point {state} {zero}")
    }));
    let counts = [build.points.len(), build.lines.len(), build.equations.len(), build.measures.len(), job::rows(build)];
    let bounds = [job::MAX_POINTS, job::MAX_LINES, job::MAX_EQUATIONS, job::MAX_MEASURES, job::MAX_ROWS];
    let full = counts.iter().zip(bounds).enumerate().filter(|(_, (count, bound))| *count == bound);
    traits.extend(full.map(|(which, _)| format!("bound {which}")));
    traits.extend([MIN_SIZE, MAX_MAGNITUDE].iter().filter(|v| build.size == **v).map(|v| format!("size {v}")));
    let starts = build.points.iter().flat_map(|p| p.start);
    traits.extend(starts.filter(|v| v.abs() == MAX_MAGNITUDE).map(|v| format!("coordinate {v}")));
    traits
}

/// The kind with the forms its fields take here; an equation on one point or line twice too.
fn forms(e: &Equation) -> String {
    let form = |f: &Field| match *f {
        Field::Axis(axis) => ["x", "y"][axis],
        Field::Side(s) if s < 0.0 => "-",
        Field::Side(_) => "+",
        Field::Radius(Radius::Point(_)) => "p",
        Field::Radius(Radius::Value(_)) => "v",
        Field::Contact(Contact::Outside) => "o",
        Field::Contact(Contact::Inside(s)) if s < 0.0 => "-",
        Field::Contact(Contact::Inside(_)) => "+",
        Field::Value(v) if v < 0.0 => "below zero",
        Field::Point(_) | Field::Line(_) | Field::Value(_) => "",
    };
    let forms: Vec<&str> = e.fields.iter().map(form).collect();
    let twice = e.kind != Kind::Held && e.fields.windows(2).any(|w| w[0] == w[1]);
    format!("{} {} {}", e.kind.name(), forms.join(" "), if twice { "twice" } else { "" })
}

fn answer_traits(answer: &Answer) -> Vec<String> {
    match answer {
        Answer::Fitted(f) => {
            let nan = f.measures.iter().any(|m| m.is_nan());
            vec![format!("worst is zero: {}", f.worst == 0.0), format!("a measure is NaN: {nan}"), format!("freedom {}", f.freedom.min(8))]
        }
        Answer::Failed(f) => vec![format!("{} suspects", f.suspects.len().min(6))],
        Answer::Refused(_) => Vec::new(),
    }
}

/// What tells worst at the printed points from worst at the fit, and which row of which kind it is.
fn worst_traits(build: &Build, worst: &Worst) -> Vec<String> {
    let Worst { fit, printed, rows } = worst;
    let shown = [
        ("worst is infinite", printed.is_infinite()),
        ("worst is over the tolerance and finite", *printed > TOLERANCE && printed.is_finite()),
        ("worst is less than at the fit", printed < fit),
    ];
    let names = build.equations.iter().flat_map(|e| (0..e.kind.rows()).map(|row| format!("worst is row {row} of {}", e.kind.name())));
    let largest = names.zip(rows).find(|(_, row)| *printed > 0.0 && row.abs() == *printed).map(|(name, _)| name);
    shown.into_iter().filter(|(_, holds)| *holds).map(|(name, _)| name.to_string()).chain(largest).collect()
}

/// Every class with every sort of reply (a word and, of a status, its number), the small shapes of
/// each, and every kind among the rows.
fn call_traits(made: &Made, reply: &str) -> Vec<(String, usize)> {
    let head = String::from_utf8_lossy(&made.text);
    let mut words = head.split([' ', '\n']);
    let (name, shape) = (words.next().unwrap_or(""), words.next().unwrap_or(""));
    let mut traits = vec![(format!("{} {name} {}", made.class, sort(reply)), CALL_EXAMPLES)];
    if name == "rows" {
        let kinds = head.lines().filter_map(|line| line.strip_prefix("e=")?.split(',').next());
        traits.extend(kinds.map(|kind| (format!("rows of {kind}"), 2)));
    }
    if shape.parse::<usize>().is_ok_and(|n| n < 9) {
        traits.push((format!("{} {name} {shape}", made.class), 1));
    }
    traits
}
