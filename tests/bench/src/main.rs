//! The proved fitter beside the Rust: the same jobs through both in one run, timed in turn.
//!
//!     bench EACH     packed jobs in; the first EACH of every class are timed
//!
//! A line for each class: how many jobs, the middle one's times, and the geometric mean of the share of the Rust's time that the
//! fitter takes. "reply" is from text to reply on both sides; "answer" is the fitter's text to reply beside the Rust's build to
//! answer, which reads and prints nothing.

use std::hint::black_box;
use std::time::{Duration, Instant};

use job::{Answer, Build, pack};
use oracle::answer;
use sakiromuk::Fitter;

const ROUNDS: usize = 9;
/// A round runs a job so often that it takes at least this long.
const ROUND: Duration = Duration::from_micros(200);

const CLASSES: [&str; 5] = ["small", "middle", "large", "bounds", "failing"];

/// The class of a job, if it is in one: sections that fit have 4 to 8 points (small), 9 to 16 (middle) or more (large), and 40 points,
/// 40 equations or 64 rows at the bounds; failing ones have suspects.
fn class(build: &Build) -> Option<usize> {
    let full = build.points.len() == 40 || build.equations.len() == 40 || job::rows(build) == 64;
    match answer::unmodified(build) {
        Answer::Fitted(_) if full => Some(3),
        Answer::Fitted(_) => match build.points.len() {
            4..=8 => Some(0),
            9..=16 => Some(1),
            17.. => Some(2),
            _ => None,
        },
        Answer::Failed(failure) if !failure.suspects.is_empty() => Some(4),
        _ => None,
    }
}

/// How long one run takes, in nanoseconds: each job is run in rounds, the sides in turn, and the best round of a side counts.
#[derive(Clone, Copy)]
struct Times {
    ours: f64,
    reply: f64,
    answer: f64,
}

fn round(runs: u32, mut work: impl FnMut()) -> f64 {
    let start = Instant::now();
    for _ in 0..runs {
        work();
    }
    start.elapsed().as_nanos() as f64 / f64::from(runs)
}

/// How many runs make a round.
fn runs(mut work: impl FnMut()) -> u32 {
    let one = round(1, &mut work).min(round(1, &mut work)).max(1.0);
    (ROUND.as_nanos() as f64 / one).ceil().max(1.0) as u32
}

fn timed(fitter: &mut Fitter, text: &[u8], build: &Build) -> Times {
    let mut ours = || {
        black_box(fitter.run(black_box(text)));
    };
    let reply = || {
        let build = job::read(black_box(text)).expect("a build");
        black_box(job::reply(&answer::unmodified(&build)));
    };
    let answer = || {
        black_box(answer::unmodified(black_box(build)));
    };
    let n = runs(reply);
    let mut best = Times { ours: f64::INFINITY, reply: f64::INFINITY, answer: f64::INFINITY };
    for _ in 0..ROUNDS {
        best.ours = best.ours.min(round(n, &mut ours));
        best.reply = best.reply.min(round(n, reply));
        best.answer = best.answer.min(round(n, answer));
    }
    best
}

fn mean(values: impl Iterator<Item = f64>) -> f64 {
    let (n, sum) = values.fold((0.0, 0.0), |(n, sum), v| (n + 1.0, sum + v.ln()));
    f64::exp(sum / n)
}

fn middle(mut values: Vec<f64>) -> f64 {
    values.sort_by(f64::total_cmp);
    values[values.len() / 2]
}

fn main() {
    let each: usize = std::env::args().nth(1).expect("how many of each class").parse().expect("a count");
    let (mut input, mut fitter) = (std::io::stdin().lock(), Fitter::new());
    let mut times: [Vec<Times>; 5] = Default::default();
    while times.iter().any(|t| t.len() < each) {
        let Some(record) = pack::next(&mut input).expect("packed jobs") else { break };
        let Ok(build) = job::read(&record.text) else { continue };
        let Some(class) = class(&build) else { continue };
        if times[class].len() < each {
            times[class].push(timed(&mut fitter, &record.text, &build));
        }
    }
    println!("class    jobs   ours us   Rust us   reply   answer");
    let mut shares = Vec::new();
    for (name, times) in CLASSES.iter().zip(&times) {
        assert!(times.len() == each, "{name}: {} jobs of {each}", times.len());
        let (ours, theirs) = (times.iter().map(|t| t.ours).collect(), times.iter().map(|t| t.reply).collect());
        let (reply, answer) = (mean(times.iter().map(|t| t.ours / t.reply)), mean(times.iter().map(|t| t.ours / t.answer)));
        println!("{name:<8} {each:>4} {:>9.1} {:>9.1}   {reply:>5.2}   {answer:>6.2}", middle(ours) / 1e3, middle(theirs) / 1e3);
        shares.push((reply, answer));
    }
    let (reply, answer) = (mean(shares.iter().map(|s| s.0)), mean(shares.iter().map(|s| s.1)));
    println!("geometric mean of the classes:  {reply:>5.2}   {answer:>6.2}");
}
