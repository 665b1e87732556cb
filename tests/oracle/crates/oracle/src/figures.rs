//! What a set of jobs or calls holds. Of jobs, tables by class, status, kind, iterations, ending,
//! reason and worst; it fails unless over half of the sound ones converge after real iterations with every kind
//! among them. Of calls, a table by class and sort of reply.

use std::collections::{BTreeMap, BTreeSet};
use std::error::Error;
use std::io::{BufRead, Write};

use counted::{Rig, Run};
use job::{Build, EQUATIONS, Kind, Reason, Status, pack};

use crate::{calls, generate};

const FITTED: Status = 0;
const FAILED: Status = 7;
const STATUSES: [Status; 8] = [0, 1, 2, 3, 4, 5, 6, 7];
/// As many rounds as a fit has.
const ROUNDS: usize = 200;
/// What a fit lets pass.
pub const TOLERANCE: f64 = 1e-12;

/// How a group's fit came to its end.
#[derive(Clone, Copy, Debug, PartialEq, Eq, PartialOrd, Ord)]
pub enum Ending {
    AtStart,
    NothingFree,
    /// Converged: within tolerance no try of the last round helped.
    AtRest,
    /// Converged: the polishing steps were spent.
    Polished,
    /// Failed: outside tolerance no try of the last round helped.
    Stuck,
    SpentConverged,
    SpentFailed,
}

/// What was said last tells: nothing where there was no round, and `Spent` where the last round took a try.
pub fn ending(run: &Run) -> Ending {
    match (run.x.is_some(), run.reason) {
        (true, Reason::NothingFree) => Ending::AtStart,
        (false, Reason::NothingFree) => Ending::NothingFree,
        (true, Reason::Spent) if run.iterations == ROUNDS => Ending::SpentConverged,
        (true, Reason::Spent) => Ending::Polished,
        (false, Reason::Spent) => Ending::SpentFailed,
        (true, _) => Ending::AtRest,
        (false, _) => Ending::Stuck,
    }
}

/// The codes of the last round's tries in their order, each once for as many tries as have it one
/// after another; a try that is taken has 5.
pub fn last_codes(run: &Run) -> Vec<usize> {
    let mut codes: Vec<usize> = run.round.iter().map(|reason| reason.code()).collect();
    codes.dedup();
    codes
}

/// Failed fits, and the columns in which some try of their last rounds found no pivot.
#[derive(Default)]
struct Failed {
    fits: usize,
    columns: BTreeSet<usize>,
}

/// The largest residual of a fitted job.
pub struct Worst {
    /// At the fitted coordinates.
    pub fit: f64,
    /// At the printed points.
    pub printed: f64,
    /// All of them there.
    pub rows: Vec<f64>,
}

/// A job as far as the figures go: its status and its groups' fits up to the first that fails.
pub struct Seen {
    pub status: Status,
    pub build: Option<Build>,
    pub groups: Vec<(Vec<Kind>, Run)>,
    /// Where it is fitted.
    pub worst: Option<Worst>,
}

impl Seen {
    /// Fitted, with at least one round in some group.
    fn worked(&self) -> bool {
        self.status == FITTED && self.groups.iter().any(|(_, run)| run.iterations > 0)
    }
}

pub fn look(text: &[u8]) -> Seen {
    let build = match job::read(text) {
        Ok(build) => build,
        Err(status) => return Seen { status, build: None, groups: Vec::new(), worst: None },
    };
    let rig = Rig::new(&build);
    let (mut status, mut groups) = (FITTED, Vec::new());
    for g in 0..rig.groups() {
        let kinds = rig.equations_of(g).iter().map(|&k| build.equations[k].kind).collect();
        let run = rig.fit(g);
        if run.x.is_none() {
            status = FAILED;
        }
        groups.push((kinds, run));
        if status == FAILED {
            break;
        }
    }
    let worst = worst(&rig, &groups);
    Seen { status, build: Some(build), groups, worst }
}

/// None where a group's fit failed.
fn worst(rig: &Rig, groups: &[(Vec<Kind>, Run)]) -> Option<Worst> {
    let fitted: Vec<Vec<f64>> = groups.iter().map(|(_, run)| run.x.clone()).collect::<Option<_>>()?;
    let residuals: Vec<f64> = fitted.iter().enumerate().flat_map(|(g, x)| rig.residuals(g, x)).collect();
    let (points, _) = rig.finish(&fitted);
    let rows = rig.residuals_at(points.as_flattened());
    Some(Worst { fit: counted::bare::max_abs(&residuals), printed: counted::bare::max_abs(&rows), rows })
}

/// How worst differs between the fitted coordinates and the printed points.
#[derive(Clone, Copy, Default)]
struct Moves {
    fitted: usize,
    moved: usize,
    less: usize,
    over: usize,
    infinite: usize,
    largest: f64,
}

impl Moves {
    fn of(worst: &Worst) -> Self {
        let &Worst { fit, printed, .. } = worst;
        Self {
            fitted: 1,
            moved: usize::from(printed.to_bits() != fit.to_bits()),
            less: usize::from(printed < fit),
            over: usize::from(printed > TOLERANCE),
            infinite: usize::from(printed.is_infinite()),
            largest: if printed.is_finite() { printed } else { 0.0 },
        }
    }

    fn plus(self, other: Self) -> Self {
        Self {
            fitted: self.fitted + other.fitted,
            moved: self.moved + other.moved,
            less: self.less + other.less,
            over: self.over + other.over,
            infinite: self.infinite + other.infinite,
            largest: self.largest.max(other.largest),
        }
    }

    fn row(&self, class: &str) -> String {
        let Self { fitted, moved, less, over, infinite, largest } = self;
        format!("| {class} | {fitted} | {moved} | {less} | {over} | {infinite} | {largest:.2e} |")
    }
}

#[derive(Default)]
struct Tally {
    classes: BTreeMap<String, BTreeMap<Status, usize>>,
    worked: usize,
    sound: usize,
    kinds: BTreeMap<Kind, [usize; 2]>,
    rounds: BTreeMap<usize, [usize; 2]>,
    endings: BTreeMap<Ending, usize>,
    /// By their reason and the codes of their last tries.
    failed: BTreeMap<(Reason, Vec<usize>), Failed>,
    /// By class.
    worst: BTreeMap<String, Moves>,
}

/// Iterations by their order of size: each entry is the least of its range.
const RANGES: [usize; 9] = [0, 1, 3, 6, 11, 21, 51, 101, 200];

impl Tally {
    fn add(&mut self, class: String, seen: &Seen) {
        if let Some(worst) = &seen.worst {
            let moves = self.worst.entry(class.clone()).or_default();
            *moves = moves.plus(Moves::of(worst));
        }
        *self.classes.entry(class).or_default().entry(seen.status).or_default() += 1;
        self.sound += usize::from(seen.build.is_some());
        self.worked += usize::from(seen.worked());
        self.add_kinds(seen);
        for (_, run) in &seen.groups {
            let range = RANGES.iter().copied().filter(|&least| least <= run.iterations).max().unwrap_or(0);
            self.rounds.entry(range).or_default()[usize::from(run.x.is_none())] += 1;
            *self.endings.entry(ending(run)).or_default() += 1;
            if run.x.is_none() {
                let failed = self.failed.entry((run.reason, last_codes(run))).or_default();
                failed.fits += 1;
                failed.columns.extend(run.round.iter().map(|reason| reason.column()).filter(|&column| column > 0));
            }
        }
    }

    /// Every equation of a sound job counts as seen, and as worked in a group of a fitted job
    /// that took rounds; `held` is in no group, so the job's own rounds decide.
    fn add_kinds(&mut self, seen: &Seen) {
        for e in seen.build.iter().flat_map(|b| &b.equations) {
            self.kinds.entry(e.kind).or_default()[0] += 1;
            if e.kind == Kind::Held {
                self.kinds.entry(e.kind).or_default()[1] += usize::from(seen.worked());
            }
        }
        for (kinds, run) in &seen.groups {
            if seen.status == FITTED && run.iterations > 0 {
                kinds.iter().for_each(|&k| self.kinds.entry(k).or_default()[1] += 1);
            }
        }
    }

    fn print(&self, output: &mut impl Write) -> std::io::Result<()> {
        let heads: String = STATUSES.iter().map(|s| format!(" {s} |")).collect();
        writeln!(output, "| class | jobs |{heads}\n|---|---|{}", "---|".repeat(STATUSES.len()))?;
        for (class, statuses) in &self.classes {
            let cells: String = STATUSES.iter().map(|s| format!(" {} |", statuses.get(s).unwrap_or(&0))).collect();
            writeln!(output, "| {class} | {} |{cells}", statuses.values().sum::<usize>())?;
        }
        let totals: String = STATUSES.iter().map(|s| format!(" {} |", self.classes.values().filter_map(|c| c.get(s)).sum::<usize>())).collect();
        writeln!(output, "| all | {} |{totals}", self.classes.values().flat_map(BTreeMap::values).sum::<usize>())?;
        writeln!(output, "\n| kind | equations in sound jobs | in groups fitted after iterations |\n|---|---|---|")?;
        for (kind, [seen, worked]) in &self.kinds {
            writeln!(output, "| {} | {seen} | {worked} |", kind.name())?;
        }
        writeln!(output, "\n| iterations from | groups converged | failed |\n|---|---|---|")?;
        for (least, [converged, failed]) in &self.rounds {
            writeln!(output, "| {least} | {converged} | {failed} |")?;
        }
        writeln!(output, "\n| ending of a group's fit | groups |\n|---|---|")?;
        for (ending, count) in &self.endings {
            writeln!(output, "| {ending:?} | {count} |")?;
        }
        writeln!(output, "\n| code and column of a failed group | codes of its last tries | groups | columns of these tries |\n|---|---|---|---|")?;
        for ((reason, codes), Failed { fits, columns }) in &self.failed {
            writeln!(output, "| {}, {} | {} | {fits} | {} |", reason.code(), reason.column(), list(codes), list(columns))?;
        }
        self.print_worst(output)?;
        writeln!(output, "\n{} sound jobs, {} of them fitted after iterations", self.sound, self.worked)
    }

    fn print_worst(&self, output: &mut impl Write) -> std::io::Result<()> {
        writeln!(output, "\n| class | fitted | worst moves | less than at the fit | over 1e-12 | infinite | largest finite |")?;
        writeln!(output, "|---|---|---|---|---|---|---|")?;
        for (class, moves) in &self.worst {
            writeln!(output, "{}", moves.row(class))?;
        }
        writeln!(output, "{}", self.worst.values().copied().fold(Moves::default(), Moves::plus).row("all"))
    }

    fn hold(&self) -> Result<(), String> {
        if 2 * self.worked <= self.sound {
            return Err("half of the sound jobs or fewer converge after iterations".to_string());
        }
        let missing = EQUATIONS.iter().find(|k| self.kinds.get(k).is_none_or(|[_, worked]| *worked == 0));
        missing.map_or(Ok(()), |kind| Err(format!("no {} in a group fitted after iterations", kind.name())))
    }
}

fn list<'a>(numbers: impl IntoIterator<Item = &'a usize>) -> String {
    numbers.into_iter().map(usize::to_string).collect::<Vec<_>>().join(", ")
}

pub fn of_jobs(input: &mut impl BufRead, output: &mut impl Write) -> Result<(), Box<dyn Error>> {
    let mut tally = Tally::default();
    while let Some(record) = pack::next(input)? {
        tally.add(record.class, &look(&record.text));
    }
    tally.print(output)?;
    output.flush()?;
    Ok(tally.hold()?)
}

/// A reply's sort: its first word, a status with its number; or that it is bare floats.
pub fn sort(reply: &str) -> &str {
    let first = reply.lines().next().unwrap_or("nothing");
    match first.split_once('=') {
        Some((key, _)) if key != "status" => key,
        _ if first.len() >= 16 => "floats",
        _ => first,
    }
}

pub fn of_calls(input: &mut impl BufRead, output: &mut impl Write) -> Result<(), Box<dyn Error>> {
    let mut sorts: BTreeMap<(String, String), usize> = BTreeMap::new();
    while let Some(record) = pack::next(input)? {
        let reply = calls::answer(&record.text)?;
        *sorts.entry((record.class, sort(&reply).to_string())).or_default() += 1;
    }
    writeln!(output, "| class | reply | calls |\n|---|---|---|")?;
    for ((class, sort), count) in sorts {
        writeln!(output, "| {class} | {sort} | {count} |")?;
    }
    Ok(())
}

/// Whether a fit has this ending, or fails with these as the last of its tries' codes (`2,4`).
fn ends_in(run: &Run, wanted: &str) -> bool {
    match wanted.split(',').map(str::parse).collect::<Result<Vec<usize>, _>>() {
        Ok(codes) => run.x.is_none() && last_codes(run).ends_with(&codes),
        Err(_) => format!("{:?}", ending(run)) == wanted,
    }
}

/// The jobs of a seed in which some group's fit ends so: index, class and length of each.
pub fn find(output: &mut impl Write, wanted: &str, seed: u64, count: u64) -> Result<(), Box<dyn Error>> {
    for index in 0..count {
        let made = generate::job(seed, index);
        if look(&made.text).groups.iter().any(|(_, run)| ends_in(run, wanted)) {
            writeln!(output, "{index} {} {}", made.class, made.text.len())?;
        }
    }
    Ok(())
}
