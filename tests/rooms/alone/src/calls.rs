//! Recorded single calls, run again: the reply as it is recorded, written from what the proved code leaves, by raw bits.

use std::error::Error;
use std::io::BufRead;
use std::process::ExitCode;

use job::{Build, Call, State, pack};
use rooms::{NO_GROUP, NO_PIVOT, NOT_FINITE, REFUSED, SOLVED, Sweep, Tally, one_nan};
use sakiromuk::{AREA, Fitter};

/// What the lent places of a `lent` call hold before it.
const LENT: f64 = 7.0;
const TOO_SHORT: usize = job::TOO_SHORT as usize;

/// A record that is no call, or is cut short, ends it with an error.
pub fn replay(input: &mut impl BufRead) -> Result<ExitCode, Box<dyn Error>> {
    println!("recorded calls");
    let mut tally = Tally::default();
    while let Some((text, recorded)) = pack::next_answered(input)? {
        let reply = answer(job::read_call(&text)?)?;
        tally.note(reply.as_bytes() == recorded, || {
            format!("{}\nrecorded\n{}answered\n{reply}", String::from_utf8_lossy(&text), String::from_utf8_lossy(&recorded))
        });
    }
    Ok(tally.end())
}

fn answer(call: Call) -> Result<String, String> {
    Ok(match call {
        Call::Sqrt(v) => lines(v.into_iter().map(rooms::sqrt)),
        Call::MaxAbs(v) => lines([rooms::max_abs(&v)]),
        Call::Norm2(v) => lines([rooms::norm2(&v)]),
        Call::Eliminate(n, a, b) => eliminate(n, a, b),
        Call::EliminateZeroSum(..) => return Err("sums start from -0.0 here".to_string()),
        Call::NullSpace { rows, columns, matrix, out } => null_space(rows, columns, &matrix, out),
        Call::Level(build) => level(&build),
        Call::Groups(build) => groups(&build).iter().map(|(p, e)| format!("p={}\ne={}\n", list(p), list(e))).collect(),
        Call::Rows(build) => groups(&build).iter().map(|(p, e)| rows(&build, p, e)).collect(),
        Call::Lent { build, out, areas } => lent(&build, out, areas),
    })
}

fn digits(v: f64) -> String {
    format!("{:016x}", v.to_bits())
}

fn lines(values: impl IntoIterator<Item = f64>) -> String {
    values.into_iter().map(|v| digits(v) + "\n").collect()
}

fn list(numbers: &[usize]) -> String {
    numbers.iter().map(usize::to_string).collect::<Vec<_>>().join(",")
}

fn eliminate(n: usize, mut a: Vec<f64>, mut b: Vec<f64>) -> String {
    let first = match rooms::solve_dense(&mut a, &mut b, n) {
        SOLVED => "answer".to_string(),
        NOT_FINITE => "notfinite".to_string(),
        answer @ NO_PIVOT.. => format!("nopivot={}", answer - NO_PIVOT),
        status => format!("status={status}"),
    };
    format!("{first}\n{}{}", lines(a), lines(b))
}

fn null_space(rows: usize, columns: usize, matrix: &[f64], mut out: Vec<f64>) -> String {
    let first = match rooms::null_space(matrix, rows, columns, &mut vec![0.0; AREA], &mut out) {
        rank @ ..REFUSED => format!("rank={rank}"),
        refusal => format!("status={}", refusal - REFUSED),
    };
    format!("{first}\n{}", lines(out))
}

/// Levelling only copies, so a NaN keeps its bits here.
fn level(build: &Build) -> String {
    let mut at: Vec<f64> = build.points.iter().flat_map(|p| p.start).collect();
    rooms::level(&job::write(build), &mut at);
    at.chunks(2).map(|p| format!("{} {}\n", digits(p[0]), digits(p[1]))).collect()
}

/// The points and the equations of each group.
fn groups(build: &Build) -> Vec<(Vec<usize>, Vec<usize>)> {
    let (mut points, mut equations) = ([NO_GROUP; job::MAX_POINTS], [NO_GROUP; job::MAX_EQUATIONS]);
    let count = rooms::groups(&job::write(build), &mut points, &mut equations);
    let of = |table: &[usize], group| (0..table.len()).filter(|&i| table[i] == group).collect();
    (0..count).map(|group| (of(&points, group), of(&equations, group))).collect()
}

/// Each residual of a group where its fit starts, with its gradient over all the group's coordinates. Inside a fit only the value of
/// these is promised: here, and only here, all NaNs count as one.
fn rows(build: &Build, points: &[usize], equations: &[usize]) -> String {
    let coordinates = 2 * points.len();
    let mut places = vec![0; job::MAX_POINTS];
    points.iter().enumerate().for_each(|(place, &p)| places[p] = place as u8);
    let x = points.iter().flat_map(|&p| start(build, p)).collect();
    let columns = (0..coordinates as u8).collect();
    let sweep = Sweep { text: job::write(build), chosen: equations.to_vec(), places, columns, free: coordinates, x };
    let (mut r, mut j) = (vec![0.0; job::MAX_ROWS], vec![0.0; job::MAX_ROWS * coordinates]);
    let (count, again) = (sweep.residuals(&mut r, 1), sweep.jacobian(&mut j, 1));
    if count != again {
        return format!("{count} residuals and {again} gradients\n");
    }
    let as_one = |v: &f64| format!("{:016x}", one_nan(*v));
    let row = |(r, d): (&f64, &[f64])| format!("r={}\nd={}\n", as_one(r), d.iter().map(as_one).collect::<Vec<_>>().join(","));
    r[..count].iter().zip(j.chunks(coordinates)).map(row).collect()
}

/// Where the fit of a group starts.
fn start(build: &Build, point: usize) -> [f64; 2] {
    let at = match build.points[point].state {
        State::Placed(at) => at,
        State::Free | State::Kept => build.points[point].start,
    };
    [0, 1].map(|axis| (at[axis] - build.centre[axis]) / build.size)
}

/// The library call itself, every place of the output and the areas lent as 7.0: the reply, the output's places, and of each area how
/// many places at its head are +0.0 and how many after these still 7.0.
fn lent(build: &Build, out: usize, areas: [usize; 3]) -> String {
    let (text, mut out, mut areas) = (job::write(build), vec![LENT; out], areas.map(|n| vec![LENT; n]));
    let [p, q, r] = &mut areas;
    let mut reply = match rooms::solve(&text, &mut out, p, q, r) {
        TOO_SHORT => format!("status={TOO_SHORT}\n"),
        number => {
            let printed = String::from_utf8_lossy(Fitter::new().run(&text)).into_owned();
            if printed.starts_with(&format!("status={number}\n")) { printed } else { format!("{number}, and printed is {printed}") }
        }
    };
    reply.extend(out.iter().map(|v| format!("o={}\n", digits(*v))));
    for area in &areas {
        let zeroed = area.iter().take_while(|v| v.to_bits() == 0).count();
        let unchanged = area[zeroed..].iter().filter(|v| v.to_bits() == LENT.to_bits()).count();
        reply += &format!("a={zeroed},{unchanged}\n");
    }
    reply
}
