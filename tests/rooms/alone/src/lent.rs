//! What a call may touch of what it is lent, and the bits of a NaN that it hands out.

use std::error::Error;
use std::io::Read;
use std::process::ExitCode;

use rooms::{NAN, Tally, same};
use sakiromuk::{AREA, Fitter, REPLY, run_in};

use crate::jobs;

/// How many places an area needs, and the lengths that each of the three has in turn.
const NEEDED: usize = 6_400;
const LENGTHS: [usize; 4] = [6_399, 6_400, 6_401, 8_192];
/// What is lent is the front of something longer, so that what is touched behind it shows.
const WHOLE: usize = 9_000;
const OUT: usize = 2 * job::MAX_POINTS + job::MAX_MEASURES;
/// What the places of a reply hold before a call.
const BYTE: u8 = 0xaa;

/// One job in, oracle/cases/full.job: 64 rows on 80 free coordinates in one group, which fit, and one of them is on the length of the last
/// line. Where that line has no length the job fails; where its end is no point the job is refused.
pub fn places(input: &mut impl Read) -> Result<ExitCode, Box<dyn Error>> {
    let (mut text, mut tally) = (Vec::new(), Tally::default());
    input.read_to_end(&mut text)?;
    println!("lent places");
    tally.note(AREA == NEEDED, || format!("the package lends areas of {AREA}"));
    let mut build = job::read(&text).map_err(|status| format!("the job is refused with {status}"))?;
    let [from, to] = build.lines.pop().ok_or("the job has no line")?;
    let ends = [(to, 0, "status=0\ngroups=1\nfreedom=16\n"), (from, 7, "status=7\n"), (build.points.len(), 5, "status=5\n")];
    for (to, number, begins) in ends {
        build.lines.push([from, to]);
        let text = job::write(&build);
        build.lines.pop();
        let reply = jobs::reply(&mut Fitter::new(), &text);
        tally.note(reply.starts_with(begins), || format!("not {begins}but {reply}"));
        for k in 0..3 {
            for length in LENGTHS {
                let mut lengths = [NEEDED; 3];
                lengths[k] = length;
                let (number, reply) = if length < NEEDED { (9, "status=9\n") } else { (number, &reply[..]) };
                run(&mut tally, &text, lengths, number, reply);
            }
        }
        no_room(&mut tally, &text, reply.len());
    }
    Ok(tally.end())
}

/// A job with areas of these lengths, by its text and by the library call: the number that it ends in, the reply, and every place as it is
/// left, those too that are not lent.
fn run(tally: &mut Tally, text: &[u8], lengths: [usize; 3], number: usize, reply: &str) {
    let mut hold = |holds: bool, what: &str| tally.note(holds, || format!("{what} of a job that ends in {number} with areas of {lengths:?}"));
    let (mut out_left, mut area_left) = (before(), before());
    out_left.iter_mut().zip(handed_out(reply)).for_each(|(place, v)| *place = v);
    if number == 0 || number == 7 {
        area_left[..NEEDED].fill(0.0);
    }

    let (mut bytes, mut areas) = (vec![BYTE; WHOLE], [before(), before(), before()]);
    let [p, q, r] = fronts(&mut areas, lengths);
    let n = run_in(text, &mut bytes[..REPLY], p, q, r);
    hold(&bytes[..n] == reply.as_bytes(), "the reply");
    hold(bytes[n..].iter().all(|&b| b == BYTE), "the reply's rest");
    hold(areas.iter().all(|area| same(area, &area_left)), "an area");

    let (mut out, mut areas) = (before(), [before(), before(), before()]);
    let [p, q, r] = fronts(&mut areas, lengths);
    hold(rooms::solve(text, &mut out[..OUT], p, q, r) == number, "the library call's number");
    hold(same(&out, &out_left), "the library call's output");
    hold(areas.iter().all(|area| same(area, &area_left)), "the library call's area");
}

/// What the places of an output or an area hold before a call: each a number of its own.
fn before() -> Vec<f64> {
    (0..WHOLE).map(|i| i as f64 + 0.5).collect()
}

fn fronts([p, q, r]: &mut [Vec<f64>; 3], lengths: [usize; 3]) -> [&mut [f64]; 3] {
    [&mut p[..lengths[0]], &mut q[..lengths[1]], &mut r[..lengths[2]]]
}

/// The numbers in the lines of a reply that hold the output; where nothing is handed out there are none.
fn handed_out(reply: &str) -> impl Iterator<Item = f64> {
    let lines = reply.lines().filter_map(|line| line.strip_prefix("x=").or(line.strip_prefix("m=")));
    lines.flat_map(|line| line.split(',')).map(|digits| f64::from_bits(u64::from_str_radix(digits, 16).expect("a float is its digits")))
}

/// A reply of `length` bytes where there is a byte of room too few.
fn no_room(tally: &mut Tally, text: &[u8], length: usize) {
    let (mut bytes, mut areas) = (vec![BYTE; length], [before(), before(), before()]);
    let [p, q, r] = &mut areas;
    tally.note(run_in(text, &mut bytes[..length - 1], p, q, r) == length, || "the length of a reply that has no room".to_string());
    tally.note(bytes.iter().all(|&b| b == BYTE), || "a reply that has no room is begun".to_string());
}

/// The distance of a point from a line of no length is a NaN: its bits in the output of the library call itself, on either side of the
/// line, and its spelling in the reply. No job is known of which a coordinate is a NaN: a try that makes one is never taken.
pub fn nan() -> ExitCode {
    let mut tally = Tally::default();
    println!("the bits of a NaN");
    for side in ["+", "-"] {
        let text = format!(
            "points=1\nlines=1\nequations=0\nmeasures=1\ncentre=0000000000000000,0000000000000000\nsize=3ff0000000000000\n\
             p=3ff0000000000000,0000000000000000,free\nl=0,0\nm=pointline,0,0,{side}\n"
        );
        let (mut out, mut areas) = (vec![1.5; 4], [before(), before(), before()]);
        let [p, q, r] = &mut areas;
        let number = rooms::solve(text.as_bytes(), &mut out, p, q, r);
        tally.note(number == 0, || format!("the call ends in {number}"));
        let bits: Vec<u64> = out.iter().map(|v| v.to_bits()).collect();
        tally.note(bits == [1f64.to_bits(), 0, NAN, 1.5f64.to_bits()], || format!("the output is {bits:016x?}"));
        let reply = "status=0\ngroups=0\nfreedom=2\nworst=0000000000000000\nx=3ff0000000000000,0000000000000000\nm=7ff8000000000000\n";
        let printed = String::from_utf8_lossy(Fitter::new().run(text.as_bytes())).into_owned();
        tally.note(printed == reply, || printed.clone());
    }
    tally.end()
}
