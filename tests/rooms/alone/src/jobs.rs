//! The proved fitter on packed jobs.

use std::error::Error;
use std::hint::black_box;
use std::io::{BufRead, Read, Write};
use std::process::ExitCode;
use std::time::Instant;

use job::pack;
use rooms::Tally;
use sakiromuk::{AREA, Fitter};

type Outcome = Result<ExitCode, Box<dyn Error>>;

/// What the lent places hold before a call.
const LENT: f64 = 7.0;

/// The reply as the library prints it.
pub fn reply(fitter: &mut Fitter, text: &[u8]) -> String {
    String::from_utf8(fitter.run(text).to_vec()).expect("a reply is ASCII")
}

/// The same, held to what the library call itself leaves: each number by its bits in the output that is lent. Where the two differ, or
/// another place is touched, the reply says so.
pub fn reply_from_slice(fitter: &mut Fitter, text: &[u8]) -> String {
    let (mut out, mut areas) = (vec![LENT; 2 * job::MAX_POINTS + job::MAX_MEASURES], [(); 3].map(|()| vec![LENT; AREA]));
    let [p, q, r] = &mut areas;
    let number = rooms::solve(text, &mut out, p, q, r);
    let mut places = out.into_iter();
    let mut reply = String::new();
    for printed in self::reply(fitter, text).split_inclusive('\n') {
        let mut next = || format!("{:016x}", places.next().map_or(0, f64::to_bits));
        let left = match printed.as_bytes()[0] {
            b's' => format!("status={number}\n"),
            b'x' => format!("x={},{}\n", next(), next()),
            b'm' => format!("m={}\n", next()),
            _ => printed.to_string(),
        };
        reply += &if left == printed { left } else { format!("printed {printed}left {left}") };
    }
    // After a fit, and after one that fails, the areas hold +0.0; else nothing changes.
    let area = if number == 0 || number == 7 { 0.0 } else { LENT };
    if !all(places, LENT) || !areas.into_iter().all(|places| all(places, area)) {
        reply += "what is lent is not left as it should be\n";
    }
    reply
}

fn all(places: impl IntoIterator<Item = f64>, v: f64) -> bool {
    places.into_iter().all(|x| x.to_bits() == v.to_bits())
}

/// Packed jobs in, packed replies out.
pub fn replies(input: &mut impl BufRead, output: &mut impl Write, reply: fn(&mut Fitter, &[u8]) -> String) -> Outcome {
    let mut fitter = Fitter::new();
    while let Some(record) = pack::next(input)? {
        pack::put(output, reply(&mut fitter, &record.text).as_bytes())?;
    }
    output.flush()?;
    Ok(ExitCode::SUCCESS)
}

/// The recorded jobs, by what the library call leaves in the slices it is lent.
pub fn replay(input: &mut impl BufRead) -> Outcome {
    println!("recorded jobs");
    let (mut tally, mut fitter) = (Tally::default(), Fitter::new());
    while let Some((text, recorded)) = pack::next_answered(input)? {
        let reply = reply_from_slice(&mut fitter, &text);
        tally.note(reply.as_bytes() == recorded, || format!("the reply to\n{}is\n{reply}", String::from_utf8_lossy(&text)));
    }
    Ok(tally.end())
}

/// One job in: the best of nine rounds of so many runs, in ns.
pub fn time(input: &mut impl Read, runs: u32) -> Outcome {
    let (mut text, mut fitter, mut best) = (Vec::new(), Fitter::new(), f64::INFINITY);
    input.read_to_end(&mut text)?;
    for _ in 0..9 {
        let start = Instant::now();
        for _ in 0..runs {
            black_box(fitter.run(black_box(&text)));
        }
        best = best.min(start.elapsed().as_nanos() as f64 / f64::from(runs));
    }
    println!("{best:.1}");
    Ok(ExitCode::SUCCESS)
}
