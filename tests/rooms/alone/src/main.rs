//! What is held without the Rust, and the proved fitter on packed jobs: tests/README.md says what each word does.

mod calls;
mod floats;
mod jobs;
mod lent;
mod root;

use std::error::Error;
use std::io;
use std::process::ExitCode;

fn main() -> Result<ExitCode, Box<dyn Error>> {
    let args: Vec<String> = std::env::args().skip(1).collect();
    let words: Vec<&str> = args.iter().map(String::as_str).collect();
    let (input, output) = (&mut io::stdin().lock(), &mut io::BufWriter::new(io::stdout().lock()));
    match words[..] {
        ["floats", count, seed] => Ok(floats::compare(count.parse()?, seed.parse()?)),
        ["root", count, seed] => Ok(root::compare(count.parse()?, seed.parse()?)),
        ["calls"] => calls::replay(input),
        ["recorded"] => jobs::replay(input),
        ["lent"] => lent::places(input),
        ["nan"] => Ok(lent::nan()),
        ["jobs"] => jobs::replies(input, output, jobs::reply),
        ["slices"] => jobs::replies(input, output, jobs::reply_from_slice),
        ["time", runs] => jobs::time(input, runs.parse()?),
        _ => Err(format!("no such words: {words:?}").into()),
    }
}
