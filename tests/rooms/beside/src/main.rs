//! Single rooms beside the Rust, bit by bit: tests/README.md says what each word does.

mod draw;
mod groups;
mod level;
mod rows;
mod solver;

use std::error::Error;
use std::process::ExitCode;

fn main() -> Result<ExitCode, Box<dyn Error>> {
    let words: Vec<String> = std::env::args().skip(1).collect();
    let [name, count, seed] = &words[..] else { return Err(format!("takes a comparison, COUNT and SEED, not {words:?}").into()) };
    let (count, seed) = (count.parse()?, seed.parse()?);
    println!("{name}: seed {seed}");
    Ok(match name.as_str() {
        "groups" => groups::compare(count, seed),
        "level" => level::compare(count, seed),
        "rows" => rows::compare(count, seed),
        "solver" => solver::compare(count, seed),
        _ => return Err(format!("no such comparison: {name}").into()),
    })
}
