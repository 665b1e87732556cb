//! The original Rust as the judge: see tests/README.md for what each word does.

use std::error::Error;
use std::io::{self, BufRead, Read, Write};
use std::process::ExitCode;

use job::pack;
use oracle::generate::Made;
use oracle::{answer, calls, figures, generate, record, sketches, time};

type Outcome = Result<(), Box<dyn Error>>;

fn main() -> ExitCode {
    let args: Vec<String> = std::env::args().skip(1).collect();
    let words: Vec<&str> = args.iter().map(String::as_str).collect();
    match dispatch(&words) {
        Ok(()) => ExitCode::SUCCESS,
        Err(e) => {
            eprintln!("oracle: {e}");
            ExitCode::FAILURE
        }
    }
}

fn dispatch(words: &[&str]) -> Outcome {
    let (input, output) = (&mut io::stdin().lock(), &mut io::BufWriter::new(io::stdout().lock()));
    match words {
        [] => one_job(input, output)?,
        ["jobs"] => jobs(input, output)?,
        ["calls"] => calls(input, output)?,
        ["generate", "jobs", seed, count] => generate(output, generate::job, seed, count)?,
        ["generate", "calls", seed, count] => generate(output, generate::call, seed, count)?,
        ["generate", "strings", seed, count] => generate(output, generate::string, seed, count)?,
        ["generate", "job", seed, index] => output.write_all(&generate::job(seed.parse()?, index.parse()?).text)?,
        ["generate", "call", seed, index] => output.write_all(&generate::call(seed.parse()?, index.parse()?).text)?,
        ["damage", seed] => put_all(output, generate::damaged(seed.parse()?, &read_all(input)?))?,
        ["pick", index] => pick(input, output, index.parse()?)?,
        ["figures", "jobs"] => figures::of_jobs(input, output)?,
        ["figures", "calls"] => figures::of_calls(input, output)?,
        ["find", ending, seed, count] => figures::find(output, ending, seed.parse()?, count.parse()?)?,
        ["record", "jobs", file, seed, extra @ ..] => record::jobs(output, file.as_ref(), seed.parse()?, extra)?,
        ["record", "calls", file, seed, extra @ ..] => record::calls(output, file.as_ref(), seed.parse()?, extra)?,
        ["sketches", seed, count] => writeln!(output, "{} sketches answered alike", sketches::agree(seed.parse()?, count.parse()?)?)?,
        ["time", "job", runs] => time::job(output, &read_all(input)?, runs.parse()?)?,
        ["time", "calls", runs] => time::calls(output, runs.parse()?)?,
        ["time", "sweep"] => output.write_all(&job::write(&generate::sweep()))?,
        _ => return Err(format!("no such words: {words:?}").into()),
    }
    output.flush()?;
    Ok(())
}

/// One job in, its reply out.
fn one_job(input: &mut impl Read, output: &mut impl Write) -> Outcome {
    output.write_all(judged(0, &read_all(input)?).as_bytes())?;
    Ok(())
}

fn read_all(input: &mut impl Read) -> io::Result<Vec<u8>> {
    let mut text = Vec::new();
    input.read_to_end(&mut text)?;
    Ok(text)
}

/// One text out of many, by its index.
fn pick(input: &mut impl BufRead, output: &mut impl Write, index: usize) -> Outcome {
    for _ in 0..index {
        pack::next(input)?;
    }
    let record = pack::next(input)?.ok_or("there are not so many texts")?;
    output.write_all(&record.text)?;
    Ok(())
}

/// Many jobs in, their replies out.
fn jobs(input: &mut impl BufRead, output: &mut impl Write) -> Outcome {
    let mut index = 0;
    while let Some(record) = pack::next(input)? {
        pack::put(output, judged(index, &record.text).as_bytes())?;
        index += 1;
    }
    Ok(())
}

/// The reply to job `index`. The side channel is standard error: a line `nan JOB GROUP` for each
/// group whose freedom the comparison must leave alone.
fn judged(index: usize, text: &[u8]) -> String {
    let checked = answer::checked(text);
    for group in checked.nan_groups {
        eprintln!("nan {index} {group}");
    }
    job::reply(&checked.answer)
}

/// Many single calls in, their replies out.
fn calls(input: &mut impl BufRead, output: &mut impl Write) -> Outcome {
    while let Some(record) = pack::next(input)? {
        pack::put(output, calls::answer(&record.text)?.as_bytes())?;
    }
    Ok(())
}

/// `count` texts of a seed.
fn generate(output: &mut impl Write, make: impl Fn(u64, u64) -> Made, seed: &str, count: &str) -> Outcome {
    let (seed, count): (u64, u64) = (seed.parse()?, count.parse()?);
    put_all(output, (0..count).map(|index| make(seed, index)))
}

/// Texts, each with its class.
fn put_all(output: &mut impl Write, texts: impl IntoIterator<Item = Made>) -> Outcome {
    for made in texts {
        pack::put_classed(output, made.class, &made.text)?;
    }
    Ok(())
}
