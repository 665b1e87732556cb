//! A single call, from the text that tests/README.md describes.

use crate::{Build, Equation, Field, Kind, Point, State, read, read_form};

pub enum Call {
    Sqrt(Vec<f64>),
    MaxAbs(Vec<f64>),
    Norm2(Vec<f64>),
    /// Shape, matrix and right side.
    Eliminate(usize, Vec<f64>, Vec<f64>),
    /// The same with sums that start from +0.0.
    EliminateZeroSum(usize, Vec<f64>, Vec<f64>),
    NullSpace {
        rows: usize,
        columns: usize,
        matrix: Vec<f64>,
        out: Vec<f64>,
    },
    /// A build of Level equations alone; what is levelled is where its points start.
    Level(Build),
    Groups(Build),
    Rows(Build),
    /// A well-formed build, and the lengths of the output and of the three work areas.
    Lent {
        build: Build,
        out: usize,
        areas: [usize; 3],
    },
}

/// The call that `text` holds; a text outside the grammar is an error in words.
pub fn read_call(text: &[u8]) -> Result<Call, String> {
    let text = std::str::from_utf8(text).map_err(|e| format!("not a call: {e}"))?;
    let (head, body) = text.split_once('\n').ok_or("a call has a first line")?;
    let (name, numbers) = head.split_once(' ').unwrap_or((head, ""));
    let numbers: Vec<usize> = numbers.split_terminator(' ').map(decimal).collect::<Result<_, _>>()?;
    let mut words = Words { rest: body };
    let call = match (name, &numbers[..]) {
        ("sqrt", &[n]) => Call::Sqrt(words.floats(n)?),
        ("maxabs", &[n]) => Call::MaxAbs(words.floats(n)?),
        ("norm2", &[n]) => Call::Norm2(words.floats(n)?),
        ("eliminate", &[n, a, b]) => Call::Eliminate(n, words.floats(a)?, words.floats(b)?),
        ("eliminate-zerosum", &[n, a, b]) => Call::EliminateZeroSum(n, words.floats(a)?, words.floats(b)?),
        ("nullspace", &[rows, columns, m, out]) => Call::NullSpace { rows, columns, matrix: words.floats(m)?, out: words.floats(out)? },
        ("level", &[points, equations]) => Call::Level(words.levels(points, equations)?),
        ("groups", &[]) => Call::Groups(words.job(read)?),
        ("rows", &[]) => Call::Rows(words.job(read)?),
        ("lent", &[out, a, b, c]) => Call::Lent { build: words.job(read_form)?, out, areas: [a, b, c] },
        _ => return Err(format!("no such call: {head:?}")),
    };
    if words.rest.is_empty() { Ok(call) } else { Err(format!("the call goes on: {:?}", words.rest)) }
}

/// What is left of a call's text.
struct Words<'a> {
    rest: &'a str,
}

impl<'a> Words<'a> {
    fn next(&mut self) -> Result<&'a str, String> {
        let end = self.rest.find([' ', '\n']).ok_or("the call ends too soon")?;
        let (word, rest) = self.rest.split_at(end);
        self.rest = &rest[1..];
        Ok(word)
    }

    fn float(&mut self) -> Result<f64, String> {
        let word = self.next()?;
        let bits = u64::from_str_radix(word, 16).ok().filter(|_| word.len() == 16);
        bits.map(f64::from_bits).ok_or_else(|| format!("not a float: {word:?}"))
    }

    fn floats(&mut self, count: usize) -> Result<Vec<f64>, String> {
        (0..count).map(|_| self.float()).collect()
    }

    /// The rest as the text of a job.
    fn job(&mut self, read: fn(&[u8]) -> Result<Build, u8>) -> Result<Build, String> {
        let text = std::mem::take(&mut self.rest);
        read(text.as_bytes()).map_err(|status| format!("the job of a call has the status {status}"))
    }

    fn levels(&mut self, points: usize, equations: usize) -> Result<Build, String> {
        Ok(Build {
            centre: [0.0; 2],
            size: 1.0,
            points: (0..points).map(|_| self.point()).collect::<Result<_, _>>()?,
            lines: Vec::new(),
            equations: (0..equations).map(|_| self.level(points)).collect::<Result<_, _>>()?,
            measures: Vec::new(),
        })
    }

    fn point(&mut self) -> Result<Point, String> {
        let start = [self.float()?, self.float()?];
        let state = match self.next()? {
            "free" => State::Free,
            "fixed" => State::Kept,
            other => return Err(format!("a point is free or fixed, not {other:?}")),
        };
        Ok(Point { start, state })
    }

    fn level(&mut self, points: usize) -> Result<Equation, String> {
        let (a, b) = (self.number_below(points)?, self.number_below(points)?);
        let axis = match self.next()? {
            "x" => 0,
            "y" => 1,
            other => return Err(format!("an axis is x or y, not {other:?}")),
        };
        Ok(Equation { kind: Kind::Level, fields: vec![Field::Point(a), Field::Point(b), Field::Axis(axis)] })
    }

    fn number_below(&mut self, count: usize) -> Result<usize, String> {
        let number = decimal(self.next()?)?;
        if number < count { Ok(number) } else { Err(format!("no point {number}")) }
    }
}

fn decimal(word: &str) -> Result<usize, String> {
    word.parse().map_err(|_| format!("not a number: {word:?}"))
}
