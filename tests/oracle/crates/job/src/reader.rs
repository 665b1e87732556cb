//! Reads the text of a job, refusing in the order of 01: its length, the form of the four count
//! lines, the counts' bounds, the rest of the form; then the numbers, the references, the rows.

use crate::kinds::kind_named;
use crate::{
    BAD_FORM, Build, Contact, EQUATIONS, Equation, Field, Kind, MAX_EQUATIONS, MAX_LINES, MAX_MEASURES, MAX_POINTS, MAX_TEXT, MEASURES, Point,
    Radius, Slot, State, Status, TOO_LONG, TOO_MANY, check,
};

/// The build that `text` holds, or the number it is refused with.
pub fn read(text: &[u8]) -> Result<Build, Status> {
    let build = read_form(text)?;
    check(&build)?;
    Ok(build)
}

/// The build as written, its numbers and references not yet looked at.
pub fn read_form(text: &[u8]) -> Result<Build, Status> {
    if text.len() > MAX_TEXT {
        return Err(TOO_LONG);
    }
    let mut cursor = Cursor { rest: text };
    let counts = cursor.counts().ok_or(BAD_FORM)?;
    let bounds = [MAX_POINTS, MAX_LINES, MAX_EQUATIONS, MAX_MEASURES];
    if counts.iter().zip(bounds).any(|(&count, bound)| count > bound) {
        return Err(TOO_MANY);
    }
    let build = cursor.items(counts).ok_or(BAD_FORM)?;
    if cursor.rest.is_empty() { Ok(build) } else { Err(BAD_FORM) }
}

/// What is still unread. Every reading answers `None` where the form is broken.
struct Cursor<'a> {
    rest: &'a [u8],
}

impl<'a> Cursor<'a> {
    fn counts(&mut self) -> Option<[usize; 4]> {
        Some([self.count("points=")?, self.count("lines=")?, self.count("equations=")?, self.count("measures=")?])
    }

    fn count(&mut self, key: &str) -> Option<usize> {
        self.literal(key)?;
        let count = self.number()?;
        self.literal("\n")?;
        Some(count)
    }

    fn items(&mut self, [points, lines, equations, measures]: [usize; 4]) -> Option<Build> {
        self.literal("centre=")?;
        let centre = self.pair()?;
        self.literal("\nsize=")?;
        let size = self.float()?;
        self.literal("\n")?;
        Some(Build {
            centre,
            size,
            points: self.lines(points, "p=", Self::point)?,
            lines: self.lines(lines, "l=", Self::line)?,
            equations: self.lines(equations, "e=", |c| c.equation(&EQUATIONS))?,
            measures: self.lines(measures, "m=", |c| c.equation(&MEASURES))?,
        })
    }

    /// `count` lines of one key.
    fn lines<T>(&mut self, count: usize, key: &str, value: impl Fn(&mut Self) -> Option<T>) -> Option<Vec<T>> {
        (0..count)
            .map(|_| {
                self.literal(key)?;
                let item = value(self)?;
                self.literal("\n")?;
                Some(item)
            })
            .collect()
    }

    fn point(&mut self) -> Option<Point> {
        let start = self.pair()?;
        self.literal(",")?;
        let state = match self.word() {
            b"free" => State::Free,
            b"kept" => State::Kept,
            b"at" => {
                self.literal(",")?;
                State::Placed(self.pair()?)
            }
            _ => return None,
        };
        Some(Point { start, state })
    }

    fn line(&mut self) -> Option<[usize; 2]> {
        let from = self.number()?;
        self.literal(",")?;
        Some([from, self.number()?])
    }

    /// A kind and its fields. A measure is written without its value, which is 0.
    fn equation(&mut self, allowed: &[Kind]) -> Option<Equation> {
        let kind = kind_named(self.word(), allowed)?;
        let measure = allowed == MEASURES;
        let fields = kind
            .slots()
            .iter()
            .map(|&slot| {
                if measure && slot == Slot::Value {
                    return Some(Field::Value(0.0));
                }
                self.literal(",")?;
                self.field(slot)
            })
            .collect::<Option<_>>()?;
        Some(Equation { kind, fields })
    }

    fn field(&mut self, slot: Slot) -> Option<Field> {
        Some(match slot {
            Slot::Point => Field::Point(self.number()?),
            Slot::Line => Field::Line(self.number()?),
            Slot::Axis => Field::Axis(match self.word() {
                b"x" => 0,
                b"y" => 1,
                _ => return None,
            }),
            Slot::Value => Field::Value(self.float()?),
            Slot::Side => Field::Side(side(self.word())?),
            Slot::Radius => Field::Radius(self.radius()?),
            Slot::Contact => Field::Contact(match self.word() {
                b"o" => Contact::Outside,
                sign => Contact::Inside(side(sign)?),
            }),
        })
    }

    fn radius(&mut self) -> Option<Radius> {
        let form = self.word();
        self.literal(",")?;
        match form {
            b"p" => Some(Radius::Point(self.number()?)),
            b"v" => Some(Radius::Value(self.float()?)),
            _ => None,
        }
    }

    fn pair(&mut self) -> Option<[f64; 2]> {
        let first = self.float()?;
        self.literal(",")?;
        Some([first, self.float()?])
    }

    /// Sixteen small hexadecimal digits, the bits of a float.
    fn float(&mut self) -> Option<f64> {
        let word = self.word();
        let digits = word.len() == 16 && word.iter().all(|b| matches!(b, b'0'..=b'9' | b'a'..=b'f'));
        if !digits {
            return None;
        }
        let bits = word.iter().fold(0u64, |bits, &b| bits << 4 | u64::from(if b <= b'9' { b - b'0' } else { b - b'a' + 10 }));
        Some(f64::from_bits(bits))
    }

    /// One to five digits, no leading zero except 0 itself.
    fn number(&mut self) -> Option<usize> {
        let word = self.word();
        let digits = (1..=5).contains(&word.len()) && word.iter().all(u8::is_ascii_digit);
        if !digits || (word.len() > 1 && word[0] == b'0') {
            return None;
        }
        Some(word.iter().fold(0, |n, &b| 10 * n + usize::from(b - b'0')))
    }

    /// The bytes up to the next comma or newline, which stays.
    fn word(&mut self) -> &'a [u8] {
        let end = self.rest.iter().position(|&b| b == b',' || b == b'\n').unwrap_or(self.rest.len());
        let (word, rest) = self.rest.split_at(end);
        self.rest = rest;
        word
    }

    fn literal(&mut self, expected: &str) -> Option<()> {
        self.rest = self.rest.strip_prefix(expected.as_bytes())?;
        Some(())
    }
}

fn side(word: &[u8]) -> Option<f64> {
    match word {
        b"+" => Some(1.0),
        b"-" => Some(-1.0),
        _ => None,
    }
}
