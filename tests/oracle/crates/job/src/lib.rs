//! A job: the build it holds, its text, its refusals and its reply; and the text of a single call. Written from document 01
//! and the project's readings of it alone, as a second opinion on the project's own reader;
//! nothing here knows the Rust.

mod call;
mod check;
mod kinds;
pub mod pack;
mod reader;
mod reply;
mod writer;

pub use call::{Call, read_call};
pub use check::{check, rows};
pub use kinds::{EQUATIONS, Kind, MEASURES, Slot};
pub use reader::{read, read_form};
pub use reply::{Answer, Failure, Fitted, Group, Reason, reply};
pub use writer::write;

pub const MAX_TEXT: usize = 16_384;
pub const MAX_POINTS: usize = 40;
pub const MAX_LINES: usize = 40;
pub const MAX_EQUATIONS: usize = 40;
pub const MAX_MEASURES: usize = 20;
pub const MAX_ROWS: usize = 64;
pub const MAX_MAGNITUDE: f64 = 1_000_000.0;
pub const MIN_SIZE: f64 = 1.0 / 1024.0;

/// The number a refused job ends in.
pub type Status = u8;
pub const TOO_LONG: Status = 1;
pub const BAD_FORM: Status = 2;
pub const TOO_MANY: Status = 3;
pub const BAD_NUMBER: Status = 4;
pub const MISSING: Status = 5;
pub const TOO_MANY_ROWS: Status = 6;
pub const TOO_SHORT: Status = 9;

#[derive(Clone, Copy, Debug, PartialEq)]
pub enum State {
    Free,
    Kept,
    Placed([f64; 2]),
}

#[derive(Clone, Copy, Debug, PartialEq)]
pub struct Point {
    pub start: [f64; 2],
    pub state: State,
}

#[derive(Clone, Copy, Debug, PartialEq)]
pub enum Radius {
    Point(usize),
    Value(f64),
}

#[derive(Clone, Copy, Debug, PartialEq)]
pub enum Contact {
    Outside,
    Inside(f64),
}

/// One field of an equation, of the sort its kind asks for at that place (`Slot`).
#[derive(Clone, Copy, Debug, PartialEq)]
pub enum Field {
    Point(usize),
    Line(usize),
    /// 0 for x, 1 for y.
    Axis(usize),
    Value(f64),
    /// +1 or −1.
    Side(f64),
    Radius(Radius),
    Contact(Contact),
}

#[derive(Clone, Debug, PartialEq)]
pub struct Equation {
    pub kind: Kind,
    pub fields: Vec<Field>,
}

#[derive(Clone, Debug, PartialEq)]
pub struct Build {
    pub centre: [f64; 2],
    pub size: f64,
    pub points: Vec<Point>,
    pub lines: Vec<[usize; 2]>,
    pub equations: Vec<Equation>,
    /// Equations whose value is 0.
    pub measures: Vec<Equation>,
}

/// The sixteen digits of a float that is handed out: every NaN has one spelling.
pub fn hex(v: f64) -> String {
    let bits = if v.is_nan() { 0x7ff8_0000_0000_0000 } else { v.to_bits() };
    format!("{bits:016x}")
}
