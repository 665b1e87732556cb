//! A job, and its text.

use std::fmt::{self, Display, Write};

/// A point of a job, by its number.
#[derive(Clone, Copy, Debug, PartialEq, Eq, Hash, PartialOrd, Ord)]
pub struct PointId(pub(crate) usize);

/// A line of a job, by its number.
#[derive(Clone, Copy, Debug, PartialEq, Eq, Hash, PartialOrd, Ord)]
pub struct LineId(pub(crate) usize);

/// An equation of a job, by its number.
#[derive(Clone, Copy, Debug, PartialEq, Eq, Hash, PartialOrd, Ord)]
pub struct EquationId(pub(crate) usize);

/// A measure of a job, by its number.
#[derive(Clone, Copy, Debug, PartialEq, Eq, Hash, PartialOrd, Ord)]
pub struct MeasureId(pub(crate) usize);

macro_rules! numbered {
    ($($id:ident),+) => {$(
        impl $id {
            /// Its number, from 0 in the order in which they were added.
            pub fn number(self) -> usize {
                self.0
            }
        }
    )+};
}
numbered!(PointId, LineId, EquationId, MeasureId);

/// Whether a point may move.
#[derive(Clone, Copy, Debug, PartialEq)]
pub enum State {
    /// It moves.
    Free,
    /// It stays where it was drawn.
    Kept,
    /// It stands at this place, wherever it was drawn.
    Placed([f64; 2]),
}

/// One of the two axes.
#[derive(Clone, Copy, Debug, PartialEq, Eq)]
pub enum Axis {
    /// The first coordinate.
    X,
    /// The second coordinate.
    Y,
}

/// One of two sides. Along an axis plus is where the second point's coordinate is the greater. Of a line plus is the left, seen from its
/// first end towards its second with y upwards.
#[derive(Clone, Copy, Debug, PartialEq, Eq)]
pub enum Side {
    /// `+`
    Plus,
    /// `-`
    Minus,
}

/// The radius of a circle.
#[derive(Clone, Copy, Debug, PartialEq)]
pub enum Radius {
    /// As far as this point is from the centre.
    Point(PointId),
    /// A value, in units of the job's size.
    Value(f64),
}

/// How two circles touch.
#[derive(Clone, Copy, Debug, PartialEq, Eq)]
pub enum Contact {
    /// From outside: the centres are as far apart as the radii together.
    Outside,
    /// One inside the other: plus where the first has the greater radius, minus where the second has.
    Inside(Side),
}

/// An equation. Values and plain radii are in units of the job's size.
#[derive(Clone, Copy, Debug, PartialEq)]
pub enum Equation {
    /// Two points at one place.
    Coincident(PointId, PointId),
    /// Two points with the same x, or the same y. What is handed out has it exactly, unless both are fixed.
    Level(PointId, PointId, Axis),
    /// Two lines with one direction, or opposite ones.
    Parallel(LineId, LineId),
    /// Two lines at a right angle.
    Perpendicular(LineId, LineId),
    /// Two lines on one straight line.
    Collinear(LineId, LineId),
    /// Two lines of one length.
    Equal(LineId, LineId),
    /// No equation.
    Held,
    /// Two points so far apart.
    Distance(PointId, PointId, f64),
    /// Two points so far apart along an axis, the second on that side of the first.
    AxisDistance(PointId, PointId, Axis, f64, Side),
    /// A line so long.
    Length(LineId, f64),
    /// A point so far from a line, on that side of it.
    PointLine(PointId, LineId, f64, Side),
    /// A centre and two points equally far from it.
    ArcEnds(PointId, PointId, PointId),
    /// A centre and a point so far from it.
    Radius(PointId, PointId, f64),
    /// A line that touches a circle, whose centre is on that side of it.
    LineCircle(LineId, PointId, Radius, Side),
    /// Two circles that touch, each by its centre and radius.
    CircleCircle(PointId, Radius, PointId, Radius, Contact),
    /// A line, and an arc's centre and a point of it: the radius at the point is across the line.
    LineArcAt(LineId, PointId, PointId),
    /// Two arcs' centres and the point where they meet, the three on one straight line.
    ArcArcAt(PointId, PointId, PointId),
    /// A point halfway between the ends of a line.
    Midpoint(PointId, LineId),
    /// A point, an arc's centre and its ends: the point as far from the centre as the first end, and equally far from both ends.
    ArcMidpoint(PointId, PointId, PointId, PointId),
    /// Two points mirrored in a line.
    Symmetric(PointId, PointId, LineId),
    /// A centre and a point, a second centre and a point: two arcs of one radius.
    EqualRadius(PointId, PointId, PointId, PointId),
}

/// A measure, taken from the points that are handed out, in the units of their coordinates.
#[derive(Clone, Copy, Debug, PartialEq)]
pub enum Measure {
    /// How far two points are apart.
    Distance(PointId, PointId),
    /// How far the second point is from the first along an axis, towards that side; negative on the other.
    AxisDistance(PointId, PointId, Axis, Side),
    /// A line's length.
    Length(LineId),
    /// How far a point is from a line, towards that side; negative on the other.
    PointLine(PointId, LineId, Side),
    /// How far a point is from a centre.
    Radius(PointId, PointId),
}

/// A job: what is drawn, what is to hold of it, and what is to be measured.
#[derive(Clone, Debug, PartialEq)]
pub struct Job {
    centre: [f64; 2],
    size: f64,
    points: Vec<([f64; 2], State)>,
    lines: Vec<(PointId, PointId)>,
    equations: Vec<Equation>,
    measures: Vec<Measure>,
}

impl Job {
    /// A job with nothing in it yet. The fit works in units of `size` about `centre`: take the middle of the drawing and about its extent.
    pub fn new(centre: [f64; 2], size: f64) -> Self {
        Self { centre, size, points: Vec::new(), lines: Vec::new(), equations: Vec::new(), measures: Vec::new() }
    }

    /// A length in units of the job's size, as equations take it.
    pub fn in_size(&self, length: f64) -> f64 {
        length / self.size
    }

    /// Adds a point, drawn at `start`.
    pub fn point(&mut self, start: [f64; 2], state: State) -> PointId {
        self.points.push((start, state));
        PointId(self.points.len() - 1)
    }

    /// Adds a line from one point to another.
    pub fn line(&mut self, from: PointId, to: PointId) -> LineId {
        self.lines.push((from, to));
        LineId(self.lines.len() - 1)
    }

    /// Adds an equation.
    pub fn equation(&mut self, equation: Equation) -> EquationId {
        self.equations.push(equation);
        EquationId(self.equations.len() - 1)
    }

    /// Adds a measure.
    pub fn measure(&mut self, measure: Measure) -> MeasureId {
        self.measures.push(measure);
        MeasureId(self.measures.len() - 1)
    }

    /// The text of the job, as the fitter takes it.
    pub fn text(&self) -> String {
        self.to_string()
    }
}

impl Display for Job {
    fn fmt(&self, f: &mut fmt::Formatter<'_>) -> fmt::Result {
        let counts =
            [("points", self.points.len()), ("lines", self.lines.len()), ("equations", self.equations.len()), ("measures", self.measures.len())];
        for (name, count) in counts {
            writeln!(f, "{name}={count}")?;
        }
        writeln!(f, "centre={}\nsize={}", Pair(self.centre), Bits(self.size))?;
        for &(start, state) in &self.points {
            write!(f, "p={},", Pair(start))?;
            match state {
                State::Free => writeln!(f, "free")?,
                State::Kept => writeln!(f, "kept")?,
                State::Placed(at) => writeln!(f, "at,{}", Pair(at))?,
            }
        }
        for (from, to) in &self.lines {
            writeln!(f, "l={from},{to}")?;
        }
        for equation in &self.equations {
            writeln!(f, "e={equation}")?;
        }
        for measure in &self.measures {
            writeln!(f, "m={measure}")?;
        }
        Ok(())
    }
}

/// The sixteen digits of a number's bits.
struct Bits(f64);

impl Display for Bits {
    fn fmt(&self, f: &mut fmt::Formatter<'_>) -> fmt::Result {
        write!(f, "{:016x}", self.0.to_bits())
    }
}

struct Pair([f64; 2]);

impl Display for Pair {
    fn fmt(&self, f: &mut fmt::Formatter<'_>) -> fmt::Result {
        write!(f, "{},{}", Bits(self.0[0]), Bits(self.0[1]))
    }
}

impl Display for PointId {
    fn fmt(&self, f: &mut fmt::Formatter<'_>) -> fmt::Result {
        self.0.fmt(f)
    }
}

impl Display for LineId {
    fn fmt(&self, f: &mut fmt::Formatter<'_>) -> fmt::Result {
        self.0.fmt(f)
    }
}

impl Display for Axis {
    fn fmt(&self, f: &mut fmt::Formatter<'_>) -> fmt::Result {
        f.write_char(match self {
            Self::X => 'x',
            Self::Y => 'y',
        })
    }
}

impl Display for Side {
    fn fmt(&self, f: &mut fmt::Formatter<'_>) -> fmt::Result {
        f.write_char(match self {
            Self::Plus => '+',
            Self::Minus => '-',
        })
    }
}

impl Display for Radius {
    fn fmt(&self, f: &mut fmt::Formatter<'_>) -> fmt::Result {
        match self {
            Self::Point(p) => write!(f, "p,{p}"),
            Self::Value(v) => write!(f, "v,{}", Bits(*v)),
        }
    }
}

impl Display for Contact {
    fn fmt(&self, f: &mut fmt::Formatter<'_>) -> fmt::Result {
        match self {
            Self::Outside => f.write_char('o'),
            Self::Inside(s) => s.fmt(f),
        }
    }
}

impl Display for Equation {
    fn fmt(&self, f: &mut fmt::Formatter<'_>) -> fmt::Result {
        match *self {
            Self::Coincident(a, b) => write!(f, "coincident,{a},{b}"),
            Self::Level(a, b, axis) => write!(f, "level,{a},{b},{axis}"),
            Self::Parallel(i, j) => write!(f, "parallel,{i},{j}"),
            Self::Perpendicular(i, j) => write!(f, "perpendicular,{i},{j}"),
            Self::Collinear(i, j) => write!(f, "collinear,{i},{j}"),
            Self::Equal(i, j) => write!(f, "equal,{i},{j}"),
            Self::Held => f.write_str("held"),
            Self::Distance(a, b, v) => write!(f, "distance,{a},{b},{}", Bits(v)),
            Self::AxisDistance(a, b, axis, v, side) => write!(f, "axisdistance,{a},{b},{axis},{},{side}", Bits(v)),
            Self::Length(i, v) => write!(f, "length,{i},{}", Bits(v)),
            Self::PointLine(p, i, v, side) => write!(f, "pointline,{p},{i},{},{side}", Bits(v)),
            Self::ArcEnds(c, from, to) => write!(f, "arcends,{c},{from},{to}"),
            Self::Radius(c, p, v) => write!(f, "radius,{c},{p},{}", Bits(v)),
            Self::LineCircle(i, c, r, side) => write!(f, "linecircle,{i},{c},{r},{side}"),
            Self::CircleCircle(c1, r1, c2, r2, contact) => write!(f, "circlecircle,{c1},{r1},{c2},{r2},{contact}"),
            Self::LineArcAt(i, c, p) => write!(f, "linearcat,{i},{c},{p}"),
            Self::ArcArcAt(c1, c2, p) => write!(f, "arcarcat,{c1},{c2},{p}"),
            Self::Midpoint(p, i) => write!(f, "midpoint,{p},{i}"),
            Self::ArcMidpoint(p, c, from, to) => write!(f, "arcmidpoint,{p},{c},{from},{to}"),
            Self::Symmetric(p, q, i) => write!(f, "symmetric,{p},{q},{i}"),
            Self::EqualRadius(c1, f1, c2, f2) => write!(f, "equalradius,{c1},{f1},{c2},{f2}"),
        }
    }
}

impl Display for Measure {
    fn fmt(&self, f: &mut fmt::Formatter<'_>) -> fmt::Result {
        match *self {
            Self::Distance(a, b) => write!(f, "distance,{a},{b}"),
            Self::AxisDistance(a, b, axis, side) => write!(f, "axisdistance,{a},{b},{axis},{side}"),
            Self::Length(i) => write!(f, "length,{i}"),
            Self::PointLine(p, i, side) => write!(f, "pointline,{p},{i},{side}"),
            Self::Radius(c, p) => write!(f, "radius,{c},{p}"),
        }
    }
}
