//! A reply, read back.

use std::error::Error;
use std::fmt;
use std::str::{FromStr, Split};

use crate::{EquationId, MeasureId, PointId, Status};

/// What a job is answered.
#[derive(Clone, Debug, PartialEq)]
pub enum Reply {
    /// Every equation holds within the tolerance.
    Fitted(Fitted),
    /// The equations of some group do not all hold. There are no coordinates: a failed fit is never handed out as a fit.
    Failed(Failed),
    /// The job was not fitted at all, for the reason that its status gives: neither [`Status::Fitted`] nor [`Status::NotConverged`].
    Refused(Status),
}

/// A fit.
#[derive(Clone, Debug, PartialEq)]
pub struct Fitted {
    /// In how many ways the drawing can still move: 0 where the equations determine it.
    pub freedom: usize,
    /// How far `points` miss an equation at most, in units of the job's size: the largest residual of all equations at the points as they are
    /// handed out, infinite where one cannot be worked out there. Never a NaN.
    pub worst: f64,
    /// The groups: points that equations tie to each other, each by its own fit.
    pub groups: Vec<Group>,
    /// Where each point of the job is.
    pub points: Vec<[f64; 2]>,
    /// What each measure of the job comes to.
    pub measures: Vec<f64>,
}

/// The fit of one group.
#[derive(Clone, Copy, Debug, PartialEq, Eq)]
pub struct Group {
    /// The lowest of its points.
    pub lowest: PointId,
    /// In how many ways the group can still move.
    pub freedom: usize,
    /// How many iterations its fit took.
    pub iterations: usize,
    /// How many tries these took together.
    pub tries: usize,
}

/// A fit that failed.
#[derive(Clone, Debug, PartialEq, Eq)]
pub struct Failed {
    /// The lowest point of the first group that does not converge.
    pub lowest: PointId,
    /// How many iterations its fit took.
    pub iterations: usize,
    /// How many tries these took together.
    pub tries: usize,
    /// Why it failed.
    pub reason: Reason,
    /// The equations each of which, left out, would let the rest of the group hold. There may be none.
    pub suspects: Vec<EquationId>,
}

/// Why a fit failed. An iteration makes up to twelve tries; where it takes none, the last of them says why.
#[derive(Clone, Copy, Debug, PartialEq, Eq, Hash)]
pub enum Reason {
    /// 1: everything is fixed. All points of the group are kept or placed, and its equations do not hold there.
    NothingFree,
    /// 2: a number was too large for a step to be worked out, as where points are drawn all but at one place.
    NoPivot {
        /// The column in which elimination found no pivot, counted from 1.
        column: usize,
    },
    /// 3: the step that was worked out is not finite, as where points that are to have a distance or a direction between them are at one
    /// place, drawn so or brought there by the fit.
    NotFinite,
    /// 4: no try brings the equations nearer to holding. It is a contradiction, or the drawing is far from what is asked.
    NotLess,
    /// 5: merely slow. The iterations were spent while the last one still came nearer; there may be a contradiction all the same.
    IterationsSpent,
}

impl Reason {
    /// The code that stands for it in a reply, 1 to 5.
    pub fn code(self) -> usize {
        match self {
            Self::NothingFree => 1,
            Self::NoPivot { .. } => 2,
            Self::NotFinite => 3,
            Self::NotLess => 4,
            Self::IterationsSpent => 5,
        }
    }

    /// The reason that a code and a column of a reply stand for. A column is there with code 2, and 0 stands for none.
    fn from_code(code: usize, column: usize) -> Option<Self> {
        match (code, column) {
            (1, 0) => Some(Self::NothingFree),
            (2, 1..) => Some(Self::NoPivot { column }),
            (3, 0) => Some(Self::NotFinite),
            (4, 0) => Some(Self::NotLess),
            (5, 0) => Some(Self::IterationsSpent),
            _ => None,
        }
    }
}

impl fmt::Display for Reason {
    fn fmt(&self, f: &mut fmt::Formatter<'_>) -> fmt::Result {
        match self {
            Self::NothingFree => f.write_str("everything is fixed"),
            Self::NoPivot { column } => write!(f, "a step could not be worked out: no pivot in column {column}"),
            Self::NotFinite => f.write_str("a step is not finite: points may be at one place"),
            Self::NotLess => f.write_str("no step helps: the equations may contradict each other"),
            Self::IterationsSpent => f.write_str("the iterations were spent while they still helped"),
        }
    }
}

impl Reply {
    /// What the job ended in.
    pub fn status(&self) -> Status {
        match self {
            Self::Fitted(_) => Status::Fitted,
            Self::Failed(_) => Status::NotConverged,
            Self::Refused(status) => *status,
        }
    }

    /// The fit, or what came instead of one.
    pub fn fitted(self) -> Result<Fitted, Self> {
        match self {
            Self::Fitted(fitted) => Ok(fitted),
            other => Err(other),
        }
    }
}

impl Fitted {
    /// Where a point is. Panics where the job that was fitted has no such point.
    pub fn point(&self, point: PointId) -> [f64; 2] {
        self.points[point.0]
    }

    /// What a measure comes to. Panics where the job that was fitted has no such measure.
    pub fn measure(&self, measure: MeasureId) -> f64 {
        self.measures[measure.0]
    }
}

/// A text that is no reply.
#[derive(Clone, Copy, Debug, PartialEq, Eq)]
pub struct Malformed;

impl fmt::Display for Malformed {
    fn fmt(&self, f: &mut fmt::Formatter<'_>) -> fmt::Result {
        f.write_str("the text is not of the form of a reply")
    }
}

impl Error for Malformed {}

impl FromStr for Reply {
    type Err = Malformed;

    fn from_str(text: &str) -> Result<Self, Malformed> {
        // A reply that was cut inside its last line is none.
        let mut lines = text.strip_suffix('\n').ok_or(Malformed)?.split('\n');
        let number = u8::try_from(whole(field(&mut lines, "status")?)?).map_err(|_| Malformed)?;
        let reply = match Status::from_number(number).ok_or(Malformed)? {
            Status::Fitted => Self::Fitted(fitted(&mut lines)?),
            Status::NotConverged => Self::Failed(failed(&mut lines)?),
            refused => Self::Refused(refused),
        };
        if lines.next().is_some() { Err(Malformed) } else { Ok(reply) }
    }
}

type Lines<'a> = Split<'a, char>;

fn fitted(lines: &mut Lines<'_>) -> Result<Fitted, Malformed> {
    let count = whole(field(lines, "groups")?)?;
    let (freedom, worst) = (whole(field(lines, "freedom")?)?, float(field(lines, "worst")?)?);
    let groups = (0..count).map(|_| group(field(lines, "g")?)).collect::<Result<_, _>>()?;
    let (mut points, mut measures) = (Vec::new(), Vec::new());
    for line in lines {
        match line.split_once('=') {
            // Every point stands before every measure.
            Some(("x", value)) if measures.is_empty() => {
                let [x, y] = fields(value, float)?;
                points.push([x, y]);
            }
            Some(("m", value)) => measures.push(float(value)?),
            _ => return Err(Malformed),
        }
    }
    Ok(Fitted { freedom, worst, groups, points, measures })
}

fn group(value: &str) -> Result<Group, Malformed> {
    let [lowest, freedom, iterations, tries] = fields(value, whole)?;
    Ok(Group { lowest: PointId(lowest), freedom, iterations, tries })
}

fn failed(lines: &mut Lines<'_>) -> Result<Failed, Malformed> {
    let [lowest, iterations, tries, code, column] = fields(field(lines, "g")?, whole)?;
    let reason = Reason::from_code(code, column).ok_or(Malformed)?;
    let suspects = lines.map(|line| whole(line.strip_prefix("c=").ok_or(Malformed)?).map(EquationId)).collect::<Result<_, _>>()?;
    Ok(Failed { lowest: PointId(lowest), iterations, tries, reason, suspects })
}

/// The value of the next line, which has this key.
fn field<'a>(lines: &mut Lines<'a>, key: &str) -> Result<&'a str, Malformed> {
    lines.next().and_then(|line| line.strip_prefix(key)?.strip_prefix('=')).ok_or(Malformed)
}

/// So many values, parted by commas.
fn fields<T: Copy, const N: usize>(value: &str, read: fn(&str) -> Result<T, Malformed>) -> Result<[T; N], Malformed> {
    let values = value.split(',').map(read).collect::<Result<Vec<_>, _>>()?;
    values.try_into().map_err(|_| Malformed)
}

/// A whole number as the fitter writes it: digits alone, and no leading zero.
fn whole(digits: &str) -> Result<usize, Malformed> {
    let spelled = digits == "0" || (!digits.starts_with('0') && digits.bytes().all(|b| b.is_ascii_digit()));
    if spelled { digits.parse().map_err(|_| Malformed) } else { Err(Malformed) }
}

fn float(digits: &str) -> Result<f64, Malformed> {
    let spelled = digits.len() == 16 && digits.bytes().all(|b| matches!(b, b'0'..=b'9' | b'a'..=b'f'));
    if spelled { u64::from_str_radix(digits, 16).map(f64::from_bits).map_err(|_| Malformed) } else { Err(Malformed) }
}
