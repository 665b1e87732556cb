//! The kinds of equations: their names in the text, the sorts of their fields in order, and the
//! residual rows they add.

/// The sort of a field.
#[derive(Clone, Copy, Debug, PartialEq)]
pub enum Slot {
    Point,
    Line,
    Axis,
    Value,
    Side,
    Radius,
    Contact,
}

#[derive(Clone, Copy, Debug, PartialEq, Eq, PartialOrd, Ord)]
pub enum Kind {
    Coincident,
    Level,
    Parallel,
    Perpendicular,
    Collinear,
    Equal,
    Held,
    Distance,
    AxisDistance,
    Length,
    PointLine,
    ArcEnds,
    Radius,
    LineCircle,
    CircleCircle,
    LineArcAt,
    ArcArcAt,
    Midpoint,
    ArcMidpoint,
    Symmetric,
    EqualRadius,
}

/// Every kind an `e` line may name.
pub const EQUATIONS: [Kind; 21] = [
    Kind::Coincident,
    Kind::Level,
    Kind::Parallel,
    Kind::Perpendicular,
    Kind::Collinear,
    Kind::Equal,
    Kind::Held,
    Kind::Distance,
    Kind::AxisDistance,
    Kind::Length,
    Kind::PointLine,
    Kind::ArcEnds,
    Kind::Radius,
    Kind::LineCircle,
    Kind::CircleCircle,
    Kind::LineArcAt,
    Kind::ArcArcAt,
    Kind::Midpoint,
    Kind::ArcMidpoint,
    Kind::Symmetric,
    Kind::EqualRadius,
];

/// Every kind an `m` line may name.
pub const MEASURES: [Kind; 5] = [Kind::Distance, Kind::AxisDistance, Kind::Length, Kind::PointLine, Kind::Radius];

impl Kind {
    pub fn name(self) -> &'static str {
        self.row().0
    }

    pub fn slots(self) -> &'static [Slot] {
        self.row().1
    }

    /// How many residual rows an equation of this kind adds.
    pub fn rows(self) -> usize {
        self.row().2
    }

    fn row(self) -> (&'static str, &'static [Slot], usize) {
        use Slot::{Axis as A, Contact as C, Line as L, Point as P, Radius as R, Side as S, Value as V};
        match self {
            Kind::Coincident => ("coincident", &[P, P], 2),
            Kind::Level => ("level", &[P, P, A], 1),
            Kind::Parallel => ("parallel", &[L, L], 1),
            Kind::Perpendicular => ("perpendicular", &[L, L], 1),
            Kind::Collinear => ("collinear", &[L, L], 2),
            Kind::Equal => ("equal", &[L, L], 1),
            Kind::Held => ("held", &[], 0),
            Kind::Distance => ("distance", &[P, P, V], 1),
            Kind::AxisDistance => ("axisdistance", &[P, P, A, V, S], 1),
            Kind::Length => ("length", &[L, V], 1),
            Kind::PointLine => ("pointline", &[P, L, V, S], 1),
            Kind::ArcEnds => ("arcends", &[P, P, P], 1),
            Kind::Radius => ("radius", &[P, P, V], 1),
            Kind::LineCircle => ("linecircle", &[L, P, R, S], 1),
            Kind::CircleCircle => ("circlecircle", &[P, R, P, R, C], 1),
            Kind::LineArcAt => ("linearcat", &[L, P, P], 1),
            Kind::ArcArcAt => ("arcarcat", &[P, P, P], 1),
            Kind::Midpoint => ("midpoint", &[P, L], 2),
            Kind::ArcMidpoint => ("arcmidpoint", &[P, P, P, P], 2),
            Kind::Symmetric => ("symmetric", &[P, P, L], 2),
            Kind::EqualRadius => ("equalradius", &[P, P, P, P], 1),
        }
    }
}

/// The kind among `allowed` with this name.
pub fn kind_named(name: &[u8], allowed: &[Kind]) -> Option<Kind> {
    allowed.iter().copied().find(|k| k.name().as_bytes() == name)
}
