//! Builds by chance.

use chance::Rng;
use job::{Build, Contact, Equation, Field, Kind, Point, Radius, Slot, State};

/// What an equation may refer to, and the numbers that it takes.
pub struct Reach<'a> {
    pub points: &'a [usize],
    pub lines: usize,
    pub number: &'a dyn Fn(&mut Rng) -> f64,
}

impl Reach<'_> {
    /// An equation of one of the kinds, each of its fields anywhere. Without lines it is one of those that need none.
    pub fn equation(&self, rng: &mut Rng, kinds: &[Kind]) -> Equation {
        let open: Vec<Kind> = kinds.iter().copied().filter(|k| self.lines > 0 || !k.slots().contains(&Slot::Line)).collect();
        let kind = rng.pick(&open);
        Equation { kind, fields: kind.slots().iter().map(|&slot| self.field(rng, slot)).collect() }
    }

    fn field(&self, rng: &mut Rng, slot: Slot) -> Field {
        match slot {
            Slot::Point => Field::Point(rng.pick(self.points)),
            Slot::Line => Field::Line(rng.below(self.lines)),
            Slot::Axis => Field::Axis(rng.below(2)),
            Slot::Value => Field::Value((self.number)(rng)),
            Slot::Side => Field::Side(rng.sign()),
            Slot::Radius if rng.chance(0.5) => Field::Radius(Radius::Point(rng.pick(self.points))),
            Slot::Radius => Field::Radius(Radius::Value((self.number)(rng))),
            Slot::Contact if rng.chance(0.5) => Field::Contact(Contact::Outside),
            Slot::Contact => Field::Contact(Contact::Inside(rng.sign())),
        }
    }
}

pub fn level(a: usize, b: usize, axis: usize) -> Equation {
    Equation { kind: Kind::Level, fields: vec![Field::Point(a), Field::Point(b), Field::Axis(axis)] }
}

/// So many points at the origin, around it and of size 1.
pub fn bare(points: usize) -> Build {
    Build {
        centre: [0.0; 2],
        size: 1.0,
        points: vec![Point { start: [0.0; 2], state: State::Free }; points],
        lines: Vec::new(),
        equations: Vec::new(),
        measures: Vec::new(),
    }
}
