//! A drawing under construction: points where they truly belong, and equations that hold there.
//! Starts are then put near the truth, so that a fit has real work to do and an end to reach.
//! Everything is in drawing units until `build` divides the lengths by the size.

use chance::Rng;
use job::{Build, Contact, Equation, Field, Kind, MAX_EQUATIONS, MAX_LINES, MAX_MEASURES, MAX_POINTS, MAX_ROWS, Point, Radius, State};

pub type At = [f64; 2];

#[derive(Clone, Copy, PartialEq)]
pub enum Hold {
    Free,
    Kept,
    Placed,
}

#[derive(Clone, Default)]
pub struct Figure {
    pub points: Vec<(At, Hold)>,
    pub lines: Vec<[usize; 2]>,
    pub equations: Vec<Equation>,
    pub measures: Vec<Equation>,
}

pub fn plus(a: At, b: At) -> At {
    [a[0] + b[0], a[1] + b[1]]
}

pub fn minus(a: At, b: At) -> At {
    [a[0] - b[0], a[1] - b[1]]
}

pub fn times(k: f64, a: At) -> At {
    [k * a[0], k * a[1]]
}

/// The vector of length `r` at the angle `turn` (radians).
pub fn polar(r: f64, turn: f64) -> At {
    [r * turn.cos(), r * turn.sin()]
}

pub fn length(a: At) -> f64 {
    (a[0] * a[0] + a[1] * a[1]).sqrt()
}

fn cross(a: At, b: At) -> f64 {
    a[0] * b[1] - a[1] * b[0]
}

fn sign(v: f64) -> f64 {
    if v < 0.0 { -1.0 } else { 1.0 }
}

impl Figure {
    pub fn point(&mut self, at: At) -> usize {
        self.points.push((at, Hold::Free));
        self.points.len() - 1
    }

    pub fn line(&mut self, a: usize, b: usize) -> usize {
        self.lines.push([a, b]);
        self.lines.len() - 1
    }

    pub fn at(&self, p: usize) -> At {
        self.points[p].0
    }

    pub fn hold(&mut self, p: usize, hold: Hold) {
        self.points[p].1 = hold;
    }

    /// From the first end of line `l` to its second.
    pub fn along(&self, l: usize) -> At {
        let [a, b] = self.lines[l];
        minus(self.at(b), self.at(a))
    }

    pub fn rows(&self) -> usize {
        self.equations.iter().map(|e| e.kind.rows()).sum()
    }

    /// Whether so much more still fits into a job.
    pub fn room(&self, points: usize, lines: usize, rows: usize) -> bool {
        self.points.len() + points <= MAX_POINTS
            && self.lines.len() + lines <= MAX_LINES
            && self.equations.len() < MAX_EQUATIONS
            && self.rows() + rows <= MAX_ROWS
    }

    pub fn add(&mut self, kind: Kind, fields: &[Field]) {
        self.equations.push(Equation { kind, fields: fields.to_vec() });
    }

    pub fn points_eq(&mut self, kind: Kind, points: &[usize]) {
        self.add(kind, &points.iter().map(|&p| Field::Point(p)).collect::<Vec<_>>());
    }

    pub fn lines_eq(&mut self, kind: Kind, i: usize, j: usize) {
        self.add(kind, &[Field::Line(i), Field::Line(j)]);
    }

    pub fn level(&mut self, a: usize, b: usize, axis: usize) {
        self.add(Kind::Level, &[Field::Point(a), Field::Point(b), Field::Axis(axis)]);
    }

    pub fn line_arc_at(&mut self, l: usize, c: usize, p: usize) {
        self.add(Kind::LineArcAt, &[Field::Line(l), Field::Point(c), Field::Point(p)]);
    }

    pub fn midpoint(&mut self, p: usize, l: usize) {
        self.add(Kind::Midpoint, &[Field::Point(p), Field::Line(l)]);
    }

    pub fn symmetric(&mut self, p: usize, q: usize, l: usize) {
        self.add(Kind::Symmetric, &[Field::Point(p), Field::Point(q), Field::Line(l)]);
    }

    pub fn distance(&mut self, a: usize, b: usize) {
        let e = self.measured_distance(a, b);
        self.equations.push(e);
    }

    pub fn axis_distance(&mut self, a: usize, b: usize, axis: usize) {
        let e = self.measured_axis_distance(a, b, axis);
        self.equations.push(e);
    }

    pub fn length(&mut self, l: usize) {
        let e = self.measured_length(l);
        self.equations.push(e);
    }

    pub fn point_line(&mut self, p: usize, l: usize) {
        let e = self.measured_point_line(p, l);
        self.equations.push(e);
    }

    pub fn radius(&mut self, c: usize, f: usize) {
        let e = self.measured_radius(c, f);
        self.equations.push(e);
    }

    /// A circle around `c` touching line `l`; the side is the drawn one.
    pub fn line_circle(&mut self, l: usize, c: usize, radius: Radius) {
        let side = sign(self.offset(c, l));
        self.add(Kind::LineCircle, &[Field::Line(l), Field::Point(c), Field::Radius(radius), Field::Side(side)]);
    }

    pub fn circle_circle(&mut self, (c1, r1): (usize, Radius), (c2, r2): (usize, Radius), contact: Contact) {
        let fields = [Field::Point(c1), Field::Radius(r1), Field::Point(c2), Field::Radius(r2), Field::Contact(contact)];
        self.add(Kind::CircleCircle, &fields);
    }

    /// How far `p` lies to the left of line `l`.
    pub fn offset(&self, p: usize, l: usize) -> f64 {
        let d = self.along(l);
        cross(d, minus(self.at(p), self.at(self.lines[l][0]))) / length(d)
    }

    fn measured_distance(&self, a: usize, b: usize) -> Equation {
        let v = length(minus(self.at(b), self.at(a)));
        Equation { kind: Kind::Distance, fields: vec![Field::Point(a), Field::Point(b), Field::Value(v)] }
    }

    fn measured_axis_distance(&self, a: usize, b: usize, axis: usize) -> Equation {
        let d = self.at(b)[axis] - self.at(a)[axis];
        let fields = vec![Field::Point(a), Field::Point(b), Field::Axis(axis), Field::Value(d.abs()), Field::Side(sign(d))];
        Equation { kind: Kind::AxisDistance, fields }
    }

    fn measured_length(&self, l: usize) -> Equation {
        Equation { kind: Kind::Length, fields: vec![Field::Line(l), Field::Value(length(self.along(l)))] }
    }

    fn measured_point_line(&self, p: usize, l: usize) -> Equation {
        let offset = self.offset(p, l);
        let fields = vec![Field::Point(p), Field::Line(l), Field::Value(offset.abs()), Field::Side(sign(offset))];
        Equation { kind: Kind::PointLine, fields }
    }

    fn measured_radius(&self, c: usize, f: usize) -> Equation {
        Equation { kind: Kind::Radius, ..self.measured_distance(c, f) }
    }

    /// A dimension that holds already, between parts picked at random.
    pub fn redundant(&mut self, rng: &mut Rng) {
        let e = self.dimension(rng);
        self.equations.push(e);
    }

    fn dimension(&self, rng: &mut Rng) -> Equation {
        let (a, b) = self.two_points(rng);
        let sort = if self.lines.is_empty() { rng.below(3) } else { rng.below(5) };
        let line = |rng: &mut Rng| rng.below(self.lines.len());
        match sort {
            0 => self.measured_distance(a, b),
            1 => self.measured_axis_distance(a, b, rng.below(2)),
            2 => self.measured_radius(a, b),
            3 => self.measured_length(line(rng)),
            _ => self.measured_point_line(a, line(rng)),
        }
    }

    pub fn two_points(&self, rng: &mut Rng) -> (usize, usize) {
        let (n, a) = (self.points.len(), rng.below(self.points.len()));
        if n == 1 { (a, a) } else { (a, (a + rng.between(1, n - 1)) % n) }
    }

    /// Up to `count` measures of parts picked at random; their value is left out.
    pub fn measure(&mut self, rng: &mut Rng, count: usize) {
        for _ in 0..count.min(MAX_MEASURES - self.measures.len()) {
            let mut e = self.dimension(rng);
            for field in &mut e.fields {
                if let Field::Value(v) = field {
                    *v = 0.0;
                }
            }
            self.measures.push(e);
        }
    }

    /// Another figure beside this one, its numbers moved up.
    pub fn append(&mut self, other: &Figure, by: At) {
        let (p0, l0) = (self.points.len(), self.lines.len());
        self.points.extend(other.points.iter().map(|&(at, hold)| (plus(at, by), hold)));
        self.lines.extend(other.lines.iter().map(|l| [l[0] + p0, l[1] + p0]));
        self.equations.extend(other.equations.iter().map(|e| renumbered(e, |p| p + p0, |l| l + l0)));
    }

    /// The same figure with its points, lines and equations in another order.
    pub fn shuffle(&mut self, rng: &mut Rng) {
        let (points, lines) = (rng.order(self.points.len()), rng.order(self.lines.len()));
        let (to_point, to_line) = (inverse(&points), inverse(&lines));
        let number = |e: &Equation| renumbered(e, |p| to_point[p], |l| to_line[l]);
        self.points = points.iter().map(|&p| self.points[p]).collect();
        self.lines = lines.iter().map(|&l| self.lines[l].map(|p| to_point[p])).collect();
        self.equations = rng.order(self.equations.len()).iter().map(|&k| number(&self.equations[k])).collect();
        self.measures = self.measures.iter().map(number).collect();
    }

    /// The centre and the diagonal of the box around the points, as a drawing program takes them.
    pub fn frame(&self) -> (At, f64) {
        let mut ends = self.points.iter().map(|p| p.0);
        let Some(first) = ends.next() else { return ([0.0; 2], 1.0) };
        let (mut low, mut high) = (first, first);
        for p in ends {
            for i in 0..2 {
                low[i] = f64::min(low[i], p[i]);
                high[i] = f64::max(high[i], p[i]);
            }
        }
        let diagonal = length(minus(high, low));
        (times(0.5, plus(low, high)), if diagonal > 0.0 { diagonal } else { 1.0 })
    }

    /// The build: each point that may start anywhere starts up to `noise` sizes off the truth,
    /// every length is divided by the size.
    pub fn build(&self, rng: &mut Rng, centre: At, size: f64, noise: f64) -> Build {
        let reach = noise * self.frame().1;
        let points = self
            .points
            .iter()
            .map(|&(at, hold)| {
                let off = plus(at, [rng.range(-reach, reach), rng.range(-reach, reach)]);
                match hold {
                    Hold::Free => Point { start: off, state: State::Free },
                    Hold::Kept => Point { start: at, state: State::Kept },
                    Hold::Placed => Point { start: off, state: State::Placed(at) },
                }
            })
            .collect();
        let equations = self.equations.iter().map(|e| divided(e, size)).collect();
        Build { centre, size, points, lines: self.lines.clone(), equations, measures: self.measures.clone() }
    }
}

fn divided(e: &Equation, size: f64) -> Equation {
    let fields = e.fields.iter().map(|&f| match f {
        Field::Value(v) => Field::Value(v / size),
        Field::Radius(Radius::Value(v)) => Field::Radius(Radius::Value(v / size)),
        other => other,
    });
    Equation { kind: e.kind, fields: fields.collect() }
}

fn renumbered(e: &Equation, point: impl Fn(usize) -> usize, line: impl Fn(usize) -> usize) -> Equation {
    let fields = e.fields.iter().map(|&f| match f {
        Field::Point(p) => Field::Point(point(p)),
        Field::Line(l) => Field::Line(line(l)),
        Field::Radius(Radius::Point(p)) => Field::Radius(Radius::Point(point(p))),
        other => other,
    });
    Equation { kind: e.kind, fields: fields.collect() }
}

fn inverse(order: &[usize]) -> Vec<usize> {
    let mut inverse = vec![0; order.len()];
    for (to, &from) in order.iter().enumerate() {
        inverse[from] = to;
    }
    inverse
}
