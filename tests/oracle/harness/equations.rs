/// Appended by tests/oracle: fills `Equations` from a build and runs its parts one by one.
pub mod harness {
    use super::*;
    use crate::counters;
    use crate::solver::harness::{Row, all, dense_rows};
    use job::{Build, Equation, Field, Kind, Reason, State};

    /// A build in the Rust's own terms, cut into its groups.
    pub struct Rig {
        equations: Equations,
        groups: Vec<Group>,
    }

    /// How one fit ended: the coordinates where it converged, and what the counters say, which in
    /// the copy without counters is nothing.
    #[derive(Debug)]
    pub struct Run {
        pub x: Option<Vec<f64>>,
        pub iterations: usize,
        pub tries: usize,
        /// Why it failed, where it did: what was said last.
        pub reason: Reason,
        /// What each try of the last iteration said last.
        pub round: Vec<Reason>,
    }

    impl Rig {
        /// Every point and line that the build refers to must be there.
        pub fn new(build: &Build) -> Self {
            let equations = filled(build);
            let groups = equations.groups();
            Self { equations, groups }
        }

        pub fn groups(&self) -> usize {
            self.groups.len()
        }

        pub fn points_of(&self, group: usize) -> &[usize] {
            &self.groups[group].points
        }

        pub fn equations_of(&self, group: usize) -> &[usize] {
            &self.groups[group].constraints
        }

        /// Free points in no group.
        pub fn untied(&self) -> usize {
            self.equations.unconstrained.len()
        }

        /// The group's fit with all its equations.
        pub fn fit(&self, group: usize) -> Run {
            self.fit_with(group, &self.groups[group].constraints)
        }

        /// The group's fit without one of its equations.
        pub fn fit_without(&self, group: usize, equation: usize) -> Run {
            let rest: Vec<usize> = self.equations_of(group).iter().copied().filter(|&k| k != equation).collect();
            self.fit_with(group, &rest)
        }

        fn fit_with(&self, group: usize, equations: &[usize]) -> Run {
            counters::reset();
            let x = self.equations.fit(&self.groups[group], equations);
            let (iterations, tries) = counters::read();
            Run { x, iterations, tries, reason: counters::said(), round: counters::round() }
        }

        pub fn freedom(&self, group: usize, x: &[f64]) -> usize {
            self.equations.freedom(&self.groups[group], x).0
        }

        /// Whether the freedom at `x` hangs on the sign of a NaN.
        pub fn nan_in_gradients(&self, group: usize, x: &[f64]) -> bool {
            let (g, eq) = (&self.groups[group], &self.equations);
            let free: Vec<usize> = (0..x.len()).filter(|c| !eq.fixed[g.points[c / 2]]).collect();
            solver::harness::nan_when_scaled(&self.gradients(group, x), &free, x.len())
        }

        pub fn residuals(&self, group: usize, x: &[f64]) -> Vec<f64> {
            let g = &self.groups[group];
            let mut r = Vec::new();
            self.equations.residuals(g, &g.constraints, x, &mut r, None);
            r
        }

        fn gradients(&self, group: usize, x: &[f64]) -> Vec<Row> {
            let g = &self.groups[group];
            let (mut r, mut rows) = (Vec::new(), Vec::new());
            self.equations.residuals(g, &g.constraints, x, &mut r, Some(&mut rows));
            rows
        }

        /// The gradients at `x` as a dense matrix over all the group's coordinates.
        pub fn jacobian(&self, group: usize, x: &[f64]) -> Vec<f64> {
            dense_rows(&self.gradients(group, x), &all(x.len()), x.len())
        }

        /// Sweeps over equations chosen from the build, as if they were a group on these points.
        pub fn sweep(&self, points: &[usize], chosen: &[usize], free: &[usize]) -> Sweep<'_> {
            let group = Group { points: points.to_vec(), constraints: chosen.to_vec() };
            Sweep { equations: &self.equations, group, free: free.to_vec(), rows: Vec::new() }
        }

        /// Where the group's fit starts.
        pub fn scaled(&self, group: usize) -> Vec<f64> {
            self.groups[group].points.iter().flat_map(|&p| self.equations.scaled(p)).collect()
        }

        /// The equations of a failing group without which it converges.
        pub fn suspects(&self, group: usize) -> Vec<usize> {
            let described = self.equations.conflicts(&self.groups[group]);
            described.iter().map(|name| name.parse().expect("an equation is described by its number")).collect()
        }

        /// The points and measures from every group's fitted coordinates: unscaled, placed,
        /// levelled, measured.
        pub fn finish(&self, fitted: &[Vec<f64>]) -> (Vec<[f64; 2]>, Vec<f64>) {
            let eq = &self.equations;
            let mut points = eq.start.clone();
            for (g, x) in self.groups.iter().zip(fitted) {
                for (&p, at) in g.points.iter().zip(eq.unscale(g, x)) {
                    points[p] = at;
                }
            }
            for (point, at) in points.iter_mut().zip(&eq.fixed_at) {
                *point = at.unwrap_or(*point);
            }
            eq.level(&mut points);
            (points.iter().map(|p| [p.x, p.y]).collect(), self.measures_at(&points))
        }

        /// Levels points that are given as two numbers each.
        pub fn level(&self, points: &mut [f64]) {
            let mut at = pairs(points);
            self.equations.level(&mut at);
            for (point, at) in points.chunks_mut(2).zip(at) {
                point.copy_from_slice(&[at.x, at.y]);
            }
        }

        /// The residuals of all active equations at points that are given as two numbers each, scaled
        /// as the Rust scales them for its measures.
        pub fn residuals_at(&self, points: &[f64]) -> Vec<f64> {
            let eq = &self.equations;
            let group = Group { points: (0..eq.names.len()).collect(), constraints: (0..eq.active).collect() };
            let x: Vec<f64> = points.iter().enumerate().map(|(i, v)| (v - eq.centre[i % 2]) / eq.size).collect();
            let mut r = Vec::new();
            eq.residuals(&group, &group.constraints, &x, &mut r, None);
            r
        }

        /// The measures at points that are given as two numbers each.
        pub fn measures(&self, points: &[f64]) -> Vec<f64> {
            self.measures_at(&pairs(points))
        }

        fn measures_at(&self, points: &[Vec2]) -> Vec<f64> {
            let by_name = self.equations.measures(points);
            self.equations.measure_names.iter().map(|n| by_name[n]).collect()
        }
    }

    /// A sweep keeps its rows, so that a second one finds their room.
    pub struct Sweep<'a> {
        equations: &'a Equations,
        group: Group,
        free: Vec<usize>,
        rows: Vec<Row>,
    }

    impl Sweep<'_> {
        pub fn residuals(&self, x: &[f64], r: &mut Vec<f64>) {
            self.equations.residuals(&self.group, &self.group.constraints, x, r, None);
        }

        /// The residuals, and the gradients as a dense matrix over the free coordinates.
        pub fn jacobian(&mut self, x: &[f64], r: &mut Vec<f64>) -> Vec<f64> {
            self.equations.residuals(&self.group, &self.group.constraints, x, r, Some(&mut self.rows));
            dense_rows(&self.rows, &self.free, x.len())
        }
    }

    fn pairs(points: &[f64]) -> Vec<Vec2> {
        points.chunks(2).map(|p| Vec2::new(p[0], p[1])).collect()
    }

    /// A placed point always has its place, also where that equals its start: so its own bits
    /// come out. An equation is described by its number, so that suspects come back as numbers.
    fn filled(build: &Build) -> Equations {
        let place = |state: &State| match *state {
            State::Placed(at) => Some(Vec2::new(at[0], at[1])),
            State::Free | State::Kept => None,
        };
        let mut eq = Equations {
            names: (0..build.points.len()).map(|p| p.to_string()).collect(),
            start: build.points.iter().map(|p| Vec2::new(p.start[0], p.start[1])).collect(),
            lines: build.lines.iter().map(|l| (l[0], l[1])).collect(),
            eqs: build.equations.iter().chain(&build.measures).map(equation).collect(),
            active: build.equations.len(),
            measure_names: (0..build.measures.len()).map(|m| m.to_string()).collect(),
            described: (0..build.equations.len()).map(|k| k.to_string()).collect(),
            fixed: build.points.iter().map(|p| p.state != State::Free).collect(),
            fixed_at: build.points.iter().map(|p| place(&p.state)).collect(),
            unconstrained: Vec::new(),
            centre: build.centre,
            size: build.size,
        };
        let tied = eq.tied_points();
        eq.unconstrained = (0..tied.len()).filter(|&p| !tied[p] && !eq.fixed[p]).collect();
        eq
    }

    fn equation(e: &Equation) -> Eq {
        use Field::{Axis, Contact as Touch, Line, Point, Radius as Round, Side, Value};
        match (e.kind, &e.fields[..]) {
            (Kind::Coincident, &[Point(a), Point(b)]) => Eq::Coincident(a, b),
            (Kind::Level, &[Point(a), Point(b), Axis(axis)]) => Eq::Level(a, b, axis),
            (Kind::Parallel, &[Line(i), Line(j)]) => Eq::Parallel(i, j),
            (Kind::Perpendicular, &[Line(i), Line(j)]) => Eq::Perpendicular(i, j),
            (Kind::Collinear, &[Line(i), Line(j)]) => Eq::Collinear(i, j),
            (Kind::Equal, &[Line(i), Line(j)]) => Eq::Equal(i, j),
            (Kind::Held, &[]) => Eq::Held,
            (Kind::Distance, &[Point(a), Point(b), Value(v)]) => Eq::Distance(a, b, v),
            (Kind::AxisDistance, &[Point(a), Point(b), Axis(axis), Value(v), Side(s)]) => Eq::AxisDistance(a, b, axis, v, s),
            (Kind::Length, &[Line(l), Value(v)]) => Eq::Length(l, v),
            (Kind::PointLine, &[Point(p), Line(l), Value(v), Side(s)]) => Eq::PointLine(p, l, v, s),
            (Kind::ArcEnds, &[Point(c), Point(f), Point(t)]) => Eq::ArcEnds(c, f, t),
            (Kind::Radius, &[Point(c), Point(f), Value(v)]) => Eq::Radius(c, f, v),
            (Kind::LineCircle, &[Line(l), Point(c), Round(r), Side(s)]) => Eq::LineCircle(l, c, radius_form(r), s),
            (Kind::CircleCircle, &[Point(c1), Round(r1), Point(c2), Round(r2), Touch(t)]) => {
                Eq::CircleCircle(c1, radius_form(r1), c2, radius_form(r2), contact(t))
            }
            (Kind::LineArcAt, &[Line(l), Point(c), Point(p)]) => Eq::LineArcAt(l, c, p),
            (Kind::ArcArcAt, &[Point(c1), Point(c2), Point(p)]) => Eq::ArcArcAt(c1, c2, p),
            (Kind::Midpoint, &[Point(p), Line(l)]) => Eq::Midpoint(p, l),
            (Kind::ArcMidpoint, &[Point(p), Point(c), Point(f), Point(t)]) => Eq::ArcMidpoint(p, c, f, t),
            (Kind::Symmetric, &[Point(p), Point(q), Line(l)]) => Eq::Symmetric(p, q, l),
            (Kind::EqualRadius, &[Point(c1), Point(f1), Point(c2), Point(f2)]) => Eq::EqualRadius(c1, f1, c2, f2),
            (kind, fields) => panic!("{kind:?} with the fields {fields:?}"),
        }
    }

    fn radius_form(r: job::Radius) -> Rad {
        match r {
            job::Radius::Point(p) => Rad::Point(p),
            job::Radius::Value(v) => Rad::Value(v),
        }
    }

    fn contact(c: job::Contact) -> Contact {
        match c {
            job::Contact::Outside => Contact::Outside,
            job::Contact::Inside(s) => Contact::Inside(s),
        }
    }
}
