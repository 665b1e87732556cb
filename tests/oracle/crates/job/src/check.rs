//! What a well-formed build may still be refused for: 4, then 5, then 6, each over the whole
//! build before the next.

use crate::{BAD_NUMBER, Build, Equation, Field, MAX_MAGNITUDE, MAX_ROWS, MIN_SIZE, MISSING, Radius, State, Status, TOO_MANY_ROWS};

pub fn check(build: &Build) -> Result<(), Status> {
    if !numbers_hold(build) {
        return Err(BAD_NUMBER);
    }
    if !references_hold(build) {
        return Err(MISSING);
    }
    if rows(build) > MAX_ROWS {
        return Err(TOO_MANY_ROWS);
    }
    Ok(())
}

/// The residual rows of all equations; measures add none.
pub fn rows(build: &Build) -> usize {
    build.equations.iter().map(|e| e.kind.rows()).sum()
}

/// Not finite means not within the bound either: a NaN compares false with everything.
fn within(v: f64) -> bool {
    v.abs() <= MAX_MAGNITUDE
}

fn numbers_hold(build: &Build) -> bool {
    let size = build.size >= MIN_SIZE && build.size <= MAX_MAGNITUDE;
    let points = build.points.iter().all(|p| {
        let place = match p.state {
            State::Placed(at) => at,
            State::Free | State::Kept => [0.0; 2],
        };
        p.start.into_iter().chain(place).all(within)
    });
    size && build.centre.into_iter().all(within) && points && all_fields(build).all(field_number_holds)
}

fn field_number_holds(field: Field) -> bool {
    match field {
        Field::Value(v) | Field::Radius(Radius::Value(v)) => within(v),
        Field::Point(_) | Field::Line(_) | Field::Axis(_) | Field::Side(_) | Field::Radius(Radius::Point(_)) | Field::Contact(_) => true,
    }
}

fn references_hold(build: &Build) -> bool {
    let (points, lines) = (build.points.len(), build.lines.len());
    let ends = build.lines.iter().flatten().all(|&p| p < points);
    ends && all_fields(build).all(|field| match field {
        Field::Point(p) | Field::Radius(Radius::Point(p)) => p < points,
        Field::Line(l) => l < lines,
        Field::Axis(_) | Field::Value(_) | Field::Side(_) | Field::Radius(Radius::Value(_)) | Field::Contact(_) => true,
    })
}

/// The fields of every equation and every measure.
fn all_fields(build: &Build) -> impl Iterator<Item = Field> + '_ {
    build.equations.iter().chain(&build.measures).flat_map(|e: &Equation| e.fields.iter().copied())
}
