//! Writes a build as the text of a job. Floats are written by their own bits, a NaN's too, so
//! that texts to be refused can be written as well.

use crate::{Build, Contact, Equation, Field, MEASURES, Point, Radius, Slot, State};

pub fn write(build: &Build) -> Vec<u8> {
    let mut text = format!(
        "points={}\nlines={}\nequations={}\nmeasures={}\ncentre={}\nsize={}\n",
        build.points.len(),
        build.lines.len(),
        build.equations.len(),
        build.measures.len(),
        pair(build.centre),
        bits(build.size)
    );
    build.points.iter().for_each(|p| text += &point(p));
    build.lines.iter().for_each(|l| text += &format!("l={},{}\n", l[0], l[1]));
    build.equations.iter().for_each(|e| text += &equation("e", e));
    build.measures.iter().for_each(|m| text += &equation("m", m));
    text.into_bytes()
}

fn point(p: &Point) -> String {
    let state = match p.state {
        State::Free => "free".to_string(),
        State::Kept => "kept".to_string(),
        State::Placed(at) => format!("at,{}", pair(at)),
    };
    format!("p={},{state}\n", pair(p.start))
}

fn equation(key: &str, e: &Equation) -> String {
    let measure = key == "m";
    debug_assert!(!measure || MEASURES.contains(&e.kind));
    let written = e.kind.slots().iter().zip(&e.fields).filter(|(slot, _)| !(measure && **slot == Slot::Value));
    let fields: String = written.map(|(_, f)| format!(",{}", field(*f))).collect();
    format!("{key}={}{fields}\n", e.kind.name())
}

fn field(f: Field) -> String {
    match f {
        Field::Point(n) | Field::Line(n) => n.to_string(),
        Field::Axis(axis) => ["x", "y"][axis].to_string(),
        Field::Value(v) => bits(v),
        Field::Side(s) | Field::Contact(Contact::Inside(s)) => sign(s),
        Field::Radius(Radius::Point(p)) => format!("p,{p}"),
        Field::Radius(Radius::Value(v)) => format!("v,{}", bits(v)),
        Field::Contact(Contact::Outside) => "o".to_string(),
    }
}

fn sign(s: f64) -> String {
    if s < 0.0 { "-" } else { "+" }.to_string()
}

fn pair(p: [f64; 2]) -> String {
    format!("{},{}", bits(p[0]), bits(p[1]))
}

fn bits(v: f64) -> String {
    format!("{:016x}", v.to_bits())
}
