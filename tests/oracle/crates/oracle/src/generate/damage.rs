//! Sound texts with one thing broken, for every refusal that a text can meet.

use chance::Rng;
use job::{BAD_FORM, Build, Field, MAX_TEXT, Radius, State};

use super::{Made, drawn, sections, several, soups, true_soup};

pub fn job(rng: &mut Rng) -> Made {
    let build = sound(rng);
    match rng.below(11) {
        0 => Made { class: "damaged-length", text: too_long(rng, job::write(&build)) },
        1 => Made { class: "damaged-count", text: too_many(rng, job::write(&build)) },
        2 => Made { class: "damaged-number", text: job::write(&bad_number(rng, build)) },
        3 => Made { class: "damaged-reference", text: job::write(&bad_reference(rng, build)) },
        4 => Made { class: "damaged-rows", text: job::write(&too_many_rows(rng, build)) },
        5 => Made { class: "damaged-twice", text: damaged_twice(rng, build) },
        6 => Made { class: "damaged-byte", text: one_byte(rng, job::write(&build)) },
        _ => Made { class: "damaged-form", text: bad_form(rng, job::write(&build)) },
    }
}

fn sound(rng: &mut Rng) -> Build {
    match rng.below(4) {
        0 => drawn(rng, sections::slanted_chute),
        1 => several(rng),
        2 => true_soup(rng),
        _ => soups::wild_soup(rng),
    }
}

fn too_long(rng: &mut Rng, mut text: Vec<u8>) -> Vec<u8> {
    let over = rng.pick(&[1, 2, 1000]);
    text.resize(MAX_TEXT + over, b'\n');
    text
}

/// Two things broken at once: the order of the refusals decides.
fn damaged_twice(rng: &mut Rng, build: Build) -> Vec<u8> {
    let crowded = if rng.chance(0.5) { too_many_rows(rng, build) } else { build };
    let dangling = bad_reference(rng, crowded);
    let build = if rng.chance(0.5) { bad_number(rng, dangling) } else { dangling };
    let text = job::write(&build);
    if rng.chance(0.3) { bad_form(rng, text) } else { text }
}

/// A count beyond its bound; what follows no longer matters, so it is cut or broken at will. A
/// count line that is broken itself still comes first.
fn too_many(rng: &mut Rng, text: Vec<u8>) -> Vec<u8> {
    let mut lines = split(&text);
    let which = rng.below(4);
    let bound = [41, 41, 41, 21][which];
    let count = rng.pick(&[bound, bound + 1, 99_999]);
    let key = ["points", "lines", "equations", "measures"][which];
    lines[which] = format!("{key}={count}\n").into_bytes();
    match rng.below(4) {
        0 => lines.truncate(4),
        1 => lines.push(b"anything".to_vec()),
        2 => lines[(which + 1) % 4].insert(0, b' '),
        _ => {}
    }
    lines.concat()
}

fn bad_number(rng: &mut Rng, mut build: Build) -> Build {
    let bad = rng.pick(&[f64::NAN, -f64::NAN, f64::INFINITY, f64::NEG_INFINITY, 1_000_001.0, -1e300]);
    let values: Vec<&mut f64> = every_float(&mut build);
    let which = rng.below(values.len());
    *values.into_iter().nth(which).expect("which is below the count") = bad;
    build
}

/// Every float of the build that rule 4 looks at.
fn every_float(build: &mut Build) -> Vec<&mut f64> {
    let mut floats = vec![&mut build.size];
    floats.extend(&mut build.centre);
    for p in &mut build.points {
        floats.extend(&mut p.start);
        if let State::Placed(at) = &mut p.state {
            floats.extend(at);
        }
    }
    for field in build.equations.iter_mut().flat_map(|e| &mut e.fields) {
        if let Field::Value(v) | Field::Radius(Radius::Value(v)) = field {
            floats.push(v);
        }
    }
    floats
}

fn bad_reference(rng: &mut Rng, mut build: Build) -> Build {
    let (points, lines) = (build.points.len(), build.lines.len());
    let mut numbers: Vec<(&mut usize, usize)> = build.lines.iter_mut().flatten().map(|p| (p, points)).collect();
    for field in build.equations.iter_mut().chain(&mut build.measures).flat_map(|e| &mut e.fields) {
        match field {
            Field::Point(p) | Field::Radius(Radius::Point(p)) => numbers.push((p, points)),
            Field::Line(l) => numbers.push((l, lines)),
            Field::Axis(_) | Field::Value(_) | Field::Side(_) | Field::Radius(Radius::Value(_)) | Field::Contact(_) => {}
        }
    }
    if numbers.is_empty() {
        build.lines.push([0, points]);
        return build;
    }
    let which = rng.below(numbers.len());
    let (number, count) = numbers.into_iter().nth(which).expect("which is below the count");
    *number = rng.pick(&[count, count + 1, 99_999]);
    build
}

/// Two-row equations until there are 65 rows and more, within the 40 equations.
fn too_many_rows(rng: &mut Rng, mut build: Build) -> Build {
    let last = build.points.len() - 1;
    build.equations.truncate(2);
    let count = rng.between(33, 38);
    for _ in 0..count {
        let fields = vec![Field::Point(rng.between(0, last)), Field::Point(rng.between(0, last))];
        build.equations.push(job::Equation { kind: job::Kind::Coincident, fields });
    }
    build
}

/// Any one byte replaced, dropped or doubled: most are refused, some are other builds.
fn one_byte(rng: &mut Rng, mut text: Vec<u8>) -> Vec<u8> {
    let at = rng.below(text.len());
    match rng.below(3) {
        0 => text[at] = rng.pick(b"0123456789abcdefABF,=-+\n\r pvoxyz\0\xff"),
        1 => drop(text.remove(at)),
        _ => text.insert(at, text[at]),
    }
    text
}

/// Breaks of the form alone. A break that happens to leave a well-formed text (a swap of equal
/// lines) is made again.
fn bad_form(rng: &mut Rng, text: Vec<u8>) -> Vec<u8> {
    loop {
        let broken = break_form(rng, &text);
        if job::read_form(&broken) == Err(BAD_FORM) {
            return broken;
        }
    }
}

fn break_form(rng: &mut Rng, text: &[u8]) -> Vec<u8> {
    let mut lines = split(text);
    let at = rng.below(lines.len());
    match rng.below(12) {
        0 => return text[..rng.below(text.len())].to_vec(),
        1 => drop(lines.remove(at)),
        2 => lines.insert(at, lines[at].clone()),
        3 => lines.swap(at, rng.pick(&[0, 4, 5])),
        4 => lines.insert(at, b"\n".to_vec()),
        5 => lines[at].insert(0, b' '),
        6 => {
            let end = lines[at].len() - 1;
            lines[at].splice(end.., *b"\r\n");
        }
        7 => lines[at].make_ascii_uppercase(),
        8 => lines.push(rng.pick(&[&b"m=distance,0,0\n"[..], b"\n", b"x", b"\0"]).to_vec()),
        9 => {
            let more = rng.pick(&[&b",0\n"[..], b",3ff0000000000000\n", b",+\n", b",\n"]);
            lines[at] = [&lines[at][..lines[at].len() - 1], more].concat();
        }
        _ => lines[at] = respelled(rng, &lines[at]),
    }
    lines.concat()
}

/// Spellings that look right: each word of a line has some.
const SPELLINGS: [(&str, &str); 32] = [
    ("=", "=0"),
    ("=", "=10000"),
    ("=", "=\n"),
    ("=", "=+"),
    ("=", "=-"),
    ("=", " ="),
    ("=", ":"),
    (",", ", "),
    (",", ",,"),
    (",", ",0"),
    (",", ",10000"),
    ("a", "A"),
    ("b", "B"),
    ("c", "C"),
    ("d", "g"),
    (",", ";"),
    (",-", ",\u{2212}"),
    (",+", ",1"),
    (",x", ",0"),
    (",y", ",X"),
    (",free", ",fixed"),
    (",kept", ",kept,"),
    (",at,", ",at"),
    (",p,", ",v,"),
    (",v,", ",p,"),
    (",o", ",O"),
    ("e=distance", "e=angle"),
    ("e=radius", "e=arclength"),
    ("e=length", "e=arcangle"),
    ("m=distance", "m=coincident"),
    ("m=radius", "m=level"),
    ("e=", "m="),
];

fn respelled(rng: &mut Rng, line: &[u8]) -> Vec<u8> {
    let line = String::from_utf8(line.to_vec()).expect("a sound text is ASCII");
    let (old, new) = rng.pick(&SPELLINGS);
    line.replacen(old, new, 1).into_bytes()
}

/// The lines of a text, each with its newline.
fn split(text: &[u8]) -> Vec<Vec<u8>> {
    text.split_inclusive(|&b| b == b'\n').map(<[u8]>::to_vec).collect()
}
