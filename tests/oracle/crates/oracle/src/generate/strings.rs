//! Texts that are hardly jobs.

use chance::Rng;
use job::MAX_TEXT;

use super::{Made, job};

/// The signs that jobs are written in, and some that they are not.
const SIGNS: &[u8] = b"0123456789abcdefplemxyv=,\n-+ABF.\r \0";

/// String `index` of the seed: any bytes, signs in any order, or good count lines and then lines of a job in any order; now and then one
/// at the limit of length.
pub fn string(seed: u64, index: u64) -> Made {
    let rng = &mut Rng::new(seed, index);
    match rng.below(500) {
        0 => Made { class: "limit", text: any(rng, MAX_TEXT - 4, MAX_TEXT + 5) },
        1..125 => Made { class: "bytes", text: any(rng, 0, 199) },
        125..250 => Made { class: "signs", text: (0..rng.below(60)).map(|_| rng.pick(SIGNS)).collect() },
        _ => Made { class: "lines", text: lines(rng, &job(seed, index).text) },
    }
}

fn any(rng: &mut Rng, low: usize, high: usize) -> Vec<u8> {
    (0..rng.between(low, high)).map(|_| rng.bits() as u8).collect()
}

fn lines(rng: &mut Rng, text: &[u8]) -> Vec<u8> {
    let from: Vec<&[u8]> = text.split_inclusive(|&b| b == b'\n').collect();
    let mut count = || rng.pick(&[0, 1, 2, 3, 40, 41]);
    let mut text = format!("points={}\nlines={}\nequations={}\nmeasures={}\n", count(), count(), count(), count()).into_bytes();
    // A damaged job may have no lines at all.
    let more = if from.is_empty() { 0 } else { rng.below(12) };
    (0..more).for_each(|_| text.extend(rng.pick(&from)));
    text
}

/// Every form of a text with one byte deleted, doubled or changed.
pub fn damaged(seed: u64, text: &[u8]) -> Vec<Made> {
    let mut forms = Vec::new();
    for i in 0..text.len() {
        let (before, after) = (&text[..i], &text[i + 1..]);
        let others: Vec<u8> = SIGNS.iter().copied().filter(|b| *b != text[i]).collect();
        let other = Rng::new(seed, i as u64).pick(&others);
        forms.push(Made { class: "deleted", text: [before, after].concat() });
        forms.push(Made { class: "doubled", text: [before, &[text[i]; 2], after].concat() });
        forms.push(Made { class: "changed", text: [before, &[other], after].concat() });
    }
    forms
}
