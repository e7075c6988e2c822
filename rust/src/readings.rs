//! The probe: a reading held against what was expected.
use crate::{raw, Refusal};

#[derive(Clone, Copy, Debug, PartialEq, Eq)]
pub enum Verdict {
    Within,
    Ahead,
    Behind,
    Unset,
}

#[derive(Clone, Copy, Debug, PartialEq, Eq)]
pub struct Probed {
    pub offset: i64,
    pub verdict: Verdict,
}

/// The offset of a reading, and whether a tolerance below 2^63 allows it. A reading of 0 is no time at all: it is unset, with offset 0.
pub fn probe(reading: u64, expected: u64, tolerance: u64) -> Result<Probed, Refusal> {
    let mut answer = [0; 4];
    // SAFETY: the answer is a live array.
    unsafe { raw::otterchime_probe(reading, expected, tolerance, &mut answer) };
    let [number, place, offset, verdict] = answer;
    Refusal::of(number, place).map(|()| Probed { offset: offset as i64, verdict: verdict_of(verdict) })
}

fn verdict_of(number: u64) -> Verdict {
    match number {
        1 => Verdict::Within,
        2 => Verdict::Ahead,
        3 => Verdict::Behind,
        4 => Verdict::Unset,
        other => unreachable!("an accepted probe has a verdict, not {other}"),
    }
}
