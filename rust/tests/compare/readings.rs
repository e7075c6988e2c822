//! The probe against whole numbers that are wide enough to hold every difference.
use crate::{on_many, word};
use otterchime::{probe, Probed, Refusal, Verdict};

fn expected_probe(reading: u64, expected: u64, tolerance: u64) -> Result<Probed, Refusal> {
    if tolerance >= 1 << 63 {
        return Err(Refusal::ToleranceTooLarge);
    }
    if reading == 0 {
        return Ok(Probed { offset: 0, verdict: Verdict::Unset });
    }
    let apart = i128::from(reading) - i128::from(expected);
    let offset = [apart - (1 << 64), apart, apart + (1 << 64)].into_iter().find_map(|offset| i64::try_from(offset).ok());
    let offset = offset.expect("one of the three is a signed word");
    let verdict = match i128::from(offset) {
        above if above > i128::from(tolerance) => Verdict::Ahead,
        below if below < -i128::from(tolerance) => Verdict::Behind,
        _ => Verdict::Within,
    };
    Ok(Probed { offset, verdict })
}

#[test]
fn readings() {
    let mut verdicts = [0; 5];
    on_many("readings", |random| {
        let (reading, expected) = (word(random), word(random));
        let apart = reading.wrapping_sub(expected);
        let tolerance = match random.below(3) {
            0 => word(random),
            1 => apart.wrapping_add(word(random) % 3).wrapping_sub(1),
            _ => apart.wrapping_neg().wrapping_add(word(random) % 3).wrapping_sub(1),
        };
        let answer = probe(reading, expected, tolerance);
        assert_eq!(answer, expected_probe(reading, expected, tolerance), "{reading} {expected} {tolerance}");
        verdicts[answer.map_or(0, |probed| 1 + probed.verdict as usize)] += 1;
    });
    crate::tell(&format!("readings: refused, within, ahead, behind, unset: {verdicts:?}"));
}
