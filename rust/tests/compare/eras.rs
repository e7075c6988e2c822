//! Filling with era count against the root's exact position in whole numbers, and its table and plan against those of a fill.
use crate::plans::damaged;
use crate::{on_many, rows, word};
use otterchime::{fill, fill_eras, Filled, FilledEras, Plan, Refusal, PLAN_WORDS};
use printer::folding::value_at;
use printer::random::Random;

/// "The exact position, start value plus all signed steps, must equal the final first element plus 2^64 times the sum": a step is the value that
/// the chain from element 1 on has at its point.
fn expected_sum(chain: &[u64], points: usize) -> i64 {
    let step = |i| i128::from(value_at(&chain[1..], i) as i64);
    let position = i128::from(chain[0]) + (0..points).map(step).sum::<i128>();
    assert_eq!(position.rem_euclid(1 << 64), i128::from(value_at(chain, points)));
    position.div_euclid(1 << 64) as i64
}

/// A plan of one sum chain, or a plan of any rows.
fn some_plan(random: &mut Random) -> Vec<u64> {
    if random.percent(50) {
        return damaged(random);
    }
    let length = random.between(1, 4);
    let mut plan = vec![0; PLAN_WORDS];
    plan[..4].copy_from_slice(&[1, 1, length as u64, 0]);
    plan[4..=4 + length].fill_with(|| word(random));
    plan[22] = 1;
    plan
}

/// Several calls on one plan, each beside a fill of a plan of its own: the sums add up to that of all points.
fn count_some(plan: &mut [u64], chain: &[u64], random: &mut Random) {
    let mut other = plan.to_vec();
    let (mut points, mut sum) = (0, 0);
    for _ in 0..random.between(1, 5) {
        let (mut table, mut filled) = ([7; 8], [7; 8]);
        let (room, budget) = (random.below(8), word(random));
        let counted = fill_eras(plan, &mut table[..room], budget).expect("accepted");
        let Filled { points: written, spent } = fill(&mut other, &mut filled[..room], budget).expect("accepted");
        assert_eq!((counted.points, counted.spent), (written, spent));
        assert!(table == filled && *plan == other);
        points += written;
        sum += counted.sum;
        assert_eq!(sum, expected_sum(chain, points));
    }
}

#[test]
fn eras() {
    let mut answers = [0; 3];
    on_many("eras", |random| {
        let mut plan = some_plan(random);
        let before = plan.clone();
        let chain = rows::is_sound(&plan).then(|| rows::root_chain(&before));
        if let Some(Some(chain)) = chain {
            count_some(&mut plan, chain, random);
            answers[0] += 1;
            return;
        }
        let mut table = [7; 5];
        let refusal = if chain.is_some() { Refusal::RootWithoutEras } else { Refusal::PlanNotSound };
        let room = random.below(6);
        assert_eq!(fill_eras(&mut plan, &mut table[..room], word(random)), Err(refusal));
        assert!(plan == before && table == [7; 5]);
        answers[1 + usize::from(chain.is_some())] += 1;
    });
    crate::tell(&format!("eras: accepted, and refused 9 and 16: {answers:?}"));
}

/// Stamps every second across 2036-02-07 06:28:16 UTC, where the seconds of an NTP era begin again at 0.
#[test]
fn the_drill() {
    let second = 1 << 32;
    let start = 0u64.wrapping_sub(4 * second);
    for calls in [&[8][..], &[1, 4, 3], &[4, 4], &[0, 5, 0, 3]] {
        let mut plan = Plan::compile(b"x", start, second).expect("accepted");
        let mut stamps = vec![];
        let mut eras = 0;
        for room in calls {
            let mut table = vec![0; *room];
            let FilledEras { points, sum, .. } = plan.fill_eras(&mut table, u64::MAX).expect("a sum chain");
            assert_eq!(points, *room);
            stamps.extend(table);
            eras += sum;
        }
        assert_eq!(eras, 1);
        assert_eq!(stamps, (0..8).map(|i| start.wrapping_add(i * second)).collect::<Vec<u64>>());
    }
}

/// The numbers of examples/README.md.
#[test]
fn the_example() {
    let compiled = || Plan::compile(b"x", 18446744065119617024, 4294967296).expect("accepted");
    let mut plan = compiled();
    let mut table = [0; 4];
    let filled = plan.fill_eras(&mut table, u64::MAX).expect("a sum chain");
    assert_eq!((table, filled.sum), ([18446744065119617024, 18446744069414584320, 0, 4294967296], 1));
    assert_eq!(plan.words()[4], 8589934592);
    let mut halves = compiled();
    let sums = [(); 2].map(|()| halves.fill_eras(&mut table[..2], u64::MAX).expect("a sum chain").sum);
    assert_eq!((sums, halves), ([1, 0], plan));
}

#[test]
fn refusals_of_eras() {
    let mut table = [7; 3];
    for text in ["x^17", "3^(x)", "x+3^(x)", "-x^17", "3^(3^(x))"] {
        let mut plan = Plan::compile(text.as_bytes(), 0, 1).expect("accepted");
        let before = plan.clone();
        assert_eq!(plan.fill_eras(&mut table, u64::MAX), Err(Refusal::RootWithoutEras));
        assert_eq!((&plan, table), (&before, [7; 3]));
    }
    let refusal = Refusal::RootWithoutEras.to_string();
    assert_eq!(refusal, "refused 16 at 0: the plan's root is neither a constant nor a sum chain");
    assert_eq!(fill_eras(&mut vec![1; PLAN_WORDS - 1], &mut table, 9), Err(Refusal::PlanTooShort));
}
