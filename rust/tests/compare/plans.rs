//! Compiling, filling, cost and soundness: compiled plans against direct values, and damaged plans against their words.
use crate::{on_many, rows, word};
use otterchime::{compile, cost, fill, reason, sound, Filled, Plan, Refusal, PLAN_WORDS, ROW_WORDS};
use printer::folding::{self, part, Row};
use printer::formula::{read, value, Tree};
use printer::random::Random;

const BEHIND: usize = 3;
const MOST_POINTS: usize = 40;

/// The words of a plan of these rows.
pub fn words_of(rows: &[Row]) -> Vec<u64> {
    let mut words = vec![rows.len() as u64];
    for row in rows {
        let elements = row.elements.iter().copied().chain(std::iter::repeat(0)).take(17);
        words.extend([row.kind, row.a, row.b].into_iter().chain(elements));
        words.extend([row.span.start as u64, row.span.end as u64]);
    }
    words.resize(PLAN_WORDS, 0);
    words
}

pub struct Grid {
    pub start: u64,
    pub step: u64,
}

impl Grid {
    pub fn random(random: &mut Random) -> Grid {
        Grid { start: word(random), step: word(random) }
    }

    fn x(&self, i: usize) -> u64 {
        self.start.wrapping_add((i as u64).wrapping_mul(self.step))
    }
}

/// One fill into a table of random words: what it answers, what stands behind the points, and the points themselves.
fn fill_once(plan: &mut [u64], point_cost: u64, random: &mut Random) -> Vec<u64> {
    let room = random.below(9);
    let before: Vec<u64> = (0..room + BEHIND).map(|_| random.word()).collect();
    let mut table = before.clone();
    let budget = match random.below(3) {
        0 => u64::MAX,
        1 => random.below(8) as u64 * point_cost + random.below(2) as u64 * (point_cost - 1),
        _ => random.word() >> random.below(64),
    };
    let points = room.min((budget / point_cost).try_into().unwrap_or(usize::MAX));
    let filled = fill(plan, &mut table[..room], budget);
    assert_eq!(filled, Ok(Filled { points, spent: points as u64 * point_cost }));
    assert_eq!(table[points..], before[points..]);
    table.truncate(points);
    table
}

/// Several fills of one plan, so many that some points are written or none can be.
fn fill_some(plan: &mut [u64], point_cost: u64, random: &mut Random, expected: impl Fn(usize) -> u64) -> usize {
    let mut written = vec![];
    for _ in 0..random.between(1, 6) {
        if written.len() + 8 <= MOST_POINTS {
            written.extend(fill_once(plan, point_cost, random));
        }
    }
    let direct: Vec<u64> = (0..written.len()).map(expected).collect();
    assert_eq!(written, direct);
    written.len()
}

fn check_accepted(text: &[u8], tree: &Tree, grid: &Grid, plan: &mut [u64], random: &mut Random) {
    let expected = part(tree, grid.start, grid.step);
    let expected_rows = expected.plan();
    let expected_cost = folding::cost(&expected_rows);
    assert_eq!((plan[0], cost(plan), sound(plan)), (expected_rows.len() as u64, Ok(expected_cost), Ok(())));
    assert_eq!(plan[..PLAN_WORDS], words_of(&expected_rows));
    assert!(rows::is_sound(plan));
    let points = fill_some(plan, expected_cost + 1, random, |i| value(tree, grid.x(i)));
    if expected.folded.sums().is_some() {
        let later = Plan::compile(text, grid.x(points), grid.step).expect("accepted on every grid");
        assert_eq!(&plan[..PLAN_WORDS], later.words());
    }
}

#[test]
fn formulas() {
    let mut answers = [0; 9];
    on_many("formulas", |random| {
        let text = random.formula();
        let grid = Grid::random(random);
        let length = if random.percent(3) { random.below(PLAN_WORDS) } else { PLAN_WORDS + random.below(BEHIND) };
        let before: Vec<u64> = (0..length).map(|_| random.word()).collect();
        let mut plan = before.clone();
        let tree = if length < PLAN_WORDS { Err((1, 0)) } else { read(&text) };
        let answer = compile(&text, grid.start, grid.step, &mut plan);
        let shown = text.escape_ascii();
        match tree {
            Ok(tree) => {
                assert_eq!(answer, Ok(()), "{shown}");
                assert_eq!(plan[PLAN_WORDS..], before[PLAN_WORDS..], "{shown}");
                check_accepted(&text, &tree, &grid, &mut plan, random);
                answers[0] += 1;
            }
            Err(refusal) => {
                let refused = answer.expect_err("refused");
                assert_eq!((refused.number(), refused.place()), refusal, "{shown}");
                assert!(plan == before, "{shown}");
                answers[refusal.0 as usize] += 1;
            }
        }
    });
    crate::tell(&format!("formulas: accepted, and refused 1 to 8: {answers:?}"));
}

/// A compiled plan with some words changed.
pub fn damaged(random: &mut Random) -> Vec<u64> {
    let text = random.formula();
    let Grid { start, step } = Grid::random(random);
    let mut plan = Plan::compile(&text, start, step).map_or(vec![0; PLAN_WORDS], |plan| plan.words().to_vec());
    damage(&mut plan, random);
    plan
}

/// Changes some words of a plan, or none, mostly in its rows.
pub fn damage(plan: &mut [u64], random: &mut Random) {
    for _ in 0..random.between(0, 2) {
        let rows = ROW_WORDS * plan[0].min(127) as usize;
        let at = if random.percent(90) { random.below(rows + ROW_WORDS + 1) } else { random.below(PLAN_WORDS) };
        plan[at] = match random.below(3) {
            0 => random.below(9) as u64,
            1 => plan[at] ^ (1 << random.below(6)),
            _ => word(random),
        };
    }
}

#[test]
fn damaged_plans() {
    let mut sound_ones = 0;
    on_many("damaged plans", |random| {
        let mut plan = damaged(random);
        let before = plan.clone();
        if rows::is_sound(&plan) {
            assert_eq!((sound(&plan), cost(&plan)), (Ok(()), Ok(rows::cost(&plan))));
            fill_some(&mut plan, rows::cost(&before) + 1, random, |i| rows::root_at(&before, i));
            sound_ones += 1;
            return;
        }
        let mut table = [7; 5];
        assert_eq!(sound(&plan), Err(Refusal::PlanNotSound));
        assert_eq!(cost(&plan), Err(Refusal::PlanNotSound));
        let room = random.below(6);
        assert_eq!(fill(&mut plan, &mut table[..room], word(random)), Err(Refusal::PlanNotSound));
        assert!(plan == before && table == [7; 5]);
    });
    crate::tell(&format!("damaged plans: {sound_ones} are sound"));
}

#[test]
fn short_plans() {
    for length in [0, 1, 22, 2561, 2816] {
        let mut plan = vec![1; length];
        let mut table = [7; 5];
        assert_eq!(sound(&plan), Err(Refusal::PlanTooShort));
        assert_eq!(cost(&plan), Err(Refusal::PlanTooShort));
        assert_eq!(reason(&plan, 0), Err(Refusal::PlanTooShort));
        assert_eq!(fill(&mut plan, &mut table, 100), Err(Refusal::PlanTooShort));
        assert_eq!(compile(b"x", 0, 1, &mut plan), Err(Refusal::PlanTooShort));
        assert_eq!((plan, table), (vec![1; length], [7; 5]));
    }
}
