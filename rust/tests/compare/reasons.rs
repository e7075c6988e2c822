//! Why rows are still there, against the independent implementation: in compiled plans, in sound plans from elsewhere, and in unsound ones.
use crate::plans::{damage, damaged, words_of, Grid};
use crate::{on_many, rows, word};
use otterchime::{reason, Explained, Plan, Reason, Refusal, PLAN_WORDS};
use printer::folding::Row;
use printer::random::Random;
use printer::reasons::{self, WORDS};

const MOST_ROWS: usize = 128;
const LONGEST_TEXT: usize = 1024;

/// How often no reason and each reason is given.
type Counts = [usize; 8];

fn told(what: &str, counts: &Counts) {
    crate::tell(&format!("{what}: rows with no reason, and with 1 to 7: {counts:?}"));
}

/// Holds the answers for all rows of a sound plan, and for rows that it doesn't have, to what is expected. The numbers of the reasons.
fn check_sound(plan: &[u64], random: &mut Random, counts: &mut Counts) -> Vec<u64> {
    let rows = rows::rows(plan);
    let mut numbers = vec![];
    for (r, row) in rows.iter().enumerate() {
        let Explained { reason, span } = reason(plan, r as u64).expect("sound");
        let number = reason.map_or(0, Reason::number);
        assert_eq!((number, &span), (reasons::reason(&rows, r), &row.span), "row {r} of {rows:?}");
        counts[number as usize] += 1;
        numbers.push(number);
    }
    let none = Ok(Explained { reason: None, span: 0..0 });
    for past in [rows.len() as u64, rows.len() as u64 + 1, 127, 128, u64::MAX, word(random)] {
        if past >= rows.len() as u64 {
            assert_eq!(reason(plan, past), none, "row {past} of {}", rows.len());
        }
    }
    numbers
}

fn check_unsound(plan: &[u64], random: &mut Random) {
    for row in [0, 1, plan[0], random.below(MOST_ROWS) as u64, word(random)] {
        assert_eq!(reason(plan, row), Err(Refusal::PlanNotSound));
    }
}

/// A compiled plan's rows have none that 01 would have folded, and the same reasons after filling.
#[test]
fn reasons_of_formulas() {
    let mut counts = [0; 8];
    on_many("reasons of formulas", |random| {
        let text = random.formula();
        let grid = Grid::random(random);
        let Ok(mut plan) = Plan::compile(&text, grid.start, grid.step) else { return };
        let numbers = check_sound(plan.words(), random, &mut counts);
        assert!(!numbers.contains(&7), "{}", text.escape_ascii());
        let each: Vec<u64> = (0..numbers.len()).map(|r| plan.reason(r).map_or(0, Reason::number)).collect();
        assert_eq!(each, numbers);
        plan.fill(&mut [0; 3], u64::MAX);
        assert_eq!(check_sound(plan.words(), random, &mut [0; 8]), numbers);
    });
    told("reasons of formulas", &counts);
}

/// The elements of a chain, which may be trimmed to a shorter one or to a constant.
fn some_elements(random: &mut Random, unit: u64) -> Vec<u64> {
    let length = if random.percent(50) { random.between(1, 3) } else { random.between(1, 16) };
    let mut elements: Vec<u64> = (0..=length).map(|_| word(random)).collect();
    if random.percent(50) {
        let tail = random.below(length + 1);
        elements[length - tail..].fill(unit);
    }
    if random.percent(20) {
        elements[0] = random.below(2) as u64;
    }
    elements
}

/// Any earlier row, shared or not; every second time a constant or a chain.
fn some_operand(random: &mut Random, before: &[Row]) -> u64 {
    let folded: Vec<usize> = (0..before.len()).filter(|r| before[*r].kind < 3).collect();
    let operand = if random.percent(50) { folded[random.below(folded.len())] } else { random.below(before.len()) };
    operand as u64
}

/// A row that may stand behind these.
fn some_row(random: &mut Random, before: &[Row]) -> Row {
    let odd: Vec<usize> = (0..before.len()).filter(|r| before[*r].kind == 0 && before[*r].elements[0] % 2 == 1).collect();
    let kind = match before.len() {
        0 => random.below(3),
        _ if odd.is_empty() => random.weighted(&[15, 18, 15, 10, 10, 18, 6, 8]),
        _ => random.weighted(&[12, 18, 15, 10, 10, 18, 6, 8, 6]),
    };
    let (a, b) = match kind {
        0..=2 => (0, 0),
        6 => (some_operand(random, before), 0),
        7 => (some_operand(random, before), [2, 2, 3, 4, 8, 16, 17, 64][random.below(8)]),
        8 => (odd[random.below(odd.len())] as u64, some_operand(random, before)),
        _ => (some_operand(random, before), some_operand(random, before)),
    };
    let elements = match kind {
        0 => vec![if random.percent(50) { random.below(2) as u64 } else { word(random) }],
        1 => some_elements(random, 0),
        2 => some_elements(random, 1),
        _ => vec![],
    };
    let first = random.below(LONGEST_TEXT);
    let a = if matches!(kind, 1 | 2) { elements.len() as u64 - 1 } else { a };
    Row { kind: kind as u64, a, b, elements, span: first..random.between(first + 1, LONGEST_TEXT) }
}

/// A sound plan that no compiler wrote, with words behind it.
fn from_elsewhere(random: &mut Random) -> Vec<u64> {
    let count = if random.percent(3) { MOST_ROWS } else { random.between(1, 14) };
    let mut rows = vec![];
    while rows.len() < count {
        rows.push(some_row(random, &rows));
    }
    let mut plan = words_of(&rows);
    plan.extend((0..random.below(3)).map(|_| word(random)));
    plan
}

#[test]
fn reasons_of_plans_from_elsewhere() {
    let mut counts = [0; 8];
    on_many("reasons of plans from elsewhere", |random| {
        let plan = from_elsewhere(random);
        assert!(rows::is_sound(&plan));
        check_sound(&plan, random, &mut counts);
    });
    told("reasons of plans from elsewhere", &counts);
}

#[test]
fn reasons_of_damaged_plans() {
    let (mut counts, mut unsound) = ([0; 8], 0);
    on_many("reasons of damaged plans", |random| {
        let plan = if random.percent(50) {
            damaged(random)
        } else {
            let mut plan = from_elsewhere(random);
            damage(&mut plan, random);
            plan
        };
        if rows::is_sound(&plan) {
            check_sound(&plan, random, &mut counts);
        } else {
            check_unsound(&plan, random);
            unsound += 1;
        }
    });
    told(&format!("reasons of damaged plans: {unsound} are refused 9"), &counts);
}

/// One row after the other is the sum of the row before it with itself: as a tree the last one has 2^127 leaves.
#[test]
fn reasons_of_shared_rows() {
    let constant = Row { kind: 0, a: 0, b: 0, elements: vec![5], span: 0..1 };
    let doubled = (0..127).map(|before| Row { kind: 3, a: before, b: before, elements: vec![], span: 0..1 });
    let plan = words_of(&std::iter::once(constant).chain(doubled).collect::<Vec<Row>>());
    let reasons: Vec<u64> = (0..128).map(|r| reason(&plan, r).expect("sound").reason.map_or(0, Reason::number)).collect();
    assert_eq!(reasons[..3], [0, 7, 1]);
    assert!(reasons[2..].iter().all(|reason| *reason == 1));
}

#[test]
fn words_of_the_reasons() {
    use Reason::*;
    let all = [OperandIsOperator, LengthsAddOver16, LengthTimesExponentOver16, SumAgainstProduct, TwoProductChains, ExponentNoSum, WouldHaveFolded];
    assert_eq!(all.map(Reason::number), [1, 2, 3, 4, 5, 6, 7]);
    assert_eq!(all.map(|reason| reason.to_string()), WORDS);
}

/// The numbers of examples/README.md.
#[test]
fn the_example() {
    let plan = Plan::compile(b"x^8*x^9+3^(x)", 0, 1).expect("accepted");
    let reasons: Vec<Option<Reason>> = (0..5).map(|row| plan.reason(row)).collect();
    assert_eq!(reasons, [None, None, Some(Reason::LengthsAddOver16), None, Some(Reason::OperandIsOperator)]);
    assert_eq!(Reason::LengthsAddOver16.to_string(), "lengths add over 16");
    assert_eq!((plan.rows().len(), plan.cost(), plan.reason(5)), (5, 20, None));
}

#[test]
fn refused_reasons() {
    assert_eq!(reason(&vec![1; PLAN_WORDS - 1], 0), Err(Refusal::PlanTooShort));
    assert_eq!(reason(&[], u64::MAX), Err(Refusal::PlanTooShort));
    assert_eq!(reason(&vec![0; PLAN_WORDS], 0), Err(Refusal::PlanNotSound));
    assert_eq!(reason(&vec![0; PLAN_WORDS], u64::MAX), Err(Refusal::PlanNotSound));
}
