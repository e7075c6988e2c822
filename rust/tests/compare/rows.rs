//! Soundness, cost and values of any plan, told from its words alone. Nothing is shifted: a chain's value at an index is a sum of binomials.
use otterchime::PLAN_WORDS;
use printer::folding::{self, binomials, value_at};
use printer::formula::power;

const MOST_ROWS: u64 = 128;
const ROW_WORDS: usize = 22;
const LONGEST_TEXT: u64 = 1024;

struct Row<'a> {
    kind: u64,
    a: u64,
    b: u64,
    elements: &'a [u64],
    first: u64,
    end: u64,
}

fn row(plan: &[u64], r: u64) -> Row<'_> {
    let words = &plan[1 + ROW_WORDS * r as usize..][..ROW_WORDS];
    Row { kind: words[0], a: words[1], b: words[2], elements: &words[3..20], first: words[20], end: words[21] }
}

fn is_sound_row(plan: &[u64], r: u64) -> bool {
    let Row { kind, a, b, elements, first, end } = row(plan, r);
    let columns = match kind {
        0 => a == 0 && b == 0,
        1 | 2 => (1..=16).contains(&a) && b == 0,
        3..=5 => a < r && b < r,
        6 => a < r && b == 0,
        7 => a < r && (2..=64).contains(&b),
        8 => a < r && b < r && row(plan, a).kind == 0 && row(plan, a).elements[0] % 2 == 1,
        _ => false,
    };
    let used = match kind {
        _ if !columns => return false,
        0 => 1,
        1 | 2 => a + 1,
        _ => 0,
    };
    elements[used as usize..].iter().all(|word| *word == 0) && first < end && end <= LONGEST_TEXT
}

pub fn is_sound(plan: &[u64]) -> bool {
    let rows = plan[0];
    (1..=MOST_ROWS).contains(&rows)
        && (0..rows).all(|r| is_sound_row(plan, r))
        && plan[1 + ROW_WORDS * rows as usize..PLAN_WORDS].iter().all(|word| *word == 0)
}

/// The rows of a sound plan as the independent implementation has them.
pub fn rows(plan: &[u64]) -> Vec<folding::Row> {
    let of_row = |r| {
        let Row { kind, a, b, elements, first, end } = row(plan, r);
        let used = match kind {
            0 => 1,
            1 | 2 => a as usize + 1,
            _ => 0,
        };
        folding::Row { kind, a, b, elements: elements[..used].to_vec(), span: first as usize..end as usize }
    };
    (0..plan[0]).map(of_row).collect()
}

pub fn cost(plan: &[u64]) -> u64 {
    let of_row = |r| match row(plan, r) {
        Row { kind: 0, .. } => 0,
        Row { kind: 1 | 2, a, .. } => a,
        Row { kind: 7, b, .. } => b - 1,
        Row { kind: 8, .. } => 128,
        _ => 1,
    };
    (0..plan[0]).map(of_row).sum()
}

/// The root's elements as a chain, if it is a constant or a sum chain.
pub fn root_chain(plan: &[u64]) -> Option<&[u64]> {
    let Row { kind, a, elements, .. } = row(plan, plan[0] - 1);
    (kind < 2).then(|| &elements[..=a as usize])
}

/// The root's value at an index so small that no binomial is over a word.
pub fn root_at(plan: &[u64], i: usize) -> u64 {
    let mut values: Vec<u64> = vec![];
    for r in 0..plan[0] {
        let Row { kind, a, b, elements, .. } = row(plan, r);
        let of = |operand: u64| values[operand as usize];
        values.push(match kind {
            0 => elements[0],
            1 => value_at(elements, i),
            2 => elements[..=a as usize].iter().zip(binomials(i)).fold(1, |all, (word, times)| all.wrapping_mul(power(*word, times))),
            3 => of(a).wrapping_add(of(b)),
            4 => of(a).wrapping_sub(of(b)),
            5 => of(a).wrapping_mul(of(b)),
            6 => of(a).wrapping_neg(),
            7 => power(of(a), b),
            _ => power(of(a), of(b)),
        });
    }
    values[plan[0] as usize - 1]
}
