//! Why a row of a plan is still there: document 02's seven reasons, each by its own sentence, over the operands as 01's rules see them.
use crate::folding::{operated, trimmed_products, trimmed_sums, Folded, Part, Row, LONGEST};
use Folded::*;

/// Document 02's words, in its order. Reasons are numbered from 1.
pub const WORDS: [&str; 7] = [
    "an operand is itself of kinds 3 to 8", "lengths add over 16", "length times n over 16", "sum chain or constant against product chain",
    "two product chains under + or -", "exponent of a raise neither constant nor sum chain", "01 would have folded it",
];
const WOULD_HAVE_FOLDED: u64 = 7;

/// An operand as the rules see it: a chain trimmed, an operator as it stands. No rule looks at what an operator stands on, and where rows are shared
/// that may be too large to write out, so it is left out.
fn operand(rows: &[Row], r: u64) -> Part {
    let row = &rows[r as usize];
    let folded = match row.kind {
        0 => Constant(row.elements[0]),
        1 => trimmed_sums(row.elements.clone()),
        2 => trimmed_products(row.elements.clone()),
        kind => Operator { kind, times: 0, operands: vec![] },
    };
    Part { folded, span: row.span.clone() }
}

/// Which of the first six reasons hold of an operator over these operands, each by its own words.
fn holding(kind: u64, n: u64, operands: &[&Folded]) -> [bool; 6] {
    let length = |chain: &[u64]| chain.len() - 1;
    let is_operator = |operand: &&Folded| matches!(operand, Operator { .. });
    let is_products = |operand: &&Folded| matches!(operand, Products(_));
    let products = operands.iter().copied().filter(|operand| is_products(operand)).count();
    let sums = operands.iter().filter(|operand| operand.sums().is_some()).count();
    [
        kind != 8 && operands.iter().any(is_operator),
        kind == 5 && matches!(operands, [Sums(f), Sums(g)] if length(f) + length(g) > LONGEST),
        kind == 7 && matches!(operands, [Sums(f)] if length(f) * n as usize > LONGEST),
        (3..=5).contains(&kind) && products == 1 && sums == 1,
        (3..=4).contains(&kind) && products == 2,
        kind == 8 && operands[1].sums().is_none(),
    ]
}

/// The number of the one reason of a row of kinds 3 to 8, and 0 of any other row. "The last is judged first."
pub fn reason(rows: &[Row], r: usize) -> u64 {
    let Row { kind, a, b, .. } = rows[r];
    let (n, operands) = match kind {
        0..=2 => return 0,
        6 => (0, vec![operand(rows, a)]),
        7 => (b, vec![operand(rows, a)]),
        _ => (0, vec![operand(rows, a), operand(rows, b)]),
    };
    let itself = Operator { kind, times: n, operands: operands.clone() };
    if operated(kind, n, operands.clone()) != itself {
        return WOULD_HAVE_FOLDED;
    }
    let seen: Vec<&Folded> = operands.iter().map(|operand| &operand.folded).collect();
    let holding = (1..).zip(holding(kind, n, &seen)).filter(|(_, holds)| *holds);
    let reasons: Vec<u64> = holding.map(|(number, _)| number).collect();
    assert_eq!(reasons.len(), 1, "one reason and no other: {reasons:?} of {itself:?}");
    reasons[0]
}
