//! The rows of a plan: what each one is, the rows that it stands on, its elements, and the bytes of the text that it came from.
use crate::{PLAN_WORDS, ROW_WORDS};
use std::ops::Range;

/// What a row is. A literal power has its exponent, 2 to 64.
#[derive(Clone, Copy, Debug, PartialEq, Eq)]
pub enum RowKind {
    Constant,
    SumChain,
    ProductChain,
    Sum,
    Difference,
    Product,
    Minus,
    LiteralPower { exponent: u64 },
    Raise,
}

/// A row of a plan. Its operands are numbers of earlier rows, left before right; none of a constant or a chain. Its elements are f0 to fk of a
/// constant or a chain, as they stand at the present point; none of an operator. Its span is the bytes of the formula's text that it stands
/// for, so that `&text[row.span]` is what a row is of: brackets around that text are left out, and a row that an operator passes on
/// unchanged, as in 1*A, has all of the operator's bytes.
///
/// ```
/// # #[cfg(otterchime_linked)]
/// # {
/// let text = b"0-(x^17)";
/// let plan = otterchime::Plan::compile(text, 0, 1).unwrap();
/// let rows: Vec<otterchime::Row> = plan.rows().collect();
/// assert_eq!(rows[2].kind, otterchime::RowKind::Minus);
/// assert_eq!((&rows[2].operands[..], rows[2].span.clone()), (&[1][..], 0..8));
/// assert_eq!(rows[1].kind, otterchime::RowKind::LiteralPower { exponent: 17 });
/// assert_eq!(text[rows[1].span.clone()], *b"x^17");
/// assert_eq!((rows[0].elements, rows[0].span.clone()), (&[0, 1][..], 3..4));
/// # }
/// ```
#[derive(Clone, Debug, PartialEq, Eq)]
pub struct Row<'a> {
    pub kind: RowKind,
    pub operands: Vec<usize>,
    pub elements: &'a [u64],
    pub span: Range<usize>,
}

/// The row of these words, which are a row of a sound plan.
fn row(words: &[u64]) -> Row<'_> {
    let (a, b) = (words[1] as usize, words[2]);
    let (kind, operands, used) = match words[0] {
        0 => (RowKind::Constant, vec![], 1),
        1 => (RowKind::SumChain, vec![], a + 1),
        2 => (RowKind::ProductChain, vec![], a + 1),
        3 => (RowKind::Sum, vec![a, b as usize], 0),
        4 => (RowKind::Difference, vec![a, b as usize], 0),
        5 => (RowKind::Product, vec![a, b as usize], 0),
        6 => (RowKind::Minus, vec![a], 0),
        7 => (RowKind::LiteralPower { exponent: b }, vec![a], 0),
        8 => (RowKind::Raise, vec![a, b as usize], 0),
        other => unreachable!("a sound plan has no row of kind {other}"),
    };
    let span = words[ROW_WORDS - 2] as usize..words[ROW_WORDS - 1] as usize;
    Row { kind, operands, elements: &words[3..][..used], span }
}

/// The rows that a sound plan's first word counts.
pub(crate) fn rows(plan: &[u64]) -> impl ExactSizeIterator<Item = Row<'_>> {
    plan[1..PLAN_WORDS].chunks_exact(ROW_WORDS).take(plan[0] as usize).map(row)
}
