//! What a formula folds to on a grid: the rows of its plan, and what it costs. Chains are lists of words, first element first. A
//! product or a power of sum chains is taken value by value and turned back into a chain by differences.
use crate::formula::{power, Node, Tree};
use std::ops::Range;

#[derive(Clone, Debug, PartialEq)]
pub enum Folded {
    Constant(u64),
    Sums(Vec<u64>),
    Products(Vec<u64>),
    /// What stays a row, by its kind in 01's table; `times` is a literal power's exponent and else 0.
    Operator {
        kind: u64,
        times: u64,
        operands: Vec<Part>,
    },
}

/// What a part of the formula folds to, and the bytes that it stands for. A folded part stands for all of its operator's bytes, and so
/// does an operand that is passed through; the operands of a row stand for their own.
#[derive(Clone, Debug, PartialEq)]
pub struct Part {
    pub folded: Folded,
    pub span: Range<usize>,
}

/// A row of a plan.
#[derive(Clone, Debug, PartialEq)]
pub struct Row {
    pub kind: u64,
    pub a: u64,
    pub b: u64,
    pub elements: Vec<u64>,
    pub span: Range<usize>,
}

use Folded::*;

pub const LONGEST: usize = 16;

impl Row {
    /// The last column of document 01's table.
    pub fn cost(&self) -> u64 {
        match self.kind {
            0 => 0,
            1 | 2 => self.a,
            7 => self.b - 1,
            8 => 128,
            _ => 1,
        }
    }
}

/// "The plan's cost is the sum over its rows."
pub fn cost(rows: &[Row]) -> u64 {
    rows.iter().map(Row::cost).sum()
}

impl Folded {
    /// A constant or a sum chain as the elements of a sum chain.
    pub fn sums(&self) -> Option<Vec<u64>> {
        match self {
            Constant(word) => Some(vec![*word]),
            Sums(chain) => Some(chain.clone()),
            _ => None,
        }
    }

    fn operands(&self) -> &[Part] {
        match self {
            Operator { operands, .. } => operands,
            _ => &[],
        }
    }
}

impl Part {
    /// The rows of the plan, left operand first and root last.
    pub fn plan(&self) -> Vec<Row> {
        let mut rows = vec![];
        self.lay_out(&mut rows);
        rows
    }

    /// Adds the rows behind those that are there, and answers the root's number.
    fn lay_out(&self, rows: &mut Vec<Row>) -> u64 {
        let operands: Vec<u64> = self.folded.operands().iter().map(|operand| operand.lay_out(rows)).collect();
        let (kind, a, b, elements) = match &self.folded {
            Constant(word) => (0, 0, 0, vec![*word]),
            Sums(chain) => (1, chain.len() as u64 - 1, 0, chain.clone()),
            Products(chain) => (2, chain.len() as u64 - 1, 0, chain.clone()),
            Operator { kind, times, .. } => (*kind, operands[0], *operands.get(1).unwrap_or(times), vec![]),
        };
        rows.push(Row { kind, a, b, elements, span: self.span.clone() });
        rows.len() as u64 - 1
    }
}

/// A row over the rows of its operands.
fn row(kind: u64, operands: Vec<Part>) -> Folded {
    Operator { kind, times: 0, operands }
}

fn without_last(mut chain: Vec<u64>, neutral: u64) -> Vec<u64> {
    while chain.len() > 1 && chain.last() == Some(&neutral) {
        chain.pop();
    }
    chain
}

pub fn trimmed_sums(chain: Vec<u64>) -> Folded {
    let chain = without_last(chain, 0);
    if chain.len() == 1 {
        Constant(chain[0])
    } else {
        Sums(chain)
    }
}

pub fn trimmed_products(chain: Vec<u64>) -> Folded {
    let chain = without_last(chain, 1);
    if chain[0] == 0 || chain.len() == 1 {
        Constant(chain[0])
    } else {
        Products(chain)
    }
}

/// Element by element, the shorter list filled.
fn element_wise(f: &[u64], g: &[u64], filling: u64, join: impl Fn(u64, u64) -> u64) -> Vec<u64> {
    let element = |chain: &[u64], j: usize| chain.get(j).copied().unwrap_or(filling);
    (0..f.len().max(g.len())).map(|j| join(element(f, j), element(g, j))).collect()
}

/// The numbers (i over 0) to (i over 16), by the rule of the triangle.
pub fn binomials(i: usize) -> Vec<u64> {
    let mut line = vec![1];
    for _ in 0..i {
        let raised: Vec<u64> = std::iter::once(0).chain(line.iter().copied()).collect();
        line = element_wise(&line, &raised, 0, u64::wrapping_add);
    }
    line
}

/// The value of a sum chain at index i.
pub fn value_at(chain: &[u64], i: usize) -> u64 {
    let terms = chain.iter().zip(binomials(i)).map(|(element, times)| element.wrapping_mul(times));
    terms.fold(0, u64::wrapping_add)
}

/// The sum chain of this length whose values at the indices from 0 on are given.
pub fn chain_of(length: usize, value: impl Fn(usize) -> u64) -> Folded {
    let mut values: Vec<u64> = (0..=length).map(value).collect();
    let mut chain = vec![];
    while let Some(first) = values.first() {
        chain.push(*first);
        values = values.windows(2).map(|pair| pair[1].wrapping_sub(pair[0])).collect();
    }
    trimmed_sums(chain)
}

fn plus(a: Part, b: Part) -> Folded {
    match (a.folded.sums(), b.folded.sums()) {
        (Some(f), Some(g)) => trimmed_sums(element_wise(&f, &g, 0, u64::wrapping_add)),
        _ if a.folded == Constant(0) => b.folded,
        _ if b.folded == Constant(0) => a.folded,
        _ => row(3, vec![a, b]),
    }
}

fn minus(a: Part, b: Part) -> Folded {
    match (a.folded.sums(), b.folded.sums()) {
        (Some(f), Some(g)) => trimmed_sums(element_wise(&f, &g, 0, u64::wrapping_sub)),
        _ if b.folded == Constant(0) => a.folded,
        _ if a.folded == Constant(0) => negative(b),
        _ => row(4, vec![a, b]),
    }
}

fn times(a: Part, b: Part) -> Folded {
    match (&a.folded, &b.folded) {
        (Constant(0), _) | (_, Constant(0)) => Constant(0),
        (Constant(1), other) | (other, Constant(1)) => other.clone(),
        (Constant(c), Constant(d)) => Constant(c.wrapping_mul(*d)),
        (Constant(c), Sums(f)) | (Sums(f), Constant(c)) => trimmed_sums(f.iter().map(|word| word.wrapping_mul(*c)).collect()),
        (Constant(c), Products(f)) | (Products(f), Constant(c)) => first_times(*c, f.clone()),
        (Products(f), Products(g)) => trimmed_products(element_wise(f, g, 1, u64::wrapping_mul)),
        (Sums(f), Sums(g)) if f.len() - 1 + g.len() - 1 <= LONGEST => {
            chain_of(f.len() + g.len() - 2, |i| value_at(f, i).wrapping_mul(value_at(g, i)))
        }
        _ => row(5, vec![a, b]),
    }
}

fn first_times(c: u64, mut chain: Vec<u64>) -> Folded {
    chain[0] = chain[0].wrapping_mul(c);
    trimmed_products(chain)
}

fn negative(a: Part) -> Folded {
    match a.folded {
        Constant(c) => Constant(c.wrapping_neg()),
        Sums(f) => trimmed_sums(f.into_iter().map(u64::wrapping_neg).collect()),
        Products(f) => first_times(u64::MAX, f),
        Operator { .. } => row(6, vec![a]),
    }
}

fn literal_power(a: Part, n: u64) -> Folded {
    match (a.folded, n) {
        (_, 0) => Constant(1),
        (folded, 1) => folded,
        (Constant(c), _) => Constant(power(c, n)),
        (Sums(f), _) if (f.len() - 1) * n as usize <= LONGEST => chain_of((f.len() - 1) * n as usize, |i| power(value_at(&f, i), n)),
        (Products(f), _) => trimmed_products(f.into_iter().map(|word| power(word, n)).collect()),
        (folded, _) => Operator { kind: 7, times: n, operands: vec![Part { folded, span: a.span }] },
    }
}

fn raised(base: Part, exponent: Part) -> Folded {
    match (&base.folded, &exponent.folded) {
        (Constant(c), Constant(d)) => Constant(power(*c, *d)),
        (Constant(c), Sums(f)) => trimmed_products(f.iter().map(|word| power(*c, *word)).collect()),
        _ => row(8, vec![base, exponent]),
    }
}

/// What the rules make of an operator, by the kind of its row, over these operands; n is a literal power's exponent.
pub fn operated(kind: u64, n: u64, operands: Vec<Part>) -> Folded {
    let mut operands = operands.into_iter();
    let mut next = || operands.next().expect("an operand");
    match kind {
        3 => plus(next(), next()),
        4 => minus(next(), next()),
        5 => times(next(), next()),
        6 => negative(next()),
        7 => literal_power(next(), n),
        8 => raised(next(), next()),
        other => unreachable!("no operator has kind {other}"),
    }
}

/// The folded tree, from the bottom up.
pub fn folded(tree: &Tree, start: u64, step: u64) -> Folded {
    let of = |operand: &Tree| part(operand, start, step);
    match &tree.node {
        Node::Number(word) => Constant(*word),
        Node::X => trimmed_sums(vec![start, step]),
        Node::Plus(a, b) => operated(3, 0, vec![of(a), of(b)]),
        Node::Minus(a, b) => operated(4, 0, vec![of(a), of(b)]),
        Node::Times(a, b) => operated(5, 0, vec![of(a), of(b)]),
        Node::Negative(a) => operated(6, 0, vec![of(a)]),
        Node::Power(a, n) => operated(7, *n, vec![of(a)]),
        Node::Raise { base, exponent, .. } => operated(8, 0, vec![of(base), of(exponent)]),
    }
}

/// The same with the bytes of the tree's text.
pub fn part(tree: &Tree, start: u64, step: u64) -> Part {
    Part { folded: folded(tree, start, step), span: tree.span.clone() }
}
