//! A formula's tree, its direct value, and the refusals 2 to 8. The tree comes from cutting the text at its last operator
//! outside all brackets; that the text is in the grammar is known before.
use crate::grammar;
use std::ops::Range;

/// A node, and the bytes of the text that it stands for, without brackets around them.
pub struct Tree {
    pub node: Node,
    pub span: Range<usize>,
}

pub enum Node {
    Number(u64),
    X,
    Plus(Box<Tree>, Box<Tree>),
    Minus(Box<Tree>, Box<Tree>),
    Times(Box<Tree>, Box<Tree>),
    Negative(Box<Tree>),
    Power(Box<Tree>, u64),
    Raise { base: Box<Tree>, exponent: Box<Tree>, place: usize },
}

use Node::*;

/// A refusal's number and place.
pub type Refusal = (u64, usize);

const LONGEST: usize = 1024;
const DEEPEST: i64 = 32;
const MOST_NODES: usize = 128;
const LARGEST_EXPONENT: u64 = 64;

/// The tree of an accepted text; else the smallest refusal number that applies, and its place.
pub fn read(text: &[u8]) -> Result<Tree, Refusal> {
    if text.len() > LONGEST {
        return Err((2, LONGEST));
    }
    if let Some(place) = too_deep(text) {
        return Err((3, place));
    }
    if let Some(place) = grammar::leaves(text) {
        return Err((4, place));
    }
    let numbers = numbers(text);
    if let Some((place, _)) = numbers.iter().find(|(_, word)| word.is_none()) {
        return Err((5, *place));
    }
    let too_large = |(place, word): &&(usize, Option<u64>)| *place > 0 && text[place - 1] == b'^' && *word > Some(LARGEST_EXPONENT);
    if let Some((place, _)) = numbers.iter().find(too_large) {
        return Err((6, *place));
    }
    let tree = tree(text, 0);
    if nodes(&tree) > MOST_NODES {
        return Err((7, 0));
    }
    match bad_raises(&tree).into_iter().min() {
        Some(place) => Err((8, place)),
        None => Ok(tree),
    }
}

fn too_deep(text: &[u8]) -> Option<usize> {
    let mut open = 0;
    for (place, byte) in text.iter().enumerate() {
        open += i64::from(*byte == b'(') - i64::from(*byte == b')');
        if open > DEEPEST {
            return Some(place);
        }
    }
    None
}

/// The word of a number as in the grammar: nothing where it is none, or over 2^64 - 1.
pub fn number(text: &[u8]) -> Option<u64> {
    let digits = text.iter().all(u8::is_ascii_digit);
    let leading_zero = text.len() > 1 && text[0] == b'0';
    if digits && !leading_zero {
        std::str::from_utf8(text).ok()?.parse().ok()
    } else {
        None
    }
}

/// The place and word of every number of a text in the grammar: its runs of digits, as long as they go.
fn numbers(text: &[u8]) -> Vec<(usize, Option<u64>)> {
    let digit = |place: usize| text.get(place).is_some_and(u8::is_ascii_digit);
    let first = (0..text.len()).filter(|place| digit(*place) && (*place == 0 || !digit(place - 1)));
    let end = |place: usize| (place..).find(|after| !digit(*after)).unwrap_or(text.len());
    first.map(|place| (place, number(&text[place..end(place)]))).collect()
}

/// The last place outside all brackets that will do.
fn last_outside(text: &[u8], will_do: impl Fn(usize) -> bool) -> Option<usize> {
    let mut open = 0;
    let mut found = None;
    for (place, byte) in text.iter().enumerate() {
        match byte {
            b'(' => open += 1,
            b')' => open -= 1,
            _ if open == 0 && will_do(place) => found = Some(place),
            _ => {}
        }
    }
    found
}

/// The tree of a text in the grammar, all of whose numbers are words; at is the text's place in the whole formula. A text in
/// brackets has the tree of what is inside them.
fn tree(text: &[u8], at: usize) -> Tree {
    match node(text, at) {
        Some(node) => Tree { node, span: at..at + text.len() },
        None => tree(&text[1..text.len() - 1], at + 1),
    }
}

/// The root of such a text, or nothing where brackets are around it.
fn node(text: &[u8], at: usize) -> Option<Node> {
    let ends_operand = |byte: u8| byte.is_ascii_digit() || byte == b'x' || byte == b')';
    let joins_products = |place: usize| place > 0 && matches!(text[place], b'+' | b'-') && ends_operand(text[place - 1]);
    let left = |place: usize| Box::new(tree(&text[..place], at));
    let right = |place: usize| Box::new(tree(&text[place + 1..], at + place + 1));
    if let Some(place) = last_outside(text, joins_products) {
        return Some(if text[place] == b'+' { Plus(left(place), right(place)) } else { Minus(left(place), right(place)) });
    }
    if let Some(place) = last_outside(text, |place| text[place] == b'*') {
        return Some(Times(left(place), right(place)));
    }
    if text[0] == b'-' {
        return Some(Negative(right(0)));
    }
    if let Some(place) = last_outside(text, |place| text[place] == b'^') {
        return Some(match number(&text[place + 1..]) {
            Some(times) => Power(left(place), times),
            None => Raise { base: left(place), exponent: right(place), place: at + place },
        });
    }
    match text[0] {
        b'(' => None,
        b'x' => Some(X),
        _ => Some(Number(number(text).expect("a number that is a word"))),
    }
}

fn operands(tree: &Tree) -> Vec<&Tree> {
    match &tree.node {
        Number(_) | X => vec![],
        Negative(a) | Power(a, _) => vec![a],
        Plus(a, b) | Minus(a, b) | Times(a, b) => vec![a, b],
        Raise { base, exponent, .. } => vec![base, exponent],
    }
}

fn nodes(tree: &Tree) -> usize {
    1 + operands(tree).into_iter().map(nodes).sum::<usize>()
}

fn holds_x(tree: &Tree) -> bool {
    matches!(tree.node, X) || operands(tree).into_iter().any(holds_x)
}

/// The places of the raises with x in the base, or an even base.
fn bad_raises(tree: &Tree) -> Vec<usize> {
    let mut places: Vec<usize> = operands(tree).into_iter().flat_map(bad_raises).collect();
    if let Raise { base, place, .. } = &tree.node {
        if holds_x(base) || value(base, 0) % 2 == 0 {
            places.push(*place);
        }
    }
    places
}

/// The direct value, given the word that x is.
pub fn value(tree: &Tree, x: u64) -> u64 {
    match &tree.node {
        Number(word) => *word,
        X => x,
        Plus(a, b) => value(a, x).wrapping_add(value(b, x)),
        Minus(a, b) => value(a, x).wrapping_sub(value(b, x)),
        Times(a, b) => value(a, x).wrapping_mul(value(b, x)),
        Negative(a) => value(a, x).wrapping_neg(),
        Power(a, times) => power(value(a, x), *times),
        Raise { base, exponent, .. } => power(value(base, x), value(exponent, x)),
    }
}

/// The exponent-fold product of the base, modulo 2^64: by the halves of the exponent.
pub fn power(base: u64, exponent: u64) -> u64 {
    if exponent == 0 {
        return 1;
    }
    let half = power(base, exponent / 2);
    let even = half.wrapping_mul(half);
    if exponent % 2 == 0 {
        even
    } else {
        even.wrapping_mul(base)
    }
}
