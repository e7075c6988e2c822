//! Sum chains: 17 words and a length k, of which the words f0 to fk are read. Results come back trimmed.
use crate::raw::{self, ChainAnswer, Words};
use crate::Refusal;

/// A trimmed sum chain: its length, and its elements with 0 past the length.
#[derive(Clone, Copy, Debug, PartialEq, Eq)]
pub struct Chain {
    pub length: usize,
    pub words: Words,
}

impl Chain {
    /// f0 to fk.
    pub fn elements(&self) -> &[u64] {
        &self.words[..=self.length]
    }
}

/// The length and the elements of an answer that is a chain.
pub(crate) fn answered(call: impl FnOnce(*mut ChainAnswer)) -> Result<(usize, Words), Refusal> {
    let mut answer = [0; 20];
    call(&mut answer);
    let [number, place, length, words @ ..] = answer;
    Refusal::of(number, place).map(|()| (length as usize, words))
}

pub(crate) fn chain(call: impl FnOnce(*mut ChainAnswer)) -> Result<Chain, Refusal> {
    answered(call).map(|(length, words)| Chain { length, words })
}

pub fn trim(f: &Words, k: u64) -> Result<Chain, Refusal> {
    // SAFETY: f and the answer are live arrays, and the answer is no other's; so in each call below.
    chain(|answer| unsafe { raw::otterchime_trim(f, k, answer) })
}

/// A chain after one shift, and how its first element crossed: with f1 read as a signed number d, 1 if f0 + d is 2^64 or more, -1 if it is
/// below 0, else 0; 0 of a constant.
#[derive(Clone, Copy, Debug, PartialEq, Eq)]
pub struct Shifted {
    pub chain: Chain,
    pub crossing: i64,
}

/// The chain after one shift: each element but the last with its neighbour added.
pub fn shift(f: &Words, k: u64) -> Result<Shifted, Refusal> {
    let mut answer = [0; 21];
    unsafe { raw::otterchime_shift(f, k, &mut answer) };
    let [number, place, length, words @ .., crossing] = answer;
    Refusal::of(number, place).map(|()| Shifted { chain: Chain { length: length as usize, words }, crossing: crossing as i64 })
}

/// The word at the present point.
pub fn value(f: &Words, k: u64) -> Result<u64, Refusal> {
    let mut answer = [0; 3];
    unsafe { raw::otterchime_value(f, k, &mut answer) };
    let [number, place, word] = answer;
    Refusal::of(number, place).map(|()| word)
}

pub fn sum(f: &Words, k: u64, g: &Words, l: u64) -> Result<Chain, Refusal> {
    chain(|answer| unsafe { raw::otterchime_sum(f, k, g, l, answer) })
}

pub fn difference(f: &Words, k: u64, g: &Words, l: u64) -> Result<Chain, Refusal> {
    chain(|answer| unsafe { raw::otterchime_difference(f, k, g, l, answer) })
}

/// Refused where the trimmed lengths add over 16.
pub fn product(f: &Words, k: u64, g: &Words, l: u64) -> Result<Chain, Refusal> {
    chain(|answer| unsafe { raw::otterchime_product(f, k, g, l, answer) })
}

/// The chain of a0 + a1 * i + a2 * i^2 + .. in the index i, up to 17 coefficients.
pub fn from_coefficients(coefficients: &[u64]) -> Result<Chain, Refusal> {
    chain(|answer| unsafe { raw::otterchime_from_coefficients(coefficients.as_ptr(), coefficients.len(), answer) })
}
