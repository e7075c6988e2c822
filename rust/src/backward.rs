//! Tables that run backwards: the inverse shift of a forward chain, backward sum chains, and conversion from and to them. A backward chain is
//! given as a forward one is, 17 words and a length k, but its elements are differences to the index before; results come back trimmed.
use crate::chains::{answered, chain};
use crate::raw::{self, ChainAnswer, Words};
use crate::{Chain, Refusal};

/// A trimmed backward sum chain: its length, and its elements with 0 past the length.
///
/// ```
/// # #[cfg(otterchime_linked)]
/// # {
/// let words = |elements: [u64; 4]| std::array::from_fn(|i| *elements.get(i).unwrap_or(&0));
/// let cubes = otterchime::to_backward(&words([0, 1, 6, 6]), 3).unwrap();
/// assert_eq!(cubes.elements(), [0, 1, 6u64.wrapping_neg(), 6]);
/// let before = otterchime::backward_inverse_shift(&cubes.words, 3).unwrap();
/// assert_eq!(otterchime::backward_value(&before.words, 3).unwrap(), u64::MAX);
/// # }
/// ```
#[derive(Clone, Copy, Debug, PartialEq, Eq)]
pub struct BackwardChain {
    pub length: usize,
    pub words: Words,
}

impl BackwardChain {
    /// f0 to fk.
    pub fn elements(&self) -> &[u64] {
        &self.words[..=self.length]
    }
}

fn backward(call: impl FnOnce(*mut ChainAnswer)) -> Result<BackwardChain, Refusal> {
    answered(call).map(|(length, words)| BackwardChain { length, words })
}

/// A forward chain one index back: from the top down, each element but the last less its neighbour's new value.
pub fn inverse_shift(f: &Words, k: u64) -> Result<Chain, Refusal> {
    // SAFETY: f and the answer are live arrays, and the answer is no other's; so in each call below.
    chain(|answer| unsafe { raw::otterchime_inverse_shift(f, k, answer) })
}

/// The word at the present point.
pub fn backward_value(f: &Words, k: u64) -> Result<u64, Refusal> {
    let mut answer = [0; 3];
    unsafe { raw::otterchime_backward_value(f, k, &mut answer) };
    let [number, place, word] = answer;
    Refusal::of(number, place).map(|()| word)
}

/// A backward chain after one shift: from the top down, each element but the last with its neighbour's new value added.
pub fn backward_shift(f: &Words, k: u64) -> Result<BackwardChain, Refusal> {
    backward(|answer| unsafe { raw::otterchime_backward_shift(f, k, answer) })
}

/// A backward chain one index back: each element but the last less its neighbour.
pub fn backward_inverse_shift(f: &Words, k: u64) -> Result<BackwardChain, Refusal> {
    backward(|answer| unsafe { raw::otterchime_backward_inverse_shift(f, k, answer) })
}

pub fn backward_sum(f: &Words, k: u64, g: &Words, l: u64) -> Result<BackwardChain, Refusal> {
    backward(|answer| unsafe { raw::otterchime_backward_sum(f, k, g, l, answer) })
}

/// Refused where the trimmed lengths add over 16.
pub fn backward_product(f: &Words, k: u64, g: &Words, l: u64) -> Result<BackwardChain, Refusal> {
    backward(|answer| unsafe { raw::otterchime_backward_product(f, k, g, l, answer) })
}

/// The backward chain that has the value of the forward one at every index, before the present one too.
pub fn to_backward(f: &Words, k: u64) -> Result<BackwardChain, Refusal> {
    backward(|answer| unsafe { raw::otterchime_to_backward(f, k, answer) })
}

/// The forward chain that has the value of the backward one at every index, before the present one too.
pub fn to_forward(f: &Words, k: u64) -> Result<Chain, Refusal> {
    chain(|answer| unsafe { raw::otterchime_to_forward(f, k, answer) })
}
