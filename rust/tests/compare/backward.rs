//! The calls for tables that run backwards against their meaning: exact values at the indices from -16 to 16, turned back into a chain by the
//! differences to the index after or to the index before.
use crate::chains::Given;
use crate::on_many;
use otterchime::{
    backward_inverse_shift, backward_product, backward_shift, backward_sum, backward_value, inverse_shift, shift, to_backward, to_forward, trim,
    value, BackwardChain, Chain, Refusal,
};

/// i over j, of any whole number i from -40 to 40.
fn binomial(i: i64, j: usize) -> u64 {
    (0..j as i64).fold(1, |over, t| over * (i - t) / (t + 1)) as u64
}

fn added(words: impl Iterator<Item = u64>) -> u64 {
    words.fold(0, u64::wrapping_add)
}

/// Document 000's equation 8: the elements times (i over j).
fn forward_at(f: &[u64], i: i64) -> u64 {
    added(f.iter().enumerate().map(|(j, element)| element.wrapping_mul(binomial(i, j))))
}

/// Equation 9: the elements times (i + j - 1 over j).
fn backward_at(f: &[u64], i: i64) -> u64 {
    added(f.iter().enumerate().map(|(j, element)| element.wrapping_mul(binomial(i + j as i64 - 1, j))))
}

/// The differences of every order at the present index, without trailing zeros; `step` is 1 for those to the index after, -1 to the one before.
fn differences(step: i64, values: impl Fn(i64) -> u64) -> (usize, [u64; 17]) {
    let mut column: Vec<u64> = (0..17).map(|i| values(i * step)).collect();
    let words = [(); 17].map(|()| {
        let present = column[0];
        column = column.windows(2).map(|pair| if step > 0 { pair[1].wrapping_sub(pair[0]) } else { pair[0].wrapping_sub(pair[1]) }).collect();
        present
    });
    (words.iter().rposition(|word| *word != 0).unwrap_or(0), words)
}

fn forward(values: impl Fn(i64) -> u64) -> Chain {
    let (length, words) = differences(1, values);
    Chain { length, words }
}

fn backward(values: impl Fn(i64) -> u64) -> BackwardChain {
    let (length, words) = differences(-1, values);
    BackwardChain { length, words }
}

fn one_chain(f: &Given) {
    let Given { words, k } = f;
    let elements = f.elements();
    assert_eq!(inverse_shift(words, *k), elements.map(|f| forward(|i| forward_at(f, i - 1))));
    assert_eq!(backward_value(words, *k), elements.map(|f| backward_at(f, 0)));
    assert_eq!(backward_shift(words, *k), elements.map(|f| backward(|i| backward_at(f, i + 1))));
    assert_eq!(backward_inverse_shift(words, *k), elements.map(|f| backward(|i| backward_at(f, i - 1))));
    assert_eq!(to_backward(words, *k), elements.map(|f| backward(|i| forward_at(f, i))));
    assert_eq!(to_forward(words, *k), elements.map(|f| forward(|i| backward_at(f, i))));
}

/// There and back gives the trimmed chain again, either way round.
fn there_and_back(f: &Given) {
    let Ok(elements) = f.elements() else { return };
    let trimmed = forward(|i| forward_at(elements, i));
    let there = to_backward(&f.words, f.k).expect("accepted");
    assert_eq!((there.length, to_forward(&there.words, there.length as u64)), (trimmed.length, Ok(trimmed)));
    let there = to_forward(&f.words, f.k).expect("accepted");
    let Chain { length, words } = trimmed;
    assert_eq!((there.length, to_backward(&there.words, there.length as u64)), (length, Ok(BackwardChain { length, words })));
}

fn expected_product(f: &[u64], g: &[u64]) -> Result<BackwardChain, Refusal> {
    let trimmed = |f: &[u64]| f.iter().rposition(|word| *word != 0).unwrap_or(0);
    if trimmed(f) + trimmed(g) > 16 {
        return Err(Refusal::ProductTooLong);
    }
    Ok(backward(|i| backward_at(f, i).wrapping_mul(backward_at(g, i))))
}

fn two_chains(f: &Given, g: &Given) {
    let both = f.elements().and_then(|f| g.elements().map(|g| (f, g)));
    let sum = both.map(|(f, g)| backward(|i| backward_at(f, i).wrapping_add(backward_at(g, i))));
    assert_eq!(backward_sum(&f.words, f.k, &g.words, g.k), sum);
    assert_eq!(backward_product(&f.words, f.k, &g.words, g.k), both.and_then(|(f, g)| expected_product(f, g)));
}

/// A table walked from now towards then and on again, by a forward chain and its backward one side by side.
fn walk(f: &Given) {
    let Ok(elements) = f.elements() else { return };
    let mut forward = trim(&f.words, f.k).expect("accepted");
    let mut backward = to_backward(&f.words, f.k).expect("accepted");
    for (from, to) in (-19..=0).rev().map(|i| (i, i - 1)).chain((-20..5).map(|i| (i, i + 1))) {
        let (k, l) = (forward.length as u64, backward.length as u64);
        let present = Ok(forward_at(elements, from));
        assert_eq!((value(&forward.words, k), backward_value(&backward.words, l)), (present, present));
        if to < from {
            forward = inverse_shift(&forward.words, k).expect("accepted");
            backward = backward_inverse_shift(&backward.words, l).expect("accepted");
        } else {
            forward = shift(&forward.words, k).expect("accepted").chain;
            backward = backward_shift(&backward.words, l).expect("accepted");
        }
    }
}

#[test]
fn backward_chains() {
    on_many("backward chains", |random| {
        let (f, g) = (Given::random(random), Given::random(random));
        one_chain(&f);
        there_and_back(&f);
        walk(&f);
        two_chains(&f, &g);
        two_chains(&f, &f);
    });
}

fn chain(elements: &[i64]) -> BackwardChain {
    let mut words = [0; 17];
    for (word, element) in words.iter_mut().zip(elements) {
        *word = *element as u64;
    }
    BackwardChain { length: elements.len() - 1, words }
}

/// Document 000's own chains: i^3, and the loop of its section 2.5, where t2 is 4 * t1 * (4 * t1 + x) - x^4.
#[test]
fn the_chains_of_the_paper() {
    assert_eq!(to_backward(&chain(&[0, 1, 6, 6]).words, 3), Ok(chain(&[0, 1, -6, 6])));
    let times = |f: BackwardChain, g: BackwardChain| backward_product(&f.words, f.length as u64, &g.words, g.length as u64).expect("accepted");
    let plus = |f: BackwardChain, g: BackwardChain| backward_sum(&f.words, f.length as u64, &g.words, g.length as u64).expect("accepted");
    let (x, t1) = (chain(&[0, 2]), chain(&[0, 0, 2]));
    let four_t1 = times(chain(&[4]), t1);
    let fourth_power = times(times(x, x), times(x, x));
    let t2 = plus(times(four_t1, plus(four_t1, x)), times(chain(&[-1]), fourth_power));
    assert_eq!(t2, chain(&[0, 16, -192, 240]));
}

/// The numbers of examples/README.md.
#[test]
fn the_example() {
    let (mut cubes, mut forward_cubes) = (chain(&[0, 1, -6, 6]), chain(&[0, 1, 6, 6]).words);
    for (backward, forward) in [([-1, 7, -12, 6], [-1, 1, 0, 6]), ([-8, 19, -18, 6], [-8, 7, -6, 6]), ([-27, 37, -24, 6], [-27, 19, -12, 6])] {
        cubes = backward_inverse_shift(&cubes.words, 3).expect("accepted");
        forward_cubes = inverse_shift(&forward_cubes, 3).expect("accepted").words;
        assert_eq!((cubes, forward_cubes), (chain(&backward), chain(&forward).words));
    }
    let mut words = [0; 17];
    words[..3].copy_from_slice(&[17195715895335321600, 274877972480, 131072]);
    let mut stamps = to_backward(&words, 2).expect("accepted");
    assert_eq!(stamps.elements(), [17195715895335321600, 274877841408, 131072]);
    stamps = backward_inverse_shift(&stamps.words, 2).expect("accepted");
    assert_eq!(stamps.elements(), [17195715620457480192, 274877710336, 131072]);
}
