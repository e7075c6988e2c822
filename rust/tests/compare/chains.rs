//! The chain calls against their meaning: the values at the indices 0 to 16, turned back into a chain by differences.
use crate::{on_many, word};
use otterchime::{difference, from_coefficients, product, shift, sum, trim, value, Chain, Refusal, Shifted};
use printer::folding::{chain_of, value_at};
use printer::formula::power;
use printer::random::Random;

/// A chain as it is given, with words past its length that mean nothing.
pub struct Given {
    pub words: [u64; 17],
    pub k: u64,
}

impl Given {
    pub fn random(random: &mut Random) -> Given {
        let most = random.below(18);
        let mut words = [0; 17];
        for at in words.iter_mut().take(most) {
            *at = word(random);
        }
        let over = [17, 18, 1 << 32, 1 << 63, u64::MAX][random.below(5)];
        let k = if random.percent(6) { over } else { random.below(17) as u64 };
        Given { words, k }
    }

    pub fn elements(&self) -> Result<&[u64], Refusal> {
        if self.k > 16 {
            Err(Refusal::ChainTooLong)
        } else {
            Ok(&self.words[..=self.k as usize])
        }
    }
}

/// The chain with these values at the indices from 0 on.
fn chain(values: impl Fn(usize) -> u64) -> Chain {
    let elements = chain_of(16, values).sums().expect("a constant or a sum chain");
    let mut words = [0; 17];
    words[..elements.len()].copy_from_slice(&elements);
    Chain { length: elements.len() - 1, words }
}

/// How the first element crosses in a shift: how often 2^64 goes into f0 + d as a whole number, rounded down.
fn crossing(f: &[u64]) -> i64 {
    let step = f.get(1).map_or(0, |word| i128::from(*word as i64));
    (i128::from(f[0]) + step).div_euclid(1 << 64) as i64
}

fn one_chain(f: &Given) {
    let Given { words, k } = f;
    let elements = f.elements();
    assert_eq!(trim(words, *k), elements.map(|f| chain(|i| value_at(f, i))));
    assert_eq!(shift(words, *k), elements.map(|f| Shifted { chain: chain(|i| value_at(f, i + 1)), crossing: crossing(f) }));
    assert_eq!(value(words, *k), elements.map(|f| value_at(f, 0)));
}

fn expected_product(f: &[u64], g: &[u64]) -> Result<Chain, Refusal> {
    let trimmed = |f: &[u64]| f.iter().rposition(|word| *word != 0).unwrap_or(0);
    if trimmed(f) + trimmed(g) > 16 {
        return Err(Refusal::ProductTooLong);
    }
    Ok(chain(|i| value_at(f, i).wrapping_mul(value_at(g, i))))
}

fn two_chains(f: &Given, g: &Given) {
    let both = f.elements().and_then(|f| g.elements().map(|g| (f, g)));
    let at = |join: fn(u64, u64) -> u64| both.map(|(f, g)| chain(|i| join(value_at(f, i), value_at(g, i))));
    assert_eq!(sum(&f.words, f.k, &g.words, g.k), at(u64::wrapping_add));
    assert_eq!(difference(&f.words, f.k, &g.words, g.k), at(u64::wrapping_sub));
    assert_eq!(product(&f.words, f.k, &g.words, g.k), both.and_then(|(f, g)| expected_product(f, g)));
}

#[test]
fn chains() {
    on_many("chains", |random| {
        let (f, g) = (Given::random(random), Given::random(random));
        one_chain(&f);
        two_chains(&f, &g);
        two_chains(&f, &f);
    });
}

#[test]
fn coefficients() {
    on_many("coefficients", |random| {
        let a: Vec<u64> = (0..random.below(20)).map(|_| word(random)).collect();
        let term = |i: usize, (j, a): (usize, &u64)| a.wrapping_mul(power(i as u64, j as u64));
        let polynomial = |i: usize| a.iter().enumerate().map(|each| term(i, each)).fold(0, u64::wrapping_add);
        let expected = if a.len() > 17 { Err(Refusal::TooManyCoefficients) } else { Ok(chain(polynomial)) };
        assert_eq!(from_coefficients(&a), expected);
    });
}
