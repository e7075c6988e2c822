//! Plain Rust for the same work: what a programmer would write with wrapping arithmetic over arrays of 17 words.
use crate::CHAIN_WORDS;

pub type Words = [u64; CHAIN_WORDS];

/// The values of a sum chain at 0 to 16.
fn values(mut f: Words) -> Words {
    for start in 1..CHAIN_WORDS {
        for i in (start..CHAIN_WORDS).rev() {
            f[i] = f[i].wrapping_add(f[i - 1]);
        }
    }
    f
}

/// The sum chain through 17 values.
fn through(mut f: Words) -> Words {
    for start in 1..CHAIN_WORDS {
        for i in (start..CHAIN_WORDS).rev() {
            f[i] = f[i].wrapping_sub(f[i - 1]);
        }
    }
    f
}

fn length(f: &Words) -> usize {
    (1..CHAIN_WORDS).rev().find(|&i| f[i] != 0).unwrap_or(0)
}

fn kept(f: &Words, k: usize) -> Words {
    std::array::from_fn(|i| if i <= k { f[i] } else { 0 })
}

/// The product of two sum chains, flat, with the refusals and the layout of `otterchime_product`'s answer.
pub fn product(f: &Words, k: usize, g: &Words, l: usize) -> [u64; 3 + CHAIN_WORDS] {
    let mut answer = [0; 3 + CHAIN_WORDS];
    if k > 16 || l > 16 {
        answer[0] = 14;
        return answer;
    }
    let (f, g) = (kept(f, k), kept(g, l));
    if length(&f) + length(&g) > 16 {
        answer[0] = 15;
        return answer;
    }
    let (f, g) = (values(f), values(g));
    let product = through(std::array::from_fn(|i| f[i].wrapping_mul(g[i])));
    answer[2] = length(&product) as u64;
    answer[3..].copy_from_slice(&product);
    answer
}

/// The values of a sum chain of length 16 at the points of a table; the chain is left shifted by them.
pub fn fill(chain: &mut Words, table: &mut [u64]) {
    for point in table {
        *point = chain[0];
        for i in 0..CHAIN_WORDS - 1 {
            chain[i] = chain[i].wrapping_add(chain[i + 1]);
        }
    }
}
