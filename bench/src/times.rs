//! Times. Library and plain Rust take turns, in batches, and the least time of a batch counts for each: what others do on the machine
//! at the same time makes a batch longer and never shorter.
use crate::plain::{self, Words};
use crate::texts::{self, FIRST_ELEMENTS, PLAN_WORDS};
use crate::{raw, CHAIN_WORDS};
use std::hint::black_box;
use std::time::{Duration, Instant};

const BATCHES: usize = 300;
const BATCH: Duration = Duration::from_millis(1);

fn batch(calls: u32, work: &mut dyn FnMut()) -> Duration {
    let start = Instant::now();
    for _ in 0..calls {
        work();
    }
    start.elapsed()
}

/// Nanoseconds a call, the least over the batches, for each of the works; a batch takes a millisecond or one call.
fn least<const N: usize>(mut works: [&mut dyn FnMut(); N]) -> [f64; N] {
    let calls = works.each_mut().map(|work| {
        let mut calls = 1;
        while batch(calls, work) < BATCH {
            calls *= 2;
        }
        calls
    });
    let mut best = [f64::MAX; N];
    for _ in 0..BATCHES {
        for i in 0..N {
            best[i] = best[i].min(batch(calls[i], works[i]).as_nanos() as f64 / f64::from(calls[i]));
        }
    }
    best
}

/// A chain of length k with no word 0.
pub fn chain(k: usize, seed: u64) -> Words {
    std::array::from_fn(|i| if i <= k { (i as u64 + seed).wrapping_mul(0x9E37_79B9_7F4A_7C15) | 1 } else { 0 })
}

fn line(what: &str, library: f64, plain: Option<f64>) {
    match plain {
        Some(plain) => println!("{what:<44}{library:>12.0}{plain:>12.0}{:>8.2}", library / plain),
        None => println!("{what:<44}{library:>12.0}"),
    }
}

fn products() {
    for (k, l) in [(8, 8), (1, 15)] {
        let (f, g) = (chain(k, 1), chain(l, 2));
        let mut answer = [0; 3 + CHAIN_WORDS];
        let mut product = |f: &Words, g: &Words| {
            unsafe { raw::otterchime_product(f, black_box(k as u64), g, black_box(l as u64), &mut answer) };
            black_box(answer)
        };
        assert_eq!(product(&f, &g), plain::product(&f, k, &g, l));
        let mut library = || {
            product(black_box(&f), black_box(&g));
        };
        let mut plainly = || {
            black_box(plain::product(black_box(&f), black_box(k), black_box(&g), black_box(l)));
        };
        let [library, plainly] = least([&mut library, &mut plainly]);
        line(&format!("product of lengths {k} and {l}"), library, Some(plainly));
    }
}

fn compiling(what: &str, text: &str) {
    texts::plan(text);
    let (mut plan, mut answer) = (vec![0; PLAN_WORDS], [0; 2]);
    let mut work = || {
        let text = black_box(text);
        unsafe { raw::otterchime_compile(text.as_ptr(), text.len(), 3, 5, plan.as_mut_ptr(), plan.len(), &mut answer) };
        black_box(&plan);
    };
    let [library] = least([&mut work]);
    line(what, library, None);
}

fn filling() {
    let mut plan = texts::plan("x^16");
    let mut shifted: Words = std::array::from_fn(|i| plan[FIRST_ELEMENTS + i]);
    let (mut table, mut beside, mut answer) = (vec![0; 4096], vec![0; 4096], [0; 4]);
    let mut fill =
        |table: &mut [u64]| unsafe { raw::otterchime_fill(plan.as_mut_ptr(), plan.len(), table.as_mut_ptr(), table.len(), u64::MAX, &mut answer) };
    fill(&mut table);
    plain::fill(&mut shifted, &mut beside);
    assert_eq!(table, beside);
    let mut library = || fill(black_box(&mut table));
    let mut plainly = || plain::fill(black_box(&mut shifted), black_box(&mut beside));
    let [library, plainly] = least([&mut library, &mut plainly]);
    line("fill 4,096 points of x^16", library, Some(plainly));
}

pub fn print() {
    println!("{:<44}{:>12}{:>12}{:>8}", "nanoseconds a call", "library", "plain Rust", "ratio");
    products();
    compiling("compile x^16", "x^16");
    compiling("compile x^8*x^8, 21 of them joined by +", &texts::products());
    compiling("compile the longest formula, 1,024 bytes", &texts::longest());
    filling();
}
