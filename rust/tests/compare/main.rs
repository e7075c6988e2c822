//! The proved library, through the wrapper, held against the independent implementation in tests/printer on random inputs. The seed is
//! printed; OTTERCHIME_SEED takes one again, and OTTERCHIME_INPUTS sets how many inputs each test makes.
#![cfg_attr(not(otterchime_linked), allow(dead_code))]
#[cfg(otterchime_linked)]
mod backward;
#[cfg(otterchime_linked)]
mod chains;
#[cfg(otterchime_linked)]
mod documented;
#[cfg(otterchime_linked)]
mod eras;
#[cfg(otterchime_linked)]
mod plans;
#[cfg(otterchime_linked)]
mod readings;
#[cfg(otterchime_linked)]
mod reasons;
#[cfg(otterchime_linked)]
mod rows;
#[cfg(otterchime_linked)]
mod spans;

use printer::random::Random;
use std::io::Write;

const INPUTS: usize = 20_000;

/// Words at which something changes.
const EDGES: &[u64] = &[0, 0, 1, 1, 2, 3, 5, 16, 17, 1 << 32, (1 << 32) - 1, (1 << 63) - 1, 1 << 63, (1 << 63) + 1, u64::MAX - 1, u64::MAX];

/// Told past the test harness, which hides what a passing test prints.
fn tell(line: &str) {
    let _ = writeln!(std::io::stderr(), "compare: {line}");
}

fn of_environment(name: &str) -> Option<u64> {
    std::env::var(name).ok().map(|text| text.parse().unwrap_or_else(|_| panic!("{name} is not a number: {text}")))
}

/// Runs a comparison on many random inputs.
fn on_many(what: &str, mut one: impl FnMut(&mut Random)) {
    let clock = std::time::SystemTime::now().duration_since(std::time::UNIX_EPOCH).expect("a clock").as_nanos() as u64;
    let seed = of_environment("OTTERCHIME_SEED").unwrap_or(clock % 1_000_000_000_000);
    let inputs = of_environment("OTTERCHIME_INPUTS").map_or(INPUTS, |number| number as usize);
    tell(&format!("{what}: seed {seed}, {inputs} inputs on {}", std::env::consts::ARCH));
    let mut random = Random(seed);
    for _ in 0..inputs {
        one(&mut random);
    }
}

/// A word at an edge, a small one, or any.
fn word(random: &mut Random) -> u64 {
    match random.below(4) {
        0 | 1 => EDGES[random.below(EDGES.len())],
        2 => random.below(100) as u64,
        _ => random.word(),
    }
}

#[cfg(not(otterchime_linked))]
#[test]
#[ignore = "the proved library is for x86-64 Linux and can't be linked here; tests/printer/run compares compiling and filling by the launcher"]
fn the_proved_library() {
    panic!("not linked on {}", std::env::consts::ARCH);
}
