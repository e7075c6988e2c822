//! How long the library's calls take, beside plain Rust for the same work, and how deep their stack goes.
//! The figures, and how they are taken, are in docs/PERFORMANCE.md. What the calls answer is compared in rust/tests.

/// The words that hold a chain.
const CHAIN_WORDS: usize = 17;

#[cfg(otterchime_linked)]
mod plain;
#[cfg(otterchime_linked)]
#[path = "../../rust/src/raw.rs"]
mod raw;
#[cfg(otterchime_linked)]
mod stack;
#[cfg(otterchime_linked)]
mod texts;
#[cfg(otterchime_linked)]
mod times;

#[cfg(otterchime_linked)]
fn main() {
    times::print();
    println!();
    stack::print();
}

#[cfg(not(otterchime_linked))]
fn main() {
    println!("bench: the library is for x86-64 Linux: nothing is measured");
}
