//! Exact tables of formulas in x over words modulo 2^64, by chains of recurrences: a safe wrapper of the proved library.
//!
//! Every call below goes to the call of the same name in `include/otterchime.h`, whose contract is proved in
//! `crates/otterchime`. The wrapper lends the memory, and turns each answer's words into a `Result`.
//!
//! ```
//! # #[cfg(otterchime_linked)]
//! # {
//! let mut plan = otterchime::Plan::compile(b"x^3", 0, 1).unwrap();
//! let mut table = [0; 4];
//! let filled = plan.fill(&mut table, u64::MAX);
//! assert_eq!((filled.points, filled.spent, table), (4, 16, [0, 1, 8, 27]));
//! assert_eq!(otterchime::Plan::compile(b"2^(x)", 0, 1).unwrap_err(), otterchime::Refusal::BadRaise { place: 1 });
//! # }
//! ```
//!
//! The library is an archive for x86-64 Linux that `tools/archive` writes. Where it can't be linked, only the types
//! are here: `LINKED` says which.
#[cfg(otterchime_linked)]
mod backward;
#[cfg(otterchime_linked)]
mod chains;
#[cfg(otterchime_linked)]
mod plans;
#[cfg(otterchime_linked)]
mod raw;
#[cfg(otterchime_linked)]
mod readings;
#[cfg(otterchime_linked)]
mod reasons;
mod refusal;
#[cfg(otterchime_linked)]
mod rows;

#[cfg(otterchime_linked)]
pub use backward::{
    backward_inverse_shift, backward_product, backward_shift, backward_sum, backward_value, inverse_shift, to_backward, to_forward, BackwardChain,
};
#[cfg(otterchime_linked)]
pub use chains::{difference, from_coefficients, product, shift, sum, trim, value, Chain, Shifted};
#[cfg(otterchime_linked)]
pub use plans::{compile, cost, fill, fill_eras, sound, Filled, FilledEras, Plan};
#[cfg(otterchime_linked)]
pub use readings::{probe, Probed, Verdict};
#[cfg(otterchime_linked)]
pub use reasons::{reason, Explained, Reason};
pub use refusal::Refusal;
#[cfg(otterchime_linked)]
pub use rows::{Row, RowKind};

/// The words of a plan, 2,817: the number of its rows, and the words of 128 rows.
pub const PLAN_WORDS: usize = 1 + 128 * ROW_WORDS;

/// The words of a row: kind, a, b, the elements, first byte and end byte of its text.
pub const ROW_WORDS: usize = 3 + CHAIN_WORDS + 2;

/// The words that hold a sum chain: f0 to f16.
pub const CHAIN_WORDS: usize = 17;

/// Whether the proved library is linked in.
pub const LINKED: bool = cfg!(otterchime_linked);
