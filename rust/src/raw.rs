//! The calls as `include/otterchime.h` declares them. A slice is a pointer and a count; a pointer to an array is never null.
use crate::CHAIN_WORDS;

pub type Words = [u64; CHAIN_WORDS];

/// Number, place, length, elements.
pub type ChainAnswer = [u64; 3 + CHAIN_WORDS];

/// The same with the crossing behind it.
pub type ShiftAnswer = [u64; 4 + CHAIN_WORDS];

extern "C" {
    pub fn otterchime_compile(text: *const u8, text_length: usize, start: u64, step: u64, plan: *mut u64, plan_length: usize, answer: *mut [u64; 2]);
    pub fn otterchime_fill(plan: *mut u64, plan_length: usize, table: *mut u64, table_length: usize, budget: u64, answer: *mut [u64; 4]);
    pub fn otterchime_fill_eras(plan: *mut u64, plan_length: usize, table: *mut u64, table_length: usize, budget: u64, answer: *mut [u64; 5]);
    pub fn otterchime_cost(plan: *const u64, plan_length: usize, answer: *mut [u64; 3]);
    pub fn otterchime_sound(plan: *const u64, plan_length: usize, answer: *mut [u64; 2]);
    pub fn otterchime_reason(plan: *const u64, plan_length: usize, row: u64, answer: *mut [u64; 5]);
    pub fn otterchime_trim(f: *const Words, k: u64, answer: *mut ChainAnswer);
    pub fn otterchime_shift(f: *const Words, k: u64, answer: *mut ShiftAnswer);
    pub fn otterchime_value(f: *const Words, k: u64, answer: *mut [u64; 3]);
    pub fn otterchime_sum(f: *const Words, k: u64, g: *const Words, l: u64, answer: *mut ChainAnswer);
    pub fn otterchime_difference(f: *const Words, k: u64, g: *const Words, l: u64, answer: *mut ChainAnswer);
    pub fn otterchime_product(f: *const Words, k: u64, g: *const Words, l: u64, answer: *mut ChainAnswer);
    pub fn otterchime_from_coefficients(coefficients: *const u64, count: usize, answer: *mut ChainAnswer);
    pub fn otterchime_inverse_shift(f: *const Words, k: u64, answer: *mut ChainAnswer);
    pub fn otterchime_backward_value(f: *const Words, k: u64, answer: *mut [u64; 3]);
    pub fn otterchime_backward_shift(f: *const Words, k: u64, answer: *mut ChainAnswer);
    pub fn otterchime_backward_inverse_shift(f: *const Words, k: u64, answer: *mut ChainAnswer);
    pub fn otterchime_backward_sum(f: *const Words, k: u64, g: *const Words, l: u64, answer: *mut ChainAnswer);
    pub fn otterchime_backward_product(f: *const Words, k: u64, g: *const Words, l: u64, answer: *mut ChainAnswer);
    pub fn otterchime_to_backward(f: *const Words, k: u64, answer: *mut ChainAnswer);
    pub fn otterchime_to_forward(f: *const Words, k: u64, answer: *mut ChainAnswer);
    pub fn otterchime_probe(reading: u64, expected: u64, tolerance: u64, answer: *mut [u64; 4]);
}
