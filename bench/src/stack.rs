//! How deep the stack goes below a call: the call runs on memory of our own that was painted before, and the lowest byte that is not
//! paint any more tells. What counts is everything from the return address on down.
use crate::texts::{self, PLAN_WORDS};
use crate::times::chain;
use crate::{raw, CHAIN_WORDS};
use std::arch::asm;

const WORDS: usize = 1 << 13;
const PAINT: u64 = 0xA5C3_96E1_5A3C_691E;

/// A stack of our own.
struct Stack(Vec<u64>);

impl Stack {
    fn new() -> Stack {
        Stack(vec![PAINT; WORDS + 4])
    }

    /// The bytes below the call of a C function, which is given up to seven words.
    ///
    /// # Safety
    /// `function` is a C function that may be called with these words.
    unsafe fn depth(&mut self, function: *const (), words: [u64; 7]) -> usize {
        self.0.fill(PAINT);
        let top = WORDS + (self.0.as_ptr().add(WORDS) as usize % 16) / 8; // a multiple of 16 bytes
        self.0[top] = words[6]; // the seventh word is the caller's, on the stack
        asm!(
            "xchg rsp, r12",
            "call rax",
            "mov rsp, r12",
            in("rax") function,
            in("rdi") words[0],
            in("rsi") words[1],
            in("rdx") words[2],
            in("rcx") words[3],
            in("r8") words[4],
            in("r9") words[5],
            inout("r12") self.0.as_mut_ptr().add(top) => _,
            clobber_abi("C"),
        );
        let lowest = self.0.iter().position(|&word| word != PAINT).expect("the return address at least");
        assert!(lowest > 0, "the stack is too small");
        (top - lowest) * 8
    }
}

fn address<T: ?Sized>(place: &mut T) -> u64 {
    place as *mut T as *mut () as u64
}

/// Trim, shift and value: every length. Sum, difference and product: every two lengths. Refused lengths too.
fn chains(stack: &mut Stack, function: *const (), two: bool) -> usize {
    let mut deepest = 0;
    let mut answer = [0u64; 4 + CHAIN_WORDS];
    for k in 0..=17 {
        for l in if two { 0..=17 } else { 0..=0 } {
            let (mut f, mut g) = (chain(16, k + 1), chain(16, l + 2));
            let words = if two {
                [address(&mut f), k, address(&mut g), l, address(&mut answer), 0, 0]
            } else {
                [address(&mut f), k, address(&mut answer), 0, 0, 0, 0]
            };
            deepest = deepest.max(unsafe { stack.depth(function, words) });
        }
    }
    deepest
}

fn coefficients(stack: &mut Stack) -> usize {
    let (mut words, mut answer) = ([7u64; 18], [0u64; 4 + CHAIN_WORDS]);
    let function = raw::otterchime_from_coefficients as *const ();
    let mut depth = |count| unsafe { stack.depth(function, [address(&mut words), count, address(&mut answer), 0, 0, 0, 0]) };
    (0..=18).map(&mut depth).max().unwrap_or(0)
}

/// Compiling, cost, soundness, the reasons of all rows and both fillings, over the same texts, and compiling without the reader's brackets.
fn formulas(stack: &mut Stack) -> [usize; 7] {
    let mut deepest = [0; 7];
    for mut text in texts::deep() {
        let (mut plan, mut table, mut answer) = (vec![0u64; PLAN_WORDS], vec![0u64; 64], [0u64; 5]);
        let (start, lent, room) = (plan.as_mut_ptr() as u64, plan.len() as u64, table.len() as u64);
        let answered = address(&mut answer);
        let compile = [text.as_mut_ptr() as u64, text.len() as u64, 3, 5, start, lent, answered];
        let fill = [start, lent, table.as_mut_ptr() as u64, room, u64::MAX, answered, 0];
        let read = [start, lent, answered, 0, 0, 0, 0];
        let bracket = text.contains('(');
        let compiled = unsafe { stack.depth(raw::otterchime_compile as *const (), compile) };
        let mut reason = |row| unsafe { stack.depth(raw::otterchime_reason as *const (), [start, lent, row, answered, 0, 0, 0]) };
        let explained = (0..=plan[0]).map(&mut reason).max().unwrap_or(0);
        let depths = unsafe {
            [
                compiled,
                if bracket { 0 } else { compiled },
                stack.depth(raw::otterchime_cost as *const (), read),
                stack.depth(raw::otterchime_sound as *const (), read),
                explained,
                stack.depth(raw::otterchime_fill as *const (), fill),
                stack.depth(raw::otterchime_fill_eras as *const (), fill),
            ]
        };
        for (deepest, depth) in deepest.iter_mut().zip(depths) {
            *deepest = depth.max(*deepest);
        }
    }
    deepest
}

fn probe(stack: &mut Stack) -> usize {
    let mut answer = [0u64; 4];
    let place = address(&mut answer);
    let mut depth = |words: [u64; 3]| unsafe { stack.depth(raw::otterchime_probe as *const (), [words[0], words[1], words[2], place, 0, 0, 0]) };
    [[5, 3, 1], [3, 5, 1], [3, 3, 0], [3, 5, 1 << 63]].map(&mut depth).into_iter().max().unwrap_or(0)
}

pub fn print() {
    let mut stack = Stack::new();
    println!("{:<44}{:>12}", "bytes of stack, the deepest call", "library");
    let [compile, flat, cost, sound, reason, fill, fill_eras] = formulas(&mut stack);
    let coefficients = coefficients(&mut stack);
    let probe = probe(&mut stack);
    let mut chain = |function, two| chains(&mut stack, function, two);
    let depths = [
        ("compile", compile),
        ("compile, no bracket in the text", flat),
        ("fill", fill),
        ("fill_eras", fill_eras),
        ("cost", cost),
        ("sound", sound),
        ("reason", reason),
        ("trim", chain(raw::otterchime_trim as *const (), false)),
        ("shift", chain(raw::otterchime_shift as *const (), false)),
        ("value", chain(raw::otterchime_value as *const (), false)),
        ("sum", chain(raw::otterchime_sum as *const (), true)),
        ("difference", chain(raw::otterchime_difference as *const (), true)),
        ("product", chain(raw::otterchime_product as *const (), true)),
        ("inverse_shift", chain(raw::otterchime_inverse_shift as *const (), false)),
        ("backward_value", chain(raw::otterchime_backward_value as *const (), false)),
        ("backward_shift", chain(raw::otterchime_backward_shift as *const (), false)),
        ("backward_inverse_shift", chain(raw::otterchime_backward_inverse_shift as *const (), false)),
        ("backward_sum", chain(raw::otterchime_backward_sum as *const (), true)),
        ("backward_product", chain(raw::otterchime_backward_product as *const (), true)),
        ("to_backward", chain(raw::otterchime_to_backward as *const (), false)),
        ("to_forward", chain(raw::otterchime_to_forward as *const (), false)),
        ("from_coefficients", coefficients),
        ("probe", probe),
    ];
    for (name, depth) in depths {
        println!("{:<44}{depth:>12}", format!("otterchime_{name}"));
    }
}
