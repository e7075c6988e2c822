//! The formulas that are compiled, and a plan of each.
use crate::raw;

pub const PLAN_WORDS: usize = 2817;

/// Where the elements of a plan's first row begin.
pub const FIRST_ELEMENTS: usize = 4;

/// Products of two chains of length 8, 21 times: 125 nodes.
pub fn products() -> String {
    ["x^8*x^8"; 21].join("+")
}

/// 1,024 bytes and 127 nodes.
pub fn longest() -> String {
    let numbers: Vec<String> = (0..64).map(|i| format!("{}{:07}{:07}", if i == 0 { "10" } else { "1" }, i, 17 * i)).collect();
    let text = numbers.join("+");
    assert_eq!(text.len(), 1024);
    text
}

/// Texts with 32 brackets open, each with another piece in front of its brackets, and the texts above.
pub fn deep() -> Vec<String> {
    let pieces = ["(", "-(", "1+(", "x-(", "3*(", "x*(", "x+2*(", "-x*-(", "3^(", "-3^(", "5*7^("];
    let mut texts: Vec<String> = Vec::new();
    for piece in pieces {
        for inside in ["x", "x^16", "x^8*x^8", "1", "", "x+", "99999999999999999999"] {
            texts.push(piece.repeat(32) + inside + &")".repeat(32));
        }
        texts.push(piece.repeat(32) + "x" + &")^1".repeat(32));
        texts.push(piece.repeat(33) + "x" + &")".repeat(33));
    }
    for text in
        ["x^16", "x^17", "x^8-x^8", "-x", "-x^16", "0-x", "5*x^16", "x^17-x^17*3", "(x+1)^16", "(x^4+x)^4", "x^8*x^8", "3^(x^16)*5^(x)", "(3^(x))^64"]
    {
        texts.push(text.to_string());
    }
    texts.push(products());
    texts.push(longest());
    texts
}

/// The answer's number, and the plan.
pub fn compiled(text: &str) -> (u64, Vec<u64>) {
    let (mut plan, mut answer) = (vec![0; PLAN_WORDS], [0; 2]);
    unsafe { raw::otterchime_compile(text.as_ptr(), text.len(), 3, 5, plan.as_mut_ptr(), plan.len(), &mut answer) };
    (answer[0], plan)
}

/// The plan of a text that is accepted.
pub fn plan(text: &str) -> Vec<u64> {
    let (number, plan) = compiled(text);
    assert_eq!(number, 0, "{text} is refused");
    plan
}
