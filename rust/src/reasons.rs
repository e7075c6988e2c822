//! Why a row of a plan is still there, and is not folded into a chain or a constant.
use crate::{raw, Refusal};
use std::fmt;
use std::ops::Range;

/// The reason of an operator's row. It speaks of the row's operands with chains trimmed, so that a product chain with first element 0 is a constant,
/// and with other operands as they stand.
#[derive(Clone, Copy, Debug, PartialEq, Eq)]
pub enum Reason {
    OperandIsOperator,
    LengthsAddOver16,
    LengthTimesExponentOver16,
    SumAgainstProduct,
    TwoProductChains,
    ExponentNoSum,
    /// The row is in a plan from elsewhere: no compiled plan has it.
    WouldHaveFolded,
}

use Reason::*;

const REASONS: [Reason; 7] =
    [OperandIsOperator, LengthsAddOver16, LengthTimesExponentOver16, SumAgainstProduct, TwoProductChains, ExponentNoSum, WouldHaveFolded];

impl Reason {
    /// The reason of this number; none for 0.
    fn of(number: u64) -> Option<Reason> {
        let before = number.checked_sub(1)?;
        Some(REASONS[before as usize])
    }

    /// 1 to 7, as `include/otterchime.h` has them.
    pub fn number(self) -> u64 {
        1 + self as u64
    }
}

impl fmt::Display for Reason {
    fn fmt(&self, to: &mut fmt::Formatter) -> fmt::Result {
        to.write_str(match self {
            OperandIsOperator => "an operand is itself of kinds 3 to 8",
            LengthsAddOver16 => "lengths add over 16",
            LengthTimesExponentOver16 => "length times n over 16",
            SumAgainstProduct => "sum chain or constant against product chain",
            TwoProductChains => "two product chains under + or -",
            ExponentNoSum => "exponent of a raise neither constant nor sum chain",
            WouldHaveFolded => "01 would have folded it",
        })
    }
}

/// What is said of a row: its reason, which a constant or a chain has none of, and the bytes of the formula's text that it stands for. A row that
/// the plan doesn't have stands for none, 0..0.
#[derive(Clone, Debug, PartialEq, Eq)]
pub struct Explained {
    pub reason: Option<Reason>,
    pub span: Range<usize>,
}

/// Why a row of a sound plan, counted from 0, is still there.
///
/// ```
/// # #[cfg(otterchime_linked)]
/// # {
/// use otterchime::Reason;
/// let text = b"x^8*x^9+3^(x)";
/// let plan = otterchime::Plan::compile(text, 0, 1).unwrap();
/// let explained = otterchime::reason(plan.words(), 2).unwrap();
/// assert_eq!((explained.reason, &text[explained.span]), (Some(Reason::LengthsAddOver16), &b"x^8*x^9"[..]));
/// assert_eq!(plan.reason(4).unwrap().to_string(), "an operand is itself of kinds 3 to 8");
/// assert_eq!(plan.reason(3), None);
/// # }
/// ```
pub fn reason(plan: &[u64], row: u64) -> Result<Explained, Refusal> {
    let mut answer = [0; 5];
    // SAFETY: the plan is a live slice with its own count, and the answer an array that is no other's.
    unsafe { raw::otterchime_reason(plan.as_ptr(), plan.len(), row, &mut answer) };
    let [number, place, reason, first, end] = answer;
    Refusal::of(number, place).map(|()| Explained { reason: Reason::of(reason), span: first as usize..end as usize })
}
