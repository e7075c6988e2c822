//! Why a call is refused: the numbers and places of `include/otterchime.h` as an enum.
use std::fmt;

#[derive(Clone, Copy, Debug, PartialEq, Eq)]
pub enum Refusal {
    PlanTooShort,
    FormulaTooLong,
    TooDeep { place: usize },
    NotInGrammar { place: usize },
    NumberTooLarge { place: usize },
    ExponentTooLarge { place: usize },
    TooManyNodes,
    BadRaise { place: usize },
    PlanNotSound,
    ToleranceTooLarge,
    TooManyCoefficients,
    ChainTooLong,
    ProductTooLong,
    RootWithoutEras,
}

use Refusal::*;

impl Refusal {
    /// The refusal that an answer's first two words name; `Ok` for number 0.
    #[cfg(otterchime_linked)]
    pub(crate) fn of(number: u64, place: u64) -> Result<(), Refusal> {
        let place = place as usize;
        Err(match number {
            0 => return Ok(()),
            1 => PlanTooShort,
            2 => FormulaTooLong,
            3 => TooDeep { place },
            4 => NotInGrammar { place },
            5 => NumberTooLarge { place },
            6 => ExponentTooLarge { place },
            7 => TooManyNodes,
            8 => BadRaise { place },
            9 => PlanNotSound,
            10 => ToleranceTooLarge,
            13 => TooManyCoefficients,
            14 => ChainTooLong,
            15 => ProductTooLong,
            16 => RootWithoutEras,
            other => unreachable!("no call of the library is refused {other}"),
        })
    }

    pub fn number(self) -> u64 {
        match self {
            PlanTooShort => 1,
            FormulaTooLong => 2,
            TooDeep { .. } => 3,
            NotInGrammar { .. } => 4,
            NumberTooLarge { .. } => 5,
            ExponentTooLarge { .. } => 6,
            TooManyNodes => 7,
            BadRaise { .. } => 8,
            PlanNotSound => 9,
            ToleranceTooLarge => 10,
            TooManyCoefficients => 13,
            ChainTooLong => 14,
            ProductTooLong => 15,
            RootWithoutEras => 16,
        }
    }

    /// The offset in the formula's bytes; 0 where the refusal has no place in it.
    pub fn place(self) -> usize {
        match self {
            FormulaTooLong => 1024,
            TooDeep { place } | NotInGrammar { place } | NumberTooLarge { place } | ExponentTooLarge { place } | BadRaise { place } => place,
            _ => 0,
        }
    }

    fn reason(self) -> &'static str {
        match self {
            PlanTooShort => "the plan is shorter than 2817 words",
            FormulaTooLong => "the formula has over 1024 bytes",
            TooDeep { .. } => "more than 32 round brackets are open",
            NotInGrammar { .. } => "the formula is not in the grammar",
            NumberTooLarge { .. } => "a number is over 2^64 - 1",
            ExponentTooLarge { .. } => "a literal exponent is over 64",
            TooManyNodes => "the formula has over 128 nodes",
            BadRaise { .. } => "the base of a raise holds x or is even",
            PlanNotSound => "the plan is not sound",
            ToleranceTooLarge => "the tolerance is 2^63 or more",
            TooManyCoefficients => "there are over 17 coefficients",
            ChainTooLong => "a chain has a length over 16",
            ProductTooLong => "the lengths of the factors add over 16",
            RootWithoutEras => "the plan's root is neither a constant nor a sum chain",
        }
    }
}

impl fmt::Display for Refusal {
    fn fmt(&self, to: &mut fmt::Formatter) -> fmt::Result {
        write!(to, "refused {} at {}: {}", self.number(), self.place(), self.reason())
    }
}

impl std::error::Error for Refusal {}
