//! Compiling a formula, and filling a table by its plan: over lent words, and with a plan of one's own.
use crate::{raw, reasons, rows, Reason, Refusal, Row, PLAN_WORDS};

/// What an accepted fill did.
#[derive(Clone, Copy, Debug, PartialEq, Eq)]
pub struct Filled {
    pub points: usize,
    pub spent: u64,
}

/// What an accepted fill with era count did: `sum` is how often the root ran past the end of an era, less how often it ran below 0.
#[derive(Clone, Copy, Debug, PartialEq, Eq)]
pub struct FilledEras {
    pub points: usize,
    pub spent: u64,
    pub sum: i64,
}

/// Compiles a formula on the grid x = start + i * step into the first 2,817 words of the plan.
pub fn compile(text: &[u8], start: u64, step: u64, plan: &mut [u64]) -> Result<(), Refusal> {
    let mut answer = [0; 2];
    // SAFETY: each pointer is that of a live slice or array with its own count, and what is written overlaps nothing.
    unsafe { raw::otterchime_compile(text.as_ptr(), text.len(), start, step, plan.as_mut_ptr(), plan.len(), &mut answer) };
    let [number, place] = answer;
    Refusal::of(number, place)
}

/// Writes as many points as the table has room and the budget pays for. The plan is left shifted by them.
pub fn fill(plan: &mut [u64], table: &mut [u64], budget: u64) -> Result<Filled, Refusal> {
    let mut answer = [0; 4];
    // SAFETY: as in `compile`.
    unsafe { raw::otterchime_fill(plan.as_mut_ptr(), plan.len(), table.as_mut_ptr(), table.len(), budget, &mut answer) };
    let [number, place, points, spent] = answer;
    Refusal::of(number, place).map(|()| Filled { points: points as usize, spent })
}

/// The same, and the crossings of the root over the points written. Refused where the root is neither a constant nor a sum chain.
/// The root's first element as a whole number, start value plus all signed steps, is its first element in the plan now plus 2^64 times the sum.
pub fn fill_eras(plan: &mut [u64], table: &mut [u64], budget: u64) -> Result<FilledEras, Refusal> {
    let mut answer = [0; 5];
    // SAFETY: as in `compile`.
    unsafe { raw::otterchime_fill_eras(plan.as_mut_ptr(), plan.len(), table.as_mut_ptr(), table.len(), budget, &mut answer) };
    let [number, place, points, spent, sum] = answer;
    Refusal::of(number, place).map(|()| FilledEras { points: points as usize, spent, sum: sum as i64 })
}

/// What a plan costs. A point costs one more.
pub fn cost(plan: &[u64]) -> Result<u64, Refusal> {
    let mut answer = [0; 3];
    // SAFETY: as in `compile`.
    unsafe { raw::otterchime_cost(plan.as_ptr(), plan.len(), &mut answer) };
    let [number, place, cost] = answer;
    Refusal::of(number, place).map(|()| cost)
}

/// Whether a plan is sound, so that `fill`, `cost` and `reason` accept it.
pub fn sound(plan: &[u64]) -> Result<(), Refusal> {
    let mut answer = [0; 2];
    // SAFETY: as in `compile`.
    unsafe { raw::otterchime_sound(plan.as_ptr(), plan.len(), &mut answer) };
    let [number, place] = answer;
    Refusal::of(number, place)
}

/// A compiled plan. It is sound, and stays so while it is filled by, so no call on it is refused but `fill_eras`, by its root.
#[derive(Clone, Debug, PartialEq, Eq)]
pub struct Plan(Vec<u64>);

impl Plan {
    pub fn compile(text: &[u8], start: u64, step: u64) -> Result<Plan, Refusal> {
        let mut words = vec![0; PLAN_WORDS];
        compile(text, start, step, &mut words).map(|()| Plan(words))
    }

    pub fn fill(&mut self, table: &mut [u64], budget: u64) -> Filled {
        fill(&mut self.0, table, budget).expect("a compiled plan is sound")
    }

    pub fn fill_eras(&mut self, table: &mut [u64], budget: u64) -> Result<FilledEras, Refusal> {
        fill_eras(&mut self.0, table, budget)
    }

    pub fn cost(&self) -> u64 {
        cost(&self.0).expect("a compiled plan is sound")
    }

    /// The rows, left operand first and root last; `rows().len()` is how many there are.
    pub fn rows(&self) -> impl ExactSizeIterator<Item = Row<'_>> {
        rows::rows(&self.0)
    }

    /// Why a row, counted from 0, is still there; none of a constant or a chain, and of a row that the plan doesn't have.
    pub fn reason(&self, row: usize) -> Option<Reason> {
        reasons::reason(&self.0, row as u64).expect("a compiled plan is sound").reason
    }

    pub fn words(&self) -> &[u64] {
        &self.0
    }
}
