//! What the table printer writes: the `job` line, and each point's index and direct value.
use crate::folding::{cost, part};
use crate::formula::value;
use crate::jobs::{run, Job, Printed};

fn print(out: &mut Printed, job: &Job) {
    let Job { number, tree, grid, .. } = job;
    let rows = part(tree, grid.start, grid.step).plan();
    out.line(&[&"job", number, &rows.len(), &cost(&rows)]);
    for i in 0..grid.count {
        let x = grid.start.wrapping_add(i.wrapping_mul(grid.step));
        out.line(&[&i, &value(tree, x)]);
    }
}

pub fn tables(input: &[u8]) -> Printed {
    run(input, print)
}
