//! What the row explainer writes: the `job` line, and a line for each row that is an operator, with the reason why it is still there.
use crate::folding::{cost, part};
use crate::jobs::{run, Job, Printed};
use crate::reasons::{reason, WORDS};

fn print(out: &mut Printed, job: &Job) {
    let Job { number, text, tree, grid } = job;
    let rows = part(tree, grid.start, grid.step).plan();
    out.line(&[&"job", number, &rows.len(), &cost(&rows)]);
    for (r, row) in rows.iter().enumerate().filter(|(_, row)| row.kind >= 3) {
        let reason = reason(&rows, r) as usize;
        let span = String::from_utf8_lossy(&text[row.span.clone()]);
        out.line(&[&"row", &r, &row.span.start, &row.span.end, &row.cost(), &WORDS[reason - 1], &span]);
        out.reasons[reason] += 1;
    }
}

pub fn explained(input: &[u8]) -> Printed {
    run(input, print)
}
