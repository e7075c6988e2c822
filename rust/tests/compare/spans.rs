//! The rows of a compiled plan and the bytes that they came from, against the independent implementation and against what a row's own text
//! compiles to; and both sides of what soundness asks of spans.
use crate::on_many;
use crate::plans::Grid;
use otterchime::{fill, sound, Plan, Refusal, Row, RowKind, PLAN_WORDS, ROW_WORDS};
use printer::folding::part;
use printer::formula::read;
use printer::random::Random;

/// 01's number for a row's kind, and the words a and b.
fn numbered(row: &Row) -> (u64, u64, u64) {
    let operand = |i: usize| row.operands.get(i).copied().unwrap_or(0) as u64;
    let length = row.elements.len().saturating_sub(1) as u64;
    match row.kind {
        RowKind::Constant => (0, 0, 0),
        RowKind::SumChain => (1, length, 0),
        RowKind::ProductChain => (2, length, 0),
        RowKind::Sum => (3, operand(0), operand(1)),
        RowKind::Difference => (4, operand(0), operand(1)),
        RowKind::Product => (5, operand(0), operand(1)),
        RowKind::Minus => (6, operand(0), 0),
        RowKind::LiteralPower { exponent } => (7, operand(0), exponent),
        RowKind::Raise => (8, operand(0), operand(1)),
    }
}

/// "The bytes from first to end are themselves an accepted formula", whose root row is the row.
fn check_cut(text: &[u8], row: &Row, grid: &Grid) {
    let cut = &text[row.span.clone()];
    let alone = Plan::compile(cut, grid.start, grid.step).expect("a row's text is accepted");
    let root = alone.rows().last().expect("a row");
    assert_eq!((root.kind, root.elements, root.span), (row.kind, row.elements, 0..cut.len()), "{}", cut.escape_ascii());
}

/// The operands of a row lie within its own bytes, left before right, and overlap nowhere.
fn check_within(rows: &[Row], row: &Row) {
    let spans: Vec<_> = row.operands.iter().map(|operand| rows[*operand].span.clone()).collect();
    assert!(spans.iter().all(|span| row.span.start <= span.start && span.end <= row.span.end));
    assert!(spans.windows(2).all(|pair| pair[0].end <= pair[1].start));
}

fn spans_of(plan: &Plan) -> Vec<(usize, usize)> {
    plan.rows().map(|row| (row.span.start, row.span.end)).collect()
}

fn check_rows(text: &[u8], grid: &Grid, random: &mut Random) {
    let tree = read(text).expect("accepted");
    let mut plan = Plan::compile(text, grid.start, grid.step).expect("accepted");
    let expected = part(&tree, grid.start, grid.step).plan();
    let rows: Vec<Row> = plan.rows().collect();
    assert_eq!(rows.len(), expected.len());
    for (row, expected) in rows.iter().zip(&expected) {
        assert_eq!(numbered(row), (expected.kind, expected.a, expected.b));
        assert_eq!((row.elements, &row.span), (&expected.elements[..], &expected.span));
        check_within(&rows, row);
    }
    check_cut(text, &rows[random.below(rows.len())], grid);
    check_cut(text, &rows[rows.len() - 1], grid);
    let before = spans_of(&plan);
    plan.fill(&mut [0; 3], u64::MAX);
    assert_eq!(spans_of(&plan), before);
}

#[test]
fn rows_of_formulas() {
    let mut accepted = 0;
    on_many("rows of formulas", |random| {
        let text = random.formula();
        let grid = Grid::random(random);
        if read(&text).is_ok() {
            check_rows(&text, &grid, random);
            accepted += 1;
        }
    });
    crate::tell(&format!("rows of formulas: {accepted} accepted"));
}

#[test]
fn spans_of_the_documents() {
    let known: [(&str, &[(usize, usize)]); 8] = [
        ("(x+1)", &[(1, 4)]),
        ("(x+1)*2", &[(0, 7)]),
        ("3^(x)", &[(0, 5)]),
        ("0-(x^17)", &[(3, 4), (3, 7), (0, 8)]),
        ("1*(x^17)", &[(3, 4), (0, 8)]),
        ("x^17+0", &[(0, 1), (0, 6)]),
        ("(x^17)^1", &[(1, 2), (0, 8)]),
        ("x*x-x^2+7", &[(0, 9)]),
    ];
    for (text, spans) in known {
        assert_eq!(spans_of(&Plan::compile(text.as_bytes(), 0, 1).expect("accepted")), spans, "{text}");
    }
}

/// Both sides of "the first byte is below the end byte and the end is at most 1,024; the other rows stay all 0".
#[test]
fn sound_spans() {
    let one_row = |first: u64, end: u64| {
        let mut plan = vec![0; PLAN_WORDS];
        (plan[0], plan[ROW_WORDS - 1], plan[ROW_WORDS]) = (1, first, end);
        plan
    };
    let answer = |mut plan: Vec<u64>| {
        let filled = fill(&mut plan, &mut [0; 2], 9).map(|_| ());
        assert_eq!(filled, sound(&plan));
        filled
    };
    for (first, end) in [(0, 1), (0, 1024), (1023, 1024), (5, 6)] {
        assert_eq!(answer(one_row(first, end)), Ok(()), "{first} {end}");
    }
    for (first, end) in [(0, 0), (1, 1), (1024, 1024), (2, 1), (0, 1025), (1024, 1025), (u64::MAX, 0), (u64::MAX, u64::MAX), (0, u64::MAX)] {
        assert_eq!(answer(one_row(first, end)), Err(Refusal::PlanNotSound), "{first} {end}");
    }
    for place in [2 * ROW_WORDS - 1, 2 * ROW_WORDS, PLAN_WORDS - 2, PLAN_WORDS - 1] {
        let mut plan = one_row(0, 1);
        plan[place] = 1;
        assert_eq!(answer(plan), Err(Refusal::PlanNotSound), "{place}");
    }
}

/// The numbers of examples/README.md.
#[test]
fn the_example() {
    let text = b"2*(x+1)-(1*x^17)";
    let plan = Plan::compile(text, 0, 1).expect("accepted");
    let rows: Vec<Row> = plan.rows().collect();
    let spans = [0, 1, 2, 3].map(|r: usize| rows[r].span.clone());
    assert_eq!(spans, [0..7, 11..12, 9..15, 0..16]);
    let texts = ["2*(x+1)", "x", "1*x^17", "2*(x+1)-(1*x^17)"];
    assert_eq!(spans.map(|span| &text[span]), texts.map(str::as_bytes));
    assert_eq!((rows[0].elements, rows[1].elements), (&[2, 2][..], &[0, 1][..]));
    assert_eq!((rows[2].kind, &rows[2].operands[..]), (RowKind::LiteralPower { exponent: 17 }, &[1][..]));
    assert_eq!((rows[3].kind, &rows[3].operands[..]), (RowKind::Difference, &[0, 2][..]));
}
