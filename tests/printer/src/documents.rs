//! The examples that the documents and the readings work out by hand, held against this implementation.
use crate::explained::explained;
use crate::folding::{cost, folded, part, Folded, Row};
use crate::formula::{read, value};
use crate::reasons::reason;
use crate::tables::tables;

const MAX: u64 = u64::MAX;

fn fold(text: &str, start: u64, step: u64) -> Folded {
    folded(&read(text.as_bytes()).ok().expect("accepted"), start, step)
}

fn plan(text: &str, start: u64, step: u64) -> Vec<Row> {
    part(&read(text.as_bytes()).ok().expect("accepted"), start, step).plan()
}

fn rows_and_cost(text: &str) -> (usize, u64) {
    let rows = plan(text, 0, 1);
    (rows.len(), cost(&rows))
}

fn refusal(text: &str) -> (u64, usize) {
    read(text.as_bytes()).err().unwrap_or((0, 0))
}

#[test]
fn chains_of_the_edges() {
    assert_eq!(fold("x^3", 0, 1), Folded::Sums(vec![0, 1, 6, 6]));
    assert_eq!(fold("3*x+1", 5, 2), Folded::Sums(vec![16, 6]));
    for (start, step) in [(0, 1), (5, 2), (MAX, 1 << 63)] {
        assert_eq!(fold("x*x-x^2+7", start, step), Folded::Constant(7));
    }
    assert_eq!(fold("x^2", 0, 1 << 32), Folded::Constant(0));
    assert_eq!(fold("x", 0, 1 << 63), Folded::Sums(vec![0, 1 << 63]));
    assert_eq!(fold("x^2+x", 0, 1 << 63), Folded::Sums(vec![0, 1 << 63]));
    assert_eq!(fold("-x^2", 0, 1), Folded::Sums(vec![0, MAX, MAX - 1]));
    assert_eq!(fold("3^(x)", 0, 1), Folded::Products(vec![1, 3]));
    assert_eq!(fold("0^0", 0, 1), Folded::Constant(1));
    assert_eq!(fold("2^3", 0, 1), Folded::Constant(8));
    assert_eq!(fold("(2*3^(x))^64", 0, 1), Folded::Constant(0));
    assert_eq!(fold("(9223372036854775809^(x))^2", 0, 1), Folded::Constant(1));
    assert!(matches!(fold("x^16", 0, 1), Folded::Sums(chain) if chain.len() == 17 && chain[16] == 20922789888000));
}

#[test]
fn rows_of_the_edges() {
    let known = [
        ("3^(3^(x))", (3, 129)),
        ("x^17", (2, 17)),
        ("x^16", (1, 16)),
        ("x^8*x^8", (1, 16)),
        ("x^8*x^9", (3, 18)),
        ("0-x^17", (3, 18)),
        ("--x^17", (4, 19)),
        ("1^(3^(x))", (3, 129)),
        ("3^(x)+1", (3, 2)),
        ("x^17-x^17", (5, 35)),
        ("(x^17)^0", (1, 0)),
        ("(x^17)^1", (2, 17)),
    ];
    for (text, expected) in known {
        assert_eq!(rows_and_cost(text), expected, "{text}");
    }
    assert_eq!(plan("x^17", 0, 1 << 32).len(), 2);
    assert_eq!(plan("x^17", 3, 0).len(), 1);
}

/// Kind, first and end byte of each row.
fn spans(text: &str) -> Vec<(u64, usize, usize)> {
    plan(text, 0, 1).iter().map(|row| (row.kind, row.span.start, row.span.end)).collect()
}

#[test]
fn spans_of_the_documents() {
    let known: [(&str, &[(u64, usize, usize)]); 19] = [
        ("(x+1)", &[(1, 1, 4)]),
        ("((x+1))", &[(1, 2, 5)]),
        ("(x+1)*2", &[(1, 0, 7)]),
        ("3^(x)", &[(2, 0, 5)]),
        ("(3)^((x))", &[(2, 0, 9)]),
        ("0-(x^17)", &[(1, 3, 4), (7, 3, 7), (6, 0, 8)]),
        ("-(x^17)", &[(1, 2, 3), (7, 2, 6), (6, 0, 7)]),
        ("1*(x^17)", &[(1, 3, 4), (7, 0, 8)]),
        ("(x^17)*1", &[(1, 1, 2), (7, 0, 8)]),
        ("x^17+0", &[(1, 0, 1), (7, 0, 6)]),
        ("(0+(x)^17)", &[(1, 4, 5), (7, 1, 9)]),
        ("x^17-0", &[(1, 0, 1), (7, 0, 6)]),
        ("(x^17)^1", &[(1, 1, 2), (7, 0, 8)]),
        ("(x^17)^0", &[(0, 0, 8)]),
        ("0*x^17", &[(0, 0, 6)]),
        ("((x)+(3^(x)))", &[(1, 2, 3), (2, 6, 11), (3, 1, 12)]),
        ("3^((3^(x)))", &[(0, 0, 1), (2, 4, 9), (8, 0, 11)]),
        ("1*(0+(x^17))-x", &[(1, 6, 7), (7, 0, 12), (1, 13, 14), (4, 0, 14)]),
        ("x^8*x^9", &[(1, 0, 3), (1, 4, 7), (5, 0, 7)]),
    ];
    for (text, expected) in known {
        assert_eq!(spans(text), expected, "{text}");
    }
}

#[test]
fn values_of_a_tower() {
    let tree = read(b"3^(3^(x))").ok().expect("accepted");
    assert_eq!([0, 1, 2, 3].map(|x| value(&tree, x)), [3, 27, 19683, 7625597484987]);
}

#[test]
fn refusals_of_the_documents() {
    let known = [
        ("", (4, 0)),
        ("01", (4, 1)),
        ("1-", (4, 2)),
        ("x^2^3", (4, 3)),
        ("2^(3)", (8, 1)),
        ("x^(2)", (8, 1)),
        ("18446744073709551615", (0, 0)),
        ("18446744073709551616", (5, 0)),
        ("x^64", (0, 0)),
        ("x^65", (6, 2)),
        ("99999999999999999999+(", (4, 22)),
        ("x^65+99999999999999999999", (5, 5)),
        ("(x^0)^(2)", (8, 5)),
        ("(0*x+3)^(2)", (8, 7)),
        ("2^(2^(x))", (8, 1)),
        ("3^(2)", (0, 0)),
        ("0^(0)", (8, 1)),
        ("x\r", (4, 1)),
        ("x\0", (4, 1)),
        ("\u{80}", (4, 0)),
    ];
    for (text, expected) in known {
        assert_eq!(refusal(text), expected, "{text}");
    }
    assert_eq!(refusal(&(")".to_string() + &"(".repeat(33))), (4, 0));
    assert_eq!(refusal(&("x".to_string() + &"(".repeat(33))), (3, 33));
    assert_eq!(refusal(&vec!["x"; 64].join("+")), (0, 0));
    assert_eq!(refusal(&vec!["x"; 65].join("+")), (7, 0));
    assert_eq!(refusal(&"x".repeat(1025)), (2, 1024));
}

#[test]
fn the_table_printers_example() {
    let input = "chain-jobs>1\nx^2>0>1>3\n>>>\nx+3^(x)>>>2\n2^(x)>>>\n".replace('>', "\t");
    let output = "job>1>1>2\n0>0\n1>1\n2>4\njob>2>3>3\n0>1\n1>4\nno>3>8>1\n".replace('>', "\t");
    assert_eq!(tables(input.as_bytes()).bytes, output.as_bytes());
}

/// The reasons of the rows that have one.
fn reasons(text: &str) -> Vec<u64> {
    let rows = plan(text, 0, 1);
    (0..rows.len()).map(|r| reason(&rows, r)).filter(|reason| *reason > 0).collect()
}

#[test]
fn reasons_of_formulas() {
    let known: [(&str, &[u64]); 24] = [
        ("x^8*x^8", &[]),
        ("x^8*x^9", &[2]),
        ("x^17", &[3]),
        ("(x^2+1)^9", &[3]),
        ("x+3^(x)", &[4]),
        ("3^(x)-x", &[4]),
        ("1+3^(x)", &[4]),
        ("3^(x)-7", &[4]),
        ("x*3^(x)", &[4]),
        ("3^(x)*x", &[4]),
        ("3^(x)+5^(x)", &[5]),
        ("3^(x)-5^(x)", &[5]),
        ("3^(x)*5^(x)", &[]),
        ("3^(3^(x))", &[6]),
        ("1^(3^(x))", &[6]),
        ("3^(x^17)", &[3, 6]),
        ("-x^17", &[3, 1]),
        ("0-x^17", &[3, 1]),
        ("x^17+3^(x)", &[3, 1]),
        ("3^(x)-x^17", &[3, 1]),
        ("x^17*x", &[3, 1]),
        ("2*x^17", &[3, 1]),
        ("(x^17)^2", &[3, 1]),
        ("x^17-x^17", &[3, 3, 1]),
    ];
    for (text, expected) in known {
        assert_eq!(reasons(text), expected, "{text}");
    }
}

/// A row from elsewhere: its kind, a, b, and elements.
fn row(kind: u64, a: u64, b: u64, elements: &[u64]) -> Row {
    Row { kind, a, b, elements: elements.to_vec(), span: 0..1 }
}

fn constant(word: u64) -> Row {
    row(0, 0, 0, &[word])
}

fn chain(kind: u64, elements: &[u64]) -> Row {
    row(kind, elements.len() as u64 - 1, 0, elements)
}

/// The reason of an operator over the rows before it.
fn reason_over(before: &[Row], kind: u64, a: u64, b: u64) -> u64 {
    let rows = [before, &[row(kind, a, b, &[])]].concat();
    reason(&rows, before.len())
}

/// Lengths go by trimmed operands, and a product chain with first element 0 counts as a constant.
#[test]
fn reasons_of_trimmed_operands() {
    let eight_trimmed = chain(1, &[1, 1, 1, 1, 1, 1, 1, 1, 1, 0, 0, 0, 0]);
    let sums = [eight_trimmed, chain(1, &[1; 10])];
    assert_eq!([(0, 0), (0, 1), (1, 0), (1, 1)].map(|(a, b)| reason_over(&sums, 5, a, b)), [7, 2, 2, 2]);
    assert_eq!([(0, 2), (0, 3), (1, 2)].map(|(a, n)| reason_over(&sums, 7, a, n)), [7, 3, 3]);
    let (products, dead, one, seven) = (chain(2, &[1, 3, 1]), chain(2, &[0, 3]), chain(2, &[1, 1, 1]), chain(1, &[7, 0]));
    let rows = [products, dead, one, seven, constant(3)];
    assert_eq!(reason_over(&rows, 3, 0, 0), 5);
    assert_eq!(reason_over(&rows, 4, 0, 1), 7);
    assert_eq!(reason_over(&rows, 4, 1, 0), 7);
    assert_eq!(reason_over(&rows, 5, 0, 2), 7);
    assert_eq!(reason_over(&rows, 3, 0, 2), 4);
    assert_eq!(reason_over(&rows, 3, 1, 2), 7);
    assert_eq!(reason_over(&rows, 4, 3, 0), 4);
    assert_eq!(reason_over(&rows, 5, 3, 0), 7);
    assert_eq!(reason_over(&rows, 8, 4, 0), 6);
    assert_eq!([1, 2, 3, 4].map(|exponent| reason_over(&rows, 8, 4, exponent)), [7; 4]);
    assert_eq!([0, 1, 2, 3, 4].map(|operand| reason_over(&rows, 6, operand, 0)), [7; 5]);
    assert_eq!([0, 1, 2, 3, 4].map(|operand| reason_over(&rows, 7, operand, 64)), [7; 5]);
}

/// Beside an operator, a 0 or 1 is dropped by a rule or isn't; an operator is taken as it stands, though 01 would have folded it.
#[test]
fn reasons_beside_an_operator() {
    let rows = [constant(0), constant(1), constant(2), chain(2, &[0, 3]), chain(1, &[1, 0]), row(3, 0, 1, &[])];
    assert_eq!(reason(&rows, 5), 7);
    let of = |kind: u64| [0, 1, 2, 3, 4].map(|unit| (reason_over(&rows, kind, unit, 5), reason_over(&rows, kind, 5, unit)));
    assert_eq!(of(3), [(7, 7), (1, 1), (1, 1), (7, 7), (1, 1)]);
    assert_eq!(of(4), [(7, 7), (1, 1), (1, 1), (7, 7), (1, 1)]);
    assert_eq!(of(5), [(7, 7), (7, 7), (1, 1), (7, 7), (7, 7)]);
    assert_eq!([3, 4, 5].map(|kind| reason_over(&rows, kind, 5, 5)), [1; 3]);
    assert_eq!([reason_over(&rows, 6, 5, 0), reason_over(&rows, 7, 5, 2), reason_over(&rows, 8, 1, 5)], [1, 1, 6]);
}

#[test]
fn the_row_explainers_example() {
    let input = "chain-jobs>1\nx^8*x^9+3^(x)>0>1>3\n>>>\n>>0>\n2^(x)>>>\nx>>>4097\n".replace('>', "\t");
    let output = "job>1>5>20\nrow>2>0>7>1>lengths add over 16>x^8*x^9\n\
                  row>4>0>13>1>an operand is itself of kinds 3 to 8>x^8*x^9+3^(x)\njob>2>1>0\nno>3>8>1\nno>4>11>4\n"
        .replace('>', "\t");
    assert_eq!(String::from_utf8(explained(input.as_bytes()).bytes).unwrap(), output);
}

/// "Jobs 2 to 21 are pairs: a formula, and the same formula written so that it costs less."
#[test]
fn pairs_of_the_example() {
    let jobs = include_str!("../../../examples/reasons.jobs");
    let formulas: Vec<&str> = jobs.lines().skip(2).map(|line| line.split('\t').next().expect("a field")).collect();
    let grids = [(0, 1), (5, 2), (MAX, 1 << 63), (1 << 32, MAX), (17144395776000000000, 4294967296)];
    for pair in formulas[1..21].chunks(2) {
        let trees = [0, 1].map(|i| read(pair[i].as_bytes()).expect("accepted"));
        assert!(rows_and_cost(pair[1]).1 < rows_and_cost(pair[0]).1, "{pair:?}");
        for (start, step) in grids {
            let values = |tree| (0u64..20).map(|i| value(tree, i.wrapping_mul(step).wrapping_add(start))).collect::<Vec<u64>>();
            assert_eq!(values(&trees[0]), values(&trees[1]), "{pair:?}");
        }
    }
}
