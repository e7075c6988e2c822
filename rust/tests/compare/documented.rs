//! 01's own cases, through the wrapper.
use otterchime::{Filled, Plan, Refusal};

fn refusal(text: &str) -> Refusal {
    Plan::compile(text.as_bytes(), 0, 1).expect_err("refused")
}

fn elements(plan: &Plan) -> &[u64] {
    &plan.words()[4..5 + plan.words()[2] as usize]
}

#[test]
fn the_cube() {
    let mut plan = Plan::compile(b"x^3", 0, 1).expect("accepted");
    assert_eq!(elements(&plan), [0, 1, 6, 6]);
    let mut table = [9; 10];
    assert_eq!(plan.fill(&mut table, 15), Filled { points: 3, spent: 12 });
    assert_eq!(table, [0, 1, 8, 9, 9, 9, 9, 9, 9, 9]);
    assert_eq!(elements(&plan), [27, 37, 24, 6]);
}

#[test]
fn chains_and_rows() {
    let compiled = |text: &str, start, step| Plan::compile(text.as_bytes(), start, step).expect("accepted");
    assert_eq!(elements(&compiled("3*x+1", 5, 2)), [16, 6]);
    assert_eq!(elements(&compiled("x^2", 0, 1 << 32)), [0]);
    assert_eq!(elements(&compiled("-x^2", 0, 1)), [0, u64::MAX, u64::MAX - 1]);
    assert_eq!(elements(&compiled("x^2+x", 0, 1 << 63)), [0, 1 << 63]);
    assert_eq!(elements(&compiled("x", 0, 1 << 63)), [0, 1 << 63]);
    let of = |text: &str| (compiled(text, 0, 1).rows().len(), compiled(text, 0, 1).cost());
    assert_eq!([of("3^(3^(x))"), of("x^17"), of("x^8*x^8"), of("x^8*x^9")], [(3, 129), (2, 17), (1, 16), (3, 18)]);
    let mut table = [0; 4];
    compiled("3^(3^(x))", 0, 1).fill(&mut table, u64::MAX);
    assert_eq!(table, [3, 27, 19683, 7625597484987]);
}

#[test]
fn refusals() {
    let places = ["", "01", "1-", "x^2^3"].map(refusal);
    assert_eq!(places, [0, 1, 2, 3].map(|place| Refusal::NotInGrammar { place }));
    assert_eq!(refusal("2^(3)"), Refusal::BadRaise { place: 1 });
    assert_eq!(refusal("x^(2)"), Refusal::BadRaise { place: 1 });
    assert_eq!(refusal("18446744073709551616"), Refusal::NumberTooLarge { place: 0 });
    assert_eq!(refusal("x^65"), Refusal::ExponentTooLarge { place: 2 });
    assert_eq!(refusal(&["x"; 65].join("+")), Refusal::TooManyNodes);
    assert_eq!(refusal(&"x".repeat(1025)), Refusal::FormulaTooLong);
    assert_eq!(refusal(&("x".to_string() + &"(".repeat(33))), Refusal::TooDeep { place: 33 });
    assert_eq!(refusal("x^65").to_string(), "refused 6 at 2: a literal exponent is over 64");
}
