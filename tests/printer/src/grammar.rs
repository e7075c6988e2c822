//! Where a text leaves the grammar, by Earley's method: each place of the text has the set of the rules that can be under
//! way there, so the first byte that leaves this set empty is the first after which no grammar text can begin so.
use std::collections::HashSet;

#[derive(Clone, Copy, PartialEq)]
enum Part {
    Sum,
    Product,
    Factor,
    Power,
    Exponent,
    Atom,
    Number,
    Digits,
}

/// A rule's next piece: a part of its own, or one of these bytes.
enum Piece {
    Of(Part),
    One(&'static [u8]),
}

use Part::*;
use Piece::*;

const RULES: [(Part, &[Piece]); 17] = [
    (Sum, &[Of(Product)]),
    (Sum, &[Of(Sum), One(b"+-"), Of(Product)]),
    (Product, &[Of(Factor)]),
    (Product, &[Of(Product), One(b"*"), Of(Factor)]),
    (Factor, &[Of(Power)]),
    (Factor, &[One(b"-"), Of(Factor)]),
    (Power, &[Of(Atom)]),
    (Power, &[Of(Atom), One(b"^"), Of(Exponent)]),
    (Exponent, &[Of(Number)]),
    (Exponent, &[One(b"("), Of(Sum), One(b")")]),
    (Atom, &[Of(Number)]),
    (Atom, &[One(b"x")]),
    (Atom, &[One(b"("), Of(Sum), One(b")")]),
    (Number, &[One(b"0")]),
    (Number, &[Of(Digits)]),
    (Digits, &[One(b"123456789")]),
    (Digits, &[Of(Digits), One(b"0123456789")]),
];

/// A rule under way: its number, how many of its pieces have been met, and the place where it began.
type Item = (usize, usize, usize);

#[derive(Default)]
struct Column {
    items: Vec<Item>,
    known: HashSet<Item>,
}

impl Column {
    fn add(&mut self, item: Item) {
        if self.known.insert(item) {
            self.items.push(item);
        }
    }

    fn begin(&mut self, part: Part, place: usize) {
        for (rule, (made, _)) in RULES.iter().enumerate() {
            if *made == part {
                self.add((rule, 0, place));
            }
        }
    }

    /// Adds the rules that can begin here, and those that go on where a rule has ended. No rule is empty, so a rule that
    /// has ended here began in an earlier column.
    fn complete(&mut self, place: usize, earlier: &[Column]) {
        let mut next = 0;
        while next < self.items.len() {
            let (rule, met, origin) = self.items[next];
            next += 1;
            match RULES[rule].1.get(met) {
                Some(Of(part)) => self.begin(*part, place),
                Some(One(_)) => {}
                None => {
                    for item in waiting_for(RULES[rule].0, &earlier[origin]) {
                        self.add(item);
                    }
                }
            }
        }
    }
}

/// The rules of a column that wait for the part, a step further.
fn waiting_for(part: Part, column: &Column) -> Vec<Item> {
    let waits = |item: &&Item| matches!(RULES[item.0].1.get(item.1), Some(Of(wanted)) if *wanted == part);
    column.items.iter().filter(waits).map(|item| (item.0, item.1 + 1, item.2)).collect()
}

/// The place of refusal 4, or nothing where the text is in the grammar.
pub fn leaves(text: &[u8]) -> Option<usize> {
    let mut first = Column::default();
    first.begin(Sum, 0);
    first.complete(0, &[]);
    let mut columns = vec![first];
    for (place, byte) in text.iter().enumerate() {
        let mut column = Column::default();
        for (rule, met, origin) in &columns[place].items {
            if matches!(RULES[*rule].1.get(*met), Some(One(bytes)) if bytes.contains(byte)) {
                column.add((*rule, met + 1, *origin));
            }
        }
        if column.items.is_empty() {
            return Some(place);
        }
        column.complete(place + 1, &columns);
        columns.push(column);
    }
    let whole = |item: &Item| RULES[item.0].0 == Sum && item.1 == RULES[item.0].1.len() && item.2 == 0;
    if columns[text.len()].items.iter().any(whole) {
        None
    } else {
        Some(text.len())
    }
}
