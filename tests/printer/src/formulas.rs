//! Random formulas: valid ones of all shapes, ones at every limit, and damaged ones.
use crate::random::Random;

/// Texts of document 01 and of the readings, and neighbours of theirs.
const DOCUMENTED: &[&str] = &[
    "x^3", "3*x+1", "x*x-x^2+7", "x^2", "x", "x^2+x", "-x^2", "3^(x)", "3^(3^(x))", "0^0", "2^3", "2^(3)", "x^(2)", "x^17", "x^16", "x^8*x^8",
    "x^8*x^9", "", "01", "1-", "x^2^3", "18446744073709551615", "18446744073709551616", "x^64", "x^65", "x+3^(x)", "2^(x)", "99999999999999999999+(",
    "x^65+99999999999999999999", "x^99999999999999999999", "(x^0)^(2)", "(0*x+3)^(2)", "2^(2^(x))", "-3^(x)", "(-3)^(x)", "3^(2)", "0^(0)", "0-x^17",
    "--x^17", "x^17-x^17", "(2*3^(x))^64", "(9223372036854775809^(x))^2", "1^(3^(x))", "3^(x)+1", "(x^17)^0", "(x^17)^1", "x^17+0", "0+x^17",
    "x^17-0", "1*x^17", "x^17*1", "0*x^17", "x^17*0", "3^(x^17)", "(x+1)^16", "(x+1)^17", "(x^2+1)^8", "(x^2+1)^9", "(x^4-x)^4", "(x^5)^3",
    "(x^6)^3", "3^(x)*5^(x)", "3^(x)*x", "3^(x)*3^(-x)", "7-3^(x)", "0-3^(x)", "-3^(x^2)", "5*3^(x)", "3^(x)*5", "(3^(x))^64", "(-1)^(x)",
    "(-1)^(x^2)", "((-1)^(x))^2", "9223372036854775808*3^(x)*2", "2*(9223372036854775808*3^(x))", "()", "(x", "x)", "+x", "x+", "x**2", "x^-2",
    "x^()", "x x", "2x", "00", "0x", "1.5", "X", "3^(x)+5^(x)", "3^(x)-5^(x^2)", "5*3^(x)-3^(x)", "(3^(x)+5^(x))*2", "x^8*x^9+3^(x)",
    "3^(3^(x)-5^(x))",
];
const NUMBERS: &[&str] = &[
    "0", "1", "2", "3", "5", "7", "10", "16", "17", "63", "64", "65", "128", "4294967295", "4294967296", "9223372036854775807",
    "9223372036854775808", "9223372036854775809", "18446744073709551614", "18446744073709551615",
];
const TOO_LARGE: &[&str] =
    &["18446744073709551616", "18446744073709551620", "20000000000000000000", "100000000000000000000", "99999999999999999999999"];
const EXPONENTS: &[&str] = &["0", "1", "2", "2", "2", "3", "3", "4", "5", "8", "15", "16", "17", "33", "63", "64"];
const OPERATORS: &[&str] = &["+", "-", "*"];
const DAMAGE: &[u8] = b"\r\0 \t\x80\xff\xc3\x0b+-*^()x019.X";

impl Random {
    pub fn formula(&mut self) -> Vec<u8> {
        let text = match self.weighted(&[42, 12, 8, 7, 7, 3, 4, 4, 6]) {
            0 => {
                let size = self.between(1, 24);
                self.sum(size, true)
            }
            1 => self.pick(DOCUMENTED).to_string(),
            2 => self.nested(),
            3 => self.chain_limit(),
            4 => self.many_nodes(),
            5 => {
                let length = self.between(1018, 1030);
                self.of_length(length)
            }
            6 => self.large_numbers(),
            7 => self.loose_bytes(),
            _ => self.product_chains(),
        };
        let mut text = text.into_bytes();
        if self.percent(14) {
            self.damage(&mut text);
        }
        text
    }

    fn number(&mut self) -> String {
        match self.weighted(&[50, 30, 20]) {
            0 => self.between(0, 12).to_string(),
            1 => self.pick(NUMBERS).to_string(),
            _ => {
                let word = self.word();
                (word >> self.below(64)).to_string()
            }
        }
    }

    fn sum(&mut self, size: usize, with_x: bool) -> String {
        let mut text = self.product(size.div_ceil(2), with_x);
        for _ in 0..self.weighted(&[50, 35, 15]) {
            text += self.pick(&["+", "-"]);
            text += &self.product(size / 3, with_x);
        }
        text
    }

    fn product(&mut self, size: usize, with_x: bool) -> String {
        let mut text = self.factor(size, with_x);
        for _ in 0..self.weighted(&[60, 30, 10]) {
            text += "*";
            text += &self.factor(size / 3, with_x);
        }
        text
    }

    fn factor(&mut self, size: usize, with_x: bool) -> String {
        "-".repeat(self.weighted(&[80, 14, 4, 2])) + &self.power(size, with_x)
    }

    fn power(&mut self, size: usize, with_x: bool) -> String {
        match self.weighted(&[60, 25, 15]) {
            0 => self.atom(size, with_x),
            1 => self.atom(size, with_x) + "^" + self.pick(EXPONENTS),
            _ => {
                let base = if self.percent(97) { self.odd_base(size / 2) } else { self.atom(size / 2, true) };
                base + "^(" + &self.sum(size / 2, with_x) + ")"
            }
        }
    }

    /// An atom without x whose value is odd.
    fn odd_base(&mut self, size: usize) -> String {
        match self.weighted(&[60, 20, 20]) {
            0 => (self.word() >> self.below(64) | 1).to_string(),
            1 => format!("(-{})", self.below(9) * 2 + 1),
            _ => format!("(2*({})+1)", self.sum(size / 2, false)),
        }
    }

    fn atom(&mut self, size: usize, with_x: bool) -> String {
        if size > 1 && self.percent(60) {
            return "(".to_string() + &self.sum(size - 1, with_x) + ")";
        }
        if with_x && self.percent(60) {
            "x".to_string()
        } else {
            self.number()
        }
    }

    /// Brackets as deep as the limit allows, or a step deeper or less deep.
    fn nested(&mut self) -> String {
        let depth = self.between(30, 34);
        let kind = self.below(6);
        let mut text = if self.percent(70) { "x".to_string() } else { self.number() };
        for _ in 0..depth {
            let kind = if kind == 5 { self.below(5) } else { kind };
            text = match kind {
                0 => format!("({text})"),
                1 => format!("{}+({text})", self.below(9)),
                2 => format!("-({text})"),
                3 => format!("{}^({text})", self.below(5) * 2 + 1),
                _ => format!("({text})*x"),
            };
        }
        if self.percent(10) {
            text = ")".repeat(self.between(1, 2)) + &text;
        }
        text
    }

    /// Products and powers of chains on both sides of length 16.
    fn chain_limit(&mut self) -> String {
        let first = self.between(1, 16);
        let second = (self.between(15, 18)).saturating_sub(first).max(1);
        let base = self.pick(&["x", "(x+1)", "(3-x)", "(2*x)", "(4294967296*x)", "3^(x)", "(5*3^(x))"]);
        match self.below(4) {
            0 => format!("{base}^{first}*x^{second}"),
            1 => format!("x^{first}*(x^{second}-{base})"),
            2 => format!("(x^{}-{base})^{}", self.between(1, 8), self.between(1, 8)),
            _ => format!("({base}*x^{})^{}-{}", self.between(0, 5), self.between(0, 6), self.number()),
        }
    }

    /// Product chains of several lengths, multiplied, scaled, negated and raised to literal powers.
    fn product_chains(&mut self) -> String {
        let mut factors = vec![];
        for _ in 0..self.between(1, 4) {
            let base = self.odd_base(2);
            let (degree, number) = (self.between(0, 16), self.number());
            let exponent = self.pick(&["x", "x*x", "x^3", "-x", "x^D", "N*x", "x^D-N", "x^D+x", "(x-N)^2", "N"]);
            let chain = format!("{base}^({})", exponent.replace('D', &degree.to_string()).replace('N', &number));
            factors.push(match self.weighted(&[55, 15, 15, 15]) {
                0 => chain,
                1 => format!("({chain})^{}", self.pick(EXPONENTS)),
                2 => "-".to_string() + &chain,
                _ => self.number(),
            });
        }
        let product = factors.join("*");
        match self.weighted(&[50, 20, 30]) {
            0 => product,
            1 => format!("({product})^{}", self.pick(EXPONENTS)),
            _ => format!("{}{}{product}", self.pick(&["0", "x", "7", "x^17", "3^(x)", "5^(x^2)"]), self.pick(OPERATORS)),
        }
    }

    /// About 128 nodes.
    fn many_nodes(&mut self) -> String {
        let nodes = self.between(124, 132);
        if self.percent(25) {
            return "-".repeat(nodes - 2) + self.pick(&["x^2", "x^17"]);
        }
        if self.percent(20) {
            return (1..nodes.div_ceil(2)).fold("x".to_string(), |text, _| format!("{text}*x"));
        }
        let mut text = self.pick(&["x", "1", "x^17"]).to_string();
        for _ in 0..(nodes - 1) / 2 {
            text += self.pick(OPERATORS);
            text += self.pick(&["x", "x", "2", "3", "0", "1"]);
        }
        if self.percent(30) {
            text + "^2"
        } else {
            text
        }
    }

    /// A text of this length, from few nodes: numbers of many digits and brackets round them.
    fn of_length(&mut self, length: usize) -> String {
        let mut text = "x".to_string();
        while length - text.len() > 40 {
            let rounds = self.below(12);
            let number: String = (0..self.between(14, 19)).map(|_| char::from(b'1' + self.below(9) as u8)).collect();
            let item = self.pick(OPERATORS).to_string() + &"(".repeat(rounds) + &number + &")".repeat(rounds);
            if text.len() + item.len() < length - 2 {
                text += &item;
            }
        }
        let rest = length - text.len() - 1;
        let last = if rest % 2 == 0 { "10" } else { "x" };
        let rounds = (rest - last.len()) / 2;
        text + "+" + &"(".repeat(rounds) + last + &")".repeat(rounds)
    }

    fn large_numbers(&mut self) -> String {
        let large = self.pick(TOO_LARGE);
        let size = self.between(1, 6);
        let rest = self.sum(size, true);
        match self.below(6) {
            0 => format!("{rest}+{large}"),
            1 => format!("x^{large}-{rest}"),
            2 => format!("x^{}+{rest}", self.between(65, 200)),
            3 => format!("{rest}-x^{}*{large}", self.between(63, 67)),
            4 => format!("({rest})^65+{large}"),
            _ => format!("{}+{rest}-{}", self.pick(NUMBERS), self.pick(NUMBERS)),
        }
    }

    fn loose_bytes(&mut self) -> String {
        let length = self.between(0, 14);
        (0..length).map(|_| self.pick(&["x", "x", "0", "1", "12", "+", "-", "*", "^", "^2", "^(", "(", ")"])).collect()
    }

    /// One to three bytes put in, taken out or replaced.
    pub fn damage(&mut self, text: &mut Vec<u8>) {
        for _ in 0..self.between(1, 3) {
            let byte = if self.percent(80) { DAMAGE[self.below(DAMAGE.len())] } else { self.word() as u8 };
            let place = self.below(text.len() + 1);
            match self.below(3) {
                0 => text.insert(place, byte),
                1 if place < text.len() => text[place] = byte,
                _ if place < text.len() => drop(text.remove(place)),
                _ => text.push(byte),
            }
        }
    }
}
