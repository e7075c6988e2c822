#!/usr/bin/env python3
"""Prints the input of the program `edges_reasons`, and what the program must write for it:

    python3 tests/edges_reasons.py stdin > crates/edges_reasons/stdin
    python3 tests/edges_reasons.py stdout > crates/edges_reasons/stdout

A line of the input is a case, unless it is empty or begins with a semicolon. A case makes a plan in 3,000 words, all 0 before, and asks why its
rows are still there. It consists of tokens with a blank between them, in which {3:0,} stands for 0, three times; with repeats written out a case
has at most 2,000 bytes. Its tokens are among those of `edges`, but for r:

    1,3,0,0,1,6,6   the next row: its kind, a, b and elements. The words after them stay 0 but for the span, which is 0..1, and word 0 counts
                    the row. ~1 in it is the number of the row before it.
    @40,7,8         puts 7 and 8 in the words from 40 on. -1 is the word 2^64 - 1.
    =x^3            compiles the formula on the grid with start 0 and step 1, and prints a tab, `compile`, the refusal's number, its place and
                    word 0, with blanks between them.
    g5,2:x^3        the same on the grid with start 5 and step 2.
    #2816           lends 2,816 words from then on; 2,817 are lent where nothing is said.
    r5              asks for row 5 alone; r-1 for row 2^64 - 1.

After the last token each row is asked for from row 0 to the one past those that word 0 counts; word 0 is taken as 128 where it is more. The program
writes the case as it stands, without its repeats written out, then what its tokens print, then the answers, and a line feed. An answer is a tab and
number, place, reason, first byte and end byte with blanks between them.

Nothing here is taken from the library. Formulas, plans and 01's folding rules are those of edges.py. An operand is what the rules see of it: a chain
trimmed, by its values if it is a sum chain; any other row as it stands. The rules fold a row if they give anything else for its operands than the
row itself. Then, and else by each of document 02's sentences, the reasons that hold are worked out, and there must be exactly one."""
import sys

sys.dont_write_bytecode = True
from edges import (FOLDS, LONGEST_TEXT, PLAN_WORDS, ROW_WORDS, ROWS, SPAN, WORD, compiled_words, fold_power, formula, plan_refusal, product_chain,
                   put_words, refusals, rows_of, sum_chain, values, written_out)

HELD = 3000  # words that the program holds
LONGEST_CASE = 2000  # bytes
LONGEST_INPUT = 2**14


# ---- the reasons

def operand(rows, r):
    """What the rules see of a row. What an operator stands on is left out: no rule looks there, and its number tells it apart."""
    kind, a, _, *f = rows[r][:SPAN]
    if kind == 0:
        return kind, f[:1]
    if kind == 1:
        return sum_chain(values(f[:a + 1]))
    if kind == 2:
        return product_chain(f[:a + 1])
    return kind, r


def is_operator(tree):
    return tree[0] >= 3


def is_sum(tree):
    """A sum chain or constant."""
    return tree[0] <= 1


def is_product(tree):
    return tree[0] == 2


def chain_length(tree):
    return len(tree[1]) - 1


def lengths_add_over(kind, n, *operands):
    return kind == 5 and all(tree[0] == 1 for tree in operands) and sum(map(chain_length, operands)) > 16


def length_times_over(kind, n, *operands):
    return kind == 7 and operands[0][0] == 1 and chain_length(operands[0]) * n > 16


def sum_against_product(kind, n, *operands):
    return kind in (3, 4, 5) and any(map(is_sum, operands)) and any(map(is_product, operands))


# Document 02's first six reasons, each by its own words, of a row of a kind with exponent n over these operands.
SENTENCES = [
    lambda kind, n, *operands: kind != 8 and any(map(is_operator, operands)),
    lengths_add_over,
    length_times_over,
    sum_against_product,
    lambda kind, n, *operands: kind in (3, 4) and all(map(is_product, operands)),
    lambda kind, n, *operands: kind == 8 and not is_sum(operands[1]),
]
WOULD_HAVE_FOLDED = 7


def reason(rows, r):
    kind, a, b = rows[r][:3]
    if kind < 3:
        return 0
    operands = [operand(rows, row) for row in ([a] if kind in (6, 7) else [a, b])]
    if kind == 7:
        folds = fold_power(*operands, b) != (kind, *operands, b)
    else:
        folds = FOLDS[kind](*operands) != (kind, *operands)
    if folds:
        return WOULD_HAVE_FOLDED
    (holding,) = [number for number, holds in enumerate(SENTENCES, 1) if holds(kind, b, *operands)]
    return holding


def asked(words, r):
    """Number, place, reason, first byte, end byte."""
    number = plan_refusal(words)
    if number or r >= words[0]:
        return number, 0, 0, 0, 0
    rows = rows_of(words)
    return 0, 0, reason(rows, r), *rows[r][SPAN:]


# ---- a case

def word(text, r=0):
    value = int(text.lstrip("-~"))
    return (-value if text[0] == "-" else r - value if text[0] == "~" else value) % WORD


def listed(text, r=0):
    return [word(each, r) for each in text.removesuffix(",").split(",")]


def compiled(text, grid, words, lent):
    """Writes the plan, and says what the program prints."""
    number, place = (1, 0) if lent < PLAN_WORDS else min(refusals(text), default=(0, 0))
    if not number:
        put_words(words, 0, compiled_words(formula(text)[1], grid))
    return f"compile {number} {place} {words[0]}"


def add_row(token, words):
    r = words[0]
    put_words(words, 1 + ROW_WORDS * r + SPAN, [0, 1])
    put_words(words, 1 + ROW_WORDS * r, listed(token, r))
    words[0] = r + 1


def run(case):
    """What the program prints for a case, part by part, and the reasons of the rows in the end."""
    words, lent, parts = [0] * HELD, PLAN_WORDS, []
    for token in written_out(case).split():
        rest = token[1:]
        if token[0] == "#":
            lent = int(rest)
        elif token[0] == "@":
            place, *planted = listed(rest)
            put_words(words, place, planted)
        elif token[0] == "r":
            parts.append(asked(words[:lent], word(rest)))
        elif token[0] == "=":
            parts.append(compiled(rest, (0, 1), words, lent))
        elif token[0] == "g":
            grid, text = rest.split(":")
            parts.append(compiled(text, tuple(listed(grid)), words, lent))
        else:
            add_row(token, words)
    answers = [asked(words[:lent], r) for r in range(min(words[0], ROWS) + 1)]
    return parts + answers, [answer[2] for answer in answers[:-1]]


class Cases:
    """The lines of the input and of the output."""

    def __init__(self):
        self.stdin, self.stdout, self.names = [], [], set()

    def say(self, *lines):
        self.stdin += ["", *(f"; {line}".rstrip() for line in lines)]

    def case(self, line, told=None):
        """Where the reasons of the rows are known otherwise, they must agree."""
        assert line not in self.names and len(written_out(line)) <= LONGEST_CASE, line
        self.names.add(line)
        parts, reasons = run(line)
        assert told is None or list(told) == reasons, (line, reasons)
        shown = [part if isinstance(part, str) else " ".join(map(str, part)) for part in parts]
        self.stdin.append(line)
        self.stdout.append("\t".join([line, *shown]))

    def print(self, what):
        lines = self.stdin if what == "stdin" else self.stdout
        text = "\n".join(lines) + "\n"
        assert what == "stdout" or len(text) < LONGEST_INPUT
        print(text, end="")


# ---- the cases

FORMAT = """The cases of the program `edges_reasons`, one to a line: plans, and why their rows are still there. tests/edges_reasons.py
writes this file and the output that it must give, and says more of it. A line that begins with a semicolon is a comment.

1,3,0,0,1,6,6 is the next row: its kind, a, b and elements. The words after them stay 0 but for the span, which is 0..1, and word 0 counts the row.
~1 in it is the number of the row before it. @40,7,8 puts 7 and 8 in the words from 40 on; -1 is the word 2^64 - 1. =x^3 compiles a formula, and
g5,2:x^3 does on a grid with start 5 and step 2: number, place and word 0 are told. #2816 lends 2,816 words; 2,817 are lent where nothing is said.
r5 asks for row 5. Last, every row is asked for from row 0 to the one past those that word 0 counts, at most 128. An answer is number, place, reason,
first byte and end byte. {3:0,} stands for 0, three times."""


def formulas(cases):
    cases.say("Every operator over a constant, sum chains, product chains and a row, of both hands.")
    sorts = ["7", "x", "x^9", "3^(x)", "5^(x^2)", "x^17"]
    for operator in "+-*":
        for left in sorts:
            for right in sorts:
                cases.case(f"={left}{operator}{right}")
    for text in sorts:
        cases.case(f"=-({text})")
        cases.case(f"=({text})^2")
        cases.case(f"=3^({text})")


def known_formulas(cases):
    cases.say("Document 02's own examples, rows of each kind below each operator, and both sides of the two limits.")
    for text, told in (
            ("x^8*x^8", (0,)), ("x^8*x^9", (0, 0, 2)), ("x^8*x^9+3^(x)", (0, 0, 2, 0, 1)), ("x^16*x", (0, 0, 2)), ("x*x^16", (0, 0, 2)),
            ("x^6*x^6*x^6", (0, 0, 2)), ("x^16", (0,)), ("(x^4)^4", (0,)), ("(x^4)^5", (0, 3)), ("(x+1)^17", (0, 3)), ("(x^16)^2", (0, 3)),
            ("x^64", (0, 3)), ("((x^8)^4)^2", (0, 3, 1)), ("--x^17", (0, 3, 1, 1)), ("1^(3^(x))", (0, 0, 6)), ("3^(x)*5^(x)", (0,)),
            ("3^(x)+5^(x)-7^(x)", (0, 0, 5, 0, 1)), ("3^(x)-(5^(x)-7^(x))", (0, 0, 0, 5, 1)), ("(x+3^(x))*(x-3^(x))", (0, 0, 4, 0, 0, 4, 1)),
            ("3^(x+3^(x))", (0, 0, 0, 4, 6)), ("3^(-x^17)", (0, 0, 3, 1, 6)), ("3^((x^17)^2)", (0, 0, 3, 1, 6)), ("3^(3^(3^(x)))", (0, 0, 0, 6, 6)),
            ("-(x+3^(x))", (0, 0, 4, 1)), ("(3^(x)-x)^2", (0, 0, 4, 1)), ("-(3^(x)*x)", (0, 0, 4, 1)), ("-3^(3^(x))", (0, 0, 6, 1)),
            ("x^8*x^9*2", (0, 0, 2, 0, 1)), ("2*(x^8*x^9)", (0, 0, 0, 2, 1)), ("2*x^8*x^9", (0, 0, 2))):
        cases.case(f"={text}", told)


def dropped(cases):
    cases.say("A 0 or 1 that a rule drops leaves no row, and the row beside it stays what it is; 0-A is a minus row.")
    for text, told in (("0+x^17", (0, 3)), ("x^17+0", (0, 3)), ("x^17-0", (0, 3)), ("1*x^17", (0, 3)), ("x^17*1", (0, 3)), ("(x^17)^1", (0, 3)),
                       ("0-x^17", (0, 3, 1)), ("0*x^17", (0,)), ("x^17*0", (0,)), ("(x^17)^0", (0,)), ("(x-x)-x*3^(x)", (0, 0, 4, 1)),
                       ("0+3^(x)", (0,)), ("0-3^(x)", (0,)), ("1-x^17", (0, 0, 3, 1)), ("1+3^(x)", (0, 0, 4))):
        cases.case(f"={text}", told)


def many_rows(cases):
    cases.say("Many rows; grids on which less or more is folded; formulas that are refused.")
    cases.case("=x^17{42:+x^17}")
    cases.case("={126:-}x^17", (0, 3) + (1,) * 126)
    cases.case("={32:3^(}x{32:)}", (0,) * 32 + (6,) * 31)
    cases.case("={32:(}x^17{32:)}", (0, 3))
    cases.case(f"g1,{2**63}:x^8*x^9", (0,))
    cases.case(f"g1,{2**63}:x^17", (0, 3))
    cases.case(f"g0,{2**32}:x^17", (0, 3))
    cases.case("g5,0:x^17+3^(3^(x))", (0,))
    cases.case("g-1,-1:3^(3^(x))-x*3^(x)", (0, 0, 6, 0, 0, 4, 1))
    cases.case("=2^(x)", ())
    cases.case("=x+ r0", ())
    cases.case("=x^8*x^9 =x^65", (0, 0, 2))


# A constant 0, 1 and 7; a sum chain, and sum chains that are 7, 0 and 1 when they are trimmed; a sum chain of length 8 that is trimmed, and one of
# length 9; a product chain, and product chains that are 7, 1 and twice 0 when they are trimmed; one that is shorter when it is trimmed; and a row.
POOL = ["0", "0,0,0,1", "0,0,0,7", "1,1,0,5,2", "1,2,0,7", "1,1,0", "1,16,0,1", "1,12,0,{9:1,}", "1,9,0,{10:1,}", "2,1,0,4,5", "2,3,0,7,1,1,1",
        "2,1,0,1,1", "2,1,0,0,3", "2,2,0,0,3,1", "2,3,0,4,5,1,1", "4,3,9"]
SEVEN = 2  # the pool's odd constant


def pool_with(*rows):
    return " ".join(POOL + list(rows))


def pairs(cases):
    cases.say("Plans from elsewhere, with rows that nothing refers to. Each operator over every two of: constants 0, 1, 7; a sum chain; sum",
              "chains that are 7, 0, 1; one of length 12 that is one of 8, and one of length 9; a product chain; product chains that are 7, 1, 0",
              "and 0; one that is shorter when it is trimmed; and a row.")
    every = [(a, b) for a in range(len(POOL)) for b in range(len(POOL))]
    for kind in (3, 4, 5):
        for some in (every[:86], every[86:172], every[172:]):
            cases.case(pool_with(*(f"{kind},{a},{b}" for a, b in some)))
    for rows in (["6,{}"], ["7,{},2", "7,{},3"], ["7,{},16", "7,{},64"], [f"8,{SEVEN},{{}}"]):
        cases.case(pool_with(*(row.format(a) for row in rows for a in range(len(POOL)))))


def lengths(cases):
    cases.say("Lengths that add to 16 and 17, of chains as they stand and of chains of 17 elements that are trimmed; and lengths times n on both",
              "sides of 16.")
    whole = " ".join(f"1,{k},0,{{{k + 1}:9,}}" for k in range(1, 17))
    padded = " ".join(f"1,16,0,{{{k + 1}:9,}}" for k in range(1, 17))
    products = [(k, total - k) for total in (16, 17) for k in range(1, 17) if 1 <= total - k <= 16]
    powers = [(k, n) for k in range(1, 17) for n in (16 // k, 16 // k + 1) if n >= 2]
    told = (0,) * 16 + tuple(7 if k + l == 16 else 2 for k, l in products)
    told += tuple(7 if k * n <= 16 else 3 for k, n in powers)
    over = " ".join([f"5,{k - 1},{l - 1}" for k, l in products] + [f"7,{k - 1},{n}" for k, n in powers])
    cases.case(f"{whole} {over}", told)
    cases.case(f"{padded} {over}", told)


def shared(cases):
    cases.say("Shared rows: a chain with itself, a row that two name, the same base twice, and 127 rows that double the one before.")
    cases.case("1,8,0,{9:1,} 5,0,0", (0, 7))
    cases.case("1,9,0,{10:1,} 5,0,0", (0, 2))
    cases.case("2,1,0,3,5 3,0,0 4,0,0 5,0,0", (0, 5, 5, 7))
    cases.case("1,1,0,0,1 7,0,17 3,1,1 4,1,1 5,1,1 6,1 7,1,2 5,~2,~1", (0, 3, 1, 1, 1, 1, 1, 1))
    cases.case("0,0,0,3 2,1,0,3,5 8,0,1 8,0,1 8,0,2 8,0,0 5,0,0", (0, 0, 6, 6, 6, 7, 7))
    cases.case("0,0,0,5 {127:3,~1,~1 }", (0, 7) + (1,) * 126)
    cases.case("2,1,0,3,5 {127:4,~1,~1 }", (0, 5) + (1,) * 126)
    cases.case("{127:0,0,0,7 }3,0,126", (0,) * 127 + (7,))
    cases.case("=x^17 3,~1,~1 6,0 7,~3,2", (0, 3, 1, 7, 1))


def altered(cases):
    cases.say("Compiled plans with words altered: an element, a constant, a kind, an exponent, an operand, a span.")
    for line, told in (
            ("=x^8*x^9 @12,0", (0, 0, 7)), ("=x^8*x^9 @35,0,0", (0, 0, 7)), ("=x^8*x^9 @45,3", (0, 0, 7)), ("=x^8*x^9 @45,6,0,0", (0, 0, 7)),
            ("=x^8*x^9 @45,7,0,2", (0, 0, 7)), ("=x^8*x^9 @45,7,0,3", (0, 0, 3)), ("=x^8*x^9 @47,0", (0, 0, 7)), ("=x^8*x^9 @46,1", (0, 0, 2)),
            ("=x^17 @25,16", (0, 7)), ("=x^17 @25,18", (0, 3)), ("=x^17 @5,0", (0, 7)), ("=x^17 @1,2", (0, 7)),
            ("=x+3^(x) @26,0", (0, 0, 7)), ("=x+3^(x) @27,1", (0, 0, 7)), ("=x+3^(x) @23,1", (0, 0, 7)), ("=x+3^(x) @1,2,1,0,4,5", (0, 0, 5)),
            ("=x*3^(x) @1,2,1,0,4,5", (0, 0, 7)), ("=x*3^(x) @5,0", (0, 0, 7)), ("=7-3^(x) @4,0", (0, 0, 7)), ("=7-3^(x) @4,1", (0, 0, 4)),
            ("=3^(x)-7 @26,0", (0, 0, 7)), ("=5-x^17 @4,0", (0, 0, 3, 7)), ("=x^17-5 @48,0", (0, 3, 0, 7)), ("=x^17+5 @48,1", (0, 3, 0, 1)),
            ("=5+x^17 @4,0", (0, 0, 3, 7)), ("=5*x^17 @4,1", (0, 0, 3, 7)), ("=x^17*5 @48,0", (0, 3, 0, 7)), ("=x^17*5 @48,2", (0, 3, 0, 1)),
            ("=3^(3^(x)) @26,0", (0, 0, 7)), ("=3^(3^(x)) @27,1", (0, 0, 7)), ("=3^(3^(x)) @23,1", (0, 0, 7)), ("=3^(3^(x)) @4,1", (0, 0, 6)),
            ("=3^(x^17) @69,1", (0, 0, 3, 7)), ("=-x^17 @46,0", (0, 3, 7)), ("=(x^17)^2 @46,0", (0, 3, 7)), ("=(x^17)^2 @46,0,17", (0, 3, 3)),
            ("=x^17-3^(x) @21,9,10 @43,0,1024 @87,1023,1024", (0, 3, 0, 1))):
        cases.case(line, told)


def unsound(cases):
    cases.say("Plans that are not sound, and words lent: every answer is a refusal, whatever row is asked for.")
    for line in ("r0", "@0,128 r127", "0,0,0,7 @0,0 r0", "0,0,0,7 @0,2", "0,0,0,7 @0,129", "0,0,0,7 @0,-1 r-1", "0,0,0,7 9,0,0", "0,0,0,7 3,0,1",
                 "3,0,0", "0,0,0,7 6,0,1", "0,0,0,7 7,0,1", "0,0,0,7 7,0,65", "0,0,0,6 8,0,0", "1,1,0,7,2 8,0,0", "0,0,0,7 3,0,0,1", "1,17,0,7",
                 "2,0,0,7", "0,0,0,7,1", "=x^8*x^9 @66,0", f"=x^8*x^9 @66,{LONGEST_TEXT + 1}", "=x^8*x^9 @65,7", "=x^8*x^9 @67,1", "=x^8*x^9 @2816,1",
                 "=x^8*x^9 @46,2", "=3^(3^(x)) @4,2", "=x^8*x^9 #2816 r2 r-1", "#2816 =x^17", "#2816 0,0,0,7", "#0 r0", "#1 0,0,0,7", "#2561 0,0,0,7",
                 "#0 0,0,0,7 6,0 #2817 r1 #3000 r1"):
        cases.case(line)
    cases.case("#3000 =x^8*x^9 @2817,{183:9,}", (0, 0, 2))


def far_rows(cases):
    cases.say("Rows that word 0 doesn't count. 22 times 2^63 is 0 modulo 2^64.")
    far = " ".join(f"r{r}" for r in (3, 4, 126, 127, 128, 129, 2816, 2**32, 2**32 + 2, 2**63, 2**63 + 2, WORD - 2)) + " r-1"
    cases.case(f"=x^8*x^9 r0 r1 r2 {far}", (0, 0, 2))
    cases.case(f"0,0,0,3 {{127:6,~1 }}{far}", (0, 7) + (1,) * 126)
    cases.case(f"{far}")


def main(what):
    cases = Cases()
    cases.stdin += [f"; {line}".rstrip() for line in FORMAT.splitlines()]
    for some in (formulas, known_formulas, dropped, many_rows, pairs, lengths, shared, altered, unsound, far_rows):
        some(cases)
    cases.print(what)


if __name__ == "__main__":
    if sys.argv[1:] not in (["stdin"], ["stdout"]):
        sys.exit("usage: edges_reasons.py stdin | stdout")
    main(sys.argv[1])
