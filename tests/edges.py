#!/usr/bin/env python3
"""Prints what the program `edges` must write: python3 tests/edges.py > crates/edges/stdout

Nothing here is taken from the library. A chain is a sequence of whole numbers: its value at index i is the sum of its
elements times the binomials (i over j). Sums, differences and products are taken value by value at the indices 0 to 16,
a shift begins one index later, and the elements are the repeated differences of the values, modulo 2^64. The value of a
backward chain at index i is the sum of its elements times (i + j - 1 over j), and its elements are the differences to
the index before; for tables that run backwards i may be negative, and so may it for forward chains. A polynomial is
evaluated as it stands. The probe is a difference of whole numbers. A formula is read by Earley's method: the grammar
is a list of rules, and each place of the text has the set of the rules that can be under way there. Every refusal that
applies is worked out, and the least one counts. A text that can't be printed or is long has a name in the notation of
the program's input, {33:(} for 33 brackets and <10> for the byte 10. A plan is held to document 01's table line by
line. Its value at a point is the root's, taken down the rows, where a chain has its value at that index; no chain is
shifted step by step. After a filling, element j of a chain is the value that the chain from j on has at the number of
points written. A plan's name is the line of the program's input, made from the rows. A formula is folded as a tree by
document 01's rules: sum chains again value by value, product chains element by element. The values of a compiled plan
are what the formula's nodes give at each x, whatever it folds to. The span of a node is the part of the text that its
rule of the grammar took, from the place where the rule began to the one where it ended; what a node folds to stands for
all of it, and a row's operands for theirs. Where spans are printed, each row's own text is compiled by itself and must
have that row as its root. A job file is taken as a whole: its lines, their fields, and what each line prints. Its
notation has > for a tab and / for a line feed."""
import re
from functools import cache
from itertools import groupby, product as product_of, zip_longest
from math import comb, factorial, prod

WORD = 2**64
HALF = 2**63
POINTS = 17

MIXED = [
    8655628691030458795, 5256094207684167668, 4180856497841727578, 107979628678664349,
    15756039724148852180, 13115661919474116790, 4387717867488172214, 4103110843326994392,
    5471255634648745445, 15032457632618298465, 12298722244620105259, 17555418861524147830,
    11106931077284914532, 409181037405618471, 4064752486773932908, 11119541076410096229,
    375820720504423710]
OTHER = [
    2840057397584532836, 11179614465513572718, 11639083774110332977, 8572736460732607874,
    11043835257696556159, 12978061762861636387, 18177973469798822320, 14437370032020131157,
    6673710908173084901, 7752820852661137699, 1585321266115439055, 9118092803556517201,
    9532229974515371666, 3177742345388760290, 10378958388058473350, 10676154810568506706,
    5216717000746992735]

names = set()


def line(name, answer):
    assert name not in names, name
    names.add(name)
    print(f"{name}\t{answer}")


# ---- chains as sequences

def at(f, i):
    """The value at index i of the chain with elements f."""
    return sum(e * comb(i, j) for j, e in enumerate(f))


def values(f, first=0):
    return [at(f, i) for i in range(first, first + POINTS)]


def elements(v, step=1):
    """The trimmed chain that has these values: the differences of every order at the first point, from which the others
    lie 1 index on each, or -1."""
    f = []
    while v:
        f.append(v[0] % WORD)
        v = [step * (b - a) for a, b in zip(v, v[1:])]
    while len(f) > 1 and f[-1] == 0:
        f.pop()
    return f


def length(f):
    """The trimmed length: the degree of the polynomial through the values."""
    return len(elements(values(f))) - 1


def chain(name, f):
    line(name, f"0 0 {len(f) - 1} {','.join(map(str, f))} clean")


def refused(name, number):
    line(name, f"{number} 0 0 0 clean")


def too_long(*chains):
    return any(len(f) - 1 > 16 for f in chains)


# ---- the calls, each as one line of the program

def trim(name, f):
    refused(name, 14) if too_long(f) else chain(name, elements(values(f)))


def sum_of(name, f, g):
    if too_long(f, g):
        return refused(name, 14)
    chain(name, elements([a + b for a, b in zip(values(f), values(g))]))


def difference(name, f, g):
    if too_long(f, g):
        return refused(name, 14)
    chain(name, elements([a - b for a, b in zip(values(f), values(g))]))


def product(name, f, g):
    if too_long(f, g):
        return refused(name, 14)
    if length(f) + length(g) > 16:
        return refused(name, 15)
    chain(name, elements([a * b for a, b in zip(values(f), values(g))]))


def shift(name, f):
    refused(name, 14) if too_long(f) else chain(name, elements(values(f, 1)))


def value(name, f):
    line(name, "14 0 0" if too_long(f) else f"0 0 {at(f, 0) % WORD}")


def evaluated(a):
    return lambda i: sum(c * i**j for j, c in enumerate(a))


def coefficients(name, a):
    if len(a) > 17:
        return refused(name, 13)
    worked(name, evaluated(a))


def worked(name, function, printed=None, last=None):
    """The chain of a function of the index; where a document gives the chain or its last element, the two must agree."""
    f = elements([function(i) for i in range(POINTS)])
    assert printed is None or f == [e % WORD for e in printed], name
    assert last is None or f[-1] == last, name
    chain(name, f)


def sequence(name, function):
    line(name, ",".join(str(function(i) % WORD) for i in range(20)))


def probe(name, reading, expected, tolerance):
    if tolerance >= HALF:
        return line(name, "10 0 0 none")
    if reading == 0:
        return line(name, "0 0 0 unset")
    offset = (reading - expected + HALF) % WORD - HALF
    verdict = "ahead" if offset > tolerance else "behind" if offset < -tolerance else "within"
    line(name, f"0 0 {offset} {verdict}")


# ---- tables that run backwards

def over(i, j):
    """The binomial (i over j) of any whole number i."""
    return prod(range(i - j + 1, i + 1)) // factorial(j)


def forward_at(f, i):
    """The value at index i, which may be negative, of the chain with elements f: document 000's equation 8."""
    return sum(e * over(i, j) for j, e in enumerate(f))


def backward_at(f, i):
    """The same of the backward chain with elements f: equation 9."""
    return sum(e * over(i + j - 1, j) for j, e in enumerate(f))


def forward_elements(function):
    return elements([function(i) for i in range(POINTS)])


def backward_elements(function):
    return elements([function(-i) for i in range(POINTS)], step=-1)


# The calls that make one chain of one: how the answer's elements come from its values, how the given chain's values come
# from its elements, and how much later the answer's values are taken.
CHANGES = {
    "inverse shift": (forward_elements, forward_at, -1),
    "backward shift": (backward_elements, backward_at, 1),
    "backward inverse shift": (backward_elements, backward_at, -1),
    "to backward": (backward_elements, forward_at, 0),
    "to forward": (forward_elements, backward_at, 0),
}


def change(call, name, f):
    if too_long(f):
        return refused(f"{call} {name}", 14)
    elements_of, value_at, later = CHANGES[call]
    chain(f"{call} {name}", elements_of(lambda i: value_at(f, i + later)))


def backward_sum(name, f, g):
    if too_long(f, g):
        return refused(name, 14)
    chain(name, backward_elements(lambda i: backward_at(f, i) + backward_at(g, i)))


def backward_product(name, f, g):
    if too_long(f, g):
        return refused(name, 14)
    if length(f) + length(g) > 16:
        return refused(name, 15)
    chain(name, backward_elements(lambda i: backward_at(f, i) * backward_at(g, i)))


def worked_backwards(name, function, printed=None):
    """The backward chain of a function of the index; where the document gives the chain, the two must agree."""
    f = backward_elements(function)
    assert printed is None or f == [e % WORD for e in printed], name
    chain(name, f)


def walk(name, function):
    """From now towards then by the forward chain and by the backward one, and from now on by the backward one."""
    back, ahead = (",".join(str(function(step * i) % WORD) for i in range(20)) for step in (-1, 1))
    line(name, f"{back} {back} {ahead}")


# ---- reading a formula

def joined(kind):
    return lambda span, a, sign, b: a + b + [(kind, 0, sign[0], span)]


def same(span, a):
    return a


# The grammar: a part's name, what the part consists of, and what it means, given the part's span. There a name stands for
# such a part, and any other text for one of its bytes, which means its place and itself. A number means its place and its
# digits, the others their nodes in postfix order: kind, word, the place that a refusal gives, and the span.
GRAMMAR = [
    ("sum", ["product"], same),
    ("sum", ["sum", "+", "product"], joined(3)),
    ("sum", ["sum", "-", "product"], joined(4)),
    ("product", ["factor"], same),
    ("product", ["product", "*", "factor"], joined(5)),
    ("factor", ["power"], same),
    ("factor", ["-", "factor"], lambda span, sign, a: a + [(6, 0, sign[0], span)]),
    ("power", ["atom"], same),
    ("power", ["atom", "^", "number"], lambda span, a, caret, n: a + [(7, int(n[1]), n[0], span)]),
    ("power", ["atom", "^", "(", "sum", ")"], lambda span, a, caret, o, b, c: a + b + [(8, 0, caret[0], span)]),
    ("atom", ["number"], lambda span, n: [(0, int(n[1]), n[0], span)]),
    ("atom", ["x"], lambda span, x: [(1, 0, x[0], span)]),
    ("atom", ["(", "sum", ")"], lambda span, o, a, c: a),
    ("number", ["0"], same),
    ("number", ["digits"], same),
    ("digits", ["123456789"], same),
    ("digits", ["digits", "0123456789"], lambda span, ds, d: (ds[0], ds[1] + d[1])),
]
PARTS = {name for name, _, _ in GRAMMAR}


def beginning(name, place):
    return {(rule, 0, place): () for rule, (part, _, _) in enumerate(GRAMMAR) if part == name}


def stepped(items, fits, meaning):
    """The rules under way whose next part fits, a step further."""
    return {(rule, dot + 1, origin): parts + (meaning,) for (rule, dot, origin), parts in items.items()
            if dot < len(GRAMMAR[rule][1]) and fits(GRAMMAR[rule][1][dot])}


def completed(items, place, columns):
    """Adds the rules that can begin at the place, and those that go on where a rule has ended."""
    work = list(items)
    while work:
        rule, dot, origin = work.pop()
        name, parts, meaning = GRAMMAR[rule]
        if dot < len(parts):
            more = beginning(parts[dot], place)
        else:
            whole = meaning((origin, place), *items[rule, dot, origin])
            more = stepped(columns[origin], lambda part: part == name, whole)
            assert not more.keys() & items.keys(), "a text with two meanings"
        work += more.keys() - items.keys()
        items = {**more, **items}
    return items


def formula(text):
    """The place where the text leaves the grammar, the length if it does not, and its nodes if it is a formula."""
    columns = [completed(beginning("sum", 0), 0, [])]
    for place, byte in enumerate(text):
        items = stepped(columns[-1], lambda part: part not in PARTS and byte in part, (place, byte))
        if not items:
            return place, None
        columns.append(completed(items, place + 1, columns))
    for (rule, dot, origin), parts in columns[-1].items():
        if origin == 0 and GRAMMAR[rule][0] == "sum" and dot == len(GRAMMAR[rule][1]):
            return len(text), GRAMMAR[rule][2]((0, len(text)), *parts)
    return len(text), None


WORKED = {
    3: lambda a, b: a + b,
    4: lambda a, b: a - b,
    5: lambda a, b: a * b,
    6: lambda a: -a,
    8: lambda a, b: pow(a, b, WORD),
}


def bad_raises(nodes):
    """Refusal 8 at every raise over an even base or one that holds x. What holds x has no value."""
    stack = []
    for kind, word, place, _ in nodes:
        if kind in (0, 1):
            stack.append(word % WORD if kind == 0 else None)
            continue
        operands = [stack.pop() for _ in range(1 if kind in (6, 7) else 2)][::-1]
        if kind == 8 and (operands[0] is None or operands[0] % 2 == 0):
            yield 8, place
        worked_out = WORKED.get(kind, lambda a: pow(a, word, WORD))
        stack.append(None if None in operands else worked_out(*operands) % WORD)


def refusals(text):
    """The number and place of every refusal from 2 to 8 that applies to the text."""
    if len(text) > 1024:
        yield 2, 1024
    for place, byte in enumerate(text):
        if byte == "(" and text[:place + 1].count("(") - text[:place + 1].count(")") > 32:
            yield 3, place
    left, nodes = formula(text)
    if nodes is None:
        yield 4, left
        return
    for kind, word, place, _ in nodes:
        if kind in (0, 7) and word >= WORD:
            yield 5, place
        if kind == 7 and word > 64:
            yield 6, place
    if len(nodes) > 128:
        yield 7, 0
    yield from bad_raises(nodes)


def reading(name, text=None, answer=None, count=None, lent=None):
    """Where the number and place or the count of nodes are known otherwise, they must agree. The name is the text where
    none is given."""
    text = name if text is None else text
    number, place = (1, 0) if lent is not None and lent < 257 else min(refusals(text), default=(0, 0))
    assert answer is None or (number, place) == answer, name
    name = f"read {name}" if lent is None else f"read {name} into {lent} words"
    if number:
        return line(name, f"{number} {place} kept")
    nodes = formula(text)[1]
    assert count is None or len(nodes) == count, name
    line(name, f"0 0 {len(nodes)}: {', '.join(f'{kind} {word}' for kind, word, _, _ in nodes)} clean kept")


def readings(texts):
    for text in texts.split():
        reading(text)


# ---- plans

ROW_WORDS = 22
SPAN = 20  # where a row's first byte stands in it, and then its end byte
ROWS = 128
PLAN_WORDS = 1 + ROWS * ROW_WORDS
LONGEST_TEXT = 1024
UNWRITTEN = 999  # stands in every word of a table before it is lent
BUDGET = 999  # where a line of the program's input gives none


def unused(word, rows, r):
    return word == 0


def chain_length(word, rows, r):
    return 1 <= word <= 16


def earlier(word, rows, r):
    return word < r


def literal(word, rows, r):
    return 2 <= word <= 64


def odd_constant(word, rows, r):
    return earlier(word, rows, r) and rows[word][0] == 0 and rows[word][3] % 2 == 1


# Document 01's table: for each kind what a and b must be, how many elements are in use, and the cost.
CONSTANT = (unused, unused, lambda a: 1, lambda a, b: 0)
CHAIN = (chain_length, unused, lambda a: a + 1, lambda a, b: a)
PAIR = (earlier, earlier, lambda a: 0, lambda a, b: 1)
MINUS = (earlier, unused, lambda a: 0, lambda a, b: 1)
POWER = (earlier, literal, lambda a: 0, lambda a, b: b - 1)
RAISE = (odd_constant, earlier, lambda a: 0, lambda a, b: 128)
KINDS = [CONSTANT, CHAIN, CHAIN, PAIR, PAIR, PAIR, MINUS, POWER, RAISE]


def rows_of(words):
    return [words[1 + ROW_WORDS * r:1 + ROW_WORDS * (r + 1)] for r in range(ROWS)]


def keeps_table(rows, r):
    kind, a, b, *elements_of_row = rows[r][:SPAN]
    if kind >= len(KINDS):
        return False
    good_a, good_b, used, _ = KINDS[kind]
    return good_a(a, rows, r) and good_b(b, rows, r) and not any(elements_of_row[used(a):])


def has_text(row):
    """Request Five of document 02: the first byte is below the end byte, and the end at most 1,024."""
    first, end = row[SPAN:]
    return first < end <= LONGEST_TEXT


def plan_refusal(words):
    if len(words) < PLAN_WORDS:
        return 1
    count, rows = words[0], rows_of(words)
    sound = (1 <= count <= ROWS and all(keeps_table(rows, r) and has_text(rows[r]) for r in range(count))
             and not any(any(row) for row in rows[count:]))
    return 0 if sound else 9


def plan_cost(words):
    return sum(KINDS[kind][3](a, b) for kind, a, b, *_ in rows_of(words)[:words[0]])


def product_at(f, i):
    """The value at index i of the product chain with elements f: as for sums, with powers for multiples."""
    return prod(pow(e, comb(i, j), WORD) for j, e in enumerate(f))


CHAIN_AT = {1: at, 2: product_at}


def root_value(words, i):
    """The value of the last row, i points on."""
    rows = rows_of(words)

    @cache
    def row_value(r):
        kind, a, b, *f = rows[r]
        if kind == 0:
            return f[0]
        if kind in CHAIN_AT:
            return CHAIN_AT[kind](f[:a + 1], i) % WORD
        if kind == 6:
            return WORKED[kind](row_value(a)) % WORD
        if kind == 7:
            return pow(row_value(a), b, WORD)
        return WORKED[kind](row_value(a), row_value(b)) % WORD

    return row_value(words[0] - 1)


def moved_on(words, points):
    """The plan after so many points: a chain's element j is then the value of its elements from j on."""
    result = list(words)
    for r, (kind, a, _, *f) in enumerate(rows_of(words)[:words[0]]):
        if kind in CHAIN_AT:
            start = 1 + ROW_WORDS * r + 3
            result[start:start + a + 1] = [CHAIN_AT[kind](f[j:a + 1], points) % WORD for j in range(a + 1)]
    return result


def filling(words, table, budget, value_at):
    """Refusal, cost, points, budget spent, and the words of the plan and of the table afterwards."""
    refusal = plan_refusal(words)
    if refusal:
        return refusal, 0, 0, 0, words, table
    cost = plan_cost(words)
    points = min(len(table), budget // (cost + 1))
    written = [value_at(words, i) for i in range(points)]
    return 0, cost, points, points * (cost + 1), moved_on(words, points), written + table[points:]


def checksum(words):
    return sum(i * word for i, word in enumerate(words, 1)) % WORD


def shown_row(row):
    last = max((i for i, word in enumerate(row[:SPAN]) if word), default=0)
    return ",".join(map(str, row[:last + 1]))


def shown_spans(words):
    """None of a plan that counts over 128 rows, as the words do that a refused formula leaves."""
    counted_rows = rows_of(words)[:words[0]] if words[0] <= ROWS else []
    return "spans" + "".join(" {}..{}".format(*row[SPAN:]) for row in counted_rows)


def runs(parts, least):
    """The parts as text, a run of so many or more in the notation of the program's input."""
    return "".join(f"{{{count}:{part}}}" if count >= least else part * count
                   for part, count in ((part, len(list(group))) for part, group in groupby(parts)))


def listed(words):
    text = runs([f"{word}," for word in words], 14)
    return text.removesuffix(",")


# The two rows that begin many of the plans; the program's input writes p for them.
PAIR_ROWS = [[0, 0, 0, 3], [1, 1, 0, 5, 2]]


SPANS = 0, BUDGET, "s"  # stands among fillings, and has the plan's spans printed


def fills_text(fills):
    """A filling is the table's length and the budget, and the letter e where eras are counted."""
    return " ".join("s" if letter == "s" else f"{letter}{room}" if budget == BUDGET else f"{letter}{room},{budget}"
                    for room, budget, letter in map(with_letter, fills))


def with_letter(fill):
    return fill if len(fill) == 3 else (*fill, "t")


def plan_text(rows, fills, put, lent):
    """The plan and its fillings in the notation of the program's input."""
    pair = rows[:2] == PAIR_ROWS
    text = "" if lent == PLAN_WORDS else f"#{lent} "
    text += "p " * pair + runs([listed(row) + " " for row in rows[2 * pair:]], 60)
    text += "".join(f"@{place},{listed(words)} " for place, words in put)
    return text + fills_text(fills)


def put_words(buffer, place, words, r=None):
    """Writes the words from a place on; ~n in row r is the number of the row n rows before it."""
    for i, word in enumerate(words, place):
        buffer[i] = (word if isinstance(word, int) else r - int(word.removeprefix("~"))) % WORD


def plan(rows, *fills, put=(), lent=PLAN_WORDS, answer=None, cost=None, values=None, after=None):
    """A plan of the rows, each with the span 0..1, then words put at their places, lent in a buffer of 3,000 words. A
    filling is the table's length and the budget. Where the refusal, the cost, the values written first or the first row
    afterwards are known otherwise, they must agree."""
    fills = fills or [(2, BUDGET)]
    words = [0] * 3000
    words[0] = len(rows)
    for r, row in enumerate(rows):
        put_words(words, 1 + ROW_WORDS * r + SPAN, [0, 1])
        put_words(words, 1 + ROW_WORDS * r, row, r)
    for place, planted in put:
        put_words(words, place, planted)
    name = plan_text(rows, fills, put, lent)
    table = [UNWRITTEN] * 4096
    parts = []
    for room, budget, letter in map(with_letter, fills):
        if letter == "s":
            parts.append(shown_spans(words))
        elif letter == "e":
            parts.append(counted(words, lent, table, room, budget % WORD, name, answer))
        else:
            parts.append(filled(words, lent, table, room, budget % WORD, name, answer, cost))
        assert values is None or [value % WORD for value in values] == table[:len(values)], name
    assert after is None or after == words[1:1 + len(after)], name
    line(f"plan {name}", "\t".join(parts))


def filled(words, lent, table, room, budget, name, answer=None, cost=None, value_at=root_value):
    """Fills the lent parts, and says what the program prints. The value at a point is the root's if nothing is said."""
    number, total, points, spent, words[:lent], table[:room] = filling(words[:lent], table[:room], budget, value_at)
    assert answer is None or answer == number, name
    assert cost is None or cost == total, name
    return f"sound {number} 0 cost {number} 0 {total} fill {number} 0 {points} {spent} {lent_text(words, table, points)}"


def lent_text(words, table, points):
    shown_rows = "".join(" " + shown_row(row) for row in rows_of(words)[:min(words[0], 10)])
    return (f"table {','.join(map(str, table[:min(points, 20) + 2]))} sum {checksum(table)} "
            f"plan {words[0]}:{shown_rows} sum {checksum(words)}")


# ---- eras: request One of document 02

def read_signed(word):
    return (word + HALF) % WORD - HALF


def turn(name, f):
    """How the first element crosses in a shift: how often 2^64 goes into the sum, rounded down."""
    if too_long(f):
        return line(name, "14 0 0")
    step = read_signed(f[1] % WORD) if len(f) > 1 else 0
    line(name, f"0 0 {(f[0] % WORD + step) // WORD}")


def era_sum(words, points):
    """The exact position, start value plus all signed steps, is the final first element plus 2^64 times the sum. A step
    is the value that the chain from element 1 on has at its point."""
    kind, a, _, *f = rows_of(words)[words[0] - 1]
    chain_of_root = f[:a + 1] if kind == 1 else f[:1]
    position = f[0] + sum(read_signed(at(chain_of_root[1:], i) % WORD) for i in range(points))
    eras, final = divmod(position, WORD)
    assert final == at(chain_of_root, points) % WORD
    return eras


def counted(words, lent, table, room, budget, name, answer=None):
    """Fills the lent parts with era count, and says what the program prints."""
    number = plan_refusal(words[:lent])
    if not number and rows_of(words)[words[0] - 1][0] > 1:
        number = 16
    assert answer is None or answer == number, name
    points = spent = eras = 0
    if not number:
        before = words[:lent]
        _, _, points, spent, words[:lent], table[:room] = filling(before, table[:room], budget, root_value)
        eras = era_sum(before, points)
    return f"eras {number} 0 {points} {spent} {eras} {lent_text(words, table, points)}"


# ---- compiling

# A folded formula is its kind and what belongs to it: the elements of a constant or a chain, or the operands.
ZERO = 0, [0]
ONE = 0, [1]


class Operand(tuple):
    """A folded formula with the span of the text that it stands for, which does not count where two are compared."""


def spanned(tree, span):
    operand = Operand(tree)
    operand.span = span
    return operand


def sum_chain(values_at):
    """The constant or sum chain with these values at the indices 0 to 16."""
    f = elements(values_at)
    return (1, f) if len(f) > 1 else (0, f)


def product_chain(f):
    """The constant or product chain with these elements."""
    f = [e % WORD for e in f]
    while len(f) > 1 and f[-1] == 1:
        f.pop()
    return (2, f) if len(f) > 1 and f[0] else (0, f[:1])


def has_sums(*operands):
    return all(kind in (0, 1) for kind, *_ in operands)


def has_products(*operands):
    return all(kind in (0, 2) for kind, *_ in operands)


def value_by_value(operation, *operands):
    return sum_chain([operation(*point) for point in zip(*(values(f) for _, f in operands))])


def fold_sum(a, b):
    if ZERO in (a, b):
        return b if a == ZERO else a
    return value_by_value(WORKED[3], a, b) if has_sums(a, b) else (3, a, b)


def fold_difference(a, b):
    if ZERO in (a, b):
        return a if b == ZERO else fold_minus(b)
    return value_by_value(WORKED[4], a, b) if has_sums(a, b) else (4, a, b)


def fold_product(a, b):
    if ZERO in (a, b):
        return ZERO
    if ONE in (a, b):
        return b if a == ONE else a
    if has_sums(a, b) and len(a[1]) - 1 + len(b[1]) - 1 <= 16:
        return value_by_value(WORKED[5], a, b)
    if has_products(a, b):
        return product_chain([x * y for x, y in zip_longest(a[1], b[1], fillvalue=1)])
    return 5, a, b


def fold_minus(a):
    if has_sums(a):
        return value_by_value(WORKED[6], a)
    return product_chain([-a[1][0]] + a[1][1:]) if has_products(a) else (6, a)


def fold_power(a, n):
    if n < 2:
        return a if n else ONE
    if has_sums(a) and (len(a[1]) - 1) * n <= 16:
        return value_by_value(lambda value: value**n, a)
    return product_chain([pow(e, n, WORD) for e in a[1]]) if has_products(a) else (7, a, n)


def fold_raise(a, b):
    kind, (base,) = a
    assert kind == 0 and base % 2 == 1
    return product_chain([pow(base, e, WORD) for e in b[1]]) if has_sums(b) else (8, a, b)


FOLDS = {3: fold_sum, 4: fold_difference, 5: fold_product, 6: fold_minus, 8: fold_raise}


def folded(nodes, start, step):
    """What a node folds to has the node's span, also where a rule passes an operand through."""
    stack = []
    for kind, word, _, span in nodes:
        if kind in (0, 1):
            tree = sum_chain([start + i * step if kind else word for i in range(POINTS)])
        elif kind == 7:
            tree = fold_power(stack.pop(), word)
        else:
            operands = [stack.pop() for _ in range(1 if kind == 6 else 2)][::-1]
            tree = FOLDS[kind](*operands)
        stack.append(spanned(tree, span))
    return stack.pop()


def lay_out(tree, rows):
    """Adds the rows of a folded formula, and gives the root's number."""
    kind, *parts = tree
    if kind <= 2:
        row = [kind, len(parts[0]) - 1, 0] + parts[0]
    else:
        row = [kind] + [lay_out(part, rows) if isinstance(part, tuple) else part for part in parts]
    rows.append(row + [0] * (SPAN - len(row)) + list(tree.span))
    return len(rows) - 1


def direct_value(nodes, x):
    """What the nodes give at x, operator by operator."""
    stack = []
    for kind, word, _, _ in nodes:
        if kind in (0, 1):
            stack.append((x if kind else word) % WORD)
        elif kind == 7:
            stack.append(pow(stack.pop(), word, WORD))
        else:
            operands = [stack.pop() for _ in range(1 if kind == 6 else 2)][::-1]
            stack.append(WORKED[kind](*operands) % WORD)
    return stack.pop()


def words_of(rows):
    words = [0] * PLAN_WORDS
    words[0] = len(rows)
    for r, row in enumerate(rows):
        put_words(words, 1 + ROW_WORDS * r, row)
    return words


def compiled_words(nodes, grid):
    rows = []
    lay_out(folded(nodes, *grid), rows)
    return words_of(rows)


def grid_values(nodes, grid, first=0):
    """The formula's value at each index from the first one on. It must be what the rows give."""
    start, step = grid

    def value_at(words, i):
        direct = direct_value(nodes, start + (first + i) * step)
        assert direct == root_value(words, i)
        return direct

    return value_at


def written_out(name):
    text = re.sub(r"{(\d+):([^}]*)}", lambda run: run[2] * int(run[1]), name)
    return re.sub(r"<(\d+)>", lambda byte: chr(int(byte[1])), text)


def compiling_text(name, grid, fills, lent):
    """The formula and its fillings in the notation of the program's input."""
    text = "" if lent == PLAN_WORDS else f"#{lent} "
    text += "=" if grid == (0, 1) else "g{},{}:".format(*grid)
    return f"{text}{name} {fills_text(fills)}".rstrip()


def without_spans(words):
    return [row[:SPAN] for row in rows_of(words)]


def own_text(text, row, grid):
    """The bytes of a row are a formula by themselves, and its root is the row: kind, literal exponent and elements."""
    first, end = row[SPAN:]
    cut = text[first:end]
    assert not list(refusals(cut)), cut
    alone = compiled_words(formula(cut)[1], grid)
    root = rows_of(alone)[alone[0] - 1]
    assert root[0] == row[0] and root[3:SPAN] == row[3:SPAN] and root[SPAN:] == [0, len(cut)], cut
    assert row[0] != 7 or root[2] == row[2], cut


def nested_texts(text, words, grid):
    """Each row's text, and that those of its operands lie within it, left before right."""
    rows = rows_of(words)[:words[0]]
    for row in rows:
        own_text(text, row, grid)
        operands = [rows[word][SPAN:] for word in row[1:1 + (row[0] in (3, 4, 5, 8)) + (row[0] >= 3)]]
        places = [row[SPAN]] + sum(operands, []) + [row[SPAN + 1]]
        assert places == sorted(places), text
    assert rows[-1][SPAN + 1] <= len(text)


def compiling(name, *fills, grid=(0, 1), lent=PLAN_WORDS, answer=(0, 0), rows=None, count=None, cost=None, values=None,
              after=None, spans=None):
    """A formula compiled into the first words of 3,000, which hold other words before, and fillings. Its name is the
    text in the notation of the program's input. What is known otherwise must agree: the number and place, the rows or
    how many they are, the cost, the values written first, the first row afterwards and the spans."""
    text = written_out(name)
    name = compiling_text(name, grid, fills, lent)
    number, place = (1, 0) if lent < PLAN_WORDS else min(refusals(text), default=(0, 0))
    assert answer == (number, place), name
    if number:
        kept = [UNWRITTEN + i for i in range(PLAN_WORDS)]
        return line(f"plan {name}", "\t".join([f"compile {number} {place} kept"] + [shown_spans(kept) for _ in fills]))
    nodes = formula(text)[1]
    words = compiled_words(nodes, grid)
    total = plan_cost(words)
    assert rows is None or without_spans(words_of(rows)) == without_spans(words), name
    assert count is None or count == words[0], name
    assert cost is None or cost == total, name
    assert spans is None or spans == [tuple(row[SPAN:]) for row in rows_of(words)[:words[0]]], name
    if SPANS in fills:
        nested_texts(text, words, grid)
    shown_rows = "".join(" " + shown_row(row) for row in rows_of(words)[:words[0]])
    parts = [f"compile 0 0 cost {plan_refusal(words)} 0 {total} plan {words[0]}:{shown_rows} clean kept"]
    words += [UNWRITTEN + i for i in range(PLAN_WORDS, 3000)]
    table = [UNWRITTEN] * 4096
    done = 0
    for room, budget, letter in map(with_letter, fills):
        if letter == "s":
            parts.append(shown_spans(words))
        elif letter == "e":
            parts.append(counted(words, lent, table, room, budget % WORD, name))
        else:
            value_at = grid_values(nodes, grid, done)
            parts.append(filled(words, lent, table, room, budget % WORD, name, value_at=value_at))
        if letter == "t" or rows_of(words)[words[0] - 1][0] < 2:
            done += min(room, budget % WORD // (total + 1))
        assert values is None or [value % WORD for value in values] == table[:len(values)], name
    assert after is None or after == words[1:1 + len(after)], name
    line(f"plan {name}", "\t".join(parts))


CORNERS = 0, 1, 5, 2**32, HALF, WORD - 1


def on_grids(text):
    """12 values on every grid. The plan's words are told by their checksum."""
    nodes = formula(text)[1]
    for grid in product_of(CORNERS, CORNERS):
        words = compiled_words(nodes, grid)
        value_at = grid_values(nodes, grid)
        points = ",".join(str(value_at(words, i)) for i in range(12))
        line("grid {},{} ".format(*grid) + text,
             f"0 0 rows {words[0]} cost {plan_cost(words)} sum {checksum(words)} values {points}")


# ---- job files

HEADER = "chain-jobs\t1"
LONGEST_LINE = 4096
MOST_POINTS = 4096
MOST_SHOWN = 400  # bytes that the program writes out of what one line of a job file prints


def lines_of(file):
    """What stands before each line feed, and the bytes after the last one if there are any."""
    *ended, rest = file.split("\n")
    return ended + [rest] * bool(rest)


def is_number(field, most):
    return re.fullmatch("0|[1-9][0-9]*", field) is not None and int(field) <= most


def line_place(line, fields):
    """The place at which a line with these fields is refused 11, or None. Fields are counted from 1."""
    if len(line) > LONGEST_LINE or len(fields) != 4:
        return 0
    bad = [place for place, most in ((2, WORD - 1), (3, WORD - 1), (4, MOST_POINTS))
           if not is_number(fields[place - 1], most)]
    return bad[0] if bad else None


def defaults_place(line):
    fields = line.split("\t")
    if len(line) <= LONGEST_LINE and len(fields) == 4 and "" in fields:
        return fields.index("") + 1
    return line_place(line, fields)


def job_lines(number, line, defaults):
    """The lines that a job prints, each as a list of what it has."""
    own = line.split("\t")
    fields = [mine or given for mine, given in zip(own, defaults)] if len(own) == 4 else own
    place = line_place(line, fields)
    if place is not None:
        return [["no", number, 11, place]]
    text, start, step, count = fields[0], *map(int, fields[1:])
    refusal, place = min(refusals(text), default=(0, 0))
    if refusal:
        return [["no", number, refusal, place]]
    nodes = formula(text)[1]
    words = compiled_words(nodes, (start, step))
    return ([["job", number, words[0], plan_cost(words)]]
            + [[i, direct_value(nodes, start + i * step)] for i in range(count)])


def run_parts(file):
    """What each line of the file prints that prints something: the lines of it."""
    header, *rest = lines_of(file) or [""]
    if header != HEADER:
        return [[["no", 0, 12, 0]]]
    defaults, *jobs = rest or [""]
    place = defaults_place(defaults)
    if place is not None:
        return [[["no", 0, 11, place]]]
    return [job_lines(number, job, defaults.split("\t")) for number, job in enumerate(jobs, 1)]


def shown_part(part):
    wrote = "".join(">".join(map(str, line)) + "/" for line in part)
    return wrote if len(wrote) <= MOST_SHOWN else f" sum {checksum(wrote.encode())} of {len(wrote)} bytes/"


def job_file(name, printed=None):
    """A job file in the notation of the program's input, run in one go and in uneven pieces. Where the output is known
    otherwise, in the same notation, it must agree."""
    file = written_out(name).translate(str.maketrans(">/", "\t\n"))
    wrote = "".join(map(shown_part, run_parts(file)))
    assert printed is None or printed == wrote, name
    line(f"jobs {name}", f"{wrote}\t{wrote}")


# ---- the cases

def chains():
    trim("trim 0,1,6,6", [0, 1, 6, 6])
    trim("trim trailing zeros", [5, 0, 7, 0, 0])
    trim("trim 0 at the length, other words past it", [1, 2, 0])
    trim("trim all zeros", [0] * 4)
    trim("trim length 0", [5])
    trim("trim length 0, zero", [0])
    trim("trim largest words", [WORD - 1] * 2)
    trim("trim length 16", MIXED)
    trim("trim length 16, all zeros", [0] * 17)
    trim("trim length 16, zeros before 3", [0] * 16 + [3])
    trim("trim length 16, zeros after 3", [3] + [0] * 16)
    trim("trim length 17", [1] * 18)
    trim("trim length 17, all zeros", [0] * 18)
    trim("trim length 1 of 17 words", MIXED[:2])
    refused("trim length 17 of 17 words", 14)
    refused("trim length 2^64-1", 14)

    shift("shift i^3", [0, 1, 6, 6])
    worked("shift i^3 three times", lambda i: (i + 3)**3, [27, 37, 24, 6])
    shift("shift 5", [5])
    shift("shift 0", [0])
    shift("shift meets old values", [0, 0, 0, 1])
    shift("shift trailing zeros", [1, 2, 0, 0])
    shift("shift wraps to 0", [WORD - 1, 1])
    shift("shift of halves", [HALF, HALF, HALF])
    shift("shift length 16", MIXED)
    shift("shift length 17", [0] * 18)
    shift("shift length 4 of 17 words", MIXED[:5])
    refused("shift length 2^64-1", 14)

    value("value 5", [5])
    value("value 0", [0])
    value("value of a chain", [7, 1, 6, 6])
    value("value largest", [WORD - 1, 1])
    value("value of trailing zeros", [3, 0, 0])
    value("value length 16", MIXED)
    value("value length 17", [8] * 18)
    line("value length 2^64-1", "14 0 0")


def sums():
    sum_of("sum i + i^3", [0, 1], [0, 1, 6, 6])
    sum_of("sum i^3 + i", [0, 1, 6, 6], [0, 1])
    sum_of("sum 5 + i", [5], [0, 1])
    sum_of("sum 2 + 3", [2], [3])
    sum_of("sum of trailing zeros", [1, 2, 0, 0], [1, 0, 0])
    sum_of("sum last element cancels", [1, 2, 3], [1, 2, -3])
    sum_of("sum first element stays", [1, 2, 3], [1, -2, -3])
    sum_of("sum (2^64-1) + 1", [WORD - 1], [1])
    sum_of("sum (2^64-1)*i + i", [0, WORD - 1], [0, 1])
    sum_of("sum wraps and stays", [WORD - 1, 5], [2, WORD - 2])
    sum_of("sum of halves", [HALF, HALF], [HALF, HALF])
    sum_of("sum length 16 first", MIXED, [1, 2])
    sum_of("sum length 16 second", [1, 2], MIXED)
    sum_of("sum length 16 both", MIXED, OTHER)
    sum_of("sum length 17 first", [0] * 18, [1, 2])
    sum_of("sum length 17 second", [1, 2], [0] * 18)
    sum_of("sum length 17 both", [1] * 18, [1] * 18)
    refused("sum length 2^64-1 first", 14)
    refused("sum length 2^64-1 second", 14)
    sum_of("sum lengths 3 and 7 of 17 words", MIXED[:4], OTHER[:8])

    difference("difference f - f", [3, 1, 4, 1, 5], [3, 1, 4, 1, 5])
    difference("difference i^3 - i", [0, 1, 6, 6], [0, 1])
    difference("difference i - i^3", [0, 1], [0, 1, 6, 6])
    difference("difference 0 - 1", [0], [1])
    difference("difference 5 - i", [5], [0, 1])
    difference("difference i - 5", [0, 1], [5])
    difference("difference last element cancels", [1, 2, 3], [0, 0, 3])
    difference("difference first element stays", [9, 2, 3], [1, 2, 3])
    difference("difference of trailing zeros", [1, 2, 0, 0], [1, 0, 0])
    difference("difference wraps and stays", [1, 5], [2, WORD - 1])
    difference("difference length 16 first", MIXED, [1, 2])
    difference("difference length 16 second", [1, 2], MIXED)
    difference("difference length 16 both", MIXED, OTHER)
    difference("difference length 16 from itself", MIXED, MIXED)
    difference("difference length 17 first", [0] * 18, [1, 2])
    difference("difference length 17 second", [1, 2], [0] * 18)
    difference("difference length 17 from itself", [1] * 18, [1] * 18)
    refused("difference length 2^64-1 first", 14)
    refused("difference length 2^64-1 second", 14)
    difference("difference lengths 7 and 3 of 17 words", MIXED[:8], OTHER[:4])


def products():
    product("product 6 * 7", [6], [7])
    product("product 2^63 * 2", [HALF], [2])
    product("product 2^32 * 2^32", [2**32], [2**32])
    product("product (2^32-1) * (2^32+1)", [2**32 - 1], [2**32 + 1])
    product("product (2^64-1) * (2^64-1)", [WORD - 1], [WORD - 1])
    product("product 3 * 1,2,3", [3], [1, 2, 3])
    product("product 1,2,3 * 3", [1, 2, 3], [3])
    product("product 0 * 1,2,3", [0], [1, 2, 3])
    product("product 1,2,3 * 0", [1, 2, 3], [0])
    product("product 2^63 * 1,2,3", [HALF], [1, 2, 3])
    product("product 2^63 * 0,2,4", [HALF], [0, 2, 4])

    worked("product i * i", lambda i: i**2, [0, 1, 2])
    worked("product i * i^2", lambda i: i**3, [0, 1, 6, 6])
    worked("product i^2 * i", lambda i: i**3, [0, 1, 6, 6])
    worked("product of trailing zeros", lambda i: i**3, [0, 1, 6, 6])
    product("product 2,1,1 * 3,1,4,1", [2, 1, 1], [3, 1, 4, 1])
    worked("product 2^32*i * 2^32*i", lambda i: 2**64 * i**2, [0])
    worked("product 2^63*i * i", lambda i: HALF * i**2, [0, HALF])
    worked("product -i * i", lambda i: -i**2, [0, -1, -2])
    worked("product i^8 * i^8", lambda i: i**16, last=20922789888000)

    product("product lengths 12 and 8, trimmed to 8", [1] * 9 + [0] * 4, [1] * 9)
    product("product lengths 8 and 12, trimmed to 8", [1] * 9, [1] * 9 + [0] * 4)
    product("product lengths 12 and 12, trimmed to 8", [1] * 9 + [0] * 4, [1] * 9 + [0] * 4)
    product("product lengths 16 and 16, trimmed to 16 and 0", MIXED, [2] + [0] * 16)
    product("product lengths 16 and 16, trimmed to 0 and 16", [2] + [0] * 16, MIXED)
    product("product lengths 16 and 1, values all 0", [0] * 16 + [HALF], [0, 2])
    product("product lengths 16 and 16", MIXED, OTHER)
    product("product length 17 first, 14 ahead of 15", MIXED + [0], OTHER)
    product("product length 17 second, 14 ahead of 15", MIXED, OTHER + [0])
    product("product length 17 both", MIXED + [0], OTHER + [0])
    product("product length 17 by a constant", MIXED + [0], OTHER[:1])
    product("product constant by length 17", MIXED[:1], OTHER + [0])
    refused("product length 2^64-1 first", 14)
    refused("product length 2^64-1 second", 14)
    for total in (16, 17):
        for k in range(total - 16, 17):
            product(f"product lengths {k} and {total - k}", MIXED[:k + 1], OTHER[:total - k + 1])


def coefficient_lists():
    for j in range(17):
        coefficients(f"coefficients i^{j}", [0] * j + [1])
    coefficients("coefficients 0", [0])
    coefficients("coefficients 16,6", [16, 6])
    coefficients("coefficients -i^2", [0, 0, -1])
    coefficients("coefficients 2^63*i^2", [0, 0, HALF])
    coefficients("coefficients 2^63*(i^2+i)", [0, HALF, HALF])
    coefficients("coefficients 2^62*i^4", [0] * 4 + [2**62])
    coefficients("coefficients 2^48*i^16", [0] * 16 + [2**48])
    coefficients("coefficients 2^49*i^16", [0] * 16 + [2**49])
    coefficients("coefficients largest words", [WORD - 1] * 3)
    coefficients("coefficients 17 largest words", [WORD - 1] * 17)
    coefficients("coefficients 17 zeros", [0] * 17)
    coefficients("coefficients 17 ones", [1] * 17)
    coefficients("coefficients 17 mixed", OTHER)
    coefficients("coefficients 17, the last ones 0", [7, 0, 5] + [0] * 14)
    coefficients("coefficients none", [])
    coefficients("coefficients 18 ones", [1] * 18)
    coefficients("coefficients 17 ones and a 0", [1] * 17 + [0])
    coefficients("coefficients 18 zeros", [0] * 18)
    coefficients("coefficients 64 zeros", [0] * 64)


def run_the_loop():
    """The values of x, t1, t2 and y after i turns of the loop of document 000, section 2.5."""
    x = t1 = y = 0
    rows = [(0, 0, 0, 0)]
    for _ in range(1, POINTS):
        x = x + 2
        t1 = t1 + x
        t2 = 4 * t1 * (4 * t1 + x) - x**4
        y = y + t2
        rows.append((x, t1, t2, y))
    return rows


def documents():
    worked("000 i", lambda i: i, [0, 1])
    worked("000 i^3 by coefficients", lambda i: i**3, [0, 1, 6, 6])
    worked("000 i^3 by products", lambda i: i**3, [0, 1, 6, 6])
    worked("000 (6) i^3 shifted", lambda i: (i + 1)**3)
    worked("000 (6) i^3 and its subchain", lambda i: (i + 1)**3)
    worked("000 (10) sum of cubes", lambda i: sum(j**3 for j in range(i)), [0, 0, 1, 6, 6])
    worked("000 (10) step of the sum of cubes", lambda i: i**3, [0, 1, 6, 6])
    worked("000 falling factorial 2", lambda i: i * (i - 1), [0, 0, 2])
    worked("000 falling factorial 3", lambda i: i * (i - 1) * (i - 2), [0, 0, 0, 6])
    worked("000 falling factorial 4", lambda i: i * (i - 1) * (i - 2) * (i - 3), [0, 0, 0, 0, 24])
    worked("000 step of C_3", lambda i: sum(comb(i, j) for j in range(4)), [1, 1, 1, 1])
    rows = run_the_loop()
    worked("000 loop x", lambda i: rows[i][0], [0, 2])
    worked("000 loop t1", lambda i: rows[i][1])
    worked("000 loop t2", lambda i: rows[i][2])
    worked("000 loop y", lambda i: rows[i][3])
    n = 5
    worked("000 2.3 2,1 after 4 shifts", lambda i: i + n - 1 + 2, [n + 1, 1])
    worked("000 2.3 4,-1 after 4 shifts", lambda i: n - 1 - (i + n - 1), [0, -1])

    x0, h = 5, 2
    worked("004 3x + 1, x0=5, h=2", lambda i: 3 * (5 + 2 * i) + 1, [3 * x0 + 1, 3 * h])
    worked("004 x^2, x0=5, h=2", lambda i: (5 + 2 * i)**2, [x0**2, 2 * h * x0 + h**2, 2 * h**2])
    worked("004 x^3, x0=5, h=2", lambda i: (5 + 2 * i)**3,
           [x0**3, 3 * h * x0**2 + 3 * h**2 * x0 + h**3, 6 * h**2 * x0 + 6 * h**3, 6 * h**3])
    worked("004 x^9 + x^8 by coefficients", lambda i: i**9 + i**8)
    worked("004 x^9 + x^8 by products", lambda i: i**9 + i**8)
    worked("004 (26) 1,2,3 * 4,5", lambda i: at([1, 2, 3], i) * at([4, 5], i),
           [1 * 4, 1 * 1 * 5 + (4 + 1 * 5) * 2, 2 * 2 * 5 + (4 + 2 * 5) * 3, 3 * 3 * 5])
    figure_1()

    worked("01 x*x-x^2+7, start 5, step 2", lambda i: 7, [7])
    worked("01 x^2, step 2^32", lambda i: (2**32 * i)**2, [0])
    worked("01 x, step 2^63", lambda i: HALF * i, [0, HALF])
    worked("01 x^2+x, step 2^63", lambda i: (HALF * i)**2 + HALF * i, [0, HALF])
    worked("01 -x^2", lambda i: -i**2, [0, WORD - 1, WORD - 2])
    worked("01 x, step 0", lambda i: 5, [5])


def figure_1():
    def exponent(x):
        return x**3 + 3 * x**2 - 3 * x + 1

    def as_printed(x0, h):
        return [exponent(x0), 3 * h * x0**2 + 3 * x0 * (h**2 + 2 * h) + h**3 + 3 * h**2 - 3 * h,
                6 * (h**2 * x0 + h**3 + h**2), 6 * h**3]

    worked("004 row 1 exponent of e, x0=0, h=1", exponent, as_printed(0, 1))
    worked("004 row 1 exponent of 2, x0=0, h=1", lambda i: i**2 - 2 * i + 1, [1, -2 + 1, 2])
    worked("004 row 1 exponent of e, x0=2, h=3", lambda i: exponent(2 + 3 * i), as_printed(2, 3))
    worked("004 i!^2", lambda i: (i + 1)**2, [1, 3, 2])
    n = 10
    worked("004 row 4, n=10", lambda i: (i + 1)**2 * (10 - i), [n, 3 * n - 4, 2 * n - 10, -6])
    worked("004 row 5 exponent of 2", lambda i: i**2 - 1, [-1, 1, 2])
    worked("004 row 5 exponent of e", lambda i: 2 * i**3 + 4 * i + 2, [2, 6, 12, 12])


def sequences():
    sequence("values of 7", lambda i: 7)
    sequence("values of i^3", lambda i: i**3)
    sequence("values of -i^2", lambda i: -i**2)
    sequence("values of 2^63*i", lambda i: HALF * i)
    sequence("values of 1+i+..+i^16", evaluated([1] * 17))
    sequence("values of 17 mixed coefficients", evaluated(OTHER))
    sequence("values of 000's A_4", lambda i: sum(comb(i, j) for j in range(5)))
    sequence("values of the sum of cubes", lambda i: sum(j**3 for j in range(i)))
    sequence("values of (i-3)^5", lambda i: (i - 3)**5)
    sequence("values of i^8 * i^8", lambda i: i**16)
    sequence("values of a mixed chain", lambda i: at(MIXED, i))
    sequence("values of a mixed product", lambda i: at(MIXED[:8], i) * at(OTHER[:10], i))


def probes():
    probe("probe T=2^63-1", 5, 5, HALF - 1)
    probe("probe T=2^63", 5, 5, HALF)
    probe("probe T=2^63 offset=3", 8, 5, HALF)
    probe("probe T=2^64-1", 5, 5, WORD - 1)
    probe("probe T=0 offset=0", 5, 5, 0)
    probe("probe T=0 offset=1", 6, 5, 0)
    probe("probe T=0 offset=-1", 4, 5, 0)
    probe("probe T=0 offset=2^63-1", HALF - 1, 0, 0)
    probe("probe T=0 offset=-2^63", HALF, 0, 0)
    for offset in (0, 9, 10, 11, -9, -10, -11):
        probe(f"probe T=10 offset={offset}", 1000 + offset, 1000, 10)
    probe("probe T=10 offset=2^63-1", 1000 + HALF - 1, 1000, 10)
    probe("probe T=10 offset=-2^63", 1000 + HALF, 1000, 10)
    probe("probe T=10 offset=-2^63+1", 1000 + HALF + 1, 1000, 10)
    probe("probe T=2^63-1 offset=2^63-1", HALF - 1, 0, HALF - 1)
    probe("probe T=2^63-1 offset=-2^63", HALF, 0, HALF - 1)
    probe("probe T=2^63-1 offset=-2^63+1", HALF + 1, 0, HALF - 1)
    probe("probe T=2^63-2 offset=2^63-2", HALF - 2, 0, HALF - 2)
    probe("probe T=2^63-2 offset=2^63-1", HALF - 1, 0, HALF - 2)
    probe("probe T=2^63-2 offset=-2^63+2", HALF + 2, 0, HALF - 2)
    probe("probe T=2^63-2 offset=-2^63+1", HALF + 1, 0, HALF - 2)
    probe("probe reading 0 for 0", 0, 0, 3)
    probe("probe reading 0 for 4", 0, 4, 3)
    probe("probe reading 0 for 2^64-1", 0, WORD - 1, 0)
    probe("probe reading 0 for 2^64-3", 0, WORD - 3, 3)
    probe("probe reading 1 for 2^64-3", 1, WORD - 3, 3)
    probe("probe reading 2^64-1 for 0", WORD - 1, 0, 0)
    probe("probe reading 2^64-1 for 2", WORD - 1, 2, 3)
    probe("probe reading 2^64-2 for 2", WORD - 2, 2, 3)
    probe("probe reading 2^64-1 for 2^63-1", WORD - 1, HALF - 1, 3)
    probe("probe reading 0 for 2^63", 0, HALF, 3)


def texts_of_the_documents():
    for text in "x^3 3*x+1 x*x-x^2+7 x^2 x x^2+x -x^2 3^(x) 3^(3^(x)) 0^0 2^3".split():
        reading(text, answer=(0, 0))
    reading("2^(3)", answer=(8, 1))
    reading("x^(2)", answer=(8, 1))
    for text in "x^17 x^16 x^8*x^8 x^8*x^9".split():
        reading(text, answer=(0, 0))
    reading("{0:x}", "", answer=(4, 0))
    reading("01", answer=(4, 1))
    reading("1-", answer=(4, 2))
    reading("x^2^3", answer=(4, 3))
    reading(f"{WORD - 1}", answer=(0, 0))
    reading(f"{WORD}", answer=(5, 0))
    reading("x^64", answer=(0, 0))
    reading("x^65", answer=(6, 2))
    reading("x{63:+x}", "+".join("x" * 64), answer=(0, 0), count=127)
    reading("x{64:+x}", "+".join("x" * 65), answer=(7, 0))
    reading("x+3^(x)", answer=(0, 0))
    reading("2^(x)", answer=(8, 1))

    reading("99999999999999999999+(", answer=(4, 22))
    reading("x^65+99999999999999999999", answer=(5, 5))
    reading("x^99999999999999999999", answer=(5, 2))
    reading("){33:(}", ")" + "(" * 33, answer=(4, 0))
    reading("x{33:(}", "x" + "(" * 33, answer=(3, 33))
    reading("(x^0)^(2)", answer=(8, 5))
    reading("(0*x+3)^(2)", answer=(8, 7))
    reading("2^(2^(x))", answer=(8, 1))
    for text in "-3^(x) (-3)^(x) 3^(2)".split():
        reading(text, answer=(0, 0))
    reading("0^(0)", answer=(8, 1))


def grammar_texts():
    readings("0 -0 10 (7) ((x)) --x ---x -(-(x)) x--x x---x x+-x x*-x x*--x x+x+x x+(x+x) x-x-x x-(x-x) x-x+x x+x-x")
    readings("x*x*x x*(x*x) x+x*x (x+x)*x x*x+x x*(x+x) -x*x -(x*x) -x+x -(x+x) -x-x*-x")
    readings("x^0 x^1 (-x)^2 -(-x)^2 (x+1)^2 (x^2)^3 x^2*x^3 x*x^2 2*-3^2 1^(x) 3^(-x) 3^((2)) (3)^(2) ((3))^((x))")
    readings("3^(x)*5^(x) 3^(x^2+x+1) 3^(5^(7)) 3^(5)^2 (3^(5))^2 (1+2*3)^(x-1) x^2-3^(x)*-7+(x-1)*(x+1)^4")
    reading("x^", answer=(4, 2))
    reading("x^01", answer=(4, 3))
    readings("x^00 x^-2 x^+2 x^x x^^2 x^* x^( x^() x^(2 x^(2)^2 x^(2)(2) (x)^2^2 x^2x x^2( x^(x)) ^2 (^2) 2^(3^)")
    readings("- -- + ( ) () (x x) )x( (x)(x) (x+1 x+1) xx 2x x2 x(x) 2(x) (x)2 0x1 00 -01 +x *x x+ x* x- x**x x++x")
    readings("x-+x (-)")


def strange_bytes():
    for byte in (0, 9, 10, 13, 32, 127, 128, 255):
        reading(f"<{byte}>x+1", chr(byte) + "x+1", answer=(4, 0))
        reading(f"x+<{byte}>1", "x+" + chr(byte) + "1", answer=(4, 2))
        reading(f"x+1<{byte}>", "x+1" + chr(byte), answer=(4, 3))
    readings("x'1 x,1 x.1 x/1 1/2 1:2 x]2 x_2 w y X")
    reading("(<32>)", "( )")
    reading("1<32>2", "1 2", answer=(4, 1))
    reading("x^<32>2", "x^ 2")
    reading("-<9>x", "-\tx")
    reading("3^(<10>x)", "3^(\nx)")
    reading("x<13><10>", "x\r\n")
    reading("x<0><0>", "x\0\0")
    reading("<248>", chr(ord("x") + 128))
    reading("<176>", chr(ord("0") + 128))


def text_lengths():
    big = f"{WORD - 1}+" * 48
    reading("{48:18446744073709551615+}1000000000000000", big + "1" + "0" * 15, answer=(0, 0), count=97)
    reading("{48:18446744073709551615+}10000000000000000", big + "1" + "0" * 16, answer=(2, 1024))
    reading("{1024:9}", "9" * 1024, answer=(5, 0))
    reading("{1025:9}", "9" * 1025, answer=(2, 1024))
    reading("x^{1022:9}", "x^" + "9" * 1022, answer=(5, 2))
    reading("x^{1023:9}", "x^" + "9" * 1023, answer=(2, 1024))
    reading("{1023:-}x", "-" * 1023 + "x", answer=(7, 0))
    reading("{1024:-}x", "-" * 1024 + "x", answer=(2, 1024))
    reading("-x{511:+x}", "-" + "+".join("x" * 512), answer=(7, 0))
    reading("x{512:+x}", "+".join("x" * 513), answer=(2, 1024))
    for byte, place in (("-", 1024), ("x", 1), ("?", 0)):
        reading(f"{{1024:{byte}}}", byte * 1024, answer=(4, place))
        reading(f"{{1025:{byte}}}", byte * 1025, answer=(2, 1024))
    reading("{1100:?}", "?" * 1100, answer=(2, 1024))


def brackets():
    def nested(depth, text="x"):
        return "(" * depth + text + ")" * depth

    reading("{32:(}x{32:)}", nested(32), answer=(0, 0), count=1)
    reading("{33:(}x{33:)}", nested(33), answer=(3, 32))
    reading("{32:(}x{32:)}*{32:(}x{32:)}", nested(32) + "*" + nested(32), answer=(0, 0))
    reading("{32:(}x)+(x{32:)}", nested(31, "(x)+(x)"), answer=(0, 0))
    reading("{32:(}x)+((x{33:)}", nested(31, "(x)+((x))"), answer=(3, 36))
    reading("{31:(}3^(x){31:)}", nested(31, "3^(x)"), answer=(0, 0))
    reading("{32:(}3^(x){32:)}", nested(32, "3^(x)"), answer=(3, 34))
    reading("{32:3^(}x{32:)}", "3^(" * 32 + "x" + ")" * 32, answer=(0, 0), count=65)
    reading("{33:3^(}x{33:)}", "3^(" * 33 + "x" + ")" * 33, answer=(3, 98))
    reading("{63:(x)+}x", "(x)+" * 63 + "x", answer=(0, 0), count=127)
    reading("{32:(}", "(" * 32, answer=(4, 32))
    reading("{33:(}", "(" * 33, answer=(3, 32))
    reading("{1024:(}", "(" * 1024, answer=(3, 32))
    reading("{32:(}x{33:)}", nested(32) + ")", answer=(4, 65))
    reading("{33:(x)}", "(x)" * 33, answer=(4, 3))
    reading("{33:()}", "()" * 33, answer=(4, 1))


def surplus_brackets():
    def surplus(name, before, opened, answer):
        reading(f"{name}{{{opened}:(}}", before + "(" * opened, answer)

    surplus("?", "?", 32, (4, 0))
    surplus("?", "?", 33, (3, 33))
    surplus(")", ")", 34, (3, 34))
    surplus("{3:)}", ")" * 3, 35, (4, 0))
    surplus("{3:)}", ")" * 3, 36, (3, 38))
    surplus("x)", "x)", 33, (4, 1))
    surplus("x)", "x)", 34, (3, 35))
    surplus("x{20:)}", "x" + ")" * 20, 52, (4, 1))
    surplus("x{20:)}", "x" + ")" * 20, 53, (3, 73))
    reading("{32:(}?(", "(" * 32 + "?(", answer=(3, 33))
    reading("{32:(}?)(", "(" * 32 + "?)(", answer=(4, 32))
    reading("{32:(}?))((", "(" * 32 + "?))((", answer=(4, 32))
    reading("{32:(}?))(((", "(" * 32 + "?))(((", answer=(3, 37))
    surplus("{992:?}", "?" * 992, 32, (4, 0))
    surplus("{991:?}", "?" * 991, 33, (3, 1023))
    surplus("{496:)}", ")" * 496, 528, (4, 0))
    surplus("{495:)}", ")" * 495, 528, (3, 1022))


def numbers():
    reading(f"x+{WORD - 1}", answer=(0, 0))
    reading(f"x+{WORD}", answer=(5, 2))
    for number in (WORD + 1, WORD + 4, WORD + 9, 10 * (WORD - 1)):
        reading(f"{number}", answer=(5, 0))
    reading(f"{10**19 - 1}", answer=(0, 0))
    reading(f"{10**19}", answer=(0, 0))
    for number in (10**20, 2 * WORD, WORD**2):
        reading(f"{number}", answer=(5, 0))
    reading(f"{WORD}+{WORD}", answer=(5, 0))
    reading(f"{WORD - 1}-{WORD}", answer=(5, 21))
    reading(f"x^{WORD - 1}", answer=(6, 2))
    reading(f"x^{WORD}", answer=(5, 2))
    reading(f"x^{2 * WORD + 1}", answer=(5, 2))
    reading(f"x^{WORD}+{WORD}", answer=(5, 2))
    reading(f"{WORD}+x^{WORD}", answer=(5, 0))
    reading(f"3^({WORD - 1})", answer=(0, 0))
    reading(f"3^({WORD})", answer=(5, 3))


def exponents():
    reading("x^63", answer=(0, 0))
    for text in "x^66 x^100 x^640".split():
        reading(text, answer=(6, 2))
    reading("2^64", answer=(0, 0))
    reading("2^65", answer=(6, 2))
    reading("0^65", answer=(6, 2))
    reading("(x+1)^64", answer=(0, 0))
    reading("(x+1)^65", answer=(6, 6))
    reading("-x^65", answer=(6, 3))
    reading("x^64+x^65", answer=(6, 7))
    reading("x^65+x^66", answer=(6, 2))
    reading(f"x^66*x^{WORD - 1}", answer=(6, 2))
    reading("3^(x^64)", answer=(0, 0))
    reading("3^(x^65)", answer=(6, 5))
    reading("(x^65)^2", answer=(6, 3))


def node_counts():
    reading("-x{63:+x}", "-x" + "+x" * 63, answer=(0, 0), count=128)
    reading("--x{63:+x}", "--x" + "+x" * 63, answer=(7, 0))
    reading("{127:-}x", "-" * 127 + "x", answer=(0, 0), count=128)
    reading("{128:-}x", "-" * 128 + "x", answer=(7, 0))
    reading("x^2{63:+x}", "x^2" + "+x" * 63, answer=(0, 0), count=128)
    reading("x^2{62:+x}+x^2", "x^2" + "+x" * 62 + "+x^2", answer=(7, 0))
    reading("3^(x){62:+x}", "3^(x)" + "+x" * 62, answer=(0, 0), count=127)
    reading("-3^(x){62:+x}", "-3^(x)" + "+x" * 62, answer=(0, 0), count=128)
    reading("--3^(x){62:+x}", "--3^(x)" + "+x" * 62, answer=(7, 0))
    reading("x^2{42:+x^2}", "x^2" + "+x^2" * 42, answer=(0, 0), count=128)
    reading("-x^2{42:+x^2}", "-x^2" + "+x^2" * 42, answer=(7, 0))
    reading("(x){63:-(x)}", "(x)" + "-(x)" * 63, answer=(0, 0), count=127)
    reading("(x){64:-(x)}", "(x)" + "-(x)" * 64, answer=(7, 0))
    reading("1{63:*1}", "1" + "*1" * 63, answer=(0, 0), count=127)
    reading("1{64:*1}", "1" + "*1" * 64, answer=(7, 0))
    reading("-((x)){63:*((x))}", "-((x))" + "*((x))" * 63, answer=(0, 0), count=128)


def bases():
    odd = (f"1^(0) {WORD - 1}^(x) (1+2)^(x) (4-1)^(x) (3*5)^(x) (0-1)^(x) --3^(x) (2^0)^(x) (0^0)^(x) (3^64)^(x) "
           f"(3^(2))^(x) (3*5^(7)-2)^(x) ({WORD - 1}*2+1)^(x)")
    even = (f"0^(x) {WORD - 2}^(x) (1+1)^(x) (3-1)^(x) (2*3)^(x) (-2)^(x) -2^(x) (2^1)^(x) (4^64)^(x) (3^(2)+1)^(x) "
            "((3^(2)-1)*3)^(x)")
    with_x = "(x)^(2) (-x)^(2) (x-x+1)^(2) (1*x^0)^(2) ((x+1)^0)^(2) (3^(x))^(2) (3^(0*x))^(2)"
    for text in odd.split():
        reading(text, answer=(0, 0))
    for text in even.split() + with_x.split():
        reading(text, answer=(8, text.rindex("^")))
    reading("3^(x)+2^(x)", answer=(8, 7))
    reading("2^(x)*4^(x)", answer=(8, 1))
    reading("3^(2^(x))", answer=(8, 4))
    reading("3^(5^(x^(2)))", answer=(8, 7))
    reading("(2^(x))^(x)", answer=(8, 2))
    reading("(x^(2))^(3)", answer=(8, 2))
    reading("(3^(4^(1)))^(x)", answer=(8, 5))
    reading("3^(x)-(5^(x)+x^(x))", answer=(8, 14))


EVERYTHING = f"2^(x^65+{WORD})"


def size_first():
    for name, text in (
            ("{1025:(}", "(" * 1025),
            ("{1025:)}", ")" * 1025),
            ("{48:18446744073709551616+}10000000000000000", f"{WORD}+" * 48 + f"{10**16}"),
            ("{48:18446744073709551615+}x^65+100000000000", f"{WORD - 1}+" * 48 + f"x^65+{10**11}"),
            ("{129:-}{42:18446744073709551615+}11111111111111", "-" * 129 + f"{WORD - 1}+" * 42 + "1" * 14),
            ("{48:18446744073709551615+}2^(x)+10000000000", f"{WORD - 1}+" * 48 + f"2^(x)+{10**10}")):
        assert len(text) == 1025, name
        reading(name, text, answer=(2, 1024))

    reading("{33:(}x", "(" * 33 + "x", answer=(3, 32))
    for name, text in (
            (f"{WORD}", f"{WORD}"), ("x^65", "x^65"), ("{129:-}x", "-" * 129 + "x"), ("2^(x)", "2^(x)"),
            (f"{{129:-}}{EVERYTHING}", "-" * 129 + EVERYTHING)):
        reading(f"{{33:(}}{name}{{33:)}}", "(" * 33 + text + ")" * 33, answer=(3, 32))
    reading(f"{WORD}+x^65+{{33:(}}2^(x){{33:)}}", f"{WORD}+x^65+" + "(" * 33 + "2^(x)" + ")" * 33, answer=(3, 58))


def smaller_number_first():
    reading(f"{WORD})", answer=(4, 20))
    reading(f"{WORD}+", answer=(4, 21))
    reading("x^65)", answer=(4, 4))
    reading("x^65+", answer=(4, 5))
    reading("{129:-}x)", "-" * 129 + "x)", answer=(4, 130))
    reading("{129:-}", "-" * 129, answer=(4, 129))
    reading("2^(x))", answer=(4, 5))
    reading("2^(x)+", answer=(4, 6))
    reading(f"{{129:-}}{EVERYTHING}?", "-" * 129 + EVERYTHING + "?", answer=(4, 158))
    reading(f"x^65+{WORD}", answer=(5, 5))
    reading(f"{WORD}+x^65", answer=(5, 0))
    reading(f"{{129:-}}{WORD}", "-" * 129 + f"{WORD}", answer=(5, 129))
    reading(f"2^({WORD})", answer=(5, 3))
    reading(f"2^(x)+{WORD}", answer=(5, 6))
    reading(f"{WORD}+2^(x)", answer=(5, 0))
    reading(f"{{129:-}}{EVERYTHING}", "-" * 129 + EVERYTHING, answer=(5, 137))
    reading("{129:-}x^65", "-" * 129 + "x^65", answer=(6, 131))
    reading("2^(x^65)", answer=(6, 5))
    reading("2^(x)+x^65", answer=(6, 8))
    reading("x^65+2^(x)", answer=(6, 2))
    reading("{129:-}2^(x^65)", "-" * 129 + "2^(x^65)", answer=(6, 134))
    reading("{129:-}2^(x)", "-" * 129 + "2^(x)", answer=(7, 0))
    reading("2^(x){64:+x}", "2^(x)" + "+x" * 64, answer=(7, 0))


def lent_words():
    for words, number in ((0, 1), (1, 1), (256, 1), (257, 0), (258, 0)):
        reading("x", answer=(number, 0), lent=words)
    reading("-x{63:+x}", "-x" + "+x" * 63, answer=(1, 0), lent=256)
    reading("-x{63:+x}", "-x" + "+x" * 63, answer=(0, 0), count=128, lent=257)
    reading("--x{63:+x}", "--x" + "+x" * 63, answer=(7, 0), lent=257)
    reading("{0:x}", "", answer=(1, 0), lent=256)
    reading("{0:x}", "", answer=(4, 0), lent=257)
    for name, text in (("{1025:x}", "x" * 1025), ("{33:(}", "(" * 33), ("x^2^3", "x^2^3"), (f"{WORD}", f"{WORD}"),
                       ("x^65", "x^65"), ("{129:-}x", "-" * 129 + "x"), ("2^(x)", "2^(x)")):
        reading(name, text, answer=(1, 0), lent=256)
    reading("2^(x)", answer=(8, 1), lent=257)


SEVEN = [0, 0, 0, 7]
NINE = [9]
X = [1, 1, 0, 0, 1]
CUBE = [1, 3, 0, 0, 1, 6, 6]
MOST = -1


def row_counts():
    plan([], answer=9)
    for count in (1, 128):
        plan([], put=[(0, [count])], answer=9)
    for count in (129, 256, 257, 2**32, 2**32 + 1, HALF + 1, -1):
        plan([SEVEN], put=[(0, [count])], answer=9)
    plan([SEVEN], answer=0)
    plan([SEVEN], put=[(0, [0])], answer=9)
    plan([SEVEN], put=[(0, [2])], answer=9)
    plan([SEVEN], put=[(0, [2]), (44, [1])], answer=0, values=[0, 0])
    plan([SEVEN, [0, 0, 0, 8]], put=[(0, [1])], answer=9)
    plan([SEVEN] * 127, answer=0)
    plan([SEVEN] * 128, answer=0)
    plan([SEVEN] * 128, put=[(0, [127])], answer=9)
    plan([SEVEN] * 128, put=[(0, [129])], answer=9)
    for place in (23, 24, 25, 26, 42, 43, 44, 45, 2794, 2795, 2816):
        plan([SEVEN], put=[(place, [1])], answer=9)
    plan([SEVEN], put=[(2816, [-1])], answer=9)
    for place in (2795, 2816):
        plan([SEVEN] * 127, put=[(place, [1])], answer=9)


def lent_plans():
    rest = (2817, [9] * 183)
    for lent in (0, 1, 23, 2561, 2816):
        plan([SEVEN], lent=lent, answer=1)
    plan([SEVEN], (0, BUDGET), lent=2816, answer=1)
    plan([SEVEN], (2, 0), lent=2816, answer=1)
    plan([], lent=2816, answer=1)
    plan([NINE], lent=2816, answer=1)
    plan([SEVEN], (0, BUDGET), answer=0, values=[UNWRITTEN])
    plan([SEVEN], (2, 0), answer=0, values=[UNWRITTEN])
    plan([], (0, BUDGET), answer=9)
    plan([NINE], (0, BUDGET), answer=9)
    plan([NINE], (2, 0), answer=9)
    plan([NINE], (4096, MOST), answer=9)
    plan([SEVEN], put=[(2817, [1])], lent=2818, answer=0)
    plan([SEVEN], lent=3000, answer=0)
    plan([SEVEN], put=[rest], lent=3000, answer=0)
    plan([CUBE], (10, 15), put=[rest], lent=3000, answer=0, cost=3, values=[0, 1, 8], after=[1, 3, 0, 27, 37, 24, 6])
    plan([SEVEN] * 127 + [[2, 16, 0] + [3] * 17], put=[rest], lent=3000, answer=0, cost=16)
    plan([SEVEN], put=[(2816, [1]), rest], lent=3000, answer=9)
    plan([NINE], (0, BUDGET), put=[rest], lent=3000, answer=9)

    words = [1, 1, 1, 0, 5, 2] + [0] * 16 + [1] + [0] * 2977
    table = [UNWRITTEN] * 4096
    name = "#2816 1,1,0,5,2 t2 #2817 t2"
    line(f"plan {name}", "\t".join([filled(words, 2816, table, 2, BUDGET, name, 1),
                                   filled(words, 2817, table, 2, BUDGET, name, 0)]))


def first_rows():
    plan([[0]], answer=0)
    plan([[0, 0, 0, -1]], answer=0)
    for row in ([0, 1, 0, 7], [0, -1, 0, 7], [0, 0, 1, 7], [0, 0, -1, 7], [0, 0, 0, 7, 1], [0, 0, 0, 0, 1],
                [0, 0, 0, 7] + [0] * 15 + [1]):
        plan([row], answer=9)
    for row in ([3], [4], [5], [6], [7, 0, 2], [8], [9], [-1]):
        plan([row], answer=9)
    for kind in (1, 2):
        for row, answer in (
                ([], 9), ([0, 0, 5], 9), ([1, 0, 5, 2], 0), ([1, 0, 5, 2, 1], 9), ([2, 0, 5, 2, 1], 0),
                ([1, 1, 5, 2], 9), ([1, -1, 5, 2], 9), ([17, 0, 5, 2], 9), ([257, 0, 5, 2], 9),
                ([2**32 + 1, 0, 5, 2], 9), ([-1, 0, 5, 2], 9), ([1, 0, 5, 2] + [0] * 14 + [1], 9),
                ([14, 0] + [5] * 15 + [0, 1], 9), ([15, 0] + [5] * 16, 0), ([15, 0] + [5] * 16 + [1], 9),
                ([16, 0] + [5] * 16, 0), ([16, 0] + [5] * 16 + [-1], 0), ([17, 0] + [5] * 17, 9)):
            plan([[kind] + row], answer=answer, cost=0 if answer else row[0])


def third_rows():
    def third(row, answer, cost=None):
        plan(PAIR_ROWS + [row], answer=answer, cost=cost)

    for row, cost in (([0, 0, 0, 4], 0), ([1, 1, 0, 4, 5], 1), ([2, 1, 0, 4, 5], 1), ([3, 0, 1], 1), ([4, 0, 1], 1),
                      ([5, 0, 1], 1), ([6, 1], 1), ([7, 1, 2], 1), ([8, 0, 1], 128)):
        third(row, 0, cost + 1)
    for row in ([9], [9, 0, 1], [10, 0, 1], [256, 0, 0, 4], [257, 1, 0, 4, 5], [2**32 + 3, 0, 1], [HALF + 3, 0, 1],
                [-1], [-1, 0, 1]):
        third(row, 9)
    operators = [3, 0, 1], [4, 0, 1], [5, 0, 1], [6, 1, 0], [7, 1, 2], [8, 0, 1]
    for row in operators:
        third(row + [1], 9)
    for row in operators:
        third(row + [0] * 16 + [1], 9)

    bad = (2, 3, -1, 2**32)
    for kind in (3, 4, 5):
        for a, b in ((0, 0), (1, 1), (1, 0)):
            third([kind, a, b], 0, 2)
        for word in bad:
            third([kind, word, 0], 9)
        for word in bad:
            third([kind, 0, word], 9)
    third([6], 0, 2)
    for word in bad:
        third([6, word], 9)
    for row in ([6, 0, 1], [6, 1, 1], [6, 1, -1]):
        third(row, 9)
    third([7, 0, 2], 0, 2)
    for word in bad:
        third([7, word, 2], 9)
    third([7, 1], 9)
    third([7, 1, 1], 9)
    for n in (3, 63, 64):
        third([7, 1, n], 0, n)
    for n in (65, 258, 2**32 + 2, -1):
        third([7, 1, n], 9)
    third([8], 0, 129)
    third([8, 1, 0], 9)
    third([8, 1, 1], 9)
    for word in bad:
        third([8, word, 1], 9)
    for word in bad:
        third([8, 0, word], 9)


def raise_bases():
    plan([[0], [8]], answer=9)
    for base in (1, 2, 3, HALF, HALF + 1, -2, -1):
        plan([[0, 0, 0, base], [8]], answer=0 if base % 2 else 9)
    for row in ([1, 1, 0, 3, 2], [1, 1, 0, 3, 0], [2, 1, 0, 3, 5], [2, 1, 0, 3, 1]):
        plan(PAIR_ROWS + [row, [8, 2]], answer=9)
    for kind in (3, 4):
        plan(PAIR_ROWS + [[0, 0, 0, 4], [kind, 0, 2], [8, 3]], answer=9)
    for row in ([5, 0, 0], [6], [7, 0, 2], [8]):
        plan(PAIR_ROWS + [row, [8, 2]], answer=9)
    for row, answer in (([3, 126, 125], 0), ([3, 127, 0], 9), ([3, 128, 0], 9), ([3, 0, 126], 0), ([3, 0, 127], 9),
                        ([3, 0, 128], 9), ([6, 126], 0), ([6, 127], 9), ([7, 126, 2], 0), ([7, 127, 2], 9),
                        ([8, 126, 126], 0), ([8, 127, 0], 9), ([8, 128, 0], 9), ([8, 0, 127], 9)):
        plan([[0, 0, 0, 3]] * 127 + [row], answer=answer)


def grid_row(function):
    """The sum chain of a function of the index."""
    f = elements([function(i) for i in range(POINTS)])
    return [1, len(f) - 1, 0] + f


def points_of(room, function):
    return [function(i) for i in range(room)]


def document_fills():
    """What formulas of document 01 fold to. The values are what the formulas mean."""
    three_to_x = [2, 1, 0, 1, 3]
    plan([CUBE], (10, 15), cost=3, values=[0, 1, 8, UNWRITTEN], after=[1, 3, 0, 27, 37, 24, 6])
    plan([[1, 1, 0, 16, 6]], (4, BUDGET), cost=1, values=points_of(4, lambda i: 3 * (5 + 2 * i) + 1))
    plan([SEVEN], (4, BUDGET), cost=0, values=[7] * 4)
    plan([[0]], (4, BUDGET), cost=0, values=[0] * 4)
    plan([[1, 1, 0, 0, HALF]], (4, BUDGET), cost=1, values=points_of(4, lambda i: HALF * i))
    plan([[1, 2, 0, 0, -1, -2]], (4, BUDGET), cost=2, values=points_of(4, lambda i: -i**2))
    plan([three_to_x], (4, BUDGET), cost=1, values=[1, 3, 9, 27])
    plan([[0, 0, 0, 3], three_to_x, [8, 0, 1]], (4, BUDGET), cost=129, values=[3, 27, 19683, 7625597484987])
    plan([X, [7, 0, 17]], (6, BUDGET), cost=17, values=points_of(6, lambda i: i**17))
    plan([grid_row(lambda i: i**16)], (20, BUDGET), cost=16, values=points_of(20, lambda i: i**16))
    plan([grid_row(lambda i: i**8), grid_row(lambda i: i**9), [5, 0, 1]], (6, BUDGET), cost=18,
         values=points_of(6, lambda i: i**17))
    plan([X, [7, 0, 64]], (5, BUDGET), cost=64, values=points_of(5, lambda i: i**64))
    plan([X, [7, 0, 17], [6, 1]], (6, BUDGET), cost=18, values=points_of(6, lambda i: -i**17))
    plan([X, three_to_x, [3, 0, 1]], (2, BUDGET), cost=3, values=[1, 4])
    plan([[2, 2, 0, 1, 3, 9]], (6, BUDGET), cost=2, values=points_of(6, lambda i: 3**i**2))


def budgets():
    for budget in (0, 1, 3, 4, 5, 7, 8, 39, 40, 44, HALF, MOST):
        plan([CUBE], (10, budget), cost=3)
    for room, budget in ((0, 0), (0, MOST), (1, 3), (1, 4), (1, MOST), (4096, 16383), (4096, 16384), (4096, MOST)):
        plan([CUBE], (room, budget), cost=3)
    for room, budget in ((3, 0), (3, 1), (3, 2), (3, 3), (3, 4), (4096, 4095), (4096, MOST)):
        plan([SEVEN], (room, budget), cost=0)
    for budget in (129, 130, 259, 260):
        plan([[0, 0, 0, 3], [2, 1, 0, 1, 3], [8, 0, 1]], (4, budget), cost=129)


def filled_rows():
    s, p, five = [1, 2, 0, 5, 2, 4], [2, 2, 0, 7, 3, 9], [0, 0, 0, 5]
    six = 6, BUDGET
    plan(PAIR_ROWS + [[2, 1, 0, 7, 3], [3, 1, 2], [4, 1, 2], [5, 3, 4], [6, 5], [7, 6, 3], [8, 0, 7]], six,
         cost=0 + 1 + 1 + 1 + 1 + 1 + 1 + 2 + 128)
    for row in ([3, 0, 1], [4, 0, 1], [4, 1, 0], [5, 0, 1]):
        plan([s, p, row], six, cost=5)
    plan([s, [6]], six, cost=3)
    plan([p, [6]], six, cost=3)
    plan([p, [7, 0, 2]], six, cost=3)
    plan([p, [7, 0, 64]], six, cost=65)
    plan([five, s, [8, 0, 1]], six, cost=130)
    plan([five, p, [8, 0, 1]], six, cost=130)
    plan([five, [8]], six, cost=128, values=[3125] * 6)
    plan([[1, 4, 0, 5, 2, 4, 0, 0]], six, cost=4)
    plan([[1, 2]], six, cost=2, values=[0] * 6)
    plan([[2, 4, 0, 7, 3, 9, 1, 1]], six, cost=4)
    plan([[2, 2, 0, 1, 1, 1]], six, cost=2, values=[1] * 6)
    plan([[2, 2]], six, cost=2, values=[0] * 6)
    plan([[2, 3, 0, 0, 3, 5, 7]], six, cost=3, values=[0] * 6)
    plan([[2, 3, 0, 3, 5, 0, 7]], six, cost=3, values=[3, 15, 0, 0, 0, 0])
    plan([[2, 2, 0, 3, 5, 0]], six, cost=2, values=[3, 15, 0, 0, 0, 0])
    plan([[2, 3, 0, 2, 6, 10, 12]], six, cost=3)
    plan([[2, 1, 0, 2, 4]], (40, BUDGET), cost=1, values=points_of(40, lambda i: 2 * 4**i))
    plan([[1, 1, 0, 5, 2], [5, 0, 0], [3, 1, 1], [4, 2, 0]], six, cost=4,
         values=points_of(6, lambda i: 2 * (5 + 2 * i)**2 - (5 + 2 * i)))
    plan([s, p, [0, 0, 0, 3], [7, 1, 5], [1, 1, 0, 8, 1]], six, cost=2 + 2 + 0 + 4 + 1, values=[8, 9, 10, 11, 12, 13])
    plan([s, p, [0, 0, 0, 3]], six, cost=4, values=[3] * 6)
    plan(PAIR_ROWS + [[8, 0, 1], [6, 1]], (9, BUDGET), cost=130,
         values=points_of(7, lambda i: -5 - 2 * i) + [UNWRITTEN] * 2)
    plan([[1, 16, 0] + [0] * 16 + [1]], (20, BUDGET), cost=16, values=points_of(20, lambda i: comb(i, 16)))


def wrapping_fills():
    plan([[1, 1, 0, -1, 1]], (3, BUDGET), values=[-1, 0, 1])
    plan([[1, 3, 0] + [-1] * 4], (6, BUDGET))
    plan([[1, 2, 0] + [HALF] * 3], (6, BUDGET), values=[HALF, 0, 0, HALF])
    plan([[2, 3, 0] + [-1] * 4], (6, BUDGET))
    plan([[2, 1, 0, HALF, HALF]], (3, BUDGET), values=[HALF, 0, 0])
    plan([[2, 1, 0, 2**32, 2**32]], (3, BUDGET), values=[2**32, 0, 0])
    plan([[0, 0, 0, -1], X, [3, 0, 1]], (3, BUDGET), values=[-1, 0, 1])
    plan([[0], X, [4, 0, 1]], (3, BUDGET), values=[0, -1, -2])
    plan([[0, 0, 0, -1], X, [4, 1, 0]], (3, BUDGET), values=[1, 2, 3])
    plan([[0, 0, 0, -1], [5, 0, 0]], values=[1, 1])
    plan([[0, 0, 0, 2**32], [5, 0, 0]], values=[0, 0])
    plan([[0, 0, 0, 2**32 - 1], [0, 0, 0, 2**32 + 1], [5, 0, 1]], values=[-1, -1])
    plan([X, [6]], (3, BUDGET), values=[0, -1, -2])
    plan([[0, 0, 0, HALF], [6]], values=[HALF] * 2)
    plan([[0, 0, 0, 2], [7, 0, 63]], cost=62, values=[HALF] * 2)
    plan([[0, 0, 0, 2], [7, 0, 64]], cost=63, values=[0] * 2)
    plan([[0], [7, 0, 2]], cost=1, values=[0] * 2)
    plan([[0, 0, 0, -1], [7, 0, 63]], values=[-1] * 2)
    inverse = pow(3, -1, WORD)
    plan([[0, 0, 0, 3], [1, 1, 0, -2, 1], [8, 0, 1]], (5, BUDGET), values=[inverse**2, inverse, 1, 3, 9])
    plan([[0, 0, 0, 3], [1, 1, 0, HALF - 1, 1], [8, 0, 1]], (3, BUDGET), values=[inverse, 1, 3])
    plan([[0, 0, 0, 3], [1, 1, 0, 2**62 - 1, 1], [8, 0, 1]], (3, BUDGET), values=[inverse, 1, 3])
    plan([[0, 0, 0, 1], [1, 1, 0, -2, 1], [8, 0, 1]], (4, BUDGET), values=[1] * 4)
    plan([[0, 0, 0, -1], [1, 1, 0, -2, 1], [8, 0, 1]], (4, BUDGET), values=[1, -1, 1, -1])
    odd = [-1, -3, 5, 7, 9, -11, 13, 15, 17, 19, 21, -23, 25, 27, 29, 31, -33]
    plan([[1, 16, 0] + odd], (20, BUDGET), cost=16)
    plan([[2, 16, 0] + odd], (20, BUDGET), cost=16)


def several_calls():
    rows = PAIR_ROWS + [[2, 2, 0, 3, 5, 7], [8, 0, 1], [5, 3, 2], [4, 4, 1], [7, 5, 3], [6, 6], [3, 7, 2]]
    cost = 0 + 1 + 2 + 128 + 1 + 1 + 2 + 1 + 1
    assert cost + 1 == 138
    plan(rows, (20, MOST), cost=cost)
    plan(rows, (1, MOST), (7, MOST), (12, MOST), cost=cost)
    plan(rows, (20, 5 * 138), (20, 137), (20, 15 * 138), cost=cost)
    plan(rows, (0, MOST), (19, MOST), (20, 0), (1, MOST), cost=cost)
    plan(rows, (4096, MOST), cost=cost)
    plan(rows, (1000, MOST), (3000, MOST), (96, MOST), cost=cost)
    plan([CUBE], (10, 15), (1, BUDGET), (6, BUDGET), cost=3,
         after=[1, 3, 0] + elements([(i + 10)**3 for i in range(POINTS)]))


def plans_of_128_rows():
    three, x = [0, 0, 0, 3], [1, 1, 0, 5, 2]
    for budget in (16256, 16257, 32513, 32514):
        plan([three] + [[8, 0, "~1"]] * 127, (10, budget), cost=16256)
    plan([three] + [[8, 0, "~1"]] * 127, (2, MOST), cost=16256)
    plan([three] + [[8, 0, 0]] * 127, (10, 32514), cost=16256, values=[27, 27, UNWRITTEN])
    plan(PAIR_ROWS + [[8, 0, "~1"]] * 126, (3, MOST), cost=126 * 128 + 1)
    plan([x] + [[3, "~1", 0]] * 127, (4, BUDGET), cost=128, values=points_of(4, lambda i: 128 * (5 + 2 * i)))
    plan([x] + [[4, "~1", 0]] * 127, (4, BUDGET), cost=128, values=points_of(4, lambda i: -126 * (5 + 2 * i)))
    plan([x] + [[5, "~1", 0]] * 127, (4, BUDGET), cost=128, values=points_of(4, lambda i: (5 + 2 * i)**128))
    plan([x] + [[6, "~1"]] * 127, (4, BUDGET), cost=128, values=points_of(4, lambda i: -5 - 2 * i))
    plan([x] + [[7, "~1", 63]] * 127, (4, MOST), cost=127 * 62 + 1,
         values=points_of(4, lambda i: pow(5 + 2 * i, 63**127, WORD)))
    plan(PAIR_ROWS + [[3, "~1", "~2"]] * 126, (4, BUDGET), cost=127)
    plan([[1, 16, 0] + list(range(1, 18))] * 128, (4, MOST), cost=2048)
    plan([[2, 16, 0, 3, 5, 7, 9, 1, 2, 3, 5, 7, 9, 3, 5, 7, 9, 3, 5, 7]] * 128, (4, MOST), cost=2048)
    plan([[1, 3, 0, 9, 8, 7, 6]] * 64 + [[2, 2, 0, 3, 5, 7]] * 64, (20, MOST), cost=64 * 3 + 64 * 2)


FOUR = 4, BUDGET
THREE_TO_X = [2, 1, 0, 1, 3]
RAISED_TWICE = [[0, 0, 0, 3], THREE_TO_X, [8, 0, 1]]


def constant(word):
    return [[0, 0, 0, word]]


def compiled_documents():
    """Document 01's list of edges and its printer's example."""
    compiling("x^3", (10, 15), rows=[CUBE], cost=3, values=[0, 1, 8, UNWRITTEN], after=[1, 3, 0, 27, 37, 24, 6])
    compiling("3*x+1", FOUR, grid=(5, 2), rows=[[1, 1, 0, 16, 6]])
    for grid in ((0, 1), (0, 0), (5, 2), (0, 2**32), (1, HALF), (HALF, HALF), (HALF - 1, 2**32 + 1), (WORD - 1, 1),
                 (WORD - 1, WORD - 1), (12345678901234567890, 9876543210987654321)):
        compiling("x*x-x^2+7", FOUR, grid=grid, rows=[SEVEN])
    compiling("x^2", FOUR, grid=(0, 2**32), rows=constant(0))
    compiling("x", FOUR, grid=(0, HALF), rows=[[1, 1, 0, 0, HALF]])
    compiling("x^2+x", FOUR, grid=(0, HALF), rows=[[1, 1, 0, 0, HALF]])
    compiling("-x^2", FOUR, rows=[[1, 2, 0, 0, -1, -2]])
    compiling("3^(x)", FOUR, rows=[THREE_TO_X])
    compiling("3^(3^(x))", FOUR, rows=RAISED_TWICE, cost=129, values=[3, 27, 19683, 7625597484987])
    compiling("0^0", FOUR, rows=constant(1))
    compiling("2^3", FOUR, rows=constant(8))
    compiling("2^(3)", answer=(8, 1))
    compiling("x^(2)", answer=(8, 1))
    compiling("x^17", FOUR, rows=[X, [7, 0, 17]], cost=17)
    compiling("x^16", (20, BUDGET), rows=[grid_row(lambda i: i**16)], cost=16)
    assert grid_row(lambda i: i**16)[-1] == 20922789888000
    compiling("x^8*x^8", (20, BUDGET), rows=[grid_row(lambda i: i**16)])
    compiling("x^8*x^9", FOUR, count=3, cost=18)
    for text, place in (("", 0), ("01", 1), ("1-", 2), ("x^2^3", 3)):
        compiling(text, answer=(4, place))
    compiling("18446744073709551615", FOUR, rows=constant(-1))
    compiling("18446744073709551616", answer=(5, 0))
    compiling("x^64", FOUR, rows=[X, [7, 0, 64]], cost=64)
    compiling("x^65", answer=(6, 2))
    compiling("x{63:+x}", FOUR, rows=[[1, 1, 0, 0, 64]])
    compiling("x{64:+x}", answer=(7, 0))
    compiling("x^2", (3, BUDGET), count=1, cost=2)
    compiling("x+3^(x)", (2, BUDGET), rows=[X, THREE_TO_X, [3, 0, 1]], cost=3, values=[1, 4])
    compiling("2^(x)", answer=(8, 1))


def compiled_settled():
    """Where document 01 leaves room: reading, then folding."""
    for text, answer in (("99999999999999999999+(", (4, 22)), ("x^65+99999999999999999999", (5, 5)),
                         ("x^99999999999999999999", (5, 2)), ("){33:(}", (4, 0)), ("x{33:(}", (3, 33)),
                         ("2^(2^(x))", (8, 1)), ("0^(0)", (8, 1)), ("x<13>", (4, 1)), ("<0>x", (4, 0)),
                         ("x<255>", (4, 1))):
        compiling(text, answer=answer)
    for grid in ((0, 1), (3, 0), (0, HALF)):
        compiling("(x^0)^(2)", grid=grid, answer=(8, 5))
        compiling("(0*x+3)^(2)", grid=grid, answer=(8, 7))
    compiling("-3^(x)", FOUR, rows=[[2, 1, 0, -1, 3]])
    compiling("(-3)^(x)", FOUR, rows=[[2, 1, 0, 1, -3]])
    compiling("3^(2)", FOUR, rows=constant(9))

    for text in ("x", "x^17", "3^(x)", "3^(3^(x))", "1^(3^(x))", "x+3^(x)", "3^(x)-x", "x*3^(x)", "-x^17", "x^8*x^9"):
        compiling(text, (2, BUDGET), grid=(5, 0), count=1, cost=0)
    compiling("0-x^17", FOUR, rows=[X, [7, 0, 17], [6, 1]])
    compiling("--x^17", FOUR, rows=[X, [7, 0, 17], [6, 1], [6, 2]])
    compiling("0-(0-x^17)", FOUR, rows=[X, [7, 0, 17], [6, 1], [6, 2]])
    compiling("x^17-x^17", FOUR, rows=[X, [7, 0, 17], X, [7, 2, 17], [4, 1, 3]])
    compiling("3^(x)-3^(x)", FOUR, rows=[THREE_TO_X, THREE_TO_X, [4, 0, 1]])
    compiling("x^17", FOUR, grid=(0, 2**32), rows=[[1, 1, 0, 0, 2**32], [7, 0, 17]])
    compiling("(2*3^(x))^64", FOUR, rows=constant(0))
    compiling("(9223372036854775809^(x))^2", FOUR, rows=constant(1))
    compiling("1^(3^(x))", FOUR, rows=[[0, 0, 0, 1], THREE_TO_X, [8, 0, 1]], cost=129)
    compiling("3^(x)+1", FOUR, rows=[THREE_TO_X, [0, 0, 0, 1], [3, 0, 1]])


SHORT_SUM = "(x^2+3)"
SHORT_PRODUCT = "(2*3^(x))"
# A row of each kind from 3 to 8, and how many rows its formula has.
OPERATOR_ROWS = {"(x+3^(x))": 3, "(3^(x)-x)": 3, "(x*3^(x))": 3, "(-x^17)": 3, "x^17": 2, "3^(3^(x))": 3}


def folded_pairs():
    """+ - * over each pair of a constant, a sum chain, a product chain and a row."""
    operands = {"5": 0, SHORT_SUM: 1, SHORT_PRODUCT: 2, "(x+3^(x))": 3}
    for sign in "+-*":
        for a, kind_a in operands.items():
            for b, kind_b in operands.items():
                joins = {kind_a, kind_b} <= ({0, 1, 2} if sign == "*" else {0, 1}) and {kind_a, kind_b} != {1, 2}
                rows = 1 if joins else 1 + sum(3 if kind == 3 else 1 for kind in (kind_a, kind_b))
                compiling(f"{a}{sign}{b}", FOUR, count=rows)


def dropped_units():
    """A 0 or 1 that a rule drops, beside a chain or a row of every kind; then with rows ahead that must stay."""
    for a, rows in {SHORT_SUM: 1, SHORT_PRODUCT: 1, **OPERATOR_ROWS}.items():
        for text in (f"0+{a}", f"{a}+0", f"{a}-0", f"1*{a}", f"{a}*1"):
            compiling(text, (3, BUDGET), count=rows)
        compiling(f"0-{a}", (3, BUDGET), count=rows + (rows > 1))
        compiling(f"0*{a}", (3, BUDGET), rows=constant(0))
        compiling(f"{a}*0", (3, BUDGET), rows=constant(0))
    for a, rows in OPERATOR_ROWS.items():
        compiling(f"x^17*(0+{a})", (3, BUDGET), count=rows + 3)
        compiling(f"x^17+(0-{a})", (3, BUDGET), count=rows + 4)
        compiling(f"x^17-1*{a}", (3, BUDGET), count=rows + 3)
        compiling(f"-x^17+0*{a}", (3, BUDGET), count=3)
        compiling(f"-x^17-{a}*0", (3, BUDGET), count=3)
    for text, rows in (("0+(1*(0+x*3^(x)))", 3), ("0-(0-(0-x*3^(x)))", 6), ("(x-x)+(x+3^(x))", 3),
                       ("(x+3^(x))-(x-x)", 3), ("x^0*(x+3^(x))", 3), ("3^(0*x)*(x+3^(x))", 3),
                       ("(x+3^(x))*(3^(x)*3^(-x))", 3), ("(x-x)*(x+3^(x))", 1), ("(x-x)-(x+3^(x))", 4),
                       ("x^17+(0+x^17*(1*x^17))", 8)):
        compiling(text, (3, BUDGET), count=rows)


def folded_chains():
    """Sum chains of unequal lengths, and product chains; what is left of them after trimming, down to constants."""
    for text, rows in (("x+x^3", [[1, 3, 0, 0, 2, 6, 6]]), ("x^3+x", [[1, 3, 0, 0, 2, 6, 6]]),
                       ("x-x^3", [[1, 3, 0, 0, 0, -6, -6]]), ("x^3-x", [[1, 3, 0, 0, 0, 6, 6]]),
                       ("x^3+x-x^3", [X]), ("x^3-(x^3+5)", constant(-5)), ("x^3-x^3", constant(0)),
                       ("5-x^2", [[1, 2, 0, 5, -1, -2]]), ("0-x^2", [[1, 2, 0, 0, -1, -2]]),
                       ("--x^2", [[1, 2, 0, 0, 1, 2]]), ("-(2*3^(x))", [[2, 1, 0, -2, 3]]),
                       ("--(2*3^(x))", [[2, 1, 0, 2, 3]]), ("0-2*3^(x)", [[2, 1, 0, -2, 3]]),
                       ("3*x^2", [[1, 2, 0, 0, 3, 6]]), ("x^2*3", [[1, 2, 0, 0, 3, 6]]),
                       ("9223372036854775808*x^2", [[1, 1, 0, 0, HALF]]),
                       ("x^2*9223372036854775808", [[1, 1, 0, 0, HALF]]),
                       ("9223372036854775808*(x^2+x)", constant(0)), ("x*2*9223372036854775808", constant(0)),
                       ("(4294967296*x)*(4294967296*x+2)", [[1, 1, 0, 0, 2**33]]),
                       ("(4294967296*x+1)^2", [[1, 1, 0, 1, 2**33]]), ("(4294967296*x)^2", constant(0)),
                       ("(9223372036854775808*x+3)^2", constant(9)),
                       ("3^(x)*5^(x^2)", [[2, 2, 0, 1, 15, 25]]), ("5^(x^2)*3^(x)", [[2, 2, 0, 1, 15, 25]]),
                       ("7*3^(x)*(2*5^(x^2))", [[2, 2, 0, 14, 15, 25]]), ("2*3^(x)", [[2, 1, 0, 2, 3]]),
                       ("3^(x)*2", [[2, 1, 0, 2, 3]]), ("3^(x)*3^(-x)", constant(1)), ("5*3^(x)*3^(-x)", constant(5)),
                       ("3^(x^2)*3^(x-x^2)", [THREE_TO_X]), ("9223372036854775808*(2*3^(x))", constant(0)),
                       ("(2*3^(x))*9223372036854775808", constant(0)),
                       ("(4294967296*3^(x))*(4294967296*5^(x))", constant(0)),
                       ("4294967296*3^(x)*2147483648", [[2, 1, 0, HALF, 3]])):
        compiling(text, FOUR, rows=rows)


def folded_products():
    """S*S and S^n on both sides of length 16, P^n, and powers of rows."""
    for k, l in ((1, 15), (15, 1), (2, 14), (7, 9), (13, 3), (16, 0), (0, 16)):
        compiling(f"x^{k}*x^{l}", FOUR, rows=[grid_row(lambda i: i**16)])
    for k, l in ((1, 16), (16, 1), (2, 15), (9, 8), (14, 3), (16, 16)):
        compiling(f"x^{k}*x^{l}", FOUR, count=3, cost=k + l + 1)
    compiling("(x^8+x)*(3*x^8-2)", FOUR, count=1, cost=16)
    compiling("(x+1)^8*(x-1)^8*x", FOUR, count=3, cost=18)
    for k, n in ((2, 8), (4, 4), (8, 2), (16, 1)):
        compiling(f"(x^{k})^{n}", FOUR, rows=[grid_row(lambda i: i**16)])
    for k, n in ((5, 3), (3, 5), (7, 2)):
        compiling(f"(x^{k}+1)^{n}", FOUR, count=1, cost=k * n)
    for k, n in ((2, 9), (3, 6), (4, 5), (5, 4), (6, 3), (8, 3), (9, 2), (16, 2), (16, 64), (1, 63)):
        compiling(f"(x^{k})^{n}", FOUR, count=2, cost=k + n - 1)
    for text, rows in (("(3^(x))^2", [[2, 1, 0, 1, 9]]), ("(2*3^(x))^3", [[2, 1, 0, 8, 27]]),
                       ("(2*3^(x))^63", [[2, 1, 0, HALF, 3**63]]), ("(3^(x^2))^2", [[2, 2, 0, 1, 9, 81]]),
                       ("(-3^(x))^2", [[2, 1, 0, 1, 9]]), ("((-1)^(x))^2", constant(1)),
                       ("((-1)^(x))^3", [[2, 1, 0, 1, -1]]),
                       ("(9223372036854775809^(x^2))^2", constant(1)), ("7^0", constant(1)), ("7^1", constant(7)),
                       ("2^63", constant(HALF)), ("2^64", constant(0)), ("(-1)^63", constant(-1)),
                       ("0^64", constant(0))):
        compiling(text, FOUR, rows=rows)
    for a, rows in {SHORT_SUM: 1, SHORT_PRODUCT: 1, **OPERATOR_ROWS}.items():
        name = a if a.startswith("(") else f"({a})"
        compiling(f"{name}^0", (3, BUDGET), rows=constant(1))
        compiling(f"{name}^1", (3, BUDGET), count=rows)
        compiling(f"{name}^2", (3, BUDGET), count=rows + (rows > 1))
        if rows > 1:
            compiling(f"5-{name}^64", (3, BUDGET), count=rows + 3)
            compiling(f"-{name}", (3, BUDGET), count=rows + 1)


def folded_raises():
    """C by a constant, by a sum chain, by a product chain and by rows."""
    inverse = constant(pow(3, -1, WORD))
    for text, rows in (("3^(0)", constant(1)), ("3^(5)", constant(243)), ("3^(18446744073709551615)", inverse),
                       ("3^(-1)", inverse), ("(-3)^(3)", constant(-27)), ("1^(x)", constant(1)),
                       ("1^(x^16)", constant(1)), ("18446744073709551615^(x)", [[2, 1, 0, 1, -1]]),
                       ("(-1)^(2*x)", constant(1)), ("(-1)^(x^2)", [[2, 1, 0, 1, -1]]), ("(-1)^(2*x+1)", constant(-1)),
                       ("3^(x^2+1)", [[2, 2, 0, 3, 3, 9]]), ("3^(4611686018427387904*x)", constant(1)),
                       ("3^(4611686018427387904*x+2)", constant(9)),
                       ("3^(2305843009213693952*x)", [[2, 1, 0, 1, HALF + 1]]),
                       ("9223372036854775809^(x)", [[2, 1, 0, 1, HALF + 1]]),
                       ("9223372036854775809^(x^2)", [[2, 1, 0, 1, HALF + 1]]),
                       ("(3^(2))^(x)", [[2, 1, 0, 1, 9]]), ("(1+2*3)^(x)", [[2, 1, 0, 1, 7]]),
                       ("3^(x)*3^(-x)*5^(x)", [[2, 1, 0, 1, 5]])):
        compiling(text, FOUR, rows=rows)
    compiling("3^(x^16)", FOUR, count=1, cost=16)
    for exponent, rows in {"2*5^(x)": 1, **OPERATOR_ROWS}.items():
        compiling(f"7^({exponent})", FOUR, count=rows + 2)
        compiling(f"x^17+(2*3+1)^({exponent})", (3, BUDGET), count=rows + 5)
    compiling("3^(3^(3^(x)))", FOUR, count=5, cost=257)
    compiling("(-3)^(0*x^17+2)", FOUR, rows=constant(9))


def folded_on_grids():
    """Folds go by trimmed lengths: chains that are short on one grid and long on another."""
    for text, grid, rows in (("x^2*x^15", (0, 2**32), 1), ("x*x^16", (0, 2**32), 1), ("x^17", (0, HALF), 2),
                             ("(x^2)^9", (0, 2**32), 1), ("(x^2+x)^17", (0, HALF), 2), ("(x^2)^17", (1, HALF), 1),
                             ("x^16*x^16", (0, 2**62), 1), ("x^16*x", (3, 2**62), 1), ("x^8*x^9", (1, 2**31), 1),
                             ("x^8*x^9", (1, 2**63), 1), ("(2*x)^17", (0, HALF), 1), ("3^(x^17)", (0, 0), 1),
                             ("3^(x)", (0, 2**62), 1), ("3^(x)", (1, 2**61), 1), ("3^(3^(x))", (7, 2**62), 1),
                             ("x+3^(x)", (7, 2**62), 1), ("x*3^(x)", (1, 2**63), 1), ("x^17+3^(x)", (1, 2**62), 4),
                             ("x*(2*3^(x))", (0, HALF), 1), ("5*x-3*x^2+x^3", (WORD - 7, 2**40 + 1), 1)):
        compiling(text, FOUR, grid=grid, count=rows)


def compiled_limits():
    """Both sides of the limits: words lent, bytes, brackets, nodes and rows."""
    for lent in (0, 1, 23, 257, 513, 2304, 2561, 2816):
        compiling("x^3", lent=lent, answer=(1, 0))
    for lent in (2818, 2900, 3000):
        compiling("x^3", (10, 15), lent=lent, rows=[CUBE])
    for text, answer in (("{1025:x}", (2, 1024)), ("{33:(}", (3, 32)), ("x^2^3", (4, 3)),
                         ("18446744073709551616", (5, 0)), ("x^65", (6, 2)), ("{129:-}x", (7, 0)), ("2^(x)", (8, 1))):
        compiling(text, lent=2816, answer=(1, 0))
        compiling(text, lent=2900, answer=answer)
    compiling("{48:18446744073709551615+}1000000000000000", (2, BUDGET), rows=constant(10**15 - 48))
    compiling("{48:18446744073709551615+}x^17*3^(x)+12345", (3, BUDGET), count=8)
    compiling("{48:18446744073709551615+}x^17*3^(x)+123456", answer=(2, 1024))
    compiling("{32:(}x{32:)}", FOUR, rows=[X])
    compiling("{33:(}x{33:)}", answer=(3, 32))
    compiling("{32:3^(}x{32:)}", (3, MOST), count=63, cost=31 * 128 + 1)
    compiling("{33:3^(}x{33:)}", answer=(3, 98))
    compiling("{32:(0+}x^17{32:)}", FOUR, rows=[X, [7, 0, 17]])
    compiling("{31:0-(}x^17{31:)}", FOUR, count=33)
    compiling("{25:1*(x^17+}x^17{25:)}", (3, MOST), count=77)
    compiling("{126:-}x^17", FOUR, count=128, cost=17 + 126)
    compiling("{127:-}x^17", answer=(7, 0))
    compiling("x^17{42:+x^17}", (3, MOST), count=128, cost=43 * 17 + 42)
    compiling("x^17{42:*x^17}", (3, MOST), count=128, cost=43 * 17 + 42)
    compiling("x^17{42:-x^16}", (3, MOST), count=86)
    compiling("({125:-}x^17)^64", FOUR, count=128, cost=17 + 125 + 63)
    compiling("(x{63:+x})^2", FOUR, rows=[[1, 2, 0, 0, 4096, 8192]])
    compiling("-x^17{42:+x^17}", answer=(7, 0))
    compiling("0+(x^17{41:-x^17})", (3, MOST), count=125)
    compiling("0-(-x^17{41:+x^17})", (3, MOST), count=127)
    compiling("x^17*3^(x)-5", (1, MOST), (0, MOST), (7, 60), (7, 20), (4, MOST), count=6, cost=20)


def grids():
    for text in ("x*x-x^2+7", "x", "3*x+1", "-x^2", "x^16", "x^17", "3^(x)", "5*7^(x^2+x)", "3^(3^(x))", "x+3^(x)",
                 "x*3^(x)-x^9*x^8", "0-(x-3^(x))^3", "(2-3^(x^3+x))^2*x", "(-3)^(x^17)+1*x"):
        on_grids(text)


def refused_headers():
    """Anything but the header alone in the first line, and no line at all; whatever comes after it."""
    refusal = "no>0>12>0/"
    for file in ("{0:x}", "/", "//", "chain-jobs", "chain-jobs>", "chain-jobs/", "chain-jobs>/", "chain-jobs>2/x>0>1>3/>>>/",
                 "chain-jobs>01/x>0>1>3/>>>/", "chain-jobs>11/x>0>1>3/>>>/", "chain-jobs>1>/x>0>1>3/>>>/",
                 "chain-jobs 1/x>0>1>3/>>>/", "chain-jobs1/x>0>1>3/>>>/", "chain-job>1/x>0>1>3/>>>/",
                 "Chain-jobs>1/x>0>1>3/>>>/", "chain-jobs>1 /x>0>1>3/>>>/", " chain-jobs>1/x>0>1>3/>>>/",
                 "chain-jobs>1<13>/x>0>1>3/>>>/", "<239><187><191>chain-jobs>1/x>0>1>3/>>>/", "<0>/x>0>1>3/>>>/",
                 "/chain-jobs>1/x>0>1>3/>>>/", "x>0>1>3/>>>/", "chain-jobs>1{4084:1}/x>0>1>3/>>>/",
                 "chain-jobs>1{4085:1}/x>0>1>3/>>>/", "chain-jobs>1{4086:1}/x>0>1>3/>>>/", "chain-jobs>1{4085:1}",
                 "{4097:c}"):
        job_file(file, refusal)


def refused_defaults():
    """A defaults line that is absent, has not four fields, an empty field or a bad number; no job is printed then."""
    for defaults, place in (("", 0), ("/>>>", 0), ("x", 0), ("x>0>1", 0), ("x>0>1>3>", 0), ("x>0>1>3>4", 0), ("x>>", 0),
                            (">>>>", 0), (">>>", 1), (">0>1>3", 1), ("x>>1>3", 2), ("x>0>>3", 3), ("x>0>1>", 4),
                            (">>1>3", 1), ("x>>>3", 2), ("x>0>>", 3), (">01>-1>4097", 1), ("x>>-1>4097", 2),
                            ("x>01>>4097", 3), ("x>01>-1>", 4), ("x>a>>", 3), ("2^(x)>0>>3", 3),
                            ("x>01>1>3", 2), ("x>-1>1>3", 2), ("x>+1>1>3", 2), ("x> >1>3", 2), ("x>1x>1>3", 2),
                            ("x>18446744073709551616>1>3", 2), ("x>{30:9}>1>3", 2), ("x>0>00>3", 3), ("x>0>1.>3", 3),
                            ("x>0>18446744073709551616>3", 3), ("x>0>1>4097", 4), ("x>0>1>03", 4), ("x>0>1>3 ", 4),
                            ("x>0>1>3<13>", 4), ("x>0>1>18446744073709551617", 4), ("x>a>b>c", 2), ("x>0>b>c", 3)):
        job_file(f"chain-jobs>1/{defaults}/>>>/x>0>1>2/", f"no>0>11>{place}/")
    for file in ("chain-jobs>1", "chain-jobs>1/", "chain-jobs>1//", "chain-jobs>1/x>0>1", "chain-jobs>1/{4091:1}>0>1>3/>>>/",
                 "chain-jobs>1/x>{4091:1}>1>3/>>>/", "chain-jobs>1/{4097:x}", "chain-jobs>1/{4097:>}/>>>/"):
        job_file(file, "no>0>11>0/")
    job_file("chain-jobs>1/x>{4090:1}>1>3/>>>/", "no>0>11>2/")


def job_files():
    """The paper's own job file, ends with and without a line feed, and lines on both sides of each limit."""
    paper = "chain-jobs>1/x^2>0>1>3/>>>/x+3^(x)>>>2/2^(x)>>>"
    printed = "job>1>1>2/0>0/1>1/2>4/job>2>3>3/0>1/1>4/no>3>8>1/"
    job_file(paper + "/", printed)
    job_file(paper, printed)
    job_file(paper + "//", printed + "no>4>11>0/")
    job_file(paper + "///", printed + "no>4>11>0/no>5>11>0/")
    job_file(paper + "<13>/", printed.replace("no>3>8>1", "no>3>11>4"))
    for file in ("chain-jobs>1/x>0>1>3", "chain-jobs>1/x>0>1>3/", "chain-jobs>1/{4090:1}>0>1>3", "chain-jobs>1/<0>>0>1>0/"):
        job_file(file, "")
    for jobs in ("/", "//", ">>>", ">>>/", "/>>>", "/>>>/", "x>5>2>1", ">5>2>1/x/>>>>/>>/3*x+1>5>2>2/", "{0:x}/>>>1",
                 ">>>0", ">>>0/>>>1/", ">>>4096", ">>>4096/>>>0", ">>>4097", ">18446744073709551615>>2", ">18446744073709551616>>2",
                 ">>18446744073709551615>3", ">>18446744073709551616>3", ">01>>", ">>01>", ">>>01", ">a>b>c", ">>b>c", ">>>c",
                 "x^2^3>01>>", "x^2^3>>01>", "x^2^3>>>4097", "x^2^3>>>", "2^(x)>>>0", "x<13>>>>", "x>>><13>", " >>>", ">>>3<32>",
                 "<0>>>>", "<255>>>>", "{1024:-}>>>1", "{1025:-}>>>1", "{33:(}>>>", "18446744073709551616>>>", "x^65>>>",
                 "x{64:+x}>>>", "x{63:+x}>>>1", "x^17>>>2", "3^(3^(x))>>>4", "x*x-x^2+7>18446744073709551615>9223372036854775808>2",
                 "{4093:1}>>>", "{4094:1}>>>", "{4093:1}>>>/x>>>1/", "{4094:1}>>>/x>>>1/", "x>{4091:1}>1>", "x>{4092:1}>1>",
                 "{4096:x}", "{4097:x}", "{4096:>}", "{4097:>}/", "{5000:x}/x>>>1/"):
        job_file(f"chain-jobs>1/x^2>0>1>3/{jobs}")
    job_file("chain-jobs>1/2^(x)>18446744073709551615>18446744073709551615>4096/>>>/x>>>2/>>>0/",
             "no>1>8>1/job>2>1>1/0>18446744073709551615/1>18446744073709551614/no>3>8>1/")
    job_file("chain-jobs>1/{4090:1}>0>1>3/>>>/x>>>1/", "no>1>2>1024/job>2>1>1/0>0/")
    job_file("chain-jobs>1/x>0>1>0/>>>/>>>1/", "job>1>1>1/job>2>1>1/0>0/")
    job_file("chain-jobs>1/3^(x)>0>1>4096/>>>/")


def unset_readings():
    """A reading of 0 against ordinary words, with tolerances on both sides of the limit; and 1 for an expected 0."""
    for expected in (0, 1, HALF, WORD - 1):
        for tolerance in (0, HALF - 1, HALF):
            probe(f"probe unset for {expected}, T={tolerance}", 0, expected, tolerance)
    for tolerance in (0, 1, HALF - 1, HALF):
        probe(f"probe 1 for 0, T={tolerance}", 1, 0, tolerance)


def turns():
    """Both sides of each limit, constants, untrimmed chains, and words past the length."""
    for f0, f1 in ((-1, 1), (-1, 0), (-2, 1), (-1, HALF - 1), (0, -1), (1, -1), (0, 1), (HALF - 1, HALF), (HALF, HALF),
                   (HALF, HALF - 1), (HALF + 1, HALF - 1), (0, HALF), (-1, HALF), (-1, -1), (HALF + 1, HALF + 1)):
        turn(f"turn {f0 % WORD}, {f1 % WORD}", [f0, f1])
    turn("turn 5", [5])
    turn("turn 0", [0])
    turn("turn largest", [-1])
    turn("turn a step of 0, and more", [-1, 0, -1])
    turn("turn up, zeros past it", [-1, 1, 0, 0])
    turn("turn down, zeros past it", [0, -1, 0, 0])
    turn("turn largest, zeros past it", [-1, 0, 0, 0])
    turn("turn i^3", [0, 1, 6, 6])
    turn("turn length 16", MIXED)
    turn("turn length 1 of 17 words", MIXED[:2])
    turn("turn length 0 of 17 words", OTHER[:1])
    turn("turn length 17", [-1] * 18)
    turn("turn length 17 of 17 words", MIXED + [0])
    turn("turn length 2^64-1", MIXED + [0])


def eras():
    """Both sides of each limit in a filling, roots of every kind, refusals in their order, and budgets for none."""
    for f0, f1 in ((-1, 1), (-2, 1), (0, -1), (1, -1), (HALF - 1, HALF), (HALF, HALF), (HALF, HALF - 1), (HALF + 1, HALF - 1)):
        plan([[1, 1, 0, f0, f1]], (1, BUDGET, "e"), answer=0)
        plan([[1, 1, 0, f0, f1]], (4, BUDGET, "e"), (9, MOST, "e"), answer=0)
    plan([[1, 2, 0, -1, 0, 1]], (1, MOST, "e"), (1, MOST, "e"), (2, MOST, "e"))
    plan([[1, 4, 0, -1, 1, 0, 0, 0]], (3, MOST, "e"))
    plan([[1, 2, 0, HALF, 2**62, 2**62]], (20, MOST, "e"))
    plan([[1, 16, 0] + MIXED], (20, MOST, "e"), (4096, MOST, "e"))
    plan([[1, 16, 0] + OTHER], (0, MOST, "e"), (5, 17 * 3, "e"), (5, 16, "e"), (5, 0, "e"), (7, MOST), (8, MOST, "e"))
    plan([[0, 0, 0, -1]], (3, BUDGET, "e"), (0, MOST, "e"), (3, 0, "e"), answer=0)
    plan(PAIR_ROWS, (3, BUDGET, "e"), answer=0)
    plan(PAIR_ROWS + [[8, 0, 1], [1, 1, 0, -3, 2]], (4, BUDGET, "e"), (4, 130, "e"), (4, 129, "e"), answer=0)
    for root in ([2, 1, 0, 5, 3], [3, 0, 1], [4, 0, 1], [5, 0, 1], [6, 1], [7, 1, 2], [8, 0, 1]):
        plan(PAIR_ROWS + [root], (3, BUDGET, "e"), (0, 0, "e"), answer=16)
        plan(PAIR_ROWS + [root], (3, BUDGET, "e"), put=[(42, [7])], answer=9)
        plan(PAIR_ROWS + [root], (3, BUDGET, "e"), lent=2816, answer=1)
    plan(PAIR_ROWS + [[1, 1, 0, -1, 1]], (3, BUDGET, "e"), lent=2816, answer=1)
    plan(PAIR_ROWS + [[1, 0, 0, 5]], (3, BUDGET, "e"), answer=9)
    plan(PAIR_ROWS + [[9]], (3, BUDGET, "e"), answer=9)


def drill():
    """Stamps with the seconds since 1900 in the upper 32 bits: every second across 2036-02-07 06:28:16 UTC."""
    second = 2**32
    before = WORD - 4 * second
    for calls in ([8], [1, 4, 3], [4, 4], [3, 1, 1, 3], [0, 5, 0, 3]):
        compiling("x", *((room, MOST, "e") for room in calls), grid=(before, second))
    compiling("x", (8, MOST), grid=(before, second), values=[before + i * second for i in range(8)])
    compiling("x", (3, MOST), (3, MOST, "e"), (2, MOST), grid=(before, second))
    compiling("0-x", (8, MOST, "e"), grid=(before, second))
    compiling("x+1073741824", (8, 3, "e"), (8, 2, "e"), (8, 14, "e"), grid=(before, second))
    compiling(f"{before}+4294967296*x+65536*x^2", (8, MOST, "e"), (8, MOST, "e"))
    compiling("x", (4, MOST, "e"), grid=(before, 0))
    compiling("x+3^(x)", (3, MOST, "e"), (3, MOST))


CUBES = [0, 1, 6, 6]
BACKWARD_CUBES = [0, 1, -6, 6]


def backward_calls():
    """Constants, words that wrap, lengths 16 and 17, and words past the length that are not to be read."""
    for call in CHANGES:
        for f in ([5], [0], [-1], [1, 1], [-1, 1], CUBES, BACKWARD_CUBES, [0, 0, 0, 1], [1, 2, 0, 0], [0, 0, 0], [-1] * 4,
                  [HALF] * 3):
            change(call, ",".join(map(str, f)), f)
        change(call, "length 16", MIXED)
        change(call, "length 16, zeros before 3", [0] * 16 + [3])
        change(call, "length 16, zeros after 3", [3] + [0] * 16)
        change(call, "length 17", [1] * 18)
        change(call, "length 17, all zeros", [0] * 18)
        change(call, "length 17 of 17 words", MIXED + [0])
        change(call, "length 2^64-1", MIXED + [0])
        change(call, "length 4 of 17 words", OTHER[:5])
        change(call, "length 0 of 17 words", OTHER[:1])
    for name, f in (("5", [5]), ("of a chain", [7, 1, -6, 6]), ("largest", [-1, 1]), ("of trailing zeros", [3, 0, 0]),
                    ("length 16", MIXED), ("length 17", [8] * 18), ("length 17 of 17 words", MIXED + [0])):
        value(f"backward value {name}", f)


def there_and_back():
    """Conversions there and back, and shifts that cancel, give the trimmed chain again."""
    for letters in ("B F", "F B", "E I", "I E", "e i", "i e"):
        for name, f in (("7", [7]), ("-1,-2,-3,-4,-5", [-1, -2, -3, -4, -5]), ("1,-1,1,-1,0,0", [1, -1, 1, -1, 0, 0]),
                        ("halves", [HALF, HALF - 1, HALF + 1, HALF]), ("length 16", MIXED), ("largest words", [-1] * 17)):
            trim(f"{letters} {name}", f)


def backward_sums():
    for name, f, g in (("i + i^3", [0, 1], BACKWARD_CUBES), ("2 + 3", [2], [3]), ("of trailing zeros", [1, 2, 0, 0], [1, 0, 0]),
                       ("last element cancels", [1, 2, 3], [1, 2, -3]), ("wraps to 0", [-1, HALF], [1, HALF]),
                       ("length 16 both", MIXED, OTHER), ("length 17 first", [0] * 18, [1, 2]),
                       ("length 17 second", [1, 2], [0] * 18), ("length 17 of 17 words", MIXED + [0], OTHER),
                       ("lengths 3 and 7 of 17 words", MIXED[:4], OTHER[:8])):
        backward_sum(f"backward sum {name}", f, g)


def backward_products():
    """Both sides of the limit, by trimmed lengths, and 14 ahead of 15."""
    for name, f, g in (("6 * 7", [6], [7]), ("3 * 1,2,3", [3], [1, 2, 3]), ("1,2,3 * 0", [1, 2, 3], [0]),
                       ("2^63 * 0,2,4", [HALF], [0, 2, 4]), ("-1,-1 * -1,-1", [-1, -1], [-1, -1]),
                       ("2,1,1 * 3,1,4,1", [2, 1, 1], [3, 1, 4, 1]),
                       ("lengths 12 and 12, trimmed to 8", [1] * 9 + [0] * 4, [1] * 9 + [0] * 4),
                       ("lengths 12 and 12, trimmed to 8 and 9", [1] * 9 + [0] * 4, [1] * 10 + [0] * 3),
                       ("lengths 16 and 16, trimmed to 16 and 0", MIXED, [2] + [0] * 16),
                       ("lengths 16 and 1, values all 0", [0] * 16 + [HALF], [0, 2]),
                       ("length 17 first, 14 ahead of 15", MIXED + [0], OTHER),
                       ("length 17 second, 14 ahead of 15", MIXED, OTHER + [0]),
                       ("length 17 by a constant", MIXED + [0], OTHER[:1])):
        backward_product(f"backward product {name}", f, g)
    for total in (16, 17):
        for k in range(total - 16, 17):
            backward_product(f"backward product lengths {k} and {total - k}", MIXED[:k + 1], OTHER[:total - k + 1])


def backward_loop():
    """What x, t1, t2 and y of document 000's section 2.5 are after i turns, as polynomials that go back too."""
    x, t1, t2, y = (lambda i: 2 * i, lambda i: i * (i + 1), lambda i: 40 * i**3 + 24 * i**2,
                    lambda i: 10 * i**2 * (i + 1)**2 + 4 * i * (i + 1) * (2 * i + 1))
    assert [(x(i), t1(i), t2(i), y(i)) for i in range(POINTS)] == run_the_loop()
    return x, t1, t2, y


def backward_documents():
    for made in "by conversion", "by products", "there and back":
        worked_backwards(f"000 backward i^3 {made}", lambda i: i**3, BACKWARD_CUBES)
    worked("000 backward i^3 to forward", lambda i: i**3, CUBES)
    x, t1, t2, y = backward_loop()
    worked_backwards("000 backward loop x", x, [0, 2])
    worked_backwards("000 backward loop t1", t1, [0, 0, 2])
    worked_backwards("000 backward loop t2 by sums and products", t2, [0, 16, -192, 240])
    worked_backwards("000 backward loop y", y, [0, 0, 16, -192, 240])
    worked_backwards("000 (11) y one turn behind", lambda i: y(i - 1))
    for k in range(1, 17):
        worked_backwards(f"000 rising factorial {k}", lambda i: prod(i + j for j in range(k)), [0] * k + [factorial(k)])
    for k in range(17):
        printed = [(-1)**(k - j) * e for j, e in enumerate(forward_elements(lambda i: i**k))]
        worked_backwards(f"000 remark i^{k}", lambda i: i**k, printed)
    for k in 1, 2, 5, 16:
        worked_backwards(f"000 A_{k} to backward", lambda i: sum(over(i, j) for j in range(k + 1)))
        worked(f"000 B_{k} to forward", lambda i: over(i + k, k))


def walks():
    x, t1, t2, y = backward_loop()
    walk("walk 5", lambda i: 5)
    walk("walk i^3", lambda i: i**3)
    walk("walk -i^2", lambda i: -i**2)
    walk("walk 000's t1", t1)
    walk("walk 000's t2", t2)
    walk("walk 000's y", y)
    walk("walk 000's A_4", lambda i: sum(over(i, j) for j in range(5)))
    walk("walk 000's B_4", lambda i: over(i + 4, 4))
    walk("walk stamps across an era", lambda i: (i + 4) * 2**32)
    walk("walk i^16", lambda i: i**16)
    walk("walk a mixed chain", lambda i: forward_at(MIXED, i))
    walk("walk a mixed backward chain", lambda i: backward_at(OTHER, i))
    walk("walk a mixed backward product", lambda i: backward_at(MIXED[:8], i) * backward_at(OTHER[:10], i))


# ---- spans: request Five of document 02

def span_list(text):
    """0..8 for (0, 8), parted by blanks."""
    return [tuple(map(int, span.split(".."))) for span in text.split()]


def spans_told(text, told, **given):
    compiling(text, SPANS, spans=span_list(told), **given)


def spans_of_the_documents():
    """Document 01's list of edges and its printer's example, with the refused ones among them."""
    spans_told("x^3", "0..3")
    spans_told("3*x+1", "0..5", grid=(5, 2))
    spans_told("x*x-x^2+7", "0..9")
    spans_told("x^2", "0..3", grid=(0, 2**32))
    spans_told("x", "0..1", grid=(0, HALF))
    spans_told("x^2+x", "0..5", grid=(0, HALF))
    spans_told("-x^2", "0..4")
    spans_told("3^(x)", "0..5")
    spans_told("3^(3^(x))", "0..1 3..8 0..9")
    spans_told("0^0", "0..3")
    spans_told("2^3", "0..3")
    compiling("2^(3)", SPANS, answer=(8, 1))
    compiling("x^(2)", SPANS, answer=(8, 1))
    spans_told("x^17", "0..1 0..4")
    spans_told("x^16", "0..4")
    spans_told("x^8*x^8", "0..7")
    spans_told("x^8*x^9", "0..3 4..7 0..7")
    for text, place in (("", 0), ("01", 1), ("1-", 2), ("x^2^3", 3)):
        compiling(text, SPANS, answer=(4, place))
    spans_told("18446744073709551615", "0..20")
    compiling("18446744073709551616", SPANS, answer=(5, 0))
    spans_told("x^64", "0..1 0..4")
    compiling("x^65", SPANS, answer=(6, 2))
    spans_told("x{63:+x}", "0..127")
    compiling("x{64:+x}", SPANS, answer=(7, 0))
    spans_told("x^2", "0..3")
    spans_told("x+3^(x)", "0..1 2..7 0..7")
    compiling("2^(x)", SPANS, answer=(8, 1))


def bracketed_spans():
    """Brackets around a row are outside, those of its operands inside."""
    for text, told in (("(7)", "1..2"), ("(x+1)", "1..4"), ("((x+1))", "2..5"), ("(x+1)*2", "0..7"), ("2*(x+1)", "0..7"),
                       ("((x)+(1))", "1..8"), ("(3)^((x))", "0..9"), ("(x)^17", "1..2 0..6"), ("((x))^17", "2..3 0..8"),
                       ("((x^17))", "2..3 2..6"), ("-(x^17)", "2..3 2..6 0..7"), ("-(-(x^17))", "4..5 4..8 2..9 0..10"),
                       ("--x^17", "2..3 2..6 1..6 0..6"), ("((x)+(3^(x)))", "2..3 6..11 1..12"),
                       ("(x^17)-(3^(x))", "1..2 1..5 8..13 0..14"), ("(x^17-3^(x))", "1..2 1..5 6..11 1..11"),
                       ("x*3^(x)*x", "0..1 2..7 0..7 8..9 0..9"), ("x*(3^(x)*x)", "0..1 3..8 9..10 3..10 0..11"),
                       ("100+3^(2000*x)", "0..3 4..14 0..14"), ("(x+3^(x))^2", "1..2 3..8 1..8 0..11"),
                       ("3^((3^(x)))", "0..1 4..9 0..11"), ("(2*3+1)^(x^17)", "1..6 9..10 9..13 0..14"),
                       ("{32:(}x{32:)}", "32..33"), ("{32:(}x^17{32:)}", "32..33 32..36")):
        spans_told(text, told)
    compiling("{33:(}x{33:)}", SPANS, answer=(3, 32))
    compiling("{1025:x}", SPANS, answer=(2, 1024))


def passed_spans():
    """An operand that a rule passes through takes the whole span; rows below it, and operands of a row, keep theirs."""
    for text, told in (("x^17+0", "0..1 0..6"), ("0+x^17", "2..3 0..6"), ("x^17-0", "0..1 0..6"), ("1*x^17", "2..3 0..6"),
                       ("x^17*1", "0..1 0..6"), ("(x^17)^1", "1..2 0..8"), ("1*(x^17)", "3..4 0..8"),
                       ("0+(x*3^(x))", "3..4 5..10 0..11"), ("(3^(3^(x)))*1", "1..2 4..9 0..13"), ("0+2*3^(x)", "0..9"),
                       ("(2*3^(x))^1", "0..11"), ("0-x^17", "2..3 2..6 0..6"), ("0-(x^17)", "3..4 3..7 0..8"),
                       ("0-2*3^(x)", "0..9"), ("0*x^17", "0..6"), ("x^17*0", "0..6"), ("(x^17)^0", "0..8"),
                       ("0-(0-(x^17))", "6..7 6..10 3..11 0..12"), ("0+(1*(0+x^17))", "8..9 0..14"),
                       ("((x^17)^1)^1", "2..3 0..12"), ("(x-x)+(x+3^(x))", "7..8 9..14 0..15"),
                       ("x^0*(x^17-0)", "5..6 0..12"), ("3^(0*x)*x^17", "8..9 0..12"), ("-(x^17*1)", "2..3 2..8 0..9"),
                       ("x^17*(0+x^17)", "0..1 0..4 8..9 6..12 0..13"), ("5-(1*(x^17))", "0..1 6..7 3..11 0..12"),
                       ("(0+x^17)^2", "3..4 1..7 0..10"), ("3^(0+3^(x))", "0..1 3..10 0..11"),
                       ("-x^17+0*(x+3^(x))", "1..2 1..5 0..17"), ("x^17+0+x^17", "0..1 0..6 7..8 7..11 0..11")):
        spans_told(text, told)


def deep_spans():
    """63 and 128 rows; the longest text, whose last row ends at 1,024; grids on which less or more is folded."""
    for name in ("{32:3^(}x{32:)}", "{31:0-(}x^17{31:)}", "{126:-}x^17", "x^17{42:+x^17}", "{25:1*(x^17+}x^17{25:)}"):
        compiling(name, SPANS)
    compiling("{48:18446744073709551615+}x^17*3^(x)+12345", SPANS)
    spans_told("x^17", "0..4", grid=(5, 0))
    spans_told("x^8*x^9", "0..7", grid=(1, HALF))
    spans_told("x^17+3^(x)", "0..1 0..4 5..10 0..10", grid=(1, 2**62))
    spans_told("1*x+3^(3^(x))", "0..13", grid=(7, 2**62))
    compiling("x^17-3^(x)", SPANS, (3, BUDGET), SPANS, (0, BUDGET), SPANS)
    compiling("3*x^16", SPANS, (20, BUDGET), (3, MOST, "e"), SPANS)
    compiling("5*3^(x^16)", SPANS, (20, BUDGET), SPANS)


def sound_spans():
    """Both sides of first < end and end <= 1,024, in the first, a middle and the last row and for each kind; nothing else
    is asked of spans. Words of a span in rows that are not counted."""
    for first, end, answer in (
            (0, 0, 9), (0, 1, 0), (1, 0, 9), (1, 1, 9), (1, 2, 0), (2, 1, 9), (5, 5, 9), (5, 6, 0), (0, 1023, 0),
            (0, 1024, 0), (0, 1025, 9), (1023, 1024, 0), (1024, 1024, 9), (1024, 1025, 9), (1025, 1024, 9),
            (0, 2**32, 9), (0, 2**32 + 1, 9), (2**32, 1, 9), (2**32, 2**32 + 1, 9), (0, HALF + 1, 9), (HALF, 1, 9),
            (0, -1, 9), (-1, 0, 9), (-1, 1, 9), (-2, -1, 9), (-1, -1, 9)):
        plan([SEVEN], put=[(21, [first, end])], answer=answer)
    kinds = [0, 0, 0, 4], [1, 1, 0, 4, 5], [2, 1, 0, 4, 5], [3, 0, 1], [4, 0, 1], [5, 0, 1], [6, 1], [7, 1, 2], [8, 0, 1]
    for row in kinds:
        for first, end, answer in ((3, 3, 9), (1023, 1024, 0), (1023, 1025, 9)):
            plan(PAIR_ROWS + [row], put=[(65, [first, end])], answer=answer)
    for place in (21, 43):
        plan(PAIR_ROWS + [[3, 0, 1]], put=[(place, [1, 1])], answer=9)
    plan(PAIR_ROWS + [[3, 0, 1]], SPANS, FOUR, SPANS, put=[(21, [9, 10]), (43, [2, 3]), (65, [500, 501])], answer=0)
    for first, end, answer in ((1, 1, 9), (1023, 1024, 0), (0, 1025, 9)):
        plan([SEVEN] * 128, put=[(2815, [first, end])], answer=answer)
    for place, words in ((43, [0, 1]), (43, [1, 2]), (65, [0, 1]), (2815, [0, 1]), (2815, [1])):
        plan([SEVEN], put=[(place, words)], answer=9)
    for kind in (1, 2):
        plan([[kind, 16, 0] + [3] * 17], SPANS, FOUR, SPANS, put=[(21, [1000, 1024])], answer=0)
    plan([[1, 1, 0, -1, 1]], (2, BUDGET, "e"), put=[(21, [4, 4])], answer=9)
    plan([[1, 1, 0, -1, 1]], (2, BUDGET, "e"), SPANS, put=[(21, [4, 9])], answer=0)


if __name__ == "__main__":
    chains()
    sums()
    products()
    coefficient_lists()
    documents()
    sequences()
    probes()
    texts_of_the_documents()
    grammar_texts()
    strange_bytes()
    text_lengths()
    brackets()
    surplus_brackets()
    numbers()
    exponents()
    node_counts()
    bases()
    size_first()
    smaller_number_first()
    lent_words()
    row_counts()
    lent_plans()
    first_rows()
    third_rows()
    raise_bases()
    document_fills()
    budgets()
    filled_rows()
    wrapping_fills()
    several_calls()
    plans_of_128_rows()
    compiled_documents()
    compiled_settled()
    compiled_limits()
    folded_pairs()
    dropped_units()
    folded_chains()
    folded_raises()
    folded_on_grids()
    folded_products()
    grids()
    refused_headers()
    refused_defaults()
    job_files()
    turns()
    eras()
    drill()
    unset_readings()
    backward_calls()
    there_and_back()
    backward_sums()
    backward_products()
    backward_documents()
    walks()
    spans_of_the_documents()
    bracketed_spans()
    passed_spans()
    deep_spans()
    sound_spans()
