#!/usr/bin/env python3
"""Runs the built program and the oracle on random texts, and compares output and exit status, byte for byte.

    oracle/compare.py [--projects] [COUNT] [SEED] [FIRST]       2000 texts of seed 1 from number 0, where nothing is said

The texts have one method of numbers and truth values, made for the limits of closing, or with --projects all forms of the language; some
are mutants. Each text is made from the seed and its own number alone. A difference is printed with its text; the last line counts.
"""
import pathlib
import random
import re
import subprocess
import sys
from functools import cache, reduce

sys.dont_write_bytecode = True      # leaves no folder of compiled files behind

import oracle                                   # noqa: E402
from closer import NumberedRow, eliminate       # noqa: E402
from projects import project_of                 # noqa: E402
from text import ARROWS                         # noqa: E402

PROGRAM = pathlib.Path(__file__).resolve().parent.parent / "logika"
SECONDS = 120

# An expression to be written: an atom as text, or an operator with its one or two operands.
Tree = str | tuple

# The operators that the program reads, from the loosest level to the tightest.
LEVELS = [("__>:", "___>:"), ("|",), ("&",), ("==", "!="), ("<", "<=", ">", ">="), ("+", "-", "->:", "-->:"),
          ("*", "/", "%")]
LEVEL = {operator: level for level, operators in enumerate(LEVELS) for operator in operators}
COMPARISONS = ["<=", "<", ">=", ">"]
LIMIT = 1 << 60


def number(value: int) -> Tree:
    return str(value) if value >= 0 else ("-", str(-value))


class Maker(random.Random):
    """A source of random choices with the names of a method's parameters, and what is built from them."""

    def names(self, numbers: int, truths: int) -> None:
        self.numbers = self.sample("xyzwabn", numbers)
        self.truths = self.sample("pqrst", truths)
        self.parameters = [(name, "Z") for name in self.numbers] + [(name, "B") for name in self.truths]
        self.shuffle(self.parameters)

    def chance(self, share: float) -> bool:
        return self.random() < share

    def shown(self, tree: Tree, brackets: float, level: int = 0) -> str:
        """The text of a tree with the brackets that it needs at a place of that level, and some more."""
        if isinstance(tree, str):
            text, own = tree, 9
        elif len(tree) == 2:
            text, own = tree[0] + self.shown(tree[1], brackets, 8), 8
        else:
            operator, left, right = tree
            own, arrow = LEVEL[operator], operator in ARROWS
            # An operand of the same chain needs no brackets on the side to which the chain joins.
            same = [LEVEL.get(side[0]) == own and len(side) == 3 and (side[0] in ARROWS) == arrow
                    for side in (left, right)]
            left, right = (self.shown(left, brackets, own + (arrow or not same[0])),
                           self.shown(right, brackets, own + (not arrow or not same[1])))
            text = f"{left} {operator} {right}"
        return f"({text})" if own < level or self.chance(brackets) else text

    def method(self, requires: list[Tree] = [], ensures: list[Tree] = [], statements: list[tuple] = [],
               returned: tuple[str, Tree] | None = None, brackets: float = 0.05) -> str:
        """A method; a statement is a claim to assert, or a name with its type and value."""
        result = returned[0] if returned else "Unit"
        lines = [f"def f({', '.join(f'{name}: {type_}' for name, type_ in self.parameters)}): {result} = {{"]
        lists = [f"{word}({', '.join(self.shown(claim, brackets) for claim in claims)})"
                 for word, claims in (("Requires", requires), ("Ensures", ensures)) if claims]
        if lists:
            lines.append(f"  Contract({', '.join(lists)})")
        for kind, *name, tree in statements:
            text = self.shown(tree, brackets)
            lines.append(f"  val {name[0]}: {name[1]} = {text}" if kind == "val" else f"  assert({text})")
        if returned:
            lines.append(f"  return {self.shown(returned[1], brackets)}")
        return "\n".join(lines) + "\n}\n"

    def total(self, addends: list[Tree]) -> Tree:
        return reduce(lambda left, right: ("-", left, right[1]) if right[0] == "-" and len(right) == 2
                      else ("+", left, right), addends) if addends else "0"

    def multiple(self, count: int, atom: Tree) -> Tree:
        if abs(count) == 1:
            return atom if count > 0 else ("-", atom)
        return ("*", number(count), atom) if self.chance(0.8) else ("*", atom, number(count))

    def at_most(self, times: list[int], bound: int, atoms: list[Tree]) -> Tree:
        """That a sum is at most a bound, written in some way."""
        here, there = [], []
        for index in self.sample(range(len(times)), len(times)):
            if times[index] and self.chance(0.75):
                here.append(self.multiple(times[index], atoms[index]))
            elif times[index]:
                there.append(self.multiple(-times[index], atoms[index]))
        left = self.total(here)
        same, more = (self.total([*there, number(it)] if it or not there else there) for it in (bound, bound + 1))
        return self.choice([("<=", left, same), ("<=", left, same), (">=", same, left), ("<", left, more),
                            (">", more, left), ("!", (">", left, same)), ("!", ("<", same, left))])

    def times(self, count: int, largest: int, some: int) -> list[int]:
        chosen = self.sample(range(count), min(some, count))
        return [self.choice([-1, 1]) * self.randint(1, largest) if index in chosen else 0 for index in range(count)]

    def claim(self, largest: int = 5) -> Tree:
        """A linear claim over the numbers in scope."""
        left = self.at_most(self.times(len(self.numbers), largest, 2), self.randint(-6, 6), self.numbers)
        return left if len(left) == 2 or self.chance(0.7) else (self.choice(["==", "!="]), *left[1:])

    def value(self, depth: int) -> Tree:
        """A number with divisions in it."""
        if depth == 0 or self.chance(0.15):
            return self.choice([*self.numbers, *self.numbers, "0", "1", "2", "7"])
        operator = self.choice("//%%+-*")
        by = [number(self.randint(-3, 6)), self.value(depth - 1)] if operator in "/%" else [self.value(depth - 1)]
        return (operator, self.value(depth - 1), self.choice(by))


@cache
def tied_systems() -> list[list[NumberedRow]]:
    """Rows whose answer changes where their variables are taken in the other order."""
    source, found = Maker(60), []
    while len(found) < 80:
        count = source.choice([2, 2, 3])
        rows = [(tuple(source.times(count, source.choice([5, 7, 9]), source.choice([2, count]))), source.randint(-6, 6))
                for _ in range(count + source.choice([1, 1, 2]))]
        if eliminate(rows, count) != eliminate([(times[::-1], bound) for times, bound in rows], count):
            found.append(rows)
    return found


# ---------------------------------------------------------------- the kinds of texts

def cuts(make: Maker) -> str:
    """Rows that meet near a point of fractions, so that closing depends on cuts."""
    count, below = make.choice([2, 2, 3, 3, 4]), make.choice([1, 2, 3, 5])
    make.names(count, 0)
    point = [make.randint(-6, 6) for _ in range(count)]
    claims = []
    for _ in range(make.randint(count, count + 5)):
        times = make.times(count, make.choice([2, 3, 5, 12]), make.choice([1, 2, 2, 3]))
        bound = sum(one * other for one, other in zip(times, point)) // below + make.choice([0, 0, 0, 1, -1, 2, -2, 3])
        claims.append(make.at_most(times, bound, make.numbers))
    if make.chance(0.5):
        return make.method(claims, ["F"])
    return make.method(claims[:-1], [claims[-1] if make.chance(0.5) else ("!", claims[-1])])


def orders(make: Maker) -> str:
    """Rows over atoms of all kinds, whose closing depends on the order of atoms: that of reading, or that of trees."""
    rows = make.choice(tied_systems())
    if make.chance(0.3):
        rows = [(tuple(make.times(3, 5, 2)), make.randint(-6, 6)) for _ in range(make.randint(2, 6))]
    count = len(rows[0][0])
    make.names(max(count, make.choice([2, 3])), 0)
    one, other = make.numbers[:2]
    some = [number(make.choice([0, 1, 2, 3, 4, 7, 12, -1, -3, -12])) for _ in range(10)]
    atoms = [one, other, ("*", one, other), ("*", one, one), ("*", one, ("+", other, some[0])), ("/", one, other),
             ("/", other, one), ("%", one, other), ("/", one, some[1]), ("%", one, some[2]), ("%", other, some[3]),
             ("/", some[4], one), ("%", some[5], other), ("/", ("+", one, some[6]), other), ("*", other, one),
             ("*", ("/", one, "2"), other), ("/", ("/", one, "2"), some[7]), ("/", ("+", one, other), some[8])]
    atoms = make.sample(make.numbers if make.chance(0.4) else atoms, count)
    claims = [make.at_most(list(times), bound, atoms) for times, bound in rows]
    ensures = ["F"] if make.chance(0.7) else [("!", claims.pop())]
    statements = [("val", "u", "Z", ("+", *make.sample(make.numbers, 2)))] if make.chance(0.2) else []
    return make.method(claims, ensures, statements, brackets=0)


def counts(make: Maker) -> str:
    """Claims whose cases are 512, or a few more or less."""
    make.names(1, 3)

    def literal() -> Tree:
        name = make.choice(make.truths)
        return make.choice([name, name, ("!", name), ("<=", make.numbers[0], number(make.randint(-3, 3)))])

    def claim(cases: int) -> Tree:
        if cases == 1:
            return literal()
        if cases == 2 and make.chance(0.5):
            return make.choice([(make.choice(["==", "!="]), literal(), literal()), ("!=", make.numbers[0], "1")])
        if cases % 2 == 0 and make.chance(0.3):
            return ("&", claim(2), claim(cases // 2))
        first = make.randint(1, cases - 1)
        left, right = claim(first), claim(cases - first)
        return make.choice([("|", left, right), (make.choice(ARROWS), ("!", left), right),
                            ("!", ("&", ("!", left), ("!", right)))])

    left, claims = make.choice([512, 512, 513, 504, 507, 514, 516, 520, 540]), []
    while left > 1:
        factor = make.choice([it for it in range(2, left + 1) if left % it == 0][:3])
        claims.append(claim(factor))
        left //= factor
    goal = make.choice([make.choice(claims), literal(), "T"])
    return make.method(claims, [goal], [("assert", goal)] if make.chance(0.3) else [], brackets=0)


def endings(make: Maker) -> str:
    """Cases that end differently, so that the first which is not closed decides."""
    make.names(3, 3)
    one, two, three = make.numbers

    def truth() -> Tree:
        name = make.choice(make.truths)
        return name if make.chance(0.5) else ("!", name)

    def literal() -> Tree:
        if make.chance(0.35):
            return truth()
        big = str(LIMIT - make.choice([0, 0, 1]))
        product = ("*", big, one) if make.chance(0.5) else ("*", one, big)
        wide = make.choice([("<=", product, ("-", one)), (">", ("-", one), product)])
        return make.choice([wide, wide, wide, ("!=", two, three), ("<", two, two), "F", make.claim(3)])

    def claim() -> Tree:
        left, right = (("&", truth(), literal()) if make.chance(0.6) else literal() for _ in range(2))
        operator = make.choice(["|", "|", "==", "!=", make.choice(ARROWS)])
        return make.choice([(operator, left, right)] * 4 + [("!", ("&", left, right)), ("!=", two, three), left])

    claims = [claim() for _ in range(make.randint(1, 3))]
    goal = make.choice([truth(), truth(), ("&", truth(), literal()), claim(), "F", ("|", claims[0], literal())])
    return make.method(claims, [goal], [("assert", goal)] if make.chance(0.2) else [])


def divisions(make: Maker) -> str:
    """Divisions in values and results, behind the arrows that guard their right side and behind others."""
    make.names(2, 1)
    requires = [(make.choice(["!=", ">", "<", ">="]), name, "0") for name in make.numbers if make.chance(0.4)]

    def truth(depth: int) -> Tree:
        if depth == 0:
            by = make.choice(make.numbers)
            guard = (make.choice(["!=", ">", "<", ">=", "=="]), by, make.choice("001"))
            quotient = (make.choice(COMPARISONS), (make.choice("/%"), make.choice(["7", *make.numbers]), by), "1")
            return make.choice([guard, quotient, (make.choice(ARROWS), guard, quotient), make.truths[0]])
        operator = make.choice(["-->:", "___>:", "-->:", "___>:", "->:", "__>:", "&", "|", "=="])
        return (operator, truth(depth - 1), truth(depth - 1))

    statements = []
    for name in make.sample(["u", "v"], make.randint(0, 2)):
        statements.append(("val", name, "Z", make.value(make.choice([1, 2, 3]))))
        make.numbers = [*make.numbers, name]
    if make.chance(0.5):
        return make.method(requires, [("==", "Res", "Res")], statements, ("B", truth(make.choice([1, 1, 2]))))
    name, by = make.choice(make.numbers[:2]), make.randint(1, 5)
    ensures = [("<=", ("*", str(by), "Res"), ("+", name, str(make.randint(0, by))))]
    return make.method(requires, ensures, statements, ("Z", make.choice([("/", name, str(by)), make.value(2)])))


def large(make: Maker) -> str:
    """Numbers near 2^60, in a text, in a row, or in a sum of two rows."""
    make.names(make.choice([1, 2, 3]), 0)

    def big() -> str:
        return str(make.choice([LIMIT - 2, LIMIT - 1, LIMIT, LIMIT + 1, LIMIT // 2, LIMIT // 3, (1 << 30) + 1, 1 << 31,
                                (1 << 127) - 1, make.randint(1, LIMIT), 0, 1, 2, 3, 5]))

    def claim() -> Tree:
        some = make.sample(make.numbers, make.randint(1, len(make.numbers)))
        left = make.total([make.choice([name, ("*", big(), name), ("-", ("*", big(), name))]) for name in some])
        right = make.choice([big(), ("-", big()), (make.choice("+*%"), big(), big()), some[0], ("/", some[0], big())])
        return (make.choice([*COMPARISONS, "==", "!="]), left, right)

    statements = [("assert", claim()), ("val", "v", "Z", ("*", big(), big()))][:make.choice([0, 0, 1, 2])]
    return make.method([claim() for _ in range(make.randint(0, 4))], [make.choice(["F", "T", claim()])], statements)


def shared(make: Maker) -> str:
    """Terms of about 20,000 nodes, made of values that are used twice."""
    make.names(2, 1)
    name, other = make.numbers
    statements, built, size, wanted = [], [(name, 1)], 1, make.randint(19_990, 20_003)
    while 2 * size + 1 < wanted:
        value, name, size = (make.choice("+-"), name, name), f"v{len(built)}", 2 * size + 1
        statements.append(("val", name, "Z", value))
        built.append((name, size))
    last: Tree = name
    for part, nodes in reversed(built):
        while size + nodes + 1 <= wanted:
            last, size = ("+", last, part), size + nodes + 1
    statements.append(("val", "last", "Z", last))
    divided = make.choice([("/", "1", "last"), ("%", "last", other), ("/", "last", "2"), ("-", "last")])
    claims = [(operator, "last", side) for operator in ("<=", "==", "!=", ">") for side in ("last", other)]
    claims += [("->:", make.truths[0], ("<=", "last", "last")), ("<=", ("-", "last", "last"), "0")]
    statements.append(make.choice([("val", "more", "Z", divided), ("assert", make.choice(claims))]))
    return make.method(["F"] if make.chance(0.3) else [], ["T"], statements, brackets=0)


def operators(make: Maker) -> str:
    """Operators of all levels without the brackets that they may need, with some that they do not need."""
    make.names(2, 3)
    mixed, tokens = make.chance(0.2), []
    for last in [False] * make.randint(1, 6) + [True]:
        tokens += [make.choice("!(") for _ in range(make.choice([0, 0, 0, 1, 2]))]
        sides = [" ".join([make.choice(make.numbers), make.choice("+-*/%" if mixed else "*%"), "3"]) for _ in range(2)]
        comparison = f"{sides[0]} {make.choice(COMPARISONS)} -{sides[1]}"
        tokens.append(make.choice([*make.truths, f"({comparison})" if tokens[-1:] == ["!"] else comparison]))
        opened = tokens.count("(") - tokens.count(")")
        tokens += [")"] * (opened if last else make.randint(0, opened))
        if not last:
            tokens.append(make.choice([*ARROWS, "&", "|", "==", "!=", *(["+", "*", "<", ">="] if mixed else [])]))
    if make.chance(0.05):
        tokens = [make.choice([" & ", " ->: "]).join(make.truths[:1] * make.randint(196, 202))]
    expression = " ".join(tokens)
    text = make.method([("&", (">", make.numbers[0], "0"), make.truths[0])], [("|", "Res", ("!", "Res"))],
                       [("val", "v", "B", expression)] if make.chance(0.5) else [], ("B", expression), 0)
    return laid_out(make, text) if make.chance(0.5) else text


def pieces(text: str) -> list[str]:
    return re.findall(r"_*->:|_+>:|-+>:|\w+|[=!<>]=|\s|.", text)


def laid_out(make: Maker, text: str) -> str:
    """The text with other blanks and newlines, some where they change how it is read."""
    share = make.choice([0.03, 0.1, 0.3])
    blanks = [" ", "\n", "\n\n", ";", "\t", "\r\n", " /* \n */ ", "// note\n", " ;\n"]
    return "".join(make.choice(blanks) if piece in " \n" and make.chance(share) else
                   piece + "\n" * make.chance(share / 5) for piece in pieces(text))


OTHERS = """( ) { } [ , ; : . = => == ! - / % && ___>: -> x y p 0 007 T Z Unit Res val return assert Requires else match
_ # // /* */ \u00e9 \u5909 \u2200 \u00a0 170141183460469231731687303715884105727 170141183460469231731687303715884105728
""".split() + ["\n", " ", "\x00"]


def mutated(make: Maker) -> str:
    """A text of another kind with some tokens left out, doubled, exchanged or replaced."""
    text = pieces(make.choice([cuts, orders, divisions, endings, operators])(make))
    for _ in range(make.choice([1, 1, 1, 2, 3])):
        solid = [index for index, piece in enumerate(text) if piece != " "]
        one, other = make.choice(solid), make.choice(solid)
        text[one], text[other] = make.choice([("", text[other]), (f"{text[one]} {text[one]}", text[other]),
                                              (text[other], text[one]), (make.choice(OTHERS), text[other]),
                                              (text[one] + make.choice(OTHERS), text[other])])
    return "".join(text)


KINDS = {cuts: 16, orders: 24, counts: 8, endings: 16, divisions: 16, large: 8, shared: 3, operators: 14,
         mutated: 9}


def text_of(seed: int, index: int) -> tuple[str, bytes]:
    make = Maker(f"{seed} {index}")
    kind = make.choices(list(KINDS), list(KINDS.values()))[0]
    return kind.__name__, kind(make).encode()


def project_text(seed: int, index: int) -> tuple[str, bytes]:
    kind, text = project_of(seed, index)
    return kind, text.encode()


def main() -> int:
    makes_projects = sys.argv[1:2] == ["--projects"]
    words = [int(word) for word in sys.argv[1 + makes_projects:]]
    count, seed, first = words + [2000, 1, 0][len(words):]
    differ = 0
    for index in range(first, first + count):
        kind, text = project_text(seed, index) if makes_projects else text_of(seed, index)
        output, status = oracle.check(text)
        wanted = (output.encode(), status)
        try:
            done = subprocess.run([PROGRAM, "check"], input=text, capture_output=True, timeout=SECONDS)
            got = (done.stdout, done.returncode)
        except subprocess.TimeoutExpired:
            got = (b"no end", SECONDS)
        if got != wanted:
            differ += 1
            print(f"text {index} of seed {seed}, {kind}: the program has {got}, the oracle {wanted}")
            print(text.decode(), flush=True)
    print(f"{count} compared, {differ} differ")
    return 1 if differ else 0


if __name__ == "__main__":
    sys.exit(oracle.on_deep_stack(main))
