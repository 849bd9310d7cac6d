#!/usr/bin/env python3
"""Worked rows of the rules, tried on this second reading.

What `check` prints, how `run` ends, which step of a proof is refused, and why.

    oracle/rows.py [WORD..]         the rows whose names hold one of the words, or all
"""
from __future__ import annotations

import pathlib
import re
import sys

sys.dont_write_bytecode = True
sys.setrecursionlimit(1_000_000)

import trees                                        # noqa: E402
from arguments import argument                      # noqa: E402
from closer import Closer, Sequent                  # noqa: E402
from program import Typed                           # noqa: E402
from proofs import TermStep, refused_step           # noqa: E402
from runs import run                                # noqa: E402
from terms import Terms                             # noqa: E402
from text import TextFault                          # noqa: E402
from whole import report                            # noqa: E402

EXAMPLES = pathlib.Path(__file__).resolve().parent.parent / "examples"
CONTROLLERS, PROOFS = EXAMPLES / "controllers", EXAMPLES / "proofs"
BURN = CONTROLLERS / "burn.sc"
DOCUMENTS = EXAMPLES.parent / "docs"
SHOWN = re.compile(r"```scala\n(.*?)```\n\n```\n(.*?)```", re.S)

# ---------------------------------------------------------------- texts


def method(head: str, contract: str = "", *body: str) -> str:
    """A method in the layout of one clause and one statement a line."""
    lines = [f"def {head} = {{"]
    clauses = contract.split("; ") if contract else []
    if clauses:
        lines += ["  Contract(", *[f"    {it}," for it in clauses[:-1]], f"    {clauses[-1]}", "  )"]
    return "\n".join([*lines, *("  " + line for line in body), "}"]) + "\n"


def inc(ensures: str) -> str:
    return method("inc(x: Z): Z", f"Requires(x >= 0); Ensures({ensures})", "return x + 1")


INC = inc("Res == x + 1")
SPIN = method("spin(x: Z): Z", "Ensures(F)", "val y: Z = spin(x)", "return y")


def count(step: str) -> str:
    loop = ["while (i < n) {", "  Invariant(", "    Modifies(i),", "    i <= n", "  )", f"  i = i + {step}", "}"]
    return method("count(n: Z): Z", "Requires(n >= 0); Ensures(Res == n)", "var i: Z = 0", *loop, "return i")


def swap(cited: str) -> str:
    steps = ["  1 (p & q) by Premise,", "  2 (q) by AndE2(1),", "  3 (p) by AndE1(1),", f"  4 (q & p) by AndI({cited})"]
    return method("swap(p: B, q: B): Unit", "Requires(p & q)", "Deduce(", *steps, ")")


def ranged(assumed: str, rule: str) -> str:
    block = ["  2 Let((k: Z) => SubProof(", f"    3 Assume({assumed}),", f"    4 (a(k) > 0) by {rule},",
             "    5 (a(k) >= 1) by Algebra(4)", "  )),"]
    return method("r(a: ISZ[Z]): Unit", "Requires(All(a.indices)(i => a(i) > 0))", "Deduce(",
                  "  1 (All(a.indices)(i => a(i) > 0)) by Premise,", *block,
                  "  6 (All(a.indices)(j => a(j) >= 1)) by AllI(2)", ")")


def bases(ensures: str) -> str:
    return (method("base(): Z", f"Ensures(Res >= {ensures})", "return 7")
            + method("top(): Z", "Ensures(Res >= 6)", "val y: Z = base()", "return y + 1"))


def branches(number: int) -> str:
    return method("m(b: B): Unit", "", *["if (b) {", "}"] * number)


def bump(modifies: str) -> str:
    return "var g: Z = 0\n" + method("bump(): Unit", f"{modifies}Ensures(g > In(g))", "g = g + 1",
                                     "Deduce(1 (g == Old(g) + 1) by Auto)")


def indices(last: int) -> str:
    claims = ", ".join(f"a({it}) >= 0" for it in range(last + 1))
    return method("i(a: ISZ[Z]): Unit", f"Requires(All(a.indices)(k => a(k) >= 0), {claims})", "assert(a(0) >= 0)")


def doublings(last: int) -> list[str]:
    """Values each of which takes the one before it twice."""
    before = ["p", *(f"a{it}" for it in range(1, last))]
    return [f"val a{place}: B = {it} & {it}" for place, it in enumerate(before, 1)]


def doubled(last: int) -> str:
    return method("big(p: B): Unit", "", *doublings(last))


def alternatives(number: int) -> str:
    return method("c(p: B, q: B): Unit", f"Requires({', '.join(['p | q'] * number)}); Ensures(p | q)")


def called_up() -> str:
    up = method("up(): Unit", "Modifies(g); Ensures(g > In(g))", "g = g + 1")
    return "var g: Z = 0\n" + up + method("use(): Unit", "Modifies(g)", "g = 1", "up()", "assert(g == 1)")


def sum_of(operators: int) -> str:
    """A sum of ones so high, of which at most 190 stand in one pair of brackets."""
    text = "1"
    while operators:
        here = min(operators, 190)
        text = ("(" + text + ")" if len(text) > 1 else text) + " + 1" * here
        operators -= here
    return text


def high(operators: int, ty: str = "Z", before: str = "") -> str:
    return f"def h(): Unit = {{\n{before}  val y: {ty} = {sum_of(operators)}\n}}"


def keep(ensures: str) -> str:
    return method("keep(p: B, q: B): Unit", f"Requires(p & q); Ensures({ensures})")


def both(ensures: str) -> str:
    return method("both(p: B, q: B): B", f"Requires(p & q); Ensures({ensures})", "val r: B = p & q", "assert(r)",
        "return r")


def one(name: str, rest: str) -> str:
    """The report on one method, whose line is told without the rest of the report."""
    return f"{name} {rest} / methods 1 verified {int(rest == 'verified')}"


INDEX = "  Contract(Requires(0 <= i, i < a.size))\n"
CHECKS = {
    "empty": ("", "methods 0 verified 0"),
    "successor": (INC, one("inc", "verified")),
    "successor, too great": (inc("Res > x + 1"), one("inc", "unproved -:4:13 ensures open")),
    "odd is not even": (
        method("odd(x: Z, y: Z): Z", "Requires(2 * x == 2 * y + 1); Ensures(F)", "return x"), one("odd", "verified")),
    "square": (method("sq(x: Z): Z", "Ensures(Res >= 0)", "return x * x"), one("sq", "unproved -:3:13 ensures open")),
    "read": ("def at(a: ISZ[Z], i: Z): Z = {\n  return a(i)\n}", one("at", "unproved -:2:10 index open")),
    "read within": (f"def at(a: ISZ[Z], i: Z): Z = {{\n{INDEX}  return a(i)\n}}", one("at", "verified")),
    "update": (
        "def put(a: ISZ[Z], i: Z, v: Z): Unit = {\n  assert(a(i ~> v)(i) == v)\n}",
        one("put", "unproved -:2:10 assert open")),
    "update within": (
        f"def put(a: ISZ[Z], i: Z, v: Z): Unit = {{\n{INDEX}  assert(a(i ~> v)(i) == v)\n}}", one("put", "verified")),
    "loop by two": (count("2"), one("count", "unproved -:10:7 invariant-kept open")),
    "loop by one": (count("1"), one("count", "verified")),
    "without end": (SPIN, one("spin", "verified")),
    "swap": (swap("2, 3"), one("swap", "verified")),
    "swap, wrong order": (swap("3, 2"), one("swap", "unproved -:5:3 deduce step 4")),
    "range": (ranged("0 <= k & k < a.size", "AllE(1, 3)"), one("r", "verified")),
    "range, assumes more": (ranged("k == 0 & a.size > 0", "Auto"), one("r", "unproved -:5:3 deduce step 6")),
    "callee": ({"f.sc": bases("5")}, "base verified / top verified / methods 2 verified 2"),
    "callee, weaker": (
        {"f.sc": bases("4")}, "base verified / top unproved f.sc:9:13 ensures open / methods 2 verified 1"),
    "nine branches": (branches(9), "m legs many / methods 1 verified 0"),
    "eight branches": (branches(8), one("m", "verified")),
    "wide": (
        "def big(x: Z): Unit = {\n  assert(x < 2305843009213693952)\n}", one("big", "unproved -:2:10 assert wide")),
    "literal": (
        "def big(x: Z): Unit = {\n  assert(x < 170141183460469231731687303715884105728)\n}",
        "-:2:14 E3 literal outside 128 bits"),
    "burn controller": (
        BURN,
        "clamp verified / closeAll verified / plan verified / ready verified / spend verified / step verified"
        " / methods 6 verified 6"),
    "two files": (
        {"b.sc": "val t: Z = T\n", "a.sc": "def f(): Z = {\n  return y\n}\n"},
        "a.sc:2:10 E6 unknown name / b.sc:1:12 E8 type differs"),
    "record behind its constant": (
        {"a.sc": "val c: R = R(1)\n", "b.sc": "@datatype class R(x: Z)\n"}, "methods 0 verified 0"),
    "global applied in a constant": ("val b: Z = a(1)\nval a: Z = 0\n", "-:1:12 E12 call in the wrong place"),
    "no invariant": ("def w(): Unit = {\n  while (T) {\n  }\n}", "-:3:3 E13 loop without Invariant"),
    "call in return": (INC + "def u(): Z = {\n  return inc(1)\n}", "-:9:10 E12 call in the wrong place"),
    "old and entry value": (bump("Modifies(g); "), one("bump", "verified")),
    "outside Modifies": (bump(""), "-:6:3 E11 outside Modifies"),
    "keep": (keep("q"), one("keep", "verified")),
    "keep, wrong": (keep("!q"), one("keep", "unproved -:4:13 ensures open")),
    "both": (both("Res | !q"), one("both", "verified")),
    "both, wrong": (both("Res & !q"), one("both", "unproved -:4:13 ensures open")),
    "term of 32,767 nodes": (doubled(14), one("big", "unproved -:15:3 term size")),
    "term of 16,383 nodes": (doubled(13), one("big", "verified")),
    "1,024 cases": (alternatives(10), one("c", "unproved -:4:13 ensures cases")),
    "512 cases": (alternatives(9), one("c", "verified")),
    "minus begins a statement": (
        "def f(x: Z): Z = {\n  val y: Z = x\n  - 1\n  return y\n}", "-:3:3 E4 unexpected token"),
    "minus ends a line": ("def f(x: Z): Z = {\n  val y: Z = x -\n  1\n  return y\n}", one("f", "verified")),
    "arrow beside plus": ("def g(p: B, x: Z): Unit = {\n  assert(p ->: x + 1 == 2)\n}", "-:2:18 E4 unexpected token"),
    "modified by a callee": (called_up(), "up verified / use unproved -:15:10 assert open / methods 2 verified 1"),
    "65 instances": (indices(64), one("i", "unproved -:5:10 assert instances")),
    "64 instances": (indices(63), one("i", "unproved -:5:10 assert cases")),
    "cut off": ("def inc(x: Z", "-:1:13 E4 unexpected token"),
    "198 brackets": (f"def n(): Z = {{\n  return {'(' * 198}1{')' * 198}\n}}", one("n", "verified")),
    "199 brackets": (f"def n(): Z = {{\n  return {'(' * 199}1{')' * 199}\n}}", "-:2:208 E5 nesting above 200"),
    "height 1,000": (high(999), one("h", "verified")),
    "height 1,001": (high(1000), "-:2:19 E5 nesting above 200"),
    "too high, and of another type": (high(1000, "B"), "-:2:19 E5 nesting above 200"),
    "too high behind another fault": (high(1000, before="  val x: Z = z\n"), "-:2:14 E6 unknown name"),
    "not UTF-8": (b"def \xff", "-:1:5 E1 not UTF-8"),
    "open comment": ("/*", "-:1:1 E2 bad character"),
    "record made before it is declared": ("val w: V = V(3)\n@datatype class V(n: Z)\n", "methods 0 verified 0"),
    "sequence of sequences of nothing": ("def f(a: ISZ[ISZ[Q]]): Unit = { }", "-:1:14 E8 type differs"),
    "method in a constant before it is declared": (
        "val a: Z = f(1)\ndef f(x: Z): Z = {\n  return x\n}", "-:1:12 E12 call in the wrong place"),
    # beyond the worked rows: one for each sentence on legs that none of them needs
    "guards of divisions": (
        method("g(x: Z, y: Z): B", "", "return (x != 0) -->: (y == 0 || 1 / x + 6 / y > 0)"), one("g", "verified")),
    "no guard by a claim's arrow": (
        method("g(x: Z): B", "", "return (x != 0) ->: (1 / x > 0)"), one("g", "unproved -:2:24 division open")),
    "entry value at a call": (
        "var g: Z = 0\n"
        + method("up(n: Z): Z", "Requires(n > 0); Modifies(g); Ensures(g == In(g) + n, Res == In(g))",
              "val was: Z = g", "g = g + n", "return was")
        + method("use(): Unit", "Modifies(g)", "g = 4", "val r: Z = up(3)", "assert(r == 4 & g == 7)"),
        "up verified / use verified / methods 2 verified 2"),
    "Requires at a call": (
        INC + method("use(y: Z): Z", "", "val r: Z = inc(y)", "return r"),
        "inc verified / use unproved -:9:14 requires open / methods 2 verified 1"),
    "legs of a branch in order": (
        method("b(p: B): Unit", "", "if (p) {", "  assert(F)", "} else {", "  assert(!p)", "  assert(p)", "}"),
        one("b", "unproved -:3:12 assert open")),
    "each path alone": (
        method("b(p: B): Z", "Ensures(Res >= 1)", "var r: Z = 0", "if (p) {", "  r = 1", "} else {", "  r = 2", "}",
            "return r"), one("b", "verified")),
    "before a loop is forgotten": (
        method("l(n: Z): Unit", "", "var i: Z = 0", "while (i < n) {", "  Invariant(Modifies(i))", "  i = i + 1", "}",
            "assert(i >= n)", "assert(i == 0)"), one("l", "unproved -:8:10 assert open")),
    "test of a loop by its invariant": (
        method("l(n: Z): Unit", "", "var i: Z = 1", "while (6 / i > 2) {", "  Invariant(Modifies(i), i >= 1)",
            "  i = i + 1", "}"), one("l", "verified")),
    "first invariant": (
        method("l(n: Z): Unit", "", "var i: Z = n", "while (F) {", "  Invariant(Modifies(i), i >= n, i > n)", "}"),
        one("l", "unproved -:4:36 invariant-start open")),
    "constants": (
        "val c: Z = 3\nvar g: Z = 3\n" + method("k(): Unit", "", "assert(c == 3)", "assert(g == 3)"),
        one("k", "unproved -:5:10 assert open")),
    "old before the last change": (
        "var g: Z = 0\n" + method("o(): Unit", "Modifies(g)", "g = 1", "g = 2", "Deduce(1 (Old(g) == 1) by Auto)"),
        one("o", "verified")),
    "old of what was not changed": (
        "var g: Z = 0\n" + method("o(): Unit", "", "Deduce(1 (Old(g) == g) by Auto)"), one("o", "verified")),
    "claims of a proof are facts": (
        method("d(p: B, q: B): Unit", "Requires(p, p ->: q)", "Deduce(", "  1 (p) by Premise,",
            "  2 (p ->: q) by Premise,", "  3 (q) by ImplyE(2, 1)", ")", "assert(q)"), one("d", "verified")),
    "claims of a block are none": (
        method("d(p: B): Unit", "", "Deduce(1 SubProof(2 Assume(p), 3 (p) by Auto))", "assert(p)"),
        one("d", "unproved -:3:10 assert open")),
    "no block at the end of a block": (
        method("d(p: B): Unit", "",
            "Deduce(1 SubProof(2 Assume(p), 3 SubProof(4 Assume(p))), 5 (p ->: p) by ImplyI(1))"),
        one("d", "unproved -:2:3 deduce step 5")),
    "a block without a step": (
        method("d(p: B): Unit", "", "Deduce(1 SubProof(2 Assume(p)), 3 (p ->: p) by ImplyI(1))"),
        one("d", "verified")),
    "a label of an ended block": (
        method("d(p: B): Unit", "", "Deduce(1 SubProof(2 Assume(p), 3 (p) by Auto), 4 (p) by AndE1(3))"),
        one("d", "unproved -:2:3 deduce step 4")),
    "algebra knows no facts": (
        method("d(x: Z): Unit", "Requires(x > 0)", "Deduce(1 (x > 0) by Premise, 2 (x >= 1) by Algebra)"),
        one("d", "unproved -:5:3 deduce step 2")),
    "premises are no assumptions": (
        method("d(p: B): Unit", "", "Deduce(1 SubProof(2 Assume(p), 3 (p) by Premise))"),
        one("d", "unproved -:2:3 deduce step 3")),
    "replaced from the top down": (
        method("d(x: Z): Unit", "Requires(x == x + 1 - 1, x > 0)", "Deduce(", "  1 (x == x + 1 - 1) by Premise,",
            "  2 (x > 0) by Premise,", "  3 (x + 1 - 1 > 0) by Subst_>(1, 2),", "  4 (x > 0) by Subst_<(1, 3)", ")"),
        one("d", "verified")),
    "a proof with a large term": (
        method("big(p: B): Unit", "", *doublings(13), "Deduce(1 (a13 & a13) by Auto)"),
        one("big", "unproved -:15:3 deduce size")),
    "a claim with a large term": (
        method("big(p: B): Unit", "", *doublings(13), "assert(a13 & a13)"),
        one("big", "unproved -:15:10 assert size")),
    "an assumption with a large term": (
        method("big(p: B): Unit", "", *doublings(13), "if (a13 & a13) {", "  assert(F)", "}"),
        one("big", "unproved -:15:3 term size")),
    "else with if": (
        method("e(x: Z): Z", "Ensures(Res == 1)", "var r: Z = 0", "if (x < 0) {", "  r = 1", "} else if (x > 0) {",
            "  r = 1", "}", "return r"), one("e", "unproved -:3:13 ensures open")),
    "old before the first change": (
        method("o(): Unit", "", "var x: Z = 1", "Deduce(1 (Old(x) == x) by Auto)"),
        one("o", "unproved -:3:3 deduce step 1")),
    "old before a loop": (
        method("o(n: Z): Unit", "", "var i: Z = 5", "while (i < n) {", "  Invariant(Modifies(i), i >= 5)",
            "  i = i + 1", "}", "Deduce(1 (Old(i) == 5 & i >= Old(i)) by Auto)"), one("o", "verified")),
    "disjunction": (
        method("d(p: B, q: B): Unit", "Requires(p | q)", "Deduce(1 (p | q) by Premise,",
            "2 SubProof(3 Assume(p), 4 (q | p) by OrI2(3)),", "5 SubProof(6 Assume(q), 7 (q | p) by OrI1(6)),",
            "8 (q | p) by OrE(1, 2, 5))"), one("d", "verified")),
    "contradiction": (
        method("d(p: B): Unit", "Requires(!(!p))", "Deduce(1 (!(!p)) by Premise,",
            "2 SubProof(3 Assume(!p), 4 (F) by NegE(3, 1)), 5 (p) by PbC(2),",
            "6 SubProof(7 Assume(!p), 8 (F) by NegE(7, 1)), 9 (!(!p)) by NegI(6))"), one("d", "verified")),
    "existence": (
        method("d(a: ISZ[Z], n: Z): Unit", "Requires(Exists(0 until n)(i => a(i) > 0))", "Deduce(",
            "1 (Exists(0 until n)(i => a(i) > 0)) by Premise,",
            "2 Let((k: Z) => SubProof(3 Assume((0 <= k & k < n) & a(k) > 0),", "4 (0 <= k & k < n) by AndE1(3),",
            "5 (a(k) > 0) by AndE2(3), 6 (a(k) >= 1) by Algebra(5),",
            "7 (Exists(0 until n)(j => a(j) >= 1)) by ExistsI(4, 6))),",
            "8 (Exists(0 until n)(j => a(j) >= 1)) by ExistsE(1, 2))"), one("d", "verified")),
}

# ---------------------------------------------------------------- runs

LEAST, GREATEST = str(-(1 << 127)), str((1 << 127) - 1)


def q(value: str) -> str:
    return f"def q(): Z = {{\n  return {value}\n}}"


def divided(sign: str) -> str:
    return f"def m(a: Z, b: Z): Z = {{\n  return a {sign} b\n}}"


VISITS = "def w(n: Z): Unit = {\n  assert(All(0 until n)(i => i >= 0))\n}"
VALVES = "ISZ(Valve(T, 3), Valve(T, 4))"
RUNS = {
    "without end": (SPIN, "spin 1000 0", "going"),
    "wide": (INC, f"inc 10 {GREATEST}", "wide -:6:10"),
    "requires": (INC, "inc 10 -1", "fails requires -:1:5"),
    "no turn": (INC, "inc 0 1", "going"),
    "one turn": (INC, "inc 1 1", "ended 2"),
    "quotient": (q("-7 / 2"), "q 10", "ended -3"),
    "remainder": (q("-7 % 2"), "q 10", "ended -1"),
    "by zero": (q("1 / 0"), "q 10", "fails division -:2:10"),
    "least by minus one, remainder": (divided("%"), f"m 10 {LEAST} -1", "ended 0"),
    "least by minus one": (divided("/"), f"m 10 {LEAST} -1", "wide -:2:10"),
    "one argument of two": (divided("%"), "m 10 1", "arguments"),
    "no such method": (divided("%"), "n 10", "arguments"),
    "a million visits": (VISITS, "w 10 1000000", "ended ()"),
    "one visit more": (VISITS, "w 10 1000001", "visits -:2:10"),
    "burn controller": (BURN, ["step", "23", VALVES, "25"], "ended 990"),
    "burn controller, a turn less": (BURN, ["step", "22", VALVES, "25"], "going"),
    # beyond the worked rows
    "turns of clamp": (BURN, "clamp 4 12", "ended 10"),
    "turns of plan": (BURN, "plan 6 12", "ended Burn(1, 10)"),
    "turns of closeAll": (BURN, ["closeAll", "11", VALVES], "ended ISZ(Valve(F, 0), Valve(F, 0))"),
    "no statement, no turn": (method("n(): Unit"), "n 0", "ended ()"),
    "ensures without a turn": (method("n(): Unit", "Ensures(F)"), "n 0", "fails ensures -:3:13"),
    "later invariant": (
        method("l(n: Z): Unit", "", "var i: Z = 0", "while (i < n) {", "  Invariant(Modifies(i), i < 2)",
            "  i = i + 1", "}"), "l 7 5", "fails invariant-kept -:4:28"),
    "invariant before the turn of its test": (
        method("l(n: Z): Unit", "", "var i: Z = 0", "while (i < n) {", "  Invariant(Modifies(i), i < 2)",
            "  i = i + 1", "}"), "l 6 5", "fails invariant-kept -:4:28"),
    "first invariant": (
        method("l(): Unit", "", "var i: Z = 0", "while (F) {", "  Invariant(Modifies(i), i > 0)", "}"),
        "l 2", "fails invariant-start -:4:28"),
    "requires of a callee": (
        INC + method("u(): Z", "", "val y: Z = inc(-1)", "return y"), "u 9", "fails requires -:9:14"),
    "ensures of a callee": (
        inc("Res > x + 1") + method("u(): Z", "", "val y: Z = inc(1)", "return y"), "u 9", "fails ensures -:4:13"),
    "entry value": (
        "var g: Z = 3\n" + method("u(): Z", "Modifies(g); Ensures(g == In(g) + 1)", "g = g + 1", "return g"),
        "u 2", "ended 4"),
    "right side that does not decide": (method("s(x: Z): B", "", "return x != 0 && 1 / x > 0"), "s 1 0", "ended F"),
    "right side of a claim's sign": (
        method("s(x: Z): B", "", "return x != 0 & 1 / x > 0"), "s 1 0", "fails division -:2:19"),
    "total in claims": (
        method("s(x: Z, a: ISZ[Z]): Unit", "", "assert(1 / x == 0 & 5 % x == 0 & a(7) == 0 & a(7 ~> 1) == a)"),
        ["s", "1", "0", "ISZ[Z]( )"], "ended ()"),
    "wide in a claim": (method("s(x: Z): Unit", "", "assert(F & x + 1 > 0)"), f"s 1 {GREATEST}", "wide -:2:10"),
    "deduce does nothing": (method("s(): Unit", "", "Deduce(1 (F) by Auto)"), "s 1", "ended ()"),
    "else with if": (method("e(): Unit", "", "if (F) {", "} else if (T) {", "}"), "e 1", "going"),
    "else with if, two turns": (method("e(): Unit", "", "if (F) {", "} else if (T) {", "}"), "e 2", "ended ()"),
    "the first body decides": (
        method("s(x: Z): Unit", "", "assert(Exists(0 until x)(i => i == 3) & !All(0 until x)(i => i < 9))"),
        f"s 1 {GREATEST}", "ended ()"),
    "another type": (INC, "inc 1 T", "arguments"),
    "blanks after a minus": (INC, ["inc", "0", "-  1"], "fails requires -:1:5"),
    # each example in its own way wrong
    "more spent than there is": (
        CONTROLLERS / "burn-wrong.sc", ["spend", "9", "Burn(1, 1001)"], "fails ensures -:36:40"),
    "wound up": (CONTROLLERS / "saturation-wrong.sc", "command 99 0 101", "fails ensures -:29:7"),
    "down at once": (CONTROLLERS / "rate-wrong.sc", "follow 9 -6", "fails ensures -:11:7"),
    "past the end": (CONTROLLERS / "ring-wrong.sc", "rounds 999 8", "fails ensures -:47:7"),
    "reset by a sign of life": (
        CONTROLLERS / "watchdog-wrong.sc", ["watch", "99", "ISZ(F, F, F, T)"], "fails ensures -:14:8"),
    "the last reading": (PROOFS / "scan-wrong.sc", ["firstAbove", "99", "ISZ(1)", "5"], "fails ensures -:9:8"),
    "out of order": (PROOFS / "ascending-wrong.sc", ["appended", "99", "ISZ(1, 5)", "3"], "fails ensures -:12:7"),
    "limited": (CONTROLLERS / "saturation.sc", "command 99 101 0", "ended 100"),
    "eight rounds": (CONTROLLERS / "ring.sc", "rounds 999 8", "ended ()"),
    "tripped for good": (CONTROLLERS / "watchdog.sc", ["watch", "99", "ISZ(F, F, F, T)"], "ended T"),
    "one above": (PROOFS / "scan.sc", ["alarm", "99", "ISZ(1, 9, 2)", "5"], "ended T"),
    "none above": (PROOFS / "scan.sc", ["alarm", "99", "ISZ(1, 4, 2)", "5"], "ended F"),
    "peaks": (PROOFS / "ascending.sc", ["peaks", "99", "ISZ(1, 4, 2)"], "ended ISZ(1, 4, 4)"),
}

# ---------------------------------------------------------------- proofs


def proofs():
    """The proofs that no text can write, since a name ends with its block: name, facts, steps, answer."""
    terms = Terms()
    make, zero = terms.make, terms.literal(0)
    p, other = (make("symbol", number=it, sort="B") for it in (0, 1))
    n, k, a = (make("symbol", number=it, sort=sort) for it, sort in ((2, "Z"), (4, "Z"), (3, ("ISZ", "Z"))))
    sorts = ["B", "B", "Z", ("ISZ", "Z"), "Z"]

    def positive(index, least=0):
        read = make("read", a, index, sort="Z")
        return make("<", zero, read) if least == 0 else make("<=", terms.literal(least), read)

    both_hold, swapped = make("&", p, other), make("&", other, p)
    exists = make("Exists", zero, n, positive(make("bound", number=0)))
    inside = make("&", make("<=", zero, k), make("<", k, n))
    own = make("==", k, k)
    least_one, self_same = TermStep(4, positive(k, 1), "Algebra", [3]), TermStep(5, own, "Auto")
    witness = TermStep(2, make("&", inside, positive(k)), assumed=3, symbol=k, steps=[least_one])

    def block(label, assumed, *steps, symbol=None):
        return TermStep(label, make("T"), assumed=assumed, symbol=symbol, steps=list(steps))

    nested = block(1, 2, block(3, 4, symbol=k))
    table = {
        "an unknown label": ([both_hold], [TermStep(1, p, "AndE1", [9])], (1, "cite 9")),
        "no premise": ([both_hold], [TermStep(1, swapped, "Premise")], (1, "shape")),
        "not closed": ([], [TermStep(1, p, "Auto")], (1, "not closed")),
        "a witness that leaves its block": (
            [exists], [TermStep(1, exists, "Premise"), witness, TermStep(5, positive(k, 1), "ExistsE", [1, 2])],
            (5, "symbol")),
        "a symbol behind its block": ([], [block(1, 2, symbol=k), self_same], (5, "symbol")),
        "a symbol behind the block around its own": ([], [nested, self_same], (5, "symbol")),
        "an assumption with it": ([], [nested, TermStep(5, own, assumed=6)], (6, "symbol")),
        "a symbol of a fact": ([own], [block(1, 2, symbol=k)], (1, "symbol")),
        "a symbol of a step before": ([], [self_same, block(1, 2, symbol=k)], (1, "symbol")),
        "one symbol of two blocks": ([], [block(1, 2, symbol=k), block(3, 4, self_same, symbol=k)], None),
        "one symbol of two blocks, then none": (
            [], [block(1, 2, symbol=k), block(3, 4, symbol=k), self_same], (5, "symbol")),
        "one label too many": (
            [both_hold], [TermStep(1, both_hold, "Premise"), TermStep(2, p, "AndE1", [1, 1])], (2, "shape")),
        "a block for a claim": ([], [block(1, 2), TermStep(3, make("T"), "Algebra", [1])], (3, "shape")),
        "a label before a shape": ([], [TermStep(1, own, "Algebra", [2, 1])], (1, "cite 2")),
    }
    for name, (facts, steps, wanted) in table.items():
        yield name, refused_step(Closer(terms), Sequent(list(sorts), [], facts, make("T")), steps), wanted


# ---------------------------------------------------------------- the runner

def data(text) -> bytes:
    return text.read_bytes() if isinstance(text, pathlib.Path) else text if isinstance(text, bytes) else text.encode()


def checked(texts) -> str:
    named = texts if isinstance(texts, dict) else {"-": texts}
    return report([(name, data(text)) for name, text in named.items()])[0].replace("\n", " / ").removesuffix(" / ")


def ran(text, words) -> str:
    """The line that `run` prints, or "arguments" where they do not fit."""
    name, turns, *arguments = words.split() if isinstance(words, str) else words
    typed = Typed([("-", trees.read(data(text)))])
    if name not in typed.methods or len(arguments) != len(typed.methods[name].params):
        return "arguments"
    values = [argument(typed, param.sort, it) for param, it in zip(typed.methods[name].params, arguments)]
    return "arguments" if None in values else run(typed, name, int(turns), values)


def answers():
    for path in sorted(it.with_suffix(".sc") for it in EXAMPLES.glob("*/*.report")):
        wanted = path.with_suffix(".report").read_text()
        yield f"example {path.stem}", lambda path=path: report([(path.name, path.read_bytes())])[0], wanted
    for path in sorted(DOCUMENTS.glob("*.md")):
        for number, (text, wanted) in enumerate(SHOWN.findall(path.read_text()), 1):
            yield f"{path.name} {number}", lambda text=text: report([("-", text.encode())])[0], wanted
    for name, (texts, wanted) in CHECKS.items():
        yield f"check {name}", lambda texts=texts: checked(texts), f"revision 1 / {wanted}"
    for name, (text, words, wanted) in RUNS.items():
        yield f"run {name}", lambda text=text, words=words: ran(text, words), wanted
    for name, got, wanted in proofs():
        yield f"proof {name}", lambda got=got: got, wanted


def main() -> int:
    words, tried, wrong = sys.argv[1:], 0, 0
    for name, answer, wanted in answers():
        if words and not any(word in name for word in words):
            continue
        tried += 1
        try:
            got = answer()
        except TextFault as fault:
            got = repr(fault)
        if got != wanted:
            wrong += 1
            print(f"{name}\n  wanted {wanted}\n  got    {got}")
    print(f"{tried} rows, {wrong} differ")
    return 1 if wrong else 0


if __name__ == "__main__":
    sys.exit(main())
