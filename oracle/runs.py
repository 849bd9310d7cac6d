"""How a run of a method ends, with its contracts tested, by turns.

    run(typed, name, turns, arguments) is the line that the command prints, without its newline.
"""
from __future__ import annotations

from dataclasses import dataclass

from program import Claim, Code, Node, Noted, Program, Typed, Variable

LEAST, GREATEST = -(1 << 127), (1 << 127) - 1
VISIT_LIMIT = 1_000_000

# A number and a truth value are those of Python, a sequence is a Sequence, a record a tuple of its number and its fields.


@dataclass(frozen=True)
class Sequence:
    element: object
    items: tuple


class Ended(Exception):
    """The run has ended; the argument is the line that says how."""


class WideClaim(Exception):
    """A value of a claim is outside 128 bits."""


class VisitsUsed(Exception):
    """One more body of a quantifier is due than a claim may visit."""


def is_wide(value: object) -> bool:
    return type(value) is int and not LEAST <= value <= GREATEST


def quotient(a: int, b: int) -> int:
    if b == 0:
        return 0
    return abs(a) // abs(b) * (1 if (a < 0) == (b < 0) else -1)


def remainder(a: int, b: int) -> int:
    return a - b * quotient(a, b) if b else 0


class Machine:
    def __init__(self, typed: Typed, turns: int) -> None:
        self.typed, self.turns = typed, turns
        self.values: dict[Variable, object] = {}
        for name, variable in typed.globals.items():
            self.values[variable] = self.claim_value(typed.initial[name], {}, ())

    # ---------------------------------------------------------------- values

    def default(self, sort) -> object:
        if sort == "Z":
            return 0
        if sort == "B":
            return False
        if sort[0] == "ISZ":
            return Sequence(sort[1], ())
        return sort[1], tuple(self.default(it) for it in self.typed.record_fields[sort[1]])

    def applied(self, claim: Claim, parts: list) -> object:
        """What an operator makes of values; total, as claims are."""
        kind = claim.kind
        if kind in ("T", "F"):
            return kind == "T"
        if kind == "literal":
            return claim.number
        if kind == "negative":
            return -parts[0]
        if kind == "!":
            return not parts[0]
        if kind in ("+", "-", "*"):
            a, b = parts
            return a + b if kind == "+" else a - b if kind == "-" else a * b
        if kind in ("/", "%"):
            return (quotient if kind == "/" else remainder)(*parts)
        if kind in ("&", "|", "->:"):
            a, b = parts
            return a and b if kind == "&" else a or b if kind == "|" else (not a) or b
        if kind == "==":
            return parts[0] == parts[1]
        if kind in ("<", "<="):
            return parts[0] < parts[1] if kind == "<" else parts[0] <= parts[1]
        if kind == "size":
            return len(parts[0].items)
        if kind == "read":
            sequence, index = parts
            return sequence.items[index] if 0 <= index < len(sequence.items) else self.default(sequence.element)
        if kind == "update":
            sequence, index, value = parts
            if not 0 <= index < len(sequence.items):
                return sequence
            return Sequence(sequence.element, sequence.items[:index] + (value,) + sequence.items[index + 1:])
        if kind == "append":
            return Sequence(parts[0].element, (*parts[0].items, parts[1]))
        if kind == "ISZ":
            return Sequence(claim.sort[1], tuple(parts))
        if kind == "record":
            return claim.number, tuple(parts)
        assert kind == "field", kind
        return parts[0][1][claim.number]

    def claim_value(self, claim: Claim, values: dict[Variable, object], bound: tuple) -> object:
        """The value of a claim; all parts are evaluated, from the left, and only a quantifier stops early."""
        if claim.kind == "variable":
            return values[claim.variable]
        if claim.kind == "bound":
            return bound[claim.number]
        if claim.kind in ("All", "Exists"):
            low, high = (self.claim_value(part, values, bound) for part in claim.parts[:2])
            decides = claim.kind == "Exists"
            for number in range(low, high):
                if self.visits == 0:
                    raise VisitsUsed
                self.visits -= 1
                if self.claim_value(claim.parts[2], values, (number, *bound)) == decides:
                    return decides
            return not decides
        value = self.applied(claim, [self.claim_value(part, values, bound) for part in claim.parts])
        if is_wide(value):
            raise WideClaim
        return value

    visits = VISIT_LIMIT

    def holds(self, noted: Noted, values: dict[Variable, object]) -> bool:
        self.visits = VISIT_LIMIT
        try:
            return self.claim_value(noted.claim, values, ())
        except WideClaim:
            raise Ended(f"wide {shown(noted.node)}") from None
        except VisitsUsed:
            raise Ended(f"visits {shown(noted.node)}") from None

    def tested(self, claims: list[Noted], kind: str, values: dict[Variable, object], node: Node | None = None) -> None:
        for noted in claims:
            if not self.holds(noted, values):
                raise Ended(f"fails {kind} {shown(node or noted.node)}")

    def value(self, expr: Program, values: dict[Variable, object]) -> object:
        """The value of a program expression, which fails at a wrong index and a division by 0."""
        claim = expr.claim
        if not expr.parts:
            return values[claim.variable] if claim.kind == "variable" else self.applied(claim, [])
        first = self.value(expr.parts[0], values)
        if expr.op in ("&&", "-->:", "___>:") and first is False:
            return expr.op != "&&"
        if expr.op == "||" and first is True:
            return True
        parts = [first, *(self.value(part, values) for part in expr.parts[1:])]
        if expr.op in ("/", "%") and parts[1] == 0:
            raise Ended(f"fails division {shown(expr.node)}")
        if expr.op in ("read", "update") and not 0 <= parts[1] < len(parts[0].items):
            raise Ended(f"fails index {shown(expr.node)}")
        if expr.op in (">", ">=", "!="):
            a, b = parts
            return a > b if expr.op == ">" else a >= b if expr.op == ">=" else a != b
        value = self.applied(claim, parts)
        if is_wide(value):
            raise Ended(f"wide {shown(expr.node)}")
        return value

    # ---------------------------------------------------------------- statements

    def turn(self) -> None:
        if self.turns == 0:
            raise Ended("going")
        self.turns -= 1

    def method(self, name: str, arguments: list, node: Node) -> object:
        """Runs a method, and answers its result; a failing Requires is told of at the node."""
        method = self.typed.methods[name]
        frame = {param: value for param, value in zip(method.params, arguments)}
        self.tested(method.requires, "requires", self.all(frame), node)
        for entry, variable in self.typed.globals.items():
            frame[self.typed.entry(entry)] = self.values[variable]
        self.code(method.body, frame)
        self.tested(method.ensures, "ensures", self.all(frame))
        return frame.get(method.result_variable)

    def all(self, frame: dict) -> dict:
        return {**self.values, **frame}

    def set(self, frame: dict, variable: Variable, value: object) -> None:
        (self.values if variable.kind == "global" else frame)[variable] = value

    def code(self, code: list[Code], frame: dict) -> None:
        for it in code:
            self.turn()
            if it.kind == "set":
                self.set(frame, it.target, self.value(it.value, self.all(frame)))
            elif it.kind == "assert":
                self.tested([it.value], "assert", self.all(frame))
            elif it.kind == "call":
                arguments = [self.value(argument, self.all(frame)) for argument in it.arguments]
                result = self.method(it.method, arguments, it.value)
                if it.target:
                    self.set(frame, it.target, result)
            elif it.kind == "if":
                self.code(it.body if self.value(it.value, self.all(frame)) else it.other, frame)
            elif it.kind == "while":
                self.tested(it.invariant, "invariant-start", self.all(frame))
                self.turn()
                while self.value(it.value, self.all(frame)):
                    self.code(it.body, frame)
                    self.tested(it.invariant, "invariant-kept", self.all(frame))
                    self.turn()


def shown(node: Node) -> str:
    file, (line, column) = node
    return f"{file}:{line}:{column}"


def text_of(typed: Typed, value: object) -> str:
    if value is None:
        return "()"
    if value is True or value is False:
        return "T" if value else "F"
    if isinstance(value, int):
        return str(value)
    if isinstance(value, Sequence):
        return f"ISZ({', '.join(text_of(typed, it) for it in value.items)})"
    return f"{typed.record_names[value[0]]}({', '.join(text_of(typed, it) for it in value[1])})"


def run(typed: Typed, name: str, turns: int, arguments: list) -> str:
    machine = Machine(typed, turns)
    try:
        result = machine.method(name, arguments, typed.methods[name].node)
    except Ended as ended:
        return ended.args[0]
    return f"ended {text_of(typed, result)}"
