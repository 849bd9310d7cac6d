"""The legs of a method, what is to be shown along them, and the verdict."""
from __future__ import annotations

from dataclasses import dataclass, field, replace

from closer import Closer, Sequent
from program import Claim, Code, Node, Noted, Program, ProofStep, Typed, TypedMethod, Variable
from proofs import TermStep, refused_step
from terms import Term, Terms

LEG_LIMIT = 256


@dataclass
class Item:
    what: str                       # "assume", "check", "set", "fresh", "proof"
    node: Node
    claim: Claim | None = None
    kind: str = ""                  # of a check
    variables: list[Variable] = field(default_factory=list)
    steps: list[ProofStep] = field(default_factory=list)


def truth(kind: str, *parts: Claim) -> Claim:
    return Claim(kind, parts, sort="B")


ZERO = Claim("literal", sort="Z")


def checks(expr: Program) -> list[Item]:
    """What evaluation of a program expression asks, in its order."""
    found = [checks(part) for part in expr.parts]
    if expr.op in ("&&", "-->:", "___>:", "||"):
        guard = expr.parts[0].claim
        if expr.op == "||":
            guard = truth("!", guard)
        found[1] = [replace(item, claim=truth("->:", guard, item.claim)) for item in found[1]]
    items = [item for part in found for item in part]
    claims = [part.claim for part in expr.parts]
    if expr.op in ("read", "update"):
        sequence, index = claims[0], claims[1]
        inside = truth("&", truth("<=", ZERO, index), truth("<", index, Claim("size", (sequence,), sort="Z")))
        items.append(Item("check", expr.node, inside, "index"))
    elif expr.op in ("/", "%"):
        items.append(Item("check", expr.node, truth("!", truth("==", claims[1], ZERO)), "division"))
    return items


def renamed(claim: Claim, names: dict[Variable, Variable]) -> Claim:
    if claim.kind == "variable":
        variable = names.get(claim.variable, claim.variable)
        return replace(claim, variable=variable)
    return replace(claim, parts=tuple(renamed(part, names) for part in claim.parts)) if claim.parts else claim


def mentioned(claim: Claim, found: set[Variable]) -> None:
    if claim.variable:
        found.add(claim.variable)
    for part in claim.parts:
        mentioned(part, found)


def step_claims(steps: list[ProofStep]):
    for step in steps:
        yield step.claim
        yield from step_claims(step.steps)


def claims_of(item: Item) -> list[Claim]:
    return [item.claim] if item.claim else list(step_claims(item.steps))


class Legs:
    def __init__(self, typed: Typed, method: TypedMethod) -> None:
        self.typed, self.method = typed, method
        self.calls = 0

    def entries_named(self, claims: list[Noted]) -> list[str]:
        """The globals whose entry values the claims name, in the order of declaration."""
        found: set[Variable] = set()
        for noted in claims:
            mentioned(noted.claim, found)
        return [name for name in self.typed.globals if self.typed.entry(name) in found]

    @staticmethod
    def assumed(claims: list[Noted]) -> list[Item]:
        return [Item("assume", noted.node, noted.claim) for noted in claims]

    @staticmethod
    def checked(kind: str, claims: list[Noted]) -> list[Item]:
        return [Item("check", noted.node, noted.claim, kind) for noted in claims]

    def count(self, code: list[Code], following: int) -> int:
        for it in reversed(code):
            if it.kind == "if":
                following = self.count(it.body, following) + self.count(it.other, following)
            elif it.kind == "while":
                following += self.count(it.body, 1)
        return following

    def legs(self) -> list[list[Item]] | None:
        """The legs, or None where they are too many."""
        if self.count(self.method.body, 1) > LEG_LIMIT:
            return None
        end = self.checked("ensures", self.method.ensures)
        return [self.with_front(leg) for leg in self.after(self.method.body, [end])]

    def with_front(self, leg: list[Item]) -> list[Item]:
        typed, method = self.typed, self.method
        entries = [Item("set", method.node, self.read(typed.globals[name]), variables=[typed.entry(name)])
                   for name in self.entries_named(method.ensures)]
        rest = entries + self.assumed(method.requires) + leg
        named: set[Variable] = set()
        for item in rest:
            named.update(item.variables)
            for claim in claims_of(item):
                mentioned(claim, named)
        constants = [Item("set", method.node, typed.initial[name], variables=[variable])
                     for name, variable in typed.globals.items() if not typed.is_var[name] and variable in named]
        return constants + rest

    @staticmethod
    def read(variable: Variable) -> Claim:
        return Claim("variable", sort=variable.sort, variable=variable)

    def after(self, code: list[Code], following: list[list[Item]]) -> list[list[Item]]:
        """The legs of statements in front of the legs of what follows them."""
        for it in reversed(code):
            following = self.statement(it, following)
        return following

    def statement(self, it: Code, following: list[list[Item]]) -> list[list[Item]]:
        if it.kind == "set":
            front = [*checks(it.value), Item("set", it.node, it.value.claim, variables=[it.target])]
        elif it.kind == "assert":
            front = self.checked("assert", [it.value])
        elif it.kind == "Deduce":
            front = [Item("proof", it.node, steps=it.steps)]
        elif it.kind == "call":
            front = self.call(it)
        elif it.kind == "if":
            test = it.value.claim
            return [[*checks(it.value), Item("assume", it.node, claim), *leg]
                    for claim, body in ((test, it.body), (truth("!", test), it.other)) for leg in self.after(body, following)]
        else:
            return self.loop(it, following)
        return [front + leg for leg in following]

    def loop(self, it: Code, following: list[list[Item]]) -> list[list[Item]]:
        test = it.value.claim
        front = [*self.checked("invariant-start", it.invariant), Item("fresh", it.node, variables=it.modifies),
                 *self.assumed(it.invariant), *checks(it.value)]
        kept = self.after(it.body, [self.checked("invariant-kept", it.invariant)])
        return ([[*front, Item("assume", it.node, test), *leg] for leg in kept]
                + [[*front, Item("assume", it.node, truth("!", test)), *leg] for leg in following])

    def call(self, it: Code) -> list[Item]:
        called, typed = self.typed.methods[it.method], self.typed
        self.calls += 1
        names: dict[Variable, Variable] = {}
        for place, param in enumerate(called.params):
            names[param] = Variable("call", (self.calls, "parameter", place), param.sort)
        entries = self.entries_named(called.ensures)
        for name in entries:
            names[typed.entry(name)] = Variable("call", (self.calls, "entry", name), typed.globals[name].sort)
        result = Variable("call", (self.calls, "result"), called.result)
        names[called.result_variable] = result
        items = [item for argument in it.arguments for item in checks(argument)]
        items += [Item("set", it.node, argument.claim, variables=[names[param]])
                  for param, argument in zip(called.params, it.arguments)]
        items += [Item("check", it.value, renamed(noted.claim, names), "requires") for noted in called.requires]
        items += [Item("set", it.node, self.read(typed.globals[name]), variables=[names[typed.entry(name)]]) for name in entries]
        fresh = [*called.modifies, *([] if called.result == "Unit" else [result])]
        items.append(Item("fresh", it.node, variables=fresh))
        items += [Item("assume", noted.node, renamed(noted.claim, names)) for noted in called.ensures]
        if it.target:
            items.append(Item("set", it.node, self.read(result), variables=[it.target]))
        return items


# ---------------------------------------------------------------- along a leg

class Size(Exception):
    """A term past a limit is formed."""


class Run:
    """Goes along the items of a leg with the terms of its variables and the facts."""

    def __init__(self, typed: Typed, leg: list[Item]) -> None:
        self.leg, self.terms = leg, Terms()
        self.closer = Closer(self.terms)
        self.sorts: list = []
        self.facts: list[Term] = []
        self.now: dict[Variable, Term] = {}
        self.before: dict[Variable, Term | None] = {}       # the term before the last change, None where it was not read
        self.lets: dict[int, Term] = {}
        self.numbers, self.records = numbered_records(typed, leg)

    def sort(self, sort):
        if isinstance(sort, tuple):
            return ("record", self.numbers[sort[1]]) if sort[0] == "record" else ("ISZ", self.sort(sort[1]))
        return sort

    def symbol(self, sort) -> Term:
        self.sorts.append(self.sort(sort))
        return self.terms.make("symbol", number=len(self.sorts) - 1, sort=self.sorts[-1])

    def value(self, variable: Variable) -> Term:
        if variable not in self.now:
            self.now[variable] = self.symbol(variable.sort)
        return self.now[variable]

    def old(self, variable: Variable) -> Term:
        if variable not in self.before:
            return self.value(variable)
        if self.before[variable] is None:
            self.before[variable] = self.symbol(variable.sort)
        return self.before[variable]

    def change(self, variable: Variable, term: Term) -> None:
        self.before[variable] = self.now.get(variable)
        self.now[variable] = term

    def term(self, claim: Claim) -> Term:
        if claim.kind == "variable":
            return self.value(claim.variable)
        if claim.kind == "old":
            return self.old(claim.variable)
        if claim.kind == "let":
            return self.lets[claim.number]
        parts = [self.term(part) for part in claim.parts]
        number = self.numbers[claim.number] if claim.kind == "record" else claim.number
        return self.terms.make(claim.kind, *parts, number=number, sort=self.sort(claim.sort))

    def small(self, claim: Claim) -> Term:
        term = self.term(claim)
        if not term.is_small:
            raise Size
        return term

    def steps(self, steps: list[ProofStep]) -> list[TermStep]:
        found = []
        for step in steps:
            symbol = None
            if step.let is not None:
                symbol = self.lets[step.let] = self.symbol("Z")
            claim = self.small(step.claim)
            found.append(TermStep(step.label, claim, step.rule, step.cites, step.assumed, symbol, self.steps(step.steps)))
        return found

    def failure(self) -> tuple[Node, str, str] | None:
        """The first item that is not shown, or None."""
        for item in self.leg:
            kind = item.kind if item.what == "check" else "deduce" if item.what == "proof" else "term"
            try:
                reason = self.take(item)
            except Size:
                reason = "size"
            if reason:
                return item.node, kind, reason
        return None

    def take(self, item: Item) -> str:
        if item.what == "fresh":
            for variable in item.variables:
                self.change(variable, self.symbol(variable.sort))
            return ""
        if item.what == "proof":
            steps = self.steps(item.steps)
            bad = refused_step(self.closer, Sequent(self.sorts, self.records, self.facts, self.terms.make("T")), steps)
            if bad is not None:
                return f"step {bad[0]}"
            self.facts += [step.claim for step in steps if step.rule]
            return ""
        term = self.small(item.claim)
        if item.what == "set":
            self.change(item.variables[0], term)
            return ""
        if item.what == "check":
            answer = self.closer.answer(Sequent(self.sorts, self.records, self.facts, term))
            if answer != "closed":
                return answer
        self.facts.append(term)
        return ""


def numbered_records(typed: Typed, leg: list[Item]) -> tuple[dict[int, int], list]:
    """The records of a leg by first appearance, each behind those that its fields name."""
    numbers: dict[int, int] = {}

    def sort(it) -> None:
        if isinstance(it, tuple) and it[0] == "ISZ":
            sort(it[1])
        elif isinstance(it, tuple) and it[1] not in numbers:
            for field_sort in typed.record_fields[it[1]]:
                sort(field_sort)
            numbers[it[1]] = len(numbers)

    def claim(it: Claim) -> None:
        if it.variable:
            sort(it.variable.sort)
        if it.kind == "ISZ":
            sort(it.sort)
        if it.kind == "record":
            sort(it.sort)
        for part in it.parts:
            claim(part)

    for item in leg:
        for variable in item.variables:
            sort(variable.sort)
        for it in claims_of(item):
            claim(it)

    def there(it):
        if isinstance(it, tuple):
            return ("record", numbers[it[1]]) if it[0] == "record" else ("ISZ", there(it[1]))
        return it

    return numbers, [[there(it) for it in typed.record_fields[number]] for number in numbers]


def verdict(typed: Typed, method: TypedMethod) -> str | tuple[Node, str, str] | None:
    """None where the method is verified, "many", or the first item of the legs in order that is not shown."""
    legs = Legs(typed, method).legs()
    if legs is None:
        return "many"
    for leg in legs:
        failure = Run(typed, leg).failure()
        if failure:
            return failure
    return None
