"""Which proofs by natural deduction are accepted."""
from __future__ import annotations

from dataclasses import dataclass, field

from closer import Closer, Sequent
from terms import Term


@dataclass
class TermStep:
    """A claim by a rule, or a block that assumes a claim."""
    label: int
    claim: Term
    rule: str = ""
    cites: list[int] = field(default_factory=list)
    assumed: int = 0
    symbol: Term | None = None
    steps: list[TermStep] = field(default_factory=list)

    @property
    def conclusion(self) -> Term | None:
        """What a block leads to: its last claim, or its assumption where it has no step; no block may stand last."""
        if not self.steps:
            return self.claim
        last = self.steps[-1]
        return last.claim if last.rule else None


class Refused(Exception):
    """The label of the first refused step, and the reason."""


def symbols_in(term: Term, found: set[Term]) -> set[Term]:
    if term.kind == "symbol":
        found.add(term)
    for part in term.parts:
        symbols_in(part, found)
    return found


class Checker:
    def __init__(self, closer: Closer, base: Sequent) -> None:
        self.closer, self.base = closer, base
        self.make = closer.terms.make
        self.ended: set[Term] = set()           # the symbols of all blocks that have ended, also inside other blocks
        self.earlier: list[Term] = []           # all claims and assumptions so far, visible or not

    def steps(self, steps: list[TermStep], visible: dict[int, Term | TermStep]) -> None:
        """`visible` has the claims and blocks that may be cited, in the order of the text."""
        for step in steps:
            if step.rule:
                self.line(step, visible)
                visible[step.label] = step.claim
                self.earlier.append(step.claim)
                continue
            if step.symbol is not None:
                if any(step.symbol in symbols_in(it, set()) for it in [*self.base.facts, *self.earlier]):
                    raise Refused(step.label, "symbol")
                self.ended.discard(step.symbol)
            if symbols_in(step.claim, set()) & self.ended:
                raise Refused(step.assumed, "symbol")
            self.earlier.append(step.claim)
            self.steps(step.steps, {**visible, step.assumed: step.claim})
            visible[step.label] = step
            if step.symbol is not None:
                self.ended.add(step.symbol)

    def line(self, step: TermStep, visible: dict[int, Term | TermStep]) -> None:
        for label in step.cites:
            if label not in visible:
                raise Refused(step.label, f"cite {label}")
        cited = [visible[label] for label in step.cites]
        fits = self.fits(step.rule, step.claim, cited)
        if not fits:
            raise Refused(step.label, "shape")
        if symbols_in(step.claim, set()) & self.ended:
            raise Refused(step.label, "symbol")
        if step.rule in ("Algebra", "Auto"):
            facts = cited
            if step.rule == "Auto":
                facts = [*self.base.facts, *(it for it in visible.values() if isinstance(it, Term))]
            if self.closer.answer(Sequent(self.base.sorts, self.base.records, facts, step.claim)) != "closed":
                raise Refused(step.label, "not closed")

    # ---- the rules

    COUNTS = {"Premise": 0, "Auto": 0, "AndI": 2, "ImplyE": 2, "NegE": 2, "AllE": 2, "ExistsI": 2, "ExistsE": 2, "Subst_<": 2,
              "Subst_>": 2, "OrE": 3}
    # The places of cited blocks, and whether they are those of a `Let`.
    BLOCKS = {"OrE": {1: False, 2: False}, "ImplyI": {0: False}, "NegI": {0: False}, "PbC": {0: False}, "AllI": {0: True},
              "ExistsE": {1: True}}

    def fits(self, rule: str, claim: Term, cited: list) -> bool:
        if rule != "Algebra" and len(cited) != self.COUNTS.get(rule, 1):
            return False
        blocks = self.BLOCKS.get(rule, {})
        for place, it in enumerate(cited):
            if isinstance(it, TermStep) != (place in blocks):
                return False
            if place in blocks and ((it.symbol is not None) != blocks[place] or it.conclusion is None):
                return False
        return getattr(self, rule.replace("_<", "Left").replace("_>", "Right"))(claim, *cited)

    def negation(self, term: Term) -> Term:
        return self.make("!", term)

    def within(self, low: Term, term: Term, high: Term) -> Term:
        return self.make("&", self.make("<=", low, term), self.make("<", term, high))

    def Premise(self, claim):
        return claim in self.base.facts

    def AndI(self, claim, a, b):
        return claim is self.make("&", a, b)

    def AndE1(self, claim, a):
        return a.kind == "&" and a.parts[0] is claim

    def AndE2(self, claim, a):
        return a.kind == "&" and a.parts[1] is claim

    def OrI1(self, claim, a):
        return claim.kind == "|" and claim.parts[0] is a

    def OrI2(self, claim, a):
        return claim.kind == "|" and claim.parts[1] is a

    def OrE(self, claim, a, s, t):
        return (a.kind == "|" and s.claim is a.parts[0] and t.claim is a.parts[1] and s.conclusion is claim
                and t.conclusion is claim)

    def ImplyI(self, claim, s):
        return claim is self.make("->:", s.claim, s.conclusion)

    def ImplyE(self, claim, a, b):
        return a.kind == "->:" and a.parts == (b, claim)

    def NegI(self, claim, s):
        return claim is self.negation(s.claim) and s.conclusion.kind == "F"

    def NegE(self, claim, a, b):
        return claim.kind == "F" and b is self.negation(a)

    def BottomE(self, claim, a):
        return a.kind == "F"

    def PbC(self, claim, s):
        return s.claim is self.negation(claim) and s.conclusion.kind == "F"

    def AllI(self, claim, s):
        if claim.kind != "All":
            return False
        low, high, body = claim.parts
        return s.claim is self.within(low, s.symbol, high) and s.conclusion is self.closer.terms.instance(body, s.symbol)

    def at(self, quantified: Term, inside: Term) -> Term | None:
        """The body at the term of which it is said that it is in the range."""
        if inside.kind != "&" or inside.parts[0].kind != "<=":
            return None
        term = inside.parts[0].parts[1]
        low, high, body = quantified.parts
        return self.closer.terms.instance(body, term) if inside is self.within(low, term, high) else None

    def AllE(self, claim, a, inside):
        return a.kind == "All" and self.at(a, inside) is claim

    def ExistsI(self, claim, inside, a):
        return claim.kind == "Exists" and self.at(claim, inside) is a

    def ExistsE(self, claim, a, s):
        if a.kind != "Exists":
            return False
        low, high, body = a.parts
        assumed = self.make("&", self.within(low, s.symbol, high), self.closer.terms.instance(body, s.symbol))
        return s.claim is assumed and s.conclusion is claim

    def Algebra(self, claim, *cited):
        return True

    def Auto(self, claim):
        return True

    def replaced(self, term: Term, old: Term, new: Term) -> Term:
        if term is old:
            return new
        return self.closer.terms.again(term, tuple(self.replaced(part, old, new) for part in term.parts))

    def SubstLeft(self, claim, equation, a):
        return equation.kind == "==" and self.replaced(a, equation.parts[1], equation.parts[0]) is claim

    def SubstRight(self, claim, equation, a):
        return equation.kind == "==" and self.replaced(a, equation.parts[0], equation.parts[1]) is claim


def refused_step(closer: Closer, base: Sequent, steps: list[TermStep]) -> tuple[int, str] | None:
    """The first step that is refused, by its label, and the reason."""
    try:
        Checker(closer, base).steps(steps, {})
    except Refused as refused:
        return refused.args
    return None
