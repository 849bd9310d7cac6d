"""Whether a sequent is closed: instances, cases, rows and their elimination."""
from __future__ import annotations

from dataclasses import dataclass, field
from math import gcd
from typing import Iterator

from terms import IN_ORDER, NUMBER_LIMIT, Form, Forms, Term, Terms

INSTANCE_LIMIT = 64
CASE_LIMIT = 512
ROW_LIMIT = 2000


@dataclass
class Sequent:
    sorts: list
    records: list           # the sorts of the fields of each record
    facts: list[Term]
    goal: Term


class TooMany(Exception):
    """More cases than the limit."""


@dataclass
class Closer:
    """Closes sequents over terms of one maker."""
    terms: Terms
    forms: Forms = field(init=False)
    reduced: dict[Term, Term] = field(default_factory=dict)

    def __post_init__(self) -> None:
        self.forms = Forms(self.terms)

    def negation(self, term: Term) -> Term:
        return self.terms.make("!", term)

    def both(self, left: Term, right: Term) -> Term:
        return self.terms.make("&", left, right)

    # ---------------------------------------------------------------- instances

    def parted(self, fact: Term) -> list[Term]:
        return [it for part in fact.parts for it in self.parted(part)] if fact.kind == "&" else [fact]

    def indices_in(self, term: Term, found: dict[Term, None]) -> None:
        if term.kind in ("read", "update") and term.parts[1].loose == 0:
            found[term.parts[1]] = None
        for part in term.parts:
            self.indices_in(part, found)

    def instances(self, sequent: Sequent) -> Sequent | str:
        """The sequent with its goal opened, its facts parted and the instances of its universal facts added."""
        make, sorts, facts, goal = self.terms.make, list(sequent.sorts), list(sequent.facts), sequent.goal
        while goal.kind == "All":
            symbol = make("symbol", number=len(sorts), sort="Z")
            sorts.append("Z")
            facts += [make("<=", goal.parts[0], symbol), make("<", symbol, goal.parts[1])]
            goal = self.terms.instance(goal.parts[2], symbol)
        facts = [part for fact in facts for part in self.parted(fact)]
        indices: dict[Term, None] = {}
        for term in [*facts, goal]:
            self.indices_in(term, indices)
        added: dict[Term, None] = {}
        present = set(facts)
        for fact in facts:
            if fact.kind != "All":
                continue
            low, high, body = fact.parts
            for index in indices:
                inside = self.both(make("<=", low, index), make("<", index, high))
                instance = make("->:", inside, self.terms.instance(body, index))
                if instance not in present:
                    present.add(instance)
                    added[instance] = None
                    if len(added) > INSTANCE_LIMIT:
                        return "instances"
        if not all(it.is_small for it in added):
            return "size"
        return Sequent(sorts, sequent.records, [*facts, *added], goal)

    # ---------------------------------------------------------------- cases

    def reduce(self, term: Term) -> Term:
        """Fields of records and sizes of sequences that are built are told, also inside bodies."""
        if term not in self.reduced:
            parts = tuple(self.reduce(part) for part in term.parts)
            made = self.terms.again(term, parts)
            if made.kind == "field" and parts[0].kind == "record":
                made = parts[0].parts[made.number]
            elif made.kind == "size" and parts[0].kind == "update":
                made = self.reduce(self.terms.make("size", parts[0].parts[0]))
            elif made.kind == "size" and parts[0].kind == "append":
                made = self.terms.make("+", self.reduce(self.terms.make("size", parts[0].parts[0])), self.terms.literal(1))
            elif made.kind == "size" and parts[0].kind == "ISZ":
                made = self.terms.literal(len(parts[0].parts))
            self.reduced[term] = made
        return self.reduced[term]

    def split(self, formula: Term, records: list) -> list[list[Term]] | None:
        """The alternatives of a formula, or None where it is a literal."""
        make, no = self.terms.make, self.negation
        kind = formula.kind
        if kind == "&":
            return [list(formula.parts)]
        if kind == "|":
            return [[part] for part in formula.parts]
        if kind == "->:":
            return [[no(formula.parts[0])], [formula.parts[1]]]
        if kind == "==":
            left, right = formula.parts
            if left.sort == "B":
                return [[left, right], [no(left), no(right)]]
            if left.sort != "Z" and left.sort[0] == "record":
                return [self.fields_equal(left, right, records)]
            return None
        if kind != "!":
            return None
        inner = formula.parts[0]
        if inner.kind == "!":
            return [[inner.parts[0]]]
        if inner.kind == "&":
            return [[no(part)] for part in inner.parts]
        if inner.kind == "|":
            return [[no(part) for part in inner.parts]]
        if inner.kind == "->:":
            return [[inner.parts[0], no(inner.parts[1])]]
        if inner.kind == "==":
            left, right = inner.parts
            if left.sort == "B":
                return [[left, no(right)], [no(left), right]]
            if left.sort == "Z":
                return [[make("<", left, right)], [make("<", right, left)]]
            if left.sort[0] == "record":
                return [[no(it)] for it in self.fields_equal(left, right, records)]
        return None

    def fields_equal(self, left: Term, right: Term, records: list) -> list[Term]:
        make = self.terms.make
        return [make("==", make("field", left, number=place, sort=sort), make("field", right, number=place, sort=sort))
                for place, sort in enumerate(records[left.sort[1]])]

    def conditional_read(self, term: Term, path: tuple[int, ...] = ()) -> tuple[int, ...] | None:
        """Where the leftmost innermost read of a sequence that is built stands, outside bodies."""
        parts = term.parts[:2] if term.kind in ("All", "Exists") else term.parts
        for place, part in enumerate(parts):
            found = self.conditional_read(part, (*path, place))
            if found is not None:
                return found
        return path if term.kind == "read" and term.parts[0].kind in ("update", "append", "ISZ") else None

    def put(self, term: Term, path: tuple[int, ...], by: Term) -> Term:
        if not path:
            return by
        parts = list(term.parts)
        parts[path[0]] = self.put(parts[path[0]], path[1:], by)
        return self.terms.again(term, tuple(parts))

    def read_split(self, literal: Term, path: tuple[int, ...], records: list) -> list[list[Term]]:
        make, number = self.terms.make, self.terms.literal
        read = literal
        for place in path:
            read = read.parts[place]
        built, index = read.parts
        if built.kind == "ISZ":
            default = self.terms.default(read.sort, records)
            count = number(len(built.parts))
            chosen = [(make("==", index, number(place)), part) for place, part in enumerate(built.parts)]
            chosen += [(make("<", index, number(0)), default), (make("<=", count, index), default)]
            return [[condition, self.put(literal, path, value)] for condition, value in chosen]
        sequence, value = built.parts[0], built.parts[-1]
        if built.kind == "update":
            place = built.parts[1]
            inside = self.both(make("<=", number(0), place), make("<", place, make("size", sequence)))
            condition = self.both(make("==", place, index), inside)
        else:
            condition = make("==", index, make("size", sequence))
        other = make("read", sequence, index, sort=read.sort)
        return [[condition, self.put(literal, path, value)], [self.negation(condition), self.put(literal, path, other)]]

    def cases(self, hypotheses: list[Term], records: list) -> Iterator[list[Term]]:
        """The leaves in order: an alternative stands in the place of what was split, the first choice is outermost."""
        def linked(items: list[Term], rest: tuple | None) -> tuple | None:
            for item in reversed(items):
                rest = (item, rest)
            return rest

        waiting: list[tuple] = [(linked(hypotheses, None), None)]
        while waiting:
            pending, literals = waiting.pop()
            ended = True
            while pending:
                formula, rest = self.reduce(pending[0]), pending[1]
                alternatives = self.split(formula, records)
                if alternatives is None:
                    path = self.conditional_read(formula)
                    if path is None:
                        pending, literals = rest, (formula, literals)
                        continue
                    alternatives = self.read_split(formula, path, records)
                if not alternatives:
                    ended = False
                    break
                pending, *others = [linked(alternative, rest) for alternative in alternatives]
                waiting += [(other, literals) for other in reversed(others)]
            if not ended:
                continue
            leaf = []
            while literals:
                literal, literals = literals
                leaf.append(literal)
            yield leaf[::-1]

    # ---------------------------------------------------------------- leaves

    def contradict(self, leaf: list[Term]) -> bool:
        """Whether literals alone close the leaf."""
        seen: dict[Term, bool] = {}
        for literal in leaf:
            term, holds = (literal.parts[0], False) if literal.kind == "!" else (literal, True)
            if term.kind == ("F" if holds else "T"):
                return True
            canonical = self.forms.canonical(term)
            if term.kind == "==" and not holds and term.parts[0].sort[0] == "ISZ" and canonical.parts[0] is canonical.parts[1]:
                return True
            if seen.setdefault(canonical, holds) != holds:
                return True
        return False

    def rows(self, leaf: list[Term]) -> list[tuple[dict[Term, int], int]]:
        """The rows of the literals in their order, and behind them those on sizes and quotients."""
        rows: list[tuple[dict[Term, int], int]] = []

        def at_most(form: Form, bound: int) -> None:
            rows.append((form.times, bound - form.constant))

        for literal in leaf:
            term, holds = (literal.parts[0], False) if literal.kind == "!" else (literal, True)
            if term.kind not in ("==", "<", "<=") or term.parts[0].sort != "Z":
                continue
            left, right = (self.forms.form(part) for part in term.parts)
            up, down = left.plus(right, -1), right.plus(left, -1)
            if term.kind == "==":
                at_most(up, 0)
                at_most(down, 0)
            elif term.kind == "<=":
                at_most(up, 0) if holds else at_most(down, -1)
            else:
                at_most(up, -1) if holds else at_most(down, 0)
        looked, waiting, had = 0, set(), set()
        while True:
            for times, _ in rows[looked:]:
                waiting.update(atom for atom in times if atom not in had and (atom.kind == "size" or (
                    atom.kind == "/" and atom.parts[1].kind == "literal" and atom.parts[1].number >= 1)))
            looked = len(rows)
            if not waiting:
                return rows
            atom = min(waiting, key=IN_ORDER)
            waiting.discard(atom)
            had.add(atom)
            if atom.kind == "size":
                at_most(Form({atom: -1}, 0), 0)
                continue
            divisor = atom.parts[1].number
            rest = self.forms.form(atom.parts[0]).plus(Form({atom: 1}, 0), -divisor)
            at_most(rest.scaled(-1), divisor - 1)
            at_most(rest, divisor - 1)

    def answer_of_leaf(self, leaf: list[Term]) -> str:
        if self.contradict(leaf):
            return "closed"
        if not all(self.forms.is_narrow(literal) for literal in leaf):
            return "wide"
        rows = self.rows(leaf)
        if any(abs(number) > NUMBER_LIMIT for times, bound in rows for number in (bound, *times.values())):
            return "wide"
        atoms = sorted({atom for times, _ in rows for atom in times}, key=IN_ORDER)
        return eliminate([(tuple(times.get(atom, 0) for atom in atoms), bound) for times, bound in rows], len(atoms))

    def answer(self, sequent: Sequent) -> str:
        """Whether the sequent is closed: "closed", or why this is not found."""
        opened = self.instances(sequent)
        if isinstance(opened, str):
            return opened
        hypotheses = [*opened.facts, self.negation(opened.goal)]
        if not all(self.forms.is_narrow_outside(term) for term in hypotheses):
            return "wide"
        leaves = []
        for leaf in self.cases(hypotheses, opened.records):
            leaves.append(leaf)
            if len(leaves) > CASE_LIMIT:
                return "cases"
        for leaf in leaves:
            answer = self.answer_of_leaf(leaf)
            if answer != "closed":
                return answer       # that of the first leaf that is not closed
        return "closed"


# ---------------------------------------------------------------- elimination

NumberedRow = tuple[tuple[int, ...], int]       # how often each variable is taken, and the bound


def cut(row: NumberedRow) -> NumberedRow:
    """The row divided by the greatest common divisor of its left side, with the bound rounded down."""
    times, bound = row
    divisor = gcd(*times)
    return (tuple(count // divisor for count in times), bound // divisor) if divisor > 1 else row


def eliminate(rows: list[NumberedRow], variables: int) -> str:
    """Takes variables out of the rows until there is a contradiction or no variable is left.

    Each time it is the variable with the fewest pairs of a lower and an upper bound, the least one of several. The rows
    without it are kept in their order, and behind them come the sums of each lower bound with each upper bound that
    take it out, with the smallest factors. Every row that is kept is cut, and is kept once.
    """
    kept: dict[NumberedRow, None] = {}
    for row in map(cut, rows):
        kept[row] = None
        if len(kept) > ROW_LIMIT:
            return "rows"
    while True:
        if any(bound < 0 and not any(times) for times, bound in kept):
            return "closed"
        costs = []
        for variable in range(variables):
            lower = sum(times[variable] < 0 for times, _ in kept)
            upper = sum(times[variable] > 0 for times, _ in kept)
            if lower or upper:
                costs.append((lower * upper, variable))
        if not costs:
            return "open"
        variable = min(costs)[1]
        lowers = [row for row in kept if row[0][variable] < 0]
        uppers = [row for row in kept if row[0][variable] > 0]
        kept = {row: None for row in kept if row[0][variable] == 0}
        for lower_times, lower_bound in lowers:
            for upper_times, upper_bound in uppers:
                divisor = gcd(lower_times[variable], upper_times[variable])
                for_lower, for_upper = upper_times[variable] // divisor, -lower_times[variable] // divisor
                times = tuple([for_lower * low + for_upper * up for low, up in zip(lower_times, upper_times)])
                bound = for_lower * lower_bound + for_upper * upper_bound
                if max(bound, *times) > NUMBER_LIMIT or min(bound, *times) < -NUMBER_LIMIT:
                    return "wide"
                kept[cut((times, bound))] = None
                if len(kept) > ROW_LIMIT:
                    return "rows"
