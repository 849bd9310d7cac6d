"""Terms of the prover, their order and their linear forms."""
from __future__ import annotations

from dataclasses import dataclass
from functools import cmp_to_key

NUMBER_LIMIT = 1 << 60      # numbers of forms and rows beyond it are Wide
NODE_LIMIT = 20_000
HEIGHT_LIMIT = 1_000

# A sort is "Z", "B", ("ISZ", element) or ("record", number).
KINDS = ["literal", "T", "F", "symbol", "bound", "negative", "!", "+", "-", "*", "/", "%", "&", "|", "->:", "==", "<", "<=", "size",
         "read", "update", "append", "ISZ", "record", "field", "All", "Exists"]
RANK = {kind: rank for rank, kind in enumerate(KINDS)}
NUMBERS = {"literal", "bound", "negative", "+", "-", "*", "/", "%", "size"}
TRUTHS = {"T", "F", "!", "&", "|", "->:", "==", "<", "<=", "All", "Exists"}


@dataclass(eq=False, slots=True)
class Term:
    """A tree. Equal trees are one object, so terms that share parts stay small and are compared by what they are."""
    kind: str
    number: int             # a literal's value, or the number of a symbol, a bound variable, a record or a field's place
    sort: object
    parts: tuple[Term, ...]
    nodes: int
    height: int
    loose: int              # one more than the greatest loose bound variable, 0 where there is none

    @property
    def is_small(self) -> bool:
        return self.nodes <= NODE_LIMIT and self.height <= HEIGHT_LIMIT


class Terms:
    """Makes each tree once."""

    def __init__(self) -> None:
        self.made: dict[tuple, Term] = {}
        self.instances: dict[tuple, Term] = {}

    def make(self, kind: str, *parts: Term, number: int = 0, sort=None) -> Term:
        if sort is None:
            sort = "Z" if kind in NUMBERS else "B"
        key = (kind, number, sort, parts)
        found = self.made.get(key)
        if found is None:
            loose = max((part.loose for part in parts), default=0)
            if kind == "bound":
                loose = number + 1
            elif kind in ("All", "Exists"):
                loose = max(parts[0].loose, parts[1].loose, parts[2].loose - 1)
            found = Term(kind, number, sort, parts, 1 + sum(part.nodes for part in parts),
                         1 + max((part.height for part in parts), default=0), loose)
            self.made[key] = found
        return found

    def literal(self, number: int) -> Term:
        return self.make("literal", number=number)

    def again(self, term: Term, parts: tuple[Term, ...]) -> Term:
        return term if parts == term.parts else self.make(term.kind, *parts, number=term.number, sort=term.sort)

    def instance(self, body: Term, by: Term, level: int = 0) -> Term:
        """The body with a closed term in place of the bound variable of that level."""
        if body.loose <= level:
            return body
        key = (body, by, level)
        if key not in self.instances:
            if body.kind == "bound":
                made = by if body.number == level else body
            elif body.kind in ("All", "Exists"):
                low, high, inner = body.parts
                made = self.again(body, (self.instance(low, by, level), self.instance(high, by, level),
                                         self.instance(inner, by, level + 1)))
            else:
                made = self.again(body, tuple(self.instance(part, by, level) for part in body.parts))
            self.instances[key] = made
        return self.instances[key]

    def default(self, sort, records: list) -> Term:
        if sort == "Z":
            return self.literal(0)
        if sort == "B":
            return self.make("F")
        if sort[0] == "ISZ":
            return self.make("ISZ", sort=sort)
        return self.make("record", *(self.default(it, records) for it in records[sort[1]]), number=sort[1], sort=sort)


def sort_key(sort) -> tuple:
    if sort in ("Z", "B"):
        return ("Z", "B").index(sort),
    return (2, *sort_key(sort[1])) if sort[0] == "ISZ" else (3, sort[1])


def compare(left: Term, right: Term) -> int:
    """The order of trees: by kind, then by the number or the sort in the node, then by the parts from the left.

    Of two lists of parts the shorter comes first.
    """
    if left is right:
        return 0
    if left.kind != right.kind:
        return RANK[left.kind] - RANK[right.kind]
    if left.number != right.number:
        return -1 if left.number < right.number else 1
    if left.kind == "ISZ" and left.sort != right.sort:
        return -1 if sort_key(left.sort) < sort_key(right.sort) else 1
    if len(left.parts) != len(right.parts):
        return len(left.parts) - len(right.parts)
    for left_part, right_part in zip(left.parts, right.parts):
        order = compare(left_part, right_part)
        if order:
            return order
    return 0


IN_ORDER = cmp_to_key(compare)


@dataclass(eq=False, slots=True)
class Form:
    """A linear form: how often each atom is taken, never 0 times, and a constant."""
    times: dict[Term, int]
    constant: int

    def plus(self, other: Form, factor: int = 1) -> Form:
        """This form and `factor` times the other."""
        times = dict(self.times)
        for atom, count in other.times.items():
            times[atom] = times.get(atom, 0) + factor * count
        return Form({atom: count for atom, count in times.items() if count}, self.constant + factor * other.constant)

    def scaled(self, factor: int) -> Form:
        return Form({}, 0).plus(self, factor)

    def is_narrow(self) -> bool:
        return all(abs(number) <= NUMBER_LIMIT for number in (self.constant, *self.times.values()))


class Forms:
    """The linear forms and the canonical trees of terms."""

    def __init__(self, terms: Terms) -> None:
        self.terms = terms
        self.forms: dict[Term, Form | None] = {}
        self.canonicals: dict[Term, Term] = {}
        self.all_narrow: dict[Term, bool] = {}

    def is_narrow(self, term: Term) -> bool:
        """Whether all numbers in a term, also those in bodies of quantifiers, have a form within the limit."""
        if term not in self.all_narrow:
            self.all_narrow[term] = all([self.is_narrow(part) for part in term.parts]) and (
                term.sort != "Z" or self.own_form(term) is not None)
        return self.all_narrow[term]

    def is_narrow_outside(self, term: Term) -> bool:
        """The same of the numbers that stand in no body of a quantifier."""
        if term.sort == "Z":
            return self.is_narrow(term)
        parts = term.parts[:2] if term.kind in ("All", "Exists") else term.parts
        return all(self.is_narrow_outside(part) for part in parts)

    def form(self, term: Term) -> Form | None:
        """The linear form, or None where it or the form of some part has a number beyond the limit."""
        return self.own_form(term) if self.is_narrow(term) else None

    def own_form(self, term: Term) -> Form | None:
        if term not in self.forms:
            made = self.form_over(term)
            self.forms[term] = made if made and made.is_narrow() else None
        return self.forms[term]

    def form_over(self, term: Term) -> Form | None:
        if term.kind == "literal":
            return Form({}, term.number)
        if term.kind in ("symbol", "bound"):
            return Form({term: 1}, 0)
        if not all(self.is_narrow(part) for part in term.parts):
            return None
        if term.kind not in ("negative", "+", "-", "*", "/", "%"):
            return Form({self.terms.again(term, tuple(self.canonical(part) for part in term.parts)): 1}, 0)
        parts = [self.own_form(part) for part in term.parts]
        if term.kind == "negative":
            return parts[0].scaled(-1)
        left, right = parts
        if term.kind in ("+", "-"):
            return left.plus(right, 1 if term.kind == "+" else -1)
        if term.kind == "*" and not left.times:
            return right.scaled(left.constant)
        if term.kind == "*" and not right.times:
            return left.scaled(right.constant)
        operands = [self.term_of(left), self.term_of(right)]
        if term.kind == "*":
            operands.sort(key=IN_ORDER)
        elif term.kind == "%" and not right.times and right.constant >= 1:
            return left.plus(Form({self.terms.make("/", *operands): 1}, 0), -right.constant)    # a - c * (a / c)
        return Form({self.terms.make(term.kind, *operands): 1}, 0)

    def term_of(self, form: Form) -> Term:
        """The parts in the order of their atoms, added from the left, and last the constant where it says something."""
        addends = [atom if form.times[atom] == 1 else self.terms.make("*", self.terms.literal(form.times[atom]), atom)
                   for atom in sorted(form.times, key=IN_ORDER)]
        if form.constant or not addends:
            addends.append(self.terms.literal(form.constant))
        total = addends[0]
        for addend in addends[1:]:
            total = self.terms.make("+", total, addend)
        return total

    def canonical(self, term: Term) -> Term:
        """The term with each number as the term of its form, at every depth; a number without one stands for itself whole."""
        if term not in self.canonicals:
            if term.sort == "Z":
                form = self.form(term)
                made = term if form is None else self.term_of(form)
            else:
                made = self.terms.again(term, tuple(self.canonical(part) for part in term.parts))
            self.canonicals[term] = made
        return self.canonicals[term]
