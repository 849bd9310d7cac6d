"""The trees of the whole language, built from the tokens of a text that the grammar reads."""
from __future__ import annotations

from dataclasses import dataclass, field

from text import LEVELS, ARROWS, Place, Token, checked


@dataclass(slots=True)
class Name:
    text: str
    place: Place


@dataclass(slots=True)
class Type:
    """`Z`, `B`, `Unit`, `ISZ` with its element, or a name."""
    word: str
    place: Place
    element: Type | None = None


@dataclass(slots=True)
class Expr:
    """The operator is that of the text, "negative" for the prefix `-`, or "number", "T", "F", "name", "Res", "In", "Old", "ISZ",
    "apply" (head and arguments), "update" (head, place, value), "field" (head), "All" or "Exists" (of the ends of its range, or of
    the sequence of its indices, and its body)."""
    op: str
    parts: list[Expr]
    place: Place
    value: int = 0
    name: Name | None = None        # of a name, a field, the variable of In and Old, a bound variable
    type: Type | None = None        # of `Res` and `ISZ`
    indices: bool = False           # the range is that of the indices of a sequence


@dataclass(slots=True)
class Step:
    label: int
    place: Place                    # of the label
    claim: Expr                     # of a block the assumption
    rule: Name | None = None
    cites: list[int] = field(default_factory=list)
    assumed: int = 0                # the label of the assumption, and its place
    assumed_place: Place = (0, 0)
    let: Name | None = None
    steps: list[Step] = field(default_factory=list)

    @property
    def is_block(self) -> bool:
        return self.rule is None


@dataclass(slots=True)
class Stmt:
    """The kind is "val", "var", "assign", "call", "if", "while", "assert", "Deduce" or "return"."""
    kind: str
    place: Place
    name: Name | None = None
    type: Type | None = None
    value: Expr | None = None       # also the test and the claim; a call is an application of its name
    body: list[Stmt] = field(default_factory=list)
    other: list[Stmt] = field(default_factory=list)
    modifies: list[Name] = field(default_factory=list)
    claims: list[Expr] = field(default_factory=list)
    steps: list[Step] = field(default_factory=list)


@dataclass(slots=True)
class Global:
    name: Name
    is_var: bool
    type: Type | None
    value: Expr


@dataclass(slots=True)
class Record:
    name: Name
    fields: list[tuple[Name, Type]]


@dataclass(slots=True)
class Method:
    name: Name
    params: list[tuple[Name, Type]]
    result: Type
    requires: list[Expr] = field(default_factory=list)
    modifies: list[Name] = field(default_factory=list)
    ensures: list[Expr] = field(default_factory=list)
    body: list[Stmt] = field(default_factory=list)


class Builder:
    """Takes the tokens of forms from the left. All texts that reach it stand in the grammar, so nothing is refused here."""

    def __init__(self, tokens: list[Token]) -> None:
        self.tokens, self.index = tokens, 0

    @property
    def token(self) -> Token:
        return self.tokens[self.index]

    def next(self) -> Token:
        self.index += 1
        return self.tokens[self.index - 1]

    def is_at(self, text: str) -> bool:
        return self.token.kind in ("sign", "word") and self.token.text == text

    def take(self, text: str) -> Token:
        assert self.is_at(text), (text, self.token)
        return self.next()

    def takes(self, text: str) -> bool:
        if self.is_at(text):
            self.next()
            return True
        return False

    def newline(self) -> None:
        if self.token.kind == "newline":
            self.next()

    def name(self) -> Name:
        token = self.next()
        assert token.kind == "name", token
        return Name(token.text, token.place)

    def listed(self, member):
        """The members of a list in round brackets whose first bracket is the next token."""
        self.take("(")
        found = []
        while not self.takes(")"):
            found.append(member())
            self.takes(",")
        return found

    def file(self) -> list:
        found = []
        while self.token.kind != "end":
            declared = self.declaration()
            if declared:
                found.append(declared)
            self.newline()
        return found

    def declaration(self):
        if self.takes("import"):
            self.name()
            while self.takes("."):
                self.name()
            return None
        if self.is_at("val") or self.is_at("var"):
            is_var = self.next().text == "var"
            name, type_ = self.name(), self.optional_type()
            self.take("=")
            return Global(name, is_var, type_, self.constant())
        if self.takes("@"):
            self.name()
            self.take("class")
            return Record(self.name(), self.listed(self.parameter))
        self.take("def")
        name, params = self.name(), self.listed(self.parameter)
        self.take(":")
        method = Method(name, params, self.type())
        self.take("=")
        self.take("{")
        if self.takes("Contract"):
            self.take("(")
            while not self.takes(")"):
                word = self.next().text
                members = self.listed(self.name if word == "Modifies" else self.expr)
                setattr(method, word.lower(), members)
                self.takes(",")
            self.newline()
        method.body = self.statements()
        return method

    def parameter(self) -> tuple[Name, Type]:
        self.takes("val")
        name = self.name()
        self.take(":")
        return name, self.type()

    def optional_type(self) -> Type | None:
        return self.type() if self.takes(":") else None

    def type(self) -> Type:
        token = self.next()
        if token.text == "ISZ":
            self.take("[")
            element = self.type()
            self.take("]")
            return Type("ISZ", token.place, element)
        return Type(token.text, token.place)

    def constant(self) -> Expr:
        token = self.next()
        if token.text == "-":
            number = self.next()
            return Expr("negative", [Expr("number", [], number.place, value=number.value)], token.place)
        if token.kind == "number":
            return Expr("number", [], token.place, value=token.value)
        if token.text in ("T", "F") and token.kind == "word":
            return Expr(token.text, [], token.place)
        if token.text == "ISZ" and token.kind == "word":
            return self.sequence(token, self.constant)
        head = Expr("name", [], token.place, name=Name(token.text, token.place))
        return Expr("apply", [head, *self.listed(self.constant)], token.place)

    def sequence(self, token: Token, member) -> Expr:
        type_ = None
        if self.takes("["):
            type_ = self.type()
            self.take("]")
        return Expr("ISZ", self.listed(member), token.place, type=type_)

    # ---- statements

    def statements(self) -> list[Stmt]:
        found = []
        while not self.takes("}"):
            found.append(self.statement())
            self.newline()
        return found

    def statement(self) -> Stmt:
        place = self.token.place
        if self.token.kind == "name":
            name = self.name()
            if self.takes("="):
                return Stmt("assign", place, name, value=self.expr())
            head = Expr("name", [], place, name=name)
            return Stmt("call", place, name, value=Expr("apply", [head, *self.listed(self.expr)], place))
        word = self.next().text
        if word in ("val", "var"):
            name, type_ = self.name(), self.optional_type()
            self.take("=")
            return Stmt(word, place, name, type_, self.expr())
        if word == "return":
            return Stmt(word, place, value=self.expr())
        if word == "Deduce":
            return Stmt(word, place, steps=self.listed(self.step))
        self.take("(")
        value = self.expr()
        self.take(")")
        if word == "assert":
            return Stmt(word, place, value=value)
        self.take("{")
        if word == "if":
            body, other = self.statements(), []
            if self.takes("else"):
                other = [self.statement()] if self.is_at("if") else self.block()
            return Stmt(word, place, value=value, body=body, other=other)
        self.take("Invariant")
        self.take("(")
        self.take("Modifies")
        modifies, claims = self.listed(self.name), []
        while not self.takes(")"):
            if not self.takes(","):
                claims.append(self.expr())
        self.newline()
        return Stmt(word, place, value=value, body=self.statements(), modifies=modifies, claims=claims)

    def block(self) -> list[Stmt]:
        self.take("{")
        return self.statements()

    def label(self) -> int:
        return self.next().value

    def step(self) -> Step:
        place, label = self.token.place, self.label()
        let = None
        if self.takes("Let"):
            self.take("(")
            self.take("(")
            let = self.name()
            self.take(":")
            self.take("Z")
            self.take(")")
            self.take("=>")
            found = self.sub(label, place, let)
            self.take(")")
            return found
        if self.is_at("SubProof"):
            return self.sub(label, place, None)
        self.take("(")
        claim = self.expr()
        self.take(")")
        self.take("by")
        token = self.next()
        cites = self.listed(self.label) if self.is_at("(") else []
        return Step(label, place, claim, Name(token.text, token.place), cites)

    def sub(self, label: int, place: Place, let: Name | None) -> Step:
        self.take("SubProof")
        self.take("(")
        assumed_place, assumed = self.token.place, self.label()
        self.take("Assume")
        self.take("(")
        claim = self.expr()
        self.take(")")
        steps = []
        while not self.takes(")"):
            if not self.takes(","):
                steps.append(self.step())
        return Step(label, place, claim, assumed=assumed, assumed_place=assumed_place, let=let, steps=steps)

    # ---- expressions

    def expr(self, level: int = 0) -> Expr:
        if level == len(LEVELS):
            return self.prefixed()
        operands, operators = [self.expr(level + 1)], []
        while self.token.kind == "sign" and self.token.text in LEVELS[level]:
            operators.append(self.next().text)
            operands.append(self.expr(level + 1))
        if operators and operators[0] in ARROWS:
            joined = operands[-1]
            for operator, operand in zip(reversed(operators), reversed(operands[:-1])):
                joined = Expr(operator, [operand, joined], operand.place)
            return joined
        joined = operands[0]
        for operator, operand in zip(operators, operands[1:]):
            joined = Expr(operator, [joined, operand], joined.place)
        return joined

    def prefixed(self) -> Expr:
        place = self.token.place
        if self.takes("-"):
            return Expr("negative", [self.prefixed()], place)
        if self.takes("!"):
            return Expr("!", [self.prefixed()], place)
        head = self.primary()
        while self.is_at("(") or self.is_at("."):
            if self.takes("."):
                head = Expr("field", [head], head.place, name=self.name())
                continue
            self.take("(")
            arguments: list[Expr] = []
            while not self.takes(")"):
                arguments.append(self.expr())
                if self.takes("~>"):
                    arguments.append(self.expr())
                    self.take(")")
                    head = Expr("update", [head, *arguments], head.place)
                    break
                self.takes(",")
            else:
                head = Expr("apply", [head, *arguments], head.place)
        return head

    def primary(self) -> Expr:
        token = self.next()
        if token.text == "(":
            inner = self.expr()
            self.take(")")
            return inner
        if token.kind == "number":
            return Expr("number", [], token.place, value=token.value)
        if token.kind == "name":
            return Expr("name", [], token.place, name=Name(token.text, token.place))
        if token.text in ("T", "F"):
            return Expr(token.text, [], token.place)
        if token.text == "Res":
            type_ = None
            if self.takes("["):
                type_ = self.type()
                self.take("]")
            return Expr("Res", [], token.place, type=type_)
        if token.text in ("In", "Old"):
            self.take("(")
            name = self.name()
            self.take(")")
            return Expr(token.text, [], token.place, name=name)
        if token.text == "ISZ":
            return self.sequence(token, self.expr)
        return self.quantified("All" if token.text in ("All", "\u2200") else "Exists", token.place)

    def quantified(self, op: str, place: Place) -> Expr:
        self.take("(")
        start = self.token
        ends = [self.expr()]
        if self.takes("until"):
            ends.append(self.expr())
        self.take(")")
        self.take("(")
        name = self.name()
        self.take("=>")
        body = self.expr()
        self.take(")")
        if len(ends) == 2:
            return Expr(op, [*ends, body], place, name=name)
        assert ends[0].op == "field" and ends[0].name.text == "indices", start
        return Expr(op, [ends[0].parts[0], body], place, name=name, indices=True)


def read(data: bytes) -> list:
    """The declarations of a text; where it has a fault, that is raised."""
    return Builder(checked(data)).file()
