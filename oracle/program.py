"""A typed project: its records, globals and methods, with every name resolved and every claim a tree over variables."""
from __future__ import annotations

from dataclasses import dataclass, field

from names import Project
from text import ARROWS, Place
from trees import Expr, Global, Method, Record, Step, Stmt, Type

Node = tuple[str, Place]        # a file and a place in it


@dataclass(frozen=True)
class Variable:
    """A local of a method, a global, the entry value of a global, or the result of a method; in a leg also those of a call."""
    kind: str                   # "local", "global", "entry", "result", "call"
    key: tuple
    sort: object = field(compare=False)


@dataclass(frozen=True)
class Claim:
    """A tree with the kinds of terms, and "variable", "old" and "let" in place of symbols."""
    kind: str
    parts: tuple[Claim, ...] = ()
    number: int = 0
    sort: object = None
    variable: Variable | None = None


@dataclass
class Noted:
    claim: Claim
    node: Node


@dataclass
class Code:
    kind: str
    node: Node
    target: Variable | None = None
    value: object = None                    # a Program expression; of an assertion a Noted
    body: list[Code] = field(default_factory=list)
    other: list[Code] = field(default_factory=list)
    modifies: list[Variable] = field(default_factory=list)
    invariant: list[Noted] = field(default_factory=list)
    steps: list = field(default_factory=list)
    method: str = ""                        # of a call
    arguments: list = field(default_factory=list)


@dataclass
class Program:
    """A program expression: its claim, its node, its operator in the text and its parts in the order of evaluation."""
    op: str
    claim: Claim
    node: Node
    parts: list[Program] = field(default_factory=list)


@dataclass
class ProofStep:
    label: int
    claim: Claim
    rule: str = ""
    cites: list[int] = field(default_factory=list)
    assumed: int = 0
    let: int | None = None                  # the label that its variable has
    steps: list[ProofStep] = field(default_factory=list)


@dataclass
class TypedMethod:
    name: str
    node: Node
    params: list[Variable] = field(default_factory=list)
    result: object = "Unit"
    requires: list[Noted] = field(default_factory=list)
    modifies: list[Variable] = field(default_factory=list)
    ensures: list[Noted] = field(default_factory=list)
    body: list[Code] = field(default_factory=list)

    @property
    def result_variable(self) -> Variable:
        return Variable("result", (self.name,), self.result)


KIND_OF = {"&&": "&", "||": "|", **{arrow: "->:" for arrow in ARROWS}}
BOOLEAN = {"!", "&", "|", "->:", "==", "<", "<="}


def claim_of(op: str, parts: list[Claim]) -> Claim:
    """What an operator of the text says of claims."""
    if op in (">", ">="):
        return claim_of("<" if op == ">" else "<=", parts[::-1])
    if op == "!=":
        return Claim("!", (claim_of("==", parts),), sort="B")
    if op == ":+":
        return Claim("append", tuple(parts), sort=parts[0].sort)
    kind = KIND_OF.get(op, op)
    return Claim(kind, tuple(parts), sort="B" if kind in BOOLEAN else "Z")


class Typed:
    """Only of a project without faults."""

    def __init__(self, files: list[tuple[str, list]]) -> None:
        self.project = Project(files)
        declared = [(name, it) for name, items in self.project.files for it in items]
        self.record_names = [it.name.text for _, it in declared if isinstance(it, Record)]
        self.record_fields = [[self.sort(type_) for _, type_ in it.fields] for _, it in declared if isinstance(it, Record)]
        self.field_names = [[name.text for name, _ in it.fields] for _, it in declared if isinstance(it, Record)]
        self.globals: dict[str, Variable] = {}
        self.is_var: dict[str, bool] = {}
        self.initial: dict[str, Claim] = {}
        for file, it in declared:
            if isinstance(it, Global):
                value = Resolver(self, file, None, {}).claim(it.value)
                name = it.name.text
                self.globals[name] = Variable("global", (name,), value.sort)
                self.is_var[name], self.initial[name] = it.is_var, value
        self.methods: dict[str, TypedMethod] = {}
        methods = [(file, it) for file, it in declared if isinstance(it, Method)]
        for file, it in methods:
            self.methods[it.name.text] = self.head(file, it)
        for file, it in methods:
            Resolver(self, file, self.methods[it.name.text], {}).method(it)

    def sort(self, type_: Type):
        if type_.word == "ISZ":
            return "ISZ", self.sort(type_.element)
        return type_.word if type_.word in ("Z", "B", "Unit") else ("record", self.record_names.index(type_.word))

    def head(self, file: str, it: Method) -> TypedMethod:
        name = it.name.text
        params = [Variable("local", (name, place), self.sort(type_)) for place, (_, type_) in enumerate(it.params)]
        return TypedMethod(name, (file, it.name.place), params, self.sort(it.result))

    def entry(self, name: str) -> Variable:
        return Variable("entry", (name,), self.globals[name].sort)


class Resolver:
    """Resolves the names of one method, or of constants."""

    def __init__(self, typed: Typed, file: str, method: TypedMethod | None, scope: dict) -> None:
        self.typed, self.file, self.owner, self.scope = typed, file, method, scope
        self.locals = 0
        self.bound = 0          # how many quantifiers stand around

    def node(self, place: Place) -> Node:
        return self.file, place

    # ---- expressions

    def variable(self, name: str) -> Claim:
        found = self.scope.get(name)
        if isinstance(found, int):
            return Claim("bound", number=self.bound - found - 1, sort="Z")
        if isinstance(found, Claim):
            return found
        variable = found or self.typed.globals[name]
        return Claim("variable", sort=variable.sort, variable=variable)

    def record(self, name: str) -> int | None:
        return self.typed.record_names.index(name) if name in self.typed.record_names and name not in self.scope else None

    def claim(self, expr: Expr) -> Claim:
        return self.program(expr).claim

    def program(self, expr: Expr) -> Program:
        op, node = expr.op, self.node(expr.place)
        if op == "number":
            return Program(op, Claim("literal", number=expr.value, sort="Z"), node)
        if op in ("T", "F"):
            return Program(op, Claim(op, sort="B"), node)
        if op == "name":
            return Program(op, self.variable(expr.name.text), node)
        if op == "Res":
            variable = self.owner.result_variable
            return Program(op, Claim("variable", sort=variable.sort, variable=variable), node)
        if op == "In":
            variable = self.typed.entry(expr.name.text)
            return Program(op, Claim("variable", sort=variable.sort, variable=variable), node)
        if op == "Old":
            variable = self.scope.get(expr.name.text) or self.typed.globals[expr.name.text]
            return Program(op, Claim("old", sort=variable.sort, variable=variable), node)
        if op in ("All", "Exists"):
            return Program(op, self.quantifier(expr), node)
        if op == "apply" and expr.parts[0].op == "name":
            number = self.record(expr.parts[0].name.text)
            if number is not None:
                parts = [self.program(it) for it in expr.parts[1:]]
                claim = Claim("record", tuple(it.claim for it in parts), number, ("record", number))
                return Program("record", claim, node, parts)
        parts = [self.program(it) for it in expr.parts]
        claims = [it.claim for it in parts]
        if op == "apply":
            return Program("read", Claim("read", tuple(claims), sort=claims[0].sort[1]), node, parts)
        if op == "update":
            return Program(op, Claim("update", tuple(claims), sort=claims[0].sort), node, parts)
        if op == "field" and claims[0].sort[0] == "ISZ":
            return Program("size", Claim("size", tuple(claims), sort="Z"), node, parts)
        if op == "field":
            number = claims[0].sort[1]
            place = self.typed.field_names[number].index(expr.name.text)
            return Program(op, Claim("field", tuple(claims), place, self.typed.record_fields[number][place]), node, parts)
        if op == "ISZ":
            element = self.typed.sort(expr.type) if expr.type else claims[0].sort
            return Program(op, Claim("ISZ", tuple(claims), sort=("ISZ", element)), node, parts)
        return Program(op, claim_of(op, claims), node, parts)

    def quantifier(self, expr: Expr) -> Claim:
        ends = [self.claim(it) for it in expr.parts[:-1]]
        if expr.indices:
            ends = [Claim("literal", sort="Z"), Claim("size", (ends[0],), sort="Z")]
        outer = self.scope
        self.scope = {**outer, expr.name.text: self.bound}
        self.bound += 1
        body = self.claim(expr.parts[-1])
        self.bound -= 1
        self.scope = outer
        return Claim(expr.op, (*ends, body), sort="B")

    def noted(self, expr: Expr) -> Noted:
        return Noted(self.claim(expr), self.node(expr.place))

    # ---- methods

    def method(self, it: Method) -> None:
        owner = self.owner
        self.scope = {name.text: param for (name, _), param in zip(it.params, owner.params)}
        self.locals = len(it.params)
        owner.requires = [self.noted(claim) for claim in it.requires]
        owner.modifies = [self.typed.globals[name.text] for name in it.modifies]
        owner.ensures = [self.noted(claim) for claim in it.ensures]
        owner.body = self.block(it.body)

    def block(self, statements: list[Stmt]) -> list[Code]:
        outer = dict(self.scope)
        found = [self.statement(it) for it in statements]
        self.scope = outer
        return found

    def target(self, name: str) -> Variable:
        return self.scope.get(name) or self.typed.globals[name]

    def statement(self, it: Stmt) -> Code:
        node = self.node(it.place)
        if it.kind in ("val", "var", "assign", "call"):
            value = it.value
            called = value.op == "apply" and value.parts[0].op == "name" and value.parts[0].name.text not in self.scope
            called = called and value.parts[0].name.text in self.typed.methods
            if called:
                head = value.parts[0]
                code = Code("call", node, method=head.name.text, arguments=[self.program(part) for part in value.parts[1:]])
                code.value = self.node(head.place)
                sort = self.typed.methods[code.method].result
            else:
                code = Code("set", node, value=self.program(value))
                sort = code.value.claim.sort
            if it.kind in ("val", "var"):
                code.target = Variable("local", (self.owner.name, self.locals), sort)
                self.locals += 1
                self.scope = {**self.scope, it.name.text: code.target}
            elif it.kind == "assign":
                code.target = self.target(it.name.text)
            return code
        if it.kind == "return":
            return Code("set", node, target=self.owner.result_variable, value=self.program(it.value))
        if it.kind == "assert":
            return Code("assert", node, value=self.noted(it.value))
        if it.kind == "if":
            return Code("if", node, value=self.program(it.value), body=self.block(it.body), other=self.block(it.other))
        if it.kind == "while":
            return Code("while", node, value=self.program(it.value), modifies=[self.target(name.text) for name in it.modifies],
                        invariant=[self.noted(claim) for claim in it.claims], body=self.block(it.body))
        return Code("Deduce", node, steps=[self.step(step) for step in it.steps])

    def step(self, it: Step) -> ProofStep:
        if not it.is_block:
            return ProofStep(it.label, self.claim(it.claim), it.rule.text, it.cites)
        outer = self.scope
        if it.let:
            self.scope = {**outer, it.let.text: Claim("let", number=it.label, sort="Z")}
        made = ProofStep(it.label, self.claim(it.claim), assumed=it.assumed, let=it.label if it.let else None,
                         steps=[self.step(step) for step in it.steps])
        self.scope = outer
        return made
