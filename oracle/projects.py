"""Random projects of the whole language: well-typed ones, and mutants of them."""
from __future__ import annotations

import random
import re

ORDER = ["<", "<=", ">", ">="]
ARROWS = ["->:", "-->:", "__>:", "___>:"]


class Scope:
    def __init__(self, names: dict[str, tuple[str, str]]) -> None:
        self.names = names      # the kind and the type of each name: "val", "var", "param", "bound", "global val", "global var"

    def of(self, type_: str, kinds: tuple[str, ...] = ()) -> list[str]:
        return [name for name, (kind, own) in self.names.items() if own == type_ and (not kinds or kind in kinds)]

    def plus(self, name: str, kind: str, type_: str) -> Scope:
        return Scope({**self.names, name: (kind, type_)})


class Writer(random.Random):
    """Writes a project; a type is its text."""

    def chance(self, share: float) -> bool:
        return self.random() < share

    def fresh(self, stem: str) -> str:
        self.used = getattr(self, "used", 0) + 1
        return f"{stem}{self.used}"

    # ---- declarations

    def project(self) -> str:
        self.records: dict[str, list[tuple[str, str]]] = {}
        self.methods: dict[str, tuple[list[str], str, list[str]]] = {}
        lines, scope = ["// #Sireum #Logika", "import org.sireum._"] if self.chance(0.3) else [], Scope({})
        for _ in range(self.choice([0, 0, 1, 1, 2])):
            name = self.fresh("R")
            fields = [(self.fresh("f"), self.type()) for _ in range(self.randint(1, 3))]
            self.records[name] = fields
            lines.append(f"@datatype class {name}({', '.join(f'{field}: {type_}' for field, type_ in fields)})")
        for _ in range(self.choice([0, 1, 1, 2, 3])):
            name, type_, word = self.fresh("g"), self.type(), self.choice(["val", "var", "var"])
            written = f": {type_}" if self.chance(0.8) or type_.startswith("ISZ") else ""
            lines.append(f"{word} {name}{written} = {self.constant(type_)}")
            scope = scope.plus(name, f"global {word}", type_)
        heads = []
        for _ in range(self.choice([1, 1, 2, 3])):
            name, params = self.fresh("m"), [(self.fresh("p"), self.type()) for _ in range(self.randint(0, 3))]
            result = self.choice(["Unit", "Z", "Z", "B", self.type()])
            modifies = [it for it, (kind, _) in scope.names.items() if kind == "global var" and self.chance(0.5)]
            self.methods[name] = ([type_ for _, type_ in params], result, modifies)
            heads.append((name, params))
        self.shuffle(heads)
        for name, params in heads:
            lines += self.method(name, params, scope)
        return "\n".join(lines) + "\n"

    def type(self) -> str:
        choices = ["Z", "Z", "Z", "B", "B", "ISZ[Z]", "ISZ[B]"]
        for name in self.records:
            choices += [name, f"ISZ[{name}]"]
        return self.choice(choices)

    def constant(self, type_: str) -> str:
        if type_ == "Z":
            return str(self.randint(-5, 20))
        if type_ == "B":
            return self.choice("TF")
        if type_.startswith("ISZ["):
            return f"{type_}({', '.join(self.constant(type_[4:-1]) for _ in range(self.randint(0, 3)))})"
        return f"{type_}({', '.join(self.constant(it) for _, it in self.records[type_])})"

    # ---- expressions

    def expr(self, type_: str, scope: Scope, depth: int, claim: bool = False) -> str:
        """An expression of a type; one of claims may have quantifiers."""
        names = scope.of(type_)
        if depth <= 0 or self.chance(0.2):
            if names and self.chance(0.8):
                return self.choice(names)
            return self.constant(type_)
        options = [self.part_of(type_, scope, depth, claim)] if self.chance(0.5) else []
        less = depth - 1
        if type_ == "Z":
            operator = self.choice("+-*/%+-+-")
            right = self.expr("Z", scope, less, claim)
            if operator == "-" and right.startswith("-"):
                right = f"({right})"
            options.append(f"({self.expr('Z', scope, less, claim)} {operator} {right})")
            sequences = [name for name, (_, own) in scope.names.items() if own.startswith("ISZ[")]
            if sequences:
                options.append(f"{self.choice(sequences)}.size")
        elif type_ == "B":
            options += self.truths(scope, less, claim)
        elif type_.startswith("ISZ["):
            sequence, element = self.expr(type_, scope, less, claim), type_[4:-1]
            if self.chance(0.6):
                options.append(f"{self.headed(sequence)}({self.index(scope, less, claim)} ~> {self.expr(element, scope, less, claim)})")
            else:
                options.append(f"({sequence} :+ {self.expr(element, scope, less, claim)})")
        else:
            options.append(f"{type_}({', '.join(self.expr(it, scope, less, claim) for _, it in self.records[type_])})")
        return self.choice([it for it in options if it])

    @staticmethod
    def headed(text: str) -> str:
        return text if re.fullmatch(r"[\w.\[\]]+(\(.*\))?", text) else f"({text})"

    def index(self, scope: Scope, depth: int, claim: bool) -> str:
        return self.choice(["0", "1", "2", self.expr("Z", scope, depth, claim)])

    def part_of(self, type_: str, scope: Scope, depth: int, claim: bool) -> str | None:
        """A read of a sequence, or a field of a record."""
        choices = [name for name, (_, own) in scope.names.items() if own == f"ISZ[{type_}]"]
        if choices:
            return f"{self.choice(choices)}({self.index(scope, depth - 1, claim)})"
        fields = [(name, field) for name, (_, own) in scope.names.items() if own in self.records
                  for field, it in self.records[own] if it == type_]
        if fields:
            name, field = self.choice(fields)
            return f"{name}.{field}"
        return None

    def truths(self, scope: Scope, depth: int, claim: bool) -> list[str]:
        def part(type_: str) -> str:
            return self.expr(type_, scope, depth, claim)

        options = [f"({part('Z')} {self.choice(ORDER)} {part('Z')})", f"({part('Z')} {self.choice(ORDER)} {part('Z')})",
                   f"({part('B')} {self.choice(['&', '|', '&&', '||', *ARROWS])} {part('B')})", f"!{part('B')}"]
        type_ = self.type()
        options.append(f"({part(type_)} {self.choice(['==', '!='])} {part(type_)})")
        if claim and self.chance(0.6):
            name = self.fresh("k")
            inner = scope.plus(name, "bound", "Z")
            sequences = [it for it, (_, own) in scope.names.items() if own.startswith("ISZ[")]
            ends = f"{self.choice(sequences)}.indices" if sequences and self.chance(0.6) else f"{part('Z')} until {part('Z')}"
            word = self.choice(["All", "All", "Exists", "\u2200", "\u2203"])
            options += [f"{word}({ends})({name} => {self.expr('B', inner, depth, True)})"] * 2
        return options

    def claims(self, scope: Scope, most: int) -> list[str]:
        return [self.expr("B", scope, self.choice([1, 1, 2]), True) for _ in range(self.randint(0, most))]

    # ---- methods

    def method(self, name: str, params: list[tuple[str, str]], scope: Scope) -> list[str]:
        types, result, modifies = self.methods[name]
        self.result, self.modifies = result, modifies
        for param, type_ in params:
            scope = scope.plus(param, "param", type_)
        ending = scope.plus("Res", "val", result) if result != "Unit" else scope
        for it in modifies:
            ending = ending.plus(f"In({it})", "val", scope.names[it][1])
        parts = [f"Requires({', '.join(it)})" for it in [self.claims(scope, 2)] if it]
        parts += [f"Modifies({', '.join(modifies)})"] if modifies else []
        parts += [f"Ensures({', '.join(it)})" for it in [self.claims(ending, 2)] if it]
        lines = [f"def {name}({', '.join(f'{param}: {type_}' for param, type_ in params)}): {result} = {{"]
        if parts:
            lines.append(f"  Contract({', '.join(parts)})")
        self.can_change = set(modifies)
        body, scope = self.block(scope, 2, self.randint(0, 4))
        lines += ["  " + line for line in body]
        if result != "Unit":
            lines.append(f"  return {self.expr(result, scope, 2)}")
        return [*lines, "}"]

    def block(self, scope: Scope, depth: int, count: int) -> tuple[list[str], Scope]:
        lines: list[str] = []
        for _ in range(count):
            found, scope = self.statement(scope, depth)
            lines += found
        return lines, scope

    def changeable(self, scope: Scope) -> list[str]:
        return [it for it, (kind, _) in scope.names.items()
                if (kind == "var" and it not in self.kept) or (kind == "global var" and it in self.can_change)]

    kept: frozenset[str] = frozenset()      # locals that no loop around here lets change

    def right_side(self, type_: str, scope: Scope) -> str:
        calls = [name for name, (_, result, modifies) in self.methods.items() if result == type_ and set(modifies) <= self.can_change]
        if calls and self.chance(0.4):
            return self.call(self.choice(calls), scope)
        return self.expr(type_, scope, self.choice([1, 2]))

    def call(self, name: str, scope: Scope) -> str:
        return f"{name}({', '.join(self.expr(it, scope, 1) for it in self.methods[name][0])})"

    def statement(self, scope: Scope, depth: int) -> tuple[list[str], Scope]:
        kind = self.choice(["val", "var", "var", "assign", "assign", "assert", "call", "if", "while", "Deduce"][:10 if depth else 7])
        changeable = self.changeable(scope)
        calls = [name for name, (_, _, modifies) in self.methods.items() if set(modifies) <= self.can_change]
        if kind == "assign" and changeable:
            name = self.choice(changeable)
            return [f"{name} = {self.right_side(scope.names[name][1], scope)}"], scope
        if kind == "call" and calls:
            return [self.call(self.choice(calls), scope)], scope
        if kind == "assert":
            return [f"assert({self.expr('B', scope, 2, True)})"], scope
        if kind == "if":
            body, _ = self.block(scope, depth - 1, self.randint(0, 2))
            lines = [f"if ({self.expr('B', scope, 1)}) {{", *("  " + line for line in body), "}"]
            if self.chance(0.5):
                body, _ = self.block(scope, depth - 1, self.randint(0, 2))
                lines[-1:] = ["} else {", *("  " + line for line in body), "}"]
            return lines, scope
        if kind == "while" and changeable:
            return self.loop(scope, depth, changeable), scope
        if kind == "Deduce":
            return [f"Deduce({', '.join(self.steps(scope))})"], scope
        word, type_, name = "val" if kind == "val" else "var", self.type(), self.fresh("x")
        written = f": {type_}" if self.chance(0.7) else ""
        return [f"{word} {name}{written} = {self.right_side(type_, scope)}"], scope.plus(name, word, type_)

    def loop(self, scope: Scope, depth: int, changeable: list[str]) -> list[str]:
        named = [it for it in changeable if self.chance(0.7)] or changeable[:1]
        invariant = self.claims(scope, 2)
        head = f"  Invariant({', '.join(['Modifies(' + ', '.join(named) + ')', *invariant])})"
        outer = self.can_change, self.kept
        self.can_change &= set(named)
        self.kept |= {it for it, (kind, _) in scope.names.items() if kind == "var" and it not in named}
        body, _ = self.block(scope, depth - 1, self.randint(0, 2))
        self.can_change, self.kept = outer
        return [f"while ({self.expr('B', scope, 1)}) {{", head, *("  " + line for line in body), "}"]

    def steps(self, scope: Scope) -> list[str]:
        olds = {f"Old({it})": ("val", type_) for it, (kind, type_) in scope.names.items() if kind in ("var", "global var")}
        wider = Scope({**scope.names, **(olds if self.chance(0.3) else {})})
        a, b = (self.expr("B", wider, 1, True) for _ in range(2))
        name = self.fresh("k")
        low, high = "0", self.expr("Z", wider, 0)
        body = self.expr("B", wider.plus(name, "bound", "Z"), 1, True)
        proofs = [
            [f"1 ({a}) by Auto"], [f"1 ({a}) by Premise", f"2 ({a} | {b}) by OrI1(1)"],
            [f"1 ({a}) by Auto", f"2 ({b}) by Auto", f"3 ({a} & {b}) by AndI(1, 2)", "4 (T) by Algebra(3)"],
            [f"1 SubProof(2 Assume({a}), 3 ({b}) by Auto)", f"4 ({a} ->: {b}) by ImplyI(1)"],
            [f"1 SubProof(2 Assume({a}))", f"3 ({a} ->: {a}) by ImplyI(1)"],
            [f"1 Let(({name}: Z) => SubProof(2 Assume({low} <= {name} & {name} < {high}), 3 ({body}) by Auto))",
             f"4 (All({low} until {high})({name} => {body})) by AllI(1)"],
            [f"1 SubProof(2 Assume(!{self.headed(a)}), 3 (F) by Auto)", f"4 ({a}) by PbC(1)"],
            ["1 (T) by Auto", f"2 ({low} == {high}) by Auto", f"3 ({high} <= {low}) by Algebra(2)"],
            [f"1 ({low} == {high}) by Premise", f"2 ({high} >= 0) by Auto", f"3 ({low} >= 0) by Subst_<(1, 2)"],
        ]
        return self.choice(proofs)


WORDS = """( ) ( ) { } [ ] , , ; : . = => == ! != - + * / % & && | || :+ ~> ->: -->: ___>: __>: -> < <= > >= @ |- x 0 1 007 T F Z B Unit ISZ
Res In Old All Exists val var def class import if else while return assert Deduce Contract Requires Modifies Ensures Invariant by
SubProof Assume Let Proof until datatype size indices match for object _ // /* */ \u00e9 \u2200 \u2203 # \u00a0 Subst_< Subst_
4294967295 4294967296 170141183460469231731687303715884105727 170141183460469231731687303715884105728""".split() + ["\n", "\n"]
PIECE = re.compile(r"_*->:|_+>:|-+>:|Subst_[<>]|\w+|[=!<>]=|~>|=>|:\+|&&|\|\||\n|[ \t]+|.")


def mutant(make: Writer, text: str) -> str:
    """The text with some tokens left out, doubled, exchanged, replaced or put in."""
    pieces = PIECE.findall(text)
    solid = [index for index, piece in enumerate(pieces) if piece.strip(" \t")]
    for _ in range(make.choice([1, 1, 1, 2, 3])):
        one, other = make.choice(solid), make.choice(solid)
        kind = make.randint(0, 6)
        if kind == 0:
            pieces[one] = ""
        elif kind == 1:
            pieces[one] += " " + pieces[one]
        elif kind == 2:
            pieces[one], pieces[other] = pieces[other], pieces[one]
        elif kind == 3:
            pieces[one] = make.choice(WORDS)
        elif kind == 4:
            pieces[one] += " " + make.choice(WORDS) + " "
        elif kind == 5:
            pieces[one] = pieces[other]
        else:
            return "".join(pieces[:one])
    return "".join(pieces)


def project_of(seed: int, index: int) -> tuple[str, str]:
    """The kind and the text of one project."""
    make = Writer(f"{seed} {index}")
    text = make.project()
    if make.chance(0.5):
        return "mutant", mutant(make, text)
    return "project", text
