"""How a text of the whole language is read: tokens, newlines, nesting, grammar and the first fault.

An independent reading of the rules, written from their statement alone. The grammar is a table of productions, and what
goes on with which token is told by Earley's algorithm, so the first fault is found as it is defined: at the first token
with which no text of the language goes on. Trees are then built by a descent of their own.
"""
from __future__ import annotations

from dataclasses import dataclass
from functools import cache

Place = tuple[int, int]     # line and column, both from 1; columns count characters

TEXTS = {1: "not UTF-8", 2: "bad character", 3: "literal outside 128 bits", 4: "unexpected token", 5: "nesting above 200",
         6: "unknown name", 7: "duplicate name", 8: "type differs", 9: "argument count", 10: "assignment to a constant",
         11: "outside Modifies", 12: "call in the wrong place", 13: "loop without Invariant", 14: "form left out",
         15: "claim word out of place", 16: "more than 10000 methods"}


class TextFault(Exception):
    """The first fault of a text."""

    def __init__(self, code: int, place: Place) -> None:
        super().__init__(code, place)
        self.code, self.place = code, place


# ---------------------------------------------------------------- tokens

WORDS = set("""val var def class import if else while return assert Deduce Contract Requires Modifies Ensures Invariant
by SubProof Assume Let Proof All Exists Res In Old T F Z B Unit ISZ until""".split())
LEFT_OUT = set("""match for object trait abstract sealed case type lazy do try throw new this super assume halt yield
override extends package enum""".split())
SIGNS = """( ) [ ] { } , : . = => @ ~> == != < <= > >= + - * / % & | && || ! ->: -->: __>: ___>: :+ |- \u2200 \u2203
Subst_< Subst_>""".split()
LARGEST_NUMBER = (1 << 127) - 1
LARGEST_LABEL = (1 << 32) - 1
GO_ON_TOO = "\u200c\u200d\u30fb\uff65"     # letters that may go on in a name in newer tables of Unicode than Python's


@dataclass(slots=True)
class Token:
    kind: str           # "name", "number", "word", "sign", "newline", "end", or "bad"
    text: str
    place: Place
    value: int = 0      # of a number
    weight: int = 0


def place_behind(text: str) -> Place:
    return text.count("\n") + 1, len(text) - text.rfind("\n")


def decoded(data: bytes) -> str:
    try:
        return data.decode()
    except UnicodeDecodeError as error:
        raise TextFault(1, place_behind(data[:error.start].decode())) from None


def goes_on(letter: str) -> bool:
    return ("a" + letter).isidentifier() or letter in GO_ON_TOO


def piece_at(text: str, at: int) -> tuple[str, int]:
    """What stands at a place, and where it ends: a blank or comment, a newline, a token, or what is none."""
    first = text[at]
    if first in " \t\r":
        return "blank", at + 1
    if first in "\n;":
        return "newline", at + 1
    if text.startswith("//", at):
        end = text.find("\n", at)
        return "blank", len(text) if end < 0 else end
    if text.startswith("/*", at):
        end = text.find("*/", at + 2)
        return ("bad", len(text)) if end < 0 else ("blank", end + 2)
    kind, end = "bad", at
    if first.isidentifier():
        end = at + 1
        while end < len(text) and goes_on(text[end]):
            end += 1
        kind = "word" if text[at:end] in WORDS | LEFT_OUT else "name"
    elif first in "0123456789":
        end = at + 1
        while end < len(text) and text[end] in "0123456789":
            end += 1
        kind = "number"
    longest = max((len(sign) for sign in SIGNS if text.startswith(sign, at)), default=0)
    if at + longest > end:
        kind, end = "sign", at + longest
    return kind, max(end, at + 1)


def tokens_of(text: str) -> list[Token]:
    """All tokens with the newlines, up to the first bad one or the end."""
    tokens, at, line, column = [], 0, 1, 1
    while at < len(text):
        kind, end = piece_at(text, at)
        piece = text[at:end]
        if kind != "blank":
            value = int(piece.lstrip("0")[:60] or "0") if kind == "number" else 0
            tokens.append(Token(kind, piece, (line, column), value))
        if kind == "bad":
            return tokens
        at = end
        breaks = piece.count("\n")
        line, column = line + breaks, len(piece) - piece.rfind("\n") if breaks else column + len(piece)
    tokens.append(Token("end", "", (line, column)))
    return tokens


# ---------------------------------------------------------------- newlines and nesting

ENDS_STATEMENT = {"T", "F", "Z", "B", "Unit", "ISZ", "Res", ")", "]", "}"}
BEGINS_NO_STATEMENT = {"else", "by", ",", ".", ":", "=", "=>", "[", ")", "]", "}"}


def newline_place(run: list[Token]) -> Token:
    """Of several newlines in a row the last `;` stands for all, and where there is none the first newline."""
    semicolons = [token for token in run if token.text == ";"]
    return semicolons[-1] if semicolons else run[0]


def without_idle_newlines(tokens: list[Token]) -> list[Token]:
    kept: list[Token] = []
    opened: list[tuple[str, bool]] = []     # each open bracket, and whether it is that of an `if` or a `while`
    run: list[Token] = []
    condition_ended = False
    for token in tokens:
        if token.kind == "newline":
            run.append(token)
            continue
        if run and kept:
            before, inside = kept[-1], opened[-1][0] if opened else ""
            ends = before.kind in ("name", "number") or before.text in ENDS_STATEMENT
            begins = token.kind == "bad" or token.text not in BEGINS_NO_STATEMENT
            annotation = before.text == "datatype" and len(kept) > 1 and kept[-2].text == "@"
            block = condition_ended and token.text == "{"
            if inside not in ("(", "[") and ends and begins and not annotation and not block:
                kept.append(newline_place(run))
        run = []
        condition_ended = False
        if token.kind == "sign" and token.text in "([{":
            opened.append((token.text, bool(kept) and kept[-1].text in ("if", "while") and token.text == "("))
        elif token.kind == "sign" and token.text in ")]}" and opened:
            condition_ended = opened.pop()[1] and token.text == ")"
        kept.append(token)
    return kept


COUNTED = set("___>: __>: -->: ->: == != <= >= && || :+ < > + - * / % & | ! . else ( [ {".split())
WEIGHT_LIMIT = 200


def weigh(tokens: list[Token]) -> None:
    counts = [0]
    for token in tokens:
        if token.kind == "newline" or token.text == ",":
            counts[-1] = 0
        elif token.kind in ("sign", "word") and token.text in COUNTED:
            counts[-1] += 1
            token.weight = sum(counts)
        if token.kind == "sign" and token.text in "([{":
            counts.append(0)
        elif token.kind == "sign" and token.text in ")]}" and len(counts) > 1:
            counts.pop()


# ---------------------------------------------------------------- the grammar

# A symbol is a form (a key of FORMS) or a terminal: a class in angle brackets, or the text of a token.
LEVELS = [["__>:", "___>:"], ["|", "||"], ["&", "&&"], ["==", "!="], ["<", "<=", ">", ">="], [":+"],
          ["+", "-", "->:", "-->:"], ["*", "/", "%"]]
ARROWS = ("->:", "-->:", "__>:", "___>:")


def forms() -> dict[str, list[list[str]]]:
    table: dict[str, list[list[str]]] = {}

    def form(name: str, *alternatives: str) -> None:
        table[name] = [alternative.split() for alternative in alternatives]

    def members(name: str, member: str) -> None:
        """One or more members with commas between, and a comma behind the last or not."""
        form(name, f"{member}", f"{member} ,", f"{member} , {name}")

    form("file", "<end>", "declaration <end>", "declaration <newline> file")
    form("declaration", "import import-name dotted", "binder <name> typed = const",
         "@ <datatype> class <name> ( fields )", "def <name> ( ) : type = body", "def <name> ( params ) : type = body")
    form("import-name", "<name>", "_")
    form("dotted", "", ". import-name dotted")
    form("binder", "val", "var")
    form("typed", "", ": type")
    form("type", "Z", "B", "Unit", "ISZ [ type ]", "<name>")
    members("fields", "field")
    form("field", "<name> : type", "val <name> : type")
    members("params", "param")
    form("param", "<name> : type")
    form("body", "{ }", "{ contract }", "{ contract <newline> work }", "{ work }")
    form("work", "return e0", "return e0 <newline>", "stmt", "stmt <newline> work")
    form("contract", "Contract ( )", "Contract ( parts )")
    form("parts", "Requires claims after-requires", "Modifies names after-modifies", "Ensures claims comma")
    form("after-requires", "comma", ", Modifies names after-modifies", ", Ensures claims comma")
    form("after-modifies", "comma", ", Ensures claims comma")
    form("comma", "", ",")
    form("claims", "( claim-list )")
    members("claim-list", "e0")
    form("names", "( name-list )")
    members("name-list", "<name>")
    form("stmt", "binder <name> typed = e0", "<name> = e0", "<name> ( )", "<name> ( args )", "if-stmt",
         "while ( e0 ) { invariant }", "while ( e0 ) { invariant <newline> stmts }", "assert ( e0 )",
         "Deduce ( steps )")
    form("stmts", "stmt", "stmt <newline> stmts")
    form("if-stmt", "if ( e0 ) block", "if ( e0 ) block else block", "if ( e0 ) block else if-stmt")
    form("block", "{ }", "{ stmts }")
    form("invariant", "Invariant ( Modifies names comma )", "Invariant ( Modifies names , claim-list )")
    members("args", "e0")
    members("steps", "step")
    form("step", "<label> ( e0 ) by rule", "<label> ( e0 ) by rule ( labels )", "<label> sub",
         "<label> Let ( ( <name> : Z ) => sub )")
    form("rule", "<name>", "Subst_<", "Subst_>")
    members("labels", "<label>")
    form("sub", "SubProof ( <label> Assume ( e0 ) comma )", "SubProof ( <label> Assume ( e0 ) , steps )")
    form("const", "<number>", "- <number>", "T", "F", "ISZ [ type ] ( )", "ISZ [ type ] ( consts )", "ISZ ( consts )",
         "<name> ( consts )")
    members("consts", "const")
    for level, operators in enumerate(LEVELS):
        own, tighter = f"e{level}", f"e{level + 1}"
        if level == 0:
            form(own, tighter, *(f"{tighter} {operator} {own}" for operator in operators))
        elif level == 6:
            form(own, "sum", "arrow")
            form("sum", tighter, f"sum + {tighter}", f"sum - {tighter}")
            form("arrow", *(f"{tighter} {operator} {right}" for operator in ("->:", "-->:") for right in (tighter, "arrow")))
        else:
            form(own, tighter, *(f"{own} {operator} {tighter}" for operator in operators))
    form("e8", "post", "- e8", "! e8")
    form("post", "prim", "post ( )", "post ( args )", "post ( e0 ~> e0 )", "post . <name>")
    form("prim", "<number>", "T", "F", "<name>", "Res", "Res [ type ]", "In ( <name> )", "Old ( <name> )", "ISZ ( )",
         "ISZ ( args )", "ISZ [ type ] ( )", "ISZ [ type ] ( args )", "quantifier ( range ) ( <name> => e0 )", "( e0 )")
    form("quantifier", "All", "Exists", "\u2200", "\u2203")
    form("range", "e0 until e0", "post . <indices>")
    return table


FORMS = forms()
NULLABLE = {name for name, alternatives in FORMS.items() if [] in alternatives}

@cache
def fits(terminal: str, kind: str, text: str, small: bool) -> bool:
    """Whether a token that is neither bad nor too large nor too heavy is one of the terminal."""
    if terminal == "<name>":
        return kind == "name" and text != "_"
    if terminal in ("<datatype>", "<indices>"):
        return kind == "name" and text == terminal[1:-1]
    if terminal == "<number>":
        return kind == "number"
    if terminal == "<label>":
        return kind == "number" and small
    if terminal == "<newline>":
        return kind == "newline"
    if terminal == "<end>":
        return kind == "end"
    if terminal == "_":
        return kind == "name" and text == "_"
    return kind in ("sign", "word") and text == terminal


# An item is a form, the number of its alternative, how far it is read, and where it began.
Item = tuple[str, int, int, int]


class Prefix:
    """All that the tokens read so far may be the beginning of."""

    def __init__(self) -> None:
        self.sets: list[dict[Item, None]] = [{}]
        self.waiting: list[dict[str, list[Item]]] = [{}]
        self.close([("file", number, 0, 0) for number in range(len(FORMS["file"]))])

    def close(self, fresh: list[Item]) -> None:
        here = len(self.sets) - 1
        items, waiting = self.sets[here], self.waiting[here]
        while fresh:
            item = fresh.pop()
            if item in items:
                continue
            items[item] = None
            name, number, read, start = item
            body = FORMS[name][number]
            if read == len(body):
                for other in list(self.waiting[start].get(name, ())):
                    fresh.append((other[0], other[1], other[2] + 1, other[3]))
                continue
            symbol = body[read]
            first = symbol not in waiting
            waiting.setdefault(symbol, []).append(item)
            if symbol in FORMS:
                if first:
                    fresh.extend((symbol, it, 0, here) for it in range(len(FORMS[symbol])))
                if symbol in NULLABLE or (symbol, None) in items:
                    fresh.append((name, number, read + 1, start))
                # a form that has ended here already, with no token
                for done in [it for it in items if it[0] == symbol and it[3] == here and it[2] == len(FORMS[it[0]][it[1]])]:
                    if done[2] == 0:
                        fresh.append((name, number, read + 1, start))

    def due(self) -> list[str]:
        """The terminals that may come next."""
        return [symbol for symbol in self.waiting[-1] if symbol not in FORMS]

    def takes(self, token: Token) -> bool:
        """Goes on with the token where a text of the language does."""
        small = token.kind != "number" or token.value <= LARGEST_LABEL
        fresh = [(name, number, read + 1, start) for terminal in self.due() if fits(terminal, token.kind, token.text, small)
                 for name, number, read, start in self.waiting[-1][terminal]]
        if not fresh:
            return False
        self.sets.append({})
        self.waiting.append({})
        self.close(fresh)
        return True

    def begins(self, name: str) -> bool:
        """Whether that form may begin here."""
        return name in self.waiting[-1]

    def is_in_nested_block(self) -> bool:
        """Whether what comes next stands between the braces of an `if`, an `else` or a `while`."""
        seen: set[Item] = set()
        todo = [item for terminal in self.due() for item in self.waiting[-1][terminal]]
        while todo:
            item = todo.pop()
            if item in seen:
                continue
            seen.add(item)
            if item[0] in ("block", "stmt") and "{" in FORMS[item[0]][item[1]][:item[2]]:
                return True
            todo.extend(self.waiting[item[3]].get(item[0], ()))
        return False


def fault_code(prefix: Prefix, token: Token) -> int:
    """The code of the first fault, where the text cannot go on with the token."""
    due = prefix.due()
    if token.kind == "bad":
        return 2
    if token.kind == "number" and (token.value > LARGEST_NUMBER or ("<label>" in due and token.value > LARGEST_LABEL)):
        return 3
    if token.weight > WEIGHT_LIMIT:
        return 5
    if due == ["Invariant"]:
        return 13
    left_out = token.kind == "word" and (token.text in LEFT_OUT or token.text == "class"
                                         or (token.text == "if" and prefix.begins("prim"))
                                         or (token.text == "return" and prefix.is_in_nested_block()))
    return 14 if left_out else 4


def checked(data: bytes) -> list[Token]:
    """The tokens of a text that the grammar reads, or its first fault."""
    tokens = without_idle_newlines(tokens_of(decoded(data)))
    weigh(tokens)
    prefix = Prefix()
    for index, token in enumerate(tokens):
        stops = token.kind == "bad" or token.weight > WEIGHT_LIMIT or token.value > LARGEST_NUMBER
        if stops or not prefix.takes(token):
            if prefix.due() == ["<datatype>"]:
                # behind an `@` where a declaration may begin
                if token.kind in ("name", "word"):
                    raise TextFault(14, token.place)
                raise TextFault(4, tokens[index - 1].place)
            raise TextFault(fault_code(prefix, token), token.place)
    return tokens
