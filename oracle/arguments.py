"""The constants that the command `run` takes as arguments."""
from __future__ import annotations

from program import Typed
from runs import GREATEST, Sequence
from text import WEIGHT_LIMIT, Token, tokens_of, weigh


class NoConstant(Exception):
    """The text is no constant of the type."""


class Reader:
    """Reads tokens by the sort that is wanted."""

    def __init__(self, typed: Typed, tokens: list[Token]) -> None:
        self.typed, self.tokens = typed, list(tokens)

    def next(self, *texts: str) -> str:
        """The next token, which is one of the texts where some are named."""
        token = self.tokens.pop(0)
        if texts and token.text not in texts:
            raise NoConstant
        return token.text

    def is_at(self, text: str) -> bool:
        return self.tokens[0].text == text

    def sort(self) -> object:
        word = self.next()
        if word == "ISZ":
            self.next("[")
            element = self.sort()
            self.next("]")
            return "ISZ", element
        if word in ("Z", "B"):
            return word
        if word not in self.typed.record_names:
            raise NoConstant
        return "record", self.typed.record_names.index(word)

    def number(self) -> int:
        negative = self.is_at("-") and bool(self.next())
        token = self.tokens.pop(0)
        if token.kind != "number" or token.value > GREATEST + negative:
            raise NoConstant
        return -token.value if negative else token.value

    def value(self, sort) -> object:
        if sort == "Z":
            return self.number()
        if sort == "B":
            return self.next("T", "F") == "T"
        if sort[0] == "record":
            self.next(self.typed.record_names[sort[1]])
            fields = list(self.typed.record_fields[sort[1]])
            found = self.listed(fields)
            if fields:
                raise NoConstant
            return sort[1], found
        self.next("ISZ")
        written = self.is_at("[")
        if written:
            self.next("[")
            if self.sort() != sort[1]:
                raise NoConstant
            self.next("]")
        items = self.listed(None, sort[1])
        if not items and not written:
            raise NoConstant
        return Sequence(sort[1], items)

    def listed(self, sorts: list | None, element=None) -> tuple:
        """The members of a list in brackets; those of a record take their sorts off its list."""
        self.next("(")
        found: list = []
        while not self.is_at(")"):
            if sorts is not None and not sorts:
                raise NoConstant
            found.append(self.value(element if sorts is None else sorts.pop(0)))
            if not self.is_at(")"):
                self.next(",")
        self.next(")")
        return tuple(found)


def argument(typed: Typed, sort, text: str) -> object:
    """The value that the text names, or None where it is no constant of the sort."""
    tokens = tokens_of(text)
    if "//" in text or "/*" in text or any(it.kind in ("newline", "bad") for it in tokens):
        return None
    weigh(tokens)
    if any(it.weight > WEIGHT_LIMIT for it in tokens):
        return None
    reader = Reader(typed, tokens)
    try:
        value = reader.value(sort)
    except (NoConstant, IndexError):
        return None
    return value if len(reader.tokens) == 1 else None
