"""What is too high in a project: expressions, constants, and steps inside too many blocks of a proof."""
from __future__ import annotations

from typing import Iterator

from text import Place
from trees import Expr, Global, Method, Step, Stmt

HEIGHT_LIMIT = 1_000
BLOCK_LIMIT = 200
CODE = 5                # that of a text that nests too deep


def height(expr: Expr) -> int:
    """1 without parts, and else one more than the highest part."""
    return 1 + max(map(height, expr.parts), default=0)


def of_expressions(exprs: list[Expr]) -> Iterator[Place]:
    return (it.place for it in exprs if height(it) > HEIGHT_LIMIT)


def of_steps(steps: list[Step], around: int) -> Iterator[Place]:
    """`around` counts the blocks around the steps."""
    for step in steps:
        if around > BLOCK_LIMIT:
            yield step.place
            continue
        yield from of_expressions([step.claim])
        yield from of_steps(step.steps, around + 1)


def of_statements(statements: list[Stmt]) -> Iterator[Place]:
    for it in statements:
        # a call that stands alone is no expression, but its arguments are
        values = it.value.parts[1:] if it.kind == "call" else [it.value] if it.value else []
        yield from of_expressions([*values, *it.claims])
        yield from of_steps(it.steps, 0)
        yield from of_statements(it.body)
        yield from of_statements(it.other)


def too_high(declarations: list) -> Iterator[Place]:
    """The places of what is too high in a file."""
    for it in declarations:
        if isinstance(it, Global):
            yield from of_expressions([it.value])
        elif isinstance(it, Method):
            yield from of_expressions([*it.requires, *it.ensures])
            yield from of_statements(it.body)
