#!/usr/bin/env python3
"""Has the program `print_text` print random texts, and reads what it printed with the oracle.

    oracle/printing.py [COUNT] [SEED] [FIRST]       2000 texts of seed 1 from number 0, where nothing is said

What is printed of a text must read back to its tree, but for the places, and be printed as itself; a text with a fault is told by its
place and code. Every fourth text nests nearly as deep as a text may, and would nest deeper without the brackets that it does not need.
`rt run` in `crates/print_text` builds the program.
"""
import dataclasses
import pathlib
import random
import subprocess
import sys

sys.dont_write_bytecode = True      # leaves no folder of compiled files behind
sys.setrecursionlimit(1_000_000)

import trees                            # noqa: E402
from projects import project_of         # noqa: E402
from text import TextFault              # noqa: E402

PROGRAM = pathlib.Path(__file__).resolve().parent.parent / "crates/print_text/out/print_text"
PLACES = {"place", "assumed_place"}


def bare(tree) -> object:
    """A tree without its places."""
    if dataclasses.is_dataclass(tree):
        kept = [it.name for it in dataclasses.fields(tree) if it.name not in PLACES]
        return type(tree).__name__, *[bare(getattr(tree, name)) for name in kept]
    if isinstance(tree, (list, tuple)):
        return [bare(it) for it in tree]
    return tree


def printed(data: bytes) -> tuple[int, bytes, bytes]:
    done = subprocess.run([PROGRAM], input=data, capture_output=True, timeout=60)
    return done.returncode, done.stdout, done.stderr


def wrong(data: bytes) -> str | None:
    """What is wrong with the printing of a text, or nothing."""
    status, out, told = printed(data)
    try:
        tree = trees.read(data)
    except TextFault as fault:
        (line, column), code = fault.place, fault.code
        wanted = f"Error: {line}:{column}: fault {code}\n".encode()
        return None if (status, out, told) == (1, b"", wanted) else f"wanted {wanted!r} and status 1, got {told!r} and {status}"
    if status:
        return f"status {status}, {told!r}"
    try:
        again = trees.read(out)
    except TextFault as fault:
        return f"what is printed has a fault: {fault}\n{out.decode()}"
    if bare(again) != bare(tree):
        return f"another tree is printed:\n{out.decode()}"
    if printed(out) != (0, out, b""):
        return f"what is printed is printed as another text:\n{out.decode()}"
    return None


def deep(make: random.Random, room: int, size: int) -> str:
    """An expression of about so many parts that adds at most `room` to the weights of a text."""
    kind = make.randrange(6) if size > 1 and room > 4 else 6
    if kind == 0:
        used, parts = 0, []
        for _ in range(make.randint(2, 5)):
            if room - used < 3:
                break
            parts.append(f"({deep(make, room - used - 1, size // 3)})")
            used += 2
        return make.choice([" + ", " * ", " & ", " -->: "]).join(parts)
    if kind == 1:
        arguments = [deep(make, room - 2, size // 3) for _ in range(make.randint(0, 2))]
        return f"({deep(make, room - 1, size // 2)})({', '.join(arguments)})"
    if kind == 2:
        return f"a(({deep(make, room - 2, size // 2)}) ~> {deep(make, room - 2, size // 2)})"
    if kind == 3:
        low, high, body = (deep(make, room - 2, size // 3) for _ in range(3))
        return f"All(({low}) until {high})(k => {body})"
    if kind == 4:
        return f"({deep(make, room - 5, size // 2)}){'.f' * make.randint(1, 4)}"
    if kind == 5:
        return f"-(({deep(make, room - 3, size // 2)}))"
    count = make.choice([room, room, room // 2, make.randint(0, max(room, 0))])
    return make.choice([" * ", " + ", " ->: "]).join(["x"] * (count + 1)) if make.random() < 0.8 else "x" + ".f" * count


def text_of(seed: int, index: int) -> tuple[str, str]:
    """The kind and the text of one text."""
    if index % 4 < 3:
        return project_of(seed, index)
    make = random.Random(f"deep {seed} {index}")
    forms = ["def f(): Z = {{ return {} }}", "def f(): Unit = {{ if ({}) {{ x = {} }} else {{ if (T) {{ g({}) }} }} }}",
             "def f(): Unit = {{ Contract(Requires({}), Ensures({})); assert({}) }}",
             "def f(): Unit = {{ while ({}) {{ Invariant(Modifies(x), {}); val y: Z = {} }} }}",
             "def f(): Unit = {{ Deduce(1 SubProof(2 Assume({}), 3 ({}) by Auto)) }}"]
    parts = [deep(make, 190 + make.randint(0, 8), make.choice([1, 4, 12, 30])) for _ in range(3)]
    return "deep", make.choice(forms).format(*parts)


def main() -> int:
    count, seed, first = (int(word) for word in (sys.argv[1:] + ["2000", "1", "0"][len(sys.argv) - 1:]))
    differences = 0
    for index in range(first, first + count):
        kind, text = text_of(seed, index)
        found = wrong(text.encode())
        if found is not None:
            differences += 1
            print(f"{kind} {index} of seed {seed}: {found}\n{text}\n")
    print(f"{count} texts, {differences} differences")
    return 1 if differences else 0


if __name__ == "__main__":
    sys.exit(main())
