#!/usr/bin/env python3
"""Tries the rules on themselves: where all methods that a method reaches are verified, no run of it fails.

    oracle/safety.py [COUNT] [SEED]         500 random projects of seed 1, where nothing is said
    oracle/safety.py COUNT FILE..           each method of these texts, from so many states that meet its Requires

Both halves are the second reading's own, so a failure here is a rule that is wrong or wrongly read, whatever the program does. Runs
begin at random arguments and random values of the `var`s; one that does not meet the method's Requires says nothing, and so of a text
twenty times as many states are tried, at most.
"""
import pathlib
import random
import sys
from collections import Counter

sys.dont_write_bytecode = True
sys.setrecursionlimit(1_000_000)

import trees                                # noqa: E402
from legs import verdict                    # noqa: E402
from program import Code, Typed             # noqa: E402
from projects import project_of             # noqa: E402
from runs import Ended, Machine, Sequence   # noqa: E402

RUNS = 12
ENTRY = ("entry", (0, 0))       # where a run's own Requires is told to fail


def value(source: random.Random, typed: Typed, sort) -> object:
    if sort == "Z":
        return source.choice([0, 1, 2, 3, -1, -2, 5, source.randint(-20, 20)])
    if sort == "B":
        return source.random() < 0.5
    if sort[0] == "ISZ":
        return Sequence(sort[1], tuple(value(source, typed, sort[1]) for _ in range(source.choice([0, 1, 2, 3, 8]))))
    return sort[1], tuple(value(source, typed, it) for it in typed.record_fields[sort[1]])


def called(code: list[Code]) -> set[str]:
    found = {it.method for it in code if it.kind == "call"}
    return found.union(*(called(it.body) | called(it.other) for it in code))


def reached(typed: Typed, name: str) -> set[str]:
    found, waiting = set(), [name]
    while waiting:
        method = waiting.pop()
        if method not in found:
            found.add(method)
            waiting += called(typed.methods[method].body)
    return found


def ending(source: random.Random, typed: Typed, name: str) -> str:
    machine = Machine(typed, source.randint(0, 60))
    for global_name, variable in typed.globals.items():
        if typed.is_var[global_name]:
            machine.values[variable] = value(source, typed, variable.sort)
    try:
        machine.method(name, [value(source, typed, param.sort) for param in typed.methods[name].params], ENTRY)
    except Ended as ended:
        return "not met" if "entry" in ended.args[0] else ended.args[0]
    return "ended"


def safe_methods(typed: Typed) -> list[str]:
    """The methods all of whose reached methods are verified."""
    verified = {name for name, method in typed.methods.items() if verdict(typed, method) is None}
    return [name for name in typed.methods if reached(typed, name) <= verified]


def endings_of(typed: Typed, name: str, source: random.Random, runs: int, met: int) -> Counter:
    """How so many runs end, or as many as it takes until some count of them met the Requires."""
    endings: Counter = Counter()
    while endings.total() < runs and endings.total() - endings["not met"] < met:
        found = ending(source, typed, name)
        endings[found if found == "not met" else found.split()[0]] += 1
        if found.startswith("fails"):
            print(f"{name} is verified, and a run of it {found}")
    return endings


def of_projects(count: int, seed: int) -> Counter:
    endings: Counter = Counter()
    for index in range(count):
        kind, text = project_of(seed, index)
        if kind == "mutant":
            continue
        typed, source = Typed([("-", trees.read(text.encode()))]), random.Random(f"{seed} {index}")
        for name in safe_methods(typed):
            found = endings_of(typed, name, source, RUNS, RUNS)
            endings += found
            if found["fails"]:
                print(f"project {index} of seed {seed}\n{text}")
    return endings


def of_texts(count: int, paths: list[str]) -> Counter:
    endings: Counter = Counter()
    for path in paths:
        typed = Typed([(path, trees.read(pathlib.Path(path).read_bytes()))])
        for name in safe_methods(typed):
            found = endings_of(typed, name, random.Random(f"{path} {name}"), 20 * count, count)
            print(f"{path} {name}:", told(found))
            endings += found
    return endings


def told(endings: Counter) -> str:
    return ", ".join(f"{word} {times}" for word, times in sorted(endings.items()))


def main() -> int:
    numbers = [int(word) for word in sys.argv[1:] if word.isdecimal()]
    paths = [word for word in sys.argv[1:] if not word.isdecimal()]
    count, seed = numbers + [500, 1][len(numbers):]
    endings = of_texts(count, paths) if paths else of_projects(count, seed)
    print(told(endings))
    return 1 if endings["fails"] else 0


if __name__ == "__main__":
    sys.exit(main())
