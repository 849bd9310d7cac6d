#!/usr/bin/env python3
"""What `logika check` should print for a text, and its exit status, computed from the rules alone.

This is a second reading of the rules, written from their statement, and it shares no text with the proved crates. docs/ARCHITECTURE.md
says which of their definitions its writer knew. It is no part of the gate. It is used to find definitions that say something else than is meant: where
it and the program differ, one of the two reads a rule wrongly.

`text.py` has tokens, grammar and first faults, `trees.py` the trees, `names.py` the rules of names and types, `heights.py` those of
heights, `program.py` the typed program, `legs.py` legs, sequents and verdicts, `terms.py` and `closer.py` the prover, `proofs.py`
deduction, `runs.py` runs, and `whole.py` the report on a project. `compare.py` runs the program and `check` here on random texts.

    oracle/oracle.py < text
"""
import sys
import threading

sys.dont_write_bytecode = True      # leaves no folder of compiled files behind
sys.setrecursionlimit(1_000_000)    # the terms of long sums are high

from whole import report            # noqa: E402

TEXT_LIMIT = 67_108_864
LINE_LIMIT = 1_048_576
STACK = 1 << 29


def check(data: bytes) -> tuple[str, int]:
    """Standard output and exit status for the bytes of a text."""
    if len(data) > TEXT_LIMIT or any(len(line) > LINE_LIMIT for line in data.split(b"\n")):
        return "", 8
    return report([("-", data)])


def main() -> int:
    output, status = check(sys.stdin.buffer.read())
    sys.stdout.buffer.write(output.encode())
    return status


def on_deep_stack(work) -> int:
    """What the work answers, which is done on a stack that is deep enough for the terms of long sums."""
    answers = []
    threading.stack_size(STACK)
    worker = threading.Thread(target=lambda: answers.append(work()), daemon=True)
    worker.start()
    worker.join()
    return answers[0] if answers else 1


if __name__ == "__main__":
    sys.exit(on_deep_stack(main))
