#!/usr/bin/env python3
"""What `logika check` prints for a project of the whole language, and its exit status, computed from the rules alone.

    oracle/whole.py [FILE..]        standard input where no file is named
"""
import pathlib
import sys

sys.dont_write_bytecode = True
sys.setrecursionlimit(1_000_000)

import names            # noqa: E402
import trees            # noqa: E402
from legs import verdict        # noqa: E402
from program import Typed       # noqa: E402
from text import TEXTS, TextFault       # noqa: E402


def report(texts: list[tuple[str, bytes]]) -> tuple[str, int]:
    """The report of named texts, and the status that it has."""
    lines, files, faults = ["revision 1"], [], []
    for name, data in sorted(texts, key=lambda it: it[0].encode()):
        try:
            files.append((name, trees.read(data)))
        except TextFault as fault:
            faults.append((name, fault.place, fault.code))
    faults = faults or names.faults_of(files)
    if faults:
        lines += [f"{name}:{line}:{column} E{code} {TEXTS[code]}" for name, (line, column), code in faults]
        return "\n".join(lines) + "\n", 2
    typed, verified = Typed(files), 0
    for name in sorted(typed.methods, key=str.encode):
        found = verdict(typed, typed.methods[name])
        verified += found is None
        if found is None:
            lines.append(f"{name} verified")
        elif found == "many":
            lines.append(f"{name} legs many")
        else:
            (file, (line, column)), kind, reason = found
            lines.append(f"{name} unproved {file}:{line}:{column} {kind} {reason}")
    lines.append(f"methods {len(typed.methods)} verified {verified}")
    return "\n".join(lines) + "\n", 0 if verified == len(typed.methods) else 1


def main() -> int:
    files = sys.argv[1:]
    texts = [(name, pathlib.Path(name).read_bytes()) for name in files] or [("-", sys.stdin.buffer.read())]
    output, status = report(texts)
    sys.stdout.buffer.write(output.encode())
    return status


if __name__ == "__main__":
    sys.exit(main())
