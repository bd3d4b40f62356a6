#!/usr/bin/env python3
"""Stored cases through the plain directory: `hostile/stored.py [--group NAME]..`.

Each case of crates/rd_rows/data (docs/CASES.md) whose words are only a number of workers is
answered by the plain directory (hostile/plain) too: its whole output, its status and what is said
are to be those of the case. The last line counts the cases and those that differ, and the status is
1 where one does. Cases of other words, as `--make`, are passed over.
"""

import argparse
import re
import sys
from dataclasses import dataclass, field
from pathlib import Path

from plain.trace import answered

DATA = Path(__file__).resolve().parent.parent / "crates" / "rd_rows" / "data"

# Forms of a line (docs/CASES.md): a text so many times, and what stands for the round of a loop.
TIMES = re.compile(r"\{([^{}*]*)\*(\d+)\}")
ROUND = re.compile(r"\{n(:\w+)?\}")
LOOP = re.compile(r"for (\d+)\.\.=(\d+)")
WORKERS = re.compile(r"--workers[= ]([1-9]|1[0-6])")


@dataclass
class Case:
    """A stored case: its words, its trace, and what is to come of it."""

    words: str = ""
    trace: bytes = b""
    wanted: list[str] = field(default_factory=list)
    status: int = 0
    said: str = ""

    @property
    def workers(self) -> int | None:
        """The number of workers, where the words are only that."""
        if not self.words:
            return 1
        found = WORKERS.fullmatch(self.words)
        return int(found[1]) if found else None


def in_round(line: str, number: int) -> str:
    """A line of a loop as it stands in one round."""
    forms = {None: str(number), ":04x": f"{number & 0xFFFF:04x}", ":02x": f"{number & 0xFF:02x}",
             ":digits": str(number).encode().hex()}
    return ROUND.sub(lambda found: forms[found[1]], line)


def unrolled(text: str):
    """The lines of a case, those of its loops once for each number."""
    looped: list[str] | None = None
    numbers = range(0)
    for line in text.splitlines():
        if loop := LOOP.fullmatch(line):
            looped, numbers = [], range(int(loop[1]), int(loop[2]) + 1)
        elif line == "next":
            yield from (in_round(each, number) for number in numbers for each in looped)
            looped = None
        elif looped is not None:
            looped.append(line)
        else:
            yield line


def read(text: str) -> Case:
    """A case by its text."""
    case = Case()
    for line in unrolled(text):
        if not line.startswith("#"):
            line = TIMES.sub(lambda found: found[1] * int(found[2]), line)
        kind, _, rest = line.partition(" ")
        if kind == "words":
            case.words = rest
        elif kind == "<":
            case.trace += rest.encode() + b"\n"
        elif kind == "<-":
            case.trace += rest.encode()
        elif kind == ">":
            case.wanted.append(rest)
        elif kind == "status":
            status, _, case.said = rest.partition(" ")
            case.status = int(status)
    return case


def difference(case: Case) -> str:
    """The first thing in which the plain directory differs from a case, or nothing."""
    out, status, said = answered(case.trace, case.workers)
    for number, (came, wanted) in enumerate(zip(out, case.wanted), 1):
        if came != wanted:
            return f"line {number} of the output: wanted {wanted}, came {came}"
    if len(out) != len(case.wanted):
        return f"{len(case.wanted)} lines wanted, {len(out)} came"
    if (status, said) != (case.status, case.said):
        return f"status {status} {said}".rstrip()
    return ""


def main():
    parser = argparse.ArgumentParser(description="Stored cases through the plain directory.")
    parser.add_argument("--group", action="append", help="only the cases of such groups")
    words = parser.parse_args()
    tried = passed_over = differ = 0
    for path in sorted(DATA.glob("*/*.case")):
        if words.group and path.parent.name not in words.group:
            continue
        case = read(path.read_text(errors="replace"))
        if case.workers is None:
            passed_over += 1
            continue
        tried += 1
        if told := difference(case):
            differ += 1
            print(f"{path.parent.name}/{path.stem}: {told}", flush=True)
    print(f"{tried} cases, {differ} differ, {passed_over} of other words")
    sys.exit(differ > 0)


if __name__ == "__main__":
    main()
