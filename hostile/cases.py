#!/usr/bin/env python3
"""Random traces through two directories: `hostile/cases.py [--seed N] [--count N] [PROGRAM]`.

Traces are made by chance (hostile/chance.py); a seed and a number give the same trace each time.
Each is answered by rd_replay and by the plain directory (hostile/plain), which was written from the
standards: all that is written, the status and what is said are to be the same, octet for octet. A
trace on which they differ is made shorter as long as they do, and told with the first line that
differs. A line each thousand says how far it is. The status is 1 where a trace differs.

    hostile/cases.py --seed 7 --first 412 --count 1 --show     prints one trace and its output
"""

import argparse
import subprocess
import sys
from concurrent.futures import ThreadPoolExecutor
from pathlib import Path

RUN_LIMIT = 60
TELL_EACH = 1_000
MOST_TOLD = 5

# Traces whose replays are under way at a time.
AT_A_TIME = 2


def replayed(program: Path, workers: int, lines: list[str]) -> tuple[list[str], int, str]:
    """What rd_replay writes for a trace, its status, and what it says."""
    trace = "".join(f"{line}\n" for line in lines).encode()
    done = subprocess.run([program, f"--workers={workers}"], input=trace, timeout=RUN_LIMIT,
                          stdout=subprocess.PIPE, stderr=subprocess.PIPE, check=False)
    return done.stdout.decode().splitlines(), done.returncode, done.stderr.decode().strip()


def told_difference(came, wanted) -> str:
    """The first thing in which two outputs differ, or nothing."""
    for number, (one, other) in enumerate(zip(came[0], wanted[0]), 1):
        if one != other:
            return f"line {number} of the output\n  program {one}\n  plain   {other}"
    if len(came[0]) != len(wanted[0]):
        longer = max(came[0], wanted[0], key=len)
        who = "program" if longer is came[0] else "plain"
        return f"the {who} writes one more line: {longer[min(len(came[0]), len(wanted[0]))]}"
    if came[1:] != wanted[1:]:
        return f"program: status {came[1]} {came[2]}; plain: status {wanted[1]} {wanted[2]}"
    return ""


class Runs:
    """Traces of a seed through both directories."""

    def __init__(self, program: Path, chance, answered):
        self.program, self.chance, self.answered = program, chance, answered
        self.traces = self.lines = self.datagrams = self.differ = 0

    def difference(self, workers: int, lines: list[str]) -> str:
        """In what both differ on some lines, or nothing."""
        trace = "".join(f"{line}\n" for line in lines).encode()
        return told_difference(replayed(self.program, workers, lines),
                               self.answered(trace, workers))

    def shortened(self, workers: int, lines: list[str]) -> list[str]:
        """Lines on which both differ still, of which none can be left out."""
        size = max(1, len(lines) // 2)
        while True:
            at = 0
            while at < len(lines):
                tried = lines[:at] + lines[at + size:]
                if tried and self.difference(workers, tried):
                    lines = tried
                else:
                    at += size
            if size == 1:
                return lines
            size //= 2

    def judge(self, number: int, trace, came):
        """Compares what a trace gives, and tells it where it differs."""
        self.traces += 1
        self.lines += len(trace.lines)
        self.datagrams += len(trace.wanted)
        if not told_difference(came, (trace.wanted, trace.status, trace.said)):
            return
        self.differ += 1
        if self.differ > MOST_TOLD:
            return
        lines = self.shortened(trace.workers, trace.lines)
        print(f"trace {number} differs, --workers={trace.workers}: "
              f"{self.difference(trace.workers, lines)}")
        for line in lines:
            print(f"    {line}")
        sys.stdout.flush()

    def run(self, seed: int, first: int, count: int, with_beginnings: bool, is_stopped: bool):
        """Runs so many traces, up to the first that differs where that is wanted."""
        with ThreadPoolExecutor(AT_A_TIME) as pool:
            waiting = []
            for number in range(first, first + count):
                trace = self.chance.made(seed, number, with_beginnings)
                waiting.append((number, trace, pool.submit(replayed, self.program, trace.workers,
                                                           trace.lines)))
                if len(waiting) > AT_A_TIME:
                    self.take(waiting)
                if is_stopped and self.differ:
                    break
            while waiting:
                self.take(waiting)

    def take(self, waiting: list):
        """Judges the trace that waits for the longest time."""
        number, trace, came = waiting.pop(0)
        self.judge(number, trace, came.result())
        if self.traces % TELL_EACH == 0:
            self.tell()

    def tell(self):
        """Tells how far it is."""
        print(f"{self.traces:,} traces, {self.lines:,} lines, {self.datagrams:,} lines of output, "
              f"{self.differ} differ", flush=True)


def show(trace):
    """Prints a trace and its output."""
    print(f"--workers={trace.workers}")
    for line in [*trace.lines, *trace.wanted, trace.said]:
        print(line)


def main():
    parser = argparse.ArgumentParser(description="Random traces through two directories.")
    parser.add_argument("program", nargs="?", type=Path, default=Path("bin/rd_replay"))
    parser.add_argument("--seed", type=int, default=1)
    parser.add_argument("--count", type=int, default=2_000)
    parser.add_argument("--first", type=int, default=0, help="the number of the first one")
    parser.add_argument("--begin", action="store_true", help="with lines `begin`, too")
    parser.add_argument("--stop", action="store_true", help="up to the first that differs")
    parser.add_argument("--show", action="store_true", help="prints the traces alone")
    parser.add_argument("--plain", type=Path, help="the folder of another hostile/plain")
    words = parser.parse_args()
    if words.plain:
        sys.path.insert(0, str(words.plain.resolve()))
    import chance  # noqa: E402, after the folder of the plain directory is known
    from plain.trace import answered  # noqa: E402
    if words.show:
        for number in range(words.first, words.first + words.count):
            show(chance.made(words.seed, number, words.begin))
        return
    runs = Runs(words.program.resolve(), chance, answered)
    runs.run(words.seed, words.first, words.count, words.begin, words.stop)
    print(f"seed {words.seed}, from {words.first} on: ", end="")
    runs.tell()
    sys.exit(runs.differ > 0)


if __name__ == "__main__":
    main()
