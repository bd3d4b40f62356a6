#!/usr/bin/env python3
"""Which judge notices which fault: `hostile/judges.py [--fault NAME].. [--judge NAME]..`.

Each judge is run for a short time through a relay (hostile/relay.py), once without a fault, where
it is to be content, and once with each fault that it is said to notice, where it is not. A table
says what came: `sees`, `-` where the judge claims nothing, or, in capitals, what is not as wanted.
The status is 1 where a cell is not as wanted.
"""

import argparse
import subprocess
import sys
import time
from concurrent.futures import ThreadPoolExecutor
from pathlib import Path

from relay import FAULTS

ROOT = Path(__file__).resolve().parent.parent

# Seconds that one run may take, and how many are under way at a time.
RUN_LIMIT, AT_A_TIME = 120, 3

# What a judge is run by.
JUDGES = {
    "clients": ["clients/run.py", "--workers", "1", "--stop"],
    "run": ["hostile/run.py", "--thousands", "6", "--stop"],
    "each": ["hostile/each.py", "--count", "2000", "--seconds", "30", "--stop"],
    "soak": ["hostile/soak.py", "--seconds", "12", "--stop"],
}

# The faults that are tried, beside none.
TRIED = [*[name for name in FAULTS if name not in ("none", "lease", "lose")],
         "lease=3000", "lease=1000", "lease=200", "lease=-1000", "lose=40", "lose=400"]

# What a judge does not claim to notice, and why.
NOT_CLAIMED = {
    "clients": {
        "lease=200": "its commands take too long to be near the end of a lease",
    },
    "run": {},
    "each": {},
    "soak": {
        "unreset": "its observers reset nothing",
        "reset": "it sends no datagram that cannot be read",
    },
}


def command(judge: str, fault: str, folder: Path) -> list[str]:
    """The command line of a judge."""
    words = [sys.executable, *JUDGES[judge], "--fault", fault]
    if judge == "clients":
        return [*words, str(folder / "rd_serve")]
    return [*words, "--bin", str(folder)]


def run(judge: str, fault: str, folder: Path) -> tuple[bool | None, str, float]:
    """Whether a judge is content, None where it does not end; what it said last, and how long it
    took."""
    begun = time.monotonic()
    try:
        done = subprocess.run(command(judge, fault, folder), cwd=ROOT, stdin=subprocess.DEVNULL,
                              stdout=subprocess.PIPE, stderr=subprocess.STDOUT, text=True,
                              errors="replace", timeout=RUN_LIMIT, check=False)
    except subprocess.TimeoutExpired as late:
        return None, (late.stdout or b"").decode(errors="replace"), time.monotonic() - begun
    return done.returncode == 0, done.stdout, time.monotonic() - begun


class Table:
    """What came of each judge and each fault."""

    def __init__(self, judges: list[str], faults: list[str], folder: Path, log: Path | None):
        self.judges, self.faults, self.folder, self.log = judges, faults, folder, log
        self.wrong = 0
        self.seconds = dict.fromkeys(judges, 0.0)

    def cell(self, judge: str, fault: str) -> str:
        """What is said of a judge and a fault."""
        if fault in NOT_CLAIMED[judge]:
            return "-"
        is_content, said, seconds = run(judge, fault, self.folder)
        self.seconds[judge] += seconds
        if self.log:
            (self.log / f"{judge} {fault}.txt").write_text(said)
        if is_content is None:
            text, is_right = "DOES NOT END", False
        elif fault == "none":
            text, is_right = ("content" if is_content else "NOT CONTENT"), is_content
        else:
            text, is_right = ("DOES NOT SEE" if is_content else "sees"), not is_content
        self.wrong += not is_right
        return text

    def line(self, fault: str) -> str:
        """A line of the table."""
        with ThreadPoolExecutor(AT_A_TIME) as pool:
            cells = list(pool.map(lambda judge: self.cell(judge, fault), self.judges))
        return f"{fault:<12}" + "".join(f"{cell:<14}" for cell in cells).rstrip()

    def tell(self):
        """Runs all, and prints the table."""
        print(f"{'fault':<12}" + "".join(f"{judge:<14}" for judge in self.judges).rstrip())
        for fault in self.faults:
            print(self.line(fault), flush=True)
        print(f"{'seconds':<12}"
              + "".join(f"{self.seconds[judge]:<14.0f}" for judge in self.judges).rstrip())


def main():
    parser = argparse.ArgumentParser(description="Which judge notices which fault.")
    parser.add_argument("--fault", action="append", help="only such faults")
    parser.add_argument("--judge", action="append", choices=list(JUDGES), help="only such judges")
    parser.add_argument("--bin", type=Path, default=Path("bin"), help="where the programs are")
    parser.add_argument("--log", type=Path, help="a folder for what the judges said")
    words = parser.parse_args()
    if words.log:
        words.log.mkdir(parents=True, exist_ok=True)
    begun = time.monotonic()
    table = Table(words.judge or list(JUDGES), words.fault or ["none", *TRIED],
                  words.bin.resolve(), words.log)
    table.tell()
    print(f"{table.wrong} cells are not as wanted; {time.monotonic() - begun:.0f} seconds")
    sys.exit(table.wrong > 0)


if __name__ == "__main__":
    main()
