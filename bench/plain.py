#!/usr/bin/env python3
"""What a replay costs beside a plain program: `bench/plain.py [--devices N] [PROGRAM]`.

rd_replay and the program of bench/plain/ run the trace of `--make=N` under callgrind, and the
table says how many instructions each takes, from its start to its end. bench/plain/README.md says
what the plain program does. Both are to write the same: what is counted of that trace, and all
lines of its output where the trace is read. The status is 1 where they do not. Where there is no
cargo or no valgrind nothing is compared.
"""

import argparse
import shutil
import subprocess
import sys
from pathlib import Path

from traces import instructions, run

HERE = Path(__file__).resolve().parent
PLAIN = HERE / "plain"

COLUMNS = "{:<40}{:>12}{:>8}"


def built() -> str:
    """The plain program, built anew where its files changed."""
    words = ["cargo", "build", "--release", "--offline", "--quiet"]
    if subprocess.run(words, cwd=PLAIN, check=False).returncode != 0:
        sys.exit("the plain program was not built")
    return str(PLAIN / "target" / "release" / "plain")


def written(program: str, words: list[str], trace: bytes = b"") -> bytes:
    """What a program writes."""
    return run([program, *words], trace).stdout


def check_same(program: str, plain: str, devices: int):
    """Ends the script where the programs do not write the same."""
    if written(plain, [f"--make={devices}"]) != written(program, [f"--make={devices}"]):
        sys.exit(f"--make={devices}: the programs do not count the same")
    trace = written(plain, [f"--show={devices}"])
    if written(plain, [], trace) != written(program, ["--workers=1"], trace):
        sys.exit(f"the trace of {devices:,} devices: the programs do not write the same")


def print_table(program: str, plain: str, devices: int):
    """Counts the instructions of both, and prints them."""
    words = [f"--make={devices}"]
    least, _ = instructions([plain, *words], b"")
    count, _ = instructions([program, *words], b"")
    print(COLUMNS.format(f"instructions of --make={devices}", "millions", "times"))
    print(COLUMNS.format("bench/plain", f"{least / 1e6:.1f}", ""))
    print(COLUMNS.format(Path(program).name, f"{count / 1e6:.1f}", f"{count / least:.2f}"))


def main():
    parser = argparse.ArgumentParser(description="What a replay costs beside a plain program.")
    parser.add_argument("program", nargs="?", default="bin/rd_replay")
    parser.add_argument("--devices", type=int, default=4_000, help="from 1 to 4,000")
    words = parser.parse_args()
    for tool in ("cargo", "valgrind"):
        if shutil.which(tool) is None:
            print(f"not compared with the plain program: there is no {tool}")
            return
    program, plain = str(Path(words.program).resolve()), built()
    check_same(program, plain, words.devices)
    print_table(program, plain, words.devices)


if __name__ == "__main__":
    main()
