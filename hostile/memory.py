#!/usr/bin/env python3
"""Each allocation refused in turn: `hostile/memory.py [--bin FOLDER] [TRACE]..`.

rd_replay and rd_show run traces of examples/ again and again, each time with one allocation refused
(hostile/fail_alloc.c), from the first one until none is. The status is then to be 0, 2 or 5, with
the text of that status, and what is written the beginning of what is written with ample memory.
Then a server of one worker and two turns is sent a registration in the same way: it is to end with
one of these statuses too, and what it answers is to be nothing, 2.01 or 5.00. A line for each
says how many were tried and which statuses came. The script's status is 1 where another came, and 2
where there is no C compiler.
"""

import argparse
import os
import shutil
import subprocess
import sys
import tempfile
import time
from collections import Counter
from concurrent.futures import ThreadPoolExecutor
from dataclasses import dataclass
from pathlib import Path

import wire

HERE = Path(__file__).resolve().parent
EXAMPLES = HERE.parent / "examples"

# Blocks of a listing, an observer, and a simple registration with blocks.
TRACES = ["blocks", "observe", "simple"]

# What is said on standard error under each status that may come.
TEXTS = {0: b"", 2: b"write failed\n", 5: b"memory\n"}

# Seconds that one run may take, runs at a time, and the most allocations that are tried.
RUN_LIMIT = 20
AT_A_TIME = 2
MOST_TRIED = 100_000

REFUSED = b"refused %d\n"

# POST /rd?ep=node1&lt=600 with two links, confirmable; its 2.01 with the location /rd/1, its 5.00.
REGISTRATION = (bytes.fromhex("41020001a1b2") + b"rd" + bytes.fromhex("1128") + b"\x38ep=node1"
                b'\x06lt=600\xff</temp>;rt="temperature";ct=0,</light>;rt="light-lux";if="sensor"')
CREATED = bytes.fromhex("61410001a18272640131")
SERVER_ERROR = bytes.fromhex("61a00001a1")

# What a server writes whose turns were over before a datagram came, and how often it is then begun
# anew.
UNREACHED, MOST_BEGUN = b"served 0 0 0\n", 10

# Seconds: between two tries to reach a server that begins, and how long an answer is waited for
# before it is looked whether the server has ended.
BETWEEN_TRIES, ANSWER_STEP = 0.002, 0.02


def build(folder: str) -> Path:
    """Builds what refuses."""
    made = Path(folder, "fail_alloc.so")
    words = ["cc", "-O2", "-Wall", "-shared", "-fPIC", "-o", made, HERE / "fail_alloc.c"]
    if not shutil.which("cc") or subprocess.run(words, check=False).returncode != 0:
        print("hostile/fail_alloc.c needs a C compiler", file=sys.stderr)
        sys.exit(2)
    return made


@dataclass(frozen=True)
class Done:
    """A run that is over: its status, what it wrote and said, and what it answered."""

    status: int
    written: bytes
    said: bytes
    answered: bytes = b""


class Runs:
    """Runs of a program, each with one allocation refused."""

    def __init__(self, name: str, program: Path, shim: Path):
        self.name, self.program, self.shim = name, str(program), shim
        self.statuses: Counter[int] = Counter()
        self.wrong = 0

    def environment(self, number: int) -> dict:
        """That of a run in which the allocation of a number is refused, or none."""
        return os.environ | {"LD_PRELOAD": str(self.shim), "FAIL_ALLOC": str(number)}

    def run(self, number: int) -> Done:
        """One run, with the allocation of a number refused, or none."""
        raise NotImplementedError

    def fault(self, done: Done) -> str:
        """What is wrong with what a run wrote and answered, or nothing."""
        raise NotImplementedError

    def judge(self, number: int, done: Done) -> bool:
        """Counts a run, and tells what is wrong with it; whether an allocation was refused."""
        if REFUSED % number not in done.said:
            return False
        said = done.said.replace(REFUSED % number, b"")
        self.statuses[done.status] += 1
        fault = self.fault(done)
        if fault or TEXTS.get(done.status) != said:
            self.wrong += 1
            said_text = said.decode(errors="replace").strip()
            print(f"    allocation {number}: status {done.status} {said_text}; {fault}")
        return True

    def try_all(self) -> int:
        """Refuses each allocation in turn; how many there were."""
        step = 16 * AT_A_TIME
        with ThreadPoolExecutor(AT_A_TIME) as pool:
            for first in range(1, MOST_TRIED, step):
                numbers = range(first, first + step)
                for number, done in zip(numbers, pool.map(self.run, numbers)):
                    if not self.judge(number, done):
                        return number - 1
        return MOST_TRIED

    def tell(self) -> tuple[int, int]:
        """Tries all and tells it; how many were tried, and how many were wrong."""
        count = self.try_all()
        statuses = ", ".join(f"{times} of status {status}"
                             for status, times in sorted(self.statuses.items()))
        print(f"{self.name}: {count} tried, {statuses}, {self.wrong} wrong", flush=True)
        return count, self.wrong


class Trace(Runs):
    """A trace that is run with one allocation refused."""

    def __init__(self, program: Path, shim: Path, trace: Path):
        super().__init__(f"{program.name} {trace.name}", program, shim)
        self.trace = trace
        self.whole = self.run(0).written

    def run(self, number: int) -> Done:
        with self.trace.open("rb") as given:
            ran = subprocess.run([self.program], stdin=given, stdout=subprocess.PIPE,
                                 stderr=subprocess.PIPE, env=self.environment(number),
                                 timeout=RUN_LIMIT, check=False)
        return Done(ran.returncode, ran.stdout, ran.stderr)

    def fault(self, done: Done) -> str:
        if not self.whole.startswith(done.written):
            return "other output"
        if done.status == 0 and done.written != self.whole:
            return "less output"
        return ""


def answer(asking, process: subprocess.Popen) -> bytes:
    """What a server answers to one registration, nothing where it ends first."""
    asking.settimeout(ANSWER_STEP)
    is_sent = False
    while True:
        has_ended = process.poll() is not None
        try:
            if not is_sent:
                asking.send(REGISTRATION)
                is_sent = True
            return asking.recv(wire.MOST_READ)
        except ConnectionRefusedError:
            is_sent = False
            time.sleep(BETWEEN_TRIES)
        except TimeoutError:
            pass
        if has_ended:
            return b""


class Serving(Runs):
    """A server of two turns that is sent a registration, with one allocation refused."""

    def __init__(self, program: Path, shim: Path):
        super().__init__(f"{program.name}, a registration", program, shim)

    def begin(self, number: int) -> Done:
        """One server, and what it answers."""
        port = wire.free_port()
        words = [self.program, "--port", str(port), "--workers", "1", "--turns", "2"]
        process = subprocess.Popen(words, stdin=subprocess.DEVNULL, stdout=subprocess.PIPE,
                                   stderr=subprocess.PIPE, env=self.environment(number))
        with wire.open_socket(port) as asking:
            answered = answer(asking, process)
        written, said = process.communicate(timeout=RUN_LIMIT)
        return Done(process.returncode, written, said, answered)

    def run(self, number: int) -> Done:
        for _ in range(MOST_BEGUN):
            done = self.begin(number)
            if done.written != UNREACHED:
                break
        return done

    def fault(self, done: Done) -> str:
        if done.answered not in (b"", CREATED, SERVER_ERROR):
            return f"other answer {done.answered.hex()}"
        if done.status == 0 and done.written != b"served 1 %d 0\n" % (done.answered != b""):
            return f"{done.written!r} where {done.answered!r} came"
        return ""


def runs_of(folder: Path, shim: Path, traces: list[Path]):
    """All that is tried."""
    programs = {name: (folder / name).resolve() for name in ("rd_replay", "rd_show", "rd_serve")}
    for name, program in programs.items():
        if not os.access(program, os.X_OK):
            sys.exit(f"{name} is not there: make build")
    for name in ("rd_replay", "rd_show"):
        for trace in traces:
            yield Trace(programs[name], shim, trace)
    yield Serving(programs["rd_serve"], shim)


def main():
    parser = argparse.ArgumentParser(description="Each allocation refused in turn.")
    parser.add_argument("traces", nargs="*", type=Path)
    parser.add_argument("--bin", type=Path, default=Path("bin"), help="where the programs are")
    words = parser.parse_args()
    traces = words.traces or [EXAMPLES / f"{name}.trace" for name in TRACES]
    tried = wrong = 0
    with tempfile.TemporaryDirectory() as folder:
        for runs in runs_of(words.bin, build(folder), traces):
            count, faults = runs.tell()
            tried, wrong = tried + count, wrong + faults
    print(f"{tried} tried, {wrong} wrong")
    sys.exit(wrong > 0)


if __name__ == "__main__":
    main()
