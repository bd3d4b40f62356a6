#!/usr/bin/env python3
"""What a call costs, by replayed traces: `bench/traces.py [--times] [--table FILE] [PROGRAM]`.

For each kind of call two traces are made: the set-up alone, and the set-up with some calls of that
kind after it. The difference of what the program (bin/rd_replay) takes for both, divided by the
number of calls, is the cost of one call: its lines are read, it is served, its answers are
written. Costs are instructions, counted by callgrind, which are the same on a busy machine. Where
valgrind is not installed, or with --times, they are nanoseconds, by the least of five runs of each
trace. The table has each kind at growing numbers of registrations that stand, and in parentheses
how many times the cost at the first number it is. Each call's answers are counted too, and the
script ends with status 1 where some are missing. --table writes the figures that bench/plot.py
draws.
"""

import argparse
import os
import re
import shutil
import subprocess
import sys
import tempfile
import time
from concurrent.futures import ThreadPoolExecutor
from dataclasses import dataclass, replace
from pathlib import Path
from typing import Callable

from tables import Figure, write_table

SIZES = [64, 1_024, 4_096]

# The most registrations that may stand, and how many calls are made of a kind that changes how
# many there are, or of another kind.
MOST = 4_096
FEW = 32
MANY = 1_000

# Milliseconds: when all devices register, and when their exchanges are over (RFC 7252 section
# 4.8.2). Later calls come then.
START = 1_000
SETTLED = START + 247_000

# Seconds that registrations are to stand, and those of the first one that a sweep finds.
LONG = 90_000
SHORT = 300

# How many observers are told in a tick, and how many links a lookup by a wildcard lists.
OBSERVERS = 64
LISTED = 50

# As many criteria as fit a datagram of 4,096 octets, all the same, which each registration meets.
SAME_CRITERIA = ["ep=*"] * 768

# How many links a registration has whose lease is updated.
LINKS = [1, 1_000]

# Types (RFC 7252 section 3) and codes (section 12.1).
CON, ACK = 0, 2
EMPTY, GET, POST, DELETE = 0x00, 0x01, 0x02, 0x04
CREATED, DELETED, VALID, CHANGED, CONTENT = 0x41, 0x42, 0x43, 0x44, 0x45

# Numbers of options (RFC 7252 section 5.10, RFC 7641 section 2, RFC 7959 section 2.1).
ETAG, OBSERVE, URI_PATH, CONTENT_FORMAT, URI_QUERY, BLOCK2, BLOCK1 = 4, 6, 11, 12, 15, 23, 27
ECHO = 252

# Octets of a block of a body that comes in blocks, and its size exponent.
BLOCK, EXPONENT = 1_024, 6

LINK_FORMAT = (CONTENT_FORMAT, b"\x28")
SECOND_BLOCK = (BLOCK2, b"\x16")
CLIENT = "192.0.2.30:40000"


def length_parts(number: int) -> tuple[int, bytes]:
    """The nibble and the further octets that spell an option's delta or length."""
    if number < 13:
        return number, b""
    if number < 269:
        return 13, bytes([number - 13])
    return 14, (number - 269).to_bytes(2, "big")


def message(kind, code, mid, token=b"\xa1", options=(), payload=b"") -> str:
    """A CoAP message in hexadecimal (RFC 7252 section 3)."""
    octets = bytearray([0x40 | kind << 4 | len(token), code]) + mid.to_bytes(2, "big") + token
    last = 0
    for number, value in options:
        delta, more_delta = length_parts(number - last)
        length, more_length = length_parts(len(value))
        octets += bytes([delta << 4 | length]) + more_delta + more_length + value
        last = number
    if payload:
        octets += b"\xff" + payload
    return octets.hex()


def device(number: int) -> str:
    """Where the device of a number is."""
    return f"10.0.{number // 256}.{number % 256}:5683"


def observer(number: int) -> str:
    """Where the observer of a number is."""
    return f"192.0.2.31:{10_000 + number}"


def link(number: int, edition: int = 0) -> bytes:
    """The one link of a device, of six attributes."""
    return (
        f'</s>;rt="light-{number}";if="sensor";ct=40;sz={edition};title="t{number}"'
        f';g="f{number // LISTED}-"'
    ).encode()


def path(*parts: str) -> list[tuple[int, bytes]]:
    """The options of a path."""
    return [(URI_PATH, part.encode()) for part in parts]


def query(*parts: str) -> list[tuple[int, bytes]]:
    """The options of a query."""
    return [(URI_QUERY, part.encode()) for part in parts]


def registration(number: int, mid: int, lifetime: int = LONG, edition: int = 0) -> str:
    """The registration of the device of a number (RFC 9176 section 5)."""
    options = [*path("rd"), LINK_FORMAT, *query(f"ep=n{number}", f"lt={lifetime}")]
    return message(CON, POST, mid, b"\xa1", options, link(number, edition))


def tag_of(changes: int) -> bytes:
    """The tag of listings after so many changes, where nothing has lapsed since."""
    return changes.to_bytes(6, "big") + bytes(2)


class Trace:
    """Lines of a trace for one worker, at a moment that does not fall."""

    def __init__(self, moment: int = START):
        self.lines: list[str] = []
        self.moment = moment
        self.mid = 0

    def next_mid(self) -> int:
        """A Message ID that no request has had."""
        self.mid += 1
        return self.mid

    def come(self, peer: str, datagram: str):
        """A datagram comes."""
        self.lines.append(f"in 0 {self.moment} {peer} {datagram}")

    def go(self):
        """What the worker holds is done."""
        self.lines.append(f"go 0 {self.moment}")

    def tick(self, moment: int):
        """Time passes."""
        self.moment = moment
        self.lines.append(f"tick 0 {moment}")

    def write(self, peer: str, code: int, options, payload: bytes = b""):
        """A write comes and is done."""
        self.come(peer, message(CON, code, self.next_mid(), b"\xa1", options, payload))
        self.go()

    def register(self, number: int, lifetime: int = LONG, edition: int = 0):
        """The device of a number registers."""
        self.come(device(number), registration(number, self.next_mid(), lifetime, edition))
        self.go()

    def register_links(self, number: int, links: int):
        """The device of a number registers so many links, in blocks (RFC 7959 section 2.5)."""
        body = b",".join(f"</{n:x}>".encode() for n in range(links))
        options = [*path("rd"), LINK_FORMAT, *query(f"ep=n{number}", f"lt={LONG}")]
        for block, start in enumerate(range(0, len(body), BLOCK)):
            more = start + BLOCK < len(body)
            value = (block << 4 | more << 3 | EXPONENT).to_bytes(1 + (block > 15), "big")
            part = body[start : start + BLOCK]
            self.write(device(number), POST, [*options, (BLOCK1, value)], part)

    def look(self, *criteria: str, before=(), after=(), peer: str = CLIENT):
        """A client looks up the links that meet criteria, or all of them (RFC 9176 section 6)."""
        options = [*before, *path("rd-lookup", "res"), *query(*criteria), *after]
        self.come(peer, message(CON, GET, self.next_mid(), b"\xa1", options))

    def join(self, observers: int, middle: int):
        """So many observers of an endpoint join, each at a port of its own (RFC 7641)."""
        for number in range(observers):
            self.look(f"ep=n{middle}", before=[(OBSERVE, b"")], peer=observer(number))

    def text(self) -> bytes:
        """The trace as the program reads it."""
        return "".join(line + "\n" for line in self.lines).encode()


@dataclass(frozen=True)
class Kind:
    """A kind of call."""

    name: str
    # Makes the set-up at a size, and the calls after it.
    make: Callable[[int, int], tuple[Trace, Trace]]
    calls: int
    # The code of its answers, and how many of them each call has.
    code: int
    answers: int = 1


def spread(call: int, size: int) -> int:
    """The number of one of so many devices, another for each call."""
    return call * 7_919 % size


def registered(size: int) -> Trace:
    """So many devices have just registered, so that their exchanges are kept."""
    trace = Trace()
    for number in range(size):
        trace.register(number)
    return trace


def settled(size: int) -> Trace:
    """So many devices have registered, and their exchanges are over."""
    trace = registered(size)
    trace.tick(SETTLED)
    return trace


def grown(trace: Trace) -> Trace:
    """The same trace, to be gone on with."""
    more = Trace(trace.moment)
    more.lines, more.mid = list(trace.lines), trace.mid
    return more


def new_names(size: int, calls: int) -> tuple[Trace, Trace]:
    """Devices whose names are new register."""
    size = min(size, MOST - calls)
    before = settled(size)
    after = grown(before)
    for call in range(calls):
        after.register(size + call)
    return before, after


def same_names(size: int, calls: int) -> tuple[Trace, Trace]:
    """Devices register again, with what they have."""
    before = settled(size)
    after = grown(before)
    for call in range(calls):
        after.register(spread(call, size))
    return before, after


def other_links(size: int, calls: int) -> tuple[Trace, Trace]:
    """Devices register again, each with another link."""
    before = settled(size)
    after = grown(before)
    for call in range(calls):
        after.register(spread(call, size), edition=call + 1)
    return before, after


def repeats(size: int, calls: int) -> tuple[Trace, Trace]:
    """Registrations come a second time, while the exchanges of all are kept."""
    before = registered(size)
    after = grown(before)
    for call in range(calls):
        number = spread(call, size)
        after.come(device(number), registration(number, mid=number + 1))
    return before, after


def updates(size: int, calls: int) -> tuple[Trace, Trace]:
    """Devices update their leases."""
    before = settled(size)
    after = grown(before)
    for call in range(calls):
        number = spread(call, size)
        options = [*path("rd", str(number + 1)), *query(f"lt={LONG}")]
        after.write(device(number), POST, options)
    return before, after


def leases(size: int, calls: int) -> tuple[Trace, Trace]:
    """A device of so many links updates its lease, while observers watch all of them."""
    before = Trace()
    before.register_links(0, size)
    before.tick(SETTLED)
    for number in range(OBSERVERS):
        before.look("ep=n0", before=[(OBSERVE, b"")], peer=observer(number))
        if size > 1:
            before.go()
    after = grown(before)
    for _ in range(calls):
        after.write(device(0), POST, [*path("rd", "1"), *query(f"lt={LONG}")])
    return before, after


def removals(size: int, calls: int) -> tuple[Trace, Trace]:
    """Devices remove their registrations."""
    before = settled(size)
    after = grown(before)
    for call in range(calls):
        number = spread(call, size)
        after.write(device(number), DELETE, path("rd", str(number + 1)))
    return before, after


def lookups(*criteria: str, is_long: bool = False, with_tag: bool = False):
    """A client looks up links by criteria, in which `#` is the number in the middle."""

    def make(size: int, calls: int) -> tuple[Trace, Trace]:
        before = settled(size)
        after = grown(before)
        tag = [(ETAG, tag_of(size))] if with_tag else []
        for _ in range(calls):
            after.look(*(each.replace("#", str(size // 2)) for each in criteria), before=tag)
            if is_long:
                after.go()
        return before, after

    return make


def blocks(size: int, calls: int) -> tuple[Trace, Trace]:
    """The client whose listing of all is kept asks for its second block."""
    before = settled(size)
    before.look()
    before.go()
    after = grown(before)
    for _ in range(calls):
        after.look(after=[SECOND_BLOCK])
    return before, after


def joins(size: int, calls: int) -> tuple[Trace, Trace]:
    """Observers of the endpoint in the middle join."""
    before = settled(size)
    after = grown(before)
    after.join(calls, size // 2)
    return before, after


def idle_ticks(size: int, calls: int) -> tuple[Trace, Trace]:
    """Time passes and nothing is due, while the exchanges of all registrations are kept."""
    before = registered(size)
    after = grown(before)
    for _ in range(calls):
        after.tick(after.moment + 1)
    return before, after


def notifications(size: int, calls: int) -> tuple[Trace, Trace]:
    """Observers are told of a change, in ticks that the set-up has not."""
    before = settled(size)
    before.join(OBSERVERS, size // 2)
    after = grown(before)
    for call in range(calls):
        for trace in (before, after):
            trace.register(size // 2, edition=call + 1)
        after.tick(after.moment)
        for trace in (before, after):
            for number in range(OBSERVERS):
                mid = call * OBSERVERS + number
                trace.come(observer(number), message(ACK, EMPTY, mid, token=b""))
    return before, after


def observed_by_many_criteria(size: int, calls: int) -> tuple[Trace, Trace]:
    """Devices register again, each with another link, and observers by many criteria are told."""
    before = settled(size)
    for number in range(OBSERVERS):
        before.look(*SAME_CRITERIA, before=[(OBSERVE, b"")], peer=observer(number))
        before.go()
    after = grown(before)
    for call in range(calls):
        after.register(spread(call, size), edition=call + 1)
        after.tick(after.moment)
        for number in range(OBSERVERS):
            mid = call * OBSERVERS + number
            after.come(observer(number), message(ACK, EMPTY, mid, token=b""))
    return before, after


def sweeps(size: int, calls: int) -> tuple[Trace, Trace]:
    """Leases lapse, one at a time, each before a tick."""
    before = Trace()
    for number in range(size):
        before.register(number, SHORT + number if number < calls else LONG)
    before.tick(SETTLED)
    after = grown(before)
    for call in range(calls):
        after.tick(START + 1_000 * (SHORT + call))
    return before, after


def simple(size: int, calls: int) -> tuple[Trace, Trace]:
    """Devices whose names are new ask to be registered, show that they receive (RFC 9175 section
    2.3), and answer the GET of their lists."""
    size = min(size, MOST - calls)
    before = settled(size)
    after = grown(before)
    for call in range(calls):
        peer = device(size + call)
        options = [*path(".well-known", "rd"), *query(f"ep=n{size + call}")]
        after.come(peer, message(CON, POST, after.next_mid(), b"\xa1", options))
        after.write(peer, POST, [*options, (ECHO, call.to_bytes(8, "big"))])
        token = (call + 1).to_bytes(8, "big")
        content = message(ACK, CONTENT, call, token, [LINK_FORMAT], link(size + call))
        after.come(peer, content)
    return before, after


LEASE = Kind("update of a lease, 64 observers", leases, MANY, CHANGED)

KINDS = [
    Kind("registration of a new name", new_names, FEW, CREATED),
    Kind("registration of a name again, with the same link", same_names, MANY, CREATED),
    Kind("registration of a name again, with another link", other_links, MANY, CREATED),
    Kind("a registration that is repeated", repeats, MANY, CREATED),
    Kind("update of a lease", updates, MANY, CHANGED),
    Kind("removal", removals, FEW, DELETED),
    Kind("simple registration of a new name", simple, FEW, CHANGED),
    Kind("lookup by rt, one listed", lookups("rt=light-#"), MANY, CONTENT),
    Kind("lookup by ep, one listed", lookups("ep=n#"), MANY, CONTENT),
    Kind("the same with the tag of the listing", lookups("ep=n#", with_tag=True), MANY, VALID),
    Kind("lookup by a wildcard, fifty listed", lookups("g=f0-*", is_long=True), FEW, CONTENT),
    Kind("lookup of all", lookups(is_long=True), FEW, CONTENT),
    Kind("lookup of all by 768 criteria that are the same", lookups(*SAME_CRITERIA, is_long=True),
         FEW, CONTENT),
    Kind("the second block of a listing of all that is kept", blocks, MANY, CONTENT),
    Kind("an observer that joins, one of 64", joins, OBSERVERS, CONTENT),
    Kind("a tick with nothing due", idle_ticks, MANY, CONTENT, answers=0),
    Kind("a tick with 64 notifications", notifications, FEW, CONTENT, answers=OBSERVERS),
    Kind("registration and tick, 64 observers by 768 criteria", observed_by_many_criteria, FEW,
         CONTENT, answers=OBSERVERS),
    Kind("a tick that sweeps one", sweeps, FEW, CONTENT, answers=0),
]

# Kinds of calls whose costs are drawn.
DRAWN = [
    "registration of a new name",
    "a registration that is repeated",
    "update of a lease",
    "removal",
    "lookup by rt, one listed",
]


def run(words: list[str], trace: bytes) -> subprocess.CompletedProcess:
    """A run of the program over a trace, that has to end well."""
    with tempfile.TemporaryFile() as stdin:
        stdin.write(trace)
        stdin.seek(0)
        done = subprocess.run(words, stdin=stdin, capture_output=True, check=False)
    if done.returncode != 0:
        sys.exit(f"{' '.join(words)} ended with {done.returncode}: {done.stderr.decode()[-300:]}")
    return done


def instructions(words: list[str], trace: bytes) -> tuple[int, bytes]:
    """How many instructions a run takes, and its output."""
    valgrind = ["valgrind", "--tool=callgrind", "--callgrind-out-file=/dev/null"]
    done = run([*valgrind, *words], trace)
    collected = re.search(rb"Collected : (\d+)", done.stderr)
    if not collected:
        sys.exit(f"callgrind told no count: {done.stderr.decode()[-300:]}")
    return int(collected.group(1)), done.stdout


def allocations(words: list[str], trace: bytes) -> tuple[int, bytes]:
    """How often a run takes memory, and its output."""
    done = run(["valgrind", "--tool=memcheck", "--leak-check=no", *words], trace)
    told = re.search(rb"total heap usage: ([\d,]+) allocs", done.stderr)
    if not told:
        sys.exit(f"memcheck told no count: {done.stderr.decode()[-300:]}")
    return int(told.group(1).replace(b",", b"")), done.stdout


def nanoseconds(words: list[str], trace: bytes) -> tuple[int, bytes]:
    """The least time of five runs, and the output."""
    times = []
    for _ in range(5):
        start = time.perf_counter_ns()
        done = run(words, trace)
        times.append(time.perf_counter_ns() - start)
    return min(times), done.stdout


def answers(output: bytes, code: int) -> int:
    """How many datagrams of a code stand in an output."""
    return len(re.findall(rb"(?m)^out \d+ \S+ ..%02x" % code, output))


@dataclass
class Bench:
    """Measures a program, each trace once."""

    program: str
    measure: Callable[[list[str], bytes], tuple[int, bytes]]

    def __post_init__(self):
        # Traces of one run at a time where times are taken, else one for each processor.
        workers = 1 if self.measure is nanoseconds else os.cpu_count()
        self.pool = ThreadPoolExecutor(max_workers=workers)
        self.begun = {}

    def begin(self, words: list[str], trace: bytes = b""):
        """What a run takes and its output, begun in the background."""
        key = (*words, trace)
        if key not in self.begun:
            self.begun[key] = self.pool.submit(self.measure, [self.program, *words], trace)
        return self.begun[key]

    def begin_kind(self, kind: Kind, size: int):
        """The runs of a kind at a size: of the set-up, and of the set-up with calls after it."""
        return [self.begin(["--workers=1"], trace.text()) for trace in kind.make(size, kind.calls)]


def cost_of(kind: Kind, runs) -> float:
    """What a call costs, by its two runs."""
    (before, output_before), (after, output_after) = (each.result() for each in runs)
    more = answers(output_after, kind.code) - answers(output_before, kind.code)
    if more != kind.calls * kind.answers:
        sys.exit(f"{kind.name}: {more} answers to {kind.calls} calls")
    return (after - before) / kind.calls


def row_of(name: str, costs: list[float]) -> str:
    """The row of a call: what it costs at each size, and how many times the first that is."""
    columns = [f"{costs[0]:>11,.0f}"]
    columns += [f"{cost:>13,.0f} {f'({cost / max(costs[0], 1):.2f})':>8}" for cost in costs[1:]]
    return f"{name:<52}" + "".join(columns)


def devices_of(size: int) -> int:
    """How many devices a trace of the program's own has, at most 4,000."""
    return min(size, 4_000)


def lines_of(devices: int) -> int:
    """How many lines the program's own trace of so many devices has."""
    return 2 * devices + devices // 10 + devices // 100 + 1


def print_table(bench: Bench, unit: str) -> list[Figure]:
    """Measures all kinds of calls at all sizes, prints the table, and gives the figures of those
    that are drawn."""
    runs = {(kind, size): bench.begin_kind(kind, size) for kind in KINDS for size in SIZES}
    whole = {size: bench.begin([f"--make={devices_of(size)}"]) for size in SIZES}
    head = f"{SIZES[0]:>11,}" + "".join(f"{size:>13,}{'':>9}" for size in SIZES[1:])
    print(f"{f'{unit} a call, with so many registrations':<52}{head}".rstrip(), flush=True)
    figures = []
    for kind in KINDS:
        costs = [cost_of(kind, runs[kind, size]) for size in SIZES]
        print(row_of(kind.name, costs), flush=True)
        if kind.name in DRAWN:
            picture = f"{unit}-by-registrations"
            figures += [Figure(picture, kind.name, *at) for at in zip(SIZES, costs)]
    costs = [whole[size].result()[0] / lines_of(devices_of(size)) for size in SIZES]
    print(row_of("a line of --make, of so many devices (4,000 at most)", costs))
    return figures


def print_leases(bench: Bench, unit: str):
    """Measures updates of a lease, by how many links the registration has, and prints the rows."""
    runs = [bench.begin_kind(LEASE, links) for links in LINKS]
    head = f"{LINKS[0]:>11,}" + "".join(f"{links:>13,}{'':>9}" for links in LINKS[1:])
    print(f"{f'{unit} a call, with so many links':<52}{head}".rstrip(), flush=True)
    print(row_of(LEASE.name, [cost_of(LEASE, each) for each in runs]), flush=True)


def main():
    parser = argparse.ArgumentParser(description="What a call costs, by replayed traces.")
    parser.add_argument("program", nargs="?", default="bin/rd_replay")
    parser.add_argument("--times", action="store_true", help="nanoseconds, not instructions")
    parser.add_argument("--table", type=Path, metavar="FILE", help="writes what is drawn")
    words = parser.parse_args()
    program = str(Path(words.program).resolve())
    is_counted = shutil.which("valgrind") and not words.times
    bench = Bench(program, instructions if is_counted else nanoseconds)
    try:
        unit = "instructions" if is_counted else "nanoseconds"
        figures = print_table(bench, unit)
        print_leases(bench, unit)
        if is_counted:
            print_leases(replace(bench, measure=allocations), "allocations")
    finally:
        bench.pool.shutdown(cancel_futures=True)
    if words.table:
        head = f"bench/traces.py, {unit} of {Path(program).name}"
        write_table(words.table, [head], figures)


if __name__ == "__main__":
    main()
