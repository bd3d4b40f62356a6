#!/usr/bin/env python3
"""What the server costs: `bench/serve.py [--quick] [--table FILE] [PROGRAM [HOST]]`.

rd_serve is measured on 127.0.0.1 beside coap-rd of libcoap and beside a plain echo of datagrams
(bench/echo.c), under requests of bench/load.c; both are built into bin/. rd_host is measured beside
rd_serve, where it is named. The table has a row for
each figure: what it is, what it is compared with, how many times that it is, what is wanted, and
whether that holds. Figures in us are processor time of the server for each answered request, user
and system, as the kernel counts it in nanoseconds (/proc/PID/task/*/schedstat). What is compared
is measured by turns, each time on a server that has just begun. A server has one worker where no
other number is named. Where there are two processors or more, a server and the load have
processors of their own.

Registrations are few at a time, since a directory accepts 4,096 writes in 247 seconds (RFC 7252
section 4.8.2). So a server that is to accept 4,096 more is left alone for so long: the last row
comes minutes after the others; --quick leaves it out. The status is 1 where requests were not
answered as they should. --table writes the figures that bench/plot.py draws, for which coap-rd is
asked for lookups among as many registrations and from as many ports too.
"""

import argparse
import contextlib
import itertools
import os
import shutil
import signal
import socket
import subprocess
import sys
import time
from dataclasses import dataclass
from pathlib import Path
from typing import Callable, Iterator

from calls import without_bounds
from tables import Figure, write_table

HERE = Path(__file__).resolve().parent
BIN = HERE.parent / "bin"

HOST = "127.0.0.1"
SERVER_PORT = 26_000
CLIENT_PORT = 20_000

# Ports from which requests come, and most of them that are out at a time.
PORTS = 64
MANY_PORTS = 4_000
WINDOW = 64

# Registrations that stand, and the most of them.
FEW, SOME, MOST = 64, 1_000, 4_096

# Requests in one measure, rounds of it, and registrations that come at once.
WRITES = 4_096
LOOKUPS = 40_000
FEWER_LOOKUPS = 10_000
ROUNDS = 3
BURST = 1_024

# Seconds: how long idle workers are watched, how long a server remembers a write, and how long
# one may take to begin; and the seconds that one run of the load may take.
IDLE = 16
REMEMBERED = 248
BEGIN_LIMIT = 5
LOAD_LIMIT = 120

WORKERS = 4

# The processors that four workers and their load are to have.
ENOUGH = 8

# A message without code or content: a server of CoAP resets it (RFC 7252 section 4.3).
PING = bytes([0x40, 0, 0, 1])


class Missing(Exception):
    """Requests were not answered as they should."""


@dataclass(frozen=True)
class Request:
    """What is sent, with `#` for a number: a target and, of a POST, the links."""

    target: str
    links: str = ""

    def __str__(self) -> str:
        method = "POST" if self.links else "GET"
        return f"{method} /{self.target} {self.links}".rstrip()


def links(count: int) -> str:
    """So many links of a device."""
    return ",".join(f'</s{place}>;rt="t#"' for place in range(count))


# The name is given thrice: by `ep` as RFC 9176 has it, and by `h` and `ins` as coap-rd wants it.
# A lookup is by `ins`, since coap-rd looks up neither by `ep` nor at a path of its own.
NAMES = "ep=n#&h=n#&ins=i#&lt=90000"
REGISTRATION = Request(f"rd?{NAMES}", links(1))
FIVE_LINKS = Request(f"rd?{NAMES}", links(5))
LOOKUP = Request("rd-lookup/res?ins=i#")
COAP_RD_LOOKUP = Request(".well-known/core?ins=i#")


@dataclass
class Answers:
    """What came of a load."""

    count: int = 0
    lost: int = 0
    seconds: float = 0.0
    nanoseconds: int = 0

    def microseconds(self) -> float:
        """The server's processor time for each answer."""
        return self.nanoseconds / 1_000 / self.count


def processors() -> list[int]:
    """The processors that this script may use."""
    return sorted(os.sched_getaffinity(0))


def on(places: list[int]) -> Callable[[], None]:
    """What a process does first, to run on these processors."""
    return lambda: os.sched_setaffinity(0, places)


def said_by(load: subprocess.Popen) -> str:
    """What a load says at its end, nothing where that does not come in time."""
    with load:
        try:
            return load.communicate(timeout=LOAD_LIMIT)[0]
        except subprocess.TimeoutExpired:
            return ""
        finally:
            load.kill()


class Server:
    """A server that runs, with the kind of answer that it gives."""

    ports = itertools.count(SERVER_PORT)

    def __init__(self, words: Callable[[int], list[str]], lookup: Request, answer: str,
                 places: list[int] | None = None):
        self.port = next(self.ports)
        self.lookup, self.answer = lookup, answer
        self.process = subprocess.Popen(
            words(self.port), stdin=subprocess.DEVNULL, stdout=subprocess.DEVNULL,
            stderr=subprocess.DEVNULL, preexec_fn=on(places or processors()[:1]))

    def wait(self):
        """Waits until it answers."""
        until = time.monotonic() + BEGIN_LIMIT
        with socket.socket(socket.AF_INET, socket.SOCK_DGRAM) as asking:
            asking.settimeout(0.1)
            asking.connect((HOST, self.port))
            while time.monotonic() < until:
                with contextlib.suppress(OSError):
                    asking.send(PING)
                    asking.recv(len(PING))
                    return
                time.sleep(0.02)
        raise Missing(f"{self.process.args[0]} does not answer")

    def end(self):
        """Ends it."""
        self.process.terminate()
        try:
            self.process.wait(BEGIN_LIMIT)
        except subprocess.TimeoutExpired:
            self.process.kill()
            self.process.wait()

    def nanoseconds(self) -> int:
        """The processor time that all its threads have had."""
        threads = Path("/proc", str(self.process.pid), "task").glob("*/schedstat")
        return sum(int(thread.read_text().split()[0]) for thread in threads)

    def begin_load(self, request: Request, count: int, names: int, ports: int, window: int,
                   first: int = CLIENT_PORT, places: list[int] | None = None) -> subprocess.Popen:
        """Begins to send requests."""
        body = ["-b", request.links] if request.links else []
        words = {"p": self.port, "f": first, "s": ports, "w": window, "n": names, "r": count}
        given = [word for name, value in words.items() for word in (f"-{name}", str(value))]
        return subprocess.Popen(
            [BIN / "load", *given, *body, request.target], stdout=subprocess.PIPE, text=True,
            preexec_fn=on(places or processors()[-1:]))

    def end_load(self, loads: list[subprocess.Popen]) -> Answers:
        """What came of loads that run at the same time."""
        answers = Answers()
        for load in loads:
            told = dict(pair.split("=") for pair in said_by(load).split())
            answers.count += int(told.get(self.answer, 0))
            answers.lost += int(told.get("lost", 0))
            answers.seconds = max(answers.seconds, float(told.get("seconds", 0)))
        return answers

    def load(self, request: Request, count: int, names: int, ports: int = PORTS,
             window: int = WINDOW) -> Answers:
        """Sends requests, all of which are to be answered."""
        before = self.nanoseconds()
        answers = self.end_load([self.begin_load(request, count, names, ports, window)])
        answers.nanoseconds = self.nanoseconds() - before
        if answers.count != count:
            raise Missing(f"{answers.count:,} of {count:,} were answered: {request}")
        return answers

    def register(self, names: int) -> Answers:
        """Registers so many names."""
        return self.load(REGISTRATION, names, names)

    def look(self, names: int, ports: int = PORTS) -> Answers:
        """Looks up so many names again and again, each with one hit."""
        return self.load(self.lookup, LOOKUPS, names, ports)


@contextlib.contextmanager
def running(make: Callable[[], Server]) -> Iterator[Server]:
    """A server that runs for a while."""
    server = make()
    try:
        server.wait()
        yield server
    finally:
        server.end()


def rd_serve(program: str, workers: int = 1, places: list[int] | None = None):
    """How a server of so many workers is made."""
    return lambda: Server(lambda port: [program, "--port", str(port), "--workers", str(workers)],
                          LOOKUP, "class2", places)


def rd_host(program: str):
    """How rd_host is made, with one worker and without bounds of a sender."""
    bounds = without_bounds(program)
    return lambda: Server(lambda port: [program, "--listen", f"{HOST}:{port}", "--workers", "1",
                                        *bounds], LOOKUP, "class2")


def coap_rd(program: str):
    """How libcoap's directory is made, which is to log nothing."""
    return lambda: Server(lambda port: [program, "-A", HOST, "-p", str(port), "-v", "0"],
                          COAP_RD_LOOKUP, "class2")


def echo():
    """The server that sends back what comes, which is a request of class 0."""
    return Server(lambda port: [BIN / "echo", str(port)], LOOKUP, "class0")


def cost(kinds: list[Callable[[], Server]], measure: Callable[[Server, int], Answers],
         rounds: int = ROUNDS) -> list[float]:
    """Microseconds a request of each kind of server, by turns, each time on a new server.

    The measure is told the place of the kind."""
    sums = [Answers() for _ in kinds]
    for _ in range(rounds):
        for place, (kind, total) in enumerate(zip(kinds, sums)):
            with running(kind) as server:
                answers = measure(server, place)
            total.count += answers.count
            total.nanoseconds += answers.nanoseconds
    return [total.microseconds() for total in sums]


# The pictures, and what is said of their figures.
BY_SIZE, BY_PORTS = "cpu-by-registrations", "cpu-by-peers"
HEAD = "bench/serve.py, microseconds of the server for each answered request, on {} processors"

# Lookups that coap-rd is asked for beside the rows: the picture, its line and the number there, and
# how many registrations stand and how many ports ask.
BESIDE = [
    *((BY_SIZE, "coap-rd", names, names, PORTS) for names in (FEW, SOME, MOST)),
    *((BY_PORTS, "a lookup, coap-rd", ports, SOME, ports) for ports in (PORTS, MANY_PORTS)),
]

# The table.

COLUMNS = "{:<58}{:>12}  {:<24}{:>6}  {:<15}{}"


def print_row(name: str, figure: str, beside: str, ratio: float | None, wanted: str,
              holds: bool | None):
    """Prints a row of the table."""
    times = "" if ratio is None else f"{ratio:.2f}"
    judged = {True: "yes", False: "no", None: "not judged"}[holds]
    print(COLUMNS.format(name, figure, beside, times, wanted, judged), flush=True)


def figures_of(picture: str, line: str, numbers: list[int], costs: list[float]) -> list[Figure]:
    """The figures of a line of a picture."""
    return [Figure(picture, line, *at) for at in zip(numbers, costs)]


def print_cost(name: str, figure: float, beside: str, other: float, most: float):
    """Prints the row of a cost that is to be at most so many times another."""
    ratio = figure / other
    print_row(name, f"{figure:.2f} us", f"{beside} {other:.2f} us", ratio, f"at most {most:.2f}",
              ratio <= most)


def print_registrations(program: str, libcoap: str):
    """Registrations again and again, beside coap-rd."""
    for name, request in (("one link", REGISTRATION), ("five links", FIVE_LINKS)):
        ours, other = cost([rd_serve(program), coap_rd(libcoap)],
                           lambda server, _, sent=request: server.load(sent, WRITES, FEW))
        print_cost(f"a registration of {name}, from 64 ports", ours, "coap-rd", other, 0.5)


def looked_up(server: Server, _: int) -> Answers:
    """Lookups among some registrations, which an echo does not need."""
    if server.answer == "class2":
        server.register(SOME)
    return server.look(SOME)


def print_lookups(program: str, libcoap: str) -> list[Figure]:
    """Lookups with one hit, beside coap-rd and the echo."""
    kinds = [rd_serve(program), echo] + ([coap_rd(libcoap)] if libcoap else [])
    ours, plain, *other = cost(kinds, looked_up)
    name = f"a lookup with one hit among {SOME:,}"
    if other:
        print_cost(name, ours, "coap-rd", other[0], 0.1)
    print_cost(name, ours, "echo", plain, 3)
    return figures_of(BY_SIZE, "rd_serve", [SOME], [ours])


def print_host(program: str, host: str):
    """Lookups and registrations of rd_host beside those of rd_serve."""
    def register(server: Server, _: int) -> Answers:
        return server.load(REGISTRATION, WRITES, FEW)

    for name, measure in (("a lookup of rd_host", looked_up),
                          ("a registration at rd_host", register)):
        ours, plain = cost([rd_host(host), rd_serve(program)], measure)
        print_row(name, f"{ours:.2f} us", f"rd_serve {plain:.2f} us", ours / plain, "", None)


def print_ports(program: str) -> list[Figure]:
    """Requests from many ports beside those from few."""
    ports, figures = [MANY_PORTS, PORTS], []

    def look(server: Server, place: int) -> Answers:
        server.register(SOME)
        return server.look(SOME, ports[place])

    def register(server: Server, place: int) -> Answers:
        return server.load(REGISTRATION, MANY_PORTS, MANY_PORTS, ports[place])

    for name, measure in (("a lookup", look), ("a registration of a new name", register)):
        many, few = cost([rd_serve(program)] * 2, measure)
        print_cost(f"{name}, from {MANY_PORTS:,} ports", many, f"from {PORTS} ports", few, 1.2)
        figures += figures_of(BY_PORTS, f"{name}, rd_serve", ports, [many, few])
    return figures


def print_sizes(program: str) -> list[Figure]:
    """Lookups among many registrations beside those among few."""
    sizes = [MOST, FEW]

    def look(server: Server, place: int) -> Answers:
        server.register(sizes[place])
        return server.look(sizes[place])

    most, few = cost([rd_serve(program)] * 2, look)
    print_cost(f"a lookup, with {MOST:,} registrations", most, f"with {FEW}", few, 1.5)
    return figures_of(BY_SIZE, "rd_serve", sizes, [most, few])


def asked(names: int, ports: int) -> Callable[[Server, int], Answers]:
    """The measure of lookups among so many registrations, from so many ports."""
    def measure(server: Server, _: int) -> Answers:
        server.register(names)
        return server.load(server.lookup, FEWER_LOOKUPS, names, ports)

    return measure


def measured_beside(libcoap: str) -> list[Figure]:
    """What coap-rd costs for lookups among so many registrations, and from so many ports. What it
    does not answer is left out, and told."""
    figures = []
    for picture, line, number, names, ports in BESIDE:
        try:
            costs = cost([coap_rd(libcoap)], asked(names, ports), rounds=1)
            figures += figures_of(picture, line, [number], costs)
        except Missing as missing:
            print(f"{line} is not drawn at {number:,}: {missing}", flush=True)
    return figures


def print_full(program: str, full: Server, filled_at: float):
    """Registrations again of all names of a full directory, when it has forgotten the first."""
    few, = cost([rd_serve(program)], lambda server, _: server.load(REGISTRATION, WRITES, FEW))
    time.sleep(max(0, filled_at + REMEMBERED - time.monotonic()))
    most = full.load(REGISTRATION, WRITES, MOST).microseconds()
    print_cost(f"a registration again, with {MOST:,} registrations", most, f"with {FEW}", few, 1.5)


def lookups_a_second(program: str, workers: int) -> float:
    """How many lookups so many workers answer in a second, under loads from other processors."""
    places = processors()
    own, others = places[:WORKERS], places[WORKERS:ENOUGH]
    if len(places) < ENOUGH:
        own, others = places, places
    with running(rd_serve(program, workers, own)) as server:
        server.register(SOME)
        loads = [server.begin_load(LOOKUP, LOOKUPS, SOME, PORTS, WINDOW,
                                   CLIENT_PORT + PORTS * place, others)
                 for place in range(len(others))]
        answers = server.end_load(loads)
    if answers.lost:
        raise Missing(f"{answers.lost} lookups were lost under {workers} workers")
    return answers.count / answers.seconds


def print_workers(program: str):
    """Lookups a second of four workers beside those of one."""
    one, four = (lookups_a_second(program, workers) for workers in (1, WORKERS))
    ratio = four / one
    is_judged = len(processors()) >= ENOUGH
    print_row(f"lookups a second, {WORKERS} workers", f"{four:,.0f}", f"one worker {one:,.0f}",
              ratio, "at least 2.50", ratio >= 2.5 if is_judged else None)


def print_burst(program: str, workers: int):
    """Registrations that come all at once, and are sent once."""
    with running(rd_serve(program, workers, processors()[:-1] or None)) as server:
        load = server.begin_load(REGISTRATION, BURST, BURST, BURST, BURST)
        lost = BURST - server.end_load([load]).count
    name = f"lost of {BURST:,} registrations at once, {workers} worker{'s' * (workers > 1)}"
    print_row(name, str(lost), "", None, "none", lost == 0)


def print_idle(program: str):
    """What workers cost to whom nobody sends."""
    with running(rd_serve(program, WORKERS, processors())) as server:
        before = server.nanoseconds()
        time.sleep(IDLE)
        seconds = (server.nanoseconds() - before) / 1e9
    print_row(f"{WORKERS} workers idle for {IDLE} s", f"{seconds:.2f} s", "", None, "below 1 s",
              seconds < 1)


def print_table(program: str, host: str, libcoap: str, is_quick: bool) -> list[Figure]:
    """Measures all, prints the table, and gives the figures that are drawn."""
    print(COLUMNS.format("", "", "beside", "times", "wanted", "holds"))
    with running(rd_serve(program)) as full:
        full.register(MOST)
        filled_at = time.monotonic()
        if libcoap:
            print_registrations(program, libcoap)
        figures = print_lookups(program, libcoap)
        if host:
            print_host(program, host)
        figures += print_ports(program)
        figures += print_sizes(program)
        print_workers(program)
        for workers in (1, WORKERS):
            print_burst(program, workers)
        print_idle(program)
        if not is_quick:
            print_full(program, full, filled_at)
    return figures


def print_head(libcoap: str):
    """Tells what the table stands on."""
    count = len(processors())
    print(f"{count} processors, {os.getloadavg()[0]:.1f} busy before; up to {WINDOW} requests out "
          f"at a time")
    for request in (REGISTRATION, FIVE_LINKS, LOOKUP, COAP_RD_LOOKUP):
        print(f"    {request}{' (to coap-rd)' * (request is COAP_RD_LOOKUP)}")
    if not libcoap:
        print("coap-rd is not there (libcoap3-bin of Debian): its rows are left out")
    if count < ENOUGH:
        print(f"four workers are not judged on fewer than {ENOUGH} processors")


def build():
    """Builds the load and the echo."""
    BIN.mkdir(exist_ok=True)
    for name in ("load", "echo"):
        words = ["gcc", "-O2", "-o", BIN / name, HERE / f"{name}.c"]
        if not shutil.which("gcc") or subprocess.run(words, check=False).returncode != 0:
            sys.exit(f"bench/{name}.c needs gcc")


def main():
    parser = argparse.ArgumentParser(description="What the server costs.")
    parser.add_argument("program", nargs="?", default="bin/rd_serve")
    parser.add_argument("host", nargs="?", default="")
    parser.add_argument("--table", type=Path, metavar="FILE", help="writes what is drawn")
    parser.add_argument("--quick", action="store_true", help="without the row that takes minutes")
    words = parser.parse_args()
    signal.signal(signal.SIGTERM, lambda *_: sys.exit(1))
    program, host = (str(Path(it).resolve()) if it else "" for it in (words.program, words.host))
    for it in filter(None, (program, host)):
        if not os.access(it, os.X_OK):
            sys.exit(f"{it} is not there: make build")
    builds = ["coap-rd", "coap-rd-notls", "coap-rd-openssl", "coap-rd-gnutls"]
    libcoap = next(filter(shutil.which, builds), "")
    build()
    print_head(libcoap)
    try:
        figures = print_table(program, host, libcoap, words.quick)
        if words.table:
            figures += measured_beside(libcoap) if libcoap else []
            write_table(words.table, [HEAD.format(len(processors()))], figures)
    except Missing as missing:
        sys.exit(str(missing))


if __name__ == "__main__":
    main()
