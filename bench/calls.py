#!/usr/bin/env python3
"""What a request costs the server, in instructions: `bench/calls.py [--quick] [PROGRAM]..`.

Each server runs under callgrind, which counts its own instructions, not the kernel's. So a busy
machine gives nearly the same figures. 64 clients ask, each from a port of its own, one request at
a time, as bench/serve.py has them. The table has a row for each kind of request and a column for
each server: rd_serve and rd_host with one worker, and libcoap's coap-rd where it is installed.
Registrations of a new name begin among 128 and end among 1,152. Observers watch queries that no
request of these touches. rd_host runs with no bound of a sender and no counts; the rows "by
default" and "at two addresses" are of one lookup with its bounds and counts, as it has them where
nothing is said. The status is 1 where a request was not answered as it should be.
"""

import argparse
import contextlib
import itertools
import os
import re
import shutil
import signal
import socket
import subprocess
import sys
import tempfile
import time
from dataclasses import dataclass
from pathlib import Path
from typing import Callable, Iterator

from traces import (CHANGED, CON, CONTENT, CREATED, EMPTY, GET, LINK_FORMAT, OBSERVE, POST,
                    URI_PATH, URI_QUERY)
from traces import message as spelled

HOST = "127.0.0.1"
FIRST_PORT = 27_000

# Clients, names that stand before the new ones, new names, and other requests of a kind.
CLIENTS = 64
STANDING = 128
NEW = 1_024
MANY = 256

# Numbers of observers, and of the different queries that they watch.
OBSERVERS = [(64, 1), (1_024, 1), (64, 64), (256, 256)]

# Seconds that a server under callgrind may take to answer, to begin and to write its counts.
ANSWER_LIMIT = 5
BEGIN_LIMIT = 30
DUMP_LIMIT = 30


class Missing(Exception):
    """A request was not answered as it should be."""


@dataclass(frozen=True)
class Request:
    """What is sent, with `#` for a number, and the code of its answer."""

    code: int
    path: str
    queries: str = ""
    links: str = ""
    answer: int = CONTENT

    def options(self, number: int) -> list[tuple[int, bytes]]:
        """Its options, in ascending order."""
        parts = [(URI_PATH, part.encode()) for part in self.path.split("/") if part]
        parts += [LINK_FORMAT] if self.links else []
        queries = self.queries.replace("#", str(number))
        return parts + [(URI_QUERY, it.encode()) for it in queries.split("&") if it]


# Names are given thrice: by `ep` as RFC 9176 has it, and by `h` and `ins` as coap-rd wants it.
NAMES = "ep=n#&h=n#&ins=i#&lt=90000"
REGISTRATION = Request(POST, "rd", NAMES, '</s0>;rt="t#"', CREATED)
OTHER_LINK = Request(POST, "rd", NAMES, '</s0>;rt="u#"', CREATED)
LOOKUP = Request(GET, "rd-lookup/res", "ep=n#")
COAP_RD_LOOKUP = Request(GET, ".well-known/core", "ins=i#")
EMPTY_MESSAGE = Request(EMPTY, "", answer=EMPTY)


class Server:
    """A server under callgrind, with its clients."""

    ports = itertools.count(FIRST_PORT)

    def __init__(self, words: Callable[[int], list[str]], folder: Path):
        self.port = next(self.ports)
        self.folder = folder
        self.mids = itertools.count(1)
        self.clients = []
        grind = ["valgrind", "--tool=callgrind", f"--callgrind-out-file={folder}/counts"]
        self.process = subprocess.Popen(
            [*grind, *words(self.port)], stdin=subprocess.DEVNULL, stdout=subprocess.DEVNULL,
            stderr=subprocess.DEVNULL, cwd=folder)
        for _ in range(CLIENTS):
            client = socket.socket(socket.AF_INET, socket.SOCK_DGRAM)
            client.bind((HOST, 0))
            client.connect((HOST, self.port))
            client.settimeout(ANSWER_LIMIT)
            self.clients.append(client)

    def wait(self):
        """Waits until it answers."""
        until = time.monotonic() + BEGIN_LIMIT
        self.clients[0].settimeout(0.2)
        while time.monotonic() < until:
            with contextlib.suppress(OSError):
                self.clients[0].send(bytes([0x40, 0, 0, 0]))
                self.clients[0].recv(4)
                self.clients[0].settimeout(ANSWER_LIMIT)
                return
            time.sleep(0.1)
        raise Missing("a server does not answer")

    def ask(self, request: Request, number: int, more: list[tuple[int, bytes]] = (),
            token: bytes = b"\xa1\xa2\xa3\xa4") -> bytes:
        """The answer to a request of the number's client."""
        token = token if request.code != EMPTY else b""
        client = self.clients[number % CLIENTS]
        mid = next(self.mids) % 65_536
        options = sorted([*more, *request.options(number)], key=lambda option: option[0])
        links = request.links.replace("#", str(number)).encode()
        client.send(bytes.fromhex(spelled(CON, request.code, mid, token, options, links)))
        answer = client.recv(2_048)
        while answer[2:4] != mid.to_bytes(2, "big"):
            answer = client.recv(2_048)
        if answer[1] != request.answer:
            raise Missing(f"{request} got {answer[:4].hex()}")
        return answer

    def counted(self) -> int:
        """The instructions since this was asked the last time."""
        before = set(self.folder.glob("counts*"))
        subprocess.run(["callgrind_control", "--dump", str(self.process.pid)], check=True,
                       stdout=subprocess.DEVNULL, stderr=subprocess.DEVNULL)
        until = time.monotonic() + DUMP_LIMIT
        while time.monotonic() < until:
            for file in set(self.folder.glob("counts*")) - before:
                found = re.search(r"^(?:totals|summary): (\d+)", file.read_text(), re.M)
                if found:
                    return int(found[1])
            time.sleep(0.05)
        raise Missing("callgrind wrote no counts")

    def cost(self, request: Request, numbers: range) -> float:
        """Instructions a request, each for a number of its own."""
        self.counted()
        for number in numbers:
            self.ask(request, number)
        return self.counted() / len(numbers)

    def register(self, numbers: range):
        """Registers these names."""
        for number in numbers:
            self.ask(REGISTRATION, number)

    def observe(self, count: int, queries: int):
        """Has so many observers watch so many queries, none of which lists anything."""
        for place in range(count):
            wanted = Request(GET, "rd-lookup/res", f"rt=none{place % queries}")
            self.ask(wanted, place, [(OBSERVE, b"")], place.to_bytes(4, "big"))

    def location(self, number: int) -> str:
        """The path of a registration, made again."""
        answer = self.ask(REGISTRATION, number)
        found = re.search(rb"\x82rd([\x01-\x0c]|\x0d.)([0-9]+)$", answer, re.S)
        return "rd/" + found[2].decode()

    def end(self):
        """Ends it."""
        self.process.terminate()
        with contextlib.suppress(subprocess.TimeoutExpired):
            self.process.wait(DUMP_LIMIT)
        self.process.kill()
        self.process.wait()
        for client in self.clients:
            client.close()


@contextlib.contextmanager
def running(words: Callable[[int], list[str]]) -> Iterator[Server]:
    """A server that runs for a while."""
    with tempfile.TemporaryDirectory() as folder:
        server = Server(words, Path(folder))
        try:
            server.wait()
            yield server
        finally:
            server.end()


def without_bounds(program: str) -> list[str]:
    """The words that lift the bounds of a sender, of those that the program has."""
    usage = subprocess.run([program, "--help"], capture_output=True, text=True, check=False).stdout
    bounds = {"--share": ["0"], "--criteria": ["0"], "--quiet": []}
    return [word for name, value in bounds.items() if name in usage for word in (name, *value)]


def kind_of(program: str) -> tuple[str, Callable[[int], list[str]], bool]:
    """A server's name, its words for a port, and whether it is one of ours."""
    name = Path(program).name
    if name == "rd_host":
        return name, lambda port: [program, "--listen", f"{HOST}:{port}", "--workers", "1",
                                   *without_bounds(program)], True
    if name.startswith("coap-rd"):
        return "coap-rd", lambda port: [program, "-A", HOST, "-p", str(port), "-v", "0"], False
    return name, lambda port: [program, "--port", str(port), "--workers", "1"], True


def rows_by_default(program: str) -> Iterator[tuple[str, float]]:
    """What a lookup costs rd_host with its bounds and counts, at one address and at two."""
    one = [program, "--workers", "1", "--listen"]
    again = [number for _ in range(MANY // CLIENTS) for number in range(1, CLIENTS + 1)]
    for name, more in [("by default", []), ("by default, at two addresses", ["--listen"])]:
        with running(lambda port: [*one, f"{HOST}:{port}", *more,
                                   *(f"[::1]:{port}" for _ in more)]) as server:
            server.register(range(1, STANDING + 1))
            yield f"a lookup, one listed, {name}", server.cost(LOOKUP, again)


def rows(words: Callable[[int], list[str]], is_ours: bool, is_quick: bool
         ) -> Iterator[tuple[str, float]]:
    """What each kind of request costs."""
    old = range(1, STANDING + 1)
    new = range(STANDING + 1, STANDING + 1 + NEW)
    some = range(1, CLIENTS + 1)
    again = [number for _ in range(MANY // CLIENTS) for number in some]
    with running(words) as server:
        server.register(old)
        if is_ours:
            yield "an empty message, which is reset", server.cost(EMPTY_MESSAGE, again)
        yield "a lookup, one listed", server.cost(LOOKUP if is_ours else COAP_RD_LOOKUP, again)
        if is_ours:
            update = Request(POST, server.location(1), "", "", CHANGED)
            yield "an update of a lease", server.cost(update, [1] * MANY)
        yield "a registration again, the same link", server.cost(REGISTRATION, again)
        yield "a registration again, another link", server.cost(OTHER_LINK, some)
        yield "a registration of a new name", server.cost(REGISTRATION, new)
    if not is_ours or is_quick:
        return
    for count, queries in OBSERVERS:
        with running(words) as server:
            server.register(old)
            server.observe(count, queries)
            name = f"a new name beside {count:,} observers of {queries:,} queries"
            yield name, server.cost(REGISTRATION, new[:MANY])


def main():
    parser = argparse.ArgumentParser(description="What a request costs, in instructions.")
    parser.add_argument("programs", nargs="*")
    parser.add_argument("--quick", action="store_true", help="without the rows of observers")
    words = parser.parse_args()
    signal.signal(signal.SIGTERM, lambda *_: sys.exit(1))
    if not shutil.which("valgrind"):
        sys.exit("valgrind is not there")
    builds = ["coap-rd", "coap-rd-notls", "coap-rd-openssl", "coap-rd-gnutls"]
    programs = words.programs or ["bin/rd_serve", "bin/rd_host",
                                  *filter(None, [next(filter(shutil.which, builds), "")])]
    for program in programs:
        if not shutil.which(program):
            sys.exit(f"{program} is not there: make build")
        path = os.path.abspath(shutil.which(program))
        name, given, is_ours = kind_of(path)
        try:
            more = rows_by_default(path) if name == "rd_host" else []
            for row, cost in itertools.chain(rows(given, is_ours, words.quick), more):
                print(f"{name:<10} {row:<56} {cost:>12,.0f}", flush=True)
        except Missing as missing:
            sys.exit(f"{name}: {missing}")


if __name__ == "__main__":
    main()
