#!/usr/bin/env python3
"""Hostile datagrams against the server: `hostile/run.py [--seed N] [--starve N] [--bin FOLDER]`.

rd_serve is started with four workers on a free port of 127.0.0.1, and some hundred devices
register. Then hostile datagrams come, three times 20,000 (hostile/datagrams.py), from some hundred
ports. After each thousand lookups are asked, whose answers are to be those that rd_replay and the
plain directory (hostile/plain) give for the same registrations and lookups, but for the entity tag,
which counts what the hostile datagrams registered, too. Then a client whose answers are known
(hostile/probe.py) registers, changes, observes and is fetched, as long as the server takes further
writes; an answer that comes only when it is asked for again counts as wrong. One line a thousand
says what was compared and the server's memory.
At the end stand what was compared, the highest memory, and how many answers came of each class.
A second server, of some turns, is to end by itself meanwhile. With --starve N each N-th of the
server's allocations is refused (hostile/fail_alloc.c), and what is answered 5.00 is asked again.
The status is 1 where an answer differs, the server ended, or its memory passed the limit.
"""

import argparse
import os
import re
import selectors
import signal
import socket
import subprocess
import sys
import tempfile
import time
from collections import Counter
from pathlib import Path

import datagrams
import memory
import wire
from probe import Probe
from plain.trace import answered
from datagrams import KEPT, LINK_FORMAT, LOOKUPS, REGISTER, STEADY
from messages import (ACK, BLOCK2, CON, CREATED, EMPTY, GET, LOCATION_PATH, POST, RST, octets,
                      query)
from wire import ETAG, Server, Wrong, block

ROUNDS, IN_ROUND, BETWEEN = 3, 20_000, 1_000
WORKERS = 4

# Datagrams that are sent before the server is to have taken them off.
BURST = 50

# The memory that the server may have.
MOST_KIBIBYTES = 400 << 10

# Seconds: how long all may take, and how long the replay may.
RUN_LIMIT, REPLAY_LIMIT = 600, 60

# How many answers may differ before a run is ended, and how seldom a lease is waited for.
MOST_DIFFER, LEASE_EACH = 20, 10

# The turns of a server that ends by itself, and the most datagrams that it is sent till then.
TURNS, MOST_TURNS_SENT = 1_000, 50_000

# Blocks of the long listings that are asked, the last ones past their ends.
LONG_BLOCKS = 36

# The second octet of 5.00, and how often what is answered so is asked again.
STARVED, STARVED_TRIES = b"\xa0", 200

SERVED = re.compile(r"served (\d+) (\d+) (\d+)")

# Classes of codes by their first three bits, and other kinds of messages that come.
CLASSES = {0: "requests (of fetches)", 2: "2.xx", 4: "4.xx", 5: "5.xx"}


def kept_registrations() -> list[bytes]:
    """The registrations of the driver's devices. Every other one names its base."""
    made = []
    for number in range(1, KEPT + 1):
        base = [f"base=coap://d{number}.example"] if number % 2 else []
        parts = query(f"ep={STEADY}{number}", "lt=90000", *base, f"fleet={STEADY}")
        links = f'</t>;rt="temperature";ct=0,</{number}/l>;rt="light k{number % 7}";if="sensor"'
        made.append(octets(CON, POST, number, b"\x01", REGISTER + [LINK_FORMAT] + parts,
                           links.encode()))
    return made


def compared_lookups() -> list[bytes]:
    """The lookups that are compared. All list the driver's own registrations alone."""
    resources, endpoints = LOOKUPS
    fleet = query(f"fleet={STEADY}")
    asked = [
        resources + query(f"ep={STEADY}17"), endpoints + query(f"ep={STEADY}17"),
        resources + query("rt=k3", f"fleet={STEADY}", "count=9", "page=1"),
        resources + query("rt=light", f"fleet={STEADY}", "href=coap://d1.example/1/*"),
        endpoints + query("href=/rd/300"), endpoints + query("base=coap://d299.example"),
        resources + query(f"ep={STEADY}2*", "rt=temp*", "page=2", "count=10"),
        resources + query("rt=none", f"fleet={STEADY}"),
        datagrams.DISCOVERY + query("rt=core.rd*"),
        resources + query(f"fleet={STEADY}", "page=1"),
    ]
    for place in LOOKUPS:
        asked += [place + fleet + [(BLOCK2, block(number, False, 6))]
                  for number in range(LONG_BLOCKS)]
    return [octets(CON, GET, mid, mid.to_bytes(2, "big"), options)
            for mid, options in enumerate(asked)]


def comparable(answer: bytes) -> tuple:
    """An answer without its entity tag."""
    came = wire.read(answer)
    options = tuple(option for option in came.options if option[0] != ETAG)
    return came.kind, came.code, came.mid, came.token, options, came.payload


def replayed(program: str, registering: str, asking: str, lookups: list[bytes]) -> list[bytes]:
    """What rd_replay answers to the lookups behind the registrations, from these peers; the plain
    directory answers the same."""
    lines = []
    for peer, asked in [(registering, kept_registrations()), (asking, lookups)]:
        for datagram in asked:
            lines += [f"in 0 1 {peer} {datagram.hex()}", "go 0 1"]
    trace = "\n".join(lines)
    done = subprocess.run([program], input=trace, text=True, timeout=REPLAY_LIMIT,
                          stdout=subprocess.PIPE, check=True)
    if done.stdout.splitlines() != answered(trace.encode(), 1)[0]:
        raise Wrong("rd_replay and the plain directory differ")
    out = [bytes.fromhex(line.split()[3]) for line in done.stdout.splitlines()
           if line.startswith("out ")]
    if len(out) != KEPT + len(lookups):
        raise Wrong(f"rd_replay gives {len(out)} answers")
    return out[KEPT:]


class Asking:
    """A port that asks, and how many answers came only when they were asked for again."""

    def __init__(self, port: int):
        self.socket = wire.open_socket(port)
        self.late = 0

    def ask(self, request: bytes) -> bytes:
        """The answer to a request, which is asked again where the server found no memory."""
        for _ in range(STARVED_TRIES):
            came = self.ask_once(request)
            if came[1:2] != STARVED:
                break
        return came

    def ask_once(self, request: bytes) -> bytes:
        """What comes to a request, which is sent again where nothing does."""
        for _ in range(3):
            self.socket.send(request)
            try:
                return self.socket.recv(datagrams.MOST_SENT)
            except OSError:
                self.late += 1
        return b""


class Strangers:
    """The ports from which hostile datagrams go, and what came to them."""

    def __init__(self, port: int, count: int, echoes: dict[int, bytes]):
        self.echoes = echoes
        self.sockets = [wire.open_socket(port) for _ in range(count)]
        self.selector = selectors.DefaultSelector()
        self.classes: Counter[str] = Counter()
        self.answers: Counter[str] = Counter()
        self.wrong: list[bytes] = []
        for place, each in enumerate(self.sockets):
            each.setblocking(False)
            self.selector.register(each, selectors.EVENT_READ, place)

    def send(self, datagram: datagrams.Datagram):
        """Sends one."""
        try:
            self.sockets[datagram.port].send(datagram.octets)
        except OSError:
            self.classes["not sent"] += 1

    def take(self):
        """Counts all that came."""
        while ready := self.selector.select(0):
            for key, _ in ready:
                self.count(key.fileobj, key.data)

    def count(self, socket_: socket.socket, place: int):
        """Counts what came to one port, and notes what it was challenged with."""
        try:
            came = socket_.recv(datagrams.MOST_SENT)
            answer = wire.read(came)
        except ValueError:
            self.wrong.append(came)
            return
        except OSError:
            return
        if len(came) > wire.MOST_WRITTEN:
            self.wrong.append(came)
        for echo in answer.values(wire.ECHO):
            self.echoes[place] = echo
        if answer.code == EMPTY:
            name = {ACK: "ACK", RST: "RST"}.get(answer.kind, "empty")
        else:
            name = CLASSES.get(answer.code >> 5, "other")
            is_notification = answer.kind == CON and answer.code >> 5 == 2
            name = "notifications" if is_notification else name
            if answer.code >> 5 in (2, 4, 5) and not is_notification:
                self.answers[answer.refusal()] += 1
        self.classes[name] += 1

    def close(self):
        """Closes all ports."""
        for each in self.sockets:
            each.close()


class Run:
    """The server, what is compared, and how it came out."""

    def __init__(self, server: Server, replay: str, seed: int, with_probe: bool):
        self.server, self.maker = server, datagrams.Maker(seed)
        self.strangers = Strangers(server.port, datagrams.PORTS, self.maker.echoes)
        self.asking = Asking(server.port)
        self.probe = Probe(server, WORKERS) if with_probe else None
        self.compared = self.differ = 0
        self.until = time.monotonic() + RUN_LIMIT
        self.lookups = compared_lookups()
        registering = self.register()
        self.wanted = replayed(replay, registering, self.peer(self.asking), self.lookups)

    def peer(self, asking: Asking) -> str:
        """A port as the server sees it."""
        return f"{self.server.seen}:{asking.socket.getsockname()[1]}"

    def register(self) -> str:
        """Registers the driver's devices; from where they come, as the server sees it."""
        registering = Asking(self.server.port)
        for number, registration in enumerate(kept_registrations(), 1):
            came, digits = registering.ask(registration), b"%d" % number
            wanted = octets(ACK, CREATED, number, b"\x01",
                            [(LOCATION_PATH, b"rd"), (LOCATION_PATH, digits)])
            if came != wanted:
                raise Wrong(f"a device was not registered: {came.hex()}")
        peer = self.peer(registering)
        self.count_late(registering)
        registering.socket.close()
        return peer

    def count_late(self, asking: Asking):
        """Answers that came only when they were asked for again are wrong."""
        if asking.late:
            self.differ += asking.late
            print(f"{asking.late} answers came only when they were asked for again")
            asking.late = 0

    def compare(self):
        """Asks all lookups, and compares what comes with what is wanted."""
        for lookup, wanted in zip(self.lookups, self.wanted):
            came = self.asking.ask(lookup)
            self.compared += 1
            if not came or comparable(came) != comparable(wanted):
                self.differ += 1
                print(f"differs: {lookup.hex()}\n  wanted {wanted.hex()}\n  came   {came.hex()}")
                if self.differ >= MOST_DIFFER:
                    raise Wrong("too much differs")
        self.count_late(self.asking)

    def try_probe(self, number: int):
        """Lets the client whose answers are known do all once."""
        if self.probe:
            self.probe.round(with_lease=number % LEASE_EACH == 1)

    def check_unreadable(self):
        """Sends some of each kind that cannot be read: a RST comes to a CON, else nothing."""
        with wire.open_socket(self.server.port) as asking:
            asking.settimeout(wire.ANSWER_LIMIT)
            for kind in datagrams.UNREADABLE:
                sent = self.maker.one(kind).octets
                asking.send(sent)
                asking.send(wire.PING)
                wanted = {bytes([0x70, 0]) + sent[2:4]} if sent[0] >> 4 == 4 else set()
                came = {asking.recv(99) for _ in range(len(wanted) + 1)}
                self.compared += 1
                if came != wanted | {wire.PONG}:
                    self.differ += 1
                    print(f"differs: {sent.hex()} gets {came}")

    def thousand(self):
        """Sends a thousand hostile datagrams."""
        for place, datagram in enumerate(self.maker.stream(BETWEEN), 1):
            self.strangers.send(datagram)
            if place % BURST == 0:
                self.settle()

    def settle(self):
        """Waits until the server has taken off what was sent, and counts what came."""
        self.server.settle()
        self.strangers.take()
        if time.monotonic() > self.until:
            raise Wrong(f"it takes more than {RUN_LIMIT} seconds")

    def rounds(self, count: int, is_stopped: bool):
        """Sends so many thousands, and compares after each."""
        self.compare()
        self.try_probe(1)
        for number in range(1, count + 1):
            if is_stopped and self.wrong():
                return
            self.thousand()
            self.compare()
            self.check_unreadable()
            self.try_probe(number)
            print(f"{number * BETWEEN:>6} sent, {self.compared} compared, {self.differ} differ, "
                  f"{self.server.kibibytes('VmRSS') / 1024:.1f} MiB", flush=True)

    def wrong(self) -> int:
        """How much was wrong so far."""
        return self.differ + (self.probe.wrong if self.probe else 0)

    def tell(self) -> bool:
        """Tells how all came out, and whether it is as wanted."""
        most = self.server.kibibytes("VmHWM")
        print(f"{self.compared} compared, {self.differ} differ")
        if self.probe:
            print(f"{self.probe.judged} answers of a client whose answers are known, "
                  f"{self.probe.wrong} wrong")
        print(f"highest memory {most / 1024:.1f} MiB, to stay below {MOST_KIBIBYTES >> 10}")
        print(f"dropped before the server {self.server.dropped()}")
        print("came: " + ", ".join(f"{count} {name}" for name, count in
                                   sorted(self.strangers.classes.items())))
        for name, count in self.strangers.answers.most_common():
            print(f"    {count:>6} {name}")
        for came in self.strangers.wrong:
            print(f"unreadable or too long: {came.hex()}")
        return not self.wrong() and not self.strangers.wrong and most < MOST_KIBIBYTES


def ends_by_turns(program: str, seed: int) -> bool:
    """Whether a server of some turns ends by itself, with its line, under hostile datagrams."""
    with Server(program, WORKERS, "--turns", str(TURNS)) as server:
        maker = datagrams.Maker(seed)
        strangers = Strangers(server.port, datagrams.PORTS, maker.echoes)
        for place, datagram in enumerate(maker.stream(MOST_TURNS_SENT), 1):
            strangers.send(datagram)
            if place % BURST == 0:
                time.sleep(0.002)
                strangers.take()
            if not server.is_alive():
                break
        strangers.close()
        status, said = server.wait()
    print(f"a server of {TURNS} turns for each worker: status {status}, {said}")
    return status == 0 and SERVED.fullmatch(said) is not None


def environment(starve: int, folder: str) -> dict | None:
    """What the server runs under, where its allocations are refused."""
    if not starve:
        return None
    return os.environ | {"LD_PRELOAD": str(memory.build(folder)), "FAIL_EVERY": str(starve)}


def main():
    parser = argparse.ArgumentParser(description="Hostile datagrams against the server.")
    parser.add_argument("--seed", type=int, default=1)
    parser.add_argument("--starve", type=int, default=0, help="each N-th allocation is refused")
    parser.add_argument("--thousands", type=int, default=ROUNDS * IN_ROUND // BETWEEN)
    parser.add_argument("--stop", action="store_true", help="at what differs first")
    parser.add_argument("--fault", default="", help="a fault of hostile/relay.py")
    parser.add_argument("--bin", type=Path, default=Path("bin"), help="where the programs are")
    words = parser.parse_args()
    signal.signal(signal.SIGTERM, lambda *_: sys.exit(1))
    serve, replay = (str((words.bin / name).resolve()) for name in ("rd_serve", "rd_replay"))
    print(f"seed {words.seed}, {WORKERS} workers, {KEPT} devices, {datagrams.PORTS} ports")
    try:
        with tempfile.TemporaryDirectory() as folder, \
                Server(serve, WORKERS, env=environment(words.starve, folder),
                       fault=words.fault) as server:
            run = Run(server, replay, words.seed, with_probe=not words.starve)
            run.rounds(words.thousands, words.stop)
            is_right = run.tell() and server.is_alive()
            status, said = server.end()
            print(f"ended by a signal: status {status} {said}".rstrip())
            is_right = is_right and status == -signal.SIGTERM
        if not words.stop:
            is_right = ends_by_turns(serve, words.seed) and is_right
    except (Wrong, OSError, subprocess.SubprocessError) as wrong:
        sys.exit(f"FAILED: {wrong}")
    sys.exit(not is_right)


if __name__ == "__main__":
    main()
