#!/usr/bin/env python3
"""What a request costs over TCP: `bench/streams.py [PROGRAM]`.

rd_serve is asked on 127.0.0.1 over one connection (RFC 8323) and, by turns, over UDP with one
worker, each time by a server that has just begun: 64 registrations, and then lookups with one hit.
Each request goes out when the one before it was answered, or 64 of them before the first answer is
awaited. The table has a row for each: the processor time of the server for each lookup, user and
system, over TCP and over UDP, and how many times that it is. The status is 1 where a lookup was not
answered with its link.
"""

import os
import socket
import struct
import subprocess
import sys
import time
from pathlib import Path

HOST = "127.0.0.1"
PORT = 27_000
LIMIT = 10

NAMES = 64
LOOKUPS = 32_000
ROUNDS = 3

# How many requests are out at a time, and how many times its cost over UDP one over TCP may cost.
WINDOWS = {1: 1.25, 64: 1.5}

# Codes, numbers of options and lengths (RFC 7252 sections 12.1, 5.10 and 3, RFC 8323 section 3.2).
GET, POST, CONTENT, CREATED = 0x01, 0x02, 0x45, 0x41
URI_PATH, CONTENT_FORMAT, URI_QUERY = 11, 12, 15
TOKEN = 2
LONG, LONGER = 13, 269
CSM = bytes([0x00, 0xE1])
READ = 65_536


class Missing(Exception):
    """A request was not answered as it should be."""


def extended(number: int) -> tuple[int, bytes]:
    """A number as four bits and what extends them."""
    if number < LONG:
        return number, b""
    if number < LONGER:
        return 13, bytes([number - LONG])
    return 14, struct.pack(">H", number - LONGER)


def tail_of(options: list[tuple[int, bytes]], payload: bytes) -> bytes:
    """Options, in the order of their numbers, and a payload."""
    octets, last = b"", 0
    for number, value in options:
        delta, after_delta = extended(number - last)
        length, after_length = extended(len(value))
        octets += bytes([delta << 4 | length]) + after_delta + after_length + value
        last = number
    return octets + (b"\xff" + payload if payload else b"")


def registration(name: int) -> tuple[int, bytes]:
    """The code and the tail of a registration that gives its base."""
    queries = [f"ep=n{name}", "base=coap://192.0.2.1", f"ins=i{name}", "lt=90000"]
    options = [(URI_PATH, b"rd"), (CONTENT_FORMAT, b"\x28")]
    options += [(URI_QUERY, query.encode()) for query in queries]
    return POST, tail_of(options, f'</s0>;rt="t{name}"'.encode())


def lookup(name: int) -> tuple[int, bytes]:
    """The code and the tail of a lookup of what a name registered."""
    options = [(URI_PATH, b"rd-lookup"), (URI_PATH, b"res"), (URI_QUERY, f"ins=i{name}".encode())]
    return GET, tail_of(options, b"")


class OverTcp:
    """One connection to a server."""

    words = ["--tcp", "1"]

    def __init__(self, port: int):
        self.asking = socket.create_connection((HOST, port), timeout=LIMIT)
        self.asking.setsockopt(socket.IPPROTO_TCP, socket.TCP_NODELAY, 1)
        self.asking.sendall(CSM)
        self.rest = b""
        self.message()

    def message(self) -> tuple[int, bytes, bytes]:
        """The next message: its code, its token and its tail."""
        while True:
            taken = self.taken()
            if taken:
                return taken
            more = self.asking.recv(READ)
            if not more:
                raise Missing("the connection ended")
            self.rest += more

    def taken(self) -> tuple[int, bytes, bytes] | None:
        """The first message of what was read, where it is whole."""
        rest = self.rest
        if len(rest) < 2:
            return None
        length, token, at = rest[0] >> 4, rest[0] & 15, 1
        if length == 13:
            length, at = LONG + rest[1], 2
        elif length == 14:
            length, at = LONGER + int.from_bytes(rest[1:3], "big"), 3
        end = at + 1 + token + length
        if len(rest) < end:
            return None
        self.rest = rest[end:]
        return rest[at], rest[at + 1:at + 1 + token], rest[at + 1 + token:end]

    def ask(self, requests: list[tuple[int, bytes]], first: int):
        """Sends requests, whose numbers go on from this one."""
        octets = b""
        for number, (code, tail) in enumerate(requests, first):
            length, after = extended(len(tail))
            token = struct.pack(">H", number & 0xFFFF)
            octets += bytes([length << 4 | TOKEN]) + after + bytes([code]) + token + tail
        self.asking.sendall(octets)

    def answers(self, count: int) -> list[tuple[int, bytes, bytes]]:
        """So many answers."""
        return [self.message() for _ in range(count)]


class OverUdp:
    """A socket to a server."""

    words = ["--workers", "1"]

    def __init__(self, port: int):
        self.asking = socket.socket(socket.AF_INET, socket.SOCK_DGRAM)
        self.asking.settimeout(LIMIT)
        self.asking.connect((HOST, port))

    def ask(self, requests: list[tuple[int, bytes]], first: int):
        """Sends requests, whose numbers go on from this one."""
        for number, (code, tail) in enumerate(requests, first):
            id_and_token = struct.pack(">HH", number & 0xFFFF, number & 0xFFFF)
            self.asking.send(bytes([0x40 | TOKEN, code]) + id_and_token + tail)

    def answers(self, count: int) -> list[tuple[int, bytes, bytes]]:
        """So many answers."""
        datagrams = [self.asking.recv(READ) for _ in range(count)]
        return [(came[1], came[4:4 + TOKEN], came[4 + TOKEN:]) for came in datagrams]


def exchanged(client, requests: list[tuple[int, bytes]], first: int, wanted: int, text: bytes):
    """Sends requests at once, each of which is to be answered with this code and such a text."""
    client.ask(requests, first)
    for number, (code, token, tail) in enumerate(client.answers(len(requests)), first):
        if code != wanted or token != struct.pack(">H", number & 0xFFFF) or text not in tail:
            raise Missing(f"request {number} was answered with code {code:#x}")


def nanoseconds(process: subprocess.Popen) -> int:
    """The processor time that all threads of a process have had."""
    threads = Path("/proc", str(process.pid), "task").glob("*/schedstat")
    return sum(int(thread.read_text().split()[0]) for thread in threads)


def opened(kind, port: int):
    """A client of a server that begins."""
    until = time.monotonic() + LIMIT
    while True:
        try:
            client = kind(port)
            if kind is OverUdp:
                exchanged(client, [lookup(0)], 0xFFFF, CONTENT, b"")
            return client
        except (OSError, Missing):
            if time.monotonic() > until:
                raise
            time.sleep(0.05)


def measured(program: str, kind, port: int, window: int) -> int:
    """Nanoseconds that a new server spends on all lookups."""
    places = sorted(os.sched_getaffinity(0))
    server = subprocess.Popen(
        [program, "--port", str(port), *kind.words], stdin=subprocess.DEVNULL,
        stdout=subprocess.DEVNULL, stderr=subprocess.DEVNULL,
        preexec_fn=lambda: os.sched_setaffinity(0, places[:1]))
    try:
        os.sched_setaffinity(0, places[-1:])
        client = opened(kind, port)
        for name in range(NAMES):
            exchanged(client, [registration(name)], name, CREATED, b"rd")
        requests = [lookup(name % NAMES) for name in range(window * NAMES)]
        before = nanoseconds(server)
        for first in range(0, LOOKUPS, window):
            at = first % len(requests)
            exchanged(client, requests[at:at + window], NAMES + first, CONTENT, b"/s0>")
        return nanoseconds(server) - before
    finally:
        os.sched_setaffinity(0, places)
        server.kill()
        server.wait()


def main():
    program = str(Path(sys.argv[1] if len(sys.argv) > 1 else "bin/rd_serve").resolve())
    port = PORT
    print(f"{'requests at a time':>18}{'TCP, us':>10}{'UDP, us':>10}{'times':>8}  wanted")
    for window, most in WINDOWS.items():
        sums = {OverTcp: 0, OverUdp: 0}
        for _ in range(ROUNDS):
            for kind in sums:
                sums[kind] += measured(program, kind, port, window)
                port += 1
        tcp, udp = (spent / 1_000 / ROUNDS / LOOKUPS for spent in sums.values())
        judged = f"at most {most}: {'yes' if tcp <= most * udp else 'no'}"
        print(f"{window:>18}{tcp:>10.2f}{udp:>10.2f}{tcp / udp:>8.2f}  {judged}", flush=True)


if __name__ == "__main__":
    try:
        main()
    except (Missing, OSError) as missing:
        print(missing, file=sys.stderr)
        sys.exit(1)
