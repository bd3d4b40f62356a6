#!/usr/bin/env python3
"""Hostile connections over TCP: `hostile/streams.py [--seed N] [--count N] [--bin FOLDER]`.

rd_serve serves so many connections, one after the other. Each says something by chance: requests
that are right and wrong, signals, messages that are none; in pieces of any length; cut within a
message, with all of it twice, with a message that is too long, reset, or silent for a while. All
that comes back is to be what the plain directory (hostile/plain/stream.py) writes for the same
octets, and at its end the server is to tell as many connections and requests. Of a connection that
is reset nothing is judged but that the next one is served. The status is 1 where anything differs.
"""

import argparse
import random
import signal
import socket
import struct
import subprocess
import sys
import time
from collections import Counter
from pathlib import Path

import wire
from plain import message
from plain.desk import Desk
from plain.message import DELETE, GET, POST, PUT, URI_PATH, URI_QUERY
from plain.stream import ABORT, CSM, PING, PONG, RELEASE, Conversation, spell_frame, tail_of
from wire import HOST, Wrong

COUNT, MOST_TOLD = 300, 5

# Seconds: how long the server may take to begin and an answer to come, and how long one is silent.
LIMIT, SILENT = 5, 0.15

KINDS = ["whole"] * 4 + ["cut", "doubled", "too long", "reset", "silent", "by chance"]
LOOKUPS = [("rd-lookup", "res"), ("rd-lookup", "ep")]
CRITERIA = [[], ["rt=t"], ["ep=n1"], ["rt=core.rd*"], ["count=1"], ["page=1"], ["rt=*", "ep=n*"]]
BODIES = [b"", b'</a>;rt="t"', b"</a>,</b>", b"</a>;", b"<" + b"x" * 900 + b">",
          b'<t>;anchor="coap://e/"']
REGISTERED = [["ep=n1", "base=coap://h"], ["ep=n2", "base=coap://h/x", "lt=600"], ["ep=n3"],
              ["base=coap://h"], ["ep=n1", "base=/x"]]


class Speaker:
    """What a connection says."""

    def __init__(self, chance: random.Random):
        self.chance = chance

    def request(self, code: int, path, queries=(), options=(), payload: bytes = b"") -> bytes:
        """A request as a message of a stream."""
        spelled = [(URI_PATH, part.encode()) for part in path]
        spelled += [(URI_QUERY, part.encode()) for part in queries] + list(options)
        token = self.chance.choice([b"", b"a", b"12345678"])
        ordered = sorted(spelled, key=lambda option: option[0])
        return spell_frame(code, token, tail_of(ordered, payload))

    def read(self) -> bytes:
        """A request that changes nothing."""
        pick = self.chance.choice
        if pick([0, 0, 0, 1]):
            return self.request(GET, ("rd", str(pick([1, 2, 3, 9]))))
        options = pick([[], [], [(message.OBSERVE, b"")], [(message.ACCEPT, b"\x32")],
                        [(message.BLOCK2, b"\x00")], [(message.BLOCK2, b"\x10")],
                        [(message.BLOCK2, b"\x07")], [(9, b"x")],
                        [(message.PROXY_URI, b"coap://x")]])
        path = pick([*LOOKUPS, *LOOKUPS, (".well-known", "core"), ("x",), ()])
        return self.request(GET, path, pick(CRITERIA), options)

    def write(self) -> bytes:
        """A request that may change something."""
        pick = self.chance.choice
        return pick([
            lambda: self.request(POST, ("rd",), pick(REGISTERED), (), pick(BODIES)),
            lambda: self.request(POST, ("rd",), pick(REGISTERED), (), pick(BODIES)),
            lambda: self.request(POST, ("rd",), pick(REGISTERED),
                                 [(message.BLOCK1, pick([b"\x08", b"\x10", b"\x07"]))],
                                 pick([b"</a>,</b>,</c>,<", b"/d>"])),
            lambda: self.request(POST, ("rd", str(pick([1, 2, 9]))),
                                 pick([[], ["lt=60"], ["x=y"]])),
            lambda: self.request(PUT, ("rd", str(pick([1, 2, 9]))), (), (), pick(BODIES)),
            lambda: self.request(DELETE, ("rd", str(pick([1, 2, 3, 9])))),
            lambda: self.request(POST, (".well-known", "rd"), ["ep=s"]),
            lambda: self.request(GET, ("rd",))])()

    def signal(self) -> bytes:
        """A signal, or what is no request."""
        return self.chance.choice([
            spell_frame(PING, b"t"), spell_frame(PONG),
            spell_frame(CSM, b"", tail_of([(2, b"\x10")])), spell_frame(message.EMPTY),
            spell_frame(message.CONTENT, b"a", tail_of((), b"x"))])

    def end(self) -> bytes:
        """What ends a connection."""
        return self.chance.choice([
            spell_frame(RELEASE), spell_frame(ABORT), b"\x0a\x01", spell_frame(0xE6),
            spell_frame(0x21), spell_frame(0xC1), spell_frame(PING, b"", tail_of([(1, b"")])),
            spell_frame(GET, b"", b"\xff"), spell_frame(GET, b"", b"\xf0"), b""])

    def said(self, kind: str) -> bytes:
        """All that a connection of a kind says."""
        if kind == "by chance":
            return self.chance.choice([b"", spell_frame(CSM)]) + self.chance.randbytes(40)
        words = [self.read, self.signal] if kind == "reset" else \
            [self.read, self.read, self.write, self.write, self.signal]
        said = spell_frame(CSM) + b"".join(self.chance.choice(words)()
                                           for _ in range(self.chance.randrange(8)))
        if kind == "cut":
            last = self.request(POST, ("rd",), REGISTERED[0], (), BODIES[1])
            return said + last[:self.chance.randrange(1, len(last))]
        if kind == "too long":
            tail = tail_of((), b"x" * self.chance.choice([1_144, 1_145, 1_146, 1_147, 4_000]))
            return said + spell_frame(GET, b"", tail)
        return said * 2 if kind == "doubled" else said + self.end()


def connect(port: int) -> socket.socket:
    """A connection to the server, once it listens."""
    until = time.monotonic() + LIMIT
    while True:
        try:
            return socket.create_connection((HOST, port), timeout=LIMIT)
        except OSError:
            if time.monotonic() > until:
                raise Wrong("no connection") from None
            time.sleep(0.02)


def pieces(chance: random.Random, octets: bytes) -> list[bytes]:
    """Octets cut anywhere."""
    cuts = sorted(chance.randrange(len(octets) + 1) for _ in range(chance.choice([0, 0, 1, 5])))
    return [octets[begin:end] for begin, end in zip([0, *cuts], [*cuts, len(octets)])]


def until_end(talking: socket.socket) -> bytes:
    """All that comes until the other side ends."""
    came = b""
    try:
        while piece := talking.recv(65_536):
            came += piece
    except OSError:
        pass
    return came


def say(talking: socket.socket, chance: random.Random, said: bytes):
    """Says something in pieces; the server may have ended before all is said."""
    try:
        for piece in pieces(chance, said):
            talking.sendall(piece)
            if piece and chance.random() < 0.3:
                time.sleep(0.001)
    except OSError:
        pass


def talk(port: int, kind: str, chance: random.Random, said: bytes) -> tuple[str, bytes]:
    """One connection: the peer as which it comes, and all that comes back."""
    with connect(port) as talking:
        talking.setsockopt(socket.IPPROTO_TCP, socket.TCP_NODELAY, 1)
        host, own = talking.getsockname()
        say(talking, chance, said)
        if kind == "reset":
            talking.setsockopt(socket.SOL_SOCKET, socket.SO_LINGER, struct.pack("ii", 1, 0))
            return f"{host}:{own}", b""
        if kind == "silent":
            time.sleep(SILENT)
        try:
            talking.shutdown(socket.SHUT_WR)
        except OSError:
            pass
        return f"{host}:{own}", until_end(talking)


class Judge:
    """Connections, and what differs."""

    def __init__(self, port: int, chance: random.Random):
        self.port, self.chance, self.desk = port, chance, Desk(1)
        self.differ = self.asked = self.reset = 0
        self.kinds: Counter[str] = Counter()

    def one(self):
        """One connection."""
        kind = self.chance.choice(KINDS)
        said = Speaker(self.chance).said(kind)
        self.kinds[kind] += 1
        peer, came = talk(self.port, kind, self.chance, said)
        conversation = Conversation(self.desk, peer, int(time.time() * 1_000))
        wanted = conversation.answered(said)
        if kind == "reset":
            self.reset += conversation.asked
            return
        self.asked += conversation.asked
        # A side that ends a connection of which it has not read all takes back what it wrote.
        is_right = wanted.startswith(came) if conversation.left else came == wanted
        if not is_right:
            self.differ += 1
            if self.differ <= MOST_TOLD:
                print(f"differs ({kind}): said {said.hex()}\n  wanted {wanted.hex()}\n"
                      f"  came   {came.hex()}")


def main():
    parser = argparse.ArgumentParser(description="Hostile connections over TCP.")
    parser.add_argument("--seed", type=int, default=1)
    parser.add_argument("--count", type=int, default=COUNT)
    parser.add_argument("--bin", type=Path, default=Path("bin"), help="where the program is")
    words = parser.parse_args()
    signal.signal(signal.SIGTERM, lambda *_: sys.exit(1))
    port = wire.free_port()
    server = subprocess.Popen([(words.bin / "rd_serve").resolve(), "--port", str(port), "--tcp",
                               str(words.count)], stdin=subprocess.DEVNULL,
                              stdout=subprocess.PIPE, stderr=subprocess.PIPE, text=True)
    judge = Judge(port, random.Random(words.seed))
    try:
        for _ in range(words.count):
            judge.one()
        said = "".join(server.communicate(timeout=LIMIT)).strip()
    except (Wrong, OSError, subprocess.TimeoutExpired) as wrong:
        server.kill()
        sys.exit(f"FAILED: {wrong}")
    fields = said.split()
    is_told = server.returncode == 0 and fields[:2] == ["talked", str(words.count)] \
        and judge.asked <= int(fields[2]) <= judge.asked + judge.reset
    print(", ".join(f"{count} {kind}" for kind, count in sorted(judge.kinds.items())))
    print(f"{words.count} connections, {judge.differ} differ; the server: {said}, of "
          f"{judge.asked} requests and {judge.reset} of connections that were reset")
    sys.exit(judge.differ > 0 or not is_told)


if __name__ == "__main__":
    main()
