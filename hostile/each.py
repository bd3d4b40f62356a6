#!/usr/bin/env python3
"""Each answer to hostile datagrams: `hostile/each.py [--seed N] [--count N] [--bin FOLDER]`.

A server of one worker takes datagrams in the order in which they are sent. So hostile datagrams
(hostile/datagrams.py) are sent to one, and all that comes to each port is compared with what
rd_replay and the plain directory (hostile/plain) send there for the same datagrams at the same
moments, to the octet, tags among it. Passed over is what depends on when a server lets time pass:
notifications and fetches, values of Observe, and Message IDs of answers that are not confirmed;
leases of some seconds are left out. These are judged by a conversation with a second server
(hostile/live.py) for some seconds, in which all that comes is what the plain directory sends. The
status is 1 where anything differs.
"""

import argparse
import signal
import socket
import subprocess
import sys
import time
from collections import defaultdict
from itertools import chain
from pathlib import Path

import datagrams
import wire
from live import LiveWorld
from messages import CON, NON
from plain.trace import answered
from wire import MOST_READ, OBSERVE, Server, Wrong

COUNT = 30_000

# Seconds of the conversation, and how many lines of the trace the plain directory answers, which is
# slow.
SECONDS, PLAIN_LINES = 30, 8_000

# Datagrams that are sent before the server is to have taken them off, and before what came is.
BURST, TAKEN_AFTER = 20, 200

# Leases that might end while it runs, and the first moment of the trace in milliseconds.
SHORT = [b"lt=1", b"lt=2"]
FIRST_MOMENT = 1_000

# Seconds: how long the replay may take, and how long the last answers are waited for.
REPLAY_LIMIT, QUIET = 60, 0.1

# The most that is told of what differs.
MOST_TOLD = 10


def comparable(octets: bytes):
    """An answer as it is compared; nothing of what the server sends by itself."""
    message = wire.read(octets)
    if message.kind == CON:
        return None
    options = tuple((number, b"" if number == OBSERVE else value)
                    for number, value in message.options)
    mid = None if message.kind == NON else message.mid
    return message.kind, message.code, mid, message.token, options, message.payload


class Each:
    """The ports from which datagrams go, the trace of these, and what came."""

    def __init__(self, server: Server):
        self.server = server
        self.sockets = [wire.open_socket(server.port) for _ in range(datagrams.PORTS)]
        self.peers = [f"{server.seen}:{each.getsockname()[1]}" for each in self.sockets]
        self.came: dict[str, list[bytes]] = defaultdict(list)
        self.trace: list[str] = []
        self.sent = 0
        self.begun = time.monotonic()
        for each in self.sockets:
            each.setblocking(False)

    def send(self, datagram: datagrams.Datagram):
        """Sends a datagram, and notes it in the trace, unless it is longer than a line takes."""
        moment = FIRST_MOMENT + int(1_000 * (time.monotonic() - self.begun))
        self.sockets[datagram.port].send(datagram.octets)
        self.sent += 1
        if len(datagram.octets) <= MOST_READ:
            digits = datagram.octets.hex() or "-"
            self.trace += [f"in 0 {moment} {self.peers[datagram.port]} {digits}", f"go 0 {moment}"]
        if self.sent % BURST == 0:
            self.settle()
        if self.sent % TAKEN_AFTER == 0:
            self.take()

    def settle(self):
        """Waits until the server has taken off what was sent."""
        self.server.settle()

    def take(self):
        """Takes all that came."""
        for peer, each in zip(self.peers, self.sockets):
            self.came[peer] += taken(each)

    def end(self):
        """Takes what comes last."""
        self.settle()
        time.sleep(QUIET)
        self.take()
        for each in self.sockets:
            each.close()


def taken(from_: socket.socket) -> list[bytes]:
    """What came to a port."""
    came = []
    try:
        while True:
            came.append(from_.recv(datagrams.MOST_SENT))
    except OSError:
        return came


def replayed(program: str, trace: list[str]) -> dict[str, list[bytes]]:
    """What rd_replay sends to each port for a trace."""
    done = subprocess.run([program], input="\n".join(trace), text=True, timeout=REPLAY_LIMIT,
                          stdout=subprocess.PIPE, check=True)
    return by_peer(done.stdout.splitlines())


def by_peer(lines: list[str]) -> dict[str, list[bytes]]:
    """What an output sends to each port."""
    sent = defaultdict(list)
    for line in lines:
        fields = line.split()
        if fields[0] == "out":
            sent[fields[2]].append(bytes.fromhex(fields[3]))
    return sent


def plainly(trace: list[str]) -> dict[str, list[bytes]]:
    """What the plain directory sends to each port for the first lines of a trace."""
    return by_peer(answered("\n".join(trace[:PLAIN_LINES]).encode(), 1)[0])


def challenges(sent: dict[str, list[bytes]]) -> dict[int, int]:
    """The word of each challenge that was sent, by its count: four octets each of its Echo."""
    words = {}
    for octets in chain.from_iterable(sent.values()):
        for value in wire.read(octets).values(wire.ECHO):
            words[int.from_bytes(value[4:], "big")] = int.from_bytes(value[:4], "big")
    return words


def worded(program: str, each: Each) -> list[str]:
    """The trace with the words from which the server made its challenges.

    No datagram answers a challenge. So a replay in which the word of each datagram is the number of
    its line tells which of them gets which challenge."""
    numbered = [f"{line} {number}" if line.startswith("in ") else line
                for number, line in enumerate(each.trace)]
    lines, words = list(each.trace), challenges(each.came)
    for count, number in challenges(replayed(program, numbered)).items():
        lines[number] += f" {words.get(count, 0)}"
    return lines


def compare(each: Each, whose: str, wanted: dict[str, list[bytes]], is_front: bool) -> bool:
    """Compares what came to each port, or its beginning, with what is wanted, tells it; whether all
    is equal."""
    compared = differ = 0
    for peer in each.peers:
        came, sent = ([made for made in map(comparable, found[peer]) if made]
                      for found in (each.came, wanted))
        came = came[:len(sent)] if is_front else came
        compared += max(len(came), len(sent))
        pairs = [pair for pair in zip(came, sent) if pair[0] != pair[1]]
        differ += len(pairs) + abs(len(came) - len(sent))
        for pair in pairs[:MOST_TOLD]:
            print(f"differs: {peer} came {pair[0]}, wanted {pair[1]}")
        if len(came) != len(sent):
            print(f"differs: {peer} {len(came)} came, {len(sent)} wanted")
    print(f"{each.sent} sent to one worker, {compared} compared with {whose}, {differ} differ",
          flush=True)
    return differ == 0


def stream(serve: str, replay: str, words: argparse.Namespace) -> bool:
    """Sends hostile datagrams, and compares; whether all is equal."""
    with Server(serve, 1, fault=words.fault) as server:
        each = Each(server)
        for datagram in datagrams.Maker(words.seed).stream(words.count):
            if not any(lease in datagram.octets for lease in SHORT):
                each.send(datagram)
        each.end()
        dropped = server.dropped()
    if dropped:
        print(f"{dropped} were dropped before the server")
    trace = worded(replay, each)
    return compare(each, "rd_replay", replayed(replay, trace), False) \
        and compare(each, "the plain directory", plainly(trace), len(trace) > PLAIN_LINES)


def conversation(serve: str, words: argparse.Namespace) -> bool:
    """Converses by chance for some seconds; whether all that came is as wanted."""
    with Server(serve, 1, fault=words.fault) as server:
        world = LiveWorld(server, f"{words.seed}", MOST_TOLD)
        try:
            world.go_on(words.seconds, words.stop)
        finally:
            world.close()
    codes = ", ".join(f"{count} {code}" for code, count in sorted(world.kinds.items()))
    print(f"{world.judged} steps of a conversation judged, {world.wrong} wrong: {codes}")
    return world.wrong == 0


def main():
    parser = argparse.ArgumentParser(description="Each answer to hostile datagrams.")
    parser.add_argument("--seed", type=int, default=1)
    parser.add_argument("--count", type=int, default=COUNT)
    parser.add_argument("--seconds", type=float, default=SECONDS, help="of the conversation")
    parser.add_argument("--stop", action="store_true", help="at what differs first")
    parser.add_argument("--fault", default="", help="a fault of hostile/relay.py")
    parser.add_argument("--bin", type=Path, default=Path("bin"), help="where the programs are")
    words = parser.parse_args()
    signal.signal(signal.SIGTERM, lambda *_: sys.exit(1))
    serve, replay = (str((words.bin / name).resolve()) for name in ("rd_serve", "rd_replay"))
    try:
        is_equal = stream(serve, replay, words)
        if is_equal or not words.stop:
            is_equal = conversation(serve, words) and is_equal
    except (Wrong, OSError, ValueError, subprocess.SubprocessError) as wrong:
        sys.exit(f"FAILED: {wrong}")
    sys.exit(not is_equal)


if __name__ == "__main__":
    main()
