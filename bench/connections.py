#!/usr/bin/env python3
"""Lookups over many connections at once: `bench/connections.py [--connections N] [PROGRAM]`.

rd_host serves one directory of 64 registrations over UDP and TCP (RFC 8323). The first table has
the lookups per second of one connection and of N connections. Each client is a process of its own
that waits for each answer, or has 64 requests in progress. The default of N is 2. The second table
has the processor time of the server for each lookup over TCP and over UDP. In each line, the two
settings that are compared alternate for several rounds. Each figure is the median of these rounds;
that under "times" is the median of their ratios. The status is 1 if a lookup was not answered with
its link.
"""

import argparse
import multiprocessing
import statistics
import subprocess
import sys
import time
from pathlib import Path

from streams import (CONTENT, CREATED, HOST, NAMES, Missing, OverTcp, OverUdp, exchanged, lookup,
                     nanoseconds, opened, registration)

PORT = 27_100

# The numbers of requests in progress at a time. N connections should get at least N times SHARE the
# lookups of one connection. A lookup over TCP may cost at most MOST times its cost over UDP.
WINDOWS = (1, 64)
SHARE, MOST = 0.75, 1.25

# The lookups of a client in a round, and the rounds of the first table and of the second.
LOOKUPS = 8_000
RATES, ROUNDS = 9, 40


def start(program: str, port: int, connections: int) -> subprocess.Popen:
    """Starts rd_host, and registers the names."""
    at = f"{HOST}:{port}"
    words = ["--listen", at, "--workers", "1", "--tcp", at, "--connections", str(connections),
             "--share", "0", "--quiet"]
    server = subprocess.Popen([program, *words], stdin=subprocess.DEVNULL,
                              stdout=subprocess.DEVNULL, stderr=subprocess.DEVNULL)
    client = opened(OverTcp, port)
    for name in range(NAMES):
        exchanged(client, [registration(name)], name, CREATED, b"rd")
    client.asking.close()
    return server


def asks(kind, port: int, window: int, count: int, gate):
    """Makes this number of lookups, once all clients have come to the gate."""
    client = opened(kind, port)
    requests = [lookup(name % NAMES) for name in range(window * NAMES)]
    gate.wait()
    for first in range(0, count, window):
        at = first % len(requests)
        exchanged(client, requests[at:at + window], NAMES + first, CONTENT, b"/s0>")


def rate(program: str, port: int, window: int, clients: int) -> float:
    """Returns the lookups per second of this number of connections together."""
    server = start(program, port, clients)
    try:
        gate = multiprocessing.Barrier(clients + 1)
        words = (OverTcp, port, window, LOOKUPS, gate)
        asking = [multiprocessing.Process(target=asks, args=words) for _ in range(clients)]
        for each in asking:
            each.start()
        gate.wait()
        begun = time.monotonic()
        for each in asking:
            each.join()
        spent = time.monotonic() - begun
        if any(each.exitcode for each in asking):
            raise Missing("a lookup was not answered")
        return clients * LOOKUPS / spent
    finally:
        server.kill()
        server.wait()


def cost(program: str, port: int, window: int, kind) -> float:
    """Returns the processor time of the server for a lookup, in microseconds."""
    server = start(program, port, 1)
    try:
        before = nanoseconds(server)
        asks(kind, port, window, LOOKUPS, multiprocessing.Barrier(1))
        return (nanoseconds(server) - before) / 1_000 / LOOKUPS
    finally:
        server.kill()
        server.wait()


def medians(rounds: list[tuple[float, float, float]]) -> list[float]:
    """Returns the median of each figure of several rounds."""
    return [statistics.median(figures) for figures in zip(*rounds)]


def judged(is_met: bool, wanted: str) -> str:
    """Returns a wanted figure, and whether it is met."""
    return f"{wanted}: {'yes' if is_met else 'no'}"


def main():
    words = argparse.ArgumentParser()
    words.add_argument("--connections", type=int, default=2)
    words.add_argument("program", nargs="?", default="bin/rd_host")
    said = words.parse_args()
    program, number, port = str(Path(said.program).resolve()), said.connections, PORT
    print(f"{'requests at a time':>18}{'one, 1/s':>12}{f'{number}, 1/s':>12}{'times':>8}  wanted")
    for window in WINDOWS:
        rounds = [(rate(program, port, window, 1), rate(program, port + 1, window, number))
                  for _ in range(RATES)]
        one, many, times = medians([(each, other, other / each) for each, other in rounds])
        wanted = SHARE * number
        told = judged(times >= wanted, f"at least {wanted}")
        print(f"{window:>18}{one:>12.0f}{many:>12.0f}{times:>8.2f}  {told}", flush=True)
        port += 2
    print(f"{'requests at a time':>18}{'TCP, us':>12}{'UDP, us':>12}{'times':>8}  wanted")
    for window in WINDOWS:
        rounds = [(cost(program, port, window, OverTcp), cost(program, port + 1, window, OverUdp))
                  for _ in range(ROUNDS)]
        tcp, udp, times = medians([(each, other, each / other) for each, other in rounds])
        told = judged(times <= MOST, f"at most {MOST}")
        print(f"{window:>18}{tcp:>12.2f}{udp:>12.2f}{times:>8.2f}  {told}", flush=True)
        port += 2


if __name__ == "__main__":
    try:
        main()
    except (Missing, OSError) as missing:
        print(missing, file=sys.stderr)
        sys.exit(1)
