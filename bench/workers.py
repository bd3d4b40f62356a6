#!/usr/bin/env python3
"""What more workers cost a write: `bench/workers.py [PROGRAM]`.

PROGRAM is a proved `rd_serve`. Each row is of a server of one or of four workers, to which clients
at 64 ports, or at one, send registrations of new names. It has the processor time of the server for
each write, how many writes it answered in a second, and how often its threads gave up a processor.
The load has the last processor, and the server the others. Each figure is the median of rounds in
turn.
"""

import argparse
import statistics
from pathlib import Path

import serve

NEW = serve.Request(serve.REGISTRATION.target, serve.REGISTRATION.links)

# How many names are registered, from how many ports, by how many workers, and in how many rounds.
NAMES, PORTS, WORKERS, ROUNDS = 4_000, (64, 1), (1, 4), 9


def switches(server: serve.Server) -> int:
    """How often the threads of a server have given up a processor so far."""
    found = 0
    for thread in Path("/proc", str(server.process.pid), "task").glob("*/status"):
        lines = thread.read_text().splitlines()
        found += sum(int(line.split()[1]) for line in lines if "_ctxt_switches" in line)
    return found


def measured(program: str, workers: int, ports: int) -> tuple[float, float, float]:
    """Microseconds, writes a second and switches a write, on a new server."""
    places = serve.processors()
    own, others = places[:-1] or places, places[-1:]
    with serve.running(serve.rd_serve(program, workers, own)) as server:
        before, spent = switches(server), server.nanoseconds()
        load = server.begin_load(NEW, NAMES, NAMES, ports, ports, places=others)
        answers = server.end_load([load])
        if answers.count != NAMES:
            raise serve.Missing(f"{answers.count:,} of {NAMES:,} were answered")
        return ((server.nanoseconds() - spent) / NAMES / 1_000, NAMES / answers.seconds,
                (switches(server) - before) / NAMES)


def main():
    """Prints the table."""
    parser = argparse.ArgumentParser(description="What more workers cost a write.")
    parser.add_argument("program", nargs="?", default="bin/rd_serve")
    program = parser.parse_args().program
    serve.build()
    print("| ports | workers | processor time a write | writes a second | switches a write |")
    print("|---|---|---|---|---|")
    kinds = [(ports, workers) for ports in PORTS for workers in WORKERS]
    rounds = [[measured(program, workers, ports) for ports, workers in kinds]
              for _ in range(ROUNDS)]
    for place, (ports, workers) in enumerate(kinds):
        micros, rate, often = (statistics.median(it[place][part] for it in rounds)
                               for part in range(3))
        print(f"| {ports} | {workers} | {micros:.1f} µs | {rate:,.0f} | {often:.2f} |")


if __name__ == "__main__":
    main()
