#!/usr/bin/env python3
"""Mixed load, each answer of which is judged: `hostile/soak.py [--seconds N] [--seed N]`.

rd_serve is started with four workers on a free port of 127.0.0.1. Some fleets of devices register,
whole and in blocks, refresh, change and remove their registrations, whose leases are short and
lapse, and are fetched by simple registration; each fleet is looked up, in pages and in blocks, and
observed. A model of each fleet (hostile/fleet.py) says what each lookup is to list. An entry that
is within 50 milliseconds of its end may be listed or not. A notification is to come at the next
tick, an answer at once, and a tag counts the changes that were made. All fleets together write
faster than 4,096 times in 247 seconds, so that the server refuses some writes from the fourth
minute on, as the model knows. A line a minute says how far it is; at the end stand counts and what
was wrong. The status is 1 where anything was.
"""

import argparse
import asyncio
import random
import signal
import sys
import time
from pathlib import Path

from fleet import Fleet, Ledger
from wire import Server, Wrong

WORKERS, FLEETS = 4, 6
SECONDS, TELL_SECONDS = 600, 60

# Seconds that the fleets may take to end what they do, beyond the time that they are given.
END_LIMIT = 300

MOST_KIBIBYTES = 400 << 10


async def drive(server: Server, ledger: Ledger, seed: int, seconds: float, is_stopped: bool):
    """Lets all fleets act for so many seconds, or up to what is wrong."""
    until = time.monotonic() + seconds
    fleets = [Fleet(number, server, ledger, random.Random(f"{seed} {number}"))
              for number in range(FLEETS)]
    telling = asyncio.create_task(tell(server, ledger))
    try:
        acting = asyncio.gather(*[fleet.act(until, is_stopped) for fleet in fleets])
        await asyncio.wait_for(acting, seconds + END_LIMIT)
    finally:
        telling.cancel()
        for fleet in fleets:
            fleet.close()


async def tell(server: Server, ledger: Ledger):
    """Tells each minute how far it is."""
    begun = time.monotonic()
    while True:
        await asyncio.sleep(TELL_SECONDS)
        print(f"{time.monotonic() - begun:6.0f} s, {ledger.judged} judged, "
              f"{ledger.wrong} wrong, {server.kibibytes('VmRSS') / 1024:.1f} MiB", flush=True)


def tell_all(server: Server, ledger: Ledger) -> bool:
    """Tells how all came out, and whether it is as wanted."""
    most = server.kibibytes("VmHWM")
    for name, count in sorted(ledger.counts.items()):
        print(f"    {count:>6} {name}")
    print(f"highest memory {most / 1024:.1f} MiB, to stay below {MOST_KIBIBYTES >> 10}")
    print(f"{ledger.judged} judged, {ledger.wrong} wrong")
    return ledger.wrong == 0 and most < MOST_KIBIBYTES and server.is_alive()


def main():
    parser = argparse.ArgumentParser(description="Mixed load, each answer of which is judged.")
    parser.add_argument("--seconds", type=float, default=SECONDS)
    parser.add_argument("--seed", type=int, default=1)
    parser.add_argument("--stop", action="store_true", help="at what is wrong first")
    parser.add_argument("--fault", default="", help="a fault of hostile/relay.py")
    parser.add_argument("--bin", type=Path, default=Path("bin"), help="where the program is")
    words = parser.parse_args()
    signal.signal(signal.SIGTERM, lambda *_: sys.exit(1))
    program = str((words.bin / "rd_serve").resolve())
    print(f"seed {words.seed}, {WORKERS} workers, {FLEETS} fleets, {words.seconds:.0f} seconds")
    ledger = Ledger()
    try:
        with Server(program, WORKERS, fault=words.fault) as server:
            asyncio.run(drive(server, ledger, words.seed, words.seconds, words.stop))
            is_right = tell_all(server, ledger)
            status, said = server.end()
            print(f"ended by a signal: status {status} {said}".rstrip())
    except (Wrong, OSError, asyncio.TimeoutError) as wrong:
        sys.exit(f"FAILED: {wrong!r}")
    sys.exit(not (is_right and status == -signal.SIGTERM))


if __name__ == "__main__":
    main()
