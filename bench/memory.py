#!/usr/bin/env python3
"""How much memory is taken, by registrations that stand: `bench/memory.py [--table FILE] [--bin
FOLDER]`.

Of a replay by rd_replay it is the most that the program has had at once (VmHWM) when it has read
its trace and waits for more; of rd_serve of four workers, when all registrations were answered.
Both are of bin/ where no other folder is named. Registrations have one link of six attributes, or
five short ones. A busy machine tells the same. --table writes the figures that bench/plot.py draws.
"""

import argparse
import fcntl
import re
import subprocess
import sys
import termios
import time
from array import array
from pathlib import Path

from tables import Figure, write_table
from traces import LINK_FORMAT, LONG, POST, Trace, device, path, query, registered

HERE = Path(__file__).resolve().parent
sys.path.insert(0, str(HERE.parent / "hostile"))

import wire  # noqa: E402

PICTURE = "memory-by-registrations"
SIZES = [64, 256, 1_024, 4_096]

# How many links a registration has that has several, and how many workers the server.
LINKS_EACH = 5
WORKERS = 4


def linked(size: int) -> Trace:
    """So many devices have registered short links: as many as all may have where all stand."""
    trace = Trace()
    body = ",".join(f'</{number}>;rt="l"' for number in range(LINKS_EACH)).encode()
    for number in range(size):
        options = [*path("rd"), LINK_FORMAT, *query(f"ep=n{number}", f"lt={LONG}")]
        trace.write(device(number), POST, options, body)
    return trace


def waits_for_more(process: subprocess.Popen) -> bool:
    """Whether a process has read all that was written to it, and sleeps."""
    left = array("i", [0])
    fcntl.ioctl(process.stdin, termios.FIONREAD, left)
    state = Path(f"/proc/{process.pid}/stat").read_text().rsplit(")", 1)[1].split()[0]
    return left[0] == 0 and state == "S"


def of_replay(program: str, trace: Trace) -> float:
    """The most memory of a replay, in MiB."""
    words = [program, "--workers=1"]
    with subprocess.Popen(words, stdin=subprocess.PIPE, stdout=subprocess.DEVNULL) as process:
        process.stdin.write(trace.text())
        process.stdin.flush()
        while not waits_for_more(process):
            time.sleep(0.05)
        status = Path(f"/proc/{process.pid}/status").read_text()
    return int(re.search(r"VmHWM:\s+(\d+) kB", status).group(1)) / 1_024


def of_server(program: str, trace: Trace) -> float:
    """The most memory of a server to which the datagrams of a trace came, in MiB."""
    with wire.Server(program, WORKERS) as server:
        server.asking.settimeout(wire.ANSWER_LIMIT)
        for line in trace.lines:
            if line.startswith("in "):
                server.asking.send(bytes.fromhex(line.split()[-1]))
                if wire.read(server.asking.recv(wire.MOST_READ)).refusal() != "2.01":
                    raise wire.Wrong("a registration is not taken")
        return server.kibibytes("VmHWM") / 1_024


def main():
    parser = argparse.ArgumentParser(description="How much memory is taken.")
    parser.add_argument("--bin", type=Path, default=HERE.parent / "bin", metavar="FOLDER")
    parser.add_argument("--table", type=Path, metavar="FILE", help="writes what is drawn")
    words = parser.parse_args()
    replay, serve = (str((words.bin / name).resolve()) for name in ("rd_replay", "rd_serve"))
    lines = {
        "rd_serve, one link each": lambda size: of_server(serve, registered(size)),
        "rd_replay, one link each": lambda size: of_replay(replay, registered(size)),
        f"rd_replay, {LINKS_EACH} links each": lambda size: of_replay(replay, linked(size)),
    }
    print(f"{'most memory in MiB, with so many registrations':<52}"
          + "".join(f"{size:>9,}" for size in SIZES), flush=True)
    figures = []
    for name, measure in lines.items():
        costs = [measure(size) for size in SIZES]
        print(f"{name:<52}" + "".join(f"{cost:>9.1f}" for cost in costs), flush=True)
        figures += [Figure(PICTURE, name, *at) for at in zip(SIZES, costs)]
    if words.table:
        write_table(words.table, ["bench/memory.py, the proved rd_replay and rd_serve"], figures)


if __name__ == "__main__":
    main()
