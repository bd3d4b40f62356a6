"""Traces in, lines out (docs/PROGRAMS.md)."""

import ipaddress
import re

from .desk import Desk, KeepJob

MOST_WORKERS = 16
MOST_LINE = 8_600

NUMBER = r"(0|[1-9][0-9]*)"
LINES = {
    "in": re.compile(rf"in {NUMBER} {NUMBER} (\S+) (-|(?:[0-9A-Fa-f]{{2}}){{1,4096}})"
                     rf"(?: {NUMBER})?"),
    "go": re.compile(rf"go {NUMBER} {NUMBER}"),
    "tick": re.compile(rf"tick {NUMBER} {NUMBER}(?: {NUMBER})?"),
    "begin": re.compile(rf"begin {NUMBER} {NUMBER} {NUMBER}"),
}
MOST_WORKER, MOST_MOMENT, MOST_WORD = 255, 999_999_999_999_999, 0xFFFFFFFF
MOST_FIRST = (1 << 48) - 1
V4, V6 = re.compile(r"([0-9.]+):([1-9][0-9]*)"), re.compile(r"\[([0-9a-f:.]+)\]:([1-9][0-9]*)")
MAPPED = ipaddress.IPv6Network("::ffff:0:0/96")


class BadLine(Exception):
    """A line that is none, by the word of its reason."""


def v6_text(address: ipaddress.IPv6Address) -> str:
    """An address as RFC 5952 prints it."""
    return f"::ffff:{address.ipv4_mapped}" if address in MAPPED else address.compressed


def is_peer(text: str) -> bool:
    """Whether a text is a peer as it is printed."""
    four, six = V4.fullmatch(text), V6.fullmatch(text)
    try:
        if four:
            is_printed = str(ipaddress.IPv4Address(four[1])) == four[1]
        elif six:
            is_printed = v6_text(ipaddress.IPv6Address(six[1])) == six[1]
        else:
            return False
    except ValueError:
        return False
    return is_printed and int((four or six)[2]) <= 0xFFFF


def fields_of(line: bytes) -> tuple[str, list[str | None]]:
    """The kind of a line and its fields; BadLine where it is none."""
    if len(line) > MOST_LINE:
        raise BadLine("long")
    text = line.decode("latin-1")
    kind = text.split(" ", 1)[0]
    found = LINES[kind].fullmatch(text) if kind in LINES else None
    if not found or "\n" in text:
        raise BadLine("form")
    fields = list(found.groups())
    if kind == "in" and not is_peer(fields[2]):
        raise BadLine("form")
    last = {"in": fields[-1], "tick": fields[-1], "go": None, "begin": None}[kind]
    is_right = int(fields[0]) <= MOST_WORKER and int(fields[1]) <= MOST_MOMENT \
        and int(last or 0) <= MOST_WORD and (kind != "begin" or int(fields[2]) <= MOST_FIRST)
    if not is_right:
        raise BadLine("form")
    return kind, fields


class Machine:
    """Workers over one directory, line by line."""

    def __init__(self, workers: int, desk: Desk | None = None):
        self.desk = desk or Desk(workers)
        self.jobs: list = [None] * workers
        self.moment = 0

    def line(self, line: bytes) -> list[str]:
        """What a line of a trace writes; BadLine where it is bad."""
        kind, fields = fields_of(line)
        worker, moment = int(fields[0]), int(fields[1])
        if worker >= len(self.jobs):
            raise BadLine("worker")
        if kind == "in" and self.jobs[worker]:
            raise BadLine("busy")
        return [f"out {worker} {peer} {octets.hex()}"
                for peer, octets in self.step(kind, worker, moment, fields)]

    def step(self, kind: str, worker: int, moment: int, fields) -> list[tuple[str, bytes]]:
        """What one step sends."""
        if kind == "go" and self.jobs[worker] is None:
            return []
        self.moment = max(self.moment, moment)
        if kind == "in":
            datagram = b"" if fields[3] == "-" else bytes.fromhex(fields[3])
            self.jobs[worker] = self.desk.hear(self.moment, worker, int(fields[4] or 0),
                                               fields[2], datagram)
        elif kind == "go":
            self.go(worker)
        elif kind == "tick":
            self.desk.tick(self.moment, worker, int(fields[2] or 0))
        else:
            self.desk.begin(self.moment, worker, int(fields[2]))
        return self.desk.take_sent()

    def go(self, worker: int):
        """Does the job of a worker."""
        job, self.jobs[worker] = self.jobs[worker], None
        do = self.desk.keep if isinstance(job, KeepJob) else self.desk.commit
        do(self.moment, worker, job)

    def end(self) -> str:
        """The last line of the output."""
        history = self.desk.history
        live = len(history.live(self.moment))
        return f"end {history.entries} {live} {len(self.desk.observers.all)}"


def lines_of(trace: bytes) -> list[bytes]:
    """The lines of a trace; the last one may lack its line feed."""
    lines = trace.split(b"\n")
    return lines[:-1] if lines[-1] == b"" else lines


def answered(trace: bytes, workers: int) -> tuple[list[str], int, str]:
    """The output of a trace, with its status and what is said."""
    machine, out = Machine(workers), []
    for number, line in enumerate(lines_of(trace), 1):
        try:
            out += machine.line(line)
        except BadLine as bad:
            return out, 4, f"line {number}: {bad}"
    return out + [machine.end()], 0, ""
