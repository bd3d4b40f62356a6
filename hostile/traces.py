#!/usr/bin/env python3
"""Mutated traces: `hostile/traces.py [--seed N] [--count N] [--first N] [--joined N] FOLDER`.

From the stored cases (crates/rd_rows/data) and the traces of examples/ it makes traces with some
of their lines changed, cut, doubled, left out, exchanged or taken from another trace, and writes
each into a file of the folder. They are the same for a seed. An rd_replay that is built with
checks of its memory is to go through them without a report: in crates/rd_replay

    rt try --cases FOLDER -- --workers=4

Where each run takes long, --joined N puts so many traces into each file, one behind another: each
up to its first bad line, as bin/rd_replay says, with that line where it is the last of its file;
each begins more than eleven days later than the one before it, with no job left.
"""

import argparse
import random
import re
import subprocess
from pathlib import Path

ROOT = Path(__file__).resolve().parent.parent

# The most octets of a trace that is mutated, and the most rounds of a loop of a case.
MOST_OCTETS = 12_000
MOST_ROUNDS = 12

# The most changes of one trace.
MOST_CHANGES = 6

# Where traces are joined: workers, the seconds that one may take to be read for its first bad
# line, the milliseconds between the beginnings of two, and up to which moment they are moved.
WORKERS, RUN_LIMIT = 4, 20
BETWEEN = 1_000_000_000
MOST_MOVED = 1_000_000_000

# Forms of a case (docs/CASES.md): a text so many times, and what stands for the round of a loop.
TIMES = re.compile(r"\{([^{}*]+)\*(\d+)\}")
ROUND = re.compile(r"\{n(:\w+)?\}")
LOOP = re.compile(r"for (\d+)\.\.=(\d+)")

# Numbers that a field may be given, many at an edge.
NUMBERS = ["0", "1", "3", "4", "15", "16", "255", "256", "01", "-1", "", "4294967295",
           "4294967296", "247000", "247001", "90000000", "999999999999999", "1000000000000000"]
PEERS = ["192.0.2.10:5683", "192.0.2.10:61616", "192.0.2.30:40000", "[2001:db8::1]:61616",
         "[::]:1", "255.255.255.255:65535", "1.2.3.4:0", "1.2.3.4", "[::ffff:1.2.3.4]:5683"]
OCTETS = ["ff", "00", "0d", "e0ffff", "f0", "b2", "c107", "d108", "60", "6101", "4400000000"]


def in_round(line: str, number: int) -> str:
    """A line of a loop as it stands in one round."""
    def value(found: re.Match) -> str:
        form = found[1] or ""
        if form == ":04x":
            return f"{number & 0xFFFF:04x}"
        if form == ":02x":
            return f"{number & 0xFF:02x}"
        return str(number).encode().hex() if form == ":digits" else str(number)
    return ROUND.sub(value, line)


def lines_of(case: str) -> list[str]:
    """The lines of the trace of a case, with few rounds of each loop."""
    lines: list[str] = []
    begun, rounds = 0, range(0)
    for line in case.splitlines():
        if loop := LOOP.fullmatch(line):
            begun = len(lines)
            rounds = range(int(loop[1]), min(int(loop[1]) + MOST_ROUNDS, int(loop[2]) + 1))
        elif line == "next":
            looped = lines[begun:]
            lines[begun:] = [in_round(each, number) for number in rounds for each in looped]
        elif line.startswith("< "):
            lines.append(TIMES.sub(lambda found: found[1] * min(int(found[2]), 4_096), line[2:]))
    return lines


def traces() -> list[list[str]]:
    """All traces that are short enough, each as its lines."""
    made = [lines_of(case.read_text(errors="replace"))
            for case in sorted(ROOT.glob("crates/rd_rows/data/*/*.case"))]
    made += [trace.read_text().splitlines() for trace in sorted(ROOT.glob("examples/*.trace"))]
    return [lines for lines in made if lines and sum(map(len, lines)) <= MOST_OCTETS]


class Mutant:
    """A trace that is changed by chance."""

    def __init__(self, chance: random.Random, all_lines: list[list[str]]):
        self.chance, self.all = chance, all_lines
        self.lines = list(chance.choice(all_lines))

    def text(self) -> bytes:
        """The trace, after some changes."""
        for _ in range(self.chance.randint(1, MOST_CHANGES)):
            self.chance.choice(CHANGES)(self)
        text = bytearray("\n".join(self.lines).encode() + b"\n")
        if self.chance.random() < 0.1:
            self.spoil(text)
        return bytes(text)

    def spoil(self, text: bytearray):
        """Changes an octet of the text, or cuts it."""
        at = self.chance.randrange(len(text))
        if self.chance.random() < 0.5:
            text[at] = self.chance.randrange(256)
        else:
            del text[at:]

    def place(self) -> int:
        """The place of a line."""
        return self.chance.randrange(len(self.lines))

    # Lines.

    def leave_out(self):
        if len(self.lines) > 1:
            del self.lines[self.place()]

    def double(self):
        at = self.place()
        self.lines[at:at] = [self.lines[self.place()]] * self.chance.randint(1, 3)

    def exchange(self):
        one, other = self.place(), self.place()
        self.lines[one], self.lines[other] = self.lines[other], self.lines[one]

    def take(self):
        """Takes some lines from another trace."""
        other, at = self.chance.choice(self.all), self.place()
        begin = self.chance.randrange(len(other))
        self.lines[at:at] = other[begin:begin + self.chance.randint(1, 8)]

    def tick(self):
        word = self.chance.choice(["", f" {self.chance.choice(NUMBERS)}"])
        self.lines.insert(self.place(), f"tick 0 {self.chance.randrange(400_000)}{word}")

    # Fields.

    def number(self):
        """Gives a worker, moment or word another number."""
        self.field(self.chance.randint(1, 2), self.chance.choice(NUMBERS))

    def moment(self):
        """Gives a line another moment, mostly one that is near."""
        self.field(2, str(self.chance.choice([self.chance.randrange(5_000),
                                              self.chance.randrange(700_000)])))

    def peer(self):
        self.field(3, self.chance.choice(PEERS))

    def field(self, place: int, value: str):
        """Gives a field of a line another value, where it has this field."""
        at = self.place()
        fields = self.lines[at].split(" ")
        if place < len(fields):
            fields[place] = value
            self.lines[at] = " ".join(fields)

    # Octets.

    def octets(self):
        """Changes some octets of a datagram."""
        at = self.place()
        fields = self.lines[at].split(" ")
        if len(fields) == 5 and len(fields[4]) % 2 == 0 and fields[4] != "-":
            fields[4] = self.changed(fields[4]) or "-"
            self.lines[at] = " ".join(fields)

    def changed(self, digits: str) -> str:
        """Digits of octets with one change."""
        at = 2 * self.chance.randrange(len(digits) // 2)
        change = self.chance.randrange(5)
        if change == 0:
            return digits[:at] + f"{self.chance.randrange(256):02x}" + digits[at + 2:]
        if change == 1:
            bit = int(digits[at:at + 2], 16) ^ 1 << self.chance.randrange(8)
            return digits[:at] + f"{bit:02x}" + digits[at + 2:]
        if change == 2:
            return digits[:at] + digits[at + 2 * self.chance.randint(1, 8):]
        if change == 3:
            return digits[:at] + self.chance.choice(OCTETS) + digits[at:]
        return digits[:at] + digits[at:at + 64] * self.chance.randint(1, 20) + digits[at:]


CHANGES = [Mutant.octets] * 6 + [Mutant.leave_out, Mutant.double, Mutant.exchange, Mutant.take,
                                 Mutant.tick, Mutant.number, Mutant.moment, Mutant.peer]


def bad_line(program: Path, text: bytes) -> int:
    """The number of the first bad line of a trace, 0 where none is."""
    done = subprocess.run([program, f"--workers={WORKERS}"], input=text, stdout=subprocess.DEVNULL,
                          stderr=subprocess.PIPE, timeout=RUN_LIMIT, check=False)
    found = re.match(rb"line (\d+): ", done.stderr)
    return int(found[1]) if found else 0


def later(line: bytes, milliseconds: int) -> bytes:
    """A good line, so many milliseconds later."""
    fields = line.split(b" ")
    moment = int(fields[2])
    if moment < MOST_MOVED:
        fields[2] = b"%d" % (moment + milliseconds)
    return b" ".join(fields)


def joined(program: Path, texts: list[bytes]) -> bytes:
    """Traces one behind another, each up to its first bad line; that of the last one, too."""
    lines: list[bytes] = []
    for place, text in enumerate(texts):
        bad, given = bad_line(program, text), text.split(b"\n")
        begin = place * BETWEEN
        lines += [b"go %d %d" % (worker, begin) for worker in range(WORKERS)]
        lines += [later(line, begin) for line in (given[:bad - 1] if bad else given) if line]
    leave_out_bad(program, lines)
    if bad:
        lines.append(given[bad - 1])
    return b"\n".join(lines) + b"\n"


def leave_out_bad(program: Path, lines: list[bytes]):
    """Leaves out what is bad behind other traces, as where a datagram leaves a job now."""
    while bad := bad_line(program, b"\n".join(lines)):
        del lines[bad - 1]


def main():
    parser = argparse.ArgumentParser(description="Mutated traces.")
    parser.add_argument("folder", type=Path)
    parser.add_argument("--seed", type=int, default=1)
    parser.add_argument("--count", type=int, default=20_000)
    parser.add_argument("--first", type=int, default=0, help="the number of the first one")
    parser.add_argument("--joined", type=int, default=1, help="how many traces a file has")
    parser.add_argument("--bin", type=Path, default=Path("bin"), help="where the program is")
    words = parser.parse_args()
    words.folder.mkdir(parents=True, exist_ok=True)
    all_lines, end = traces(), words.first + words.count
    for first in range(words.first, end, words.joined):
        texts = [Mutant(random.Random(f"{words.seed} {number}"), all_lines).text()
                 for number in range(first, min(first + words.joined, end))]
        made = joined(words.bin / "rd_replay", texts) if words.joined > 1 else texts[0]
        (words.folder / f"{first:06}.trace").write_bytes(made)
    print(f"seed {words.seed}: {words.count} traces from {len(all_lines)}, from {words.first} on")


if __name__ == "__main__":
    main()
