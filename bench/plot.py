#!/usr/bin/env python3
"""Draws measured figures: `bench/plot.py [TABLE ..]`.

The tables are those of bench/figures where none is named: bench/traces.py, bench/serve.py and
bench/memory.py write them with --table, as `make bench` does. Each picture is written to docs/ as
an SVG file by gnuplot, which is installed where it lacks. Each measure is a point; a line leads
through the means of those at the same number. A picture is left out, and that is said, where no
line of it has figures at two numbers.
"""

import argparse
import re
import shutil
import subprocess
import sys
from dataclasses import dataclass
from pathlib import Path

from tables import Figure, read_table

HERE = Path(__file__).resolve().parent
DOCS = HERE.parent / "docs"

# The most octets that a picture may have.
MOST = 20_000

# The colours of lines: dark enough on white, and told apart without red or green.
COLOURS = ["#0b5fa5", "#d1660b", "#5b3f8c", "#1f8a8a", "#6b6b6b"]


@dataclass(frozen=True)
class Picture:
    """A picture: what it is called, and what its axes say."""

    name: str
    title: str
    across: str
    up: str
    # What a figure is divided by.
    unit: int = 1

    @property
    def path(self) -> Path:
        return DOCS / f"{self.name}.svg"


REGISTRATIONS = "registrations that stand"

PICTURES = [
    Picture("cpu-by-registrations", "Processor time of the server for a lookup with one hit",
            REGISTRATIONS, "microseconds"),
    Picture("cpu-by-peers", "Processor time of the server for a request",
            "ports from which requests come", "microseconds"),
    Picture("instructions-by-registrations", "Instructions of a call in a replay", REGISTRATIONS,
            "thousand instructions", 1_000),
    Picture("memory-by-registrations", "Most memory that a program has had at once", REGISTRATIONS,
            "MiB"),
]


def install():
    """Installs gnuplot, by the package of Debian."""
    print("gnuplot is not there: apt-get install gnuplot-nox", flush=True)
    if shutil.which("apt-get"):
        words = ["apt-get", "install", "--yes", "--quiet", "gnuplot-nox"]
        subprocess.run(words, stdin=subprocess.DEVNULL, stdout=subprocess.DEVNULL, check=False)
    if not shutil.which("gnuplot"):
        sys.exit("it could not be installed; Debian has it in gnuplot-nox")


def lines_of(picture: Picture, figures: list[Figure]) -> dict[str, list[Figure]]:
    """The figures of a picture by their lines, in the order in which these come."""
    lines = {}
    for figure in figures:
        if figure.picture == picture.name:
            lines.setdefault(figure.line, []).append(figure)
    return lines


def is_drawn(lines: dict[str, list[Figure]]) -> bool:
    """Whether some line has figures at two numbers."""
    return any(len({figure.number for figure in line}) > 1 for line in lines.values())


def quoted(text: str) -> str:
    """A text in gnuplot's single quotes."""
    return "'" + text.replace("'", "''") + "'"


def script_of(picture: Picture, lines: dict[str, list[Figure]]) -> str:
    """What gnuplot is to do: for each line its means as a line, and its measures as points."""
    numbers = sorted({figure.number for line in lines.values() for figure in line})
    ticks = ", ".join(f'"{number:,}" {number}' for number in numbers)
    script = [
        "set encoding utf8",
        "set terminal svg noenhanced size 860,360 font 'sans-serif,13' background rgb 'white'",
        f"set title {quoted(picture.title)}",
        f"set xlabel {quoted(picture.across)}",
        f"set ylabel {quoted(picture.up)}",
        "set logscale x",
        f"set xtics ({ticks})",
        f"set xrange [{numbers[0] / 1.3}:{numbers[-1] * 1.3}]",
        "set yrange [0:*]",
        "set key outside right top vertical Left reverse",
        "set grid ytics",
    ]
    plots = []
    for place, (name, line) in enumerate(lines.items(), start=1):
        rows = "\n".join(f"{it.number} {it.value / picture.unit:.6g}" for it in line)
        script.append(f"$line{place} << END\n{rows}\nEND")
        colour = f"linecolor rgb {quoted(COLOURS[(place - 1) % len(COLOURS)])}"
        plots.append(f"$line{place} using 1:2 smooth unique with lines linewidth 2 {colour} "
                     "notitle")
        plots.append(f"$line{place} using 1:2 with points pointtype {place + 4} {colour} "
                     f"title {quoted(name)}")
    return "\n".join(script) + "\nplot " + ", \\\n    ".join(plots) + "\n"


def without_empty(text: str) -> str:
    """A picture without the groups in which gnuplot draws nothing, and spaces that say nothing."""
    count = 1
    while count:
        text, count = re.subn(r"<g [^>]*>\s*</g>\s*", "", text)
    return re.sub(r"(?m)^[ \t]+|[ \t]+$", "", text)


def draw(picture: Picture, lines: dict[str, list[Figure]]):
    """Draws a picture."""
    done = subprocess.run(["gnuplot"], input=script_of(picture, lines), capture_output=True,
                          text=True, check=False)
    if done.returncode != 0 or not done.stdout:
        sys.exit(f"gnuplot: {done.stderr}")
    text = without_empty(done.stdout)
    if len(text.encode()) > MOST:
        sys.exit(f"{picture.path.name} would have more than {MOST:,} octets")
    picture.path.write_text(text)


def main():
    parser = argparse.ArgumentParser(description="Draws measured figures.")
    parser.add_argument("tables", nargs="*", type=Path)
    words = parser.parse_args()
    tables = words.tables or sorted((HERE / "figures").glob("*.tsv"))
    if not shutil.which("gnuplot"):
        install()
    figures = [figure for table in tables for figure in read_table(table)]
    for picture in PICTURES:
        lines = lines_of(picture, figures)
        if is_drawn(lines):
            draw(picture, lines)
            print(f"docs/{picture.path.name}")
        else:
            print(f"docs/{picture.path.name} is left out: no figures at two numbers; `make bench` "
                  "measures them")


if __name__ == "__main__":
    main()
