"""Table files of measured figures, which bench/plot.py draws.

A line of a table is a figure: the picture that it stands in, its line there, at which number it was
measured, and what was measured, parted by tabs. The same may be measured several times. Lines that
begin with `#` say what was measured on what.
"""

from dataclasses import dataclass
from pathlib import Path


@dataclass(frozen=True)
class Figure:
    """A measured figure."""

    picture: str
    line: str
    number: int
    value: float


def write_table(path: Path, head: list[str], figures: list[Figure]):
    """Writes a table, with what was measured on what at its head."""
    lines = [f"# {line}" for line in head]
    lines += [f"{it.picture}\t{it.line}\t{it.number}\t{it.value:.6g}" for it in figures]
    path.parent.mkdir(parents=True, exist_ok=True)
    path.write_text("\n".join(lines) + "\n")


def read_table(path: Path) -> list[Figure]:
    """The figures of a table."""
    figures = []
    for line in path.read_text().splitlines():
        if line and not line.startswith("#"):
            picture, name, number, value = line.split("\t")
            figures.append(Figure(picture, name, int(number), float(value)))
    return figures
