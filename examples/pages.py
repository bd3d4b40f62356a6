#!/usr/bin/env python3
"""The pages of the examples: `examples/pages.py [--check] [PROGRAM]`.

Below its words each page, NAME.md, shows what rd_show prints of NAME.trace: as a sequence diagram
(--mermaid), and as a conversation. This script writes both anew from what the program prints. With
--check it writes nothing, and ends with status 1 where a page has anything else.
"""

import argparse
import subprocess
import sys
from pathlib import Path

HERE = Path(__file__).resolve().parent

# How each part of a page that the program printed begins and ends.
DIAGRAM, CONVERSATION, END = "```mermaid\n", "```text\n", "```\n"


def shown(program: str, trace: Path, *words: str) -> str:
    """What the program prints of a trace, in which lines may be bad (status 4)."""
    with trace.open("rb") as stdin:
        done = subprocess.run([program, *words], stdin=stdin, capture_output=True, check=False)
    if done.returncode not in (0, 4):
        sys.exit(f"{program} ended with {done.returncode} on {trace.name}: {done.stderr.decode()}")
    return done.stdout.decode()


def page_of(program: str, words: str, trace: Path) -> str:
    """The page of a trace, with these words at its beginning."""
    diagram = shown(program, trace, "--mermaid")
    conversation = shown(program, trace)
    return f"{words}\n\n{DIAGRAM}{diagram}{END}\n{CONVERSATION}{conversation}{END}"


def main():
    parser = argparse.ArgumentParser(description="Writes the pages of the examples.")
    parser.add_argument("program", nargs="?", default="bin/rd_show")
    parser.add_argument("--check", action="store_true", help="writes nothing, and compares")
    words = parser.parse_args()
    program = str(Path(words.program).resolve())
    others = []
    for trace in sorted(HERE.glob("*.trace")):
        page = trace.with_suffix(".md")
        text = page.read_text()
        wanted = page_of(program, text.split("\n" + DIAGRAM)[0].rstrip(), trace)
        if text == wanted:
            continue
        others.append(page.name)
        if not words.check:
            page.write_text(wanted)
    if words.check and others:
        sys.exit(f"not what {words.program} prints: {', '.join(others)}; see examples/pages.py")


if __name__ == "__main__":
    main()
