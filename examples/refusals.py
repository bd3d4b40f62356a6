#!/usr/bin/env python3
"""Compares docs/REFUSALS.md with the stored cases: `examples/refusals.py`.

Each word of that page is to be the whole payload of an answer that one of two cases expects, under
the same code, and these cases are to have no other word: refusals/every_word and, for the word
`entries`, whose run begins near the last count, beginnings/two_before_the_last_number. Each stored
case that the page names as an example is to be there, and to be listed for rd_rows. The status is 1
where something is missing.
"""

import re
import sys
from pathlib import Path

TOP = Path(__file__).resolve().parent.parent
ROWS = TOP / "crates" / "rd_rows"

# The cases whose answers have the words of the page.
WORDS = ("refusals/every_word", "beginnings/two_before_the_last_number")

PAYLOAD = "ff"


def listed(page: str) -> set[tuple[str, str]]:
    """The codes and words of the page's tables."""
    return set(re.findall(r"(?m)^\| (\d\.\d\d) `([a-z]+)` \|", page))


def expected(case: str) -> set[tuple[str, str]]:
    """The codes and payloads of the refusals that a case expects."""
    answers = set()
    for octets in re.findall(r"(?m)^> out \d+ \S+ ([0-9a-f]+)$", case):
        # Type and length of the token, code, Message ID and token (RFC 7252 section 3).
        code, rest = int(octets[2:4], 16), octets[8 + 2 * int(octets[1], 16):]
        if code >> 5 in (4, 5) and rest.startswith(PAYLOAD):
            word = bytes.fromhex(rest[len(PAYLOAD):]).decode()
            answers.add((f"{code >> 5}.{code & 31:02}", word))
    return answers


def examples(page: str) -> set[str]:
    """The stored cases that the page names."""
    groups = "|".join(sorted(folder.name for folder in (ROWS / "data").iterdir()))
    return set(re.findall(rf"`((?:{groups})/\w+)`", page))


def main():
    page = (TOP / "docs" / "REFUSALS.md").read_text()
    cases = set((ROWS / "stdin").read_text().split())
    faults = []
    come = set().union(*(expected((ROWS / "data" / f"{name}.case").read_text()) for name in WORDS))
    for code, word in sorted(listed(page) - come):
        faults.append(f"{code} {word} of docs/REFUSALS.md comes in no answer")
    for code, word in sorted(come - listed(page)):
        faults.append(f"{code} {word} comes, and is not in docs/REFUSALS.md")
    for name in sorted(examples(page)):
        if name not in cases or not (ROWS / "data" / f"{name}.case").is_file():
            faults.append(f"docs/REFUSALS.md names {name}, which is no stored case")
    if faults:
        sys.exit("\n".join(faults))


if __name__ == "__main__":
    main()
