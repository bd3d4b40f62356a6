#!/usr/bin/env python3
"""Faults in the plain directory that random traces show: `hostile/planted.py [PROGRAM]`.

Each fault is one change of a copy of hostile/plain. hostile/cases.py is run with that copy, and is
to find a trace that differs within so many. A line for each fault says which trace that was; the
status is 1 where one was not found.
"""

import argparse
import re
import shutil
import subprocess
import sys
import tempfile
from pathlib import Path

HERE = Path(__file__).resolve().parent

MOST_TRACES = 2_000
RUN_LIMIT = 900

# The name of each fault, the file that is changed, what stands there, and what is put there.
FAULTS = [
    ("a lease ends a millisecond late", "history.py",
     "if record.lapse > moment]", "if record.lapse >= moment]"),
    ("registering again keeps the old links", "history.py",
     "given.attributes, links)", "given.attributes, old.links if old else links)"),
    ("a lapsed name keeps its number", "history.py",
     "        live = self.live(moment)\n        old", "        live = self.records\n        old"),
    ("an update keeps the old source", "history.py",
     "            base = base_of(peer)\n        names",
     "            base = old.base\n        names"),
    ("an update appends attributes", "history.py",
     "if pair[0] not in names)", "if True)"),
    ("replaced links begin a lease anew", "history.py",
     "links=links))", "links=links, granted=moment))"),
    ("a tag forgets lapses", "history.py",
     "lapsed = sum(each.lapse <= moment", "lapsed = sum(False and each.lapse <= moment"),
    ("a value with a control character is taken", "history.py",
     "<= ord(each) <= 0x9F", "<= ord(each) <= 0x7F"),
    ("two criteria of an endpoint are met by one link", "lookup.py",
     """    is_listed = all(is_matched_by(each, record.pairs)
                    or any(is_matched_by(each, link) for link in links) for each in criteria)
""", """    is_listed = any(all(is_matched_by(each, record.pairs) or is_matched_by(each, link)
                        for each in criteria) for link in [*links, []])
"""),
    ("a sibling counts for a link", "lookup.py",
     "all(is_matched_by(each, link) for each in own)]",
     "all(any(is_matched_by(each, other) for other in links) for each in own)]"),
    ("words of a title are split", "lookup.py",
     '("rel", "rev", "rt", "if")', '("rel", "rev", "rt", "if", "title")'),
    ("a page begins at its number", "lookup.py",
     "(query.page or 0) * query.count", "(query.page or 0)"),
    ("a repeat is told by its token too", "desk.py",
     "        if known:\n            if known.reply is not None:",
     "        if known and (known.reply or b'')[4:5] == request.message.token[:1]:\n"
     "            if known.reply is not None:"),
    ("a further block comes from the listing now", "desk.py",
     "        if kept:\n            self.content(peer, request, kept.body, kept.tag)",
     "        if kept and self.history.entries % 2:\n"
     "            self.content(peer, request, kept.body, kept.tag)"),
    ("a block out of order is taken", "tables.py",
     "if known is None or len(known.body) != block.start:", "if known is None:"),
    ("an upload stays when it is done", "desk.py",
     "        if block:\n            self.uploads.end(peer, request.key)\n", ""),
    ("a notification is sent of an unchanged listing", "desk.py",
     "if body != observer.body:", "if True:"),
    ("a changed lookup marks nobody who matched before", "desk.py",
     "!= lookup.part(observer.query, after.get(number)) for number in changed):",
     "!= lookup.part(observer.query, after.get(number)) and after.get(number)\n"
     "                   for number in changed):"),
    ("a Reset ends nothing", "desk.py",
     "                self.observers.remove(peer, observer.token)\n            if is_asked:",
     "                observer.flight = None\n            if is_asked:"),
    ("a wait does not double", "tables.py",
     "self.first_wait << self.times", "self.first_wait"),
    ("an Echo is good for another peer", "tables.py",
     "if each[0] == peer), None)", "if True), None)"),
    ("another tag in a later block is taken", "desk.py",
     "block is None or response.etag != fetch.tag", "block is None"),
    ("a fetch is acknowledged too late", "desk.py",
     "        if heard.kind == CON:\n            self.send(peer, spell(ACK, EMPTY, heard.mid))\n"
     "        block = response.block\n",
     "        block = response.block\n"),
    ("dot segments of a target with a scheme go", "reference.py",
     "        return text\n    authority",
     "        return text.replace('/./', '/')\n    authority"),
    ("an anchor of its own scheme is taken", "document.py",
     "has_scheme(link.anchor) and not has_scheme(link.target)", "False"),
    ("an elective option of a bad length is refused", "message.py",
     "        elif number % 2:", "        elif number % 2 or number == 6:"),
    ("a format error of a CON gets nothing", "message.py",
     "Unreadable(mid if kind == CON else None)", "Unreadable(None)"),
    ("Message IDs of workers meet", "desk.py",
     "MIDS_OF_WORKER = 4_096", "MIDS_OF_WORKER = 4_095"),
]


def planted(folder: Path, name: str, old: str, new: str):
    """Puts a copy of the plain directory with a fault into a folder."""
    shutil.copytree(HERE / "plain", folder / "plain",
                    ignore=shutil.ignore_patterns("__pycache__"))
    path = folder / "plain" / name
    text = path.read_text()
    if text.count(old) != 1:
        sys.exit(f"{name}: {text.count(old)} times {old!r}")
    path.write_text(text.replace(old, new))


def shown(program: Path, fault: tuple, seed: int) -> str:
    """Which trace shows a fault, or nothing."""
    with tempfile.TemporaryDirectory() as folder:
        planted(Path(folder), *fault[1:])
        done = subprocess.run([sys.executable, HERE / "cases.py", "--seed", str(seed), "--count",
                               str(MOST_TRACES), "--stop", "--plain", folder, program],
                              stdout=subprocess.PIPE, text=True, timeout=RUN_LIMIT, check=False)
    found = re.search(r"trace (\d+) differs", done.stdout)
    return found[1] if found else ""


def main():
    parser = argparse.ArgumentParser(description="Faults that random traces show.")
    parser.add_argument("program", nargs="?", type=Path, default=Path("bin/rd_replay"))
    parser.add_argument("--seed", type=int, default=1)
    parser.add_argument("--check", action="store_true", help="only that each can be planted")
    words = parser.parse_args()
    unseen = 0
    for fault in FAULTS:
        if words.check:
            with tempfile.TemporaryDirectory() as folder:
                planted(Path(folder), *fault[1:])
            continue
        number = shown(words.program.resolve(), fault, words.seed)
        unseen += not number
        print(f"{fault[0]}: {f'trace {number}' if number else 'NOT SHOWN'}", flush=True)
    print(f"{len(FAULTS)} faults, {unseen} not shown within {MOST_TRACES:,} traces")
    sys.exit(unseen > 0)


if __name__ == "__main__":
    main()
