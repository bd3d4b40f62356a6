#!/usr/bin/env python3
"""Tries the edits that the prover must refuse: `gate/edits.py [--check] [--anew] [CRATE]..`.

Those of crates/NAME/must-fail, which the gate tries too, and those of crates/NAME/edits, which only
this script tries, before a release. It works in a copy of the crates: what stands in edits/ is put
beside what stands in must-fail/, and of each crate with edits `rt check` proves the code as it is
and `rt must-fail` tries them. One line an edit says what came of it. An edit fails unless a
contract refuses it: where the crate is still proved, where the edit no longer applies or no longer
compiles, and where only a limit of the prover, or a name that a proof file misses, stands against
it. The last line counts them, and the status is 1 where one failed.

A crate whose edits were all refused is not tried again while it and the crates below it stay as
they were: the sums of what they stand on are kept in a file outside the checkout (--kept). --anew
tries all. --check proves nothing: it says in a second whether each edit has its form and applies.
"""

import argparse
import hashlib
import json
import os
import re
import shutil
import signal
import subprocess
import sys
import tempfile
from pathlib import Path

TOP = Path(__file__).resolve().parent.parent
KEPT = Path(os.environ.get("XDG_CACHE_HOME") or Path.home() / ".cache") / "neurtavi" / "edits.json"

# The folders of a crate that a proof reads, and those of its edits.
PARTS = ("src", "specs", "proofs")
FOLDERS = ("must-fail", "edits")

# How a name of an edit may be, and how a line that is not read begins.
NAME = re.compile(r"[A-Za-z0-9_-][A-Za-z0-9_.-]*\.edit")
REMARKS = ("#", "--", "//")

# What `rt must-fail` says of an edit, and how it says that the prover refused it, but for another
# reason than a contract.
SAID = re.compile(r"(?:rt: )?must-fail (\S+)/(\S+\.edit): (.*)")
REFUSED = "refused, as it must be"
REASONS = {
    " (only by a limit": "BY A LIMIT ALONE",
    " (only because a proof file names": "BY A NAME ALONE",
}

# How many sums are kept.
MOST_KEPT = 1_000


class Bad(Exception):
    """Why an edit does not apply."""


def edits_of(folder: Path) -> list[Path]:
    """The files of a crate's edits, those of the gate first."""
    found = [file for name in FOLDERS for file in sorted((folder / name).glob("*"))]
    return [file for file in found if file.suffix != ".md"]


def pairs_of(text: str):
    """The file, the old and the new text of each change that an edit makes, in order."""
    path = old = None
    for line in text.split("\n"):
        if line.startswith("file: "):
            path = line.removeprefix("file: ").strip()
        elif line.startswith("old: "):
            if old is not None:
                raise Bad(f"no 'new:' follows: {old}")
            old = line.removeprefix("old: ")
        elif line.startswith("new:"):
            if not path or not old:
                raise Bad("a 'new:' stands before its 'file:' or its 'old:'")
            yield path, old, line.removeprefix("new:").removeprefix(" ")
            old = None
        elif line.strip() and not line.startswith(REMARKS):
            raise Bad(f"a line is none of 'file: ', 'old: ' and 'new: ': {line}")
    if old is not None:
        raise Bad(f"no 'new:' follows: {old}")


def apply(edit: Path, folder: Path):
    """Finds each text that an edit changes, in the crate of that folder, or raises Bad."""
    if not NAME.fullmatch(edit.name) or not edit.is_file():
        raise Bad("its name is not of letters, digits, _, - and . with .edit at the end")
    before: dict[str, str] = {}
    after: dict[str, str] = {}
    for path, old, new in pairs_of(edit.read_text()):
        if os.path.normpath(path) != path or path.split("/")[0] not in PARTS:
            raise Bad(f"{path} is no file below {', '.join(PARTS)}")
        if path not in after:
            if not (folder / path).is_file():
                raise Bad(f"there is no file {path}")
            before[path] = after[path] = (folder / path).read_text()
        count = after[path].count(old)
        if count != 1:
            raise Bad(f"{path} has it {count} times, and not once: {old}")
        after[path] = after[path].replace(old, new)
    if after == before:
        raise Bad("it changes nothing")


def check(crates: dict[str, list[Path]]) -> int:
    """Says which edits do not apply, and returns how many."""
    failed = 0
    for name, edits in crates.items():
        names = [edit.name for edit in edits]
        for edit in edits:
            try:
                apply(edit, TOP / "crates" / name)
                if names.count(edit.name) > 1:
                    raise Bad("its name stands in both folders")
            except Bad as why:
                print(f"{edit.relative_to(TOP)}: BAD EDIT: {why}")
                failed += 1
    print(f"{sum(map(len, crates.values())) - failed} edits apply, {failed} do not")
    return failed


def libraries() -> dict[str, list[str]]:
    """The crates of crates.txt, each with its own line and the names of those below it."""
    lines = (TOP / "crates.txt").read_text().splitlines()
    said = {line.split(":")[0].split()[0]: line for line in lines if ":" in line}
    return {name: [line, *line.split(":")[1].split()] for name, line in said.items()}


class Sums:
    """Sums of what the edits of a crate stand on."""

    def __init__(self):
        self.libraries, self.made = libraries(), {}
        self.kit = subprocess.check_output(["rt", "version"]) + (TOP / "HANDLES").read_bytes()

    def of(self, name: str) -> str:
        """The sum of a crate's text, with that of the crates below it."""
        if name not in self.made:
            line, *below = self.libraries[name]
            files = [it for part in PARTS for it in (TOP / "crates" / name / part).rglob("*")]
            parts = [self.kit, line, *(self.of(it) for it in below if it in self.libraries)]
            self.made[name] = sum_of(parts, files)
        return self.made[name]

    def with_edits(self, name: str, edits: list[Path]) -> str:
        """The sum of a crate's text and edits."""
        return sum_of([self.of(name)], edits)


def sum_of(parts: list, files: list[Path]) -> str:
    """A sum of some parts and files."""
    read = [(str(it.relative_to(TOP)), it.read_bytes()) for it in sorted(files) if it.is_file()]
    return hashlib.sha256(repr((parts, read)).encode()).hexdigest()


def kept_in(file: Path) -> dict[str, int]:
    """The sums of what was tried before, each with how many edits were refused."""
    try:
        found = json.loads(file.read_text())
        return {sum: count for sum, count in found.items() if isinstance(count, int)}
    except (OSError, ValueError, AttributeError):
        return {}


def keep(file: Path, sum: str, count: int):
    """Keeps that of this sum all edits were refused."""
    kept = list({**kept_in(file), sum: count}.items())
    file.parent.mkdir(parents=True, exist_ok=True)
    with tempfile.NamedTemporaryFile("w", dir=file.parent, delete=False) as made:
        json.dump(dict(kept[-MOST_KEPT:]), made)
    os.replace(made.name, file)


def left_out(names: set[str]):
    """What the copy does without: data, and of what checks left in out/ all but libraries, and of
    the crates of these names what `rt check` kept."""
    def ignored(folder: str, found: list[str]) -> list[str]:
        if Path(folder).name != "out":
            return [it for it in found if it == "data"]
        wanted = {"rlib", "incremental"} if Path(folder).parent.name in names else {"rlib"}
        return [it for it in found if it not in wanted]
    return ignored


def copy(to: Path, names: set[str]):
    """Copies the crates, and has all edits where `rt must-fail` looks for them."""
    for name in ("crates.txt", "HANDLES"):
        shutil.copy(TOP / name, to / name)
    shutil.copytree(TOP / "crates", to / "crates", ignore=left_out(names))
    for folder in (to / "crates").glob("*/edits"):
        tried = folder.parent / "must-fail"
        tried.mkdir(exist_ok=True)
        for edit in folder.iterdir():
            edit.rename(tried / edit.name)


def run(words: list[str], folder: Path) -> tuple[int, list[str]]:
    """Runs a command, and returns its status and the lines that it wrote."""
    how = {"stdin": subprocess.DEVNULL, "stderr": subprocess.STDOUT, "text": True}
    ran = subprocess.run(words, cwd=folder, stdout=subprocess.PIPE, errors="replace", **how)
    return ran.returncode, ran.stdout.splitlines()


def verdict(said: str) -> tuple[bool, str]:
    """Whether a contract refused the edit of which this was said, and the word for it."""
    if not said.startswith(REFUSED):
        return False, said
    for reason, word in REASONS.items():
        if said.startswith(REFUSED + reason):
            return False, f"{word}: {said.removeprefix(REFUSED).strip()}"
    return True, said.removeprefix(REFUSED).removeprefix(": ")


def try_edits(name: str, edits: list[Path], room: Path) -> int:
    """Tries the edits of a crate in the copy, and returns how many were refused."""
    status, lines = run(["rt", "check"], room / "crates" / name)
    if status:
        print("\n".join(lines[-20:]))
        print(f"{name}: the code as it is is not proved, so nothing is known of its edits")
        return 0
    _, lines = run(["rt", "must-fail", name], room)
    found = [SAID.fullmatch(line) for line in lines]
    told = {it[2]: it[3] for it in found if it and it[1] == name}
    refused = 0
    for edit in edits:
        is_refused, word = verdict(told.get(edit.name, "NOT TRIED: nothing was said of it"))
        refused += is_refused
        print(f"{edit.relative_to(TOP)}: {'refused' if is_refused else 'FAILED'}: {word}")
    if not told:
        print("\n".join(lines[-20:]))
    return refused


def try_all(crates: dict[str, list[Path]], kept: Path, is_anew: bool) -> int:
    """Tries the edits of these crates where something changed, and returns how many failed."""
    sums, before = Sums(), {} if is_anew else kept_in(kept)
    made = {name: sums.with_edits(name, edits) for name, edits in crates.items()}
    new = {name: edits for name, edits in crates.items() if made[name] not in before}
    refused = old = sum(map(len, crates.values())) - sum(map(len, new.values()))
    with tempfile.TemporaryDirectory(prefix="edits-") as room:
        if new:
            copy(Path(room), set(new))
        for name, edits in new.items():
            print(f"{name}: {len(edits)} edits", flush=True)
            count = try_edits(name, edits, Path(room))
            if count == len(edits):
                keep(kept, made[name], count)
            refused += count
            sys.stdout.flush()
    failed = sum(map(len, crates.values())) - refused
    print(f"{refused} refused ({old} of them by an earlier run), {failed} failed")
    return failed


def main():
    words = argparse.ArgumentParser(description=__doc__.split(":")[0])
    words.add_argument("--check", action="store_true", help="prove nothing: do they apply?")
    words.add_argument("--anew", action="store_true", help="try those that did not change, too")
    words.add_argument("--kept", type=Path, default=KEPT, help=f"the file of sums ({KEPT})")
    words.add_argument("crate", nargs="*", help="only the edits of these crates")
    asked = words.parse_args()
    # A run that is ended removes its copy.
    signal.signal(signal.SIGTERM, lambda *_: sys.exit(1))
    found = {folder.name: edits_of(folder) for folder in sorted((TOP / "crates").iterdir())}
    crates = {name: edits for name, edits in found.items() if edits}
    unknown = [name for name in asked.crate if name not in crates]
    if unknown:
        words.error(f"{', '.join(unknown)}: no crate with edits")
    crates = {name: crates[name] for name in asked.crate or crates}
    failed = check(crates)
    if not asked.check and not failed:
        failed = try_all(crates, asked.kept, asked.anew)
    sys.exit(1 if failed else 0)


if __name__ == "__main__":
    main()
