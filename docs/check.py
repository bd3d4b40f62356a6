#!/usr/bin/env python3
"""Checks what the pages say against the repository: `docs/check.py [--mend] [--sources] [FILE ..]`.

It reads the files that git lists (all files, if git is missing), runs no program of the project,
and needs only the standard library. It prints each finding as `FILE:LINE: what`, then a count, and
exits with 1 if there is a finding. With FILE it prints the findings of these files only. With
--mend it first corrects numbers of lines in the pages. With --sources it also finds long lines in
.rt and .antt files. `make examples` does not give that option yet: a change of such a line, even of
a comment, makes the prover check its crate and all crates above it again.

It finds, in every page (*.md):

- a link, or a path of this repository, to a file that does not exist;
- a name in backticks that occurs in no code, if the span is one identifier, call or path of
  identifiers; and in "`name` of `crate`", a name that this crate does not have. ALLOWED has the
  names of other programs, of standards and of examples;
- a figure that a table of bench/figures, or a number of lines, contradicts: in tables with series
  as rows and numbers of registrations as columns, in tables with a column "lines", in
  "`file` (N lines)" and "(`file`, N lines)", and in FIGURES;
- a piece of source, in a block after "`crate` (`src/file.rt`)", that the files named do not have. A
  line ".." divides it; comments and clauses may be missing, and layout is not compared;
- a sentence of more than 40 words (in man pages, too);
- a line of more than 100 columns outside tables and code. In .py files, and with --sources in .rt
  and .antt files, this applies to every line, unless one word of more than 60 characters makes it
  long.
"""
import glob
import os
import re
import subprocess
import sys

ROOT = os.path.dirname(os.path.dirname(os.path.abspath(__file__)))
COLUMNS = 100
WORDS = 40

# Names in backticks that no code of the repository has: other programs and their words, terms of
# standards, and names that a page uses as examples.
ALLOWED = set("""
aiocoap-rd diff perf sysctl ulimit rmem_max
needs_drop chunks_are_full string_vec Utf8Error MODULE
""".split())

# Figures in sentences: the page, the sentence with the number in parentheses, the table of
# bench/figures with its series and its place, or a pattern of files whose lines are counted.
TRACES, MEMORY = "instructions-by-registrations", "memory-by-registrations"
FIGURES = [
    ("docs/TRUST.md", r"about ([\d,]+) lines of proofs", "crates/*/proofs/**/*.antt"),
    ("docs/TRUST.md", r"Wrong\*`, about ([\d,]+) lines", "crates/headline_law/proofs/Wrong*.antt"),
    ("docs/SCALE.md", r"update of a lease takes ([\d,]+) inst", TRACES, "update of a lease", 4096),
    ("docs/SCALE.md", r"([\d.]+) MiB with one link", MEMORY, "rd_serve, one link each", 4096),
    ("docs/PROFILE.md", r"each they take ([\d.]+) MiB", MEMORY, "rd_serve, one link each", 4096),
    ("docs/EXTENDING.md", r"has ([\d,]+) lines of code", "crates/simple_registration/src/**/*.rt"),
    ("docs/EXTENDING.md", r"clauses, ([\d,]+) of d", "crates/simple_registration/specs/**/*.antt"),
    ("docs/EXTENDING.md", r"and ([\d,]+) of proofs", "crates/simple_registration/proofs/**/*.antt"),
]

findings, corrections = [], []


def find(path, line, what):
    """Notes a finding."""
    findings.append((os.path.relpath(path, ROOT), line, what))


def listed():
    """Returns the files of the repository, as absolute paths."""
    try:
        names = subprocess.run(["git", "ls-files", "-z", "-co", "--exclude-standard"], cwd=ROOT,
                               capture_output=True, check=True).stdout.decode().split("\0")
        paths = [os.path.join(ROOT, name) for name in names if name]
    except (OSError, subprocess.CalledProcessError):
        paths = glob.glob(os.path.join(ROOT, "**", "*"), recursive=True)
    return sorted(path for path in paths if os.path.isfile(path))


def text_of(path):
    """Returns the text of a file, or an empty one if it is no text."""
    try:
        with open(path, encoding="utf-8") as file:
            return file.read()
    except UnicodeDecodeError:
        return ""


# --- Pages ----------------------------------------------------------------------------------------

def kinds(lines):
    """Returns the kind of each line of a page: prose, table, code or blank."""
    found, fenced = [], False
    for at, line in enumerate(lines):
        if line.lstrip().startswith("```"):
            fenced = not fenced
            found.append("code")
        elif fenced:
            found.append("code")
        elif not line.strip():
            found.append("blank")
        elif line.startswith("    ") and (at == 0 or found[-1] in ("blank", "code")) \
                and not continues(lines, at):
            found.append("code")
        elif line.lstrip().startswith("|"):
            found.append("table")
        else:
            found.append("prose")
    for at in range(len(found)):  # blank lines within code are code
        if found[at] == "blank" and 0 < at < len(found) - 1 and found[at - 1] == "code" \
                and lines[at + 1].startswith("    "):
            found[at] = "code"
    return found


def continues(lines, at):
    """Returns whether an indented line after a blank one belongs to an item of a list."""
    for line in reversed(lines[:at]):
        if re.match(r"\s*([-*]|\d+\.) ", line):
            return not lines[at].startswith("      ")
        if line.strip() and not line.startswith(" "):
            return False
    return False


def paragraphs(lines, of):
    """Yields each paragraph, item or cell of a page: its first line's number and its text."""
    text, first = [], 0
    for at, (line, kind) in enumerate(zip(lines, of)):
        begins = re.match(r"\s*([-*]|\d+\.) |#+ |\s*\|", line)
        if kind != "prose" or begins:
            if text:
                yield first, " ".join(text)
            text = []
        if kind == "table":
            for cell in re.split(r"(?<!\\)\||; ", line.strip().strip("|")):
                yield at + 1, cell.strip()
        elif kind == "prose":
            if not text:
                first = at + 1
            text.append(re.sub(r"^([-*]|\d+\.|#+) ", "", line.strip()))
    if text:
        yield first, " ".join(text)


TOPS = "docs|crates|packaging|man|clients|examples|hostile|bench"
SPAN = re.compile(r"`[^`]*`")
END = re.compile(rf"(?<=[.!?])[)\"*_]*\s+(?=[(\"*_`\[]*(?:[A-Z0-9`\[]|(?:{TOPS})/))")


def sentences(text):
    """Yields the sentences of a paragraph. A span of code counts as one word."""
    text = SPAN.sub("`x`", re.sub(r"\]\([^)]*\)", "]", text))
    text = re.sub(r"\b(e\.g|i\.e|cf|etc|vs)\.", r"\1", text)
    yield from END.split(text)


def check_sentences(path, parts):
    """Finds sentences that are too long."""
    for line, text in parts:
        for sentence in sentences(text):
            words = [word for word in sentence.split() if re.search(r"\w", word)]
            if len(words) > WORDS:
                find(path, line, f"a sentence of {len(words)} words: "
                     f"{' '.join(sentence.split()[:8])} ..")


def check_columns(path, lines, of=None):
    """Finds lines that are too long, outside tables and code of a page."""
    for at, line in enumerate(lines):
        if len(line) > COLUMNS and (of is None or of[at] in ("prose", "blank")) \
                and not re.search(r"\S{60}", line):
            find(path, at + 1, f"a line of {len(line)} columns")


LINK = re.compile(r"(?<!!)\[[^\]]*\]\(([^)\s]+)\)|!\[[^\]]*\]\(([^)\s]+)\)")
PATH = re.compile(rf"(?<![\w./-])(?:{TOPS})/[\w./*-]*[\w*]")


def check_links(path, lines, of):
    """Finds links and paths of this repository that lead to no file."""
    for at, line in enumerate(lines):
        if of[at] != "code":
            for match in LINK.finditer(line):
                target = (match.group(1) or match.group(2)).split("#")[0]
                if re.match(r"[a-z]+:", target) or not target:
                    continue
                if not os.path.exists(os.path.join(os.path.dirname(path), target)):
                    find(path, at + 1, f"a dead link: {target}")
        for match in PATH.finditer(LINK.sub("", line)):
            name = match.group(0)
            if re.search(r"\b(NAME|GROUP|FILE)\b", name) or name in ALLOWED:
                continue
            if not any(glob.glob(os.path.join(ROOT, name + ending))
                       for ending in ("", ".antt", ".rt")):
                find(path, at + 1, f"no such file: {name}")


# --- Names ----------------------------------------------------------------------------------------

NAME = re.compile(r"[A-Za-z_][A-Za-z0-9_]*(?:-[A-Za-z][A-Za-z0-9_]*)*")
CALL = re.compile(r"^[A-Za-z_][\w-]*(?:(?:::|\.)[A-Za-z_][\w-]*)*(?:\(.*\))?$")
CODE = (".rt", ".antt", ".py", ".c", ".rs", ".sh", ".edit", ".service", ".case", ".tsv", ".toml")


def names_of(paths):
    """Returns the names that occur in code, and those of each crate, comments left out."""
    every, by_crate = set(), {}
    for path in paths:
        name = os.path.relpath(path, ROOT)
        parts = name.split(os.sep)
        words = set()
        for part in parts:
            words.add(part)
            words.add(part.split(".")[0])
        if path.endswith((".rt", ".antt", ".edit")):
            code = re.sub(r"//.*", "", text_of(path)) if path.endswith(".rt") else text_of(path)
            code = re.sub(r"(?m)^\s*--.*$", "", code)
            words.update(NAME.findall(code))
            words.update(re.findall(r"[A-Za-z_]\w*", code))
        elif path.endswith(CODE) or parts[-1] in ("Makefile", "crates.txt", "stdin", "args"):
            words.update(re.findall(r"[A-Za-z_]\w*", text_of(path)))
        elif parts[0] == "man":
            words.update(re.findall(r"[A-Za-z_]\w*", text_of(path)))
        every |= words
        if parts[0] == "crates" and len(parts) > 2:
            by_crate.setdefault(parts[1], set()).update(words)
    return every, by_crate


def check_names(path, lines, of, every, by_crate):
    """Finds names in backticks that no crate has, and names that the crate beside them lacks."""
    for at, line in enumerate(lines):
        if of[at] == "code":
            continue
        for span in re.findall(r"`([^`]+)`", line):
            if not CALL.match(span) or span in ALLOWED:
                continue
            for word in re.split(r"::|\.", re.sub(r"\(.*\)$", "", span)):
                if word not in every and word not in ALLOWED and word.split("-")[0] not in every:
                    find(path, at + 1, f"no code has the name `{word}`")
        for name, crate in re.findall(r"`([A-Za-z_]\w*)` of `?([a-z_]+)`?", line):
            if crate in by_crate and name not in by_crate[crate] and name not in ALLOWED:
                find(path, at + 1, f"{crate} does not have the name `{name}`")


# --- Figures --------------------------------------------------------------------------------------

COUNTED = re.compile(r"`([\w/.*]+)`(?:\s\(|,\s)([\d,]+)\slines\)")


def number(text):
    """Returns the number that a page prints, with commas between thousands."""
    return float(text.replace(",", ""))


def tables():
    """Returns the tables of bench/figures: a figure for each picture, series and place."""
    found = {}
    for path in glob.glob(os.path.join(ROOT, "bench", "figures", "*.tsv")):
        for line in text_of(path).splitlines():
            fields = line.split("\t")
            if len(fields) == 4:
                found[fields[0], fields[1], int(fields[2])] = float(fields[3])
    return found


def lines_in(pattern):
    """Returns how many lines the files of a pattern have, or None if there is no file."""
    paths = []
    for name in (pattern, pattern + ".antt", pattern + ".rt"):
        for path in glob.glob(os.path.join(ROOT, name), recursive=True):
            if os.path.isdir(path):
                paths += [p for e in ("antt", "rt")
                          for p in glob.glob(os.path.join(path, "**", "*." + e), recursive=True)]
            else:
                paths.append(path)
    return sum(text_of(path).count("\n") for path in paths) if paths else None


def same(printed, value, about=False):
    """Returns whether a page prints a value, rounded to the digits that it prints.

    If the page says "about", zeros at the end are not digits.
    """
    digits = len(printed.partition(".")[2])
    if about:
        plain = printed.replace(",", "")
        digits = len(plain.rstrip("0")) - len(plain)
    return abs(number(printed) - value) <= 0.5 * 10 ** -digits + 1e-9


def check_figures(path, lines, measured):
    """Finds figures that a table of bench/figures or a count of lines contradicts."""
    page = os.path.relpath(path, ROOT)
    header = []
    for at, line in enumerate(lines):
        cells = [cell.strip() for cell in line.strip().strip("|").split("|")]
        if line.startswith("|") and not lines[at - 1].startswith("|"):
            header = cells
        if line.startswith("|") and len(cells) == len(header):
            for head, cell in zip(header[1:], cells[1:]):
                place = re.search(r"\d[\d,]*", head)
                printed = cell.split()[0] if cell else ""
                for picture in (TRACES, MEMORY):
                    value = place and measured.get((picture, cells[0].replace("`", ""),
                                                    int(number(place.group(0)))))
                    if value and not same(printed, value):
                        find(path, at + 1, f"{printed}, but the table has {value}")
        if header[1:2] == ["lines"] and len(cells) == 3 and re.fullmatch(r"[\d,]+", cells[1]):
            counted(path, at + 1, spans(cells[0]), cells[1])
    text = "\n".join(lines)
    for match in COUNTED.finditer(text):
        at = text.count("\n", 0, match.start(2)) + 1
        counted(path, at, [match.group(1)], match.group(2))
    for where, pattern, *source in FIGURES:
        if where != page:
            continue
        match = re.search(pattern.replace(" ", r"\s+"), text)
        if not match:
            find(path, 1, f"no such sentence: {pattern}")
            continue
        at = text.count("\n", 0, match.start(1)) + 1
        value = lines_in(source[0]) if len(source) == 1 else measured.get(tuple(source))
        if value is None:
            find(path, at, f"no such source: {source}")
        elif not same(match.group(1), value, "about" in pattern):
            find(path, at, f"{match.group(1)}, but {source[0]} has {value:,}")
            if len(source) == 1 and "about" not in pattern:
                corrections.append((path, at, match.group(1), f"{value:,}"))


def spans(cell):
    """Returns the file names of a cell: the later ones are beside the first."""
    return re.findall(r"`([\w/]+)`", cell)


def counted(path, line, names, printed):
    """Compares a printed number of lines with the files: below crates/, or beside the first."""
    total, beside = 0, ""
    for name in names:
        if "/" in name:
            beside = name.rsplit("/", 1)[0] + "/"
        else:
            name = (beside or "journal_model/specs/") + name
        here = lines_in("crates/" + name)
        if here is None:
            here = lines_in(name)
        if here is None:
            return find(path, line, f"no such file: {name}")
        total += here
    if not same(printed, total):
        find(path, line, f"{printed} lines, but {', '.join(names)} has {total:,}")
        corrections.append((path, line, printed, f"{total:,}"))
    return None


def mend():
    """Corrects the numbers of lines in the pages."""
    for path, at, printed, value in corrections:
        lines = text_of(path).split("\n")
        lines[at - 1] = re.sub(rf"(?<![\d,]){printed}(?![\d,])", value, lines[at - 1], count=1)
        with open(path, "w", encoding="utf-8") as file:
            file.write("\n".join(lines))


# --- Pieces of source -----------------------------------------------------------------------------

PIECE = re.compile(r"`(\w+)` \(`src/[\w/]+\.rt`(?:, `src/[\w/]+\.rt`)*")
CLAUSE = re.compile(r"\s*(requires|ensures|decreases|invariant)\b")


def check_pieces(path, lines):
    """Finds pieces of source that the file that they are from does not have."""
    for at, line in enumerate(lines):
        if not line.startswith("```rust"):
            continue
        above = at - 1
        while above > 0 and not (lines[above].strip() and not lines[above - 1].strip()):
            above -= 1
        named = PIECE.search(" ".join(lines[above:at]))
        if not named:
            continue
        crate, paths = named.group(1), re.findall(r"src/[\w/]+\.rt", named.group(0))
        files = [f"{crate}/{file}" for file in paths]
        code, name = "", ", ".join(files)
        for file in files:
            try:
                code += text_of(os.path.join(ROOT, "crates", file)) + "\n"
            except OSError:
                find(path, at + 1, f"no such file: crates/{file}")
        whole, bare = flat(code), flat(without_clauses(code))
        piece = "\n".join(lines[at + 1:lines.index("```", at)]) if code else ""
        for part in re.split(r"(?m)^\s*\.\.$", piece):
            if flat(part) not in whole and flat(part) not in bare:
                missing = [one for one in part.splitlines()
                           if flat(one) not in whole and flat(one) not in bare]
                first = (missing or part.strip().splitlines())[0].strip()
                find(path, at + 1, f"{name} does not have: {first}")
                break


def without_clauses(code):
    """Returns code without the clauses and attributes of its functions."""
    kept, skips = [], False
    for line in re.sub(r"(?ms)^ *#\[.*?\]$\n", "", code).splitlines():
        if CLAUSE.match(line):
            skips = True
        elif line.strip() in ("{", "{}", ""):
            skips = False
        if not skips:
            kept.append(line)
    return "\n".join(kept)


def flat(code):
    """Returns code without comments, layout, and commas at the ends of lists."""
    code = re.sub(r"\s+", " ", re.sub(r"//[^\n]*", "", code))
    code = re.sub(r" ?([(){}\[\],]) ?", r"\1", code)
    return re.sub(r",([)}\]])", r"\1", code).strip()


# --- All of it ------------------------------------------------------------------------------------

def manual(lines):
    """Returns the paragraphs of a manual page, without its macros."""
    text, first, found = [], 0, []
    for at, line in enumerate(lines):
        if re.match(r"\.(Pp|It|Bl|El|Bd|Ed|Dl|Sh|Ss|Nd|Dd|Dt|Os)\b", line) or line == "":
            if text:
                found.append((first, " ".join(text)))
            text = []
            continue
        if not text:
            first = at + 1
        text.append(re.sub(r"^\.[A-Z][a-z] ?|\b[A-Z][a-z] (?=\W)", "", line))
    return found + ([(first, " ".join(text))] if text else [])


def main():
    """Checks all files, and prints what was found."""
    words = sys.argv[1:]
    columned = (".py",)
    if "--sources" in words:
        words.remove("--sources")
        columned = (".rt", ".antt", ".py")
    paths = listed()
    every, by_crate = names_of(paths)
    measured = tables()
    for path in paths:
        if path.endswith(".md"):
            lines = text_of(path).splitlines()
            of = kinds(lines)
            check_links(path, lines, of)
            check_names(path, lines, of, every, by_crate)
            check_figures(path, lines, measured)
            check_pieces(path, lines)
            check_sentences(path, list(paragraphs(lines, of)))
            check_columns(path, lines, of)
        elif path.endswith(".1"):
            check_sentences(path, manual(text_of(path).splitlines()))
        elif path.endswith(columned):
            check_columns(path, text_of(path).splitlines())
    if "--mend" in words:
        words.remove("--mend")
        mend()
    wanted = {os.path.relpath(os.path.abspath(name), ROOT) for name in words}
    shown = sorted({one for one in findings if not wanted or one[0] in wanted})
    for path, line, what in shown:
        print(f"{path}:{line}: {what}")
    print(f"{len(shown)} findings" if len(shown) != 1 else "1 finding")
    return 1 if shown else 0


if __name__ == "__main__":
    sys.exit(main())
