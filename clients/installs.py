"""Cases of a list on a network: rd_install registers, refreshes, keeps and removes devices.

The directory is rd_host at two addresses. What it answers where it should not, devices of a few
lines in this script answer. What is wanted follows from RFC 9176 section 5, RFC 7252, RFC 9175,
RFC 8516 and man/rd_install.1. Where two directories are asked side by side, the order in which they
number registrations is open, so the script compares the set of numbers.
"""

import contextlib
import os
import re
import resource
import shlex
import socket
import subprocess
import sys
import threading
import time
from pathlib import Path

from messages import (ACK, CON, CREATED, ECHO, LOCATION_PATH, RST, UNAUTHORIZED, content, octets)

RELAY = Path(__file__).resolve().parent.parent / "hostile" / "relay.py"

# How many devices the long list has, and the number above which rd_host counts.
DEVICES = 1_000
TOLD = 41

# Codes that messages.py has no name for, and the number of Max-Age (RFC 7252 section 5.10, RFC
# 8516).
TOO_MANY, UNAVAILABLE, BAD_REQUEST, MAX_AGE = 0x9D, 0xA3, 0x80, 14

# Seconds: how long a run of rd_install may take, how long one that gives up may take (RFC 7252
# section 4.8.2), and the lifetime of what is kept.
RUN_LIMIT = 200
GIVES_UP = 110
LIFETIME = 4

# Octets: how much room a run has that is to run out of it, and a list that is longer.
ROOM, LONG_LINE = 32 << 20, 48 << 20

# Lines of a list that are bad, each with its words and with what is said of it.
FAULTS = [
    ("a name in place of an address", [], "coap://example.com/rd?ep=a&base=coap://b", "ask"),
    ("another scheme", [], "http://127.0.0.1/rd?ep=a&base=coap://b", "ask"),
    ("a fragment", [], "coap://127.0.0.1/rd?ep=a&base=coap://b#c", "ask"),
    ("a port that is none", [], "coap://127.0.0.1:70000/rd?ep=a&base=coap://b", "ask"),
    ("links that are too long", [], f"coap://127.0.0.1/rd?ep=a&base=coap://b </{'x' * 1_300}>",
     "ask"),
    ("a segment that is too long", [], f"coap://127.0.0.1/{'x' * 256}?ep=a&base=coap://b", "ask"),
    ("a parameter that is too long", [], f"coap://127.0.0.1/rd?ep={'x' * 253}&base=coap://b",
     "ask"),
    ("a parameter that is no text", [], "coap://127.0.0.1/rd?ep=%FF&base=coap://b", "ask"),
    ("digits that are none", [], "coap://127.0.0.1/rd?ep=a&base=coap://b 0x3c2", "form"),
    ("no base", [], "coap://127.0.0.1/rd?ep=a </a>", "base"),
    ("a link-local directory", [], "coap://[fe80::1]/rd?ep=a&base=coap://b", "zone"),
    ("a link-local directory of IPv4", [], "coap://169.254.1.1/rd?ep=a&base=coap://b", "zone"),
    ("a directory of the other family", ["--from", "127.0.0.1"],
     "coap://[::1]/rd?ep=a&base=coap://b", "family"),
    ("the same from IPv6", ["--from", "::1"], "coap://127.0.0.1/rd?ep=a&base=coap://b", "family"),
]


class Peer:
    """A directory of a few lines: what it answers to each request is a function of its number and
    of its octets."""

    def __init__(self, port: int, answer):
        self.answer, self.count = answer, 0
        self.socket = socket.socket(socket.AF_INET, socket.SOCK_DGRAM)
        self.socket.bind(("127.0.0.1", port))
        self.socket.settimeout(0.1)
        self.is_open = True
        self.thread = threading.Thread(target=self.serve)
        self.thread.start()

    def serve(self):
        """Answers each confirmable request until it is closed."""
        while self.is_open:
            try:
                asked, who = self.socket.recvfrom(4_096)
            except OSError:
                continue
            if asked[0] >> 4 & 3 == CON and asked[1]:
                token = asked[4:4 + (asked[0] & 15)]
                mid = int.from_bytes(asked[2:4], "big")
                kind, code, options, payload = self.answer(self.count, asked)
                self.count += 1
                self.socket.sendto(octets(kind, code, mid, token if code else b"", options,
                                          payload), who)

    def close(self):
        """Ends it."""
        self.is_open = False
        self.thread.join()
        self.socket.close()


def located(number: int):
    """2.01 with the location of a registration."""
    return ACK, CREATED, [(LOCATION_PATH, b"rd"), (LOCATION_PATH, str(number).encode())], b""


def put_off(code: int):
    """What a directory answers that puts each second request off for a second."""
    return lambda count, asked: (located(count) if count % 2 else
                                 (ACK, code, [(MAX_AGE, b"\x01")], b""))


def challenges(count: int, asked: bytes):
    """What a directory answers that challenges what has no Echo (RFC 9175 section 2.3)."""
    value = b"\x01\x02\x03\x04\x05\x06\x07\x08"
    return located(count) if value in asked else (ACK, UNAUTHORIZED, [(ECHO, value)], b"")


def challenges_always(count: int, asked: bytes):
    """What a directory answers that takes no Echo."""
    return ACK, UNAUTHORIZED, [(ECHO, bytes([count]) * 8)], b""


def refuses(count: int, asked: bytes):
    """What a directory answers that takes no links."""
    return ACK, BAD_REQUEST, [], b"links"


def resets(count: int, asked: bytes):
    """What a directory answers that knows no request."""
    return RST, 0, [], b""


# What a directory answers to a registration, and what becomes of it.
ANSWERS = [
    ("4.29 with Max-Age 1, then 2.01 (RFC 8516)", put_off(TOO_MANY), "1 created {}/rd/1", 0),
    ("5.03 with Max-Age 1, then 2.01 (RFC 7252 section 5.9.3.4)", put_off(UNAVAILABLE),
     "1 created {}/rd/1", 0),
    ("a challenge, then 2.01 (RFC 9175 section 2.3)", challenges, "1 created {}/rd/1", 0),
    ("a challenge each time", challenges_always, "1 refused 4.01", 1),
    ("4.00 with its reason", refuses, "1 refused 4.00 links", 1),
    ("a Reset", resets, "1 reset", 1),
]


def line_of(place: int, directory: str, more: str = "") -> str:
    """The line of a device."""
    return f'{directory}/rd?ep=dev{place}&base=coap://[2001:db8::{place:x}]{more} </t>;rt="temp"'


def began(run, words: list[str], lines: list[str]) -> subprocess.Popen:
    """Starts rd_install over a list."""
    process = subprocess.Popen([run.beside("rd_install"), *words], stdin=subprocess.PIPE,
                               stdout=subprocess.PIPE, stderr=subprocess.STDOUT, cwd=run.folder)
    run.started.append(process)
    # It may have ended before it read.
    with contextlib.suppress(BrokenPipeError):
        process.stdin.write("\n".join(lines).encode() + b"\n")
        process.stdin.flush()
    with contextlib.suppress(BrokenPipeError):
        process.stdin.close()
    process.stdin = None
    return process


def ended(process: subprocess.Popen, seconds: float = RUN_LIMIT) -> list[str]:
    """The status of a run that ends by itself, and all that it said."""
    try:
        said, _ = process.communicate(timeout=seconds)
    except subprocess.TimeoutExpired:
        return ["no end"]
    return [f"status {process.returncode}", *said.decode().splitlines()]


def made(run, words: list[str], lines: list[str]) -> list[str]:
    """The status and all that a run over a list says."""
    return ended(began(run, words, lines))


def shown(words: list[str], lines: list[str]) -> str:
    """A run as it is typed."""
    first, more = shlex.quote(lines[0][:100]), " .." if lines[1:] else ""
    return f"echo {first}{more} | {shlex.join(['rd_install', *words])}"


def fails(run, name: str, line: str, words: list[str], wanted: list[str], **how):
    """A case: what a run says whose list, output or memory is another."""
    given = {"stdin": subprocess.DEVNULL, "stdout": subprocess.DEVNULL, **how}
    done = subprocess.run([run.beside("rd_install"), *words], stderr=subprocess.PIPE,
                          cwd=run.folder, check=False, timeout=RUN_LIMIT, **given)
    run.tell(name, line, wanted, [f"status {done.returncode}", *done.stderr.decode().splitlines()])


def has_little_room():
    """Limits the memory of a process."""
    resource.setrlimit(resource.RLIMIT_AS, (ROOM, ROOM))


def case(run, name: str, words: list[str], lines: list[str], wanted: list[str]) -> list[str]:
    """A case: what a run over a list says."""
    came = made(run, words, lines)
    run.tell(name, shown(words, lines), wanted, came)
    return came[1:]


def start(run, after: str, *more: str):
    """Starts rd_host at two addresses, and waits until its sockets are there."""
    port = run.port("server")
    words = ["--listen", f"127.0.0.1:{port}", "--listen", f"[::1]:{port}",
             "--trust", "127.0.0.0/8", "--trust", "::1", *more]
    run.server = run.start([run.beside("rd_host"), *words])
    if not run.server.stderr.readline().startswith(b"rd_host "):
        run.end_ungreeted()
    print(f"rd_host {shlex.join(words)}{after}", flush=True)


def a_long_list(run):
    """1,000 devices at two addresses of one directory."""
    start(run, "", "--begin", str(TOLD))
    port = run.port("server")
    ends = [f"coap://127.0.0.1:{port}", f"coap://[::1]:{port}"]
    lines = [line_of(place, ends[place % 2]) for place in range(DEVICES)]
    came = made(run, ["register"], lines)
    form = re.compile(r"(\d+) created (coap://\S+)/rd/(\d+)")
    parts = [form.fullmatch(line) for line in came[1:]]
    is_whole = all(parts) and [
        (int(each[1]), each[2]) for each in parts
    ] == [(place + 1, ends[place % 2]) for place in range(DEVICES)]
    numbers = sorted(int(each[3]) for each in parts) if is_whole else []
    run.tell(f"a list of {DEVICES} devices at two addresses", shown(["register"], lines),
             ["status 0", "each in its order", "each number once"],
             [came[0], "each in its order" * is_whole,
              "each number once" * (numbers == list(range(TOLD + 1, TOLD + 1 + DEVICES)))])
    run.ask("one of them is found", [], "/rd-lookup/ep?ep=dev57&count=1",
            [content(f'</rd/{parts[57][3]}>;base="coap://[2001:db8::39]";ep="dev57";'
                     'rt="core.rd-ep"')] if is_whole else [])
    case(run, "all are refreshed by what was written", ["refresh"], came[1:],
         ["status 0", *(f"{place + 1} refreshed" for place in range(DEVICES))])
    run.end_server()
    start(run, " (started again)")
    case(run, "a directory that was started again knows none", ["refresh"], came[1:],
         ["status 1", *(f"{place + 1} refused 4.04 registration" for place in range(DEVICES))])
    made(run, ["register"], lines)
    case(run, "all are removed by name", ["remove"], lines,
         ["status 0", *(f"{place + 1} removed" for place in range(DEVICES))])
    run.ask("none is left", [], "/rd-lookup/ep?count=1", [content()])


def by_output(run):
    """A few devices, with comments and empty lines."""
    end = f"coap://127.0.0.1:{run.port('server')}"
    lines = ["# the first floor", line_of(1, end), "", f"  {line_of(2, end)}  ", line_of(3, end)]
    came = made(run, ["register"], lines)
    run.tell("comments and empty lines are passed over", shown(["register"], lines),
             ["status", "2", "4", "5"], [each.partition(" ")[0] for each in came])
    case(run, "removed by what was written", ["remove"], came[1:],
         ["status 0", "1 removed", "2 removed", "3 removed"])
    case(run, "removed already", ["remove"], came[1:2],
         ["status 1", "1 refused 4.04 registration"])
    case(run, "nothing to do", ["register"], ["# none"], ["status 0"])


def kept(run):
    """What is kept outlives its lifetime and its directory."""
    end = f"coap://127.0.0.1:{run.port('server')}"
    lines = [line_of(place, end, f"&lt={LIFETIME}") for place in range(1, 6)]
    keeping = began(run, ["keep"], lines)
    time.sleep(3 * LIFETIME)
    run.ask("what is kept outlives its lifetime", [], "/rd-lookup/ep?ep=dev5&count=1",
            listing(run, 5))
    run.end_server()
    start(run, " (started again)")
    time.sleep(2 * LIFETIME)
    keeping.terminate()
    came = keeping.communicate()[0].decode().splitlines()
    twice = [line for line in came if re.fullmatch(r"\d created \S+/rd/\d+", line)]
    run.tell("where the directory was started again, all are registered again",
             shown(["keep"], lines), ["1 2 3 4 5", "1 2 3 4 5", "nothing else"],
             [" ".join(sorted(line[0] for line in twice[:5])),
              " ".join(sorted(line[0] for line in twice[5:])),
              "nothing else" if len(twice) == len(came) == 10 else " | ".join(came)])


def listing(run, place: int) -> list[str]:
    """The listing of a kept device, by the number that the directory gave it."""
    words = run.words([], f"/rd-lookup/ep?ep=dev{place}&count=1", "")
    number = re.search(r"</rd/(\d+)>", run.output(words))
    return [content(f'</rd/{number[1] if number else "none"}>;'
                    f'base="coap://[2001:db8::{place:x}]";ep="dev{place}";rt="core.rd-ep"')]


def answers(run):
    """Directories that answer otherwise."""
    for place, (name, answer, wanted, status) in enumerate(ANSWERS):
        port = run.port(f"peer{place}")
        peer = Peer(port, answer)
        try:
            end = f"coap://127.0.0.1:{port}"
            case(run, name, ["register"], [line_of(1, end)],
                 [f"status {status}", wanted.format(end)])
        finally:
            peer.close()


def lossy(run):
    """A directory of which every second answer is lost."""
    port = run.port("relay")
    run.start([sys.executable, str(RELAY), "--fault", "lose=2", "--from", str(port), "--to",
               str(run.port("server"))])
    time.sleep(1)
    lines = [line_of(place, f"coap://127.0.0.1:{port}") for place in range(1, 5)]
    came = made(run, ["register"], lines)
    run.tell("every second answer is lost", shown(["register"], lines),
             ["status 0", *(f"{place} created" for place in range(1, 5))],
             [came[0], *(each.rpartition(" ")[0] for each in came[1:])])


def faults(run):
    """The faults of a list, and of words."""
    for name, words, line, why in FAULTS:
        case(run, name, [*words, "register"], ["# a list", line], ["status 4", f"line 2: {why}"])
    case(run, "a line past the most lines", ["register"], ["#"] * 4_096 + ["#"],
         ["status 4", "line 4097: many"])
    case(run, "a location with a query", ["refresh"], ["1 created coap://127.0.0.1/rd/1?a"],
         ["status 4", "line 1: ask"])
    case(run, "a location without a path", ["remove"], ["coap://127.0.0.1"],
         ["status 4", "line 1: ask"])
    case(run, "no base for what is kept", ["keep"], ["coap://127.0.0.1/rd?ep=a"],
         ["status 4", "line 1: base"])
    with contextlib.ExitStack() as opened:
        full = opened.enter_context(open("/dev/full", "wb"))
        listed = opened.enter_context((Path(run.folder) / "listed").open("w+b"))
        folder = os.open(run.folder, os.O_RDONLY)
        opened.callback(os.close, folder)
        fails(run, "a list that cannot be read", "rd_install register < .", ["register"],
              ["status 4", "standard input: it cannot be read"], stdin=folder)
        listed.write(line_of(1, f"coap://127.0.0.1:{run.port('server')}").encode() + b"\n")
        listed.seek(0)
        fails(run, "an output that cannot be written", "rd_install register < listed > /dev/full",
              ["register"], ["status 2", "standard output: it cannot be written"],
              stdin=listed, stdout=full)
        listed.seek(0)
        listed.write(b"#" * LONG_LINE)
        listed.seek(0)
        fails(run, "a list for which the memory is too small",
              f"ulimit -v {ROOM >> 10}; rd_install register < listed", ["register"],
              ["status 5", "memory: it ran out"], stdin=listed, preexec_fn=has_little_room)
    usage = "usage: rd_install [--from ADDRESS] register|refresh|remove|keep < LIST"
    for words in ([], ["registers"], ["--from", "register"], ["--from", "192.0.2", "register"]):
        case(run, "arguments that it does not accept", words, [""], ["status 3", usage])
    case(run, "an address that is not of this machine", ["--from", "192.0.2.1", "register"], [""],
         ["status 6", "--from: not an address of this machine"])


def run(run_of_cases):
    """Runs the cases."""
    run_of_cases.group("A list on a network (RFC 9176 sections 5 and 5.3)")
    nobody = f"coap://127.0.0.1:{run_of_cases.port('nobody')}"
    start(run_of_cases, "", "--begin", str(TOLD))
    there = f"coap://127.0.0.1:{run_of_cases.port('server')}"
    lines = [line_of(1, there), line_of(2, nobody), line_of(3, there), line_of(4, nobody)]
    giving_up = began(run_of_cases, ["register"], lines)
    time.sleep(2)
    run_of_cases.end_server()
    a_long_list(run_of_cases)
    by_output(run_of_cases)
    kept(run_of_cases)
    answers(run_of_cases)
    lossy(run_of_cases)
    faults(run_of_cases)
    run_of_cases.tell("a directory that is not there beside one that is",
                      shown(["register"], lines),
                      ["status 1", f"1 created {there}/rd/{TOLD + 1}", "2 gave up",
                       f"3 created {there}/rd/{TOLD + 2}", "4 unreached"],
                      ended(giving_up, GIVES_UP))
    run_of_cases.end_server()
