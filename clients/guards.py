"""Cases of what rd_host says at its start and its end, and of what it keeps from the directory.

What is wanted follows from man/rd_host.1, RFC 8516 (4.29 Too Many Requests) and RFC 7252. Each
source is an address of 127.0.0.0/8.
"""

import contextlib
import os
import select
import shlex
import socket
import subprocess
import time
from collections import Counter

from messages import (ACK, BLOCK1, BLOCK2, CON, GET, NON, OBSERVE, POST, octets, path, query,
                      received)

# The least code of a refusal (RFC 7252 section 5.9), and 4.29 (RFC 8516 section 3).
BAD_REQUEST, TOO_MANY = 0x80, 0x9D

# The shares of the server of these cases, in writes and in lookups, and how many query options a
# lookup may have.
SHARE, LOOKUPS, CRITERIA = 8, 12, 4

# How long no line is said after one, in seconds, and how much longer these cases wait.
PAUSE, SPARE = 60, 5

# What each answer counts as in the line, and each request to which nothing comes.
COUNTED = {"2.01": "registered", "2.05": "found", "4.29 Max-Age": "4.29", "nothing": "dropped"}

# The names that stand in each line.
NAMES = ["heard", "answered", "ignored", "dropped", "registered", "updated", "removed", "found",
         "notified"]

# How many first blocks and how many observations a source may send in a window, and how long a
# window is, in seconds.
BEGINNINGS, OBSERVATIONS, WINDOW = 16, 64, 247

# An address that no machine has (RFC 5737).
FOREIGN = "192.0.2.7"

# What a shell does in a network of its own before it starts a program: that network has loopback
# and no IPv6.
WITHOUT_V6 = """
ip link set lo up || exit 1
off=/proc/sys/net/ipv6/conf/all/disable_ipv6
[ ! -e "$off" ] || echo 1 > "$off" || exit 1
exec "$0" "$@"
"""

TOKEN = b"\xd1\xd2"

# What was sent to the server of these cases, by the names of its line.
SENT = Counter()


class Source:
    """A socket at an address of loopback, which sends requests under new Message IDs."""

    def __init__(self, run, opened, host: str):
        self.asking = opened.enter_context(socket.socket(socket.AF_INET, socket.SOCK_DGRAM))
        self.asking.bind((host, 0))
        self.asking.connect(("127.0.0.1", run.port("server")))
        self.mid = 0

    def sends(self, datagram: bytes, seconds: float = 5) -> str:
        """What comes of a datagram, which is counted."""
        came = self.comes(datagram, seconds)
        SENT["heard"] += 1
        SENT["ignored" if came == "nothing" else "answered"] += 1
        SENT[COUNTED.get(came, came.replace(" ", "-"))] += 1
        return came

    def comes(self, datagram: bytes, seconds: float) -> str:
        """What comes of a datagram: its code, where its type, Message ID and token are those of an
        answer to it; and the word of a refusal, or whether Max-Age is within a window."""
        self.asking.settimeout(seconds)
        self.asking.send(datagram)
        for each in received(self.asking):
            size = each[0] & 15
            same = each[0] >> 4 & 3 == ACK and each[2:4] == datagram[2:4] \
                and each[4:4 + size] == datagram[4:4 + (datagram[0] & 15)]
            code = f"{each[1] >> 5}.{each[1] & 31:02}" if same else "another"
            rest = each[4 + size:]
            if each[1] == TOO_MANY:
                is_age = rest[:2] == b"\xd1\x01" and len(rest) == 3 and 1 <= rest[2] <= WINDOW
                return f"{code} Max-Age" if is_age else f"{code} {rest.hex()}"
            word = rest[1:].decode() if each[1] >= BAD_REQUEST and rest[:1] == b"\xff" else ""
            return f"{code} {word}".rstrip()
        return "nothing"

    def asks(self, code: int, options: list, kind: int = CON, seconds: float = 5) -> str:
        """What comes of a request under the next Message ID."""
        self.mid += 1
        return self.sends(octets(kind, code, self.mid, TOKEN, options), seconds)

    def registers(self, name: str, kind: int = CON, seconds: float = 5) -> str:
        """What comes of a registration (RFC 9176 section 5)."""
        return self.asks(POST, [*path("rd"), *query(f"ep={name}")], kind, seconds)

    def looks(self, criteria: int) -> str:
        """What comes of a lookup with so many query options (section 6)."""
        return self.asks(GET, [*path("rd-lookup", "ep"), *query(*["ep=none"] * criteria)])


def ended(run, name: str, words: list[str], wanted: list[str]):
    """A case: the status with which rd_host ends, and what it says."""
    done = subprocess.run([run.beside("rd_host"), *words], stdin=subprocess.DEVNULL,
                          stdout=subprocess.PIPE, stderr=subprocess.PIPE, timeout=5, check=False)
    said = (done.stderr + done.stdout).decode().splitlines()
    run.tell(name, shlex.join(["rd_host", *words]), wanted, [f"status {done.returncode}", *said])


def ends(run):
    """The ways in which it does not start."""
    taken = f"127.0.0.1:{run.port('server')}"
    ended(run, "a port that is taken", ["--listen", taken],
          ["status 6", f"{taken}: address already in use"])
    ended(run, "an address of another machine", ["--listen", f"{FOREIGN}:5683"],
          ["status 6", f"{FOREIGN}:5683: not an address of this machine"])
    ended(run, "a wrong address", ["--listen", "localhost"],
          ["status 3", '--listen: "localhost" is no address; give one as 192.0.2.1:5683 or '
           "[2001:db8::1]:5683"])
    ended(run, "an address with a zone", ["--listen=[fe80::1%eth0]:5683"],
          ["status 3", '--listen: "[fe80::1%eth0]:5683" has a zone, and zones are not served; '
           "give an address without one"])
    ended(run, "a wrong number", ["--listen", taken, "--share=4097"],
          ["status 3", '--share: "4097" is no number from 0 to 4096'])
    ended(run, "a wrong network", ["--listen", taken, "--allow", "10.0.0.0/33"],
          ["status 3", '--allow: "10.0.0.0/33" is no network; give one as 192.0.2.0/24 or '
           "2001:db8::/32"])
    ended(run, "a number that comes twice", ["--listen", taken, "--turns=1", "--turns=2"],
          ["status 3", "--turns: it is given twice"])
    ended(run, "a word without a value that comes twice", ["--quiet", "--quiet"],
          ["status 3", "--quiet: it is given twice"])
    ended(run, "another word", ["--listen", taken, "--quick"],
          ["status 3", "--quick: no option of rd_host (--help lists them)"])


def starts(run):
    """What it takes, and what it does by default."""
    brief = ["--workers=1", "--turns=1", "--begin=41"]
    line = "rd_host 0.1.0: listen={} workers=1 share=1024 criteria=16 begin=41"
    served = "served 0 0 0"
    ended(run, "no address", brief,
          ["status 0", line.format("[::1]:5683,127.0.0.1:5683"), served])
    port = run.port("spelled")
    ended(run, "another spelling of an address", ["--listen", f"[0:0::0001]:{port}", *brief],
          ["status 0", line.format(f"[::1]:{port}"), served])


def outside(words: list[str]) -> list[str]:
    """The words of a program in a network of its own that has no IPv6."""
    as_root = [] if os.geteuid() == 0 else ["--map-root-user"]
    return ["unshare", "--net", *as_root, "sh", "-c", WITHOUT_V6, *words]


def beside(process: subprocess.Popen, words: list[str]) -> list[str]:
    """The words of a program in the network of a process."""
    as_root = [] if os.geteuid() == 0 else ["--user", "--preserve-credentials"]
    return ["nsenter", "--target", str(process.pid), "--net", *as_root, *words]


def why_not(words: list[str]) -> str:
    """Why this system does not run a program; nothing where it does."""
    try:
        done = subprocess.run(words, stdin=subprocess.DEVNULL, stdout=subprocess.DEVNULL,
                              stderr=subprocess.PIPE, text=True, timeout=5, check=False)
    except (OSError, subprocess.TimeoutExpired) as error:
        return str(error)
    return done.stderr.strip() or "it fails" if done.returncode else ""


def without_v6(run, name: str, words: list[str], wanted: list[str], scheme: str):
    """A case: what rd_host says at its start on a host without IPv6, and what it then answers."""
    words = ["--workers=1", "--begin=41", *words]
    process = run.start(outside([run.beside("rd_host"), *words]))
    said = []
    for line in process.stderr:
        said.append(line.decode().strip())
        if said[-1].startswith("rd_host "):
            break
    uri = f"{scheme}://127.0.0.1/.well-known/core?rt=core.rd"
    client = subprocess.run(beside(process, [run.client, "-B", "5", uri]),
                            stdin=subprocess.DEVNULL, stdout=subprocess.PIPE, timeout=10,
                            check=False)
    process.kill()
    run.tell(name, shlex.join(["rd_host", *words]), [*wanted, '</rd>;rt="core.rd";ct=40'],
             [*said, client.stdout.decode().strip()])


def serves_v4(run):
    """What it does on a host without IPv6; skipped where the system makes no network."""
    if why := why_not(outside(["true"])):
        print(f"skipped  a host without IPv6: {why}", flush=True)
        return
    left_out = "[::1]:5683: left out, since this machine has no IPv6"
    line = "rd_host 0.1.0: listen=127.0.0.1:5683 workers=1{} share=1024 criteria=16 begin=41"
    without_v6(run, "a host without IPv6", [], [left_out, line.format("")], "coap")
    without_v6(run, "the same with an address of IPv6 for connections, too",
               ["--tcp=[::1]:5683", "--tcp=127.0.0.1:5683", "--connections=2"],
               [left_out, left_out, line.format(" tcp=127.0.0.1:5683 connections=2")], "coap+tcp")
    without_v6(run, "the same with no other address for connections", ["--tcp=[::1]:5683"],
               [left_out, left_out, "--tcp: no address is left, so no connections are accepted",
                line.format("")], "coap")


def shares(run, opened):
    """What a source may send in a window, and what is answered past that."""
    one, again = Source(run, opened, "127.0.0.2"), Source(run, opened, "127.0.0.2")
    first = [one.registers(f"node{place}") for place in range(SHARE)]
    line = f"(octets) {SHARE} registrations from 127.0.0.2"
    run.tell("the guard lets the writes of a share pass", line, ["2.01"] * SHARE, first)
    run.tell("one more is answered 4.29 with Max-Age", line, ["4.29 Max-Age"],
             [one.registers("more")])
    run.tell("from another port of the address, too", line, ["4.29 Max-Age"],
             [again.registers("other")])
    run.tell("a NON past the share gets nothing", line, ["nothing"],
             [one.registers("non", NON, 0.3)])
    repeated = octets(CON, POST, 1, TOKEN, [*path("rd"), *query("ep=node0")])
    run.tell("a retransmission of one that passed is answered again", line, ["2.01"],
             [one.sends(repeated)])
    run.tell("lookups are no writes", line, ["2.05"], [one.looks(1)])
    run.tell("another address has a share of its own", "(octets) from 127.0.0.3", ["2.01"],
             [Source(run, opened, "127.0.0.3").registers("third")])
    trusted = Source(run, opened, "127.0.9.9")
    run.tell("a network that is trusted has none", "(octets) from 127.0.9.9", ["2.01"] * 2 * SHARE,
             [trusted.registers(f"trusted{place}") for place in range(2 * SHARE)])
    block = [*path("rd"), *query("ep=long"), (BLOCK1, b"\x0a")]
    begins = Source(run, opened, "127.0.0.4")
    came = [begins.asks(POST, block) for _ in range(BEGINNINGS + 1)]
    run.tell("first blocks of uploads have a share", "(octets) from 127.0.0.4",
             ["4.29 Max-Age", str(BEGINNINGS)],
             [came[-1], str(sum("4.29" not in each for each in came))])
    watches = Source(run, opened, "127.0.0.5")
    asked = [(OBSERVE, b""), *path("rd-lookup", "ep"), *query("ep=none")]
    came = [watches.asks(GET, asked) for _ in range(OBSERVATIONS + 1)]
    run.tell("requests for observations have a share", "(octets) from 127.0.0.5",
             ["2.05"] * OBSERVATIONS + ["4.29 Max-Age"], came)


def limits(run, opened):
    """What else does not reach the directory."""
    many = Source(run, opened, "127.0.0.7")
    run.tell("lookups have a share where that is said", "(octets) from 127.0.0.7",
             ["2.05"] * LOOKUPS + ["4.29 Max-Age"], [many.looks(1) for _ in range(LOOKUPS + 1)])
    later = [*path("rd-lookup", "ep"), (BLOCK2, b"\x16")]
    run.tell("a later block of a lookup does not count as a lookup", "(octets) from 127.0.0.7",
             ["not 4.29"], ["not 4.29" if "4.29" not in many.asks(GET, later) else "4.29"])
    one = Source(run, opened, "127.0.0.6")
    run.tell("a lookup with as many query options as may be", "(octets)", ["2.05"],
             [one.looks(CRITERIA)])
    run.tell("a lookup with one more", "(octets)", ["4.00 query"], [one.looks(CRITERIA + 1)])
    run.tell("a network that is not allowed gets nothing", "(octets) from 127.1.0.1", ["nothing"],
             [Source(run, opened, "127.1.0.1").registers("stranger", seconds=0.3)])


def lines(run, until: float) -> list[str]:
    """What the server says on standard error until a moment."""
    said, end = b"", run.server.stderr.fileno()
    while (left := until - time.monotonic()) > 0:
        if select.select([end], [], [], left)[0]:
            said += os.read(end, 4096)
    return said.decode().splitlines()


def told(said: list[str]) -> dict[str, int]:
    """The sums of what lines say, by name."""
    sums = Counter()
    for line in said:
        parts = line.removeprefix("rd_host: ").split()
        sums.update({name: int(number) for name, _, number in
                     (part.partition("=") for part in parts)})
    return dict(sums)


def counts(run, since: float):
    """The lines that say once a minute what was counted."""
    said = lines(run, since + PAUSE + SPARE)
    wanted = dict.fromkeys(NAMES, 0) | dict(SENT)
    run.tell("what was counted is said, at most once a minute", "two lines on standard error",
             ["2 lines", *(f"{name}={wanted[name]}" for name in sorted(wanted))],
             [f"{len(said)} lines", *(f"{name}={number}" for name, number in
                                      sorted(told(said).items()))])
    said = lines(run, time.monotonic() + PAUSE + SPARE)
    run.tell("where nothing changed, nothing is said", "no line on standard error", [], said)


def run(run_of_cases):
    """Runs the cases."""
    run_of_cases.group("What rd_host says, and what it keeps from the directory")
    at = f"127.0.0.1:{run_of_cases.port('server')}"
    words = ["--listen", at, "--workers=2", f"--share={SHARE}", f"--criteria={CRITERIA}",
             f"--lookups={LOOKUPS}", "--allow=127.0.0.0/16", "--trust=127.0.9.0/24", "--begin=41"]
    SENT.clear()
    run_of_cases.server = run_of_cases.start([run_of_cases.beside("rd_host"), *words])
    said = run_of_cases.server.stderr.readline().decode().strip()
    run_of_cases.tell("the line at the start", shlex.join(["rd_host", *words]),
                      [f"rd_host 0.1.0: listen={at} workers=2 share={SHARE} criteria={CRITERIA} "
                       "begin=41"], [said])
    ends(run_of_cases)
    starts(run_of_cases)
    serves_v4(run_of_cases)
    since = time.monotonic()
    with contextlib.ExitStack() as opened:
        shares(run_of_cases, opened)
        limits(run_of_cases, opened)
    counts(run_of_cases, since)
