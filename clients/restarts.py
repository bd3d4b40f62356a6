"""Cases of a restart: 100 devices register at rd_host, which is ended and started again.

What is wanted follows from docs/PROFILE.md: a run numbers its registrations, and counts its
changes, above the number that rd_host says at its start. So each answer is known as a whole. If a
refresh reached the registration of another device, it would be answered 2.04.
"""

import contextlib
import shlex
import socket
import time

from messages import (ACK, CON, CONTENT, CONTENT_FORMAT, CREATED, ETAG, GET, LOCATION_PATH,
                      NOT_FOUND, POST, blocks, content, octets, path, query, received, text_of)

DEVICES = 100

# What stands before the number in the line that rd_host says on standard error at its start.
SAID = " begin="

# Seconds: how long an answer is waited for, and how long the server stays ended. No number of one
# run is one of another if less than 1,000 changes a second are made from one start to the next.
WAIT_LIMIT = 5
PAUSE = 0.5

# The number above which the last run is told to begin.
TOLD = 41

# The octets of a block of a listing.
BLOCK = 1_024

TOKEN = b"\xd1"


class Device:
    """A device with a port of its own, and the number of its registration."""

    def __init__(self, asking: socket.socket, name: str):
        asking.settimeout(WAIT_LIMIT)
        self.asking, self.name, self.number, self.mid = asking, name, 0, 0

    def base(self) -> str:
        """The base of what it registers (RFC 9176 section 5)."""
        return f"coap://127.0.0.1:{self.asking.getsockname()[1]}"

    def line(self) -> str:
        """Its line in a lookup of endpoints (section 6)."""
        return f'</rd/{self.number}>;base="{self.base()}";ep="{self.name}";rt="core.rd-ep"'

    def asks(self, code: int, options: list, wanted: int, said: list, word: bytes = b"") -> bool:
        """Whether just this answer comes to a request."""
        self.mid += 1
        self.asking.send(octets(CON, code, self.mid, TOKEN, options))
        return received(self.asking) == [octets(ACK, wanted, self.mid, TOKEN, said, word)]

    def registers(self, number: int) -> bool:
        """Whether it registers, at the location of this number (section 5)."""
        self.number = number
        location = [(LOCATION_PATH, b"rd"), (LOCATION_PATH, str(number).encode())]
        return self.asks(POST, [*path("rd"), *query(f"ep={self.name}")], CREATED, location)

    def is_missed(self) -> bool:
        """Whether a refresh finds no registration at its location (section 5.3.1)."""
        return self.asks(POST, path("rd", str(self.number)), NOT_FOUND, [], b"registration")

    def is_answered(self, tag: bytes, old: list[bytes]) -> bool:
        """Whether a lookup that has these tags is answered 2.05 under another one."""
        asked = [*((ETAG, each) for each in old), *path("rd-lookup", "res"), *query("ep=none")]
        return self.asks(GET, asked, CONTENT, [(ETAG, tag), (CONTENT_FORMAT, b"\x28")])


def tag_of(count: int) -> bytes:
    """The entity tag after so many changes, where no lease has lapsed."""
    return count.to_bytes(6, "big") + b"\0\0"


def listing(devices: list[Device]) -> list[str]:
    """The blocks of the listing of all devices, by their numbers."""
    lines = [each.line() for each in sorted(devices, key=lambda each: each.number)]
    return blocks(",".join(lines), BLOCK)


def start(run, words: list[str]) -> int:
    """Starts rd_host; the number above which it says that it counts. Its sockets are there then."""
    run.server = run.start([run.beside("rd_host"), *words])
    said = run.server.stderr.readline().decode().strip()
    name, _, number = said.rpartition(SAID)
    if not name.startswith("rd_host "):
        run.end_ungreeted()
    return int(number)


def words_of(run, *more: str) -> list[str]:
    """The words of rd_host at the port of the server."""
    return ["--listen", f"127.0.0.1:{run.port('server')}", *more]


def begin(run, name: str, least: int = 0) -> int:
    """A case: rd_host gives numbers above the milliseconds since 1970 at its start, and no less."""
    before = int(time.time() * 1_000)
    first = start(run, words_of(run))
    wanted = "above the milliseconds since 1970"
    is_time = max(before, least) <= first <= int(time.time() * 1_000)
    run.tell(name, shlex.join(["rd_host", *words_of(run)]), [wanted],
             [wanted if is_time else f"above {first}"])
    return first


def count(run, name: str, what: str, are_right: list[bool]):
    """A case of all devices: how many of them came out as is wanted."""
    run.tell(name, "(octets)", [f"{DEVICES} {what}"], [f"{sum(are_right)} {what}"])


def register_all(devices: list[Device], first: int, old: list[bytes]):
    """One device after the other refreshes what it has, registers, and looks up by the tag that was
    given at its turn in the run before: what came of the three, and the tags."""
    missed, made, looked, tags = [], [], [], []
    for place, device in enumerate(devices):
        missed.append(device.number != 0 and device.is_missed())
        made.append(device.registers(first + 1 + place))
        # The beginning of the run is a change itself.
        tags.append(tag_of(first + 2 + place))
        looked.append(device.is_answered(tags[-1], old[place:place + 1]))
    return missed, made, looked, tags


def run(run_of_cases):
    """Runs the cases."""
    run_of_cases.group("A restart (RFC 9176 sections 5 and 5.3.1)")
    with contextlib.ExitStack() as opened:
        devices = [Device(opened.enter_context(run_of_cases.open_socket()), f"node{place}")
                   for place in range(1, DEVICES + 1)]
        across_a_restart(run_of_cases, devices)
    run_of_cases.end_server()
    told_where_to_begin(run_of_cases)


def across_a_restart(run, devices: list[Device]):
    """Of two runs no number and no tag of the one is one of the other."""
    endpoints, one = "/rd-lookup/ep", f"/rd-lookup/ep?ep={devices[0].name}"
    first = begin(run, "rd_host gives numbers above the milliseconds since 1970")
    _, made, looked, tags = register_all(devices, first, [])
    count(run, f"{DEVICES} devices register, each at the next location", "at the next", made)
    count(run, "after each of them a lookup has the tag of one change more", "tags", looked)
    run.ask("all are listed at their own addresses", [], endpoints, listing(devices))
    asked = ["-O", f"4,0x{tags[-1].hex()}"]
    run.ask("a lookup with the last tag is still valid", asked, one,
            [text_of("ACK", "2.03", [f"ETag:0x{tags[-1].hex()}"])])
    run.end_server()
    time.sleep(PAUSE)
    again = begin(run, "ended and started again, it counts above all that it counted before",
                  first + 1 + DEVICES)
    run.ask("the directory is empty", [], endpoints, [content()])
    # If numbers began at 1 in each run, the last 50 of these would find the first 50 at theirs.
    devices.reverse()
    missed, made, looked, _ = register_all(devices, again, tags)
    count(run, "each device in turn refreshes its old location, which is not found", "get 4.04",
          missed)
    count(run, "and registers again, at the next location", "at the next", made)
    count(run, "after each of them a lookup with a tag of the run before is answered 2.05",
          "get 2.05", looked)
    run.ask("all are listed at their own addresses", [], endpoints, listing(devices))
    run.ask("a lookup with the last tag of the run before is listed", asked, one,
            [content(next(each.line() for each in devices if one.endswith(f"={each.name}")))])


def told_where_to_begin(run):
    """A number that is said is that above which it counts."""
    words = words_of(run, "--begin", str(TOLD))
    said = start(run, words)
    with run.open_socket() as asking:
        is_next = Device(asking, "node1").registers(TOLD + 1)
    run.tell("told where to begin, it counts above that number", shlex.join(["rd_host", *words]),
             [f"above {TOLD}", "at the next"], [f"above {said}", "at the next" * is_next])
