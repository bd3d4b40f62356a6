"""Cases of rd_host with connections: one directory over UDP and TCP (RFC 8323), for many at a time.

coap-client sends requests over both. This script sends and reads, octet by octet, what coap-client
does not show: signaling messages (RFC 8323 sections 5.3 to 5.6), sixteen connections at once, and
one that sends nothing while fifteen others work.
"""

import contextlib
import shlex
import socket
import threading
import time

import restarts
from streams import said_by

HOST = "127.0.0.1"

# The number of connections served at a time alongside one worker of the only address (at most 16 in
# all), and the number opened at once.
SERVED, OPENED = 15, 16

# Seconds: how long to wait for an answer, how long to wait if none should come, and how long a
# connection may take for its first message (docs/PROFILE.md).
LIMIT, SHORT, FIRST_LIMIT = 10, 0.5, 10

# Codes and options (RFC 8323 section 5, RFC 7252 sections 12.1 and 5.10, RFC 7959 section 2.1).
CSM, PING, PONG, RELEASE, ABORT = 0xE1, 0xE2, 0xE3, 0xE4, 0xE5
GET, POST, CREATED, CONTENT = 0x01, 0x02, 0x41, 0x45
URI_PATH, CONTENT_FORMAT, URI_QUERY, BLOCK2 = 11, 12, 15, 23
LONG, LONGER = 13, 269

# The octets of the CSM of the server: Block-Wise-Transfer (RFC 8323 section 5.3.2).
OFFER = "10e140"

# The most octets of a message to a client with this limit, and the devices that fill a listing.
FEW, DEVICES = 200, 12

# The number of requests that are sent together. Their responses are longer than the 4,096 octets
# that the server holds back at most.
TOGETHER = 40


def extended(number: int) -> tuple[int, bytes]:
    """Returns a number as four bits and the octets that extend them."""
    if number < LONG:
        return number, b""
    if number < LONGER:
        return 13, bytes([number - LONG])
    return 14, (number - LONGER).to_bytes(2, "big")


def tail_of(options: list[tuple[int, bytes]], payload: bytes = b"") -> bytes:
    """Returns options, in the order of their numbers, and a payload (RFC 7252 section 3.1)."""
    octets, last = b"", 0
    for number, value in options:
        delta, after_delta = extended(number - last)
        length, after_length = extended(len(value))
        octets += bytes([delta << 4 | length]) + after_delta + after_length + value
        last = number
    return octets + (b"\xff" + payload if payload else b"")


def message(code: int, token: bytes = b"", tail: bytes = b"") -> bytes:
    """Returns a message of a stream (RFC 8323 section 3.2)."""
    length, after = extended(len(tail))
    return bytes([length << 4 | len(token)]) + after + bytes([code]) + token + tail


def registration(name: str) -> bytes:
    """Returns a registration that gives its base (RFC 9176 section 5)."""
    options = [(URI_PATH, b"rd"), (CONTENT_FORMAT, b"\x28"), (URI_QUERY, f"ep={name}".encode()),
               (URI_QUERY, b"base=coap://192.0.2.1")]
    return message(POST, b"\x01", tail_of(options, f'</{name}>;rt="t-{name}"'.encode()))


def lookup(*query: str, token: bytes = b"\x02") -> bytes:
    """Returns a lookup of resources (RFC 9176 section 6)."""
    options = [(URI_PATH, b"rd-lookup"), (URI_PATH, b"res")]
    options += [(URI_QUERY, each.encode()) for each in query]
    return message(GET, token, tail_of(options))


class Connection:
    """A connection to the server, and what came over it."""

    def __init__(self, port: int, first: bytes = message(CSM)):
        self.socket = socket.create_connection((HOST, port), timeout=LIMIT)
        self.rest = b""
        self.socket.sendall(first)

    def __enter__(self):
        return self

    def __exit__(self, *_):
        self.socket.close()

    def sends(self, octets: bytes):
        """Sends octets."""
        self.socket.sendall(octets)

    def comes(self, seconds: float = LIMIT) -> bytes:
        """Returns the next message, or nothing at the end or if no message comes in time."""
        self.socket.settimeout(seconds)
        while not self.size():
            try:
                more = self.socket.recv(65_536)
            except OSError:
                return b""
            if not more:
                return b""
            self.rest += more
        taken, self.rest = self.rest[:self.size()], self.rest[self.size():]
        return taken

    def size(self) -> int:
        """Returns the size of the first message received, or 0 if it is not complete."""
        if len(self.rest) < 3 and self.rest[:1] > b"\xdf" or len(self.rest) < 2:
            return 0
        length, token, at = self.rest[0] >> 4, self.rest[0] & 15, 1
        if length == 13:
            length, at = LONG + self.rest[1], 2
        elif length == 14:
            length, at = LONGER + int.from_bytes(self.rest[1:3], "big"), 3
        end = at + 1 + token + length
        return end if len(self.rest) >= end else 0


def parts_of(octets: bytes) -> tuple[int, bytes, bytes]:
    """Returns the code and the token of a message, and what follows them."""
    if not octets:
        return 0, b"", b""
    at = {13: 2, 14: 3}.get(octets[0] >> 4, 1)
    end = at + 1 + (octets[0] & 15)
    return octets[at], octets[at + 1:end], octets[end:]


def code_of(octets: bytes) -> int:
    """Returns the code of a message."""
    return parts_of(octets)[0]


def start(run) -> str:
    """Starts rd_host over both transports, and returns its command line."""
    words = restarts.words_of(run, "--tcp", f"{HOST}:{run.port('server')}", "--workers", "1",
                              "--connections", str(SERVED))
    restarts.start(run, words)
    return shlex.join(["rd_host", *words])


def over_tcp(run, *options: str) -> list[str]:
    """Returns the command line of a client over TCP; the last argument is the resource."""
    return [run.client, *options[:-1], f"coap+tcp://{HOST}:{run.port('server')}{options[-1]}"]


def over_udp(run, *options: str) -> list[str]:
    """Returns the same over UDP."""
    return [run.client, *options[:-1], f"coap://{HOST}:{run.port('server')}{options[-1]}"]


def says(run, name: str, words: list[str], wanted: str):
    """Runs a case: what one command prints."""
    run.tell(name, shlex.join(words), [wanted], [said_by(words)])


def across_transports(run):
    """Registers over each transport, and looks up over the other."""
    first = ["-m", "post", "-t", "40", "-e", '</t>;rt="temp"', "/rd?ep=a&base=coap://192.0.2.1"]
    second = ["-m", "post", "-t", "40", "-e", '</l>;rt="light"', "/rd?ep=b&base=coap://192.0.2.2"]
    says(run, "a device registers over TCP", over_tcp(run, *first), "")
    says(run, "it is listed over UDP", over_udp(run, "/rd-lookup/res?rt=temp"),
         '<coap://192.0.2.1/t>;rt="temp"')
    says(run, "a device registers over UDP", over_udp(run, *second), "")
    says(run, "it is listed over TCP", over_tcp(run, "/rd-lookup/res?rt=light"),
         '<coap://192.0.2.2/l>;rt="light"')
    says(run, "one without a base is refused over TCP",
         over_tcp(run, "-m", "post", "-t", "40", "-e", "</x>", "/rd?ep=c"), "4.00 query")


def signals(run, words: str):
    """Checks the CSM of the server, and how it answers signaling messages."""
    port = run.port("server")
    with Connection(port) as asking:
        run.tell("its CSM offers blocks", words, [OFFER], [asking.comes().hex()])
        asking.sends(message(PING, b"\x07", tail_of([(2, b"")])))
        run.tell("a Ping with Custody gets a Pong with it", words,
                 [message(PONG, b"\x07", tail_of([(2, b"")])).hex()], [asking.comes().hex()])
        asking.sends(message(CSM, b"", tail_of([(9, b"")])))
        run.tell("an Abort names the option of a CSM that is critical and not known", words,
                 [message(ABORT, b"", tail_of([(2, b"\x09")])).hex()], [asking.comes().hex()])


def short_messages(run, words: str):
    """Checks that a client that accepts only short messages gets a listing in blocks."""
    port = run.port("server")
    with Connection(port) as asking:
        for place in range(DEVICES):
            asking.sends(registration(f"short{place}"))
        codes = [code_of(asking.comes()) for _ in range(DEVICES + 1)]
    run.tell("devices register over one connection", words, [f"{DEVICES} of them"],
             [f"{codes.count(CREATED)} of them"])
    with Connection(port, message(CSM, b"", tail_of([(2, FEW.to_bytes(1, "big"))]))) as asking:
        asking.comes()
        asking.sends(lookup())
        came = asking.comes()
    is_block = code_of(came) == CONTENT and len(came) <= FEW and len(came) > 128
    run.tell(f"a listing to a client that accepts {FEW} octets comes in blocks", words,
             ["a block of 128 octets"],
             ["a block of 128 octets" if is_block else came.hex() or "nothing"])


def together(run, words: str):
    """Checks that requests that are sent together are all answered, in order, before the end."""
    tokens = [bytes([place]) for place in range(TOGETHER)]
    with Connection(run.port("server")) as asking:
        asking.comes()
        asking.sends(b"".join(lookup("rt=t-short*", token=token) for token in tokens)
                     + message(RELEASE))
        came = [parts_of(asking.comes()) for _ in tokens]
        after = asking.comes()
    wanted = [(CONTENT, token, came[0][2]) for token in tokens]
    devices = came[0][2].count(b"rt=")
    run.tell(f"{TOGETHER} lookups sent together are answered in order", words,
             ["each with its token", f"{DEVICES} devices in each"],
             ["each with its token" if came == wanted else f"{came}", f"{devices} devices in each"])
    run.tell("a Release after them ends the connection", words, ["the end"],
             [after.hex() or "the end"])


def many(run, words: str):
    """Opens sixteen connections at once: one of them waits until another ends."""
    port = run.port("server")
    with contextlib.ExitStack() as opened:
        asking = [opened.enter_context(Connection(port)) for _ in range(OPENED)]
        for place, each in enumerate(asking):
            each.sends(registration(f"many{place}"))
        met = [each for each in asking if each.comes(2)]
        codes = [code_of(each.comes()) for each in met]
        run.tell("of sixteen connections at once fifteen are served", words,
                 [f"{SERVED} of them"], [f"{codes.count(CREATED)} of them"])
        waiting = [each for each in asking if each not in met]
        met[0].socket.close()
        later = [code_of(each.comes()) for each in waiting for _ in range(2)]
        run.tell("the last is served when another ends", words, [f"{[CSM, CREATED]}"],
                 [f"{later}"])
    listed = said_by(over_udp(run, "/rd-lookup/ep?ep=many*"))
    run.tell("all are listed over UDP", words, [f"{OPENED} of them"],
             [f"{listed.count('ep=')} of them"])


def silent(run, words: str):
    """Checks that a connection that sends nothing delays no other, and is ended."""
    port = run.port("server")
    answered = []

    def works(place: int):
        with Connection(port) as asking:
            asking.sends(registration(f"beside{place}") + lookup(f"rt=t-beside{place}"))
            answered.append([code_of(asking.comes()) for _ in range(3)])

    with Connection(port, b"") as idle:
        begun = time.monotonic()
        workers = [threading.Thread(target=works, args=(place,)) for place in range(15)]
        for worker in workers:
            worker.start()
        for worker in workers:
            worker.join()
        wanted = [CSM, CREATED, CONTENT]
        run.tell("fifteen connections are served while another one sends nothing", words,
                 ["15 of them"], [f"{answered.count(wanted)} of them"])
        came = [idle.comes(FIRST_LIMIT + LIMIT).hex(), idle.comes(FIRST_LIMIT + LIMIT).hex()]
        run.tell("the one that sends nothing is ended by an Abort after ten seconds", words,
                 [OFFER, message(ABORT).hex(), "in time"],
                 [*came, "in time" if time.monotonic() - begun < FIRST_LIMIT + LIMIT else "late"])


def run(run_of_cases):
    """Runs the cases."""
    run_of_cases.group("One directory over UDP and TCP (RFC 8323)")
    words = start(run_of_cases)
    across_transports(run_of_cases)
    signals(run_of_cases, words)
    short_messages(run_of_cases, words)
    together(run_of_cases, words)
    many(run_of_cases, words)
    silent(run_of_cases, words)
    run_of_cases.end_server()
