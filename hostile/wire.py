"""What the scripts of this folder share: reading messages, and the server as it runs."""

import re
import socket
import subprocess
import sys
import time
from dataclasses import dataclass
from pathlib import Path

sys.path.insert(0, str(Path(__file__).resolve().parent.parent / "clients"))

import messages  # noqa: E402

HOST = "127.0.0.1"

# The address at which the server sees clients through a relay (hostile/relay.py).
SEEN = "127.0.0.2"

# Numbers of options (RFC 7252 section 5.10, RFC 7641 section 2, RFC 7959 section 2.1).
ETAG, OBSERVE, URI_QUERY, ACCEPT, BLOCK2, BLOCK1, ECHO = 4, 6, 15, 17, 23, 27, 252

# The most octets of a datagram that comes.
MOST_DATAGRAM = 65_535

# The marker before a payload, and the most octets that the server reads of a datagram and writes.
MARKER = 0xFF
MOST_READ, MOST_WRITTEN = 4_096, 1_280

# Seconds: how long an answer is waited for, and how long a server may take to begin or to end, and
# how long it may have to do with what was sent to it, up to the answer to each of some pings.
ANSWER_LIMIT = 2
SERVER_LIMIT = 5
PATIENCE = (2, 5, 20)

# The Message IDs of pings by which a script finds out how far a server is, 4,096 from here on.
FIRST_PING = 0xE000

PING = messages.octets(messages.CON, messages.EMPTY, 0x4E55)
PONG = messages.octets(messages.RST, messages.EMPTY, 0x4E55)


class Wrong(Exception):
    """What is not to be: a wrong answer, none in time, or a server that has ended."""


@dataclass(frozen=True)
class Message:
    """A message as it was read."""

    kind: int
    code: int
    mid: int
    token: bytes
    options: tuple[tuple[int, bytes], ...]
    payload: bytes

    def values(self, number: int) -> list[bytes]:
        """The values of the options of one number."""
        return [value for each, value in self.options if each == number]

    def refusal(self) -> str:
        """Its code, with the diagnostic word of a refusal, as `4.00 query`."""
        word = self.payload.decode(errors="replace") if self.code >> 5 in (4, 5) else ""
        return f"{self.code >> 5}.{self.code & 31:02} {word}".rstrip()

    def path(self) -> list[bytes]:
        """The segments of its path."""
        return self.values(messages.URI_PATH)


def read_number(nibble: int, octets: bytes, at: int) -> tuple[int, int]:
    """A delta or length by its nibble, and where what follows it begins."""
    if nibble < 13:
        return nibble, at
    width = nibble - 12
    if nibble == 15 or at + width > len(octets):
        raise ValueError
    return int.from_bytes(octets[at:at + width], "big") + (13 if width == 1 else 269), at + width


def read(octets: bytes) -> Message:
    """A datagram as a message (RFC 7252 section 3); ValueError where it is none."""
    if len(octets) < 4 or octets[0] >> 6 != 1 or octets[0] & 15 > 8:
        raise ValueError
    at = 4 + (octets[0] & 15)
    token, options, number = octets[4:at], [], 0
    if at > len(octets):
        raise ValueError
    while at < len(octets) and octets[at] != MARKER:
        first = octets[at]
        delta, at = read_number(first >> 4, octets, at + 1)
        length, at = read_number(first & 15, octets, at)
        number += delta
        if at + length > len(octets) or number > 0xFFFF:
            raise ValueError
        options.append((number, octets[at:at + length]))
        at += length
    payload = octets[at + 1:]
    if at < len(octets) and not payload:
        raise ValueError
    return Message(octets[0] >> 4 & 3, octets[1], int.from_bytes(octets[2:4], "big"), token,
                   tuple(options), payload)


def number_octets(number: int) -> bytes:
    """A number as the value of an option, without leading zeros."""
    return number.to_bytes((number.bit_length() + 7) // 8, "big")


def block(number: int, is_more: bool, size_exponent: int) -> bytes:
    """The value of a block option (RFC 7959 section 2.2)."""
    return number_octets(number << 4 | is_more << 3 | size_exponent)


def open_socket(port: int) -> socket.socket:
    """A socket from a free port to a port of this machine."""
    made = socket.socket(socket.AF_INET, socket.SOCK_DGRAM)
    made.bind((HOST, 0))
    made.connect((HOST, port))
    made.settimeout(ANSWER_LIMIT)
    return made


def free_port() -> int:
    """A port that nobody has."""
    with socket.socket(socket.AF_INET, socket.SOCK_DGRAM) as tried:
        tried.bind((HOST, 0))
        return tried.getsockname()[1]


def start_relay(fault: str, serving: int) -> tuple[subprocess.Popen, int]:
    """Starts a relay with a fault before a port, and its own port."""
    port = free_port()
    words = [sys.executable, str(Path(__file__).with_name("relay.py")), "--fault", fault,
             "--from", str(port), "--to", str(serving)]
    started = subprocess.Popen(words, stdin=subprocess.DEVNULL, stdout=subprocess.PIPE)
    if started.stdout.readline() != b"ready\n":
        raise Wrong(f"the relay with the fault {fault} does not begin")
    return started, port


class Server:
    """rd_serve as it runs, with its memory; behind a relay where a fault is named."""

    def __init__(self, program: str, workers: int, *words: str, env: dict | None = None,
                 fault: str = ""):
        self.port = self.own_port = free_port()
        self.process = subprocess.Popen(
            [program, "--port", str(self.port), "--workers", str(workers), *words],
            stdin=subprocess.DEVNULL, stdout=subprocess.PIPE, stderr=subprocess.PIPE, env=env)
        self.relay, self.seen = None, HOST
        if fault:
            self.relay, self.port = start_relay(fault, self.own_port)
            self.seen = SEEN
        self.asking, self.pings = open_socket(self.port), 0

    def __enter__(self):
        until = time.monotonic() + SERVER_LIMIT
        while not self.is_answering(0.1):
            if time.monotonic() > until:
                self.end()
                raise Wrong("the server does not begin")
            time.sleep(0.02)
        return self

    def __exit__(self, *_):
        self.end()

    def is_answering(self, limit: float = ANSWER_LIMIT) -> bool:
        """Whether a ping is answered in time. What was sent before it was taken off then."""
        self.pings = (self.pings + 1) & 0xFFF
        mid = FIRST_PING | self.pings
        pong = messages.octets(messages.RST, messages.EMPTY, mid)
        self.asking.settimeout(limit)
        try:
            self.asking.send(messages.octets(messages.CON, messages.EMPTY, mid))
            while self.asking.recv(MOST_READ) != pong:  # a late one of an earlier ping
                pass
            return True
        except OSError:
            return False

    def settle(self):
        """Waits until it has taken off what was sent to it, as its answer to a ping shows."""
        if not any(self.is_answering(limit) for limit in PATIENCE):
            raise Wrong("the server does not answer a ping")

    def is_alive(self) -> bool:
        """Whether it has not ended."""
        return self.process.poll() is None

    def kibibytes(self, name: str) -> int:
        """A figure of its memory: VmRSS, or VmHWM for the highest so far."""
        status = Path("/proc", str(self.process.pid), "status").read_text()
        return int(re.search(rf"^{name}:\s+(\d+) kB$", status, re.MULTILINE)[1])

    def dropped(self) -> int:
        """How many datagrams the kernel dropped since its queue was full."""
        rows = [line.split() for line in Path("/proc/net/udp").read_text().splitlines()[1:]]
        return sum(int(row[-1]) for row in rows if row[1].endswith(f":{self.own_port:04X}"))

    def end(self) -> tuple[int, str]:
        """Ends it by a signal, where it has not ended; its status and what it said."""
        if self.is_alive():
            self.process.terminate()
        return self.wait()

    def wait(self, limit: float = SERVER_LIMIT) -> tuple[int, str]:
        """Waits until it ends by itself; its status and what it said."""
        try:
            said = b"".join(self.process.communicate(timeout=limit))
        except subprocess.TimeoutExpired:
            self.process.kill()
            said = b"".join(self.process.communicate())
        except ValueError:  # it was waited for before
            said = b""
        self.asking.close()
        if self.relay:
            self.relay.kill()
            self.relay.communicate()
            self.relay = None
        return self.process.returncode, said.decode(errors="replace").strip()
