"""A recording of rd_host at two addresses, whose replay sends what was sent (docs/PROGRAMS.md).

tcpdump records a conversation with rd_host at 127.0.0.1 and ::1, of two workers each. Clients
observe lookups, devices register by themselves and by simple registration, and bodies and listings
come in blocks. What the directory sends in a replay of the recording is compared with what it sent.
Where tcpdump may not record, this is left out, and a line says so.

A worker can send a notification of a change before the worker that made the change has sent its
answer. Such a recording does not show when the change was made (docs/PROGRAMS.md), so the
conversation is recorded again, and a line says so.
"""

import difflib
import shlex
import shutil
import signal
import socket
import subprocess
import time
from pathlib import Path

import restarts
from messages import (ACK, BLOCK1, BLOCK2, CHANGED, CON, CONTENT, CONTENT_FORMAT, CONTINUE,
                      CREATED, DELETE, DELETED, ECHO, EMPTY, GET, NON, OBSERVE, POST, PUT, RST,
                      UNAUTHORIZED, octets, path, query, received)

HOSTS = ["127.0.0.1", "::1"]

# The workers of each address.
WORKERS = 2

# Seconds: how long an answer is waited for, within which a notification comes, and how long a
# program may take to begin or to end.
WAIT_LIMIT = 5
QUIET = 0.15
PROGRAM_LIMIT = 20

LINK_FORMAT = (CONTENT_FORMAT, b"\x28")
OBSERVED = (OBSERVE, b"")
RESOURCES, ENDPOINTS = path("rd-lookup", "res"), path("rd-lookup", "ep")

CODES = {CREATED: "2.01", DELETED: "2.02", CHANGED: "2.04", CONTENT: "2.05", CONTINUE: "2.31",
         UNAUTHORIZED: "4.01"}

# How often the conversation is recorded at most.
TRIES = 5

# Lines of a difference that are shown.
MOST_SHOWN = 10


class Party:
    """A device, a client or an observer, with a socket at an address of the server."""

    def __init__(self, host: str, port: int):
        family = socket.AF_INET6 if ":" in host else socket.AF_INET
        self.asking = socket.socket(family, socket.SOCK_DGRAM)
        self.asking.bind((host, 0))
        self.asking.connect((host, port))
        self.asking.settimeout(WAIT_LIMIT)
        self.mid = self.heard = 0

    def take(self) -> bytes:
        """The next datagram that comes; none if none comes in time."""
        came = received(self.asking)
        self.heard += len(came)
        return came[0] if came else b""

    def ask(self, code: int, options: list, payload: bytes = b"", kind: int = CON) -> bytes:
        """The answer to a request under the next Message ID."""
        self.mid += 1
        options = sorted(options, key=lambda option: option[0])
        self.asking.send(octets(kind, code, self.mid, b"\xa1", options, payload))
        return self.take()

    def acknowledge(self, is_told: bool, kind: int = ACK) -> list[bytes]:
        """Acknowledges, or resets, each notification that comes; all of them. Where it is told, the
        first of them is waited for."""
        came = []
        self.asking.settimeout(WAIT_LIMIT if is_told else QUIET)
        while notification := self.take():
            self.asking.send(octets(kind, EMPTY, mid_of(notification)))
            came.append(notification)
            self.asking.settimeout(QUIET)
        self.asking.settimeout(WAIT_LIMIT)
        return came

    def serve(self, pieces: list[bytes]):
        """Serves its links in blocks of 16 octets (RFC 9176 section 5.1)."""
        for place, piece in enumerate(pieces):
            asked = self.take() or bytes(4)
            token = asked[4:4 + (asked[0] & 15)]
            said = [LINK_FORMAT, (BLOCK2, block(place, len(pieces), 0))]
            self.asking.send(octets(ACK, CONTENT, mid_of(asked), token, said, piece))


def mid_of(datagram: bytes) -> int:
    """The Message ID of a datagram."""
    return int.from_bytes(datagram[2:4], "big")


def block(place: int, count: int, exponent: int) -> bytes:
    """The value of the option of one of so many blocks (RFC 7959 section 2.2)."""
    return bytes([place << 4 | (place + 1 < count) << 3 | exponent])


def links(name: str) -> bytes:
    """The links of a device."""
    return f'</{name}/temp>;rt="temp",</{name}/light>;rt="light"'.encode()


class Conversation:
    """What is asked of both addresses, one request after the other, and the codes that came."""

    def __init__(self, port: int):
        self.devices = [Party(HOSTS[place % 2], port) for place in range(6)]
        self.clients = [Party(host, port) for host in HOSTS]
        self.observers = [Party(host, port) for host in HOSTS]
        self.codes: list[str] = []
        self.changes: list[tuple[bytes, list[bytes]]] = []

    def heard(self) -> int:
        """How many datagrams came to all."""
        return sum(each.heard for each in self.devices + self.clients + self.observers)

    def note(self, answer: bytes):
        """Notes the code of an answer."""
        self.codes.append(CODES.get(answer[1], "another") if answer else "none")

    def changed(self, answer: bytes, *are_told: bool):
        """Notes it; the observers acknowledge what they are told of the change, if they are."""
        self.note(answer)
        told = [each for observer, is_told in zip(self.observers, are_told)
                for each in observer.acknowledge(is_told)]
        self.changes.append((answer, told))

    def is_overtaken(self, sent: list[str]) -> bool:
        """Whether a notification of a change was sent before the answer to the change."""
        places = {line.split(" ")[-1]: place for place, line in reversed(list(enumerate(sent)))}
        return any(places[each.hex()] < places[answer.hex()]
                   for answer, told in self.changes for each in told
                   if {each.hex(), answer.hex()} <= places.keys())

    def have(self, first: int) -> list[str]:
        """Has it with a server that counts above a number; the codes that are wanted."""
        parts = [self.register(), self.upload(), self.look_up(), self.not_confirmable(),
                 self.observe(), self.register_simply(), self.change(first + 1), self.lapse()]
        return [code for part in parts for code in part]

    def observe(self) -> list[str]:
        """A lookup of links is observed, and one of endpoints in blocks (RFC 7641)."""
        self.note(self.observers[0].ask(GET, [OBSERVED, *RESOURCES, *query("rt=temp")]))
        self.note(self.observers[1].ask(GET, [OBSERVED, *ENDPOINTS, (BLOCK2, b"\x02")]))
        return ["2.05"] * 2

    def register(self) -> list[str]:
        """Devices register (RFC 9176 section 5), the last one twice, by one datagram."""
        for place, device in enumerate(self.devices + self.devices[-1:]):
            place = min(place, len(self.devices) - 1)
            device.mid = 0
            said = [*path("rd"), *query(f"ep=node{place}"), LINK_FORMAT]
            self.changed(device.ask(POST, said, links(f"node{place}")))
        return ["2.01"] * (len(self.devices) + 1)

    def register_simply(self) -> list[str]:
        """Two devices ask for a simple registration (section 5.1), and serve their links."""
        for place, device in enumerate(self.devices[:2]):
            asked = [*path(".well-known", "rd"), *query(f"ep=simple{place}")]
            challenge = device.ask(POST, asked)
            self.note(challenge)
            answer = device.ask(POST, [*asked, (ECHO, challenge[-8:])])
            device.serve([b'</s>;rt="temp";x', b'="1"'])
            self.changed(answer, True, True)
        return ["4.01", "2.04"] * 2

    def upload(self) -> list[str]:
        """A device sends its links in blocks of 32 octets (RFC 7959)."""
        body = links("a-wall-of-a-house")
        pieces = [body[at:at + 32] for at in range(0, len(body), 32)]
        for place, piece in enumerate(pieces):
            said = [*path("rd"), *query("ep=wall"), LINK_FORMAT]
            said.append((BLOCK1, block(place, len(pieces), 1)))
            self.changed(self.devices[2].ask(POST, said, piece))
        return ["2.31"] * (len(pieces) - 1) + ["2.01"]

    def look_up(self) -> list[str]:
        """Clients look up in blocks of 64 octets."""
        for client in self.clients:
            for resource in RESOURCES, ENDPOINTS:
                for place in range(4):
                    self.note(client.ask(GET, [*resource, (BLOCK2, bytes([place << 4 | 2]))]))
        return ["2.05"] * 16

    def change(self, number: int) -> list[str]:
        """A device updates its registration, replaces its links, reads them and removes it."""
        device, at = self.devices[0], path("rd", str(number))
        self.changed(device.ask(POST, [*at, *query("lt=600")]), False, False)
        self.changed(device.ask(PUT, [*at, LINK_FORMAT], links("other")), True, False)
        self.note(device.ask(GET, at))
        self.changed(device.ask(DELETE, at), True, True)
        return ["2.04", "2.04", "2.05", "2.02"]

    def not_confirmable(self) -> list[str]:
        """Registrations and lookups are not confirmable (RFC 7252 section 4.3)."""
        for device, client in zip(self.devices, self.clients * 2):
            said = [*path("rd"), *query("ep=non"), LINK_FORMAT]
            self.changed(device.ask(POST, said, links("non"), NON))
            self.note(client.ask(GET, [*RESOURCES, *query("ep=non")], kind=NON))
        return ["2.01", "2.05"] * 4

    def lapse(self) -> list[str]:
        """A lease of a second ends, of which the observers are told, who reset that."""
        said = [*path("rd"), *query("ep=brief", "lt=1"), LINK_FORMAT]
        self.changed(self.devices[4].ask(POST, said, links("brief")), True, True)
        time.sleep(1)
        for observer in self.observers:
            observer.acknowledge(True, RST)
        self.note(self.clients[1].ask(GET, [*ENDPOINTS, *query("ep=brief")]))
        return ["2.01", "2.05"]

    def end(self):
        """Closes all sockets."""
        for each in self.devices + self.clients + self.observers:
            each.asking.close()


def start_recording(run, port: int) -> subprocess.Popen | None:
    """Starts to record, where that may be done."""
    if not shutil.which("tcpdump"):
        return None
    recorder = run.start(["tcpdump", "--immediate-mode", "-U", "-i", "lo", "-w", "recorded.pcap",
                          "udp", "port", str(port)])
    for line in recorder.stderr:
        if b"listening on" in line:
            return recorder
    return None


def run(run_of_cases):
    """Runs the cases, where tcpdump may record."""
    run_of_cases.group("A recording of rd_host at two addresses (docs/PROGRAMS.md)")
    for _ in range(TRIES):
        recorder = start_recording(run_of_cases, run_of_cases.port("server"))
        if not recorder:
            print("left out: tcpdump is not there, or may not record loopback", flush=True)
            return
        if is_told(run_of_cases, recorder):
            return
        print("again: a notification overtook the answer to its change", flush=True)
    run_of_cases.tell("a recording without that", "", [f"one of {TRIES}"], [])


def is_told(run, recorder: subprocess.Popen) -> bool:
    """Records a conversation, and tells how it and its replay came out, if the recording shows
    the order of its changes."""
    port = run.port("server")
    words = ["--listen", f"127.0.0.1:{port}", "--listen", f"[::1]:{port}", "--workers",
             str(WORKERS)]
    first = restarts.start(run, words)
    conversation = Conversation(port)
    try:
        wanted = conversation.have(first)
    finally:
        conversation.end()
    run.end_server()
    time.sleep(QUIET)
    recorder.send_signal(signal.SIGINT)
    recorder.communicate(timeout=PROGRAM_LIMIT)
    given = ["--port", str(port), "--begin", str(first), "--workers"]
    sent = written(run, ["rd_capture", *given, "--replies"], "recorded.pcap", "sent.out")
    if conversation.is_overtaken(sent):
        return False
    run.tell("devices, clients and observers are answered at both addresses",
             shlex.join(["rd_host", *words]), wanted, conversation.codes)
    run.tell("each datagram that came to them is recorded",
             f"{shlex.join(['rd_capture', *given, '--replies'])} < recorded.pcap > sent.out",
             [f"{conversation.heard()} lines"], [f"{len(sent)} lines"])
    compare(run, given, sent)
    return True


def written(run, words: list[str], source: str, target: str) -> list[str]:
    """The lines that a program writes to one file, which reads another one."""
    folder = Path(run.folder)
    with folder.joinpath(source).open("rb") as read, folder.joinpath(target).open("wb") as write:
        subprocess.run([run.beside(words[0]), *words[1:]], stdin=read, stdout=write, check=False,
                       timeout=PROGRAM_LIMIT)
    return folder.joinpath(target).read_text().splitlines()


def compare(run, given: list[str], sent: list[str]):
    """A case: the replay of the recording sends what was sent."""
    convert, replay = ["rd_capture", *given], ["rd_replay", "--workers=16"]
    written(run, convert, "recorded.pcap", "recorded.trace")
    replayed = [line for line in written(run, replay, "recorded.trace", "replayed.out")
                if not line.startswith("end ")]
    differences = list(difflib.unified_diff(sent, replayed, lineterm="", n=0))
    run.tell("the replay of the recording sends just that",
             f"{shlex.join(convert)} < recorded.pcap | {shlex.join(replay)} | grep -v '^end ' | "
             "diff sent.out -", [], differences[:MOST_SHOWN])
