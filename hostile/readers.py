#!/usr/bin/env python3
"""A second reader of captures and traces: `hostile/readers.py`.

What rd_capture and rd_show are to print in their stored runs, and the conversations on the pages of
examples/, is read here by a reader of its own: captures from their documents (pcap, Ethernet, IP,
UDP), the trace of one from man/rd_capture.1, the conversation from crates/rd_show/README.md, and
what the directory answers by hostile/plain. Captures of a running server are answered by the plain
directory too, and are to have what that server sent. The status is 1 where anything differs.
"""

import ipaddress
import struct
import sys
from pathlib import Path

from plain import message
from plain.message import CON, EMPTY, Message
from plain.trace import BadLine, Machine, answered, fields_of, lines_of

CRATES = Path(__file__).resolve().parent.parent / "crates"
EXAMPLES = CRATES.parent / "examples"

PORT, WORKERS = 5683, 16
DAY, SECOND, PAUSE = 86_400, 1_000, 50

# What an exchange is remembered for, in milliseconds (RFC 7252 section 4.8.2).
LIFETIME = 247_000


# Captures.


def packets(capture: bytes):
    """The moment in milliseconds and the octets of each whole packet of a classic capture."""
    magic = capture[:4]
    order = "<" if magic in (b"\xd4\xc3\xb2\xa1", b"\x4d\x3c\xb2\xa1") else ">"
    unit = 1_000_000 if magic in (b"\x4d\x3c\xb2\xa1", b"\xa1\xb2\x3c\x4d") else 1_000
    at = 24
    while at + 16 <= len(capture):
        seconds, fraction, length, _ = struct.unpack(order + "IIII", capture[at:at + 16])
        octets = capture[at + 16:at + 16 + length]
        if len(octets) < length:
            return
        yield seconds * SECOND + fraction // unit, octets
        at += 16 + length


def network(frame: bytes, link: int) -> bytes:
    """The IP packet in a frame: Ethernet, Linux cooked, loopback, or none at all."""
    at = {1: 12, 113: 14, 0: 4, 108: 4, 101: 0, 12: 0}[link]
    while link in (1, 113) and frame[at:at + 2] in (b"\x81\x00", b"\x88\xa8"):
        at += 4
    return frame[at + 2 if link in (1, 113) else at:]


def datagram(packet: bytes):
    """The two ends and the payload of a UDP datagram over IPv4 or IPv6; None where it is none."""
    if packet[:1] and packet[0] >> 4 == 4 and packet[9] == 17:
        begin, addresses = 4 * (packet[0] & 15), (packet[12:16], packet[16:20])
    elif packet[:1] and packet[0] >> 4 == 6 and packet[6] == 17:
        begin, addresses = 40, (packet[8:24], packet[24:40])
    else:
        return None
    source, target, length, _ = struct.unpack(">HHHH", packet[begin:begin + 8])
    if len(packet) < begin + length:
        return None
    hosts = [str(ipaddress.ip_address(each)) for each in addresses]
    ends = [f"[{host}]:{port}" if ":" in host else f"{host}:{port}"
            for host, port in zip(hosts, (source, target))]
    return (source, ends[0]), (target, ends[1]), packet[begin + 8:begin + length]


class Recording:
    """What a capture says of a server: what came to it and what it sent, in order."""

    def __init__(self, capture: bytes):
        link = struct.unpack("<I" if capture[:1] in (b"\xd4", b"\x4d") else ">I", capture[20:24])[0]
        self.events: list[tuple[int, bool, str, bytes]] = []
        servers, latest = set(), 0
        for moment, frame in packets(capture):
            found = datagram(network(frame, link))
            if not found:
                continue
            latest = max(latest, moment)
            (source, here), (target, there), payload = found
            if target == PORT and not (source == PORT and here in servers):
                servers.add(there)
                self.events.append((latest, True, here, payload))
            elif source == PORT:
                servers.add(here)
                self.events.append((latest, False, there, payload))

    def words(self) -> dict[int, int]:
        """The word of each request that was challenged, by its place."""
        words: dict[int, int] = {}
        for place, (_, is_heard, peer, payload) in enumerate(self.events):
            echo = [] if is_heard else self.echo(payload)
            if not echo:
                continue
            token = message.read(payload).token
            asked = next(at for at in range(place) if self.events[at][1] and at not in words
                         and self.events[at][2] == peer and self.is_post(at, token))
            words[asked] = int.from_bytes(echo[0][:4], "big")
        return words

    @staticmethod
    def echo(payload: bytes) -> list[bytes]:
        """The Echo of a challenge."""
        try:
            came = message.read(payload)
        except message.Unreadable:
            return []
        return [value for number, value in came.options if number == message.ECHO]

    def is_post(self, place: int, token: bytes) -> bool:
        """Whether a POST with a token came there."""
        payload = self.events[place][3]
        return payload[1:2] == b"\x02" and payload[4:4 + len(token)] == token

    def ticks(self) -> set[int]:
        """When time passes for sure: at whole seconds, in pauses, behind the end."""
        end = self.events[-1][0] + SECOND
        heard = [moment for moment, is_heard, _, _ in self.events if is_heard]
        ticks = {end}
        for moment, following in zip(heard, [*heard[1:], end]):
            if moment + PAUSE <= following:
                ticks.add(moment + PAUSE)
        marks = sorted({moment for moment, *_ in self.events} | ticks)
        for before, behind in zip(marks, marks[1:]):
            first = max(before // SECOND + 1, behind // SECOND - DAY + 1)
            ticks.update(each * SECOND for each in range(first, behind // SECOND + 1))
        return ticks

    def trace(self) -> list[str]:
        """The lines of its trace."""
        lines, words = [], self.words()
        ticks = sorted(self.ticks()) if self.events else []
        for place, (moment, is_heard, peer, payload) in enumerate(self.events):
            while ticks and ticks[0] <= moment:
                lines.append(f"tick 0 {ticks.pop(0)}")
            if is_heard:
                word = f" {words[place]}" if words.get(place) else ""
                lines.append(f"in 0 {moment} {peer} {payload.hex() or '-'}{word}")
                if len(payload) > 1 and 1 <= payload[1] < 32:
                    lines.append(f"go 0 {moment}")
        return lines + [f"tick 0 {moment}" for moment in ticks]

    def replies(self) -> list[str]:
        """What the server sent, as lines of an output."""
        return [f"out 0 {peer} {payload.hex()}" for _, is_heard, peer, payload in self.events
                if not is_heard]


# Conversations.

KINDS = ["CON", "NON", "ACK", "RST"]
METHODS = {1: "GET", 2: "POST", 3: "PUT", 4: "DELETE", 5: "FETCH", 6: "PATCH", 7: "iPATCH"}
CODES = {0x41: "Created", 0x42: "Deleted", 0x43: "Valid", 0x44: "Changed", 0x45: "Content",
         0x5F: "Continue", 0x80: "Bad Request", 0x81: "Unauthorized", 0x82: "Bad Option",
         0x84: "Not Found", 0x85: "Method Not Allowed", 0x86: "Not Acceptable",
         0x88: "Request Entity Incomplete", 0x8D: "Request Entity Too Large",
         0x8F: "Unsupported Content-Format", 0xA0: "Internal Server Error",
         0xA3: "Service Unavailable", 0xA5: "Proxying Not Supported"}
OPTIONS = {1: "If-Match", 3: "Uri-Host", 4: "ETag", 5: "If-None-Match", 6: "Observe",
           7: "Uri-Port", 8: "Location-Path", 9: "OSCORE", 11: "Uri-Path", 12: "Content-Format",
           14: "Max-Age", 15: "Uri-Query", 17: "Accept", 20: "Location-Query", 23: "Block2",
           27: "Block1", 28: "Size2", 35: "Proxy-Uri", 39: "Proxy-Scheme", 60: "Size1",
           252: "Echo"}
FORMATS = {40: "link-format"}
PLAIN = b"ABCDEFGHIJKLMNOPQRSTUVWXYZabcdefghijklmnopqrstuvwxyz0123456789-._~!$'*+;:@="


def escaped(octets: bytes) -> str:
    """A part of a path or a query, in which what could be taken for something else is escaped."""
    return "".join(chr(each) if each in PLAIN else f"%{each:02X}" for each in octets)


def uri(values: dict[int, list[bytes]], path: int, query: int) -> str:
    """The path and the query of a message."""
    parts = "&".join(map(escaped, values.get(query, [])))
    return "".join("/" + escaped(each) for each in values.get(path, [])) \
        + (f"?{parts}" if query in values else "")


def option_text(number: int, value: bytes, is_request: bool) -> str:
    """An option as a person reads it."""
    name, as_number = OPTIONS.get(number, f"option {number}"), int.from_bytes(value, "big")
    if number == 6 and is_request and as_number < 2:
        return f"{name} {['register', 'deregister'][as_number]}"
    if number in (12, 17):
        return f"{name} {FORMATS.get(as_number, as_number)}"
    if number in (23, 27) and len(value) < 4 and as_number & 7 < 7:
        return f"{name} {as_number >> 4}/{as_number >> 3 & 1}/{16 << (as_number & 7)}"
    if number in (6, 7, 14, 28, 60):
        return f"{name} {as_number}"
    if number in (3, 35, 39):
        return f"{name} {escaped(value).replace('%2F', '/')}"
    return f"{name} 0x{value.hex()}"


def message_text(read: Message) -> str:
    """A message as a person reads it, without its payload."""
    values: dict[int, list[bytes]] = {}
    for number, value in read.options:
        values.setdefault(number, []).append(value)
    kind, detail = read.code >> 5, read.code & 31
    is_request = kind == 0 and read.code != EMPTY
    text = f"{KINDS[read.kind]} [0x{read.mid:04x}] "
    if read.code == EMPTY:
        return text + "Empty"
    if is_request:
        name = METHODS.get(read.code, f"0.{detail:02} unknown method")
        at = uri(values, 11, 15)
        text += name + (f" {at}" if at else "")
    else:
        text += f"{kind}.{detail:02} {CODES.get(read.code, 'unknown')}"
        text += f" Location {uri(values, 8, 20)}" if 8 in values else ""
    text += f" (Token 0x{read.token.hex()})" if read.token else ""
    hidden = (11, 15) if is_request else (8, 20)
    shown = [option_text(number, value, is_request) for number, value in read.options
             if number not in hidden]
    return ", ".join([text, *shown])


def payload_text(payload: bytes) -> str:
    """A payload as a person reads it."""
    try:
        text = payload.decode()
    except UnicodeDecodeError:
        return f"octets 0x{payload.hex()}"
    shown = "".join(each if each.isprintable()
                    else "".join(f"%{octet:02X}" for octet in each.encode()) for each in text)
    return f"| {shown}"


def why_unreadable(octets: bytes) -> str:
    """Why a datagram is no message."""
    if len(octets) < 4:
        return f", shorter than a header: 0x{octets.hex()}"
    if octets[0] >> 6 != 1:
        return f" of version 1: 0x{octets.hex()}"
    if octets[0] & 15 > 8:
        return f", format error, token longer than 8 octets: 0x{octets.hex()}"
    return ", format error, "


def shown(octets: bytes) -> list[str]:
    """A datagram as a person reads it, the beginning of why it is none where it is no message."""
    try:
        read = message.read(octets)
    except message.Unreadable:
        return [f"    no message{why_unreadable(octets)}"]
    return [f"    {message_text(read)}"] \
        + ([f"    {payload_text(read.payload)}"] if read.payload else [])


class Conversation:
    """A trace as a conversation."""

    def __init__(self):
        self.machine = Machine(WORKERS)
        self.serving: dict[int, tuple[str, int]] = {}
        self.heard: dict[tuple[str, int], int] = {}
        self.sent: set[tuple[str, bytes]] = set()

    def lines(self, trace: bytes) -> list[str]:
        """All lines of the conversation."""
        told = []
        for number, line in enumerate(lines_of(trace), 1):
            try:
                kind, fields = fields_of(line)
                out = self.machine.line(line)
            except BadLine as bad:
                told.append(f"line {number}: {bad}")
                continue
            told += self.told(kind, fields) + self.answers(out)
        _, changes, live, observers = self.machine.end().split()
        return told + [f"(in the end: accepted changes {changes}, live registrations {live}, "
                       f"observers {observers})"]

    def told(self, kind: str, fields) -> list[str]:
        """What is said of a line of the trace."""
        worker, moment = int(fields[0]), int(fields[1])
        at = f"{moment // 1_000}.{moment % 1_000:03} s  "
        if kind == "tick":
            return [f"{at}(time passes)"]
        if kind == "go":
            peer, mid = self.serving.pop(worker, ("", 0))
            served = f"serves [0x{mid:04x}] of {peer}" if peer else "has nothing to serve"
            return [f"{at}(worker {worker} {served})"]
        octets = b"" if fields[3] == "-" else bytes.fromhex(fields[3])
        if self.machine.jobs[worker]:
            self.serving[worker] = fields[2], int.from_bytes(octets[2:4], "big")
        repeated = ", repeated" if self.is_repeated(fields[2], octets) else ""
        return [f"{at}{fields[2]} → directory (worker {worker}{repeated})", *shown(octets)]

    def is_repeated(self, peer: str, octets: bytes) -> bool:
        """Whether a message has a Message ID of one that came before, not too long ago."""
        try:
            read = message.read(octets)
        except message.Unreadable:
            return False
        if read.kind not in (CON, message.NON):
            return False
        before = self.heard.get((peer, read.mid))
        if before is not None and self.machine.moment - before < LIFETIME:
            return True
        self.heard[peer, read.mid] = self.machine.moment
        return False

    def answers(self, out: list[str]) -> list[str]:
        """What is said of what the directory sends."""
        told = []
        for line in out:
            _, _, peer, digits = line.split(" ")
            octets = bytes.fromhex(digits)
            is_again = octets[0] >> 4 & 3 == CON and (peer, octets) in self.sent
            self.sent.add((peer, octets))
            told += [f"  directory → {peer}" + " (sent again)" * is_again, *shown(octets)]
        return told


def is_same(came: str, wanted: str) -> bool:
    """Whether a line is as read here; of what is no message only the beginning is read."""
    return came == wanted or wanted.endswith("format error, ") and came.startswith(wanted)


class Check:
    """What was compared, and what differs."""

    def __init__(self):
        self.compared = self.differ = 0

    def lines(self, name: str, came: list[str], read: list[str]):
        """Compares lines that are stored with those that are read here."""
        self.compared += len(read)
        for number, (one, other) in enumerate(zip(came, read), 1):
            if not is_same(one, other):
                self.differ += 1
                print(f"{name}, line {number}:\n  stored {one}\n  read   {other}")
                return
        if len(came) != len(read):
            self.differ += 1
            print(f"{name}: {len(came)} lines are stored, {len(read)} are read")

    def captures(self):
        """The stored run of rd_capture, and captures of a running server."""
        folder = CRATES / "rd_capture"
        recording = Recording((folder / "stdin").read_bytes())
        self.lines("rd_capture", (folder / "stdout").read_text().splitlines(), recording.trace())
        data = CRATES / "rd_rows" / "data" / "recordings"
        for line in (data / "captures").read_text().splitlines():
            if line.startswith("replay ") and line.endswith(".pcap"):
                recording = Recording((data / line.split()[1]).read_bytes())
                trace = "\n".join(recording.trace()).encode()
                self.lines(line, recording.replies(), answered(trace, 1)[0][:-1])

    def conversations(self):
        """The stored run of rd_show, and the pages of the examples."""
        folder = CRATES / "rd_show"
        self.lines("rd_show", (folder / "stdout").read_text().splitlines(),
                   Conversation().lines((folder / "stdin").read_bytes()))
        for page in sorted(EXAMPLES.glob("*.md")):
            trace = page.with_suffix(".trace")
            if trace.exists():
                text = page.read_text().split("```text\n")[1].split("```\n")[0]
                self.lines(page.name, text.splitlines(),
                           Conversation().lines(trace.read_bytes()))


def main():
    """Compares all."""
    check = Check()
    check.captures()
    check.conversations()
    print(f"{check.compared} lines read a second time, {check.differ} differ")
    sys.exit(check.differ > 0)


if __name__ == "__main__":
    main()
