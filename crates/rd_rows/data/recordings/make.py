#!/usr/bin/env python3
"""Makes the stored captures of this folder, the list of cases (captures) and what is to come of
them (captures.out), and the stored run of rd_capture. It knows the forms of captures from their
documents (draft-ietf-opsawg-pcap, draft-ietf-opsawg-pcapng, the registry of link types) and shares
nothing with the program: what is to come is written down beside each packet, and not read back
from it.

    python3 make.py        writes all files anew
"""
import ipaddress
import os
import re
import struct

HERE = os.path.dirname(os.path.abspath(__file__))
CASES_OF = os.path.join(HERE, "..")
CAPTURE = os.path.join(HERE, "..", "..", "..", "rd_capture")
LISTS = ("captures", "captures.out")
# captures of running servers, which are not made here, and how many datagrams each sent
RECORDED = [("clients.pcap", 34)]
# the same of rd_host at 127.0.0.1 and ::1, of four workers, with the number above which it began;
# clients/recordings.py made it, and hostile/plain answers its trace as rd_host did
RECORDED_OF_WORKERS = [("host.pcap", 83, 1_796_062_647_227)]
PORT = 5683
CAP = 86_400  # seconds with a tick at most behind one moment
LAST = 999_999_999_999_999

# ---------------------------------------------------------------- packets


def checksum(data):
    if len(data) % 2:
        data += b"\0"
    total = sum(struct.unpack(f">{len(data) // 2}H", data))
    while total > 0xFFFF:
        total = (total & 0xFFFF) + (total >> 16)
    return ~total & 0xFFFF


def addr(text):
    return ipaddress.ip_address(text).packed


def udp(src, dst, payload, length=None):
    """A UDP datagram between two (address, port), with its checksum."""
    size = 8 + len(payload) if length is None else length
    head = struct.pack(">HHHH", src[1], dst[1], size & 0xFFFF, 0)
    pseudo = addr(src[0]) + addr(dst[0]) + struct.pack(">HH", 17, (8 + len(payload)) & 0xFFFF)
    value = checksum(pseudo + head + payload) or 0xFFFF
    return struct.pack(">HHHH", src[1], dst[1], size & 0xFFFF, value) + payload


def ipv4(src, dst, payload, protocol=17, options=b"", flags=0x4000, version=4, words=None,
         total=None):
    words = 5 + len(options) // 4 if words is None else words
    total = 20 + len(options) + len(payload) if total is None else total
    head = struct.pack(">BBHHHBBH", version << 4 | words, 0, total, 7, flags, 64, protocol, 0)
    head += addr(src) + addr(dst) + options
    value = checksum(head)
    return head[:10] + struct.pack(">H", value) + head[12:] + payload


def ipv6(src, dst, payload, header=17, version=6, length=None):
    length = len(payload) if length is None else length
    head = struct.pack(">IHBB", version << 28, length, header, 64)
    return head + addr(src) + addr(dst) + payload


def packet(src, dst, payload, **more):
    """An IP packet with a UDP datagram."""
    data = udp(src, dst, payload)
    make = ipv6 if ":" in src[0] else ipv4
    return make(src[0], dst[0], data, **more)


MACS = bytes.fromhex("020000000001020000000002")


def ethernet(data, kind=None, tags=()):
    kind = (0x86DD if data[0] >> 4 == 6 else 0x0800) if kind is None else kind
    head = MACS
    for tag, number in tags:
        head += struct.pack(">HH", tag, number)
    return head + struct.pack(">H", kind) + data


def cooked(data, kind=None, tags=()):
    kind = (0x86DD if data[0] >> 4 == 6 else 0x0800) if kind is None else kind
    head = struct.pack(">HHH8s", 0, 1, 6, bytes.fromhex("0200000000010000"))
    for tag, number in tags:
        head += struct.pack(">HH", tag, number)
    return head + struct.pack(">H", kind) + data


def cooked2(data, kind=None):
    kind = (0x86DD if data[0] >> 4 == 6 else 0x0800) if kind is None else kind
    address = bytes.fromhex("0200000000010000")
    return struct.pack(">HHIHBB8s", kind, 0, 3, 1, 0, 6, address) + data


# ---------------------------------------------------------------- what is to come


def peer(where):
    address, port = where
    if ":" in address:
        address = f"[{ipaddress.ip_address(address).compressed}]"
    return f"{address}:{port}"


def digits(payload):
    return payload.hex() or "-"


class Story:
    """What is to come of a capture: datagrams that are met, packets that are not read."""

    def __init__(self):
        self.met = []  # (milliseconds, "in" or "out", peer, payload, and of some "in" the word)
        self.said = []
        self.packets = 0

    def trace(self):
        if not self.met:
            return []
        moments, latest = [], 0
        for at, *_ in self.met:
            latest = min(max(latest, at), LAST)
            moments.append(latest)
        end = min(moments[-1] + 1000, LAST)
        ticks = {end}
        marks = sorted(set(moments + [end]))
        heard = [m for m, event in zip(moments, self.met) if event[1] == "in"]
        for place, m in enumerate(heard):
            behind = heard[place + 1] if place + 1 < len(heard) else end
            if m + 50 <= behind:
                ticks.add(m + 50)
        for before, behind in zip(marks, marks[1:]):
            pauses = [p for p in ticks if before < p <= behind and p not in marks]
            for low, high in zip([before] + sorted(pauses), sorted(pauses) + [behind]):
                first = max(low // 1000, high // 1000 - CAP)
                ticks.update((s + 1) * 1000 for s in range(first, high // 1000))
        lines, left = [], sorted(ticks)
        for m, (_, way, where, payload, *word) in zip(moments, self.met):
            while left and left[0] <= m:
                lines.append(f"tick 0 {left.pop(0)}")
            if way == "in":
                lines.append(" ".join(["in 0", str(m), peer(where), digits(payload), *word]))
                if len(payload) > 1 and 1 <= payload[1] <= 31:
                    lines.append(f"go 0 {m}")
        return lines + [f"tick 0 {m}" for m in left]

    def replies(self):
        sent = [(where, payload) for _, way, where, payload, *_ in self.met if way == "out"]
        return [f"out 0 {peer(where)} {digits(payload)}" for where, payload in sent]


class Pcap(Story):
    """A classic capture."""

    def __init__(self, link, order="<", nanoseconds=False, magic=None, version=(2, 4),
                 snap=1 << 18):
        super().__init__()
        self.order, self.unit = order, 1_000_000 if nanoseconds else 1_000
        magic = (0xA1B23C4D if nanoseconds else 0xA1B2C3D4) if magic is None else magic
        self.octets = struct.pack(order + "IHHIIII", magic, *version, 0, 0, snap, link)
        self.sizes = []

    def add(self, at, frame, event=None, captured=None, claimed=None):
        """A packet at so many milliseconds; event: what is to come of it."""
        data = frame if captured is None else frame[:captured]
        size = len(data) if claimed is None else claimed
        time = (at // 1000, at % 1000 * self.unit)
        self.octets += struct.pack(self.order + "IIII", *time, size, len(frame)) + data
        self.note(at, event)
        return self

    def note(self, at, event):
        self.packets += 1
        self.sizes.append(len(self.octets))
        if isinstance(event, str):
            self.said.append(f"packet {self.packets}: {event}")
        elif event is not None:
            self.met.append((at, *event))


class Pcapng(Story):
    """A capture of blocks."""

    def __init__(self):
        super().__init__()
        self.octets, self.order = b"", "<"

    def block(self, kind, body, length=None):
        body += b"\0" * (-len(body) % 4)
        length = 12 + len(body) if length is None else length
        size = struct.pack(self.order + "I", length)
        self.octets += struct.pack(self.order + "I", kind) + size + body + size
        return self

    def options(self, *options):
        data = b""
        for code, value in options:
            data += struct.pack(self.order + "HH", code, len(value)) + value
            data += b"\0" * (-len(value) % 4)
        return data + (struct.pack(self.order + "HH", 0, 0) if options else b"")

    def section(self, order, version=(1, 0), magic=0x1A2B3C4D, options=()):
        self.order = order
        body = struct.pack(order + "IHHq", magic, *version, -1) + self.options(*options)
        return self.block(0x0A0D0D0A, body)

    def interface(self, link, snap=0, options=()):
        body = struct.pack(self.order + "HHI", link, 0, snap)
        return self.block(1, body + self.options(*options))

    def note(self, at, event):
        self.packets += 1
        if isinstance(event, str):
            self.said.append(f"packet {self.packets}: {event}")
        elif event is not None:
            self.met.append((at, *event))
        return self

    def enhanced(self, interface, ticks, frame, at, event, captured=None, options=(),
                 claimed=None):
        data = frame if captured is None else frame[:captured]
        size = len(data) if claimed is None else claimed
        time = (ticks >> 32, ticks & 0xFFFFFFFF)
        body = struct.pack(self.order + "IIIII", interface, *time, size, len(frame))
        self.block(6, body + data + b"\0" * (-len(data) % 4) + self.options(*options))
        return self.note(at, event)

    def obsolete(self, interface, ticks, frame, at, event):
        time = (ticks >> 32, ticks & 0xFFFFFFFF)
        body = struct.pack(self.order + "HHIIII", interface, 0, *time, len(frame), len(frame))
        self.block(2, body + frame)
        return self.note(at, event)

    def simple(self, frame, at, event, captured=None):
        data = frame if captured is None else frame[:captured]
        self.block(3, struct.pack(self.order + "I", len(frame)) + data)
        return self.note(at, event)


# ---------------------------------------------------------------- the cases

FILES, CASES, COMES = {}, [], []


def say(text):
    CASES.append("")
    CASES.append("# " + text)


def case(line, lines, status=None):
    CASES.append(line)
    COMES.append(line)
    COMES.extend(lines)
    if status is not None:
        COMES.append(f"status {status}")


def read(name, story, *words):
    """A capture is read as a trace."""
    FILES[name] = story.octets
    case(" ".join(["read", name, *words]), story.trace() + story.said, 0)


def replies(name, story, *words):
    """What was sent is read of a capture."""
    FILES[name] = story.octets
    case(" ".join(["read", name, "--replies", *words]), story.replies() + story.said, 0)


def refused(name, octets, why, status, *words):
    if name is not None:
        FILES[name] = octets
    case(" ".join(["read", name, *words]), [why], status)


def told(name, text, word):
    """The program tells of itself, and reads nothing."""
    case(" ".join(["read", name, word]), text.split("\n"), 0)


HELP = """\
Reads a capture of the network as a trace, or writes a trace and its output as a capture

Usage: rd_capture [--port P] [--begin N] [--workers] [--replies | --pcap] < CAPTURE > OUTPUT

Options:
      --port <P>  The server's port, from 1 to 65535 [default: 5683]
      --begin <N> Write first that the run begins above N, at most 281474976710655
      --workers   Put each datagram at the worker that answered it, of several
      --replies   Write what the server sent, as lines of the output of a trace
      --pcap      Read a trace and its output, and write a capture
  -h, --help      Print help
  -V, --version   Print version"""

GET = bytes.fromhex("40010101")  # GET of nothing, confirmable
POST = bytes.fromhex("4102002001b27264")  # POST /rd
CONTENT = bytes.fromhex("60450101ff68656c6c6f")  # 2.05 with "hello"
CREATED = bytes.fromhex("61410020018272640131")  # 2.01 /rd/1
DEVICE, SERVER, OTHER = ("192.0.2.10", 40000), ("192.0.2.1", PORT), ("192.0.2.20", 5353)
DEVICE6, SERVER6 = ("2001:db8::10", 40000), ("2001:db8::1", PORT)
BASE = 1_700_000_000_000  # 2023-11-14, in milliseconds


def in_of(where, payload):
    return ("in", where, payload)


def out_of(where, payload):
    return ("out", where, payload)


def pairs(capture, wrap, at=BASE, first=DEVICE, server=SERVER):
    """A request and its answer, 4 ms later, each in what the link layer wraps round it."""
    capture.add(at, wrap(packet(first, server, GET)), in_of(first, GET))
    capture.add(at + 4, wrap(packet(server, first, CONTENT)), out_of(first, CONTENT))
    return capture


def link_layers():
    say("Ethernet: padding, VLAN tags, IPv6, IPv4 options, and what is passed over without a word")
    story = pairs(Pcap(1), ethernet)
    short = ethernet(packet(DEVICE, SERVER, b"\x40\x01\x01\x02"))
    story.add(BASE + 10, short + b"\xee" * (60 - len(short)), in_of(DEVICE, b"\x40\x01\x01\x02"))
    tagged = ethernet(packet(DEVICE, SERVER, POST), tags=[(0x8100, 5)])
    story.add(BASE + 12, tagged, in_of(DEVICE, POST))
    tagged = ethernet(packet(SERVER, DEVICE, CREATED), tags=[(0x88A8, 7), (0x8100, 5)])
    story.add(BASE + 13, tagged, out_of(DEVICE, CREATED))
    story.add(BASE + 14, ethernet(bytes.fromhex("0001080006040001") + bytes(20), kind=0x0806))
    story.add(BASE + 14, ethernet(ipv4("192.0.2.10", "192.0.2.1", bytes(20), protocol=6)))
    story.add(BASE + 14, ethernet(packet(DEVICE, OTHER, b"mdns")))
    story.add(BASE + 14, MACS + struct.pack(">H", 38) + bytes(38))
    story.add(BASE + 15, ethernet(packet(DEVICE6, SERVER6, GET)), in_of(DEVICE6, GET))
    optioned = ethernet(packet(DEVICE, SERVER, GET, options=bytes.fromhex("94040000") * 2))
    story.add(BASE + 16, optioned, in_of(DEVICE, GET))
    story.add(BASE + 17, ethernet(packet(DEVICE, SERVER, b"")), in_of(DEVICE, b""))
    story.add(BASE + 18, ethernet(packet(DEVICE, SERVER, CONTENT)), in_of(DEVICE, CONTENT))
    story.add(BASE + 19, ethernet(packet(SERVER6, DEVICE6, CONTENT)), out_of(DEVICE6, CONTENT))
    read("ethernet.pcap", story)
    replies("ethernet.pcap", story)

    say("the number of an address family, in either order; IPv6 as systems number it; another one")
    story = Pcap(0)
    for place, family in enumerate(["02000000", "00000002"]):
        frame = bytes.fromhex(family) + packet(DEVICE, SERVER, GET)
        story.add(BASE + place, frame, in_of(DEVICE, GET))
    for place, family in enumerate(["0a000000", "18000000", "1c000000", "1e000000", "0000001e"]):
        frame = bytes.fromhex(family) + packet(DEVICE6, SERVER6, GET)
        story.add(BASE + 5 + place, frame, in_of(DEVICE6, GET))
    story.add(BASE + 20, bytes.fromhex("17000000") + packet(DEVICE, SERVER, GET))
    read("null.pcap", story)
    story = Pcap(108)
    story.add(BASE, b"\0\0\0\x02" + packet(DEVICE, SERVER, GET), in_of(DEVICE, GET))
    story.add(BASE + 1, b"\0\0\0\x1c" + packet(DEVICE6, SERVER6, GET), in_of(DEVICE6, GET))
    read("loop.pcap", story)

    say("Linux, cooked, both versions; a VLAN tag")
    story = pairs(Pcap(113), cooked)
    tagged = cooked(packet(DEVICE, SERVER, POST), tags=[(0x8100, 5)])
    story.add(BASE + 20, tagged, in_of(DEVICE, POST))
    story.add(BASE + 21, cooked(packet(DEVICE6, SERVER6, GET)), in_of(DEVICE6, GET))
    story.add(BASE + 22, cooked(bytes(28), kind=0x0806))
    read("cooked.pcap", story)
    story = pairs(Pcap(276), cooked2)
    story.add(BASE + 21, cooked2(packet(DEVICE6, SERVER6, GET)), in_of(DEVICE6, GET))
    story.add(BASE + 22, cooked2(bytes(28), kind=0x0806))
    read("cooked2.pcap", story)

    say("IP packets without a link layer; of a version that is neither, or not what was said")
    for name, link in [("raw.pcap", 101), ("raw12.pcap", 12)]:
        story = pairs(Pcap(link), lambda data: data)
        story.add(BASE + 9, packet(DEVICE6, SERVER6, GET), in_of(DEVICE6, GET))
        story.add(BASE + 10, packet(DEVICE, SERVER, GET, version=5), "version")
        read(name, story)
    story = pairs(Pcap(228), lambda data: data)
    story.add(BASE + 9, packet(DEVICE6, SERVER6, GET), "version")
    read("ipv4.pcap", story)
    story = pairs(Pcap(229), lambda data: data, BASE, DEVICE6, SERVER6)
    story.add(BASE + 9, packet(DEVICE, SERVER, GET), "version")
    read("ipv6.pcap", story)

    say("Ethernet frames that end in a check sequence, which the upper bits of the link type say")
    story = Pcap(0x2400_0001)
    frame = ethernet(packet(DEVICE, SERVER, GET)) + b"\x01\x02\x03\x04"
    story.add(BASE, frame, in_of(DEVICE, GET))
    read("check-sequence.pcap", story)

    say("another link layer, of which each packet is named")
    story = Pcap(127)
    story.add(BASE, bytes(40), "link layer").add(BASE, bytes(40), "link layer")
    read("radio.pcap", story)


def orders():
    say("classic captures in the other order, with nanoseconds, and both")
    read("big-endian.pcap", pairs(Pcap(101, ">"), lambda data: data))
    story = pairs(Pcap(101, "<", True), lambda data: data)
    story.octets += struct.pack("<IIII", BASE // 1000, 8_999_999, 32, 32)
    story.octets += packet(DEVICE, SERVER, GET)
    story.note(BASE + 8, in_of(DEVICE, GET))
    read("nanoseconds.pcap", story)
    read("nanoseconds-big-endian.pcap", pairs(Pcap(101, ">", True), lambda data: data))


def internet():
    def extension(following, size, kind=None):
        return struct.pack(">BB", following, size) + bytes(6 + 8 * size)

    say("IPv6 extension headers: those that are passed over, others, fragments, some that are cut")
    story = Pcap(229)
    data = udp(DEVICE6, SERVER6, GET)

    def add(headers, octets, event, at):
        story.add(at, ipv6(DEVICE6[0], SERVER6[0], octets, header=headers), event)

    add(0, extension(17, 0) + data, in_of(DEVICE6, GET), BASE)
    add(43, extension(17, 2) + data, in_of(DEVICE6, GET), BASE + 1)
    add(60, extension(17, 1) + data, in_of(DEVICE6, GET), BASE + 2)
    three = extension(43, 0) + extension(60, 2) + extension(17, 0)
    add(0, three + data, in_of(DEVICE6, GET), BASE + 3)
    add(0, extension(6, 0) + bytes(20), None, BASE + 4)
    add(59, b"", None, BASE + 5)
    add(51, extension(17, 1) + data, None, BASE + 6)
    add(44, struct.pack(">BBHI", 17, 0, 1, 9) + data, "fragment", BASE + 7)
    add(0, extension(44, 0) + struct.pack(">BBHI", 17, 0, 8, 9) + data, "fragment", BASE + 8)
    add(0, extension(17, 3)[:16], "cut", BASE + 9)
    add(0, b"\x11", "cut", BASE + 10)
    read("extensions.pcap", story)

    say("IPv4 fragments: more follow, an offset, both; those of another protocol are passed over")
    story = Pcap(228)
    for flags in [0x2000, 0x0001, 0x3FFF, 0x2001]:
        story.add(BASE, packet(DEVICE, SERVER, GET, flags=flags), "fragment")
    story.add(BASE, ipv4("192.0.2.10", "192.0.2.1", bytes(20), protocol=6, flags=0x2000))
    for flags in [0x0000, 0x4000, 0x8000]:
        story.add(BASE + 1, packet(DEVICE, SERVER, GET, flags=flags), in_of(DEVICE, GET))
    read("fragments.pcap", story)

    say("lengths below those of their own headers; a datagram longer than its packet, and shorter")
    story = Pcap(228)
    story.add(BASE, packet(DEVICE, SERVER, GET, words=4), "length")
    story.add(BASE, packet(DEVICE, SERVER, GET, words=0), "length")
    story.add(BASE, packet(DEVICE, SERVER, GET, total=19), "length")
    story.add(BASE, packet(DEVICE, SERVER, GET, total=0), "length")
    story.add(BASE, ipv4("192.0.2.10", "192.0.2.1", udp(DEVICE, SERVER, GET, 7)), "length")
    story.add(BASE, ipv4("192.0.2.10", "192.0.2.1", udp(DEVICE, SERVER, GET, 0)), "length")
    story.add(BASE, ipv4("192.0.2.10", "192.0.2.1", udp(DEVICE, SERVER, GET, 13)), "cut")
    story.add(BASE, packet(DEVICE, SERVER, GET, total=31), "cut")
    story.add(BASE, packet(DEVICE, SERVER, GET, total=20), "cut")
    shorter = ipv4("192.0.2.10", "192.0.2.1", udp(DEVICE, SERVER, GET, 11))
    story.add(BASE + 1, shorter, in_of(DEVICE, GET[:3]))
    shorter = ipv4("192.0.2.10", "192.0.2.1", udp(DEVICE, SERVER, GET, 8))
    story.add(BASE + 2, shorter, in_of(DEVICE, b""))
    story.add(BASE + 3, ipv4("192.0.2.10", "192.0.2.1", udp(DEVICE, OTHER, GET, 7)))
    read("lengths.pcap", story)

    say("packets that are cut in each header; what is known to be none before is passed over")
    story = Pcap(1)
    whole = ethernet(packet(DEVICE, SERVER, GET))
    other = ethernet(packet(DEVICE, OTHER, GET))
    stream = ethernet(ipv4("192.0.2.10", "192.0.2.1", bytes(20), protocol=6))
    tagged = ethernet(packet(DEVICE, SERVER, GET), tags=[(0x8100, 5)])
    for size in [0, 1, 11, 13, 14, 33, 34, 37, 41, 42, 45]:
        story.add(BASE, whole, "cut", captured=size)
    for size in [15, 17]:
        story.add(BASE, tagged, "cut", captured=size)
    story.add(BASE, stream, "cut", captured=33)
    story.add(BASE, stream, None, captured=34)
    story.add(BASE, other, None, captured=38)
    story.add(BASE, ethernet(bytes(28), kind=0x0806), None, captured=14)
    story.add(BASE, whole, in_of(DEVICE, GET))
    read("cut.pcap", story)

    say("a datagram of 4,096 octets, and one of 4,097; port 0, which no line names")
    story = Pcap(101)
    most = POST + bytes(range(256)) * 15 + bytes(248)
    assert len(most) == 4096
    story.add(BASE, packet(DEVICE, SERVER, most), in_of(DEVICE, most))
    story.add(BASE + 1, packet(DEVICE, SERVER, most + b"1"), "too long")
    story.add(BASE + 2, packet(SERVER, DEVICE, most + b"1"), "too long")
    story.add(BASE + 3, packet(("192.0.2.10", 0), SERVER, GET), "port")
    story.add(BASE + 4, packet(SERVER, ("192.0.2.10", 0), GET), "port")
    story.add(BASE + 5, packet(DEVICE, SERVER, GET), in_of(DEVICE, GET))
    read("long.pcap", story)

    say("packets between two ports that are that of the server: its address tells what it sent")
    other = ("192.0.2.10", PORT)
    third = ("192.0.2.30", PORT)
    story = Pcap(101)
    story.add(BASE, packet(other, SERVER, GET), in_of(other, GET))
    story.add(BASE + 1, packet(SERVER, other, CONTENT), out_of(other, CONTENT))
    story.add(BASE + 2, packet(SERVER, third, GET), out_of(third, GET))
    story.add(BASE + 3, packet(third, SERVER, CONTENT), in_of(third, CONTENT))
    story.add(BASE + 4, packet(DEVICE6, SERVER6, GET), in_of(DEVICE6, GET))
    sixth = ("2001:db8::20", PORT)
    story.add(BASE + 5, packet(SERVER6, sixth, GET), out_of(sixth, GET))
    story.add(BASE + 6, packet(sixth, SERVER6, CONTENT), in_of(sixth, CONTENT))
    read("both-ports.pcap", story)
    replies("both-ports.pcap", story)


def times():
    say("ticks: each whole second, 50 ms behind a datagram, one a moment; moments that go back")
    story = Pcap(101)
    steps = [950, 1000, 1049, 1050, 1100, 1149, 1100, 1200, 1250, 1900, 1950, 2000, 2000, 2001,
             5950, 8020]
    for place, at in enumerate(steps):
        event = bytes([0x40, 1, 0, place])
        story.add(BASE + at, packet(DEVICE, SERVER, event), in_of(DEVICE, event))
    story.add(BASE + 9300, packet(SERVER, DEVICE, CONTENT), out_of(DEVICE, CONTENT))
    read("ticks.pcap", story)

    say("a capture without a packet for the port, and one without a packet")
    story = Pcap(101)
    story.add(BASE, packet(DEVICE, OTHER, GET))
    read("others.pcap", story)
    read("empty.pcap", Pcap(101))

    say("a gap of more than a day: a tick each second of its last day")
    story = Pcap(101)
    story.add(1_000, packet(DEVICE, SERVER, GET), in_of(DEVICE, GET))
    story.add(BASE, packet(DEVICE, SERVER, GET), in_of(DEVICE, GET))
    FILES["gap.pcap"] = story.octets
    front = Pcap(101)
    front.add(1_000, packet(DEVICE, SERVER, GET), in_of(DEVICE, GET))
    case("fronts gap.pcap", fronts(front, story))


def fronts(*stories):
    """What the fronts of a classic capture end as: the stories are its fronts of whole packets."""
    ends = [24] + [len(story.octets) for story in stories]
    states = [(0, 0)] + [(len(story.trace()), len(story.said)) for story in stories]
    lines, last = [], None
    for length in range(ends[-1] + 1):
        if length < 24:
            state = (4, 0, 1)
        else:
            place = max(k for k, end in enumerate(ends) if end <= length)
            state = (0, states[place][0], states[place][1] + (length != ends[place]))
        if state != last:
            lines.append(f"from {length}: status {state[0]}, {state[1]} lines, {state[2]} said")
            last = state
    return lines


def blocks():
    say("blocks: sections in both orders, ticks of interfaces, packet blocks of each kind, others")
    story = Pcapng().section("<", options=[(1, b"made for a case"), (4, b"by hand")])
    story.interface(101)
    story.interface(1, 0, [(2, b"eth0"), (9, b"\x09"), (11, b"\0udp port 5683")])
    story.interface(101, 0, [(9, b"\x8a")])
    story.interface(101, 0, [(9, b"\x00"), (14, struct.pack("<q", -3))])
    story.interface(101, 0, [(9, b"\x03"), (14, struct.pack("<q", 2))])
    story.interface(101, 0, [(9, b"\xc0")])
    story.interface(101, 0, [(9, b"\x13")])
    story.interface(127)
    raw, framed = packet(DEVICE, SERVER, GET), ethernet(packet(DEVICE, SERVER, GET))
    story.enhanced(0, (BASE + 1) * 1000 + 999, raw, BASE + 1, in_of(DEVICE, GET))
    name = struct.pack("<HH", 1, 9) + addr("192.0.2.10") + b"node\0"
    story.block(4, name + bytes(3) + bytes(4))
    ticks, flags = (BASE + 2) * 1_000_000 + 1, (2, b"\0\0\0\1")
    story.enhanced(1, ticks, framed, BASE + 2, in_of(DEVICE, GET), options=[flags])
    ticks = (BASE * 1024 // 1000) + 3
    story.enhanced(2, ticks, raw, ticks * 1000 // 1024, in_of(DEVICE, GET))
    story.enhanced(3, BASE // 1000 + 4, raw, BASE + 1000, in_of(DEVICE, GET))
    story.enhanced(4, BASE - 500, raw, BASE + 1500, in_of(DEVICE, GET))
    story.simple(raw, BASE + 1500, in_of(DEVICE, GET))
    story.enhanced(5, 1 << 63, raw, 500, in_of(DEVICE, GET))
    story.enhanced(6, 17 * 10**18, raw, 1700, in_of(DEVICE, GET))
    story.enhanced(7, BASE * 1000, raw, BASE, "link layer")
    story.obsolete(0, (BASE + 1600) * 1000, raw, BASE + 1600, in_of(DEVICE, GET))
    story.block(5, struct.pack("<III", 0, 0, 0) + story.options((4, bytes(8))))
    story.block(0x00000BAD, b"\0\0\x7d\x00what another program says")
    story.block(0x40000BAD, b"\0\0\x7d\0")
    story.enhanced(0, (BASE + 1700) * 1000, raw, BASE, "cut", captured=31)
    story.section(">")
    story.interface(101, 32)
    story.interface(1)
    story.enhanced(0, (BASE + 1800) * 1000, raw, BASE + 1800, in_of(DEVICE, GET))
    story.enhanced(1, (BASE + 1801) * 1000, framed, BASE + 1801, in_of(DEVICE, GET))
    story.simple(packet(DEVICE, SERVER, POST), BASE, "cut", captured=32)
    story.simple(raw, BASE + 1801, in_of(DEVICE, GET))
    story.obsolete(1, (BASE + 1802) * 1000, framed, BASE + 1802, in_of(DEVICE, GET))
    answer = ethernet(packet(SERVER, DEVICE, CONTENT))
    story.enhanced(1, (BASE + 1803) * 1000, answer, BASE + 1803, out_of(DEVICE, CONTENT))
    read("blocks.pcapng", story)
    replies("blocks.pcapng", story)

    say("packets of interfaces that no block of the section describes; packets past their blocks")
    story = Pcapng().section("<").interface(101)
    story.enhanced(0, BASE * 1000, raw, BASE, in_of(DEVICE, GET))
    story.enhanced(1, BASE * 1000, raw, BASE, "interface")
    story.enhanced(0xFFFFFFFF, BASE * 1000, raw, BASE, "interface")
    story.obsolete(9, BASE * 1000, raw, BASE, "interface")
    story.enhanced(0, BASE * 1000, raw, BASE, "cut", claimed=33)
    story.enhanced(0, BASE * 1000, raw, BASE, "cut", claimed=0xFFFFFFFF)
    story.block(6, bytes(19)).note(BASE, "cut")
    story.block(3, b"").note(BASE, "cut")
    story.block(6, b"").note(BASE, "cut")
    story.section(">")
    story.simple(raw, BASE, "interface")
    story.enhanced(0, BASE * 1000, raw, BASE, "interface")
    story.interface(101)
    story.enhanced(0, BASE * 1000 + 7000, raw, BASE + 7, in_of(DEVICE, GET))
    read("interfaces.pcapng", story)

    say("blocks of lengths that no block has, and a section of an unknown form, end the capture")
    for length in [0, 8, 14]:
        name = f"length-{length}.pcapng"
        story = Pcapng().section("<").interface(101)
        story.enhanced(0, BASE * 1000, raw, BASE, in_of(DEVICE, GET))
        story.block(0x0BAD, b"", length).note(BASE, "block")
        story.enhanced(0, BASE * 1000, raw, BASE, None)
        read(name, story)
    forms = [("section-magic", {"magic": 0x1A2B3C4E}), ("section-version", {"version": (2, 0)})]
    for name, form in forms:
        story = Pcapng().section("<").interface(101)
        story.enhanced(0, BASE * 1000, raw, BASE, in_of(DEVICE, GET))
        story.section(">", **form).note(BASE, "block")
        read(name + ".pcapng", story)
    story = Pcapng().section("<").block(1, bytes(4)).note(BASE, "block")
    read("interface-cut.pcapng", story)

    say("a file that ends in the middle")
    story = Pcapng().section("<").interface(101)
    story.enhanced(0, BASE * 1000, raw, BASE, in_of(DEVICE, GET))
    ends = {0, len(story.octets)}
    first = len(Pcapng().section("<").octets)
    ends.add(first)
    ends.add(len(Pcapng().section("<").interface(101).octets))
    FILES["small.pcapng"] = story.octets
    lines, last = [], None
    for length in range(len(story.octets) + 1):
        met = len(story.trace()) if length == len(story.octets) else 0
        state = (4, 0, 1) if length < first else (0, met, int(length not in ends))
        if state != last:
            lines.append(f"from {length}: status {state[0]}, {state[1]} lines, {state[2]} said")
        last = state
    case("fronts small.pcapng", lines)
    parts = []
    for count in range(1, 5):
        part = Pcap(1)
        part.add(BASE, ethernet(packet(DEVICE, SERVER, GET)), in_of(DEVICE, GET))
        if count > 1:
            part.add(BASE + 60, ethernet(packet(DEVICE, SERVER, GET, flags=0x2000)), "fragment")
        if count > 2:
            part.add(BASE + 990, ethernet(packet(DEVICE6, SERVER6, POST)), in_of(DEVICE6, POST))
        if count > 3:
            created = ethernet(packet(SERVER6, DEVICE6, CREATED))
            part.add(BASE + 1990, created, out_of(DEVICE6, CREATED))
        parts.append(part)
    FILES["small.pcap"] = parts[-1].octets
    case("fronts small.pcap", fronts(*parts))

    say("a packet longer than the rest of the file")
    story = Pcap(101)
    story.add(BASE, packet(DEVICE, SERVER, GET), in_of(DEVICE, GET))
    story.add(BASE, packet(DEVICE, SERVER, GET), "cut", claimed=1000)
    read("past-the-end.pcap", story)


# What `rd_capture` prints of an input that is no capture.
NO_CAPTURE = "standard input: it is no capture"


def no_captures():
    say("files that are no captures")
    refused("nothing.pcap", b"", NO_CAPTURE, 4)
    refused("text.pcap", b"in 0 5 192.0.2.10:5683 40011234\n", NO_CAPTURE, 4)
    refused("version.pcap", Pcap(1, version=(3, 0)).octets, NO_CAPTURE, 4)
    refused("modified.pcap", Pcap(1, magic=0xA1B2CD34).octets, NO_CAPTURE, 4)
    refused("magic.pcapng", Pcapng().section("<", magic=0x1A2B3C4E).octets, NO_CAPTURE, 4)
    refused("version.pcapng", Pcapng().section("<", version=(2, 0)).octets, NO_CAPTURE, 4)
    refused("text.pcap", FILES["text.pcap"], NO_CAPTURE, 4, "--replies")


def words():
    say("the words of the command line")
    usage = "usage: rd_capture [--port P] [--begin N] [--workers] [--replies | --pcap]"
    name = "empty.pcap"
    for said in [
        "--port", "--port 0", "--port 65536", "--port 05683", "--port +1", "--port=", "--port=a",
        "--port 1 --port 1", "--port=1 --port=1", "--replies --pcap", "--pcap --pcap",
        "--replies --replies", "--replies=1", "-", "trace", "help", "-help", "--help=1",
        "--help --help", "--help --version", "--help --port 1", "--replies --help", "-V --pcap",
        "--begin", "--begin=", "--begin 05", "--begin 281474976710656", "--begin 1 --begin 1",
        "--begin 1 --pcap", "--workers --workers", "--workers=4", "--pcap --workers",
    ]:
        refused(name, FILES[name], usage, 3, said)
    for said in "--help", "-h":
        told(name, HELP, said)
    for said in "--version", "-V":
        told(name, "rd_capture 0.1.0", said)
    story = Pcap(101)
    server = ("192.0.2.1", 61616)
    story.add(BASE, packet(DEVICE, server, GET), in_of(DEVICE, GET))
    story.add(BASE + 1, packet(server, DEVICE, CONTENT), out_of(DEVICE, CONTENT))
    story.add(BASE + 2, packet(DEVICE, SERVER, GET))
    read("port.pcap", story, "--port 61616")
    replies("port.pcap", story, "--port=61616")
    story = Pcap(101)
    story.octets = FILES["port.pcap"]
    story.met = [(BASE + 2, *in_of(DEVICE, GET))]
    read("port.pcap", story, "--port=5683")
    for said in "--begin 5", "--replies --begin 5", "--begin=281474976710655":
        lines = story.replies() if "--replies" in said else story.trace()
        number = said.replace("=", " ").split(" ")[-1]
        first = [] if "--replies" in said else [f"begin 0 0 {number}"]
        case(f"read port.pcap {said}", first + lines, 0)
    case("read empty.pcap --begin 0", ["begin 0 0 0"], 0)


def written(lines, port=PORT):
    """What is written for a trace and its output."""
    octets = struct.pack("<IHHIIII", 0xA1B2C3D4, 2, 4, 0, 0, 262144, 101)
    latest = 0
    for line in lines:
        verb, *rest = line.split(" ")
        if verb in ("in", "go", "tick"):
            latest = max(latest, int(rest[1]))
        if verb in ("in", "out"):
            where, data = rest[-2:]
            host, at = where.rsplit(":", 1)
            there = (host.strip("[]"), int(at))
            here = ("2001:db8::1" if ":" in there[0] else "192.0.2.1", port)
            src, dst = (there, here) if verb == "in" else (here, there)
            payload = bytes.fromhex(data) if data != "-" else b""
            segment = udp(src, dst, payload)
            if ":" in src[0]:
                frame = ipv6(src[0], dst[0], segment)
            else:
                frame = ipv4(src[0], dst[0], segment)
                frame = frame[:4] + b"\0\0" + frame[6:10] + b"\0\0" + frame[12:]
                frame = frame[:10] + struct.pack(">H", checksum(frame[:20])) + frame[12:]
            second = min(latest // 1000, 0xFFFFFFFF)
            octets += struct.pack("<II", second, latest % 1000 * 1000)
            octets += struct.pack("<II", len(frame), len(frame)) + frame
    return octets


def hexed(octets):
    return [octets[k : k + 32].hex() for k in range(0, len(octets), 32)]


def transcripts():
    say("traces and their outputs, written as captures")
    lines = [
        "in 0 1700000000123 192.0.2.10:40000 40010101",
        "go 0 1700000000124",
        "out 0 192.0.2.10:40000 60450101ff68656c6c6f",
        "in 15 1700000000100 [2001:db8::10]:61616 4001FFFE",
        "out 15 [2001:db8::10]:61616 6045fffe",
        "tick 0 1700000001000 7",
        "out 0 192.0.2.10:40000 -",
        "in 0 999999999999999 192.0.2.10:1 -",
        "out 0 192.0.2.10:40000 6045dbf3",
        "end 1 0 4294967296",
    ]
    # the last datagram's payload makes the checksum come out as 0, which is written as ffff
    for value in range(0x10000):
        payload = bytes.fromhex("6045") + struct.pack(">H", value)
        if struct.unpack(">H", udp(SERVER, DEVICE, payload)[6:8])[0] == 0xFFFF:
            lines[8] = f"out 0 192.0.2.10:40000 {payload.hex()}"
    FILES["mixed.trace"] = ("\n".join(lines) + "\n").encode()
    case("read mixed.trace --pcap", hexed(written(lines)), 0)
    case("read mixed.trace --pcap --port 61616", hexed(written(lines, 61616)), 0)
    FILES["no-line-feed.trace"] = "\n".join(lines[:3]).encode()
    case("read no-line-feed.trace --pcap", hexed(written(lines[:3])), 0)
    FILES["nothing.trace"] = b""
    case("read nothing.trace --pcap", hexed(written([])), 0)

    say("lines that are bad: those before them are written")
    good = "in 0 5 192.0.2.10:40000 40010101"
    bad = {
        "form": ["", "out", "out 0", "out 0 192.0.2.10:40000", "out 0 192.0.2.10:0 40",
                 "out 0 192.0.2.10:1 4", "out 256 192.0.2.10:1 40", "out 0 192.0.2.10:1 40 ",
                 "out 0 1 192.0.2.10:1 40", "end", "end 1 1", "end 1 1 01", "end 1 1 1 1",
                 "out 0 192.0.2.10:1 " + "40" * 4097, "IN 0 5 192.0.2.10:1 40"],
        "long": ["in 0 5 192.0.2.10:1 " + "40" * 4300],
    }
    count = 0
    for why, lines in bad.items():
        for line in lines:
            count += 1
            name = f"bad-{count}.trace"
            FILES[name] = f"{good}\n{line}\n{good}\n".encode()
            case(f"read {name} --pcap", hexed(written([good])) + [f"line 2: {why}"], 4)


def challenges():
    say("challenges: the word that the server drew stands behind the request that it challenged")

    def post(token, kind=0x41, mid=b"\x00\x05"):
        return bytes([kind, 2]) + mid + token + b"\xbb.well-known\x02rd"

    def answer(token, value=None, code=0x81, kind=0x61, mid=b"\x00\x05"):
        option = b"" if value is None else bytes([0xd0 | len(value), 252 - 13]) + value
        return bytes([kind, code]) + mid + token + option

    made = bytes.fromhex("a18170d200000000")
    word = str(0xA18170D2)
    other = ("192.0.2.20", 40000)
    story = Pcap(228)

    def come(at, where, payload, *words):
        story.add(BASE + at, packet(where, SERVER, payload), ("in", where, payload, *words))

    def go(at, where, payload):
        story.add(BASE + at, packet(SERVER, where, payload), ("out", where, payload))

    # two that wait at a time, the later answered first, with a look and a tick between
    come(0, DEVICE, post(b"\xe1"), word)
    come(1, other, post(b"\xe1", kind=0x51), str(1))
    come(2, DEVICE, GET)
    go(3, other, answer(b"\xe1", bytes.fromhex("0000000100000007"), kind=0x51))
    go(1_003, DEVICE, answer(b"\xe1", made))
    # the same again, which is challenged anew, and a change in between
    come(1_010, DEVICE, post(b"\xe1"), word)
    come(1_011, DEVICE, post(b"\xe1"), str(0xFFFF_FFFF))
    go(1_012, DEVICE, answer(b"\xe1", made))
    go(1_013, DEVICE, answer(b"\xe1", b"\xff" * 8))
    # answers that are no challenge, or of another form; the word 0, which no line says
    for at, said in enumerate([answer(b"\xe2", code=0x44), answer(b"\xe2"),
                               answer(b"\xe2", made, code=0x44), answer(b"\xe2", made[:5]),
                               answer(b"\xe2", bytes(8)), answer(b"\xe3", made),
                               b"\x61\x81\x00\x05"]):
        come(1_020 + 2 * at, DEVICE, post(b"\xe2"))
        go(1_021 + 2 * at, DEVICE, said)
    # an empty message is no answer, though it has no token either
    come(1_040, DEVICE, post(b"", kind=0x40), word)
    go(1_041, DEVICE, b"\x70\x00\x00\x09")
    go(1_042, DEVICE, answer(b"", made, kind=0x60))
    read("challenges.pcap", story)
    case("read challenges.pcap --replies", story.replies(), 0)

    say("of seventeen that wait none but the last does any more")
    story = Pcap(228)
    for at in range(17):
        come(at, DEVICE, post(bytes([at + 1])), *([word] if at == 16 else []))
    for at in range(17):
        go(100 + at, DEVICE, answer(bytes([at + 1]), made))
    read("many-wait.pcap", story)


def workers():
    say("several workers: each datagram stands at the worker that answered it, when it did")
    story, lines, sent = Pcap(228), [], []
    there, other = ("192.0.2.10", PORT), ("192.0.2.20", 40000)

    def come(at, where, text):
        payload = bytes.fromhex(text)
        story.add(BASE + at, packet(where, SERVER, payload))
        return payload

    def go(at, worker, where, text):
        payload = bytes.fromhex(text)
        story.add(BASE + at, packet(SERVER, where, payload))
        sent.append(f"out {worker} {peer(where)} {digits(payload)}")

    def served(at, worker, where, payload, word=""):
        lines.append(f"in {worker} {BASE + at} {peer(where)} {digits(payload)}{word}")
        if 1 <= payload[1] <= 31:
            lines.append(f"go {worker} {BASE + at}")

    def tick(at, worker):
        lines.append(f"tick {worker} {BASE + at}")

    # a request that is confirmable draws nothing: it is put at worker 0
    observe = come(0, DEVICE, "41010101c160")
    go(2, 0, DEVICE, "61450101c1")
    served(0, 0, DEVICE, observe)
    # one that is not draws a Message ID of worker 2, and is answered after one that came later
    post = come(5, other, "51020200e1b27264")
    get = come(6, DEVICE, "4101010200")
    go(8, 0, DEVICE, "60450102")
    served(6, 0, DEVICE, get)
    go(9, 2, other, "51412000e18272640131")
    served(5, 2, other, post)
    # two notifications of one tick, with a challenge between them, and their acknowledgements
    go(20, 1, DEVICE, "41451000c1")
    tick(20, 1)
    register = "0300e2bb2e77656c6c2d6b6e6f776e027264"
    asked = come(21, there, "4102" + register)
    go(23, 1, other, "41451001c2")
    challenged = "61810300e2d8efa18170d200000000"
    go(24, 0, there, challenged)
    served(21, 0, there, asked, f" {0xA18170D2}")
    served(25, 0, DEVICE, come(25, DEVICE, "60001000"))
    served(26, 0, other, come(26, other, "60001001"))
    # the next notification of worker 1 is of another tick, 41 ms later
    go(64, 1, other, "41451002c2")
    tick(64, 1)
    served(65, 0, other, come(65, other, "60001002"))
    # a simple registration, and a block that more follow, at the worker that asks behind them
    simple = come(70, there, "4102" + register.replace("0300", "0301"))
    go(71, 3, there, "61440301e2")
    go(72, 3, there, "480130000000000000000001bb2e77656c6c2d6b6e6f776e04636f7265")
    served(70, 3, there, simple)
    block = come(80, there, "684530000000000000000001d10a0aff3c2f613e2c")
    go(81, 3, there, "480130010000000000000002bb2e77656c6c2d6b6e6f776e04636f7265")
    served(80, 3, there, block)
    served(85, 0, there, come(85, there, "684530010000000000000002d10a12ff3c2f623e"))
    # time passes each second, but not in the last one before something is sent again
    tick(1_000, 0)
    go(2_500, 1, DEVICE, "41451003c1")
    tick(2_500, 1)
    tick(3_000, 0)
    go(4_700, 0, DEVICE, "41451003c1")
    tick(4_700, 0)
    # a request that is not answered is done a second later; an answer to nothing is of no step
    lost = come(4_800, other, "51010201e300")
    served(4_801, 0, DEVICE, come(4_801, DEVICE, "70001003"))
    served(4_800, 0, other, lost)
    last = come(6_000, DEVICE, "41010103c4")
    go(6_001, 0, DEVICE, "61450103c4")
    served(6_000, 0, DEVICE, last)
    go(6_010, 0, other, "60000999")
    FILES["workers.pcap"] = story.octets
    case("read workers.pcap --workers", lines, 0)
    case("read workers.pcap --workers --replies", in_order(sent), 0)
    case("read workers.pcap --workers --begin 7", ["begin 0 0 7"] + lines, 0)


def in_order(sent):
    """Lines of the output in the order of their steps: both of a tick stand together."""
    first = [line for line in sent if "41451001" not in line]
    place = next(k for k, line in enumerate(first) if "41451000" in line)
    late = [line for line in sent if "41451001" in line]
    return first[: place + 1] + late + first[place + 1 :]


def capture_of(path):
    """A case of rd_rows as a capture, and how many datagrams were sent in it."""
    capture = Pcapng().section("<", options=[(1, path.encode())])
    capture.interface(1, 1 << 18)
    now = sent = 0
    with open(os.path.join(CASES_OF, path + ".case")) as file:
        lines = [line.split(" ") for line in file.read().splitlines()]
    for kind, verb, *fields in [line for line in lines if line[0] in ("<", ">")]:
        if kind == "<":
            now = BASE + int(fields[1])
        if verb not in ("in", "out"):
            continue
        where, said = fields[2:4] if verb == "in" else fields[-2:]
        text = re.sub(r"\{(\w+)\*(\d+)\}", lambda m: m[1] * int(m[2]), said)
        there, payload = place_of(where), bytes.fromhex(text.replace("-", ""))
        here = SERVER6 if ":" in there[0] else SERVER
        ends = (there, here) if verb == "in" else (here, there)
        ticks = now * 1000 + (500 if verb == "out" else 0)
        capture.enhanced(0, ticks, ethernet(packet(*ends, payload)), now, None)
        sent += verb == "out"
    return capture.octets, sent


def recordings():
    say("recordings of examples: a replay of what came sends what was sent")
    names = ["register", "discovery", "lookup", "filters", "two_filters", "pages", "update",
             "lapse", "upload", "blocks", "simple", "challenged", "refused", "malformed"]
    for name in names:
        octets, sent = capture_of(f"examples/{name}")
        FILES[f"example-{name}.pcapng"] = octets
        case(f"replay example-{name}.pcapng", [f"{sent} replies, as they were sent"])
    for name, sent in RECORDED:
        FILES[name] = None
        case(f"replay {name}", [f"{sent} replies, as they were sent"])

    say("recordings of several workers: a replay draws the Message IDs that were drawn")
    for path in ["observers/observers_at_several_workers", "examples/observe", "examples/simple",
                 "exchanges/message_ids_of_workers", "exchanges/not_confirmable",
                 "blocks/further_blocks_at_other_workers", "challenges/not_confirmable",
                 "lookup/lookups_as_non_confirmable"]:
        octets, sent = capture_of(path)
        name = "workers-" + path.replace("/", "-") + ".pcapng"
        FILES[name] = octets
        case(f"replay {name} --workers", [f"{sent} replies, as they were sent"])
    for name, sent, first in RECORDED_OF_WORKERS:
        FILES[name] = None
        case(f"replay {name} --workers --begin {first}", [f"{sent} replies, as they were sent"])


def place_of(text):
    host, port = text.rsplit(":", 1)
    return (host.strip("[]"), int(port))


def stored_run():
    """The stored run of rd_capture: a registration, a lookup, and a packet that is cut."""
    story = Pcap(1, snap=96)
    link = b"\xff</temp>;rt=\"temperature\""
    post = bytes.fromhex("4102000ba1b2726411283865703d6e6f646531") + link
    get = bytes.fromhex("4101000cb2b972642d6c6f6f6b7570037265734e72743d74656d7065726174757265")
    there, seeker = ("192.0.2.10", PORT), ("192.0.2.30", 40000)
    story.add(BASE + 120, ethernet(packet(there, SERVER, post)), in_of(there, post))
    created = bytes.fromhex("6141000ba18272640131")
    story.add(BASE + 124, ethernet(packet(SERVER, there, created)), out_of(there, created))
    story.add(BASE + 1310, ethernet(packet(seeker, SERVER, get)), in_of(seeker, get))
    story.add(BASE + 1500, ethernet(packet(there, SERVER, post * 2)), "cut", captured=96)
    return story


def main():
    story = stored_run()
    with open(os.path.join(CAPTURE, "stdin"), "wb") as file:
        file.write(story.octets)
    with open(os.path.join(CAPTURE, "stdout"), "w") as file:
        file.write("\n".join(story.trace()) + "\n")
    groups = [link_layers, orders, internet, times, blocks, no_captures, words, transcripts,
              challenges, workers]
    for group in groups + [recordings]:
        group()
    for name in set(os.listdir(HERE)) - set(FILES) - {os.path.basename(__file__), *LISTS}:
        os.remove(os.path.join(HERE, name))
    for name, octets in FILES.items():
        if octets is None:
            continue
        with open(os.path.join(HERE, name), "wb") as file:
            file.write(octets)
    with open(os.path.join(HERE, LISTS[0]), "w") as file:
        file.write("\n".join(CASES[1:]) + "\n")
    with open(os.path.join(HERE, LISTS[1]), "w") as file:
        file.write("\n".join(COMES) + "\n")


if __name__ == "__main__":
    main()
