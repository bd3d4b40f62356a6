"""Hostile datagrams: malformed, by chance, mutated, out of order, too many. The same for a seed.

None of them changes what the compared lookups list: none names a registration that the driver
made (`KEPT`), and none carries the text by which those lookups filter (`STEADY`).
"""

import random
from dataclasses import dataclass

import wire
from messages import (ACK, BLOCK2, CON, CONTENT, CONTENT_FORMAT, DELETE, EMPTY, GET, NON, POST,
                      RST, URI_QUERY, octets, path, query)
from wire import ACCEPT, BLOCK1, ECHO, ETAG, OBSERVE, block

# What the compared lookups filter by, and how many registrations are the driver's own.
STEADY = "steady"
KEPT = 300

# The ports from which it comes, how often one kind comes in a flood, and of how many.
PORTS = 256
FLOODS_IN_THOUSAND = 3
FLOOD = 60

# The most octets of a datagram that is sent, more than the server reads.
MOST_SENT = 6_000

LINK_FORMAT = (CONTENT_FORMAT, b"\x28")
LOOKUPS = [path("rd-lookup", "res"), path("rd-lookup", "ep")]
DISCOVERY = path(".well-known", "core")
SIMPLE = path(".well-known", "rd")
REGISTER = path("rd")

# Numbers of options that are registered, and some that are not, critical (odd) and elective.
KNOWN = [1, 3, 4, 5, 6, 7, 8, 11, 12, 14, 15, 17, 20, 23, 27, 28, 35, 39, 60]
UNKNOWN = [0, 2, 9, 10, 13, 19, 21, 29, 65, 100, 255, 268, 269, 270, 999, 65_534, 65_535]

NAMES = ["ep", "d", "lt", "base", "rt", "if", "ct", "href", "anchor", "page", "count", "", "a b",
         "\u00e9", "et", "rel", "sz", "obs", "title*"]
VALUES = ["", "0", "1", "60", "4294967295", "4294967296", "00", "-1", "x", "a b", "*", "a*",
          "coap://h", "coap://[fe80::1]", "coap://", "coap://h/?q", "\x00", "\x7f", "\u0085",
          "n" * 63, "n" * 64, '"', "\\", "%", "%zz", "core.rd-ep", "temperature"]
BODIES = ["", "<", "<>", "</a>", "</a>,", "</a>;", "</a>;rt", '</a>;rt="', '</a>;rt="x"', "</a>,,",
          '<t>;anchor="coap://e/"', "<coap://e/./z>", "<//k/y>", "</%>", "</a>;x=\x01", "<a:b:c>",
          '</a>;rt="\u00e9"', "<\u00e9>", "</..//../b>", "< >", "<::>", "<http://[::g]>", "\x00"]


@dataclass(frozen=True)
class Datagram:
    """A hostile datagram: its kind, the place of the port from which it goes, its octets."""

    kind: str
    port: int
    octets: bytes


def header(kind: int, token_length: int, code: int, mid: int, version: int = 1) -> bytes:
    """Four octets as no writer of messages would write them."""
    return bytes([version << 6 | kind << 4 | token_length, code]) + mid.to_bytes(2, "big")


def is_kept(datagram: bytes) -> bool:
    """Whether a datagram names a registration that is the driver's own, or its text."""
    if STEADY.encode() in datagram:
        return True
    try:
        segments = wire.read(datagram).path()
    except ValueError:
        return False
    return len(segments) == 2 and segments[0] == b"rd" and segments[1].isdigit() \
        and int(segments[1]) <= KEPT


class Maker:
    """Makes hostile datagrams by a seed."""

    def __init__(self, seed: int):
        self.chance = random.Random(seed)
        self.mids = [self.chance.randrange(0x10000) for _ in range(PORTS)]
        self.port = 0
        self.made = 0
        # The last Echo that a port was challenged with, where a driver notes it.
        self.echoes: dict[int, bytes] = {}

    def stream(self, count: int):
        """So many datagrams."""
        end = self.made + count
        while self.made < end:
            self.port = self.chance.randrange(PORTS)
            kind = self.chance.choice(list(KINDS))
            is_flood = self.chance.random() < FLOODS_IN_THOUSAND / 1_000
            for _ in range(min(FLOOD if is_flood else 1, end - self.made)):
                yield self.one(kind)

    def one(self, kind: str) -> Datagram:
        """The next datagram of a kind."""
        made = KINDS[kind](self)
        while is_kept(made):
            made = KINDS[kind](self)
        self.made += 1
        return Datagram(kind, self.port, made)

    # Parts.

    def mid(self) -> int:
        """The next Message ID of the port."""
        self.mids[self.port] = (self.mids[self.port] + 1) & 0xFFFF
        return self.mids[self.port]

    def some(self, most: int, least: int = 0) -> bytes:
        """Octets by chance, so many at most and at least."""
        return self.chance.randbytes(self.chance.randint(least, most))

    def kind(self) -> int:
        """CON or NON."""
        return self.chance.choice([CON, CON, CON, NON])

    def request(self, code: int, options, payload: bytes = b"") -> bytes:
        """A request with a token by chance."""
        ordered = sorted_options(options)
        return octets(self.kind(), code, self.mid(), self.some(8), ordered, payload)

    def text(self, texts: list[str]) -> str:
        """One of some texts."""
        return self.chance.choice(texts)

    def name(self) -> str:
        """A name of an endpoint."""
        return f"ep=h{self.chance.randrange(2_000)}"

    def number(self) -> str:
        """A number of a registration that is not the driver's own, or none."""
        return self.text([str(self.chance.randint(KEPT + 1, 4_096)), "0", "00", "01", "-1", "+5",
                          "999999999999999", "1000000000000000", "9" * 40, "x", ""])

    # Messages that cannot be read (RFC 7252 section 3).

    def short(self) -> bytes:
        return self.some(3)

    def version(self) -> bytes:
        other = self.chance.choice([0, 2, 3])
        return header(self.chance.randrange(4), 0, GET, self.mid(), other) + self.some(40)

    def token_length(self) -> bytes:
        return header(self.kind(), self.chance.randint(9, 15), GET, self.mid()) + self.some(40)

    def cut_token(self) -> bytes:
        length = self.chance.randint(1, 8)
        return header(self.kind(), length, POST, self.mid()) + self.some(length - 1)

    def cut_option(self) -> bytes:
        nibble = self.chance.choice([b"\xd0", b"\xe0", b"\xe0\x00", b"\x0d", b"\x0e", b"\x0e\x00",
                                     b"\xbe\xff\xff", b"\xdd\x00", b"\xb5rd", b"\xb1"])
        return header(self.kind(), 0, GET, self.mid()) + nibble

    def reserved_nibble(self) -> bytes:
        first = self.chance.choice([0xF0 | self.chance.randrange(15),
                                    self.chance.randrange(15) << 4 | 15])
        return header(self.kind(), 0, POST, self.mid()) + bytes([first]) + self.some(40)

    def empty_payload(self) -> bytes:
        return octets(self.kind(), POST, self.mid(), b"", REGISTER) + b"\xff"

    def last_number(self) -> bytes:
        options = b"\xe0\xff\xff" * self.chance.randint(1, 9)
        return header(self.kind(), 0, GET, self.mid()) + options

    def empty_with_content(self) -> bytes:
        length = self.chance.randint(0, 8)
        return header(self.chance.randrange(4), length, EMPTY, self.mid()) + self.some(20, 1)

    def reserved_class(self) -> bytes:
        code = self.chance.choice([1, 6, 7]) << 5 | self.chance.randrange(32)
        return header(self.chance.randrange(4), 0, code, self.mid()) + self.some(20)

    # By chance.

    def by_chance(self) -> bytes:
        return self.some(self.chance.choice([8, 40, 200, 4_096]))

    def by_chance_behind_a_header(self) -> bytes:
        code = self.chance.choice([GET, POST, DELETE, CONTENT, self.chance.randrange(256)])
        return header(self.chance.randrange(4), 0, code, self.mid()) + self.some(200)

    def too_long(self) -> bytes:
        body = b"<" * self.chance.choice([4_050, 4_090, 4_100, MOST_SENT])
        return octets(CON, POST, self.mid(), b"", REGISTER + query("ep=long"), body)

    def mutated(self) -> bytes:
        """A valid datagram with some octets changed, cut, doubled or put in."""
        made = bytearray(KINDS[self.text(VALID)](self))
        for _ in range(self.chance.randint(1, 4)):
            at = self.chance.randrange(len(made) + 1)
            change = self.chance.randrange(5)
            if change == 0:
                made[at:at + 1] = self.some(1, 1)
            elif change == 1 and at < len(made):
                made[at] ^= 1 << self.chance.randrange(8)
            elif change == 2:
                del made[at:at + self.chance.randint(1, 6)]
            elif change == 3:
                made[at:at] = made[at:at + self.chance.randint(1, 30)]
            else:
                made[at:at] = self.some(6)
        return bytes(made)

    # Requests that are refused, or barely not.

    def option_length(self) -> bytes:
        """An option of any length, up to more than any has."""
        length = self.chance.choice([self.chance.randrange(20), self.chance.randrange(300), 12, 13,
                                     268, 269, 270, self.chance.randrange(1_200)])
        option = (self.chance.choice(KNOWN), self.chance.choice([b"\x00", b"a", b"9"]) * length)
        options = self.chance.choice([REGISTER + query(self.name()), LOOKUPS[0], LOOKUPS[1]])
        return self.request(self.chance.choice([GET, POST, DELETE]), options + [option])

    def unknown_option(self) -> bytes:
        option = (self.chance.choice(UNKNOWN), self.some(12))
        return self.request(GET, self.chance.choice(LOOKUPS) + [option])

    def many_options(self) -> bytes:
        options = [(self.chance.choice(KNOWN), self.some(3)) for _ in range(200)]
        return self.request(self.chance.choice([GET, POST]), options)

    def other_path(self) -> bytes:
        segments = [self.text(["rd", "rd-lookup", "res", "ep", ".well-known", "core", "", "..",
                               self.number()]) for _ in range(self.chance.randrange(5))]
        return self.request(self.chance.randrange(1, 32), path(*segments))

    def odd_query(self) -> bytes:
        count = self.chance.randrange(6)
        parts = [f"{self.text(NAMES)}{self.text(['=', '=', ''])}{self.text(VALUES)}".encode()
                 for _ in range(count)] + [self.some(9)] * self.chance.randrange(2)
        place = self.chance.choice([*LOOKUPS, DISCOVERY, SIMPLE, REGISTER, path("rd", "9999")])
        code = self.chance.choice([GET, POST])
        return self.request(code, place + [(URI_QUERY, part) for part in parts])

    def odd_body(self) -> bytes:
        body = ",".join(self.text(BODIES) for _ in range(self.chance.randint(1, 4))).encode()
        return self.request(POST, REGISTER + query(self.name(), "lt=60") + [LINK_FORMAT], body)

    def odd_accept(self) -> bytes:
        option = (self.chance.choice([ACCEPT, CONTENT_FORMAT]), self.some(3))
        code = self.chance.choice([GET, POST])
        return self.request(code, (LOOKUPS[0] if code == GET else REGISTER) + [option])

    # Blocks (RFC 7959).

    def upload(self) -> bytes:
        """A block of an upload: the first, one that may be the next, or one far away."""
        exponent = self.chance.randrange(8)
        number = self.chance.choice([0, 0, 0, 1, 1, 2, 3, 7, 8, 511, 512, 0xFFFFF])
        is_more = self.chance.random() < 0.7
        length = (16 << min(exponent, 6)) + self.chance.choice([0, 0, 0, 0, -1, 1])
        parts = query(f"ep=u{self.chance.randrange(3)}", "lt=60")
        options = REGISTER + parts + [(BLOCK1, block(number, is_more, exponent))]
        return self.request(POST, options, b"<" + b"x" * (length - 1))

    def long_block_value(self) -> bytes:
        """A block option with leading zeros, or of more octets than one has."""
        option = (self.chance.choice([BLOCK1, BLOCK2]), b"\x00" * self.chance.randrange(4)
                  + self.some(4))
        return self.request(self.chance.choice([GET, POST]), LOOKUPS[0] + [option])

    def further_block(self) -> bytes:
        """A block of a listing: one that is there, or one far past the end."""
        number = self.chance.choice([0, 1, 2, 3, 30, 1_023, 1_024, 65_535, 0xFFFFF])
        option = (BLOCK2, block(number, self.chance.random() < 0.1, self.chance.randrange(8)))
        part = self.text(["rt=h", "if=s", "count=40", "ep=h*"])
        place = self.chance.choice([*LOOKUPS, DISCOVERY])
        return self.request(GET, place + query(*[part] * self.chance.randrange(3)) + [option])

    # What fills tables.

    def registration(self) -> bytes:
        links = ",".join(f'</{self.chance.randrange(99)}>;rt="h{place}"'
                         for place in range(self.chance.choice([0, 1, 3, 40])))
        lifetime = f"lt={self.chance.choice([1, 2, 20, 60, 90_000])}"
        return self.request(POST, REGISTER + query(self.name(), lifetime) + [LINK_FORMAT],
                            links.encode())

    def heavy_registration(self) -> bytes:
        base = f"base=coap://{'h' * self.chance.randint(100, 190)}"
        body = ",".join(["<>"] * self.chance.choice([200, 1_000]))
        parts = query(f"ep=w{self.chance.randrange(9)}", base, "lt=60")
        return self.request(POST, REGISTER + parts, body.encode())

    def update(self) -> bytes:
        parts = query(*[self.text(["lt=60", "lt=1", "base=coap://h", "rt=h", "x", "ep=n"])
                        for _ in range(self.chance.randrange(3))])
        return self.request(POST, path("rd", self.number()) + parts, self.some(1))

    def removal(self) -> bytes:
        return self.request(DELETE, path("rd", self.number()))

    def lookup(self) -> bytes:
        tag = [(ETAG, self.some(8, 8))] * self.chance.randrange(2)
        parts = query(self.text(["rt=h1", "ep=h*", "count=3", "href=/rd/*", "if=*", "et=x"]))
        return self.request(GET, tag + self.chance.choice(LOOKUPS) + parts)

    def observation(self) -> bytes:
        """An observer, of one of more queries than are watched, or one that ends."""
        value = self.chance.choice([b"", b"", b"", b"\x01", b"\x02", b"\x00\x00\x00", b"\xff" * 4])
        parts = query(f"rt=h{self.chance.randrange(400)}")
        options = [(OBSERVE, value)] + self.chance.choice(LOOKUPS) + parts
        return octets(self.kind(), GET, self.mid(), self.some(2), options)

    def simple_registration(self) -> bytes:
        echo = [(ECHO, self.echoes[self.port])] if self.port in self.echoes else []
        return self.request(POST, SIMPLE + query(self.name(), "lt=60") + echo)

    def response(self) -> bytes:
        """A response to a fetch that may run, of the peer or of a stranger."""
        token = self.chance.randrange(600).to_bytes(8, "big")
        code = self.chance.choice([CONTENT, CONTENT, 0x84, 0xA3, 0x5F])
        kind = self.chance.choice([CON, NON, ACK, RST])
        options = [(ETAG, self.some(9))] * self.chance.randrange(2) + [LINK_FORMAT]
        if self.chance.random() < 0.5:
            number = self.chance.choice([0, 0, 1, 2, 0xFFFFF])
            options.append((BLOCK2, block(number, True, self.chance.randrange(8))))
        mid = self.chance.randrange(0x4000)
        return octets(kind, code, mid, token, sorted_options(options), b'</f>;rt="h1",' * 5)

    def acknowledgement(self) -> bytes:
        """An ACK or RST of a notification or a fetch that may be under way."""
        code = self.chance.choice([EMPTY, EMPTY, EMPTY, GET, POST])
        return header(self.chance.choice([ACK, RST]), 0, code, self.chance.randrange(0x4000))

    def ping(self) -> bytes:
        return header(self.kind(), 0, EMPTY, self.mid())

    def repeat(self) -> bytes:
        """A Message ID again, with what may be other contents."""
        self.mids[self.port] = self.chance.randrange(4)
        return KINDS[self.text(["registration", "update", "upload", "removal"])](self)


def sorted_options(options) -> list[tuple[int, bytes]]:
    """Options in the order in which they are written."""
    return sorted(options, key=lambda option: option[0])


# The kinds of datagrams that no reader of messages reads, and those that may be valid.
UNREADABLE = ["token_length", "cut_token", "cut_option", "reserved_nibble", "empty_payload",
              "last_number", "empty_with_content", "reserved_class"]
VALID = ["upload", "further_block", "registration", "update", "removal", "lookup", "observation",
         "simple_registration", "response"]

KINDS = {kind: getattr(Maker, kind) for kind in [
    "short", "version", *UNREADABLE, "by_chance", "by_chance_behind_a_header", "too_long",
    "mutated", "option_length", "unknown_option", "many_options", "other_path", "odd_query",
    "odd_body", "odd_accept", "long_block_value", *VALID, "heavy_registration", "acknowledgement",
    "ping", "repeat"]}
