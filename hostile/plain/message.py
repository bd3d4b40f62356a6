"""Messages as octets (RFC 7252 section 3), and what the parts of a request mean."""

from collections import defaultdict
from dataclasses import dataclass

CON, NON, ACK, RST = range(4)
GET, POST, PUT, DELETE = range(1, 5)

EMPTY = 0x00
CREATED, DELETED, VALID, CHANGED, CONTENT, CONTINUE = 0x41, 0x42, 0x43, 0x44, 0x45, 0x5F
BAD_REQUEST, UNAUTHORIZED, BAD_OPTION, NOT_FOUND, NOT_ALLOWED = 0x80, 0x81, 0x82, 0x84, 0x85
NOT_ACCEPTABLE, INCOMPLETE, TOO_LARGE, UNSUPPORTED = 0x86, 0x88, 0x8D, 0x8F
UNAVAILABLE, NO_PROXY = 0xA3, 0xA5

ETAG, OBSERVE, LOCATION_PATH, URI_PATH, CONTENT_FORMAT = 4, 6, 8, 11, 12
URI_QUERY, ACCEPT, BLOCK2, BLOCK1, PROXY_URI, PROXY_SCHEME, ECHO = 15, 17, 23, 27, 35, 39, 252

LINK_FORMAT = 40

# The options that are known: the least and the most octets of a value, and whether there may be
# several (RFC 7252 section 5.10, RFC 7641, RFC 7959, RFC 9175).
KNOWN = {
    3: (1, 255, False), ETAG: (1, 8, True), OBSERVE: (0, 3, False), 7: (0, 2, False),
    LOCATION_PATH: (0, 255, True), URI_PATH: (0, 255, True), CONTENT_FORMAT: (0, 2, False),
    URI_QUERY: (0, 255, True), ACCEPT: (0, 2, False), BLOCK2: (0, 3, False),
    BLOCK1: (0, 3, False), 28: (0, 4, False), PROXY_URI: (1, 1034, False),
    PROXY_SCHEME: (1, 255, False), 60: (0, 4, False), ECHO: (1, 40, False),
}

LAST_OPTION = 0xFFFF
MARKER = 0xFF
RESERVED_CLASSES = (1, 6, 7)


class Unreadable(Exception):
    """A datagram that is no message; `mid` is that of a CON, which gets a Reset, else None."""

    def __init__(self, mid: int | None = None):
        super().__init__()
        self.mid = mid


@dataclass(frozen=True)
class Message:
    """A message with its parts."""

    kind: int
    code: int
    mid: int
    token: bytes
    options: tuple[tuple[int, bytes], ...]
    payload: bytes


@dataclass(frozen=True)
class Block:
    """A block option (RFC 7959 section 2.2)."""

    number: int
    is_more: bool
    exponent: int

    @property
    def size(self) -> int:
        """The octets of such a block."""
        return 16 << self.exponent

    @property
    def start(self) -> int:
        """Where the block begins in the body."""
        return self.number * self.size


WHOLE = Block(0, False, 6)


def read(datagram: bytes) -> Message:
    """A datagram as a message; Unreadable where it is none."""
    if len(datagram) < 4 or datagram[0] >> 6 != 1:
        raise Unreadable
    kind, length, code = datagram[0] >> 4 & 3, datagram[0] & 15, datagram[1]
    mid = int.from_bytes(datagram[2:4], "big")
    unreadable = Unreadable(mid if kind == CON else None)
    if length > 8 or len(datagram) < 4 + length or code >> 5 in RESERVED_CLASSES:
        raise unreadable
    if code == EMPTY and len(datagram) > 4:
        raise unreadable
    try:
        options, payload = read_tail(datagram[4 + length:])
    except (ValueError, IndexError):
        raise unreadable from None
    return Message(kind, code, mid, datagram[4:4 + length], tuple(options), payload)


def read_tail(octets: bytes) -> tuple[list[tuple[int, bytes]], bytes]:
    """The options and the payload behind a token."""
    options, number, at = [], 0, 0
    while at < len(octets):
        first, at = octets[at], at + 1
        if first == MARKER:
            if at == len(octets):
                raise ValueError
            return options, octets[at:]
        delta, at = read_extended(first >> 4, octets, at)
        length, at = read_extended(first & 15, octets, at)
        number += delta
        if number > LAST_OPTION or at + length > len(octets):
            raise ValueError
        options.append((number, octets[at:at + length]))
        at += length
    return options, b""


def read_extended(nibble: int, octets: bytes, at: int) -> tuple[int, int]:
    """A delta or a length of a nibble, and where what follows it begins."""
    if nibble == 15:
        raise ValueError
    if nibble == 13:
        return 13 + octets[at], at + 1
    if nibble == 14:
        return 269 + (octets[at] << 8 | octets[at + 1]), at + 2
    return nibble, at


def spell_extended(number: int) -> tuple[int, bytes]:
    """The nibble of a delta or a length, and the octets that extend it."""
    if number < 13:
        return number, b""
    if number < 269:
        return 13, bytes([number - 13])
    return 14, (number - 269).to_bytes(2, "big")


def spell(kind: int, code: int, mid: int, token: bytes = b"", options=(), payload=b"") -> bytes:
    """The octets of a message whose options stand in ascending order."""
    spelled, last = bytes([0x40 | kind << 4 | len(token), code]) + mid.to_bytes(2, "big"), 0
    spelled += token
    for number, value in options:
        delta, more_delta = spell_extended(number - last)
        length, more_length = spell_extended(len(value))
        spelled += bytes([delta << 4 | length]) + more_delta + more_length + value
        last = number
    return spelled + (bytes([MARKER]) + payload if payload else b"")


def number_of(value: bytes) -> int:
    """The number that a value of an option spells."""
    return int.from_bytes(value, "big")


def spell_number(number: int) -> bytes:
    """A number as the value of an option, without leading zeros."""
    return number.to_bytes((number.bit_length() + 7) // 8, "big")


def block_of(value: bytes) -> Block:
    """The block that a value of an option spells."""
    number = number_of(value)
    return Block(number >> 4, bool(number & 8), number & 7)


def spell_block(block: Block) -> bytes:
    """A block as the value of an option."""
    return spell_number(block.number << 4 | block.is_more << 3 | block.exponent)


def slice_of(body: bytes, block: Block) -> tuple[bytes, bool] | None:
    """A block of a body and whether more follows; None past its end."""
    if block.number and block.start >= len(body):
        return None
    end = block.start + block.size
    return body[block.start:end], end < len(body)


def heeded(options) -> tuple[dict[int, list[bytes]], bool]:
    """The values of options that are heeded, and whether a critical one is not.

    One that is not known, has another length, or comes again and may not, is passed over where it
    is elective (RFC 7252 sections 5.4.1, 5.4.3 and 5.4.5)."""
    values, is_refused, came = defaultdict(list), False, set()
    for number, value in options:
        least, most, is_several = KNOWN.get(number, (1, 0, True))
        is_heeded = least <= len(value) <= most and (is_several or number not in came)
        came.add(number)
        if is_heeded:
            values[number].append(value)
        elif number % 2:
            is_refused = True
    return values, is_refused


@dataclass(frozen=True)
class Place:
    """A resource of the directory: its kind, and the number of a registration."""

    kind: str
    number: int = 0


PLACES = {
    (b".well-known", b"core"): Place("core"),
    (b".well-known", b"rd"): Place("simple"),
    (b"rd",): Place("rd"),
    (b"rd-lookup", b"res"): Place("res"),
    (b"rd-lookup", b"ep"): Place("ep"),
}

METHODS = {"core": (GET,), "simple": (POST,), "rd": (POST,), "res": (GET,), "ep": (GET,),
           "location": (GET, POST, PUT, DELETE)}

LOOKUPS = ("res", "ep")


def place_of(path: list[bytes]) -> Place | None:
    """The resource that a path names."""
    if len(path) == 2 and path[0] == b"rd" and is_location_number(path[1]):
        return Place("location", int(path[1]))
    return PLACES.get(tuple(path))


def is_location_number(segment: bytes) -> bool:
    """Whether a segment is a number as locations have them: 1 to 15 digits, no leading zero."""
    digits = segment.isdigit() and 1 <= len(segment) <= 15
    return digits and (segment == b"0" or segment[:1] != b"0")


class Request:
    """A request with the parts that are heeded."""

    def __init__(self, message: Message):
        values, self.has_bad_option = heeded(message.options)
        self.message, self.code, self.payload = message, message.code, message.payload
        self.has_proxy = bool(values[PROXY_URI] or values[PROXY_SCHEME])
        self.place = place_of(values[URI_PATH])
        self.queries, self.etags = values[URI_QUERY], values[ETAG]
        self.observe = first_number(values[OBSERVE])
        self.accept = first_number(values[ACCEPT])
        self.format = first_number(values[CONTENT_FORMAT])
        self.block1, self.block2 = first_block(values[BLOCK1]), first_block(values[BLOCK2])
        self.echo = values[ECHO][0] if values[ECHO] else None

    @property
    def key(self) -> tuple:
        """What tells a body in blocks from others of the same peer."""
        return self.code, self.place, tuple(self.queries)

    @property
    def block(self) -> Block:
        """The block of the body that is asked for."""
        return self.block2 or WHOLE

    @property
    def is_first_block(self) -> bool:
        """Whether the body is asked for from its beginning."""
        return self.block.number == 0

    @property
    def is_observing(self) -> bool:
        """Whether an observation is to begin or to end (RFC 7641 section 2)."""
        return self.place.kind in LOOKUPS and self.is_first_block and self.observe in (0, 1)

    @property
    def has_body_of_links(self) -> bool:
        """Whether links come in its payload, whole or in blocks."""
        kind = self.place.kind
        return kind == "rd" or kind == "location" and self.code == PUT

    @property
    def is_write(self) -> bool:
        """Whether it may change something."""
        return self.code != GET


def first_number(values: list[bytes]) -> int | None:
    """The number of an option that comes once at most."""
    return number_of(values[0]) if values else None


def first_block(values: list[bytes]) -> Block | None:
    """The block of an option that comes once at most."""
    return block_of(values[0]) if values else None


class Response:
    """A response with the parts that are heeded."""

    def __init__(self, message: Message):
        values, self.has_bad_option = heeded(message.options)
        self.code, self.payload = message.code, message.payload
        self.etag = values[ETAG][0] if values[ETAG] else None
        self.format = first_number(values[CONTENT_FORMAT])
        self.block = first_block(values[BLOCK2])
