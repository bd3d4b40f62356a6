"""CoAP messages: as coap-client shows them, as a case wants them, and as octets."""

import re
import socket
import string

# How coap-client shows a datagram at `-v 7`: a line that says which way it went, and then one
# with the message, as `v:1 t:ACK c:2.05 i:0001 {01} [ Content-Format:.. ] :: 'payload'`.
CAME = re.compile(r"received \d+ bytes$")
MESSAGE = re.compile(r"^v:1 t:(\w+) c:(\S+) i:\w+ \{\w*\} \[ ?(.*?) ?\](?: :: '(.*)')?$")
REQUEST = re.compile(r"\w+ [A-Z]")

# How it says that no answer came in time, and how that stands among what came.
AGAIN = re.compile(r"retransmission #\d+$")
ASKED_AGAIN = "(the client asks again)"

LINK_FORMAT = "Content-Format:application/link-format"

# Types (RFC 7252 section 3) and codes (section 12.1, RFC 7959 section 2.9) of the messages that are
# sent as octets.
CON, NON, ACK, RST = 0, 1, 2, 3
EMPTY, GET, POST, PUT, DELETE = 0x00, 0x01, 0x02, 0x03, 0x04
CREATED, DELETED, CHANGED, CONTENT, CONTINUE = 0x41, 0x42, 0x44, 0x45, 0x5F
UNAUTHORIZED, NOT_FOUND = 0x81, 0x84

# Numbers of options (RFC 7252 section 5.10, RFC 7959 section 2.1, RFC 9175 section 2.2.1).
ETAG, OBSERVE, LOCATION_PATH, URI_PATH, CONTENT_FORMAT, URI_QUERY, BLOCK2, BLOCK1, ECHO = \
    4, 6, 8, 11, 12, 15, 23, 27, 252

# The most octets of a UDP datagram.
MOST_OCTETS = 65_535


def text_of(kind: str, code: str, options: list[str], payload: str = "") -> str:
    """A message in the form in which cases compare it."""
    return f"{kind} {code} [{', '.join(options)}] {payload}".rstrip()


def shown(line: str) -> str:
    """A message that coap-client shows, in the form in which cases compare it."""
    parts = MESSAGE.match(line)
    if not parts:
        return line
    kind, code, options, payload = parts.groups(default="")
    return text_of(kind, code, options.split(", ") if options else [], payload)


def came(output: str) -> list[str]:
    """The answers that came to coap-client, by its output, and where it had to ask again. A
    request is none."""
    lines = output.splitlines()
    messages = [ASKED_AGAIN if AGAIN.search(line) else shown(after)
                for line, after in zip(lines, lines[1:])
                if CAME.search(line) or AGAIN.search(line)]
    return [message for message in messages if not REQUEST.match(message)]


def tags(messages: list[str]) -> list[str]:
    """The entity tags in messages, each once, in the order in which they come."""
    return list(dict.fromkeys(re.findall(r"ETag:(0x\w+)", " ".join(messages))))


def with_names_of_tags(messages: list[str]) -> list[str]:
    """The messages with their tags named A, B and so on, in the order in which they come."""
    for name, tag in zip(string.ascii_uppercase, tags(messages)):
        messages = [message.replace(f"ETag:{tag}", f"ETag:{name}") for message in messages]
    return messages


# What a case wants.


def created(number: int, block: str = "", kind: str = "ACK") -> str:
    """2.01 with the location of a registration (RFC 9176 section 5)."""
    options = ["Location-Path:rd", f"Location-Path:{number}"]
    return text_of(kind, "2.01", options + ([block] if block else []))


def content(body: str = "", tag: str = "A", kind: str = "ACK", observe: int = 0) -> str:
    """2.05 with a whole listing (RFC 9176 section 6)."""
    watched = [f"Observe:{observe}"] if observe else []
    return text_of(kind, "2.05", [f"ETag:{tag}", *watched, LINK_FORMAT], body)


def blocks(body: str, size: int) -> list[str]:
    """2.05 with each block of a listing, all under one tag (RFC 7959)."""
    count = (len(body) + size - 1) // size
    return [
        text_of("ACK", "2.05", ["ETag:A", LINK_FORMAT, block_option(2, number, count, size)],
                body[number * size:(number + 1) * size])
        for number in range(count)
    ]


def collected(octets: int, size: int) -> tuple[list[str], str]:
    """2.31 for each block of an upload but the last, and the option of that (RFC 7959)."""
    count = (octets + size - 1) // size
    *asked, last = [block_option(1, block, count, size) for block in range(count)]
    return [text_of("ACK", "2.31", [block]) for block in asked], last


def uploaded(octets: int, size: int, number: int) -> list[str]:
    """2.31 for each block of an upload and 2.01 for the last one (RFC 7959)."""
    more, last = collected(octets, size)
    return [*more, created(number, last)]


def replaced(octets: int, size: int) -> list[str]:
    """2.31 for each block of an upload and 2.04 for the last one (RFC 7959)."""
    more, last = collected(octets, size)
    return [*more, text_of("ACK", "2.04", [last])]


def block_option(option: int, number: int, count: int, size: int) -> str:
    """A block option of one of so many blocks."""
    more = "M" if number + 1 < count else "_"
    return f"Block{option}:{number}/{more}/{size}"


def refused(code: str, word: str, kind: str = "ACK") -> str:
    """A refusal with the word that names its reason."""
    return text_of(kind, code, [], word)


# Messages as octets.


def extended(number: int) -> tuple[int, bytes]:
    """The nibble and the further octets that spell an option's delta or length."""
    if number < 13:
        return number, b""
    if number < 269:
        return 13, bytes([number - 13])
    return 14, (number - 269).to_bytes(2, "big")


def octets(kind: int, code: int, mid: int, token: bytes = b"", options=(), payload=b"") -> bytes:
    """A message as it is sent (RFC 7252 section 3)."""
    written = bytearray([0x40 | kind << 4 | len(token), code]) + mid.to_bytes(2, "big") + token
    last = 0
    for number, value in options:
        delta, more_delta = extended(number - last)
        length, more_length = extended(len(value))
        written += bytes([delta << 4 | length]) + more_delta + more_length + value
        last = number
    return bytes(written + (b"\xff" + payload if payload else b""))


def path(*parts: str) -> list[tuple[int, bytes]]:
    """The options of a path."""
    return [(URI_PATH, part.encode()) for part in parts]


def query(*parts: str) -> list[tuple[int, bytes]]:
    """The options of a query."""
    return [(URI_QUERY, part.encode()) for part in parts]


def received(asking: socket.socket) -> list[bytes]:
    """The next datagram that comes to a socket, if one comes in time."""
    try:
        return [asking.recv(MOST_OCTETS)]
    except OSError:
        return []
