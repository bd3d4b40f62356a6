"""Conversations over TCP (RFC 8323): messages of a stream, and what each is answered.

A request is heard as a confirmable one whose Message ID counts the requests of its connection
before it (docs/PROFILE.md).
"""

from dataclasses import dataclass

from . import message
from .desk import Desk, KeepJob, check_first
from .history import Refused
from .message import CON, OBSERVE, POST, Message, Request, read_tail, spell, spell_extended

# The most octets of a message, and of requests in one connection; a tick follows so many.
MOST_OCTETS, MOST_REQUESTS, TICK_EACH = 1_152, 65_536, 64

CSM, PING, PONG, RELEASE, ABORT = 0xE1, 0xE2, 0xE3, 0xE4, 0xE5

# What the nibble of a length adds to the number behind it, and of how many octets that is.
EXTENDED = {13: (13, 1), 14: (269, 2), 15: (65_805, 4)}


# What is refused before the directory hears of it.
UNHEARD = ("option", "proxy", "path")


class BadMessage(Exception):
    """A message for which a connection is aborted."""


@dataclass(frozen=True)
class Frame:
    """A message of a stream."""

    code: int
    token: bytes
    tail: bytes


def spell_frame(code: int, token: bytes = b"", tail: bytes = b"") -> bytes:
    """A message as it stands in a stream."""
    nibble, more = spell_extended(len(tail))
    if len(tail) >= 65_805:
        nibble, more = 15, (len(tail) - 65_805).to_bytes(4, "big")
    return bytes([nibble << 4 | len(token)]) + more + bytes([code]) + token + tail


def tail_of(options=(), payload: bytes = b"") -> bytes:
    """Options and a payload, as they stand behind a token."""
    return spell(CON, message.GET, 0, b"", options, payload)[4:]


def read_frame(octets: bytes, at: int, is_first: bool) -> tuple[Frame | None, int]:
    """The message that begins at a place, and where it ends; None where it is cut off."""
    if at >= len(octets):
        return None, at
    nibble, token_length = octets[at] >> 4, octets[at] & 15
    added, width = EXTENDED.get(nibble, (nibble, 0))
    begin = at + 1 + width
    if begin > len(octets):
        return None, at
    length = added + int.from_bytes(octets[at + 1:begin], "big")
    end = begin + 1 + token_length + length
    if token_length > 8 or end - at > MOST_OCTETS:
        raise BadMessage
    if end > len(octets):
        return None, at
    token_end = begin + 1 + token_length
    frame = Frame(octets[begin], octets[begin + 1:token_end], octets[token_end:end])
    check(frame, is_first)
    return frame, end


def check(frame: Frame, is_first: bool):
    """Refuses a message that no peer is to send."""
    kind, detail = frame.code >> 5, frame.code & 31
    if is_first and frame.code != CSM:
        raise BadMessage
    if kind in (1, 6) or kind == 7 and not 1 <= detail <= 5:
        raise BadMessage
    try:
        options, _ = read_tail(frame.tail)
    except (ValueError, IndexError):
        raise BadMessage from None
    if kind == 7 and any(number % 2 for number, _ in options):
        raise BadMessage


class Conversation:
    """What one connection is answered."""

    def __init__(self, desk: Desk, peer: str, moment: int):
        self.desk, self.peer, self.moment = desk, peer, moment
        self.asked = self.left = 0

    def answered(self, octets: bytes) -> bytes:
        """All that is written for all that comes; `left` counts what is not read of it."""
        written, at, is_first = spell_frame(CSM), 0, True
        while True:
            self.left = len(octets) - at
            try:
                frame, at = read_frame(octets, at, is_first)
            except BadMessage:
                return written + spell_frame(ABORT)
            self.left = len(octets) - at
            if frame is None or frame.code in (RELEASE, ABORT):
                return written
            is_first = False
            written += self.reply(frame)
            if self.asked == MOST_REQUESTS:
                return written + spell_frame(RELEASE)

    def reply(self, frame: Frame) -> bytes:
        """What one message is answered."""
        if frame.code == PING:
            return spell_frame(PONG, frame.token)
        if frame.code >> 5 or frame.code == message.EMPTY:
            return b""
        options, payload = read_tail(frame.tail)
        options = [each for each in options if each[0] != OBSERVE]
        asked = Message(CON, frame.code, self.asked & 0xFFFF, frame.token, tuple(options), payload)
        refused = self.refusal(Request(asked))
        if refused:
            return spell_frame(refused.code, frame.token, tail_of((), refused.word.encode()))
        return self.ask(spell(CON, asked.code, asked.mid, asked.token, options, payload))

    @staticmethod
    def refusal(request: Request) -> Refused | None:
        """The refusal of a request that the directory does not hear."""
        refused = None
        try:
            check_first(request)
        except Refused as first:
            refused = first
        if refused and refused.word in UNHEARD or request.place.kind == "simple":
            return refused if refused and refused.word in UNHEARD \
                else Refused(message.NOT_FOUND, "path")
        is_register = request.place.kind == "rd" and request.code == POST
        has_base = any(each.split(b"=", 1)[0] == b"base" for each in request.queries)
        if is_register and not has_base and not refused:
            return Refused(message.BAD_REQUEST, "query")
        return None

    def ask(self, datagram: bytes) -> bytes:
        """What the directory answers to a request."""
        self.asked += 1
        job = self.desk.hear(self.moment, 0, 0, self.peer, datagram)
        sent = self.desk.take_sent()
        if job:
            do = self.desk.keep if isinstance(job, KeepJob) else self.desk.commit
            do(self.moment, 0, job)
            sent += self.desk.take_sent()
        if self.asked % TICK_EACH == 0:
            self.desk.tick(self.moment, 0, 0)
            self.desk.take_sent()
        written = b""
        for peer, octets in sent:
            came = message.read(octets)
            if peer == self.peer:
                written += spell_frame(came.code, came.token, octets[4 + len(came.token):])
        return written
