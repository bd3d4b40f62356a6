#!/usr/bin/env python3
"""A relay with a fault: `hostile/relay.py --fault NAME[=N] --from PORT --to PORT`.

It stands between clients and the server and passes on what comes, but for one fault (`--list`
names them all). Clients send to 127.0.0.1 and the port `--from`; the server sees each of them at
its own port of 127.0.0.2. So `make judges` finds out which faults each judge notices
(hostile/judges.py); a judge begins the relay itself where it is given `--fault`.
"""

import argparse
import heapq
import selectors
import socket
import sys
import time
from collections import deque
from dataclasses import dataclass, replace

import wire
from messages import (ACK, CHANGED, CON, CONTENT_FORMAT, CREATED, EMPTY, GET, LOCATION_PATH, NON,
                      POST, RST, octets, path)
from wire import BLOCK2, ECHO, ETAG, HOST, MOST_DATAGRAM, OBSERVE, SEEN, URI_QUERY, Message

DELETED, CONTENT = 0x42, 0x45
SERVER_ERROR, NOT_FOUND, BAD_REQUEST = 0xA0, 0x84, 0x80

# Message IDs of what a fault sends itself, which no client uses.
FIRST_OWN_MID = 0xF000

# What a relay remembers of what passed.
REMEMBERED = 4_096


def spelled(message: Message) -> bytes:
    """A message as octets."""
    return octets(message.kind, message.code, message.mid, message.token, message.options,
                  message.payload)


def with_option(message: Message, number: int, change) -> Message:
    """A message with the values of one option changed."""
    return replace(message, options=tuple((each, change(value) if each == number else value)
                                          for each, value in message.options))


def without_option(message: Message, number: int) -> Message:
    """A message without one option."""
    return replace(message, options=tuple(each for each in message.options if each[0] != number))


def is_answer(message: Message) -> bool:
    """Whether a message is an answer to a request."""
    return message.kind in (ACK, NON) and message.code >> 5 in (2, 4, 5)


def is_notification(message: Message) -> bool:
    """Whether a message is a notification to an observer."""
    return message.kind == CON and message.code == CONTENT


def is_write(message: Message) -> bool:
    """Whether a message is a request that may change something."""
    return message.kind in (CON, NON) and 1 < message.code < 0x20


class Fault:
    """What a relay does with what passes: nothing, here. A list of delays in seconds and
    messages stands for what is passed on."""

    def __init__(self, relay: "Relay", number: int):
        self.relay, self.number, self.count = relay, number, 0

    def is_next(self) -> bool:
        """Whether it is the turn of one that the fault meets: each one of a number."""
        self.count += 1
        return self.count % max(1, self.number) == 0

    def asked(self, client: int, message: Message) -> list[tuple[float, Message]]:
        """What is passed on to the server."""
        return [(0, message)]

    def answered(self, client: int, message: Message) -> list[tuple[float, Message]]:
        """What is passed on to a client."""
        return [(0, message)]


def on_answers(is_met, change):
    """A fault that changes or loses (None) messages of the server, each one of a number."""
    class OnAnswers(Fault):
        """See the table of faults."""

        def answered(self, client, message):
            if not is_met(message) or not self.is_next():
                return [(0, message)]
            changed = change(message)
            return [] if changed is None else [(0, changed)]
    return OnAnswers


def on_requests(is_met, change):
    """A fault that changes or loses (None) messages of clients, each one of a number."""
    class OnRequests(Fault):
        """See the table of faults."""

        def asked(self, client, message):
            if not is_met(message) or not self.is_next():
                return [(0, message)]
            changed = change(message)
            return [] if changed is None else [(0, changed)]
    return OnRequests


def count_on(tag: bytes) -> bytes:
    """A tag that counts one change more."""
    return (int.from_bytes(tag[:6], "big") + 1).to_bytes(6, "big") + tag[6:]


def next_number(segment: bytes) -> bytes:
    """The number behind that of a location."""
    return str(int(segment) + 1).encode() if segment.isdigit() else segment


def has(number: int):
    """Whether a message has an option."""
    return lambda message: bool(message.values(number))


def of_code(code: int):
    """Whether a message has a code."""
    return lambda message: message.code == code


def lost(_message: Message) -> None:
    """Nothing."""
    return None


def last_link_less(message: Message) -> Message:
    """A listing without its last link."""
    return replace(message, payload=message.payload.rpartition(b",")[0])


def is_listing(message: Message) -> bool:
    """Whether a message has a listing of several links, or a part of one."""
    return message.code == CONTENT and b"," in message.payload


def is_refusal(message: Message) -> bool:
    """Whether a message is a refusal with a word."""
    return message.code >> 5 == 4 and bool(message.payload)


def is_reset_of_other(message: Message) -> bool:
    """Whether a message is a Reset, but not that of a ping of a judge."""
    is_pong = message.mid == 0x4E55 or message.mid >> 12 == wire.FIRST_PING >> 12
    return message.kind == RST and not is_pong


def last_block(value: bytes) -> bytes:
    """The value of a block option behind which nothing follows."""
    number = int.from_bytes(value, "big") & ~8
    return number.to_bytes((number.bit_length() + 7) // 8, "big")


class Anew(Fault):
    """A write that comes again is given another Message ID, and so is handled anew."""

    def __init__(self, relay, number):
        super().__init__(relay, number)
        self.sent: deque[tuple[int, Message]] = deque(maxlen=REMEMBERED)
        self.given: dict[tuple[int, int], int] = {}

    def asked(self, client, message):
        if not is_write(message):
            return [(0, message)]
        if (client, message) not in self.sent:
            self.sent.append((client, message))
            return [(0, message)]
        mid = self.relay.own_mid()
        self.given[client, mid] = message.mid
        return [(0, replace(message, mid=mid))]

    def answered(self, client, message):
        mid = self.given.get((client, message.mid), message.mid)
        return [(0, replace(message, mid=mid) if message.kind == ACK else message)]


class Late(Fault):
    """Notices come so many milliseconds late."""

    def answered(self, client, message):
        return [(self.number / 1_000 if is_notification(message) else 0, message)]


class Swallowed(Fault):
    """Each one of so many notifications is acknowledged by the relay, and reaches nobody."""

    def answered(self, client, message):
        if not is_notification(message) or not self.is_next():
            return [(0, message)]
        self.relay.to_server(client, Message(ACK, EMPTY, message.mid, b"", (), b""))
        return []


class Stale(Fault):
    """A lookup is answered as the same one was answered the time before."""

    def __init__(self, relay, number):
        super().__init__(relay, number)
        self.asking: dict[tuple[int, int], tuple] = {}
        self.last: dict[tuple, Message] = {}

    def asked(self, client, message):
        if message.code == GET and not message.values(OBSERVE):
            self.asking[client, message.mid] = message.options
        return [(0, message)]

    def answered(self, client, message):
        key = self.asking.pop((client, message.mid), None) if message.kind == ACK else None
        if key is None or message.code != CONTENT:
            return [(0, message)]
        before, self.last[key] = self.last.get(key), message
        if before is None:
            return [(0, message)]
        return [(0, replace(before, mid=message.mid, token=message.token))]


class Lease(Fault):
    """Leases are so many milliseconds longer: whole seconds by their parameter, the rest by a
    refresh so much later, whose change is taken off each tag."""

    def __init__(self, relay, number):
        super().__init__(relay, number)
        self.seconds, self.rest = int(number / 1_000), number % 1_000 if number > 0 else 0
        self.refreshed = 0
        self.own: set[int] = set()
        self.updating: dict[tuple[int, int], tuple] = {}

    def asked(self, client, message):
        if message.code == POST and len(message.path()) == 2 and message.path()[0] == b"rd":
            self.updating[client, message.mid] = message.path()[1]
        changed = with_option(message, URI_QUERY, self.longer) if is_write(message) else message
        return [(0, with_option(changed, ETAG, lambda tag: self.moved(tag, 1)))]

    def longer(self, part: bytes) -> bytes:
        """A parameter with a longer lifetime."""
        digits = part[3:]
        if not (part.startswith(b"lt=") and digits.isdigit() and len(digits) < 10):
            return part
        return b"lt=%d" % max(1, int(digits) + self.seconds)

    def moved(self, tag: bytes, sign: int) -> bytes:
        """A tag with the refreshes of the relay, or without them."""
        if len(tag) != 8 or not self.refreshed:
            return tag
        count = max(0, int.from_bytes(tag[:6], "big") + sign * self.refreshed)
        return count.to_bytes(6, "big") + tag[6:]

    def answered(self, client, message):
        if message.mid in self.own and message.kind == ACK:
            self.refreshed += message.code == CHANGED
            return []
        number = self.updating.pop((client, message.mid), None)
        if message.code == CREATED and len(message.values(LOCATION_PATH)) == 2:
            number = message.values(LOCATION_PATH)[1]
        if self.rest and number and message.code in (CREATED, CHANGED):
            mid = self.relay.own_mid()
            self.own.add(mid)
            refresh = Message(CON, POST, mid, b"", tuple(path("rd", number.decode())), b"")
            self.relay.later(self.rest / 1_000,
                             lambda: self.relay.to_server(client, refresh))
        return [(0, with_option(message, ETAG, lambda tag: self.moved(tag, -1)))]


# The faults: what they do, their number where none is given, and what is said of them.
FAULTS = {
    "none": (Fault, 1, "nothing is changed"),
    "tag": (on_answers(has(ETAG), lambda each: with_option(each, ETAG, count_on)), 2,
            "each Nth entity tag counts one change more"),
    "lapses": (on_answers(has(ETAG), lambda each: with_option(
        each, ETAG, lambda tag: tag[:6] + b"\0\0")), 1, "entity tags say nothing of lapses"),
    "location": (on_answers(of_code(CREATED), lambda each: with_option(
        each, LOCATION_PATH, next_number)), 2, "each Nth location is the next one"),
    "gone": (on_answers(of_code(NOT_FOUND), lambda each: replace(each, code=BAD_REQUEST)), 1,
             "each Nth 4.04 comes as 4.00"),
    "deleted": (on_answers(of_code(DELETED), lambda each: replace(each, code=CHANGED)), 1,
                "each Nth 2.02 comes as 2.04"),
    "changed": (on_answers(of_code(CHANGED), lambda each: replace(each, code=CREATED)), 1,
                "each Nth 2.04 comes as 2.01"),
    "failing": (on_answers(lambda each: each.code in (CREATED, CHANGED, DELETED),
                           lambda each: Message(each.kind, SERVER_ERROR, each.mid, each.token, (),
                                                b"")), 20,
                "each Nth write that was accepted is answered 5.00"),
    "word": (on_answers(is_refusal, lambda each: replace(each, payload=b"other")), 1,
             "each Nth refusal has another word"),
    "mid": (on_answers(is_answer, lambda each: replace(each, mid=each.mid ^ 0x8000)), 50,
            "each Nth answer has another Message ID"),
    "token": (on_answers(lambda each: is_answer(each) and each.token, lambda each: replace(
        each, token=bytes([each.token[0] ^ 0x80]) + each.token[1:])), 50,
              "each Nth answer has another token"),
    "type": (on_answers(lambda each: is_answer(each) and each.kind == ACK,
                        lambda each: replace(each, kind=NON)), 50,
             "each Nth acknowledgement comes as a message that is not confirmable"),
    "format": (on_answers(has(CONTENT_FORMAT),
                          lambda each: without_option(each, CONTENT_FORMAT)), 5,
               "each Nth content comes without its format"),
    "block": (on_answers(has(BLOCK2), lambda each: with_option(each, BLOCK2, last_block)), 1,
              "each Nth block says that it is the last"),
    "listing": (on_answers(is_listing, last_link_less), 5, "each Nth listing lacks its last link"),
    "stale": (Stale, 1, "a lookup is answered as it was the time before"),
    "observe": (on_answers(lambda each: is_notification(each) and bool(each.values(OBSERVE)),
                           lambda each: with_option(each, OBSERVE, lambda _: b"\x01")), 1,
                "the value of Observe in each Nth notification is 1"),
    "unnotified": (Swallowed, 3, "each Nth notification is acknowledged, and reaches nobody"),
    "late": (Late, 1_000, "notifications come N milliseconds late"),
    "anew": (Anew, 1, "a write that comes again is handled anew"),
    "reset": (on_answers(is_reset_of_other, lost), 1,
              "each Nth Reset of the server is lost, but those of pings"),
    "unreset": (on_requests(lambda each: each.kind == RST, lost), 1,
                "each Nth Reset of a client is lost"),
    "lease": (Lease, 3_000, "leases are N milliseconds longer, or shorter"),
    "lose": (on_answers(is_answer, lost), 40, "each Nth answer is lost"),
    "lose-get": (on_requests(of_code(GET), lost), 40, "each Nth GET is lost"),
    "echo": (on_answers(has(ECHO), lambda each: with_option(
        each, ECHO, lambda value: value[:-1] + bytes([value[-1] ^ 1]))), 1,
             "the Echo of each Nth challenge is another one"),
    "fetch": (on_answers(lambda each: each.kind == CON and each.code == GET, lost), 1,
              "each Nth GET of a fetch is lost"),
}


@dataclass(frozen=True, order=True)
class Waiting:
    """Something that is to be done at a moment."""

    moment: float
    place: int


class Relay:
    """A relay from one port to another."""

    def __init__(self, listening: int, serving: int, fault: str):
        self.serving = serving
        self.front = self.bound(HOST, listening)
        self.selector = selectors.DefaultSelector()
        self.selector.register(self.front, selectors.EVENT_READ, None)
        self.backs: dict[int, socket.socket] = {}
        self.waiting: list[Waiting] = []
        self.doing: dict[int, object] = {}
        self.places = self.own = 0
        name, _, number = fault.partition("=")
        make, default, _ = FAULTS[name]
        self.fault = make(self, int(number) if number else default)

    @staticmethod
    def bound(host: str, port: int) -> socket.socket:
        """A socket at a port, with room for many datagrams."""
        made = socket.socket(socket.AF_INET, socket.SOCK_DGRAM)
        made.setsockopt(socket.SOL_SOCKET, socket.SO_RCVBUF, 4 << 20)
        made.bind((host, port))
        made.setblocking(False)
        return made

    def back(self, client: int) -> socket.socket:
        """The socket by which the server sees a client."""
        if client not in self.backs:
            try:
                made = self.bound(SEEN, client)
            except OSError:
                made = self.bound(SEEN, 0)
            made.connect((HOST, self.serving))
            self.selector.register(made, selectors.EVENT_READ, client)
            self.backs[client] = made
        return self.backs[client]

    def own_mid(self) -> int:
        """A Message ID of what a fault sends itself."""
        self.own += 1
        return FIRST_OWN_MID + self.own % (0x10000 - FIRST_OWN_MID)

    def later(self, seconds: float, do):
        """Does something so many seconds later."""
        self.places += 1
        self.doing[self.places] = do
        heapq.heappush(self.waiting, Waiting(time.monotonic() + seconds, self.places))

    def to_server(self, client: int, message: Message):
        """Sends a message to the server."""
        self.send(self.back(client), spelled(message), None)

    @staticmethod
    def send(by: socket.socket, datagram: bytes, to):
        """Sends a datagram; one that cannot be sent is lost."""
        try:
            by.send(datagram) if to is None else by.sendto(datagram, to)
        except OSError:
            pass

    def pass_on(self, by: socket.socket, datagram: bytes, to, decide):
        """Passes a datagram on, as the fault decides where it is a message."""
        try:
            decided = decide(wire.read(datagram))
        except ValueError:
            self.send(by, datagram, to)
            return
        for seconds, message in decided:
            changed = spelled(message)
            # What is spelled otherwise than this script spells it passes as it came.
            octets_ = datagram if message == wire.read(datagram) else changed
            if seconds:
                self.later(seconds, lambda each=octets_: self.send(by, each, to))
            else:
                self.send(by, octets_, to)

    def take(self, from_: socket.socket, client: int | None):
        """Takes all that came to a socket."""
        while True:
            try:
                datagram, (_, port) = from_.recvfrom(MOST_DATAGRAM)
            except OSError:
                return
            if client is None:
                self.pass_on(self.back(port), datagram, None,
                             lambda message, at=port: self.fault.asked(at, message))
            else:
                self.pass_on(self.front, datagram, (HOST, client),
                             lambda message: self.fault.answered(client, message))

    def run(self):
        """Passes on what comes until it is ended."""
        while True:
            now = time.monotonic()
            while self.waiting and self.waiting[0].moment <= now:
                self.doing.pop(heapq.heappop(self.waiting).place)()
            limit = self.waiting[0].moment - now if self.waiting else None
            for key, _ in self.selector.select(limit):
                self.take(key.fileobj, key.data)


def main():
    parser = argparse.ArgumentParser(description="A relay with a fault.")
    parser.add_argument("--fault", default="none")
    parser.add_argument("--from", dest="listening", type=int)
    parser.add_argument("--to", dest="serving", type=int)
    parser.add_argument("--list", action="store_true", help="names the faults")
    words = parser.parse_args()
    if words.list:
        for name, (_, number, text) in FAULTS.items():
            print(f"{name:<10}{number:>6}  {text}")
        return
    if words.fault.partition("=")[0] not in FAULTS:
        sys.exit(f"no fault {words.fault}")
    relay = Relay(words.listening, words.serving, words.fault)
    print("ready", flush=True)
    relay.run()


if __name__ == "__main__":
    main()
