"""Fleets of devices that register, are looked up and observed, and what is to be answered."""

import asyncio
import itertools
import random
import time
from collections import Counter, deque
from dataclasses import dataclass, field

import wire
from messages import (ACK, BLOCK2, CHANGED, CON, CONTENT, CONTENT_FORMAT, CREATED, DELETE, EMPTY,
                      GET, LOCATION_PATH, POST, RST, URI_PATH, octets, path, query)
from wire import BLOCK1, ETAG, OBSERVE, Message, Wrong, block

# Codes of answers (RFC 7252 section 12.1.2, RFC 7959 section 2.9).
DELETED, VALID, CONTINUE = 0x42, 0x43, 0x5F

# The writes that a server keeps, for how many seconds, how many are made in a second, and how many
# of other fleets may be under way.
MOST_WRITES, REMEMBERED = 4_096, 247
WRITES_A_SECOND = 20
UNDER_WAY = 16

# Seconds: how far the model's time and the server's may be apart, how often an answer is waited
# for, how long a fetch may take, and how long a refused write waits.
MARGIN = 0.05
TRIES = 4
FETCH_LIMIT = 8
REFUSED_WAIT = 1.0

# A notification comes when time passes in some worker, which it does behind each sixteenth datagram
# of one: how many pings are answered till then, how often that is waited for, and for how many
# seconds what was sent may lie here.
TICK_PINGS, NEWS_TRIES, NEWS_GRACE = 72, 3, 0.1

# How often each other act comes for one of writing.
OTHERS = 5

# Registrations of a fleet, their lifetimes in seconds, the types of their links.
NAMES = 24
LIFETIMES = [1, 2, 5, 20, 60, 60, 60]
TYPES = ["hot", "cold", "pump"]
MOST_LINKS = 7

# The lines of a page, blocks of uploads and of listings by their exponents, entries near their
# end of which all combinations are tried, and what is printed of what is wrong.
PAGE = 8
EXPONENTS = [1, 2, 3]
BLOCKS = [0, 2, 4, 6]
MOST_OPEN = 10
MOST_TOLD = 20

LINK_FORMAT = (CONTENT_FORMAT, b"\x28")
RESOURCES, ENDPOINTS = path("rd-lookup", "res"), path("rd-lookup", "ep")


class Ledger:
    """What all fleets share: counts, the pace of writes, and which ones the server keeps."""

    def __init__(self):
        self.counts: Counter[str] = Counter()
        self.judged = self.wrong = 0
        self.kept: deque[tuple[float, float]] = deque()
        self.next_write = 0.0
        self.highest = 0
        self.bodies: dict[tuple, bytes] = {}
        self.versions = itertools.count(1)
        # Changes that are made for sure, and those that may be.
        self.changes = self.most_changes = 0

    def judge(self, what: str, is_right: bool, told: object = ""):
        """Counts an answer, and tells it where it is wrong."""
        self.counts[what] += 1
        self.judged += 1
        if not is_right:
            self.wrong += 1
            if self.wrong <= MOST_TOLD:
                print(f"WRONG {what}: {told}", flush=True)

    def count_tag(self, message: Message, least: int):
        """Judges that a tag counts no fewer changes than were made, and no more than may be."""
        tags = message.values(ETAG)
        if len(tags) == 1 and len(tags[0]) == 8:
            count = int.from_bytes(tags[0][:6], "big")
            self.judge("counts of tags", least <= count <= self.most_changes,
                       (least, count, self.most_changes))
        elif message.code == CONTENT:
            self.judge("counts of tags", False, tags)

    async def pace(self):
        """Waits until the next write is due."""
        now = time.monotonic()
        self.next_write = max(self.next_write + 1 / WRITES_A_SECOND, now)
        await asyncio.sleep(self.next_write - now)

    def is_refused(self, answer: "Answer", is_kept: bool = True) -> bool:
        """Whether a write was refused since too many are kept; judges that. One that was not is
        kept, unless it was only challenged."""
        while self.kept and answer.sent - self.kept[0][1] > REMEMBERED + MARGIN:
            self.kept.popleft()
        least = sum(came <= answer.sent and answer.came - sent < REMEMBERED - MARGIN
                    for sent, came in self.kept)
        is_refused = answer.message.refusal() == "5.03 exchanges"
        if is_refused:
            most = len(self.kept) + UNDER_WAY
            self.judge("writes refused: too many are kept", most >= MOST_WRITES, most)
        elif is_kept:
            self.judge("writes accepted", least < MOST_WRITES, least)
            self.kept.append((answer.sent, answer.came))
        else:
            self.judge("writes challenged where there was room", least < MOST_WRITES, least)
        return is_refused


@dataclass(frozen=True)
class Answer:
    """What came to a request, and between which moments it was made."""

    message: Message
    octets: bytes
    sent: float
    came: float


class Port(asyncio.DatagramProtocol):
    """A port of this script, from which requests go, and to which the server may send some."""

    def __init__(self, ledger: Ledger, seen: str, heard=None):
        self.ledger, self.seen, self.heard = ledger, seen, heard
        self.waiting: dict[int, asyncio.Future] = {}
        self.asked_again: set[int] = set()
        self.confirmable: set[int] = set()
        self.mids = itertools.count(1)
        self.transport: asyncio.DatagramTransport | None = None

    async def open(self, port: int):
        """Opens it, to the server's port."""
        await asyncio.get_running_loop().create_datagram_endpoint(
            lambda: self, (wire.HOST, 0), (wire.HOST, port))

    def connection_made(self, transport):
        self.transport = transport

    def datagram_received(self, data, addr):
        message = wire.read(data)
        waiting = self.waiting.get(message.mid) if message.kind in (ACK, RST) else None
        if waiting and not waiting.done():
            waiting.set_result((message, data, time.monotonic()))
        elif message.kind in (ACK, RST):
            known = self.confirmable if message.code == EMPTY else self.asked_again
            self.ledger.judge("answers to what was asked", message.mid in known, data.hex())
        elif self.heard:
            self.heard(message)
        else:
            self.ledger.judge("answers to what was asked", False, data.hex())

    def error_received(self, exc):
        """A port that nobody has says nothing here: an answer is missing then."""

    def base(self) -> str:
        """The base of what registers from here."""
        return f"coap://{self.seen}:{self.transport.get_extra_info('sockname')[1]}"

    def request(self, code: int, options, payload: bytes = b"", token: bytes = b"\x01") -> bytes:
        """A request under the next Message ID."""
        mid = next(self.mids) & 0xFFFF
        return octets(CON, code, mid, token, sorted(options, key=lambda each: each[0]), payload)

    async def ask(self, request: bytes) -> Answer:
        """The answer to a request, which is sent again where none comes; that is wrong."""
        mid, sent = int.from_bytes(request[2:4], "big"), time.monotonic()
        answer = self.waiting[mid] = asyncio.get_running_loop().create_future()
        try:
            for _ in range(TRIES):
                self.transport.sendto(request)
                await asyncio.wait([answer], timeout=wire.ANSWER_LIMIT)
                if answer.done():
                    message, data, came = answer.result()
                    self.judge(mid, request, data)
                    return Answer(message, data, sent, came)
                self.asked_again.add(mid)
        finally:
            del self.waiting[mid]
        raise Wrong(f"no answer to {request.hex()}")

    def judge(self, mid: int, request: bytes, answer: bytes):
        """Judges that an answer came at once, as an acknowledgement with the token."""
        end = 4 + (request[0] & 15)
        self.ledger.judge("answers at once", mid not in self.asked_again, request.hex())
        if request != wire.PING:
            is_right = answer[0] == 0x60 | request[0] & 15 and answer[4:end] == request[4:end]
            self.ledger.judge("tokens", is_right, (request.hex(), answer.hex()))


@dataclass
class Entry:
    """A registration as the model has it."""

    number: int
    name: str
    base: str
    is_given: bool
    lifetime: int
    pairs: list[tuple[str, str]]
    links: list[tuple[str, str]]
    granted: tuple[float, float] = (0.0, 0.0)

    def grant(self, answer: Answer):
        """Its lease begins between these moments."""
        self.granted = answer.sent, answer.came

    def may_live(self, moment: float) -> bool:
        """Whether it may be live at a moment."""
        return moment < self.granted[1] + self.lifetime + MARGIN

    def is_live(self, moment: float) -> bool:
        """Whether it is live at a moment for sure."""
        return moment < self.granted[0] + self.lifetime - MARGIN

    def endpoint_lines(self) -> list[str]:
        """Its line in a lookup of endpoints."""
        pairs = "".join(f';{name}="{value}"' for name, value in self.pairs)
        return [f'</rd/{self.number}>;base="{self.base}";ep="{self.name}";rt="core.rd-ep"{pairs}']

    def link_lines(self, kind: str = "") -> list[str]:
        """Its lines in a lookup of resources, of one type or of all."""
        return [f'<{self.base}{target}>;rt="{each}"' for target, each in self.links
                if kind in ("", each)]

    def body(self) -> bytes:
        """Its links as they are registered."""
        return ",".join(f'<{target}>;rt="{kind}"' for target, kind in self.links).encode()

    def parameters(self) -> list[tuple[int, bytes]]:
        """The query by which it is registered."""
        base = [f"base={self.base}"] if self.is_given else []
        pairs = [f"{name}={value}" for name, value in self.pairs]
        return query(f"ep={self.name}", f"lt={self.lifetime}", *base, *pairs)


@dataclass
class Query:
    """A lookup: its place and criteria, and which lines of an entry it lists."""

    options: list[tuple[int, bytes]]
    lines: object
    page: tuple[int, int] = (0, 1 << 32)

    def body(self, entries: list[Entry]) -> bytes:
        """What it lists of entries."""
        lines = [line for entry in sorted(entries, key=lambda each: each.number)
                 for line in self.lines(entry)]
        first = self.page[0] * self.page[1]
        return ",".join(lines[first:first + self.page[1]]).encode()

    def is_listing(self, body: bytes, entries: list[Entry], sent: float, came: float):
        """Whether a body may be what it lists between two moments; None where it is not said."""
        sure = [entry for entry in entries if entry.is_live(came)]
        near = [entry for entry in entries if entry.may_live(sent) and not entry.is_live(came)]
        near = [entry for entry in near if self.lines(entry)]
        if len(near) > MOST_OPEN:
            return None
        return any(body == self.body(sure + [entry for entry, is_in in zip(near, each) if is_in])
                   for each in itertools.product([True, False], repeat=len(near)))


@dataclass
class Device:
    """A device that is fetched: what it answers, and in which way."""

    port: Port
    body: bytes = b""
    exponent: int = -1
    is_separate: bool = False
    ended: list[float] = field(default_factory=list)
    mids: object = field(default_factory=lambda: itertools.count(0x8000))

    def heard(self, message: Message):
        """Answers a request of the server."""
        if message.kind != CON or message.code != GET:
            return
        number, kind, mid = 0, ACK, message.mid
        if asked := message.values(BLOCK2):
            number = int.from_bytes(asked[0], "big") >> 4
        options, payload, is_more = [(ETAG, b"\xaa"), LINK_FORMAT], self.body, False
        if self.exponent >= 0:
            size = 16 << self.exponent
            payload = self.body[number * size:(number + 1) * size]
            is_more = (number + 1) * size < len(self.body)
            options.append((BLOCK2, block(number, is_more, self.exponent)))
        if self.is_separate:
            self.port.transport.sendto(octets(ACK, EMPTY, message.mid))
            kind, mid = CON, next(self.mids) & 0xFFFF
            self.port.confirmable.add(mid)
        if not is_more:
            self.ended.append(time.monotonic())
        self.port.transport.sendto(octets(kind, CONTENT, mid, message.token, options, payload))


class Observer:
    """Who observes a query, with what it was last given."""

    def __init__(self, ledger: Ledger, seen: str):
        self.ledger, self.port = ledger, Port(ledger, seen, self.heard)
        self.token, self.value, self.body = b"\x07", -1, b""

    def heard(self, message: Message):
        """Takes a notification and acknowledges it."""
        if message.kind != CON:
            return
        is_own = message.code == CONTENT and message.token == self.token
        self.port.transport.sendto(octets(ACK if is_own else RST, EMPTY, message.mid))
        self.ledger.judge("notifications", is_own and message.values(CONTENT_FORMAT) == [b"\x28"],
                          message)
        if is_own:
            self.take(message)

    def take(self, message: Message):
        """What was given, under an Observe value that rises."""
        value = int.from_bytes((message.values(OBSERVE) or [b""])[0], "big")
        is_right = bool(message.values(OBSERVE)) and value > self.value
        self.ledger.judge("values of Observe", is_right, (value, self.value))
        self.value, self.body = value, message.payload


class Fleet:
    """Devices of one fleet, what is known of their registrations, and what they do."""

    def __init__(self, number: int, server, ledger: Ledger, chance: random.Random):
        self.name, self.server_port, seen = f"f{number}", server.port, server.seen
        self.ledger, self.chance = ledger, chance
        self.entries: dict[str, Entry] = {}
        self.client, self.sensor = Port(ledger, seen), Port(ledger, seen)
        self.device = Device(Port(ledger, seen))
        self.device.port.heard = self.device.heard
        self.observer = Observer(ledger, seen)
        self.ports = [self.client, self.sensor, self.device.port, self.observer.port]
        self.watched = Query(RESOURCES + query("rt=hot", f"fleet={self.name}", f"count={PAGE}"),
                             lambda entry: entry.link_lines("hot"), (0, PAGE))

    async def act(self, until: float, is_stopped: bool):
        """Does one thing after another until a moment, or up to what is wrong."""
        for port in self.ports:
            await port.open(self.server_port)
        await self.observe()
        await self.brief()
        writes = [self.register, self.register, self.upload, self.update, self.update,
                  self.refresh, self.remove, self.simple, self.unknown, self.brief]
        others = [self.look, self.look, self.look, self.blocks, self.blocks, self.pages,
                  self.validate, self.watch, self.observe, self.refused]
        acts = writes + others * OTHERS
        while time.monotonic() < until and not (is_stopped and self.ledger.wrong):
            await self.chance.choice(acts)()
            await asyncio.sleep(self.chance.uniform(0, 0.05))
        await self.look()
        await self.watch()

    def close(self):
        """Closes all ports."""
        for port in self.ports:
            if port.transport:
                port.transport.close()

    # Writes.

    async def write(self, port: Port, code: int, options, payload: bytes = b"") -> Answer | None:
        """The answer to a write; nothing where too many are kept."""
        await self.ledger.pace()
        request = port.request(code, options, payload)
        self.ledger.most_changes += 1
        answer = await port.ask(request)
        is_change = answer.message.code in (CREATED, DELETED) \
            or answer.message.code == CHANGED and (URI_PATH, b".well-known") not in options
        self.ledger.changes += is_change
        self.ledger.most_changes -= not is_change
        if self.ledger.is_refused(answer):
            await asyncio.sleep(self.chance.uniform(0, REFUSED_WAIT))
            return None
        if self.chance.random() < 0.1:
            again = await port.ask(request)
            self.ledger.judge("repeats", again.octets == answer.octets, again.octets.hex())
        return answer

    def draft(self, base: str, is_given: bool) -> Entry:
        """A registration that is to be made."""
        name = f"{self.name}n{self.chance.randrange(NAMES)}"
        links = [(f"/{name}/{place}", self.chance.choice(TYPES))
                 for place in range(self.chance.randint(0, MOST_LINKS))]
        pairs = [("fleet", self.name), ("v", str(next(self.ledger.versions)))]
        return Entry(0, name, base, is_given, self.chance.choice(LIFETIMES), pairs, links)

    def is_number(self, entry: Entry, answer: Answer, number: int, highest: int) -> bool:
        """Whether a number is the one of a name that lives, or a new one."""
        before = self.entries.get(entry.name)
        is_old = before is not None and before.may_live(answer.sent) and number == before.number
        is_new = (before is None or not before.is_live(answer.came)) and number > highest
        return is_old or is_new

    def enter(self, what: str, entry: Entry, answer: Answer, highest: int):
        """Judges the 2.01 of a registration, and keeps that."""
        location = answer.message.values(LOCATION_PATH)
        is_right = answer.message.code == CREATED and len(location) == 2 and location[0] == b"rd"
        entry.number = int(location[1]) if is_right else 0
        is_right = is_right and self.is_number(entry, answer, entry.number, highest)
        self.ledger.judge(what, is_right, (answer.octets.hex(), highest))
        self.keep(entry, answer)

    def keep(self, entry: Entry, answer: Answer):
        """Keeps a registration."""
        entry.grant(answer)
        self.ledger.highest = max(self.ledger.highest, entry.number)
        self.entries[entry.name] = entry

    async def register(self):
        """Registers a device, in one message."""
        is_given = self.chance.random() < 0.5
        base = "coap://h.example" if is_given else self.sensor.base()
        entry, highest = self.draft(base, is_given), self.ledger.highest
        options = path("rd") + [LINK_FORMAT] + entry.parameters()
        if answer := await self.write(self.sensor, POST, options, entry.body()):
            self.enter("registrations", entry, answer, highest)

    async def brief(self):
        """Registers a device for a second, and looks it up again and again near its end."""
        entry, highest = self.draft(self.sensor.base(), False), self.ledger.highest
        entry.lifetime, entry.name = 1, f"{self.name}brief"
        options = path("rd") + [LINK_FORMAT] + entry.parameters()
        if not (answer := await self.write(self.sensor, POST, options, entry.body())):
            return
        self.enter("registrations for a second", entry, answer, highest)
        asked = Query(ENDPOINTS + query(f"ep={entry.name}"),
                      lambda each: each.endpoint_lines() if each.name == entry.name else [])
        await asyncio.sleep(max(0, answer.sent + 0.9 - time.monotonic()))
        while time.monotonic() < answer.came + 1.3:
            if came := await self.whole(asked):
                body, first, tag = came
                self.judge("lookups near an end", asked, body, first.sent, first.came, tag)
            await asyncio.sleep(0.005)

    async def upload(self):
        """Registers a device in blocks."""
        entry = self.draft(self.sensor.base(), False)
        exponent = self.chance.choice(EXPONENTS)
        size, body = 16 << exponent, entry.body()
        count = max(1, -(-len(body) // size))
        highest = self.ledger.highest
        for number in range(count):
            piece = body[number * size:(number + 1) * size]
            if number and self.chance.random() < 0.1:
                await self.disorder(entry, number + 1, exponent)
            answer = await self.upload_block(entry, number, number + 1 < count, exponent, piece)
            if number + 1 < count:
                is_right = answer.message.code == CONTINUE
                self.ledger.judge("blocks of uploads", is_right, answer.octets.hex())
        self.enter("uploads", entry, answer, highest)

    async def upload_block(self, entry: Entry, number: int, is_more: bool, exponent: int,
                           piece: bytes) -> Answer:
        """Sends a block of an upload until it is not refused since too many writes are kept."""
        options = path("rd") + entry.parameters() + [(BLOCK1, block(number, is_more, exponent))]
        while True:
            if answer := await self.write(self.sensor, POST, options, piece):
                is_right = answer.message.values(BLOCK1) == [block(number, is_more, exponent)]
                is_right = is_right or answer.message.refusal() == "4.08 order"
                self.ledger.judge("values of Block1", is_right, answer.octets.hex())
                return answer

    async def disorder(self, entry: Entry, number: int, exponent: int):
        """Sends a block that is not the next one."""
        answer = await self.upload_block(entry, number, True, exponent, b"x" * (16 << exponent))
        is_right = answer.message.refusal() == "4.08 order"
        self.ledger.judge("blocks out of order", is_right, answer.octets.hex())

    def some_entry(self) -> Entry | None:
        """One of the registrations that were made, which may have lapsed."""
        return self.chance.choice(list(self.entries.values())) if self.entries else None

    def is_as_lives(self, entry: Entry, answer: Answer, code: int) -> bool:
        """Whether a change was answered by its code, or by 4.04 where it may be gone."""
        if answer.message.code == code:
            return entry.may_live(answer.sent)
        return answer.message.refusal() == "4.04 registration" and not entry.is_live(answer.came)

    async def change(self, what: str, entry: Entry, parts: list[str]) -> bool:
        """Updates a registration; whether it was."""
        options = path("rd", str(entry.number)) + query(*parts)
        answer = await self.write(self.sensor, POST, options)
        if not answer:
            return False
        is_right = self.is_as_lives(entry, answer, CHANGED)
        self.ledger.judge(what, is_right, (answer.octets.hex(), entry))
        if answer.message.code != CHANGED:
            self.ledger.counts["changes of what has lapsed"] += 1
            self.forget(entry)
            return False
        if not entry.is_given:
            entry.base = self.sensor.base()
        entry.grant(answer)
        return True

    def forget(self, entry: Entry):
        """A registration is gone."""
        if self.entries.get(entry.name) is entry:
            del self.entries[entry.name]

    async def refresh(self):
        """Refreshes a registration."""
        if entry := self.some_entry():
            await self.change("refreshes", entry, [])

    async def update(self):
        """Changes a registration: its attributes, its lifetime, its base."""
        if not (entry := self.some_entry()):
            return
        version, lifetime = str(next(self.ledger.versions)), self.chance.choice(LIFETIMES)
        base = self.chance.choice(["", "coap://u.example:61616"])
        parts = [f"v={version}", f"lt={lifetime}"] + ([f"base={base}"] if base else [])
        if self.chance.random() < 0.3:
            parts.append("x=y")
        if not await self.change("updates", entry, parts):
            return
        entry.lifetime = lifetime
        given = [tuple(part.split("=")) for part in parts if part[0] in "vx"]
        names = [name for name, _ in given]
        entry.pairs = [pair for pair in entry.pairs if pair[0] not in names] + given
        if base:
            entry.base, entry.is_given = base, True

    async def remove(self):
        """Removes a registration."""
        if not (entry := self.some_entry()):
            return
        if answer := await self.write(self.sensor, DELETE, path("rd", str(entry.number))):
            is_right = self.is_as_lives(entry, answer, DELETED)
            self.ledger.judge("removals", is_right, (answer.octets.hex(), entry))
            self.forget(entry)

    async def unknown(self):
        """Changes a registration whose number is not there."""
        code = self.chance.choice([POST, DELETE])
        if self.chance.random() < 0.5:
            answer = await self.client.ask(self.client.request(code, path("rd", "01")))
            self.ledger.judge("other paths", answer.message.refusal() == "4.04 path",
                              answer.octets.hex())
        elif answer := await self.write(self.client, code, path("rd", "999999999999999")):
            is_right = answer.message.refusal() == "4.04 registration"
            self.ledger.judge("unknown registrations", is_right, answer.octets.hex())

    async def refused(self):
        """Asks what is refused."""
        code, options, wanted = self.chance.choice([
            (POST, path("rd") + query("lt=60"), "4.00 query"),
            (POST, path("rd") + query("ep=a", "lt=0"), "4.00 query"),
            (GET, path("rd"), "4.05 method"),
            (GET, RESOURCES + query("page=1"), "4.00 query"),
            (GET, ENDPOINTS + [(wire.ACCEPT, b"\x32")], "4.06 accept"),
            (GET, RESOURCES + query(f"fleet={self.name}") + [(BLOCK2, block(9_999, False, 2))],
             "4.00 block"),
            (POST, path(".well-known", "rd") + query("lt=60"), "4.00 query")])
        answer = await self.client.ask(self.client.request(code, options))
        is_right = answer.message.refusal() == wanted
        self.ledger.judge("refusals", is_right, (answer.octets.hex(), wanted))

    # Simple registration.

    async def simple(self):
        """Has the server fetch the links of a device."""
        entry, highest = self.draft(self.device.port.base(), False), self.ledger.highest
        self.device.body = entry.body()
        self.device.exponent = self.chance.choice([-1, *EXPONENTS])
        self.device.is_separate = self.chance.random() < 0.3
        self.device.ended.clear()
        options = path(".well-known", "rd") + entry.parameters()
        first = await self.device.port.ask(self.device.port.request(POST, options))
        if self.ledger.is_refused(first, is_kept=False):
            return
        echo = first.message.values(wire.ECHO)
        self.ledger.judge("challenges", len(echo) == 1, first.octets.hex())
        if not echo:
            return
        self.ledger.most_changes += 1
        answer = await self.write(self.device.port, POST, options + [(wire.ECHO, echo[0])])
        if not answer:
            self.ledger.most_changes -= 1
            return
        is_right = answer.message.code == CHANGED
        self.ledger.judge("simple registrations", is_right, answer.octets.hex())
        if await self.until_fetched():
            await self.found(entry, answer, highest)

    async def until_fetched(self) -> bool:
        """Waits until the device gave its last block."""
        until = time.monotonic() + FETCH_LIMIT
        while not self.device.ended and time.monotonic() < until:
            await asyncio.sleep(0.01)
        self.ledger.judge("fetches", bool(self.device.ended), "does not end")
        return bool(self.device.ended)

    async def found(self, entry: Entry, first: Answer, highest: int):
        """Looks for what was fetched, and keeps it under the number that it is listed with."""
        options = ENDPOINTS + query(f"ep={entry.name}", f"v={dict(entry.pairs)['v']}")
        begun = self.device.ended[0]
        while True:
            answer = await self.client.ask(self.client.request(GET, options))
            listed = answer.message.payload.decode(errors="replace")
            if listed or answer.came > begun + min(FETCH_LIMIT, entry.lifetime - MARGIN):
                break
            await asyncio.sleep(0.01)
        entry.grant(Answer(first.message, b"", begun, answer.came))
        if not listed:
            self.ledger.judge("fetched registrations", not entry.is_live(answer.sent), entry)
            await asyncio.sleep(entry.lifetime + 2 * MARGIN)
            self.entries.pop(entry.name, None)
            return
        text = listed.removeprefix("</rd/").partition(">")[0]
        entry.number = int(text) if text.isdigit() else 0
        is_right = [listed] == entry.endpoint_lines() \
            and self.is_number(entry, first, entry.number, highest)
        self.ledger.judge("fetched registrations", is_right, (listed, entry, highest))
        self.ledger.changes += 1
        self.keep(entry, Answer(first.message, b"", begun, answer.came))

    # Lookups.

    def some_query(self) -> Query:
        """A lookup of the whole fleet, or of a part."""
        fleet = f"fleet={self.name}"
        kind = self.chance.choice(TYPES)
        name = f"{self.name}n{self.chance.randrange(NAMES)}"
        return self.chance.choice([
            Query(ENDPOINTS + query(fleet), Entry.endpoint_lines),
            Query(RESOURCES + query(fleet), Entry.link_lines),
            Query(RESOURCES + query(f"rt={kind}", fleet), lambda entry: entry.link_lines(kind)),
            Query(RESOURCES + query(fleet, f"rt={kind[:3]}*"),
                  lambda entry: entry.link_lines(kind)),
            Query(ENDPOINTS + query(fleet, f"rt={kind}"),
                  lambda entry: entry.endpoint_lines() if entry.link_lines(kind) else []),
            Query(ENDPOINTS + query(f"ep={name}", fleet),
                  lambda entry: entry.endpoint_lines() if entry.name == name else [])])

    def judge(self, what: str, asked: Query, body: bytes, sent: float, came: float,
              tag: bytes = b""):
        """Judges what a lookup lists, and that one tag has one listing."""
        is_right = asked.is_listing(body, list(self.entries.values()), sent, came)
        if is_right is None:
            self.ledger.counts["not judged"] += 1
            return
        wanted = asked.body([entry for entry in self.entries.values() if entry.may_live(sent)])
        self.ledger.judge(what, is_right, (asked.options, body, wanted))
        if tag:
            key = tuple(asked.options), tag
            self.ledger.judge("tags", self.ledger.bodies.setdefault(key, body) == body, key)

    async def whole(self, asked: Query, exponent: int = 6) -> tuple[bytes, Answer, bytes] | None:
        """A whole listing by its blocks, with its first answer and tag; none where it changed."""
        body, number, first, tags, least = b"", 0, None, set(), self.ledger.changes
        while True:
            given = [(BLOCK2, block(number, False, exponent))] if number or exponent != 6 else []
            answer = await self.client.ask(self.client.request(GET, asked.options + given))
            if not first:
                self.ledger.count_tag(answer.message, least)
            self.ledger.judge("formats", answer.message.code != CONTENT or
                              answer.message.values(CONTENT_FORMAT) == [b"\x28"],
                              answer.octets.hex())
            first = first or answer
            tags.update(answer.message.values(ETAG))
            if answer.message.code != CONTENT or len(tags) != 1:
                self.ledger.counts["listings that changed between blocks"] += 1
                return None
            body += answer.message.payload
            value = int.from_bytes((answer.message.values(BLOCK2) or [b""])[0], "big")
            if not value & 8:
                return body, first, tags.pop()
            number += 1

    async def look(self):
        """Looks up, in blocks where the listing is long."""
        asked = self.some_query()
        if came := await self.whole(asked):
            body, first, tag = came
            self.judge("lookups", asked, body, first.sent, first.came, tag)

    async def blocks(self):
        """Looks up in blocks of a size."""
        asked = self.some_query()
        if came := await self.whole(asked, self.chance.choice(BLOCKS)):
            body, first, tag = came
            self.judge("lookups in blocks", asked, body, first.sent, first.came, tag)

    async def pages(self):
        """Looks up a page."""
        asked, page = self.some_query(), self.chance.randrange(4)
        count = self.chance.choice([1, 3, PAGE])
        paged = Query(asked.options + query(f"page={page}", f"count={count}"), asked.lines,
                      (page, count))
        if came := await self.whole(paged):
            body, first, _ = came
            self.judge("pages", paged, body, first.sent, first.came)

    async def validate(self):
        """Looks up what was just looked up, under its tag."""
        asked = self.some_query()
        if not (came := await self.whole(asked)):
            return
        body, _, tag = came
        answer = await self.client.ask(self.client.request(GET, asked.options + [(ETAG, tag)]))
        if answer.message.code == VALID:
            is_right = answer.message.values(ETAG) == [tag] and not answer.message.payload
            self.ledger.judge("validations", is_right, answer.octets.hex())
            self.judge("lookups that are valid still", asked, body, answer.sent, answer.came)
        else:
            is_right = answer.message.code == CONTENT and answer.message.values(ETAG) != [tag]
            self.ledger.judge("validations", is_right, answer.octets.hex())

    # Observation.

    async def observe(self):
        """Observes the fleet, anew where it is observed."""
        options = self.watched.options + [(OBSERVE, b"")]
        request = self.observer.port.request(GET, options, b"", self.observer.token)
        answer = await self.observer.port.ask(request)
        self.observer.take(answer.message)
        self.judge("observations", self.watched, answer.message.payload, answer.sent, answer.came)

    async def watch(self):
        """Lets time pass in the server, until the observer was given what is listed now."""
        for _ in range(NEWS_TRIES):
            for _ in range(TICK_PINGS):
                await self.client.ask(wire.PING)
            until = time.monotonic() + NEWS_GRACE
            while time.monotonic() < until:
                if self.is_up_to_date():
                    self.ledger.judge("observers up to date", True)
                    return
                await asyncio.sleep(0.01)
        self.ledger.judge("observers up to date", False, self.observer.body)

    def is_up_to_date(self) -> bool:
        """Whether the observer was given what is listed now, as far as that is known."""
        now = time.monotonic()
        entries = list(self.entries.values())
        return self.watched.is_listing(self.observer.body, entries, now, now) is not False
