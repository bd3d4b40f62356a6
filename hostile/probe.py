"""A client whose answers are known, beside whatever else a server has heard.

It registers, changes, removes, observes and is fetched while nobody else sends, so that all that
comes to it is known to the octet: the count of changes in each entity tag goes up by one with each
of its changes alone. Only the places of others in a tag's count of lapses are not.
"""

import time

import wire
from messages import (ACK, BLOCK2, CHANGED, CON, CONTENT, CONTENT_FORMAT, CREATED, DELETE, ECHO,
                      EMPTY, GET, LOCATION_PATH, POST, RST, UNAUTHORIZED, octets, path, query)
from wire import BLOCK1, ETAG, OBSERVE, Message, block

PUT, DELETED, CONTINUE = 0x03, 0x42, 0x5F
LINK_FORMAT = (CONTENT_FORMAT, b"\x28")
RESOURCES, ENDPOINTS = path("rd-lookup", "res"), path("rd-lookup", "ep")

# Seconds: how long what is to come is waited for, and how near an end of a lease is judged.
LIMIT, EDGE = 1.0, 0.05

# Seconds behind which a message that nobody acknowledged comes again (RFC 7252 section 4.2).
FIRST_WAIT = 3.2

# Pings behind which some worker has let time pass, for each worker.
TICK_PINGS = 18

# Seconds that what nobody waits for has to come.
QUIET = 0.02

# The seconds of a lease that is waited for, the lookups behind its end, and the most seconds in
# which they are made.
LEASE, AFTER, MOST_WAITED = 2, 5, 6


class Full(Exception):
    """The server takes no further writes."""


class Probe:
    """The client, and how many of its answers were judged and wrong."""

    def __init__(self, server, workers: int, most_told: int = 20):
        self.server, self.pings = server, TICK_PINGS * workers
        self.device, self.other, self.observer = (wire.open_socket(server.port)
                                                  for _ in range(3))
        self.mids = {self.device: 0, self.other: 0, self.observer: 0}
        self.reset_at = 0.0
        self.judged = self.wrong = self.rounds = 0
        self.highest = self.count = 0
        self.most_told = most_told

    def close(self):
        """Closes all ports."""
        for each in self.mids:
            each.close()

    def base(self, asking) -> str:
        """The base of what registers from a port."""
        return f"coap://{self.server.seen}:{asking.getsockname()[1]}"

    def judge(self, what: str, is_right: bool, told: object = ""):
        """Counts an answer, and tells it where it is wrong."""
        self.judged += 1
        if not is_right:
            self.wrong += 1
            if self.wrong <= self.most_told:
                print(f"WRONG {what}: {told}", flush=True)

    # Messages.

    def came(self, asking, limit: float = LIMIT) -> bytes:
        """What comes to a port next, nothing where nothing does."""
        asking.settimeout(limit)
        try:
            return asking.recv(wire.MOST_DATAGRAM)
        except OSError:
            return b""

    def drain(self, asking):
        """What came to a port that nobody waited for is wrong."""
        while stray := self.came(asking, QUIET):
            self.judge("what nobody waits for", False, stray.hex())

    def request(self, asking, code: int, options, payload: bytes = b"") -> bytes:
        """A request of a port under its next Message ID."""
        self.mids[asking] = self.mids[asking] % 0xEFFF + 1
        ordered = sorted(options, key=lambda option: option[0])
        return octets(CON, code, self.mids[asking], b"\x5a\x01", ordered, payload)

    def ask(self, asking, request: bytes) -> bytes:
        """What comes to a request, which is sent again where nothing does; that is wrong."""
        for attempt in range(3):
            asking.send(request)
            if came := self.came(asking):
                self.judge("answers at once", attempt == 0, request.hex())
                return came
        self.judge("answers", False, f"none to {request.hex()}")
        return b""

    def wants(self, what: str, asking, request: bytes, code: int, options=(),
              payload: bytes = b"") -> bytes:
        """Asks, and what comes is this to the octet; a full server ends the round."""
        came = self.ask(asking, request)
        if came[1:2] == b"\xa3" and came.endswith(b"exchanges"):
            raise Full
        wanted = octets(ACK, code, int.from_bytes(request[2:4], "big"), b"\x5a\x01", options,
                        payload)
        self.judge(what, came == wanted, f"came {came.hex()}, wanted {wanted.hex()}")
        return came

    def read(self, came: bytes) -> Message:
        """What came as a message; an empty one where it is none."""
        try:
            return wire.read(came)
        except ValueError:
            return Message(0, 0, 0, b"", (), b"")

    def counted(self, what: str, message: Message, changes: int):
        """Judges the count of a tag: so many changes more than before."""
        tags = message.values(ETAG)
        count = int.from_bytes(tags[0][:6], "big") if len(tags) == 1 else -1
        self.judge(f"tags {what}", count == self.count + changes,
                   f"count {count}, wanted {self.count + changes}")
        self.count = count

    def lists(self, what: str, options, payload: str, changes: int) -> bytes:
        """A lookup lists this, under a tag of so many changes more; its tag."""
        asked = self.request(self.other, GET, options)
        message = self.read(self.ask(self.other, asked))
        self.counted(what, message, changes)
        tags = message.values(ETAG)
        wanted = Message(ACK, CONTENT, int.from_bytes(asked[2:4], "big"), b"\x5a\x01",
                         ((ETAG, tags[0] if tags else b""), LINK_FORMAT), payload.encode())
        self.judge(what, message == wanted, f"came {message}, wanted {wanted}")
        return tags[0] if tags else b""

    # What a round does.

    def round(self, with_lease: bool):
        """All of it once, as far as the server takes writes."""
        self.rounds += 1
        for each in self.mids:
            self.drain(each)
        name = f"probe{self.rounds}"
        try:
            self.begin()
            number = self.register(name)
            self.repeat(name, number)
            self.change(name, number)
            self.observe(name, number)
            self.upload(name)
            self.be_fetched(name)
            if with_lease:
                self.lease(name)
                self.stay_reset()
            self.remove(name, number)
        except Full:
            print("    the server takes no further writes; the probe ends its round", flush=True)

    def begin(self):
        """Reads the count of changes from which a round goes on."""
        asked = self.request(self.other, GET, ENDPOINTS + query("ep=nobody"))
        tags = self.read(self.ask(self.other, asked)).values(ETAG)
        self.count = int.from_bytes(tags[0][:6], "big") if tags else 0

    def located(self, what: str, options, payload: bytes, extra=()) -> int:
        """Registers under a new number, which is that of the location."""
        asked = self.request(self.device, POST, options, payload)
        came = self.ask(self.device, asked)
        if came.endswith((b"exchanges", b"registrations", b"text")):
            raise Full
        location = self.read(came).values(LOCATION_PATH)
        number = int(location[1]) if len(location) == 2 and location[1].isdigit() else 0
        wanted = octets(ACK, CREATED, int.from_bytes(asked[2:4], "big"), b"\x5a\x01",
                        [(LOCATION_PATH, b"rd"), (LOCATION_PATH, b"%d" % number), *extra])
        self.judge(what, came == wanted and number > self.highest,
                   f"came {came.hex()}, highest {self.highest}")
        self.highest = max(self.highest, number)
        return number

    def register(self, name: str) -> int:
        """Registers, and is listed; registers again at the same location."""
        options = path("rd") + [LINK_FORMAT] + query(f"ep={name}")
        number = self.located("registrations", options, b'</p>;rt="probe"')
        line = f'</rd/{number}>;base="{self.base(self.device)}";ep="{name}";rt="core.rd-ep"'
        self.lists("locations", ENDPOINTS + query(f"ep={name}"), line, 1)
        asked = self.request(self.device, POST, options, b'</p>;rt="probe"')
        self.wants("registrations again", self.device, asked, CREATED,
                   [(LOCATION_PATH, b"rd"), (LOCATION_PATH, b"%d" % number)])
        self.lists("registrations again", ENDPOINTS + query(f"ep={name}"), line, 1)
        return number

    def repeat(self, name: str, number: int):
        """A write that comes again gets the same answer, and changes nothing."""
        asked = self.request(self.device, POST, path("rd", str(number)))
        first = self.wants("updates", self.device, asked, CHANGED)
        again = self.ask(self.device, asked)
        self.judge("repeats", first == again, f"came {again.hex()}, wanted {first.hex()}")
        line = f'<{self.base(self.device)}/p>;rt="probe"'
        tag = self.lists("repeats", RESOURCES + query(f"ep={name}"), line, 1)
        asked = self.request(self.other, GET, RESOURCES + query(f"ep={name}") + [(ETAG, tag)])
        message = self.read(self.ask(self.other, asked))
        if message.values(ETAG) == [tag]:
            self.judge("validations", (message.code, message.payload) == (0x43, b""), message)

    def change(self, name: str, number: int):
        """Links are replaced, and read; what is not there is not changed."""
        asked = self.request(self.device, PUT, path("rd", str(number)) + [LINK_FORMAT],
                             b'</p>;rt="probe",</q>')
        self.wants("replacements", self.device, asked, CHANGED)
        self.lists("links read", path("rd", str(number)), '</p>;rt="probe",</q>', 1)
        base = self.base(self.device)
        self.lists("replacements", RESOURCES + query(f"ep={name}"),
                   f'<{base}/p>;rt="probe",<{base}/q>', 0)
        asked = self.request(self.device, POST, path("rd", "999999999999999"))
        self.wants("what is not there", self.device, asked, 0x84, (), b"registration")
        asked = self.request(self.device, POST, path("rd") + query("lt=60"))
        self.wants("refusals", self.device, asked, 0x80, (), b"query")
        self.reset_of_unreadable()

    def reset_of_unreadable(self):
        """A CON that is no message is reset."""
        self.other.send(b"\x49\x01\x12\x34")
        came = self.came(self.other)
        self.judge("Resets", came == b"\x70\x00\x12\x34", came.hex())

    def put(self, number: int, links: str):
        """Replaces the links of a registration."""
        asked = self.request(self.device, PUT, path("rd", str(number)), links.encode())
        self.wants("replacements", self.device, asked, CHANGED)

    def let_time_pass(self):
        """Sends so many pings that some worker has let time pass."""
        for _ in range(self.pings):
            self.server.settle()

    def observe(self, name: str, number: int):
        """Is told of each change, at the next tick, until it resets a notification."""
        options = [(OBSERVE, b""), *RESOURCES, *query(f"ep={name}", "rt=probe")]
        asked = self.request(self.observer, GET, options)
        message, base = self.read(self.ask(self.observer, asked)), self.base(self.device)
        line = f'<{base}/p>;rt="probe"'
        value = int.from_bytes((message.values(OBSERVE) or [b""])[0], "big")
        self.judge("observations", bool(message.values(OBSERVE))
                   and message.payload == line.encode(), message)
        for place in range(2):
            self.put(number, f'</p{place}>;rt="probe"')
            value = self.told(f'<{base}/p{place}>;rt="probe"', value, is_reset=place == 1)
        self.put(number, '</p>;rt="probe"')
        self.let_time_pass()
        self.drain(self.observer)
        self.lists("what was observed", RESOURCES + query(f"ep={name}"), line, 1)

    def told(self, line: str, before: int, is_reset: bool) -> int:
        """The value of Observe of a notification, which comes at the next tick."""
        self.let_time_pass()
        message = self.read(self.came(self.observer, LIMIT / 4))
        value = int.from_bytes((message.values(OBSERVE) or [b""])[0], "big")
        self.counted("of notifications", message, 1)
        options = [number for number, _ in message.options]
        is_right = (message.kind, message.code, message.token, message.payload, options) \
            == (CON, CONTENT, b"\x5a\x01", line.encode(), [ETAG, OBSERVE, CONTENT_FORMAT])
        self.judge("notifications", is_right, message)
        self.judge("values of Observe", value > before, (value, before))
        self.observer.send(octets(RST if is_reset else ACK, EMPTY, message.mid))
        self.reset_at = time.monotonic()
        return value

    def stay_reset(self):
        """A notification that was reset does not come again when it would, were it not."""
        time.sleep(max(0.0, self.reset_at + FIRST_WAIT - time.monotonic()))
        self.drain(self.observer)

    def upload(self, name: str):
        """Registers in blocks, and is listed in blocks."""
        body = b'</u0>;rt="up",</u1>;rt="up"'
        options = path("rd") + query(f"ep={name}u")
        first, last = (BLOCK1, block(0, True, 0)), (BLOCK1, block(1, False, 0))
        asked = self.request(self.device, POST, options + [first], body[:16])
        self.wants("blocks", self.device, asked, CONTINUE, [first])
        number = self.located("uploads", options + [last], body[16:], [last])
        asked = self.request(self.other, GET, path("rd", str(number)) + [(BLOCK2, b"")])
        message = self.read(self.ask(self.other, asked))
        self.counted("of blocks", message, 1)
        self.judge("blocks of links", (message.payload, message.values(BLOCK2))
                   == (body[:16], [block(0, True, 0)]), message)

    def be_fetched(self, name: str):
        """Is challenged, fetched and listed."""
        options = path(".well-known", "rd") + query(f"ep={name}s")
        asked = self.request(self.device, POST, options)
        message = self.read(self.ask(self.device, asked))
        echo = (message.values(ECHO) or [b""])[0]
        self.judge("challenges", (message.code, len(echo)) in ((UNAUTHORIZED, 8), (0xA3, 0)),
                   message)
        if not echo:
            raise Full
        asked = self.request(self.device, POST, options + [(ECHO, echo)])
        self.wants("simple registrations", self.device, asked, CHANGED)
        fetch = self.read(self.came(self.device))
        self.judge("fetches", (fetch.kind, fetch.code, fetch.path())
                   == (CON, GET, [b".well-known", b"core"]), fetch)
        self.device.send(octets(ACK, CONTENT, fetch.mid, fetch.token, [LINK_FORMAT], b"</s>"))
        self.server.settle()
        self.lists("what was fetched", RESOURCES + query(f"ep={name}s"),
                   f"<{self.base(self.device)}/s>", 1)

    def lease(self, name: str):
        """A lease of two seconds ends after two, and its end is seen in the tag."""
        options = path("rd") + query(f"ep={name}l", f"lt={LEASE}")
        asked = self.request(self.device, POST, options, b"</l>")
        sent = time.time()
        came = self.ask(self.device, asked)
        if came[1:2] != b"\x41":
            raise Full
        granted = sent, time.time()
        listed = f"<{self.base(self.device)}/l>".encode()
        before = after = 0
        tags: dict[bytes, set[bytes]] = {}
        while after < AFTER and time.time() < granted[1] + MOST_WAITED:
            sent = time.time()
            message = self.read(self.ask(self.other, self.request(
                self.other, GET, RESOURCES + query(f"ep={name}l"))))
            tags.setdefault((message.values(ETAG) or [b""])[0], set()).add(message.payload)
            if time.time() < granted[0] + LEASE - EDGE / 2:
                before += 1
                self.judge("leases before their end", message.payload == listed, message)
            elif sent > granted[1] + LEASE + EDGE / 2:
                after += 1
                self.judge("leases after their end", message.payload == b"", message)
            time.sleep(0.1 if sent < granted[0] + LEASE - 0.2 else 0.002)
        self.judge("leases near their end", before > 0 and after > 0, (before, after))
        self.judge("one listing of one tag", all(len(each) == 1 for each in tags.values()), tags)
        self.begin()

    def remove(self, name: str, number: int):
        """Is removed once, whatever comes again, and listed no more."""
        asked = self.request(self.device, DELETE, path("rd", str(number)))
        first = self.wants("removals", self.device, asked, DELETED)
        again = self.ask(self.device, asked)
        self.judge("repeats of removals", again == first, again.hex())
        self.lists("removals", ENDPOINTS + query(f"ep={name}"), "", 1)
        asked = self.request(self.device, DELETE, path("rd", str(number)))
        self.wants("removals of nothing", self.device, asked, 0x84, (), b"registration")
