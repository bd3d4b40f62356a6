"""Random traces, by a seed: a small world in which much happens, and whatever comes of it.

Few peers, names and Message IDs, so that what comes meets what came before it. The plain directory
(hostile/plain) answers while a trace is made, so that acknowledgements, Echo values, tags and
responses to fetches can be those that fit, as often as not.
"""

import random
from dataclasses import dataclass

from plain import message
from plain.lookup import OF_WORDS, pairs_of_links
from plain.message import (ACCEPT, ACK, BLOCK1, BLOCK2, CON, CONTENT, CONTENT_FORMAT, DELETE, ECHO,
                           EMPTY, ETAG, GET, NON, OBSERVE, POST, PUT, RST, URI_PATH, URI_QUERY,
                           Block, spell, spell_block, spell_number)
from plain.trace import BadLine, Machine

PEERS = ["192.0.2.10:5683", "192.0.2.20:61616", "192.0.2.30:40000", "[2001:db8::1]:61616",
         "[fe80::1]:5683"]
WORKERS = [1, 1, 2, 2, 3, 16]
LINES = (10, 70)

# Message IDs of a peer come one after the other, but for some that come again.
FIRST_MID, MIDS = 1, 40

NAMES = ["n1", "n2", "n3", "n1", "n2", 'q"\\', "n\u00e9", "x" * 63]
SECTORS = ["s", "t"]
LIFETIMES = ["1", "1", "2", "3", "5", "60", "60", "600", "4294967295", "0001"]
BASES = ["coap://h", "coap://h/c/d", "coap://[2001:db8::5]:61616", "coaps://u@h:1/a/../b",
         "coap://h/", "x:/" + "/h"]
ATTRIBUTES = ["et=a", "et=b", "if=x y", "v", "v=", "z=q\"\\", "a=1", "obs", "t=\u00e9"]
BAD_PARAMETERS = ["ep=", "d=", "ep=" + "x" * 64, "lt=0", "lt=", "lt=4294967296", "lt=1 ",
                  "lt=00000000001", "base=/h", "base=coap:h", "base=coap://h?q", "base=coap://h#",
                  "base=coap://[fe80::1]", "base=coap://[FEAA::1]:1", "base=coap:///x",
                  "base=coap://[v1.a]", "href=x", "anchor=x", "rt=x", "page=1", "count=1", "=x",
                  "", "a b=1", "et=\u0085", "et=\x00", "et=\x7f", "\u00e9=x", "a*=1", b"et=\xff",
                  "base=coap://h%zz", "base=coap://h:x", "base=coap://u@", "lt=+1", "lt=\u0661"]

TARGETS = ["/a", "/b", "/s", "/s/t", "x", "../x", "./y", "", "?q", "#f", "//k/y", "/a/./b/../c",
           "coap://e.org/x", "http://e.org/./z", "/..//../b", "a:b", "g;x=1/../y", "..", "."]
BAD_TARGETS = ["1a:b", "/%", "/%zz", "//[::g]", "//[v1]", " ", "<", "\u00e9", ":", "//h:x", "/a b",
               "//a@b@c", "/\x7f"]
ANCHORS = ["/a", "", "#f", "../k", "//k"]
LINK_ATTRIBUTES = ['rt="temp"', 'rt="temp light"', "rt=light", 'rt="b a"', "rt=b", 'if="x y"',
                   "if=x", "ct=0", 'ct="40"', "obs", 'title="a \\" b"', "title=a", "title*=b",
                   'rel="p q"', "rev=p", 'rt=""', "href=z", "sz=1", 'et="a"', 'ep="n1"',
                   'x="\u00e9"', 'rt="  b  c "', "a", 'a="\\\\"']
BAD_ATTRIBUTES = ["", "=x", "a=", 'a="', 'a="x', "a b", 'a="\x01"', "a**", "a=\u00e9", ' a="x"',
                  'a="x"y', "a;", "*=x"]

CRITERIA = ["rt=temp", "rt=light", "rt=te*", "rt=*", "rt=", "rt=b", "rt=b a", "rt=core.rd-ep",
            "rt=core.rd*", "if=x", "if=y", "if=*", "ep=n1", "ep=n2", "ep=n*", "d=s", "d=*", "d",
            "base=coap://h", "base=*", "href=/rd/1", "href=/rd/2", "href=/rd/*", "href=*",
            "href=coap://*", "href=/a", "anchor=*", "anchor=coap://h/a", "ct=0", "ct=40", "obs",
            "obs=", "title=a", 'title=a " b', "title*=b", "rel=p", "rel=q*", "rev=p", "et=a",
            "et=b", "v", "v=*", "sz=1", "x=\u00e9", "a=*", "et=\x00", "rt=core.rd"]
PAGES = ["count=0", "count=1", "count=2", "count=3", "page=0", "page=1", "page=2",
         "page=4294967295", "count=01", "count=4294967295", "page=01"]
BAD_PAGES = ["count=", "count=x", "count=4294967296", "page=-1", "count=00000000001", "page=",
             "count=1&"]
BAD_CRITERIA = ["", "=x", b"rt=\xff", b"\xc3=x"]

WORDS = [0, 0, 0, 1, 7, 1000, 1001, 4_294_967_295]
STEPS = [0, 0, 0, 1, 1, 5, 100, 500, 999, 1_000, 1_001, 2_000, 2_500, 4_000, 10_000]
LEAPS = [30_000, 59_999, 62_000, 93_000, 123_500, 246_999, 247_000, 247_001]
EXPONENTS = [0, 0, 0, 1, 2, 6]
UNKNOWN = [1, 2, 5, 9, 13, 14, 16, 19, 20, 258, 2_049, 65_001, 65_535]
METHODS = [GET, POST, PUT, DELETE, 5, 6, 31]
FIRSTS = [0, 1, 5, 1_000, 1_700_000_000_000, (1 << 48) - 3, (1 << 48) - 2, (1 << 48) - 1]

REGISTER, SIMPLE = ("rd",), (".well-known", "rd")
LOOKUPS = [("rd-lookup", "res"), ("rd-lookup", "ep")]
CORE = (".well-known", "core")


@dataclass(frozen=True)
class Trace:
    """A trace that was made: its workers, its lines, and what the plain directory writes."""

    workers: int
    lines: list[str]
    wanted: list[str]
    status: int
    said: str


def octets_of(text) -> bytes:
    """A text or octets as octets."""
    return text if isinstance(text, bytes) else text.encode()


def ordered(options) -> list[tuple[int, bytes]]:
    """Options in the order in which they are written."""
    return sorted(options, key=lambda option: option[0])


class World:
    """A world in which a trace is made."""

    def __init__(self, chance: random.Random, with_beginnings: bool = False, workers: int = 0,
                 peers=()):
        self.chance, self.with_beginnings = chance, with_beginnings
        self.workers = workers or chance.choice(WORKERS)
        self.machine = Machine(self.workers)
        self.lines: list[str] = []
        self.wanted: list[str] = []
        self.status, self.said = 0, ""
        self.moment = chance.choice([0, 1, 1_000, 700_000])
        self.peers = list(peers) or PEERS[:chance.randint(1, len(PEERS))]
        self.mids = dict.fromkeys(self.peers, FIRST_MID)
        self.came: dict[str, list[message.Message]] = {peer: [] for peer in self.peers}
        self.sent: list[tuple[str, bytes]] = []
        self.acts = self.some_acts()

    def some_acts(self) -> list:
        """What is done in this trace: some things more often than others."""
        acts = [*ACTS, (World.begin, 1)] if self.with_beginnings else ACTS
        weights = [weight * self.chance.choice([0, 1, 1, 2, 6]) for _, weight in acts]
        return [act for (act, _), weight in zip(acts, weights) for _ in range(weight)] \
            + [World.register, World.lookup, World.tick]

    def make(self) -> Trace:
        """Makes the trace."""
        count = self.chance.randint(*LINES)
        while len(self.lines) < count and not self.status:
            self.pass_time()
            self.chance.choice(self.acts)(self)
        if not self.status and self.chance.random() < 0.9:
            for worker in range(self.workers):
                self.line(f"go {worker} {self.moment}")
        if not self.status:
            self.wanted.append(self.machine.end())
        return Trace(self.workers, self.lines, self.wanted, self.status, self.said)

    # Lines.

    def line(self, line: str):
        """Adds a line, and takes what comes of it."""
        if self.status:
            return
        self.lines.append(line)
        try:
            out = self.machine.line(line.encode())
        except BadLine as bad:
            self.status, self.said = 4, f"line {len(self.lines)}: {bad}"
            return
        self.wanted += out
        for each in out:
            _, _, peer, digits = each.split(" ")
            self.came[peer].append(message.read(bytes.fromhex(digits)))

    def one_in(self, number: int) -> bool:
        """True once in so many times."""
        return self.chance.randrange(number) == 0

    def pass_time(self):
        """Lets some time pass, up to just before or behind the end of a lease at times."""
        records = self.machine.desk.history.records
        if records and self.one_in(6):
            end = self.chance.choice(records).lapse + self.chance.choice([-1, 0, 0, 1])
            if self.moment <= end < self.moment + 700_000:
                self.moment = end
                return
        self.moment += self.chance.choice(LEAPS if self.one_in(25) else STEPS)

    def written_moment(self) -> int:
        """The moment of a line, which goes back at times."""
        return max(0, self.moment - (self.chance.choice([1, 1_000]) if self.one_in(30) else 0))

    def send(self, peer: str, octets: bytes):
        """A datagram at a worker that is free; those with jobs may do them first."""
        worker = self.free_worker()
        word = self.chance.choice(WORDS)
        digits = octets.hex() or "-"
        digits = digits.upper() if self.one_in(50) else digits
        text = f"in {worker} {self.written_moment()} {peer} {digits}"
        self.sent.append((peer, octets))
        self.line(text + (f" {word}" if word or self.one_in(20) else ""))
        if self.chance.random() < 0.7:
            self.moment += self.chance.choice([0, 0, 1, 5])
            self.line(f"go {worker} {self.written_moment()}")

    def free_worker(self) -> int:
        """A worker without a job."""
        worker = self.chance.randrange(self.workers)
        if self.machine.jobs[worker] and not self.one_in(300):
            self.line(f"go {worker} {self.written_moment()}")
        return worker

    def go(self):
        """Lets a worker do its job, if it has one."""
        self.line(f"go {self.chance.randrange(self.workers)} {self.written_moment()}")

    def tick(self):
        """Lets time pass."""
        word = self.chance.choice(WORDS)
        worker = self.chance.randrange(self.workers)
        self.line(f"tick {worker} {self.written_moment()}" + (f" {word}" if word else ""))

    def begin(self):
        """Begins numbers and the count of changes behind a number."""
        worker = self.chance.randrange(self.workers)
        self.line(f"begin {worker} {self.written_moment()} {self.chance.choice(FIRSTS)}")

    def bad_line(self):
        """A line that is none, at the end of a trace."""
        if self.one_in(8):
            self.line(self.chance.choice([
                "", "in 0 10", f"go {self.workers} {self.moment}", "tick 0 01", "go 256 1",
                f"in 0 {self.moment} 1.2.3.4:0 40011234", f"in 0 {self.moment} 1.2.3.4:5 4",
                f"tick 0 {self.moment} 4294967296", f"go 0  {self.moment}", "go 0 5 ",
                f"in 0 {self.moment} [::1.2.3.4]:5683 40", f"tick 0 {self.moment} 1 1",
                f"in 0 {self.moment} [2001:DB8::1]:5 40", "go 0 1000000000000000",
                f"in 0 {self.moment} 192.0.2.1:5683 " + "00" * 4_097, "x" * 8_601, "end 0 0 0"]))

    # Requests.

    def peer(self) -> str:
        """One of the peers."""
        return self.chance.choice(self.peers)

    def mid(self, peer: str) -> int:
        """The next Message ID of a peer, one that was at times."""
        if self.one_in(15):
            return self.chance.randrange(FIRST_MID, FIRST_MID + MIDS)
        self.mids[peer] += 1
        return self.mids[peer]

    def request(self, peer: str, code: int, path, queries=(), options=(), payload=b""):
        """Sends a request, seldom with an odd option."""
        spelled = [(URI_PATH, octets_of(part)) for part in path]
        spelled += [(URI_QUERY, octets_of(part)) for part in queries]
        spelled += list(options)
        if self.one_in(25):
            spelled.append(self.odd_option())
        if self.one_in(60):
            code = self.chance.choice(METHODS)
        kind = self.chance.choice([CON, CON, CON, CON, NON])
        token = self.chance.choice([b"", b"a", b"a", b"b", b"12345678"])
        self.send(peer, spell(kind, code, self.mid(peer), token, ordered(spelled), payload))

    def odd_option(self) -> tuple[int, bytes]:
        """An option that is unknown, out of place or of an odd length."""
        number = self.chance.choice([*message.KNOWN, *UNKNOWN])
        least, most, _ = message.KNOWN.get(number, (0, 4, True))
        length = self.chance.choice([least, max(0, least - 1), min(most, 4) + 1, min(most, 256),
                                     most + 1 if most < 300 else 300])
        return number, self.chance.choice([b"\x00", b"\x01", b"a", b"("]) * length

    def links(self) -> str:
        """A body of links, a bad one at times."""
        return ",".join(self.link() for _ in range(self.chance.choice([0, 1, 1, 2, 3, 5]))) \
            + ("," if self.one_in(60) else "")

    def link(self) -> str:
        """A link."""
        pick = self.chance.choice
        target = pick(BAD_TARGETS if self.one_in(60) else TARGETS)
        attributes = [pick(BAD_ATTRIBUTES if self.one_in(90) else LINK_ATTRIBUTES)
                      for _ in range(pick([0, 0, 1, 1, 2, 3]))]
        if self.one_in(5):
            value = pick([*ANCHORS, "coap://e/", "1a:b", "a b"] if self.one_in(8) else ANCHORS)
            anchor = pick([f'anchor="{value}"', f"anchor={value}" if value else "anchor"])
            attributes.insert(self.chance.randint(0, len(attributes)), anchor)
        return f"<{target}>" + "".join(f";{each}" for each in attributes)

    def parameters(self, is_update: bool = False, is_simple: bool = False) -> list:
        """The parameters of a registration or an update."""
        pick, parts = self.chance.choice, []
        if not is_update and not self.one_in(50):
            parts.append(f"ep={pick(NAMES)}")
        if not is_update and self.one_in(4):
            parts.append(f"d={pick(SECTORS)}")
        if not self.one_in(4):
            parts.append(f"lt={pick(LIFETIMES)}")
        if self.one_in(3) and not is_simple:
            parts.append(f"base={pick(BASES)}")
        count = pick([0, 1, 1, 2] if is_update else [0, 0, 1, 2])
        parts += [pick(ATTRIBUTES) for _ in range(count)]
        if self.one_in(25):
            parts.append(pick(BAD_PARAMETERS))
        if self.one_in(40):
            parts.append(pick([*parts, "ep=n1", "base=coap://h", "lt=60", "d=s"]))
        if self.one_in(4):
            self.chance.shuffle(parts)
        return parts

    def format(self) -> list[tuple[int, bytes]]:
        """The format of a body of links, another one at times."""
        if self.one_in(40):
            return [(CONTENT_FORMAT, self.chance.choice([b"", b"\x32", b"\x00\x28", b"\x28\x00"]))]
        return [(CONTENT_FORMAT, b"\x28")] if self.one_in(2) else []

    def register(self):
        """Registers, whole."""
        self.request(self.peer(), POST, REGISTER, self.parameters(), self.format(),
                     self.links().encode())

    def location(self) -> tuple[str, str]:
        """The path of a registration, of none at times."""
        last = max(1, self.machine.desk.history.last_number)
        odd = ["0", "01", "", "x", "999999999999999", "1000000000000000", str(last + 1)]
        live = [str(each.number) for each in self.machine.desk.history.records]
        return "rd", self.chance.choice(odd if self.one_in(15) or not live else live)

    def update(self):
        """Updates a registration."""
        payload = b"x" if self.one_in(40) else b""
        self.request(self.peer(), POST, self.location(), self.parameters(True), (), payload)

    def remove(self):
        """Removes a registration."""
        queries = ["x"] if self.one_in(10) else []
        self.request(self.peer(), DELETE, self.location(), queries)

    def replace(self):
        """Puts links in the place of those of a registration."""
        self.request(self.peer(), PUT, self.location(), ["x"] if self.one_in(10) else [],
                     self.format(), self.links().encode())

    def read(self):
        """Reads the links of a registration."""
        queries = ["x"] if self.one_in(10) else []
        self.request(self.peer(), GET, self.location(), queries, self.of_lookup())

    def upload(self):
        """Sends links in blocks, seldom all in order."""
        peer, exponent = self.peer(), self.chance.choice(EXPONENTS)
        size, body = 16 << exponent, self.links().encode()
        is_put = self.one_in(3)
        path = self.location() if is_put else REGISTER
        queries = self.parameters() if not is_put else []
        count = max(1, -(-len(body) // size))
        for number in range(count):
            if self.one_in(8):
                number = self.chance.choice([0, number + 1, max(0, number - 1), 511, 1_048_575])
            is_more = number + 1 < count
            piece = body[number * size:(number + 1) * size]
            if self.one_in(25):
                piece += b"x"
            block = Block(number, is_more, 7 if self.one_in(60) else exponent)
            if self.one_in(25):
                return
            options = [(BLOCK1, spell_block(block)), *self.format()]
            for _ in range(2 if not is_more and self.one_in(4) else 1):
                self.request(peer, PUT if is_put else POST, path, queries, options, piece)
            self.pass_time()

    def upload_much(self):
        """Sends blocks up to the most octets of a body, and one that is too many."""
        if not self.one_in(6):
            return
        peer, queries = self.peer(), ["ep=n1"]
        for number in range(self.chance.choice([8, 9])):
            is_more = number < 8 or self.one_in(2)
            piece = b"<" + b"x" * 1_023 if is_more else self.chance.choice([b"", b">"])
            self.request(peer, POST, REGISTER, queries,
                         [(BLOCK1, spell_block(Block(number, is_more, 6)))], piece)

    def of_lookup(self) -> list[tuple[int, bytes]]:
        """Options of a lookup: a tag, a format, a block."""
        options, pick = [], self.chance.choice
        if self.one_in(3):
            tag = self.machine.desk.history.tag(max(self.moment, self.machine.moment))
            odd = [b"", b"\x00" * 8, b"123456789", tag[:7]]
            options.append((ETAG, pick(odd) if self.one_in(6) else tag))
        if self.one_in(15):
            options.append((ACCEPT, pick([b"\x28", b"\x00\x28", b"\x32", b""])))
        if self.one_in(3):
            number, exponent = pick([0, 0, 1, 1, 2, 3, 5, 1_048_575]), pick([0, 0, 0, 1, 6, 7])
            exponent = 0 if exponent == 7 and not self.one_in(8) else exponent
            options.append((BLOCK2, spell_block(Block(number, self.one_in(9), exponent))))
        return options

    def criteria(self) -> list:
        """The criteria of a lookup, and its page."""
        pick = self.chance.choice
        parts = [self.fitting() if self.one_in(2) else pick(CRITERIA)
                 for _ in range(pick([0, 0, 1, 1, 2, 2, 3]))]
        if self.one_in(6):
            parts.append(pick(BAD_PAGES if self.one_in(8) else PAGES))
        if self.one_in(6):
            parts += [f"count={pick([1, 2, 2, 3])}", f"page={pick([0, 1, 1, 2])}"]
        if self.one_in(40):
            parts.append(pick(BAD_CRITERIA))
        return parts

    def fitting(self) -> str:
        """A criterion that some link or endpoint meets."""
        pick, records = self.chance.choice, self.machine.desk.history.records
        if not records:
            return pick(CRITERIA)
        record = pick(records)
        name, value = pick(pick([record.pairs, *pairs_of_links(record)]) or record.pairs)
        words = [word for word in value.split(" ") if word]
        if name in OF_WORDS and words:
            value = pick(words)
        return f"{name}={value[:-1]}*" if value and self.one_in(4) else f"{name}={value}"

    def lookup(self):
        """Looks up."""
        path = CORE if self.one_in(12) else self.chance.choice(LOOKUPS)
        self.request(self.peer(), GET, path, self.criteria(), self.of_lookup())

    def read_on(self):
        """Asks for a further block of what was asked before."""
        asked = [(peer, octets) for peer, octets in self.sent[-12:] if octets[1:2] == b"\x01"]
        if not asked:
            return
        peer, octets = self.chance.choice(asked)
        try:
            asked = message.read(octets)
        except message.Unreadable:
            return
        block = Block(self.chance.choice([1, 1, 2, 3, 9]), False, self.chance.choice([0, 0, 1, 6]))
        options = [each for each in asked.options if each[0] not in (BLOCK2, OBSERVE)]
        self.send(peer, spell(asked.kind if asked.kind in (CON, NON) else CON, GET, self.mid(peer),
                              asked.token, ordered(options + [(BLOCK2, spell_block(block))])))

    def observe(self):
        """Begins or ends an observation."""
        value = self.chance.choice([b"", b"", b"", b"", b"\x01", b"\x00\x00", b"\x02", b"\x00" * 4])
        path = CORE if self.one_in(30) else self.chance.choice(LOOKUPS)
        path = self.location() if self.one_in(30) else path
        options = self.of_lookup() if self.one_in(3) else []
        self.request(self.peer(), GET, path, self.criteria(), [(OBSERVE, value), *options])

    def simple(self):
        """Asks to be fetched, with the Echo that was sent if there is one."""
        peer = self.peer()
        echoes = [value for each in self.came[peer] for number, value in each.options
                  if number == ECHO]
        options = []
        if echoes and not self.one_in(8):
            options = [(ECHO, echoes[0] if self.one_in(8) else echoes[-1])]
        if self.one_in(40):
            options = [(ECHO, self.chance.choice([b"x", b"x" * 41, b"\x00" * 8]))]
        payload = b"x" if self.one_in(40) else b""
        self.request(peer, POST, SIMPLE, self.parameters(is_simple=not self.one_in(20)), options,
                     payload)

    # What is answered to the directory.

    def settle(self):
        """Acknowledges or resets what the directory sent, or something else."""
        peer = self.peer()
        mids = [each.mid for each in self.came[peer] if each.kind == CON][-3:]
        mid = self.chance.choice(mids) if mids and not self.one_in(10) \
            else self.chance.choice([0, 1, 4_096, 8_191])
        kind = self.chance.choice([ACK, ACK, ACK, RST])
        self.send(self.peer() if self.one_in(15) else peer, spell(kind, EMPTY, mid))

    def respond(self):
        """Answers a fetch, mostly with what it asked for."""
        asked = [(peer, each) for peer in self.peers for each in self.came[peer]
                 if each.kind == CON and each.code == GET]
        running = [(peer, each) for peer, each in asked
                   if (fetch := self.machine.desk.fetches.find(peer))
                   and fetch.asked.mid == each.mid]
        if not asked:
            return
        peer, request = self.chance.choice(asked if self.one_in(6) or not running else running)
        running = self.machine.desk.fetches.find(peer)
        exponent = self.chance.choice([None, None, 0, 0, 1])
        body = self.links().encode()
        number = 0
        if running and running.body:
            number = self.next_number(running)
            exponent = self.chance.choice([0, 0, 0, 1, 6])
        options = [(CONTENT_FORMAT, b"\x28")] if self.one_in(2) else []
        if self.one_in(30):
            options = [(CONTENT_FORMAT, self.chance.choice([b"", b"\x32"]))]
        if self.one_in(3):
            options.append((ETAG, self.chance.choice([b"\xaa", b"\xaa", b"\xbb"])))
        piece = body
        if exponent is not None:
            size, is_more = 16 << exponent, not self.one_in(2)
            piece = (body + b'</f>;rt="temp",</g>')[:size] if is_more else body[:size]
            number += self.one_in(12)
            value = spell_block(Block(number, is_more, 7 if self.one_in(40) else exponent))
            options.append((BLOCK2, value))
        if self.one_in(25):
            options.append(self.odd_option())
        self.send_response(peer, request, ordered(options), piece)

    def next_number(self, running) -> int:
        """The number of the block of 16 octets that a fetch waits for."""
        return len(running.body) // 16

    def send_response(self, peer: str, request, options, payload: bytes):
        """Sends a response, in one of the ways in which one may come."""
        kind = self.chance.choice([ACK, ACK, ACK, CON, CON, NON])
        kind = RST if self.one_in(40) else kind
        code = self.chance.choice([0x84, 0x40, 0x44, 0xA0, 0x5F]) if self.one_in(20) else CONTENT
        token = request.token if not self.one_in(25) else self.chance.choice([b"", b"x" * 8])
        mid = request.mid if kind == ACK and not self.one_in(15) else self.chance.randrange(900)
        self.send(self.peer() if self.one_in(25) else peer,
                  spell(kind, code, mid, token, options, payload))

    # Other datagrams.

    def again(self):
        """A datagram that was sent before, from its peer, or another write under its number."""
        if not self.sent:
            return
        peer, octets = self.chance.choice(self.sent[-6:] if self.one_in(2) else self.sent)
        if self.one_in(12):
            peer = self.peer()
        self.send(peer, octets)

    def ask_again(self):
        """A request that was made before, under another Message ID."""
        requests = [(peer, octets) for peer, octets in self.sent[-30:]
                    if len(octets) >= 4 and octets[0] >> 4 in (4, 5) and 0 < octets[1] < 32]
        reads = [each for each in requests if each[1][1] == GET]
        if requests:
            peer, octets = self.chance.choice(reads if reads and self.one_in(2) else requests)
            self.send(peer, octets[:2] + self.mid(peer).to_bytes(2, "big") + octets[4:])

    def mutated(self):
        """A datagram that was sent before, with some octets changed."""
        if not self.sent:
            return
        peer, octets = self.chance.choice(self.sent[-10:])
        made = bytearray(octets)
        for _ in range(self.chance.randint(1, 3)):
            at = self.chance.randrange(len(made) + 1)
            change = self.chance.randrange(4)
            if change == 0 and at < len(made):
                made[at] ^= 1 << self.chance.randrange(8)
            elif change == 1:
                del made[at:at + self.chance.randint(1, 4)]
            elif change == 2:
                made[at:at] = self.chance.randbytes(self.chance.randint(1, 3))
            else:
                del made[at:]
        self.send(peer, bytes(made[:4_096]))

    def stray(self):
        """A datagram by chance, short ones mostly."""
        octets = self.chance.choice([
            spell(CON, EMPTY, 0x1234), spell(NON, EMPTY, 0x1235), bytes.fromhex("49011234"),
            bytes.fromhex("50011235ff"), bytes.fromhex("80010001"), bytes.fromhex("4001123690"),
            b"", b"\x40", self.chance.randbytes(self.chance.randint(1, 40)),
            spell(self.chance.randrange(4), self.chance.randrange(256), self.chance.randrange(99),
                  b"a")])
        self.send(self.peer(), octets)

    def odd_path(self):
        """A request of an odd path or method."""
        segments = [self.chance.choice(["rd", "rd-lookup", "res", "ep", ".well-known", "core", "",
                                        "..", "1"]) for _ in range(self.chance.randrange(4))]
        self.request(self.peer(), self.chance.choice(METHODS), segments, self.criteria())

    def many_options(self):
        """A request with numbers of options in further spellings."""
        options = [(OBSERVE, b"\x00"), (OBSERVE, b""), (BLOCK2, spell_number(6)),
                   (CONTENT_FORMAT, b"\x28"), (ACCEPT, b"\x28"), (ETAG, b"\x01"), (3, b"h"),
                   (7, b""), (28, b""), (60, b"\x01"), (14, b"\x00"), (BLOCK1, b"\x06")]
        chosen = self.chance.sample(options, self.chance.randint(1, 5))
        self.request(self.peer(), GET, self.chance.choice(LOOKUPS), self.criteria(), chosen)


# What is done, and how often beside the others.
ACTS = [(World.register, 6), (World.update, 3), (World.remove, 2), (World.replace, 2),
        (World.read, 2), (World.upload, 2), (World.upload_much, 1), (World.lookup, 6),
        (World.read_on, 2), (World.observe, 4), (World.simple, 6), (World.settle, 4),
        (World.respond, 8), (World.again, 3), (World.ask_again, 4), (World.mutated, 2),
        (World.stray, 1), (World.odd_path, 1), (World.many_options, 1), (World.go, 2),
        (World.tick, 6), (World.bad_line, 1)]


def made(seed: int, number: int, with_beginnings: bool = False) -> Trace:
    """The trace of a number, by a seed."""
    return World(random.Random(f"{seed} {number}"), with_beginnings).make()
