"""What a directory remembers beside registrations: plain lists that are looked through."""

from dataclasses import dataclass, field

from .history import Parameters, Refused
from .lookup import Query
from .message import Block

# How long things are remembered, in milliseconds, and how many of them (docs/PROFILE.md).
LIFETIME = 247_000
MOST_EXCHANGES, MOST_UPLOADS, MOST_ANSWERS, MOST_CHALLENGES = 4_096, 64, 64, 1_024
MOST_OBSERVERS, MOST_WATCHED, MOST_FETCHES = 1_024, 256, 64
MOST_BODY = 8_192

# Retransmissions (RFC 7252 section 4.2), and how long a separate response is waited for.
MOST_SENT_AGAIN, FIRST_WAIT, WAIT_SPREAD = 4, 2_000, 1_001
SEPARATE_WAIT = 93_000


@dataclass
class Exchange:
    """A write that was admitted: from whom, under which Message ID, and its reply."""

    peer: str
    mid: int
    moment: int
    reply: bytes | None = None


class Exchanges:
    """The writes that were admitted, the latest last (RFC 7252 section 4.5)."""

    def __init__(self):
        self.admitted: list[Exchange] = []

    def age(self, moment: int):
        """Forgets what is too old."""
        if self.admitted and moment - self.admitted[0].moment >= LIFETIME:
            self.admitted = [each for each in self.admitted if moment - each.moment < LIFETIME]

    def find(self, peer: str, mid: int) -> Exchange | None:
        """The latest one of a peer and a Message ID."""
        return next((each for each in reversed(self.admitted)
                     if each.mid == mid and each.peer == peer), None)

    def check_room(self):
        """Refuses one more than are remembered."""
        if len(self.admitted) >= MOST_EXCHANGES:
            raise Refused(0xA3, "exchanges")

    def admit(self, peer: str, mid: int, moment: int) -> Exchange:
        """Admits a write that is no repeat."""
        self.check_room()
        self.admitted.append(Exchange(peer, mid, moment))
        return self.admitted[-1]


@dataclass
class Upload:
    """A body that comes in blocks: of whom, under which key, what came, and when the last."""

    peer: str
    key: tuple
    body: bytes
    moment: int


class Uploads:
    """The bodies that come in blocks (RFC 7959 section 2.5)."""

    def __init__(self):
        self.all: list[Upload] = []

    def live(self, moment: int) -> list[Upload]:
        """Those whose last block is not too old."""
        return [each for each in self.all if moment - each.moment < LIFETIME]

    def find(self, peer: str, key: tuple, moment: int) -> Upload | None:
        """The live one of a peer and a key."""
        return next((each for each in self.live(moment) if (each.peer, each.key) == (peer, key)),
                    None)

    def joined(self, peer: str, key: tuple, moment: int, block: Block, piece: bytes) -> bytes:
        """What came with one more block; refused where that is not the next, or too much."""
        known = self.find(peer, key, moment)
        before = b""
        if block.number:
            if known is None or len(known.body) != block.start:
                raise Refused(0x88, "order")
            before = known.body
        if len(before) + len(piece) > MOST_BODY:
            raise Refused(0x8D, "size")
        is_new = block.is_more and block.number == 0 and known is None
        if is_new and len(self.live(moment)) >= MOST_UPLOADS:
            raise Refused(0xA3, "uploads")
        return before + piece

    def keep(self, peer: str, key: tuple, moment: int, body: bytes):
        """Keeps what came so far."""
        self.end(peer, key)
        self.all = self.live(moment) + [Upload(peer, key, body, moment)]

    def end(self, peer: str, key: tuple):
        """Forgets one."""
        self.all = [each for each in self.all if (each.peer, each.key) != (peer, key)]


@dataclass
class Answer:
    """A body that is given in blocks, with its tag."""

    peer: str
    key: tuple
    body: bytes
    tag: bytes
    moment: int


class Answers:
    """The bodies that are given in blocks, the one used last behind all others."""

    def __init__(self):
        self.all: list[Answer] = []

    def keep(self, peer: str, key: tuple, body: bytes, tag: bytes, moment: int):
        """Keeps a body, in the place of an earlier one of this name."""
        others = [each for each in self.all if (each.peer, each.key) != (peer, key)]
        self.all = (others + [Answer(peer, key, body, tag, moment)])[-MOST_ANSWERS:]

    def use(self, peer: str, key: tuple, moment: int) -> Answer | None:
        """The live one of a name, which is used."""
        known = next((each for each in self.all if (each.peer, each.key) == (peer, key)), None)
        if known is None or moment - known.moment >= LIFETIME:
            return None
        self.keep(peer, key, known.body, known.tag, moment)
        return known


@dataclass
class Sending:
    """A message that is sent until it is acknowledged (RFC 7252 section 4.2)."""

    mid: int
    octets: bytes
    moment: int
    first_wait: int
    times: int = 0

    @property
    def deadline(self) -> int:
        """When it is sent again, or given up."""
        return self.moment + (self.first_wait << self.times)

    def again(self, moment: int) -> bool:
        """Whether it is to be sent again at a moment at which its deadline is past."""
        if self.times == MOST_SENT_AGAIN:
            return False
        self.times += 1
        self.moment = moment
        return True


def sending(mid: int, octets: bytes, moment: int, word: int) -> Sending:
    """A message that is sent for the first time."""
    return Sending(mid, octets, moment, FIRST_WAIT + word % WAIT_SPREAD)


@dataclass
class Observer:
    """Who observes a lookup (RFC 7641), and what was last given."""

    peer: str
    token: bytes
    query: Query
    key: tuple
    block: Block
    body: bytes
    is_due: bool = False
    flight: Sending | None = None


class Observers:
    """The observers in the order in which they came."""

    def __init__(self):
        self.all: list[Observer] = []
        self.given = 0

    def next_value(self) -> int:
        """The next value of Observe."""
        self.given += 1
        return self.given & 0xFFFFFF

    def remove(self, peer: str, token: bytes):
        """Removes the observer of a peer and a token."""
        self.all = [each for each in self.all if (each.peer, each.token) != (peer, token)]

    def has_room(self, query: Query) -> bool:
        """Whether one more of a query may be added."""
        watched = {each.query for each in self.all}
        return len(self.all) < MOST_OBSERVERS \
            and (query in watched or len(watched) < MOST_WATCHED)

    def in_flight(self, peer: str) -> Observer | None:
        """The one of a peer whose notification is not acknowledged."""
        return next((each for each in self.all if each.peer == peer and each.flight), None)

    def flight_of(self, peer: str, mid: int) -> Observer | None:
        """The one whose notification has a Message ID."""
        found = self.in_flight(peer)
        return found if found and found.flight.mid == mid else None


@dataclass
class Fetch:
    """The links of a device, as they are fetched (RFC 9176 section 5.1)."""

    peer: str
    token: bytes
    given: Parameters
    asked: Sending
    begun: int
    body: bytes = b""
    tag: bytes | None = None
    has_begun: bool = False
    is_waiting: bool = False


class Fetches:
    """The fetches that run, in the order in which they were started."""

    def __init__(self):
        self.all: list[Fetch] = []
        self.started = 0

    def find(self, peer: str) -> Fetch | None:
        """The one of a peer."""
        return next((each for each in self.all if each.peer == peer), None)

    def check_room(self, peer: str):
        """Refuses a second one of a peer, and too many."""
        if self.find(peer):
            raise Refused(0xA3, "fetching")
        if len(self.all) >= MOST_FETCHES:
            raise Refused(0xA3, "fetches")

    def next_token(self) -> bytes:
        """The token of the next one: how many were started, with it."""
        self.started += 1
        return (self.started & (1 << 64) - 1).to_bytes(8, "big")

    def end(self, fetch: Fetch):
        """Ends one."""
        self.all = [each for each in self.all if each is not fetch]


@dataclass
class Challenges:
    """What peers were challenged with (RFC 9175 section 2.3)."""

    made: list[tuple[str, bytes, int]] = field(default_factory=list)
    count: int = 0

    def make(self, peer: str, moment: int, word: int) -> bytes:
        """A new one."""
        value = word.to_bytes(4, "big") + (self.count & 0xFFFFFFFF).to_bytes(4, "big")
        self.count += 1
        self.made = (self.made + [(peer, value, moment)])[-MOST_CHALLENGES:]
        return value

    def is_good(self, peer: str, value: bytes | None, moment: int) -> bool:
        """Whether a value is the last one of a peer, and not too old."""
        last = next((each for each in reversed(self.made) if each[0] == peer), None)
        return last is not None and last[1] == value and moment - last[2] < LIFETIME
