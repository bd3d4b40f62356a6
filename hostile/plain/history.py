"""Registrations as the outcome of all accepted changes (RFC 9176 section 5)."""

from dataclasses import dataclass, replace
from functools import cached_property

from . import document, reference
from .document import Link, quoted

# Limits (docs/PROFILE.md).
MOST_LIVE, MOST_TEXT, MOST_ENTRIES = 4_096, 1_048_576, (1 << 48) - 1

DEFAULT_LIFETIME, MOST_LIFETIME = 90_000, 0xFFFFFFFF
MOST_NAME = 63
NEVER_ATTRIBUTES = ("href", "anchor", "rt", "page", "count")


class Refused(Exception):
    """A request that is refused: its code and its word."""

    def __init__(self, code: int, word: str):
        super().__init__(word)
        self.code, self.word = code, word


@dataclass(frozen=True)
class Parameters:
    """What the query of a registration or an update gives."""

    endpoint: str | None = None
    sector: str | None = None
    lifetime: int | None = None
    base: str | None = None
    attributes: tuple[tuple[str, str], ...] = ()


@dataclass(frozen=True)
class Record:
    """A registration."""

    number: int
    endpoint: str
    sector: str | None
    lifetime: int
    granted: int
    base: str
    is_given: bool
    attributes: tuple[tuple[str, str], ...]
    links: tuple[Link, ...]

    def __deepcopy__(self, _memo) -> "Record":
        """Itself, since it never changes."""
        return self

    @property
    def name(self) -> tuple[str, str | None]:
        """What names it: its endpoint and its sector."""
        return self.endpoint, self.sector

    @cached_property
    def lapse(self) -> int:
        """The moment at which it has lapsed."""
        return self.granted + 1_000 * self.lifetime

    @cached_property
    def location(self) -> str:
        """Its location."""
        return f"/rd/{self.number}"

    @cached_property
    def references(self) -> list[tuple[str, str | None]]:
        """The target and the anchor of each link, resolved against its base."""
        return [(reference.resolved(self.base, link.target),
                 None if link.anchor is None else reference.resolved(self.base, link.anchor))
                for link in self.links]

    @cached_property
    def link_lines(self) -> list[str]:
        """The line of each link in a lookup of resources."""
        return [f"<{target}>{link.raw}" + ("" if anchor is None else f';anchor="{anchor}"')
                for link, (target, anchor) in zip(self.links, self.references)]

    @cached_property
    def endpoint_line(self) -> str:
        """Its line in a lookup of endpoints."""
        sector = "" if self.sector is None else f";d={quoted(self.sector)}"
        extra = "".join(f";{name}" + (f"={quoted(value)}" if value else "")
                        for name, value in self.attributes)
        return (f"<{self.location}>;base={quoted(self.base)};ep={quoted(self.endpoint)}{sector}"
                f';rt="core.rd-ep"{extra}')

    @cached_property
    def pairs(self) -> list[tuple[str, str]]:
        """The pairs by which it matches a criterion by itself."""
        sector = [] if self.sector is None else [("d", self.sector)]
        return [("href", self.location), ("base", self.base), ("ep", self.endpoint), *sector,
                ("rt", "core.rd-ep"), *self.attributes]

    @cached_property
    def parts(self) -> dict[tuple, list[str]]:
        """What lookups list of it, as far as they were made: it never changes."""
        return {}

    @cached_property
    def weight(self) -> int:
        """The octets of its lines, each with one more."""
        return sum(len(line.encode()) + 1 for line in [self.endpoint_line, *self.link_lines])

    def source(self) -> bytes:
        """Its links as they were submitted."""
        return ",".join(link.source_line() for link in self.links).encode()


# Parameters.


def is_clean(value: str) -> bool:
    """Whether a text has no control character."""
    return not any(ord(each) < 0x20 or 0x7F <= ord(each) <= 0x9F for each in value)


def texts_of(queries: list[bytes], code: int) -> list[tuple[str, str]]:
    """Options of a query as pairs of a name and a value."""
    pairs = []
    for option in queries:
        try:
            name, _, value = option.decode().partition("=")
        except UnicodeDecodeError:
            raise Refused(code, "query") from None
        pairs.append((name, value))
    return pairs


def decimal(text: str, least: int, most: int) -> int | None:
    """A number of 1 to 10 digits between two bounds."""
    if not (text.isascii() and text.isdigit() and len(text) <= 10):
        return None
    number = int(text)
    return number if least <= number <= most else None


def is_right_value(name: str, value: str) -> bool:
    """Whether a parameter may have a value."""
    if not is_clean(value):
        return False
    if name in ("ep", "d"):
        return 1 <= len(value.encode()) <= MOST_NAME
    if name == "lt":
        return decimal(value, 1, MOST_LIFETIME) is not None
    if name == "base":
        return reference.is_base(value)
    return document.ATTRIBUTE_NAME.fullmatch(name) is not None and name not in NEVER_ATTRIBUTES


def parameters(queries: list[bytes], refused: int, never: tuple[str, ...]) -> Parameters:
    """The parameters of a query, of which some names may not come."""
    once: dict[str, str] = {}
    attributes = []
    for name, value in texts_of(queries, refused):
        if name in never or name in once or not is_right_value(name, value):
            raise Refused(refused, "query")
        if name in ("ep", "d", "lt", "base"):
            once[name] = value
        else:
            attributes.append((name, value))
    if "ep" not in never and "ep" not in once:
        raise Refused(refused, "query")
    lifetime = int(once["lt"]) if "lt" in once else None
    return Parameters(once.get("ep"), once.get("d"), lifetime, once.get("base"),
                      tuple(attributes))


# The history.


def base_of(peer: str) -> str:
    """The base of a registration that gives none: the address it came from."""
    host, _, port = peer.rpartition(":")
    return f"coap://{host}" + ("" if port == "5683" else f":{port}")


class History:
    """The registrations that stand after all changes so far, and how many changes there were."""

    def __init__(self):
        self.records: list[Record] = []
        self.last_number = self.entries = self.last_moment = 0

    def live(self, moment: int) -> list[Record]:
        """The registrations that have not lapsed at a moment, in the order of their numbers."""
        return [record for record in self.records if record.lapse > moment]

    def record(self, number: int, moment: int) -> Record | None:
        """The live registration of a number."""
        return next((each for each in self.live(moment) if each.number == number), None)

    def tag(self, moment: int) -> bytes:
        """The entity tag: the changes, and what was live after the last one and has lapsed."""
        lapsed = sum(each.lapse <= moment for each in self.live(self.last_moment))
        return self.entries.to_bytes(6, "big") + (lapsed & 0xFFFF).to_bytes(2, "big")

    def begin(self, moment: int, first: int):
        """Lifts the last number and the count of changes, and counts as one change."""
        if max(self.entries, first) < MOST_ENTRIES:
            self.last_number = max(self.last_number, first)
            self.entries = max(self.entries, first)
            self.enter(moment, self.records)

    def register(self, moment: int, given: Parameters, peer: str, links) -> Record:
        """Registers, under the number of a live registration of that name or the next one."""
        live = self.live(moment)
        old = next((each for each in live if each.name == (given.endpoint, given.sector)), None)
        if old is None and len(live) >= MOST_LIVE:
            raise Refused(0xA3, "registrations")
        made = Record(self.last_number + 1 if old is None else old.number,
                      given.endpoint, given.sector, given.lifetime or DEFAULT_LIFETIME, moment,
                      given.base or base_of(peer), given.base is not None, given.attributes, links)
        self.put(moment, made)
        self.last_number = max(self.last_number, made.number)
        return made

    def update(self, moment: int, number: int, given: Parameters, peer: str):
        """Begins a lease anew, with what the update gives."""
        old = self.known(moment, number)
        base, is_given = old.base, old.is_given
        if given.base is not None:
            base, is_given = given.base, True
        elif not is_given:
            base = base_of(peer)
        names = {name for name, _ in given.attributes}
        kept = tuple(pair for pair in old.attributes if pair[0] not in names)
        self.put(moment, replace(old, lifetime=given.lifetime or old.lifetime, granted=moment,
                                 base=base, is_given=is_given,
                                 attributes=kept + given.attributes))

    def replace(self, moment: int, number: int, links):
        """Replaces the links of a registration, and keeps its lease."""
        self.put(moment, replace(self.known(moment, number), links=links))

    def remove(self, moment: int, number: int):
        """Removes a registration."""
        self.known(moment, number)
        self.check_room()
        self.enter(moment, [each for each in self.records if each.number != number])

    def known(self, moment: int, number: int) -> Record:
        """The live registration of a number, refused where there is none."""
        record = self.record(number, moment)
        if record is None:
            raise Refused(0x84, "registration")
        return record

    def put(self, moment: int, made: Record):
        """Puts a registration in the place of the one of its number, or behind all."""
        others = [each for each in self.live(moment) if each.number != made.number]
        if sum(each.weight for each in others) + made.weight > MOST_TEXT:
            raise Refused(0xA3, "text")
        self.check_room()
        self.enter(moment, sorted(others + [made], key=lambda each: each.number))

    def check_room(self):
        """Refuses a change behind the last one that is counted."""
        if self.entries >= MOST_ENTRIES:
            raise Refused(0xA3, "entries")

    def enter(self, moment: int, records: list[Record]):
        """Counts a change, after which these registrations stand."""
        self.records = [each for each in records if each.lapse > moment]
        self.entries += 1
        self.last_moment = moment
