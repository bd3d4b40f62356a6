"""Lookups: criteria, and what they list (RFC 9176 section 6, RFC 6690 section 4.1)."""

from dataclasses import dataclass

from .history import Record, Refused, decimal, texts_of

MOST_PAGE = 0xFFFFFFFF

# Attributes whose values are lists of words.
OF_WORDS = ("rel", "rev", "rt", "if")

# What the directory says of itself (RFC 9176 section 4.3): target, line and attributes.
OFFERED = [
    ("/rd", '</rd>;rt="core.rd";ct=40', [("rt", "core.rd"), ("ct", "40")]),
    ("/rd-lookup/ep", '</rd-lookup/ep>;rt="core.rd-lookup-ep";ct=40;obs',
     [("rt", "core.rd-lookup-ep"), ("ct", "40"), ("obs", "")]),
    ("/rd-lookup/res", '</rd-lookup/res>;rt="core.rd-lookup-res";ct=40;obs',
     [("rt", "core.rd-lookup-res"), ("ct", "40"), ("obs", "")]),
]


@dataclass(frozen=True)
class Query:
    """A lookup: what it lists, its criteria in their order, and which page."""

    kind: str
    criteria: tuple[tuple[str, str], ...]
    page: int | None
    count: int | None


def query_of(kind: str, queries: list[bytes]) -> Query:
    """The lookup of a query; Refused where it is none."""
    criteria, pages = [], {}
    for name, pattern in texts_of(queries, 0x80):
        if name in ("page", "count"):
            number = decimal(pattern, 0, MOST_PAGE)
            if number is None or name in pages:
                raise Refused(0x80, "query")
            pages[name] = number
        elif not name:
            raise Refused(0x80, "query")
        else:
            criteria.append((name, pattern))
    if "page" in pages and "count" not in pages:
        raise Refused(0x80, "query")
    return Query(kind, tuple(criteria), pages.get("page"), pages.get("count"))


def is_matched(name: str, pattern: str, value: str) -> bool:
    """Whether a value of a name matches a pattern."""
    values = [part for part in value.split(" ") if part] if name in OF_WORDS else [value]
    if pattern.endswith("*"):
        return any(each.startswith(pattern[:-1]) for each in values)
    return pattern in values


def is_matched_by(criterion: tuple[str, str], pairs) -> bool:
    """Whether one of some pairs matches a criterion."""
    name, pattern = criterion
    return any(each == name and is_matched(name, pattern, value) for each, value in pairs)


def pairs_of_link(target: str, anchor: str | None, attributes) -> list[tuple[str, str]]:
    """The pairs by which a link matches a criterion by itself."""
    return ([("href", target)] + ([] if anchor is None else [("anchor", anchor)])
            + [pair for pair in attributes if pair[0] not in ("href", "anchor")])


def pairs_of_links(record: Record) -> list[list[tuple[str, str]]]:
    """The pairs of each link of a registration."""
    return [pairs_of_link(target, anchor, link.attributes)
            for link, (target, anchor) in zip(record.links, record.references)]


def part(query: Query, record: Record | None) -> list[str]:
    """The lines of one registration that a lookup lists, before pages."""
    if record is None:
        return []
    key = query.kind, query.criteria
    if key not in record.parts:
        lines = endpoint_part if query.kind == "ep" else resource_part
        record.parts[key] = lines(query.criteria, record, pairs_of_links(record))
    return record.parts[key]


def endpoint_part(criteria, record: Record, links) -> list[str]:
    """The line of an endpoint, where each criterion is met by itself or by one of its links."""
    is_listed = all(is_matched_by(each, record.pairs)
                    or any(is_matched_by(each, link) for link in links) for each in criteria)
    return [record.endpoint_line] if is_listed else []


def resource_part(criteria, record: Record, links) -> list[str]:
    """The lines of those links of which each criterion is met by itself or by the endpoint."""
    own = [each for each in criteria if not is_matched_by(each, record.pairs)]
    return [line for line, link in zip(record.link_lines, links)
            if all(is_matched_by(each, link) for each in own)]


def paged(query: Query, lines: list[str]) -> bytes:
    """The lines of the page of a lookup, joined."""
    if query.count is not None:
        first = (query.page or 0) * query.count
        lines = lines[first:first + query.count]
    return ",".join(lines).encode()


def listing(query: Query, records: list[Record]) -> bytes:
    """What a lookup lists of registrations."""
    return paged(query, [line for record in records for line in part(query, record)])


def discovered(query: Query) -> bytes:
    """What the directory says of itself, by the criteria of a query."""
    return paged(query, [line for target, line, attributes in OFFERED
                         if all(is_matched_by(each, pairs_of_link(target, None, attributes))
                                for each in query.criteria)])
