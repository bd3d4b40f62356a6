"""Documents of links (RFC 6690 section 2)."""

import re
from dataclasses import dataclass

from . import reference

NAME = r"[A-Za-z0-9!#$&+\-.^_`|~]+"
TOKEN = r"[A-Za-z0-9!#$%&'()*+\-./:<=>?@\[\]^_`{|}~]+"
QUOTED = r'"(?:[^"\\\x00-\x1f\x7f]|\\[^\x00-\x1f\x7f])*"'

ATTRIBUTE_NAME = re.compile(NAME)
TARGET = re.compile(r"<([^>\x00-\x1f\x7f-\U0010ffff]*)>")
PARAMETER = re.compile(rf";({NAME}\*?)(?:=({QUOTED}|{TOKEN}))?")


class BadLinks(Exception):
    """A body that is refused, by the word of its refusal."""


@dataclass(frozen=True)
class Link:
    """A link as it was submitted: its references, and the other parameters, spelled and read."""

    target: str
    anchor: str | None
    raw: str
    attributes: tuple[tuple[str, str], ...]

    def source_line(self) -> str:
        """It as it was submitted, without further anchors."""
        anchor = "" if self.anchor is None else f';anchor="{self.anchor}"'
        return f"<{self.target}>{self.raw}{anchor}"


def value_of(spelled: str | None) -> str:
    """The value of a parameter: without quotes and escapes, empty where there is none."""
    if spelled is None:
        return ""
    if spelled.startswith('"'):
        return re.sub(r"\\(.)", r"\1", spelled[1:-1], flags=re.DOTALL)
    return spelled


def quoted(value: str) -> str:
    """A value in quotes."""
    return '"' + re.sub(r'(["\\])', r"\\\1", value) + '"'


def read_link(text: str, at: int) -> tuple[Link, int]:
    """The link that begins at a place, and where it ends."""
    found = TARGET.match(text, at)
    if not found:
        raise BadLinks("links")
    target, anchor, raw, attributes, at = found[1], None, "", [], found.end()
    while parameter := PARAMETER.match(text, at):
        at = parameter.end()
        name, value = parameter[1], value_of(parameter[2])
        if name != "anchor":
            raw += parameter[0]
            attributes.append((name, value))
        elif anchor is None:
            anchor = value
    return Link(target, anchor, raw, tuple(attributes)), at


def read_all(text: str) -> list[Link]:
    """The links of a document, by its grammar alone."""
    links, at = [], 0
    while text:
        link, at = read_link(text, at)
        links.append(link)
        if at == len(text):
            break
        if text[at] != ",":
            raise BadLinks("links")
        at += 1
    return links


def has_scheme(text: str) -> bool:
    """Whether a reference has a scheme."""
    return reference.read(text).scheme is not None


def submitted(body: bytes) -> tuple[Link, ...]:
    """The links of a body; BadLinks where it is refused."""
    try:
        links = read_all(body.decode())
    except UnicodeDecodeError:
        raise BadLinks("links") from None
    for link in links:
        if any(text is not None and reference.read(text) is None
               for text in (link.target, link.anchor)):
            raise BadLinks("links")
    for link in links:
        if link.anchor is not None and has_scheme(link.anchor) and not has_scheme(link.target):
            raise BadLinks("limited")
    return tuple(links)
