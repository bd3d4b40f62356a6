"""References and their resolution (RFC 3986)."""

import re
from dataclasses import dataclass

# The five components (appendix B).
COMPONENTS = re.compile(r"(?:([^:/?#]+):)?(?://([^/?#]*))?([^?#]*)(?:\?([^#]*))?(?:#(.*))?",
                        re.DOTALL)

UNRESERVED = r"A-Za-z0-9\-._~"
SUB_DELIMS = r"!$&'()*+,;="
ESCAPED = "%[0-9A-Fa-f]{2}"
SCHEME = re.compile(r"[A-Za-z][A-Za-z0-9+\-.]*")
AUTHORITY = re.compile(rf"(?:(?:[{UNRESERVED}{SUB_DELIMS}:]|{ESCAPED})*@)?"
                       rf"(\[[0-9A-Fa-f:.]+\]|(?:[{UNRESERVED}{SUB_DELIMS}]|{ESCAPED})*)"
                       r"(?::[0-9]*)?")
PATH = re.compile(rf"(?:[{UNRESERVED}{SUB_DELIMS}:@/]|{ESCAPED})*")
QUERY = re.compile(rf"(?:[{UNRESERVED}{SUB_DELIMS}:@/?]|{ESCAPED})*")

# The first group of an address that is link-local (RFC 4291 section 2.5.6), as a base has it.
LINK_LOCAL = re.compile(r"\[fe[89ab][0-9a-f](?::|\])", re.IGNORECASE)


@dataclass(frozen=True)
class Reference:
    """A reference in its components."""

    scheme: str | None
    authority: str | None
    path: str
    query: str | None
    fragment: str | None

    def text(self) -> str:
        """It as one text (section 5.3)."""
        return ((f"{self.scheme}:" if self.scheme is not None else "")
                + (f"//{self.authority}" if self.authority is not None else "") + self.path
                + (f"?{self.query}" if self.query is not None else "")
                + (f"#{self.fragment}" if self.fragment is not None else ""))


def is_in(grammar: re.Pattern, text: str | None) -> bool:
    """Whether a component is absent or in its grammar."""
    return text is None or grammar.fullmatch(text) is not None


def read(text: str) -> Reference | None:
    """A text as a reference; None where it is none."""
    before = re.split("[/?#]", text, maxsplit=1)[0]
    if ":" in before and not SCHEME.fullmatch(before.split(":", 1)[0]):
        return None
    made = Reference(*COMPONENTS.fullmatch(text).groups())
    is_right = (is_in(AUTHORITY, made.authority) and is_in(PATH, made.path)
                and is_in(QUERY, made.query) and is_in(QUERY, made.fragment))
    return made if is_right else None


def host_of(reference: Reference) -> str:
    """The host of a reference that has an authority, as it is spelled."""
    return AUTHORITY.fullmatch(reference.authority)[1]


def is_base(text: str) -> bool:
    """Whether a text may be the base of a registration (RFC 9176 section 5)."""
    base = read(text)
    if base is None or base.scheme is None or base.authority is None:
        return False
    host = host_of(base)
    return bool(host) and base.query is None and base.fragment is None \
        and not LINK_LOCAL.match(host)


def without_dots(path: str) -> str:
    """A path without dot segments (section 5.2.4)."""
    output: list[str] = []
    while path:
        if path.startswith("../"):
            path = path[3:]
        elif path.startswith("./") or path.startswith("/./"):
            path = path[2:]
        elif path == "/.":
            path = "/"
        elif path.startswith("/../") or path == "/..":
            path = "/" + path[4:]
            del output[-1:]
        elif path in (".", ".."):
            path = ""
        else:
            end = path.find("/", 1)
            end = len(path) if end < 0 else end
            output.append(path[:end])
            path = path[end:]
    return "".join(output)


def merged(base: Reference, path: str) -> str:
    """A relative path behind that of the base (section 5.2.3)."""
    if base.authority is not None and not base.path:
        return "/" + path
    return base.path[:base.path.rfind("/") + 1] + path


def resolved(base_text: str, text: str) -> str:
    """A target or an anchor against a base (section 5.2.2); one with a scheme as it is."""
    base, reference = read(base_text), read(text)
    if reference.scheme is not None:
        return text
    authority, query = reference.authority, reference.query
    if authority is not None:
        path = without_dots(reference.path)
    elif not reference.path:
        authority, path = base.authority, base.path
        query = base.query if query is None else query
    else:
        authority = base.authority
        is_rooted = reference.path.startswith("/")
        path = reference.path if is_rooted else merged(base, reference.path)
        path = without_dots(path)
    return Reference(base.scheme, authority, path, query, reference.fragment).text()
