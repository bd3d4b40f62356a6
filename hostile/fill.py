#!/usr/bin/env python3
"""What a stranger can fill: `hostile/fill.py [--bin FOLDER]`.

For each limit a server of its own is started on 127.0.0.1, and sent requests until one is not
taken any more. A line says how many were taken, of how many octets together, what the next one is
answered, what a lookup and a registration of somebody else are answered then, and how much memory
the server had at most.
"""

import argparse
import sys
from dataclasses import dataclass
from pathlib import Path
from typing import Callable

import wire
from messages import CON, DELETE, GET, POST, octets, path, query
from wire import BLOCK1, OBSERVE, Message, Server, Wrong, block

WORKERS = 4

# More than any limit.
MOST_SENT = 5_000

# The longest base, and links that fill a datagram: one of them is `<>,`.
LONG_BASE = "base=coap://" + "h" * 243
MANY_LINKS = b",".join([b"<>"] * 1_260)

COLUMNS = "{:<34}{:>9}{:>9}  {:<24}{:<10}{}"


@dataclass(frozen=True)
class Limit:
    """What is sent, counted from 0, and whether its answer says that it was taken."""

    name: str
    request: Callable[[int], bytes]
    is_taken: Callable[[Message], bool]
    is_of_ports: bool = False
    before: "Limit | None" = None


def request(number: int, code: int, options, payload: bytes = b"") -> bytes:
    """A request whose token is its number."""
    return octets(CON, code, number, number.to_bytes(2, "big"), options, payload)


def is_accepted(answer: Message) -> bool:
    """Whether an answer is no 5.03."""
    return answer.code >> 5 != 5


def is_observed(answer: Message) -> bool:
    """Whether an answer has Observe."""
    return bool(answer.values(OBSERVE))


def observation(number: int, queries: int) -> bytes:
    """An observation of one of so many queries."""
    parts = query(f"rt=n{number % queries}")
    return request(number, GET, [(OBSERVE, b"")] + path("rd-lookup", "res") + parts)


def observation_of_all(number: int) -> bytes:
    """An observation of all resources, which the criterion matches."""
    parts = query("href=coap*")
    return request(number, GET, [(OBSERVE, b"")] + path("rd-lookup", "res") + parts)


TEXT = Limit("text, by one datagram each",
             lambda number: request(number, POST, path("rd") + query(f"ep={number}", LONG_BASE),
                                    MANY_LINKS), is_accepted)

LIMITS = [
    Limit("exchanges, by removals of nothing",
          lambda number: request(number, DELETE, path("rd", "9")), is_accepted),
    Limit("exchanges, by registrations",
          lambda number: request(number, POST, path("rd") + query(f"ep={number}")), is_accepted),
    TEXT,
    Limit("uploads",
          lambda number: request(number, POST, path("rd") + query(f"ep={number}")
                                 + [(BLOCK1, block(0, True, 0))], b"x" * 16), is_accepted),
    Limit("observers, of one query", lambda number: observation(number, 1), is_observed),
    Limit("observers, of a full text", observation_of_all, is_observed, before=TEXT),
    Limit("watched queries", lambda number: observation(number, MOST_SENT), is_observed),
    Limit("fetches, of a port each",
          lambda number: request(number, POST, path(".well-known", "rd") + query("ep=f")),
          is_accepted, True),
]


class Filling:
    """A server that is filled."""

    def __init__(self, server: Server):
        self.server = server
        self.sockets = [wire.open_socket(server.port)]
        self.taken = self.octets = 0

    def ask(self, asked: bytes, is_of_ports: bool = False) -> Message:
        """The answer to a request, from a port of its own or from the first one."""
        if is_of_ports:
            self.sockets.append(wire.open_socket(self.server.port))
        asking = self.sockets[-1 if is_of_ports else 0]
        answer = self.answer(asking, asked)
        echo = answer.values(wire.ECHO)
        if not echo:
            return answer
        # It is the last option of a request without payload, and follows Uri-Query.
        return self.answer(asking, asked[:2] + b"\xff\xff" + asked[4:] + b"\xd8\xe0" + echo[0])

    @staticmethod
    def answer(asking, asked: bytes) -> Message:
        """What a request is answered on a socket."""
        asking.send(asked)
        return wire.read(asking.recv(wire.MOST_READ))

    def fill(self, limit: Limit) -> Message:
        """Sends until one is not taken, which is answered like this."""
        if limit.before:
            self.fill(limit.before)
        self.taken = self.octets = 0
        while self.taken < MOST_SENT:
            asked = limit.request(self.taken)
            answer = self.ask(asked, limit.is_of_ports)
            if not limit.is_taken(answer):
                return answer
            self.taken += 1
            self.octets += len(asked)
        raise Wrong(f"{limit.name}: {MOST_SENT} are taken")

    def others(self) -> tuple[str, str]:
        """What a lookup and a registration of somebody else are answered."""
        with wire.open_socket(self.server.port) as asking:
            answers = []
            for asked in (request(1, GET, path("rd-lookup", "ep") + query("ep=0")),
                          request(2, POST, path("rd") + query("ep=other"), b"</a>")):
                asking.send(asked)
                answers.append(wire.read(asking.recv(wire.MOST_READ)).refusal())
        return answers[0], answers[1]

    def close(self):
        """Closes all ports."""
        for each in self.sockets:
            each.close()


def tell(program: str, limit: Limit):
    """Fills a limit, and tells a line."""
    with Server(program, WORKERS) as server:
        filling = Filling(server)
        try:
            answer = filling.fill(limit)
            lookup, registration = filling.others()
        finally:
            filling.close()
        memory = server.kibibytes("VmHWM") / 1024
    said = answer.refusal() + " without Observe" * (answer.code >> 5 == 2)
    print(COLUMNS.format(limit.name, f"{filling.taken:,}", f"{filling.octets:,}", said, lookup,
                         f"{registration:<16}{memory:>6.1f} MiB"), flush=True)


def main():
    parser = argparse.ArgumentParser(description="What a stranger can fill.")
    parser.add_argument("--bin", type=Path, default=Path("bin"), help="where the program is")
    words = parser.parse_args()
    print(COLUMNS.format("", "taken", "octets", "the next one", "lookup", "registration"))
    try:
        for limit in LIMITS:
            tell(str((words.bin / "rd_serve").resolve()), limit)
    except (Wrong, OSError) as wrong:
        sys.exit(f"FAILED: {wrong}")


if __name__ == "__main__":
    main()
