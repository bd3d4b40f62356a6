#!/usr/bin/env python3
"""What a stranger can fill of rd_host, which gives each source a share: `hostile/shares.py`.

First each limit of fill.py is filled from as many addresses of 127.0.1.0/24 as that takes, which
send one after the other, each until it is past its share. A line says how many of its requests the
first of them had taken, what a device of another address is answered then, how many addresses fill
the limit, and what a device is answered then. Then 200 devices of addresses of their own register
and refresh, while 64 other addresses send 20,000 datagrams, and while one address looks up and
observes with 768 criteria. A line says how many were refused, and how long the longest answer took.

`--bin FOLDER` says where the program is. The status is 1 where a device was refused.
"""

import argparse
import contextlib
import random
import socket
import subprocess
import sys
import threading
import time
from pathlib import Path

import fill
import wire
from messages import CON, GET, POST, octets, path, query
from wire import BLOCK1, HOST, OBSERVE, Wrong, block

# The code 4.29 (RFC 8516 section 3), and the most addresses that a limit takes.
TOO_MANY, MOST_SOURCES = 0x9D, 64

# How many devices there are, how many requests each of them sends, which leaves room for what the
# others may send, and how long one waits before it sends again, in seconds.
DEVICES, ROUNDS, AGAIN = 200, 5, 2

# How long the devices take, and how long one address looks, in seconds.
DURATION = 15

# How many datagrams come from how many other addresses, and the share that they have.
HOSTILE, OTHERS, SHARE = 20_000, 64, 32

# How many criteria fit a datagram.
CRITERIA = 768

LINE = "{:<34}{:>9}  {:<12}{:>9}  {}"


@contextlib.contextmanager
def serving(program: str, *words: str):
    """The port of rd_host with four workers and these words."""
    port = wire.free_port()
    line = [program, "--listen", f"{HOST}:{port}", "--workers", "4", "--quiet", *words]
    with subprocess.Popen(line, stdin=subprocess.DEVNULL, stdout=subprocess.DEVNULL,
                          stderr=subprocess.DEVNULL) as process:
        try:
            with opened(HOST, port, 0.1) as asking:
                until = time.monotonic() + wire.SERVER_LIMIT
                while asked(asking, wire.PING, 1) is None:
                    if time.monotonic() > until:
                        raise Wrong("the server does not begin")
            yield port
        finally:
            process.kill()


def opened(host: str, port: int, seconds: float = AGAIN) -> socket.socket:
    """A socket at an address of loopback, to the server."""
    made = socket.socket(socket.AF_INET, socket.SOCK_DGRAM)
    made.bind((host, 0))
    made.connect((HOST, port))
    made.settimeout(seconds)
    return made


def asked(asking: socket.socket, request: bytes, times: int = 5) -> wire.Message | None:
    """The answer to a request, which is sent again where none comes."""
    for _ in range(times):
        try:
            asking.send(request)
            while True:
                answer = asking.recv(wire.MOST_READ)
                if answer[2:4] == request[2:4]:
                    return wire.read(answer)
        except OSError:
            time.sleep(0.02)
    return None


class Source(fill.Filling):
    """An address that fills a limit."""

    def __init__(self, host: str, port: int):  # it has no server of its own
        self.host, self.port = host, port
        self.sockets = [opened(host, port)]
        self.taken = self.octets = 0

    def ask(self, request: bytes, is_of_ports: bool = False) -> wire.Message:
        """The answer to a request, from a port of its own or from the first one."""
        if is_of_ports:
            self.sockets.append(opened(self.host, self.port))
        asking = self.sockets[-1 if is_of_ports else 0]
        answer = self.answer(asking, request)
        echo = answer.values(wire.ECHO)
        if not echo:
            return answer
        return self.answer(asking, request[:2] + b"\xff\xff" + request[4:] + b"\xd8\xe0" + echo[0])


def register(host: str, port: int) -> str:
    """What a registration of a device is answered."""
    with opened(host, port) as asking:
        answer = asked(asking, fill.request(1, POST, path("rd") + query(f"ep={host}"), b"</a>"))
    return answer.refusal() if answer else "nothing"


def fill_from(source: Source, limit: fill.Limit, number: int) -> tuple[int, bool]:
    """How many requests were sent in all after a source did what it could, and whether the limit
    is full."""
    while number < fill.MOST_SENT:
        answer = source.ask(limit.request(number), limit.is_of_ports)
        if answer.code == TOO_MANY:
            return number, False
        if not limit.is_taken(answer):
            return number, True
        number += 1
    return number, True


def tell(program: str, limit: fill.Limit):
    """Fills a limit from as many addresses as that takes, and tells a line."""
    number, is_full, one, device = 0, False, 0, ""
    with serving(program) as port:
        sources = 0
        for place in range(1, MOST_SOURCES + 1):
            source = Source(f"127.0.1.{place}", port)
            if limit.before and place == 1:
                fill_from(source, limit.before, 0)
            before = number
            number, is_full = fill_from(source, limit, number)
            sources += number > before
            source.close()
            if place == 1:
                one, device = number, register("127.0.2.1", port)
            if is_full:
                break
        last = register("127.0.2.2", port)
    print(LINE.format(limit.name, f"{one:,}", device, sources if is_full else "more", last),
          flush=True)


class Device:
    """A device that registers and refreshes."""

    def __init__(self, number: int, port: int):
        self.asking = opened(f"127.0.3.{number % 250 + 1}", port)
        self.name, self.mid, self.location, self.longest = f"device{number}", 0, [], 0.0

    def tells(self, options: list, payload: bytes = b"") -> wire.Message | None:
        """The answer to its next request."""
        self.mid += 1
        began = time.monotonic()
        answer = asked(self.asking, octets(CON, POST, self.mid, b"\x07", options, payload))
        self.longest = max(self.longest, time.monotonic() - began)
        return answer

    def is_served(self) -> bool:
        """Whether its registration, or a refresh, is taken."""
        if self.location:
            answer = self.tells([(wire.messages.URI_PATH, each) for each in self.location])
        else:
            answer = self.tells(path("rd") + query(f"ep={self.name}"), b"</a>")
            if answer is not None:
                self.location = answer.values(wire.messages.LOCATION_PATH)
        return answer is not None and answer.code >> 5 == 2


def hostile(port: int):
    """Datagrams by chance from many addresses, as fast as they go out."""
    chance = random.Random(1)
    sockets = [opened(f"127.0.4.{place + 1}", port, 0) for place in range(OTHERS)]
    for number in range(HOSTILE):
        kind = chance.randrange(4)
        name = query(f"ep=stranger{number}")
        data = [fill.request(number & 0xFFFF, POST, path("rd") + name),
                fill.request(number & 0xFFFF, POST,
                             path("rd") + name + [(BLOCK1, block(0, True, 0))], b"x" * 16),
                fill.request(number & 0xFFFF, POST, path(".well-known", "rd") + name),
                chance.randbytes(chance.randrange(1, 40))][kind]
        with contextlib.suppress(OSError):
            sockets[number % OTHERS].send(data)
        if number % 40 == 0:
            time.sleep(0.02)


def looking(port: int):
    """Lookups and observations with as many criteria as fit, one after the other."""
    options = path("rd-lookup", "res") + query(*["ep=*"] * CRITERIA)
    observed = [(OBSERVE, b"")] + options
    with opened("127.0.4.1", port) as asking:
        number = 0
        until = time.monotonic() + DURATION
        while time.monotonic() < until:
            number = number + 1 & 0xFFFF
            asked(asking, fill.request(number, GET, observed if number % 2 else options), 1)


def beside(program: str, name: str, attack, *words: str) -> int:
    """Devices that register and refresh beside an attack; how many requests are refused."""
    refused, served = 0, 0
    with serving(program, *words) as port:
        devices = [Device(number, port) for number in range(DEVICES)]
        attacking = threading.Thread(target=attack, args=(port,))
        attacking.start()
        for device in devices * ROUNDS:
            is_taken = device.is_served()
            served += is_taken
            refused += not is_taken
            time.sleep(DURATION / (DEVICES * ROUNDS))
        attacking.join()
    longest = max(device.longest for device in devices)
    print(f"{name:<58}{served:>8,} served {refused:>4} refused  longest {longest:.3f} s",
          flush=True)
    return refused


def main():
    parser = argparse.ArgumentParser(description="What a stranger can fill of rd_host.")
    parser.add_argument("--bin", type=Path, default=Path("bin"), help="where the program is")
    words = parser.parse_args()
    program = str((words.bin / "rd_host").resolve())
    print(LINE.format("", "one takes", "a device", "addresses", "a device then"))
    try:
        for limit in fill.LIMITS:
            tell(program, limit)
        refused = beside(program, f"{HOSTILE:,} datagrams of {OTHERS} addresses, --share {SHARE}",
                         hostile, "--share", str(SHARE))
        refused += beside(program, f"{CRITERIA} criteria in each lookup", looking)
        beside(program, f"{CRITERIA} criteria, --share 0 --criteria 0", looking, "--share", "0",
               "--criteria", "0")
    except (Wrong, OSError) as wrong:
        sys.exit(f"FAILED: {wrong}")
    sys.exit(refused > 0)


if __name__ == "__main__":
    main()
