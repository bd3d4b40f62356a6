#!/usr/bin/env python3
"""What the system does to the programs: `hostile/system.py [--bin FOLDER] [--only WORD]`.

Programs are started on free ports of 127.0.0.1, stopped and continued under load and by ten
thousand signals, given a clock that is stepped, sockets and accepts that fail, no descriptors and
no threads, and clients over TCP that are silent, slow or end early. What is to fail, and how far
the clock is ahead, is said to a library that is loaded before the C library (hostile/fail_calls.c).
A line a case says what came of it; at the end stands `N passed, N failed`. The longest case takes
somewhat more than a minute, and some run side by side. The status is 1 where one failed, and 2
where there is no C compiler. `--only WORD` runs the cases whose names have that word.
"""

import argparse
import mmap
import os
import random
import resource
import shutil
import signal
import socket
import struct
import subprocess
import sys
import tempfile
import threading
import time
from concurrent.futures import ThreadPoolExecutor
from contextlib import contextmanager, suppress
from pathlib import Path

import wire
from messages import ACK, CHANGED, CON, CONTENT, CONTENT_FORMAT, CREATED, EMPTY, GET, POST
from messages import octets, path, query
from wire import HOST, Wrong, free_port, open_socket

HERE = Path(__file__).resolve().parent

# Cases that run side by side.
SIDE_BY_SIDE = 6

# Signals of a case, pings of a load, and how many of these wait for their answers: over UDP so few
# that some workers wait, too.
SIGNALS, PINGS, WAITING, WINDOW = 10_000, 10_000, 4, 64

# Seconds: how long an answer and the end of a program are waited for, and the steps of clocks.
LIMIT = 5
HOUR = 3_600

# Seconds that the first message over TCP and a later one may take, within which a client that reads
# nothing is ended (its system takes some more for a while), and by how much an end may come later.
FIRST, LATER, TAKING, LATE = 10, 60, 30, 4

# Error numbers of Linux.
ENETDOWN, ECONNABORTED, ENOBUFS = 100, 103, 105

# Messages over TCP (RFC 8323 sections 3.2 and 5).
CSM, PONG_CODE = b"\x00\xe1", 0xE3
RELEASE, ABORT = b"\x00\xe4", b"\x00\xe5"
TCP_PING = b"\x00\xe2"

LINK_FORMAT = (CONTENT_FORMAT, b"\x28")
RESOURCES = path("rd-lookup", "res")

CASES = []


def case(name: str):
    """Adds a function as a case of this name."""
    def add(function):
        CASES.append((name, function))
        return function
    return add


# ---- programs


class Control:
    """What the calls of a program do, by the library that is loaded before the C library."""

    FORM = struct.Struct("qiiii")

    def __init__(self, world: "World"):
        number, self.name = tempfile.mkstemp(dir=world.folder)
        os.write(number, bytes(self.FORM.size))
        self.memory = mmap.mmap(number, self.FORM.size)
        os.close(number)
        self.values = {"step": 0, "accepts": 0, "accept_error": 0, "port": 0, "receive_error": 0}
        self.env = os.environ | {"LD_PRELOAD": str(world.shim), "FAIL_CALLS": self.name}

    def set(self, **values: int):
        """Says what is to be from now on."""
        self.values |= values
        self.memory[:] = self.FORM.pack(*self.values.values())


class World:
    """Where the programs are, and the library."""

    def __init__(self, programs: Path, folder: str):
        self.programs, self.folder = programs, folder
        self.shim = Path(folder, "fail_calls.so")
        words = ["cc", "-O2", "-Wall", "-shared", "-fPIC", "-o", self.shim, HERE / "fail_calls.c"]
        if not shutil.which("cc") or subprocess.run(words, check=False).returncode != 0:
            print("hostile/fail_calls.c needs a C compiler", file=sys.stderr)
            sys.exit(2)

    def program(self, name: str) -> str:
        """The path of a program."""
        return str((self.programs / name).resolve())


class Running:
    """A program as it runs."""

    def __init__(self, words: list[str], **options):
        self.process = subprocess.Popen(words, stdout=subprocess.PIPE, stderr=subprocess.PIPE,
                                        **({"stdin": subprocess.DEVNULL} | options))
        self.pid = self.process.pid
        self.over = None

    def is_alive(self) -> bool:
        """Whether it has not ended."""
        return self.process.poll() is None

    def threads(self) -> int:
        """How many threads it has."""
        return len(os.listdir(f"/proc/{self.pid}/task"))

    def began(self) -> int:
        """How many threads it has once all have begun."""
        time.sleep(0.5)
        return self.threads()

    def kill(self, *signals: int):
        """Sends it signals, where it has not ended."""
        for each in signals:
            with suppress(ProcessLookupError):
                os.kill(self.pid, each)

    def end(self) -> tuple[int, str]:
        """Ends it by a signal, where it has not ended; its status and what it said."""
        if self.is_alive():
            self.kill(signal.SIGCONT, signal.SIGTERM)
        return self.wait()

    def wait(self, limit: float = LIMIT) -> tuple[int, str]:
        """Waits until it ends; its status and what it said."""
        if self.over is None:
            try:
                said = b"".join(self.process.communicate(timeout=limit))
            except subprocess.TimeoutExpired:
                self.process.kill()
                self.process.communicate()
                self.over = (0, f"no end within {limit} s")
                raise Wrong(self.over[1]) from None
            self.over = (self.process.returncode, said.decode(errors="replace").strip())
        return self.over

    def require_alive(self):
        """Wrong, where it has ended."""
        if not self.is_alive():
            status, said = self.wait()
            raise Wrong(f"it ended with status {status}, {said}")


@contextmanager
def running(words: list[str], ports: list[int] = (), **options):
    """A program that runs, and ends with the case. It is to answer a ping at these UDP ports."""
    run = Running(words, **options)
    try:
        for port in ports:
            begin(run, port)
        yield run
    finally:
        run.end()


def begin(run: Running, port: int):
    """Waits until a program answers a ping."""
    until = time.monotonic() + LIMIT
    with open_socket(port) as asking:
        while not is_answered(asking):
            run.require_alive()
            if time.monotonic() > until:
                raise Wrong("it does not begin")
            time.sleep(0.02)


def is_answered(asking: socket.socket, limit: float = 0.2) -> bool:
    """Whether a ping is answered in time."""
    asking.settimeout(limit)
    try:
        asking.send(wire.PING)
        return asking.recv(wire.MOST_READ) == wire.PONG
    except OSError:
        return False


@contextmanager
def serving(world: World, *words: str, **options):
    """rd_serve over UDP; the program and its port."""
    port = free_port()
    line = [world.program("rd_serve"), "--port", str(port), *words]
    with running(line, [port], **options) as run:
        yield run, port


@contextmanager
def hosting(world: World, count: int = 2, **options):
    """rd_host with two workers at each of so many addresses; the program and the ports."""
    ports = [free_port() for _ in range(count)]
    line = [world.program("rd_host"), "--workers", "2"]
    for port in ports:
        line += ["--listen", f"{HOST}:{port}"]
    with running(line, ports, **options) as run:
        yield run, ports


@contextmanager
def talking(world: World, count: int = 2, **options):
    """rd_serve over so many connections of TCP; the program and its port."""
    port = free_port()
    line = [world.program("rd_serve"), "--port", str(port), "--tcp", str(count)]
    with running(line, **options) as run:
        wait_listening(run, port)
        yield run, port


def wait_listening(run: Running, port: int):
    """Waits until a program listens at a port of TCP, which no connection tells it."""
    until = time.monotonic() + LIMIT
    while not any(row.split()[1:4:2] == [f"0100007F:{port:04X}", "0A"]
                  for row in Path("/proc/net/tcp").read_text().splitlines()):
        run.require_alive()
        if time.monotonic() > until:
            raise Wrong("it does not listen")
        time.sleep(0.02)


# ---- load over UDP


def lost_by_network(ports: list[int]) -> int:
    """How many datagrams the kernel dropped at these ports since their queues were full."""
    rows = [line.split() for line in Path("/proc/net/udp").read_text().splitlines()[1:]]
    return sum(int(row[-1]) for row in rows if int(row[1].split(":")[1], 16) in ports)


@contextmanager
def interrupted(run: Running, pause: float = 0.005):
    """Stops and continues a program again and again meanwhile."""
    is_over = threading.Event()

    def interrupt():
        rng = random.Random(1)
        while not is_over.is_set() and run.is_alive():
            run.kill(signal.SIGSTOP)
            time.sleep(rng.uniform(0.1, 1) * pause)
            run.kill(signal.SIGCONT)
            time.sleep(rng.uniform(0.1, 4) * pause)

    thread = threading.Thread(target=interrupt)
    thread.start()
    try:
        yield
    finally:
        is_over.set()
        thread.join()


def load(port: int, count: int) -> int:
    """Pings that are sent while few wait for their answers; how many are lost, but by the
    network."""
    with open_socket(port) as asking:
        mine = asking.getsockname()[1]
        waiting, sent, lost = set(), 0, 0
        while sent < count or waiting:
            try:
                while sent < count and len(waiting) < WAITING:
                    waiting.add(sent & 0xFFFF)
                    sent += 1
                    asking.send(octets(CON, EMPTY, (sent - 1) & 0xFFFF))
                came = asking.recv(wire.MOST_READ)
                waiting.discard(int.from_bytes(came[2:4], "big"))
            except OSError:
                lost += len(waiting)
                waiting.clear()
                if lost > WAITING * 8:
                    break
        return max(lost - lost_by_network([mine, port]), 0)


def many_signals(run: Running):
    """Sends ten thousand signals that stop and continue a program."""
    for _ in range(SIGNALS // 2):
        run.kill(signal.SIGSTOP)
        time.sleep(0.0001)
        run.kill(signal.SIGCONT)
        time.sleep(0.0002)


def require(is_so: bool, what: str):
    """Wrong, where it is not so."""
    if not is_so:
        raise Wrong(what)


@case("rd_serve is stopped and continued while it waits")
def stopped_idle(world: World):
    with serving(world, "--workers", "4") as (run, port):
        before = run.began()
        for _ in range(20):
            run.kill(signal.SIGSTOP)
            time.sleep(0.02)
            run.kill(signal.SIGCONT)
            time.sleep(0.06)
        run.require_alive()
        require(run.threads() == before, f"{before - run.threads()} threads are gone")
        begin(run, port)


@case("rd_serve is stopped and continued under load, and loses no answer")
def stopped_loaded(world: World):
    with serving(world, "--workers", "4") as (run, port):
        before = run.began()
        with interrupted(run):
            lost = load(port, PINGS)
        run.require_alive()
        require(run.threads() == before, f"{before - run.threads()} threads are gone")
        require(lost == 0, f"{lost} of {PINGS} answers are lost")


@case("rd_serve bears ten thousand signals")
def many_at_serve(world: World):
    with serving(world, "--workers", "4") as (run, port):
        before = run.began()
        many_signals(run)
        run.require_alive()
        require(run.threads() == before, f"{before - run.threads()} threads are gone")
        begin(run, port)


@case("rd_host at two addresses is stopped and continued under load, and loses no answer")
def stopped_host(world: World):
    with hosting(world) as (run, ports):
        before = run.began()
        with interrupted(run):
            lost = [load(port, PINGS // 2) for port in ports]
        run.require_alive()
        require(run.threads() == before, f"{before - run.threads()} threads are gone")
        require(lost == [0, 0], f"{lost} of {PINGS // 2} answers each are lost")


@case("rd_host bears ten thousand signals")
def many_at_host(world: World):
    with hosting(world) as (run, ports):
        before = run.began()
        many_signals(run)
        run.require_alive()
        require(run.threads() == before, f"{before - run.threads()} threads are gone")
        for port in ports:
            begin(run, port)


@case("rd_commission is stopped and continued while it waits for an answer")
def stopped_commission(world: World):
    with socket.socket(socket.AF_INET, socket.SOCK_DGRAM) as directory:
        directory.bind((HOST, 0))
        directory.settimeout(LIMIT)
        port = directory.getsockname()[1]
        line = f"coap://{HOST}:{port}/rd?ep=n1&base=coap://192.0.2.1 3c2f613e\n"
        with running([world.program("rd_commission")], stdin=subprocess.PIPE) as run:
            run.process.stdin.write(line.encode())
            run.process.stdin.close()
            run.process.stdin = None
            request, client = directory.recvfrom(wire.MOST_READ)
            for _ in range(10):
                run.kill(signal.SIGSTOP)
                time.sleep(0.02)
                run.kill(signal.SIGCONT)
                time.sleep(0.03)
            asked = wire.read(request)
            answer = octets(ACK, CREATED, asked.mid, asked.token, [(8, b"rd"), (8, b"1")])
            directory.sendto(answer, client)
            status, said = run.wait()
            require((status, said) == (0, "1 created /rd/1"), f"status {status}, {said}")


# ---- clocks


class Asking:
    """A client over UDP."""

    def __init__(self, port: int):
        self.socket, self.mid = open_socket(port), 0

    def ask(self, code: int, options: list, payload: bytes = b"") -> wire.Message:
        """The answer to a request."""
        self.mid += 1
        self.socket.settimeout(wire.ANSWER_LIMIT)
        self.socket.send(octets(CON, code, self.mid, b"\x01", options, payload))
        try:
            return wire.read(self.socket.recv(wire.MOST_READ))
        except OSError:
            raise Wrong("no answer") from None

    def register(self, name: str, lifetime: int) -> int:
        """Registers a device; the code of the answer."""
        options = path("rd") + [LINK_FORMAT] + query(f"ep={name}", f"lt={lifetime}")
        return self.ask(POST, options, f'</{name}>;rt="{name}"'.encode()).code

    def is_listed(self, name: str) -> bool:
        """Whether a device is listed."""
        return bool(self.ask(GET, RESOURCES + query(f"rt={name}")).payload)

    def must_register(self, name: str, lifetime: int):
        """Registers a device, which is to be listed then."""
        code = self.register(name, lifetime)
        said = f"{code >> 5}.{code & 31:02}"
        require(code in (CREATED, CHANGED), f"a registration is answered {said}")
        require(self.is_listed(name), "a device that registered is not listed")


@case("rd_serve follows the wall clock: a step forward ends leases, one back keeps them")
def serve_stepped(world: World):
    control = Control(world)
    with serving(world, "--workers", "2", env=control.env) as (run, port):
        client = Asking(port)
        client.must_register("ahead", 120)
        control.set(step=HOUR)
        time.sleep(0.3)
        require(not client.is_listed("ahead"), "a lease outlives a step of an hour")
        client.must_register("back", 1)
        control.set(step=0)
        time.sleep(2)
        require(client.is_listed("back"), "a lease ends though the clock is an hour behind")
        run.require_alive()


@case("rd_host keeps its leases, whatever step the wall clock makes")
def host_stepped(world: World):
    control = Control(world)
    with hosting(world, 1, env=control.env) as (run, ports):
        client = Asking(ports[0])
        client.must_register("ahead", 120)
        control.set(step=HOUR)
        time.sleep(0.3)
        require(client.is_listed("ahead"), "a step forward ends a lease of two minutes")
        client.must_register("back", 2)
        control.set(step=-HOUR)
        time.sleep(0.3)
        require(client.is_listed("back"), "a step back ends a lease")
        time.sleep(2.5)
        require(not client.is_listed("back"), "a lease of two seconds lasts after a step back")
        require(client.is_listed("ahead"), "a lease of two minutes ends after a step back")
        run.require_alive()


@case("rd_host takes writes after a clock that was a year ahead for half a second")
def host_year_ahead(world: World):
    control = Control(world)
    with hosting(world, 1, env=control.env) as (run, ports):
        client = Asking(ports[0])
        client.must_register("first", 2)
        control.set(step=365 * 24 * HOUR)
        time.sleep(0.5)
        control.set(step=0)
        time.sleep(2.5)
        require(not client.is_listed("first"), "a lease of two seconds lasts")
        client.must_register("second", 1)
        time.sleep(1.5)
        require(not client.is_listed("second"), "a later lease of a second lasts")
        run.require_alive()


# ---- sockets and threads that fail


@case("rd_host ends, and says at which address, where one of two fails")
def host_fails(world: World):
    control = Control(world)
    with hosting(world, env=control.env) as (run, ports):
        control.set(port=ports[1], receive_error=ENETDOWN)
        status, said = run.wait(3)
        require(status == 1, f"status {status}, {said}")
        require(f"{HOST}:{ports[1]}" in said, f"it says {said!r}")


@case("rd_host bears a want of buffers that passes")
def host_wanting(world: World):
    control = Control(world)
    with hosting(world, env=control.env) as (run, ports):
        control.set(port=ports[1], receive_error=ENOBUFS)
        time.sleep(0.4)
        control.set(receive_error=0)
        time.sleep(1.5)
        run.require_alive()
        for port in ports:
            begin(run, port)


@case("rd_host ends where buffers are wanting for good")
def host_wanting_long(world: World):
    control = Control(world)
    with hosting(world, env=control.env) as (run, ports):
        control.set(port=ports[0], receive_error=ENOBUFS)
        status, said = run.wait(4)
        require(status == 1, f"status {status}, {said}")
        require(f"{HOST}:{ports[0]}" in said, f"it says {said!r}")


def with_threads(count: int) -> dict:
    """Options of a program that may have so many threads: those of a user of its own."""
    if os.geteuid() != 0:
        raise Wrong("only root can give a program a user of its own")
    limit = (count, count)
    return {"user": 50_000 + random.randrange(10_000),
            "preexec_fn": lambda: resource.setrlimit(resource.RLIMIT_NPROC, limit)}


@case("rd_host ends where the system starts no thread for a worker")
def host_threads(world: World):
    ports = [free_port() for _ in range(4)]
    words = [world.program("rd_host"), "--workers", "1"]
    for port in ports:
        words += ["--listen", f"{HOST}:{port}"]
    with running(words, **with_threads(2)) as run:
        status, said = run.wait(LIMIT)
        require(status == 1 and "thread" in said, f"status {status}, {said}")


@case("rd_serve serves by the threads that the system starts")
def serve_threads(world: World):
    with serving(world, "--workers", "4", **with_threads(2)) as (run, port):
        require(run.began() == 2, f"it has {run.threads()} threads")
        begin(run, port)


# ---- connections over TCP


def extended(number: int) -> tuple[int, bytes]:
    """The nibble and the octets that say a length (RFC 8323 section 3.2)."""
    if number < 13:
        return number, b""
    if number < 269:
        return 13, bytes([number - 13])
    return 14, (number - 269).to_bytes(2, "big")


def over_tcp(code: int, token: bytes, options: list, payload: bytes = b"") -> bytes:
    """A message of a connection."""
    tail = octets(CON, code, 0, b"", options, payload)[4:]
    length, more = extended(len(tail))
    return bytes([length << 4 | len(token)]) + more + bytes([code]) + token + tail


def registration(name: str, token: bytes) -> bytes:
    """A registration over a connection."""
    options = path("rd") + [LINK_FORMAT] + query(f"ep={name}", "base=coap://192.0.2.1")
    return over_tcp(POST, token, options, f'</{name}>;rt="all"'.encode())


def lookup(token: bytes) -> bytes:
    """A lookup of all that was registered so."""
    return over_tcp(GET, token, RESOURCES + query("rt=all"))


class Stream:
    """A client over TCP, and what came to it."""

    def __init__(self, port: int, sent: bytes = b"", from_port: int = 0, room: int = 0):
        self.socket = socket.socket(socket.AF_INET, socket.SOCK_STREAM)
        self.socket.setsockopt(socket.SOL_SOCKET, socket.SO_REUSEADDR, 1)
        if room:
            self.socket.setsockopt(socket.SOL_SOCKET, socket.SO_RCVBUF, room)
        self.socket.settimeout(LIMIT)
        self.socket.bind((HOST, from_port))
        self.socket.connect((HOST, port))
        self.begun = time.monotonic()
        self.rest = b""
        self.send(sent)

    def __enter__(self):
        return self

    def __exit__(self, *_):
        self.socket.close()

    def send(self, sent: bytes):
        """Sends octets."""
        self.socket.sendall(sent)

    def message(self) -> tuple[int, bytes, bytes]:
        """The next message: its code, token and tail."""
        while not (taken := self.taken()):
            more = self.socket.recv(wire.MOST_READ)
            if not more:
                raise Wrong(f"the connection ended, with {self.rest.hex()} left")
            self.rest += more
        return taken

    def taken(self) -> tuple[int, bytes, bytes] | None:
        """The first message of what came, where it is whole."""
        rest = self.rest
        if len(rest) < 2:
            return None
        length, token, at = rest[0] >> 4, rest[0] & 15, 1
        if length == 13:
            length, at = 13 + rest[1], 2
        elif length == 14:
            length, at = 269 + int.from_bytes(rest[1:3], "big"), 3
        end = at + 1 + token + length
        if len(rest) < end:
            return None
        self.rest = rest[end:]
        return rest[at], rest[at + 1:at + 1 + token], rest[at + 1 + token:end]

    def to_end(self, limit: float) -> bytes:
        """All that comes up to the end of the connection, which is to come in time."""
        came, until = self.rest, time.monotonic() + limit
        while True:
            self.socket.settimeout(max(until - time.monotonic(), 0.001))
            try:
                more = self.socket.recv(wire.MOST_READ)
            except TimeoutError:
                raise Wrong(f"no end within {limit} s") from None
            if not more:
                return came
            came += more

    def reset(self):
        """Ends the connection by a reset."""
        self.socket.setsockopt(socket.SOL_SOCKET, socket.SO_LINGER, struct.pack("ii", 1, 0))
        self.socket.close()


def must_answer(port: int, limit: float):
    """The next client is to be answered in time."""
    with Stream(port, CSM + TCP_PING) as client:
        client.socket.settimeout(limit)
        try:
            codes = [client.message()[0], client.message()[0]]
        except TimeoutError:
            raise Wrong(f"the next client is not answered within {limit} s") from None
        require(codes == [0xE1, PONG_CODE], f"the next client is answered {codes}")


def drip(client: Stream, sent: bytes, pause: float, limit: float):
    """Sends octets one by one, with a pause before each, until the connection ends."""
    until = time.monotonic() + limit
    for octet in sent:
        time.sleep(pause)
        if time.monotonic() > until:
            break
        try:
            client.send(bytes([octet]))
        except OSError:
            break


def ends_so(world: World, sent: bytes, slowly: bytes, seconds: float, wanted: bytes):
    """A client sends octets, others one by one, and no more: after so many seconds it is sent a
    message, and the next client is served."""
    with talking(world) as (run, port):
        with Stream(port, sent) as client, ThreadPoolExecutor(1) as pool:
            pause = max(seconds / 40, 0.3)
            dripping = pool.submit(drip, client, slowly, pause, seconds + LATE)
            came = client.to_end(seconds + LATE)
            took = time.monotonic() - client.begun
            require(came.endswith(wanted), f"{came.hex()} came and not {wanted.hex()} at the end")
            require(took > seconds - 1, f"it ended after {took:.1f} s")
            client.socket.shutdown(socket.SHUT_RDWR)
            dripping.result()
        must_answer(port, LATE)
        status, said = run.wait()
        require(status == 0 and said.startswith("talked 2 "), f"status {status}, {said}")


@case("a client over TCP that says nothing is sent an Abort after 10 s, and the next is served")
def tcp_silent(world: World):
    ends_so(world, b"", b"", FIRST, CSM + ABORT)


@case("three octets over TCP and silence hold nobody for longer than 10 s")
def tcp_three_octets(world: World):
    ends_so(world, b"\xd0\x01\xe1", b"", FIRST, CSM + ABORT)


@case("a first message over TCP that comes octet by octet takes no longer than 10 s")
def tcp_slow(world: World):
    ends_so(world, b"", b"\xe0\x03\x00\xe1" + bytes(1_000), FIRST, CSM + ABORT)


@case("a client over TCP that says nothing behind a message is sent a Release after 60 s")
def tcp_silent_later(world: World):
    ends_so(world, CSM + TCP_PING, b"", LATER, b"\x00\xe3" + RELEASE)


@case("a message over TCP that is begun and not ended is ended by an Abort after 60 s")
def tcp_cut_later(world: World):
    ends_so(world, CSM + TCP_PING + b"\xd0\x01", b"", LATER, b"\x00\xe3" + ABORT)


@case("a later message over TCP that comes octet by octet takes no longer than 60 s")
def tcp_slow_later(world: World):
    ends_so(world, CSM + TCP_PING, b"\xe0\x03\x00\xe1" + bytes(1_000), LATER, b"\x00\xe3" + ABORT)


@case("a client over TCP that is busy is not ended")
def tcp_busy(world: World):
    with talking(world, 1) as (run, port), Stream(port, CSM) as client:
        client.message()
        for _ in range(14):
            time.sleep(1)
            client.send(TCP_PING)
            require(client.message()[0] == PONG_CODE, "a ping is not answered")
        client.send(RELEASE)
        client.to_end(LIMIT)
        status, said = run.wait()
        require((status, said) == (0, "talked 1 0"), f"status {status}, {said}")


@case("a client over TCP that asks and reads nothing is ended, and the next is served")
def tcp_reads_nothing(world: World):
    with talking(world) as (run, port), Stream(port, CSM) as client:
        for number in range(60):
            client.send(registration(f"node{number}-{'x' * 40}", b"\x01"))
        client.socket.settimeout(0.5)
        with suppress(OSError):
            while True:
                client.send(lookup(b"\x02") * 100)
        must_answer(port, TAKING)
        status, said = run.wait()
        require(status == 0, f"status {status}, {said}")


@case("what was answered over TCP is delivered, though octets were left unread at the end")
def tcp_unread(world: World):
    count = 32
    sent = CSM + b"".join(registration(f"node{number}", b"\x01") for number in range(count))
    sent += lookup(b"\x02") * count + RELEASE + bytes(40_000)
    for _ in range(3):
        with talking(world, 1) as (run, port):
            with Stream(port, sent, room=8_192) as client:
                time.sleep(0.3)
                try:
                    came = [client.message()[0] for _ in range(1 + 2 * count)]
                    rest = client.to_end(LIMIT)
                except OSError as lost:
                    raise Wrong(f"an answer is lost: {lost}") from None
                require(came == [0xE1] + [CREATED] * count + [CONTENT] * count, f"{came} came")
                require(rest == b"", "more came than was asked for")
            status, said = run.wait()
            require((status, said) == (0, f"talked 1 {2 * count}"), f"status {status}, {said}")


@case("an Abort for a bad message over TCP is delivered, though octets were left unread")
def tcp_bad(world: World):
    for _ in range(10):
        with talking(world, 1) as (run, port):
            with Stream(port, CSM + TCP_PING + b"\x0f\x01" + bytes(40_000)) as client:
                time.sleep(0.2)
                try:
                    came = client.to_end(LIMIT)
                except OSError as lost:
                    raise Wrong(f"it is lost: {lost}") from None
                require(came == CSM + b"\x00\xe3" + ABORT, f"{came.hex()} came")
            run.wait()


@case("a client over TCP that sends for ever is ended within seconds")
def tcp_for_ever(world: World):
    with talking(world) as (run, port), Stream(port, CSM + RELEASE) as client:
        client.socket.settimeout(3)
        begun = time.monotonic()
        try:
            while time.monotonic() < begun + 6:
                client.send(b"\0")
                time.sleep(0.02)
            raise Wrong("it is not ended")
        except OSError:
            pass
        must_answer(port, LATE)


@case("two connections over TCP from one port are two peers, and neither write is a repeat")
def tcp_one_port(world: World):
    with talking(world) as (run, port):
        mine = free_port()
        places = []
        for name in ("one", "two"):
            with Stream(port, CSM + registration(name, name.encode()), mine) as client:
                client.message()
                code, token, tail = client.message()
                require((code, token) == (CREATED, name.encode()),
                        f"{code >> 5}.{code & 31:02} with token {token!r} for {name}")
                places.append(tail)
                client.reset()
        require(places[0] != places[1], "both are answered with one location")
        run.wait()


@case("rd_serve --tcp is stopped and continued under load, and loses no answer")
def tcp_stopped(world: World):
    with talking(world, 1) as (run, port), Stream(port, CSM) as client:
        client.message()
        with interrupted(run):
            for _ in range(PINGS // WINDOW):
                client.send(TCP_PING * WINDOW)
                came = [client.message()[0] for _ in range(WINDOW)]
                require(came == [PONG_CODE] * WINDOW, f"{came} came")
        client.send(RELEASE)
        require(client.to_end(LIMIT) == b"", "more came than was asked for")
        status, said = run.wait()
        require((status, said) == (0, "talked 1 0"), f"status {status}, {said}")


@case("rd_serve --tcp bears ten thousand signals, while it accepts and within a connection")
def tcp_signals(world: World):
    with talking(world, 1) as (run, port):
        many_signals(run)
        with Stream(port, CSM + TCP_PING) as client:
            many_signals(run)
            require([client.message()[0], client.message()[0]] == [0xE1, PONG_CODE], "other codes")
            client.send(TCP_PING)
            require(client.message()[0] == PONG_CODE, "a ping is not answered")
            client.send(RELEASE)
            client.to_end(LIMIT)
        status, said = run.wait()
        require((status, said) == (0, "talked 1 0"), f"status {status}, {said}")


@case("a connection over TCP that fails as it is accepted is passed over")
def tcp_aborted(world: World):
    control = Control(world)
    with talking(world, 1, env=control.env) as (run, port):
        control.set(accepts=3, accept_error=ECONNABORTED)
        for _ in range(3):
            with Stream(port) as client, suppress(OSError):
                client.to_end(LIMIT)
        must_answer(port, LIMIT)
        status, said = run.wait()
        require(status == 0 and "talked 1 0" in said, f"status {status}, {said}")
        require("passed over 3" in said, f"it says {said!r}")


@case("rd_serve --tcp waits for descriptors where there are none")
def tcp_descriptors(world: World):
    with talking(world, 1) as (run, port):
        used = len(os.listdir(f"/proc/{run.pid}/fd"))
        least, most = resource.prlimit(run.pid, resource.RLIMIT_NOFILE)
        resource.prlimit(run.pid, resource.RLIMIT_NOFILE, (used, most))
        with Stream(port, CSM + TCP_PING) as client:
            time.sleep(1)
            run.require_alive()
            resource.prlimit(run.pid, resource.RLIMIT_NOFILE, (least, most))
            require([client.message()[0], client.message()[0]] == [0xE1, PONG_CODE], "other codes")
        status, said = run.wait()
        require(status == 0 and "talked 1 0" in said, f"status {status}, {said}")


@case("rd_serve --tcp needs one descriptor for a connection")
def tcp_one_descriptor(world: World):
    with talking(world, 1) as (run, port):
        used = len(os.listdir(f"/proc/{run.pid}/fd"))
        resource.prlimit(run.pid, resource.RLIMIT_NOFILE, (used + 1, used + 1))
        must_answer(port, LIMIT)
        status, said = run.wait()
        require((status, said) == (0, "talked 1 0"), f"status {status}, {said}")


# ---- all of them


def judged(world: World, name: str, function) -> bool:
    """Runs a case and tells what came of it; whether it passed."""
    begun = time.monotonic()
    try:
        function(world)
        fault = ""
    except (Wrong, OSError, ValueError, subprocess.SubprocessError) as wrong:
        fault = str(wrong) or repr(wrong)
    took = time.monotonic() - begun
    said = f"FAILED: {name}: {fault}" if fault else f"passed: {name}"
    print(f"{said} ({took:.1f} s)\n", end="", flush=True)
    return not fault


def main():
    parser = argparse.ArgumentParser(description="What the system does to the programs.")
    parser.add_argument("--bin", type=Path, default=Path("bin"), help="where the programs are")
    parser.add_argument("--only", default="", help="the cases whose names have this word")
    words = parser.parse_args()
    signal.signal(signal.SIGTERM, lambda *_: sys.exit(1))
    chosen = [(name, function) for name, function in CASES if words.only in name]
    with tempfile.TemporaryDirectory() as folder, ThreadPoolExecutor(SIDE_BY_SIDE) as pool:
        world = World(words.bin, folder)
        longest_first = sorted(chosen, key=lambda each: "60 s" not in each[0])
        passed = list(pool.map(lambda each: judged(world, *each), longest_first))
    print(f"{passed.count(True)} passed, {passed.count(False)} failed")
    sys.exit(not all(passed))


if __name__ == "__main__":
    main()
