#!/usr/bin/env python3
"""Runs real clients against the server: `clients/run.py [--workers N].. [--answers] [PROGRAM]`.

For each number of workers rd_serve is started on a free port of 127.0.0.1 and driven by libcoap's
coap-client, case after case (clients/cases.py). Then it is driven over TCP (clients/streams.py),
rd_host serves UDP and TCP at once (clients/connections.py), rd_host is ended and started again
(clients/restarts.py), it keeps requests from the directory (clients/guards.py), rd_install
registers, refreshes, keeps and removes lists of devices (clients/installs.py), and a recording of
rd_host is replayed (clients/recordings.py). Each case prints one line: whether it passed, what it
shows, and the command as it can be typed; it is run with `-v 7` besides, over UDP, by which the
client shows each datagram. --answers shows what came, too. The last line counts the cases. What is
wanted of each was written down from the RFCs and from docs/, never from what the program printed. A
few are marked "(octets)": what coap-client cannot send goes out from a socket of this script. The
status is 1 where a case failed, and 2 where there is nothing to run.
"""

import argparse
import os
import re
import shlex
import shutil
import signal
import socket
import subprocess
import sys
import tempfile
import time
from pathlib import Path

import cases
import connections
import guards
import installs
import messages
import recordings
import restarts
import streams

HOST = "127.0.0.1"
FIRST_PORT = 20_000

# The relay with faults, and the address at which the server sees clients through it.
RELAY = Path(__file__).resolve().parent.parent / "hostile" / "relay.py"
SEEN = "127.0.0.2"

# The programs that are run beside the server.
OTHERS = ["rd_commission", "rd_host", "rd_install", "rd_capture", "rd_replay"]

# Seconds: how long one run of a client may take, how long something that comes by itself is
# waited for, how long nothing is to come, and how long the server may take to begin or to end.
RUN_LIMIT = 10
WAIT_LIMIT = 5
QUIET = 0.3
SERVER_LIMIT = 5

# The names that builds of libcoap give their programs, the plain one first.
BUILDS = ["", "-notls", "-openssl", "-gnutls", "-mbedtls", "-tinydtls"]
PACKAGE = "libcoap3-bin"

PING = messages.octets(messages.CON, messages.EMPTY, 0x4E55)
PONG = messages.octets(messages.RST, messages.EMPTY, 0x4E55)


def program_of(name: str) -> str:
    """The first build of a program of libcoap that is there, or nothing."""
    return next((name + build for build in BUILDS if shutil.which(name + build)), "")


def is_installed() -> bool:
    """Whether the programs of libcoap that are wanted are there."""
    return all(program_of(name) for name in ("coap-client", "coap-server"))


def install():
    """Installs the programs of libcoap, by the package of Debian."""
    print(f"coap-client or coap-server is not there: apt-get install {PACKAGE}", flush=True)
    if shutil.which("apt-get"):
        words = ["apt-get", "install", "--yes", "--quiet", PACKAGE]
        subprocess.run(words, stdin=subprocess.DEVNULL, stdout=subprocess.DEVNULL, check=False)
    if not is_installed():
        print(f"they could not be installed; Debian has them in {PACKAGE}", file=sys.stderr)
        sys.exit(2)


def is_free(port: int) -> bool:
    """Whether nobody has a port, for UDP and for TCP."""
    for kind in (socket.SOCK_DGRAM, socket.SOCK_STREAM):
        with socket.socket(socket.AF_INET, kind) as tried:
            try:
                tried.bind((HOST, port))
            except OSError:
                return False
    return True


def end(process: subprocess.Popen):
    """Ends a process that this script started."""
    if process.poll() is None:
        process.send_signal(signal.SIGTERM)
        try:
            process.wait(SERVER_LIMIT)
        except subprocess.TimeoutExpired:
            process.kill()
    process.wait()


def is_answered(port: int, request: bytes, answer: bytes) -> bool:
    """Whether a request to a port is answered like this within the time a server has to begin."""
    until = time.monotonic() + SERVER_LIMIT
    with socket.socket(socket.AF_INET, socket.SOCK_DGRAM) as asking:
        asking.settimeout(0.1)
        asking.connect((HOST, port))
        while time.monotonic() < until:
            try:
                asking.send(request)
                if asking.recv(len(answer) + 1) == answer:
                    return True
            except OSError:
                time.sleep(0.02)
    return False


class ServerEnded(Exception):
    """The server has ended while cases were run against it."""


class Stopped(Exception):
    """A case has failed, and no further one is to be run."""


class Watch:
    """A client that runs beside the others and shows what it is given."""

    def __init__(self, name: str, words: list[str], line: str, folder: str):
        self.name, self.line = name, line
        self.shown = Path(folder, "watch")
        with self.shown.open("wb") as shown:
            self.process = subprocess.Popen(words, stdout=shown, stderr=subprocess.STDOUT,
                                            cwd=folder)

    def came(self) -> list[str]:
        """The messages that came to it so far."""
        return messages.came(self.shown.read_text(errors="replace"))

    def until(self, count: int):
        """Waits until so many messages came to it, or for too long."""
        until = time.monotonic() + WAIT_LIMIT
        while len(self.came()) < count and time.monotonic() < until:
            time.sleep(0.02)

    def wait(self):
        """Waits until it ends by itself, or for too long."""
        try:
            self.process.wait(RUN_LIMIT)
        except subprocess.TimeoutExpired:
            pass
        end(self.process)


class Run:
    """One server, the cases that are run against it, and how they came out."""

    def __init__(self, program: str, workers: int, folder: str, words: argparse.Namespace):
        self.program, self.workers, self.folder = program, workers, folder
        self.with_answers, self.is_stopped = words.answers, words.stop
        self.fault, self.seen_host = words.fault, SEEN if words.fault else HOST
        self.client, self.device = program_of("coap-client"), program_of("coap-server")
        self.passed = self.failed = 0
        self.next_port = FIRST_PORT
        self.ports: dict[str, int] = {}
        self.started: list[subprocess.Popen] = []
        self.server: subprocess.Popen | None = None

    def beside(self, name: str) -> str:
        """Another program of this project, beside the server."""
        return str(Path(self.program).with_name(name))

    # Ports.

    def port(self, name: str) -> int:
        """The port of a name, which is free when it is first asked for."""
        while name not in self.ports:
            if is_free(self.next_port):
                self.ports[name] = self.next_port
            self.next_port += 1
        return self.ports[name]

    def base(self, name: str) -> str:
        """The base of what a device registers from its port (RFC 9176 section 5)."""
        return f"coap://{self.seen_host}:{self.port(name)}"

    def uri(self, name: str) -> str:
        """Where what listens on a port is asked."""
        return f"coap://{HOST}:{self.port(name)}"

    # What is told.

    def group(self, title: str):
        """Begins a group of cases."""
        print(f"\n{title}", flush=True)

    def tell(self, name: str, line: str, wanted: list[str], came: list[str]):
        """Tells how a case came out."""
        is_right = wanted == came
        self.passed += is_right
        self.failed += not is_right
        print(f"{'passed' if is_right else 'FAILED'}  {name}: {line}", flush=True)
        if not is_right:
            self.tell_each("wanted", wanted)
        if not is_right or self.with_answers:
            self.tell_each("came", came)
        if self.server is not None and self.server.poll() is not None:
            raise ServerEnded
        if self.is_stopped and not is_right:
            raise Stopped

    @staticmethod
    def tell_each(what: str, texts: list[str]):
        """Tells what was wanted, or what came."""
        for text in texts or ["nothing"]:
            print(f"    {what:<8}{text}", flush=True)

    # coap-client.

    def words(self, options: list[str], resource: str, device: str) -> list[str]:
        """The command line of a client, from the port of a device where one is named."""
        at = ["-a", HOST, "-p", str(self.port(device))] if device else []
        uri = f"{self.uri('server')}{resource}" if resource.startswith("/") else resource
        return [self.client, *at, *options, uri]

    @staticmethod
    def seen(words: list[str]) -> list[str]:
        """The command line with what makes the client show each datagram."""
        return [words[0], "-v", "7", *words[1:]]

    def output(self, words: list[str]) -> str:
        """What a client shows of one run."""
        try:
            done = subprocess.run(self.seen(words), cwd=self.folder, stdin=subprocess.DEVNULL,
                                  stdout=subprocess.PIPE, stderr=subprocess.STDOUT,
                                  timeout=RUN_LIMIT, check=False)
        except subprocess.TimeoutExpired as late:
            return (late.stdout or b"").decode(errors="replace")
        return done.stdout.decode(errors="replace")

    def ask(self, name: str, options: list[str], resource: str, wanted: list[str],
            device: str = "", seconds: float = 0) -> list[str]:
        """A case: a client asks, and just these messages come to it.

        Where the standards leave open when, it asks again for so many seconds at most."""
        words = self.words(options, resource, device)
        until = time.monotonic() + seconds
        while True:
            came = messages.came(self.output(words))
            named = came if "ETag:0x" in " ".join(wanted) else messages.with_names_of_tags(came)
            if named == wanted or time.monotonic() >= until:
                break
            time.sleep(0.1)
        self.tell(name, shlex.join(words), wanted, named)
        return came

    def begin(self, name: str, options: list[str], resource: str) -> Watch:
        """Begins a case: a client that runs beside the others."""
        words = self.words(options, resource, "")
        watch = Watch(name, self.seen(words), shlex.join(words), self.folder)
        self.started.append(watch.process)
        watch.until(1)
        return watch

    def finish(self, watch: Watch, wanted: list[str]):
        """Ends such a case: the client ends by itself, and just these messages came to it."""
        watch.wait()
        self.tell(watch.name, watch.line, wanted, messages.with_names_of_tags(watch.came()))

    # Octets.

    def send(self, name: str, datagrams: list[tuple[bytes, bytes]], device: str = ""):
        """A case of octets from a socket: datagrams, each with its answer, or with none."""
        line = f"(octets) {' '.join(shortened(asked) for asked, _ in datagrams)}"
        wanted = [answer.hex() for _, answer in datagrams if answer]
        self.tell(name, line, wanted, [each.hex() for each in self.exchange(datagrams, device)])

    def exchange(self, datagrams: list[tuple[bytes, bytes]], device: str) -> list[bytes]:
        """All that comes to a socket that sends datagrams, each after the last one's answer."""
        came = []
        with self.open_socket(device) as asking:
            for datagram, answer in datagrams:
                asking.settimeout(WAIT_LIMIT if answer else QUIET)
                asking.send(datagram)
                came += messages.received(asking)
            asking.settimeout(QUIET)
            came += messages.received(asking)
        return came

    def open_socket(self, device: str = "") -> socket.socket:
        """A socket to the server, at the port of a device where one is named."""
        asking = socket.socket(socket.AF_INET, socket.SOCK_DGRAM)
        asking.bind((HOST, self.port(device) if device else 0))
        asking.connect((HOST, self.port("server")))
        return asking

    # Servers.

    def start(self, words: list[str]) -> subprocess.Popen:
        """Starts a program that is ended with this run."""
        process = subprocess.Popen(words, stdin=subprocess.DEVNULL, stdout=subprocess.PIPE,
                                   stderr=subprocess.PIPE, cwd=self.folder)
        self.started.append(process)
        return process

    def serve(self):
        """Starts the server, and waits until it answers a ping."""
        port = self.port("server")
        own = self.port("own") if self.fault else port
        words = ["--port", str(own), "--workers", str(self.workers)]
        print(f"rd_serve {shlex.join(words)}", flush=True)
        self.server = self.start([self.program, *words])
        if self.fault:
            self.start([sys.executable, str(RELAY), "--fault", self.fault, "--from", str(port),
                        "--to", str(own)])
        if not is_answered(port, PING, PONG):
            self.end_ungreeted()

    def end_of(self, name: str, words: list[str], wanted: list[str], pinged: int = 0):
        """A case: a server of its own words, with the status and the text of its end.

        Where a port is named to be pinged, the server is sent pings until it answers one. How many
        it heard is not known, so that equal counts of heard and sent stand as N."""
        server = self.start([self.program, *words])
        if pinged:
            is_answered(pinged, PING, PONG)
        try:
            said = b"".join(server.communicate(timeout=RUN_LIMIT)).decode().strip()
            said = re.sub(r"^served ([1-9]\d*) \1 ", "served N N ", said)
            came = [f"status {server.returncode}", said]
        except subprocess.TimeoutExpired:
            came = ["no end"]
        self.tell(name, f"rd_serve {shlex.join(words)}", wanted, came)

    def commission(self, name: str, lines: list[str], wanted: list[str]):
        """A case: a tool registers the devices of a list, with its status and all that it says."""
        try:
            done = subprocess.run([self.beside("rd_commission")], input="\n".join(lines).encode(),
                                  cwd=self.folder, stdout=subprocess.PIPE,
                                  stderr=subprocess.STDOUT, timeout=RUN_LIMIT,
                                  check=False)
            came = [f"status {done.returncode}", *done.stdout.decode().splitlines()]
        except subprocess.TimeoutExpired:
            came = ["no end"]
        first, more = shlex.quote(lines[0]), " .." if lines[1:] else ""
        self.tell(name, f"echo {first}{more} | rd_commission", wanted, came)

    def serve_links(self, device: str) -> str:
        """Starts a device that serves links of its own at its port; those that it lists."""
        port = self.port(device)
        self.start([self.device, "-A", HOST, "-p", str(port)])
        if not is_answered(port, PING, PONG):
            return ""
        words = self.words([], f"{self.uri(device)}/.well-known/core", "")
        return "".join(each.partition("] ")[2] for each in messages.came(self.output(words)))

    def end_ungreeted(self):
        """Ends a server that no client reached."""
        end(self.server)
        raise ServerEnded

    def said_at_end(self) -> str:
        """What the server says, once it has ended by itself with status 0."""
        try:
            said = b"".join(self.server.communicate(timeout=RUN_LIMIT)).decode().strip()
        except subprocess.TimeoutExpired:
            return "no end"
        return said if self.server.returncode == 0 else f"status {self.server.returncode} {said}"

    def end_server(self):
        """Ends the server, so that another one can be started at its port."""
        server, self.server = self.server, None
        end(server)

    def end(self):
        """Ends all that was started."""
        for process in self.started:
            end(process)


def shortened(datagram: bytes) -> str:
    """A datagram in hexadecimal, `-` for an empty one, of a long one its beginning and length."""
    text = datagram.hex() or "-"
    return text if len(text) <= 160 else f"{text[:32]}.. ({len(datagram)} octets)"


def over_udp(run: Run):
    """Runs all cases against a server of so many workers."""
    run.serve()
    cases.run(run)


def run_all(program: str, workers: int, words: argparse.Namespace, run_cases=over_udp) -> int:
    """Runs cases against a server, of so many workers where it is over UDP; how many failed."""
    with tempfile.TemporaryDirectory() as folder:
        run = Run(program, workers, folder, words)
        try:
            run_cases(run)
        except Stopped:
            pass
        except ServerEnded:
            run.failed += 1
            said = b"".join(run.server.communicate()).decode().strip()
            print(f"FAILED  the server: status {run.server.returncode} {said}".rstrip())
        finally:
            run.end()
    print(f"\n{run.passed} passed, {run.failed} failed\n", flush=True)
    return run.failed


def main():
    parser = argparse.ArgumentParser(description="Runs real clients against the server.")
    parser.add_argument("program", nargs="?", default="bin/rd_serve")
    parser.add_argument("--workers", type=int, action="append", help="1 and then 4 by default")
    parser.add_argument("--answers", action="store_true", help="shows what came, too")
    parser.add_argument("--stop", action="store_true", help="at the first case that fails")
    parser.add_argument("--fault", default="", help="a fault of hostile/relay.py, over UDP")
    words = parser.parse_args()
    program = Path(words.program).resolve()
    others = ["rd_commission"] if words.fault else OTHERS
    for each in (program, *map(program.with_name, others)):
        if not os.access(each, os.X_OK):
            print(f"{each} is not there: make build", file=sys.stderr)
            sys.exit(2)
    if not is_installed():
        install()
    signal.signal(signal.SIGTERM, lambda *_: sys.exit(1))
    failed = 0
    for workers in words.workers or [1, 4]:
        failed += run_all(str(program), workers, words)
    if not words.fault:
        for run_cases in (streams.run, connections.run, restarts.run, guards.run, installs.run,
                          recordings.run):
            failed += run_all(str(program), 1, words, run_cases)
    sys.exit(failed > 0)


if __name__ == "__main__":
    main()
