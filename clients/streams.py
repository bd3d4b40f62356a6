"""Cases over TCP (RFC 8323): coap-client asks by coap+tcp, each command over a connection."""

import shlex
import socket
import subprocess
import time

HOST = "127.0.0.1"

# Seconds: how long one command may take, and how long the server may take to begin.
RUN_LIMIT = 10
SERVER_LIMIT = 5

DISCOVERED = ('</rd>;rt="core.rd";ct=40,</rd-lookup/ep>;rt="core.rd-lookup-ep";ct=40;obs,'
              '</rd-lookup/res>;rt="core.rd-lookup-res";ct=40;obs')

# The name of a case, what coap-client is given before the URI, the path and the query, and what it
# says: the body of an answer, nothing for one without, and the code and word of a refusal.
CASES = [
    ("discovery over TCP (RFC 9176 section 4.3)", [], "/.well-known/core", DISCOVERED),
    ("one kind of resource", [], "/.well-known/core?rt=core.rd", '</rd>;rt="core.rd";ct=40'),
    ("a registration that gives its base (section 5)",
     ["-m", "post", "-t", "40", "-e", '</temp>;rt="temperature"'],
     "/rd?ep=node1&base=coap://192.0.2.10", ""),
    ("a lookup over the next connection (section 6)", [], "/rd-lookup/res?rt=temperature",
     '<coap://192.0.2.10/temp>;rt="temperature"'),
    ("a registration without one", ["-m", "post", "-t", "40", "-e", "</temp>"], "/rd?ep=node2",
     "4.00 query"),
    ("a path that names no resource", [], "/nothing", "4.04 path"),
    ("a removal", ["-m", "delete"], "/rd/1", ""),
    ("nothing is left", [], "/rd-lookup/res", ""),
]

# How many of these requests the directory hears: not those that are answered without it.
ASKED = 6


def is_opened(port: int) -> bool:
    """Whether a connection is opened within the time the server has to begin."""
    until = time.monotonic() + SERVER_LIMIT
    while time.monotonic() < until:
        try:
            with socket.create_connection((HOST, port), timeout=SERVER_LIMIT):
                return True
        except OSError:
            time.sleep(0.02)
    return False


def said_by(words: list[str]) -> str:
    """What a command says."""
    try:
        done = subprocess.run(words, capture_output=True, timeout=RUN_LIMIT, check=False)
    except subprocess.TimeoutExpired:
        return "no end"
    return b"".join((done.stdout, done.stderr)).decode(errors="replace").strip()


def run(run_of_cases):
    """Runs the cases against a server of so many connections, and one that only opens."""
    port = run_of_cases.port("server")
    words = ["--port", str(port), "--tcp", str(len(CASES) + 1)]
    print(f"rd_serve {shlex.join(words)}", flush=True)
    run_of_cases.server = run_of_cases.start([run_of_cases.program, *words])
    run_of_cases.group("Over TCP (RFC 8323)")
    if not is_opened(port):
        run_of_cases.end_ungreeted()
    for name, options, resource, wanted in CASES[:-1]:
        ask(run_of_cases, port, name, options, resource, wanted)
    name, options, resource, wanted = CASES[-1]
    line = command(run_of_cases, port, options, resource)
    said = said_by(line)
    came = [said, run_of_cases.said_at_end()]
    run_of_cases.server = None
    run_of_cases.tell(name, shlex.join(line), [wanted, f"talked {len(CASES) + 1} {ASKED}"], came)


def command(run_of_cases, port: int, options: list[str], resource: str) -> list[str]:
    """The command line of a client."""
    return [run_of_cases.client, *options, f"coap+tcp://{HOST}:{port}{resource}"]


def ask(run_of_cases, port: int, name: str, options: list[str], resource: str, wanted: str):
    """A case: what one command says."""
    words = command(run_of_cases, port, options, resource)
    run_of_cases.tell(name, shlex.join(words), [wanted], [said_by(words)])
