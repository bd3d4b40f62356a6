"""A conversation by chance with a server of one worker, each datagram of which is judged.

The world of hostile/chance.py, in real time: the server and the plain directory (hostile/plain) get
the same datagrams at the same moments. All that comes to each port is to be what the plain
directory sends there, octet for octet: tags, locations, Message IDs, values of Observe,
notifications. A step is followed by a ping, so that it is known when it was made; no step is made
within some milliseconds of the end of a lease. Time passes in a server behind each sixteenth
datagram at the latest, so a notification is to come while so many pings are answered. Only the
first four octets of an Echo are taken from what came: they are the server's own.
"""

import copy
import itertools
import random
import time
from collections import Counter

import chance
import wire
from plain import message
from plain.message import ACK, CON, CONTENT, ECHO, EMPTY, RST, spell

PORTS = 4

# Milliseconds: how near the end of a lease no step is made, and how much longer than that is
# waited at most to come near one.
EDGE, MOST_WAITED = 50, 1_500

# Seconds that what is to come is waited for behind the ping that came after it.
GRACE = 0.3

# The ends of leases between two steps of which all ways are tried in which time may have passed.
MOST_ENDED = 4

# Datagrams behind which a server lets time pass, with some to spare.
TICK_PINGS = 20


def now() -> int:
    """The moment in milliseconds."""
    return int(time.time() * 1_000)


class LiveWorld(chance.World):
    """The world of a conversation with a server."""

    def __init__(self, server, seed: str, most_told: int):
        self.server = server
        self.sockets = {}
        for _ in range(PORTS):
            made = wire.open_socket(server.port)
            made.setblocking(False)
            self.sockets[f"{server.seen}:{made.getsockname()[1]}"] = made
        super().__init__(random.Random(seed), workers=1, peers=self.sockets)
        self.judged = self.wrong = 0
        self.kinds: Counter[str] = Counter()
        self.most_told, self.slack = most_told, 0

    def some_acts(self) -> list:
        """What is done, but for what a server does by itself; some of it more often."""
        acts = [act for act, weight in chance.ACTS for _ in range(weight)
                if act.__name__ not in ("go", "bad_line", "settle", "upload_much", "respond")]
        return acts + [chance.World.observe, chance.World.simple, chance.World.register,
                       chance.World.ask_again, chance.World.ask_again] * 4

    # Time.

    def ends(self) -> list[int]:
        """The moments at which leases end."""
        return [record.lapse for record in self.machine.desk.history.records]

    def keep_off(self):
        """Waits where a lease ends about now, until it has ended for sure."""
        while near := [end for end in self.ends() if -self.slack - EDGE < now() - end + 1
                       and now() - end <= EDGE + self.slack]:
            time.sleep((max(near) + EDGE + self.slack + 1 - now()) / 1_000)
        self.moment = now()

    def pass_time(self):
        """Waits up to just before or just behind the end of a lease, at times."""
        near = [end for end in self.ends() if 2 * EDGE < end - now() < MOST_WAITED]
        if near and self.one_in(3):
            before = min(near) - 2 * EDGE - self.slack
            after = min(near) + EDGE + self.slack + 2
            until = self.chance.choice([before, after, after])
            time.sleep(max(0, until - now()) / 1_000)
        self.notifications()

    def tick(self):
        """Waits for some milliseconds."""
        time.sleep(self.chance.choice([0.01, 0.06]))
        self.notifications()

    # Steps.

    def send(self, peer: str, octets: bytes):
        """Sends a datagram, and judges all that comes."""
        self.sent.append((peer, octets))
        if len(octets) > wire.MOST_READ:
            return
        self.keep_off()
        if self.ended(self.machine.moment, now()):
            self.judge_ticks()
        before, sent = copy.deepcopy(self.machine), now()
        self.sockets[peer].send(octets)
        self.ping(1)
        came = now()
        self.slack = max(self.slack, min(came - sent, 1_000))
        wanted = self.step(sent, peer, octets, 0)
        got = self.gather(len(wanted))
        if words := [value for _, datagram in got for value in self.echo(datagram)]:
            self.machine = before
            wanted = self.step(sent, peer, octets, int.from_bytes(words[0][:4], "big"))
        self.judge(octets, *self.ticked(wanted, got))
        self.settle_all()

    def ticked(self, wanted, got):
        """What is wanted and what came, with what is sent as time passes in the server.

        It does so at any moment since the last step: where leases ended meanwhile, what it sends
        may be of before or behind each of them."""
        since, usual = self.machine.moment, copy.deepcopy(self.machine)
        more = self.parsed(usual.line(b"tick 0 %d" % now()))
        if more:
            self.ping(TICK_PINGS)
        got = got + self.gather(len(wanted) + len(more) - len(got))
        for machine, sent in self.passages(since, now()):
            if sorted(wanted + sent) == sorted(got):
                self.machine = machine
                return wanted + sent, got
        self.machine = usual
        return wanted + more, got

    def ended(self, since: int, until: int) -> list[int]:
        """When leases ended between two moments."""
        return sorted({end for end in self.ends() if since < end <= until})[:MOST_ENDED]

    def passages(self, since: int, until: int):
        """The plain directory and what it sends, for each way in which time may have passed."""
        ended = self.ended(since, until)
        moments = [since, *ended] if ended else [until]
        least = 0 if ended else 1
        for count in range(len(moments), least - 1, -1):
            for some in itertools.combinations(moments, count):
                machine = copy.deepcopy(self.machine)
                yield machine, [each for moment in some
                                for each in self.parsed(machine.line(b"tick 0 %d" % moment))]

    @staticmethod
    def echo(datagram: bytes) -> list[bytes]:
        """The Echo of a challenge."""
        try:
            came = message.read(datagram)
        except message.Unreadable:
            return []
        return [value for number, value in came.options if number == ECHO]

    def step(self, moment: int, peer: str, octets: bytes, word: int):
        """What the plain directory sends."""
        text = f"in 0 {moment} {peer} {octets.hex() or '-'} {word}"
        out = self.machine.line(text.encode()) + self.machine.line(b"go 0 %d" % moment)
        return self.parsed(out)

    @staticmethod
    def parsed(out: list[str]) -> list[tuple[str, bytes]]:
        """Lines of an output as peers and datagrams."""
        fields = [line.split(" ") for line in out]
        return [(each[2], bytes.fromhex(each[3])) for each in fields]

    def ping(self, count: int):
        """Lets the server answer so many pings."""
        for _ in range(count):
            self.server.settle()

    def take(self) -> list[tuple[str, bytes]]:
        """What came to all ports."""
        came = []
        for peer, each in self.sockets.items():
            try:
                while True:
                    came.append((peer, each.recv(wire.MOST_DATAGRAM)))
            except OSError:
                continue
        return came

    def gather(self, count: int) -> list[tuple[str, bytes]]:
        """What came to all ports, once so much came or no more is waited for."""
        came, until = self.take(), time.monotonic() + GRACE
        while len(came) < count and time.monotonic() < until:
            time.sleep(0.001)
            came += self.take()
        return came

    def judge(self, told: bytes, wanted, got):
        """Judges what came; what is wanted counts as having come from here on."""
        self.judged += 1
        for peer, datagram in wanted:
            came = message.read(datagram)
            self.came[peer].append(came)
            self.kinds[f"{came.code >> 5}.{came.code & 31:02}"] += 1
        if sorted(wanted) != sorted(got):
            self.wrong += 1
            if self.wrong <= self.most_told:
                print(f"differs behind {told.hex()}: came {shown(got)}, wanted {shown(wanted)}",
                      flush=True)

    def notifications(self):
        """Lets time pass in the server, where somebody is to be told something."""
        self.keep_off()
        self.judge_ticks()
        self.settle_all()

    def judge_ticks(self):
        """Judges what comes as time passes."""
        wanted, got = self.ticked([], [])
        if wanted or got:
            self.judge(b"", wanted, got)

    # What is answered to the server.

    def settle_all(self):
        """Acknowledges or resets all notifications and requests of the server that stand."""
        desk = self.machine.desk
        for observer in list(desk.observers.all):
            if observer.flight and observer in desk.observers.all:
                kind = RST if self.one_in(3) else ACK
                self.send(observer.peer, spell(kind, EMPTY, observer.flight.mid))
        for fetch in list(desk.fetches.all):
            if not fetch.is_waiting:
                self.settle_fetch(fetch)

    def settle_fetch(self, fetch):
        """Answers a request of the server, or acknowledges or resets it."""
        mid = fetch.asked.mid
        if not self.one_in(4):
            self.respond_to(fetch)
            running = self.machine.desk.fetches.find(fetch.peer)
            if not running or running.asked.mid != mid or running.is_waiting:
                return
        self.send(fetch.peer, spell(RST if self.one_in(3) else ACK, EMPTY, mid))

    def respond_to(self, fetch):
        """Answers with a body, whole."""
        kind = self.chance.choice([ACK, CON])
        mid = fetch.asked.mid if kind == ACK else self.mid(fetch.peer)
        self.send(fetch.peer, spell(kind, CONTENT, mid, fetch.token, [], self.links().encode()))

    def go_on(self, seconds: float, is_stopped: bool):
        """Goes on for so long, or up to what is wrong."""
        until = time.monotonic() + seconds
        while time.monotonic() < until and not (is_stopped and self.wrong):
            self.pass_time()
            self.chance.choice(self.acts)(self)

    def close(self):
        """Closes all ports."""
        for each in self.sockets.values():
            each.close()


def shown(datagrams) -> list[str]:
    """Datagrams as they are told."""
    return [f"{peer} {datagram.hex()}" for peer, datagram in datagrams]
