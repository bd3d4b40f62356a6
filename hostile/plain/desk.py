"""The steps of a directory: what comes in, and what goes out."""

from dataclasses import dataclass

from . import document, lookup, message
from .history import History, Parameters, Refused, parameters
from .lookup import Query
from .message import (ACK, BLOCK1, BLOCK2, CON, CONTENT_FORMAT, DELETE, ECHO, EMPTY, ETAG, GET,
                      LINK_FORMAT, LOCATION_PATH, LOOKUPS, NON, OBSERVE, POST, RST, URI_PATH,
                      Block, Message, Request, Response, slice_of, spell, spell_block,
                      spell_number)
from .tables import (MOST_BODY, SEPARATE_WAIT, Answers, Challenges, Exchange, Exchanges, Fetch,
                     Fetches, Observer, Observers, Uploads, sending)

MOST_NOTICES = 64
MIDS_OF_WORKER = 4_096
LINKS = (CONTENT_FORMAT, spell_number(LINK_FORMAT))


@dataclass
class WriteJob:
    """A write that was admitted, and is to be done."""

    peer: str
    request: Request
    exchange: Exchange


@dataclass
class KeepJob:
    """A body that was formed, whose first block is to be sent."""

    peer: str
    request: Request
    body: bytes
    tag: bytes


def block_option(number: int, block: Block) -> tuple[int, bytes]:
    """A block as an option."""
    return number, spell_block(block)


def refusal_of_links(request: Request) -> bool:
    """Whether the payload of links that come in blocks does not fit its block."""
    block = request.block1
    if block is None or not request.has_body_of_links:
        return False
    length = len(request.payload)
    return length != block.size if block.is_more else length > block.size


def check_first(request: Request):
    """Refuses what is refused by the request alone, up to its query."""
    if request.has_bad_option:
        raise Refused(message.BAD_OPTION, "option")
    if request.has_proxy:
        raise Refused(message.NO_PROXY, "proxy")
    if request.place is None:
        raise Refused(message.NOT_FOUND, "path")
    if request.code not in message.METHODS[request.place.kind]:
        raise Refused(message.NOT_ALLOWED, "method")
    blocks = [each for each in (request.block1, request.block2) if each]
    if any(each.exponent == 7 for each in blocks) or refusal_of_links(request):
        raise Refused(message.BAD_REQUEST, "block")
    if request.code == GET and request.accept not in (None, LINK_FORMAT):
        raise Refused(message.NOT_ACCEPTABLE, "accept")
    if request.has_body_of_links and request.format not in (None, LINK_FORMAT):
        raise Refused(message.UNSUPPORTED, "format")


def meant(request: Request) -> Query | Parameters | None:
    """What the query of a request means."""
    kind, refused = request.place.kind, message.BAD_REQUEST
    if kind in ("core", *LOOKUPS):
        return lookup.query_of(kind, request.queries)
    if kind == "rd":
        return parameters(request.queries, refused, ())
    if kind == "simple":
        return parameters(request.queries, refused, ("base",))
    if request.code == POST:
        return parameters(request.queries, refused, ("ep", "d"))
    return None


def check_payload(request: Request):
    """Refuses a payload where none is to be."""
    is_update = request.place.kind == "location" and request.code == POST
    if request.payload and (is_update or request.place.kind == "simple"):
        raise Refused(message.BAD_REQUEST, "payload")


class Desk:
    """A directory with its registrations and tables, and how many Message IDs were drawn."""

    def __init__(self, workers: int):
        self.history = History()
        self.exchanges, self.uploads, self.answers = Exchanges(), Uploads(), Answers()
        self.observers, self.fetches, self.challenges = Observers(), Fetches(), Challenges()
        self.drawn = [0] * workers
        self.moment = 0
        self.shown: list = []
        self.worker = self.word = 0
        self.sent: list[tuple[str, bytes]] = []

    # What every step does.

    def draw(self) -> int:
        """The next Message ID of the worker."""
        number = self.drawn[self.worker]
        self.drawn[self.worker] += 1
        return MIDS_OF_WORKER * self.worker + number % MIDS_OF_WORKER

    def send(self, peer: str, octets: bytes) -> bytes:
        """Sends a datagram."""
        self.sent.append((peer, octets))
        return octets

    def reset(self, peer: str, mid: int):
        """Sends a Reset."""
        self.send(peer, spell(RST, EMPTY, mid))

    def answer(self, peer: str, request: Request, code: int, options=(), payload=b"") -> bytes:
        """Sends the answer to a request (RFC 7252 section 5.2)."""
        asked = request.message
        kind, mid = (ACK, asked.mid) if asked.kind == CON else (NON, self.draw())
        return self.send(peer, spell(kind, code, mid, asked.token, options, payload))

    def refuse(self, peer: str, request: Request, refused: Refused) -> bytes:
        """Sends a refusal."""
        return self.answer(peer, request, refused.code, (), refused.word.encode())

    def pass_time(self, moment: int):
        """Lets the desk's moment rise."""
        self.moment = max(self.moment, moment)
        self.exchanges.age(self.moment)
        self.mark()

    def mark(self):
        """Marks the observers of what is listed otherwise now than it was."""
        now = self.history.live(self.moment)
        before, after = ({record.number: record for record in each}
                         for each in (self.shown, now))
        changed = [number for number in before.keys() | after.keys()
                   if before.get(number) is not after.get(number)]
        for observer in self.observers.all if changed else ():
            if any(lookup.part(observer.query, before.get(number))
                   != lookup.part(observer.query, after.get(number)) for number in changed):
                observer.is_due = True
        self.shown = now

    def begin_step(self, moment: int, worker: int, word: int = 0):
        """Begins a step that is made one after the other."""
        self.worker, self.word, self.sent = worker, word, []
        self.pass_time(moment)

    def take_sent(self) -> list[tuple[str, bytes]]:
        """What the step sent."""
        sent, self.sent = self.sent, []
        return sent

    # Datagrams.

    def hear(self, moment: int, worker: int, word: int, peer: str, datagram: bytes):
        """A datagram: the job that it leaves, if any."""
        try:
            heard = message.read(datagram)
        except message.Unreadable as unreadable:
            self.begin_step(moment, worker, word)
            if unreadable.mid is not None:
                self.reset(peer, unreadable.mid)
            return None
        if heard.code == EMPTY or heard.code >> 5 or heard.kind in (ACK, RST):
            self.begin_step(moment, worker, word)
            self.hear_other(peer, heard)
            return None
        return self.hear_request(moment, worker, word, peer, Request(heard))

    def hear_other(self, peer: str, heard: Message):
        """An empty message or a response."""
        if heard.code == EMPTY:
            self.hear_empty(peer, heard)
        elif heard.code >> 5 and heard.kind != RST:
            self.hear_response(peer, heard)

    def hear_empty(self, peer: str, heard: Message):
        """An empty message: a ping, an acknowledgement, a Reset."""
        if heard.kind == CON:
            self.reset(peer, heard.mid)
            return
        observer = self.observers.flight_of(peer, heard.mid)
        fetch = self.fetches.find(peer)
        is_asked = fetch is not None and fetch.asked.mid == heard.mid
        if heard.kind == ACK:
            if observer:
                observer.flight = None
            if is_asked:
                fetch.is_waiting = True
        elif heard.kind == RST:
            if observer:
                self.observers.remove(peer, observer.token)
            if is_asked:
                self.fetches.end(fetch)

    def hear_request(self, moment: int, worker: int, word: int, peer: str, request: Request):
        """A request: the job that it leaves, if any."""
        try:
            check_first(request)
            means = meant(request)
            check_payload(request)
        except Refused as refused:
            self.begin_step(moment, worker, word)
            if refused.word != "option" or request.message.kind == CON:
                self.refuse(peer, request, refused)
            return None
        if request.is_write:
            self.begin_step(moment, worker, word)
            return self.admit(peer, request)
        is_look = request.place.kind == "core" \
            or request.is_first_block and not request.is_observing
        if is_look:
            self.worker, self.sent = worker, []
            return self.look(max(moment, self.moment), peer, request, means)
        self.begin_step(moment, worker, word)
        self.give(peer, request, means)
        return None

    # Lookups.

    def form(self, moment: int, request: Request, query: Query | None) -> bytes:
        """The body of a lookup, or of reading a registration."""
        if query is None:
            record = self.history.record(request.place.number, moment)
            if record is None:
                raise Refused(message.NOT_FOUND, "registration")
            return record.source()
        return lookup.listing(query, self.history.live(moment))

    def content(self, peer: str, request: Request, body: bytes, tag: bytes | None,
                observe: int | None = None):
        """Sends a block of a body."""
        block = request.block
        cut = slice_of(body, block)
        if cut is None:
            self.refuse(peer, request, Refused(message.BAD_REQUEST, "block"))
            return
        piece, is_more = cut
        options = [] if tag is None else [(ETAG, tag)]
        if observe is not None:
            options.append((OBSERVE, spell_number(observe)))
        options.append(LINKS)
        if request.block2 or len(body) > block.size:
            options.append(block_option(BLOCK2, Block(block.number, is_more, block.exponent)))
        self.answer(peer, request, message.CONTENT, options, piece)

    def look(self, moment: int, peer: str, request: Request, query: Query | None):
        """A lookup that reads what there is; the job of a body in blocks."""
        if request.place.kind == "core":
            self.content(peer, request, lookup.discovered(query), None)
            return None
        try:
            body = self.form(moment, request, query)
        except Refused as refused:
            self.refuse(peer, request, refused)
            return None
        tag = self.history.tag(moment)
        if tag in request.etags:
            self.answer(peer, request, message.VALID, [(ETAG, tag)])
        elif len(body) > request.block.size:
            return KeepJob(peer, request, body, tag)
        else:
            self.content(peer, request, body, tag)
        return None

    def keep(self, moment: int, worker: int, job: KeepJob):
        """Keeps a body, and sends its first block."""
        self.begin_step(moment, worker)
        self.answers.keep(job.peer, job.request.key, job.body, job.tag, self.moment)
        self.content(job.peer, job.request, job.body, job.tag)

    def give(self, peer: str, request: Request, query: Query | None):
        """A further block, or the beginning or the end of an observation."""
        if not request.is_first_block:
            self.give_block(peer, request, query)
            return
        body, tag = self.form(self.moment, request, query), self.history.tag(self.moment)
        self.observers.remove(peer, request.message.token)
        observe = None
        if request.observe == 0 and self.observers.has_room(query):
            self.observers.all.append(Observer(peer, request.message.token, query, request.key,
                                               request.block, body))
            observe = self.observers.next_value()
        if len(body) > request.block.size:
            self.answers.keep(peer, request.key, body, tag, self.moment)
        self.content(peer, request, body, tag, observe)

    def give_block(self, peer: str, request: Request, query: Query | None):
        """A further block of a body (RFC 7959 section 2.4)."""
        kept = self.answers.use(peer, request.key, self.moment)
        if kept:
            self.content(peer, request, kept.body, kept.tag)
            return
        try:
            body = self.form(self.moment, request, query)
        except Refused as refused:
            self.refuse(peer, request, refused)
            return
        tag = self.history.tag(self.moment)
        if slice_of(body, request.block):
            self.answers.keep(peer, request.key, body, tag, self.moment)
        self.content(peer, request, body, tag)

    # Writes.

    def admit(self, peer: str, request: Request) -> WriteJob | None:
        """A write: a repeat gets the reply again, a new one leaves a job."""
        known = self.exchanges.find(peer, request.message.mid)
        if known:
            if known.reply is not None:
                self.send(peer, known.reply)
            return None
        is_simple = request.place.kind == "simple"
        is_good = self.challenges.is_good(peer, request.echo, self.moment)
        try:
            if is_simple and not is_good:
                self.exchanges.check_room()
                value = self.challenges.make(peer, self.moment, self.word)
                self.answer(peer, request, message.UNAUTHORIZED, [(ECHO, value)])
                return None
            exchange = self.exchanges.admit(peer, request.message.mid, self.moment)
        except Refused as refused:
            self.refuse(peer, request, refused)
            return None
        return WriteJob(peer, request, exchange)

    def commit(self, moment: int, worker: int, job: WriteJob):
        """Does a write."""
        self.begin_step(moment, worker)
        peer, request, fetch = job.peer, job.request, None
        try:
            fetch = self.write(peer, request, job.exchange)
        except Refused as refused:
            job.exchange.reply = self.refuse(peer, request, refused)
        if fetch:
            self.ask_fetched(fetch, 0, 0)
        self.mark()

    def write(self, peer: str, request: Request, exchange: Exchange) -> Fetch | None:
        """Does what a write says, and answers it; the fetch that it starts."""
        kind = request.place.kind
        if kind == "simple":
            self.fetches.check_room(peer)
            exchange.reply = self.answer(peer, request, message.CHANGED)
            return self.start_fetch(peer, meant(request))
        if request.has_body_of_links:
            exchange.reply = self.write_links(peer, request)
        elif request.code == DELETE:
            self.history.remove(self.moment, request.place.number)
            exchange.reply = self.answer(peer, request, message.DELETED)
        else:
            self.history.update(self.moment, request.place.number, meant(request), peer)
            exchange.reply = self.answer(peer, request, message.CHANGED)
        return None

    def write_links(self, peer: str, request: Request) -> bytes:
        """A registration, or links in the place of those of one; whole or in blocks."""
        body, block, options = request.payload, request.block1, []
        if block:
            body = self.uploads.joined(peer, request.key, self.moment, block, body)
            options = [block_option(BLOCK1, block)]
            if block.is_more:
                self.uploads.keep(peer, request.key, self.moment, body)
                return self.answer(peer, request, message.CONTINUE, options)
        code, location = self.change_links(peer, request, body)
        if block:
            self.uploads.end(peer, request.key)
        return self.answer(peer, request, code, location + options)

    def change_links(self, peer: str, request: Request, body: bytes):
        """Registers, or replaces links; the code and the options of the answer."""
        try:
            links = document.submitted(body)
        except document.BadLinks as bad:
            raise Refused(message.BAD_REQUEST, str(bad)) from None
        if request.place.kind == "location":
            self.history.replace(self.moment, request.place.number, links)
            return message.CHANGED, []
        record = self.history.register(self.moment, meant(request), peer, links)
        location = [(LOCATION_PATH, b"rd"), (LOCATION_PATH, str(record.number).encode())]
        return message.CREATED, location

    # Fetches.

    def start_fetch(self, peer: str, given: Parameters) -> Fetch:
        """Starts to fetch the links of a device."""
        fetch = Fetch(peer, self.fetches.next_token(), given, None, self.moment)
        self.fetches.all.append(fetch)
        return fetch

    def ask_fetched(self, fetch: Fetch, number: int, word: int, exponent: int = 0):
        """Asks a device for its links, or for a further block of them."""
        options = [(URI_PATH, b".well-known"), (URI_PATH, b"core")]
        if number:
            options.append(block_option(BLOCK2, Block(number, False, exponent)))
        mid = self.draw()
        octets = self.send(fetch.peer, spell(CON, GET, mid, fetch.token, options))
        fetch.asked, fetch.begun = sending(mid, octets, self.moment, word), self.moment
        fetch.is_waiting = False

    def hear_response(self, peer: str, heard: Message):
        """A response: to a fetch, or to nothing."""
        fetch, response = self.fetches.find(peer), Response(heard)
        is_own = fetch is not None and fetch.token == heard.token \
            and (heard.kind != ACK or heard.mid == fetch.asked.mid)
        if not is_own or response.has_bad_option:
            if heard.kind == CON:
                self.reset(peer, heard.mid)
            return
        if heard.kind == CON:
            self.send(peer, spell(ACK, EMPTY, heard.mid))
        block = response.block
        if block and block.exponent < 7 and block.start != len(fetch.body):
            return
        if self.is_ending(fetch, response):
            self.fetches.end(fetch)
            return
        fetch.tag = response.etag
        fetch.has_begun = True
        fetch.body += response.payload
        if block and block.is_more:
            self.ask_fetched(fetch, block.number + 1, self.word, block.exponent)
        else:
            self.end_fetch(fetch)

    @staticmethod
    def is_ending(fetch: Fetch, response: Response) -> bool:
        """Whether a response ends a fetch without a registration."""
        block, length = response.block, len(response.payload)
        if response.code != message.CONTENT or response.format not in (None, LINK_FORMAT):
            return True
        if block and (block.exponent == 7 or block.is_more and length != block.size):
            return True
        if fetch.has_begun and (block is None or response.etag != fetch.tag):
            return True
        return len(fetch.body) + length > MOST_BODY

    def end_fetch(self, fetch: Fetch):
        """Registers what was fetched; where that is refused nothing is said."""
        self.fetches.end(fetch)
        try:
            links = document.submitted(fetch.body)
            self.history.register(self.moment, fetch.given, fetch.peer, links)
        except (Refused, document.BadLinks):
            return
        self.mark()

    # Time.

    def tick(self, moment: int, worker: int, word: int):
        """Lets time pass."""
        self.begin_step(moment, worker, word)
        for observer in list(self.observers.all):
            if observer.flight and observer.flight.deadline <= self.moment:
                self.send_again(observer)
        self.notify()
        for fetch in list(self.fetches.all):
            self.time_fetch(fetch)

    def send_again(self, observer: Observer):
        """Sends a notification again, or gives its observer up."""
        if observer.flight.again(self.moment):
            self.send(observer.peer, observer.flight.octets)
        else:
            self.observers.remove(observer.peer, observer.token)

    def notify(self):
        """Sends notifications to observers that are due (RFC 7641 section 4.2)."""
        sent = 0
        for observer in self.observers.all:
            if sent == MOST_NOTICES:
                return
            if observer.is_due and not self.observers.in_flight(observer.peer):
                observer.is_due = False
                body = lookup.listing(observer.query, self.history.live(self.moment))
                if body != observer.body:
                    self.send_notification(observer, body)
                    sent += 1

    def send_notification(self, observer: Observer, body: bytes):
        """Sends a notification."""
        size, tag, mid = observer.block.size, self.history.tag(self.moment), self.draw()
        options = [(ETAG, tag), (OBSERVE, spell_number(self.observers.next_value())), LINKS]
        if len(body) > size:
            options.append(block_option(BLOCK2, Block(0, True, observer.block.exponent)))
            self.answers.keep(observer.peer, observer.key, body, tag, self.moment)
        octets = self.send(observer.peer, spell(CON, message.CONTENT, mid, observer.token,
                                                options, body[:size]))
        observer.body = body
        observer.flight = sending(mid, octets, self.moment, self.word)

    def time_fetch(self, fetch: Fetch):
        """Sends a request of a fetch again, or gives it up."""
        if fetch.is_waiting:
            if self.moment >= fetch.begun + SEPARATE_WAIT:
                self.fetches.end(fetch)
        elif fetch.asked.deadline <= self.moment:
            if fetch.asked.again(self.moment):
                self.send(fetch.peer, fetch.asked.octets)
            else:
                self.fetches.end(fetch)

    def begin(self, moment: int, worker: int, first: int):
        """Begins numbers and the count of changes behind a number."""
        self.begin_step(moment, worker)
        self.history.begin(self.moment, first)
        self.mark()
