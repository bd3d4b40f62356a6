"""The cases, in the order in which they are run: each goes on from what those before it left.

A case has a name, the words of the client and what must come to it. Registrations are numbered
1, 2, 3 and so on, so each location is known beforehand; a listing has them in that order
(docs/PROFILE.md). Entity tags are opaque to a client (RFC 7252 section 5.10.6), so they are
compared by names, A, B and so on, but where a case is about the tag itself.
"""

import time
from pathlib import Path

from messages import (ACK, BLOCK2, CHANGED, CON, CONTENT, CONTENT_FORMAT, CREATED, DELETE,
                      DELETED, ECHO, EMPTY, GET, LINK_FORMAT, LOCATION_PATH, OBSERVE, POST, RST,
                      UNAUTHORIZED, blocks, content, created, octets, path, query, received,
                      refused, replaced, tags, text_of, uploaded)

DISCOVERED_RD = '</rd>;rt="core.rd";ct=40'
DISCOVERED_LOOKUPS = ('</rd-lookup/ep>;rt="core.rd-lookup-ep";ct=40;obs,'
                      '</rd-lookup/res>;rt="core.rd-lookup-res";ct=40;obs')
DISCOVERED = f"{DISCOVERED_RD},{DISCOVERED_LOOKUPS}"

# The address that a commissioning tool gives the second device, and where it moves to.
ADDRESS = "coap://sensor.example"
MOVED = "coap://moved.example"

CHANGED_BARE = text_of("ACK", "2.04", [])
DELETED_BARE = text_of("ACK", "2.02", [])

# The most octets of a body that comes in blocks (docs/PROFILE.md).
MOST_UPLOADED = 8_192

# How many registrations are each looked up right after they were made.
PAIRS = 200

# How many devices a tool registers from one list, and the number of the first.
DEVICES = 100
FIRST_PAIR = 18
FIRST_DEVICE = FIRST_PAIR + PAIRS

# Receives of a server that ends by itself, each of at most 50 milliseconds.
FEW_TURNS = "20"

# Seconds that a socket waits for a datagram that is to come.
WAIT_LIMIT = 5


def post(links: str) -> list[str]:
    """The words that post links."""
    return ["-m", "post", "-t", "40", "-e", links]


def post_file(folder: str, name: str, links: str) -> list[str]:
    """The words that post links which stand in a file."""
    Path(folder, name).write_text(links)
    return ["-m", "post", "-t", "40", "-f", name]


def sensors(count: int) -> list[str]:
    """The links of a device with so many sensors."""
    return [f'</s{number}>;rt="sensor-{number}"' for number in range(1, count + 1)]


def at(base: str, links: list[str]) -> str:
    """The listing of links whose targets are paths, with their whole addresses."""
    return ",".join(link.replace("</", f"<{base}/", 1) for link in links)


def discovered(body: str, kind: str = "ACK") -> str:
    """2.05 with links of the directory's own, which have no entity tag."""
    return text_of(kind, "2.05", [LINK_FORMAT], body)


def discovery(run):
    run.group("Discovery (RFC 9176 section 4.3)")
    core = "/.well-known/core"
    run.ask("what the directory offers", [], core, [discovered(DISCOVERED)])
    run.ask("where to register", [], f"{core}?rt=core.rd", [discovered(DISCOVERED_RD)])
    run.ask("all that is of a directory", [], f"{core}?rt=core.rd*", [discovered(DISCOVERED)])
    run.ask("what can be observed", [], f"{core}?obs", [discovered(DISCOVERED_LOOKUPS)])
    run.ask("nothing of another kind", [], f"{core}?rt=core.ps", [discovered("")])


class FirstThree:
    """The three registrations with which lookups are tried: their links and endpoint lines."""

    SENT = ['</temp>;rt="temperature";ct=0', '</light>;rt="light-lux";if="sensor"',
            '</log>;rt="temperature history";title="Last day"']
    HUM_SENT = '</hum>;rt="humidity";if="core.s"'
    DOC_SENT = '</hum/doc>;rel="describedby";anchor="/hum"'

    def __init__(self, run, node1: str, address: str = ADDRESS):
        base = run.base(node1)
        self.temp, self.light, self.log = (at(base, [link]) for link in self.SENT)
        self.hum = f'<{address}/hum>;rt="humidity";if="core.s"'
        self.doc = f'<{address}/hum/doc>;rel="describedby";anchor="{address}/hum"'
        self.node1 = f'</rd/1>;base="{base}";ep="node1";rt="core.rd-ep"'
        self.node2 = (f'</rd/2>;base="{address}";ep="node2";d="floor2";rt="core.rd-ep"'
                      ';et="oic.d.sensor"')
        self.other = (f'</rd/3>;base="{run.base("node3")}";ep="node1";d="floor2";'
                      'rt="core.rd-ep"')
        self.first_links = f"{self.temp},{self.light},{self.log}"
        self.second_links = f"{self.hum},{self.doc}"
        self.links = f"{self.first_links},{self.second_links}"
        self.endpoints = f"{self.node1},{self.node2},{self.other}"


def registration(run):
    run.group("Registration (RFC 9176 section 5)")
    first = FirstThree(run, "node1")
    links = "/rd-lookup/res"
    run.ask("before any registration nothing is listed, under the first tag", [], links,
            [content(tag="0x0000000000000000")])
    run.ask("a device registers two links", post(",".join(FirstThree.SENT[:2])),
            "/rd?ep=node1&lt=600", [created(1)], device="node1")
    run.ask("they are listed at the device's address, under the tag of one change", [], links,
            [content(f"{first.temp},{first.light}", tag="0x0000000000010000")])
    run.ask("a tool registers another device, with sector, address, lease and an attribute",
            post(f"{FirstThree.HUM_SENT},{FirstThree.DOC_SENT}"),
            f"/rd?ep=node2&d=floor2&base={ADDRESS}&lt=3600&et=oic.d.sensor", [created(2)])
    run.ask("the links are listed at that address", [], f"{links}?ep=node2",
            [content(first.second_links)])
    run.ask("the first device registers again, with three links, at the same location",
            post(",".join(FirstThree.SENT)), "/rd?ep=node1", [created(1)], device="node1")
    run.ask("the three are listed", [], f"{links}?ep=node1", [content(first.first_links)])
    run.ask("the same name in a sector is another device, which has no links",
            ["-m", "post"], "/rd?ep=node1&d=floor2", [created(3)], device="node3")


def resource_lookup(run):
    run.group("Resource lookup (RFC 9176 section 6)")
    first = FirstThree(run, "node1")
    rows = [
        ("all links", "", first.links),
        ("by a resource type, which is one of two in a link", "rt=temperature",
         f"{first.temp},{first.log}"),
        ("by the beginning of a resource type", "rt=light*", first.light),
        ("by an interface", "if=sensor", first.light),
        ("by a relation", "rel=describedby", first.doc),
        ("by another attribute, with a space in it", "title=Last%20day", first.log),
        ("by the target", f"href={ADDRESS}/hum", first.hum),
        ("by the anchor", f"anchor={ADDRESS}/hum", first.doc),
        ("by the endpoint", "ep=node2", first.second_links),
        ("by the sector", "d=floor2", first.second_links),
        ("by the base", f"base={ADDRESS}", first.second_links),
        ("by an attribute of the endpoint", "et=oic.d.sensor", first.second_links),
        ("by the location of the registration", "href=/rd/1", first.first_links),
        ("by two filters of a link", "rt=temperature&ct=0", first.temp),
        ("by a filter of the link and one of the endpoint", "rt=humidity&d=floor2", first.hum),
        ("if each of two links matches one of two filters, neither is listed",
         "rt=humidity&rel=describedby", ""),
        ("of what is not there", "rt=pump", ""),
        ("a page of two", "count=2", f"{first.temp},{first.light}"),
        ("the page after it", "page=1&count=2", f"{first.log},{first.hum}"),
        ("the last page", "page=2&count=2", first.doc),
        ("a page past the end", "page=3&count=2", ""),
        ("a page of none", "count=0", ""),
        ("a page of those that a filter lists", "ep=node2&page=1&count=1", first.doc),
    ]
    for name, criteria, body in rows:
        run.ask(name, [], f"/rd-lookup/res{'?' * (criteria != '')}{criteria}", [content(body)])
    run.ask("with a token of eight octets", ["-T", "8 octets"], "/rd-lookup/res?if=sensor",
            [content(first.light)])
    run.ask("a page without a count", [], "/rd-lookup/res?page=1", [refused("4.00", "query")])
    run.ask("a count that is no number", [], "/rd-lookup/res?count=few",
            [refused("4.00", "query")])


def endpoint_lookup(run):
    run.group("Endpoint lookup (RFC 9176 section 6)")
    first = FirstThree(run, "node1")
    rows = [
        ("all endpoints", "", first.endpoints),
        ("by the name", "ep=node1", f"{first.node1},{first.other}"),
        ("by the name and the sector", "ep=node1&d=floor2", first.other),
        ("by the sector", "d=floor2", f"{first.node2},{first.other}"),
        ("by the base", f"base={ADDRESS}", first.node2),
        ("by the beginning of an attribute", "et=oic*", first.node2),
        ("by the location", "href=/rd/2", first.node2),
        ("by the type of all endpoints", "rt=core.rd-ep", first.endpoints),
        ("by the resource type of a link", "rt=light-lux", first.node1),
        ("by the target of a link", f"href={ADDRESS}/hum", first.node2),
        ("if each of two links matches one of two filters, the endpoint is listed",
         "rt=humidity&rel=describedby", first.node2),
        ("of what is not there", "ep=node9", ""),
        ("the third by pages of one", "page=2&count=1", first.other),
    ]
    for name, criteria, body in rows:
        run.ask(name, [], f"/rd-lookup/ep{'?' * (criteria != '')}{criteria}", [content(body)])


def update(run):
    run.group("Update (RFC 9176 section 5.3.1)")
    moved = FirstThree(run, "node1-moved", MOVED)
    first = FirstThree(run, "node1")
    run.ask("an update begins the lease anew", ["-m", "post"], "/rd/1?lt=7200", [CHANGED_BARE],
            device="node1")
    run.ask("an update comes from another port", ["-m", "post"], "/rd/1", [CHANGED_BARE],
            device="node1-moved")
    run.ask("the links are listed at that port", [], "/rd-lookup/res?ep=node1",
            [content(moved.first_links)])
    run.ask("an update comes for the device whose address was given", ["-m", "post"], "/rd/2",
            [CHANGED_BARE])
    run.ask("its links stay at that address", [], "/rd-lookup/res?ep=node2",
            [content(first.second_links)])
    run.ask("an update gives another address and another attribute", ["-m", "post"],
            f"/rd/2?base={MOVED}&et=oic.d.light", [CHANGED_BARE])
    run.ask("the links are listed at the other address", [], "/rd-lookup/res?ep=node2",
            [content(moved.second_links)])
    run.ask("the endpoint is listed with the other attribute", [], "/rd-lookup/ep?et=oic.d.*",
            [content(moved.node2.replace("oic.d.sensor", "oic.d.light"))])
    run.ask("an update with links", post(FirstThree.SENT[0]), "/rd/1",
            [refused("4.00", "payload")])
    run.ask("an update with a name", ["-m", "post"], "/rd/1?ep=node9", [refused("4.00", "query")])
    run.ask("an update of nothing", ["-m", "post"], "/rd/99", [refused("4.04", "registration")])


def removal(run):
    run.group("Removal (RFC 9176 section 5.3.2), and the end of a lease (section 5)")
    moved = FirstThree(run, "node1-moved")
    delete = ["-m", "delete"]
    run.ask("a registration is removed", delete, "/rd/3", [DELETED_BARE])
    run.ask("it is listed no more", [], "/rd-lookup/ep?ep=node1", [content(moved.node1)])
    run.ask("it is not removed again", delete, "/rd/3", [refused("4.04", "registration")])
    run.ask("it is not updated", ["-m", "post"], "/rd/3", [refused("4.04", "registration")])
    run.ask("the device registers again, under a new number", ["-m", "post"],
            "/rd?ep=node1&d=floor2", [created(4)], device="node3")
    run.ask("a device registers for two seconds", post("</brief>"), "/rd?ep=brief&lt=2",
            [created(5)], device="brief")
    run.ask("it is listed while they run, under the tag of eleven changes", [],
            "/rd-lookup/res?ep=brief",
            [content(f"<{run.base('brief')}/brief>", tag="0x00000000000b0000")])
    time.sleep(1.3)
    run.ask("it is listed before their end", [], "/rd-lookup/res?ep=brief",
            [content(f"<{run.base('brief')}/brief>")])
    time.sleep(0.8)
    run.ask("it is not listed after them, under another tag, since one has lapsed", [],
            "/rd-lookup/res?ep=brief", [content(tag="0x00000000000b0001")])
    run.ask("it is not updated after them", ["-m", "post"], "/rd/5",
            [refused("4.04", "registration")])


def block_wise(run):
    run.group("Lists in blocks (RFC 7959)")
    many, few = sensors(60), sensors(12)
    sent, listing = ",".join(many), at(run.base("many"), many)
    links = "/rd-lookup/res?ep=many"
    run.ask(f"a list of {len(sent):,} octets in blocks of 1,024",
            ["-b", "1024", *post_file(run.folder, "many.links", sent)], "/rd?ep=many",
            uploaded(len(sent), 1_024, 6), device="many")
    run.ask("it is listed in blocks, all under one tag", [], links, blocks(listing, 1_024))
    run.ask("it is listed in blocks of 64", ["-b", "64"], links, blocks(listing, 64))
    run.ask("its fourth block of 512 alone", ["-b", "3,512"], links, blocks(listing, 512)[3:4])
    run.ask("a block past its end", ["-b", "200,64"], links, [refused("4.00", "block")])
    run.ask("the list again, in the blocks that the client chooses",
            post_file(run.folder, "many.links", sent), "/rd?ep=many",
            uploaded(len(sent), 1_024, 6), device="many")
    short = ",".join(few)
    run.ask(f"a list of {len(short)} octets in blocks of 64",
            ["-b", "64", *post_file(run.folder, "few.links", short)], "/rd?ep=few",
            uploaded(len(short), 64, 7), device="few")
    run.ask("it is listed whole", [], "/rd-lookup/res?ep=few",
            [content(at(run.base("few"), few))])
    run.ask("a list of one octet more than are taken",
            post_file(run.folder, "long.links", f"</{'x' * (MOST_UPLOADED - 2)}>"),
            "/rd?ep=long", too_long(MOST_UPLOADED + 1, 1_024))
    run.ask("that device is not listed", [], "/rd-lookup/ep?ep=long", [content()])


def reading_and_replacing(run):
    run.group("Reading and replacing links (RFC 9176 section 5.3.3)")
    short, new = ",".join(sensors(12)), '</x>;rt="new",</y>;anchor="/x"'
    few, listed = "/rd/7", "/rd-lookup/res?ep=few"
    base = run.base("few")
    put = ["-m", "put", "-t", "40"]
    run.ask("what a device registered is read as it was sent", [], few, [content(short)])
    run.ask("it is read in blocks of 64", ["-b", "64"], few, blocks(short, 64))
    run.ask("a tool replaces the links", [*put, "-e", new], few, [CHANGED_BARE])
    came = run.ask("they are read as they were sent", [], few, [content(new)])
    tag = (tags(came) or ["0x00"])[0]
    run.ask("asked with their tag, they are valid still", ["-O", f"4,{tag}"], few,
            [text_of("ACK", "2.03", [f"ETag:{tag}"])])
    run.ask("they are listed at the device's address", [], listed,
            [content(f'<{base}/x>;rt="new",<{base}/y>;anchor="{base}/x"')])
    run.ask("the tool replaces them in blocks of 64",
            ["-b", "64", "-m", "put", "-t", "40", "-f", "few.links"], few,
            replaced(len(short), 64))
    run.ask("those are listed", [], listed, [content(at(base, sensors(12)))])
    run.ask("what is no list of links replaces nothing", [*put, "-e", "temp"], few,
            [refused("4.00", "links")])
    run.ask("links in JSON replace nothing", ["-m", "put", "-t", "50", "-e", "[]"], few,
            [refused("4.15", "format")])
    run.ask("those of nobody are not replaced", [*put, "-e", new], "/rd/99",
            [refused("4.04", "registration")])
    run.ask("those of nobody are not read", [], "/rd/99", [refused("4.04", "registration")])
    run.ask("the device has those that were sent last", [], few, [content(short)])


def too_long(octet_count: int, size: int) -> list[str]:
    """2.31 for each block that is taken, and 4.13 for the one that is too many."""
    return [*uploaded(octet_count, size, 0)[:-1], refused("4.13", "size")]


def notification(body: str, tag: str, observe: int, *block: str) -> str:
    """A confirmable 2.05 that tells an observer what is listed now."""
    return text_of("CON", "2.05", [f"ETag:{tag}", f"Observe:{observe}", LINK_FORMAT, *block], body)


def observing(run):
    run.group("Observed lookups (RFC 7641)")
    link = '</lamp>;rt="lamp"'
    lamp1, lamp2 = at(run.base("lamp1"), [link]), at(run.base("lamp2"), [link])
    watch = run.begin("the observer was told of each change of the lamps, and of nothing else",
                      ["-s", "5"], "/rd-lookup/res?rt=lamp")
    run.ask("while a client observes the lamps, a lamp registers", post(link), "/rd?ep=lamp1",
            [created(8)], device="lamp1")
    watch.until(2)
    run.ask("another lamp registers, for one second", post(link), "/rd?ep=lamp2&lt=1",
            [created(9)], device="lamp2")
    watch.until(3)
    run.ask("a pump registers", post('</pump>;rt="pump"'), "/rd?ep=pump", [created(10)])
    watch.until(4)
    run.ask("after the second lamp has lapsed the first is removed", ["-m", "delete"], "/rd/8",
            [DELETED_BARE])
    run.finish(watch, [content(observe=1), notification(lamp1, "B", 2),
                       notification(f"{lamp1},{lamp2}", "C", 3), notification(lamp1, "D", 4),
                       notification("", "E", 5)])
    observing_endpoints(run)
    observing_blocks(run)
    run.ask("a lookup ends an observation that does not exist", ["-O", "6,0x01"],
            "/rd-lookup/res?rt=lamp", [content()])


def observing_endpoints(run):
    """An observed endpoint lookup is told of attributes too."""
    def line(kind: str) -> str:
        return (f'</rd/11>;base="{run.base("lamp1")}";ep="lamp1";rt="core.rd-ep"'
                f';et="{kind}"')

    watch = run.begin("the observer was told of both changes", ["-s", "3"],
                      "/rd-lookup/ep?et=oic.d.l*")
    run.ask("while a client observes endpoints of a type, another registers", ["-m", "post"],
            "/rd?ep=lamp1&et=oic.d.lamp", [created(11)], device="lamp1")
    watch.until(2)
    run.ask("an update changes its type", ["-m", "post"], "/rd/11?et=oic.d.led", [CHANGED_BARE],
            device="lamp1")
    watch.until(3)
    light = f'</rd/2>;base="{MOVED}";ep="node2";d="floor2";rt="core.rd-ep";et="oic.d.light"'
    run.finish(watch, [content(light, observe=6),
                       notification(f"{light},{line('oic.d.lamp')}", "B", 7),
                       notification(f"{light},{line('oic.d.led')}", "C", 8)])


def observing_blocks(run):
    """Of a long list the notification has the first block, and the client asks for the rest."""
    many = sensors(60)
    sent, listing = ",".join(many), at(run.base("wall"), many)
    first, *rest = blocks(listing, 1_024)
    watch = run.begin("the observer got the first block as a notification, and then the rest",
                      ["-s", "3"], "/rd-lookup/res?ep=wall")
    run.ask("while a client observes a device, it registers a long list",
            post_file(run.folder, "many.links", sent), "/rd?ep=wall",
            uploaded(len(sent), 1_024, 12), device="wall")
    watch.until(1 + len(rest) + 1)
    told = first.replace("ACK", "CON").replace("ETag:A", "ETag:B, Observe:10")
    run.finish(watch, [content(observe=9), told,
                       *(each.replace("ETag:A", "ETag:B") for each in rest)])


def validation(run):
    run.group("Validation by entity tag (RFC 7252 section 5.10.6)")
    links = "/rd-lookup/res?ep=node2"
    listing = FirstThree(run, "node1", MOVED).second_links
    came = run.ask("a lookup is answered under a tag", [], links, [content(listing)])
    tag = (tags(came) or ["0x00"])[0]
    valid = text_of("ACK", "2.03", [f"ETag:{tag}"])
    run.ask("asked with that tag, it is valid still", ["-O", f"4,{tag}"], links, [valid])
    run.ask("asked with another tag and that one, it is valid still",
            ["-O", "4,0x0102", "-O", f"4,{tag}"], links, [valid])
    run.ask("asked with another tag alone, it is listed", ["-O", "4,0x0102"], links,
            [content(listing)])
    run.ask("an update changes the directory", ["-m", "post"], "/rd/2", [CHANGED_BARE])
    run.ask("asked with the first tag, it is listed", ["-O", f"4,{tag}"], links,
            [content(listing)])


def simple_registration(run):
    run.group("Simple registration (RFC 9176 section 5.1, RFC 9175 section 2.3)")
    served_by_libcoap(run)
    served_by_octets(run)


def served_by_libcoap(run):
    """coap-server has the links, and coap-client asks from the port of coap-server.

    Both may have the port, since libcoap lets it be shared. While the client runs, the GET of the
    directory reaches the client, whose answer is lost (`-l`). The directory asks again within
    three seconds and gets the links from the server (RFC 7252 section 4.2), so that the lookup is
    tried for that long. The challenge comes before the server has the port."""
    port = run.port("simple")
    with run.open_socket("simple") as device:
        device.settimeout(WAIT_LIMIT)
        echo = challenged(run, device, "simple")
    served = run.serve_links("simple")
    run.ask(f"it answers, where {run.device} -A 127.0.0.1 -p {port} serves its links",
            ["-O", f"{ECHO},0x{echo.hex()}", "-m", "post", "-l", "2-100"],
            "/.well-known/rd?ep=simple", [CHANGED_BARE], device="simple")
    run.ask("its links are listed, within five seconds", [], "/rd-lookup/res?ep=simple",
            [content(served.replace("</", f"<{run.base('simple')}/"))], seconds=5)
    run.ask("it is listed itself", [], "/rd-lookup/ep?ep=simple",
            [content(f'</rd/13>;base="{run.base("simple")}";ep="simple";rt="core.rd-ep"')])
    run.ask("a device asks with links", ["-m", "post", "-e", "</x>"], "/.well-known/rd?ep=simple",
            [refused("4.00", "payload")])
    run.ask("a device asks without a name", ["-m", "post"], "/.well-known/rd",
            [refused("4.00", "query")])


def challenged(run, device, name: str) -> bytes:
    """The value that a device is to send back, which asks from its port (RFC 9175 section 2.3)."""
    asked = octets(CON, POST, 0x0100, b"\xe1", [*path(".well-known", "rd"), *query(f"ep={name}")])
    device.send(asked)
    came = received(device)
    echo = came[0][-8:] if came else b""
    wanted = octets(ACK, UNAUTHORIZED, 0x0100, b"\xe1", [(ECHO, echo)])
    run.tell("a device asks, and is to show that it receives", f"(octets) {asked.hex()}",
             [wanted.hex()], [each.hex() for each in came])
    return echo


def served_by_octets(run):
    """A device of a few lines, whose list comes in two blocks."""
    options = [*path(".well-known", "rd"), *query("ep=tiny")]
    fetch = (2).to_bytes(8, "big")
    blocks_of_list = [(b"\x08", b'</tiny>;rt="tiny'), (b"\x10", b'"')]
    came = []
    with run.open_socket("tiny") as device:
        device.settimeout(WAIT_LIMIT)
        options.append((ECHO, challenged(run, device, "tiny")))
        asked = octets(CON, POST, 0x0101, b"\xe1", options)
        device.send(asked)
        came += received(device)
        for block, piece in blocks_of_list:
            came += received(device)
            said = [(CONTENT_FORMAT, b"\x28"), (BLOCK2, block)]
            device.send(octets(ACK, CONTENT, mid_of(came[-1:]), fetch, said, piece))
    core = path(".well-known", "core")
    wanted = [octets(ACK, CHANGED, 0x0101, b"\xe1"),
              octets(CON, GET, mid_of(came[1:2]), fetch, core),
              octets(CON, GET, mid_of(came[2:3]), fetch, [*core, (BLOCK2, b"\x10")])]
    run.tell("a device is asked for its list, block by block", f"(octets) {asked.hex()}",
             [each.hex() for each in wanted], [each.hex() for each in came])
    run.ask("its link is listed, within a second", [], "/rd-lookup/res?ep=tiny",
            [content(f'<{run.base("tiny")}/tiny>;rt="tiny"')], seconds=1)


# Seconds in which a notification comes, and after which one that nobody reset or acknowledged comes
# again (RFC 7252 section 4.2); and the codes that may come.
QUIET, FIRST_WAIT = 0.6, 3.2
CODES = {CONTENT: "content", CREATED: "created", DELETED: "deleted"}


def mid_of(datagrams: list[bytes]) -> int:
    """The Message ID of the only datagram of a list, 0 where it is empty."""
    return int.from_bytes(datagrams[0][2:4], "big") if datagrams else 0


def non_confirmable(run):
    run.group("Messages that are not confirmable (RFC 7252 section 4.3)")
    non = ["-N"]
    run.ask("discovery", non, "/.well-known/core?rt=core.rd", [discovered(DISCOVERED_RD, "NON")])
    run.ask("a registration", [*non, *post("</non>")], "/rd?ep=non", [created(15, kind="NON")],
            device="non")
    run.ask("a lookup", non, "/rd-lookup/res?ep=non",
            [content(f"<{run.base('non')}/non>", kind="NON")])
    run.ask("a removal", [*non, "-m", "delete"], "/rd/15", [text_of("NON", "2.02", [])])
    run.ask("a path that is not there", non, "/nothing", [refused("4.04", "path", "NON")])
    run.ask("with a critical option that nobody knows, which gets nothing",
            [*non, "-B", "1", "-O", "65001,x"], "/rd-lookup/res", [])


def refusals(run):
    run.group("Wrong paths, methods, formats and queries")
    lookup = "/rd-lookup/res"
    rows = [
        ("a path that is not there", [], "/nothing", "4.04", "path"),
        ("no path", [], "/", "4.04", "path"),
        ("a number with a zero before it", ["-m", "post"], "/rd/01", "4.04", "path"),
        ("a registration has no FETCH", ["-m", "fetch", "-e", "x"], "/rd/1", "4.05", "method"),
        ("the registration resource is not put", ["-m", "put", "-e", "</x>"], "/rd", "4.05",
         "method"),
        ("the registration resource is not read", [], "/rd", "4.05", "method"),
        ("a lookup is not posted", ["-m", "post"], lookup, "4.05", "method"),
        ("a lookup is not removed", ["-m", "delete"], "/rd-lookup/ep", "4.05", "method"),
        ("a lookup has no FETCH", ["-m", "fetch", "-e", "x"], lookup, "4.05", "method"),
        ("a lookup in JSON", ["-A", "50"], lookup, "4.06", "accept"),
        ("links in JSON", ["-m", "post", "-t", "50", "-e", "[]"], "/rd?ep=x", "4.15", "format"),
        ("no name", post("</x>"), "/rd", "4.00", "query"),
        ("an empty name", post("</x>"), "/rd?ep=", "4.00", "query"),
        ("a name of 64 octets", post("</x>"), f"/rd?ep={'x' * 64}", "4.00", "query"),
        ("two names", post("</x>"), "/rd?ep=x&ep=y", "4.00", "query"),
        ("a lease of no time", post("</x>"), "/rd?ep=x&lt=0", "4.00", "query"),
        ("a base without a host", post("</x>"), "/rd?ep=x&base=/here", "4.00", "query"),
        ("what is no list of links", post("temp"), "/rd?ep=x", "4.00", "links"),
        ("a link that RFC 9176 appendix C leaves out", post('</x>;anchor="http://example.org/"'),
         "/rd?ep=x", "4.00", "limited"),
        ("a critical option that nobody knows", ["-O", "65001,x"], lookup, "4.02", "option"),
        ("If-Match", ["-m", "post", "-O", "1,0x01"], "/rd/1", "4.02", "option"),
        ("a proxy", ["-P", run.uri("server")], "coap://example.org/x", "5.05", "proxy"),
    ]
    for name, options, resource, code, word in rows:
        run.ask(name, options, resource, [refused(code, word)])
    run.ask("a lookup in the format of links is fine", ["-A", "40"], f"{lookup}?ep=x",
            [content()])


def messages_as_octets(run):
    run.group("What coap-client does not send")
    ping, reset = octets(CON, EMPTY, 0x0102), octets(RST, EMPTY, 0x0102)
    long = octets(CON, GET, 0x0103, b"\x01", path("nothing"), b"x" * 5_000)
    run.send("a ping is reset", [(ping, reset)])
    run.send("a confirmable datagram that is no message is reset",
             [(bytes.fromhex("49011234"), octets(RST, EMPTY, 0x1234))])
    run.send("an empty datagram gets nothing, and the next one is answered",
             [(b"", b""), (ping, reset)])
    run.send("so it is with a datagram of more than 4,096 octets", [(long, b""), (ping, reset)])
    run.send("a registration that comes again gets the same answer",
             [registered(0x0104, "again", 16)] * 2, device="again")
    run.ask("and there is one registration", [], "/rd-lookup/ep?ep=again",
            [content(f'</rd/16>;base="{run.base("again")}";ep="again";rt="core.rd-ep"')])
    removed = octets(CON, DELETE, 0x0105, b"\xa2", path("rd", "16"))
    run.send("a removal that comes again gets the same answer",
             [(removed, octets(ACK, DELETED, 0x0105, b"\xa2"))] * 2, device="again")
    reset_by_observer(run)
    found_at_once(run)


def reset_by_observer(run):
    """Who resets a notification is told nothing more (RFC 7641 section 3.6)."""
    came = []
    with run.open_socket("bell") as device, run.open_socket() as client:
        for each in (device, client):
            each.settimeout(WAIT_LIMIT)
        observed = [(OBSERVE, b""), *path("rd-lookup", "ep"), *query("ep=bell")]
        client.send(octets(CON, GET, 0x0106, b"\xc1", observed))
        came += [each[1] for each in received(client)]
        device.send(registered(0x0107, "bell", 17)[0])
        came += [each[1] for each in received(device)]
        client.settimeout(QUIET)
        notice_of_it = received(client)
        came += [each[1] for each in notice_of_it]
        client.send(octets(RST, EMPTY, mid_of(notice_of_it)))
        device.send(octets(CON, DELETE, 0x0108, b"\xc1", path("rd", "17")))
        came += [each[1] for each in received(device)]
        client.settimeout(FIRST_WAIT)
        came += [each[1] for each in received(client)]
    run.tell("an observer that resets a notification is told nothing more", "(octets)",
             ["content", "created", "content", "deleted"], [CODES.get(each, "?") for each in came])


def registered(mid: int, name: str, number: int) -> tuple[bytes, bytes]:
    """A registration of a link, and what it is answered."""
    asked = octets(CON, POST, mid, b"\xa1", [*path("rd"), *query(f"ep={name}")], b"</x>")
    options = [(LOCATION_PATH, b"rd"), (LOCATION_PATH, str(number).encode())]
    return asked, octets(ACK, CREATED, mid, b"\xa1", options)


def found_at_once(run):
    """What was registered is found by the next lookup, whichever workers hear the two."""
    missing = 0
    with run.open_socket() as device, run.open_socket() as client:
        link = f"<coap://{run.seen_host}:{device.getsockname()[1]}/x>".encode()
        for each in (device, client):
            each.settimeout(WAIT_LIMIT)
        for place in range(PAIRS):
            asked, answer = registered(place, f"pair{place}", FIRST_PAIR + place)
            lookup = [*path("rd-lookup", "res"), *query(f"ep=pair{place}")]
            device.send(asked)
            is_made = received(device) == [answer]
            client.send(octets(CON, GET, place, b"\xb2", lookup))
            is_found = any(each.endswith(b"\xff" + link) for each in received(client))
            missing += not (is_made and is_found)
    run.tell(f"each of {PAIRS} registrations is found by the next lookup", "(octets)",
             ["0 missing"], [f"{missing} missing"])


def commissioning(run):
    run.group("A list of devices (RFC 9176 section 5)")
    directory, links = f"{run.uri('server')}/rd", b"</x>".hex()
    lines = [f"{directory}?ep=dev{place}&base=coap://dev{place}.example {links}"
             for place in range(DEVICES)]
    made = [f"{place + 1} created /rd/{FIRST_DEVICE + place}" for place in range(DEVICES)]
    run.commission(f"a list of {DEVICES} devices", lines, ["status 0", *made])
    run.ask("the links of one of them", [], "/rd-lookup/res?ep=dev57",
            [content("<coap://dev57.example/x>")])
    for name, page, listed in [
            ("the last of them", DEVICES - 1, f"<coap://dev{DEVICES - 1}.example/x>"),
            ("there are no more", DEVICES, "")]:
        run.ask(name, [], f"/rd-lookup/res?ep=dev*&page={page}&count=1", [content(listed)])
    run.commission("one that the directory refuses",
                   [f"{directory}?base=coap://h -"], ["status 0", "1 refused 4.00"])
    run.commission("a line without a base", [lines[0], f"{directory}?ep=late -"],
                   ["status 4", "line 2: base"])


def ends(run):
    run.group("The server's arguments and its end")
    port = run.port("short")
    run.end_of("a port that is taken", ["--port", str(run.port("server"))],
               ["status 6", "socket"])
    run.end_of("arguments that it does not accept", ["--workers", "17"],
               ["status 3", "usage: rd_serve"])
    run.end_of("a server of few turns ends, and says that it answered each ping",
               ["--port", str(port), "--workers", str(run.workers), "--turns", FEW_TURNS],
               ["status 0", "served N N 0"], pinged=port)


def run(run_of_cases):
    """Runs all cases in order."""
    for group in (discovery, registration, resource_lookup, endpoint_lookup, update, removal,
                  block_wise, reading_and_replacing, observing, validation, simple_registration,
                  non_confirmable, refusals, messages_as_octets, commissioning, ends):
        group(run_of_cases)
