"""A plain session: what one connection is answered, by docs/PROTOCOL.md, over a plain hall's state.

It was written apart from the program. Items come whole; each is processed to its end, with all that it asks of the hall. `met` counts
the rules of compact blocks that came up.
"""

import struct
import sys
from collections import Counter
from dataclasses import dataclass, field

from bench.models import plain_wire as wire
from bench.models.plain_compact import differences, indexes, judged, missing, slots
from bench.models.plain_hall import ANNOUNCED, DEPTH, PART_DEPTH, Shared
from bench.models.plain_wire import BLOCK, COMPACT, TX, Fault
from bench.tools.basics import envelope

MOST_FLIGHT, MOST_WANTED, MOST_QUESTIONS = 16, 2_000, 6
WORD = (1 << 64) - 1


class Closed(Exception):
    """The session is over, for this reason."""


@dataclass
class Settings:
    inbound: bool = True
    nonce: int = 1
    time: int = 0
    height: int = 0
    # The first nonce of our compact blocks.
    salt: int = 0


@dataclass
class Partial:
    """A compact block that lacks transactions: its header, and what stands at each place."""

    header: object
    slots: list


def is_sound(header, txs):
    """Whether these transactions are those of the block with this header."""
    return judged(header.text, [tx.text for tx in txs]) == "sound"


def whole(header, txs):
    """The block of these transactions."""
    return wire.ReadBlock(header.text + wire.listed([tx.text for tx in txs]), txs)


@dataclass
class PlainSession:
    settings: Settings
    shared: object
    connection: tuple = (0, 1)
    phase: str = "Start"
    version: int = 0
    by_headers: bool = False
    capable: bool = False
    wants_high: bool = False
    heard: bytes = None
    told: bytes = None
    next: int = 0
    flight: list = field(default_factory=list)
    wanted: list = field(default_factory=list)
    # The header behind which blocks had no room, and whether headers were asked for because something is unknown.
    resume_from: bytes = None
    unknown: bool = False
    # Whether the peer wants to be told of transactions.
    relay: bool = True
    # The compact block that lacks transactions, how many compact blocks were made, and whether the peer was asked to send its own unasked.
    partial: Partial = None
    made: int = 0
    asked_high: bool = False
    # How many questions the item asked, and what goes out.
    questions: int = 0
    out: list = field(default_factory=list)
    met: Counter = field(default_factory=Counter)

    def opening(self):
        return b"" if self.settings.inbound else self.version_told()

    def version_told(self):
        return wire.version(self.settings.nonce, self.settings.time, self.settings.height)

    def item(self, item):
        """What is sent for an item: ("good", name, value), ("bad",) or another word. None is a tick."""
        self.out, self.questions, self.brought = [], 1, None
        if self.connection in self.shared.kicked:
            raise Closed("Kicked")
        if item is not None and item[0] == "bad":
            raise Closed("BadMessage")
        if item is not None and item[0] == "good":
            self.message(item[1], item[2])
        if self.phase == "Ready":
            self.end()
        assert self.questions <= MOST_QUESTIONS
        self.met["six questions"] += self.questions == MOST_QUESTIONS
        return b"".join(self.out)

    def message(self, name, value):
        if name == "ping":
            self.out.append(envelope(b"pong", struct.pack("<Q", value)))
        elif name == "version" and self.phase == "Start":
            self.introduced(value)
        elif name == "version":
            self.met["another relay byte that doesn't count"] += value.relay != self.relay
        elif name == "verack" and self.phase == "Greeted":
            self.ready()
        elif name == "sendheaders" and self.phase in ("Greeted", "Ready"):
            self.by_headers = True
        elif name == "sendcmpct" and self.phase in ("Greeted", "Ready") and value[1] == 1:
            self.capable, self.wants_high = True, value[0] == 1
        elif self.phase == "Ready" and hasattr(self, "told_" + name):
            getattr(self, "told_" + name)(value)

    def introduced(self, told):
        if told.nonce == self.settings.nonce:
            raise Closed("SelfPeer")
        if told.version < 70001:
            raise Closed("OldPeer")
        self.phase, self.version, self.relay = "Greeted", told.version, told.relay
        self.out += [self.version_told()] * self.settings.inbound + [envelope(b"verack", b"")]

    def ready(self):
        self.phase = "Ready"
        self.out += [envelope(b"sendheaders", b"")] * (self.version >= 70012) + [wire.sendcmpct(0, 1)] * (self.version >= 70014)
        self.questions += 1
        self.ask_headers()

    def ask_headers(self, locator=None):
        """Asks for headers, unless the session remembers a header from which it will ask."""
        if self.resume_from is not None:
            self.met["headers are not asked for meanwhile"] += 1
            return
        self.out.append(wire.getheaders(locator or self.shared.chain.locator()))

    def ask_unknown(self, cause):
        """Asks for headers because something is unknown, unless they are asked for already."""
        if self.resume_from is not None:
            self.met["the unknown isn't asked for meanwhile"] += 1
        elif self.unknown:
            self.met[f"asked for already: {cause}"] += 1
        else:
            self.met[f"unknown: {cause}"] += 1
            self.unknown = True
            self.ask_headers()

    def cleared(self, cause):
        """What was unknown may be asked for again."""
        self.met[f"cleared: {cause}"] += self.unknown
        self.unknown = False

    # ---- what the peer tells

    def told_headers(self, headers):
        if not headers:
            self.cleared("no headers")
            return
        self.heard = headers[-1].name
        lack, refused = self.give_headers(headers)
        if refused == "F23 NoParent":
            self.met["not cleared"] += self.unknown
        else:
            self.cleared("headers")
        self.want_all(lack, headers[0].prev)
        if refused == "F23 NoParent":
            self.ask_unknown("headers")
        if refused is None and len(headers) == wire.MOST_HEADERS:
            self.ask_headers([headers[-1].name])

    def give_headers(self, headers):
        """The names of those whose blocks are lacking, and the refusal that ended it."""
        self.questions += 1
        lack, refused = self.shared.take_headers(headers)
        if refused == "F11 BadWork":
            raise Closed("BadBlock")
        return lack, refused

    def want_all(self, names, before):
        """Wants lacking blocks, in their order and last. Where some have no room, the header before them is remembered; while one is, nothing
        changes."""
        if self.resume_from is not None:
            self.met["lacking, and not wanted meanwhile"] += bool(names)
            return
        old, listed = self.wanted, set(names) - set(self.flight)
        self.wanted = [name for name in self.wanted if name not in listed]
        for name in names:
            self.want(name, before)
        self.note_listed(names, old, listed)

    def note_listed(self, names, old, listed):
        """Notes what became of those that were wanted before they were listed."""
        behind = set(self.wanted)
        self.met["listed again: last"] += [name for name in self.wanted if name in set(old)] != [name for name in old if name in behind]
        self.met["listed again: its own room"] += len(old) == MOST_WANTED and not listed.isdisjoint(old)
        self.met["listed again: no room any more"] += not behind.issuperset(old)
        self.met["listed again: wanted, and in flight"] += not set(names).isdisjoint(set(self.flight) & behind)

    def want(self, name, before):
        if name in self.wanted or name in self.flight:
            return
        if len(self.wanted) < MOST_WANTED:
            self.wanted.append(name)
        elif self.resume_from is None:
            self.met["no room"] += 1
            self.resume_from = before

    def told_inv(self, entries):
        entries = [entry for entry in entries if entry[0] in (TX, BLOCK)]
        if not entries:
            return
        need = self.needed(entries)
        txs = [entry for entry in need if entry[0] == TX]
        if txs:
            self.out.append(wire.entries(b"getdata", txs))
        if len(txs) < len(need):
            self.ask_unknown("inv")

    def needed(self, entries):
        self.questions += 1
        return self.shared.needed(entries)

    def told_getdata(self, entries):
        self.questions += 1
        lacking = []
        for kind, name in (it for it in entries if it[0] in (TX, BLOCK, COMPACT)):
            word, found = self.shared.served(kind, name)
            self.note_served(kind, name, word)
            if word == "lacking":
                lacking.append((kind, name))
            else:
                self.out.append(self.made_compact(found) if word == "short" else envelope(b"tx" if word == "tx" else b"block", found.text))
        if lacking:
            self.out.append(wire.entries(b"notfound", lacking))

    def note_served(self, kind, name, word):
        """Notes how a block is told that was asked for as a compact one."""
        if kind != COMPACT:
            return
        depth = self.shared.depth(name) if word != "lacking" else None
        self.met["a compact block that isn't there"] += word == "lacking"
        self.met["asked of us: compact"] += word == "short"
        self.met["asked of us: compact at 5"] += word == "short" and depth == DEPTH
        self.met["asked of us: compact, sent whole"] += word == "whole"
        self.met["asked of us: compact, whole at 6"] += word == "whole" and depth == DEPTH + 1

    def made_compact(self, block):
        """A compact block under the next nonce."""
        message = wire.compact(block, (self.settings.salt + self.made) & WORD)
        self.made = (self.made + 1) & WORD
        return message

    def told_getblocktxn(self, request):
        name, steps = request
        self.questions += 1
        try:
            block, txs = self.shared.places(name, steps)
        except Fault:
            self.met["getblocktxn: no place"] += 1
            raise Closed("BadRequest") from None
        if block is None:
            self.met["getblocktxn: no block"] += 1
        elif txs is None:
            self.met["getblocktxn: whole"] += 1
            self.met["getblocktxn: whole at 11"] += self.shared.depth(name) == PART_DEPTH + 1
            self.out.append(wire.block(block.text))
        else:
            self.met["getblocktxn: part"] += 1
            self.met["getblocktxn: part at 10"] += self.shared.depth(name) == PART_DEPTH
            self.met["getblocktxn: several"] += len(txs) > 1
            self.out.append(wire.blocktxn(name, [tx.text for tx in txs]))

    def told_getheaders(self, request):
        self.questions += 1
        names = self.shared.chain.after(*request)
        self.out.append(wire.headers([self.shared.chain.headers[name].text for name in names]))

    def told_tx(self, tx):
        self.questions += 1
        self.brought = tx.name
        self.shared.answer_tx(self.connection, tx)

    def told_block(self, block):
        if not is_sound(block.header, block.txs):
            raise Closed("BadBlock")
        self.heard = block.header.name
        self.land(self.heard)
        if self.partial is not None and self.partial.header.name == self.heard:
            self.met["a block drops the partial one"] += 1
            self.partial = None
        if self.give_block(block) not in ("-", "F18 Known", "F23 NoParent"):
            raise Closed("BadBlock")

    def land(self, *names):
        """These are no longer in flight."""
        self.flight = [name for name in self.flight if name not in names]

    def give_block(self, block):
        """The refusal, or "-"."""
        self.questions += 1
        refused = self.shared.answer_block(self.connection, block, self.capable)[0].removeprefix("block ").split(" locator")[0]
        if refused == "F23 NoParent":
            self.without_parent(block.header)
        return refused

    def without_parent(self, header):
        """Wants a block again that came before its parent, if that is to come, and else asks for what is unknown."""
        is_to_come = header.prev in self.flight or header.prev in self.wanted
        if self.resume_from is not None or not is_to_come:
            self.ask_unknown("block")
            return
        self.met[f"before its parent, which is {'in flight' if header.prev in self.flight else 'wanted'}"] += 1
        self.met["before its parent: wanted already"] += header.name in self.wanted
        self.met["before its parent: no room"] += header.name not in self.wanted and len(self.wanted) == MOST_WANTED
        self.want(header.name, header.prev)

    def told_notfound(self, entries):
        self.land(*(name for kind, name in entries if kind in (BLOCK, COMPACT)))

    # ---- compact blocks that the peer tells

    def told_cmpctblock(self, short):
        places = indexes([difference for difference, _ in short.prefilled], len(short.ids) + len(short.prefilled))
        if places is None:
            self.met["cmpctblock: no place"] += 1
            raise Closed("BadMessage")
        self.heard = short.header.name
        self.met["cmpctblock: no work"] += not short.header.works
        lack, refused = self.give_headers([short.header])
        if refused == "F23 NoParent":
            self.ask_unknown("cmpctblock")
        if not lack:
            self.met[f"cmpctblock: {refused or 'known'}"] += 1
            self.land(self.heard)
            return
        self.rebuild(short, list(zip(places, (tx for _, tx in short.prefilled))))

    def rebuild(self, short, prefilled):
        """Rebuilds a block from its prefilled transactions and the pool."""
        self.questions += 1
        if len(set(short.ids)) < len(short.ids):
            self.met["cmpctblock: repeated ids"] += 1
            self.fall_back(short.header)
            return
        found = slots(short.ids, prefilled, self.shared.pairs(short.header.text, short.nonce))
        places = missing(found)
        if places:
            self.met["cmpctblock: places missing"] += 1
            self.met["cmpctblock: another partial one's place"] += self.partial is not None
            self.met["cmpctblock: places missing, in flight"] += short.header.name in self.flight
            self.partial = Partial(short.header, found)
            self.out.append(wire.getblocktxn(short.header.name, differences(places)))
            return
        self.met["cmpctblock: rebuilt at once"] += 1
        self.met["cmpctblock: rebuilt at once of the pool"] += bool(short.ids)
        self.complete(short.header, found)

    def told_blocktxn(self, told):
        name, txs = told
        partial = self.partial
        if partial is None or partial.header.name != name:
            self.met["blocktxn: nobody asked" if partial is None else "blocktxn: of another block"] += 1
            return
        self.partial = None
        places = missing(partial.slots)
        if len(txs) != len(places):
            self.met["blocktxn: wrong count"] += 1
            raise Closed("BadMessage")
        self.met["blocktxn: as many as are missing"] += 1
        rest = iter(txs)
        self.complete(partial.header, [next(rest) if tx is None else tx for tx in partial.slots])

    def complete(self, header, txs):
        """Gives the block of all these transactions to the hall, or asks for the right one."""
        if not is_sound(header, txs):
            self.met["a wrong list"] += 1
            self.fall_back(header)
            return
        self.land(header.name)
        refused = self.give_block(whole(header, txs))
        self.met["rebuilt: taken" if refused == "-" else f"rebuilt: {refused}"] += 1

    def fall_back(self, header):
        """Asks for a block whole, or keeps it in mind where too many others are in flight."""
        name = header.name
        if name not in self.flight and len(self.flight) == MOST_FLIGHT:
            self.met["fallback: later"] += 1
            self.met["fallback: later, wanted already"] += name in self.wanted
            self.met["fallback: no room"] += name not in self.wanted and len(self.wanted) == MOST_WANTED
            self.want(name, header.prev)
            return
        self.met["fallback: in flight" if name in self.flight else "fallback: wanted" if name in self.wanted else "fallback"] += 1
        self.flight += [name] * (name not in self.flight)
        self.out.append(wire.entries(b"getdata", [(BLOCK, name)]))

    # ---- at the end of an item

    def end(self):
        if not self.flight and self.wanted:
            need = [name for _, name in self.needed([(BLOCK, name) for name in self.wanted])]
            self.flight, self.wanted = need[:MOST_FLIGHT], need[MOST_FLIGHT:]
            if self.flight:
                is_near = self.shared.is_near(need)
                kind = COMPACT if self.capable and is_near else BLOCK
                self.met["asked for: compact"] += kind == COMPACT
                self.met["asked for: whole, near"] += kind == BLOCK and is_near
                self.met["asked for: whole of a capable peer"] += kind == BLOCK and self.capable
                self.out.append(wire.entries(b"getdata", [(kind, name) for name in self.flight]))
        self.resume()
        self.news()

    def resume(self):
        """Asks for the headers behind the one that is remembered, once nothing is wanted."""
        if self.resume_from is not None and not self.wanted:
            self.met["asked again"] += 1
            self.out.append(wire.getheaders([self.resume_from]))
            self.resume_from = None

    def news(self):
        self.questions += 1
        tip = self.shared.tip()
        path, txids = self.shared.news(self.told, self.next)
        txids = [name for name in txids if name != self.brought]
        high = self.connection in self.shared.announcers
        self.told, self.next = tip, self.shared.next
        if path and tip != self.heard:
            self.tell_tip(tip, path)
        self.met["transactions that aren't told"] += bool(txids) and not self.relay
        if txids and self.relay:
            self.out.append(wire.entries(b"inv", [(TX, name) for name in txids]))
        if self.capable and high != self.asked_high:
            self.met[f"the peer is asked for compact blocks: {'unasked' if high else 'asked for'}"] += 1
            self.out.append(wire.sendcmpct(high, 1))
            self.asked_high = high

    def tell_tip(self, tip, path):
        """Tells a new tip: as a compact block, by headers, or by its hash."""
        if self.wants_high and len(path) == 1:
            self.met["told: compact"] += 1
            self.out.append(self.made_compact(self.shared.kept(tip)))
        elif self.by_headers and len(path) <= ANNOUNCED:
            self.met["told: headers"] += 1
            self.met["told: headers, of several"] += len(path) > 1
            self.met["told: headers, of eight"] += len(path) == ANNOUNCED
            self.out.append(wire.headers([self.shared.chain.headers[name].text for name in path]))
        else:
            self.met["told: hash"] += 1
            self.met["told: hash, of many"] += len(path) > ANNOUNCED
            self.out.append(wire.entries(b"inv", [(BLOCK, tip)]))


def item_of(front, payload):
    """The item of a message."""
    name = wire.command_of(front, payload)
    if name not in wire.READERS:
        return ("damaged" if name is None else "unknown",)
    try:
        return "good", name, wire.read(name, payload)
    except Fault:
        return ("bad",)


class Line:
    """The bytes of one connection, and the session that they are for."""

    def __init__(self, session):
        self.session, self.stream = session, wire.Stream()

    def hear(self, piece):
        """What is answered to more bytes, item by item."""
        self.stream.add(piece)
        try:
            while message := self.stream.next():
                yield self.session.item(item_of(*message))
        except Fault:
            raise Closed("BadStream") from None


def serve(reader, writer, session):
    """Serves a connection from its bytes, and returns why it ended."""
    writer.write(session.opening())
    line = Line(session)
    try:
        while True:
            piece = reader.read1(65_536)
            if not piece:
                raise Closed("Bye")
            for told in line.hear(piece):
                writer.write(told)
                writer.flush()
    except Closed as closed:
        return str(closed)


if __name__ == "__main__":  # python3 -m bench.models.plain_session serves a connection on standard input and output, as `cbrelay serve` does
    ended = serve(sys.stdin.buffer, sys.stdout.buffer, PlainSession(Settings(), Shared()))
    print("closed", ended, file=sys.stderr)
    sys.exit(0 if ended == "Bye" else 3)
