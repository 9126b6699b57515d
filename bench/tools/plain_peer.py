"""A peer that talks to a process `cbrelay node` by bench's plain reader and writer of messages."""

import select

from bench.models import plain_wire as wire
from bench.models.plain_compact import differences, indexes, key_of, missing, short_id, slots
from bench.tools.basics import envelope
from bench.tools.process_talk import connected

NONCE = 0x5EED
HELLO = wire.version(NONCE) + envelope(b"verack", b"")
# What a node tells by itself after a handshake.
USUAL = ("sendheaders", "sendcmpct", "getheaders")


class PlainPeer:
    """A connection to a node."""

    def __init__(self, stream):
        self.stream, self.messages = stream, wire.Stream()

    def __enter__(self):
        return self

    def __exit__(self, *_):
        self.stream.close()

    def send(self, *messages):
        self.stream.sendall(b"".join(messages))

    def more(self):
        """Takes what has come. Fails at the stream's end."""
        piece = self.stream.recv(1 << 20)
        if not piece:
            raise ValueError(f"the node ended the connection; {len(self.messages.left())} bytes are held")
        self.messages.add(piece)

    def receive(self):
        """The next message: its name and its value."""
        name, payload = self.receive_payload()
        return name, wire.read(name, payload)

    def receive_payload(self):
        """The next message: its name and its payload."""
        while not (message := self.messages.next()):
            self.more()
        name = wire.command_of(*message)
        if name is None:
            raise ValueError(f"a damaged {message[0][4:16]}")
        return name, message[1]

    def expect(self, wanted, passed=USUAL):
        """The value of the next message, which has this name. Those before it that have one of these names are passed over."""
        name, value = self.receive()
        while name != wanted and name in passed:
            name, value = self.receive()
        if name != wanted:
            raise ValueError(f"{name} for {wanted}")
        return value

    def is_quiet(self, seconds):
        """Whether nothing comes for so long."""
        return not self.messages.left() and not select.select([self.stream], [], [], seconds)[0]

    def pass_over(self):
        """Passes over all that has come."""
        while not self.is_quiet(0):
            self.receive_payload()

    def shake_hands(self, *further):
        """The handshake, and further messages behind it."""
        self.send(HELLO, *further)
        self.expect("verack", ("version",))

    def pinged(self, nonce, passed=USUAL):
        """A ping, whose pong comes behind all that was answered before."""
        self.send(wire.ping(nonce))
        return self.expect("pong", passed) == nonce

    # ---- compact blocks (BIP 152)

    def hand_over(self, blocks):
        """Tells the headers of blocks, and gives what is asked for, until all are given."""
        by_name, given = {block.header.name: block for block in blocks}, 0
        self.send(wire.headers([block.header.text for block in blocks]))
        while given < len(blocks):
            asked = self.expect("getdata")
            if {kind for kind, _ in asked} != {wire.BLOCK}:
                raise ValueError(f"{asked} for blocks")
            self.send(*(wire.block(by_name[name].text) for _, name in asked))
            given += len(asked)

    def announce(self, block, nonce, ids=None):
        """A block as a compact one, whose coinbase is whole. The bytes of the payload come back."""
        message = wire.cmpctblock(block.header.text, nonce, ids or wire.short_ids(block, nonce), [(0, block.txs[0].text)])
        self.send(message)
        return len(message) - 24

    def asked_places(self, block):
        """For which places of a block the node asks, None where it asks for another block's."""
        name, steps = self.expect("getblocktxn", (*USUAL, "inv"))
        return indexes(steps, len(block.txs)) if name == block.header.name else None

    def rebuilt(self, short, known):
        """The texts of a compact block's transactions, of which these are known and the others are asked for. How many those were comes back too."""
        key = key_of(short.header.text, short.nonce)
        whole = dict(zip(indexes([step for step, _ in short.prefilled], len(short.ids) + len(short.prefilled)),
                         (tx.text for _, tx in short.prefilled)))
        found = slots(short.ids, whole.items(), [(short_id(key, tx.name), tx.text) for tx in known])
        places = missing(found)
        if places:
            self.send(wire.getblocktxn(short.header.name, differences(places)))
            _, txs = self.expect("blocktxn")
            for place, tx in zip(places, txs, strict=True):
                found[place] = tx.text
        return found, len(places)


def dialled(port, seconds=60):
    """A peer that dialled a node on this machine."""
    return PlainPeer(connected(port, seconds))
