"""A peer whose messages are those of a Bitcoin client library: Debian's python3-bitcoinlib, which knows nothing of this project.

What it doesn't know (`sendheaders`, `sendcmpct`) it passes over. Its own `headers` leaves out the count behind each header. So here they are
written and read as blocks without transactions, by the library's own reader and writer of blocks.
"""

import contextlib
import io
import select
from collections import Counter

import bitcoin
import bitcoin.messages
from bitcoin.core import (CBlock, CBlockHeader, CMutableTransaction, CMutableTxIn, CMutableTxOut, COutPoint, CTransaction, VectorSerializer, lx,
                          uint256_from_str)
from bitcoin.core.script import OP_TRUE, CScript
from bitcoin.messages import MsgSerializable, msg_block, msg_getdata, msg_getheaders, msg_inv, msg_ping, msg_tx, msg_verack, msg_version
from bitcoin.net import CInv

from bench.tools.process_talk import connected

bitcoin.SelectParams("regtest")

# regtest's bits, the target that they stand for, and the subsidy
BITS, TARGET, SUBSIDY = 0x207F_FFFF, 0x7F_FFFF << (8 * 29), 5_000_000_000
VERSION, NONCE, TX, BLOCK = 70014, 0x1B2A, 1, 2
TIME, MOST_HEADERS = 1_296_688_602, 2_000
REGTEST_GENESIS = lx("0f9188f13cb7b2c71f2a335e3a4fc328bf5beb436012afca590b1a11466e2206")
AGENT = b"/python-bitcoinlib/"


class Unexpected(ValueError):
    """The node sent something else than was to come."""


class Headers(MsgSerializable):
    """`headers`, whose members are blocks without transactions."""

    command = b"headers"

    def __init__(self, protover=VERSION):
        super().__init__(protover)
        self.headers = []

    @classmethod
    def msg_deser(cls, f, protover=VERSION):
        told = cls(protover)
        told.headers = VectorSerializer.stream_deserialize(CBlock, f)
        return told

    def msg_ser(self, f):
        VectorSerializer.stream_serialize(CBlock, self.headers, f)


bitcoin.messages.messagemap[Headers.command] = Headers


class LibraryPeer:
    """A connection on which messages are the library's own."""

    def __init__(self, stream):
        self.socket, self.file = stream, stream.makefile("rb")

    def __enter__(self):
        return self

    def __exit__(self, *_):
        self.file.close()
        self.socket.close()

    def send(self, message):
        self.socket.sendall(message.to_bytes())

    def receive(self):
        """The next message that the library knows."""
        while True:
            with contextlib.redirect_stdout(io.StringIO()):
                message = MsgSerializable.stream_deserialize(self.file)
            if message is not None:
                return message

    def has_more(self, seconds):
        """Whether something has come, or comes within so many seconds."""
        return self.holds() or bool(select.select([self.socket], [], [], seconds)[0])

    def holds(self):
        """Whether something has come."""
        patience = self.socket.gettimeout()
        self.socket.setblocking(False)
        held = self.file.peek(1)
        self.socket.settimeout(patience)
        return bool(held)

    def expect(self, command):
        """The next message, which has this command. A getheaders before it is passed over where another command is wanted."""
        message = self.receive()
        while message.command == b"getheaders" != command:
            message = self.receive()
        if message.command != command:
            raise Unexpected(f"{message.command} for {command}")
        return message

    # ---- what a peer says

    def greet(self, agent=AGENT, height=-1, relay=True):
        """The version that it tells, with whether it wants to be told of transactions."""
        hello = msg_version()
        hello.nVersion, hello.nNonce, hello.strSubVer, hello.nStartingHeight, hello.fRelay = VERSION, NONCE, agent, height, relay
        self.send(hello)

    def shake_hands(self, agent=AGENT, height=-1, relay=True):
        """The handshake. The node's version and the hashes behind which it asks for headers come back."""
        self.greet(agent, height, relay)
        version = self.expect(b"version")
        self.expect(b"verack")
        self.send(msg_verack())
        return version, self.expect(b"getheaders").locator.vHave

    def shake_hands_back(self):
        """The rest of the handshake, where the node dialled and told its version first. The hashes behind which it asks for headers come back."""
        self.greet()
        self.expect(b"verack")
        self.send(msg_verack())
        return self.expect(b"getheaders").locator.vHave

    def ping(self, nonce):
        """The nonce of the answer to a ping."""
        told = msg_ping()
        told.nonce = nonce
        self.send(told)
        return self.expect(b"pong").nonce

    def tell(self, kind, *names):
        """Tells of blocks or transactions."""
        told = msg_inv()
        told.inv = [entry_of(kind, name) for name in names]
        self.send(told)

    def ask(self, kind, *names):
        """Asks for blocks or transactions."""
        told = msg_getdata()
        told.inv = [entry_of(kind, name) for name in names]
        self.send(told)

    def asked(self):
        """For what the node asks: pairs of a kind and a name."""
        return [(entry.type, entry.hash) for entry in self.expect(b"getdata").inv]

    def told(self):
        """Of what the node tells."""
        return [(entry.type, entry.hash) for entry in self.expect(b"inv").inv]

    def ask_headers(self, *names):
        """Asks for the headers behind the first of these that the node knows."""
        request = msg_getheaders()
        request.locator.nVersion, request.locator.vHave = VERSION, list(names)
        self.send(request)

    def headers_behind(self, *names):
        """The headers that the node has behind the first of these that it knows."""
        self.ask_headers(*names)
        return self.expect(b"headers").headers

    def hand_over(self, blocks):
        """Tells the headers of blocks, and gives what is asked for, until all are given. How many were asked for at once comes back."""
        by_name, counts = {block.GetHash(): block for block in blocks}, []
        self.tell_headers(blocks)
        while sum(counts) < len(blocks):
            asked = self.asked()
            if {kind for kind, _ in asked} != {BLOCK}:
                raise Unexpected(f"{asked} for blocks")
            for _, name in asked:
                self.give_block(by_name[name])
            counts.append(len(asked))
        return counts

    def tell_headers(self, blocks):
        told = Headers()
        told.headers = [bare(block) for block in blocks]
        self.send(told)

    def give_block(self, block):
        told = msg_block()
        told.block = block
        self.send(told)

    def give_tx(self, tx):
        told = msg_tx()
        told.tx = tx
        self.send(told)


def dialled(port, seconds, host="127.0.0.1"):
    """A peer that dialled a node on this machine, from this address."""
    return LibraryPeer(connected(port, seconds, host))


class Offering:
    """A chain that a peer offers. It answers each request for headers and blocks, and counts what it is asked for and what it tells."""

    def __init__(self, peer, blocks=()):
        self.peer, self.kept, self.asked, self.headers, self.questions, self.given, self.last = peer, {}, Counter(), 0, 0, 0, None
        self.turn_to(blocks)

    def turn_to(self, blocks):
        """From now on this is its best chain. It keeps the blocks of the other."""
        self.blocks, self.places = list(blocks), {block.GetHash(): place for place, block in enumerate(blocks)}
        self.kept.update({block.GetHash(): block for block in blocks})

    def tell(self, blocks):
        self.headers += len(blocks)
        self.peer.tell_headers(blocks)

    def after(self, locator):
        """The blocks behind the first hash that is on its chain, or behind the first block of all, at most 2,000."""
        start = next((self.places[name] + 1 for name in locator if name in self.places), 0)
        return self.blocks[start : start + MOST_HEADERS]

    def answer(self):
        """Answers one message."""
        message = self.peer.receive()
        if message.command == b"getheaders":
            self.questions += 1
            self.tell(self.after(message.locator.vHave))
        elif message.command == b"getdata":
            for entry in message.inv:
                self.asked[entry.hash] += 1
                self.peer.give_block(self.kept[entry.hash])
                self.given, self.last = self.given + 1, entry.hash


def entry_of(kind, name):
    entry = CInv()
    entry.type, entry.hash = kind, name
    return entry


def bare(block):
    """A block without its transactions."""
    return CBlock(block.nVersion, block.hashPrevBlock, block.hashMerkleRoot, block.nTime, block.nBits, block.nNonce)


def mined(parent, height, txs=(), mark=b"library", value=SUBSIDY):
    """A block at this height on that parent: a coinbase of this value, and these transactions."""
    coinbase = CMutableTransaction([CMutableTxIn(COutPoint(), CScript([height, mark]))], [CMutableTxOut(value, CScript([OP_TRUE]))])
    txs = [CTransaction.from_tx(coinbase), *txs]
    root = CBlock(vtx=txs).calc_merkle_root()
    for nonce in range(1_000):
        header = CBlockHeader(1, parent, root, TIME + height, BITS, nonce)
        if uint256_from_str(header.GetHash()) <= TARGET:
            return CBlock(1, parent, root, TIME + height, BITS, nonce, txs)
    raise ValueError("no nonce")


def grown(parent, height, count, mark):
    """So many blocks on a block at this height."""
    blocks = []
    for step in range(count):
        blocks.append(mined(blocks[-1].GetHash() if blocks else parent, height + step + 1, mark=mark))
    return blocks


def spending(tx, fee):
    """A transaction that spends another's first output but for a fee."""
    point = COutPoint(tx.GetTxid(), 0)
    return CTransaction.from_tx(CMutableTransaction([CMutableTxIn(point)], [CMutableTxOut(tx.vout[0].nValue - fee, CScript([OP_TRUE]))]))
