#!/usr/bin/python3
"""Drives processes `cbrelay node` by JSON-RPC: /usr/bin/python3 bench/looks/node_rpc.py [PROGRAM] [--only LOOK]

It needs the program, Linux, curl, and Debian's package python3-bitcoinlib, which
that python3 finds. The client is the library's `bitcoin.rpc.Proxy`, and the peers are the library's too: it knows nothing of this project.
It takes some ten seconds. --help tells the looks. The status is 0 where all came out so.
"""

import socket
import subprocess
import sys
import time
from concurrent.futures import ThreadPoolExecutor
from contextlib import contextmanager
from decimal import Decimal
from pathlib import Path

sys.path.insert(0, str(Path(__file__).resolve().parents[2]))

from bitcoin.core import CBlock, CBlockHeader, b2lx, b2x, lx, x
from bitcoin.rpc import JSONRPCError, Proxy

from bench.tools.library_peer import BITS, BLOCK, REGTEST_GENESIS, TARGET, TX, dialled, grown, spending
from bench.tools.process_talk import NodeProcess, ProcessLooks, closed_port
from bench.tools.programs import ROOT
from bench.tools.rpc_client import RpcClient

SECONDS, GENERATED, KEY = 60, 300, "me:secret"
GENESIS = b2lx(REGTEST_GENESIS)
# Calls that are refused, and the number of the error of each.
REFUSED = [
    ("nosuchmethod", [], -32601), ("getnewaddress", [], -32601), ("getblocktemplate", [], -32601), ("estimatesmartfee", [6], -32601),
    ("getblockhash", [], -1), ("getblockhash", [1, 2], -1), ("getblockhash", ["1"], -3), ("getblockhash", [1_000], -8), ("getblockhash", [-1], -8),
    ("getblock", ["00"], -8), ("getblock", ["11" * 32], -5), ("getblock", [GENESIS, 3], -8), ("getblock", [7], -3),
    ("getblockheader", ["11" * 32], -5), ("getblockheader", [GENESIS, "yes"], -3),
    ("getrawtransaction", ["11" * 32], -5), ("getrawtransaction", ["11" * 32, True, GENESIS], -5), ("getrawtransaction", ["11" * 32, True, "22" * 32], -5),
    ("getmempoolentry", ["11" * 32], -5), ("getmempoolentry", ["zz" * 32], -8), ("gettxout", ["11" * 32], -1), ("gettxout", ["11" * 32, "0"], -3),
    ("decoderawtransaction", ["00"], -22), ("decoderawtransaction", [1], -3), ("sendrawtransaction", ["zz"], -22), ("testmempoolaccept", [[]], -8),
    ("testmempoolaccept", [["00", "00"]], -8), ("testmempoolaccept", ["00"], -3), ("submitblock", ["00"], -22), ("submitheader", ["00"], -22),
    ("generate", [0], -8), ("generate", [1_001], -8), ("generate", ["1"], -3), ("generate", [], -1),
    ("addnode", ["127.0.0.1:1", "keep"], -8), ("addnode", ["localhost", "add"], -30), ("addnode", ["127.0.0.1:1", "remove"], -24), ("addnode", ["127.0.0.1:1"], -1),
    ("disconnectnode", ["127.0.0.1:1"], -29), ("disconnectnode", ["", 77], -29), ("setnetworkactive", ["on"], -3), ("setnetworkactive", [], -1),
    ("logging", ["loud"], -8), ("uptime", [1], -1), ("ping", [1], -1), ("stop", [1, 2], -1),
]
# Requests that are none, with the status of each and the number of its error.
UNREADABLE = {
    "no JSON": ("{", 500, -32700), "no object": ("7", 500, -32700), "no method": ({"id": 1}, 400, -32600),
    "a method that is a number": ({"method": 7}, 400, -32600),
    "parameters that are a text": ({"method": "uptime", "params": "x"}, 400, -32600),
    "an unknown name of a parameter": ({"method": "getblockhash", "params": {"hight": 0}}, 500, -8),
    "an unknown method": ({"method": "nosuch"}, 404, -32601),
    "nested too deep": ('{"method":"uptime","params":' + "[" * 100_000 + "]" * 100_000 + "}", 500, -32700),
}


class Refused(ValueError):
    """A call was refused."""

    def __init__(self, call, error):
        super().__init__(f"{call}: {error}")
        self.code = error["code"]


class Client:
    """The library's client, which counts its calls."""

    def __init__(self, port, key=KEY):
        self.port, self.key, self.calls = port, key, 0
        self.proxy = Proxy(f"http://{key}@127.0.0.1:{port}", timeout=SECONDS)

    def call(self, name, *params):
        """The result of a call."""
        self.calls += 1
        try:
            return self.proxy.call(name, *params)
        except JSONRPCError as fault:
            raise Refused(name, fault.error) from None

    def refused(self, name, *params):
        """The number of the error of a call; None if it isn't refused."""
        try:
            self.call(name, *params)
        except Refused as fault:
            return fault.code
        return None

    def ask(self, request):
        """The status and the value that answer the text of a request, or a value that is written as JSON."""
        with RpcClient(self.port, self.key) as client:
            answer = client.post(request)
            return answer.status, answer.json() if answer.body else None


def headed(block, root, worked):
    """A block's bytes with this Merkle root in its header, whose hash meets the target or doesn't."""
    for nonce in range(1_000):
        header = CBlockHeader(block.nVersion, block.hashPrevBlock, root, block.nTime, BITS, nonce)
        if (int.from_bytes(header.GetHash(), "little") <= TARGET) == worked:
            return header.serialize() + block.serialize()[80:]
    raise ValueError("no nonce")


def field_bits(header):
    """The bits of a header as they are told."""
    return f"{header.nBits:08x}"


def fields_of(tx):
    """What is told of a transaction, but for its block."""
    text = tx.serialize()
    inputs = [{"coinbase": b2x(one.scriptSig), "sequence": one.nSequence} if tx.is_coinbase() else
              {"txid": b2lx(one.prevout.hash), "vout": one.prevout.n, "scriptSig": {"hex": b2x(one.scriptSig)}, "sequence": one.nSequence} for one in tx.vin]
    outputs = [{"value": Decimal(one.nValue).scaleb(-8), "n": place, "scriptPubKey": {"hex": b2x(one.scriptPubKey)}} for place, one in enumerate(tx.vout)]
    name = b2lx(tx.GetTxid())
    return {"txid": name, "hash": name, "version": tx.nVersion, "size": len(text), "vsize": len(text), "weight": 4 * len(text), "locktime": tx.nLockTime,
            "vin": inputs, "vout": outputs}


class Rpc(ProcessLooks):
    """Nodes that a client of JSON-RPC drives."""

    @contextmanager
    def node(self, *words, key=KEY):
        """A node that answers requests, and a client of it."""
        port = closed_port()
        user, _, password = key.partition(":")
        with NodeProcess(self.program, "--rpc", f"127.0.0.1:{port}", "--rpc-user", user, "--rpc-password", password, *words) as node:
            node.peers_port = node.port
            yield node, Client(port, key)

    def stopped(self, node, client):
        """The node ends by `stop`, and its audit says yes."""
        self.look("stop", client.call("stop"), "cbrelay stopping")
        self.ended_so(node.rest())

    # ---- blocks

    def look_blocks_read_back(self):
        """300 blocks that the node generates: each is read back in three forms, and its header in two, beside what a peer gets for it."""
        with self.node("--no-input") as (node, client), dialled(node.peers_port, SECONDS) as peer:
            peer.shake_hands()
            names = client.call("generate", GENERATED)
            self.look("how many are generated", (len(names), client.call("getblockcount"), client.call("getbestblockhash")), (GENERATED, GENERATED, names[-1]))
            before = GENESIS
            for place in range(0, GENERATED, 16):
                peer.ask(BLOCK, *map(lx, names[place:place + 16]))
                for height, name in enumerate(names[place:place + 16], place + 1):
                    while (message := peer.receive()).command != b"block":
                        pass
                    self.read_back(client, name, height, before, message.block, GENERATED)
                    before = name
            self.look("at least 150 calls", client.calls >= 150, True)
            self.look("above the tip", client.refused("getblockhash", GENERATED + 1), -8)
            self.chain_told(client, names)
            self.stopped(node, client)

    def read_back(self, client, name, height, before, block, tip):
        """A block as the client tells it, beside the one that a peer got."""
        text, header = block.serialize(), block.serialize()[:80]
        self.look(f"the hash at {height}", client.call("getblockhash", height), name)
        self.look(f"block {height} in hex", client.call("getblock", name, 0), b2x(text))
        self.look(f"header {height} in hex", client.call("getblockheader", name, False), b2x(header))
        told, whole, brief = client.call("getblockheader", name), client.call("getblock", name, 2), client.call("getblock", name)
        wanted = {"hash": name, "confirmations": tip - height + 1, "height": height, "version": block.nVersion, "versionHex": f"{block.nVersion & 0xFFFFFFFF:08x}",
                  "merkleroot": b2lx(block.hashMerkleRoot), "time": block.nTime, "mediantime": told.get("mediantime"), "nonce": block.nNonce,
                  "bits": field_bits(block), "difficulty": Decimal("4.656542373906925E-10"), "chainwork": f"{2 * (height + 1):064x}", "nTx": len(block.vtx),
                  "previousblockhash": before, **({"nextblockhash": client.call("getblockhash", height + 1)} if height < tip else {})}
        self.look(f"header {height}", told, wanted)
        sizes = {"strippedsize": len(text), "size": len(text), "weight": 4 * len(text)}
        self.look(f"block {height} with txids", brief, {**wanted, **sizes, "tx": [b2lx(tx.GetTxid()) for tx in block.vtx]})
        self.look(f"block {height} with transactions", whole, {**wanted, **sizes, "tx": [{**fields_of(tx), "hex": b2x(tx.serialize())} for tx in block.vtx]})

    def chain_told(self, client, names):
        """Where the chain stands, and times."""
        times = [client.call("getblockheader", name)["time"] for name in names[-11:]]
        told = client.call("getblockchaininfo")
        self.look("the chain", {key: told[key] for key in ("chain", "blocks", "headers", "bestblockhash", "mediantime", "pruned", "initialblockdownload")},
                  {"chain": "regtest", "blocks": GENERATED, "headers": GENERATED, "bestblockhash": names[-1], "mediantime": sorted(times)[5], "pruned": False,
                   "initialblockdownload": False})
        self.look("the tips", client.call("getchaintips"), [{"height": GENERATED, "hash": names[-1], "branchlen": 0, "status": "active"}])

    def look_branches(self):
        """A branch that a peer tells becomes the best chain; what was the best one is told as a branch."""
        with self.node("--no-input") as (node, client), dialled(node.peers_port, SECONDS) as peer:
            old = client.call("generate", 2)
            peer.shake_hands()
            blocks = grown(REGTEST_GENESIS, 0, 3, b"branch")
            new = [b2lx(block.GetHash()) for block in blocks]
            peer.tell_headers(blocks)
            asked = [name for _, name in peer.asked()]
            self.look("a branch of headers alone", client.call("getchaintips"), [
                {"height": 3, "hash": new[-1], "branchlen": 3, "status": "headers-only"}, {"height": 2, "hash": old[-1], "branchlen": 0, "status": "active"}])
            self.look("more headers than blocks", [client.call("getblockchaininfo")[key] for key in ("blocks", "headers")], [2, 3])
            self.look("a block that isn't there", client.refused("getblock", new[-1]), -1)
            for name in asked:
                peer.give_block(next(block for block in blocks if block.GetHash() == name))
            self.comes("the branch", node, lambda: client.call("getbestblockhash") == new[-1])
            self.look("the tips", client.call("getchaintips"), [
                {"height": 3, "hash": new[-1], "branchlen": 0, "status": "active"}, {"height": 2, "hash": old[-1], "branchlen": 2, "status": "valid-fork"}])
            told = client.call("getblockheader", old[-1])
            self.look("what is on a branch", (told["confirmations"], "nextblockhash" in told, told["height"]), (-1, False, 2))
            self.look("the hash at 1", client.call("getblockhash", 1), new[0])
            self.stopped(node, client)

    def look_submitted(self):
        """Blocks and headers that a client hands in, and why they are refused. A header comes before its block."""
        with self.node("--no-input") as (node, client):
            first, second = grown(REGTEST_GENESIS, 0, 2, b"handed")
            give = lambda block: client.call("submitblock", b2x(block.serialize()))  # noqa: E731
            self.look("without its parent", give(second), "prev-blk-not-found")
            self.look("a header without its parent", client.refused("submitheader", b2x(second.serialize()[:80])), -25)
            self.look("a header", client.call("submitheader", b2x(first.serialize()[:80])), None)
            self.look("the tips", [(tip["height"], tip["status"]) for tip in client.call("getchaintips")], [(1, "headers-only"), (0, "active")])
            self.look("a header again", client.call("submitheader", b2x(first.serialize()[:80])), None)
            self.look("a block", give(first), None)
            self.look("it again", give(first), "duplicate")
            under = lambda root, wanted: client.call("submitblock", b2x(headed(second, root, wanted)))  # noqa: E731
            self.look("another root", under(b"\x11" * 32, True), "bad-txnmrklroot")
            self.look("without work", under(second.hashMerkleRoot, False), "high-hash")
            self.look("the next", (give(second), client.call("getbestblockhash")), (None, b2lx(second.GetHash())))
            self.stopped(node, client)

    # ---- transactions

    def look_transactions(self):
        """From a client to a peer, and from a peer to a client; what the mempool would take; outputs of the chain and of the mempool."""
        with self.node("--no-input") as (node, client), dialled(node.peers_port, SECONDS) as peer:
            peer.shake_hands()
            funds = CBlock.deserialize(x(client.call("getblock", client.call("generate", 1)[0], 0))).vtx[0]
            sent = spending(funds, 1_234)
            given = spending(sent, 66)
            name, after = b2lx(sent.GetTxid()), b2lx(given.GetTxid())
            size = len(sent.serialize())
            self.look("an output of the chain", self.output(client, funds), (1, Decimal(50), True))
            self.look("what would be taken", client.call("testmempoolaccept", [b2x(sent.serialize())]),
                      [{"txid": name, "wtxid": name, "allowed": True, "vsize": size, "fees": {"base": Decimal("0.00001234")}}])
            self.look("what wouldn't", client.call("testmempoolaccept", [b2x(given.serialize())]), [{"txid": after, "wtxid": after, "allowed": False, "reject-reason": "missing-inputs"}])
            self.look("without its input", client.refused("sendrawtransaction", b2x(given.serialize())), -25)
            self.look("sent", client.call("sendrawtransaction", b2x(sent.serialize())), name)
            self.look("sent again", client.call("sendrawtransaction", b2x(sent.serialize())), name)
            self.look("what the peer is told", self.told_tx(peer), lx(name))
            peer.ask(TX, lx(name))
            self.look("what the peer gets", peer.expect(b"tx").tx.serialize(), sent.serialize())
            peer.give_tx(given)
            self.comes("the peer's", node, lambda: after in client.call("getrawmempool"))
            self.mempool_told(client, sent, given)
            self.look("worth more than its inputs", client.refused("sendrawtransaction", b2x(spending(given, -1).serialize())), -26)
            block = client.call("generate", 1)[0]
            self.look("mined", (client.call("getrawmempool"), client.call("getblock", block)["tx"][1:]), ([], [name, after]))
            self.look("one that a block has", client.call("getrawtransaction", name, False, block), b2x(sent.serialize()))
            told = client.call("getrawtransaction", name, True, block)
            self.look("its block", [told[key] for key in ("in_active_chain", "blockhash", "confirmations")], [True, block, 1])
            self.look("no index", client.refused("getrawtransaction", name), -5)
            self.look("spent again", client.refused("sendrawtransaction", b2x(sent.serialize())), -25)
            self.stopped(node, client)

    def output(self, client, tx, *pool):
        """What is told of a transaction's first output: confirmations, value, whether a coinbase made it."""
        told = client.call("gettxout", b2lx(tx.GetTxid()), 0, *pool)
        return told and (told["confirmations"], told["value"], told["coinbase"])

    def told_tx(self, peer):
        """The first transaction of which the peer is told."""
        while True:
            for kind, name in peer.told():
                if kind == TX:
                    return name

    def mempool_told(self, client, sent, given):
        """The mempool with two transactions, the second of which spends the first."""
        name, after = b2lx(sent.GetTxid()), b2lx(given.GetTxid())
        sizes = [len(tx.serialize()) for tx in (sent, given)]
        self.look("its txids", client.call("getrawmempool"), [name, after])
        entry = lambda size, txid, fee, depends, spent: {"vsize": size, "weight": 4 * size, "wtxid": txid, "fees": {"base": Decimal(fee), "modified": Decimal(fee)},  # noqa: E731
                                                         "depends": depends, "spentby": spent, "bip125-replaceable": False, "unbroadcast": False}
        wanted = {name: entry(sizes[0], name, "0.00001234", [], [after]), after: entry(sizes[1], after, "0.00000066", [name], [])}
        self.look("its entries", client.call("getrawmempool", True), wanted)
        self.look("an entry", client.call("getmempoolentry", after), wanted[after])
        told = client.call("getmempoolinfo")
        self.look("its size", (told["size"], told["bytes"], told["total_fee"]), (2, sum(sizes), Decimal("0.00001300")))
        self.look("one in hex", client.call("getrawtransaction", after), b2x(given.serialize()))
        self.look("one as fields", client.call("getrawtransaction", after, True), {**fields_of(given), "hex": b2x(given.serialize())})
        self.look("decoded", client.call("decoderawtransaction", b2x(given.serialize())), fields_of(given))
        self.look("an output of the mempool", self.output(client, given), (0, Decimal(given.vout[0].nValue).scaleb(-8), False))
        self.look("one that the mempool spends", (self.output(client, sent), self.output(client, given, False)), (None, None))

    # ---- requests

    def look_errors(self):
        """Each number of an error, what a request lacks, and batches."""
        with self.node("--no-input") as (node, client):
            for name, params, code in REFUSED:
                self.look(f"{name} {params}", client.refused(name, *params), code)
            for what, (request, *wanted) in UNREADABLE.items():
                self.look(what, self.shape(client.ask(request)), tuple(wanted))
            self.batches(client)
            self.stopped(node, client)

    @staticmethod
    def shape(answer):
        """The status of an answer, and the number of its error."""
        return answer[0], answer[1]["error"]["code"]

    def batches(self, client):
        """Lists of requests, and both forms."""
        asked = [{"method": "getblockhash", "params": {"height": 0}, "id": "a"}, {"jsonrpc": "2.0", "method": "nosuch", "id": [1]},
                 {"jsonrpc": "2.0", "method": "getblockcount"}, 7, {"method": "getblockcount", "params": None, "id": None}]
        status, told = client.ask(asked)
        self.look("a list", (status, len(told)), (200, 4))
        self.look("the first", told[0], {"result": GENESIS, "error": None, "id": "a"})
        self.look("the second", (told[1]["id"], told[1]["error"]["code"], sorted(told[1])), ([1], -32601, ["error", "id", "jsonrpc"]))
        self.look("the third", (told[2]["id"], told[2]["result"]), (None, None))
        self.look("the fourth", told[3], {"result": 0, "error": None, "id": None})
        self.look("an empty list", client.ask([]), (200, []))
        self.look("2.0", client.ask({"jsonrpc": "2.0", "method": "getblockcount", "id": 5}), (200, {"jsonrpc": "2.0", "result": 0, "id": 5}))
        self.look("2.0 without an id", client.ask({"jsonrpc": "2.0", "method": "getblockcount"}), (204, None))
        self.look("2.0, refused", self.shape(client.ask({"jsonrpc": "2.0", "method": "nosuch", "id": 5})), (200, -32601))

    # ---- peers

    def look_links(self):
        """What is told of peers, links that are made and undone, the network that is switched off and on."""
        with self.node("--no-input") as (node, client), self.node("--no-input") as (other, second):
            address = f"127.0.0.1:{other.peers_port}"
            count = lambda: client.call("getconnectioncount")  # noqa: E731
            self.look("add", client.call("addnode", address, "add"), None)
            self.look("add again", client.refused("addnode", address, "add"), -23)
            self.comes("the link", node, lambda: count() == 1 and [peer["startingheight"] for peer in client.call("getpeerinfo")] == [0])
            told, of_it = client.call("getpeerinfo")[0], second.call("getpeerinfo")[0]
            self.look("the peer", [told[key] for key in ("addr", "inbound", "version", "subver")], [address, False, 70014, "/cbrelay:1/"])
            self.look("what it tells", (of_it["inbound"], of_it["subver"]), (True, "/cbrelay:1/"))
            network = client.call("getnetworkinfo")
            self.look("the network", [network[key] for key in ("networkactive", "connections", "connections_in", "connections_out")], [True, 1, 0, 1])
            self.look("ping", client.call("ping"), None)
            self.comes("a pong", node, lambda: "pingtime" in client.call("getpeerinfo")[0])
            totals = client.call("getnettotals")
            self.look("the totals", totals["totalbytesrecv"] > 100 < totals["totalbytessent"] and abs(totals["timemillis"] / 1_000 - time.time()) < 60, True)
            self.look("a block", len(client.call("generate", 1)), 1)
            self.comes("it there", other, lambda: second.call("getblockcount") == 1)
            self.look("disconnected by its number", second.call("disconnectnode", "", of_it["id"]), None)
            self.comes("the end", other, lambda: all(peer["id"] != of_it["id"] for peer in second.call("getpeerinfo")))
            self.comes("dialled again", node, lambda: count() == 1)
            self.look("off", (client.call("setnetworkactive", False), client.refused("addnode", "127.0.0.1:1", "onetry")), (False, -9))
            self.comes("no connections", node, lambda: count() == 0)
            self.look("on", client.call("setnetworkactive", True), True)
            self.comes("dialled again", node, lambda: count() == 1)
            self.look("remove", client.call("addnode", address, "remove"), None)
            self.comes("no link", node, lambda: count() == 0)
            self.look("onetry", client.call("addnode", address, "onetry"), None)
            self.comes("one link", node, lambda: count() == 1)
            self.look("disconnected by its address", client.call("disconnectnode", address), None)
            self.comes("no link again", node, lambda: count() == 0)
            time.sleep(1.5)
            self.look("it isn't dialled again", count(), 0)
            self.stopped(node, client)
            self.stopped(other, second)

    def look_crowds(self):
        """100 clients at once, while a peer hands blocks over and pings."""
        blocks = grown(REGTEST_GENESIS, 0, 32, b"crowd")
        with self.node("--no-input") as (node, client), dialled(node.peers_port, SECONDS) as peer, ThreadPoolExecutor(100) as crowd:
            peer.shake_hands()
            began = time.monotonic()
            counts = [crowd.submit(self.counted, client.port) for _ in range(100)]
            peer.hand_over(blocks)
            pings = sorted(self.pinged(peer, nonce) for nonce in range(50))
            self.look("calls that were answered", sum(count.result() for count in counts), 1_000)
            self.tell(f"1,000 calls of 100 clients took {time.monotonic() - began:.1f} s; a peer's ping meanwhile {pings[25] * 1_000:.1f} ms, at most {pings[-1] * 1_000:.0f}")
            self.look("the peer's blocks", client.call("getbestblockhash"), b2lx(blocks[-1].GetHash()))
            self.stopped(node, client)

    @staticmethod
    def counted(port):
        """How many of a client's calls are answered by a height."""
        client = Client(port)
        return sum(client.call("getblockcount") <= 32 for _ in range(10))

    def pinged(self, peer, nonce):
        """How many seconds a ping takes."""
        began = time.monotonic()
        self.look("a pong", peer.ping(nonce), nonce)
        return time.monotonic() - began

    # ---- the program

    def look_ways_to_end(self):
        """`stop` ends a node that reads no input, and one that waits for a line, each with its audit; `quit` ends one that answers
        requests, too."""
        with self.node() as (node, client):
            self.look("an operator's line", node.say("mine").split()[:2], ["mined", "1"])
            self.look("the same chain", client.call("getblockcount"), 1)
            self.look("a level", (client.call("logging", "debug"), client.call("logging")), ("debug", "debug"))
            self.look("help", ("getblockcount" in client.call("help"), client.call("help", "getblockhash")), (True, "getblockhash height"))
            self.look("help of nothing", client.call("help", "nosuch"), "help: unknown command")
            self.look("uptime", client.call("uptime") < 60, True)
            self.stopped(node, client)
        with self.node() as (node, client):
            self.look("a call", client.call("getblockcount"), 0)
            self.ends(node, "quit")
        with self.node(key="a:p\"w\\:ü") as (node, client):
            self.look("a password with signs", client.call("getblockcount"), 0)
            self.ends(node)

    def look_words(self):
        """Words that are refused, and ports that others have."""
        key = ["--rpc-user", "u", "--rpc-password", "p"]
        for words in (["--rpc", "127.0.0.1:1"], ["--rpc", "127.0.0.1:1", *key[:2]], ["--rpc", "0.0.0.0:1", *key], ["--no-input"]):
            status, printed, errors = self.ran("node", "--listen", "127.0.0.1:0", *words)
            self.look(f"{words}", (status, printed, errors.startswith("error: ")), (3, "", True))
        with socket.create_server(("127.0.0.1", 0)) as taken:
            address = f"127.0.0.1:{taken.getsockname()[1]}"
            status, printed, errors = self.ran("node", "--listen", "127.0.0.1:0", "--rpc", address, *key)
            self.look("a port that is taken", (status, printed, f"error: can't listen at {address}: " in errors), (3, "", True))

    def look_document(self):
        """The commands of docs/RPC.md, at another port, print what stands below them."""
        lines = Path(ROOT, "docs/RPC.md").read_text(encoding="utf-8").splitlines()
        with self.node("--no-input") as (node, client):
            ran = 0
            for place, line in enumerate(lines):
                if line.startswith("    $ "):
                    command = line.removeprefix("    $ ").replace(":18443", f":{client.port}")
                    told = subprocess.run(["sh", "-c", command], capture_output=True, text=True, timeout=SECONDS, check=False).stdout
                    self.look(line.strip(), told, f"{lines[place + 1].strip()}\n")
                    ran += 1
            self.look("commands", ran >= 3, True)
            self.stopped(node, client)


if __name__ == "__main__":
    sys.exit(Rpc.main(__doc__))
