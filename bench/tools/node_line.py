"""Processes `cbrelay node` in a line, each of which dialled the one before it, and a peer at both ends."""

import time
from contextlib import ExitStack

from bench.models import plain_wire as wire
from bench.models.plain_compact import differences
from bench.tools.between import Between
from bench.tools.plain_peer import dialled
from bench.tools.process_talk import NodeProcess

# For how many seconds nothing is moved where nodes have nothing to do: more than two ticks.
QUIET = 0.25
PATIENCE = 60


class NodeLine:
    """Processes in a line at their defaults, but for these words. Between two of them all may be counted, over a link that may be slow."""

    def __init__(self, program, count, *words, counts=False, rate=None):
        self.stack, self.nodes, self.links, self.ports = ExitStack(), [], [], []
        address = None
        for _ in range(count):
            if address and counts:
                self.links.append(self.stack.enter_context(Between(address, rate)))
                address = self.links[-1].address
            dials = ["--connect", address] if address else []
            self.nodes.append(self.stack.enter_context(NodeProcess(program, *dials, *words, seconds=PATIENCE)))
            address = self.nodes[-1].at
            self.ports.append(int(address.rpartition(":")[2]))

    def __enter__(self):
        try:
            self.until(self.is_linked, "the line isn't linked")
        except BaseException:
            self.stack.close()
            raise
        return self

    def __exit__(self, *_):
        self.stack.close()

    def until(self, holds, otherwise):
        """Waits until this holds."""
        if not self.nodes[0].until(holds):
            raise TimeoutError(otherwise)

    def is_linked(self):
        """Whether each has a peer that it dialled, but for the first one."""
        return all(any((peer.way, peer.phase) == ("to", "ready") for peer in node.peers()) for node in self.nodes[1:])

    def have_tip(self, tip):
        """Whether this is the tip of each."""
        return all(node.tip() == tip for node in self.nodes)

    def computed(self):
        """For how many seconds their threads have had a processor, all together."""
        return sum(node.computed() for node in self.nodes)

    def rest(self):
        """Waits until they have nothing to do."""
        end, before = time.monotonic() + PATIENCE, None
        while time.monotonic() < end:
            now = [node.say("stats").partition(" connections ")[2] for node in self.nodes]
            if now == before:
                return
            before = now
            time.sleep(QUIET)
        raise TimeoutError("the line doesn't rest")

    def peer(self, place, *further):
        """A peer of one of them, behind its handshake."""
        peer = self.stack.enter_context(dialled(self.ports[place], PATIENCE))
        peer.shake_hands(*further)
        return peer

    def ends(self):
        """A peer of the first, which knows compact blocks, and one of the last, which wants them unasked."""
        return self.peer(0, wire.sendcmpct(0, 1)), self.peer(-1, wire.sendcmpct(1, 1))


def places_asked(block, missing):
    """The request for these places of a block, and its answer."""
    texts = [block.txs[place].text for place in missing]
    return wire.getblocktxn(block.header.name, differences(list(missing))), wire.blocktxn(block.header.name, texts)


def short_told(peer, header):
    """Waits until a peer is told this header by a compact block."""
    while True:
        name, payload = peer.receive_payload()
        if name == "cmpctblock" and payload[:80] == header:
            return
