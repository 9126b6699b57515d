"""A plain chain: which headers and blocks it takes, and what is its best block, by the rules in docs/PROTOCOL.md.

It was written apart from the program. It keeps what came, and finds what is unspent, and the best block where it changes, anew.
"""

from bench.tools.basics import GENESIS


def connected(unspent, block):
    """The fault of a block over what is unspent, which is changed."""
    for tx in block.txs:
        worth = 0
        for point in tx.spent:
            if point not in unspent:
                return "F19 NoInput"
            worth += unspent.pop(point)
        if tx.spent and sum(tx.values) > worth:
            return "F21 Overspent"
        for point, value in zip(tx.points(), tx.values):
            if point in unspent:
                return "F22 Remade"
            unspent[point] = value
    return None


class PlainChain:
    """The headers that are known by their names, the blocks that are kept in the order in which they came, and the marks."""

    def __init__(self):
        self.headers = {}
        self.heights = {GENESIS: 0}
        self.kept = {}
        self.marked = set()
        self.best = GENESIS

    def is_known(self, name):
        return name == GENESIS or name in self.headers

    def has_block(self, name):
        return name == GENESIS or name in self.kept

    def way(self, name):
        """The names from the first block's up to this one."""
        way = [name]
        while way[-1] != GENESIS:
            way.append(self.headers[way[-1]].prev)
        return way[::-1]

    def height(self, name):
        return self.heights[name]

    def add(self, header):
        self.headers[header.name] = header
        self.heights[header.name] = self.heights[header.prev] + 1

    def unspent(self, name):
        """What is unspent after a kept block, or the first block on its way that can't be connected, and why."""
        unspent = {}
        for step in self.way(name)[1:]:
            fault = connected(unspent, self.kept[step])
            if fault:
                return None, (step, fault)
        return unspent, None

    def tip(self):
        return self.best

    def found(self):
        """The highest block that can be connected, and of equals the one that came first."""
        for name in sorted(self.kept, key=self.height, reverse=True):
            if name not in self.marked and self.unspent(name)[0] is not None:
                return name
        return GENESIS

    def fault_on(self, parent, block):
        if not self.is_known(parent):
            return "F23 NoParent"
        if parent in self.marked:
            return "F24 BadParent"
        if block and not self.has_block(parent):
            return "F23 NoParent"
        return None

    def take_header(self, header):
        fault = self.fault_of(header, False)
        if fault is None:
            self.add(header)
        return fault or "taken"

    def fault_of(self, header, block):
        """The fault of a header, or of the header of a block that is given."""
        if not header.works:
            return "F11 BadWork"
        if header.name in self.marked:
            return "F24 BadParent"
        if self.has_block(header.name) if block else self.is_known(header.name):
            return "F18 Known"
        return self.fault_on(header.prev, block)

    def take_block(self, block):
        """The fault, or what went off and what came on."""
        fault = self.fault_of(block.header, True)
        if fault:
            return fault
        name, old = block.header.name, self.tip()
        self.add(block.header)
        fault = block.fault()
        if fault:
            self.marked.add(name)
            return fault
        self.kept[name] = block
        if self.height(name) <= self.height(old):
            return [], []
        first = self.unspent(name)[1]
        if first:
            self.marked |= {above for above in self.kept if first[0] in self.way(above)}
            return first[1]
        self.best = self.found()
        one, other = self.way(old), self.way(name)
        return [step for step in reversed(one) if step not in other], [step for step in other if step not in one]

    def locator(self):
        best = self.way(self.tip())
        heights, height, step = [], len(best) - 1, 1
        while height > 0:
            heights.append(height)
            if len(heights) >= 12:
                step *= 2
            height -= step
        return [best[height] for height in heights + [0]]

    def after(self, locator, stop):
        best = self.way(self.tip())
        start = next((name for name in locator if name in best), GENESIS)
        names = best[best.index(start) + 1:]
        return names[:names.index(stop) + 1 if stop in names else None][:2_000]

    def path(self, name):
        if not self.is_known(name):
            return []
        way = self.way(name)
        return [step for step in self.way(self.tip()) if step not in way]
