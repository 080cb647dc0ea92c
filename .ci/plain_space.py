"""Space, for the Python program: how many big-blocks are free, as far as calls alone tell it.

A zone begins a free big-block where the one that it is filling has less room left than its reserve.
What a call puts into zone 10 and 11 follows from the rule that a block is written anew as a whole. What
it puts into the other zones depends on the tree, so each count is kept as the least and the most that
it may be. Where the two would decide differently, or something becomes free or moves, the space is `open`:
then the free big-blocks are known by a bound alone, and once something moved not even by that (`unbound`).
"""

import re

BIGBLOCK = 8_388_608
BLOCK = 16_384
LAYER2 = 524_288  # big-blocks that one of layer 2 tells of
RESERVE = {8: 1_048_576, 9: 131_072, 10: 131_072, 11: 131_072}
NODE = 4_096
ELEMENT = 280  # bytes of nodes for an element, at the most: each node but the root has 16 at least
INODE, ENTRY, TARGET, RECORD = 32, 272, 1_024, 48  # bytes of payloads in zone 9, at the most


def rounded(count):
    return -(-count // 16) * 16


class Space:
    def __init__(self, bigblocks):
        # Headers and layer 1 have a big-block each, and the log has 8; the rest is the pool. One of
        # its big-blocks is begun for each zone.
        self.pool = bigblocks - 2 - -(-bigblocks // LAYER2) - 8
        self.free = self.at_mounting = self.pool - 4
        self.filled = {zone: (0, 0) for zone in RESERVE} | {8: (NODE, 3 * NODE)}
        self.open = self.unbound = False

    def mount(self):
        self.at_mounting = None if self.open else self.free

    def floor(self, calls):
        """The free big-blocks after so many calls of a run, at the least."""
        if self.unbound or self.at_mounting is None:
            return 0
        return max(0, self.at_mounting - 4 - calls // 8 - 3 * (calls // 64))

    def lacks(self, zones, held, calls, told):
        """What is lacking for a call in these zones, which begins big-blocks where it lacks nothing."""
        needed = []
        for zone in zones:
            least, most = (BIGBLOCK - filled < RESERVE[zone] for filled in self.filled[zone])
            self.open |= least != most
            needed += [zone] * least
        if self.open:
            return self.may_lack(len(zones), held, calls, told)
        # No space exactly where more are needed than are free beside those that are held back.
        if needed and len(needed) > max(0, self.free - held):
            return f'no space {self.free} {len(needed)}'
        for zone in needed:
            self.filled[zone] = (0, 0)
            self.free -= 1
        return None

    def may_lack(self, zones, held, calls, told):
        """Where the space is open, what was told of so many zones is taken if it may be."""
        words = re.fullmatch(r'no space (\d+) (\d+)', told or '')
        if words:
            free, needed = int(words[1]), int(words[2])
            if (1 <= needed <= zones and needed > max(0, free - held)
                    and self.floor(calls) <= free <= self.pool):
                return told
        return None

    def told_free(self, calls, told):
        """Where the space is open: the free big-blocks that are told, or the nearest that may be."""
        words = re.fullmatch(r'ok \d+ (\d+)', told or '')
        return min(max(int(words[1]), self.floor(calls)), self.pool) if words else None

    def put(self, zone, least, most):
        self.filled[zone] = self.filled[zone][0] + least, self.filled[zone][1] + most

    def put_names(self):
        """A call on names: two inodes, an entry, a target and a record at the most."""
        self.put(8, 0, 5 * ELEMENT)
        self.put(9, 0, 2 * INODE + ENTRY + TARGET + RECORD)

    def put_bytes(self, first, end, old, new):
        """The blocks of a file with bytes from `first` to `end`, which had a size and has another."""
        blocks = range(first - first % BLOCK, end, BLOCK)
        # An inode, and an element for each block and for the one at the old end.
        self.put(8, 0, (2 + len(blocks)) * ELEMENT)
        self.put(9, 0, INODE)
        for begin in blocks:
            # A block that is written ends where the file does, or as a whole.
            length = min(BLOCK, new - begin)
            if length == BLOCK:
                self.put(10, BLOCK, BLOCK)
            else:
                self.put(11, rounded(length), rounded(length))
        # Whether the block at the old end is written too, where the file grows past it or is cut
        # inside a block, does not follow from the call.
        if old % BLOCK and old < first - first % BLOCK or new < old:
            self.put(10, 0, BLOCK)
            self.put(11, 0, BLOCK)
