"""The elements of a volume, read from its bytes by docs/FORMAT.md, and what is to be so of them.

The volume was left by a run that ended with status 0, so that all is committed and its header names no entry of
the log.
"""

import struct
from collections import Counter, namedtuple

from volume import BIGBLOCK, BYTES, OPEN, PAGE, RECORD, SLOT, Disk, counting_slot, expect, log_begin, number_in

# An element: its key as a tuple, its ids, its kind of object, and where its payload stands.
Element = namedtuple('Element', 'key create delete kind place length')
Extent = namedtuple('Extent', 'at length zone references')

# A key is localization, object, type, key and create id, and a place of a node has them and more in this order: object, key,
# create id, delete id, type, kind of object, whether it is an element, localization; then an offset and a number.
PLACE = struct.Struct('<QQQQHBBIQQ')
LEAST, GREATEST = (0,) * 5, (2**32 - 1, OPEN, 2**16 - 1, OPEN, OPEN)
META, LARGE, SMALL = 9, 10, 11  # zones


def rounded(length):
    return -(-length // 16) * 16


class Elements:
    """All elements of a volume, its nodes, and what its freemap says."""

    def __init__(self, what, path):
        self.what, self.disk = what, Disk.of(path)
        self.header = self.disk.read(SLOT * counting_slot(self.disk), SLOT)
        self.bigblocks, self.root = number_in(self.header, 12, 4), number_in(self.header, 32, 8)
        self.last = number_in(self.header, 24, 8)
        self.filling = [number_in(self.header, at, 4) for at in (56, 60, 64, 68)]
        self.pool = range(log_begin(self.bigblocks) + 8, self.bigblocks)
        # All elements, and the byte at which the place of each one begins in its leaf.
        self.nodes, self.elements, self.stands = [], [], []
        self.walk(self.root, None, LEAST, GREATEST, None)

    def expect(self, what, came, wanted):
        expect(f'{self.what}: {what}', came, wanted)

    # ---- the tree

    def walk(self, place, level, first, end, mirror):
        """Reads a node and what is below it: its level, boundaries and mirror as the place that leads to it has them."""
        self.nodes.append(place)
        node = self.disk.read(place % 2**52, PAGE)
        self.expect(f'the level of node {place:#x}', node[1], level or node[1])
        own = number_in(node, 8, 8)
        self.expect(f'the mirror of node {place:#x}', own, own if mirror is None else mirror)
        places = [PLACE.unpack_from(node, 64 + 64 * i) for i in range(number_in(node, 2, 2) + (node[1] > 1))]
        keys = [(local, obj, kind, key, create) for obj, key, create, _, kind, _, _, local, _, _ in places]
        self.expect(f'the order in node {place:#x}', all(a < b for a, b in zip(keys, keys[1:])), True)
        is_leaf = node[1] == 1
        inside = not keys or (first <= keys[0] and keys[-1] < end if is_leaf else (keys[0], keys[-1]) == (first, end))
        self.expect(f'the boundaries of node {place:#x}', inside, True)
        if is_leaf:
            # A length has 4 bytes, and zeros behind it.
            found = [Element(key, key[4], one[3], one[5], one[8], one[9]) for one, key in zip(places, keys)]
            self.elements += found
            self.stands += [place % 2**52 + 64 + 64 * i for i in range(len(found))]
            above = [e for e in found if own < max(e.create, e.delete)]
            self.expect(f'elements with an id above the mirror of leaf {place:#x}', above[:3], [])
            self.expect(f'elements with other ids in leaf {place:#x}', [e for e in found if not self.has_ids(e)][:3], [])
            return
        for i, one in enumerate(places[:-1]):
            self.expect(f'the mirror of place {i} of node {place:#x} is at most that of the node', one[9] <= own, True)
            self.walk(one[8], node[1] - 1, keys[i], keys[i + 1], one[9])

    def has_ids(self, element):
        """Whether the ids of an element were drawn, the one that closed it after the one that made it."""
        return 0 < element.create <= self.last and (element.delete == 0 or element.create < element.delete <= self.last)

    # ---- what is kept

    def payload(self, element):
        return self.disk.read(element.place % 2**52, element.length)

    def contents(self):
        """All that is to stay of the elements, wherever their payloads stand."""
        return [(e.key, e.delete, e.kind, self.payload(e)) for e in self.elements]

    def kept(self):
        """What each PFS keeps, by its record: pairs of a first and a last id."""
        found = {}
        for element in self.elements:
            if element.key[2] == RECORD and element.delete == 0:
                record = self.payload(element)
                ends = [number_in(record, 32 + 8 * i, 8) for i in range(2 * number_in(record, 24, 4))]
                found[element.key[3]] = list(zip(ends[::2], ends[1::2]))
        return found

    def check_kept(self, wanted):
        """Each record keeps what it should, and nothing is left that is dead for it: an element that no kept id sees,
        and that was made by one that is kept, or before."""
        kept = self.kept()
        self.expect('what is kept', kept, wanted)
        dead = [e for e in self.elements if e.delete and self.is_dead(e, kept[e.key[0] >> 16])]
        self.expect('what is dead', dead[:3], [])

    def is_dead(self, element, pairs):
        seen = any(first < element.delete and element.create <= last for first, last in pairs)
        return not seen and any(element.create <= last for _, last in pairs)

    # ---- space

    def extents(self):
        """All extents: nodes, and payloads with how many elements refer to each."""
        counts = Counter((element.place, rounded(element.length)) for element in self.elements)
        counts.update((place, PAGE) for place in self.nodes)
        return [Extent(place % 2**52, length, place >> 60, count) for (place, length), count in sorted(counts.items())]

    def sparse(self, fill):
        """The big-blocks that a reblock chooses: those of the pool that no zone fills, and of which something is in use,
        but less than so many hundredths."""
        used = Counter()
        for extent in self.extents():
            used[extent.at // BIGBLOCK] += extent.length * extent.references
        return [block for block in used if block not in self.filling and 100 * used[block] < fill * BIGBLOCK]

    def check_emptied(self, chosen):
        """Nothing stands any more in these big-blocks, but in those that a zone fills anew."""
        left = [extent for extent in self.extents() if extent.at // BIGBLOCK in set(chosen) - set(self.filling)]
        self.expect('what is left in big-blocks that a reblock chose', left[:3], [])

    def zone_of(self, element):
        if element.key[2] != BYTES:
            return META
        return LARGE if element.length >= 16_384 else SMALL

    def check_space(self):
        """Extents overlap nowhere and stand in their zones, and the freemap counts what is free. How many big-blocks are
        free: those of the pool that no zone fills, and in which nothing is."""
        extents = sorted(self.extents())
        free = {block: BIGBLOCK for block in self.pool}
        entries = {block: self.disk.read(2 * BIGBLOCK + 16 * block, 16) for block in self.pool}
        self.expect('elements in other zones', [e for e in self.elements if e.place >> 60 != self.zone_of(e)][:3], [])
        overlaps = [pair for pair in zip(extents, extents[1:]) if pair[0].at + pair[0].length > pair[1].at]
        self.expect('extents that overlap', overlaps[:3], [])
        zones = {block: entry[0] for block, entry in entries.items()}
        filled = {block: number_in(entry, 4, 4) for block, entry in entries.items()}
        astray = []
        for extent in extents:
            block, begin = divmod(extent.at, BIGBLOCK)
            if zones.get(block) != extent.zone or begin + extent.length > filled[block]:
                astray.append(extent)
            free[block] = free.get(block, BIGBLOCK) - extent.length * extent.references
        self.expect('extents where their zone has filled nothing', astray[:3], [])
        for block in self.pool:
            told = int.from_bytes(entries[block][8:12], 'little', signed=True)
            self.expect(f'the free bytes of big-block {block}', told, free[block])
        return sum(free[block] == BIGBLOCK and block not in self.filling for block in self.pool)
