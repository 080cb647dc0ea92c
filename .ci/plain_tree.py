"""Trees and what is kept of them, for the Python program."""

from typing import NamedTuple

GREATEST = 2**63 - 1  # the greatest id
NO_END = 2**64 - 1  # the open end of an interval
ROOT = 1  # the object of each root directory


class Content(NamedTuple):
    """The bytes of a file: its size, and what was done to it, each an offset with bytes, or a size."""
    size: int = 0
    edits: tuple = ()

    def written(self, offset, data):
        return Content(max(self.size, offset + len(data)), self.edits + ((offset, data),))

    def resized(self, size):
        return Content(size, self.edits + ((size, None),))

    def read(self, offset, count):
        """At most `count` bytes up to the end. What was never written, or was cut off, is zero."""
        window = bytearray(max(0, min(count, self.size - offset)))
        for start, data in self.edits:
            at = max(start - offset, 0)
            if data is None:
                window[at:] = bytes(len(window[at:]))
            else:
                piece = data[max(offset - start, 0):][:max(len(window) - at, 0)]
                window[at:at + len(piece)] = piece
        return bytes(window)


class Object(NamedTuple):
    number: int
    kind: str  # d, f, l, or p for a link to a PFS
    content: object = None  # the content of a file, the target of a softlink, the PFS of a link
    links: int = 1


class Tree(NamedTuple):
    """Objects by their numbers, and the numbers of objects by directory and name."""
    objects: dict
    names: dict

    def entries(self, directory):
        return {name: obj for (parent, name), obj in self.names.items() if parent == directory}

    def put(self, obj):
        return self._replace(objects=self.objects | {obj.number: obj})

    def named(self, directory, name, number):
        return self._replace(names=self.names | {(directory, name): number})

    def unnamed(self, directory, name):
        return self._replace(names={key: obj for key, obj in self.names.items() if key != (directory, name)})

    def without(self, number):
        return self._replace(objects={key: obj for key, obj in self.objects.items() if key != number})

    def unlinked(self, directory, name):
        """The name removed, the object with one link less, and the object removed at none."""
        obj = self.objects[self.names[directory, name]]
        tree = self.unnamed(directory, name)
        return tree.put(obj._replace(links=obj.links - 1)) if obj.links > 1 else tree.without(obj.number)


NO_TREE = Tree({}, {})
ROOT_TREE = NO_TREE.put(Object(ROOT, 'd'))


# ---- what is kept

class Kept(NamedTuple):
    """A set of ids: some, and all from one on, where there is such an open end."""
    ids: frozenset = frozenset()
    since: int = None

    def keeps(self, as_of):
        return as_of in self.ids or self.since is not None and as_of >= self.since

    def cut(self, listed, start):
        """The listed ids and all from `start` on, of those that are kept."""
        some = {i for i in listed if self.keeps(i)} | {i for i in self.ids if i >= start}
        since = None if self.since is None else max(self.since, start)
        return Kept(frozenset(i for i in some if since is None or i < since), since)

    def join(self, other, begin, end):
        """With what another one keeps from `begin` + 1 to `end`."""
        return Kept(self.ids | {i for i in range(begin + 1, end + 1) if other.keeps(i)}, self.since)

    def opened(self):
        """With an open end of the last interval."""
        last = max(self.ids)
        return Kept(self.ids - {last}, last)

    def pairs(self):
        """The first and the last id of each interval, adjacent ones together; an open end is `NO_END`."""
        pairs = []
        for first, last in [(i, i) for i in sorted(self.ids)] + [(self.since, NO_END)] * (self.since is not None):
            if pairs and pairs[-1][1] == first - 1:
                first = pairs.pop()[0]
            pairs.append((first, last))
        return pairs

    def intervals(self):
        return len(self.pairs())


MASTER_KEEPS = Kept(since=1)


class System(NamedTuple):
    """A PFS. Its versions are pairs of a first id and a tree."""
    number: int
    master: bool
    shared: int
    kept: Kept
    versions: tuple
    sync_end: int = 0
    source: tuple = None  # ('local', number), ('foreign', name), or MIXED
    clear: bool = True

    def at(self, as_of):
        """The tree of the last version whose first id is not above the id."""
        return next((tree for first, tree in reversed(self.versions) if first <= as_of), NO_TREE)

    def now(self):
        """A master shows the last id, a slave its sync end."""
        return self.at(GREATEST if self.master else self.sync_end)


MIXED = 'mixed', None


class Stream(NamedTuple):
    """What a `mirror-read` sends. A stream that is cut or bad has the ending that it leads to."""
    shared: int
    begin: int
    end: int
    versions: tuple
    kept: Kept
    source: str  # a name for the master, or None where nobody answers for the stream
    clear: bool = True
    fault: str = None
    begun: bool = True  # its first item is whole


NO_STREAM = Stream(0, 0, 0, (), Kept(), None, False, 'stream short 0', False)
