#!/usr/bin/env python3
"""hammer in plain Python: what the program has to answer, by the rules and not by its code.

`plain.py --bigblocks N < SCRIPT` prints what `hammer` prints for the script on a new volume of so many
big-blocks; `plain.py --bigblocks N SCRIPT..` does so for several runs on one volume. With `--served`
the forms that are planned, and lanes, are bad lines, as in the program today.

Each past tree is kept whole: a pseudo file system (PFS) is a list of trees by the ids that made them,
and what it keeps is a set of ids. No element, node or page stands here. Each call is one function with
its checks in their order, each below the sentence that it follows.

A word is left open, and printed as `*`, where the calls before do not tell it:
- the free big-blocks of `df`, once something may have become free or have moved, or a count of bytes
  comes near the edge of a big-block (plain_space.py), and then whether a change or a reblock finds space;
- the durable id of `progress`, after changes that no `sync` has followed;
- whether a `mirror-copy` with a LIMIT above 1 is cut, since items are pieces of a tree, unless the limit
  is above any number of items, and each reply after that;
- all replies from the first walk on that enters a PFS whose trees nobody knows.
Lines with lanes are answered in the order of the script, which is one of the orders that may be.
"""

import argparse
import sys
from pathlib import Path

sys.dont_write_bytecode = True
from plain_checks import OPEN, History, Refused, id_text
from plain_tree import (
    GREATEST, MASTER_KEEPS, MIXED, NO_STREAM, ROOT_TREE, Content, Kept, Object, Stream, System,
)

LARGEST_FILE = 15_728_640
MOST_LINKS = 2**32 - 1
MOST_INTERVALS = 4_096
MOST_SYSTEMS = 65_536
NAME_ZONES, BYTE_ZONES = (8, 9), (8, 9, 10, 11)


def named_id(text):
    """The id at the first `@@0x` with 16 hexadecimal digits behind it."""
    for at in range(len(text)):
        if text.startswith(b'@@0x', at):
            digits = text[at + 4:at + 20]
            if len(digits) == 16 and all(digit in b'0123456789abcdefABCDEF' for digit in digits):
                return int(digits, 16)
    return None


class Volume(History):
    """A volume with its whole history, and its calls."""

    # ---- calls on names

    def is_new(self, new):
        """Exists: there is something under the name that the call would make."""
        if (new.number, new.name) in new.tree.names:
            raise Refused('exists')

    def make(self, kind, content=None):
        new, = self.places
        self.is_new(new)
        return self.made(new, kind, content)

    def made(self, new, kind, content):
        self.has_hash_left(new)
        self.has_space(NAME_ZONES, held=4)
        self.space.put_names()
        # The number of a new object is the id of the call that makes it.
        tree = new.tree.put(Object(self.id, kind, content)).named(new.number, new.name, self.id)
        return self.change(new.system, tree)

    def mkdir(self):
        return self.make('d')

    def touch(self):
        return self.make('f', Content())

    def symlink(self, target):
        return self.make('l', target)

    def snapshot(self):
        # The target names the id before the call's own.
        return self.make('l', b'@@' + id_text(self.id - 1).encode())

    def ln(self):
        old, new = self.places
        obj = old.obj()
        # Is a directory: a directory or a PFS link. Not a file: a softlink.
        if obj.kind in 'dp':
            raise Refused('is a directory')
        if obj.kind == 'l':
            raise Refused('not a file')
        # Crosses a PFS: the new name would stand in another one.
        if old.system != new.system:
            raise Refused('crosses a pfs')
        self.is_new(new)
        # Too big: the object has 4,294,967,295 links.
        if obj.links == MOST_LINKS:
            raise Refused('too big')
        self.has_hash_left(new)
        self.has_space(NAME_ZONES, held=4)
        self.space.put_names()
        tree = new.tree.put(obj._replace(links=obj.links + 1)).named(new.number, new.name, obj.number)
        return self.change(new.system, tree)

    def rm(self):
        path, = self.places
        obj = path.obj()
        # Is a directory: a directory or a PFS link.
        if obj.kind in 'dp':
            raise Refused('is a directory')
        # A file with another name gets an inode; nothing is held back from it.
        if obj.links > 1:
            self.has_space(NAME_ZONES, held=0)
            self.space.put_names()
        return self.change(path.system, path.tree.unlinked(path.directory, path.name))

    def rmdir(self):
        path, = self.places
        # Not a directory, then not empty.
        if path.obj().kind != 'd':
            raise Refused('not a directory')
        if path.tree.entries(path.number):
            raise Refused('not empty')
        return self.change(path.system, path.tree.unlinked(path.directory, path.name))

    def mv(self):
        old, new = self.places
        moved = old.obj()
        there = new.tree.objects.get(new.tree.names.get((new.number, new.name)))
        if old.system != new.system:
            raise Refused('crosses a pfs')
        # Into itself: the moved object is on the walk of the new path. Its end is on it too.
        if (old.system, moved.number) in new.passed + ((new.system, new.number),):
            raise Refused('into itself')
        # Where the new name means the same object, nothing changes.
        if there and there.number == moved.number:
            return self.change(new.system, new.tree)
        # Exists: but a file or softlink gives way, unless a directory is moved.
        if there and (there.kind not in 'fl' or moved.kind == 'd'):
            raise Refused('exists')
        self.has_hash_left(new)
        self.has_space(NAME_ZONES, held=4)
        self.space.put_names()
        tree = new.tree.unlinked(new.number, new.name) if there else new.tree
        tree = tree.unnamed(old.directory, old.name).named(new.number, new.name, moved.number)
        return self.change(new.system, tree)

    def ls(self):
        path, = self.places
        if path.obj().kind != 'd':
            raise Refused('not a directory')
        # The names in the order of their bytes.
        names = sorted(path.tree.entries(path.number).items())
        shown = [f' {path.tree.objects[obj].kind}:{name.decode("latin-1")}' for name, obj in names]
        return f'ok {len(names)}' + ''.join(shown)

    def stat(self):
        path, = self.places
        obj = path.obj()
        # The size of a directory is its number of entries, of a softlink the length of its target, and
        # of a PFS link the number of its PFS.
        size = {'d': lambda: len(path.tree.entries(obj.number)), 'f': lambda: obj.content.size,
                'l': lambda: len(obj.content), 'p': lambda: obj.content}[obj.kind]()
        return f'ok {obj.kind} {id_text(obj.number)} {size} {obj.links}'

    def readlink(self):
        obj = self.places[0].obj()
        if obj.kind == 'l':
            return 'ok ' + obj.content.decode('latin-1')
        if obj.kind == 'p':
            # The PFS as it is now, also in the past: -1 for a master, and for one that there is not.
            system = self.systems.get(obj.content)
            end = '-1' if system is None or system.master else id_text(system.sync_end)
            return f'ok @@{end}:{obj.content:05}'
        raise Refused('not a link')

    # ---- calls on bytes

    def file(self):
        """Is a directory, then not a file: a softlink."""
        path, = self.places
        if path.obj().kind in 'dp':
            raise Refused('is a directory')
        if path.obj().kind == 'l':
            raise Refused('not a file')
        return path, path.obj()

    def write(self, offset, data):
        path, obj = self.file()
        # Too big: the write would end behind the largest file.
        if offset + len(data) > LARGEST_FILE:
            raise Refused('too big')
        content = obj.content.written(offset, data)
        self.has_space(BYTE_ZONES, held=4)
        self.space.put_bytes(offset, offset + len(data), obj.content.size, content.size)
        return self.change(path.system, path.tree.put(obj._replace(content=content)))

    def fill(self, offset, count, byte):
        return self.write(offset, bytes([byte]) * count)

    def truncate(self, size):
        path, obj = self.file()
        # Too big: the size is above that of the largest file.
        if size > LARGEST_FILE:
            raise Refused('too big')
        # To the size that it has it needs no space.
        if size != obj.content.size:
            self.has_space(BYTE_ZONES, held=4)
            self.space.put_bytes(size, size, obj.content.size, size)
        return self.change(path.system, path.tree.put(obj._replace(content=obj.content.resized(size))))

    def cat(self, offset, count):
        _, obj = self.file()
        data = obj.content.read(offset, count)
        return f'ok {len(data)}' + (f' {data.hex()}' if data else '')

    # ---- the disk

    def df(self):
        # How many big-blocks the pool has, and how many of them are free.
        free = self.space.told_free(self.calls, self.told) if self.space.open else self.space.free
        return f'ok {self.space.pool} {OPEN if free is None else free}'

    def sync(self):
        # It waits until the boundary, the last id that is on the disk, is no earlier than the last id as it
        # began. No other call goes on meanwhile, so that is the boundary then.
        self.boundary = self.last
        return 'ok'

    def synctid(self):
        self.sync()
        return f'ok {id_text(self.boundary)}'

    def reblock(self, *_):
        # It changes no view, and moves what a call cannot tell.
        self.space.open = self.space.unbound = True
        return 'ok'

    # ---- what is kept

    def prune(self):
        path, = self.places
        if path.obj().kind != 'd':
            raise Refused('not a directory')
        system = self.systems[path.system]
        # The ids that the softlinks of the directory name, but for those above the one that is shown:
        # the call's own for a master, the sync end for a slave.
        shown = self.id if system.master else system.sync_end
        objects = [path.tree.objects[number] for number in path.tree.entries(path.number).values()]
        ids = [named_id(obj.content) for obj in objects if obj.kind == 'l']
        ids = [as_of for as_of in ids if as_of is not None and as_of <= shown]
        # No snapshots: no id is left.
        if not ids:
            raise Refused('no snapshots')
        return self.cut(system, ids, max(ids))

    def prune_everything(self):
        system = self.systems[self.places[0].system]
        # A master keeps all from the call's own id on, a slave its sync end alone.
        if system.master:
            return self.cut(system, [], self.id)
        return self.cut(system, [system.sync_end], GREATEST + 1)

    def cut(self, system, ids, start):
        kept = system.kept.cut(ids, start)
        # Too many intervals, then no space.
        if kept.intervals() > MOST_INTERVALS:
            raise Refused(f'too many intervals {min(kept.intervals(), 2**32 - 1)}')
        self.has_space(NAME_ZONES, held=0)
        # The opening makes the cut. What no kept id sees is removed then, and big-blocks may be free.
        self.systems[system.number] = system._replace(kept=kept)
        self.space.open = True
        return 'ok'

    def done(self, *_):
        return 'done'

    # ---- pseudo file systems

    def pfs_master(self, shared):
        return self.make_system(True, shared)

    def pfs_slave(self, shared):
        return self.make_system(False, shared)

    def make_system(self, master, shared):
        new, = self.places
        self.is_new(new)
        # PFS full: all 65,536 numbers are used.
        number = next((i for i in range(MOST_SYSTEMS) if i not in self.systems), None)
        if number is None:
            raise Refused('pfs full')
        self.made(new, 'p', number)
        # A master begins with its root and keeps all ids from 1 on, a slave has and keeps nothing.
        versions = ((self.id, ROOT_TREE),) if master else ()
        self.systems[number] = System(number, master, shared, MASTER_KEEPS if master else Kept(), versions)
        return f'ok {number:05}'

    def pfs_status(self):
        system = self.systems[self.places[0].system]
        role = 'master' if system.master else 'slave'
        end = '' if system.master else f' {id_text(system.sync_end)}'
        return f'ok {role} {system.number:05} {system.shared:016x} {system.kept.intervals()}{end}'

    def pfs_upgrade(self):
        system = self.systems[self.places[0].system]
        # Not a slave, then not found: no pass has come to its end yet.
        if system.master:
            raise Refused('not a slave')
        if system.sync_end == 0:
            raise Refused('not found')
        return 'ok'

    def upgraded(self, *_):
        """A master as of the sync end, whose last interval has an open end."""
        system = self.systems[self.places[0].system]
        versions = tuple(version for version in system.versions if version[0] <= system.sync_end)
        self.systems[system.number] = system._replace(
            master=True, versions=versions, sync_end=0, kept=system.kept.opened())
        return 'done'

    # ---- mirroring

    def mirror_read(self, _):
        # Not a master.
        if not self.systems[self.places[0].system].master:
            raise Refused('not a master')
        return 'ok'

    def sent(self, opened, _, begin):
        """The stream goes to its file, from the given id to the boundary, which is the opening id."""
        self.boundary = opened
        if self.streams_out is None:
            self.faults_out += 1
            return f'stream fault {self.faults_out - 1} {self.faults_out}'
        master = self.systems[self.places[0].system]
        self.streams_out.append(Stream(master.shared, begin, opened, master.versions, master.kept,
                                       f'{id(self)}:{master.number}', master.clear))
        return f'done {id_text(begin)} {id_text(opened)}'

    def feed(self, slave, source):
        """A slave's source is the first one that feeds it, and mixed once there is another."""
        source = source if slave.source in (None, source) else MIXED
        self.systems[slave.number] = slave._replace(source=source)

    def mirror_write(self):
        slave = self.systems[self.places[0].system]
        # Not a slave.
        if slave.master:
            raise Refused('not a slave')
        # A source without a file is at its end.
        self.stream = self.streams_in.pop(0) if self.streams_in else NO_STREAM
        self.fed = slave.source
        self.feed(slave, ('foreign', self.stream.source) if self.stream.source else MIXED)
        self.space.open = self.space.unbound = True
        return 'ok'

    def received(self, *_):
        """The ending of a `mirror-write`."""
        slave, stream = self.systems[self.places[0].system], self.stream
        fault = stream.fault if not stream.begun else self.differs(slave, stream)
        if fault:
            # Nothing was merged: the source is again what it was.
            self.systems[slave.number] = slave._replace(source=self.fed)
            return fault
        return stream.fault or self.passed(slave, stream)

    def differs(self, slave, stream):
        """How a stream's begin is none for a slave: its shared id first, then its begin id."""
        if stream.shared != slave.shared:
            return f'shared differs {slave.shared:016x} {stream.shared:016x}'
        if stream.begin != slave.sync_end:
            return f'begin differs {id_text(slave.sync_end)} {id_text(stream.begin)}'
        return None

    def mirror_copy(self, *_):
        master, slave = (self.systems[place.system] for place in self.places)
        # Not a master, then not a slave, then shared ids that differ.
        if not master.master:
            raise Refused('not a master')
        if slave.master:
            raise Refused('not a slave')
        if slave.shared != master.shared:
            raise Refused(f'shared differs {slave.shared:016x} {master.shared:016x}')
        self.feed(slave, ('local', master.number))
        self.space.open = self.space.unbound = True
        return 'ok'

    def copied(self, opened, _, __, limit=None):
        """The ending of a `mirror-copy`, which brings the slave to the boundary, the opening id."""
        master, slave = (self.systems[place.system] for place in self.places)
        self.boundary = opened
        # Cut: as many items as the limit says were merged, and the last one is not next. A stream
        # begins with an item of its own, and a tree has more than one.
        if limit is not None:
            most = 2 + 16 * (1 + len(master.versions))
            if limit == 1 or limit <= most and self.told.startswith('cut'):
                return f'cut {limit}'
            if limit <= most and not self.told:
                self.lost = True
                return OPEN
        return self.passed(slave, Stream(master.shared, slave.sync_end, opened, master.versions, master.kept,
                                         'here', master.clear))

    def passed(self, slave, stream):
        """A pass that came to its end: the slave shows its master up to the stream's end."""
        begin, end = stream.begin, stream.end
        kept = slave.kept.join(stream.kept, begin, end)
        if kept.intervals() > MOST_INTERVALS:
            return f'too many intervals {kept.intervals()}'
        # Its versions up to the begin id, then the master's tree after it, then the master's to the end.
        versions = [version for version in slave.versions if version[0] <= begin]
        master = System(0, True, 0, stream.kept, stream.versions)
        versions.append((begin + 1, master.at(begin + 1)))
        versions += [version for version in stream.versions if begin + 2 <= version[0] <= end]
        clear = slave.clear and slave.source != MIXED and stream.clear
        self.systems[slave.number] = slave._replace(
            kept=kept, versions=tuple(versions), sync_end=end, clear=clear)
        # The last id is at least the end.
        self.last = max(self.last, end)
        return f'done {id_text(begin)} {id_text(end)}'

    COMMANDS = {
        'mkdir': mkdir, 'touch': touch, 'symlink': symlink, 'snapshot': snapshot, 'ln': ln, 'rm': rm,
        'rmdir': rmdir, 'mv': mv, 'ls': ls, 'stat': stat, 'readlink': readlink, 'write': write, 'fill': fill,
        'truncate': truncate, 'cat': cat, 'df': df, 'sync': sync, 'synctid': synctid, 'reblock': reblock,
        'prune': prune, 'prune-everything': prune_everything, 'pfs-master': pfs_master,
        'pfs-slave': pfs_slave, 'pfs-status': pfs_status, 'pfs-upgrade': pfs_upgrade,
        'mirror-read': mirror_read, 'mirror-write': mirror_write, 'mirror-copy': mirror_copy,
    }
    ENDINGS = {
        'prune': done, 'prune-everything': done, 'reblock': done, 'pfs-upgrade': upgraded,
        'mirror-read': sent, 'mirror-write': received, 'mirror-copy': copied,
    }


def main():
    words = argparse.ArgumentParser(description='Prints what hammer prints for a script on a new volume.')
    words.add_argument('--bigblocks', type=int, default=24, help='the size of the volume')
    words.add_argument('--served', action='store_true', help='only what the program serves today')
    words.add_argument('scripts', nargs='*', help='one script a run; else standard input is the only one')
    given = words.parse_args()
    scripts = [Path(name).read_bytes() for name in given.scripts] or [sys.stdin.buffer.read()]
    volume, status = Volume(given.bigblocks), 0
    for script in scripts:
        status, printed = volume.run(script, given.served)
        for line in printed:
            sys.stdout.buffer.write(line.replace(OPEN, '*').encode('latin-1') + b'\n')
    sys.exit(status)


if __name__ == '__main__':
    main()
