"""Random scripts, for the comparison of the program with the Python one."""

import random

import plain
from plain_script import PLANNED
from plain_tree import ROOT

BIGBLOCKS = 24
NEXT_RUN = '# next run'  # a line between two runs over one volume
LINES = 300  # of a script, at the least
LOOKS = 60  # at the past, when all is done
# A script whose seed has this rest by 6 begins with a volume that is nearly full, has a few files whose
# bytes change much, has many snapshots, prunes and pseudo file systems, or begins with many names.
FULL, BYTES, KEPT, WIDE = 0, 1, 2, 3

NAMES = ['a', 'b', 'c', 'd'] * 6 + [
    'a@', '@', '@a', '...', '-n', '#', '*', '\\', "'q'", '"q"', '$(x)', '~', '\xc3\xa9', '\xff\x80', 'A' * 255,
]
BAD_PATHS = [
    'a', 'a/b', '//', '/a/', '/a//b', '/.', '/..', '/a/.', '/a/../b', '/a@@b', '/@@', '/a@@', '/@@0x1',
    '/@@0X{id}', '/a@@0x000000000000000g', '/@@0x{id}/', '/a@@@@0x{id}', '/@@0x{id}@@0x{id}', '/..@@0x{id}',
    '/a@@0x{id}b', '/' + 'n' * 256, '/a/' + 'n' * 256, '/a' * 64, '/a' * 65, '/a' * 64 + '/..',
    '/' + 'n' * 1_022, '/' + 'n' * 1_023, '/' + '/'.join(['n' * 255] * 4),
]
BAD_LINES = [
    'frob /a', 'mkdir', 'mkdir /a /b', ' ls /', 'ls  /', 'ls / ', 'ls\t/', 'LS /', 'cat /a 0 0',
    'cat /a 0 16385', 'cat /a 00 1', 'fill /a 0 65537 00', 'fill /a 0 1 0', 'write /a 0 0', 'write /a 0 0g',
    'truncate /a -1', 'truncate /a 18446744073709551616', 'sync /', 'prune', '1: ls /', 'progress',
    'ls /\x7f', 'df /', '\r', 'reblock 0', 'reblock 101', 'pfs-upgrade /a', 'mirror-copy /a /b',
    'pfs-master /a 00000000000000a', 'prune-everything / /', '1: prune /', '1: reblock',
]
DEEPEST = 12
EDGES = [0, 1, 2, 9, 4_095, 4_096, 16_383, 16_384, 16_385, 32_767, 32_768, 40_000, 65_536, 100_000]
LARGEST = [15_728_639, 15_728_640, 15_728_641, 15_712_256, 2**32, 2**63, 2**64 - 1]


class Author:
    """Writes a random script, line by line. It keeps a volume of the Python program, to know what there is."""

    def __init__(self, seed, served=True):
        self.served = served
        self.random = random.Random(seed)
        self.volume = plain.Volume(BIGBLOCKS)
        self.lines = []
        # A script has a temper of its own: how much it errs, and how often it fills.
        self.errs = self.random.choice([0.05, 0.15, 0.4])
        self.fills = self.random.choice([0, 0, 1, 3])
        self.names = NAMES
        if seed % 6 == FULL:
            self.fill_up(seed // 6 % 2)
        self.on_bytes = seed % 6 == BYTES
        if self.on_bytes:
            self.names = ['a', 'b', 'c']
        self.on_kept = seed % 6 == KEPT
        if self.on_kept:
            self.nest()
        if seed % 6 == WIDE:
            self.widen(400)
        end = len(self.lines) + LINES
        while len(self.lines) < end:
            self.run(self.random.randint(LINES // 4, LINES))
            self.lines.append(NEXT_RUN)
        if self.on_kept:
            self.prune_each()
        self.look_back()

    def chance(self, share):
        return self.random.random() < share

    def add(self, line):
        """Adds a line: what it prints."""
        self.lines.append(line)
        return self.volume.run(line.encode('latin-1'))[1]

    def fill_up(self, parts):
        """Fills most of the space, in whole blocks, or in turn with a part of one that is written anew.

        762 fills of whole blocks leave what is held back.
        """
        self.add('touch /part')
        for i in range(self.random.randint(755, 770)):
            if i % 240 == 0:
                self.add(f'touch /full{i}')
            printed = self.add(f'fill /full{i - i % 240} {i % 240 * 65_536} 65536 61')
            if parts:
                self.add(f'fill /part 0 {self.random.randint(15_000, 16_383)} 62')
            if 'no space' in printed[0]:
                break

    def widen(self, count):
        """Makes many names, of which the later lines use some."""
        names = [f'{self.random.randrange(1_000)}' for _ in range(count)]
        self.add('mkdir /a')
        for name in names:
            call = self.random.choice(['touch', 'touch', 'mkdir', 'snapshot'])
            self.add(f'{call} {self.random.choice(["", "/a"])}/{name}')
        self.names = NAMES + names[:40]

    def nest(self):
        """Makes pseudo file systems, one in another, with a directory in each in which snapshots may stand."""
        path = ''
        for name in self.random.choices(['a', 'b', 'c'], k=3):
            for line in f'mkdir {path}/s', f'pfs-master {path}/{name} 00000000000000aa', f'touch {path}/f':
                self.add(line)
            path += f'/{name}'

    def prune_each(self):
        """Prunes what has a directory for snapshots, to a few kept ids: many elements begin or end at just one of them."""
        for path in self.paths('d'):
            if path.endswith('/s'):
                system = self.volume.systems[int(self.add(f'pfs-status {path}')[0].split(' ')[3])]
                for i in range(4):
                    first, last = self.random.choice(system.kept.pairs())
                    as_of = self.random.randint(first, min(last, self.volume.last))
                    self.add(f'symlink @@0x{as_of:016x} {path}/z{i}')
                self.add(f'prune {path}')

    def look_back(self):
        """Reads what stood as of older ids, and where some are not kept any more, most often as of one that is."""
        for _ in range(LOOKS):
            as_of = self.random.randint(1, self.volume.last)
            if self.chance(0.8):
                first, last = self.random.choice(self.volume.systems[0].kept.pairs())
                as_of = self.random.randint(first, min(last, self.volume.last))
            path, obj = self.random.choice(self.things('dflp', as_of) or [('/', None)])
            begin = self.random.choice([0, self.offset()])
            look = {'f': f'cat {{}} {begin} 16384', 'd': 'ls {}'}.get(obj.kind if obj else 'd', 'readlink {}')
            self.add(self.random.choice([look, look, 'stat {}']).format(f'/@@0x{as_of:016x}{path}'.rstrip('/')))

    def run(self, count):
        for _ in range(count):
            self.add(self.line())
            if self.chance(0.02):
                self.lines.append(self.random.choice(['', '#', '# remark', '#mkdir /a']))
        # A run with a bad line is none: it stands before the next one, with all that this begins with.
        if self.chance(0.1):
            first = max([place + 1 for place, line in enumerate(self.lines) if line == NEXT_RUN], default=0)
            bad = ['mkdir /bad', self.random.choice(BAD_LINES), 'rm /a'][self.random.randint(0, 1):]
            self.lines[first:first] = bad + [NEXT_RUN]

    # ---- paths

    def tree(self, number, as_of=None):
        system = self.volume.systems[number]
        return system.now() if as_of is None else system.at(as_of)

    def things(self, kinds, as_of=None):
        """All objects of some kinds now, or as of an id, with their paths."""
        found, open_, trees = [], [('', 0, ROOT)], {}
        while open_:
            path, system, number = open_.pop()
            if system not in trees:
                trees[system] = self.tree(system, as_of), self.below(self.tree(system, as_of))
            tree, below = trees[system]
            # A copy of a PFS may hold a link to itself, so paths may go on for ever.
            if number not in tree.objects or path.count('/') > DEEPEST:
                continue
            obj = tree.objects[number]
            if obj.kind in kinds:
                found.append((path or '/', obj))
            if obj.kind == 'p':
                open_.append((path, obj.content, ROOT))
            open_ += [(f'{path}/{name}', system, entry) for name, entry in below.get(number, [])]
        return found

    def below(self, tree):
        """The entries of each directory."""
        entries = {}
        for (directory, name), number in tree.names.items():
            entries.setdefault(directory, []).append((name.decode('latin-1'), number))
        return entries

    def paths(self, kinds, as_of=None):
        return [path for path, _ in self.things(kinds, as_of)] or ['/a']

    def an_id(self):
        last = self.volume.last
        pick = self.random.choice([1, 1, 1, 1, 1, 1, last, last, 0, last + 1, last + 2, 2**63, 2**64 - 1])
        number = self.random.randint(1, last) if pick == 1 else pick
        return number, self.random.choice([f'{number:016x}', f'{number:016X}'])

    def at_id(self, kinds):
        """A path with an id, by which some kinds stood there."""
        number, digits = self.an_id()
        path = self.random.choice(self.paths(kinds, min(number, self.volume.last)))
        parts = path[1:].split('/') if path != '/' else []
        place = self.random.randint(0, len(parts))
        if place and self.chance(0.5):
            parts[place - 1] += f'@@0x{digits}'
        else:
            parts.insert(place, f'@@0x{digits}')
        if self.chance(0.1):
            parts[-1] += f'@@0x{self.an_id()[1]}' if '@@' not in parts[-1] else ''
        return '/' + '/'.join(parts)

    def stray(self):
        """Any path: a bad one, one with an id, one that there may be or not."""
        if self.chance(0.3):
            return self.random.choice(BAD_PATHS).replace('{id}', self.an_id()[1])
        if self.chance(0.4):
            return self.at_id('dflp')
        return ''.join('/' + self.random.choice(self.names) for _ in range(self.random.randint(0, 4))) or '/'

    def there(self, kinds, past=0.0):
        """A path to one of some kinds, most often."""
        if self.chance(self.errs):
            return self.stray() if self.chance(0.5) else self.random.choice(self.paths('dflp'))
        return self.at_id(kinds) if self.chance(past) else self.random.choice(self.paths(kinds))

    def new(self):
        """A path whose directory is there, and whose last name may be."""
        if self.chance(self.errs):
            return self.stray()
        shallow = sorted(self.paths('d'), key=lambda path: path.count('/'))[:12]
        return self.random.choice(shallow).rstrip('/') + '/' + self.random.choice(self.names)

    # ---- numbers and bytes

    def offset(self):
        place = self.random.choice(EDGES)
        if self.chance(0.5):
            sizes = [obj.content.size for obj in self.tree(0).objects.values() if obj.kind == 'f']
            place = self.random.choice(sizes or [0])
        if self.chance(0.05):
            return self.random.choice(LARGEST)
        return max(0, place + self.random.randint(-3, 3) * self.random.choice([0, 1, 100]))

    def data(self):
        length = self.random.choice([1, 1, 2, 3, 10, 40, 40, 300, 16_384 if self.chance(0.2) else 5])
        return self.random.randbytes(length).hex()

    # ---- lines

    def line(self):
        calls = {
            'mkdir': 7, 'touch': 8, 'symlink': 3, 'snapshot': 2, 'ln': 6, 'rm': 6, 'rmdir': 4, 'mv': 12,
            'ls': 6, 'stat': 7, 'readlink': 3, 'write': 10, 'fill': 8 + 10 * self.fills, 'truncate': 8,
            'cat': 14, 'df': 2, 'sync': 1, 'synctid': 1, 'prune': 1, 'prune-everything': 0.2, 'pfs-master': 1,
            'pfs-slave': 0.5, 'pfs-status': 1, 'reblock': 0.3,
        }
        if self.on_bytes:
            calls |= {'write': 60, 'fill': 60, 'truncate': 60, 'cat': 80}
        if self.on_kept:
            calls |= {'symlink': 15, 'snapshot': 20, 'mv': 20, 'prune': 12, 'prune-everything': 0.5, 'pfs-master': 5,
                      'pfs-slave': 3, 'pfs-status': 8, 'readlink': 6, 'reblock': 4}
        if not self.served:
            calls |= {name: 2 for name in PLANNED} | {'mirror-copy': 6, 'prune-everything': 0.3, 'reblock': 2}
        name = self.random.choices(list(calls), calls.values())[0]
        return f'{name} {getattr(self, name.replace("-", "_"))()}'.rstrip(' ')

    mkdir = touch = new

    def snapshot(self):
        """A new name; in a script on what is kept most often one in a directory for snapshots."""
        found = [path for path in self.paths('d') if path.endswith('/s')] if self.on_kept else []
        return f'{self.random.choice(found)}/{self.volume.last}' if found and self.chance(0.7) else self.new()

    def symlink(self):
        digits, other = self.an_id()[1], self.an_id()[1]
        target = self.random.choice(['t', '/a', '*', 'x' * 1_023, '\xff"\\'] + [
            f'@@0x{digits}', f'x@@0x{digits}y', f'@@0x{digits}{other}', f'@@@@0x{digits}', f'@@0x{digits}@@0x{other}',
            f'@@0x{digits[1:]}@@0x{other}', f'@@0X{digits}', f'@@0x@@0x{digits}', f'@@{digits}', '@@-1:00001',
            'x' * 1_003 + f'@@0x{digits}', 'x' * 1_004 + f'@@0x{digits[1:]}', f'@@0x{digits[1:]}g',
        ])
        return f'{target} {self.snapshot()}'

    def ln(self):
        return f'{self.there("f")} {self.new()}'

    def mv(self):
        old = self.there('dflp')
        if self.chance(0.15):
            return f'{old} {old.rstrip("/")}' + self.random.choice(['', '/a', '/b/c'])
        new = self.there('dflp') if self.chance(0.3) else self.new()
        return f'{old} {new}'

    def rm(self):
        return self.there('fl' if self.chance(0.9) else 'p')

    def rmdir(self):
        return self.there('d' if self.chance(0.9) else 'p')

    def ls(self):
        return self.there('d', past=0.5)

    def stat(self):
        return self.there('dflp', past=0.4)

    def readlink(self):
        return self.there('lp', past=0.4)

    def write(self):
        return f'{self.there("f")} {self.offset()} {self.data()}'

    def fill(self):
        count = 65_536 if self.chance(0.1 + 0.1 * self.fills) else self.random.choice(EDGES[1:-1])
        return f'{self.there("f")} {self.offset()} {count} {self.random.randrange(256):02x}'

    def truncate(self):
        return f'{self.there("f")} {self.offset()}'

    def cat(self):
        return f'{self.there("f", past=0.5)} {self.offset()} {self.random.choice([1, 2, 9, 40, 300, 16_384])}'

    def nothing(self):
        return ''

    df = sync = synctid = progress = nothing

    # ---- what is kept

    def prune(self):
        found = [path.rsplit('/', 1)[0] or '/' for path in self.paths('l')]
        return self.random.choice(found) if self.chance(0.7) else self.there('d')

    def pfs_status(self):
        return self.there('dp')

    prune_everything = pfs_status

    def pfs_master(self):
        return f'{self.new()} 00000000000000{self.random.choice(["aa", "aa", "aa", "AA", "bb"])}'

    pfs_slave = pfs_master

    def reblock(self):
        return self.random.choice(['', '1', '50', '100'])

    # ---- what is planned

    def link(self, master):
        """A path to a PFS of a role, most often."""
        found = [path for path, obj in self.things('p') if self.volume.systems[obj.content].master == master]
        return self.there('dp') if not found or self.chance(self.errs) else self.random.choice(found)

    def pfs_upgrade(self):
        return self.link(self.chance(self.errs))

    mirror_write = pfs_upgrade

    def mirror_read(self):
        return f'{self.link(True)} 0x{self.an_id()[1]}'

    def mirror_copy(self):
        return f'{self.link(True)} {self.link(False)}' + self.random.choice(['', '', ' 1', ' 4294967295'])
