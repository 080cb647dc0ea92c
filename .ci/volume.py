"""What those scripts of the gate share that look into volumes: the program, expectations, and a
volume whose structures have names, by which their fields are read and damaged.
"""

import functools
import os
import subprocess
import sys
import tempfile
from collections import namedtuple
from contextlib import contextmanager

top = os.path.dirname(os.path.dirname(os.path.abspath(__file__)))
program = os.path.join(top, 'crates/hm_shell/out/hm_shell')
failures = 0

BIGBLOCK = 8_388_608
PAGE = 4_096
SLOT = 16_384
LOG_ENTRY, LOG_ENTRIES = 4_128, 16_256  # bytes of an entry of the UNDO log, and how many it has
OPEN = 2**64 - 1  # an open end, and the greatest number of eight bytes
TREE = 8 << 60  # offsets in zone 8, of nodes
META = 9 << 60
FREEMAP = 4 << 60
UNDO = 3 << 60
OUTSIDE = 1 << 40  # a byte beyond each volume here, where all reads as zero
INODE, BYTES, ENTRY, TARGET, RECORD = 0x01, 0x10, 0x11, 0x14, 0x15

Structure = namedtuple('Structure', 'at place')  # where it begins in the file, and its offset


def expect(what, came, wanted):
    """Compares what came with what was wanted."""
    global failures
    if came != wanted:
        failures += 1
        print(f'FAILED: {what}\n  came:   {came}\n  wanted: {wanted}', file=sys.stderr)


def run(script, *words):
    """Runs a script over words: its status, and what it prints."""
    ended = subprocess.run([program, *words], input=script.encode('latin-1'), timeout=60,
                           stdout=subprocess.PIPE, stderr=subprocess.DEVNULL)
    return ended.returncode, ended.stdout.decode('latin-1')


def has_room(size):
    """Whether the file system has files of this size."""
    try:
        with open('room', 'wb') as file:
            file.truncate(size)
        return True
    except OSError:
        return False
    finally:
        os.remove('room')


def damage(kind, place):
    """How a run ends on damage of a kind, or on none where the kind is 0."""
    return (10, f'damaged 0x{place:016x} {kind}\n') if kind else (0, '')


@functools.cache
def name_hash(name):
    """The 64-bit FNV-1a hash of a name."""
    value = 0xcbf29ce484222325
    for byte in name:
        value = (value ^ byte) * 0x100000001b3 % 2**64
    return value


def name_key(name):
    """The first key of a name: its hash without the lowest bit, and 16 bits of its own, 0 here."""
    return name_hash(name) >> 17 << 16


class Disk:
    """Bytes like those of a file that has holes: pieces by their numbers, and zeros elsewhere."""

    PIECE = 65_536
    ZERO = bytes(PIECE)

    def __init__(self, pieces=()):
        self.pieces = dict(pieces)

    @classmethod
    def of(cls, path):
        """The bytes of a file, of which no hole is read."""
        disk, end = cls(), 0
        with open(path, 'rb', buffering=0) as file:
            while True:
                try:
                    begin = os.lseek(file.fileno(), end, os.SEEK_DATA) // cls.PIECE
                except OSError:  # only a hole is left
                    return disk
                end = os.lseek(file.fileno(), begin * cls.PIECE, os.SEEK_HOLE)
                end = max(end, (begin + 1) * cls.PIECE)
                for number in range(begin, -(-end // cls.PIECE)):
                    piece = os.pread(file.fileno(), cls.PIECE, number * cls.PIECE)
                    disk.set(number, piece.ljust(cls.PIECE, b'\0'))

    def put(self, path):
        """Gives a file these bytes, and leaves its size."""
        stood = Disk.of(path)
        with open(path, 'r+b', buffering=0) as file:
            for number in stood.pieces.keys() | self.pieces.keys():
                if stood.piece(number) != self.piece(number):
                    os.pwrite(file.fileno(), self.piece(number), number * self.PIECE)

    def copy(self):
        return Disk(self.pieces)

    def piece(self, number):
        return self.pieces.get(number, self.ZERO)

    def set(self, number, piece):
        if piece == self.ZERO:
            self.pieces.pop(number, None)
        else:
            self.pieces[number] = piece

    def read(self, at, count):
        first, begin = divmod(at, self.PIECE)
        last = (at + count - 1) // self.PIECE
        return b''.join(map(self.piece, range(first, last + 1)))[begin:begin + count]

    def write(self, at, data):
        while data:
            number, begin = divmod(at, self.PIECE)
            part, old = data[:self.PIECE - begin], self.piece(number)
            self.set(number, old[:begin] + part + old[begin + len(part):])
            at, data = at + len(part), data[len(part):]

    def write_all(self, writes):
        """Makes many writes, pairs of a place and bytes; a piece is copied once, however many of them it takes."""
        changed = {}
        for at, data in writes:
            while data:
                number, begin = divmod(at, self.PIECE)
                part = data[:self.PIECE - begin]
                if number not in changed:
                    changed[number] = bytearray(self.piece(number))
                changed[number][begin:begin + len(part)] = part
                at, data = at + len(part), data[len(part):]
        for number, piece in changed.items():
            self.set(number, bytes(piece))

    def difference(self, other):
        """The first byte that is another one there, or nothing."""
        for number in sorted(self.pieces.keys() | other.pieces.keys()):
            came, wanted = self.piece(number), other.piece(number)
            if came != wanted:
                return number * self.PIECE + next(i for i in range(self.PIECE) if came[i] != wanted[i])
        return None


# ---- recovery, as docs/FORMAT.md has it

def number_in(data, at, width):
    return int.from_bytes(data[at:at + width], 'little')


def log_begin(bigblocks):
    """The first big-block of the UNDO log, which has eight: the one after those of layer 2."""
    return 3 if bigblocks <= 524_288 else 4


def counting_slot(disk):
    """The number of the header slot that counts, of a disk that holds a volume."""
    slots = [disk.read(SLOT * i, SLOT) for i in (0, 1)]
    takes_part = [slot[-1] == 0xA5 and slot[:8] == b'HMRPROF1' for slot in slots]
    first, second = (number_in(slot, 16, 8) for slot in slots)
    return int(takes_part[1] and (not takes_part[0] or second == (first + 1) % 2**64))


def last_id(disk):
    """The last id of the header that counts."""
    return number_in(disk.read(SLOT * counting_slot(disk) + 24, 8), 0, 8)


def undo_entry(at, generation, page):
    """The bytes of an entry of the UNDO log."""
    return b'HMRUNDO1' + b''.join(n.to_bytes(8, 'little') for n in (at, generation, 0)) + page


def is_undo_entry(entry, bigblocks, generation):
    """Whether these bytes are an entry of a header with this generation."""
    at, log = number_in(entry, 8, 8), log_begin(bigblocks)
    blocks = {TREE >> 52: range(log + 8, bigblocks), FREEMAP >> 52: range(2, log)}.get(at >> 52, ())
    return entry[:8] == b'HMRUNDO1' and at % 2**52 // BIGBLOCK in blocks and at % PAGE == 0 \
        and number_in(entry, 16, 8) == generation and number_in(entry, 24, 8) == 0


def recovered(disk):
    """What a disk recovers to; or, where an entry is damaged, the offset of the one that is told."""
    slot, disk = counting_slot(disk), disk.copy()
    body = bytearray(disk.read(SLOT * slot, SLOT - 1))
    bigblocks, generation = number_in(body, 12, 4), number_in(body, 16, 8)
    first, count = number_in(body, 40, 4), number_in(body, 44, 4)
    entries = [log_begin(bigblocks) * BIGBLOCK + (first + i) % LOG_ENTRIES * LOG_ENTRY for i in range(count)]
    for place in reversed(entries):
        entry = disk.read(place, LOG_ENTRY)
        if not is_undo_entry(entry, bigblocks, generation):
            return UNDO + place
        disk.write(number_in(entry, 8, 8) % 2**52, entry[32:])
    if count:
        body[16:24] = ((generation + 1) % 2**64).to_bytes(8, 'little')
        body[44:48] = bytes(4)
        disk.write(SLOT * (1 - slot), bytes(body) + b'\xa5')
    return disk


class Volume:
    """A volume in a file, with names for its structures."""

    def __init__(self, path, bigblocks, script):
        self.path = path
        self.names = {}
        status, printed = run(script, path, '--newfs', str(bigblocks))
        refused = [line for line in printed.splitlines() if ' ok' not in line]
        expect(f'{path} is made', (status, refused), (0, []))
        self.file = open(path, 'r+b', buffering=0)

    def read(self, at, count):
        self.file.seek(at)
        return self.file.read(count)

    def write(self, at, data):
        self.file.seek(at)
        self.file.write(data)

    def number(self, at, width):
        return int.from_bytes(self.read(at, width), 'little')

    def name(self, name, at, place=0):
        self.names[name] = Structure(at, place)
        return self.names[name]

    def node(self, name, place):
        """Names a node, which stands at its offset's byte."""
        return self.name(name, place % 2**52, place)

    def count(self, node):
        return self.number(node.at + 2, 2)

    def child(self, name, node, i):
        """Names place i of an inner node, and its child."""
        place = self.name(f'place {i} of {node[0]}', node[1].at + 64 + 64 * i, node[1].place)
        return self.node(name, self.number(place.at + 40, 8))

    def bases(self, node):
        """Each place of a leaf by its localization, object, type, key and create id."""
        for i in range(self.count(node)):
            at = node.at + 64 + 64 * i
            fields = (36, 4), (0, 8), (32, 2), (8, 8), (16, 8)
            yield tuple(self.number(at + offset, width) for offset, width in fields), at

    def patch(self, patches):
        """Writes patches, and gives what stood there, the last one first."""
        stood = []
        for name, offset, width, value in patches:
            at = self.names[name].at + offset
            old = self.read(at, width)
            stood.insert(0, (at, old))
            if callable(value):
                value = value(self.names)
            if isinstance(value, str):
                value = int.from_bytes(old, 'little') + int(value)
            self.write(at, value.to_bytes(width, 'little'))
        return stood

    @contextmanager
    def patched(self, patches):
        """The volume with patches, which are taken back then."""
        stood = self.patch(patches)
        yield
        for at, old in stood:
            self.write(at, old)

    def opens(self, patches):
        """How a run with an empty script ends over the volume with these patches."""
        with self.patched(patches):
            return run('', self.path)

    def check(self, rows):
        """Expects of each row (structure, field, offset, width, value, kind, place) its damage."""
        for name, field, offset, width, value, kind, place in rows:
            told = self.names[place].place if isinstance(place, str) else place
            shown = 'another place' if callable(value) else value
            expect(f'{self.path}: {name}, {field} {shown}',
                   self.opens([(name, offset, width, value)]), damage(kind, told))


def main(what, checks):
    """Builds the program where that is due, makes the checks in a folder of their own, and ends."""
    subprocess.run([os.path.join(top, 'hammer')], stdin=subprocess.DEVNULL,
                   stdout=subprocess.DEVNULL)
    with tempfile.TemporaryDirectory() as folder:
        os.chdir(folder)
        for check in checks:
            check()
        os.chdir(top)
    if failures:
        sys.exit(f'{what}: FAILED, {failures} times')
    print(f'{what}: ok')
