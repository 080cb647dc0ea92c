"""A volume's history, for the Python program: its lines, and the checks that all calls share."""

from typing import NamedTuple

from plain_script import BadPath, read_path, read_script
from plain_space import Space
from plain_tree import GREATEST, MASTER_KEEPS, NO_TREE, ROOT, ROOT_TREE, System, Tree
from volume import name_hash

MOST_OF_ONE_HASH = 1_024
OPEN = '\x7f'  # a word of a reply that may be any; no word of a script has this byte


class Refused(Exception):
    """A call is refused with this reply."""


class Unclear(Exception):
    """A walk enters a PFS whose trees nobody knows."""


# ---- paths of a call

# What a call does with each of its paths. It makes the last name, takes it away, or walks to the end,
# where it follows a PFS link or does not; or it means the PFS of the path.
MAKES, TAKES, FOLLOWS, STAYS, SYSTEM = 'makes', 'takes', 'follows', 'stays', 'system'
USES = {
    'mkdir': [MAKES], 'touch': [MAKES], 'symlink': [MAKES], 'snapshot': [MAKES], 'ln': [STAYS, MAKES],
    'write': [FOLLOWS], 'fill': [FOLLOWS], 'truncate': [FOLLOWS], 'rm': [TAKES], 'rmdir': [TAKES],
    'mv': [TAKES, MAKES], 'ls': [FOLLOWS], 'cat': [FOLLOWS], 'stat': [STAYS], 'readlink': [STAYS],
    'prune': [FOLLOWS], 'prune-everything': [SYSTEM], 'pfs-master': [MAKES], 'pfs-slave': [MAKES],
    'pfs-status': [SYSTEM], 'pfs-upgrade': [SYSTEM], 'mirror-read': [SYSTEM], 'mirror-write': [SYSTEM],
    'mirror-copy': [SYSTEM, SYSTEM], 'df': [], 'sync': [], 'synctid': [], 'reblock': [],
}
TREE_CALLS = {
    'mkdir', 'touch', 'write', 'fill', 'truncate', 'rm', 'rmdir', 'mv', 'ln', 'symlink', 'snapshot',
    'pfs-master', 'pfs-slave',
}
SYSTEM_CALLS = {
    'prune', 'prune-everything', 'pfs-status', 'pfs-upgrade', 'mirror-read', 'mirror-write', 'mirror-copy',
}

# How many zones the work of housekeeping needs at once, at the most, and how many big-blocks are held back from it. A unit of
# a reblock moves what stands in one zone, whichever it is.
WORK = {'reblock': (1, 0), 'pfs-upgrade': (2, 0), 'mirror-write': (2, 4), 'mirror-copy': (2, 4)}


class Place(NamedTuple):
    """Where a path leads."""
    system: int
    tree: Tree  # of the time at the end
    number: int  # the object at the end; for a name to be made, its directory
    name: bytes = None  # the last name, where the call makes it or takes it away
    directory: int = None  # of a name that is taken away
    passed: tuple = ()  # the objects on the way, each with its PFS

    def obj(self):
        return self.tree.objects[self.number]


def id_text(number):
    return f'0x{number:016x}'


class Walk:
    """A walk: the PFS and the object in hand, in the tree of now or of an id, and what it has passed."""

    def __init__(self, system):
        self.system, self.as_of, self.number = system, None, ROOT
        self.tree = system.now()
        self.passed = []

    def obj(self):
        return self.tree.objects[self.number]

    def by_id(self, as_of):
        """From here on the walk goes on as of an id."""
        # Not retained: the PFS in hand does not keep it.
        if not self.system.kept.keeps(as_of):
            raise Refused('not retained')
        self.as_of, self.tree = as_of, self.system.at(as_of)
        # Not found: the object in hand is not in that view.
        if self.number not in self.tree.objects:
            raise Refused('not found')

    def by_name(self, name):
        # Not a directory: a name is looked up in something else.
        if self.obj().kind != 'd':
            raise Refused('not a directory')
        self.passed.append((self.system.number, self.number))
        self.number = self.tree.names.get((self.number, name))
        # Not found: there is no such name, or it names no object of that view.
        if self.number not in self.tree.objects:
            raise Refused('not found')

    def enter(self, system):
        """From a PFS link the walk goes on at the root of its PFS."""
        self.passed.append((self.system.number, self.number))
        if not system.clear:
            raise Unclear
        # Not retained: an id is in force that this PFS does not keep.
        if self.as_of is not None and not system.kept.keeps(self.as_of):
            raise Refused('not retained')
        self.system, self.number = system, ROOT
        self.tree = system.now() if self.as_of is None else system.at(self.as_of)
        # Not found: the view has no root.
        if ROOT not in self.tree.objects:
            raise Refused('not found')


class History:
    """A volume with all that it ever was."""

    COMMANDS = ENDINGS = None  # each command's call, and the ending of housekeeping

    def __init__(self, bigblocks, last=1, hash_of=name_hash):
        self.last = self.boundary = last
        self.hash_of = hash_of
        self.space = Space(bigblocks)
        self.systems = {0: System(0, True, 0, MASTER_KEEPS, ((1, ROOT_TREE),))}
        self.lost = False  # whether a walk has entered a PFS whose trees nobody knows
        self.streams_in, self.streams_out = [], None  # a run without a stream's file has none
        self.faults_out = 0
        self.calls = 0  # of this run, as the floor of free big-blocks counts them
        self.id = self.places = self.told = None  # of the call that is answered
        self.fed = self.stream = None  # of an open `mirror-write`: its slave's source before, its stream

    # ---- a run

    def run(self, script, served=False, told=()):
        """Runs a script: the status, and what is printed, in lines.

        Where something is open, it is as in the lines that are told, if it may be so.
        """
        commands, end = read_script(script, served)
        if end:
            return end[0], [end[1]]
        self.space.mount()
        self.calls = 0
        printed = []
        for command in commands:
            if command:
                printed.append(self.line(command, told[len(printed)] if len(printed) < len(told) else ''))
        # At its end a run brings all to the disk.
        self.boundary = self.last
        return 0, printed

    def line(self, command, told=''):
        """What is printed for a line."""
        if command.name == 'progress':
            durable = id_text(self.boundary) if self.boundary == self.last else OPEN
            return OPEN if self.lost else f'- last {id_text(self.last)} durable {durable}'
        # Ids spent: the last id is the greatest one. No id is drawn and nothing is done.
        if self.last == GREATEST:
            return '- ids spent'
        self.told = told.split(' ', 1)[1] if ' ' in told else ''
        self.id = self.last + 1
        try:
            reply = OPEN if self.lost else self.reply(command)
        except Refused as refused:
            reply = str(refused)
        except Unclear:
            self.lost, reply = True, OPEN
        opening = f'{id_text(self.id)} {reply}'
        self.last = max(self.last, self.id)
        self.calls += 1
        ending = self.ENDINGS.get(command.name)
        return self.ended(command, opening, ending) if ending and reply == 'ok' else opening

    def ended(self, command, opening, ending):
        """The ending of a housekeeping call whose opening was accepted, which draws an id too."""
        if self.last == GREATEST:
            return f'{opening} - ids spent'
        self.told = self.told.split(' ', 2)[2] if self.told.count(' ') >= 2 else ''
        opened, self.id = self.id, self.last + 1
        self.last = self.id
        self.calls += 1
        # No space: a unit of the work, or the ending itself, may lack it.
        zones, held = WORK.get(command.name, (0, 0))
        lacking = self.space.may_lack(zones, held, self.calls, self.told)
        return f'{opening} {id_text(self.id)} {lacking or ending(self, opened, *command.values)}'

    # ---- checks that all calls share

    def reply(self, command):
        """The reply of a call: the first check that fails, or else what it does."""
        uses, values = USES[command.name], command.values
        # SYMLINK has its target first; else the paths come first.
        words = values[1:] if command.name == 'symlink' else values[:len(uses)]
        rest = values[:1] if command.name == 'symlink' else values[len(uses):]
        # Busy: a call of a run without lanes never finds another one open.
        # Bad path: each path word from left to right, and place 0 where a last name is needed and lacks.
        try:
            paths = [self.read_word(word, use) for word, use in zip(words, uses)]
        except BadPath as bad:
            raise Refused(f'bad path {bad.place}') from None
        ids = [part.as_of for path in paths for part in path if part.as_of is not None]
        # Future: an id above the last one before this call, of each path, then of `mirror-read`.
        begin = list(rest) if command.name == 'mirror-read' else []
        if any(as_of > self.last for as_of in ids + begin):
            raise Refused(f'future {id_text(self.last)}')
        # Read only: a path with an id, in a call that changes a tree or speaks of a PFS.
        if ids and command.name in TREE_CALLS | SYSTEM_CALLS:
            raise Refused('read only')
        # The walks, from left to right.
        self.places = [self.walk(path, use) for path, use in zip(paths, uses)]
        # Read only: a call that changes a tree, and whose walk ends in a slave.
        if command.name in TREE_CALLS and not all(self.systems[place.system].master for place in self.places):
            raise Refused('read only')
        # The command's own checks.
        return self.COMMANDS[command.name](self, *rest)

    def read_word(self, word, use):
        path = read_path(word)
        if use in (MAKES, TAKES) and (not path or path[-1].name is None):
            raise BadPath(0)
        return path

    def walk(self, path, use):
        """Where a path leads."""
        last = path[-1] if path else None
        if use == MAKES:
            # A name is made in the object in which the components before the last end: a directory.
            place = self.steps(path[:-1], FOLLOWS)
            if place.obj().kind != 'd':
                raise Refused('not a directory')
            return place._replace(name=last.name)
        place = self.steps(path, use)
        if use == TAKES:
            return place._replace(name=last.name, directory=place.passed[-1][1])
        return place

    def steps(self, path, use):
        """Goes along the parts of a path, from the root of PFS 0, now."""
        walk = Walk(self.systems[0])
        for place, part in enumerate(path):
            if part.as_of is not None:
                walk.by_id(part.as_of)
            if part.name is not None:
                walk.by_name(part.name)
            # A PFS link leads to its PFS, but for the last part of a call that does not follow.
            is_last = place == len(path) - 1
            if walk.obj().kind == 'p' and (not is_last or use in (FOLLOWS, SYSTEM)):
                system = self.systems.get(walk.obj().content)
                # Not found: there is no such PFS.
                if system is None:
                    raise Refused('not found')
                # A call that means the PFS of the path looks at no root, and enters nothing.
                if is_last and use == SYSTEM:
                    return Place(system.number, NO_TREE, ROOT)
                walk.enter(system)
        return Place(walk.system.number, walk.tree, walk.number, passed=tuple(walk.passed))

    def has_space(self, zones, held):
        """No space: the last check of all."""
        lacking = self.space.lacks(zones, held, self.calls, self.told)
        if lacking:
            raise Refused(lacking)

    def has_hash_left(self, new):
        """Hash full: the name is new, and 1,024 names have its hash, but for the 17 lowest bits."""
        entries = new.tree.entries(new.number)
        if new.name in entries:
            return
        upper = self.hash_of(new.name) >> 17
        if sum(self.hash_of(name) >> 17 == upper for name in entries) >= MOST_OF_ONE_HASH:
            raise Refused('hash full')

    def change(self, number, tree):
        """An accepted call adds one version to one PFS."""
        system = self.systems[number]
        self.systems[number] = system._replace(versions=system.versions + ((self.id, tree),))
        return 'ok'
