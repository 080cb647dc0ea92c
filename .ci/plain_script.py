"""The language of scripts, for the Python program: lines, words and paths.

A line becomes a `Command`, its name and the values of its words, or it is a remark or a bad line. All
forms are read here, those that are planned too; `PLANNED` has their names.
"""

import re
from typing import NamedTuple

LARGEST_SCRIPT = 67_108_864
MOST_LINES = 65_536
LONGEST_PATH = 1_023
MOST_COMPONENTS = 64
LONGEST_NAME = 255


class BadLine(Exception):
    """A line is none of the language."""


class BadPath(Exception):
    """A path word is bad, at this place."""

    def __init__(self, place):
        super().__init__(place)
        self.place = place


class Command(NamedTuple):
    name: str
    values: tuple  # of its words, in their order


# ---- words

def any_word(word):
    """PATH, OLD, NEW, DIR, MASTER and SLAVE: any word; whether it is a path, the reply says."""
    return word


def number(least, most):
    """A number in decimal digits, without a leading zero, but for 0 itself."""
    def value(word):
        if not re.fullmatch(rb'0|[1-9][0-9]{0,19}', word) or not least <= int(word) <= most:
            raise BadLine
        return int(word)
    return value


def digits(pattern):
    """Hexadecimal digits of either case, as a number."""
    def value(word):
        if not re.fullmatch(pattern, word):
            raise BadLine
        return int(word, 16)
    return value


def some_bytes(word):
    """HEX: two digits a byte, for 1 to 65,536 bytes."""
    if not re.fullmatch(rb'([0-9a-fA-F]{2})+', word) or len(word) > 2 * 65_536:
        raise BadLine
    return bytes.fromhex(word.decode())


def target(word):
    """TARGET: 1 to 1,023 bytes."""
    if len(word) > 1_023:
        raise BadLine
    return word


BYTE = digits(rb'[0-9a-fA-F]{2}')
SHARED = digits(rb'[0-9a-fA-F]{16}')
ID = digits(rb'0x[0-9a-fA-F]{16}')
OFFSET = SIZE = number(0, 2**64 - 1)
PATH = any_word

# Each form, by the words after its name.
FORMS = {
    'mkdir': [[PATH]], 'touch': [[PATH]], 'symlink': [[target, PATH]], 'snapshot': [[PATH]],
    'ln': [[PATH, PATH]], 'rm': [[PATH]], 'rmdir': [[PATH]], 'mv': [[PATH, PATH]], 'ls': [[PATH]],
    'stat': [[PATH]], 'readlink': [[PATH]], 'write': [[PATH, OFFSET, some_bytes]],
    'fill': [[PATH, OFFSET, number(1, 65_536), BYTE]], 'truncate': [[PATH, SIZE]],
    'cat': [[PATH, OFFSET, number(1, 16_384)]], 'df': [[]], 'sync': [[]], 'synctid': [[]],
    'prune': [[PATH]], 'prune-everything': [[PATH]], 'reblock': [[], [number(1, 100)]],
    'pfs-master': [[PATH, SHARED]], 'pfs-slave': [[PATH, SHARED]], 'pfs-status': [[PATH]],
    'pfs-upgrade': [[PATH]], 'mirror-read': [[PATH, ID]], 'mirror-write': [[PATH]],
    'mirror-copy': [[PATH, PATH], [PATH, PATH, number(1, 2**32 - 1)]], 'progress': [[]],
}

# The forms that the program reads, and does not serve yet: a line of one is a bad line there.
PLANNED = {'pfs-upgrade', 'mirror-read', 'mirror-write', 'mirror-copy', 'progress'}


# ---- lines

def read_line(line, served):
    """A line's command, or nothing for a remark. With `served` lanes and planned forms are bad lines."""
    if not line or line.startswith(b'#'):
        return None
    words = line.split(b' ')
    # A word is one or more bytes from 0x21 to 0x7E or from 0x80 on, with one blank between two.
    if not all(re.fullmatch(rb'[\x21-\x7e\x80-\xff]+', word) for word in words):
        raise BadLine
    if re.fullmatch(rb'[1-8]:', words[0]):
        if served:
            raise BadLine
        words = words[1:]
    name = words[0].decode('latin-1') if words else ''
    if name not in FORMS or served and name in PLANNED:
        raise BadLine
    for form in FORMS[name]:
        if len(form) == len(words) - 1:
            return Command(name, tuple(value(word) for value, word in zip(form, words[1:])))
    raise BadLine


def lines_of(script):
    """The lines of a script, each ended by a line feed, which the last one may lack."""
    lines = script.split(b'\n')
    return lines if lines[-1] else lines[:-1]


def read_script(script, served=False):
    """The commands of a script, with nothing for a remark; else the status and the line of its end."""
    lines = lines_of(script)
    if len(script) > LARGEST_SCRIPT or len(lines) > MOST_LINES:
        return None, (9, 'script too long')
    commands = []
    for place, line in enumerate(lines, 1):
        try:
            commands.append(read_line(line, served))
        except BadLine:
            return None, (8, f'bad line {place}')
    return commands, None


# ---- paths

class Part(NamedTuple):
    name: bytes  # or None
    as_of: int  # or None


def is_name(text):
    """1 to 255 bytes, no blank, control byte, slash or delete, no `@@` in it, neither `.` nor `..`."""
    return (1 <= len(text) <= LONGEST_NAME and not re.search(rb'[\x00-\x20\x2f\x7f]|@@', text)
            and text not in (b'.', b'..'))


def read_component(text):
    """A name, a name and an id, or an id alone. The id is what the last 20 bytes spell."""
    spelled = re.fullmatch(rb'(.*)@@0x([0-9a-fA-F]{16})', text, re.DOTALL)
    name, as_of = (spelled[1], int(spelled[2], 16)) if spelled else (text, None)
    if is_name(name):
        return Part(name, as_of)
    if spelled and not name:
        return Part(None, as_of)
    return None


def read_path(text):
    """The parts of a path. Where it is none, the first of the places by which it is told."""
    if len(text) > LONGEST_PATH:
        raise BadPath(1_023)
    if not text.startswith(b'/'):
        raise BadPath(0)
    parts, at = [], 1
    for component in text[1:].split(b'/') if text != b'/' else []:
        part = read_component(component)
        if part is None or len(parts) == MOST_COMPONENTS:
            raise BadPath(at)
        parts.append(part)
        at += len(component) + 1
    return parts
