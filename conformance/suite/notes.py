"""Signed notes and checkpoints (C2SP signed-note, tlog-checkpoint): their texts, and strict readers of them.
What isn't such a text is None, or the name of a fault.
"""
import base64
import re

from .keys import NOTE, is_sound, is_valid, key_id
from .tree import text

# White space of Unicode, plus, and what is below a space: not in a key's name.
NAME = '[^\x00-\x20+\x85\xa0\u1680\u2000-\u200a\u2028\u2029\u202f\u205f\u3000]+'
CONTROL = re.compile('[\x00-\x09\x0b-\x1f]')
DIGITS = '(0|[1-9][0-9]{0,18})'
LARGEST = 2 ** 63 - 1


def checkpoint(origin, size, root, *extensions):
    """The text of a checkpoint."""
    return '\n'.join([origin, str(size), text(root), *extensions, '']).encode()


def malformed(origin, size, root):
    """Texts that are nearly a checkpoint's, by what is wrong."""
    top = text(root)
    lines = {'size-zeros': (origin, f'0{size}', top), 'size-sign': (origin, f'+{size}', top),
             'size-space': (origin, f'{size} ', top),
             'size-hexadecimal': (origin, f'0x{size:x}', top), 'size-negative': (origin, f'-{size}', top),
             'size-missing': (origin, top), 'root-of-31': (origin, f'{size}', text(root[:31])),
             'root-of-33': (origin, f'{size}', text(root + b'x')), 'root-unpadded': (origin, f'{size}', top[:-1]),
             'root-hexadecimal': (origin, f'{size}', root.hex()), 'root-missing': (origin, f'{size}'),
             'line-empty': (origin, f'{size}', top, '', 'more'), 'line-first': ('', origin, f'{size}', top)}
    return {name: '\n'.join([*parts, '']).encode() for name, parts in lines.items()}


# Readers

def decoded(data):
    try:
        return data.decode()
    except UnicodeDecodeError:
        return None


def number(word):
    return int(word) if re.fullmatch(DIGITS, word) and int(word) <= LARGEST else None


def bytes_in(word):
    """The bytes of which a word is the base64."""
    try:
        data = base64.b64decode(word, validate=True)
    except ValueError:
        return None
    return data if text(data) == word else None


def hash_in(word):
    data = bytes_in(word)
    return data if data is not None and len(data) == 32 else None


def hashes_in(words):
    found = [hash_in(word) for word in words]
    return None if None in found else found


def lines_in(whole):
    """The lines of a text, each ended by a newline."""
    lines = whole.split('\n')
    return None if lines.pop() else lines


def signature_lines(whole):
    """Name, identifier, base64 and signature of each of 1 to 100 signature lines."""
    lines, found = lines_in(whole), []
    if not lines or len(lines) > 100:
        return None
    for line in lines:
        parts = re.fullmatch(f'\u2014 ({NAME}) (.+)', line)
        data = parts and bytes_in(parts[2])
        if not data or len(data) < 5:
            return None
        found.append((parts[1], data[:4], parts[2], data[4:]))
    return found


def note_in(data):
    """The text of a note and its signature lines."""
    whole = decoded(data)
    cut = -1 if whole is None or CONTROL.search(whole) else whole.rfind('\n\n')
    lines = None if cut < 0 else signature_lines(whole[cut + 2:])
    return lines and (whole[:cut + 1], lines)


def checkpoint_in(whole):
    """Origin, size and root of a checkpoint, or the first fault."""
    lines = lines_in(whole)
    if not lines or len(lines) < 3 or CONTROL.search(whole) or '' in lines[3:]:
        return 'Lines'
    size, top = number(lines[1]), hash_in(lines[2])
    fault = 'Origin' if not lines[0] else 'Size' if size is None else 'Root' if top is None else None
    return fault or (lines[0], size, top)


def request_in(data):
    """The old size, the proof and the note of a request to a witness."""
    whole = decoded(data)
    front, cut, note = ('\n' + (whole or '')).partition('\n\n')
    words = front[1:].split('\n')
    old, hashes = number(words[0][4:]) if words[0].startswith('old ') else None, hashes_in(words[1:])
    return None if not cut or None in (old, hashes) or len(hashes) > 63 else (old, hashes, note.encode())


# Keys and signatures

def verifier_in(whole, kind=NOTE):
    """Name, identifier and public key of a verifier's key of this type."""
    parts = re.fullmatch(f'({NAME})\\+([0-9a-f]{{8}})\\+([A-Za-z0-9+/=]+)', whole)
    data = parts and bytes_in(parts[3])
    if not data or len(data) != 33 or data[0] != kind or not is_sound(data[1:]):
        return None
    id = key_id(parts[1], kind, data[1:]).hex()
    return (parts[1], id, data[1:]) if id == parts[2] else None


def marks_by(key, lines):
    """What a key signed with, of each of these lines that has its name and its identifier."""
    return [mark for name, id, _, mark in lines if (name, id) == (key.name, key.id)]


def is_signed(note, key):
    """Whether a note has a line of this key, and each line of it is valid."""
    marks = marks_by(key, note[1])
    return bool(marks) and all(is_valid(key.public, note[0].encode(), mark) for mark in marks)
