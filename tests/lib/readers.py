"""Readers of texts and bytes, written after the standards (C2SP signed-note, tlog-checkpoint, tlog-tiles,
tlog-witness, tlog-proof and tlog-policy; RFC 8032, 9112 and 9162), with nothing of the program's own: what these say
is due where the program is given such bytes. What isn't such a text is None, or a fault's name. Those that
conformance/ needs, too, stand in conformance/suite. """
import re

from suite.keys import is_sound  # noqa: F401
from suite.notes import (  # noqa: F401
    CONTROL, DIGITS, NAME, bytes_in, checkpoint_in, decoded, hash_in, hashes_in, note_in, number, request_in,
    signature_lines, verifier_in)
from suite.offline import parse_policy, parse_proof, satisfied  # noqa: F401

from .keys import ORIGIN, SeedKey
from .tree import grows, includes, leaf, root, sha

TOKEN = rb"[!#$%&'*+.^_`|~0-9A-Za-z-]+"
FIELD = TOKEN + rb':[\t -~\x80-\xff]*\r?\n'
HEAD = re.compile(rb'(?:\r?\n)*(%s) ([!-~\x80-\xff]+) HTTP/1\.[01]\r?\n((?:%s)*)\r?\n' % (TOKEN, FIELD))
HASH = '([A-Za-z0-9+/]{43}=)'
INCLUSION = re.compile(f'inclusion\nindex {DIGITS}\nsize {DIGITS}\nleaf {HASH}\nroot {HASH}\n((?:{HASH}\n)*)')
CONSISTENCY = re.compile(f'consistency\nold {DIGITS}\noldroot {HASH}\nsize {DIGITS}\nroot {HASH}\n((?:{HASH}\n)*)')
PATH = re.compile(r'tile/(entries|[0-7])/((?:x[0-9]{3}/){0,5})([0-9]{3})(?:\.p/([1-9][0-9]{0,2}))?')


def opened(note, keys):
    """The places of the lines that count of a note that opens under keys, and of those of no key; or the fault. A key
    is a name, an identifier, and what it says of a text and a signature."""
    count, unknown, seen = [], [], set()
    for place, (name, id, _, mark) in enumerate(note[1]):
        known = [accepts for key, key_id, accepts in keys if (key, key_id) == (name, id)]
        if not known:
            unknown.append(place)
        elif (name, id) not in seen:
            seen.add((name, id))
            if len(known) > 1:
                return f'Ambiguous({place})'
            if not known[0](note[0].encode(), mark):
                return f'InvalidSignature({place})'
            count.append(place)
    return (count, unknown) if count else 'Unverified'


def signer_in(whole):
    """The key of a signer's text."""
    parts = re.fullmatch(f'PRIVATE\\+KEY\\+({NAME})\\+[0-9a-f]{{8}}\\+([A-Za-z0-9+/=]+)', whole)
    data = parts and bytes_in(parts[2])
    key = SeedKey(data[1:], parts[1]) if data and len(data) == 33 else None
    return key if key and key.private == whole else None


def resource_in(path):
    """The resource of a path, as it is shown."""
    parts = PATH.fullmatch(path)
    if path == 'checkpoint' or not parts or parts[2].startswith('x000/'):
        return 'Checkpoint' if path == 'checkpoint' else None
    index, width = int(re.sub('[x/]', '', parts[2]) + parts[3]), int(parts[4] or 256)
    if index >= 2 ** 56 or (parts[4] and width > 255):
        return None
    shown = f'index: {index}, width: {width} }}'
    return f'Entries {{ {shown}' if parts[1] == 'entries' else f'Tile(Tile {{ level: {parts[1]}, {shown})'


def entries_in(data, width):
    """The entries of a bundle, or the fault."""
    found = []
    for _ in range(width):
        length = int.from_bytes(data[:2], 'big')
        if len(data) < 2 + length or len(data) < 2:
            return 'Truncated'
        found.append(data[2:2 + length])
        data = data[2 + length:]
    return 'Trailing' if data else found


def proof_in(data):
    """What a text of a proof says: whether it is accepted, its size and root, and the hash that it shows."""
    whole = decoded(data) or ''
    parts = INCLUSION.fullmatch(whole) or CONSISTENCY.fullmatch(whole)
    if not parts:
        return None
    is_inclusion, hashes = whole[0] == 'i', hashes_in(parts[5].split())
    first, size = number(parts[1]), number(parts[2 if is_inclusion else 3])
    hash, top = hash_in(parts[3 if is_inclusion else 2]), hash_in(parts[4])
    if None in (first, size, hash, top, hashes):
        return None
    accepted = includes(first, size, hash, top, hashes) if is_inclusion else grows(first, hash, size, top, hashes)
    return accepted, size, top, hash if is_inclusion else None


def audit_in(data):
    """Whether the proof of an audit is accepted from the one list to the other."""
    lines, lists = data.split(b'\n'), []
    if lines.pop():
        return None
    for word in ('old ', 'new '):
        front = (lines and decoded(lines[0])) or ''
        count = number(front[4:]) if front.startswith(word) else None
        if count is None or len(lines) <= count:
            return None
        lists.append([leaf(line) for line in lines[1:count + 1]])
        lines = lines[count + 1:]
    hashes = hashes_in([decoded(line) or '' for line in lines])
    old, new = lists
    return None if hashes is None else grows(len(old), root(old), len(new), root(new), hashes)


def link_in(line):
    """Origin, size, root and proof of a saved link's line."""
    words = (decoded(line) or '').split(' ', 3)
    count = number(words[2]) if len(words) == 4 else None
    if count is None or count > 63:
        return None
    parts = words[3].split(' ', count)
    size, top, hashes = number(words[0]), hash_in(words[1]), hashes_in(parts[:-1])
    if None in (size, top, hashes) or len(parts) <= count or not parts[-1] or CONTROL.search(parts[-1]):
        return None
    return parts[-1], size, top, hashes


def first_refused(data):
    """The number that a witness of the log names of saved links: of the first line that is none; else of the first
    origin that isn't the log's, in the order of their first lines; else of the first link that doesn't follow."""
    *lines, last = data.split(b'\n')
    links = [link_in(line) for line in lines]
    if last or None in links:
        return links.index(None) if None in links else len(links)
    for place, origin in enumerate(dict.fromkeys(link[0] for link in links)):
        if origin != ORIGIN:
            return place
    head = 0, sha(b'')
    for place, (_, size, top, hashes) in enumerate(links):
        if not grows(*head, size, top, hashes):
            return place
        head = size, top
    return None
