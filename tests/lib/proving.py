"""A log of 600 entries of many kinds, five witnesses, and policies of them: what `proofs`, `verify`, `policies` and
`submit` try proofs that travel on (C2SP tlog-proof, tlog-policy).
"""
import hashlib

from suite import tiles
from suite.keys import COSIGNER
from suite.offline import proof_text

from .harness import write
from .keys import SeedKey, checkpoint
from .tree import leaf, path, root, sha

TIME = 1_700_000_000
LOG, TWIN = SeedKey(b'l' * 32), SeedKey(b't' * 32)
NEXT = SeedKey(b'n' * 32, 'next.example/log')
WITNESSES = {name: SeedKey(sha(name.encode()), f'{name}.example', COSIGNER) for name in 'abcde'}
NONE = 'quorum none'

# The file that entries stand for, longer than an entry may be.
FILE = bytes(range(256)) * 300


def entry_for(content, name=None):
    """The entry that stands for a file."""
    return ' '.join(['sha256', hashlib.sha256(content).hexdigest(), *([] if name is None else [name])]).encode()


LONGEST = b'x' * 65_535
# Entries that aren't `entry N`, by their indexes: `again` is there twice.
STRANGE = {3: b'', 4: b'\n', 5: bytes(range(256)), 7: b'again', 300: LONGEST, 299: entry_for(FILE),
           510: entry_for(FILE, 'release-1.0.tar.gz'), 511: entry_for(FILE, ' two  words \u00fc'), 550: b'again',
           598: entry_for(FILE, '')}
ENTRIES = [STRANGE.get(index, b'entry %d' % index) for index in range(600)]
LEAVES = [leaf(entry) for entry in ENTRIES]
HEAD = checkpoint(600, root(LEAVES))
NOTE = LOG.note(HEAD)


def cosigned(names, content=HEAD, seconds=TIME):
    """The lines of these witnesses."""
    return b''.join(WITNESSES[name].cosigned(content, seconds) for name in names)


def text_of(*lines):
    return '\n'.join([*lines, '']).encode()


def policy_of(names, *lines, logs=(LOG,)):
    """A policy of logs and of witnesses, with these lines behind them."""
    return text_of(*(f'log {key.verifier}' for key in logs),
                   *(f'witness {name} {WITNESSES[name].verifier}' for name in names), *lines)


def proof_of(index, note=NOTE, extra=None):
    """The proof of an entry."""
    return proof_text(index, path(LEAVES, index), note, extra)


def lay_log(folder, note=NOTE):
    """Writes the log into a folder, with this note."""
    for place, content in {**tiles.resources(ENTRIES), 'checkpoint': note}.items():
        write(f'{folder}/{place}', content)


def lay_keys():
    """Writes the private keys into files, of the logs and of the witnesses."""
    for name, key in {'log': LOG, 'next': NEXT, **WITNESSES}.items():
        write(f'{name}.key', f'{key.private}\n'.encode())
