"""A log of the suite's own, and what it asks a witness to cosign (C2SP tlog-witness, "add-checkpoint")."""
import time

from . import web
from .keys import cosigned_message, is_valid, line_of
from .notes import LARGEST, checkpoint, decoded, marks_by, number, signature_lines
from .tree import Endless, text

ENTRIES = [b'entry %d' % number for number in range(1000)]
HOUR = 3600


class Log:
    """A log, its key, and the size up to which the witness is to have cosigned it."""

    def __init__(self, key):
        self.key, self.size = key, 0
        self.list = Endless(ENTRIES, b'rest')
        self.other = self.list.fork(3, b'another')

    def fork(self, place):
        """The log as it may go on behind its size: another list at each place."""
        return self.list.fork(self.size, b'fork %d of %d' % (place, self.size))

    def text(self, size, of=None, origin=None, more=()):
        """The text of the checkpoint of a size."""
        return checkpoint(origin or self.key.name, size, (of or self.list).head(size), *more)

    def proof(self, old, size, of=None):
        return (of or self.list).growth(old, size)

    def body(self, old, size, of=None, proof=None):
        """A request, with the right proof if no other is given."""
        hashes = self.proof(old, size, of) if proof is None else proof
        return framed(old, hashes, self.key.note(self.text(size, of)))


def framed(old, hashes, note):
    """The body of a request."""
    return b'old %d\n' % old + ''.join(f'{text(hash)}\n' for hash in hashes).encode() + b'\n' + note


class Witness:
    """The witness that is asked, by its address and its verifier key, and the seconds that an answer has."""

    def __init__(self, url, key, seconds):
        self.url, self.key, self.seconds, self.silent = url, key, seconds, 0

    def post(self, body):
        """The answer to a request. After three that had none, nothing more is asked."""
        if self.silent == 3:
            return web.Answer(0, {}, b'not asked, since the last three requests had no answer')
        got = web.ask(self.url, 'add-checkpoint', body, seconds=self.seconds)
        self.silent = 0 if got.status else self.silent + 1
        return got

    def marks(self, answer):
        """What the witness's key signed with, in an answer."""
        lines = signature_lines(decoded(answer.body) or '') if answer.status == 200 else None
        return marks_by(self.key, lines or [])

    def has_cosigned(self, answer, content):
        """Whether an answer has the witness's cosignature of a text."""
        return any(len(mark) == 72 and is_valid(self.key.public, cosigned_message(content, time_of(mark)), mark[8:])
                   for mark in self.marks(answer))


def time_of(mark):
    return int.from_bytes(mark[:8], 'big')


def is_now(mark):
    """Whether a cosignature's time is of this hour."""
    return abs(time_of(mark) - time.time()) < HOUR


def told(answer):
    """The size that a 409 reports, and None if it doesn't report one as it should."""
    word = decoded(answer.body) or ''
    is_told = answer.status == 409 and answer.kind == 'text/x.tlog.size' and word.endswith('\n')
    return number(word[:-1]) if is_told else None


def with_mark(log, mark, size, name=None, id=None):
    """A note of the log's, signed by these bytes."""
    return log.text(size) + b'\n' + line_of(name or log.key.name, id or log.key.id, mark)


# Requests that aren't as they are to be. All else about them is right, so whoever passes over what is wrong cosigns.

def framings(log):
    """Requests whose lines aren't as they are to be, by what is wrong: for the size that the witness has, as far as
    that can be, and else for a larger one."""
    old, size = log.size, log.size + 4
    front, note, grown = b'old %d\n' % old, log.key.note(log.text(old)), log.key.note(log.text(size))
    first, *others = [text(hash).encode() for hash in log.proof(old, size)]
    hash, rest = log.proof(old, size)[0], b''.join(other + b'\n' for other in others) + b'\n' + grown
    lines = {'zeros': b'old 0%d\n', 'sign': b'old +%d\n', 'spaces': b'old  %d\n', 'behind': b'old %d \n',
             'crlf': b'old %d\r\n',
             'capitals': b'OLD %d\n', 'hexadecimal': b'old 0x%x\n', 'point': b'old %d.0\n', 'word': b'%d\n'}
    hashes = {'short': first[:-2], 'unpadded': first[:-1], 'behind': first + b' ', 'crlf': first + b'\r',
              'hexadecimal': hash.hex().encode(),
              'of-31': text(hash[:31]).encode(), 'of-33': text(hash + b'x').encode(), 'quoted': b'"%s"' % first}
    notes = {'missing': b'', 'unsigned': log.text(old), 'cut': note[:-1], 'crlf': note.replace(b'\n', b'\r\n'),
             'dash': note.replace('\u2014'.encode(), b'-')}
    return {'empty': b'', 'old-missing': b'\n' + note, 'gap-missing': front + note,
            'hash-after-gap': front + b'\n' + first + b'\n' + rest[1:],
            **{f'old-{name}': line % old + b'\n' + note for name, line in lines.items()},
            **{f'hash-{name}': front + line + b'\n' + rest for name, line in hashes.items()},
            **{f'note-{name}': front + b'\n' + other for name, other in notes.items()}}


def wrong_proofs(log, size):
    """Proofs that don't show the way from the size that the witness has to a larger one."""
    right, old = log.proof(log.size, size), log.size
    changed = {f'changed-{place}': [*right[:place], bytes([hash[0] ^ 1]) + hash[1:], *right[place + 1:]]
               for place, hash in enumerate(right)}
    return {'none': [], 'short': right[:-1], 'late': right[1:], 'long': [*right, right[-1]],
            'longer': [*right, *right],
            'zeros': [bytes(32)] * len(right), 'turned': right[::-1], 'of-another-size': log.proof(old - 1, size),
            'of-a-larger-one': log.proof(old, size + 1), **changed}


SIZES = [6, 7, 8, 9, 15, 16, 17, 255, 256, 257, 600]
LARGE_SIZES = [2 ** 31 - 1, 2 ** 31, 2 ** 32 - 1, 2 ** 32, 2 ** 53, 2 ** 53 + 1, 2 ** 62, LARGEST - 1, LARGEST]
