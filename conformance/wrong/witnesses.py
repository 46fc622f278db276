"""A witness that keeps to C2SP tlog-witness, in memory, and others with one mistake each: a class for each."""
import contextlib
import threading
import time

from suite.keys import cosigned_message, is_valid
from suite.notes import checkpoint, checkpoint_in, marks_by, note_in, request_in
from suite.tree import grows, sha

TEXT, SIZE = 'text/plain; charset=utf-8', 'text/x.tlog.size'


class Witness:
    """The witness of one log."""

    def __init__(self, key, log):
        self.key, self.log, self.lock = key, log, threading.Lock()
        self.size, self.root = 0, sha(b'')

    def answer(self, method, path, body):
        if path != 'add-checkpoint' or method != 'POST':
            return (404 if path != 'add-checkpoint' else 405), TEXT, b''
        request = self.read(body)
        note = request and note_in(request[2])
        found = checkpoint_in(note[0]) if note else None
        if not isinstance(found, tuple):
            return 400, TEXT, b''
        if not self.knows(found[0]):
            return 404, TEXT, b''
        if not self.trusts(note):
            return 403, TEXT, b''
        with self.held():
            return self.refusal(*request[:2], *found[1:]) or self.take(*found[1:], note[0])

    def read(self, body):
        return request_in(body)

    def knows(self, origin):
        return origin == self.log.name

    def trusts(self, note):
        return any(is_valid(self.log.public, note[0].encode(), mark) for mark in marks_by(self.log, note[1]))

    def held(self):
        return self.lock

    def refusal(self, old, proof, size, root):
        """Why a checkpoint isn't cosigned, None if it is."""
        if old > size:
            return 400, TEXT, b''
        if old != self.size or old == size and not self.is_same(root):
            return self.conflict()
        return None if self.proves(old, size, root, proof) else (422, TEXT, b'')

    def is_same(self, root):
        return root == self.root

    def proves(self, old, size, root, proof):
        return grows(old, self.root, size, root, proof)

    def conflict(self):
        return 409, SIZE, b'%d\n' % self.size

    def take(self, size, root, content):
        """Keeps a checkpoint, and cosigns it."""
        self.size, self.root = size, root
        return 200, TEXT, self.cosigned(content.encode())

    def now(self):
        return int(time.time())

    def cosigned(self, content):
        return self.key.cosigned(content, self.now())


class Smaller(Witness):
    """Cosigns a smaller size than it has, as one that it must have seen."""

    def refusal(self, old, proof, size, root):
        return None if size < self.size else super().refusal(old, proof, size, root)


class SameSize(Witness):
    """Doesn't compare the roots of one size."""

    def is_same(self, root):
        return True

    def proves(self, old, size, root, proof):
        return old == size or super().proves(old, size, root, proof)


class UnknownKey(Witness):
    """Accepts the line of an unknown key that has the log's name."""

    def trusts(self, note):
        return super().trusts(note) or any(name == self.log.name and id != self.log.id and len(mark) == 64
                                           for name, id, _, mark in note[1])


class AnyOld(Witness):
    """Starts from any checkpoint that it has cosigned, not only from the last."""

    def __init__(self, key, log):
        super().__init__(key, log)
        self.seen = {0: sha(b'')}

    def refusal(self, old, proof, size, root):
        if old in self.seen and old < size:
            return None if grows(old, self.seen[old], size, root, proof) else (422, TEXT, b'')
        return super().refusal(old, proof, size, root)

    def take(self, size, root, content):
        self.seen[size] = root
        return super().take(size, root, content)


class Race(Witness):
    """Compares and keeps in two steps, between which another request may come."""

    def held(self):
        return contextlib.nullcontext()

    def take(self, size, root, content):
        time.sleep(0.05)
        return super().take(size, root, content)


class NoProof(Witness):
    """Takes a proof without hashes for one that has nothing to check."""

    def proves(self, old, size, root, proof):
        return not proof or super().proves(old, size, root, proof)


class LongProof(Witness):
    """Passes over hashes behind the end of a proof."""

    def proves(self, old, size, root, proof):
        return any(super(LongProof, self).proves(old, size, root, proof[:end]) for end in range(len(proof), -1, -1))


class Milliseconds(Witness):
    """Signs the time in milliseconds."""

    def now(self):
        return int(time.time() * 1000)


class PlainText(Witness):
    """Signs the text of the checkpoint, without the time."""

    def cosigned(self, content):
        return self.key.line(content, self.now().to_bytes(8, 'big'))


class NoteKey(Witness):
    """Signs the right message, and leaves the time out of its line."""

    def cosigned(self, content):
        return self.key.line(cosigned_message(content, self.now()))


class PlainConflict(Witness):
    """Reports its size in an answer of another type."""

    def conflict(self):
        return 409, TEXT, b'%d\n' % self.size


class Float(Witness):
    """Keeps sizes as floating-point numbers."""

    def take(self, size, root, content):
        return super().take(int(float(size)), root, content)


class Rebuilt(Witness):
    """Signs a text that it makes of origin, size and root."""

    def take(self, size, root, content):
        return super().take(size, root, checkpoint(self.log.name, size, root).decode())


class Prefix(Witness):
    """Knows each origin that begins with the log's."""

    def knows(self, origin):
        return origin.startswith(self.log.name)


class AnyNumber(Witness):
    """Reads the old size as Python does: with a sign, with zeros, between spaces."""

    def read(self, body):
        line, _, rest = body.partition(b'\n')
        try:
            return request_in(b'old %d\n' % int(line.removeprefix(b'old ')) + rest)
        except ValueError:
            return None


# Each mistake, and the row that is for it.
MISTAKES = [(Smaller, 'old.smaller'), (SameSize, 'same.other'), (UnknownKey, 'untrusted.stranger'),
            (AnyOld, 'fork.zero'),
            (Race, 'race.forks'), (NoProof, 'proof.none'), (LongProof, 'proof.long'), (Milliseconds, 'first.time'),
            (PlainText, 'first.message'), (NoteKey, 'first.bytes'), (PlainConflict, 'old.replay-told'),
            (Float, f'sizes.{2 ** 53 + 1}-told'), (Rebuilt, 'extensions.signed'), (Prefix, 'unknown.longer'),
            (AnyNumber, 'malformed.old-zeros')]
