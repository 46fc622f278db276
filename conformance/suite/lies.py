"""The scenes that a client is shown: honest logs, and logs that lie. Each lie is about one resource, and all else is
right."""
import functools

from . import stage
from .keys import COSIGNER, NOTE, ORDER, SeedKey, cosigned_message, key_id, line_of
from .notes import LARGEST, checkpoint, malformed
from .tiles import bundle, resources
from .tree import leaf, root

ORIGIN = 'conformance.example/log'
SIZE, TIME = 300, 1700000000
CHECKPOINT, FULL, PARTIAL, TOP = 'checkpoint', 'tile/0/000', 'tile/0/001.p/44', 'tile/1/000.p/1'
FIRST, LAST = 'tile/entries/000', 'tile/entries/001.p/44'
PAGE = b'<!DOCTYPE html><html><body>not found</body></html>\n'


class Scene:
    """What a command is shown: resources by path, of which some may be lies, and what it was shown before with the
    same state. `needs` is a placeholder without which the scene shows nothing."""

    def __init__(self, name, clause, what, shows, lies=(), before=None, index=290, needs=''):
        self.name, self.clause, self.what, self.shows, self.lies = name, clause, what, shows, set(lies)
        self.before, self.index, self.needs = before, index, needs or ('{state}' if before else '')


@functools.lru_cache(maxsize=None)
def entries(size, fork=None):
    """Entries, and from `fork` on others."""
    return [(b'entry %d' if fork is None or number < fork else b'other %d') % number for number in range(size)]


@functools.lru_cache(maxsize=None)
def head(size, fork=None):
    return root([*map(leaf, entries(size, fork))])


class Makers:
    """The log's key, its witness, and the logs that they sign. Checkpoints are cosigned if the command knows the
    witness."""

    def __init__(self, is_witnessed):
        self.key = SeedKey(b'the key of the conforming log .. ', ORIGIN)
        self.witness = SeedKey(b'the key of its only witness .. ', 'witness.conformance.example', COSIGNER)
        self.is_witnessed = is_witnessed

    def signed(self, content):
        return self.with_lines(content, self.key.line(content))

    def with_lines(self, content, *lines):
        """A note with these lines, and the witness's."""
        cosigned = self.witness.cosigned(content, TIME) if self.is_witnessed else b''
        return b''.join([content, b'\n', *lines, cosigned])

    @functools.lru_cache(maxsize=None)
    def text(self, size=SIZE, fork=None):
        return checkpoint(ORIGIN, size, head(size, fork))

    def log(self, size=SIZE, fork=None):
        """The resources of a log."""
        return {**resources(entries(size, fork)), CHECKPOINT: self.signed(self.text(size, fork))}

    def of(self, some):
        """The resources of the log of these entries."""
        content = checkpoint(ORIGIN, len(some), root([*map(leaf, some)]))
        return {**resources(some), CHECKPOINT: self.signed(content)}


# Honest logs

def honest(makers):
    """Logs that must be taken."""
    for size in (1, 2, 255, 256, 257, SIZE, 600):
        yield Scene(f'honest.{size}', 'tree', f'a log of {size} entries', makers.log(size), index=size - 1)
    odd = [b'', b'\n', b'a\nb', bytes(range(256)), b'\\', b'\xff\xfe', bytes(65535), b'x' * 65535, b'', b'']
    yield Scene('honest.bytes', 'bundle', 'entries of any bytes, none and 65,535 of them', makers.of(odd), index=3)
    content, log = makers.text(), makers.log()
    others = SeedKey(b'o' * 32, 'other.example/log'), SeedKey(b'n' * 32, ORIGIN), SeedKey(b'w' * 32, 'w.example',
                                                                                          COSIGNER)
    lines = [others[0].line(content), others[1].line(content), others[2].cosigned(content, TIME)]
    yield Scene('honest.lines', 'unknown-keys', 'lines of unknown keys before and behind its own',
                {**log, CHECKPOINT: makers.with_lines(content, *lines, makers.key.line(content),
                                                      others[0].line(b''))})
    more = checkpoint(ORIGIN, SIZE, head(SIZE), 'an extension', 'and another')
    yield Scene('honest.extensions', 'extensions', 'extension lines', {**log, CHECKPOINT: makers.signed(more)})
    longer = makers.log(600)
    fuller = {path: content for path, content in {**longer, **log}.items() if path not in (PARTIAL, LAST)}
    yield Scene('honest.full-instead', 'full-instead', 'partial ones are gone, and full ones there', fuller)


def transports(makers):
    """Ways in which an honest answer may come, and answers that are cut."""
    log = makers.log()
    for name, way in (('chunks', stage.chunks), ('closed', stage.without_length),
                      ('old', lambda body: stage.without_length(body, 'HTTP/1.0')),
                      ('lower', lambda body: [part.replace(b'Content-Length',
                                                           b'content-length') for part in stage.whole(body)])):
        shows = {path: way(body) for path, body in log.items()}
        yield Scene(f'http.{name}', 'framing', f'answers over HTTP ({name})', shows)
    shows = {path: [b'HTTP/1.1 100 Continue\r\n\r\n', *stage.whole(body)] for path, body in log.items()}
    yield Scene('http.interim', 'interim', 'answers after interim ones', shows)
    for kind, path, index in (('checkpoint', CHECKPOINT, 290), ('tile', FULL, 10), ('bundle', FIRST, 10)):
        body = log[path]
        ways = {'cut': ('incomplete', stage.whole(body, path, more=32)), 'endless': ('ends', stage.endless(body)),
                'chunks-cut': ('incomplete', stage.chunks(body, b'')),
                'failed': ('status', stage.whole(body, path, '500 Internal Server Error')),
                'missing': ('status', stage.whole(body, path, '404 Not Found'))}
        for name, (clause, raw) in ways.items():
            yield Scene(f'http.{name}-{kind}', clause, f'an answer with a {kind} that is right ({name})',
                        {**log, path: raw}, [path], index=index)


# Lies

def false_lines(key, content, earlier):
    """Signature lines of a text that aren't the key's, by what is wrong: the clause, and the line. `earlier` is
    another text."""
    stranger, mark, name = SeedKey(b's' * 32, key.name), key.mark(content), 'other.example'
    raised = mark[:32] + (int.from_bytes(mark[32:], 'little') + ORDER).to_bytes(32, 'little')
    return {
        'stranger': ('unknown-keys', stranger.line(content)),
        'identifier': ('verified', line_of(key.name, key.id, stranger.mark(content))),
        'earlier': ('verified', key.line(earlier)),
        'changed': ('verified', line_of(key.name, key.id, mark[:40] + bytes([mark[40] ^ 1]) + mark[41:])),
        'point': ('verified', line_of(key.name, key.id, bytes([mark[0] ^ 1]) + mark[1:])),
        'cut': ('verified', line_of(key.name, key.id, mark[:-1])),
        'zeros': ('verified', line_of(key.name, key.id, bytes(64))),
        'name': ('unknown-keys', line_of(name, key_id(name, NOTE, key.public), mark)),
        'kind': ('unknown-keys', line_of(key.name, key_id(key.name, COSIGNER, key.public), bytes(8) + mark)),
        'scalar': ('scalar', line_of(key.name, key.id, raised))}


def signatures(makers):
    """Checkpoints that the log's key didn't sign."""
    log, content = makers.log(), makers.text()
    for name, (clause, line) in false_lines(makers.key, content, makers.text(SIZE - 1)).items():
        yield Scene(f'signature.{name}', clause, f"a line that isn't the key's ({name})",
                    {**log, CHECKPOINT: makers.with_lines(content, line)}, [CHECKPOINT])
    yield Scene('signature.none', 'verified', 'no line', {**log, CHECKPOINT: content}, [CHECKPOINT])


def no_notes(note):
    """What is no note, by what is wrong."""
    return {'crlf': note.replace(b'\n', b'\r\n'), 'dash': note.replace('\u2014'.encode(), b'-'), 'page': PAGE,
            'gap': note.replace(b'\n\n', b'\n'), 'empty': b'', 'control': note[:-1] + b'\t\n'}


def texts(makers):
    """Checkpoints that are changed, or that the log's key signed and that are none, or another log's."""
    log, content = makers.log(), makers.text()
    line = makers.key.line(content)
    for name, other in (('size', checkpoint(ORIGIN, SIZE - 1, head(SIZE))),
                        ('root', checkpoint(ORIGIN, SIZE, head(SIZE, 0))),
                        ('origin', checkpoint('other.example', SIZE, head(SIZE))), ('more', content + b'more\n')):
        yield Scene(f'changed.{name}', 'verified', f'a checkpoint whose {name} was changed',
                    {**log, CHECKPOINT: makers.with_lines(other, line)}, [CHECKPOINT])
    for name, other in malformed(ORIGIN, SIZE, head(SIZE)).items():
        yield Scene(f'text.{name}', 'note-text', f'a signed text that is no checkpoint ({name})',
                    {**log, CHECKPOINT: makers.signed(other)}, [CHECKPOINT])
    yield Scene('text.size-large', 'note-text', 'a size above 2^63-1',
                {**log, CHECKPOINT: makers.signed(checkpoint(ORIGIN, LARGEST + 1 + SIZE, head(SIZE)))}, [CHECKPOINT])
    other = checkpoint('other.example/log', SIZE, head(SIZE))
    yield Scene('origin.other', 'origin', "another log's checkpoint, signed by this one's key",
                {**log, CHECKPOINT: makers.signed(other)}, [CHECKPOINT])
    for name, other in no_notes(log[CHECKPOINT]).items():
        yield Scene(f'note.{name}', 'note', f'what is no note ({name})', {**log, CHECKPOINT: other}, [CHECKPOINT])


def tiles(makers):
    """Tiles that aren't those of the checkpoint."""
    log = makers.log()
    for kind, path, index in (('full', FULL, 10), ('partial', PARTIAL, 290), ('top', TOP, 290)):
        body = log[path]
        ways = {'changed': bytes([body[0] ^ 1]) + body[1:], 'end': body[:-1] + bytes([body[-1] ^ 1]),
                'cut': body[:-1],
                'short': body[:-32], 'long': body + bytes(32), 'longer': body + b'x', 'doubled': body * 2,
                'empty': b'',
                'page': PAGE, 'missing': None}
        ways.update({'exchanged': body[32:64] + body[:32] + body[64:],
                     'other': log[TOP]} if path != TOP else {'other': log[PARTIAL]})
        for name, other in ways.items():
            yield Scene(f'tile-{kind}.{name}', 'tile', f'a wrong tile, the {kind} one ({name})', {**log, path: other},
                        [path], index=index)
    lied = {**makers.log(SIZE, 0), CHECKPOINT: log[CHECKPOINT]}
    yield Scene('tiles.other', 'tree', "another log's tiles and bundles", lied,
                [path for path in lied if path != CHECKPOINT])


def bundles(makers):
    """Bundles whose entries aren't those of the log, or that are none."""
    log = makers.log()
    for kind, path, index, some in (('full', FIRST, 10, entries(256)), ('partial', LAST, 290, entries(SIZE)[256:])):
        body, place = log[path], index % 256
        changed = [*some[:place], some[place] + b'x', *some[place + 1:]]
        turned = [*some[:place], some[place + 1], some[place], *some[place + 2:]]
        moved = [*some[:place], some[place] + some[place + 1][:1], some[place + 1][1:], *some[place + 2:]]
        ways = {'changed': bundle(changed), 'exchanged': bundle(turned), 'moved': bundle(moved),
                'short': bundle(some[:-1]),
                'long': bundle([*some, b'more']), 'none-more': bundle([*some, b'']), 'wide': bundle(some, 4),
                'cut': body[:-1],
                'longer': body + b'x', 'empty': b'', 'page': PAGE, 'missing': None, 'lines': b'\n'.join([*some, b'']),
                'late': bundle([*some[1:], some[0]]), 'other': log[LAST if path == FIRST else FIRST]}
        for name, other in ways.items():
            clause = 'leaf' if name in ('changed', 'exchanged', 'moved', 'late') else 'bundle'
            yield Scene(f'bundle-{kind}.{name}', clause, f'a wrong bundle, the {kind} one ({name})',
                        {**log, path: other}, [path], index=index)


def growths(makers):
    """Logs that grow between two runs, and that fork or go back."""
    for old, size in ((1, 2), (200, SIZE), (255, 256), (256, 257), (299, SIZE), (SIZE, SIZE), (SIZE, 600)):
        yield Scene(f'grown.{old}-{size}', 'append-only', f'a log that grew from {old} to {size}', makers.log(size),
                    before=makers.log(old), index=size - 1)
    for name, old, size, fork in (('same-size', SIZE, SIZE, SIZE - 1), ('first', 200, SIZE, 0),
                                  ('early', 200, SIZE, 100),
                                  ('last', 299, SIZE, 298), ('full', 256, 600, 255), ('larger', 10, SIZE, 9)):
        yield Scene(f'fork.{name}', 'append-only', f'after {old} entries, {size} of which others begin at {fork}',
                    makers.log(size, fork), [CHECKPOINT], makers.log(old), index=5)
    yield Scene('older.same', 'older', 'after 300 entries, 200 of them', makers.log(200), [CHECKPOINT],
                makers.log(SIZE), index=5)
    yield Scene('older.fork', 'append-only', 'after 300 entries, 200 others', makers.log(200, 100), [CHECKPOINT],
                makers.log(SIZE), index=5)


def false_cosignatures(witness, key, content, earlier):
    """Lines that aren't the witness's cosignature of a text, by what is wrong: the clause, and the line. `earlier` is
    another text, and `key` that of the log."""
    other, twin = SeedKey(b'v' * 32, 'other.example', COSIGNER), SeedKey(b'v' * 32, witness.name, COSIGNER)
    mark = witness.mark(cosigned_message(content, TIME))
    return {'other': ('unknown-keys', other.cosigned(content, TIME)),
            'twin': ('unknown-keys', twin.cosigned(content, TIME)),
            'earlier': ('cosigned-message', witness.cosigned(earlier, TIME)),
            'plain': ('cosigned-message', witness.line(content, TIME.to_bytes(8, 'big'))),
            'note': ('cosignature', witness.line(content)),
            'time': ('cosigned-message', line_of(witness.name, witness.id, (TIME + 1).to_bytes(8, 'big') + mark)),
            'log': ('unknown-keys', key.cosigned(content, TIME))}


def cosignatures(makers):
    """Checkpoints that the witness didn't cosign."""
    log, content = makers.log(), makers.text()
    lines = false_cosignatures(makers.witness, makers.key, content, makers.text(SIZE - 1))
    for name, (clause, line) in {'none': ('cosigned-message', b''), **lines}.items():
        note = content + b'\n' + makers.key.line(content) + line
        yield Scene(f'cosigned.{name}', clause, f"without the witness's cosignature ({name})",
                    {**log, CHECKPOINT: note}, [CHECKPOINT],
                    needs='{witness}')


def scenes(makers):
    """All of them."""
    for part in (honest, transports, signatures, texts, tiles, bundles, growths, cosignatures):
        yield from part(makers)
