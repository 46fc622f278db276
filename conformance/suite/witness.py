"""Rows on a witness: a log of the suite's own is brought before it, which its operator has added (C2SP tlog-witness,
tlog-cosignature). The rows are one story: the log is cosigned at size 5, all that must be refused is tried, and it
grows.
"""
import concurrent.futures
import subprocess
import threading
import time

from . import web
from .asking import LARGE_SIZES, SIZES, Log, Witness, framed, framings, is_now, told, with_mark, wrong_proofs
from .keys import COSIGNER, NOTE, ORDER, SeedKey, key_id, line_of
from .notes import decoded, malformed, signature_lines
from .tree import leaf

FIRST = 5
# So many requests race, so many times.
RIVALS, RACES = 8, 5
STRANGER = b'a key that nobody trusts, 32 b..'


class Story:
    """The witness, the log, and the report of the rows."""

    def __init__(self, report, witness, log):
        self.report, self.witness, self.log = report, witness, log

    def refused(self, name, clause, what, body, *status):
        """A row: a request is answered by one of these status, or by any from 400 on."""
        got = self.witness.post(body)
        is_so = got.status in status if status else 400 <= got.status < 500
        self.report.row(name, clause, f'{what}: {" or ".join(map(str, status)) or "refused"}', is_so, got)
        if got.status == 200:
            self.log.size = told(self.witness.post(self.log.body(0, self.log.size))) or self.log.size
        return got

    def conflicts(self, name, what, body):
        """A row: a request is answered 409, with the size that the witness has."""
        got = self.witness.post(body)
        self.report.row(name, 'old-other', f'{what}: 409', got.status == 409, got)
        self.report.row(f'{name}-told', 'old-told', f'{what}: the size that was cosigned', told(got) == self.log.size,
                        got)

    def cosigned(self, name, clause, what, body, content):
        """A row: a request is answered 200, with the witness's cosignature of a text."""
        got = self.witness.post(body)
        return self.report.row(name, clause, what, self.witness.has_cosigned(got, content), got)

    def grows(self, name, size, clause='cosigns'):
        """A row: the log is cosigned at a larger size."""
        log, what = self.log, f'from {self.log.size} to {size}: cosigned'
        if size <= log.size:
            self.report.skip(name, clause, what, 'the witness has cosigned more already')
        elif self.cosigned(name, clause, what, log.body(log.size, size), log.text(size)):
            log.size = size


def rows_of_key(story):
    key = story.witness.key
    story.report.row('key.type', 'cosigner-key', 'the type of VKEY is 0x04', key.kind == COSIGNER, hex(key.kind))
    story.report.row('key.identifier', 'verifier-key', 'its identifier is that of its name, type and key',
                     key_id(key.name, key.kind, key.public) == key.id, key.id.hex())


def rows_of_first(story):
    """The first checkpoint, from size 0."""
    log, report = story.log, story.report
    got = story.refused('first.proof', 'proof-none', 'from 0 with a hash', log.body(0, FIRST, proof=[leaf(b'')]))
    got = got if got.status == 200 else story.witness.post(log.body(0, FIRST))
    log.size = FIRST
    report.row('first.status', 'cosigns', f'from 0 to {FIRST}: 200 (the log is new to the witness)',
               got.status == 200, got)
    lines = signature_lines(decoded(got.body) or '')
    report.row('first.lines', 'cosigns', 'its body is signature lines', got.status == 200 and lines, got)
    marks = story.witness.marks(got)
    report.row('first.key', 'cosigns', 'one of them is of VKEY', marks, got)
    report.row('first.bytes', 'cosignature', 'it has 8 bytes of time and 64 of signature',
               marks and all(len(m) == 72 for m in marks), got)
    report.row('first.message', 'cosigned-message', 'which is valid over cosignature/v1, the time and the text',
               story.witness.has_cosigned(got, log.text(FIRST)), got)
    report.row('first.time', 'cosignature-time', 'the time is of this hour', marks and all(map(is_now, marks)), got)


def rows_of_sizes(story):
    """Old sizes that are the last one's, and others."""
    log = story.log
    story.conflicts('old.replay', 'the same request again', log.body(0, FIRST))
    story.conflicts('old.zero', f'from 0 to {FIRST + 4}', log.body(0, FIRST + 4))
    story.conflicts('old.small', f'from {FIRST - 2} to {FIRST + 4}', log.body(FIRST - 2, FIRST + 4))
    story.conflicts('old.large', f'from {FIRST + 2} to {FIRST + 4}', log.body(FIRST + 2, FIRST + 4))
    story.conflicts('old.smaller', f'from {FIRST - 3} to {FIRST - 2}', log.body(FIRST - 3, FIRST - 2))
    story.conflicts('old.itself', f'from {FIRST - 2} to {FIRST - 2}', log.body(FIRST - 2, FIRST - 2))
    story.refused('old.above', 'old-above', f'from {FIRST} to {FIRST - 2}', log.body(FIRST, FIRST - 2, proof=[]), 400)
    story.refused('old.above-proof', 'old-above', f'from {FIRST} to {FIRST - 2}, with a proof of the way back',
                  log.body(FIRST, FIRST - 2, proof=log.proof(FIRST - 2, FIRST)), 400)
    story.cosigned('same.again', 'cosigns', f'from {FIRST} to {FIRST}: cosigned again', log.body(FIRST, FIRST),
                   log.text(FIRST))
    story.refused('same.other', 'same-root', 'the same size with another root', log.body(FIRST, FIRST, log.other),
                  409)
    story.refused('same.proof', 'proof-none', 'the same size with a hash', log.body(FIRST, FIRST, proof=[leaf(b'')]))


def rows_of_proofs(story):
    """Proofs that aren't right, and forks with proofs of their own."""
    log, size = story.log, FIRST + 4
    for name, proof in wrong_proofs(log, size).items():
        story.refused(f'proof.{name}', 'proof', f'a wrong proof ({name})', log.body(FIRST, size, proof=proof), 422)
    story.refused('fork.grown', 'proof', 'a fork, with the proof of its own tree', log.body(FIRST, size, log.other),
                  422)
    story.refused('fork.proof', 'proof', "a fork, with the log's proof",
                  log.body(FIRST, size, log.other, log.proof(FIRST, size)), 422)
    story.conflicts('fork.zero', 'a fork from 0', log.body(0, size, log.other))
    story.conflicts('fork.begun', 'a fork from where it forked', log.body(3, size, log.other))


def rows_of_origins(story):
    """Origins that the witness doesn't know."""
    log, seed = story.log, b'o' * 32
    for name, origin in (('other', 'nobody.example/log'), ('longer', f'{log.key.name}x'),
                         ('shorter', log.key.name[:-1]),
                         ('capitals', log.key.name.upper()), ('space', f'{log.key.name} ')):
        key = SeedKey(seed, origin.strip())
        story.refused(f'unknown.{name}', 'unknown-log', f'an unknown origin ({name})',
                      framed(0, [], key.note(log.text(FIRST, origin=origin))), 404)
    content = log.text(FIRST, origin='nobody.example/log')
    story.refused('unknown.signed', 'unknown-log', "an unknown origin, signed by the log's key",
                  framed(0, [], log.key.note(content)), 404)


def rows_of_signatures(story):
    """Notes that the log's key didn't sign, and signatures that count for nothing."""
    log, size = story.log, FIRST
    stranger, twin = SeedKey(STRANGER, log.key.name), SeedKey(b't' * 32, 'twin.example/log')
    content, mark = log.text(size), log.key.mark(log.text(size))
    malleable = mark[:32] + (int.from_bytes(mark[32:], 'little') + ORDER).to_bytes(32, 'little')
    cosigner = key_id(log.key.name, COSIGNER, log.key.public)
    notes = {
        'stranger': (stranger.note(content), 'signed by another key of its name'),
        'identifier': (with_mark(log, stranger.mark(content), size, id=log.key.id),
                       'by another key with its identifier'),
        'earlier': (with_mark(log, log.key.mark(log.text(size - 1)), size), 'with its line of another checkpoint'),
        'name': (with_mark(log, mark, size, 'another.example', key_id('another.example', NOTE, log.key.public)),
                 'under another name'),
        'changed': (with_mark(log, mark[:40] + bytes([mark[40] ^ 1]) + mark[41:], size), 'with a bit changed'),
        'cut': (with_mark(log, mark[:-1], size), 'with a signature of 63 bytes'),
        'cosigner': (content + b'\n' + line_of(log.key.name, cosigner, bytes(8) + mark),
                     'with a cosignature in its place')}
    for name, (note, what) in notes.items():
        story.refused(f'untrusted.{name}', 'untrusted', f'a checkpoint {what}', framed(size, [], note), 403)
    story.refused('untrusted.scalar', 'scalar', 'a signature whose scalar is the order more',
                  framed(size, [], with_mark(log, malleable, size)))
    lines = twin.line(content) + stranger.line(content), twin.cosigned(content, 1) + stranger.line(b'')
    story.cosigned('ignored.lines', 'ignored-lines', 'lines of unknown keys before and behind its own: cosigned',
                   framed(size, [], content + b'\n' + lines[0] + log.key.line(content) + lines[1]), content)


def rows_of_extensions(story):
    """A checkpoint with a line behind the root: what is cosigned is all of it."""
    log = story.log
    content = log.text(FIRST, more=('an extension',))
    got = story.witness.post(framed(FIRST, [], log.key.note(content)))
    story.report.row('extensions.signed', 'extensions',
                     'with an extension line, the whole text is cosigned, or nothing',
                     got.status != 200 or story.witness.has_cosigned(got, content), got)


def rows_of_forms(story):
    """Requests that aren't well-formed. That they are answered 400 is another row."""
    log, others = story.log, []
    many = framed(FIRST, [*log.proof(FIRST, FIRST + 4), *[leaf(b'')] * 61], log.key.note(log.text(FIRST + 4)))
    table = [(name, 'request', body) for name, body in framings(log).items()]
    texts = malformed(log.key.name, FIRST, log.list.head(FIRST))
    table += [(name, 'note-text', framed(FIRST, [], log.key.note(content))) for name, content in texts.items()]
    for name, clause, body in [*table, ('hashes', 'most-hashes', many)]:
        got = story.refused(f'malformed.{name}', clause, f'a malformed request ({name})', body)
        others += [] if got.status == 400 else [f'{name}: {got.status}']
    story.report.row('malformed.status', 'request-bad', f'these {len(table) + 1} are answered 400', not others,
                     *others)
    story.conflicts('malformed.stays', 'after all that, from 0', log.body(0, FIRST))


def rows_of_methods(story):
    got = web.ask(story.witness.url, 'add-checkpoint', method='GET')
    story.report.row('method.get', 'posts', 'GET is refused', got.status >= 400, got)
    story.report.row('method.status', 'method', 'by 405, with Allow', got.status == 405 and 'allow' in got.fields,
                     got, got.fields)


def at_once(story, bodies):
    """The answers to requests that are posted at once."""
    gate = threading.Barrier(len(bodies))

    def post(body):
        gate.wait()
        return story.witness.post(body)
    with concurrent.futures.ThreadPoolExecutor(len(bodies)) as pool:
        return list(pool.map(post, bodies))


def rows_of_races(story):
    """Forks from one size that are posted at once, and one request many times."""
    log, wrong = story.log, []
    for _ in range(RACES):
        size, forks = log.size + 1, [log.fork(place) for place in range(RIVALS)]
        answers = at_once(story, [log.body(log.size, size, fork) for fork in forks])
        taken = [place for place, got in enumerate(answers) if got.status == 200]
        wrong += [] if len(taken) == 1 else [f'{len(taken)} at size {size}']
        if taken:
            log.list, log.size = forks[taken[0]], size
    story.report.row('race.forks', 'atomic', f'of {RIVALS} forks at once one is cosigned, {RACES} times', not wrong,
                     *wrong)
    story.conflicts('race.after', 'after the races, from 0', log.body(0, log.size))
    size = log.size + 1
    count = [got.status for got in at_once(story, [log.body(log.size, size)] * RIVALS)].count(200)
    log.size = size if count else log.size
    story.report.row('race.replays', 'atomic', f'of {RIVALS} equal requests at once one is cosigned', count == 1,
                     count)


def rows_of_restart(story, command):
    """What was cosigned outlasts a restart of the witness."""
    what, log = 'after a restart, from 0', story.log
    if not command:
        story.report.skip('restart.kept', 'persists', what, 'no --restart')
        return
    subprocess.run(command, shell=True, check=True, stdout=subprocess.DEVNULL)
    end = time.monotonic() + 30
    while (got := story.witness.post(log.body(0, log.size))).status == 0 and time.monotonic() < end:
        story.witness.silent = 0
        time.sleep(0.1)
    story.report.row('restart.kept', 'persists', f'{what}: 409 and the size', told(got) == log.size, got)
    story.grows('restart.grows', log.size + 1)


def rows_of_growth(story, sizes, clause, name):
    for size in sizes:
        story.grows(f'{name}.{size}', size, clause)
        if clause == 'sizes':
            got = story.witness.post(story.log.body(0, size))
            story.report.row(f'{name}.{size}-told', 'old-told', f'then from 0: the size {size}', told(got) == size,
                             got)
    story.conflicts(f'{name}.last', f'then from 0 to {story.log.size}', story.log.body(0, story.log.size))


def run(report, url, key, log_key, restart=None, seconds=20):
    """The rows of a witness that has never seen the log of this key."""
    story = Story(report, Witness(url, key, seconds), Log(log_key))
    for part in (rows_of_key, rows_of_first, rows_of_sizes, rows_of_proofs, rows_of_origins, rows_of_signatures,
                 rows_of_extensions, rows_of_forms, rows_of_methods):
        part(story)
    rows_of_growth(story, SIZES, 'cosigns', 'grows')
    rows_of_races(story)
    rows_of_restart(story, restart)
    rows_of_growth(story, LARGE_SIZES, 'sizes', 'sizes')
    above = story.log.text(2 ** 63)
    story.refused('sizes.above', 'request-bad', 'a size of 2^63', framed(story.log.size, [], log_key.note(above)),
                  400)
