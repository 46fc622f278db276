"""A log of seven entries: commands over it with what they print, and requests to its server and to its witness with the
answers. `memory` and `devices` run these, and have something fail."""
import collections
import os

from suite.offline import proof_text

from .harness import read, write
from .keys import ORIGIN, SeedKey, checkpoint
from .logs import bundle, listing, resources
from .program import OCTETS, TEXT, answer
from .serving import entries, files, post
from .tree import consistency, growth, inclusion, leaf, lines_of, path, root, text

LOG, OTHER = SeedKey(bytes(range(32))), SeedKey(b'w' * 32, 'w.example', 4)
ENTRIES = entries(7)
LEAVES = [leaf(entry) for entry in ENTRIES]
GIVEN = lines_of(ENTRIES)
FAILED = answer(500, 'Internal Server Error')
BUSY = answer(503, 'Service Unavailable', 'Retry-After: 1', kind=TEXT, body=b'not published yet: post it again\n')

# A command: its words, its input, the files before it, and what it prints, in the pieces in which it may come; None of
# one that prints something else each time.
Command = collections.namedtuple('Command', 'words given start printed')


def signed(size):
    """The text of the log's checkpoint."""
    return checkpoint(size, root(LEAVES[:size]))


def head(size):
    """The line of a publication."""
    return f'{size} {text(root(LEAVES[:size]))}\n'.encode()


def log_of(size):
    """The files of the log in the folder `log`."""
    made = {**resources(ENTRIES[:size]), 'checkpoint': LOG.note(signed(size))}
    return {f'log/{path}': content for path, content in made.items()}


def own():
    """The words of the log's key."""
    return '--origin', ORIGIN, '--key', 'log.key'


def lay(top, start):
    """Makes a folder with these files and the keys."""
    os.mkdir(top)
    keys = {'log.key': f'{LOG.private}\n'.encode(), 'w.key': f'{OTHER.private}\n'.encode()}
    for path, content in {**keys, **start}.items():
        write(f'{top}/{path}', content)


def commands():
    """The commands, by a name."""
    note, proof = LOG.note(signed(7)), inclusion(LEAVES, 3)
    lists = b'old 2\n' + lines_of(ENTRIES[:2]) + b'new 7\n' + GIVEN
    audit = lists + ''.join(text(hash) + '\n' for hash in growth(LEAVES, 2)).encode()
    made = {**resources(ENTRIES), 'checkpoint': note}
    grown = {**log_of(7), 'state': LOG.note(signed(2))}
    fetch = 'fetch', '--from', 'log', '--key', LOG.verifier, '--state', 'state'
    shown = 'check', '--checkpoint', 'note', '--key', LOG.verifier, '--entry', ENTRIES[3].decode()
    heads = {size: head(size) for size in range(8)}
    return {
        'head': Command(('head', '--origin', ORIGIN), GIVEN, {}, [signed(7)]),
        'build': Command(('build', *own()), GIVEN, {}, [listing(made)]),
        'build --get': Command(('build', *own(), '--get', 'checkpoint'), GIVEN, {}, [note]),
        'build --dir': Command(('build', *own(), '--dir', 'log'), GIVEN, {}, [heads[7]]),
        'inclusion': Command(('inclusion', '--index', '3'), GIVEN, {}, [proof]),
        'consistency': Command(('consistency', '--old', '3'), GIVEN, {}, [consistency(LEAVES, 3)]),
        'open': Command(('open', '--key', LOG.verifier), note, {}, [signed(7)]),
        'check': Command(('check',), proof, {}, [b'accepted\n']),
        'check --checkpoint': Command(shown, proof, {'note': note}, [b'accepted\n']),
        'audit': Command(('audit',), audit, {}, [b'extends\n']),
        'keygen': Command(('keygen', '--name', 'x'), b'', {}, None),
        'append': Command(('append', *own(), '--dir', 'log', '--batch', '3'), GIVEN, {},
                          [heads[size] for size in (3, 6, 7)]),
        'append to a log': Command(('append', *own(), '--dir', 'log', '--batch', '2'), lines_of(ENTRIES[2:]), log_of(2),
                                   [heads[size] for size in (4, 6, 7)]),
        'fetch --all': Command((*fetch, '--all'), b'', grown, [entry + b'\n' for entry in ENTRIES[2:]]),
        'fetch --head': Command((*fetch, '--head'), b'', grown, [signed(7)]),
        'fetch --prove': Command((*fetch, '--prove', '3', '--cache', 'cache'), b'', grown, [proof]),
        **travelling(),
    }


def travelling():
    """The commands on proofs that travel."""
    note = LOG.note(signed(7)) + OTHER.cosigned(signed(7), 7)
    policy = f'log {LOG.verifier}\nwitness w {OTHER.verifier}\ngroup all any w\nquorum all\n'.encode()
    start = {**log_of(7), 'log/checkpoint': note, 'policy': policy, 'data': b'more', 'entry': ENTRIES[3]}
    plain, more = (proof_text(3, path(LEAVES, 3), note, extra) for extra in (None, b'more'))
    prove, verify = ('prove', '--from', 'log', '--policy', 'policy'), ('verify', '--policy', 'policy')
    shown = [b'accepted 7 3\nwitness w 7\n']
    return {
        'prove --index': Command((*prove, '--index', '3'), b'', start, [plain]),
        'prove --entry-file': Command((*prove, '--entry-file', 'entry', '--extra', 'data'), b'', start, [more]),
        'verify': Command((*verify, '--entry', ENTRIES[3].decode()), plain, start, shown),
        'verify --extra-out': Command((*verify, '--entry-file', 'entry', '--extra-out', 'out'), more, start, shown),
    }


# What is left in a folder

def size_in(top):
    """The size of the checkpoint in a folder."""
    found = read(f'{top}/log/checkpoint')
    return int(found.split(b'\n')[1]) if found else 0


def wrong_log(tlog, top, printed):
    """What is wrong with the log of a folder: the last size that was printed is lost, or the lines that it lacks can't be
    appended."""
    told, size = int(printed.splitlines()[-1].split()[0]) if printed else 0, size_in(top)
    got = tlog.run('append', '--dir', 'log', *own(), given=lines_of(ENTRIES[size:]), cwd=top)
    found, want = files(top), log_of(7)
    lacking = [path for path in want if found.get(path) != want[path]]
    return [('printed', told, 'there', size)] * (size < told) + [('appended', got)] * (got != (0, head(7), b'')) + lacking


def wrong_state(tlog, top, is_whole):
    """What is wrong with the state of a folder: it is the new one once all is printed, and until then that or the old one;
    and what it lacks can be fetched."""
    state, notes = read(f'{top}/state'), [LOG.note(signed(7)), LOG.note(signed(2))]
    got = tlog.run('fetch', '--from', 'log', '--key', LOG.verifier, '--state', 'state', '--head', cwd=top)
    is_due = state in notes[:1 if is_whole else 2]
    return [('state', state)] * (not is_due) + [('fetched', got)] * (got != (0, signed(7), b''))


# A log of six entries that is served, and takes the seventh by a post

SERVE = 'serve', *own(), '--dir', 'log', '--add', '--interval', '1', '--threads', '2', '--timeout', '60'
PLACED = answer(200, 'OK', kind=TEXT, body=b'6')


def page(path, kind, body):
    """The request of a resource, and its answer."""
    return f'GET /{path} HTTP/1.1\r\n\r\n'.encode(), answer(200, 'OK', kind=kind, body=body)


def posted():
    """Requests to the log, each with the answers that are right."""
    made, note = resources(ENTRIES[:6]), page('checkpoint', TEXT, LOG.note(signed(6)))
    later = page('checkpoint', TEXT, LOG.note(signed(7)))
    pages = [note, page('tile/0/000.p/6', OCTETS, made['tile/0/000.p/6']),
             page('tile/entries/000.p/6', OCTETS, bundle(ENTRIES[:6]))]
    return [*((asked, (due,)) for asked, due in pages), (post(ENTRIES[6], '/add'), (PLACED,)),
            (note[0], (note[1], later[1]))]


def wrong_place(top, got):
    """What is wrong with a log that told the place of the entry that was posted: it isn't there, or not shown."""
    return [('told', got, size_in(top))] if PLACED in got and (size_in(top) != 7 or got[4:] == [posted()[0][1][0]]) else []


# A witness that is asked to cosign the log at these sizes

SIZES = 1, 3, 7
WITNESS = ('witness', '--origin', ORIGIN, '--log-key', LOG.verifier, '--key', 'w.key', '--state', 'state', '--time', '7',
           '--threads', '2')
COSIGNED = {size: answer(200, 'OK', kind=TEXT, body=OTHER.cosigned(signed(size), 7)) for size in SIZES}


def to_cosign(old, size):
    """The request to cosign the log of so many entries."""
    proof = ''.join(text(hash) + '\n' for hash in growth(LEAVES[:size], old))
    return post(f'old {old}\n{proof}\n'.encode() + LOG.note(signed(size)))


def conflict(size):
    return answer(409, 'Conflict', kind='text/x.tlog.size', body=b'%d\n' % size)


def cosigning():
    """Requests to the witness, each with the answers that are right: once one failed, the next is told how far it is."""
    steps = zip((0, *SIZES), SIZES)
    return [(to_cosign(*step), (COSIGNED[step[1]], *(conflict(size) for size in (0, *SIZES) if size < step[1])))
            for step in steps]


def wrong_witness(tlog, top, got):
    """What is wrong with the state of a witness: a size that it cosigned is forgotten."""
    most = max((size for size in SIZES if COSIGNED[size] in got), default=0)
    with tlog.start(*WITNESS, cwd=top) as again:
        said = again.ask(to_cosign(0, 7))
    knows = next((size for size in (0, *SIZES) if said == (conflict(size) if size else COSIGNED[7])), None)
    return [('cosigned', most, 'known then', knows, said)] if knows is None or knows < most else []
