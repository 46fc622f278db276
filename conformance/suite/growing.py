"""Rows on a log that grows: what was served before stays, and the new tree begins with the old one."""
import concurrent.futures
import secrets
import time

from . import web
from .notes import checkpoint_in, is_signed, note_in
from .tiles import entries_of
from .tree import text

# How many entries are posted in each step: the second one fills a bundle. So many are posted at once.
STEPS, AT_ONCE = (20, 300), 64
GONE = 403, 404, 410
# A posted entry is to be in the log after so many seconds.
PATIENCE = 60


def head_of(url, key):
    """The checkpoint of the log, and None if it can't be trusted."""
    note = note_in(web.plain(web.ask(url, 'checkpoint')))
    found = checkpoint_in(note[0]) if note and is_signed(note, key) else None
    return found if isinstance(found, tuple) else None


def post(url, entry):
    """The index of an entry that is posted, and what was answered if there is none. One that wasn't published is
    posted again."""
    for _ in range(10):
        got = web.ask(url, 'add', entry, seconds=PATIENCE)
        if got.status != 503:
            break
        time.sleep(1)
    word = got.body.strip()
    return int(word) if got.status == 200 and word.isdigit() else got


def post_all(report, url, count):
    """Posts new entries, at once: the index of each."""
    run = secrets.token_hex(8)
    entries = [f'conformance {run} {number}'.encode() for number in range(count)]
    with concurrent.futures.ThreadPoolExecutor(AT_ONCE) as pool:
        answers = list(pool.map(lambda entry: post(url, entry), entries))
    wrong = [got for got in answers if not isinstance(got, int)]
    report.row('grown.posted', 'added', f'{count} entries that are posted to /add get an index', not wrong,
               *wrong[:3])
    return {index: entry for entry, index in zip(entries, answers) if isinstance(index, int)}


def wait_for(url, key, size, seconds):
    """The first checkpoint of this size or more, or the last one in this time."""
    end = time.monotonic() + seconds
    while not (found := head_of(url, key)) or found[1] < size:
        if time.monotonic() > end:
            break
        time.sleep(0.1)
    return found


def rows_of_kept(report, old):
    """What was served before stays, or goes once its full one is there."""
    there = [(path, got) for path, got in old.kept.items() if got.status == 200]
    now = {path: web.ask(old.url, path) for path, _ in there}
    changed = [(path, got, now[path]) for path, got in there
               if now[path].status == 200 and web.plain(now[path]) != web.plain(got)]
    report.row('grown.same', 'immutable', f'each of {len(there)} tiles and bundles that were served is the same',
               not changed, *changed[:3])
    gone = [path for path, got in now.items() if got.status != 200]
    lost = [(path, now[path]) for path in gone if now[path].status not in GONE or '.p/' not in path
            or web.ask(old.url, path.partition('.p/')[0]).status != 200]
    report.row('grown.gone', 'partial', 'or is gone, a partial one whose full one is there', not lost, *lost[:3])


def rows_of_added(report, tree, added):
    """Each entry that was posted is in its bundle."""
    wrong = []
    for index, entry in added.items():
        try:
            found = entries_of(web.plain(tree.get(None, index >> 8)))[index % 256:index % 256 + 1]
        except ValueError as fault:
            found = str(fault)
        wrong += [] if found == [entry] else [(index, found)]
    if added:
        report.row('grown.added', 'added', 'each posted entry is at its index', not wrong, *wrong[:3])


def rows_of_growth(report, old, head, now, added):
    """The rows after one step, from an old tree and its head to a new checkpoint: the new tree."""
    origin, size, top = now
    tree = type(old)(old.url, size)
    report.row('grown.size', 'older', f'the log grew from {head.size} to {size}', size >= head.size)
    report.row('grown.origin', 'origin', 'its origin is the same', origin == head.origin, origin)
    report.row('grown.root', 'tree', 'its tiles have the new root', tree.root_at(size) == top,
               tree.root_at(size).hex())
    if size >= head.size:
        begun = tree.root_at(head.size)
        report.row('grown.begins', 'append-only', 'its tree begins with the old one', begun == head.root, begun.hex(),
                   head.root.hex())
    rows_of_kept(report, old)
    rows_of_added(report, tree, added)
    places = [(level, (size >> 8 * level) - 1 >> 8) for level in range(8) if size >> 8 * level]
    tree.read([*places, *([(None, size - 1 >> 8)] if size else [])])
    return tree


def run(report, tree, head, key, adds, wait):
    """The rows of a log that grows: by entries that are posted, or by itself within some seconds."""
    for count in STEPS if adds else (0,):
        added = post_all(report, tree.url, count) if count else {}
        now = wait_for(tree.url, key, max(added) + 1 if added else head.size + 1, PATIENCE if added else wait)
        if not now:
            report.row('grown.signed', 'verified', 'the later checkpoint can be trusted', False, now)
            return
        if now[1] == head.size:
            report.row('grown.equal', 'append-only', 'of the same size, it has the same root', now[2] == head.root,
                       now[2].hex())
            report.skip('grown.begins', 'append-only', 'its tree begins with the old one', "it didn't grow")
            return
        tree = rows_of_growth(report, tree, head, now, added)
        head = type(head)(f'{now[0]}\n{now[1]}\n{text(now[2])}\n')
