"""Rows on a log: what it serves is read as a stranger reads it, and compared with itself (C2SP tlog-tiles,
tlog-checkpoint, signed-note; RFC 6962).
"""
import concurrent.futures

from . import growing, web
from .keys import key_id
from .notes import checkpoint_in, is_signed, note_in
from .tiles import entries_of, hashes_of, path_of
from .tree import leaf, root, sha

TEXT, OCTETS = 'text/plain;charset=utf-8', 'application/octet-stream'
# The seconds that a checkpoint may be kept, and that what never changes is kept at least.
FEW, LONG = 10, 86400
GONE = 403, 404, 410
AT_ONCE = 8


class Head:
    """A checkpoint of the log: origin, size, root, and whether lines follow."""

    def __init__(self, content):
        self.origin, self.size, self.root = checkpoint_in(content)
        self.has_more = content.count('\n') > 3


class Tree:
    """The tiles and bundles of a log at a size. Each resource is asked for once, with the full one in place of a
    partial one that isn't there."""

    def __init__(self, url, size):
        self.url, self.size, self.kept = url, size, {}

    def width(self, level, index):
        """How many hashes a tile has, or entries a bundle."""
        return min(256, (self.size >> 8 * (level or 0)) - 256 * index)

    def path(self, level, index):
        return path_of(level, index, self.width(level, index))

    def get(self, level, index):
        """The answer with a tile or a bundle."""
        path = self.path(level, index)
        if path not in self.kept:
            self.kept[path] = web.ask(self.url, path)
        return self.kept[path]

    def hashes(self, level, index):
        """The hashes of a tile, none if it isn't there."""
        answer = self.get(level, index)
        if answer.status in GONE and self.width(level, index) < 256:
            answer = web.ask(self.url, path_of(level, index))
        return hashes_of(web.plain(answer))[:self.width(level, index)] if answer.status == 200 else []

    def root_at(self, size):
        """The root over the first entries, by the tiles at the right edge of their tree."""
        right = []
        for level in range(8):
            count = size >> 8 * level
            if count % 256:
                right = [root(self.hashes(level, count // 256)[:count % 256] + right)]
        return right[0] if right else sha(b'')

    def chosen(self, most):
        """The indexes of bundles to read: all, or half of them from the beginning and half from the end."""
        count, half = -(-self.size // 256), -(-most // 512)
        return range(count) if not most or count <= 2 * half else [*range(half), *range(count - half, count)]

    def tiles(self, bundles):
        """The tiles over these bundles, and those at the right edge, by level and index."""
        found = {(level, (self.size >> 8 * level) - 1 >> 8) for level in range(8) if self.size >> 8 * level}
        for index in bundles:
            level = 0
            while self.width(level, index) > 0:
                found.add((level, index))
                level, index = level + 1, index >> 8
        return sorted(found)

    def read(self, places):
        """Asks for these, some at a time."""
        with concurrent.futures.ThreadPoolExecutor(AT_ONCE) as pool:
            list(pool.map(lambda place: self.get(*place), places))


def rows_of_key(report, key):
    want = key_id(key.name, key.kind, key.public)
    report.row('key.identifier', 'verifier-key', 'the identifier of VKEY is that of its name, type and key',
               want == key.id, want.hex())


def checkpoint(report, url, key):
    """The rows of the checkpoint: its head, and None if it can't be trusted."""
    got = web.ask(url, 'checkpoint')
    body = web.plain(got)
    report.row('checkpoint.served', 'checkpoint', 'GET checkpoint is answered 200', got.status == 200, got)
    report.row('checkpoint.type', 'checkpoint-type', 'as text/plain; charset=utf-8', got.kind == TEXT, got)
    kept = web.lasts(got)
    report.row('checkpoint.cache', 'checkpoint-cache', f'to be kept for at most {FEW} seconds',
               kept is not None and kept <= FEW, got.fields.get('cache-control', 'no Cache-Control'))
    report.row('checkpoint.coding', 'coding', 'and not encoded',
               got.fields.get('content-encoding', 'identity') == 'identity', got)
    note = note_in(body)
    report.row('checkpoint.note', 'note', 'it is a signed note', note, body)
    report.row('checkpoint.signed', 'verified', 'a valid line of VKEY, and no wrong one',
               note and is_signed(note, key), body)
    content = note[0] if note else ''
    found = checkpoint_in(content)
    is_one = report.row('checkpoint.text', 'note-text', 'its text is a checkpoint', isinstance(found, tuple), found,
                        content)
    head = Head(content) if is_one else None
    report.row('checkpoint.origin', 'key-name', "the key's name is the origin", head and head.origin == key.name,
               content)
    report.row('checkpoint.extensions', 'no-extensions', 'it has no extension lines', head and not head.has_more,
               content)
    return head if head and is_signed(note, key) else None


def each(report, name, clause, what, wrong, places):
    """A row on many: it holds if none of them is wrong."""
    if places:
        report.row(name, clause, f'{what} (of {len(places)})', not wrong, *wrong[:3])
    else:
        report.skip(name, clause, what, 'there is none')


def rows_of_answers(report, tree, kind, places):
    """The rows that tiles and bundles share: status, type, caching."""
    answers = [(tree.path(*place), tree.get(*place)) for place in places]
    part = [(path, got) for path, got in answers if '.p/' in path]
    each(report, f'{kind}s.served', kind, f'each {kind} is answered 200',
         [seen for seen in answers if seen[1].status != 200 and seen not in part], answers)
    each(report, f'{kind}s.partial', 'partial', f'each partial {kind} of the checkpoint is answered 200',
         [seen for seen in part if seen[1].status != 200], part)
    there = [seen for seen in answers if seen[1].status == 200]
    each(report, f'{kind}s.type', f'{kind}-type', f'as {OCTETS}', [seen for seen in there if seen[1].kind != OCTETS],
         there)
    kept = [(path, got.fields.get('cache-control', 'no Cache-Control'))
            for path, got in there if (web.lasts(got) or 0) < LONG]
    each(report, f'{kind}s.cache', f'{kind}-cache', 'to be kept for a day and longer', kept, there)


def rows_of_tiles(report, tree, head, places):
    rows_of_answers(report, tree, 'tile', places)
    there = [place for place in places if tree.get(*place).status == 200]
    wrong = [(tree.path(*place), len(web.plain(tree.get(*place)))) for place in there
             if len(web.plain(tree.get(*place))) != 32 * tree.width(*place)]
    each(report, 'tiles.length', 'tile', 'each has 32 bytes for each of its hashes', wrong, there)
    full = [(level, index) for level, index in there if tree.width(level, index) == 256]
    wrong = [tree.path(level, index) for level, index in full
             if tree.hashes(level + 1, index >> 8)[index % 256:index % 256 + 1] != [root(tree.hashes(level, index))]]
    each(report, 'tiles.over', 'tree', 'the root of each full tile is the hash over it', wrong, full)
    report.row('tiles.root', 'tree', 'the tiles at the right edge have the root of the checkpoint',
               tree.root_at(head.size) == head.root, tree.root_at(head.size).hex(), head.root.hex())


def entries_in(tree, index):
    """The entries of a bundle, or why they can't be had."""
    try:
        return entries_of(web.plain(tree.get(None, index)))
    except ValueError as fault:
        return str(fault)


def rows_of_bundles(report, tree, places):
    rows_of_answers(report, tree, 'bundle', places)
    there = [place for place in places if tree.get(*place).status == 200]
    read = {index: entries_in(tree, index) for _, index in there}
    wrong = [(index, got if isinstance(got, str) else f'{len(got)} entries') for index, got in read.items()
             if isinstance(got, str) or len(got) != tree.width(None, index)]
    each(report, 'bundles.entries', 'bundle', 'each has its entries, and nothing else', wrong, there)
    lists = {index: got for index, got in read.items() if not isinstance(got, str)}
    wrong = [tree.path(None, index) for index, got in lists.items() if [*map(leaf, got)] != tree.hashes(0, index)]
    each(report, 'bundles.leaves', 'leaf', 'the hashes of its entries are in the tile', wrong, lists)


# Paths at which nothing is, of any log: spelled otherwise than they are to be, and with a width that no partial tile
# has.
SPELLED = ['tile/0/0', 'tile/0/00', 'tile/0/0000', 'tile/00/000', 'tile/0/x000/000', 'tile/-1/000', 'tile/0/-01',
           'tile/entries/0', 'tile/entries/x000/000', 'tile/0/000.p/01', 'tile/0/000.p/', 'tile/64/000', 'tile//000',
           'tile/0/']
WIDTHS = ['tile/0/000.p/0', 'tile/0/000.p/256', 'tile/0/000.p/257', 'tile/entries/000.p/0', 'tile/entries/000.p/256']


def rows_of_nothing(report, url, size):
    """Where nothing is, nothing is served."""
    beyond = (size >> 8) + (1 << 40)
    far = [path_of(0, beyond), path_of(None, beyond), path_of(0, beyond, 3), path_of(5, (size >> 48) + 1), 'tile/x',
           'tile/nowhere/000']
    answers = {path: web.ask(url, path) for path in [*far, *SPELLED, *WIDTHS]}
    each(report, 'nothing.beyond', 'tile', 'beyond the log no tile and no bundle is served',
         [(path, answers[path]) for path in far if answers[path].status == 200], far)
    each(report, 'nothing.status', 'not-there', 'which is answered 404',
         [(path, answers[path]) for path in far if answers[path].status not in GONE], far)
    each(report, 'nothing.spelled', 'tile-path', 'a path that is spelled otherwise is answered 404',
         [(path, answers[path]) for path in SPELLED if answers[path].status not in GONE], SPELLED)
    each(report, 'nothing.width', 'tile-path', 'so is a partial one of width 0, or of 256 and more',
         [(path, answers[path]) for path in WIDTHS if answers[path].status not in GONE], WIDTHS)
    got = web.ask(url, 'checkpoint', b'')
    report.row('nothing.method', 'method', 'POST is answered 405, with Allow',
               got.status == 405 and 'allow' in got.fields, got, got.fields)


def rows_again(report, tree):
    """What was served is served again, each byte of it."""
    there = [(path, got) for path, got in tree.kept.items() if got.status == 200]
    wrong = [(path, got) for path, got in there if web.plain(web.ask(tree.url, path)) != web.plain(got)]
    each(report, 'again.same', 'immutable', 'asked again, each tile and bundle is the same', wrong, there)


def run(report, url, key, most=4096, adds=False, wait=0):
    """The rows of a log: at most this many of its entries are read."""
    rows_of_key(report, key)
    head = checkpoint(report, url, key)
    if head is None:
        return
    tree = Tree(url, head.size)
    bundles = tree.chosen(most)
    tiles = tree.tiles(bundles)
    tree.read([*tiles, *((None, index) for index in bundles)])
    rows_of_tiles(report, tree, head, tiles)
    rows_of_bundles(report, tree, [(None, index) for index in bundles])
    rows_of_nothing(report, url, head.size)
    rows_again(report, tree)
    growing.run(report, tree, head, key, adds, wait)
