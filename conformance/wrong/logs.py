"""A log that keeps to C2SP tlog-tiles, in memory, and others with one mistake each: a class for each."""
import re
import threading

from suite.notes import checkpoint
from suite.tiles import bundle, levels_of, path_of
from suite.tree import leaf, node, root, sha

TEXT, OCTETS = 'text/plain; charset=utf-8', 'application/octet-stream'
PAGE = b'<!DOCTYPE html><html><body>Nothing here.</body></html>\n'
PATH = re.compile(r'tile/(entries|[0-7])/((?:x\d{3}/)*\d{3})(?:\.p/([1-9]\d{0,2}))?')


class Log:
    """A log of these entries, which grows by what is posted to /add."""
    type_of_checkpoint = TEXT

    def __init__(self, key, entries):
        self.key, self.entries, self.lock = key, list(entries), threading.Lock()
        self.made = None

    def answer(self, method, path, body):
        if method == 'POST' and path == 'add':
            return 200, TEXT, b'%d\n' % self.add(body)
        if method != 'GET':
            return 405, TEXT, b''
        content = self.checkpoint() if path == 'checkpoint' else self.resource(path)
        if content is None:
            return self.missing()
        return 200, self.type_of_checkpoint if path == 'checkpoint' else OCTETS, content

    def add(self, entry):
        with self.lock:
            self.entries.append(entry)
            return len(self.entries) - 1

    def missing(self):
        return 404, TEXT, b''

    # What is signed and hashed

    def leaf(self, entry):
        return leaf(entry)

    def root(self, leaves):
        return root(leaves)

    def shown(self, entries):
        """The entries as they are shown."""
        return entries

    def levels(self):
        """The hashes of each level of tiles."""
        with self.lock:
            entries = self.shown(self.entries)
            if self.made is None or self.made[0] != entries:
                self.made = list(entries), levels_of([*map(self.leaf, entries)])
            return self.made

    def checkpoint(self):
        leaves = self.levels()[1][0]
        return self.key.note(checkpoint(self.key.name, len(leaves), self.root(leaves)))

    # What is served

    def resource(self, path):
        """The bytes at a path, None if nothing is there."""
        parts = PATH.fullmatch(path)
        if not parts or parts[2].startswith('x000/') or int(parts[3] or 1) > 255:
            return None
        entries, levels = self.levels()
        level, index = None if parts[1] == 'entries' else int(parts[1]), int(re.sub('[x/]', '', parts[2]))
        whole = entries if level is None else levels[level] if level < len(levels) else []
        return self.part(level, index, whole[256 * index:256 * index + 256], int(parts[3] or 256))

    def part(self, level, index, there, width):
        """The tile or the bundle of this width, from what is there."""
        return self.written(level, there[:width]) if there and len(there) >= width else None

    def written(self, level, some):
        return bundle(some) if level is None else b''.join(some)


class PartialGrows(Log):
    """Serves at the path of a partial tile what is there now."""

    def part(self, level, index, there, width):
        return super().part(level, index, there, len(there)) if width < 256 and len(there) >= width else super().part(
            level, index, there, width)


class Wide(Log):
    """Writes lengths of 32 bits."""

    def written(self, level, some):
        return bundle(some, 4) if level is None else super().written(level, some)


class Early(Log):
    """Shows a checkpoint before its partial tiles."""

    def part(self, level, index, there, width):
        return None if level == 0 and width < 256 and width == len(there) else super().part(level, index, there,
                                                                                            width)


class Page(Log):
    """Answers with a page where nothing is."""

    def missing(self):
        return 200, 'text/html', PAGE


class Flat(Log):
    """Writes indexes as plain numbers."""

    def resource(self, path):
        plain = re.fullmatch(r'tile/(\w+)/(\d+)(\.p/\d+)?', path)
        right = path_of(None, int(plain[2])).replace('entries', plain[1]) + (plain[3] or '') if plain else ''
        return super().resource(right) if plain and str(int(plain[2])) == plain[2] else None


class Octets(Log):
    """Serves the checkpoint as bytes."""
    type_of_checkpoint = OCTETS


class Rewrites(Log):
    """Changes an entry once the log grew."""

    def shown(self, entries):
        return entries if len(entries) <= 300 else [entries[0] + b'!', *entries[1:]]


class TileHash(Log):
    """Has in its upper tiles the hashes of the lower tiles' bytes."""

    def levels(self):
        entries, levels = super().levels()
        lower = levels[0]
        upper = [sha(b''.join(lower[start:start + 256])) for start in range(0, len(lower) // 256 * 256, 256)]
        return entries, [lower, upper] if upper else levels


class NoPrefix(Log):
    """Hashes entries without the byte in front."""

    def leaf(self, entry):
        return sha(entry)


class Doubled(Log):
    """Pairs a last hash without another with itself."""

    def root(self, leaves):
        while len(leaves) > 1:
            leaves = leaves + leaves[-1:] if len(leaves) % 2 else leaves
            leaves = [node(*leaves[place:place + 2]) for place in range(0, len(leaves), 2)]
        return leaves[0]


class Prunes(Log):
    """Removes a partial tile once a wider one is there."""

    def part(self, level, index, there, width):
        return None if width < len(there) < 256 else super().part(level, index, there, width)


# Each mistake, and the row that is for it.
MISTAKES = [(PartialGrows, 'grown.same'), (Wide, 'bundles.entries'), (Early, 'tiles.partial'),
            (Page, 'nothing.beyond'),
            (Flat, 'tiles.served'), (Octets, 'checkpoint.type'), (Rewrites, 'grown.begins'), (TileHash, 'tiles.over'),
            (NoPrefix, 'bundles.leaves'), (Doubled, 'tiles.root'), (Prunes, 'grown.gone')]
