"""The resources of a log (C2SP tlog-tiles): their paths and their bytes."""
from .tree import leaf, root


def bundle(entries, width=2):
    """The entry bundle of entries; a length has two bytes."""
    return b''.join(len(entry).to_bytes(width, 'big') + entry for entry in entries)


def entries_of(data):
    """The entries of a bundle; `ValueError` if it isn't one."""
    found, place = [], 0
    while place < len(data):
        end = place + 2 + int.from_bytes(data[place:place + 2], 'big')
        if place + 2 > len(data) or end > len(data):
            raise ValueError(f'entry {len(found)} goes beyond the bundle')
        found.append(data[place + 2:end])
        place = end
    return found


def hashes_of(data):
    """The hashes of a tile."""
    return [data[start:start + 32] for start in range(0, len(data), 32)]


def place_of(index):
    """The path of an index: groups of three digits, of which each but the last begins with `x`."""
    digits = f'{index:0{-(-len(str(index)) // 3) * 3}}'
    groups = [digits[start:start + 3] for start in range(0, len(digits), 3)]
    return '/'.join([f'x{group}' for group in groups[:-1]] + groups[-1:])


def path_of(level, index, width=256):
    """The path of a tile, or of a bundle if the level is None; a width below 256 is of a partial one."""
    kind, end = 'entries' if level is None else level, '' if width == 256 else f'.p/{width}'
    return f'tile/{kind}/{place_of(index)}{end}'


def parts(size):
    """The tiles and bundles of a log of `size` entries, in the order of a listing: of each its path, its level (None
    of a bundle), and where in its level it begins and ends."""
    levels, count = [], size
    while count:
        levels.append((len(levels), count))
        count //= 256
    for level, count in [*levels, (None, size)]:
        for start in range(0, count, 256):
            width = min(256, count - start)
            yield path_of(level, start // 256, width), level, start, start + width


def paths(size):
    """The paths of the tiles and bundles of a log of `size` entries, in the order of a listing."""
    return [path for path, *_ in parts(size)]


def levels_of(leaves):
    """The hashes of each level of tiles, from those of entries up."""
    levels = [leaves]
    while len(levels[-1]) >= 256:
        below = levels[-1]
        levels.append([root(below[start:start + 256]) for start in range(0, len(below) // 256 * 256, 256)])
    return levels


def resources(entries):
    """The tiles and bundles of a log of entries, by path, in the order of a listing."""
    levels = levels_of([leaf(entry) for entry in entries])
    return {path: bundle(entries[start:end]) if level is None else b''.join(levels[level][start:end])
            for path, level, start, end in parts(len(entries))}
