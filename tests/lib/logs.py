"""The resources of a log (C2SP tlog-tiles), signed by the demonstration key."""
from suite import tiles
from suite.tiles import bundle, parts, paths, place_of  # noqa: F401

from .keys import ORIGIN, note
from .tree import leaf, root


def resources(entries, secret='s', origin=ORIGIN):
    """The resources of a log of entries, by path, in the order of a listing."""
    head = note(len(entries), root([leaf(entry) for entry in entries]), origin, secret)
    return {**tiles.resources(entries), 'checkpoint': head}


def listing(made):
    """The listing that `build` prints of these resources."""
    return ''.join(f'{path} {len(content)}\n' for path, content in made.items()).encode()
