"""A Merkle tree and its proofs, written after RFC 6962, section 2.1, with nothing of the program's own."""
import base64
import hashlib


def sha(data):
    return hashlib.sha256(data).digest()


def text(data):
    """Bytes in base64."""
    return base64.b64encode(data).decode()


def leaf(entry):
    return sha(b'\0' + entry)


def node(left, right):
    return sha(b'\1' + left + right)


def split(size):
    """The largest power of two below a size."""
    return 1 << (size - 1).bit_length() - 1


def root(leaves):
    """The root over the hashes of entries, level by level: a last hash without another beside it goes up as it is."""
    while len(leaves) > 1:
        pairs = [node(leaves[place], leaves[place + 1]) for place in range(0, len(leaves) - 1, 2)]
        leaves = [*pairs, *leaves[2 * len(pairs):]]
    return leaves[0] if leaves else sha(b'')


def roots(entries):
    """The root over the first entries, for each number of them."""
    found, peaks = [sha(b'')], []
    for number, entry in enumerate(entries, 1):
        hash, height = leaf(entry), number
        while height % 2 == 0:
            hash, height = node(peaks.pop(), hash), height // 2
        peaks.append(hash)
        top = peaks[-1]
        for peak in reversed(peaks[:-1]):
            top = node(peak, top)
        found.append(top)
    return found


def path(leaves, index):
    """The inclusion proof of an entry."""
    if len(leaves) < 2:
        return []
    left = split(len(leaves))
    if index < left:
        return path(leaves[:left], index) + [root(leaves[left:])]
    return path(leaves[left:], index - left) + [root(leaves[:left])]


def growth(leaves, old, is_whole=True):
    """The consistency proof from the first `old` entries."""
    if old == len(leaves) or old == 0:
        return [] if is_whole else [root(leaves)]
    left = split(len(leaves))
    if old <= left:
        return growth(leaves[:left], old, is_whole) + [root(leaves[left:])]
    return growth(leaves[left:], old - left, False) + [root(leaves[:left])]


class Endless:
    """A list of entries without an end: the first are given, and each behind them is `rest`. Its roots and proofs are
    those of lists, at sizes that no list in memory has."""

    def __init__(self, entries, rest):
        self.leaves, self.rest, self.known = [leaf(entry) for entry in entries], leaf(rest), {}

    def root(self, start, end):
        """The root over the entries from `start` on and before `end`, of which there is one at least."""
        if end - start == 1:
            return self.leaves[start] if start < len(self.leaves) else self.rest
        place = (start, end) if start < len(self.leaves) else end - start
        if place not in self.known:
            middle = start + split(end - start)
            self.known[place] = node(self.root(start, middle), self.root(middle, end))
        return self.known[place]

    def fork(self, size, rest):
        """A list with the same first entries, and other ones behind them."""
        found = Endless([], rest)
        found.leaves = [self.root(place, place + 1) for place in range(size)]
        return found

    def head(self, size):
        """The root at a size."""
        return self.root(0, size) if size else sha(b'')

    def path(self, index, size, start=0):
        """The inclusion proof of an entry at a size; with `start`, among the entries from there on."""
        if size == 1:
            return []
        left = split(size)
        if index < left:
            return self.path(index, left, start) + [self.root(start + left, start + size)]
        return self.path(index - left, size - left, start + left) + [self.root(start, start + left)]

    def growth(self, old, size, start=0, is_whole=True):
        """The consistency proof from one size to another; with `start`, that of the entries from there on."""
        if old in (0, size):
            return [] if is_whole else [self.root(start, start + size)]
        left = split(size)
        if old <= left:
            return self.growth(old, left, start, is_whole) + [self.root(start + left, start + size)]
        return self.growth(old - left, size - left, start + left, False) + [self.root(start, start + left)]


def includes(index, size, hash, top, proof):
    """Whether an inclusion proof is accepted (RFC 9162, section 2.1.3.2)."""
    if index >= size:
        return False
    place, last = index, size - 1
    for other in proof:
        if last == 0:
            return False
        if place & 1 or place == last:
            hash = node(other, hash)
            while place and not place & 1:
                place, last = place >> 1, last >> 1
        else:
            hash = node(hash, other)
        place, last = place >> 1, last >> 1
    return last == 0 and hash == top


def grows(old, old_top, size, top, proof):
    """Whether a consistency proof is accepted (RFC 9162, section 2.1.4.2); from no entries it has no hashes."""
    if old == size or old == 0 or old > size:
        return not proof and (old_top == top if old == size else old == 0 and old_top == sha(b''))
    proof = ([old_top] if old & (old - 1) == 0 else []) + proof
    if not proof:
        return False
    place, last = old - 1, size - 1
    while place & 1:
        place, last = place >> 1, last >> 1
    one = other = proof[0]
    for hash in proof[1:]:
        if last == 0:
            return False
        if place & 1 or place == last:
            one, other = node(hash, one), node(hash, other)
            while place and not place & 1:
                place, last = place >> 1, last >> 1
        else:
            other = node(other, hash)
        place, last = place >> 1, last >> 1
    return last == 0 and one == old_top and other == top
