"""The Merkle tree of conformance/suite, and the texts of its proofs, with nothing of the program's own."""
from suite.tree import growth, grows, includes, leaf, node, path, root, roots, sha, split, text  # noqa: F401


def lines_of(entries):
    return b''.join(entry + b'\n' for entry in entries)


# Texts of proofs

def inclusion(leaves, index):
    front = f'inclusion\nindex {index}\nsize {len(leaves)}\nleaf {text(leaves[index])}\nroot {text(root(leaves))}\n'
    return (front + ''.join(text(hash) + '\n' for hash in path(leaves, index))).encode()


def consistency(leaves, old):
    front = f'consistency\nold {old}\noldroot {text(root(leaves[:old]))}\nsize {len(leaves)}\nroot {text(root(leaves))}\n'
    return (front + ''.join(text(hash) + '\n' for hash in growth(leaves, old))).encode()
