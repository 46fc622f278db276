"""Rows on a verifier of proofs that travel: a command is given proofs, with policies and entries, must take each that
is right, and refuse each in which one thing is a lie.
"""
import functools
import os
import tempfile

from . import policies, proofs
from .command import Command, is_right, rows_of


@functools.cache
def scenes():
    """All of them."""
    makers = proofs.Makers()
    return [scene for part in (*proofs.PARTS, *policies.PARTS) for scene in part(makers)]


def played(scene, command):
    """What came of a scene: whether its row holds, and what was seen."""
    with tempfile.TemporaryDirectory(prefix='conformance-') as folder:
        values = {name: os.path.join(folder, name) for name in ('policy', 'entry')}
        for path, content in zip(values.values(), (scene.policy, scene.entry)):
            with open(path, 'wb') as file:
                file.write(content)
        ended, seen = command.run(values, folder, scene.proof)
    return is_right(scene, ended), f'{ended}: {seen!r}'


def run(report, words, seconds=20, jobs=4):
    """The rows of a verifier."""
    command = Command(words, seconds)
    rows_of(report, scenes(), lambda scene: played(scene, command), jobs)
