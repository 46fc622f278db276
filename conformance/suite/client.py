"""Rows on a client: a command reads logs of the suite's own, must take each honest one, and refuse each lie that it
asked for.
"""
import tempfile

from .command import TAKEN, Command, is_right, rows_of
from .lies import ORIGIN, Makers, scenes
from .stage import Stage


def values_of(makers, url, folder, index):
    """What the placeholders of the command stand for."""
    return {'url': url, 'vkey': makers.key.verifier, 'origin': ORIGIN, 'state': f'{folder}/state', 'folder': folder,
            'index': str(index), 'witness': makers.witness.verifier}


def played(scene, stage, command, makers):
    """What came of a scene: whether its row holds, why it shows nothing, and what was seen."""
    if scene.needs and not command.has(scene.needs):
        return None, f'the command has no {scene.needs}'
    url = stage.url(scene.name)
    with tempfile.TemporaryDirectory(prefix='conformance-') as folder:
        if scene.before:
            stage.show(scene.name, scene.before)
            ended, seen = command.run(values_of(makers, url, folder, 0), folder)
            if ended != TAKEN:
                return False, f'before: {ended}: {seen!r}'
        stage.show(scene.name, scene.shows)
        ended, seen = command.run(values_of(makers, url, folder, scene.index), folder)
    if not stage.asked[scene.name]:
        return False, f'it asked for nothing, and {ended}: {seen!r}'
    if scene.lies and not scene.lies & stage.asked[scene.name]:
        return None, 'the command did not ask for it'
    return is_right(scene, ended), f'{ended}: {seen!r}'


def run(report, words, seconds=60, jobs=4):
    """The rows of a client."""
    stage, command = Stage(), Command(words, seconds)
    makers = Makers(command.has('{witness}'))
    rows_of(report, scenes(makers), lambda scene: played(scene, stage, command, makers), jobs)
    stage.shutdown()
