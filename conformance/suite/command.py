"""Runs of somebody's command, whose words have placeholders. It takes what it is shown by ending with status 0, and
refuses it by any other one.
"""
import concurrent.futures
import subprocess

TAKEN, REFUSED, LATE = 'took it', 'refused it', 'did not end'


class Command:
    """The command, and the seconds that a run has."""

    def __init__(self, words, seconds):
        self.words, self.seconds = words, seconds

    def has(self, placeholder):
        return any(placeholder in word for word in self.words)

    def run(self, values, folder, given=b''):
        """How the command ended on an input, with these values for its placeholders, and what it told."""
        words = self.words
        for name, value in values.items():
            words = [word.replace('{%s}' % name, value) for word in words]
        try:
            how = {'stdout': subprocess.PIPE, 'stderr': subprocess.STDOUT, 'timeout': self.seconds}
            done = subprocess.run(words, input=given, cwd=folder, check=False, **how)
        except subprocess.TimeoutExpired as late:
            return LATE, late.output or b''
        return (REFUSED if done.returncode else TAKEN), done.stdout[-200:] + b' (status %d)' % done.returncode


def is_right(scene, ended):
    """Whether a scene ended as it must: a lie is refused, and all else is taken."""
    return ended == (REFUSED if scene.lies else TAKEN)


def rows_of(report, scenes, play, jobs):
    """The rows of scenes, some of them at once. `play` says of one whether its row holds, None if it shows nothing,
    and what was seen."""
    wanted = [scene for scene in scenes if report.wants(scene.name)]
    with concurrent.futures.ThreadPoolExecutor(jobs) as pool:
        for scene, (holds, seen) in zip(wanted, pool.map(play, wanted)):
            what = f'{"refuses" if scene.lies else "takes"}: {scene.what}'
            if holds is None:
                report.skip(scene.name, scene.clause, what, seen)
            else:
                report.row(scene.name, scene.clause, what, holds, seen)
