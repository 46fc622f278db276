"""Runs of a tool in Python that is killed at one of its steps: as it opens, renames, links or removes a file of its
working folder, or starts a program."""
import os
import signal
import subprocess
import time

from .harness import write

# Python runs this before the tool: it counts the tool's steps, and kills it before one of them.
HOOK = b'''
import os, signal, sys
left, here = int(os.environ['KILLED_AT']), os.getcwd()
EVENTS = {'os.rename', 'os.remove', 'os.mkdir', 'os.rmdir', 'os.symlink', 'shutil.rmtree', 'subprocess.Popen'}

def step(event, words):
    global left
    path = words[0] if event == 'open' and isinstance(words[0], str) else None
    left -= event in EVENTS or path is not None and (path.startswith(here) or not path.startswith('/'))
    if left == 0 and event != 'os.kill':
        os.kill(os.getpid(), signal.SIGKILL)

sys.addaudithook(step)
'''


def run(words, environment):
    """A run of a tool."""
    pipes = {'stdin': subprocess.DEVNULL, 'stdout': subprocess.PIPE, 'stderr': subprocess.PIPE}
    return subprocess.run(words, env=environment, timeout=60, **pipes)


def run_until(step, words, environment):
    """Runs a tool that is killed before this step: whether it was, and what it printed until then."""
    write('hook/sitecustomize.py', HOOK)
    environment = {**environment, 'KILLED_AT': str(step), 'PYTHONPATH': f'{os.getcwd()}/hook'}
    done = run(words, environment)
    return done.returncode == -signal.SIGKILL, done.stdout


def run_again(words, environment, seconds=20):
    """Runs a tool once what a killed run of it left behind has ended: status, standard output and standard error."""
    end = time.monotonic() + seconds
    while True:
        done = run(words, environment)
        if b': in use\n' not in done.stderr or time.monotonic() > end:
            return done.returncode, done.stdout, done.stderr
        time.sleep(0.02)
