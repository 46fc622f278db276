"""The program that is tested, runs of it, servers, and the answers that a server writes.

The program is $TLOG if that is set, and otherwise the one that `scripts/program tlog` prints.
"""
import contextlib
import os
import re
import select
import socket
import subprocess
import time

from .harness import TOP

EMPTY = {'PATH': os.environ.get('PATH', '/usr/bin:/bin')}
# What `--version` prints of a program that nothing has proved, and what stands there otherwise.
NOT_PROVED, PROVED = b'(not proved: compiled with ', b'(proved with '


def program(name='tlog'):
    """The path of a program of this repository: that of the variable of its name ($TLOG), or of scripts/program."""
    path = os.environ.get(name.upper())
    if not path:
        path = subprocess.run([f'{TOP}/scripts/program', name], stdout=subprocess.PIPE, check=True).stdout.decode().strip()
    return os.path.realpath(path)


# What shows that a log is in a folder, or was.
MARKS = 'checkpoint', 'proposal', 'published'


def beginning(words, cwd=None):
    """The words of a run, with `--new` if they are of `append` or `serve` and no log is in their folder, or of `witness`
    and its state isn't there."""
    words = list(words)
    named = {'append': '--dir', 'serve': '--dir', 'witness': '--state'}.get(words[0]) if words else None
    if named not in words[:-1] or '--new' in words:
        return words
    place = os.path.join(cwd or '', words[words.index(named) + 1])
    places = [place] if named == '--state' else [f'{place}/{name}' for name in MARKS]
    return words if any(map(os.path.lexists, places)) else [words[0], '--new', *words[1:]]


class Program:
    """The program `tlog`. A run begins a log or a state where the one that it names isn't there, unless `begins` is false."""

    def __init__(self):
        self.path = program()

    def run(self, *words, given=b'', begins=True, **others):
        """Runs it on an input: exit status, standard output and standard error."""
        words = beginning(words, others.get('cwd')) if begins else words
        how = {'stdout': subprocess.PIPE, 'stderr': subprocess.PIPE, 'timeout': 60, 'env': EMPTY, **others}
        done = subprocess.run([self.path, *words], input=given, **how)
        return done.returncode, done.stdout, done.stderr

    def output(self, *words, given=b''):
        """What a run prints, which has to end with status 0."""
        status, printed, told = self.run(*words, given=given)
        assert status == 0, (words, status, told)
        return printed

    def start(self, *words, given=b'', **others):
        """Starts a server on an input, and returns it once it listens."""
        return Server([self.path, *beginning(words, others.get('cwd')), '--listen', '127.0.0.1:0'], given, others)


class NeverTold(AssertionError):
    """A server ended, or told nothing in time, before a text came on standard error: its status, what it told instead, and
    what was waited for."""

    def __init__(self, status, told, what):
        super().__init__(f'status {status}, told {told!r} by {what}')
        self.status, self.told = status, told


class Server:
    """A server that listens. At the end of its `with` it is killed if it still runs."""

    def __init__(self, words, given, others):
        how = {**dict.fromkeys(('stdin', 'stdout', 'stderr'), subprocess.PIPE), 'env': EMPTY, **others}
        self.process = subprocess.Popen(words, **how)
        self.told = b''
        if given is not None:
            with contextlib.suppress(BrokenPipeError):
                self.process.stdin.write(given)
                self.process.stdin.close()
            self.process.stdin = None
        self.wait_for(rb'listening 127\.0\.0\.1:\d+\n')
        found = re.search(rb'listening (127\.0\.0\.1):(\d+)\n', self.told)
        self.address = (found[1].decode(), int(found[2]))

    def __enter__(self):
        return self

    def __exit__(self, *_):
        if self.process.poll() is None:
            self.process.kill()
        self.process.communicate()

    def wait_for(self, pattern, seconds=20):
        """Waits until standard error has a text that matches."""
        end = time.monotonic() + seconds
        while not re.search(pattern, self.told):
            ready, _, _ = select.select([self.process.stderr], [], [], max(0, end - time.monotonic()))
            piece = os.read(self.process.stderr.fileno(), 65536) if ready else b''
            if not piece:
                self.process.kill()
                raise NeverTold(self.process.wait(), self.told, f'{self.process.args}, and not {pattern!r}')
            self.told += piece

    def give(self, more):
        """Writes more to its input, if it was started with None."""
        self.process.stdin.write(more)
        self.process.stdin.flush()

    def ask(self, request, step=None, shut=True, seconds=20):
        """The whole answer to a request, which is sent in pieces of `step` bytes."""
        return ask(self.address, request, step, shut, seconds)

    def ended(self, seconds=20):
        """Waits until it ends by itself: exit status, standard output and standard error."""
        printed, told = self.process.communicate(timeout=seconds)
        return self.process.returncode, printed, self.told + told


def ask(address, request, step=None, shut=True, seconds=20):
    """The whole answer to a request to an address, which is sent in pieces of `step` bytes."""
    with socket.create_connection(address, timeout=seconds) as link:
        link.setsockopt(socket.IPPROTO_TCP, socket.TCP_NODELAY, 1)
        with contextlib.suppress(OSError):
            for start in range(0, len(request), step or len(request) or 1):
                link.sendall(request[start:start + step] if step else request)
            if shut:
                link.shutdown(socket.SHUT_WR)
        answer = b''
        with contextlib.suppress(ConnectionError):
            while piece := link.recv(65536):
                answer += piece
        return answer


def answer(status, phrase, *fields, kind=None, body=b''):
    """The bytes of an answer, as both servers write it."""
    lines = [f'HTTP/1.1 {status} {phrase}', *fields]
    lines += [f'Content-Type: {kind}'] if kind else []
    lines += [f'Content-Length: {len(body)}', 'Connection: close', '', '']
    return '\r\n'.join(lines).encode() + body


TEXT, OCTETS = 'text/plain; charset=utf-8', 'application/octet-stream'
BAD = answer(400, 'Bad Request')
NOT_FOUND = answer(404, 'Not Found')
LONG = answer(431, 'Request Header Fields Too Large')
