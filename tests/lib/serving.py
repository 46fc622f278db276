"""What the scripts share that run servers to their end: clients that hold a connection, inputs that are fed a piece at
a time, what a process takes while it waits, and parts of a script that can't go on. Each wait has a limit.
"""
import contextlib
import os
import re
import resource
import select
import socket
import struct
import subprocess
import time

from .harness import only
from .keys import ORIGIN, note
from .tree import growth, root, text

SECRET = ('--origin', ORIGIN, '--secret', 's')
LOG = ('serve', *SECRET)
WITNESS = ('witness', *SECRET, '--name', 'w.example', '--witness-secret', 'w', '--time', '1')
ASK = b'GET /checkpoint HTTP/1.1\r\n\r\n'
HALF = b'GET /check'
FAILED = b'tlog: write failed'
TICKS = os.sysconf('SC_CLK_TCK')


def tried(rows, part, *given):
    """A part of a script. Where it can't go on, that is a row that is wrong."""
    try:
        part(*given)
    except Exception as fault:
        what = f'{part.__name__} {getattr(given[0], "__name__", given[0]) if given else ""}'
        rows.equal(f'{what} comes to its end', f'{type(fault).__name__}: {fault}', True)


def fault(words, status=1):
    """A run that prints nothing and tells this."""
    return status, b'', b'tlog: ' + words.encode() + b'\n'


def many_files(count=4096):
    """Lets this process, and those that it starts, open so many files."""
    soft, hard = resource.getrlimit(resource.RLIMIT_NOFILE)
    if soft < count:
        most = count if hard == resource.RLIM_INFINITY else min(count, hard)
        resource.setrlimit(resource.RLIMIT_NOFILE, (most, hard))


def unlimited():
    """Lets a process that begins meet a limit of its files, which may come later, by a write that fails."""
    only(resource.RLIM_INFINITY)


def entries(size, start=0):
    """The entries of a log from one index up to another, each another text."""
    return [b'entry %d' % number for number in range(start, size)]


def files(folder):
    """What is in a folder: the bytes of each file, where a link points to, and `None` of what is neither."""
    found = {}
    for where, folders, names in os.walk(folder):
        for name in folders + names:
            place = os.path.join(where, name)
            if os.path.islink(place):
                found[os.path.relpath(place, folder)] = os.readlink(place)
            elif os.path.isfile(place):
                with open(place, 'rb') as file:
                    found[os.path.relpath(place, folder)] = file.read()
            elif name in names:
                found[os.path.relpath(place, folder)] = None
    return found


# Inputs

def is_ready(descriptor, event, seconds):
    """Whether a descriptor can be read or written within a time. `select` knows none above 1,023."""
    waiting = select.poll()
    waiting.register(descriptor, event)
    return bool(waiting.poll(max(0, seconds) * 1000))


def give(sink, content, seconds=5):
    """Writes bytes to a descriptor: whether all of them were taken in time."""
    os.set_blocking(sink, False)
    content, end = memoryview(content), time.monotonic() + seconds
    with contextlib.suppress(BrokenPipeError):
        while content and is_ready(sink, select.POLLOUT, end - time.monotonic()):
            with contextlib.suppress(BlockingIOError):
                content = content[os.write(sink, content):]
    return not content


def fill(sink, content, seconds=2):
    """Writes bytes again and again, until no more are taken."""
    end = time.monotonic() + seconds
    while time.monotonic() < end and give(sink, content, 0.1):
        pass


def leave(server):
    """The writer of a server's input leaves."""
    server.process.stdin.close()
    server.process.stdin = None


def opened(path):
    """A FIFO is made: the end that is read, and one that is written."""
    os.mkfifo(path)
    source = os.open(path, os.O_RDONLY | os.O_NONBLOCK)
    sink = os.open(path, os.O_WRONLY)
    os.set_blocking(source, True)
    return source, sink


# What a server tells

def told(server, pattern, seconds=10):
    """Whether standard error has such a text in time."""
    end = time.monotonic() + seconds
    while not re.search(pattern, server.told):
        if not is_ready(server.process.stderr, select.POLLIN, end - time.monotonic()):
            return False
        piece = os.read(server.process.stderr.fileno(), 65536)
        if not piece:
            return False
        server.told += piece
    return True


def line(words, times=1):
    """The pattern of a line that stands so many times among others."""
    return b'(?ms)(^%s$.*?){%d}' % (words if isinstance(words, bytes) else words.encode(), times)


def ended(server, seconds=2):
    """The exit status of a server that ends by itself in time, and `None` of one that doesn't. Its input stays."""
    with contextlib.suppress(subprocess.TimeoutExpired):
        server.process.wait(seconds)
        while server.process.stderr and (piece := os.read(server.process.stderr.fileno(), 65536)):
            server.told += piece
    return server.process.poll()


# Clients

def hold(held, server, count, sent=HALF):
    """Clients that each sent this and wait, as many as come in, and are closed with `held`."""
    links = []
    with contextlib.suppress(OSError):
        for _ in range(count):
            link = held.enter_context(socket.create_connection(server.address, timeout=5))
            link.sendall(sent)
            links.append(link)
    return links


def rest(link, seconds):
    """What comes on a connection until it is closed, and `None` where it isn't closed in time."""
    got, end = b'', time.monotonic() + seconds
    try:
        while (left := end - time.monotonic()) > 0:
            link.settimeout(left)
            piece = link.recv(1 << 20)
            if not piece:
                return got
            got += piece
    except ConnectionError:
        return got
    except OSError:
        pass
    return None


def send(links, content, pause=None):
    """Sends the same to each of these that is open: at once, or byte by byte with a pause after each."""
    for piece in [content] if pause is None else [bytes([byte]) for byte in content]:
        for link in links:
            with contextlib.suppress(ConnectionError):
                link.sendall(piece)
        time.sleep(pause or 0)


def stop(links):
    """Closes the sending side of each of these that is open."""
    for link in links:
        with contextlib.suppress(OSError):
            link.shutdown(socket.SHUT_WR)


def kept_port(held):
    """A port that the system gives to nobody else until `held` ends: a socket is bound to it, and doesn't listen."""
    link = held.enter_context(socket.socket())
    link.setsockopt(socket.SOL_SOCKET, socket.SO_REUSEADDR, 1)
    link.bind(('127.0.0.1', 0))
    return link.getsockname()[1]


def drop(link):
    """Closes a connection by a reset."""
    link.setsockopt(socket.SOL_SOCKET, socket.SO_LINGER, struct.pack('ii', 1, 0))
    link.close()


def timed(server, request=ASK, seconds=2):
    """The answer to a request, `None` where none comes in time, and how long it took."""
    begun = time.monotonic()
    try:
        got = server.ask(request, seconds=seconds)
    except OSError:
        got = None
    return got, time.monotonic() - begun


def is_shut(server):
    """Whether a new connection is refused, or closed at once."""
    try:
        with socket.create_connection(server.address, timeout=1) as link:
            link.sendall(ASK)
            return rest(link, 1) == b''
    except ConnectionError:
        return True
    except OSError:
        return False


# Requests to a witness

def growing(leaves, old, size):
    """The body that asks to cosign the log of the first leaves, after so many."""
    proof = ''.join(text(hash) + '\n' for hash in growth(leaves[:size], old))
    return f'old {old}\n{proof}\n'.encode() + note(size, root(leaves[:size]))


def post(content, path='/add-checkpoint'):
    return b'POST %s HTTP/1.1\r\nContent-Length: %d\r\n\r\n%s' % (path.encode(), len(content), content)


# What a process takes

def work(server):
    """The seconds that a process took of a processor, and how often its threads waited."""
    process = f'/proc/{server.process.pid}'
    with open(f'{process}/stat', 'rb') as file:
        fields = file.read().rpartition(b')')[2].split()
    switches = 0
    for task in os.listdir(f'{process}/task'):
        with contextlib.suppress(FileNotFoundError), open(f'{process}/task/{task}/status', 'rb') as file:
            switches += int(re.search(rb'\nvoluntary_ctxt_switches:\s+(\d+)', file.read())[1])
    return (int(fields[11]) + int(fields[12])) / TICKS, switches
