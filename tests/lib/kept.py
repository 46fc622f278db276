"""Clients that send one request after another over one connection, and how long such a connection stays open (RFC 9112,
section 9.3)."""
import contextlib
import re
import socket

CLOSE = b'Connection: close\r\n'
LAST = 400, 413, 431, 500


def head_of(request):
    """The request line, the fields and what follows the head of a request, or `None` if it has no whole head."""
    lines, rest = [], request
    while True:
        line, newline, rest = rest.partition(b'\n')
        line = line.removesuffix(b'\r')
        if not newline:
            return None
        if line:
            lines.append(line)
        elif lines:
            break
    fields = [(name.lower(), value.strip(b' \t')) for name, _, value in (line.partition(b':') for line in lines[1:])]
    return lines[0], fields, rest


def status_of(answer):
    return int(answer[9:12])


def body_of(request):
    """How many bytes of body a request's head announces, and what came of them; `None` if its length isn't clear."""
    head = head_of(request)
    lengths = {value for name, value in head[1] if name == b'content-length'}
    if len(lengths) > 1 or any(name == b'transfer-encoding' for name, _ in head[1]):
        return None
    length = lengths.pop() if lengths else b'0'
    return (int(length), len(head[2])) if re.fullmatch(rb'[0-9]+', length) else None


def stays(request, answer):
    """Whether the connection stays open after this answer to a request that came whole."""
    head = head_of(request)
    if head is None or status_of(answer) in LAST:
        return False
    options = [option.strip(b' \t').lower() for name, value in head[1] if name == b'connection' for option in value.split(b',')]
    if b'close' in options or not (head[0].endswith(b'1.1') or b'keep-alive' in options):
        return False
    body = body_of(request)
    return body is not None and body[0] <= body[1]


def kept(answer):
    """An answer after which the connection stays open."""
    return answer.replace(CLOSE, b'', 1)


class Kept:
    """A connection over which requests are sent, and their answers are read, one at a time."""

    def __init__(self, address, seconds=20):
        self.link = socket.create_connection(address, timeout=seconds)
        self.link.setsockopt(socket.IPPROTO_TCP, socket.TCP_NODELAY, 1)
        self.came = b''

    def __enter__(self):
        return self

    def __exit__(self, *_):
        self.link.close()

    def send(self, request):
        self.link.sendall(request)

    def take(self, count):
        """The next `count` bytes, or those before the end."""
        while len(self.came) < count:
            piece = self.link.recv(65536)
            if not piece:
                break
            self.came += piece
        taken, self.came = self.came[:count], self.came[count:]
        return taken

    def answer(self):
        """The next answer; less than one, or nothing, if the connection is closed before."""
        with contextlib.suppress(ConnectionError):
            while b'\r\n\r\n' not in self.came:
                piece = self.link.recv(65536)
                if not piece:
                    return self.take(len(self.came))
                self.came += piece
            head = self.came.index(b'\r\n\r\n') + 4
            length = re.search(rb'\r\nContent-Length: (\d+)\r\n', self.came[:head])
            return self.take(head + (int(length[1]) if length else 0))
        return self.take(len(self.came))

    def ask(self, request):
        """The answer to a request."""
        with contextlib.suppress(ConnectionError):
            self.send(request)
        return self.answer()

    def rest(self):
        """All that comes until the connection is closed."""
        with contextlib.suppress(ConnectionError):
            while piece := self.link.recv(65536):
                self.came += piece
        return self.take(len(self.came))

    def is_open(self, seconds=0.2):
        """Whether it isn't closed within a time in which nothing comes."""
        self.link.settimeout(seconds)
        try:
            piece = self.link.recv(1)
        except TimeoutError:
            return True
        except ConnectionError:
            return False
        finally:
            self.link.settimeout(20)
        self.came += piece
        return piece != b''
