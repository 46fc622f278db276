"""A server of files and of witnesses that keeps its connections, and says of each request what becomes of the connection."""
import contextlib
import socket
import struct
import threading

from .harness import read


class Linger:
    """A web server on a port of its own. `answers` gives the body for a method, a path and a body of a request, or `None`
    if there is none. `turn` says what becomes of request `number` (from 1) of connection `link` (from 1):
    `keep`: an answer, and the next request;  `shut`: an answer after which the connection is closed, unannounced;
    `say`: an answer that announces the close, which never comes;  `old`: an answer over HTTP/1.0, and no close;
    `drop`: no byte, and a close;  `reset`: no byte, and a reset;  `cut`: an answer without its last byte;
    `begin`: the first byte of an answer, and a close;  `over`: 408, as of a host that waited too long, and a close.
    Beside the requests' targets (`asked`) it keeps how many requests each connection carried (`links`)."""

    def __init__(self, answers, turn=lambda link, number: 'keep'):
        self.answers, self.turn = answers, turn
        self.asked, self.links, self.lock = [], [], threading.Lock()
        self.listener = socket.create_server(('127.0.0.1', 0), backlog=128)
        self.url = f'http://127.0.0.1:{self.listener.getsockname()[1]}'
        threading.Thread(target=self.accept, daemon=True).start()

    def clear(self, turn=lambda link, number: 'keep'):
        """Begins to count anew."""
        with self.lock:
            self.turn, self.asked, self.links = turn, [], []

    def accept(self):
        while True:
            link, _ = self.listener.accept()
            link.setsockopt(socket.IPPROTO_TCP, socket.TCP_NODELAY, 1)
            with self.lock:
                self.links.append(0)
                place = len(self.links)
            threading.Thread(target=self.serve, args=(link, place), daemon=True).start()

    def serve(self, link, place):
        with contextlib.suppress(OSError), link, link.makefile('rb') as requests:
            while request := self.next(requests):
                with self.lock:
                    if place <= len(self.links):
                        self.links[place - 1] += 1
                        number = self.links[place - 1]
                        self.asked.append(request[1])
                        what = self.turn(place, number)
                if not self.answer(link, what, self.answers(*request)):
                    break

    @staticmethod
    def next(requests):
        """The method, the path and the body of the next request; `None` at the end."""
        line = requests.readline().split(b' ')
        if len(line) < 3:
            return None
        length = 0
        while field := requests.readline().strip():
            name, _, value = field.partition(b':')
            length = int(value) if name.lower() == b'content-length' else length
        return line[0].decode(), line[1].decode(), requests.read(length)

    @staticmethod
    def answer(link, what, body):
        """Answers, and returns whether the connection goes on."""
        if what == 'reset':
            link.setsockopt(socket.SOL_SOCKET, socket.SO_LINGER, struct.pack('ii', 1, 0))
        if what in ('drop', 'reset'):
            return False
        if what == 'over':
            link.sendall(b'HTTP/1.1 408 Request Timeout\r\nContent-Length: 0\r\nConnection: close\r\n\r\n')
            return False
        status, fields, body = ('404 Not Found', '', b'') if body is None else body if isinstance(body, tuple) else ('200 OK', '', body)
        version, close = 'HTTP/1.0' if what == 'old' else 'HTTP/1.1', 'Connection: close\r\n' if what == 'say' else ''
        whole = f'{version} {status}\r\nContent-Length: {len(body)}\r\n{fields}{close}\r\n'.encode() + body
        link.sendall(whole[:1] if what == 'begin' else whole[:-1] if what == 'cut' else whole)
        return what in ('keep', 'say', 'old')


def files(folder):
    """The answers of a web server of a folder's files."""
    return lambda method, path, body: read(f'{folder}{path}')
