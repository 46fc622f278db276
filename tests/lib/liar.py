"""Servers of files for `tests/fetch`: one that answers as it should, and one that lies as its address says."""
import gzip
import http.server
import itertools
import threading
import time

from .harness import read


class Files(http.server.SimpleHTTPRequestHandler):
    """A web server of files."""
    protocol_version = 'HTTP/1.1'

    def log_message(self, *_):
        pass


class OldFiles(Files):
    """The same over HTTP/1.0, as Python's own answers."""
    protocol_version = 'HTTP/1.0'


class Server(http.server.ThreadingHTTPServer):
    request_queue_size = 128


def serving(handler):
    """Serves by this handler, in threads that end with the script: the address."""
    server = Server(('127.0.0.1', 0), handler)
    threading.Thread(target=server.serve_forever, daemon=True).start()
    return f'http://127.0.0.1:{server.server_port}'


def head(status, *fields, version='HTTP/1.1', end='\r\n'):
    return end.join([f'{version} {status}', *fields, '', '']).encode()


def sized(body, more=0):
    return f'Content-Length: {len(body) + more}'


def whole(body, status='200 OK', *fields, **others):
    return [head(status, sized(body), *fields, **others), body]


def chunked(*pieces, coding='Chunked', also=None, version='HTTP/1.1'):
    fields = [f'Transfer-Encoding: {coding}'] + ([also] if also else [])
    return [head('200 OK', *fields, version=version), *pieces]


def without_end(start, piece):
    return itertools.chain([start], itertools.repeat(piece))


# What a server sends in place of a body, piece by piece; a number is a time in seconds to wait.
LIES = {
    'true': whole,
    'unsized': lambda b: [head('200 OK'), b],
    'sized_twice': lambda b: whole(b, '200 OK', sized(b)),
    'line_feeds': lambda b: whole(b, end='\n'),
    'old': lambda b: [head('200 OK', version='HTTP/1.0'), b],
    'old_sized': lambda b: whole(b, version='HTTP/1.0'),
    'identity': lambda b: whole(b, '200 OK', 'Content-Encoding: Identity'),
    'more': lambda b: [head('200 OK', sized(b)), b + b'more'],
    'empty': lambda b: whole(b''),
    'front': lambda b: whole(b[:-1]),
    'doubled': lambda b: whole(b + b),
    'cut': lambda b: [head('200 OK', sized(b)), b[:-1]],
    'endless': lambda b: without_end(head('200 OK'), b'x' * 65536),
    'huge': lambda b: without_end(head('200 OK', sized(b, 1 << 40)), b'x' * 65536),
    'endless_head': lambda b: without_end(b'HTTP/1.1 200 OK\r\n', b'A: b\r\n'),
    'closed': lambda b: [],
    'bare': lambda b: [b],
    'moved': lambda b: whole(b, '301 Moved Permanently', 'Location: /true/all/small/checkpoint'),
    'missing': lambda b: whole(b, '404 Not Found'),
    'failed': lambda b: whole(b, '500 Internal Server Error'),
    'made': lambda b: whole(b, '201 Created'),
    'two_sizes': lambda b: whole(b, '200 OK', sized(b, 1)),
    'signed_size': lambda b: [head('200 OK', f'Content-Length: +{len(b)}'), b],
    'hinted': lambda b: [head('103 Early Hints', 'Link: </>') * 9, *whole(b)],
    'chunked': lambda b: chunked(b'%x\r\n%s\r\n0\r\n\r\n' % (len(b), b)),
    'chunks': lambda b: chunked(*(b'%04X;a=b\r\n%s\r\n' % (len(b[i:i + 7]), b[i:i + 7]) for i in range(0, len(b), 7)),
                                b'000;last\r\nA: b\r\n\r\n'),
    'chunks_more': lambda b: chunked(b'%x\r\n%s\r\n0\r\n' % (len(b), b), b'more'),
    'chunks_cut': lambda b: chunked(b'%x\r\n%s\r\n' % (len(b), b)),
    'chunks_joined': lambda b: chunked(b'%x\r\n%s1\r\n' % (len(b), b), b'0\r\n\r\n'),
    'chunks_decimal': lambda b: chunked(b'+%x\r\n%s\r\n0\r\n\r\n' % (len(b), b)),
    'chunks_endless': lambda b: without_end(*chunked(b'1000\r\n%s\r\n' % bytes(4096))),
    'chunks_huge': lambda b: chunked(b'7fffffffffffffff\r\n', b),
    'chunks_sized': lambda b: chunked(b'%x\r\n%s\r\n0\r\n\r\n' % (len(b), b), also=sized(b)),
    'chunks_old': lambda b: chunked(b'%x\r\n%s\r\n0\r\n\r\n' % (len(b), b), version='HTTP/1.0'),
    'chunks_zipped': lambda b: chunked(b'%x\r\n%s\r\n0\r\n\r\n' % (len(b), b), coding='gzip, chunked'),
    'zipped': lambda b: whole(gzip.compress(b), '200 OK', 'Content-Encoding: gzip'),
    'new': lambda b: whole(b, version='HTTP/2'),
    'slow': lambda b: itertools.chain([head('200 OK', sized(b))], *([b[i:i + 1], 0.2] for i in range(len(b)))),
    'silent': lambda b: [60],
}


class Liar(Files):
    """A server whose address says how it lies, of which resource, and of which folder: /LIE/RESOURCE/FOLDER."""
    asked = []

    def do_GET(self):
        lie, which, path = self.path[1:].split('/', 2)
        Liar.asked.append(path.split('/', 1)[1])
        kind = 'bundle' if '/tile/entries/' in path else 'tile' if '/tile/' in path else 'checkpoint'
        body = read(path)
        self.close_connection = True
        try:
            for piece in LIES[lie if which == kind else 'missing' if body is None else 'true'](body or b''):
                time.sleep(piece) if isinstance(piece, (int, float)) else self.connection.sendall(piece)
        except OSError:
            pass


class Late(Files):
    """A web server of files that answers late, each path by the seconds that `late` or `others` says: `asked` are the paths
    that it was asked for, and `most` says how many clients it had at once. A client counts until its answer is sent."""
    lock, asked, late, others = threading.Lock(), [], {}, 0.01
    now = most = 0

    @classmethod
    def clear(cls, late=None, others=0.01):
        cls.asked.clear()
        cls.most, cls.late, cls.others = 0, late or {}, others

    @classmethod
    def count(cls, more):
        with cls.lock:
            cls.now += more
            cls.most = max(cls.most, cls.now)

    def setup(self):
        self.count(1)
        super().setup()

    def do_GET(self):
        path = self.path[1:]
        asked = path.split('/', 1)[1]
        self.asked.append(asked)
        time.sleep(self.late.get(asked, self.others))
        body = read(path)
        self.count(-1)
        self.close_connection = True
        try:
            for piece in whole(body or b'', '404 Not Found' if body is None else '200 OK'):
                self.connection.sendall(piece)
        except OSError:
            pass
