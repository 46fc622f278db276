"""A server of resources that a command reads, each scene under a path of its own: /SCENE/RESOURCE."""
import http.server
import threading


class Stage(http.server.ThreadingHTTPServer):
    """Serves what each scene shows, and keeps what was asked for. It ends with the process."""
    request_queue_size = 128
    daemon_threads = True

    def __init__(self):
        super().__init__(('127.0.0.1', 0), Answers)
        self.shown, self.asked = {}, {}
        threading.Thread(target=self.serve_forever, daemon=True).start()

    def show(self, scene, resources):
        """Shows these resources in a scene, by path: bytes, or the pieces of a raw answer."""
        self.shown[scene], self.asked[scene] = resources, set()

    def url(self, scene):
        return f'http://127.0.0.1:{self.server_port}/{scene}'

    def handle_error(self, *_):
        """A client that leaves is no fault."""


class Answers(http.server.BaseHTTPRequestHandler):
    protocol_version = 'HTTP/1.1'

    def log_message(self, *_):
        pass

    def do_GET(self):
        scene, _, path = self.path[1:].partition('/')
        self.server.asked.setdefault(scene, set()).add(path)
        found = self.server.shown.get(scene, {}).get(path)
        self.close_connection = True
        for piece in found if isinstance(found, list) else whole(found, path):
            self.connection.sendall(piece)


def head(status, *fields, version='HTTP/1.1'):
    return '\r\n'.join([f'{version} {status}', *fields, 'Connection: close', '', '']).encode()


def whole(body, path='checkpoint', status=None, more=0, **others):
    """An answer with a body, or 404 if there is none; its length says `more`."""
    kind = 'text/plain; charset=utf-8' if path == 'checkpoint' else 'application/octet-stream'
    status = status or ('404 Not Found' if body is None else '200 OK')
    return [head(status, f'Content-Type: {kind}', f'Content-Length: {len(body or b"") + more}', **others),
            body or b'']


def chunks(body, end=b'0\r\n\r\n'):
    """The same in chunks."""
    pieces = [body[start:start + 1000] for start in range(0, len(body), 1000)]
    coded = b''.join(b'%x\r\n%s\r\n' % (len(piece), piece) for piece in pieces)
    return [head('200 OK', 'Transfer-Encoding: chunked'), coded, end]


def without_length(body, version='HTTP/1.1'):
    """An answer whose body ends with the connection."""
    return [head('200 OK', version=version), body]


def endless(body):
    """An answer whose body goes on; it is cut after 64 MiB."""
    return [head('200 OK'), body, *[bytes(1 << 16)] * 1024]
