"""Serves a witness or a log of this folder over HTTP."""
import contextlib
import http.server
import threading


class Handler(http.server.BaseHTTPRequestHandler):
    """Answers what `server.site.answer` gives of a method, a path and a body: a status, a type, and a body."""
    protocol_version = 'HTTP/1.1'

    def log_message(self, *_):
        pass

    def respond(self):
        body = self.rfile.read(int(self.headers.get('Content-Length', 0)))
        status, kind, content = self.server.site.answer(self.command, self.path[1:], body)
        self.send_response(status)
        self.send_header('Content-Length', str(len(content)))
        self.send_header('Connection', 'close')
        if content:
            self.send_header('Content-Type', kind)
        if status == 405:
            self.send_header('Allow', 'GET, POST')
        self.send_header('Cache-Control', 'no-cache' if self.path == '/checkpoint' else 'max-age=31536000, immutable')
        self.end_headers()
        self.wfile.write(content)

    do_GET = do_POST = respond


class Server(http.server.ThreadingHTTPServer):
    request_queue_size, daemon_threads = 128, True


@contextlib.contextmanager
def serving(site):
    """Serves a witness or a log until the end of the `with`: its address."""
    server = Server(('127.0.0.1', 0), Handler)
    server.site = site
    threading.Thread(target=server.serve_forever, args=(0.01,), daemon=True).start()
    try:
        yield f'http://127.0.0.1:{server.server_port}'
    finally:
        server.shutdown()
        server.server_close()
