"""Tunnels: ports of 127.0.0.1 at which a web server is reached that speaks HTTP over TLS."""
import contextlib
import http.client
import http.server
import os
import select
import socket
import ssl
import threading
import time

# The most bytes of a body, which `tlog` takes of no store either, and those that are handed on at once.
MOST, PIECE = 1 << 33, 1 << 16
# The seconds for which a connection to the server is kept unused, and those after which none is used for a request
# that isn't to be done twice; those for which `tlog` may leave one unused; and how many it may have at once.
KEPT, FRESH, IDLE, CLIENTS = 20, 5, 600, 1024
# The fields of an answer that are handed on: `tlog` reads no others, and has 8 KiB for them.
ANSWERED = 'Content-Type', 'Content-Encoding', 'ETag'
# The fields of a request that are of one connection, or that are said anew.
OWN = {'connection', 'keep-alive', 'te', 'trailer', 'transfer-encoding', 'upgrade', 'expect', 'user-agent'}
WITHOUT_BODY = {204, 304}


def report(line):
    """Writes a line on standard error, and returns whether that could be done."""
    try:
        while line:
            line = line[os.write(2, line):]
        return True
    except OSError:
        return False


def reason(fault):
    """Why a server wasn't reached, or its answer isn't one."""
    if isinstance(fault, ssl.SSLCertVerificationError):
        return f'certificate refused: {fault.verify_message.rstrip(".")}'
    if isinstance(fault, socket.gaierror):
        return 'no such host'
    if isinstance(fault, TimeoutError):
        return 'timed out'
    if isinstance(fault, ssl.SSLError):
        return f'no TLS: {(fault.reason or "failed").replace("_", " ").lower()}'
    if isinstance(fault, ConnectionRefusedError):
        return 'connection refused'
    if isinstance(fault, (ConnectionError, http.client.IncompleteRead)):
        return 'connection broken'
    if isinstance(fault, http.client.HTTPException):
        return 'malformed answer'
    return (fault.strerror or 'failed').lower()


class Kept:
    """A connection that is kept since a moment."""

    def __init__(self, since, link, is_used):
        self.since, self.link, self.is_used = since, link, is_used

    def is_open(self):
        """Whether the server hasn't closed it, as far as is known. One that wasn't used may have something of TLS."""
        waiting = select.poll()
        waiting.register(self.link.sock, select.POLLIN)
        return not self.is_used or not waiting.poll(0)


class Upstream:
    """A server that is reached over TLS: its address, as `name` has it, and connections to it that are kept. Requests
    are signed anew if it has a signer."""

    def __init__(self, host, port, name, context, agent, patience):
        self.host, self.port, self.name, self.context = host, port, name, context
        self.agent, self.patience, self.signer = agent, patience, None
        authority = f'[{host}]' if ':' in host else host
        self.authority = authority if port == 443 else f'{authority}:{port}'
        self.kept, self.reported, self.turn = [], None, threading.Lock()

    def connect(self, seconds=None):
        """A new connection, within this many seconds."""
        link = http.client.HTTPSConnection(self.host, self.port, timeout=seconds or self.patience,
                                           context=self.context)
        try:
            link.connect()
        except UnicodeError:
            raise socket.gaierror from None
        link.sock.settimeout(self.patience)
        return link

    def keep(self, link, is_used=True):
        """Keeps a connection for another request, and closes those that were kept too long."""
        now = time.monotonic()
        with self.turn:
            old = [kept for kept in self.kept if now - kept.since >= KEPT]
            self.kept = [kept for kept in self.kept if now - kept.since < KEPT] + [Kept(now, link, is_used)]
        for kept in old:
            kept.link.close()

    def take(self, seconds):
        """A connection that was kept for fewer seconds and isn't closed; None if there is none."""
        while True:
            with self.turn:
                if not self.kept:
                    return None
                kept = self.kept.pop()
            if time.monotonic() - kept.since < seconds and kept.is_open():
                return kept.link
            kept.link.close()

    def report(self, why):
        """Reports why the server isn't reached, unless that was the last thing that was reported; None that it is."""
        with self.turn:
            is_new, self.reported = why != self.reported, why
        if why and is_new:
            report(f'tlog: {self.name}: {why}\n'.encode())


class Tunnel(http.server.ThreadingHTTPServer):
    """Listens at a port of 127.0.0.1, and hands on what is asked there to a server over TLS."""
    daemon_threads, block_on_close, request_queue_size = True, False, 128

    def __init__(self, upstream):
        super().__init__(('127.0.0.1', 0), Relay)
        self.upstream, self.room = upstream, threading.Semaphore(CLIENTS)
        self.url = f'http://127.0.0.1:{self.server_port}'

    def process_request(self, request, client_address):
        if self.room.acquire(blocking=False):
            super().process_request(request, client_address)
        else:
            self.shutdown_request(request)

    def process_request_thread(self, request, client_address):
        try:
            super().process_request_thread(request, client_address)
        finally:
            self.room.release()

    def handle_error(self, request, client_address):
        """`tlog` has left: there is nothing to report."""


class Relay(http.server.BaseHTTPRequestHandler):
    """A connection of `tlog`, each of whose requests is handed on."""
    protocol_version, timeout, disable_nagle_algorithm = 'HTTP/1.1', IDLE, True

    def log_message(self, *_):
        pass

    def length(self):
        """The length of the request's body; None if it isn't said in decimal or is above the limit."""
        text = self.headers.get('Content-Length', '0')
        is_plain = text.isascii() and text.isdecimal() and len(text) < 12 and 'Transfer-Encoding' not in self.headers
        return int(text) if is_plain and int(text) <= MOST else None

    def fields(self):
        """The fields of the request as the server is to get them."""
        upstream = self.server.upstream
        fields = {name.lower(): value for name, value in self.headers.items()}
        if upstream.signer:
            fields = upstream.signer.signed_for(upstream.authority, self.command, self.path, fields)
        return {**{name: value for name, value in fields.items() if name not in OWN},
                'host': upstream.authority, 'user-agent': upstream.agent}

    def ask(self, link, length):
        """The head of the answer to the request over a connection, which is closed if that fails."""
        try:
            link.putrequest(self.command, self.path, skip_host=True, skip_accept_encoding=True)
            for name, value in self.fields().items():
                link.putheader(name, value)
            link.endheaders()
            self.send_body(link, length)
            answer = link.getresponse()
            if answer.status < 200 or len(answer.headers.get_all('Content-Length', [])) > 1:
                raise http.client.HTTPException
            return answer
        except BaseException:
            link.close()
            raise

    def send_body(self, link, length):
        """Hands on the request's body piece by piece."""
        while length:
            piece = self.rfile.read(min(length, PIECE))
            if not piece:
                raise ConnectionResetError
            link.send(piece)
            length -= len(piece)

    def exchange(self, length):
        """A connection to the server, and the head of the answer that came over it. A kept connection may end just as
        it is used: then a request that only reads is sent again, over a new one."""
        only_reads, upstream = self.command == 'GET' and not length, self.server.upstream
        kept = upstream.take(KEPT if only_reads else FRESH)
        if kept:
            try:
                return kept, self.ask(kept, length)
            except (OSError, http.client.HTTPException):
                if not only_reads:
                    raise
        link = upstream.connect()
        return link, self.ask(link, length)

    def relay(self):
        """Hands on one request and its answer."""
        length = self.length()
        if length is None:
            self.refuse(400)
            return
        try:
            link, answer = self.exchange(length)
        except (OSError, http.client.HTTPException) as fault:
            self.server.upstream.report(reason(fault))
            self.refuse(502)
            return
        self.server.upstream.report(None)
        is_whole = False
        try:
            is_whole = self.hand_back(answer)
        finally:
            if is_whole and not answer.will_close:
                self.server.upstream.keep(link)
            else:
                link.close()

    do_GET = do_POST = do_PUT = relay

    def refuse(self, status):
        """Answers in the place of the server, and closes the connection: a body may be left on it."""
        self.close_connection = True
        self.send_response_only(status)
        self.send_header('Content-Length', '0')
        self.send_header('Connection', 'close')
        self.end_headers()

    def hand_back(self, answer):
        """Hands on an answer, and returns whether it came whole: if not, the connection is closed before its end."""
        has_body, size = answer.status not in WITHOUT_BODY, answer.length
        self.send_response_only(answer.status)
        for name in ANSWERED:
            if value := answer.headers.get(name):
                self.send_header(name, value)
        if has_body:
            self.send_header(*('Transfer-Encoding', 'chunked') if size is None else ('Content-Length', str(size)))
        if self.close_connection:
            self.send_header('Connection', 'close')
        self.end_headers()
        is_whole = self.hand_back_body(answer, size) if has_body else not answer.read()
        self.close_connection |= not is_whole
        return is_whole

    def hand_back_body(self, answer, size):
        """Hands on the body piece by piece, in chunks if its size isn't known, and returns whether it came whole."""
        count = 0
        with contextlib.suppress(OSError, http.client.HTTPException):
            while count <= MOST and (piece := answer.read(PIECE)):
                self.wfile.write(piece if size is not None else b'%x\r\n%s\r\n' % (len(piece), piece))
                count += len(piece)
            if size is None and count <= MOST:
                self.wfile.write(b'0\r\n\r\n')
            return count == size if size is not None else count <= MOST
        return False
