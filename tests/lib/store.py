#!/usr/bin/env -S python3 -B
"""A store of objects of the S3 kind, written after the standards (AWS, "Signature Calculations for the Authorization
Header: Transferring Payload in a Single Chunk"; Amazon S3 API Reference, PutObject, GetObject and "Error responses";
RFC 9110), with nothing of the program's own. It checks each signature and does puts by their conditions, keeps all that
ever was under each key, and misbehaves where it is told to. Anybody may read logs. Beside it a client, whose requests
are signed. Run by itself it serves the bucket `logs`, does each put after so many seconds (0), and prints what a client
needs:
  tests/lib/store.py [PORT [SECONDS]]
"""
import calendar
import collections
import contextlib
import hashlib
import hmac
import http.client
import random
import re
import socket
import struct
import sys
import threading
import time
import urllib.parse

REGION = 'us-east-1'
SKEW = 900
LARGEST = 1 << 30
PHRASES = {200: 'OK', 400: 'Bad Request', 403: 'Forbidden', 404: 'Not Found', 405: 'Method Not Allowed',
           411: 'Length Required', 412: 'Precondition Failed', 500: 'Internal Server Error', 501: 'Not Implemented',
           503: 'Service Unavailable', 507: 'Insufficient Storage'}


# Signatures

def digest_of(data):
    return hashlib.sha256(data).hexdigest()


def encoded(path):
    """A path as it is signed: each byte but a slash and what is unreserved is %XX."""
    return urllib.parse.quote(path, safe='/')


def signature(secret, region, moment, method, path, query, fields, digest):
    """The signature of a request, whose signed fields are pairs of a name in lower case and a value."""
    lines = ''.join(f'{name}:{" ".join(value.split())}\n' for name, value in sorted(fields))
    names = ';'.join(sorted(name for name, _ in fields))
    request = '\n'.join([method, encoded(path), query, lines, names, digest])
    scope = f'{moment[:8]}/{region}/s3/aws4_request'
    signed = f'AWS4-HMAC-SHA256\n{moment}\n{scope}\n{digest_of(request.encode())}'
    key = b'AWS4' + secret.encode()
    for word in scope.split('/'):
        key = hmac.digest(key, word.encode(), 'sha256')
    return hmac.new(key, signed.encode(), 'sha256').hexdigest()


def moment_of(seconds):
    return time.strftime('%Y%m%dT%H%M%SZ', time.gmtime(seconds))


class Client:
    """Asks a store over one connection, which is kept, by signed requests, or as anybody where no key is given."""

    def __init__(self, url, key=None, region=REGION, seconds=20):
        place = urllib.parse.urlsplit(url)
        self.host, self.prefix, self.key, self.region = place.netloc, place.path.rstrip('/'), key, region
        self.link, self.shift = http.client.HTTPConnection(self.host, timeout=seconds), 0

    def ask(self, method, name, body=b'', query='', **fields):
        """Status, fields and body of the answer over an object. A field's name has `_` in the place of `-`."""
        path = f'{self.prefix}/{name}' if name else self.prefix
        given = [(field.replace('_', '-').lower(), value) for field, value in fields.items()]
        if self.key:
            digest, moment = digest_of(body), moment_of(time.time() + self.shift)
            given += [('host', self.host), ('x-amz-content-sha256', digest), ('x-amz-date', moment)]
            mark = signature(self.key[1], self.region, moment, method, path, query, given, digest)
            scope = f'{self.key[0]}/{moment[:8]}/{self.region}/s3/aws4_request'
            names = ';'.join(sorted(name for name, _ in given))
            words = f'Credential={scope},SignedHeaders={names},Signature={mark}'
            given.append(('authorization', f'AWS4-HMAC-SHA256 {words}'))
        target = encoded(path) + (f'?{query}' if query else '')
        for is_last in (method != 'GET', True):
            try:
                self.link.request(method, target, body or None, dict(given))
                answer = self.link.getresponse()
                return answer.status, {name.lower(): value for name, value in answer.getheaders()}, answer.read()
            except (OSError, http.client.HTTPException):
                self.link.close()
                if is_last:
                    raise

    def get(self, name):
        """The content of an object, and `None` where it isn't there."""
        status, _, body = self.ask('GET', name)
        return body if status == 200 else None

    def put(self, name, body, **fields):
        return self.ask('PUT', name, body, **fields)[0]


# Requests

Request = collections.namedtuple('Request', 'begun method target fields body')
# `begun` is when a request's first line was there, `moment` when it was decided, just before it is answered.
Asked = collections.namedtuple('Asked', 'begun moment link method key fields status code')
Put = collections.namedtuple('Put', 'key body fields')


def read_request(source):
    """The next request of a connection; none where it is closed."""
    words = source.readline(65_536).split()
    begun = time.monotonic()
    if len(words) != 3:
        return None
    fields = {}
    while (line := source.readline(65_536)).strip():
        name, _, value = line.decode('latin-1').partition(':')
        if name.lower() in fields:
            return None
        fields[name.lower()] = value.strip()
    length = fields.get('content-length', '0')
    if not line or not length.isdecimal() or int(length) > LARGEST or 'transfer-encoding' in fields:
        return None
    body = source.read(int(length))
    whole = Request(begun, words[0].decode(), words[1].decode('latin-1'), fields, body)
    return whole if len(body) == int(length) else None


# The store

class Rule:
    """What is done with requests of a method for keys of a pattern, so many times, in the place of what is due."""

    def __init__(self, method, pattern, does, times, given):
        self.method, self.pattern, self.does, self.left, self.given = method, re.compile(pattern), does, times, given
        self.met = threading.Event()


class Store:
    """A store that listens at a port of this machine, in threads, from `start` until `stop`; its objects stay. Where
    `served` is given, it serves so many connections at once, and the others wait."""

    def __init__(self, buckets=('logs',), region=REGION, name='store', secret=None, served=None):
        self.key = (f'{name}-id-{random.randbytes(6).hex()}', secret or f'{name}-secret-{random.randbytes(16).hex()}')
        self.buckets, self.region, self.turn = set(buckets), region, threading.Lock()
        self.served = threading.Semaphore(served) if served else contextlib.nullcontext()
        self.objects, self.past, self.asked, self.rules = {}, [], [], []
        self.heeds, self.shift, self.room, self.full, self.weather = {'if-match', 'if-none-match'}, 0, None, 403, None
        self.held, self.listener, self.links, self.port, self.count, self.busy, self.most, self.spoilt = None, None, set(), 0, 0, 0, 0, 0

    def start(self):
        if self.held is None:
            # (bound and not listening: nobody else is given the port while the store is stopped)
            self.held = socket.socket()
            self.held.setsockopt(socket.SOL_SOCKET, socket.SO_REUSEADDR, 1)
            self.held.bind(('127.0.0.1', self.port))
            self.port = self.held.getsockname()[1]
        self.listener = socket.create_server(('127.0.0.1', self.port), backlog=128)
        threading.Thread(target=self.accept, args=(self.listener,), daemon=True).start()

    def stop(self):
        """Ends all connections by a reset, whatever is under way."""
        listener, self.listener = self.listener, None
        with contextlib.suppress(OSError):
            listener.shutdown(socket.SHUT_RDWR)
        listener.close()
        with self.turn:
            links = list(self.links)
        for link in links:
            drop(link)

    def url(self, prefix='log', bucket='logs'):
        return f'http://127.0.0.1:{self.port}/{bucket}/{prefix}'.rstrip('/')

    def client(self, prefix='log', bucket='logs'):
        return Client(self.url(prefix, bucket), self.key, self.region)

    def misbehaves(self, method, pattern, does, times=1, **given):
        """From now on does something else with so many requests:
        `lost` is done and not answered, and `unheard` neither; `late` is done after some seconds and not answered;
        `failed` is done and answered 500; `refused` isn't done, and answered by a status and a code; `hangs` isn't done
        and not answered for some seconds; `silent` is done and not answered for so long; `half` is done and answered in
        part; `closes` is done and answered, and then the connection closed; `other` has somebody else put something
        there before, and isn't answered; `waits` is done after a while; `tagless` is done, and answered without an
        entity tag."""
        rule = Rule(method, pattern, does, times, given)
        with self.turn:
            self.rules.append(rule)
        return rule

    def behaves(self):
        """From now on does what is due."""
        with self.turn:
            self.rules.clear()

    def under(self, prefix, bucket='logs'):
        """What is there, by key: each object's bytes."""
        start = f'{bucket}/{prefix}/' if prefix else f'{bucket}/'
        with self.turn:
            return {key[len(start):]: put.body for key, put in self.objects.items() if key.startswith(start)}

    def ledger(self, prefix, bucket='logs'):
        """All that was put, in order: key and bytes of each put that was done."""
        start = f'{bucket}/{prefix}/'
        with self.turn:
            return [(put.key[len(start):], put.body) for put in self.past if put.key.startswith(start)]

    # One connection

    def accept(self, listener):
        while True:
            try:
                link, _ = listener.accept()
            except OSError:
                return
            link.setsockopt(socket.IPPROTO_TCP, socket.TCP_NODELAY, 1)
            with self.turn:
                if self.listener is not listener:
                    drop(link)
                    return
                self.links.add(link)
                self.count += 1
                number = self.count
            threading.Thread(target=self.talk, args=(link, number), daemon=True).start()

    def talk(self, link, number):
        try:
            with self.served, link, link.makefile('rb') as source:
                while (request := read_request(source)) and self.counted(link, number, request):
                    pass
        except OSError:
            pass
        finally:
            with self.turn:
                self.links.discard(link)

    def counted(self, link, number, request):
        """Answers a request, and counts how many puts are under way at once."""
        is_put = request.method == 'PUT'
        with self.turn:
            self.busy += is_put
            self.most = max(self.most, self.busy)
        try:
            return self.serve(link, number, request)
        finally:
            with self.turn:
                self.busy -= is_put

    def rule_of(self, request, key):
        with self.turn:
            for rule in self.rules:
                if rule.left and rule.method == request.method and rule.pattern.search(key):
                    rule.left -= 1
                    rule.met.set()
                    return rule.does, rule.given
            if self.weather:
                dice, chance, most = self.weather
                if dice.random() < chance and request.method == 'PUT':
                    self.spoilt += 1
                    does = dice.choice(['lost', 'unheard', 'late', 'failed', 'refused', 'half', 'closes'])
                    return does, {'seconds': dice.random() * 2}
                return 'waits', {'seconds': dice.random() * most}
        return None, {}

    def serve(self, link, number, request):
        """Answers a request: whether the connection goes on."""
        path, _, query = request.target.partition('?')
        key = urllib.parse.unquote(path).lstrip('/')
        does, given = self.rule_of(request, key)
        seconds = given.get('seconds', 0)
        if does in ('waits', 'hangs', 'other'):
            time.sleep(seconds)
        if does == 'other':
            with self.turn:
                self.place(key, given['body'], {})
        if does == 'late':
            threading.Timer(seconds, self.done, (request, key, query, number)).start()
        if does == 'refused':
            status, code, fields, body = given.get('status', 503), given.get('code', 'SlowDown'), {}, b''
            self.note(request, key, number, status, code)
        elif does in ('unheard', 'hangs', 'other', 'late'):
            self.note(request, key, number, 0, does)
            return False
        else:
            status, code, fields, body = self.done(request, key, query, number)
        if does == 'silent':
            time.sleep(seconds)
        if does in ('lost', 'silent'):
            return False
        if does == 'failed':
            status, code, fields, body = 500, 'InternalError', {}, b''
        if does == 'tagless':
            fields.pop('etag', None)
        whole = answer(request.method, status, code, fields, body, key)
        link.sendall(whole[:len(whole) // 2] if does == 'half' else whole)
        return does not in ('half', 'closes') and request.fields.get('connection', '').lower() != 'close'

    def note(self, request, key, number, status, code):
        with self.turn:
            self.asked.append(Asked(request.begun, time.monotonic(), number, request.method, key, request.fields,
                                    status, code))

    def done(self, request, key, query, number):
        """Does what a request asks: status, code, fields and body of the answer."""
        with self.turn:
            status, code, fields, body = self.decided(request, key, query)
        self.note(request, key, number, status, code)
        return status, code, fields, body

    def decided(self, request, key, query):
        refusal = self.refusal(request, query)
        if refusal:
            return *refusal, {}, b''
        if key.split('/')[0] not in self.buckets:
            return 404, 'NoSuchBucket', {}, b''
        if request.method in ('GET', 'HEAD'):
            is_own = 'authorization' in request.fields
            if key not in self.objects or not is_own and not re.search('/(checkpoint$|tile/)', key):
                return *((404, 'NoSuchKey') if is_own else (403, 'AccessDenied')), {}, b''
            found = self.objects[key]
            return 200, '', {**found.fields, 'etag': f'"{etag(found.body)}"'}, found.body
        if request.method != 'PUT' or query or '/' not in key:
            return 405, 'MethodNotAllowed', {}, b''
        if 'content-length' not in request.fields:
            return 411, 'MissingContentLength', {}, b''
        if self.room is not None and self.room < len(request.body):
            return self.full, 'QuotaExceeded', {}, b''
        there = self.objects.get(key)
        for name in sorted(self.heeds & set(request.fields)):
            wanted = request.fields[name]
            if name == 'if-none-match' and wanted != '*':
                return 501, 'NotImplemented', {}, b''
            if name == 'if-match' and there is None:
                return 404, 'NoSuchKey', {}, b''
            met = there is None if name == 'if-none-match' else wanted.strip('"') in ('*', etag(there.body))
            if not met:
                return 412, 'PreconditionFailed', {}, b''
        if self.room is not None:
            self.room -= len(request.body)
        self.place(key, request.body, request.fields)
        return 200, '', {'etag': f'"{etag(request.body)}"'}, b''

    def place(self, key, body, fields):
        kept = {name: fields[name] for name in ('content-type', 'cache-control') if name in fields}
        self.objects[key] = Put(key, body, kept)
        self.past.append(self.objects[key])

    def refusal(self, request, query):
        """Status and code where the signature isn't that of the request; none where it is."""
        fields = request.fields
        words = re.fullmatch(r'AWS4-HMAC-SHA256 Credential=([^/,]+)/(\d{8})/([^/,]+)/s3/aws4_request, ?'
                             r'SignedHeaders=([a-z0-9;-]+), ?Signature=([0-9a-f]{64})', fields.get('authorization', ''))
        if 'authorization' not in fields:
            return None if request.method in ('GET', 'HEAD') and not query else (403, 'AccessDenied')
        moment, digest = fields.get('x-amz-date', ''), fields.get('x-amz-content-sha256', '')
        if not words or not re.fullmatch(r'\d{8}T\d{6}Z', moment) or words[2] != moment[:8] or words[3] != self.region:
            return 400, 'AuthorizationHeaderMalformed'
        if words[1] != self.key[0]:
            return 403, 'InvalidAccessKeyId'
        names = words[4].split(';')
        due = {name for name in fields if name in ('host', 'content-type') or name.startswith('x-amz-')}
        if names != sorted(set(names)) or not due <= set(names) <= set(fields):
            return 403, 'AccessDenied'
        path = urllib.parse.unquote_to_bytes(request.target.partition('?')[0])
        pairs = [(name, fields[name]) for name in names]
        mark = signature(self.key[1], self.region, moment, request.method, path, query, pairs, digest)
        if not hmac.compare_digest(mark, words[5]):
            return 403, 'SignatureDoesNotMatch'
        if abs(calendar.timegm(time.strptime(moment, '%Y%m%dT%H%M%SZ')) - time.time() - self.shift) > SKEW:
            return 403, 'RequestTimeTooSkewed'
        return None if digest_of(request.body) == digest else (400, 'XAmzContentSHA256Mismatch')


def drop(link):
    """Ends a connection by a reset."""
    with contextlib.suppress(OSError):
        link.setsockopt(socket.SOL_SOCKET, socket.SO_LINGER, struct.pack('ii', 1, 0))
        link.shutdown(socket.SHUT_RDWR)


def etag(body):
    return hashlib.md5(body).hexdigest()


def answer(method, status, code, fields, body, key):
    """An answer's bytes: with a body, or the error that it names."""
    if code:
        body = (f'<?xml version="1.0" encoding="UTF-8"?>\n<Error><Code>{code}</Code><Message>{code}</Message>'
                f'<Resource>/{key}</Resource><RequestId>1</RequestId></Error>').encode()
        fields = {**fields, 'content-type': 'application/xml'}
    date = time.strftime('%a, %d %b %Y %H:%M:%S GMT', time.gmtime())
    lines = [f'HTTP/1.1 {status} {PHRASES.get(status, "Status")}', f'Date: {date}', f'Content-Length: {len(body)}']
    lines += [f'{name}: {value}' for name, value in fields.items()]
    return '\r\n'.join([*lines, '', '']).encode() + (b'' if method == 'HEAD' else body)


if __name__ == '__main__':
    alone = Store()
    alone.port = int(sys.argv[1]) if sys.argv[1:] else 0
    if sys.argv[2:]:
        alone.misbehaves('PUT', '', 'waits', sys.maxsize, seconds=float(sys.argv[2]))
    alone.start()
    print(f'http://127.0.0.1:{alone.port}/logs {alone.region} {alone.key[0]} {alone.key[1]}', flush=True)
    threading.Event().wait()
