"""Requests over HTTP, one a connection, whose answers are taken as they come."""
import collections
import gzip
import http.client
import re
from urllib.parse import urlsplit

# More of a body isn't read.
MOST = 1 << 25


class Answer(collections.namedtuple('Answer', 'status fields body')):
    """An answer: its status, its fields by their names in lower case, and its body. A status of 0 is of none, and the
    body then says why."""

    @property
    def kind(self):
        """Its media type and the parameters, without the spaces and capitals that mean nothing."""
        return re.sub(r'\s*;\s*', ';', self.fields.get('content-type', '').strip()).replace('"', '').lower()

    def __repr__(self):
        return f'{self.status} {self.fields.get("content-type", "")} {self.body[:120]!r}'


def ask(url, path, body=None, method=None, seconds=20):
    """The answer to a request for a path under an address: a POST if it has a body."""
    parts = urlsplit(url)
    kind = http.client.HTTPSConnection if parts.scheme == 'https' else http.client.HTTPConnection
    link = kind(parts.hostname, parts.port, timeout=seconds)
    try:
        link.request(method or ('GET' if body is None else 'POST'), f'{parts.path.rstrip("/")}/{path}', body,
                     {'Accept-Encoding': 'identity', 'Connection': 'close'})
        got = link.getresponse()
        return Answer(got.status, {name.lower(): value for name, value in got.getheaders()}, got.read(MOST))
    except (OSError, http.client.HTTPException) as fault:
        return Answer(0, {}, f'{type(fault).__name__}: {fault}'.encode())
    finally:
        link.close()


def plain(answer):
    """The body of an answer, decoded if it is encoded by gzip."""
    if answer.fields.get('content-encoding', '').lower() != 'gzip':
        return answer.body
    try:
        return gzip.decompress(answer.body)
    except (OSError, EOFError):
        return answer.body


def lasts(answer):
    """How many seconds an answer may be kept by its Cache-Control, 0 if not at all, and None if it doesn't say."""
    control = answer.fields.get('cache-control', '').lower()
    if re.search(r'\bno-(store|cache)\b', control):
        return 0
    found = re.search(r'\bs-maxage="?(\d+)', control) or re.search(r'\bmax-age="?(\d+)', control)
    return int(found[1]) if found else None
