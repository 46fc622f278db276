"""Requests to a log and to a witness, by their answers (C2SP tlog-tiles and tlog-witness; RFC 9112), and the words of the
servers that are asked."""
from .keys import ORIGIN, checkpoint, cosignature, note
from .program import TEXT, answer
from .tree import leaf, root

NOT_GET = answer(405, 'Method Not Allowed', 'Allow: GET')
NOT_POST = answer(405, 'Method Not Allowed', 'Allow: POST')
TOO_LARGE = answer(413, 'Payload Too Large')
CONFLICT = answer(409, 'Conflict', kind='text/x.tlog.size', body=b'1\n')
LOG = ('serve', '--origin', ORIGIN, '--secret', 's', '--quiet')
WITNESS = ('witness', '--origin', ORIGIN, '--secret', 's', '--name', 'witness.example', '--witness-secret', 'w',
           '--time', '1700000000', '--quiet')

# Requests to a log, by the answer. Those for the checkpoint:
CHECKPOINT = [
    b'GET /checkpoint HTTP/1.1\r\n\r\n',
    b'GET /checkpoint HTTP/1.0\r\n\r\n',
    b'GET /checkpoint HTTP/1.1\r\nHost: a\r\n\r\n',
    b'GET /checkpoint HTTP/1.1\r\nHost: a\r\nHost: b\r\n\r\n',
    b'GET /checkpoint HTTP/1.1\nHost: a\n\n',
    b'\r\n\r\nGET /checkpoint HTTP/1.1\r\n\r\n',
    b'\nGET /checkpoint HTTP/1.1\r\n\r\n',
    b'GET /checkpoint HTTP/1.1\r\nContent-Length: 5\r\n\r\nhello',
    b'GET /checkpoint HTTP/1.1\r\nContent-Length: x\r\n\r\n',
    b'GET /checkpoint HTTP/1.1\r\nTransfer-Encoding: chunked\r\n\r\n',
    b'GET /checkpoint HTTP/1.1\r\n\r\nGET /nowhere HTTP/1.1\r\n\r\n',
    b'GET /checkpoint HTTP/1.1\r\n\r\n\x00\x00',
    b'GET /checkpoint HTTP/1.1\r\nX:\r\n\r\n',
    b'GET /checkpoint HTTP/1.1\r\nX: \t \r\n\r\n',
    b'GET /checkpoint HTTP/1.1\r\nX: a\tb\xff\r\n\r\n',
    b'GET /checkpoint HTTP/1.1\r\nConnection: keep-alive\r\n\r\n',
    b'GET /checkpoint HTTP/1.1\r\nExpect: 100-continue\r\n\r\n',
    b"GET /checkpoint HTTP/1.1\r\n!#$%&'*+-.^_`|~: a\r\n\r\n",
]

# What the board of two entries has not got, or what is no path.
NOWHERE = '''
/tile/0/000 /tile/0/001 /tile/1/000 /tile/0/000.p/3 /tile/1/000.p/1 /tile/entries/000 /tile/entries/000.p/3
/tile/entries/001.p/1 / checkpoint //checkpoint /checkpoint/ /checkpoint? /checkpoint?x=1 /checkpoint#a /Checkpoint
/CHECKPOINT /check%70oint /%2Fcheckpoint %2Fcheckpoint /tile%2F0/000.p/2 /tile/0/../0/000.p/2 /../checkpoint
/./checkpoint /tile/../checkpoint /checkpoint/.. http://a/checkpoint http://example.com/log/checkpoint *
/tile/0/000.p/02 /tile/0/000.p/0 /tile/0/000.p/256 /tile/00/000.p/2 /tile/8/000 /tile/0/x000/001 /tile/0/67
/tile/0/0000 /tile/-1/000 /tile/+0/000 /tile/0/000.p/2? /tile/0/000.p/2/ /tile/entries/000.p/2# /tile//000
/tile/entries /tile/entries/000.p/ /add-checkpoint /index.html /é /checkpoint;a /checkpoint, /tile/0/000.p/2.p/2
'''.split()
NOT_THERE = [f'GET {target} HTTP/1.1\r\n\r\n'.encode() for target in NOWHERE] + [
    b'POST /nowhere HTTP/1.1\r\n\r\n',
    b'OPTIONS * HTTP/1.1\r\n\r\n',
    b'CONNECT a:1 HTTP/1.1\r\n\r\n',
    b'POST /tile/0/67 HTTP/1.0\r\n\r\n',
    b'HEAD / HTTP/1.1\r\n\r\n',
]

# Those by another method.
OTHER_METHOD = [f'{method} HTTP/1.1\r\n\r\n'.encode() for method in (
    'POST /checkpoint', 'HEAD /checkpoint', 'get /checkpoint', 'Get /checkpoint', 'GETT /checkpoint', 'GE /checkpoint',
    'PUT /tile/0/000', 'DELETE /tile/entries/000.p/2', 'OPTIONS /checkpoint', '! /checkpoint')] + [
    b'POST /checkpoint HTTP/1.1\r\nContent-Length: 5\r\n\r\nhello']

# Those without a head: it is cut off, or the parser refuses it.
NO_HEAD = [
    b'GET /checkpoint HTT',
    b'GET /checkpoint HTTP/1.1\r\n',
    b'GET /checkpoint HTTP/1.1\r\n\r',
    b'GET /checkpoint HTTP/1.1\r\nHost: a\r\n',
    b'GET /checkpoint HTTP/1.1\r\nHost: a',
    b'G', b'GET', b'GET ', b'GET /checkpoint', b'\r\n', b'\r', b'\x00',
    b'GET /checkpoint HTTP/2.0\r\n\r\n',
    b'GET /checkpoint HTTP/1.2\r\n\r\n',
    b'GET /checkpoint HTTP/0.9\r\n\r\n',
    b'GET /checkpoint HTTP/1.10\r\n\r\n',
    b'GET /checkpoint http/1.1\r\n\r\n',
    b'GET /checkpoint\r\n\r\n',
    b'GET  /checkpoint HTTP/1.1\r\n\r\n',
    b'GET /checkpoint  HTTP/1.1\r\n\r\n',
    b'GET /check point HTTP/1.1\r\n\r\n',
    b' GET /checkpoint HTTP/1.1\r\n\r\n',
    b'GET\t/checkpoint HTTP/1.1\r\n\r\n',
    b'GET HTTP/1.1\r\n\r\n',
    b'GET /checkpoint HTTP/1.1 \r\n\r\n',
    b'GET /check\x00point HTTP/1.1\r\n\r\n',
    b'GE\x00T /checkpoint HTTP/1.1\r\n\r\n',
    b'GET /checkpoint HTTP/1.1\r\nX\x00: a\r\n\r\n',
    b'GET /checkpoint HTTP/1.1\r\nX: a\x00b\r\n\r\n',
    b'GET /check\x7fpoint HTTP/1.1\r\n\r\n',
    b'GET /\xff HTTP/1.1\r\n\r\n',
    b'GET /checkpoint HTTP/1.1\r\nX : a\r\n\r\n',
    b'GET /checkpoint HTTP/1.1\r\n X: a\r\n\r\n',
    b'GET /checkpoint HTTP/1.1\r\nX: a\r\n b\r\n\r\n',
    b'GET /checkpoint HTTP/1.1\r\n: a\r\n\r\n',
    b'GET /checkpoint HTTP/1.1\r\nHost\r\n\r\n',
    b'GET /checkpoint HTTP/1.1\r\nX: a\rb\r\n\r\n',
    b'GET /checkpoint HTTP/1.1\rX: a\r\n\r\n',
    b'\x16\x03\x01\x02\x00\x01',
    b'hello\r\n\r\n',
    b'(GET) /checkpoint HTTP/1.1\r\n\r\n',
    b'GET /checkpoint HTTP/1.1\r\nX: a\x7f\r\n\r\n',
]

# The body of the first request to a witness: the checkpoint of one empty entry; its answer, and the line that is printed.
ONE = leaf(b'')
BODY = b'old 0\n\n' + note(1, ONE)
COSIGNED = answer(200, 'OK', kind=TEXT, body=cosignature('witness.example', 'w', 1700000000, checkpoint(1, ONE)))
LINE = f'1 bjQLnP+zepicpUTmu3gKLHiQHT+zNzh2hRGjBhevoB0= 0 {ORIGIN}\n'.encode()
POST = b'POST /add-checkpoint HTTP/1.1\r\nContent-Length: 140\r\n\r\n'

# Heads of requests to a witness that the body of 140 bytes follows, by the answer: what follows `POST /add-checkpoint`.
# Those that say how long the body is:
TAKEN = [b'POST /add-checkpoint HTTP/1.1\r\n' + fields + b'\r\n\r\n' for fields in (
    b'Content-Length: 140', b'content-length: 140', b'CONTENT-LENGTH: 140', b'Content-length: 140',
    b'cOnTeNt-LeNgTh: 140', b'Content-Length:140', b'Content-Length:   140', b'Content-Length:\t140\t',
    b'Content-Length: 140 \t ', b'Content-Length: 0140', b'Content-Length: 000000000000000000140',
    b'Host: a\r\nContent-Length: 140\r\nX: 5', b'X-Transfer-Encoding: chunked\r\nContent-Length: 140',
    b'Content-Length: 140\r\nContent-Lengths: 5', b'Content-Length: 140\r\nX: Content-Length: 5',
    b'Expect: 100-continue\r\nContent-Length: 140', b'Content-Length: 140\r\nTransfer-Encodin: chunked',
    b'Content-Type: text/x\r\nContent-Length: 140')] + [
    b'POST /add-checkpoint HTTP/1.0\r\nContent-Length: 140\r\n\r\n',
    b'POST /add-checkpoint HTTP/1.1\nContent-Length: 140\n\n',
    b'\r\nPOST /add-checkpoint HTTP/1.1\r\nContent-Length: 140\r\n\r\n']

# Those without a head or without one length, or with one that isn't the body's.
REFUSED = [b'POST /add-checkpoint HTTP/1.1\r\n' + fields + b'\r\n\r\n' for fields in (
    b'Host: a', b'Content-Length:', b'Content-Length:  \t', b'Content-Length: +140', b'Content-Length: -140',
    b'Content-Length: 140,140', b'Content-Length: 140, 140', b'Content-Length: 1 40', b'Content-Length: 0x8c',
    b'Content-Length: 8c', b'Content-Length: 140.0', b'Content-Length: 1e2', b'Content-Length: "140"',
    b'Content-Length: 140;', b'Content-Length: \xef\xbc\x91\xef\xbc\x94\xef\xbc\x90', b'Content-Length: 1_40',
    b'Content-Length: a', b'Content-Length: 140\r\nContent-Length: 140', b'Content-Length: 140\r\nContent-Length: 5',
    b'Content-Length: 140\r\ncontent-length: 140', b'Content-Length: 140\r\nContent-Length:',
    b'Content-Length: 140\r\nX: a\r\nCONTENT-LENGTH: x',
    b'Content-Length: 140\r\nContent-Length: 140\r\nContent-Length: 140', b'Transfer-Encoding: chunked',
    b'Content-Length: 140\r\nTransfer-Encoding: chunked', b'transfer-encoding: identity\r\nContent-Length: 140',
    b'Content-Length: 140\r\nTRANSFER-ENCODING:', b'Content-Length: 141', b'Content-Length: 1048576',
    b'Content-Length: 139', b'Content-Length: 0', b'Content-Length: 00', b'Content-Length : 140',
    b'Content-Length: 1\r\n 40', b'Content-Length: 14\x000')] + [
    b'POST /add-checkpoint HTTP/1.1\r\n\r\n',
    b'POST /add-checkpoint HTTP/3.0\r\nContent-Length: 140\r\n\r\n']

# Those with more than 1,048,576 bytes.
LARGE = [f'POST /add-checkpoint HTTP/1.1\r\nContent-Length: {length}\r\n\r\n'.encode() for length in (
    1048577, 2000000, 10485760, 18446744073709551615, 18446744073709551616, 999999999999999999999, '0001048577',
    '9' * 44)]

# Those for another target, and those by another method.
ELSEWHERE = [f'POST {target} HTTP/1.1\r\nContent-Length: 140\r\n\r\n'.encode() for target in '''
/add-checkpoint/ /add-checkpoint? /add-checkpoint?x /add-checkpoint# //add-checkpoint add-checkpoint /Add-Checkpoint
/add%2Dcheckpoint %2Fadd-checkpoint http://a/add-checkpoint /checkpoint / * /../add-checkpoint /add-checkpoints
/add-checkpoin'''.split()] + [
    b'GET /other HTTP/1.1\r\n\r\n',
    b'POST /other HTTP/1.1\r\n\r\n',
    b'PUT / HTTP/1.1\r\nContent-Length: 9999999\r\n\r\n',
    b'POST /other HTTP/1.1\r\nTransfer-Encoding: chunked\r\n\r\n']
NO_POST = [f'{method} /add-checkpoint HTTP/1.1\r\nContent-Length: 140\r\n\r\n'.encode() for method in (
    'PUT', 'post', 'Post', 'HEAD', 'POSTS', 'POS', 'OPTIONS')] + [
    b'GET /add-checkpoint HTTP/1.1\r\n\r\n',
    b'PUT /add-checkpoint HTTP/1.1\r\nContent-Length: 9999999\r\n\r\n',
    b'GET /add-checkpoint HTTP/1.1\r\nTransfer-Encoding: chunked\r\n\r\n']


def checkpoint_answer(*entries):
    leaves = [leaf(entry) for entry in entries]
    return answer(200, 'OK', kind=TEXT, body=note(len(leaves), root(leaves)))
