"""The clauses that rows are of: of each the specification, its section, whether it is a MUST or a SHOULD, and what it
says, in short. A row names its clause by the word in front.
"""


class Clause:
    """A clause of a specification."""

    def __init__(self, specification, section, word, level, says):
        self.specification, self.section, self.word, self.level, self.says = specification, section, word, level, says

    def __str__(self):
        return f'{self.specification}, "{self.section}": {self.says}'


TABLE = '''
C2SP tlog-tiles | Checkpoints
  checkpoint | MUST | The checkpoint is served at <prefix>/checkpoint
  checkpoint-type | MUST | Its type is text/plain; charset=utf-8
  checkpoint-cache | SHOULD | Its headers prevent caching beyond a few seconds
C2SP tlog-tiles | Merkle Tree
  tile | MUST | A tile at <prefix>/tile/<L>/<N>[.p/<W>] has the hashes of its level in order, 256 or W
  tile-path | SHOULD | L and W have no leading zeros, N has groups of three digits
  tile-type | MUST | The type of a tile is application/octet-stream
  tile-cache | SHOULD | A tile is immutable, and its headers allow long caching
  immutable | MUST | A tile or bundle never changes
C2SP tlog-tiles | Partial Tiles
  partial | MUST | The partial tiles of the checkpoint are served; they may go once the full ones are there
  full-instead | MUST | If a partial tile isn't there, a client takes the full one
C2SP tlog-tiles | Log Entries
  bundle | MUST | A bundle has 256 or W entries, each with a 16-bit big-endian length in front
  bundle-type | MUST | The type of a bundle is application/octet-stream
  bundle-cache | SHOULD | A bundle is immutable, and its headers allow long caching
C2SP tlog-checkpoint | Note text
  note-text | MUST | A checkpoint has an origin, a size in decimal and a root in base64, a line each
  extensions | MUST | Lines may follow, none of them empty, and are signed with the others
  no-extensions | SHOULD | A checkpoint has no extension lines
  origin | MUST | The origin identifies the log
C2SP tlog-checkpoint | Signatures
  key-name | SHOULD | The name of the log's key is the origin
C2SP signed-note | Format
  note | MUST | A note is UTF-8 without control characters, and its text, an empty line and signature lines
C2SP signed-note | Signatures
  unknown-keys | MUST | Lines of unknown keys are ignored; a key is known by its name and its identifier
  verified | MUST | A note counts only if a known key's signature is valid
C2SP signed-note | Verifier keys
  verifier-key | MUST | The identifier of an Ed25519 key is that of its name, type and public key
C2SP tlog-cosignature | Format
  cosigned-message | MUST | A witness signs cosignature/v1, the time and the whole text of the checkpoint
  cosignature | MUST | The line has the time in 8 big-endian bytes and 64 bytes of signature
  cosignature-time | MUST | The time is that of the cosignature, in seconds since 1970
  cosigner-key | MUST | A witness's key has the type 0x04
C2SP tlog-witness | add-checkpoint
  request | MUST | A request has the old size, the proof, an empty line and the checkpoint
  request-bad | SHOULD | A request that isn't well-formed is answered 400
  most-hashes | MUST | A proof has at most 63 hashes
  unknown-log | MUST | An unknown origin is answered 404
  untrusted | MUST | A checkpoint that no trusted key signed is answered 403
  ignored-lines | MUST | Signatures of unknown keys are ignored
  old-above | MUST | An old size above the checkpoint's is answered 400
  old-other | MUST | An old size that isn't that of the last cosigned checkpoint is answered 409
  old-told | MUST | That answer is the last size and a newline, as text/x.tlog.size
  same-root | MUST | For the same size another root is answered 409
  proof | MUST | A proof that doesn't verify is answered 422
  proof-none | MUST | From size 0, and to the same size, the proof is empty
  cosigns | MUST | What passes is cosigned: 200, and the witness's cosignature in signature lines
  sizes | MUST | Sizes are decimal, up to 2^63-1
  atomic | MUST | Two checkpoints are never cosigned from one: check and update are one step
  persists | MUST | What was cosigned is kept before the answer is sent
  posts | MUST | The request is a POST
C2SP tlog-proof | Format
  proof-text | MUST | A proof is UTF-8 lines, an empty one, and the checkpoint up to the end
  proof-version | MUST | The first line is c2sp.org/tlog-proof@v1
  proof-extra | MUST | Then any bytes in base64 may follow, behind `extra `, which don't change what is shown
  proof-index | MUST | Then comes the index in decimal, below 2^63, behind `index `
  proof-hashes | MUST | Then come the hashes of the inclusion proof in base64, a line each, the lowest first
  proof-most | MUST | There are at most 63 hashes
C2SP tlog-policy | Format
  policy-lines | MUST | Words stand between spaces and tabs; empty lines and those that begin with # are passed over
  policy-words | MUST | A line is of a log, a witness, a group or the quorum, and has the words of its kind
  policy-log | MUST | There are one or more logs, and any of them is trusted
  policy-keys | MUST | The keys are those of C2SP signed-note, and no public key is given twice
  policy-names | MUST | No name is given twice, and none is `none`
  policy-members | MUST | Members are witnesses and groups of earlier lines, and each stands in one group at most
  policy-threshold | MUST | The threshold of a group is any, all, or a number from 1 to that of its members
  policy-quorum | MUST | There is one line of a quorum, which names a witness, a group or `none`
C2SP tlog-policy | Evaluation
  policy-signed | MUST | A checkpoint counts if the key of a log of the policy signed it
  policy-origin | MUST | Its origin is the name of that key
  quorum-met | MUST | The witnesses whose cosignatures are valid have to satisfy the quorum, each counted once
  group-met | MUST | A group is satisfied if as many of its members are as its threshold says
  not-undone | SHOULD | A cosignature that isn't valid counts for nothing, and undoes nothing
RFC 6962 | 2.1
  leaf | MUST | The hash of an entry is SHA-256 of 0x00 and the entry
  tree | MUST | The root is that of the Merkle tree of the entries
RFC 6962 | 2.1.1
  inclusion | MUST | The hashes lead from that of the entry, at the index, to the root of the tree of this size
RFC 6962 | 2.1.2
  append-only | MUST | A later tree begins with an earlier one
  older | SHOULD | A log isn't shown smaller than it was seen
RFC 8032 | 5.1.7
  scalar | MUST | The scalar of a signature is below the order of the group
RFC 9110 | 15.5.5
  not-there | SHOULD | What isn't there is answered 404 (or 410, or 403 by stores of objects)
RFC 9110 | 15
  status | MUST | Only an answer with status 200 is the resource
RFC 9110 | 15.2
  interim | MUST | Interim answers (1xx) are passed over
RFC 9110 | 15.5.6
  method | SHOULD | Another method is answered 405, with Allow
RFC 9110 | 12.5.3
  coding | SHOULD | A body isn't encoded if only identity is accepted
RFC 9112 | 8
  incomplete | MUST | A body that is cut short isn't taken for whole
RFC 9112 | 6
  framing | MUST | A body ends by its length, by its last chunk or with the connection
this suite | CONFORMANCE.md
  ends | MUST | The command ends in time
  added | MUST | A posted entry is at the index that was answered
'''


def read():
    """The clauses of the table, by their words."""
    found, of = {}, ()
    for line in TABLE.strip().splitlines():
        fields = [field.strip() for field in line.split('|')]
        if not line.startswith(' '):
            of = fields
        else:
            found[fields[0]] = Clause(*of, *fields)
    return found


CLAUSES = read()
