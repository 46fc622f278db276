"""What a verifier of proofs that travel is given, and the scenes of proofs: honest ones, and ones in which one thing
is a lie (C2SP tlog-proof). The scenes of policies stand in policies.py.
"""
import string

from .asking import ENTRIES, Log
from .keys import COSIGNER, NOTE, SeedKey, cosigned_message, key_id, line_of
from .lies import ORIGIN, TIME, false_cosignatures, false_lines, no_notes
from .notes import LARGEST, checkpoint, malformed
from .offline import VERSION, proof_text
from .tree import Endless, leaf, node, sha, split, text

SIZE, INDEX = 300, 290
NONE = 'quorum none'
SIZES = [1, 2, 3, 255, 256, 257, 2 ** 20 + 1, 10 ** 9, 2 ** 62, LARGEST]
DIGITS = string.ascii_uppercase + string.ascii_lowercase + string.digits + '+/'


class Scene:
    """What a command is given: a proof, a policy and an entry; of these one may be a lie."""

    def __init__(self, name, clause, what, lies, proof, policy, entry):
        self.name, self.clause, self.what, self.lies = name, clause, what, lies
        self.proof, self.policy, self.entry = proof, policy, entry


class Makers:
    """Two logs, six witnesses with names of one letter, and what they sign."""

    def __init__(self):
        self.log, self.other = (Log(SeedKey(sha(name.encode()), name)) for name in (ORIGIN, 'another.example/log'))
        self.witnesses = {name: SeedKey(sha(name.encode()), f'witness-{name}.example', COSIGNER) for name in 'abcdef'}
        self.key, self.content = self.log.key, self.log.text(SIZE)

    def cosigned(self, names, content=None, seconds=TIME):
        """The lines of these witnesses."""
        return b''.join(self.witnesses[name].cosigned(content or self.content, seconds) for name in names)

    def note(self, content=None, *lines):
        """A checkpoint that the log signed, with more lines."""
        return b''.join([self.key.note(content or self.content), *lines])

    def proof(self, index=INDEX, hashes=None, note=None, **others):
        """The text of a proof: of the entry at `INDEX`, where nothing else is given."""
        path = self.log.list.path(INDEX, SIZE) if hashes is None else hashes
        return proof_text(index, path, self.note() if note is None else note, **others)

    def witness_line(self, name):
        return f'witness {name} {self.witnesses[name].verifier}'

    def policy(self, names, *lines):
        """A policy of the log and these witnesses, with these lines behind them."""
        return text_of(f'log {self.key.verifier}', *map(self.witness_line, names), *lines)

    def scene(self, name, clause, what, proof=None, policy=None, entry=None, lies=False):
        return Scene(name, clause, what, lies, self.proof() if proof is None else proof,
                     self.policy('', NONE) if policy is None else policy, ENTRIES[INDEX] if entry is None else entry)

    def lie(self, *words, **others):
        return self.scene(*words, lies=True, **others)


def text_of(*lines):
    return '\n'.join([*lines, '']).encode()


def with_lines(proof, place, *lines):
    """The text with these lines in place of one."""
    before = proof.split(b'\n')
    return b'\n'.join([*before[:place], *(line.encode() for line in lines), *before[place + 1:]])


def spellings(word):
    """Base64 as it isn't to be written, by what is wrong. The bytes fill no whole group of three."""
    bare = word.rstrip('=')
    return {'unpadded': bare, 'bits': bare[:-1] + DIGITS[DIGITS.index(bare[-1]) + 1] + word[len(bare):],
            'padded': f'{word}=', 'cut': word[:-2], 'before': f' {word}', 'behind': f'{word} ', 'crlf': f'{word}\r',
            'gap': f'{word[:4]} {word[4:]}', 'junk': f'{word[:4]}!{word[5:]}', 'quoted': f'"{word}"'}


# Honest proofs

def places_of(size):
    """Indexes of each kind: the first, the last, the last of the full tree on the left, and one behind it."""
    left = split(size) if size > 1 else 1
    return sorted({0, size - 1, left - 1, left + (size - left) // 2 if size > left else 0})


def trees(makers):
    """Logs of each size, and entries at each kind of place."""
    log = makers.log
    for size in SIZES:
        note = makers.note(log.text(size))
        for index in places_of(size):
            entry = ENTRIES[index] if index < len(ENTRIES) else b'rest'
            yield makers.scene(f'tree.{size}-{index}', 'inclusion', f'entry {index} of {size}',
                               proof_text(index, log.list.path(index, size), note), entry=entry)


def of_entry(makers, entry):
    """A proof of an entry among some others."""
    some = Endless([*ENTRIES[:5], entry], b'rest')
    note = makers.note(checkpoint(ORIGIN, 9, some.head(9)))
    return proof_text(5, some.path(5, 9), note)


def entries(makers):
    """Entries of any bytes, and others than the one that is proved."""
    for name, entry in (('empty', b''), ('newline', b'\n'), ('lines', b'a\nb\n'), ('bytes', bytes(range(256))),
                        ('long', b'x' * 65535)):
        yield makers.scene(f'entry.{name}', 'leaf', f'an entry of any bytes ({name})', of_entry(makers, entry),
                           entry=entry)
    right = ENTRIES[INDEX]
    for name, entry in (('other', ENTRIES[INDEX + 1]), ('nothing', b''), ('newline-more', right + b'\n'),
                        ('short', right[:-1]), ('longer', right + b'\0'), ('hash', leaf(right)),
                        ('capitals', right.upper())):
        yield makers.lie(f'entry.{name}', 'inclusion', f'another entry ({name})', entry=entry)
    yield makers.lie('entry.empty-more', 'inclusion', 'another entry than the empty one', of_entry(makers, b''),
                     entry=b'\n')
    one, other = leaf(b'one'), leaf(b'other')
    for name, top, entry in (('node', node(one, other), one + other), ('plain', sha(right), right),
                             ('itself', leaf(right), leaf(right))):
        note = makers.note(checkpoint(ORIGIN, 1, top))
        yield makers.lie(f'leaf.{name}', 'leaf', f'a root that is no hash of the entry ({name})',
                         proof_text(0, [], note), entry=entry)


def extras(makers):
    """Extra data: any bytes, none of them, and lines that are wrong."""
    for name, extra in (('text', b'what the application wants'), ('none', b''), ('bytes', bytes(range(256))),
                        ('kilobyte', b'\xff' * 1024), ('lines', b'index 5\n\n')):
        yield makers.scene(f'extra.{name}', 'proof-extra', f'extra data ({name})', makers.proof(extra=extra))
    proof, right = makers.proof(extra=b'extr'), text(b'extr')
    lines = {**{name: f'extra {word}' for name, word in spellings(right).items() if name != 'cut'},
             'cut': f'extra {right[:-3]}', 'hexadecimal': 'extra 0x65787472', 'url': 'extra -_8=',
             'bare': 'extra', 'tab': f'extra\t{right}', 'capitals': f'Extra {right}', 'colon': f'extra: {right}',
             'other': f'comment {right}', 'space': f' extra {right}'}
    for name, line in lines.items():
        yield makers.lie(f'extra.{name}', 'proof-extra', f'a wrong line of extra data ({name})',
                         with_lines(proof, 1, line))
    line, index = f'extra {right}', f'index {INDEX}'
    yield makers.lie('extra.twice', 'proof-extra', 'two lines of extra data', with_lines(proof, 1, line, line))
    yield makers.lie('extra.late', 'proof-extra', 'extra data behind the index',
                     with_lines(makers.proof(), 1, index, line))


# Proofs whose lines aren't as they are to be. All else about them is right, so whoever passes over that accepts.

def versions(makers):
    proof = makers.proof()
    for name, lines in (('other', [VERSION.replace('v1', 'v2')]), ('longer', [f'{VERSION}0']), ('missing', []),
                        ('capitals', [VERSION.upper()]), ('behind', [f'{VERSION} ']), ('before', ['', VERSION]),
                        ('mark', [f'\ufeff{VERSION}']), ('crlf', [f'{VERSION}\r']), ('twice', [VERSION, VERSION]),
                        ('scheme', [f'https://{VERSION}']), ('none', [VERSION.partition('@')[0]])):
        yield makers.lie(f'version.{name}', 'proof-version', f'a wrong first line ({name})',
                         with_lines(proof, 0, *lines))


def indexes(makers):
    """Lines of an index that are wrong, and indexes that aren't the entry's."""
    proof = makers.proof()
    lines = {'zeros': f'index 0{INDEX}', 'sign': f'index +{INDEX}', 'negative': f'index -{INDEX}',
             'before': f'index  {INDEX}', 'behind': f'index {INDEX} ', 'crlf': f'index {INDEX}\r',
             'hexadecimal': f'index 0x{INDEX:x}', 'point': f'index {INDEX}.0', 'power': 'index 29e1',
             'underscore': 'index 2_90', 'tab': f'index\t{INDEX}', 'capitals': f'Index {INDEX}',
             'colon': f'index: {INDEX}', 'bare': f'{INDEX}', 'empty': 'index ', 'two': f'index {INDEX} {SIZE}',
             'other-digits': 'index \u0662\u0669\u0660', 'wrapped': f'index {2 ** 64 + INDEX}',
             'space': f' index {INDEX}', 'large': f'index {2 ** 63}'}
    for name, line in lines.items():
        yield makers.lie(f'index.{name}', 'proof-index', f'a wrong line of an index ({name})',
                         with_lines(proof, 1, line))
    yield makers.lie('index.missing', 'proof-index', 'no index', with_lines(proof, 1))
    yield makers.lie('index.twice', 'proof-index', 'two indexes', with_lines(proof, 1, *[f'index {INDEX}'] * 2))
    for name, index in (('next', INDEX + 1), ('earlier', INDEX - 1), ('first', 0), ('left', INDEX - 256),
                        ('last', SIZE - 1), ('size', SIZE), ('above', INDEX + 512), ('largest', LARGEST)):
        yield makers.lie(f'index.{name}', 'inclusion', f'another index ({name})', makers.proof(index))
    alone = makers.note(makers.log.text(1))
    for index in (1, 2, LARGEST):
        yield makers.lie(f'index.beyond-{index}', 'inclusion', f'index {index} of the only entry',
                         proof_text(index, [], alone), entry=ENTRIES[0])


def hashes(makers):
    """Lines of hashes that are wrong, and hashes that don't lead to the root."""
    proof, path = makers.proof(), makers.log.list.path(INDEX, SIZE)
    first, word = path[0], text(path[0])
    url = next(place for place, hash in enumerate(path) if set('+/') & set(text(hash)))
    lines = {**{name: [line] for name, line in spellings(word).items()}, 'hexadecimal': [first.hex()],
             'of-31': [text(first[:31])], 'of-33': [text(first + b'x')], 'of-64': [text(first + path[1])],
             'word': [f'hash {word}'], 'split': [word[:20], word[20:]]}
    for name, some in lines.items():
        yield makers.lie(f'hash.{name}', 'proof-hashes', f'a wrong line of a hash ({name})',
                         with_lines(proof, 2, *some))
    yield makers.lie('hash.url', 'proof-hashes', 'a hash in the alphabet of URLs',
                     with_lines(proof, 2 + url, text(path[url]).replace('+', '-').replace('/', '_')))
    yield makers.lie('hash.joined', 'proof-hashes', 'two hashes on one line',
                     with_lines(with_lines(proof, 3), 2, f'{word} {text(path[1])}'))
    ways = {'none': [], 'short': path[:-1], 'late': path[1:], 'long': [*path, path[-1]],
            'more': [*path, bytes(32)], 'before': [leaf(ENTRIES[INDEX]), *path], 'doubled': path * 2,
            'turned': path[::-1], 'exchanged': [path[1], path[0], *path[2:]], 'zeros': [bytes(32)] * len(path),
            'of-another': makers.log.list.path(INDEX + 1, SIZE), 'of-a-fork': makers.log.other.path(INDEX, SIZE),
            'of-a-larger': makers.log.list.path(SIZE - 1, SIZE + 1)}
    ways.update({f'changed-{place}': [*path[:place], bytes([hash[0] ^ 1]) + hash[1:], *path[place + 1:]]
                 for place, hash in enumerate(path)})
    for name, some in ways.items():
        index = SIZE - 1 if name == 'of-a-larger' else INDEX
        yield makers.lie(f'hashes.{name}', 'inclusion', f'hashes that do not lead to the root ({name})',
                         makers.proof(index, some), entry=ENTRIES[index])
    large = makers.log.list, 2 ** 63 + 1
    yield makers.lie('hashes.64', 'proof-most', '64 hashes, of a log of 2^63+1', proof_text(
        INDEX, large[0].path(INDEX, large[1]), makers.note(checkpoint(ORIGIN, large[1], large[0].head(large[1])))))


def ends(makers):
    """What stands between the hashes and the checkpoint, and the text as a whole."""
    proof, note = makers.proof(), makers.note()
    front = proof.removesuffix(note)
    ways = {'missing': front[:-1] + note, 'twice': front + b'\n' + note, 'space': front[:-1] + b' \n' + note,
            'line': front[:-1] + b'more\n\n' + note, 'comment': front[:-1] + b'# more\n\n' + note,
            'crlf': proof.replace(b'\n', b'\r\n'), 'crlf-front': front.replace(b'\n', b'\r\n') + note,
            'cut': front, 'cut-before': front[:-1], 'note-first': note + b'\n' + front, 'nothing': b'',
            'note-alone': note,
            'mark-behind': proof + b'\0', 'line-behind': proof + b'more\n', 'proof-behind': proof + proof}
    for name, whole in ways.items():
        yield makers.lie(f'gap.{name}', 'proof-text', f'a text that is no proof ({name})', whole)


# The checkpoint

def notes(makers):
    """Notes with other lines, and what is no note or no checkpoint."""
    log, key, content = makers.log, makers.key, makers.content
    others = SeedKey(b'o' * 32, 'other.example/log'), SeedKey(b'n' * 32, key.name)
    strange = line_of('other.example', b'kind', b'a signature of a kind that nobody knows')
    note = content + b'\n' + others[0].line(content) + others[1].line(b'') + key.line(content) + strange
    yield makers.scene('note.lines', 'unknown-keys', 'lines of unknown keys', makers.proof(note=note))
    more = checkpoint(ORIGIN, SIZE, log.list.head(SIZE), 'an extension', 'and another')
    yield makers.scene('note.extensions', 'extensions', 'extension lines', makers.proof(note=makers.note(more)))
    for name, other in {**no_notes(makers.note()), 'cut': makers.note()[:-1], 'half': makers.note()[:-60],
                        'utf8': makers.note(None, line_of('\x7f', b'kind', b'x').replace(b'\x7f', b'\xff'))}.items():
        yield makers.lie(f'note.{name}', 'note', f'what is no note ({name})', makers.proof(note=other))
    for name, other in malformed(ORIGIN, SIZE, log.list.head(SIZE)).items():
        yield makers.lie(f'text.{name}', 'note-text', f'a signed text that is no checkpoint ({name})',
                         makers.proof(note=makers.note(other)))


def heads(makers):
    """Checkpoints of another size or another root, which the log signed."""
    log, last = makers.log.list, SIZE - 1
    path = log.path(last, SIZE)
    for name, size, top in (('larger', SIZE + 1, log.head(SIZE)), ('smaller', SIZE - 1, log.head(SIZE)),
                            ('half', SIZE // 2, log.head(SIZE)), ('zero', 0, log.head(SIZE)),
                            ('root-larger', SIZE, log.head(SIZE + 1)), ('root-smaller', SIZE, log.head(SIZE - 1)),
                            ('root-other', SIZE, makers.log.other.head(SIZE)), ('root-empty', SIZE, sha(b'')),
                            ('root-leaf', SIZE, leaf(ENTRIES[last]))):
        note = makers.note(checkpoint(ORIGIN, size, top))
        yield makers.lie(f'head.{name}', 'inclusion', f'a checkpoint of another tree ({name})',
                         proof_text(last, path, note), entry=ENTRIES[last])
    yield makers.lie('head.none', 'inclusion', 'an entry of a log of none', proof_text(
        0, [], makers.note(checkpoint(ORIGIN, 0, leaf(ENTRIES[0])))), entry=ENTRIES[0])


def signatures(makers):
    """Checkpoints that the log's key didn't sign, and another log's."""
    key, content, other = makers.key, makers.content, makers.other
    for name, (clause, line) in false_lines(key, content, makers.log.text(SIZE - 1)).items():
        yield makers.lie(f'signature.{name}', clause, f"a line that isn't the key's ({name})",
                         makers.proof(note=content + b'\n' + line))
    cosigned = content + b'\n' + makers.cosigned('abc')
    yield makers.lie('signature.witnesses', 'policy-signed', 'no line of the log, but those of witnesses',
                     makers.proof(note=cosigned), makers.policy('abc', 'group g 2 a b c', 'quorum g'))
    yield makers.lie('log.other', 'policy-signed', 'a note of another log',
                     makers.proof(note=other.key.note(other.text(SIZE))))
    for name, origin in (('other', other.key.name), ('longer', f'{ORIGIN}/'), ('shorter', ORIGIN[:-1]),
                         ('capitals', ORIGIN.upper())):
        changed = checkpoint(origin, SIZE, makers.log.list.head(SIZE))
        yield makers.lie(f'origin.{name}', 'policy-origin', f"an origin that isn't the key's name ({name})",
                         makers.proof(note=makers.note(changed)))
    both = text_of(f'log {key.verifier}', f'log {other.key.verifier}', NONE)
    yield makers.lie('origin.of-both', 'policy-origin', "the origin of one log, under the key of the other",
                     makers.proof(note=makers.note(other.text(SIZE))), both)
    kind = SeedKey(sha(ORIGIN.encode()), ORIGIN, COSIGNER)
    yield makers.lie('log.kind', 'verifier-key', "a log's key of the type of witnesses, which signed a note",
                     makers.proof(note=kind.note(content)), text_of(f'log {kind.verifier}', NONE))


def cosignatures(makers):
    """Lines that are no cosignature of the only witness, and what undoes none."""
    key, content, witness = makers.key, makers.content, makers.witnesses['a']
    false = false_cosignatures(witness, key, content, makers.log.text(SIZE - 1))
    false['root'] = 'cosigned-message', witness.cosigned(makers.log.text(SIZE, makers.log.other), TIME)
    message, time = cosigned_message(content, TIME), TIME.to_bytes(8, 'big')
    renamed = key_id('other.example', COSIGNER, witness.public)
    false['name'] = 'unknown-keys', line_of('other.example', renamed, time + witness.mark(message))
    false['log-mark'] = 'cosigned-message', line_of(witness.name, witness.id, time + key.mark(message))
    false['short'] = 'cosignature', line_of(witness.name, witness.id, bytes(8))
    policy, pair = makers.policy('a', 'quorum a'), makers.policy('abc', 'group g 2 a b c', 'quorum g')
    for name, (clause, line) in false.items():
        yield makers.lie(f'cosigned.{name}', clause, f"without the witness's cosignature ({name})",
                         makers.proof(note=makers.note(None, line)), policy)
    false.pop('log')
    for name, (clause, line) in false.items():
        yield makers.scene(f'beside.{name}', 'unknown-keys' if clause == 'unknown-keys' else 'not-undone',
                           f'such a line beside enough cosignatures ({name})',
                           makers.proof(note=makers.note(None, line, makers.cosigned('bc'))), pair)
    more = checkpoint(ORIGIN, SIZE, makers.log.list.head(SIZE), 'an extension')
    for name, signed, lies in (('extended', more, False), ('rebuilt', content, True)):
        yield makers.scene(f'cosigned.{name}', 'cosigned-message', f'extension lines, cosigned over {name} lines',
                           makers.proof(note=makers.note(more, makers.cosigned('a', signed))), policy, lies=lies)
    plain = SeedKey(sha(b'a'), witness.name, NOTE)
    yield makers.lie('cosigned.kind', 'cosigner-key', "a witness's key of the type of notes, which signed notes",
                     makers.proof(note=makers.note(None, plain.line(content))),
                     makers.policy('', f'witness a {plain.verifier}', 'quorum a'))
    old = line_of(witness.name, key_id(witness.name, COSIGNER, bytes(32)), bytes(72))
    yield makers.scene('cosigned.old-key', 'unknown-keys', "a line of an old key of the witness's, before its own",
                       makers.proof(note=makers.note(None, old, makers.cosigned('a'))), policy)
    yield makers.scene('cosigned.first', 'quorum-met', "the witness's line before the log's", makers.proof(
        note=content + b'\n' + makers.cosigned('a') + key.line(content)), policy)


PARTS = trees, entries, extras, versions, indexes, hashes, ends, notes, heads, signatures, cosignatures
