"""Proofs that travel and the policies by which they are checked (C2SP tlog-proof, tlog-policy): the text of a proof,
and strict readers of both. A text that is none is a `ValueError`, with the name of its first fault and the number of
the line.
"""
import re

from .keys import COSIGNER, NOTE, VerifierKey
from .notes import bytes_in, decoded, hash_in, number, verifier_in
from .tree import text

VERSION = 'c2sp.org/tlog-proof@v1'
# A proof has at most so many hashes, and a policy so many groups.
MOST, GROUPS = 63, 1024


# Proofs

def proof_text(index, hashes, note, extra=None, version=VERSION):
    """The text of a proof."""
    lines = [version, *([] if extra is None else [f'extra {text(extra)}']), f'index {index}', *map(text, hashes)]
    return '\n'.join([*lines, '', '']).encode() + note


def need(fact, fault):
    if not fact:
        raise ValueError(fault)


def cut(whole):
    """The first line, None if it has no end, and what is behind it."""
    line, end, rest = whole.partition('\n')
    return (line, rest) if end else (None, whole)


def behind(word, line):
    """What stands in a line behind a word and a space, and None if it doesn't begin so."""
    return line.removeprefix(f'{word} ') if line is not None and line.startswith(f'{word} ') else None


def parse_proof(data):
    """The extra data, None if there are none, the index, the hashes and the note of a proof."""
    whole, place, extra = decoded(data), 2, None
    need(whole is not None, 'NotUtf8')
    line, rest = cut(whole)
    need(line == VERSION, 'NoHeader')
    if rest.startswith('extra '):
        line, rest = cut(rest)
        extra, place = line and bytes_in(behind('extra', line)), 3
        need(extra is not None, 'BadExtra')
    line, rest = cut(rest)
    index = number(behind('index', line) or '')
    need(index is not None, f'NoIndex({place})')
    hashes, note = hashes_before(rest, place + 1)
    return extra, index, hashes, note.encode()


def hashes_before(whole, place):
    """The hashes up to an empty line, and what is behind it. The first line has this number."""
    hashes = []
    while True:
        line, rest = cut(whole)
        need(line is not None, f'NoCheckpoint({place + len(hashes)})')
        if not line:
            return hashes, rest
        hash = hash_in(line)
        need(hash is not None, f'NoHash({place + len(hashes)})')
        need(len(hashes) < MOST, f'TooMany({place + len(hashes)})')
        hashes, whole = [*hashes, hash], rest


# Policies

class Policy:
    """What the lines of a policy say: the keys of the logs, those of the witnesses by name, the threshold and the
    members of each group by name, and the name that is the quorum, None if nobody has to cosign."""

    def __init__(self):
        self.logs, self.witnesses, self.groups, self.quorum = [], {}, {}, None
        self.has_quorum = False

    def take(self, words):
        """One line more. A fault's name has no number yet."""
        kinds = {'log': self.log, 'witness': self.witness, 'group': self.group, 'quorum': self.take_quorum}
        need(words[0] in kinds, 'Malformed')
        kinds[words[0]](*words[1:])

    # The lines

    def log(self, *words):
        need(len(words) in (1, 2), 'Malformed')
        self.logs.append(self.key(NOTE, words[0]))

    def witness(self, *words):
        need(len(words) in (2, 3), 'Malformed')
        need(not self.is_taken(words[0]), 'TwiceNamed')
        self.witnesses[words[0]] = self.key(COSIGNER, words[1])

    def group(self, *words):
        need(len(words) >= 2, 'Malformed')
        name, threshold, *members = words
        need(not self.is_taken(name), 'TwiceNamed')
        need(len(self.groups) < GROUPS, 'TooManyGroups')
        for place, member in enumerate(members):
            need(self.is_known(member), 'UnknownMember')
            need(member not in members[:place] and not self.is_grouped(member), 'TwiceMember')
        count = self.threshold(threshold, len(members))
        need(count is not None and 1 <= count <= len(members), 'BadThreshold')
        self.groups[name] = count, members

    def take_quorum(self, *words):
        need(len(words) == 1, 'Malformed')
        need(not self.has_quorum, 'SecondQuorum')
        need(words[0] == 'none' or self.is_known(words[0]), 'UnknownMember')
        self.quorum, self.has_quorum = None if words[0] == 'none' else words[0], True

    # Their words

    def key(self, kind, word):
        need(verifier_in(word, kind), 'BadKey')
        key = VerifierKey(word)
        need(not self.has_key(key), 'TwiceKeyed')
        return key

    def threshold(self, word, members):
        return {'any': 1, 'all': members}.get(word, number(word))

    def is_known(self, name):
        return name in self.witnesses or name in self.groups

    def is_taken(self, name):
        return name == 'none' or self.is_known(name)

    def is_grouped(self, name):
        return any(name in members for _, members in self.groups.values())

    def has_key(self, key):
        return any(key.public == other.public for other in [*self.logs, *self.witnesses.values()])


def parse_policy(data, kind=Policy):
    """The policy of a text."""
    whole, policy = decoded(data), kind()
    need(whole is not None, 'NotUtf8')
    for place, line in enumerate(whole.split('\n'), 1):
        words = [word for word in re.split('[ \t]', line) if word]
        if words and not words[0].startswith('#'):
            try:
                policy.take(words)
            except ValueError as fault:
                raise ValueError(f'{fault}({place})') from None
    need(policy.logs, 'NoLog')
    need(policy.has_quorum, 'NoQuorum')
    return policy


def satisfied(policy, cosigned):
    """Whether these witnesses, by their names, satisfy the quorum of a policy."""
    met = set(cosigned) & set(policy.witnesses)
    for name, (threshold, members) in policy.groups.items():
        if sum(member in met for member in members) >= threshold:
            met.add(name)
    return policy.quorum is None or policy.quorum in met
