"""What is due of `tlog verify`: whether a policy accepts a proof for an entry, and what is printed or told then, by
readers of Python's own (C2SP tlog-proof, tlog-policy, tlog-cosignature). A refusal is a `ValueError` with the words.
"""
import copy

from suite.keys import is_valid
from suite.notes import marks_by
from suite.offline import need

from .keys import cosigned_message
from .readers import checkpoint_in, includes, leaf, note_in, parse_policy, parse_proof, satisfied

# The words for the faults of the readers; in place of {} stands the number of the line.
OF_POLICY = {'NotUtf8': 'not UTF-8', 'Malformed': 'line {}: malformed', 'TwiceNamed': 'line {}: name given twice',
             'BadKey': 'line {}: bad key', 'TwiceKeyed': 'line {}: key given twice',
             'TooManyGroups': 'line {}: more than 1024 groups', 'UnknownMember': 'line {}: unknown member',
             'TwiceMember': 'line {}: member of two groups', 'BadThreshold': 'line {}: bad threshold',
             'SecondQuorum': 'line {}: second quorum', 'NoLog': 'no log', 'NoQuorum': 'no quorum'}
OF_PROOF = {'NotUtf8': "the proof isn't UTF-8", 'NoHeader': "line 1 isn't c2sp.org/tlog-proof@v1",
            'BadExtra': "line 2 has extra data that aren't base64", 'NoIndex': "line {} isn't an index",
            'NoHash': "line {} isn't a hash", 'TooMany': 'line {} is one hash too many',
            'NoCheckpoint': 'line {} is missing: no checkpoint follows'}


def read_by(reader, data, words):
    """What a reader finds in a text; its faults are told in these words."""
    try:
        return reader(data)
    except ValueError as fault:
        name, _, line = str(fault).rstrip(')').partition('(')
        raise ValueError(words[name].format(line)) from None


def time_by(witness, content, lines):
    """The time of the first valid cosignature of a text by a witness, and None if there is none."""
    for mark in marks_by(witness, lines):
        seconds = int.from_bytes(mark[:8], 'big')
        if len(mark) == 72 and is_valid(witness.public, cosigned_message(content, seconds), mark[8:]):
            return seconds
    return None


def is_met(policy, name, cosigned):
    """Whether these witnesses satisfy one member of a policy."""
    asked = copy.copy(policy)
    asked.quorum = name
    return satisfied(asked, cosigned)


def shortage(policy, cosigned):
    """How many members of the quorum are satisfied, and how many have to be."""
    threshold, members = policy.groups.get(policy.quorum, (1, [policy.quorum]))
    return sum(is_met(policy, name, cosigned) for name in members), threshold


def trusted(policy, data):
    """Size and root of a note's checkpoint, and when the policy's witnesses cosigned it, by their names."""
    note = note_in(data)
    need(note, 'no signed checkpoint')
    content, lines = note[0].encode(), note[1]
    key = next((key for key in policy.logs if marks_by(key, lines)), None)
    need(key, 'signed by no log of the policy')
    need(is_valid(key.public, content, marks_by(key, lines)[0]), "the log's signature is wrong")
    found = checkpoint_in(note[0])
    need(not isinstance(found, str), 'the signed text is no checkpoint')
    origin, size, top = found
    need(origin == key.name, 'the checkpoint is of another log than its key')
    times = {name: time_by(witness, content, lines) for name, witness in policy.witnesses.items()}
    times = {name: time for name, time in times.items() if time is not None}
    need(satisfied(policy, times), 'cosigned by {}, {} wanted'.format(*shortage(policy, times)))
    return size, top, times


def accepted(policy, data, entry):
    """What `tlog verify` prints of a proof of an entry."""
    _, index, hashes, note = read_by(parse_proof, data, OF_PROOF)
    size, top, times = trusted(policy, note)
    need(index < size, "the index isn't in the log")
    need(includes(index, size, leaf(entry), top, hashes), 'the entry is another one')
    return f'accepted {size} {index}\n' + ''.join(f'witness {name} {time}\n' for name, time in times.items())


def told(words, status=1):
    """A run that ends with these words on standard error."""
    return status, b'', f'tlog: {words}\n'.encode()


def verdict(path, text, data, entry):
    """Status, standard output and standard error of `tlog verify` under the policy in a file."""
    try:
        policy = read_by(parse_policy, text, OF_POLICY)
    except ValueError as fault:
        return told(f'{path}: {fault}')
    try:
        return 0, accepted(policy, data, entry).encode(), b''
    except ValueError as fault:
        return told(fault)
