"""The scenes of policies by which a proof is checked: right ones, ones that a checkpoint doesn't satisfy, and texts
that are no policies (C2SP tlog-policy). The proof itself is right in each.
"""
from .keys import COSIGNER, SeedKey, cosigned_message, line_of
from .lies import ORIGIN, TIME
from .proofs import NONE, text_of
from .tree import sha, text

URL = 'https://conformance.example/log'
PAIR = 'group g 2 a b c', 'quorum g'

# Quorums: the witnesses, the lines behind theirs, and the sets of witnesses that satisfy them and that don't.
QUORUMS = {
    'one': ('ab', ['quorum a'], ['a', 'ab'], ['', 'b']),
    'any': ('abc', ['group g any a b c', 'quorum g'], ['a', 'c', 'abc'], ['', 'd']),
    'all': ('abc', ['group g all a b c', 'quorum g'], ['abc', 'abcd'], ['ab', 'bc', 'abd', '']),
    '1-of-3': ('abc', ['group g 1 a b c', 'quorum g'], ['b'], ['']),
    '2-of-3': ('abc', PAIR, ['ab', 'ac', 'bc', 'abc'], ['a', 'c', 'ad', '']),
    '3-of-3': ('abc', ['group g 3 a b c', 'quorum g'], ['abc'], ['ab']),
    '3-of-5': ('abcde', ['group g 3 a b c d e', 'quorum g'], ['abc', 'cde', 'abcde'], ['ab', 'de']),
    '1-of-1': ('a', ['group g 1 a', 'quorum g'], ['a'], ['']),
    'two-deep': ('abcde', ['group x any a b', 'group y 2 c d e', 'group z all x y', 'quorum z'],
                 ['acd', 'bde', 'abcde'], ['abc', 'cde', 'ab', 'abe', '']),
    'three-deep': ('abcde', ['group x all a b', 'group y any x c', 'group z 2 y d e', 'quorum z'],
                   ['abd', 'ce', 'de', 'abcde'], ['ad', 'abc', 'e', 'bd']),
    'mixed': ('abcd', ['group x any a b', 'group z 2 x c d', 'quorum z'], ['ac', 'bd', 'cd'], ['ab', 'a', 'c']),
    'inner': ('abc', ['group x any a b', 'group z all x c', 'quorum x'], ['a', 'b', 'bc'], ['c', ''])}


def quorums(makers):
    """Each quorum, with sets of witnesses."""
    for kind, (names, lines, enough, few) in QUORUMS.items():
        for signed in [*enough, *few]:
            clause = 'quorum-met' if kind == 'one' else 'group-met'
            yield makers.scene(f'quorum.{kind}-{signed or "nobody"}', clause,
                               f'{", ".join(lines)}, cosigned by {", ".join(signed) or "nobody"}',
                               makers.proof(note=makers.note(None, makers.cosigned(signed))),
                               makers.policy(names, *lines), lies=signed in few)


def counts(makers):
    """Lines that count once, or for nobody, under `2 a b c`."""
    one, two = makers.witnesses['a'], makers.witnesses['b']
    mark, time = one.mark(cosigned_message(makers.content, TIME)), TIME.to_bytes(8, 'big')
    lines = {'twice': makers.cosigned('a', seconds=TIME + 1), 'repeated': makers.cosigned('a'),
             'many': b''.join(makers.cosigned('a', seconds=TIME + later) for later in range(1, 4)),
             'name': line_of(two.name, one.id, time + mark), 'identifier': line_of(one.name, two.id, time + mark),
             'renamed': line_of(two.name, two.id, time + mark),
             'earlier': makers.cosigned('b', makers.log.text(299)),
             'origin': makers.cosigned('b', makers.other.text(300))}
    pair, own = makers.policy('abc', *PAIR), makers.cosigned('a')
    for name, line in lines.items():
        yield makers.lie(f'count.{name}', 'quorum-met', f'one cosignature, and a line that adds none ({name})',
                         makers.proof(note=makers.note(None, own, line)), pair)
    yield makers.scene('count.again', 'quorum-met', 'two cosignatures, one of them twice',
                       makers.proof(note=makers.note(None, own, makers.cosigned('ab', seconds=TIME + 1))), pair)


def rights(makers):
    """Policies that are right, and satisfied by `a` and `b` alone."""
    log, other, line = f'log {makers.key.verifier}', makers.other.key.verifier, makers.witness_line
    witnesses = [line(name) for name in 'abc']
    tabs = text_of(*(one.replace(' ', '\t') for one in [log, *witnesses, *PAIR]))
    texts = {
        'none': text_of(log, *witnesses, NONE), 'none-alone': text_of(log, NONE),
        'comments': text_of('# a comment', log, '#quorum none', *witnesses, '# group g 3 a b c', *PAIR, '#'),
        'blank': text_of('', log, '', '', *witnesses, *PAIR, ''), 'tabs': tabs,
        'spaces': text_of(*(one.replace(' ', ' \t  ') for one in [log, *witnesses, *PAIR])),
        'behind': text_of(*(f'{one} \t' for one in [log, *witnesses, *PAIR])),
        'blank-lines': text_of(log, ' \t', *witnesses, '\t', *PAIR),
        'urls': text_of(f'{log} {URL}', *(f'{one} {URL}/{one[8]}' for one in witnesses), *PAIR),
        'logs-first': text_of(log, f'log {other}', *witnesses, *PAIR),
        'logs-last': text_of(f'log {other} {URL}', log, *witnesses, *PAIR),
        'unused': text_of(log, *witnesses, line('d'), line('e'), PAIR[0], 'group h all d e', PAIR[1]),
        'order': text_of(*witnesses, *PAIR, log),
        'names': text_of(log, *(one.replace(f' {name} ', f' \u00fcnamed-{name}/1 ', 1)
                                for name, one in zip('abc', witnesses)),
                         'group G-1 2 \u00fcnamed-a/1 \u00fcnamed-b/1 \u00fcnamed-c/1', 'quorum G-1')}
    proof = makers.proof(note=makers.note(None, makers.cosigned('ab')))
    for name, policy in texts.items():
        yield makers.scene(f'policy.{name}', 'policy-log' if 'logs' in name else 'policy-lines',
                           f'a right policy ({name})', proof, policy)
    note = makers.other.key.note(makers.other.text(300))
    yield makers.scene('policy.logs-other', 'policy-log', "a checkpoint of the policy's second log",
                       makers.proof(note=note), text_of(log, f'log {other}', NONE))
    for name, lines in (('comment', ['# quorum none', 'quorum g']), ('comment-behind', ['quorum g', '#quorum none'])):
        yield makers.lie(f'quorum.{name}', 'policy-lines', f'another quorum in a {name}',
                         policy=makers.policy('abc', PAIR[0], *lines))


# Texts that are no policy. Each is of right lines and of what is wrong, and whoever passes over that accepts.

def bad_keys(key):
    """Texts that aren't a verifier key's, by what is wrong."""
    name, digits, end = key.verifier.split('+', 2)
    short = text(bytes([key.kind]) + key.public[:31])
    return {'junk': 'key', 'identifier': f'{name}+00000000+{end}', 'short': f'{name}+{digits}+{short}',
            'cut': key.verifier[:-1], 'nameless': f'+{digits}+{end}', 'renamed': f'x{key.verifier}', 'bare': end}


def lines_more(makers):
    """Lines that make no policy of a right one that they are added to, by the clause."""
    other, key = makers.other.key, makers.witnesses['d']
    verifier, twin = key.verifier, SeedKey(sha(b'a'), 'twin.example', COSIGNER).verifier
    return {
        'policy-keys': {**{f'key-{name}': f'witness d {word}' for name, word in bad_keys(key).items()},
                        **{f'log-key-{name}': f'log {word}' for name, word in bad_keys(other).items()},
                        'twice-keyed': f'witness d {makers.witnesses["a"].verifier}', 'twin': f'witness d {twin}',
                        'log-twin': f'log {SeedKey(sha(ORIGIN.encode()), "twin.example").verifier}',
                        'log-as-witness': f'witness d {SeedKey(sha(ORIGIN.encode()), "d", COSIGNER).verifier}'},
        'policy-names': {'twice-named': f'witness a {verifier}', 'named-group': f'witness g {verifier}',
                         'named-none': f'witness none {verifier}'},
        'policy-words': {'word': 'require 2', 'word-alone': 'logs', 'capitals': f'WITNESS d {verifier}',
                         'plural': f'witnesses d {verifier}', 'colon': f'witness: d {verifier}', 'comment': '// more',
                         'log-few': 'log', 'witness-few': 'witness d', 'witness-none': 'witness',
                         'group-few': 'group h', 'group-none-more': 'group', 'quorum-few': 'quorum',
                         'witness-nameless': f'witness {verifier}',
                         'log-many': f'log {other.verifier} {URL} more', 'log-named': f'log l {other.verifier}',
                         'witness-many': f'witness d {verifier} {URL} more'},
        'policy-quorum': {'second-quorum': 'quorum a', 'second-same': 'quorum g', 'second-none': NONE},
        'policy-members': {'unknown-member': 'group h any x', 'two-groups': 'group h any a', 'group-of-key':
                           f'group h any {verifier}', 'of-none': 'group h any none'},
        'policy-threshold': {f'empty-{word}': f'group h {word}' for word in ('any', 'all', '0', '1')}}


def texts(makers):
    """Texts whose lines aren't those of a policy, by the clause."""
    log, *witnesses = [f'log {makers.key.verifier}', *map(makers.witness_line, 'abc')]
    group, quorum = PAIR
    words = {'zero': '0', 'above': '4', 'zeros': '01', 'sign': '+1', 'negative': '-1', 'point': '1.0',
             'hexadecimal': '0x1', 'word': 'most', 'capitals': 'ALL', 'wrapped': str(2 ** 64 + 1), 'comma': '1,'}
    return {
        'policy-threshold': {**{f'threshold-{name}': [log, *witnesses, f'group g {word} a b c', quorum]
                                for name, word in words.items()},
                             'threshold-missing': [log, *witnesses, 'group g a b c', quorum]},
        'policy-members': {'later-witness': [log, *witnesses[:2], group, witnesses[2], quorum],
                           'later-group': [log, *witnesses, 'group h any a g', 'group g any b c', 'quorum h'],
                           'itself': [log, *witnesses, 'group g 2 a b g', quorum],
                           'twice-member': [log, *witnesses, 'group g 2 a a b', quorum],
                           'through-two': [log, *witnesses, 'group x any a', 'group y any a', 'group g 2 x y',
                                           quorum],
                           'group-in-two': [log, *witnesses, 'group x any a', 'group y any x b', 'group g any x c',
                                            'quorum y'],
                           'log-as-member': [log, *witnesses, f'group g 2 a b {ORIGIN}', quorum]},
        'policy-quorum': {'no-quorum': [log, *witnesses, group], 'no-quorum-alone': [log],
                          'unknown-quorum': [log, *witnesses, group, 'quorum h'],
                          'later-quorum': [log, *witnesses, quorum, group],
                          'none-first': [log, *witnesses, NONE, group, quorum],
                          'quorum-many': [log, *witnesses, group, 'quorum g a'],
                          'quorum-capitals': [log, *witnesses, group, 'quorum NONE']},
        'policy-names': {'group-twice': [log, *witnesses, 'group g any a', 'group g any b', quorum],
                         'group-witness': [log, *witnesses, 'group a any b', 'quorum a'],
                         'group-none': [log, *witnesses, 'group none any a', NONE]},
        'policy-log': {'no-log': [*witnesses, group, quorum], 'no-log-none': [NONE], 'nothing': [],
                       'comments-alone': [f'# {log}', f'# {quorum}']}}


def wrongs(makers):
    """Policies that are none, though `a`, `b`, `c` and `d` have cosigned."""
    proof = makers.proof(note=makers.note(None, makers.cosigned('abcd')))
    right = makers.policy('abc', *PAIR)
    for clause, lines in lines_more(makers).items():
        for name, line in lines.items():
            yield makers.lie(f'no-policy.{name}', clause, f'a right policy and a line more ({name})', proof,
                             right + text_of(line))
    for clause, some in texts(makers).items():
        for name, lines in some.items():
            yield makers.lie(f'no-policy.{name}', clause, f'what is no policy ({name})', proof, text_of(*lines))


PARTS = quorums, counts, rights, wrongs
