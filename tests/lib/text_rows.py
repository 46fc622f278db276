"""Rows of tl_rows that ask the readers of the libraries: for each subject its valid inputs, and what is due of an input,
as rows of a call and its answer, in which texts stand as JSON writes them."""
import json
import re

from .keys import ORIGIN, SeedKey, checkpoint
from .logs import bundle
from .readers import (checkpoint_in, decoded, entries_in, note_in, opened, resource_in, signature_lines, signer_in,
                      verifier_in)
from .tree import text

KEYS = [SeedKey(bytes([place]) * 32, name) for place, name in enumerate((ORIGIN, 'w.example', 'clef-\u00e9'))]
SIGNED = {}
LENGTHS = bytes([1, 2, 3, 4])


def some_text(dice):
    return ''.join(dice.line() + '\n' for _ in range(1 + dice.below(4)))


def length_line(name, content):
    """A signature line by the length of the text."""
    return f'\u2014 {name} {text(LENGTHS + len(content).to_bytes(8, "big"))}\n'.encode()


def signed(dice, content):
    """Signature lines by the length of a text, and mostly one by a key."""
    lines = [length_line(name, content) for name in ('k.example', ORIGIN)[:1 + dice.below(2)]]
    if dice.below(3):
        line = dice.choice(KEYS[:2]).line(content)
        lines.insert(dice.place(len(lines)), line)
        SIGNED.setdefault(content, set()).add(signature_lines(line.decode())[0][3])
    return b''.join(lines)


def a_note(dice):
    content = some_text(dice).encode()
    return content + b'\n' + signed(dice, content), None


def note_rows(data, _):
    note = note_in(data)
    by_length = [(name, LENGTHS, lambda message, mark: mark == len(message).to_bytes(8, 'big'))
                 for name in ('k.example', ORIGIN)]
    by_key = [(key.name, key.id, lambda message, mark: mark in SIGNED.get(message, ())) for key in KEYS[:2]]
    yield 'note parse', data, note and f'{json.dumps(note[0])} {shown_lines(note[1])}' or 'Malformed', 1
    for call, keys in ((f'note open length k.example,{ORIGIN}', by_length),
                       ('note open length k.example,k.example', by_length[:1] * 2),
                       (f'note open note {KEYS[0].verifier}', by_key[:1]),
                       (f'note open note {KEYS[1].verifier}', by_key[1:])):
        found = opened(note, keys) if note else 'Malformed'
        yield call, data, found if isinstance(found, str) else f'{found[0]} {found[1]} {json.dumps(note[0])}', 1


def shown_lines(lines):
    return f'{len(lines)} lines' + ''.join(f'\n{name} {id.hex()} {field} {mark.hex()}' for name, id, field, mark in lines)


def some_lines(dice):
    return signed(dice, some_text(dice).encode()), None


def line_rows(data, _):
    whole = decoded(data) or ''
    found = signature_lines(whole) if whole else []
    yield 'note signatures', data, 'Malformed' if found is None else shown_lines(found), 0


def a_checkpoint(dice):
    extensions = ''.join(dice.line() + '!\n' for _ in range(dice.below(3)))
    return checkpoint(dice.number(), dice.randbytes(32), dice.line() + '!') + extensions.encode(), None


def checkpoint_rows(data, _):
    whole = decoded(data) or ''
    found = checkpoint_in(whole)
    if not isinstance(found, str):
        found = f'{json.dumps(found[0])} {found[1]} {found[2].hex()} {json.dumps(whole)}'
    yield 'checkpoint parse', data, found, 2


def a_key(dice):
    key = dice.choice(KEYS)
    return (key.private if dice.below(2) else key.verifier).encode(), None


def key_rows(data, _):
    whole = decoded(data) or ''
    verifier, signer = verifier_in(whole), signer_in(whole)
    shown = verifier and f'{json.dumps(verifier[0])} {verifier[1]} {verifier[2].hex()} {whole}'
    yield 'key note verifier', data, shown or 'Malformed', 1
    shown = signer and f'{json.dumps(signer.name)} {signer.id.hex()} {whole} {signer.verifier}'
    yield 'key note signer', data, shown or 'Malformed', 1


def a_path(dice):
    index, width = dice.number() >> 7, 1 + dice.below(256)
    groups = re.findall('...', f'{index:0{-(-len(str(index)) // 3) * 3}}')
    place = '/'.join(f'x{group}' for group in groups[:-1]) + '/' * (len(groups) > 1) + groups[-1]
    kind = dice.choice((*range(8), 'entries'))
    whole = f'tile/{kind}/{place}' + ('' if width == 256 else f'.p/{width}')
    return (whole if dice.below(10) else 'checkpoint').encode(), None


def path_rows(data, _):
    whole = decoded(data) or ''
    found = resource_in(whole)
    yield 'tile path', data, f'{found} {whole}' if found else 'none', 0


def a_bundle(dice):
    entries = dice.lines(1 + dice.below(8 if dice.below(8) else 256))
    return bundle(entries), len(entries)


def bundle_rows(data, width):
    found = entries_in(data, width)
    shown = found if isinstance(found, str) else f'{len(found)} ' + ' '.join(entry.hex() for entry in found)
    yield f'tile read-bundle {width} {data.hex()}', b'', shown, 0


TEXTS = [('notes', a_note, note_rows), ('signature lines', some_lines, line_rows),
         ('checkpoints', a_checkpoint, checkpoint_rows), ('keys', a_key, key_rows), ('paths', a_path, path_rows),
         ('bundles', a_bundle, bundle_rows)]
ESCAPED = {'n': '\n', 't': '\t', 'r': '\r', '0': '\0'}
FAULTS = re.compile(r'[A-Z][A-Za-z]*(\([0-9]+\))?|none')


def plain(shown, count):
    """An answer whose first texts, so many, stand as JSON writes them and not as Rust does."""
    def character(found):
        return chr(int(found[1], 16)) if found[1] else ESCAPED.get(found[2], found[2])

    def unescaped(found):
        return json.dumps(re.sub(r'\\(?:u\{([0-9a-f]+)\}|(.))', character, found[1]))
    return re.sub(r'"((?:[^"\\]|\\.)*)"', unescaped, shown, count=count) if count else shown
