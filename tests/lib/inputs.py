"""Inputs that a seed makes: numbers, texts and hashes, and bytes that are changed a little."""
import random

# What stands in texts that are read here, and what nearly does.
PIECES = [b'', b'\n', b'\n\n', b' ', b'\r\n', b'\r\n\r\n', b'\0', b'\xff', b'0', b'1', b'-', b'+', b'=', b'/', b'x000/',
          b'.p/', b'255', b'256', b'9223372036854775807', b'9223372036854775808', b'18446744073709551616',
          b'\xe2\x80\x94 ', b'\xc2\xa0', b'\xe3\x80\x80', b'\x7f', b'A' * 43 + b'=']


class Dice(random.Random):
    """Numbers, texts and hashes that a seed determines."""

    def below(self, bound):
        return self.randrange(bound)

    def place(self, length):
        return self.randrange(length) if length else 0

    def number(self):
        """A number below 2^63, of any length in bits alike."""
        return self.getrandbits(63) >> self.below(63)

    def line(self):
        """A line of up to 11 letters."""
        return ''.join(self.choices('abcdefghijklmnopqrstuvwxyz', k=self.below(12)))

    def lines(self, count):
        return [self.line().encode() for _ in range(count)]

    def hashes(self):
        """Up to five hashes."""
        return [self.randbytes(32) for _ in range(self.below(6))]


def changed_once(dice, data, other):
    """Bytes changed at one place: cut, doubled, joined with others, with a piece put in, or with lines exchanged."""
    start = dice.place(len(data))
    end = min(len(data), start + dice.choice((0, 1, dice.below(50), dice.place(len(data)))))
    front, middle, back, piece = data[:start], data[start:end], data[end:], dice.choice(PIECES)
    way = dice.below(12)
    if way < 9:
        return (front, front + back, front + middle * 2 + back, front + piece + middle + back, front + piece + back,
                front + dice.randbytes(1) + back, back + front, front + other, data + other)[way]
    lines = data.split(b'\n')
    one, another = dice.place(len(lines)), dice.place(len(lines))
    if way == 9:
        lines[one], lines[another] = lines[another], lines[one]
    else:
        lines[one:one + 1] = [lines[another]] if way == 10 else []
    return b'\n'.join(lines)


def inputs(dice, valid, count):
    """So many inputs, each with what its valid one came with: one in eight is valid, and others are changed one to three
    times."""
    other = b''
    for _ in range(count):
        data, known = valid(dice)
        given, whole = data, data
        if dice.below(8):
            for _ in range(1 + dice.below(3)):
                given = changed_once(dice, given, other)
        other = whole
        yield given, known
