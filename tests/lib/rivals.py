"""Several operators of one log in a bucket at once, for `tests/bucket`: runs of the program that append lines, some of
them thousands, follow their input or take posts, and are killed or stopped for a while at random moments; readers
beside them; and what is to hold of all that was told and seen.
"""
import collections
import contextlib
import random
import re
import signal
import socket
import subprocess
import threading
import time

from .keys import checkpoint
from .logs import paths
from .program import EMPTY
from .readers import entries_in
from .serving import post
from .store import Client
from .tree import lines_of, roots

LOST = b'another operator has appended\n'


def bundles_at(get, size):
    """The entries of a log of so many, from its bundles, which are got by their paths; none where one isn't there."""
    found = []
    for number, path in enumerate(path for path in paths(size) if path.startswith('tile/entries/')):
        content = get(path)
        some = 'Missing' if content is None else entries_in(content, min(256, size - number * 256))
        if isinstance(some, str):
            return f'{path}: {some}'
        found += some
    return found


class Race:
    """Operators of one log, each a thread that runs the program again and again until the time is over."""

    def __init__(self, tlog, place, key, seed):
        self.tlog, self.place, self.key, self.seed, self.turn = tlog, place, key, seed, threading.Lock()
        self.given, self.told, self.said, self.wrong, self.seen = set(), [], [], [], []
        self.counts, self.operators, self.end, self.read = collections.Counter(), 0, 0, b''

    def run(self, operators, seconds):
        self.said += self.tlog.run('append', '--new', *self.place.signed)[1:]
        self.operators, self.end = operators, time.monotonic() + seconds
        parts = [threading.Thread(target=self.operate, args=(number,)) for number in range(operators)]
        parts += [threading.Thread(target=self.watch), threading.Thread(target=self.read_on)]
        for part in parts:
            part.start()
        for part in parts:
            part.join()

    # Operators

    def operate(self, number):
        dice, turn = random.Random(self.seed * 100 + number), 0
        while time.monotonic() < self.end:
            turn += 1
            work, most = dice.choice([(self.append, 80), (self.append, 80), (self.append, 6000), (self.follow, 80),
                                      (self.add, 80)])
            some = [b'operator %d run %d entry %d' % (number, turn, place) for place in range(dice.randrange(1, most))]
            with self.turn:
                self.given.update(some)
            try:
                work(some, dice)
            except Exception as fault:
                self.wrong.append(f'{type(fault).__name__}: {fault}')

    def begin(self, command, *words):
        words = [self.tlog.path, command, *self.place.signed, *words]
        return subprocess.Popen(words, env=EMPTY, stdin=subprocess.PIPE, stdout=subprocess.PIPE, stderr=subprocess.PIPE)

    def meet(self, process, dice, most):
        """What becomes of a run: it is killed, or stopped for a while, or nothing is done."""
        fate = dice.choice(['killed', 'stopped', 'stopped', 'left'])
        with contextlib.suppress(subprocess.TimeoutExpired):
            process.wait(dice.random() * most)
            return
        with self.turn:
            self.counts[fate] += 1
        if fate == 'killed':
            process.kill()
        if fate == 'stopped':
            process.send_signal(signal.SIGSTOP)
            time.sleep(dice.random() * 3)
            process.send_signal(signal.SIGCONT)

    def ended(self, process, out, told):
        """Counts how a run ended, which is by itself, by a lost race, or killed."""
        status = process.returncode
        with self.turn:
            self.said.append(out + told)
            if status == 1 and told.endswith(LOST):
                self.counts['lost'] += 1
            elif status not in (0, -signal.SIGKILL):
                self.wrong.append((process.args[1], status, told))

    def publishes(self, index, some):
        """Entries that were told to stand from an index on."""
        with self.turn:
            self.counts['published'] += 1
            self.told += [(index + place, entry) for place, entry in enumerate(some)]

    def append(self, some, dice):
        """Lines that are appended: each line of output tells where the next batch of them ends."""
        batch = dice.choice([1, 5, 30, 300]) if len(some) < 80 else 3000
        process = self.begin('append', '--batch', str(batch))
        fate = threading.Thread(target=self.meet, args=(process, dice, 1))
        fate.start()
        out, told = process.communicate(lines_of(some), timeout=150)
        fate.join()
        self.ended(process, out, told)
        for number, line in enumerate(out.split(b'\n')[:-1]):
            part = some[number * batch:(number + 1) * batch]
            self.publishes(int(line.split()[0]) - len(part), part)

    def serve(self, process, dice, work):
        """A server that works until its fate, and is killed then."""
        told, shut = bytearray(), threading.Event()

        def hear():
            while piece := process.stderr.read1(65_536):
                told.extend(piece)
                shut.set()
        ear = threading.Thread(target=hear)
        ear.start()
        limit = time.monotonic() + 30
        while process.poll() is None and b'listening' not in told and time.monotonic() < limit:
            shut.wait(0.05)
            shut.clear()
        found = re.search(rb'listening 127\.0\.0\.1:(\d+)\n', told)
        if found:
            hand = threading.Thread(target=work, args=(process, ('127.0.0.1', int(found[1]))))
            hand.start()
            self.meet(process, dice, 2)
            hand.join()
        process.kill()
        with contextlib.suppress(OSError):
            process.stdin.close()
        process.wait()
        ear.join()
        self.ended(process, process.stdout.read(), bytes(told))
        process.stdout.close()
        process.stderr.close()
        return bytes(told)

    def follow(self, some, dice):
        """Lines that are followed: they stand behind what was published first, as far as a publication says."""
        def work(process, _):
            with contextlib.suppress(OSError):
                for entry in some:
                    process.stdin.write(entry + b'\n')
                    process.stdin.flush()
                    time.sleep(0.01)
            time.sleep(0.3)
        process = self.begin('serve', '--follow', '--interval', '20', '--listen', '127.0.0.1:0')
        told = self.serve(process, dice, work)
        sizes = [int(size) for size in re.findall(rb'(?m)^published (\d+) \S+$', told)]
        if len(sizes) > 1:
            self.publishes(sizes[0], some[:sizes[-1] - sizes[0]])

    def add(self, some, dice):
        """Posts, of which each answer tells an index."""
        def work(process, address):
            hands = [threading.Thread(target=self.posts, args=(some[start::4], address)) for start in range(4)]
            for hand in hands:
                hand.start()
            for hand in hands:
                hand.join()
        process = self.begin('serve', '--add', '--interval', '20', '--listen', '127.0.0.1:0')
        process.stdin.close()
        self.serve(process, dice, work)

    def posts(self, some, address):
        for entry in some:
            try:
                with socket.create_connection(address, timeout=5) as link:
                    link.sendall(post(entry, '/add'))
                    got = b''
                    while piece := link.recv(65_536):
                        got += piece
            except OSError:
                return
            found = re.fullmatch(rb'HTTP/1\.1 200 OK\r\n.*\r\n\r\n(\d+)', got, re.S)
            if not found:
                return
            self.publishes(int(found[1]), [entry])

    # Readers

    def watch(self):
        """Reads the checkpoint all the time, and keeps each that is another one than before."""
        client = Client(self.place.url)
        while time.monotonic() < self.end:
            with contextlib.suppress(Exception):
                note = client.get('checkpoint')
                self.counts['reads'] += 1
                if note is not None and note != (self.seen or [None])[-1]:
                    self.seen.append(note)
            time.sleep(0.002)

    def read_on(self):
        """Reads the log on from its own state by `tlog fetch`."""
        words = '--from', self.place.url, '--key', self.key.verifier, '--state', f'{self.place.name}.seen', '--all'
        while time.monotonic() < self.end:
            if self.seen:
                status, out, told = self.tlog.run('fetch', *words)
                self.counts['fetched'] += 1
                self.read += out
                if status:
                    self.wrong.append(('fetch', status, told))
            time.sleep(0.05)

    # What is to hold

    def check(self, rows, name):
        """Rows of all that was told and seen."""
        got = self.tlog.run('append', *self.place.signed, timeout=150)
        rows.equal(f'{name}: it goes on', (got[0], got[2]), (0, b''))
        status, out, told = self.tlog.run('fetch', '--from', self.place.url, '--key', self.key.verifier, '--all')
        rows.equal(f'{name}: it can be fetched', (status, told), (0, b''))
        client = self.place.client()
        note = client.get('checkpoint') or b'\n0\n'
        found = bundles_at(client.get, int(note.split(b'\n')[1]))
        if isinstance(found, str):
            rows.equal(f'{name}: what is there', found, 'each bundle')
            return
        tops = roots(found)
        rows.equal(f'{name}: what was fetched', out, lines_of(found))
        rows.equal(f'{name}: how the runs ended', self.wrong[:5], [])
        sizes = [int(note.split(b'\n')[1]) for note in self.seen]
        rows.equal(f'{name}: what was seen grows', sizes, sorted(set(sizes)))
        strange = [size for size, note in zip(sizes, self.seen)
                   if size >= len(tops) or note != self.note(size, tops[size])]
        rows.equal(f'{name}: what was seen is of the log', strange, [])
        rows.equal(f'{name}: what was read on', lines_of(found)[:len(self.read)], self.read)
        misplaced = [(index, entry) for index, entry in self.told if index >= len(found) or found[index] != entry]
        rows.equal(f'{name}: entries that were told and stand elsewhere', misplaced[:5], [])
        twice = [entry for entry, times in collections.Counter(found).items() if times > 1]
        rows.equal(f'{name}: entries that are there twice', twice[:5], [])
        rows.equal(f'{name}: entries that nobody gave', sorted(set(found) - self.given)[:5], [])
        is_much = self.counts['published'] > 2 < len(sizes) and (self.counts['lost'] > 0 or self.operators < 3)
        rows.holds(f'{name}: there was something to see', is_much, self.counts)

    def note(self, size, top):
        return self.key.note(checkpoint(size, top, self.key.name))
