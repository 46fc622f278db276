"""Posts to `tlog serve --add`: the request, its answers, the log that they are in, and clients that post while the program is
killed."""
import contextlib
import os
import re
import shutil
import signal
import socket
import threading
import time

from .harness import read
from .kept import CLOSE, Kept, kept
from .keys import note
from .program import TEXT, answer
from .readers import entries_in
from .serving import SECRET, post, rest
from .tree import leaf, root

LOG = ('serve', *SECRET)
FOLDER = (*LOG, '--dir', 'log')
REFUSED = answer(503, 'Service Unavailable', 'Retry-After: 1', kind=TEXT, body=b'not published yet: post it again\n')


def add(entry):
    """The request that adds an entry."""
    return post(entry, '/add')


def placed(index):
    """The answer that tells an index."""
    return answer(200, 'OK', kind=TEXT, body=b'%d' % index)


def index_in(got, end=CLOSE):
    """The index that an answer tells whose head has this last line or none, and `None` of another answer."""
    found = re.fullmatch(rb'HTTP/1\.1 200 OK\r\nContent-Type: text/plain; charset=utf-8\r\nContent-Length: (\d+)\r\n'
                         + end + rb'\r\n(0|[1-9]\d*)', got)
    return int(found[2]) if found and int(found[1]) == len(found[2]) else None


def log_in(folder='log'):
    """The entries of the log in a folder, where its checkpoint is that of its bundles; else an assertion fails."""
    size = int(read(f'{folder}/checkpoint').split(b'\n')[1])
    found = []
    for place in range(0, size, 256):
        width = min(256, size - place)
        digits = f'{place // 256:06}'
        name = digits[3:] if digits[:3] == '000' else f'x{digits[:3]}/{digits[3:]}'
        paths = [f'{folder}/tile/entries/{name}.p/{width}', f'{folder}/tile/entries/{name}']
        content = next(content for path in paths[width == 256:] if (content := read(path)) is not None)
        found += entries_in(content, width)
    assert read(f'{folder}/checkpoint') == note(size, root([leaf(entry) for entry in found])), 'another root'
    return found


class Clients:
    """Clients that post entries one after another, each over a connection of its own or over one that is kept, and note what
    they are told."""

    def __init__(self, work, address, is_kept=False):
        self.work, self.address, self.is_kept = work, address, is_kept
        self.answers, self.lock = {}, threading.Lock()

    def index_in(self, got):
        return index_in(got, b'') if self.is_kept else index_in(got)

    def is_refused(self, got):
        return got == (kept(REFUSED) if self.is_kept else REFUSED)

    def ask(self, entry, link):
        """The answer to an entry, over a connection that is kept or a new one."""
        if link:
            return link.ask(add(entry))
        with socket.create_connection(self.address, timeout=10) as new:
            new.sendall(add(entry))
            return rest(new, 10)

    def run(self):
        with contextlib.ExitStack() as held:
            link = None
            while True:
                with self.lock:
                    if not self.work:
                        return
                    entry = self.work.pop()
                try:
                    if self.is_kept and not link:
                        link = held.enter_context(Kept(self.address, 10))
                    got = self.ask(entry, link)
                except OSError:
                    got = None
                index = self.index_in(got or b'')
                with self.lock:
                    if index is not None:
                        self.answers.setdefault(entry, set()).add(index)
                    elif self.is_refused(got) or not got:
                        self.work.insert(0, entry)
                    else:
                        self.answers.setdefault(entry, set()).add(got)
                if not got:
                    return

    def all(self, count):
        threads = [threading.Thread(target=self.run) for _ in range(count)]
        for thread in threads:
            thread.start()
        return threads


def killed(tlog, rows, dice, count, times, clients, *words):
    """So many entries, and a tenth of them again, by so many clients, while the program is killed some times: each answer
    is right at the end. With the word --keep-alive each client has one connection."""
    due = [b'entry %d of many' % number for number in range(count)]
    work = due + dice.sample(due, count // 10)
    dice.shuffle(work)
    answers, kills, seen = {}, 0, None
    while work:
        with tlog.start(*FOLDER, '--add', '--interval', dice.choice(['1', '10', '40']), '--batch', '500', *words, given=b'') as log:
            posted = Clients(work, log.address, '--keep-alive' in words)
            threads = posted.all(clients)
            if kills < times:
                time.sleep(dice.random() * 0.25)
                log.process.send_signal(signal.SIGKILL)
                kills += 1
            for thread in threads:
                thread.join()
        for entry, indexes in posted.answers.items():
            answers.setdefault(entry, set()).update(indexes)
        if os.path.exists('log/checkpoint'):
            found = log_in()
            rows.holds(f'kill {kills}: what was there is there', seen is None or found[:len(seen)] == seen)
            seen = found
    rows.equal('the entries that are answered', len(answers), count)
    rows.equal('answers that are none', [each for some in answers.values() for each in some if isinstance(each, bytes)], [])
    wrong = {(entry, index) for entry, some in answers.items() for index in some
             if isinstance(index, int) and (index >= len(found) or found[index] != entry)}
    rows.equal('indexes that have another entry', wrong, set())
    rows.equal('entries that nobody sent', set(found) - set(due), set())
    shutil.rmtree('log')
