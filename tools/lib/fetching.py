"""What tlog-watch and tlog-mirror share: runs of `tlog fetch --all`, and files that a crash leaves whole.

The program is $TLOG if that is set, the one of this repository if the tools stand in it, and otherwise `tlog` of the
PATH.
"""
import contextlib
import fcntl
import os
import subprocess
import sys

# What `tlog fetch` ends with if the log is accused.
ACCUSED = 4
# Evidence has fewer bytes than this: two notes of at most 65,536 bytes each, and a consistency proof.
EVIDENCE_LIMIT = 1 << 18


class Stop(Exception):
    """Ends a tool with this status and line."""

    def __init__(self, status, line=''):
        super().__init__(line)
        self.status, self.line = status, line


def program():
    """The path of `tlog`."""
    beside = os.path.normpath(f'{os.path.dirname(os.path.realpath(__file__))}/../../tlog')
    is_here = os.path.isfile(beside) and os.access(beside, os.X_OK)
    return os.environ.get('TLOG') or (beside if is_here else 'tlog')


class Fetch:
    """A run of `tlog fetch --all` with more words, to be used in a `with`.

    `entries` gives what it prints. Then `status` is its exit status, and `evidence` what it printed if that is
    ACCUSED. Its line on standard error is shown with `shown` in the place of `hidden`, the name of a file that the
    user didn't choose. It shares the lock: if the tool is killed, the next run is refused until this one has ended,
    too."""

    def __init__(self, words, lock, hidden='', shown=''):
        self.status, self.evidence, self.hidden, self.shown = None, b'', hidden, shown
        pipes = {'stdin': subprocess.DEVNULL, 'stdout': subprocess.PIPE, 'stderr': subprocess.PIPE}
        self.process = subprocess.Popen([program(), 'fetch', '--all', *words], pass_fds=[lock.fileno()], **pipes)

    def __enter__(self):
        return self

    def __exit__(self, *_):
        self.process.stdout.close()
        self.process.stderr.close()
        self.process.wait()

    def end(self):
        """Waits for its end, and shows what it reported."""
        if self.status is None:
            reported = self.process.stderr.read().decode(errors='replace')
            sys.stderr.write(reported.replace(self.hidden, self.shown) if self.hidden else reported)
            self.status = self.process.wait()
            if self.status < 0:
                raise Stop(3, f'{program()}: killed by signal {-self.status}')
        return self.status

    def pieces(self):
        """The bytes of the entries that it prints. Evidence isn't among them."""
        front = self.process.stdout.read(EVIDENCE_LIMIT)
        if len(front) < EVIDENCE_LIMIT and self.end() == ACCUSED:
            self.evidence = front
            return
        yield front
        while piece := self.process.stdout.read1(1 << 16):
            yield piece
        self.end()

    def entries(self):
        """The entries, each once all of it has come."""
        waiting = b''
        for piece in self.pieces():
            found, waiting = whole_entries(waiting + piece)
            yield from found


def whole_entries(printed):
    """The entries that are whole in what `tlog fetch --all` printed, and the bytes behind them. An entry is a line,
    or a line of a backslash and a length and then that many bytes and a newline (docs/FORMATS.md)."""
    found, start = [], 0
    while (end := printed.find(b'\n', start)) >= 0:
        begin = start
        if printed.startswith(b'\\', start):
            begin, end = end + 1, end + 1 + int(printed[start + 1:end])
            if len(printed) <= end:
                break
        found.append(printed[begin:end])
        start = end + 1
    return found, printed[start:]


def read(path):
    """The bytes of a file; None if there is none."""
    with contextlib.suppress(FileNotFoundError), open(path, 'rb') as file:
        return file.read()
    return None


def size_of(note):
    """The size of a checkpoint that was checked before, 0 of None. What is none counts as 0: `tlog` refuses it."""
    lines = (note or b'').split(b'\n')
    return int(lines[1]) if len(lines) > 1 and lines[1].isdigit() else 0


def sync_folder(path):
    """Has the names in a folder outlast a crash."""
    folder = os.open(path or '.', os.O_RDONLY | os.O_DIRECTORY)
    try:
        os.fsync(folder)
    finally:
        os.close(folder)


def put(path, content):
    """Writes a file beside its place, syncs it, and renames it. The folder isn't synced."""
    with open(f'{path}.new', 'wb') as file:
        file.write(content)
        file.flush()
        os.fsync(file.fileno())
    os.replace(f'{path}.new', path)


def keep_evidence(path, evidence):
    """Keeps evidence that the log forked, unless there is some already."""
    if read(path) is None:
        put(path, evidence)
        sync_folder(os.path.dirname(path))


@contextlib.contextmanager
def locked(path, what):
    """Holds the lock of a file, which is made if it isn't there, and gives that file. If another process has it, the
    tool ends."""
    with open(path, 'ab') as file:
        try:
            fcntl.flock(file, fcntl.LOCK_EX | fcntl.LOCK_NB)
        except BlockingIOError:
            raise Stop(1, f'{what}: in use') from None
        yield file


def run(name, main):
    """Runs a tool: its status, after a line on standard error if it ended by a fault."""
    try:
        status = main()
        sys.stdout.flush()
    except Stop as stop:
        status = stop.status
        if stop.line:
            print(f'{name}: {stop.line}', file=sys.stderr)
    except OSError as fault:
        # (what Python still holds for a standard output that fails is not tried again at the end)
        os.dup2(os.open(os.devnull, os.O_WRONLY), sys.stdout.fileno())
        where = f'{fault.filename}: ' if fault.filename else ''
        print(f'{name}: {where}{(fault.strerror or str(fault)).lower()}', file=sys.stderr)
        status = 3
    sys.exit(status)
