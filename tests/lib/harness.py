"""Rows that are counted, a temporary folder to work in, and the files in it: what each script of tests/ needs."""
import contextlib
import os
import resource
import signal
import sys
import tempfile

# Files of keys that the tests write are their owner's alone: `tlog` reports those that others can read.
os.umask(0o077)
# A signal that whoever runs the tests ignores, as in the background, isn't ignored by what the tests run.
for each in (signal.SIGINT, signal.SIGHUP):
    if signal.getsignal(each) == signal.SIG_IGN:
        signal.signal(each, signal.SIG_DFL)

TOP = os.path.dirname(os.path.dirname(os.path.dirname(os.path.realpath(__file__))))


def arguments(*defaults):
    """The script's arguments, each of the kind of its default, which stands for one that isn't given; and behind them
    whether the last word is `quick`, by which a script is asked for its short form."""
    is_quick = sys.argv[-1] == 'quick'
    words = sys.argv[1:len(sys.argv) - is_quick]
    if len(words) > len(defaults):
        sys.exit(f'{os.path.basename(sys.argv[0])}: at most {len(defaults)} arguments, and `quick` behind them')
    given = [type(default)(word) for default, word in zip(defaults, words)]
    return [*given, *defaults[len(given):], is_quick]


class Rows:
    """Counts rows, and reports each that is wrong."""

    def __init__(self, script):
        self.script, self.count, self.wrong = script, 0, 0

    def equal(self, name, got, want):
        """A row: two values are equal, what was got and what is wanted."""
        self.count += 1
        if got != want:
            self.wrong += 1
            if self.wrong <= 20:
                print(f'{self.script}: {name}:\n  got  {shown(got)}\n  want {shown(want)}', file=sys.stderr)

    def holds(self, name, fact, *seen):
        """A row: this is so. If it isn't, what was seen is reported."""
        self.equal(name, seen if seen and not fact else bool(fact), True)

    def end(self):
        """Reports how many rows there were, and ends the script with status 1 if one was wrong."""
        if self.wrong:
            sys.exit(f'{self.script}: {self.wrong} of {self.count} rows are wrong')
        print(f'{self.script}: {self.count} rows, each as it must be')


def shown(value):
    """The text of a value, without its middle if it is long."""
    text = repr(value)
    return text if len(text) < 600 else f'{text[:300]} .. {text[-200:]} ({len(text)} characters)'


@contextlib.contextmanager
def room():
    """A temporary folder, which is the working folder until it is left."""
    before = os.getcwd()
    with tempfile.TemporaryDirectory(prefix='tlog-') as folder:
        os.chdir(folder)
        try:
            yield folder
        finally:
            os.chdir(before)


def write(path, content):
    """Writes a file. Its folder is made if it isn't there."""
    folder = os.path.dirname(path)
    if folder:
        os.makedirs(folder, exist_ok=True)
    with open(path, 'wb') as file:
        file.write(content)


def read(path):
    """The bytes of a file, and None if there is none."""
    try:
        with open(path, 'rb') as file:
            return file.read()
    except FileNotFoundError:
        return None


def only(count):
    """Limits the files that a process writes to so many bytes. To be called as the process begins."""
    signal.signal(signal.SIGXFSZ, signal.SIG_IGN)
    resource.setrlimit(resource.RLIMIT_FSIZE, (count, count))
