"""The crates that crates.txt lists, and the programs that are made of them."""
import fcntl
import contextlib
import hashlib
import os
import shutil

TOP = os.path.dirname(os.path.dirname(os.path.dirname(os.path.realpath(__file__))))

# What a program is compiled from, and what it is proved from.
SOURCES, PROVED_FROM = ('src',), ('src', 'specs', 'proofs')

# The programs, each with words for which it ends with status 0 at once.
PROGRAMS = {'tlog': ['--version'], 'tl_bench': ['sha256', '1', '33'], 'tl_rows': []}


class Unknown(Exception):
    """No program has this name."""


def listed():
    """What each crate stands on, by name: crates of the repository and libraries of the kit."""
    found = {}
    with open(f'{TOP}/crates.txt', encoding='utf-8') as lines:
        for line in lines:
            name, colon, uses = line.split('#')[0].partition(':')
            if colon:
                found[name.split()[0]] = uses.split()
    return found


def lowest_first(name):
    """The crates of the repository that this one stands on and then itself, each after those that it stands on."""
    crates, order = listed(), []
    if name not in PROGRAMS or name not in crates:
        raise Unknown(f'{name} is none of the programs {", ".join(PROGRAMS)}')

    def visit(crate):
        for use in crates[crate]:
            if use in crates:
                visit(use)
        if crate not in order:
            order.append(crate)

    visit(name)
    return order


def files_of(crate, parts):
    """The files in these folders of a crate, sorted."""
    return sorted(f'{folder}/{name}' for part in parts
                  for folder, _, names in os.walk(f'{TOP}/crates/{crate}/{part}') for name in names)


def jobs():
    """How many processes are to run at once: RT_JOBS, or as many as there are processors."""
    return int(os.environ.get('RT_JOBS') or len(os.sched_getaffinity(0)))


class Built:
    """A program that was built from some folders of its crates, at build/KIND/NAME, with a digest of what it is made of."""

    def __init__(self, kind, name, parts):
        self.path, self.name, self.kind = f'{TOP}/build/{kind}/{name}', name, kind
        self.files = [f'{TOP}/crates.txt', *(file for crate in lowest_first(name) for file in files_of(crate, parts))]

    def digest(self):
        """The digest of all files that the program is made of, with their names."""
        whole = hashlib.sha256()
        for file in self.files:
            with open(file, 'rb') as content:
                whole.update(f'{os.path.relpath(file, TOP)}\n'.encode() + hashlib.file_digest(content, 'sha256').digest())
        return whole.hexdigest()

    def exists(self):
        return os.path.exists(self.path)

    def is_current(self):
        """Whether the program is there and was built from the files as they are."""
        stamp = f'{self.path}.digest'
        try:
            made = os.stat(stamp).st_mtime_ns
            if all(os.stat(file).st_mtime_ns < made for file in self.files) and self.exists():
                return True
            with open(stamp, encoding='utf-8') as kept:
                if kept.read() != self.digest() or not self.exists():
                    return False
        except OSError:
            return False
        os.utime(stamp)
        return True

    def put(self, program, digest):
        """Puts a program in its place, with the digest that its sources had before it was built."""
        os.makedirs(os.path.dirname(self.path), exist_ok=True)
        shutil.copy2(program, f'{self.path}.new')
        with open(f'{self.path}.digest', 'w', encoding='utf-8') as kept:
            kept.write(digest)
        os.replace(f'{self.path}.new', self.path)

    @contextlib.contextmanager
    def lock(self):
        """One process builds it at a time; the others wait."""
        os.makedirs(os.path.dirname(self.path), exist_ok=True)
        with open(f'{self.path}.lock', 'w', encoding='utf-8') as held:
            fcntl.flock(held, fcntl.LOCK_EX)
            yield


def trial(name):
    """The trial program of this name: compiled from the sources as they are, and not proved."""
    return Built('trial', name, SOURCES)


def proved(name):
    """The proved program of this name."""
    return Built('proved', name, PROVED_FROM)
