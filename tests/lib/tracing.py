"""Runs of a program under ptrace, on x86-64 Linux: what it asks of the system, call by call, and calls that fail."""
import ctypes
import errno
import os
import signal
import struct
import subprocess
import threading

TRACE_ME, GET_REGISTERS, SET_REGISTERS, GO_ON, SET_OPTIONS = 0, 12, 13, 24, 0x4200
# Calls are told from signals, children and threads are traced too, an exec is reported, and all end with this script.
OPTIONS = 0x1 | 0x2 | 0x4 | 0x8 | 0x10 | 0x100000
CALL_STOP = signal.SIGTRAP | 0x80
# Children of any kind, but none of another thread of this script.
ANY_OWN = 0x40000000 | 0x20000000
# Where registers stand: of a call its number, its arguments and its result.
NUMBER, RESULT, ARGUMENTS = 15, 10, (14, 13, 12, 7)
NO_CALL, HERE = -1, 0xFFFF_FF9C
LIBC = ctypes.CDLL(None, use_errno=True)
LIBC.ptrace.argtypes = [ctypes.c_long, ctypes.c_long, ctypes.c_void_p, ctypes.c_void_p]


class Untraced(Exception):
    """The system doesn't let a process be traced."""


def trace(request, thread, data=0):
    """A request to trace a thread, which may have ended."""
    if LIBC.ptrace(request, thread, 0, data) < 0 and ctypes.get_errno() != errno.ESRCH:
        raise Untraced


class Caller:
    """A thread that stands at the beginning or the end of a call, and the folder of its run. Paths are from there; what is
    elsewhere has none."""

    def __init__(self, thread, top):
        self.thread, self.top = thread, top
        self.held = ctypes.create_string_buffer(27 * 8)
        trace(GET_REGISTERS, thread, ctypes.addressof(self.held))
        registers = struct.unpack('27q', self.held)
        self.number, self.result = registers[NUMBER], registers[RESULT]
        self.given = [registers[place] & (1 << 64) - 1 for place in ARGUMENTS]

    def begins(self):
        """Whether the call isn't done yet: the system sets its result to this error until it is."""
        return self.result == -errno.ENOSYS

    def change(self, place, value):
        """Changes a register."""
        struct.pack_into('q', self.held, place * 8, value)
        trace(SET_REGISTERS, self.thread, ctypes.addressof(self.held))

    def bytes(self, at, count):
        """So many bytes of its memory."""
        with open(f'/proc/{self.thread}/mem', 'rb', 0) as memory:
            memory.seek(at)
            return memory.read(count)

    def path(self, at, folder=None):
        """The path in its memory, from an open folder or the one that it works in."""
        here = 'cwd' if folder is None or folder & 0xFFFF_FFFF == HERE else f'fd/{folder}'
        name = os.fsdecode(self.bytes(at, 4096).split(b'\0')[0])
        path = os.path.relpath(os.path.join(os.readlink(f'/proc/{self.thread}/{here}'), name), self.top)
        return None if path.split('/')[0] == '..' else path

    def kind(self, number):
        """What an open file is, as the system shows it."""
        return os.readlink(f'/proc/{self.thread}/fd/{number}')

    def opened(self, number):
        """The path of an open file or folder."""
        path = self.kind(number)
        return os.path.relpath(path, self.top) if path == self.top or path.startswith(self.top + '/') else None

    def is_folder(self, number):
        return os.path.isdir(f'/proc/{self.thread}/fd/{number}')

    def place(self, number):
        """The place up to which an open file was read or written."""
        with open(f'/proc/{self.thread}/fdinfo/{number}', 'rb') as told:
            return int(told.readline().split()[1])


def begin(words, **how):
    """Starts a program, which waits until it is followed by this thread."""
    return subprocess.Popen(words, preexec_fn=lambda: LIBC.ptrace(TRACE_ME, 0, 0, 0), **how)


def follow(process, top, at_call, seconds=60):
    """Follows a program that was started in a folder until it ends, which it has to do in so many seconds: `at_call` is
    called with each Caller, at the beginning and at the end of each call."""
    late = threading.Timer(seconds, os.kill, (process.pid, signal.SIGKILL))
    _, status = os.waitpid(process.pid, 0)
    if not os.WIFSTOPPED(status):
        raise Untraced
    trace(SET_OPTIONS, process.pid, OPTIONS)
    late.start()
    trace(GO_ON, process.pid)
    while process.returncode is None:
        thread, status = os.waitpid(-1, ANY_OWN)
        if os.WIFSTOPPED(status):
            kind = os.WSTOPSIG(status)
            if kind == CALL_STOP:
                at_call(Caller(thread, top))
            trace(GO_ON, thread, 0 if kind in (CALL_STOP, signal.SIGTRAP, signal.SIGSTOP) else kind)
        elif thread == process.pid:
            process.returncode = os.waitstatus_to_exitcode(status)
    late.cancel()
