"""How often files of a folder are opened, as Linux reports it (inotify(7))."""
import collections
import ctypes
import os
import struct

IN_OPEN = 0x20
IN_CLOSE = 0x18
EVENT = struct.Struct('iIII')


class Opens:
    """Counts by name how often a file of this folder is opened, from now on."""

    def __init__(self, folder):
        # Closings are watched, too: Linux reports equal events in a row once.
        libc = ctypes.CDLL(None, use_errno=True)
        self.queue = libc.inotify_init1(os.O_NONBLOCK | os.O_CLOEXEC)
        if self.queue < 0 or libc.inotify_add_watch(self.queue, os.fsencode(folder), IN_OPEN | IN_CLOSE) < 0:
            raise OSError(ctypes.get_errno(), 'inotify')

    def __enter__(self):
        return self

    def __exit__(self, *_):
        os.close(self.queue)

    def counts(self):
        """The counts since the last call."""
        counts = collections.Counter()
        while True:
            try:
                events = os.read(self.queue, 1 << 16)
            except BlockingIOError:
                return counts
            while events:
                _, mask, _, length = EVENT.unpack_from(events)
                name = os.fsdecode(events[EVENT.size:EVENT.size + length].rstrip(b'\0'))
                counts[name] += bool(mask & IN_OPEN)
                events = events[EVENT.size + length:]
