"""Runs of a program in which one request for memory fails: by a library of C that is preloaded (fail.c), which the clang
and the linker of the kit compile, or the system's `cc` if those aren't there.
"""
import os
import shutil
import subprocess

from .harness import TOP
from .program import EMPTY

SOURCE = f'{TOP}/tests/lib/fail.c'


def library():
    """Compiles the library into the working folder: its path."""
    made, kit = os.path.realpath('fail.so'), shutil.which('rt')
    tools = f'{os.path.dirname(os.path.dirname(os.path.realpath(kit)))}/toolchain/bin' if kit else ''
    ways = [[[f'{tools}/clang', '-O1', '-fPIC', '-ffreestanding', '-c', SOURCE, '-o', 'fail.o'],
             [f'{tools}/ld.lld', '-shared', 'fail.o', '-o', made]],
            [['cc', '-O1', '-fPIC', '-ffreestanding', '-fno-builtin', '-shared', SOURCE, '-o', made]]]
    said = b''
    for steps in ways:
        try:
            for words in steps:
                said += subprocess.run(words, check=True, stdout=subprocess.PIPE, stderr=subprocess.STDOUT).stdout
            return made
        except (OSError, subprocess.CalledProcessError) as fault:
            said += f'{fault}\n'.encode() + (getattr(fault, 'output', None) or b'')
    raise AssertionError(f'{SOURCE} is not compiled: {said.decode(errors="replace")}')


class Failing:
    """The environment of a run in which the request with a number fails, and whether that came."""

    def __init__(self, library, number, note):
        self.note = os.path.realpath(note)
        self.environment = {**EMPTY, 'LD_PRELOAD': library, 'FAIL_ALLOC': str(number), 'FAIL_NOTE': self.note}

    def was_met(self):
        return os.path.exists(self.note)
