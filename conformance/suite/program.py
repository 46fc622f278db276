"""What the commands of the four programs share."""
import os
import shutil
import sys

from .keys import VerifierKey
from .report import Report


def contents(path):
    """The text of a file; a report and status 2 if it can't be read."""
    try:
        with open(path, encoding='utf-8') as file:
            return file.read().strip()
    except OSError as fault:
        print(f'{path}: {fault.strerror}', file=sys.stderr)
        sys.exit(2)


def verifier(word):
    """The verifier key of an option: of its text, or of a file if it begins with `@`."""
    return VerifierKey(contents(word[1:]) if word.startswith('@') else word)


def add_command(words, seconds):
    """Adds to the words of a program those of the command that it runs, each run of which has these seconds."""
    words.add_argument('--timeout', type=float, default=seconds, metavar='SECONDS',
                       help=f'the time of each run (default: {seconds})')
    words.add_argument('--jobs', type=int, default=4, metavar='N', help='runs at once (default: 4)')
    words.add_argument('command', nargs='+', metavar='COMMAND', help='the command and its words, behind --')


def command(words, given):
    """The words of the command that was given; its program by the whole path, since it runs in other folders."""
    found = shutil.which(given.command[0])
    if not found:
        words.error(f'{given.command[0]}: no such command')
    return [os.path.abspath(found), *given.command[1:]]


def main(suite, words, run):
    """Reads the command line, runs the rows, and returns the exit status."""
    words.add_argument('--only', default='*', metavar='PATTERN',
                       help='report the rows whose names match (a shell pattern)')
    words.add_argument('--junit', metavar='FILE', help="write JUnit's XML there, too")
    given = words.parse_args()
    report = Report(suite, given.only)
    run(report, given)
    return report.end(given.junit)
