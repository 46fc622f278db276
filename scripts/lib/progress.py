"""Reports how far a build is: on the terminal if the process has one, and never on a stream, which belongs to the program."""
import time


class Progress:
    """Writes lines to the terminal, each with a name before it."""

    def __init__(self, name):
        self.name, self.started = name, time.monotonic()
        try:
            self.terminal = open('/dev/tty', 'w', encoding='utf-8')
        except OSError:
            self.terminal = None

    def seconds(self):
        return time.monotonic() - self.started

    def tell(self, text):
        if self.terminal:
            print(f'{self.name}: {text}', file=self.terminal, flush=True)
