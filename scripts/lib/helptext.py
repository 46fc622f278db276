"""What the program says of itself: its commands, their options and the paragraphs of their help, as `tlog help`
prints them."""
import re
import subprocess


class Option:
    """An option of a command: `--name`, a letter or None, what help calls its value or None, and its help."""

    def __init__(self, found):
        self.letter, self.name, self.value, self.help = found['letter'], found['name'], found['value'], found['help']
        self.is_repeated = False


class Command:
    """A command's help: its name, its summary, its usage, groups of options by heading, paragraphs, and an example."""
    OPTION = re.compile(
        r' +(?:-(?P<letter>\w), )? *--(?P<name>[a-z0-9-]+)(?: <(?P<value>[A-Z=]+)>)?(?: {2,}(?P<help>.*))?')

    def __init__(self, name, text):
        self.name, self.groups, self.paragraphs, self.example = name, {}, [], None
        self.summary, self.usage, *rest = text.strip('\n').split('\n\n')
        for part in rest:
            heading, *lines = part.split('\n')
            if heading.startswith('Example: '):
                self.example = example_of(part)
            elif heading.endswith(':') and lines and all(line.startswith('  ') for line in lines):
                self.groups[heading[:-1]] = lines
            else:
                self.paragraphs.append(part)
        self.groups = {heading: options_of(lines) for heading, lines in self.groups.items() if heading != 'Commands'}

    def options(self):
        """All options of the command."""
        return [option for options in self.groups.values() for option in options]


def options_of(lines):
    """The options of a group's lines; each has one."""
    found = [Command.OPTION.fullmatch(line) for line in lines]
    if not all(found):
        raise ValueError(f'no option: {lines[found.index(None)]!r}')
    return [Option(one) for one in found]


def example_of(part):
    """An example's lines; those behind the first are indented by four spaces."""
    first, *more = part[len('Example: '):].split('\n')
    return '\n'.join([first, *(f'    {line.strip()}' for line in more)])


def printed(program, *words):
    """What a run of the program prints, under the name of `tlog`, which has to succeed."""
    return subprocess.run(['tlog', *words], executable=program, stdin=subprocess.DEVNULL, stdout=subprocess.PIPE,
                          check=True).stdout.decode()


def commands_of(program):
    """The program itself, under its own name, and each of its commands."""
    whole = printed(program, 'help')
    listed = whole.split('Commands:\n')[1].split('\n\n')[0]
    names = [line.split()[0] for line in listed.split('\n')]
    return Command('tlog', whole), [Command(name, printed(program, 'help', name)) for name in names]
