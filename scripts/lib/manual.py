"""Pages of the manual (man(7)), made of the program's help."""
import textwrap
import time

# The paragraphs that have a heading of their own, by how they begin.
HEADED = {'Input': 'INPUT', 'Output': 'OUTPUT', 'Exit status': 'EXIT STATUS'}


def escaped(text):
    """A text as roff prints it: nothing in it is a request or an escape."""
    for mark, name in (('\\', '\\e'), ('-', '\\-'), ("'", '\\(aq'), ('^', '\\(ha'), ('~', '\\(ti')):
        text = text.replace(mark, name)
    return '\n'.join(f'\\&{line}' if line.startswith('.') else line for line in text.split('\n'))


def heading(name, version, epoch, summary):
    """The front of a page: its title, its name and what it does."""
    date = time.strftime('%Y-%m-%d', time.gmtime(epoch))
    return (f'.TH {name.upper()} 1 {date} "tlog {version}" "tlog"\n.nh\n.ad l\n.SH NAME\n{escaped(name)} \\- '
            f'{escaped(summary[0].lower() + summary[1:])}\n')


def synopsis(usage):
    return f'.SH SYNOPSIS\n.B {escaped(usage.removeprefix("Usage: "))}\n'


def option_lines(option):
    """An option with its value and its help."""
    front = ''.join(f'\\fB\\-{option.letter}\\fR, ' if option.letter else '')
    value = f' \\fI{escaped(option.value)}\\fR' if option.value else ''
    return f'.TP\n{front}\\fB\\-\\-{escaped(option.name)}\\fR{value}\n{escaped(option.help or "")}\n'


def options(groups):
    """The options, each group under its heading; those of no subject come last."""
    named = sorted(groups.items(), key=lambda group: group[0] == 'Options')
    lines = ['.SH OPTIONS\n']
    for name, members in named:
        if len(named) > 1:
            lines.append(f'.SS {escaped("Help" if name == "Options" else name)}\n')
        lines += [option_lines(option) for option in members]
    return ''.join(lines)


def paragraphs(command):
    """What help says behind the options: what has a heading of its own, and the rest as the description."""
    found = {'DESCRIPTION': [], **{title: [] for title in HEADED.values()}}
    for part in command.paragraphs:
        front, colon, rest = part.partition(': ')
        title = HEADED.get(front) if colon else None
        found[title or 'DESCRIPTION'].append(rest[0].upper() + rest[1:] if title else part)
    return {title: ''.join(f'.SH {title}\n' + '.PP\n'.join(f'{escaped(part)}\n' for part in parts))
            for title, parts in found.items() if parts}


def example(command):
    return f'.SH EXAMPLE\n.EX\n{escaped(command.example)}\n.EE\n' if command.example else ''


def page(command, version, epoch, others):
    """The page of a command; `others` are the pages that it names at its end."""
    name, said = command.name if command.name == 'tlog' else f'tlog-{command.name}', paragraphs(command)
    seen = ',\n'.join(f'.BR {escaped(other)} (1)' for other in others if other != name)
    return ''.join([
        heading(name, version, epoch, command.summary), synopsis(command.usage), said.get('DESCRIPTION', ''),
        said.get('INPUT', ''), options(command.groups), said.get('OUTPUT', ''), said.get('EXIT STATUS', ''),
        example(command), f'.SH SEE ALSO\n{seen}\n'])


def page_of_script(name, text, version, epoch):
    """The page of a script, which says at its head what it does; lines that are indented are shown as they are."""
    summary, *parts = text.strip('\n').split('\n\n')
    said = []
    for part in parts:
        is_shown = all(line.startswith('    ') for line in part.split('\n'))
        said.append(f'.EX\n{escaped(textwrap.dedent(part))}\n.EE\n' if is_shown else f'.PP\n{escaped(part)}\n')
    front = heading(name, version, epoch, ' '.join(summary.split()).rstrip(':.'))
    return f'{front}.SH DESCRIPTION\n{"".join(said)}.SH SEE ALSO\n.BR tlog (1)\n'


def pages(whole, commands, version, epoch):
    """All pages, by the name of their file."""
    names = ['tlog', *(f'tlog-{command.name}' for command in commands)]
    listed = '.SH COMMANDS\n' + ''.join(f'.TP\n.BR tlog\\-{command.name} (1)\n{escaped(command.summary)}\n'
                                        for command in commands)
    made = {f'tlog-{command.name}.1': page(command, version, epoch, ['tlog']) for command in commands}
    front = page(whole, version, epoch, names)
    made['tlog.1'] = front.replace('.SH OPTIONS\n', f'{listed}.SH OPTIONS\n')
    return made
