"""The walks of scripts/lib/walks.txt: their steps, and whether each is a call in the sources."""
import collections
import re

from lib.crates import TOP, listed

# A step: how deep it stands, the function's name, and the one that calls it, if it isn't the step that it stands under.
Step = collections.namedtuple('Step', 'depth name caller')


class Broken(Exception):
    """A step doesn't hold."""


def lines_of():
    """The lines of the file, without comments."""
    with open(f'{TOP}/scripts/lib/walks.txt', encoding='utf-8') as file:
        return [line for line in (line.split('#')[0].rstrip() for line in file) if line]


def spread(lines, parts, depth):
    """The steps of a walk's lines; `+ NAME` stands for the lines of that part."""
    for line in lines:
        text = line.strip()
        at = depth + (len(line) - len(text)) // 2 - 1
        if text.startswith('+ '):
            yield from spread(parts[text[2:]], parts, at)
        else:
            name, _, caller = text.partition(' from ')
            yield Step(at, name, caller or None)


def read_walks():
    """The steps of each walk, by name."""
    found = {'walk': {}, 'part': {}}
    for line in lines_of():
        if line[0] != ' ':
            kind, _, name = line.partition(" ")
            lines = found[kind][name] = []
        else:
            lines.append(line)
    return {name: list(spread(lines, found['part'], 0)) for name, lines in found['walk'].items()}


def below():
    """The crates that each crate stands on, and that these stand on, and itself."""
    uses, found = listed(), {}
    for crate in uses:
        found[crate] = {crate}.union(*(found[use] for use in uses[crate] if use in found))
    return found


def calls_in(body, name):
    """What stands before each call of this name in a body: `.`, a path with `::`, or nothing."""
    pattern = rf'(\.\s*|(?:\w+(?:::<[^()]*>)?::)+|(?<!\w))\b{name}\b(?=\s*(?:::<[^()]*>\s*)?\(|\s*[,)])'
    return [before.rstrip() for before in re.findall(pattern, body)]


def is_declared_by(trait, method):
    """Whether the first declares, as the method of a trait, what the second is."""
    return trait.type is None and trait.trait is not None and (trait.trait, trait.name) == (method.trait, method.name)


class Checker:
    """Checks steps against the sources."""

    def __init__(self, sources):
        self.sources, self.below = sources, below()
        every = (function for named in sources.functions.values() for function in named)
        self.traits = {function.trait for function in every if function.type is None} - {None}

    def is_free(self, caller, function, before):
        """Whether a call of a free function is of this one: of the caller's file, or imported from its crate."""
        if before == '.':
            return False
        if before:
            return before.split('::')[-2] in (function.crate, *function.file.removesuffix('.rt').split('/')[2:])
        known = self.sources.imports[caller.file].get(function.name)
        if known is None:
            return caller.file == function.file
        return function.crate == (known if known in self.below else caller.crate)

    def is_method(self, caller, function, before):
        """Whether a call of a method may be of this one. Through a trait of ours its declaration is met first, unless
        the caller's file names the type."""
        if not before or function.type is not None and function.crate not in self.below[caller.crate]:
            return False
        if function.trait in self.traits and function.type is not None and not self.names(caller, function.type):
            return False
        return function.has_self or before.split('::')[-2].split('<')[0] in ('Self', function.type, function.trait)

    def names(self, caller, name):
        """Whether the caller's file names this type."""
        return re.search(rf'\b{name}\b', self.sources.code[caller.file])

    def calls(self, caller, function):
        """Whether the first calls the second in its body, or is the declaration that the second implements."""
        if is_declared_by(caller, function):
            return True
        is_this = self.is_method if function.type or function.trait else self.is_free
        return any(is_this(caller, function, before) for before in calls_in(caller.body, function.name))

    def only(self, name, caller=None):
        """The one function of this name that the caller calls, if there is a caller."""
        named = self.sources.named(name)
        found = [function for function in named if caller is None or self.calls(caller, function)]
        if len(found) == 1:
            return found[0]
        files = ', '.join(f'{function.file}:{function.line}' for function in found or named)
        if not named:
            raise Broken(f'there is no function {name}')
        if caller is None or found:
            raise Broken(f'{name} may be any of {files}')
        raise Broken(f'{caller.name} ({caller.file}:{caller.line}) doesn\'t call {name} ({files})')


def steps_of(steps, sources):
    """The functions of a walk, in order. It fails at the first step that isn't a call of a function that was met."""
    checker, met, above = Checker(sources), [], []
    for step in steps:
        if step.depth > len(above):
            raise Broken(f'{step.name} stands deeper than below a step')
        del above[step.depth:]
        caller = above[-1] if above else None
        if step.caller:
            caller = next((function for function in met if function in sources.named(step.caller)), None)
            if caller is None:
                raise Broken(f'{step.name}: {step.caller} wasn\'t met before')
        if caller is None and met:
            raise Broken(f'{step.name}: only the first step has no caller')
        function = checker.only(step.name, caller)
        above.append(function)
        met.append(function)
    return met
