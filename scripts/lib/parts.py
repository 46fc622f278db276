"""Cuts one module of LLVM's text into parts that are compiled side by side, and lose next to nothing by it.

A function that is short stands in each part that calls it, so that it is inlined there. A longer one, or one whose address
is taken, which is one address in all parts, stands in one part, and the others declare it: parts are runs of the order in
which functions are reached from `main`, so a caller is mostly beside what it calls. Constants stand in each part that names
them, variables in the first."""
import re

# A function of at most so many lines is short.
SHORT = 40

NAME = re.compile(r'@("[^"]*"|[\w.$-]+)')
# (a name that is called has a bracket behind it)
ADDRESS = re.compile(r'@("[^"]*"|[\w.$-]++)(?!\()')
FUNCTION = re.compile(r'^define .*?^}\n', re.M | re.S)
VARIABLE = re.compile(r'^@("[^"]*"|[\w.$-]+) = (?:private |internal |hidden )*((?:unnamed_addr |local_unnamed_addr )?'
                      r'(?:constant|global) )(.*)\n', re.M)
DECLARED = re.compile(r'^declare .*?@("[^"]*"|[\w.$-]+).*\n', re.M)
TEXT = re.compile(r'(?<= )c"[^"]*"')
BRACKETS = dict(zip('[{<(', ']}>)'))


def type_of(value):
    """The type with which the text of a variable begins."""
    depth = 0
    for place, letter in enumerate(value):
        depth += (letter in BRACKETS) - (letter in BRACKETS.values())
        if depth == 0 and (letter in BRACKETS.values() or letter == ' '):
            return value[:place + 1].strip()
    raise ValueError(f'no type: {value[:80]}')


class Module:
    """The text of a module, by its functions, variables, what it declares, and all else."""

    def __init__(self, text):
        self.functions = {NAME.search(it)[1]: it for it in FUNCTION.findall(text)}
        rest = FUNCTION.sub('', text)
        self.variables = {name: (kind, value) for name, kind, value in VARIABLE.findall(rest)}
        rest = VARIABLE.sub('', rest)
        self.declared = {found[1]: found[0] for found in DECLARED.finditer(rest)}
        self.rest = DECLARED.sub('', rest)
        if '\n@' in self.rest or '\ndefine' in self.rest:
            raise ValueError('a module of another shape')
        named = {**self.functions, **{name: TEXT.sub('', value) for name, (_, value) in self.variables.items()}}
        self.uses = {name: [it for it in dict.fromkeys(NAME.findall(text)) if it != name] for name, text in named.items()}
        taken = {name for text in named.values() for name in ADDRESS.findall(text)} | {'main'}
        self.short = {name for name, text in self.functions.items() if text.count('\n') <= SHORT} - taken

    def reached(self):
        """The functions, each behind one that names it, as they are reached from `main`."""
        order, seen, left = [], {'main'}, ['main']
        while left:
            name = left.pop()
            if name in self.functions:
                order.append(name)
            for use in reversed(self.uses.get(name, ())):
                if use not in seen:
                    seen.add(use)
                    left.append(use)
        return order

    def shares(self, count):
        """The longer functions in so many parts of about one length."""
        order = [name for name in self.reached() if name not in self.short]
        whole = sum(len(self.functions[name]) for name in order)
        shares, done = [[] for _ in range(count)], 0
        for name in order:
            shares[min(count - 1, done * count // whole)].append(name)
            done += len(self.functions[name])
        return shares

    def within(self, share):
        """All that a part of these functions has to have: itself, what is short, and variables."""
        seen, left = set(share), list(share)
        while left:
            for use in self.uses.get(left.pop(), ()):
                if use not in seen:
                    seen.add(use)
                    if use in self.short or use in self.variables:
                        left.append(use)
        return seen

    def parts(self, count):
        """The texts of so many parts."""
        shares = self.shares(count)
        needs = [self.within(share) for share in shares]
        home = {name: number for number, share in enumerate(shares) for name in share}
        # What another part names can't be its part's own.
        shown = {name for number, need in enumerate(needs) for name in need if home.get(name, number) != number}
        return [self.part(number, need, home, shown) for number, need in enumerate(needs)]

    def part(self, number, need, home, shown):
        made = [self.rest]
        for name in sorted(need):
            if name in self.variables:
                kind, value = self.variables[name]
                if 'constant' in kind:
                    made.append(f'@{name} = private {kind}{value}\n')
                elif number == 0:
                    made.append(f'@{name} = hidden {kind}{value}\n')
                else:
                    made.append(f'@{name} = external hidden {kind}{type_of(value)}\n')
            elif name in self.short or home.get(name) == number:
                text = self.functions[name]
                made.append(text.replace('define internal ', 'define hidden ', 1) if name in shown else text)
            elif name in self.functions:
                front = self.functions[name].split('\n', 1)[0]
                made.append(front.replace('define internal ', 'declare hidden ', 1).removesuffix(' {') + '\n')
            elif name in self.declared:
                made.append(self.declared[name])
        if number == 0:
            made += [f'@{name} = hidden {kind}{value}\n' for name, (kind, value) in self.variables.items()
                     if 'constant' not in kind and name not in need]
        return ''.join(made)
