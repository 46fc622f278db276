"""The functions of the sources: where each stands, whose it is, and what its body says."""
import collections
import os
import re

from lib.crates import TOP, listed

# What is no code: comments, texts, characters.
SKIPPED = re.compile(r'//[^\n]*|b?"(?:\\.|[^"\\])*"|b?\'(?:\\.[^\']*|[^\'\\])\'', re.S)
# Where a clause of a contract or a ghost item begins, and a ghost import.
CLAUSE = re.compile(r'\b(?:(?:ensures|requires)\s+\w*|ghost \w+\s*[:=])\s*(?=\{)')
IMPORT = re.compile(r'\bghost use [^;]*;')
# Where a block of methods begins, and a function.
BLOCK = re.compile(r'^(?:pub(?:\(crate\))? )?(impl|trait)\b', re.M)
FUNCTION = re.compile(r'^(?:    )?(?:pub(?:\([^)]*\))? )?(?:const )?fn (\w+)', re.M)

# A function: its crate, its file under crates/, the type and the trait whose method it is, or None, its name, whether
# it is called on a value, its body, empty if it is only declared, and its line.
Function = collections.namedtuple('Function', 'crate file type trait name has_self body line')


def path_of(function):
    """The parts of a function's path: crate, modules, type or trait, name."""
    modules = function.file.partition('/src/')[2].removesuffix('.rt').split('/')
    return [function.crate, *modules, *filter(None, [function.type or function.trait]), function.name]


def end_of(text, begin):
    """The place behind the bracket that closes the one at `begin`. An arrow's head is none."""
    depth, opening = 0, text[begin]
    closing = {'{': '}', '(': ')', '<': '>'}[opening]
    for place in range(begin, len(text)):
        depth += (text[place] == opening) - (text[place] == closing and text[place - 1:place] not in ('-', '='))
        if not depth:
            return place + 1
    raise ValueError(f'{opening} without {closing}')


def body_after(text, begin):
    """Where the body begins behind a signature, or its declaration ends. A result's type may have a `;` in brackets."""
    depth = 0
    for place in range(begin, len(text)):
        depth += (text[place] in '([') - (text[place] in ')]')
        if not depth and text[place] in '{;':
            return place
    raise ValueError('a signature without an end')


def blank(text):
    """Spaces in place of a text, and its newlines."""
    return re.sub(r'[^\n]', ' ', text)


def without_clauses(text):
    """The text with spaces in place of clauses and ghost items."""
    text = IMPORT.sub(lambda found: blank(found.group()), text)
    pieces, at = [], 0
    while clause := CLAUSE.search(text, at):
        end = end_of(text, clause.end())
        end += text[end] in ';,' and clause.group().startswith('ghost')
        pieces += text[at:clause.start()], blank(text[clause.start():end])
        at = end
    return ''.join(pieces) + text[at:]


def behind_generics(text, begin):
    """The place behind `<..>`, if it stands at `begin`, and else `begin`."""
    return end_of(text, begin) if text[begin] == '<' else begin


def last_name(text):
    """The last name of a path, without its arguments."""
    found = re.match(r"(?:&\S* )?(?:mut )?(?:dyn )?((?:\w+::)*)(\w+)", text)
    return found.group(2) if found else None


def blocks(code):
    """Each block of methods: where it begins and ends, its type and its trait."""
    for block in BLOCK.finditer(code):
        opening = code.index('{', block.end())
        head = code[block.end():opening]
        if block.group(1) == 'trait':
            yield block.start(), end_of(code, opening), None, last_name(head.strip())
            continue
        head = head[behind_generics(head, 0):]
        trait, is_for, of = head.partition(' for ')
        names = (last_name(of.strip()), last_name(trait.strip())) if is_for else (last_name(head.strip()), None)
        yield block.start(), end_of(code, opening), *names


def functions_in(crate, file, code):
    """The functions of a file's code."""
    parts = list(blocks(code))
    for found in FUNCTION.finditer(code):
        owner = next(((of, trait) for begin, end, of, trait in parts if begin < found.start() < end), (None, None))
        arguments = behind_generics(code, found.end())
        behind = end_of(code, arguments)
        end = body_after(code, behind)
        body = code[end:end_of(code, end)] if code[end] == '{' else ''
        has_self = bool(re.match(r"\(\s*(?:&(?:'\w+ )?)?(?:mut )?self\b", code[arguments:behind]))
        yield Function(crate, file, *owner, found.group(1), has_self, body, code.count('\n', 0, found.start()) + 1)


def imports(code):
    """The names that a file imports, each with the crate: `crate` for its own."""
    found = {}

    def take(first, text):
        text = text.strip()
        head, is_list, rest = text.partition('{')
        if is_list:
            part, depth = '', 0
            for sign in rest[:rest.rindex('}')] + ',':
                depth += (sign == '{') - (sign == '}')
                if sign == ',' and not depth:
                    if part.strip():
                        take(first or head.split('::')[0], part)
                    part = ''
                else:
                    part += sign
            return
        path, _, alias = text.partition(' as ')
        names = path.split('::')
        found[alias or names[-1]] = first or names[0]

    for use in re.findall(r'^(?:    )?(?:pub(?:\([^)]*\))? )?use ([^;]+);', code, re.M):
        take('', use)
    return found


class Sources:
    """All functions of the crates by name, and of each file its code and what it imports."""

    def __init__(self, top=TOP):
        self.functions, self.code, self.imports = collections.defaultdict(list), {}, {}
        for crate in listed():
            folder = f'{top}/crates/{crate}/src'
            for at, _, names in sorted(os.walk(folder)):
                for name in sorted(name for name in names if name.endswith('.rt')):
                    self.read(crate, f'{at}/{name}', os.path.relpath(f'{at}/{name}', f'{top}/crates'))

    def read(self, crate, path, file):
        """Reads a file."""
        with open(path, encoding='utf-8') as source:
            code = without_clauses(SKIPPED.sub(lambda found: blank(found.group()), source.read()))
        self.code[file], self.imports[file] = code, imports(code)
        for function in functions_in(crate, file, code):
            self.functions[function.name].append(function)

    def named(self, name):
        """The functions whose path has these parts in this order and ends with the last one."""
        wanted = name.split('::')
        return [function for function in self.functions[wanted[-1]] if is_named(path_of(function), wanted)]


def is_named(path, wanted):
    """Whether a path has these parts in this order."""
    parts = iter(path)
    return all(part in parts for part in wanted)
