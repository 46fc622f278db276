"""Rows of a suite: printed as TAP, kept for JUnit, counted by clause."""
import fnmatch
import sys
import xml.etree.ElementTree as xml

from .clauses import CLAUSES

PASSED, FAILED, SKIPPED = 'passed', 'failed', 'skipped'


def shown(value):
    """What was seen, on one line."""
    text = repr(value)[1:-1] if isinstance(value, str) else repr(value)
    return text if len(text) < 300 else f'{text[:200]} .. {text[-60:]} ({len(text)} characters)'


class Report:
    """Prints a line for each row whose name matches a pattern."""

    def __init__(self, suite, only='*', output=None):
        self.suite, self.only, self.output, self.rows = suite, only, output or sys.stdout, []
        self.tell('TAP version 14')

    def tell(self, line):
        print(line, file=self.output, flush=True)

    def wants(self, name):
        """Whether rows of this name are reported."""
        return fnmatch.fnmatchcase(name, self.only)

    def row(self, name, clause, what, holds, *seen):
        """A row: its name, the word of its clause, what is so, whether it is, and what was seen."""
        self.add(name, clause, what, PASSED if holds else FAILED, seen)
        return holds

    def skip(self, name, clause, what, why):
        """A row that nothing shows, and why."""
        self.add(name, clause, what, SKIPPED, (why,))

    def add(self, name, word, what, ending, seen):
        if not self.wants(name):
            return
        clause = CLAUSES[word]
        self.rows.append((name, clause, what, ending, seen))
        note = f' # SKIP {shown(seen[0])}' if ending == SKIPPED else ''
        note = ' # TODO a SHOULD' if ending == FAILED and clause.level == 'SHOULD' else note
        self.tell(f'{"not ok" if ending == FAILED else "ok"} {len(self.rows)} - {name}: {what}{note}')
        if ending == FAILED:
            self.tell(f'  ---\n  level: {clause.level}\n  clause: {clause}')
            for part in seen:
                self.tell(f'  seen: {shown(part)}')
            self.tell('  ...')

    def count(self, level, ending):
        """How many rows of this level ended so."""
        return sum(clause.level == level and got == ending for _, clause, _, got, _ in self.rows)

    def failed(self, level='MUST'):
        """The names of the rows of this level that failed."""
        return [name for name, clause, _, ending, _ in self.rows if clause.level == level and ending == FAILED]

    def summary(self):
        """A line for each clause with its rows, and one for each level."""
        for clause in CLAUSES.values():
            endings = [ending for _, of, _, ending, _ in self.rows if of == clause]
            counts = [f'{endings.count(ending)} {ending}' for ending in (PASSED, FAILED,
                                                                         SKIPPED) if ending in endings]
            if endings:
                self.tell(f'# {clause.level:<6} {clause}: {", ".join(counts)}')
        for level in ('MUST', 'SHOULD'):
            counts = ', '.join(f'{self.count(level, ending)} {ending}' for ending in (PASSED, FAILED, SKIPPED))
            self.tell(f'# {level}: {counts}')

    def junit(self, path):
        """Writes the rows as JUnit's XML."""
        suite = xml.Element('testsuite', name=self.suite, tests=str(len(self.rows)), failures=str(len(self.failed())),
                            skipped=str(self.count('MUST', SKIPPED) + self.count('SHOULD', SKIPPED)))
        for name, clause, what, ending, seen in self.rows:
            where = f'{clause.specification}, {clause.section}'
            case = xml.SubElement(suite, 'testcase', classname=where, name=f'{name}: {what} ({clause.level})')
            if ending == SKIPPED:
                xml.SubElement(case, 'skipped', message=shown(seen[0]))
            elif ending == FAILED and clause.level == 'MUST':
                xml.SubElement(case, 'failure', message=clause.says).text = '\n'.join(map(shown, seen))
            elif ending == FAILED:
                xml.SubElement(case, 'system-out').text = f'SHOULD failed: {clause.says}'
        xml.ElementTree(suite).write(path, encoding='utf-8', xml_declaration=True)

    def end(self, junit=None):
        """Ends the output: the status of the suite, 1 if a MUST failed, or if there was no row."""
        self.tell(f'1..{len(self.rows)}')
        self.summary()
        if junit:
            self.junit(junit)
        return 1 if self.failed() or not self.rows else 0
