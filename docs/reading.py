#!/usr/bin/env python3
"""Writes docs/READING.md: the definitions that the contract of `imapd` reaches, in the order in which a reader meets them.

With --check it writes nothing, and ends with 1 where the page isn't what it would write."""
import pathlib
import re
import sys

TOP = pathlib.Path(__file__).resolve().parent.parent
CRATES = TOP / 'crates'
CALL = CRATES / 'imapd_core' / 'src' / 'server.rt'
NAME = re.compile(r"[^\W\d][\w'-]*", re.UNICODE)
BEGIN = re.compile(r'^(?:abbrev |unfoldable )?(?:pub )?(?:record |data |abbrev )?([^\s(:{]+)(?=[\s(:{])')


class Source:
    """A file of definitions: what it imports, and what it defines."""

    def __init__(self, path):
        self.path = path
        self.about = ''
        self.imports = {}
        self.definitions = {}
        self.read(path.read_text().split('\n'))

    def read(self, lines):
        comment, name = [], None
        for number, line in enumerate(lines, 1):
            if line.startswith('use '):
                read_import(line, self.imports)
                self.about, comment = self.about or ' '.join(comment), []
            elif line.startswith('-- ') and not line.startswith('-- ----'):
                comment.append(line[3:])
                name = None
            elif not line or line[0] in ' -':
                if line and name:
                    self.definitions[name][2].append(line)
                if not line:
                    comment, name = comment if name is None else [], None
            else:
                name = self.begin(number, line, comment, name)
                comment = []

    def begin(self, number, line, comment, before):
        if re.match(r'(infix|mod |pub mod |module )', line):
            return None
        found = BEGIN.match(line)
        if not found:
            return before
        name = found.group(1)
        if name not in self.definitions:
            self.definitions[name] = (number, ' '.join(comment), [])
        self.definitions[name][2].append(line)
        return name


def read_import(line, into):
    group = re.match(r'use (Rattle\.[\w.]+)\.\{([^}]*)\}', line)
    if not group:
        return
    for part in group.group(2).split(','):
        words = part.split(' as ')
        into[words[-1].strip()] = (group.group(1), words[0].strip())


def module_path(module):
    """The file of a module of definitions, where it is one of this repository."""
    parts = module.split('.')
    if len(parts) < 4 or parts[2] != 'specs' or parts[3] == 'declared':
        return None
    path = CRATES / parts[1] / 'specs' / ('/'.join(parts[3:]) + '.antt')
    return path if path.exists() else None


def contract():
    """What the clauses of the call name."""
    text = CALL.read_text()
    imports = {}
    for line in text.split('\n'):
        if line.startswith('ghost use '):
            read_import(line[len('ghost '):].rstrip(';'), imports)
    call = text[text.index('pub fn imapd<'):]
    return imports, call[:call.index('\n{\n')]


def reached():
    sources = {}
    seen = set()
    order = []
    imports, text = contract()
    waiting = [(imports, None, text)]
    while waiting:
        imports, source, text = waiting.pop(0)
        for name in NAME.findall(text):
            target = imports.get(name)
            path = module_path(target[0]) if target else None
            if path:
                own = target[1]
            elif source and name in source.definitions:
                path, own = source.path, name
            else:
                continue
            if (path, own) in seen:
                continue
            if path not in sources:
                sources[path] = Source(path)
            there = sources[path]
            if own not in there.definitions:
                continue
            seen.add((path, own))
            order.append((there, own, there.definitions[own]))
            waiting.append((there.imports, there, '\n'.join(there.definitions[own][2])))
    return order


def page():
    order = reached()
    lines = [
        '# What the main promise says', '',
        'The contract of `imapd_core::imapd` (`crates/imapd_core/src/server.rt`) reaches these '
        f'{len(order)} definitions of this repository, here in the order in which a reader meets them: those that a clause names first, '
        'and then what these name. A stranger who reads the contract and them knows what is promised; all else is how. '
        'Lists, numbers and options are those of the standard library. What stands in italics is what the whole file is about.', '',
        'The page is written by `docs/reading.py`.', '',
        '| definition | where | what it is |', '|---|---|---|']
    for source, name, (number, comment, _) in order:
        where = source.path.relative_to(CRATES)
        told = comment or f'*{source.about}*'
        lines.append(f'| `{name}` | [{where}:{number}](../crates/{where}#L{number}) | {told.replace("|", chr(92) + "|")} |')
    return '\n'.join(lines) + '\n'


def main():
    target = TOP / 'docs' / 'READING.md'
    text = page()
    if '--check' in sys.argv:
        return 0 if target.exists() and target.read_text() == text else 1
    target.write_text(text)
    return 0


if __name__ == '__main__':
    sys.exit(main())
