"""The definitions of the crates' specs/, and which of them a text cites."""

import os
import re

from imports import imports_of
from sources import HEAD, blank, blocks_of, contract_end, past_bracket, read_text, words_of

DEFINITION = re.compile(r'^ *(?:pub )?(?:abbrev|unfoldable|opaque|data|record) (?:pub )?(?!use )([^\s:({]+)')
CONSTRUCTOR = re.compile(r'^ +([^\s:({]+) :')
# The module of specs/ that the others stand below, and by which they are had without a module's name.
ROOT = 'Lib'
# A word of a term, or several with dots between them. A dot in front makes it a field's.
WORDS = re.compile(r'(?<![\w.])[^\W\d][\w\']*(?:\.[^\W\d][\w\']*)*')
GHOST = re.compile(r'\bghost \w+\s*[=:]\s*')
# What a `do` block stands for.
STEPS = ('◌>>=◌', '◌>>◌')


def files_below(folder, ending):
    """The files of a folder with this ending, by their path in it."""
    return sorted(os.path.relpath(os.path.join(at, file), folder)
                  for at, _, files in os.walk(folder) for file in files if file.endswith(ending))


class Definition:
    """A definition of a module of specs/: its name, the comment above it, its text with that of its cases, and the
    comments of its parts."""

    def __init__(self, crate, module, name, comment):
        self.key = crate, module, name
        self.crate, self.module, self.name, self.comment = crate, module, name, comment
        self.text, self.constructors, self.parts = '', [], []
        self.is_data = False

    def label(self):
        return '.'.join(self.key)

    def add(self, line, comment=''):
        self.text += line + '\n'
        self.parts += [comment] if comment else []
        constructor = CONSTRUCTOR.match(line)
        if self.is_data and constructor:
            self.constructors.append(constructor.group(1))


class Scope:
    """What the names of a file stand for: (crate, module, name), of `use` items with or without `ghost`."""

    def __init__(self, text):
        self.names, self.aliases, self.globs = {}, {}, []
        for it in imports_of(text):
            if it.name == '*':
                self.globs.append('.'.join(it.parts[:-1]))
            elif it.parts[0] == 'Rattle' and it.parts[2:3] == ['specs']:
                if it.is_item:
                    self.names.setdefault(it.name, []).append((it.parts[1], '.'.join(it.parts[3:-1]) or ROOT, it.parts[-1]))
                else:
                    self.aliases[it.name] = it.parts[1], '.'.join(it.parts[3:]) or ROOT

    def cited(self, text):
        """The names that a text cites, of those that the file has."""
        found = []
        for word in WORDS.findall(text):
            first, _, rest = word.partition('.')
            if rest and first in self.aliases:
                found.append((*self.aliases[first], rest.partition('.')[0]))
            found += self.names.get(first, [])
        for name, keys in self.names.items():
            parts = [it for it in name.split('◌') if it]
            is_do = name in STEPS and re.search(r'\bdo\b', text)
            if '◌' in name and (is_do or all(it in text.split() for it in parts)):
                found += keys
        return found


class Specs:
    """All definitions of some crates."""

    def __init__(self, crates):
        self.definitions, self.scopes, self.constructors = {}, {}, {}
        for crate in crates:
            folder = os.path.join(crate.folder, 'specs')
            for file in files_below(folder, '.antt'):
                self.read(crate.name, file[:-len('.antt')].replace(os.sep, '.'), read_text(folder, file))

    def read(self, crate, module, text):
        """Reads a module. Its own names come to its scope."""
        scope = self.scopes[crate, module] = Scope(text)
        for definition in definitions_in(crate, module, text):
            self.definitions[definition.key] = definition
            scope.names.setdefault(definition.name, []).insert(0, definition.key)
            for constructor in definition.constructors:
                self.constructors[crate, module, constructor] = definition
                scope.names.setdefault(constructor, []).append(definition.key)

    def find(self, key, past=frozenset()):
        """The definition of this name: itself, one that has it as a constructor, or one that its module passes on."""
        if key in self.definitions or key in self.constructors:
            return self.definitions.get(key) or self.constructors[key]
        scope = self.scopes.get(key[:2])
        if not scope or key in past:
            return None
        others = scope.names.get(key[2], []) + [(key[0], it, key[2]) for it in scope.globs]
        return next(filter(None, (self.find(it, {*past, key}) for it in others)), None)

    def cited_by(self, scope, text):
        return {found for found in map(self.find, scope.cited(text)) if found}

    def closure(self, first):
        """These definitions, and all that they cite in turn."""
        found, left = set(), set(first)
        while left:
            definition = left.pop()
            found.add(definition)
            left |= self.cited_by(self.scopes[definition.key[:2]], definition.text) - found
        return found


def definitions_in(crate, module, text):
    """The definitions of a module, in order. A comment above a `module` line is that of the first one in it."""
    found, comment, of_module, present = [], [], [], None
    for line in text.split('\n'):
        head = DEFINITION.match(line)
        if line.strip().startswith('--'):
            comment.append(line.strip()[2:].strip())
            continue
        if head:
            present = Definition(crate, module, head.group(1), ' '.join(comment or of_module))
            present.is_data = bool(re.match(r' *(pub )?data ', line))
            found.append(present)
            of_module = []
        elif not line.startswith(' ') and re.match(r'(pub )?(use|mod|module|infix)', line):
            present = None
            of_module = comment if line.startswith('module') else []
        if present:
            present.add(line, ' '.join(comment) if line.strip() and not head else '')
        comment = []
    return found


# What is public of a crate

def exported(crate):
    """The names that a library shows to others; None where all that is `pub` is public, as in a program."""
    root = os.path.join(crate.folder, 'src', 'lib.rt')
    if not os.path.exists(root):
        return None
    text = blank(read_text(root))
    names = {*re.findall(r'\bpub (?:fn|struct|enum|trait|type|const) (\w+)', text)}
    for items in re.findall(r'\bpub use ([^;]*);', text):
        names |= {*re.findall(r'\w+', items)}
    for module in re.findall(r'\bpub mod (\w+)', text):
        names |= public_items(crate, module)
    return names


def public_items(crate, module):
    """The public items of a module's files."""
    source = os.path.join(crate.folder, 'src')
    texts = [blank(read_text(source, it)) for it in files_below(source, '.rt')
             if re.split(r'[/.]', it)[0] == module]
    return {name for text in texts for name in re.findall(r'\bpub (?:fn|struct|enum|trait|type) (\w+)', text)}


def type_of(block):
    """The type that an impl block is of, or the trait that a trait block is."""
    words = words_of(block.replace('pub ', '', 1))
    return words[words.index('for') + 1] if 'for' in words else words[1]


def clauses(text, start, end):
    """The clauses of the contract that stands between two places."""
    found, at = [], start
    while at < end:
        if text[at] in '{([':
            past = past_bracket(text, at)
            found += [text[at:past]] if text[at] == '{' else []
            at = past
        else:
            at += 1
    return found


def public_clauses(text, names):
    """The clauses of a file's public functions, and the ghost items of its public types and traits."""
    text, found = blank(text), []
    blocks = blocks_of(text)
    is_public = lambda name: names is None or name in names
    for start, end, block in blocks:
        if is_public(type_of(block)):
            for ghost in GHOST.finditer(text, start, end):
                found.append(text[ghost.end():past_bracket(text, ghost.end())])
    for head in HEAD.finditer(text):
        block = next((it for start, end, it in blocks if start <= head.start() < end), None)
        is_of_trait = block and (' for ' in block or 'trait ' in block)
        is_pub = is_of_trait or re.match(r'\s*pub (?!\()', head.group())
        if is_pub and is_public(type_of(block) if block else head.group(1)):
            found += clauses(text, head.end(), contract_end(text, head.end()))
    return found


def public_definitions(crates):
    """The definitions that the public clauses of these crates cite, with all that they cite in turn."""
    specs, cited = Specs(crates), set()
    for crate in crates:
        names, source = exported(crate), os.path.join(crate.folder, 'src')
        for file in files_below(source, '.rt'):
            text = read_text(source, file)
            scope = Scope(text)
            for clause in public_clauses(text, names):
                cited |= specs.cited_by(scope, clause)
    return specs, specs.closure(cited)
