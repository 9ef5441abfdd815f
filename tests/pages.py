"""The pages that are written from the crates: DEFINITIONS.md and PROMISES.md, from the comments of specs/ and of the
sources, REFUSALS.md, from contracts, and SHARED.md, the list of shared lemmas.

None of them is kept in the repository: tests/write_pages writes them into build/pages.
"""

import os
import re

from imports import imports_of
from modules import files_of
from refusals import HEAD_OF_REFUSALS, refusals_text
from sources import HEAD, blank, blocks_of, contract_end, past_bracket, read_text
from specs import Scope, exported, files_below, public_definitions, type_of

DEFINITIONS, PROMISES, REFUSALS, SHARED = 'DEFINITIONS.md', 'PROMISES.md', 'REFUSALS.md', 'SHARED.md'
LEMMAS = re.compile(r'Rattle\.(c104\w*)\.proofs\.(\w+(?:\.[a-z]\w*)*)\.')
CLAUSE = re.compile(r'\b(requires|ensures)\b\s*(\w*)\s*\{')
GHOST = re.compile(r'\bghost (\w+)\s*[=:]\s*(?=[{(\[])')
TYPE = re.compile(r'^pub (?:struct|enum|trait|type|const(?! fn)) (\w+)', re.MULTILINE)
# A full stop that ends a sentence, so not one of `0, 1, .. 31`.
STOP = re.compile(r'(?<!\.)\.(?=\s+[^a-z])')
COLUMNS = re.compile(r'\S {2,}\S')
# A line that may stand between a comment and what it is about: of an attribute, or of another comment.
BETWEEN = re.compile(r'\s*//(?!/)|(?!\s*//).*[\],(]\s*\Z')
LINK = re.compile(r'\[(`[^`\]]+`)\](?!\()')


# DEFINITIONS.md

def head_of(text, sign):
    """The comment at the head of a file, of lines that begin with a sign, without the table of names below it."""
    lines = []
    for line in text.split('\n'):
        if not line.startswith(sign) or COLUMNS.search(line):
            break
        lines.append(line[len(sign):].strip())
    return lines


def modules_of(specs, wanted):
    """The wanted definitions by crate and module, in the order of the crates and files: pairs of what is said and
    names. One of which no comment says anything stands beside the one above it."""
    found = {}
    for definition in specs.definitions.values():
        entries = found.setdefault((definition.crate, definition.module), [])
        if definition.comment or definition.parts or not entries:
            entries.append((said_of(definition), []))
        if definition in wanted:
            entries[-1][1].append(definition.name)
    kept = {place: [it for it in entries if it[1]] for place, entries in found.items()}
    return {place: entries for place, entries in kept.items() if entries}


def said_of(definition):
    """The comment of a definition, and in brackets those of its parts."""
    parts = '; '.join(it.rstrip('.') for it in definition.parts)
    return ' '.join(filter(None, [definition.comment, '(%s)' % parts if parts else '']))


def definitions_text(crates, specs, wanted):
    """The definitions that public contracts rest on, by crate and file of specs/, each with its comment."""
    lines, folders, crate = [], {it.name: it.folder for it in crates}, None
    for (name, module), entries in modules_of(specs, wanted).items():
        if name != crate:
            crate = name
            lines += ['', '## %s' % crate]
        file = 'specs/%s.antt' % module.replace('.', '/')
        lines += ['', '### `%s`' % file, '', ' '.join(head_of(read_text(folders[crate], file), '--')), '']
        lines += ['- %s%s' % (quoted(names), ': ' + said if said else '') for said, names in entries]
    return '\n'.join(lines) + '\n'


def quoted(names):
    return ', '.join('`%s`' % it for it in names)


# PROMISES.md

def comment_above(text, at):
    """The `///` comment that ends above a line, over whose attributes it may stand."""
    lines = text[:at].split('\n')[:-1]
    while lines and BETWEEN.match(lines[-1]):
        lines.pop()
    found = []
    while lines and lines[-1].lstrip().startswith('///'):
        found.insert(0, lines.pop().strip()[3:].strip())
    return found


def first_sentence(lines):
    """The first sentence of a comment, without the links of rustdoc."""
    paragraph = ' '.join(lines[:lines.index('') if '' in lines else None])
    stop = STOP.search(paragraph)
    return LINK.sub(r'\1', paragraph[:stop.end() if stop else None])


class Item:
    """A public function or type: its name, its sentence, and its clauses, as (word, name, cited definitions)."""

    def __init__(self, name, sentence, clauses=()):
        self.name, self.sentence, self.clauses, self.methods = name, sentence, [*clauses], []

    def lines(self, indent=''):
        said = [it for it in (self.sentence, *map(self.told, ('ghost', 'ensures', 'requires'))) if it]
        shown = '%s- `%s`%s' % (indent, self.name, ': ' + ' '.join(said) if said else '')
        return [shown, *(line for it in self.methods for line in it.lines('  '))]

    def has_contract(self):
        return any(it[2] for it in self.clauses) or any(it.has_contract() for it in self.methods)

    def told(self, word):
        """What the clauses of a kind cite."""
        parts = []
        for kind, name, cited in self.clauses:
            if kind == word and (cited or name):
                parts.append(' '.join(filter(None, ['*%s*' % name if name else '', quoted(cited)])))
        return '%s %s.' % (word.capitalize(), '; '.join(parts)) if parts else ''


class Source:
    """A source file: its text, and what its names stand for; and how each definition is named."""

    def __init__(self, specs, names, text):
        self.specs, self.names, self.text, self.code, self.scope = specs, names, text, blank(text), Scope(text)
        self.blocks = blocks_of(self.code)

    def cited(self, start, end):
        """The names of the definitions that a part of the file cites, in the order of specs/."""
        cited = self.specs.cited_by(self.scope, self.code[start:end])
        return [name for it, name in self.names.items() if it in cited]

    def clauses(self, start, end):
        found = []
        for it in CLAUSE.finditer(self.code, start, end):
            found.append((it.group(1), it.group(2), self.cited(it.end() - 1, past_bracket(self.code, it.end() - 1))))
        return found

    def ghosts(self, start, end):
        found = [('ghost', it.group(1), self.cited(it.end(), past_bracket(self.code, it.end())))
                 for it in GHOST.finditer(self.code, start, end)]
        return [it for it in found if it[2]]


def add_file(items, source, names):
    """Adds the public items of a file to a crate's, by name: types and constants, what is ghost of them, functions."""
    is_public = lambda name: names is None or name in names
    for it in TYPE.finditer(source.code):
        if is_public(it.group(1)):
            item = items.setdefault(it.group(1), Item(it.group(1), ''))
            item.sentence = first_sentence(comment_above(source.text, it.start()))
    for start, end, block in source.blocks:
        if is_public(type_of(block)):
            item = items.setdefault(type_of(block), Item(type_of(block), ''))
            item.clauses += [it for it in source.ghosts(start, end) if it not in item.clauses]
    for head in HEAD.finditer(source.code):
        add_function(items, source, head, is_public)


def add_function(items, source, head, is_public):
    block = next((it for start, end, it in source.blocks if start <= head.start() < end), None)
    of_trait = block and (' for ' in block or 'trait ' in block)
    if not (of_trait or re.match(r'\s*pub (?!\()', head.group())):
        return
    if not is_public(type_of(block) if block else head.group(1)):
        return
    clauses = source.clauses(head.end(), contract_end(source.code, head.end()))
    line = source.text.rfind('\n', 0, head.start(1)) + 1
    item = Item(head.group(1), first_sentence(comment_above(source.text, line)), clauses)
    if block is None:
        items[item.name] = item
    elif item.sentence or any(name or cited for _, name, cited in clauses):
        items[type_of(block)].methods.append(item)


def names_in(specs, wanted):
    """How each definition is named: behind its module's name where another has the same."""
    all_names = [it.name for it in wanted]
    return {it: it.name if all_names.count(it.name) == 1 else '%s.%s' % (it.module, it.name)
            for it in specs.definitions.values() if it in wanted}


def promises_text(crates, specs, wanted):
    """What is public of each crate, in the order of its files, with what its clauses cite."""
    lines, said = [], names_in(specs, wanted)
    for crate in crates:
        items, source, names = {}, os.path.join(crate.folder, 'src'), exported(crate)
        files = files_of(source)
        for file in files:
            add_file(items, Source(specs, said, read_text(source, file)), names)
        # Of a program nobody calls anything: its contracts are shown, and nothing else.
        shown = [line for it in items.values() if names is not None or it.has_contract() for line in it.lines()]
        if shown:
            head = first_sentence(head_of(read_text(source, files[0]), '//!'))
            lines += ['', '## %s' % crate.name, '', head, '', *shown]
    return '\n'.join(lines) + '\n'


# SHARED.md

def lemmas_used(crates):
    """Which crates use a module of another crate's proofs/, by its crate and name."""
    found = {}
    for crate in crates:
        for part in ('src', 'specs', 'proofs'):
            folder = os.path.join(crate.folder, part)
            for file in files_below(folder, '.rt') + files_below(folder, '.antt'):
                named = [LEMMAS.match('.'.join(it.parts) + '.' * (not it.is_item)) for it in imports_of(read_text(folder, file))]
                for place in (it.groups() for it in named if it):
                    if place[0] != crate.name and crate.name not in found.setdefault(place, []):
                        found[place].append(crate.name)
    return found


def lemmas_text(crates):
    """The table of the modules of proofs/ that other crates use."""
    used = lemmas_used(crates)
    lines = ['', '| Crate | Module of its `proofs/` | Used by |', '|---|---|---|']
    for crate in crates:
        for name, users in sorted((it[1], users) for it, users in used.items() if it[0] == crate.name):
            lines.append('| `%s` | `%s` | %s |' % (crate.name, name, quoted(users)))
    return '\n'.join(lines) + '\n'


# The pages

HEADS = {
    DEFINITIONS: """# All definitions

Each definition that a public contract rests on, by crate, lowest first, and by file of the crate's `specs/`, with the
comment that stands above it there, and in brackets those of its parts. One without a comment stands beside the one
above it, and a comment such as "the same of all" goes on from the line above. Definitions that private contracts alone
cite are not here. `docs/proof/WORDS.md` has by hand those that a reader meets first.
""",
    PROMISES: """# All contracts

Each public type, function and constant, by crate: the first sentence of its comment, and its contract by clauses, each
with its name, if it has one, and the definitions of this repository that it cites. A clause that cites none speaks of
plain values alone. What no contract says stands in `docs/proof/WORDS.md`.

- **Ensures** stands before what the call promises, and **Requires** before what its caller has to see to.
- **Ghost** stands before what a type or a trait is in contracts: its *Value*, that plain value as which
  contracts speak of it; its *invariant*, what every value of it keeps; and of a trait what each type that
  implements it has to say and keep.
- A call `name`, `as_slice`, `clone` or the like without a clause of this repository's definitions answers
  what its sentence says, as plain values.
- A definition behind a point has the name of its file before it, since another file has one of that name.
""",
    REFUSALS: HEAD_OF_REFUSALS,
    SHARED: """# Lemmas that other crates use

Changing a lemma in one of these modules of `proofs/` proves the crates beside it again. All other modules of
`proofs/` are a crate's own.
""",
}


def written_pages(crates):
    """What each page is, by its name; with the definitions that public contracts rest on."""
    specs, wanted = public_definitions(crates)
    texts = {DEFINITIONS: definitions_text(crates, specs, wanted), PROMISES: promises_text(crates, specs, wanted),
             REFUSALS: refusals_text(crates, specs), SHARED: lemmas_text(crates)}
    return {page: HEADS[page] + text for page, text in texts.items()}, specs, wanted
