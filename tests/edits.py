"""Edits that the prover must refuse, and the functions that they change.

An edit is a file of lines `file: src/..`, `old: TEXT` and `new: TEXT`: in the file, the old text, which
stands there once, gives way to the new one. A line `fn: NAME` or `fn: TYPE::NAME` after that of the file
means the text of this function, in which the old text then stands once. There may be several pairs of old
and new.
"""

import os
import re

from imports import imports_of
from sources import functions_of, read_text, write_text

FOLDER, ENDING = 'refused', '.edit'
ROOTS = ('lib', 'main')
# The first line of a declaration of a proof file, or of what it imports, and its name.
BEGUN = re.compile(r'(?:(?:pub|abbrev|unfoldable|record|data) )*([^\W\d][^\s({]*|\+\S+)(?=\s)')


def edited_texts(lines, folder):
    """The texts that an edit makes, by their path in the crate. A ValueError says why it can't be applied."""
    texts, said, old = {}, {}, None
    for line in lines:
        word, _, rest = line.partition(':')
        rest = rest[1:] if rest.startswith(' ') else rest
        if word == 'file':
            said = {'file': rest.strip()}
        elif word == 'fn' and 'file' in said:
            said['fn'] = rest.strip()
        elif word == 'old' and old is None and rest and 'file' in said:
            old = rest
        elif word == 'new' and old is not None:
            path = said['file']
            text = texts[path] if path in texts else text_to_edit(folder, path)
            texts[path], old = replaced(text, said.get('fn'), old, rest), None
        else:
            raise ValueError('a line is none of `file:`, `fn:`, `old:` and then `new:`, in this order: %r' % line)
    if not texts or old is not None:
        raise ValueError('it has no pair of lines `old:` and `new:`, or half of one')
    return texts


def replaced(text, name, old, new):
    """The text with one piece replaced, which stands once in it, or in the function of this name."""
    start, end = 0, len(text)
    if name is not None:
        named = [it for it in functions_of(text) if name in (it.name, '%s::%s' % (it.owner, it.name))]
        if len(named) != 1:
            raise ValueError('there are %d functions %s, and not one' % (len(named), name))
        start, end = named[0].start, named[0].end
    if text.count(old, start, end) != 1:
        raise ValueError('%r is there %d times, and not once' % (old, text.count(old, start, end)))
    return text[:start] + text[start:end].replace(old, new) + text[end:]


def text_to_edit(folder, path):
    """The text of a file that an edit names."""
    is_inside = os.path.normpath(path) == path and path.split('/')[0] in ('src', 'specs', 'proofs')
    if not is_inside or not os.path.isfile(os.path.join(folder, path)):
        raise ValueError('there is no file %s in src, specs or proofs' % path)
    return read_text(folder, path)


class Edit:
    """An edit: why it can't be applied, or the texts that it makes. Where it is in the body of one function,
    that function and its edited text."""

    def __init__(self, crate, path):
        self.crate, self.label = crate, '%s/%s' % (crate.name, os.path.basename(path))
        self.text, self.texts, self.wrong, self.path, self.is_refused = '', {}, None, None, None
        # The function that it changes, with the edit; and how it can be tried beside others.
        self.changed, self.edited, self.is_copied, self.is_of_impl = None, None, False, False
        try:
            if not path.endswith(ENDING):
                raise ValueError('its name does not end in %s' % ENDING)
            self.text = read_text(path)
            self.texts = edited_texts(self.text.splitlines(), crate.folder)
        except (ValueError, OSError) as error:
            self.wrong = str(error)
        if len(self.texts) == 1:
            self.path, = self.texts
            self.find_function(read_text(crate.folder, self.path), self.texts[self.path])

    def find_function(self, text, edited):
        """Finds the one function in whose body the texts differ. A method of a trait can't be copied, nor a function that
        calls itself."""
        if not self.path.startswith('src/'):
            return
        first = len(os.path.commonprefix([text, edited]))
        same = len(os.path.commonprefix([text[first:][::-1], edited[first:][::-1]]))
        inside = [it for it in functions_of(text) if it.body < first and len(text) - same < it.end]
        if len(inside) != 1:
            return
        self.changed, = inside
        self.edited = edited[self.changed.start:self.changed.end + len(edited) - len(text)]
        self.is_of_impl = self.changed.impl_name is not None
        is_alone = self.changed.is_of_trait or self.calls_itself(self.crate.folder)
        self.is_copied = not is_alone and len(self.proof_folders(self.crate.folder)) < 2

    def full_name(self):
        """The prover's name of the changed method of a trait."""
        return '::'.join([self.crate.name, *self.module(), self.changed.impl_name, self.changed.name])

    def name_to_prove(self):
        """The changed function's name for a check of it alone: what it stands in belongs to that, since its own name may
        also be a module's."""
        if self.is_of_impl:
            return self.full_name()
        return '::'.join([self.changed.owner or [self.crate.name, *self.module()][-1], self.changed.name])

    def module(self):
        """The path of the module that the edited file is."""
        return [it for it in self.path[:-len('.rt')].split('/')[1:] if it not in ROOTS]

    def calls_itself(self, folder):
        """Whether the function's proofs are those of functions that call each other, of which it is the first: a copy
        would call the function, and not itself, so that these proofs aren't its own."""
        return any('+' + self.changed.name in folders for _, folders, _ in os.walk(os.path.join(folder, 'proofs')))

    def proof_folders(self, folder):
        """The folders of the proof files of the function: a method's stands at the path of its type."""
        found = []
        for at, folders, _ in os.walk(os.path.join(folder, 'proofs')):
            path = os.path.relpath(at, os.path.join(folder, 'proofs')).split(os.sep)
            is_owner = path[-1].partition('+')[0] == self.changed.owner
            if self.changed.name in folders and (is_owner if self.changed.owner else path == (self.module() or ['.'])):
                found.append(os.path.join(at, self.changed.name))
        return found


def edits_of(crate):
    """The edits of a crate, by their names."""
    folder = os.path.join(crate.folder, FOLDER)
    return [Edit(crate, os.path.join(folder, it)) for it in sorted(os.listdir(folder))] if os.path.isdir(folder) else []


def pieces_of(text):
    """The declarations and imports of a proof file: the name of each, which is `use` for an import, its first line's number
    and its text. What stands before them has no name."""
    pieces = [[None, 1, '']]
    for number, line in enumerate(text.splitlines(keepends=True), 1):
        begun = BEGUN.match(line)
        if begun:
            pieces.append([begun.group(1), number, ''])
        pieces[-1][2] += line
    return pieces


def without_answers(text, errors):
    """The text of a proof file without what names something absent: errors are pairs of a line and what is told there. A
    declaration goes with its type and all its equations, and an import loses the names that are told. None where no
    declaration is left."""
    pieces, absent = pieces_of(text), set()
    for line, told in errors:
        piece = [it for it in pieces if it[1] <= line][-1]
        if piece[0] == 'use':
            piece[2] = without_names(piece[2], re.findall(r'`([^`]+)`', told))
        else:
            absent.add(piece[0])
    left = [it for it in pieces if it[0] not in absent - {None}]
    return ''.join(it[2] for it in left) if any(it[0] not in (None, 'use') for it in left) else None


def without_names(use, absent):
    """An import without names, or nothing of it where it has none of them, or no other."""
    absent, all_of_it = {it.rpartition('.')[2] for it in absent}, imports_of(use)
    left = [it for it in all_of_it if it.parts[-1] not in absent]
    return ''.join(it.line() for it in left) if len(left) < len(all_of_it) else ''


def write_texts(texts):
    """What writes an edit's texts into a copy of the crate. A file with None for its text is removed."""
    def change(folder):
        for path, text in texts.items():
            if text is None:
                os.remove(os.path.join(folder, path))
            else:
                write_text(text, folder, path)
    return change
