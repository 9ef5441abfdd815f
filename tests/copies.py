"""Several edits of functions in one copy of a crate, so that one check tells of each.

In such a copy a function stands a second time, under a name of its own, with an edit in its body; or methods of
traits, which can't stand twice, are edited in place. What the edited functions call may be taken as proved there.
"""

import os
import re
import shutil

from edits import without_answers, write_texts
from proved_calls import take_as_proved
from sources import read_text, write_text
from verdicts import absent_answers


class Together:
    """A crate with several edits of functions: each one's name by which the prover tells of it, and its lines."""

    def __init__(self, edits, takes_proved, left_out=None):
        """`takes_proved` says whether what the functions call is taken as proved, where that can be. For some edits errors in
        proof files say which answers are left out, or None for a file, that all of it is."""
        self.takes_proved, self.taken, self.left_out = takes_proved, set(), left_out or {}
        self.names = {edit: self.name(edit, number) for number, edit in enumerate(edits)}
        self.places, self.texts = {}, {}
        for path in sorted({edit.path for edit in edits}):
            self.texts[path] = self.add_to(path, [edit for edit in edits if edit.path == path])

    def add_to(self, path, edits):
        """The text of a file with the functions that the edits make."""
        text, made, done = read_text(edits[0].crate.folder, path), '', 0
        for edit in sorted(edits, key=lambda it: it.changed.end):
            made += text[done:self.kept_until(edit.changed)] + self.between
            first, done = made.count('\n') + 1, edit.changed.end
            made += self.edited(text, edit)
            self.places[edit] = path, range(first, made.count('\n') + 2)
        return made + text[done:]

    def write(self, folder):
        """Writes what the edits make into a copy of the crate."""
        write_texts(self.texts)(folder)
        self.write_proofs(folder)
        if self.takes_proved:
            crate = next(iter(self.names)).crate
            self.taken = take_as_proved(crate, folder, self.added())

    def write_proofs(self, folder):
        """Writes the proof files of functions that stand there beside the crate's own."""

    def added(self):
        """The names of such functions."""
        return ()

    def to_leave_out(self, _edits, _check):
        """The answers that are to be left out in another check, for each of some edits that a check says nothing of."""
        return {}

    def at(self, path, line):
        """The edit whose function has a line of a file, or None."""
        return next((edit for edit, (of, lines) in self.places.items() if of == path and line in lines), None)

    def is_named(self, text):
        """Whether a text has the name of one of these functions, or the path of its proof files."""
        return any(re.search(r'\b%s\b' % '(::|/)'.join(name.split('::')[1:] or [name]), text) for name in self.names.values())


class InPlace(Together):
    """A crate with edits in place, of functions that differ. What calls one of them isn't told of."""

    between = ''

    def name(self, edit, _number):
        return edit.full_name()

    def kept_until(self, function):
        return function.start

    def edited(self, _text, edit):
        return edit.edited

    def told(self, edit, functions):
        """The prover's names of the function that an edit changes, among those that a check tells of."""
        return [it for it in functions if it == self.names[edit]]


class Copies(Together):
    """A crate with a copy of a function for each of some edits, under names of their own."""

    between = '\n\n'

    def __init__(self, edits, takes_proved, is_edited=True, left_out=None):
        """The copies have the edits in their bodies, or are the functions as they stand."""
        self.is_edited = is_edited
        super().__init__(edits, takes_proved, left_out)

    def name(self, edit, number):
        return '%s_copy_%d' % (edit.changed.name, number)

    def kept_until(self, function):
        return function.end

    def edited(self, text, edit):
        function = edit.changed
        copy = edit.edited if self.is_edited else text[function.start:function.end]
        at = function.name_at - function.start
        return copy[:at] + self.names[edit] + copy[at + len(function.name):]

    def write_proofs(self, folder):
        for edit, name in self.names.items():
            for proofs in edit.proof_folders(folder):
                leave_out(self.left_out.get(edit, {}), copy_proofs(proofs, name, edit, folder))

    def added(self):
        return self.names.values()

    def told(self, edit, functions):
        """The prover's names of the copy for an edit, among those that a check tells of, if it got the proof files of
        its function, by the prover's own name for it."""
        found = [it for it in functions if it.split('::')[-1] == self.names[edit]]
        return [it for it in found if self.has_its_proofs(it, edit)]

    def to_leave_out(self, edits, check):
        """What names something that isn't there, and where some of a file was left out before, the whole file."""
        found = {}
        for edit in edits:
            told, before = self.told(edit, check.functions), self.left_out.get(edit, {})
            absent = absent_answers(check, told[0]) if len(told) == 1 else {}
            if absent:
                found[edit] = before | {file: None if file in before else errors for file, errors in absent.items()}
        return found

    def has_its_proofs(self, full, edit):
        folder = edit.crate.folder
        place = os.path.join(folder, 'proofs', *full.split('::')[1:-1], edit.changed.name)
        return not os.path.isdir(place) or edit.proof_folders(folder) == [place]


def leave_out(absent, folder):
    """Leaves answers out of the proof files in a folder, by the errors in each file, or all of a file."""
    for file, errors in absent.items():
        text = without_answers(read_text(folder, file), errors) if errors else None
        if text is None:
            os.remove(os.path.join(folder, file))
        else:
            write_text(text, folder, file)


def copy_proofs(proofs, name, edit, folder):
    """Copies the proof files of a function for its copy, by whose name they then call it, and returns their folder."""
    to = os.path.join(os.path.dirname(proofs), name)
    shutil.copytree(proofs, to)
    module = '.'.join(['Rattle', edit.crate.name, *os.path.relpath(proofs, folder).split(os.sep)[:-1]])
    old, new = '%s.%s' % (module, edit.changed.name), '%s.%s' % (module, name)
    for at, _, files in os.walk(to):
        for file in files:
            text = re.sub(re.escape(old) + r'(?=[.\s])', new, read_text(at, file))
            write_text(re.sub(r'\b%s_spec\b' % edit.changed.name, name + '_spec', text), at, file)
    return to
