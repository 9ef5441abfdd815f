"""What edited functions call is taken as proved, and isn't proved once more.

A function is proved from its own body, its contract and the contracts of what it calls. The body of what it calls has no
part in that. So in the copy of a crate in which edits are tried, each function that has no edit gets the body
`{ unreachable!() }`, and in the place of its proof an axiom, that it meets its contract.

That is no weaker than to prove it there. What the axiom says is what `rt ci` has proved of this function as it stands, in
the same run, and an edited function meets the same goals, with the same facts about its callees. No edit is refused for
an axiom: a check over axioms proves nothing, but it still tells of each function which of its own goals don't hold. And an
axiom that the prover can't read, or doesn't find, leaves a function of this body without a proof, which the check tells of
too, since no contract lets such a body be proved; then nothing that it says is believed.

The body matters as much as the axiom: what a function drops at each exit, say, is worked out before its goals.
"""

import json
import os
import re

from imports import imports_of
from sources import functions_of, read_text, write_text

EMPTY = '{ unreachable!() }'
AXIOM = '''use Rattle.%s.proofs.%s.Statement.{statement}

axiom pub %s_spec : {M : Type 1} → statement M
'''
OWN_FILES = ('Answers.antt', 'Invariants.antt', 'Proof.antt')


def names_in_library(crate):
    """The prover's names of the functions in a crate's library, without those that no one wrote as a function; None where
    the library doesn't stand there."""
    path = os.path.join(crate.rlib, 'toolchain', 'mir.json')
    if not os.path.isfile(path):
        return None
    with open(path, encoding='utf-8') as file:
        names = [it[0] for it in json.load(file)]
    return [it for it in names if it.startswith(crate.name + '::') and not re.search(r'[+#]|::fn::', it)]


def files_below(folder, part, ending):
    """The files of this ending in a part of a crate, by their paths in it."""
    top = os.path.join(folder, part)
    for at, _, files in os.walk(top):
        for file in sorted(files):
            if file.endswith(ending):
                yield os.path.relpath(os.path.join(at, file), top)


def named_by_others(crate, folder):
    """The functions, by their paths, with a proof file that a file elsewhere names."""
    found = set()
    for part in ('specs', 'proofs'):
        for file in files_below(folder, part, '.antt'):
            own = os.path.dirname(file).split(os.sep)
            for it in imports_of(read_text(folder, part, file)):
                ends = [at for at, name in enumerate(it.parts) if name + '.antt' in OWN_FILES]
                if it.parts[:3] == ['Rattle', crate.name, 'proofs'] and ends and it.parts[3:ends[0]] != own:
                    found.add('.'.join(it.parts[3:ends[0]]))
    return found


def cycles(folder):
    """The names of functions that call themselves, or each other: they have one proof."""
    return {it[1:] for _, folders, _ in os.walk(os.path.join(folder, 'proofs')) for it in folders if it.startswith('+')}


def module_of(path):
    return [it for it in path[:-len('.rt')].split(os.sep) if it not in ('lib', 'main', 'mod')]


def outermost(functions):
    """The functions of a file that stand in no other's body."""
    found, end = [], 0
    for function in sorted(functions, key=lambda it: it.start):
        if function.start >= end:
            found.append(function)
            end = function.end
    return found


def is_name_of(parts, path, function):
    """Whether the parts of one of the prover's names are those of a function of a file, by its type or else by its module."""
    if function.owner:
        return parts[-2:] == [function.owner, function.name]
    return parts[1:] == [*module_of(path), function.name]


def places_of(names, folder, kept):
    """For each of the prover's names its one place in the sources: the file and the function. A method's name is told by
    its type, wherever its `impl` stands. What has two places, or none, isn't among them."""
    found = {}
    for path in files_below(folder, 'src', '.rt'):
        for function in outermost(functions_of(read_text(folder, 'src', path))):
            if function.is_of_trait or function.impl_name or function.name in kept:
                continue
            own = [it for it in names if is_name_of(it.split('::'), path, function)]
            if len(own) == 1:
                found.setdefault(own[0], []).append((path, function))
    return {name: places[0] for name, places in found.items() if len(places) == 1}


def empty_bodies(folder, path, functions):
    """Gives functions of a file the empty body, with as many lines as there were, so that all others stay where they are."""
    text = read_text(folder, 'src', path)
    for it in sorted(functions, key=lambda it: -it.start):
        text = text[:it.body] + EMPTY + '\n' * text.count('\n', it.body, it.end) + text[it.end:]
    write_text(text, folder, 'src', path)


def write_axiom(crate, folder, parts):
    """Puts an axiom in the place of a function's proof files."""
    to = os.path.join(folder, 'proofs', *parts)
    os.makedirs(to, exist_ok=True)
    for file in OWN_FILES:
        if os.path.exists(os.path.join(to, file)):
            os.remove(os.path.join(to, file))
    write_text(AXIOM % (crate.name, '.'.join(parts), parts[-1]), to, 'Proof.antt')


def take_as_proved(crate, folder, kept):
    """Empties each function of a crate's copy and gives it an axiom, and returns the prover's names of those. Those of the
    names `kept` stay, and so do methods of traits, closures, functions that call themselves or each other, and what isn't
    told apart by its name."""
    names, by_path = names_in_library(crate), {}
    if names is None:
        return set()
    places = places_of(names, folder, {*kept} | cycles(folder))
    named = named_by_others(crate, folder)
    taken = {name: it for name, it in places.items() if '.'.join(name.split('::')[1:]) not in named}
    for name, (path, function) in taken.items():
        by_path.setdefault(path, []).append(function)
        write_axiom(crate, folder, name.split('::')[1:])
    for path, functions in by_path.items():
        empty_bodies(folder, path, functions)
    return {*taken}
