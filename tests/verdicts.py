"""What a check says of edited functions: which are refused, whether that can be believed, and what each of them cost."""

import os
import re

BECAUSE_OF_OTHERS = re.compile(r'no proof: it calls |could not tell|depends on ')
# A proof file that names what isn't there any more says nothing of the contract.
ABSENT = re.compile(r'was not admitted|is not in scope|has no (field (named )?)?`')
# What the prover says of a text that it can't read, beside errors at no declaration.
UNREADABLE = re.compile(r'is not in scope|has no field|is no name|operand is missing|expected the end|cannot continue')
VERDICT = re.compile(r'(?:fn|struct|enum|impl|trait) (\S+): (.*)')
# What is said of a function that is no worse than what it calls.
SOUND = re.compile(r'proved$|assumed|no proof: it calls ')
# The same in a check over axioms, which proves nothing.
UNDER_AXIOMS = re.compile(r'(not )?proved$|not proved; it calls |assumed|no proof: it calls ')
TAKEN_AS_PROVED = 'not proved'
# Modules by which goals that aren't proved are printed in the end.
PRINTED = re.compile(r'\.(Given|\w*Tried|\w*Offered)(\.decls)?\.oantt$')


def is_own(name, full):
    """Whether a name is that of a function, or of one of its closures, which have `fn` before the function's own path."""
    plain = name.replace('::fn::', '::')
    return plain == full or plain.startswith((full + '::', full + '+'))


def errors_at(check, place):
    """The errors at places of such a form: the line of each, and all that belongs to it."""
    found, place = [], re.compile(r'(?:\./)?%s:\d+:\d+: error' % place)
    for number, line in enumerate(check.lines):
        if place.match(line):
            end = number + 1
            while check.lines[end:end + 1] and check.lines[end].startswith('  '):
                end += 1
            found.append((line, '\n'.join(check.lines[number:end])))
    return found


def own_errors(check, full):
    """The errors in a function's own proof files."""
    return errors_at(check, r'proofs/%s/\w+\.antt' % re.escape('/'.join(full.split('::')[1:])))


def refusal(check, full):
    """How the prover refuses a function, with its closures, on its own account; or None. That a function isn't proved, or
    calls what isn't, says nothing."""
    errors = own_errors(check, full)
    for name, verdict in check.functions.items():
        if not is_own(name, full) or BECAUSE_OF_OTHERS.match(verdict) or not verdict.startswith(('no proof', 'not proved')):
            continue
        if 'did not prove' in verdict or any(not ABSENT.search(whole) for _, whole in errors):
            return errors[0][0] if errors else verdict
    return None


def absent_answers(check, full):
    """Where a function's own proof files fail only since they name what isn't there any more, the errors of each file: pairs
    of a line and what is told there. Else none."""
    errors, found = own_errors(check, full), {}
    for line, whole in errors:
        path, number, _ = line.removeprefix('./').split(':', 2)
        if not ABSENT.search(whole):
            return {}
        found.setdefault(os.path.basename(path), []).append((int(number), line))
    return found


def only_absent(check):
    """Where a check fails only since proof files name what isn't there any more, the errors of that by file: pairs of a
    line and what is told there. Else none."""
    verdicts = [it.group(2) for it in map(VERDICT.match, check.lines) if it]
    errors, found = errors_at(check, r'\S+?'), {}
    if check.status != 1 or not check.is_told() or any('did not prove' in it for it in verdicts):
        return {}
    for line, whole in errors:
        path, number, _ = line.removeprefix('./').split(':', 2)
        if not path.startswith('proofs/') or not ABSENT.search(whole):
            return {}
        found.setdefault(path, []).append((int(number), line))
    return found


def verdicts_of(check, name):
    """What is said of a function of this name, and of its closures."""
    return {verdict for it, verdict in check.functions.items() if name in re.split(r'::|\+', it)}


def holds(check, name, full, is_over_axioms):
    """Whether a function that has no edit comes out so, as it must: proved; or, over axioms, without a sign of refusal."""
    said = verdicts_of(check, name)
    sound = UNDER_AXIOMS if is_over_axioms else re.compile('proved$')
    return bool(said) and all(map(sound.match, said)) and not own_errors(check, full) and not refusal(check, full)


def is_spoiled(check, together):
    """Whether anything but the edited functions isn't proved, on its own account. What is taken as proved reads `not
    proved`, and nothing else is said of it."""
    sound = UNDER_AXIOMS if together.taken else SOUND
    for line in check.lines:
        said, error = VERDICT.match(line), re.match(r'(\./)?\w+/\S+:\d+:\d+: error', line)
        if said and said.group(1) in together.taken:
            if said.group(2) != TAKEN_AS_PROVED:
                return True
        elif (error or said and not sound.match(said.group(2))) and not together.is_named(line.split(': ')[0]):
            return True
    return False


def unreadable(check, edit):
    """An error that shows that the prover couldn't read an edited text, or None."""
    for line in check.lines:
        error = re.match(r'(?:\./)?(\S+?):\d+:\d+: error: (`[^`]*`: )?(.*)', line)
        if error and (error.group(1) in edit.texts or error.group(1).startswith(('src/', 'specs/'))):
            if not error.group(2) or UNREADABLE.search(re.sub(r'`[^`]*`', '', error.group(3))):
                return line
    return None


def full_names(check, edit):
    """The full names of the function that an edit changes, and of those that can't be told from it, where the prover
    says that several have its name."""
    names = re.findall(r'`(\w+::[^`]+)`', '\n'.join(it for it in check.lines if 'several functions are named' in it))
    owned = [it for it in names if edit.changed.owner in it.split('::')[-2]]
    beside = [it for it in owned if it.split('::')[1:-2] == edit.module()]
    return beside or owned or names


def first_reason(check):
    """The line of a check that says best why the crate isn't proved."""
    reasons = [line for line in check.lines if re.match(r'(note: \S+:\d+:\d+:|\S+:\d+:\d+: error)', line)]
    return (reasons or check.lines)[0]


def seconds_by_module(kept, began):
    """The modules that a check with one job has checked since a time, as it kept a file of each at its end: each one's name
    and seconds by the clock. What only prints goals in the end isn't among them."""
    files = []
    for at, _, names in os.walk(kept):
        for name in names:
            if name.endswith('.oantt'):
                files.append((os.stat(os.path.join(at, name)).st_mtime, name))
    files = sorted(it for it in files if it[0] >= began)
    return [(name, now - before) for (before, _), (now, name) in zip(files, files[1:]) if not PRINTED.search(name)]


def seconds_of(modules, names):
    """The seconds of each function's own modules and those of its closures, and the function that came first: its seconds
    are also those of what was loaded then."""
    took, first = dict.fromkeys(names, 0), None
    for full in names:
        own = re.compile(r'\.%s[.+]' % re.escape('.'.join(full.split('::')[1:])))
        found = [number for number, (name, _) in enumerate(modules) if own.search(name.replace('.fn.', '.'))]
        took[full] = sum(modules[number][1] for number in found)
        first = min(first or (len(modules), full), (found[0] if found else len(modules), full))
    return took, first and first[1]
