"""The page REFUSALS.md: of each public call that may refuse what it is asked, the clauses of its contract
that say what a refusal leaves, and where the tests of refused growths make it.

A clause says so of what was lent by `&mut` if it speaks of it after the call, and isn't of success alone: by itself, where
its text names the error or holds whatever is answered, or else by a definition of SAYS. That list is kept by hand: a
definition that isn't in it counts for nothing. So a call whose clauses say something else is shown as one of which nothing
is said.
"""

import os
import re

from modules import files_of
from sources import HEAD, blank, blocks_of, contract_end, past_bracket, read_text
from specs import Scope, exported, type_of, words_of

TESTS = 'c104_tests_'
GROWTHS = 'c104_tests_growths'
CLAUSE = re.compile(r'\bensures\b\s*(\w*)\s*\{')
ANSWER = re.compile(r'\s*->\s*(.*?)\s*(?=\b(?:requires|ensures|where|decreases|ghost)\b|\Z)', re.DOTALL)
RESULT = re.compile(r'Result<(.*)>', re.DOTALL)
ALIAS = re.compile(r'^pub type (\w+)(?:<[^>]*>)? = (\w+)', re.MULTILINE)
DECLARED = re.compile(r'^pub (?:enum|struct) (\w+)[^{;]*\{', re.MULTILINE)
# What names an error, or both answers.
OWN = re.compile(r'\b(?:OnErr|IfErr|MatchResult|MatchBool|MatchOption)\b|≡ (?:Err\b|status\.)')
SUCCESS = re.compile(r'\b(?:OnOk|IfOk|IfSome)\b')
DONE = 'is_ready result ≡ true'
# A text in a test, which isn't of bytes.
TEXT = re.compile(r'(?<!b)"([\w:]+(?:, [\w:]+)*)(?= |")')
REPLIES = ('Reply', 'ReplyOf<T>')
LONGEST = 100

# The definitions that say what a refusal leaves, by crate, each with what it says.
SAYS = {
    'c104_link': {
        'bool_outcome': 'answered `false`, all is as it was',
        'option_outcome': 'answered `None`, all is as it was',
        'result_outcome': 'what was offered is handed back, and all else is as it was',
    },
    'c104_crossbar': {'crossbar_claim': 'answered `None`, the marks are as they were'},
    'c104_regs': {'bank_poke': 'refused, the registers are as they were'},
    'c104_switch': {'switch_step': 'answered `NotReady`, the switch is as it was'},
    'c104_plan': {
        'AnswersDue': 'refused, or out of memory, all is as it was',
        'image_set_range': 'refused, the image is as it was',
    },
    'c104_node': {
        'reply_outcome': 'answered `NotReady`, the node is as it was',
        'ActEnds': 'out of memory the place is as it was',
        'AloneDone': 'not done, all places are as they were',
        'JointDone': 'not done, all places are as they were, at both ends of the wire',
    },
    'c104_run': {
        'EventDone': 'not done, all nodes are as they were, and nothing joins a trace',
        'RecordsEvent': 'not done, the network is as it was, with its traces and its count',
        'AnswersRecord': 'not done, the network is as it was',
        'RecordsRounds': 'the events before the one that was refused stand, and nothing else is done',
        'record_begun_if': 'answered `false`, the network is as it was',
    },
    'c104_tools': {
        'Outcome': 'the commands before the one that failed were answered, and with it no more were sent: the port went on by '
                   'what each of them gives, and by nothing else',
    },
    'c104_workers': {
        'CallsLent': 'not done, the seat and the lent nodes are as they were',
        'Grew': 'not done, the seat is as it was',
    },
    'c104_stream': {
        'AnswersScript': 'what is written are the answers to the first lines, each whole, or where the writer fails a '
                         'prefix; of what answers nothing is said',
    },
    'c104_session': {
        'RunsParts': 'what is written are the answers to the first lines, each whole, or to all, and no summary; where the '
                     'writer fails a prefix',
        'RunsText': 'the same of one text',
        'RunsPlan': 'what is written are the answers to the first lines, each whole, or to all, and no summary; where the '
                    'writer fails a prefix',
        'LeavesLine': 'all but the network is as it was, and there what the line asks is done in part or not at all',
    },
    'c104_storm': {
        'StormEnds': 'nothing is written, or the line that tells why; or the answers to the first lines, each whole, or to '
                     'all, and no ending; where the writer fails a prefix',
        'StormsPlan': 'what is written are the answers to the first lines, each whole, or to all, and no ending; where the '
                      'writer fails a prefix',
    },
    'c104_setup': {
        'CommandRuns': 'nothing is written, or the line that tells why; where the writer fails a prefix',
        'RefusalEnds': 'the line that tells why is written, or out of memory nothing; where the writer fails a prefix',
    },
}
# Calls that take a value and give it back where they refuse, by the clause that says so.
GIVEN_BACK = {'Ready::new': 'net', 'Ready::into_fabric': 'handed'}
# Clauses of both answers that say of an error which it is, and not what is left.
OF_FAULTS = {('load', 'loaded')}
# Calls that share the type of their faults with others, and are never out of memory.
TAKE_NONE = {'acts_of', 'Wires::ends', 'Fabric::place', 'Ahead::next_byte', 'Image::set_range'}

HEAD_OF_REFUSALS = """# What a refused call leaves

Each public call that may refuse what it is asked, by crate, with the clauses of its contract that say what a refusal
leaves of what was lent to it, and the tests that refuse it memory.

- **Refuses by**: the error's type, or the answer that is no success. A call that answers `false`, `None` or `NotReady` and
  lends nothing by `&mut` is a question, and stands here only if it takes memory.
- **What a refusal leaves**: the clauses that speak of what was lent as it is after the call, by their text or by a definition
  of the first table. Where nothing was lent by `&mut`, nothing can have changed, but for what the call took as its own and
  drops. *Nothing is said* stands where something was lent and no clause tells how an error leaves it: a list to which parts
  were added, room that was made, or a list that is sorted.
- **Growths**: the modules of `crates/c104_tests_growths` that make the call with its first growth of memory refused, then its
  second, until it succeeds, and look at what is left. *Takes none* stands where a call takes no memory, with the modules
  that make it with every growth refused. *Not by itself* stands where only other calls of this page make it there.

What can't be dropped, a claim, a switch, a node or a network, is never lost by a refusal: code that drops one doesn't
build. So a refused `Net::new` has retired its switches, which no contract says.
"""


def parts_of(text):
    """The parts of a text between its outermost commas."""
    text, depth, start, found = text.replace('->', '  '), 0, 0, []
    for at, sign in enumerate(text):
        depth += (sign in '([{<') - (sign in ')]}>')
        if sign == ',' and depth == 0:
            found.append(text[start:at].strip())
            start = at + 1
    return [it for it in [*found, text[start:].strip()] if it]


def faults_of_memory(texts):
    """The types by which calls say that they are out of memory: those with such a case, and those that hold one of them."""
    bodies = {}
    for text in texts:
        for it in DECLARED.finditer(text):
            bodies[it.group(1)] = {*re.findall(r'\w+', text[it.end():past_bracket(text, it.end() - 1)])}
    found, more = {'AllocError'}, {'NoMemory'}
    while more:
        found |= more
        more = {name for name, words in bodies.items() if words & found and name.endswith(('Fault', 'Halt', 'Kind', 'Status'))}
        more -= found
    return found


class Call:
    """A public call: its name, its parameters, each with its type, what it answers, and its clauses as (name, text)."""

    def __init__(self, name, params, answer, clauses):
        self.name, self.params, self.answer, self.clauses = name, params, answer, clauses
        self.lent = ['self' if it.endswith('self') else it.partition(':')[0].split()[-1] for it in params if '&mut' in it]
        self.has_allocator = any(re.fullmatch(r'alloc: \w+', it) for it in params)
        result = RESULT.fullmatch(answer)
        self.fault = parts_of(result.group(1))[-1] if result and len(parts_of(result.group(1))) > 1 else None

    def refusal(self):
        """What a refusal is answered, or None where there is none."""
        if self.fault or self.answer == 'Status':
            return '`%s`' % (self.fault or self.answer)
        if any(DONE in text for _, text in self.clauses):
            return None
        if self.answer.startswith('Option<') and (self.lent or self.has_allocator):
            return '`None`'
        if self.lent and self.answer == 'bool':
            return '`false`'
        return '`NotReady`' if self.lent and self.answer in REPLIES else None

    def takes_memory(self, faults):
        words = {*re.findall(r'\w+', self.fault or self.answer)}
        return self.name not in TAKE_NONE and bool(self.has_allocator and self.refusal() or words & faults)


class Source:
    """A source file: its text, and which definitions of SAYS its clauses cite."""

    def __init__(self, specs, text):
        self.specs, self.text, self.code, self.scope = specs, text, blank(text), Scope(text)
        self.blocks = blocks_of(self.code)

    def says(self, text):
        """The definitions of SAYS that a text cites."""
        cited = self.specs.cited_by(self.scope, text)
        return [it for it in cited if it.name in SAYS.get(it.crate, ())]

    def calls(self, names, traits):
        """The public calls of the file, in order, by the names that the crate shows. A method of one of the repository's
        traits is that of the trait."""
        for head in HEAD.finditer(self.code):
            block = next((it for start, end, it in self.blocks if start <= head.start() < end), None)
            if self.is_public(head, block, names, traits):
                owner = type_of(block) + '::' if block else ''
                yield self.call(owner + head.group(1), head)

    def is_public(self, head, block, names, traits):
        if block is None:
            return bool(re.match(r'\s*pub (?!\()', head.group())) and head.group(1) in names
        if type_of(block) not in names or head.group(1) == 'fmt':
            return False
        if ' for ' in block:
            words = words_of(block)
            return words[words.index('for') - 1] not in traits
        return 'trait ' in block or bool(re.match(r'\s*pub (?!\()', head.group()))

    def call(self, name, head):
        first = self.code.index('(', head.end())
        last = past_bracket(self.code, first)
        end = contract_end(self.code, head.end())
        answer = ANSWER.match(self.code, last, end)
        clauses = []
        for it in CLAUSE.finditer(self.code, last, end):
            text = self.text[it.end():past_bracket(self.code, it.end() - 1) - 1]
            clauses.append((it.group(1), ' '.join(text.split())))
        return Call(name, parts_of(' '.join(self.code[first + 1:last - 1].split())),
                    ' '.join(answer.group(1).split()) if answer else '', clauses)


def speaks_of(text, lent):
    """Whether a clause speaks of something that was lent, as it is after the call, and not of success alone."""
    if SUCCESS.search(text) and not OWN.search(text):
        return False
    return any(re.search(r'\b%s\.(?:new|exit)\b' % name, text) for name in lent)


def left_by(call, source):
    """What the clauses of a call say of what a refusal leaves."""
    found = []
    for name, text in call.clauses:
        says = source.says(text)
        is_told = says or OWN.search(text) or not re.search(r'\bresult\b', text)
        if (call.name, name) in OF_FAULTS:
            continue
        if name and name == GIVEN_BACK.get(call.name) or speaks_of(text, call.lent) and is_told:
            shown = '`%s`' % text.replace('|', '\\|')
            if len(text) > LONGEST and says:
                shown = ', '.join('`%s`' % it for it in sorted({it.name for it in says}))
            found.append('%s%s' % ('*%s* ' % name if name else '', shown))
    if found:
        return '; '.join(found)
    return 'nothing is said' if call.lent else 'nothing was lent by `&mut`'


def made_in(crates):
    """In which modules of the tests of refused growths each call is made, by the names that these tell."""
    found = {}
    for crate in crates:
        source = os.path.join(crate.folder, 'src')
        for file in files_of(source) if crate.name == GROWTHS else []:
            for names in TEXT.findall(read_text(source, file)):
                for name in names.split(', '):
                    found.setdefault(name, []).append(file.removesuffix('.rt'))
    return {name: sorted({*files}) for name, files in found.items()}


def public_crates(crates):
    """Those that others may call, each with the names that it shows and the texts of its files."""
    for crate in crates:
        names, source = exported(crate), os.path.join(crate.folder, 'src')
        if names is not None and not crate.name.startswith(TESTS):
            yield crate, names, [read_text(source, file) for file in files_of(source)]


def table_of_says():
    lines = ['| Definition | of | What it says of a refusal |', '|---|---|---|']
    for crate, said in SAYS.items():
        lines += ['| `%s` | `%s` | %s |' % (name, crate, text) for name, text in said.items()]
    return lines


def tests_of(call, made, aliases, is_of_memory):
    """Where the tests of refused growths make a call."""
    owner, _, name = call.name.rpartition('::')
    names = [call.name] + ['%s::%s' % (it, name) for it in aliases.get(owner, ())]
    files = sorted({file for it in names for file in made.get(it, ())})
    return ', '.join('`%s`' % it for it in files) or ('not by itself' if is_of_memory else '')


def rows_of(texts, names, specs, traits, about):
    """The rows of a crate's calls, by what `about` tells of each. What takes a type that the crate doesn't show nobody else
    calls."""
    hidden = {it for text in texts for it in DECLARED.findall(blank(text))} - names
    for text in texts:
        source = Source(specs, text)
        for call in source.calls(names, traits):
            if call.refusal() and not hidden & {*re.findall(r'\w+', ' '.join(call.params))}:
                yield '| `%s` | %s | %s | %s |' % (call.name, call.refusal(), left_by(call, source), about(call))


def refusals_text(crates, specs):
    """The calls that may refuse, crate by crate."""
    shown = [*public_crates(crates)]
    code = [blank(text) for _, _, texts in shown for text in texts]
    faults, made, aliases, counts = faults_of_memory(code), made_in(crates), {}, [0, 0]
    for alias, name in (it for text in code for it in ALIAS.findall(text)):
        aliases.setdefault(name, []).append(alias)
    traits = {it for text in code for it in re.findall(r'^pub trait (\w+)', text, re.MULTILINE)}

    def about(call):
        is_of_memory = call.takes_memory(faults)
        found = tests_of(call, made, aliases, is_of_memory)
        counts[0] += is_of_memory
        counts[1] += is_of_memory and found != 'not by itself'
        return found if is_of_memory else ('takes none: ' + found if found else 'takes none')

    lines = []
    for crate, names, texts in shown:
        rows = [*rows_of(texts, names, specs, traits, about)]
        if rows:
            lines += ['', '## %s' % crate.name, '', '| Call | Refuses by | What a refusal leaves | Growths |', '|---|---|---|---|', *rows]
    front = ['', 'Of %d calls that may take memory the tests make %d with each growth refused.' % (counts[0], counts[1]), '']
    return '\n'.join([*front, *table_of_says(), *lines]) + '\n'
