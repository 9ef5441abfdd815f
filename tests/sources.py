"""The texts of a crate's .rt files: where their functions, contracts and bodies stand."""

import os
import re

# A clause of a contract stands before a body, and its braces aren't the body's.
CLAUSE = re.compile(r'\b(requires|ensures|ghost|decreases)\b\s*\*?\s*[\w-]*\s*:?\s*\Z')
COMMENT_OR_LITERAL = re.compile(r'//[^\n]*|"(?:\\.|[^"\\])*"|b?\'(?:\\.[^\']*|[^\'\\\n])\'', re.DOTALL)
BLOCK = re.compile(r'^(?:pub )?(?:impl|trait)\b[^{;]*', re.MULTILINE)
HEAD = re.compile(r'^[ \t]*(?:pub(?:\([^)]*\))? )?(?:const )?fn (\w+)', re.MULTILINE)


def blank(text):
    """The text with spaces for its comments and its literals."""
    return COMMENT_OR_LITERAL.sub(lambda it: re.sub(r'[^\n]', ' ', it.group()), text)


def past_bracket(text, at):
    """The place past the bracket that closes the one at a place."""
    depth = 0
    for place in range(at, len(text)):
        depth += (text[place] in '{([') - (text[place] in '})]')
        if depth == 0:
            return place + 1
    return len(text)


def contract_end(text, at):
    """Where the contract of a function ends whose name ends at a place: at its body, or at a `;`."""
    clause = at
    while at < len(text) and text[at] != ';':
        if text[at] == '{' and not CLAUSE.search(text[clause:at]):
            return at
        if text[at] in '{([':
            clause = past_bracket(text, at) if text[at] == '{' else clause
            at = past_bracket(text, at)
        else:
            at += 1
    return at


def start_with_attributes(text, start):
    """Where the attributes right above a line begin, or where the line does."""
    while start > 0:
        above = text.rfind('\n', 0, start - 1) + 1
        if text[above:start].strip()[-1:] not in (']', ',', '('):
            return start
        start = above
    return start


def words_of(head):
    """The words at the head of a block, without type parameters."""
    return re.findall(r'\w+', re.sub(r'<[^<>]*>', '', re.sub(r'<[^<>]*>', '', head)))


def name_of_impl(head):
    """The prover's name of a block `impl TRAIT<ARGUMENT> for TYPE`: the type, the trait and the argument in one word."""
    arguments = re.search(r'\w<(.*)> for ', head, re.DOTALL)
    implemented, _, of_type = ' '.join(words_of(head)).rpartition(' for ')
    return ''.join([of_type, implemented.split()[-1], *(words_of(arguments.group(1)) if arguments else [])])


def blocks_of(text):
    """The impl and trait blocks of a blanked text: where each begins and ends, and its head."""
    return [(it.end(), past_bracket(text, it.end()), it.group()) for it in BLOCK.finditer(text)]


class Function:
    """A function with a body: its name, its places in the text, the type whose method it is, and for a method
    of a trait the prover's name of its block."""

    def __init__(self, text, head, body, block):
        self.name, self.name_at = head.group(1), head.start(1)
        self.start, self.body, self.end = start_with_attributes(text, head.start()), body, past_bracket(text, body)
        self.is_of_trait = bool(re.search(r'\bfor\b|\btrait\b', block))
        self.impl_name = name_of_impl(block) if ' for ' in block else None
        self.owner = ''.join(words_of(block)[1:2])


def functions_of(text):
    """The functions of a file that have bodies."""
    text = blank(text)
    blocks, found = blocks_of(text), []
    for head in HEAD.finditer(text):
        body = contract_end(text, head.end())
        if text[body:body + 1] == '{':
            block = next((it for start, end, it in blocks if start <= head.start() < end), '')
            found.append(Function(text, head, body, block))
    return found


def read_text(*path):
    with open(os.path.join(*path), encoding='utf-8') as file:
        return file.read()


def write_text(text, *path):
    with open(os.path.join(*path), 'w', encoding='utf-8') as file:
        file.write(text)
