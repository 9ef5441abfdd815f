"""The pages that are made of texts of help: docs/tools.md of those of the tools, and docs/c104.1 of those of the program.

A manual page has besides what lines of descriptions and scripts mean, and a first network, all of docs/FORMATS.md. So nothing
is said twice by hand: tests/write_help writes both pages, and a case of `documents` wants them as they are made here.
"""

import os
import re
import subprocess

from case_runner import TOP

TOOLS_PAGE, MANUAL, FORMATS = 'docs/tools.md', 'docs/c104.1', 'docs/FORMATS.md'
COMMANDS = ('run', 'debug', 'storm', 'rows', 'check', 'cycles', 'label')
TOOLS_HEAD = """# Tools

`c104`, as `make` builds it, is proved; everything called `c104-WORD` asks it, and isn't. These tools are Python: they count,
search and draw. Whether labels are accepted, what a run does and whether a network locks up they leave to `c104`; what holds the
rest is in [LIMITS.md](proof/LIMITS.md). This page is made of what `--help` of each prints.

They want Python 3.11. `make install` copies them beside `c104`; `pip install .` installs them alone. The program is the one that
the environment's `C104` names, else `build/c104` of the tree around, or `build/fast/c104` where that is missing or older than its
sources, of which they tell, else the one installed beside them, or that of PATH. Scripts and notebooks may import the package
`c104`.

DESC and SCRIPT are as for `c104` ([FORMATS.md](FORMATS.md#the-command-line)), and what it refuses is answered by its line. Exit
statuses are its too: 1 says that something was refused, 2 that the command line is wrong, 3 that a file can't be read or
written or `c104` can't be run, 4 that memory ran out.

Tables have `--format table`, in columns for people, each as wide as its widest cell and at least 8, two spaces apart, `-` where
there is nothing; of a summary of one run or network a line for each number, whose name takes 19 columns; `csv`, as RFC 4180
has it, with an empty field; or `json`, a list of objects with `null`. Numbers are exact; those with a point are rounded down to
thousandths.
"""
MANUAL_HEAD = """.\\" Made by tests/write_help.
.TH C104 1 "" "%s" "User Commands"
.SH NAME
c104 \\- emulate networks of IMS C104 packet routing switches
"""
MANUAL_END = """.SH SEE ALSO
The repository's
.I docs/FORMATS.md
is the whole reference, with each fault and refusal, the registers and the control commands;
.I docs/tools.md
has what
.B \\-\\-help
of each tool says, and
.I docs/proof
what is proved and what isn't.
"""


def read(path):
    with open(os.path.join(TOP, path)) as file:
        return file.read()


def printed(words, **variables):
    """What a command prints, at one width wherever it is run."""
    variables = {**os.environ, 'COLUMNS': '80', 'PYTHONDONTWRITEBYTECODE': '1', **variables}
    return subprocess.run(words, check=True, capture_output=True, text=True, env=variables).stdout


# The page of the tools


def tool_names():
    return sorted(os.listdir(os.path.join(TOP, 'bin')))


def tool_text(name):
    """The help of a tool, without what is said of all of them above."""
    text = printed([os.path.join(TOP, 'bin', name), '--help'], C104=os.devnull)
    body, _, statuses = text.partition('Exit status:\n')
    (refused,) = re.findall(r'^  1  (.*)$', statuses, re.MULTILINE)
    body = re.sub(r'^  -h, --help .*\n', '', body, flags=re.MULTILINE)
    return '%s\nExit status 1: %s\n' % (body.rstrip(), refused)


def tools_page():
    """The text of docs/tools.md."""
    parts = [TOOLS_HEAD]
    for name in tool_names():
        lines = ['    ' + line if line else '' for line in tool_text(name).splitlines()]
        parts.append('\n## %s\n\n%s\n' % (name, '\n'.join(lines)))
    return ''.join(parts)


# The manual page


def escaped(text):
    """A text as groff takes it, with what stands in backticks in bold."""
    text = text.replace('\\', r'\e').replace('-', r'\-').replace("'", r'\(aq')
    text = re.sub(r'\[([^]]*)\]\([^)]*\)', r'\1', text).replace(r'\|', '|')
    return re.sub(r'`([^`]*)`', r'\\fB\1\\fP', text)


def paragraph(lines):
    """A paragraph of a help: filled, or as it stands if lines of it are indented."""
    if any(line.startswith('  ') for line in lines):
        return ['.PP', '.nf', *map(escaped, lines), '.fi']
    return ['.PP', *(r'\&' + it if it.startswith(('.', r'\(aq')) else it for it in map(escaped, lines))]


def paragraphs(text):
    return [line for it in re.split(r'\n{2,}', text.strip('\n')) for line in paragraph(it.splitlines())]


def help_of(program, *words):
    """Of a help what is above its usage, its usage, and what is behind its options."""
    text = printed([*program, *words, '--help'])
    above, usage, rest = re.fullmatch(r'(.*?)\n\n(Usage: .*?)\n\n(.*)', text, re.DOTALL).groups()
    return above, usage.removeprefix('Usage: '), rest


def behind_options(rest):
    """What a help says behind its lists of words."""
    parts = re.split(r'\n{2,}', rest.strip('\n'))
    return '\n\n'.join(it for it in parts if not re.match(r'(Commands|Arguments|Options):\n', it))


def lists_of(rest):
    """The lists of words of a help."""
    return [it for it in re.split(r'\n{2,}', rest.strip('\n')) if re.match(r'(Arguments|Options):\n', it)]


def commands(program):
    """Each command, with its usage and what its help says."""
    for name in COMMANDS:
        above, usage, rest = help_of(program, name)
        yield '.SS ' + escaped(usage).replace('\n', ' ')
        yield from paragraphs('\n\n'.join([above + '.', behind_options(rest), *lists_of(rest)]))


def table_rows(heading):
    """The rows of the table of docs/FORMATS.md whose first line is this."""
    text = read(FORMATS).partition(heading + '\n')[2].split('\n')
    for line in text[1:]:
        if not line.startswith('|'):
            return
        yield [it.strip() for it in re.split(r'(?<!\\)\|', line.strip()[1:-1])]


def entries(heading):
    """A table of lines as a list: the line, and what it means."""
    for cells in table_rows(heading):
        yield '.TP'
        yield escaped(cells[0])
        yield escaped(cells[1]) + '.'
        if len(cells) > 2:
            yield 'Answer: %s.' % escaped(cells[2])


def examples():
    """The first network of docs/FORMATS.md, its script, and what comes of them."""
    text = read(FORMATS).partition('\n## A first network\n')[2]
    for language, file, body in re.findall(r'^```(text|console) ?(\S*)\n(.*?)^```$', text, re.DOTALL | re.MULTILINE)[:3]:
        if language == 'text':
            yield from ('.PP', 'The file', '.IR %s :' % escaped(file), '.PP', '.\\" file: ' + file)
        else:
            yield from ('.PP', 'What comes of them:', '.PP')
        lines = body.rstrip('\n').replace('\\', r'\e').replace('-', r'\-').replace("'", r'\(aq').split('\n')
        yield from ('.EX', *lines, '.EE')


def manual_page(program):
    """The text of docs/c104.1, for a program, which is a list of words."""
    above, _, rest = help_of(program)
    parts = re.split(r'\n{2,}', behind_options(rest))
    statuses = parts[-1].removeprefix('Exit status:\n')
    usages = [escaped(help_of(program, name)[1]) for name in COMMANDS]
    lines = [MANUAL_HEAD.rstrip('\n') % printed([*program, '--version']).strip(), '.SH SYNOPSIS', '.nf', *usages, '.fi']
    lines += ['.SH DESCRIPTION', escaped(above) + '.', *paragraphs('\n\n'.join(parts[:-1])), '.SH COMMANDS', *commands(program)]
    lines += ['.SH DESCRIPTIONS', *entries('| Line | Meaning |')]
    lines += ['.SH SCRIPTS', *entries('| Line | What it does | Answer when done |')]
    lines += ['.SH EXIT STATUS', '.nf', *map(escaped, statuses.split('\n')), '.fi', '.SH EXAMPLES', *examples()]
    return '\n'.join(lines) + '\n' + MANUAL_END


def pages(program):
    """The text of each page, by its path."""
    return {TOOLS_PAGE: tools_page(), MANUAL: manual_page(program)}
