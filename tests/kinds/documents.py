"""Runs the commands and the examples of the documents, as their readers would.

A block ```console has commands behind `$ `, and below each what it prints, where a line `...` stands for any
lines; a command with nothing below it has to end with status 0. A block ```text FILE is a file that commands
find. A block .EX of the manual page is the same: a file where a comment `file: FILE` stands before it, else commands.
A command of this repository that a page only names has to be one that is run here, or to stand in NOT_RUN. Links
and files that pages name have to be there; README.md, what users read and all pages together are no longer than they may be,
but for the pages that are made of texts of help, and these are as `help_pages` makes them.

All is run in a copy of the repository with this program as what was built there, and the pages but README.md
with what `make install` installed. The tools of bin, which are on PATH, ask this program. What has been proved already
is not proved again: in the place of `rt` stands one that answers so. `make fast` is run, unless this is what it made.
"""

import glob
import os
import re
import shutil
import subprocess
import sys
import tempfile

from case_runner import TOP
from help_pages import MANUAL, TOOLS_PAGE, pages as made_pages

README, PROOF = 'README.md', 'docs/proof/'
PAGES = [README, *sorted(os.path.relpath(it, TOP) for it in glob.glob(os.path.join(TOP, 'docs', '**', '*.md'), recursive=True))]
SECONDS = 1800
# Words of README.md, of what users read, and of all pages together.
MOST_WORDS, MOST_FOR_USERS, MOST_OF_ALL = 1000, 16_000, 30_000

# Commands that a page may name, and how each is run where one does.
RUN = {
    'make': 'make',
    'make dist': 'make dist && tar tzf build/c104-*.tar.gz',
    'make slow': 'make slow',
    'make pages': 'make pages && test -f build/pages/PROMISES.md',
    'make check': 'make check kinds=runs',
    'make edits CRATE=c104_crossbar': 'make edits CRATE=c104_crossbar',
    'build/c104 --help': 'build/c104 --help',
}
NOT_RUN = {'make test': 'it is what runs this', 'make fast': '`README.md` has a block that runs it',
           'make install': 'it would be outside the copy: with PREFIX it is run',
           'make bench': 'it takes minutes, and times what it runs', 'make storms': 'it takes minutes',
           'make fuzz MINUTES=60': 'it takes an hour',
           **dict.fromkeys(('make page', 'make page DESC=examples/ring.txt SCRIPT=examples/ring-packets.txt'), '`played` runs it')}
NAMED = re.compile(r'`((?:make|build/c104)(?: [^`]*)?)`|^    ((?:make|build/c104)(?: \S+)*)(?:  |$)', re.MULTILINE)
# A path of the repository in a page's text.
PATH = re.compile(r'`((?:docs|examples|tests|crates)/[\w./]*\w|Makefile|README\.md)`')

# A file of some crate.
OF_A_CRATE = re.compile(r'`((?:proofs|specs|src)/[\w/]+\.(?:antt|rt))`')
# A link of a page to a file or a heading, and a heading.
LINK = re.compile(r'\]\((?!https?:)([^()\s]*)\)')
HEADING = re.compile(r'^#+ (.*)$', re.MULTILINE)

# In the place of rt: what would prove is done, and everything else is rt's. Scripts load it as they load rt.
STAND_IN = '''#!{python}
import importlib.machinery, importlib.util, os, sys
if __name__ != '__main__':
    loader = importlib.machinery.SourceFileLoader('rt_itself', {rt!r})
    module = importlib.util.module_from_spec(importlib.util.spec_from_loader('rt_itself', loader))
    loader.exec_module(module)
    globals().update((name, it) for name, it in vars(module).items() if not name.startswith('__'))
    rtlib.Crate.build_rlib = lambda *_, **__: 0
    share_work = lambda **_: None
elif sys.argv[1:2] and sys.argv[1] in ('check', 'lib', 'run', 'all'):
    print('it is proved')
else:
    os.execv({rt!r}, [{rt!r}, *sys.argv[1:]])
'''
MARK = '--- the command above is done: '


class Block:
    """A block of a page: the file that it is, or None where it has commands, and its lines."""

    def __init__(self, page, line, file, lines):
        self.page, self.line, self.file, self.lines = page, line, file, lines

    def commands(self):
        """Pairs of a command and the lines that are shown below it."""
        found = []
        for line in self.lines:
            if line.startswith('$ '):
                found.append((line[2:], []))
            else:
                found[-1][1].append(line)
        return found


def read(path):
    with open(os.path.join(TOP, path)) as file:
        return file.read()


def blocks_of_markdown(page):
    found, begun = [], None
    for number, line in enumerate(read(page).splitlines(), 1):
        if begun is not None and line == '```':
            found.append(begun)
            begun = None
        elif begun is not None:
            begun.lines.append(line)
        elif line.startswith('```'):
            words = line[3:].split()
            begun = Block(page, number, words[1] if words[:1] == ['text'] else None, [])
    return found


def blocks_of_manual(page):
    found, begun, file = [], None, None
    for number, line in enumerate(read(page).splitlines(), 1):
        named = re.fullmatch(r'\.\\" file: (\S+)', line)
        if line == '.EX':
            begun = Block(page, number, file, [])
        elif line == '.EE':
            found.append(begun)
            begun = None
        elif begun:
            begun.lines.append(line.replace(r'\-', '-').replace(r'\(aq', "'").replace(r'\e', '\\'))
        file = named[1] if named else None
    return found


def pattern_of(lines):
    """What output may be where a page shows these lines."""
    return ''.join('(?:.*\n)*' if it == '...' else re.escape(it) + '\n' for it in lines)


def run_block(block, folder, variables):
    """What is wrong with what a block of commands prints, or None. They are run by one shell."""
    commands = block.commands()
    script = ''.join('%s\nstatus=$?; echo "%s$status"; (exit "$status")\n' % (command, MARK) for command, _ in commands)
    try:
        done = subprocess.run(['sh', '-c', script], cwd=folder, env=variables, stdin=subprocess.DEVNULL,
                              stdout=subprocess.PIPE, stderr=subprocess.STDOUT, errors='replace', timeout=SECONDS)
    except subprocess.TimeoutExpired:
        return 'no end after %d seconds' % SECONDS
    parts = re.split(re.escape(MARK) + r'(\d+)\n', done.stdout)
    for number, (command, shown) in enumerate(commands):
        if 2 * number + 1 >= len(parts):
            return '`%s` is not reached: %r' % (command, done.stdout)
        printed, status = parts[2 * number:2 * number + 2]
        if shown and not re.fullmatch(pattern_of(shown), printed):
            return '`%s` prints %r' % (command, printed)
        if not shown and status != '0':
            return '`%s` ends with status %s: %s' % (command, status, printed[-2000:])
    return None


class Reader:
    """Who follows the documents: in a copy of the repository, and with a home of their own."""

    def __init__(self, runner, place):
        self.runner, self.top, self.home = runner, os.path.join(place, 'c104'), os.path.join(place, 'home')
        left_out = shutil.ignore_patterns('.git', 'out', 'build', '__pycache__')
        shutil.copytree(TOP, self.top, ignore=left_out)
        os.makedirs(os.path.join(self.top, 'crates', 'c104', 'out'))
        program = os.path.join(self.top, 'crates', 'c104', 'out', 'c104')
        shutil.copy(runner.program[0], program)
        fast = os.path.dirname(runner.program[0])
        if os.path.exists(os.path.join(fast, 'UNPROVED')):
            # newer than its sources here, so that make leaves it
            shutil.copytree(fast, os.path.join(self.top, 'build', 'fast'), copy_function=shutil.copy)
        tools = os.path.join(place, 'tools')
        for folder in (self.home, tools):
            os.mkdir(folder)
        self.write_stand_in(os.path.join(tools, 'rt'))
        path = [tools, os.path.join(self.home, '.local', 'bin'), os.path.join(self.top, 'bin'), os.path.dirname(sys.executable),
                os.environ['PATH']]
        left = {name: value for name, value in os.environ.items() if not name.startswith('MAKE') and name not in ('MFLAGS', 'C104')}
        self.variables = {**left, 'HOME': self.home, 'PATH': ':'.join(path), 'C104': program}

    def write_stand_in(self, path):
        rt = os.path.realpath(shutil.which('rt') or sys.exit('there is no command rt: the Rattle toolchain is wanted'))
        with open(path, 'w') as file:
            file.write(STAND_IN.format(python=sys.executable, rt=rt))
        os.chmod(path, 0o755)

    def run_page(self, page, blocks, folder):
        """Writes the files of a page, and runs its commands, in turn."""
        if not blocks:
            self.runner.judge(page, 'it has no blocks')
        for block in blocks:
            if block.file:
                with open(os.path.join(folder, block.file), 'w') as file:
                    file.write('\n'.join(block.lines) + '\n')
            else:
                self.runner.judge('%s:%d' % (page, block.line), run_block(block, folder, self.variables))

    def run_command(self, command):
        """Runs a command that a page names without showing what it prints."""
        block = Block('', 0, None, ['$ ' + RUN[command]])
        self.runner.judge('`%s`' % command, run_block(block, self.top, self.variables))

    def install_otherwise(self):
        """Below DESTDIR, and where sources are newer than what was built: nothing is proved for it, or packed."""
        for lines in (['$ make install DESTDIR=$HOME/stage PREFIX=/usr', '$ $HOME/stage/usr/bin/c104 --version',
                       '$ test -f $HOME/stage/usr/share/man/man1/c104.1', '$ $HOME/stage/usr/bin/c104-cuts --help'],
                      ['$ touch crates.txt', '$ make install PREFIX=$HOME/again',
                       'sources are newer than build/c104, which is installed as it stands', '...',
                       '$ cmp build/c104 $HOME/again/bin/c104'],
                      ['$ touch crates.txt', '$ make dist',
                       'build/c104 is missing or older than its sources, so it is not packed: run make first', '...']):
            self.runner.judge(lines[1], run_block(Block('', 0, None, lines), self.top, self.variables))

    def follow(self):
        self.run_command('make')
        self.run_page(README, blocks_of_markdown(README), self.top)
        for page in PAGES[1:] + [MANUAL]:
            blocks = blocks_of_manual(page) if page == MANUAL else blocks_of_markdown(page)
            if blocks:
                folder = os.path.join(self.home, os.path.basename(page))
                shutil.copytree(os.path.join(self.top, 'examples'), os.path.join(folder, 'examples'))
                self.run_page(page, blocks, folder)
        named = set().union(*map(commands_named, PAGES))
        for command in RUN:
            if command in named and command != 'make':
                self.run_command(command)
        self.install_otherwise()


def commands_named(page):
    return {' '.join((inline or block).split()) for inline, block in NAMED.findall(read(page))}


def anchors_of(page):
    """The names by which links lead to the headings of a page."""
    return {re.sub(r'[^\w\- ]', '', it.lower()).replace(' ', '-') for it in HEADING.findall(read(page))}


def is_there(page, link):
    """Whether a link of a page leads to a file, and to a heading of it where it names one."""
    file, _, anchor = link.partition('#')
    path = os.path.normpath(os.path.join(os.path.dirname(page), file)) if file else page
    return os.path.exists(os.path.join(TOP, path)) and (not anchor or anchor in anchors_of(path))


def judge_names(runner):
    """Judges the commands, the paths and the links that pages have, their length, and the manual page."""
    for page in PAGES:
        unknown = sorted(commands_named(page) - {*RUN} - {*NOT_RUN} - {'build/c104'})
        runner.judge('commands of ' + page, unknown and 'not run: %s' % ', '.join(unknown) or None)
        absent = sorted(it for it in {*PATH.findall(read(page))} if not os.path.exists(os.path.join(TOP, it)))
        absent += sorted(it for it in {*OF_A_CRATE.findall(read(page))} if not glob.glob(os.path.join(TOP, 'crates', '*', it)))
        runner.judge('paths of ' + page, absent and 'not there: %s' % ', '.join(absent) or None)
        broken = sorted(it for it in {*LINK.findall(read(page))} if not is_there(page, it))
        runner.judge('links of ' + page, broken and 'they lead nowhere: %s' % ', '.join(broken) or None)
    words = {page: len(read(page).split()) for page in PAGES if page != TOOLS_PAGE}
    for_users = sum(count for page, count in words.items() if not page.startswith(PROOF))
    for name, count, most in ((README, words[README], MOST_WORDS), ('what users read', for_users, MOST_FOR_USERS),
                              ('all pages', sum(words.values()), MOST_OF_ALL)):
        runner.judge('length of ' + name, None if count <= most else 'it has %d words' % count)
    judge_made(runner)


def judge_made(runner):
    """Pages that are made of texts of help are as these make them, and the manual page has no faults of form, where there is a
    groff to tell them."""
    for page, text in made_pages(runner.program).items():
        runner.judge(page + ' as it is made', None if read(page) == text else 'it is not: run tests/write_help PROGRAM')
    if shutil.which('groff'):
        told = subprocess.run(['groff', '-man', '-Tascii', '-ww', os.path.join(TOP, MANUAL)], capture_output=True,
                              timeout=SECONDS)
        runner.judge('form of the manual page', told.stderr.decode(errors='replace') or None)


def readers(runner):
    with tempfile.TemporaryDirectory(prefix='c104-documents-') as place:
        Reader(runner, place).follow()


PARTS = [judge_names, readers]
