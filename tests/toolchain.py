"""Checks of copies of a crate, over the libraries that an earlier run left in out/rlib.

The command rt checks a crate where it stands and builds its libraries itself. What is tried here is a
changed copy, often right after `rt ci`. So rt's own Python files are loaded: the words for a check, and
what a crate stands on, are those that rt uses. Kits differ in what else these files have, so what they lack
in one or the other stands here.
"""

import contextlib
import hashlib
import importlib.machinery
import importlib.util
import os
import re
import shutil
import subprocess
import tempfile
import time

from times import wait_for

TOP = os.path.dirname(os.path.dirname(os.path.abspath(__file__)))
# What is kept for later runs on this machine.
STORE = os.path.join(os.environ.get('XDG_CACHE_HOME') or os.path.expanduser('~/.cache'), 'c104')
# A check that reached the prover ends in a line that begins so.
LAST_LINES = ('logic=', 'only=')
# The most memory that a check of many copies has been seen to take.
BYTES_PER_CHECK = 3_500_000_000


def load_rt():
    """The command rt as a module."""
    found = shutil.which('rt')
    if found is None:
        raise SystemExit('there is no command rt: the Rattle toolchain is wanted')
    loader = importlib.machinery.SourceFileLoader('rt_command', os.path.realpath(found))
    module = importlib.util.module_from_spec(importlib.util.spec_from_loader('rt_command', loader))
    loader.exec_module(module)
    return module


rt = load_rt()


def start():
    """To be called first, by the main thread: all that is started from now on ends with this process."""
    rt.rtlib.guarded()


def crates(top=TOP):
    """The crates of a repository, lowest first."""
    return rt.rtlib.crates_below(top)


def share_work():
    """Has rt take what other copies of the repository on this machine have proved, where the kit keeps that."""
    if hasattr(rt, 'share_work'):
        rt.share_work(is_alone=True)


def files_of(crate):
    """The files that the prover reads of a crate, in order."""
    for part in rt.rtlib.PARTS:
        for at, folders, names in os.walk(os.path.join(crate.folder, part)):
            folders.sort()
            yield from (os.path.join(at, it) for it in sorted(names))


def touched(crate):
    """What tells whether a file of a crate was touched."""
    with contextlib.suppress(OSError):
        found = [(it, os.stat(it)) for it in files_of(crate)]
        return [(path, it.st_mtime_ns, it.st_ino, it.st_size) for path, it in found]
    return None


def sum_below(crate):
    """A sum of all that the proof of a crate rests on: its files, those of the crates below it, what stands on what, and the
    toolchain."""
    version = subprocess.run(['rt', 'version'], check=True, stdout=subprocess.PIPE).stdout
    found = hashlib.sha256(version)
    for it in [crate, *crate.below()]:
        found.update(repr((it.name, [dep.name for dep in it.below()], sorted(it.of_kit))).encode())
        for file in files_of(it):
            found.update(repr((os.path.relpath(file, it.folder), rt.rtlib.sum_of(file))).encode())
    return found.hexdigest()


def copy_kept(folder, to):
    """Copies what checks have kept, for checks that are to change nothing of it."""
    shutil.copytree(folder, to, copy_function=shutil.copyfile)


def missing_library(crate):
    """A library below a crate that isn't built, or was built from other texts than stand there; or None.

    `rt ci` leaves libraries without a stamp of their texts: those are taken as they are."""
    for library in crate.below():
        has_stamp = os.path.exists(os.path.join(os.path.dirname(library.rlib), 'stamp'))
        if not os.path.isdir(library.rlib) or has_stamp and not library.is_built():
            return library.name
    return None


def copy_crate(crate, place):
    """Copies what the prover reads of a crate."""
    for part in rt.rtlib.PARTS:
        folder = os.path.join(crate.folder, part)
        if os.path.isdir(folder):
            shutil.copytree(folder, os.path.join(place, part))


def run_measured(words, folder):
    """The exit status of a command, all that it printed, and its processor seconds."""
    process = subprocess.Popen([*rt.rtlib.guarded(), *words], cwd=folder, errors='replace',
                               stdin=subprocess.DEVNULL, stdout=subprocess.PIPE,
                               stderr=subprocess.STDOUT)
    with process.stdout:
        output = process.stdout.read()
    processor = wait_for(process)
    return process.returncode, output, processor


class Check:
    """A check of a changed copy of a crate: its exit status, its lines, and what they say of each function."""

    def __init__(self, crate, change, jobs=1, kept=None, only=()):
        """`change` is called with the folder of the copy. `kept` is a folder in which checks keep what they
        proved. Where `only` names functions, they and what they call are proved, and nothing else."""
        words = ['--incremental', kept] if kept else []
        words += [word for name in only for word in ('--only', name)]
        began = time.monotonic()
        with tempfile.TemporaryDirectory(prefix='check-') as place:
            copy_crate(crate, place)
            change(place)
            words = crate.words(['--jobs', str(jobs), *words], keeps=False)
            self.status, output, self.processor = run_measured([rt.rtlib.RATTLE, 'check', *words], place)
        self.wall = time.monotonic() - began
        self.lines = output.rstrip('\n').split('\n')
        self.functions = dict(re.findall(r'^fn (\S+): (.*)$', output, re.MULTILINE))

    def is_told(self):
        """Whether the check reached the prover, and the prover came to its end."""
        return self.status in (0, 1) and self.lines[-1].startswith(LAST_LINES)

    def errors(self):
        """The file, the line number and the text of each error."""
        found = (re.match(r'(?:\./)?(\S+?):(\d+):\d+: (error.*)', line) for line in self.lines)
        return [(it.group(1), int(it.group(2)), it.group(3)) for it in found if it]
