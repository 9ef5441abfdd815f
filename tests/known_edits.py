"""What earlier runs on this machine found of edits: those that the prover has refused, by a sum of all that they were tried on.

That is the crate's files and its line of crates.txt, the files of the crates below it, the toolchain, the edit, and the
files of this tool. The results are kept in a folder that is the user's alone. What came about beside a run of `rt ci`,
which had built the libraries itself, counts anywhere; what came about over a checkout's own libraries counts for such
runs alone.
"""

import contextlib
import hashlib
import json
import os
import stat
import sys
import tempfile

import toolchain

rt = toolchain.rt
HERE = os.path.dirname(os.path.abspath(__file__))
PLACE = os.path.join(toolchain.STORE, 'edits')
# How many results are kept, each of a few hundred bytes.
MOST = 20_000
GATE, CHECKOUT = 'gate', 'checkout'


def place():
    """The folder of what is kept, or None where nothing can be kept."""
    with contextlib.suppress(OSError):
        os.makedirs(PLACE, 0o700, exist_ok=True)
        if all(stat.S_ISDIR(it.st_mode) and it.st_uid == os.geteuid() for it in map(os.lstat, (toolchain.STORE, PLACE))):
            return PLACE if os.access(PLACE, os.W_OK) else None
    return None


def shrink():
    """Removes what was longest unused, where there is too much."""
    with contextlib.suppress(OSError):
        files = sorted(os.scandir(PLACE), key=lambda it: it.stat().st_mtime)
        for it in files[:max(0, len(files) - MOST)]:
            os.remove(it.path)


def sum_of_tool():
    """A sum of this tool's files, all that were loaded from this folder."""
    loaded = {getattr(it, '__file__', None) or '' for it in [*sys.modules.values()]} | {os.path.abspath(sys.argv[0])}
    files = sorted(it for it in loaded if os.path.dirname(os.path.abspath(it)) == HERE)
    return repr([(os.path.basename(it), rt.rtlib.sum_of(it)) for it in files])


def state_of(crate):
    """What tells whether a file of a crate, or of one below, was touched."""
    return [toolchain.touched(it) for it in [crate, *crate.below()]]


def are_its_own(crate):
    """Whether each library below a crate is told to be built from what stands there."""
    return all(it.is_built() for it in crate.below())


class KnownEdits:
    """What is known of a crate's edits from earlier runs: to be made before they are read. `by_gate` says whether this is a
    run beside `rt ci`."""

    def __init__(self, crate, by_gate, is_anew):
        self.crate, self.at = crate, place() if by_gate or are_its_own(crate) else None
        self.kind, self.kinds = (GATE, [GATE]) if by_gate else (CHECKOUT, [GATE, CHECKOUT])
        self.is_anew, self.state = is_anew, state_of(crate)
        self.sum = repr((toolchain.sum_below(crate), sum_of_tool())) if self.at else None

    def path(self, edit, kind):
        return os.path.join(self.at, hashlib.sha256(repr((self.sum, kind, edit.label, edit.text)).encode()).hexdigest())

    def refusal(self, edit):
        """How an earlier run told of an edit that it was refused, or None."""
        for kind in self.kinds if self.at and not self.is_anew else ():
            with contextlib.suppress(OSError, ValueError, KeyError, TypeError):
                path = self.path(edit, kind)
                with open(path, encoding='utf-8') as file:
                    found = json.load(file)
                if found['edit'] == edit.label and isinstance(found['refused'], str):
                    os.utime(path)
                    return found['refused']
        return None

    def keep(self, edit, how):
        """Keeps that an edit was refused, if nothing that it was tried on was touched meanwhile."""
        if not self.at or state_of(self.crate) != self.state:
            return
        with contextlib.suppress(OSError):
            path = self.path(edit, self.kind)
            with tempfile.NamedTemporaryFile('w', prefix='new-', dir=self.at, delete=False, encoding='utf-8') as file:
                json.dump({'edit': edit.label, 'refused': how}, file)
            os.replace(file.name, path)
