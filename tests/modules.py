"""The source files of a crate, by its modules."""

import os
import re

from sources import read_text

MODULE = re.compile(r'^(?:pub )?mod (\w+);', re.MULTILINE)


def files_of(folder):
    """The source files of a crate: those of each module in the order in which its parent names them."""
    root = next(it for it in ('lib.rt', 'main.rt') if os.path.exists(os.path.join(folder, it)))
    return [root, *(file for name in MODULE.findall(read_text(folder, root)) for file in files_from(folder, name))]


def files_from(folder, path):
    text = read_text(folder, path + '.rt')
    return [path + '.rt', *(file for name in MODULE.findall(text) for file in files_from(folder, path + '/' + name))]
