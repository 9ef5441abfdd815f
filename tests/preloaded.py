"""Libraries that are preloaded into a program, to refuse it what it asks for."""

import os
import shlex
import subprocess
import sys


def build_library(source, folder):
    """Compiles a library into a folder, by $CC or else cc, and returns its path."""
    path = os.path.join(folder, os.path.basename(source).removesuffix('.c') + '.so')
    compiler = shlex.split(os.environ.get('CC') or 'cc')
    try:
        subprocess.run([*compiler, '-O2', '-shared', '-fPIC', '-o', path, source, '-ldl'], check=True)
    except (OSError, subprocess.CalledProcessError) as error:
        sys.exit('%s is not compiled, for which a C compiler is wanted: %s' % (source, error))
    return path
