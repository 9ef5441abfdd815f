"""What commands cost: the processor time of all that a command starts, and of each crate's proof in a run of rt."""

import os
import subprocess
import threading
import time

SECONDS_BETWEEN = 0.5
TICKS = os.sysconf('SC_CLK_TCK')


def shown(seconds):
    """Seconds as they stand in a table."""
    return '%d m %02d s' % divmod(round(seconds), 60)


def wait_for(process):
    """Waits for a process that was started, and returns the processor seconds of it and of all that it waited for."""
    _, status, usage = os.wait4(process.pid, 0)
    process.returncode = -os.WTERMSIG(status) if os.WIFSIGNALED(status) else os.WEXITSTATUS(status)
    return usage.ru_utime + usage.ru_stime


class Command:
    """A command that has begun. What it prints is shown as it comes, or else from when `show` is called; `heard` gets each
    line of it too."""

    def __init__(self, words, folder, heard=None, is_shown=True, **fields):
        self.began, self.wall, self.lines, self.heard = time.monotonic(), None, [], heard
        self.is_shown, self.showing = is_shown, threading.Lock()
        fields = {'stdin': subprocess.DEVNULL, **fields}
        self.process = subprocess.Popen(words, cwd=folder, stdout=subprocess.PIPE, stderr=subprocess.STDOUT, errors='replace',
                                        **fields)
        self.reader = threading.Thread(target=self.read)
        self.reader.start()

    def read(self):
        with self.process.stdout:
            for line in self.process.stdout:
                with self.showing:
                    self.lines.append(line.rstrip('\n'))
                    if self.is_shown:
                        print(line, end='', flush=True)
                if self.heard:
                    self.heard(line)
        self.wall = time.monotonic() - self.began

    def show(self):
        """Shows what was printed until now, and what is printed from now on."""
        with self.showing:
            self.is_shown = True
            print(''.join(line + '\n' for line in self.lines), end='', flush=True)

    def end(self):
        """Waits for the end, and returns the exit status, the lines, and the processor and wall seconds."""
        self.reader.join()
        processor = wait_for(self.process)
        return self.process.returncode, self.lines, processor, self.wall


# Processes, as /proc tells of them

def read_process(number):
    """The parent of a process, when it was started, and the seconds that it and its ended children have used."""
    try:
        with open('/proc/%s/stat' % number) as file:
            fields = file.read().rpartition(')')[2].split()
    except OSError:
        return None
    return int(fields[1]), fields[19], sum(map(int, fields[11:15])) / TICKS


def children_of():
    """The numbers of each process's children, and what is told of each process."""
    told = {int(it): read_process(it) for it in os.listdir('/proc') if it.isdigit()}
    told = {number: it for number, it in told.items() if it}
    children = {}
    for number, (parent, _, _) in told.items():
        children.setdefault(parent, []).append(number)
    return children, told


def proved_crate(number):
    """The crate that a process proves, without its tests; or None."""
    try:
        with open('/proc/%d/cmdline' % number, errors='replace') as file:
            words = file.read().split('\0')
    except OSError:
        return None
    is_check = os.path.basename(words[0]) == 'rattle' and words[1] in ('check', 'build') and '--crate-name' in words
    # rt ci proves a program by a check, and what it proved is then compiled, with nothing left to prove
    if not is_check or {'--test', '--crate-checked'} & {*words}:
        return None
    return words[words.index('--crate-name') + 1]


class ProofTimes:
    """Watches a run of `rt ci`, which prints no times: twice a second it looks at the processes that the run has
    started. What the prover of a crate uses after the last look is missed, half a second at the most."""

    def __init__(self):
        self.used, self.seen, self.ended = {}, {}, threading.Event()
        self.thread = None

    def start(self, number):
        self.thread = threading.Thread(target=self.watch, args=(number,), daemon=True)
        self.thread.start()

    def stop(self):
        self.ended.set()
        self.thread.join()

    def watch(self, number):
        while not self.ended.wait(SECONDS_BETWEEN):
            children, told = children_of()
            self.look_below(number, children, told)

    def look_below(self, number, children, told):
        """Finds the provers below a process. What a prover starts counts as its own."""
        for child in children.get(number, []):
            crate = proved_crate(child)
            if crate is None:
                self.look_below(child, children, told)
            else:
                self.note(crate, (child, told[child][1]), used_below(child, children, told))

    def note(self, crate, process, used):
        now = time.monotonic()
        first = self.seen.get((crate, process), (now, now))[0]
        self.seen[crate, process] = first, now
        self.used[crate, process] = max(used, self.used.get((crate, process), 0))

    def by_crate(self):
        """The processor and wall seconds of each crate's proof."""
        found = {}
        for (crate, process), used in self.used.items():
            first, last = self.seen[crate, process]
            processor, wall = found.get(crate, (0, 0))
            found[crate] = processor + used, wall + last - first
        return found


def used_below(number, children, told):
    """The seconds that a process has used, and all below it."""
    return told[number][2] + sum(used_below(it, children, told) for it in children.get(number, []))
