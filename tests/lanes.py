"""Checks side by side: as many as there are processors and memory for, those of a crate once it is proved."""

import contextlib
import os
import sys
import threading
import time
from concurrent.futures import ThreadPoolExecutor

import toolchain
from times import children_of

# What a run of rt ci that is followed says once it has passed.
PASSED = 'passed'
PAGE = os.sysconf('SC_PAGE_SIZE')
# What each processor's proof may yet take of the memory that is free while it runs.
BYTES_PER_PROOF = 1_500_000_000
LOWEST_PRIORITY = 19


class Proofs:
    """Which crates are proved. Where a run of `rt ci` is followed, standard input says so: a line for each crate as soon as
    it is, and a last line where all have passed. Else all that there are were proved before."""

    def __init__(self, are_followed):
        self.names, self.have_ended, self.news = set(), not are_followed, threading.Condition()
        if are_followed:
            os.nice(LOWEST_PRIORITY)
            threading.Thread(target=self.read, daemon=True).start()

    def read(self):
        for line in sys.stdin:
            with self.news:
                self.have_ended = line.strip() == PASSED
                self.names.add(line.strip())
                self.news.notify_all()
            if self.have_ended:
                return
        print('the proofs that were followed did not pass', flush=True)
        os._exit(1)  # and all that was started ends with this process

    def has(self, crate):
        """Whether a crate and all below it are proved."""
        return self.have_ended or self.names.issuperset(it.name for it in [crate, *crate.below()])


def resident_below(number, children):
    """The memory that all processes below one hold."""
    held = 0
    for child in children.get(number, []):
        with contextlib.suppress(OSError), open('/proc/%d/statm' % child) as file:
            held += int(file.read().split()[1]) * PAGE
        held += resident_below(child, children)
    return held


class Memory:
    """What checks may take of the memory. Each begins once as much is free as it is likely to need, beside what those that
    run may yet take."""

    def __init__(self, proofs):
        self.proofs, self.promised, self.lock = proofs, 0, threading.Lock()

    def take(self, much):
        """Promises memory to a check, if it is there. The last one that is left to run gets it in any case."""
        with self.lock:
            growing = max(0, self.promised - resident_below(os.getpid(), children_of()[0]))
            others = 0 if self.proofs.have_ended else BYTES_PER_PROOF * toolchain.rt.processors()
            if (self.promised or others) and toolchain.rt.free() - growing - others < much:
                return False
            self.promised += much
            return True

    @contextlib.contextmanager
    def of_check(self, much):
        while not self.take(much):
            time.sleep(2)
        try:
            yield
        finally:
            with self.lock:
                self.promised -= much


class Lanes:
    """Tasks, each of a crate, that are run side by side, the heaviest first. While proofs are followed they leave them a
    processor; with none to follow, one is left free where there are more than two."""

    def __init__(self, proofs, jobs=None):
        processors = toolchain.rt.processors()
        self.proofs, self.news = proofs, proofs.news
        self.beside = jobs or max(1, processors - 1)
        self.most = jobs or (max(1, processors - (processors > 2)) if proofs.have_ended else processors)
        self.memory, self.tasks, self.running = Memory(proofs), [], 0

    def add(self, crate, weight, call, *given):
        with self.news:
            self.tasks.append((weight, crate, call, given))
            self.news.notify_all()

    def next_task(self):
        """Takes out the heaviest task that can begin now, if there is one."""
        ready = [it for it in self.tasks if self.proofs.has(it[1])]
        if not ready or self.running >= (self.most if self.proofs.have_ended else self.beside):
            return None
        task = max(ready, key=lambda it: it[0])
        self.tasks.remove(task)
        self.running += 1
        return task

    def work(self, call, given):
        try:
            call(*given)
        finally:
            with self.news:
                self.running -= 1
                self.news.notify_all()

    def run(self):
        """Runs all tasks, and those that they add."""
        begun = []
        with ThreadPoolExecutor(max(self.most, self.beside)) as pool, self.news:
            while self.tasks or self.running:
                task = self.next_task()
                if task:
                    begun.append(pool.submit(self.work, *task[2:]))
                else:
                    self.news.wait()
        for it in begun:
            it.result()
