"""Runs `c104-page`, whose page plays a run, and the waves of `c104-draw`.

What the page shows is compared with the program's own rows and registers, and with what is known by hand of the ring that
locks. It is tried in Debian's chromium, by keys, and the waves by GTKWave's tools. Where one of these or make isn't there, a line
says what is skipped; what the page is given is compared all the same.
"""

import csv
import io
import json
import os
import re
import shutil
import subprocess
import tempfile

import browser
from case_runner import EXAMPLES, SECONDS, TOP
from kinds.states import LINE
from page_checks import ASKED, RING_LINKS, by_round

PAGE, DRAW = (os.path.join(TOP, 'bin', it) for it in ('c104-page', 'c104-draw'))
# b's packet holds the link from B to C, and a's waits for it, up to the round in which the end of b's has left.
BLOCKED = (b'send b 02 ' + b'01 ' * 31 + b'eop\nrounds 2\nsend a 02 ' + b'01 ' * 31 + b'eop\nrounds 90\n')
RING_WANTS = {'d 0/A.2/A.1', 'a 0/B.2/B.1', 'b 0/C.2/C.1', 'c 0/D.2/D.1'}


def example(name):
    with open(os.path.join(EXAMPLES, name), 'rb') as file:
        return file.read()


def runs():
    """The runs that are played: the description and the script of each."""
    mesh = re.split(rb'^script\n', example('mesh-all-to-all.txt'), maxsplit=1, flags=re.MULTILINE)
    return {'ring': (example('ring.txt'), example('ring-packets.txt')), 'mesh': tuple(mesh), 'line': (LINE, BLOCKED)}


class Played:
    """A run that is played: its files in a folder, the program's rows, and the page."""

    def __init__(self, runner, folder, name, description, script):
        self.runner, self.name = runner, name
        self.paths = [os.path.join(folder, '%s-%s.txt' % (name, it)) for it in ('network', 'script')]
        for path, text in zip(self.paths, (description, script)):
            with open(path, 'wb') as file:
                file.write(text)
        self.script, self.page = script, os.path.join(folder, name + '.html')
        # the last row tells the last round that is shown
        self.rows = self.table('holds')[:-1]
        self.last = max(it['last'] for it in self.rows)

    def table(self, what):
        """The rows of a table of the program, without the packet's number on its way."""
        text = self.runner.run(words=['rows', *self.paths, '--what', what])[1].decode()
        return [{name: None if cell == '' else int(cell) if cell.isdigit() else cell for name, cell in row.items() if name != 'packet'}
                for row in csv.DictReader(io.StringIO(text))]

    def asked(self, tool, *words):
        """What a tool prints of the run, and what is wrong, or None."""
        variables = {**os.environ, 'C104': self.runner.program[0]}
        done = subprocess.run([tool, *self.paths, *words], env=variables, capture_output=True, timeout=SECONDS)
        return done.stdout, 'status %d: %s' % (done.returncode, done.stderr.decode()) if done.returncode else None

    def write(self, *words):
        """Writes the page, and returns what is wrong, or None."""
        return self.asked(PAGE, '-o', self.page, *words)[1]

    def data(self):
        with open(self.page, encoding='utf-8') as file:
            found = re.search(r'id="data">(.*?)</script>', file.read(), re.DOTALL)
        return json.loads(found[1])

    def moving(self, number):
        """How many tokens cross in a round."""
        return sum(it['state'] == 'moves' and it['first'] <= number <= it['last'] for it in self.rows)

    def levels(self):
        """How many tokens wait in the output of each link behind each round, as `link` reads its registers."""
        ports = sorted({it['port'] for it in self.rows if '.' in it['port']})
        lines, reads = [], []
        for line in self.script.decode().splitlines():
            words = line.split()
            for _ in range(int(words[1]) if words[:1] == ['rounds'] else 0):
                reads += [(len(lines) + 1 + k, port) for k, port in enumerate(ports)]
                lines += ['link ' + port for port in ports] + ['rounds 1']
            lines += [line] if words[:1] != ['rounds'] else []
        out = self.runner.run(words=['run', self.paths[0], '-'], data='\n'.join(lines).encode() + b'\n')[1].decode()
        told = dict(re.findall(r'^(\d+): in \d+ out (\d+) ', out, re.M))
        found = {}
        for line, port in reads:
            found.setdefault(port, []).append(int(told[str(line)]))
        return {port: values[:self.last + 1] for port, values in found.items()}


def wrong_data(played):
    """What is wrong with what the page of a run is given, or None."""
    data, last = played.data(), played.last
    if data['bars'] != [list(it.values()) for it in played.rows]:
        return 'the rows are %s' % data['bars']
    if data['packets'] != played.table('packets'):
        return 'the packets are %s' % data['packets']
    due = played.levels()
    found = {port: by_round(data['waits'].get(port, []), last) for port in due}
    if found != due:
        return 'outputs: wanted %s, found %s' % (due, found)
    # what a terminal has sent by `send` and what has crossed from it leaves what waits there
    for name in data['terminals']:
        left = by_round(data['waits'].get(name, []), last)
        crossed = [sum(it['port'] == name and it['state'] == 'moves' and it['first'] <= number <= it['last'] for it in played.rows)
                   for number in range(last + 1)]
        sent = [sum(it['bytes'] + 1 for it in data['packets'] if it['sender'] == name and it['sent'] <= number) for number in range(last + 1)]
        due = [all_sent - sum(crossed[:number + 1]) for number, all_sent in enumerate(sent)]
        if left != due:
            return 'what waits at %s: wanted %s, found %s' % (name, due, left)
    return None


def wrong_lock(played):
    """Each switch of the ring holds a header, and behind that 7 tokens in its input; its output is full, and what waits for
    itself is so from the round on behind which nothing moves."""
    data, last = played.data(), played.last
    found = ({port for port, rows in data['locked'].items() if by_round(rows, last)[-1]},
             {want for want, rows in data['wants'].items() if by_round(rows, last)[-1] == 2},
             [by_round(data['came'][to], last)[-1] for to in RING_LINKS.values()],
             [by_round(data['waits'][port], last)[-1] for port in RING_LINKS], len(data['wires']))
    due = (set(RING_LINKS), RING_WANTS, [8] * 4, [8] * 4, 8)
    if found != due:
        return 'wanted %s, found %s' % (due, found)
    froms = {rows[0][0] for rows in data['locked'].values()}
    stop = int(re.match(r'stands still after round (\d+)', data['still'][0])[1])
    return None if froms == {stop} else 'locked from %s, and nothing moves behind %d' % (froms, stop)


def wrong_wants(played):
    """a's header comes to B in round 4, behind b's packet, and wants the link to C until the end of that has left B's input,
    in round 33: the 33 tokens of b cross to B in rounds 1 to 33."""
    rows = played.data()['wants'].get('a 0/B.1/B.2')
    return None if rows == [[4, 1], [33, 0]] else 'wanted in %s' % rows


# What is asked of what a page is given, without a browser.
GIVEN = {'what is given of the ring': ('ring', wrong_data), 'what is given of the mesh': ('mesh', wrong_data),
         'what is given of the line': ('line', wrong_data), 'the lock of the ring': ('ring', wrong_lock),
         'what is wanted for a time': ('line', wrong_wants)}


def given(runner):
    asked = {name: it for name, it in GIVEN.items() if runner.wanted(name)}
    with tempfile.TemporaryDirectory() as folder:
        pages = {run: Played(runner, folder, run, *runs()[run]) for run in {run for run, _ in asked.values()}}
        wrong = {run: played.write() for run, played in pages.items()}
        for name, (run, ask) in asked.items():
            runner.judge(name, wrong[run] or ask(pages[run]))


def skips(runner, what, *commands):
    """Says what is skipped, where a command isn't there."""
    absent = [it for it in commands if not shutil.which(it)]
    if absent:
        print('skipped %s/%s: there is no %s' % (runner.kind, what, ' and no '.join(absent)), flush=True)
    return bool(absent)


def browsed(runner):
    """The pages in a browser. Where it fails, all that is left to ask fails by that."""
    asked = [(name, what) for name in runs() for what in ASKED if runner.wanted('%s in a browser: %s' % (name, what))]
    if not asked or skips(runner, 'pages in a browser', *[] if browser.program() else ['chromium']):
        return
    left = iter(asked)
    with tempfile.TemporaryDirectory() as folder:
        try:
            with browser.Browser() as tab:
                ask_all(runner, tab, folder, left)
        except browser.Failed as failed:
            for name, what in left:
                runner.judge('%s in a browser: %s' % (name, what), str(failed))


def ask_all(runner, tab, folder, asked):
    """Asks of each run what is to be asked, from its page anew."""
    played = wrong = None
    for name, what in asked:
        case = '%s in a browser: %s' % (name, what)
        try:
            if not played or played.name != name:
                played = Played(runner, folder, name, *runs()[name])
                wrong = played.write()
                if not wrong:
                    tab.open('file://' + played.page)
            runner.judge(case, wrong or ASKED[what](tab, played))
        except browser.Failed as failed:
            runner.judge(case, str(failed))
            raise


def made(runner):
    """`make page` writes the page of a run, and says where."""
    name = 'make page'
    if not runner.wanted(name) or skips(runner, name, 'make'):
        return
    with tempfile.TemporaryDirectory() as folder:
        played = Played(runner, folder, 'ring', *runs()['ring'])
        page = os.path.join(folder, 'made.html')
        description, script = played.paths
        words = ['make', '--no-print-directory', 'page', 'PAGE=' + page, 'DESC=' + description, 'SCRIPT=' + script]
        left = {name: value for name, value in os.environ.items() if not name.startswith('MAKE') and name != 'MFLAGS'}
        left['C104'] = runner.program[0]
        done = subprocess.run(words, cwd=TOP, env=left, capture_output=True, text=True, timeout=SECONDS)
        wrong = played.write()
        same = not done.returncode and not wrong and open(page, 'rb').read() == open(played.page, 'rb').read()
        runner.judge(name, None if same and page in done.stdout else 'status %d: %s%s' % (done.returncode, done.stdout, done.stderr))


def rows_of_waves(text):
    """The rows that waves tell: for each way the packets on it, with the rounds and whether a token crosses in them."""
    names, values, begun, scope, time, found = {}, {}, {}, '', 0, []

    def end(port):
        packet, moves, since = begun.pop(port)
        found.append((port, packet, since, time - 1, moves))

    def step():
        for port in {port for port, _ in names.values()}:
            now = (values.get((port, 'packet'), ''), values.get((port, 'token')) == '1')
            if port in begun and begun[port][:2] != now:
                end(port)
            if now[0] and port not in begun:
                begun[port] = (*now, time)

    for line in text.splitlines():
        words = line.split()
        if line.startswith('$scope'):
            scope = words[2]
        elif line.startswith('$var'):
            link, _, kind = words[4].rpartition('_')
            names[words[3]] = (scope + link.replace('link', '.'), kind)
        elif line.startswith('#'):
            step()
            time = int(line[1:])
        elif line[:1] in ('0', '1') and line[1:] in names:
            values[names[line[1:]]] = line[0]
        elif line.startswith('s') and words[-1] in names:
            values[names[words[-1]]] = words[0][1:] if len(words) > 1 else ''
    step()
    return sorted(found)


def waved(runner):
    """GTKWave's own tool reads the waves, and what it writes of them again has the program's rows."""
    for name, run in runs().items():
        name = 'waves of the ' + name
        if not runner.wanted(name) or skips(runner, name, 'vcd2fst', 'fst2vcd'):
            continue
        with tempfile.TemporaryDirectory() as folder:
            played = Played(runner, folder, 'run', *run)
            runner.judge(name, wrong_waves(folder, played))


def wrong_waves(folder, played):
    vcd, fst, again = (os.path.join(folder, it) for it in ('run.vcd', 'run.fst', 'again.vcd'))
    wrong = played.asked(DRAW, '--over-time', '--format', 'vcd', '-o', vcd)[1]
    for words in (['vcd2fst', '-v', vcd, '-f', fst], ['fst2vcd', '-f', fst, '-o', again]):
        if not wrong:
            done = subprocess.run(words, capture_output=True, timeout=SECONDS)
            wrong = 'status %d: %s' % (done.returncode, done.stderr.decode()) if done.returncode else None
    if wrong:
        return wrong
    due = sorted((it['port'], '%s_%s' % (it['sender'], it['number']) if it['sender'] else '?', it['first'], it['last'],
                  it['state'] == 'moves') for it in played.rows)
    with open(again) as file:
        found = rows_of_waves(file.read())
    return None if found == due else 'wanted %s, found %s' % (due, found)


PARTS = [given, browsed, made, waved]
