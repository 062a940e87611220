"""The program of these sources: found in built/, or built there, proved or not, with a line that says how far that is.

A program is kept under a sum of all that it was made from. If a source changes, the sum is another, so an old program
is never run for the new sources."""
import fcntl
import hashlib
import json
import os
import re
import shutil
import signal
import stat
import subprocess
import sys
import time

TOOLS = os.path.dirname(os.path.dirname(os.path.realpath(__file__)))
TOP = os.path.dirname(TOOLS)
INSTALLED = os.path.join(TOOLS, 'installed.json')       # only where tools/install put these modules
BUILT = os.path.join(TOP, 'built')
PROGRAM = 'galley_pages'        # the crate of the program

# What a crate is made from. A program that is not proved does not depend on proofs.
PARTS = {'proved': ('src', 'specs', 'proofs'), 'unproved': ('src', 'specs')}
UNPROVED = os.path.join('bench', 'unproved.py')

EVERY = 10                      # seconds between two lines that say that work goes on
LAST_LINES = 20                 # of a log, where a build fails


class NotBuilt(Exception):
    """There is no program, and why."""


class Program:
    """A program: its path, and whether it is proved; None if that is not known."""

    def __init__(self, path, proved):
        self.path = path
        self.proved = proved

    def note(self):
        """What to say of it at each run, '' if nothing."""
        if self.proved is not False:
            return ''
        how = 'tools/install --proved installs' if installed() else 'examples/run --proved builds'
        return 'this program is not proved; %s the proved one' % how


def kit():
    """The toolchain's line."""
    found = shutil.which('rt')
    if found is None:
        raise NotBuilt("the toolchain's `rt` is not on the path")
    line = os.path.join(os.path.dirname(os.path.dirname(os.path.realpath(found))), 'KIT-ID')
    if os.path.isfile(line):            # what `rt version` prints, without the time that it takes
        with open(line, encoding='utf-8') as file:
            return file.read().strip()
    return subprocess.run(['rt', 'version'], stdout=subprocess.PIPE, text=True, check=True).stdout.strip()


def sources(parts):
    """The files that a program is made from, in a fixed order."""
    found = ['crates.txt'] + [UNPROVED] * ('proofs' not in parts)
    crates = os.path.join(TOP, 'crates')
    for crate in sorted(os.listdir(crates)):
        for part in parts:
            for folder, _, names in os.walk(os.path.join(crates, crate, part)):
                found += [os.path.relpath(os.path.join(folder, name), TOP) for name in names]
    return sorted(found)


def sum_of(parts, line):
    """A sum of the toolchain's line and of all sources."""
    total = hashlib.sha256(line.encode())
    for name in sources(parts):
        with open(os.path.join(TOP, name), 'rb') as file:
            total.update(b'\0%s\0%s' % (name.encode(), hashlib.sha256(file.read()).digest()))
    return total.hexdigest()[:16]


def place(kind, line):
    """Where the program of these sources is kept, proved or unproved."""
    return os.path.join(BUILT, '%s.%s' % (kind, sum_of(PARTS[kind], line)))


def named():
    """The program that GALLEY_PAGES names, None if it names none."""
    path = os.environ.get('GALLEY_PAGES')
    if not path:
        return None
    if not (os.path.isfile(path) and os.access(path, os.X_OK)):
        raise NotBuilt('GALLEY_PAGES is no program: %s' % path)
    return Program(os.path.abspath(path), None)


def installed():
    """What tools/install wrote of the program that it installed; None in the repository."""
    if not os.path.isfile(INSTALLED):
        return None
    with open(INSTALLED, encoding='utf-8') as file:
        return json.load(file)


def installed_program():
    """The installed program, None in the repository."""
    known = installed()
    if known is None:
        return None
    path = os.path.normpath(os.path.join(TOOLS, known['path']))
    if not os.access(path, os.X_OK):
        raise NotBuilt('the installed program is gone: %s' % path)
    return Program(path, {'proved': True, 'not proved': False}.get(known['program']))


def kept(kinds=('proved', 'unproved')):
    """The program that was built from these sources, the proved one if it is there; None without one."""
    line = kit()
    for kind in kinds:
        path = place(kind, line)
        if os.access(path, os.X_OK):
            return Program(path, kind == 'proved')
    return None


def find(proved, who):
    """The program that GALLEY_PAGES names, else the installed one, else that of these sources, which is built where there
    is none."""
    return (named() or installed_program() or kept(('proved',) if proved else ('proved', 'unproved'))
            or build(proved, who))


def build(proved, who):
    """Builds the program of these sources. A second call meanwhile waits for the first."""
    signal.signal(signal.SIGTERM, signal.default_int_handler)       # so that what runs below ends too
    os.makedirs(BUILT, exist_ok=True)
    kind = 'proved' if proved else 'unproved'
    with open(os.path.join(BUILT, 'lock'), 'w', encoding='utf-8') as lock:
        wait_for(lock, who)
        there = kept((kind,))
        if there:
            return there
        path = place(kind, kit())
        log = os.path.join(BUILT, kind + '.log')
        fresh = path + '.new'
        if proved:
            build_proved(who, log, fresh)
        else:
            build_unproved(who, log, fresh)
        if path != place(kind, kit()):
            raise NotBuilt('a source changed while the program was built: run this again')
        return keep(fresh, path, kind)


def fault_of(path):
    """Why a file can't be read, '' if it can."""
    try:
        if stat.S_ISDIR(os.stat(path).st_mode):
            return '%s is a folder' % path
    except OSError as error:
        return '%s: %s' % (path, error.strerror)
    return '' if os.access(path, os.R_OK) else '%s may not be read' % path


def keep_streams():
    """Opens each standard stream that is closed so that it fails as a closed one does, and no file takes its place."""
    for stream, way in ((0, os.O_WRONLY), (1, os.O_RDONLY), (2, os.O_WRONLY)):
        try:
            os.fstat(stream)
        except OSError:
            os.open(os.devnull, way)


def wait_for(lock, who):
    """Takes the lock, and says so while another call has it."""
    progress = Progress(who + ': another call builds the program: waiting')
    while True:
        try:
            fcntl.flock(lock, fcntl.LOCK_EX | fcntl.LOCK_NB)
            break
        except OSError:
            progress.say()
            time.sleep(0.5)
    progress.clear()


def keep(fresh, path, kind):
    """Puts a program that was built where it is looked for, and removes those of other sources."""
    for name in os.listdir(BUILT):
        if name.startswith(kind + '.') and not name.endswith(('.log', '.new')):
            os.remove(os.path.join(BUILT, name))
    os.replace(fresh, path)
    return Program(path, kind == 'proved')


def build_unproved(who, log, made):
    """Builds the program without a proof."""
    say('%s: galley_pages is not built yet. Building it without a proof takes about two minutes, once. The log is %s.' % (
        who, shown(log)))
    with open(log, 'wb') as out:
        step = Step([sys.executable, os.path.join(TOP, UNPROVED), made], TOP, out)
        if step.run(who + ': building') != 0:
            raise NotBuilt(failure('the program was not built', log))


def build_proved(who, log, made):
    """Proves each crate that the program stands on, then builds it."""
    crates = reached(PROGRAM)
    jobs = str(len(os.sched_getaffinity(0)))
    say('%s: proving and building the %d crates of galley_pages. It takes about half an hour on four free processors, once; '
        'what was proved is kept. The log is %s.' % (who, len(crates), shown(log)))
    begun = time.monotonic()
    with open(log, 'wb') as out:
        for number, crate in enumerate(crates, 1):
            # `rt run` also runs the program, once, on the crate's own input.
            verb, given = ('run', 'stdin') if crate == PROGRAM else ('lib', os.devnull)
            step = Step(['rt', verb, '--jobs', jobs], os.path.join(TOP, 'crates', crate), out, given)
            label = '%2d of %d  %-12s' % (number, len(crates), crate)
            if step.run(label) != 0:
                raise NotBuilt(failure('%s was not proved' % crate, log))
            say('%s  %s' % (label, duration(step.seconds())))
    shutil.copy2(os.path.join(TOP, 'crates', PROGRAM, 'out', PROGRAM), made)
    say('%s: proved and built in %s' % (who, duration(time.monotonic() - begun)))


def reached(program):
    """The crates that the program stands on, each after those below it, and the program last."""
    below = {}
    with open(os.path.join(TOP, 'crates.txt'), encoding='utf-8') as lines:
        for line in lines:
            head, colon, rest = line.partition('#')[0].partition(':')
            if colon:
                below[head.split()[0]] = rest.split()
    order = []

    def visit(crate):
        if crate in below and crate not in order:
            for dep in below[crate]:
                visit(dep)
            order.append(crate)

    visit(program)
    return order


class Step:
    """A command that runs for long, with its output in a log."""

    def __init__(self, words, folder, log, given=os.devnull):
        self.words = words
        self.folder = folder
        self.log = log
        self.given = os.path.join(folder, given)        # what it reads
        self.start = os.path.getsize(log.name)          # where its part of the log begins
        self.begun = time.monotonic()

    def seconds(self):
        return time.monotonic() - self.begun

    def told(self):
        """How far the command says that it is, '' if it does not."""
        with open(self.log.name, 'rb') as log:
            log.seek(max(self.start, os.path.getsize(self.log.name) - 4000))
            found = re.findall(rb'so far: (\d+ of \d+ functions)', log.read())
        return found[-1].decode() if found else ''

    def run(self, label):
        """Runs the command and returns its status. A line says that it runs, at least every ten seconds."""
        progress = Progress(label)
        with open(self.given, 'rb') as given, subprocess.Popen(
                self.words, cwd=self.folder, stdin=given, stdout=self.log, stderr=subprocess.STDOUT) as child:
            while True:
                try:
                    status = child.wait(0.5)
                    break
                except subprocess.TimeoutExpired:
                    progress.say(self.told)
                except BaseException:
                    child.terminate()
                    raise
        progress.clear()
        return status


class Progress:
    """A line on standard error that tells the time: on a terminal one line that changes, else a line every ten seconds."""

    def __init__(self, label):
        self.label = label
        self.begun = self.last = time.monotonic()
        self.is_terminal = sys.stderr.isatty()
        self.shown = False

    def say(self, more=lambda: ''):
        now = time.monotonic()
        if now - self.last < (1 if self.is_terminal else EVERY):
            return
        self.last = now
        text = '%s  %s .. %s' % (self.label, duration(now - self.begun), more())
        text = text.rstrip()
        if self.is_terminal:
            sys.stderr.write('\r' + text + '\033[K')
            sys.stderr.flush()
            self.shown = True
        else:
            say(text)

    def clear(self):
        if self.shown:
            sys.stderr.write('\r\033[K')
            sys.stderr.flush()


def duration(seconds):
    """`3 min 10 s`, `8 s`."""
    minutes, rest = divmod(int(seconds), 60)
    return '%d min %d s' % (minutes, rest) if minutes else '%d s' % rest


def failure(what, log):
    """What failed, with the end of its log."""
    with open(log, encoding='utf-8', errors='replace') as lines:
        end = lines.read().splitlines()[-LAST_LINES:]
    return '\n'.join([what + '. The log ends:'] + ['  ' + line for line in end] + ['All of it is in %s' % shown(log)])


def shown(path):
    """A path as a reader of the repository names it."""
    near = os.path.relpath(path)
    return path if near.startswith('..') else near


def say(text):
    print(text, file=sys.stderr, flush=True)
