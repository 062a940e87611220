"""The command galley-pages: the program with files, help, explained refusals, JSON, and sizes in points."""
import argparse
import json
import os
import select
import subprocess
import sys
import tempfile

from . import (about, best, best_words, messages, points, program, report, settings, spread_words, spreads, story, why,
               why_data, why_tries)

MODES = ('report', 'trace', 'rate', 'best', 'why', 'plain', 'print', 'lines', 'dvi', 'dvilist', 'gen')
REPORTS = ('report', 'trace', 'plain')      # the modes whose output is a page report
TOLD = ('best', 'why')                      # the modes whose output is told in words
MOST = 8388608                              # bytes of an input
WHO = 'galley-pages'

USAGE = """usage: galley-pages [MODE] [FILE ..] [-o OUT] [--json | --points] [--count N] [--quiet]
       galley-pages best [FILE] [--spreads] [-o OUT] [--json | --raw] [--quiet]
       galley-pages why [FILE [NAME [LINE]]] [-o OUT] [--json | --raw] [--quiet]
       galley-pages --help | --version

Makes the pages of a galley, and tells where each page ends and where each box, float and note stands.

MODE     what is made (report where none is named):
  report   the page report of a galley
  trace    the same, with each place at which a page was weighed, and its cost
  rate     the same, with how good each text column is, and the sum of their demerits
  best     the page breaks that make all pages together best, and what they change, page by page (docs/BEST.md)
  why      a table of all floats: where each was called and where it landed, how late, and why; with NAME the story
           of that float or marginal note, and what would have let it in earlier (docs/WHY.md)
  plain    the report of its pages under plain TeX's page makeup
  print    its canonical text
  lines    the galley of a text of paragraphs, broken into lines of least demerits
  dvi      its pages as a DVI file
  dvilist  what the pages of a DVI file show
  gen      one line about the run of a generated galley of --count N items
FILE     a galley (of the mode lines a text of paragraphs, of dvilist a DVI file); standard input without one, or as -.
         Of several files each is a run of its own; what they give comes one after another. A file that is named as a
         mode is written as ./report. Of the modes best and why it is one; of why a name may follow.
NAME     of the mode why: a float or a marginal note; LINE is the line of its galley, where several have the name

-o OUT     write to the file OUT in place of standard output
--json     a report as JSON (docs/JSON.md); of the modes report, trace and plain; and what the modes best and why tell
--raw      of the modes best and why: the lines of the program (docs/FORMATS.md), as it writes them
--points   a report with all sizes in points, as TeX prints them; of the same modes
--spreads  of the mode best: facing pages one line longer or shorter too, where that makes the pages better; with --raw
           what the package galleybreaks reads as NAME.spreads
--count N  of the mode gen: how many items, 1 to 40000; 1000 without it
--quiet    no line that the program is not proved, and none if the reader of a pipe has stopped

A refusal is told as FILE:LINE:FIELD: CAUSE, what it means and what to do, with the line and a mark under the field;
docs/MESSAGES.md has all of them. Without --json and --points, and but for the modes best and why, what is written is the
program's output, byte for byte. The status is the program's (docs/FORMATS.md), of several files the first that is not 0;
1 if there is no program, 2 after a usage error, as NAME where the galley has no such float.

  galley-pages paper.galley -o paper.report
  galley-pages trace paper.galley --json
  galley-pages dvi paper.galley -o paper.dvi
  galley-pages best paper.galley
  galley-pages why paper.galley fig.3
"""


class Usage(Exception):
    """A usage error, told in one line."""


class Parser(argparse.ArgumentParser):
    def error(self, message):
        raise Usage(message)


def options_of(arguments):
    parser = Parser(prog=WHO, add_help=False, allow_abbrev=False)
    parser.add_argument('words', nargs='*')
    parser.add_argument('-h', '--help', action='store_true')
    parser.add_argument('--version', action='store_true')
    parser.add_argument('-o', dest='out')
    parser.add_argument('--json', action='store_true')
    parser.add_argument('--points', action='store_true')
    parser.add_argument('--raw', action='store_true')
    parser.add_argument('--spreads', action='store_true')
    parser.add_argument('--count')
    parser.add_argument('--quiet', action='store_true')
    options = parser.parse_intermixed_args(arguments)
    named = options.words[:1] in [[mode] for mode in MODES]
    options.mode = options.words[0] if named else 'report'
    options.files = options.words[named:] or ['-']
    options.name = []
    if options.mode == 'why':
        options.files, options.name = options.files[:1], options.files[1:]
    return options


def check(options):
    """Raises a usage error where options do not go together."""
    if options.json and options.points:
        raise Usage('--json and --points do not go together')
    if options.json and options.mode not in REPORTS + TOLD:
        raise Usage('--json is for the modes report, trace, plain, best and why')
    if options.points and options.mode not in REPORTS:
        raise Usage('--points is for the modes report, trace and plain')
    check_told(options)
    if options.count is not None and options.mode != 'gen':
        raise Usage('--count is for the mode gen')
    if options.mode == 'gen' and options.files != ['-']:
        raise Usage('the mode gen reads no file')
    if options.mode == 'dvi' and len(options.files) > 1:
        raise Usage('the mode dvi takes one file')
    for file in options.files:
        fault = '' if file == '-' else program.fault_of(file)
        if fault:
            raise Usage(fault)
        if options.out and file != '-' and os.path.exists(options.out) and os.path.samefile(file, options.out):
            raise Usage('%s would be written over itself' % file)


def check_told(options):
    """Raises a usage error where the options of the modes best and why are wrong."""
    if options.raw and (options.mode not in TOLD or options.json or options.name):
        raise Usage('--raw is for the modes best and why, without --json and without a name')
    if options.spreads and options.mode != 'best':
        raise Usage('--spreads is for the mode best')
    if options.mode == 'best' and len(options.files) > 1:
        raise Usage('the mode best takes one file')
    if len(options.name) > 2 or not all(line.isdigit() for line in options.name[1:]):
        raise Usage('the mode why takes one file, and then the name of a float or note and the number of its line')


def main(arguments):
    program.keep_streams()
    try:
        options = options_of(arguments)
        if options.help:
            print(USAGE, end='')
            return 0
        if options.version:
            print(about.version(), end='')
            return 0
        if not arguments and os.isatty(0):
            print(USAGE, end='', file=sys.stderr)
            return 2
        check(options)
        used = program.find(False, WHO)
        if used.note() and not options.quiet:
            say('%s: %s' % (WHO, used.note()))
        return run_all(used.path, options)
    except (Usage, story.Unknown) as fault:
        say('%s: %s; galley-pages --help says more' % (WHO, fault))
        return 2
    except (program.NotBuilt, report.ReportFault, best.BestFault, why.WhyFault) as fault:
        say('%s: %s' % (WHO, fault))
        return 1
    except KeyboardInterrupt:
        say('')
        return 130


def run_all(path, options):
    """Runs the program on each file. The status is the first one that is not 0."""
    status, held = 0, []
    for file in options.files:
        run = Run(path, options, file)
        status = status or run.status
        held.append(run.out)
    if options.out:
        status = write(options.out, held) or status
    return status


def write(path, held):
    """Writes all output to a file. Nothing is changed if there is none, as after a fault of the galley."""
    if not any(held):
        return 0
    try:
        with open(path, 'wb') as out:
            out.write(b''.join(held))
    except OSError as error:
        say('%s: %s: %s' % (WHO, path, error.strerror))
        return 9
    return 0


class Run:
    """A run of the program on one file: its status, and what it wrote, where that is not written yet."""

    def __init__(self, path, options, file):
        self.options = options
        self.name = 'standard input' if file == '-' else file
        self.out = b''
        words = [path, '--mode', options.mode] + (['--count', options.count] if options.count is not None else [])
        tells = options.mode in TOLD and not options.raw or options.spreads
        keeps = options.json or options.points or options.out or tells
        with input_of(file, options.mode) as given:
            start = given.tell() if given.seekable() else 0
            ran = subprocess.run(words, stdin=given, stdout=subprocess.PIPE if keeps else None, stderr=subprocess.PIPE,
                                 check=False)
            self.status = ran.returncode if ran.returncode >= 0 else 128 - ran.returncode
            text = text_of(given, start) if ran.stderr or tells else b''
            if ran.stderr:
                self.tell(ran.stderr.decode('latin-1'), text)
        if tells:
            tell = told_best if options.mode == 'best' else told
            self.put(tell(options, ran.stdout.decode('latin-1'), text.decode('latin-1'), path))
        elif keeps:
            self.put(shaped(options, ran.stdout, self.name))

    def tell(self, said, text):
        """Tells why the program refused its input."""
        if self.options.quiet and 'write fault' in said and reader_stopped():
            return
        sys.stderr.write(messages.told(said, messages.Source(self.name, self.options.mode, text)))
        sys.stderr.flush()

    def put(self, out):
        """Writes what the run gave, or keeps it for the file that it goes to."""
        if self.options.out:
            self.out = out
            return
        try:
            while out:
                out = out[os.write(1, out):]
        except OSError as error:
            self.status = self.status or 9
            if not (self.options.quiet and isinstance(error, BrokenPipeError)):
                say(messages.told('write fault', messages.Source(self.name, self.options.mode, b'')).strip())


def input_of(file, mode):
    """The open file that the program is to read. What comes through a pipe is kept, so that it can be read again."""
    if mode == 'gen':
        return open(os.devnull, 'rb')
    given = open(0, 'rb', closefd=False) if file == '-' else open(file, 'rb')
    if given.seekable():
        return given
    kept = tempfile.TemporaryFile()
    try:
        kept.write(given.read(MOST + 1))
    except OSError:
        return given
    kept.seek(0)
    return kept


def text_of(given, start):
    """All that the program was given to read, '' if it can't be read again."""
    try:
        given.seek(start)
        return given.read(MOST + 1)
    except OSError:
        return b''


def shaped(options, out, name):
    """The output in the form that the options ask for."""
    if not out or not (options.json or options.points):
        return out
    text = out.decode('latin-1')
    read = report.read_lines(text.splitlines(), name)
    if options.points:
        return points.in_points(text).encode('latin-1')
    return (json.dumps(report.data(read), indent=1) + '\n').encode()


def told(options, out, text, path):
    """What the mode why tells, as the options ask for it: a table, the story of one float or note, or JSON."""
    if not out:
        return b''
    run, known = why.read(out), settings.read(text)
    name, line = (options.name + [None, None])[:2]
    tried = None
    floats, notes = run.floats, run.notes
    if name is not None:
        floats, notes = story.chosen(run, name, int(line) if line else None)
        tried = lambda it: why_tries.tried(path, text, it, known)
    if options.json:
        return (json.dumps(why_data.data(run, known, floats, notes, tried), indent=1) + '\n').encode()
    lines = story.lines(run, known, floats, notes, tried) if name is not None else story.Story(run, known).table()
    return ''.join(line + '\n' for line in lines).encode('latin-1')


def told_best(options, out, text, path):
    """What the mode best chose, as the options ask for it: in words, or as JSON."""
    if not out:
        return b''
    choice = best.read(out, options.files[0])
    if options.spreads:
        return told_spreads(options, choice, text, path)
    before, after = best.compared(path, text, choice)
    if options.json:
        return (json.dumps(best_words.data(choice, before, after), indent=1) + '\n').encode()
    lines = best_words.Story(text, choice, before, after).lines()
    return ''.join(line + '\n' for line in lines).encode('latin-1')


def told_spreads(options, choice, text, path):
    """The same with spreads; or the plan, as NAME.spreads has it."""
    plan = spreads.search(path, text, choice)
    if options.raw:
        return spreads.written(plan).encode('latin-1')
    before = best.side(path, text, [])
    if options.json:
        return (json.dumps(spread_words.data(plan, before), indent=1) + '\n').encode()
    lines = spread_words.SpreadStory(text, plan, before).lines()
    return ''.join(line + '\n' for line in lines).encode('latin-1')


def reader_stopped():
    """Whether standard output is a pipe that nobody reads."""
    poll = select.poll()
    poll.register(1, 0)
    return any(event & select.POLLERR for _, event in poll.poll(0))


def say(text):
    print(text, file=sys.stderr, flush=True)
