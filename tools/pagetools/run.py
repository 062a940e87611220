"""Runs the program on a galley, and builds it first where there is none: examples/run and tools/program."""
import os
import sys

from . import program

USAGE = """usage: examples/run [--proved] FILE [OPTION ..]

Runs galley_pages on a galley, and shows what it writes: the report of its pages. FILE is the galley, - standard input.
The further options are the program's own (docs/FORMATS.md):
  --mode report | trace | rate | best | why | plain | print | lines | dvi | dvilist | gen
  --count N     of the mode gen: how many items, 1 to 40000

The program is built first, unless there is one of these sources. Without --proved this takes about two minutes, and a
line says at each run that the program is not proved. With --proved all of it is proved first, which takes about half an
hour on four free processors, once; from then on that program runs, with --proved and without. Both are kept in built/.
GALLEY_PAGES=PATH makes it run another program.

The status is the program's (docs/FORMATS.md); 1 if it was not built; 2 also if FILE can't be read.

  examples/run examples/chapter.galley
  examples/run examples/chapter.galley --mode trace
"""

PATH_USAGE = """usage: tools/program [--proved]

Prints the path of galley_pages. It is built first, unless there is one of these sources: without a proof, in about two
minutes, or with --proved after all of it is proved, which takes about half an hour on four free processors, once. If the
proved one is there, it is the one. GALLEY_PAGES=PATH names another program. The status is 1 if it was not built.
"""


def asks_for_help(arguments):
    return bool(arguments) and arguments[0] in ('-h', '--help')


def refuse(who, text):
    """A usage error: one line, and the status 2."""
    print('%s: %s' % (who, text), file=sys.stderr)
    return 2


def found(proved, who):
    """The program, and a line that says so if it is not proved; None if it was not built."""
    try:
        it = program.find(proved, who)
    except program.NotBuilt as fault:
        print('%s: %s' % (who, fault), file=sys.stderr)
        return None
    except KeyboardInterrupt:
        print('\n%s: stopped; what was proved is kept' % who, file=sys.stderr)
        return None
    if it.note():
        print('%s: %s' % (who, it.note()), file=sys.stderr)
    return it


def main(arguments):
    program.keep_streams()
    who = 'examples/run'
    if asks_for_help(arguments):
        print(USAGE, end='')
        return 0
    proved = arguments[:1] == ['--proved']
    words = arguments[proved:]
    if not words:
        print(USAGE, end='', file=sys.stderr)
        return 2
    file = words[0]
    if file != '-' and file.startswith('-'):
        return refuse(who, 'the galley comes first, and %s is none: examples/run --help says more' % file)
    fault = '' if file == '-' else program.fault_of(file)
    if fault:
        return refuse(who, fault)
    it = found(proved, who)
    if it is None:
        return 1
    if file != '-':
        galley = os.open(file, os.O_RDONLY)
        os.dup2(galley, 0)
        os.close(galley)
    os.execv(it.path, [program.PROGRAM] + words[1:])


def path_main(arguments):
    who = 'tools/program'
    if asks_for_help(arguments):
        print(PATH_USAGE, end='')
        return 0
    if arguments not in ([], ['--proved']):
        print(PATH_USAGE, end='', file=sys.stderr)
        return 2
    it = found(bool(arguments), who)
    if it is None:
        return 1
    print(it.path)
    return 0
