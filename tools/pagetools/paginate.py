"""From a LaTeX document to the pages that galley_pages makes of it, compared with LaTeX's own, and to pictures of them."""
import argparse
import os
import shutil
import subprocess
import sys
import time

from . import best, best_document, compare, picture, report, spread_document, tries
from .latex_document import TOOLS, Document, Refusal, say

USAGE = """Compiles the document with lualatex and the package galleyexport, as it is; runs galley_pages on its galley;
tells how many pages and places are the same as LaTeX made and weighed; draws each page, with the way of each float from
its call. All files go to the folder DIR: NAME.galley, NAME.pages, NAME.galleylog, NAME.report, NAME.trace, NAME.why,
pictures/index.html, and LaTeX's own. With --best page breaks are chosen so that all pages together are best
(NAME.best), LaTeX makes its pages again with them, and what changed is told page by page (NAME.changes); the pictures
show the pages before beside those that changed. With --best --spreads facing pages are one line longer or shorter too,
where that makes the pages better (NAME.spreads). The exit status is 0 if all agrees, 1 if anything differs, and 2 or
more if no pages were made: 2 for the arguments or the document, 3 if lualatex or galley_pages is missing, 4 if
galley_pages refused the galley. Errors that TeX reports in the document are counted, and change no status."""

PROGRAM_HELP = """Which galley_pages is run, and how long it takes to build one, is told by `tools/program --help'. The
variable GALLEY_PAGES names another program in its place; `bench/unproved.py OUT' makes one in two minutes, without its
proofs."""

ENDED_WITH_PAGES = (0, 5, 6, 7, 11)          # the statuses of galley_pages that leave a report


# ---- The program

def program():
    """The path of galley_pages. What tools/program says while it builds it goes to the terminal."""
    made = subprocess.run([os.path.join(TOOLS, 'program')], stdout=subprocess.PIPE, check=False)
    path = made.stdout.decode().strip()
    if made.returncode or not path:
        raise Refusal('galley_pages could not be built', 3)
    if not os.access(path, os.X_OK):
        raise Refusal('no program: %s' % path, 3)
    return os.path.abspath(path)


def run_program(path, doc, mode):
    """The exit status of galley_pages in a mode, on the galley of a document. What it writes goes to a file."""
    with open(doc.path('.galley'), 'rb') as source, open(doc.path('.' + mode), 'wb') as sink:
        return subprocess.run([path, '--mode', mode], stdin=source, stdout=sink, check=False,
                              stderr=None if mode == 'report' else subprocess.DEVNULL).returncode


def make_pages(path, doc):
    """Writes the report on the galley of a document, its trace, and what is told of its floats."""
    status = run_program(path, doc, 'report')
    if status not in ENDED_WITH_PAGES:
        raise Refusal('galley_pages refused %s with status %d' % (doc.path('.galley'), status), 4)
    for mode in ('trace', 'why'):
        run_program(path, doc, mode)


# ---- The whole

def export(doc):
    """Has LaTeX write the galley of a document, and tells what it can't say."""
    os.makedirs(doc.out, exist_ok=True)
    doc.clean()
    doc.compile()
    with open(doc.path('.galleylog'), encoding='utf-8', errors='replace') as log:
        print(log.read(), end='')


def compared(doc, made, options):
    """Compares LaTeX's pages and places with the report and the trace that were made of the galley (''), or of the one with
    the chosen breaks ('.chosen'). Gives whether all agree."""
    every = ['--every-page'] if options.every_page else []
    same = compare.main([doc.path('.pages'), doc.path(made + '.report'), '--log', doc.path('.log')] + every) == 0
    return tries.main([doc.path('.log'), doc.path(made + '.trace'), '--quiet']) == 0 and same


def draw(doc, made, *beside):
    """Draws these pages, and what is to stand beside them."""
    picture.main([doc.path(made + '.report'), '--galley', doc.path(made + '.galley'), '--trace', doc.path(made + '.trace'),
                  '--why', doc.path(made + '.why'), *beside, '--galleylog', doc.path('.galleylog'),
                  '--out', os.path.join(doc.out, 'pictures')])


def paginate(doc, options):
    """Makes and compares all pages. Gives whether all agree."""
    path = program()
    export(doc)
    say('galley_pages: making the pages')
    make_pages(path, doc)
    same = compared(doc, '', options)
    if not options.no_pictures:
        draw(doc, '', '--latex', doc.path('.pages'), '--log', doc.path('.log'))
    return same


def paginate_best(doc, options):
    """Chooses the best page breaks, has LaTeX make the pages with them, and compares. Gives whether all agree."""
    path = program()
    export(doc)
    say('galley_pages: choosing page breaks')
    begun = time.monotonic()
    galley, choice = best_document.choose(path, doc)
    say('galley_pages: chosen in %.1f s' % (time.monotonic() - begun))
    is_stable = True
    if choice.breaks:
        galley, choice, is_stable = best_document.set_again(path, doc, galley, choice)
    best_document.make_sides(path, doc, galley, choice)
    told = '\n'.join(best_document.words(path, galley, choice))
    print(told)
    if not is_stable:
        print('the page numbers in the text change its lines each time, and with them the breaks')
    missing = best_document.not_put_in(doc.path('.log')) if choice.breaks else ''
    if missing:
        print(missing)
    same = compared(doc, '.chosen', options)
    if not options.no_pictures:
        draw(doc, '.chosen', '--before', doc.path('.report'),
             '--told', best_document.write(doc.path('.changes'), told + '\n'))
    return same and is_stable and not missing


def paginate_spreads(doc, options):
    """Does the same with spreads that are one line longer or shorter, too."""
    path = program()
    export(doc)
    say('galley_pages: choosing page breaks and spreads')
    begun = time.monotonic()
    galley, plan = spread_document.choose(path, doc)
    say('galley_pages: chosen in %.1f s, of %d galleys with spreads' % (time.monotonic() - begun, plan.tries))
    is_stable = True
    if plan.is_changed():
        galley, plan, is_stable = spread_document.set_again(path, doc, galley, plan)
    spread_document.make_files(path, doc, galley, plan)
    told = '\n'.join(spread_document.words(path, galley, plan))
    print(told)
    if not is_stable:
        print('the page numbers in the text change its lines each time, and with them the breaks and spreads')
    missing = spread_document.not_put_in(doc, plan) if plan.is_changed() else ''
    if missing:
        print(missing)
    same = compared(doc, '.chosen', options)
    if not options.no_pictures:
        draw(doc, '.chosen', '--before', doc.path('.report'),
             '--told', best_document.write(doc.path('.changes'), told + '\n'))
    return same and is_stable and not missing


def parsed(arguments):
    parser = argparse.ArgumentParser(prog='paginate', description=USAGE, epilog=PROGRAM_HELP)
    parser.add_argument('file', metavar='FILE.tex', help='the document, which stays as it is')
    parser.add_argument('--out', metavar='DIR', help='the folder for all files (NAME.paginated in the current folder)')
    parser.add_argument('--before', metavar='CODE', default='', help='TeX code that is to stand before the document')
    parser.add_argument('--best', action='store_true',
                        help='choose the best page breaks, and have LaTeX make the pages with them')
    parser.add_argument('--spreads', action='store_true',
                        help='with --best: make facing pages one line longer or shorter too')
    parser.add_argument('--no-pictures', action='store_true', help='draw nothing')
    parser.add_argument('--every-page', action='store_true', help='a line for each page, not for those alone that differ')
    options = parser.parse_args(arguments)
    if options.spreads and not options.best:
        parser.error('--spreads needs --best')
    return options


def main(arguments):
    options = parsed(arguments)
    try:
        if not os.path.isfile(options.file):
            raise Refusal('no such file: %s' % options.file)
        if not shutil.which('lualatex'):
            raise Refusal('lualatex is needed; on Debian it comes with the packages texlive-luatex and '
                          'texlive-latex-recommended', 3)
        made = paginate_spreads if options.spreads else paginate_best if options.best else paginate
        return 0 if made(Document(options.file, options.out, options.before), options) else 1
    except (Refusal, best.BestFault, report.ReportFault, OSError) as fault:
        print('paginate: %s' % fault, file=sys.stderr)
        return getattr(fault, 'status', 2)
    except KeyboardInterrupt:
        print('\npaginate: stopped', file=sys.stderr)
        return 130
