"""The marks of each page, for running heads, from page reports.

When a page is shipped, its top mark is the bottom mark of the page before. Its first mark is the first that stands on it,
its bottom mark the last; without one both are its top mark (TeX: The Program, section 1012). The two columns of a page
count as one page, as in LaTeX since 2015."""
import argparse
import json
import sys
from dataclasses import dataclass

from . import report

USAGE = """Prints for each page its top mark, its first mark and its bottom mark, from which running heads are made: LaTeX's
\\rightmark is of the first mark, its \\leftmark of the bottom mark. Each is the name of a `mark' of the galley, or - before
the first one. Lines `left NAME' at the end name marks that are on no page. Of several reports, as of the parts of a
galley that is too long for one run, the marks go on from one to the next, and pages are counted through. The exit status
is 0, or 2 if a file is no page report."""


@dataclass
class PageMarks:
    """The names of a page's marks; None where there was none yet."""
    top: str
    first: str
    bottom: str


def names(page):
    """The marks that stand on a page, in the order of the report."""
    return [item.name for _, item in page.items() if item.kind == 'mark']


def of_pages(pages):
    """The marks of each page."""
    found, bottom = [], None
    for page in pages:
        own, top = names(page), bottom
        bottom = own[-1] if own else top
        found.append(PageMarks(top, own[0] if own else top, bottom))
    return found


def of_reports(reports):
    """The marks of all pages of some reports, one after another."""
    return of_pages([page for own in reports for page in own.pages])


def left(reports):
    """The marks that are on no page."""
    return [item.name for own in reports for item in own.left if item.kind == 'mark']


def data(reports):
    """The same as plain data, in the shape of docs/JSON.md."""
    pages = [{'number': number, 'top': own.top, 'first': own.first, 'bottom': own.bottom}
             for number, own in enumerate(of_reports(reports), 1)]
    return {'marks': 1, 'pages': pages, 'left': left(reports)}


def text(told):
    """The lines of this data."""
    lines = ['page %d top %s first %s bottom %s' % (page['number'], page['top'] or '-', page['first'] or '-',
                                                    page['bottom'] or '-') for page in told['pages']]
    return ''.join(line + '\n' for line in lines + ['left ' + name for name in told['left']])


def parsed(arguments):
    parser = argparse.ArgumentParser(prog='marks', description=USAGE)
    parser.add_argument('reports', nargs='+', metavar='NAME.report', help='a report, or NAME.pages of galleyexport')
    parser.add_argument('--json', action='store_true', help='the same as JSON (docs/JSON.md)')
    return parser.parse_args(arguments)


def main(arguments):
    options = parsed(arguments)
    try:
        told = data([report.read(path) for path in options.reports])
    except (OSError, report.ReportFault) as fault:
        print('marks: %s' % fault, file=sys.stderr)
        return 2
    print(json.dumps(told, indent=1) + '\n' if options.json else text(told), end='')
    return 0
