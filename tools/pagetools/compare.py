"""Compares the pages that LaTeX made with those of a page report, item by item."""
import argparse
import difflib
import os
import sys
from collections import Counter
from dataclasses import dataclass
from itertools import zip_longest

from . import report

USAGE = """Compares the pages that LaTeX made of a document (NAME.pages, by galleyexport) with the report on its
galley. A line for each page that differs tells whether it agrees in its contents (the same boxes, rules, footnotes,
heads, floats and notes in the same order and column, floats in the same area), in the natural height and glue set of each
column, in every place, in the rules above footnotes and beside floats, and in its printed number; then come the totals and
the first difference. Pages are counted from 1, whatever number is printed on them.
The exit status is 0 if all agrees, 1 if anything differs, 2 if a file can't be read."""

# What takes no part in the comparison of contents and places: LaTeX may have it otherwise than a galley says.
APART = ('mark', 'note', 'footrule', 'floatrule')

# The warnings of a report, by how LaTeX's own are told in its log.
LATEX_WARNINGS = {'large': 'LaTeX Warning: Float too large for page', 'ht': 'float specifier changed to',
                  'moved': 'LaTeX Warning: Marginpar on page', 'floats': 'contains only floats'}
# What galleyexport writes to the log: a page is made, and a float waits.
PAGE_MADE, WAITS = 'galleyexport: page ', 'galleyexport: waits '


@dataclass
class Verdict:
    """How two pages that belong together agree. Either may be missing."""
    latex: int           # the places of the pages, 0 for a missing one
    report: int
    contents: bool = False
    setting: bool = False
    places: bool = False
    rule: bool = True    # the rules of the output routine
    number: bool = True  # the number that is printed
    difference: str = ''

    def agrees(self):
        return self.contents and self.setting and self.places and self.rule and self.number

    def others(self):
        """What else differs, for the end of a line."""
        return ''.join('  other ' + what for what, same in (('rules', self.rule), ('number', self.number)) if not same)


def key(item):
    """What must be the same for an item to be the same."""
    if item.kind in ('float', 'margin'):
        return (item.kind, item.name, item.place)
    return (item.kind, item.name)


def sizes(item):
    """What must be the same for an item to be in the same place."""
    return (item.top, item.height, item.depth, item.number)


def contents(page):
    """The items of a page in order, each with its column, and the kinds of its columns."""
    out = [('page', page.kind)] + [(0,) + key(item) for item in page.wide if item.kind not in APART]
    for column in page.columns:
        out.append((column.number, column.kind + ' column'))
        out += [(column.number,) + key(item) for item in column.items if item.kind not in APART]
    return out


def rules(page):
    """The rules of a page that the output routine puts, above footnotes and beside floats: their kinds and sizes, without
    their places. One without height is not seen, and stands in a report alone if a document has room there and no rule."""
    return [(item.kind, item.height, item.depth) for _, item in page.items()
            if item.kind in report.RULES and item.height + item.depth]


def settings(page):
    return [(column.natural, column.setting) for column in page.columns]


def words(entry):
    if entry is None:
        return 'nothing'
    column = '' if entry[0] in ('page', 0) else 'in column %d ' % entry[0]
    return column + ' '.join(str(word) for word in (entry if entry[0] == 'page' else entry[1:]))


def contents_difference(a, b):
    k = next(k for k in range(max(len(a), len(b))) if a[k:k + 1] != b[k:k + 1])
    return 'LaTeX has %s, the report %s' % (words(a[k] if k < len(a) else None), words(b[k] if k < len(b) else None))


def place_difference(page, other):
    """The first item that is in another place, '' if none is."""
    for (number, item), (_, twin) in zip(
            (x for x in page.items() if x[1].kind not in APART), (x for x in other.items() if x[1].kind not in APART)):
        if sizes(item) != sizes(twin):
            return '%s %s in column %d: top %d, height %d, depth %d in LaTeX, %d, %d, %d in the report' % (
                item.kind, item.name, number, item.top, item.height, item.depth, twin.top, twin.height, twin.depth)
    return ''


def compare_pages(page, other):
    """The verdict on a page of LaTeX and one of the report."""
    verdict = Verdict(page.place, other.place, number=page.number == other.number)
    a, b = contents(page), contents(other)
    verdict.contents = a == b
    if not verdict.contents:
        verdict.difference = contents_difference(a, b)
        return verdict
    verdict.rule = rules(page) == rules(other)
    verdict.setting = (page.at, settings(page)) == (other.at, settings(other))
    if not verdict.setting:
        verdict.difference = '; '.join(
            'column %d: natural height %d, set %s in LaTeX, %d, %s in the report' % (
                c.number, c.natural, c.setting, d.natural, d.setting)
            for c, d in zip(page.columns, other.columns) if (c.natural, c.setting) != (d.natural, d.setting)
        ) or 'the columns begin at %d in LaTeX, at %d in the report' % (page.at, other.at)
        return verdict
    verdict.difference = place_difference(page, other)
    verdict.places = not verdict.difference
    if not verdict.difference and not verdict.rule:
        verdict.difference = 'a rule above footnotes or beside floats has another size, or stands on one of the two alone'
    elif not verdict.difference and not verdict.number:
        verdict.difference = 'the page has the number %d in LaTeX, %d in the report' % (page.number, other.number)
    return verdict


def first_items(page, other):
    """The first items that are not the same on two pages; None on a page that has no such item."""
    a, b = ([entry for entry in p.items() if entry[1].kind not in APART] for p in (page, other))
    for x, y in zip_longest(a, b):
        if not x or not y or x[0] != y[0] or key(x[1]) != key(y[1]) or sizes(x[1]) != sizes(y[1]):
            return x and x[1], y and y[1]
    return None, None


def pair(pages, others):
    """Pages that belong together by their contents, so that a page too many does not shift the rest."""
    a = [tuple(contents(page)) for page in pages]
    b = [tuple(contents(page)) for page in others]
    for _, i, i_end, j, j_end in difflib.SequenceMatcher(None, a, b, autojunk=False).get_opcodes():
        for k in range(max(i_end - i, j_end - j)):
            yield (pages[i + k] if i + k < i_end else None, others[j + k] if j + k < j_end else None)


class Comparison:
    """All pages of a document, and where its floats, notes and footnote lines stand."""

    def __init__(self, pages, others):
        self.verdicts, self.pairs = [], []
        self.floats, self.boxes, self.footnotes = ({}, {}), ({}, {}), set()
        for page, other in pair(pages, others):
            for side, p in enumerate((page, other)):
                if p:
                    self._note(side, p, len(self.verdicts))
            self.pairs.append((page, other))
            if page and other:
                self.verdicts.append(compare_pages(page, other))
            else:
                self.verdicts.append(Verdict(page.place if page else 0, other.place if other else 0,
                                             difference='the page stands in %s alone' % ('LaTeX' if page else 'the report')))

    def _note(self, side, page, where):
        below = 0                                    # the column whose footnotes have begun
        for number, item in page.items():
            if item.kind in ('head', 'float', 'margin'):
                self.floats[side][item.name] = (where, number, item.place)
                below = 0 if item.kind == 'float' else below
            elif item.kind == 'footrule':
                below = number
            elif item.kind in ('box', 'rule'):
                self.boxes[side][item.name] = (where, number)
                if below == number:
                    self.footnotes.add(item.name)

    def count(self, what):
        return sum(getattr(verdict, what) for verdict in self.verdicts)

    def agrees(self):
        return all(verdict.agrees() for verdict in self.verdicts)


def shared(sides, names=None):
    """How many of the names (all without them) stand in the same place on both sides, and how many there are."""
    a, b = sides
    names = set(a) | set(b) if names is None else names
    return sum(1 for name in names if name in a and a[name] == b.get(name)), len(names)


def table(comparison, every):
    """A line for each page that differs, or for every page; and how many others there are."""
    shown = [verdict for verdict in comparison.verdicts if every or not verdict.agrees()]
    if shown:
        yield 'page  contents  glue set  places  of the report'
    mark = {True: 'same', False: 'other'}
    for verdict in shown:
        yield '%4s  %-8s  %-8s  %-6s  %s%s' % (
            verdict.latex or '-', mark[verdict.contents], mark[verdict.setting] if verdict.contents else '-',
            mark[verdict.places] if verdict.setting else '-', verdict.report or '-', verdict.others())
    others = len(comparison.verdicts) - len(shown)
    if others:
        which = '%d %spage%s' % (others, 'other ' if shown else '', ' is' if others == 1 else 's are')
        yield which + ' the same in every place'


def totals(comparison):
    """The totals on one line, as tools/check takes them in."""
    latex, others = ([p[side] for p in comparison.pairs if p[side]] for side in (0, 1))
    return ('LaTeX made %d pages (%d columns), the report has %d; %d agree in contents, %d in glue set, %d in every '
            'place; floats and notes in the same place %d of %d; footnote lines %d of %d') % (
        (len(latex), sum(len(page.columns) for page in latex), len(others), comparison.count('contents'),
         comparison.count('setting'), comparison.count('places')) + shared(comparison.floats)
        + shared(comparison.boxes, comparison.footnotes))


def latex_warnings(log):
    """The four warnings of the output routine in LaTeX's log: for each kind where it came, as far as the log tells."""
    found, page, traced, waiting = {kind: [] for kind in LATEX_WARNINGS}, 1, False, ''
    with open(log, encoding='latin-1') as lines:
        for line in lines:
            if line.startswith(PAGE_MADE):
                page, traced = page + 1, True
            elif line.startswith(WAITS):
                waiting = line[len(WAITS):].strip()
            for kind, words in LATEX_WARNINGS.items():
                if words in line:
                    found[kind].append((page, waiting if kind == 'ht' else ''))
    return {kind: [' '.join(([name] if name else []) + (['page %d' % at] if traced else [])) for at, name in places]
            for kind, places in found.items()}


def report_warnings(pages):
    """The same of the pages of a report."""
    found = {kind: [] for kind in LATEX_WARNINGS}
    for page in pages:
        for warning in page.warnings:
            kind, name = warning.split()[:2]
            found[kind].append(('' if kind == 'floats' else name + ' ') + 'page %d' % page.place)
    return found


def warnings_line(log, pages):
    """The kinds of warnings of which LaTeX's log and the report have not as many; '' if all agree."""
    latex, ours = latex_warnings(log), report_warnings(pages)
    told = []
    for kind, places in latex.items():
        if len(places) != len(ours[kind]):
            told.append(', '.join('%s %d in %s%s' % (
                kind, len(where), side, ' (%s)' % '; '.join(where) if any(where) else '')
                for side, where in (('LaTeX', places), ('the report', ours[kind]))))
    return 'warnings differ: ' + ', '.join(told) if told else ''


def main(arguments):
    parser = argparse.ArgumentParser(prog='compare', description=USAGE)
    parser.add_argument('pages', help='NAME.pages')
    parser.add_argument('report', help='NAME.report')
    parser.add_argument('--log', help="LaTeX's log, whose warnings are compared too")
    parser.add_argument('--all', action='store_true', help='tell every difference, not the first alone')
    parser.add_argument('--every-page', action='store_true', help='a line for each page, not for those alone that differ')
    parser.add_argument('--quiet', action='store_true', help='no line for any page')
    options = parser.parse_args(arguments)
    try:
        latex, others = report.read(options.pages).pages, report.read(options.report).pages
        warnings = warnings_line(options.log, others) if options.log else ''
    except (OSError, report.ReportFault) as fault:
        print('compare: %s' % fault, file=sys.stderr)
        return 2
    comparison = Comparison(latex, others)
    if not options.quiet:
        for line in table(comparison, options.every_page):
            print(line)
    print('%s: %s' % (os.path.splitext(os.path.basename(options.pages))[0], totals(comparison)))
    differences = ['page %d: %s' % (v.latex or v.report, v.difference) for v in comparison.verdicts if v.difference]
    if warnings:
        differences.append(warnings)
    if differences:
        print('\n'.join(differences) if options.all else 'first difference: ' + differences[0])
    return 0 if comparison.agrees() and not warnings else 1
