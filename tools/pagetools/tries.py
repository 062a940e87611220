"""Compares the places that TeX's page builder weighed with those of the program's trace."""
import argparse
import sys
from collections import Counter
from itertools import zip_longest

from . import report

USAGE = """Compares every place that TeX's page builder weighed, as \\tracingpages writes it to the log (package option
`trace'), with the `try' lines of the program's trace: total, stretch of each order, shrink, goal, badness, penalty, cost,
and whether the place was the best so far; page by page, in order. The exit status is 0 if all agree, 1 if any
differs, 2 if a file can't be read. TeX must not break the lines of its log (max_print_line=100000)."""

# What galleyexport writes to the log: where \tracingpages begins, and each page.
BEGIN, PAGE = 'galleyexport: trace', 'galleyexport: page '

CLEAR_PENALTY = -10001
ORDERS = {'fil': 1, 'fill': 2, 'filll': 3}


def scaled(text):
    """A decimal fraction of points as sp, as TeX reads it (TeX: The Program, section 102)."""
    whole, _, digits = text.lstrip('-').partition('.')
    fraction = 0
    for digit in reversed(digits[:17]):
        fraction = (fraction + int(digit) * 131072) // 10
    value = int(whole or 0) * 65536 + (fraction + 1) // 2
    return -value if text.startswith('-') else value


def sums(text):
    """`61.0 plus 3.0 plus 1.0fil minus 1.0`: the total, the stretch by order, the shrink."""
    words = text.split()
    stretch, shrink = [0, 0, 0, 0], 0
    for word, value in zip(words[1::2], words[2::2]):
        if word == 'plus':
            number = value.rstrip('fil')
            stretch[ORDERS.get(value[len(number):], 0)] += scaled(number)
        else:
            shrink += scaled(value)
    return scaled(words[0]), tuple(stretch), shrink


def tex_place(line):
    """A line of \\tracingpages: `% t=61.0 plus 3.0 minus 1.0 g=550.0 b=10000 p=0 c=100000#`."""
    total, rest = line[4:].rstrip('#').split(' g=')
    goal, rest = rest.split(' b=')
    badness, rest = rest.split(' p=')
    penalty, cost = rest.split(' c=')
    return sums(total) + (scaled(goal), badness, int(penalty), cost.strip(), line.endswith('#'))


def tex_pages(path):
    """The places of each page that LaTeX shipped."""
    pages, places, begun = [], [], False
    with open(path, encoding='utf-8', errors='replace') as lines:
        for line in lines:
            line = line.rstrip('\n')
            if line.startswith(PAGE):
                pages.append(places)
                places = []
            elif line.startswith(BEGIN):
                begun = True
            elif begun and line.startswith('% t='):
                places.append(tex_place(line))
    if not begun:
        raise report.ReportFault('%s has no places: the package was not given the option trace' % path)
    return pages


def without_first_clear(places):
    """The places of the first page without those of the clear that a class or a title begins with: it ships nothing."""
    clears = [k for k, place in enumerate(places[:6]) if place[5] == CLEAR_PENALTY]
    return places[clears[-1] + 1:] if clears else places


def program_pages(path):
    """The same of a trace."""
    return [[place.sums() for place in page.tries] for page in report.read(path).pages]


class Comparison:
    """How many places agree, and the first page and place at which they do not."""

    def __init__(self, latex, program):
        self.rows = []                               # number of the page, TeX's places, agreeing ones, whether all do
        self.first = ''
        for number, (places, others) in enumerate(zip_longest(latex, program, fillvalue=[]), 1):
            same = places == others
            agreeing = len(places) if same else sum((Counter(places) & Counter(others)).values())
            self.rows.append((number, len(places), agreeing, same))
            if not same and not self.first:
                self.first = first_difference(number, places, others)

    def total(self, column):
        return sum(row[column] for row in self.rows)


def text(place):
    if place is None:
        return 'none'
    best = ' #' if place[7] else ''
    return 't %d s %s z %d g %d b %s p %d c %s%s' % (
        place[0], ' '.join(str(n) for n in place[1]), place[2], place[3], place[4], place[5], place[6], best)


def first_difference(number, places, others):
    k, a, b = next((k, a, b) for k, (a, b) in enumerate(zip_longest(places, others), 1) if a != b)
    return 'page %d, place %d: TeX weighed %s; the program %s (they weighed %d and %d places)' % (
        number, k, text(a), text(b), len(places), len(others))


def of_files(log, trace):
    """The comparison of a log with a trace."""
    latex, program = tex_pages(log), program_pages(trace)
    for side in (latex, program):
        side[:1] = [without_first_clear(places) for places in side[:1]]
    return Comparison(latex, program)


def summary(comparison):
    return 'TeX weighed %d places, %d were found the same; %d of %d pages agree in every place, its order and its best' % (
        comparison.total(1), comparison.total(2), comparison.total(3), len(comparison.rows))


def main(arguments):
    parser = argparse.ArgumentParser(prog='tries', description=USAGE)
    parser.add_argument('log', help="LaTeX's log")
    parser.add_argument('trace', help='NAME.trace')
    parser.add_argument('--quiet', action='store_true', help='no line for each page')
    options = parser.parse_args(arguments)
    try:
        comparison = of_files(options.log, options.trace)
    except (OSError, ValueError, report.ReportFault) as fault:
        print('tries: %s' % fault, file=sys.stderr)
        return 2
    if not options.quiet:
        print('page  places by TeX  found the same')
        for number, weighed, agreeing, same in comparison.rows:
            print('%4d  %13d  %14d%s' % (number, weighed, agreeing, '' if same else '  differs'))
    print(summary(comparison))
    if comparison.first:
        print('first difference: ' + comparison.first)
    return 1 if comparison.first else 0
