"""Draws the pages of a report: one SVG for each, and an index that shows them all and prints one on a sheet."""
import argparse
import os
import sys
from dataclasses import dataclass

from . import calls, compare, index, marks, places, report, stories, tries, why
from . import galley as galleys
from .calls import page_file
from .column import LANE, PT, Around, ColumnDrawing, cut, draw_float, draw_float_rule, draw_head, mark_first, words
from .svg import Drawing

USAGE = """Draws the pages of a report. Frames are columns; boxes stand with their baseline and words; a spring is the
room between two of them, green where the column stretches through it, orange where it shrinks, grey where it has no part
in that; floats are hatched by class, with their area; footnotes stand on a ground of their own, marginal notes outside;
below a column stand its natural height, how far its glue is set, and the badness. With --galley glue and penalties are
told by what the galley says of them, with --trace the places that were weighed and their costs, and where and why the
column ends. With --why a mark stands where a float is called, with a line to the float, or a tag that names its page; a
click on mark, tag or float shows the tests that were made of it, the first that failed in words, and what would have
passed that test. With --latex a page that differs from LaTeX's stands beside LaTeX's own, with the first
difference marked; with --before beside the page of the report before. At the head of a page stand its top mark and its
first mark, at its foot its bottom mark, if there are any."""

COLUMN_GAP = 22.0
MARGIN_ROOM = 96.0
EDGE = 38.0
TOP = 40.0
DRAW_WIDE = {'head': draw_head, 'float': draw_float, 'floatrule': draw_float_rule}     # above both columns
FOOT = 64.0              # the room below the columns: what is written of them, and links


def over_both(page):
    """What stands above the two columns of a page, in a word."""
    kinds = {item.kind for item in page.wide}
    return 'head and floats' if {'head', 'float'} <= kinds else 'head' if 'head' in kinds else 'floats'


class PageDrawing:
    """Draws one page. All pages of a document have the same height, and room for marginal notes where any has one."""

    def __init__(self, page, book, text_height, margins):
        self.page, self.book = page, book
        self.at = page.at / PT
        self.height = max([text_height / PT] + [self.at + column.height / PT for column in page.columns])
        self.column_width = 250.0 if page.kind == 'two' else max(300.0, min(370.0, self.height * 0.64))
        self.around = Around(book.entries, LANE if book.traced else 0.0, calls.LANE if book.stories else 0.0, book.notes)
        step = self.column_width + self.around.lane + COLUMN_GAP + self.around.calls
        self.columns_x = [step * (column.number - 1) for column in page.columns]
        self.width = (self.columns_x[-1] if page.kind == 'two' else 0.0) + self.column_width
        edge = MARGIN_ROOM if margins else EDGE
        self.left, self.right = edge + self.around.calls, edge + self.around.lane

    def _last_line(self):
        """The last line of the galley that the page shows; without any, one behind them all."""
        entries = (self.book.entries.get(id(item)) for _, item in self.page.items())
        return max((entry.line for entry in entries if entry), default=float('inf'))

    def draw(self, galley=None, title='', marked=None, room=None):
        """The drawing. `galley` is that of the page, `room` the one by which its columns have their height, `marked` the item
        with the first difference."""
        page, left = self.page, self.left
        self.around.marked = marked
        self.around.room = room.room(page, self._last_line()) if room else 0
        drawing = Drawing(self.width + left + self.right, self.height + TOP + FOOT + 6)
        drawing.rect(6, 4, drawing.width - 12, drawing.height - 8, 'sheet', radius=3)
        drawing.text(left, 23, title or page.title(), 10, 'title')
        told = page.kind + (', %s over both columns %.1fpt' % (over_both(page), self.at) if page.at else '')
        drawing.text(left + self.width, 23, told, 7, 'quiet', 'end')
        if page.warnings:
            told = '; '.join(index.warning_text(warning) for warning in page.warnings[:3])
            drawing.text(left, 32, 'warning: ' + told, 6.5, 'warning')
        for item in page.wide:
            DRAW_WIDE[item.kind](drawing, item, left, TOP + item.top / PT, self.width)
            if item is marked:
                mark_first(drawing, left - 3, TOP + item.top / PT - 2, self.width + 6, item.height / PT + 4)
        self._marks(drawing)
        weighed = places.of_page(page, self.book.entries)
        columns = {column.number: ColumnDrawing(drawing, column, left + x, TOP + self.at, self.column_width, self.around)
                   for column, x in zip(page.columns, self.columns_x)}
        for column, (own, passes) in zip(columns.values(), weighed):
            column.draw(own, passes, galley)
        if page.place in self.book.drawn and self.book.is_own(page):
            calls.PageCalls(drawing, page.place, columns, (left, TOP, self.width), self.book.drawn).draw(self.book.stories)
        return drawing

    def _marks(self, drawing):
        """The page's marks: the top and the first at its head, as in a running head, the bottom mark at its foot."""
        own = self.book.marks.get(id(self.page))
        if own is None or own.bottom is None:
            return
        y, right, letters = drawing.height - 20, self.left + self.width, int(self.width / 2 / (6 * 0.6)) - 12
        def told(which, name):
            return '%s mark %s' % (which, cut(words(name)[0], letters))
        if own.top:
            drawing.text(self.left, 11.2, told('top', own.top), 6, 'marked', tip=own.top)
        drawing.text(right, 11.2, told('first', own.first), 6, 'marked', 'end', own.first)
        drawing.text(right, y, told('bottom', own.bottom), 6, 'marked', 'end', own.bottom)


# ---- What is drawn

@dataclass
class Sheet:
    """A page of the report, or of LaTeX's, or both where they differ: a figure of the index."""
    page: object = None
    galley: object = None
    other: object = None             # LaTeX's page, or that before a change, where it differs
    verdict: object = None           # of compare; None if nothing was compared

    def place(self):
        return (self.page or self.other).place


class Book:
    """All pages of a report."""

    def __init__(self, options):
        self.stories, self.notes = [], {}
        self.traced = bool(options.trace or options.why)
        own = report.read(options.report)
        galley = galleys.read(options.galley) if options.galley else None
        self.entries = entries_of(own.pages, galley) if galley else {}
        self._tell(own, options)
        self.sheets = [Sheet(page, galley) for page in own.pages]
        stories.find_calls(self.stories, own.pages, self.entries)
        self.marks = {id(page): found for page, found in zip(own.pages, marks.of_pages(own.pages))}
        self.drawn = {sheet.place() for sheet in chosen(self.sheets, options.pages)}
        self.own = set(map(id, own.pages))
        self.beside = index.BEFORE if options.before else index.LATEX
        self.comparison = self._compare(options) if options.latex or options.before else None

    def _tell(self, own, options):
        """Adds what was told: the places that were weighed, and why floats went where they went."""
        told = stories.Told(options.why, options.galley) if options.why else None
        if told:
            self.stories = stories.of_report(own, told)
            self.notes = stories.note_tips(own.pages, told.run.notes, self.entries)
        traced = report.read(options.trace) if options.trace else told.trace if told else None
        for page, other in zip(own.pages, traced.pages if traced else []):
            page.tries = other.tries

    def is_own(self, page):
        """Whether a page is one of the report's, and none of LaTeX's."""
        return id(page) in self.own

    def _compare(self, options):
        """Puts LaTeX's pages, or those before, beside those that differ."""
        others = report.read(options.before or options.latex).pages
        if options.galley:
            self.entries.update(entries_of(others, galleys.read(options.galley)))
        own = {id(sheet.page): sheet for sheet in self.sheets}
        comparison = compare.Comparison(others, self.pages())
        self.sheets = []
        for verdict, (page, other) in zip(comparison.verdicts, comparison.pairs):
            sheet = own[id(other)] if other else Sheet()
            verdict.difference = verdict.difference.replace('LaTeX', self.beside.side)
            sheet.verdict, sheet.other = verdict, None if verdict.agrees() else page
            self.sheets.append(sheet)
        return comparison

    def pages(self):
        return [sheet.page for sheet in self.sheets if sheet.page]

    def drawn_pages(self):
        return [page for sheet in self.sheets for page in (sheet.page, sheet.other) if page]

    def text_height(self):
        return max([column.height + page.at for page in self.drawn_pages() for column in page.columns] + [int(PT)])

    def has_margins(self):
        return any(item.kind == 'margin' for page in self.drawn_pages() for _, item in page.items())


def entries_of(pages, galley):
    """The entry in the galley of each item, by the item's id."""
    entries = {}
    for page in pages:
        for _, item in page.items():
            entry = galley.take(item.kind, item.name) if item.kind in galleys.NAMED else None
            if entry:
                entries[id(item)] = entry
    return entries


def chosen(sheets, asked):
    """The pages A-B, or A alone."""
    if not asked:
        return sheets
    first, _, last = asked.partition('-')
    return [sheet for sheet in sheets if int(first) <= sheet.place() <= int(last or first)]


# ---- Files

def drawings(sheet, book, measures):
    """The drawings of a sheet: LaTeX's page or that before first, if it stands beside the other."""
    ours, theirs = None, None
    if sheet.page and sheet.other:
        theirs, ours = compare.first_items(sheet.other, sheet.page)
    out = []
    if sheet.other:
        page = PageDrawing(sheet.other, book, *measures)
        out.append(page.draw(title=book.beside.title % sheet.other.place, marked=theirs, room=sheet.galley))
    if sheet.page:
        title = book.beside.own_title % sheet.page.place if sheet.other else ''
        out.append(PageDrawing(sheet.page, book, *measures).draw(sheet.galley, title, ours, sheet.galley))
    return out


def add_links(drawing, number, numbers):
    """Links to the pages beside this one, and to all."""
    at = numbers.index(number)
    y, middle = drawing.height - 9, drawing.width / 2
    if at > 0:
        drawing.link(20, y, '\u2039 page %d' % numbers[at - 1], page_file(numbers[at - 1]), 'previous')
    drawing.link(middle, y, 'all pages', 'index.html#page-%d' % number, anchor='middle')
    if at + 1 < len(numbers):
        drawing.link(drawing.width - 20, y, 'page %d \u203a' % numbers[at + 1], page_file(numbers[at + 1]), 'next', 'end')


def write_sheets(folder, book, sheets):
    """Writes the SVG files. Gives the figures of the index."""
    figures = []
    measures = (book.text_height(), book.has_margins())
    numbers = [sheet.page.place for sheet in sheets if sheet.page]
    for sheet in sheets:
        shapes = drawings(sheet, book, measures)
        figures.append(index.figure(sheet, shapes, book.beside))
        if sheet.page:
            add_links(shapes[-1], sheet.page.place, numbers)
            shapes[-1].write(os.path.join(folder, page_file(sheet.page.place)))
        if sheet.other:
            shapes[0].write(os.path.join(folder, page_file(sheet.other.place, book.beside.file)))
    return figures


def facts(book, options):
    """What the index says of the whole document."""
    out = index.Facts(warnings=[(page.place, warning) for page in book.pages() for warning in page.warnings],
                      floats=index.float_rows(book.pages(), book.entries, book.stories),
                      unshipped=[story for story in book.stories if not story.page])
    if book.comparison and options.latex:
        out.totals.append(compare.totals(book.comparison))
    if options.told:
        with open(options.told, encoding='latin-1') as lines:
            out.told = [line.rstrip() for line in lines]
    if options.log and options.trace:
        weighed = tries.of_files(options.log, options.trace)
        out.totals.append(tries.summary(weighed))
        out.totals += ['first difference: ' + weighed.first] if weighed.first else []
    if options.galleylog:
        with open(options.galleylog, encoding='utf-8', errors='replace') as lines:
            out.losses = [line.partition(': ')[2].strip() for line in lines][1:]
    return out


def parsed(arguments):
    parser = argparse.ArgumentParser(prog='picture', description=USAGE)
    parser.add_argument('report', help='NAME.report, or NAME.pages of galleyexport')
    parser.add_argument('--galley', help='the galley of this report')
    parser.add_argument('--trace', help='the trace of this galley, which needs --galley too')
    parser.add_argument('--why', metavar='NAME.why',
                        help='what the mode why writes of this galley, with --galley; its places too, without --trace')
    parser.add_argument('--latex', metavar='NAME.pages', help="LaTeX's own pages, to stand beside those that differ")
    parser.add_argument('--before', metavar='REPORT',
                        help='the report before a change, to stand beside the pages that differ, in place of --latex')
    parser.add_argument('--told', metavar='FILE', help='lines of text for the head of the index')
    parser.add_argument('--log', help="LaTeX's log, with the places that TeX weighed, for the index")
    parser.add_argument('--galleylog', help="what the galley can't say, for the index")
    parser.add_argument('--out', help='the folder to write to (NAME.pictures)')
    parser.add_argument('--pages', help='A-B: these pages alone')
    options = parser.parse_args(arguments)
    if options.latex and options.before:
        parser.error('--latex and --before do not go together')
    for name in ('trace', 'why'):
        if getattr(options, name) and not options.galley:
            parser.error('--%s needs --galley: what it tells is told by the lines of the galley' % name)
    return options


def main(arguments):
    options = parsed(arguments)
    name = os.path.splitext(options.report)[0]
    folder = options.out or name + '.pictures'
    try:
        book = Book(options)
        sheets = chosen(book.sheets, options.pages)
        told = facts(book, options)
    except (OSError, ValueError, report.ReportFault, why.WhyFault) as fault:
        print('picture: %s' % fault, file=sys.stderr)
        return 2
    os.makedirs(folder, exist_ok=True)
    figures = write_sheets(folder, book, sheets)
    index.write(os.path.join(folder, 'index.html'), os.path.basename(name), len(book.pages()), figures, (told, book.beside))
    print('%d pages drawn in %s' % (len(figures), folder))
    return 0
