"""Page reports, with the lines of a trace where they have them (docs/FORMATS.md). All dimensions are sp.

`read` gives the report in a file, `data` the same as plain lists, dictionaries, texts and whole numbers, which is what
`galley-pages --json` prints (docs/JSON.md), and `text` the lines of a report again, from these."""
from dataclasses import dataclass, field
from fractions import Fraction


RULES = ('footrule', 'floatrule')       # those that the output routine puts: above footnotes and beside floats


class ReportFault(Exception):
    """A file that is no report, with the line that is none of a report's."""


@dataclass
class Item:
    """A line below a column, or above the first: a box, rule, footrule, floatrule, mark, note, head, float or marginal
    note."""
    kind: str
    name: str = ''
    top: int = 0
    height: int = 0
    depth: int = 0
    place: str = ''      # of a float: here, top, bottom, page or wide; of a marginal note: left or right
    number: int = 0      # of a float: its class; of a marginal note: its shift

    def bottom(self):
        return self.top + self.height + self.depth


@dataclass
class Column:
    number: int
    kind: str            # text or floats
    height: int
    natural: int
    sign: str            # none, stretch or shrink
    order: str           # of the stretch
    ratio: Fraction
    amount: int          # what was stretched or shrunk
    available: int       # how much stretch or shrink there was
    overfull: int
    setting: str         # the words of the report
    items: list = field(default_factory=list)

    def footnotes_top(self):
        """The top of the footnote rule, None without one."""
        return next((item.top for item in self.items if item.kind == 'footrule'), None)


@dataclass
class Try:
    """A place that the page builder weighed. Badness and cost are words: `*` stands for an overfull page."""
    line: int            # of the galley; 0 for a node that the output routine made
    total: int
    stretch: tuple       # by order
    shrink: int
    goal: int
    badness: str
    penalty: int
    cost: str
    best: bool           # the best place so far

    def sums(self):
        """All but the line: what TeX tells too."""
        return (self.total, self.stretch, self.shrink, self.goal, self.badness, self.penalty, self.cost, self.best)


@dataclass
class Page:
    number: int          # as the report has it: the one that is printed on the page
    kind: str            # one, two or wide
    at: int = 0          # of a pair: how far its columns stand below the page's top
    wide: list = field(default_factory=list)        # the head and the floats over both columns, and the rule below them
    columns: list = field(default_factory=list)
    warnings: list = field(default_factory=list)    # lines without `warn`, that stand before the page
    tries: list = field(default_factory=list)       # those that stand before the page
    place: int = 0       # counted from 1 through the report

    def title(self):
        """What it is called: its place, and the number that is printed on it, where that is another."""
        return 'page %d' % self.place + (', with the number %d' % self.number if self.number != self.place else '')

    def items(self):
        """Each item with the number of its column, 0 for those over both."""
        for item in self.wide:
            yield 0, item
        for column in self.columns:
            for item in column.items:
                yield column.number, item


@dataclass
class Report:
    path: str
    pages: list = field(default_factory=list)
    warnings: list = field(default_factory=list)    # all of them
    end: str = ''                                   # the last line, '' where the run was refused
    left: list = field(default_factory=list)        # notes and marks that are on no page
    last_warnings: list = field(default_factory=list)   # lines without `warn`, that stand after the last page
    last_tries: list = field(default_factory=list)      # places that stand after the last page


def _column(words):
    column = Column(int(words[0]), words[1], int(words[3]), int(words[5]), words[7], 'normal', Fraction(0), 0, 1, 0,
                    ' '.join(words[7:]))
    rest = words[8:]
    if column.sign == 'stretch':
        column.order = rest.pop(0)
    if column.sign != 'none':
        column.amount, column.available = (int(n) for n in rest.pop(0).split('/'))
        column.ratio = Fraction(column.amount, column.available)
    if rest and rest[0] == 'overfull':
        column.overfull = int(rest[1])
    return column


def _item(kind, words):
    if kind == 'float':
        return Item(kind, words[0], int(words[3]), int(words[4]), 0, words[2], int(words[1]))
    if kind == 'head':
        return Item(kind, words[0], int(words[1]), int(words[2]))
    if kind == 'margin':
        return Item(kind, words[0], int(words[3]), int(words[4]), int(words[5]), words[1], int(words[2]))
    if kind in RULES:
        return Item(kind, '', int(words[0]), int(words[1]), int(words[2]))
    if kind in ('mark', 'note'):
        return Item(kind, words[0], int(words[1]))
    return Item(kind, words[0], int(words[1]), int(words[2]), int(words[3]))


def read_try(words):
    """A place that was weighed, by the words of its line behind `try`."""
    return Try(int(words[0]), int(words[2]), tuple(int(n) for n in words[4:8]), int(words[9]), int(words[11]), words[13],
               int(words[15]), words[17], len(words) > 18)


class _Reader:
    """Reads the lines of a report one by one."""

    def __init__(self, path):
        self.report = Report(path)
        self.warnings, self.tries = [], []          # since the last page

    def take(self, word, words):
        pages = self.report.pages
        if word == 'page':
            page = Page(int(words[0]), words[1], int(words[3]) if words[1] == 'two' else 0,
                        warnings=self.warnings, tries=self.tries, place=len(pages) + 1)
            self.warnings, self.tries = [], []
            pages.append(page)
        elif word == 'column':
            pages[-1].columns.append(_column(words))
        elif word == 'try':
            self.tries.append(read_try(words))
        elif word == 'warn':
            self.warnings.append(' '.join(words))
            self.report.warnings.append(' '.join(words))
        elif word == 'end':
            self.report.end = ' '.join(['end'] + words)
        elif word in ('box', 'rule', 'mark', 'note', 'head', 'float', 'margin', *RULES):
            page = pages[-1]
            (page.columns[-1].items if page.columns else page.wide).append(_item(word, words))
        elif word == 'left':
            self.report.left.append(Item(words[0], words[1]))
        elif word != 'report':
            raise ValueError(word)

    def finish(self):
        self.report.last_warnings, self.report.last_tries = self.warnings, self.tries
        return self.report


def read(path):
    """The report in a file."""
    with open(path, encoding='latin-1') as lines:
        return read_lines(lines, path)


def read_lines(lines, path):
    """The report in some lines. Comments (`#`), which galleyexport writes into its own reports, are passed over."""
    reader = _Reader(path)
    for number, line in enumerate(lines, 1):
        words = line.split()
        if not words or words[0].startswith('#'):
            continue
        if number == 1 and words[0] != 'report':
            raise ReportFault('%s is no page report: its first line is not `report 1`' % path)
        try:
            reader.take(words[0], words[1:])
        except (ValueError, IndexError, ZeroDivisionError):
            raise ReportFault('%s, line %d: no line of a page report: %s' % (path, number, line.strip())) from None
    return reader.finish()


def data(report):
    """The report as plain data, in the shape of docs/JSON.md."""
    return {
        'report': 1,
        'pages': [_page_data(page) for page in report.pages],
        'after': {'warnings': [_warning_data(it) for it in report.last_warnings],
                  'tries': [_try_data(it) for it in report.last_tries]},
        'left': [{'kind': item.kind, 'name': item.name} for item in report.left],
        'end': _end_data(report.end),
    }


def _page_data(page):
    return {
        'number': page.number, 'kind': page.kind, 'at': page.at,
        'before': {'warnings': [_warning_data(it) for it in page.warnings],
                   'tries': [_try_data(it) for it in page.tries]},
        'floats': [_item_data(item) for item in page.wide],
        'columns': [_column_data(column) for column in page.columns],
    }


def _column_data(column):
    is_set = column.sign != 'none'
    return {
        'number': column.number, 'kind': column.kind, 'height': column.height, 'natural': column.natural,
        'set': {'sign': column.sign, 'order': column.order if column.sign == 'stretch' else None,
                'ratio': [column.amount, column.available] if is_set else None},
        'overfull': column.overfull,
        'items': [_item_data(item) for item in column.items],
    }


def _item_data(item):
    out = {'kind': item.kind}
    if item.kind not in RULES:
        out['name'] = item.name
    if item.kind == 'float':
        out['class'] = item.number
    if item.kind == 'margin':
        out['shift'] = item.number
    if item.kind in ('float', 'margin'):
        out['place'] = item.place
    out['top'] = item.top
    if item.kind not in ('mark', 'note'):
        out['height'] = item.height
    if item.kind not in ('mark', 'note', 'head', 'float'):
        out['depth'] = item.depth
    return out


def _warning_data(line):
    words = line.split()
    kind = words[0]
    if kind == 'floats':
        return {'kind': kind, 'page': int(words[1])}
    out = {'kind': kind, 'name': words[1]}
    if kind != 'ht':
        out['by'] = int(words[2])
    return out


def _try_data(place):
    number = lambda word: None if word == '*' else int(word)
    return {
        'line': place.line, 'total': place.total, 'stretch': list(place.stretch), 'shrink': place.shrink,
        'goal': place.goal, 'badness': number(place.badness), 'penalty': place.penalty, 'cost': number(place.cost),
        'best': place.best,
    }


def _end_data(line):
    words = line.split()[1:]
    return dict(zip(words[::2], map(int, words[1::2]))) if words else None


def text(data):
    """The lines of the report that was made plain data."""
    lines = ['report 1']
    for page in data['pages']:
        _put_before(lines, page['before'])
        lines.append('page %d %s' % (page['number'], page['kind']) + ' at %d' % page['at'] * (page['kind'] == 'two'))
        lines += map(_item_line, page['floats'])
        for column in page['columns']:
            lines.append(_column_line(column))
            lines += map(_item_line, column['items'])
    _put_before(lines, data['after'])
    lines += ['left %s %s' % (it['kind'], it['name']) for it in data['left']]
    if data['end']:
        lines.append('end ' + ' '.join('%s %d' % pair for pair in data['end'].items()))
    return ''.join(line + '\n' for line in lines)


def _put_before(lines, data):
    """Places and warnings are apart in the data, so the order of a trace with warnings is not kept: places come first."""
    lines += map(_try_line, data['tries'])
    lines += ['warn ' + ' '.join(str(it) for it in warning.values()) for warning in data['warnings']]


def _column_line(column):
    line = 'column %(number)d %(kind)s height %(height)d natural %(natural)d set ' % column + column['set']['sign']
    if column['set']['order']:
        line += ' ' + column['set']['order']
    if column['set']['ratio']:
        line += ' %d/%d' % tuple(column['set']['ratio'])
    return line + ' overfull %d' % column['overfull'] * (column['overfull'] > 0)


def _item_line(item):
    order = ('kind', 'name', 'class', 'place', 'shift', 'top', 'height', 'depth')
    return ' '.join(str(item[key]) for key in order if key in item)


def _try_line(place):
    word = lambda value: '*' if value is None else str(value)
    return 'try %d t %d s %s z %d g %d b %s p %d c %s' % (
        place['line'], place['total'], ' '.join(map(str, place['stretch'])), place['shrink'], place['goal'],
        word(place['badness']), place['penalty'], word(place['cost'])) + ' #' * place['best']
