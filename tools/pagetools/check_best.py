"""What tools/check --best finds in what tools/paginate --best says of a document."""
import re

from .check_rows import PAGES

PAGES_TITLE, SAME_TITLE, SECONDS_TITLE = 'Pages', 'Pages that LaTeX made as chosen', 'Seconds to choose'
HEADER = ('Document', PAGES_TITLE, 'Demerits before', 'now', 'Breaks put in', 'Columns of 20000 or more before', 'now',
          SAME_TITLE, SECONDS_TITLE)

DEMERITS = re.compile(r'^demerits: (\d+) before, (\d+) now$', re.M)
COLUMNS = re.compile(r'^columns of \d+ demerits or more: (\d+) before, (\d+) now$', re.M)
COUNT = re.compile(r'^pages: (\d+) before, (\d+) now$', re.M)
BREAKS = re.compile(r'^(\d+) page breaks? (?:is|are) put in:$', re.M)
SECONDS = re.compile(r'^galley_pages: chosen in ([\d.]+) s$', re.M)


def pair(found):
    """`34 to 33`, `34` where both are the same."""
    return found[0] if found[0] == found[1] else '%s to %s' % found


def row(name, said):
    """The cells of a document's row, None if no breaks were chosen."""
    found = [form.search(said) for form in (PAGES, SECONDS, DEMERITS, COLUMNS, COUNT)]
    if not all(found):
        return None
    compared, seconds, demerits, columns, pages = found
    breaks = BREAKS.search(said)
    return (name, pair(pages.groups()), *demerits.groups(), breaks[1] if breaks else '0', *columns.groups(),
            '%s of %s' % (compared['places'], compared['pages']), seconds[1])


def total(rows):
    """The sums over all rows."""
    return sums(rows, HEADER)


def sums(rows, header):
    """The sums of rows whose columns these are."""
    cells = ['all']
    for at, title in list(enumerate(header))[1:]:
        parts = [[float(n) for n in re.split(' of | to ', it[at])] for it in rows]
        both = [sum(part[0] for part in parts)] + [sum(part[-1] for part in parts)] * (title in (PAGES_TITLE, SAME_TITLE))
        words = ['%.*f' % (title == SECONDS_TITLE, it) for it in both]
        cells.append(pair(tuple(words)) if title == PAGES_TITLE else ' of '.join(words))
    return tuple(cells)


def is_whole(cells):
    """Whether LaTeX made the chosen pages, each in every place."""
    same, whole = cells[-2].split(' of ')
    return same == whole
