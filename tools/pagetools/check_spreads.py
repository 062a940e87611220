"""What tools/check --best --spreads finds in what tools/paginate --best --spreads says of a document."""
import re

from .check_best import BREAKS, COUNT, PAGES_TITLE, SAME_TITLE, SECONDS_TITLE, is_whole, pair, sums  # noqa: F401
from .check_rows import PAGES

HEADER = ('Document', PAGES_TITLE, 'Demerits before', 'with breaks', 'with breaks and spreads',
          'Columns of 20000 or more before', 'with breaks', 'with breaks and spreads', 'Spreads changed', 'Breaks put in',
          'Galleys tried', SAME_TITLE, SECONDS_TITLE)

SUMS = r'(\d+) before, (\d+) with breaks, (\d+) with breaks and spreads$'
DEMERITS = re.compile('^demerits: ' + SUMS, re.M)
COLUMNS = re.compile(r'^columns of \d+ demerits or more: ' + SUMS, re.M)
SPREADS = re.compile(r'^(\d+) spreads? (?:is|are) changed:$', re.M)
CHOSEN = re.compile(r'^galley_pages: chosen in ([\d.]+) s, of (\d+) galleys with spreads$', re.M)


def row(name, said):
    """The cells of a document's row, None if nothing was chosen."""
    compared, chosen, demerits, columns, pages = (form.search(said) for form in (PAGES, CHOSEN, DEMERITS, COLUMNS, COUNT))
    if not (compared and chosen and demerits and columns and pages):
        return None
    spreads, breaks = (found[1] if found else '0' for found in (SPREADS.search(said), BREAKS.search(said)))
    return (name, pair(pages.groups()), *demerits.groups(), *columns.groups(), spreads, breaks, chosen[2],
            '%s of %s' % (compared['places'], compared['pages']), chosen[1])


def total(rows):
    """The sums over all rows."""
    return sums(rows, HEADER)
