"""The table of tools/check: what it finds in what tools/paginate says of a document."""
import re

HEADER = ('Document', 'Pages', 'Columns', 'Same contents', 'and glue set', 'and every place', 'Floats and notes in place',
          'Footnote lines in place', 'Places weighed the same')

PAGES = re.compile(
    r'^(?P<name>.*): LaTeX made (?P<pages>\d+) pages \((?P<columns>\d+) columns\), the report has \d+; '
    r'(?P<contents>\d+) agree in contents, (?P<sets>\d+) in glue set, (?P<places>\d+) in every place; '
    r'floats and notes in the same place (?P<floats>\d+ of \d+); footnote lines (?P<feet>\d+ of \d+)$', re.M)
PLACES = re.compile(r'^TeX weighed (?P<weighed>\d+) places, (?P<same>\d+) were found the same', re.M)


def row(name, said):
    """The cells of a document's row, None if it was not paginated."""
    pages, places = PAGES.search(said), PLACES.search(said)
    if not pages or not places:
        return None
    cell = pages.groupdict()
    return (name, cell['pages'], cell['columns'], cell['contents'], cell['sets'], cell['places'], cell['floats'],
            cell['feet'], '%s of %s' % (places.group('same'), places.group('weighed')))


def total(rows):
    """The sums over all rows: numbers, and pairs `A of B`."""
    cells = ['all']
    for column in range(1, len(HEADER)):
        parts = [[int(n) for n in cells_of[column].split(' of ')] for cells_of in rows]
        cells.append(' of '.join(str(sum(numbers)) for numbers in zip(*parts)))
    return tuple(cells)


def is_whole(cells):
    """Whether all pages are the same in every place."""
    return cells[1] == cells[5]
