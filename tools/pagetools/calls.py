"""Draws on a page where floats were called, the way from there to each, and what is told of it on a click."""
import textwrap

from . import stories as told
from . import svg

PT = 65536.0
LANE = 46.0              # the room at the left of each column for calls
TAG = 36.0               # the width of a tag
TAG_HEIGHT = 12.0
TAG_TYPE = 5.2
SPINE = 3.0              # how far left of a column the line runs on which tags hang
DOT = 1.9                # the radius of the mark at a call
PANEL_LETTERS = 96       # so many letters has a line of what is told


def page_file(number, beside=''):
    return 'page%03d%s.svg' % (number, beside and '-' + beside)


class PageCalls:
    """The calls of a page. `columns` are its column drawings by number, `wide` how the floats over both columns stand:
    (x, y, width) of the page's top."""

    def __init__(self, drawing, number, columns, wide, drawn):
        self.drawing, self.number, self.columns, self.wide, self.drawn = drawing, number, columns, wide, drawn
        self.panels = []                 # (story, x, y), drawn over all else

    def draw(self, stories):
        for number, column in self.columns.items():
            called = [story for story in stories if (story.call_page, story.call_column) == (self.number, number)]
            self._calls(column, sorted(called, key=lambda story: story.call_y))
        for story in stories:
            if story.page == self.number:
                self._float(story)
        for panel in self.panels:
            self._panel(*panel)

    # ---- Where floats are called

    def _calls(self, column, called):
        """The marks of the calls in a column, lines to the floats on this page, and tags for those on others."""
        tagged = [story for story in called if story.is_elsewhere()]
        bends = 0
        for story in called:
            if not story.is_elsewhere() and story.told.where != 'here':
                self._way(story, column, bends)
                bends += 1
        places = sorted({story.call_y for story in tagged})
        tops = self._tag_tops([column.y + story.call_y / PT for story in tagged])
        for story, top in zip(tagged, tops):
            self._tag(story, column, top, SPINE + places.index(story.call_y) % 2 * 2)

    def _tag_tops(self, wanted):
        """Where tags stand so that none lies over another, nor below the sheet."""
        tops, least = [], 2.0
        for y in wanted:
            least = max(y - TAG_HEIGHT / 2, least)
            tops.append(least)
            least += TAG_HEIGHT + 1
        most = self.drawing.height - 22 - TAG_HEIGHT
        for k in reversed(range(len(tops))):
            tops[k] = min(tops[k], most)
            most = tops[k] - TAG_HEIGHT - 1
        return tops

    def _tag(self, story, column, top, spine):
        """A tag with the page of a float. Those of the same place hang on one line, so far left of the column."""
        number, y = svg.float_number(story.told.number), column.y + story.call_y / PT
        x, middle = column.x - LANE + 2, top + TAG_HEIGHT / 2
        way = 'M%s %sH%sV%sH%s' % tuple(map(svg.number, (x + TAG, middle, column.x - spine, y, column.x)))
        self.drawing.path(way, 'way%d' % number)
        self.drawing.dot(column.x, y, 'float%d' % number, '', DOT)
        self.drawing.rect(x, top, TAG, TAG_HEIGHT, 'plate')
        self.drawing.rect(x, top, TAG, TAG_HEIGHT, 'way%d' % number, radius=2)
        letters = int((TAG - 4) / (TAG_TYPE * svg.LETTER))
        self.drawing.text(x + 2, top + 5.2, cut(story.told.name, letters), TAG_TYPE, 'float%d' % number)
        where = 'to page %d' % story.page if story.page else 'on no page'
        self.drawing.text(x + 2, top + 10.6, where, TAG_TYPE, 'words')
        self._panel_at(story, x, top + TAG_HEIGHT)
        self.drawing.ask(x, top, TAG, TAG_HEIGHT, story.number, self._tip(story))

    def _way(self, story, column, bends):
        """The line from a call to its float on the same page."""
        number, y = svg.float_number(story.told.number), column.y + story.call_y / PT
        points = self._way_points(story, column, bends)
        start, (x, end) = points[0], points[-1]
        path = 'M%s %sC%s %s %s %s %s %s' % tuple(svg.number(at) for point in points for at in point)
        self.drawing.path(path, 'way%d' % number)
        self.drawing.dot(*start, 'float%d' % number, '', DOT)
        back = points[2]
        if back[1] == end:               # into the side of the float
            turn = -5 if back[0] < x else 5
            head = [(x + turn, end - 2.4), (x + turn, end + 2.4), (x, end)]
        else:                            # into its foot
            head = [(x - 2.4, end + 5), (x + 2.4, end + 5), (x, end)]
        self.drawing.polygon(head, 'float%d' % number)
        self._panel_at(story, start[0], y)
        self.drawing.ask_path(path, story.number, self._tip(story))

    def _way_points(self, story, column, bends):
        """The points of the curve from a call in a column to its float in a column, or above both."""
        item, other, y = story.item, self.columns.get(story.column), column.y + story.call_y / PT
        if other is None:
            x = max(column.x - 12, self.wide[0] + 6)
            foot = self.wide[1] + (item.top + item.height) / PT
            return (column.x, y), (column.x - 30, y), (x, foot + 40), (x, foot)
        height = other.y + (item.top + item.height / 2) / PT
        if other is column:
            bend = column.x - min(16 + 5 * bends, LANE - 6)
            return (column.x, y), (bend, y), (bend, height), (column.x + 10.5, height)
        if other.x > column.x:
            start, end = column.x + column.width, other.x + 10.5
            return (start, y), (start + 50, y), (end - 60, height), (end, height)
        end = other.x + other.width - 2
        return (column.x, y), (column.x - 50, y), (end + 50, height), (end, height)

    # ---- Where they stand

    def _float(self, story):
        item, column = story.item, self.columns.get(story.column)
        if column is None:
            x, y, width = self.wide
        else:
            x, y, width = column.box_x, column.y, column.width - 13
        y, height = y + item.top / PT, item.height / PT
        if story.is_elsewhere() and story.call_page:
            words = 'called on page %d' % story.call_page
            words += ', ' + story.late_words() if story.late() else ''
            size = min(5.6, max(3.5, height - 1))
            self.drawing.rect(x + 3, y + 1.5, len(words) * size * svg.LETTER + 4, size + 2, 'plate', radius=1.5)
            self.drawing.text(x + 5, y + 1.2 + size, words, size, 'words')
        self._panel_at(story, x, y + height)
        self.drawing.ask(x, y, width, height, story.number, self._tip(story))

    # ---- On a click

    @staticmethod
    def _tip(story):
        return '%s\nclick: why it stands where it stands' % told.title(story.told)

    def _panel_at(self, story, x, y):
        """Notes where what is told of a float is to stand, the first time that it is asked for on this page."""
        if story not in [other for other, _, _ in self.panels]:
            self.panels.append((story, x, y))

    def _panel(self, story, x, y):
        lines = [svg.Line(line, shape) for text, shape in told.lines_of(story) for line in wrapped(text)]
        if story.is_elsewhere():
            goes = story.call_page if story.page == self.number else story.page
            if goes in self.drawn:
                lines.append(svg.Line('\u2192 page %d' % goes, 'link', page_file(goes)))
        self.drawing.panel(story.number, x, y, lines)


def cut(name, letters):
    return name if len(name) <= letters else name[:letters - 1] + '\u2026'


def wrapped(text):
    """The lines of a text, with its room at the head before each."""
    head = text[:len(text) - len(text.lstrip())]
    return textwrap.wrap(text.strip(), PANEL_LETTERS, initial_indent=head, subsequent_indent=head)
