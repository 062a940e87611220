"""A column of a page as a drawing: its frame, items, the room between them, and what was weighed."""
import textwrap
from dataclasses import dataclass, field

from . import galley as galleys
from . import reasons, svg
from .places import FORCED

PT = 65536.0
LANE = 46.0              # the width of the lane at the right where places are told
SMALLEST_GAP = 0.05
SHOWN_ENLARGED = 16      # sp: a column that differs so much from the room of its page was enlarged
SHOWN_BEYOND = 3         # so many places past a column's end are told
HOPELESS = '100000'      # the cost of a place where the page would be far too short: a mark without its cost
STRIP = 24.0             # the width of the strip at the right of boxes where penalties stand
NO_BREAK = 10000         # a penalty that forbids a break: a bar without its number
LONGEST_WORDS = 52       # so many letters has a name that galleyexport cut
ELLIPSIS = '\u2026'


def badness(wanted, available):
    """TeX's badness (TeX: The Program, section 108)."""
    if wanted == 0:
        return 0
    if available <= 0:
        return 10000
    if wanted <= 7230584:
        r = wanted * 297 // available
    elif available >= 1663497:
        r = wanted // (available // 297)
    else:
        r = wanted
    return 10000 if r > 1290 else (r * r * r + 131072) // 262144


def cut(text, letters):
    """The words that fit into so many letters; with an ellipsis, if these are not all."""
    if len(text) <= letters:
        return text
    kept = text[:max(letters - 1, 1)]
    return (kept[:kept.rfind(' ')] if ' ' in kept else kept) + ELLIPSIS


def words(name):
    """The words in a name that galleyexport made (`b12.The-line`), and its number; else the name and ''. The last word
    of a name that was cut is left out, since it may be a part of one."""
    number, point, text = name.partition('.')
    if point and text and number[:1] in 'bvwm' and number[1:].isdigit():
        text = text.replace('-', ' ').strip()
        return cut(text, LONGEST_WORDS - 1) if len(text) >= LONGEST_WORDS else text, number
    return name, ''


def draw_float_rule(drawing, item, x, y, width):
    """A rule beside floats."""
    middle = y + item.height / PT / 2
    drawing.line(x, middle, x + width, middle, 'floatrule', width=0.9)


def draw_head(drawing, item, x, y, width):
    """A box over both columns, such as a title."""
    height = item.height / PT
    drawing.rect(x, y, width, height, 'head', 'head %s, over both columns, height %.2fpt' % (item.name, height), radius=2)
    size = min(9.0, max(4.5, height - 2))
    drawing.text(x + width / 2, y + height / 2 + size * 0.35, '%s \u00b7 head' % item.name, size, 'quiet', 'middle')


def draw_float(drawing, item, x, y, width):
    """A float, hatched in the colour of its class, with its name and area."""
    height = item.height / PT
    number = svg.float_number(item.number)
    drawing.rect(x, y, width, height, 'hatch%d' % number, 'float %s, class %d, %s, height %.2fpt' % (
        item.name, item.number, item.place, height), radius=2)
    size = min(9.0, max(4.5, height - 2))
    label = '%s \u00b7 %s' % (item.name, item.place)
    half = len(label) * size * 0.31 + 6
    drawing.rect(x + width / 2 - half, y + height / 2 - size * 0.65, 2 * half, size * 1.3, 'plate', radius=2)
    drawing.text(x + width / 2, y + height / 2 + size * 0.35, label, size, 'float%d' % number, 'middle')
    if item.place == 'here':
        drawing.polygon([(x - 7, y + height / 2 - 3.5), (x - 7, y + height / 2 + 3.5), (x - 1.5, y + height / 2)],
                        'float%d' % number)


def mark_first(drawing, x, y, width, height):
    """Marks the first difference from LaTeX's page, or from the report's."""
    drawing.rect(x, y, width, height, 'first', radius=2)
    drawing.rect(x + width - 62, y - 9, 62, 9, 'plate')
    drawing.text(x + width - 1, y - 2, 'first difference', 6.4, 'alarm', 'end')


@dataclass
class Around:
    """What all columns of a page have in common."""
    entries: dict        # of the galley, by the ids of items
    lane: float = 0.0    # the width of the lane at the right of a column, for the places that were weighed
    calls: float = 0.0   # of the lane at its left, for the calls of floats
    notes: dict = field(default_factory=dict)   # why a marginal note was moved, by the ids of items
    marked: object = None       # the item with the first difference from LaTeX's page
    room: int = 0        # sp: how high a text column is, if it is not enlarged; 0 where that is not known


class ColumnDrawing:
    """Draws one column at (x, y), `width` points wide."""

    def __init__(self, drawing, column, x, y, width, around):
        self.drawing, self.column, self.around, self.entries = drawing, column, around, around.entries
        self.x, self.y, self.width, self.lane = x, y, width, around.lane
        self.height = column.height / PT
        self.spring_x, self.box_x, self.box_width = x + 5, x + 11, width - 13 - (STRIP if around.entries else 0)
        self.live = {'stretch': 'stretch', 'shrink': 'shrink'}.get(column.sign, 'still')
        self.feet, self.baselines = column.footnotes_top(), []

    def draw(self, marks, passes, galley=None):
        self._feet_ground()
        bottom, begun = 0.0, False
        for item in self.column.items:
            if item.kind in ('note', 'mark'):
                self.drawing.dot(self.x - 3.2, self.y + item.top / PT, item.kind, '%s %s' % (item.kind, item.name))
            elif item.kind == 'margin':
                self._margin(item)
            else:
                self._room(item, bottom, begun)
                self._item(item)
                reach = item.bottom() / PT
                bottom = max(bottom, reach) if reach > bottom - 40 else reach
                begun = True
        self.drawing.lines(self.box_x, self.box_x + self.box_width, self.baselines, 'baseline')
        self._foot(bottom, begun)
        self.drawing.rect(self.x, self.y, self.width, self.height, 'frame')
        self._room_line()
        self._label(passes)
        ends = reasons.of_column(marks, galley) if galley else []
        self._ends(ends)
        self._places(marks, '\n'.join(ends))
        for item in self.column.items:
            if item is self.around.marked:
                shift = item.number if item.kind == 'margin' else 0
                mark_first(self.drawing, self.x - 3, self.y + (item.top + shift) / PT - 2, self.width + 6,
                           (item.height + item.depth) / PT + 4)

    # ---- Items

    def _feet_ground(self):
        """The ground below footnotes, down to the floats at the column's foot."""
        if self.feet is None:
            return
        ends = [item.top / PT for item in self.column.items if item.kind == 'float' and item.place == 'bottom']
        top = self.feet / PT - 2
        self.drawing.rect(self.x, self.y + top, self.width, min(ends + [self.height]) - top, 'feet')

    def _item(self, item):
        top = self.y + item.top / PT
        if item.kind == 'float':
            draw_float(self.drawing, item, self.box_x, top, self.width - 13)
        elif item.kind == 'footrule':
            middle = top + item.height / PT / 2
            self.drawing.line(self.box_x, middle, self.box_x + self.box_width * 0.4, middle, 'footrule', width=0.9)
        elif item.kind == 'floatrule':
            draw_float_rule(self.drawing, item, self.box_x, top, self.box_width)
        elif item.kind == 'head':
            draw_head(self.drawing, item, self.box_x, top, self.width - 13)
        elif item.kind == 'rule':
            self.drawing.rect(self.box_x, top, self.box_width, max((item.height + item.depth) / PT, 0.4), 'rule',
                              'rule ' + item.name)
        else:
            self._box(item, top)

    def _box(self, item, top):
        height, depth = item.height / PT, item.depth / PT
        if height + depth <= SMALLEST_GAP:
            self.drawing.line(self.box_x, top, self.box_x + 14, top, 'empty')
            return
        self.drawing.rect(self.box_x, top, self.box_width, height + depth, 'box',
                          '%s  top %.2fpt  height %.2fpt  depth %.2fpt' % (item.name, item.top / PT, height, depth))
        if depth > SMALLEST_GAP and height > SMALLEST_GAP:
            self.baselines.append(top + height)
        text, number = words(item.name)
        size = 6.6 if height + depth >= 5.2 else max(3.0, (height + depth) * 1.2)
        base = top + (height - 0.2 if height + depth < 14 else size + 1.5)
        small = min(size, 5.4)
        room = int((self.box_width - 5 - len(number) * small * 0.62) / (size * svg.LETTER))
        self.drawing.text(self.box_x + 3, base, cut(text, max(room, 3)), size, 'words')
        if number:
            self.drawing.text(self.box_x + self.box_width - 2, base, number, small, 'label', 'end')

    def _margin(self, item):
        """A marginal note stands with its first baseline at its line's, moved by its shift."""
        height, depth, shift = item.height / PT, item.depth / PT, item.number / PT
        base = self.y + item.top / PT + shift
        left = item.place == 'left'
        x = self.x - 74 - self.around.calls if left else self.x + self.width + self.lane + 22
        tip = 'marginal note %s, moved down by %.2fpt' % (item.name, shift)
        tip += ''.join(': ' + why for why in [self.around.notes.get(id(item))] if why and shift)
        self.drawing.rect(x, base - height, 56, height + depth, 'margin', tip, radius=1.5)
        self.drawing.text(x + 3, base - height + min(height + depth, 8) - 1.5,
                          cut(words(item.name)[0], 14) + (' moved' if shift else ''), 5.5, 'aside')
        self.drawing.line(x + 56 if left else x, base, self.x if left else self.x + self.width, base, 'leader')

    # ---- Room between items

    def _room(self, item, bottom, begun):
        """The spring above an item, and the penalty there."""
        top = item.top / PT
        gap = top - bottom
        entry = self.entries.get(id(item)) if item.kind in ('box', 'rule') else None
        if gap > SMALLEST_GAP:
            shape = self._glue_shape(entry, gap)
            tip = '\n'.join(['room %.2fpt' % gap] + (entry.before[:12] if entry else []))
            if gap > 3.2:
                self.drawing.spring(self.spring_x, self.y + bottom, self.y + top, shape, tip)
            else:
                self.drawing.line(self.spring_x, self.y + bottom, self.spring_x, self.y + top, shape + ' tick', tip)
            if gap >= 7.0 and (bottom > 0 or gap > 14):
                self.drawing.text(self.box_x, self.y + (bottom + top) / 2 + 1.7, '%.1f' % gap, 5.2, shape)
        elif gap < -SMALLEST_GAP and begun:
            self.drawing.line(self.spring_x - 3, self.y + top, self.spring_x + 3, self.y + top, 'awful')
        if entry and begun and bottom > 0:
            self._penalty(entry, (bottom + top) / 2)

    def _glue_shape(self, entry, gap):
        """The colour of the glue above an item: does it take part in the column's setting?"""
        column = self.column
        if entry is None:       # of the output routine: infinite glue is in it where it takes all the stretch
            finite = column.sign != 'stretch' or column.order == 'normal'
            return self.live if finite or column.kind == 'floats' or gap * PT >= column.amount else 'still'
        return self.live if galleys.is_flexible(entry, column.sign, column.order) else 'still'

    def _penalty(self, entry, y):
        found = galleys.penalties(entry)
        if not found:
            return
        value = found[0] if len(found) > 1 and found[-1] == NO_BREAK else found[-1]
        right, tip = self.x + self.width - 3, 'penalty %d' % value
        if value >= NO_BREAK:
            self.drawing.line(right - 7, self.y + y, right, self.y + y, 'forbids', tip + ': no break here')
        else:
            self.drawing.text(right, self.y + y + 2, str(value), 5.8, 'hinders' if value > 0 else 'invites', 'end', tip)

    def _foot(self, bottom, begun):
        """The room below the last item."""
        left = self.height - bottom
        if left > 0.6 and begun:
            shape = self.live if self.column.sign == 'stretch' else 'still'
            self.drawing.spring(self.spring_x, self.y + bottom, self.y + self.height, shape,
                                "room %.2fpt to the column's foot" % left)
            if left > 14:
                self.drawing.text(self.box_x, self.y + (bottom + self.height) / 2 + 1.7, '%.1f' % left, 5.2, shape)

    # ---- A column that \\enlargethispage made higher or lower

    def _enlarged(self):
        """By how many points the column is higher than the room of its page, 0 if it is as high."""
        by = self.column.height - self.around.room if self.around.room and self.column.kind == 'text' else 0
        return by / PT if abs(by) > SHOWN_ENLARGED else 0.0

    def _room_line(self):
        """Where the column would end."""
        by = self._enlarged()
        if by:
            y = self.y + self.height - by
            self.drawing.line(self.x, y, self.x + self.width, y, 'room', 'the height of the other columns, %.2fpt' % (
                self.around.room / PT))

    # ---- What is written below a column

    def _setting(self):
        column = self.column
        if column.sign == 'none':
            return 'underfull' if column.natural < column.height - PT else 'as it is'
        if column.sign == 'stretch' and column.order != 'normal':
            return 'stretch ' + column.order
        told = '*' if column.overfull else str(badness(column.amount, column.available))
        return '%s %.3f, badness %s' % (column.sign, float(column.ratio), told)

    def _label(self, passes):
        column, over = self.column, self.column.overfull / PT
        foot = self.y + self.height + over + 9
        if over > 0:
            self.drawing.rect(self.x, self.y + self.height, self.width, max(over, 1.5), 'overfull',
                              'overfull by %.2fpt' % over)
            self.drawing.text(self.x + self.width, foot, 'overfull %.2fpt' % over, 5.6, 'alarm', 'end')
        label = 'column %d  %s   natural %.1f of %.1fpt   %s' % (
            column.number, column.kind, column.natural / PT, self.height, self._setting())
        label += '   enlarged by %.1fpt' % self._enlarged() if self._enlarged() else ''
        if passes > 1:
            label += '   built %d times' % passes
        self.drawing.text(self.x, foot, label, 5.6, 'quiet')

    def _ends(self, sentences):
        """Why the column ends here, below its label."""
        y = self.y + self.height + self.column.overfull / PT + 9
        letters = int((self.width + self.lane) / (5.6 * 0.5))
        for line in [line for sentence in sentences for line in textwrap.wrap(sentence, letters)]:
            y += 7.6
            self.drawing.text(self.x, y, line, 5.6, 'words')

    def _places(self, marks, why):
        """The places that were weighed, at the right edge: each with its cost, and where the column ends."""
        x, beyond, told = self.x + self.width, 0, -PT
        end = next((mark.y / PT for mark in marks if mark.ends), -PT)
        foot = max(self.height, end + 3)
        for mark in marks:
            attempt = mark.attempt
            beyond += mark.outside
            if beyond > SHOWN_BEYOND:
                break
            y = foot + 1 + 6 * beyond if mark.outside else mark.y / PT
            tip = 'galley line %d: total %.2fpt, goal %.2fpt, badness %s, penalty %d, cost %s' % (
                attempt.line, attempt.total / PT, attempt.goal / PT, attempt.badness, attempt.penalty, attempt.cost)
            if mark.ends:
                tip += '\n' + why
                self.drawing.line(x, self.y + y + 1.2, x + 9, self.y + y + 1.2, 'ends', tip, 1.2)
                self.drawing.text(x + 11, self.y + y + 2.9, 'ends: ' + self._cost(attempt), 5.0, 'ends', tip=tip)
            else:
                shape = 'awful' if attempt.cost == '*' else 'best' if attempt.best else 'tried'
                self.drawing.line(x, self.y + y + 1.2, x + 4, self.y + y + 1.2, shape + ' thin', tip)
                if attempt.cost != HOPELESS and abs(y - end) > 5 and abs(y - told) > 5:
                    told = y
                    self.drawing.text(x + 6, self.y + y + 2.9, self._cost(attempt), 5.0, shape, tip=tip)

    @staticmethod
    def _cost(attempt):
        return 'too full' if attempt.cost == '*' else 'forced' if attempt.penalty <= FORCED else attempt.cost
