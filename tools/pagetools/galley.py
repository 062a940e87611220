"""The lines of a galley, as far as a picture needs them: which line an item has, and what stands before it."""
from bisect import bisect_left, bisect_right
from dataclasses import dataclass, field

from .tries import scaled

# What may stand between two boxes: room, and what says whether a page may end there.
BETWEEN = ('glue', 'kern', 'penalty', 'newpage', 'clearpage', 'onecolumn', 'twocolumn', 'pagebreak', 'nopagebreak',
           'suppressfloats', 'page', 'enlarge')
NAMED = ('box', 'rule', 'head', 'float', 'margin')      # lines with a name that a page shows by a shape of its own
TEXT_HEIGHT = 36044800          # sp, where a galley sets no other
UNITS = {'fil': 'fil', 'fill': 'fill', 'filll': 'filll'}


@dataclass
class Entry:
    line: int
    before: list         # the lines of glue, kerns, penalties and words since the last box or rule, as text
    foot: bool           # whether it stands in a foot


@dataclass
class Line:
    """A line of the text: one outside of footnotes, or the `foot` that begins one."""
    number: int
    word: str
    size: int = 0        # of a box or rule: its height and depth in sp


@dataclass
class Galley:
    entries: dict = field(default_factory=dict)     # (word, name) -> its entries in order
    lines: list = field(default_factory=list)       # those of the text, in order
    numbers: list = field(default_factory=list)     # the numbers of these lines
    # By lines: how high a page's text is from there on, and the room of the rule below double floats.
    text_heights: list = field(default_factory=lambda: [(0, TEXT_HEIGHT)])
    rule_rooms: list = field(default_factory=lambda: [(0, 0)])

    def add(self, line):
        self.lines.append(line)
        self.numbers.append(line.number)

    def between(self, first, last):
        """The lines of the text after the line `first` and before the line `last`."""
        return self.lines[bisect_right(self.numbers, first):bisect_left(self.numbers, last)]

    def word(self, number):
        """The word of a line, '' if it is none of the text."""
        return next((line.word for line in self.between(number - 1, number + 1)), '')

    def set(self, number, name, values):
        """A `set` line, which holds for what stands below it."""
        if name == 'textheight':
            self.text_heights.append((number, sp(values[0])))
        elif name == 'dblrule':
            self.rule_rooms.append((number, 0 if values[0] == 'none' else sum(map(sp, values))))

    def room(self, page, line):
        """How high a text column is on a page that shows this line, if `enlarge` makes it no other. Above two columns a
        double float has a depth of 1sp, and no rule stands below a head."""
        text_height = at_line(self.text_heights, line)
        if page.kind != 'two':
            return text_height
        floats = sum(item.kind == 'float' for item in page.wide)
        has_rule = floats and all(item.kind != 'head' for item in page.wide)
        return text_height - page.at + floats + (at_line(self.rule_rooms, line) if has_rule else 0)

    def take(self, kind, name):
        """The entry of the next item with this word and name, None if there is none left."""
        found = self.entries.get((kind, name))
        return found.pop(0) if found else None


def at_line(values, line):
    """The value that holds at a line, of values with the lines from which they hold, in order."""
    return next(value for first, value in reversed(values) if first <= line)


def sp(text):
    """A size of a galley in sp."""
    if text.endswith('pt'):
        return scaled(text[:-2])
    return int(text[:-2] if text.endswith('sp') else text)


def text_line(number, words):
    sizes = words[2:4] if words[0] in ('box', 'rule') else []
    return Line(number, words[0], sum(sp(size) for size in sizes))


def read(path):
    """The galley in a file."""
    with open(path, encoding='latin-1') as lines:
        return read_lines(lines)


def read_lines(lines):
    """The galley in some lines."""
    galley, foot = Galley(), False
    before = {False: [], True: []}                  # in the text, in a foot
    for number, line in enumerate(lines, 1):
        words = line.split()
        if not words or words[0].startswith('#'):
            continue
        if words[0] == 'set' and len(words) > 2:
            galley.set(number, words[1], words[2:])
        if not foot:
            galley.add(text_line(number, words))
        if words[0] in ('foot', 'endfoot'):
            foot = words[0] == 'foot'
            before[True] = []
        elif words[0] in BETWEEN:
            before[foot].append(line.strip())
        elif words[0] in NAMED and len(words) > 1:
            entry = Entry(number, before[foot], foot)
            galley.entries.setdefault((words[0], words[1]), []).append(entry)
            if words[0] in ('box', 'rule'):
                before[foot] = []
    return galley


def penalties(entry):
    """The penalties before an item that are not 0."""
    out = []
    for line in entry.before:
        words = line.split()
        if words[0] == 'penalty' and int(words[1]) != 0:
            out.append(int(words[1]))
    return out


def is_flexible(entry, sign, order):
    """Whether the glue before an item takes part in a column that is set with this sign and order."""
    for line in entry.before:
        words = line.split()
        if words[0] in ('newpage', 'clearpage') and sign == 'stretch' and order == 'fil':
            return True
        if words[0] != 'glue':
            continue
        if sign == 'shrink' and 'minus' in words:
            return True
        if sign == 'stretch' and 'plus' in words:
            unit = words[words.index('plus') + 1].lstrip('-+.0123456789')
            if (unit.lstrip('s') if unit.startswith('sf') else UNITS.get(unit, '')) == ('' if order == 'normal' else order):
                return True
    return False
