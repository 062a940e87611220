"""The page breaks that the mode best chooses (docs/FORMATS.md), and how good each column is without them and with them.

`read` gives the choice, `with_breaks` the galley with its breaks, and `compared` the columns of both: the program runs on
each galley in the modes trace and rate. All sizes are sp."""
import os
import subprocess
from bisect import bisect_left
from dataclasses import dataclass, field

from . import report
from .galley import at_line

FORCED = -10000
STRENGTHS = {'0': 0, '1': 51, '2': 151, '3': 301, '4': 10000}      # the penalties of nopagebreak, by its number
HEADER = ('galley', 'set', 'class')
PASSED = ('penalty', 'pagebreak', 'nopagebreak', 'mark', 'note', 'foot', 'float', 'margin', 'suppressfloats',
          'page', 'enlarge')   # no room
CHOICES = 16            # the status where there are too many choices
WAITING_DEMERITS = 10000    # demerits for each float that waits and each insertion that is held


class BestFault(Exception):
    """Why no breaks were chosen, or why what the program wrote can't be read; with the program's status, 0 for none."""

    def __init__(self, text, status=0):
        super().__init__(text)
        self.status = status


@dataclass
class Break:
    line: int            # of the galley: the break goes before it
    page: int            # the number of the one that ends there, 0 if none does
    after: str           # the name of the last box or rule before it, `-` without one


@dataclass
class Choice:
    """What the mode best writes."""
    greedy: int          # demerits without breaks
    least: int           # demerits with these
    breaks: list = field(default_factory=list)
    text: str = ''       # the report of the pages with the breaks
    report: object = None


@dataclass
class Ending:
    """Where a text column ends, and how good it is."""
    page: int            # counted from 1
    column: int          # 1 or 2
    line: int            # of the galley without breaks, at the place where it ends; 0 for a place of the output routine
    badness: str         # `*` if it is too full
    penalty: int         # of the place; of a break that was put in, that of the galley there
    waiting: int         # floats that wait
    held: int            # insertions, as footnotes, that go on on the next page
    demerits: int
    short: int           # what it lacks to its height, without stretch; below 0 it has too much
    stretch: tuple       # what it can stretch, by order
    chosen: bool         # whether a break was put in here
    boxes: int           # how many boxes and rules of the text stand up to here, on all pages


@dataclass
class Side:
    """The columns of a galley, and its report."""
    endings: list
    report: object


@dataclass
class Item:
    """An item of the text outside of footnotes; a foot stands for its list."""
    line: int
    words: list

    def penalty(self):
        """The penalty that it is, None if it is none."""
        word, last = self.words[0], self.words[-1]
        if word == 'penalty':
            return int(last)
        if word in ('pagebreak', 'nopagebreak'):
            return STRENGTHS.get(last, 0) * (-1 if word == 'pagebreak' else 1)
        return None

    def is_line(self):
        return self.words[0] in ('box', 'rule')


class Text:
    """The items of a galley, the names of its boxes and rules, for each two neighbours of these whether they are lines of
    one paragraph, and by lines whether pages are to have one height from there on (`set bottom flush`)."""

    def __init__(self, galley):
        self.items, self.flush, inside = [], [(0, False)], False
        for number, line in enumerate(galley.splitlines(), 1):
            words = line.split()
            if words[:2] == ['set', 'bottom']:
                self.flush.append((number, words[2:] == ['flush']))
            if not words or words[0].startswith('#') or words[0] in HEADER or words[0] == 'end':
                continue
            if words[0] == 'endfoot':
                inside = False
            elif not inside:
                self.items.append(Item(number, words))
                inside = words[0] == 'foot'
        self.numbers = [item.line for item in self.items]
        self.names, self.within, room = set(), [], []
        for item in self.items:
            if item.is_line():
                # one glue alone stands between two lines of a paragraph; between paragraphs there is parskip too
                self.within += [room == ['glue']] * bool(self.names)
                self.names.add(item.words[1])
                room = []
            elif item.words[0] not in PASSED:
                room.append(item.words[0])

    def is_flush(self, line):
        """Whether a page that ends at this line is to have the height of all; 0 stands for the end."""
        return at_line(self.flush, line) if line else self.flush[-1][1]

    def penalty(self, line):
        """The penalty of the item on this line, 0 if it is none."""
        at = bisect_left(self.numbers, line)
        found = self.items[at].penalty() if self.numbers[at:at + 1] == [line] else None
        return found or 0

    def splits(self, boxes):
        """Which lone line of a paragraph a page leaves that ends after so many boxes: the first one (club), the last one
        (widow), both, or '' for none."""
        at = boxes - 1
        if at < 0 or at >= len(self.within) or not self.within[at]:
            return ''
        is_club = at == 0 or not self.within[at - 1]
        is_widow = at + 1 >= len(self.within) or not self.within[at + 1]
        return 'both' if is_club and is_widow else 'club' if is_club else 'widow' if is_widow else ''

    def in_column(self, column):
        """How many boxes and rules of the text a column of a report has. Those of footnotes come after the rule."""
        names = []
        for item in column.items:
            if item.kind == 'footrule':
                break
            names += [item.name] * (item.kind in ('box', 'rule'))
        return sum(name in self.names for name in names)


def read(text, name):
    """What the mode best writes, of the galley of this name."""
    lines, choice = text.splitlines(), Choice(0, 0)
    start = next((k for k, line in enumerate(lines) if line.startswith('report ')), len(lines))
    try:
        for line in lines[:start]:
            words = line.split()
            if words[0] in ('greedy', 'least'):
                setattr(choice, words[0], int(words[1]))
            elif words[0] == 'break':
                choice.breaks.append(Break(int(words[1]), int(words[3]), words[5]))
            elif words != ['best', '1']:
                raise ValueError(line)
    except (ValueError, IndexError):
        raise BestFault('%s: no line of the mode best: %s' % (name, line)) from None
    if lines[:1] != ['best 1'] or start == len(lines):
        raise BestFault('%s: the mode best wrote no choice and report' % name)
    choice.text = ''.join(line + '\n' for line in lines[start:])
    choice.report = report.read_lines(lines[start:], name)
    return choice


def with_breaks(galley, breaks):
    """The text of a galley with the breaks, each on a line of its own before the line that it names."""
    wanted, out = {it.line for it in breaks}, []
    for number, line in enumerate(galley.splitlines(), 1):
        if number in wanted:
            out.append('penalty %d' % FORCED)
        out.append(line)
    return ''.join(line + '\n' for line in out)


def run(program, mode, galley, name=''):
    """What the program writes in a mode on the text of a galley. A refusal is told by its own line."""
    ran = subprocess.run([program, '--mode', mode], input=galley.encode('latin-1'), stdout=subprocess.PIPE,
                         stderr=subprocess.PIPE, check=False)
    if ran.returncode:
        said = ran.stderr.decode('latin-1').strip().removeprefix('galley_pages: ')
        ended = 'it ended with status %d' % ran.returncode if ran.returncode > 0 else 'signal %d ended it' % -ran.returncode
        raise BestFault('%s: %s' % (name or os.path.basename(program), said or ended), ran.returncode)
    return ran.stdout.decode('latin-1')


# ---- How good the columns are

def _broken(trace):
    """The place at which each rated column ends: the best place of each firing but those of the output routine's own
    penalties."""
    found, best = [], None
    for line in trace.splitlines():
        if not line.startswith('try '):
            continue
        words = line.split()
        attempt = report.read_try(words[1:])
        best = attempt if attempt.best else best
        if attempt.cost == '*' or attempt.penalty <= FORCED:
            if best and best.penalty >= FORCED:
                found.append(best)
            best = None
    return found


def _rated(text):
    """The rated lines of the mode rate but their sum, as words, each with how many pages were shipped before."""
    found, pages = [], 0
    for words in map(str.split, text.splitlines()):
        pages += words[0] == 'page'
        if words[0] == 'rated' and words[1] != 'demerits':
            found.append((pages, words))
    return found


def _demerits(words, penalty):
    """The demerits of a rated column whose place has this penalty in place of the one that the line tells."""
    told, left = int(words[11]), WAITING_DEMERITS * (int(words[7]) + int(words[9]))
    if int(words[5]) or not penalty:
        return told
    base = told - left
    return left + (base + penalty ** 2 if penalty > 0 else base - min(penalty ** 2, base))


def _columns(pages, own):
    """By page its text columns, each with how many boxes of the text stand up to its end."""
    found, boxes = [], 0
    for page in pages:
        found.append([])
        for column in page.columns:
            boxes += own.in_column(column)
            if column.kind == 'text':
                found[-1].append((column.number, boxes))
    return found


def _page_of(number, shipped, pages, columns):
    """The place of the page on which a rated column stands, by its number. It is the last page with text that was shipped,
    since pages of floats may have followed at once; or of the first of two columns the page that is being made."""
    place = shipped
    while place and all(column.kind != 'text' for column in pages[place - 1].columns):
        place -= 1
    return place if place and pages[place - 1].number == number and columns[place - 1] else shipped + 1


def side(program, galley, breaks):
    """The columns of a galley with breaks put in (an empty list of breaks for its own)."""
    text, lines = with_breaks(galley, breaks), sorted(it.line for it in breaks)
    put = {line + k: line for k, line in enumerate(lines)}          # by line of the galley with breaks
    own, made = Text(galley), report.read_lines(run(program, 'report', text).splitlines(), 'report')
    rated, broken = _rated(run(program, 'rate', text)), _broken(run(program, 'trace', text))
    if len(rated) != len(broken):
        raise BestFault('the modes rate and trace tell of %d and %d columns' % (len(rated), len(broken)))
    columns, endings = _columns(made.pages, own), []
    for (shipped, words), place in zip(rated, broken):
        page, chosen = _page_of(int(words[1]), shipped, made.pages, columns), place.line in put
        line = put[place.line] if chosen else place.line - bisect_left(sorted(put), place.line)
        penalty = own.penalty(line) if chosen else int(words[5])
        column, boxes = columns[page - 1].pop(0)
        endings.append(Ending(page, column, line, words[3], penalty, int(words[7]), int(words[9]), _demerits(words, penalty),
                              place.goal - place.total, place.stretch, chosen, boxes))
    return Side(endings, made)


def compared(program, galley, choice):
    """The columns without the breaks, and with them."""
    return side(program, galley, []), side(program, galley, choice.breaks)
