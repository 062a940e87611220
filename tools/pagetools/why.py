"""Reads what the mode why tells (docs/FORMATS.md): for each float its calls, its tests with their numbers, its decisions and
its summary, and for each marginal note how far it moved.

All sizes are sp. The lines name a float by its name alone; of several with one name the right one is found by the order in
which floats wait. `why_words.in_words` says a test that failed in words."""
from dataclasses import dataclass, field

AREAS = ('enter', 'here', 'top', 'bottom', 'wide', 'alone', 'joins', 'company')
FIRST_WORDS = AREAS[:4] + ('call', 'wait', 'wide', 'alone', 'joins', 'company', 'goes', 'start', 'clear', 'back', 'beside',
                           'why')

# The keys of all lines: those with one number behind them, and those with a text. Behind `count` are three numbers.
NUMBERS = ('least', 'high', 'room', 'need', 'share', 'most', 'sum', 'floats', 'page', 'column', 'text', 'height', 'reach',
           'shift')
TEXTS = ('class', 'places', 'width')


class WhyFault(Exception):
    """A line that is none of the mode why, with its number."""


@dataclass(frozen=True)
class Spot:
    """A page and a column, 1 or 2; column 0 stands for the whole page where a float over both columns is looked for."""
    page: int            # its number
    column: int
    place: int = 0       # of the page, counted from 1: two pages may have one number


@dataclass(eq=False)
class Test:
    """What an area asked of a float."""
    area: str            # one of AREAS
    failed: str          # the word of the first test that failed, '' if all hold
    blocker: str = ''    # the name of the float that is in the way, '' for none
    blocking: object = None     # that float
    count: tuple = ()    # how many the limit allows, how many are there, how many may still come
    high: int = 0        # the float's height
    least: int = 0       # enter: what text the column has at least; company: what it must exceed
    room: int = 0        # what the column has; wide: what the space above the columns has left
    need: int = 0        # what is needed of the room
    share: int = 0       # what the area's share of the column has left
    most: int = 0        # alone, joins: how high the column of floats may be
    sum: int = 0         # joins, company: how high the floats would be together
    floats: int = 0      # company: how many floats these are
    number: int = 0      # of its line in the text that was read

    def lacks(self):
        """The least that must be gained so that the test holds, 0 where it is no size."""
        if (self.area, self.failed) == ('wide', 'room'):
            return self.high - self.room + 1
        if (self.area, self.failed) == ('company', 'sum'):
            return self.least - self.sum + 1
        sizes = {'room': self.need - self.room + 1, 'share': self.high - self.share + 1, 'tall': self.high - self.most,
                 'sum': self.sum - self.most}
        return sizes.get(self.failed, 0)


@dataclass(eq=False)
class Decision:
    """What was asked of a float at one place, and where it went."""
    kind: str            # call, start or clear
    spot: Spot
    line: int = 0        # of the galley, on which the float is called
    text: int = 0        # at a call: the height of the text so far
    places: str = ''     # of the float
    height: int = 0      # of the column, or of the page where the spot is a whole one; 0 if the lines do not tell
    tests: list = field(default_factory=list)
    goes: str = ''       # here, top, bottom, wide, page or deferred; '' if other floats took the column, and in a clear that
                         # found no floats for it
    taken: bool = False  # whether other floats took the column
    back: str = ''       # at a clear: from where it took the float back

    def test(self, area):
        """The test of an area, None if it was not asked."""
        return next((it for it in self.tests if it.area == area), None)

    def placed(self):
        return self.goes not in ('', 'deferred')

    def failed(self):
        """The tests that failed, in order."""
        return [it for it in self.tests if it.failed]

    def reason(self):
        """The test that kept the float: of its areas the first that failed by another test than its places; else the one
        that kept it from a column of floats; else the first that failed. None if it was placed."""
        if self.placed():
            return None
        areas = [it for it in self.failed() if it.area in AREAS[:5]]
        pages = [it for it in self.failed() if it.area in AREAS[5:]]
        return next((it for it in areas if it.failed != 'places'), (pages or areas or [None])[0])


@dataclass
class Reason:
    """A group of the summary: for so many columns and wide pages the float waited for this."""
    area: str
    word: str
    root: str            # the float that is itself at fault
    by: int              # the least that must be gained
    times: int


@dataclass(eq=False)
class Float:
    name: str
    line: int            # of the galley
    spot: Spot           # where it was called
    number: int          # its class
    places: str
    width: str           # single or double
    high: int
    waits: bool          # whether it waits without a call, as in release 2014
    decisions: list = field(default_factory=list)
    called: int = 0      # the number of the page, by the summary
    landed: int = 0      # likewise, where it stands; 0 if it was not shipped
    place: int = 0       # of that page, counted from 1
    where: str = ''      # here, top, bottom, wide or page; of one that was not shipped also deferred
    column: int = 0      # in which it landed; 0 over both columns, and for one that was not shipped
    reasons: list = field(default_factory=list)
    is_alone_with_its_name: bool = True

    def late(self):
        """How many columns and wide pages were put out while it waited."""
        return sum(it.times for it in self.reasons)

    def has_bang(self):
        return '!' in self.places

    def missed(self):
        """The decisions that kept it."""
        return [it for it in self.decisions if not it.placed()]


@dataclass
class Note:
    """A marginal note."""
    name: str
    line: int
    spot: Spot
    text: int            # how far down the text reaches
    reach: int           # how far down the notes before it reach
    high: int
    shift: int           # how far it moved down
    side: str


@dataclass
class Run:
    """All that is told of a run."""
    floats: list = field(default_factory=list)      # in the order of their calls
    names: dict = field(default_factory=dict)       # the same by their names
    notes: list = field(default_factory=list)
    heights: dict = field(default_factory=dict)     # of columns, by spot
    companies: list = field(default_factory=list)   # (spot, the floats of the company that was made)
    done: bool = False                              # whether the run ended well

    def pages(self):
        """How many pages were shipped."""
        return max((spot.place for spot in self.heights), default=0)

    def in_two_columns(self):
        """Whether any page has two columns."""
        return any(spot.column == 2 for spot in self.heights)

    def named(self, name, line=None):
        """The floats of this name, or the one that is called on this line."""
        return [it for it in self.names.get(name, ()) if line in (None, it.line)]


def is_told(line):
    """Whether a line is one that the mode why adds to the trace."""
    return line.split(' ', 1)[0] in FIRST_WORDS


def values(words):
    """The keys of a line with what belongs to them, and under '' the words behind the last key."""
    out, at = {}, 0
    while at < len(words):
        if words[at] in NUMBERS:
            out[words[at]] = int(words[at + 1])
        elif words[at] in TEXTS:
            out[words[at]] = words[at + 1]
        elif words[at] == 'count':
            out['count'] = tuple(int(it) for it in words[at + 1:at + 4])
            at += 2
        else:
            break
        at += 2
    out[''] = words[at:]
    return out


class _Reader:
    def __init__(self):
        self.run = Run()
        self.waiting = {}           # the floats that wait, by name, those of one name in order
        self.taken_back = []        # by the clear that comes next, in order
        self.kind, self.spot, self.height = 'call', Spot(1, 1, 1), 0
        self.open = {}              # (id of a float) -> its decision in this pass
        self.is_made = False        # whether a column of floats was made in this pass
        self.asked = set()          # (area, id of a float) in this pass
        self.head, self.company = None, []
        self.current = None         # the float that is being decided on
        self.in_column = {}         # the floats that were placed in the text or at the bottom, by spot
        self.page, self.column, self.is_wide = 0, 0, False
        self.place = 0              # how many pages were shipped
        self.shipped = {}           # (name, page, where) -> the places and columns in which such floats were shipped

    def spot_of(self, known):
        """A column of the page that is being made."""
        return Spot(known['page'], known.get('column', 0), self.place + 1)

    # ---- which float a line names

    def waiting_one(self, name, test):
        """The first waiting float of this name, width and height that was not asked by this area in this pass. Those up to
        the head of a company were asked whether they may be alone, those behind it whether they join."""
        width = 'single' if self.spot.column else 'double'
        asked = {'joins': ('joins', 'alone')}.get(test.area, (test.area,))
        for it in self.waiting.get(name, ()):
            if (it.width, it.high) == (width, test.high) and not any((area, id(it)) in self.asked for area in asked):
                self.asked.add((test.area, id(it)))
                return it
        raise ValueError(name)

    def waits(self, it, does=True):
        """The float waits from now on, behind all others of its name, or no longer."""
        those = self.waiting.setdefault(it.name, [])
        if does and it not in those:
            those.append(it)
        elif not does and it in those:
            those.remove(it)

    def decision_of(self, it):
        """The float's decision in this pass, a new one if nothing was asked of it yet."""
        if id(it) not in self.open:
            self.open[id(it)] = Decision(self.kind, self.spot, it.line, height=self.height, places=it.places)
            it.decisions.append(self.open[id(it)])
        return self.open[id(it)]

    def begin(self, kind, words):
        """A pass over the floats that wait begins: a column starts, or a clear looks for floats."""
        self.end_pass()
        known = values([it for it in words if it != 'wide'])
        self.kind, self.spot, self.height = kind, self.spot_of(known), known['height']
        self.open, self.asked, self.head, self.company = {}, set(), None, []
        if kind == 'clear' and self.taken_back:
            self.give_back()

    def end_pass(self):
        """Where floats took the column, the others were kept by that."""
        for decision in self.open.values():
            decision.taken = self.is_made and not decision.goes
        self.is_made = False

    def give_back(self):
        """What a clear took back waits before all others."""
        for it in reversed(self.taken_back):
            self.waiting.setdefault(it.name, []).insert(0, it)
        self.taken_back = []

    # ---- the lines

    def take(self, word, words, number):
        if word in ('call', 'wait'):
            self.called(word, words)
        elif word in AREAS:
            self.tested(word, words, number)
        elif word in ('start', 'clear'):
            self.begin(word, words)
        elif word == 'goes':
            self.goes(words[0], words[1])
        elif word == 'back':
            self.back(words[0], words[1])
        elif word == 'beside':
            self.beside(words)
        elif word == 'why':
            self.summary(words)
        else:
            self.trace(word, words)

    def called(self, word, words):
        known = values(words[2:])
        it = Float(words[0], int(words[1]), self.spot_of(known), int(known['class']),
                   known['places'], known['width'], known['high'], word == 'wait')
        self.run.floats.append(it)
        those = self.run.names.setdefault(it.name, [])
        those.append(it)
        for that in those[-2:] if len(those) > 1 else []:
            that.is_alone_with_its_name = False
        if word == 'wait':
            self.waits(it)
            return
        self.current = it
        self.end_pass()
        self.kind, self.spot, self.height, self.open = 'call', it.spot, 0, {}
        self.decision_of(it).text = known['text']

    def tested(self, area, words, number):
        known = values(words[1:])
        verdict, name = known.pop(''), known.pop('class', '-')
        test = Test(area, verdict[1] if verdict[0] == 'no' else '', number=number, **known)
        it = self.asked_one(words[0], area, test)
        if name != '-':
            test.blocker, test.blocking = name, self.in_the_way(it, area, name)
        self.decision_of(it).tests.append(test)

    def in_the_way(self, it, area, name):
        """The float of this name that keeps a float of its class back: it waits, or it was placed in this column."""
        if area in ('here', 'top'):
            found = self.in_column.get(self.spot, ())
        else:
            found = [that for that in self.waiting.get(name, ()) if area != 'joins' or that not in self.company]
        return next((that for that in found if (that.name, that.number) == (name, it.number) and that is not it), None)

    def asked_one(self, name, area, test):
        if area == 'company':
            self.company = [self.head] + self.company
            return self.head
        if area in ('alone', 'joins'):
            it = self.waiting_one(name, test)
            if area == 'alone' and not test.failed:
                self.head, self.company = it, []
            elif area == 'joins' and not test.failed:
                self.company.append(it)
            return it
        if self.kind != 'call' and area in ('enter', 'wide'):
            self.current = self.waiting_one(name, test)
        return self.current

    def goes(self, name, where):
        if where == 'page':
            it = next(it for it in self.company if it.name == name)
            self.company.remove(it)
            self.is_made = True
            if it is self.head or not self.run.companies or self.run.companies[-1][0] != self.spot:
                self.run.companies.append((self.spot, []))
            self.run.companies[-1][1].append(it)
        else:
            it = self.current
        self.decision_of(it).goes = where
        self.waits(it, where == 'deferred')
        if where in ('here', 'bottom'):
            self.in_column.setdefault(self.spot, []).append(it)

    def back(self, name, where):
        """Of the floats of this name that stand there, the first on the latest page goes back."""
        found = [it for it in self.run.named(name) if it.decisions and it.decisions[-1].goes == where
                 and it not in self.taken_back]
        it = min(found, key=lambda one: (-one.decisions[-1].spot.place, -one.decisions[-1].spot.column))
        it.decisions[-1].back = where
        self.taken_back.append(it)

    def beside(self, words):
        known = values(words[2:])
        self.run.notes.append(Note(words[0], int(words[1]), self.spot_of(known), known['text'],
                                   known['reach'], known['high'], known['shift'], known[''][0]))

    def summary(self, words):
        it, = self.run.named(words[0], int(words[1]))
        it.called = int(words[3])
        if words[4] == 'landed':
            it.landed, it.where, rest = int(words[5]), words[6], words[7:]
        else:
            it.where, rest = words[5], words[6:]
        for at in range(1, len(rest), 5):
            area, word, root, by, times = rest[at:at + 5]
            it.reasons.append(Reason(area, word, root, int(by), int(times)))

    def trace(self, word, words):
        """A line of the trace, of which columns and floats are kept."""
        if word == 'page':
            self.page, self.column, self.is_wide = int(words[0]), 0, words[1] == 'wide'
            self.place += 1
        elif word == 'column':
            self.column = 0 if self.is_wide else int(words[0])
            self.run.heights[Spot(self.page, self.column, self.place)] = int(words[3])
        elif word == 'float':
            self.shipped.setdefault((words[0], self.page, words[2]), []).append((self.place, self.column))
        elif word == 'end':
            self.run.done = True

    def finish(self):
        self.end_pass()
        for it in self.run.floats:
            found = [at for at in self.shipped.get((it.name, it.landed, it.where), ()) if at[0] >= it.spot.place]
            if found:
                it.place, it.column = found[0]
                self.shipped[it.name, it.landed, it.where].remove(found[0])
            for decision in it.decisions:
                decision.height = decision.height or self.run.heights.get(decision.spot, 0)
        return self.run


@dataclass(frozen=True)
class Landing:
    """Where one float landed, for comparing runs."""
    landed: int          # the number of the page, 0 if it was not shipped
    where: str
    place: int           # of that page, counted from 1
    column: int
    times: int           # how many columns and wide pages were put out while it waited

    def late(self):
        return self.times


def landing_of(text, name, line):
    """Where a float landed whose name no other has, found without reading all; None if it was not called."""
    at = text.rfind('\nwhy %s %d called ' % (name, line))
    if at < 0:
        return None
    words = text[at + 1:].split('\n', 1)[0].split()
    if words[5] != 'landed':
        return Landing(0, words[6], 0, 0, 0)
    page, where = int(words[6]), words[7]
    return Landing(page, where, *_spot_of(text, name, page, where), sum(int(it) for it in words[13::5]))


def _spot_of(text, name, page, where):
    """The place of the page of this number on which a float stands, and its column, 0 over both columns."""
    start = text.find('\npage %d ' % page) + 1
    while start:
        end = text.find('\npage ', start)
        column = _column_of(text[start:None if end < 0 else end].split('\n'), name, where)
        if column is not None:
            return text.count('\npage ', 0, start + len('page ')), column
        start = text.find('\npage %d ' % page, start) + 1
    return 0, 0


def _column_of(lines, name, where):
    """The column of a float among the lines of a page, None where it is not."""
    column = 0
    for words in map(str.split, lines):
        if words[:1] == ['column'] and lines[0].split()[2] != 'wide':
            column = int(words[1])
        elif words[:2] == ['float', name] and words[3] == where:
            return column
    return None


def pages_of(text):
    """How many pages were shipped."""
    return text.count('\npage ')


def read(text):
    """All that the output of the mode why tells."""
    reader = _Reader()
    for number, line in enumerate(text.splitlines(), 1):
        words = line.split()
        if not words or words[0] in ('try', 'box', 'rule', 'report'):
            continue
        try:
            reader.take(words[0], words[1:], number)
        except (ValueError, IndexError, KeyError, TypeError, AttributeError, StopIteration):
            raise WhyFault('line %d: this is no line of the mode why: %s' % (number, line)) from None
    return reader.finish()
