"""Spreads whose two pages are made one line longer or shorter, so that the pages of a galley are better than with page
breaks alone.

A spread is a page of even number and the page after it. Its change is a line `enlarge` in each of their columns. Which
spreads are changed is found by trying: for each galley with such lines the mode best chooses the breaks anew, and it is
kept if it has fewer demerits. So the breaks are the best ones for the pages as high as they are, and the choice of the
spreads is not proved to be the least. All sizes are sp."""
from bisect import bisect_left
from dataclasses import dataclass, replace

from . import best, galley as galleys

DEMERITS = 2500         # for each spread that is changed
BAD = 20000             # demerits of a column that is worth a try
MOST_TRIES = 60         # runs of the mode best, besides the one with breaks alone
VERSION = 3             # of a galley that has `enlarge`
BASELINE = 12 * 65536   # baselineskip, where a galley sets none
CLEARS = ('newpage', 'clearpage', 'onecolumn', 'twocolumn')
BESIDE = ('float', 'margin', 'suppressfloats', 'page')      # a break may come behind these, without glue


@dataclass(frozen=True)
class Place:
    """A box or rule of the text before which `enlarge` goes."""
    box: int             # which of them, counted from 0
    line: int            # of the galley as it was given
    name: str


@dataclass(frozen=True)
class Spread:
    """Two pages that are made longer or shorter."""
    places: tuple        # one in each of their columns
    lines: int           # 1 is longer, -1 shorter
    by: int              # what is added to the height of each column


@dataclass
class Column:
    """A column of a report, with its part of the text."""
    page: int            # counted from 1
    number: int          # of the page, as it is printed
    is_text: bool
    height: int
    room: int            # what its height is, if nothing makes it another
    first: int           # of its boxes and rules, counted from 0 through the text
    end: int             # the box or rule behind its last one


@dataclass
class Pages:
    """The best pages with some spreads changed."""
    spreads: list
    choice: object       # best.Choice; its lines are those of the galley with the spreads
    side: object         # best.Side, likewise
    columns: list

    def demerits(self):
        return self.choice.least + DEMERITS * len(self.spreads)

    def bad(self):
        """The ends of bad columns."""
        return [it for it in self.side.endings if it.demerits >= BAD]

    def lines(self):
        """Which part of the text each column has."""
        return [(it.page, it.first, it.end) for it in self.columns]


@dataclass
class Plan:
    """What was chosen for a galley. All lines are those of the galley as it was given, but for `galley`."""
    spreads: list        # in the order of the text
    homes: list          # for each the columns that it changes
    choice: object       # best.Choice with the spreads; `least` has their demerits too
    side: object         # best.Side with breaks and spreads
    galley: str          # the galley with breaks and spreads
    alone: object        # best.Choice of breaks alone
    alone_side: object   # best.Side with these
    tries: int           # how many galleys were tried

    def is_changed(self):
        return bool(self.spreads or self.choice.breaks)


# ---- The galley with changed spreads

def _places(spreads):
    return sorted((place.line, spread.by) for spread in spreads for place in spread.places)


def with_spreads(text, spreads):
    """The text of a galley with a line `enlarge` before each place of the spreads, in version 3."""
    by, out, is_begun = dict(_places(spreads)), [], not spreads
    for number, line in enumerate(text.splitlines(), 1):
        words = line.split()
        if not is_begun and words and not words[0].startswith('#'):
            line, is_begun = 'galley %d' % VERSION, True
        if number in by:
            out.append('enlarge %d' % by[number])
        out.append(line)
    return ''.join(line + '\n' for line in out)


def own_line(line, spreads):
    """What a line of the galley with the spreads is in the galley as it was given; an `enlarge` is the line below it."""
    lines = [at for at, _ in _places(spreads)]
    return line - sum(at + before < line for before, at in enumerate(lines))


# ---- What may be changed

class Layout:
    """A galley's boxes and rules: where `enlarge` may go, and how high the columns are."""

    def __init__(self, text):
        self.own, self.galley = best.Text(text), galleys.read_lines(text.splitlines())
        self.version, self.baselines = 1, [(0, BASELINE)]
        for number, words in enumerate(map(str.split, text.splitlines()), 1):
            if words[:1] == ['galley']:
                self.version = int(words[1])
            if words[:2] == ['set', 'baselineskip']:
                self.baselines.append((number, galleys.sp(words[2])))
        self.places, self.forced, self.has_doubles = [], [], False
        behind = ''
        for item in self.own.items:
            word = item.words[0]
            self.has_doubles |= word == 'float' and 'double' in item.words
            if item.is_line():
                self.places.append(Place(len(self.places), item.line, item.words[1] if behind not in BESIDE else ''))
            elif word in CLEARS or (item.penalty() or 0) <= best.FORCED:
                self.forced.append(len(self.places))
            behind = word

    def is_suited(self):
        """Whether `enlarge` can be put in and all else stays: a galley of an earlier version has double floats of another
        depth."""
        return self.version >= VERSION or not self.has_doubles

    def middle(self, column):
        """The place in the middle of a column, None without one. There it stays on its page, also where the page before
        takes some lines more."""
        middle = (column.first + column.end) // 2
        near = sorted(range(column.first, column.end), key=lambda box: abs(box - middle))
        return next((self.places[box] for box in near if self.places[box].name), None)

    def block(self, box):
        """Which of the stretches between forced breaks a box stands in."""
        return bisect_left(self.forced, box + 1)

    def columns(self, made):
        """The columns of a report."""
        found, boxes = [], 0
        for page in made.pages:
            for it in page.columns:
                first, boxes = boxes, boxes + self.own.in_column(it)
                room = self.galley.room(page, self.places[first].line) if boxes > first else 0
                found.append(Column(page.place, page.number, it.kind == 'text', it.height, room, first, boxes))
        return found

    def spread(self, columns, lines):
        """The spread of these columns, made longer or shorter; None if it can't be."""
        places = [self.middle(it) if it.is_text and it.height == it.room else None for it in columns]
        if not all(places):
            return None
        by = galleys.at_line(self.baselines, places[0].line)
        return Spread(tuple(places), lines, lines * by) if by else None


def pairs(columns):
    """The columns of each spread: a page of even number, and the page of the next number behind it."""
    by_page = {}
    for it in columns:
        by_page.setdefault(it.page, []).append(it)
    return [own + by_page[page + 1] for page, own in by_page.items()
            if own[0].number % 2 == 0 and own[0].number + 1 == next((it.number for it in by_page.get(page + 1, [])), None)]


def changed(spread, columns):
    """The columns that a spread changes: all those of two facing pages, each once. None if it is otherwise."""
    boxes = [place.box for place in spread.places]
    for pair in pairs(columns):
        if any(it.first <= boxes[0] < it.end for it in pair):
            is_right = len(pair) == len(boxes) and all(
                it.is_text and it.first <= box < it.end and it.height == it.room + spread.by for it, box in zip(pair, boxes))
            return pair if is_right else None
    return None


def is_seen(before, after):
    """Whether a change is one of the pages, and not of their heights alone: other lines on some page, or fewer bad columns. A
    page that ends where it must has fewer demerits too if it is one line shorter, and looks the same."""
    return before.lines() != after.lines() or len(after.bad()) < len(before.bad())


# ---- The search

class Search:
    """Tries spreads on a galley, from the best pages with breaks alone."""

    def __init__(self, program, text, choice):
        self.program, self.text, self.layout, self.tries = program, text, Layout(text), 0
        self.alone = self.pages([], choice)

    def pages(self, spreads, choice):
        """The pages of a choice, with all that is told of them."""
        side = best.side(self.program, with_spreads(self.text, spreads), choice.breaks)
        return Pages(spreads, choice, side, self.layout.columns(choice.report))

    def tried(self, spreads):
        """What the mode best chooses with these spreads, None if they are not as they should be."""
        self.tries += 1
        try:
            choice = best.read(best.run(self.program, 'best', with_spreads(self.text, spreads)), 'a galley with spreads')
        except best.BestFault:      # with too many choices it is not tried
            return None
        columns = self.layout.columns(choice.report)
        return choice if all(changed(it, columns) for it in spreads) else None

    def near(self, page, pages):
        """The spreads that may mend a page: its own, the one before and the one behind, each longer and shorter. One that a
        forced break parts from it can't."""
        bad = {self.layout.block(box) for it in pages.columns if it.page == page for box in range(it.first, it.end)}
        for pair in pairs(pages.columns):
            own = {self.layout.block(box) for it in pair for box in range(it.first, it.end)}
            if -3 <= pair[0].page - page <= 2 and own & bad:
                yield from filter(None, (self.layout.spread(pair, lines) for lines in (1, -1)))

    def better(self, page, pages):
        """The best pages with one more spread changed that may mend a page; None if none is better."""
        found = []
        for spread in self.near(page, pages):
            if self.tries == MOST_TRIES:
                break
            spreads = pages.spreads + [spread]
            choice = self.tried(spreads)
            if choice and choice.least + DEMERITS * len(spreads) < pages.demerits():
                found.append((choice.least, len(found), spreads, choice))
        better = (self.pages(spreads, choice) for _, _, spreads, choice in sorted(found))
        return next((it for it in better if is_seen(pages, it)), None)

    def best(self):
        """The best pages that were found. A bad page is left as it is when no spread makes the pages better."""
        pages, left = self.alone, set()
        while self.layout.is_suited() and self.tries < MOST_TRIES:
            page = min((it.page for it in pages.bad() if it.page not in left), default=None)
            if page is None:
                break
            found = self.better(page, pages)
            pages = found or pages
            if not found:
                left.add(page)
        return pages


def search(program, text, choice):
    """The plan for a galley, from the choice that the mode best made of it."""
    tried = Search(program, text, choice)
    pages = tried.best()
    spreads = sorted(pages.spreads, key=lambda it: it.places[0].line)
    own = lambda found: [replace(it, line=own_line(it.line, spreads)) for it in found]
    told = replace(pages.choice, greedy=choice.greedy, least=pages.demerits(), breaks=own(pages.choice.breaks))
    return Plan(spreads, [changed(it, pages.columns) for it in spreads], told,
                best.Side(own(pages.side.endings), pages.side.report),
                best.with_breaks(with_spreads(text, spreads), pages.choice.breaks),
                choice, tried.alone.side, tried.tries)


# ---- The file NAME.spreads, for the package galleybreaks

def written(plan):
    """The lines of a plan, in the order of the text."""
    lines = [(place.line, 'enlarge %d page %d by %d before %s' % (place.line, column.number, spread.by, place.name))
             for spread, home in zip(plan.spreads, plan.homes) for place, column in zip(spread.places, home)]
    lines += [(it.line, 'break %d page %d after %s' % (it.line, it.page, it.after)) for it in plan.choice.breaks]
    head = ['spreads 1', 'greedy %d' % plan.choice.greedy, 'breaks %d' % plan.alone.least, 'least %d' % plan.choice.least]
    return ''.join(line + '\n' for line in head + [line for _, line in sorted(lines)])
