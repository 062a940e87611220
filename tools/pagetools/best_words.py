"""What the page breaks that were chosen change, in words: column by column, with sums before and after."""
from dataclasses import dataclass

from . import report
from .best import Text

PT = 65536.0
BAD = 20000             # demerits of a bad column: those of a badness of 131, or of a place whose penalty is 141
BAD_BADNESS = 131
BAD_PENALTY = 100       # of a place that hinders a break; so much below 0 invites one
FULL = 0.05             # points that a full column may lack

COUNTS = {1: 'one', 2: 'two', 3: 'three', 4: 'four', 5: 'five', 6: 'six'}
SPLITS = {'widow': 'a widow (the last line of a paragraph alone on the next page)',
          'club': 'a club line (the first line of a paragraph alone)',
          'both': 'a paragraph of two lines split'}


@dataclass
class Labels:
    """The numbers of pages, by their places in the report; a page without one is called by its place."""
    before: dict
    after: dict

    def names(self, place):
        """`page 12`, or `page 13 (page 12 before)`."""
        old, new = self.before.get(place), self.after.get(place)
        if new is None or old is None or new == old:
            return 'page %d' % (new or old or place)
        return 'page %d (page %d before)' % (new, old)


PLACES = Labels({}, {})        # each page is called by its place


def own_labels(before, after):
    """The labels by the numbers that are printed on the pages."""
    return Labels({page.place: page.number for page in before.report.pages},
                  {page.place: page.number for page in after.report.pages})


def count(number, word):
    """`two lines`, `12 lines`."""
    return '%s %s%s' % (COUNTS.get(number, number), word, '' if number == 1 else 's')


def and_all(words):
    """`a, b and c`."""
    return words[0] if len(words) == 1 else '%s and %s' % (', '.join(words[:-1]), words[-1])


# ---- One column

def badness(ending):
    """The badness as a number, None if the column is too full."""
    return None if ending.badness == '*' else int(ending.badness)


def points(size):
    return '%.1fpt' % (size / PT)


def fill(ending, text):
    """How full a column is, said of one that is not full."""
    if ending.badness == '*':
        return '%s too full' % points(-ending.short)
    if ending.short < 0:
        return 'squeezed by %s' % points(-ending.short)
    if text.is_flush(ending.line) and badness(ending):
        return '%s short, with glue that stretches by %s' % (points(ending.short), points(ending.stretch[0]))
    return '%s short' % points(ending.short)


@dataclass
class Fault:
    """What is bad about a column: said of the pages before, of those now, and what is said where it is gone."""
    past: str
    present: str
    mended: str


def faults(ending, text):
    """What is bad about a column; none of one that is not there."""
    if ending is None:
        return []
    found = []
    if badness(ending) is None or badness(ending) > BAD_BADNESS:
        what = fill(ending, text)
        if ending.penalty <= -BAD_PENALTY:
            what += ', where a penalty of %d invites a break' % ending.penalty
        found.append(Fault('was ' + what, 'is ' + what, 'fill'))
    if ending.penalty >= BAD_PENALTY:
        split = text.splits(ending.boxes)
        what = 'left ' + SPLITS[split] if split else 'ended at a penalty of %d' % ending.penalty
        found.append(Fault(what, what.replace('left', 'leaves', 1).replace('ended', 'ends', 1), 'place'))
    if ending.waiting:
        found.append(Fault('left %s waiting' % count(ending.waiting, 'float'),
                           'leaves %s waiting' % count(ending.waiting, 'float'), 'no float waits'))
    if ending.held:
        found.append(Fault('split %s' % count(ending.held, 'footnote'), 'splits %s' % count(ending.held, 'footnote'),
                           'no footnote is split'))
    return found


def moved(old, new):
    """`ends two lines earlier`, '' where a column ends after the same line."""
    lines = new.boxes - old.boxes if old and new else 0
    return 'ends %s %s' % (count(abs(lines), 'line'), 'earlier' if lines < 0 else 'later') if lines else ''


class Story:
    """All that is said of a galley."""

    def __init__(self, galley, choice, before, after, labels=None):
        self.text, self.choice, self.before, self.after = Text(galley), choice, before, after
        self.labels = labels or own_labels(before, after)
        self.columns = {}                   # by page and column: how it ended, and how it ends; None where it does not
        for side, own in ((0, before), (1, after)):
            for it in own.endings:
                self.columns.setdefault((it.page, it.column), [None, None])[side] = it

    def name(self, page, column):
        """What a column is called."""
        in_two = any(it == 2 and at == page for at, it in self.columns)
        return self.labels.names(page) + (', column %d' % column if in_two else '')

    def _now(self, old, new, gone):
        """What is said of a column whose faults are gone."""
        said = []
        for fault in gone:
            if new is None:
                said.append('no text column ends there')
            elif fault.mended == 'fill':
                said.append('it is ' + (fill(new, self.text) if abs(new.short) >= FULL * PT else 'full'))
            elif fault.mended == 'place':
                said.append('it ' + (moved(old, new) or 'does not'))
            else:
                said.append(fault.mended)
        return and_all(list(dict.fromkeys(said)))

    def line(self, page, column):
        """What is said of a column, '' if nothing is bad about it, before or now."""
        old, new = self.columns[page, column]
        then, now = faults(old, self.text), faults(new, self.text)
        name = self.name(page, column)
        if not then and not now:
            return ''
        if not now:
            return '%s %s; now %s' % (name, and_all([it.past for it in then]), self._now(old, new, then))
        present = and_all([it.present for it in now])
        if [it.present for it in then] == [it.present for it in now]:
            return '%s %s, as before' % (name, present)
        if not then:
            return 'new: %s %s' % (name, present)
        return '%s %s; now it %s' % (name, and_all([it.past for it in then]), present)

    def break_lines(self):
        """What is said of each break."""
        for it in self.choice.breaks:
            new = next((end for end in self.after.endings if end.line == it.line and end.chosen), None)
            old = self.columns.get((new.page, new.column), [None])[0] if new else None
            where = '%s ends there' % self.name(new.page, new.column) if new else 'no page ends there'
            shift = moved(old, new)
            yield 'line %d, after %s: %s%s' % (it.line, it.after, where, ', ' + shift.replace('ends ', '', 1) if shift else '')

    def page_lines(self):
        """What is said of each column with a fault, before or now."""
        return [said for said in (self.line(*at) for at in sorted(self.columns)) if said]

    def other_pages(self):
        """The pages that hold other lines than before, as `3 to 34`; '' for none."""
        ends = {page for (page, _), (old, new) in self.columns.items() if not (old and new and old.boxes == new.boxes)}
        known = {page for page, _ in self.columns}
        numbers = ends | {page + 1 for page in ends if page + 1 in known}      # where a page begins elsewhere
        return ranges([self.labels.after.get(page) or self.labels.before.get(page) or page for page in numbers])

    def chosen_lines(self):
        """What is said of all that was chosen."""
        breaks = len(self.choice.breaks)
        if breaks:
            yield '%s put in:' % ('1 page break is' if breaks == 1 else '%d page breaks are' % breaks)
            yield from ('  ' + it for it in self.break_lines())
        else:
            yield 'no page break is put in: no choice of breaks has fewer demerits'

    def sums(self):
        """The sums before and after."""
        sides = (self.before, self.after)
        yield 'demerits: %d before, %d now' % (self.choice.greedy, self.choice.least)
        bad = [sum(end.demerits >= BAD for end in side.endings) for side in sides]
        yield 'columns of %d demerits or more: %d before, %d now' % (BAD, *bad)
        yield 'pages: %d before, %d now' % tuple(len(side.report.pages) for side in sides)

    def is_changed(self):
        """Whether the pages may be others than before."""
        return bool(self.choice.breaks)

    def lines(self):
        """The whole, as lines."""
        yield from self.chosen_lines()
        yield from self.sums()
        told = self.page_lines()
        if told:
            yield 'page by page:'
            yield from ('  ' + it for it in told)
        if self.is_changed() and self.other_pages():
            yield 'other lines than before: ' + self.other_pages()


def ranges(numbers):
    """`page 2, pages 4 to 6`."""
    found = []
    for number in sorted(set(numbers)):
        if found and found[-1][1] == number - 1:
            found[-1][1] = number
        else:
            found.append([number, number])
    return ', '.join('page %d' % first if first == last else 'pages %d to %d' % (first, last) for first, last in found)


def data(choice, before, after):
    """The same as plain data (docs/JSON.md)."""
    def columns(side):
        return [{'page': side.report.pages[it.page - 1].number, 'column': it.column, 'line': it.line or None, 'badness': badness(it),
                 'penalty': it.penalty, 'waiting': it.waiting, 'held': it.held, 'demerits': it.demerits,
                 'short': it.short, 'chosen': it.chosen} for it in side.endings]
    return {'best': 1, 'greedy': choice.greedy, 'least': choice.least,
            'breaks': [{'line': it.line, 'page': it.page or None, 'after': None if it.after == '-' else it.after}
                       for it in choice.breaks],
            'before': columns(before), 'after': columns(after), 'report': report.data(choice.report)}
