"""What a picture with --why tells of each float: where the words round its call stand, where it stands itself, and each
test that was made of it."""
from bisect import bisect_left
from dataclasses import dataclass

from . import report, settings, why, why_words

SHOWN = 6                # so many groups of decisions are told from the first on; of more the last one too
PLACES = {'here': 'in the text', 'top': 'at the top', 'bottom': 'at the bottom', 'wide': 'above both columns',
          'page': 'in a column of floats'}


class Told:
    """What the mode why told of a galley: the places that were weighed, and its floats and notes."""

    def __init__(self, path, galley):
        self.path = path
        with open(path, encoding='latin-1') as file:
            text = file.read()
        with open(galley, encoding='latin-1') as file:
            self.settings = settings.read(file.read())
        self.run = why.read(text)
        self.trace = report.read_lines([line for line in text.splitlines() if not why.is_told(line)], path)


@dataclass
class Story:
    """A float of the document."""
    number: int          # counted from 1
    told: why.Float
    source: Told
    item: object = None  # of the report, None if it was not shipped
    page: int = 0        # where it stands, 0 for nowhere
    column: int = 0      # 0 above both columns
    call_page: int = 0   # where the words before its call stand, 0 where that is unknown
    call_column: int = 0
    call_y: int = 0      # sp below the top of that column

    def late(self):
        """How many columns and wide pages were put out while it waited."""
        return self.told.late()

    def late_words(self):
        """How late it is, in columns or pages; '' if it is not late."""
        late, word = self.late(), 'column' if self.two() else 'page'
        return count(late, word) + ' late' if late else ''

    def two(self):
        """Whether there are pages of two columns."""
        return self.source.run.in_two_columns()

    def is_elsewhere(self):
        """Whether it stands on another page than the words round its call."""
        return self.page != self.call_page


def of_report(own, told):
    """The stories of the floats of a report."""
    items = [(page, column, item) for page in own.pages for column, item in page.items() if item.kind == 'float']
    found = []
    for number, it in enumerate(told.run.floats, 1):
        story = Story(number, it, told)
        at = next((k for k, (page, column, item) in enumerate(items)
                   if (item.name, page.place, item.place) == (it.name, it.place, it.where)
                   and it.column == (0 if page.kind == 'wide' else column)), None)
        if at is not None:
            page, story.column, story.item = items.pop(at)
            story.page = page.place
        elif it.landed:
            raise report.ReportFault('%s tells of other pages than %s' % (told.path, own.path))
        found.append(story)
    return found


def find_calls(stories, pages, entries):
    """Finds where the words before each call stand: below the last box of the text before it, or at the head of the first
    column with text if there is none before it."""
    lines = []
    for page in pages:
        for column, item in page.items():
            entry = entries.get(id(item))
            if entry and item.kind in ('box', 'rule') and not entry.foot:
                lines.append((entry.line, page.place, column, item.bottom()))
    lines.sort()
    if not lines:
        return
    for story in stories:
        at = bisect_left(lines, (story.told.line,))
        _, story.call_page, story.call_column, story.call_y = lines[max(at - 1, 0)]
        story.call_y *= at > 0


# ---- In words

def count(number, word):
    return '%d %s%s' % (number, word, '' if number == 1 else 's')


def title(it):
    """`figure.1: class 1, places tb, 135.0pt high`."""
    width = 'as wide as both columns, ' if it.width == 'double' else ''
    return '%s: class %d, places %s, %s%s high' % (it.name, it.number, it.places, width, why_words.points(it.high))


def journey(story):
    """Where it was called and where it stands, in a sentence."""
    it = story.told
    made = it.spot.place
    told = 'called while page %d was made' % made + (', column %d' % it.spot.column if story.two() else '')
    if story.call_page and story.call_page != made:
        told += '; the words before it stand on page %d' % story.call_page
    if not story.page:
        return told + '; on no page: the run ended before'
    alone = it.where == 'page' and (it.width == 'double' or not story.two())
    where = 'on a page of floats' if alone else PLACES[it.where]
    told += '; stands on page %d, %s' % (story.page, where)
    return told + (', ' + story.late_words() if story.late() else '')


def place_of(story, decision):
    """`page 5, column 2, at its call`."""
    spot = decision.spot
    column = ', column %d' % spot.column if spot.column else ', over both columns'
    when = {'call': ', at its call', 'start': '', 'clear': ', at a clear'}[decision.kind]
    return 'page %d' % spot.place + (column if story.two() else '') + when


def verdict(test):
    return '%s: %s' % (test.area, 'no, ' + test.failed if test.failed else 'yes')


def passes(test, story, decision):
    """What alone would have passed a test; '' if no change of the float or of a parameter would."""
    found = [it.in_words() + {'least': ' or more', 'most': ' or less', '': ''}[it.bound]
             for it in why_words.changes(test, story.told, decision, story.source.settings)]
    return 'would have passed this test: ' + ', or '.join(found) if found else ''


def goes(decision):
    return 'taken back from there' if decision.back else decision.goes or 'stays'


def in_words(test, story, decision):
    """Why a test failed, and where a float that waits is in the way, why that one or the first in line waits."""
    told = why_words.in_words(test, decision, story.source.settings)
    root = why_words.root_of(test) if test.failed == 'class' else None
    if root is None:
        return told
    reason, at = root
    first = next(it for it in story.source.run.floats if any(one is at for one in it.decisions))
    name = '' if first is test.blocking else '; first in line is ' + first.name
    return '%s%s (%s: %s)' % (told, name, reason.area, why_words.in_words(reason, at, story.source.settings))


def kept_lines(story, decision):
    """Why a decision kept the float, and what would have passed that test."""
    kept = decision.reason()
    if not kept:
        return []
    passed = passes(kept, story, decision)
    lines = [('   %s: %s' % (kept.area, in_words(kept, story, decision)), 'awful')]
    return lines + ([('   ' + passed, 'words')] if passed else [])


def decision_lines(story, decision):
    """The lines on one decision, each with its shape: the tests, then the one that kept the float, in words."""
    lines = [('%s \u2192 %s' % (place_of(story, decision), goes(decision)), 'told')]
    kept = kept_lines(story, decision)
    if len(decision.tests) > 1 or not kept:
        lines.append(('   ' + ' \u00b7 '.join(verdict(test) for test in decision.tests), 'quiet'))
    return lines + kept


def groups(story):
    """The decisions, those together that kept the float for the same reason one after another."""
    found, last = [], None
    for decision in story.told.decisions:
        kept = kept_lines(story, decision)
        if kept and kept == last:
            found[-1].append(decision)
        else:
            found.append([decision])
        last = kept
    return found


def group_lines(story, group):
    lines = decision_lines(story, group[0])
    if len(group) > 1:
        times = ', %d times' % (len(group) - 1) if len(group) > 2 else ''
        lines.append(('until %s: the same%s' % (place_of(story, group[-1]), times), 'told'))
    return lines


def lines_of(story):
    """All that is told of a float, by lines with their shapes: its title, where it went, and its decisions."""
    found = groups(story)
    left_out = len(found) - SHOWN if len(found) > SHOWN + 1 else 0
    lines = [(title(story.told), 'title'), (journey(story), 'words')]
    for group in found[:SHOWN if left_out else None]:
        lines += group_lines(story, group)
    if left_out:
        decisions = sum(map(len, found[SHOWN:-1]))
        lines.append(('%s more, which the file of --why tells' % count(decisions, 'decision'), 'quiet'))
        lines += group_lines(story, found[-1])
    return lines


def reason(story):
    """Why it is late or on no page, in words: the reason of the first decision that kept it; '' if it is not late."""
    if story.page and not story.late():
        return ''
    for decision in story.told.decisions:
        kept = decision.reason()
        if kept:
            return in_words(kept, story, decision)
    return 'a break carried it on with the text round it'


def note_tip(note):
    """Why a marginal note was moved."""
    return 'the text reaches down to %s, the notes before it to %s, and it is %s high' % (
        why_words.points(note.text), why_words.points(note.reach), why_words.points(note.high))


def note_tips(pages, notes, entries):
    """Why each marginal note was moved, by the ids of the items."""
    lines = {(note.name, note.line): note for note in notes}
    found = {}
    for page in pages:
        for _, item in page.items():
            entry = entries.get(id(item)) if item.kind == 'margin' else None
            note = entry and lines.get((item.name, entry.line))
            if note:
                found[id(item)] = note_tip(note)
    return found
