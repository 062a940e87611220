"""The story of one float or marginal note in plain sentences, and a table of all: what `galley-pages why` prints."""
from . import why, why_tries, why_words
from .why_words import CARRIED, in_words, points

WHERE = {'here': 'in the text', 'top': 'at the top', 'bottom': 'at the bottom', 'wide': 'above the columns',
         'page': 'on a page of floats'}
SHORT = {'here': 'text', 'top': 'top', 'bottom': 'bottom', 'wide': 'above the columns', 'page': 'floats alone'}
GOES = {'here': 'goes into the text', 'top': 'goes to the top', 'bottom': 'goes to the bottom',
        'wide': 'goes above the columns', 'page': 'goes on a page of floats'}


class Unknown(Exception):
    """A name that no float and no marginal note has, or several floats have."""


def listed(words, last='and'):
    """`a, b and c`."""
    words = list(words)
    return words[0] if len(words) == 1 else '%s %s %s' % (', '.join(words[:-1]), last, words[-1])


def numbers(values):
    """`2`, `2 and 3`, `2 to 5`."""
    values = sorted(set(values))
    if len(values) > 2 and values[-1] - values[0] == len(values) - 1:
        return '%d to %d' % (values[0], values[-1])
    return listed(map(str, values))


def counted(number, word):
    return '%d %s%s' % (number, word, '' if number == 1 else 's')


def telling(decision):
    """The tests that kept a float; those of its places only where there is no other. Of a text that its places leave out
    nothing is told."""
    failed = decision.failed()
    others = [it for it in failed if it.failed != 'places']
    return [it for it in others if it.area != 'here' or 'h' in decision.places] or others or failed


def is_behind(decision):
    """Whether a float of its class kept it."""
    reason = decision.reason()
    return reason is not None and reason.failed == 'class'


def capital(text):
    return text[:1].upper() + text[1:]


class Story:
    """What can be said of the floats and notes of a run."""

    def __init__(self, run, settings):
        self.run = run
        self.settings = settings
        self.two = run.in_two_columns()
        self.texts = {}         # what a reason of the summary is in words

    # ---- words for places

    def spot(self, spot):
        """`page 3`, or `page 3, column 2`."""
        return 'page %d' % spot.page + (', column %d' % spot.column if self.two and spot.column else '')

    def late(self, number):
        return counted(number, 'column' if self.two else 'page') + ' late'

    def landed(self, it):
        """`at the top of page 4`."""
        where = 'in a column of floats' if self.two and it.where == 'page' and it.column else WHERE[it.where]
        joint = ', ' if it.where == 'page' else ' of '
        return where + joint + self.spot(why.Spot(it.landed, it.column))

    def landing(self, it):
        """`page 4, top`."""
        return '%s, %s' % (self.spot(why.Spot(it.landed, it.column)), SHORT[it.where]) if it.landed else 'not shipped'

    def about(self, it):
        return '%s (line %d, [%s], %s high)' % (it.name, it.line, it.places, points(it.high))

    # ---- the story

    def of(self, it):
        """The sentences on a float, without what would have let it in."""
        if it.landed and not it.late():
            return [self.in_one(it)]
        verb = 'waits from' if it.waits else 'is called on'
        head = '%s %s %s' % (self.about(it), verb, self.spot(it.spot))
        if not it.landed:
            return [head + ', and the run ends before it is shipped.'] + self.missed(it)
        return ['%s, and lands %s: %s.' % (head, self.landed(it), self.late(it.late()))] + self.missed(it) + self.arrival(it)

    def in_one(self, it):
        """The only sentence on a float that lands where it is called."""
        where = 'there' if it.where != 'page' else 'of floats'
        return '%s is called on %s, and %s%s.' % (self.about(it), self.spot(it.spot), GOES[it.where],
                                                  '' if where == 'of floats' else ' ' + where)

    def missed(self, it):
        """A sentence for each place that it missed; neighbours with one reason are one."""
        groups = []
        for at, decision in enumerate(it.decisions):
            if decision.back:
                groups.append(('back', [decision], 'it %s, but a clear takes it back' % GOES[decision.goes], ''))
            elif not decision.placed() and not self.is_made_good(it, at):
                self.add(groups, decision, self.why_not(decision), self.root(decision))
        out, before = [], ('', '')
        for kind, decisions, text, root in groups:
            same = (text, root) == before
            if kind == 'taken' and len({one.reason().blocker for one in decisions}) > 1:
                text = 'floats of its class wait before it, the first of them %s' % decisions[0].reason().blocker
            out.append('%s %s.' % (self.when(kind, decisions), 'the same' if same else text))
            out += [root] if root and root != before[1] else []
            before = (text, root)
        return out

    @staticmethod
    def is_made_good(it, at):
        """Whether a clear places it on the very page where it was kept."""
        later = it.decisions[at + 1:]
        return any(one.spot == it.decisions[at].spot and one.placed() for one in later) and it.decisions[at].kind != 'call'

    @staticmethod
    def add(groups, decision, text, root):
        kind = 'call' if decision.kind == 'call' else 'taken' if decision.taken else 'kept'
        same = groups and groups[-1][0] == kind
        if same and kind == 'kept' and groups[-1][2:] == (text, root) or same and kind == 'taken' and is_behind(
                decision) and is_behind(groups[-1][1][0]):
            groups[-1][1].append(decision)
        else:
            groups.append((kind, [decision], text, root))

    def when(self, kind, decisions):
        spots, kinds = list(dict.fromkeys(one.spot for one in decisions)), {one.kind for one in decisions}
        pages = {spot.page for spot in spots}
        if len(spots) == 1 or self.two and len(spots) <= 4:
            where = listed(map(self.spot, spots))
        else:
            where = 'page%s %s' % ('s' * (len(pages) > 1), numbers(pages))
        if kind == 'call':
            return 'On %s, where it is called:' % where
        if kind == 'taken':
            return '%s take%s other floats:' % (capital(where), 's' * (len(spots) == 1))
        return '%s %s:' % ('On' if len(kinds) > 1 else 'At a clear on' if kinds == {'clear'} else 'At the start of', where)

    def why_not(self, decision):
        """Each test that kept it, in words."""
        parts = list(dict.fromkeys(in_words(test, decision, self.settings) for test in telling(decision)))
        return '; '.join(parts) or 'it is not asked'

    def root(self, decision):
        """Why the float that is in the way waits itself, '' if none is."""
        test = decision.reason()
        reason = why_words.end_of_chain(test) if test and test.failed == 'class' else None
        return '%s waits: %s.' % (reason[0].name, self.why_not(reason[2])) if reason else ''

    def arrival(self, it):
        last = it.decisions[-1]
        if any(one.word == 'carried' for one in it.reasons):
            return ['On %s it goes into the text, but the page breaks before it, so it lands on page %d.' % (
                self.spot(last.spot), it.landed)]
        what = GOES[last.goes]
        if last.goes == 'page':
            if self.two and it.column:
                what = 'goes into a column of floats'
            others = next((those for spot, those in self.run.companies if spot == last.spot and it in those), [])
            names = [one.name for one in others if one is not it]
            what += ' with ' + (listed(names) if len(names) <= 6 else counted(len(names), 'other')) if names else ''
        return ['%s it %s.' % (self.when(last.kind, [last]), what)]

    # ---- what would have let it in

    def tries(self, it, helps, others):
        """The lines on the changes that were tried."""
        if not helps:
            return ['Nothing that was tried would have let it in earlier: %s.' % listed(
                (self.change(it, *pair) for pair in others), 'or')]
        out = ['What would have let it in earlier, each tried alone:']
        for one in helps:
            same = one.pages == self.run.pages() or not self.run.done
            pages = '' if same else ' (%s in place of %d)' % (
                counted(one.pages, 'page'), self.run.pages())
            out.append('  %s: it lands %s%s' % (self.change(it, one.target, one.change), self.landed(one.found), pages))
        if others:
            out.append('Tried, and of no use: %s.' % listed(self.change(it, *pair) for pair in others))
        return out

    @staticmethod
    def change(it, target, change):
        if change == why_tries.CLEAR:
            return '\\clearpage behind it'
        named = change.what in ('places', 'high') and target is not it
        return (target.name + ' with ' if named else '') + change.in_words()

    # ---- notes, and all of them

    def of_note(self, note):
        head = '%s (line %d) is a marginal note on %s, on the %s' % (note.name, note.line, self.spot(note.spot), note.side)
        if not note.shift:
            return [head + ': it stands beside its line.']
        return [head + ': it moves down by %s, since it is to begin %s below the top, and the notes before it reach %s down, '
                'marginparpush (%s) included.' % (points(note.shift), points(note.text - note.high), points(note.reach),
                                                 points(self.push_before(note)))]

    def push_before(self, note):
        """What marginparpush is where the note before this one in its column is called, since it is a part of the reach."""
        those = [one for one in self.run.notes if one.spot == note.spot]
        before = those[max(those.index(note) - 1, 0)]
        return self.settings.at(before.line)['marginparpush']

    def reason(self, it):
        """The reason for which it waited longest, in words; '' if it waited for none."""
        if not it.reasons:
            return ''
        most = max(reversed(it.reasons), key=lambda one: one.times)
        text = self.reason_text(most)
        if most.root != it.name:
            text = '%s: %s' % (most.root, text)
        others = len(it.reasons) - 1
        return text + (' (and %s)' % counted(others, 'other reason') if others else '')

    def reason_text(self, reason):
        if (reason.area, reason.word) in CARRIED:
            return CARRIED[reason.area, reason.word]
        key = (reason.area, reason.word, reason.root, reason.by)
        if key not in self.texts:
            self.texts[key] = self.text_of(reason)
        return self.texts[key]

    def text_of(self, reason):
        those = [one for it in self.run.named(reason.root) for one in it.decisions]
        is_it = lambda test: test and (test.area, test.failed, test.lacks()) == (reason.area, reason.word, reason.by)
        for decision in those:
            if is_it(decision.reason()):
                return in_words(telling(decision)[0], decision, self.settings)
        found = ((test, decision) for decision in those for test in decision.failed() if is_it(test))
        test, decision = next(found, (None, None))
        return in_words(test, decision, self.settings) if test else '%s %s' % (reason.area, reason.word)

    def table(self):
        """A line for each float, and one for each note that moved."""
        rows = [('float', 'line', 'called', 'landed', 'late', 'reason')]
        for it in self.run.floats:
            rows.append((it.name, str(it.line), self.spot(it.spot), self.landing(it), str(it.late()), self.reason(it)))
        widths = [max(len(row[at]) for row in rows) for at in range(5)]
        out = ['  '.join(cell.ljust(width) for cell, width in zip(row, widths + [0])).rstrip() for row in rows]
        moved = [note for note in self.run.notes if note.shift]
        return (out if self.run.floats else ['no floats']) + [line for note in moved for line in self.of_note(note)]


def chosen(run, name, line):
    """The floats and notes that a name means."""
    floats = run.named(name, line)
    notes = [note for note in run.notes if note.name == name and line in (None, note.line)]
    if not floats + notes:
        at = '' if line is None else ' on line %d' % line
        raise Unknown('no float and no marginal note with the name %s was called%s' % (name, at))
    if len(floats + notes) > 1:
        lines = listed(str(it.line) for it in floats + notes)
        raise Unknown('%s is called on the lines %s: add one of them' % (name, lines))
    return floats, notes


def lines(run, settings, floats, notes, tried):
    """The story of each float and note; `tried` tries the changes for a float."""
    story, out = Story(run, settings), []
    for it in floats:
        out += story.of(it)
        if it.late() or not it.landed:
            out += story.tries(it, *tried(it))
    for note in notes:
        out += story.of_note(note)
    return out
