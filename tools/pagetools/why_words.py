"""A test that failed, in words, and the changes of which each alone makes it hold.

`in_words` and `changes` take a test of `why.read`, its decision, and the parameters of the galley (`settings.read`), of which
those count that hold where the float is called."""
from dataclasses import dataclass

from . import settings as known
from .points import size

SMALL = 6554            # below a tenth of a point sizes are in sp

# The parameters behind the counts and shares of each area.
COUNTS = {'enter': 'totalnumber', 'top': 'topnumber', 'bottom': 'bottomnumber', 'wide': 'dbltopnumber'}
SHARES = {'top': 'topfraction', 'bottom': 'bottomfraction', 'wide': 'dbltopfraction'}
AREAS = {'enter': 'this column', 'here': 'the text', 'top': 'the top', 'bottom': 'the bottom',
         'wide': 'the space above the columns', 'alone': 'a page of floats', 'joins': 'a page of floats',
         'company': 'a page of floats'}
LETTERS = {'here': 'h', 'top': 't', 'bottom': 'b', 'wide': 't', 'alone': 'p', 'joins': 'p'}


# Reasons of the summary that no test stands for.
CARRIED = {('here', 'carried'): 'the page broke before it, so it was carried in the text',
           ('clear', 'back'): 'a clear took it back',
           ('wait', 'wide'): 'it waited without a call, as a wide float of release 2014 does'}


@dataclass(frozen=True)
class Change:
    """One change of a galley, in a parameter or in the float itself."""
    what: str            # a parameter, `places` or `high`
    value: str           # as a galley has it; of `high` in sp
    bound: str = ''      # `least` or `most`, where the value is a bound

    def in_words(self):
        """As it is written in LaTeX."""
        if self.what in known.FRACTIONS:
            return '\\renewcommand{\\%s}{%s}' % (self.what, self.value)
        if self.what in known.NUMBERS:
            return '\\setcounter{%s}{%s}' % (self.what, self.value)
        if self.what == 'places':
            return '[%s]' % self.value
        return 'a height of %s' % points(int(self.value), down=True)


def points(sp, up=False, down=False):
    """A size for people: in tenths of a point, rounded up or down where that keeps a claim true."""
    if abs(sp) < SMALL:
        return '0pt' if sp == 0 else '%dsp' % sp
    tenths = -(-sp * 10 // 65536) if up else sp * 10 // 65536 if down else (sp * 20 + 65536) // 131072
    return '%s%d.%dpt' % ('-' if tenths < 0 else '', abs(tenths) // 10, abs(tenths) % 10)


def exact(sp):
    """A size as TeX prints it."""
    return size(sp)


def floats(number):
    return '%d float%s' % (number, '' if number == 1 else 's')


def is_now(name, values):
    """`topfraction is 0.7`."""
    if not values:
        return name
    value = values[name]
    return '%s is %s' % (name, known.decimal(value) if name in known.FRACTIONS else value)


# ---- in words

def in_words(test, decision, settings=None):
    """Why the test failed, as a part of a sentence whose subject is the float; '' if it holds."""
    if not test.failed:
        return ''
    return TELLERS[test.failed](test, decision, settings and settings.at(decision.line))


def _places(test, decision, values):
    if test.area == 'enter':
        return 'it may only go on a page of floats'
    return 'it lacks the place %s' % LETTERS[test.area]


def _wide(test, decision, values):
    return 'it is as wide as both columns, so it can only go above the columns of a later page'


def _class(test, decision, values):
    name = test.blocker
    if test.area == 'here':
        return '%s of its class is at the bottom of this column' % name
    if test.area == 'top':
        return '%s of its class comes before it in this column' % name
    return '%s of its class waits before it' % name


def _count(test, decision, values):
    allowed, used, _ = test.count
    where, name = AREAS[test.area], COUNTS[test.area]
    if used < allowed:
        return '\\suppressfloats lets no float into %s' % where
    have = 'has %s already' % floats(used) if used else 'may have no float'
    return '%s %s (%s)' % (where, have, is_now(name, values))


def _room(test, decision, values):
    over = points(test.lacks(), up=True)
    if test.area == 'wide':
        return '%s more than %s may hold (%s)' % (over, AREAS['wide'], is_now('dbltopfraction', values))
    rest = {'here': 'with intextsep round it, ', 'top': 'with the space below it, ', 'bottom': 'with the space above it, '}
    enter = decision.test('enter')
    least = enter.least if enter else 0
    return '%s%s too high for this column%s' % (rest.get(test.area, ''), over, _beside(least, decision, values))


def _beside(least, decision, values):
    """What the float is too high beside: the text so far, or the least that there must be."""
    if least <= decision.text:
        return ' beside the text so far' if decision.text else ''
    if '!' in decision.places:
        return ' beside the floats in its text'
    part = known.share(values['textfraction'], decision.height) if values else least
    others = ' and the floats in it' if part < least else ''
    return ' beside the text that must be there (%s)%s' % (is_now('textfraction', values), others)


def _share(test, decision, values):
    return '%s more than %s may hold (%s)' % (points(test.lacks(), up=True), AREAS[test.area],
                                              is_now(SHARES[test.area], values))


def _tall(test, decision, values):
    return '%s higher than the column' % points(test.lacks(), up=True)


def _sum(test, decision, values):
    if test.area == 'joins':
        return 'the floats before it leave %s too little of the page of floats' % points(test.lacks(), up=True)
    name = 'floatpagefraction' if decision.spot.column else 'dblfloatpagefraction'
    group = 'it is' if test.floats == 1 else 'the %s that could share a page of floats are' % floats(test.floats)
    return '%s %s high, and a page of floats needs more than %s (%s)' % (
        group, points(test.sum), points(test.least), is_now(name, values))


def root_of(test):
    """The test and the decision by which the float that is in the way waits itself; None if it was placed."""
    found = end_of_chain(test)
    return found[1:] if found else None


def end_of_chain(test):
    """The float that is in the way, or the one in its way, and so on, with the test that keeps it and its decision."""
    that = test.blocking
    before = [one for one in that.decisions if one.tests and one.tests[0].number < test.number] if that else []
    reason = before[-1].reason() if before else None
    if reason and reason.failed == 'class' and reason.blocking not in (None, that):
        return end_of_chain(reason) or (that, reason, before[-1])
    return (that, reason, before[-1]) if reason else None


TELLERS = {'places': _places, 'wide': _wide, 'class': _class, 'count': _count, 'room': _room, 'share': _share,
           'tall': _tall, 'sum': _sum}


# ---- what would have passed

def changes(test, it, decision, settings):
    """The changes of which each alone makes the test of the float `it` hold, with all else as it was at the decision. Its
    later tests may fail still. None if no such change does."""
    if not test.failed:
        return []
    found = MAKERS.get(test.failed, lambda *_: [])(test, it, decision, settings.at(it.line))
    return [change for change in found if change]


def with_bang(it):
    """The places with `!`, None if it has it."""
    return None if it.has_bang() else with_places(it, '!')


def with_places(it, letters):
    """The places with further letters, in LaTeX's order."""
    return Change('places', ''.join(letter for letter in '!htbp' if letter in it.places + letters))


def lower(test, it):
    """The float made lower by what it lacks, None if this is more than half of it."""
    return Change('high', str(it.high - test.lacks()), 'most') if it.high >= 2 * test.lacks() else None


def fraction_of_at_least(name, target, height):
    """The least fraction whose share of the height reaches the target, None if no fraction does."""
    part = -(-target * 65536 // height) if height else 65537
    return Change(name, known.at_least(max(part, 0)), 'least') if part <= 65536 else None


def fraction_of_at_most(name, target, height):
    """The greatest fraction whose share of the height is at most the target, None if no fraction has."""
    if not height or target < 0:
        return None
    return Change(name, known.at_most(min(((target + 1) * 65536 - 1) // height, 65536)), 'most')


def _pass_places(test, it, decision, values):
    letters = 'htb' if test.area == 'enter' else LETTERS[test.area]
    return [with_places(it, letter) for letter in letters]


def _pass_count(test, it, decision, values):
    allowed, used, _ = test.count
    suppressed = used < allowed or decision.kind == 'call' and values['suppressfloats']       # or may be: the line can't tell
    return [None if suppressed else Change(COUNTS[test.area], str(used + 1), 'least'), with_bang(it)]


def _pass_share(test, it, decision, values):
    name = SHARES[test.area]
    taken = known.share(values[name], decision.height) - test.share
    return [fraction_of_at_least(name, test.high + taken + 1, decision.height), with_bang(it), lower(test, it)]


def _pass_wide_room(test, it, decision, values):
    height = values['textheight']
    full = known.share(values['dbltopfraction'], height)
    if it.has_bang():
        return [lower(test, it)]
    bang = with_bang(it) if test.room + height - full > test.high else None
    return [fraction_of_at_least('dbltopfraction', test.high + full - test.room + 1, height), bang, lower(test, it)]


def _pass_room(test, it, decision, values):
    if test.area == 'wide':
        return _pass_wide_room(test, it, decision, values)
    high, least = it.high, decision.test('enter').least
    beside = test.need - max(decision.text, least) - high      # the separators
    most = test.room - 1 - beside - high                       # what the text may be
    part = 0 if it.has_bang() else known.share(values['textfraction'], decision.height)
    if it.has_bang() or least <= decision.text or decision.text > most or least - part > most:
        return [lower(test, it)]
    return [fraction_of_at_most('textfraction', most - (least - part), decision.height), with_bang(it), lower(test, it)]


def _pass_tall(test, it, decision, values):
    return [lower(test, it)]


def _pass_sum(test, it, decision, values):
    if test.area == 'joins':
        return [lower(test, it)]
    name = 'floatpagefraction' if decision.spot.column else 'dblfloatpagefraction'
    return [fraction_of_at_most(name, test.sum - 1, decision.height)]


MAKERS = {'places': _pass_places, 'count': _pass_count, 'share': _pass_share, 'room': _pass_room, 'tall': _pass_tall,
          'sum': _pass_sum}
