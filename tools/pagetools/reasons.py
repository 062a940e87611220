"""Why a column ends where it ends, in words: what its end costs, what came next, and the second best place."""
from .places import FORCED

PT = 65536.0
HOPELESS = 100000        # the cost of a place where the page would be far too short
HIGHEST_LINE = 16 * PT   # a box up to this height counts as a line

COUNTS = {1: 'one', 2: 'two', 3: 'three', 4: 'four', 5: 'five', 6: 'six'}
FORCING = {'newpage': 'a new page', 'clearpage': 'a clear', 'onecolumn': 'the change to one column',
           'twocolumn': 'the change to two columns', 'end': "the galley's end", '': "the galley's end",
           'pagebreak': 'a page break', 'penalty': 'its penalty', 'float': 'a float', 'margin': 'a marginal note'}


def count(number, word):
    return '%s %s%s' % (COUNTS.get(number, number), word, '' if number == 1 else 's')


def boxes(lines):
    return [line for line in lines if line.word in ('box', 'rule')]


def parts_of_cost(attempt):
    """`badness 15, penalty 150, footnotes 100`: of what a cost is made."""
    parts = ['badness ' + attempt.badness]
    if attempt.penalty:
        parts.append('penalty %d' % attempt.penalty)
    rest = int(attempt.cost) - int(attempt.badness) - attempt.penalty
    if rest > 0:
        parts.append('footnotes %d' % rest)
    return ', '.join(parts)


def is_hopeless(attempt):
    return attempt.cost != '*' and int(attempt.cost) >= HOPELESS


def cost_in_words(attempt):
    if attempt.cost == '*':
        return 'too full'
    return 'far too short' if is_hopeless(attempt) else 'cost %s (%s)' % (attempt.cost, parts_of_cost(attempt))


def block(lines):
    """What stands between a place and the next one, in words, and whether it is more than one thing."""
    found = boxes(lines)
    feet = sum(1 for line in lines if line.word == 'foot')
    if not found:
        return 'what comes next', False
    if len(found) == 1 and found[0].size > HIGHEST_LINE:
        what = 'the next box, %.1fpt high,' % (found[0].size / PT)
    elif len(found) == 1:
        what = 'the next line'
    else:
        what = 'the next %s, with no break between,' % count(len(found), 'line')
    if feet:
        what = '%s and %s' % (what.rstrip(','), 'its footnote' if feet == 1 else count(feet, 'footnote'))
    return what, len(found) > 1 or feet > 0


def what_came_next(end, later, galley):
    """Why the column does not go on past its end."""
    if end.penalty <= FORCED:
        return 'forced by ' + FORCING.get(galley.word(end.line), 'its penalty')
    if not later:
        return 'nothing came after'
    following = later[0]
    if following.badness != '*':
        if following.cost == '*':
            return 'at the next place a footnote would be put off'
        return 'the next place would cost ' + following.cost
    what, several = block(galley.between(end.line, following.line) if end.line and following.line else [])
    over = (following.total - following.shrink - following.goal) / PT
    return '%s %s not fit, by %.1fpt' % (what, 'do' if several else 'does', over)


def distance(mark, end, galley):
    """How far a place is from the end: in lines, or in points where the output routine made one of the two."""
    first, last = mark.attempt.line, end.attempt.line
    if first and last:
        lines = len(boxes(galley.between(min(first, last), max(first, last))))
        return count(lines, 'line') + (' earlier' if first < last else ' later') if lines else 'right beside it'
    room = (mark.y - end.y) / PT
    return '%.1fpt %s' % (abs(room), 'above' if room < 0 else 'below') if abs(room) > 0.05 else 'right beside it'


def rival(end, others, galley):
    """The second best place."""
    costs = [(int(mark.attempt.cost), -k, mark) for k, mark in enumerate(others) if mark.attempt.cost != '*']
    if not costs:
        return 'no other place was weighed'
    cost, _, mark = min(costs, key=lambda row: row[:2])
    if cost >= HOPELESS:
        return 'at every other place the page would be far too short' + (' too' if is_hopeless(end.attempt) else '')
    return 'second best: %s, cost %d (%s)' % (distance(mark, end, galley), cost, parts_of_cost(mark.attempt))


def of_column(marks, galley):
    """The sentences on a column's end, by the marks of its last pass; none without them."""
    at = next((k for k, mark in enumerate(marks) if mark.ends), None)
    if at is None:
        return []
    end, later = marks[at].attempt, [mark.attempt for mark in marks[at + 1:]]
    if end.penalty <= FORCED:
        return ['ends here: ' + what_came_next(end, later, galley)]
    return ['ends here, %s: %s' % (cost_in_words(end), what_came_next(end, later, galley)),
            rival(marks[at], marks[:at] + marks[at + 1:], galley)]
