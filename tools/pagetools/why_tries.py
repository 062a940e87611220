"""Tries the changes that might have let a float in earlier: the program runs once more with each, and where the float lands
then is all that is claimed."""
import subprocess
from concurrent.futures import ThreadPoolExecutor
from dataclasses import dataclass

from . import settings as known
from . import why, why_words
from .why_words import Change

VALUES = {'places': 9}          # how many values of one parameter are tried for one float, where not three
ROUNDS = 3                      # values of one parameter that are tried, each by the test that failed after the one before
CLEAR = Change('clear', '')     # a clear behind the float


@dataclass
class Outcome:
    """Where a float lands after a change of it, or of another float that was in its way."""
    change: Change
    target: why.Float    # the float that is changed; of a parameter the one whose test asks for it
    found: why.Landing   # of the float in the run with the change
    pages: int           # of that run


def changed(text, target, change):
    """The galley with one change, and by how much the lines from a number on have moved: (text, first line, lines)."""
    lines = text.split('\n')
    at = target.line - 1
    if change == CLEAR:
        lines.insert(at + 1, 'clearpage')
        return '\n'.join(lines), at + 2, 1
    if change.what in ('places', 'high'):
        words = lines[at].split()
        words[4 if change.what == 'places' else 5] = change.value
        lines[at] = ' '.join(words)
        return '\n'.join(lines), 0, 0
    return with_parameter(lines, at, change)


def with_parameter(lines, at, change):
    """Likewise with another value of a parameter, where the line `at` (from 0) is. Where a `set` among the items gave it the
    value that holds there, that one is changed; else the value of the head, which the items set no other before."""
    new, end = 'set %s %s' % (change.what, change.value), head_end(lines)
    among = [k for k in range(end, at) if lines[k].split()[:2] == ['set', change.what]]
    if among:
        lines[among[-1]] = new
        return '\n'.join(lines), 0, 0
    lines.insert(end, new)
    return '\n'.join(lines), end + 1, 1


def head_end(lines):
    """Where the parameters of a galley end: the place behind its last `set` or `class` before the first item."""
    end = 0
    for at, line in enumerate(lines):
        words = line.split()
        if words and not words[0].startswith('#'):
            if words[0] not in ('galley', 'set', 'class'):
                break
            end = at + 1
    return end


def told_of(program, text):
    """What the mode why tells of a galley."""
    ran = subprocess.run([program, '--mode', 'why'], input=text.encode('latin-1'), stdout=subprocess.PIPE,
                         stderr=subprocess.DEVNULL, check=False)
    return ran.stdout.decode('latin-1')


def run_of(program, text):
    return why.read(told_of(program, text))


def outcome(program, text, it, target, change):
    """Where the float `it` lands after a change of `target`. Where it is no earlier, since a later test of the same decision
    fails by the same parameter, the value that passes that one is tried. None if the run with it is refused before."""
    for _ in range(ROUNDS):
        new, first, moved = changed(text, target, change)
        told = told_of(program, new)
        found = landing_in(told, it, first, moved)
        if found and found.landed and is_earlier(found, it):
            break
        more = further(told, new, target, line_in(target, first, moved), change) if change.bound else None
        if not more:
            break
        change = more
    return Outcome(change, target, found, why.pages_of(told)) if found and found.landed else None


def line_in(it, first, moved):
    """The float's line in a galley whose lines from one on have moved."""
    return it.line + (moved if it.line >= first else 0)


def landing_in(told, it, first, moved):
    """Where the float lands in the run of a changed galley, None if the run did not come so far."""
    line = line_in(it, first, moved)
    if it.is_alone_with_its_name:
        return why.landing_of(told, it.name, line)
    found = why.read(told).named(it.name, line)
    if not found:
        return None
    it = found[0]
    return why.Landing(it.landed, it.where, it.place, it.column, it.late())


def further(told, new, target, line, change):
    """The next value of what was changed, by the first decision that keeps the float still, on this line of the new galley;
    None if it has none."""
    those = why.read(told).named(target.name, line)
    if not those or len(those[0].decisions) > len(target.decisions):
        return None
    found, settings = those[0], known.read(new)
    for decision in found.missed():
        for test in decision.failed():
            for one in why_words.changes(test, found, decision, settings):
                if one.what == change.what and one != change:
                    return one
    return None


def candidates(it, settings):
    """The changes that pass a test by which the float was kept, or the float that was in its way, each once."""
    seen, counts = {}, {}
    for decision in it.missed():
        for target, change in of_decision(it, decision, settings, ()):
            key = id(target), change.what
            if (id(target), change) not in seen and counts.get(key, 0) < VALUES.get(change.what, 3):
                counts[key] = counts.get(key, 0) + 1
                seen[id(target), change] = target, change
    return list(seen.values()) + [(it, CLEAR)]


def of_decision(it, decision, settings, behind):
    """The changes for one decision; `behind` are the floats that wait for this one."""
    for test in decision.failed():
        for change in why_words.changes(test, it, decision, settings):
            yield it, change
    reason = decision.reason()
    if reason and reason.failed == 'class' and reason.blocking and reason.blocking not in behind:
        that = reason.blocking
        before = [one for one in that.decisions if one.tests and one.tests[0].number < reason.number and not one.placed()]
        if before:
            yield from of_decision(that, before[-1], settings, behind + (it,))


def tried(program, text, it, settings):
    """The outcome of each change: those by which the float is earlier, the earliest first and one for each parameter and
    float, and the changes that were of no use. Places in all letters are tried where no one letter is of use."""
    helps, others = tried_of(program, text, it, candidates(it, settings))
    if it.width == 'single' and not any(one.change.what == 'places' and one.target is it for one in helps):
        tried_before = [change for _, change in others]
        every = [why_words.with_places(it, letters) for letters in ('htbp', '!htbp')]
        more = [(it, one) for one in every if one.value != it.places and one not in tried_before]
        more = tried_of(program, text, it, more)
        helps, others = helps + more[0], sorted(others + more[1], key=lambda pair: pair[1] == CLEAR)
    helps.sort(key=lambda one: (one.found.place, one.found.column))
    first = {}
    for one in helps:
        first.setdefault((id(one.target), one.change.what if one.change.what != 'places' else one.change), one)
    useful = {(id(one.target), one.change.what) for one in helps if one.change.what != 'places'}
    return list(first.values()), [pair for pair in others if (id(pair[0]), pair[1].what) not in useful]


def tried_of(program, text, it, pairs):
    """The outcomes by which the float is earlier, and the changes that were of no use, both in order."""
    with ThreadPoolExecutor(4) as pool:
        ran = list(pool.map(lambda pair: outcome(program, text, it, *pair), pairs))
    good = [one is not None and is_earlier(one.found, it) for one in ran]
    return [one for one, helps in zip(ran, good) if helps], [pair for pair, helps in zip(pairs, good) if not helps]


def is_earlier(found, it):
    """Whether a float lands on an earlier page, or in an earlier column of its page; one over both columns stands first."""
    return not it.landed or (found.place, found.column) < (it.place, it.column)
