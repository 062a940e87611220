"""What the mode why tells as plain data, in the shape of docs/JSON.md."""
from . import why_tries
from .story import Story
from .why_words import in_words

# Which amounts the line of each area has.
AMOUNTS = ('count', 'least', 'high', 'room', 'need', 'share', 'most', 'sum', 'floats')
OF_AREA = {
    'enter': ('count', 'least', 'high', 'room', 'need'), 'here': ('room', 'need'),
    'top': ('count', 'room', 'need', 'share', 'high'), 'bottom': ('count', 'room', 'need', 'share', 'high'),
    'wide': ('count', 'room', 'high'), 'alone': ('high', 'most'), 'joins': ('high', 'sum', 'most'),
    'company': ('floats', 'sum', 'least'),
}


def data(run, settings, floats, notes, tried=None):
    """Some floats and notes of a run; `tried` tries the changes for a float that is late, where they are wanted."""
    story = Story(run, settings)
    return {
        'why': 1,
        'floats': [_float(story, it, tried) for it in floats],
        'notes': [_note(note) for note in notes],
        'done': run.done,
    }


def _float(story, it, tried):
    late = tried and (it.late() or not it.landed)
    return {
        'name': it.name, 'line': it.line, 'class': it.number, 'places': it.places, 'width': it.width, 'height': it.high,
        'called': _spot(it.spot), 'landed': _landing(it), 'late': it.late(),
        'reasons': [_reason(story, one) for one in it.reasons],
        'decisions': [_decision(story, one) for one in it.decisions],
        'tried': _tried(it, *tried(it)) if late else [],
    }


def _spot(spot):
    return {'page': spot.page, 'column': spot.column}


def _landing(it):
    return {'page': it.landed, 'column': it.column, 'place': it.where} if it.landed else None


def _reason(story, it):
    return {'area': it.area, 'word': it.word, 'float': it.root, 'by': it.by, 'times': it.times, 'words': story.reason_text(it)}


def _decision(story, it):
    return {
        'kind': it.kind, 'at': _spot(it.spot), 'text': it.text, 'height': it.height,
        'tests': [_test(story, it, test) for test in it.tests], 'goes': it.goes or None, 'taken': it.taken,
        'back': bool(it.back),
    }


def _test(story, decision, test):
    out = {'area': test.area, 'failed': test.failed or None, 'words': in_words(test, decision, story.settings) or None,
           'class': test.blocker or None}
    for amount in AMOUNTS:
        value = getattr(test, amount) if amount in OF_AREA[test.area] else None
        out[amount] = list(value) if amount == 'count' and value else value
    return out


def _tried(it, helps, others):
    found = [_outcome(it, one.target, one.change, one.found, one.pages) for one in helps]
    return found + [_outcome(it, target, change, None, None) for target, change in others]


def _outcome(it, target, change, found, pages):
    return {
        'what': change.what, 'value': change.value or None, 'float': target.name, 'line': target.line,
        'latex': Story.change(it, target, change),
        'landed': _landing(found) if found else None, 'late': found.late() if found else None, 'pages': pages,
    }


def _note(note):
    return {
        'name': note.name, 'line': note.line, 'at': _spot(note.spot), 'text': note.text, 'reach': note.reach,
        'height': note.high, 'shift': note.shift, 'side': note.side,
    }
