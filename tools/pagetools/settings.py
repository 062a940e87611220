"""The parameters of a galley that decide where floats go, with their values (docs/FORMATS.md)."""
from bisect import bisect_right

from .galley import sp
from .tries import scaled

# Each with its default, as a galley has it.
FRACTIONS = {'topfraction': '0.7', 'bottomfraction': '0.3', 'textfraction': '0.2', 'floatpagefraction': '0.5',
             'dbltopfraction': '0.7', 'dblfloatpagefraction': '0.5'}
NUMBERS = {'topnumber': '2', 'bottomnumber': '1', 'totalnumber': '3', 'dbltopnumber': '2'}
SIZES = {'textheight': '550pt', 'intextsep': '12pt', 'floatsep': '12pt', 'textfloatsep': '20pt', 'marginparpush': '5pt'}


def fraction(text):
    """A fraction in 65536ths."""
    return int(text[:-6]) if text.endswith('/65536') else scaled(text)


def value(name, text):
    """The value of a parameter: sp, 65536ths, or a number."""
    return fraction(text) if name in FRACTIONS else int(text) if name in NUMBERS else sp(text)


def defaults():
    """What holds before a galley sets anything."""
    found = {name: value(name, text) for known in (FRACTIONS, NUMBERS, SIZES) for name, text in known.items()}
    return {**found, 'suppressfloats': False}


class Settings:
    """The parameters of a galley by its lines, since a `set` may stand among the items. Those that a float is tested by hold
    as they do at its own line till it has landed: they change only where no float waits."""

    def __init__(self):
        self.lines, self.values = [0], [defaults()]     # what holds from each of these lines on

    def take(self, line, name, new):
        """From this line on the parameter has this value."""
        if new != self.values[-1][name]:
            self.lines.append(line)
            self.values.append({**self.values[-1], name: new})

    def at(self, line):
        """The values that hold at a line, and under `suppressfloats` whether such a line stands above it."""
        return self.values[bisect_right(self.lines, line) - 1]


def read(text):
    """The parameters of a galley."""
    found = Settings()
    for number, line in enumerate(text.split('\n'), 1):
        words = line.split()
        if words[:1] == ['suppressfloats']:
            found.take(number, 'suppressfloats', True)
        elif words[:1] == ['set'] and len(words) > 2 and words[1] in found.values[0]:
            found.take(number, words[1], value(words[1], words[2]))
    return found


def share(part, height):
    """A share, in 65536ths, of a height."""
    return height * part // 65536


def decimal(part, digits=5):
    """A fraction as a decimal, in as few digits as tell it from others."""
    return next(it for it in ('%.*f' % (n, part / 65536) for n in range(digits + 1)) if fraction(it) == part)


def at_least(part):
    """The least decimal of three digits that is not below a fraction, and its value."""
    text = next(it for it in ('%.3f' % (n / 1000) for n in range(part * 1000 // 65536, 1002)) if fraction(it) >= part)
    return text.rstrip('0').rstrip('.') if fraction(text) else '0'


def at_most(part):
    """The greatest decimal of three digits that is not above a fraction."""
    text = next(it for it in ('%.3f' % (n / 1000) for n in range(part * 1000 // 65536 + 1, -1, -1)) if fraction(it) <= part)
    return text.rstrip('0').rstrip('.') if fraction(text) else '0'
