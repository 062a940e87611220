"""A page report with its sizes in points, for people to read."""

UNITS = ('pt', 'fil', 'fill', 'filll')
ORDERS = {'normal': 'pt', 'fil': 'fil', 'fill': 'fill', 'filll': 'filll'}

# By the word of a line: which of its fields are sizes, counted from 0.
SIZES = {
    'box': (2, 3, 4), 'rule': (2, 3, 4), 'footrule': (1, 2, 3), 'floatrule': (1, 2, 3), 'mark': (2,), 'note': (2,),
    'head': (2, 3), 'float': (4, 5), 'margin': (3, 4, 5, 6), 'page': (4,), 'warn': (3,),
}


def size(value, unit='pt'):
    """A size as TeX prints it, in as few decimals as tell it from all others (TeX: The Program, section 103)."""
    out = '-' if value < 0 else ''
    value = abs(value)
    out += '%d.' % (value // 65536)
    rest, delta = 10 * (value % 65536) + 5, 10
    while True:
        if delta > 65536:
            rest += 32768 - 50000
        out += '%d' % (rest // 65536)
        rest, delta = 10 * (rest % 65536), 10 * delta
        if rest <= delta:
            return out + unit


def in_points(text):
    """The lines of a report, with points in place of scaled points; stretch of a higher order has its own unit."""
    return ''.join(' '.join(_line(line.split())) + '\n' for line in text.splitlines())


def _line(words):
    if words[0] == 'column':
        return _column(words)
    if words[0] == 'try':
        return _try(words)
    for at in SIZES.get(words[0], ()):
        if at < len(words):
            words[at] = size(int(words[at]))
    return words


def _column(words):
    """`column K text height H natural N set stretch ORDER A/B overfull E`: A was stretched of B."""
    for at, word in enumerate(words):
        if word in ('height', 'natural', 'overfull'):
            words[at + 1] = size(int(words[at + 1]))
        elif '/' in word:
            amount, available = word.split('/')
            words[at] = size(int(amount)) + '/' + size(int(available), ORDERS.get(words[at - 1], 'pt'))
    return words


def _try(words):
    """`try LINE t T s S0 S1 S2 S3 z Z g G ..`."""
    for at in (3, 10, 12):
        words[at] = size(int(words[at]))
    for order, unit in enumerate(UNITS):
        words[5 + order] = size(int(words[5 + order]), unit)
    return words
