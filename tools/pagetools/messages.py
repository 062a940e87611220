"""What the program's refusals mean, told as a compiler tells a fault: the place, the cause, what to do, the line itself.

The line of a refusal is one of docs/FORMATS.md; docs/MESSAGES.md shows each of them as it is told here."""
import re

POOL_MOST = 4096
DEFAULTS = {'maxnodes': 4194304, 'maxpages': 1000000}       # they are also the most that may be
CYCLING = ('float', 'head', 'margin', 'enlarge', 'clearpage', 'onecolumn', 'twocolumn')     # may fire without a page
WIDTH = 100             # of a line that is shown

# What a line of each word is, in a galley and in a text of paragraphs.
GALLEY_LINES = {
    'galley': 'galley 1', 'set': 'set NAME VALUE', 'box': 'box NAME HEIGHT DEPTH', 'rule': 'rule NAME HEIGHT DEPTH',
    'glue': 'glue WIDTH [plus STRETCH] [minus SHRINK]', 'kern': 'kern WIDTH', 'penalty': 'penalty NUMBER',
    'mark': 'mark NAME', 'note': 'note NAME', 'class': 'class NUMBER FACTOR LIMIT WIDTH [plus STRETCH] [minus SHRINK]',
    'foot': 'foot', 'endfoot': 'endfoot', 'float': 'float NAME CLASS single|double PLACES HEIGHT par|vert [nobreak]',
    'margin': 'margin NAME LEFT-HEIGHT LEFT-DEPTH RIGHT-HEIGHT RIGHT-DEPTH par|vert [nobreak]', 'newpage': 'newpage',
    'clearpage': 'clearpage', 'pagebreak': 'pagebreak 0..4', 'nopagebreak': 'nopagebreak 0..4', 'onecolumn': 'onecolumn',
    'twocolumn': 'twocolumn', 'suppressfloats': 'suppressfloats [t|b]', 'page': 'page NUMBER',
    'head': 'head NAME HEIGHT', 'enlarge': 'enlarge AMOUNT [star]',
    'end': 'end',
}
PARAGRAPH_LINES = {
    'lines': 'lines 1', 'set': 'set NAME VALUE', 'par': 'par NAME', 'endpar': 'endpar', 'word': 'word WIDTH HEIGHT DEPTH',
    'space': 'space WIDTH STRETCH SHRINK', 'pen': 'pen NUMBER', 'end': 'end',
}

# Words that came later: the versions of the galley that have them.
VERSIONS = {'class': '`galley 2` and `galley 3`', 'page': '`galley 3`', 'head': '`galley 3`', 'enlarge': '`galley 3`'}

# What each cause means and what to do. A galley and a text of paragraphs share most of them.
CAUSES = {
    'InputSize': 'the input has more than 8388608 bytes. {split}, and give the parts one after another',
    'LineLength': 'the line has more than 255 bytes. Shorten it; this holds of comments too',
    'NotAscii': 'a byte here is no visible character of ASCII. Write it in ASCII, without accents or control characters',
    'NoHeader': 'the first line but comments says what the text is. Begin with `{header}`',
    'AfterEnd': '`end` came before. Remove this line, or move `end` below it',
    'UnknownWord': 'no such word may be here. {choice}',
    'SetAfterItem': '`class` comes before the first item, and so does `set`, but where docs/FORMATS.md says. Move this line up',
    'NestedFoot': 'a foot is open already. End it by `endfoot` before another `foot`',
    'NotInFoot': 'this may not be in a foot. End the foot by `endfoot` above it',
    'StrayEndfoot': 'no foot is open. Remove this line, or write `foot` where the footnote begins',
    'StrayHead': '`head` stands directly behind `twocolumn`. Move it there, or remove this line',
    'UnclosedFoot': 'a foot is open still. Write `endfoot` where the footnote ends',
    'NestedPar': 'a paragraph is open already. End it by `endpar` before another `par`',
    'NotInPar': '{inside}',
    'StrayEndpar': 'no paragraph is open. Remove this line, or write `par` where the paragraph begins',
    'UnclosedPar': 'a paragraph is open still. Write `endpar` where it ends',
    'Items': '{items}',
    'MissingField': 'a field is missing. {form}',
    'ExtraField': 'this field is one too many. {form}; a comment needs a line of its own',
    'UnknownParameter': 'no parameter of this version has this name. docs/FORMATS.md has all names',
    'WrongForm': 'the value of this parameter is written otherwise. docs/FORMATS.md has the form of each',
    'BadNumber': 'this is no number. Write digits, as 12 or 7.5pt',
    'BadUnit': 'no such unit may be here. Write sizes as 7.5pt, or as whole scaled points (65536 are 1pt)',
    'BadName': 'this is no name. A name has 1 to {name} letters, digits, `.`, `_` and `-`, and begins with a letter or '
               'digit',
    'BadPlace': 'this names no places of a float. Write one or more of h, t, b and p, and ! to lift the limits',
    'Dimension': 'the size is past 1073741823sp (16383.99998pt), or below 0 where it may not be. Make it smaller, or 0',
    'Penalty': 'the number is out of its range. Penalties go from -10000 to 10000, page breaks from 0 to 4',
    'Class': 'no such class may be here. Floats have 1 to 26, a `class` line 0 to 253, a foot 254 or a class from above',
    'Parameter': 'the value is out of its range. docs/FORMATS.md has the range of each',
    'NoEnd': 'the text ends without `end`. Write `end` as its last line',
}
DVI_CAUSES = {
    'BadPre': 'the file does not begin as a DVI file does. Give a DVI file of format 2',
    'Font': 'here is a character or a font, whose widths are in other files. Only rules and specials can be listed',
    'BadOp': 'here is no command, or one that may not come here. The file is damaged: write it anew',
    'Truncated': 'the file ends within this command. The file was cut off: write it anew',
    'Unbalanced': 'a pop without its push, or a page that ends before a pop. The file is damaged: write it anew',
    'BadPost': 'the end of the file is not as it has to be. The file was cut off or damaged: write it anew',
}
OTHERS = {
    'Words': 'an option was refused. `--count` takes 1 to 40000',
    'PoolFull': 'as many boxes of floats and marginal notes wait as `pool` allows ({now}). {advice}',
    'DeadCycles': 'the output routine fired {now} times in a row without a page. `set maxdeadcycles {enough}` is always '
                  'enough here: 16, and 4 for each float, title, marginal note, page that is made higher, clear and '
                  'change of columns',
    'PageLimit': 'as many pages were shipped as `maxpages` allows ({now}). {advice}',
    'ReadFault': 'the input could not be read. It is closed, or a folder, or its device failed',
    'WriteFault': 'the output could not be written. The device is full, or the reader of a pipe has stopped',
    'Memory': 'there was not enough memory. Give it more, or split the input at a `clearpage`',
    'NodeLimit': '{now} nodes are held, and `maxnodes` allows fewer. {advice}',
    'Unsuited': '{word} is not supported by the mode plain. Use the mode report, or leave it out',
    'Choices': 'there are too many ways to choose page breaks. Split the galley at a `clearpage`, or use the mode report',
    'TooFar': 'an item of page {now} is too far up or down for a DVI file, or the file gets too long. Use the mode report',
    'NoBreaks': 'the paragraph `{name}` has no feasible lines. Raise `set tolerance` (10000 is the most), widen `set '
                'hsize`, or give its spaces more stretch',
}

REFUSALS = [
    (re.compile(r'line (\d+) field (\d+): (\w+)$'), 'Fault'),
    (re.compile(r'line (\d+): float pool full at (\d+)$'), 'PoolFull'),
    (re.compile(r'dead cycles (\d+)$'), 'DeadCycles'),
    (re.compile(r'page limit (\d+)$'), 'PageLimit'),
    (re.compile(r'node limit at (\d+)$'), 'NodeLimit'),
    (re.compile(r'line (\d+): not served in this mode$'), 'Unsuited'),
    (re.compile(r'page (\d+): out of DVI range$'), 'TooFar'),
    (re.compile(r'byte (\d+): (\w+)$'), 'Dvi'),
    (re.compile(r'paragraph (\d+): no feasible breaks$'), 'NoBreaks'),
    (re.compile(r'more than \d+ states$'), 'Choices'),
    (re.compile(r'words refused$'), 'Words'),
    (re.compile(r'read fault$'), 'ReadFault'),
    (re.compile(r'write fault$'), 'WriteFault'),
    (re.compile(r'out of memory$'), 'Memory'),
]
NAMED = {'Words': 'galley-pages', 'Memory': 'galley-pages', 'WriteFault': 'standard output'}     # no faults of the input
PARAMETERS = {'DeadCycles': 'maxdeadcycles', 'PageLimit': 'maxpages', 'NodeLimit': 'maxnodes'}


class Source:
    """The text that was refused: its name, its mode, and its lines as they are."""

    def __init__(self, name, mode, text):
        self.name = name
        self.mode = mode
        self.lines = text.split(b'\n')

    def line(self, number):
        """The line of this number, from 1, without its end; None past the last one."""
        if not 1 <= number <= len(self.lines) or number == len(self.lines) and not self.lines[-1]:
            return None
        return self.lines[number - 1].removesuffix(b'\r')

    def fields(self, number):
        """The fields of a line, none of a comment."""
        words = [it.decode('latin-1') for it in (self.line(number) or b'').split()]
        return [] if words[:1] and words[0].startswith('#') else words

    def numbered(self):
        """The fields of each line that has any, with its number."""
        for number in range(1, len(self.lines) + 1):
            words = self.fields(number)
            if words:
                yield number, words

    def count(self, words):
        return sum(fields[0] in words for _, fields in self.numbered())

    def setting(self, name):
        """The number of the line that sets a parameter, None without one."""
        found = [number for number, words in self.numbered() if words[:2] == ['set', name]]
        return found[-1] if found else None

    def paragraph(self, number):
        """The line and the name of a paragraph, counted from 1."""
        found = [(at, words[1]) for at, words in self.numbered() if words[0] == 'par' and len(words) > 1]
        return found[number - 1] if number <= len(found) else (0, str(number))


def told(said, source):
    """The lines that tell of a refusal, of what the program wrote to standard error; '' if it is none."""
    said = said.strip().removeprefix('galley_pages: ')
    for form, status in REFUSALS:
        found = form.match(said)
        if found:
            return _told(status, found.groups(), source)
    return said + '\n' if said else ''


def _told(status, values, source):
    if status == 'Fault':
        line, number, cause = int(values[0]), int(values[1]), values[2]
        return shown(source, line, number, cause, _sentence(cause, line, number, source))
    if status == 'Dvi':
        return '%s: byte %s: %s: %s.\n' % (source.name, values[0], values[1], DVI_CAUSES.get(values[1], ''))
    line, field, more = _place(status, values, source)
    more['now'] = values[-1] if values else ''
    return shown(source, line, field if line else 0, status, OTHERS[status].format(**more), NAMED.get(status))


def _place(status, values, source):
    """Where a refusal is: its line and field, 0 where it has none; and what its sentence names."""
    if status == 'Unsuited':
        line = int(values[0])
        return line, 1, {'word': '`%s`' % (source.fields(line) or ['this'])[0]}
    if status == 'PoolFull':
        return int(values[0]), 1, {'advice': _pool_advice(source)}
    if status == 'NoBreaks':
        line, name = source.paragraph(int(values[0]))
        return line, 2, {'name': name}
    if status in PARAMETERS:
        name = PARAMETERS[status]
        enough = 16 + 4 * source.count(CYCLING)
        line = source.setting(name)
        return line or 0, 3, {'enough': enough, 'advice': _limit_advice(name, line)}
    return 0, 0, {}


def _limit_advice(name, line):
    """What to do about a limit whose default is the most that may be."""
    if line and name in DEFAULTS:
        return 'Raise it, or remove this line: the default, %d, is the most' % DEFAULTS[name]
    return 'It can be no more: split the galley at a `clearpage`, and give the parts one after another'


def _pool_advice(source):
    """A marginal note takes two boxes of the pool, a float or a head one."""
    boxes = source.count(('float', 'head')) + 2 * source.count(('margin',))
    if boxes <= POOL_MOST:
        return '`set pool %d` is always enough here' % boxes
    return '`set pool 4096` is the most; a `clearpage` in between puts out those that wait'


def _sentence(cause, line, number, source):
    """What a cause means at this place."""
    is_lines = source.mode == 'lines'
    forms = PARAGRAPH_LINES if is_lines else GALLEY_LINES
    words = source.fields(line)
    form = forms.get(words[0]) if words else None
    header = 'lines 1' if is_lines else 'galley 1'
    choice = 'Lines begin with ' + ', '.join(sorted(forms))
    if words and words[0] in VERSIONS:
        choice = '`%s` is a word of %s' % (words[0], VERSIONS[words[0]])
    split = {'lines': 'Split it between paragraphs', 'dvilist': 'Make it of fewer pages'}
    return CAUSES.get(cause, 'this is refused').format(
        header=header,
        split=split.get(source.mode, 'Split it at a `clearpage`'),
        form='Write `%s`' % form if form else 'Begin with `%s`' % header,
        choice='Write `%s`' % form if form and number > 1 else choice,
        inside=('`set` comes before the first paragraph. Move this line up' if words[:1] == ['set'] else
                'no paragraph is open. Write `par` and a name above it'),
        items=('the text has more than 25000 words, spaces and penalties, or a paragraph more than 5000. Split it'
               if is_lines else
               'the galley has more than 100000 items. Split it at a `clearpage`, and give the parts one after another'),
        name=58 if words[:1] == ['par'] else 63)


def shown(source, line, number, cause, sentence, name=None):
    """A refusal as it is told: where, what, and the line with a mark under the field."""
    place = ':'.join([name or source.name] + [str(it) for it in (line, number) if it])
    out = '%s: %s: %s.\n' % (place, cause, sentence)
    text = source.line(line)
    if text is None:
        return out
    text, start, end = window(*readable(text, *span(text, number)))
    out += ' %d | %s\n' % (line, text)
    if number:
        out += ' %s | %s%s\n' % (' ' * len(str(line)), ' ' * start, '^' * max(1, end - start))
    return out


def span(text, number):
    """Where a field begins and ends in its line; of a field that is absent, the place behind the last one."""
    found = list(re.finditer(rb'[^ \t]+', text))
    if not 1 <= number <= len(found):
        end = found[-1].end() + 1 if found else 0
        return end, end + 1
    return found[number - 1].span()


def readable(text, start, end):
    """A line as text, with a blank for a tab and `?` for what can't be shown; and the same place in it."""
    text = text.ljust(end)

    def plain(part):
        letters = part.decode('utf-8', 'replace').replace('\t', ' ')
        return ''.join(it if it.isprintable() else '?' for it in letters)

    return plain(text).rstrip(), len(plain(text[:start])), len(plain(text[:end]))


def window(text, start, end):
    """The part of a long line that has the field."""
    if len(text) <= WIDTH:
        return text, start, end
    first = max(0, min(start - WIDTH // 2, len(text) - WIDTH))
    head, tail = '..' if first else '', '..' if first + WIDTH < len(text) else ''
    shift = len(head) - first
    return head + text[first:first + WIDTH] + tail, start + shift, min(end + shift, WIDTH + len(head))
