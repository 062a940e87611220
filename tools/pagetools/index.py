"""The index of a document's pictures: a page of HTML that stands alone. All drawings are in it, so that tips and the
browser's search work; the browser lays out those alone that are seen (CSS `content-visibility')."""
import os
from bisect import bisect_right
from dataclasses import dataclass, field
from html import escape

from . import stories, svg

PT = 65536.0
HERE = os.path.dirname(os.path.abspath(__file__))

LATE = '<th title="how many columns and wide pages were put out while it waited">Sheets late<th>Why'

PAGE = '''<!doctype html>
<html lang="en">
<meta charset="utf-8">
<meta name="viewport" content="width=device-width">
<title>%(title)s: %(pages)s</title>
<style>
%(style)s
</style>
<svg width="0" height="0" aria-hidden="true" style="position:absolute"><defs>%(patterns)s</defs></svg>
<header>
<div class="bar">
<h1>%(title)s</h1> <span>%(pages)s</span>
<span class="steps"><button id="previous" title="left arrow">\u2039 previous</button>
<button id="next" title="right arrow">next \u203a</button></span>
<span class="views"><button data-view="small">small</button> <button data-view="whole">whole page</button>
<button data-view="wide">width</button> <button data-view="spread">spread</button></span>
</div>
<nav aria-label="pages">%(numbers)s</nav>
</header>
<section>
%(facts)s
</section>
<main class="whole">
%(figures)s
</main>
<script>
%(script)s
</script>
</html>
'''


# ---- What is written of the whole document

@dataclass(frozen=True)
class Beside:
    """What the pages are called that stand beside those of the report where they differ."""
    page: str            # before its number
    file: str
    title: str           # of its drawing
    own_title: str       # of the report's page beside it
    differ: str          # the heading of a list of those that differ
    same: str            # what is said of a page that is the same
    side: str            # the side in the words of a difference


LATEX = Beside("LaTeX's page ", 'latex', "page %d, LaTeX's own", 'page %d, galley_pages', "Pages that differ from LaTeX's",
               " the same as LaTeX's", 'LaTeX')
BEFORE = Beside('before: page ', 'before', 'page %d, before', 'page %d, with the page breaks',
                'Pages that are others than before', ' the same as before', 'the report before')


@dataclass
class Facts:
    """What the index says besides the pages."""
    told: list = field(default_factory=list)         # lines as they are
    totals: list = field(default_factory=list)       # of the comparison with LaTeX's pages and places
    losses: list = field(default_factory=list)       # what the galley can't say
    warnings: list = field(default_factory=list)     # the place of the page, the words of the report
    floats: list = field(default_factory=list)       # a FloatRow for each
    unshipped: list = field(default_factory=list)    # the stories of floats that are on no page


def points(text):
    return '%.2fpt' % (int(text) / PT)


def warning_text(warning):
    """A warning of a report in words, with its size in points."""
    kind, name, *size = warning.split()
    if kind == 'large':
        return 'float %s is higher than the page by %s' % (name, points(size[0]))
    if kind == 'ht':
        return 'float %s may go to the top too' % name
    if kind == 'moved':
        return 'marginal note %s moved down by %s' % (name, points(size[0]))
    return 'text page %s has floats alone' % name


@dataclass
class FloatRow:
    """Where a float was called and where it stands."""
    item: object         # of the report
    page: int
    called: int          # the page with the text before its call, 0 where that is unknown
    story: object = None # what --why tells of it


def text_lines(pages, entries):
    """The lines of the text's boxes, rising, each with its page."""
    lines = []
    for page in pages:
        for _, item in page.items():
            entry = entries.get(id(item))
            if entry and item.kind == 'box' and not entry.foot:
                lines.append((entry.line, page.place))
    return sorted(lines)


def float_rows(pages, entries, told):
    """A row for each float, in the order of pages."""
    lines, rows = text_lines(pages, entries), []
    known = {id(story.item): story for story in told}
    for page in pages:
        for _, item in page.items():
            if item.kind == 'float':
                entry = entries.get(id(item))
                called = lines[max(bisect_right(lines, (entry.line, 0)) - 1, 0)][1] if entry and lines else 0
                rows.append(FloatRow(item, page.place, called, known.get(id(item))))
    return rows


def page_link(number):
    return '<a href="#page-%d">page %d</a>' % (number, number)


def details(title, rows):
    """A heading that opens its rows; '' without any."""
    if not rows:
        return ''
    return '<details><summary>%s (%d)</summary><ul>%s</ul></details>' % (
        title, len(rows), ''.join('<li>%s</li>' % row for row in rows))


def float_table(rows):
    if not rows:
        return ''
    told = any(row.story for row in rows)
    lines = ''.join('<tr><td>%s<td>%d<td>%s<td>%s<td>%s<td>%.1fpt' % (
        escape(row.item.name), row.item.number, page_link(row.called) if row.called else '', page_link(row.page),
        escape(row.item.place), row.item.height / PT) + story_cells(row.story) * told for row in rows)
    return ('<details><summary>Floats (%d)</summary><table><tr><th>Float<th>Class<th>Called on<th>Placed on<th>Area'
            '<th>Height%s%s</table></details>') % (len(rows), LATE * told, lines)


def unshipped_text(story):
    """A float that the run ended before: where it was called, and why it waits."""
    called = ', called on ' + page_link(story.call_page) if story.call_page else ''
    return '%s%s: %s' % (escape(story.told.name), called, escape(stories.reason(story)))


def story_cells(story):
    """How late a float is, and why."""
    if story is None:
        return '<td><td>'
    return '<td>%d<td>%s' % (story.late(), escape(stories.reason(story)))


def facts_text(facts, figures, beside):
    told = ['<p>%s</p>' % escape(line) for line in facts.totals]
    told += ['<pre>%s</pre>' % escape('\n'.join(facts.told))] * bool(facts.told)
    told.append(details(beside.differ,
                        ['%s: %s' % (figure.link('page %d' % figure.number), escape(figure.difference))
                         for figure in figures if figure.difference]))
    told.append(details('Warnings', ['%s: %s' % (page_link(number), escape(warning_text(warning)))
                                     for number, warning in facts.warnings]))
    told.append(details("What the galley can't say, and what it says otherwise", [escape(line) for line in facts.losses]))
    told.append(float_table(facts.floats))
    told.append(details('Floats on no page', [unshipped_text(story) for story in facts.unshipped]))
    return '\n'.join(line for line in told if line)


# ---- Pages

@dataclass
class Figure:
    """A page of the index, or two that differ."""
    identity: str        # in the page of HTML
    number: int
    difference: str
    text: str

    def link(self, words):
        kind = ' class="differs"' if self.difference else ''
        return '<a href="#%s"%s>%s</a>' % (self.identity, kind, words)


def figure(sheet, drawings, beside):
    """The figure of a sheet with its drawings, the other page's first."""
    number, verdict = sheet.place(), sheet.verdict
    difference = verdict.difference if verdict else ''
    names = ['%s%d' % (beside.page if k < len(drawings) - 1 else 'page ', number) for k in range(len(drawings))]
    if not sheet.page:
        names = ['%s%d' % (beside.page, number)]
    ratio = sum(drawing.width / drawing.height for drawing in drawings)
    kinds = ['left' if (sheet.page or sheet.other).number % 2 == 0 else 'right'] + (['pair'] if len(drawings) > 1 else [])
    link = '<a href="page%03d%s.svg">%s</a>' % (number, '' if sheet.page else '-' + beside.file, names[-1])
    told = ' <em>%s</em>' % escape(difference) if difference else beside.same if verdict else ''
    pictures = '\n'.join(drawing.inline(name) for drawing, name in zip(drawings, names))
    identity = 'page-%d' % number if sheet.page else '%s-%d' % (beside.file, number)
    text = '<figure id="%s" class="%s" style="--ratio:%.4f">\n%s\n<figcaption>%s%s</figcaption>\n</figure>' % (
        identity, ' '.join(kinds), ratio, pictures, link, told)
    return Figure(identity, number, difference, text)


def stored(name):
    with open(os.path.join(HERE, name), encoding='utf-8') as file:
        return file.read().rstrip()


def write(path, title, pages, figures, told):
    """Writes the index of so many pages, by facts and what stands beside the pages."""
    parts = {'title': escape(title), 'pages': '%d page%s' % (pages, '' if pages == 1 else 's'),
             'style': svg.style() + '\n' + stored('index.css'), 'patterns': svg.patterns(),
             'numbers': ' '.join(figure.link(str(figure.number)) for figure in figures),
             'facts': facts_text(told[0], figures, told[1]),
             'figures': '\n'.join(figure.text for figure in figures), 'script': stored('index.js') + '\n' + svg.STORIES}
    with open(path, 'w', encoding='utf-8') as out:
        out.write(PAGE % parts)
