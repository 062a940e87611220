"""One drawing in the form of SVG, in points. Colours are classes, each for a light and for a dark screen; on paper the
light ones hold. A drawing stands in a file of its own, or within a page of HTML that has the style and patterns once."""
import re
from dataclasses import dataclass
from html import escape

# A class, what it is on a light ground, and on a dark one.
STYLE = [
    ('alone', 'background:#e9ebee;display:block;margin:auto', 'background:#15171a'),
    ('sheet', 'fill:#fdfdfb;stroke:#c4cad1;stroke-width:.8', 'fill:#1f2328;stroke:#3a4149'),
    ('frame', 'fill:none;stroke:#5b6b7b;stroke-width:.7', 'stroke:#8794a2'),
    ('room', 'stroke:#5b6b7b;stroke-width:.6;stroke-dasharray:4 2', 'stroke:#8794a2'),
    ('head', 'fill:#eef1f4;stroke:#5b6b7b;stroke-width:.7', 'fill:#2a3037;stroke:#8794a2'),
    ('box', 'fill:#fff;stroke:#9fb3c8;stroke-width:.4', 'fill:#2a3037;stroke:#52667b'),
    ('rule', 'fill:#444', 'fill:#c8ced4'),
    ('empty', 'stroke:#c9d3dd;stroke-width:.6', 'stroke:#4a545e'),
    ('baseline', 'stroke:#d5dee8;stroke-width:.4', 'stroke:#3e4852'),
    ('feet', 'fill:#f5f1e4', 'fill:#2b2a22'),
    ('footrule', 'stroke:#111', 'stroke:#e6e6e6'),
    ('floatrule', 'stroke:#111', 'stroke:#e6e6e6'),
    ('title', 'fill:#222;font-weight:bold', 'fill:#e8ebee'),
    ('words', 'fill:#1f2d3d', 'fill:#dbe2ea'),
    ('quiet', 'fill:#66727f', 'fill:#98a3af'),
    ('label', 'fill:#7d8893', 'fill:#8b96a1'),
    ('still', 'stroke:#9aa0a6;fill:#7b828a', 'stroke:#727b85;fill:#8d97a1'),
    ('stretch', 'stroke:#2a9d4b;fill:#1f7a39', 'stroke:#45c26b;fill:#5bd07e'),
    ('shrink', 'stroke:#e07b00;fill:#b96500', 'stroke:#f09a3e;fill:#f3aa5c'),
    ('hinders', 'fill:#c0392b', 'fill:#ff7d6e'),
    ('invites', 'fill:#2471a3', 'fill:#6cb8ea'),
    ('tried', 'stroke:#9aa0a6;fill:#7b828a', 'stroke:#727b85;fill:#98a3af'),
    ('best', 'stroke:#3b4754;fill:#2c3743', 'stroke:#d0d7de;fill:#dbe2ea'),
    ('awful', 'stroke:#d98880;fill:#c0392b', 'stroke:#a8564c;fill:#ff7d6e'),
    ('ends', 'stroke:#1f7a39;fill:#1f7a39;font-weight:bold', 'stroke:#5bd07e;fill:#5bd07e'),
    ('margin', 'fill:#fff;stroke:#b08bc4;stroke-width:.6', 'fill:#2b2731;stroke:#9472ab'),
    ('aside', 'fill:#7b4f94', 'fill:#cfa9e4'),
    ('leader', 'stroke:#b08bc4;stroke-width:.4;stroke-dasharray:1.5 1.5', 'stroke:#9472ab'),
    ('note', 'fill:#c2a500', 'fill:#e2c94a'),
    ('mark', 'fill:#a04000', 'fill:#ef8c4f'),
    ('overfull', 'fill:#d62728;fill-opacity:.35', 'fill:#ff6b6b'),
    ('alarm', 'fill:#d62728;font-weight:bold', 'fill:#ff7d6e'),
    ('warning', 'fill:#a86400', 'fill:#f0b45c'),
    ('plate', 'fill:#fff;fill-opacity:.85', 'fill:#1f2328'),
    ('first', 'fill:none;stroke:#d62728;stroke-width:1.6', 'stroke:#ff7d6e'),
    ('forbids', 'stroke:#c0392b;stroke-width:1.4', 'stroke:#ff7d6e'),
    ('link', 'fill:#1f5f99;text-decoration:underline', 'fill:#7fb0e0'),
    ('marked', 'fill:#a04000', 'fill:#ef8c4f'),
    ('told', 'fill:#1f2d3d;font-weight:bold', 'fill:#dbe2ea'),
    ('panel', 'fill:#fff;stroke:#1f5f99;stroke-width:1', 'fill:#14181d;stroke:#7fb0e0'),
]

# The classes of floats: their colour on a light ground and on a dark one. A class past the last begins again.
FLOATS = [('#3d6a9b', '#7fb0e0'), ('#b5650a', '#f0a04b'), ('#3b8a42', '#74c97c'), ('#7d549a', '#c09be0'),
          ('#a81a68', '#ee7cb8'), ('#277a72', '#5fc5ba'), ('#7a4608', '#cf9a55'), ('#555555', '#b3b3b3')]

GENERAL = '''text{stroke:none!important;font-family:"DejaVu Sans",Helvetica,Arial,sans-serif}
.spring{fill:none!important;stroke-width:.7}.tick{stroke-width:1.6}.thin{stroke-width:.5}
.ask{fill:transparent;cursor:pointer}.askway{fill:none;stroke:transparent;stroke-width:6;cursor:pointer}.story{display:none}.story.open{display:inline}'''


def _float_rules(colour):
    for number, colours in enumerate(FLOATS):
        c = colours[colour]
        yield '.hatch%d{fill:url(#h%d);stroke:%s;stroke-width:.9}' % (number, number, c)
        yield '.ground%d{fill:%s;fill-opacity:.13}.stripe%d{stroke:%s;stroke-opacity:.4;stroke-width:1.2}' % (
            number, c, number, c)
        yield '.float%d{fill:%s;font-weight:bold}' % (number, c)
        yield '.way%d{fill:none;stroke:%s;stroke-width:.8}' % (number, c)


# The size of type that a class has unless another is said.
SIZES = {'words': 6.6, 'label': 5.4, 'hinders': 5.8, 'invites': 5.8}

# Keys of a page that stands alone: the arrows go to the pages beside it.
KEYS = '''<script>addEventListener("keydown",function(e){
var a=document.getElementById({ArrowLeft:"previous",ArrowRight:"next"}[e.key]);if(a)location.href=a.getAttribute("href")})</script>'''

# Shows what is told of a float where it is clicked on, and hides it on a click elsewhere and on Escape.
STORIES = '''function hideStories(but){
document.querySelectorAll(".story.open").forEach(function(s){if(s!==but)s.classList.remove("open")})}
addEventListener("click",function(e){if(e.target.closest(".story"))return
var a=e.target.closest("[data-story]"),s=a&&a.ownerSVGElement.querySelector('.story[data-of="'+a.dataset.story+'"]')
hideStories(s);if(s)s.classList.toggle("open")})
addEventListener("keydown",function(e){if(e.key==="Escape")hideStories()})'''

# What is told of a float: the type of its lines, their height, the room round them, and that of a space at a line's head.
PANEL_TYPE, PANEL_TITLE, PANEL_LINE, PANEL_EDGE, PANEL_SPACE = 6.6, 8.5, 9.2, 7.0, 3.0
LETTER = 0.56            # the width of a letter, of the size of the type


@dataclass
class Line:
    """A line of what is told of a float."""
    text: str
    shape: str           # its class
    target: str = ''     # of a link: the file of a page

    def size(self):
        return PANEL_TITLE if self.shape == 'title' else PANEL_TYPE

    def indent(self):
        return PANEL_SPACE * (len(self.text) - len(self.text.lstrip()))

    def width(self):
        return self.indent() + len(self.text.strip()) * self.size() * LETTER


def style():
    light = ['.%s{%s}' % (name, light) for name, light, _ in STYLE] + list(_float_rules(0))
    light += ['.%s{font-size:%spx}' % sizes for sizes in SIZES.items()]
    dark = ['.%s{%s}' % (name, dark) for name, _, dark in STYLE] + list(_float_rules(1))
    return '%s\n%s\n@media screen and (prefers-color-scheme:dark){\n%s\n}' % (GENERAL, '\n'.join(light), '\n'.join(dark))


def patterns():
    """The hatching of floats."""
    return ''.join(
        '<pattern id="h%d" width="6" height="6" patternUnits="userSpaceOnUse" patternTransform="rotate(45)">'
        '<rect width="6" height="6" class="ground%d"/><line x1="0" y1="0" x2="0" y2="6" class="stripe%d"/></pattern>' % (
            number, number, number) for number in range(len(FLOATS)))


def number(value):
    """A number with one decimal at most: a drawing is in points."""
    return ('%.1f' % value).rstrip('0').rstrip('.') if isinstance(value, float) else str(value)


def float_number(number):
    """The colour of a class of floats."""
    return (number - 1) % len(FLOATS)


def element(tag, words, inner):
    return '<%s %s>%s</%s>' % (tag, words, inner, tag) if inner else '<%s %s/>' % (tag, words)


def points_text(points):
    return ' '.join('%s,%s' % (number(float(x)), number(float(y))) for x, y in points)


class Drawing:
    """Shapes, drawn one over the other. A `tip` is shown under the pointer."""

    def __init__(self, width, height):
        self.width, self.height, self.shapes, self.links = width, height, [], []

    def _add(self, tag, attributes, content='', tip=''):
        words = ['%s="%s"' % (name.replace('_', '-'), escape(number(value))) for name, value in attributes.items()]
        self.shapes.append((tag, ' '.join(words), tip, content))

    def rect(self, x, y, width, height, shape, tip='', radius=0.0):
        size = {'x': float(x), 'y': float(y), 'width': max(float(width), 0.0), 'height': max(float(height), 0.0)}
        if radius:
            size['rx'] = float(radius)
        self._add('rect', dict(size, **{'class': shape}), tip=tip)

    def line(self, x, y, x2, y2, shape, tip='', width=None):
        ends = {'x1': float(x), 'y1': float(y), 'x2': float(x2), 'y2': float(y2), 'class': shape}
        if width is not None:
            ends['style'] = 'stroke-width:' + number(width)
        self._add('line', ends, tip=tip)

    def text(self, x, y, words, size, shape, anchor='start', tip=''):
        place = {'x': float(x), 'y': float(y), 'class': shape}
        if shape not in SIZES:
            place['font_size'] = float(size)
        elif size != SIZES[shape]:
            place['style'] = 'font-size:%spx' % number(float(size))
        if anchor != 'start':
            place['text_anchor'] = anchor
        self._add('text', place, escape(words), tip)

    def lines(self, x, x2, heights, shape):
        """Lines from x to x2 at these heights, as one shape."""
        if heights:
            path = ''.join('M%s %sH%s' % (number(float(x)), number(float(y)), number(float(x2))) for y in heights)
            self._add('path', {'d': path, 'class': shape})

    def dot(self, x, y, shape, tip, radius=1.3):
        self._add('circle', {'cx': float(x), 'cy': float(y), 'r': radius, 'class': shape}, tip=tip)

    def path(self, way, shape):
        self._add('path', {'d': way, 'class': shape})

    def ask(self, x, y, width, height, story, tip):
        """A place where a click shows the panel with this number."""
        self._add('rect', {'x': float(x), 'y': float(y), 'width': float(width), 'height': float(height), 'class': 'ask',
                           'data_story': story}, tip=tip)

    def ask_path(self, way, story, tip):
        """The same along a line."""
        self._add('path', {'d': way, 'class': 'askway', 'data_story': story}, tip=tip)

    def panel(self, story, x, y, lines):
        """Lines on a ground of their own, near a place, made smaller where they would not fit on the sheet."""
        width = max(line.width() for line in lines) + 2 * PANEL_EDGE
        height = len(lines) * PANEL_LINE + 2 * PANEL_EDGE
        scale = min(1.0, (self.width - 16) / width, (self.height - 16) / height)
        x = max(8.0, min(x, self.width - 8 - width * scale))
        y = max(8.0, min(y, self.height - 8 - height * scale))
        ground = element('rect', 'width="%s" height="%s" rx="3" class="panel"' % (number(width), number(height)), '')
        shown = []
        for k, line in enumerate(lines):
            place = 'x="%s" y="%s" font-size="%s" class="%s"' % (
                number(PANEL_EDGE + line.indent()), number(PANEL_EDGE + (k + 0.75) * PANEL_LINE), number(line.size()),
                line.shape)
            words = element('text', place, escape(line.text.strip()))
            shown.append(element('a', 'href="%s"' % escape(line.target), words) if line.target else words)
        self._add('g', {'class': 'story', 'data_of': story, 'transform': 'translate(%s %s) scale(%.3g)' % (
            number(x), number(y), scale)}, ground + ''.join(shown))

    def polygon(self, points, shape):
        self._add('polygon', {'points': points_text(points), 'class': shape})

    def spring(self, x, top, bottom, shape, tip):
        turns = max(2, min(40, int((bottom - top) / 2.2)))
        step = (bottom - top) / turns
        bends = [(x + (2.2 if k % 2 == 0 else -2.2), top + (k + 0.5) * step) for k in range(turns)]
        points = [(x, top)] + bends + [(x, bottom)]
        self._add('polyline', {'points': points_text(points), 'class': shape + ' spring'}, tip=tip)

    def link(self, x, y, words, target, name='', anchor='start'):
        """A link that stands only where the drawing has a file of its own."""
        self.links.append('<a href="%s"%s><text x="%s" y="%s" font-size="8" text-anchor="%s" class="link">%s</text></a>' % (
            escape(target), ' id="%s"' % name if name else '', number(float(x)), number(float(y)), anchor, escape(words)))

    def _view(self):
        return 'viewBox="0 0 %s %s"' % (number(float(self.width)), number(float(self.height)))

    def inline(self, label):
        """The drawing within a page of HTML. So that a long document opens soon, tips are attributes here, and there is
        nothing between two shapes: a browser takes its time by the number of nodes."""
        shapes = [element(tag, words + (' data-tip="%s"' % escape(tip) if tip else ''), content)
                  for tag, words, tip, content in self.shapes]
        text = re.sub(r'<a href="page0*(\d+)\.svg">', r'<a href="#page-\1">', ''.join(shapes))
        return '<svg %s role="img" aria-label="%s">%s</svg>' % (self._view(), escape(label), text)

    def has_stories(self):
        return any('class="story"' in words for _, words, _, _ in self.shapes)

    def write(self, path):
        """The drawing in a file of its own."""
        with open(path, 'w', encoding='utf-8') as out:
            out.write('<svg xmlns="http://www.w3.org/2000/svg" class="alone" width="%.0f" height="%.0f" %s>\n' % (
                self.width * 1.35, self.height * 1.35, self._view()))
            out.write('<style>%s</style>\n<defs>%s</defs>\n' % (style(), patterns()))
            shapes = [element(tag, words, ('<title>%s</title>' % escape(tip) if tip else '') + content)
                      for tag, words, tip, content in self.shapes]
            scripts = [KEYS] if self.links else []
            scripts += ['<script><![CDATA[%s]]></script>' % STORIES] if self.has_stories() else []
            out.write('\n'.join(shapes + self.links + scripts) + '\n</svg>\n')
