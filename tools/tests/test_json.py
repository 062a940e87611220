#!/usr/bin/env python3
"""Tests of reports as JSON, against the tables of docs/JSON.md. Run by tools/test."""
import glob
import json
import os
import re
import subprocess
import sys
import tempfile
import unittest

HERE = os.path.dirname(os.path.abspath(__file__))
TOP = os.path.normpath(os.path.join(HERE, os.pardir, os.pardir))
sys.path.insert(0, os.path.join(HERE, os.pardir))

from pagetools import best, best_words, points, report, spread_words, spreads  # noqa: E402

# A report with what the examples lack: a page of double floats, an overfull column, all warnings, what is left.
RARE = """report 1
warn large a 20
warn ht b
warn floats 1
page 1 wide
column 1 floats height 30 natural 20 set shrink 10/5 overfull 5
float a 2 page 0 50
page 2 two at 12
float c 1 wide 0 12
floatrule 12 5 0
column 1 text height 40 natural 20 set stretch fil 20/65536
rule r 0 10 0
footrule 10 26214 0
mark m 20
note n 20
margin p left 3 4 5 6
column 2 text height 40 natural 0 set none
page 7 two at 9
head t 0 9
column 1 text height 45 natural 45 set none
column 2 text height 40 natural 0 set none
try 7 t 0 s 0 0 0 0 z 0 g 40 b * p -10000 c *
warn moved p 3
left mark q
left note s
end pages 3 boxes 3 floats 3 warnings 4
"""


def tables():
    """The tables of the document: by their name a list of (field, type, kinds that have it)."""
    found = {}
    with open(os.path.join(TOP, 'docs', 'JSON.md'), encoding='utf-8') as lines:
        for line in lines:
            head = re.match(r'### (\w+)$', line)
            if head:
                rows = found.setdefault(head[1], [])
            row = re.match(r'\| `(\w+)` \| (.*) \|$', line)
            if row:
                cells = row[2].split(' | ')
                kinds = cells[1].split(', ') if len(cells) == 3 and cells[1].strip() else []
                rows.append((row[1], cells[0], kinds))
    return found


class Shape:
    """Checks data against the tables."""

    def __init__(self):
        self.tables = tables()

    def check(self, data, kind, path='report'):
        if kind.endswith(' or null'):
            if data is None:
                return
            kind = kind.removesuffix(' or null')
        if kind.startswith('list of '):
            assert isinstance(data, list), path
            for at, each in enumerate(data):
                self.check(each, kind.removeprefix('list of '), '%s[%d]' % (path, at))
        elif kind in self.tables:
            fields = [it for it in self.tables[kind] if not it[2] or data['kind'] in it[2]]
            assert list(data) == [it[0] for it in fields], (path, list(data))
            for name, of, _ in fields:
                self.check(data[name], of, '%s.%s' % (path, name))
        elif kind == 'ratio':
            self.check(data, 'list of number', path)
            assert len(data) == 2, path
        else:
            types = {'number': int, 'string': str, 'flag': bool}
            assert type(data) is types[kind] if kind in types else data in kind.split(', '), (path, kind, data)


class Data(unittest.TestCase):
    def data(self, text):
        """The data of a report, checked against the document, through JSON and back."""
        data = report.data(report.read_lines(text.splitlines(), 'a test'))
        Shape().check(data, 'Report')
        return json.loads(json.dumps(data))

    def test_the_reports_of_all_examples(self):
        found = glob.glob(os.path.join(TOP, 'examples', '**', '*.report'), recursive=True)
        found += glob.glob(os.path.join(HERE, 'stored', '*.report')) + glob.glob(os.path.join(HERE, 'stored', '*.trace'))
        self.assertGreaterEqual(len(found), 10)
        for path in found:
            with open(path, encoding='latin-1') as file:
                text = file.read()
            self.assertEqual(report.text(self.data(text)), text, path)

    def test_what_is_rare(self):
        data = self.data(RARE)
        self.assertEqual(report.text(data), RARE)
        self.assertEqual(data['pages'][0]['columns'][0]['set'], {'sign': 'shrink', 'order': None, 'ratio': [10, 5]})
        self.assertEqual([it['kind'] for it in data['pages'][0]['before']['warnings']], ['large', 'ht', 'floats'])
        self.assertEqual(data['pages'][2]['number'], 7)
        self.assertEqual(data['pages'][2]['floats'], [{'kind': 'head', 'name': 't', 'top': 0, 'height': 9}])

    def test_a_run_that_was_refused(self):
        data = self.data('report 1\npage 1 one\ncolumn 1 text height 1 natural 1 set none\n')
        self.assertIsNone(data['end'])
        self.assertEqual(data['after'], {'warnings': [], 'tries': []})

    @unittest.skipUnless(os.environ.get('GALLEY_PAGES'), 'GALLEY_PAGES names no program')
    def test_the_script_of_the_document(self):
        with open(os.path.join(TOP, 'docs', 'JSON.md'), encoding='utf-8') as file:
            script = re.search(r'```\n(import json.*?)```', file.read(), re.S)[1]
        with tempfile.TemporaryDirectory() as folder:
            for name in ('tools', 'examples'):
                os.symlink(os.path.join(TOP, name), os.path.join(folder, name))
            program = os.path.abspath(os.environ['GALLEY_PAGES'])
            ran = subprocess.run([sys.executable, '-B', '-c', script], cwd=folder, env={**os.environ, 'GALLEY_PAGES': program},
                                 capture_output=True, text=True, check=True)
        self.assertIn('1 1 box ', ran.stdout)
        Shape().check(json.loads(ran.stdout.splitlines()[-1]), 'Report')

    def test_what_the_mode_best_chose(self):
        text = '\n'.join(['best 1', 'greedy 7', 'least 5', 'break 3 page 0 after -', 'break 9 page 1 after b']) + '\n' + RARE
        choice = best.read(text, 'a test')
        ends = [best.Ending(1, 2, line, badness, -51, 1, 0, 100, 5, (0, 0, 0, 0), True, 3) for line, badness in ((9, '0'), (0, '*'))]
        data = best_words.data(choice, best.Side(ends, choice.report), best.Side(ends, choice.report))
        Shape().check(data, 'Best')
        self.assertEqual(data['breaks'], [{'line': 3, 'page': None, 'after': None}, {'line': 9, 'page': 1, 'after': 'b'}])
        self.assertEqual([(it['line'], it['badness']) for it in data['after']], [(9, 0), (None, None)])

    def test_what_was_chosen_with_spreads(self):
        read = report.read_lines(RARE.splitlines(), 'a test')
        side, places = best.Side([], read), (spreads.Place(1, 9, 'b'), spreads.Place(4, 17, 'c'))
        homes = [[spreads.Column(place, place + 10, True, 5, 5, 0, 1) for place in (2, 3)]]
        plan = spreads.Plan([spreads.Spread(places, -1, -12)], homes, best.Choice(9, 5, [], '', read), side, '',
                            best.Choice(9, 7), side, 4)
        data = spread_words.data(plan, side)
        own = ('breaks_alone', 'spreads')
        Shape().check({name: it for name, it in data.items() if name not in own}, 'Best')
        Shape().check({name: it for name, it in data.items() if name in own}, 'BestSpreads')
        self.assertEqual((data['breaks_alone'], data['spreads'][0]['pages']), (7, [12, 13]))

    def test_each_table_has_rows(self):
        self.assertEqual(set(tables()), {'Report', 'Page', 'Before', 'Column', 'Set', 'Item', 'Warning', 'Try', 'Left',
                                         'Totals', 'Why', 'Float', 'Spot', 'Landing', 'Reason', 'Decision', 'Test', 'Tried',
                                         'Margin', 'Marks', 'PageMarks', 'Best', 'BestSpreads', 'Spread', 'Place', 'Break',
                                         'Ending'})
        self.assertTrue(all(tables().values()))


class Points(unittest.TestCase):
    def test_sizes_as_tex_prints_them(self):
        # TeX: The Program, section 103: as few decimals as tell a size from all others
        for value, text in ((0, '0.0'), (65536, '1.0'), (1, '0.00002'), (655360, '10.0'), (-32768, '-0.5'), (22, '0.00034'),
                            (1073741823, '16383.99998'), (435814, '6.65'), (26214, '0.4')):
            self.assertEqual(points.size(value), text + 'pt')

    def test_the_lines_of_a_report(self):
        lines = points.in_points(RARE).splitlines()
        self.assertEqual(len(lines), len(RARE.splitlines()))
        for line in ('warn large a 0.0003pt', 'page 1 wide', 'page 2 two at 0.00018pt', 'float c 1 wide 0.0pt 0.00018pt',
                     'head t 0.0pt 0.00014pt',
                     'column 1 floats height 0.00046pt natural 0.0003pt set shrink 0.00015pt/0.00008pt overfull 0.00008pt',
                     'column 1 text height 0.00061pt natural 0.0003pt set stretch fil 0.0003pt/1.0fil',
                     'footrule 0.00015pt 0.4pt 0.0pt', 'margin p left 0.00005pt 0.00006pt 0.00008pt 0.00009pt',
                     'end pages 3 boxes 3 floats 3 warnings 4'):
            self.assertIn(line, lines)

    def test_points_are_read_back(self):
        from pagetools import tries
        for value in list(range(0, 200000, 7)) + [1073741823]:
            self.assertEqual(tries.scaled(points.size(value).removesuffix('pt')), value)


if __name__ == '__main__':
    unittest.main()
