"""Tests of the picture and its index on stored files, and of the words on where a column ends. Run by tools/test."""
import os
import re
import shutil
import subprocess
import unittest
import xml.etree.ElementTree as xml

from support import TOP, Scratch, document, run, stored

from pagetools import column, galley, index, picture, places, reasons, report

FIRST_PAGE_ENDS = ['ends here, cost 413 (badness 13, penalty 150, footnotes 250): the next line does not fit, by 11.0pt',
                   'second best: one line earlier, cost 3635 (badness 3635)']


class Pictures(Scratch):
    def draw(self, *arguments):
        status, said = run(picture.main, *arguments, '--out', self.path('out'))
        self.assertEqual(status, 0, said)
        return sorted(os.listdir(self.path('out')))

    def shapes(self, name, shape):
        """The texts or tips of the elements of a class in a drawing; reading it shows that it is well-formed."""
        tree = xml.parse(os.path.join(self.path('out'), name))
        return [''.join(element.itertext()) for element in tree.iter() if shape in element.get('class', '').split()]

    def test_pages_and_index(self):
        names = self.draw(document('paper.report'), '--galley', document('paper.galley'))
        self.assertEqual(names, ['index.html', 'page001.svg', 'page002.svg', 'page003.svg', 'page004.svg'])
        text = self.index()
        self.assertEqual((text.count('<figure id="page-'), text.count('<svg viewBox=')), (4, 4))
        self.assertIn('<a href="#page-4">4</a>', text)
        self.assertIn('data-tip="b12.Abstract  top 0.00pt', text)
        self.assertIn('page 3</a>: marginal note margin.5 moved down by 19.10pt', text)
        self.assertNotIn('1252000', text)

    def test_floats_of_the_index(self):
        self.draw(document('paper.report'), '--galley', document('paper.galley'))
        rows = re.findall(r'<tr><td>(.*?)<td>\d+<td>.*?page (\d+)</a><td>.*?page (\d+)</a><td>(\w+)<td>', self.index())
        self.assertEqual(len(rows), 8)
        self.assertIn(('figure.1', '1', '1', 'top'), rows)
        self.assertIn(('table.2', '2', '3', 'wide'), rows)

    def test_what_the_index_tells(self):
        with open(self.path('log'), 'w', encoding='utf-8') as log:
            log.write("galleyexport: 9 records\ngalleyexport: can't say: leaders: 1 times (page 1)\n")
        self.draw(stored('notes.report'), '--galley', stored('notes.galley'), '--trace', stored('notes.trace'), '--latex',
                  stored('notes.pages'), '--log', stored('notes.log'), '--galleylog', self.path('log'))
        text = self.index()
        self.assertIn('<p>LaTeX made 3 pages (3 columns), the report has 3; 3 agree', text)
        self.assertIn('<p>TeX weighed 17 places, 17 were found the same', text)
        self.assertIn('<li>can&#x27;t say: leaders: 1 times (page 1)</li>', text)
        self.assertEqual(text.count("the same as LaTeX's"), 3)

    def test_a_page_that_differs_stands_beside_latex_s(self):
        path = self.changed(document('paper.report'), 'float figure.1 1 top', 'float figure.1 1 here')
        names = self.draw(path, '--galley', document('paper.galley'), '--latex', document('paper.pages'))
        self.assertIn('page001-latex.svg', names)
        self.assertEqual(len([name for name in names if 'latex' in name]), 1)
        for name in ('page001.svg', 'page001-latex.svg'):
            self.assertEqual(len(self.shapes(name, 'first')), 1)
        text = self.index()
        self.assertEqual((text.count('<figure id="page-1" class="right pair"'), text.count(' pair"')), (1, 1))
        self.assertIn('<a href="#page-1" class="differs">1</a>', text)

    def test_a_page_that_stands_in_latex_alone(self):
        with open(stored('notes.report'), encoding='latin-1') as file:
            lines = file.read().splitlines(True)
        third = next(k for k, line in enumerate(lines) if line.startswith('page 3'))
        with open(self.path('short.report'), 'w', encoding='latin-1') as out:
            out.write(''.join(lines[:third]) + 'end pages 2 boxes 0 floats 0 warnings 0\n')
        names = self.draw(self.path('short.report'), '--latex', stored('notes.pages'))
        self.assertEqual(names, ['index.html', 'page001.svg', 'page002.svg', 'page003-latex.svg'])
        self.assertIn('<figure id="latex-3"', self.index())

    def test_links_between_pages(self):
        self.draw(stored('notes.report'))
        tree = xml.parse(os.path.join(self.path('out'), 'page002.svg'))
        links = {element.get('id'): element.get('href') for element in tree.iter() if element.tag.endswith('}a')}
        self.assertEqual(links, {'previous': 'page001.svg', None: 'index.html#page-2', 'next': 'page003.svg'})

    def test_penalties(self):
        self.draw(document('paper.report'), '--galley', document('paper.galley'))
        self.assertIn('penalty 10000: no break here', self.shapes('page001.svg', 'forbids'))
        shown = self.shapes('page001.svg', 'hinders')
        self.assertTrue(shown)
        self.assertFalse([text for text in shown if text.endswith('10000')])

    @unittest.skipUnless(shutil.which('chromium'), 'no browser')
    def test_the_index_in_a_browser(self):
        self.draw(document('paper.report'), '--galley', document('paper.galley'))
        command = ['chromium', '--headless', '--no-sandbox', '--disable-gpu', '--user-data-dir=' + self.path('profile'),
                   '--dump-dom', 'file://' + os.path.join(self.path('out'), 'index.html')]
        try:
            shown = subprocess.run(command, stdout=subprocess.PIPE, stderr=subprocess.DEVNULL, timeout=120, check=True)
        except (subprocess.SubprocessError, OSError):
            self.skipTest('the browser did not start')
        text = shown.stdout.decode('utf-8', 'replace')
        self.assertTrue('<button data-view="whole" aria-pressed="true">' in text)
        self.assertTrue('<a href="#page-1" aria-current="page">1</a>' in text)

    def index(self):
        with open(os.path.join(self.path('out'), 'index.html'), encoding='utf-8') as index:
            return index.read()

    def test_items_of_a_page(self):
        self.draw(document('paper.report'), '--galley', document('paper.galley'))
        for page in report.read(document('paper.report')).pages:
            name = 'page%03d.svg' % page.place
            kinds = [item.kind for _, item in page.items()]
            boxes = [item for _, item in page.items() if item.kind == 'box' and item.height + item.depth > 3276]
            self.assertEqual(len(self.shapes(name, 'box')), len(boxes))
            self.assertEqual(len(self.shapes(name, 'margin')), kinds.count('margin'))
            self.assertEqual(len(self.shapes(name, 'frame')), len(page.columns))
            self.assertEqual(len(self.shapes(name, 'footrule')), kinds.count('footrule'))
            self.assertEqual(len(self.shapes(name, 'head')), kinds.count('head'))
        self.assertIn('moved down by 19.10pt', ' '.join(self.shapes('page003.svg', 'margin')))

    def test_rules_beside_floats(self):
        self.draw(os.path.join(TOP, 'examples', 'rules.report'))
        self.assertEqual([len(self.shapes('page00%d.svg' % number, 'floatrule')) for number in (1, 2)], [2, 0])

    def test_where_pages_end(self):
        self.draw(stored('notes.report'), '--galley', stored('notes.galley'), '--trace', stored('notes.trace'))
        told = [[text for text in self.shapes('page%03d.svg' % number, 'ends') if 'ends: ' in text] for number in (1, 2, 3)]
        self.assertEqual([len(texts) for texts in told], [1, 1, 1])
        self.assertTrue(told[2][0].endswith('ends: forced'), told)
        self.assertEqual(self.shapes('page003.svg', 'words')[-1], 'ends here: forced by a clear')
        self.assertEqual(self.shapes('page001.svg', 'words')[-2:], FIRST_PAGE_ENDS)
        self.assertEqual(len(self.shapes('page001.svg', 'overfull')), 0)

    def test_some_pages(self):
        self.assertEqual(self.draw(stored('notes.pages'), '--pages', '2-3'), ['index.html', 'page002.svg', 'page003.svg'])
        self.assertEqual(run(picture.main, stored('notes.pages'), '--pages', 'x')[0], 2)

    def test_an_overfull_column(self):
        path = self.changed(stored('notes.report'), 'set shrink 95007/131072', 'set shrink 1/1 overfull 200000')
        self.draw(path)
        self.assertEqual(self.shapes('page001.svg', 'overfull'), ['overfull by 3.05pt'])

    def test_names(self):
        self.assertEqual(column.words('b812.The-line-begins-so'), ('The line begins so', 'b812'))
        self.assertEqual(column.words('p1.1'), ('p1.1', ''))
        name = 'b50.and-how-far-it-may-stretch-and-shrink.-Penalties-tel'
        self.assertEqual(column.words(name), ('and how far it may stretch and shrink. Penalties\u2026', 'b50'))

    def test_words_are_cut_at_words(self):
        for letters, text in ((20, 'one two three'), (12, 'one two\u2026'), (9, 'one two\u2026'), (8, 'one\u2026'), (3, 'on\u2026')):
            self.assertEqual(column.cut('one two three', letters), text)

    def test_warnings_in_points(self):
        for warning, text in (('large a 65536', 'float a is higher than the page by 1.00pt'),
                              ('ht a', 'float a may go to the top too'), ('floats 3', 'text page 3 has floats alone'),
                              ('moved a 32768', 'marginal note a moved down by 0.50pt')):
            self.assertEqual(index.warning_text(warning), text)

    def test_badness(self):
        for wanted, available, value in ((0, 0, 0), (10, 0, 10000), (10, 5, 800), (10, 10, 100), (7230585, 7230585, 100)):
            self.assertEqual(column.badness(wanted, available), value)


class Reasons(Scratch):
    """Why a column ends, told by a galley of three lines of text, a footnote and a float."""

    def setUp(self):
        super().setUp()
        with open(self.path('galley'), 'w', encoding='latin-1') as out:
            out.write('galley 1\nbox a 9pt 0\nglue 1\nbox b 9pt 0\nfoot\nbox f 1 0\nendfoot\nglue 1\nbox c 9pt 0\n'
                      'penalty 10000\nglue 1\nbox d 9pt 2.5pt\nnewpage\nbox e 50pt 0\nglue 1\nend\n')
        self.galley = galley.read(self.path('galley'))

    def told(self, *tries):
        end = next(k for k in reversed(range(len(tries))) if tries[k].best)
        return reasons.of_column([places.Mark(one, 0, k == end, k > end) for k, one in enumerate(tries)], self.galley)

    @staticmethod
    def attempt(line, badness, penalty=0, cost=None, best=False, total=0):
        return report.Try(line, total, (0, 0, 0, 0), 0, 100 * 65536, badness, penalty, cost or badness, best)

    def test_a_line_and_its_footnote(self):
        self.assertEqual(self.told(self.attempt(3, '20', best=True), self.attempt(8, '*', total=102 * 65536)),
                         ['ends here, cost 20 (badness 20): the next line and its footnote do not fit, by 2.0pt',
                          'no other place was weighed'])

    def test_lines_without_a_break_between(self):
        told = self.told(self.attempt(3, '300', 150, '450'), self.attempt(8, '20', best=True),
                         self.attempt(13, '*', -10000, '*', total=101 * 65536))
        self.assertEqual(told, ['ends here, cost 20 (badness 20): the next two lines, with no break between, do not fit, '
                                'by 1.0pt', 'second best: one line earlier, cost 450 (badness 300, penalty 150)'])

    def test_a_high_box(self):
        told = self.told(self.attempt(11, '100000'), self.attempt(13, '0', best=True),
                         self.attempt(15, '*', total=150 * 65536))
        self.assertEqual(told, ['ends here, cost 0 (badness 0): the next box, 50.0pt high, does not fit, by 50.0pt',
                                'at every other place the page would be far too short'])

    def test_other_ends(self):
        self.assertEqual(self.told(self.attempt(13, '5', -10000, '-10000', True)), ['ends here: forced by a new page'])
        self.assertEqual(self.told(self.attempt(3, '10000', 0, '100000'), self.attempt(8, '10000', 0, '100000', True),
                                   self.attempt(13, '*', total=100 * 65536)),
                         ['ends here, far too short: the next two lines, with no break between, do not fit, by 0.0pt',
                          'at every other place the page would be far too short too'])
        self.assertIn('a footnote would be put off', self.told(self.attempt(3, '9', best=True), self.attempt(8, '8', 0, '*'))[0])
        self.assertIn('the next place would cost 80', self.told(self.attempt(3, '9', best=True), self.attempt(8, '80'))[0])
        self.assertEqual(reasons.of_column([], self.galley), [])

    def test_a_place_that_the_output_routine_made(self):
        end, other = self.attempt(8, '9', best=True), self.attempt(0, '80')
        for y, told in ((0, '12.0pt above'), (12 * 65536, 'right beside it')):
            marks = [places.Mark(other, y, False, False), places.Mark(end, 12 * 65536, True, False)]
            self.assertEqual(reasons.of_column(marks, self.galley)[1], 'second best: %s, cost 80 (badness 80)' % told)

if __name__ == '__main__':
    unittest.main()
