"""Tests of what the tools make of heads, of pages that \\enlargethispage made higher, and of page numbers that a document sets.
The reports and their amounts are worked by hand. Run by tools/test."""
import os
import unittest
import xml.etree.ElementTree as xml

from support import PROGRAM, Scratch, run

from pagetools import best, compare, galley, marks, picture, report, tries, why

# A head of 30 above columns of 70, of which the first is enlarged by 10; then a page with a double float (its depth of 1 and
# a rule of 2, 1 and 2 are in the 26) that the document gives the number 1 again.
GALLEY = """galley 3
set textheight 100pt
set bottom flush
set dbltextfloatsep 0
set dblrule 2pt 1pt 2pt
twocolumn
head T 30pt
enlarge 10pt
box a 20pt 0
mark one
newpage
box b 10pt 0
newpage
page 1
float W 1 double t 20pt par
box c 10pt 0
newpage
box d 10pt 0
newpage
box e 10pt 0
end
"""
REPORT = """report 1
page 1 two at 1966080
head T 0 1966080
column 1 text height 5242880 natural 1310720 set stretch fil 3932160/65536
box a 0 1310720 0
mark one 1310720
column 2 text height 4587520 natural 655360 set stretch fil 3932160/65536
box b 0 655360 0
page 1 two at 0
column 1 text height 6553600 natural 655360 set stretch fil 5898240/65536
box c 0 655360 0
column 2 text height 6553600 natural 655360 set stretch fil 5898240/65536
box d 0 655360 0
page 2 two at 1638401
float W 1 wide 0 1310720
floatrule 1441793 65536 0
column 1 text height 5242880 natural 655360 set stretch fil 4587520/65536
box e 0 655360 0
column 2 text height 5242880 natural 655360 set stretch fil 4587520/65536
end pages 3 boxes 5 floats 2 warnings 0
"""


def read(text):
    return report.read_lines(text.splitlines(), 'a test')


class Reading(unittest.TestCase):
    def test_a_head(self):
        page = read(REPORT).pages[0]
        head = page.wide[0]
        self.assertEqual((head.kind, head.name, head.top, head.height, head.depth), ('head', 'T', 0, 1966080, 0))
        self.assertEqual([number for number, _ in page.items()], [0, 1, 1, 2])

    def test_the_lines_again(self):
        self.assertEqual(report.text(report.data(read(REPORT))), REPORT)

    def test_a_head_on_a_page_of_its_own(self):
        page, = read('report 1\npage 1 wide\ncolumn 1 floats height 100 natural 30 set none\nhead T 0 30\n').pages
        self.assertEqual([(number, item.kind) for number, item in page.items()], [(1, 'head')])

    def test_numbers_and_places_of_pages(self):
        pages = read(REPORT).pages
        self.assertEqual([(page.number, page.place) for page in pages], [(1, 1), (1, 2), (2, 3)])
        self.assertEqual([page.title() for page in pages],
                         ['page 1', 'page 2, with the number 1', 'page 3, with the number 2'])

    def test_marks_are_those_of_each_page(self):
        self.assertEqual([(it.top, it.first, it.bottom) for it in marks.of_reports([read(REPORT)])],
                         [(None, 'one', 'one'), ('one', 'one', 'one'), ('one', 'one', 'one')])


@unittest.skipUnless(PROGRAM, 'GALLEY_PAGES names no program')
class Running(unittest.TestCase):
    def test_the_report_of_the_galley(self):
        self.assertEqual(best.run(PROGRAM, 'report', GALLEY), REPORT)

    def test_ratings_of_pages_with_one_number(self):
        endings = best.side(PROGRAM, GALLEY, []).endings
        self.assertEqual([(it.page, it.column) for it in endings], [(1, 1), (1, 2), (2, 1), (2, 2), (3, 1), (3, 2)])

    def test_a_float_between_pages_with_one_number(self):
        told = best.run(PROGRAM, 'why', GALLEY)
        it, = why.read(told).floats
        # the second page is being made when it is called; it has the number 1, as the first
        self.assertEqual((it.spot.page, it.spot.place, it.landed, it.place, it.column), (1, 2, 2, 3, 0))
        self.assertEqual((why.landing_of(told, 'W', it.line).place, why.pages_of(told)), (3, 3))


class Comparing(unittest.TestCase):
    def compared(self, old, new):
        """The verdict on the first page that differs, when the report has `new` where LaTeX has `old`."""
        self.assertIn(old, REPORT)
        comparison = compare.Comparison(read(REPORT).pages, read(REPORT.replace(old, new, 1)).pages)
        return next(it for it in comparison.verdicts if not it.agrees())

    def test_all_is_the_same(self):
        comparison = compare.Comparison(read(REPORT).pages, read(REPORT).pages)
        self.assertTrue(comparison.agrees())
        self.assertIn('floats and notes in the same place 2 of 2', compare.totals(comparison))

    def test_a_head_of_another_height(self):
        verdict = self.compared('head T 0 1966080', 'head T 0 1966081')
        self.assertEqual((verdict.contents, verdict.setting, verdict.places), (True, True, False))
        self.assertIn('head T in column 0: top 0, height 1966080', verdict.difference)

    def test_a_head_that_is_missing(self):
        verdict = self.compared('head T 0 1966080\n', '')
        self.assertEqual(verdict.difference, 'LaTeX has head T, the report in column 1 text column')

    def test_an_enlarged_column_that_is_not(self):
        verdict = self.compared('height 5242880 natural 1310720 set stretch fil 3932160', 'height 4587520 natural 1310720 set '
                                'stretch fil 3276800')
        self.assertTrue(verdict.contents and not verdict.setting)

    def test_another_number(self):
        verdict = self.compared('page 2 two', 'page 3 two')
        self.assertTrue(verdict.places and not verdict.number)
        self.assertEqual((verdict.latex, verdict.report, verdict.difference),
                         (3, 3, 'the page has the number 2 in LaTeX, 3 in the report'))
        self.assertEqual(verdict.others(), '  other number')

    def test_the_place_of_a_clear_that_begins_a_document_is_left_out(self):
        clear = (0, (0, 0, 0, 0), 0, 9, '0', tries.CLEAR_PENALTY, '0', True)
        text = (5, (0, 0, 0, 0), 0, 9, '0', 0, '0', True)
        self.assertEqual(tries.without_first_clear([clear, clear, text]), [text])


class Drawing(Scratch):
    def setUp(self):
        super().setUp()
        for name, text in (('a.galley', GALLEY), ('a.report', REPORT)):
            with open(self.path(name), 'w', encoding='latin-1') as out:
                out.write(text)

    def draw(self, *arguments):
        status, said = run(picture.main, self.path('a.report'), *arguments, '--out', self.path('out'))
        self.assertEqual(status, 0, said)

    def shapes(self, name, shape):
        tree = xml.parse(os.path.join(self.path('out'), name))
        return [''.join(element.itertext()) for element in tree.iter() if shape in element.get('class', '').split()]

    def test_a_head_is_drawn(self):
        self.draw()
        self.assertEqual(self.shapes('page001.svg', 'head'), ['head T, over both columns, height 30.00pt'])
        self.assertIn('T \u00b7 head', self.shapes('page001.svg', 'quiet'))
        self.assertIn('two, head over both columns 30.0pt', self.shapes('page001.svg', 'quiet'))

    def test_an_enlarged_column(self):
        self.draw('--galley', self.path('a.galley'))
        # 80pt in place of 70: the first column alone
        self.assertEqual(self.shapes('page001.svg', 'room'), ['the height of the other columns, 70.00pt'])
        labels = [text for text in self.shapes('page001.svg', 'quiet') if text.startswith('column ')]
        self.assertEqual(['enlarged by 10.0pt' in label for label in labels], [True, False])
        self.assertIn('of 80.0pt', labels[0])
        for name in ('page002.svg', 'page003.svg'):
            self.assertEqual(self.shapes(name, 'room'), [])

    def test_the_rule_below_double_floats(self):
        self.draw('--galley', self.path('a.galley'))
        self.assertEqual([len(self.shapes('page00%d.svg' % k, 'floatrule')) for k in (1, 2, 3)], [0, 0, 1])

    def test_the_numbers_of_pages(self):
        self.draw()
        self.assertEqual([self.shapes('page00%d.svg' % k, 'title') for k in (1, 2, 3)],
                         [['page 1'], ['page 2, with the number 1'], ['page 3, with the number 2']])

    def test_the_room_of_a_page(self):
        own, pages = galley.read(self.path('a.galley')), read(REPORT).pages
        # 100 less 30; 100; 100 less 25 and 1sp, of which the 5 of the rule and the 1sp are none of the columns' loss
        self.assertEqual([own.room(page, own.numbers[-1]) for page in pages], [70 * 65536, 100 * 65536, 80 * 65536])

    def test_the_room_of_a_page_whose_height_is_set_at_a_clear(self):
        with open(self.path('b.galley'), 'w', encoding='latin-1') as out:
            out.write('galley 3\nset textheight 60pt\nbox a 9pt 0\nclearpage\nset textheight 40pt\nbox b 9pt 0\nend\n')
        own, page = galley.read(self.path('b.galley')), report.Page(1, 'one')
        self.assertEqual([own.room(page, line) for line in (3, 6, float('inf'))], [60 * 65536, 40 * 65536, 40 * 65536])


if __name__ == '__main__':
    unittest.main()
