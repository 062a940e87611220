"""Tests of the marks of pages, with reports written for them: what TeX's marks are, by its rules. Run by tools/test."""
import json
import os
import unittest

from support import TOP, Scratch, document, run
from test_json import Shape

from pagetools import marks, report

# Three pages of one column: before the first mark, with two marks, and with none.
ONE_COLUMN = """report 1
page 1 one
column 1 text height 100 natural 100 set none
box a 0 100 0
page 2 one
column 1 text height 100 natural 100 set none
mark m1 0
box b 0 50 0
mark m2 50
mark m3 50
box c 50 50 0
page 3 one
column 1 text height 100 natural 100 set none
box d 0 100 0
left mark m4
left note n1
end pages 3 boxes 4 floats 0 warnings 0
"""

# Pairs: marks in both columns, in the right one alone, in the left one alone; between them a page of double floats.
TWO_COLUMNS = """report 1
page 1 two at 0
column 1 text height 100 natural 100 set none
mark a1 0
mark a2 20
box a 20 80 0
column 2 text height 100 natural 100 set none
mark b1 0
mark b2 20
box b 20 80 0
page 2 wide
column 1 floats height 100 natural 50 set none
float f 1 page 0 50
page 3 two at 0
column 1 text height 100 natural 100 set none
box c 0 100 0
column 2 text height 100 natural 100 set none
box d 0 90 0
mark d1 90
page 4 two at 0
column 1 text height 100 natural 100 set none
mark e1 0
box e 0 100 0
column 2 text height 100 natural 0 set none
end pages 4 boxes 5 floats 1 warnings 0
"""

# Two pages with one number.
NUMBERED = """report 1
page 1 one
column 1 text height 100 natural 0 set none
mark s 0
page 1 one
column 1 text height 100 natural 100 set none
box a 0 100 0
mark t 100
"""


def of(*texts):
    """The marks of the pages of some reports, as lists of top, first and bottom mark."""
    reports = [report.read_lines(text.splitlines(), 'a test') for text in texts]
    return [[page.top, page.first, page.bottom] for page in marks.of_reports(reports)]


class Marks(Scratch):
    def test_one_column(self):
        self.assertEqual(of(ONE_COLUMN), [[None, None, None], [None, 'm1', 'm3'], ['m3', 'm3', 'm3']])

    def test_two_columns_are_one_page(self):
        self.assertEqual(of(TWO_COLUMNS), [[None, 'a1', 'b2'], ['b2', 'b2', 'b2'], ['b2', 'd1', 'd1'], ['d1', 'e1', 'e1']])

    def test_marks_go_on_in_the_next_report(self):
        self.assertEqual(of(ONE_COLUMN, TWO_COLUMNS)[3:5], [['m3', 'a1', 'b2'], ['b2', 'b2', 'b2']])

    def test_pages_with_one_number(self):
        self.assertEqual(of(NUMBERED), [[None, 's', 's'], ['s', 't', 't']])

    def test_a_document_without_marks(self):
        pages = marks.of_reports([report.read(document('paper.report'))])
        self.assertEqual(pages, [marks.PageMarks(None, None, None)] * 4)

    def told(self, *texts, status=0, options=()):
        paths = []
        for text in texts:
            paths.append(self.path('%d.report' % len(paths)))
            with open(paths[-1], 'w', encoding='latin-1') as out:
                out.write(text)
        found, said = run(marks.main, *paths, *options)
        self.assertEqual(found, status, said)
        return said

    def test_the_lines(self):
        self.assertEqual(self.told(ONE_COLUMN), 'page 1 top - first - bottom -\npage 2 top - first m1 bottom m3\n'
                                                'page 3 top m3 first m3 bottom m3\nleft m4\n')
        self.assertTrue(self.told(ONE_COLUMN, NUMBERED).endswith('page 5 top s first t bottom t\nleft m4\n'))

    def test_the_marks_in_the_document(self):
        _, said = run(marks.main, os.path.join(TOP, 'examples', 'chapter.report'))
        with open(os.path.join(TOP, 'tools', 'README.md'), encoding='utf-8') as file:
            self.assertIn('```\n$ tools/marks examples/chapter.report\n%s```\n' % said, file.read())

    def test_json(self):
        for texts in ((ONE_COLUMN,), (TWO_COLUMNS, ONE_COLUMN)):
            data = json.loads(self.told(*texts, options=['--json']))
            Shape().check(data, 'Marks')
            self.assertEqual([[it['top'], it['first'], it['bottom']] for it in data['pages']], of(*texts))
            self.assertEqual([it['number'] for it in data['pages']], list(range(1, len(data['pages']) + 1)))
            self.assertEqual(data['left'], ['m4'])

    def test_no_report(self):
        self.assertIn('is no page report', self.told('galley 1\n', status=2))
        self.assertEqual(run(marks.main, self.path('none'))[0], 2)


if __name__ == '__main__':
    unittest.main()
