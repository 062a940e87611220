"""Tests of the exporter on documents with boxes over both columns, pages that \enlargethispage makes higher, and page numbers
that the document sets. With a program, its pages are to be LaTeX's in every place. Left out where no LuaLaTeX is installed."""
import re
import shutil
import unittest

from support import Latex

LINES = 'Words that fill some lines of the page, so that it has text. ' * 6 + '\n\n'
NOTE = r'Words.\footnote{A note.} '
HEAD = r'\twocolumn[\begin{center}\Large A head over both columns\par\end{center}\vskip 20pt]'
WIDE = r'\begin{figure*}[t]\vbox to 2cm{}\caption{A}\end{figure*} '
FIGURE = r'\begin{figure}[%s]\vbox to 3cm{}\caption{A}\end{figure} '
PT = 65536


@unittest.skipUnless(shutil.which('lualatex'), 'no lualatex')
class Heads(Latex):
    def test_a_head_that_begins_the_document(self):
        self.export(HEAD + LINES * 30 + WIDE + LINES * 60, options='twocolumn')
        lines = self.lines()
        # the class began the two columns, and the document's clear begins them again
        self.assertEqual(lines[:4], ['galley 3', 'twocolumn', 'note start.1', 'twocolumn'])
        self.assertRegex(lines[4], r'^head title\.1 \d+$')
        height = int(lines[4].split()[2])
        self.assertIn('\nhead title.1 0 %d\n' % height, self.read('test.pages'))
        # the columns begin below the head and dbltextfloatsep, 20pt
        self.assertIn('\npage 1 two at %d\n' % (height + 20 * PT), self.read('test.pages'))
        self.assertNotIn("can't say", self.read('test.galleylog'))
        self.assert_pages()
        self.assert_places()

    def test_heads_amid_a_document(self):
        self.export(LINES * 30 + HEAD + LINES * 70 + HEAD + WIDE + LINES * 80 + r'\onecolumn ' + LINES * 3)
        heads = [(before, line) for before, line in zip(self.lines(), self.lines()[1:]) if line.startswith('head ')]
        self.assertEqual([before for before, _ in heads], ['twocolumn', 'twocolumn'])
        self.assertEqual(re.findall(r'^head (\S+) 0 ', self.read('test.pages'), re.M), ['title.1', 'title.2'])
        self.assert_pages()
        self.assert_places()

    def test_a_head_behind_another_room_above_footnotes(self):
        self.export(NOTE + LINES * 3 + r'\clearpage\skip\footins30pt ' + HEAD + NOTE + LINES * 60)
        lines = self.read('test.galley').splitlines()
        at = lines.index('set skipfootins 30.0pt')
        self.assertEqual(lines[at - 2:at], ['clearpage', 'twocolumn'])
        self.assertTrue(lines[at + 1].startswith('head title.1 '))
        self.assert_pages()
        self.assert_places()

    def test_a_head_that_leaves_no_room(self):
        # LaTeX ships two empty columns below it, which the galley has as boxes
        self.export(LINES + r'\twocolumn[\vbox to 530pt{\vss}]' + LINES * 3)
        self.assertIn('head title.1 %d' % (510 * PT), self.lines())
        self.assertNotIn("can't say", self.read('test.galleylog'))
        self.assert_pages()

    def test_a_head_below_0(self):
        self.export(r'\twocolumn[\vskip-50pt]' + LINES)
        self.assertIn('head title.1 0', self.lines())
        self.assertIn("can't say: a box over both columns of negative height (0 is written)", self.read('test.galleylog'))


@unittest.skipUnless(shutil.which('lualatex'), 'no lualatex')
class Enlarged(Latex):
    def heights(self):
        """The heights of all columns, in points more than the text's."""
        text = int(re.search(r'^set textheight (\d+)', self.read('test.galley'), re.M)[1])
        return [(int(it) - text) / PT for it in re.findall(r'^column 1 text height (\d+)', self.read('test.pages'), re.M)]

    def assert_all(self, *enlarged):
        """The galley has these lines `enlarge`, and the program makes its pages."""
        self.assertEqual([line for line in self.lines() if line.startswith('enlarge')], list(enlarged))
        self.assertNotIn("can't say", self.read('test.galleylog'))
        self.assertFalse([line for line in self.lines() if line.startswith('class ')])
        self.assert_pages()
        self.assert_places()

    def test_a_page(self):
        self.export(LINES * 3 + r'\enlargethispage{20pt}' + LINES * 30)
        self.assertEqual(self.heights()[:2], [20, 0])
        self.assert_all('enlarge %d' % (20 * PT))

    def test_a_page_that_is_made_lower_among_lines(self):
        self.export(LINES * 3 + r'Words \enlargethispage{-20pt}in a paragraph. ' + LINES * 30)
        self.assertEqual(self.heights()[:2], [-20, 0])
        self.assert_all('enlarge %d' % (-20 * PT))

    def test_a_star(self):
        self.export(LINES * 3 + r'\enlargethispage*{15pt}' + LINES * 30 + NOTE, preamble=r'\parskip 6pt plus 2pt minus 4pt ')
        # it shrinks to the height of the others
        self.assertEqual(self.heights()[:2], [0, 0])
        self.assertRegex(self.read('test.pages'), r'\ncolumn 1 text height \d+ natural \d+ set shrink ')
        self.assert_all('enlarge %d star' % (15 * PT))

    def test_twice_with_floats_and_notes(self):
        self.export(NOTE + LINES * 2 + FIGURE % 't' + r'\enlargethispage{12pt}' + LINES * 2 + FIGURE % 'b' +
                    r'\enlargethispage{10pt}' + NOTE + LINES * 30)
        self.assertEqual(self.heights()[0], 22)
        self.assert_all('enlarge %d' % (12 * PT), 'enlarge %d' % (10 * PT))

    def test_a_clear(self):
        self.export(LINES * 3 + r'\enlargethispage{20pt}' + LINES * 2 + r'\clearpage ' + LINES)
        self.assert_all('enlarge %d' % (20 * PT))

    def test_a_column(self):
        self.export(HEAD + LINES * 3 + r'\enlargethispage{20pt}' + LINES * 70, options='twocolumn')
        self.assertEqual(self.heights()[1:], [0] * len(self.heights()[1:]))
        self.assert_all('enlarge %d' % (20 * PT))

    def export_other_first(self, text, first, others):
        """A document whose class gives the pages their height when LaTeX has taken that of the first page."""
        self.export(text, preamble=r'\textheight %dpt\AtBeginDocument{\textheight %dpt}' % (first, others))

    def test_a_first_page_of_another_height(self):
        for first, others in ((500, 550), (600, 550)):
            self.export_other_first(NOTE + LINES * 30, first, others)
            self.assertEqual(self.heights()[:2], [first - others, 0])
            self.assert_all('enlarge %d' % ((first - others) * PT))
            said = self.read('test.galleylog')
            self.assertIn('by the pages: the first page is higher by %d (enlarge)' % ((first - others) * PT), said)
            self.assertNotIn('not the same', said)

    def test_a_first_page_of_another_height_with_floats(self):
        # the places behind a float on it are weighed for the height of the others
        self.export_other_first(LINES * 3 + FIGURE % 't' + NOTE + LINES * 2 + FIGURE % 'b' + LINES * 30, 500, 550)
        self.assertIn('enlarge %d' % (-50 * PT), self.lines())
        self.assert_pages()

    def test_a_first_page_alone_before_a_clear(self):
        self.export_other_first(LINES + r'\clearpage ' + LINES * 30, 500, 550)
        self.assertIn('\nclearpage\nset textheight %d\n' % (550 * PT), self.read('test.galley'))
        self.assertNotIn('enlarge', self.read('test.galley'))
        self.assert_pages()

    def test_a_height_from_the_second_page_on(self):
        self.export(LINES * 3 + r'\textheight 300pt ' + LINES * 30)
        self.assertEqual(self.heights()[:2], [250, 0])
        self.assert_all('enlarge %d' % (250 * PT))

    def test_a_class_without_enlarged_pages(self):
        # as under revtex; the kernel's own column maker gets the insertion back
        log = self.export(LINES, preamble=r'\let\kept\@kludgeins \let\@kludgeins\undefined '
                          r'\AddToHook{begindocument/end}[test]{\global\let\@kludgeins\kept}')
        self.assertEqual([line for line in log.splitlines() if line.startswith('!')], [])

    def test_a_size_that_stretches(self):
        self.export(LINES + r'\enlargethispage{20pt plus 5pt}' + LINES)
        self.assertIn('enlarge %d' % (20 * PT), self.lines())


@unittest.skipUnless(shutil.which('lualatex'), 'no lualatex')
class Numbers(Latex):
    def numbers(self):
        return [int(it) for it in re.findall(r'^page (-?\d+) ', self.read('test.pages'), re.M)]

    def words(self):
        """The lines `page` of the galley."""
        return [line for line in self.lines() if line.startswith('page ')]

    def test_none_is_set(self):
        self.export(LINES * 30)
        self.assertEqual((self.lines()[0], self.words(), self.numbers()), ('galley 1', [], [1, 2, 3, 4]))

    def test_a_number_at_a_clear(self):
        self.export(r'\pagenumbering{roman}' + LINES * 20 + r'\clearpage\pagenumbering{arabic}' + LINES * 20)
        self.assertEqual((self.words(), self.numbers()), (['page 1'], [1, 2, 3, 1, 2, 3]))
        self.assertEqual(self.lines()[self.lines().index('page 1') - 1], 'clearpage')
        self.assert_pages()

    def test_a_number_before_the_text(self):
        self.export(r'\setcounter{page}{7}' + LINES * 20)
        self.assertEqual((self.words(), self.numbers()), (['page 7'], [7, 8, 9]))
        self.assert_pages()

    def test_a_number_within_a_page(self):
        self.export(LINES * 20 + r'\setcounter{page}{9}' + LINES * 15)
        self.assertEqual((self.words(), self.numbers()), (['page 9'], [1, 2, 9, 10]))
        self.assert_pages()

    def test_a_number_by_the_output_routine(self):
        self.export(LINES * 40, preamble=r'\AddToHook{shipout/after}{\ifnum\c@page=2 \global\c@page=5 \fi}')
        self.assertEqual((self.words(), self.numbers()[:4]), (['page 6'], [1, 2, 6, 7]))
        self.assert_pages()

    def test_numbers_below_0(self):
        self.export(LINES + r'\clearpage\setcounter{page}{-2}' + LINES + r'\clearpage ' + LINES + r'\clearpage ' + LINES)
        # the page after them has a number that a galley can say
        self.assertEqual((self.words(), self.numbers()), (['page 0'], [1, -2, -1, 0]))
        for number in (-2, -1):
            self.assertIn("can't say: the page number %d: 1 times" % number, self.read('test.galleylog'))


if __name__ == '__main__':
    unittest.main()
