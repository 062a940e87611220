"""Tests of the exporter on small documents, where LuaLaTeX is installed; else they are left out. Run by tools/test."""
import re
import shutil
import unittest

from support import Latex, is_installed

FLOAT = r'\begin{figure}[%s]\vbox to 3cm{}\caption{A}\end{figure} '
PAGE = r'Words.\vspace*{10cm} Words.\marginpar{note} \newpage '


@unittest.skipUnless(shutil.which('lualatex'), 'no lualatex')
class Exporter(Latex):
    def test_void_boxes_do_not_end_latex(self):
        log = self.export(r'\twocolumn[\vbox to 50cm{A head that is too high}] Words. ' + FLOAT % 't')
        self.assertTrue('node lib' not in log and 'Output written' in log)
        self.assertIn('\nhead title.1 ', self.read('test.galley'))
        log = self.export(r'\twocolumn[\begin{center}A [head] \end{center}] Words. ' + FLOAT % 't')
        self.assertTrue('node lib' not in log)

    def test_a_name_with_a_space_and_a_suppression_before_the_text(self):
        self.export(r'\suppressfloats ' + FLOAT % 't' + 'Words.', name='two words')
        lines = self.read('two words.galley').splitlines()
        self.assertIn('suppressfloats', lines)
        self.assertLess(lines.index('suppressfloats'), next(k for k, line in enumerate(lines) if line.startswith('float ')))

    def test_notes_of_a_class_with_sides_of_its_own(self):
        self.export(PAGE * 2, preamble=r'\let\old\@addmarginpar\def\@addmarginpar{{\@reversemargintrue\old}}')
        self.assertIn('by the pages: mparswitch off and reversemargin on', self.read('test.galleylog'))
        self.assertIn('\nset reversemargin on\n', self.read('test.galley'))

    def test_odd_and_even_pages_change_places(self):
        self.export(PAGE * 2 + r'\clearpage\setcounter{page}{2}' + PAGE * 2, options='twoside')
        lines = self.lines()
        self.assertEqual(lines[lines.index('page 2') - 1], 'clearpage')
        self.assertEqual(re.findall(r'^page (\d+) one\n(?:.*\n)*?margin \S+ (\w+) ', self.read('test.pages'), re.M),
                         [('1', 'right'), ('2', 'left'), ('2', 'left'), ('3', 'right')])
        self.assertNotIn('sides', self.read('test.galleylog'))
        self.assert_pages()

    def test_a_page_number_between_two_notes_of_a_page(self):
        self.export(r'Words.\marginpar{note} Words.\par\setcounter{page}{8}Words.\marginpar{note}\par', options='twoside')
        self.assertEqual(re.findall(r'^margin \S+ (\w+) ', self.read('test.pages'), re.M), ['right', 'left'])
        self.assertNotIn('sides', self.read('test.galleylog'))
        self.assert_pages()

    def test_a_box_over_both_columns_between_notes(self):
        self.export(PAGE * 2 + r'\twocolumn[A head\par]Words. \onecolumn ' + PAGE * 2, options='twoside')
        self.assertEqual([line for line in self.lines() if line.split()[0] in ('head', 'page', 'onecolumn', 'twocolumn')][1:],
                         ['head title.1 0', 'onecolumn'])
        self.assertNotIn('sides', self.read('test.galleylog'))

    def test_what_the_output_routine_changes(self):
        self.export(PAGE * 2, preamble=r'\textheight400pt \let\old\@outputpage \def\@outputpage{\old\global\textheight500pt }')
        self.assertRegex(self.read('test.galleylog'),
                         r"can't say: textheight, which the output routine changes from 26214400 to 32768000: 1 times")

    @unittest.skipUnless(is_installed('multicol.sty'), 'no multicol')
    def test_another_output_routine(self):
        told, columns = "can't say: another output routine", r'\begin{multicols}{2}Words. Words.\end{multicols}'
        self.export(PAGE * 2, preamble=r'\usepackage{multicol}')
        self.assertNotIn(told, self.read('test.galleylog'))
        self.export(PAGE + columns + PAGE + columns, preamble=r'\usepackage{multicol}')
        self.assertRegex(self.read('test.galleylog'), told + r'.*: 2 times \(page 2, .*; page 3, ')

    @unittest.skipUnless(is_installed('footmisc.sty'), 'no footmisc')
    def test_areas_of_floats_with_footmisc(self):
        self.export(FLOAT % 't' + FLOAT % 'b' + r'Words.\footnote{A note.}', preamble=r'\usepackage[bottom]{footmisc}')
        self.assertEqual(re.findall(r'^float figure\.\d 1 (\w+)', self.read('test.pages'), re.M), ['top', 'bottom'])

    def test_marks_have_words_and_those_of_other_classes_are_notes(self):
        self.export(r"\pagestyle{headings}\section{The \emph{first} caf\'es} Words. \markboth{Left}{Right} Words. \newpage "
                    r'\mark{plain \kern 3pt mark}Words. \marks5{other}')
        galley, pages = self.read('test.galley'), self.read('test.pages')
        names = ['1-The-first-cafes', 'Left-Right', 'plain-mark']
        for text in (galley, pages):
            self.assertEqual(re.findall(r'^mark m\d+\.(\S+)', text, re.M), names)
            self.assertEqual(len(re.findall(r'^note w\d+\.mark5\b', text, re.M)), 1)
            self.assertEqual(len(re.findall(r'^note w\d+\.mark0', text, re.M)), 0)

    def test_which_float_waits(self):
        log = self.export(r'Words.\vspace*{15cm} Words. ' + FLOAT % 'h' + FLOAT % 'h' + 'Words.')
        waits, warning = log.index('galleyexport: waits figure.'), log.index('float specifier changed')
        self.assertLess(waits, warning)


if __name__ == '__main__':
    unittest.main()
