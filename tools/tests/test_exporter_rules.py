"""Tests of the exporter on documents that ask for the parameters of version 3: rules, the glue at a column's ends, how
footnotes stand. With a program, its pages are to be LaTeX's in every place. Left out where no LuaLaTeX is installed."""
import re
import shutil
import unittest

from support import Latex, is_installed

FLOAT = r'\begin{%s}[%s]\vbox to 3cm{}\caption{A}\end{%s} '
LINES = 'Words that fill some lines of the page, so that it has text. ' * 6 + '\n\n'
NOTE = r'Words.\footnote{A note.} '
KERNEL = {'texttop': '0 plus 0 minus 0', 'textbottom': '0 plus 0 minus 0', 'footrule': '-196608 26214 170394',
          'toprule': 'none', 'bottomrule': 'none', 'dblrule': 'none', 'footdepth': 'keep',
          'footfill': '0 plus 0 minus 0', 'footplace': 'above'}
FILL = '0 plus 65536sfill minus 0'


def figure(places, name='figure'):
    return FLOAT % (name, places, name)


def document(notes=True):
    """A text of some pages, with floats at the top, at the bottom and between lines, and with footnotes or without."""
    note = NOTE if notes else ''
    return (LINES * 3 + note + figure('t') + LINES * 4 + figure('b') + LINES * 3 + note + figure('h') + LINES * 8) * 2


@unittest.skipUnless(shutil.which('lualatex'), 'no lualatex')
class NewParameters(Latex):
    def assert_old(self):
        """The galley is of version 1, and has no parameter of version 3."""
        galley = self.read('test.galley')
        self.assertTrue(galley.startswith('galley 1\n'))
        self.assertFalse([name for name in KERNEL if '\nset %s ' % name in galley])
        self.assert_pages()

    def assert_new(self, **others):
        """The galley is of version 3. These of its parameters are others than the kernel's, and nothing is lost."""
        galley = self.read('test.galley')
        self.assertTrue(galley.startswith('galley 3\n'))
        values = dict(re.findall(r'^set (%s) (.*)$' % '|'.join(KERNEL), galley, re.M))
        self.assertEqual(values, {**KERNEL, **others})
        self.assertNotIn("can't say", self.read('test.galleylog'))
        self.assert_pages()

    def test_a_document_that_asks_for_none(self):
        self.export(document())
        self.assert_old()
        self.export(document(), preamble=r'\def\footnoterule{\kern-3pt\hbox{}\hrule width 2in\kern1.6pt\vskip1pt}')
        self.assert_old()

    def test_how_footnotes_stand_where_there_are_none(self):
        self.export(document(notes=False), preamble=r'\def\footnoterule{\vfill\hrule\vfill}')
        self.assert_old()
        self.assertNotIn("can't say", self.read('test.galleylog'))

    def test_another_footnote_rule(self):
        for rule, value in ((r'\kern-3pt\hrule height 1pt\kern1.6pt', '-196608 65536 104858'), ('', 'none'),
                            (r'\vskip 4pt', '262144 0 0'), (r'\vspace*{1pt}\hrule\kern1pt', '65536 26214 65536')):
            self.export(document(), preamble=r'\def\footnoterule{%s}' % rule)
            self.assert_new(footrule=value)

    def test_a_footnote_rule_with_fill(self):
        self.export(document(), preamble=r'\def\footnoterule{\kern-3pt\vfill\hrule width 2in\kern2.6pt}\flushbottom')
        self.assert_new(footfill=FILL)

    def test_two_rules_are_told(self):
        self.export(document(), preamble=r'\def\topfigrule{\hrule\kern1pt\hrule}')
        self.assertIn('\nset toprule 0 26214 91750\n', self.read('test.galley'))
        self.assertIn("can't say: a second rule or box in toprule (its height is kept): 1 times", self.read('test.galleylog'))

    def test_a_footnote_rule_with_fill_below_is_told(self):
        self.export(document(), preamble=r'\def\footnoterule{\kern-3pt\hrule width 2in\kern2.6pt\vfill}')
        self.assertIn("can't say: glue in footrule that stretches or shrinks (its width is kept): 1 times",
                      self.read('test.galleylog'))

    def test_the_ends_of_a_column(self):
        for preamble, values in (
                (r'\def\@texttop{\vskip 2pt plus 1pt}\def\@textbottom{\vskip 0pt plus 1pt}',
                 {'texttop': '131072 plus 65536 minus 0', 'textbottom': '0 plus 65536 minus 0'}),
                (r'\def\@textbottom{\vskip 0pt plus .0001fil\kern2pt}', {'textbottom': '131072 plus 0 minus 0'})):
            self.export(document(), preamble=preamble)
            self.assert_new(**values)
        self.assertIn('\nset bottom ragged\n', self.read('test.galley'))

    def test_rules_beside_floats(self):
        self.export(document(), preamble=r'\def\topfigrule{\kern3pt\hrule\kern-3.4pt}'
                    r'\def\botfigrule{\kern-2pt\hrule height 1pt\kern2pt}')
        self.assert_new(toprule='196608 26214 -222822', bottomrule='-131072 65536 131072')
        self.assertIn('\nfloatrule ', self.read('test.pages'))

    def test_a_rule_below_double_floats(self):
        self.export(figure('t', 'figure*') + document(), options='twocolumn',
                    preamble=r'\def\dblfigrule{\kern3pt\hrule height 2pt\kern1pt}')
        self.assert_new(dblrule='196608 131072 65536')
        self.assertRegex(self.read('test.pages'), r'\npage \d two at \d+\nfloat .*\nfloatrule \d+ 131072 0\n')

    def test_a_parameter_that_changes_at_a_clear(self):
        self.export(document() + r'\clearpage \makeatletter\def\@textbottom{\vskip 0pt plus 1pt}\makeatother ' + document())
        values = re.findall('^set textbottom (.*)$', self.read('test.galley'), re.M)
        self.assertEqual(values, [KERNEL['textbottom'], '0 plus 65536 minus 0'])
        self.assert_pages()

    @unittest.skipUnless(is_installed('memoir.cls'), 'no memoir')
    def test_footnotes_of_memoir(self):
        for preamble, values in (('', {'footdepth': 'drop'}), (r'\feetbelowfloat', {'footplace': 'below'}),
                                 (r'\raggedbottom\feetatbottom', {'footdepth': 'drop', 'footfill': FILL}),
                                 (r'\flushbottom\feetatbottom', {'footdepth': 'drop'})):
            self.export(document(), document_class='memoir', preamble=preamble)
            self.assert_new(**values)
        self.export(document(notes=False), document_class='memoir')
        self.assert_old()

    @unittest.skipUnless(is_installed('footmisc.sty'), 'no footmisc')
    def test_footnotes_of_footmisc(self):
        for options, values in (('bottom', {'footfill': FILL, 'footplace': 'below'}),
                                ('belowfloats', {'footplace': 'below'})):
            self.export(document(), preamble=r'\usepackage[%s]{footmisc}' % options)
            self.assert_new(**values)
        self.export(document(), preamble=r'\usepackage{footmisc}')
        self.assert_old()
        self.export(document(), preamble=r'\usepackage[bottom,abovefloats]{footmisc}')
        self.assertIn("can't say: the glue that footmisc puts above bottom floats", self.read('test.galleylog'))

    @unittest.skipUnless(is_installed('manyfoot.sty'), 'no manyfoot')
    def test_series_of_manyfoot(self):
        preamble = r'\usepackage{manyfoot}\SelectFootnoteRule[2]{default}\newfootnote{A}\SelectFootnoteRule{default}\newfootnote{B}'
        series = r'Words.\FootnotetextB{b}{A note of B.} Words.\FootnotetextA{a}{A note of A.} '
        self.export(LINES * 3 + NOTE + series + LINES * 20 + NOTE + series, preamble=preamble)
        self.assert_new()
        rules = re.findall(r'^class ([0-9]*) 1000 [0-9]* below (.*) 589824 plus', self.read('test.galley'), re.M)
        self.assertEqual(rules, [('101', KERNEL['footrule']), ('102', KERNEL['footrule'])])


if __name__ == '__main__':
    unittest.main()
