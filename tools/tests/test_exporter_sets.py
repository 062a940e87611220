"""Tests of the exporter on documents whose parameters change: on a page, at a clear, at a float. With a program, its pages
are to be LaTeX's in every place. Left out where no LuaLaTeX is installed."""
import glob
import re
import shutil
import unittest

from support import Latex, is_installed

LINES = 'Words that fill some lines of the page, so that it has text. ' * 6 + '\n\n'
NOTE = r'Words.\footnote{A note.} '
FIGURE = r'\begin{figure}[%s]\vbox to 3cm{}\caption{A}\end{figure} '
HEAD = r'\twocolumn[\begin{center}\Large A head over both columns\par\end{center}\vskip 20pt]'
# The page's height is LaTeX's from here on, directly after a clear.
HEIGHT = r'\makeatletter\textheight%s\@colht\textheight\@colroom\textheight\vsize\textheight\makeatother '
PT = 65536


class Sets(Latex):
    def sets(self):
        """The `set` lines among the items of the galley, without their word."""
        lines = [line for line in self.read('test.galley').splitlines() if not line.startswith(('#', 'class '))][1:]
        first = next(k for k, line in enumerate(lines) if not line.startswith('set '))
        return [line[4:] for line in lines[first:] if line.startswith('set ')]

    def first(self, name):
        """The value with which the galley begins."""
        return re.search('^set %s (.*)$' % name, self.read('test.galley'), re.M)[1]

    def assert_sets(self, *sets):
        """The items set these, nothing is lost, and the program makes LaTeX's pages."""
        self.assertEqual(self.sets(), list(sets))
        said = self.read('test.galleylog')
        self.assertFalse(re.search("can't say|not the same", said), said)
        self.assert_pages()

    def assert_all(self, *sets):
        """Besides, the program weighs the same places."""
        self.assert_sets(*sets)
        self.assert_places()


@unittest.skipUnless(shutil.which('lualatex'), 'no lualatex')
class OnAPage(Sets):
    def test_top_skip_of_one_page(self):
        self.export(LINES * 15 + r'\newpage{\topskip40pt ' + LINES * 3 + r'\newpage}' + LINES * 15)
        self.assertEqual(self.first('topskip'), str(10 * PT))
        self.assert_all('topskip %d' % (40 * PT), 'topskip %d' % (10 * PT))

    def test_top_skip_of_the_first_page(self):
        # as journals have it: the output routine ends it, when the page builder has seen lines of the next page
        self.export(NOTE + LINES * 3 + FIGURE % 't' + LINES * 30,
                    preamble=r'\topskip42pt \let\old\@outputpage \def\@outputpage{\old\global\topskip10pt }')
        self.assertEqual(self.first('topskip'), str(42 * PT))
        self.assert_all('topskip %d' % (10 * PT))
        # it stands before the first box of page 2
        first = re.search(r'^page 2 one\n(?:(?!box).*\n)*(box \S+)', self.read('test.pages'), re.M)[1]
        galley = self.read('test.galley')
        self.assertLess(galley.rindex('\nset topskip'), galley.index('\n%s ' % first))
        self.assertNotIn('\nbox ', galley[galley.rindex('\nset topskip'):galley.index('\n%s ' % first)])

    def test_top_skip_amid_a_page(self):
        # a float that is placed on the page has the page made anew, for the top skip that holds then
        self.export(LINES * 3 + r'\topskip30pt ' + LINES * 2 + FIGURE % 't' + LINES * 30)
        self.assert_all('topskip %d' % (30 * PT))

    def test_top_skip_behind_a_note_that_begins_a_page(self):
        # for a galley the page has begun with the note, for TeX it begins with the first line
        self.export(LINES * 3 + r'\newpage\insert\footins{\hbox{A note.}}\topskip30pt ' + LINES * 20)
        self.assert_all('topskip %d' % (30 * PT))
        self.assertRegex(self.read('test.galley'), r'\nset topskip \d+\nfoot\n')

    def test_no_top_skip(self):
        self.export(LINES * 3 + r'\newpage\topskip0pt ' + LINES * 20)
        self.assertEqual(self.sets(), ['topskip 1'])
        self.assertIn("can't say: set topskip 0 (1 is written)", self.read('test.galleylog'))
        self.assert_pages()

    def test_top_skip_at_a_clear_in_two_columns(self):
        self.export(HEAD + LINES * 20 + r'\topskip30pt ' + HEAD + LINES * 20 + r'\topskip10pt\onecolumn ' + LINES * 20)
        self.assert_all('topskip %d' % (30 * PT), 'topskip %d' % (10 * PT))

    def test_one_ragged_page(self):
        for ends in (r'\newpage', r'\clearpage', r'\pagebreak'):
            self.export(LINES * 15 + r'\newpage{\raggedbottom ' + LINES * 3 + ends + '}' + LINES * 15 + ends + LINES,
                        preamble=r'\flushbottom \parskip 3pt plus 1pt')
            self.assertEqual(self.first('bottom'), 'flush')
            self.assert_all('bottom ragged', 'bottom flush')

    def test_ragged_from_a_page_on(self):
        self.export(LINES * 20 + r'\raggedbottom ' + LINES * 30, options='twocolumn')
        self.assert_all('bottom ragged')

    def test_no_columns_with_another_bottom(self):
        self.export(LINES * 5 + r'{\flushbottom ' + LINES * 3 + '}' + LINES * 30)
        self.assert_all()
        self.assertTrue(self.read('test.galley').startswith('galley 1\n'))

    def test_what_the_maker_of_columns_puts(self):
        preamble = r'\def\other{\def\footnoterule{\kern-3pt\hrule height 2pt\kern1pt}\def\@texttop{\vskip 2pt}%' + '\n' + \
            r'\def\@textbottom{\vskip 3pt plus 1fil}\def\topfigrule{\kern2pt\hrule\kern-2.4pt}}'
        page = NOTE + LINES * 3 + FIGURE % 't' + LINES
        self.export(page + r'\newpage{\other ' + page + r'\newpage}' + page, preamble=preamble)
        self.assert_all('bottom flush', 'texttop 131072 plus 0 minus 0', 'textbottom 196608 plus 65536sfil minus 0',
                        'footrule -196608 131072 65536', 'toprule 131072 26214 -157286',
                        'bottom ragged', 'texttop 0 plus 0 minus 0', 'textbottom 0 plus 0 minus 0',
                        'footrule -196608 26214 170394', 'toprule none')

    def test_a_footnote_rule_without_footnotes(self):
        self.export(LINES * 3 + r'\newpage\def\footnoterule{}' + LINES)
        self.assert_all()
        self.assertTrue(self.read('test.galley').startswith('galley 1\n'))


@unittest.skipUnless(shutil.which('lualatex'), 'no lualatex')
class AtAClear(Sets):
    def test_another_height(self):
        self.export(LINES * 20 + r'\clearpage' + HEIGHT % '300pt' + NOTE + LINES * 20 + r'\clearpage' + HEIGHT % '500pt' +
                    LINES * 20)
        self.assert_all('textheight %d' % (300 * PT), 'textheight %d' % (500 * PT))
        lines = self.read('test.galley').splitlines()
        self.assertEqual(lines[lines.index('set textheight %d' % (300 * PT)) - 1], 'clearpage')
        heights = [int(it) / PT for it in re.findall(r'^column 1 text height (\d+)', self.read('test.pages'), re.M)]
        self.assertEqual(sorted(set(heights), key=heights.index), [550, 300, 500])

    def test_a_height_that_is_changed_before_a_clear(self):
        self.export(LINES * 3 + r'\textheight 300pt\clearpage ' + LINES * 30)
        self.assertEqual(self.first('textheight'), str(550 * PT))
        # LaTeX weighs the box of the clear itself for the new height
        self.assert_sets('textheight %d' % (300 * PT))

    def test_many_measures(self):
        # LaTeX takes counts and fractions when the page before is shipped
        limits = r'\setcounter{topnumber}{1}\renewcommand\topfraction{.4}'
        rooms = r'\setlength\textfloatsep{30pt plus 3pt}\setlength\intextsep{5pt}\makeatletter\@fptop 0pt\makeatother '
        page = FIGURE % 't' + LINES * 2 + FIGURE % 't' + FIGURE % 'h' + LINES * 4 + FIGURE % 'p' + LINES * 20
        self.export(page + limits + r'\clearpage' + rooms + page)
        self.assertEqual(self.sets(), ['topnumber 1', 'topfraction .4', 'textfloatsep 30.0pt plus 3.0pt', 'intextsep 5.0pt',
                                       'fptop 0.0pt'])
        self.assert_pages()
        self.assert_places()

    def test_heads_and_numbers_and_heights(self):
        self.export(LINES * 3 + r'\clearpage' + HEIGHT % '400pt' + r'\setcounter{page}{9}\topskip 15pt ' + HEAD + LINES * 60)
        self.assert_sets('topskip %d' % (15 * PT), 'textheight %d' % (400 * PT))
        self.assertIn('page 9', self.lines())

    def test_a_head_below_a_clear_that_changes_the_height(self):
        self.export(LINES * 3 + r'\textheight 400pt' + HEAD + LINES * 60)
        lines = self.read('test.galley').splitlines()
        at = lines.index('set textheight %d' % (400 * PT))
        self.assertEqual((lines[at - 1], lines[at + 1][:12]), ('twocolumn', 'head title.1'))
        self.assert_sets('textheight %d' % (400 * PT))

    @unittest.skipUnless(is_installed('geometry.sty'), 'no geometry')
    def test_new_geometry(self):
        self.export(LINES * 20 + r'\newgeometry{textheight=300pt,heightrounded=false}' + LINES * 20 + r'\restoregeometry ' +
                    LINES * 20, preamble=r'\usepackage[textheight=500pt,heightrounded=false]{geometry}')
        self.assert_all('textheight %d' % (300 * PT), 'textheight %d' % (500 * PT))

    def test_sides_of_notes(self):
        page = r'Words.\marginpar{note}\newpage '
        self.export(page * 2 + r'\clearpage\reversemarginpar ' + page * 2)
        self.assertEqual(self.first('reversemargin'), 'off')
        self.assert_all('reversemargin on')

    def test_the_room_above_footnotes_and_other_changes(self):
        page = NOTE + LINES * 3
        self.export(page + r'\topskip20pt\clearpage\skip\footins 30pt\raggedbottom\setcounter{page}{7}' + page +
                    r'\clearpage\topskip10pt ' + page, preamble=r'\flushbottom')
        self.assertEqual(self.first('topskip'), str(10 * PT))
        self.assert_all('topskip %d' % (20 * PT), 'skipfootins 30.0pt', 'bottom ragged', 'topskip %d' % (10 * PT))
        self.assertIn('page 7', self.lines())

    def test_the_room_above_footnotes_and_their_limit(self):
        # behind the first clear the limit splits the note, and its rest stands on the next page
        page = r'Words.\footnote{%s} ' % ('A note of many lines. ' * 40) + LINES * 12
        self.export(page + r'\clearpage\skip\footins 30pt plus 2pt\dimen\footins 60pt ' + page +
                    r'\clearpage\dimen\footins 300pt ' + page, preamble=r'\skip\footins 12pt\dimen\footins 400pt ')
        self.assertEqual((self.first('skipfootins'), self.first('footlimit')), ('12.0pt', str(400 * PT)))
        self.assert_all('skipfootins 30.0pt plus 2.0pt', 'footlimit %d' % (60 * PT), 'footlimit %d' % (300 * PT))
        lines = self.read('test.galley').splitlines()
        self.assertEqual(lines[lines.index('set skipfootins 30.0pt plus 2.0pt') - 1], 'clearpage')
        self.assertEqual(self.read('test.pages').count('\nfootrule '), 4)
        self.assertEqual(glob.glob(self.path('*.galley')), [self.path('test.galley')])


@unittest.skipUnless(shutil.which('lualatex'), 'no lualatex')
class AtAFloat(Sets):
    def test_a_float_in_a_list(self):
        listed = r'\begin{itemize}\parskip 7pt plus 2pt \item Words.\par ' + FIGURE % 'ht' + r'\item Words.\end{itemize}'
        self.export(LINES + FIGURE % 'h' + LINES + listed + LINES + FIGURE % 'h' + LINES * 20 + FIGURE % 'h')
        self.assert_all('parskip %d plus %d minus 0' % (7 * PT, 2 * PT), 'parskip 0 plus 65536 minus 0')

    def test_a_first_float_in_a_list(self):
        listed = r'\begin{itemize}\parskip 7pt plus 2pt \item Words.\par ' + FIGURE % 'ht' + r'\item Words.\end{itemize}'
        self.export(LINES + FIGURE % 't' + listed + LINES * 10)
        self.assertEqual(self.first('parskip'), '%d plus %d minus 0' % (7 * PT, 2 * PT))
        self.assert_all()


if __name__ == '__main__':
    unittest.main()
