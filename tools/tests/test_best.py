"""Tests of what is read and said of the best page breaks. Run by tools/test; what needs the program is left out without
one."""
import os
import unittest

from support import PROGRAM, TOP

from pagetools import best, best_document, best_words, check_best, report

REPORT = ['report 1', 'page 1 one', 'column 1 text height 20 natural 20 set none', 'box a 0 10 0',
          'end pages 1 boxes 1 floats 0 warnings 0']


def galley(name):
    with open(os.path.join(TOP, 'examples', 'best', name), encoding='latin-1') as file:
        return file.read()


def ending(boxes, **changed):
    """An ending of page 1 that is good, but for what is changed."""
    own = {'page': 1, 'column': 1, 'line': 9, 'badness': '0', 'penalty': 0, 'waiting': 0, 'held': 0, 'demerits': 100,
           'short': 0, 'stretch': (0, 0, 0, 0), 'chosen': False, 'boxes': boxes}
    return best.Ending(**{**own, **changed})


def story(text, before, after, breaks=()):
    empty = report.read_lines(REPORT, 'a test')
    choice = best.Choice(5, 3, list(breaks), '', empty)
    return best_words.Story(text, choice, best.Side(before, empty), best.Side(after, empty))


class Reading(unittest.TestCase):
    def test_a_choice(self):
        lines = ['best 1', 'greedy 7', 'least 5', 'break 12 page 3 after b4.Some-words', 'break 15 page 0 after -'] + REPORT
        choice = best.read('\n'.join(lines) + '\n', 'a test')
        self.assertEqual((choice.greedy, choice.least), (7, 5))
        self.assertEqual(choice.breaks, [best.Break(12, 3, 'b4.Some-words'), best.Break(15, 0, '-')])
        self.assertEqual(choice.text, '\n'.join(REPORT) + '\n')
        self.assertEqual(len(choice.report.pages), 1)

    def test_what_is_no_choice(self):
        for text in ('', 'report 1\n', 'best 1\ngreedy 7\n', 'best 1\nbreak 1 page\nreport 1\n', 'best 1\nother\nreport 1\n'):
            with self.assertRaises(best.BestFault, msg=text):
                best.read(text, 'a test')

    def test_breaks_go_before_their_lines(self):
        text = 'galley 1\nbox a 1 1\nglue 3\nbox b 1 1\nend\n'
        self.assertEqual(best.with_breaks(text, [best.Break(3, 1, 'a')]),
                         'galley 1\nbox a 1 1\npenalty -10000\nglue 3\nbox b 1 1\nend\n')
        self.assertEqual(best.with_breaks(text, []), text)

    def test_penalties_and_lone_lines(self):
        text = best.Text(galley('widow.galley'))
        self.assertEqual([text.splits(boxes) for boxes in (0, 1, 2, 5, 6, 7, 10, 11)],
                         ['', 'club', '', 'widow', '', 'club', 'widow', ''])
        lines = 'galley 1\nbox a 1 1\npagebreak 2\nnopagebreak 4\npenalty -50\nfoot\npenalty 7\nendfoot\nglue 1\nbox b 1 1\nend\n'
        self.assertEqual([best.Text(lines).penalty(line) for line in (2, 3, 4, 5, 7, 9)], [0, -151, 10000, -50, 0, 0])
        two = 'galley 1\nbox a 1 1\nglue 1\nglue 1\nbox b 1 1\nnote n\npenalty 300\nglue 1\nbox c 1 1\nglue 1\nglue 1\nend\n'
        self.assertEqual(best.Text(two).splits(2), 'both')


class Words(unittest.TestCase):
    TEXT = 'galley 1\nbox a 1 1\nglue 1\nbox b 1 1\nglue 1\nbox c 1 1\nend\n'

    def said(self, before, after, text=TEXT):
        return story(text, [before] * (before is not None), [after] * (after is not None)).page_lines()

    def test_what_is_gone(self):
        pt = 65536
        short = ending(9, badness='800', short=44 * pt)
        self.assertEqual(self.said(short, ending(9)), ['page 1 was 44.0pt short; now it is full'])
        self.assertEqual(self.said(short, ending(9, short=12 * pt)), ['page 1 was 44.0pt short; now it is 12.0pt short'])
        self.assertEqual(self.said(ending(9, penalty=120), ending(7)),
                         ['page 1 ended at a penalty of 120; now it ends two lines earlier'])
        self.assertEqual(self.said(ending(9, waiting=2, held=1), ending(10)),
                         ['page 1 left two floats waiting and split one footnote; now no float waits and no footnote is split'])
        self.assertEqual(self.said(short, None), ['page 1 was 44.0pt short; now no text column ends there'])

    def test_what_stays_and_what_is_new(self):
        pt = 65536
        flush = self.TEXT.replace('galley 1\n', 'galley 1\nset bottom flush\n')
        short = ending(9, badness='800', short=44 * pt, stretch=(22 * pt, 0, 0, 0))
        self.assertEqual(self.said(short, short, flush),
                         ['page 1 is 44.0pt short, with glue that stretches by 22.0pt, as before'])
        # a page that ends before the height of all is asked for is not meant
        later = self.TEXT.replace('end\n', 'set bottom flush\nbox z 1 0\nend\n')
        early = ending(3, line=6, badness='800', short=44 * pt, stretch=(22 * pt, 0, 0, 0))
        self.assertEqual(self.said(early, early, later), ['page 1 is 44.0pt short, as before'])
        self.assertEqual(self.said(ending(9), ending(8, badness='*', short=-3 * pt)), ['new: page 1 is 3.0pt too full'])
        self.assertEqual(self.said(short, ending(8, held=1)), ['page 1 was 44.0pt short; now it splits one footnote'])
        self.assertEqual(self.said(ending(9), ending(8)), [])
        self.assertEqual(self.said(ending(9), ending(8, badness='800', short=24 * pt, penalty=-300)),
                         ['new: page 1 is 24.0pt short, where a penalty of -300 invites a break'])

    def test_the_whole(self):
        own = story(self.TEXT, [ending(3)], [ending(2, line=5, chosen=True)], [best.Break(5, 1, 'b')])
        self.assertEqual(list(own.lines()), [
            '1 page break is put in:', '  line 5, after b: page 1 ends there, one line earlier', 'demerits: 5 before, 3 now',
            'columns of 20000 demerits or more: 0 before, 0 now', 'pages: 1 before, 1 now', 'other lines than before: page 1'])
        none = story(self.TEXT, [ending(3)], [ending(3)])
        self.assertEqual(list(none.lines())[0], 'no page break is put in: no choice of breaks has fewer demerits')

    def test_numbers_that_change(self):
        own = story(self.TEXT, [ending(3, held=1)], [ending(3)])
        own.labels = best_words.Labels({1: 4}, {1: 5})
        self.assertEqual(own.page_lines(), ['page 5 (page 4 before) split one footnote; now no footnote is split'])
        own.labels = best_words.PLACES
        self.assertEqual(own.page_lines(), ['page 1 split one footnote; now no footnote is split'])
        self.assertEqual(best_words.ranges([7, 2, 3, 4]), 'pages 2 to 4, page 7')


@unittest.skipUnless(PROGRAM, 'GALLEY_PAGES names no program')
class Columns(unittest.TestCase):
    def test_the_sums_are_those_of_the_program(self):
        for name, sums, breaks in (('widow.galley', (22800, 17588), [27, 49]), ('short.galley', (4530340, 22731), [27, 48]),
                                   ('note.galley', (10200, 5689), [13])):
            choice = best.Choice(*sums, [best.Break(line, 1, '-') for line in breaks])
            before, after = best.compared(PROGRAM, galley(name), choice)
            self.assertEqual(sum(it.demerits for it in before.endings), sums[0], name)
            self.assertEqual(sum(it.demerits for it in after.endings) + 1000 * len(breaks), sums[1], name)
            self.assertEqual([it.line for it in after.endings if it.chosen], breaks, name)

    def test_pages_of_floats_that_follow_a_column_at_once(self):
        # two floats that fill a page wait for the end of page 1
        lines = ['box b.%d 7pt 2pt\nglue 3pt\n' % k for k in range(30)]
        lines[5:5] = ['float F%d 1 single p 110pt vert\n' % k for k in range(2)]
        text = 'galley 1\nset textheight 120pt\n%snewpage\nend\n' % ''.join(lines)
        told = best.side(PROGRAM, text, [])
        kinds = [page.columns[0].kind for page in told.report.pages]
        self.assertEqual(kinds[:3], ['text', 'floats', 'floats'])
        self.assertEqual([it.page for it in told.endings], [k for k, kind in enumerate(kinds, 1) if kind == 'text'])

    def test_the_penalty_of_a_break_that_is_put_in(self):
        text = galley('widow.galley')
        line = text.splitlines().index('box b.4 7pt 2pt') + 2
        _, after = best.compared(PROGRAM, text, best.Choice(0, 0, [best.Break(line, 1, 'b.4')]))
        self.assertEqual([(it.penalty, it.demerits) for it in after.endings][0], (150, 22600))


class Documents(unittest.TestCase):
    def test_why_breaks_were_not_put_in(self):
        self.assertEqual(best_document.not_put_in(os.path.join(TOP, 'README.md'))[:25], 'no page break was put in:')

    def test_a_row_of_the_table(self):
        said = '\n'.join([
            'galley_pages: chosen in 1.5 s', '2 page breaks are put in:', 'demerits: 5 before, 3 now',
            'columns of 20000 demerits or more: 2 before, 1 now', 'pages: 4 before, 5 now',
            'paper: LaTeX made 5 pages (5 columns), the report has 5; 5 agree in contents, 5 in glue set, 4 in every place; '
            'floats and notes in the same place 1 of 1; footnote lines 2 of 2', ''])
        row = check_best.row('paper', said)
        self.assertEqual(row, ('paper', '4 to 5', '5', '3', '2', '2', '1', '4 of 5', '1.5'))
        self.assertFalse(check_best.is_whole(row))
        self.assertEqual(check_best.total([row, row]), ('all', '8 to 10', '10', '6', '4', '4', '2', '8 of 10', '3.0'))
        self.assertIsNone(check_best.row('paper', 'nothing'))


if __name__ == '__main__':
    unittest.main()
