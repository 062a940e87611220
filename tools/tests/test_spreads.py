"""Tests of the search for spreads that are one line longer or shorter, and of what is said of them. Run by tools/test; what
needs the program is left out without one.

The galleys have pages of ten lines of 12pt, 118pt high, ragged at the bottom. A page that is full has 100 demerits, one that
lacks one line has a badness of 100, so 110 * 110 demerits, one that lacks two lines 810 * 810, and one that lacks three
2708 * 2708. A page that ends at a clear has 100."""
import json
import os
import subprocess
import unittest
from dataclasses import replace

from support import PROGRAM, TOP, Scratch, run

from pagetools import best, check, check_spreads, paginate, report, spread_words, spreads

HEAD = 'galley 1\nset textheight 118pt\nset topskip 10pt\nset baselineskip 12pt\n'
TITLE = 'box title 7pt 2pt\nclearpage\n'
LINE = 12 * 65536


def lines(name, count):
    """So many lines that may be parted anywhere."""
    return ''.join('box %s.%d 7pt 2pt\nglue 3pt\n' % (name, k) for k in range(1, count + 1))


def table():
    with open(os.path.join(TOP, 'examples', 'best', 'table.galley'), encoding='latin-1') as file:
        return file.read()


# 94pt is as high as eight lines
SHORTER = HEAD + TITLE + 'box eight 94pt 2pt\nglue 3pt\nbox nine 106pt 2pt\nglue 3pt\nbox ten 118pt 2pt\nend\n'


def planned(text):
    choice = best.read(best.run(PROGRAM, 'best', text), 'a test')
    return spreads.search(PROGRAM, text, choice)


def place(box, line, name='x'):
    return spreads.Place(box, line, name)


class Galleys(unittest.TestCase):
    TEXT = '# a comment\ngalley 1\nbox a 1 1\nglue 3\nbox b 1 1\nglue 3\nbox c 1 1\nend\n'
    TWO = [spreads.Spread((place(2, 7), ), -1, -5), spreads.Spread((place(1, 5), ), 1, 5)]

    def test_lines_go_before_boxes_in_version_3(self):
        self.assertEqual(spreads.with_spreads(self.TEXT, self.TWO), '# a comment\ngalley 3\nbox a 1 1\nglue 3\nenlarge 5\n'
                         'box b 1 1\nglue 3\nenlarge -5\nbox c 1 1\nend\n')
        self.assertEqual(spreads.with_spreads(self.TEXT, []), self.TEXT)

    def test_lines_of_the_galley_as_it_was(self):
        self.assertEqual([spreads.own_line(line, self.TWO) for line in range(1, 11)], [1, 2, 3, 4, 5, 5, 6, 7, 7, 8])

    def test_where_a_page_may_be_made_higher(self):
        text = 'galley 1\nbox a 1 1\nglue 3\nbox b 1 1\nfloat F 1 single t 9 vert\nbox c 1 1\nnewpage\nbox d 1 1\nend\n'
        layout = spreads.Layout(text)
        column = spreads.Column(1, 1, True, 5, 5, 0, 4)
        self.assertEqual(layout.middle(column).name, 'b')       # a page may end between the float and c
        self.assertIsNone(layout.middle(replace(column, first=2, end=3)))
        self.assertEqual([layout.block(box) for box in range(4)], [0, 0, 0, 1])
        self.assertTrue(layout.is_suited())
        double = text.replace('single', 'double')
        self.assertFalse(spreads.Layout(double).is_suited())
        self.assertTrue(spreads.Layout(double.replace('galley 1', 'galley 3')).is_suited())

    def test_the_line_that_holds_on_the_page(self):
        text = 'galley 3\nset baselineskip 10\nbox a 1 1\nglue 3\nset baselineskip 20\nbox b 1 1\nend\n'
        layout, column = spreads.Layout(text), spreads.Column(2, 2, True, 5, 5, 0, 1)
        other = replace(column, page=3, number=3, first=1, end=2)
        self.assertEqual(layout.spread([column, other], -1), spreads.Spread((place(0, 3, 'a'), place(1, 6, 'b')), -1, -10))
        self.assertEqual(layout.spread([other], 1).by, 20)
        self.assertIsNone(layout.spread([replace(column, height=6)], 1))        # the document makes it higher itself
        self.assertIsNone(layout.spread([replace(column, is_text=False)], 1))


class Validity(unittest.TestCase):
    # pages 1 to 4, of two boxes each; 2 and 3 are higher by 5
    COLUMNS = [spreads.Column(page, page, True, 20 + 5 * (page in (2, 3)), 20, 2 * page - 2, 2 * page) for page in (1, 2, 3, 4)]

    def changed(self, boxes, columns=None, by=5):
        found = spreads.changed(spreads.Spread(tuple(place(box, box) for box in boxes), 1, by), columns or self.COLUMNS)
        return found and [it.page for it in found]

    def test_two_facing_pages_each_once(self):
        self.assertEqual(self.changed((2, 4)), [2, 3])
        self.assertEqual(self.changed((3, 5)), [2, 3])
        for boxes in ((2, 3), (4, 5), (1, 2), (4, 6), (2, ), (2, 3, 4)):
            self.assertIsNone(self.changed(boxes), boxes)

    def test_each_is_higher_by_it(self):
        self.assertIsNone(self.changed((2, 4), by=-5))
        self.assertIsNone(self.changed((2, 4), [replace(it, height=20) if it.page == 3 else it for it in self.COLUMNS]))

    def test_the_left_page_is_of_even_number(self):
        later = [replace(it, number=it.number + 1) for it in self.COLUMNS]
        self.assertIsNone(self.changed((2, 4), later))
        self.assertEqual(len(spreads.pairs(later)), 2)          # 2 and 3, 4 and 5
        apart = [replace(it, number=10) if it.page == 3 else it for it in self.COLUMNS]
        self.assertEqual(spreads.pairs(apart), [])

    def test_all_columns_of_both_pages(self):
        two = [spreads.Column(page, page, True, 25, 20, 4 * page + 2 * k, 4 * page + 2 * k + 2) for page in (2, 3) for k in (0, 1)]
        self.assertEqual(self.changed((8, 10, 12, 14), two), [2, 2, 3, 3])
        self.assertIsNone(self.changed((8, 12), two))

    def test_what_is_seen(self):
        side = lambda *demerits: best.Side([best.Ending(k, 1, 0, '0', 0, 0, 0, it, 0, (), False, 0) for k, it in
                                            enumerate(demerits)], None)
        before = spreads.Pages([], None, side(30000, 20000), self.COLUMNS)
        self.assertFalse(spreads.is_seen(before, replace(before, side=side(20000, 20000))))
        self.assertTrue(spreads.is_seen(before, replace(before, side=side(20000, 19999))))
        self.assertTrue(spreads.is_seen(before, replace(before, columns=self.COLUMNS[:3])))


@unittest.skipUnless(PROGRAM, 'GALLEY_PAGES names no program')
class Search(unittest.TestCase):
    def test_a_longer_spread(self):
        plan = planned(table())
        self.assertEqual((plan.choice.greedy, plan.alone.least), (2708 ** 2 + 200, 2708 ** 2 + 200))
        self.assertEqual(plan.choice.least, 3 * 100 + spreads.DEMERITS)
        self.assertEqual([(it.lines, it.by, [own.name for own in it.places]) for it in plan.spreads], [(1, LINE, ['b.4', 'c.3'])])
        self.assertEqual([it.page for it in plan.homes[0]], [2, 3])
        self.assertEqual([column.height for page in plan.side.report.pages for column in page.columns],
                         [118 * 65536, 130 * 65536, 130 * 65536])

    def test_a_shorter_spread(self):
        plan = planned(SHORTER)
        self.assertEqual(plan.alone.least, 100 + 810 ** 2 + 110 ** 2 + 100)
        self.assertEqual(plan.choice.least, 100 + 110 ** 2 + 100 + 100 + spreads.DEMERITS)
        self.assertEqual([(it.lines, [own.name for own in it.places]) for it in plan.spreads], [(-1, ['eight', 'nine'])])

    def test_two_columns(self):
        text = HEAD + 'twocolumn\n' + TITLE + lines('b', 7) + 'box table 43pt 2pt\nglue 3pt\n' + lines('c', 30) + 'end\n'
        plan = planned(text)
        self.assertEqual([(it.page, it.height) for it in plan.homes[0]], [(page, 106 * 65536) for page in (2, 2, 3, 3)])
        self.assertEqual(plan.choice.least, sum(it.demerits for it in plan.side.endings) + spreads.DEMERITS)
        self.assertLess(plan.choice.least, plan.alone.least)

    def test_nothing_gains(self):
        # the first page lacks five lines, and a box of 100pt fits on no page with it; one line less moves nothing
        text = HEAD + TITLE + 'box five 58pt 2pt\nglue 3pt\nbox high 100pt 2pt\nend\n'
        plan = planned(text)
        self.assertEqual((plan.spreads, plan.tries, plan.choice.least), ([], 2, plan.alone.least))
        self.assertFalse(plan.is_changed())
        # an older galley with a float over both columns is not tried
        double = SHORTER.replace(TITLE, TITLE + 'float F 1 double t 9pt vert\n')
        self.assertEqual(planned(double).tries, 0)
        # the bad page is the first, so no spread has it, and a clear parts it from the next ones
        alone = HEAD + 'box eight 94pt 2pt\nglue 3pt\nbox nine 106pt 2pt\nclearpage\n' + lines('a', 30) + 'end\n'
        self.assertEqual([it.places[0].name for it in planned(alone).spreads], [])

    def test_breaks_are_told_by_the_lines_of_the_galley_as_it_was(self):
        # page 2 is mended by a longer spread, the lone line of page 4 by a break
        tail = 'clearpage\n' + lines('d', 9) + 'box e.1 7pt 2pt\npenalty 150\nglue 3pt\nbox e.2 7pt 2pt\nend\n'
        text = table().replace('end\n', tail)
        plan = planned(text)
        self.assertEqual(len(plan.spreads), 1)
        for it in plan.choice.breaks:
            self.assertIn(text.splitlines()[it.line - 1].split()[0], ('glue', 'penalty'))
            self.assertEqual(text.splitlines()[it.line - 2].split()[1], it.after)
        self.assertEqual([it.after for it in plan.choice.breaks], ['d.9'])
        self.assertEqual([it.line for it in plan.side.endings if it.chosen], [it.line for it in plan.choice.breaks])
        self.assertEqual([line for line in spreads.written(plan).splitlines() if line.split()[0] in ('enlarge', 'break')], [
            'enlarge 15 page 2 by %d before b.4' % LINE, 'enlarge 33 page 3 by %d before c.3' % LINE,
            'break %d page 4 after d.9' % plan.choice.breaks[0].line])
        chosen = best.run(PROGRAM, 'report', plan.galley)
        self.assertEqual(chosen, plan.choice.text)


class Words(unittest.TestCase):
    REPORT = ['report 1'] + ['page %d one' % k for k in range(1, 4)] + ['end pages 3 boxes 0 floats 0 warnings 0']

    def story(self, found, tries=4):
        read = report.read_lines(self.REPORT, 'a test')
        side = best.Side([], read)
        homes = [[spreads.Column(page, page + 10, True, 5, 5, 0, 1) for page in (2, 3)] for _ in found]
        choice = best.Choice(9, 5, [], '', read)
        plan = spreads.Plan(found, homes, choice, side, '', best.Choice(9, 7), side, tries)
        return spread_words.SpreadStory('galley 1\nend\n', plan, side), plan, side

    def test_which_pages_are_longer(self):
        longer = spreads.Spread((place(0, 1), place(1, 2)), 1, LINE)
        story, plan, side = self.story([longer, replace(longer, lines=-1, by=-LINE)])
        self.assertEqual(list(story.lines()), [
            '2 spreads are changed:', '  pages 2 and 3 are one line longer (12.0pt)', '  pages 2 and 3 are one line shorter (12.0pt)',
            'no page break is put in: no choice of breaks has fewer demerits',
            'demerits: 9 before, 7 with breaks, 5 with breaks and spreads',
            'columns of 20000 demerits or more: 0 before, 0 with breaks, 0 with breaks and spreads', 'pages: 3 before, 3 now'])
        told = spread_words.data(plan, side)
        self.assertEqual((told['least'], told['breaks_alone']), (5, 7))
        self.assertEqual(told['spreads'][0], {'pages': [12, 13], 'lines': 1, 'by': LINE, 'places': [
            {'line': 1, 'before': 'x'}, {'line': 2, 'before': 'x'}]})

    def test_none(self):
        self.assertEqual(next(self.story([])[0].lines()),
                         'no spread is changed: none of those that were tried makes the pages better')
        self.assertEqual(next(self.story([], tries=0)[0].lines()), 'no spread is changed: there was none to try')


class Rows(unittest.TestCase):
    def test_a_row_of_the_table(self):
        said = '\n'.join([
            'galley_pages: chosen in 1.5 s, of 8 galleys with spreads', '1 spread is changed:', '2 page breaks are put in:',
            'demerits: 9 before, 7 with breaks, 5 with breaks and spreads',
            'columns of 20000 demerits or more: 3 before, 2 with breaks, 1 with breaks and spreads', 'pages: 4 before, 5 now',
            'paper: LaTeX made 5 pages (5 columns), the report has 5; 5 agree in contents, 5 in glue set, 4 in every place; '
            'floats and notes in the same place 1 of 1; footnote lines 2 of 2', ''])
        row = check_spreads.row('paper', said)
        self.assertEqual(row, ('paper', '4 to 5', '9', '7', '5', '3', '2', '1', '1', '2', '8', '4 of 5', '1.5'))
        self.assertFalse(check_spreads.is_whole(row))
        self.assertEqual(check_spreads.total([row, row]), (
            'all', '8 to 10', '18', '14', '10', '6', '4', '2', '2', '4', '16', '8 of 10', '3.0'))
        self.assertIsNone(check_spreads.row('paper', 'nothing'))


class Commands(Scratch):
    def test_spreads_need_best(self):
        for main in (paginate.main, check.main):
            with self.assertRaises(SystemExit):
                run(main, '--spreads', 'x.tex')
        command = os.path.join(TOP, 'tools', 'galley-pages')
        ran = subprocess.run([command, 'trace', '--spreads', __file__], stdout=subprocess.PIPE, stderr=subprocess.STDOUT,
                             encoding='utf-8', check=False)
        self.assertEqual(ran.returncode, 2)
        self.assertIn('--spreads is for the mode best', ran.stdout)

    @unittest.skipUnless(PROGRAM, 'GALLEY_PAGES names no program')
    def test_the_command(self):
        command = [os.path.join(TOP, 'tools', 'galley-pages'), 'best', '--spreads', '--quiet', '--json']
        with open(self.path('table.galley'), 'w', encoding='latin-1') as file:
            file.write(table())
        ran = subprocess.run(command + [self.path('table.galley')], stdout=subprocess.PIPE, check=True)
        told = json.loads(ran.stdout)
        self.assertEqual([it['pages'] for it in told['spreads']], [[2, 3]])
        ran = subprocess.run(command[:-1] + ['--raw', self.path('table.galley')], stdout=subprocess.PIPE, check=True)
        self.assertEqual(ran.stdout.decode().splitlines()[:2], ['spreads 1', 'greedy %d' % told['greedy']])


if __name__ == '__main__':
    unittest.main()
