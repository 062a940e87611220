"""Tests of what is said of floats and notes where parameters are set among the items: the values are those that hold where
each is called. Run by tools/test."""
import os
import unittest

from support import PROGRAM, STORED

from test_why import first_test, needs_the_program, row, text_of

from pagetools import settings, story, why, why_tries, why_words
from pagetools.why_words import Change

# Of a page of 550pt the top may take 0.4, 220pt, where F is called, and 0.2, 110pt, where G is.
GALLEY = '''galley 3
set textheight 550pt
set topskip 10pt
set topfraction 0.6
box a 10pt 0
clearpage
set topnumber 1
set topfraction 0.4
box b 10pt 0
float F 1 single t 250pt par
box c 10pt 0
clearpage
set topfraction 0.2
box d 10pt 0
float G 1 single t 150pt par
box e 10pt 0
end
'''
F_LINE, G_LINE = 10, 15


def fraction_at(known, line):
    return settings.decimal(known.at(line)['topfraction'])


def called_on(line):
    """A float that is called on this line."""
    return why.Float('F', line, why.Spot(1, 1), 1, 't', 'single', 5, False)


class Values(unittest.TestCase):
    def test_by_lines(self):
        known = settings.read(GALLEY)
        self.assertEqual([fraction_at(known, line) for line in (1, 4, 7, 8, F_LINE, 12, 13, 99)],
                         ['0.7', '0.6', '0.6', '0.4', '0.4', '0.4', '0.2', '0.2'])
        self.assertEqual([known.at(line)['topnumber'] for line in (6, 7, G_LINE)], [2, 1, 1])

    def test_the_last_of_two(self):
        known = settings.read('set topfraction 0.85\nset topfraction 32768/65536\n# set topfraction 1')
        self.assertEqual([known.at(line)['topfraction'] for line in (1, 2, 3)], [settings.fraction('0.85'), 32768, 32768])

    def test_only_a_suppressfloats_above_counts(self):
        known = settings.read('galley 1\nbox a 1 0\nsuppressfloats t\nbox b 1 0\n')
        self.assertEqual([known.at(line)['suppressfloats'] for line in (2, 4)], [False, True])


class Words(unittest.TestCase):
    """A row of version 1, whose clear at the end is followed by another value."""

    def setUp(self):
        self.run_of_row, _ = row('too-high-for-its-share')
        text = text_of(os.path.join(STORED, 'why', 'too-high-for-its-share.galley'))
        self.known = settings.read(text.replace('end\n', 'clearpage\nset topfraction 0.9\nbox d 10 0\nend\n'))

    def test_of_a_test_and_its_changes(self):
        it, decision, test = first_test(self.run_of_row, 'F', 'top')
        self.assertEqual(decision.line, it.line)
        self.assertEqual(why_words.in_words(test, decision, self.known), '7sp more than the top may hold (topfraction is 0.7)')
        self.assertIn(Change('topfraction', '0.761', 'least'), why_words.changes(test, it, decision, self.known))

    def test_of_the_float_in_the_way(self):
        told = story.Story(self.run_of_row, self.known)
        self.assertIn('F waits: 7sp more than the top may hold (topfraction is 0.7).', told.of(self.run_of_row.named('G')[0]))
        self.assertIn('(topfraction is 0.7)', told.table()[1])

    def test_of_a_note(self):
        # its room is kept below the first note, so the marginparpush of that note's place counts
        known = settings.read('galley 3\nset marginparpush 2\nbox a 10 2\nmargin m 8 4 8 4 par\nset marginparpush 9\nbox b 6 2\n'
                              'margin n 8 4 8 4 par\nend\n')
        run = why.read('report 1\nbeside m 4 page 1 column 1 text 10 reach 0 high 8 shift 0 right\n'
                       'beside n 7 page 1 column 1 text 18 reach 16 high 8 shift 6 right\n')
        self.assertIn('marginparpush (2sp) included', story.Story(run, known).of_note(run.notes[1])[0])


class Changed(unittest.TestCase):
    """Where another value of a parameter is put."""

    def assert_changed(self, line, change, expected, moved):
        text, _, lines = why_tries.changed(GALLEY, called_on(line), change)
        self.assertEqual((text, lines), (expected, moved))

    def test_the_set_that_holds_is_changed(self):
        change = Change('topfraction', '0.5')
        self.assert_changed(F_LINE, change, GALLEY.replace('fraction 0.4', 'fraction 0.5'), 0)
        self.assert_changed(G_LINE, change, GALLEY.replace('fraction 0.2', 'fraction 0.5'), 0)

    def test_the_head_has_it_where_none_was_set(self):
        change, head = Change('topfraction', '0.5'), 'set topfraction 0.6\n'
        self.assert_changed(5, change, GALLEY.replace(head, head + 'set topfraction 0.5\n'), 1)
        self.assert_changed(G_LINE, Change('totalnumber', '4'), GALLEY.replace(head, head + 'set totalnumber 4\n'), 1)


@needs_the_program
class Tries(unittest.TestCase):
    def test_a_value_that_lets_it_in(self):
        # the tops must hold 250pt and 150pt: 0.455 and 0.273 of 550pt are 250.25pt and 150.15pt, a thousandth less is too little
        run, known = why_tries.run_of(PROGRAM, GALLEY), settings.read(GALLEY)
        for name, value, page in (('F', '0.455', 2), ('G', '0.273', 4)):
            helps, _ = why_tries.tried(PROGRAM, GALLEY, run.named(name)[0], known)
            found = {(one.change.what, one.change.value): (one.found.landed, one.found.where) for one in helps}
            self.assertEqual(found.get(('topfraction', value)), (page, 'top'))


if __name__ == '__main__':
    unittest.main()
