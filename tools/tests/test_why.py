"""Tests of what is read and said of the mode why: on stored rows, on galleys of the examples with the program that
GALLEY_PAGES names, and of the command. Run by tools/test."""
import glob
import json
import os
import subprocess
import sys
import unittest

from support import PROGRAM, STORED, TOP, Scratch

from test_json import Shape

from pagetools import settings, story, why, why_data, why_tries, why_words
from pagetools.why import Spot
from pagetools.why_words import Change

needs_the_program = unittest.skipUnless(PROGRAM, 'GALLEY_PAGES names no program')
ROWS = sorted(glob.glob(os.path.join(STORED, 'why', '*.why')))


def text_of(path):
    with open(path, encoding='latin-1') as file:
        return file.read()


def row(name):
    """A stored row: what is told, and the parameters of its galley."""
    path = os.path.join(STORED, 'why', name)
    return why.read(text_of(path + '.why')), settings.read(text_of(path + '.galley'))


def first_test(run, name, area, at=0):
    """The float of a name, one of its decisions, and the test of an area there."""
    it = run.named(name)[0]
    return it, it.decisions[at], it.decisions[at].test(area)


class Reading(unittest.TestCase):
    def test_all_rows_are_read(self):
        self.assertEqual(len(ROWS), 20)
        for path in ROWS:
            run = why.read(text_of(path))
            for it in run.floats:
                self.assertTrue(it.called, path)
                if it.landed:
                    self.assertEqual(it.decisions[-1].goes, it.where, path)
                if it.landed and not run.in_two_columns():
                    self.assertEqual(it.landed - it.called, it.late(), path)

    def test_a_float_with_all_that_is_told_of_it(self):
        run, _ = row('clear-takes-a-top-float-back')
        it, = run.floats
        self.assertEqual((it.name, it.line, it.spot, it.number, it.places, it.width, it.high),
                         ('F', 18, Spot(1, 1, 1), 1, 'tp', 'single', 45))
        self.assertEqual([(one.kind, one.spot.page, one.goes, one.back) for one in it.decisions],
                         [('call', 1, 'deferred', ''), ('start', 2, 'top', 'top'), ('clear', 2, 'page', '')])
        self.assertEqual((it.called, it.landed, it.where, it.column), (1, 2, 'page', 1))
        self.assertEqual(it.reasons, [why.Reason('enter', 'room', 'F', 6, 1)])
        enter = it.decisions[0].test('enter')
        self.assertEqual((enter.failed, enter.count, enter.least, enter.high, enter.room, enter.need, enter.lacks()),
                         ('room', (3, 0, 3), 19, 45, 100, 105, 6))
        self.assertEqual(it.decisions[0].text, 60)

    def test_the_float_in_the_way_is_found(self):
        run, _ = row('double-float-keeps-class-order')
        _, _, enter = first_test(run, 'S', 'enter')
        self.assertEqual(enter.blocking, run.named('W')[0])
        that, reason, decision = why_words.end_of_chain(enter)
        self.assertEqual(why_words.root_of(enter), (reason, decision))
        self.assertEqual((that.name, reason.area, reason.failed, decision.spot), ('W', 'enter', 'wide', Spot(1, 1, 1)))

    def test_who_shares_a_page_of_floats(self):
        run, _ = row('company-of-two-heads')
        self.assertEqual([(spot.page, [it.name for it in those]) for spot, those in run.companies],
                         [(2, ['G']), (3, ['F', 'H', 'K'])])

    def test_a_float_that_was_not_shipped(self):
        run, _ = row('pool-full-at-a-float')
        self.assertFalse(run.done)
        self.assertEqual([(it.landed, it.where, it.late()) for it in run.floats], [(0, 'deferred', 1), (0, 'deferred', 1)])

    def test_columns(self):
        run, _ = row('clear-in-two-columns')
        self.assertTrue(run.in_two_columns())
        self.assertEqual([(it.name, it.landed, it.column) for it in run.floats], [('W', 2, 0), ('S', 3, 1)])
        self.assertEqual(run.heights[Spot(2, 1, 2)], 70)
        run, _ = row('clear-takes-a-wide-float-back')
        self.assertEqual((run.floats[0].landed, run.floats[0].column), (2, 0))

    def test_notes(self):
        run, _ = row('marginal-notes')
        self.assertEqual([(it.name, it.spot.page, it.text, it.reach, it.high, it.shift, it.side) for it in run.notes],
                         [('m', 1, 10, 0, 8, 0, 'right'), ('n', 1, 18, 16, 8, 6, 'right'), ('q', 2, 10, 0, 8, 0, 'right')])

    def test_names_that_are_words_of_the_lines(self):
        told = ('report 1\ncall 007 3 page 1 column 1 class 2 places t width single high 5 text 0\n'
                'enter 007 class high count 3 0 3 least 1 high 5 room 9 need 6 no class\ngoes 007 deferred\n'
                'why 007 3 called 1 waits deferred because enter class high 0 0\n')
        it, = why.read(told).floats
        self.assertEqual((it.name, it.decisions[0].tests[0].blocker), ('007', 'high'))

    def test_lines_that_are_none(self):
        for line in ('call F 1 page', 'enter F class - no', 'goes F top', 'why F 1 called 1', 'start page x column 1 height 5'):
            with self.assertRaisesRegex(why.WhyFault, 'line 2: .*%s' % line):
                why.read('report 1\n' + line + '\n')


class Words(unittest.TestCase):
    """Each expected number is computed by hand from the row's line: a column of 100sp, its share at the top 70sp less 1sp of
    rounding, at the bottom 30sp, its least text 19sp."""

    def assert_words(self, name, float_name, area, words, changes, at=0):
        run, known = row(name)
        it, decision, test = first_test(run, float_name, area, at)
        self.assertEqual(why_words.in_words(test, decision, known), words)
        found = why_words.changes(test, it, decision, known)
        self.assertEqual([(one.what, one.value) for one in found], changes)

    def test_share(self):
        # 75sp need a share of 76sp: 0.76 is 49807 of 65536, of 100 that is 75.99 and so 75sp
        self.assert_words('too-high-for-its-share', 'F', 'top', '7sp more than the top may hold (topfraction is 0.7)',
                          [('topfraction', '0.761'), ('places', '!t'), ('high', '68')])
        # 50sp need a share of 51sp: 0.51 is 33423 of 65536, of 100 that is 50.99 and so 50sp; 50sp less 21sp is more than half
        self.assert_words('pool-full-at-a-float', 'F', 'bottom', '21sp more than the bottom may hold (bottomfraction is 0.3)',
                          [('bottomfraction', '0.511'), ('places', '!b'), ('high', '29')], at=1)

    def test_room_beside_the_text_so_far(self):
        # the text of 60sp is more than the least of 19sp, so no parameter helps
        self.assert_words('clear-takes-a-top-float-back', 'F', 'enter', '6sp too high for this column beside the text so far',
                          [('high', '39')])

    def test_room_beside_the_text_that_must_be_there(self):
        told = ('report 1\ncall F 2 page 1 column 1 class 1 places t width single high 85 text 10\n'
                'enter F class - count 3 0 3 least 19 high 85 room 100 need 104 no room\ngoes F deferred\n'
                'page 1 one\ncolumn 1 text height 100 natural 1 set none\n'
                'why F 2 called 1 waits deferred because enter room F 5 1\n')
        it, decision, test = first_test(why.read(told), 'F', 'enter')
        known = settings.read('')
        self.assertEqual(why_words.in_words(test, decision, known),
                         '5sp too high for this column beside the text that must be there (textfraction is 0.2)')
        # the text may be 14sp: 0.15 is 9830 of 65536, of 100sp that is 14.99 and so 14sp, while 0.151 gives 15sp
        found = why_words.changes(test, it, decision, known)
        self.assertEqual([(one.what, one.value) for one in found], [('textfraction', '0.15'), ('places', '!t'), ('high', '80')])

    def test_room_beside_what_else_is_there(self):
        # of the least text of 39sp, 19sp are the share of textfraction and the rest is a float in the text
        for places, text, least, words in (('t', 10, 39, 'the text that must be there (textfraction is 0.2) and the floats in it'),
                                           ('!t', 10, 20, 'the floats in its text'), ('!t', 20, 20, 'the text so far')):
            told = ('report 1\ncall F 2 page 1 column 1 class 1 places %s width single high 85 text %d\n'
                    'enter F class - count 3 1 2 least %d high 85 room 100 need %d no room\ngoes F deferred\n'
                    'page 1 one\ncolumn 1 text height 100 natural 1 set none\n' % (places, text, least, 85 + max(text, least)))
            it = why.read(told).floats[0]
            found = why_words.in_words(it.decisions[0].tests[0], it.decisions[0], settings.read(''))
            self.assertEqual(found, '%dsp too high for this column beside %s' % (max(text, least) - 14, words))
        told = ('report 1\ncall F 2 page 1 column 1 class 1 places !t width single high 100 text 0\n'
                'enter F class - count 3 0 3 least 0 high 100 room 100 need 100 no room\ngoes F deferred\n')
        it = why.read(told).floats[0]
        self.assertEqual(why_words.in_words(it.decisions[0].tests[0], it.decisions[0]), '1sp too high for this column')

    def test_count(self):
        self.assert_words('bang-does-not-help-the-next-float', 'G', 'bottom',
                          'the bottom has 1 float already (bottomnumber is 0)', [('bottomnumber', '2'), ('places', '!b')])
        self.assert_words('bang-does-not-help-the-next-float', 'G', 'bottom',
                          'the bottom may have no float (bottomnumber is 0)', [('bottomnumber', '1'), ('places', '!b')], at=1)

    def test_suppressed(self):
        self.assert_words('suppressed', 'F', 'top', '\\suppressfloats lets no float into the top', [('places', '!t')])

    def test_places(self):
        self.assert_words('company-of-two-heads', 'F', 'enter', 'it may only go on a page of floats',
                          [('places', 'hp'), ('places', 'tp'), ('places', 'bp')])
        self.assert_words('too-high-for-its-share', 'F', 'here', 'it lacks the place h', [('places', 'ht')])
        self.assert_words('too-high-for-its-share', 'F', 'alone', 'it lacks the place p', [('places', 'tp')], at=1)

    def test_class_and_width(self):
        self.assert_words('double-float-keeps-class-order', 'S', 'enter', 'W of its class waits before it', [])
        self.assert_words('class-at-the-bottom', 'G', 'here', 'F of its class is at the bottom of this column', [])
        self.assert_words('double-float-keeps-class-order', 'W', 'enter', 'it is as wide as both columns, so it can only go '
                          'above the columns of a later page', [])

    def test_pages_of_floats(self):
        # more than the minimum must be less than the sum: 0.499 of 100sp is 49sp
        self.assert_words('float-page-at-the-minimum', 'F', 'company', 'it is 50sp high, and a page of floats needs more than '
                          '50sp (floatpagefraction is 0.5)', [('floatpagefraction', '0.499')], at=1)
        self.assert_words('company-of-two-heads', 'F', 'company', 'the 2 floats that could share a page of floats are 40sp '
                          'high, and a page of floats needs more than 50sp (floatpagefraction is 0.5)',
                          [('floatpagefraction', '0.4')], at=1)
        self.assert_words('company-of-two-heads', 'K', 'joins', 'the floats before it leave 1sp too little of the page of '
                          'floats', [('high', '20')], at=1)
        self.assert_words('clear-in-two-columns', 'S', 'alone', '10sp higher than the column', [('high', '70')], at=1)

    def test_above_the_columns(self):
        # 0.7 of 100sp less 1sp of rounding; 80sp need a share of 81sp, 0.811 by the same rounding; ! gives the whole page
        told = ('report 1\ncall W 2 page 1 column 1 class 1 places t width double high 80 text 0\n'
                'enter W class - count 3 0 3 least 19 high 80 room 100 need 99 no wide\ngoes W deferred\n'
                'page 1 two at 0\ncolumn 1 text height 100 natural 1 set none\ncolumn 2 text height 100 natural 1 set none\n'
                'start page 2 wide height 100\nalone W class - high 80 most 100 no places\n'
                'wide W class - count 2 0 2 room 69 high 80 no room\ngoes W deferred\n'
                'why W 2 called 1 waits deferred because enter wide W 0 2 wide room W 12 0\n')
        it, decision, test = first_test(why.read(told), 'W', 'wide', 1)
        known = settings.read('set textheight 100')
        self.assertEqual(why_words.in_words(test, decision, known),
                         '12sp more than the space above the columns may hold (dbltopfraction is 0.7)')
        found = why_words.changes(test, it, decision, known)
        self.assertEqual([(one.what, one.value) for one in found], [('dbltopfraction', '0.811'), ('places', '!t'), ('high', '68')])

    def test_changes_in_latex(self):
        for change, words in ((Change('topfraction', '0.8'), '\\renewcommand{\\topfraction}{0.8}'),
                              (Change('totalnumber', '4'), '\\setcounter{totalnumber}{4}'), (Change('places', '!t'), '[!t]'),
                              (Change('high', '655360'), 'a height of 10.0pt')):
            self.assertEqual(change.in_words(), words)

    def test_sizes(self):
        for sp, text in ((0, '0pt'), (7, '7sp'), (6553, '6553sp'), (65536, '1.0pt'), (-98304, '-1.5pt')):
            self.assertEqual(why_words.points(sp), text)
        self.assertEqual(why_words.points(65537, up=True), '1.1pt')
        self.assertEqual(why_words.points(72088, down=True), '1.0pt')

    def test_fractions(self):
        for text in ('0.7', '0.123', '1', '0.5', '0'):
            part = settings.fraction(text)
            self.assertEqual(settings.fraction(settings.decimal(part)), part)
            self.assertEqual((settings.at_least(part), settings.at_most(part)), (text, text))
        self.assertEqual((settings.at_least(45876), settings.at_most(45874)), ('0.701', '0.699'))


class Stories(unittest.TestCase):
    def told(self, name, float_name):
        run, known = row(name)
        return story.Story(run, known).of(run.named(float_name)[0])

    def test_without_a_delay(self):
        self.assertEqual(self.told('float-of-79-goes-here', 'F'),
                         ['F (line 17, [ht], 79sp high) is called on page 1, and goes into the text there.'])

    def test_too_high(self):
        self.assertEqual(self.told('too-high-for-its-share', 'F'), [
            'F (line 17, [t], 75sp high) is called on page 1, and lands on a page of floats, page 4: 3 pages late.',
            'On page 1, where it is called: 7sp more than the top may hold (topfraction is 0.7).',
            'At the start of pages 2 and 3: the same.',
            'At a clear on page 4: it goes on a page of floats with G.'])

    def test_one_is_in_the_way(self):
        self.assertEqual(self.told('too-high-for-its-share', 'G')[1:3], [
            'On page 1, where it is called: F of its class waits before it.',
            'F waits: 7sp more than the top may hold (topfraction is 0.7).'])

    def test_the_reason_changes(self):
        # F is first kept by the room of page 1, then by the bottom's share
        self.assertEqual(self.told('pool-full-at-a-float', 'G'), [
            'G (line 19, [b], 50sp high) is called on page 1, and the run ends before it is shipped.',
            'On page 1, where it is called: F of its class waits before it.',
            'F waits: 11sp too high for this column beside the text so far.',
            'At the start of page 2: F of its class waits before it.',
            'F waits: 21sp more than the bottom may hold (bottomfraction is 0.3).'])

    def test_a_clear_takes_it_back(self):
        self.assertEqual(self.told('clear-takes-a-top-float-back', 'F')[2:], [
            'At the start of page 2: it goes to the top, but a clear takes it back.',
            'At a clear on page 2: it goes on a page of floats.'])

    def test_other_floats_take_the_page(self):
        self.assertIn('Page 2 takes other floats: the floats before it leave 1sp too little of the page of floats.',
                      self.told('company-of-two-heads', 'K'))

    def test_many_floats_take_their_pages_before_it(self):
        # each page of floats takes one of A to C, and D waits for the first that is left
        names = 'ABCD'
        told = ['report 1'] + [line for at, name in enumerate(names) for line in (
            'call %s %d page 1 column 1 class 1 places p width single high 90 text 0' % (name, at + 2),
            'enter %s class %s count 3 0 3 least 19 high 90 room 100 need 109 no places' % (name, 'A' if at else '-'),
            'goes %s deferred' % name)] + ['page 1 one', 'column 1 text height 100 natural 0 set none']
        for page, name in enumerate(names, 2):
            told += ['start page %d column 1 height 100' % page, 'alone %s class - high 90 most 100 yes' % name]
            rest = names[page - 1:]
            for later in rest:
                told.append('joins %s class %s high 90 sum 180 most 100 no %s' % (
                    later, '-' if later == rest[0] else rest[0], 'sum' if later == rest[0] else 'class'))
            told += ['company %s floats 1 sum 90 least 50 yes' % name, 'goes %s page' % name, 'page %d one' % page,
                     'column 1 floats height 100 natural 90 set none', 'float %s 1 page 0 90' % name]
        told.append('why D 5 called 1 landed 5 page because enter places A 0 1 joins sum B 80 1 joins sum C 80 1 joins sum D 80 1')
        run = why.read('\n'.join(told) + '\n')
        self.assertEqual(story.Story(run, settings.read('')).of(run.named('D')[0])[1:], [
            'On page 1, where it is called: it may only go on a page of floats.',
            'Pages 2 and 3 take other floats: floats of its class wait before it, the first of them B.',
            'B waits: the floats before it leave 80sp too little of the page of floats.',
            'Page 4 takes other floats: the floats before it leave 80sp too little of the page of floats.',
            'At the start of page 5: it goes on a page of floats.'])

    def test_a_clear_that_finds_no_floats_for_a_column(self):
        self.assertEqual(self.told('clear-in-two-columns', 'S')[1:3], [
            'On page 2, column 2, where it is called: it may only go on a page of floats.',
            'At a clear on page 2, column 2: 10sp higher than the column.'])

    def test_carried(self):
        self.assertEqual(self.told('in-text-float-carried-past-a-later-one', 'F')[1:], [
            'On page 1 it goes into the text, but the page breaks before it, so it lands on page 2.'])

    def test_two_columns(self):
        self.assertEqual(self.told('double-float-keeps-class-order', 'S'), [
            'S (line 19, [ht], 20sp high) is called on page 1, column 1, and lands at the top of page 2, column 1: 2 columns '
            'late.', 'On page 1, column 1, where it is called: W of its class waits before it.',
            'W waits: it is as wide as both columns, so it can only go above the columns of a later page.',
            'At the start of page 1, column 2: the same.', 'At the start of page 2, column 1: it goes to the top.'])

    def test_release_2014(self):
        self.assertEqual(self.told('release-2014-wide-float-waits', 'W')[0],
                         'W (line 19, [t], 30sp high) waits from page 1, column 1, and lands above the columns of page 2: 2 '
                         'columns late.')

    def test_notes(self):
        run, known = row('marginal-notes')
        told = story.Story(run, known)
        self.assertEqual(told.of_note(run.notes[0]), [
            'm (line 18) is a marginal note on page 1, on the right: it stands beside its line.'])
        self.assertEqual(told.of_note(run.notes[1]), [
            'n (line 20) is a marginal note on page 1, on the right: it moves down by 6sp, since it is to begin 10sp below the '
            'top, and the notes before it reach 16sp down, marginparpush (2sp) included.'])

    def test_the_table(self):
        run, known = row('too-high-for-its-share')
        self.assertEqual(story.Story(run, known).table(), [
            'float  line  called  landed                late  reason',
            'F      17    page 1  page 4, floats alone  3     7sp more than the top may hold (topfraction is 0.7)',
            'G      18    page 1  page 4, floats alone  3     F: 7sp more than the top may hold (topfraction is 0.7)'])

    def test_every_row_has_a_story(self):
        for path in ROWS:
            run, known = why.read(text_of(path)), settings.read(text_of(path.replace('.why', '.galley')))
            told = story.Story(run, known)
            for it in run.floats:
                self.assertGreaterEqual(len(told.of(it)), 2 if it.late() else 1, path)
                self.assertTrue(all(line.endswith('.') for line in told.of(it)), path)

    def test_as_json(self):
        for path in ROWS:
            run, known = why.read(text_of(path)), settings.read(text_of(path.replace('.why', '.galley')))
            Shape().check(why_data.data(run, known, run.floats, run.notes), 'Why', path)


@needs_the_program
class Tries(unittest.TestCase):
    """What would have let a float in, by running the program. Each landing is found by reasoning; docs/WHY.md says how."""

    def outcomes(self, jam, name):
        text = text_of(os.path.join(TOP, 'examples', 'jams', jam + '.galley'))
        run, known = why_tries.run_of(PROGRAM, text), settings.read(text)
        it = run.named(name)[0]
        helps, others = why_tries.tried(PROGRAM, text, it, known)
        found = {(one.target.name, one.change.what, one.change.value): (one.found.landed, one.found.where) for one in helps}
        return found, {(target.name, change.what, change.value) for target, change in others}

    def test_too_high(self):
        found, _ = self.outcomes('too-high', 'fig.1')
        # 400pt and more are 0.728 of 550pt; the least of 0.727 is 399.85pt
        self.assertEqual(found['fig.1', 'topfraction', '0.728'], (1, 'top'))
        self.assertEqual(found['fig.1', 'places', '!tb'], (1, 'top'))
        self.assertEqual(found['fig.1', 'places', 'tbp'], (2, 'page'))
        self.assertEqual(found['fig.1', 'clear', ''], (2, 'page'))

    def test_of_the_float_in_the_way(self):
        found, others = self.outcomes('in-the-way', 'fig.2')
        self.assertEqual(found['fig.1', 'places', 'tp'], (1, 'here'))
        # 200pt are more than 0.363 of 550pt, 199.65pt, and less than 0.364, 200.2pt
        self.assertEqual(found['fig.1', 'floatpagefraction', '0.363'], (3, 'top'))
        self.assertIn(('fig.1', 'places', 'bp'), others)

    def test_too_little(self):
        # 258pt are more than 0.469 of 550pt, 257.95pt
        self.assertEqual(self.outcomes('too-little', 'fig.1')[0]['fig.1', 'floatpagefraction', '0.469'], (2, 'page'))

    def test_numbers(self):
        self.assertEqual(self.outcomes('too-many-at-the-top', 'fig.3')[0]['fig.3', 'topnumber', '3'], (1, 'top'))
        found, others = self.outcomes('too-many', 'fig.4')
        self.assertEqual(found, {('fig.4', 'places', '!tb'): (1, 'bottom')})
        self.assertIn(('fig.4', 'totalnumber', '4'), others)

    def test_the_mark(self):
        self.assertEqual(self.outcomes('bang-helps', 'tab.2')[0]['tab.2', 'places', '!b'], (1, 'bottom'))
        found, others = self.outcomes('bang-does-not-help', 'fig.1')
        # 550pt less 300pt of text and 20pt of separator
        self.assertEqual(found, {('fig.1', 'high', str(230 * 65536 - 1)): (1, 'top')})
        self.assertIn(('fig.1', 'places', '!htbp'), others)

    def test_nothing_helps(self):
        for name in ('fig.1', 'fig.2'):
            self.assertEqual(self.outcomes('wide', name)[0], {})

    def test_changes_pass_their_tests_on_random_galleys(self):
        script = os.path.join(TOP, 'bench', 'why_changes')
        ran = subprocess.run([sys.executable, '-B', script, '--program', os.path.abspath(PROGRAM), '--galleys', '25'],
                             capture_output=True, text=True, check=False)
        self.assertEqual((ran.returncode, ran.stderr), (0, ''), ran.stdout)
        self.assertGreater(int(ran.stdout.split()[0]), 100)


@needs_the_program
class Commands(Scratch):
    def run_on(self, *words, given=None):
        command = os.path.join(TOP, 'tools', 'galley-pages')
        ran = subprocess.run([command, 'why'] + list(words), cwd=self.folder, input=given, capture_output=True, text=True,
                             env={**os.environ, 'GALLEY_PAGES': os.path.abspath(PROGRAM)}, check=False)
        return ran.returncode, ran.stdout, ran.stderr

    def galley(self, name='waiting'):
        return os.path.join(TOP, 'examples', name + '.galley')

    def put(self, text):
        path = self.path('a.galley')
        with open(path, 'w', encoding='latin-1') as file:
            file.write(text)
        return path

    def test_a_table_and_a_story(self):
        status, out, said = self.run_on(self.galley())
        self.assertEqual((status, said, out.count('\n')), (0, '', 3))
        self.assertEqual(self.run_on(given=text_of(self.galley())), (0, out, ''))
        status, told, said = self.run_on(self.galley(), 'F')
        self.assertEqual((status, said), (0, ''))
        self.assertIn('\n  \\renewcommand{\\topfraction}{0.761}: it lands at the top of page 1 (3 pages in place of 4)\n', told)
        self.assertEqual(self.run_on('-', 'F', given=text_of(self.galley()))[1], told)
        self.assertEqual(self.run_on(self.galley(), 'F', '-o', 'out')[:2], (0, ''))
        self.assertEqual(text_of(self.path('out')), told)

    def test_the_lines_of_the_program(self):
        self.assertEqual(self.run_on(self.galley(), '--raw'), (0, text_of(self.galley()[:-6] + 'why'), ''))

    def test_json(self):
        for words in ((), ('F',)):
            status, out, said = self.run_on(self.galley(), *words, '--json')
            self.assertEqual((status, said), (0, ''))
            data = json.loads(out)
            Shape().check(data, 'Why')
            self.assertEqual(len(data['floats']), 2 - len(words))
        tried = {(one['what'], one['value']): one['landed'] for one in data['floats'][0]['tried']}
        self.assertEqual(tried['topfraction', '0.761'], {'page': 1, 'column': 1, 'place': 'top'})
        self.assertIsNone(tried['places', 'tb'])

    def test_two_floats_of_one_name(self):
        head = text_of(self.galley()).replace('float G', 'float F')
        path = self.put(head)
        self.assertEqual(self.run_on(path, 'F'), (2, '', 'galley-pages: F is called on the lines 17 and 18: add one of them; '
                                                         'galley-pages --help says more\n'))
        self.assertTrue(self.run_on(path, 'F', '18')[1].startswith('F (line 18, [t], 10sp high) '))

    def test_names_that_are_not_there(self):
        for words, said in ((('H',), 'no float and no marginal note with the name H was called'),
                            (('F', '18'), 'no float and no marginal note with the name F was called on line 18')):
            self.assertEqual(self.run_on(self.galley(), *words),
                             (2, '', 'galley-pages: %s; galley-pages --help says more\n' % said))

    def test_usage_errors(self):
        for words in (('F', 'x'), ('F', '17', '18'), ('F', '--raw'), ('--raw', '--json'), ('--points',)):
            status, out, said = self.run_on(self.galley(), *words)
            self.assertEqual((status, out, said.count('\n')), (2, '', 1), words)

    def test_refusals(self):
        status, out, said = self.run_on(self.galley('refused'), 'F')
        self.assertEqual((status, out), (3, ''))
        self.assertIn(':6:4: MissingField: ', said)
        path = self.put(text_of(self.galley()).replace('galley 1\n', 'galley 1\nset maxpages 2\n'))
        status, out, said = self.run_on(path, 'F')
        self.assertEqual(status, 7)
        self.assertIn(':2:3: PageLimit: ', said)
        self.assertIn('is called on page 1, and the run ends before it is shipped.\n', out)
        self.assertIn('\n  [!t]: it lands at the top of page 1\n', out)


if __name__ == '__main__':
    unittest.main()
