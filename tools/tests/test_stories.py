"""Tests of the picture with --why: where calls and floats stand, what is told of each, and how it is drawn. Run by
tools/test."""
import os
import re
import shutil
import subprocess
import unittest
import xml.etree.ElementTree as xml

from support import TOP, Scratch, document, run

from pagetools import calls, galley, picture, report, stories

# Of one column of 100sp, in lines of 10sp without glue between: a float at the bottom of its page, one that is too high
# for the top and goes to the next page, and one of two columns' width that no page takes.
GALLEY = """galley 1
box a 10 0
float low 1 single b 20 par
box b 10 0
float late 2 single t 75 par
box c 10 0
newpage
box d 10 0
end
"""

REPORT = """report 1
page 1 one
column 1 text height 100 natural 100 set none
box a 0 10 0
box b 10 10 0
box c 20 10 0
float low 1 bottom 80 20
page 2 one
column 1 floats height 100 natural 75 set none
float late 2 page 0 75
page 3 one
column 1 text height 100 natural 10 set none
box d 0 10 0
end pages 3 boxes 4 floats 2 warnings 0
"""

WHY = """report 1
call low 3 page 1 column 1 class 1 places b width single high 20 text 10
enter low class - count 3 0 3 least 19 high 20 room 100 need 39 yes
here low class - room 100 need 39 no places
top low class - count 2 0 2 room 100 need 39 share 70 high 20 no places
bottom low count 1 0 1 room 100 need 39 share 30 high 20 yes
goes low bottom
call late 5 page 1 column 1 class 2 places tp width single high 75 text 40
enter late class - count 3 1 2 least 19 high 75 room 80 need 115 no room
goes late deferred
""" + REPORT[len('report 1\n'):REPORT.index('page 2')] + """start page 2 column 1 height 100
alone late class - high 75 most 100 yes
company late floats 1 sum 75 least 50 yes
goes late page
""" + REPORT[REPORT.index('page 2'):REPORT.index('end')] + """why low 3 called 1 landed 1 bottom
why late 5 called 1 landed 2 page because enter room late 36 1
""" + REPORT[REPORT.index('end'):]


# A float that waits for G, which waits for F.
BEHIND_G = """call H 18 page 1 column 1 class 1 places t width single high 5 text 20
enter H class G count 3 0 3 least 19 high 5 room 100 need 25 no class
goes H deferred
"""


def example(name):
    return os.path.join(TOP, 'examples', name)


class Base(Scratch):
    def setUp(self):
        super().setUp()
        for name, text in (('a.galley', GALLEY), ('a.report', REPORT), ('a.why', WHY)):
            with open(self.path(name), 'w', encoding='latin-1') as out:
                out.write(text)

    def book(self, name):
        return picture.Book(picture.parsed([name + '.report', '--galley', name + '.galley', '--why', name + '.why']))

    def draw(self, name):
        status, said = run(picture.main, name + '.report', '--galley', name + '.galley', '--why', name + '.why', '--out',
                           self.path('out'))
        self.assertEqual(status, 0, said)

    def elements(self, name, shape):
        tree = xml.parse(os.path.join(self.path('out'), name))
        return [element for element in tree.iter() if shape in element.get('class', '').split()]

    def texts(self, name):
        return [''.join(element.itertext()) for element in xml.parse(os.path.join(self.path('out'), name)).iter()
                if element.tag.endswith('}text')]


class Stories(Base):
    def test_where_calls_and_floats_stand(self):
        found = {story.told.name: (story.call_page, story.call_column, story.call_y, story.page, story.late())
                 for story in self.book(self.path('a')).stories}
        self.assertEqual(found, {'low': (1, 1, 10, 1, 0), 'late': (1, 1, 20, 2, 1)})

    def test_a_float_before_all_text_is_called_at_the_head(self):
        with open(self.path('a.galley'), 'w', encoding='latin-1') as out:
            out.write(GALLEY.replace('box a 10 0\nfloat low 1 single b 20 par', 'float low 1 single b 20 par\nbox a 10 0'))
        with open(self.path('a.why'), 'w', encoding='latin-1') as out:
            out.write(WHY.replace('call low 3', 'call low 2').replace('why low 3', 'why low 2'))
        story = self.book(self.path('a')).stories[0]
        self.assertEqual((story.call_page, story.call_column, story.call_y), (1, 1, 0))

    def test_a_head_has_no_story(self):
        book = self.book(document('paper'))
        self.assertIn('title.1', [item.name for page in book.pages() for _, item in page.items() if item.kind == 'head'])
        self.assertNotIn('title.1', [story.told.name for story in book.stories])
        wide = next(story for story in book.stories if story.told.name == 'table.2')
        self.assertEqual((wide.call_page, wide.page, wide.told.landed), (2, 3, 3))

    def test_pages_with_numbers_of_their_own(self):
        # the page of the call has the number 7, that of the landing 7 again
        for name, text in (('a.galley', GALLEY.replace('galley 1', 'galley 3')),
                           ('a.report', REPORT.replace('page 1 ', 'page 7 ').replace('page 2 ', 'page 7 ')),
                           ('a.why', WHY.replace('page 1 ', 'page 7 ').replace('page 2 ', 'page 7 ').replace(
                               'called 1 landed 1', 'called 7 landed 7').replace('called 1 landed 2', 'called 7 landed 7'))):
            with open(self.path(name), 'w', encoding='latin-1') as out:
                out.write(text)
        low, late = self.book(self.path('a')).stories
        self.assertEqual([(it.page, it.call_page, it.told.landed, it.told.place) for it in (low, late)], [(1, 1, 7, 1), (2, 1, 7, 2)])
        self.assertEqual(stories.lines_of(late)[1][0],
                         'called while page 1 was made; stands on page 2, on a page of floats, 1 page late')

    def test_what_is_told_of_a_float(self):
        low, late = (stories.lines_of(story) for story in self.book(self.path('a')).stories)
        self.assertEqual(low[0][0], 'low: class 1, places b, 20sp high')
        self.assertEqual(low[2:], [('page 1, at its call \u2192 bottom', 'told'), (
            '   enter: yes \u00b7 here: no, places \u00b7 top: no, places \u00b7 bottom: yes', 'quiet')])
        text = [line.strip() for line, _ in late]
        self.assertEqual(text[1:3], ['called while page 1 was made; stands on page 2, on a page of floats, 1 page late',
                                     'page 1, at its call \u2192 deferred'])
        # the room of 80 must exceed the text of 40 and the float
        self.assertIn('36sp too high for this column', text[3])
        self.assertTrue(text[4].startswith('would have passed this test: a height of 39sp or less'), text[4])
        self.assertEqual(text[5:], ['page 2 \u2192 page', 'alone: yes \u00b7 company: yes'])

    def test_the_story_in_the_document(self):
        book = self.book(os.path.join(TOP, 'examples', 'tutorial', 'figure'))
        story = next(story for story in book.stories if story.told.name == 'a-table')
        with open(os.path.join(TOP, 'tools', 'README.md'), encoding='utf-8') as file:
            self.assertIn('```\n%s\n```\n' % '\n'.join(line for line, _ in stories.lines_of(story)), file.read())

    def test_one_reason_again_and_again_is_told_once(self):
        first, second = (stories.lines_of(story) for story in self.book(example('waiting')).stories)
        told = [line for line, _ in first]
        self.assertEqual([line.strip() for line in told if 'more than the top' in line],
                         ['top: 7sp more than the top may hold (topfraction is 0.7)'])
        self.assertIn('until page 4: the same, 3 times', told)
        # 0.77 of 100sp is 77sp, of which less than 76sp are free
        self.assertEqual(len([line for line in told if 'would have passed this test: ' in line and '[!t]' in line]), 1)
        self.assertIn('   enter: F of its class waits before it (top: 7sp more than the top may hold (topfraction is 0.7))',
                      [line for line, _ in second])

    def test_first_in_line(self):
        with open(example('waiting.why'), encoding='latin-1') as file:
            text = file.read().replace('goes G deferred\n', 'goes G deferred\n' + BEHIND_G, 1)
        with open(self.path('b.why'), 'w', encoding='latin-1') as out:
            out.write(text)
        for ending in ('galley', 'report'):
            shutil.copy(example('waiting.' + ending), self.path('b.' + ending))
        story = self.book(self.path('b')).stories[2]
        decision = story.told.decisions[0]
        self.assertEqual(stories.in_words(decision.reason(), story, decision), 'G of its class waits before it; first in line '
                         'is F (top: 7sp more than the top may hold (topfraction is 0.7))')

    def test_many_decisions_are_cut(self):
        story = self.book(example('waiting')).stories[0]
        first, *others = story.told.decisions
        alike = [first, others[-1]] * 10
        story.told.decisions = alike
        told = [line for line, _ in stories.lines_of(story)]
        self.assertIn('%d decisions more, which the file of --why tells' % (len(alike) - stories.SHOWN - 1), told)

    def test_why_is_of_another_report(self):
        with open(self.path('a.report'), 'w', encoding='latin-1') as out:
            out.write(REPORT.replace('float late 2 page', 'float late 2 top'))
        status, said = run(picture.main, self.path('a.report'), '--galley', self.path('a.galley'), '--why',
                           self.path('a.why'))
        self.assertEqual(status, 2)
        self.assertIn('a.why tells of other pages than', said)

    def test_a_run_that_was_refused(self):
        with open(self.path('a.why'), 'w', encoding='latin-1') as out:
            out.write(WHY[:WHY.index('start page 2')] + 'why low 3 called 1 landed 1 bottom\nwhy late 5 called 1 waits '
                      'deferred because enter room late 36 1\n')
        with open(self.path('a.report'), 'w', encoding='latin-1') as out:
            out.write(REPORT[:REPORT.index('page 2')])
        late = self.book(self.path('a')).stories[1]
        self.assertEqual((late.page, late.item, late.call_page), (0, None, 1))
        self.assertIn('on no page: the run ended before', stories.journey(late))
        self.draw(self.path('a'))
        self.assertIn('on no page', self.texts('page001.svg'))
        with open(os.path.join(self.path('out'), 'index.html'), encoding='utf-8') as file:
            self.assertIn('<li>late, called on <a href="#page-1">page 1</a>: 36sp too high for this column', file.read())


class Drawings(Base):
    def test_a_call_and_its_float_on_another_page(self):
        self.draw(self.path('a'))
        self.assertIn('to page 2', self.texts('page001.svg'))
        self.assertIn('called on page 1, 1 page late', self.texts('page002.svg'))
        self.assertFalse([text for text in self.texts('page003.svg') if text.startswith(('to page', 'called on'))])

    def test_a_line_to_a_float_of_the_page(self):
        self.draw(self.path('a'))
        ways = [element for element in self.elements('page001.svg', 'way0') if 'C' in element.get('d', '')]
        self.assertEqual(len(ways), 1)

    def test_a_click_has_something_to_show(self):
        self.draw(document('paper'))
        for name in sorted(os.listdir(self.path('out'))):
            if name.endswith('.svg'):
                asked = {element.get('data-story') for element in self.elements(name, 'ask')}
                self.assertEqual(asked, {element.get('data-of') for element in self.elements(name, 'story')})
                self.assertTrue(asked)
        self.assertEqual(len(self.elements('page003.svg', 'story')), 5)
        links = [element.get('href') for story in self.elements('page003.svg', 'story') for element in story.iter()
                 if element.tag.endswith('}a')]
        self.assertEqual(sorted(links), ['page002.svg', 'page004.svg', 'page004.svg'])

    def test_the_index_lists_how_late_floats_are(self):
        self.draw(document('paper'))
        with open(os.path.join(self.path('out'), 'index.html'), encoding='utf-8') as file:
            text = file.read()
        rows = re.findall(r'<tr><td>([\w.]+)<td>.*?pt<td>(\d*)<td>([^<]*)', text)
        self.assertEqual([(name, late) for name, late, _ in rows], [
            ('figure.1', '1'), ('table.1', '0'), ('figure.2', '1'), ('table.2', '1'), ('figure.3', '0'),
            ('figure.4', '0'), ('figure.5', '1'), ('figure.6', '1')])
        self.assertEqual({name for name, _, why in rows if why},
                         {'figure.1', 'figure.2', 'table.2', 'figure.5', 'figure.6'})
        self.assertIn('<a href="#page-4">', text)
        self.assertNotIn('href="page004.svg"><text', text)

    @unittest.skipUnless(shutil.which('chromium'), 'no browser')
    def test_a_click_in_a_browser(self):
        self.draw(document('paper'))
        index = os.path.join(self.path('out'), 'index.html')
        with open(index, encoding='utf-8') as file:
            text = file.read()
        # what is clicked on, and how many floats are told of then: the line to figure.1 opens its panel, and closes it
        clicks = [('.ask', 1), ('.askway', 1), ('.askway', 0), ('main', 0)]
        script = ('for (const it of %s) { document.querySelector(it).dispatchEvent(new MouseEvent("click", {bubbles: true}))\n'
                  'document.querySelector("h1").append(" " + document.querySelectorAll(".story.open").length) }')
        with open(index, 'w', encoding='utf-8') as out:
            out.write(text.replace('</html>', '<script>%s</script></html>' % script % [shape for shape, _ in clicks]))
        command = ['chromium', '--headless', '--no-sandbox', '--disable-gpu', '--user-data-dir=' + self.path('profile'),
                   '--dump-dom', 'file://' + index]
        try:
            shown = subprocess.run(command, stdout=subprocess.PIPE, stderr=subprocess.DEVNULL, timeout=120, check=True)
        except (subprocess.SubprocessError, OSError):
            self.skipTest('the browser did not start')
        self.assertIn('<h1>paper %s</h1>' % ' '.join(str(count) for _, count in clicks), shown.stdout.decode('utf-8'))

    def test_why_a_note_was_moved(self):
        self.draw(document('paper'))
        tips = [''.join(element.itertext()) for element in self.elements('page003.svg', 'margin')]
        # the note before it reaches down to 4689232sp and marginparpush is in that; the text to 3801088sp
        self.assertEqual([tip for tip in tips if 'the notes before it to 71.6pt' in tip],
                         ['marginal note margin.5, moved down by 19.10pt: the text reaches down to 58.0pt, the notes before '
                          'it to 71.6pt, and it is 5.6pt high'])

    def test_a_page_of_double_floats(self):
        report_text = REPORT.replace('page 2 one', 'page 2 wide')
        why_text = WHY.replace('page 2 one', 'page 2 wide').replace('start page 2 column 1', 'start page 2 wide').replace(
            'places tp width single', 'places tp width double').replace('need 115 no room', 'need 115 no wide').replace(
                'enter room late 36', 'enter wide late 0')
        galley_text = GALLEY.replace('float late 2 single', 'float late 2 double')
        for name, text in (('a.galley', galley_text), ('a.report', report_text), ('a.why', why_text)):
            with open(self.path(name), 'w', encoding='latin-1') as out:
                out.write(text)
        story = self.book(self.path('a')).stories[1]
        self.assertEqual((story.page, story.column, story.told.column), (2, 1, 0))
        self.assertIn('stands on page 2, on a page of floats, 1 page late', stories.journey(story))
        self.draw(self.path('a'))
        hatched, asked = (self.elements('page002.svg', shape)[0] for shape in ('hatch1', 'ask'))
        self.assertEqual([hatched.get(it) for it in ('x', 'y', 'width')], [asked.get(it) for it in ('x', 'y', 'width')])

    def test_tags_do_not_lie_over_another(self):
        drawing = calls.svg.Drawing(300, 200)
        page = calls.PageCalls(drawing, 1, {}, (0, 0, 0), set())
        for wanted in ([50.0] * 5, [180.0, 185.0, 190.0], [10.0, 60.0]):
            tops = page._tag_tops(wanted)
            for one, other in zip(tops, tops[1:]):
                self.assertGreaterEqual(other - one, calls.TAG_HEIGHT)
            self.assertLessEqual(tops[-1] + calls.TAG_HEIGHT, 200 - 20)

    def test_the_trace_is_in_why(self):
        with open(example('waiting.why'), encoding='latin-1') as file:
            tried = file.read().count('\ntry ')
        book = self.book(example('waiting'))
        self.assertEqual(sum(len(page.tries) for page in book.pages()), tried)

    def test_why_needs_its_galley(self):
        with self.assertRaises(SystemExit) as ended:
            run(picture.main, self.path('a.report'), '--why', self.path('a.why'))
        self.assertEqual(ended.exception.code, 2)


class Marks(Scratch):
    def test_marks_at_the_head_and_foot(self):
        status, said = run(picture.main, example('chapter.report'), '--out', self.path('out'))
        self.assertEqual(status, 0, said)
        for name, told in (('page001.svg', ['first mark chapter1', 'bottom mark chapter1']),
                           ('page002.svg', ['top mark chapter1', 'first mark chapter1', 'bottom mark chapter1'])):
            tree = xml.parse(os.path.join(self.path('out'), name))
            shown = [it for it in tree.iter() if it.get('class') == 'marked']
            self.assertEqual([''.join(it.itertext()) for it in shown], ['chapter1' + text for text in told])

    def test_a_document_without_marks_has_none(self):
        run(picture.main, document('paper.report'), '--out', self.path('out'))
        with open(os.path.join(self.path('out'), 'page001.svg'), encoding='utf-8') as file:
            self.assertNotIn('class="marked"', file.read())


if __name__ == '__main__':
    unittest.main()
