#!/usr/bin/env python3
"""Tests of the command galley-pages: its options over a program that only pretends, and over the real one if GALLEY_PAGES
names it. Run by tools/test."""
import json
import os
import shutil
import subprocess
import sys
import tempfile
import unittest

HERE = os.path.dirname(os.path.abspath(__file__))
TOP = os.path.normpath(os.path.join(HERE, os.pardir, os.pardir))
COMMAND = os.path.join(TOP, 'tools', 'galley-pages')
sys.path.insert(0, os.path.join(HERE, os.pardir))

from pagetools import messages, report  # noqa: E402

REAL = os.environ.get('GALLEY_PAGES')
needs_the_program = unittest.skipUnless(REAL, 'GALLEY_PAGES names no program')

# A program that writes its options and its input, and ends with the status that the input begins with.
PRETENDS = """#!/usr/bin/env bash
cat > "$0.input"
echo "$@"
cat "$0.input"
status=$(sed 's/[^0-9].*//' "$0.input" | head -1)
[ -z "$status" ] || { echo "galley_pages: $(sed -n 2p "$0.input")" >&2; exit "$status"; }
"""


class Commands(unittest.TestCase):
    def setUp(self):
        self.folder = tempfile.mkdtemp()
        self.addCleanup(shutil.rmtree, self.folder)
        self.program = self.put('program', PRETENDS)
        os.chmod(self.program, 0o755)

    def put(self, name, text):
        path = os.path.join(self.folder, name)
        with open(path, 'w', encoding='latin-1') as file:
            file.write(text)
        return path

    def run_on(self, *words, given='', **how):
        """The status, what was written, and what was said."""
        how = {'stdin': None, 'stdout': subprocess.PIPE, 'stderr': subprocess.PIPE, **how}
        if how['stdin'] is None:
            del how['stdin']
            how['input'] = given
        environment = {**os.environ, 'GALLEY_PAGES': how.pop('program', self.program)}
        ran = subprocess.run([COMMAND] + list(words), cwd=self.folder, env=environment, text=True, check=False, **how)
        return ran.returncode, ran.stdout, ran.stderr


class Options(Commands):
    def test_help_and_version(self):
        for word in ('-h', '--help'):
            status, out, said = self.run_on(word)
            self.assertEqual((status, said), (0, ''))
            self.assertTrue(out.startswith('usage: galley-pages'))
        status, out, said = self.run_on('--version')
        self.assertEqual((status, said), (0, ''))
        self.assertRegex(out, r'^galley-pages, commit \w+.*\ntoolchain .*\nprogram: named by GALLEY_PAGES\n$')

    def test_modes_and_files(self):
        self.put('a', 'first\n')
        self.put('b', 'second\n')
        self.put('trace', 'third\n')
        self.assertEqual(self.run_on('a')[:2], (0, '--mode report\nfirst\n'))
        self.assertEqual(self.run_on('a', 'b')[:2], (0, '--mode report\nfirst\n--mode report\nsecond\n'))
        self.assertEqual(self.run_on('trace', 'b')[:2], (0, '--mode trace\nsecond\n'))
        self.assertEqual(self.run_on('trace', './trace')[:2], (0, '--mode trace\nthird\n'))
        self.assertEqual(self.run_on('lines', given='piped\n')[:2], (0, '--mode lines\npiped\n'))
        self.assertEqual(self.run_on('gen', '--count', '7', given='unread')[:2], (0, '--mode gen --count 7\n'))

    def test_the_mode_best(self):
        self.put('a', 'first\n')
        self.put('b', 'second\n')
        self.assertEqual(self.run_on('best', '--raw', 'a')[:2], (0, '--mode best\nfirst\n'))
        status, out, said = self.run_on('best', 'a')
        self.assertEqual((status, out), (1, ''))
        self.assertIn('a: no line of the mode best: --mode best\n', said)
        for words, told in ((['a', 'b'], 'the mode best takes one file'), (['a', '--points'], '--points is for the modes'),
                            (['a', '--raw', '--json'], '--raw is for the modes best and why')):
            status, out, said = self.run_on('best', *words)
            self.assertEqual((status, out), (2, ''))
            self.assertIn(told, said)

    def test_an_output_file(self):
        self.put('a', 'first\n')
        self.assertEqual(self.run_on('print', 'a', '-o', 'out'), (0, '', ''))
        with open(os.path.join(self.folder, 'out'), encoding='latin-1') as out:
            self.assertEqual(out.read(), '--mode print\nfirst\n')
        status, _, said = self.run_on('a', '-o', 'a')
        self.assertEqual(status, 2)
        self.assertIn('written over itself', said)

    def test_the_first_bad_status_counts(self):
        self.put('a', '3\nline 1 field 1: NoHeader\n')
        self.put('b', '5\nline 1: float pool full at 1\n')
        status, out, said = self.run_on('a', 'b')
        self.assertEqual((status, out.count('--mode')), (3, 2))
        self.assertIn('a:1:1: NoHeader: ', said)
        self.assertIn('b:1:1: PoolFull: ', said)

    def test_usage_errors(self):
        for words in (['none'], ['--other'], ['.'], ['dvi', '--json'], ['--json', '--points'], ['--count', '7'], ['gen', 'x'],
                      ['-o']):
            status, out, said = self.run_on(*words)
            self.assertEqual((status, out, said.count('\n')), (2, '', 1), words)

    def test_a_program_that_is_not_there(self):
        status, _, said = self.run_on(program='/none')
        self.assertEqual((status, said), (1, 'galley-pages: GALLEY_PAGES is no program: /none\n'))


class Refusals(unittest.TestCase):
    """What is told of a refusal, from the program's line and the text alone."""

    def told(self, said, text, mode='report'):
        return messages.told('galley_pages: ' + said, messages.Source('a.galley', mode, text)).splitlines()

    def test_a_field_is_marked(self):
        self.assertEqual(self.told('line 2 field 3: BadUnit', b'galley 1\nbox\tb  7mm 2pt\nend\n')[1:], [
            ' 2 | box b  7mm 2pt',
            '   |        ^^^'])

    def test_a_field_that_is_absent_is_marked(self):
        self.assertEqual(self.told('line 2 field 4: MissingField', b'galley 1\nbox b 7pt  \r\nend\n'), [
            'a.galley:2:4: MissingField: a field is missing. Write `box NAME HEIGHT DEPTH`.',
            ' 2 | box b 7pt',
            '   |           ^'])

    def test_bytes_that_are_no_text(self):
        told = self.told('line 1 field 2: NotAscii', 'kern \u00e9\u00e9\x07 1'.encode() + b'\xff')
        self.assertEqual(told[1:], [' 1 | kern \u00e9\u00e9? 1\ufffd', '   |      ^^^'])

    def test_a_long_line_is_shown_in_part(self):
        told = self.told('line 1 field 2: ExtraField', b'end ' + b' ' * 150 + b'xyz' + b' .' * 90)
        at = told[2].index('^')
        self.assertEqual(told[1][at:at + 3], 'xyz')
        self.assertLess(len(told[1]), 115)
        self.assertEqual(told[2].count('^'), 3)

    def test_the_end_of_the_input(self):
        self.assertEqual(len(self.told('line 2 field 0: NoEnd', b'galley 1\n')), 1)
        self.assertTrue(self.told('line 0 field 0: InputSize', b'')[0].startswith('a.galley: InputSize: '))

    def test_each_cause_has_a_sentence(self):
        for cause in messages.CAUSES:
            for text in (b'', b'set x', b'par a', b'# box'):
                told = self.told('line 1 field 1: ' + cause, text)[0]
                self.assertRegex(told, r'^a\.galley:1:1: \w+: [a-z`].*[a-z`0-9)]\.$')
                self.assertNotIn('{', told)

    def test_what_limit_is_enough(self):
        text = b'set pool 2\nset maxdeadcycles 3\nfloat a\nmargin b\n# float c\nclearpage\n'
        self.assertIn('`set pool 3` is always enough', self.told('line 4: float pool full at 1', text)[0])
        told = self.told('dead cycles 3', text)
        self.assertIn('a.galley:2:3: DeadCycles: ', told[0])
        self.assertIn('`set maxdeadcycles 28` is always enough', told[0])
        self.assertEqual(told[1:], [' 2 | set maxdeadcycles 3', '   |                   ^'])
        self.assertIn('`set maxdeadcycles 36` is', self.told('dead cycles 3', text + b'head b\nenlarge 1pt\n')[0])
        self.assertIn('`set pool 4096` is the most', self.told('line 1: float pool full at 18', b'float a\n' * 4097)[0])
        self.assertIn('the default, 1000000, is the most', self.told('page limit 1', b'set maxpages 1')[0])
        self.assertIn('split the galley', self.told('node limit at 4194305', b'galley 1')[0])

    def test_a_line_that_is_no_refusal(self):
        self.assertEqual(self.told('killed', b''), ['killed'])
        self.assertEqual(messages.told('', messages.Source('a', 'report', b'')), '')


@needs_the_program
class Program(Commands):
    """The command over the real program."""

    def run_on(self, *words, **how):
        return super().run_on(*words, program=os.path.abspath(REAL), **how)

    def example(self, name):
        return os.path.join(TOP, 'examples', name)

    def read(self, name):
        with open(self.example(name), encoding='latin-1') as file:
            return file.read()

    def test_the_output_is_the_programs(self):
        galley = self.example('chapter.galley')
        self.assertEqual(self.run_on(galley), (0, self.read('chapter.report'), ''))
        self.assertEqual(self.run_on(given=self.read('chapter.galley')), (0, self.read('chapter.report'), ''))
        with open(galley, 'rb') as given:
            self.assertEqual(self.run_on(stdin=given), (0, self.read('chapter.report'), ''))
        self.assertEqual(self.run_on('lines', self.example('paragraph.lines')), (0, self.read('paragraph.galley'), ''))

    def test_a_refusal(self):
        status, out, said = self.run_on(self.example('refused.galley'))
        self.assertEqual((status, out), (3, ''))
        self.assertTrue(said.startswith(self.example('refused.galley') + ':6:4: MissingField: '))
        self.assertTrue(said.endswith('\n 6 | box b 7pt\n   |           ^\n'), said)
        of_input = said.replace(self.example('refused.galley'), 'standard input')
        self.assertEqual(self.run_on(given=self.read('refused.galley'))[2], of_input)
        with open(self.example('refused.galley'), 'rb') as given:
            self.assertEqual(self.run_on(stdin=given)[2], of_input)

    def test_json_of_each_mode(self):
        for mode in ('report', 'trace', 'plain'):
            _, out, _ = self.run_on(mode, self.example('chapter.galley'))
            status, made, said = self.run_on(mode, self.example('chapter.galley'), '--json')
            self.assertEqual((status, said), (0, ''))
            self.assertEqual(report.text(json.loads(made)), out)
        self.assertEqual(self.run_on(self.example('refused.galley'), '--json')[:2], (3, ''))

    def test_points(self):
        _, out, _ = self.run_on(self.example('chapter.galley'), '--points')
        self.assertEqual(len(out.splitlines()), len(self.read('chapter.report').splitlines()))
        self.assertIn('pt', out.splitlines()[2])

    def test_a_reader_that_stops(self):
        galley = self.put('long.galley', 'galley 1\n' + 'box b 7pt 2pt\nglue 3pt\n' * 5000 + 'end\n')
        for words, said in (((), 'standard output: WriteFault: '), (('--quiet',), '')):
            for more in ((), ('--json',)):
                reader, writer = os.pipe()
                os.close(reader)
                status, _, told = self.run_on(galley, *words, *more, stdout=writer)
                os.close(writer)
                self.assertEqual((status, told[:len(said) or None]), (9, said))

    def test_streams_that_are_closed(self):
        for text, wanted in (('exec <&-', 8), ('exec < /', 8), ('exec >&-', 9), ('exec > /dev/full', 9)):
            ran = subprocess.run(['bash', '-c', '%s; exec "$0" %s' % (text, '' if wanted == 8 else '"$1"'), COMMAND,
                                  self.example('chapter.galley')], stderr=subprocess.PIPE, check=False)
            self.assertEqual(ran.returncode, wanted, ran.stderr)
            self.assertEqual(ran.stderr.count(b'\n'), 1)


if __name__ == '__main__':
    unittest.main()
