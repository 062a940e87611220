#!/usr/bin/env python3
"""Tests of how the program is found and built, with a toolchain that only pretends. Run by tools/test."""
import contextlib
import io
import os
import shutil
import stat
import sys
import tempfile
import unittest
from unittest import mock

HERE = os.path.dirname(os.path.abspath(__file__))
sys.path.insert(0, os.path.join(HERE, os.pardir))

from pagetools import program, run  # noqa: E402

# `rt` of the tests: it notes what it is asked for, and fails where the crate has a file `wrong`.
RT = """#!/usr/bin/env bash
[ "$1" != version ] || { echo "${KIT:-kit 1}"; exit; }
echo "$1 $(basename "$PWD") $2 $3" >> ../../asked
[ ! -e wrong ] || { echo 'fn f: not proved'; exit 1; }
[ "$1" != run ] || { mkdir -p out; cat > out/galley_pages; chmod +x out/galley_pages; }
"""
UNPROVED = """import os, sys
with open(sys.argv[1], 'w') as out:
    out.write('#!/bin/sh\\necho unproved')
os.chmod(sys.argv[1], 0o755)
"""


def put(path, text, mode=0o644):
    os.makedirs(os.path.dirname(path), exist_ok=True)
    with open(path, 'w', encoding='utf-8') as file:
        file.write(text)
    os.chmod(path, mode)


class Repository(unittest.TestCase):
    """A small repository, with the toolchain of the tests."""

    def setUp(self):
        self.top = tempfile.mkdtemp()
        self.addCleanup(shutil.rmtree, self.top)
        put(self.path('bin/rt'), RT, 0o755)
        put(self.path('bench/unproved.py'), UNPROVED)
        put(self.path('crates.txt'), 'galley_pages: high low\nother: low\nhigh: low memchr # a comment\nlow: itoa\n')
        for crate in ('low', 'high', 'other', 'galley_pages'):
            put(self.path('crates/%s/src/lib.rt' % crate), 'fn f() {}\n')
        put(self.path('crates/high/proofs/f/Answers.antt'), '-- none\n')
        put(self.path('crates/galley_pages/stdin'), '#!/bin/sh\necho proved\n')
        # without a KIT-ID above it, the line of this toolchain is asked for
        environment = {'PATH': self.path('bin') + ':' + os.environ['PATH'], 'GALLEY_PAGES': '', 'KIT': ''}
        for patch in (mock.patch.object(program, 'TOP', self.top),
                      mock.patch.object(program, 'BUILT', self.path('built')),
                      mock.patch.dict(os.environ, environment)):
            patch.start()
            self.addCleanup(patch.stop)

    def path(self, name):
        return os.path.join(self.top, name)

    def find(self, proved=False):
        """The program, and what was said meanwhile."""
        said = io.StringIO()
        with contextlib.redirect_stderr(said):
            found = program.find(proved, 'test')
        return found, said.getvalue()

    def asked(self):
        with open(self.path('asked'), encoding='utf-8') as lines:
            return [line.split()[:2] for line in lines]


class Found(Repository):
    def test_the_crates_below_come_first(self):
        self.assertEqual(program.reached('galley_pages'), ['low', 'high', 'galley_pages'])

    def test_an_unproved_program_is_built_once(self):
        found, said = self.find()
        self.assertFalse(found.proved)
        self.assertIn('takes about two minutes', said)
        self.assertIn('not proved', found.note())
        again, said = self.find()
        self.assertEqual((again.path, said), (found.path, ''))

    def test_a_proved_program_is_the_one_that_runs(self):
        self.find()
        found, said = self.find(True)
        self.assertTrue(found.proved)
        self.assertEqual(found.note(), '')
        self.assertEqual(self.asked(), [['lib', 'low'], ['lib', 'high'], ['run', 'galley_pages']])
        self.assertIn('half an hour', said)
        self.assertRegex(said, r' 1 of 3  low +0 s\n 2 of 3  high +0 s\n 3 of 3  galley_pages +0 s\ntest: proved and built in 0 s\n')
        self.assertEqual(self.find()[0].path, found.path)

    def test_another_source_makes_another_program(self):
        first = self.find(True)[0].path
        put(self.path('crates/low/src/lib.rt'), 'fn g() {}\n')
        second = self.find(True)[0].path
        self.assertNotEqual(first, second)
        self.assertFalse(os.path.exists(first))

    def test_a_proof_or_the_toolchain_makes_another_proved_program(self):
        names = {kind: program.place(kind, 'kit 1') for kind in ('proved', 'unproved')}
        put(self.path('crates/high/proofs/f/Answers.antt'), '-- another\n')
        self.assertNotEqual(program.place('proved', 'kit 1'), names['proved'])
        self.assertEqual(program.place('unproved', 'kit 1'), names['unproved'])
        self.assertNotEqual(program.place('unproved', 'kit 2'), names['unproved'])

    def test_a_failure_shows_the_end_of_its_log(self):
        put(self.path('crates/high/wrong'), '')
        with self.assertRaisesRegex(program.NotBuilt, r'(?s)high was not proved. The log ends:\n  fn f: not proved\n.*proved.log'):
            self.find(True)

    def test_a_named_program(self):
        put(self.path('mine'), '#!/bin/sh\n', 0o755)
        with mock.patch.dict(os.environ, {'GALLEY_PAGES': self.path('mine')}):
            self.assertEqual(self.find()[0].path, self.path('mine'))
        with mock.patch.dict(os.environ, {'GALLEY_PAGES': self.path('none')}):
            self.assertRaisesRegex(program.NotBuilt, 'is no program', self.find)

    def test_progress_is_told_in_time(self):
        said = io.StringIO()
        with contextlib.redirect_stderr(said), mock.patch.object(program.time, 'monotonic', lambda: now[0]):
            now = [0]
            progress = program.Progress('low')
            for now[0] in range(0, 75, 1):
                progress.say()
        self.assertEqual(said.getvalue().splitlines(), ['low  %s ..' % it for it in (
            '10 s', '20 s', '30 s', '40 s', '50 s', '1 min 0 s', '1 min 10 s')])

    def test_a_terminal_has_one_line_that_changes(self):
        said = io.StringIO()
        said.isatty = lambda: True
        with contextlib.redirect_stderr(said), mock.patch.object(program.time, 'monotonic', lambda: now[0]):
            now = [0]
            progress = program.Progress('low')
            for now[0] in (1, 2):
                progress.say(lambda: '3 of 4 functions')
            progress.clear()
        self.assertEqual(said.getvalue(), '\rlow  1 s .. 3 of 4 functions\033[K\rlow  2 s .. 3 of 4 functions\033[K\r\033[K')


class Used(Repository):
    """examples/run and tools/program."""

    def said(self, main, *arguments):
        out, err = io.StringIO(), io.StringIO()
        with contextlib.redirect_stdout(out), contextlib.redirect_stderr(err):
            status = main(list(arguments))
        return status, out.getvalue(), err.getvalue()

    def test_help(self):
        for main in (run.main, run.path_main):
            for word in ('-h', '--help'):
                status, out, err = self.said(main, word)
                self.assertEqual((status, out[:7], err), (0, 'usage: ', ''))
                self.assertIn('GALLEY_PAGES', out)

    def test_usage_errors(self):
        self.assertEqual(self.said(run.main)[0], 2)
        for words, told in ((['--mode', 'gen'], '--mode is none'), ([self.path('none')], 'No such file'),
                            ([self.top], 'is a folder'), (['--proved'], 'usage: ')):
            status, out, err = self.said(run.main, *words)
            self.assertEqual((status, out), (2, ''))
            self.assertIn(told, err)
        self.assertEqual(self.said(run.path_main, '--other')[0], 2)

    def test_the_path(self):
        status, out, err = self.said(run.path_main)
        self.assertEqual((status, out), (0, self.find()[0].path + '\n'))
        self.assertIn('is not proved; examples/run --proved', err)
        self.assertTrue(os.stat(out.strip()).st_mode & stat.S_IXUSR)


if __name__ == '__main__':
    unittest.main()
