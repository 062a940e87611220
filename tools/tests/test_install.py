#!/usr/bin/env python3
"""Tests of tools/install, of the completions and of the manual page. Run by tools/test."""
import contextlib
import io
import os
import re
import shutil
import subprocess
import sys
import tempfile
import unittest
from unittest import mock

HERE = os.path.dirname(os.path.abspath(__file__))
TOP = os.path.normpath(os.path.join(HERE, os.pardir, os.pardir))
sys.path.insert(0, os.path.join(HERE, os.pardir))

from pagetools import install, messages  # noqa: E402


def read(*names):
    with open(os.path.join(TOP, *names), encoding='utf-8') as file:
        return file.read()


class Scratch(unittest.TestCase):
    """A folder of its own, with a program that only pretends."""

    def setUp(self):
        self.folder = os.path.realpath(tempfile.mkdtemp())
        self.addCleanup(shutil.rmtree, self.folder)
        self.program = self.put('program', '#!/bin/sh\necho "program: $@"\n')
        os.chmod(self.program, 0o755)
        patch = mock.patch.dict(os.environ, {'GALLEY_PAGES': self.program})
        patch.start()
        self.addCleanup(patch.stop)

    def path(self, name):
        return os.path.join(self.folder, name)

    def put(self, name, text):
        with open(self.path(name), 'w', encoding='utf-8') as file:
            file.write(text)
        return self.path(name)


class Installs(Scratch):
    def install(self, *words):
        """The status of tools/install and what it said."""
        said = io.StringIO()
        with contextlib.redirect_stdout(said), contextlib.redirect_stderr(said):
            status = install.main(list(words))
        return status, said.getvalue()

    def state(self, prefix):
        """All that is below a folder, with its time and mode."""
        found = {}
        for folder, _, names in os.walk(prefix):
            for path in [folder] + [os.path.join(folder, name) for name in names]:
                it = os.stat(path)
                found[os.path.relpath(path, prefix)] = (it.st_mtime_ns, it.st_mode)
        return found

    def test_twice_and_removed(self):
        prefix = self.path('new/prefix')
        status, said = self.install(prefix)
        self.assertEqual(status, 0, said)
        self.assertRegex(said, r'wrote (\d+) of \1 files. The program is named by GALLEY_PAGES: .*/bin/galley_pages\n$')
        before = self.state(prefix)
        for name in ('bin/galley_pages', 'bin/galley-pages', 'share/man/man1/galley_pages.1',
                     'share/texmf/tex/lualatex/galleyexport/galleyexport.sty'):
            self.assertIn(name, before)
        status, said = self.install(prefix)
        self.assertEqual((status, self.state(prefix)), (0, before))
        self.assertRegex(said, r'^tools/install: changed nothing: all \d+ files are there already\..*\n$')
        self.assertEqual(self.install('--remove', prefix)[0], 0)
        self.assertFalse(os.path.exists(self.path('new')))
        self.assertEqual(self.install(prefix, '--remove')[0], 1)

    def test_what_was_there_stays(self):
        prefix = self.path('prefix')
        os.makedirs(os.path.join(prefix, 'share', 'man'))
        mine = self.put('prefix/share/mine', 'mine')
        before = self.state(prefix)
        self.install(prefix)
        self.assertEqual(self.install(prefix, '--remove')[0], 0)
        self.assertEqual(list(self.state(prefix)), list(before))
        self.assertTrue(os.path.isfile(mine))

    def test_a_file_of_others_is_not_written_over(self):
        os.makedirs(self.path('prefix/bin'))
        mine = self.put('prefix/bin/galley-pages', 'mine')
        status, said = self.install(self.path('prefix'))
        self.assertEqual(status, 1)
        self.assertIn('was not installed by this script', said)
        self.assertEqual(list(self.state(self.path('prefix'))), ['.', 'bin', 'bin/galley-pages'])
        with open(mine, encoding='utf-8') as file:
            self.assertEqual(file.read(), 'mine')

    def test_a_file_that_was_changed_is_left(self):
        prefix = self.path('prefix')
        self.install(prefix)
        changed = self.put('prefix/bin/galley-pages', 'changed')
        self.assertIn('left ' + changed, self.install('--remove', prefix)[1])
        self.assertEqual(list(self.state(prefix)), ['.', 'bin', 'bin/galley-pages'])

    def test_another_tree_for_tex(self):
        prefix, texmf = self.path('prefix'), self.path('texmf')
        self.install(prefix)
        status, said = self.install(prefix, '--texmf', texmf)
        self.assertEqual(status, 0)
        self.assertIn('old ones', said)
        self.assertTrue(os.path.isfile(os.path.join(texmf, 'tex/lualatex/galleyexport/galleyexport.lua')))
        self.assertFalse(os.path.isfile(os.path.join(prefix, 'share/texmf/tex/lualatex/galleyexport/galleyexport.lua')))
        self.assertEqual(self.install(prefix, '--remove')[0], 0)
        self.assertFalse(os.path.exists(texmf))

    def test_the_installed_command(self):
        self.install(self.path('prefix'))
        environment = {key: value for key, value in os.environ.items() if key != 'GALLEY_PAGES'}
        os.symlink(self.path('prefix/bin/galley-pages'), self.path('link'))
        for command in (self.path('prefix/bin/galley-pages'), self.path('link')):
            ran = subprocess.run([command, 'trace'], cwd=self.folder, env=environment, stdin=subprocess.DEVNULL,
                                 capture_output=True, text=True, check=False)
            self.assertEqual((ran.returncode, ran.stdout, ran.stderr), (0, 'program: --mode trace\n', ''))
            ran = subprocess.run([command, '--version'], cwd=self.folder, env=environment, capture_output=True, text=True,
                                 check=False)
            self.assertIn('program: named by GALLEY_PAGES\n', ran.stdout)

    def test_help_and_usage_errors(self):
        self.assertEqual(self.install('--help')[0], 0)
        for words in (['--other'], ['a', 'b'], ['--texmf']):
            with self.assertRaises(SystemExit) as ended:
                self.install(*words)
            self.assertEqual(ended.exception.code, 2)


class Completions(Scratch):
    def complete(self, *words):
        """What bash offers for the last word."""
        script = ('source "$0"; COMP_WORDS=(galley-pages "$@"); COMP_CWORD=$#; compopt() { :; }; _galley_pages; '
                  'printf "%s\\n" "${COMPREPLY[@]}"')
        file = os.path.join(TOP, 'tools', 'completion', 'galley-pages.bash')
        ran = subprocess.run(['bash', '-c', script, file] + list(words),
                             cwd=self.folder, capture_output=True, text=True, check=True)
        return sorted(ran.stdout.split())

    def test_bash(self):
        self.put('paper.galley', '')
        self.assertEqual(self.complete('d'), ['dvi', 'dvilist'])
        self.assertEqual(self.complete('p'), ['paper.galley', 'plain', 'print', 'program'])
        self.assertEqual(self.complete('trace', 'p'), ['paper.galley', 'program'])
        self.assertEqual(self.complete('--j'), ['--json'])
        self.assertEqual(self.complete('-o', 'pa'), ['paper.galley'])
        self.assertEqual(self.complete('gen', '--count', '1'), [])
        self.put('why.galley', 'box b 1 1\nfloat fig.1 1 single t 5 par\nmargin m.1 1 1 1 1 par\nfloat tab.1 2 single t 5 par\n')
        self.assertEqual(self.complete('why', 'why.galley', ''), ['fig.1', 'm.1', 'tab.1'])
        self.assertEqual(self.complete('why', 'why.galley', 'f'), ['fig.1'])
        self.assertEqual(self.complete('why', 'why'), ['why.galley'])

    @unittest.skipUnless(shutil.which('zsh'), 'no zsh')
    def test_zsh(self):
        file = os.path.join(TOP, 'tools', 'completion', '_galley-pages')
        self.assertEqual(subprocess.run(['zsh', '-n', file], capture_output=True, check=False).stderr, b'')

    def test_all_options_are_there(self):
        usage = read('tools', 'pagetools', 'command.py')
        for name in ('galley-pages.bash', '_galley-pages'):
            text = read('tools', 'completion', name)
            for option in re.findall(r"add_argument\('(?:-h', ')?(--?[a-z]+)'", usage):
                self.assertIn(option, text)
            for mode in ('report', 'trace', 'rate', 'why', 'plain', 'print', 'lines', 'dvi', 'dvilist', 'gen'):
                self.assertIn(mode, text)


class Manual(unittest.TestCase):
    """The manual page names all that there is."""

    def setUp(self):
        self.text = re.sub(r'\\f[BIR]|\\', '', read('docs', 'galley_pages.1'))

    def assert_words(self, words):
        self.assertGreater(len(words), 5)
        there = set(re.findall(r'[\w-]+', self.text))
        self.assertEqual([word for word in words if word not in there], [])

    def test_words_of_lines(self):
        self.assert_words(re.findall(r'b"([a-z]+)", Word::', read('crates', 'tb_galley', 'src', 'words.rt')))
        self.assert_words(re.findall(r'b"([a-z]+)", (?:Word|Parameter)::', read('crates', 'tb_lines', 'src', 'words.rt')))
        self.assert_words([*messages.GALLEY_LINES, *messages.PARAGRAPH_LINES])

    def test_parameters(self):
        self.assert_words(re.findall(r'b"([a-z]+)", Field::', read('crates', 'tb_param', 'src', 'table.rt')))

    def test_statuses(self):
        found = re.findall(r'Status::(\w+) => (\d+)', read('crates', 'tb_top', 'src', 'status.rt'))
        self.assertEqual(len(found), 16)
        for name, code in found:
            self.assertRegex(self.text, r'\.B %s\n%s[.:]' % (code, name))

    @unittest.skipUnless(shutil.which('mandoc'), 'no mandoc')
    def test_mandoc(self):
        ran = subprocess.run(['mandoc', '-T', 'lint', os.path.join(TOP, 'docs', 'galley_pages.1')], capture_output=True,
                             check=False)
        self.assertEqual((ran.returncode, ran.stdout + ran.stderr), (0, b''))

    @unittest.skipUnless(shutil.which('man'), 'no man')
    def test_man(self):
        ran = subprocess.run(['man', '--warnings', '-E', 'UTF-8', '-l', os.path.join(TOP, 'docs', 'galley_pages.1')],
                             capture_output=True, check=False)
        self.assertEqual(ran.stderr, b'')


if __name__ == '__main__':
    unittest.main()
