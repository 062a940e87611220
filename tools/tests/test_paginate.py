"""Tests of tools/paginate with stand-ins for lualatex and galley_pages, which give stored files. Run by tools/test."""
import os
import unittest
from unittest import mock

from support import STORED, Scratch, run, stored

from pagetools import latex_document, paginate

# Stands for lualatex: the stored files of notes.tex under the name of the job, or a log with an error.
FAKE_LATEX = '''#!/usr/bin/env python3
import os, shutil, sys
name = sys.argv[2].partition('=')[2]
with open('runs', 'a') as runs: runs.write('run\\n')
if os.environ.get('FAILS'):
    with open(name + '.log', 'w') as log: log.write("text\\n! LaTeX Error: File `none.sty' not found.\\n! Emergency stop.\\n")
    sys.exit(1)
for ending in ('galley', 'galleylog', 'pages', 'log'):
    shutil.copy(os.path.join(%r, 'notes.' + ending), name + '.' + ending)
if os.path.exists(name + '.best'):
    with open(name + '.log', 'a') as log: log.write(os.environ.get('PUT', 'galleybreaks: 1 of 1 page breaks were put in') + '\\n')
with open('runs') as runs, open(name + '.aux', 'w') as aux: aux.write(runs.read() * ('CHANGES' in os.environ))
'''

# Stands for galley_pages: the stored report, trace and ratings of notes.tex, and a choice with the breaks that BREAKS has. It has no float, so nothing is told besides the trace.
FAKE_PROGRAM = '''#!/usr/bin/env python3
import os, sys
sys.stdin.read()
mode = sys.argv[2]
if mode == 'best':
    if os.environ.get('REFUSES'):
        print('galley_pages: ' + os.environ['REFUSES'].split(' ', 1)[1], file=sys.stderr)
        sys.exit(int(os.environ['REFUSES'].split()[0]))
    print('best 1\\ngreedy 9\\nleast 8\\n' + os.environ.get('BREAKS', ''), end='')
print(open(%r + {'why': 'trace', 'best': 'report'}.get(mode, mode)).read(), end='')
'''


class Stand(Scratch):
    def setUp(self):
        super().setUp()
        self.script('lualatex', FAKE_LATEX % STORED)
        self.script('program', FAKE_PROGRAM % stored('notes.'))
        settings = {'PATH': self.folder + os.pathsep + os.environ['PATH'], 'GALLEY_PAGES': self.path('program')}
        patch = mock.patch.dict(os.environ, settings)
        patch.start()
        self.addCleanup(patch.stop)
        with open(self.path('my notes.tex'), 'w', encoding='utf-8') as out:
            out.write('text')

    def script(self, name, text):
        with open(self.path(name), 'w', encoding='utf-8') as out:
            out.write(text)
        os.chmod(self.path(name), 0o755)

    def paginate(self, *arguments):
        return run(paginate.main, *arguments, '--out', self.path('out of it'))


class Documents(Stand):
    def test_a_document_with_a_space_in_its_name(self):
        status, said = self.paginate(self.path('my notes.tex'))
        self.assertEqual(status, 0, said)
        self.assertIn('LaTeX, run 2 of at most 3\ngalleyexport: ', said)
        self.assertIn('3 pages are the same in every place\nmy notes: LaTeX made 3 pages', said)
        for name in ('pictures/index.html', 'my notes.why'):
            self.assertTrue(os.path.exists(self.path('out of it/' + name)), name)

    def test_auxiliary_files_of_an_earlier_call_save_a_run(self):
        for _ in range(2):
            self.paginate(self.path('my notes.tex'), '--no-pictures')
        with open(self.path('out of it/runs'), encoding='utf-8') as runs:
            self.assertEqual(runs.read().count('run'), 3)

    def test_an_auxiliary_file_that_changes_each_time(self):
        told = 'the auxiliary file has changed again'
        self.assertNotIn(told, self.paginate(self.path('my notes.tex'))[1])
        with mock.patch.dict(os.environ, CHANGES='1'):
            said = self.paginate(self.path('my notes.tex'))[1]
        self.assertIn('LaTeX, run 3 of at most 3\nLaTeX: ' + told, said)

    def test_why_no_galley_was_written(self):
        with mock.patch.dict(os.environ, FAILS='yes'):
            status, said = self.paginate(self.path('my notes.tex'))
        self.assertEqual(status, 2)
        self.assertIn("  ! LaTeX Error: File `none.sty' not found.\n  ! Emergency stop.\n", said)
        self.assertEqual(said.count('LaTeX, run'), 1)

    def test_wrong_arguments(self):
        for arguments in ([], ['a.tex', '--out'], ['a.tex', 'b.tex'], ['--none', 'a.tex']):
            with self.assertRaises(SystemExit) as ended:
                run(paginate.main, *arguments)
            self.assertEqual(ended.exception.code, 2)
        with self.assertRaises(SystemExit) as ended:
            run(paginate.main, '--help')
        self.assertEqual(ended.exception.code, 0)
        self.assertEqual(self.paginate(self.path('none.tex'))[0], 2)

    def test_names(self):
        for path, name in (('a/b.tex', 'b'), ('b.ltx', 'b'), ('b.dtx', 'b.dtx'), ('a.b.tex', 'a.b')):
            self.assertEqual(latex_document.document_name(path), name)

    def test_what_an_earlier_call_made_is_taken_away(self):
        notes = latex_document.Document('a [b].tex', self.folder, '')
        for name in ('a [b].galley', 'a [b].chosen.why', 'a [b].aux', 'a b.galley', 'a [b] c.galley'):
            open(self.path(name), 'w', encoding='utf-8').close()
        notes.clean()
        self.assertEqual(sorted(name for name in os.listdir(self.folder) if name.startswith('a ')),
                         ['a [b] c.galley', 'a [b].aux', 'a b.galley'])


class Best(Stand):
    BREAK = 'break 60 page 1 after b\n'

    def best(self, **settings):
        with mock.patch.dict(os.environ, settings):
            return self.paginate(self.path('my notes.tex'), '--best')

    def test_no_break_is_put_in(self):
        status, said = self.best()
        self.assertEqual(status, 0, said)
        self.assertIn('\nno page break is put in: no choice of breaks has fewer demerits\n', said)
        self.assertEqual(said.count('LaTeX, run'), 2)
        self.assertTrue(os.path.exists(self.path('out of it/my notes.best')))

    def test_latex_runs_again_with_the_breaks(self):
        status, said = self.best(BREAKS=self.BREAK)
        self.assertEqual(status, 0, said)
        self.assertIn('\n1 page break is put in:\n  line 60, after b: ', said)
        self.assertIn('\ndemerits: 9 before, 8 now\n', said)
        self.assertRegex(said, r'\nTeX weighed (\d+) places, \1 were found the same; ')
        self.assertEqual(said.count('LaTeX, run'), 3)
        for name in ('chosen.galley', 'chosen.report', 'changes', 'report'):
            self.assertTrue(os.path.exists(self.path('out of it/my notes.' + name)), name)
        with open(self.path('out of it/galleyexport-document.tex'), encoding='utf-8') as wrapper:
            self.assertIn('{galleyexport}\\RequirePackage{galleybreaks}\\input', wrapper.read())
        with open(self.path('out of it/pictures/index.html'), encoding='utf-8') as page:
            self.assertIn('demerits: 9 before, 8 now', page.read())
        self.best()                             # what an earlier call chose is no break of the next one
        self.assertEqual(self.paginate(self.path('my notes.tex'))[0], 0)
        self.assertFalse(os.path.exists(self.path('out of it/my notes.best')))

    def test_breaks_that_latex_did_not_put_in(self):
        status, said = self.best(BREAKS=self.BREAK, PUT='galleybreaks: 0 of 1 page breaks were put in\n'
                                 'Package galleybreaks Warning: no page break after b: the text has changed.')
        self.assertEqual(status, 1)
        self.assertIn('\n0 of 1 page breaks were put in:\n  no page break after b: the text has changed.\n', said)
        status, said = self.best(BREAKS=self.BREAK, PUT='nothing')
        self.assertEqual(status, 1)
        self.assertIn('\nno page break was put in: see ', said)

    def test_refusals(self):
        for refuses, told in (('16 more than 1000000 states', 'my notes.galley: there are too many choices of breaks'),
                              ('2 words refused', 'my notes.galley: this galley_pages has no mode best'),
                              ('11 node limit at 7', 'my notes.galley: node limit at 7\n')):
            status, said = self.best(REFUSES=refuses)
            self.assertEqual(status, 4)
            self.assertIn('paginate: no breaks were chosen: ', said)
            self.assertIn(told, said)


if __name__ == '__main__':
    unittest.main()
