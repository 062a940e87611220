"""What the tests of the tools share: stored files, a folder of its own for each test, running a tool, and running the
commands of a page of the documents."""
import contextlib
import io
import os
import re
import shutil
import subprocess
import sys
import tempfile
import unittest

HERE = os.path.dirname(os.path.abspath(__file__))
STORED = os.path.join(HERE, 'stored')
TOP = os.path.normpath(os.path.join(HERE, os.pardir, os.pardir))
DOCUMENT = os.path.join(TOP, 'examples', 'document')
PACKAGE = os.path.join(HERE, os.pardir, 'galleyexport')
PROGRAM = os.environ.get('GALLEY_PAGES')
sys.path.insert(0, os.path.join(HERE, os.pardir))

from pagetools import compare, tries  # noqa: E402


def stored(name):
    return os.path.join(STORED, name)


def document(name):
    return os.path.join(DOCUMENT, name)


def run(main, *arguments):
    """The exit status of a tool and what it printed."""
    out = io.StringIO()
    with contextlib.redirect_stdout(out), contextlib.redirect_stderr(out):
        status = main(list(arguments))
    return status, out.getvalue()


def is_installed(file):
    """Whether TeX finds the file; False where there is no TeX."""
    return bool(shutil.which('kpsewhich')) and subprocess.run(
        ['kpsewhich', file], stdout=subprocess.DEVNULL, check=False).returncode == 0


class Folder:
    """A copy of some inputs, with the program that GALLEY_PAGES names and the command on the path."""

    def __init__(self, inputs):
        self.source = inputs

    def __enter__(self):
        self.folder = tempfile.mkdtemp()
        names = os.path.join(self.folder, 'bin')
        os.mkdir(names)
        os.symlink(os.path.abspath(PROGRAM), os.path.join(names, 'galley_pages'))
        os.symlink(os.path.join(TOP, 'tools', 'galley-pages'), os.path.join(names, 'galley-pages'))
        self.inputs = os.path.join(self.folder, 'inputs')
        shutil.copytree(self.source, self.inputs)
        self.environment = {**os.environ, 'PATH': names + ':' + os.environ['PATH'], 'LC_ALL': 'C.UTF-8',
                            'GALLEY_PAGES': os.path.abspath(PROGRAM)}
        return self

    def __exit__(self, *_):
        shutil.rmtree(self.folder)

    def run(self, command):
        """The status of a command, and all that it writes."""
        ran = subprocess.run(['bash', '-c', command], cwd=self.inputs, env=self.environment, stdin=subprocess.DEVNULL,
                             stdout=subprocess.PIPE, stderr=subprocess.STDOUT, encoding='utf-8', check=False)
        return ran.returncode, ran.stdout

    def block(self, block):
        """A block of commands with what they write, and their statuses."""
        commands = re.findall(r'^\$ (.*)$', block, re.M)
        ran = [self.run(command) for command in commands]
        text = ''.join('$ %s\n%s' % (command, said) for command, (_, said) in zip(commands, ran))
        return text, [status for status, _ in ran]


class Scratch(unittest.TestCase):
    """A test with a folder of its own, and changed copies of stored files."""

    def setUp(self):
        self.folder = tempfile.mkdtemp()
        self.addCleanup(shutil.rmtree, self.folder)

    def path(self, name):
        return os.path.join(self.folder, name)

    def changed(self, source, old, new):
        """A copy of the file with the first `old` replaced."""
        with open(source, encoding='latin-1') as file:
            text = file.read()
        self.assertIn(old, text)
        path = self.path(os.path.basename(source))
        with open(path, 'w', encoding='latin-1') as file:
            file.write(text.replace(old, new, 1))
        return path


class Latex(Scratch):
    """A test that compiles documents with the exporter."""

    def export(self, text, name='test', options='', preamble='', document_class='article'):
        """Compiles a document with the exporter. Gives LaTeX's log."""
        with open(self.path(name + '.tex'), 'w', encoding='utf-8') as out:
            out.write(r'\documentclass[%s]{%s}\usepackage[trace]{galleyexport}\makeatletter %s\makeatother'
                      r'\begin{document}%s\end{document}' % (options, document_class, preamble, text))
        subprocess.run(['lualatex', '-interaction=nonstopmode', name + '.tex'], cwd=self.folder, check=False,
                       stdin=subprocess.DEVNULL, stdout=subprocess.DEVNULL, stderr=subprocess.DEVNULL, timeout=300,
                       env=dict(os.environ, TEXINPUTS='.:%s:' % PACKAGE, max_print_line='100000'))
        return self.read(name + '.log')

    def read(self, name):
        with open(self.path(name), encoding='utf-8', errors='replace') as file:
            return file.read()

    def lines(self, name='test.galley'):
        """The lines of a galley but `set` lines and comments."""
        return [line for line in self.read(name).splitlines() if not line.startswith(('set ', '#'))]

    def assert_pages(self):
        """The program makes LaTeX's pages of test.galley, in every place."""
        if not PROGRAM:
            return
        with open(self.path('test.galley'), 'rb') as galley, open(self.path('test.report'), 'wb') as out:
            subprocess.run([PROGRAM], stdin=galley, stdout=out, check=True)
        status, said = run(compare.main, self.path('test.pages'), self.path('test.report'))
        self.assertEqual(status, 0, said)

    def assert_places(self):
        """The program weighs the same places as TeX, in test.galley."""
        if not PROGRAM:
            return
        with open(self.path('test.galley'), 'rb') as galley, open(self.path('test.trace'), 'wb') as out:
            subprocess.run([PROGRAM, '--mode', 'trace'], stdin=galley, stdout=out, check=True)
        status, said = run(tries.main, self.path('test.log'), self.path('test.trace'), '--quiet')
        self.assertEqual(status, 0, said)
