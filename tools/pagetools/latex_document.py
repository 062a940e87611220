"""A LaTeX document that is compiled with the package galleyexport, in a folder of its own."""
import filecmp
import glob
import os
import shutil
import subprocess
import sys

from . import report

TOOLS = os.path.dirname(os.path.dirname(os.path.abspath(__file__)))
WRAPPER = 'galleyexport-document.tex'        # what LaTeX reads: the package, and the document
MOST_RUNS = 3
SHOWN_ERRORS = 3

# What an earlier call made, but for LaTeX's own files.
MADE = ('.galley', '.galleymap', '.galleylog', '.pages', '.report', '.trace', '.why', '.best', '.spreads', '.chosen.galley',
        '.chosen.report', '.chosen.trace', '.chosen.why')


class Refusal(Exception):
    """Why no pages are made, and the exit status."""

    def __init__(self, text, status=2):
        super().__init__(text)
        self.status = status


def say(text):
    """A line of progress."""
    print(text, file=sys.stderr, flush=True)


def document_name(path):
    """The name of a document's files: that of its source without .tex or .ltx."""
    name, extension = os.path.splitext(os.path.basename(path))
    return name if extension in ('.tex', '.ltx') else name + extension


class Document:
    """A document and the folder of its files. With `breaks` the page breaks of its file NAME.best are put in."""

    def __init__(self, source, out, before):
        self.source, self.before, self.breaks = os.path.realpath(source), before, False
        self.name = document_name(source)
        # a folder that begins with a hyphen is no option of a tool
        self.out = os.path.normpath(os.path.join(os.curdir, out or self.name + '.paginated'))
        if self.out.startswith('-'):
            self.out = os.path.join(os.curdir, self.out)

    def path(self, ending):
        return os.path.join(self.out, self.name + ending)

    def clean(self):
        """Takes away what an earlier call made, but for LaTeX's auxiliary files."""
        made = [self.path(ending) for ending in MADE]
        made += glob.glob(os.path.join(glob.escape(self.out), 'pictures', 'page*.svg'))
        for path in made:
            if os.path.exists(path):
                os.remove(path)

    # ---- LaTeX

    def run_latex(self):
        """One run of LaTeX. What it says on the terminal goes to a file."""
        with open(os.path.join(self.out, WRAPPER), 'w', encoding='utf-8') as out:
            # the path comes from the environment, since it may have any letter
            out.write('%s\\RequirePackage[trace]{galleyexport}%s\\input{\\directlua{tex.sprint(-2,os.getenv("GALLEY_SOURCE"))}}\n'
                      % (self.before, '\\RequirePackage{galleybreaks}' if self.breaks else ''))
        folders = ['.', os.path.join(TOOLS, 'galleyexport'), os.path.dirname(self.source), os.environ.get('TEXINPUTS', '')]
        settings = {'TEXINPUTS': ':'.join(folders), 'max_print_line': '100000', 'GALLEY_SOURCE': self.source}
        with open(self.path('.terminal'), 'wb') as terminal:
            subprocess.run(['lualatex', '-interaction=nonstopmode', '-jobname=' + self.name, WRAPPER], cwd=self.out,
                           stdin=subprocess.DEVNULL, stdout=terminal, stderr=subprocess.STDOUT, check=False,
                           env=dict(os.environ, **settings))

    def compile(self):
        """Runs LaTeX until its auxiliary file stays the same. That of an earlier call counts too."""
        aux, last = self.path('.aux'), self.path('.aux.last')
        for run in range(1, MOST_RUNS + 1):
            if os.path.exists(aux):
                shutil.copy(aux, last)
            say('LaTeX, run %d of at most %d' % (run, MOST_RUNS))
            self.run_latex()
            if not os.path.exists(aux) or os.path.exists(last) and filecmp.cmp(aux, last, shallow=False):
                break
        else:
            say('LaTeX: the auxiliary file has changed again, so the next call may give other pages')
        if os.path.exists(last):
            os.remove(last)
        self._check()

    def log_lines(self, start):
        """The lines of LaTeX's log that begin with these letters."""
        if not os.path.exists(self.path('.log')):
            return []
        with open(self.path('.log'), encoding='utf-8', errors='replace') as log:
            return [line.rstrip() for line in log if line.startswith(start)]

    def _check(self):
        """Raises why LaTeX's last run wrote no galley or made no page. Else tells how many errors TeX reported."""
        errors, is_written = self.log_lines('!'), os.path.exists(self.path('.galley'))
        if not is_written or not report.read(self.path('.pages')).pages:
            what = 'LaTeX made no page' if is_written else 'no galley was written'
            shown = errors[-SHOWN_ERRORS:] + self.log_lines('Package galleyexport Warning')
            told = ''.join('\n  ' + line for line in shown) or ' none'
            raise Refusal('%s; the last errors in %s:%s' % (what, self.path('.log'), told))
        if errors:
            print('TeX reported %d error%s, the first: %s (see %s)' % (
                len(errors), 's' if len(errors) > 1 else '', errors[0], self.path('.log')))
