"""Runs tools/paginate on our own paper and on documents that the system's packages bring, and prints a table."""
import argparse
import gzip
import os
import shutil
import signal
import subprocess
import sys
import tempfile

from . import check_best, check_rows, check_spreads, tries

USAGE = """Runs tools/paginate on the paper in examples/document and on the documents of tools/documents that are
installed, and prints how many of their pages are the same as LaTeX's: a table for tools/README.md. The exit status is 0
if every page of the paper is the same, its stored report is what the program writes, and every document was
paginated, without a change to what LaTeX weighs (one more run, without the exporter, shows that). With --best it runs
tools/paginate --best, and the table tells the sums of demerits before and with the best page breaks, how many breaks and
bad columns these are, and how many of the chosen pages LaTeX made; with --best --spreads the same with spreads."""

TOOLS = os.path.dirname(os.path.dirname(os.path.abspath(__file__)))
EXAMPLE = os.path.join(TOOLS, os.pardir, 'examples', 'document')
PAPER = os.path.join(EXAMPLE, 'paper.tex')
class Document:
    """A line of tools/documents: the Debian package, the path below the TeX tree, and code that is to stand before."""

    def __init__(self, package, path, code):
        self.package, self.path, self.code = package, path, code
        self.name = os.path.splitext(os.path.basename(path))[0]


def documents(path):
    with open(path, encoding='utf-8') as lines:
        for line in lines:
            words = line.split(None, 2)
            if words and not words[0].startswith('#'):
                yield Document(words[0], words[1], words[2].strip() if len(words) > 2 else '')


def tree():
    told = subprocess.run(['kpsewhich', '-var-value', 'TEXMFDIST'], stdout=subprocess.PIPE, check=True)
    return told.stdout.decode().strip()


def unpacked(document, root, folder):
    """A copy of the document in the folder, with what stands beside it, since Debian packs sources; None if it is not
    installed."""
    source = os.path.join(root, document.path)
    if not os.path.exists(source) and not os.path.exists(source + '.gz'):
        return None
    beside = os.path.dirname(source)
    for name in os.listdir(beside):
        path, target = os.path.join(beside, name), os.path.join(folder, name)
        if name.endswith('.gz'):
            with gzip.open(path) as packed, open(target[:-3], 'wb') as out:
                shutil.copyfileobj(packed, out)
        else:
            os.symlink(path, target)
    return os.path.join(folder, document.name + '.tex')


def output(command, seconds, **options):
    """What a command and all that it started say within so many seconds."""
    with subprocess.Popen(command, stdin=subprocess.DEVNULL, stdout=subprocess.PIPE, stderr=subprocess.STDOUT,
                          start_new_session=True, **options) as process:
        try:
            said, _ = process.communicate(timeout=seconds)
        except subprocess.TimeoutExpired:
            os.killpg(process.pid, signal.SIGKILL)
            return '%s: it took more than %d seconds\n' % (os.path.basename(command[0]), seconds)
    return said.decode('utf-8', 'replace')


def paginate(source, out, code, options):
    """What tools/paginate says of the document."""
    command = [os.path.join(TOOLS, 'paginate'), source, '--out', out, '--no-pictures']
    command += ['--best'] * options.best + ['--spreads'] * options.spreads
    return output(command + (['--before', code] if code else []), options.seconds)


def weighed(log):
    """The lines of \\tracingpages in a log, as they stand."""
    with open(log, encoding='utf-8', errors='replace') as lines:
        text = lines.read().partition(tries.BEGIN)[2]
    return [line for line in text.splitlines() if line.startswith('% t=')]


def change_by_export(source, out, code, scratch, seconds):
    """What the exporter changes in the places that LaTeX weighs, '' for nothing. The auxiliary files of the run without it
    are those of the run with it."""
    name = os.path.splitext(os.path.basename(source))[0]
    folder = tempfile.mkdtemp(dir=scratch)
    for file in os.listdir(out):
        if not file.endswith(('.pdf', '.log', '.galley', '.report', '.trace', '.pages')):
            shutil.copy(os.path.join(out, file), folder)
    with open(os.path.join(folder, 'plain.tex'), 'w', encoding='utf-8') as wrapper:
        wrapper.write('%s\\AddToHook{begindocument/end}{\\tracingpages1 \\tracingonline0 \\wlog{%s}}\\input{%s}\n' % (
            code, tries.BEGIN, os.path.abspath(source)))
    paths = {'TEXINPUTS': '.:%s:' % os.path.dirname(os.path.abspath(source)), 'max_print_line': '100000'}
    said = output(['lualatex', '-interaction=nonstopmode', '-jobname=' + name, 'plain.tex'], seconds, cwd=folder,
                  env=dict(os.environ, **paths))
    log = os.path.join(folder, name + '.log')
    if not os.path.exists(log):
        return 'LaTeX wrote no log without the exporter:\n' + said
    same = weighed(log) == weighed(os.path.join(out, name + '.log'))
    return '' if same else 'LaTeX weighs other places without the exporter'


def stored_difference(program):
    """'' if the program's report on the stored galley of the paper is the stored one, else what differs."""
    with open(os.path.join(EXAMPLE, 'paper.galley'), 'rb') as galley:
        report = subprocess.run([program], stdin=galley, stdout=subprocess.PIPE, check=False).stdout
    with open(os.path.join(EXAMPLE, 'paper.report'), 'rb') as stored:
        return '' if report == stored.read() else 'examples/document/paper.report is not what the program writes'


def show(cells):
    print('| %s |' % ' | '.join(cells), flush=True)


class Table:
    """The rows of all documents, and what failed."""

    def __init__(self, options, scratch):
        self.options, self.scratch = options, scratch
        self.out = options.out or os.path.join(scratch, 'out')
        self.form = check_spreads if options.spreads else check_best if options.best else check_rows
        self.rows, self.missing, self.failed = [], [], []
        show(self.form.HEADER)
        show(['---'] * len(self.form.HEADER))

    def take(self, document, root):
        """A row for a document of the list, or for our own paper (None)."""
        name = document.name if document else 'our paper'
        source = unpacked(document, root, tempfile.mkdtemp(dir=self.scratch)) if document else PAPER
        if not source:
            self.missing.append('%s (package %s)' % (name, document.package))
            return
        code, own = document.code if document else '', os.path.join(self.out, name.replace(' ', '-'))
        said = paginate(source, own, code, self.options)
        cells = self.form.row(name, said)
        if cells:
            self.rows.append(cells)
            show(cells)
        if not cells or (not document and not self.form.is_whole(cells)):
            self.failed.append((name, said))
        elif not self.options.best:
            changed = change_by_export(source, own, code, self.scratch, self.options.seconds)
            if changed:
                self.failed.append((name, changed))

    def finish(self):
        """The sums, and what failed. Gives the exit status."""
        if self.rows:
            show(self.form.total(self.rows))
        for name in self.missing:
            print('not installed: ' + name)
        for name, said in self.failed:
            print('%s: %s' % (name, '\n'.join(said.strip().splitlines()[-6:])))
        return 1 if self.failed else 0


def main(arguments):
    parser = argparse.ArgumentParser(prog='check', description=USAGE)
    parser.add_argument('names', nargs='*', help='these documents alone')
    parser.add_argument('--best', action='store_true', help='with tools/paginate --best: what the best page breaks change')
    parser.add_argument('--spreads', action='store_true', help='with --best: with spreads that are longer or shorter too')
    parser.add_argument('--documents', default=os.path.join(TOOLS, 'documents'), help='another list of documents')
    parser.add_argument('--out', help='keep all files in this folder')
    parser.add_argument('--seconds', type=int, default=900, help='how long one document may take (900)')
    options = parser.parse_args(arguments)
    if options.spreads and not options.best:
        parser.error('--spreads needs --best')
    if not shutil.which('lualatex'):
        print('check: lualatex is not installed (Debian: texlive-luatex, texlive-latex-recommended)', file=sys.stderr)
        return 3
    program = subprocess.run([os.path.join(TOOLS, 'program')], stdout=subprocess.PIPE, check=True).stdout.decode().strip()
    os.environ['GALLEY_PAGES'] = program
    with tempfile.TemporaryDirectory() as scratch:
        table = Table(options, scratch)
        if stored_difference(program):
            table.failed.append(('the stored example', stored_difference(program)))
        for document in [None] + list(documents(options.documents)):
            if not options.names or (document.name if document else 'our paper') in options.names:
                table.take(document, tree())
        return table.finish()
