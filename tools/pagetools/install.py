"""Installs the program, the command, its completions, the manual page and the LaTeX package, and takes them away again."""
import argparse
import hashlib
import json
import os
import shutil
import subprocess
import sys

from . import about, program

WHO = 'tools/install'
USAGE = """usage: tools/install [PREFIX] [--proved] [--texmf FOLDER]
       tools/install --remove [PREFIX]

Installs below PREFIX, which is /usr/local for root and else ~/.local:
  bin/galley_pages, bin/galley-pages            the program and the command
  share/galley_pages/                           the command's modules, and what was installed
  share/man/man1/                               the manual page of both
  share/texmf/tex/lualatex/galleyexport/        the LaTeX package, or below FOLDER in place of share/texmf
  share/bash-completion, share/zsh              completions

It installs the proved program if it was built from these sources, and else one that is not proved, which takes two
minutes to build. With --proved the proved one is built first, which takes about half an hour, once. What is there already
as it should be is left alone, and a file that is not its own is never written over. --remove takes away all that was
installed, and the folders that were made for it. The status is 1 if it can't be done, 2 after a usage error.
"""

# The modules that the command needs.
MODULES = ('__init__', 'about', 'best', 'best_words', 'command', 'galley', 'messages', 'points', 'program', 'report',
           'settings', 'spread_words', 'spreads', 'story', 'tries', 'why', 'why_data', 'why_tries', 'why_words')
SHARED = 'share/galley_pages'
MANUAL = 'share/man/man1'


class Refused(Exception):
    """What can't be done."""


def main(arguments):
    parser = argparse.ArgumentParser(prog=WHO, usage=USAGE[len('usage: '):], add_help=False, allow_abbrev=False)
    parser.add_argument('prefix', nargs='?', default='/usr/local' if os.geteuid() == 0 else os.path.expanduser('~/.local'))
    parser.add_argument('--proved', action='store_true')
    parser.add_argument('--texmf')
    parser.add_argument('--remove', action='store_true')
    parser.add_argument('-h', '--help', action='store_true')
    options = parser.parse_args(arguments)
    if options.help:
        print(USAGE, end='')
        return 0
    place = Place(os.path.abspath(options.prefix), options.texmf and os.path.abspath(options.texmf))
    try:
        if options.remove:
            place.remove()
        else:
            place.install(options.proved)
    except (Refused, program.NotBuilt) as fault:
        print('%s: %s' % (WHO, fault), file=sys.stderr)
        return 1
    except OSError as error:
        print('%s: %s: %s' % (WHO, error.filename, error.strerror), file=sys.stderr)
        return 1
    return 0


def sum_of(data):
    return hashlib.sha256(data).hexdigest()


def bytes_of(path):
    with open(path, 'rb') as file:
        return file.read()


def wanted(used, state, texmf):
    """All files to install: by their path below the prefix (or as a whole path) their bytes and whether they run."""
    tools = os.path.join(program.TOP, 'tools')
    state = dict(state, path='../../bin/galley_pages')
    found = {
        'bin/galley_pages': (bytes_of(used.path), True),
        'bin/galley-pages': (bytes_of(os.path.join(tools, 'galley-pages')), True),
        SHARED + '/installed.json': ((json.dumps(state, indent=1) + '\n').encode(), False),
        MANUAL + '/galley_pages.1': (bytes_of(os.path.join(program.TOP, 'docs', 'galley_pages.1')), False),
        MANUAL + '/galley-pages.1': (b'.so man1/galley_pages.1\n', False),
        'share/bash-completion/completions/galley-pages':
            (bytes_of(os.path.join(tools, 'completion', 'galley-pages.bash')), False),
        'share/zsh/site-functions/_galley-pages': (bytes_of(os.path.join(tools, 'completion', '_galley-pages')), False),
    }
    for module in MODULES:
        name = 'pagetools/%s.py' % module
        found['%s/%s' % (SHARED, name)] = (bytes_of(os.path.join(tools, name)), False)
    package = os.path.join(tools, 'galleyexport')
    for name in sorted(os.listdir(package)):
        if name.endswith(('.sty', '.lua')):
            found[os.path.join(texmf, 'tex/lualatex/galleyexport', name)] = (bytes_of(os.path.join(package, name)), False)
    return found


class Place:
    """A prefix, with what was installed there: the sum of each file, and the folders that were made."""

    def __init__(self, prefix, texmf):
        self.prefix = prefix
        self.texmf = texmf or 'share/texmf'
        self.record = self.path(SHARED + '/files.json')
        known = json.loads(bytes_of(self.record)) if os.path.isfile(self.record) else {}
        self.files, self.folders = known.get('files', {}), known.get('folders', [])

    def path(self, name):
        return os.path.join(self.prefix, name)

    def install(self, proved):
        used = program.find(proved, WHO)
        state = about.state(used)
        files = wanted(used, state, self.texmf)
        for name in files:
            if name not in self.files and os.path.lexists(self.path(name)):
                raise Refused('%s is there already, and was not installed by this script' % self.path(name))
        old = {name: it for name, it in self.files.items() if name not in files}
        sums = {name: sum_of(data) for name, (data, _) in files.items()}
        self.files = {**old, **sums}
        self.make_folder(os.path.dirname(self.record))
        self.keep_record()
        written = 0
        for name, (data, runs) in files.items():
            written += self.write(self.path(name), data, 0o755 if runs else 0o644)
        gone = sum(self.take_away(name, it) for name, it in old.items())
        self.files = sums
        self.keep_record()
        self.tell_tex(written + gone)
        if written and not self.finds_package():
            say('TeX finds the package if TEXMFHOME is set to %s' % self.path(self.texmf))
        what = 'changed nothing: all %d files are there already' % len(files)
        if written or gone:
            what = 'wrote %d of %d files' % (written, len(files)) + ', and removed %d old ones' % gone * (gone > 0)
        say('%s. The program is %s: %s' % (what, state['program'], self.path('bin/galley_pages')))

    def write(self, path, data, mode):
        """Writes a file unless it is there already. Returns whether it was written."""
        if os.path.isfile(path) and bytes_of(path) == data and os.stat(path).st_mode & 0o777 == mode:
            return False
        self.make_folder(os.path.dirname(path))
        with open(path + '.new', 'wb') as out:
            out.write(data)
        os.chmod(path + '.new', mode)
        os.replace(path + '.new', path)
        say('wrote ' + path)
        return True

    def make_folder(self, path):
        """Makes a folder, and those above that are absent, and keeps in mind which were made."""
        absent = []
        while not os.path.isdir(path):
            absent.append(path)
            path = os.path.dirname(path)
        for folder in reversed(absent):
            os.mkdir(folder)
            self.folders.append(folder)

    def keep_record(self):
        """Writes down what is installed, so that it can be taken away again."""
        text = json.dumps({'files': self.files, 'folders': self.folders}, indent=1) + '\n'
        if os.path.isfile(self.record) and bytes_of(self.record) == text.encode():
            return
        with open(self.record + '.new', 'w', encoding='utf-8') as out:
            out.write(text)
        os.replace(self.record + '.new', self.record)

    def take_away(self, name, known):
        """Removes a file that was installed, unless it was changed since. Returns whether it is gone."""
        path = self.path(name)
        if not os.path.isfile(path):
            return False
        if sum_of(bytes_of(path)) != known:
            say('left %s, which was changed since' % path)
            return False
        os.remove(path)
        say('removed ' + path)
        return True

    def remove(self):
        if not self.files:
            raise Refused('nothing was installed below %s' % self.prefix)
        gone = sum(self.take_away(name, it) for name, it in self.files.items())
        self.tell_tex(gone)
        os.remove(self.record)
        for folder in sorted(self.folders, key=len, reverse=True):
            if os.path.isdir(folder) and not os.listdir(folder):
                os.rmdir(folder)
        say('removed %d files below %s' % (gone, self.prefix))

    def tell_tex(self, changed):
        """Renews TeX's list of the files of this tree, where there is one."""
        texmf = self.path(self.texmf)
        if changed and os.path.exists(os.path.join(texmf, 'ls-R')) and shutil.which('mktexlsr'):
            subprocess.run(['mktexlsr', texmf], stdout=subprocess.DEVNULL, stderr=subprocess.DEVNULL, check=False)

    def finds_package(self):
        """Whether TeX looks for packages in the tree that was installed to; true also without TeX."""
        if shutil.which('kpsewhich') is None:
            return True
        ran = subprocess.run(['kpsewhich', '-expand-path=$TEXMF'], stdout=subprocess.PIPE, text=True, check=False)
        return self.path(self.texmf) in [os.path.normpath(it) for it in ran.stdout.strip().split(':')]


def say(text):
    print('%s: %s' % (WHO, text))
