"""What program this is: the commit of its sources, the toolchain, and whether it is proved."""
import subprocess

from . import program


def commit():
    """The commit of the sources, with a word if files differ from it."""
    def git(*words):
        ran = subprocess.run(['git', '-C', program.TOP] + list(words), stdout=subprocess.PIPE,
                             stderr=subprocess.DEVNULL, text=True, check=False)
        return ran.stdout.strip() if ran.returncode == 0 else ''
    try:
        number = git('rev-parse', '--short=12', 'HEAD')
        changed = git('status', '--porcelain', '--untracked-files=no')
    except OSError:
        number = changed = ''
    return (number or 'unknown') + (' with changes' if changed else '')


def state(used):
    """What is known of a program: its commit, the toolchain's line, and whether it is proved."""
    known = program.installed()
    if known:
        return known
    proved = 'not built yet'
    if used is not None:
        proved = {True: 'proved', False: 'not proved', None: 'named by GALLEY_PAGES'}[used.proved]
    return {'commit': commit(), 'toolchain': program.kit(), 'program': proved}


def version():
    known = state(program.named() or program.installed_program() or program.kept())
    return 'galley-pages, commit %s\ntoolchain %s\nprogram: %s\n' % (known['commit'], known['toolchain'], known['program'])
