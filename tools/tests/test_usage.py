#!/usr/bin/env python3
"""Tests that each script answers --help, and refuses what it does not take with status 2. Run by tools/test."""
import os
import subprocess
import tempfile
import unittest
from concurrent.futures import ThreadPoolExecutor

HERE = os.path.dirname(os.path.abspath(__file__))
TOP = os.path.normpath(os.path.join(HERE, os.pardir, os.pardir))

# Scripts that are read by others alone.
READ = ('bench/usage.sh', 'bench/fail_alloc.py')


def scripts():
    """The scripts that people run."""
    found = ['.ci/run', '.ci/checks', 'examples/run']
    for folder in ('bench', 'tools'):
        for name in sorted(os.listdir(os.path.join(TOP, folder))):
            path = os.path.join(folder, name)
            if os.path.isfile(os.path.join(TOP, path)) and path not in READ:
                with open(os.path.join(TOP, path), 'rb') as file:
                    found += [path] * file.read(2).startswith(b'#!')
    return found


def answer(script, word):
    """The status of a script, what it wrote, what it said, and the files that it left behind."""
    with open(os.path.join(TOP, script), 'rb') as file:
        runner = 'bash' if b'bash' in file.readline() else 'python3'
    with tempfile.TemporaryDirectory() as folder:
        ran = subprocess.run([runner, os.path.join(TOP, script), word], cwd=folder, stdin=subprocess.DEVNULL,
                             stdout=subprocess.PIPE, stderr=subprocess.PIPE, text=True, timeout=60, check=False)
        return ran.returncode, ran.stdout, ran.stderr, os.listdir(folder)


class Usage(unittest.TestCase):
    def answers(self, word):
        with ThreadPoolExecutor(os.cpu_count()) as pool:
            return zip(scripts(), pool.map(lambda script: answer(script, word), scripts()))

    def test_help(self):
        for word in ('--help', '-h'):
            for script, (status, out, said, left) in self.answers(word):
                self.assertEqual((status, said, left), (0, '', []), script)
                self.assertIn('usage: ', out, script)

    def test_an_option_that_is_none(self):
        for script, (status, out, said, left) in self.answers('--nothing-known'):
            self.assertEqual((status, out, left), (2, '', []), script)
            self.assertNotEqual(said, '', script)


if __name__ == '__main__':
    unittest.main()
