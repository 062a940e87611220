#!/usr/bin/env python3
"""Runs each command of docs/BEST.md and compares what it writes with the page. Run by tools/test, if GALLEY_PAGES names the
program.

usage: GALLEY_PAGES=PROGRAM tools/tests/test_best_page.py --write    writes what they do write into the page
"""
import os
import re
import shutil
import sys
import unittest
from concurrent.futures import ThreadPoolExecutor

from support import PROGRAM, TOP, Folder

PAGE = os.path.join(TOP, 'docs', 'BEST.md')
INPUTS = os.path.join(TOP, 'examples', 'best')

# A block of commands with what they write.
BLOCK = re.compile(r'```\n(\$ .*?)```\n', re.S)


def page():
    with open(PAGE, encoding='utf-8') as file:
        return file.read()


class Galleys(Folder):
    """The galleys of examples/best, and the chapter of the examples."""

    def __enter__(self):
        super().__enter__()
        shutil.copy(os.path.join(TOP, 'examples', 'chapter.galley'), self.inputs)
        return self


class Page(unittest.TestCase):
    @unittest.skipUnless(PROGRAM, 'GALLEY_PAGES names no program')
    def test_the_page_is_what_is_seen(self):
        blocks = BLOCK.findall(page())
        with Galleys(INPUTS) as folder, ThreadPoolExecutor(os.cpu_count()) as pool:
            for block, (text, statuses) in zip(blocks, pool.map(folder.block, blocks)):
                self.assertEqual(text, block)
                self.assertEqual(set(statuses), {0}, block)

    def test_each_galley_is_told(self):
        for name in os.listdir(INPUTS):
            if name.endswith('.galley'):
                self.assertIn('$ galley-pages best %s\n' % name, page())


def write():
    """Writes the page with what its commands write."""
    with Galleys(INPUTS) as folder:
        text = BLOCK.sub(lambda it: '```\n%s```\n' % folder.block(it[1])[0], page())
    with open(PAGE, 'w', encoding='utf-8') as file:
        file.write(text)


if __name__ == '__main__':
    if sys.argv[1:] == ['--write']:
        write() if PROGRAM else sys.exit(__doc__)
    else:
        unittest.main()
