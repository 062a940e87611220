#!/usr/bin/env python3
"""Runs each command of docs/MESSAGES.md and compares what it writes with the page. Run by tools/test, if GALLEY_PAGES names the
program.

usage: GALLEY_PAGES=PROGRAM tools/tests/test_messages.py --write    writes what they do write into the page
"""
import os
import re
import sys
import unittest
from concurrent.futures import ThreadPoolExecutor

from support import HERE, PROGRAM, TOP, Folder

from pagetools import messages

PAGE = os.path.join(TOP, 'docs', 'MESSAGES.md')
INPUTS = os.path.join(HERE, 'messages')

# A message of the page: its name, its status, and the block of its commands.
MESSAGE = re.compile(r'\*\*([^*]+)\*\* \((\d+)\)\. ([^\n]*)\n```\n(.*?)```\n', re.S)


def page():
    with open(PAGE, encoding='utf-8') as file:
        return file.read()


class Messages(unittest.TestCase):
    @unittest.skipUnless(PROGRAM, 'GALLEY_PAGES names no program')
    def test_the_page_is_what_is_seen(self):
        found = MESSAGE.findall(page())
        with Folder(INPUTS) as folder, ThreadPoolExecutor(os.cpu_count()) as pool:
            ran = pool.map(folder.block, [it[3] for it in found])
            for (name, status, _, block), (text, statuses) in zip(found, ran):
                self.assertEqual(text, block, name)
                self.assertEqual(set(statuses), {int(status)}, name)

    def test_the_page_has_each_message(self):
        names = {it[0] for it in MESSAGE.findall(page())}
        names |= set(re.findall(r'^\*\*(\w+)\*\* \(\d+\)\..*no input of it is kept', page(), re.M))
        others = {'Files and options', 'No program'}
        self.assertEqual(names - others, {*messages.CAUSES, *messages.DVI_CAUSES, *messages.OTHERS})

    def test_the_causes_are_those_of_the_code(self):
        for crate, file, known in (('tb_galley', 'fault_text.rt', messages.CAUSES), ('tb_dvi', '', messages.DVI_CAUSES)):
            folder = os.path.join(TOP, 'crates', crate, 'src')
            found = set()
            for name in [file] if file else os.listdir(folder):
                if not name.endswith('.rt'):
                    continue
                with open(os.path.join(folder, name), encoding='utf-8') as code:
                    found |= set(re.findall(r'Cause::(\w+) => b"\1"', code.read()))
            self.assertEqual(found, set(known), crate)

    def test_each_input_is_used(self):
        for name in os.listdir(INPUTS):
            self.assertIn(name, page())


def write():
    """Writes the page with what its commands write."""
    with Folder(INPUTS) as folder:
        text = MESSAGE.sub(lambda it: it[0].replace('```\n' + it[4], '```\n' + folder.block(it[4])[0]), page())
    with open(PAGE, 'w', encoding='utf-8') as file:
        file.write(text)


if __name__ == '__main__':
    if sys.argv[1:] == ['--write']:
        write() if PROGRAM else sys.exit(__doc__)
    else:
        unittest.main()
