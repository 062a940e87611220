"""Tests of the package galleybreaks on small documents, where LuaLaTeX is installed; else they are left out. Run by
tools/test."""
import os
import re
import shutil
import subprocess
import unittest

from support import HERE, Scratch

PACKAGE = os.path.join(HERE, os.pardir, 'galleyexport')
TEXT = ''.join(r'Paragraph %s with words.\par ' % 'ABCDEFGH'[k] for k in range(8))


@unittest.skipUnless(shutil.which('lualatex'), 'no lualatex')
class Breaks(Scratch):
    def latex(self, text, name='test'):
        """Compiles a document with the package. Gives LaTeX's log."""
        with open(self.path(name + '.tex'), 'w', encoding='utf-8') as out:
            out.write(r'\documentclass{article}\usepackage{galleybreaks}\begin{document}%s\end{document}' % text)
        subprocess.run(['lualatex', '-interaction=nonstopmode', name + '.tex'], cwd=self.folder, check=False,
                       stdin=subprocess.DEVNULL, stdout=subprocess.DEVNULL, stderr=subprocess.DEVNULL, timeout=300,
                       env=dict(os.environ, TEXINPUTS='.:%s:' % PACKAGE, max_print_line='100000'))
        return self.read(name + '.log')

    def read(self, name):
        with open(self.path(name), encoding='utf-8', errors='replace') as file:
            return file.read()

    def choose(self, *words, name='test'):
        """Writes NAME.best: a break before the first glue after each box whose name ends with the word."""
        lines, out = self.read(name + '.galley').splitlines(), ['best 1', 'greedy 2', 'least 1']
        for word in words:
            at = next(k for k, line in enumerate(lines) if line.startswith('box ') and word in line)
            glue = next(k for k in range(at, len(lines)) if lines[k].startswith('glue '))
            out.append('break %d page 1 after %s' % (glue + 1, lines[at].split()[1]))
        with open(self.path(name + '.best'), 'w', encoding='utf-8') as file:
            file.write('\n'.join(out + ['report 1', '']))

    def pages(self, name='test'):
        """The words of the boxes on each page."""
        found = self.read(name + '.pages').split('\npage ')[1:]
        return [''.join(re.findall(r'box b\d+\.Paragraph-(\w)', page)) for page in found]

    def test_the_breaks_are_put_in_and_the_galley_stays(self):
        self.latex(TEXT)
        self.assertEqual(self.pages(), ['ABCDEFGH'])
        galley = self.read('test.galley')
        self.choose('Paragraph-B', 'Paragraph-F')
        for _ in range(2):
            self.assertIn('galleybreaks: 2 of 2 page breaks were put in', self.latex(TEXT))
            self.assertEqual(self.pages(), ['AB', 'CDEF', 'GH'])
            self.assertEqual(self.read('test.galley'), galley)

    def test_no_breaks_are_no_word(self):
        log = self.latex(TEXT, name='two words')
        self.assertNotIn('galleybreaks:', log)
        self.choose('Paragraph-C', name='two words')
        self.assertIn('galleybreaks: 1 of 1 page breaks were put in', self.latex(TEXT, name='two words'))
        self.assertEqual(self.pages('two words'), ['ABC', 'DEFGH'])

    def test_a_break_after_changed_text_is_left_out(self):
        self.latex(TEXT)
        self.choose('Paragraph-B', 'Paragraph-F')
        log = self.latex(TEXT.replace('Paragraph D', 'One more.\\par Paragraph D'))
        self.assertIn('galleybreaks: 1 of 2 page breaks were put in', log)
        self.assertRegex(log, r'Package galleybreaks Warning: no page break after b\d+\.Paragraph-F-with-words\.: the text')
        self.assertEqual(self.pages(), ['AB', 'CDEFGH'])

    def test_after_a_float(self):
        figure = r'\begin{figure}[b]\vbox to 1cm{}\caption{A}\end{figure}'
        text = TEXT.replace('Paragraph D with', 'Paragraph D ' + figure + 'with')
        self.latex(text)
        self.choose('Paragraph-D')
        self.assertIn('galleybreaks: 1 of 1 page breaks were put in', self.latex(text))
        self.assertEqual(self.pages(), ['ABCD', 'EFGH'])

    def spread(self, *places):
        """Writes NAME.spreads: each page is so much higher that has the box whose name ends with the word."""
        lines, out = self.read('test.galley').splitlines(), ['spreads 1', 'greedy 3', 'breaks 2', 'least 1']
        for word, size in places:
            at = next(k for k, line in enumerate(lines) if line.startswith('box ') and word in line)
            out.append('enlarge %d page 1 by %d before %s' % (at + 1, size, lines[at].split()[1]))
        with open(self.path('test.spreads'), 'w', encoding='utf-8') as file:
            file.write('\n'.join(out + ['']))

    def heights(self):
        """The heights of all columns, less that of the first one."""
        found = [int(it) for it in re.findall(r'^column \d text height (\d+)', self.read('test.pages'), re.M)]
        return [it - found[0] for it in found]

    def test_the_pages_of_a_spread_are_higher_and_the_galley_stays(self):
        text = TEXT.replace('Paragraph C', r'\newpage Paragraph C').replace('Paragraph F', r'\newpage Paragraph F')
        self.latex(text)
        galley = self.read('test.galley')
        self.choose('Paragraph-A')              # is not read where there are spreads
        self.spread(('Paragraph-D', 786432), ('Paragraph-G', -786432))
        for _ in range(2):
            log = self.latex(text)
            self.assertIn('galleybreaks: 2 of 2 columns were made longer or shorter', log)
            self.assertNotIn('page breaks were put in', log)
            self.assertEqual((self.pages(), self.heights()), (['AB', 'CDE', 'FGH'], [0, 786432, -786432]))
            self.assertEqual(self.read('test.galley'), galley)

    def test_a_spread_after_changed_text_is_left_out(self):
        text = TEXT.replace('Paragraph C', r'\newpage Paragraph C')
        self.latex(text)
        self.spread(('Paragraph-D', 786432))
        log = self.latex(text.replace('Paragraph A', 'One more.\\par Paragraph A'))
        self.assertIn('galleybreaks: 0 of 1 columns were made longer or shorter', log)
        self.assertRegex(log, r'Package galleybreaks Warning: no other height at b\d+\.Paragraph-D-with-words\.: the text')
        self.assertEqual(self.heights(), [0, 0])

    def test_every_line_of_the_map_is_a_line_of_the_galley(self):
        self.latex(r'\section{A}Words.\footnote{A note.}\clearpage ' + TEXT)
        lines = self.read('test.galley').splitlines()
        seen = 0
        for at, number in re.findall(r'^(\d+) (\d+)$', self.read('test.galleymap'), re.M):
            word, *rest = lines[int(at) - 1].split()
            self.assertNotIn(word, ('galley', 'set', '#', 'end'))
            if word == 'box':
                self.assertRegex(rest[0], r'^[bve]%s(\.|$)' % number)
                seen += 1
        self.assertGreater(seen, 8)


if __name__ == '__main__':
    unittest.main()
