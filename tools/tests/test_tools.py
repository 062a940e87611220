"""Tests of the comparers and of the table of documents on stored files: what LaTeX and the program made of
stored/notes.tex and of the paper in examples/document. They need Python alone. Run by tools/test."""
import os
import subprocess
import tempfile
import unittest
import unittest.mock

from support import HERE, Scratch, document, run, stored

from pagetools import check, check_rows, compare, galley, places, report, tries


class Reports(Scratch):
    def test_a_report_is_read(self):
        notes = report.read(stored('notes.report'))
        self.assertEqual([page.kind for page in notes.pages], ['one', 'one', 'one'])
        first = notes.pages[0].columns[0]
        self.assertEqual((first.sign, first.amount, first.available, first.overfull), ('shrink', 95007, 131072, 0))
        self.assertEqual(first.footnotes_top(), 5670391)
        self.assertEqual(notes.end, 'end pages 3 boxes 19 floats 0 warnings 0')

    def test_floats_and_notes_are_read(self):
        paper = report.read(document('paper.report'))
        areas = {item.name: item.place for page in paper.pages for _, item in page.items() if item.kind == 'float'}
        self.assertEqual(areas['table.2'], 'wide')
        self.assertEqual(areas['figure.5'], 'page')
        self.assertEqual(paper.warnings, ['moved margin.5 1252000'])
        self.assertEqual([item.name for _, item in paper.pages[0].items() if item.kind == 'head'], ['title.1'])

    def test_places_are_read(self):
        pages = report.read(stored('notes.trace')).pages
        self.assertEqual(sum(len(page.tries) for page in pages), 17)
        self.assertEqual(pages[0].tries[-1].cost, '*')

    def test_an_overfull_column_is_read(self):
        path = self.changed(stored('notes.report'), 'set shrink 95007/131072', 'set shrink 1/1 overfull 20')
        self.assertEqual(report.read(path).pages[0].columns[0].overfull, 20)

    def test_a_line_that_is_none_is_told(self):
        path = self.changed(stored('notes.report'), 'footrule 5670391 26214 0', 'footrule 5670391')
        with self.assertRaisesRegex(report.ReportFault, 'line 11: no line of a page report: footrule 5670391'):
            report.read(path)
        with self.assertRaisesRegex(report.ReportFault, 'is no page report'):
            report.read(stored('notes.galley'))


class Comparisons(Scratch):
    def differ(self, old, new, difference):
        path = self.changed(document('paper.report'), old, new)
        status, said = run(compare.main, document('paper.pages'), path, '--quiet')
        self.assertEqual(status, 1)
        self.assertIn('first difference: ' + difference, said)
        return said

    def test_all_agrees(self):
        for pages, own in ((stored('notes.pages'), stored('notes.report')),
                           (document('paper.pages'), document('paper.report'))):
            status, said = run(compare.main, pages, own)
            self.assertEqual(status, 0)
            self.assertNotIn('difference', said)
            self.assertRegex(said, r'^\d pages are the same in every place\n')

    def test_the_totals(self):
        _, said = run(compare.main, document('paper.pages'), document('paper.report'), '--quiet')
        self.assertEqual(said, 'paper: LaTeX made 4 pages (8 columns), the report has 4; 4 agree in contents, '
                               '4 in glue set, 4 in every place; floats and notes in the same place 14 of 14; '
                               'footnote lines 22 of 22\n')

    def test_another_place(self):
        self.differ('box b12.Abstract 0 660603 5662', 'box b12.Abstract 1 660603 5662',
                    'page 1: box b12.Abstract in column 1: top 0, height 660603, depth 5662 in LaTeX, 1, 660603, 5662')

    def test_another_setting(self):
        said = self.differ('natural 27650577 set stretch normal 1827513/985266',
                           'natural 27650576 set stretch normal 1827514/985266',
                           'page 1: column 1: natural height 27650577, set stretch normal 1827513/985266 in LaTeX, 27650576')
        self.assertIn('4 agree in contents, 3 in glue set, 3 in every place', said)

    def test_another_area(self):
        said = self.differ('float figure.1 1 top', 'float figure.1 1 here',
                           'page 1: LaTeX has in column 2 float figure.1 top, the report in column 2 float figure.1 here')
        self.assertIn('floats and notes in the same place 13 of 14', said)

    def test_which_pages_are_listed(self):
        path = self.changed(document('paper.report'), 'float figure.1 1 top', 'float figure.1 1 here')
        _, said = run(compare.main, document('paper.pages'), path)
        self.assertEqual(said.splitlines()[1:3], ['   1  other     -         -       1',
                                                  '3 other pages are the same in every place'])
        _, said = run(compare.main, document('paper.pages'), path, '--every-page')
        self.assertEqual([line.split()[:2] for line in said.splitlines()[1:5]],
                         [['1', 'other'], ['2', 'same'], ['3', 'same'], ['4', 'same']])

    def test_a_line_on_another_side_of_a_break(self):
        self.differ('box b18.A-page', 'box b18.The-page', 'page 1: LaTeX has in column 1 box b18.A-page')

    def test_a_page_too_many(self):
        path = self.changed(stored('notes.report'), 'page 2 one',
                            'page 2 one\ncolumn 1 text height 1 natural 1 set none\npage 3 one')
        status, said = run(compare.main, stored('notes.pages'), path)
        self.assertEqual(status, 1)
        self.assertIn('the report has 4; 3 agree in contents', said)
        self.assertIn('first difference: page 2: the page stands in the report alone', said)

    def test_another_footnote_rule(self):
        path = self.changed(stored('notes.pages'), 'footrule 5670391 26214 0', 'footrule 5670391 52428 0')
        status, said = run(compare.main, path, stored('notes.report'))
        self.assertEqual(status, 1)
        self.assertIn('other rules', said)

    def test_warnings(self):
        with open(self.path('log'), 'w', encoding='latin-1') as log:
            log.write('LaTeX Warning: Marginpar on page 3 moved.\n')
        arguments = (compare.main, document('paper.pages'), document('paper.report'), '--log', self.path('log'), '--quiet')
        self.assertEqual(run(*arguments)[0], 0)
        with open(self.path('log'), 'w', encoding='latin-1') as log:
            log.write("galleyexport: page 1\ngalleyexport: waits figure.2\n"
                      "LaTeX Warning: `h' float specifier changed to `ht'.\n")
        status, said = run(*arguments)
        self.assertEqual(status, 1)
        self.assertIn('warnings differ: ht 1 in LaTeX (figure.2 page 2), ht 0 in the report, '
                      'moved 0 in LaTeX, moved 1 in the report (margin.5 page 3)', said)

    def test_files_that_cannot_be_read(self):
        self.assertEqual(run(compare.main, self.path('none'), stored('notes.report'))[0], 2)
        status, said = run(compare.main, stored('notes.galley'), stored('notes.report'))
        self.assertEqual((status, said.count('is no page report')), (2, 1))


class Commands(Scratch):
    def test_a_reader_that_stops(self):
        read, write = os.pipe()
        os.close(read)
        tool = subprocess.run([os.path.join(HERE, os.pardir, 'compare'), document('paper.pages'), document('paper.report')],
                              stdout=write, stderr=subprocess.PIPE, check=False)
        os.close(write)
        self.assertEqual((tool.returncode, tool.stderr), (141, b''))


class Places(Scratch):
    def test_all_agree(self):
        status, said = run(tries.main, stored('notes.log'), stored('notes.trace'))
        self.assertEqual(status, 0)
        self.assertIn('TeX weighed 17 places, 17 were found the same; 3 of 3 pages agree', said)

    def test_another_cost(self):
        path = self.changed(stored('notes.trace'), 'c 100000 #', 'c 100001 #')
        status, said = run(tries.main, stored('notes.log'), path, '--quiet')
        self.assertEqual(status, 1)
        self.assertIn('16 were found the same; 2 of 3 pages agree', said)
        self.assertRegex(said, r'first difference: page 1, place 1: TeX weighed .* c 100000 #; the program .* c 100001 #')

    def test_a_log_without_places(self):
        status, said = run(tries.main, stored('notes.galleylog'), stored('notes.trace'))
        self.assertEqual(status, 2)
        self.assertIn('was not given the option trace', said)

    def test_points_as_tex_reads_them(self):
        # the fractions of TeX: The Program, section 102
        for text, value in (('0.7', 45875), ('0.5', 32768), ('0.3', 19661), ('-1.2', -78643), ('0.0001', 7),
                            ('550.0', 36044800)):
            self.assertEqual(tries.scaled(text), value)

    def test_a_line_of_tracingpages(self):
        self.assertEqual(tries.tex_place('% t=61.0 plus 3.0 plus 1.0fil minus 1.0 g=550.0 b=* p=-51 c=*#'),
                         (3997696, (196608, 65536, 0, 0), 65536, 36044800, '*', -51, '*', True))


class Galleys(Scratch):
    def entry(self, *before):
        return galley.Entry(1, list(before), False)

    def test_which_glue_takes_part(self):
        fixed, plain, fil = self.entry('glue 5'), self.entry('glue 5 plus 2 minus 1'), self.entry('glue 0 plus 1sfil')
        self.assertEqual([galley.is_flexible(e, 'stretch', 'normal') for e in (fixed, plain, fil)], [False, True, False])
        self.assertEqual([galley.is_flexible(e, 'stretch', 'fil') for e in (fixed, plain, fil)], [False, False, True])
        self.assertEqual([galley.is_flexible(e, 'shrink', 'normal') for e in (fixed, plain, fil)], [False, True, False])
        self.assertTrue(galley.is_flexible(self.entry('newpage'), 'stretch', 'fil'))

    def test_entries_are_taken_in_order(self):
        with open(self.path('galley'), 'w', encoding='latin-1') as out:
            out.write('galley 1\nbox a 1 0\nglue 1\npenalty 150\nbox a 1 0\nfoot\nkern 2\nbox f 1 0\nendfoot\nend\n')
        read = galley.read(self.path('galley'))
        self.assertEqual([read.take('box', 'a').line for _ in range(2)], [2, 5])
        self.assertIsNone(read.take('box', 'a'))
        foot = read.take('box', 'f')
        self.assertEqual((foot.foot, foot.before), (True, ['kern 2']))

    def test_passes(self):
        def attempt(line, penalty=0, cost='5', best=False):
            return report.Try(line, 0, (0, 0, 0, 0), 0, 0, '0', penalty, cost, best)
        found = places.passes([attempt(3), attempt(5, -10004, '-10004'), attempt(5, -10003, '-10003'), attempt(3),
                               attempt(7, cost='*'), attempt(7)])
        self.assertEqual([[a.line for a in one] for one in found], [[3, 5], [3, 7], [7]])


class Tables(Scratch):
    def test_rows(self):
        _, pages = run(compare.main, document('paper.pages'), document('paper.report'), '--quiet')
        said = pages + 'TeX weighed 338 places, 336 were found the same; 4 of 4 pages agree\n'
        cells = check_rows.row('our paper', said)
        self.assertEqual(cells, ('our paper', '4', '8', '4', '4', '4', '14 of 14', '22 of 22', '336 of 338'))
        self.assertEqual(check_rows.total([cells, cells])[6:], ('28 of 28', '44 of 44', '672 of 676'))
        self.assertIsNone(check_rows.row('none', 'paginate: no galley was written'))

    def test_the_list_of_documents(self):
        listed = list(check.documents(os.path.join(HERE, os.pardir, 'documents')))
        self.assertGreaterEqual(len(listed), 10)
        self.assertEqual(len({one.name for one in listed}), len(listed))

    def change_by_export(self, exported, plain):
        """What is told of the logs with the exporter and without it; None for a run that writes none."""
        out, scratch = tempfile.mkdtemp(dir=self.folder), tempfile.mkdtemp(dir=self.folder)

        def write(folder, places):
            with open(os.path.join(folder, 'test.log'), 'w', encoding='utf-8') as log:
                log.write('%s\n%s\n' % (tries.BEGIN, places))

        def latex(_command, _seconds, cwd, **_options):
            if plain:
                write(cwd, plain)
            return "I can't find the format file"
        write(out, exported)
        with unittest.mock.patch.object(check, 'output', latex):
            return check.change_by_export('test.tex', out, '', scratch, 9)

    def test_what_the_exporter_changes(self):
        self.assertEqual(self.change_by_export('% t=61.0', '% t=61.0'), '')
        self.assertIn('other places', self.change_by_export('% t=61.0', '% t=62.0'))
        self.assertIn("no log without the exporter:\nI can't find", self.change_by_export('% t=61.0', None))


if __name__ == '__main__':
    unittest.main()
