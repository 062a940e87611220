#!/usr/bin/env python3
"""Writes the inputs of bench/run into a directory: each at a quarter, half and all of its size, as NAME_SIZE.

usage: make_inputs.py DIR [--manual FILE]

An input that may grow faster than its length is also written at n, 2n and 4n. The same inputs are written each time.
"""
import argparse
import os
import random
import shutil
import typing

LETTERS = "abcdefghijklmnopqrstuvwxyz-ABCDEFGHIJKLMNOPQRSTUVWXYZ0123456789"
SETTINGS = ("textheight 550pt", "topskip 10pt", "maxdepth 5pt", "topnumber 2", "topfraction 0.7",
            "floatsep 12pt plus 2pt minus 2pt", "bottom ragged", "intextsep 12pt plus 2pt minus 2pt")
BARE = ("topskip 10", "maxdepth 0", "baselineskip 0", "bottom flush", "skipfootins 0", "footsplittop 10", "intextsep 0",
        "textfloatsep 0", "floatsep 0", "fptop 0", "fpsep 0", "fpbot 0", "dbltextfloatsep 0")
NO_AREAS = ("textheight 100pt", "topnumber 0", "bottomnumber 0")
ENDLESS = "textheight 1073741823"


def galley(*settings, version=1):
    """The first lines of a galley with room for many floats."""
    return [f"galley {version}", "set pool 4096", "set maxdeadcycles 1000000", *(f"set {it}" for it in settings)]


def line_of(name):
    """A box as high as a line of text."""
    return f"box {name} 7pt 2pt"


def long_page(count, floats=400):
    """A page of so many boxes that is built again at each of 400 floats."""
    out = ["galley 1", "set textheight 100000", *(f"set {it}" for it in BARE),
           "set totalnumber 1000", "set pool 4096", "set maxdeadcycles 1000000"]
    for k in range(1, count + 1):
        out += [f"box b{k} 1 0", "glue 0"]
    return out + [f"float x{k} 1 single h 1 par" for k in range(1, floats + 1)] + ["end"]


def rebuilt_page(count):
    """A page that is built again at each float, with a float for each 50 boxes."""
    return long_page(count, min(1000, count // 50))


def text(count, last="end"):
    """Two boxes with names of 63 bytes and a glue, so many times, with a comment beside every other; 33333 make 7.9 MB."""
    pick = random.Random(7)
    out = ["galley 1", "set maxdeadcycles 1000000"]
    for k in range(count):
        for j in range(2):
            name = (f"b{k}.{j}_" + LETTERS)[:63]
            out.append(f"box {name} {pick.choice((458752, 524288, 400000))} {pick.choice((131072, 0, 100000))}")
        out.append("glue 196608 plus 65536 minus 1000")
        if k % 2 == 0:
            out.append("# " + "x" * 80)
    return out + [last]


def faulty_text(count):
    """The same text with a fault in its last line, so that it is read and refused."""
    return text(count, "ends")


def floats(columns, count):
    """Lines of text, and a float at every fourth, most of which wait in the pool."""
    pick = random.Random(11)
    out = ["galley 1", "set pool 4096", "set maxdeadcycles 1000000", "set maxdepth 0"] + ["twocolumn"] * (columns == 2)
    for k in range(count):
        out += [line_of(f"b{k}"), "glue 3pt plus 1pt"]
        if k % 4 == 0:
            wide = "double" if columns == 2 and pick.random() < 0.3 else "single"
            places = pick.choice(("t", "tb", "tbp", "htp", "p", "b", "!t", "h"))
            out.append(f"float x{k} {pick.randint(1, 26)} {wide} {places} {pick.randint(20, 300)}pt par")
    return out + ["end"]


def floats_one(count):
    """The same in one column."""
    return floats(1, count)


def floats_two(count):
    """The same in two columns, with some floats above both."""
    return floats(2, count)


def feet(count):
    """Lines of text with a footnote at every third and a float at every tenth."""
    pick = random.Random(13)
    out = ["galley 1", "set maxdeadcycles 1000000", "set pool 4096"]
    for k in range(count):
        out.append(line_of(f"b{k}"))
        if k % 3 == 0:
            out += ["foot", line_of(f"f{k}"), "glue 0 plus 1pt", line_of(f"g{k}"), "endfoot"]
        out.append("glue 3pt plus 1pt")
        if k % 10 == 0:
            out.append(f"float x{k} {k % 5 + 1} single htbp {pick.randint(20, 200)}pt par")
    return out + ["end"]


def small_pages(count):
    """Pages of one box each."""
    return galley() + [it for k in range(count) for it in (line_of(f"b{k}"), "newpage")] + ["end"]


def blank_lines(count):
    """Empty lines."""
    return ["galley 1"] + [""] * count + ["end"]


def comment_lines(count):
    """Lines of # alone."""
    return ["galley 1"] + ["#"] * count + ["end"]


def set_lines(count):
    """Lines of `set`: amounts, counts, fractions, glue and words in turn."""
    return ["galley 1"] + [f"set {SETTINGS[k % len(SETTINGS)]}" for k in range(count)] + ["end"]


def notes_one_page(count):
    """Marginal notes on one page, a box of 1sp before each; each note has the page built again."""
    return galley(ENDLESS) + [it for k in range(count) for it in (f"box b{k} 1 0", f"margin m{k} 5pt 1pt 5pt 1pt par")] + ["end"]


def notes_many_pages(count):
    """Marginal notes on many pages, one beside each line."""
    return galley() + [it for k in range(count) for it in (line_of(f"b{k}"), f"margin m{k} 5pt 1pt 5pt 1pt par", "glue 3pt")] + ["end"]


def feet_one_place(count):
    """Footnotes of one line, all at one place, most of which are held over."""
    notes = [it for k in range(count) for it in ("foot", line_of(f"f{k}"), "endfoot")]
    return galley() + [line_of("a"), *notes, "glue 3pt", *two_hundred_lines(), "end"]


def long_foot(count):
    """One footnote of many lines, which is split over many pages."""
    note = [it for k in range(count) for it in (line_of(f"f{k}"), "glue 1pt plus 1pt")]
    return galley() + [line_of("a"), "foot", *note, "endfoot", "glue 3pt", *two_hundred_lines(), "end"]


def two_hundred_lines():
    """The text below such a footnote."""
    return [it for k in range(200) for it in (line_of(f"b{k}"), "glue 3pt plus 1pt")]


def feet_classes(count):
    """Insertions of 250 classes in turn, one beside each line."""
    out = galley(version=2) + [f"class {c} 1000 5000pt 1pt" for c in range(250)]
    for k in range(count):
        out += [line_of(f"b{k}"), f"foot {k % 250}", f"box f{k} 1 0", "endfoot", "glue 3pt plus 1pt"]
    return out + ["end"]


def kerns(count):
    """Kerns with no glue among them."""
    return galley(ENDLESS) + ["box a 1 0"] + ["kern 1"] * count + ["end"]


def kerns_acts(count):
    """Kerns with a `suppressfloats` behind each."""
    return galley(ENDLESS) + ["box a 1 0"] + ["kern 1", "suppressfloats"] * count + ["end"]


def clears(count):
    """Floats of 26 classes with a clear behind every 60."""
    out = galley()
    for k in range(count):
        out += [f"float x{k} {k % 26 + 1} single t 30pt par"] + ["clearpage"] * (k % 60 == 59)
    return out + ["end"]


def clear_flat(count):
    """One clear of floats without height, which all go in one column; the pool has room for 4096."""
    return galley("fpsep 0") + [f"float x{k} {k % 26 + 1} single t 0pt par" for k in range(count)] + ["clearpage", "end"]


def flat_floats(count):
    """Floats without height that wait for a page of floats, which they never fill; the pool has room for 4096."""
    out = galley(*NO_AREAS, "floatpagefraction 1.0", "fpsep 0")
    out += [f"float x{k} {k % 26 + 1} single p 0pt par" for k in range(count)]
    return out + [it for k in range(2 * count) for it in (f"box b{k} 40pt 2pt", "glue 3pt")] + ["end"]


def floats_one_page(count):
    """Boxes on one page, then as many floats that are placed there, of which each has the page built again."""
    out = galley(ENDLESS, "totalnumber 1000", "topnumber 0", "bottomnumber 0", "textfraction 0", "intextsep 0")
    out += [f"box b{k} 1 0" for k in range(count)]
    return out + [f"float x{k} 1 single h 1 par" for k in range(count)] + ["end"]


def columns(count):
    """Changes to two columns and back, with a float for each."""
    out = galley()
    for k in range(count):
        out += ["twocolumn", f"float x{k} 1 double t 30pt par", line_of(f"b{k}"),
                "onecolumn", f"float y{k} 1 single t 30pt par", line_of(f"c{k}")]
    return out + ["end"]


def floats_one_class(count):
    """Floats of one class that are too high for any area, and wait until the end."""
    out = galley()
    for k in range(count):
        out += [f"float x{k} 1 single t 500pt par", line_of(f"b{k}"), "glue 3pt"]
    return out + ["end"]


def lines(count):
    """Five paragraphs of words of usual width."""
    pick = random.Random(17)
    out = ["lines 1", "set tolerance 9000"]
    for p in range(5):
        out.append(f"par p{p}")
        for k in range(count // 5):
            out.append(f"word {pick.randint(5, 60)}pt {pick.randint(4, 7)}pt {pick.randint(0, 2)}pt")
            if k < count // 5 - 1:
                out.append("space 3.33pt 1.66pt 1.11pt")
        out.append("endpar")
    return out + ["end"]


def flat_words(count):
    """A paragraph of words without width, where every break is feasible."""
    return ["lines 1", "set tolerance 10000", "par p"] + ["word 0 1 0", "space 1 10000pt 0"] * count + ["endpar", "end"]


def narrow_words(count):
    """Paragraphs of 2400 words of 1pt to 3pt, with spaces that stretch far."""
    pick = random.Random(3)
    out = ["lines 1", "set tolerance 10000"]
    for k in range(count):
        out += [f"par p{k}"] * (k % 2400 == 0) + [f"word {pick.randint(1, 3)}pt 7pt 2pt", "space 1pt 100pt 1pt"]
        out += ["endpar"] * (k % 2400 == 2399 or k == count - 1)
    return out + ["end"]


class Input(typing.NamedTuple):
    """An input of the tables. A row is what it is measured as: the label, and the program's words."""

    name: str
    make: typing.Optional[typing.Callable]  # its lines from its size; None if the program reads nothing
    size: int
    rows: tuple
    least: int = 0  # the n of the table of growth, 0 if the input is not in it
    status: int = 0  # that of the program's run, other than 0 if the input is to be refused

    def path(self, where, size):
        """Writes the input in that size, and returns its path."""
        if self.make is None:
            return os.devnull
        path = os.path.join(where, f"{self.name}_{size}")
        with open(path, "w", encoding="ascii") as file:
            file.write("\n".join(self.make(size)) + "\n")
        return path


def report(label):
    return ((label, ()),)


def by_lines(label):
    return ((label, ("--mode", "lines")),)


# What the program is made for, and then what it does with other work
USUAL = (
    Input("text", text, 33333, (("the report of 7.9 MB of text", ()), ("its canonical text", ("--mode", "print")))),
    Input("floats_one", floats_one, 12000, report("3000 floats that wait, one column")),
    Input("floats_two", floats_two, 12000, report("3000 floats that wait, two columns")),
    Input("feet", feet, 10000, (("16668 boxes, 3334 footnotes and 1000 floats", ()), ("their trace", ("--mode", "trace")),
                                ("their DVI file", ("--mode", "dvi")))),
    Input("generated", None, 40000, (("40000 generated items", ("--mode", "gen", "--count", "{size}")),)),
    Input("lines", lines, 12000, by_lines("12000 words into lines")),
    Input("long_page", long_page, 20000, report("a page of 20000 places built 400 times")),
    Input("small_pages", small_pages, 12000, report("12000 pages of one box")),
)
OTHER = (
    Input("blank_lines", blank_lines, 500000, report("500000 blank lines")),
    Input("comment_lines", comment_lines, 500000, report("500000 lines of #")),
    Input("set_lines", set_lines, 200000, report("200000 lines of `set`")),
    Input("faulty_text", faulty_text, 33333, report("7.9 MB of text with a fault in the last line"), status=3),
    Input("notes_one_page", notes_one_page, 800, report("800 marginal notes on one page"), 500),
    Input("notes_many_pages", notes_many_pages, 2000, report("2000 marginal notes on many pages")),
    Input("feet_one_place", feet_one_place, 3000, report("3000 footnotes of one line at one place"), 4000),
    Input("long_foot", long_foot, 12000, report("one footnote of 12000 lines"), 6000),
    Input("feet_classes", feet_classes, 2000, report("2000 footnotes of 250 classes")),
    Input("kerns", kerns, 20000, report("20000 kerns")),
    Input("kerns_acts", kerns_acts, 10000, report("10000 kerns and 10000 `suppressfloats`")),
    Input("clears", clears, 4000, report("4000 floats with a clear after each 60"), 5000),
    Input("clear_flat", clear_flat, 1000, report("one clear of 1000 floats without height"), 1000),
    Input("flat_floats", flat_floats, 500, report("500 floats without height that never fill a page"), 500),
    Input("floats_one_page", floats_one_page, 500, report("500 floats on one page")),
    Input("rebuilt_page", rebuilt_page, 10000, report("a page of 10000 places, built again for each 50"), 5000),
    Input("columns", columns, 1000, report("1000 changes of columns and back, with floats"), 4000),
    Input("floats_one_class", floats_one_class, 1000, report("1000 floats of one class that wait")),
    Input("flat_words", flat_words, 1500, by_lines("1500 words without width")),
    Input("narrow_words", narrow_words, 1500, by_lines("1500 narrow words")),
)
INPUTS = USUAL + OTHER


def main():
    parser = argparse.ArgumentParser(description=__doc__.partition("\n")[0])
    parser.add_argument("where", metavar="DIR", help="the directory, which is made if need be")
    parser.add_argument("--manual", metavar="FILE", help="the galley of a long document, which is copied there as manual")
    given = parser.parse_args()
    if given.manual and not os.path.isfile(given.manual):
        parser.error(f"no such file: {given.manual}")
    os.makedirs(given.where, exist_ok=True)
    for it in INPUTS:
        growing = (it.least, 2 * it.least, 4 * it.least) if it.least else ()
        for size in sorted({it.size // 4, it.size // 2, it.size, *growing}):
            it.path(given.where, size)
    if given.manual:
        shutil.copyfile(given.manual, os.path.join(given.where, "manual"))


if __name__ == "__main__":
    main()
