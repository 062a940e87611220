#!/usr/bin/env bash
# Makes each allocation of a whole run of the program fail in turn, for galleys with footnotes, double floats, marginal
# notes and floats, and in each mode but dvilist, and prints how many of these runs ended as they may, as 'N of M': Done
# with all that is written if none fails, or Memory (10) with a prefix of that, and on standard error the line that says so,
# which is missing only while the words of the command line are collected. Fails if N is less than M. Nothing is proved.
#
# usage: bench/failing_memory.sh
set -euo pipefail
source "$(dirname "${BASH_SOURCE[0]}")/usage.sh"
takes 0 0 "$@"

bench=$(cd "$(dirname "${BASH_SOURCE[0]}")" && pwd)
crate=$(cd "$bench/../crates/galley_pages" && pwd)
work=$(mktemp -d)
trap 'rm -rf "$work"' EXIT

PYTHONDONTWRITEBYTECODE=1 PYTHONPATH=$bench python3 - "$crate" "$work" <<'PY'
import sys

from fail_alloc import ENDED, NUMBER, Build

crate, work = sys.argv[1:]
LINE = b"galley_pages: out of memory\n"

PRELUDE = """galley 1
set textheight {height}
set topskip 10
set maxdepth 0
set baselineskip 0
set bottom flush
set skipfootins 0
set footsplittop 10
set intextsep 0
set textfloatsep 0
set floatsep 0
set fptop 0
set fpsep 0
set fpbot 0
set dbltextfloatsep 0
"""


def galley(height, lines):
    return PRELUDE.format(height=height) + lines.replace(" / ", "\n") + "\n"


def article():
    """An article page with all defaults."""
    after = {
        1: "foot\nbox f1 6.65pt 2.85pt\nendfoot\n",
        3: "float figA 1 single tbp 100pt par\n",
        5: "foot\nbox f2 6.65pt 2.85pt\nendfoot\n",
        6: "float tabA 2 single ht 60pt vert\n",
        9: "note idx\n",
    }
    boxes = [f"box p{k} 7pt 2pt\n{after.get(k, '')}" for k in range(1, 13)]
    return "galley 1\n" + "glue 0pt plus 1pt\nglue 3pt\n".join(boxes) + "end\n"


def figures():
    """A footnote and floats at a top and in the text, for plain TeX's page makeup."""
    return galley(
        100,
        "box a 20 0 / foot / box f 5 0 / endfoot / float F 1 single t 30 par / float H 1 single h 20 par / box b 40 0 / glue 3 / box c 40 0 / end",
    )


PARAGRAPH = "lines 1\nset hsize 186pt\npar p\n" + "word 60pt 7pt 2pt\nspace 3pt 2pt 1pt\n" * 9 + "word 60pt 7pt 0\nendpar\nend\n"

# Of each run a name, the words of the command line, and what is read.
RUNS = [
    ("footnote", "", galley(30, "box a 10 0 / foot / box f 20 0 / endfoot / end")),
    ("split footnote", "", galley(30, "box a 10 0 / foot / box f 10 0 / glue 0 / box g 11 0 / endfoot / end")),
    (
        "double float",
        "",
        galley(
            100,
            "twocolumn / box a 20 0 / float W 1 double t 30 par / float S 1 single ht 20 par / newpage / box b 10 0 / newpage / box c 10 0 / end",
        ),
    ),
    (
        "marginal notes",
        "",
        galley(
            100,
            "set marginparpush 2 / box a 10 2 / margin m 8 4 8 4 par / box b 6 2 / margin n 8 4 8 4 par / newpage / box c 10 0 / margin q 8 4 8 4 par / end",
        ),
    ),
    ("article page", "", article()),
    ("article page, trace", "--mode trace", article()),
    ("article page, print", "--mode print", article()),
    ("article page, dvi", "--mode dvi", article()),
    ("figures, plain", "--mode plain", figures()),
    ("generated galley", "--mode gen --count 60", ""),
    ("paragraph, lines", "--mode lines", PARAGRAPH),
]


def told(line):
    """Returns the lines of the program on standard error, to which the checked build adds its own."""
    return b"".join(it for it in line.splitlines(True) if it.startswith(b"galley_pages"))


built = Build(crate, work, [], f"{crate}/stdin")
failed = 0
for name, words, read in RUNS:
    words, read = words.split(), read.encode()
    status, report, line = built.run(NUMBER, words, read)
    if status or told(line):
        sys.exit(f"{name}: status {status} if no allocation fails: {line.decode()}")
    number, last, wrong, has_words = 0, 0, 0, False
    while number < last + ENDED:
        number += 1
        status, out, line = built.run(number, words, read)
        if status == 0 and out == report and not told(line):
            continue
        last = number
        has_words = has_words or told(line) == LINE
        if status != 10 or not report.startswith(out) or told(line) != (LINE if has_words else b""):
            wrong += 1
            print(f"{name}, allocation {number}: status {status}: {line.decode(errors='replace').strip()}")
    failed += wrong
    print(f"{name}: {last - wrong} of {last}", flush=True)
sys.exit(failed > 0)
PY
