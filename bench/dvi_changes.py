#!/usr/bin/env python3
"""Compares two listers of DVI files: `galley_pages --mode dvilist`, and the one in this file, which shares no code with it.

The program writes a DVI file of three boxes. Then both list it with each byte changed to each other value, and cut off
after each byte. Prints in how many cases they agree: on the listing, or on the byte and the cause of the refusal. It ends
with status 1 if they ever differ.

    bench/dvi_changes.py [PROGRAM]

Without PROGRAM it is the one that `tools/program` finds or builds, or that the variable GALLEY_PAGES names.
"""

import argparse
import concurrent.futures
import os
import pathlib
import subprocess
import sys

GALLEY = b"""galley 1
set textheight 30
set topskip 10
set maxdepth 0
box a 10 0
glue 0 plus 5
box b 10 0
glue 0 plus 5
box c 10 0
end
"""

RIGHT, DOWN = 0, 1
# The registers of each block of moves: the axis, and the register that is set, if there is one.
MOVES = {143: (RIGHT, None), 147: (RIGHT, "w"), 152: (RIGHT, "x"), 157: (DOWN, None), 161: (DOWN, "y"), 166: (DOWN, "z")}


class Refused(Exception):
    """A file that is not listed: the place of the command, and why."""


def signed(data):
    return int.from_bytes(data, "big", signed=True)


def unsigned(data):
    return int.from_bytes(data, "big")


def move_of(op):
    """The block of a move and how many bytes its number has; None for another command."""
    for first, (_, register) in MOVES.items():
        size = op - first + (1 if register is None else 0)
        if (1 if register is None else 0) <= size <= 4:
            return first, size
    return None


def is_font(op):
    return op <= 131 or 133 <= op <= 136 or 171 <= op <= 238 or 243 <= op <= 246


def text_of(data):
    return "".join(chr(b) if 32 <= b <= 126 and b != 92 else "\\%02x" % b for b in data)


class Lister:
    """Reads a file from its first byte on; `lines` is what it has listed."""

    def __init__(self, data):
        self.data = data
        self.lines = ["dvi 1"]
        self.pages = 0
        self.page = None
        self.stack = []
        self.post = None

    def arguments(self, place, size):
        """So many bytes after a command's first."""
        found = self.data[place + 1 : place + 1 + size]
        if len(found) < size:
            raise Refused(place, "Truncated")
        return found

    def preamble(self):
        data = self.data
        if data and data[0] != 247 or len(data) > 1 and data[1] != 2:
            raise Refused(0, "BadPre")
        comment = self.arguments(0, 14)[13] if data else self.arguments(0, 1)
        self.arguments(0, 14 + comment)
        return 15 + comment

    def listing(self):
        place = self.preamble()
        while place is not None:
            if place >= len(self.data):
                raise Refused(place, "Truncated")
            op = self.data[place]
            if is_font(op):
                raise Refused(place, "Font")
            if self.post is not None:
                place = self.after_post(place, op)
            elif self.page is None:
                place = self.between(place, op)
            else:
                place = self.on_page(place, op)
        self.lines.append("end pages %d" % self.pages)
        return "".join(line + "\n" for line in self.lines)

    def between(self, place, op):
        if op == 138:
            return place + 1
        if op == 139:
            number = signed(self.arguments(place, 44)[:4])
            self.lines.append("page %d" % number)
            self.pages += 1
            self.page = dict.fromkeys("hvwxyz", 0)
            self.stack = []
            return place + 45
        if op == 248:
            self.arguments(place, 28)
            self.post = place
            return place + 29
        raise Refused(place, "BadOp")

    def after_post(self, place, op):
        """The end of the file: it may only be 249, the place of the postamble, 2, and bytes 223."""
        if op not in (138, 139, 248, 249):
            raise Refused(place, "BadOp")
        given = self.arguments(place, {138: 0, 139: 44, 248: 28, 249: 5}[op])
        filling = self.data[place + 6 :]
        is_end = op == 249 and unsigned(given[:4]) == self.post and given[4] == 2
        is_filled = len(filling) >= 4 and set(filling) == {223} and len(self.data) % 4 == 0
        if not (is_end and is_filled):
            raise Refused(place, "BadPost")
        return None

    def on_page(self, place, op):
        if op in (132, 137):
            return self.rule(place, op)
        if op == 138:
            return place + 1
        if op in (140, 141, 142):
            self.turn(place, op)
            return place + 1
        if 239 <= op <= 242:
            return self.special(place, op - 238)
        move = move_of(op)
        if move is None:
            raise Refused(place, "BadOp")
        return self.moved(place, *move)

    def rule(self, place, op):
        given = self.arguments(place, 8)
        height, width = signed(given[:4]), signed(given[4:])
        self.lines.append("rule %d %d %d %d" % (self.page["h"], self.page["v"], height, width))
        if op == 132:
            self.page["h"] += width
        return place + 9

    def turn(self, place, op):
        """The end of a page, a push or a pop."""
        if op == 141:
            self.stack.append(dict(self.page))
        elif (op == 140) == bool(self.stack):
            raise Refused(place, "Unbalanced")
        else:
            self.page = None if op == 140 else self.stack.pop()

    def special(self, place, size):
        length = unsigned(self.arguments(place, size))
        text = self.arguments(place, size + length)[size:]
        self.lines.append("special %d %d %s" % (self.page["h"], self.page["v"], text_of(text)))
        return place + 1 + size + length

    def moved(self, place, first, size):
        axis, register = MOVES[first]
        by = signed(self.arguments(place, size))
        if register is not None:
            by = by if size else self.page[register]
            self.page[register] = by
        self.page["hv"[axis]] += by
        return place + 1 + size


def expected(data):
    """The status, the output and the line on standard error for a file."""
    try:
        return 0, Lister(data).listing().encode(), b""
    except Refused as refused:
        return 14, b"", b"galley_pages: byte %d: %s\n" % (refused.args[0], refused.args[1].encode())


def answer(program, data):
    run = subprocess.run([program, "--mode", "dvilist"], input=data, capture_output=True)
    return run.returncode, run.stdout, run.stderr


def cases(file):
    """The file, each change of one byte, and each front of the file, with what they are."""
    yield "the file", file
    for place, was in enumerate(file):
        for byte in range(256):
            if byte != was:
                yield "byte %d is %d" % (place, byte), file[:place] + bytes([byte]) + file[place + 1 :]
    for length in range(len(file)):
        yield "the first %d bytes" % length, file[:length]


def main():
    parser = argparse.ArgumentParser(description=__doc__, formatter_class=argparse.RawDescriptionHelpFormatter)
    parser.add_argument("program", nargs="?", metavar="PROGRAM", help="the program to try")
    given = parser.parse_args()
    top = pathlib.Path(__file__).resolve().parent.parent
    program = given.program or subprocess.check_output([str(top / "tools" / "program")], text=True).strip()
    run = subprocess.run([program, "--mode", "dvi"], input=GALLEY, capture_output=True, check=True)

    def compare(case):
        wanted, found = expected(case[1]), answer(program, case[1])
        return wanted == found, case[0], wanted, found

    agree = count = 0
    with concurrent.futures.ThreadPoolExecutor(os.cpu_count()) as pool:
        for same, name, wanted, found in pool.map(compare, cases(run.stdout)):
            count += 1
            agree += same
            if not same:
                print("%s: %s here, %s there" % (name, wanted, found))
    print("%d of %d agree" % (agree, count))
    return 0 if agree == count else 1


if __name__ == "__main__":
    sys.exit(main())
