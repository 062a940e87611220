"""Where the places that the page builder weighed stand in the columns of a page, for a picture with --trace.

A column is built more than once: each float and marginal note stops the page builder, and it begins again with what it
had, and with a lower goal where the float went to the top or bottom. Each such pass weighs its places from the first one
on. Of a column the last pass is shown, the one that it came from."""
from dataclasses import dataclass

FORCED = -10000          # a penalty of this or less stops the page builder
FLOAT_BOXES = (-10002, -10003)  # the penalties after a float's empty box, which is a page for a moment

@dataclass
class Mark:
    """A place that was weighed for a column."""
    attempt: object      # its report.Try
    y: int               # sp below the column's top
    ends: bool           # the column ends here
    outside: bool        # it lies past the column's end


def passes(tries):
    """The tries of a page, in passes: the page builder stops at an overfull page and at a forced break."""
    out, stopped = [], True
    for attempt in tries:
        if attempt.penalty in FLOAT_BOXES:
            continue
        if stopped:
            out.append([])
        out[-1].append(attempt)
        stopped = attempt.cost == '*' or attempt.penalty <= FORCED
    return out


def text_lines(column, entries):
    """The galley lines of a column's text, rising, each with how far its item reaches down."""
    lines = []
    for item in column.items:
        entry = entries.get(id(item))
        if entry and not entry.foot and item.kind in ('box', 'rule'):
            lines.append((entry.line, item.bottom()))
    return sorted(lines)


def of_page(page, entries):
    """For each column with text the marks of its last pass, and how many passes it took: a list of pairs by column.

    A pass belongs to the last column whose text begins at or before its first place: the place where a column ends
    stands before the next one's text."""
    lines = [text_lines(column, entries) for column in page.columns]
    owned = [[] for _ in page.columns]
    for tries in passes(page.tries):
        first = next((attempt.line for attempt in tries if attempt.line), 0)
        begun = [k for k, own in enumerate(lines) if own and own[0][0] <= first]
        if begun:
            owned[begun[-1]].append(tries)
    return [(_marks(own[-1], rows), len(own)) if own else ([], 0) for own, rows in zip(owned, lines)]


def _marks(tries, lines):
    end = next((k for k in reversed(range(len(tries))) if tries[k].best), len(tries))
    marks, y, total = [], 0, 0
    for k, attempt in enumerate(tries):
        y = _reach(attempt, lines, y, total)
        total = attempt.total
        marks.append(Mark(attempt, y, k == end, k > end))
    return marks


def _reach(attempt, lines, y, total):
    """How far the text before a place reaches down. `y` and `total` are those of the place before.

    A place that the output routine made has no line: it stands below that item to which the totals lead."""
    if attempt.line:
        above = [bottom for line, bottom in lines if line < attempt.line]
        return above[-1] if above else 0
    wanted = y + attempt.total - total
    return min([y] + [bottom for _, bottom in lines if bottom > y], key=lambda bottom: abs(bottom - wanted))
