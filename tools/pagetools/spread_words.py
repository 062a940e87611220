"""What spreads and page breaks change, in words: what best_words says, and which pages are longer or shorter."""
from . import best_words
from .best_words import BAD, points

SUMS = '%d before, %d with breaks, %d with breaks and spreads'


class SpreadStory(best_words.Story):
    """All that is said of a galley with breaks and spreads."""

    def __init__(self, galley, plan, before, labels=None):
        super().__init__(galley, plan.choice, before, plan.side, labels)
        self.plan = plan

    def spread_lines(self):
        """What is said of each spread."""
        for spread, home in zip(self.plan.spreads, self.plan.homes):
            left, right = (self.labels.after.get(it.page, it.page) for it in (home[0], home[-1]))
            yield 'pages %d and %d are one line %s (%s)' % (
                left, right, 'longer' if spread.lines > 0 else 'shorter', points(abs(spread.by)))

    def chosen_lines(self):
        changed = len(self.plan.spreads)
        if changed:
            yield '%s changed:' % ('1 spread is' if changed == 1 else '%d spreads are' % changed)
            yield from ('  ' + it for it in self.spread_lines())
        elif self.plan.tries:
            yield 'no spread is changed: none of those that were tried makes the pages better'
        else:
            yield 'no spread is changed: there was none to try'
        yield from super().chosen_lines()

    def sums(self):
        plan = self.plan
        yield 'demerits: ' + SUMS % (plan.choice.greedy, plan.alone.least, plan.choice.least)
        bad = [sum(end.demerits >= BAD for end in side.endings) for side in (self.before, plan.alone_side, plan.side)]
        yield 'columns of %d demerits or more: ' % BAD + SUMS % tuple(bad)
        yield 'pages: %d before, %d now' % (len(self.before.report.pages), len(self.after.report.pages))

    def is_changed(self):
        return self.plan.is_changed()


def data(plan, before):
    """The same as plain data (docs/JSON.md)."""
    told = best_words.data(plan.choice, before, plan.side)
    told['breaks_alone'] = plan.alone.least
    told['spreads'] = [
        {'pages': [home[0].number, home[-1].number], 'lines': spread.lines, 'by': spread.by,
         'places': [{'line': place.line, 'before': place.name} for place in spread.places]}
        for spread, home in zip(plan.spreads, plan.homes)]
    return told
