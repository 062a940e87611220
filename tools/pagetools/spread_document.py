"""The best page breaks of a LaTeX document with spreads one line longer or shorter: they are chosen, LaTeX makes its pages
again with them, and these are compared with the chosen ones."""
import re

from . import best, best_document, best_words, spread_words, spreads
from .best_document import CAUSES, MOST_ROUNDS, read, write
from .latex_document import Refusal, say

PUT_IN = re.compile(r'^galleybreaks: (\d+) of (\d+) columns were made longer or shorter', re.M)


def choose(program, doc):
    """The galley of a document and the plan for it, which is in the file NAME.spreads then too; NAME.best has the breaks that
    are best without spreads."""
    path = doc.path('.galley')
    galley = read(path)
    try:
        said = best.run(program, 'best', galley, path)
    except best.BestFault as fault:
        raise Refusal('no breaks were chosen: %s' % (
            '%s: %s' % (path, CAUSES[fault.status]) if fault.status in CAUSES else fault), 4) from None
    write(doc.path('.best'), said)
    plan = spreads.search(program, galley, best.read(said, path))
    write(doc.path('.spreads'), spreads.written(plan))
    return galley, plan


def set_again(program, doc, galley, plan):
    """LaTeX makes the pages of the plan. Where page numbers in the text make another galley, it is chosen again, until it
    stays the same. Gives the last galley and plan, and whether it stayed."""
    doc.breaks = True
    for _ in range(MOST_ROUNDS):
        doc.compile()
        if read(doc.path('.galley')) == galley:
            return galley, plan, True
        last = spreads.written(plan)
        galley, plan = choose(program, doc)
        if spreads.written(plan) == last:
            return galley, plan, True
        say('the text has changed with its page numbers: breaks and spreads are chosen once more')
    return galley, plan, False


def make_files(program, doc, galley, plan):
    """Runs the galley as it is and with the plan, and writes what is compared and what a picture needs."""
    write(doc.path('.report'), best.run(program, 'report', galley, doc.path('.galley')))
    write(doc.path('.chosen.galley'), plan.galley)
    for mode in ('report', 'trace', 'why'):
        write(doc.path('.chosen.' + mode), best.run(program, mode, plan.galley, doc.path('.galley')))


def words(program, galley, plan):
    """What the plan changes. Pages are counted from 1, as in the comparison and the pictures."""
    return spread_words.SpreadStory(galley, plan, best.side(program, galley, []), best_words.PLACES).lines()


def not_put_in(doc, plan):
    """What LaTeX did not put in of the plan, '' if it did it all."""
    missing = best_document.not_put_in(doc.path('.log')) if plan.choice.breaks else ''
    found = PUT_IN.search(read(doc.path('.log')))
    if plan.spreads and not (found and found[1] == found[2]):
        missing = 'not all spreads were changed: see %s\n%s' % (doc.path('.log'), missing)
    return missing.strip()
