"""The best page breaks of a LaTeX document: they are chosen, LaTeX makes its pages again with them, and these are compared
with the chosen ones."""
import re

from . import best, best_words
from .latex_document import Refusal, say

MOST_ROUNDS = 3         # of choosing and of LaTeX: with other page numbers in it, a text may become another
PUT_IN = re.compile(r'^galleybreaks: (\d+) of (\d+) page breaks were put in', re.M)
UNKNOWN_MODE = 2        # the status of a program that has no mode best
CAUSES = {
    UNKNOWN_MODE: 'this galley_pages has no mode best',
    best.CHOICES: 'there are too many choices of breaks (more than 1000000 states); a \\clearpage between parts of the '
                  'document makes them fewer',
}


def read(path):
    with open(path, encoding='latin-1') as file:
        return file.read()


def write(path, text):
    with open(path, 'w', encoding='latin-1') as file:
        file.write(text)
    return path


# ---- Choosing

def choose(program, doc):
    """The galley of a document and the best breaks of it, which are in its file NAME.best then too."""
    path = doc.path('.galley')
    galley = read(path)
    try:
        said = best.run(program, 'best', galley, path)
    except best.BestFault as fault:
        raise Refusal('no breaks were chosen: %s' % (
            '%s: %s' % (path, CAUSES[fault.status]) if fault.status in CAUSES else fault), 4) from None
    write(doc.path('.best'), said)
    return galley, best.read(said, path)


def set_again(program, doc, galley, choice):
    """LaTeX makes the pages with the breaks. Where page numbers in the text make another galley, breaks are chosen again,
    until they stay the same. Gives the last galley and choice, and whether it stayed."""
    doc.breaks = True
    for _ in range(MOST_ROUNDS):
        doc.compile()
        if read(doc.path('.galley')) == galley:
            return galley, choice, True
        last = choice.breaks
        galley, choice = choose(program, doc)
        if choice.breaks == last:
            return galley, choice, True
        say('the text has changed with its page numbers: breaks are chosen once more')
    return galley, choice, False


def make_sides(program, doc, galley, choice):
    """Runs the galley without the breaks and with them, and writes what is compared and what a picture needs."""
    path, chosen = doc.path('.galley'), best.with_breaks(galley, choice.breaks)
    write(doc.path('.chosen.galley'), chosen)
    write(doc.path('.chosen.report'), choice.text)
    for mode in ('trace', 'why'):
        write(doc.path('.chosen.' + mode), best.run(program, mode, chosen, path))
    write(doc.path('.report'), best.run(program, 'report', galley, path))


# ---- What is said

def words(program, galley, choice):
    """What the breaks change. Pages are counted from 1, as in the comparison and the pictures."""
    before, after = best.compared(program, galley, choice)
    return best_words.Story(galley, choice, before, after, best_words.PLACES).lines()


def not_put_in(log):
    """Why LaTeX did not put all breaks in, '' if it did."""
    text = read(log)
    found = PUT_IN.search(text)
    if not found:
        return 'no page break was put in: see %s' % log
    left = re.findall(r'^Package galleybreaks Warning: (.*)$', text, re.M)
    if found[1] == found[2]:
        return ''
    return '%s of %s page breaks were put in:%s' % (found[1], found[2], ''.join('\n  ' + it for it in left))
