#!/usr/bin/env python3
"""A site and a check written by hand, as texts with names. This stands outside the proof: the engine sees only the bytes.

Usage: site_text.py write FOLDER  reads FOLDER/site.txt and FOLDER/check.txt, writes FOLDER/site.dat and FOLDER/check.dat
       site_text.py show FOLDER   reads what the check program printed from standard input, prints it with FOLDER's names

site.txt holds a fact per line, `subject predicate object`. `declare PREDICATE` declares a predicate that may have no facts, and
`NAME = NUMBER` gives a name its term, as a sensor its radio serial; other names get the lowest free numbers, from 1 on, in order of first
appearance.
check.txt holds a triple pattern per line, in the names of site.txt; a word that begins with ? is a variable.
A word of digits is that term itself, and # begins a comment.
"""
import pathlib
import re
import sys

from reference import MOST_TERM, pattern_file, site_file

ANSWER = re.compile('(none)\n|refused ([1-9]|1[0-9]|2[01])\n|rows ([0-9]{1,4}) width ([0-8])\n((?:[0-9 ]*\n)*)')

# Questions 1 to 21 of document 01, answered no.
REFUSALS = (
    'T is not at most 1,000',
    'a number of the site is not whole or not in shortest form',
    'the site has more than 16 predicates',
    'a predicate of the site is not a term above the one before',
    'the running total of rows is not at most 1,024',
    'a subject or object of the site is not a term',
    'a row is not above the one before in its table',
    'the site does not end after its last row',
    'the lent store does not hold the words needed',
    'the store is not what some site and some T give',
    'a number of the pattern is not whole or not in shortest form',
    'the count of triple patterns is not 1 to 8',
    'the predicate is not a term position',
    'the predicate is not declared in the store',
    'a fixed position is not a term',
    'a variable is not in range or not in first-use order',
    'the pattern does not end after its last triple pattern',
    'the plan is not whole, shortest numbers for one step per triple pattern and no more',
    'the place is not below the count of triple patterns, or is used already',
    'the choice is neither 0 nor a stored, qualifying table',
    'the rows do not fit the lent words',
)


class Mistake(Exception):
    """What is wrong, behind its place: the file and the line."""


def need(passes, place, message):
    if not passes:
        raise Mistake('%s: %s' % (place, message))


def lines(path):
    """The place and the words of each line that says something."""
    for count, line in enumerate(path.read_bytes().split(b'\n'), 1):
        place = '%s:%d' % (path, count)
        text = line.decode('utf-8-sig', 'surrogateescape').split('#')[0].expandtabs().strip(' \r')
        # What is not UTF-8 comes out unprintable; so are characters that the eye takes for a blank or for nothing.
        need(text.isprintable(), place, 'this is not text: %a' % text)
        if text:
            yield place, text.split()


def is_digits(word):
    return word.isascii() and word.isdigit()


def term_of(place, word):
    digits = word.lstrip('0') or '0'
    need(len(digits) <= 8 and int(digits) <= MOST_TERM, place, 'a number is at most {:,}: '.format(MOST_TERM) + word)
    return int(digits)


class Names:
    """The term of every word met; a name has None until it is numbered."""

    def __init__(self):
        self.terms, self.given = {}, {}

    def meet(self, place, word):
        need(not word.startswith('?'), place, 'a variable stands only in a check, as subject or object: ' + word)
        need(word not in ('declare', '='), place, 'this word is not a name: ' + word)
        self.terms.setdefault(word, term_of(place, word) if is_digits(word) else None)

    def give(self, place, words):
        need(len(words) == 3 and is_digits(words[2]), place, 'a number is given by three words: NAME = NUMBER')
        need(not is_digits(words[0]), place, 'a word of digits is that term itself: ' + words[0])
        name, term = words[0], term_of(place, words[2])
        self.meet(place, name)
        for key, other in ((name, 'number'), (term, 'name')):
            first = self.given.setdefault(key, place)
            need(first == place, place, '%s has its %s by %s' % (key, other, first))
        self.terms[name] = term

    def number_the_others(self):
        """Only once a text is read whole, since a number further down is not free."""
        taken = set(self.terms.values())
        free = (term for term in range(1, MOST_TERM + 1) if term not in taken)
        for word in [word for word, term in self.terms.items() if term is None]:
            self.terms[word] = next(free, None)
            need(self.terms[word], word, 'no number is left for this name')


def read_site(path):
    """The names, and the predicates in order, each with its rows."""
    names, predicates, facts = Names(), [], []
    for place, words in lines(path):
        if words[1:2] == ['=']:
            names.give(place, words)
        elif words[0] == 'declare':
            need(len(words) == 2, place, 'declare has one word behind it: the predicate')
            names.meet(place, words[1])
            predicates.append((place, words[1]))
        else:
            need(len(words) == 3, place, 'a fact has three words: subject, predicate, object')
            for word in words:
                names.meet(place, word)
            predicates.append((place, words[1]))
            facts.append((place, words))
    names.number_the_others()
    return names, tables(names.terms, predicates, facts)


def tables(terms, predicates, facts):
    """Counted and compared as terms, since a name and its number are one."""
    rows = {}
    for place, predicate in predicates:
        rows.setdefault(terms[predicate], {})
        need(len(rows) <= 16, place, 'a site has at most 16 predicates')
    for count, (place, words) in enumerate(facts, 1):
        need(count <= 1024, place, 'a site has at most 1,024 facts')
        subject, predicate, obj = (terms[word] for word in words)
        first = rows[predicate].setdefault((subject, obj), place)
        need(first == place, place, 'this fact is given by %s already' % first)
    return [(predicate, sorted(rows[predicate])) for predicate in sorted(rows)]


def read_check(path, names):
    """The variables in order of first use, and the triple patterns as numbers 2t and 2v + 1."""
    known, variables, triples = set(names.terms), [], []
    for place, words in lines(path):
        need(len(words) == 3, place, 'a triple pattern has three words: subject, predicate, object')
        need(len(triples) < 8, place, 'a check has at most 8 triple patterns')
        triples.append(words)
        names.meet(place, words[1])
        for word in words[::2]:
            if not word.startswith('?'):
                # A misspelt name would match no fact, and the answer would be none.
                need(word in known or is_digits(word), place, 'the site has no name ' + word)
                names.meet(place, word)
            elif word not in variables:
                need(word != '?', place, 'a variable has a name behind its ?')
                need(len(variables) < 8, place, 'a check has at most 8 variables')
                variables.append(word)
    need(triples, path, 'a check has at least one triple pattern')
    names.number_the_others()
    positions = {word: 2 * term for word, term in names.terms.items()} | {word: 2 * v + 1 for v, word in enumerate(variables)}
    return variables, [[positions[word] for word in words] for words in triples]


def read_texts(folder):
    names, site = read_site(folder / 'site.txt')
    variables, triples = read_check(folder / 'check.txt', names)
    return names, site, variables, triples


def write(folder):
    _, site, _, triples = read_texts(folder)
    (folder / 'site.dat').write_bytes(site_file(site))
    (folder / 'check.dat').write_bytes(pattern_file(triples))


def show(folder):
    answer = ANSWER.fullmatch(sys.stdin.buffer.read().decode('ascii', 'replace'))
    need(answer, 'standard input', 'not what the check program prints')
    none, refusal, count, width, rows = answer.groups()
    if count:
        show_rows(folder, int(count), int(width), [row.split() for row in rows.splitlines()])
    else:
        print(none or 'refused %s: %s' % (refusal, REFUSALS[int(refusal) - 1]))


def show_rows(folder, count, width, rows):
    names, _, variables, _ = read_texts(folder)
    need(width == len(variables), 'standard input', 'rows of width %d for a check of %d variables' % (width, len(variables)))
    whole = len(rows) == count > 0 and all(len(row) == width for row in rows)
    need(whole, 'standard input', 'not the %d rows of width %d that it speaks of' % (count, width))
    name_of = {str(term): word for word, term in names.terms.items() if not is_digits(word)}
    print(*([variable[1:] for variable in variables] or ['no variables: every triple pattern is a fact']))
    for row in rows:
        print(*(name_of.get(term, term) for term in row))


def main(arguments):
    actions = {'write': write, 'show': show}
    if len(arguments) != 2 or arguments[0] not in actions:
        sys.exit(__doc__)
    action, folder = arguments
    try:
        actions[action](pathlib.Path(folder))
    except Mistake as mistake:
        sys.exit(str(mistake))
    except OSError as error:
        sys.exit('%s: %s' % (error.filename or folder, error.strerror))


if __name__ == '__main__':
    main(sys.argv[1:])
