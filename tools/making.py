"""How cases are made: over words that are held, from good numbers with faults, and at random."""
from reference import number, pattern_file

NONE = 65535

BAD_FORM = b'\x80\x00'


class Over:
    """Cases over the words held, all of them and unchanged unless it is said otherwise."""

    def __init__(self, words):
        self.words = words

    def held(self):
        return 'hold', self.words

    def over(self, count, place, value):
        count = len(self.words) if count is None else count
        words = self.words[:]
        if place < len(words):
            words[place] = value
        return count, place, value, words[:count]

    def plan(self, pattern, count=None, place=NONE, value=0):
        return 'plan', *self.over(count, place, value), pattern

    def run(self, pattern, steps, lent=24, count=None, place=NONE, value=0):
        return 'run', *self.over(count, place, value), pattern, steps, lent


def faults_apart(faults):
    """No fault, each single one, and each two at different places: the one that is met first is told."""
    yield {}
    for first in faults:
        yield dict([first])
        for second in faults:
            if first[0] < second[0]:
                yield dict([first, second])


def joined(numbers, there, end):
    """The bytes of numbers, others where there is a fault, and what is said to stand behind their end."""
    return b''.join(there.get(place, number(value)) for place, value in enumerate(numbers)) + there.get(end, b'')


def random_numbers(state):
    """Numbers below n, one after the other, the same on every machine."""
    def below(n):
        nonlocal state
        state = (1103515245 * state + 12345) % 2**31
        return (state >> 8) % n
    return below


def random_pattern(below, predicates, most=8, variables=8):
    """A pattern of at most so many triple patterns and variables, in first-use order."""
    seen, pattern = 0, []

    def position():
        nonlocal seen
        if below(4) == 0:
            return 2 * below(6)
        variable = below(min(seen + 1, variables))
        seen = max(seen, variable + 1)
        return 2 * variable + 1

    for _ in range(1 + below(most)):
        subject = position()
        pattern.append((subject, 2 * predicates[below(len(predicates))], position()))
    return pattern_file(pattern)
