#!/usr/bin/env python3
"""The further cases: what the program `vectors` reads (crates/vectors/stdin) and has to print (crates/vectors/stdout).

Worked out by reference.py from documents 01 and 02, and for the graph G1 from the S2RDF paper; nothing is taken from the engine.
Usage: vectors.py          writes both files
       vectors.py --check  exits 1 where a file is not what this script writes
"""
import os
import sys

import build_cases
import plan_cases
import run_cases
from reference import Refused, build, chain, choices, layout, plan, read_pattern, read_store, run, variables, whether
from sites import CHECK, CHECK_PLAN, G1, G1_WORDS, Q1, RING, RINGS, SHOP, SHOP_WORDS, STAR_OF_TERMS

FOLDER = os.path.join(os.path.dirname(os.path.abspath(__file__)), '..', 'crates', 'vectors')


def case(kind, first=b'', second=b'', number=0, words=0, place=0, lent=0):
    sizes = ((number, 4), (words, 2), (place, 2), (lent, 2), (len(first), 2), (len(second), 2))
    return bytes([kind]) + b''.join(value.to_bytes(size, 'little') for value, size in sizes) + first + second


def memory_text(before, after):
    return (' unaltered' if after == before else ''.join(' %d' % word for word in after)) + '\n'


def built(threshold, data, lent):
    memory = [7] * lent
    try:
        used, words = build(threshold, data, memory)
    except Refused as refusal:
        return 'refused %d unaltered\n' % refusal.args[0]
    return 'built %d' % used + memory_text(memory, words)


def planned(words, pattern):
    """The count of steps, and sixteen numbers, zeros past the last step."""
    try:
        name, steps = 'plan', plan(words, pattern)
    except Refused as refusal:
        name, steps = 'refused %d' % refusal.args[0], []
    numbers = [x for step in steps for x in step]
    return '%s %d:%s\n' % (name, len(steps), ''.join(' %d' % x for x in numbers + [0] * (16 - len(numbers))))


def ran(call, lent, *inputs):
    memory = [7] * lent
    try:
        count, width, words = call(*inputs, memory)
    except Refused as refusal:
        return 'refused %d unaltered\n' % refusal.args[0]
    return ('rows %d %d' % (count, width) if count else 'none') + memory_text(memory, words)


def told(*inputs):
    try:
        return 'yes\n' if whether(*inputs) else 'no\n'
    except Refused as refusal:
        return 'refused %d\n' % refusal.args[0]


def files():
    stdin, stdout = [], []

    def add(expected, *given, **numbers):
        stdin.append(case(*given, **numbers))
        stdout.append(expected)

    for threshold, data, lent in build_cases.cases():
        add(built(threshold, data, lent), 0, data, number=threshold, words=lent)
    for kind, *rest in [*plan_cases.cases(), *run_cases.cases()]:
        if kind == 'hold':
            add('', 1, b''.join(word.to_bytes(4, 'little') for word in rest[0]))
        elif kind == 'chain':
            site, check, lent = rest
            add(ran(chain, lent, site, check), 4, site, check, lent=lent)
        else:
            count, place, value, words, pattern, *given = rest
            over = {'number': value, 'words': count, 'place': place}
            if kind == 'plan':
                add(planned(words, pattern), 2, pattern, **over)
            else:
                steps, lent = given
                expected = ran(run, lent, words, pattern, steps) + told(words, pattern, steps)
                add(expected, 3, pattern, steps, lent=lent, **over)
    return {'stdin': b''.join(stdin), 'stdout': ''.join(stdout).encode()}


def literal_order(words, data):
    """The order of the paper's Algorithm 4 as it is printed: the first that is left, by bound values, holds without its size."""
    threshold, tables = read_store(words)
    pattern = read_pattern(tables, data)
    size = [min(choices(threshold, tables, pattern, i).values()) for i in range(len(pattern))]
    left = sorted(range(len(pattern)), key=lambda i: -sum(x[0] == 'term' for x in pattern[i]))
    met, order = set(), []
    while left:
        best = left[0]
        for i in left[1:]:
            if size[i] < size[best] and variables(pattern[i]) & met:
                best = i
        order.append(best)
        left.remove(best)
        met |= variables(pattern[best])
    return pattern, order


def assert_papers():
    """What the papers print, worked out again."""
    assert layout(1000, G1) == G1_WORDS
    assert build(1000, SHOP, [7] * 102)[0] == 102 and build(666, SHOP, [7] * 102)[0] == 98
    assert plan(SHOP_WORDS, CHECK) == [(2, 0), (0, 5), (1, 0)]
    assert run(SHOP_WORDS, CHECK, CHECK_PLAN, [7] * 4) == (1, 3, [11, 21, 30, 7])
    # the paper's choice for tp3 of Q1 is OS of follows against likes, at place 3; it joins tp3 and tp4 first
    assert plan(G1_WORDS, Q1)[:2] == [(2, 1 + 4 * 3 + 1), (3, 1 + 4 * 2 + 2)]
    # the paper's one row of Q1: ?x A, ?w I2, ?y B, ?z C; in Q1's reading order x, w, y, z are variables 0 to 3
    assert run(G1_WORDS, Q1, bytes([2, 13 + 1, 3, 11, 0, 0, 1, 0]), [7] * 4) == (1, 4, [1, 6, 2, 3])
    # S-16: when place 0 is taken, both variables of place 2 are met and one of place 1
    assert [place for place, _ in plan(layout(1000, RINGS), RING)] == [0, 2, 1]
    # Algorithm 4 taken literally makes a cross join of the first two that it picks; ours picks one that shares a variable
    pattern, literal = literal_order(SHOP_WORDS, STAR_OF_TERMS)
    ours = [place for place, _ in plan(SHOP_WORDS, STAR_OF_TERMS)]
    assert not variables(pattern[literal[0]]) & variables(pattern[literal[1]])
    assert variables(pattern[ours[0]]) & variables(pattern[ours[1]])


def main():
    assert_papers()
    stale = False
    for name, content in files().items():
        path = os.path.join(FOLDER, name)
        if '--check' in sys.argv:
            with open(path, 'rb') as file:
                stale = stale or file.read() != content
        else:
            with open(path, 'wb') as file:
                file.write(content)
    sys.exit('crates/vectors is not what tools/vectors.py writes' if stale else 0)


main()
