"""The further cases of `run`, and of `whether`, which is asked of the same; and of the chain: what the plan's own questions refuse, what
fits, and that every proper plan gives the same rows."""
from itertools import permutations, product

from making import BAD_FORM, Over, faults_apart, joined, random_numbers, random_pattern
from reference import choices, layout, number, pattern_file, plan_file, read_pattern, read_site, site_file
from sites import CHECK, CHECK_PLAN, CHECK_PLAN_OF_BEFORE, DOOR_THAT_LEADS, DOORS, DOORS_WORDS, G1, G1_WORDS, NO_DOOR_SHARED, NONE_BY_COUNTS, ONE_DOOR, Q1, RING, RINGS, SHOP, SHOP_WORDS, SMALL_WORDS, SPREAD, SPREAD_PATH, SPREAD_STAR, STAR_OF_TERMS, THREE_ON_A_DOOR


def given_plans():
    """Questions 10 to 20 of a run, and both plans of case (c)."""
    shop = Over(SHOP_WORDS)
    yield shop.held()
    for steps in (CHECK_PLAN, bytes.fromhex('00 00 01 00 02 00')):
        yield shop.run(CHECK, steps)
        for end in range(len(steps)):
            yield shop.run(CHECK, steps[:end])
        for extra in (0x00, 0x80):
            yield shop.run(CHECK, steps + bytes([extra]))
    yield shop.run(CHECK, CHECK_PLAN_OF_BEFORE)
    # every choice at every place
    for place in range(3):
        for choice in list(range(16)) + [127, 128, 65536, 2097151, 2097152, 2**28 - 1]:
            yield shop.run(CHECK, plan_file([(place, choice)] + [(other, 0) for other in range(3) if other != place]))
    # not stored at this T
    low = Over(layout(666, read_site(SHOP)))
    yield low.held()
    yield low.run(CHECK, CHECK_PLAN)
    yield low.run(CHECK, bytes.fromhex('02 00 00 00 01 00'))
    graph = Over(G1_WORDS)
    yield graph.held()
    for place in range(4):
        for choice in range(19):
            yield graph.run(Q1, plan_file([(place, choice)] + [(other, 0) for other in range(4) if other != place]))
    doors = Over(DOORS_WORDS)
    yield doors.held()
    for place in range(3):
        for choice in range(15):
            yield doors.run(THREE_ON_A_DOOR, plan_file([(place, choice)] + [(other, 0) for other in range(3) if other != place]))
    # faults of a plan
    small = Over(SMALL_WORDS)
    yield small.held()
    numbers = [1, 0, 0, 0]
    pattern = pattern_file([(1, 2, 3), (3, 4, 5)])
    faults = (
        [(len(numbers), b'\0'), (0, number(2)), (2, number(1)), (2, number(2)), (0, number(128))]
        + [(place, BAD_FORM) for place in range(4)]
        # four bytes are a number of good form, too large for its field; five are none
        + [(place, bad) for place in range(4) for bad in (number(2**28 - 1), b'\x80\x80\x80\x80\x01')]
        + [(place, number(choice)) for place in (1, 3) for choice in (1, 2, 5, 7, 8, 9, 33, 200)]
    )
    for there in faults_apart(faults):
        yield small.run(pattern, joined(numbers, there, len(numbers)))
    # 19 before a choice cut off, 20 before extra bytes, the pattern's questions before the plan's
    yield small.run(pattern, bytes([2]))
    yield small.run(pattern, bytes([1, 0, 1]))
    yield small.run(pattern, bytes([1, 0, 0, 1, 0]))
    yield small.run(pattern, b'')
    yield small.run(pattern[:-1], b'\x80')
    yield small.run(pattern + b'\0', bytes([9, 9]))
    yield small.run(b'\0', b'')
    yield small.run(pattern, b'', count=len(SMALL_WORDS) - 1)
    yield small.run(b'', b'\x80', place=1, value=1001)


def in_order(count):
    """The plan that takes the places as they are written, each with its VP table."""
    return plan_file([(place, 0) for place in range(count)])


def open_choices(threshold, site, pattern):
    """For each place of an accepted pattern the choices that question 20 leaves open."""
    tables = dict(site)
    triples = read_pattern(tables, pattern)
    return [sorted(choices(threshold, tables, triples, place)) for place in range(len(triples))]


def proper_plans(threshold, site, pattern):
    by_place = open_choices(threshold, site, pattern)
    for places in permutations(range(len(by_place))):
        for chosen in product(*(by_place[place] for place in places)):
            yield plan_file(zip(places, chosen))


def every_plan():
    """Demand 3: every proper plan of a small pattern gives the same rows."""
    for threshold, site, patterns in (
        (1000, read_site(SHOP), (CHECK, STAR_OF_TERMS, NONE_BY_COUNTS, bytes.fromhex('02 01 04 3C 03 06 52'))),
        (1000, G1, (pattern_file([(1, 20, 3), (3, 20, 5)]), pattern_file([(1, 22, 3), (1, 20, 5), (5, 20, 7)]), pattern_file([(1, 20, 3), (1, 20, 3)]))),
        (600, G1, (pattern_file([(1, 20, 3), (3, 20, 5), (5, 22, 7)]), Q1)),
        (1000, [(1, [(1, 1), (1, 2), (2, 2), (3, 1)]), (2, [(1, 3), (2, 2)])], (pattern_file([(1, 2, 1), (1, 4, 3), (3, 2, 5)]),)),
        (1000, SPREAD, (SPREAD_PATH, SPREAD_STAR)),
        (1000, DOORS, (ONE_DOOR, THREE_ON_A_DOOR, DOOR_THAT_LEADS, NO_DOOR_SHARED)),
        (1000, RINGS, (RING,)),
    ):
        over = Over(layout(threshold, site))
        yield over.held()
        for pattern in patterns:
            for steps in proper_plans(threshold, site, pattern):
                yield over.run(pattern, steps)
    # the paper's Q1 at T 1,000: the plan of its own figure first, then every order with the choices in turn
    graph = Over(G1_WORDS)
    yield graph.held()
    yield graph.run(Q1, plan_file([(2, 14), (3, 11), (0, 0), (1, 0)]))
    by_place = open_choices(1000, G1, Q1)
    for turn, places in enumerate(permutations(range(4))):
        yield graph.run(Q1, plan_file([(place, by_place[place][turn % len(by_place[place])]) for place in places]))


def around(over, pattern, steps, words):
    """Rows that need so many words: exactly enough, one fewer, one more, none."""
    for lent in sorted({words, max(words, 1) - 1, words + 1, 0}):
        yield over.run(pattern, steps, lent)


def fitting():
    """Question 21, and what stands past the rows."""
    shop = Over(SHOP_WORDS)
    yield shop.held()
    yield from around(shop, CHECK, CHECK_PLAN, 3)
    yield from around(shop, bytes.fromhex('02 01 04 3C 03 06 52'), in_order(2), 4)
    # None and width 0 ask for no words
    for pattern in ('01 14 02 28', '01 14 02 2A', '01 01 02 01', '02 14 02 28 16 02 2A', '02 14 02 28 14 02 28'):
        yield from around(shop, bytes.fromhex(pattern), in_order(int(pattern[1])), 0)
    yield from around(shop, NONE_BY_COUNTS, in_order(2), 0)
    # V of 1 to 8, along a path, in a star and by free triple patterns
    path = Over(layout(1000, [(1, [(1, 2), (2, 3), (3, 1)]), (2, [(1, 1), (1, 5)])]))
    yield path.held()
    for width in range(2, 9):
        along = [(2 * v + 1, 2, 2 * v + 3) for v in range(width - 1)]
        yield from around(path, pattern_file(along), in_order(width - 1), 3 * width)
        yield from around(path, pattern_file(along), plan_file([(place, 0) for place in reversed(range(width - 1))]), 3 * width)
    for width in range(2, 8):
        star = [(1, 4, 2 * v + 3) for v in range(width - 1)]
        yield from around(path, pattern_file(star), in_order(width - 1), 2 ** (width - 1) * width)
    yield from around(path, pattern_file([(1, 2, 4)]), in_order(1), 1)
    yield from around(path, pattern_file([(1, 4, 1)]), in_order(1), 1)
    yield from around(path, pattern_file([(1, 2, 3), (5, 2, 7)]), in_order(2), 36)
    # eight triple patterns that share nothing, a variable each: 2^72 rows, and 21 at once
    wide = Over(layout(0, [(1, [(9, o) for o in range(512)]), (2, [(9, 9)])]))
    yield wide.held()
    free = pattern_file([(18, 2, 2 * v + 1) for v in range(8)])
    for lent in (0, 7, 8, 15, 400):
        yield wide.run(free, in_order(8), lent)
    yield wide.run(pattern_file([(18, 2, 1)]), in_order(1), 512)
    yield wide.run(pattern_file([(18, 2, 1)]), in_order(1), 511)
    # the rows of one table, in an order that the join does not give
    turned = Over(layout(1000, [(1, [(s, (7 * s) % 31) for s in range(31)])]))
    yield turned.held()
    yield turned.run(pattern_file([(1, 2, 3), (5, 2, 1)]), plan_file([(1, 0), (0, 0)]), 93)
    yield turned.run(pattern_file([(1, 2, 3), (5, 2, 1)]), plan_file([(1, 0), (0, 0)]), 92)


def empty_tables():
    """None from the counts comes behind 18 to 20, and never in the place of 14."""
    site = [(1, [(1, 2), (4, 5)]), (2, []), (3, [(2, 9)]), (4, [(7, 7)])]
    over = Over(layout(1000, site))
    yield over.held()
    # of VP; of SS, OS, SO and OO, where each has rows in VP
    for pattern in ([(1, 4, 3)], [(1, 2, 3), (5, 4, 7)], [(1, 6, 3), (1, 8, 5)], [(1, 2, 3), (3, 8, 5)], [(1, 6, 3), (5, 8, 1)], [(1, 2, 3), (5, 6, 3)], [(1, 2, 3), (1, 2, 1)]):
        data = pattern_file(pattern)
        yield over.run(data, in_order(len(pattern)))
        yield over.run(data, in_order(len(pattern)), 0)
        for bad in (b'', b'\x80', b'\x08\x00', b'\x00\x01', in_order(len(pattern)) + b'\0', in_order(len(pattern))[:-1]):
            yield over.run(data, bad)
    yield over.run(pattern_file([(1, 4, 3), (1, 10, 3)]), in_order(2))


def at_random():
    """Random checks with random proper plans, and memory that often does not suffice."""
    sites = [
        read_site(SHOP), G1, [(1, [(s, (3 * s) % 5) for s in range(5)]), (2, [(s, s) for s in range(2)]), (5, []), (9, [(2, 0), (4, 3)])],
        [(0, [(0, 0), (0, 1), (1, 1)]), (1, [(1, 0), (2, 1)]), (2, [(0, 2), (1, 2), (2, 2)])],
    ]
    for threshold in (1000, 700, 0):
        for site in sites:
            below = random_numbers(7 * threshold + len(site))
            over = Over(layout(threshold, site))
            yield over.held()
            for _ in range(40):
                pattern = random_pattern(below, [predicate for predicate, rows in site if rows], 5)
                by_place = open_choices(threshold, site, pattern)
                left, steps = list(range(len(by_place))), []
                while left:
                    place = left.pop(below(len(left)))
                    steps.append((place, by_place[place][below(len(by_place[place]))]))
                yield over.run(pattern, plan_file(steps), (0, 5, 24, 60, 400)[below(5)])


def chains():
    """(site, check, lent row words)"""
    for lent in (0, 2, 3, 4, 24):
        yield SHOP, CHECK, lent
    # the site's questions before the check's, and the check's before the rows
    for end in range(len(SHOP)):
        yield SHOP[:end], CHECK, 3
    yield SHOP + b'\0', b'', 3
    for end in range(len(CHECK)):
        yield SHOP, CHECK[:end], 3
    yield SHOP, CHECK + b'\0', 0
    # no door open; width 0, both ways; a variable named twice; a cross join; None by the counts
    for check in ('03 01 02 03 01 04 05 03 06 54', '01 14 02 28', '01 14 02 2A', '01 01 02 01', '02 01 04 3C 03 06 52', '02 01 04 03 03 02 05'):
        yield SHOP, bytes.fromhex(check), 24
        yield SHOP, bytes.fromhex(check), 0
    # a zone list that failed to load is refused, never none: no bytes, no predicate, no zones declared; declared with no rows it is none
    for site in (b'', b'\0', site_file([(1, [(10, 20)]), (3, [(20, 41)])]), site_file([(1, [(10, 20)]), (2, []), (3, [(20, 41)])])):
        yield site, CHECK, 24
    yield site_file(G1), Q1, 4
    yield site_file(G1), Q1, 3
    for check in (SPREAD_PATH, SPREAD_STAR):
        yield site_file(SPREAD), check, 24
    for check in (ONE_DOOR, THREE_ON_A_DOOR, NO_DOOR_SHARED):
        yield site_file(DOORS), check, 24
    yield site_file(RINGS), RING, 24
    # a store of 8,192 words does not hold every site: 9, also of one that it held while three kinds were listed; and one that it holds
    for rows in (64, 10, 8):
        yield site_file([(p, [(s, s + p % 2) for s in range(rows)]) for p in range(16)]), pattern_file([(2, 2, 1)]), 24


def cases():
    for group in (given_plans, every_plan, fitting, empty_tables, at_random):
        yield from group()
    for site, check, lent in chains():
        yield 'chain', site, check, lent
