"""The further cases of `plan`: a store's words, then what is asked over them."""
from making import BAD_FORM, Over, faults_apart, joined, random_numbers, random_pattern
from reference import KINDS, MOST_TERM, layout, number, pattern_file, read_site
from sites import CHECK, DOOR_THAT_LEADS, DOORS, DOORS_WORDS, G1, G1_WORDS, NO_DOOR_SHARED, NONE_BY_COUNTS, ONE_DOOR, Q1, RINGS, SHOP, SHOP_WORDS, SMALL_WORDS, STAR_OF_TERMS, THREE_ON_A_DOOR


def stores():
    """Question 10."""
    shop = Over(SHOP_WORDS + [9, 0, 7])
    yield shop.held()
    used = len(SHOP_WORDS)
    for place in range(used):
        for value in ((SHOP_WORDS[place] + 1) % 2**32, (SHOP_WORDS[place] - 1) % 2**32):
            yield shop.plan(CHECK, count=used, place=place, value=value)
    for count in range(used + 4):
        yield shop.plan(CHECK, count=count)
    # junk past the words used is not looked at
    for place in range(used, used + 3):
        yield shop.plan(CHECK, place=place, value=2**32 - 1)
    # T changed: without moving the one stored table, and with
    for threshold in (999, 667, 666, 500, 0, 1001, 2**32 - 1):
        yield shop.plan(CHECK, place=1, value=threshold)
    # no store and a bad pattern: 10 first
    yield shop.plan(b'', count=0)
    yield shop.plan(b'', place=0, value=2)
    yield shop.plan(b'\0', count=used - 1)
    # zeros only
    zeros = Over([0] * 112)
    yield zeros.held()
    for count in (0, 1, 2, 3, 4, 102, 112):
        yield zeros.plan(CHECK, count=count)
    # each word of a store that holds OO tables
    doors = Over(DOORS_WORDS)
    yield doors.held()
    for place, word in enumerate(DOORS_WORDS):
        for value in (word + 1, (word - 1) % 2**32):
            yield doors.plan(ONE_DOOR, place=place, value=value)
    # stores of before S-14, which list three kinds: 10, but where there is no predicate
    for site in ([], [(1, [])], read_site(SHOP), G1, DOORS):
        before = Over(layout(1000, site, KINDS[:3]))
        yield before.held()
        yield before.plan(CHECK)
        yield before.plan(b'')
    # stores of other sites: none declared, none with rows, sixteen predicates, 1,024 rows; each with a pattern that it refuses or not
    good = (
        [[0, 1000, 3], [0, 0, 3], layout(500, [(1, []), (2, [])]), layout(1000, [(p, []) for p in range(1, 17)])]
        + [layout(threshold, G1) for threshold in (0, 250, 251, 334, 500, 501, 1000)]
        + [layout(0, [(1, [(s, o) for s in range(32) for o in range(32)])])]
        + [layout(1000, [(1, [(65536, 1)])]), layout(1000, [(1, [(MOST_TERM, MOST_TERM)])]), layout(1000, [(65536, []), (MOST_TERM, [])])]
    )
    # consistent images of no site: P 17, T 1,001, 1,025 rows, rows out of order, equal rows, terms above the greatest, predicates out of order
    bad = [
        layout(1000, [(p, []) for p in range(1, 18)]),
        layout(1001, read_site(SHOP)),
        layout(1000, [(1, [(s, o) for s in range(25) for o in range(41)])]),
        layout(1000, [(1, [(2, 2), (1, 1)])]),
        layout(1000, [(1, [(1, 2), (1, 1)])]),
        layout(1000, [(1, [(1, 1), (1, 1)])]),
        layout(1000, [(1, [(MOST_TERM + 1, 1)])]),
        layout(1000, [(1, [(1, MOST_TERM + 1)])]),
        layout(1000, [(MOST_TERM + 1, []), (MOST_TERM + 2, [])]),
        layout(1000, [(1, [(2**31, 1)])]),
        layout(1000, [(1, [(1, 2**32 - 1)])]),
        layout(1000, [(1, [(1, 2**31), (1, 2**31 + 1)])]),
        layout(1000, [(2, []), (1, [])]),
        layout(1000, [(1, []), (1, [])]),
    ]
    for words in good + bad:
        over = Over(words)
        yield over.held()
        yield over.plan(pattern_file([(1, 2, 3)]))
        yield over.plan(pattern_file([(1, 4, 3), (3, 4, 5)]))
        yield over.plan(pattern_file([(1, 20, 3), (3, 20, 5)]))
    # fewer words than used, and more used than there are
    for used_word in (0, 2, 3, 14, 15, 16, 17, 2**32 - 1):
        over = Over([1, 1000, used_word, 1, 0, 14, 0, 0, 0, 0, 0, 0, 0, 0, 5, 5])
        yield over.held()
        yield over.plan(pattern_file([(1, 2, 3)]))


# A good pattern as its numbers, and the faults that each number can have.
NUMBERS = [2, 1, 2, 3, 3, 4, 16]
STORE_PLACE, END_PLACE = -1, len(NUMBERS)
WIDE_TERM, FAR_VARIABLE, NOT_NEXT = number(2 * (MOST_TERM + 1)), number(2 * 8 + 1), number(2 * 5 + 1)
FAULTS = (
    [(STORE_PLACE, b''), (END_PLACE, b'\0'), (0, number(0)), (0, number(9))]
    + [(place, BAD_FORM) for place in range(len(NUMBERS))]
    + [(place, fault) for place in (1, 3, 4, 6) for fault in (WIDE_TERM, FAR_VARIABLE, NOT_NEXT)]
    + [(place, fault) for place in (2, 5) for fault in (number(3), WIDE_TERM, number(6))]
)


def patterns():
    """Questions 11 to 17."""
    small = Over(SMALL_WORDS)
    yield small.held()
    for there in faults_apart(FAULTS):
        yield small.plan(joined(NUMBERS, there, END_PLACE), count=len(SMALL_WORDS) - (STORE_PLACE in there))
    # N at its limits, with good form and without
    triple = bytes([1, 2, 1])
    for count in (0, 1, 2, 7, 8, 9, 127, 128, 16384, 2097151, 2097152, 2**28 - 1):
        yield small.plan(number(count) + triple * count if count < 10 else number(count))
    for bad in (b'', b'\x80', b'\x81\x00', b'\x80\x80\x80', b'\x81\x80\x00', b'\x81\x80\x80\x00', b'\x80\x80\x80\x80', b'\x80\x80\x80\x80\x01'):
        yield small.plan(bad)
        yield small.plan(b'\x01' + bad)
        yield small.plan(b'\x01\x01' + bad)
        yield small.plan(b'\x01\x01\x02' + bad)
    # terms at their limit, predicates odd, even but too large, and undeclared: 14, never None
    for value in (2 * 65535, 2 * 65536, 2097150, 2097152, 2 * MOST_TERM, 2 * (MOST_TERM + 1), 2**28 - 2):
        yield small.plan(b'\x01' + number(value) + b'\x02\x01')
        yield small.plan(b'\x01\x01\x02' + number(value))
        yield small.plan(b'\x01\x01' + number(value) + b'\x03')
    for value in (0, 1, 3, 5, 6, 15, 17, 2097151, 2 * MOST_TERM + 1, 2**28 - 1):
        yield small.plan(b'\x01\x01' + number(value) + b'\x03')
    yield small.plan(bytes([1, 1, 6]))
    # eight variables, a ninth, one named twice, and each that is not the next
    eight = [(1, 2, 3), (5, 2, 7), (9, 2, 11), (13, 2, 15)]
    yield small.plan(pattern_file(eight))
    yield small.plan(pattern_file(eight + [(17, 2, 1)]))
    yield small.plan(pattern_file(eight + [(1, 2, 17)]))
    yield small.plan(pattern_file([(1, 2, 1)]))
    for variable in range(9):
        yield small.plan(pattern_file([(1, 2, 2 * variable + 1)]))
        yield small.plan(pattern_file([(2 * variable + 1, 2, 1)]))
        yield small.plan(pattern_file([(1, 2, 3), (2 * variable + 1, 4, 2)]))
    # the shop's check cut at every byte, and one byte too many
    shop = Over(SHOP_WORDS)
    yield shop.held()
    for end in range(len(CHECK) + 1):
        yield shop.plan(CHECK[:end])
    for extra in (0x00, 0x01, 0x80, 0xFF):
        yield shop.plan(CHECK + bytes([extra]))


def first_uses(count, seen=0):
    """Every list of so many variables, as positions, in first-use order."""
    if count == 0:
        yield []
        return
    for variable in range(seen + 1):
        for others in first_uses(count - 1, max(seen, variable + 1)):
            yield [2 * variable + 1, *others]


def plans():
    """The planner: its choices, its order, and every tie."""
    shop = Over(SHOP_WORDS)
    yield shop.held()
    for pattern in (CHECK, STAR_OF_TERMS, NONE_BY_COUNTS, bytes.fromhex('01 14 02 28'), bytes.fromhex('01 14 02 2A'),
                    bytes.fromhex('01 01 02 01'), bytes.fromhex('02 01 04 3C 03 06 52')):
        yield shop.plan(pattern)
    graph = Over(G1_WORDS)
    yield graph.held()
    yield graph.plan(Q1)
    # equal terms and rows at two places; equal triple patterns; equal terms are no equal variables
    yield graph.plan(pattern_file([(1, 20, 3), (5, 20, 7)]))
    yield graph.plan(pattern_file([(1, 20, 3), (1, 20, 3)]))
    yield graph.plan(pattern_file([(2, 20, 1), (2, 22, 1)]))
    yield graph.plan(pattern_file([(2, 20, 4), (2, 22, 4), (4, 20, 2)]))
    # more terms win over fewer rows, and only those that share a variable compete
    yield graph.plan(pattern_file([(1, 22, 3), (5, 20, 4)]))
    yield graph.plan(pattern_file([(1, 20, 3), (5, 22, 7), (3, 20, 2)]))
    # two partners with equal rows, and two kinds with equal rows
    yield graph.plan(pattern_file([(1, 20, 3), (3, 22, 5), (3, 22, 7)]))
    ties = Over(layout(1000, [(1, [(1, 1), (2, 5), (3, 6)]), (2, [(1, 1)]), (3, [(1, 1)])]))
    yield ties.held()
    yield ties.plan(pattern_file([(1, 2, 1), (1, 4, 1)]))
    yield ties.plan(pattern_file([(1, 2, 3), (1, 6, 5), (1, 4, 7)]))
    yield ties.plan(pattern_file([(1, 2, 3), (3, 4, 1), (3, 6, 1)]))
    # SS and OO with equal rows; OO against two partners; OO that is empty
    yield ties.plan(pattern_file([(1, 2, 3), (1, 4, 3)]))
    yield ties.plan(pattern_file([(1, 2, 3), (5, 4, 3), (7, 6, 3)]))
    doors = Over(DOORS_WORDS)
    yield doors.held()
    for pattern in (ONE_DOOR, THREE_ON_A_DOOR, DOOR_THAT_LEADS, NO_DOOR_SHARED, pattern_file([(1, 2, 42), (3, 4, 42)])):
        yield doors.plan(pattern)
    # the rows of the table chosen decide the order, not those of VP
    yield ties.held()
    yield ties.plan(pattern_file([(1, 4, 3), (5, 2, 7), (5, 4, 5)]))
    # S-16: every check of three triple patterns, by which of its variables are the same; and long ones of few variables
    for threshold in (1000, 0):
        rings = Over(layout(threshold, RINGS))
        yield rings.held()
        for subject, obj, *others in first_uses(6):
            yield rings.plan(pattern_file([(subject, 2, obj), (others[0], 4, others[1]), (others[2], 4, others[3])]))
        below = random_numbers(threshold)
        for _ in range(60):
            yield rings.plan(random_pattern(below, [1, 2], variables=4))
    # many patterns
    sites = [read_site(SHOP), G1, [(1, [(s, (3 * s) % 5) for s in range(6)]), (2, [(s, s) for s in range(2)]), (5, []), (9, [(2, 0), (4, 3)])]]
    for threshold in (1000, 600, 0):
        for site in sites:
            below = random_numbers(threshold + len(site))
            over = Over(layout(threshold, site))
            yield over.held()
            for _ in range(40):
                yield over.plan(random_pattern(below, [predicate for predicate, _ in site]))


def cases():
    for group in (stores, patterns, plans):
        yield from group()
