"""The further cases of `build`: T, the site's file, the words lent."""
from making import BAD_FORM, faults_apart, joined
from reference import MOST_TERM, layout, number, read_site, site_file
from sites import DOORS, G1, SHOP, SPREAD

# A good file as its numbers, and each single fault in it: the place of a number, and the bytes that stand there instead.
NUMBERS = [2, 5, 2, 6, 2, 4, 2, 4, 3, 1, 1, 2, 0]
T_PLACE, END_PLACE, STORE_PLACE = -1, len(NUMBERS), len(NUMBERS) + 1
FAULTS = (
    [(T_PLACE, b''), (END_PLACE, b'\x00'), (STORE_PLACE, b'')]
    + [(place, BAD_FORM) for place in range(len(NUMBERS))]
    + [(0, number(17)), (1, number(MOST_TERM + 1)), (3, number(5)), (2, number(1025)), (4, number(1025))]
    + [(place, number(MOST_TERM + 1)) for place in range(5, len(NUMBERS))]
    + [(8, number(2)), (11, number(1))]
)


def faulty(there):
    """The case of the good file with the faults that are there."""
    needed = len(layout(1000, read_site(joined(NUMBERS, {}, END_PLACE))))
    return 1001 if T_PLACE in there else 1000, joined(NUMBERS, there, END_PLACE), needed - 1 if STORE_PLACE in there else needed


def cases():
    """(T, file, lent words)"""
    room = 112
    # the shop at thresholds around its one boundary, and in stores of around its size
    for threshold in (0, 1, 500, 666, 667, 999, 1000, 1001, 65536, 2**32 - 1):
        yield threshold, SHOP, room
    for lent in (0, 1, 3, 97, 98, 101, 102, 103):
        yield 1000, SHOP, lent
        yield 666, SHOP, lent
    # every prefix of a good file, and one byte too many
    for end in range(len(SHOP)):
        yield 1000, SHOP[:end], room
    for extra in (0x00, 0x01, 0x80, 0xFF):
        yield 1000, SHOP + bytes([extra]), room
    # G1, and its tables at lower thresholds: selectivities of 1/4, 1/3, 1/2 and 3/4
    for threshold in (1000, 751, 750, 501, 500, 334, 333, 251, 250, 0):
        yield threshold, site_file(G1), room
    # objects that are shared: OO of 3/4 and 2/3 of the rows
    for threshold in (1000, 751, 750, 667, 666, 0):
        yield threshold, site_file(DOORS), 124
    # small sites: none declared, none with rows, the least and the greatest terms, sixteen predicates
    yield 1000, b'\0', 4
    yield 1000, b'\0', 3
    yield 1000, b'\0', 2
    yield 1000, site_file([(0, [])]), 16
    for greatest in (65535, 65536, MOST_TERM):
        yield 1000, site_file([(greatest, [(0, 0), (0, greatest), (greatest, 0), (greatest, greatest)])]), 32
    yield 1000, site_file([(7, []), (8, [(1, 1)]), (9, [])]), 96
    yield 1000, site_file([(p, []) for p in range(16)]), 2112
    yield 1000, site_file([(p, []) for p in range(17)]), 2112
    yield 1000, site_file([(1, [(s, o) for s in range(3) for o in range(3)])]), 64
    yield 1000, site_file([(1, [(1, 2), (2, 1)]), (2, [(1, 2)])]), 64
    # the largest sites: 1,024 rows of one predicate, and 64 of each of sixteen; with one word too few, and, where little is stored, whole
    lone = [(9, [(s, o) for s in range(64) for o in range(s, s + 16)])]
    wide = [(p, [(s, (7 * s + p) % 251) for s in range(p, p + 64)]) for p in range(16)]
    for threshold, site in ((1000, lone), (1000, wide), (0, lone), (0, wide)):
        yield threshold, site_file(site), len(layout(threshold, site)) - 1
    yield 0, site_file(lone), len(layout(0, lone))
    yield 0, site_file(wide), len(layout(0, wide)) + 1
    # numbers that are not whole or not in shortest form, at each kind of place
    for bad in (b'', b'\x80', b'\x81', b'\x80\x00', b'\x81\x00', b'\x80\x80', b'\x80\x80\x00', b'\x81\x80\x00', b'\x80\x80\x80',
                b'\x80\x80\x80\x00', b'\x81\x80\x80\x00', b'\x80\x80\x80\x80', b'\x80\x80\x80\x80\x01', b'\xff\xff\xff\xff\x7f'):
        yield 1000, bad, 8
        yield 1000, b'\x01' + bad, 8
        yield 1000, b'\x01\x05' + bad, 8
        yield 1000, b'\x01\x05\x01' + bad, 8
        yield 1000, b'\x01\x05\x01\x09' + bad, 8
    # a field out of its range, with good form
    for count in (17, 127, 128, 16384, 2097151, 2097152, 2**28 - 1):
        yield 1000, number(count), 8
    # around the greatest term, around the greatest of 16 bits, and a number of four bytes that is above both
    for term in (65535, 65536, 2097151, 2097152, MOST_TERM, MOST_TERM + 1, 2**28 - 1):
        yield 1000, b'\x01' + number(term) + b'\x00', 16
        yield 1000, b'\x01\x05\x01' + number(term) + b'\x01', 16
        yield 1000, b'\x01\x05\x01\x01' + number(term), 16
        yield 1000, b'\x01\x05\x01' + number(term) + number(term), 32
    # terms that are equal in their last 23, 16 or 10 bits
    for threshold in (1000, 400, 0):
        yield threshold, site_file(SPREAD), 240
    yield 1000, b'\x01\x05' + number(1024), 8
    yield 1000, b'\x01\x05' + number(1025), 8
    yield 1000, b'\x02\x05' + number(1000) + b'\x06' + number(24), 8
    yield 1000, b'\x02\x05' + number(1000) + b'\x06' + number(25), 8
    yield 1000, b'\x02\x05' + number(2097151) + b'\x06\x00', 8
    yield 1000, b'\x02\x05' + number(2**28 - 1) + b'\x06\x00', 8
    # out of order: predicates, subjects, objects; equal ones too
    for second in (4, 5, 6):
        yield 1000, site_file([(5, []), (second, [])]), 48
    for row in ((3, 9), (4, 1), (4, 2), (4, 3), (5, 0)):
        yield 1000, site_file([(5, [(4, 2), row])]), 48
    # each table begins anew
    yield 1000, site_file([(5, [(9, 9)]), (6, [(1, 1)])]), 64
    yield from map(faulty, faults_apart(FAULTS))
    # two faults at once, by hand
    yield 1001, b'', 8
    yield 1001, number(17), 8
    yield 1001, SHOP, 0
    yield 1000, b'\x11\x80', 8
    yield 1000, b'\x02\x05' + number(1025) + b'\x05\x00', 8
    yield 1000, b'\x02\x05' + number(1025) + b'\x80\x00', 8
    yield 1000, b'\x02\x05\x00\x05' + number(1025), 8
    yield 1000, b'\x02\x05\x00\x05\x80\x00', 8
    yield 1000, b'\x02\x05\x80\x00\x05\x00', 8
    yield 1000, b'\x02\x05\x01\x05\x01' + number(MOST_TERM + 1), 8
    yield 1000, b'\x02\x05\x01\x06\x01' + number(MOST_TERM + 1) + b'\x80', 8
    yield 1000, b'\x01\x05\x02\x04\x02\x04\x02\x80\x00', 8
    yield 1000, b'\x01\x05\x02\x04\x02\x04' + number(MOST_TERM + 1), 8
    yield 1000, b'\x01\x05\x02\x04\x02\x03' + number(MOST_TERM + 1), 8
    yield 1000, b'\x01\x05\x02\x04\x02\x04\x02\x00', 8
    yield 1000, b'\x01\x05\x03\x04\x02\x04\x02' + number(MOST_TERM + 1), 8
    yield 1000, SHOP + b'\x00', 101
    yield 1000, SHOP[:-1] + b'\x28', 101
    yield 1000, SHOP, 101
