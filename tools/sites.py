"""Sites and checks that the cases share: the shop of document 01, and the graph G1 and the query Q1 of the S2RDF paper."""
from reference import layout, pattern_file, read_site

SHOP = bytes.fromhex('03 01 03 02 02 03 02 0A 14 0B 15 0C 15 0A 1E 0B 1E 14 28 15 29')

# G1 of the paper: A to D are 1 to 4, I1 and I2 are 5 and 6; follows is 10, likes is 11.
G1 = [(10, [(1, 2), (2, 3), (2, 4), (3, 4)]), (11, [(1, 5), (1, 6), (3, 6)])]
# Its store at T 1,000, by hand from Fig. 10: of follows against follows OS has AB BC and SO has BC BD CD; against likes SS has AB CD
# and OS has BC; of likes against follows SO has C I2. OO, which the paper leaves out, has all rows of each against itself and none of the one
# against the other. Tables equal to VP and empty ones are not stored.
G1_WORDS = [
    2, 1000, 73,
    10, 4, 41, 11, 3, 49,
    4, 0, 2, 55, 3, 59, 4, 0,  2, 65, 1, 69, 0, 0, 0, 0,
    3, 0, 0, 0, 1, 71, 0, 0,  3, 0, 0, 0, 0, 0, 3, 0,
    1, 2, 2, 3, 2, 4, 3, 4,  1, 5, 1, 6, 3, 6,
    1, 2, 2, 3,  2, 3, 2, 4, 3, 4,  1, 2, 3, 4,  2, 3,  3, 6,
]

SHOP_WORDS = layout(1000, read_site(SHOP))
# ?0 covers ?1, ?0 in ?2, ?1 state 41
CHECK = bytes.fromhex('03 01 02 03 01 04 05 03 06 52')
CHECK_PLAN = bytes.fromhex('02 00 00 05 01 00')
# the plan that was chosen while a choice was 1 + 3j + k, which must be made anew
CHECK_PLAN_OF_BEFORE = bytes.fromhex('02 00 00 04 01 00')
# the paper's Q1 over G1: ?0 likes ?1, ?0 follows ?2, ?2 follows ?3, ?3 likes ?1
Q1 = pattern_file([(1, 22, 3), (1, 20, 5), (5, 20, 7), (7, 22, 3)])
# ?0 in 30, ?0 covers ?1, ?1 state 41: Algorithm 4 taken literally goes from the first to the last, a cross join
STAR_OF_TERMS = bytes.fromhex('03 01 04 3C 01 02 03 03 06 52')
# case (i): ?0 in ?1, ?1 covers ?2; None by the counts, and planned all the same
NONE_BY_COUNTS = bytes.fromhex('02 01 04 03 03 02 05')
# two predicates with a row each, so that a case is small
SMALL_WORDS = layout(1000, [(1, [(1, 2)]), (2, [(2, 3)])])
# Two sensors on one door: 1 and 2 share doors as objects, and 3 leads from some of them to doors that no sensor covers.
DOORS = [(1, [(10, 20), (11, 21), (12, 21), (13, 22)]), (2, [(14, 21), (15, 22), (15, 23)]), (3, [(20, 24), (21, 26)])]
DOORS_WORDS = layout(1000, DOORS)
# ?0 1 ?1, ?2 2 ?1; with ?3 1 ?1; with ?1 3 ?3; and ?0 1 ?1, ?2 3 ?1, of which OO is empty
ONE_DOOR = pattern_file([(1, 2, 3), (5, 4, 3)])
THREE_ON_A_DOOR = pattern_file([(1, 2, 3), (5, 4, 3), (7, 2, 3)])
DOOR_THAT_LEADS = pattern_file([(1, 2, 3), (5, 4, 3), (3, 6, 7)])
NO_DOOR_SHARED = pattern_file([(1, 2, 3), (5, 6, 3)])
# S-16: ?0 1 ?1, ?1 2 ?2, ?0 2 ?1, a ring: when the first is taken, both variables of the last are met
RINGS = [(1, [(10, 20), (11, 21), (12, 20)]), (2, [(10, 20), (11, 20), (20, 30), (20, 31), (21, 30)])]
RING = pattern_file([(1, 2, 3), (3, 4, 5), (1, 4, 3)])
# Terms that are equal in their last 23, 16 or 10 bits, of predicates that are so too: taken for equal, they would change every semi-join.
FAR, HALF = 2**24 - 65536, 2**23
SPREAD = [
    (1, [(5, 65541), (5, FAR + 9), (1029, 7), (65541, 1029), (HALF + 5, HALF + 7), (FAR + 5, 65543)]),
    (65537, [(7, 5), (1029, 65541), (65541, 2053), (HALF + 1029, HALF + 5), (FAR + 7, FAR + 5)]),
    (FAR + 1, [(5, FAR + 5), (65541, FAR + 7), (FAR + 9, 65541)]),
]
# ?0 1 ?1, ?1 65,537 ?2; and ?0 1 ?1, ?0 16,711,681 ?2, ?3 65,537 ?2
SPREAD_PATH = pattern_file([(1, 2, 3), (3, 2 * 65537, 5)])
SPREAD_STAR = pattern_file([(1, 2, 3), (1, 2 * (FAR + 1), 5), (7, 2 * 65537, 5)])
