#!/usr/bin/env python3
"""Prints how long each call takes beside the archive of before, from lines of `measure --before`. Usage: beside.py FILE LIMIT

FILE may have several lines of a call; of each archive the least time counts. The status is 1 where a ratio is above LIMIT.
"""
import sys

from report import BEFORE, ENGINE, Line, bounds, least_of, table, time_text


def main(path, limit):
    with open(path) as file:
        measured = least_of(Line(text.rstrip('\n')) for text in file)
    times = {(line.call, line.site, line.check): (line.least(ENGINE), line.least(BEFORE)) for line in measured}
    ratios = {key: ours / before for key, (ours, before) in times.items()}
    ascending = sorted(ratios, key=ratios.get)
    rows = [(*key, *map(time_text, times[key]), '%.3f' % ratios[key]) for key in ascending]
    print('\n'.join(table(('call', 'site', 'check', 'engine', 'before', 'engine / before'), rows)), end='\n\n')
    for call in dict.fromkeys(call for call, _, _ in ratios):
        print(bounds(call, [ratio for key, ratio in ratios.items() if key[0] == call]))
    greatest, above = ascending[-1], sum(ratio > limit for ratio in ratios.values())
    print('The greatest of %d is %.3f, %s; %d are above %s.' % (len(ratios), ratios[greatest], ', '.join(filter(None, greatest)), above, limit))
    return 1 if above else 0


if __name__ == '__main__':
    sys.exit(main(sys.argv[1], float(sys.argv[2])))
