#!/usr/bin/env python3
"""Writes bench/RESULTS.md and bench/plot.svg from what bench/run measured. Usage: report.py FOLDER COMMIT

FOLDER holds what was measured; COMMIT is that of the archive of before.
"""
from bisect import bisect_left, bisect_right
import glob
import math
from operator import le, lt
import os
import platform
import re
import sys
from unittest.mock import patch

HERE = os.path.dirname(os.path.abspath(__file__))
sys.path.insert(0, os.path.join(HERE, '..', 'tools'))

import reference
from reference import KINDS, chosen_table, extended, layout, plan, qualifies, read_pattern, read_site, semi_join

ENGINE, PLAIN, BEFORE, BEST, QUERY, CHECKED = range(6)


def lines(folder, name):
    with open(os.path.join(folder, name)) as file:
        return [line.rstrip('\n') for line in file]


class Line:
    """One line of times.txt: a call on a site, with each engine's median, quartiles and least."""

    def __init__(self, text):
        self.call, self.site, rows, self.check, count, found, *times = text.split('\t')
        self.rows, self.count, self.found = int(rows), int(count), int(found)
        self.times = [tuple(float(x) for x in times[4 * e:4 * e + 4]) for e in range(6)]

    def median(self, engine):
        return self.times[engine][0]

    def spread(self, engine):
        middle, low, high, _ = self.times[engine]
        return (high - low) / middle if middle else 0

    def least(self, engine):
        return self.times[engine][3]

    def ratio(self, engine):
        """The engine's time over another's."""
        return self.median(ENGINE) / self.median(engine) if self.median(engine) else None


def least_of(measured):
    """A line for each call, site and check: of several lines of one the least times count."""
    kept = {}
    for line in measured:
        known = kept.setdefault((line.call, line.site, line.check), line)
        known.times = [tuple(map(min, zip(*times))) for times in zip(known.times, line.times)]
    return list(kept.values())


def inputs(folder):
    """The sites with their checks."""
    sites = []
    for line in lines(folder, 'inputs.txt'):
        kind, name, data = line.split('\t')
        if kind == 'site':
            sites.append((name, read_site(bytes.fromhex(data)), []))
        else:
            sites[-1][2].append((name, bytes.fromhex(data)))
    return sites


# ---- what is counted, by computation

def first_partner(values, value):
    return values.index(value) + 1 if value in values else len(values)


def comparisons(site):
    """Of one pass over all semi-joins: a row is compared with partners up to its first."""
    return sum(first_partner([row[other] for row in q], row[own]) for _, p in site for _, q in site for own, other in KINDS for row in p)


def searches(site):
    """Of one pass with a binary search for each row's partner: the steps of the searches."""
    return sum(math.ceil(math.log2(len(q) + 1)) for _, p in site for _, q in site for _ in KINDS for _ in p)


def known_subject(triple, terms):
    kind, value = triple[0]
    return value if kind == 'term' else terms.get(value)


def rows_read(site, check, steps):
    """Each partial solution reads every row of the next table; and how many rows a search by a known subject would leave to read."""
    tables, partials, read, searched = dict(site), [{}], 0, 0
    pattern = read_pattern(tables, check)
    for place, choice in steps:
        table = chosen_table(tables, pattern, place, choice)
        subjects = [row[0] for row in table]
        read += len(partials) * len(table)
        for terms in partials:
            subject = known_subject(pattern[place], terms)
            searched += len(table) if subject is None else bisect_right(subjects, subject) - bisect_left(subjects, subject)
        partials = [more for terms in partials for row in table if (more := extended(pattern[place], row, terms)) is not None]
    return read, searched


def plan_of_before(words, check):
    """What the planner made of a check before S-16, while only written terms counted."""
    with patch.object(reference, 'counts_as_term', lambda position, met: position[0] == 'term'):
        return plan(words, check)


def none_by_counts(site, check):
    """Whether a table of the check has no rows, or one that qualifies: that is answered before a row is read."""
    tables = dict(site)
    pattern = read_pattern(tables, check)
    named = [tables[predicate] for _, (_, predicate), _ in pattern]
    return not all(named) or any(qualifies(pattern, i, j, kind) and not semi_join(p, q, kind)
                                 for i, p in enumerate(named) for j, q in enumerate(named) for kind in KINDS)


def rows_of_run(site, check, planner=plan):
    """What rows_read counts, of the planner's own plan."""
    return (0, 0) if none_by_counts(site, check) else rows_read(site, check, planner(layout(1000, site), check))


# ---- text

def time_text(nanoseconds):
    for unit, size in (('ms', 1e6), ('µs', 1e3)):
        if nanoseconds >= size:
            return '%.3g %s' % (nanoseconds / size, unit)
    return '%.0f ns' % nanoseconds


def timed(line, engine):
    """The median, and half of the distance between the quartiles; nothing of an engine that was not timed."""
    return '%s ± %.0f %%' % (time_text(line.median(engine)), 50 * line.spread(engine)) if line.median(engine) else ''


def cell(value, form='%.2f'):
    return form % value if value is not None else ''


def table(head, rows):
    out = ['| ' + ' | '.join(head) + ' |', '|' + '---|' * len(head)]
    return out + ['| ' + ' | '.join(str(x) for x in row) + ' |' for row in rows]


def found_text(found):
    return 'more than fit' if found < 0 else 'none' if found == 0 else '{:,}'.format(found)


def exponent(points):
    """Of time in rows: the slope of the line through the logarithms."""
    xs, ys = [math.log(x) for x, _ in points], [math.log(y) for _, y in points]
    mx, my = sum(xs) / len(xs), sum(ys) / len(ys)
    return sum((x - mx) * (y - my) for x, y in zip(xs, ys)) / sum((x - mx) ** 2 for x in xs)


def shops(measured, call, check):
    return [(line.rows, line) for line in measured if line.site.startswith('shop of') and line.call == call and line.check == check]


GROWTH = [('build', ''), ('plan', 'path: sensors of open doors'), ('run', 'path: sensors of open doors'), ('run', 'star: door, zone, battery')]


def build_table(measured, sites):
    rows = []
    for line in (line for line in measured if line.call == 'build'):
        site = next(site for name, site, _ in sites if name == line.site)
        rows.append((line.site, '{:,}'.format(line.found), '{:,}'.format(comparisons(site)), '{:,}'.format(searches(site)), timed(line, ENGINE),
                     timed(line, PLAIN), cell(line.ratio(PLAIN)), timed(line, BEFORE), cell(line.ratio(BEFORE)), timed(line, QUERY),
                     cell(line.ratio(QUERY))))
    head = ('site', 'words', 'comparisons of one pass', 'by search', 'engine', 'plain C', 'engine / C', 'before', 'engine / before', 'SQLite load',
            'engine / load')
    return table(head, rows)


def faster(line):
    """How many times faster than the archive of before, where that accepts the site."""
    return cell(line.median(BEFORE) / line.median(ENGINE) if line.median(BEFORE) else None, '%.1f')


def plan_table(measured):
    rows = [(line.site, line.check, timed(line, ENGINE), timed(line, PLAIN), cell(line.ratio(PLAIN)), timed(line, BEST), cell(line.ratio(BEST)),
             timed(line, BEFORE), faster(line)) for line in measured if line.call == 'plan']
    return table(('site', 'check', 'engine', 'plain C', 'engine / C', 'best C', 'engine / best', 'before', 'times faster'), rows)


def files_of(line, sites):
    """The site and the check of a line."""
    return next((site, dict(checks)[line.check]) for name, site, checks in sites if name == line.site)


def run_table(measured, sites):
    rows = []
    for line in (line for line in measured if line.call == 'run'):
        read, searched = rows_of_run(*files_of(line, sites))
        rows.append((line.site, line.check, line.count, found_text(line.found), '{:,}'.format(read), '{:,}'.format(searched), timed(line, ENGINE),
                     timed(line, PLAIN), cell(line.ratio(PLAIN)), timed(line, BEST), cell(line.ratio(BEST)), timed(line, BEFORE), faster(line),
                     timed(line, QUERY), cell(line.ratio(QUERY)), timed(line, CHECKED), cell(line.ratio(CHECKED), '%.3f')))
    head = ('site', 'check', 'N', 'rows', 'rows of the tables', 'rows read', 'engine', 'plain C', 'engine / C', 'best C', 'engine / best', 'before', 'times faster',
            'SQLite', 'engine / SQLite', 'with quick_check', 'engine / that')
    return table(head, rows)


def places_of(planner, site, check):
    """The order of a plan, in which the places are taken."""
    return ' '.join(str(place) for place, _ in planner(layout(1000, site), check))


def rings_table(measured, sites):
    rows = []
    for line in (line for line in measured if line.call == 'run'):
        site, check = files_of(line, sites)
        (tables, read), (tables_before, read_before) = rows_of_run(site, check), rows_of_run(site, check, plan_of_before)
        rows.append((line.site, line.check, found_text(line.found), places_of(plan, site, check), places_of(plan_of_before, site, check), '{:,}'.format(tables),
                     '{:,}'.format(tables_before), cell(tables / tables_before if tables_before else None), '{:,}'.format(read), '{:,}'.format(read_before),
                     timed(line, ENGINE), timed(line, BEFORE), cell(line.ratio(BEFORE))))
    return table(('site', 'check', 'rows', 'order', 'by written terms', 'rows of the tables', 'by written terms', 'ratio', 'rows read', 'by written terms', 'engine',
                  'before', 'engine / before'), rows)


def same_check(measured, line, call):
    """The line of another call, on the same site and check."""
    return next(x for x in measured if x.call == call and (x.site, x.check) == (line.site, line.check))


def over(line, other, time=Line.median):
    """The engine's time for a call over its time for another."""
    return time(line, ENGINE) / time(other, ENGINE)


def whether_table(measured):
    rows = []
    for line in (line for line in measured if line.call == 'whether'):
        run, planned = same_check(measured, line, 'run'), same_check(measured, line, 'plan')
        rows.append((line.site, line.check, line.count, found_text(run.found), timed(line, ENGINE), timed(run, ENGINE), cell(over(line, run)),
                     timed(planned, ENGINE), cell(over(line, planned)), timed(line, PLAIN), cell(line.ratio(PLAIN)), timed(line, BEST),
                     cell(line.ratio(BEST)), timed(line, QUERY), cell(line.ratio(QUERY)), timed(line, CHECKED), cell(line.ratio(CHECKED), '%.3f')))
    head = ('site', 'check', 'N', 'rows', 'engine', 'run', 'engine / run', 'plan', 'engine / plan', 'plain C', 'engine / C', 'best C', 'engine / best',
            'SQLite, LIMIT 1', 'engine / SQLite', 'with quick_check', 'engine / that')
    return table(head, rows)


def whether_limits(measured):
    """What S-7 limits: a ratio, in words and computed; how it is compared with its limit; and the lines that it is meant for."""
    told = [line for line in measured if line.call == 'whether']
    yes = [line for line in told if line.found == 1]

    def over_call(call):
        return lambda line, time: over(line, same_check(measured, line, call), time)

    def over_best(line, time):
        return time(line, ENGINE) / time(line, BEST)

    return [('whether / run, where there are rows', over_call('run'), lt, 1, yes),
            ('whether / plan, at 1,024 rows, where there are rows', over_call('plan'), le, 1.3, [line for line in yes if line.rows == 1024]),
            ('whether / run', over_call('run'), le, 1.05, told), ('whether / best C', over_best, le, 2, told)]


def furthest(ratio, within, limit, asked, time):
    """The greatest ratio, on which input, and how many are outside the limit."""
    ratios = [(ratio(line, time), line) for line in asked]
    greatest, line = max(ratios, key=lambda pair: pair[0])
    return '%.4g' % greatest, '%s, %s' % (line.site, line.check), sum(not within(value, limit) for value, _ in ratios)


def instructions(folder):
    """Of each call, site and check the instructions of one call, from the dumps of callgrind."""
    counts = {}
    for path in glob.glob(os.path.join(folder, 'counted', 'call.*')):
        with open(path) as file:
            text = file.read()
        counts[tuple(re.search('^desc: Trigger: Client Request: (.*)$', text, re.M)[1].split('\t'))] = int(re.search('^totals: (.*)$', text, re.M)[1])
    return counts


def limits_table(measured, laid, counts):
    def counted(line, _):
        return counts[line.call, line.site, line.check]

    limits = whether_limits(measured)
    what, *ahead = limits[0]
    rows = [(what + ', in instructions', 'below 1', len(ahead[-1])) + furthest(*ahead, counted) + ('', '', '')]
    for once, least in zip(limits, whether_limits(laid)):
        what, _, within, limit, asked = once
        rows.append((what, '%s %g' % ('below' if within is lt else 'at most', limit), len(asked)) + furthest(*least[1:], Line.least) + furthest(*once[1:], Line.median))
    return table(('what', 'limit', 'inputs', 'furthest, least of eight layouts', 'on', 'outside', 'medians of one', 'on', 'outside'), rows)


def reduced_table(measured):
    rows = []
    for line in (line for line in measured if line.call == 'run, VP alone'):
        own = same_check(measured, line, 'run')
        rows.append((line.site, line.check, timed(own, ENGINE), timed(line, ENGINE), cell(own.median(ENGINE) / line.median(ENGINE))))
    return table(('site', 'check', "the planner's tables", 'VP alone', 'ratio'), rows)


def growth_table(measured):
    rows = []
    for call, check in GROWTH:
        points = shops(measured, call, check)
        rows.append((call, check) + tuple(cell(exponent([(n, line.median(engine)) for n, line in points])) if points[0][1].median(engine) else '' for engine in (ENGINE, PLAIN, BEST, BEFORE)))
    return table(('call', 'check', 'engine', 'plain C', 'best C', 'before'), rows)


def bounds(what, ratios):
    ratios = sorted(x for x in ratios if x)
    return '%s: from %.2f to %.2f, the middle one %.2f.' % (what, ratios[0], ratios[-1], ratios[len(ratios) // 2])


def has_gaps(line):
    """Of a further site: one whose terms are not numbered in a row."""
    return line.site.startswith(('named', 'scattered', '24-bit'))


def shares_objects(line):
    """Of a further site: one whose predicates share objects, which OO is for."""
    return line.site.startswith('watched')


def has_rings(line):
    """Of a further site: one whose checks have a ring, which S-16 is for."""
    return line.site.startswith('ringed')


def best_bounds(what, measured):
    return bounds(what, [line.ratio(BEST) for line in measured if line.call not in ('build', 'whether')])


def whether_text(everything, measured, laid, counts):
    """The section of the call that only tells whether there is a row."""
    text = ['## Whether', '', 'Beside run and plan of the same check, whose repeats are interleaved with its own. SQLite is asked for one row, in no order.', '']
    text += whether_table(measured) + ['', '## The limits of S-7', '']
    text += ['Over all sites, those of the sections below too: the furthest that was measured, and how many inputs are outside the limit. Where a short loop lies',
             'moves a call by a tenth and more, so the calls are linked eight ways and the least time of each counts (`bench/archives.sh`); beside',
             'that what the tables above have. Two calls that differ by a thousandth a time does not tell apart: where there are rows whether does all that a',
             'run does but to make them, and which is ahead is told by the instructions of one call (callgrind).', '']
    return text + limits_table(everything, laid, counts)


def check_tables(measured, sites):
    """Plan, run and whether on further sites."""
    return plan_table(measured) + [''] + run_table(measured, sites) + [''] + whether_table(measured)


def rings_text(measured, sites):
    """The section of the checks whose variables stand in a ring."""
    text = ['Further sites: shops whose doors lead to zones, and checks with a triple pattern all of whose variables are met before it. The order of the',
            'planner\'s plan, the rows of its tables, those of each step times the partial solutions before it, one before the first, and how many of them a search',
            'by a known subject leaves to read; beside each what it is of the plan by written terms alone, as before S-16. Then the time of the run, and by the',
            'archive of before, which is given its own plan. ' + best_bounds('Engine over best C, plan and run', measured), '']
    return text + rings_table(measured, sites) + [''] + check_tables(measured, sites)


def sizes_table(folder, counts):
    calls = ('build', 'plan', 'run', 'whether')
    stack = dict(line.split() for line in lines(folder, 'stack.txt'))
    worked = {call: count for (call, site, _), count in counts.items() if site == 'worked shop'}
    rows = [(what,) + tuple('{:,}'.format(int(numbers[call])) for call in calls) for what, numbers in (('stack of a call, bytes', stack), ('instructions on the worked shop', worked))]
    return table(('what',) + calls, rows)


def results(folder, commit):
    everything = [Line(text) for text in lines(folder, 'times.txt')]
    further = (has_gaps, shares_objects, has_rings)
    gapped, sharing, ringed = (list(filter(kind, everything)) for kind in further)
    measured = [line for line in everything if not any(kind(line) for kind in further)]
    sites = inputs(folder)
    code = lines(folder, 'size.txt')[-1].split()
    counts = instructions(folder)
    worst = max(line.spread(engine) for line in everything for engine in range(6))
    text = ['# What a closing check costs', '', 'Written by `bench/run`; medians of 21 interleaved repeats in one process, on %s. Compare ratios of' % platform.machine(),
            'one run, not times of two. The widest distance between quartiles was %.0f %% of a median.' % (100 * worst), '',
            'Plain C is the same algorithm; best C the fastest that we could write for the same calls; before is the archive of commit %s.' % commit, '',
            bounds('Engine over plain C', [line.ratio(PLAIN) for line in measured]), '',
            best_bounds('Engine over best C, plan and run', measured), '',
            bounds('Run over SQLite with quick_check', [line.ratio(CHECKED) for line in measured if line.call == 'run']), '',
            '![time of a run by rows of the site](plot.svg)', '', '## Build', '']
    text += build_table(measured, sites) + ['', '## Plan', ''] + plan_table(measured) + ['', '## Run', ''] + run_table(measured, sites)
    text += [''] + whether_text(everything, measured, least_of(map(Line, lines(folder, 'layouts.txt'))), counts)
    text += ['', '## Reduced tables', ''] + reduced_table(measured) + ['', '## How cost grows with rows', '', 'The exponent of time in rows, over shops of 16 to 1,024 rows.', '']
    text += growth_table(measured) + ['', '## Columns with gaps', '', 'Further sites: the same shops with their terms numbered by first appearance, as `tools/site_text.py`',
                                      'numbers names, or scattered over the numbers of 16 bits, or of 24, which the archive of before may refuse. ' + best_bounds('Engine over best C, plan and run', gapped), '']
    text += check_tables(gapped, sites) + ['', '## Shared doors', '', 'Further sites: shops where contacts, cameras and locks share doors, which OO is for. '
                                           + best_bounds('Engine over best C, plan and run', sharing), '']
    text += check_tables(sharing, sites) + ['', '## Rings', ''] + rings_text(ringed, sites) + ['', '## Sizes', ''] + sizes_table(folder, counts)
    text += ['', 'Code of the archive: {:,} bytes.'.format(int(code[0])), '', '## Agreement', '', '. '.join(lines(folder, 'agree.txt')) + '.', '']
    with open(os.path.join(HERE, 'NOTES.md')) as notes:
        text.append(notes.read())
    return measured, '\n'.join(text)


# ---- the plot: time by rows of the site, both axes logarithmic

def plot(measured):
    call, check = 'run', 'path: sensors of open doors'
    points = shops(measured, call, check)
    series = [('engine', ENGINE, '#1b6ca8'), ('best C', BEST, '#2a9d5c'), ('before', BEFORE, '#777777'), ('SQLite', QUERY, '#c46210'),
              ('SQLite with quick_check', CHECKED, '#8a2d3b')]
    values = [line.median(e) for _, line in points for _, e, _ in series]
    low, high = math.floor(math.log10(min(values))), math.ceil(math.log10(max(values)))

    def x(rows):
        return 90 + 480 * (math.log(rows, 4) - 2) / 3

    def y(time):
        return 330 - 290 * (math.log10(time) - low) / (high - low)

    out = ['<svg xmlns="http://www.w3.org/2000/svg" width="760" height="390" font-family="sans-serif" font-size="13">',
           '<rect width="760" height="390" fill="white"/>', '<text x="90" y="24" font-size="15">A run of "sensors of open doors", by rows of the shop</text>']
    for power in range(low, high + 1):
        out.append('<line x1="90" x2="570" y1="%.1f" y2="%.1f" stroke="#ddd"/><text x="82" y="%.1f" text-anchor="end">%s</text>'
                   % (y(10 ** power), y(10 ** power), y(10 ** power) + 4, time_text(10 ** power)))
    for rows, _ in points:
        out.append('<text x="%.1f" y="352" text-anchor="middle">%s</text>' % (x(rows), '{:,}'.format(rows)))
    out.append('<text x="330" y="376" text-anchor="middle">rows of the site</text>')
    for name, engine, colour in series:
        path = ' '.join('%.1f,%.1f' % (x(rows), y(line.median(engine))) for rows, line in points)
        out.append('<polyline points="%s" fill="none" stroke="%s" stroke-width="2"/>' % (path, colour))
        out += ['<circle cx="%.1f" cy="%.1f" r="3.5" fill="%s"/>' % (x(rows), y(line.median(engine)), colour) for rows, line in points]
    place = 0
    for name, engine, colour in sorted(series, key=lambda entry: -points[-1][1].median(entry[1])):
        # names of lines that end close together stand below one another
        place = max(place + 16, y(points[-1][1].median(engine)) + 4)
        out.append('<text x="580" y="%.1f" fill="%s">%s</text>' % (place, colour, name))
    return '\n'.join(out + ['</svg>', ''])


def main():
    measured, text = results(*sys.argv[1:])
    for name, content in (('RESULTS.md', text), ('plot.svg', plot(measured))):
        with open(os.path.join(HERE, name), 'w') as file:
            file.write(content)
    print('bench/RESULTS.md and bench/plot.svg are written')


if __name__ == '__main__':
    main()
