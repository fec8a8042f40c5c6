#!/usr/bin/env python3
"""Puts together what bench/run measured (target/bench): prints the tables, and writes docs/BENCHMARKS.md and the
picture docs/benchmarks.svg. With --print both go to target/bench. bench/run calls it for two more things: --ratios keeps
the ratios of a run, and --proofs PATH TREE keeps the times of proofs that a file or the files of a folder have.
Exit status: 0; 1 where a limit is missed, after all is written, or where what was measured cannot be read."""
import collections
import datetime
import glob
import math
import os
import platform
import re
import statistics
import subprocess
import sys
import textwrap

BUILT = 'target/bench'
PEERS = ['NTL', 'FLINT', 'PARI']
VERSIONS = ['plain', 'bytes', 'best']
OTHERS = VERSIONS + PEERS
TITLES = {'rater': 'the rater', 'plain': 'C plain', 'bytes': 'C bytes', 'best': 'C best', 'before': 'before'}
EQUAL = 1.05      # a ratio up to this counts as equal
AGREE = 1.5       # two runs are to agree within this factor


def title(who):
    return TITLES.get(who, who)


# ---- what was measured

class Job:
    def __init__(self, number, way, p, terms, family, name):
        self.number, self.way, self.p, self.terms = int(number), way, int(p), int(terms)
        self.family, self.name = family, name
        self.rounds = collections.defaultdict(dict)   # contestant -> (pass, round) -> nanoseconds
        self.answers = {}                             # contestant -> (verdict, words)

    def median(self, who):
        return statistics.median(self.rounds[who].values())

    def ratio(self, who):
        """Time of the rater over the time of another, by the median over the rounds that both have."""
        ours, theirs = self.rounds.get('rater', {}), self.rounds.get(who, {})
        both = [ours[k] / theirs[k] for k in theirs if k in ours]
        return statistics.median(both) if both else None

    def profile_ratio(self, who):
        """Time of the profile over the time of a version of the free way on the same terms, in the same way."""
        once, whole = self.rounds.get(who, {}), self.rounds.get('profile', {})
        both = [whole[k] / once[k] for k in whole if k in once]
        return statistics.median(both) if both else None


def read_passes():
    jobs, stacks = {}, {}
    for path in sorted(glob.glob(BUILT + '/pass.*.tsv')):
        for line in open(path):
            kind, *fields = line.rstrip('\n').split('\t')
            if kind == 'job':
                jobs.setdefault(fields[0], Job(*fields))
            elif kind == 'time':
                jobs[fields[0]].rounds[fields[1]][path, fields[2]] = float(fields[3])
            elif kind == 'answer':
                jobs[fields[0]].answers[fields[1]] = (fields[2], fields[3])
            elif kind == 'stack':
                stacks[fields[0]] = int(fields[1])
    order = list(GROUPS)
    return sorted(jobs.values(), key=lambda j: order.index(group_of(j))), stacks


def read_processes():
    routes = []
    for path in sorted(glob.glob(BUILT + '/process.*.tsv'), key=lambda path: int(path.split('.')[-2])):
        lines = [line.rstrip('\n').split('\t') for line in open(path)]
        job = Job(-1, 'route', 0, 4096, 'route file', 'route file: ' + lines[0][1])
        for _, who, round_, time in lines[1:]:
            job.rounds[who][round_] = float(time)
        job.answers = {who: ('same', '') for who in job.rounds}
        routes.append(job)
    return routes


# ---- numbers in words

def significant(x, digits=2):
    """A number with so many digits, without an exponent."""
    if x is None:
        return '–'
    x = float('%.*g' % (digits, x))
    if x >= 10 ** (digits - 1):
        return '{:,.0f}'.format(x)
    places = digits - 1 - math.floor(math.log10(x))
    return '%.*f' % (places, x)


def microseconds(ns):
    us = ns / 1e3
    return '{:,.0f}'.format(us) if us >= 100 else '%.1f' % us


def table(head, rows, left=1):
    rule = ['---' if i < left else '---:' for i in range(len(head))]
    return '\n'.join('| ' + ' | '.join(r) + ' |' for r in [head, rule] + rows)


# ---- the tables

def main_table(jobs, routes):
    rows, whos = [], (['before'] if measured(jobs, 'before') else []) + OTHERS
    for j in jobs + routes:
        if not j.rounds:
            continue
        marks = [significant(j.ratio(o)) + (' ≠' if different(j, o) else '') for o in whos]
        rows.append([j.name, microseconds(j.median('rater'))] + marks)
        if any(p + ' twice' in j.rounds for p in PEERS):
            again = [significant(j.ratio(p + ' twice')) + (' ≠' if different(j, p + ' twice') else '') for p in PEERS]
            rows.append(['– the same, peers by twice the terms', ''] + [''] * (len(whos) - len(PEERS)) + again)
        if 'profile' in j.rounds:
            over = [significant(j.profile_ratio(who)) if who == 'bytes' else '' for who in whos]
            rows.append(['– the profile of these terms', microseconds(j.median('profile'))] + over)
    return table(['Job', 'µs'] + [title(who) for who in whos], rows)


def measured(jobs, who):
    return any(who in j.rounds for j in jobs)


def different(j, who):
    return j.answers.get(who, ('same',))[0] in ('different', 'wrong')


def differences(jobs):
    groups = collections.OrderedDict()
    for j in jobs:
        for who, (_, words) in j.answers.items():
            if different(j, who):
                groups.setdefault((j.number, words), (j, []))[1].append(who.replace(' twice', ' by twice the terms'))
    if not groups:
        return 'No answer differs.'
    rows = [[j.name, ', '.join(whos), words, '`--terms %d`' % j.number] for (_, words), (j, whos) in groups.items()]
    return table(['Job', 'Who', 'Answer', 'Input'], rows, 4)


def by_name(jobs, text):
    return next(j for j in jobs if j.name.startswith(text))


def best_ratio(j, who):
    """The ratio to a peer by the faster of its methods."""
    both = [r for r in (j.ratio(who), j.ratio(who + ' twice')) if r is not None]
    return max(both) if both else None


class Limits:
    """Rows of a table with limits, and how many of them are kept, missed and not measured."""

    def __init__(self):
        self.rows, self.counts = [], collections.Counter()

    def mark(self, value, limit, slack=1):
        if limit is None:
            return '–'
        kept = 'not measured' if value is None else 'kept' if value <= slack * limit else 'MISSED'
        self.counts[kept.lower()] += 1
        return kept

    def said(self):
        return ', '.join('%d %s' % (self.counts[kind], kind) for kind in ['kept', 'missed', 'not measured'])


def read_leaves():
    """Name -> ratio, of what bench/leaves printed."""
    lines = open(BUILT + '/leaves.txt', encoding='utf-8')
    found_in = (re.match(r'(\S.*?) +[0-9.]+ +[0-9.]+ (?:ns|µs) +([0-9.]+)$', line.strip()) for line in lines)
    return {m.group(1): float(m.group(2)) for m in found_in if m}


def profile_of(j):
    return 'profile of ' + j.name.removeprefix('free way, ')


def limits(jobs, agreed):
    held = Limits()

    def row(what, value, limit):
        held.rows.append([what, significant(value, 3), significant(limit), held.mark(value, limit)])

    def over(j, who, limit):
        row('%s, over %s' % (j.name, title(who)), j.ratio(who), limit)

    for text in ['set of one factor, 4,096 terms, (x^3+x+1)^1,365', 'period of 4,096 terms', 'period of 2,187 terms',
                 'period of 251 terms, (x+250)^251', 'period of 251 terms, (x+250)^250']:
        j = by_name(jobs, text)
        over(j, 'plain', 3)
        over(j, 'bytes', 3)
        over(j, 'best', None)
    for j in jobs:
        if j.family.startswith(('free way, random', 'free way, register')) and 'GF(2^' not in j.family:
            if j.p == 2:
                over(j, 'NTL', 0.8 if j.terms >= 2048 else 1.1)
            else:
                over(j, 'bytes', 0.95)
            if j.terms == 4096:
                over(j, 'best', None)
                for who in ['plain'] if j.p == 2 else ['FLINT', 'NTL']:
                    over(j, who, 1)
    both = [by_name(jobs, 'free way, 4,096 random terms, ' + field) for field in ('GF(251), beside GF(2^8)', 'GF(2^8)')]
    row(both[1].name + ', over GF(251)', grown_by(*both, 'rater'), 3)
    over(both[1], 'PARI', 0.05)
    for text, limit in [('set of one factor, 4,095 terms, (x^3+x+1)^1,365', 1.15),
                        ('set of one factor, 4,064 terms, (f of degree 32)^127', None)]:
        j = by_name(jobs, text)
        row(j.name + ', exactly D, over the time before', j.ratio('before'), limit)
        over(j, 'best', None)
    for j in jobs:
        if 'profile' in j.rounds:
            if j.p == 2:
                # the meter works in bytes, and the free way on words
                row(profile_of(j) + ', over the free way of C bytes', j.profile_ratio('bytes'), 1.5)
                row(profile_of(j) + ', over the free way', j.profile_ratio('rater'), None)
            else:
                row(profile_of(j) + ', over the free way', j.profile_ratio('rater'), 1.5)
    for j in jobs:
        if j.way == 'irreducible':
            over(j, 'bytes', 2)
            over(j, 'best', 2)
    for j in jobs:
        if j.way == 'irreducible':
            known = [r for r in (best_ratio(j, who) for who in PEERS) if r is not None]
            row(j.name + ', over the best of NTL, FLINT, PARI', max(known, default=None), 1)
    for j in jobs:
        if j.way == 'continue':
            over(j, 'bytes', 2)
    leaves = read_leaves()
    for p in [2, 251]:
        for leaf in ['sum of products modulo %d' % p, 'update a + c*b modulo %d' % p]:
            row(leaf.replace('*', '·') + ', over C bytes', leaves.get(leaf + ', C bytes'), 2)
    row('any ratio of this run and of the run before, the larger over the smaller', agreed.worst if agreed else None, AGREE)
    return table(['Time of the rater', 'ratio', 'at most', ''], held.rows), held


def grown_by(a, b, who):
    """The median over the rounds of the time of b over that of a in the same round."""
    if who not in a.rounds or who not in b.rounds:
        return None
    return statistics.median(t / a.rounds[who][k] for k, t in b.rounds[who].items() if k in a.rounds[who])


def growth(jobs):
    families = collections.OrderedDict()
    for j in jobs:
        if j.terms > 0 and j.rounds and 'beside' not in j.name:
            families.setdefault(j.family, []).append(j)
    held = Limits()

    def row(family, a, b, square):
        size = b.terms / a.terms
        limit = size * size if square else size if 'powers up to' in family else None
        grown = grown_by(a, b, 'rater')
        others = [significant(grown_by(a, b, who), 3) for who in ['bytes', 'best'] + PEERS]
        held.rows.append([family, '{:,} to {:,}'.format(a.terms, b.terms), significant(grown, 3), significant(limit, 3),
                          held.mark(grown, limit, EQUAL)] + others)

    for family, members in families.items():
        members = sorted(members, key=lambda j: j.terms)
        for a, b in ((a, b) for a in members for b in members if a.p == b.p and b.terms == a.terms + 1):
            row('%s, D terms and D + 1, GF(%d)' % (family.split(',')[0], a.p), a, b, False)
        square = members[0].way == 'free'
        if len(members) < 2 or not (square or members[0].way == 'period' or 'powers' in family):
            continue
        row(family, members[-2], members[-1], square)
        if not square and len(members) > 2:
            row(family, members[0], members[-1], square)
    return table(['Family', 'terms', 'time grows', 'limit', '', 'C bytes', 'C best'] + PEERS, held.rows), held


def memory(stacks):
    lent = {'gobashe_rate_free': '12,289', 'gobashe_rate_period': '12,289',
            'gobashe_rate_set': '12,289', 'gobashe_profile': 'four for each term',
            'gobashe_is_irreducible': 'none', 'gobashe_continue_sequence': 'the part that is filled'}
    rows = []
    for call, n in stacks.items():
        name, comma, how = call.partition(',')
        rows.append(['`%s`%s' % (name, comma + how), lent[name], '{:,}'.format(n)])
    return table(['Call', 'bytes lent', 'bytes of stack'], rows)


def indented(path):
    """The lines of a file, as they stand."""
    return '\n'.join('    ' + line.rstrip() for line in open(path, encoding='utf-8'))


def file_size(path):
    return '{:,} bytes'.format(os.path.getsize(path)) if os.path.exists(path) else None


# ---- lines and times by crate

def meaningful(paths, comment):
    lines = [l.strip() for path in paths for l in open(path, encoding='utf-8')]
    return [l for l in lines if l and not l.startswith(comment)]


def code_and_contracts(paths):
    """Lines of code, and lines of contracts: `ghost use`, and requires or ensures to their closing brace."""
    code = contracts = 0
    inside = False
    for line in meaningful(paths, '//'):
        if inside or line.startswith(('requires', 'ensures', 'ghost ')):
            contracts += 1
            inside = not line.startswith('ghost ') and line.count('⌜') > line.count('⌝') or (inside and '⌝' not in line)
        else:
            code += 1
    return code, contracts


def found(crate, folder, ending):
    return sorted(glob.glob('crates/%s/%s/**/*.%s' % (crate, folder, ending), recursive=True))


PROOFS = BUILT + '/proofs.tsv'


def kept_proofs():
    """Crate -> (seconds, the tree that was proved), as the runs so far kept them."""
    if not os.path.exists(PROOFS):
        return {}
    lines = [line.rstrip('\n').split('\t') for line in open(PROOFS, encoding='utf-8')]
    return {crate: (int(seconds), tree) for crate, seconds, tree in lines}


def keep_proofs(path, tree):
    """Keeps the times that a file has. A crate that has none there keeps what it had."""
    kept = kept_proofs()
    text = open(path, encoding='utf-8').read() if os.path.exists(path) else ''
    for crate, seconds in re.findall(r'^rt: (\w+) proved \((\d+) s\)', text, re.M):
        kept[crate] = (int(seconds), tree)
    with open(PROOFS, 'w', encoding='utf-8') as out:
        for crate, (seconds, of) in kept.items():
            out.write('%s\t%d\t%s\n' % (crate, seconds, of))


def proofs_said(names):
    """Of what trees the times are, in words."""
    kept = {crate: of for crate, of in kept_proofs().items() if crate in names}
    if not kept:
        return 'The times of the proofs are not known here.'
    trees = collections.Counter(tree for _, tree in kept.values())
    of = ['tree %s for %d' % (tree, n) if len(trees) > 1 else 'tree ' + tree for tree, n in trees.most_common()]
    missing = len(names) - len(kept)
    unknown = ' Of %d crates they are not known.' % missing if missing else ''
    return PROVED + ' They are those of %s%s.' % (', '.join(of), ' crates' if len(trees) > 1 else '') + unknown


def crate_names():
    return [l.split(':')[0].split()[0] for l in open('crates.txt') if ':' in l and not l.startswith('#')]


def crates():
    seconds = {crate: n for crate, (n, _) in kept_proofs().items()}
    rows, sums = [], [0, 0, 0, 0, 0, 0]
    for name in crate_names():
        code, contracts = code_and_contracts(found(name, 'src', 'rt'))
        specs = len(meaningful(found(name, 'specs', 'antt'), '--'))
        proofs = len(meaningful(found(name, 'proofs', 'antt'), '--'))
        edits = len(glob.glob('crates/%s/must-fail/*.edit' % name))
        numbers = [code, contracts, specs, proofs, edits, seconds.get(name, 0)]
        sums = [a + b for a, b in zip(sums, numbers)]
        rows.append([name] + ['{:,}'.format(n) if n else '–' for n in numbers[:5]] + [str(seconds.get(name, '–'))])
    whole = all(name in seconds for name in crate_names())
    rows.append(['all'] + ['{:,}'.format(n) for n in sums[:5]] + ['{:,}'.format(sums[5]) if whole else '–'])
    return table(['Crate', 'code', 'contracts in it', 'specs', 'proofs', 'must-fail edits', 'seconds to prove'], rows)


# ---- what is slower, and why

GROUPS = {'free 2': 'free way over GF(2)', 'free': 'free way over other fields',
          'period 2': 'period way over GF(2)', 'period': 'period way over GF(3) and GF(251)',
          'one 2': 'set of one factor over GF(2)', 'one': 'set of one factor over other fields',
          'set 2': 'set of eight factors over GF(2)', 'set': 'set of eight factors over other fields',
          'irreducible 2': 'irreducible or not, over GF(2)', 'irreducible': 'irreducible or not, over other fields',
          'continue 2': 'continuation over GF(2)', 'continue': 'continuation over other fields',
          'route': 'whole route files'}


def group_of(j):
    name = 'one' if j.family.startswith('one factor') else j.way
    return name + ' 2' if j.p == 2 else name


# Reasons that the sources of both sides show; a pair without one is in the table alone.
WIDE = ('mostly the sums of products: C best has its numbers in 16 bits, multiplies eight at a time and adds up pairs of '
        'products in the same step, without widening; and its inverses stand in a table')
COPIES = ('both work on words. C best adds up a discrepancy where it needs it, from as many words as f has, and the rater '
          'corrects all that are to come with f, which are more words as long as f is short; and C best packs 16 terms at a '
          'time by movemask and unpacks eight at a time, the rater one by one')
PACKED = 'C best has 64 coefficients of GF(2) in a word, and the rater one in a byte'
SHARED = ('both let one half of the factors act once for the other half; C best does it over fields other than GF(2) by '
          'their product where that is quicker, and the rater factor by factor, as often as the digits of the upper power say')
GCD = ('the peers multiply the upper powers out and take one gcd; in the rater one half of the factors acts for the other, '
       'each as often as the digits of its upper power say, which costs where the digits are large. The peers are not asked '
       'whether the factors are irreducible, nor for the powers')
ROWS = ('in products modulo the polynomial and in the sums of rows the C versions add up in 32-bit numbers and take one '
        'remainder for each coefficient, and the rater one after each product; C takes one after each product only in '
        'Euclid\'s algorithm and in products with x')
REASONS = [
    (COPIES, ['free 2'], ['best']), (WIDE, ['free'], ['best']), (PACKED, ['period 2', 'one 2', 'set 2'], ['best']),
    (SHARED, ['set 2', 'set'], ['best']),
    (GCD, ['set 2', 'set'], PEERS), (ROWS, ['irreducible'], ['bytes', 'best'])]


def family_in_words(j):
    """The family, parted by field where its name has none."""
    if 'GF(' in j.family or j.way == 'route':
        return j.family
    return j.family + (', GF(2)' if j.p == 2 else ', other fields')


def upper_first(text):
    return text[0].upper() + text[1:]


def slower(jobs, routes):
    """A table of all families and all others, and the reasons that are known for what is in it."""
    families, rows, slow = collections.OrderedDict(), [], set()
    for j in jobs + routes:
        if j.rounds:
            families.setdefault(family_in_words(j), []).append(j)
    for family, members in families.items():
        cells = [upper_first(family), str(len(members))]
        for who in PEERS + VERSIONS:
            ratios = [r for r in (best_ratio(j, who) for j in members) if r is not None]
            more = [r for r in ratios if r > EQUAL]
            if more:
                slow.add((group_of(members[0]), who))
            low, high = (significant(min(more)), significant(max(more))) if more else ('', '')
            cells.append('' if not ratios else '–' if not more else
                         '%s in %d' % (low if low == high else low + ' to ' + high, len(more)))
        rows.append(cells)
    lines = []
    for why, groups, whos in REASONS:
        there = [(g, w) for g in groups for w in whos if (g, w) in slow]
        if there:
            text = '%s, beside %s: %s.' % (', '.join(GROUPS[g] for g in groups if any(h == g for h, _ in there)),
                                           ', '.join(title(w) for w in whos if any(v == w for _, v in there)), why)
            lines.append(textwrap.fill(upper_first(text), 124, initial_indent='- ', subsequent_indent='  '))
    head = ['Family', 'jobs'] + [title(who) for who in PEERS + VERSIONS]
    return '\n\n'.join([table(head, rows), slower_leaves()] +
                       (['Reasons, where they are known:', '\n'.join(lines)] if lines else []))


def slower_leaves():
    """The inner loops that are slower than those of C, in a sentence."""
    kinds = collections.OrderedDict()
    for name, ratio in read_leaves().items():
        if 'by a division' not in name:
            kinds.setdefault(re.split(' modulo|, | a ', name)[0], []).append(ratio)
    parts = []
    for kind, ratios in kinds.items():
        more = [r for r in ratios if r > EQUAL]
        if more:
            ends = sorted({'%.2f' % min(more), '%.2f' % max(more)}, key=float)
            parts.append('%s %s in %d of %d' % (kind, ' to '.join(ends), len(more), len(ratios)))
    text = 'Of the inner loops alone (under *What must hold*) are slower than C: ' + ', '.join(parts or ['none']) + '.'
    return textwrap.fill(text, 124)


# ---- two runs

Agreement = collections.namedtuple('Agreement', 'worst row count beyond before')


def ratios_of(jobs, routes):
    """All ratios by name, family and who; those to the time before have the library's checksum too, so that they are not
    held to those to another one."""
    now = {}
    for j in jobs + routes:
        for who in OTHERS + [p + ' twice' for p in PEERS]:
            now[j.name, j.family, who] = j.ratio(who)
        if 'before' in j.rounds:
            now[j.name, j.family, 'before', open(BUILT + '/earlier.txt').read().strip()] = j.ratio('before')
        if 'profile' in j.rounds:
            for who in ['rater', 'bytes']:
                now[profile_of(j), j.family, who] = j.profile_ratio(who)
    return {key: ratio for key, ratio in now.items() if ratio is not None}


def keep_ratios(now, rounds):
    """The first line says of what tree and day they are, and of how many rounds."""
    tree = open(BUILT + '/tree.txt', encoding='utf-8').read().strip()
    with open(BUILT + '/ratios.tsv', 'w', encoding='utf-8') as out:
        out.write('#\t%s\t%s\t%d\n' % (tree, datetime.date.today().isoformat(), rounds))
        for key, value in now.items():
            out.write('\t'.join(key) + '\t%.6g\n' % value)


def agreement(now):
    """How far the ratios of this run are from those of the run before (before.tsv)."""
    if not os.path.exists(BUILT + '/before.tsv'):
        return None
    lines = [line.rstrip('\n').split('\t') for line in open(BUILT + '/before.tsv', encoding='utf-8')]
    head = lines[0][1:] if lines[0][0] == '#' else ['unknown', 'unknown', '0']
    before = {tuple(key): float(value) for *key, value in lines if key[0] != '#'}
    both = [(max(now[k] / before[k], before[k] / now[k]), k) for k in now if k in before]
    if not both:
        return None
    worst, key = max(both)
    row = '%s, over %s: %s and then %s' % (key[0], title(key[2]).replace(' twice', ' by twice the terms'),
                                           significant(before[key], 3), significant(now[key], 3))
    return Agreement(worst, row, len(both), sum(1 for r, _ in both if r > AGREE), head)


def agreed_in_words(agreed):
    if agreed is None:
        return 'No earlier run is kept here, so how far two runs agree is not known; `bench/run --twice` tells.'
    tree, day, rounds = agreed.before
    return ('The run before this one (tree %s, %s, %s rounds) has %d ratios in common with it. The two runs agree in all '
            'of them within a factor of %.2f; the farthest apart is that of the row %s. Beyond %.1f are %d of them.') % (
                tree, day, rounds, agreed.count, agreed.worst, agreed.row, AGREE, agreed.beyond)


# ---- the picture

COLOURS = {'rater': '#c0392b', 'plain': '#888888', 'bytes': '#222222', 'best': '#8e44ad', 'NTL': '#2471a3',
           'FLINT': '#1e8449', 'PARI': '#9a6700'}
DASHED = {'plain': '2 3', 'bytes': '6 3', 'best': '9 3 2 3'}


def panel(jobs, family, title, left, top, width, height):
    members = sorted((j for j in jobs if j.family == family and j.rounds), key=lambda j: j.terms)
    lines = collections.OrderedDict()
    for who in ['plain', 'bytes', 'best', 'FLINT', 'PARI', 'NTL', 'rater']:
        points = []
        for j in members:
            known = [w for w in (who, who + ' twice') if w in j.rounds]
            if known:
                points.append((j.terms, min(j.median(w) for w in known) / 1e3))
        if points:
            lines[who] = points
    every = [y for points in lines.values() for _, y in points]
    low, high = math.floor(math.log10(min(every))), math.ceil(math.log10(max(every)))
    first, last = math.log2(members[0].terms), math.log2(members[-1].terms)

    def place(x, y):
        return (left + (math.log2(x) - first) / (last - first) * width,
                top + height - (math.log10(y) - low) / (high - low) * height)

    out = ['<text x="%.0f" y="%.0f" class="title">%s</text>' % (left, top - 14, title)]
    for e in range(low, high + 1):
        _, y = place(members[0].terms, 10.0 ** e)
        label = '{:g} µs'.format(10.0 ** e) if e < 3 else '{:g} ms'.format(10.0 ** (e - 3))
        out.append('<line x1="%.1f" y1="%.1f" x2="%.1f" y2="%.1f" class="grid"/>' % (left, y, left + width, y))
        out.append('<text x="%.1f" y="%.1f" class="axis" text-anchor="end">%s</text>' % (left - 6, y + 4, label))
    for j in members:
        x, _ = place(j.terms, 10.0 ** low)
        out.append('<line x1="%.1f" y1="%.1f" x2="%.1f" y2="%.1f" class="grid"/>' % (x, top, x, top + height))
        out.append('<text x="%.1f" y="%.1f" class="axis" text-anchor="middle">%s</text>' %
                   (x, top + height + 16, '{:,}'.format(j.terms)))
    ends = []
    for who, points in lines.items():
        path = ' '.join('%.1f,%.1f' % place(x, y) for x, y in points)
        dashes = ' stroke-dasharray="%s"' % DASHED[who] if who in DASHED else ''
        out.append('<polyline points="%s" fill="none" stroke="%s" stroke-width="%s"%s/>' %
                   (path, COLOURS[who], 3 if who == 'rater' else 1.7, dashes))
        for x, y in points:
            out.append('<circle cx="%.1f" cy="%.1f" r="%s" fill="%s"/>' % (*place(x, y), 3.5 if who == 'rater' else 2.5,
                                                                          COLOURS[who]))
        ends.append([place(*points[-1])[1], who])
    ends.sort()
    for a, b in zip(ends, ends[1:]):                  # labels at the right do not overlap, and stay in the panel
        b[0] = max(b[0], a[0] + 14)
    ends[-1][0] = min(ends[-1][0], top + height)
    for a, b in zip(ends[-2::-1], ends[::-1]):
        a[0] = min(a[0], b[0] - 14)
    for y, who in ends:
        out.append('<text x="%.1f" y="%.1f" class="label" fill="%s">%s</text>' %
                   (left + width + 8, y + 4, COLOURS[who], TITLES.get(who, who)))
    return out


def picture(jobs):
    panels = [('free way, random, GF(251)', 'Free way, random terms, GF(251)'),
              ('free way, random, GF(2)', 'Free way, random terms, GF(2)'),
              ('one factor, all powers', 'Set of one factor, powers of x^3+x+1, GF(2)'),
              ('period, GF(2)', 'Period way, powers of x+1, GF(2)')]
    out = ['<svg xmlns="http://www.w3.org/2000/svg" width="980" height="760" viewBox="0 0 980 760">',
           '<style>text{font-family:sans-serif;font-size:12px;fill:#333}.title{font-size:14px;font-weight:bold}'
           '.axis{font-size:11px;fill:#666}.grid{stroke:#ddd;stroke-width:1}</style>',
           '<rect width="980" height="760" fill="#ffffff"/>']
    for k, (family, title) in enumerate(panels):
        lines = panel(jobs, family, title, 70 + 490 * (k % 2), 50 + 370 * (k // 2), 310, 280)
        out += [l.replace('class="label" fill="', 'class="label" style="fill:') for l in lines]
    out += ['<text x="490" y="752" text-anchor="middle" class="axis">time of one job against its number of terms; the '
            'faster of a peer\'s two methods</text>', '</svg>']
    return '\n'.join(out) + '\n'


# ---- the page

def machine():
    words = {}
    for line in subprocess.run(['lscpu'], stdout=subprocess.PIPE, text=True).stdout.splitlines():
        name, _, value = line.partition(':')
        words[name.strip()] = value.strip()
    model = re.sub(r'\((R|TM)\)', '', words.get('Model name', 'processor'))
    kind = 'a virtual machine' if 'Hypervisor vendor' in words else 'a machine'
    system = 'Linux'
    if os.path.exists('/etc/os-release'):
        system = dict(l.strip().split('=', 1) for l in open('/etc/os-release') if '=' in l)['PRETTY_NAME'].strip('"')
    cores = words.get('CPU(s)', '?')
    return '%s with %s core%s of an %s, %s, %s' % (kind, cores, '' if cores == '1' else 's', model,
                                                  platform.machine(), system)


PAGE = '''# Benchmarks

The rater beside C and beside three systems for computer algebra: NTL, FLINT and PARI. `bench/run` made this page and the
picture; it is repeated by one command (see the end).

## Slower than a peer

How many times as long the rater takes, and in how many of the jobs of a family; of a peer's two methods the faster one counts.
A ratio of at most {equal} counts as equal, and – says that no job is slower. The table has every family, every peer and every
C version, and jobs where a peer answers differently too; a peer has no part in whole route files.

{slower}

## Where and when

{date}, tree {tree}, on {machine}.
Versions: {versions}.
Load of the machine when the run began (one, five, fifteen minutes): {load}.

All run on one core, in alternation: {passes} processes one after the other, {rounds} rounds in each (fewer where a batch takes
long), in a round a batch of each contestant. The time is that of the thread, so that other work on the machine counts little.
The rater's own time is the median over all rounds; a ratio is the median over the rounds of the rater's time over the time of
the other in the same round: **below 1 the rater is faster**.

{agreement}

- *C plain*, *C bytes* and *C best* (`bench/ways.c`): the same calls in C, on monic factors alone, with the same checks, product
  and clearing of the lent bytes, by the same compiler at -O3 for any x86-64, which is what the proved functions are compiled
  for. Each answers every job as the rater does, or the run ends.
  - Plain: bytes, and a remainder by `%` at each product; its free way is the textbook's, and it asks whether factors are
    irreducible by trial division.
  - Bytes (*C tuned* on earlier pages): a coefficient in a byte for every p, 2 too; sums in 16 and 32 bits with few remainders,
    in the inner loops none by a division, vectorised; the free way in place; Ben-Or's test.
  - Best: over GF(2) all ways with 64 coefficients in a word (`bench/packed.c`); over other fields the free way in 16-bit
    numbers, with inverses in a table (`bench/sums.c`), and a set whose halves act once for each other, by their product where
    that is quicker; no action where there are exactly D terms, D the total degree of the upper powers. The test of
    irreducibility, and the period way over other fields, are those of bytes.
- NTL: `MinPolySeq`, `GCD`, `IterIrredTest` of GF2X over GF(2), of zz_pX else. FLINT: `nmod_berlekamp_massey`,
  `nmod_poly_gcd`, `nmod_poly_is_irreducible`. PARI: `F2x_halfgcd`, `F2x_gcd`, `F2x_is_irred` over GF(2), those of Flx else.
  They get the input in their own form and leave the answer in it, and none of that is timed.
- {builds}
- For a period they take the gcd with x^N − 1; for a set, of one factor or eight, the gcd with the product of the upper powers,
  and hold all terms to that product. *By twice the terms*: the period is repeated, or the terms continued by a power series,
  to twice the degree, and the minimal polynomial is asked for. They are not asked for the powers of the factors, nor whether
  the factors are irreducible.
- A set has one factor to eight, by the same call. *Large degrees*: factors of as large a degree as the field allows. *Large
  digits*: upper powers whose digits in base p are large, such as 2^10 − 1 or 250 over GF(251), which is where the rater's
  actions are many. *D terms or D + 1*: exactly as many terms as the total degree of the upper powers, and one more.
- *The profile of these terms*: the rater's own `gobashe_profile`, which gives the figures of the free way after each term. The
  meter that makes it works in bytes over every field, over GF(2) too, where the free way works on words: the column of C bytes
  has its time over that of the free way of C bytes on the same terms.{before}

## Times

{times}

≠: the answer differs from the rater's.

![Time against terms](benchmarks.svg)

### Where a peer answers differently

Each answer was compared with the rater's. The peers do not promise the first polynomial under
`some`: another of the same degree that fits is not counted.
What is asked of the peers here finds the shortest recurrence only where twice its degree is at most the number of terms.
The inputs come from fixed seeds (`bench/jobs.c`); `target/bench/jobs` with the words of the last column prints one.

{differences}

## What must hold

{limits}

{held}.

A ratio without a limit is there to be seen. Of the two sets of exactly D terms, that of the factor of degree 32 has none over
the time before: with D terms no upper power acts on all of them, and the rest stays, which is the larger part there. It is the
search for the power, the product, the question whether the factor is irreducible, and the order of x, which a tree before
request 2026-08 does not ask for.

The inner loops alone, by `bench/leaves`, beside those of `bench/kernels.h`, which the C versions have:

{leaves}

## Growth

Time at the larger number of terms over time at the smaller, for the rater and then for others. The limit is the square of
the growth of the terms for the free way, and the growth itself for the other ways where the power of p that decides the search
stays the same (*powers up to*).

{growth}

{grown}.

## Memory and size

{memory}

The stack was painted before a call and looked at afterwards, on all jobs of the table above. {sizes}

## Lines and proofs by crate

Lines that are neither blank nor comments.
{proofs}

{crates}

## To repeat

    bench/run --install     once: Debian's packages of NTL, FLINT and PARI
    bench/run --twice       this page, of the second of two runs
    bench/run               the same of one run, held to the run before
    bench/run --proofs      the same, after proving every crate of a copy; later runs keep these times
    bench/run --before FILE the same beside the library of an earlier tree
    bench/beside FILE       some thousand calls beside the library of an earlier tree, without this page
    bench/leaves            the inner loops alone
    bench/catalogue         the search of the catalogue beside calls of the period way
'''


PROVED = '''Seconds are by the clock, each crate proved from nothing over the crates that it depends on,
with other work on the machine.'''


GENERIC = '''The peers are the packages of Debian, which are generic builds for any x86-64; one built for the processor at
  hand may be faster, and so may C and the rater.'''
NONE = 'In this run no peer was at hand.'
OWN = 'Not all peers are the packages of Debian: see the versions above.'
EARLIER = """
- *Before*: the library of an earlier tree, in the same run."""


def main():
    jobs, stacks = read_passes()
    if not jobs:
        sys.exit('bench: nothing is measured yet; bench/run measures')
    routes = read_processes()
    counts = collections.Counter(path for path, _ in jobs[0].rounds['rater'])
    passes, rounds = len(counts), max(counts.values())
    now = ratios_of(jobs, routes)
    if '--ratios' in sys.argv:
        keep_ratios(now, passes * rounds)
        return
    agreed = agreement(now)
    versions = ', '.join(l.strip() for l in open(BUILT + '/versions.txt'))
    sizes = [(name, file_size(path)) for name, path in (('The program `rate`', 'target/bin/rate'),
                                                       ('The library of the exported calls',
                                                        'target/staticlib/libgobashe.a'))]
    limit_table, held = limits(jobs, agreed)
    growth_table, grown = growth(jobs)
    at_hand = any(measured(jobs, peer) for peer in PEERS)
    parts = dict(
        slower=slower(jobs, routes), equal=EQUAL, date=datetime.date.today().isoformat(), machine=machine(),
        tree=open(BUILT + '/tree.txt').read().strip(),
        versions=versions, builds=NONE if not at_hand else OWN if 'of its own build' in versions else GENERIC,
        load=open(BUILT + '/load.txt').read().strip(), passes=passes, rounds=rounds,
        agreement=textwrap.fill(agreed_in_words(agreed), 124), before=EARLIER if measured(jobs, 'before') else '',
        times=main_table(jobs, routes), differences=differences(jobs), limits=limit_table, held=held.said(),
        growth=growth_table, grown=grown.said(),
        memory=memory(stacks), sizes=' '.join('%s has %s.' % s for s in sizes if s[1]),
        leaves=indented(BUILT + '/leaves.txt'), crates=crates(),
        proofs=textwrap.fill(proofs_said(crate_names()), 124))
    print(parts['times'], parts['differences'], parts['limits'], held.said(), parts['leaves'], parts['growth'], grown.said(),
          parts['memory'], parts['crates'], 'Slower than a peer:\n\n' + parts['slower'], parts['proofs'],
          parts['agreement'], sep='\n\n')
    folder = BUILT if '--print' in sys.argv else 'docs'
    with open(folder + '/BENCHMARKS.md', 'w', encoding='utf-8') as out:
        out.write(PAGE.format(**parts))
    with open(folder + '/benchmarks.svg', 'w', encoding='utf-8') as out:
        out.write(picture(jobs))
    sys.stdout.flush()
    print('bench: what must hold: %s; growth: %s' % (held.said(), grown.said()), file=sys.stderr)
    if held.counts['missed'] + grown.counts['missed'] > 0:
        sys.exit(1)


try:
    if sys.argv[1:2] == ['--proofs']:
        keep_proofs(*sys.argv[2:4])
    else:
        main()
except OSError as what:
    sys.exit('bench: %s: %s' % (what.filename or 'standard output', what.strerror))
except KeyboardInterrupt:
    sys.exit('bench: interrupted')
