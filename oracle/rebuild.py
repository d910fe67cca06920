#!/usr/bin/env python3
"""rebuild.py [PAIRS [SEED]]: random pairs of tables through bin/compare. The second table is rebuilt from the first, its own basis, span
and length, and the printed list; and the list is held to one made here, line by line. Status 1 at the first difference."""
import os, random, subprocess, sys

compare = os.path.join(os.path.dirname(os.path.abspath(__file__)), '..', 'bin', 'compare')
BASES = ['Bspline', 'Bezier', 'CatmullRom', 'Hermite', 'Linear', 'Power']
# zeros of both signs, NaN patterns, infinities, neighbours of 1
ODD = [0, 1 << 63, 0x7FF8000000000000, 0x7FF8000000000001, 0xFFF8000000000000, 0x7FF0000000000000, 0xFFF0000000000000, 0x3FF0000000000000,
       0x3FF0000000000001]


def knot(dice):
    return dice.choice(ODD) if dice.random() < 0.5 else dice.getrandbits(64)


def table(dice, size):
    return dice.choice(BASES), dice.choice([0, 0, dice.randint(1, 86400)]), [knot(dice) for _ in range(size)]


def near(dice, one):
    """a table like another: some knots changed, some dropped or added at the end"""
    basis, span, knots = one
    knots = [knot(dice) if dice.random() < 0.2 else k for k in knots]
    if dice.random() < 0.4:
        knots = knots[:dice.randint(0, len(knots))]
    elif dice.random() < 0.5:
        knots += [knot(dice) for _ in range(dice.randint(0, min(9, 4096 - len(knots))))]
    return (dice.choice([basis, basis, dice.choice(BASES)]), dice.choice([span, span, 0, dice.randint(1, 86400)]), knots)


def listing(one):
    basis, span, knots = one
    return 'curve\t%s\n' % basis + ('span\t%d\n' % span if span else '') + ''.join('knot\t%016X\n' % k for k in knots)


def expected(old, new):
    lines = []
    if old[0] != new[0]:
        lines.append('basis\t%s\t%s' % (old[0], new[0]))
    if old[1] != new[1]:
        lines.append('span\t%d\t%d' % (old[1], new[1]))
    both = min(len(old[2]), len(new[2]))
    places = ['knot\t%d\t%016X\t%016X' % (i, old[2][i], new[2][i]) for i in range(both) if old[2][i] != new[2][i]]
    longer = old[2] if len(old[2]) > both else new[2]
    places += ['only\t%d\t%016X' % (i, longer[i]) for i in range(both, len(longer))]
    return lines + places + ['%d' % len(places) if lines or places else 'same']


def rebuilt(old, basis, span, length, printed):
    knots = (old[2] + [None] * length)[:length]
    for line in printed[:-1]:
        word, *fields = line.split('\t')
        if word in ('knot', 'only') and int(fields[0]) < length:
            knots[int(fields[0])] = int(fields[-1], 16)
    return basis, span, knots


pairs = int(sys.argv[1]) if len(sys.argv) > 1 else 200
dice = random.Random(int(sys.argv[2]) if len(sys.argv) > 2 else 110)
places = 0
for number in range(pairs):
    old = table(dice, dice.choice([0, 1, 2, 7, dice.randint(0, 60), 4096 if number % 50 == 0 else 12]))
    new = near(dice, old) if dice.random() < 0.8 else table(dice, dice.randint(0, 60))
    text = (listing(old) + 'other\n' + listing(new)).encode()
    printed = subprocess.run([compare], input=text, stdout=subprocess.PIPE, check=True).stdout.decode().split('\n')[:-1]
    if printed != expected(old, new):
        sys.exit('pair %d: another list: %r' % (number, printed[:3]))
    if rebuilt(old, new[0], new[1], len(new[2]), printed) != new:
        sys.exit('pair %d: the second table is not rebuilt' % number)
    places += len([line for line in printed if line[:4] in ('knot', 'only')])
print('rebuild: %d pairs, %d places that differ: every second table is rebuilt, every list as expected' % (pairs, places))
