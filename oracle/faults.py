#!/usr/bin/env python3
"""Listings of 4,096 knots with a fault at a known knot, through bin/lines: the knot that refusals 4 and 10 tell is that one. Status 1 at
the first difference."""
import os, struct, subprocess, sys

lines = os.path.join(os.path.dirname(os.path.abspath(__file__)), '..', 'bin', 'lines')
LAST = 4095


def word(x):
    return '%016X' % struct.unpack('>Q', struct.pack('>d', x))[0]


def asked(knots):
    text = 'curve\tLinear\n' + ''.join('knot\t%s\n' % word(k) for k in knots)
    text += 'at\t%s\nfind\t%s\nturn\tBspline\n' % (word(0.5), word(0.5))
    return subprocess.run([lines], input=text.encode(), stdout=subprocess.PIPE, check=True).stdout.decode().split('\n')


def hold(name, knots, find, others):
    told = asked(knots)
    first = [told[0], told[1], told[2]]
    want = [others, find, others]
    for got, wish in zip(first, want):
        if wish is not None and got != wish:
            sys.exit('%s: %r, not %r' % (name, got, wish))


good = [float(i) for i in range(LAST + 1)]
count = 0
for bad in (float('nan'), float('inf'), 1099511627776.0002):
    for at in (0, 1, 2048, LAST):
        knots = list(good)
        knots[at] = bad
        hold('a bad knot at %d' % at, knots, 'refused\t4\t%d' % at, 'refused\t4\t%d' % at)
        count += 1
for a, b in ((0, LAST), (1, 2), (2048, LAST)):
    knots = list(good)
    knots[a] = knots[b] = float('nan')
    hold('bad knots at %d and %d' % (a, b), knots, 'refused\t4\t%d' % a, 'refused\t4\t%d' % a)
    count += 1
for at in (1, 2, 2048, LAST - 1):
    knots = list(good)
    for i in range(at + 1, LAST + 1):
        knots[i] -= 1.5
    hold('a turn back behind %d' % at, knots, 'refused\t10\t%d' % at, None)
    count += 1
knots = list(good)
knots[100] = 98.5
knots[2000] = 1998.5
hold('two turns back', knots, 'refused\t10\t99', None)
knots[3000] = float('nan')
hold('a bad knot behind a turn back', knots, 'refused\t4\t3000', 'refused\t4\t3000')
knots = list(good)
knots[0] = 5.0
if asked(knots)[1].startswith('refused\t10'):
    sys.exit('knot 0 is no part of the order')
print('%d listings, each told the first knot at fault' % (count + 3))
