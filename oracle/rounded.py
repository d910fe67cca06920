#!/usr/bin/env python3
"""Random doubles through bin/decimals, held to this language's fractions: the nearest multiple of 10^-3 or 10^-6, ties to even.
   oracle/rounded.py [DOUBLES]     so many patterns (1,000,000), half with three digits and half with six
Status 1 at the first difference."""
import os, random, struct, subprocess, sys
from fractions import Fraction

count = int(sys.argv[1]) if len(sys.argv) > 1 else 1000000
decimals = os.path.join(os.path.dirname(os.path.abspath(__file__)), '..', 'bin', 'decimals')
draw = random.Random(20261115)
sign = 1 << 63


def bits(x):
    return struct.unpack('>Q', struct.pack('>d', x))[0]


def pattern():
    kind = draw.randrange(8)
    if kind == 0:  # any pattern: NaN, infinities, subnormals
        return draw.getrandbits(64)
    if kind == 1:  # zeros, the least doubles, the infinities, 2^40 and their neighbours
        return (draw.choice([0, 1 << 52, 2047 << 52, 1063 << 52]) + draw.randint(-2, 2)) % sign + draw.choice([0, sign])
    if kind == 2:  # a tie: an odd number of sixteenths of a thousandth's or a millionth's worth
        return bits(draw.choice([1, -1]) * (2 * draw.randrange(1 << draw.randint(1, 40)) + 1) / 2.0 ** draw.choice([4, 5, 6, 7]))
    if kind == 3:  # next to half-way between two thousandths or two millionths
        half = (draw.randrange(10 ** draw.randint(1, 12)) + 0.5) / draw.choice([1e3, 1e6])
        return bits(half) + draw.randint(-1, 1) + draw.choice([0, sign])
    if kind == 4:  # a parameter
        return bits(draw.random())
    return draw.randint(980, 1064) << 52 | draw.getrandbits(52) | draw.choice([0, sign])


def text(n, d):
    a = n % sign
    minus = '-' if n >= sign else ''
    if a > 2047 << 52:
        return 'nan'
    if a == 2047 << 52:
        return minus + 'inf'
    x = Fraction(struct.unpack('>d', struct.pack('>Q', a))[0])
    if x > 2 ** 40:
        return minus + 'large'
    u = round(x * 10 ** d)  # of a fraction: to the nearest, ties to even
    return (minus if u else '') + '%d.%0*d' % (u // 10 ** d, d, u % 10 ** d)


done = 0
while done < count:
    some = [(pattern(), draw.choice([3, 6])) for _ in range(min(50000, count - done))]
    lines = ''.join('%s\t%016X\tend\n' % ('place' if d == 6 else 'value', n) for n, d in some)
    out = subprocess.run([decimals], input=lines.encode(), stdout=subprocess.PIPE, check=True).stdout.decode().split('\n')
    want = ['%s\t%s\tend' % ('place' if d == 6 else 'value', text(n, d)) for n, d in some] + ['']
    if out != want:
        at = next(i for i in range(max(len(out), len(want))) if out[i:i + 1] != want[i:i + 1])
        sys.exit('%016X: %r, not %r' % (some[at][0], out[at:at + 1], want[at:at + 1]))
    done += len(some)
print('%d doubles, no difference' % done)
