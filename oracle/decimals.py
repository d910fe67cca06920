#!/usr/bin/env python3
"""Random decimals through bin/sheet, held to this language's own reading of each decimal, bit for bit.
   oracle/decimals.py [SHEETS]     so many sheets of 4,096 depths each (25: 102,400 decimals); status 1 at the first difference"""
import os, random, struct, subprocess, sys

sheets = int(sys.argv[1]) if len(sys.argv) > 1 else 25
sheet = os.path.join(os.path.dirname(os.path.abspath(__file__)), '..', 'bin', 'sheet')
draw = random.Random(20261115)


def decimal():
    whole = ''.join(draw.choice('0123456789') for _ in range(draw.randint(1, 9)))
    part = ''.join(draw.choice('0123456789') for _ in range(draw.randint(0, 3)))
    return draw.choice(['', '-']) + whole + ('.' + part if part else '')


def bits(text):
    x = float(text)
    return '%016X' % struct.unpack('>Q', struct.pack('>d', x + 0.0 if x else 0.0))[0]


for n in range(sheets):
    depths = [decimal() for _ in range(4096)]
    text = 'Linear\n' + ''.join('h\t%s\n' % d for d in depths)
    out = subprocess.run([sheet], input=text.encode(), stdout=subprocess.PIPE, check=True).stdout.decode().split('\n')
    want = ['curve\tLinear'] + ['knot\t' + bits(d) for d in depths] + ['']
    if out != want:
        at = next(i for i in range(max(len(out), len(want))) if out[i:i + 1] != want[i:i + 1])
        sys.exit('sheet %d, line %d: %r gives %r, not %r' % (n, at, depths[at - 1], out[at:at + 1], want[at:at + 1]))
print('%d decimals, no difference' % (sheets * 4096))
