#!/usr/bin/env python3
"""bin/picture on the held examples and on random listings: each picture is well-formed XML (xmllint), at most 90,145 bytes, has every
coordinate in its view box, and is, where the listing asks no find, byte for byte what a second reading of the definition makes of it.
    oracle/pictures.py [COUNT]          COUNT random listings, 1,000 if none is said
    oracle/pictures.py --look FOLDER    draws the held examples with rsvg-convert on white and on black, to be looked at
Needs xmllint, and for --look rsvg-convert. Status 1 at a difference."""
import math, os, random, re, struct, subprocess, sys, tempfile
from fractions import Fraction

ROOT = os.path.join(os.path.dirname(os.path.abspath(__file__)), '..')
LEVEL = 2 * 10**15
ROWS = {
    'Linear': ([[0, 0, 0, 0], [0, 0, 0, 0], [0, -1, 1, 0], [0, 1, 0, 0]], 1, 1),
    'Bspline': ([[-1, 3, -3, 1], [3, -6, 3, 0], [-3, 0, 3, 0], [1, 4, 1, 0]], 6, 1),
    'CatmullRom': ([[-1, 3, -3, 1], [2, -5, 4, -1], [-1, 0, 1, 0], [0, 2, 0, 0]], 2, 1),
    'Bezier': ([[-1, 3, -3, 1], [3, -6, 3, 0], [-3, 3, 0, 0], [1, 0, 0, 0]], 1, 3),
    'Hermite': ([[2, 1, -2, 1], [-3, -2, 3, -1], [0, 1, 0, 0], [1, 0, 0, 0]], 1, 2),
    'Power': ([[1, 0, 0, 0], [0, 1, 0, 0], [0, 0, 1, 0], [0, 0, 0, 1]], 1, 4),
}
HEAD = None  # read from the specification's own text


def word(x):
    return '%016X' % struct.unpack('>Q', struct.pack('>d', x))[0]


def listing(basis, span, knots, after=()):
    spans = ['span\t%d\n' % span] if span else []
    return ''.join(['curve\t%s\n' % basis] + spans + ['knot\t%s\n' % word(k) for k in knots] + list(after))


# ---- the second reading
def value(basis, x, knots):
    rows, divisor, step = ROWS[basis]
    k = (len(knots) - 4) // step + 1
    y = x * k
    s = min(int(y), k - 1)
    t, cv = y - s, knots[s * step:s * step + 4]
    w = [((cv[0] * (r[0] / divisor) + cv[1] * (r[1] / divisor)) + cv[2] * (r[2] / divisor)) + cv[3] * (r[3] / divisor) for r in rows]
    return ((w[0] * t + w[1]) * t + w[2]) * t + w[3]


def height(x):
    size = abs(Fraction(x)) if math.isfinite(x) and abs(x) <= 2**40 else Fraction(2**40)
    return LEVEL - round(size * 1000) if math.copysign(1, x) < 0 else LEVEL + round(size * 1000)


def column(i, m):
    return 1000 + min(8600, i * 8600 // m if m else 0)


def row(extent, h):
    return 6400 - min(6000, max(h - extent[0], 0) * 6000 // (extent[1] - extent[0]))


def step(r):
    return 1 if r <= 5 else 2 if r <= 10 else 5 if r <= 25 else 10 * step(r // 10)


def shown(basis, n, j):
    if ROWS[basis][2] == 1:
        return 1 <= j < n - 1
    return {'Bezier': True, 'Hermite': j % 2 == 0, 'Power': j % 4 == 3}[basis]


def knot_column(basis, n, j):
    if ROWS[basis][2] == 1:
        return column(max(j - 1, 0), max(n - 3, 0))
    if basis == 'Bezier':
        return column(j, max(n - 1, 0))
    return column(j // 2, max(n // 2 - 1, 0)) if basis == 'Hermite' else column(j // 4, n // 4)


def label(h):
    text = '%d.%03d' % (abs(h - LEVEL) // 1000, abs(h - LEVEL) % 1000)
    return ('-' if h < LEVEL else '') + text.rstrip('0').rstrip('.')


def ticks(first, s, end):
    """multiples of the step from the first on that lie half a step below the end or more, seven at most; and the end"""
    return [v for v in range(first, first + 7 * s, s) if v <= max(end - (s + 1) // 2, 0)] + [end]


def refusal(basis, knots):
    n, st = len(knots), ROWS[basis][2]
    if n < 4 or (n - 4) % st:
        return (1 if n < 4 else 2), None
    bad = [j for j, x in enumerate(knots) if not abs(x) <= 2**40]
    return (4, bad[0]) if bad else (0, None)


def body(basis, knots):
    n = len(knots)
    number, at = refusal(basis, knots)
    if number:
        told = '<text class="r" x="1100" y="600">table refused: %d' % number
        if at is None:
            return told + '</text>\n'
        return told + ' at knot %d</text>\n<path class="r" d="M%d,400V6400"/>\n' % (at, knot_column(basis, n, at))
    p = min(2048, 256 * ((n - 4) // ROWS[basis][2] + 1))
    heights = [height(value(basis, i / p, knots)) for i in range(p + 1)]
    dots = [(knot_column(basis, n, j), height(knots[j])) for j in range(n) if shown(basis, n, j)]
    every = heights + [h for _, h in dots]
    extent = (min(every) - 1, max(every) + 1)
    s = step(extent[1] - extent[0])
    text = ''
    for h in ticks(extent[0] + s - extent[0] % s, s, extent[1] - 1):
        y, u = row(extent, h), abs(h - LEVEL)
        size = ' s' if u >= (10**6 if u % 1000 else 10**10) else ''
        text += '<path class="g" d="M950,%dH9600"/><text class="e%s" x="900" y="%d" dy="50">%s</text>\n' % (y, size, y, label(h))
    text += '<polyline class="c" points="' + ''.join(' %d,%d' % (column(i, p), row(extent, h)) for i, h in enumerate(heights))
    text += '"/>\n<path class="k" d="' + ''.join('M%d,%dh0' % (x, row(extent, h)) for x, h in dots)
    return text + '"/>\n'


def picture(basis, span, knots):
    global HEAD
    if HEAD is None:
        spec = open(os.path.join(ROOT, 'crates/picture/specs/Picture.antt'), encoding='utf-8').read()
        part = spec[spec.index('head_text =\n'):].split('\n\n')[0]
        HEAD = ''.join(bytes(w, 'ascii').decode('unicode_escape') for w in re.findall(r'bytes\s+"((?:[^"\\]|\\.)*)"', part))
    text = HEAD + ('hours from dusk' if span else 'parameter') + '</text>\n'
    stretch = span * 10 // 36 if span else 1000
    s = step(stretch)
    for v in ticks(0, s, stretch):
        x = column(v * 36, span * 10) if span else column(v, 1000)
        text += '<path class="g" d="M%d,400V6450"/><text class="t" x="%d" y="6630">%s</text>\n' % (x, x, label(LEVEL + v))
    return text + body(basis, knots) + '</svg>\n'


# ---- what every picture must be
def outside(svg):
    """the coordinates that lie outside the view box"""
    bad = []

    def see(x, y):
        if not (0 <= x <= 10000 and 0 <= y <= 7000):
            bad.append((x, y))

    for d in re.findall(r' d="([^"]*)"', svg):
        x = y = 0
        for c, rest in re.findall(r'([MHVhv])([-0-9,]*)', d):
            n = [int(t) for t in rest.split(',')]
            if c == 'M':
                x, y = n[0], n[1]
            elif c in 'Hh':
                x = n[0] + (x if c == 'h' else 0)
            else:
                y = n[0] + (y if c == 'v' else 0)
            see(x, y)
    for p in re.findall(r' points="([^"]*)"', svg):
        for t in p.split():
            see(*[int(v) for v in t.split(',')])
    for x, y in re.findall(r' x="(\d+)" y="(\d+)"', svg):
        see(int(x), int(y))
    return bad


def drawn(text):
    return subprocess.run([os.path.join(ROOT, 'bin/picture')], input=text.encode(), stdout=subprocess.PIPE, check=True).stdout.decode()


def held():
    """the pictures that are looked at: name, listing"""
    hours = open(os.path.join(ROOT, 'examples/double_hour.txt')).read()
    spline = [0.0, 0.0] + [6.0 * i for i in range(1, 15)]
    slow = [3 * math.sin(i / 130) + 0.3 * math.sin(i / 7) for i in range(4096)]
    yield 'night', open(os.path.join(ROOT, 'runs/picture/night.in')).read()
    yield 'double_hour', 'curve' + hours.split('curve')[1]
    yield 'double_hour_by_seconds', hours
    yield 'dusk_by_knots', listing('Bspline', 0, spline, ['find\t%s\n' % word(0.5), 'find\t%s\n' % word(30.0)])
    yield 'dusk_by_curve', listing('Bspline', 0, spline, ['ends\tcurve\n', 'find\t%s\n' % word(0.5), 'find\t%s\n' % word(30.0)])
    yield 'most_segments', listing('CatmullRom', 86400, slow)
    yield 'one_segment', listing('Bezier', 0, [0.0, 0.5, 0.5, 1.0])
    yield 'bad_knot', listing('Linear', 3600, [0.0, 1.0, 2.0, math.inf, 3.0])


def random_listing(r):
    """a listing, and the table if the picture is to be compared whole"""
    basis = r.choice(list(ROWS))
    n = r.choice([4, 4, 5, 7, 8, 10, 12, 13, 40, 200])
    if r.random() < 0.85:
        n = 4 + (n - 4) // ROWS[basis][2] * ROWS[basis][2]
    size = 10.0 ** r.uniform(-5, 12)
    knots = [r.uniform(-size, size) if r.random() < 0.7 else float(r.randint(-9, 9)) for _ in range(n)]
    if r.random() < 0.4:
        knots.sort()
    if r.random() < 0.1:
        knots[r.randrange(n)] = r.choice([math.inf, math.nan, -2.0**41, 2.0**40])
    span = r.choice([0, 0, r.randint(1, 86400)])
    if r.random() < 0.5:
        return listing(basis, span, knots), (basis, span, knots)
    lines = ['find\t%s\n' % word(r.uniform(-size, size)) for _ in range(r.randint(0, 12))]
    lines += r.sample(['salt\n', 'at\t%s\n' % word(0.5), 'turn\tLinear\n', 'span\t99999\n', 'ends\tcurve\n', 'x' * 70 + '\n', '\n'], 3)
    r.shuffle(lines)
    return listing(basis, span, knots, lines), None


def main():
    if sys.argv[1:2] == ['--look']:
        for name, text in held():
            path = os.path.join(sys.argv[2], name)
            open(path + '.svg', 'w').write(drawn(text))
            for ground, colour in (('light', 'white'), ('dark', '#0d1117')):
                subprocess.run(['rsvg-convert', '-w', '900', '-b', colour, path + '.svg', '-o', '%s.%s.png' % (path, ground)], check=True)
        return
    count = int(sys.argv[1]) if len(sys.argv) > 1 else 1000
    r, longest, compared, wrong = random.Random(26), 0, 0, 0
    with tempfile.TemporaryDirectory() as room:
        cases = [(name, text, None) for name, text in held()] + [('random%d' % i, *random_listing(r)) for i in range(count)]
        for name, text, table in cases:
            svg = drawn(text)
            longest = max(longest, len(svg))
            open(os.path.join(room, name + '.svg'), 'w').write(svg)
            bad = outside(svg)
            other = table and svg != picture(*table)
            if len(svg) > 90145 or bad or other:
                wrong += 1
                print('%s: %d bytes, outside: %s%s' % (name, len(svg), bad[:3], ', another picture' if other else ''))
            compared += table is not None
        files = sorted(os.listdir(room))
        for i in range(0, len(files), 200):
            if subprocess.run(['xmllint', '--noout'] + [os.path.join(room, f) for f in files[i:i + 200]]).returncode:
                wrong += 1
    print('pictures: %d drawn, %d of them compared whole, the longest of %d bytes; %d wrong' % (len(cases), compared, longest, wrong))
    sys.exit(1 if wrong else 0)


main()
