#!/usr/bin/env python3
"""How often a curve through rising depths turns back, by basis and by kind of night, and how far Monotone lies from CatmullRom.

    oracle/nights.py            prints the tables of docs/NIGHTS.md
    oracle/nights.py picture    prints docs/nights.svg

Whole numbers and fractions alone, apart from the port's code and from the judge's. The same on every run.
"""
import random
import sys
from fractions import Fraction
from statistics import median

NIGHTS = 2000
ROWS = (10, 13, 25)  # lengths that suit Bezier too


def steps(kind, n, r):
    """The n - 1 steps of a night in thousandths, none negative."""
    if kind == "increments even in 0 to 2,000":
        return [r.randint(0, 2000) for _ in range(n - 1)]
    if kind == "a valve opened and shut":
        out, flow = [], 0
        for _ in range(n - 1):
            if r.random() < 0.3:
                flow = r.randint(200, 2000) if flow == 0 else 0
            out.append(flow)
        return out if any(out) else [1000] + out[1:]
    if kind == "bursts of 0, 100, 200, 300, 1,500":
        return [r.choice((0, 100, 200, 300, 1500)) for _ in range(n - 1)]
    if kind == "an S, rounded to thousandths":
        top = r.randint(5000, 20000)
        rows = [round(top * (3 * Fraction(i, n - 1) ** 2 - 2 * Fraction(i, n - 1) ** 3)) for i in range(n)]
        return [b - a for a, b in zip(rows, rows[1:])]
    return [r.randint(700, 1300) for _ in range(n - 1)]


KINDS = (
    "increments even in 0 to 2,000",
    "a valve opened and shut",
    "bursts of 0, 100, 200, 300, 1,500",
    "an S, rounded to thousandths",
    "a steady rate, 30 % more or less",
)


def night(kind, n, r):
    rows = [0]
    for s in steps(kind, n, r):
        rows.append(rows[-1] + s)
    return rows


def bspline(p, q, r, s):
    return [(-p + 3 * q - 3 * r + s, 6), (3 * p - 6 * q + 3 * r, 6), (-3 * p + 3 * r, 6), (p + 4 * q + r, 6)]


def bezier(p, q, r, s):
    return [(-p + 3 * q - 3 * r + s, 1), (3 * p - 6 * q + 3 * r, 1), (-3 * p + 3 * q, 1), (p, 1)]


def catmull_rom(p, q, r, s):
    return [(-p + 3 * q - 3 * r + s, 2), (2 * p - 5 * q + 4 * r - s, 2), (r - p, 2), (2 * q, 2)]


def linear(p, q, r, s):
    return [(0, 1), (0, 1), (r - q, 1), (q, 1)]


def hermite(p, q, r, s):
    return [(2 * p + q - 2 * r + s, 1), (-3 * p - 2 * q + 3 * r - s, 1), (q, 1), (p, 1)]


def curve(cubic, step, knots):
    return [[Fraction(a, b) for a, b in cubic(*knots[i:i + 4])] for i in range(0, len(knots) - 3, step)]


def value(c, t):
    return ((c[0] * t + c[1]) * t + c[2]) * t + c[3]


def falls(c):
    """Whether 3at² + 2bt + c is below 0 somewhere from 0 to 1."""
    a, b, d = 3 * c[0], 2 * c[1], c[2]
    if d < 0 or a + b + d < 0:
        return True
    return a > 0 and 0 < -b < 2 * a and d - b * b / (4 * a) < 0


def slope(a, b):
    if a * b <= 0:
        return 0
    return min((a + b) // 2, 3 * min(a, b))  # rows rise: no step is negative


def monotone(rows):
    d = [b - a for a, b in zip(rows, rows[1:])]
    slopes = [d[0]] + [slope(a, b) for a, b in zip(d, d[1:])] + [d[-1]]
    return [x for pair in zip(rows, slopes) for x in pair]


CURVES = (("Bspline", bspline, 1), ("Bezier", bezier, 3), ("Linear", linear, 1), ("CatmullRom", catmull_rom, 1))


def share(n, of):
    return f"{100 * n / of:.0f} %" if n == 0 or 100 * n / of >= 1 else f"{100 * n / of:.1f} %"


def tables():
    print(f"{NIGHTS:,} nights of each kind and length; shares of them whose curve turns back, at {', '.join(map(str, ROWS))} rows\n")
    print("| night | " + " | ".join(name for name, _, _ in CURVES) + " | Monotone |")
    print("|---|" + "---:|" * (len(CURVES) + 1))
    far = []
    for kind in KINDS:
        cells = {name: [] for name, _, _ in CURVES + (("Monotone", None, 0),)}
        for n in ROWS:
            r = random.Random(f"{kind} {n}")
            count = dict.fromkeys(cells, 0)
            apart, same, near, segments, kept = [], 0, 0, 0, 0
            for _ in range(NIGHTS):
                rows = night(kind, n, r)
                drawn = {name: curve(c, s, rows) for name, c, s in CURVES}
                drawn["Monotone"] = curve(hermite, 2, monotone(rows))
                for name, cs in drawn.items():
                    count[name] += any(map(falls, cs))
                if n == 13 and not any(map(falls, drawn["CatmullRom"])):
                    kept += 1
                    pairs = list(zip(drawn["CatmullRom"], drawn["Monotone"][1:]))
                    most = [max(abs(value(a, Fraction(j, 16)) - value(b, Fraction(j, 16))) for j in range(1, 16)) for a, b in pairs]
                    apart.append(max(most))
                    segments += len(pairs)
                    same += sum(a == b for a, b in pairs)
                    near += sum(m <= Fraction(1, 4) for m in most)
            for name in cells:
                cells[name].append(share(count[name], NIGHTS))
            if n == 13:
                far.append((kind, kept, apart, same, near, segments))
        print(f"| {kind} | " + " | ".join(", ".join(c) for c in cells.values()) + " |")
    print("\nWhere CatmullRom does not turn back, 13 rows: how far Monotone lies from it, at 16ths of the segments that both have, "
          "in thousandths\n")
    print("| night | such nights | segments that are CatmullRom's exactly | within ¼ thousandth | farthest of a night: median | largest |")
    print("|---|---:|---:|---:|---:|---:|")
    for kind, kept, apart, same, near, segments in far:
        if kept:
            farthest = f"{float(median(apart)):.3g} | {float(max(apart)):.3g}"
            print(f"| {kind} | {kept} | {share(same, segments)} | {share(near, segments)} | {farthest} |")
        else:
            print(f"| {kind} | 0 | – | – | – | – |")


def picture():
    rows = [0, 0, 100, 5000, 5050, 5100, 5150, 5200]

    def point(hour, depth):
        return f"{60 + 80 * float(hour):.1f},{330 - 55 * float(depth) / 1000:.1f}"

    def line(cs, first):
        return " ".join(point(first + s + Fraction(j, 32), value(c, Fraction(j, 32))) for s, c in enumerate(cs) for j in range(33))

    drawn, kept = line(curve(catmull_rom, 1, rows), 1), line(curve(hermite, 2, monotone(rows)), 0)
    axes = "".join(f'<path class="a" d="M{point(h, -0.5 * 1000)} V35"/><text x="{60 + 80 * h}" y="378">{h} h</text>' for h in range(8))
    axes += "".join(f'<path class="a" d="M60,{330 - 55 * d} H620"/><text x="30" y="{334 - 55 * d}">{d}</text>' for d in range(6))
    dots = "".join('<circle cx="%s" cy="%s" r="4"/>' % tuple(point(h, d).split(",")) for h, d in enumerate(rows))
    said = 'role="img" aria-label="CatmullRom dips and overshoots; Monotone does not"'
    print(f'''<svg xmlns="http://www.w3.org/2000/svg" viewBox="0 0 640 400" {said}>
<style>
text {{ font: 13px sans-serif; text-anchor: middle; fill: #555 }}
.a {{ stroke: #999; stroke-width: .5; fill: none }}
.c {{ stroke: #c33; stroke-width: 2; fill: none; stroke-dasharray: 6 4 }}
.m {{ stroke: #27c; stroke-width: 2.5; fill: none }}
circle {{ fill: #e80 }}
@media (prefers-color-scheme: dark) {{ text {{ fill: #bbb }} .c {{ stroke: #f77 }} .m {{ stroke: #6af }} }}
</style>
{axes}
<polyline class="c" points="{drawn}"/>
<polyline class="m" points="{kept}"/>
{dots}
<text x="480" y="150">dashed: CatmullRom, which turns back</text>
<text x="480" y="172">solid: Monotone, which cannot</text>
</svg>''')


if __name__ == "__main__":
    picture() if sys.argv[1:] == ["picture"] else tables()
