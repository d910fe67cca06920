#!/usr/bin/env python3
"""A second reading of what bin/ask prints: verdicts in whole numbers and fractions, depths and places in this language's doubles.
    oracle/ask.py < SHEET           prints what bin/ask is to print
    oracle/ask.py COUNT [SEED]      holds bin/ask to it on COUNT random sheets, good and bad, with questions
    oracle/ask.py COUNT SEED fine   the same on sheets that are fine, with 300 questions about each
Status 1 at the first difference. ASK is the command that is held to it, where that is not bin/ask."""
import math, os, random, re, shlex, struct, subprocess, sys
from fractions import Fraction

ROOT = os.path.join(os.path.dirname(os.path.abspath(__file__)), '..')
# the four rows of a basis, cubic first, what divides them, and STEP
BASES = {
    'Bspline': ([[-1, 3, -3, 1], [3, -6, 3, 0], [-3, 0, 3, 0], [1, 4, 1, 0]], 6, 1),
    'Bezier': ([[-1, 3, -3, 1], [3, -6, 3, 0], [-3, 3, 0, 0], [1, 0, 0, 0]], 1, 3),
    'CatmullRom': ([[-1, 3, -3, 1], [2, -5, 4, -1], [-1, 0, 1, 0], [0, 2, 0, 0]], 2, 1),
    'Hermite': ([[2, 1, -2, 1], [-3, -2, 3, -1], [0, 1, 0, 0], [1, 0, 0, 0]], 1, 2),
    'Linear': ([[0, 0, 0, 0], [0, 0, 0, 0], [0, -1, 1, 0], [0, 1, 0, 0]], 1, 1),
    'Power': ([[1, 0, 0, 0], [0, 1, 0, 0], [0, 0, 1, 0], [0, 0, 0, 1]], 1, 4),
}
DECIMAL = re.compile(rb'(-?)([0-9]{1,9})(?:\.([0-9]{1,3}))?')


def thousandths(field):
    """what a decimal says, or None"""
    m = DECIMAL.fullmatch(field)
    if not m:
        return None
    n = int(m[2]) * 1000 + int((m[3] or b'').ljust(3, b'0'))
    return -n if m[1] else n


def double(n):
    return float(Fraction(n, 1000))


def decimal(x, digits):
    """the nearest multiple of 10^-digits, ties to even"""
    units = round(Fraction(x) * 10**digits)
    return '%s%d.%0*d' % ('-' if units < 0 else '', abs(units) // 10**digits, digits, abs(units) % 10**digits)


# ---- the sheet
class Sheet:
    """the lines of a sheet: what is wrong with one of them, or basis, labels and thousandths"""

    def __init__(self, lines):
        self.fault, self.name, self.labels, self.rows = None, None, [], []
        if not lines:
            self.fault = (1, 'missing')
        for number, line in enumerate(lines, 1):
            why = self.read(number, line)
            if why:
                self.fault = (number, why)
                return

    def read(self, number, line):
        if len(line) > 64:
            return 'long'
        if number == 1:
            self.name = line.decode('latin1')
            return None if self.name == 'Monotone' or self.name in BASES else 'basis'
        label, tab, rest = line.partition(b'\t')
        if not 1 <= len(label) <= 16:
            return 'label'
        n = thousandths(rest) if tab else None
        if n is None or (self.name == 'Monotone' and abs(n) > 5 * 10**11):
            return 'depth'
        if len(self.rows) == 4096:
            return 'many'
        self.labels.append(label)
        self.rows.append(n)


def sign(n):
    return (n > 0) - (n < 0)


def slope(a, b):
    """between two steps: half their sum toward 0, at most three times the smaller"""
    if a * b <= 0:
        return 0
    return sign(a) * min(abs(a + b) // 2, 3 * min(abs(a), abs(b)))


class Curve:
    """the curve of a sheet: knots in thousandths, and which row each segment begins at"""

    def __init__(self, name, rows):
        self.monotone = name == 'Monotone'
        self.basis = 'Hermite' if self.monotone else name
        self.whole, self.divisor, self.step = BASES[self.basis]
        self.knots = rows
        self.suits = len(rows) >= 4 and (len(rows) - 4) % self.step == 0
        if self.monotone:
            self.suits = 2 <= len(rows) <= 2048
            steps = [b - a for a, b in zip(rows, rows[1:])]
            slopes = [slope(a, b) for a, b in zip(steps[:1] + steps, steps + steps[-1:])]
            self.knots = [n for pair in zip(rows, slopes) for n in pair]
        self.count = (len(self.knots) - 4) // self.step + 1
        self.last_row = len(rows) - 1
        # which rows are told by `turns`: those of the curve itself
        self.ordered = (0, len(rows) - 1) if self.monotone else (1, len(rows) - 2) if name in ('CatmullRom', 'Linear') else None

    def row(self, s):
        """the row at which segment s begins"""
        return s if self.monotone else s * self.step + (self.step == 1)

    def cubic(self, s):
        """its four coefficients, exactly"""
        four = self.knots[s * self.step:s * self.step + 4]
        return [Fraction(sum(m * k for m, k in zip(r, four)), self.divisor) for r in self.whole]

    def start(self, s):
        return self.cubic(s)[3]

    def end(self, s):
        return sum(self.cubic(s))

    def falls(self, s, way):
        """whether segment s goes against the direction anywhere from 0 to 1"""
        a, b, c, _ = [way * w for w in self.cubic(s)]
        places = [Fraction(0), Fraction(1)]
        if a != 0 and 0 < -b / (3 * a) < 1:
            places.append(-b / (3 * a))
        return any(3 * a * t * t + 2 * b * t + c < 0 for t in places)


def faults(sheet, curve):
    """what the verdict lists, in its order: (line, kind, fields)"""
    found, first = [], {}
    for i, label in enumerate(sheet.labels):
        if label in first:
            found.append((i + 2, 0, 'twice\t%d\t%d' % (first[label] + 2, i + 2)))
        else:
            first[label] = i
    way = sign(curve.end(curve.count - 1) - curve.start(0))
    if way == 0:
        return [text for _, _, text in found] + ['flat']
    turning = set()
    if curve.ordered:
        low, high = curve.ordered
        turning = {i for i in range(low, high) if way * (sheet.rows[i + 1] - sheet.rows[i]) < 0}
        found += [(i + 2, 1, 'turns\t%d' % (i + 2)) for i in turning]
    for s in range(curve.count):
        i = curve.row(s)
        jumps = s + 1 < curve.count and way * (curve.start(s + 1) - curve.end(s)) < 0
        if i not in turning and (jumps or curve.falls(s, way)):
            found.append((i + 2, 2, 'falls\t%d' % (i + 2)))
    return [text for _, _, text in sorted(found)]


# ---- in doubles
PRECISION = 1e-10
ROUNDS = 64


def between(lower, upper, t):
    return lower + (upper - lower) * t


class Doubles:
    def __init__(self, curve):
        self.curve = curve
        self.matrix = [[m / curve.divisor for m in r] for r in curve.whole]
        self.knots = [double(k) for k in curve.knots]

    def value(self, s, t):
        c = self.knots[s * self.curve.step:s * self.curve.step + 4]
        w = [((c[0] * m[0] + c[1] * m[1]) + c[2] * m[2]) + c[3] * m[3] for m in self.matrix]
        return ((w[0] * t + w[1]) * t + w[2]) * t + w[3]

    def ends(self):
        return self.value(0, 0.0), self.value(self.curve.count - 1, 1.0)

    def at(self, parameter):
        """the depth at a parameter from 0 to 1"""
        k = self.curve.count
        scaled = parameter * k
        s = min(math.floor(scaled), k - 1)
        return self.value(s, scaled - s)

    # how far a job had come that stopped at the depth y: by the curve's own ends and the steady method, without an order check
    def stopped(self, y):
        """a word; with `reached` the parameter and the segment, with `off` the count of evaluations"""
        start, end = self.ends()
        if start == end:
            return ('flat',)
        for word, there in (('start', y == start), ('end', y == end),
                            ('before', y < start if start < end else y > start), ('beyond', y > end if start < end else y < end)):
            if there:
                return (word,)
        self.made = 2
        s, local = self.searched(y, start < end)
        if s is None:
            return ('off', self.made)
        return ('reached', (s + local) * (1.0 / self.curve.count), s)

    def searched(self, y, rising):
        """the segment that was entered and the local place in it, or None twice: one by one up to 12 segments, by halving above"""
        k = self.curve.count
        tries = range(k)
        if k > 12:
            left, right = 0, k - 1
            while left <= right:
                middle = (left + right) // 2
                start, local = self.entered(middle, y)
                if local is not None:
                    return middle, local
                if not (y < start if rising else y > start):
                    left = middle + 1
                elif middle == 0:
                    left = right = 0
                    break
                else:
                    right = middle - 1
            tries = range(max(left - 1, 0), min(right + 2, k))
        for s in tries:
            local = self.entered(s, y)[1]
            if local is not None:
                return s, local
        return None, None

    def entered(self, s, y):
        """the value of the segment's start; and where its ends enclose y, the local place that the steady rounds come to"""
        self.made += 2
        v0, v1 = self.value(s, 0.0), self.value(s, 1.0)
        rising = v0 < v1
        if y < min(v0, v1) or y > max(v0, v1):
            return v0, None
        for v, local in ((v0, 0.0), (v1, 1.0)):
            if abs(y - v) < 2.0 * PRECISION:
                return v0, local
        return v0, self.rounds(s, y, v0, v1, rising)

    def rounds(self, s, y, v0, v1, rising):
        lower, upper, moved, again, allowed = 0.0, 1.0, None, 0, 16.0
        for _ in range(ROUNDS):
            width = upper - lower
            if width < max(PRECISION, width * 1e-12):
                break
            x = between(lower, upper, 0.5)
            if width <= allowed:
                # the end that stayed again is weighed half
                if again and moved == 'lower':
                    v1 = y + (v1 - y) * 0.5
                elif again:
                    v0 = y + (v0 - y) * 0.5
                chord = between(lower, upper, (y - v0) / (v1 - v0)) if v1 != v0 else math.nan
                if lower < chord < upper:
                    x = chord
            allowed *= 0.5
            v = self.value(s, x)
            self.made += 1
            moves = 'lower' if (v < y) == rising else 'upper'
            if moves == 'lower':
                lower, v0 = x, v
            else:
                upper, v1 = x, v
            again, moved = (again + 1 if moves == moved else 0), moves
            if abs(v - y) < PRECISION:
                return x
        return between(lower, upper, 0.5)


# ---- questions
NUMBER = re.compile(rb'[0-9]{1,5}')


class Asked:
    """what is asked of a fine sheet; the span in seconds, once a row was told"""

    def __init__(self, sheet, curve):
        self.sheet, self.curve, self.doubles, self.span = sheet, curve, Doubles(curve), None

    def reply(self, line):
        """the lines that a question gets"""
        word, tab, field = line.partition(b'\t')
        if line == b'table':
            return ['curve\t' + self.curve.basis] + ['knot\t' + struct.pack('>d', k).hex().upper() for k in self.doubles.knots]
        if word == b'find' and tab and len(line) <= 64 and thousandths(field) is not None:
            return [self.find(double(thousandths(field)))]
        if word in (b'row', b'at', b'every') and tab and NUMBER.fullmatch(field):
            n = int(field)
            if word == b'row':
                return self.row(n)
            if word == b'at':
                return [self.at(n)] if self.span and n <= self.span else ['refused\t14']
            if n >= 60:
                return [self.at(i) for i in [*range(0, self.span, n), self.span]] if self.span else ['refused\t14']
        return ['refused\t12']

    def row(self, n):
        span = n * self.curve.count
        if not 1 <= span <= 86400:
            return ['refused\t14']
        self.span = span
        return []

    def at(self, n):
        return 'at\t%d\t%s' % (n, decimal(self.doubles.at(n / self.span), 3))

    def find(self, y):
        word, *told = self.doubles.stopped(y)
        if word == 'flat':
            return word
        if word == 'off':
            return 'refused\t11'
        fields = [word, decimal(y, 3)]
        if word == 'reached':
            parameter, s = told
            fields.append(str(math.floor(parameter * self.span)) if self.span else decimal(parameter, 6))
            fields += [self.label(s), self.label(s + 1)]
        return '\t'.join(fields)

    def label(self, s):
        """of the row at which segment s begins; the last segment of a Power sheet ends at no row"""
        i = self.curve.row(s)
        return self.sheet.labels[i].decode('latin1') if i < len(self.sheet.labels) else ''


def verdict(sheet):
    """its lines, and the curve where it is fine"""
    if sheet.fault:
        return ['line\t%d\t%s' % sheet.fault], None
    curve = Curve(sheet.name, sheet.rows)
    if not curve.suits:
        return ['length\t%d' % len(sheet.rows)], None
    found = faults(sheet, curve)
    if found:
        return found, None
    return ['fine\t%d\t%s\t%s' % (len(sheet.rows), *[decimal(x, 3) for x in Doubles(curve).ends()])], curve


def printed(data):
    lines = data.split(b'\n')
    if lines[-1] == b'':
        lines.pop()
    at = lines.index(b'ask') if b'ask' in lines else len(lines)
    sheet = Sheet(lines[:at])
    out, curve = verdict(sheet)
    asked = Asked(sheet, curve) if curve else None
    for line in lines[at + 1:]:
        out += asked.reply(line) if asked else ['refused\t13']
    return ''.join(line + '\n' for line in out).encode('latin1')


# ---- random sheets
def rows_of(r, n, kind):
    """thousandths of n rows"""
    if kind == 'zigzag':
        return [r.randint(-9, 9) * 1000 for _ in range(n)]
    if kind == 'large':
        return sorted(r.randint(-(10**12 - 1), 10**12 - 1) for _ in range(n))
    if kind == 'still':
        step = [r.choice([0, 0, 0, 250, 1000]) for _ in range(n)]
    elif kind == 'steady':
        step = [1000 + r.randint(-100, 100) for _ in range(n)]
    else:
        step = [r.randint(0, 2000) for _ in range(n)]
    at, rows = r.randint(-3000, 3000), []
    for s in step:
        rows.append(at)
        at += s
    return rows


def text_of(n, r):
    """a decimal that says n thousandths, in one of its spellings"""
    a = abs(n)
    whole, rest = str(a // 1000), '%03d' % (a % 1000)
    if r.random() < 0.1 and len(whole) < 9:
        whole = '0' + whole
    spellings = [rest] + ([rest[:2]] if rest[2] == '0' else []) + ([rest[:1], None] if rest == '000' else [])
    rest = r.choice(spellings)
    return ('-' if n < 0 or (n == 0 and r.random() < 0.2) else '') + whole + ('' if rest is None else '.' + rest)


def random_sheet(r):
    name = r.choice(list(BASES) + ['Monotone'] * 3 + ['CatmullRom', 'Linear'])
    step = {'Monotone': 1, **{b: v[2] for b, v in BASES.items()}}[name]
    n = r.choice([2, 3, 4, 5, 6, 7, 8, 10, 13, 16, 17, 25, 40]) if r.random() < 0.9 else r.randint(0, 300)
    if name != 'Monotone' and r.random() < 0.9:
        n = 4 + max(n - 4, 0) // step * step
    kind = r.choice(['steady', 'steady', 'even', 'still', 'large', 'zigzag'])
    rows = rows_of(r, n, kind)
    if name == 'Hermite' and n >= 4 and r.random() < 0.7:
        rows = Curve('Monotone', rows_of(r, n // 2, 'even')).knots[:n]
    if name == 'Power' and r.random() < 0.7:
        at, rows = 0, []
        for _ in range(n // 4):
            four = [r.randint(0, 300) for _ in range(3)]
            rows += four + [at]
            at += sum(four) + r.choice([0, 0, 0, 1, -1])
    if r.random() < 0.3:
        rows = [-k for k in rows]
    if name == 'Monotone' and r.random() < 0.9:
        rows = [max(-5 * 10**11, min(5 * 10**11, k)) for k in rows]
    if rows and r.random() < 0.15:
        rows[r.randrange(len(rows))] = r.choice([50000, 0, -1, 5 * 10**11, 5 * 10**11 + 1, 10**12 - 1])
    labels = ['%dh%02d' % (i // 4 % 24, i % 4 * 15) if n <= 96 else 'row %d' % i for i in range(len(rows))]
    if len(rows) > 1 and r.random() < 0.25:
        for _ in range(r.choice([1, 1, 2, 5])):
            labels[r.randrange(len(rows))] = labels[r.randrange(len(rows))]
    return name, ['%s\t%s' % (label, text_of(k, r)) for label, k in zip(labels, rows)]


BAD_LINES = [
    '', '\t1', '1h', '1h\t', '1h\t1.', '1h\t.5', '1h\t1.2345', '1h\t1,5', '1h\t1 ', '1h\t+1', '1h\t1\t', '1h\t--1', '1h\t1234567890',
    '1h\t1\r', 'a label of 17 byte\t1', 'sixteen bytes ..\t1', '1h\t' + '0' * 61, '1h\t' + '0' * 62, 'x' * 65, '\u00e9\t1',
    'Monotone', '1h 1', ' \t0',
]
BAD_QUESTIONS = [
    '', 'ask', 'Table', 'table\t', 'table\t1', 'tabl', 'salt', 'x' * 64, 'x' * 65,
    'find', 'find\t', 'find\t1.', 'find\t.5', 'find\t1.2345', 'find\t1,5', 'find\t1234567890', 'find\t1\t', 'find 1', 'Find\t1',
    'find\t+1', 'find\t--1', 'find\t1\r', 'find\t' + '0' * 59,
    'row', 'row\t', 'row\t-1', 'row\t1.0', 'row\t123456', 'row\t000060', 'row\t60\t', 'row\t60\r', 'row\t1h', 'rows\t60',
    'at', 'at\t', 'at\t0.5', 'at\t123456', 'at\t-0', 'at\t1 ',
    'every', 'every\t', 'every\t59', 'every\t0', 'every\t00059', 'every\t123456', 'every\t60\t1',
]


def random_question(r, rows, text):
    """rows are the sheet's thousandths; text spells a decimal"""
    kind = r.choice(['find'] * 8 + ['at'] * 4 + ['row'] * 3 + ['every', 'table', 'bad'])
    if kind == 'find':
        low, high = (min(rows), max(rows)) if rows else (0, 1000)
        n = r.choice([r.randint(low, high)] * 6 + [r.choice(rows or [0]), low - 1, high + 1, 0, 10**12 - 1, 1 - 10**12])
        return 'find\t' + text(max(1 - 10**12, min(10**12 - 1, n)))
    if kind == 'row':
        count = max(len(rows), 1)
        even = [86400 // max(count - k, 1) for k in range(4)]
        return 'row\t%s' % r.choice([3600, 900, 1, 0, '00060', r.randint(1, even[0] + 1), *even, 86400, 86401, 99999])
    if kind == 'at':
        return 'at\t%s' % r.choice([r.randint(0, 3600), r.randint(0, 86400), 0, '007', 3600, 7200, 86400, 99999, 3599])
    if kind == 'every':
        return 'every\t%s' % r.choice([60, 61, 3600, 900, '00060', r.randint(60, 99999), r.randint(1000, 9999), 86400, 99999])
    return 'table' if kind == 'table' else r.choice(BAD_QUESTIONS)


def random_input(r):
    name, lines = random_sheet(r)
    if r.random() < 0.08:
        name = r.choice(['monotone', 'Monotone ', 'Monotone\r', 'CatmullRom\t', '', 'Catmull', 'Linear Linear', 'ask', 'x' * 70])
    if r.random() < 0.12:
        lines.insert(r.randint(0, len(lines)), r.choice(BAD_LINES))
    if r.random() < 0.02:
        lines = ['%d\t%d' % (i, i) for i in range(r.choice([2047, 2048, 2049, 4095, 4096, 4097, 4098]))]
        if r.random() < 0.3:
            lines.append(r.choice(BAD_LINES))
    whole = [name] + lines
    if r.random() < 0.01:
        whole = []
    if r.random() < 0.85:
        rows = [n for n in (thousandths(line.partition('\t')[2].encode()) for line in lines) if n is not None]
        whole += ['ask'] + [random_question(r, rows, lambda n: text_of(n, r)) for _ in range(r.randint(0, 12))]
    text = '\n'.join(whole) + ('\n' if whole and r.random() < 0.9 else '')
    return text.encode('utf-8')


def random_fine(r):
    """a fine sheet, most questions about depths and seconds of its curve"""
    curve = None
    while curve is None:
        name, lines = random_sheet(r)
        sheet = Sheet([line.encode() for line in [name] + lines])
        curve = verdict(sheet)[1]
    low, high = sorted(round(1000 * x) for x in Doubles(curve).ends())
    most = 86400 // curve.count
    asked = ['row\t%d' % r.randint(1, most)] if r.random() < 0.7 else []
    for _ in range(300):
        kind = r.random()
        if kind < 0.7:
            asked.append('find\t' + text_of(max(1 - 10**12, min(10**12 - 1, r.randint(low, high))), r))
        elif kind < 0.9:
            asked.append('at\t%d' % r.randint(0, 86400))
        elif kind < 0.92:
            asked.append('row\t%d' % r.randint(0, most + 1))
        else:
            asked.append(random_question(r, sheet.rows, lambda n: text_of(n, r)))
    return '\n'.join([name] + lines + ['ask'] + asked).encode() + b'\n'


def kind_of(line):
    """the word of a printed line; with what is wrong with a line, or a refusal's number"""
    fields = line.split(b'\t')
    if fields[0].startswith(b'line'):
        fields = fields[::2]
    return b' '.join(fields[:2 if line.startswith((b'line', b'refused')) else 1]).decode()


def main():
    if len(sys.argv) == 1:
        sys.stdout.buffer.write(printed(sys.stdin.buffer.read()))
        return
    count, r = int(sys.argv[1]), random.Random(int(sys.argv[2]) if len(sys.argv) > 2 else 39)
    command = shlex.split(os.environ.get('ASK') or shlex.quote(os.path.join(ROOT, 'bin/ask')))
    told, make = {}, random_fine if sys.argv[3:] == ['fine'] else random_input
    for i in range(count):
        data = make(r)
        want = printed(data)
        got = subprocess.run(command, input=data, stdout=subprocess.PIPE, check=True).stdout
        if got != want:
            texts = tuple(text.decode('latin1') for text in (data, want, got))
            sys.stdout.write('ask: sheet %d: another text\n---- sheet\n%s\n---- wanted\n%s---- printed\n%s' % (i, *texts))
            sys.exit(1)
        for line in want.split(b'\n'):
            word = kind_of(line)
            told[word] = told.get(word, 0) + 1
    print('ask: %d sheets, no difference; lines by word: %s' % (count, ', '.join('%s %d' % (w, c) for w, c in sorted(told.items()) if w)))


if __name__ == '__main__':
    main()
