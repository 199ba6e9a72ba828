"""Works out with fractions what the exact plane answered, from the cases on standard input; prints how many differ."""
import math
import sys
from fractions import Fraction as F

ORDER = {-1: 'Less', 0: 'Equal', 1: 'Greater'}
SIGN = {-1: 'Minus', 0: 'Zero', 1: 'Plus'}


def sign(number):
    return (number > 0) - (number < 0)


def place(words):
    x, y, w = map(int, words)
    assert w > 0 and math.gcd(x, y, w) == 1
    return F(x, w), F(y, w)


def height(low, high, x):
    return low[1] + (high[1] - low[1]) * (x - low[0]) / (high[0] - low[0])


def turn(first, a, b):
    """By angles in floating point; directions that are nearly one are told apart exactly."""
    def clockwise(d):
        angle = (math.atan2(first[1], first[0]) - math.atan2(d[1], d[0])) % (2 * math.pi)
        same = first[0] * d[1] == first[1] * d[0] and first[0] * d[0] + first[1] * d[1] > 0
        return 0.0 if same else angle
    if a[0] * b[1] == a[1] * b[0] and a[0] * b[0] + a[1] * b[1] > 0:
        return 'Equal'
    return ORDER[sign(clockwise(a) - clockwise(b))]


def meet(p, q, r, s):
    dx, dy, ex, ey = q[0] - p[0], q[1] - p[1], s[0] - r[0], s[1] - r[1]
    det = dx * ey - dy * ex
    if det == 0:
        if dx * (r[1] - p[1]) != dy * (r[0] - p[0]):
            return ('apart',)
        low, high = max(p, r), min(q, s)
        return ('apart',) if high < low else ('at', low) if low == high else ('along', low, high)
    t = F((r[0] - p[0]) * ey - (r[1] - p[1]) * ex) / det
    u = F((r[0] - p[0]) * dy - (r[1] - p[1]) * dx) / det
    return ('at', (p[0] + t * dx, p[1] + t * dy)) if 0 <= t <= 1 and 0 <= u <= 1 else ('apart',)


def told(words):
    return (words[0],) + tuple(place(words[k:k + 3]) for k in range(1, len(words), 3))


cases = differ = 0
kinds = {}
for line in sys.stdin:
    words = line.split()
    p, q, r, s, t = (place(words[k:k + 3]) for k in range(1, 16, 3))
    rest = words[16:]
    bar = rest.index('/')
    dx, dy, ex, ey = q[0] - p[0], q[1] - p[1], s[0] - r[0], s[1] - r[1]
    above = 'vertical' if dx == 0 or ex == 0 else ORDER[sign(height(p, q, t[0]) - height(r, s, t[0]))]
    want = [SIGN[sign(dx * (t[1] - p[1]) - dy * (t[0] - p[0]))], ORDER[(t > p) - (t < p)], above,
            turn((dx, dy), (ex, ey), (-ex, -ey)), turn((-dx, -dy), (dx, dy), (ex, ey))]
    common = meet(p, q, r, s)
    if p >= q or r >= s or rest[:5] != want or told(rest[5:bar]) != common or told(rest[bar + 1:]) != common:
        differ += 1
        print('differs:', line.strip(), '| wanted', want, common)
    cases += 1
    kinds[common[0]] = kinds.get(common[0], 0) + 1
print(f'coordinates to {sys.argv[1]}: {cases} cases, {differ} differ; {kinds}')
sys.exit(differ != 0)
