"""check.py LIBRARY [N] [SEED]: compares the window, grey and picture calls with the reference, every reply and lent element, pixels on and
next to the thresholds of every gamma among them, and tries the laws of order, alteration and reordering on the library's own answers."""
import ctypes as c
import math
import random
import sys
from bisect import bisect_left
from collections import namedtuple

import gamma as g
from gamma import ADAPTIVE, CLAHE, DEFAULT, EQUALIZED, GAMMAS, ROBUST, STANDARD, TAMED, Band

GUARD = 5                                        # elements before and after each lent list
UNREAD = [math.nan, math.inf, -math.inf, 0.0, -0.0, 1e308, -1e308, 1000.5, -2000.0, 5e-324, -12.5]
BAD = [math.nan, math.inf, -math.inf, math.nextafter(1000, 2000), math.nextafter(-1000, -2000), 1e308, -1e308]
MANY = [4097, 5000, 65536, 2 ** 32, 2 ** 32 + 1, 2 ** 63, 2 ** 64 - 1]
EMPTY = [(0, 0), (0, 1), (1, 0), (0, 7), (7, 0), (4096, 0), (0, 4096), (4097, 0), (0, 4097)]
LARGE = {106: (300, 200), 206: (17, 4096), 306: (4096, 17), 406: (1, 4096), 506: (4096, 1), 606: (4097, 1), 706: (1, 4097), 806: (200, 300)}
STEP = 40                                        # places next to thresholds by which the scenes of one family go on from one to the next

# What is lent, and what is called.

class Difference(Exception):
    """What was found and what was wanted."""

comparisons = 0

def same(name, found, wanted):
    """One comparison of two numbers, or of two tuples of them."""
    global comparisons
    comparisons += 1
    if found != wanted:
        raise Difference(f"{name}: found {found}, wanted {wanted}")

class Lent:
    """A list lent to a call, between guards."""
    def __init__(self, kind, held, guard):
        held = list(held)
        self.kind, self.n, self.fence = kind, len(held), [guard] * GUARD
        self.array = self.fenced(held)
        self.before = bytes(self.array)
        self.pointer = c.cast(c.addressof(self.array) + GUARD * c.sizeof(kind), c.POINTER(kind))

    def fenced(self, held):
        """The elements between guards."""
        return (self.kind * (self.n + 2 * GUARD))(*self.fence, *held, *self.fence)

    def now(self):
        """The elements as they stand."""
        return self.array[GUARD:GUARD + self.n]

    def compare(self, name, wanted=None):
        """Each element and guard, by bits. Without wanted elements they are as they were."""
        global comparisons
        comparisons += self.n
        bits = self.before if wanted is None else bytes(self.fenced(wanted))
        if bytes(self.array) != bits:
            meant = type(self.array).from_buffer_copy(bits)
            i = next(i for i, (a, b) in enumerate(zip(self.array, meant)) if bytes(self.kind(a)) != bytes(self.kind(b)))
            raise Difference(f"{name}[{i - GUARD}] of {self.n}: found {self.array[i]}, wanted {meant[i]}")

    def guards(self, name):
        """The guards alone."""
        same(f"{name}, guards", self.array[:GUARD] + self.array[GUARD + self.n:], self.fence * 2)

def load(path):
    """The library with the types of the calls."""
    library = c.CDLL(path)
    sides, doubles, bytes_, words = [c.c_size_t] * 2, c.POINTER(c.c_double), c.POINTER(c.c_uint8), c.POINTER(c.c_uint16)
    band = [doubles, c.c_size_t, bytes_, c.c_size_t]
    for name, types in {
            "statistics": [*sides, *band, c.POINTER(c.c_uint64), doubles], "window": [c.c_uint8, *sides, *band, bytes_, doubles],
            "grey_u8": [c.c_uint8, *sides, *band, bytes_, c.c_size_t, doubles, c.c_size_t],
            "grey_u16": [c.c_uint8, *sides, *band, words, c.c_size_t, doubles, c.c_size_t],
            "picture": [c.c_uint8, c.c_uint8, *sides, *band, *band, *[bytes_, c.c_size_t] * 3, doubles, c.c_size_t],
            "stretch": [words, c.c_size_t, bytes_, c.c_size_t],
            "compose": [c.c_uint8, c.c_uint8, *[bytes_, c.c_size_t] * 3]}.items():
        call = getattr(library, f"quicklook_{name}")
        call.argtypes, call.restype = types, c.c_uint8
    return library

def lists(band):
    """A band lent for reading."""
    return [Lent(c.c_double, band.db, math.nan), Lent(c.c_uint8, band.marks, 1)]

def flat(lent):
    """Pointers and lengths."""
    return [x for one in lent for x in (one.pointer, one.n)]

def unread(reply, read, written):
    """After any call the read lists are as they were; after a refusal all lists are."""
    for i, lent in enumerate(read):
        lent.compare(f"read list {i}")
    for i, lent in enumerate(written if reply else ()):
        lent.compare(f"written list {i} after reply {reply}")

def worked(strategy, reply, work):
    """"Clahe's work contents after success are free", its guards are not; the others do not touch it."""
    work.guards("work") if strategy == CLAHE and reply == 0 else work.compare("work")

def ask_statistics(library, rows, cols, band):
    """The floats of a band that the reference accepts."""
    read, whole, floats = lists(band), Lent(c.c_uint64, range(5), 77), Lent(c.c_double, [1.5] * 15, -7.25)
    same("statistics, reply", library.quicklook_statistics(rows, cols, *flat(read), whole.pointer, floats.pointer), 0)
    unread(0, read, [])
    return g.Statistics(*floats.now())

def ask_window(library, strategy, rows, cols, band):
    """The reply, the blank byte and the floats."""
    read, blank, floats = lists(band), Lent(c.c_uint8, [7], 9), Lent(c.c_double, [1.5, 2.5, 3.5, 4.5], -7.25)
    reply = library.quicklook_window(strategy, rows, cols, *flat(read), blank.pointer, floats.pointer)
    unread(reply, read, [blank, floats])
    blank.guards("blank"), floats.guards("floats")
    return reply, blank.now()[0], floats.now()

def ask_grey(library, bits, strategy, rows, cols, band, length, work):
    """The reply and the lent output."""
    read, space = lists(band), Lent(c.c_double, [3.25] * work, -7.25)
    out = Lent(*((c.c_uint8, [11] * length, 222) if bits == 8 else (c.c_uint16, [1100] * length, 50000)))
    call = library.quicklook_grey_u8 if bits == 8 else library.quicklook_grey_u16
    reply = call(strategy, rows, cols, *flat(read), *flat([out, space]))
    unread(reply, read, [out]), worked(strategy, reply, space)
    out.guards("grey")
    return reply, out

def ask_picture(library, strategy, mode, rows, cols, bands, lengths, work):
    """The reply, two lent greys and the lent colours."""
    read, space = [lent for band in bands for lent in lists(band)], Lent(c.c_double, [3.25] * work, -7.25)
    out = [Lent(c.c_uint8, [13 + i] * length, 210 + i) for i, length in enumerate(lengths)]
    reply = library.quicklook_picture(strategy, mode, rows, cols, *flat(read), *flat(out), *flat([space]))
    unread(reply, read, out), worked(strategy, reply, space)
    for i, lent in enumerate(out):
        lent.guards(f"picture output {i}")
    return reply, out

def ask_compose(library, strategy, mode, greys):
    """The colours of two greys by the library's composition call."""
    read, out = [Lent(c.c_uint8, grey, 1) for grey in greys], Lent(c.c_uint8, [5] * (3 * len(greys[0])), 6)
    same("compose, reply", library.quicklook_compose(mode, strategy, *flat(read), *flat([out])), 0)
    unread(0, read, []), out.guards("colours")
    return out.now()

def ask_stretch(library, data):
    """The library's stretch by itself."""
    read, out = Lent(c.c_uint16, data, 1), Lent(c.c_uint8, [5] * len(data), 6)
    same("stretch, reply", library.quicklook_stretch(*flat([read, out])), 0)
    unread(0, [read], []), out.guards("stretched")
    return out.now()

# Thresholds: only places for pixels are taken from them, no value.

def up(v):
    """The next f64 above."""
    return math.nextafter(v, math.inf)

def down(v):
    """The next f64 below."""
    return math.nextafter(v, -math.inf)

def threshold(k, gamma):
    """The least f64 that reaches k."""
    p, q = g.POWERS.get(gamma, (1, 1))
    t = (k / 255) ** (q / p)
    while g.painted(t, gamma, 255) >= k:
        t = down(t)
    while g.painted(t, gamma, 255) < k:
        t = up(t)
    return t

THRESHOLDS = {gamma: [threshold(k, gamma) for k in range(1, 256)] for gamma in GAMMAS}

def spots(gamma):
    """(k, step) and its t: step 0 on the threshold, -1 and 1 next to it. At 1.0 also a step further, where the rule with 1/1 differs."""
    found = []
    for k, t in enumerate(THRESHOLDS[gamma], 1):
        found += [((k, -1), down(t)), ((k, 0), t), ((k, 1), up(t))] + [((k, -2), down(down(t))), ((k, 2), up(up(t)))] * (gamma == 1.0)
    return random.Random(gamma).sample(found, len(found))

SPOTS = {gamma: spots(gamma) for gamma in GAMMAS}
PLACES = {gamma: [t for (k, _), t in SPOTS[gamma] if k < 255] for gamma in GAMMAS}      # 1 and the f64 below it come with a scene's high
NAMES = {gamma: {} for gamma in GAMMAS}          # t: all its (k, step)
for one in GAMMAS:
    for spot, where in SPOTS[one]:
        NAMES[one].setdefault(where, []).append(spot)
hits = set()                                     # (gamma, k, step) met by a valid pixel of a done 8 bit call under the library's own window
hit_pixels = 0

def note_hits(band, floats):
    """Which thresholds the valid pixels stand on or next to."""
    global hit_pixels
    window = g.Window(*floats)
    for v in (v for v, mark in zip(*band) if mark):
        found = NAMES.get(window.gamma, {}).get(g.normalised(v, window), ())
        hit_pixels += any(step == 0 for _, step in found)
        hits.update((window.gamma, k, step) for k, step in found)

def inside(v):
    """Held to the domain."""
    return min(max(v, -1000.0), 1000.0)

# Scenes. A builder makes the valid values; they are laid between invalid ones afterwards.

def floor_of(fraction, m):
    """The place of a percentile in the sorted list: "target = floor(p × count), at most count - 1"."""
    return min(math.floor(fraction * m), m - 1)

def anchored(m, fractions, least, high, span, inner):
    """A scene whose two percentiles are exactly 0 and high: both begin a bin, as the span is a power of two and least a multiple of
    span / 4096. inner(number) gives the values between. The f64 below high stands in high's bin, since its distance to least rounds up."""
    first, last = (floor_of(fraction, m) for fraction in fractions)
    below = [least + (0.0 - least) * i / max(first, 1) for i in range(first)]
    return below + [0.0] + inner(last - first - 1) + [high] + [least + span, down(high), *[up(high)] * m][:m - 1 - last]

def sweep(gamma, turn, scale):
    """The next places of the gamma, each scaled by a power of two."""
    return lambda number: [PLACES[gamma][(turn * STEP + i) % len(PLACES[gamma])] * scale for i in range(number)]

def with_fillers(inner, share, a, b):
    """A share of the values between lies anywhere from a to b, so that the scene is skewed."""
    return lambda number: [a + (b - a) * i / number for i in range(int(share * number))] + inner(number - int(share * number))

def standard_low(turn, rng, m):
    """Standard, spread under 15: gamma 1.1, low 0, range 1, 2, 4 or 8."""
    high = 2.0 ** rng.randint(0, 3)
    return STANDARD, [0.0, down(high), high] + sweep(1.1, turn, high)(m - 3)

def halves(greatest):
    """The values that a stretch from 0 and this greatest value brings half way between two bytes."""
    return [x for x in range(greatest) if 510 * x % (2 * greatest) == greatest]

TIES = [greatest for greatest in range(1, 256) if halves(greatest)]
DELICATE = [b for b in TIES if any(g.stretched(x, 0, b) != 255 * x // b + 1 for x in halves(b))]      # there f32 decides against the tie

def standard_tiny(turn, rng, m):
    """Standard, spread under 1: gamma 1.1, range 1, and the stretch begins from less than 255; its ties are among the values."""
    b = rng.choice([rng.choice(TIES), rng.choice(DELICATE)])
    high, held = THRESHOLDS[1.1][b - 1], [THRESHOLDS[1.1][x - 1] for x in halves(b)][:m // 2]
    return STANDARD, [0.0, high] + held + [min(t, high) for t in sweep(1.1, turn, 1.0)(m - 2 - len(held))]

def standard_wide(turn, rng, m):
    """Standard, spread over 40: gamma 0.9, low 0, range 32 to 512."""
    high = 2.0 ** rng.randint(5, 9)
    return STANDARD, anchored(m, (0.02, 0.98), -high / 2, high, 2 * high, sweep(0.9, turn, high))

def adaptive_right(turn, rng, m):
    """Adaptive, skewed to the right: gamma 0.9, p02 0 and p98 4 to 256."""
    high = 2.0 ** rng.randint(2, 8)
    return ADAPTIVE, anchored(m, (0.02, 0.98), -high / 16, high, 2 * high, with_fillers(sweep(0.9, turn, high), 0.58, 0.0, high / 64))

def adaptive_left(turn, rng, m):
    """Adaptive, skewed to the left: gamma 1.1, p05 0 and p95 4 to 256."""
    high = 2.0 ** rng.randint(2, 8)
    return ADAPTIVE, anchored(m, (0.05, 0.95), -high * 15 / 16, high, 2 * high, with_fillers(sweep(1.1, turn, high), 0.58, high * 63 / 64, high))

def adaptive_tail(turn, rng, m):
    """Adaptive with a heavy tail: gamma 0.8, p10 0 and p90 1/4 to 32; under 1 the range is 1."""
    high = 2.0 ** rng.randint(-2, 5)
    scale, far = max(high, 1.0), max(high, 1.0) * 8
    made = anchored(m, (0.10, 0.90), -far / 8, high, far * 2, lambda number: [min(v, high) for v in sweep(0.8, turn, scale)(number)])
    heavy = floor_of(0.95, m) + 1
    return ADAPTIVE, sorted(made)[:heavy] + [far] * (m - 1 - heavy) + [far * 15 / 8]

def adaptive_narrow(turn, rng, m):
    """Adaptive, skewed, with a window narrower than 1: range 1, gamma 0.9 or 1.1, and the stretch begins from less than 255."""
    high, right = rng.choice([0.9375, 0.96875, 0.984375]), turn % 2 == 0
    gamma, fractions, least, span, share = (0.9, (0.02, 0.98), -0.125, 8.0, 0.53) if right else (1.1, (0.05, 0.95), -3.0, 4.0, 0.56)
    near = [t for t in PLACES[gamma] if (0.8 < t < high - 0.01 if right else 0.0 < t < 0.25)]
    inner = with_fillers(lambda number: rng.choices(near, k=number), share, *((0.0, 0.01) if right else (high - 0.01, high)))
    first, last = (floor_of(fraction, m) for fraction in fractions)
    above = [least + span if right else high] * (m - 2 - last) + [least + span]
    return ADAPTIVE, [least] * first + [0.0] + inner(last - first - 1) + [high] + above

def plain(turn, rng, m):
    """Gamma 1.0 under every other strategy, and where Standard and Adaptive choose it."""
    strategy, *fractions = rng.choice([(DEFAULT, 0.05, 0.95), (EQUALIZED, 0.01, 0.99), (ROBUST, 0.01, 0.99), (TAMED, 0.25, 0.99),
                                       (ADAPTIVE, 0.05, 0.95), (STANDARD, 0.02, 0.98)])
    high = 2.0 ** rng.randint(4 if strategy == STANDARD else 0, 4)
    return strategy, anchored(m, fractions, -high / 2, high, 2 * high, sweep(1.0, turn, high))

FAMILIES = [
    [standard_low], [standard_wide], [adaptive_right], [adaptive_left], [adaptive_tail], [adaptive_narrow, standard_tiny], [plain]]

def loose(rng, m):
    """Values of many shapes: normal, uniform, skewed, heavy tailed, few levels, whole numbers, both zeros, the ends of the domain."""
    a, s, w = rng.uniform(-60, 20), rng.choice([0.01, 0.3, 1, 3, 8, 15, 30]), rng.choice([0.3, 1, 5, 14.9, 15, 30, 40, 41, 100, 900])
    few, tiny = [a, a + s, a - s, a + w, a + w / 2], 5e-324
    rule = rng.choice([
        lambda: rng.gauss(a, s), lambda: rng.gauss(a, s), lambda: rng.uniform(a, a + w), lambda: rng.uniform(a, a + w),
        lambda: a + rng.expovariate(1 / s), lambda: a - rng.expovariate(1 / s), lambda: a + rng.expovariate(1 / s) ** 2,
        lambda: a + s * rng.random() ** 8, lambda: a - s * rng.random() ** 8, lambda: rng.gauss(a, s if rng.random() < 0.9 else 9 * s),
        lambda: rng.choice(few), lambda: rng.choice(few[:2]), lambda: float(rng.randint(-20, 40)), lambda: float(rng.randint(-3, 3)),
        lambda: rng.choice([0.0, -0.0]), lambda: rng.choice([0.0, -0.0, tiny, -tiny]), lambda: rng.choice([0.0, -0.0, 1.0, rng.random()]),
        lambda: rng.choice([-1000.0, 1000.0]), lambda: rng.uniform(-1000, 1000), lambda: rng.choice([-0.0, 0.0, rng.uniform(0, 50)]), lambda: a])
    found = [inside(rule()) for _ in range(m)]
    if m > 4 and rng.random() < 0.15:            # Standard's low comes above its high: a wide spread with nearly all values near the top
        found = [-1000.0] + [rng.uniform(965, 1000) for _ in range(m - 1)]
    if m and rng.random() < 0.2:
        found[rng.randrange(m)] = rng.choice([-1000.0, 1000.0, a + 41, a - 41])
    return found

def reaching(t, window):
    """The least f64 of the window whose normalised value is at least t; high if there is none."""
    below, v = window.low, window.high
    while up(below) < v:
        middle = min(max(below + (v - below) / 2, up(below)), down(v))
        below, v = (below, middle) if g.normalised(middle, window) >= t else (middle, v)
    return v

def moved(library, rng, strategy, held):
    """The scene with its values moved next to thresholds of its own window, none across or into a bin of a percentile, so that the
    percentiles stay; if mean and deviation nevertheless choose another window the scene is left as it was."""
    if not held or len(held) > 4096:
        return held
    given, marks = (strategy, 1, len(held)), [1] * len(held)
    floats, s = ask_window(library, *given, Band(held, marks))[2], ask_statistics(library, *given[1:], Band(held, marks))
    window, width = g.Window(*floats), (s.max - s.min) / 2048
    if width == 0.0 or window.low >= window.high or window.gamma not in GAMMAS:
        return held
    edges = sorted({s.min, s.max, window.low, window.high, *s[4:]})
    near = sorted(v for t in rng.sample(THRESHOLDS[window.gamma], 80) for r in [reaching(t, window)] for v in (r, down(r)))
    def place(v):
        """A place between the same two edges, if v is not next to one."""
        i = bisect_left(edges, v)
        if not 0 < i < len(edges) or v - edges[i - 1] <= width or edges[i] - v <= width:
            return v
        fit = near[bisect_left(near, edges[i - 1] + width):bisect_left(near, edges[i] - width)]
        return rng.choice(fit) if fit else v
    made = [place(v) if rng.random() < 0.8 else v for v in held]
    return made if ask_window(library, *given, Band(made, marks))[2] == floats else held

def askew(library, rng, strategy, held):
    """The scene on another scale, where t is rounded, and moved."""
    a, b = rng.uniform(-60, 20), rng.uniform(0.7, 1.3)
    return moved(library, rng, strategy, [inside(a + b * v) for v in held])

SKEW, LEFT = [-0.25] * 4 + [0.0, 1.625, 1.625, 1.75], [-1.5, -1.25, -1.25, -1.0, 0.0, 0.25, 0.25, 0.5]
TAIL = [-0.5] * 10 + [0.0] * 140 + [0.5] * 40 + [1.0] * 8
SPECIAL = [       # the samples, and scenes on the borders of the cases that choose a gamma
    (STANDARD, [0.0, 14.0]), (STANDARD, [0.0, 15.0]), (STANDARD, [0.0, 40.0]), (STANDARD, [0.0, 41.0]), (STANDARD, [0.0, down(15.0)]),
    (STANDARD, [0.0, up(40.0)]), (STANDARD, [0.0, 5.0, 9.0, 14.0]), (STANDARD, [0.0, 10.0, 20.0, 41.0]),
    (STANDARD, [0.0, 1.0, 8.0, 9.0, 10.0, 11.0, 13.0, 64.0]), (STANDARD, [0.0, 1.0, 8.0, 9.0, 10.0, 11.0, 12.75, 64.0]),
    (STANDARD, [-1000.0] + [960.0 + i / 4 for i in range(150)]), (STANDARD, [-12.5]), (ADAPTIVE, [-12.5]), (STANDARD, [3.0] * 5),
    (ADAPTIVE, [0.0, -0.0]), (STANDARD, [-0.0, 0.0, -5e-324, 5e-324]), (STANDARD, [-0.0, 1.0, 0.0, 0.5]), (ADAPTIVE, SKEW), (ADAPTIVE, SKEW[::-1]),
    (ADAPTIVE, SKEW[::2] + SKEW[1::2]), (ADAPTIVE, LEFT), (ADAPTIVE, LEFT[::-1]), (ADAPTIVE, [0.0, 0.0, 0.0, 4.0]), (ADAPTIVE, [4.0, 4.0, 4.0, 0.0]),
    (ADAPTIVE, TAIL + [3.0, 3.5]), (ADAPTIVE, TAIL + [3.125, 3.5]), (ADAPTIVE, [-1000.0] * 3 + [1000.0] * 7),
    (ADAPTIVE, [1000.0] * 3 + [-1000.0] * 7), (ADAPTIVE, [0.0] * 55 + [4.0] * 42 + [8.0] * 3), (ADAPTIVE, [-8.0] * 3 + [0.0] * 40 + [4.0] * 57),
    (DEFAULT, [0.0, 10.0]), (DEFAULT, [0.0, 0.5]), (DEFAULT, [-12.5]), (ROBUST, [0.0, 41.0]), (EQUALIZED, [0.0, 14.0]), (TAMED, [0.0, 14.0]),
    (TAMED, [0.0, 0.125, 0.25, 0.5])]

def laid(rng, held, n, keep):
    """A band of n pixels: the values at some places, in their order where it matters, and anything between them under marks of 0."""
    held, at = held[:n], sorted(rng.sample(range(n), min(len(held), n)))
    held = held if keep else rng.sample(held, len(held))
    filled, marks = rng.choice([UNREAD, UNREAD, held or UNREAD, [math.nan], [math.inf, -math.inf]]), [0] * n
    db = [rng.choice(filled) for _ in range(n)]
    for i, v in zip(at, held):
        db[i], marks[i] = v, 1
    return Band(db, marks)

def sides(rng, n):
    """Sides for n pixels or a few more: a row, a column, or between."""
    rows = rng.choice([1, n, rng.randint(1, max(n, 1)), math.isqrt(n), math.isqrt(n)]) or 1
    return (rows, -(-n // rows)) if max(rows, -(-n // rows)) <= 4096 else (math.isqrt(n), -(-n // math.isqrt(n)))

Given = namedtuple("Given", "strategy mode rows cols bands out lengths work")

def given_of(rng, strategy, rows, cols, bands):
    """A call with right lengths."""
    n, mode, work = rows * cols, rng.randrange(g.MODES), g.CLAHE_WORK if strategy == CLAHE else rng.choice([0, 0, 1, 7, 300])
    return Given(strategy, mode, rows, cols, bands, n, [n, n, 3 * n], work)

def family_case(library, rng, case):
    """A band of a family that goes through all places next to the thresholds; the second stands anywhere in them or is moved there."""
    build, turn = rng.choice(FAMILIES[case % 10]), case // 10
    m, spare = rng.randint(150, 300), rng.choice([0, 0, 1, 40])
    strategy, held = build(turn, rng, m)
    again = build(rng.randrange(99), rng, m)[1]
    other = rng.choice([lambda: again, lambda: askew(library, rng, strategy, again), lambda: moved(library, rng, strategy, loose(rng, m))])()
    rows, cols = sides(rng, m + spare)
    bands = [laid(rng, one, rows * cols, False) for one in (held, other)]
    return given_of(rng, strategy, rows, cols, bands[::rng.choice([1, -1])])

def special_case(library, rng, case):
    """A scene of the list, alone or between invalid pixels, with a blank, equal or loose second band."""
    strategy, held = SPECIAL[case // 10 % len(SPECIAL)]
    spare = rng.choice([0, 0, 1, 5])
    n = len(held) + spare
    rows, cols = rng.choice([(1, n), (n, 1)])
    other = laid(rng, rng.choice([[], held, loose(rng, n)]), n, True)
    return given_of(rng, strategy, rows, cols, [laid(rng, held, n, True), other][::rng.choice([1, -1])])

def loose_case(library, rng, case):
    """Bands of loose values, moved next to thresholds of their windows, mostly under Standard and Adaptive."""
    strategy = rng.choice(2 * [STANDARD] + 3 * [ADAPTIVE] + [ROBUST, EQUALIZED, TAMED, DEFAULT, CLAHE] * (case % 1000 not in LARGE))
    few, some, line = (rng.randint(1, 20), rng.randint(1, 20)), (rng.randint(14, 34), rng.randint(14, 34)), rng.randint(1, 60)
    rows, cols = LARGE.get(case % 1000) or rng.choice(9 * [few] + 3 * [some] + 2 * [(1, line), (line, 1)] + [EMPTY[case // 10 % len(EMPTY)]])
    if strategy == CLAHE:
        rows, cols = rng.choice([(rows, cols), *[(rng.choice([7, 8, 14, 16, 23, 40]), rng.choice([7, 8, 15, 24, 31]))] * 3])
    n, bands = rows * cols, []
    for _ in range(2):
        held = loose(rng, rng.choice([n, n, n, rng.randint(0, n), min(n, 1), 0]) if n <= 5000 else 400)
        held = moved(library, rng, strategy, held) if rng.random() < 0.8 else held
        bands.append(laid(rng, held if n <= 5000 else [rng.choice(held) for _ in range(n - 9)], n, rng.random() < 0.3))
    return given_of(rng, strategy, rows, cols, bands)

def damaged(rng, fault, i, given):
    """The call with one more fault, named by the number that it may be refused by; i is the band where it stands."""
    bands = [Band(*map(list, band)) for band in given.bands]
    if fault == 1:
        a, b = rng.choice(MANY), rng.choice([0, 1, given.rows, 4096, rng.choice(MANY)])
        given = given._replace(rows=a, cols=b) if rng.random() < 0.5 else given._replace(rows=b, cols=a)
    elif fault == 2:
        other, which = (lambda length: rng.choice([length + 1, max(length - 1, 0), 0, 2 * length, length + 3])), rng.randrange(5)
        if which == 0:
            bands[i].db[:] = (bands[i].db * 2 + [1.0] * 3)[:other(len(bands[i].db))]
        elif which == 1:
            bands[i].marks[:] = (bands[i].marks * 2 + [1] * 3)[:other(len(bands[i].marks))]
        elif which == 2:
            given = given._replace(lengths=[other(length) if j == i else length for j, length in enumerate(given.lengths)])
        elif which == 3:
            given = given._replace(lengths=[*given.lengths[:2], rng.choice([other(given.lengths[2]), given.lengths[0]])])
        given = given._replace(out=other(given.out) if which == 2 else given.out)
        given = given._replace(work=rng.choice([0, 1, g.CLAHE_WORK - 1, g.CLAHE_WORK + 1]) if which == 4 else given.work)
    elif fault == 3 and bands[i].marks:
        bands[i].marks[rng.choice([0, -1, rng.randrange(len(bands[i].marks))])] = rng.choice([2, 3, 128, 255])
    elif fault == 4 and bands[i].db and bands[i].marks:
        at = rng.choice([0, -1, rng.randrange(min(map(len, bands[i])))])
        bands[i].db[at], bands[i].marks[at] = rng.choice(BAD), rng.choice([1, 1, 1, bands[i].marks[at]])
    elif fault == 5:
        given = given._replace(strategy=CLAHE, work=rng.choice([g.CLAHE_WORK, g.CLAHE_WORK, given.work]))
    elif fault == 255:
        given = given._replace(**rng.choice([{"strategy": rng.choice([7, 8, 128, 255])}, {"mode": rng.choice([4, 5, 128, 255])}]))
    return given._replace(bands=bands)

def damaged_case(library, rng, case):
    """A small call with up to three faults, often one that would be refused by 6 at 16 bits."""
    strategy = rng.choice([STANDARD, STANDARD, ADAPTIVE, CLAHE, rng.randrange(7)])
    rows, cols = rng.choice([(1, 2), (2, 2), (rng.randint(1, 9), rng.randint(1, 9)), (rng.randint(7, 24), rng.randint(7, 24))])
    n = rows * cols
    bands = [laid(rng, rng.choice([[0.0, 14.0], [0.0, 41.0], loose(rng, n), loose(rng, rng.randint(0, n))]), n, True) for _ in range(2)]
    given = given_of(rng, strategy, rows, cols, bands)
    for i, fault in enumerate(rng.sample([1, 2, 2, 3, 3, 3, 4, 4, 4, 5, 5, 255], rng.choice([0, 1, 1, 2, 2, 2, 3])), rng.randrange(2)):
        given = damaged(rng, fault, i % 2, given)
    return given

def made(library, rng, case):
    """In two of three tens of cases seven go through the families; the others are special, loose and damaged."""
    kind = case % 10
    if case % 1000 in LARGE:
        build = loose_case
    elif kind < len(FAMILIES):
        build = family_case if case // 10 % 3 < 2 else damaged_case if kind < 4 else loose_case
    else:
        build = {7: special_case, 8: loose_case, 9: damaged_case}[kind]
    return build(library, rng, case)

# Comparison with the reference.

def statistics_of(library, given):
    """The statistics of a band as the library gives them, asked once."""
    known = {}
    def statistics(band):
        if id(band) not in known:
            known[id(band)] = ask_statistics(library, given.rows, given.cols, band)
        return known[id(band)]
    return statistics

def compare_window(library, given, band, statistics):
    """The reply, blank or the floats as numbers, and gamma by its bits."""
    found, blank, floats = ask_window(library, given.strategy, given.rows, given.cols, band)
    same("window, reply", found, g.reply_of_window(given.strategy, given.rows, given.cols, band))
    if found == 0:
        same("window, blank", blank, int(not g.valid(band)))
        same("window, floats", floats, list(g.window(given.strategy, statistics(band))) if g.valid(band) else [0.0] * 4)
        same("gamma, bits", floats[3].hex() in [x.hex() for x in ([0.0] if blank else GAMMAS)], True)
    return floats

def compare_grey(library, bits, given, band, statistics):
    """A grey call: the reply and every element. Returns both."""
    wanted = g.reply(given.strategy, 0, given.rows, given.cols, [band], [(given.out, 1)], given.work, bits, statistics)
    found, out = ask_grey(library, bits, given.strategy, given.rows, given.cols, band, given.out, given.work)
    same(f"grey at {bits} bits, reply", found, wanted)
    if found == 0:
        out.compare(f"grey at {bits} bits", g.grey(given.strategy, given.rows, given.cols, band, bits, statistics))
    return found, out.now()

def compare_picture(library, given, statistics):
    """The picture call: the reply, both greys and the colours of the composition. It never answers 6."""
    wanted = g.reply(*given[:5], list(zip(given.lengths, (1, 1, 3))), given.work, 8, statistics)
    found, out = ask_picture(library, *given[:5], given.lengths, given.work)
    same("picture, reply", found, wanted)
    if found == 0:
        greys = [g.picture_grey(given.strategy, given.rows, given.cols, band, i == 0, statistics) for i, band in enumerate(given.bands)]
        for i, (lent, grey) in enumerate(zip(out, greys), 1):
            lent.compare(f"picture, grey {i}", grey)
        out[2].compare("picture, colours", ask_compose(library, given.strategy, given.mode, greys))
    return found, [lent.now() for lent in out]

def compare_stretch(library, rng):
    """The library's stretch of any values against the reference's."""
    data = [rng.choice([rng.randrange(256), rng.randrange(256), rng.randint(0, 65535)][:2 + (i % 9 == 0)]) for i in range(rng.randrange(40))]
    same("stretch", ask_stretch(library, data), g.stretch(data))

# Laws of the library's own answers. The reference has no part in them.

def ordered(name, band, greys):
    """"of two valid pixels .. the larger decibel [never has] the smaller grey"."""
    ends = {}
    for v, mark, grey in zip(*band, greys):
        if mark == 1:
            least, greatest = ends.get(v, (grey, grey))
            ends[v] = min(least, grey), max(greatest, grey)
    rising = sorted(ends)
    for a, b in zip(rising, rising[1:]):
        same(f"order of {name}: greatest grey of {a!r} at most the least of {b!r}", ends[a][1] <= ends[b][0], True)

def each(given, answers):
    """Each band with the greys of each done call."""
    for i, band in enumerate(given.bands):
        picture, parts = answers["picture"]
        for name, (reply, out) in {"8 bits": answers[i, 8], "16 bits": answers[i, 16], "picture": (picture, parts[i])}.items():
            if reply == 0:
                yield f"band {i + 1}, {name}", band, out

def law_order(library, rng, given, answers):
    """Grey order outside Clahe, at 8 and 16 bits and in the picture."""
    for name, band, out in each(given, answers) if given.strategy != CLAHE else ():
        ordered(name, band, out)

def law_blank(library, rng, given, answers):
    """Invalid pixels are 0 at both depths, all pixels of a blank band among them: their 0 is the least value, and the stretch keeps it."""
    for name, band, out in each(given, answers):
        same(f"{name}, invalid pixels", any(grey for grey, mark in zip(out, band.marks) if mark == 0), False)

def law_chain(library, rng, given, answers):
    """Outside Tamed a done picture has the greys of the grey call at 8 bits."""
    for i in (0, 1):
        if answers["picture"][0] == 0 and answers[i, 8][0] == 0 and given.strategy != TAMED:
            same(f"picture, grey {i + 1} against the grey call", answers["picture"][1][i], answers[i, 8][1])

def law_six(library, rng, given, answers):
    """6 is answered at 16 bits alone, exactly where 8 bits are done and the window's gamma is not 1.0."""
    for i in (0, 1):
        (eight, _), (sixteen, _), floats = answers[i, 8], answers[i, 16], answers[i, "window"]
        same("6 at 8 bits", eight == 6 or answers["picture"][0] == 6, False)
        same("reply at 16 bits", sixteen, 6 if eight == 0 and floats[3] not in (0.0, 1.0) else eight)

def law_alter(library, rng, given, answers):
    """"Whatever is put [under a 0 mark], in any strategy, every call .. gives the same reply, .. window, greys and colours"."""
    if not any(0 in band.marks for band in given.bands):
        return
    pads = [[*band.marks, *[1] * len(band.db)] for band in given.bands]
    bands = [Band([rng.choice(UNREAD) if mark == 0 else v for v, mark in zip(band.db, pad)], band.marks) for band, pad in zip(given.bands, pads)]
    for i, band in enumerate(bands):
        for bits in 8, 16:
            reply, out = ask_grey(library, bits, given.strategy, given.rows, given.cols, band, given.out, given.work)
            same(f"altered under 0 marks, {bits} bits", (reply, out.now()), answers[i, bits])
        same("altered under 0 marks, window", ask_window(library, given.strategy, given.rows, given.cols, band)[2], answers[i, "window"])
    reply, out = ask_picture(library, *given[:4], bands, given.lengths, given.work)
    same("altered under 0 marks, picture", (reply, [lent.now() for lent in out]), answers["picture"])

def law_reorder(library, rng, given, answers):
    """"For every strategy but Adaptive and Clahe, and every permutation of the pixels": the same refusal, or greys and colours moved by it."""
    parts = [part for band in given.bands for part in band]
    if given.strategy in (ADAPTIVE, CLAHE) or len({len(part) for part in parts}) != 1 or len(parts[0]) > 3000:
        return
    places = rng.sample(range(len(parts[0])), len(parts[0]))
    bands = [Band(*([part[i] for i in places] for part in band)) for band in given.bands]
    reply, out = ask_picture(library, *given[:4], bands, given.lengths, given.work)
    same("reordered, reply", reply, answers["picture"][0])
    if reply == 0:
        grey1, grey2, rgb = answers["picture"][1]
        same("reordered, greys", [out[0].now(), out[1].now()], [[grey1[i] for i in places], [grey2[i] for i in places]])
        same("reordered, colours", out[2].now(), [x for i in places for x in rgb[3 * i:3 * i + 3]])

LAWS = [law_order, law_blank, law_chain, law_six, law_alter, law_reorder]

def answers_of(library, given, comparing):
    """All calls of a case, compared with the reference or only asked."""
    statistics, answers = statistics_of(library, given), {}
    for i, band in enumerate(given.bands):
        if comparing:
            floats = compare_window(library, given, band, statistics)
            answers.update({(i, "window"): floats, **{(i, bits): compare_grey(library, bits, given, band, statistics) for bits in (8, 16)}})
        else:
            answers[i, "window"] = ask_window(library, given.strategy, given.rows, given.cols, band)[2]
            for bits in 8, 16:
                reply, out = ask_grey(library, bits, given.strategy, given.rows, given.cols, band, given.out, given.work)
                answers[i, bits] = reply, out.now()
        if answers[i, 8][0] == 0 and g.valid(band) and given.strategy != CLAHE:
            note_hits(band, answers[i, "window"])
    if comparing:
        answers["picture"] = compare_picture(library, given, statistics)
    else:
        reply, out = ask_picture(library, *given[:5], given.lengths, given.work)
        answers["picture"] = reply, [lent.now() for lent in out]
    return answers

def run(library, number, seed, comparing=True):
    """Returns None, or a text that says the first difference and how to repeat it."""
    for case in range(number):
        rng, given = random.Random(f"{seed}:{case}"), None
        try:
            given = made(library, rng, case)
            answers = answers_of(library, given, comparing)
            if comparing:
                compare_stretch(library, rng)
            for law in LAWS:
                law(library, rng, given, answers)
        except Difference as difference:
            lines = [f"seed {seed} case {case}: {str(difference)[:2000]}"]
            if given:
                lines += [", ".join(f"{name} {part}" for name, part in given._asdict().items() if name != "bands")]
                lines += [f"db[{len(db)}] {[v.hex() for v in db[:400]]}\nmarks[{len(marks)}] {marks[:400]}" for db, marks in given.bands]
            return "\n".join(lines)
    return None

def places_hit():
    """How many thresholds of each gamma had a pixel on them, and how many had one on them and on each side; none is above 1."""
    said = []
    for gamma in GAMMAS:
        on = [k for k in range(1, 256) if (gamma, k, 0) in hits]
        both = [k for k in on if (gamma, k, -1) in hits and (k == 255 or (gamma, k, 1) in hits)]
        said.append(f"{gamma} {len(on)} ({len(both)})")
    return ", ".join(said)

if __name__ == "__main__":
    number, seed = [*sys.argv[2:], *("1000", "1")[len(sys.argv) - 2:]]
    found = run(load(sys.argv[1]), int(number), seed)
    print(found or f"{number} cases, seed {seed}: {comparisons} comparisons, {hit_pixels} pixels on thresholds, of 255 for each gamma hit exactly "
          f"(and on both sides) {places_hit()}, no difference")
    sys.exit(1 if found else 0)
