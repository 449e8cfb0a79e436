"""check.py LIBRARY [N] [SEED]: compares quicklook_statistics and quicklook_histogram with the reference, to the bit."""
import ctypes as c
import math
import random
import sys

import statistics_and_curve as ref

GUARD = 3
EXACT_UP_TO = 500                     # pixels; up to here the reference works by Fraction, above by one IEEE operation a step
HUGE = (4097, 5000, 2 ** 31, 2 ** 32, 2 ** 63, 2 ** 64 - 1)
SIGNALLING = c.c_double.from_buffer_copy((0x7FF0000000000001).to_bytes(8, "little")).value
BAD = [math.nan, -math.nan, SIGNALLING, math.inf, -math.inf, 1000.0000001, -1000.0000001, math.nextafter(1000, 2000),
       math.nextafter(-1000, -2000), 1e308, -1e308]
UNREAD = BAD + [1e5, -1e5, 5e-324, -0.0]
comparisons = 0

class Difference(Exception):
    """The library and the reference do not agree."""

def same(name, found, wanted):
    """One comparison: a reply of the library with the reference, or a part of the law."""
    global comparisons
    comparisons += 1
    if found != wanted:
        raise Difference(f"{name}: found {found}, wanted {wanted}")

class Lent:
    """A list lent to the library, guard elements on both sides. The guards of read lists would change an answer if read."""
    def __init__(self, kind, data, guard):
        self.kind, self.guard, self.length = kind, [guard] * GUARD, len(data)
        self.array = self.framed(data)
        self.entry = bytes(self.array)
        self.pointer = c.cast(c.addressof(self.array) + GUARD * c.sizeof(kind), c.POINTER(kind))

    def framed(self, data):
        return (self.kind * (len(data) + 2 * GUARD))(*self.guard, *data, *self.guard)

    def compare(self, name, data=None):
        """Every element and guard by its bits: with the given data, or with what stood there at entry."""
        global comparisons
        found, wanted = bytes(self.array), self.entry if data is None else bytes(self.framed(data))
        comparisons += len(self.array)
        if found != wanted:
            size = c.sizeof(self.kind)
            at = next(i for i in range(0, len(wanted), size) if found[i:i + size] != wanted[i:i + size])
            texts = [v.hex() if isinstance(v, float) else str(v)
                     for v in (self.kind.from_buffer_copy(b, at).value for b in (found, wanted))]
            raise Difference(f"{name}[{at // size - GUARD}]: library {texts[0]}, reference {texts[1]}")

def load(path):
    """The two calls with the types of quicklook.h."""
    library = c.CDLL(path)
    band = [c.c_size_t, c.c_size_t, c.POINTER(c.c_double), c.c_size_t, c.POINTER(c.c_uint8), c.c_size_t]
    library.quicklook_statistics.argtypes = band + [c.POINTER(c.c_uint64), c.POINTER(c.c_double)]
    library.quicklook_histogram.argtypes = band + [c.POINTER(c.c_uint32), c.c_size_t]
    library.quicklook_statistics.restype = library.quicklook_histogram.restype = c.c_uint8
    return library

def near(rng, v):
    """The value or a neighbour up to two ulp away, within the domain."""
    for _ in range(rng.choice([0, 0, 1, 1, 2])):
        v = math.nextafter(v, rng.choice([-math.inf, math.inf]))
    return min(max(v, -1000.0), 1000.0)

def palette(rng):
    """The values that one scene draws from."""
    a, b = rng.uniform(-60, 20), rng.choice([rng.uniform(-60, 20), rng.uniform(-1000, 1000)])
    tiny = 2.0 ** -52 * rng.choice([1, 1, 1, 0.5, 2, 64])
    base = rng.choice([0.0, -0.0, 0.25, 0.5, 1.0, -1.0, tiny, -tiny / 2, 5e-324])
    low, width, steps = min(a, b), abs(b - a) / 4096, [rng.randrange(4097) for _ in range(12)]
    centre = rng.choice([a, 0.5, 1.0, -1.0, 2.0, 1000.0, -1000.0, 1e-300, 0.0])
    return rng.choice([
        [rng.uniform(a, b) for _ in range(200)],
        [round(rng.uniform(a, b), 1) for _ in range(30)],
        [a], [a, b], [0.0, -0.0],
        [centre] + [near(rng, centre) for _ in range(3)],
        [base, near(rng, base + tiny)], [base, base + tiny] + [near(rng, base + tiny) for _ in range(2)],
        [rng.choice([0.0, -0.0, 2.0 ** -60]), math.nextafter(2.0 ** -52, rng.choice([0, 1])), 2.0 ** -55],
        [-tiny / 2, tiny / 2, near(rng, tiny / 2), near(rng, -tiny / 2), 0.0, -0.0],
        [0.0, -0.0, rng.choice([5e-324, -5e-324, a, 2.0 ** -53, -2.0 ** -53, 1000.0])],
        [low, low + 4096 * width] + [near(rng, low + k * width) for k in steps],
        [0.0, rng.choice([4.096, 40.96, 409.6, 999.0])] + [near(rng, k / 4096 * 4.096) for k in steps],
        [-1000.0, 1000.0, near(rng, -1000.0), near(rng, 1000.0), a],
        [rng.choice([-1, 1]) * math.ldexp(rng.uniform(0.5, 1), rng.randrange(-1080, 10)) for _ in range(20)],
        [k * 5e-324 for k in steps[:5]] + [0.0, -0.0, rng.choice([a, 1e-310])],
    ])

def damage(rng, fault, rows, cols, db, marks, counts_len):
    """One fault, called by the number of its refusal; c is a wrong length of the lent counts."""
    if fault == "1":
        huge = rng.choice(HUGE)
        rows, cols = rng.choice([(huge, cols), (rows, huge), (2 ** 32, 2 ** 32), (huge, 0), (0, huge), (huge, 1)])
    elif fault == "2":
        chosen = rng.choice([db, marks])
        length = rng.choice([0, 4095, 4097, len(chosen) + 1, max(len(chosen) - 1, 0), 2 * len(chosen)])
        chosen[:] = ((chosen or [1]) * (length + 1))[:length] if length > len(chosen) else chosen[:length]
    elif fault == "3" and marks:
        marks[rng.choice([0, -1, rng.randrange(len(marks))])] = rng.choice([2, 2, 3, 128, 255, 255])
    elif fault == "4" and db and marks:
        at = rng.choice([0, min(len(db), len(marks)) - 1])
        db[at], marks[at] = rng.choice(BAD), marks[at] if rng.random() < 0.3 else 1
    elif fault == "c":
        counts_len = rng.choice([0, 1, 4095, 4097, 8192])
    return rows, cols, db, marks, counts_len

def scene(rng, case):
    """Sides, dB, marks and the length of the lent counts; about one in three is damaged, by one to four faults at once."""
    large = {500: (300, 400), 250: (1, 4096), 750: (4096, 1), 300: (4097, 1), 800: (1, 4097)}.get(case % 1000)
    n = rng.choice([rng.randint(1, 6), rng.randint(1, 30), rng.randint(1, 200), 20 * rng.randint(1, 10)])
    rows = rng.choice([r for r in range(1, n + 1) if n % r == 0])
    empty = [(0, 0), (0, 1), (1, 0), (4096, 0), (0, 4096), (4097, 0), (0, 4097)]
    rows, cols = large or (rng.choice(empty) if rng.random() < 0.05 else (rows, n // rows))
    n, values = rows * cols, palette(rng)
    one = rng.randrange(max(n, 1))
    mark = rng.choice([lambda i: 1] * 3 + [lambda i: rng.choice([0, 1, 1]), lambda i: rng.choice([0, 0, 1]), lambda i: int(i == one)]
                      + [lambda i: 0] * (rng.random() < 0.5))
    marks = [mark(i) for i in range(n)]
    filler = UNREAD if rng.random() < 0.8 else values
    given = rows, cols, [rng.choice(values if m else filler) for m in marks], marks, ref.BINS
    for fault in rng.sample("13442c", rng.choice([1, 1, 2, 3, 4])) if not large and rng.random() < 0.35 else "":
        given = damage(rng, fault, *given)
    return given

def compare_case(library, rows, cols, db, marks, counts_len):
    """Both calls on one scene: replies, every lent element and guard, then the law on what the library itself gave."""
    step = ref.Exact if len(db) <= EXACT_UP_TO else ref.Fast
    d, m = Lent(c.c_double, db, math.nan), Lent(c.c_uint8, marks, 1)
    whole, floats = Lent(c.c_uint64, range(7, 12), 2 ** 64 - 3), Lent(c.c_double, [1.5 - i for i in range(15)], -7.25)
    counts = Lent(c.c_uint32, [2 ** 32 - 1 - i for i in range(counts_len)], 0xA5A5A5A5)
    band = (rows, cols, d.pointer, len(db), m.pointer, len(marks))
    wanted = ref.statistics(rows, cols, db, marks, step)
    same("statistics reply", library.quicklook_statistics(*band, whole.pointer, floats.pointer), wanted.reply)
    # Row and column of F-11 are left to its own check: here they are what the library wrote, and unchanged at a refusal.
    whole.compare("whole", None if wanted.reply else wanted.whole + whole.array[GUARD + 3:-GUARD])
    # Document 01 compares statistics as numbers, so the sign of a zero is open in its claims. The float steps settle it for
    # mean, deviation and percentiles, "the first met" for min and max. So bits are compared, without exception.
    floats.compare("floats", None if wanted.reply else wanted.floats)
    reply, right = ref.histogram(rows, cols, db, marks, counts_len, step)
    same("histogram reply", library.quicklook_histogram(*band, counts.pointer, counts_len), reply)
    counts.compare("counts", None if reply else right)
    d.compare("db"), m.compare("marks")
    if reply == 0:
        law(*(lent.array[GUARD:-GUARD] for lent in (whole, floats, counts)), wanted.percentiles)

def law(whole, floats, counts, percentiles):
    """The law on the library's own counts, bins and floats, and with the reference's ranks of all percentiles."""
    span = floats[1] - floats[0]
    same("sum of counts", sum(counts), whole[0])
    for bin_, value, p in ((whole[1], floats[7], 0.05), (whole[2], floats[12], 0.95)) if span >= 2.0 ** -52 else ():
        w = math.floor(p * whole[0]) - sum(counts[:bin_])
        same("rank below the bin's count", 0 <= w < counts[bin_], True)
        same("value from bin and rank", (floats[0] + bin_ * (span / 4096)) + (w / counts[bin_]) * (span / 4096), value)
    for one in percentiles:
        same(f"law with the reference's {one}", ref.law_holds(counts, one) if span >= 2.0 ** -52 else (one.bin, one.w) == (0, 0), True)

def run(library, number, seed):
    """Returns None, or a text that says the first difference and how to repeat it."""
    for case in range(number):
        rows, cols, db, marks, counts_len = scene(random.Random(f"{seed}:{case}"), case)
        try:
            compare_case(library, rows, cols, db, marks, counts_len)
        except Difference as difference:
            return (f"seed {seed} case {case}: {difference}\nrows {rows} cols {cols} counts_len {counts_len} "
                    f"db[{len(db)}] {[float(v).hex() for v in db[:200]]}\nmarks[{len(marks)}] {marks[:200]}")
    return None

if __name__ == "__main__":
    number, seed = [*sys.argv[2:], *("3000", "1")[len(sys.argv) - 2:]]
    found = run(load(sys.argv[1]), int(number), seed)
    print(found or f"{number} cases, seed {seed}: {comparisons} comparisons, no difference")
    sys.exit(1 if found else 0)
