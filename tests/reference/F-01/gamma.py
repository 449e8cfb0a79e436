"""Reference for F-1: the value of a normalised f64 under gamma 0.8, 0.9 and 1.1 by the request's inequality in whole numbers, the stretch in
exact fractions, and from them the windows, replies and greys of the window, grey and picture calls.

Words in quotation marks are document 02's F-1 or document 01's. A Python float is a binary64 and each operation on it rounds once.
The statistics of a band are handed in (they are held to the Rust elsewhere), colours are the composition's and not worked out here."""
from bisect import bisect_right
from collections import namedtuple
from fractions import Fraction
from functools import lru_cache

import clahe

STANDARD, ROBUST, ADAPTIVE, EQUALIZED, CLAHE, TAMED, DEFAULT = range(7)
MODES, CLAHE_WORK = 4, 16384
TOP = {8: 255, 16: 65535}
POWERS = {0.8: (4, 5), 0.9: (9, 10), 1.1: (11, 10)}      # "p/q is 4/5, 9/10 or 11/10"
GAMMAS = [0.8, 0.9, 1.0, 1.1]

Band = namedtuple("Band", "db marks")
Statistics = namedtuple("Statistics", "min max mean std median p01 p02 p05 p10 p25 p75 p90 p95 p98 p99")
Window = namedtuple("Window", "low high range gamma")

# The value of one pixel.

def powers(q):
    """k^q for all k of 0..255; they rise with k."""
    return [k ** q for k in range(256)]

EACH = {q: powers(q) for _, q in POWERS.values()}

@lru_cache(2 ** 20)
def value(t, gamma):
    """"the largest whole k of 0..255 with k^q ≤ 255^q × t^p, where t is the exact normalised f64 (below 0 counts as 0)". k^q is whole, so the
    right side may lose its fraction."""
    p, q = POWERS[gamma]
    over, under = max(Fraction(t), Fraction(0)).as_integer_ratio()
    return bisect_right(EACH[q], 255 ** q * over ** p // under ** p) - 1

def product(t, top):
    """Gamma 1.0 as in document 01: "times 255 or 65535; held to 0..that; truncated"."""
    return int(min(max(t * float(top), 0.0), float(top)))

def normalised(v, window):
    """"max(v, low), then min with high; minus low; over range"."""
    return (min(max(v, window.low), window.high) - window.low) / window.range

def painted(t, gamma, top):
    """The value of a normalised pixel before the stretch."""
    return product(t, top) if gamma == 1.0 else value(t, gamma)

def values(band, window, top):
    """The values of a band before the stretch. "Invalid: 0."""
    known = {v: painted(normalised(v, window), window.gamma, top) for v in {v for v, mark in zip(*band) if mark}}
    return [known[v] if mark else 0 for v, mark in zip(*band)]

# The stretch.

def binary32(x):
    """The binary32 nearest to a fraction from 2^-100 to 2^100, or to 0, ties to even. Python rounds a Fraction half to even."""
    unit = Fraction(2) ** (x.numerator.bit_length() - x.denominator.bit_length() - 24)
    unit = unit if x / unit < 2 ** 24 else 2 * unit
    return round(x / unit) * unit

@lru_cache(2 ** 20)
def stretched(x, least, greatest):
    """"(x - min) * scale" in f32, "round goes half away from zero", held to 0..255."""
    scale = binary32(Fraction(255, greatest - least)) if greatest > least else Fraction(1)
    return min(int(binary32((x - least) * scale) + Fraction(1, 2)), 255)

def stretch(data):
    """"stretches all n bytes, invalid zeros included, in f32; equal ends give zeros"."""
    ends = (min(data), max(data)) if data else ()
    return [stretched(x, *ends) for x in data]

# The window.

def standard(s):
    """"spread under 15, gamma 1.1; else interquartile range under 5, gamma 1.0; else spread over 40, gamma 0.9; else gamma 1.0"."""
    spread, quartiles = s.max - s.min, s.p75 - s.p25
    if spread < 15.0:
        half = max(20.0, spread * 0.8) / 2.0
        low, high, gamma = s.median - half, s.median + half, 1.1
    elif quartiles < 5.0:
        low, high, gamma = s.p25 - 2.5 * quartiles, s.p75 + 2.5 * quartiles, 1.0
    elif spread > 40.0:
        low, high, gamma = max(s.p02, s.min + 0.02 * spread), min(s.p98, s.max - 0.02 * spread), 0.9
    else:
        low, high, gamma = s.p02, s.p98, 1.0
    return max(low, s.min), min(high, s.max), gamma

def adaptive(s):
    """"Adaptive's gammas are 0.9, 1.1, 0.8, 1.0": by the skew, then by the tail."""
    skew, tail = (s.mean - s.median) / max(abs(s.std), 1.0), (s.p99 - s.p95) / max(s.p95 - s.p75, 1.0)
    if abs(skew) > 0.5:
        return (s.p02, s.p98, 0.9) if skew > 0.0 else (s.p05, s.p95, 1.1)
    return (s.p10, s.p90, 0.8) if tail > 2.0 else (s.p05, s.p95, 1.0)

def robust(s):
    """Two and a half interquartile ranges beyond the quartiles, within p01 and p99."""
    beyond = 2.5 * (s.p75 - s.p25)
    return max(s.p25 - beyond, s.p01, s.min), min(s.p75 + beyond, s.p99, s.max), 1.0

RULES = {
    STANDARD: standard, ROBUST: robust, ADAPTIVE: adaptive, EQUALIZED: lambda s: (s.p01, s.p99, 1.0), CLAHE: lambda s: (s.p01, s.p99, 1.0),
    TAMED: lambda s: (s.p25, s.p99, 1.0), DEFAULT: lambda s: (s.p05, s.p95, 1.0)}

def framed(low, high, gamma):
    """"low, high, range = max(high - low, 1.0) and gamma"."""
    return Window(low, high, max(high - low, 1.0), gamma)

def window(strategy, s):
    """The window of a band that has a valid pixel."""
    return framed(*RULES[strategy](s))

def tamed_window(first, s):
    """"low min(p02, p05) co-pol or p05 cross-pol, high p99"; "band 1 counts as co-pol"."""
    return framed(min(s.p02, s.p05) if first else s.p05, s.p99, 1.0)

# Replies.

def valid(band):
    """Whether the band has a valid pixel."""
    return 1 in band.marks

def narrow(side):
    """"7 × ceil(s/8) > s"."""
    return 7 * -(-side // 8) > side

def refused_sides(rows, cols):
    """1: "rows or cols above 4,096"."""
    return rows > 4096 or cols > 4096

def refused_lengths(pairs):
    """2: "a lent length is not the one named here"."""
    return any(length != named for length, named in pairs)

def refused_marks(bands):
    """3: "a mark is neither 0 nor 1"."""
    return any(mark > 1 for band in bands for mark in band.marks)

def refused_decibels(bands):
    """4: "a valid dB is NaN, infinite, below -1000 or above 1000"."""
    return any(mark == 1 and not -1000.0 <= v <= 1000.0 for band in bands for v, mark in zip(*band))

def refused_clahe(strategy, rows, cols, bands):
    """5: "a Clahe grey or picture call with a valid pixel and 7 × ceil(s/8) > s for s = rows or cols"."""
    return strategy == CLAHE and (narrow(rows) or narrow(cols)) and any(map(valid, bands))

def refused_gamma(strategy, bits, bands, statistics):
    """6: "Number 6 remains for U16 only": a grey call at 16 bits "whose chosen gamma is not 1.0"."""
    return bits == 16 and any(valid(band) and window(strategy, statistics(band)).gamma != 1.0 for band in bands)

def reply_of_window(strategy, rows, cols, band):
    """"A window answer is .. or a refusal (1 to 4 only)"; 255 comes before all others."""
    n = rows * cols
    tests = [lambda: refused_sides(rows, cols), lambda: refused_lengths([(len(band.db), n), (len(band.marks), n)]),
             lambda: refused_marks([band]), lambda: refused_decibels([band])]
    return 255 if strategy > DEFAULT else next((i for i, test in enumerate(tests, 1) if test()), 0)

def reply(strategy, mode, rows, cols, bands, outputs, work, bits, statistics):
    """The smallest number that applies to a grey call or, with two bands, to a picture call. outputs are pairs of a length and how many n it has."""
    n = rows * cols
    pairs = [(len(part), n) for band in bands for part in band] + [(length, times * n) for length, times in outputs]
    pairs += [(work, CLAHE_WORK)] if strategy == CLAHE else []
    tests = [lambda: refused_sides(rows, cols), lambda: refused_lengths(pairs), lambda: refused_marks(bands), lambda: refused_decibels(bands),
             lambda: refused_clahe(strategy, rows, cols, bands), lambda: refused_gamma(strategy, bits, bands, statistics)]
    return 255 if strategy > DEFAULT or mode >= MODES else next((i for i, test in enumerate(tests, 1) if test()), 0)

# Greys, of accepted bands.

def equalized(rows, cols, band, window, top):
    """Clahe's values before the stretch."""
    norm = [normalised(v, window) if mark else 0.0 for v, mark in zip(*band)]
    return [product(x, top) if mark else 0 for x, mark in zip(clahe.equalize(rows, cols, norm, band.marks), band.marks)]

def grey(strategy, rows, cols, band, bits, statistics):
    """The greys of a grey call. Without a valid pixel "its pixels are 0". The stretch is for 8 bits."""
    if not valid(band):
        return [0] * len(band.db)
    chosen = window(strategy, statistics(band))
    data = equalized(rows, cols, band, chosen, TOP[bits]) if strategy == CLAHE else values(band, chosen, TOP[bits])
    return stretch(data) if bits == 8 else data

def picture_grey(strategy, rows, cols, band, first, statistics):
    """The greys of one band of a picture: those of the grey call at 8 bits, under Tamed those of its own window with "no stretch"."""
    if strategy != TAMED or not valid(band):
        return grey(strategy, rows, cols, band, 8, statistics)
    return values(band, tamed_window(first, statistics(band)), 255)
