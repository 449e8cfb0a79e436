"""Reference for F-6: the statistics of one band with its two bins, the curve of 4,096 counts, and each percentile's rank w."""
import math
import operator
from collections import namedtuple
from fractions import Fraction

BINS = 4096
LOW_P = (0.5, 0.01, 0.02, 0.05, 0.10, 0.25)    # median, p01, p02, p05, p10, p25: the order of quicklook.h
HIGH_P = (0.75, 0.90, 0.95, 0.98, 0.99)        # p75 to p99
PassOne = namedtuple("PassOne", "count min max mean m2")
Percentile = namedtuple("Percentile", "p target value bin w")
Answer = namedtuple("Answer", "reply whole floats percentiles")

def minus(a):
    """True where the sign bit is set, -0.0 included. A Fraction keeps no sign of zero, so it is worked out beside it."""
    return math.copysign(1.0, a) < 0

class Exact:
    """"each operation rounded once": the exact rational; float(Fraction) rounds it once, ties to even, subnormals included."""
    def add(a, b):
        return float(Fraction(a) + Fraction(b)) or (-0.0 if minus(a) and minus(b) else 0.0)
    def sub(a, b):
        return Exact.add(a, -b)
    def mul(a, b):
        return float(Fraction(a) * Fraction(b)) or (-0.0 if minus(a) != minus(b) else 0.0)
    def div(a, b):
        return float(Fraction(a) / Fraction(b)) or (-0.0 if minus(a) != minus(b) else 0.0)
    def root(a):
        """"The square root is the IEEE 754 correctly rounded one, defined by comparing whole-number squares." """
        num, den = a.as_integer_ratio()
        half = max(0, 128 + den.bit_length() - num.bit_length())    # the square has 127 bits or more, its root 64
        square, rest = divmod(num << 2 * half, den)
        whole = math.isqrt(square)
        inexact = rest != 0 or whole * whole != square              # a last odd bit stands for all that was cut off
        return float(Fraction(2 * whole + inexact, 2 << half)) if num else a

class Fast:
    """One IEEE operation each. IEEE 754 has sqrt among the correctly rounded operations, and math.sqrt is C's sqrt."""
    add, sub, mul, div, root = operator.add, operator.sub, operator.mul, operator.truediv, math.sqrt

def acceptable(v):
    """"a valid dB is NaN, infinite, below -1000 or above 1000"; "-1000 and 1000 are accepted". A NaN fails both comparisons."""
    return -1000.0 <= v <= 1000.0

def refusal(rows, cols, db, marks, counts_len=BINS):
    """"The smallest number that applies to any band is returned"; "Only valid dB is read or checked"."""
    if rows > 4096 or cols > 4096:
        return 1
    if len(db) != rows * cols or len(marks) != rows * cols or counts_len != BINS:
        return 2
    if any(mark not in (0, 1) for mark in marks):
        return 3
    return 4 if any(mark == 1 and not acceptable(v) for v, mark in zip(db, marks)) else 0

def less(a, b):
    """"Statistics are compared as numbers, so -0 equals 0; the least and greatest are the first met." """
    return a < b

def pass_one(valid, step):
    """"Pass one: min, max and Welford mean and m2 in raster order". Mean and m2 start from 0."""
    min_, max_, mean, m2 = valid[0], valid[0], 0.0, 0.0
    for count, v in enumerate(valid, 1):
        min_ = v if less(v, min_) else min_
        max_ = v if less(max_, v) else max_
        delta = step.sub(v, mean)
        mean = step.add(mean, step.div(delta, float(count)))
        m2 = step.add(m2, step.mul(delta, step.sub(v, mean)))
    return PassOne(len(valid), min_, max_, mean, m2)

def deviation(one, step):
    """"deviation = root of m2/count, 0 for count 1"."""
    return 0.0 if one.count == 1 else step.root(step.div(one.m2, float(one.count)))

def is_flat(span):
    """"If max - min < 2^-52"."""
    return span < 2.0 ** -52

def bin_of(v, min_, span, step):
    """"inv = 1/span; bin = trunc(t × 4096) with t = (v - min) × inv held to 0..1; 4096 becomes 4095"."""
    t = step.mul(step.sub(v, min_), step.div(1.0, span))
    t = 0.0 if t < 0.0 else 1.0 if t > 1.0 else t
    return min(math.trunc(step.mul(t, 4096.0)), BINS - 1)

def curve(valid, one, span, step):
    """"The bins sum to the valid count." Header: "Where max - min is below 2^-52 all stand in bin 0"."""
    counts = [0] * BINS
    for v in valid:
        counts[0 if is_flat(span) else bin_of(v, one.min, span, step)] += 1
    return counts

def target_of(p, count, step):
    """"target = floor(p × count), at most count - 1". p is the nearest binary64 and the product one float step."""
    return min(math.floor(step.mul(p, float(count))), count - 1)

def take_bin(counts, target):
    """"take the first bin whose running count exceeds the target"; "w the target less the count before it"."""
    before = 0
    for bin_, h in enumerate(counts):
        if before + h > target:
            return bin_, target - before
        before += h

def value_of(min_, width, bin_, w, h, step):
    """"the value is (min + bin × width) + (w/h) × width"."""
    left = step.add(min_, step.mul(float(bin_), width))
    return step.add(left, step.mul(step.div(float(w), float(h)), width))

def flat_percentile(p, target, one):
    """"median, p01 to p25 are min; p75 to p99 are max"; decision 82: "bin and rank are 0 whatever the target"."""
    return Percentile(p, target, one.min if p in LOW_P else one.max, 0, 0)

def percentile(p, one, span, counts, step):
    """F-6: "The percentile answer gains its bin and its rank within the bin (document 01's w)"; "width = span/4096"."""
    target = target_of(p, one.count, step)
    if is_flat(span):
        return flat_percentile(p, target, one)
    bin_, w = take_bin(counts, target)
    return Percentile(p, target, value_of(one.min, step.div(span, 4096.0), bin_, w, counts[bin_], step), bin_, w)

def law_holds(counts, answer):
    """Outside flat scenes the counts before the bin and the rank make the target, and the rank is below the bin's count."""
    return sum(counts[:answer.bin]) + answer.w == answer.target and 0 <= answer.w < counts[answer.bin]

def read_band(db, marks, step):
    """Pass one, span and counts; None for "no valid pixel"."""
    valid = [v for v, mark in zip(db, marks) if mark == 1]
    one = pass_one(valid, step) if valid else None
    span = step.sub(one.max, one.min) if valid else 0.0
    return one, span, curve(valid, one, span, step)

def statistics(rows, cols, db, marks, step=Exact):
    """F-6: "The statistics record carries the bins of p05 and p95"; bin and rank are "0 and 0 for flat scenes and blank bands".
    Document 01: "With no valid pixel the count and all floats are 0." """
    reply = refusal(rows, cols, db, marks)
    one, span, counts = read_band(*(([], []) if reply else (db, marks)), step)
    if one is None:
        return Answer(reply, [0] * 3, [0.0] * 15, [Percentile(p, 0, 0.0, 0, 0) for p in LOW_P + HIGH_P])
    answers = [percentile(p, one, span, counts, step) for p in LOW_P + HIGH_P]
    bins = {answer.p: answer.bin for answer in answers}
    floats = [one.min, one.max, one.mean, deviation(one, step)] + [answer.value for answer in answers]
    return Answer(0, [one.count, bins[0.05], bins[0.95]], floats, answers)

def histogram(rows, cols, db, marks, counts_len, step=Exact):
    """Header: "how many of its valid decibels stand in each of QUICKLOOK_BINS equal steps". A blank band has zeros."""
    reply = refusal(rows, cols, db, marks, counts_len)
    return reply, read_band(*(([], []) if reply else (db, marks)), step)[2]
