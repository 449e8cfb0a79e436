"""self_test.py LIBRARY: each planted fault, one at a time, must be caught by check.py: faults of the reference by the comparison, faults of
writing by the guards and lists, and faults of greys and replies by each law that is named for them, without the reference. Before that the
reference's value of t is held to the request's words taken literally, at and next to all thresholds and at random."""
import math
import random
import struct
import sys
from decimal import Decimal, localcontext
from fractions import Fraction

import check
import gamma as g

CASES = 400
true = dict(vars(g))

def after(name, change):
    """The true function, its result changed by change(result, *arguments)."""
    return name, lambda *given: change(true[name](*given), *given)

# Values of t.

def literal(t, gamma, powers=None, holds=lambda left, right: left <= right):
    """The largest k of 0..255 for which the inequality holds, tried one by one in fractions; 0 if for none."""
    p, q = powers or g.POWERS[gamma]
    t = max(Fraction(t), Fraction(0))
    return max((k for k in range(256) if holds(k ** q, 255 ** q * t ** p)), default=0)

def by_powf(t, gamma):
    """As the Rust has it, with the power of the C library."""
    return int(min(max(max(t, 0.0) ** gamma * 255.0, 0.0), 255.0))

def by_binary_gamma(t, gamma):
    """The exact power with the f64 that is nearest to the gamma instead of p/q."""
    with localcontext() as context:
        context.prec = 60
        return min(int(255 * (Decimal(gamma) * Decimal(t).ln()).exp()), 255) if t > 0 else 0

def single(t):
    """t in binary32."""
    return struct.unpack("<f", struct.pack("<f", t))[0]

def root(t, gamma):
    """The real number 255 × t^(p/q), a little rounded."""
    return 255 * max(t, 0.0) ** gamma

def shifted(gamma, k, late):
    """One threshold one f64 too late or too early."""
    at = check.THRESHOLDS[gamma][k - 1]
    wrong = (at, k - 1) if late else (check.down(at), k)
    return "value", lambda t, other: wrong[1] if (t, other) == (wrong[0], gamma) else true["value"](t, other)

def of_value(change):
    """The value, given by change(t, gamma)."""
    return "value", change

def unrounded(v, window):
    """t as a fraction, except for gamma 1.0."""
    low = Fraction(window.low)
    t = (min(max(Fraction(v), low), Fraction(window.high)) - low) / Fraction(window.range)
    return t if window.gamma != 1.0 else true["normalised"](v, window)

def once(v, window):
    """t rounded once, except for gamma 1.0."""
    return float(unrounded(v, window))

def by_reciprocal(v, window):
    """Times the reciprocal of the range, except for gamma 1.0."""
    t = (min(max(v, window.low), window.high) - window.low) * (1.0 / window.range)
    return t if window.gamma != 1.0 else true["normalised"](v, window)

VALUE_FAULTS = {
    "powf": of_value(by_powf),
    "powers of the f64 gamma": of_value(by_binary_gamma),
    "strictly below": of_value(lambda t, gamma: literal(t, gamma, None, lambda left, right: left < right)),
    "nearest k": of_value(lambda t, gamma: min(int(root(t, gamma) + 0.5), 255)),
    "least k that is enough": of_value(lambda t, gamma: min(math.ceil(root(t, gamma)), 255)),
    "p and q exchanged": of_value(lambda t, gamma: literal(t, gamma, g.POWERS[gamma][::-1])),
    "4/5 for 0.9": of_value(lambda t, gamma: true["value"](t, 0.8 if gamma == 0.9 else gamma)),
    "9/10 for 0.8": of_value(lambda t, gamma: true["value"](t, 0.9 if gamma == 0.8 else gamma)),
    "10/9 for 11/10": of_value(lambda t, gamma: literal(t, gamma, (10, 9) if gamma == 1.1 else None)),
    "1/1 for all": of_value(lambda t, gamma: true["product"](t, 255)),
    "256 for 255": of_value(lambda t, gamma: min(int(root(t, gamma) / 255 * 256), 255)),
    "k up to 254": of_value(lambda t, gamma: min(true["value"](t, gamma), 254)),
    "k from 1 on": of_value(lambda t, gamma: max(true["value"](t, gamma), 1)),
    "below 0 by its size": of_value(lambda t, gamma: true["value"](abs(t), gamma)),
    "below 0 counts as 1": of_value(lambda t, gamma: true["value"](t if t >= 0 else 1.0, gamma)),
    "t in binary32": of_value(lambda t, gamma: true["value"](single(t), gamma)),
    "t one f64 above": of_value(lambda t, gamma: true["value"](check.up(t), gamma)),
    "t one f64 below": of_value(lambda t, gamma: true["value"](check.down(t), gamma)),
    "16 bits and the high byte": of_value(lambda t, gamma: int(max(t, 0.0) ** gamma * 65535) >> 8),
    **{f"threshold {k} of {gamma} {'late' if late else 'early'}": shifted(gamma, k, late)
       for gamma in (0.8, 0.9, 1.1) for k in (1, 2, 77, 128, 254, 255) for late in (True, False)},
    "gamma 1.0 by the rule with 1/1": ("product", lambda t, top: min(int(max(Fraction(t), 0) * top), top)),
    "gamma 1.0 to the nearest": ("product", lambda t, top: min(int(max(t, 0.0) * top + 0.5), top)),
    "t not rounded": ("normalised", unrounded),
    "t rounded once": ("normalised", once),
    "times the reciprocal of the range": ("normalised", by_reciprocal),
    "not held to the window": ("normalised", lambda v, w: (v - w.low) / w.range),
    "not held to high": ("normalised", lambda v, w: (max(v, w.low) - w.low) / w.range),
    "range below 1": ("normalised", lambda v, w: (min(max(v, w.low), w.high) - w.low) / ((w.high - w.low) or 1.0)),
    "from the high end": ("normalised", lambda v, w: 1.0 - true["normalised"](v, w)),
    "invalid pixels painted": ("values", lambda band, *given: true["values"](g.Band(band.db, [int(v == v) for v in band.db]), *given)),
    "invalid pixels 1": after("values", lambda r, band, *_: [x if mark else 1 for x, mark in zip(r, band.marks)]),
}

def rule(strategy, change):
    """The window rule of a strategy, changed by change(its answer, statistics)."""
    own = g.RULES[strategy]
    return "RULES", {**g.RULES, strategy: lambda s: change(own(s), s)}

def skew(s):
    """Adaptive's skew."""
    return (s.mean - s.median) / max(s.std, 1.0)

def restretched(change):
    """Another stretch of the values x between their ends, by change(x, least, greatest)."""
    return "stretch", lambda data: [change(x, min(data), max(data)) for x in data]

def over(x, least, greatest):
    """The stretched number as a fraction; 0 for equal ends."""
    return Fraction(255 * (x - least), greatest - least or 1)

def unstretched(r, strategy, rows, cols, band, bits, statistics):
    """The greys without the stretch where the gamma is not 1.0."""
    window = g.window(strategy, statistics(band)) if g.valid(band) else None
    return true["values"](band, window, 255) if window and window.gamma != 1.0 and bits == 8 else r

def brighter(greys, bits):
    """The last pixel one brighter, or one darker where it cannot be."""
    return greys[:-1] + [grey + (1 if grey < g.TOP[bits] else -1) for grey in greys[-1:]]

STRETCH_FAULTS = {
    "no stretch": ("stretch", list),
    "no stretch under a gamma": after("grey", unstretched),
    "stretched down": restretched(lambda *x: int(over(*x))),
    "stretched half to even": restretched(lambda *x: round(over(*x))),
    "stretched in fractions": restretched(lambda *x: int(over(*x) + Fraction(1, 2))),
    "stretched in f64": restretched(lambda x, a, b: int((x - a) * (255.0 / (b - a or 1)) + 0.5)),
    "255 for equal ends": restretched(lambda x, a, b: true["stretched"](x, a, b) if a < b else 255),
    "to 254": restretched(lambda x, a, b: min(true["stretched"](x, a, b), 254)),
    "16 bits stretched": after("grey", lambda r, *given: true["stretch"](r) if given[4] == 16 else r),
    "the last pixel": after("grey", lambda r, strategy, rows, cols, band, bits, _: brighter(r, bits)),
    "the last pixel of the second band": after("picture_grey", lambda r, s, rows, cols, band, first, _: r if first else brighter(r, 8)),
}
STRETCH_CALL_FAULTS = {     # a grey call has a value 0, so its equal ends are zeros; the stretch by itself tells these
    "the value for equal ends": restretched(lambda x, a, b: true["stretched"](x, a, b) if a < b else min(x, 255)),
    "from 0": restretched(lambda x, a, b: true["stretched"](x, 0, b) if a < b else 0),
}
WINDOW_FAULTS = {
    "1.1 at 15": rule(g.STANDARD, lambda r, s: (*r[:2], 1.1) if s.max - s.min == 15.0 else r),
    "0.9 at 40": rule(g.STANDARD, lambda r, s: (*r[:2], 0.9) if s.max - s.min == 40.0 else r),
    "1.0 at quartiles of 5": rule(g.STANDARD, lambda r, s: (*r[:2], 1.0) if s.p75 - s.p25 == 5.0 else r),
    "spread before the quartiles": rule(g.STANDARD, lambda r, s: (*r[:2], 0.9) if s.max - s.min > 40.0 else r),
    "Standard as Default": rule(g.STANDARD, lambda r, s: (s.p05, s.p95, 1.0)),
    "low kept under high": rule(g.STANDARD, lambda r, s: (min(r[:2]), max(r[:2]), r[2])),
    "1.1 and 0.9 exchanged": rule(g.STANDARD, lambda r, s: (*r[:2], {1.1: 0.9, 0.9: 1.1}.get(r[2], r[2]))),
    "skew at 0.5": rule(g.ADAPTIVE, lambda r, s: (s.p02, s.p98, 0.9) if skew(s) == 0.5 else r),
    "skew at -0.5": rule(g.ADAPTIVE, lambda r, s: (s.p05, s.p95, 1.1) if skew(s) == -0.5 else r),
    "tail at 2": rule(g.ADAPTIVE, lambda r, s: (s.p10, s.p90, 0.8) if r[2] == 1.0 and s.p99 - s.p95 == 2.0 * max(s.p95 - s.p75, 1.0) else r),
    "the skew's sign": rule(g.ADAPTIVE, lambda r, s: (*r[:2], {1.1: 0.9, 0.9: 1.1}.get(r[2], r[2]))),
    "the tail first": rule(g.ADAPTIVE, lambda r, s: (s.p10, s.p90, 0.8) if s.p99 - s.p95 > 2.0 * max(s.p95 - s.p75, 1.0) else r),
    "deviation below 1": rule(g.ADAPTIVE, lambda r, s: (s.p02, s.p98, 0.9) if 0.0 < s.std < 1.0 and s.mean - s.median > 0.5 * s.std else r),
    "Adaptive by p05 and p95": rule(g.ADAPTIVE, lambda r, s: (s.p05, s.p95, r[2])),
    "gamma 0.8 of another f64": rule(g.ADAPTIVE, lambda r, s: (*r[:2], check.up(0.8) if r[2] == 0.8 else r[2])),
    "gamma for Robust": rule(g.ROBUST, lambda r, s: (*r[:2], 1.1)),
    "gamma for Tamed": rule(g.TAMED, lambda r, s: (*r[:2], 0.9)),
    "range not at least 1": ("framed", lambda low, high, gamma: g.Window(low, high, high - low or 1.0, gamma)),
    "Tamed picture by p25": ("tamed_window", lambda first, s: g.window(g.TAMED, s)),
    "Tamed picture, second band first": after("tamed_window", lambda r, first, s: true["tamed_window"](not first, s)),
    "Tamed picture stretched": after("picture_grey", lambda r, strategy, *_: g.stretch(r) if strategy == g.TAMED else r),
}

def ahead(number, later, applies):
    """A later refusal that is answered before the number."""
    return after("reply", lambda r, *given: later if r == number and applies(*given) else r)

def dropped(number):
    """A refusal that is not answered."""
    return after("reply", lambda r, *_: 0 if r == number else r)

def six(strategy, bands, statistics):
    """Whether a band's gamma is not 1.0; no if the band cannot be judged."""
    return strategy <= 6 and not (g.refused_marks(bands) or g.refused_decibels(bands)) and any(
        g.valid(band) and g.window(strategy, statistics(band)).gamma != 1.0 for band in bands)

def of_six(change):
    """6 where change(strategy, bits, bands, statistics) says so."""
    return "refused_gamma", change

def of_sixteen(change):
    """6 at 16 bits for a band for which change(strategy, gamma, or None without a valid pixel) says so."""
    return of_six(lambda strategy, bits, bands, statistics: bits == 16 and any(
        change(strategy, g.window(strategy, statistics(band)).gamma if g.valid(band) else None) for band in bands))

def only_output(strategy, mode, rows, cols, bands, outputs, *_):
    """Of the lengths only those of outputs are wrong, and the statistics can be had."""
    return strategy <= 6 and all(len(part) == rows * cols for band in bands for part in band)

REPLY_FAULTS = {
    **{f"no refusal {number}": dropped(number) for number in (1, 2, 3, 4, 5, 6, 255)},
    "6 at 8 bits too": of_six(lambda strategy, bits, bands, statistics: six(strategy, bands, statistics)),
    "6 for pictures": of_six(lambda strategy, bits, bands, statistics: (bits == 16 or len(bands) == 2) and six(strategy, bands, statistics)),
    "6 for grey calls at 8 bits": of_six(lambda strategy, bits, bands, statistics: len(bands) == 1 and six(strategy, bands, statistics)),
    "6 for all of Adaptive": of_sixteen(lambda strategy, gamma: gamma and strategy == g.ADAPTIVE),
    "6 for 1.1 only": of_sixteen(lambda strategy, gamma: gamma == 1.1),
    "6 for Standard's blank bands": of_sixteen(lambda strategy, gamma: gamma not in (None, 1.0) or strategy == g.STANDARD and gamma is None),
    "6 before 2": ahead(2, 6, lambda *given: given[7] == 16 and only_output(*given) and six(given[0], given[4], given[8])),
    "2 before 1": ahead(1, 2, lambda strategy, mode, rows, cols, bands, *_: len(bands[0].db) != rows * cols),
    "3 before 2": ahead(2, 3, lambda strategy, mode, rows, cols, bands, *_: g.refused_marks(bands)),
    "4 before 3": ahead(3, 4, lambda strategy, mode, rows, cols, bands, *_: g.refused_decibels(bands)),
    "5 before 4": ahead(4, 5, lambda strategy, mode, rows, cols, bands, *_: g.refused_clahe(strategy, rows, cols, bands)),
    "1 before 255": ahead(255, 1, lambda strategy, mode, rows, cols, *_: g.refused_sides(rows, cols)),
    "band 2 before band 1": ahead(3, 4, lambda strategy, mode, rows, cols, bands, *_:
                                  not g.refused_marks(bands[1:]) and g.refused_decibels(bands[1:])),
    "dB under 0 marks judged": after("reply", lambda r, strategy, mode, rows, cols, bands, *_:
                                     r or 4 * any(v != v for band in bands for v in band.db)),
    "5 for blank bands": after("reply", lambda r, strategy, mode, rows, cols, *_:
                               r or 5 * (strategy == g.CLAHE and (g.narrow(rows) or g.narrow(cols)))),
    "work judged for all": after("reply", lambda r, strategy, mode, rows, cols, bands, outputs, work, *_: r or 2 * (work != g.CLAHE_WORK)),
    "work not judged for Clahe": ("refused_lengths", lambda pairs: any(length != named for length, named in pairs if named != g.CLAHE_WORK)),
    "1000 refused": ("refused_decibels", lambda bands: any(mark == 1 and not -1000.0 < v < 1000.0 for band in bands for v, mark in zip(*band))),
    "window refuses by 6": after("reply_of_window", lambda r, *given: r or 6 * (given[0] == g.STANDARD)),
}
WRITING_FAULTS = {     # the fault: the call, when it happens (strategy, reply), the argument and the element it spoils
    "a grey at 8 bits written at refusal 3": ("grey_u8", lambda strategy, reply: reply == 3, 7, 0),
    "a grey at 16 bits written at 6": ("grey_u16", lambda strategy, reply: reply == 6, 7, 0),
    "the element behind the greys at 16 bits": ("grey_u16", lambda strategy, reply: reply == 6, 7, "end"),
    "the element behind the greys at 8 bits": ("grey_u8", lambda strategy, reply: reply == 0, 7, "end"),
    "the element before the greys at 8 bits": ("grey_u8", lambda strategy, reply: reply == 0, 7, -1),
    "dB written": ("grey_u8", lambda strategy, reply: reply == 0, 3, 0),
    "a mark written": ("picture", lambda strategy, reply: reply == 4, 10, 0),
    "work written under Standard": ("grey_u8", lambda strategy, reply: reply == 0 and strategy == g.STANDARD, 9, 0),
    "work written before Clahe's": ("grey_u8", lambda strategy, reply: reply == 0 and strategy == g.CLAHE, 9, -1),
    "a colour written at refusal 4": ("picture", lambda strategy, reply: reply == 4, 16, 0),
    "a second grey written at refusal 2": ("picture", lambda strategy, reply: reply == 2, 14, 0),
    "the element behind the colours": ("picture", lambda strategy, reply: reply == 0, 16, "end"),
    "a wrong colour": ("picture", lambda strategy, reply: reply == 0, 16, 1),
    "a window's float behind": ("window", lambda strategy, reply: reply == 0, 8, 4),
    "a window's float at refusal 1": ("window", lambda strategy, reply: reply == 1, 8, 3),
}
PLAYED_FAULTS = {      # for the laws: faults that are told by the calls' own answers
    "darker with more dB": of_value(lambda t, gamma: 255 - true["value"](t, gamma)),
    "a dip": of_value(lambda t, gamma: true["value"](t, gamma) - 20 * (true["value"](t, gamma) == 128)),
    "a dip at 16 bits": ("product", lambda t, top: true["product"](t, top) - 20 * (true["product"](t, top) % 256 == 200)),
    "a picture without the stretch": after("picture_grey", lambda r, s, rows, cols, band, _, statistics:
                                           unstretched(r, s, rows, cols, band, 8, statistics)),
    "the first pixel is brighter": after("values", lambda r, *_: [min(r[0] + 1, 255), *r[1:]]),
    "the place is added": after("values", lambda r, *_: [x ^ (i % 2) for i, x in enumerate(r)]),
}
LAW_FAULTS = {         # the law: the faults that it must see by itself
    "law_order": ["darker with more dB", "a dip", "a dip at 16 bits", "the place is added"],
    "law_blank": ["invalid pixels 1", "invalid pixels painted"],
    "law_chain": ["a picture without the stretch"],
    "law_six": ["6 at 8 bits too", "6 for pictures", "6 for all of Adaptive", "6 for 1.1 only", "no refusal 6"],
    "law_alter": ["invalid pixels painted", "dB under 0 marks judged"],
    "law_reorder": ["the first pixel is brighter", "the place is added"],
}

class Spoilt:
    """The library with one fault of writing."""
    def __init__(self, library, name, when, argument, element):
        def spoil(*given):
            reply = getattr(library, f"quicklook_{name}")(*given)
            if when(given[0], reply):
                at = given[argument + 1] if element == "end" else element
                given[argument][at] = 201 if given[argument][at] != 201 else 202
            return reply
        self.library = library
        setattr(self, f"quicklook_{name}", spoil)

    def __getattr__(self, name):
        return getattr(self.library, name)

class Played:
    """The library with the replies and greys of the reference, in which a fault is planted."""
    def __init__(self, library):
        self.library = library

    def __getattr__(self, name):
        return getattr(self.library, name)

    def paint(self, strategy, mode, rows, cols, lists, outputs, work, bits, greys):
        """The reply of the reference; if done, each output gets its greys."""
        bands = [g.Band(db[:n], marks[:k]) for db, n, marks, k in lists]
        statistics = lambda band: check.ask_statistics(self.library, rows, cols, band)
        reply = g.reply(strategy, mode, rows, cols, bands, [(n, times) for _, n, times in outputs], work, bits, statistics)
        for i, (out, n, _) in enumerate(outputs if reply == 0 else ()):
            for at, grey in enumerate(greys(i, bands, statistics)):
                out[at] = grey
        return reply

    def grey(self, bits, strategy, rows, cols, *given):
        """A grey call."""
        return self.paint(strategy, 0, rows, cols, [given[:4]], [(*given[4:6], 1)], given[7], bits,
                          lambda i, bands, statistics: g.grey(strategy, rows, cols, bands[0], bits, statistics))

    def quicklook_grey_u8(self, *given):
        """At 8 bits."""
        return self.grey(8, *given)

    def quicklook_grey_u16(self, *given):
        """At 16 bits."""
        return self.grey(16, *given)

    def quicklook_picture(self, strategy, mode, rows, cols, *given):
        """The picture call, with the library's composition."""
        def part(i, bands, statistics):
            greys = [g.picture_grey(strategy, rows, cols, band, k == 0, statistics) for k, band in enumerate(bands)]
            return greys[i] if i < 2 else check.ask_compose(self.library, strategy, mode, greys)
        return self.paint(strategy, mode, rows, cols, [given[:4], given[4:8]],
                          [(*given[8:10], 1), (*given[10:12], 1), (*given[12:14], 3)], given[15], 8, part)

def without_laws(library, cases=CASES):
    """What the comparison with the reference finds, and the guards, without a law and without the stretch by itself."""
    own, check.LAWS, check.compare_stretch = (check.LAWS, check.compare_stretch), [], lambda *_: None
    found = check.run(library, cases, "1")
    check.LAWS, check.compare_stretch = own
    return found

def by_law(library, law, cases=CASES):
    """What one law finds by itself, without the comparison with the reference."""
    laws, check.LAWS = check.LAWS, [one for one in check.LAWS if one.__name__ == law]
    found = check.run(library, cases, "1", comparing=False)
    check.LAWS = laws
    return found

def planted(fault, look):
    """What is found with the fault in the reference, which is put right again."""
    name, wrong = fault
    setattr(g, name, wrong)
    found = look()
    setattr(g, name, true[name])
    return found

def literally():
    """The reference's value against the request's words, one k after the other, where they could part."""
    rng, differing = random.Random(1), []
    for gamma in g.POWERS:
        near = [t for at in check.THRESHOLDS[gamma] for t in (check.down(check.down(at)), check.down(at), at, check.up(at))]
        for t in [*near, *[rng.random() for _ in range(300)], 0.0, -0.0, -1.0, -25.0, 1.0, 1.5, 1e300, 5e-324, 2.0 ** -1022, -5e-324]:
            if g.value(t, gamma) != literal(t, gamma):
                differing.append((t.hex(), gamma))
    return f"value of t: {differing[:5]}" if differing else None

def main(library):
    """Every fault by itself, and none."""
    caught = {("no fault", "the request's words"): literally(), ("no fault", "all"): check.run(library, CASES, "1"),
              ("no fault", "played"): check.run(Played(library), 60, "1")}
    controls, comparison = len(caught), VALUE_FAULTS | STRETCH_FAULTS | WINDOW_FAULTS | REPLY_FAULTS
    for fault, (name, wrong) in comparison.items():
        caught[fault, "comparison"] = planted((name, wrong), lambda: without_laws(library))
    for fault, wrong in STRETCH_CALL_FAULTS.items():
        caught[fault, "the stretch call"] = planted(wrong, lambda: check.run(library, CASES, "1"))
    for fault, spoilt in WRITING_FAULTS.items():
        caught[fault, "guards and lists"] = without_laws(Spoilt(library, *spoilt))
    for law, faults in LAW_FAULTS.items():
        for fault in faults:
            caught[fault, law] = planted((comparison | PLAYED_FAULTS)[fault], lambda: by_law(Played(library), law))
    for (fault, by), found in caught.items():
        print(f"caught by {by}: {fault}: {found.splitlines()[0][:120]}" if found else f"nothing found by {by}: {fault}")
    missed = [pair for pair, found in caught.items() if (found is None) != (pair[0] == "no fault")]
    number = len(comparison | STRETCH_CALL_FAULTS | WRITING_FAULTS | PLAYED_FAULTS)
    print(f"{number} faults, {len(caught) - controls} runs with one, missed or found without a fault: {missed or 'none'}")
    return bool(missed)

if __name__ == "__main__":
    sys.exit(main(check.load(sys.argv[1])))
