"""self_test.py LIBRARY: both modes agree; then each planted fault, one at a time, must be caught by the default inputs of check.py."""
import math
import random
import struct
import sys
from fractions import Fraction

import check
import statistics_and_curve as ref

true = {name: value for name, value in vars(ref).items() if callable(value)}

def modes_agree(pairs=20000, scenes=600):
    """Exact and Fast give the same bits, step by step and in whole records. No step of the domain divides by 0 or overflows."""
    rng, steps = random.Random(6), 0
    special = [0.0, -0.0, 5e-324, -5e-324, 2.0 ** -1022, 1.0, 4096.0, 2.0 ** -52, 1000.0, -1000.0, 3.0]
    for _ in range(pairs):
        a, b = (rng.choice(special) if rng.random() < 0.2 else
                rng.choice([-1, 1]) * math.ldexp(rng.random(), rng.randint(rng.choice([-1074, -60]), 22)) for _ in "ab")
        for name in ("add", "sub", "mul", "root") + (() if b == 0 or abs(a) > abs(b) * 2.0 ** 1000 else ("div",)):
            given = (abs(a),) if name == "root" else (a, b)
            exact, fast = (struct.pack("<d", getattr(mode, name)(*given)) for mode in (ref.Exact, ref.Fast))
            assert exact == fast, (name, a.hex(), b.hex())
            steps += 1
    for case in range(scenes):
        given = check.scene(random.Random(f"modes:{case}"), case % 250)
        assert repr(ref.statistics(*given[:4], ref.Exact)) == repr(ref.statistics(*given[:4], ref.Fast)), case
        assert ref.histogram(*given, ref.Exact) == ref.histogram(*given, ref.Fast), case
    return f"both modes agree on {steps} steps and {scenes} scenes"

def after(name, change):
    """The true function, its result changed by change(result, *arguments)."""
    return name, lambda *given: change(true[name](*given), *given)

REFERENCE_FAULTS = {   # the fault: the function of the reference and what stands in its place
    "bin one too large": after("bin_of", lambda bin_, *_: min(bin_ + 1, 4095)),
    "bin by (v - min) / span": ("bin_of", lambda v, m, span, _: min(math.trunc(min((v - m) / span, 1.0) * 4096.0), 4095)),
    "bin rounded": ("bin_of", lambda v, m, span, _: min(round((v - m) * (1.0 / span) * 4096.0), 4095)),
    "4096 becomes 4094": after("bin_of", lambda bin_, v, m, span, _: 4094 if (v - m) * (1.0 / span) >= 1.0 else bin_),
    "rank from the count after the bin": after("take_bin", lambda r, counts, _: (r[0], counts[r[0]] - r[1])),
    "rank one too large": after("take_bin", lambda r, *_: (r[0], r[1] + 1)),
    "first bin that reaches the target": ("take_bin", lambda counts, target: true["take_bin"](counts, max(target - 1, 0))),
    "target ceil": ("target_of", lambda p, count, _: min(math.ceil(p * count), count - 1)),
    "target of the exact product": ("target_of", lambda p, count, _: math.floor(Fraction(p) * count)),
    "flat bin 1": after("flat_percentile", lambda r, *_: r._replace(bin=1)),
    "flat rank is the target": after("flat_percentile", lambda r, *_: r._replace(w=r.target)),
    "flat p75 to p99 at min": after("flat_percentile", lambda r, p, target, one: r._replace(value=one.min)),
    "flat at 2^-52 too": ("is_flat", lambda span: span <= 2.0 ** -52),
    "flat below 2^-53 only": ("is_flat", lambda span: span < 2.0 ** -53),
    "-0.0 below 0.0": ("less", lambda a, b: (a, not ref.minus(a)) < (b, not ref.minus(b))),
    "greatest is the last met": after("pass_one", lambda r, valid, _: r._replace(max=[v for v in valid if v == r.max][-1])),
    "mean by a sum": after("pass_one", lambda r, valid, _: r._replace(mean=math.fsum(valid) / r.count)),
    "mean starts from the first": after("pass_one", lambda r, valid, _: r._replace(mean=valid[0] if r.count == 1 else r.mean)),
    "deviation over count - 1": ("deviation", lambda one, _: math.sqrt(one.m2 / max(one.count - 1, 1))),
    "value, min added last": ("value_of", lambda m, width, bin_, w, h, _: m + (bin_ * width + (w / h) * width)),
    "value, w * width / h": ("value_of", lambda m, width, bin_, w, h, _: (m + bin_ * width) + (w * width) / h),
    "value, two steps in one": ("value_of", lambda m, width, bin_, w, h, _:
                                float(Fraction(m) + bin_ * Fraction(width)) + (w / h) * width),
    "1000 refused": ("acceptable", lambda v: -1000.0 <= v < 1000.0),
    "next above 1000 accepted": ("acceptable", lambda v: -1000.0 <= v <= math.nextafter(1000.0, 2000.0)),
    "0 x 4097 accepted": ("refusal", lambda rows, cols, *a: true["refusal"](*((rows, cols) if rows * cols else (0, 0)), *a)),
    "4097 x 1 accepted": after("refusal", lambda r, rows, cols, db, marks, *_: 0 if rows == 4097 == len(db) == len(marks) else r),
    "4 before 3": after("refusal", lambda r, rows, cols, db, marks, *_:
                        4 if r == 3 and any(m == 1 and not ref.acceptable(v) for v, m in zip(db, marks)) else r),
    "dB read under 0 marks": after("refusal", lambda r, rows, cols, db, *_: 4 if r == 0 and any(v != v for v in db) else r),
    "counts of 4097 accepted": ("refusal", lambda *a: true["refusal"](*a[:4], *(4096 if n == 4097 else n for n in a[4:]))),
    "mark 255 counts as 0": ("refusal", lambda r, c, d, m, *n: true["refusal"](r, c, d, [0 if k == 255 else k for k in m], *n)),
}
LIBRARY_FAULTS = {     # the fault: the call, when it happens (reply, arguments), the argument and the element it spoils
    "a float written at a refusal": ("quicklook_statistics", lambda reply, g: reply == 4, 7, 14),
    "a count written at a refusal": ("quicklook_histogram", lambda reply, g: reply == 2 and g[7] == 4095, 6, 4094),
    "the element behind the counts": ("quicklook_histogram", lambda reply, g: reply == 0, 6, 4096),
    "the element behind the whole numbers": ("quicklook_statistics", lambda reply, g: reply == 0, 6, 5),
    "the element before the floats": ("quicklook_statistics", lambda reply, g: reply == 0, 7, -1),
    "dB written": ("quicklook_histogram", lambda reply, g: g[3] > 0, 2, 0),
}

class Spoilt:
    """The library with one fault of writing."""
    def __init__(self, library, call, when, argument, element):
        def spoil(*given):
            reply = getattr(library, call)(*given)
            if when(reply, given):
                given[argument][element] = 77
            return reply
        self.quicklook_statistics, self.quicklook_histogram = library.quicklook_statistics, library.quicklook_histogram
        setattr(self, call, spoil)

def look(library):
    """By the comparison with the library alone; where that sees nothing, with the law too, which also tests the reference's own ranks."""
    law, check.law = check.law, lambda *_: None
    found = check.run(library, 3000, "1")
    check.law = law
    return ("library", found) if found else ("law alone", check.run(library, 3000, "1"))

def main(library):
    """Every fault by itself; the reference is put right again after each."""
    print(modes_agree())
    caught = {"no fault": look(library)}
    for fault, (name, wrong) in REFERENCE_FAULTS.items():
        setattr(ref, name, wrong)
        caught[fault] = look(library)
        setattr(ref, name, true[name])
    for fault, planted in LIBRARY_FAULTS.items():
        caught[fault] = look(Spoilt(library, *planted))
    for fault, (by, found) in caught.items():
        print(f"caught by {by}: {fault}: {found.splitlines()[0][:120]}" if found else f"nothing found: {fault}")
    missed = [fault for fault, (_, found) in caught.items() if (found is None) != (fault == "no fault")]
    print(f"{len(caught) - 1} faults, missed or found without a fault: {missed or 'none'}")
    return bool(missed)

if __name__ == "__main__":
    sys.exit(main(check.load(sys.argv[1])))
