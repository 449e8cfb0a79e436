"""self_test.py LIBRARY: each planted fault, one at a time, must be caught by check.py: faults of the reference by the comparison,
faults of writing by the guards and lists, and faults of the place by each law that is named for them, without the reference."""
import math
import struct
import sys
from fractions import Fraction

import check
import strongest_echo as echo

CASES = 300
minus, true = echo.f06.minus, {name: value for name, value in vars(echo).items() if callable(value)}

def after(name, change):
    """The true function, its result changed by change(result, *arguments)."""
    return name, lambda *given: change(true[name](*given), *given)

def numbered(change):
    """The places changed by change(index, rows, cols)."""
    return "places", lambda rows, cols: [change(i, rows, cols) for i in range(rows * cols)]

def near_top(valid, span):
    """The places of the valid pixels less than the span below the greatest."""
    greatest = max((v for _, v in valid), default=0)
    return [place for place, v in valid if greatest - v < span(greatest, min(w for _, w in valid))]

def rank(found, at, marks, cols):
    """The row (at 0) or the column (at 1) counted among those with a valid pixel."""
    return len({divmod(i, cols)[at] for i, mark in enumerate(marks) if mark and divmod(i, cols)[at] < found[at]})

def ahead(number, later, applies):
    """A later refusal that is answered before the number."""
    return after("statistics", lambda r, *given: r._replace(reply=later) if r.reply == number and applies(*given) else r)

def dropped(number):
    """A refusal that is not answered."""
    return after("statistics", lambda r, *_: r._replace(reply=0) if r.reply == number else r)

PLACE_FAULTS = {       # the fault: the function of the reference and what stands in its place
    "last of equals": ("first", lambda found: found[-1] if found else (0, 0)),
    "second of equals": ("first", lambda found: found[:2][-1] if found else (0, 0)),
    "1 and 1 without a valid pixel": ("first", lambda found: found[0] if found else (1, 1)),
    "row one too large": after("first", lambda r, found: (r[0] + bool(found), r[1])),
    "column one too large": after("first", lambda r, found: (r[0], r[1] + bool(found))),
    "column for row": after("first", lambda r, _: r[::-1]),
    "-0 below 0": ("number", lambda v: (Fraction(v), not minus(v))),
    "0 below -0": ("number", lambda v: (Fraction(v), minus(v))),
    "minimum": ("number", lambda v: -Fraction(v)),
    "greatest magnitude": ("number", lambda v: abs(Fraction(v))),
    "numbers of binary32": ("number", lambda v: struct.unpack("<f", struct.pack("<f", v))[0]),
    "subnormal numbers are 0": ("number", lambda v: Fraction(v) if abs(v) >= 2.0 ** -1022 else Fraction(0)),
    "numbers of whole decibels": ("number", math.trunc),
    "equal within 2^-52": ("maxima", lambda valid: near_top(valid, lambda *_: 2.0 ** -52)),
    "first of the last bin": ("maxima", lambda valid: near_top(valid, lambda top, least: (top - least) / 4096 or 1)),
    "the search starts at 0": after("valid_pixels", lambda r, *_: [pixel for pixel in r if pixel[1] > 0]),
    "the search starts at -1000": after("valid_pixels", lambda r, *_: [pixel for pixel in r if pixel[1] > -1000]),
    "invalid pixels compete": ("valid_pixels", lambda rows, cols, db, _:
                               true["valid_pixels"](rows, cols, db, [int(math.isfinite(v)) for v in db])),
    "a NaN in front stays": after("place", lambda r, rows, cols, db, _: (0, 0) if db and db[0] != db[0] else r),
    "place among the valid pixels": after("valid_pixels", lambda r, rows, cols, *_:
                                          list(zip(true["places"](rows, cols), (v for _, v in r)))),
    "rows with a valid pixel": after("place", lambda r, rows, cols, db, marks: (rank(r, 0, marks, cols), r[1])),
    "columns with a valid pixel": after("place", lambda r, rows, cols, db, marks: (r[0], rank(r, 1, marks, cols))),
    "0 and 0 for flat scenes": after("place", lambda r, rows, cols, *band:
                                     (0, 0) if echo.f06.is_flat(echo.f06.read_band(*band, echo.f06.Fast)[1]) else r),
    "first pixel passed over": after("valid_pixels", lambda r, *_: [pixel for pixel in r if pixel[0] != (0, 0)]),
    "last pixel passed over": after("valid_pixels", lambda r, rows, cols, *_: [p for p in r if p[0] != (rows - 1, cols - 1)]),
    "last row passed over": after("valid_pixels", lambda r, rows, *_: [pixel for pixel in r if pixel[0][0] != rows - 1]),
    "rows for cols in the division": numbered(lambda i, rows, cols: divmod(i, rows)),
    "column by column": numbered(lambda i, rows, cols: divmod(i, rows)[::-1]),
    "from the bottom": numbered(lambda i, rows, cols: (rows - 1 - i // cols, i % cols)),
    "index for column": numbered(lambda i, rows, cols: (i // cols, i)),
    "row in a byte": numbered(lambda i, rows, cols: (i // cols % 256, i % cols)),
    "column in a byte": numbered(lambda i, rows, cols: (i // cols, i % cols % 256)),
    "index in 16 bits": numbered(lambda i, rows, cols: divmod(i % 65536, cols)),
}
REPLY_FAULTS = {
    "no refusal 1": dropped(1), "no refusal 2": dropped(2), "no refusal 3": dropped(3), "no refusal 4": dropped(4),
    "2 before 1": ahead(1, 2, lambda rows, cols, db, marks: len(db) != rows * cols),
    "3 before 2": ahead(2, 3, lambda rows, cols, db, marks: any(mark > 1 for mark in marks)),
    "4 before 3": ahead(3, 4, lambda rows, cols, db, marks: any(mark == 1 and not abs(v) <= 1000 for v, mark in zip(db, marks))),
    "dB read under 0 marks": after("statistics", lambda r, rows, cols, db, marks: r._replace(reply=r.reply or 4 * any(v != v for v in db))),
    "bin of p95 one too large": after("statistics", lambda r, *_: r if r.reply else r._replace(whole=[*r.whole[:2], r.whole[2] + 1, *r.whole[3:]])),
}
WRITING_FAULTS = {     # the fault: when it happens (reply), the argument and the element it spoils
    "a row written at a refusal": (lambda reply: reply == 4, 6, 3),
    "a column written at a refusal": (lambda reply: reply == 1, 6, 4),
    "a float written at a refusal": (lambda reply: reply == 3, 7, 1),
    "the element behind the whole numbers": (lambda reply: reply == 0, 6, 5),
    "the element before the whole numbers": (lambda reply: reply == 2, 6, -1),
    "the element behind the floats": (lambda reply: reply == 0, 7, 15),
    "dB written": (lambda reply: reply == 0, 2, 0),
    "a mark written": (lambda reply: reply == 2, 4, 0),
}
LAW_FAULTS = {         # the law: the faults of the place that it must see by itself
    "row_below": ["last of equals", "second of equals", "minimum", "0 below -0", "from the bottom"],
    "row_above": ["rows with a valid pixel", "a NaN in front stays", "greatest magnitude", "column for row"],
    "column_left": ["columns with a valid pixel", "column for row", "place among the valid pixels"],
    "column_right": ["rows for cols in the division", "column by column"],
    "swapped": ["last of equals", "-0 below 0", "0 below -0"],
    "raised": ["last of equals", "-0 below 0", "column one too large"],
    "unmarked": ["invalid pixels compete", "row one too large"],
    "cut_above": ["first pixel passed over", "place among the valid pixels"],
    "cut_below": ["last row passed over", "last pixel passed over", "from the bottom", "row in a byte"],
    "other_sides": ["rows for cols in the division", "column by column", "column in a byte"],
    "alone": ["0 and 0 for flat scenes", "place among the valid pixels"],
    "altered": ["invalid pixels compete", "a NaN in front stays"],
    "within": ["1 and 1 without a valid pixel", "minimum", "numbers of binary32", "equal within 2^-52", "index in 16 bits",
               "the search starts at -1000", "subnormal numbers are 0", "first of the last bin", "numbers of whole decibels"],
}

class Spoilt:
    """The library with one fault of writing."""
    def __init__(self, library, when, argument, element):
        def spoil(*given):
            reply = library.quicklook_statistics(*given)
            if when(reply):
                given[argument][element] = 77
            return reply
        self.quicklook_statistics = spoil

class Misplaced:
    """The library with the place of the reference, in which a fault is planted."""
    def __init__(self, library):
        def misplace(*given):
            reply, (rows, cols, db, n, marks) = library.quicklook_statistics(*given), given[:5]
            if reply == 0:
                given[6][3], given[6][4] = echo.place(rows, cols, db[:n], marks[:n])
            return reply
        self.quicklook_statistics = misplace

def by_law(library, law):
    """What one law finds by itself, without the comparison with the reference."""
    own = {name: getattr(check, name) for name in ("compare_with_reference", "within", "altered", "LAWS")}
    check.compare_with_reference = lambda *_: None
    check.LAWS = [value for value in check.LAWS if value.__name__ == law]
    for name in {"within", "altered"} - {law}:
        setattr(check, name, lambda *_: None)
    found = check.run(library, CASES, "1")
    for name, value in own.items():
        setattr(check, name, value)
    return found

def by_comparison(library):
    """What the comparison with the reference finds, and the guards, without a law."""
    laws, check.laws = check.laws, lambda *_: None
    found = check.run(library, CASES, "1")
    check.laws = laws
    return found

def planted(fault, look):
    """What is found with the fault in the reference, which is put right again."""
    name, wrong = (PLACE_FAULTS | REPLY_FAULTS)[fault]
    setattr(echo, name, wrong)
    found = look()
    setattr(echo, name, true[name])
    return found

def main(library):
    """Every fault by itself, and none."""
    caught = {("no fault", "all"): check.run(library, CASES, "1"), ("no fault", "misplaced"): check.run(Misplaced(library), 30, "1")}
    for fault in PLACE_FAULTS | REPLY_FAULTS:
        caught[fault, "comparison"] = planted(fault, lambda: by_comparison(library))
    for fault, spoilt in WRITING_FAULTS.items():
        caught[fault, "guards and lists"] = by_comparison(Spoilt(library, *spoilt))
    for law, faults in LAW_FAULTS.items():
        for fault in faults:
            caught[fault, f"law {law}"] = planted(fault, lambda: by_law(Misplaced(library), law))
    for (fault, by), found in caught.items():
        print(f"caught by {by}: {fault}: {found.splitlines()[0][:120]}" if found else f"nothing found by {by}: {fault}")
    missed = [pair for pair, found in caught.items() if (found is None) != (pair[0] == "no fault")]
    number = len(PLACE_FAULTS | REPLY_FAULTS | WRITING_FAULTS)
    print(f"{number} faults, {len(caught) - 2} runs with one, missed or found without a fault: {missed or 'none'}")
    return bool(missed)

if __name__ == "__main__":
    sys.exit(main(check.load(sys.argv[1])))
