"""check.py LIBRARY [N] [SEED]: compares quicklook_statistics with the reference, all five whole numbers, and tries laws of the place."""
import ctypes as c
import importlib.util
import math
import os
import random
import sys

import strongest_echo as echo

def load_check06():
    """F-06/check.py has this file's name, so it is loaded by its place."""
    spec = importlib.util.spec_from_file_location("check06", os.path.join(echo.F_06, "check.py"))
    module = importlib.util.module_from_spec(spec)
    spec.loader.exec_module(module)
    return module

check06 = load_check06()
GUARD, Lent, Difference, same, load = check06.GUARD, check06.Lent, check06.Difference, check06.same, check06.load
LARGE = {20: (300, 200), 60: (17, 4096), 100: (4096, 17), 140: (1, 4096), 180: (4096, 1), 220: (4097, 1), 260: (1, 4097), 500: (200, 300)}
EMPTY = [(0, 0), (0, 1), (1, 0), (0, 7), (7, 0), (4096, 0), (0, 4096), (4097, 0), (0, 4097)]
DAMAGED_UP_TO, ALL_LAWS_UP_TO = 400, 1600      # pixels; above the first no scene is damaged, above the second it has two of the laws

def up(v):
    """The next value above, within the domain."""
    return min(math.nextafter(v, math.inf), 1000.0)

def down(v):
    """The next value below, within the domain."""
    return max(math.nextafter(v, -math.inf), -1000.0)

def twin(v):
    """The same number; of a zero the other one."""
    return -v if v == 0 else v

def sides(rng, case):
    """Mostly small rasters, single rows and columns, now and then an empty or a large one."""
    few, some, line = (lambda: rng.randint(1, 6)), (lambda: rng.randint(1, 40)), (lambda: rng.randint(1, 60))
    usual = rng.choice([(few(), few()), (few(), few()), (few(), some()), (some(), few()), (1, line()), (line(), 1), (some(), some())])
    return LARGE.get(case % 1000) or (rng.choice(EMPTY) if rng.random() < 0.05 else usual)

def palette(rng):
    """The values of one scene: tiny sets with many ties, both zeros, subnormals and neighbours by one ulp, or F-06's."""
    a, s = rng.choice([rng.uniform(-60, 20), rng.uniform(-60, 20), 0.5, 1.0, -1.0, -12.5, 2.0 ** -52, 1e-300, -1e-300]), 5e-324
    return rng.choice([
        [a], [a, up(a)], [down(a), a, up(a)], [a, -a], [a, a - 1, a - 2], [a, a + rng.uniform(-1e-4, 1e-4)],
        [0.0, -0.0], [0.0, -0.0, -s], [0.0, -0.0, s, -s], [0.0, -0.0, -abs(a)], [-0.0, down(-abs(a))], [s, 2 * s, 3 * s],
        [-s, -2 * s, -1e-310], [2.0 ** -1022, down(2.0 ** -1022), 1e-310], [-1000.0], [-1000.0], [1000.0], [-1000.0, up(-1000.0)],
        [1000.0, down(1000.0)], [-1000.0, 1000.0, a], [float(k) for k in range(-5, 3)], [rng.uniform(-60, 20) for _ in range(2000)],
        check06.palette(rng), check06.palette(rng), check06.palette(rng)])

def marking(rng, rows, cols):
    """The rule of the marks: all, many, few, one, none, from a row or a column on, one row, one column, every other."""
    row, col = rng.randrange(max(rows, 1)), rng.randrange(max(cols, 1))
    return rng.choice(3 * [lambda r, k: True] + 2 * [lambda r, k: rng.random() < 0.6] + [
        lambda r, k: rng.random() < 0.2, lambda r, k: (r, k) == (row, col), lambda r, k: False, lambda r, k: r >= row, lambda r, k: k >= col,
        lambda r, k: r == row, lambda r, k: k == col, lambda r, k: r % 2 == row % 2, lambda r, k: (r + k) % 2 == 0])

def crown(rng, rows, cols, db, marks, late):
    """The greatest value or one above it goes to telling places: the first, the last, the ends of rows, valid or as it is marked.
    In a large scene one above it goes to the end, so that the place needs all its digits."""
    top, n = max((v for v, mark in zip(db, marks) if mark), default=0.0), rows * cols
    value = up(top) if late else rng.choice([top, top, up(top), min(top + 1.0, 1000.0), 1000.0])
    spots = [0, n - 1, cols - 1, n - cols, rng.randrange(rows) * cols, rng.randrange(rows) * cols + cols - 1, rng.randrange(n)]
    for at in [n - 1, n - 1 - rng.randrange(40)] if late else rng.sample(spots, rng.choice([1, 1, 2, 3])):
        db[at], marks[at] = rng.choice([value, twin(value)]), 1 if late or rng.random() < 0.7 else marks[at]

def fill(rng, db, marks, values):
    """What invalid pixels hold: the greatest valid value, one above it, NaN, infinities, anything, or what valid ones may hold."""
    top = max((v for v, mark in zip(db, marks) if mark), default=0.0)
    held = rng.choice([check06.UNREAD, check06.UNREAD, [top], [top, twin(top), up(top), 1000.0], [math.nan], [math.inf], [1e308, -math.inf], values])
    db[:] = [v if mark else rng.choice(held) for v, mark in zip(db, marks)]

def scene(rng, case):
    """Sides, dB and marks; about one in four is damaged, by one to four faults at once, and some hold one bad pixel anywhere."""
    rows, cols = sides(rng, case)
    rule, values, n = marking(rng, rows, cols), palette(rng), rows * cols
    marks = [int(rule(row, col)) for row in range(rows) for col in range(cols)]
    db = [rng.choice(values) for _ in range(n)]
    if n and any(marks) and (n > ALL_LAWS_UP_TO or rng.random() < 0.6):
        crown(rng, rows, cols, db, marks, n > ALL_LAWS_UP_TO)
    fill(rng, db, marks, values)
    if n and rng.random() < 0.04:
        at = rng.randrange(n)
        db[at], marks[at] = rng.choice(check06.BAD), rng.choice([0, 1, 1, 2])
    for fault in rng.sample("13442", rng.choice([1, 1, 2, 3, 4])) if n <= DAMAGED_UP_TO and rng.random() < 0.25 else "":
        rows, cols, db, marks, _ = check06.damage(rng, fault, rows, cols, db, marks, 0)
    return rows, cols, db, marks

def ask(library, rows, cols, db, marks):
    """One call: the reply and the two written lists. Guards and read lists stay as they were, and all of it after a refusal."""
    d, m = Lent(c.c_double, db, math.nan), Lent(c.c_uint8, marks, 1)
    whole, floats = Lent(c.c_uint64, range(7, 12), 2 ** 64 - 3), Lent(c.c_double, [1.5 - i for i in range(15)], -7.25)
    reply = library.quicklook_statistics(rows, cols, d.pointer, len(db), m.pointer, len(marks), whole.pointer, floats.pointer)
    for name, lent in ("whole", whole), ("floats", floats):
        lent.compare(name, lent.array[GUARD:-GUARD] if reply == 0 else None)
    d.compare("db"), m.compare("marks")
    return reply, whole, floats

def compare_with_reference(reply, whole, floats, *given):
    """The reply, the five whole numbers and the bits of the floats."""
    wanted = echo.statistics(*given)
    same("reply", reply, wanted.reply)
    if reply == 0:
        whole.compare("whole", wanted.whole), floats.compare("floats", wanted.floats)

# The laws. Each makes of a scene and the library's own place another scene and the place that it must have, or None where it says nothing.

def low(rng, top):
    """A value below the top and its mark, or anything under a mark of 0."""
    below = [(max(top - 1.0, -1000.0), 1), (down(top), 1), (-1000.0, 1)] if top > -1000.0 else []
    return rng.choice(below + [(rng.choice(check06.UNREAD), 0), (top, 0)])

def joined(*parts):
    """dB and marks of pixels, one list after the other."""
    return tuple(list(part) for part in zip(*(pixel for part in parts for pixel in part)))

def row_below(rng, rows, cols, db, marks, row, col):
    """A row below of smaller or equal values or of invalid pixels does not move the place."""
    top = db[row * cols + col]
    added = [rng.choice([low(rng, top), (top, 1), (twin(top), 1)]) for _ in range(cols)]
    return rows + 1, cols, *joined(zip(db, marks), added), row, col

def row_above(rng, rows, cols, db, marks, row, col):
    """A row above of smaller values or of invalid pixels moves it one row on."""
    rule = rng.choice([lambda: low(rng, db[row * cols + col]), lambda: (rng.choice(check06.UNREAD), 0)])
    return rows + 1, cols, *joined([rule() for _ in range(cols)], zip(db, marks)), row + 1, col

def widened(rng, rows, cols, db, marks, row, col, left):
    """A column of smaller values or of invalid pixels, at the left or at the right of each row."""
    top, pixels = db[row * cols + col], list(zip(db, marks))
    lines = [pixels[at:at + cols] for at in range(0, len(pixels), cols)]
    return rows, cols + 1, *joined(*([low(rng, top)] * left + line + [low(rng, top)] * (not left) for line in lines)), row, col + left

def column_left(*given):
    """A column at the left moves it one column on."""
    return widened(*given, True)

def column_right(*given):
    """A column at the right does not move it."""
    return widened(*given, False)

def swapped(rng, rows, cols, db, marks, row, col):
    """With a later equal, of the other zero where it is a zero, it may be swapped."""
    at = row * cols + col
    if at + 1 < len(db):
        later = rng.randrange(at + 1, len(db))
        db[at], db[later], marks[later] = twin(db[at]), db[at], 1
        return rows, cols, db, marks, row, col

def raised(rng, rows, cols, db, marks, row, col):
    """An earlier valid value raised to the maximum takes the place over. Without an earlier valid pixel one is made valid."""
    at = row * cols + col
    if at > 0:
        earlier = rng.choice([i for i in range(at) if marks[i]] or range(at))
        db[earlier], marks[earlier] = rng.choice([db[at], twin(db[at])]), 1
        return rows, cols, db, marks, *divmod(earlier, cols)

def unmarked(rng, rows, cols, db, marks, row, col):
    """Where the maximum becomes invalid the next of its equals has the place."""
    at = row * cols + col
    if at + 1 < len(db):
        later = rng.randrange(at + 1, len(db))
        db[later], marks[later], marks[at] = rng.choice([db[at], twin(db[at])]), 1, 0
        return rows, cols, db, marks, *divmod(next(i for i in range(at + 1, len(db)) if marks[i] and db[i] == db[at]), cols)

def cut_above(rng, rows, cols, db, marks, row, col):
    """A strip that begins at or above the place: "the row is the round's rows before the strip plus the row in it"."""
    before = rng.randint(0, row)
    return rows - before, cols, db[before * cols:], marks[before * cols:], row - before, col

def cut_below(rng, rows, cols, db, marks, row, col):
    """A strip that ends behind the place."""
    rows = rng.randint(row + 1, rows)
    return rows, cols, db[:rows * cols], marks[:rows * cols], row, col

def other_sides(rng, rows, cols, db, marks, row, col):
    """The same lists as a raster of other sides: the place in the list is the same."""
    rows, cols, at = *rng.choice([(cols, rows), (1, len(db)), (len(db), 1)]), row * cols + col
    return (rows, cols, db, marks, *divmod(at, cols)) if max(rows, cols) <= 4096 else None

def alone(rng, rows, cols, db, marks, row, col):
    """The only valid pixel has the place."""
    return rows, cols, db, [int(i == row * cols + col) for i in range(len(db))], row, col

LAWS = [row_below, row_above, column_left, column_right, swapped, raised, unmarked, cut_above, cut_below, other_sides, alone]

def altered(library, rng, whole, floats, rows, cols, db, marks):
    """Other dB under 0 marks changes nothing: "any f64, NaN and infinities included, at any places of a band that its own marks give as 0"."""
    other = [v if mark else rng.choice(check06.UNREAD + [1000.0]) for v, mark in zip(db, marks)]
    reply, *after = ask(library, rows, cols, other, marks)
    same("altered under 0 marks, reply", reply, 0)
    for name, lent, before in zip(("whole", "floats"), after, (whole, floats)):
        lent.compare(f"altered under 0 marks, {name}", before.array[GUARD:-GUARD])

def within(whole, floats, rows, cols, db, marks):
    """The place is a valid pixel and holds the max to the bit, both being "the first met"; without a valid pixel it is 0 and 0."""
    count, row, col = (whole.array[GUARD + i] for i in (0, 3, 4))
    if count == 0:
        same("place without a valid pixel", (row, col), (0, 0))
    else:
        same("place in the raster", row < rows and col < cols, True)
        same("mark and dB at the place", (marks[row * cols + col], db[row * cols + col].hex()), (1, floats.array[GUARD + 1].hex()))

def laws(library, rng, whole, floats, rows, cols, db, marks):
    """The laws on the library's own answers, two of them for a large scene. The reference has no part in them."""
    within(whole, floats, rows, cols, db, marks)
    altered(library, rng, whole, floats, rows, cols, db, marks)
    row, col = whole.array[GUARD + 3:-GUARD]
    speak = row < rows and col < cols and marks[row * cols + col] == 1      # else there is no valid pixel, or `within` has seen it
    for law in (LAWS if len(db) <= ALL_LAWS_UP_TO else rng.sample(LAWS, min(2, len(LAWS)))) if speak else ():
        made = law(rng, rows, cols, db[:], marks[:], row, col)
        if made and max(made[:2]) <= 4096:
            reply, after, _ = ask(library, *made[:4])
            same(f"law {law.__name__}, reply, row and column", (reply, *after.array[GUARD + 3:-GUARD]), (0, *made[4:]))

def run(library, number, seed):
    """Returns None, or a text that says the first difference and how to repeat it."""
    for case in range(number):
        rng = random.Random(f"{seed}:{case}")
        rows, cols, db, marks = given = scene(rng, case)
        try:
            reply, whole, floats = ask(library, *given)
            compare_with_reference(reply, whole, floats, *given)
            if reply == 0:
                laws(library, rng, whole, floats, *given)
        except Difference as difference:
            return (f"seed {seed} case {case}: {difference}\nrows {rows} cols {cols} "
                    f"db[{len(db)}] {[float(v).hex() for v in db[:200]]}\nmarks[{len(marks)}] {marks[:200]}")
    return None

if __name__ == "__main__":
    number, seed = [*sys.argv[2:], *("1000", "1")[len(sys.argv) - 2:]]
    found = run(load(sys.argv[1]), int(number), seed)
    print(found or f"{number} cases, seed {seed}: {check06.comparisons} comparisons, no difference")
    sys.exit(1 if found else 0)
