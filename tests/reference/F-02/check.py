"""check.py LIBRARY [N] [SEED]: compares the picture call told which band is co-pol, the old picture call and the call for a picture's windows with
the reference, every reply and lent element, mostly under Tamed, and tries the laws of the choice, of swapped bands, alteration, reordering and
order on the library's own answers."""
import ctypes as c
import importlib.util
import math
import os
import random
import sys
from bisect import bisect_left
from collections import Counter, namedtuple
from functools import lru_cache

import copol as f02
from copol import BAND1, BAND2, UNNAMED, g
from gamma import ADAPTIVE, CLAHE, DEFAULT, EQUALIZED, ROBUST, STANDARD, TAMED, Band

def load_check01():
    """F-01/check.py has this file's name, so it is loaded by its place."""
    spec = importlib.util.spec_from_file_location("check01", os.path.join(f02.F_01, "check.py"))
    module = importlib.util.module_from_spec(spec)
    spec.loader.exec_module(module)
    return module

check01 = load_check01()
Lent, Difference, same, lists, flat, unread, worked = (
    getattr(check01, name) for name in "Lent Difference same lists flat unread worked".split())
ask_statistics, ask_window, ask_grey, ask_compose = (getattr(check01, f"ask_{name}") for name in "statistics window grey compose".split())
loose, laid, anchored, sweep, floor_of, up, down = (getattr(check01, name) for name in "loose laid anchored sweep floor_of up down".split())

NOTHING = [0, 0, 3, 3, 255, 255, 4, 5, 127, 128, 129, 254]      # co-pol codes that name no band
LARGE = {105: (4096, 3), 205: (3, 4096), 305: (1, 4096), 405: (4096, 1), 505: (4097, 1), 605: (1, 4097), 705: (120, 100), 805: (4097, 2)}
ALL_LAWS_UP_TO = 3000                            # pixels; above it a scene has three of the laws
seen = Counter()                                 # how often the scenes show what the choice does
on_steps = {True: set(), False: set()}           # the values whose least t a valid pixel has, co-pol and cross-pol, under the library's own windows

# What is called.

def load(path):
    """The library with the types of the calls."""
    library = check01.load(path)
    sides, doubles, bytes_ = [c.c_size_t] * 2, c.POINTER(c.c_double), c.POINTER(c.c_uint8)
    bands = [doubles, c.c_size_t, bytes_, c.c_size_t] * 2
    for name, types in {
            "picture_copol": [*[c.c_uint8] * 3, *sides, *bands, *[bytes_, c.c_size_t] * 3, doubles, c.c_size_t],
            "picture_windows": [*[c.c_uint8] * 2, *sides, *bands, bytes_, doubles]}.items():
        call = getattr(library, f"quicklook_{name}")
        call.argtypes, call.restype = types, c.c_uint8
    return library

lent_bands = {}                                  # the bands of a case and their lists, made once to save time

def renewed(lent):
    """The list with the elements and guards that it was made with."""
    c.memmove(lent.array, lent.before, len(lent.before))
    return lent

def read_lists(bands):
    """Bands lent for reading. A band is kept beside its lists, so its place in memory names it."""
    for band in bands:
        if id(band) not in lent_bands:
            lent_bands[id(band)] = band, lists(band)
    return [renewed(lent) for band in bands for lent in lent_bands[id(band)][1]]

@lru_cache(64)
def space_of(length):
    """Work of that length."""
    return Lent(c.c_double, [3.25] * length, -7.25)

@lru_cache(64)
def output_of(i, length):
    """A grey or, third, the colours, of that length; each has guards and elements of its own."""
    return Lent(c.c_uint8, [13 + i] * length, 210 + i)

def ask(call, codes, given):
    """A picture call: the reply, both greys and the colours as they stand. All else, and all of it after a refusal, is as it was."""
    read, space = read_lists(given.bands), renewed(space_of(given.work))
    out = [renewed(output_of(i, length)) for i, length in enumerate(given.lengths)]
    reply = call(*codes, given.rows, given.cols, *flat(read), *flat(out), *flat([space]))
    unread(reply, read, out), worked(given.strategy, reply, space)
    for i, lent in enumerate(out):
        lent.guards(f"picture output {i}")
    return reply, [lent.now() for lent in out]

def ask_copol(library, given):
    """The picture call told which band is co-pol."""
    return ask(library.quicklook_picture_copol, (given.strategy, given.mode, given.copol), given)

def ask_old(library, given):
    """The old picture call."""
    return ask(library.quicklook_picture, (given.strategy, given.mode), given)

def ask_windows(library, given):
    """The reply, the two blank bytes and the eight floats as they stand."""
    read = read_lists(given.bands)
    blank, floats = Lent(c.c_uint8, [7, 8], 9), Lent(c.c_double, [1.5 + i for i in range(8)], -7.25)
    reply = library.quicklook_picture_windows(given.strategy, given.copol, given.rows, given.cols, *flat(read), blank.pointer, floats.pointer)
    unread(reply, read, [blank, floats])
    blank.guards("blank"), floats.guards("floats")
    return reply, blank.now(), floats.now()

def bits(floats):
    """Floats to be compared by bits; none of them is NaN."""
    return [x.hex() for x in floats]

def numbers(floats):
    """Floats to be compared as numbers: "-0 equals 0"."""
    return [(x + 0.0).hex() for x in floats]

# Scenes. A builder makes the valid values; they are laid between invalid ones afterwards.

Given = namedtuple("Given", (*check01.Given._fields, "copol"))

def given_of(rng, strategy, rows, cols, bands):
    """A call with right lengths and either choice."""
    return Given(*check01.given_of(rng, strategy, rows, cols, bands), rng.choice([BAND1, BAND2]))

def steady(turn, rng, m, fraction):
    """Tamed: p02 or p05 is exactly 0 and p99 a power of two, so that pixels stand on and next to the steps of that window."""
    high = 2.0 ** rng.randint(0, 8)
    return anchored(m, (fraction, 0.99), -high / 2, high, 2 * high, sweep(1.0, turn, high))

def narrow(turn, rng, m, fraction):
    """The same with a window narrower than 1, whose range is 1."""
    high = 2.0 ** rng.randint(-3, -1)
    near = [t for t in check01.PLACES[1.0] if t < 0.98 * high]
    return anchored(m, (fraction, 0.99), -high / 2, high, 2 * high, lambda number: rng.choices(near, k=number))

def parted(turn, rng, m, fraction):
    """p02 and p05 far apart: the darkest pixels lie well below the others."""
    high, depth = rng.uniform(1, 40), rng.uniform(1, 60)
    dark = floor_of(rng.uniform(0.02, 0.05), m) + 1
    return [rng.uniform(-20 - depth, -20 - depth / 2) for _ in range(dark)] + [rng.uniform(-20, high - 20) for _ in range(m - dark)]

def bin_of(step, unit, span):
    """The bin of the value so many units above the least: "bin = trunc(t × 4096) with t = (v - min) × inv held to 0..1"."""
    return int(min(step * unit * (1.0 / span), 1.0) * 4096.0)

def crossed(turn, rng, m, fraction):
    """p02 above p05. A bin is about as wide as one step between f64; p02 is the last of its bin and p05 near the start of the next, and the start of
    p02's bin is rounded up. m is at least 150."""
    first, second = floor_of(0.02, m), floor_of(0.05, m)
    while True:
        least = rng.choice([-1.0, 1.0]) * 2.0 ** rng.uniform(-8, 9.9)
        unit, steps, b = math.ulp(least), rng.randint(2500, 12000), rng.randint(1, 4000)
        span, width = steps * unit, steps * unit / 4096.0
        place = {bin_of(step, unit, span): step for step in range(max(b * steps // 4096 - 1, 1), b * steps // 4096 + 6)}
        p02 = (least + b * width) + (first - 1) / first * width
        p05 = (least + (b + 1) * width) + (second - 1 - first) / (m - 2 - first) * width
        if p02 > p05 and {b, b + 1} <= set(place) and (least + span) - least == span:
            at = [least + place[k] * unit for k in (b, b + 1)]
            return [least] + [at[0]] * first + [at[1]] * (m - 2 - first) + [least + span]

def moved(library, rng, held):
    """The scene with its values moved next to the steps of its two Tamed windows, none across or into a bin of a percentile."""
    m = len(held)
    if not held or m > 4096:
        return held
    band = Band(held, [1] * m)
    s, floats = ask_statistics(library, 1, m, band), ask_windows(library, Given(TAMED, 0, 1, m, [band, band], m, [m, m, 3 * m], 0, BAND1))[2]
    window, width = g.Window(*floats[:4] if rng.random() < 0.5 else floats[4:]), (s.max - s.min) / 2048
    if width == 0.0 or window.low >= window.high:
        return held
    edges = sorted({s.min, s.max, window.low, window.high, *s[4:]})
    near = sorted(v for t in rng.sample(check01.THRESHOLDS[1.0], 25) for r in [check01.reaching(t, window)] for v in (r, down(r)))
    def place(v):
        """A place between the same two edges, if v is not next to one."""
        i = bisect_left(edges, v)
        if not 0 < i < len(edges) or v - edges[i - 1] <= width or edges[i] - v <= width:
            return v
        fit = near[bisect_left(near, edges[i - 1] + width):bisect_left(near, edges[i] - width)]
        return rng.choice(fit) if fit else v
    return [place(v) if rng.random() < 0.8 else v for v in held]

def tamed_case(library, rng, case):
    """Tamed: each band by a builder, mostly for the window that it gets; either order, between invalid pixels or not."""
    m, spare, turn = rng.randint(150, 300), rng.choice([0, 0, 1, 40]), case // 10
    rows, cols = check01.sides(rng, m + spare)
    copol, bands = rng.choice([BAND1, BAND2]), []
    for number in BAND1, BAND2:
        fraction = rng.choice([0.02, 0.05] + 4 * [0.02 if f02.is_copol(number, copol) else 0.05])
        build = rng.choice([steady, steady, steady, narrow, parted, parted, lambda *_: moved(library, rng, loose(rng, m))])
        bands.append(laid(rng, build(turn + number, rng, m, fraction), rows * cols, False))
    return given_of(rng, TAMED, rows, cols, bands)._replace(copol=copol)

def crossed_case(library, rng, case):
    """Tamed with p02 above p05 in one band or both."""
    m, spare = rng.randint(150, 260), rng.choice([0, 0, 1, 20])
    rows, cols = check01.sides(rng, m + spare)
    other = rng.choice([crossed, crossed, steady, parted, lambda *_: [], lambda *_: loose(rng, m)])
    bands = [laid(rng, build(case // 10, rng, m, 0.02), rows * cols, False) for build in (crossed, other)]
    return given_of(rng, TAMED, rows, cols, bands[::rng.choice([1, -1])])

LADDER = [i / 2 - 20 for i in range(120)]
SPECIAL = [       # one pixel, flat, both zeros, next to flat, few pixels, numbers of pixels where p02 or p05 takes its next rank, the domain's ends
    [-12.5], [3.0] * 5, [3.0] * 60, [0.0, -0.0], [-0.0, 0.0], [-0.0] * 30, [0.0, 2.0 ** -53], [0.0, 2.0 ** -52], [-5e-324, 5e-324, 0.0, -0.0],
    [1.0, up(1.0)], [1000.0, down(1000.0)], [0.0, 10.0], [0.0, 0.5], [0.0, 14.0], [0.0, 0.125, 0.25, 0.5], *[LADDER[:m] for m in (19, 20, 21)],
    *[LADDER[:m] for m in (49, 50, 51, 99, 100, 101, 120)], LADDER[:50][::-1], [-1000.0, 1000.0], [-1000.0] * 3 + [1000.0] * 97,
    [-1000.0] * 4 + [5.0] * 95 + [1000.0], [-30.0] * 3 + [-20.0] * 40 + [0.0] * 57, [-0.0] * 3 + [1.0] * 97, [0.0] * 3 + [-0.0] * 3 + [2.0] * 94]

def special_case(library, rng, case):
    """A scene of the list, alone or between invalid pixels, with a blank, equal, loose or other special second band; or two blank ones. Now and
    then both bands are the very same lists, which they may be, being only read."""
    held, spare = SPECIAL[case // 10 % len(SPECIAL)], rng.choice([0, 0, 1, 5])
    n = len(held) + spare
    rows, cols = rng.choice([(1, n), (n, 1), *[(k, n // k) for k in (2, 5, 10) if n % k == 0]])
    other = rng.choice([[], held, held, held[::-1], loose(rng, n), rng.choice(SPECIAL)])
    pair = [laid(rng, one, n, True) for one in ((held, other) if rng.random() < 0.95 else ([], []))]
    pair = pair[::rng.choice([1, -1])] if rng.random() < 0.9 else pair[:1] * 2
    return given_of(rng, rng.choice([TAMED] * 4 + [STANDARD, ROBUST, EQUALIZED, DEFAULT]), rows, cols, pair)

def loose_case(library, rng, case):
    """Bands of loose values, often moved next to the steps of their Tamed windows; empty, blank and large rasters among them."""
    strategy = rng.choice(4 * [TAMED] + [STANDARD, ROBUST, ADAPTIVE, EQUALIZED, DEFAULT])
    some, line = (rng.randint(5, 24), rng.randint(5, 24)), rng.randint(1, 120)
    empty = check01.EMPTY[case // 10 % len(check01.EMPTY)]
    rows, cols = LARGE.get(case % 1000) or rng.choice(6 * [some] + 2 * [(1, line), (line, 1)] + [(rng.randint(1, 9), rng.randint(1, 9)), empty])
    n, bands = rows * cols, []
    for _ in range(2):
        held = loose(rng, rng.choice([n, n, n, rng.randint(0, n), min(n, 1), 0]) if n <= ALL_LAWS_UP_TO else 400)
        held = moved(library, rng, held) if strategy == TAMED and rng.random() < 0.7 else held
        bands.append(laid(rng, held if n <= ALL_LAWS_UP_TO else [rng.choice(held) for _ in range(n - 9)], n, rng.random() < 0.3))
    return given_of(rng, strategy, rows, cols, bands)

def clahe_case(library, rng, case):
    """Clahe with sides that are accepted and refused, bands that are blank or not, and now and then another length of the work."""
    wide, thin = [7, 8, 14, 15, 16, 21, 24], [1, 6, 9, 13, 17, 20, 25, 27]
    rows, cols = (rng.choice(rng.choice([wide, wide, thin])) for _ in range(2))
    n, some = rows * cols, rng.random() < 0.8
    bands = [laid(rng, loose(rng, some and rng.choice([n, n, rng.randint(0, n), 0])), n, True) for _ in range(2)]
    given = given_of(rng, CLAHE, rows, cols, bands)
    return given if rng.random() < 0.8 else given._replace(work=rng.choice([0, 1, g.CLAHE_WORK - 1, g.CLAHE_WORK + 1, 2 * g.CLAHE_WORK]))

def elsewhere_case(library, rng, case):
    """A scene of F-1's families or special scenes, of all strategies but Clahe, mostly not Tamed."""
    build, kind = rng.choice([(check01.family_case, rng.randrange(len(check01.FAMILIES))), (check01.special_case, 7)])
    return Given(*build(library, rng, case // 10 * 10 + kind), rng.choice([BAND1, BAND2]))

def damaged(rng, fault, i, given):
    """The call with one more fault: a co-pol code that names nothing, or one of F-1's."""
    if fault == "copol":
        return given._replace(copol=rng.choice(NOTHING))
    return check01.damaged(rng, fault, i, given)

def damaged_case(library, rng, case):
    """A small call with up to four faults, mostly under Tamed, a co-pol code that names nothing often one of them."""
    strategy = rng.choice([TAMED] * 5 + [CLAHE, rng.randrange(7)])
    rows, cols = rng.choice([(1, 2), (2, 2), (rng.randint(1, 9), rng.randint(1, 9)), (rng.randint(7, 16), rng.randint(7, 16))])
    n = rows * cols
    bands = [laid(rng, rng.choice([[0.0, 14.0], loose(rng, n), loose(rng, n), loose(rng, rng.randint(0, n))]), n, True) for _ in range(2)]
    given = given_of(rng, strategy, rows, cols, bands)
    faults = rng.sample([1, 1, 2, 2, 2, 3, 3, 3, 4, 4, 4, 5, 5, 255], rng.choice([0, 1, 1, 1, 2, 2, 2, 3])) + ["copol"] * (rng.random() < 0.3)
    for i, fault in enumerate(faults, rng.randrange(2)):
        given = damaged(rng, fault, i % 2, given)
    return given

KINDS = [tamed_case, tamed_case, crossed_case, special_case, tamed_case, loose_case, damaged_case, elsewhere_case, damaged_case, loose_case]

def made(library, rng, case):
    """Of ten cases six are under Tamed by their kind; of thirty one or two are Clahe's."""
    build = clahe_case if case % 30 in (17, 29) else KINDS[case % 10]
    return build(library, rng, case)

# Comparison with the reference.

def of_picture(given):
    """The given parts of a picture call but for the choice."""
    return given.strategy, given.mode, given.rows, given.cols, given.bands, given.lengths, given.work

def compare_answer(name, found, wanted):
    """The reply and, if done, every grey and colour."""
    same(f"{name}, reply", found[0], wanted.reply)
    for part, one, other in zip(("grey 1", "grey 2", "colours"), found[1], [*wanted.greys, wanted.colours] if wanted.reply == 0 else ()):
        check01.comparisons += len(other)
        if one != other:
            i = next((i for i, (a, b) in enumerate(zip(one, other)) if a != b), min(len(one), len(other)))
            raise Difference(f"{name}, {part}[{i}] of {len(one)}: found {one[i:i + 1]}, wanted {other[i:i + 1]} of {len(other)}")

def compare_picture(library, given, statistics):
    """The picture call told which band is co-pol."""
    strategy, mode, *parts = of_picture(given)
    wanted = f02.picture(strategy, mode, given.copol, *parts, statistics, lambda *colours: ask_compose(library, *colours))
    found = ask_copol(library, given)
    compare_answer(f"picture, co-pol {given.copol}", found, wanted)
    return found

def compare_old(library, given, statistics):
    """The old picture call."""
    wanted, found = f02.old_picture(*of_picture(given), statistics, lambda *colours: ask_compose(library, *colours)), ask_old(library, given)
    compare_answer("old picture", found, wanted)
    return found

def compare_windows(library, given, statistics):
    """The windows call. Floats are numbers, so a zero's sign is free but where the rules leave none: under Tamed and of blank bands."""
    wanted, found = f02.windows(given.strategy, given.copol, given.rows, given.cols, given.bands, statistics), ask_windows(library, given)
    same("windows, reply", found[0], wanted.reply)
    if found[0] == 0:
        same("windows, blank", found[1], wanted.blank)
        for number, at in (1, 0), (2, 4):
            settled = given.strategy == TAMED or found[1][number - 1]
            form = bits if settled else numbers
            same(f"windows, floats of band {number}", form(found[2][at:at + 4]), form(wanted.floats[at:at + 4]))
            same(f"windows, range and gamma of band {number}", bits(found[2][at + 2:at + 4]), bits(wanted.floats[at + 2:at + 4]))
    return found

def note(given, statistics, answers):
    """Counts the done pictures under Tamed, those whose greys and colours the choice moves, bands with p02 above p05, and steps with pixels."""
    if given.strategy != TAMED or answers["picture"][0]:
        return
    seen["done"] += 1
    seen["greys"] += answers["other"][1][:2] != answers["picture"][1][:2]
    seen["colours"] += answers["other"][1][2] != answers["picture"][1][2]
    for number, band in enumerate(given.bands, 1):
        if g.valid(band):
            s, window = statistics(band), g.Window(*answers["windows"][2][4 * number - 4:4 * number])
            seen["crossed"] += s.p02 > s.p05
            reached = {g.normalised(v, window) for v, mark in zip(*band) if mark}
            on_steps[number == given.copol] |= {k for t in reached for k, step in check01.NAMES[1.0].get(t, ()) if step == 0}

# Laws of the library's own answers. The reference has no part in them.

def other(given):
    """The call with the other choice; a code that names nothing stays."""
    return given._replace(copol={BAND1: BAND2, BAND2: BAND1}.get(given.copol, given.copol))

def swapped(given):
    """The call with bands, choice and lent grey lengths swapped."""
    first, second, colours = given.lengths
    return other(given)._replace(bands=given.bands[::-1], lengths=[second, first, colours])

def law_choice(library, rng, given, answers):
    """"Outside Tamed the choice moves nothing, and it moves no refusal"."""
    reply, out = answers["other"]
    same("other choice, reply", reply, answers["picture"][0])
    if given.strategy != TAMED:
        same("other choice outside Tamed, greys and colours", out, answers["picture"][1])
    reply, blank, floats = answers["other windows"]
    same("other choice, windows, reply and blank", (reply, blank), answers["windows"][:2])
    if given.strategy != TAMED:
        same("other choice outside Tamed, windows", bits(floats), bits(answers["windows"][2]))

def law_unnamed(library, rng, given, answers):
    """"Codes that name nothing are 255", and before all others: whatever else is handed in."""
    unnamed = given._replace(copol=rng.choice(NOTHING))
    same("a choice that names nothing, picture", ask_copol(library, unnamed)[0], UNNAMED)
    same("a choice that names nothing, windows", ask_windows(library, unnamed)[0], UNNAMED)

def law_swap(library, rng, given, answers):
    """"With bands and choice swapped, a done call's grey outputs swap." A refusal stays the same."""
    reply, out = ask_copol(library, swapped(given))
    same("swapped, reply", reply, answers["picture"][0])
    if reply == 0:
        same("swapped, greys", out[:2], answers["picture"][1][1::-1])

def law_windows_swap(library, rng, given, answers):
    """The two windows swap with bands and choice."""
    reply, blank, floats = ask_windows(library, swapped(given))
    same("swapped, windows, reply", reply, answers["windows"][0])
    if reply == 0:
        same("swapped, windows, blank", blank, answers["windows"][1][::-1])
        same("swapped, windows, floats", bits(floats[4:] + floats[:4]), bits(answers["windows"][2]))

def law_old(library, rng, given, answers):
    """"The old call reads as choice 1"."""
    same("old call against choice 1", ask_copol(library, given._replace(copol=BAND1)), answers["old"])

def law_window(library, rng, given, answers):
    """Outside Tamed the two windows are those of the window call, and their refusal is the smallest of the two; under Tamed the high end is."""
    reply, blank, floats = answers["windows"]
    if not f02.names_band(given.copol):
        return
    alone = [ask_window(library, given.strategy, given.rows, given.cols, band) for band in given.bands]
    same("windows against the window call, reply", reply, min((one for one, *_ in alone if one), default=0))
    for number, (_, own_blank, own_floats) in enumerate(alone if reply == 0 else ()):
        found = floats[4 * number:4 * number + 4]
        same(f"window {number + 1} against the window call, blank", blank[number], own_blank)
        chosen = slice(1, 2) if given.strategy == TAMED else slice(4)
        same(f"window {number + 1} against the window call", bits(found[chosen]), bits(own_floats[chosen]))

def law_tamed(library, rng, given, answers):
    """Under Tamed a band's two windows, one for each choice, share their high end, the co-pol low end is not above the cross-pol one,
    and range and gamma are max(high - low, 1.0) and 1.0."""
    if given.strategy != TAMED or answers["windows"][0]:
        return
    for number, blank in enumerate(answers["windows"][1], 1):
        pair = [g.Window(*answers[name][2][4 * number - 4:4 * number]) for name in ("windows", "other windows")]
        copol, cross = pair if given.copol == number else pair[::-1]
        if not blank:
            same(f"Tamed, band {number}: high for both choices", copol.high.hex(), cross.high.hex())
            same(f"Tamed, band {number}: co-pol low at most cross-pol low", copol.low <= cross.low, True)
            same(f"Tamed, band {number}: range and gamma", [one[2:] for one in pair], [(max(one.high - one.low, 1.0), 1.0) for one in pair])

def law_own(library, rng, given, answers):
    """The choice sets windows and nothing else: a band's greys and window stay with any other second band, here a blank one."""
    if answers["picture"][0]:
        return
    for i in 0, 1:
        blank = Band(given.bands[1 - i].db, [0] * len(given.bands[1 - i].marks))
        alone = given._replace(bands=[given.bands[0], blank] if i == 0 else [blank, given.bands[1]])
        reply, out = ask_copol(library, alone)
        same(f"with band {2 - i} blank, reply and grey {i + 1}", (reply, out[i]), (0, answers["picture"][1][i]))
        reply, _, floats = ask_windows(library, alone)
        same(f"with band {2 - i} blank, window {i + 1}", (reply, bits(floats[4 * i:4 * i + 4])), (0, bits(answers["windows"][2][4 * i:4 * i + 4])))

def law_colours(library, rng, given, answers):
    """"red stays band 1's": the colours are composed of the call's own greys, in their order."""
    for name in "picture", "other", "old":
        reply, out = answers[name]
        if reply == 0:
            same(f"{name}, colours of its own greys", out[2], ask_compose(library, given.strategy, given.mode, out[:2]))

def law_chain(library, rng, given, answers):
    """Outside Tamed a done picture has the greys of the grey call at 8 bits."""
    for i, band in enumerate(given.bands if answers["picture"][0] == 0 and given.strategy != TAMED else ()):
        reply, out = ask_grey(library, 8, given.strategy, given.rows, given.cols, band, given.lengths[i], given.work)
        same(f"grey {i + 1} against the grey call", (0, answers["picture"][1][i]), (reply, out.now()))

def law_order(library, rng, given, answers):
    """Grey order outside Clahe, of each band by itself; with the other choice where it acts."""
    for name in ("picture", "other")[:1 + (given.strategy == TAMED)] if given.strategy != CLAHE else ():
        reply, out = answers[name]
        for i, band in enumerate(given.bands if reply == 0 else ()):
            check01.ordered(f"{name}, band {i + 1}", band, out[i])

def law_blank(library, rng, given, answers):
    """"Invalid: 0", in every strategy and with either choice, all pixels of a blank band among them."""
    for name in "picture", "other", "old":
        reply, out = answers[name]
        for i, band in enumerate(given.bands if reply == 0 else ()):
            same(f"{name}, grey {i + 1}, invalid pixels", any(grey for grey, mark in zip(out[i], band.marks) if mark == 0), False)

def law_alter(library, rng, given, answers):
    """"any f64, NaN and infinities included, at any places of a band that its own marks give as 0, in one band or both", changes no result."""
    if not any(0 in band.marks for band in given.bands):
        return
    altered = []
    for band, struck in zip(given.bands, rng.choice([(True, True), (True, False), (False, True)])):
        marks = [*band.marks, *[1] * len(band.db)]
        altered.append(Band([rng.choice(check01.UNREAD) if struck and mark == 0 else v for v, mark in zip(band.db, marks)], band.marks))
    altered = given._replace(bands=altered)
    same("altered under 0 marks, picture", ask_copol(library, altered), answers["picture"])
    same("altered under 0 marks, old picture", ask_old(library, altered), answers["old"])
    reply, blank, floats = ask_windows(library, altered)
    same("altered under 0 marks, windows", (reply, blank, bits(floats)), (*answers["windows"][:2], bits(answers["windows"][2])))

def law_reorder(library, rng, given, answers):
    """For every strategy but Adaptive and Clahe, and one permutation of four lists of one length: the same refusal, or greys and colours moved by it.
    "A reordering keeps that choice with its band." The windows stay, as numbers."""
    parts = [part for band in given.bands for part in band]
    if given.strategy in (ADAPTIVE, CLAHE) or len({len(part) for part in parts}) != 1:
        return
    places = rng.sample(range(len(parts[0])), len(parts[0]))
    reordered = given._replace(bands=[Band(*([part[i] for i in places] for part in band)) for band in given.bands])
    reply, out = ask_copol(library, reordered)
    same("reordered, reply", reply, answers["picture"][0])
    if reply == 0:
        grey1, grey2, rgb = answers["picture"][1]
        same("reordered, greys", out[:2], [[grey1[i] for i in places], [grey2[i] for i in places]])
        same("reordered, colours", out[2], [x for i in places for x in rgb[3 * i:3 * i + 3]])
    reply, blank, floats = ask_windows(library, reordered)
    same("reordered, windows", (reply, blank, numbers(floats)), (*answers["windows"][:2], numbers(answers["windows"][2])))

LAWS = [law_choice, law_unnamed, law_swap, law_windows_swap, law_old, law_window, law_tamed, law_own, law_colours, law_chain, law_order, law_blank,
        law_alter, law_reorder]

# A run.

def answers_of(library, given, comparing):
    """The calls of a case, compared with the reference or only asked. With the other choice they are compared where the choice acts."""
    statistics = check01.statistics_of(library, given)
    ask_all = {"picture": compare_picture, "old": compare_old, "windows": compare_windows} if comparing else {
        "picture": lambda library, given, _: ask_copol(library, given), "old": lambda library, given, _: ask_old(library, given),
        "windows": lambda library, given, _: ask_windows(library, given)}
    answers = {name: one(library, given, statistics) for name, one in ask_all.items()}
    if comparing and given.strategy == TAMED:
        answers["other"], answers["other windows"] = (ask_all[name](library, other(given), statistics) for name in ("picture", "windows"))
    else:
        answers["other"], answers["other windows"] = ask_copol(library, other(given)), ask_windows(library, other(given))
    if comparing:
        note(given, statistics, answers)
    return answers

def run(library, cases, seed, comparing=True):
    """Returns None, or a text that says the first difference and how to repeat it."""
    for case in cases:
        given = None
        lent_bands.clear()
        try:
            given = made(library, random.Random(f"{seed}:{case}"), case)
            answers, rng = answers_of(library, given, comparing), random.Random(f"{seed}:{case}:laws")
            small = max(len(part) for band in given.bands for part in band) <= ALL_LAWS_UP_TO
            for law in LAWS if small else rng.sample(LAWS, min(3, len(LAWS))):
                law(library, rng, given, answers)
        except Difference as difference:
            lines = [f"seed {seed} case {case}: {str(difference)[:2000]}"]
            if given:
                lines += [", ".join(f"{name} {part}" for name, part in given._asdict().items() if name != "bands")]
                lines += [f"db[{len(db)}] {[v.hex() for v in db[:400]]}\nmarks[{len(marks)}] {marks[:400]}" for db, marks in given.bands]
            return "\n".join(lines)
    return None

if __name__ == "__main__":
    number, seed = [*sys.argv[2:], *("1000", "1")[len(sys.argv) - 2:]]
    found = run(load(sys.argv[1]), range(int(number)), seed)
    print(found or f"{number} cases, seed {seed}: {check01.comparisons} comparisons, the choice moved greys in {seen['greys']} and colours in "
          f"{seen['colours']} of {seen['done']} done pictures under Tamed, p02 above p05 in {seen['crossed']} bands, pixels exactly on "
          f"{len(on_steps[True])} of 255 steps co-pol and {len(on_steps[False])} cross-pol, no difference")
    sys.exit(1 if found else 0)
