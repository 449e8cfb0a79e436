"""self_test.py LIBRARY: each planted fault, one at a time, must be caught by check.py: faults of the reference by the comparison, faults of writing
by the guards and lists, and faults of the calls by each law that is named for them, without the reference. Without a fault nothing is found."""
import sys

import check
import copol as f02
from copol import BAND1, BAND2, g

USUAL = [case for case in range(250) if case not in check.LARGE]
REFUSED = USUAL[:40] + [case for case in range(40, 900) if check.KINDS[case % 10] == check.damaged_case or case % 90 in (17, 29)]
true = {(module, name): value for module in (f02, g) for name, value in vars(module).items()}

def of(name, wrong):
    """A fault in place of a function of this reference."""
    return f02, name, wrong

def after(name, change, module=f02):
    """The true function, its result changed by change(result, *arguments)."""
    return module, name, lambda *given: change(true[module, name](*given), *given)

# The choice and Tamed's two windows.

def tamed(copol, cross):
    """Other ends of Tamed's windows: rules for co-pol and cross-pol from the statistics and the true ends."""
    def wrong(first, s):
        low, high = (copol if first else cross)(s, *true[g, "tamed_window"](first, s)[:2])
        return g.framed(low, high, 1.0)
    return g, "tamed_window", wrong

def kept(s, low, high):
    """The true ends."""
    return low, high

def lone(copol, bands):
    """A band that alone has valid pixels counts as co-pol."""
    valid = [number for number, band in enumerate(bands, 1) if g.valid(band)]
    return valid[0] if len(valid) == 1 and f02.names_band(copol) else copol

def guessed(copol, bands):
    """The choice is taken from the first pixels: the brighter is co-pol."""
    first = [next(iter(band.db), 0.0) for band in bands]
    return (BAND1 if first[0] >= first[1] else BAND2) if f02.names_band(copol) else copol

def rechosen(name, choose):
    """A picture or windows call with another choice, made of the given one and the bands."""
    if name == "picture":
        return of(name, lambda strategy, mode, copol, rows, cols, bands, *given:
                  true[f02, name](strategy, mode, choose(copol, bands), rows, cols, bands, *given))
    return of(name, lambda strategy, copol, rows, cols, bands, *given: true[f02, name](strategy, choose(copol, bands), rows, cols, bands, *given))

def first_always(copol, bands):
    """Band 1, unless the code names nothing."""
    return BAND1 if f02.names_band(copol) else copol

CHOICE_FAULTS = {
    "the choice ignored": of("is_copol", lambda number, copol: number == BAND1),
    "the choice reversed": of("is_copol", lambda number, copol: number != copol),
    "both bands co-pol": of("is_copol", lambda number, copol: True),
    "neither band co-pol": of("is_copol", lambda number, copol: False),
    "bands counted from 0": of("is_copol", lambda number, copol: number == copol + 1),
    "choice 2 makes both cross-pol": of("is_copol", lambda number, copol: number == copol == BAND1),
    "choice 2 makes both co-pol": of("is_copol", lambda number, copol: number == copol or copol == BAND2),
    "a lone band is co-pol in pictures": rechosen("picture", lone),
    "a lone band is co-pol in windows": rechosen("windows", lone),
    "the choice guessed from the pixels": rechosen("picture", guessed),
    "the windows ignore the choice": rechosen("windows", first_always),
    "the picture ignores the choice": rechosen("picture", first_always),
    "co-pol low p02": tamed(lambda s, low, high: (s.p02, high), kept),
    "co-pol low max(p02, p05)": tamed(lambda s, low, high: (max(s.p02, s.p05), high), kept),
    "co-pol low p05": tamed(lambda s, low, high: (s.p05, high), kept),
    "co-pol low p01": tamed(lambda s, low, high: (s.p01, high), kept),
    "co-pol low p25": tamed(lambda s, low, high: (s.p25, high), kept),
    "min(p02, p05) for both": tamed(kept, lambda s, low, high: (min(s.p02, s.p05), high)),
    "cross-pol low p02": tamed(kept, lambda s, low, high: (s.p02, high)),
    "cross-pol low max(p02, p05)": tamed(kept, lambda s, low, high: (max(s.p02, s.p05), high)),
    "cross-pol low p10": tamed(kept, lambda s, low, high: (s.p10, high)),
    "cross-pol low p25": tamed(kept, lambda s, low, high: (s.p25, high)),
    "co-pol high p98": tamed(lambda s, low, high: (low, s.p98), kept),
    "cross-pol high p98": tamed(kept, lambda s, low, high: (low, s.p98)),
    "cross-pol high max": tamed(kept, lambda s, low, high: (low, s.max)),
    "co-pol range from p05": after("tamed_window", lambda r, first, s: r._replace(range=max(r.high - s.p05, 1.0)), g),
    "cross-pol range not at least 1": after("tamed_window", lambda r, first, s: r if first else r._replace(range=(r.high - r.low) or 1.0), g),
    "cross-pol gamma 0.9": after("tamed_window", lambda r, first, s: r if first else r._replace(gamma=0.9), g),
}

# What the choice may not touch, and the order of greys, colours and windows.

def elsewhere(strategy):
    """The choice sets Tamed's windows for another strategy too, and so its greys before the stretch."""
    def wrong(r, given, copol, rows, cols, number, band, statistics):
        if given != strategy or not g.valid(band):
            return r
        return g.stretch(g.values(band, g.tamed_window(f02.is_copol(number, copol), statistics(band)), 255))
    return after("grey", wrong)

def recoloured(change):
    """Colours of greys changed by change(greys, copol)."""
    return of("in_colour_order", change)

def colours_of_choice_1(r, strategy, mode, copol, rows, cols, bands, lengths, work, statistics, compose):
    """Greys by the choice, colours by the fixed one."""
    return r if r.reply else r._replace(colours=true[f02, "picture"](
        strategy, mode, BAND1, rows, cols, bands, lengths, work, statistics, compose).colours)

def default_composition(r, strategy, mode, copol, rows, cols, bands, lengths, work, statistics, compose):
    """With choice 2 colours are those of the default composition."""
    return r._replace(colours=compose(g.DEFAULT, mode, r.greys)) if r.reply == 0 and copol == BAND2 else r

def exchanged(when):
    """The two grey outputs exchanged where when(strategy, copol) says so, the colours not."""
    return after("picture", lambda r, strategy, mode, copol, *_: r._replace(greys=r.greys[::-1]) if r.reply == 0 and when(strategy, copol) else r)

def rewindowed(change):
    """Done windows changed by change(windows, copol, bands)."""
    return after("windows", lambda r, strategy, copol, rows, cols, bands, _: change(r, copol, bands) if r.reply == 0 else r)

def turned(floats):
    """The floats of band 2, then those of band 1."""
    return floats[4:] + floats[:4]

ORDER_FAULTS = {
    "the choice acts on Default's greys": elsewhere(g.DEFAULT),
    "the choice acts on Robust's greys": elsewhere(g.ROBUST),
    "the choice acts on Standard's greys": elsewhere(g.STANDARD),
    "the choice acts on all windows": of("window", lambda strategy, number, copol, s: g.tamed_window(f02.is_copol(number, copol), s)),
    "the choice acts on Equalized's windows": after("window", lambda r, strategy, number, copol, s:
                                                   g.tamed_window(number == copol, s) if strategy == g.EQUALIZED else r),
    "Clahe as Equalized with choice 2": after("grey", lambda r, strategy, copol, rows, cols, number, band, statistics: g.grey(
        g.EQUALIZED, rows, cols, band, 8, statistics) if (strategy, copol) == (g.CLAHE, BAND2) else r),
    "Tamed stretched with choice 2": after("grey", lambda r, strategy, copol, *_: g.stretch(r) if (strategy, copol) == (g.TAMED, BAND2) else r),
    "Tamed by the grey call": of("grey", lambda strategy, copol, rows, cols, number, band, statistics:
                                 g.grey(strategy, rows, cols, band, 8, statistics)),
    "greys exchanged with choice 2": exchanged(lambda strategy, copol: copol == BAND2),
    "greys exchanged with choice 2 under Tamed": exchanged(lambda strategy, copol: (strategy, copol) == (g.TAMED, BAND2)),
    "greys exchanged with choice 2 outside Tamed": exchanged(lambda strategy, copol: strategy != g.TAMED and copol == BAND2),
    "greys exchanged": exchanged(lambda strategy, copol: True),
    "red is the co-pol band's": recoloured(lambda greys, copol: greys[::-1] if copol == BAND2 else greys),
    "red is the cross-pol band's": recoloured(lambda greys, copol: greys[::-1] if copol == BAND1 else greys),
    "red is band 2's": recoloured(lambda greys, copol: greys[::-1]),
    "both colours of the co-pol band": recoloured(lambda greys, copol: [greys[copol - 1]] * 2),
    "colours of choice 1": after("picture", colours_of_choice_1),
    "the default composition with choice 2": after("picture", default_composition),
    "the last pixel of the cross-pol band": after("grey", lambda r, strategy, copol, rows, cols, number, *_:
                                                  r[:-1] + [x ^ 1 for x in r[-1:]] if number != copol else r),
    "invalid pixels of the cross-pol band painted": after("grey", lambda r, strategy, copol, rows, cols, number, band, _: [
        x if mark else 1 for x, mark in zip(r, band.marks)] if number != copol else r),
    "windows exchanged": rewindowed(lambda r, copol, bands: r._replace(floats=turned(r.floats))),
    "windows in the order co-pol, cross-pol": rewindowed(lambda r, copol, bands: r._replace(floats=turned(r.floats)) if copol == BAND2 else r),
    "blanks in the order co-pol, cross-pol": rewindowed(lambda r, copol, bands: r._replace(blank=r.blank[::-1]) if copol == BAND2 else r),
    "blank if either is": rewindowed(lambda r, copol, bands: r._replace(blank=[max(r.blank)] * 2)),
    "blank if both are": rewindowed(lambda r, copol, bands: r._replace(blank=[min(r.blank)] * 2)),
    "floats 0 if either is blank": rewindowed(lambda r, copol, bands: r._replace(floats=[0.0] * 8) if any(r.blank) else r),
    "the blank window has a range": of("window_floats", lambda strategy, number, copol, band, statistics: true[f02, "window_floats"](
        strategy, number, copol, band, statistics) if g.valid(band) else [0.0, 0.0, 1.0, 1.0]),
    "the blank window is -0": of("window_floats", lambda strategy, number, copol, band, statistics: true[f02, "window_floats"](
        strategy, number, copol, band, statistics) if g.valid(band) else [-0.0] * 4),
    "Tamed's windows by the window call": of("window", lambda strategy, number, copol, s: g.window(strategy, s)),
    "the old call as choice 2": of("old_picture", lambda strategy, mode, *given: f02.picture(strategy, mode, BAND2, *given)),
    "the old call's red is band 2's": of("old_picture", lambda *given: true[f02, "old_picture"](
        *given[:-1], lambda strategy, mode, greys: given[-1](strategy, mode, greys[::-1]))),
    "the old call by the window call": of("old_picture", lambda strategy, mode, rows, cols, bands, lengths, work, statistics, compose: (
        lambda r: r if r.reply or strategy != g.TAMED else r._replace(greys=[g.grey(strategy, rows, cols, band, 8, statistics) for band in bands]))(
            true[f02, "old_picture"](strategy, mode, rows, cols, bands, lengths, work, statistics, compose))),
}

# Replies.

def without_choice(strategy, mode, copol, *given):
    """The reply of a picture if its choice named a band."""
    return true[f02, "reply"](strategy, mode, BAND1, *given)

def replied(change):
    """The picture's reply changed by change(reply, *arguments of the reply)."""
    def wrong(strategy, mode, copol, rows, cols, bands, lengths, work, *given):
        r = true[f02, "picture"](strategy, mode, copol, rows, cols, bands, lengths, work, *given)
        return r._replace(reply=change(r.reply, strategy, mode, copol, rows, cols, bands, lengths, work))
    return of("picture", wrong)

def replied_windows(change):
    """The reply of the windows changed by change(reply, strategy, copol, rows, cols, bands)."""
    return after("windows", lambda r, *given: r._replace(reply=change(r.reply, *given[:5])))

def ahead(number):
    """A choice that names nothing is refused by the number, where it applies."""
    return replied(lambda r, *given: number if not f02.names_band(given[2]) and without_choice(*given) == number else r)

def ahead_windows(number):
    """The same in the windows."""
    return replied_windows(lambda r, strategy, copol, *given: number if not f02.names_band(copol) and true[f02, "reply_of_windows"](
        strategy, BAND1, *given) == number else r)

def accepted(codes):
    """Codes that name nothing and are taken for the choice 1."""
    return replied(lambda r, strategy, mode, copol, *given: without_choice(strategy, mode, copol, *given) if copol in codes else r)

def accepted_windows(codes):
    """The same in the windows."""
    return replied_windows(lambda r, strategy, copol, *given:
                           true[f02, "reply_of_windows"](strategy, BAND1, *given) if copol in codes else r)

def alone(bands, copol, judge):
    """Whether the co-pol band by itself is refused."""
    return judge([bands[copol - 1]])

def copol_alone(r, strategy, mode, copol, rows, cols, bands, *_):
    """3 and 4 are judged of the co-pol band alone."""
    return 0 if r in (3, 4) and not alone(bands, copol, g.refused_marks) and not alone(bands, copol, g.refused_decibels) else r

def copol_first(r, strategy, mode, copol, rows, cols, bands, *_):
    """The co-pol band is judged before the other, so that its 4 precedes the other's 3."""
    return 4 if r == 3 and not alone(bands, copol, g.refused_marks) and alone(bands, copol, g.refused_decibels) else r

def narrow_copol(r, strategy, mode, copol, rows, cols, bands, *_):
    """5 is judged of the co-pol band alone."""
    return 0 if r == 5 and not g.valid(bands[copol - 1]) else r

REPLY_FAULTS = {
    **{f"no refusal {number}": replied(lambda r, *_, number=number: 0 if r == number else r) for number in (1, 2, 3, 4, 5, 255)},
    **{f"windows, no refusal {number}": replied_windows(lambda r, *_, number=number: 0 if r == number else r) for number in (1, 2, 3, 4, 255)},
    **{f"{number} before the choice's 255": ahead(number) for number in (1, 2, 3, 4, 5)},
    "done before the choice's 255": ahead(0),
    **{f"windows, {number} before the choice's 255": ahead_windows(number) for number in (1, 2, 3, 4)},
    "code 0 accepted": accepted([0]), "code 3 accepted": accepted([3]), "code 255 accepted": accepted([255]),
    "codes by their last two bits": accepted([5, 129]),
    "windows, code 0 accepted": accepted_windows([0]), "windows, code 3 accepted": accepted_windows([3]),
    "windows, code 255 accepted": accepted_windows([255]),
    "255 under Tamed alone": replied(lambda r, strategy, *given: without_choice(strategy, *given) if strategy != g.TAMED else r),
    "windows, 255 under Tamed alone": replied_windows(lambda r, strategy, copol, *given: true[f02, "reply_of_windows"](
        strategy, BAND1, *given) if strategy != g.TAMED else r),
    "the choice decides whose marks and decibels are judged": replied(copol_alone),
    "the choice decides who is judged first": replied(copol_first),
    "the choice decides who is judged by 5": replied(narrow_copol),
    "windows of band 1 alone judged": replied_windows(lambda r, strategy, copol, rows, cols, bands:
                                                      r and (r if r == 255 else g.reply_of_window(strategy, rows, cols, bands[0]))),
    "windows refused by the greater number": replied_windows(lambda r, strategy, copol, rows, cols, bands: r and max(
        r, *(g.reply_of_window(strategy, rows, cols, band) for band in bands))),
    "windows refused by 5": replied_windows(lambda r, strategy, copol, rows, cols, bands:
                                            r or 5 * g.refused_clahe(strategy, rows, cols, bands)),
    "dB under 0 marks judged": replied(lambda r, strategy, mode, copol, rows, cols, bands, *_:
                                       r or 4 * any(v != v for band in bands for v in band.db)),
    "windows, dB under 0 marks judged": replied_windows(lambda r, strategy, copol, rows, cols, bands:
                                                        r or 4 * any(v != v for band in bands for v in band.db)),
    "5 for blank bands": replied(lambda r, strategy, mode, copol, rows, cols, *_:
                                 r or 5 * (strategy == g.CLAHE and (g.narrow(rows) or g.narrow(cols)))),
    "work judged under Tamed": replied(lambda r, strategy, mode, copol, rows, cols, bands, lengths, work:
                                       r or 2 * (strategy == g.TAMED and work != g.CLAHE_WORK)),
    "6 for gammas": replied(lambda r, strategy, *_: r or 6 * (strategy == g.STANDARD)),
}
WRITING_FAULTS = {     # the fault: the call, when it happens (strategy, reply), the argument and the element it spoils
    "grey 1 written at 255": ("picture_copol", lambda strategy, reply: reply == 255, 13, 0),
    "grey 2 written at 3": ("picture_copol", lambda strategy, reply: reply == 3, 15, 0),
    "a colour written at 4": ("picture_copol", lambda strategy, reply: reply == 4, 17, 2),
    "a colour written at 5": ("picture_copol", lambda strategy, reply: reply == 5, 17, 0),
    "work written at 2": ("picture_copol", lambda strategy, reply: reply == 2, 19, 0),
    "work written under Tamed": ("picture_copol", lambda strategy, reply: reply == 0 and strategy == g.TAMED, 19, 0),
    "the element behind Clahe's work": ("picture_copol", lambda strategy, reply: reply == 0 and strategy == g.CLAHE, 19, "end"),
    "the element behind grey 1": ("picture_copol", lambda strategy, reply: reply == 0, 13, "end"),
    "the element before grey 2": ("picture_copol", lambda strategy, reply: reply == 0, 15, -1),
    "the element behind the colours": ("picture_copol", lambda strategy, reply: reply == 0, 17, "end"),
    "a wrong colour": ("picture_copol", lambda strategy, reply: reply == 0, 17, 1),
    "dB of band 2 written": ("picture_copol", lambda strategy, reply: reply == 0, 9, 0),
    "a mark of band 1 written at 255": ("picture_copol", lambda strategy, reply: reply == 255, 7, 0),
    "blank written at 255": ("picture_windows", lambda strategy, reply: reply == 255, 12, 0),
    "blank of band 2 written at 3": ("picture_windows", lambda strategy, reply: reply == 3, 12, 1),
    "a float written at 4": ("picture_windows", lambda strategy, reply: reply == 4, 13, 7),
    "a float written at 1": ("picture_windows", lambda strategy, reply: reply == 1, 13, 0),
    "the element behind the blanks": ("picture_windows", lambda strategy, reply: reply == 0, 12, 2),
    "the element behind the floats": ("picture_windows", lambda strategy, reply: reply == 0, 13, 8),
    "the element before the floats": ("picture_windows", lambda strategy, reply: reply == 0, 13, -1),
    "a mark of band 2 written by the windows": ("picture_windows", lambda strategy, reply: reply == 0, 10, 0),
    "the old call's grey 2 written at 2": ("picture", lambda strategy, reply: reply == 2, 14, 0),
    "the old call's colour written at 4": ("picture", lambda strategy, reply: reply == 4, 16, 0),
    "the element before the old call's grey 1": ("picture", lambda strategy, reply: reply == 0, 12, -1),
}
PLAYED_FAULTS = {      # for the laws: faults that are told by the calls' own answers
    "a dip": after("product", lambda r, t, top: r - 20 * (r == 128), g),
    "darker with more dB": after("product", lambda r, t, top: top - r, g),
    "the first pixel is brighter": after("grey", lambda r, *_: [min(r[0] + 1, 255), *r[1:]] if r else r),
    "invalid pixels painted": (g, "values", lambda band, *given: true[g, "values"](g.Band(band.db, [int(v == v) for v in band.db]), *given)),
    "windows of the first pixel": rewindowed(lambda r, copol, bands: r._replace(floats=[
        bands[0].db[0], *r.floats[1:]]) if not r.blank[0] and bands[0].marks[0] else r),
}
LAW_FAULTS = {         # the law: the faults that it must see by itself
    "law_choice": ["the choice acts on Default's greys", "the choice acts on Standard's greys", "the choice acts on all windows",
                   "the choice acts on Equalized's windows", "greys exchanged with choice 2 outside Tamed", "Clahe as Equalized with choice 2",
                   "red is the co-pol band's", "the choice decides who is judged first", "the choice decides who is judged by 5",
                   "the choice decides whose marks and decibels are judged", "blanks in the order co-pol, cross-pol"],
    "law_unnamed": ["code 0 accepted", "code 3 accepted", "code 255 accepted", "windows, code 0 accepted", "255 under Tamed alone",
                    "windows, 255 under Tamed alone", *[f"{number} before the choice's 255" for number in (1, 2, 3, 4, 5)],
                    *[f"windows, {number} before the choice's 255" for number in (1, 2, 3, 4)]],
    "law_swap": ["the choice ignored", "choice 2 makes both cross-pol", "choice 2 makes both co-pol", "greys exchanged with choice 2",
                 "greys exchanged with choice 2 under Tamed", "the picture ignores the choice", "Tamed stretched with choice 2"],
    "law_windows_swap": ["the choice ignored", "the windows ignore the choice", "windows in the order co-pol, cross-pol",
                         "blanks in the order co-pol, cross-pol", "windows of band 1 alone judged"],
    "law_old": ["the old call as choice 2", "the old call's red is band 2's", "the old call by the window call"],
    "law_window": ["the choice acts on all windows", "windows exchanged", "windows refused by 5", "cross-pol high p98", "blank if either is",
                   "windows refused by the greater number", "the blank window has a range", "the blank window is -0"],
    "law_tamed": ["the choice reversed", "cross-pol high max", "co-pol low p02", "co-pol low max(p02, p05)", "cross-pol range not at least 1",
                  "co-pol range from p05", "cross-pol gamma 0.9", "windows exchanged"],
    "law_own": ["a lone band is co-pol in pictures", "a lone band is co-pol in windows", "floats 0 if either is blank"],
    "law_colours": ["red is the co-pol band's", "red is band 2's", "both colours of the co-pol band", "colours of choice 1",
                    "the default composition with choice 2"],
    "law_chain": ["the choice acts on Robust's greys", "Clahe as Equalized with choice 2", "greys exchanged"],
    "law_order": ["a dip", "darker with more dB"],
    "law_blank": ["invalid pixels of the cross-pol band painted", "invalid pixels painted"],
    "law_alter": ["dB under 0 marks judged", "windows, dB under 0 marks judged", "invalid pixels painted", "the choice guessed from the pixels"],
    "law_reorder": ["the choice guessed from the pixels", "the first pixel is brighter", "windows of the first pixel"],
}

class Spoilt:
    """The library with one fault of writing."""
    def __init__(self, library, name, when, argument, element):
        def spoil(*given):
            reply = getattr(library, f"quicklook_{name}")(*given)
            if when(given[0], reply):
                at = given[argument + 1] if element == "end" else element
                given[argument][at] = 201 if given[argument][at] != 201 else 202
            return reply
        self.library = library
        setattr(self, f"quicklook_{name}", spoil)

    def __getattr__(self, name):
        return getattr(self.library, name)

class Played:
    """The library with the answers of the reference, in which a fault is planted, for the three calls."""
    def __init__(self, library):
        self.library = library

    def __getattr__(self, name):
        return getattr(self.library, name)

    def picture(self, call, codes, rows, cols, *given):
        """A picture call, with the library's composition."""
        bands = [g.Band(db[:n], marks[:k]) for db, n, marks, k in (given[:4], given[4:8])]
        outputs = given[8:14:2]
        answer = call(*codes, rows, cols, bands, given[9:15:2], given[15], lambda band: check.ask_statistics(self.library, rows, cols, band),
                      lambda *colours: check.ask_compose(self.library, *colours))
        for out, held in zip(outputs, [*answer.greys, answer.colours] if answer.reply == 0 and answer.greys is not None else ()):
            for i, x in enumerate(held):
                out[i] = x
        return answer.reply

    def quicklook_picture_copol(self, strategy, mode, copol, *given):
        """The picture call told which band is co-pol."""
        return self.picture(f02.picture, (strategy, mode, copol), *given)

    def quicklook_picture(self, strategy, mode, *given):
        """The old picture call."""
        return self.picture(f02.old_picture, (strategy, mode), *given)

    def quicklook_picture_windows(self, strategy, copol, rows, cols, *given):
        """The windows call."""
        bands = [g.Band(db[:n], marks[:k]) for db, n, marks, k in (given[:4], given[4:8])]
        answer = f02.windows(strategy, copol, rows, cols, bands, lambda band: check.ask_statistics(self.library, rows, cols, band))
        for out, held in zip(given[8:], (answer.blank, answer.floats) if answer.reply == 0 and answer.blank is not None else ()):
            for i, x in enumerate(held):
                out[i] = x
        return answer.reply

def without_laws(library, cases):
    """What the comparison with the reference finds, and the guards, without a law."""
    laws, check.LAWS = check.LAWS, []
    found = check.run(library, cases, "1")
    check.LAWS = laws
    return found

def by_law(library, law, cases):
    """What one law finds by itself, without the comparison with the reference."""
    laws, check.LAWS = check.LAWS, [one for one in check.LAWS if one.__name__ == law]
    found = check.run(library, cases, "1", comparing=False)
    check.LAWS = laws
    return found

def cases_for(fault):
    """Faults of replies and of writing are told by damaged calls and by Clahe's."""
    return REFUSED if fault in REPLY_FAULTS | WRITING_FAULTS else USUAL

def planted(fault, look):
    """What is found with the fault in the reference, which is put right again."""
    module, name, wrong = fault
    setattr(module, name, wrong)
    found = look()
    setattr(module, name, true[module, name])
    return found

def remember(library):
    """All runs have the same cases, made once."""
    cases, make = {}, check.made
    def made(_, rng, case):
        if case not in cases:
            cases[case] = make(library, rng, case)
        return cases[case]
    check.made = made

def main(library):
    """Every fault by itself, and none."""
    remember(library)
    caught = {("no fault", "all"): check.run(library, sorted({*USUAL, *REFUSED}), "1"),
              ("no fault", "played"): check.run(Played(library), USUAL[:40], "1")}
    controls, comparison = len(caught), CHOICE_FAULTS | ORDER_FAULTS | REPLY_FAULTS
    for fault, wrong in comparison.items():
        caught[fault, "comparison"] = planted(wrong, lambda: without_laws(library, cases_for(fault)))
    for fault, spoilt in WRITING_FAULTS.items():
        caught[fault, "guards and lists"] = without_laws(Spoilt(library, *spoilt), cases_for(fault))
    for law, faults in LAW_FAULTS.items():
        for fault in faults:
            caught[fault, law] = planted((comparison | PLAYED_FAULTS)[fault], lambda: by_law(Played(library), law, cases_for(fault)))
    for (fault, by), found in caught.items():
        print(f"caught by {by}: {fault}: {found.splitlines()[0][:120]}" if found else f"nothing found by {by}: {fault}")
    missed = [pair for pair, found in caught.items() if (found is None) != (pair[0] == "no fault")]
    number = len(comparison | WRITING_FAULTS | PLAYED_FAULTS)
    print(f"{number} faults, {len(caught) - controls} runs with one, missed or found without a fault: {missed or 'none'}")
    return bool(missed)

if __name__ == "__main__":
    sys.exit(main(check.load(sys.argv[1])))
