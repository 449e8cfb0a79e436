"""Reference for F-2: the picture call told which band is co-pol, the old picture call, and the call for a picture's two windows.

Words in quotation marks are document 02's F-2, its reading, or document 01's. Windows, values, the stretch and the table of replies are those of
F-1's reference. The statistics of a band and the composition of two greys are handed in; of colours nothing is claimed but that they are composed
of the two greys in their order."""
import os
import sys
from collections import namedtuple

F_01 = os.path.join(os.path.dirname(os.path.abspath(__file__)), os.pardir, "F-01")
sys.path.append(F_01)
import gamma as g

BAND1, BAND2 = 1, 2                              # "Which of two bands is co-pol: its number."
UNNAMED = 255

Picture = namedtuple("Picture", "reply greys colours")
Windows = namedtuple("Windows", "reply blank floats")

# The choice.

def names_band(copol):
    """Whether the choice names one of the two bands."""
    return copol in (BAND1, BAND2)

def is_copol(number, copol):
    """"The picture call is told which band is co-pol". "Exactly one band is co-pol": the other is cross-pol."""
    return number == copol

# The two windows.

def window(strategy, number, copol, s):
    """The window that a band with a valid pixel is painted with. The choice "sets Tamed's two windows and nothing else": "low min(p02, p05)
    co-pol or p05 cross-pol, high p99". All others have the window of the window call."""
    return g.tamed_window(is_copol(number, copol), s) if strategy == g.TAMED else g.window(strategy, s)

def window_floats(strategy, number, copol, band, statistics):
    """"floats are low, high, range, gamma of band 1, then of band 2, zeros of a blank one"."""
    return list(window(strategy, number, copol, statistics(band))) if g.valid(band) else [0.0] * 4

def is_blank(band):
    """"A window is blank exactly if no refusal applies and no mark is 1"; each band has its own."""
    return int(not g.valid(band))

# Replies. "Outside Tamed the choice moves nothing, and it moves no refusal."

def reply_of_windows(strategy, copol, rows, cols, bands):
    """"The smallest number that applies to any band", of 1 to 4; a choice or a strategy that names nothing comes before all of them."""
    if not names_band(copol):
        return UNNAMED
    return min(filter(None, (g.reply_of_window(strategy, rows, cols, band) for band in bands)), default=0)

def reply(strategy, mode, copol, rows, cols, bands, lengths, work):
    """The reply of a picture: F-1's, which is never 6, and before it 255 for a choice that names nothing. "two lent grey outputs, then colours"."""
    if not names_band(copol):
        return UNNAMED
    return g.reply(strategy, mode, rows, cols, bands, list(zip(lengths, (1, 1, 3))), work, 8, None)

# Greys and colours, of accepted bands.

def grey(strategy, copol, rows, cols, number, band, statistics):
    """The greys of one band. Under Tamed its window is that of its own polarisation; elsewhere "the choice moves nothing"."""
    return g.picture_grey(strategy, rows, cols, band, is_copol(number, copol), statistics)

def in_colour_order(greys, copol):
    """"red stays band 1's": the greys go to the composition in the order of their bands, whatever the choice."""
    return greys

# The calls.

def picture(strategy, mode, copol, rows, cols, bands, lengths, work, statistics, compose):
    """"The picture call is told which band is co-pol". Refused, it has neither greys nor colours."""
    refusal = reply(strategy, mode, copol, rows, cols, bands, lengths, work)
    if refusal:
        return Picture(refusal, None, None)
    greys = [grey(strategy, copol, rows, cols, number, band, statistics) for number, band in enumerate(bands, 1)]
    return Picture(0, greys, compose(strategy, mode, in_colour_order(greys, copol)))

def old_picture(strategy, mode, rows, cols, bands, lengths, work, statistics, compose):
    """"Document 01's fixed choice becomes the reading of the old call": "band 1 counts as co-pol"."""
    return picture(strategy, mode, BAND1, rows, cols, bands, lengths, work, statistics, compose)

def windows(strategy, copol, rows, cols, bands, statistics):
    """"The windows that the picture of two bands is painted with". Refused, it has none."""
    refusal = reply_of_windows(strategy, copol, rows, cols, bands)
    if refusal:
        return Windows(refusal, None, None)
    floats = [window_floats(strategy, number, copol, band, statistics) for number, band in enumerate(bands, 1)]
    return Windows(0, [is_blank(band) for band in bands], [x for four in floats for x in four])
