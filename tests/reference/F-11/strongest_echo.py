"""Reference for F-11: the row and the column of the first valid maximum of one band, behind the three whole numbers of F-6."""
import os
import sys
from fractions import Fraction

F_06 = os.path.join(os.path.dirname(os.path.abspath(__file__)), os.pardir, "F-06")
sys.path.append(F_06)
import statistics_and_curve as f06

def places(rows, cols):
    """"A raster has rows, cols and n = rows × cols, row by row." Both count from 0."""
    return [(row, col) for row in range(rows) for col in range(cols)]

def number(v):
    """"Statistics are compared as numbers, so -0 equals 0". A Fraction is the exact number and has no sign of zero."""
    return Fraction(v)

def valid_pixels(rows, cols, db, marks):
    """"Marks are bytes: 1 valid, 0 invalid. Only valid dB is read or checked." Invalid pixels take up their places, whatever they hold."""
    return [(place, number(v)) for place, v, mark in zip(places(rows, cols), db, marks) if mark == 1]

def maxima(valid):
    """"maximum": the places of the valid pixels that no valid pixel is above, in raster order."""
    greatest = max((v for _, v in valid), default=None)
    return [place for place, v in valid if v == greatest]

def first(found):
    """F-11: "the row and column of the first valid maximum, 0 and 0 without one"; reading: "of -0 and 0 the first met"."""
    return found[0] if found else (0, 0)

def place(rows, cols, db, marks):
    """The two numbers that F-11 adds, for an accepted band."""
    return first(maxima(valid_pixels(rows, cols, db, marks)))

def statistics(rows, cols, db, marks):
    """F-11: "The statistics record gains the row and column". Refusals 1 to 4, the first three whole numbers and the floats are those of F-6."""
    answer = f06.statistics(rows, cols, db, marks, f06.Fast)
    return answer if answer.reply else answer._replace(whole=[*answer.whole, *place(rows, cols, db, marks)])
