"""Clahe by document 01, for the strategy that F-1 leaves alone: 8 by 8 tiles, 256 bins, limit 2.0, in binary64 as its Rust has the steps."""
from math import floor

TILES, BINS = 8, 256

def nearest(x):
    """"round goes half away from zero", here of numbers from 0 on below 2^52."""
    whole = floor(x)
    return whole + (x - whole >= 0.5)

def tile_sums(rows, cols, norm, marks, side_r, side_c, tr, tc):
    """The running sums of one tile over max(total, 1)."""
    top, left, counts = tr * side_r, tc * side_c, [0] * BINS
    bottom, right = min(top + side_r, rows), min(left + side_c, cols)
    for r in range(top, bottom):
        for i in range(r * cols + left, r * cols + right):
            if marks[i]:
                counts[nearest(min(max(norm[i], 0.0), 1.0) * 255.0)] += 1
    threshold, excess = max((bottom - top) * (right - left) / 128.0, 1.0), 0.0
    for i, count in enumerate(counts):
        if count > threshold:
            excess += count - threshold
            counts[i] = int(threshold)
    each = floor(excess / BINS)
    counts = [count + each for count in counts]
    for i in range(nearest(excess - each * 256.0)):
        counts[i % BINS] += 1
    total, running, sums = max(float(sum(counts)), 1.0), 0.0, []
    for count in counts:
        running += count
        sums.append(running / total)
    return sums

def place(at, side):
    """The tile index, the next one and the weight of a row or a column."""
    f = at / side - 0.5
    index = max(floor(f), 0)
    return min(index, TILES - 1), min(index + 1, TILES - 1), f - index

def equalize(rows, cols, norm, marks):
    """The sample of each valid pixel between its four tiles, held to 0..1; 0.0 where invalid."""
    side_r, side_c = -(-rows // TILES), -(-cols // TILES)
    sums = [[tile_sums(rows, cols, norm, marks, side_r, side_c, tr, tc) for tc in range(TILES)] for tr in range(TILES)]
    columns, out = [place(col, side_c) for col in range(cols)], []
    for row in range(rows):
        r0, r1, dy = place(row, side_r)
        for col, (c0, c1, dx) in enumerate(columns):
            i = row * cols + col
            if not marks[i]:
                out.append(0.0)
                continue
            b = nearest(min(max(norm[i], 0.0), 1.0) * 255.0)
            top = sums[r0][c0][b] * (1.0 - dx) + sums[r0][c1][b] * dx
            bottom = sums[r1][c0][b] * (1.0 - dx) + sums[r1][c1][b] * dx
            out.append(min(max(top * (1.0 - dy) + bottom * dy, 0.0), 1.0))
    return out
