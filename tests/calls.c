/* The header and the archive from C: every call on a sample of document 01 and on damaged input. Built with AddressSanitizer by
 * tests/run, so that a write outside a lent list ends the run. The last line is 'N passed, M failed'. */
#include "quicklook.h"

#include <math.h>
#include <stdio.h>
#include <stdlib.h>
#include <string.h>

static int passed, failed;

static void check(int right, const char *what) {
    if (right) {
        passed++;
    } else {
        failed++;
        printf("failed: %s\n", what);
    }
}

/* A list on the heap of just its length, so that AddressSanitizer sees one element too many. */
static void *lent(size_t count, size_t width, int fill) {
    unsigned char *list = malloc(count * width > 0 ? count * width : 1);
    memset(list, fill, count * width);
    return list;
}

static int all(const void *list, size_t bytes, int fill) {
    const unsigned char *p = list;
    for (size_t i = 0; i < bytes; i++) {
        if (p[i] != fill) return 0;
    }
    return 1;
}

static float from_bits(uint32_t bits) {
    float value;
    memcpy(&value, &bits, sizeof value);
    return value;
}

static void marks(void) {
    float values[5] = {from_bits(0x3727c5acu), from_bits(0x3727c5adu), NAN, INFINITY, -1.0f};
    uint8_t *out = lent(5, 1, 9);
    check(quicklook_marks(values, 5, out, 5) == 0 && !memcmp(out, "\0\1\0\1\0", 5), "marks");
    memset(out, 9, 5);
    check(quicklook_marks(values, 4, out, 5) == 2 && all(out, 5, 9), "marks of unequal lists");
    check(quicklook_marks(values, 0, out, 0) == 0 && all(out, 5, 9), "marks of an empty list");
    free(out);
}

static void statistics(void) {
    double db[2] = {0.0, 10.0}, floats[QUICKLOOK_STATISTICS_FLOATS];
    uint8_t mask[2] = {1, 1};
    uint64_t whole[QUICKLOOK_STATISTICS_WHOLE];
    check(quicklook_statistics(1, 2, db, 2, mask, 2, whole, floats) == 0 && whole[0] == 2 && whole[1] == 0 && whole[2] == 4095 && whole[3] == 0 &&
              whole[4] == 1 && floats[0] == 0.0 &&
              floats[1] == 10.0 && floats[7] == 0.0 && floats[12] == 9.99755859375,
          "statistics of 0, 10");
    struct { size_t rows, cols, db, mask; int number; const char *what; } bad[] = {
        {4097, 0, 0, 0, 1, "a side above 4,096"}, {0, SIZE_MAX, 0, 0, 1, "a side of SIZE_MAX"}, {1, 2, 1, 2, 2, "one dB short"}, {1, 2, 2, 1, 2, "one mark short"}};
    for (size_t i = 0; i < sizeof bad / sizeof *bad; i++) {
        memset(whole, 0x55, sizeof whole);
        memset(floats, 0x55, sizeof floats);
        int number = quicklook_statistics(bad[i].rows, bad[i].cols, db, bad[i].db, mask, bad[i].mask, whole, floats);
        check(number == bad[i].number && all(whole, sizeof whole, 0x55) && all(floats, sizeof floats, 0x55), bad[i].what);
    }
    mask[1] = 2;
    db[0] = NAN;
    check(quicklook_statistics(1, 2, db, 2, mask, 2, whole, floats) == 3 && all(whole, sizeof whole, 0x55) && all(floats, sizeof floats, 0x55), "a mark of 2 before a NaN");
    mask[1] = 1;
    check(quicklook_statistics(1, 2, db, 2, mask, 2, whole, floats) == 4 && all(whole, sizeof whole, 0x55), "a valid NaN");
    mask[0] = 0;
    check(quicklook_statistics(1, 2, db, 2, mask, 2, whole, floats) == 0 && whole[0] == 1 && whole[1] == 0 && whole[2] == 0 && whole[3] == 0 && whole[4] == 1 && floats[0] == 10.0, "a NaN under a 0 mark");
    mask[1] = 0;
    memset(whole, 0x55, sizeof whole);
    check(quicklook_statistics(1, 2, db, 2, mask, 2, whole, floats) == 0 && all(whole, sizeof whole, 0) && floats[0] == 0.0 && floats[14] == 0.0, "no valid pixel");
    double six[6] = {-3.0, 7.0, -0.0, 0.0, -0.0, 0.0};
    uint8_t six_mask[6] = {1, 0, 1, 1, 1, 1};
    check(quicklook_statistics(3, 2, six, 6, six_mask, 6, whole, floats) == 0 && whole[0] == 5 && whole[3] == 1 && whole[4] == 0, "of equals the first, -0 is 0");
}

static void histogram(void) {
    double db[3] = {0.0, 10.0, NAN};
    uint8_t mask[3] = {1, 1, 0};
    size_t n = QUICKLOOK_BINS;
    uint32_t *counts = lent(n, sizeof *counts, 0x55);
    check(quicklook_histogram(1, 3, db, 3, mask, 3, counts, n) == 0 && counts[0] == 1 && counts[n - 1] == 1 && all(counts + 1, (n - 2) * sizeof *counts, 0), "curve of 0, 10");
    db[1] = 1e-16;
    check(quicklook_histogram(1, 3, db, 3, mask, 3, counts, n) == 0 && counts[0] == 2 && all(counts + 1, (n - 1) * sizeof *counts, 0), "curve of a flat scene");
    struct { size_t rows, cols, db, mask, counts; int number; const char *what; } bad[] = {
        {4097, 0, 0, 0, n - 1, 1, "curve of a side above 4,096"}, {1, 3, 2, 3, n, 2, "curve of one dB short"}, {1, 3, 3, 2, n, 2, "curve of one mark short"},
        {1, 3, 3, 3, n - 1, 2, "a curve one bin short"}, {1, 3, 3, 3, 0, 2, "a curve without bins"}};
    for (size_t i = 0; i < sizeof bad / sizeof *bad; i++) {
        memset(counts, 0x55, n * sizeof *counts);
        int number = quicklook_histogram(bad[i].rows, bad[i].cols, db, bad[i].db, mask, bad[i].mask, counts, bad[i].counts);
        check(number == bad[i].number && all(counts, n * sizeof *counts, 0x55), bad[i].what);
    }
    mask[1] = 2, mask[2] = 1;
    check(quicklook_histogram(1, 3, db, 3, mask, 3, counts, n) == 3 && all(counts, n * sizeof *counts, 0x55), "curve with a mark of 2 before a NaN");
    mask[1] = 1;
    check(quicklook_histogram(1, 3, db, 3, mask, 3, counts, n) == 4 && all(counts, n * sizeof *counts, 0x55), "curve with a valid NaN");
    memset(mask, 0, 3);
    check(quicklook_histogram(1, 3, db, 3, mask, 3, counts, n) == 0 && all(counts, n * sizeof *counts, 0), "curve of no valid pixel");
    free(counts);
}

static void window(void) {
    double db[2] = {0.0, 10.0}, floats[4];
    uint8_t mask[2] = {1, 1}, blank = 9;
    check(quicklook_window(QUICKLOOK_DEFAULT, 1, 2, db, 2, mask, 2, &blank, floats) == 0 && blank == 0 && floats[0] == 0.0 && floats[1] == 9.99755859375 &&
              floats[2] == 9.99755859375 && floats[3] == 1.0,
          "window of 0, 10");
    check(quicklook_window(QUICKLOOK_STANDARD, 1, 2, db, 2, mask, 2, &blank, floats) == 0 && floats[3] == 1.1, "a window of another gamma is an answer");
    memset(mask, 0, 2);
    check(quicklook_window(QUICKLOOK_DEFAULT, 1, 2, db, 2, mask, 2, &blank, floats) == 0 && blank == 1 && floats[0] == 0.0 && floats[3] == 0.0, "a blank window");
    blank = 9;
    memset(floats, 0x55, sizeof floats);
    check(quicklook_window(7, 1, 2, db, 2, mask, 2, &blank, floats) == 255 && blank == 9 && all(floats, sizeof floats, 0x55), "a strategy that names nothing");
    check(quicklook_window(7, 4097, 2, db, 1, mask, 2, &blank, floats) == 255 && blank == 9 && all(floats, sizeof floats, 0x55),
          "a strategy that names nothing, before a side above 4,096");
}

static void grey(void) {
    double db[2] = {0.0, 0.5};
    uint8_t mask[2] = {1, 1};
    uint8_t *out8 = lent(2, 1, 9);
    uint16_t *out16 = lent(2, 2, 9);
    double *work = lent(0, 8, 0);
    check(quicklook_grey_u8(QUICKLOOK_DEFAULT, 1, 2, db, 2, mask, 2, out8, 2, work, 0) == 0 && out8[0] == 0 && out8[1] == 255, "grey 8 of 0, 0.5");
    check(quicklook_grey_u16(QUICKLOOK_DEFAULT, 1, 2, db, 2, mask, 2, out16, 2, work, 0) == 0 && out16[0] == 0 && out16[1] == 32759, "grey 16 of 0, 0.5");
    memset(out8, 9, 2);
    db[1] = 14.0;
    double three[3] = {0.0, 7.0, 14.0};
    uint8_t ones[3] = {1, 1, 1};
    uint8_t *narrow = lent(3, 1, 9);
    check(quicklook_grey_u8(QUICKLOOK_STANDARD, 1, 3, three, 3, ones, 3, narrow, 3, work, 0) == 0 && narrow[0] == 0 && narrow[1] == 118 && narrow[2] == 255,
          "Standard of 0, 7, 14: painted with gamma 1.1 at 8 bits");
    free(narrow);
    memset(out16, 9, 4);
    check(quicklook_grey_u16(QUICKLOOK_STANDARD, 1, 2, db, 2, mask, 2, out16, 2, work, 0) == 6 && all(out16, 4, 9), "Standard of 0, 14: refused at 16 bits");
    db[1] = 15.0;
    check(quicklook_grey_u8(QUICKLOOK_STANDARD, 1, 2, db, 2, mask, 2, out8, 2, work, 0) == 0, "Standard of 0, 15");
    memset(out8, 9, 2);
    check(quicklook_grey_u8(QUICKLOOK_CLAHE, 1, 2, db, 2, mask, 2, out8, 2, work, 0) == 2 && all(out8, 2, 9), "Clahe without its work");
    double *tiles = lent(QUICKLOOK_CLAHE_WORK, 8, 0x55);
    check(quicklook_grey_u8(QUICKLOOK_CLAHE, 1, 2, db, 2, mask, 2, out8, 2, tiles, QUICKLOOK_CLAHE_WORK) == 5 && all(out8, 2, 9) &&
              all(tiles, QUICKLOOK_CLAHE_WORK * 8, 0x55),
          "Clahe on a side of 1");
    memset(mask, 0, 2);
    check(quicklook_grey_u8(QUICKLOOK_CLAHE, 1, 2, db, 2, mask, 2, out8, 2, tiles, QUICKLOOK_CLAHE_WORK) == 0 && out8[0] == 0 && out8[1] == 0, "a blank band");
    double *scene = lent(49, 8, 0);
    uint8_t *valid = lent(49, 1, 1), *greys = lent(49, 1, 9);
    for (int i = 0; i < 49; i++) scene[i] = i * 0.5;
    check(quicklook_grey_u8(QUICKLOOK_CLAHE, 7, 7, scene, 49, valid, 49, greys, 49, tiles, QUICKLOOK_CLAHE_WORK) == 0, "Clahe on 7 by 7");
    free(out8), free(out16), free(work), free(tiles), free(scene), free(valid), free(greys);
}

static void picture(void) {
    double db[2] = {0.0, 10.0};
    uint8_t mask[2] = {1, 1};
    uint8_t *grey1 = lent(2, 1, 9), *grey2 = lent(2, 1, 9), *rgb = lent(6, 1, 9);
    double *work = lent(3, 8, 0x55);
    check(quicklook_picture(QUICKLOOK_DEFAULT, QUICKLOOK_MODE_ENHANCED, 1, 2, db, 2, mask, 2, db, 2, mask, 2, grey1, 2, grey2, 2, rgb, 6, work, 3) == 0 &&
              !memcmp(grey1, "\0\377", 2) && !memcmp(grey2, "\0\377", 2) && !memcmp(rgb, "\0\0\0\377\377\75", 6) && all(work, 24, 0x55),
          "picture of 0, 10, one list lent as both bands");
    memset(grey1, 9, 2), memset(grey2, 9, 2), memset(rgb, 9, 6);
    check(quicklook_picture(QUICKLOOK_DEFAULT, 4, 1, 2, db, 2, mask, 2, db, 2, mask, 2, grey1, 2, grey2, 2, rgb, 6, work, 3) == 255 && all(rgb, 6, 9), "a mode that names nothing");
    check(quicklook_picture(QUICKLOOK_DEFAULT, 4, 4097, 2, db, 1, mask, 2, db, 2, mask, 2, grey1, 2, grey2, 2, rgb, 5, work, 3) == 255 && all(rgb, 6, 9) && all(grey1, 2, 9),
          "a mode that names nothing, before a side above 4,096");
    check(quicklook_picture(QUICKLOOK_DEFAULT, 0, 1, 2, db, 2, mask, 2, db, 2, mask, 2, grey1, 2, grey2, 2, rgb, 5, work, 3) == 2 && all(rgb, 6, 9) && all(grey1, 2, 9),
          "colours that are too short");
    check(quicklook_picture(QUICKLOOK_STANDARD, 0, 1, 2, db, 2, mask, 2, db, 2, mask, 2, grey1, 2, grey2, 2, rgb, 6, work, 3) == 0 && grey1[0] == 0 && grey2[1] == 255,
          "Standard's gamma 1.1 is painted");
    free(grey1), free(grey2), free(rgb), free(work);
}

/* Two bands of 100 pixels, and what their picture and its windows are written to. */
struct two {
    double *db[2], *work, *floats;
    uint8_t *mask[2], *grey[2], *rgb, *blank;
};

static struct two two_bands(void) {
    struct two t = {.work = lent(3, 8, 0x55), .floats = lent(8, 8, 0x55), .rgb = lent(300, 1, 9), .blank = lent(2, 1, 9)};
    for (int k = 0; k < 2; k++) {
        t.db[k] = lent(100, 8, 0), t.mask[k] = lent(100, 1, 1), t.grey[k] = lent(100, 1, 9);
        for (int i = 0; i < 100; i++) t.db[k][i] = k == 0 ? i : 300.0 - 3.0 * i;
    }
    return t;
}

static void free_two(struct two t) {
    for (int k = 0; k < 2; k++) free(t.db[k]), free(t.mask[k]), free(t.grey[k]);
    free(t.work), free(t.floats), free(t.rgb), free(t.blank);
}

static int paint(struct two t, int strategy, int mode, int copol, size_t rows, size_t cols) {
    return quicklook_picture_copol(strategy, mode, copol, rows, cols, t.db[0], 100, t.mask[0], 100, t.db[1], 100, t.mask[1], 100, t.grey[0], 100,
                                   t.grey[1], 100, t.rgb, 300, t.work, 3);
}

static int unpainted(struct two t) {
    return all(t.grey[0], 100, 9) && all(t.grey[1], 100, 9) && all(t.rgb, 300, 9) && all(t.work, 24, 0x55);
}

static int ask_windows(struct two t, int strategy, int copol, size_t rows, size_t cols) {
    return quicklook_picture_windows(strategy, copol, rows, cols, t.db[0], 100, t.mask[0], 100, t.db[1], 100, t.mask[1], 100, t.blank, t.floats);
}

static int unanswered(struct two t) {
    return all(t.blank, 2, 9) && all(t.floats, 64, 0x55);
}

/* The grey of a decibel in a Tamed picture. */
static uint8_t tamed(double v, double low, double high) {
    return (uint8_t)(((v < low ? low : v > high ? high : v) - low) / (high - low) * 255.0);
}

static void tamed_picture(void) {
    struct two t = two_bands();
    double p02[2], p05[2], p99[2];
    for (int k = 0; k < 2; k++) {
        uint64_t whole[QUICKLOOK_STATISTICS_WHOLE];
        double s[QUICKLOOK_STATISTICS_FLOATS];
        quicklook_statistics(10, 10, t.db[k], 100, t.mask[k], 100, whole, s);
        p02[k] = s[6], p05[k] = s[7], p99[k] = s[14];
        check(p02[k] < p05[k], "p02 and p05 apart");
    }
    uint8_t greys[2][2][100];
    for (int copol = QUICKLOOK_COPOL_BAND1; copol <= QUICKLOOK_COPOL_BAND2; copol++) {
        check(ask_windows(t, QUICKLOOK_TAMED, copol, 10, 10) == 0 && all(t.blank, 2, 0), "windows of a Tamed picture");
        check(paint(t, QUICKLOOK_TAMED, QUICKLOOK_MODE_SAR_URBAN, copol, 10, 10) == 0 && all(t.work, 24, 0x55), "a Tamed picture");
        for (int k = 0; k < 2; k++) {
            double low = copol == k + 1 ? p02[k] : p05[k], *w = t.floats + 4 * k;
            check(w[0] == low && w[1] == p99[k] && w[2] == p99[k] - low && w[3] == 1.0, "from p02 for the co-pol band, from p05 for the other");
            int right = 1;
            for (int i = 0; i < 100; i++) right &= t.grey[k][i] == tamed(t.db[k][i], low, p99[k]);
            check(right, "greys of a Tamed picture by its windows");
            memcpy(greys[copol - 1][k], t.grey[k], 100);
        }
    }
    check(memcmp(greys[0][0], greys[1][0], 100) && memcmp(greys[0][1], greys[1][1], 100), "the choice moves the greys of both bands");
    struct two swapped = t;
    swapped.db[0] = t.db[1], swapped.db[1] = t.db[0];
    check(paint(swapped, QUICKLOOK_TAMED, 0, QUICKLOOK_COPOL_BAND2, 10, 10) == 0 && !memcmp(t.grey[0], greys[0][1], 100) &&
              !memcmp(t.grey[1], greys[0][0], 100),
          "swapped with the choice, the greys swap");
    memset(t.mask[0], 0, 100);
    check(ask_windows(t, QUICKLOOK_TAMED, QUICKLOOK_COPOL_BAND2, 10, 10) == 0 && t.blank[0] == 1 && all(t.floats, 32, 0) && t.blank[1] == 0 &&
              t.floats[4] == p02[1] && t.floats[5] == p99[1],
          "a blank band's window");
    check(paint(t, QUICKLOOK_TAMED, 0, QUICKLOOK_COPOL_BAND2, 10, 10) == 0 && all(t.grey[0], 100, 0) && t.grey[1][0] == 255, "a blank band's greys");
    free_two(t);
}

/* The call that is not told has band 1; outside Tamed the choice moves nothing, and the windows are the window call's. */
static void other_pictures(void) {
    struct two t = two_bands();
    uint8_t *grey1 = lent(100, 1, 0), *grey2 = lent(100, 1, 0), *rgb = lent(300, 1, 0);
    for (int strategy = QUICKLOOK_STANDARD; strategy <= QUICKLOOK_DEFAULT; strategy++) {
        if (strategy == QUICKLOOK_CLAHE) continue;
        check(quicklook_picture(strategy, 0, 10, 10, t.db[0], 100, t.mask[0], 100, t.db[1], 100, t.mask[1], 100, grey1, 100, grey2, 100, rgb, 300,
                                t.work, 3) == 0,
              "a picture that is not told its co-pol band");
        for (int copol = QUICKLOOK_COPOL_BAND1; copol <= QUICKLOOK_COPOL_BAND2; copol++) {
            if (strategy == QUICKLOOK_TAMED && copol == QUICKLOOK_COPOL_BAND2) continue;
            check(paint(t, strategy, 0, copol, 10, 10) == 0 && !memcmp(t.grey[0], grey1, 100) && !memcmp(t.grey[1], grey2, 100) &&
                      !memcmp(t.rgb, rgb, 300),
                  "a picture as if it were not told");
        }
        for (int k = 0; k < 2 && strategy != QUICKLOOK_TAMED; k++) {
            double floats[4];
            uint8_t blank;
            check(quicklook_window(strategy, 10, 10, t.db[k], 100, t.mask[k], 100, &blank, floats) == 0 &&
                      ask_windows(t, strategy, k + 1, 10, 10) == 0 && t.blank[k] == blank && !memcmp(t.floats + 4 * k, floats, sizeof floats),
                  "a picture's window outside Tamed");
        }
    }
    check(ask_windows(t, QUICKLOOK_CLAHE, 1, 10, 10) == 0 && all(t.blank, 2, 0), "windows of a picture that Clahe does not paint");
    free(grey1), free(grey2), free(rgb);
    free_two(t);
}

/* Both calls that are told the co-pol band refuse alike, and alter nothing. */
static void told_and_refused(void) {
    struct two t = two_bands();
    struct { int strategy, copol; size_t rows, cols; int number; const char *what; } bad[] = {
        {QUICKLOOK_TAMED, 0, 10, 10, 255, "co-pol band 0"},
        {QUICKLOOK_TAMED, 3, 10, 10, 255, "co-pol band 3"},
        {QUICKLOOK_DEFAULT, 255, 10, 10, 255, "co-pol band 255, where the choice moves nothing"},
        {7, 1, 10, 10, 255, "a strategy that names nothing, with a co-pol band"},
        {QUICKLOOK_TAMED, 0, 4097, SIZE_MAX, 255, "co-pol band 0, before a side above 4,096"},
        {QUICKLOOK_TAMED, 1, 4097, 0, 1, "a picture with a side above 4,096"},
        {QUICKLOOK_TAMED, 2, 0, SIZE_MAX, 1, "a picture with a side of SIZE_MAX"},
        {QUICKLOOK_TAMED, 2, 10, 9, 2, "a picture of other sides"}};
    for (size_t i = 0; i < sizeof bad / sizeof *bad; i++) {
        check(paint(t, bad[i].strategy, 0, bad[i].copol, bad[i].rows, bad[i].cols) == bad[i].number && unpainted(t), bad[i].what);
        check(ask_windows(t, bad[i].strategy, bad[i].copol, bad[i].rows, bad[i].cols) == bad[i].number && unanswered(t), bad[i].what);
    }
    check(paint(t, QUICKLOOK_TAMED, 4, 1, 10, 10) == 255 && unpainted(t), "a mode that names nothing, with a co-pol band");
    double *tiles = lent(QUICKLOOK_CLAHE_WORK, 8, 0x55);
    for (int copol = QUICKLOOK_COPOL_BAND1; copol <= QUICKLOOK_COPOL_BAND2; copol++) {
        for (int list = 0; list < 7; list++) {
            size_t n[7] = {100, 100, 100, 100, 100, 100, 300};
            n[list]--;
            check(quicklook_picture_copol(QUICKLOOK_TAMED, 0, copol, 10, 10, t.db[0], n[0], t.mask[0], n[1], t.db[1], n[2], t.mask[1], n[3],
                                          t.grey[0], n[4], t.grey[1], n[5], t.rgb, n[6], t.work, 3) == 2 &&
                      unpainted(t),
                  "a picture's list one short");
            if (list > 3) continue;
            check(quicklook_picture_windows(QUICKLOOK_TAMED, copol, 10, 10, t.db[0], n[0], t.mask[0], n[1], t.db[1], n[2], t.mask[1], n[3], t.blank,
                                            t.floats) == 2 &&
                      unanswered(t),
                  "a windows' list one short");
        }
        for (int k = 0; k < 2; k++) {
            double before = t.db[k][99];
            t.db[k][99] = NAN;
            check(paint(t, QUICKLOOK_TAMED, 0, copol, 10, 10) == 4 && unpainted(t), "a picture with a valid NaN");
            check(ask_windows(t, QUICKLOOK_TAMED, copol, 10, 10) == 4 && unanswered(t), "windows with a valid NaN");
            t.mask[1 - k][50] = 2;
            check(paint(t, QUICKLOOK_TAMED, 0, copol, 10, 10) == 3 && unpainted(t), "a picture with a mark of 2 in the other band");
            check(ask_windows(t, QUICKLOOK_TAMED, copol, 10, 10) == 3 && unanswered(t), "windows with a mark of 2 in the other band");
            t.mask[1 - k][50] = 1, t.db[k][99] = before;
        }
        for (int missing = 0; missing < 2; missing++) {
            check(quicklook_picture_copol(QUICKLOOK_CLAHE, 0, copol, 10, 10, t.db[0], 100, t.mask[0], 100, t.db[1], 100, t.mask[1], 100,
                                          t.grey[0], 100, t.grey[1], 100, t.rgb, 300, tiles, QUICKLOOK_CLAHE_WORK - missing) == (missing ? 2 : 5) &&
                      unpainted(t) && all(tiles, 8 * QUICKLOOK_CLAHE_WORK, 0x55),
                  "a picture by Clahe on a side of 10, and with work one short");
        }
    }
    free(tiles);
    free_two(t);
}

static void beside(void) {
    uint16_t three[3] = {0, 1, 2}, seven[3] = {7, 7, 7};
    uint8_t *out = lent(3, 1, 9);
    check(quicklook_stretch(three, 3, out, 3) == 0 && !memcmp(out, "\0\200\377", 3), "stretch of 0, 1, 2");
    check(quicklook_stretch(seven, 3, out, 3) == 0 && all(out, 3, 0), "stretch of 7, 7, 7");
    memset(out, 9, 3);
    check(quicklook_stretch(three, 2, out, 3) == 2 && all(out, 3, 9), "stretch of unequal lists");

    uint8_t full = 255, one = 1, three8 = 3;
    check(quicklook_compose(0, QUICKLOOK_DEFAULT, &full, 1, &one, 1, out, 3) == 0 && !memcmp(out, "\377\2\143", 3), "default (255, 1)");
    check(quicklook_compose(3, QUICKLOOK_TAMED, &three8, 1, &full, 1, out, 3) == 0 && !memcmp(out, "\0\377\40", 3), "suppressed (3, 255)");
    memset(out, 9, 3);
    check(quicklook_compose(0, 9, &full, 1, &one, 1, out, 3) == 255 && all(out, 3, 9), "composition of no strategy");
    check(quicklook_compose(0, 0, &full, 1, &one, 0, out, 3) == 2 && all(out, 3, 9), "composition of unequal bands");

    uint8_t pair8[2] = {1, 2}, *square8 = lent(4, 1, 9);
    uint16_t pair16[2] = {1, 2}, *square16 = lent(4, 2, 9);
    check(quicklook_pad_u8(1, 2, pair8, 2, square8, 4) == 0 && !memcmp(square8, "\1\2\0\0", 4), "pad 1 row 1, 2");
    check(quicklook_pad_u16(1, 2, pair16, 2, square16, 4) == 0 && square16[0] == 1 && square16[1] == 2 && square16[2] == 0 && square16[3] == 0, "pad at 16 bits");
    memset(square8, 9, 4), memset(square16, 9, 8);
    check(quicklook_pad_u8(1, 2, pair8, 2, square8, 3) == 2 && all(square8, 4, 9), "a square that is too short");
    check(quicklook_pad_u16(4097, 1, pair16, 2, square16, 4) == 1 && all(square16, 8, 9), "padding of a side above 4,096");

    float a[2] = {6.0f, 1.0f}, b[2] = {3.0f, from_bits(0x2edbe6ffu)};
    float *result = lent(2, 4, 0x55);
    check(quicklook_sum(a, 2, b, 2, result, 2) == 0 && result[0] == 9.0f, "sum");
    check(quicklook_difference(a, 2, b, 2, result, 2) == 0 && result[0] == 3.0f, "difference");
    check(quicklook_ratio(a, 2, b, 2, result, 2) == 0 && result[0] == 2.0f && result[1] == 0.0f, "ratio");
    check(quicklook_log_ratio(a, 2, b, 2, result, 2) == 0 && result[0] == 2.0f && result[1] == 0.0f, "log ratio");
    check(quicklook_normalized_diff(a, 2, b, 2, result, 2) == 0 && result[0] == 3.0f / 9.0f, "normalised difference");
    memset(result, 0x55, 8);
    check(quicklook_sum(a, 2, b, 1, result, 2) == 2 && quicklook_difference(a, 1, b, 2, result, 2) == 2 && quicklook_ratio(a, 2, b, 2, result, 1) == 2 &&
              quicklook_log_ratio(a, 2, b, 1, result, 2) == 2 && quicklook_normalized_diff(a, 1, b, 2, result, 2) == 2 && all(result, 8, 0x55),
          "arithmetic on unequal lists");
    free(out), free(square8), free(square16), free(result);
}

int main(void) {
    marks();
    statistics();
    histogram();
    window();
    grey();
    picture();
    tamed_picture();
    other_pictures();
    told_and_refused();
    beside();
    printf("%d passed, %d failed\n", passed, failed);
    return failed != 0;
}
