/* quicklook.h: the radar quicklook engine's calls for C.
 *
 * Every call answers a number of the table below and does nothing else with a refused input: after any answer but 0 all lent memory
 * is as it was. A list is a pointer and its number of elements. A caller has three duties: a list that a call writes overlaps no other list
 * of that call (lists that are only read may overlap, or be one and the same); each pointer has its type's natural alignment (an empty list
 * too has a pointer that is not null); and the calling thread has the floating-point environment that a program starts with,
 * fesetenv(FE_DFL_ENV) of fenv.h: to the nearest, no flushing of subnormal numbers to zero (what -ffast-math switches on in some programs),
 * no traps. Another rounding changes greys, flushing changes statistics, and a trap may end the program.
 *
 *   0    done: the outputs are fully written
 *   1    rows or cols above 4,096
 *   2    a lent length is not the one named at the call
 *   3    a mark is neither 0 nor 1
 *   4    a valid decibel is NaN, infinite, below -1000 or above 1000
 *   5    Clahe with a valid pixel and a side s with 7 * ceil(s / 8) > s
 *   6    16 bits, and the chosen gamma is not 1.0
 *   255  a strategy, a mode or a co-pol band that names nothing
 *
 * 255 comes before all others; of 1 to 6 the smallest that applies is answered. n is rows * cols, row by row. Marks are bytes: 1 valid, 0
 * invalid.
 */
#ifndef QUICKLOOK_H
#define QUICKLOOK_H

#include <stddef.h>
#include <stdint.h>

#ifdef __cplusplus
extern "C" {
#endif

enum quicklook_strategy {
    QUICKLOOK_STANDARD = 0,
    QUICKLOOK_ROBUST = 1,
    QUICKLOOK_ADAPTIVE = 2,
    QUICKLOOK_EQUALIZED = 3,
    QUICKLOOK_CLAHE = 4,
    QUICKLOOK_TAMED = 5,
    QUICKLOOK_DEFAULT = 6
};

enum quicklook_mode {
    QUICKLOOK_MODE_DEFAULT = 0,
    QUICKLOOK_MODE_RGB_RATIO = 1,
    QUICKLOOK_MODE_SAR_URBAN = 2,
    QUICKLOOK_MODE_ENHANCED = 3
};

/* Which of two bands is co-pol: its number. */
enum quicklook_copol {
    QUICKLOOK_COPOL_BAND1 = 1,
    QUICKLOOK_COPOL_BAND2 = 2
};

/* The elements of `work` that Clahe needs; the other strategies take any length and leave it alone. */
#define QUICKLOOK_CLAHE_WORK 16384

/* The whole numbers and the floats of the statistics, and the bins of the curve. */
#define QUICKLOOK_STATISTICS_WHOLE 5
#define QUICKLOOK_STATISTICS_FLOATS 15
#define QUICKLOOK_BINS 4096

/* The longest list of the calls without sides. */
#define QUICKLOOK_LONGEST 16777216

/* Marks: valid_mask[i] is 1 where processed[i] is above the binary32 of bits 3727C5AC, else 0. Equal lengths, at most QUICKLOOK_LONGEST. Answers 0, 2. */
uint8_t quicklook_marks(const float *processed, size_t processed_len, uint8_t *valid_mask, size_t valid_mask_len);

/* Statistics of one band. db and valid_mask have n elements. whole are the number of 1 marks, the bin of p05 and the bin of p95, bins of the
 * curve that quicklook_histogram gives, from 0 on, and the row and the column of the first valid maximum in raster order, from 0 on too (five
 * numbers; this call once wrote the count alone, then three); floats are min, max, mean, std, median, p01, p02, p05, p10, p25, p75, p90, p95,
 * p98, p99. Both bins are 0 where max - min is below 2^-52; bins and place are 0 without a 1 mark. Answers 0 to 4. */
uint8_t quicklook_statistics(size_t rows, size_t cols, const double *db, size_t db_len, const uint8_t *valid_mask, size_t valid_mask_len,
                             uint64_t whole[QUICKLOOK_STATISTICS_WHOLE], double floats[QUICKLOOK_STATISTICS_FLOATS]);

/* The curve of one band: how many of its valid decibels stand in each of QUICKLOOK_BINS equal steps from the least to the greatest, the
 * greatest in the last. The counts sum to the number of 1 marks, and the percentiles are read off them. Where max - min is below 2^-52 all
 * stand in bin 0. db and valid_mask have n elements, counts QUICKLOOK_BINS. Answers 0 to 4. */
uint8_t quicklook_histogram(size_t rows, size_t cols, const double *db, size_t db_len, const uint8_t *valid_mask, size_t valid_mask_len,
                            uint32_t *counts, size_t counts_len);

/* The window of one band. *blank is 1 where no mark is 1, and then the floats are 0; else floats are low, high, range, gamma. Answers 0 to 4, 255. */
uint8_t quicklook_window(uint8_t strategy, size_t rows, size_t cols, const double *db, size_t db_len, const uint8_t *valid_mask,
                         size_t valid_mask_len, uint8_t *blank, double floats[4]);

/* Grey of one band, 8 or 16 bits. db, valid_mask and out have n elements. Answers 0 to 5, 255, at 16 bits also 6. */
uint8_t quicklook_grey_u8(uint8_t strategy, size_t rows, size_t cols, const double *db, size_t db_len, const uint8_t *valid_mask,
                          size_t valid_mask_len, uint8_t *out, size_t out_len, double *work, size_t work_len);
uint8_t quicklook_grey_u16(uint8_t strategy, size_t rows, size_t cols, const double *db, size_t db_len, const uint8_t *valid_mask,
                           size_t valid_mask_len, uint16_t *out, size_t out_len, double *work, size_t work_len);

/* The picture of two bands: two greys of n bytes and colours of 3 n bytes, red, green, blue for each pixel. Band 1 counts as co-pol. Answers 0 to 5, 255. */
uint8_t quicklook_picture(uint8_t strategy, uint8_t mode, size_t rows, size_t cols, const double *db1, size_t db1_len,
                          const uint8_t *valid_mask1, size_t valid_mask1_len, const double *db2, size_t db2_len, const uint8_t *valid_mask2,
                          size_t valid_mask2_len, uint8_t *grey1, size_t grey1_len, uint8_t *grey2, size_t grey2_len, uint8_t *rgb,
                          size_t rgb_len, double *work, size_t work_len);

/* The same, told which band is co-pol. That sets the two windows of QUICKLOOK_TAMED and nothing else: red stays band 1's. quicklook_picture is this
 * call with QUICKLOOK_COPOL_BAND1. Answers 0 to 5, 255. */
uint8_t quicklook_picture_copol(uint8_t strategy, uint8_t mode, uint8_t copol, size_t rows, size_t cols, const double *db1, size_t db1_len,
                                const uint8_t *valid_mask1, size_t valid_mask1_len, const double *db2, size_t db2_len,
                                const uint8_t *valid_mask2, size_t valid_mask2_len, uint8_t *grey1, size_t grey1_len, uint8_t *grey2,
                                size_t grey2_len, uint8_t *rgb, size_t rgb_len, double *work, size_t work_len);

/* The windows that the picture of two bands is painted with: those of quicklook_window but for QUICKLOOK_TAMED, which has others in a picture.
 * blank[k] is 1 where no mark of band k + 1 is 1, else 0; floats are low, high, range, gamma of band 1, then of band 2, zeros of a blank one. All four
 * lists have n elements. Answers 0 to 4, 255. */
uint8_t quicklook_picture_windows(uint8_t strategy, uint8_t copol, size_t rows, size_t cols, const double *db1, size_t db1_len,
                                  const uint8_t *valid_mask1, size_t valid_mask1_len, const double *db2, size_t db2_len,
                                  const uint8_t *valid_mask2, size_t valid_mask2_len, uint8_t blank[2], double floats[8]);

/* The stretch by itself: between the least and the greatest of all elements to 0..255. Equal lengths, at most QUICKLOOK_LONGEST. Answers 0, 2. */
uint8_t quicklook_stretch(const uint16_t *data, size_t data_len, uint8_t *out, size_t out_len);

/* Composition by itself: colours of two grey bands of equal length, at most QUICKLOOK_LONGEST; rgb is three times as long. Answers 0, 2, 255. */
uint8_t quicklook_compose(uint8_t mode, uint8_t strategy, const uint8_t *band1, size_t band1_len, const uint8_t *band2, size_t band2_len,
                          uint8_t *rgb, size_t rgb_len);

/* Padding to a square: data has n elements, padded the square of the larger side. Answers 0 to 2. */
uint8_t quicklook_pad_u8(size_t rows, size_t cols, const uint8_t *data, size_t data_len, uint8_t *padded, size_t padded_len);
uint8_t quicklook_pad_u16(size_t rows, size_t cols, const uint16_t *data, size_t data_len, uint16_t *padded, size_t padded_len);

/* Arithmetic, element by element. All lengths equal, at most QUICKLOOK_LONGEST. Answers 0, 2. */
uint8_t quicklook_sum(const float *a, size_t a_len, const float *b, size_t b_len, float *out, size_t out_len);
uint8_t quicklook_difference(const float *a, size_t a_len, const float *b, size_t b_len, float *out, size_t out_len);
uint8_t quicklook_ratio(const float *a, size_t a_len, const float *b, size_t b_len, float *out, size_t out_len);
uint8_t quicklook_normalized_diff(const float *a, size_t a_len, const float *b, size_t b_len, float *out, size_t out_len);
uint8_t quicklook_log_ratio(const float *a, size_t a_len, const float *b, size_t b_len, float *out, size_t out_len);

#ifdef __cplusplus
}
#endif

#endif
