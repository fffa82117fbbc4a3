/* The version of these headers, and the table of refusals: numbers, names and texts, as docs/RULES.md has them.
 *
 * An answer's number is 0 or a row's number. Rows are added by later versions, so a caller treats a number that it does not know as a refusal.
 */
#ifndef RESIDUAL_REFUSALS_H
#define RESIDUAL_REFUSALS_H

#include <stdint.h>

/* MAJOR * 10000 + MINOR * 100 + PATCH. While MAJOR is 0, a new MINOR may change layouts and meanings; CHANGELOG.md says which. */
#define RESIDUAL_VERSION_NUMBER 200
#define RESIDUAL_VERSION "0.2.0"

#define RESIDUAL_REFUSALS(ROW) \
    ROW(1, SIZE_INVALID, "the size is none of 4, 8, 16, 32") \
    ROW(2, DEPTH_INVALID, "the depth is below 8 or above 16") \
    ROW(3, WIDTH_TOO_NARROW, "16-bit output, and the depth is above 9 or precision is extended") \
    ROW(4, DST_SIZE_INVALID, "edited block, search for edits, contributions, feed or rounding bound: DST with a size other than 4") \
    ROW(5, LIST_LENGTH_INVALID, "the list, or a default list, does not have 64 entries; lists to write are fewer than 20") \
    ROW(6, INPUT_TOO_SHORT, "fewer than n * n levels or coefficients, residuals or prediction samples, targets or bytes that say what is wanted") \
    ROW(7, OUTPUT_TOO_SHORT, "an output or work buffer has fewer than n * n elements; for scaling lists fewer than 1,280 entries or 20 DC numbers have room, or fewer bytes than the bits take; a table of lists is too short") \
    ROW(8, PLACE_OUTSIDE, "an edit's or a sample's row or column is not below n; m is looked up at an index not below n * n") \
    ROW(9, COEFFICIENT_ABOVE, "a coefficient is above its range") \
    ROW(10, WAY_MISMATCHED, "a coefficient is edited in a block that was opened on levels, or a level in one that was opened on coefficients; it comes before 8") \
    ROW(11, LEVEL_MISSING, "search for levels: no level gives a coefficient") \
    ROW(12, SAMPLE_OUTSIDE, "a prediction sample is above 2^B - 1") \
    ROW(13, PICTURE_INVALID, "a width or height is outside 1 .. 16,384; the stride is under the width or above 65,536; a block is not wholly inside the picture; the plane has fewer than stride * height elements") \
    ROW(14, BITS_ENDED, "scaling list data: the bits end before or in a code") \
    ROW(15, REFERENCE_MISSING, "scaling list data: a reference to a list that is not there") \
    ROW(16, LIST_VALUE_INVALID, "scaling list data: a DC outside 1 .. 255, a delta outside -128 .. 127, or a coded entry of 0; lists to write: a used entry or DC of 0") \
    ROW(17, STREAM_FULL, "storing a list where the stream holds 12 already") \
    ROW(18, LIST_MISSING, "a stream that is not one of the two, or a number that it does not hold") \
    ROW(19, COEFFICIENT_BELOW, "a coefficient is below its range") \
    ROW(20, KIND_UNKNOWN, "feed: the kind byte is not known") \
    ROW(21, BODY_TOO_SHORT, "feed: the body ends too early") \
    ROW(22, LEVELS_BEFORE_PARAMETERS, "feed: levels come before any parameters") \
    ROW(23, PARAMETER_INVALID, "feed: the extended flag is above 1, or the mode is above 2") \
    ROW(24, BLOCK_MISSING, "feed: an edit or a reading where no block is held") \
    ROW(25, ROTATION_SIZE_INVALID, "rotation at a size other than 4; it comes after 3")

/* RESIDUAL_DONE, RESIDUAL_SIZE_INVALID and so on: what `number` of an answer is. */
#define RESIDUAL_ROW(number, name, text) RESIDUAL_##name = number,
enum residual_refusal {
    RESIDUAL_DONE = 0,
    RESIDUAL_REFUSALS(RESIDUAL_ROW)
    RESIDUAL_REFUSAL_LIMIT = 256 /* no row has it or a higher number: room for rows to come */
};
#undef RESIDUAL_ROW

/* The text of a row, "accepted" for 0. It is a constant of the program: it is never null, and nobody frees it. */
static inline const char *residual_refusal_text(uint32_t number)
{
    switch (number) {
    case RESIDUAL_DONE:
        return "accepted";
#define RESIDUAL_ROW(row, name, text) \
    case row: \
        return text;
    RESIDUAL_REFUSALS(RESIDUAL_ROW)
#undef RESIDUAL_ROW
    default:
        return "a refusal that this version does not know";
    }
}

#endif
