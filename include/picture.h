/* Rebuilt samples and the picture checksum for C: what the archive of the crate c_api_c defines beside include/residual.h, on x86-64.
 *
 * Answers, buffers and state are as residual.h says: a refused call changes nothing, a buffer is a pointer that is not null with its number of elements, a call
 * keeps no state, and a plane that a call writes overlaps no other buffer of that call. Row and column name a coefficient: here they are 0.
 * The sample in column x and row y of a picture stands at y * stride + x of its plane, which has stride * height elements or more. Width and height are 1 to
 * 16,384, the stride is at least the width and at most 65,536 (row 13). A plane may hold any 16-bit numbers.
 */
#ifndef PICTURE_H
#define PICTURE_H

#include <stddef.h>
#include <stdint.h>

#include "residual_refusals.h"

#ifdef __cplusplus
extern "C" {
#endif

typedef struct {
    uint32_t number;
    uint8_t row;
    uint8_t column;
    size_t place;
} picture_answered;

typedef struct {
    uint32_t number;
    uint8_t row;
    uint8_t column;
    size_t place;
    uint32_t value;
} picture_number_answered;

/* Prediction plus residual, limited to 0 .. 2^bit_depth - 1, for the n * n samples of a block whose first is at column x and row y. Reads n * n of residual, any
 * 32-bit numbers, and of prediction; every other element of the plane stays. Refuses 1, 2, 6, then 13, for a block not wholly inside the picture too, then 12 for
 * a prediction sample above 2^bit_depth - 1, with its index as the place. */
picture_answered picture_rebuild_block(size_t n, uint8_t bit_depth, const int32_t *residual, size_t residual_len, const uint16_t *prediction, size_t prediction_len,
    size_t width, size_t height, size_t stride, size_t x, size_t y, uint16_t *plane, size_t plane_len);

/* The checksum form of the decoded picture hash, H.265 Annex D, over width columns and height rows. Writes nothing. Refuses 2, 13. */
picture_number_answered picture_checksum(size_t width, size_t height, size_t stride, uint8_t bit_depth, const uint16_t *plane, size_t plane_len);

#ifdef __cplusplus
}
#endif

#endif
