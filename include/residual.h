/* The H.265 residual path for C: what the archive of the crate c_api_c defines, on x86-64. docs/RULES.md has the rules in full. The code needs a
 * processor with SSE4.2 (x86-64-v2) and does not test for it.
 *
 * Answers. Every call but residual_version and those of a feed answers a record that begins with a number and a place: zeros, or the number of a refusal (residual_refusals.h)
 * with the place that it names. The place of a coefficient is its row and column; any other is one number. A refused call changes no element of any buffer, and
 * the values of its record are zeros. Where several refusals apply, the lowest number is answered, but 13 before 12, 18 before 17, 19 where 9 stands, and 25
 * after 3; scaling lists are written with 16 before 7, and read with 14 to 16 as reading meets them.
 * No argument is out of bounds for a call: each is either refused or has a result. The only duty of a caller is about memory:
 *
 * Buffers. A buffer is a pointer and its number of elements. The pointer is valid for that many and is not null, also where the number is 0; a buffer that
 * a call writes overlaps no other buffer of that call. Blocks are stored row by row: row r and column c of a block of size n stand at r * n + c, so that a
 * block has n * n elements. A buffer may be longer than a call needs: elements past those that it writes are never changed.
 *
 * Lengths needed, else row 5, 6 or 7: n * n for a block's buffers; 64 for a list, at every size; 1,280 and 20 for all scaling lists and their DC numbers;
 * 2,765 bytes hold any scaling lists that are written; 1,584 bytes are a table of lists.
 *
 * Arguments that several functions take:
 *   n                   the size of a block: 4, 8, 16 or 32, else row 1
 *   bit_depth           B, 8 to 16, else row 2
 *   extended_precision  whether the coefficient range is -2^R .. 2^R - 1 with R the larger of 15 and B + 6, and not 15
 *   qp_prime            QP', not QP (residual_qp_prime): any number; it is limited to 0 .. 51 + 6 * (B - 8)
 *   levels              any 32-bit numbers; each is limited to the coefficient range
 *   list, dc            64 entries in row order, of which size 4 uses the first 16, and the DC number, which only sizes 16 and 32 use; 0 is allowed
 *   coeff               coefficients; one outside the coefficient range is refused with 9 (above) or 19 (below), with its row and column
 *
 * State. A call reads and writes its arguments and nothing else: it keeps no state, takes no memory, opens nothing and prints nothing. So any number of threads
 * may call at once, each on buffers of its own, and a signal handler may. A call takes at most 32 KiB of stack, a search for edits, or the text or the listing
 * of a feed, 96 (tests/use measures it).
 */
#ifndef RESIDUAL_H
#define RESIDUAL_H

#include <stdbool.h>
#include <stddef.h>
#include <stdint.h>

#include "residual_refusals.h"

#ifdef __cplusplus
extern "C" {
#endif

/* What a call that only writes buffers answers. */
typedef struct {
    uint32_t number;
    uint8_t row;
    uint8_t column;
    size_t place;
} residual_answered;

/* What a call that scales a block answers: limited is how many of its n * n coefficients were limited, the level or the result; 0 on refusal. */
typedef struct {
    uint32_t number;
    uint8_t row;
    uint8_t column;
    uint16_t limited;
    size_t place;
} residual_count_answered;

/* One level scaled: its coefficient, whether the level lay outside the coefficient range, and whether the result of the limited level did. */
typedef struct {
    uint32_t number;
    uint8_t row;
    uint8_t column;
    bool level_limited;
    bool result_limited;
    size_t place;
    int32_t value;
} residual_level_answered;

/* An answer with one number, 0 on refusal. */
typedef struct {
    uint32_t number;
    uint8_t row;
    uint8_t column;
    size_t place;
    uint32_t value;
} residual_number_answered;

typedef struct {
    uint32_t number;
    uint8_t row;
    uint8_t column;
    size_t place;
    int32_t value;
} residual_signed_answered;

/* How many bits were read or written. */
typedef struct {
    uint32_t number;
    uint8_t row;
    uint8_t column;
    size_t place;
    size_t bits;
} residual_bits_answered;

/* The number under which a list was stored. */
typedef struct {
    uint32_t number;
    uint8_t row;
    uint8_t column;
    size_t place;
    size_t stored;
} residual_store_answered;

typedef struct {
    uint32_t number;
    uint8_t row;
    uint8_t column;
    size_t place;
    int64_t factor;
    int64_t add;
    uint32_t shift;
    int64_t clip_min;
    int64_t clip_max;
} residual_dequant_answered;

typedef struct {
    uint32_t number;
    uint8_t row;
    uint8_t column;
    size_t place;
    int64_t factor;
    int64_t add;
    uint32_t shift;
    int64_t clip_min;
    int64_t clip_max;
    int32_t tr_add;
    int32_t tr_shift;
} residual_transform_skip_answered;

/* The record of an edited block, as it goes from call to call. From levels on: whether the block was opened on levels, and the QP' as given, list flag,
 * DC number and entries by which they are scaled; what an opening is not given is 0. Zeros where an opening was refused. */
typedef struct {
    bool dst;
    size_t size;
    uint8_t depth;
    bool extended;
    size_t columns;
    bool levels;
    int32_t qp_prime;
    bool listed;
    uint8_t dc;
    uint8_t entries[64];
} residual_block;

/* An answer with that record; limited is how many of its n * n coefficients an opening on levels limited, 0 for every other call. */
typedef struct {
    uint32_t number;
    uint8_t row;
    uint8_t column;
    uint16_t limited;
    size_t place;
    residual_block block;
} residual_block_answered;

/* What a level edit answers: whether the level lay outside the coefficient range, and whether the result of the limited level did. */
typedef struct {
    uint32_t number;
    uint8_t row;
    uint8_t column;
    bool level_limited;
    bool result_limited;
    size_t place;
    residual_block block;
} residual_level_edit_answered;

/* What an opening answers, with the record after a list of edits, and how many edits were given to the block. */
typedef struct {
    uint32_t number;
    uint8_t row;
    uint8_t column;
    uint16_t limited;
    size_t place;
    residual_block block;
    size_t edits;
} residual_list_answered;

/* The version of the archive, to be compared with RESIDUAL_VERSION_NUMBER of these headers. */
uint32_t residual_version(void);

/* ---- Quantities. They write no buffer. */

/* The range R: coefficients lie in -2^R .. 2^R - 1. Refuses 2. */
residual_number_answered residual_max_log2_transform_dynamic_range(uint8_t bit_depth, bool extended_precision);
/* What QP' is above QP: 6 * (bit_depth - 8). Refuses 2. */
residual_number_answered residual_qp_bd_offset(uint8_t bit_depth);
/* QP' of any QP: QP + 6 * (bit_depth - 8), limited to 0 .. 51 + 6 * (bit_depth - 8). Refuses 2. */
residual_signed_answered residual_qp_prime(int32_t qp, uint8_t bit_depth);
/* The numbers by which a block without a list is scaled: (level * factor + add) >> shift, limited to clip_min .. clip_max. Refuses 1, 2. */
residual_dequant_answered residual_dequant_params(size_t n, int32_t qp_prime, uint8_t bit_depth, bool extended_precision);
/* The same, and the rounding and shift of transform skip after it; a negative shift is one to the left. Refuses 1, 2. */
residual_transform_skip_answered residual_transform_skip_params(size_t n, int32_t qp_prime, uint8_t bit_depth, bool extended_precision);

/* ---- Scaling: from levels to coefficients. */

/* m at an index of a block of size n. Refuses 1, 5, and 8 for an index not below n * n. */
residual_number_answered residual_scaling_coeff(const uint8_t *list, size_t list_len, uint8_t dc, size_t n, size_t index);
/* One level with the factor m: its coefficient, and what was limited. Refuses 1, 2. */
residual_level_answered residual_scale_level(int32_t level, uint8_t m, size_t n, int32_t qp_prime, uint8_t bit_depth, bool extended_precision);
/* The coefficients of a block, as from m = 16 (dequantize_into) or by a list (dequantize_scaled_into), each limited to the coefficient range. Reads the first
 * n * n levels, writes the first n * n of out and answers how many were limited. Refuses 1, 2, 5, 6, 7; with 16-bit output also 3, where the depth is above
 * 9 or precision is extended. */
residual_count_answered residual_dequantize_into_scalar_i32(const int32_t *levels, size_t levels_len, size_t n, int32_t qp_prime, uint8_t bit_depth,
    bool extended_precision, int32_t *out, size_t out_len);
residual_count_answered residual_dequantize_scaled_into_scalar_i32(const int32_t *levels, size_t levels_len, size_t n, int32_t qp_prime, uint8_t bit_depth,
    bool extended_precision, const uint8_t *list, size_t list_len, uint8_t dc, int32_t *out, size_t out_len);
residual_count_answered residual_dequantize_into_scalar_i16(const int32_t *levels, size_t levels_len, size_t n, int32_t qp_prime, uint8_t bit_depth,
    bool extended_precision, int16_t *out, size_t out_len);
residual_count_answered residual_dequantize_scaled_into_scalar_i16(const int32_t *levels, size_t levels_len, size_t n, int32_t qp_prime, uint8_t bit_depth,
    bool extended_precision, const uint8_t *list, size_t list_len, uint8_t dc, int16_t *out, size_t out_len);

/* The residual of a transform-skip block: scaling as above, then the shift of transform skip. A list is used at every size; that a block above size 4 has
 * none is the caller's choice. Reads, writes, counts and refuses as the four functions above: what was limited
 * is counted before the skip shift. */
residual_count_answered residual_dequantize_transform_skip_into_scalar_i32(const int32_t *levels, size_t levels_len, size_t n, int32_t qp_prime, uint8_t bit_depth,
    bool extended_precision, int32_t *out, size_t out_len);
residual_count_answered residual_dequantize_transform_skip_scaled_into_scalar_i32(const int32_t *levels, size_t levels_len, size_t n, int32_t qp_prime, uint8_t bit_depth,
    bool extended_precision, const uint8_t *list, size_t list_len, uint8_t dc, int32_t *out, size_t out_len);
residual_count_answered residual_dequantize_transform_skip_into_scalar_i16(const int32_t *levels, size_t levels_len, size_t n, int32_t qp_prime, uint8_t bit_depth,
    bool extended_precision, int16_t *out, size_t out_len);
residual_count_answered residual_dequantize_transform_skip_scaled_into_scalar_i16(const int32_t *levels, size_t levels_len, size_t n, int32_t qp_prime, uint8_t bit_depth,
    bool extended_precision, const uint8_t *list, size_t list_len, uint8_t dc, int16_t *out, size_t out_len);

/* ---- Scaling lists of the bitstream: scaling list data of H.265, clause 7.3.4. */

/* Reads 20 lists from the high bit of the first byte on. Each default has 64 entries, in row order: that of 4x4, and those of the other sizes for matrixId 0 to 2
 * and 3 to 5. List j of the 20 (six of sizeId 0, six of 1, six of 2, and matrixId 0 and 3 of 32x32) goes to lists[64 * j] and on, in row order, and its DC to
 * dcs[j]: 1,280 entries and 20 numbers. Answers how many bits were read. Refuses 5, 7, then the first of 14, 15 and 16 that is met, with its bit as the place. */
residual_bits_answered residual_read_scaling_lists(const uint8_t *bytes, size_t bytes_len, const uint8_t *default_4x4, size_t default_4x4_len,
    const uint8_t *default_intra, size_t default_intra_len, const uint8_t *default_inter, size_t default_inter_len, uint8_t *lists, size_t lists_len,
    uint8_t *dcs, size_t dcs_len);
/* The same written back from the start of out: the default, else a reference to the nearest equal list of its size, else in full. Reads 1,280 entries and 20 DC
 * numbers; 2,765 bytes are room for any. Answers how many bits were written; the rest of the last byte is 0. Refuses 5, 16, 7 in this order. */
residual_bits_answered residual_write_scaling_lists(const uint8_t *lists, size_t lists_len, const uint8_t *dcs, size_t dcs_len, const uint8_t *default_4x4,
    size_t default_4x4_len, const uint8_t *default_intra, size_t default_intra_len, const uint8_t *default_inter, size_t default_inter_len, uint8_t *out, size_t out_len);

/* ---- Inverse transforms: from coefficients to the residual, which nothing limits. */

/* The DCT of a block whose columns from nx on are read as zero, whatever they hold; an nx above n acts as n. _extended has extended precision. Reads the first
 * n * n coefficients and writes the first n * n of out. Coefficients have the width of the output. Refuses 1, 2, 6, 7, 9, 19; with 16 bits also 3 above depth 9. */
residual_answered residual_inv_transform_into_scalar(const int32_t *coeff, size_t coeff_len, size_t n, uint8_t bit_depth, size_t nx, int32_t *out,
    size_t out_len);
residual_answered residual_inv_transform_into_scalar_extended(const int32_t *coeff, size_t coeff_len, size_t n, uint8_t bit_depth, size_t nx, int32_t *out,
    size_t out_len);
residual_answered residual_inv_transform_into_scalar16(const int16_t *coeff, size_t coeff_len, size_t n, uint8_t bit_depth, size_t nx, int16_t *out,
    size_t out_len);
/* The DST, of size 4: reads and writes 16 elements. Refuses as the DCT, but 1. */
residual_answered residual_inv_transform_dst_into_scalar(const int32_t *coeff, size_t coeff_len, uint8_t bit_depth, int32_t *out, size_t out_len);
residual_answered residual_inv_transform_dst_into_scalar_extended(const int32_t *coeff, size_t coeff_len, uint8_t bit_depth, int32_t *out, size_t out_len);
residual_answered residual_inv_transform_dst_into_scalar16(const int16_t *coeff, size_t coeff_len, uint8_t bit_depth, int16_t *out, size_t out_len);

/* ---- Scaling lists of two streams, 0 and 1, in one table of 1,584 bytes or more, which begins as zeros and which nothing else writes. Each stream holds up to
 * 12 lists under its own numbers 0 to 11; the calls of one stream change nothing for the other. */

/* Stores a list under the lowest free number of its stream, which it answers. Refuses 5, 7, 18 for another stream, and 17 where 12 are held. */
residual_store_answered residual_store_list(uint8_t *table, size_t table_len, size_t stream, const uint8_t *list, size_t list_len, uint8_t dc);
/* Frees a number. Refuses 7, 18. */
residual_answered residual_drop_list(uint8_t *table, size_t table_len, size_t stream, size_t number);
/* Writes the 64 entries stored under a number to list and answers their DC. Refuses 7, 18. */
residual_number_answered residual_list_at(const uint8_t *table, size_t table_len, size_t stream, size_t number, uint8_t *list, size_t list_len);
/* Blocks scaled, or residuals of transform skip, by the list and DC under a number: as the functions that take a list. Refuses 1, 2, 3, 6, 7, 18. */
residual_count_answered residual_dequantize_by_number_i32(const uint8_t *table, size_t table_len, size_t stream, size_t number, const int32_t *levels,
    size_t levels_len, size_t n, int32_t qp_prime, uint8_t bit_depth, bool extended_precision, int32_t *out, size_t out_len);
residual_count_answered residual_dequantize_by_number_i16(const uint8_t *table, size_t table_len, size_t stream, size_t number, const int32_t *levels,
    size_t levels_len, size_t n, int32_t qp_prime, uint8_t bit_depth, bool extended_precision, int16_t *out, size_t out_len);
residual_count_answered residual_dequantize_transform_skip_by_number_i32(const uint8_t *table, size_t table_len, size_t stream, size_t number, const int32_t *levels,
    size_t levels_len, size_t n, int32_t qp_prime, uint8_t bit_depth, bool extended_precision, int32_t *out, size_t out_len);
residual_count_answered residual_dequantize_transform_skip_by_number_i16(const uint8_t *table, size_t table_len, size_t stream, size_t number, const int32_t *levels,
    size_t levels_len, size_t n, int32_t qp_prime, uint8_t bit_depth, bool extended_precision, int16_t *out, size_t out_len);

/* ---- The block tools of the range extensions: a block rotated by half a turn, at size 4 alone (else row 25), and residuals accumulated after the skip shift:
 * accumulate is 0 for none, 1 along rows, any other number down columns. */

/* The residual of a transform-skip block with them, without and with a list. Refuses 1, 2, 25, 5, 6, 7 in this order. */
residual_count_answered residual_transform_skip_residual(const int32_t *levels, size_t levels_len, size_t n, int32_t qp_prime, uint8_t bit_depth,
    bool extended_precision, bool rotate, uint8_t accumulate, int32_t *out, size_t out_len);
residual_count_answered residual_transform_skip_scaled_residual(const int32_t *levels, size_t levels_len, size_t n, int32_t qp_prime, uint8_t bit_depth,
    bool extended_precision, const uint8_t *list, size_t list_len, uint8_t dc, bool rotate, uint8_t accumulate, int32_t *out, size_t out_len);
/* The bypass: the levels are the residual, rotated and accumulated. Refuses 1, 2, 25, 6, 7, and 9 or 19 for a level outside the coefficient range. */
residual_answered residual_bypass_residual(const int32_t *levels, size_t levels_len, size_t n, uint8_t bit_depth, bool extended_precision, bool rotate,
    uint8_t accumulate, int32_t *out, size_t out_len);

/* ---- For each coefficient of a block the level of least size in the coefficient range that scales to it, without and with a list. Reads n * n coefficients, which
 * may be any, and writes n * n levels. Refuses 1, 2, 5, 6, 7, and 11, with row and column, where a coefficient has no such level. */
residual_answered residual_find_levels(const int32_t *coeff, size_t coeff_len, size_t n, int32_t qp_prime, uint8_t bit_depth, bool extended_precision,
    int32_t *levels, size_t levels_len);
residual_answered residual_find_levels_scaled(const int32_t *coeff, size_t coeff_len, size_t n, int32_t qp_prime, uint8_t bit_depth, bool extended_precision,
    const uint8_t *list, size_t list_len, uint8_t dc, int32_t *levels, size_t levels_len);

/* ---- Which edits give the wanted samples of a block's residual. target is n * n samples, of which those whose byte in wanted is other than 0 must be met. For each
 * index the call writes the least and the most value of the coefficient range with which that one coefficient, in place of its own, gives the target at every
 * wanted sample; every value between them does, and no other of the range. Where there is none they are 1 and 0. coeff is n * n coefficients in the range.
 * Refuses 1, 2, 4, 6 (coeff, target, wanted), 7 (least, most), and 9 or 19, with row and column. */
residual_answered residual_find_edits(bool dst, size_t n, uint8_t bit_depth, bool extended_precision, const int32_t *coeff, size_t coeff_len, const int32_t *target,
    size_t target_len, const uint8_t *wanted, size_t wanted_len, int32_t *least, size_t least_len, int32_t *most, size_t most_len);
/* The same of a block of levels, which may be any, without and with a list: the least and the most level of the range. Refuses 1, 2, 4, 5, 6, 7. */
residual_answered residual_find_level_edits(bool dst, size_t n, int32_t qp_prime, uint8_t bit_depth, bool extended_precision, const int32_t *levels,
    size_t levels_len, const int32_t *target, size_t target_len, const uint8_t *wanted, size_t wanted_len, int32_t *least, size_t least_len, int32_t *most,
    size_t most_len);
residual_answered residual_find_level_edits_scaled(bool dst, size_t n, int32_t qp_prime, uint8_t bit_depth, bool extended_precision, const uint8_t *list,
    size_t list_len, uint8_t dc, const int32_t *levels, size_t levels_len, const int32_t *target, size_t target_len, const uint8_t *wanted, size_t wanted_len,
    int32_t *least, size_t least_len, int32_t *most, size_t most_len);

/* ---- By how much 2^(7 + s2) times a residual may differ from the exact product of its coefficients, where no stage-one value was limited;
 * s2 is R + 5 - bit_depth. Refuses 1, 2, 4. */
residual_number_answered residual_rounding_bound(bool dst, size_t n, uint8_t bit_depth, bool extended_precision);

/* ---- Which coefficient makes the sample at a row and a column of a block's residual. With T the matrix of the kind, writes T(k, row) * T(c, column) * coeff(k, c) for
 * every row k and column c of the block, n * n 64-bit numbers. Their sum is the exact product, 2^(7 + s2) times the residual before any rounding: where no stage-one
 * value was limited, 2^(7 + s2) times the residual there differs from it by at most residual_rounding_bound. coeff is n * n coefficients, which may be any.
 * Refuses 1, 4, 6, 7, 8. */
residual_answered residual_contributions(bool dst, size_t n, size_t row, size_t column, const int32_t *coeff, size_t coeff_len, int64_t *out, size_t out_len);

/* ---- Edited blocks: opened once, on coefficients or on levels, then changed one value at a time. After any edits all that follows from the values is what a fresh
 * opening gives: of levels the coefficients, of these intermediate and residual. The record that a call hands back goes into the next edit as it is; an edit that
 * is refused hands back the record it was given. A coefficient is edited in a block that was opened on coefficients and a level in one that was opened on levels;
 * the other way round an edit is refused with 10. */

/* Opens a block on coefficients: reads n * n of them, all columns, and writes the first n * n of inter and residual. The record has columns, one past the last
 * column with a coefficient other than zero. Refuses 1, 2, 4, 6, 7, 9, 19. */
residual_block_answered residual_open_block(bool dst, size_t n, uint8_t bit_depth, bool extended_precision, const int32_t *coeff, size_t coeff_len,
    int32_t *inter, size_t inter_len, int32_t *residual, size_t residual_len);
/* Opens a block on levels without a list: reads n * n of them and writes the first n * n of coeff, inter and residual. Refuses 1, 2, 4, 6 (levels or coeff), 7. */
residual_block_answered residual_open_levels(bool dst, size_t n, uint8_t bit_depth, bool extended_precision, int32_t qp_prime, const int32_t *levels, size_t levels_len,
    int32_t *coeff, size_t coeff_len, int32_t *inter, size_t inter_len, int32_t *residual, size_t residual_len);
/* The same with a list and its DC number, which the record keeps. Refuses 5 as well. */
residual_block_answered residual_open_levels_scaled(bool dst, size_t n, uint8_t bit_depth, bool extended_precision, int32_t qp_prime, const uint8_t *list,
    size_t list_len, uint8_t dc, const int32_t *levels, size_t levels_len, int32_t *coeff, size_t coeff_len, int32_t *inter, size_t inter_len, int32_t *residual, size_t residual_len);
/* Puts value at a row and column of coeff, and brings that column of inter and the whole residual up to date. What others wrote into coeff and inter since the last
 * call is read limited to the range; columns of the record given is not relied on. Refuses 1, 2, 4, 6, 7, 10, 8, and 9 or 19 for the value. */
residual_block_answered residual_edit(residual_block block, int32_t *coeff, size_t coeff_len, int32_t *inter, size_t inter_len, int32_t *residual, size_t residual_len,
    size_t row, size_t column, int32_t value);
/* Puts level at a row and column of levels and its coefficient at the same place of coeff, scaled by what the record holds, and brings inter and residual up to date
 * as an edit of that coefficient does. The other levels are not read. Any 32-bit level is taken. Refuses 1, 2, 4, 6, 7, 10, 8; levels is not looked at in a block that
 * was opened on coefficients. */
residual_level_edit_answered residual_edit_level(residual_block block, int32_t *levels, size_t levels_len, int32_t *coeff, size_t coeff_len, int32_t *inter, size_t inter_len, int32_t *residual, size_t residual_len,
    size_t row, size_t column, int32_t level);
/* Opens a block and makes a list of edits, as long as the shortest of rows, columns, values, ways, numbers, named, across and limits: edit i is of a level where
 * ways[i]. The answer to it goes to numbers[i], with the row and the column that it names in named[i] and across[i]; limits[i] gets 1 where it limited the level,
 * 2 where the result, 3 where both, else 0. A refused edit is passed over. After a refused opening nothing is changed. */
residual_list_answered residual_open_and_edit(bool dst, size_t n, uint8_t bit_depth, bool extended_precision, int32_t *levels, size_t levels_len,
    int32_t *coeff, size_t coeff_len, int32_t *inter, size_t inter_len, int32_t *residual, size_t residual_len,
    const size_t *rows, size_t rows_len, const size_t *columns, size_t columns_len, const int32_t *values, size_t values_len, const bool *ways, size_t ways_len,
    uint8_t *numbers, size_t numbers_len, uint8_t *named, size_t named_len, uint8_t *across, size_t across_len,
    uint8_t *limits, size_t limits_len);
residual_list_answered residual_open_levels_and_edit(bool dst, size_t n, uint8_t bit_depth, bool extended_precision, int32_t qp_prime, int32_t *levels,
    size_t levels_len, int32_t *coeff, size_t coeff_len, int32_t *inter, size_t inter_len, int32_t *residual, size_t residual_len,
    const size_t *rows, size_t rows_len, const size_t *columns, size_t columns_len, const int32_t *values, size_t values_len, const bool *ways, size_t ways_len,
    uint8_t *numbers, size_t numbers_len, uint8_t *named, size_t named_len, uint8_t *across, size_t across_len,
    uint8_t *limits, size_t limits_len);
residual_list_answered residual_open_levels_scaled_and_edit(bool dst, size_t n, uint8_t bit_depth, bool extended_precision, int32_t qp_prime, const uint8_t *list,
    size_t list_len, uint8_t dc, int32_t *levels, size_t levels_len, int32_t *coeff, size_t coeff_len, int32_t *inter, size_t inter_len, int32_t *residual, size_t residual_len,
    const size_t *rows, size_t rows_len, const size_t *columns, size_t columns_len, const int32_t *values, size_t values_len, const bool *ways, size_t ways_len,
    uint8_t *numbers, size_t numbers_len, uint8_t *named, size_t named_len, uint8_t *across, size_t across_len,
    uint8_t *limits, size_t limits_len);
/* The residual of an intermediate alone: reads n * n of inter, limited to the range, and writes n * n of residual. Refuses 1, 2, 4, and 7 where either is too short. */
residual_answered residual_refresh_residual(bool dst, size_t n, uint8_t bit_depth, bool extended_precision, const int32_t *inter, size_t inter_len,
    int32_t *residual, size_t residual_len);

/* ---- A feed: bytes of records in, its text out (docs/RULES.md, "The feed"), or the listing of its scaling factors ("The listing of scaling factors"). ---- */

/* Where the text ends; or room is false and end 0, since the buffer was shorter than residual_feed_room says, of a listing residual_listing_room, and nothing was
 * written. */
typedef struct {
    bool room;
    size_t end;
} residual_ran;

/* How many bytes residual_feed_run wants for the text of this feed. */
size_t residual_feed_room(const uint8_t *feed, size_t feed_len);
/* Writes the text of a whole feed: the rows of each block with the line `limited`, those of each reading with the line `columns`, then the line of a refusal, or
 * `blocks` and how many. It is ASCII without a zero byte at the end. A feed that is refused has a text too: the call itself has no refusal. */
residual_ran residual_feed_run(const uint8_t *feed, size_t feed_len, uint8_t *text, size_t text_len);
/* How many bytes residual_listing_run wants for the listing of this feed: 20 for each index of its blocks, and 40. */
size_t residual_listing_room(const uint8_t *feed, size_t feed_len);
/* Writes which m scaling uses, and why, at each index of each block: a line for each, in row order, with the index, m, the reason (none, four, eight, dc, repeat or
 * skip) and the position in the list, or a hyphen where the reason has none; then the line of a refusal, where the feed has one. Edits and readings add no line. It
 * is ASCII without a zero byte at the end, and may be empty. A feed that is refused has a listing too: the call itself has no refusal. */
residual_ran residual_listing_run(const uint8_t *feed, size_t feed_len, uint8_t *text, size_t text_len);

#ifdef __cplusplus
}
#endif

#endif
