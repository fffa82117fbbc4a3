/* Compiled against include/residual.h and include/picture.h and linked with the archive: calls every function that the headers declare and compares with examples of docs/RULES.md. */
#include "residual.h"
#include "picture.h"
#include <stdio.h>
#include <string.h>

static int failed;
static int called;

static void expect(bool holds, const char *what) {
    called++;
    if (!holds) {
        failed++;
        printf("header: %s: not as expected\n", what);
    }
}

static void quantities(void) {
    expect(residual_version() == RESIDUAL_VERSION_NUMBER, "version");
    residual_number_answered range = residual_max_log2_transform_dynamic_range(10, true);
    expect(range.number == 0 && range.place == 0 && range.value == 16, "max_log2_transform_dynamic_range");
    residual_number_answered offset = residual_qp_bd_offset(17);
    expect(offset.number == 2 && offset.place == 0 && offset.value == 0, "qp_bd_offset");
    residual_signed_answered qp = residual_qp_prime(60, 10);
    expect(qp.number == 0 && qp.place == 0 && qp.value == 63, "qp_prime");
    residual_dequant_answered d = residual_dequant_params(4, 4, 8, false);
    expect(d.number == 0 && d.place == 0 && d.factor == 1024 && d.add == 16 && d.shift == 5 && d.clip_min == -32768 && d.clip_max == 32767, "dequant_params");
    residual_transform_skip_answered s = residual_transform_skip_params(32, 4, 16, false);
    expect(s.number == 0 && s.place == 0 && s.factor == 1024 && s.add == 32768 && s.shift == 16 && s.clip_min == -32768 && s.clip_max == 32767 && s.tr_add == 0 && s.tr_shift == -6, "transform_skip_params");
    residual_number_answered bound = residual_rounding_bound(true, 4, 8, false);
    expect(bound.number == 0 && bound.place == 0 && bound.value == 277632, "rounding_bound");
}

#ifdef has_scaling
/* One block: level 2 at index 0 and zeros, QP' 4, depth 8, n = 4; the element past it stays 7. */
#define BLOCK(element) element out[17] = {[16] = 7}; out[5] = 9

static void scaling(void) {
    int32_t levels[16] = {2};
    uint8_t list[64];
    memset(list, 20, sizeof list);
    residual_number_answered m = residual_scaling_coeff(list, 64, 30, 16, 0);
    expect(m.number == 0 && m.place == 0 && m.value == 30, "scaling_coeff");
    residual_level_answered level = residual_scale_level(-1, 16, 4, 4, 8, false);
    expect(level.number == 0 && level.place == 0 && level.value == -32 && !level.level_limited && !level.result_limited, "scale_level");
    level = residual_scale_level(32768, 16, 4, 4, 8, false);
    expect(level.number == 0 && level.place == 0 && level.value == 32767 && level.level_limited && level.result_limited, "scale_level, limited");
    residual_count_answered a;
    {
        BLOCK(int32_t);
        a = residual_dequantize_into_scalar_i32(levels, 16, 4, 4, 8, false, out, 17);
        expect(a.number == 0 && a.place == 0 && a.limited == 0 && out[0] == 64 && out[5] == 0 && out[16] == 7, "dequantize_into_scalar_i32");
    }
    {
        BLOCK(int16_t);
        a = residual_dequantize_into_scalar_i16(levels, 16, 4, 4, 8, false, out, 17);
        expect(a.number == 0 && a.place == 0 && out[0] == 64 && out[5] == 0 && out[16] == 7, "dequantize_into_scalar_i16");
    }
    {
        BLOCK(int32_t);
        a = residual_dequantize_scaled_into_scalar_i32(levels, 16, 4, 4, 8, false, list, 64, 30, out, 17);
        expect(a.number == 0 && a.place == 0 && out[0] == 80 && out[5] == 0 && out[16] == 7, "dequantize_scaled_into_scalar_i32");
    }
    {
        BLOCK(int16_t);
        a = residual_dequantize_scaled_into_scalar_i16(levels, 16, 4, 4, 8, false, list, 63, 30, out, 17);
        expect(a.number == 5 && a.place == 0 && out[0] == 0 && out[5] == 9 && out[16] == 7, "dequantize_scaled_into_scalar_i16");
    }
    {
        BLOCK(int32_t);
        a = residual_dequantize_transform_skip_into_scalar_i32(levels, 16, 4, 4, 8, false, out, 17);
        expect(a.number == 0 && a.place == 0 && out[0] == 2 && out[5] == 0 && out[16] == 7, "dequantize_transform_skip_into_scalar_i32");
    }
    {
        BLOCK(int16_t);
        a = residual_dequantize_transform_skip_into_scalar_i16(levels, 15, 4, 4, 8, false, out, 17);
        expect(a.number == 6 && a.place == 0 && out[0] == 0 && out[5] == 9 && out[16] == 7, "dequantize_transform_skip_into_scalar_i16");
    }
    {
        BLOCK(int32_t);
        a = residual_dequantize_transform_skip_scaled_into_scalar_i32(levels, 16, 4, 4, 8, false, list, 64, 30, out, 17);
        expect(a.number == 0 && a.place == 0 && out[0] == 3 && out[5] == 0 && out[16] == 7, "dequantize_transform_skip_scaled_into_scalar_i32");
    }
    {
        BLOCK(int16_t);
        a = residual_dequantize_transform_skip_scaled_into_scalar_i16(levels, 16, 4, 4, 8, false, list, 64, 30, out, 17);
        expect(a.number == 0 && a.place == 0 && out[0] == 3 && out[5] == 0 && out[16] == 7, "dequantize_transform_skip_scaled_into_scalar_i16");
    }
}
#endif

#ifdef has_transform
static const int32_t dst_residual[16] = {0, 0, 0, 0, 0, 0, 1, 1, 0, 0, 1, 1, 0, 1, 1, 1};

/* Index 0 alone: 63 gives 1 everywhere by the DCT, 64 the rows above by the DST; the element past the block stays 7. */
#define DCT(name, element)                                                                        \
    {                                                                                             \
        element coeff[16] = {63}, out[17] = {[16] = 7};                                           \
        residual_answered a = residual_##name(coeff, 16, 4, 8, 4, out, 17);                       \
        bool same = a.number == 0 && a.place == 0 && out[16] == 7;                                \
        for (int i = 0; i < 16; i++) same = same && out[i] == 1;                                  \
        expect(same, #name);                                                                      \
    }
#define DST(name, element)                                                                        \
    {                                                                                             \
        element coeff[16] = {64}, out[17] = {[16] = 7};                                           \
        residual_answered a = residual_##name(coeff, 16, 8, out, 17);                             \
        bool same = a.number == 0 && a.place == 0 && out[16] == 7;                                \
        for (int i = 0; i < 16; i++) same = same && out[i] == dst_residual[i];                    \
        expect(same, #name);                                                                      \
    }

static void transforms(void) {
    DCT(inv_transform_into_scalar, int32_t)
    DCT(inv_transform_into_scalar_extended, int32_t)
    DCT(inv_transform_into_scalar16, int16_t)
    DST(inv_transform_dst_into_scalar, int32_t)
    DST(inv_transform_dst_into_scalar_extended, int32_t)
    DST(inv_transform_dst_into_scalar16, int16_t)
    int32_t coeff[16] = {[5] = 32768}, out[16] = {9};
    residual_answered a = residual_inv_transform_into_scalar(coeff, 16, 4, 8, 4, out, 16);
    expect(a.number == 9 && a.row == 1 && a.column == 1 && a.place == 0 && out[0] == 9, "inv_transform_into_scalar, refused with a place");
    coeff[5] = -32769;
    a = residual_inv_transform_into_scalar(coeff, 16, 4, 8, 4, out, 16);
    expect(a.number == 19 && a.row == 1 && a.column == 1 && a.place == 0 && out[0] == 9, "inv_transform_into_scalar, refused below the range");
}
#endif

#ifdef has_edits
/* Index 0 alone, set to 63 by an edit of a block of zeros: 1 everywhere. Then row 4 is refused, and a level is, since the block was opened on coefficients. */
static void edits(void) {
    int32_t levels[16] = {0}, coeff[16] = {0}, inter[16], residual[17] = {[16] = 7};
    residual_block_answered b = residual_open_block(false, 4, 8, false, coeff, 16, inter, 16, residual, 17);
    expect(b.number == 0 && !b.block.dst && b.block.size == 4 && b.block.depth == 8 && !b.block.extended && b.block.columns == 0 && residual[15] == 0, "open_block");
    bool same = !b.block.levels && b.block.qp_prime == 0 && !b.block.listed && b.block.dc == 0;
    for (int i = 0; i < 64; i++) same = same && b.block.entries[i] == 0;
    expect(same, "open_block, what is not given");
    b = residual_edit(b.block, coeff, 16, inter, 16, residual, 17, 0, 0, 63);
    same = b.number == 0 && b.place == 0 && b.block.columns == 1 && coeff[0] == 63 && residual[16] == 7;
    for (int i = 0; i < 16; i++) same = same && residual[i] == 1;
    expect(same, "edit");
    size_t rows[3] = {4, 0, 0}, columns[3] = {0, 0, 0};
    int32_t values[3] = {1, 0, 5};
    bool ways[3] = {false, false, true};
    uint8_t numbers[3] = {9, 9, 9}, named[3] = {9, 9, 9}, across[3] = {9, 9, 9}, limits[3] = {9, 9, 9};
    residual_list_answered l = residual_open_and_edit(false, 4, 8, false, levels, 16, coeff, 16, inter, 16, residual, 17, rows, 3, columns, 3, values, 3, ways, 3, numbers, 3, named, 3, across, 3, limits, 3);
    same = l.number == 0 && l.block.columns == 0 && l.edits == 3 && numbers[0] == 8 && numbers[1] == 0 && numbers[2] == 10;
    for (int i = 0; i < 3; i++) same = same && named[i] == 0 && across[i] == 0 && limits[i] == 0;
    for (int i = 0; i < 16; i++) same = same && residual[i] == 0 && coeff[i] == 0 && levels[i] == 0;
    expect(same && residual[16] == 7, "open_and_edit");
    residual[3] = 9;
    residual_answered a = residual_refresh_residual(false, 4, 8, false, inter, 16, residual, 17);
    expect(a.number == 0 && a.place == 0 && residual[3] == 0 && residual[16] == 7, "refresh_residual");
    a = residual_refresh_residual(false, 4, 8, false, inter, 15, residual, 17);
    expect(a.number == 7 && residual[3] == 0, "refresh_residual, a short intermediate");
}

/* Level 2 at index 0, QP' 4, depth 8: coefficient 64, residual 1 everywhere. Level 40000 is limited, and so is its coefficient; then the same by a list whose entry 0 is 16. */
static void level_edits(void) {
    int32_t levels[17] = {2, [16] = 7}, coeff[17] = {[16] = 7}, inter[16], residual[16];
    uint8_t entries[64];
    for (int i = 0; i < 64; i++) entries[i] = (uint8_t)(16 + i);
    residual_block_answered b = residual_open_levels(false, 4, 8, false, 4, levels, 17, coeff, 17, inter, 16, residual, 16);
    expect(b.number == 0 && b.block.levels && b.block.qp_prime == 4 && !b.block.listed && b.block.columns == 1 && coeff[0] == 64 && residual[15] == 1, "open_levels");
    expect(b.limited == 0, "open_levels, what was limited");
    residual_level_edit_answered e = residual_edit_level(b.block, levels, 17, coeff, 17, inter, 16, residual, 16, 0, 0, 40000);
    expect(e.number == 0 && e.level_limited && e.result_limited && levels[0] == 40000 && coeff[0] == 32767 && levels[16] == 7 && coeff[16] == 7, "edit_level");
    b = residual_edit(e.block, coeff, 17, inter, 16, residual, 16, 0, 0, 1);
    expect(b.number == 10 && coeff[0] == 32767 && b.block.columns == 1, "edit, of a block that was opened on levels");
    b = residual_open_levels_scaled(false, 4, 8, false, 4, entries, 64, 9, levels, 17, coeff, 17, inter, 16, residual, 16);
    expect(b.number == 0 && b.limited == 1 && b.block.listed && b.block.dc == 9 && b.block.entries[63] == 79, "open_levels_scaled");
    e = residual_edit_level(b.block, levels, 17, coeff, 17, inter, 16, residual, 16, 0, 1, 16);
    expect(e.number == 0 && !e.level_limited && !e.result_limited && coeff[1] == 544 && e.block.columns == 2, "edit_level, with a list");
    b = residual_open_levels_scaled(false, 4, 8, false, 4, entries, 63, 9, levels, 17, coeff, 17, inter, 16, residual, 16);
    expect(b.number == 5 && b.block.size == 0, "open_levels_scaled, refused");
    size_t rows[2] = {0, 0}, columns[2] = {0, 1};
    int32_t values[2] = {2, 0};
    bool ways[2] = {true, true};
    uint8_t numbers[2] = {9, 9}, named[2] = {9, 9}, across[2] = {9, 9}, limits[2] = {9, 9};
    residual_list_answered l = residual_open_levels_and_edit(false, 4, 8, false, 4, levels, 17, coeff, 17, inter, 16, residual, 16, rows, 2, columns, 2, values, 2, ways, 2, numbers, 2, named, 2, across, 2, limits, 2);
    expect(l.number == 0 && l.limited == 1 && l.edits == 2 && l.block.columns == 1 && limits[0] == 0 && numbers[0] == 0 && numbers[1] == 0 && levels[0] == 2 && levels[1] == 0 && residual[0] == 1, "open_levels_and_edit");
    l = residual_open_levels_scaled_and_edit(false, 4, 8, false, 4, entries, 64, 9, levels, 17, coeff, 17, inter, 16, residual, 16, rows, 2, columns, 2, values, 2, ways, 2, numbers, 2, named, 2, across, 2, limits, 2);
    expect(l.number == 0 && l.edits == 2 && l.block.listed && coeff[0] == 64, "open_levels_scaled_and_edit");
}
#endif

#ifdef has_picture
/* A 4×4 block in the corner of a picture of 5 × 4 with stride 6, then the checksum of a 2 × 2 picture with stride 3. */
static void pictures(void) {
    int32_t residual[16] = {[0] = INT32_MAX, [1] = INT32_MIN, [15] = -1};
    uint16_t prediction[16], plane[24];
    for (int i = 0; i < 16; i++) prediction[i] = 100;
    for (int i = 0; i < 24; i++) plane[i] = 999;
    picture_answered a = picture_rebuild_block(4, 8, residual, 16, prediction, 16, 5, 4, 6, 1, 0, plane, 24);
    expect(a.number == 0 && a.place == 0 && plane[0] == 999 && plane[1] == 255 && plane[2] == 0 && plane[3] == 100 && plane[5] == 999 && plane[22] == 99 && plane[23] == 999, "rebuild_block");
    uint16_t samples[6] = {1, 2, 99, 3, 4, 99};
    picture_number_answered sum = picture_checksum(2, 2, 3, 8, samples, 6);
    expect(sum.number == 0 && sum.place == 0 && sum.value == 10, "picture_checksum");
}
#endif

#ifdef has_lists
/* Twenty defaults, two bits each, but for the first list: its entries are 9 everywhere, sixteen deltas of which the first is 1. */
static void lists(void) {
    uint8_t four[64], intra[64], inter[64], out[1281], dcs[21];
    memset(four, 16, 64), memset(intra, 17, 64), memset(inter, 18, 64), memset(out, 7, sizeof out), memset(dcs, 7, sizeof dcs);
    /* 1 010 then fifteen 1s, then 01 nineteen times */
    uint8_t bytes[8] = {0xaf, 0xff, 0xea, 0xaa, 0xaa, 0xaa, 0xaa, 0x80};
    residual_bits_answered a = residual_read_scaling_lists(bytes, 8, four, 64, intra, 64, inter, 64, out, 1281, dcs, 21);
    bool same = a.number == 0 && a.place == 0 && a.bits == 57 && out[0] == 9 && out[15] == 9 && out[16] == 0 && out[63] == 0 && out[64] == 16 && out[6 * 64] == 17 && out[9 * 64] == 18 && out[18 * 64 + 63] == 17 && out[1279] == 18;
    expect(same && out[1280] == 7 && dcs[0] == 16 && dcs[19] == 16 && dcs[20] == 7, "read_scaling_lists");
    out[0] = 5;
    a = residual_read_scaling_lists(bytes, 0, four, 64, intra, 64, inter, 64, out, 1281, dcs, 21);
    expect(a.number == 14 && a.place == 0 && a.bits == 0 && out[0] == 5, "read_scaling_lists, refused");
}
#endif

#ifdef has_writer
/* Twenty defaults, but for the first list, whose entries are 9: what `lists` reads. */
static void written(void) {
    uint8_t four[64], intra[64], inter[64], all[1280], dcs[20], out[9];
    memset(four, 16, 64), memset(intra, 17, 64), memset(inter, 18, 64), memset(dcs, 16, 20), memset(out, 7, 9);
    for (int j = 0; j < 20; j++) memset(all + 64 * j, j < 6 ? 16 : j < 18 ? (j % 6 < 3 ? 17 : 18) : (j == 18 ? 17 : 18), 64);
    memset(all, 9, 16);
    const uint8_t bytes[8] = {0xaf, 0xff, 0xea, 0xaa, 0xaa, 0xaa, 0xaa, 0x80};
    residual_bits_answered a = residual_write_scaling_lists(all, 1280, dcs, 20, four, 64, intra, 64, inter, 64, out, 9);
    expect(a.number == 0 && a.bits == 57 && memcmp(out, bytes, 8) == 0 && out[8] == 7, "write_scaling_lists");
    all[3] = 0;
    a = residual_write_scaling_lists(all, 1280, dcs, 20, four, 64, intra, 64, inter, 64, out, 7);
    expect(a.number == 16 && a.bits == 0, "write_scaling_lists, refused");
}
#endif

#ifdef has_tables
/* A list of 20s with DC 30 under number 0 of stream 1: with QP' 4 level 2 gives 2 * 40 by an entry and 2 * 60 by DC. Stream 0 holds nothing. */
static void tables(void) {
    uint8_t table[1584] = {0}, list[64], back[64];
    memset(list, 20, 64);
    residual_store_answered s = residual_store_list(table, 1584, 1, list, 64, 30);
    expect(s.number == 0 && s.stored == 0 && table[792] == 1 && table[793] == 30 && table[857] == 20, "store_list");
    residual_number_answered dc = residual_list_at(table, 1584, 1, 0, back, 64);
    expect(dc.number == 0 && dc.value == 30 && back[63] == 20, "list_at");
    int32_t levels[16] = {2}, out[16];
    int16_t out16[16];
    residual_count_answered a = residual_dequantize_by_number_i32(table, 1584, 1, 0, levels, 16, 4, 4, 8, false, out, 16);
    expect(a.number == 0 && out[0] == 80 && out[5] == 0, "dequantize_by_number_i32");
    a = residual_dequantize_by_number_i16(table, 1584, 1, 0, levels, 16, 4, 4, 8, false, out16, 16);
    expect(a.number == 0 && out16[0] == 80, "dequantize_by_number_i16");
    a = residual_dequantize_transform_skip_by_number_i32(table, 1584, 1, 0, levels, 16, 4, 4, 8, false, out, 16);
    expect(a.number == 0 && out[0] == 3, "dequantize_transform_skip_by_number_i32");
    a = residual_dequantize_transform_skip_by_number_i16(table, 1584, 0, 0, levels, 16, 4, 4, 8, false, out16, 16);
    expect(a.number == 18 && out16[0] == 80, "dequantize_transform_skip_by_number_i16, refused");
    residual_answered dropped = residual_drop_list(table, 1584, 1, 0);
    expect(dropped.number == 0 && table[792] == 0, "drop_list");
}
#endif

#ifdef has_tools
/* Level 1 at index 0 alone: rotated it stands at index 15; along rows it stays there, and unrotated it fills its row. Level 1 with QP' 4 gives 32, and 32 level 1. */
static void tools(void) {
    int32_t levels[16] = {1}, out[16];
    uint8_t list[64];
    memset(list, 16, 64);
    residual_answered a = residual_bypass_residual(levels, 16, 4, 8, false, true, 1, out, 16);
    expect(a.number == 0 && out[15] == 1 && out[14] == 0 && out[0] == 0, "bypass_residual");
    levels[0] = 32;
    residual_count_answered skipped = residual_transform_skip_residual(levels, 16, 4, 4, 8, false, false, 1, out, 16);
    expect(skipped.number == 0 && skipped.limited == 0 && out[0] == 32 && out[3] == 32 && out[4] == 0, "transform_skip_residual");
    skipped = residual_transform_skip_scaled_residual(levels, 16, 4, 4, 8, false, list, 64, 16, false, 2, out, 16);
    expect(skipped.number == 0 && skipped.limited == 0 && out[0] == 32 && out[3] == 0 && out[12] == 32, "transform_skip_scaled_residual");
    skipped = residual_transform_skip_residual(levels, 16, 8, 4, 8, false, true, 0, out, 16);
    expect(skipped.number == 25 && out[12] == 32, "transform_skip_residual, refused");
    a = residual_find_levels(levels, 16, 4, 4, 8, false, out, 16);
    expect(a.number == 0 && out[0] == 1 && out[1] == 0, "find_levels");
    levels[6] = 33;
    a = residual_find_levels_scaled(levels, 16, 4, 4, 8, false, list, 64, 16, out, 16);
    expect(a.number == 11 && a.row == 1 && a.column == 2 && out[0] == 1, "find_levels_scaled, refused");
}
#endif

#ifdef has_contributions
static void contributions(void) {
    int32_t coeff[16] = {0};
    int64_t out[17] = {0};
    coeff[6] = -100, out[16] = 5;
    residual_answered a = residual_contributions(true, 4, 1, 3, coeff, 16, out, 17);
    expect(a.number == 0 && out[6] == -74 * 55 * 100 && out[5] == 0 && out[16] == 5, "contributions");
    a = residual_contributions(false, 4, 4, 0, coeff, 16, out, 16);
    expect(a.number == 8 && out[6] == -74 * 55 * 100, "contributions, refused");
}
#endif

#ifdef has_search
static void search(void) {
    int32_t coeff[16] = {0}, target[16], least[16], most[16];
    uint8_t list[64], wanted[16];
    memset(list, 16, 64);
    memset(wanted, 1, 16);
    for (int i = 0; i < 16; i++) target[i] = 1;
    residual_answered a = residual_find_edits(false, 4, 8, false, coeff, 16, target, 16, wanted, 16, least, 16, most, 16);
    expect(a.number == 0 && least[0] == 63 && most[0] == 190 && least[1] == 1 && most[1] == 0, "find_edits");
    a = residual_find_level_edits(false, 4, 4, 8, false, coeff, 16, target, 16, wanted, 16, least, 16, most, 16);
    expect(a.number == 0 && least[0] == 2 && most[0] == 5 && least[1] == 1 && most[1] == 0, "find_level_edits");
    a = residual_find_level_edits_scaled(false, 4, 4, 8, false, list, 63, 16, coeff, 16, target, 16, wanted, 16, least, 16, most, 16);
    expect(a.number == 5 && least[0] == 2 && most[0] == 5, "find_level_edits_scaled, refused");
}
#endif

#ifdef has_feed
static void feed(void) {
    uint8_t bytes[71] = {1, 8, 0, 4, 0, 4, 2}, text[16384];
    bytes[70] = 9;
    size_t room = residual_feed_room(bytes, 71);
    expect(room >= 93 && room <= sizeof text, "feed_room");
    residual_ran ran = residual_feed_run(bytes, 71, text, room - 1);
    expect(!ran.room && ran.end == 0, "feed_run, a byte short");
    ran = residual_feed_run(bytes, 71, text, room);
    expect(ran.room && ran.end == 93 && !memcmp(text, "1 1 1 1\n", 8) && !memcmp(text + 74, "columns 1\nblocks 1\n", 19), "feed_run");
}
#endif

#ifdef has_listing
static void listing(void) {
    uint8_t bytes[71 + 66] = {1, 8, 0, 4, 0, 2}, text[512];
    memset(bytes + 6, 20, 64);
    bytes[70] = 30, bytes[71] = 4, bytes[136] = 10;
    size_t room = residual_listing_room(bytes, 137);
    expect(room == 16 * 20 + 40, "listing_room");
    residual_ran ran = residual_listing_run(bytes, 137, text, room - 1);
    expect(!ran.room && ran.end == 0, "listing_run, a byte short");
    text[room] = 5;
    ran = residual_listing_run(bytes, 137, text, room + 1);
    expect(ran.room && ran.end == 10 * 12 + 6 * 14 + 15 && !memcmp(text, "0 20 four 0\n", 12) && !memcmp(text + 190, "15 20 four 15\nrefused 20 136\n", 29) && text[room] == 5, "listing_run");
}
#endif

int main(void) {
    quantities();
#ifdef has_scaling
    scaling();
#endif
#ifdef has_transform
    transforms();
#endif
#ifdef has_edits
    edits();
    level_edits();
#endif
#ifdef has_picture
    pictures();
#endif
#ifdef has_lists
    lists();
#endif
#ifdef has_writer
    written();
#endif
#ifdef has_tables
    tables();
#endif
#ifdef has_tools
    tools();
#endif
#ifdef has_search
    search();
#endif
#ifdef has_contributions
    contributions();
#endif
#ifdef has_feed
    feed();
#endif
#ifdef has_listing
    listing();
#endif
    printf("header: %d calls, %d failed\n", called, failed);
    return failed != 0;
}
