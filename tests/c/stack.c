/* Measures the stack that each group of functions takes, on a thread whose stack was filled before. Fails above the 32 KiB that include/residual.h names, of the
 * searches for edits and of a feed above its 96. */
#define _GNU_SOURCE
#include "picture.h"
#include "residual.h"
#include <pthread.h>
#include <stdio.h>
#include <stdlib.h>
#include <string.h>
#include <sys/mman.h>

enum { STACK = 1 << 20, LIMIT = 32 << 10, WIDE = 96 << 10, N = 32, CELLS = N * N };

static unsigned char *stack;
static int32_t coeff[CELLS], inter[CELLS], residual[CELLS], levels[CELLS];
static int16_t coeff16[CELLS], out16[CELLS];
static int64_t shares[CELLS];
static uint8_t wanted[CELLS], list[64], lists[1280], dcs[20], bytes[2765], table[1584];
static uint16_t plane[256 * 256], prediction[CELLS];

static void nothing(void) {}

static void quantities(void)
{
    residual_max_log2_transform_dynamic_range(8, true), residual_qp_bd_offset(8), residual_qp_prime(3, 8), residual_dequant_params(4, 3, 8, false);
    residual_transform_skip_params(4, 3, 8, false), residual_rounding_bound(true, 4, 8, false);
}

static void scaling(void)
{
    residual_scaling_coeff(list, 64, 16, 32, 5), residual_scale_level(5, 16, 32, 30, 8, false);
    residual_dequantize_into_scalar_i32(levels, CELLS, N, 30, 12, true, coeff, CELLS);
    residual_dequantize_scaled_into_scalar_i32(levels, CELLS, N, 30, 12, true, list, 64, 16, coeff, CELLS);
    residual_dequantize_into_scalar_i16(levels, CELLS, N, 30, 8, false, coeff16, CELLS);
    residual_dequantize_scaled_into_scalar_i16(levels, CELLS, N, 30, 8, false, list, 64, 16, coeff16, CELLS);
    residual_dequantize_transform_skip_into_scalar_i32(levels, CELLS, N, 30, 12, true, coeff, CELLS);
    residual_dequantize_transform_skip_scaled_into_scalar_i32(levels, CELLS, N, 30, 12, true, list, 64, 16, coeff, CELLS);
    residual_dequantize_transform_skip_into_scalar_i16(levels, CELLS, N, 30, 8, false, coeff16, CELLS);
    residual_dequantize_transform_skip_scaled_into_scalar_i16(levels, CELLS, N, 30, 8, false, list, 64, 16, coeff16, CELLS);
}

static void wide(void)
{
    for (int i = 0; i < CELLS; i++) coeff[i] = i * 7919 % 4000000 - 2000000, coeff16[i] = (int16_t)(i * 7919 % 60000 - 30000);
}

static void transforms(void)
{
    wide();
    residual_inv_transform_into_scalar_extended(coeff, CELLS, N, 16, N, residual, CELLS);
    residual_inv_transform_dst_into_scalar_extended(coeff, CELLS, 16, residual, CELLS);
    residual_inv_transform_into_scalar16(coeff16, CELLS, N, 8, N, out16, CELLS);
    residual_inv_transform_dst_into_scalar16(coeff16, CELLS, 8, out16, CELLS);
    for (int i = 0; i < CELLS; i++) coeff[i] = coeff16[i];
    for (size_t n = 4; n <= 32; n *= 2) residual_inv_transform_into_scalar(coeff, CELLS, n, 8, n, residual, CELLS);
    residual_inv_transform_dst_into_scalar(coeff, CELLS, 8, residual, CELLS);
}

static void edits(void)
{
    wide();
    size_t rows[2] = {1, 2}, columns[2] = {3, 4};
    int32_t values[2] = {5, 6};
    bool ways[2] = {false, true};
    uint8_t numbers[2], named[2], across[2], limits[2], list[64] = {16};
    residual_block_answered b = residual_open_block(false, N, 16, true, coeff, CELLS, inter, CELLS, residual, CELLS);
    residual_edit(b.block, coeff, CELLS, inter, CELLS, residual, CELLS, 3, 3, 5);
    residual_open_and_edit(false, N, 16, true, levels, CELLS, coeff, CELLS, inter, CELLS, residual, CELLS, rows, 2, columns, 2, values, 2, ways, 2,
        numbers, 2, named, 2, across, 2, limits, 2);
    b = residual_open_levels(false, N, 16, true, 30, levels, CELLS, coeff, CELLS, inter, CELLS, residual, CELLS);
    residual_edit_level(b.block, levels, CELLS, coeff, CELLS, inter, CELLS, residual, CELLS, 3, 3, 5);
    residual_open_levels_and_edit(false, N, 16, true, 30, levels, CELLS, coeff, CELLS, inter, CELLS, residual, CELLS, rows, 2, columns, 2, values, 2, ways, 2,
        numbers, 2, named, 2, across, 2, limits, 2);
    residual_open_levels_scaled(false, N, 16, true, 30, list, 64, 16, levels, CELLS, coeff, CELLS, inter, CELLS, residual, CELLS);
    residual_open_levels_scaled_and_edit(false, N, 16, true, 30, list, 64, 16, levels, CELLS, coeff, CELLS, inter, CELLS, residual, CELLS, rows, 2, columns, 2,
        values, 2, ways, 2, numbers, 2, named, 2, across, 2, limits, 2);
    residual_refresh_residual(false, N, 16, true, inter, CELLS, residual, CELLS);
}

static void scaling_lists(void)
{
    const uint8_t defaults[5] = {0x55, 0x55, 0x55, 0x55, 0x55};
    residual_read_scaling_lists(defaults, 5, list, 64, list, 64, list, 64, lists, 1280, dcs, 20);
    for (int i = 0; i < 1280; i++) lists[i] = (uint8_t)(1 + i * 37 % 255);
    residual_write_scaling_lists(lists, 1280, dcs, 20, list, 64, list, 64, list, 64, bytes, sizeof bytes);
}

static void tables(void)
{
    residual_store_list(table, 1584, 1, list, 64, 3), residual_list_at(table, 1584, 1, 0, lists, 64);
    residual_dequantize_by_number_i32(table, 1584, 1, 0, levels, CELLS, N, 4, 12, true, coeff, CELLS);
    residual_dequantize_by_number_i16(table, 1584, 1, 0, levels, CELLS, N, 4, 8, false, coeff16, CELLS);
    residual_dequantize_transform_skip_by_number_i32(table, 1584, 1, 0, levels, CELLS, N, 4, 12, true, coeff, CELLS);
    residual_dequantize_transform_skip_by_number_i16(table, 1584, 1, 0, levels, CELLS, N, 4, 8, false, coeff16, CELLS);
    residual_drop_list(table, 1584, 1, 0);
}

static void tools(void)
{
    residual_transform_skip_residual(levels, CELLS, 4, 4, 8, false, true, 1, coeff, CELLS);
    residual_transform_skip_scaled_residual(levels, CELLS, N, 4, 8, false, list, 64, 3, false, 1, coeff, CELLS);
    residual_bypass_residual(levels, CELLS, N, 8, false, false, 2, coeff, CELLS);
}

static void search(void)
{
    memset(coeff, 0, sizeof coeff);
    residual_find_levels(coeff, CELLS, N, 4, 12, true, levels, CELLS);
    residual_find_levels_scaled(coeff, CELLS, N, 4, 12, true, list, 64, 16, levels, CELLS);
    residual_contributions(false, N, 5, 5, coeff, CELLS, shares, CELLS), residual_contributions(true, 4, 3, 3, coeff, CELLS, shares, CELLS);
}

static void found(void)
{
    memset(coeff, 0, sizeof coeff), memset(wanted, 1, sizeof wanted), memset(residual, 0, sizeof residual);
    residual_find_edits(false, N, 12, true, coeff, CELLS, residual, CELLS, wanted, CELLS, inter, CELLS, levels, CELLS);
    residual_find_level_edits(false, N, 4, 12, true, coeff, CELLS, residual, CELLS, wanted, CELLS, inter, CELLS, levels, CELLS);
    residual_find_level_edits_scaled(false, N, 4, 12, true, list, 64, 16, coeff, CELLS, residual, CELLS, wanted, CELLS, inter, CELLS, levels, CELLS);
}

static void pictures(void)
{
    picture_rebuild_block(N, 8, residual, CELLS, prediction, CELLS, 256, 256, 256, 5, 5, plane, 256 * 256);
    picture_checksum(256, 256, 256, 10, plane, 256 * 256);
}

static void feed(void)
{
    static uint8_t records[5 + 1 + 4 * CELLS + 8] = {1, 16, 1, 60, 0, 7, 40}, text[1 << 16];
    memcpy(records + 5 + 1 + 4 * CELLS, (const uint8_t[8]){8, 31, 31, 70, 0, 0, 0, 9}, 8);
    residual_feed_room(records, sizeof records), residual_feed_run(records, sizeof records, text, sizeof text);
    residual_listing_room(records, sizeof records), residual_listing_run(records, sizeof records, text, sizeof text);
}

static void *run(void *group)
{
    (*(void (**)(void))group)();
    return NULL;
}

static size_t taken(void (*group)(void))
{
    pthread_attr_t attributes;
    pthread_t thread;
    size_t free = 0;
    memset(stack, 0xa5, STACK);
    pthread_attr_init(&attributes);
    if (pthread_attr_setstack(&attributes, stack, STACK) || pthread_create(&thread, &attributes, run, &group) || pthread_join(thread, NULL)) abort();
    while (free < STACK && stack[free] == 0xa5) free++;
    return STACK - free;
}

int main(void)
{
    const struct { const char *name; void (*group)(void); size_t limit; } groups[] = {
        {"quantities", quantities, LIMIT}, {"scaling", scaling, LIMIT}, {"transforms", transforms, LIMIT}, {"edits", edits, LIMIT},
        {"lists", scaling_lists, LIMIT}, {"tables", tables, LIMIT}, {"tools", tools, LIMIT}, {"search", search, LIMIT}, {"pictures", pictures, LIMIT},
        {"searches for edits", found, WIDE}, {"a feed", feed, WIDE},
    };
    size_t own;
    int failed = 0;
    stack = mmap(NULL, STACK, PROT_READ | PROT_WRITE, MAP_PRIVATE | MAP_ANONYMOUS, -1, 0);
    if (stack == MAP_FAILED) return 2;
    memset(list, 16, 64);
    own = taken(nothing);
    for (size_t i = 0; i < sizeof groups / sizeof groups[0]; i++) {
        size_t bytes_taken = taken(groups[i].group) - own;
        printf("stack: %s %zu bytes\n", groups[i].name, bytes_taken);
        failed += bytes_taken > groups[i].limit;
    }
    printf("stack: %d groups of functions take more than they may\n", failed);
    return failed;
}
