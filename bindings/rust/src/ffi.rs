//! What include/residual.h and include/picture.h declare, one to one. `python3 tests/bindings.py --write` writes this file.
//!
//! The functions of the crate's root are safe over these. Here a buffer is a pointer and a length: the pointer is valid for that many elements and not null,
//! and an output overlaps no other buffer.

/// `residual_answered`
#[repr(C)]
#[derive(Clone, Copy, Debug, Default, PartialEq, Eq)]
pub struct Answered {
    pub number: u32,
    pub row: u8,
    pub column: u8,
    pub place: usize,
}

/// `residual_count_answered`
#[repr(C)]
#[derive(Clone, Copy, Debug, Default, PartialEq, Eq)]
pub struct CountAnswered {
    pub number: u32,
    pub row: u8,
    pub column: u8,
    pub limited: u16,
    pub place: usize,
}

/// `residual_level_answered`
#[repr(C)]
#[derive(Clone, Copy, Debug, Default, PartialEq, Eq)]
pub struct LevelAnswered {
    pub number: u32,
    pub row: u8,
    pub column: u8,
    pub level_limited: bool,
    pub result_limited: bool,
    pub place: usize,
    pub value: i32,
}

/// `residual_number_answered`
#[repr(C)]
#[derive(Clone, Copy, Debug, Default, PartialEq, Eq)]
pub struct NumberAnswered {
    pub number: u32,
    pub row: u8,
    pub column: u8,
    pub place: usize,
    pub value: u32,
}

/// `residual_signed_answered`
#[repr(C)]
#[derive(Clone, Copy, Debug, Default, PartialEq, Eq)]
pub struct SignedAnswered {
    pub number: u32,
    pub row: u8,
    pub column: u8,
    pub place: usize,
    pub value: i32,
}

/// `residual_bits_answered`
#[repr(C)]
#[derive(Clone, Copy, Debug, Default, PartialEq, Eq)]
pub struct BitsAnswered {
    pub number: u32,
    pub row: u8,
    pub column: u8,
    pub place: usize,
    pub bits: usize,
}

/// `residual_store_answered`
#[repr(C)]
#[derive(Clone, Copy, Debug, Default, PartialEq, Eq)]
pub struct StoreAnswered {
    pub number: u32,
    pub row: u8,
    pub column: u8,
    pub place: usize,
    pub stored: usize,
}

/// `residual_dequant_answered`
#[repr(C)]
#[derive(Clone, Copy, Debug, Default, PartialEq, Eq)]
pub struct DequantAnswered {
    pub number: u32,
    pub row: u8,
    pub column: u8,
    pub place: usize,
    pub factor: i64,
    pub add: i64,
    pub shift: u32,
    pub clip_min: i64,
    pub clip_max: i64,
}

/// `residual_transform_skip_answered`
#[repr(C)]
#[derive(Clone, Copy, Debug, Default, PartialEq, Eq)]
pub struct TransformSkipAnswered {
    pub number: u32,
    pub row: u8,
    pub column: u8,
    pub place: usize,
    pub factor: i64,
    pub add: i64,
    pub shift: u32,
    pub clip_min: i64,
    pub clip_max: i64,
    pub tr_add: i32,
    pub tr_shift: i32,
}

/// `residual_block`
#[repr(C)]
#[derive(Clone, Copy, Debug, PartialEq, Eq)]
pub struct Block {
    pub dst: bool,
    pub size: usize,
    pub depth: u8,
    pub extended: bool,
    pub columns: usize,
    pub levels: bool,
    pub qp_prime: i32,
    pub listed: bool,
    pub dc: u8,
    pub entries: [u8; 64],
}

impl Default for Block {
    fn default() -> Self {
        Block { dst: Default::default(), size: Default::default(), depth: Default::default(), extended: Default::default(), columns: Default::default(), levels: Default::default(), qp_prime: Default::default(), listed: Default::default(), dc: Default::default(), entries: [0; 64] }
    }
}

/// `residual_block_answered`
#[repr(C)]
#[derive(Clone, Copy, Debug, Default, PartialEq, Eq)]
pub struct BlockAnswered {
    pub number: u32,
    pub row: u8,
    pub column: u8,
    pub limited: u16,
    pub place: usize,
    pub block: Block,
}

/// `residual_level_edit_answered`
#[repr(C)]
#[derive(Clone, Copy, Debug, Default, PartialEq, Eq)]
pub struct LevelEditAnswered {
    pub number: u32,
    pub row: u8,
    pub column: u8,
    pub level_limited: bool,
    pub result_limited: bool,
    pub place: usize,
    pub block: Block,
}

/// `residual_list_answered`
#[repr(C)]
#[derive(Clone, Copy, Debug, Default, PartialEq, Eq)]
pub struct ListAnswered {
    pub number: u32,
    pub row: u8,
    pub column: u8,
    pub limited: u16,
    pub place: usize,
    pub block: Block,
    pub edits: usize,
}

/// `residual_ran`
#[repr(C)]
#[derive(Clone, Copy, Debug, Default, PartialEq, Eq)]
pub struct Ran {
    pub room: bool,
    pub end: usize,
}

/// `picture_answered`
#[repr(C)]
#[derive(Clone, Copy, Debug, Default, PartialEq, Eq)]
pub struct PictureAnswered {
    pub number: u32,
    pub row: u8,
    pub column: u8,
    pub place: usize,
}

/// `picture_number_answered`
#[repr(C)]
#[derive(Clone, Copy, Debug, Default, PartialEq, Eq)]
pub struct PictureNumberAnswered {
    pub number: u32,
    pub row: u8,
    pub column: u8,
    pub place: usize,
    pub value: u32,
}

unsafe extern "C" {
    pub fn residual_version() -> u32;
    pub fn residual_max_log2_transform_dynamic_range(bit_depth: u8, extended_precision: bool) -> NumberAnswered;
    pub fn residual_qp_bd_offset(bit_depth: u8) -> NumberAnswered;
    pub fn residual_qp_prime(qp: i32, bit_depth: u8) -> SignedAnswered;
    pub fn residual_dequant_params(n: usize, qp_prime: i32, bit_depth: u8, extended_precision: bool) -> DequantAnswered;
    pub fn residual_transform_skip_params(n: usize, qp_prime: i32, bit_depth: u8, extended_precision: bool) -> TransformSkipAnswered;
    pub fn residual_scaling_coeff(list: *const u8, list_len: usize, dc: u8, n: usize, index: usize) -> NumberAnswered;
    pub fn residual_scale_level(level: i32, m: u8, n: usize, qp_prime: i32, bit_depth: u8, extended_precision: bool) -> LevelAnswered;
    pub fn residual_dequantize_into_scalar_i32(
        levels: *const i32,
        levels_len: usize,
        n: usize,
        qp_prime: i32,
        bit_depth: u8,
        extended_precision: bool,
        out: *mut i32,
        out_len: usize,
    ) -> CountAnswered;
    pub fn residual_dequantize_scaled_into_scalar_i32(
        levels: *const i32,
        levels_len: usize,
        n: usize,
        qp_prime: i32,
        bit_depth: u8,
        extended_precision: bool,
        list: *const u8,
        list_len: usize,
        dc: u8,
        out: *mut i32,
        out_len: usize,
    ) -> CountAnswered;
    pub fn residual_dequantize_into_scalar_i16(
        levels: *const i32,
        levels_len: usize,
        n: usize,
        qp_prime: i32,
        bit_depth: u8,
        extended_precision: bool,
        out: *mut i16,
        out_len: usize,
    ) -> CountAnswered;
    pub fn residual_dequantize_scaled_into_scalar_i16(
        levels: *const i32,
        levels_len: usize,
        n: usize,
        qp_prime: i32,
        bit_depth: u8,
        extended_precision: bool,
        list: *const u8,
        list_len: usize,
        dc: u8,
        out: *mut i16,
        out_len: usize,
    ) -> CountAnswered;
    pub fn residual_dequantize_transform_skip_into_scalar_i32(
        levels: *const i32,
        levels_len: usize,
        n: usize,
        qp_prime: i32,
        bit_depth: u8,
        extended_precision: bool,
        out: *mut i32,
        out_len: usize,
    ) -> CountAnswered;
    pub fn residual_dequantize_transform_skip_scaled_into_scalar_i32(
        levels: *const i32,
        levels_len: usize,
        n: usize,
        qp_prime: i32,
        bit_depth: u8,
        extended_precision: bool,
        list: *const u8,
        list_len: usize,
        dc: u8,
        out: *mut i32,
        out_len: usize,
    ) -> CountAnswered;
    pub fn residual_dequantize_transform_skip_into_scalar_i16(
        levels: *const i32,
        levels_len: usize,
        n: usize,
        qp_prime: i32,
        bit_depth: u8,
        extended_precision: bool,
        out: *mut i16,
        out_len: usize,
    ) -> CountAnswered;
    pub fn residual_dequantize_transform_skip_scaled_into_scalar_i16(
        levels: *const i32,
        levels_len: usize,
        n: usize,
        qp_prime: i32,
        bit_depth: u8,
        extended_precision: bool,
        list: *const u8,
        list_len: usize,
        dc: u8,
        out: *mut i16,
        out_len: usize,
    ) -> CountAnswered;
    pub fn residual_read_scaling_lists(
        bytes: *const u8,
        bytes_len: usize,
        default_4x4: *const u8,
        default_4x4_len: usize,
        default_intra: *const u8,
        default_intra_len: usize,
        default_inter: *const u8,
        default_inter_len: usize,
        lists: *mut u8,
        lists_len: usize,
        dcs: *mut u8,
        dcs_len: usize,
    ) -> BitsAnswered;
    pub fn residual_write_scaling_lists(
        lists: *const u8,
        lists_len: usize,
        dcs: *const u8,
        dcs_len: usize,
        default_4x4: *const u8,
        default_4x4_len: usize,
        default_intra: *const u8,
        default_intra_len: usize,
        default_inter: *const u8,
        default_inter_len: usize,
        out: *mut u8,
        out_len: usize,
    ) -> BitsAnswered;
    pub fn residual_inv_transform_into_scalar(
        coeff: *const i32,
        coeff_len: usize,
        n: usize,
        bit_depth: u8,
        nx: usize,
        out: *mut i32,
        out_len: usize,
    ) -> Answered;
    pub fn residual_inv_transform_into_scalar_extended(
        coeff: *const i32,
        coeff_len: usize,
        n: usize,
        bit_depth: u8,
        nx: usize,
        out: *mut i32,
        out_len: usize,
    ) -> Answered;
    pub fn residual_inv_transform_into_scalar16(
        coeff: *const i16,
        coeff_len: usize,
        n: usize,
        bit_depth: u8,
        nx: usize,
        out: *mut i16,
        out_len: usize,
    ) -> Answered;
    pub fn residual_inv_transform_dst_into_scalar(coeff: *const i32, coeff_len: usize, bit_depth: u8, out: *mut i32, out_len: usize) -> Answered;
    pub fn residual_inv_transform_dst_into_scalar_extended(
        coeff: *const i32,
        coeff_len: usize,
        bit_depth: u8,
        out: *mut i32,
        out_len: usize,
    ) -> Answered;
    pub fn residual_inv_transform_dst_into_scalar16(coeff: *const i16, coeff_len: usize, bit_depth: u8, out: *mut i16, out_len: usize) -> Answered;
    pub fn residual_store_list(table: *mut u8, table_len: usize, stream: usize, list: *const u8, list_len: usize, dc: u8) -> StoreAnswered;
    pub fn residual_drop_list(table: *mut u8, table_len: usize, stream: usize, number: usize) -> Answered;
    pub fn residual_list_at(table: *const u8, table_len: usize, stream: usize, number: usize, list: *mut u8, list_len: usize) -> NumberAnswered;
    pub fn residual_dequantize_by_number_i32(
        table: *const u8,
        table_len: usize,
        stream: usize,
        number: usize,
        levels: *const i32,
        levels_len: usize,
        n: usize,
        qp_prime: i32,
        bit_depth: u8,
        extended_precision: bool,
        out: *mut i32,
        out_len: usize,
    ) -> CountAnswered;
    pub fn residual_dequantize_by_number_i16(
        table: *const u8,
        table_len: usize,
        stream: usize,
        number: usize,
        levels: *const i32,
        levels_len: usize,
        n: usize,
        qp_prime: i32,
        bit_depth: u8,
        extended_precision: bool,
        out: *mut i16,
        out_len: usize,
    ) -> CountAnswered;
    pub fn residual_dequantize_transform_skip_by_number_i32(
        table: *const u8,
        table_len: usize,
        stream: usize,
        number: usize,
        levels: *const i32,
        levels_len: usize,
        n: usize,
        qp_prime: i32,
        bit_depth: u8,
        extended_precision: bool,
        out: *mut i32,
        out_len: usize,
    ) -> CountAnswered;
    pub fn residual_dequantize_transform_skip_by_number_i16(
        table: *const u8,
        table_len: usize,
        stream: usize,
        number: usize,
        levels: *const i32,
        levels_len: usize,
        n: usize,
        qp_prime: i32,
        bit_depth: u8,
        extended_precision: bool,
        out: *mut i16,
        out_len: usize,
    ) -> CountAnswered;
    pub fn residual_transform_skip_residual(
        levels: *const i32,
        levels_len: usize,
        n: usize,
        qp_prime: i32,
        bit_depth: u8,
        extended_precision: bool,
        rotate: bool,
        accumulate: u8,
        out: *mut i32,
        out_len: usize,
    ) -> CountAnswered;
    pub fn residual_transform_skip_scaled_residual(
        levels: *const i32,
        levels_len: usize,
        n: usize,
        qp_prime: i32,
        bit_depth: u8,
        extended_precision: bool,
        list: *const u8,
        list_len: usize,
        dc: u8,
        rotate: bool,
        accumulate: u8,
        out: *mut i32,
        out_len: usize,
    ) -> CountAnswered;
    pub fn residual_bypass_residual(
        levels: *const i32,
        levels_len: usize,
        n: usize,
        bit_depth: u8,
        extended_precision: bool,
        rotate: bool,
        accumulate: u8,
        out: *mut i32,
        out_len: usize,
    ) -> Answered;
    pub fn residual_find_levels(
        coeff: *const i32,
        coeff_len: usize,
        n: usize,
        qp_prime: i32,
        bit_depth: u8,
        extended_precision: bool,
        levels: *mut i32,
        levels_len: usize,
    ) -> Answered;
    pub fn residual_find_levels_scaled(
        coeff: *const i32,
        coeff_len: usize,
        n: usize,
        qp_prime: i32,
        bit_depth: u8,
        extended_precision: bool,
        list: *const u8,
        list_len: usize,
        dc: u8,
        levels: *mut i32,
        levels_len: usize,
    ) -> Answered;
    pub fn residual_find_edits(
        dst: bool,
        n: usize,
        bit_depth: u8,
        extended_precision: bool,
        coeff: *const i32,
        coeff_len: usize,
        target: *const i32,
        target_len: usize,
        wanted: *const u8,
        wanted_len: usize,
        least: *mut i32,
        least_len: usize,
        most: *mut i32,
        most_len: usize,
    ) -> Answered;
    pub fn residual_find_level_edits(
        dst: bool,
        n: usize,
        qp_prime: i32,
        bit_depth: u8,
        extended_precision: bool,
        levels: *const i32,
        levels_len: usize,
        target: *const i32,
        target_len: usize,
        wanted: *const u8,
        wanted_len: usize,
        least: *mut i32,
        least_len: usize,
        most: *mut i32,
        most_len: usize,
    ) -> Answered;
    pub fn residual_find_level_edits_scaled(
        dst: bool,
        n: usize,
        qp_prime: i32,
        bit_depth: u8,
        extended_precision: bool,
        list: *const u8,
        list_len: usize,
        dc: u8,
        levels: *const i32,
        levels_len: usize,
        target: *const i32,
        target_len: usize,
        wanted: *const u8,
        wanted_len: usize,
        least: *mut i32,
        least_len: usize,
        most: *mut i32,
        most_len: usize,
    ) -> Answered;
    pub fn residual_rounding_bound(dst: bool, n: usize, bit_depth: u8, extended_precision: bool) -> NumberAnswered;
    pub fn residual_contributions(
        dst: bool,
        n: usize,
        row: usize,
        column: usize,
        coeff: *const i32,
        coeff_len: usize,
        out: *mut i64,
        out_len: usize,
    ) -> Answered;
    pub fn residual_open_block(
        dst: bool,
        n: usize,
        bit_depth: u8,
        extended_precision: bool,
        coeff: *const i32,
        coeff_len: usize,
        inter: *mut i32,
        inter_len: usize,
        residual: *mut i32,
        residual_len: usize,
    ) -> BlockAnswered;
    pub fn residual_open_levels(
        dst: bool,
        n: usize,
        bit_depth: u8,
        extended_precision: bool,
        qp_prime: i32,
        levels: *const i32,
        levels_len: usize,
        coeff: *mut i32,
        coeff_len: usize,
        inter: *mut i32,
        inter_len: usize,
        residual: *mut i32,
        residual_len: usize,
    ) -> BlockAnswered;
    pub fn residual_open_levels_scaled(
        dst: bool,
        n: usize,
        bit_depth: u8,
        extended_precision: bool,
        qp_prime: i32,
        list: *const u8,
        list_len: usize,
        dc: u8,
        levels: *const i32,
        levels_len: usize,
        coeff: *mut i32,
        coeff_len: usize,
        inter: *mut i32,
        inter_len: usize,
        residual: *mut i32,
        residual_len: usize,
    ) -> BlockAnswered;
    pub fn residual_edit(
        block: Block,
        coeff: *mut i32,
        coeff_len: usize,
        inter: *mut i32,
        inter_len: usize,
        residual: *mut i32,
        residual_len: usize,
        row: usize,
        column: usize,
        value: i32,
    ) -> BlockAnswered;
    pub fn residual_edit_level(
        block: Block,
        levels: *mut i32,
        levels_len: usize,
        coeff: *mut i32,
        coeff_len: usize,
        inter: *mut i32,
        inter_len: usize,
        residual: *mut i32,
        residual_len: usize,
        row: usize,
        column: usize,
        level: i32,
    ) -> LevelEditAnswered;
    pub fn residual_open_and_edit(
        dst: bool,
        n: usize,
        bit_depth: u8,
        extended_precision: bool,
        levels: *mut i32,
        levels_len: usize,
        coeff: *mut i32,
        coeff_len: usize,
        inter: *mut i32,
        inter_len: usize,
        residual: *mut i32,
        residual_len: usize,
        rows: *const usize,
        rows_len: usize,
        columns: *const usize,
        columns_len: usize,
        values: *const i32,
        values_len: usize,
        ways: *const bool,
        ways_len: usize,
        numbers: *mut u8,
        numbers_len: usize,
        named: *mut u8,
        named_len: usize,
        across: *mut u8,
        across_len: usize,
        limits: *mut u8,
        limits_len: usize,
    ) -> ListAnswered;
    pub fn residual_open_levels_and_edit(
        dst: bool,
        n: usize,
        bit_depth: u8,
        extended_precision: bool,
        qp_prime: i32,
        levels: *mut i32,
        levels_len: usize,
        coeff: *mut i32,
        coeff_len: usize,
        inter: *mut i32,
        inter_len: usize,
        residual: *mut i32,
        residual_len: usize,
        rows: *const usize,
        rows_len: usize,
        columns: *const usize,
        columns_len: usize,
        values: *const i32,
        values_len: usize,
        ways: *const bool,
        ways_len: usize,
        numbers: *mut u8,
        numbers_len: usize,
        named: *mut u8,
        named_len: usize,
        across: *mut u8,
        across_len: usize,
        limits: *mut u8,
        limits_len: usize,
    ) -> ListAnswered;
    pub fn residual_open_levels_scaled_and_edit(
        dst: bool,
        n: usize,
        bit_depth: u8,
        extended_precision: bool,
        qp_prime: i32,
        list: *const u8,
        list_len: usize,
        dc: u8,
        levels: *mut i32,
        levels_len: usize,
        coeff: *mut i32,
        coeff_len: usize,
        inter: *mut i32,
        inter_len: usize,
        residual: *mut i32,
        residual_len: usize,
        rows: *const usize,
        rows_len: usize,
        columns: *const usize,
        columns_len: usize,
        values: *const i32,
        values_len: usize,
        ways: *const bool,
        ways_len: usize,
        numbers: *mut u8,
        numbers_len: usize,
        named: *mut u8,
        named_len: usize,
        across: *mut u8,
        across_len: usize,
        limits: *mut u8,
        limits_len: usize,
    ) -> ListAnswered;
    pub fn residual_refresh_residual(
        dst: bool,
        n: usize,
        bit_depth: u8,
        extended_precision: bool,
        inter: *const i32,
        inter_len: usize,
        residual: *mut i32,
        residual_len: usize,
    ) -> Answered;
    pub fn residual_feed_room(feed: *const u8, feed_len: usize) -> usize;
    pub fn residual_feed_run(feed: *const u8, feed_len: usize, text: *mut u8, text_len: usize) -> Ran;
    pub fn residual_listing_room(feed: *const u8, feed_len: usize) -> usize;
    pub fn residual_listing_run(feed: *const u8, feed_len: usize, text: *mut u8, text_len: usize) -> Ran;
    pub fn picture_rebuild_block(
        n: usize,
        bit_depth: u8,
        residual: *const i32,
        residual_len: usize,
        prediction: *const u16,
        prediction_len: usize,
        width: usize,
        height: usize,
        stride: usize,
        x: usize,
        y: usize,
        plane: *mut u16,
        plane_len: usize,
    ) -> PictureAnswered;
    pub fn picture_checksum(width: usize, height: usize, stride: usize, bit_depth: u8, plane: *const u16, plane_len: usize) -> PictureNumberAnswered;
}
