//! The exported functions, as they stand in `crates/jaskkovir_c`. A lent part is a pointer and a length.
//!
//! Only the functions of `leaves.rt` ask something of their callers, beside valid parts: a part that
//! is written to must share no byte with another.

extern "C" {
    // crates/jaskkovir_c/src/leaves.rt
    pub fn jaskkovir_mv_projection(y: i16, x: i16, num: i16, den: u32) -> u32;
    pub fn jaskkovir_fix_mv_precision(y: i16, x: i16, integer: bool, hp: bool) -> u32;
    pub fn jaskkovir_get_poc_diff(bits: u32, a: u32, b: u32) -> i16;

    // crates/jaskkovir_c/src/frames.rt
    pub fn jaskkovir_init_frame(
        width: usize,
        height: usize,
        sb128: u8,
        hint_bits: u32,
        current_hint: u32,
        hints: *const u8,
        hints_len: usize,
        hints_by_ref: *const u8,
        hints_by_ref_len: usize,
        tile_rows: usize,
        tile_threads: usize,
        frame_threads: usize,
        temporal: u8,
        present: *const u8,
        present_len: usize,
        frame: *mut u8,
        frame_len: usize,
    ) -> u8;
    pub fn jaskkovir_check(frame: *const u8, frame_len: usize) -> u8;
    pub fn jaskkovir_listed_sizes(
        frame: *const u8,
        frame_len: usize,
        sizes: *mut u8,
        sizes_len: usize,
    ) -> u8;

    // crates/jaskkovir_c/src/tiles.rt
    pub fn jaskkovir_tile_sbrow_init(
        frame: *const u8,
        frame_len: usize,
        col_start: usize,
        col_end: usize,
        row_start: usize,
        row_end: usize,
        sby: usize,
        tile_row: usize,
        pass: usize,
        tile: *mut u8,
        tile_len: usize,
    ) -> u8;
    pub fn jaskkovir_splat_mv(
        frame: *const u8,
        frame_len: usize,
        tile: *const u8,
        tile_len: usize,
        block: *const u8,
        block_len: usize,
        y: usize,
        x: usize,
        w: usize,
        h: usize,
        records: *mut u8,
        records_len: usize,
    ) -> u8;

    // crates/jaskkovir_c/src/motions.rt
    pub fn jaskkovir_save_tmvs(
        frame: *const u8,
        frame_len: usize,
        tile_row: usize,
        left: usize,
        right: usize,
        top: usize,
        bottom: usize,
        sby: usize,
        pass: usize,
        records: *const u8,
        records_len: usize,
        field: *mut u8,
        field_len: usize,
    ) -> u8;
    pub fn jaskkovir_load_tmvs(
        frame: *const u8,
        frame_len: usize,
        tile_row: usize,
        left: usize,
        right: usize,
        top: usize,
        bottom: usize,
        present: *const u8,
        present_len: usize,
        f0: *const u8,
        f0_len: usize,
        f1: *const u8,
        f1_len: usize,
        f2: *const u8,
        f2_len: usize,
        f3: *const u8,
        f3_len: usize,
        f4: *const u8,
        f4_len: usize,
        f5: *const u8,
        f5_len: usize,
        f6: *const u8,
        f6_len: usize,
        proj: *mut u8,
        proj_len: usize,
    ) -> u8;

    // The candidate search.
    pub fn jaskkovir_find(
        frame: *const u8,
        frame_len: usize,
        tile: *const u8,
        tile_len: usize,
        records: *const u8,
        records_len: usize,
        proj: *const u8,
        proj_len: usize,
        ask: *const u8,
        ask_len: usize,
        stack: *mut u8,
        stack_len: usize,
        found: *mut u8,
        found_len: usize,
    ) -> u8;

    // crates/jaskkovir_c/src/batches.rt
    pub fn jaskkovir_admit(
        frame: *const u8,
        frame_len: usize,
        present: *const u8,
        present_len: usize,
        jobs: *const u8,
        jobs_len: usize,
        f0: *const u8,
        f0_len: usize,
        f1: *const u8,
        f1_len: usize,
        f2: *const u8,
        f2_len: usize,
        f3: *const u8,
        f3_len: usize,
        f4: *const u8,
        f4_len: usize,
        f5: *const u8,
        f5_len: usize,
        f6: *const u8,
        f6_len: usize,
        recs: *const u8,
        recs_len: usize,
        proj: *const u8,
        proj_len: usize,
        saved: *const u8,
        saved_len: usize,
    ) -> u8;
    pub fn jaskkovir_step(
        frame: *const u8,
        frame_len: usize,
        present: *const u8,
        present_len: usize,
        jobs: *mut u8,
        jobs_len: usize,
        k: usize,
        f0: *const u8,
        f0_len: usize,
        f1: *const u8,
        f1_len: usize,
        f2: *const u8,
        f2_len: usize,
        f3: *const u8,
        f3_len: usize,
        f4: *const u8,
        f4_len: usize,
        f5: *const u8,
        f5_len: usize,
        f6: *const u8,
        f6_len: usize,
        recs: *const u8,
        recs_len: usize,
        proj: *mut u8,
        proj_len: usize,
        saved: *mut u8,
        saved_len: usize,
    ) -> u8;

    // crates/jaskkovir_c/src/captures.rt
    pub fn jaskkovir_play(
        file: *const u8,
        file_len: usize,
        proj: *mut u8,
        proj_len: usize,
        saved: *mut u8,
        saved_len: usize,
        steps: *mut u8,
        steps_len: usize,
    ) -> u8;
}
