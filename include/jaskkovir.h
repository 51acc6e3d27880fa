/* Jaskkovir: reference motion vectors for AV1, for C.
 *
 * Link with target/staticlib/libjaskkovir.a, which `rust/library` makes; it needs only memcpy and memset.
 *
 * Every function that answers uint8_t takes any numbers and any bytes, ends, and answers 0 or one of
 * the refusals below. A refusal writes nothing. A lent part is a pointer and its length in bytes; it
 * may be longer than needed, and what is behind stays as it is. A part that a function writes to
 * must share no byte with another part of the call. Nothing is kept after a call, and nothing is
 * allocated.
 *
 * All numbers in lent bytes are little-endian. A motion cell is 5 bytes: y i16, x i16, reference i8.
 * A block record is 12 bytes: first vector y, x, second vector y, x (i16), two references i8, size
 * code u8, mf u8. Rows and columns are in units of 4 samples for tiles, blocks and records, and of 8
 * samples for cells.
 */
#ifndef JASKKOVIR_H
#define JASKKOVIR_H

#include <stdbool.h>
#include <stddef.h>
#include <stdint.h>

#if SIZE_MAX != UINT64_MAX
#error "the library has lengths of 64 bits"
#endif

#ifdef __cplusplus
extern "C" {
#endif

/* Bytes of the parts that have a fixed size. Shorter ones are refused with JASKKOVIR_BUFFER before
 * anything else is looked at. */
#define JASKKOVIR_FRAME_LEN 109
#define JASKKOVIR_TILE_LEN 168
#define JASKKOVIR_HINTS_LEN 7
#define JASKKOVIR_HINTS_BY_REF_LEN 49
#define JASKKOVIR_PRESENT_LEN 7
#define JASKKOVIR_RECORD_LEN 12
#define JASKKOVIR_LISTED_LEN 12
#define JASKKOVIR_CELL_LEN 5
#define JASKKOVIR_ASK_LEN 24
#define JASKKOVIR_STACK_LEN 96
#define JASKKOVIR_FOUND_LEN 2

/* Bytes of a job. */
#define JASKKOVIR_JOB_LEN 17

/* Bytes of what a capture's jobs took; shorter ones are refused in the same way. */
#define JASKKOVIR_STEPS_LEN 32

/* What a step of a finished job answers: neither acceptance nor a refusal. */
#define JASKKOVIR_DONE 15

enum jaskkovir_refusal {
    JASKKOVIR_ACCEPTED = 0,
    /* A width or height that isn't 1..16384, tile rows not 1..64, thread counts not 1..255, a flag
     * not 0 or 1; in a frame record, a size that doesn't follow or a field out of setup's range. */
    JASKKOVIR_SIZE = 1,
    /* Hint bits above 8, or a hint not below 2^bits. */
    JASKKOVIR_HINT = 2,
    /* Rows or columns that end before they start, more than 16 rows, a column end above the stride,
     * a tile row not below the tile rows (with one tile thread every tile row is the first). */
    JASKKOVIR_RANGE = 3,
    /* A lent part that is too short, or a record or cell needed that is past the listed ones. */
    JASKKOVIR_BUFFER = 4,
    /* A used reference's field isn't lent. */
    JASKKOVIR_FIELD_ABSENT = 5,
    /* An entry of the row table that is needed is absent, or past its 37 places. */
    JASKKOVIR_ROW_ABSENT = 6,
    /* A motion cell that is read isn't well formed. */
    JASKKOVIR_CELL = 7,
    /* A record that is read isn't well formed. */
    JASKKOVIR_RECORD = 8,
    /* A saved block passes its column limit; a later scan neighbour is as large as the block. */
    JASKKOVIR_LIMIT = 9,
    /* A block outside its tile or its row of records, a splat not 1..32 wide and high, a tile that
     * ends past the frame, a record to be splatted that isn't well formed; a size code above 21,
     * references not (0..7, -1) or (1..7, 1..7), reference 0 with temporal search on, a used global
     * vector beyond 16383. */
    JASKKOVIR_BLOCK = 10,
    /* Two jobs' windows share a cell. */
    JASKKOVIR_SHARED = 11,
    /* A pass that isn't 1 or 2, a job kind not 0 or 1, steps done above the job's count; no job or
     * more than 8, a step that names no job. */
    JASKKOVIR_JOB = 12,
    /* A malformed capture. */
    JASKKOVIR_CAPTURE = 13
};

/* Vectors and hint distances. These three have a domain, and the caller keeps to it: outside it
 * nothing is promised. A vector comes back as one number, y in the low 16 bits and x above. */

/* (y, x) times num / den. Components within 4095, num within 31, den 1..31. */
uint32_t jaskkovir_mv_projection(int16_t y, int16_t x, int16_t num, uint32_t den);

/* (y, x) at the header's precision: whole samples with `integer`, else halved precision without
 * `hp`. Components within 16384. */
uint32_t jaskkovir_fix_mv_precision(int16_t y, int16_t x, bool integer, bool hp);

/* How far hint a lies ahead of hint b. Bits 0..8, both hints below 2^bits. */
int16_t jaskkovir_get_poc_diff(uint32_t bits, uint32_t a, uint32_t b);

/* Frame setup. sb128 is 1 for superblocks of 128 samples and 0 for 64; temporal is the header's flag
 * for temporal search. hints has the hints of the 7 references, hints_by_ref 7 times those that the
 * reference's own frame had. Byte i of present is 1 where reference i's field will be lent: its
 * frame has the current one's size in units of 8 samples, and is neither a key nor an intra-only
 * frame.
 * Answers 0, 1, 2 or 4. Writes the 109 bytes of frame:
 *   0    width, height, iw4, ih4, iw8, ih8, superblock size, stride, tile rows, blocks, tile
 *        threads, frame threads (u32)
 *   48   temporal search in use, the header's temporal flag, selected references (bytes)
 *   51   seven times sign_bias, mfmv_sign (bytes), pocdiff (i16)
 *   79   three times a selected reference (byte), ref2cur (i16, -32768 for a skipped one), seven
 *        ref2ref (bytes) */
uint8_t jaskkovir_init_frame(size_t width, size_t height, uint8_t sb128, uint32_t hint_bits,
                             uint32_t current_hint, const uint8_t *hints, size_t hints_len,
                             const uint8_t *hints_by_ref, size_t hints_by_ref_len,
                             size_t tile_rows, size_t tile_threads, size_t frame_threads,
                             uint8_t temporal, const uint8_t *present, size_t present_len,
                             uint8_t *frame, size_t frame_len);

/* Whether a frame record is one that the calls below take. Answers 0, 1 or 4; writes nothing. */
uint8_t jaskkovir_check(const uint8_t *frame, size_t frame_len);

/* How much to lend. Answers 0, 1 or 4. Writes the 12 bytes of sizes: saved cells, projected cells,
 * records (u32). */
uint8_t jaskkovir_listed_sizes(const uint8_t *frame, size_t frame_len, uint8_t *sizes,
                               size_t sizes_len);

/* Superblock-row setup for a tile's bounds (4-sample units), the superblock row's number, the tile
 * row's, and the pass, 1 or 2. Ends are cut to the frame.
 * Answers 0, 1, 3, 4 or 12. Writes the 168 bytes of tile, 42 u32: the 37 entries of the row table
 * (4294967295 for an absent one), the place of the tile row's part of the projection, column start
 * and end, row start and end. */
uint8_t jaskkovir_tile_sbrow_init(const uint8_t *frame, size_t frame_len, size_t col_start,
                                  size_t col_end, size_t row_start, size_t row_end, size_t sby,
                                  size_t tile_row, size_t pass, uint8_t *tile, size_t tile_len);

/* Splat: the record block to each of the w x h places from row y, column x on.
 * Answers 0, 1, 4, 6 or 10. Writes those places of records, which holds the listed records. */
uint8_t jaskkovir_splat_mv(const uint8_t *frame, size_t frame_len, const uint8_t *tile,
                           size_t tile_len, const uint8_t *block, size_t block_len, size_t y,
                           size_t x, size_t w, size_t h, uint8_t *records, size_t records_len);

/* Save: the cells of rows top..bottom and columns left..right (8-sample units, cut to the frame)
 * from the records that lie over them. The row table is that of the tile row, the superblock row sby
 * and the pass, 1 or 2.
 * Answers 0, 1, 3, 4, 6, 8, 9 or 12. Writes cells of saved, which holds the listed saved cells. */
uint8_t jaskkovir_save_tmvs(const uint8_t *frame, size_t frame_len, size_t tile_row, size_t left,
                            size_t right, size_t top, size_t bottom, size_t sby, size_t pass,
                            const uint8_t *records, size_t records_len, uint8_t *saved,
                            size_t saved_len);

/* Load: clears the window of rows top..bottom and columns left..right (8-sample units, rows cut to
 * the frame) in the tile row's part of the projection, and projects the motion of the used
 * references' fields f0..f6 into it. Byte i of present is 1 where field i is lent; another field
 * isn't looked at.
 * Answers 0, 1, 3, 4, 5 or 7. Writes cells of proj, which holds the listed projected cells. */
uint8_t jaskkovir_load_tmvs(const uint8_t *frame, size_t frame_len, size_t tile_row, size_t left,
                            size_t right, size_t top, size_t bottom, const uint8_t *present,
                            size_t present_len, const uint8_t *f0, size_t f0_len,
                            const uint8_t *f1, size_t f1_len, const uint8_t *f2, size_t f2_len,
                            const uint8_t *f3, size_t f3_len, const uint8_t *f4, size_t f4_len,
                            const uint8_t *f5, size_t f5_len, const uint8_t *f6, size_t f6_len,
                            uint8_t *proj, size_t proj_len);

/* Candidate search for a block. records holds the listed records, and proj the listed projected
 * cells; where temporal search isn't in use proj isn't looked at. The 24 bytes of ask:
 *   0    first reference, second reference (i8): (1..7, -1) for a single search, (1..7, 1..7) for a
 *        compound one, (0, -1) for intra block copy
 *   2    size code; 1 where the point above right is decoded, else 0 (bytes)
 *   4    row, column of the block (u32, 4-sample units)
 *   12   global vector of the first reference y, x (i16), 1 where its type is above translation, else
 *        0 (byte); the same of the second reference
 *   22   integer vectors, high precision (bytes, 0 or 1)
 * Answers 0, 1, 4 or 6 to 10. Writes found, two bytes: the count of candidates and the context; and of
 * stack, eight times a first vector y, x, a second vector y, x (i16) and a weight (u32): below the
 * count the weight and the vectors that are used, in a single search the first; and in a single
 * search the first vector of the first two in any case. All else of the 96 bytes stays. */
uint8_t jaskkovir_find(const uint8_t *frame, size_t frame_len, const uint8_t *tile, size_t tile_len,
                       const uint8_t *records, size_t records_len, const uint8_t *proj,
                       size_t proj_len, const uint8_t *ask, size_t ask_len, uint8_t *stack,
                       size_t stack_len, uint8_t *found, size_t found_len);

/* Loads and saves as jobs: admitted together, then stepped one row of work at a time, in any order.
 * A batch is one to eight jobs of 17 bytes each:
 *   0    kind, 0 for a load and 1 for a save; tile row (bytes)
 *   2    column start, column end, row start, row end, superblock row (u16)
 *   12   pass, 1 or 2, of a load too (byte)
 *   13   steps done (u32), 0 at first
 * A load has its rows (cut to the frame) times one more than its used references as steps: each row
 * is cleared, then each reference's rows are read. A save has its rows. */

/* Whether the jobs may be stepped together: each load and save would be accepted whole, and no two
 * windows share a cell. present and f0..f6 are a load's, records a save's; proj and saved are what
 * they write, of which only the lengths count here.
 * Answers 0, 1, 3 to 9, 11 or 12; writes nothing. */
uint8_t jaskkovir_admit(const uint8_t *frame, size_t frame_len, const uint8_t *present,
                        size_t present_len, const uint8_t *jobs, size_t jobs_len,
                        const uint8_t *f0, size_t f0_len, const uint8_t *f1, size_t f1_len,
                        const uint8_t *f2, size_t f2_len, const uint8_t *f3, size_t f3_len,
                        const uint8_t *f4, size_t f4_len, const uint8_t *f5, size_t f5_len,
                        const uint8_t *f6, size_t f6_len, const uint8_t *records,
                        size_t records_len, const uint8_t *proj, size_t proj_len,
                        const uint8_t *saved, size_t saved_len);

/* One row of job k's work, the first being job 0. All parts are those that were admitted, as they
 * then stand; of any other the step itself judges what it needs.
 * Answers 0 where the row is done and counted, JASKKOVIR_DONE where none was left, or 1, 3 to 9 or
 * 12. Only on 0 it writes: cells of proj for a load, of saved for a save, and the job's steps done. */
uint8_t jaskkovir_step(const uint8_t *frame, size_t frame_len, const uint8_t *present,
                       size_t present_len, uint8_t *jobs, size_t jobs_len, size_t k,
                       const uint8_t *f0, size_t f0_len, const uint8_t *f1, size_t f1_len,
                       const uint8_t *f2, size_t f2_len, const uint8_t *f3, size_t f3_len,
                       const uint8_t *f4, size_t f4_len, const uint8_t *f5, size_t f5_len,
                       const uint8_t *f6, size_t f6_len, const uint8_t *records,
                       size_t records_len, uint8_t *proj, size_t proj_len, uint8_t *saved,
                       size_t saved_len);

/* Plays a capture file, which has a frame's description, its jobs, and the records and fields that
 * they read: the frame is set up, the jobs are admitted together, and run to their ends in list
 * order. A file has at most 65,536 bytes, its frame at most 256 x 256 samples and four tile rows.
 * Fields are lent where the file has them, and proj and saved hold what jaskkovir_listed_sizes says.
 * Answers 0 to 4, 6 to 9 or 11 to 13. Only on 0 it writes: all whole cells of proj, which are
 * INVALID with reference 0 before the first job; all whole cells of saved, which are zero then; and
 * the first 32 bytes of steps, eight u32: how many steps each job had, 0 behind the last. */
uint8_t jaskkovir_play(const uint8_t *file, size_t file_len, uint8_t *proj, size_t proj_len,
                       uint8_t *saved, size_t saved_len, uint8_t *steps, size_t steps_len);

#ifdef __cplusplus
}
#endif

#endif
