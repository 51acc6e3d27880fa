/* A frame of 64 x 64 from setup to its first motion, with every answer checked. */
#include "jaskkovir.h"

#include <stdio.h>
#include <stdlib.h>
#include <string.h>

/* What stands in a lent buffer before anything is written. */
#define LENT 0xEE

static const uint8_t hints[JASKKOVIR_HINTS_LEN] = {1, 1, 1, 1, 1, 1, 1};
static const uint8_t hints_by_ref[JASKKOVIR_HINTS_BY_REF_LEN];
static const uint8_t present[JASKKOVIR_PRESENT_LEN] = {1};

/* 16 x 16 samples with one vector, (5, -6), to reference 1. */
static const uint8_t block[JASKKOVIR_RECORD_LEN] = {5, 0, 0xFA, 0xFF, 0, 0, 0, 0, 1, 0xFF, 12, 0};

static void expect(const char *what, long long got, long long wanted)
{
    printf("%s: %lld\n", what, got);
    if (got != wanted) {
        fprintf(stderr, "%s: got %lld, wanted %lld\n", what, got, wanted);
        exit(EXIT_FAILURE);
    }
}

static uint32_t number(const uint8_t *at)
{
    return at[0] | (uint32_t)at[1] << 8 | (uint32_t)at[2] << 16 | (uint32_t)at[3] << 24;
}

static int16_t half(uint32_t bits)
{
    return (int16_t)(uint16_t)bits;
}

static uint8_t *lend(size_t count, size_t len)
{
    uint8_t *bytes = malloc(count * len);
    if (!bytes) {
        perror("malloc");
        exit(EXIT_FAILURE);
    }
    memset(bytes, LENT, count * len);
    return bytes;
}

static void leaves(void)
{
    uint32_t v = jaskkovir_mv_projection(100, -100, 3, 2);
    expect("project (100, -100) by 3/2, y", half(v), 150);
    expect("x", half(v >> 16), -150);
    v = jaskkovir_fix_mv_precision(4, -5, true, false);
    expect("whole samples of (4, -5), y", half(v), 0);
    expect("x", half(v >> 16), -8);
    expect("distance of hints 1 and 7, 3 bits", jaskkovir_get_poc_diff(3, 1, 7), 2);
}

static uint8_t set_up(size_t width, uint8_t *frame)
{
    return jaskkovir_init_frame(width, 64, 0, 3, 2, hints, sizeof hints, hints_by_ref,
                                sizeof hints_by_ref, 1, 1, 1, 1, present, sizeof present, frame,
                                JASKKOVIR_FRAME_LEN);
}

static void frame_setup(uint8_t *frame, uint8_t *sizes)
{
    expect("frame setup of width 0", set_up(0, frame), JASKKOVIR_SIZE);
    expect("frame setup", set_up(64, frame), JASKKOVIR_ACCEPTED);
    expect("stride", number(frame + 28), 16);
    expect("selected references", frame[50], 1);
    expect("check", jaskkovir_check(frame, JASKKOVIR_FRAME_LEN), JASKKOVIR_ACCEPTED);
    expect("check of 108 bytes", jaskkovir_check(frame, JASKKOVIR_FRAME_LEN - 1),
           JASKKOVIR_BUFFER);
    expect("listed sizes",
           jaskkovir_listed_sizes(frame, JASKKOVIR_FRAME_LEN, sizes, JASKKOVIR_LISTED_LEN),
           JASKKOVIR_ACCEPTED);
    expect("saved cells", number(sizes), 16 * 8);
    expect("projected cells", number(sizes + 4), 16 * 16);
    expect("records", number(sizes + 8), 70 * 16 + 1);
}

static void row_setup(const uint8_t *frame, uint8_t *tile)
{
    expect("row setup",
           jaskkovir_tile_sbrow_init(frame, JASKKOVIR_FRAME_LEN, 0, 16, 0, 16, 0, 0, 1, tile,
                                     JASKKOVIR_TILE_LEN),
           JASKKOVIR_ACCEPTED);
    expect("first row of records", number(tile + 4 * 5), 0);
    expect("second row of records", number(tile + 4 * 6), 32);
    expect("entry 1", number(tile + 4 * 1), 4294967295);
}

static void splat(const uint8_t *frame, const uint8_t *tile, uint8_t *records, size_t len)
{
    expect("splat of 4 x 4 at row 8, column 12",
           jaskkovir_splat_mv(frame, JASKKOVIR_FRAME_LEN, tile, JASKKOVIR_TILE_LEN, block,
                              sizeof block, 8, 12, 4, 4, records, len),
           JASKKOVIR_ACCEPTED);
    long long held = 0;
    for (size_t at = 0; at < len / sizeof block; at++)
        held += memcmp(records + at * sizeof block, block, sizeof block) == 0;
    expect("records that hold the block", held, 16);
    expect("record of row 11, column 15",
           memcmp(records + (11 * 32 + 15) * sizeof block, block, sizeof block), 0);
    expect("splat outside the tile",
           jaskkovir_splat_mv(frame, JASKKOVIR_FRAME_LEN, tile, JASKKOVIR_TILE_LEN, block,
                              sizeof block, 8, 16, 4, 4, records, len),
           JASKKOVIR_BLOCK);
}

/* What the splatted block leaves in the saved field: row 4, column 6 is its first cell. */
static void save(const uint8_t *frame, const uint8_t *records, size_t records_len, size_t cells)
{
    static const uint8_t cell[JASKKOVIR_CELL_LEN] = {5, 0, 0xFA, 0xFF, 1};
    size_t len = cells * JASKKOVIR_CELL_LEN;
    uint8_t *field = lend(cells, JASKKOVIR_CELL_LEN);
    expect("save of rows 4 to 6, columns 6 to 8",
           jaskkovir_save_tmvs(frame, JASKKOVIR_FRAME_LEN, 0, 6, 8, 4, 6, 0, 1, records,
                               records_len, field, len),
           JASKKOVIR_ACCEPTED);
    expect("cell of row 4, column 6", memcmp(field + (4 * 16 + 6) * sizeof cell, cell, sizeof cell),
           0);
    expect("cell of row 3, column 6", field[(3 * 16 + 6) * sizeof cell], LENT);
    free(field);
}

/* Document 01's worked example: row 2, column 3 of field 0 has the vector (0, 64) to reference 1,
 * and it lands at row 2, column 2. */
static void load(const uint8_t *frame, size_t saved, size_t projected)
{
    static const uint8_t moved[JASKKOVIR_CELL_LEN] = {0, 0, 64, 0, 1};
    static const uint8_t cleared[JASKKOVIR_CELL_LEN] = {0, 0x80, 0, 0x80, LENT};
    uint8_t *field = lend(saved, JASKKOVIR_CELL_LEN);
    uint8_t *proj = lend(projected, JASKKOVIR_CELL_LEN);
    memset(field, 0, saved * JASKKOVIR_CELL_LEN);
    memcpy(field + (2 * 16 + 3) * sizeof moved, moved, sizeof moved);
    expect("load of rows 0 to 8, columns 0 to 8",
           jaskkovir_load_tmvs(frame, JASKKOVIR_FRAME_LEN, 0, 0, 8, 0, 8, present, sizeof present,
                               field, saved * JASKKOVIR_CELL_LEN, NULL, 0, NULL, 0, NULL, 0, NULL,
                               0, NULL, 0, NULL, 0, proj, projected * JASKKOVIR_CELL_LEN),
           JASKKOVIR_ACCEPTED);
    for (size_t row = 0; row < 8; row++)
        for (size_t column = 0; column < 8; column++) {
            const uint8_t *cell = proj + (row * 16 + column) * JASKKOVIR_CELL_LEN;
            const uint8_t *wanted = row == 2 && column == 2 ? moved : cleared;
            if (memcmp(cell, wanted, JASKKOVIR_CELL_LEN) != 0) {
                fprintf(stderr, "the cell of row %zu, column %zu is another\n", row, column);
                exit(EXIT_FAILURE);
            }
            if (wanted == moved)
                printf("p %zu %zu %d %d %d\n", row, column, half(cell[0] | cell[1] << 8),
                       half(cell[2] | cell[3] << 8), cell[4]);
        }
    expect("cell of row 8, column 0", proj[8 * 16 * JASKKOVIR_CELL_LEN], LENT);
    free(field);
    free(proj);
}

/* The same load as a batch of one job, stepped until it is done: eight rows cleared, then read. */
static void batch(const uint8_t *frame, size_t saved, size_t projected)
{
    uint8_t job[JASKKOVIR_JOB_LEN] = {0, 0, 0, 0, 8, 0, 0, 0, 8, 0, 0, 0, 1};
    size_t field_len = saved * JASKKOVIR_CELL_LEN, proj_len = projected * JASKKOVIR_CELL_LEN;
    uint8_t *field = lend(saved, JASKKOVIR_CELL_LEN);
    uint8_t *proj = lend(projected, JASKKOVIR_CELL_LEN);
    memset(field, 0, field_len);
    expect("admission",
           jaskkovir_admit(frame, JASKKOVIR_FRAME_LEN, present, sizeof present, job, sizeof job,
                           field, field_len, NULL, 0, NULL, 0, NULL, 0, NULL, 0, NULL, 0, NULL, 0,
                           NULL, 0, proj, proj_len, NULL, 0),
           JASKKOVIR_ACCEPTED);
    uint8_t answer = JASKKOVIR_ACCEPTED;
    while (answer == JASKKOVIR_ACCEPTED)
        answer = jaskkovir_step(frame, JASKKOVIR_FRAME_LEN, present, sizeof present, job,
                                sizeof job, 0, field, field_len, NULL, 0, NULL, 0, NULL, 0, NULL,
                                0, NULL, 0, NULL, 0, NULL, 0, proj, proj_len, NULL, 0);
    expect("last step", answer, JASKKOVIR_DONE);
    expect("steps done", number(job + 13), 16);
    free(field);
    free(proj);
}

int main(void)
{
    uint8_t frame[JASKKOVIR_FRAME_LEN], tile[JASKKOVIR_TILE_LEN], sizes[JASKKOVIR_LISTED_LEN];
    leaves();
    frame_setup(frame, sizes);
    row_setup(frame, tile);
    size_t count = number(sizes + 8);
    uint8_t *records = lend(count, JASKKOVIR_RECORD_LEN);
    splat(frame, tile, records, count * JASKKOVIR_RECORD_LEN);
    save(frame, records, count * JASKKOVIR_RECORD_LEN, number(sizes));
    load(frame, number(sizes), number(sizes + 4));
    batch(frame, number(sizes), number(sizes + 4));
    free(records);
    return EXIT_SUCCESS;
}
