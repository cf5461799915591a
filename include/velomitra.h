/*
 * Velomitra: the palette mode of HEVC screen content coding, proved.
 *
 * Link with every target/staticlib/libexports*.a, which tools/archives makes. The calls need nothing but memcpy and memset.
 *
 * LISTS. Blocks, predictors, planes and the like cross as lists of numbers: a pointer and, next to it, the number of its elements
 * (not of bytes). A list may have any length: a number that is missing reads as 0, and what would lie past the end is not laid, so
 * nothing is ever read or written outside the list. A pointer is aligned for its type and not NULL, for a list of length 0 too.
 * A list that a call changes must not overlap another list of the same call. No call keeps a pointer, allocates, or has state of its own.
 *
 * REFUSALS. A call that answers a uint8_t answers 0, or the number of the first refusal that applies, and then leaves every list lent to it
 * as it was (the colour counter moves on VELOMITRA_TOO_MANY_COLORS; the reader lays the place). The numbers are those of document 01.
 *
 * tests/c/run holds the prototypes below to the exported functions of the crates.
 */
#ifndef VELOMITRA_H
#define VELOMITRA_H

#include <stdbool.h>
#include <stddef.h>
#include <stdint.h>

#ifdef __cplusplus
extern "C" {
#endif

/* ---- refusals -------------------------------------------------------------------------------------------------------------- */

enum {
    VELOMITRA_OK = 0,
    VELOMITRA_CONFIG = 1,          /* component count and format disagree, or depth or QP outside the domain */
    VELOMITRA_GEOMETRY = 2,        /* size, picture side, origin or evenness outside the domain */
    VELOMITRA_PLANE = 3,           /* a plane in use is shorter than width x height (target: shorter than stride x height, or its stride
                                      is below its width) */
    VELOMITRA_SAMPLE = 4,          /* a sample the block reads exceeds its depth */
    VELOMITRA_PREDICTOR = 5,       /* predictor over 128 entries or an entry over its depth; update limit over 128; colour counter with a
                                      stamp above its generation */
    VELOMITRA_RATE = 6,            /* one of the 18 rates is not a number from 0 to 64 */
    VELOMITRA_BLOCK = 7,           /* the block does not hold together; a tolerance lent outside 0 to 16 */
    VELOMITRA_RUNS = 8,            /* the run list does not replay to the block's indices under the run rules */
    VELOMITRA_ROOM = 9,            /* the lent list is shorter than the runs or bins to be put in it; at the reader, shorter than n runs */
    VELOMITRA_BINS_END = 10,       /* the bins end where one is due */
    VELOMITRA_BIN_CLASS = 11,      /* a bin is of another class than the one due */
    VELOMITRA_VALUE = 12,          /* a value read is outside its range */
    VELOMITRA_TOO_MANY_COLORS = 13, /* more than 128 distinct colours, or distinct x 2 > n */
    VELOMITRA_TOO_MANY_ESCAPES = 14, /* escapes x 4 > n */
    VELOMITRA_SMOOTHING = 15,      /* smoothing asked of a transposed or lossless block */
    VELOMITRA_INPUT_FILE = 16      /* the program's input file is malformed (no call answers it) */
};

/* ---- layouts --------------------------------------------------------------------------------------------------------------- */

/*
 * A block: VELOMITRA_BLOCK_LEN numbers of 16 bits. A flag is on where its number is 1.
 *
 *      0        size, 1 to 32; n = size x size
 *      1        format: 0 one component, 1 4:2:0, 2 4:2:2, 3 4:4:4
 *      2, 3     depths of luma and chroma: 8, 10, 12
 *      4        lossless
 *      5        palette size, at most 64
 *      6        how many predictor entries have a flag, at most 128
 *      7        how many palette entries are signalled (not taken from the predictor)
 *      8        escapes present
 *      9        transposed
 *     10        tolerance, 0 to 16
 *     11 - 14   error figure, low 16 bits first
 *     15        none
 *     16        palette, three numbers to an entry (64)
 *    208        reuse flags, one to a predictor entry (128)
 *    336        indices along the scan (1024); palette size marks an escape
 *   1360        escape levels along the scan, three numbers to a cell (1024)
 */
#define VELOMITRA_BLOCK_LEN 4432
#define VELOMITRA_BLOCK_SIZE 0
#define VELOMITRA_BLOCK_FORMAT 1
#define VELOMITRA_BLOCK_LUMA_DEPTH 2
#define VELOMITRA_BLOCK_CHROMA_DEPTH 3
#define VELOMITRA_BLOCK_LOSSLESS 4
#define VELOMITRA_BLOCK_ENTRIES 5
#define VELOMITRA_BLOCK_FLAG_COUNT 6
#define VELOMITRA_BLOCK_SIGNALED 7
#define VELOMITRA_BLOCK_ESCAPE 8
#define VELOMITRA_BLOCK_TRANSPOSE 9
#define VELOMITRA_BLOCK_TOLERANCE 10
#define VELOMITRA_BLOCK_FIGURE 11
#define VELOMITRA_BLOCK_PALETTE 16
#define VELOMITRA_BLOCK_FLAGS 208
#define VELOMITRA_BLOCK_INDICES 336
#define VELOMITRA_BLOCK_LEVELS 1360

/* A predictor: its size, at most 128, then three numbers to an entry. All 0 is the predictor after a reset. */
#define VELOMITRA_PREDICTOR_LEN 385

/* A configuration: component count (1 in format 0, else 3), format, depths of luma and chroma, QPs of the three components (-128 to 75, with
   their depth's offset), lossless (1 is on). */
#define VELOMITRA_CONFIG_LEN 8

/* A geometry: luma width and height, chroma width and height, the block's column and row, its size. */
#define VELOMITRA_SOURCE_LEN 7

/* The colour counter: keys; entries; the generation, then the stamps. All 0 is a new one. One serves for any number of calls. */
#define VELOMITRA_KEYS_LEN 256
#define VELOMITRA_ENTRY_LEN 256
#define VELOMITRA_STAMP_LEN 257

/* Rates, in bits: of the run type's bins 0 and 1, then of bins 0 and 1 in each of the eight run-prefix contexts. */
#define VELOMITRA_RATES_LEN 18

/* A run: four numbers. 1 where it copies from above; the index sent (0 where it copies); its further cells, length - 1; its start along
   the scan. A list for n runs has n x VELOMITRA_RUN_LEN numbers, and no block has more than 1024 runs. */
#define VELOMITRA_RUN_LEN 4

/* A bin is a byte, class x 2 + bin: class 0 bypass, 1 run type, 2 transpose, 3 to 10 run-prefix context 0 to 7, 11 the QP marker (22 only).
   No block has more bins than this. */
#define VELOMITRA_MOST_BINS 88378

/* ---- calls on whole blocks ------------------------------------------------------------------------------------------------- */

/* Analysis: the block with a palette for its samples, at the luma QP's tolerance. Lays the block; the colour counter moves on, on 13 too
   (unless luma alone refused), and on no other refusal. Refusals: 1 2 3 4 5 13. */
uint8_t velomitra_analyze_palette(
    const uint16_t *luma, size_t luma_len, const uint16_t *cb, size_t cb_len, const uint16_t *cr, size_t cr_len,
    const int32_t *config, size_t config_len, const size_t *source, size_t source_len,
    const uint16_t *predictor, size_t predictor_len,
    uint64_t *keys, size_t keys_len, uint16_t *entry, size_t entry_len, uint32_t *stamp, size_t stamp_len,
    uint16_t *block, size_t block_len);

/* The same at a tolerance of the caller's, 0 to 16; another is 7. Refusals: 1 2 3 4 5 7 13. */
uint8_t velomitra_analyze_with(
    const uint16_t *luma, size_t luma_len, const uint16_t *cb, size_t cb_len, const uint16_t *cr, size_t cr_len,
    const int32_t *config, size_t config_len, const size_t *source, size_t source_len,
    const uint16_t *predictor, size_t predictor_len, uint64_t tol,
    uint64_t *keys, size_t keys_len, uint16_t *entry, size_t entry_len, uint32_t *stamp, size_t stamp_len,
    uint16_t *block, size_t block_len);

/* Assignment: the block's cells to its palette, or to escapes, with its error figure. Changes the block. Refusals: 1 2 3 4 7 14. */
uint8_t velomitra_assign_indices(
    const uint16_t *luma, size_t luma_len, const uint16_t *cb, size_t cb_len, const uint16_t *cr, size_t cr_len,
    const int32_t *config, size_t config_len, const size_t *source, size_t source_len, bool transpose,
    uint16_t *block, size_t block_len);

/* The error figure of a block, at the first place of a list. Refusals: 1 2 3 4 7. */
uint8_t velomitra_palette_sse(
    const uint16_t *luma, size_t luma_len, const uint16_t *cb, size_t cb_len, const uint16_t *cr, size_t cr_len,
    const int32_t *config, size_t config_len, const size_t *source, size_t source_len,
    const uint16_t *block, size_t block_len, uint64_t *figure, size_t figure_len);

/* Smoothing of a lossy block's indices. Answers the refusal x 2, plus 1 where a run was moved. Changes the block. Refusals: 1 2 3 4 7 15. */
uint16_t velomitra_smooth_indices(
    const uint16_t *luma, size_t luma_len, const uint16_t *cb, size_t cb_len, const uint16_t *cr, size_t cr_len,
    const int32_t *config, size_t config_len, const size_t *source, size_t source_len, float lambda, float bits_per_run,
    uint16_t *block, size_t block_len);

/* Planning: the runs of a block at the least rate, their count and their total in bits, each at the first place of its list. The run list has room
   for a quarter of its numbers; n runs always suffice. A count of 0 with a total of 0 is nothing to code. Refusals: 2 6 7 9. */
uint8_t velomitra_plan_runs(
    const uint16_t *block, size_t block_len, const float *rates, size_t rates_len,
    uint32_t *runs, size_t runs_len, size_t *count, size_t count_len, float *total, size_t total_len);

/* Writing: the bins of a block and its first `count` runs from the start of a list, and their number at the first place of its own.
   Refusals: 2 7 8 9. */
uint8_t velomitra_write_palette_cu(
    const uint16_t *block, size_t block_len, const uint32_t *runs, size_t runs_len, size_t count,
    uint8_t *bins, size_t bins_len, size_t *used, size_t used_len);

/* Reading: the block and the runs at the start of a list of bins, the number of runs and of bins used. Bins after the block are not looked at. The run
   list has room for n runs. On a refusal the place, at the first place of its list: where the bin or value stands on 10 to 12, else 0.
   luma and chroma are depths. Refusals: 1 2 5 9 10 11 12. */
uint8_t velomitra_read_palette_cu(
    const uint8_t *bins, size_t bins_len, size_t size, uint8_t format, uint8_t luma, uint8_t chroma, bool lossless,
    const uint16_t *predictor, size_t predictor_len,
    uint16_t *block, size_t block_len, uint32_t *runs, size_t runs_len, size_t *count, size_t count_len,
    size_t *used, size_t used_len, size_t *place, size_t place_len);

/* Reconstruction: the block's samples onto three planes of strides ys and cs, where it covers them. The geometry's widths count in refusal 3 alone.
   Refusals: 1 2 3 7. */
uint8_t velomitra_reconstruct(
    uint16_t *luma, size_t luma_len, uint16_t *cb, size_t cb_len, uint16_t *cr, size_t cr_len, size_t ys, size_t cs,
    const int32_t *config, size_t config_len, const size_t *source, size_t source_len,
    const uint16_t *block, size_t block_len);

/* The predictor after a block, at most `limit` entries. Refusals: 2 5 7. */
uint8_t velomitra_update(uint16_t *predictor, size_t predictor_len, const uint16_t *block, size_t block_len, size_t limit);

/* ---- leaves ---------------------------------------------------------------------------------------------------------------- */

/* What a leaf answers outside its domain. */
#define VELOMITRA_NONE UINT64_MAX

/* The cell at scan place i, below 1024, of a block of side size: row x 65536 + column. */
uint64_t velomitra_scan_pos(size_t i, size_t size);

/* The scan place of a cell. */
uint64_t velomitra_scan_pos_inv(size_t col, size_t row, size_t size);

/* The scan place of the cell above scan place i; none in row 0. */
uint64_t velomitra_place_above(size_t i, size_t size);

/* The step of a QP of at most 75; negatives as 0. */
uint64_t velomitra_step(int32_t qp);

/* The tolerance at a step: 0 when lossless, else (step + 64) div 128, at most 16. */
uint64_t velomitra_tolerance(bool lossless, uint64_t step);

/* The greatest difference of two colours in a component; a colour is y + 2^16 cb + 2^32 cr. */
uint64_t velomitra_distance(uint64_t a, uint64_t b);

/* What an escape level decodes to, held to 0 .. most. */
uint64_t velomitra_dequant_escape(bool lossless, uint64_t step, uint64_t most, int32_t level);

/* The escape level of a value of at most 65535. */
uint64_t velomitra_quantize_escape(bool lossless, uint64_t step, uint64_t most, uint64_t v);

/* The product modulo 2^64. */
uint64_t velomitra_wrapping_mul(uint64_t a, uint64_t b);

/* ---- writers of single codes ----------------------------------------------------------------------------------------------- */

/* Each lays its bins from place `at` on, as far as the list reaches, and answers the place after them, so a list of length 0 measures. Outside
   its domain it lays none and answers `at`. */

/* The n low bits of a value, high bit first; n at most 32. */
size_t velomitra_put_bits(uint8_t *list, size_t list_len, size_t at, uint32_t value, uint32_t n);

/* Truncated binary: v below n, n at most 65536. */
size_t velomitra_put_tb(uint8_t *list, size_t list_len, size_t at, uint32_t n, uint32_t v);

/* Exp-Golomb of an order of at most 13, value at most 65535. */
size_t velomitra_put_egk(uint8_t *list, size_t list_len, size_t at, uint32_t order, uint32_t value);

/* The index count less 1, where M is m, at most 64. */
size_t velomitra_put_count(uint8_t *list, size_t list_len, size_t at, uint32_t m, uint32_t v);

/* A run of `more` further cells of at most `longest`, at most 1024. */
size_t velomitra_put_run(
    uint8_t *list, size_t list_len, size_t at, uint32_t longest, bool above, uint32_t sent, uint32_t more);

/* The reuse runs of all flags, at most 128, under a palette limit of at most 64. */
size_t velomitra_put_reuse(
    uint8_t *list, size_t list_len, size_t at, uint32_t limit, const bool *flags, size_t flags_len);

/* ---- readers of single codes ----------------------------------------------------------------------------------------------- */

/* Each reads at place `at` and lays three numbers at the start of `out`: 0, the value, the next place; or a refusal's number (10, 11, 12), 0,
   its place. Outside its domain it lays none. */

/* One bin of a class. */
void velomitra_bin_at(const uint8_t *list, size_t list_len, size_t at, uint8_t bin_class, uint64_t *out, size_t out_len);

/* A value of n bits, n at most 32. */
void velomitra_bits_at(const uint8_t *list, size_t list_len, size_t at, uint32_t n, uint64_t *out, size_t out_len);

/* Truncated binary over n values, 1 to 65536. */
void velomitra_tb_at(const uint8_t *list, size_t list_len, size_t at, uint32_t n, uint64_t *out, size_t out_len);

/* Exp-Golomb of an order of at most 13. */
void velomitra_egk_at(const uint8_t *list, size_t list_len, size_t at, uint32_t order, uint64_t *out, size_t out_len);

/* The same, 12 above `top`. */
void velomitra_held_egk_at(
    const uint8_t *list, size_t list_len, size_t at, uint32_t order, uint32_t top, uint64_t *out, size_t out_len);

/* The index count less 1, where M is m, at most 64. */
void velomitra_count_at(const uint8_t *list, size_t list_len, size_t at, uint32_t m, uint64_t *out, size_t out_len);

/* A run's further cells, of at most `longest`, at most 1024. */
void velomitra_run_at(
    const uint8_t *list, size_t list_len, size_t at, uint32_t longest, bool above, uint32_t sent,
    uint64_t *out, size_t out_len);

/* The reuse runs of as many predictor entries as `flags` has, at most 128: the flags, off on a refusal; the value is the number reused. */
void velomitra_reuse_at(
    const uint8_t *list, size_t list_len, size_t at, uint32_t limit, bool *flags, size_t flags_len,
    uint64_t *out, size_t out_len);

#ifdef __cplusplus
}
#endif

#endif
