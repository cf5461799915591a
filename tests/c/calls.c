/* Every exported call from C: document 01's figures, its worked block from samples to bins and back, and refusals that leave lent memory as it was. */
#include "velomitra.h"

#include <stdio.h>
#include <string.h>

static int failures;

#define CHECK(fact)                                                   \
    do {                                                              \
        if (!(fact)) {                                                \
            fprintf(stderr, "%s:%d: %s\n", __FILE__, __LINE__, #fact); \
            failures++;                                               \
        }                                                             \
    } while (0)

#define LEN(list) (sizeof(list) / sizeof *(list))
#define LENT(list) (list), LEN(list)

/* Memory that calls change, with a copy to hold it to. */
struct lent {
    uint64_t keys[VELOMITRA_KEYS_LEN];
    uint16_t entry[VELOMITRA_ENTRY_LEN];
    uint32_t stamp[VELOMITRA_STAMP_LEN];
    uint16_t block[VELOMITRA_BLOCK_LEN];
    uint16_t predictor[VELOMITRA_PREDICTOR_LEN];
    uint32_t runs[1024 * VELOMITRA_RUN_LEN];
    size_t count[1];
    float total[1];
    uint8_t bins[VELOMITRA_MOST_BINS];
    size_t used[1];
    uint64_t figure[1];
    uint16_t luma[16];
};

static struct lent now, before;
static uint16_t none[1];

static const float flat[VELOMITRA_RATES_LEN] = {1, 1, 1, 1, 1, 1, 1, 1, 1, 1, 1, 1, 1, 1, 1, 1, 1, 1};

static int unchanged(void) {
    return memcmp(&now, &before, sizeof now) == 0;
}

static void keep(void) {
    memcpy(&before, &now, sizeof now);
}

/* ---- leaves */

static void leaves(void) {
    CHECK(velomitra_scan_pos(4, 4) == 1 * 65536 + 3);
    CHECK(velomitra_scan_pos(0, 0) == VELOMITRA_NONE);
    CHECK(velomitra_scan_pos_inv(3, 1, 4) == 4);
    CHECK(velomitra_place_above(4, 4) == 3);
    CHECK(velomitra_place_above(3, 4) == VELOMITRA_NONE);
    CHECK(velomitra_step(4) == 64);
    CHECK(velomitra_step(-128) == 40);
    CHECK(velomitra_step(76) == VELOMITRA_NONE);
    static const int32_t qps[] = {3, 4, 33, 34};
    static const uint64_t tolerances[] = {0, 1, 14, 16};
    for (size_t i = 0; i < LEN(qps); i++) {
        CHECK(velomitra_tolerance(false, velomitra_step(qps[i])) == tolerances[i]);
        CHECK(velomitra_tolerance(true, velomitra_step(qps[i])) == 0);
    }
    CHECK(velomitra_distance(10 + (7ull << 32), 12 + (3ull << 32)) == 4);
    CHECK(velomitra_quantize_escape(false, velomitra_step(22), 255, 100) == 12);
    CHECK(velomitra_dequant_escape(false, velomitra_step(4), 255, -1) == 0);
    CHECK(velomitra_dequant_escape(false, velomitra_step(4), 255, 300) == 255);
    CHECK(velomitra_wrapping_mul(UINT64_MAX, 2) == UINT64_MAX - 1);
}

/* ---- codes: bins as text, a character a byte from '0' on */

static void holds(const char *what, const uint8_t *list, size_t end, const char *due) {
    size_t same = end == strlen(due);
    for (size_t i = 0; same && i < end; i++) same = list[i] + '0' == due[i];
    if (!same) {
        fprintf(stderr, "%s: other bins than %s\n", what, due);
        failures++;
    }
}

static void reads(const char *what, const uint64_t out[3], uint64_t value, size_t end) {
    if (out[0] != 0 || out[1] != value || out[2] != end) {
        fprintf(stderr, "%s: read as %llu %llu %llu\n", what, (unsigned long long)out[0], (unsigned long long)out[1], (unsigned long long)out[2]);
        failures++;
    }
}

static void codes(void) {
    uint8_t list[32];
    uint64_t out[3];
    size_t end;

    static const char *order0[] = {"0", "100", "101", "11000"};
    for (uint32_t v = 0; v < 4; v++) {
        end = velomitra_put_egk(LENT(list), 0, 0, v);
        holds("Exp-Golomb 0", list, end, order0[v]);
        velomitra_egk_at(list, end, 0, 0, LENT(out));
        reads("Exp-Golomb 0", out, v, end);
    }
    end = velomitra_put_egk(LENT(list), 0, 3, 8);
    holds("Exp-Golomb 3", list, end, "100000");
    velomitra_held_egk_at(list, end, 0, 3, 7, LENT(out));
    CHECK(out[0] == VELOMITRA_VALUE && out[2] == 0);

    static const char *alphabet5[] = {"00", "01", "10", "110", "111"};
    for (uint32_t v = 0; v < 5; v++) {
        end = velomitra_put_tb(LENT(list), 0, 5, v);
        holds("alphabet 5", list, end, alphabet5[v]);
        velomitra_tb_at(list, end, 0, 5, LENT(out));
        reads("alphabet 5", out, v, end);
    }

    /* the bits of document 01's runs; classes are those of an index run that sent 0 */
    static const char *longest5[] = {"0", "10", "1100", "1101", "1110", "1111"};
    for (uint32_t v = 0; v < 6; v++) {
        end = velomitra_put_run(LENT(list), 0, 5, false, 0, v);
        CHECK(end == strlen(longest5[v]));
        for (size_t i = 0; i < end; i++) CHECK((list[i] & 1) == longest5[v][i] - '0');
        velomitra_run_at(list, end, 0, 5, false, 0, LENT(out));
        reads("longest run 5", out, v, end);
    }

    end = velomitra_put_bits(LENT(list), 0, 10, 8);
    holds("bits", list, end, "00001010");
    velomitra_bits_at(list, end, 0, 8, LENT(out));
    reads("bits", out, 10, end);
    velomitra_bin_at(list, end, 4, 0, LENT(out));
    reads("bin", out, 1, 5);
    velomitra_bin_at(list, end, 4, 1, LENT(out));
    CHECK(out[0] == VELOMITRA_BIN_CLASS && out[2] == 4);
    velomitra_bits_at(list, end, 0, 9, LENT(out));
    CHECK(out[0] == VELOMITRA_BINS_END && out[2] == 8);

    end = velomitra_put_count(LENT(list), 0, 1, 1);
    holds("index count", list, end, "0001");
    velomitra_count_at(list, end, 0, 1, LENT(out));
    reads("index count", out, 1, end);

    static const bool flags[] = {false, true, false};
    bool got[3];
    end = velomitra_put_reuse(LENT(list), 0, 64, LENT(flags));
    holds("reuse", list, end, "101100");
    velomitra_reuse_at(list, end, 0, 64, LENT(got), LENT(out));
    reads("reuse", out, 1, end);
    CHECK(memcmp(got, flags, sizeof got) == 0);

    /* a list of no room measures, and nothing is laid past an end */
    CHECK(velomitra_put_bits(list, 0, 0, 0, 8) == 8);
    memset(list, 99, sizeof list);
    CHECK(velomitra_put_bits(list, 4, 0, 255, 8) == 8);
    CHECK(list[3] == 1 && list[4] == 99);
}

/* ---- a block of format 0, 8 bits */

static uint8_t analyze(const uint16_t *luma, size_t side, size_t size) {
    const int32_t config[VELOMITRA_CONFIG_LEN] = {1, 0, 8, 8, 4, 4, 4, 0};
    const size_t source[VELOMITRA_SOURCE_LEN] = {side, side, 0, 0, 0, 0, size};
    return velomitra_analyze_palette(
        luma, side * side, none, 0, none, 0, LENT(config), LENT(source), LENT(now.predictor), LENT(now.keys), LENT(now.entry),
        LENT(now.stamp), LENT(now.block));
}

static void worked_block(void) {
    static const uint16_t luma[] = {10, 200, 10, 200};
    static const int32_t config[VELOMITRA_CONFIG_LEN] = {1, 0, 8, 8, 4, 4, 4, 0};
    static const size_t source[VELOMITRA_SOURCE_LEN] = {2, 2, 0, 0, 0, 0, 2};
    const uint16_t *block = now.block;
    memset(&now, 0, sizeof now);

    CHECK(analyze(luma, 2, 2) == VELOMITRA_OK);
    CHECK(now.stamp[0] == 1);
    CHECK(block[VELOMITRA_BLOCK_ENTRIES] == 2 && block[VELOMITRA_BLOCK_SIGNALED] == 2 && block[VELOMITRA_BLOCK_TOLERANCE] == 1);
    CHECK(block[VELOMITRA_BLOCK_PALETTE] == 10 && block[VELOMITRA_BLOCK_PALETTE + 3] == 200);
    CHECK(velomitra_assign_indices(LENT(luma), none, 0, none, 0, LENT(config), LENT(source), false, LENT(now.block)) == VELOMITRA_OK);
    static const uint16_t indices[] = {0, 1, 1, 0};
    CHECK(memcmp(block + VELOMITRA_BLOCK_INDICES, indices, sizeof indices) == 0);
    now.figure[0] = 9;
    CHECK(velomitra_palette_sse(LENT(luma), none, 0, none, 0, LENT(config), LENT(source), LENT(now.block), LENT(now.figure)) == VELOMITRA_OK);
    CHECK(now.figure[0] == 0);
    /* a run whose cells above all equal it costs nothing, and counts as moved */
    CHECK(velomitra_smooth_indices(LENT(luma), none, 0, none, 0, LENT(config), LENT(source), 1, 4, LENT(now.block)) == 1);
    CHECK(memcmp(block + VELOMITRA_BLOCK_INDICES, indices, sizeof indices) == 0);

    CHECK(velomitra_plan_runs(LENT(now.block), LENT(flat), LENT(now.runs), LENT(now.count), LENT(now.total)) == VELOMITRA_OK);
    static const uint32_t runs[] = {0, 0, 0, 0, 0, 0, 0, 1, 1, 0, 1, 2};
    CHECK(now.count[0] == 3 && now.total[0] == 4.25f);
    CHECK(memcmp(now.runs, runs, sizeof runs) == 0);
    CHECK(velomitra_write_palette_cu(LENT(now.block), LENT(now.runs), now.count[0], LENT(now.bins), LENT(now.used)) == VELOMITRA_OK);
    holds("the worked block", now.bins, now.used[0], "10100001010110010000000103466");

    static uint16_t read[VELOMITRA_BLOCK_LEN], target[16], after[VELOMITRA_PREDICTOR_LEN];
    static uint32_t read_runs[4 * VELOMITRA_RUN_LEN];
    size_t count[1], used[1], place[1] = {77};
    CHECK(velomitra_read_palette_cu(
              now.bins, now.used[0], 2, 0, 8, 8, false, LENT(now.predictor), LENT(read), LENT(read_runs), LENT(count), LENT(used),
              LENT(place)) == VELOMITRA_OK);
    CHECK(count[0] == 3 && used[0] == 29 && place[0] == 77);
    CHECK(memcmp(read_runs, runs, sizeof runs) == 0);
    read[VELOMITRA_BLOCK_TOLERANCE] = 1; /* not sent */
    CHECK(memcmp(read, now.block, sizeof read) == 0);

    /* in column 1, row 1 of a plane of stride 4: all else as it was */
    static const size_t onto[VELOMITRA_SOURCE_LEN] = {3, 4, 0, 0, 1, 1, 2};
    memset(target, 0xff, sizeof target);
    CHECK(velomitra_reconstruct(LENT(target), none, 0, none, 0, 4, 0, LENT(config), LENT(onto), LENT(read)) == VELOMITRA_OK);
    for (size_t i = 0; i < LEN(target); i++) {
        size_t x = i % 4, y = i / 4;
        bool covered = (x == 1 || x == 2) && (y == 1 || y == 2);
        CHECK(target[i] == (covered ? luma[2 * (y - 1) + (x - 1)] : 0xffff));
    }
    memset(after, 0, sizeof after);
    CHECK(velomitra_update(LENT(after), LENT(read), 128) == VELOMITRA_OK);
    CHECK(after[0] == 2 && after[1] == 10 && after[4] == 200);
}

static void refusals(void) {
    static const uint16_t luma[] = {10, 200, 10, 200}, three[] = {10, 200, 10, 30}, over[] = {10, 256, 10, 200};
    static const int32_t config[VELOMITRA_CONFIG_LEN] = {1, 0, 8, 8, 4, 4, 4, 0}, other[VELOMITRA_CONFIG_LEN] = {3, 0, 8, 8, 4, 4, 4, 0};
    static const size_t source[VELOMITRA_SOURCE_LEN] = {2, 2, 0, 0, 0, 0, 2};
    size_t place[1] = {77};

    /* what worked_block left is a block that holds together */
    CHECK(analyze(luma, 2, 2) == VELOMITRA_OK);
    CHECK(velomitra_assign_indices(LENT(luma), none, 0, none, 0, LENT(config), LENT(source), false, LENT(now.block)) == VELOMITRA_OK);
    keep();

    CHECK(velomitra_analyze_with(
              LENT(luma), none, 0, none, 0, LENT(config), LENT(source), LENT(now.predictor), 17, LENT(now.keys), LENT(now.entry),
              LENT(now.stamp), LENT(now.block)) == VELOMITRA_BLOCK && unchanged());
    CHECK(analyze(luma, 2, 33) == VELOMITRA_GEOMETRY && unchanged());
    CHECK(analyze(over, 2, 2) == VELOMITRA_SAMPLE && unchanged());
    CHECK(velomitra_assign_indices(LENT(luma), none, 0, none, 0, LENT(other), LENT(source), false, LENT(now.block)) == VELOMITRA_CONFIG && unchanged());
    CHECK(velomitra_assign_indices(luma, 3, none, 0, none, 0, LENT(config), LENT(source), false, LENT(now.block)) == VELOMITRA_PLANE && unchanged());
    CHECK(velomitra_assign_indices(LENT(three), none, 0, none, 0, LENT(config), LENT(source), false, LENT(now.block)) == VELOMITRA_OK);
    CHECK(now.block[VELOMITRA_BLOCK_ESCAPE] == 1);
    now = before;
    CHECK(velomitra_palette_sse(LENT(luma), none, 0, none, 0, LENT(config), LENT(source), now.block, 5, LENT(now.figure)) == VELOMITRA_BLOCK && unchanged());
    CHECK(velomitra_smooth_indices(LENT(luma), none, 0, none, 0, LENT(other), LENT(source), 1, 4, LENT(now.block)) == 2 * VELOMITRA_CONFIG && unchanged());
    now.block[VELOMITRA_BLOCK_TRANSPOSE] = 1;
    keep();
    CHECK(velomitra_smooth_indices(LENT(luma), none, 0, none, 0, LENT(config), LENT(source), 1, 4, LENT(now.block)) == 2 * VELOMITRA_SMOOTHING && unchanged());
    now.block[VELOMITRA_BLOCK_TRANSPOSE] = 0;
    keep();
    CHECK(velomitra_plan_runs(LENT(now.block), flat, 17, now.runs, 8, LENT(now.count), LENT(now.total)) == VELOMITRA_ROOM && unchanged());
    static const float dear[] = {65};
    CHECK(velomitra_plan_runs(LENT(now.block), LENT(dear), LENT(now.runs), LENT(now.count), LENT(now.total)) == VELOMITRA_RATE && unchanged());
    CHECK(velomitra_write_palette_cu(LENT(now.block), now.runs, 8, 2, LENT(now.bins), LENT(now.used)) == VELOMITRA_RUNS && unchanged());
    CHECK(velomitra_write_palette_cu(LENT(now.block), LENT(now.runs), 3, now.bins, 28, LENT(now.used)) == VELOMITRA_ROOM && unchanged());
    CHECK(velomitra_read_palette_cu(
              now.bins, 28, 2, 0, 8, 8, false, LENT(now.predictor), LENT(now.block), LENT(now.runs), LENT(now.count), LENT(now.used),
              LENT(place)) == VELOMITRA_BINS_END && unchanged());
    CHECK(place[0] == 28);
    CHECK(velomitra_read_palette_cu(
              now.bins, 29, 2, 0, 8, 8, false, LENT(now.predictor), LENT(now.block), now.runs, 15, LENT(now.count), LENT(now.used),
              LENT(place)) == VELOMITRA_ROOM && unchanged());
    CHECK(place[0] == 0);
    CHECK(velomitra_reconstruct(LENT(now.luma), none, 0, none, 0, 9, 0, LENT(config), LENT(source), LENT(now.block)) == VELOMITRA_PLANE && unchanged());
    CHECK(velomitra_update(LENT(now.predictor), LENT(now.block), 129) == VELOMITRA_PREDICTOR && unchanged());

    /* 13: the counter moves on, the block stays */
    CHECK(analyze(three, 2, 2) == VELOMITRA_TOO_MANY_COLORS);
    CHECK(memcmp(now.block, before.block, sizeof now.block) == 0);
    CHECK(analyze(luma, 2, 1) == VELOMITRA_TOO_MANY_COLORS);
    /* 14: document 01's smallest, predictor 9 */
    static const uint16_t close[] = {10, 10, 11, 11};
    now.predictor[0] = 1;
    now.predictor[1] = 9;
    CHECK(analyze(close, 2, 2) == VELOMITRA_OK);
    keep();
    CHECK(velomitra_assign_indices(LENT(close), none, 0, none, 0, LENT(config), LENT(source), false, LENT(now.block)) == VELOMITRA_TOO_MANY_ESCAPES && unchanged());
}

int main(void) {
    leaves();
    codes();
    worked_block();
    refusals();
    if (failures) {
        printf("C calls: %d failed\n", failures);
        return 1;
    }
    printf("C calls: all as they should be\n");
    return 0;
}
