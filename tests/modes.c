/*
 * The processor's modes of arithmetic: with flush-to-zero and denormals-are-zero set a cut answers and leaves what it
 * does without, and so do the slow cut and the narrow one, which leave the same; and rounding upward changes some cuts,
 * so that it is no idle word of the header to ask for nearest.
 */
#define _DEFAULT_SOURCE
#include "seluvava.h"

#include "check.h"

#include <fenv.h>

#define BINS 512
#define COLOURS 3000
#define TABLES 500

/* All that a cut answers and leaves. */
struct left {
    uint64_t work[5 * BINS];
    double spreads[256];
    uint32_t counts[256], remainders[3 * 256];
    uint8_t palette[3 * 256], map[BINS], boxes[6 * 256];
    uint8_t number;
    size_t found;
};

static uint64_t table[5 * BINS];
static uint32_t sums[4 * BINS], work_sums[4 * BINS];
static uint64_t squares[BINS], work_squares[BINS];
static struct left nearest, flushed, upward, slow, narrow;

static uint64_t state = 1;

static uint32_t random_below(uint32_t n)
{
    state = state * UINT64_C(6364136223846793005) + UINT64_C(1442695040888963407);
    return (uint32_t)((state >> 33) % n);
}

/* Colours around a few, with weights that bring the total to some millions. */
static void make_table(void)
{
    static uint8_t colours[3 * COLOURS];
    static uint32_t weights[COLOURS];
    const uint32_t near = 1 + random_below(40);
    for (size_t i = 0; i < COLOURS; i++) {
        for (size_t c = 0; c < 3; c++) colours[3 * i + c] = (uint8_t)(random_below(5) * 50 + random_below(near));
        weights[i] = random_below(5000);
    }
    memset(table, 0, sizeof table);
    check(seluvava_load(8, 8, 8, table, 5 * BINS, colours, sizeof colours, true, weights, COLOURS) == 0,
          "the load is refused");
    memset(sums, 0, sizeof sums);
    memset(squares, 0, sizeof squares);
    check(seluvava_narrow_load(8, 8, 8, sums, 4 * BINS, squares, BINS, colours, sizeof colours, true, weights,
                               COLOURS) == 0,
          "the narrow load is refused");
}

static void cut(size_t k, struct left *left)
{
    struct seluvava_cut_answer answer;
    memset(left, 0xa5, sizeof *left);
    answer = seluvava_cut(8, 8, 8, k, table, 5 * BINS, left->work, 5 * BINS, left->palette, sizeof left->palette,
                          left->counts, 256, left->remainders, 3 * 256, left->map, BINS, left->boxes, sizeof left->boxes,
                          left->spreads, 256);
    left->number = answer.number;
    left->found = answer.boxes;
}

/* The same without a work table: what the other cut left there is taken for its own. */
static void cut_slowly(size_t k, struct left *left)
{
    struct seluvava_cut_answer answer;
    memset(left, 0xa5, sizeof *left);
    memcpy(left->work, nearest.work, sizeof left->work);
    answer = seluvava_cut_slowly(8, 8, 8, k, table, 5 * BINS, left->palette, sizeof left->palette, left->counts, 256,
                                 left->remainders, 3 * 256, left->map, BINS, left->boxes, sizeof left->boxes,
                                 left->spreads, 256);
    left->number = answer.number;
    left->found = answer.boxes;
}

/* The same in the narrow layout, whose work table is turned into the other one's numbers. */
static void narrow_cut(size_t k, struct left *left)
{
    struct seluvava_cut_answer answer;
    memset(left, 0xa5, sizeof *left);
    answer = seluvava_narrow_cut(8, 8, 8, k, sums, 4 * BINS, squares, BINS, work_sums, 4 * BINS, work_squares, BINS,
                                 left->palette, sizeof left->palette, left->counts, 256, left->remainders, 3 * 256,
                                 left->map, BINS, left->boxes, sizeof left->boxes, left->spreads, 256);
    for (size_t p = 0; p < BINS; p++) {
        for (size_t j = 0; j < 4; j++) left->work[5 * p + j] = work_sums[4 * p + j];
        left->work[5 * p + 4] = work_squares[p];
    }
    left->number = answer.number;
    left->found = answer.boxes;
}

int main(void)
{
    size_t changed = 0;
    now("start");
    watch();
    for (size_t i = 0; i < TABLES; i++) {
        const size_t k = 2 + random_below(255);
        now("table %zu, k = %zu", i, k);
        make_table();
        cut(k, &nearest);
        check(nearest.number == 0, "the cut is refused");
        cut_slowly(k, &slow);
        check(memcmp(&slow, &nearest, sizeof nearest) == 0, "another answer of the slow cut");
        narrow_cut(k, &narrow);
        check(memcmp(&narrow, &nearest, sizeof nearest) == 0, "another answer of the narrow cut");

        flush(true);
        cut(k, &flushed);
        cut_slowly(k, &slow);
        narrow_cut(k, &narrow);
        flush(false);
        check(memcmp(&flushed, &nearest, sizeof nearest) == 0, "another answer with the flush modes");
        check(memcmp(&slow, &nearest, sizeof nearest) == 0, "another answer of the slow cut with the flush modes");
        check(memcmp(&narrow, &nearest, sizeof nearest) == 0, "another answer of the narrow cut with the flush modes");

        need(fesetround(FE_UPWARD) == 0, "rounding upward");
        cut(k, &upward);
        need(fesetround(FE_TONEAREST) == 0, "rounding to nearest");
        changed += memcmp(&upward, &nearest, sizeof nearest) != 0;
    }
    now("rounding upward");
    check(changed > 0, "no cut of %d has another answer, so the rounding mode is not seen here", TABLES);
    printf("modes: %d cuts, the same with both flush modes, slowly and narrow, %zu others with rounding upward\n",
           TABLES, changed);
    return 0;
}
