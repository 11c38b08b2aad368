/*
 * Every call of seluvava.h, held to docs/RULES.md: the cases P1 to P10, every number of every call, alone and two
 * at a time, lengths one off, NULL with length 0, bands, batches and frames of every length up to 200, every
 * recorded list of up to three entries out of ten, PPM files cut at every byte and with every byte in the place of
 * each of their headers, palettes of every length, tables merged in either order, and all cuts of the same tables, fast
 * and slow, wide and narrow and into one structure, which have to leave the same, and of tables multiplied by each power
 * of two; and all of it once more with the processor's flush modes set. Then the version, and the constants and words of
 * the answers.
 * What a lent buffer must hold afterwards is said here once more, in C, by the same rules.
 */
#define _DEFAULT_SOURCE
#include "seluvava.h"

#include "check.h"

#include <limits.h>
#include <math.h>
#include <sys/mman.h>

#define LIMIT UINT64_C(4294967295)
#define NARROW_LIMIT UINT64_C(16843008)
#define PIXELS 200

/* ---- What a call is asked with */

enum buffer {
    TABLE, SECOND, DIFFERENCES, REASONS, WORK, COLOURS, WEIGHTS, PPM, ENTRIES, ANSWERS, PALETTE, COUNTS, REMAINDERS,
    MAP, BOXES, SPREADS, FRAME, INDICES, SUMS, SQUARES, SECOND_SUMS, SECOND_SQUARES, WORK_SUMS, WORK_SQUARES, BUFFERS
};

/* Numbers, and the length and content of each buffer. Grids have at most 64 bins here. `own` is the interval of a batch
 * and the first one of a replay. */
struct asked {
    size_t b1, b2, b3, k, weighted, told, first, pixels;
    uint32_t in_force, own;
    size_t length[BUFFERS];
    uint64_t table[321], second[321], work[321];
    int64_t differences[321];
    uint8_t reasons[65];
    uint8_t colours[3 * PIXELS], ppm[3 * PIXELS + 60];
    uint32_t weights[PIXELS], entries[24];
    uint8_t answers[260], palette[780];
    uint32_t counts[260], remainders[780];
    uint8_t map[65], boxes[1560];
    double spreads[260];
    uint8_t frame[3 * PIXELS], indices[PIXELS];
    uint32_t sums[257], second_sums[257], work_sums[257];
    uint64_t squares[65], second_squares[65], work_squares[65];
};

#define AT(member) offsetof(struct asked, member), sizeof(((struct asked *)0)->member)

static const struct {
    const char *name;
    size_t at, room, element;
} buffers[] = {
    [TABLE] = {"table", AT(table), 8},       [SECOND] = {"second", AT(second), 8},
    [WORK] = {"work", AT(work), 8},          [DIFFERENCES] = {"differences", AT(differences), 8},
    [COLOURS] = {"colours", AT(colours), 1}, [WEIGHTS] = {"weights", AT(weights), 4},
    [PPM] = {"file", AT(ppm), 1},
    [ENTRIES] = {"entries", AT(entries), 4}, [ANSWERS] = {"answers", AT(answers), 1},
    [PALETTE] = {"palette", AT(palette), 1}, [COUNTS] = {"counts", AT(counts), 4},
    [MAP] = {"map", AT(map), 1},             [REMAINDERS] = {"remainders", AT(remainders), 4},
    [BOXES] = {"boxes", AT(boxes), 1},       [SPREADS] = {"spreads", AT(spreads), 8},
    [FRAME] = {"frame", AT(frame), 1},       [INDICES] = {"indices", AT(indices), 1},
    [REASONS] = {"reasons", AT(reasons), 1},
    [SUMS] = {"sums", AT(sums), 4},          [SECOND_SUMS] = {"second sums", AT(second_sums), 4},
    [SQUARES] = {"squares", AT(squares), 8}, [SECOND_SQUARES] = {"second squares", AT(second_squares), 8},
    [WORK_SUMS] = {"work sums", AT(work_sums), 4},
    [WORK_SQUARES] = {"work squares", AT(work_squares), 8},
};

/* Which buffers a call is lent, and which of them it may change. */
enum call {
    LOAD, LOAD_PPM, MERGE, COMPARE, RESCUE, BATCH, REPLAY, CUT, CUT_SLOWLY, MAPPING, PAINT, HEADER, NEAREST,
    NARROW_LOAD, NARROW_MERGE, NARROW_CUT, NARROW_CUT_SLOWLY, WIDEN, CALLS
};
#define BIT(n) (1u << (n))
#define NARROW_TABLE (BIT(SUMS) | BIT(SQUARES))
#define NARROW_WORK (BIT(WORK_SUMS) | BIT(WORK_SQUARES))
#define RESULTS (BIT(PALETTE) | BIT(COUNTS) | BIT(REMAINDERS) | BIT(MAP) | BIT(BOXES) | BIT(SPREADS))

static const struct {
    const char *name;
    unsigned lent, changed;
} calls[] = {
    [LOAD] = {"load", BIT(TABLE) | BIT(COLOURS) | BIT(WEIGHTS), BIT(TABLE)},
    [LOAD_PPM] = {"load_ppm", BIT(TABLE) | BIT(PPM), BIT(TABLE)},
    [MERGE] = {"merge", BIT(TABLE) | BIT(SECOND), BIT(TABLE)},
    [COMPARE] = {"compare", BIT(TABLE) | BIT(SECOND) | BIT(DIFFERENCES), BIT(DIFFERENCES)},
    [RESCUE] = {"rescue", BIT(TABLE) | BIT(REASONS), BIT(TABLE) | BIT(REASONS)},
    [BATCH] = {"batch", BIT(TABLE) | BIT(COLOURS) | BIT(WEIGHTS), BIT(TABLE)},
    [REPLAY] = {"replay", BIT(TABLE) | BIT(ENTRIES) | BIT(COLOURS) | BIT(WEIGHTS) | BIT(ANSWERS),
                BIT(TABLE) | BIT(ANSWERS)},
    [CUT] = {"cut", BIT(TABLE) | BIT(WORK) | RESULTS, BIT(WORK) | RESULTS},
    [CUT_SLOWLY] = {"cut_slowly", BIT(TABLE) | RESULTS, RESULTS},
    [MAPPING] = {"map", BIT(MAP) | BIT(FRAME) | BIT(INDICES), BIT(INDICES)},
    [PAINT] = {"paint", BIT(MAP) | BIT(PALETTE) | BIT(FRAME), BIT(FRAME)},
    [HEADER] = {"ppm_header", BIT(PPM), 0},
    [NEAREST] = {"nearest", BIT(PALETTE) | BIT(ANSWERS), BIT(ANSWERS)},
    [NARROW_LOAD] = {"narrow_load", NARROW_TABLE | BIT(COLOURS) | BIT(WEIGHTS), NARROW_TABLE},
    [NARROW_MERGE] = {"narrow_merge", NARROW_TABLE | BIT(SECOND_SUMS) | BIT(SECOND_SQUARES), NARROW_TABLE},
    [NARROW_CUT] = {"narrow_cut", NARROW_TABLE | NARROW_WORK | RESULTS, NARROW_WORK | RESULTS},
    [NARROW_CUT_SLOWLY] = {"narrow_cut_slowly", NARROW_TABLE | RESULTS, RESULTS},
    [WIDEN] = {"widen", NARROW_TABLE | BIT(TABLE), BIT(TABLE)},
};

/* What a call hands back, of whatever it has. */
struct answer {
    unsigned number;
    size_t boxes, rounds, differ, first;
    uint32_t interval;
    size_t width, height, start;
};

static struct answer answer_of(enum call call, const struct asked *q, void *const *at)
{
    struct answer answer = {.number = 0};
    const size_t b1 = q->b1, b2 = q->b2, b3 = q->b3, *length = q->length;
    switch (call) {
    case LOAD:
        answer.number = seluvava_load(b1, b2, b3, at[TABLE], length[TABLE], at[COLOURS], length[COLOURS],
                                      q->weighted != 0, at[WEIGHTS], length[WEIGHTS]);
        break;
    case LOAD_PPM:
        answer.number = seluvava_load_ppm(b1, b2, b3, at[TABLE], length[TABLE], at[PPM], length[PPM]);
        break;
    case HEADER: {
        const struct seluvava_ppm_answer header = seluvava_ppm_header(at[PPM], length[PPM]);
        answer = (struct answer){.number = header.number, .width = header.width, .height = header.height,
                                 .start = header.pixels};
        break;
    }
    case MERGE:
        answer.number = seluvava_merge(b1, b2, b3, at[TABLE], length[TABLE], at[SECOND], length[SECOND]);
        break;
    case COMPARE: {
        const struct seluvava_compare_answer compared =
            seluvava_compare(b1, b2, b3, at[TABLE], length[TABLE], at[SECOND], length[SECOND], at[DIFFERENCES],
                             length[DIFFERENCES]);
        answer = (struct answer){.number = compared.number, .differ = compared.differ, .first = compared.first};
        break;
    }
    case RESCUE:
        answer.number = seluvava_rescue(b1, b2, b3, at[TABLE], length[TABLE], at[REASONS], length[REASONS]);
        break;
    case BATCH:
        answer.number = seluvava_batch((seluvava_session){q->in_force}, q->own, b1, b2, b3, at[TABLE], length[TABLE],
                                       at[COLOURS], length[COLOURS], q->weighted != 0, at[WEIGHTS], length[WEIGHTS]);
        break;
    case REPLAY: {
        const struct seluvava_session_answer replayed =
            seluvava_replay(q->own, b1, b2, b3, at[TABLE], length[TABLE], at[ENTRIES], length[ENTRIES],
                            at[COLOURS], length[COLOURS], at[WEIGHTS], length[WEIGHTS], at[ANSWERS], length[ANSWERS]);
        answer = (struct answer){.number = replayed.number, .interval = replayed.session.interval};
        break;
    }
    case CUT: {
        const struct seluvava_cut_answer cut =
            seluvava_cut(b1, b2, b3, q->k, at[TABLE], length[TABLE], at[WORK], length[WORK],
                         at[PALETTE], length[PALETTE], at[COUNTS], length[COUNTS],
                         at[REMAINDERS], length[REMAINDERS], at[MAP], length[MAP],
                         at[BOXES], length[BOXES], at[SPREADS], length[SPREADS]);
        answer = (struct answer){.number = cut.number, .boxes = cut.boxes, .rounds = cut.rounds};
        break;
    }
    case CUT_SLOWLY: {
        const struct seluvava_cut_answer cut =
            seluvava_cut_slowly(b1, b2, b3, q->k, at[TABLE], length[TABLE],
                                at[PALETTE], length[PALETTE], at[COUNTS], length[COUNTS],
                                at[REMAINDERS], length[REMAINDERS], at[MAP], length[MAP],
                                at[BOXES], length[BOXES], at[SPREADS], length[SPREADS]);
        answer = (struct answer){.number = cut.number, .boxes = cut.boxes, .rounds = cut.rounds};
        break;
    }
    case NARROW_LOAD:
        answer.number = seluvava_narrow_load(b1, b2, b3, at[SUMS], length[SUMS], at[SQUARES], length[SQUARES],
                                             at[COLOURS], length[COLOURS], q->weighted != 0, at[WEIGHTS],
                                             length[WEIGHTS]);
        break;
    case NARROW_MERGE:
        answer.number = seluvava_narrow_merge(b1, b2, b3, at[SUMS], length[SUMS], at[SQUARES], length[SQUARES],
                                              at[SECOND_SUMS], length[SECOND_SUMS],
                                              at[SECOND_SQUARES], length[SECOND_SQUARES]);
        break;
    case NARROW_CUT: {
        const struct seluvava_cut_answer cut =
            seluvava_narrow_cut(b1, b2, b3, q->k, at[SUMS], length[SUMS], at[SQUARES], length[SQUARES],
                                at[WORK_SUMS], length[WORK_SUMS], at[WORK_SQUARES], length[WORK_SQUARES],
                                at[PALETTE], length[PALETTE], at[COUNTS], length[COUNTS],
                                at[REMAINDERS], length[REMAINDERS], at[MAP], length[MAP],
                                at[BOXES], length[BOXES], at[SPREADS], length[SPREADS]);
        answer = (struct answer){.number = cut.number, .boxes = cut.boxes, .rounds = cut.rounds};
        break;
    }
    case NARROW_CUT_SLOWLY: {
        const struct seluvava_cut_answer cut =
            seluvava_narrow_cut_slowly(b1, b2, b3, q->k, at[SUMS], length[SUMS], at[SQUARES], length[SQUARES],
                                       at[PALETTE], length[PALETTE], at[COUNTS], length[COUNTS],
                                       at[REMAINDERS], length[REMAINDERS], at[MAP], length[MAP],
                                       at[BOXES], length[BOXES], at[SPREADS], length[SPREADS]);
        answer = (struct answer){.number = cut.number, .boxes = cut.boxes, .rounds = cut.rounds};
        break;
    }
    case WIDEN:
        answer.number = seluvava_widen(b1, b2, b3, at[SUMS], length[SUMS], at[SQUARES], length[SQUARES],
                                       at[TABLE], length[TABLE]);
        break;
    case MAPPING:
        answer.number = seluvava_map(b1, b2, b3, at[MAP], length[MAP], q->told, at[FRAME], length[FRAME],
                                     at[INDICES], length[INDICES], q->first, q->pixels);
        break;
    case PAINT:
        answer.number = seluvava_paint(b1, b2, b3, at[MAP], length[MAP], at[PALETTE], length[PALETTE],
                                       at[FRAME], length[FRAME], q->first, q->pixels);
        break;
    default:
        answer.number = seluvava_nearest(at[PALETTE], length[PALETTE], at[ANSWERS], length[ANSWERS]);
    }
    return answer;
}

/* ---- What must be there afterwards */

static size_t place(const struct asked *q, const uint8_t *c)
{
    return (c[0] * q->b1 / 256 * q->b2 + c[1] * q->b2 / 256) * q->b3 + c[2] * q->b3 / 256;
}

static void add_colour(struct asked *q, const uint8_t *c, uint64_t w)
{
    uint64_t *cell = q->table + 5 * place(q, c);
    cell[0] += w;
    for (size_t d = 0; d < 3; d++) {
        cell[1 + d] += w * c[d];
        cell[4] += w * c[d] * c[d];
    }
}

/* Colours from one on, each weight multiplied. */
static void added(struct asked *q, size_t from, size_t colours, bool weighted, uint64_t scale)
{
    for (size_t i = from; i < from + colours; i++)
        add_colour(q, q->colours + 3 * i, scale * (weighted ? q->weights[i] : 1));
}

static void loaded(struct asked *q)
{
    added(q, 0, q->length[COLOURS] / 3, q->weighted != 0, 1);
}

static void batched(struct asked *q)
{
    added(q, 0, q->length[COLOURS] / 3, q->weighted != 0, q->own);
}

static bool is_digit(uint8_t c)
{
    return '0' <= c && c <= '9';
}

static bool is_line_end(uint8_t c)
{
    return c == '\r' || c == '\n';
}

static bool is_whitespace(uint8_t c)
{
    return c == ' ' || c == '\t' || is_line_end(c);
}

/* The gap from a place of the file on, and the number behind it, which is 65,536 where it is more. Answers the place
 * behind them, or 0 where they do not stand there. */
static size_t field(const struct asked *q, size_t at, size_t *value)
{
    const size_t end = q->length[PPM];
    bool whitespace = false;
    for (; at < end && (q->ppm[at] == '#' || is_whitespace(q->ppm[at])); at++) {
        if (q->ppm[at] != '#') whitespace = true;
        else
            while (at < end && !is_line_end(q->ppm[at])) at++;
    }
    if (!whitespace || at >= end || !is_digit(q->ppm[at])) return 0;
    for (*value = 0; at < end && is_digit(q->ppm[at]); at++) {
        *value = 10 * *value + q->ppm[at] - '0';
        if (*value > 65536) *value = 65536;
    }
    return at;
}

/* What the header of the file says. */
static struct answer header_of(const struct asked *q)
{
    const struct answer malformed = {.number = 10};
    size_t value[3], at = 2;
    if (q->length[PPM] < 2 || q->ppm[0] != 'P' || q->ppm[1] != '6') return malformed;
    for (size_t i = 0; i < 3; i++) {
        at = field(q, at, &value[i]);
        if (at == 0) return malformed;
    }
    if (at == q->length[PPM] || !is_whitespace(q->ppm[at])) return malformed;
    for (size_t i = 0; i < 2; i++)
        if (value[i] < 1 || value[i] > 65535) return malformed;
    if (value[2] != 255) return (struct answer){.number = 11};
    return (struct answer){.width = value[0], .height = value[1], .start = at + 1};
}

/* What loading the file answers, as far as the file decides. */
static unsigned file_answer(const struct asked *q)
{
    const struct answer header = header_of(q);
    if (header.number != 0) return header.number;
    return q->length[PPM] - header.start == 3 * header.width * header.height ? 0 : 12;
}

static void file_loaded(struct asked *q)
{
    for (size_t p = header_of(q).start; p < q->length[PPM]; p += 3) add_colour(q, q->ppm + p, 1);
}

static void header_read(const struct asked *q, struct answer answer)
{
    const struct answer header = header_of(q);
    check(answer.width == header.width && answer.height == header.height, "a size of %zu by %zu and not %zu by %zu",
          answer.width, answer.height, header.width, header.height);
    check(answer.start == header.start, "pixels from %zu on and not from %zu", answer.start, header.start);
}

static bool is_interval(uint32_t interval)
{
    return 1 <= interval && interval <= 4096;
}

/* What a batch of a replay answers: its interval, then whether its total fits. No total here is past 2^64. */
static unsigned batch_answer(const struct asked *q, uint32_t in_force, uint32_t interval, size_t from, size_t colours)
{
    uint64_t total = 0;
    if (!is_interval(interval)) return 13;
    if (interval != in_force) return 14;
    for (size_t p = 0; p < q->length[TABLE]; p += 5) total += q->table[p];
    for (size_t i = from; i < from + colours; i++) total += (uint64_t)interval * q->weights[i];
    return total > LIMIT ? 7 : 0;
}

/* One entry after the other. */
static void replayed(struct asked *q, uint32_t interval)
{
    uint32_t in_force = q->own;
    size_t from = 0;
    for (size_t i = 0; i < q->length[ENTRIES] / 3; i++) {
        const uint32_t *entry = q->entries + 3 * i;
        if (entry[0] == 0) {
            q->answers[i] = is_interval(entry[1]) ? 0 : 13;
            if (is_interval(entry[1])) in_force = entry[1];
        } else {
            q->answers[i] = (uint8_t)batch_answer(q, in_force, entry[1], from, entry[2]);
            if (q->answers[i] == 0) added(q, from, entry[2], true, entry[1]);
            from += entry[2];
        }
    }
    check(interval == in_force, "interval %u is in force and not %u", in_force, interval);
}

static void merged(struct asked *q)
{
    for (size_t i = 0; i < q->length[TABLE]; i++) q->table[i] += q->second[i];
}

/* The differences, and what is told of them. */
static void compared(struct asked *q, size_t differ, size_t first)
{
    const size_t bins = q->length[TABLE] / 5;
    size_t differing = 0, place = bins;
    for (size_t p = bins; p-- > 0;)
        if (memcmp(q->table + 5 * p, q->second + 5 * p, 5 * sizeof *q->table) != 0) differing++, place = p;
    for (size_t i = 0; i < 5 * bins; i++) q->differences[i] = (int64_t)q->second[i] - (int64_t)q->table[i];
    check(differ == differing, "%zu bins differ and not %zu", differing, differ);
    check(first == place, "the first that differs is at place %zu and not %zu", place, first);
}

/* Whether a bin keeps its bounds, with a weight that fits a table alone. So light, no product here is past 2^64. */
static bool keeps_bounds(const struct asked *q, size_t p)
{
    const size_t sizes[] = {q->b1, q->b2, q->b3}, bins[] = {p / (q->b2 * q->b3), p / q->b3 % q->b2, p % q->b3};
    const uint64_t *cell = q->table + 5 * p, n = cell[0];
    uint64_t lows = 0, highs = 0;
    if (n > LIMIT) return false;
    for (size_t d = 0; d < 3; d++) {
        const uint64_t low = bins[d] * 256 / sizes[d], high = low + 256 / sizes[d] - 1;
        if (cell[1 + d] < n * low || cell[1 + d] > n * high) return false;
        lows += low * low;
        highs += high * high;
    }
    return n * lows <= cell[4] && cell[4] <= n * highs;
}

/* One bin after the other, with the total of those kept so far. */
static void rescued(struct asked *q)
{
    uint64_t total = 0;
    for (size_t p = 0; p < q->length[REASONS]; p++) {
        uint64_t *cell = q->table + 5 * p;
        q->reasons[p] = !keeps_bounds(q, p) ? 1 : total + cell[0] > LIMIT ? 2 : 0;
        if (q->reasons[p] == 0) total += cell[0];
        else memset(cell, 0, 5 * sizeof *cell);
    }
}

/* The sum over the bins of a box. */
static void box_sum(const struct asked *q, const uint8_t *box, uint64_t *sum)
{
    memset(sum, 0, 5 * sizeof *sum);
    for (size_t r = box[0]; r < box[1]; r++)
        for (size_t g = box[2]; g < box[3]; g++)
            for (size_t b = box[4]; b < box[5]; b++)
                for (size_t j = 0; j < 5; j++) sum[j] += q->table[5 * ((r * q->b2 + g) * q->b3 + b) + j];
}

static double spread(const uint64_t *sum)
{
    const double c1 = (double)sum[1], c2 = (double)sum[2], c3 = (double)sum[3];
    return (double)sum[4] - (c1 * c1 + c2 * c2 + c3 * c3) / (double)sum[0];
}

/* Colour, count, remainders and map of box i; answers how many bins it has. */
static size_t box_cut(struct asked *q, size_t i)
{
    const uint8_t *box = q->boxes + 6 * i;
    uint64_t sum[5];
    check(box[0] < box[1] && box[2] < box[3] && box[4] < box[5], "box %zu has no bin", i);
    check(box[1] <= q->b1 && box[3] <= q->b2 && box[5] <= q->b3, "box %zu is not inside the grid", i);
    box_sum(q, box, sum);
    check(sum[0] > 0, "box %zu has no weight", i);
    check(q->spreads[i] == (q->k == 1 ? INFINITY : spread(sum)) || q->spreads[i] == 0, "box %zu has another spread", i);
    for (size_t d = 0; d < 3; d++) {
        q->palette[3 * i + d] = (uint8_t)(sum[1 + d] / sum[0]);
        q->remainders[3 * i + d] = (uint32_t)(sum[1 + d] % sum[0]);
    }
    q->counts[i] = (uint32_t)sum[0];
    for (size_t r = box[0]; r < box[1]; r++)
        for (size_t g = box[2]; g < box[3]; g++)
            memset(q->map + (r * q->b2 + g) * q->b3 + box[4], (int)i, (size_t)(box[5] - box[4]));
    return (size_t)((box[1] - box[0]) * (box[3] - box[2]) * (box[5] - box[4]));
}

/* All that follows from the boxes. Which they are, and whose spread is 0.0, the worked ones tell. */
static void cut(struct asked *q, struct answer answer, const uint8_t *bounds, const double *spreads)
{
    const size_t boxes = answer.boxes, rounds = answer.rounds;
    size_t bins = 0;
    check(1 <= boxes && boxes <= q->k, "%zu boxes", boxes);
    check(boxes - 1 <= rounds && rounds <= 2 * q->k - 2, "%zu rounds", rounds);
    memcpy(q->boxes, bounds, 6 * boxes);
    memcpy(q->spreads, spreads, boxes * sizeof *spreads);
    memset(q->map, 255, q->length[MAP]);
    for (size_t i = 0; i < boxes; i++) bins += box_cut(q, i);
    check(bins == q->length[MAP] && !memchr(q->map, 255, bins), "a bin lies in no box, or in two");
}

/* The moments of the table, in the work table. */
static void moments(struct asked *q)
{
    for (size_t p = 0; p < q->length[MAP]; p++) {
        const uint8_t below[6] = {0, (uint8_t)(p / (q->b2 * q->b3) + 1), 0, (uint8_t)(p / q->b3 % q->b2 + 1),
                                  0, (uint8_t)(p % q->b3 + 1)};
        box_sum(q, below, q->work + 5 * p);
    }
}

static void mapped(struct asked *q)
{
    for (size_t p = q->first; p < q->first + q->pixels; p++) q->indices[p] = q->map[place(q, q->frame + 3 * p)];
}

static void painted(struct asked *q)
{
    for (size_t p = q->first; p < q->first + q->pixels; p++)
        memcpy(q->frame + 3 * p, q->palette + 3 * q->map[place(q, q->frame + 3 * p)], 3);
}

/* A narrow table as five numbers a bin, and back. */
static void widened(const uint32_t *sums, const uint64_t *squares, size_t bins, uint64_t *table)
{
    for (size_t p = 0; p < bins; p++) {
        for (size_t j = 0; j < 4; j++) table[5 * p + j] = sums[4 * p + j];
        table[5 * p + 4] = squares[p];
    }
}

static void narrowed(const uint64_t *table, size_t bins, uint32_t *sums, uint64_t *squares)
{
    for (size_t p = 0; p < bins; p++) {
        for (size_t j = 0; j < 4; j++) sums[4 * p + j] = (uint32_t)table[5 * p + j];
        squares[p] = table[5 * p + 4];
    }
}

/* What a load leaves of the same numbers. */
static void narrow_loaded(struct asked *q)
{
    struct asked wide = *q;
    widened(q->sums, q->squares, q->length[SQUARES], wide.table);
    loaded(&wide);
    narrowed(wide.table, q->length[SQUARES], q->sums, q->squares);
}

static void narrow_merged(struct asked *q)
{
    for (size_t i = 0; i < q->length[SUMS]; i++) q->sums[i] += q->second_sums[i];
    for (size_t i = 0; i < q->length[SQUARES]; i++) q->squares[i] += q->second_squares[i];
}

/* What a cut leaves of the same numbers, the moments where there is a work table. */
static void narrow_cut(struct asked *q, struct answer answer, const uint8_t *bounds, const double *spreads, bool works)
{
    struct asked wide = *q;
    widened(q->sums, q->squares, q->length[SQUARES], wide.table);
    cut(&wide, answer, bounds, spreads);
    if (works) {
        moments(&wide);
        narrowed(wide.work, q->length[SQUARES], wide.work_sums, wide.work_squares);
    }
    memcpy(wide.table, q->table, sizeof q->table);
    memcpy(wide.work, q->work, sizeof q->work);
    *q = wide;
}

/* The colour of a terminal's number, by the rule of the levels. */
static void fixed_colour(unsigned number, int *colour)
{
    static const int levels[] = {0, 95, 135, 175, 215, 255};
    const unsigned left = number - 16, steps[] = {left / 36, left / 6 % 6, left % 6};
    for (size_t d = 0; d < 3; d++) colour[d] = number < 232 ? levels[steps[d]] : 8 + 10 * (int)(number - 232);
}

static void numbered(struct asked *q)
{
    for (size_t i = 0; i < q->length[PALETTE] / 3; i++) {
        int least = INT_MAX;
        for (unsigned number = 16; number < 256; number++) {
            int colour[3], distance = 0;
            fixed_colour(number, colour);
            for (size_t d = 0; d < 3; d++) {
                const int difference = q->palette[3 * i + d] - colour[d];
                distance += difference * difference;
            }
            if (distance < least) least = distance, q->answers[i] = (uint8_t)number;
        }
    }
}

/* ---- Lending and asking */

/* A buffer has no byte that is not lent, for AddressSanitizer; or it ends, or starts, at a page that is shut. */
enum way { EXACT, GUARD_BEHIND, GUARD_BEFORE, WAYS };
static const char *const ways[] = {"lent exactly", "lent with a guard page behind", "lent with a guard page before"};
static enum way way;

/* One page for each buffer, with a guard page on either side. */
static unsigned char *pages;
static size_t page;

static unsigned char *page_of(size_t buffer)
{
    return pages + (2 * buffer + 1) * page;
}

static void make_pages(void)
{
    page = (size_t)sysconf(_SC_PAGESIZE);
    pages = mmap(NULL, (2 * BUFFERS + 1) * page, PROT_NONE, MAP_PRIVATE | MAP_ANONYMOUS, -1, 0);
    need(pages != MAP_FAILED, "memory");
    for (size_t b = 0; b < BUFFERS; b++) need(buffers[b].room <= page, "pages that a buffer fits in");
}

/* Lends what a buffer is to hold. Under a guard, what the call may not change is also shut to writing. */
static void *lend(size_t buffer, const void *content, size_t size, bool changes)
{
    unsigned char *at;
    if (way == EXACT) {
        at = size ? malloc(size) : NULL;
        need(at || !size, "memory");
    } else {
        need(mprotect(page_of(buffer), page, PROT_READ | PROT_WRITE) == 0, "a page");
        at = way == GUARD_BEHIND ? page_of(buffer) + page - size : page_of(buffer);
    }
    if (size) memcpy(at, content, size);
    if (way != EXACT && !changes) need(mprotect(page_of(buffer), page, PROT_READ) == 0, "a page that is only read");
    return at;
}

/* Asks a call, which must answer the number, and holds every lent byte to what must be there then: on a refusal what
 * was there before. What was asked with becomes what is there then. Hands on what the call handed back. */
static struct answer ask(enum call call, struct asked *q, unsigned number, const char *what, const char *and)
{
    void *at[BUFFERS] = {NULL};
    struct answer answer;
    now("%s, %s%s%s, %s", calls[call].name, what, *and ? " and " : "", and, ways[way]);
    for (size_t b = 0; b < BUFFERS; b++)
        if (calls[call].lent & BIT(b))
            at[b] = lend(b, (unsigned char *)q + buffers[b].at, q->length[b] * buffers[b].element,
                         number == 0 && (calls[call].changed & BIT(b)));
    answer = answer_of(call, q, at);
    check(answer.number == number, "answered %u and not %u", answer.number, number);
    if (number != 0)
        check(!answer.boxes && !answer.rounds && !answer.differ && !answer.first && !answer.interval && !answer.width &&
              !answer.height && !answer.start,
              "a refusal told more than its number");
    else if (call == LOAD) loaded(q);
    else if (call == LOAD_PPM) file_loaded(q);
    else if (call == HEADER) header_read(q, answer);
    else if (call == MERGE) merged(q);
    else if (call == COMPARE) compared(q, answer.differ, answer.first);
    else if (call == RESCUE) rescued(q);
    else if (call == BATCH) batched(q);
    else if (call == REPLAY) replayed(q, answer.interval);
    else if (call == CUT) cut(q, answer, at[BOXES], at[SPREADS]), moments(q);
    else if (call == CUT_SLOWLY) cut(q, answer, at[BOXES], at[SPREADS]);
    else if (call == MAPPING) mapped(q);
    else if (call == PAINT) painted(q);
    else if (call == NARROW_LOAD) narrow_loaded(q);
    else if (call == NARROW_MERGE) narrow_merged(q);
    else if (call == NARROW_CUT) narrow_cut(q, answer, at[BOXES], at[SPREADS], true);
    else if (call == NARROW_CUT_SLOWLY) narrow_cut(q, answer, at[BOXES], at[SPREADS], false);
    else if (call == WIDEN) widened(q->sums, q->squares, q->length[SQUARES], q->table);
    else numbered(q);
    for (size_t b = 0; b < BUFFERS; b++) {
        const size_t size = q->length[b] * buffers[b].element;
        if (!(calls[call].lent & BIT(b)) || !size) continue;
        check(memcmp(at[b], (unsigned char *)q + buffers[b].at, size) == 0, "%s holds other bytes", buffers[b].name);
        if (way == EXACT) free(at[b]);
    }
    return answer;
}

/* Lays the table out narrow too, with a work table; whether its total is one that a narrow table takes. */
static bool lay_narrow(struct asked *q)
{
    const size_t bins = q->length[TABLE] / 5;
    uint64_t total = 0;
    for (size_t p = 0; p < bins; p++) total += q->table[5 * p];
    narrowed(q->table, bins, q->sums, q->squares);
    q->length[SUMS] = q->length[WORK_SUMS] = 4 * bins;
    q->length[SQUARES] = q->length[WORK_SQUARES] = bins;
    return total <= NARROW_LIMIT;
}

/* Asks the cut into one structure: it has to answer this number, and to leave of `before` what `after` has, which is
 * what cut left of it, or, where it is refused, `before` itself. */
static void ask_into(const struct asked *before, const struct asked *after, unsigned number)
{
    struct asked lent = *before;
    struct seluvava_cut_results results;
    memcpy(results.palette, lent.palette, sizeof results.palette);
    memcpy(results.counts, lent.counts, sizeof results.counts);
    memcpy(results.remainders, lent.remainders, sizeof results.remainders);
    memcpy(results.boxes, lent.boxes, sizeof results.boxes);
    memcpy(results.spreads, lent.spreads, sizeof results.spreads);
    const struct seluvava_cut_answer told =
        seluvava_cut_into(lent.b1, lent.b2, lent.b3, lent.k, lent.table, lent.length[TABLE], lent.work,
                          lent.length[WORK], lent.map, lent.length[MAP], &results);
    check(told.number == number, "into a structure: answered %u and not %u", told.number, number);
    check(memcmp(lent.table, after->table, sizeof lent.table) == 0, "into a structure: the table is changed");
    check(memcmp(lent.work, after->work, sizeof lent.work) == 0, "into a structure: another work table");
    check(memcmp(lent.map, after->map, sizeof lent.map) == 0, "into a structure: another map");
    check(memcmp(results.palette, after->palette, sizeof results.palette) == 0, "into a structure: another palette");
    check(memcmp(results.counts, after->counts, sizeof results.counts) == 0, "into a structure: other counts");
    check(memcmp(results.remainders, after->remainders, sizeof results.remainders) == 0,
          "into a structure: other remainders");
    check(memcmp(results.boxes, after->boxes, sizeof results.boxes) == 0, "into a structure: other boxes");
    check(memcmp(results.spreads, after->spreads, sizeof results.spreads) == 0, "into a structure: other spreads");
}

/* Asks all cuts, which have to tell and to leave the same, but for what is left in work tables: the narrow ones where
 * the total is one of a narrow table, and then also widens, which has to give the table back. Where 5 is due, a list is
 * short that the structure has room for. */
static struct answer ask_cuts(struct asked *q, unsigned number, const char *what, const char *and)
{
    static const enum call others[] = {CUT_SLOWLY, NARROW_CUT, NARROW_CUT_SLOWLY};
    struct asked before = *q;
    const bool narrow = lay_narrow(&before);
    const struct answer answer = ask(CUT, q, number, what, and);
    if (number != 5) ask_into(&before, q, number);
    for (size_t i = 0; i < (narrow ? COUNT(others) : 1); i++) {
        struct asked other = before;
        const struct answer told = ask(others[i], &other, number, what, and);
        check(told.boxes == answer.boxes, "%zu boxes and not %zu", told.boxes, answer.boxes);
        check(told.rounds == answer.rounds, "%zu rounds and not %zu", told.rounds, answer.rounds);
        for (size_t b = 0; b < BUFFERS; b++) {
            const unsigned char *one = (unsigned char *)q + buffers[b].at;
            const unsigned char *two = (unsigned char *)&other + buffers[b].at;
            check(!(RESULTS & BIT(b)) || memcmp(one, two, buffers[b].room) == 0, "%s differ", buffers[b].name);
        }
    }
    if (narrow && number == 0) {
        struct asked wide = before;
        memset(wide.table, 0xa5, sizeof wide.table);
        ask(WIDEN, &wide, 0, what, and);
        check(memcmp(wide.table, q->table, q->length[TABLE] * sizeof *q->table) == 0, "another table is widened");
    }
    return answer;
}

/* ---- The worked boxes */

struct batch {
    unsigned number;
    size_t colours;
    uint8_t bytes[9];
    bool weighted;
    uint32_t weights[2];
};

#define BLACK_WHITE .loads = 1, .batches = {{0, 2, {0, 0, 0, 255, 255, 255}, true, {1, 3}}}
#define PLAIN(n, ...) .loads = 1, .batches = {{0, n, {__VA_ARGS__}, false, {0}}}
#define REDS PLAIN(3, 0, 0, 0, 64, 0, 0, 255, 0, 0)
#define SIZE_1 .loads = 1, .batches = {{1, 1, {0, 0, 0}, false, {0}}}, .k = 2, .number = 1

static const struct worked {
    const char *name;
    size_t b1, b2, b3, k, loads;
    struct batch batches[2];
    unsigned number;
    size_t boxes, rounds;
    uint8_t palette[9];
    uint32_t counts[3], remainders[9];
    uint8_t bounds[18];
    double spreads[3];
    const char *map;
} worked[] = {
    {"P1", 2, 2, 2, BLACK_WHITE, .k = 2, .boxes = 2, .rounds = 1, .palette = {0, 0, 0, 255, 255, 255}, .counts = {1, 3},
     .bounds = {0, 1, 0, 2, 0, 2, 1, 2, 0, 2, 0, 2}, .map = "00001111"},
    {"P2", 2, 2, 2, BLACK_WHITE, .k = 3, .boxes = 2, .rounds = 2, .palette = {255, 255, 255, 0, 0, 0}, .counts = {3, 1},
     .bounds = {1, 2, 0, 2, 0, 2, 0, 1, 0, 2, 0, 2}, .map = "11110000"},
    {"P3", 2, 2, 2, PLAIN(1, 10, 20, 30), .k = 4, .boxes = 1, .rounds = 2, .palette = {10, 20, 30}, .counts = {1},
     .bounds = {0, 2, 0, 2, 0, 2}, .map = "00000000"},
    {"P4", 2, 2, 2, PLAIN(2, 1, 0, 0, 2, 0, 0), .k = 256, .boxes = 1, .rounds = 2, .palette = {1, 0, 0}, .counts = {2},
     .remainders = {1, 0, 0}, .bounds = {0, 2, 0, 2, 0, 2}, .map = "00000000"},
    {"P5", 2, 2, 2, PLAIN(2, 0, 0, 0, 0, 128, 128), .k = 2, .boxes = 2, .rounds = 1, .palette = {0, 0, 0, 0, 128, 128},
     .counts = {1, 1}, .bounds = {0, 2, 0, 1, 0, 2, 0, 2, 1, 2, 0, 2}, .map = "00110011"},
    {"P6", 4, 4, 4, PLAIN(2, 0, 0, 0, 192, 0, 0), .k = 2, .boxes = 2, .rounds = 1, .palette = {0, 0, 0, 192, 0, 0},
     .counts = {1, 1}, .bounds = {0, 1, 0, 4, 0, 4, 1, 4, 0, 4, 0, 4},
     .map = "0000000000000000111111111111111111111111111111111111111111111111"},
    {"P7", 4, 2, 2, REDS, .k = 2, .boxes = 2, .rounds = 1, .palette = {32, 0, 0, 255, 0, 0}, .counts = {2, 1},
     .bounds = {0, 2, 0, 2, 0, 2, 2, 4, 0, 2, 0, 2}, .spreads = {2048, 0}, .map = "0000000011111111"},
    {"P8", 4, 2, 2, REDS, .k = 3, .boxes = 3, .rounds = 2, .palette = {255, 0, 0, 0, 0, 0, 64, 0, 0},
     .counts = {1, 1, 1}, .bounds = {2, 4, 0, 2, 0, 2, 0, 1, 0, 2, 0, 2, 1, 2, 0, 2, 0, 2}, .map = "1111222200000000"},
    {"P9", 2, 2, 2, .loads = 2, .batches = {{0, 1, {9, 9, 9}, true, {LIMIT}}, {7, 1, {9, 9, 9}, true, {1}}}, .k = 1,
     .boxes = 1, .rounds = 0, .palette = {9, 9, 9}, .counts = {LIMIT}, .bounds = {0, 2, 0, 2, 0, 2},
     .spreads = {INFINITY}, .map = "00000000"},
    {"P10, total 0", 2, 2, 2, .k = 2, .number = 8},
    {"P10, k=0", 2, 2, 2, BLACK_WHITE, .k = 0, .number = 2},
    {"P10, k=257", 2, 2, 2, BLACK_WHITE, .k = 257, .number = 2},
    {"P10, first size 1", 1, 2, 2, SIZE_1},
    {"P10, second size 1", 2, 1, 2, SIZE_1},
    {"P10, third size 1", 2, 2, 1, SIZE_1},
};

/* An empty table, and room for one box more than k. */
static void start_worked(const struct worked *w, struct asked *q)
{
    const size_t bins = w->b1 * w->b2 * w->b3;
    memset(q, 0xa5, sizeof *q);
    q->b1 = w->b1, q->b2 = w->b2, q->b3 = w->b3, q->k = w->k;
    q->length[TABLE] = q->length[WORK] = 5 * bins;
    q->length[MAP] = bins;
    q->length[PALETTE] = q->length[REMAINDERS] = 3 * (w->k + 1);
    q->length[COUNTS] = q->length[SPREADS] = w->k + 1;
    q->length[BOXES] = 6 * (w->k + 1);
    memset(q->table, 0, sizeof q->table);
}

static void ask_worked(const struct worked *w)
{
    struct asked q;
    start_worked(w, &q);
    for (size_t i = 0; i < w->loads; i++) {
        const struct batch *batch = &w->batches[i];
        q.weighted = batch->weighted;
        q.length[COLOURS] = 3 * batch->colours;
        q.length[WEIGHTS] = batch->weighted ? batch->colours : 0;
        memcpy(q.colours, batch->bytes, q.length[COLOURS]);
        memcpy(q.weights, batch->weights, q.length[WEIGHTS] * sizeof *q.weights);
        ask(LOAD, &q, batch->number, w->name, "");
    }
    if (w->number == 0) {
        q.length[REMAINDERS] = 3 * w->k - 1;
        ask_cuts(&q, 5, w->name, "remainders one short");
        q.length[REMAINDERS] = 3 * (w->k + 1);
    }
    const struct answer answer = ask_cuts(&q, w->number, w->name, "");
    const size_t boxes = answer.boxes;
    check(boxes == w->boxes, "%zu boxes and not %zu", boxes, w->boxes);
    check(answer.rounds == w->rounds, "%zu rounds and not %zu", answer.rounds, w->rounds);
    check(memcmp(q.palette, w->palette, 3 * boxes) == 0, "another palette");
    check(memcmp(q.counts, w->counts, boxes * sizeof *q.counts) == 0, "other counts");
    check(memcmp(q.remainders, w->remainders, 3 * boxes * sizeof *q.remainders) == 0, "other remainders");
    check(memcmp(q.boxes, w->bounds, 6 * boxes) == 0, "other boxes");
    check(memcmp(q.spreads, w->spreads, boxes * sizeof *q.spreads) == 0, "other spreads");
    for (size_t p = 0; w->map && p < q.length[MAP]; p++)
        check(q.map[p] == w->map[p] - '0', "bin %zu has index %u", p, q.map[p]);
}

/* ---- Every number of every call */

/* A header and so many pixels, as the file to lend. */
static void lay_file(struct asked *q, const char *header, size_t length, size_t pixels)
{
    need(length + 3 * pixels <= sizeof q->ppm, "room for a file");
    memcpy(q->ppm, header, length);
    memcpy(q->ppm + length, q->colours, 3 * pixels);
    q->length[PPM] = length + 3 * pixels;
}

/* What nothing refuses, over the grid 4,2,8, with no element lent that is not needed. Five colours of weights 3, 2, 7,
 * 0, 1 are in both tables, and are the batch, those of the recorded list and the frame. Behind them stand some noise
 * and pixels of one colour. Interval 3 is in force. The list has a batch, a reload and a batch that are accepted, a
 * batch and a reload that are not, and one more batch that is. The file is of 3 by 2 pixels: the five colours, and one
 * of the noise; they start at byte 21. */
static struct asked good(void)
{
    static const uint8_t known[] = {10, 20, 5, 100, 5, 9, 255, 255, 255, 0, 128, 31, 200, 0, 64};
    static const uint32_t weights[] = {3, 2, 7, 0, 1};
    static const uint32_t entries[] = {1, 3, 2, 0, 4096, 0, 1, 4096, 1, 1, 3, 1, 0, 4097, 0, 1, 4096, 1};
    static const char header[] = "P6 # 9\r\n003\t2#\n \r255\n";
    struct asked q;
    uint32_t noise = 1;
    memset(&q, 0xa5, sizeof q);
    q.b1 = 4, q.b2 = 2, q.b3 = 8, q.k = 3, q.weighted = 1, q.told = 3, q.first = 1, q.pixels = 3;
    q.in_force = q.own = 3;
    for (size_t i = 0; i < 3 * PIXELS; i++) {
        noise = noise * 1664525 + 1013904223;
        q.colours[i] = i < PIXELS ? (uint8_t)(noise >> 24) : 77;
        q.weights[i / 3] = noise >> 28;
    }
    memcpy(q.colours, known, sizeof known);
    memcpy(q.weights, weights, sizeof weights);
    memcpy(q.entries, entries, sizeof entries);
    memcpy(q.frame, q.colours, sizeof q.frame);
    lay_file(&q, header, sizeof header - 1, 6);
    for (size_t i = 0; i < COUNT(q.map); i++) q.map[i] = (uint8_t)(i % 3);
    for (size_t i = 0; i < COUNT(q.palette); i++) q.palette[i] = (uint8_t)(7 * i);
    q.length[TABLE] = q.length[SECOND] = q.length[DIFFERENCES] = q.length[WORK] = 320;
    q.length[MAP] = q.length[REASONS] = 64;
    q.length[COLOURS] = q.length[FRAME] = 15;
    q.length[WEIGHTS] = q.length[INDICES] = 5;
    q.length[ENTRIES] = COUNT(entries);
    q.length[ANSWERS] = COUNT(entries) / 3;
    q.length[PALETTE] = q.length[REMAINDERS] = 9;
    q.length[COUNTS] = q.length[SPREADS] = 3;
    q.length[BOXES] = 18;
    q.length[SECOND_SUMS] = 256, q.length[SECOND_SQUARES] = 64;
    memset(q.table, 0, 320 * sizeof *q.table);
    loaded(&q);
    memcpy(q.second, q.table, sizeof q.second);
    lay_narrow(&q);
    memcpy(q.second_sums, q.sums, sizeof q.second_sums);
    memcpy(q.second_squares, q.squares, sizeof q.second_squares);
    return q;
}

#define PUT(member, value) AT(member), value
#define TWO (BIT(MERGE) | BIT(COMPARE))
#define LOADS (BIT(LOAD) | BIT(BATCH))
#define WIDE_CUTS (BIT(CUT) | BIT(CUT_SLOWLY))
#define NARROW_CUTS (BIT(NARROW_CUT) | BIT(NARROW_CUT_SLOWLY))
#define CUTS (WIDE_CUTS | NARROW_CUTS)
#define TABLES (LOADS | BIT(LOAD_PPM) | TWO | BIT(RESCUE) | BIT(REPLAY) | WIDE_CUTS)
#define NARROW_CALLS (BIT(NARROW_LOAD) | BIT(NARROW_MERGE) | NARROW_CUTS | BIT(WIDEN))
#define FRAMES (BIT(MAPPING) | BIT(PAINT))
#define GRIDS (TABLES | FRAMES | NARROW_CALLS)
#define FILES (BIT(LOAD_PPM) | BIT(HEADER))

/* Who looks at 32 bits alone takes it for n. */
#define MORE_THAN(n) ((UINT64_C(1) << 32) + (n))

/* One number of what is good, changed, and what each of these calls then answers. Place 16, from table[80] and sums[64]
 * on, is the bin of 64..127, 0..127, 0..31; it holds (100, 5, 9) with weight 2. The total is 13, and that of a batch is
 * 39. */
static const struct change {
    unsigned calls, number;
    const char *what;
    size_t at, size;
    uint64_t to;
} changes[] = {
    {FILES, 10, "no file", PUT(length[PPM], 0)},
    {FILES, 10, "file that ends behind its P6", PUT(length[PPM], 2)},
    {FILES, 10, "file that ends behind its maximum", PUT(length[PPM], 20)},
    {FILES, 10, "file of another kind", PUT(ppm[1], '5')},
    {FILES, 10, "file that begins with a blank", PUT(ppm[0], ' ')},
    {FILES, 10, "byte 0 behind the P6", PUT(ppm[2], 0)},
    {FILES, 10, "width 0", PUT(ppm[10], '0')},
    {FILES, 10, "width behind a form feed", PUT(ppm[7], '\f')},
    {FILES, 10, "no gap behind the width", PUT(ppm[11], '-')},
    {FILES, 10, "height 0", PUT(ppm[12], '0')},
    {FILES, 10, "comment that takes the maximum in", PUT(ppm[17], '#')},
    {FILES, 10, "comment behind the maximum", PUT(ppm[20], '#')},
    {FILES, 10, "vertical tab behind the maximum", PUT(ppm[20], '\v')},
    {FILES, 11, "maximum 254", PUT(ppm[19], '4')},
    {FILES, 11, "maximum 256", PUT(ppm[19], '6')},
    {FILES, 11, "maximum 155", PUT(ppm[17], '1')},
    {BIT(LOAD_PPM), 12, "file one byte short", PUT(length[PPM], 38)},
    {BIT(LOAD_PPM), 12, "file one byte long", PUT(length[PPM], 40)},
    {BIT(LOAD_PPM), 12, "file one pixel long", PUT(length[PPM], 42)},
    {BIT(LOAD_PPM), 12, "file of no pixels", PUT(length[PPM], 21)},
    {BIT(LOAD_PPM), 12, "width 2", PUT(ppm[10], '2')},
    {BIT(LOAD_PPM), 12, "width 4", PUT(ppm[10], '4')},
    {BIT(LOAD_PPM), 12, "height 9", PUT(ppm[12], '9')},
    {BIT(BATCH) | BIT(REPLAY), 13, "interval 0", PUT(own, 0)},
    {BIT(BATCH) | BIT(REPLAY), 13, "interval 4,097", PUT(own, 4097)},
    {BIT(BATCH) | BIT(REPLAY), 13, "interval 3 and 65,536", PUT(own, 65539)},
    {BIT(BATCH) | BIT(REPLAY), 13, "interval the largest number", PUT(own, UINT32_MAX)},
    {BIT(BATCH), 14, "interval 0 in force", PUT(in_force, 0)},
    {BIT(BATCH), 14, "interval one less in force", PUT(in_force, 2)},
    {BIT(BATCH), 14, "interval one more in force", PUT(in_force, 4)},
    {BIT(BATCH), 14, "interval 3 and 65,536 in force", PUT(in_force, 65539)},
    {BIT(BATCH), 14, "interval 1", PUT(own, 1)},
    {BIT(BATCH), 14, "interval 4,096", PUT(own, 4096)},
    {GRIDS, 1, "first size 1", PUT(b1, 1)},
    {GRIDS, 1, "first size 4 and 2^32", PUT(b1, MORE_THAN(4))},
    {GRIDS, 1, "second size 0", PUT(b2, 0)},
    {GRIDS, 1, "second size 3", PUT(b2, 3)},
    {GRIDS, 1, "third size 256", PUT(b3, 256)},
    {GRIDS, 1, "third size the largest number", PUT(b3, SIZE_MAX)},
    {CUTS, 2, "k 0", PUT(k, 0)},
    {CUTS, 2, "k 257", PUT(k, 257)},
    {CUTS, 2, "k 3 and 2^32", PUT(k, MORE_THAN(3))},
    {CUTS, 2, "k the largest number", PUT(k, SIZE_MAX)},
    {LOADS | BIT(NARROW_LOAD), 3, "colours one byte short", PUT(length[COLOURS], 14)},
    {LOADS | BIT(NARROW_LOAD), 3, "colours one byte long", PUT(length[COLOURS], 16)},
    {FRAMES, 3, "frame one byte short", PUT(length[FRAME], 14)},
    {FRAMES, 3, "frame one byte long", PUT(length[FRAME], 16)},
    {LOADS | BIT(NARROW_LOAD), 4, "weights one short", PUT(length[WEIGHTS], 4)},
    {LOADS | BIT(NARROW_LOAD), 4, "weights one long", PUT(length[WEIGHTS], 6)},
    {LOADS | BIT(NARROW_LOAD), 4, "no weights", PUT(length[WEIGHTS], 0)},
    {LOADS | BIT(NARROW_LOAD), 4, "one colour", PUT(length[COLOURS], 3)},
    {GRIDS, 5, "another grid", PUT(b1, 2)},
    {TABLES | BIT(WIDEN), 5, "table one short", PUT(length[TABLE], 319)},
    {TABLES | BIT(WIDEN), 5, "table one long", PUT(length[TABLE], 321)},
    {TABLES | BIT(WIDEN), 5, "no table", PUT(length[TABLE], 0)},
    {NARROW_CALLS, 5, "sums one short", PUT(length[SUMS], 255)},
    {NARROW_CALLS, 5, "sums one long", PUT(length[SUMS], 257)},
    {NARROW_CALLS, 5, "no sums", PUT(length[SUMS], 0)},
    {NARROW_CALLS, 5, "squares one short", PUT(length[SQUARES], 63)},
    {NARROW_CALLS, 5, "squares one long", PUT(length[SQUARES], 65)},
    {NARROW_CALLS, 5, "no squares", PUT(length[SQUARES], 0)},
    {BIT(NARROW_MERGE), 5, "second sums one short", PUT(length[SECOND_SUMS], 255)},
    {BIT(NARROW_MERGE), 5, "second sums one long", PUT(length[SECOND_SUMS], 257)},
    {BIT(NARROW_MERGE), 5, "no second sums", PUT(length[SECOND_SUMS], 0)},
    {BIT(NARROW_MERGE), 5, "second squares one short", PUT(length[SECOND_SQUARES], 63)},
    {BIT(NARROW_MERGE), 5, "second squares one long", PUT(length[SECOND_SQUARES], 65)},
    {BIT(NARROW_MERGE), 5, "no second squares", PUT(length[SECOND_SQUARES], 0)},
    {BIT(NARROW_CUT), 5, "work sums one short", PUT(length[WORK_SUMS], 255)},
    {BIT(NARROW_CUT), 5, "work sums one long", PUT(length[WORK_SUMS], 257)},
    {BIT(NARROW_CUT), 5, "no work sums", PUT(length[WORK_SUMS], 0)},
    {BIT(NARROW_CUT), 5, "work squares one short", PUT(length[WORK_SQUARES], 63)},
    {BIT(NARROW_CUT), 5, "work squares one long", PUT(length[WORK_SQUARES], 65)},
    {BIT(NARROW_CUT), 5, "no work squares", PUT(length[WORK_SQUARES], 0)},
    {TWO, 5, "second table one short", PUT(length[SECOND], 319)},
    {TWO, 5, "second table one long", PUT(length[SECOND], 321)},
    {TWO, 5, "no second table", PUT(length[SECOND], 0)},
    {BIT(COMPARE), 5, "differences one short", PUT(length[DIFFERENCES], 319)},
    {BIT(COMPARE), 5, "differences one long", PUT(length[DIFFERENCES], 321)},
    {BIT(COMPARE), 5, "no differences", PUT(length[DIFFERENCES], 0)},
    {BIT(RESCUE), 5, "reasons one byte short", PUT(length[REASONS], 63)},
    {BIT(RESCUE), 5, "reasons one byte long", PUT(length[REASONS], 65)},
    {BIT(RESCUE), 5, "no reasons", PUT(length[REASONS], 0)},
    {BIT(REPLAY), 5, "colours one byte short", PUT(length[COLOURS], 14)},
    {BIT(REPLAY), 5, "colours one byte long", PUT(length[COLOURS], 16)},
    {BIT(REPLAY), 5, "one colour less", PUT(length[COLOURS], 12)},
    {BIT(REPLAY), 5, "one colour more", PUT(length[COLOURS], 18)},
    {BIT(REPLAY), 5, "no colours", PUT(length[COLOURS], 0)},
    {BIT(REPLAY), 5, "weights one short", PUT(length[WEIGHTS], 4)},
    {BIT(REPLAY), 5, "weights one long", PUT(length[WEIGHTS], 6)},
    {BIT(REPLAY), 5, "no weights", PUT(length[WEIGHTS], 0)},
    {BIT(REPLAY), 5, "entries one short", PUT(length[ENTRIES], 17)},
    {BIT(REPLAY), 5, "entries one long", PUT(length[ENTRIES], 19)},
    {BIT(REPLAY), 5, "one entry less", PUT(length[ENTRIES], 15)},
    {BIT(REPLAY), 5, "no entries", PUT(length[ENTRIES], 0)},
    {BIT(REPLAY), 5, "answers one byte short", PUT(length[ANSWERS], 5)},
    {BIT(REPLAY), 5, "no answers", PUT(length[ANSWERS], 0)},
    {BIT(REPLAY), 5, "kind 2", PUT(entries[0], 2)},
    {BIT(REPLAY), 5, "kind the largest number", PUT(entries[15], UINT32_MAX)},
    {BIT(REPLAY), 5, "kind 65,536", PUT(entries[3], 65536)},
    {BIT(REPLAY), 5, "a reload in the place of a batch", PUT(entries[0], 0)},
    {BIT(REPLAY), 5, "a reload with a colour", PUT(entries[5], 1)},
    {BIT(REPLAY), 5, "a refused reload with a colour", PUT(entries[14], 1)},
    {BIT(REPLAY), 5, "a batch of one colour less", PUT(entries[2], 1)},
    {BIT(REPLAY), 5, "a batch of two colours more", PUT(entries[17], 3)},
    {BIT(REPLAY), 5, "a refused batch of no colour", PUT(entries[11], 0)},
    {BIT(REPLAY), 5, "a batch of 2^32 - 1 colours", PUT(entries[8], UINT32_MAX)},
    {BIT(CUT), 5, "work table one short", PUT(length[WORK], 319)},
    {BIT(CUT), 5, "work table one long", PUT(length[WORK], 321)},
    {BIT(CUT), 5, "no work table", PUT(length[WORK], 0)},
    {CUTS, 5, "palette one byte short", PUT(length[PALETTE], 8)},
    {CUTS, 5, "counts one short", PUT(length[COUNTS], 2)},
    {CUTS, 5, "no counts", PUT(length[COUNTS], 0)},
    {CUTS, 5, "remainders one short", PUT(length[REMAINDERS], 8)},
    {CUTS, 5, "no remainders", PUT(length[REMAINDERS], 0)},
    {CUTS, 5, "boxes one byte short", PUT(length[BOXES], 17)},
    {CUTS, 5, "no boxes", PUT(length[BOXES], 0)},
    {CUTS, 5, "spreads one short", PUT(length[SPREADS], 2)},
    {CUTS, 5, "no spreads", PUT(length[SPREADS], 0)},
    {CUTS | FRAMES, 5, "map one short", PUT(length[MAP], 63)},
    {CUTS | FRAMES, 5, "map one long", PUT(length[MAP], 65)},
    {CUTS | FRAMES, 5, "no map", PUT(length[MAP], 0)},
    {CUTS | BIT(PAINT) | BIT(NEAREST), 5, "no palette", PUT(length[PALETTE], 0)},
    {BIT(PAINT) | BIT(NEAREST), 5, "palette of two bytes", PUT(length[PALETTE], 2)},
    {BIT(PAINT) | BIT(NEAREST), 5, "palette no multiple of three", PUT(length[PALETTE], 10)},
    {BIT(PAINT) | BIT(NEAREST), 5, "palette of 257 colours", PUT(length[PALETTE], 771)},
    {BIT(NEAREST), 5, "palette of one entry more than answers", PUT(length[PALETTE], 21)},
    {BIT(NEAREST), 5, "answers one fewer than entries", PUT(length[ANSWERS], 2)},
    {BIT(NEAREST), 5, "no answers", PUT(length[ANSWERS], 0)},
    {BIT(MAPPING), 5, "0 colours", PUT(told, 0)},
    {BIT(MAPPING), 5, "257 colours", PUT(told, 257)},
    {BIT(MAPPING), 5, "3 colours and 2^32", PUT(told, MORE_THAN(3))},
    {BIT(MAPPING), 5, "indices one short", PUT(length[INDICES], 4)},
    {BIT(MAPPING), 5, "indices one long", PUT(length[INDICES], 6)},
    {BIT(MAPPING), 5, "no indices", PUT(length[INDICES], 0)},
    {FRAMES, 5, "band one past the frame", PUT(first, 3)},
    {FRAMES, 5, "band from the largest number on", PUT(first, SIZE_MAX)},
    {FRAMES, 5, "band that ends at 2^64", PUT(pixels, SIZE_MAX)},
    {FRAMES, 5, "no frame", PUT(length[FRAME], 0)},
    {TABLES, 6, "sum below n * low", PUT(table[81], 127)},
    {TABLES, 6, "sum above n * high", PUT(table[81], 255)},
    {TABLES, 6, "second sum above n * high", PUT(table[82], 255)},
    {TABLES, 6, "third sum above n * high", PUT(table[83], 63)},
    {TABLES, 6, "squares above n * the squared highs", PUT(table[84], 66439)},
    {TABLES, 6, "squares below n * the squared lows", PUT(table[84], 8191)},
    {TABLES, 6, "squares 0 beside a weight", PUT(table[84], 0)},
    {TABLES, 6, "squares far too large", PUT(table[84], UINT64_MAX)},
    {TABLES, 6, "empty bin with a sum", PUT(table[6], 1)},
    {TABLES, 6, "weights past the limit", PUT(table[0], LIMIT - 9)},
    {TABLES, 6, "weight far too large", PUT(table[0], UINT64_MAX)},
    {NARROW_CALLS, 6, "sum below n * low", PUT(sums[65], 127)},
    {NARROW_CALLS, 6, "sum above n * high", PUT(sums[65], 255)},
    {NARROW_CALLS, 6, "second sum above n * high", PUT(sums[66], 255)},
    {NARROW_CALLS, 6, "third sum above n * high", PUT(sums[67], 63)},
    {NARROW_CALLS, 6, "squares above n * the squared highs", PUT(squares[16], 66439)},
    {NARROW_CALLS, 6, "squares below n * the squared lows", PUT(squares[16], 8191)},
    {NARROW_CALLS, 6, "squares 0 beside a weight", PUT(squares[16], 0)},
    {NARROW_CALLS, 6, "squares far too large", PUT(squares[16], UINT64_MAX)},
    {NARROW_CALLS, 6, "empty bin with a sum", PUT(sums[5], 1)},
    {NARROW_CALLS, 6, "empty bin with squares", PUT(squares[1], 1)},
    {NARROW_CALLS, 6, "weights one past the narrow limit", PUT(sums[0], NARROW_LIMIT - 9)},
    {NARROW_CALLS, 6, "weights that are 0 when added up in 32 bits", PUT(sums[0], UINT32_MAX - 9)},
    {BIT(NARROW_MERGE), 6, "sum of the second table above n * high", PUT(second_sums[65], 255)},
    {BIT(NARROW_MERGE), 6, "squares of the second table 0 beside a weight", PUT(second_squares[16], 0)},
    {BIT(NARROW_MERGE), 6, "weights of the second table past the narrow limit", PUT(second_sums[0], NARROW_LIMIT - 9)},
    {TWO, 6, "sum of the second table above n * high", PUT(second[81], 255)},
    {TWO, 6, "squares of the second table 0 beside a weight", PUT(second[84], 0)},
    {TWO, 6, "weights of the second table past the limit", PUT(second[0], LIMIT - 9)},
    {BIT(LOAD), 7, "total one past the limit", PUT(weights[2], LIMIT - 18)},
    {BIT(BATCH), 7, "total one past the limit", PUT(weights[2], (LIMIT - 30) / 3)},
    {BIT(BATCH), 7, "total one past the limit with the table's", PUT(table[0], LIMIT - 48)},
    {BIT(BATCH), 7, "weight that is 2 when multiplied in 32 bits", PUT(weights[1], (LIMIT + 3) / 3)},
    {LOADS, 7, "weight that is the limit", PUT(weights[4], LIMIT)},
    {LOADS | BIT(LOAD_PPM) | BIT(MERGE), 7, "full table", PUT(table[0], LIMIT - 10)},
    {BIT(LOAD_PPM), 7, "total one past the limit", PUT(table[0], LIMIT - 15)},
    {BIT(MERGE), 7, "total one past the limit", PUT(second[0], LIMIT - 22)},
    {BIT(NARROW_LOAD), 15, "total one past the narrow limit", PUT(weights[2], NARROW_LIMIT - 18)},
    {BIT(NARROW_LOAD), 15, "weight that is the limit", PUT(weights[4], LIMIT)},
    {BIT(NARROW_LOAD) | BIT(NARROW_MERGE), 15, "full narrow table", PUT(sums[0], NARROW_LIMIT - 10)},
    {BIT(NARROW_MERGE), 15, "total one past the narrow limit", PUT(second_sums[0], NARROW_LIMIT - 22)},
    {BIT(NARROW_MERGE), 15, "full second table", PUT(second_sums[0], NARROW_LIMIT - 10)},
    {FRAMES, 9, "the map's first entry the palette's length", PUT(map[0], 3)},
    {FRAMES, 9, "the map's last entry 255", PUT(map[63], 255)},
    {BIT(PAINT), 9, "palette of one colour", PUT(length[PALETTE], 3)},
    {BIT(MAPPING), 9, "1 colour", PUT(told, 1)},
    {TABLES, 0, "sum at n * low", PUT(table[81], 128)},
    {TABLES, 0, "sum at n * high", PUT(table[81], 254)},
    {TABLES, 0, "squares at n * the squared lows", PUT(table[84], 8192)},
    {TABLES, 0, "squares at n * the squared highs", PUT(table[84], 66438)},
    {NARROW_CALLS, 0, "sum at n * low", PUT(sums[65], 128)},
    {NARROW_CALLS, 0, "sum at n * high", PUT(sums[65], 254)},
    {NARROW_CALLS, 0, "squares at n * the squared lows", PUT(squares[16], 8192)},
    {NARROW_CALLS, 0, "squares at n * the squared highs", PUT(squares[16], 66438)},
    {NARROW_CUTS | BIT(WIDEN), 0, "full narrow table", PUT(sums[0], NARROW_LIMIT - 10)},
    {BIT(NARROW_LOAD), 0, "total at the narrow limit", PUT(weights[2], NARROW_LIMIT - 19)},
    {BIT(NARROW_LOAD), 0, "total at the narrow limit with the table's", PUT(sums[0], NARROW_LIMIT - 23)},
    {BIT(NARROW_MERGE), 0, "total at the narrow limit", PUT(second_sums[0], NARROW_LIMIT - 23)},
    {BIT(WIDEN), 0, "no sound table in the wide list", PUT(table[0], UINT64_MAX)},
    {BIT(COMPARE) | BIT(RESCUE) | BIT(REPLAY) | WIDE_CUTS, 0, "full table", PUT(table[0], LIMIT - 10)},
    {BIT(RESCUE), 0, "no room for a bin, and room for a lighter one after it", PUT(table[0], LIMIT - 1)},
    {BIT(RESCUE), 0, "no room for any other bin", PUT(table[0], LIMIT)},
    {BIT(RESCUE), 0, "a weight past the limit alone", PUT(table[0], LIMIT + 1)},
    {BIT(RESCUE), 0, "a weight of 2^32 and 2", PUT(table[80], MORE_THAN(2))},
    {BIT(RESCUE), 0, "a last bin too heavy", PUT(table[315], UINT64_MAX)},
    {BIT(COMPARE), 0, "full second table", PUT(second[0], LIMIT - 10)},
    {BIT(COMPARE), 0, "another sum in the second table", PUT(second[81], 201)},
    {BIT(COMPARE), 0, "other squares in the second table", PUT(second[84], 20001)},
    {BIT(LOAD), 0, "total at the limit", PUT(weights[2], LIMIT - 19)},
    {BIT(LOAD_PPM), 0, "total at the limit", PUT(table[0], LIMIT - 16)},
    {BIT(LOAD_PPM), 0, "weights not said to be given", PUT(weighted, 0)},
    {FILES, 0, "comment that ends at LF", PUT(ppm[6], '\n')},
    {FILES, 0, "CR in the place of a TAB", PUT(ppm[11], '\r')},
    {FILES, 0, "pixels that begin with a blank", PUT(ppm[21], ' ')},
    {FILES, 0, "pixels that begin with a digit", PUT(ppm[21], '5')},
    {FILES, 0, "pixels that begin like a comment", PUT(ppm[21], '#')},
    {BIT(HEADER), 0, "width 4", PUT(ppm[10], '4')},
    {BIT(HEADER), 0, "file of no pixels", PUT(length[PPM], 21)},
    {BIT(BATCH), 0, "total two below the limit", PUT(weights[2], (LIMIT - 33) / 3)},
    {BIT(BATCH), 0, "total at the limit with the table's", PUT(table[0], LIMIT - 49)},
    {BIT(MERGE), 0, "total at the limit", PUT(second[0], LIMIT - 23)},
    {BIT(REPLAY), 0, "first interval 1", PUT(own, 1)},
    {BIT(REPLAY), 0, "first interval 4,096", PUT(own, 4096)},
    {BIT(REPLAY), 0, "interval 7 in force before", PUT(in_force, 7)},
    {BIT(REPLAY), 0, "weights not said to be given", PUT(weighted, 0)},
    {BIT(REPLAY), 0, "a batch at interval 0", PUT(entries[1], 0)},
    {BIT(REPLAY), 0, "a batch at interval 4,097", PUT(entries[7], 4097)},
    {BIT(REPLAY), 0, "a batch at an interval not in force", PUT(entries[16], 4095)},
    {BIT(REPLAY), 0, "a reload to interval 0", PUT(entries[4], 0)},
    {BIT(REPLAY), 0, "a reload to the interval in force", PUT(entries[4], 3)},
    {BIT(REPLAY), 0, "a last reload that is accepted", PUT(entries[13], 3)},
    {BIT(REPLAY), 0, "a first batch too heavy", PUT(weights[0], LIMIT / 3)},
    {BIT(REPLAY), 0, "a batch whose weight is 0 when multiplied in 32 bits", PUT(weights[2], UINT64_C(1) << 20)},
    {BIT(REPLAY), 0, "a last batch too heavy", PUT(weights[4], LIMIT)},
    {BIT(REPLAY), 0, "room for the first batch alone", PUT(table[0], LIMIT - 25)},
    {BIT(REPLAY), 0, "no room for the first batch by one", PUT(table[0], LIMIT - 24)},
    {BIT(REPLAY), 0, "answers three bytes long", PUT(length[ANSWERS], 9)},
    {CUTS, 0, "k 1", PUT(k, 1)},
    {CUTS | BIT(PAINT), 0, "palette of 256 colours", PUT(length[PALETTE], 768)},
    {BIT(NEAREST), 0, "palette of one entry", PUT(length[PALETTE], 3)},
    {BIT(NEAREST), 0, "palette of as many entries as answers", PUT(length[PALETTE], 18)},
    {BIT(NEAREST), 0, "answers as many as entries", PUT(length[ANSWERS], 3)},
    {CUTS, 0, "palette one byte long", PUT(length[PALETTE], 10)},
    {CUTS, 0, "counts one long", PUT(length[COUNTS], 4)},
    {CUTS, 0, "remainders one long", PUT(length[REMAINDERS], 10)},
    {CUTS, 0, "boxes one byte long", PUT(length[BOXES], 19)},
    {CUTS, 0, "spreads one long", PUT(length[SPREADS], 4)},
    {BIT(MAPPING), 0, "256 colours", PUT(told, 256)},
};

/* The answer to a change: what is unsound a rescue clears. */
static unsigned number_of(enum call call, const struct change *c)
{
    return call == RESCUE && c->number == 6 ? 0 : c->number;
}

static void change(struct asked *q, const struct change *c)
{
    memcpy((unsigned char *)q + c->at, &c->to, c->size);
}

/* Where an answer stands among the others: 10 to 14 before 1, and 15 in the place of 7. */
static unsigned rank(unsigned number)
{
    return ((number == 15 ? 7 : number) + 6) % 16;
}

static bool comes_before(unsigned one, unsigned two)
{
    return rank(one) < rank(two);
}

/* Each change alone, and each two refusals together: the one that comes before the other is given. */
static void ask_changed(enum call call)
{
    struct asked q = good();
    ask(call, &q, 0, "good", "");
    for (const struct change *one = changes; one < changes + COUNT(changes); one++) {
        const unsigned first = number_of(call, one);
        if (!(one->calls & BIT(call))) continue;
        q = good();
        change(&q, one);
        ask(call, &q, first, one->what, "");
        for (const struct change *two = changes; one->number && two < one; two++) {
            const unsigned second = number_of(call, two);
            if (!(two->calls & BIT(call)) || !two->number || two->at == one->at) continue;
            q = good();
            change(&q, one);
            change(&q, two);
            ask(call, &q, !second || (first && comes_before(first, second)) ? first : second, one->what, two->what);
        }
    }
}

/* A total of 0 takes more than one change. */
static void ask_empty(void)
{
    struct asked q = good();
    memset(q.table, 0, sizeof q.table);
    ask_cuts(&q, 8, "empty table", "");
    q.table[81] = 1;
    ask_cuts(&q, 6, "empty table", "a sum in it");
    q.length[SPREADS] = 2;
    ask_cuts(&q, 5, "empty table", "spreads one short");
}

/* All cuts of tables of many colours, at grids that are long in each dimension, at every k up to some more than bins.
 * The weights are the noise's, all equal, or so large that the total is near the limit, or near the narrow one. */
static void ask_all_cuts(void)
{
    static const size_t grids[][3] = {{2, 2, 2}, {4, 4, 4}, {16, 2, 2}, {2, 16, 2}, {2, 2, 16}, {4, 2, 8}, {8, 4, 2}};
    for (size_t i = 0; i < COUNT(grids); i++) {
        const size_t bins = grids[i][0] * grids[i][1] * grids[i][2];
        static const char *const words_of[] = {"", "equal weights", "a large total", "a large narrow total"};
        static const uint64_t scales[] = {1, 1, LIMIT / (15 * PIXELS), NARROW_LIMIT / (15 * PIXELS)};
        for (unsigned weights = 0; weights < COUNT(scales); weights++) {
            for (size_t k = 1; k <= bins + 2; k++) {
                struct asked q = good();
                char words[80];
                q.b1 = grids[i][0], q.b2 = grids[i][1], q.b3 = grids[i][2], q.k = k;
                q.length[TABLE] = q.length[WORK] = 5 * bins;
                q.length[MAP] = bins;
                q.length[PALETTE] = q.length[REMAINDERS] = 3 * k;
                q.length[COUNTS] = q.length[SPREADS] = k;
                q.length[BOXES] = 6 * k;
                memset(q.table, 0, sizeof q.table);
                added(&q, 0, PIXELS, weights != 1, scales[weights]);
                snprintf(words, sizeof words, "grid %zu,%zu,%zu, k %zu", q.b1, q.b2, q.b3, k);
                ask_cuts(&q, 0, words, words_of[weights]);
            }
        }
    }
}

/* White as often as a narrow table takes it, whose sums are the largest, and one time more: loaded at once and merged
 * of two, wide and narrow. */
static void ask_white(void)
{
    for (uint32_t past = 0; past < 2; past++) {
        struct asked q = good();
        const uint32_t total = (uint32_t)NARROW_LIMIT + past;
        const char *const words = past ? "white once too often" : "white as often as can be";
        memset(q.table, 0, sizeof q.table);
        memset(q.sums, 0, sizeof q.sums);
        memset(q.squares, 0, sizeof q.squares);
        memset(q.colours, 0xff, sizeof q.colours);
        q.length[COLOURS] = 3, q.length[WEIGHTS] = 1;
        q.weights[0] = total;
        ask(LOAD, &q, 0, words, "loaded");
        ask(NARROW_LOAD, &q, past ? 15 : 0, words, "loaded");
        for (unsigned second = 0; second < 2; second++) {
            memset(second ? q.second_sums : q.sums, 0, sizeof q.sums);
            memset(second ? q.second_squares : q.squares, 0, sizeof q.squares);
            q.weights[0] = second ? 5 : total - 5;
            struct asked part = q;
            memset(part.sums, 0, sizeof part.sums);
            memset(part.squares, 0, sizeof part.squares);
            ask(NARROW_LOAD, &part, 0, words, "a part");
            memcpy(second ? q.second_sums : q.sums, part.sums, sizeof q.sums);
            memcpy(second ? q.second_squares : q.squares, part.squares, sizeof q.squares);
        }
        ask(NARROW_MERGE, &q, past ? 15 : 0, words, "merged");
        if (!past) ask_cuts(&q, 0, words, "cut");
    }
}

/* The squares at each bound of the smallest and the largest bin of each dimension, and one past it. */
static void ask_squares(void)
{
    for (unsigned corner = 0; corner < 8; corner++) {
        const size_t sizes[] = {4, 2, 8};
        uint64_t cell[5] = {2, 0, 0, 0, 0}, lows = 0, highs = 0;
        size_t at = 0;
        for (size_t d = 0; d < 3; d++) {
            const size_t values = 256 / sizes[d], bin = corner & BIT(d) ? sizes[d] - 1 : 0;
            const uint64_t low = bin * values, high = low + values - 1;
            at = at * sizes[d] + bin;
            cell[1 + d] = cell[0] * low;
            lows += cell[0] * low * low;
            highs += cell[0] * high * high;
        }
        const struct {
            uint64_t squares;
            unsigned number;
            const char *what;
        } tried[] = {
            {lows, 0, "at n * the squared lows"},
            {highs, 0, "at n * the squared highs"},
            {highs + 1, 6, "one above"},
            {lows - 1, 6, "one below, or far too large"},
            {0, lows ? 6 : 0, "0"},
        };
        for (size_t i = 0; i < COUNT(tried); i++) {
            struct asked q;
            cell[4] = tried[i].squares;
            for (enum call call = LOAD; call <= CUT_SLOWLY; call++) {
                q = good();
                memset(q.table, 0, sizeof q.table);
                memcpy(q.table + 5 * at, cell, sizeof cell);
                ask(call, &q, call == RESCUE ? 0 : tried[i].number, "squares of a bin alone", tried[i].what);
            }
            for (enum call call = NARROW_LOAD; call <= WIDEN; call++) {
                q = good();
                memset(q.sums, 0, sizeof q.sums);
                memset(q.squares, 0, sizeof q.squares);
                for (size_t j = 0; j < 4; j++) q.sums[4 * at + j] = (uint32_t)cell[j];
                q.squares[at] = cell[4];
                ask(call, &q, tried[i].number, "squares of a bin alone", tried[i].what);
            }
            for (enum call call = MERGE; call <= COMPARE; call++) {
                q = good();
                memset(q.second, 0, sizeof q.second);
                memcpy(q.second + 5 * at, cell, sizeof cell);
                ask(call, &q, tried[i].number, "squares of the second table's bin", tried[i].what);
            }
        }
    }
}

/* Two tables that differ in bins chosen by the bits of a number, the first and the last of the grid among them, and one
 * of the largest differences that there are, either way round. */
static void ask_compared(void)
{
    static const size_t chosen[] = {0, 1, 16, 31, 62, 63};
    for (unsigned which = 0; which < BIT(COUNT(chosen)); which++) {
        struct asked q = good();
        memset(q.table, 0, sizeof q.table);
        memset(q.second, 0, sizeof q.second);
        for (size_t i = 0; i < COUNT(chosen); i++) {
            const size_t sizes[] = {4, 2, 8}, bins[] = {chosen[i] / 16, chosen[i] / 8 % 2, chosen[i] % 8};
            uint64_t *cell = (i % 2 ? q.table : q.second) + 5 * chosen[i];
            if (!(which & BIT(i))) continue;
            cell[0] = 1 + i;
            for (size_t d = 0; d < 3; d++) {
                const uint64_t low = bins[d] * 256 / sizes[d];
                cell[1 + d] = cell[0] * low;
                cell[4] += cell[0] * low * low;
            }
        }
        ask(COMPARE, &q, 0, "tables that differ in chosen bins", "");
    }
    for (unsigned turned = 0; turned < 2; turned++) {
        const uint64_t white[] = {LIMIT, 255 * LIMIT, 255 * LIMIT, 255 * LIMIT, 195075 * LIMIT};
        struct asked q = good();
        memset(q.table, 0, sizeof q.table);
        memset(q.second, 0, sizeof q.second);
        memcpy((turned ? q.table : q.second) + 315, white, sizeof white);
        ask(COMPARE, &q, 0, "white as often as can be", turned ? "nothing" : "nothing before");
    }
}

/* ---- Merging in either order, and powers of two */

/* Merges a second table into a first, and that one into the second: the same answer and the same table. */
static void ask_either_order(struct asked *one, unsigned number, unsigned narrow_number, const char *what)
{
    struct asked two = *one;
    memcpy(two.table, one->second, sizeof two.table);
    memcpy(two.second, one->table, sizeof two.second);
    narrowed(one->second, 64, one->second_sums, one->second_squares);
    narrowed(two.table, 64, two.sums, two.squares);
    narrowed(two.second, 64, two.second_sums, two.second_squares);
    ask(MERGE, one, number, what, "");
    ask(MERGE, &two, number, what, "the other way round");
    check(number || memcmp(one->table, two.table, 320 * sizeof *two.table) == 0, "another table");
    ask(NARROW_MERGE, one, narrow_number, what, "");
    ask(NARROW_MERGE, &two, narrow_number, what, "the other way round");
    check(narrow_number || memcmp(one->sums, two.sums, 256 * sizeof *two.sums) == 0, "other sums");
    check(narrow_number || memcmp(one->squares, two.squares, 64 * sizeof *two.squares) == 0, "other squares");
}

/* Two tables, the weight of black such that their total is at either limit or one past it; and one with zeros, which
 * change nothing. */
static void ask_merged(void)
{
    static const struct {
        uint64_t total;
        unsigned number, narrow_number;
        const char *what;
    } tried[] = {
        {1000, 0, 0, "two tables"},
        {NARROW_LIMIT, 0, 0, "two tables of the narrow limit"},
        {NARROW_LIMIT + 1, 0, 15, "two tables one past the narrow limit"},
        {LIMIT, 0, 6, "two tables of the limit"},
        {LIMIT + 1, 7, 6, "two tables one past the limit"},
    };
    const struct asked before = good();
    struct asked q = before, other = before;
    uint64_t total = 0;
    memset(other.table, 0, sizeof other.table);
    added(&other, 5, 60, true, 1);
    for (size_t p = 0; p < 320; p += 5) total += before.table[p] + other.table[p];
    for (size_t i = 0; i < COUNT(tried); i++) {
        q = before;
        memcpy(q.second, other.table, sizeof q.second);
        q.second[0] += tried[i].total - total;
        ask_either_order(&q, tried[i].number, tried[i].narrow_number, tried[i].what);
    }
    q = before;
    memset(q.second, 0, sizeof q.second);
    ask_either_order(&q, 0, 0, "zeros");
    check(memcmp(q.table, before.table, sizeof q.table) == 0, "zeros change the table");
    check(memcmp(q.sums, before.sums, sizeof q.sums) == 0, "zeros change the sums");
    check(memcmp(q.squares, before.squares, sizeof q.squares) == 0, "zeros change the squares");
}

/* All cuts of a table with its numbers multiplied by each power of two that fits: the same boxes, palette and map, and
 * counts, remainders and spreads multiplied. */
static void ask_doubled(struct asked q, unsigned highest, const char *what)
{
    struct asked once = q;
    const struct answer answer = ask_cuts(&once, 0, what, "");
    for (unsigned power = 1; power <= highest; power++) {
        const uint32_t times = UINT32_C(1) << power;
        char words[40];
        struct asked often;
        for (size_t i = 0; i < 320; i++) q.table[i] *= 2;
        often = q;
        snprintf(words, sizeof words, "multiplied by %u", times);
        const struct answer told = ask_cuts(&often, 0, what, words);
        check(told.boxes == answer.boxes && told.rounds == answer.rounds, "other boxes or rounds");
        check(memcmp(often.boxes, once.boxes, sizeof once.boxes) == 0, "other boxes");
        check(memcmp(often.palette, once.palette, sizeof once.palette) == 0, "another palette");
        check(memcmp(often.map, once.map, sizeof once.map) == 0, "another map");
        for (size_t i = 0; i < answer.boxes; i++) {
            check(often.counts[i] == once.counts[i] * times, "another count of box %zu", i);
            check(often.spreads[i] == once.spreads[i] * times, "another spread of box %zu", i);
            for (size_t d = 3 * i; d < 3 * i + 3; d++)
                check(often.remainders[d] == once.remainders[d] * times, "another remainder of box %zu", i);
        }
    }
    for (size_t i = 0; i < 320; i++) q.table[i] *= 2;
    ask_cuts(&q, 6, what, "multiplied once too often");
}

/* A table of colours, and one that no colours make, whose total is 13: its squares are less than its sums say. */
static void ask_all_doubled(void)
{
    for (size_t k = 1; k <= 3; k++) {
        struct asked q = good();
        q.k = k;
        ask_doubled(q, 28, "colours");
        q.table[84] = 8192;
        ask_doubled(q, 28, "no colours");
    }
}

/* ---- Files */

#define TEXT(bytes) bytes, sizeof bytes - 1

static const struct {
    const char *header;
    size_t length;
    unsigned number;
    size_t width, height;
} headers[] = {
    {TEXT("P6 3 2 255 "), 0, 3, 2},
    {TEXT("P6\n3 2\n255\n"), 0, 3, 2},
    {TEXT("P6\r3\r\n2\t255\r"), 0, 3, 2},
    {TEXT("P6 0003 00000000000000000000000000000000000000002 0255\t"), 0, 3, 2},
    {TEXT("P6# 9 9 255 \n 3 # # 7\n#\r2\n#\n#\0\377\n255\n"), 0, 3, 2},
    {TEXT("P6#\r\n3#\n\n2 #\n255 "), 0, 3, 2},
    {TEXT("P6 1 6 255\n"), 0, 1, 6},
    {TEXT("P6 6 1 255\n"), 0, 6, 1},
    {TEXT("P6 65535 65535 255\n"), 12, 65535, 65535},
    {TEXT("P6 1 65535 255\n"), 12, 1, 65535},
    {TEXT("P6 7 1 255\n"), 12, 7, 1},
    {TEXT("P6 3 65536 255\n"), 10, 0, 0},
    {TEXT("P6 65536 2 255\n"), 10, 0, 0},
    {TEXT("P6 4294967299 2 255\n"), 10, 0, 0},
    {TEXT("P6 3 18446744073709551618 255\n"), 10, 0, 0},
    {TEXT("P6 340282366920938463463374607431768211459 2 255\n"), 10, 0, 0},
    {TEXT("P6 3 2 0\n"), 11, 0, 0},
    {TEXT("P6 3 2 65535\n"), 11, 0, 0},
    {TEXT("P6 3 2 65791\n"), 11, 0, 0},
    {TEXT("P6 3 2 4294967551\n"), 11, 0, 0},
    {TEXT("P6 3 2 18446744073709551871\n"), 11, 0, 0},
    {TEXT("P6 0 2 254\n"), 10, 0, 0},
    {TEXT("P6 3 2 254#"), 10, 0, 0},
    {TEXT("P6 3 255\n"), 10, 0, 0},
    {TEXT("P63 2 255\n"), 10, 0, 0},
    {TEXT("P6 3 2 -1\n"), 10, 0, 0},
    {TEXT("P6 +3 2 255\n"), 10, 0, 0},
    {TEXT("P6#\n3 2 255\n"), 10, 0, 0},
    {TEXT("P6 3#\r2 255\n"), 10, 0, 0},
    {TEXT("P6 3 2#\n#\n255\n"), 10, 0, 0},
    {TEXT("P6 3 2 #255 "), 10, 0, 0},
};

/* Each header with six pixels behind it, and none. */
static void ask_headers(void)
{
    for (size_t i = 0; i < COUNT(headers); i++) {
        const unsigned number = headers[i].number, header = number == 12 ? 0 : number;
        struct asked q = good();
        lay_file(&q, headers[i].header, headers[i].length, 6);
        for (unsigned bare = 0; bare < 2; bare++) {
            const struct answer told = ask(HEADER, &q, header, headers[i].header, bare ? "no pixels" : "six pixels");
            check(told.width == headers[i].width && told.height == headers[i].height, "another size");
            check(told.start == (header ? 0 : headers[i].length), "other pixels");
            ask(LOAD_PPM, &q, bare && !number ? 12 : number, headers[i].header, bare ? "no pixels" : "six pixels");
            q.length[PPM] = headers[i].length;
        }
    }
}

/* Files with the good header and with a plain one, cut at every byte; and each byte of the header in turn is every
 * byte. */
static void ask_files(void)
{
    for (unsigned plain = 0; plain < 2; plain++) {
        struct asked file = good(), q;
        if (plain) lay_file(&file, TEXT("P6\n3 2\n255\n"), 6);
        const size_t length = file.length[PPM], start = length - 18;
        for (size_t end = 0; end <= length; end++) {
            q = file;
            q.length[PPM] = end;
            ask(HEADER, &q, end < start ? 10 : 0, "file that was cut", "");
            ask(LOAD_PPM, &q, end < start ? 10 : end < length ? 12 : 0, "file that was cut", "");
        }
        for (size_t at = 0; at < start; at++) {
            for (unsigned byte = 0; byte < 256; byte++) {
                char words[60];
                snprintf(words, sizeof words, "file with byte %u at place %zu", byte, at);
                q = file;
                q.ppm[at] = (uint8_t)byte;
                ask(HEADER, &q, header_of(&q).number, words, "");
                ask(LOAD_PPM, &q, file_answer(&q), words, "");
            }
        }
    }
}

/* A table damaged in bins chosen by the bits of a number, the first and the last of the grid among them: a weight past
 * the limit, one that leaves no room for a heavier one, that one, a lighter one, sums and squares out of bounds. A
 * second rescue leaves the table as the first one did. */
static void ask_rescued(void)
{
    static const struct {
        size_t place;
        uint64_t cell[5];
    } damaged[] = {
        {0, {LIMIT + 1, 0, 0, 0, 0}},           {1, {LIMIT - 20, 0, 0, 32 * (LIMIT - 20), 1024 * (LIMIT - 20)}},
        {16, {9, 576, 0, 0, 36864}},            {17, {8, 512, 0, 256, 40960}},
        {62, {1, 192, 128, 192, UINT64_MAX}},   {63, {0, 0, 0, 1, 0}},
    };
    for (unsigned which = 0; which < BIT(COUNT(damaged)); which++) {
        struct asked q = good();
        for (size_t i = 0; i < COUNT(damaged); i++)
            if (which & BIT(i)) memcpy(q.table + 5 * damaged[i].place, damaged[i].cell, sizeof damaged[i].cell);
        ask(RESCUE, &q, 0, "a table with chosen bins damaged", "");
        ask(RESCUE, &q, 0, "a table with chosen bins damaged", "rescued once");
        for (size_t p = 0; p < q.length[REASONS]; p++) check(q.reasons[p] == 0, "bin %zu is cleared once more", p);
    }
}

/* ---- Sessions and recorded lists */

static const uint32_t intervals[] = {0, 1, 2, 3, 4, 255, 256, 4095, 4096, 4097, 65536, 65539, 1u << 31, UINT32_MAX};

static void session_is(struct seluvava_session_answer answer, unsigned number, uint32_t interval)
{
    check(answer.number == number, "answered %u and not %u", answer.number, number);
    check(answer.session.interval == interval, "interval %u is in force and not %u", answer.session.interval, interval);
}

/* Begins with every interval and reloads to it; and batches at an interval that is in force and no interval. */
static void ask_sessions(void)
{
    for (uint32_t interval = 0; interval <= 5000; interval++) {
        const bool good = is_interval(interval);
        now("begin, interval %u", interval);
        session_is(seluvava_begin(interval), good ? 0 : 13, good ? interval : 0);
        now("reload, interval %u", interval);
        session_is(seluvava_reload((seluvava_session){7}, interval), good ? 0 : 13, good ? interval : 7);
    }
    for (size_t i = 0; i < COUNT(intervals); i++) {
        for (size_t j = 0; j < COUNT(intervals); j++) {
            const uint32_t old = intervals[i], new = intervals[j];
            now("reload, interval %u, where %u was in force", new, old);
            session_is(seluvava_reload((seluvava_session){old}, new), is_interval(new) ? 0 : 13,
                       is_interval(new) ? new : old);
            struct asked q = good();
            q.in_force = old, q.own = new;
            ask(BATCH, &q, !is_interval(new) ? 13 : new != old ? 14 : 0, "two intervals", "");
        }
    }
}

/* Every list of up to three entries out of these, with one byte more for answers than there are entries: while the
 * table has room for everything, and while it has room for a weight of 5. Each colour weighs 1. */
static void ask_lists(void)
{
    static const uint32_t known[][3] = {{0, 3, 0},    {0, 5, 0}, {0, 0, 0}, {0, 4097, 0}, {1, 3, 1},
                                        {1, 4097, 1}, {1, 3, 0}, {1, 0, 2}, {1, 5, 1},    {1, 1, 4}};
    for (size_t lists = 1, n = 0; n <= 3; n++, lists *= COUNT(known)) {
        for (size_t list = 0; list < lists; list++) {
            for (unsigned full = 0; full < 2; full++) {
                struct asked q = good();
                char words[40];
                q.length[ENTRIES] = 3 * n;
                q.length[ANSWERS] = n + 1;
                q.length[WEIGHTS] = 0;
                for (size_t i = 0, left = list; i < n; i++, left /= COUNT(known)) {
                    memcpy(q.entries + 3 * i, known[left % COUNT(known)], sizeof *known);
                    q.length[WEIGHTS] += q.entries[3 * i + 2];
                }
                q.length[COLOURS] = 3 * q.length[WEIGHTS];
                for (size_t i = 0; i < COUNT(q.weights); i++) q.weights[i] = 1;
                if (full) q.table[0] = LIMIT - 15;
                snprintf(words, sizeof words, "list %zu of %zu entries", list, n);
                ask(REPLAY, &q, 0, words, full ? "room for 5" : "");
            }
        }
    }
}

/* Numbers of colours that are right when they are added up in 32 bits. */
static void ask_counts(void)
{
    static const uint32_t counts[][3] = {{2147483650u, 2147483651u, 0},
                                         {4294967295u, 3, 3},
                                         {0, 4294967295u, 6},
                                         {1431655770u, 1431655765u, 1431655766u},
                                         {4294967295u, 4294967295u, 7}};
    for (size_t i = 0; i < COUNT(counts); i++) {
        struct asked q = good();
        q.length[ENTRIES] = 9;
        for (size_t j = 0; j < 3; j++) {
            const uint32_t entry[] = {1, 3, counts[i][j]};
            memcpy(q.entries + 3 * j, entry, sizeof entry);
        }
        ask(REPLAY, &q, 5, "numbers of colours that add up past 2^32", "");
    }
}

/* ---- The colours of a terminal */

static void ask_nearest(size_t entries, const char *words)
{
    struct asked q = good();
    q.length[PALETTE] = 3 * entries;
    q.length[ANSWERS] = entries + 1;
    for (size_t i = 0; i < entries; i++) {
        int colour[3];
        fixed_colour(16 + (unsigned)(entries + i) % 240, colour);
        for (size_t d = 0; d < 3; d++) q.palette[3 * i + d] = (uint8_t)(colour[d] + (int)(i / 240));
    }
    ask(NEAREST, &q, entries < 1 || 256 < entries ? 5 : 0, words, "fixed colours");
    for (size_t i = 0; i < 3 * entries; i++) q.palette[i] = (uint8_t)(37 * (i + entries) + i / 3);
    ask(NEAREST, &q, entries < 1 || 256 < entries ? 5 : 0, words, "colours of every kind");
}

/* Palettes of every length, the 240 colours themselves, and every grey. */
static void ask_terminal(void)
{
    struct asked q = good();
    for (size_t entries = 0; entries < 260; entries++) {
        char words[40];
        snprintf(words, sizeof words, "palette of %zu entries", entries);
        ask_nearest(entries, words);
    }
    q.length[PALETTE] = 720, q.length[ANSWERS] = 240;
    for (unsigned number = 16; number < 256; number++) {
        int colour[3];
        fixed_colour(number, colour);
        for (size_t d = 0; d < 3; d++) q.palette[3 * (number - 16) + d] = (uint8_t)colour[d];
    }
    ask(NEAREST, &q, 0, "the 240 colours", "");
    for (size_t i = 0; i < 240; i++) check(q.answers[i] == 16 + i, "colour %zu has number %u", 16 + i, q.answers[i]);
    q.length[PALETTE] = 768, q.length[ANSWERS] = 256;
    for (size_t i = 0; i < 768; i++) q.palette[i] = (uint8_t)(i / 3);
    ask(NEAREST, &q, 0, "every grey", "");
}

/* ---- Batches, bands and frames of every length */

/* Weights that are not given are not looked at, however many are lent. */
static void ask_plain(void)
{
    for (size_t lent = 0; lent < 8; lent++) {
        struct asked q = good();
        q.weighted = 0;
        q.length[WEIGHTS] = lent;
        memset(q.weights, 0xff, sizeof q.weights);
        ask(LOAD, &q, 0, "no weights given", "some lent");
        q.table[0] += LIMIT - 18 - q.length[COLOURS] / 3;
        ask(LOAD, &q, 0, "no weights given", "total at the limit");
        q.length[COLOURS] = 3;
        ask(LOAD, &q, 7, "no weights given", "total one past the limit");
        q = good();
        q.weighted = 0;
        q.length[WEIGHTS] = lent;
        memset(q.weights, 0xff, sizeof q.weights);
        ask(NARROW_LOAD, &q, 0, "no weights given", "some lent");
        q.sums[0] += (uint32_t)(NARROW_LIMIT - 18 - q.length[COLOURS] / 3);
        ask(NARROW_LOAD, &q, 0, "no weights given", "total at the narrow limit");
        q.length[COLOURS] = 3;
        ask(NARROW_LOAD, &q, 15, "no weights given", "total one past the narrow limit");
        q = good();
        q.weighted = 0;
        q.in_force = q.own = 4096;
        q.length[WEIGHTS] = lent;
        memset(q.weights, 0xff, sizeof q.weights);
        ask(BATCH, &q, 0, "no weights given", "some lent");
        q = good();
        q.weighted = 0;
        q.length[WEIGHTS] = lent;
        q.table[0] = LIMIT - 10 - q.length[COLOURS];
        ask(BATCH, &q, 0, "no weights given", "total at the limit");
        q.length[COLOURS] = 3;
        ask(BATCH, &q, 7, "no weights given", "total past the limit");
    }
}

static const struct {
    size_t frame, first, pixels;
    unsigned number;
} bands[] = {
    {PIXELS, 0, PIXELS, 0},
    {PIXELS, 60, 90, 0},
    {PIXELS, 80, 66, 0},
    {PIXELS, PIXELS - 1, 1, 0},
    {PIXELS, PIXELS - 1, 2, 5},
    {PIXELS, 7, 0, 0},
    {PIXELS, PIXELS, 0, 0},
    {PIXELS, PIXELS, 1, 5},
    {PIXELS, PIXELS + 1, 0, 5},
    {PIXELS, SIZE_MAX, 0, 5},
    {PIXELS, SIZE_MAX, 1, 5},
    {PIXELS, SIZE_MAX, SIZE_MAX, 5},
    {PIXELS, 1, SIZE_MAX, 5},
    {PIXELS, 2, SIZE_MAX - 1, 5},
    {PIXELS, 0, SIZE_MAX / 3 + 1, 5},
    {PIXELS, SIZE_MAX / 3 + 1, 1, 5},
    {0, 0, 0, 0},
    {0, 0, 1, 5},
    {0, 1, 0, 5},
};

static void ask_band(size_t frame, size_t first, size_t pixels, unsigned number)
{
    char words[120];
    struct asked q = good();
    q.length[FRAME] = 3 * frame;
    q.length[INDICES] = frame;
    q.first = first, q.pixels = pixels;
    snprintf(words, sizeof words, "frame of %zu pixels, band of %zu from %zu on", frame, pixels, first);
    ask(MAPPING, &q, number, words, "");
    ask(PAINT, &q, number, words, "");
    q.map[63] = 255;
    ask(PAINT, &q, number ? number : 9, words, "the map's last entry 255");
    ask(MAPPING, &q, number ? number : 9, words, "the map's last entry 255");
    q.told = 256;
    ask(MAPPING, &q, number, words, "256 colours");
}

/* A batch with weights; and so many colours as a replay of one batch and of three, the one in the middle refused. */
static void ask_split(size_t pixels, const char *words)
{
    const uint32_t all = (uint32_t)pixels, third = all / 3, half = all / 2;
    const uint32_t entries[][9] = {{1, 3, all}, {1, 3, third, 1, 4, half, 1, 3, all - third - half}};
    for (size_t i = 0; i < COUNT(entries); i++) {
        struct asked q = good();
        q.length[COLOURS] = 3 * pixels;
        q.length[WEIGHTS] = pixels;
        q.length[ENTRIES] = i ? 9 : 3;
        memcpy(q.entries, entries[i], sizeof entries[i]);
        ask(REPLAY, &q, 0, words, i ? "three batches" : "one batch");
        ask(BATCH, &q, 0, words, "weights");
        memset(q.weights, 0xff, sizeof q.weights);
        ask(REPLAY, &q, 0, words, "weights at the limit");
        ask(BATCH, &q, pixels ? 7 : 0, words, "weights at the limit");
    }
}

/* A file of so many pixels in one row, and in one column; none at all is no image. */
static void ask_image(size_t pixels)
{
    for (unsigned column = 0; column < 2; column++) {
        char header[40];
        struct asked q = good();
        const int length = snprintf(header, sizeof header, column ? "P6 1 %zu 255\n" : "P6 %zu 1 255\n", pixels);
        lay_file(&q, header, (size_t)length, pixels);
        ask(LOAD_PPM, &q, pixels ? 0 : 10, header, "");
        ask(HEADER, &q, pixels ? 0 : 10, header, "");
    }
}

static void ask_length(size_t pixels)
{
    char words[120];
    struct asked q = good();
    ask_band(pixels, 0, pixels, 0);
    ask_band(PIXELS, PIXELS - pixels, pixels, 0);
    q.length[COLOURS] = 3 * pixels;
    q.length[WEIGHTS] = pixels;
    snprintf(words, sizeof words, "batch of %zu colours", pixels);
    ask(LOAD, &q, 0, words, "weights");
    ask(NARROW_LOAD, &q, 0, words, "weights");
    memset(q.weights, 0xff, sizeof q.weights);
    ask(LOAD, &q, pixels ? 7 : 0, words, "weights at the limit");
    ask(NARROW_LOAD, &q, pixels ? 15 : 0, words, "weights at the limit");
    q.weighted = 0;
    ask(LOAD, &q, 0, words, "no weights");
    ask(NARROW_LOAD, &q, 0, words, "no weights");
    ask(BATCH, &q, 0, words, "no weights");
    ask_image(pixels);
    ask_split(pixels, words);
    q.k = pixels + 1;
    q.length[PALETTE] = 3 * q.k;
    q.length[COUNTS] = q.length[SPREADS] = q.k;
    q.length[BOXES] = 6 * q.k;
    q.length[REMAINDERS] = 3 * q.k - 1;
    ask_cuts(&q, 5, words, "remainders one short");
    q.length[REMAINDERS] = 3 * q.k;
    ask_cuts(&q, 0, words, "k one more");
}

/* Each length and number that the cut into one structure is told, one off, with the answer that is due then. */
static void ask_into_changed(void)
{
    static const size_t more[] = {1, SIZE_MAX};
    now("cut_into");
    for (size_t i = 0; i < COUNT(more); i++) {
        struct asked q = good();
        q.length[TABLE] += more[i];
        ask_into(&q, &q, 5);
        q = good();
        q.length[WORK] += more[i];
        ask_into(&q, &q, 5);
        q = good();
        q.length[MAP] += more[i];
        ask_into(&q, &q, 5);
        q = good();
        q.b2 += more[i];
        ask_into(&q, &q, 1);
    }
    struct asked q = good();
    q.k = 0;
    ask_into(&q, &q, 2);
    q.k = 257;
    ask_into(&q, &q, 2);
    q = good();
    q.table[4] = MORE_THAN(195075);
    ask_into(&q, &q, 6);
    memset(q.table, 0, sizeof q.table);
    ask_into(&q, &q, 8);
}

/* ---- The version, and the answers by name and in words */

static void ask_version(void)
{
    char words[40];
    const unsigned number = seluvava_version();
    now("version");
    check(number == SELUVAVA_VERSION_NUMBER, "the library is of %u, and the header of %u", number,
          (unsigned)SELUVAVA_VERSION_NUMBER);
    snprintf(words, sizeof words, "%u.%u.%u", number / 10000, number / 100 % 100, number % 100);
    check(strcmp(words, SELUVAVA_VERSION) == 0, "the library is of %s, and the header of %s", words, SELUVAVA_VERSION);
}

static void ask_messages(void)
{
    static const unsigned numbers[] = {
        SELUVAVA_DONE, SELUVAVA_REFUSED_GRID_SIZE, SELUVAVA_REFUSED_PALETTE_SIZE, SELUVAVA_REFUSED_STRAY_BYTES,
        SELUVAVA_REFUSED_WEIGHTS, SELUVAVA_REFUSED_LENGTH, SELUVAVA_REFUSED_UNSOUND, SELUVAVA_REFUSED_TOTAL,
        SELUVAVA_REFUSED_EMPTY, SELUVAVA_REFUSED_MAP_ENTRY, SELUVAVA_REFUSED_PPM_HEADER, SELUVAVA_REFUSED_PPM_MAXIMUM,
        SELUVAVA_REFUSED_PPM_LENGTH, SELUVAVA_REFUSED_INTERVAL, SELUVAVA_REFUSED_NOT_IN_FORCE,
        SELUVAVA_REFUSED_NARROW_TOTAL,
    };
    const char *const none = seluvava_message(16);
    now("messages");
    check(COUNT(numbers) == 16, "there are %zu answers", COUNT(numbers));
    check(strcmp(seluvava_message(UINT_MAX), none) == 0 && none[0], "no words for a number that no call answers");
    for (unsigned i = 0; i < COUNT(numbers); i++) {
        check(numbers[i] == i, "constant %u is %u", i, numbers[i]);
        check(seluvava_message(i)[0] && strcmp(seluvava_message(i), none) != 0, "no words for %u", i);
        for (unsigned j = 0; j < i; j++)
            check(strcmp(seluvava_message(i), seluvava_message(j)) != 0, "the same words for %u and %u", i, j);
    }
}

/* ---- The sizes that a caller has to lend */

static void ask_sizes(void)
{
    static const size_t sizes[] = {2, 4,  8,  16, 32,  64,  128, 0,   1,            3,
                                   5, 12, 24, 96, 127, 129, 255, 256, MORE_THAN(2), SIZE_MAX};
    const size_t n = COUNT(sizes);
    for (size_t i = 0; i < n * n * n; i++) {
        const size_t x = i / n / n, y = i / n % n, z = i % n;
        const size_t bins = x < 7 && y < 7 && z < 7 ? sizes[x] * sizes[y] * sizes[z] : 0;
        now("sizes %zu, %zu, %zu", sizes[x], sizes[y], sizes[z]);
        check(seluvava_bins(sizes[x], sizes[y], sizes[z]) == bins, "the bins are not %zu", bins);
        check(seluvava_table_len(sizes[x], sizes[y], sizes[z]) == 5 * bins, "the numbers are not %zu", 5 * bins);
    }
}

static void ask_all(void)
{
    for (size_t i = 0; i < COUNT(worked); i++) ask_worked(&worked[i]);
    for (enum call call = LOAD; call < CALLS; call++) ask_changed(call);
    ask_empty();
    ask_all_cuts();
    ask_white();
    ask_squares();
    ask_compared();
    ask_merged();
    ask_all_doubled();
    ask_headers();
    ask_files();
    ask_rescued();
    ask_sessions();
    ask_lists();
    ask_counts();
    ask_terminal();
    ask_plain();
    for (size_t i = 0; i < COUNT(bands); i++)
        ask_band(bands[i].frame, bands[i].first, bands[i].pixels, bands[i].number);
    for (size_t pixels = 0; pixels <= PIXELS; pixels++) ask_length(pixels);
}

int main(void)
{
    now("start");
    make_pages();
    watch();
    for (way = EXACT; way < WAYS; way++) ask_all();
    way = EXACT;
    flush(true);
    ask_all();
    flush(false);
    ask_into_changed();
    ask_version();
    ask_messages();
    ask_sizes();
    printf("calls: %zu checks\n", checks);
    return 0;
}
