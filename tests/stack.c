/*
 * Each call of seluvava.h once on a thread whose stack is 64 KiB above a guard page, with the same outcome as on a
 * large stack; and how much of the small one it used.
 */
#define _DEFAULT_SOURCE
#include "seluvava.h"

#include "check.h"

#include <pthread.h>
#include <sys/mman.h>

#define STACK 65536
#define B1 16
#define B2 32
#define B3 16
#define BINS (B1 * B2 * B3)
#define PIXELS 4096
#define K 256
#define BATCHES 64
#define HEADER "P6 # a comment\n64 64\n255\n"

/* All that is lent, and the last answer. */
struct lent {
    uint64_t table[5 * BINS], second[5 * BINS], work[5 * BINS];
    int64_t differences[5 * BINS];
    uint32_t sums[4 * BINS], second_sums[4 * BINS], work_sums[4 * BINS];
    uint64_t squares[BINS], second_squares[BINS], work_squares[BINS], widened[5 * BINS];
    uint8_t reasons[BINS];
    uint8_t frame[3 * PIXELS], indices[PIXELS], file[sizeof HEADER - 1 + 3 * PIXELS];
    uint32_t weights[PIXELS], counts[K], remainders[3 * K];
    uint32_t entries[6 * BATCHES];
    uint8_t answers[2 * BATCHES];
    uint8_t palette[3 * K], map[BINS], boxes[6 * K], numbers[K];
    double spreads[K];
    size_t answer, found;
};

static struct lent on_large, on_small;

/* ---- The calls, one after the other */

static void version(struct lent *l)
{
    l->answer = seluvava_version();
}

static void bins(struct lent *l)
{
    l->answer = seluvava_bins(B1, B2, B3);
}

static void numbers(struct lent *l)
{
    l->answer = seluvava_table_len(B1, B2, B3);
}

static void load(struct lent *l)
{
    l->answer = seluvava_load(B1, B2, B3, l->table, COUNT(l->table), l->frame, COUNT(l->frame), false, NULL, 0);
}

static void load_weighted(struct lent *l)
{
    l->answer = seluvava_load(B1, B2, B3, l->second, COUNT(l->second), l->frame, COUNT(l->frame), true, l->weights,
                              COUNT(l->weights));
}

/* A PPM is the frame behind a header. */
static void ppm_header(struct lent *l)
{
    memcpy(l->file, HEADER, sizeof HEADER - 1);
    memcpy(l->file + sizeof HEADER - 1, l->frame, COUNT(l->frame));
    l->answer = seluvava_ppm_header(l->file, COUNT(l->file)).pixels;
}

static void load_ppm(struct lent *l)
{
    l->answer = seluvava_load_ppm(B1, B2, B3, l->table, COUNT(l->table), l->file, COUNT(l->file));
}

static void merge(struct lent *l)
{
    l->answer = seluvava_merge(B1, B2, B3, l->table, COUNT(l->table), l->second, COUNT(l->second));
}

static void compare(struct lent *l)
{
    const struct seluvava_compare_answer answer =
        seluvava_compare(B1, B2, B3, l->table, COUNT(l->table), l->second, COUNT(l->second), l->differences,
                         COUNT(l->differences));
    l->answer = answer.number;
}

static void rescue(struct lent *l)
{
    l->answer = seluvava_rescue(B1, B2, B3, l->table, COUNT(l->table), l->reasons, COUNT(l->reasons));
}

static void begin(struct lent *l)
{
    l->answer = seluvava_begin(3).session.interval;
}

static void reload(struct lent *l)
{
    l->answer = seluvava_reload((seluvava_session){3}, 5).session.interval;
}

static void batch(struct lent *l)
{
    l->answer = seluvava_batch((seluvava_session){3}, 3, B1, B2, B3, l->table, COUNT(l->table), l->frame,
                               COUNT(l->frame), true, l->weights, COUNT(l->weights));
}

/* Batches of equal length, each after a reload to its interval. */
static void replay(struct lent *l)
{
    for (uint32_t i = 0; i < BATCHES; i++) {
        const uint32_t two[] = {0, 1 + i % 7, 0, 1, 1 + i % 7, PIXELS / BATCHES};
        memcpy(l->entries + 6 * i, two, sizeof two);
    }
    l->answer = seluvava_replay(3, B1, B2, B3, l->second, COUNT(l->second), l->entries, COUNT(l->entries), l->frame,
                                COUNT(l->frame), l->weights, COUNT(l->weights), l->answers, COUNT(l->answers)).number;
}

static void cut(struct lent *l)
{
    const struct seluvava_cut_answer answer =
        seluvava_cut(B1, B2, B3, K, l->table, COUNT(l->table), l->work, COUNT(l->work), l->palette, COUNT(l->palette),
                     l->counts, COUNT(l->counts), l->remainders, COUNT(l->remainders), l->map, COUNT(l->map), l->boxes,
                     COUNT(l->boxes), l->spreads, COUNT(l->spreads));
    l->answer = answer.number;
    l->found = answer.boxes;
}

static void cut_slowly(struct lent *l)
{
    const struct seluvava_cut_answer answer =
        seluvava_cut_slowly(B1, B2, B3, K, l->table, COUNT(l->table), l->palette, COUNT(l->palette), l->counts,
                            COUNT(l->counts), l->remainders, COUNT(l->remainders), l->map, COUNT(l->map), l->boxes,
                            COUNT(l->boxes), l->spreads, COUNT(l->spreads));
    l->answer = answer.number;
    l->found = answer.boxes;
}

static void narrow_load(struct lent *l)
{
    l->answer = seluvava_narrow_load(B1, B2, B3, l->sums, COUNT(l->sums), l->squares, COUNT(l->squares), l->frame,
                                     COUNT(l->frame), false, NULL, 0);
}

/* As many weights of the frame as a narrow table takes. */
static void narrow_load_weighted(struct lent *l)
{
    l->answer = seluvava_narrow_load(B1, B2, B3, l->second_sums, COUNT(l->second_sums), l->second_squares,
                                     COUNT(l->second_squares), l->frame, 3 * 250, true, l->weights, 250);
}

static void narrow_merge(struct lent *l)
{
    l->answer = seluvava_narrow_merge(B1, B2, B3, l->sums, COUNT(l->sums), l->squares, COUNT(l->squares),
                                      l->second_sums, COUNT(l->second_sums), l->second_squares,
                                      COUNT(l->second_squares));
}

static void narrow_cut(struct lent *l)
{
    const struct seluvava_cut_answer answer =
        seluvava_narrow_cut(B1, B2, B3, K, l->sums, COUNT(l->sums), l->squares, COUNT(l->squares), l->work_sums,
                            COUNT(l->work_sums), l->work_squares, COUNT(l->work_squares), l->palette,
                            COUNT(l->palette), l->counts, COUNT(l->counts), l->remainders, COUNT(l->remainders), l->map,
                            COUNT(l->map), l->boxes, COUNT(l->boxes), l->spreads, COUNT(l->spreads));
    l->answer = answer.number;
    l->found = answer.boxes;
}

static void narrow_cut_slowly(struct lent *l)
{
    const struct seluvava_cut_answer answer =
        seluvava_narrow_cut_slowly(B1, B2, B3, K, l->sums, COUNT(l->sums), l->squares, COUNT(l->squares), l->palette,
                                   COUNT(l->palette), l->counts, COUNT(l->counts), l->remainders,
                                   COUNT(l->remainders), l->map, COUNT(l->map), l->boxes, COUNT(l->boxes), l->spreads,
                                   COUNT(l->spreads));
    l->answer = answer.number;
    l->found = answer.boxes;
}

static void widen(struct lent *l)
{
    l->answer = seluvava_widen(B1, B2, B3, l->sums, COUNT(l->sums), l->squares, COUNT(l->squares), l->widened,
                               COUNT(l->widened));
}

static void map(struct lent *l)
{
    l->answer = seluvava_map(B1, B2, B3, l->map, COUNT(l->map), l->found, l->frame, COUNT(l->frame), l->indices,
                             COUNT(l->indices), 0, PIXELS);
}

static void paint(struct lent *l)
{
    l->answer = seluvava_paint(B1, B2, B3, l->map, COUNT(l->map), l->palette, 3 * l->found, l->frame, COUNT(l->frame),
                               0, PIXELS);
}

static void nearest(struct lent *l)
{
    l->answer = seluvava_nearest(l->palette, COUNT(l->palette), l->numbers, COUNT(l->numbers));
}

static const struct call {
    const char *name;
    void (*make)(struct lent *);
    size_t answer;
} calls[] = {
    {"version", version, SELUVAVA_VERSION_NUMBER},
    {"bins", bins, BINS},
    {"numbers", numbers, 5 * BINS},
    {"load", load, 0},
    {"load with weights", load_weighted, 0},
    {"ppm_header", ppm_header, sizeof HEADER - 1},
    {"load_ppm", load_ppm, 0},
    {"merge", merge, 0},
    {"compare", compare, 0},
    {"rescue", rescue, 0},
    {"begin", begin, 3},
    {"reload", reload, 5},
    {"batch", batch, 0},
    {"replay", replay, 0},
    {"cut", cut, 0},
    {"cut_slowly", cut_slowly, 0},
    {"narrow_load", narrow_load, 0},
    {"narrow_load with weights", narrow_load_weighted, 0},
    {"narrow_merge", narrow_merge, 0},
    {"narrow_cut", narrow_cut, 0},
    {"narrow_cut_slowly", narrow_cut_slowly, 0},
    {"widen", widen, 0},
    {"map", map, 0},
    {"paint", paint, 0},
    {"nearest", nearest, 0},
};

/* ---- The small stack */

static unsigned char *stack;
static const struct call *call;
static size_t used;

/* The stack below this function's frame, but for SLACK bytes, is painted before the call and looked at after it. */
#define PAINT 0x5a
#define SLACK 256

static void *make_call(void *unused)
{
    static unsigned char signal_stack[STACK];
    const stack_t on_signal = {.ss_sp = signal_stack, .ss_size = sizeof signal_stack};
    const unsigned char *frame = __builtin_frame_address(0);
    const size_t below = (size_t)(frame - stack);
    size_t untouched = 0;
    need(below > SLACK && below < STACK, "the stack that was asked for");
    need(sigaltstack(&on_signal, NULL) == 0, "a signal stack");
    memset(stack, PAINT, below - SLACK);
    call->make(&on_small);
    while (untouched < below - SLACK && stack[untouched] == PAINT) untouched++;
    used = below - untouched;
    return unused;
}

static void make_stack(void)
{
    const size_t page = (size_t)sysconf(_SC_PAGESIZE);
    unsigned char *area = mmap(NULL, page + STACK, PROT_NONE, MAP_PRIVATE | MAP_ANONYMOUS, -1, 0);
    need(area != MAP_FAILED, "memory");
    stack = area + page;
    need(mprotect(stack, STACK, PROT_READ | PROT_WRITE) == 0, "a page");
}

static void on_thread(void)
{
    pthread_attr_t attributes;
    pthread_t thread;
    need(pthread_attr_init(&attributes) == 0 && pthread_attr_setstack(&attributes, stack, STACK) == 0, "a small stack");
    need(pthread_create(&thread, &attributes, make_call, NULL) == 0, "a thread");
    need(pthread_join(thread, NULL) == 0 && pthread_attr_destroy(&attributes) == 0, "a thread that ends");
}

/* ---- */

static void start(void)
{
    uint32_t noise = 1;
    for (size_t i = 0; i < COUNT(on_large.frame); i++) {
        noise = noise * 1664525 + 1013904223;
        on_large.frame[i] = (uint8_t)(noise >> 24);
        on_large.weights[i / 3] = noise >> 16;
    }
    on_small = on_large;
    make_stack();
    watch();
}

int main(void)
{
    now("start");
    start();
    for (call = calls; call < calls + COUNT(calls); call++) {
        now("%s on a stack of 64 KiB", call->name);
        call->make(&on_large);
        on_thread();
        check(on_small.answer == call->answer, "answered %zu", on_small.answer);
        check(memcmp(&on_small, &on_large, sizeof on_small) == 0, "another outcome than on a large stack");
        printf("stack: %s uses %s%zu bytes\n", call->name, used > SLACK ? "" : "at most ", used);
    }
    printf("stack: %zu checks\n", checks);
    return 0;
}
