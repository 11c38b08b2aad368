/*
 * Measures what docs/CHOOSING.md says. bench/choosing/run calls it:
 *
 *   measure cut FRAME.ppm B1 B2 B3 K OUT.ppm RUNS   paints with at most K colours; prints boxes and milliseconds
 *   measure rounds FRAME.ppm B1 B2 B3 K             prints how many boxes and rounds a cut at K has
 *   measure error A.ppm B.ppm                       prints the mean squared difference of the components
 *   measure look FRAME.ppm B1 B2 B3                 prints the microseconds of a load of no colours into its table
 *   measure flips FRAME.ppm B1 B2 B3                prints how many of 5,000 tables with one bit flipped are sound
 *   measure swapped FRAME.ppm                       prints the answer to a table of 16,32,16 lent as one of 32,16,16
 *
 * Times are processor time, the smallest of several runs.
 */
#include "seluvava.h"
#include <stdio.h>
#include <stdlib.h>
#include <string.h>
#include <time.h>

static void fail(const char *reason)
{
    fprintf(stderr, "measure: %s\n", reason);
    exit(1);
}

static void *room(size_t elements, size_t size)
{
    void *room = calloc(elements, size);
    if (room == NULL) fail("no memory");
    return room;
}

/* The frame of a PPM file without comments. */
struct frame {
    unsigned width, height;
    size_t bytes;
    uint8_t *colours;
};

static struct frame read_frame(const char *name)
{
    struct frame f;
    FILE *file = fopen(name, "rb");
    if (file == NULL || fscanf(file, "P6 %u %u 255", &f.width, &f.height) != 2) fail("no such frame");
    fgetc(file);
    f.bytes = (size_t)3 * f.width * f.height;
    f.colours = room(f.bytes, 1);
    if (fread(f.colours, 1, f.bytes, file) != f.bytes) fail("a short frame");
    fclose(file);
    return f;
}

static void write_frame(const char *name, struct frame f)
{
    FILE *file = fopen(name, "wb");
    if (file == NULL) fail("no file to write to");
    fprintf(file, "P6\n%u %u\n255\n", f.width, f.height);
    fwrite(f.colours, 1, f.bytes, file);
    if (fclose(file) != 0) fail("not all written");
}

static double seconds(void)
{
    struct timespec now;
    clock_gettime(CLOCK_PROCESS_CPUTIME_ID, &now);
    return (double)now.tv_sec + (double)now.tv_nsec / 1e9;
}

/* A grid and a table of it. */
struct table {
    size_t b1, b2, b3, len;
    uint64_t *numbers;
};

static struct table empty_table(char **sizes)
{
    struct table t;
    t.b1 = strtoul(sizes[0], NULL, 10);
    t.b2 = strtoul(sizes[1], NULL, 10);
    t.b3 = strtoul(sizes[2], NULL, 10);
    t.len = seluvava_table_len(t.b1, t.b2, t.b3);
    if (t.len == 0) fail("no such grid");
    t.numbers = room(t.len, sizeof *t.numbers);
    return t;
}

static uint8_t load(struct table t, struct frame f)
{
    return seluvava_load(t.b1, t.b2, t.b3, t.numbers, t.len, f.colours, f.bytes, false, NULL, 0);
}

/* The look that every load begins with, and nothing else. */
static uint8_t look(struct table t)
{
    return seluvava_load(t.b1, t.b2, t.b3, t.numbers, t.len, NULL, 0, false, NULL, 0);
}

/* What a cut is lent to write. */
struct lent {
    uint64_t *work;
    uint8_t *map, palette[3 * 256], boxes[6 * 256];
    uint32_t counts[256], remainders[3 * 256];
    double spreads[256];
};

static struct lent lend(struct table t)
{
    struct lent l;
    l.work = room(t.len, sizeof *l.work);
    l.map = room(t.len / 5, 1);
    return l;
}

static struct seluvava_cut_answer cut_table(struct table t, size_t k, struct lent *l)
{
    struct seluvava_cut_answer answer =
        seluvava_cut(t.b1, t.b2, t.b3, k, t.numbers, t.len, l->work, t.len, l->palette, sizeof l->palette, l->counts,
                     256, l->remainders, 3 * 256, l->map, t.len / 5, l->boxes, sizeof l->boxes, l->spreads, 256);
    if (answer.number != 0) fail("cut");
    return answer;
}

static int cut(char **words)
{
    struct frame f = read_frame(words[0]);
    struct table t = empty_table(words + 1);
    size_t k = strtoul(words[4], NULL, 10), boxes = 0;
    struct lent l = lend(t);
    uint8_t *frame = room(f.bytes, 1);
    double least = 0;
    for (int run = 0, runs = atoi(words[6]); run < runs; run++) {
        double start, took;
        memcpy(frame, f.colours, f.bytes);
        start = seconds();
        memset(t.numbers, 0, t.len * sizeof *t.numbers);
        if (load(t, f) != 0) fail("load");
        boxes = cut_table(t, k, &l).boxes;
        if (seluvava_paint(t.b1, t.b2, t.b3, l.map, t.len / 5, l.palette, 3 * boxes, frame, f.bytes, 0, f.bytes / 3))
            fail("paint");
        took = seconds() - start;
        if (run == 0 || took < least) least = took;
    }
    f.colours = frame;
    write_frame(words[5], f);
    printf("%zu %.1f\n", boxes, 1e3 * least);
    return 0;
}

static int rounds(char **words)
{
    struct table t = empty_table(words + 1);
    struct lent l = lend(t);
    struct seluvava_cut_answer answer;
    if (load(t, read_frame(words[0])) != 0) fail("load");
    answer = cut_table(t, strtoul(words[4], NULL, 10), &l);
    printf("%zu %zu\n", answer.boxes, answer.rounds);
    return 0;
}

static int error(char **words)
{
    struct frame a = read_frame(words[0]), b = read_frame(words[1]);
    uint64_t sum = 0;
    if (a.bytes != b.bytes) fail("frames of two sizes");
    for (size_t i = 0; i < a.bytes; i++) {
        int difference = a.colours[i] - b.colours[i];
        sum += (uint64_t)(difference * difference);
    }
    printf("%.2f\n", (double)sum / (double)a.bytes);
    return 0;
}

static int time_look(char **words)
{
    struct table t = empty_table(words + 1);
    double least = 0;
    if (load(t, read_frame(words[0])) != 0) fail("load");
    for (int run = 0; run < 51; run++) {
        double start = seconds(), took;
        if (look(t) != 0) fail("look");
        took = seconds() - start;
        if (run == 0 || took < least) least = took;
    }
    printf("%.0f\n", 1e6 * least);
    return 0;
}

static int flips(char **words)
{
    struct table t = empty_table(words + 1);
    uint64_t random = 1;
    int passed = 0;
    if (load(t, read_frame(words[0])) != 0) fail("load");
    for (int i = 0; i < 5000; i++) {
        uint64_t bit;
        random = random * 6364136223846793005u + 1442695040888963407u;
        bit = (random >> 32) % (t.len * 64);
        t.numbers[bit / 64] ^= (uint64_t)1 << bit % 64;
        passed += look(t) == 0;
        t.numbers[bit / 64] ^= (uint64_t)1 << bit % 64;
    }
    printf("%d\n", passed);
    return 0;
}

static int swapped(char **words)
{
    char *sizes[] = {"16", "32", "16"};
    struct table t = empty_table(sizes);
    if (load(t, read_frame(words[0])) != 0) fail("load");
    t.b1 = 32;
    t.b2 = 16;
    printf("%d\n", look(t));
    return 0;
}

int main(int argc, char **argv)
{
    static const struct {
        const char *name;
        int words;
        int (*run)(char **);
    } modes[] = {
        {"cut", 7, cut},        {"rounds", 5, rounds}, {"error", 2, error},
        {"look", 4, time_look}, {"flips", 4, flips},   {"swapped", 1, swapped},
    };
    for (size_t i = 0; i < sizeof modes / sizeof *modes; i++)
        if (argc == modes[i].words + 2 && strcmp(argv[1], modes[i].name) == 0) return modes[i].run(argv + 2);
    fail("what is wanted?");
}
