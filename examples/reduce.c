/*
 * Reduces a picture to at most 256 colours: a PPM from standard input to one on standard output.
 *
 *     gcc reduce.c $(pkg-config --cflags --libs seluvava) -o reduce && ./reduce < in.ppm > out.ppm
 */
#include "seluvava.h"
#include <stdio.h>
#include <stdlib.h>
#include <string.h>

#define BINS (16 * 32 * 16)

static uint64_t table[5 * BINS], work[5 * BINS];
static uint8_t map[BINS];
static struct seluvava_cut_results found;

uint8_t reduce(uint8_t *frame, size_t pixels)
{
    struct seluvava_cut_answer cut;
    uint8_t number;
    memset(table, 0, sizeof table);
    number = seluvava_load(SELUVAVA_RGB, table, 5 * BINS, frame, 3 * pixels, false, NULL, 0);
    if (number != SELUVAVA_DONE) return number;
    cut = seluvava_cut_into(SELUVAVA_RGB, 256, table, 5 * BINS, work, 5 * BINS, map, BINS, &found);
    if (cut.number != SELUVAVA_DONE) return cut.number;
    return seluvava_paint(SELUVAVA_RGB, map, BINS, found.palette, 3 * cut.boxes, frame, 3 * pixels, 0, pixels);
}

static int failed(const char *why)
{
    fprintf(stderr, "reduce: %s\n", why);
    return 1;
}

/* All of standard input, and how many bytes it has; NULL where there is no room or it cannot be read. */
static uint8_t *read_all(size_t *length)
{
    uint8_t *file = NULL;
    size_t room = 0, n = 0;
    do {
        if (n == room) {
            uint8_t *more = (uint8_t *)realloc(file, room = 2 * room + 65536);
            if (!more) return NULL;
            file = more;
        }
        n += fread(file + n, 1, room - n, stdin);
    } while (!feof(stdin) && !ferror(stdin));
    *length = n;
    return ferror(stdin) ? NULL : file;
}

int main(void)
{
    size_t length = 0, pixels;
    struct seluvava_ppm_answer header;
    uint8_t number, *file;
    if (seluvava_version() != SELUVAVA_VERSION_NUMBER) return failed("the library is not that of " SELUVAVA_VERSION);
    file = read_all(&length);
    if (!file) return failed("standard input could not be read");
    header = seluvava_ppm_header(file, length);
    if (header.number != SELUVAVA_DONE) return failed(seluvava_message(header.number));
    pixels = header.width * header.height;
    if (length - header.pixels != 3 * pixels) return failed(seluvava_message(SELUVAVA_REFUSED_PPM_LENGTH));
    number = reduce(file + header.pixels, pixels);
    if (number != SELUVAVA_DONE) return failed(seluvava_message(number));
    if (fwrite(file, 1, length, stdout) != length || fflush(stdout) != 0) return failed("standard output is full");
    free(file);
    return 0;
}
