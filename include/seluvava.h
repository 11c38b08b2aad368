/*
 * Seluvava: a colour quantizer by Wu's method of 1992.
 *
 * PROVED is, of the source that the archive is compiled from: what each call answers and what every lent buffer holds
 * afterwards, refusals too; that it reads and writes nothing else; and that it ends without a fault, whatever the
 * numbers and the contents. The compiler behind the proof is believed. MEASURED is how much stack a call takes, and
 * that flush modes change no answer (tests/). BY HAND stand the declarations below, which no proof reads: the tests in C
 * go by them, and the archive exports just these names. So do the calls that are inline: seluvava_message, which has
 * words for an answer, and seluvava_cut_into, which hands its arguments on. WHAT A CALLER SEES TO stands under LENT
 * BUFFERS and ROUNDING: no call can test it.
 *
 * load counts colours into a table, and load_ppm those of a PPM file; merge adds a second table into a first, compare
 * tells where two tables differ, rescue clears what is damaged in a table, cut makes of a table a palette of at most
 * 256 colours and a map to it, cut_slowly does so without a work table, and map and paint take the pixels of a frame to
 * that palette. begin, reload and batch record frames that were sampled at an interval, and replay does a whole list of
 * such reloads and batches. nearest gives each colour of a palette its number in a terminal. narrow_load, narrow_merge,
 * narrow_cut and narrow_cut_slowly do with smaller tables what the calls without that word do, and widen makes a table
 * of such a one. cut_into is cut with one structure in the place of five lists, for whoever has no reason to lend
 * them apart. version says which version the archive is of.
 * docs/GUIDE.md has the first steps, and docs/CHOOSING.md what to know before choosing: which grid, what comes back
 * inexactly, how to save a table. docs/INTERVALS.md has a recording as an example, with every answer, and
 * docs/RESCUE.md a night with one bad page of memory. docs/RULES.md has every rule, to the bit.
 *
 * GRID. Each call that is lent a table or a map is told three sizes, one for each component of a colour, each from
 * 2, 4, 8, 16, 32, 64, 128. The bin of component c at size s is c * s / 256, rounded down. With sizes b1, b2, b3, bin
 * (r, g, b) stands at place (r * b2 + g) * b3 + b. The choice of the Rust crate quantette for RGB is SELUVAVA_RGB:
 * 16, 32, 16.
 *
 * TABLE. Five numbers per bin, from 5 * place on: weight n, three component sums, the sum of squared components.
 * An empty table is all zeros. A table is sound if, in each bin, every component sum lies between n * low and
 * n * high, where low and high are the smallest and largest value of that component that fall in the bin, the
 * squares lie between n times the sum of the three squared lows and n times that of the three squared highs, and all
 * weights total at most 4,294,967,295. What load and merge make of sound tables is sound.
 *
 * NARROW TABLE. The same five numbers per bin in two lists, 24 bytes a bin in place of 40: the sums, four 32-bit
 * numbers per bin from 4 * place on, weight n and the three component sums; and the squares, one 64-bit number per bin,
 * at its place. An empty narrow table is all zeros in both. Its total is at most 16,843,008, up to which no sum reaches
 * 2^32: this is the limit of a sound narrow table, and all else of it is as above. Two 4K frames fit, pixel by pixel,
 * or eight of 1920 by 1080. Take it where it is known that the total stays at or below that: with its work table a cut
 * needs 48 bytes a bin in place of 80; docs/SPEED.md has its times. Take the table of five numbers per bin, the wide
 * one, where weights or merges may carry the total further, and for load_ppm, compare, rescue, batch and replay, which
 * have no narrow form. Where a load or a merge is refused with 15, widen makes the table to go on with.
 *
 * LENT BUFFERS. A buffer is a pointer and, right after it, its length in elements (not in bytes). A caller sees to
 * three things, and no call can test them: a pointer is aligned for its type and has that many elements behind it;
 * no buffer that is not const overlaps another one lent to the same call (so no table is merged into itself); and
 * nobody else writes to a buffer, or reads one that is not const, before the call returns. A buffer of length 0 is
 * never looked at, so its pointer may be NULL; 0 is a length like any other, accepted or refused as each call says.
 * Buffers that are const are only read: they may overlap each other, and any number of calls may read them at once.
 *
 * ROUNDING. All cuts work in double, each operation rounded once to nearest, as every C program begins. A caller that
 * has changed the rounding mode (fesetround) sets it back to FE_TONEAREST before each: in another mode its boxes may be
 * others. Of the other calls none works in double. The flush modes of the processor, flush-to-zero and
 * denormals-are-zero, may be as they like: no spread and no score is so small.
 *
 * NEEDS. No call keeps anything, allocates, waits or fails in any other way than by its number. A stack of 64 KiB is
 * enough for each, as tests/stack.c measures. Of a C library the archive takes memcpy and memset and nothing else; a
 * program without one brings these two.
 *
 * ANSWERS. What load, load_ppm, merge, rescue, batch, map, paint, nearest, narrow_load, narrow_merge and widen hand
 * back, and ppm_header, compare, begin, reload, replay, cut, cut_slowly, cut_into, narrow_cut and narrow_cut_slowly in
 * `number`. Each has a constant below, and seluvava_message has words for it:
 *
 *   0  done
 *   1  a grid size not among the seven
 *   2  k outside 1..256
 *   3  colour bytes not a multiple of three
 *   4  weights given and not one per colour
 *   5  a lent length is wrong, a band reaches past the frame, or a recorded list is malformed
 *   6  a table is not sound
 *   7  the total after a load, a merge or a batch would pass 4,294,967,295
 *   8  cut of a table with total 0
 *   9  some entry of the map is not below the palette's length
 *  10  the header of a PPM is malformed
 *  11  the maximum of a PPM is not 255
 *  12  a PPM has more or fewer bytes of pixels than its header says
 *  13  an interval outside 1..4,096
 *  14  the interval of a batch is not the one in force
 *  15  the total after a narrow load or a narrow merge would pass 16,843,008
 *
 * The lowest answer from 1 to 9 that applies is given; where none applies, the answer is 0. 10, 11 and 12 come before
 * 1, in that order, and so do 13 and 14, which no call answers that answers one of these. 15 stands in the place of 7:
 * the calls that answer it do not answer 7, and they answer it where none of 1 to 9 applies. Any answer but 0 is a
 * refusal, which writes nothing: every lent byte stays as it was.
 */
#ifndef SELUVAVA_H
#define SELUVAVA_H

#include <stdbool.h>
#include <stddef.h>
#include <stdint.h>

#ifdef __cplusplus
extern "C" {
#endif

/* The version of the calls, the crate for Rust and the pages; and as one number, 10000 * a + 100 * b + c for a.b.c. */
#define SELUVAVA_VERSION "0.9.0"
#define SELUVAVA_VERSION_MAJOR 0
#define SELUVAVA_VERSION_MINOR 9
#define SELUVAVA_VERSION_PATCH 0
#define SELUVAVA_VERSION_NUMBER \
    (10000 * SELUVAVA_VERSION_MAJOR + 100 * SELUVAVA_VERSION_MINOR + SELUVAVA_VERSION_PATCH)

/*
 * The version of the archive or the shared library that a program is linked with, as one number. It is
 * SELUVAVA_VERSION_NUMBER where header and library belong together: a program that is moved from machine to machine
 * asks once, when it starts. The oldest archives have no such call, so that a program does not link with one.
 */
uint32_t seluvava_version(void);

/* The answers, as ANSWERS has them. */
enum seluvava_number {
    SELUVAVA_DONE = 0,
    SELUVAVA_REFUSED_GRID_SIZE = 1,
    SELUVAVA_REFUSED_PALETTE_SIZE = 2,
    SELUVAVA_REFUSED_STRAY_BYTES = 3,
    SELUVAVA_REFUSED_WEIGHTS = 4,
    SELUVAVA_REFUSED_LENGTH = 5,
    SELUVAVA_REFUSED_UNSOUND = 6,
    SELUVAVA_REFUSED_TOTAL = 7,
    SELUVAVA_REFUSED_EMPTY = 8,
    SELUVAVA_REFUSED_MAP_ENTRY = 9,
    SELUVAVA_REFUSED_PPM_HEADER = 10,
    SELUVAVA_REFUSED_PPM_MAXIMUM = 11,
    SELUVAVA_REFUSED_PPM_LENGTH = 12,
    SELUVAVA_REFUSED_INTERVAL = 13,
    SELUVAVA_REFUSED_NOT_IN_FORCE = 14,
    SELUVAVA_REFUSED_NARROW_TOTAL = 15
};

/* What an answer means, in a few words without a full stop; of a number that no call answers it says just that. */
static inline const char *seluvava_message(unsigned number)
{
    switch (number) {
    case SELUVAVA_DONE: return "done";
    case SELUVAVA_REFUSED_GRID_SIZE: return "a grid size is none of 2, 4, 8, 16, 32, 64, 128";
    case SELUVAVA_REFUSED_PALETTE_SIZE: return "the number of colours asked for is outside 1 to 256";
    case SELUVAVA_REFUSED_STRAY_BYTES: return "the colour bytes are not a multiple of three";
    case SELUVAVA_REFUSED_WEIGHTS: return "weights are given, and not one per colour";
    case SELUVAVA_REFUSED_LENGTH:
        return "a lent length is wrong, a band reaches past the frame, or a recorded list is malformed";
    case SELUVAVA_REFUSED_UNSOUND: return "a table is not sound";
    case SELUVAVA_REFUSED_TOTAL: return "the total would pass 4,294,967,295";
    case SELUVAVA_REFUSED_EMPTY: return "the table to be cut has total 0";
    case SELUVAVA_REFUSED_MAP_ENTRY: return "an entry of the map is not below the palette's length";
    case SELUVAVA_REFUSED_PPM_HEADER: return "the header of a PPM is malformed";
    case SELUVAVA_REFUSED_PPM_MAXIMUM: return "the maximum of a PPM is not 255";
    case SELUVAVA_REFUSED_PPM_LENGTH: return "a PPM has more or fewer bytes of pixels than its header says";
    case SELUVAVA_REFUSED_INTERVAL: return "an interval is outside 1 to 4,096";
    case SELUVAVA_REFUSED_NOT_IN_FORCE: return "the interval of a batch is not the one in force";
    case SELUVAVA_REFUSED_NARROW_TOTAL: return "the total of a narrow table would pass 16,843,008";
    default: return "no call answers this number";
    }
}

/* The three sizes for RGB, as every call takes them: 8,192 bins. */
#define SELUVAVA_RGB 16, 32, 16

/* The largest total of a sound narrow table; a load or a merge that would pass it is refused with 15. */
#define SELUVAVA_NARROW_TOTAL 16843008

/* How many bins a grid has: b1 * b2 * b3, or 0 where a size is not among the seven. */
size_t seluvava_bins(size_t b1, size_t b2, size_t b3);

/* How many numbers a table of a grid has: 5 * bins, or 0 where a size is not among the seven. */
size_t seluvava_table_len(size_t b1, size_t b2, size_t b3);

/*
 * Load: adds colours to a table. A colour c1, c2, c3 of weight w adds, in its bin, w to n, w * c to each sum and
 * w * (c1*c1 + c2*c2 + c3*c3) to the squares. Weight 0 adds nothing; no colours at all change nothing. In whatever
 * order and batches the same colours are loaded, the table is the same, as long as none is refused.
 *
 *   table     5 * bins numbers, sound. Changed.
 *   colours   three bytes per colour.
 *   weighted  whether weights are given. If not, each colour has weight 1.
 *   weights   one per colour if they are given. If not, any list, which is not looked at.
 *
 * Answers 0, 1, 3, 4, 5, 6, 7.
 */
uint8_t seluvava_load(size_t b1, size_t b2, size_t b3,
                      uint64_t *table, size_t table_len,
                      const uint8_t *colours, size_t colours_len,
                      bool weighted,
                      const uint32_t *weights, size_t weights_len);

/*
 * What the header of a PPM says: its number, the width and height of the image in pixels, and at which byte of the file
 * the pixels start. A refusal has zeros beside its number.
 */
struct seluvava_ppm_answer {
    uint8_t number;
    size_t width;
    size_t height;
    size_t pixels;
};

/*
 * The header of a PPM, as Netpbm writes colour images (P6): `P6`, a gap, the width, a gap, the height, a gap, the
 * maximum, one whitespace; then come the pixels. Whitespace is a blank, TAB, CR or LF. A gap has whitespace and
 * comments in any order, with at least one whitespace that is no part of a comment; a comment goes from `#` through the
 * next CR or LF. A number is decimal digits, one or more. Width and height are each 1 to 65,535.
 *
 *   file      the bytes of the file, or as many of its first ones as have the header. What follows the header is not
 *             looked at: whether there are 3 * width * height bytes from `pixels` on, load_ppm asks.
 *
 * Answers 0, 10, 11.
 */
struct seluvava_ppm_answer seluvava_ppm_header(const uint8_t *file, size_t file_len);

/*
 * Load a PPM: adds the pixels of a file to a table, each with weight 1. They are read where they stand in the file, and
 * the table is what load makes of these bytes.
 *
 *   table     5 * bins numbers, sound. Changed.
 *   file      the bytes of the file: a header, 3 * width * height bytes of pixels, and no byte more.
 *
 * Answers 0, 1, 5, 6, 7, 10, 11, 12.
 */
uint8_t seluvava_load_ppm(size_t b1, size_t b2, size_t b3,
                          uint64_t *table, size_t table_len,
                          const uint8_t *file, size_t file_len);

/*
 * Merge: adds a second table into a first, number by number. Either order gives the same answer and, where that is 0,
 * the same sum, so tables may be merged in any tree; a table of zeros changes nothing.
 *
 *   table     5 * bins numbers, sound. Changed.
 *   second    5 * bins numbers, sound.
 *
 * Answers 0, 1, 5, 6, 7.
 */
uint8_t seluvava_merge(size_t b1, size_t b2, size_t b3,
                       uint64_t *table, size_t table_len,
                       const uint64_t *second, size_t second_len);

/*
 * What a comparison answers: its number, how many bins differ, and the place of the first that does, which is the
 * number of bins where none differs. A refusal has zeros beside its number.
 */
struct seluvava_compare_answer {
    uint8_t number;
    size_t differ;
    size_t first;
};

/*
 * Compare: writes for each bin the five differences, second minus first. A bin differs where one of its five numbers
 * does. In the other order every difference has the other sign, and the answer is the same. Added to the first table
 * the differences give the second. None is 2^50 or more in size.
 *
 *   first         5 * bins numbers, sound.
 *   second        5 * bins numbers, sound. It may be the first itself.
 *   differences   5 * bins numbers, whatever they are. Afterwards the differences, from 5 * place on those of a bin.
 *
 * Answers 0, 1, 5, 6.
 */
struct seluvava_compare_answer
seluvava_compare(size_t b1, size_t b2, size_t b3,
                 const uint64_t *first, size_t first_len,
                 const uint64_t *second, size_t second_len,
                 int64_t *differences, size_t differences_len);

/*
 * Rescue: makes a damaged table sound by clearing bins. The bins are walked in the order of their places. One that
 * breaks its bounds, or whose weight alone is above 4,294,967,295, is cleared to five zeros, and so is one that would
 * carry the total of the bins kept so far past 4,294,967,295; a lighter one after it may be kept. Every other bin stays
 * as it is. So a sound table comes back as it was, and what comes back is sound. What is damaged and keeps its bounds
 * is not seen.
 *
 *   table     5 * bins numbers, whatever they are. Changed.
 *   reasons   bins bytes. At the place of each bin 0 where it is kept, 1 where it is cleared for its bounds, 2 where it
 *             is cleared for the total.
 *
 * Answers 0, 1, 5.
 */
uint8_t seluvava_rescue(size_t b1, size_t b2, size_t b3,
                        uint64_t *table, size_t table_len,
                        uint8_t *reasons, size_t reasons_len);

/*
 * A session: the interval in force, from 1 to 4,096, and nothing else. It is a plain value that its caller keeps; the
 * table is lent to each call. An interval of n says that of n frames one was sampled, so that each colour stands for n.
 * Interval 0 is that of a session which was refused: under it every batch is refused.
 */
typedef struct seluvava_session {
    uint32_t interval;
} seluvava_session;

/* What begin, reload and replay answer: the number, and the session from then on. */
struct seluvava_session_answer {
    uint8_t number;
    seluvava_session session;
};

/*
 * Begin: a session with an interval; refused, one with interval 0.
 *
 * Answers 0, 13.
 */
struct seluvava_session_answer seluvava_begin(uint32_t interval);

/*
 * Reload: the session with another interval in force; refused, the session as it was.
 *
 * Answers 0, 13.
 */
struct seluvava_session_answer seluvava_reload(seluvava_session session, uint32_t interval);

/*
 * Batch: adds colours to a table as load does, each weight multiplied by the interval. The batch says at which interval
 * it was sampled, and is refused where that is not the one in force. Without weights each colour weighs the interval.
 * The session stays as it is.
 *
 *   session   its interval is the one in force, whatever number it is.
 *   interval  that of the batch.
 *   table     5 * bins numbers, sound. Changed.
 *   colours   three bytes per colour.
 *   weighted  whether weights are given. If not, each colour has weight 1 before it is multiplied.
 *   weights   one per colour if they are given. If not, any list, which is not looked at.
 *
 * Answers 0, 1, 3, 4, 5, 6, 7, 13, 14.
 */
uint8_t seluvava_batch(seluvava_session session, uint32_t interval,
                       size_t b1, size_t b2, size_t b3,
                       uint64_t *table, size_t table_len,
                       const uint8_t *colours, size_t colours_len,
                       bool weighted,
                       const uint32_t *weights, size_t weights_len);

/*
 * Replay: begins with a first interval and takes the entries of a recorded list one after the other, each as the
 * reload or the batch that it is. A refused entry changes nothing, its colours and weights are passed over, and the
 * replay goes on. The table is looked at once, so that many small batches take little more than a large one.
 *
 *   first     the interval to begin with.
 *   table     5 * bins numbers, sound. Changed: the accepted batches are added.
 *   entries   three numbers per entry: kind (0 reload, 1 batch), interval, number of colours (0 for a reload).
 *   colours   of all batches one after the other, refused ones too, three bytes per colour and no byte more.
 *   weights   of all batches likewise, one per colour.
 *   answers   at least one byte per entry. Entry i's answer, at place i: 0, 7, 13 or 14. Places past the entries stay
 *             as they were.
 *
 * Answers 0, 1, 5, 6, 13, before any entry is taken: 13 is of the first interval, and 5 also of a kind other than 0 and
 * 1 and of a reload with colours. A refusal answers interval 0. Otherwise the session has the interval that is in force
 * after the last entry, and what the entries answered stands in their bytes alone.
 */
struct seluvava_session_answer
seluvava_replay(uint32_t first, size_t b1, size_t b2, size_t b3,
                uint64_t *table, size_t table_len,
                const uint32_t *entries, size_t entries_len,
                const uint8_t *colours, size_t colours_len,
                const uint32_t *weights, size_t weights_len,
                uint8_t *answers, size_t answers_len);

/*
 * What a cut answers: its number, how many boxes there are, and in how many rounds they were found. A refusal has none
 * of either. `rounds` is new in version 0.3.0, and the structure is longer by it: what was compiled by an older header
 * has to be compiled anew.
 *
 * A round takes up the box with the largest spread: it divides the box, or finds that it can't be divided, or ends the
 * cut, since no box is left to divide. So there are at least boxes - 1 rounds, and never more than 2 * k - 2.
 */
struct seluvava_cut_answer {
    uint8_t number;
    size_t boxes;
    size_t rounds;
};

/*
 * Cut: divides the grid into at most k boxes, each with weight in it, and each bin in exactly one. A table loaded from
 * colours gets as many as the smaller of k and the bins that have weight. Where all numbers of a table are multiplied by
 * a power of two and the total still fits, boxes, palette and map are the same, and counts, remainders and spreads are
 * multiplied.
 *
 *   table     5 * bins numbers, sound, with a total above 0.
 *   work      5 * bins numbers, whatever they are. Afterwards the moments: at each place the sum over all bins
 *             with r, g and b at most its own.
 *   palette   at least 3 * k bytes. Box i's colour, from 3 * i on: each sum divided by n, rounded down.
 *   counts    at least k. Box i's weight n, at place i.
 *   remainders
 *             at least 3 * k. What each division of box i leaves, from 3 * i on: colour times count plus remainder is the
 *             box's sum of that component, and each remainder is below the count. New in version 0.4.0: a call by an
 *             older header has two arguments too few, and has to be changed.
 *   map       bins bytes. At the place of each bin the index i of its box.
 *   boxes     at least 6 * k bytes. Box i's bins, from 6 * i on: r0, r1, g0, g1, b0, b1, where r0 is the first bin in
 *             the first dimension and r1 the first that is not, and so on.
 *   spreads   at least k. Box i's spread, at place i: squares - (c1*c1 + c2*c2 + c3*c3) / n of its sums, each whole
 *             number first turned into double, each operation rounded once, so that it can lie slightly below 0 (and
 *             further below, for a sound table that no colours gave); 0.0 for a box of one bin, or one found
 *             impossible to cut; infinity at k = 1.
 *
 * Of palette, counts, remainders, boxes and spreads, places past the last box stay as they were.
 * Answers 0, 1, 2, 5, 6, 8.
 */
struct seluvava_cut_answer
seluvava_cut(size_t b1, size_t b2, size_t b3, size_t k,
             const uint64_t *table, size_t table_len,
             uint64_t *work, size_t work_len,
             uint8_t *palette, size_t palette_len,
             uint32_t *counts, size_t counts_len,
             uint32_t *remainders, size_t remainders_len,
             uint8_t *map, size_t map_len,
             uint8_t *boxes, size_t boxes_len,
             double *spreads, size_t spreads_len);

/* What a cut of at most 256 colours writes beside the map, which is as long as its grid says. It needs no zeros. */
struct seluvava_cut_results {
    uint8_t palette[3 * 256];
    uint32_t counts[256];
    uint32_t remainders[3 * 256];
    uint8_t boxes[6 * 256];
    double spreads[256];
};

/*
 * Cut into one structure: what cut does, with its five lists of fixed length in `results`. They have room for every k
 * from 1 to 256, so that of the answers 5 speaks of the table, the work table and the map alone.
 *
 *   table, work, map
 *             as for cut.
 *   results   whatever it holds. Afterwards palette, counts, remainders, boxes and spreads as cut leaves them. Places
 *             past the last box stay as they were.
 *
 * Answers 0, 1, 2, 5, 6, 8.
 */
static inline struct seluvava_cut_answer
seluvava_cut_into(size_t b1, size_t b2, size_t b3, size_t k,
                  const uint64_t *table, size_t table_len,
                  uint64_t *work, size_t work_len,
                  uint8_t *map, size_t map_len,
                  struct seluvava_cut_results *results)
{
    return seluvava_cut(b1, b2, b3, k, table, table_len, work, work_len, results->palette, sizeof results->palette,
                        results->counts, 256, results->remainders, 3 * 256, map, map_len, results->boxes,
                        sizeof results->boxes, results->spreads, 256);
}

/*
 * Cut slowly: what cut does, without a work table. The bins of a box are added up each time that its sums are needed.
 * Answer and results are those of cut, to the bit, and so are the refusals, but for the one of the work table's length.
 * It serves where there is no room for a second table, and to hold the other cut to.
 *
 *   table, palette, counts, remainders, map, boxes, spreads
 *             as for cut.
 *
 * A round adds up all bins of its box less than b1 + b2 + b3 times. So the time grows with the bins times the three
 * sizes together, and twice each size takes about 16 times as long: expect milliseconds at 16,32,16, ten times that at
 * 32,32,32, and 5 to 15 seconds at 128,128,128. docs/SPEED.md has measured times.
 *
 * Answers 0, 1, 2, 5, 6, 8.
 */
struct seluvava_cut_answer
seluvava_cut_slowly(size_t b1, size_t b2, size_t b3, size_t k,
                    const uint64_t *table, size_t table_len,
                    uint8_t *palette, size_t palette_len,
                    uint32_t *counts, size_t counts_len,
                    uint32_t *remainders, size_t remainders_len,
                    uint8_t *map, size_t map_len,
                    uint8_t *boxes, size_t boxes_len,
                    double *spreads, size_t spreads_len);

/*
 * Narrow load: what load does, with a narrow table. It leaves the five numbers per bin that load leaves.
 *
 *   sums      4 * bins numbers, and
 *   squares   bins numbers: a narrow table, sound. Both are changed.
 *   colours, weighted, weights
 *             as for load.
 *
 * Answers 0, 1, 3, 4, 5, 6, 15.
 */
uint8_t seluvava_narrow_load(size_t b1, size_t b2, size_t b3,
                             uint32_t *sums, size_t sums_len,
                             uint64_t *squares, size_t squares_len,
                             const uint8_t *colours, size_t colours_len,
                             bool weighted,
                             const uint32_t *weights, size_t weights_len);

/*
 * Narrow merge: adds a second narrow table into a first, number by number, in any order and tree as merge does.
 *
 *   sums, squares
 *             a narrow table, as for narrow_load. Both are changed.
 *   second_sums, second_squares
 *             4 * bins numbers and bins numbers: another one, sound.
 *
 * Answers 0, 1, 5, 6, 15.
 */
uint8_t seluvava_narrow_merge(size_t b1, size_t b2, size_t b3,
                              uint32_t *sums, size_t sums_len,
                              uint64_t *squares, size_t squares_len,
                              const uint32_t *second_sums, size_t second_sums_len,
                              const uint64_t *second_squares, size_t second_squares_len);

/*
 * Narrow cut: what cut does, with a narrow table and a narrow work table. Answer and results are those of cut on the
 * widened table, to the bit.
 *
 *   sums, squares
 *             4 * bins numbers and bins numbers: a narrow table, sound, with a total above 0.
 *   work_sums, work_squares
 *             4 * bins numbers and bins numbers, whatever they are. Afterwards the moments, laid out alike.
 *   palette, counts, remainders, map, boxes, spreads
 *             as for cut.
 *
 * Answers 0, 1, 2, 5, 6, 8.
 */
struct seluvava_cut_answer
seluvava_narrow_cut(size_t b1, size_t b2, size_t b3, size_t k,
                    const uint32_t *sums, size_t sums_len,
                    const uint64_t *squares, size_t squares_len,
                    uint32_t *work_sums, size_t work_sums_len,
                    uint64_t *work_squares, size_t work_squares_len,
                    uint8_t *palette, size_t palette_len,
                    uint32_t *counts, size_t counts_len,
                    uint32_t *remainders, size_t remainders_len,
                    uint8_t *map, size_t map_len,
                    uint8_t *boxes, size_t boxes_len,
                    double *spreads, size_t spreads_len);

/*
 * Narrow cut, slowly: what narrow_cut does, without a work table, as cut_slowly. Answer and results are those of
 * narrow_cut, to the bit, and so are the refusals, but for the one of the work table's lengths.
 *
 *   sums, squares, palette, counts, remainders, map, boxes, spreads
 *             as for narrow_cut.
 *
 * Answers 0, 1, 2, 5, 6, 8.
 */
struct seluvava_cut_answer
seluvava_narrow_cut_slowly(size_t b1, size_t b2, size_t b3, size_t k,
                           const uint32_t *sums, size_t sums_len,
                           const uint64_t *squares, size_t squares_len,
                           uint8_t *palette, size_t palette_len,
                           uint32_t *counts, size_t counts_len,
                           uint32_t *remainders, size_t remainders_len,
                           uint8_t *map, size_t map_len,
                           uint8_t *boxes, size_t boxes_len,
                           double *spreads, size_t spreads_len);

/*
 * Widen: writes the table of a narrow one, the same five numbers per bin. It is sound, with the same total, and a cut
 * of it gives what narrow_cut gives.
 *
 *   sums, squares
 *             4 * bins numbers and bins numbers: a narrow table, sound.
 *   table     5 * bins numbers, whatever they are: they are not looked at. Afterwards the table.
 *
 * Answers 0, 1, 5, 6.
 */
uint8_t seluvava_widen(size_t b1, size_t b2, size_t b3,
                       const uint32_t *sums, size_t sums_len,
                       const uint64_t *squares, size_t squares_len,
                       uint64_t *table, size_t table_len);

/*
 * Map: writes the index of each pixel of a band, which is the map's byte at the pixel's bin. The band is the
 * `pixels` pixels from pixel `first` on. It must end inside the frame or at its end, and may have no pixels.
 *
 *   map               bins bytes, all of them below `palette_colours`, used by the band or not.
 *   palette_colours   the palette's length in colours; after a cut the number of boxes. Outside 1..256 it gives 5.
 *   frame             three bytes per pixel.
 *   indices           one byte per pixel of the frame. Changed in the band; the rest stays.
 *
 * Answers 0, 1, 3, 5, 9.
 */
uint8_t seluvava_map(size_t b1, size_t b2, size_t b3,
                     const uint8_t *map, size_t map_len,
                     size_t palette_colours,
                     const uint8_t *frame, size_t frame_len,
                     uint8_t *indices, size_t indices_len,
                     size_t first, size_t pixels);

/*
 * Paint: replaces each pixel of a band by the palette's colour at its index. Band and map are as above.
 *
 *   map       bins bytes, all of them below the palette's length in colours, used by the band or not.
 *   palette   3..768 bytes, a multiple of three, or 5 is given; after a cut the first 3 * boxes bytes.
 *   frame     three bytes per pixel. Changed in the band; the rest stays.
 *
 * Answers 0, 1, 3, 5, 9.
 */
uint8_t seluvava_paint(size_t b1, size_t b2, size_t b3,
                       const uint8_t *map, size_t map_len,
                       const uint8_t *palette, size_t palette_len,
                       uint8_t *frame, size_t frame_len,
                       size_t first, size_t pixels);

/*
 * Nearest: writes for each colour of a palette the number of the closest of the 240 fixed colours that the common
 * 256-colour terminal has, 16 to 255: the one with the smallest sum of the three squared differences, the lowest number
 * on a tie. Number 16 + 36 * r + 6 * g + b has the levels 0, 95, 135, 175, 215, 255 at r, g and b, each from 0 to 5, and
 * number 232 + i has 8 + 10 * i three times, for i from 0 to 23. Numbers 0 to 15, which vary between terminals, are never
 * given. As background a number n is the escape ESC[48;5;nm, as text colour ESC[38;5;nm.
 *
 *   palette   3..768 bytes, a multiple of three; after a cut the first 3 * boxes bytes.
 *   answers   at least one byte per colour. Colour i's number, at place i. Places past the colours stay as they were.
 *
 * Answers 0, 5.
 */
uint8_t seluvava_nearest(const uint8_t *palette, size_t palette_len,
                         uint8_t *answers, size_t answers_len);

#ifdef __cplusplus
}
#endif

#endif
