/* What the tests of mixer_width_matrix_with share: a table, a fold to ask for, and the call. No two gains of a table are equal, and the lists and the
 * area are lent in different lengths, so that one that stands in another's place is seen. */
#ifndef TABLES_H
#define TABLES_H

#include <math.h>
#include <stdlib.h>
#include <string.h>

#include "check.h"
#include "pairs.h"

/* The entries of a table have room for every two formats, and a few more; the area for the largest fold, and a few more. */
enum { FORMATS = 7, ALL = FORMATS * FORMATS, ROOM = 128, GAINS_ROOM = 2048, AREA_ROOM = 160, PAINT = 0xa5 };

/* A table, and how much of its lists is lent; behind that is paint. */
struct table {
    uint32_t pairs[ROOM];
    size_t pairs_len;
    float gains[GAINS_ROOM];
    size_t gains_len;
};

/* A fold that is asked for, with how much of the area is lent. */
struct fold {
    uint32_t src, dst;
    mixer_fold_gains gains;
    bool normalise;
    size_t matrix_len;
};

static struct table table;
static float matrix[AREA_ROOM];

static size_t size_of(uint32_t src, uint32_t dst)
{
    return mixer_format_channels(src) * mixer_format_channels(dst);
}

static bool is_covered(uint32_t src, uint32_t dst)
{
    size_t i;
    for (i = 0; i < NUMBERS; i += 2) {
        if (covered[i] == src && covered[i + 1] == dst) {
            return true;
        }
    }
    return false;
}

static void clear(void)
{
    memset(&table, PAINT, sizeof table);
    table.pairs_len = table.gains_len = 0;
}

/* Adds an entry behind the others. Gain k of the table is (k + 1) / 128, which is within 16. */
static void add(uint32_t src, uint32_t dst)
{
    size_t end = table.gains_len + size_of(src, dst);
    table.pairs[table.pairs_len++] = src;
    table.pairs[table.pairs_len++] = dst;
    for (; table.gains_len < end; table.gains_len++) {
        table.gains[table.gains_len] = (float)(table.gains_len + 1) / 128;
    }
}

/* The covered pairs in their order, but for pair `without`; from pair PAIRS on there is none to leave out. */
static void add_covered(size_t without)
{
    size_t i;
    for (i = 0; i < PAIRS; i++) {
        if (i != without) {
            add(covered[2 * i], covered[2 * i + 1]);
        }
    }
}

static void start(void)
{
    clear();
    add_covered(PAIRS);
    CHECK(table.pairs_len == NUMBERS && table.gains_len == GAINS);
}

/* A fold to an area that is just long enough. */
static struct fold asked(uint32_t src, uint32_t dst)
{
    const struct fold f = {.src = src, .dst = dst, .gains = {0.75, 0.25, 0.625, 0.5, 0.375, 0.125}, .matrix_len = size_of(src, dst)};
    return f;
}

/* The same bytes in memory of just that size, NULL where there are none. */
static void *lent(const void *bytes, size_t size)
{
    void *copy = size > 0 ? malloc(size) : NULL;
    if (copy != NULL) {
        memcpy(copy, bytes, size);
    }
    CHECK((copy != NULL) == (size > 0));
    return copy;
}

/* Frees a list after the call; every byte is as it was. */
static void given_back(void *list, const void *bytes, size_t size)
{
    CHECK(list == NULL || memcmp(list, bytes, size) == 0);
    free(list);
}

static bool painted(const float *area, size_t len)
{
    const unsigned char *bytes = (const unsigned char *)area;
    size_t i;
    for (i = 0; i < len * sizeof *area; i++) {
        if (bytes[i] != PAINT) {
            return false;
        }
    }
    return true;
}

/* What a fold with the table is answered, to `matrix`. The lists are lent in memory of their lengths, so that valgrind sees a read past them. They keep
 * every byte, and so does the area where the call is refused, and behind the fold where it is not. */
static uint32_t answer(struct fold f)
{
    uint32_t *pairs = lent(table.pairs, table.pairs_len * sizeof *pairs);
    float *gains = lent(table.gains, table.gains_len * sizeof *gains);
    mixer_status s;
    size_t written;
    memset(matrix, PAINT, sizeof matrix);
    s = mixer_width_matrix_with(f.src, f.dst, f.gains, f.normalise, pairs, table.pairs_len, gains, table.gains_len, matrix, f.matrix_len);
    written = s.number == MIXER_ACCEPTED ? size_of(f.src, f.dst) : 0;
    CHECK(s.place == 0 && painted(matrix + written, AREA_ROOM - written));
    given_back(pairs, table.pairs, table.pairs_len * sizeof *pairs);
    given_back(gains, table.gains, table.gains_len * sizeof *gains);
    return s.number;
}

#endif
