/* What mixer_width_matrix_with refuses, each on both its sides and in its order. After a refusal every byte is as before (tests/tables.h). */
#include "tables.h"

/* Floats that are not from +0 to 16: the next ones outside, signs of 0 and of a NaN, and others. */
static const float outside[] = {-0.0f, NAN, -NAN, INFINITY, -INFINITY, 0x1.000002p+4f, -0x1p-149f, -1.0f, 17.0f, 0x1.fffffep+127f};

enum { OUTSIDE = sizeof outside / sizeof outside[0] };

/* Every pair with both flags is answered the same: the table's faults are found also where it does not decide. */
static void every_answer(uint32_t number)
{
    uint32_t src, dst;
    for (src = 0; src < FORMATS; src++) {
        for (dst = 0; dst < FORMATS; dst++) {
            struct fold f = asked(src, dst);
            CHECK(answer(f) == number);
            f.normalise = true;
            CHECK(answer(f) == number);
        }
    }
}

/* A covered pair and one that is not. */
static void both_answer(uint32_t number)
{
    CHECK(answer(asked(MIXER_SURROUND_51, MIXER_STEREO)) == number);
    CHECK(answer(asked(MIXER_MONO, MIXER_MONO)) == number);
}

/* ---- The call's own faults, with a table that has none. */

static void own_formats(void)
{
    static const uint32_t none[] = {FORMATS, 15, 99, UINT32_MAX};
    uint32_t format;
    size_t i;
    start();
    for (i = 0; i < 4; i++) {
        for (format = 0; format <= FORMATS; format++) {
            struct fold f = asked(MIXER_SURROUND_51, MIXER_STEREO);
            f.src = none[i];
            f.dst = format;
            CHECK(answer(f) == MIXER_NO_FORMAT);
            f.src = format;
            f.dst = none[i];
            CHECK(answer(f) == MIXER_NO_FORMAT);
        }
    }
}

/* Each of the six gains, also where the table decides. */
static void own_gains(void)
{
    static const double wrong[] = {-0.0, NAN, INFINITY, -INFINITY, 0x1.0000000000001p+4, -0x1p-1074, -1.0, 17.0};
    uint32_t src, dst;
    size_t g, i;
    start();
    for (g = 0; g < 6; g++) {
        for (i = 0; i < sizeof wrong / sizeof wrong[0]; i++) {
            for (src = 0; src < FORMATS; src++) {
                for (dst = 0; dst < FORMATS; dst++) {
                    struct fold f = asked(src, dst);
                    memcpy((char *)&f.gains + g * sizeof wrong[i], &wrong[i], sizeof wrong[i]);
                    CHECK(answer(f) == MIXER_OUT_OF_RANGE);
                }
            }
        }
    }
}

/* An area of one entry fewer than each fold has, and none. */
static void own_area(void)
{
    uint32_t src, dst;
    start();
    for (src = 0; src < FORMATS; src++) {
        for (dst = 0; dst < FORMATS; dst++) {
            struct fold f = asked(src, dst);
            f.matrix_len--;
            CHECK(answer(f) == MIXER_SHORT_AREA);
            f.matrix_len = 0;
            CHECK(answer(f) == MIXER_SHORT_AREA);
        }
    }
}

/* ---- The table's faults. */

/* Each number of the table, a source or a destination; and the odd one, where another number follows, so that it is an entry's. */
static void no_format(void)
{
    size_t i;
    for (i = 0; i < NUMBERS; i++) {
        start();
        table.pairs[i] = FORMATS;
        both_answer(MIXER_NO_FORMAT);
        table.pairs[i] = UINT32_MAX;
        both_answer(MIXER_NO_FORMAT);
    }
    start();
    table.pairs[table.pairs_len++] = 99;
    both_answer(MIXER_ACCEPTED);
    table.pairs[table.pairs_len++] = 0;
    both_answer(MIXER_NO_FORMAT);
    start();
    table.pairs[0] = FORMATS;
    every_answer(MIXER_NO_FORMAT);
}

/* One gain fewer than the entries need, also where an entry is of a pair that is not covered, and none. */
static void few_gains(void)
{
    start();
    table.gains_len = GAINS - 1;
    every_answer(MIXER_SHORT_AREA);
    table.gains_len = 0;
    both_answer(MIXER_SHORT_AREA);
    start();
    add(MIXER_MONO, MIXER_STEREO);
    table.gains_len--;
    both_answer(MIXER_SHORT_AREA);
    clear();
    add(MIXER_MONO, MIXER_MONO);
    table.gains_len = 0;
    both_answer(MIXER_SHORT_AREA);
}

/* Each gain of the table, and one of an entry of a pair that is not covered. */
static void gains_outside(void)
{
    size_t k, i;
    start();
    for (k = 0; k < GAINS; k++) {
        const float right = table.gains[k];
        for (i = 0; i < OUTSIDE; i++) {
            table.gains[k] = outside[i];
            both_answer(MIXER_OUT_OF_RANGE);
        }
        table.gains[k] = right;
    }
    every_answer(MIXER_ACCEPTED);
    for (i = 0; i < OUTSIDE; i++) {
        start();
        add(MIXER_STEREO, MIXER_STEREO);
        table.gains[table.gains_len - 1] = outside[i];
        both_answer(MIXER_OUT_OF_RANGE);
    }
    table.gains[0] = NAN;
    every_answer(MIXER_OUT_OF_RANGE);
}

/* Each covered pair left out, whatever is asked for, and where another is there twice; tables that end in an entry's source; no entry at all. */
static void no_entry(void)
{
    size_t i;
    for (i = 0; i < PAIRS; i++) {
        size_t other = 2 * ((i + 1) % PAIRS);
        clear();
        add_covered(i);
        every_answer(MIXER_NO_ENTRY);
        add(covered[other], covered[other + 1]);
        both_answer(MIXER_NO_ENTRY);
    }
    start();
    table.pairs_len = NUMBERS - 1;
    every_answer(MIXER_NO_ENTRY);
    table.pairs_len = 1;
    both_answer(MIXER_NO_ENTRY);
    table.pairs_len = 0;
    table.gains[0] = NAN;
    every_answer(MIXER_NO_ENTRY);
    clear();
    every_answer(MIXER_NO_ENTRY);
}

/* Each pair a second time, behind the others or before them; so too a pair that is not covered, which once is 21. */
static void pair_twice(void)
{
    uint32_t src, dst;
    for (src = 0; src < FORMATS; src++) {
        for (dst = 0; dst < FORMATS; dst++) {
            start();
            add(src, dst);
            both_answer(is_covered(src, dst) ? MIXER_PAIR_TWICE : MIXER_PAIR_NOT_COVERED);
            add(src, dst);
            both_answer(MIXER_PAIR_TWICE);
            clear();
            add(src, dst);
            add_covered(PAIRS);
            both_answer(is_covered(src, dst) ? MIXER_PAIR_TWICE : MIXER_PAIR_NOT_COVERED);
        }
    }
    start();
    add(MIXER_SURROUND_714, MIXER_SURROUND_514);
    every_answer(MIXER_PAIR_TWICE);
}

/* Each of the other pairs alone is in `pair_twice`; here all of them, each once. */
static void not_covered(void)
{
    uint32_t src, dst;
    size_t others = 0;
    start();
    for (src = 0; src < FORMATS; src++) {
        for (dst = 0; dst < FORMATS; dst++) {
            if (!is_covered(src, dst)) {
                add(src, dst);
                others++;
            }
        }
    }
    CHECK(others == ALL - PAIRS);
    every_answer(MIXER_PAIR_NOT_COVERED);
}

/* ---- The order */

/* The faults in the order in which they are found, and their numbers. A set of them has a bit for each. */
enum { OWN_FORMAT, OWN_GAIN, OWN_AREA, FORMAT, FEW_GAINS, GAIN, NO_ENTRY, TWICE, NOT_COVERED, FAULTS };

static const uint32_t numbers[FAULTS] = {16, 17, 2, 16, 2, 17, 19, 20, 21};

/* A table with these faults: the pair that is left out, the one that is there twice and the one that is not covered are entries of their own. */
static void start_with(unsigned faults)
{
    clear();
    if (faults >> NOT_COVERED & 1) {
        add(MIXER_STEREO, MIXER_SURROUND_51);
    }
    add_covered(faults >> NO_ENTRY & 1 ? 7 : PAIRS);
    if (faults >> TWICE & 1) {
        add(MIXER_LCR, MIXER_MONO);
    }
    if (faults >> GAIN & 1) {
        table.gains[table.gains_len - 2] = -0.0f;
    }
    if (faults >> FEW_GAINS & 1) {
        table.gains_len--;
    }
    if (faults >> FORMAT & 1) {
        table.pairs[table.pairs_len++] = MIXER_MONO;
        table.pairs[table.pairs_len++] = FORMATS;
    }
}

/* Every set of faults is answered by its first one. */
static void every_set(uint32_t src, uint32_t dst)
{
    unsigned faults, first;
    for (faults = 0; faults < 1u << FAULTS; faults++) {
        struct fold f = asked(src, dst);
        start_with(faults);
        if (faults >> OWN_FORMAT & 1) {
            f.dst = FORMATS;
        }
        if (faults >> OWN_GAIN & 1) {
            f.gains.lfe = -0.0;
        }
        if (faults >> OWN_AREA & 1) {
            f.matrix_len--;
        }
        for (first = 0; first < FAULTS && !(faults >> first & 1); first++) {
        }
        CHECK(answer(f) == (first < FAULTS ? numbers[first] : MIXER_ACCEPTED));
    }
}

/* ---- Long lists */

/* A whole table, behind it mono into mono again and again, and gains of 0 for all. */
enum { MORE = 100000, MANY_NUMBERS = NUMBERS + 2 * MORE, MANY_GAINS = GAINS + MORE };

static uint32_t many_pairs[MANY_NUMBERS];
static float many_gains[MANY_GAINS];

static void many_answer(size_t pairs_len, size_t gains_len, uint32_t number)
{
    const struct fold f = asked(MIXER_SURROUND_71, MIXER_LCR);
    REFUSED(mixer_width_matrix_with(f.src, f.dst, f.gains, true, many_pairs, pairs_len, many_gains, gains_len, matrix, f.matrix_len), number, 0);
}

/* The lists have no limit: 16, 2 and 17 are found at their end, and 20 behind a whole table. */
static void long_lists(void)
{
    memcpy(many_pairs, covered, sizeof covered);
    many_answer(NUMBERS, MANY_GAINS, MIXER_ACCEPTED);
    many_answer(MANY_NUMBERS, MANY_GAINS, MIXER_PAIR_TWICE);
    many_answer(MANY_NUMBERS, MANY_GAINS - 1, MIXER_SHORT_AREA);
    many_answer(MANY_NUMBERS, GAINS, MIXER_SHORT_AREA);
    many_gains[MANY_GAINS - 1] = -0.0f;
    many_answer(NUMBERS, MANY_GAINS, MIXER_ACCEPTED);
    many_answer(MANY_NUMBERS, MANY_GAINS, MIXER_OUT_OF_RANGE);
    many_answer(MANY_NUMBERS - 1, MANY_GAINS, MIXER_PAIR_TWICE);
    many_pairs[MANY_NUMBERS - 1] = FORMATS;
    many_answer(MANY_NUMBERS, MANY_GAINS, MIXER_NO_FORMAT);
    many_answer(MANY_NUMBERS - 1, MANY_GAINS, MIXER_PAIR_TWICE);
}

int main(void)
{
    own_formats();
    own_gains();
    own_area();
    no_format();
    few_gains();
    gains_outside();
    no_entry();
    pair_twice();
    not_covered();
    every_set(MIXER_SURROUND_51, MIXER_STEREO);
    every_set(MIXER_STEREO, MIXER_MONO);
    every_set(MIXER_MONO, MIXER_SURROUND_714);
    long_lists();
    return failures != 0;
}
