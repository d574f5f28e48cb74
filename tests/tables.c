/* House tables that are taken: which pairs a table covers, every fold with a table in several orders, and what in its lists does not matter. What is
 * refused is in tests/tables_refusals.c. */
#include "tables.h"

/* The pairs by the rule that the header states: a source of more than two channels, and a label of it that the destination lacks. */
static void pairs_by_labels(void)
{
    uint32_t src, dst;
    for (src = 0; src < FORMATS; src++) {
        for (dst = 0; dst < FORMATS; dst++) {
            size_t channels = mixer_format_channels(src), c, lacks = 0;
            for (c = 0; c < channels; c++) {
                lacks += !mixer_format_has(dst, mixer_format_label(src, c));
            }
            CHECK(is_covered(src, dst) == (channels > 2 && lacks > 0));
        }
    }
}

/* The fold that must come: the table's entry of a covered pair, whatever the gains and the flag, and of any other pair mixer_width_matrix's. */
static bool is_right(struct fold f)
{
    float expected[AREA_ROOM];
    const float *at = table.gains;
    size_t i;
    if (!is_covered(f.src, f.dst)) {
        ACCEPTED(mixer_width_matrix(f.src, f.dst, f.gains, f.normalise, expected, AREA_ROOM));
        return memcmp(matrix, expected, size_of(f.src, f.dst) * sizeof *matrix) == 0;
    }
    for (i = 0; table.pairs[i] != f.src || table.pairs[i + 1] != f.dst; i += 2) {
        at += size_of(table.pairs[i], table.pairs[i + 1]);
    }
    return memcmp(matrix, at, size_of(f.src, f.dst) * sizeof *matrix) == 0;
}

/* Every pair, with both flags, to an area that is just long enough and to a longer one. */
static void every_fold(void)
{
    uint32_t src, dst, turn;
    for (src = 0; src < FORMATS; src++) {
        for (dst = 0; dst < FORMATS; dst++) {
            for (turn = 0; turn < 4; turn++) {
                struct fold f = asked(src, dst);
                f.normalise = turn % 2 > 0;
                f.matrix_len += turn / 2 * 5;
                CHECK(answer(f) == MIXER_ACCEPTED && is_right(f));
            }
        }
    }
}

/* The covered pairs in their order, in reverse, from each pair on and then those before it, and every fifth, which in the end are all. */
static void orders(void)
{
    size_t from, i;
    start();
    every_fold();
    clear();
    for (i = PAIRS; i > 0; i--) {
        add(covered[2 * i - 2], covered[2 * i - 1]);
    }
    every_fold();
    for (from = 0; from <= PAIRS; from++) {
        size_t stride = from < PAIRS ? 1 : 5;
        clear();
        for (i = 0; i < PAIRS; i++) {
            size_t pair = (from + stride * i) % PAIRS;
            add(covered[2 * pair], covered[2 * pair + 1]);
        }
        CHECK(table.pairs_len == NUMBERS && table.gains_len == GAINS);
        every_fold();
    }
}

/* Gains behind what the entries need, whatever they are. */
static void gains_behind(void)
{
    static const float behind[] = {NAN, INFINITY, -1.0f, -0.0f, 17.0f, 0.5f};
    size_t i;
    for (i = 0; i < sizeof behind / sizeof behind[0]; i++) {
        start();
        table.gains[table.gains_len++] = behind[i];
        CHECK(table.gains_len == GAINS + 1);
        every_fold();
    }
    start();
    table.gains_len = GAINS_ROOM;
    every_fold();
}

/* A last odd number, whatever it is, a format or none. */
static void odd_number(void)
{
    static const uint32_t odd[] = {0, 2, 6, 7, 99, UINT32_MAX};
    size_t i;
    for (i = 0; i < sizeof odd / sizeof odd[0]; i++) {
        start();
        table.pairs[table.pairs_len++] = odd[i];
        CHECK(table.pairs_len == NUMBERS + 1);
        every_fold();
    }
}

/* Both ends of the range, and the floats next to them within it, at each place of the table. */
static void gains_at_ends(void)
{
    static const float ends[] = {0.0f, 0x1p-149f, 0x1.fffffep+3f, 16.0f};
    size_t turn, k;
    for (turn = 0; turn < 4; turn++) {
        start();
        for (k = 0; k < GAINS; k++) {
            table.gains[k] = ends[(k + turn) % 4];
        }
        every_fold();
    }
}

/* The call's own gains, each at both ends, change no entry of the table; they are heard in the other folds. */
static void own_gains(void)
{
    static const mixer_fold_gains sets[] = {{0, 0, 0, 0, 0, 0}, {16, 16, 16, 16, 16, 16}, {1, 2, 3, 4, 5, 6}};
    uint32_t src, dst;
    size_t i;
    start();
    for (i = 0; i < sizeof sets / sizeof sets[0]; i++) {
        for (src = 0; src < FORMATS; src++) {
            for (dst = 0; dst < FORMATS; dst++) {
                struct fold f = asked(src, dst);
                f.gains = sets[i];
                CHECK(answer(f) == MIXER_ACCEPTED && is_right(f));
            }
        }
    }
}

/* A table of the built-in folds, normalised or not, folds as if there were none. */
static void built_in(bool normalise)
{
    const mixer_fold_gains gains = asked(0, 0).gains;
    float expected[AREA_ROOM];
    size_t i, at = 0;
    uint32_t src, dst;
    start();
    for (i = 0; i < NUMBERS; i += 2) {
        ACCEPTED(mixer_width_matrix(covered[i], covered[i + 1], gains, normalise, table.gains + at, GAINS - at));
        at += size_of(covered[i], covered[i + 1]);
    }
    CHECK(at == GAINS);
    for (src = 0; src < FORMATS; src++) {
        for (dst = 0; dst < FORMATS; dst++) {
            CHECK(answer(asked(src, dst)) == MIXER_ACCEPTED);
            ACCEPTED(mixer_width_matrix(src, dst, gains, normalise, expected, AREA_ROOM));
            CHECK(memcmp(matrix, expected, size_of(src, dst) * sizeof *matrix) == 0);
        }
    }
}

int main(void)
{
    pairs_by_labels();
    orders();
    gains_behind();
    odd_number();
    gains_at_ends();
    own_gains();
    built_in(false);
    built_in(true);
    return failures != 0;
}
