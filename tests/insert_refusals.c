/* What mixer_insert refuses, each on both its sides and in its order, and what it takes and the plan check finds. */
#include <stddef.h>

#include "inserts.h"

/* What an insert is answered on a plan. A refused one leaves the record and every byte of the areas, and its span is empty. */
static uint32_t answer_lent(const struct desk *d, mixer_insert_point i, struct lent l)
{
    mixer_span_reply r;
    memcpy(&other, d, sizeof other);
    r = insert_lent(&other, i, l);
    CHECK(r.status.place == 0);
    if (r.status.number != MIXER_ACCEPTED) {
        CHECK(r.span.start == 0 && r.span.len == 0 && memcmp(&other, d, sizeof other) == 0);
    }
    return r.status.number;
}

static uint32_t answer(const struct desk *d, mixer_insert_point i)
{
    return answer_lent(d, i, whole);
}

static void bad_formats(void)
{
    mixer_insert_point i = point(MIXER_MONO);
    start(&desk);
    i.format = FORMATS;
    CHECK(answer(&desk, i) == MIXER_NO_FORMAT);
    i.format = UINT32_MAX;
    CHECK(answer(&desk, i) == MIXER_NO_FORMAT);
    i.returns = false;
    CHECK(answer(&desk, i) == MIXER_NO_FORMAT);
}

/* The input and the first channel of a return, and a last channel that four bytes do not hold. Without a return none of them is read. */
static void bad_returns(void)
{
    static const struct {
        uint32_t format, input, channel, number;
    } cases[] = {
        {MIXER_MONO, 0, 1, MIXER_BAD_RETURN},
        {MIXER_MONO, 1, 0, MIXER_BAD_RETURN},
        {MIXER_MONO, 1, 1, MIXER_ACCEPTED},
        {MIXER_MONO, UINT32_MAX, 1, MIXER_ACCEPTED},
        {MIXER_MONO, 1, UINT32_MAX, MIXER_ACCEPTED},
        {MIXER_STEREO, 1, UINT32_MAX, MIXER_BAD_RETURN},
        {MIXER_STEREO, 1, UINT32_MAX - 1, MIXER_ACCEPTED},
        {MIXER_SURROUND_714, 1, UINT32_MAX - 10, MIXER_BAD_RETURN},
        {MIXER_SURROUND_714, 1, UINT32_MAX - 11, MIXER_ACCEPTED},
        {MIXER_SURROUND_714, 1, 0, MIXER_BAD_RETURN},
    };
    size_t k;
    start(&desk);
    for (k = 0; k < sizeof cases / sizeof cases[0]; k++) {
        mixer_insert_point i = point(cases[k].format);
        i.back.input = cases[k].input;
        i.back.channel = cases[k].channel;
        CHECK(answer(&desk, i) == cases[k].number);
        CHECK(cases[k].number != MIXER_ACCEPTED || other.steps[WORDS + 12] == cases[k].channel - 1);
        i.returns = false;
        CHECK(answer(&desk, i) == MIXER_ACCEPTED);
    }
}

/* The source span against the index list as the plan counts it before the insert, whatever the area has and the count grows to. */
static void sources_past(void)
{
    static const struct {
        uint32_t start, len, number;
    } cases[] = {
        {0, INDICES, MIXER_ACCEPTED},
        {0, INDICES + 1, MIXER_OUTSIDE_TABLE},
        {INDICES - 2, 2, MIXER_ACCEPTED},
        {INDICES - 1, 2, MIXER_OUTSIDE_TABLE},
        {INDICES, 2, MIXER_OUTSIDE_TABLE},
        {INDICES, 0, MIXER_ACCEPTED},
        {INDICES + 1, 0, MIXER_OUTSIDE_TABLE},
        {UINT32_MAX, UINT32_MAX, MIXER_OUTSIDE_TABLE},
        {1, UINT32_MAX, MIXER_OUTSIDE_TABLE},
    };
    size_t k;
    start(&desk);
    for (k = 0; k < sizeof cases / sizeof cases[0]; k++) {
        mixer_insert_point i = point(MIXER_STEREO);
        i.src.start = cases[k].start;
        i.src.len = cases[k].len;
        CHECK(answer(&desk, i) == cases[k].number);
        i.returns = false;
        CHECK(answer(&desk, i) == cases[k].number);
    }
}

/* The counts of a mono insert, each at the most that it may be before it, and one above; and the coefficients' without a return, which adds none. */
static void over_limits(void)
{
    static const struct {
        size_t count, with, without;
    } cases[] = {
        {offsetof(mixer_plan, buffers), 250, 255},
        {offsetof(mixer_plan, indices), 1018, 1023},
        {offsetof(mixer_plan, coefficients), 1023, SIZE_MAX - 1},
        {offsetof(mixer_plan, nodes), 58, 63},
        {offsetof(mixer_plan, steps), 503, 510},
    };
    size_t k, above;
    for (k = 0; k < sizeof cases / sizeof cases[0]; k++) {
        for (above = 0; above < 2; above++) {
            mixer_insert_point i = point(MIXER_MONO);
            size_t with = cases[k].with + above, without = cases[k].without + above;
            uint32_t number = above ? MIXER_OVER_LIMIT : MIXER_ACCEPTED;
            start(&desk);
            memcpy((char *)&desk.plan + cases[k].count, &with, sizeof with);
            CHECK(answer(&desk, i) == number);
            i.returns = false;
            memcpy((char *)&desk.plan + cases[k].count, &without, sizeof without);
            CHECK(answer(&desk, i) == (without == SIZE_MAX ? MIXER_ACCEPTED : number));
        }
    }
}

/* Each area one entry shorter than the insert needs, in every format. */
static void short_areas(void)
{
    uint32_t format, turn;
    size_t k;
    start(&desk);
    for (format = 0; format < FORMATS; format++) {
        for (turn = 0; turn < 2; turn++) {
            mixer_insert_point i = point(format);
            const struct lent just = needed(mixer_format_channels(format), turn > 0);
            const struct lent lents[] = {
                {just.indices - 1, whole.coefficients, whole.node_floats, whole.node_words, whole.steps},
                {whole.indices, COEFFICIENTS + mixer_format_channels(format) * mixer_format_channels(format) - 1, whole.node_floats,
                 whole.node_words, whole.steps},
                {whole.indices, whole.coefficients, just.node_floats - 1, whole.node_words, whole.steps},
                {whole.indices, whole.coefficients, whole.node_floats, just.node_words - 1, whole.steps},
                {whole.indices, whole.coefficients, whole.node_floats, whole.node_words, just.steps - 1},
            };
            i.returns = turn > 0;
            CHECK(answer_lent(&desk, i, just) == MIXER_ACCEPTED);
            for (k = 0; k < 5; k++) {
                CHECK(answer_lent(&desk, i, lents[k]) == (k == 1 && !i.returns ? MIXER_ACCEPTED : MIXER_SHORT_AREA));
            }
        }
    }
}

/* Each of the six ids that of an old node, and each two of them equal; without a return the send's alone is used. */
static void ids_taken(void)
{
    static const uint32_t apart[6] = {SEND_ID, RET_ID, DRY_ID, WET_ID, 110, 50};
    mixer_insert_point i = point(MIXER_LCR);
    uint32_t ids[6], a, b;
    start(&desk);
    for (a = 0; a < 6; a++) {
        for (b = 0; b <= a; b++) {
            memcpy(ids, apart, sizeof ids);
            ids[a] = a == b ? OLD_ID + 1 : ids[b];
            memcpy(&i.ids, ids, sizeof ids);
            i.returns = true;
            CHECK(answer(&desk, i) == MIXER_ID_TAKEN);
            i.returns = false;
            CHECK(answer(&desk, i) == (a == 0 ? MIXER_ID_TAKEN : MIXER_ACCEPTED));
        }
    }
}

static void long_ramps(void)
{
    mixer_insert_point i = point(MIXER_MONO);
    start(&desk);
    i.ramp = MIXER_MAX_RAMP;
    CHECK(answer(&desk, i) == MIXER_ACCEPTED && other.node_words[NODES * MIXER_NODE_WORDS + 2] == MIXER_MAX_RAMP);
    i.ramp = MIXER_MAX_RAMP + 1;
    CHECK(answer(&desk, i) == MIXER_LONG_RAMP);
    i.returns = false;
    CHECK(answer(&desk, i) == MIXER_LONG_RAMP);
}

/* An insert with every fault, which are mended in the order in which they are found. */
static void order(void)
{
    mixer_insert_point i = point(FORMATS);
    struct lent l = whole;
    start(&desk);
    i.back.input = 0;
    i.src.start = INDICES + 1;
    desk.plan.buffers = MIXER_MAX_BUFFERS;
    l.node_words = (NODES + 6) * MIXER_NODE_WORDS - 1;
    i.ids.wet = OLD_ID;
    i.ramp = MIXER_MAX_RAMP + 1;
    CHECK(answer_lent(&desk, i, l) == MIXER_NO_FORMAT);
    i.format = MIXER_MONO;
    CHECK(answer_lent(&desk, i, l) == MIXER_BAD_RETURN);
    i.back.input = 1;
    CHECK(answer_lent(&desk, i, l) == MIXER_OUTSIDE_TABLE);
    i.src.start = INDICES;
    CHECK(answer_lent(&desk, i, l) == MIXER_OVER_LIMIT);
    desk.plan.buffers = BUFFERS;
    CHECK(answer_lent(&desk, i, l) == MIXER_SHORT_AREA);
    l.node_words++;
    CHECK(answer_lent(&desk, i, l) == MIXER_ID_TAKEN);
    i.ids.wet = WET_ID;
    CHECK(answer_lent(&desk, i, l) == MIXER_LONG_RAMP);
    i.ramp--;
    CHECK(answer_lent(&desk, i, l) == MIXER_ACCEPTED);
}

/* What the call takes and the plan check finds. */
static void found_by_check(void)
{
    static const struct {
        bool returns;
        uint32_t slot, input, number, place;
    } cases[] = {
        {false, 31, 0, MIXER_ACCEPTED, 0},
        {false, 32, 0, MIXER_OUTSIDE_TABLE, STEPS + 2},
        {true, 31, 256, MIXER_ACCEPTED, 0},
        {true, 32, 256, MIXER_OUTSIDE_TABLE, STEPS + 2},
        {true, UINT32_MAX, 257, MIXER_OUTSIDE_TABLE, STEPS + 2},
        {true, 31, 257, MIXER_OUTSIDE_TABLE, STEPS + 3},
        {true, 31, UINT32_MAX, MIXER_OUTSIDE_TABLE, STEPS + 3},
    };
    size_t k;
    for (k = 0; k < sizeof cases / sizeof cases[0]; k++) {
        mixer_insert_point i = point(MIXER_STEREO);
        i.returns = cases[k].returns;
        i.slot = cases[k].slot;
        i.back.input = cases[k].input;
        start(&desk);
        CHECK(insert_lent(&desk, i, whole).status.number == MIXER_ACCEPTED);
        REFUSED(check(&desk), cases[k].number, cases[k].place);
    }
}

int main(void)
{
    bad_formats();
    bad_returns();
    sources_past();
    over_limits();
    short_areas();
    ids_taken();
    long_ramps();
    order();
    found_by_check();
    return failures != 0;
}
