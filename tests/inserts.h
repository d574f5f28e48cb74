/* What the tests of mixer_insert share: a plan to insert into, an insert, and the calls on them. As in tests/calls.c the fields of a struct differ,
 * and areas are lent in different lengths, so that a field or a parameter of the header that stands in another's place is seen. */
#ifndef INSERTS_H
#define INSERTS_H

#include <string.h>

#include "check.h"

enum { BLOCK = 2, BUFFERS = 26, INDICES = 29, COEFFICIENTS = 5, NODES = 2, STEPS = 25, WORDS = 100, FORMATS = 7, MOST = 12, PAINT = 0xa5 };
enum { MICROPHONE = 9, OLD_ID = 70, SLOT = 3, AFTER = 6, RETURN = 6, RETURN_CHANNEL = 4, SEND_ID = 90, RET_ID = 80, DRY_ID = 100, WET_ID = 60 };

/* A plan and its areas, with room for every limit. */
struct desk {
    mixer_plan plan;
    uint32_t indices[MIXER_MAX_INDICES];
    float coefficients[MIXER_MAX_COEFFICIENTS];
    float node_floats[MIXER_MAX_NODES * MIXER_NODE_FLOATS];
    uint32_t node_words[MIXER_MAX_NODES * MIXER_NODE_WORDS];
    uint32_t steps[1024];
    float buffers[MIXER_MAX_BUFFERS * BLOCK];
};

/* How much of each area is lent. */
struct lent {
    size_t indices, coefficients, node_floats, node_words, steps;
};

static const struct lent whole = {MIXER_MAX_INDICES, MIXER_MAX_COEFFICIENTS, MIXER_MAX_NODES * MIXER_NODE_FLOATS,
                                  MIXER_MAX_NODES * MIXER_NODE_WORDS, 1024};
static struct desk desk, other;

#define AREA(a) (a), sizeof(a) / sizeof((a)[0])

static void add_node(struct desk *d, uint32_t id, float value, size_t n, uint32_t ramp)
{
    float values[MOST];
    mixer_node_reply r;
    size_t i;
    for (i = 0; i < n; i++) {
        values[i] = value;
    }
    r = mixer_node(d->plan, id, values, n, ramp, 0, AREA(d->node_floats), AREA(d->node_words));
    ACCEPTED(r.status);
    d->plan = r.plan;
}

static mixer_span add_buffers(struct desk *d, size_t n)
{
    mixer_span_reply r = mixer_buffers(d->plan, n, AREA(d->indices));
    ACCEPTED(r.status);
    d->plan = r.plan;
    return r.span;
}

static void add_step(struct desk *d, const uint32_t *record, size_t len)
{
    mixer_plan_reply r = mixer_step(d->plan, record, len, AREA(d->steps));
    ACCEPTED(r.status);
    d->plan = r.plan;
}

/* The plan before the insert, and paint behind it: channel c of an input in buffer c + 1, three index entries of the caller's own, and no count
 * that is another. */
static void start(struct desk *d)
{
    static const float weights[COEFFICIENTS] = {3, 4, 5, 6, 7};
    uint32_t c;
    memset(d, PAINT, sizeof *d);
    d->plan = mixer_new(BLOCK).plan;
    add_buffers(d, BUFFERS);
    for (c = BUFFERS; c < INDICES; c++) {
        d->indices[c] = INDICES - c;
    }
    d->plan.indices = INDICES;
    d->plan = mixer_coefficients(d->plan, AREA(weights), AREA(d->coefficients)).plan;
    add_node(d, OLD_ID, 1, 1, 0);
    add_node(d, OLD_ID + 1, 1, 1, 0);
    for (c = 0; c < STEPS; c++) {
        add_step(d, (const uint32_t[]){MIXER_PATCH, MICROPHONE, c, c + 1}, 4);
    }
    CHECK(d->plan.coefficients == COEFFICIENTS && d->plan.nodes == NODES && d->plan.steps == STEPS && d->plan.words == WORDS);
}

/* An insert with a return, on the microphone's channels from the first on. */
static mixer_insert_point point(uint32_t format)
{
    const mixer_insert_point i = {
        .format = format,
        .src = {.start = 1, .len = (uint32_t)mixer_format_channels(format)},
        .gain = 0.25f,
        .slot = SLOT,
        .ramp = 16,
        .ids = {.send = SEND_ID, .ret = RET_ID, .dry = DRY_ID, .wet = WET_ID, .dryin = 110, .wetin = 50},
        .returns = true,
        .back = {.input = RETURN + 1, .channel = RETURN_CHANNEL + 1, .gain = 2.0f, .bypass = false},
    };
    return i;
}

static mixer_span_reply insert_lent(struct desk *d, mixer_insert_point i, struct lent l)
{
    mixer_span_reply r = mixer_insert(d->plan, i, d->indices, l.indices, d->coefficients, l.coefficients, d->node_floats, l.node_floats,
                                      d->node_words, l.node_words, d->steps, l.steps);
    d->plan = r.plan;
    return r;
}

/* The shortest areas in which an insert of n channels is taken; without a return the coefficients are not looked at. */
static struct lent needed(size_t n, bool returns)
{
    const struct lent l = {INDICES + (returns ? 6 * n : n), returns ? COEFFICIENTS + n * n : 0, (NODES + (returns ? 6 : 1)) * MIXER_NODE_FLOATS,
                           (NODES + (returns ? 6 : 1)) * MIXER_NODE_WORDS, WORDS + (returns ? 4 * n + 47 : 10)};
    return l;
}

static mixer_status check(const struct desk *d)
{
    return mixer_check_plan(d->plan, AREA(d->indices), AREA(d->coefficients), AREA(d->node_floats), AREA(d->node_words), AREA(d->steps),
                            AREA(d->buffers));
}

#endif
