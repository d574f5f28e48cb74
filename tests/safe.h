/* What the tests of safe nodes share: a new plan and an old one, and the calls on them. As in tests/calls.c the words of a node differ, so that one
 * that stands in another's place is seen. */
#ifndef SAFE_H
#define SAFE_H

#include <string.h>

#include "check.h"

enum { BLOCK = 2, BUFFERS = 6, NODES = 3, WORDS = 24, CHANNELS = 4, INPUT = 5, SLOT = 3, OUTPUT = CHANNELS * BLOCK, PAINT = 0xa5 };

/* The areas have room for a mono insert behind the plan. */
enum { INSERTED = 6, INSERTED_WORDS = 51, LENT = NODES + INSERTED };
enum { LENT_FLOATS = LENT * MIXER_NODE_FLOATS, LENT_WORDS = LENT * MIXER_NODE_WORDS };

/* The nodes by their numbers: no step names the spare one, and the one behind it the plan does not count. */
enum { ANNOUNCEMENT, STRIP, SPARE, BEHIND, ANNOUNCEMENT_ID = 70, STRIP_ID, SPARE_ID, NEW_ID };

/* The words of a node. */
enum { ID, LEN, LEFT, SAFE };

/* A plan, its areas, and the output of a block. */
struct desk {
    mixer_plan plan;
    uint32_t indices[BUFFERS + INSERTED];
    float coefficients[1];
    float node_floats[LENT_FLOATS];
    uint32_t node_words[LENT_WORDS];
    uint32_t steps[WORDS + INSERTED_WORDS];
    float buffers[(BUFFERS + INSERTED) * BLOCK];
    float output[OUTPUT];
};

static struct desk desk, old, desk_before, old_before;

#define AREA(a) (a), sizeof(a) / sizeof((a)[0])

static void add_node(struct desk *d, uint32_t id, const float *values, size_t n, uint32_t ramp, uint32_t safe)
{
    mixer_node_reply r = mixer_node(d->plan, id, values, n, ramp, safe, AREA(d->node_floats), AREA(d->node_words));
    ACCEPTED(r.status);
    d->plan = r.plan;
}

static void add_step(struct desk *d, const uint32_t *record, size_t len)
{
    mixer_plan_reply r = mixer_step(d->plan, record, len, AREA(d->steps));
    ACCEPTED(r.status);
    d->plan = r.plan;
}

/* Two channels of an input at the gains of the announcement, whose ramp and safe are given, and at those of the strip, to an output. The plan is ready
 * to run, and paint is behind it. */
static void start(struct desk *d, uint32_t ramp, uint32_t safe)
{
    memset(d, PAINT, sizeof *d);
    d->plan = mixer_buffers(mixer_new(BLOCK).plan, BUFFERS, AREA(d->indices)).plan;
    add_node(d, ANNOUNCEMENT_ID, (const float[]){0.5f, 0.25f}, 2, ramp, safe);
    add_node(d, STRIP_ID, (const float[]){2, 8}, 2, 0, 0);
    add_node(d, SPARE_ID, (const float[]){4}, 1, 16, 0);
    add_step(d, (const uint32_t[]){MIXER_PATCH, INPUT, 0, 0}, 4);
    add_step(d, (const uint32_t[]){MIXER_PATCH, INPUT, 1, 1}, 4);
    add_step(d, (const uint32_t[]){MIXER_GAIN, ANNOUNCEMENT, 0, 2, 2, 2}, 6);
    add_step(d, (const uint32_t[]){MIXER_GAIN, STRIP, 0, 2, 4, 2}, 6);
    add_step(d, (const uint32_t[]){MIXER_OUTPUT, 2, CHANNELS, SLOT}, 4);
    ACCEPTED(mixer_finish(d->plan, AREA(d->buffers)).status);
    CHECK(d->plan.nodes == NODES && d->plan.words == WORDS);
}

static mixer_status set(struct desk *d, uint32_t id, float first, float second, uint32_t ramp)
{
    return mixer_set_param(d->plan, id, (const float[]){first, second}, 2, ramp, AREA(d->node_floats), AREA(d->node_words));
}

/* A block, of the first entries of a directory that has 1 on the first channel and 16 on the second. */
static mixer_status run(struct desk *d, size_t directory_len, size_t output_len)
{
    static const uint32_t directory[] = {INPUT, 0, 0, BLOCK, INPUT, 1, BLOCK, BLOCK};
    static const float samples[] = {1, 1, 16, 16};
    return mixer_process(d->plan, AREA(d->indices), AREA(d->coefficients), AREA(d->node_floats), AREA(d->node_words), AREA(d->steps),
                         AREA(d->buffers), directory, directory_len, AREA(samples), d->output, output_len)
        .status;
}

static mixer_status adopt(const uint32_t *pairs, size_t pairs_len, uint32_t ramp)
{
    return mixer_adopt(desk.plan, AREA(desk.node_floats), AREA(desk.node_words), old.plan, AREA(old.node_floats), AREA(old.node_words), pairs,
                       pairs_len, ramp);
}

/* The new plan and the old one, of the same layout with other gains. */
static void start_both(uint32_t ramp, uint32_t safe, uint32_t old_safe)
{
    start(&desk, ramp, safe);
    start(&old, 0, old_safe);
    ACCEPTED(set(&old, ANNOUNCEMENT_ID, 4, 16, 0));
    ACCEPTED(set(&old, STRIP_ID, 1, 0.5f, 0));
    ACCEPTED(set(&old, SPARE_ID, 32, 0, 0));
}

static void keep(void)
{
    memcpy(&desk_before, &desk, sizeof desk);
    memcpy(&old_before, &old, sizeof old);
}

/* Every byte of both plans is as it was kept. */
static bool kept(void)
{
    return memcmp(&desk, &desk_before, sizeof desk) == 0 && memcmp(&old, &old_before, sizeof old) == 0;
}

static uint32_t *words_of(struct desk *d, size_t node)
{
    return d->node_words + node * MIXER_NODE_WORDS;
}

static bool has_words(struct desk *d, size_t node, uint32_t id, uint32_t len, uint32_t left, uint32_t safe)
{
    const uint32_t words[MIXER_NODE_WORDS] = {id, len, left, safe};
    return memcmp(words_of(d, node), words, sizeof words) == 0;
}

/* Every byte but those of one node of the new plan is as it was kept. */
static bool kept_but(size_t node)
{
    const size_t at = node * MIXER_NODE_FLOATS;
    memcpy(desk_before.node_floats + at, desk.node_floats + at, MIXER_NODE_FLOATS * sizeof(float));
    memcpy(words_of(&desk_before, node), words_of(&desk, node), MIXER_NODE_WORDS * sizeof(uint32_t));
    return kept();
}

#endif
