/* Safe nodes: how they start, that a setting and a run treat them as any other and keep the word, and that an adoption leaves them alone. What is
 * refused is in tests/safe_refusals.c. */
#include "safe.h"

static struct desk other;

/* Value i of a node, in its three rows. */
static bool has_value(const struct desk *d, size_t node, size_t i, float cur, float target, float step)
{
    const float *floats = d->node_floats + node * MIXER_NODE_FLOATS + i;
    return floats[0] == cur && floats[MIXER_MAX_VALUES] == target && floats[2 * MIXER_MAX_VALUES] == step;
}

/* With a ramp of 0 at its own values at once, with another from 0 on; the words of each node, and paint behind the last. */
static void built(void)
{
    start(&desk, 0, 1);
    CHECK(has_words(&desk, ANNOUNCEMENT, ANNOUNCEMENT_ID, 2, 0, 1) && has_words(&desk, STRIP, STRIP_ID, 2, 0, 0));
    CHECK(has_words(&desk, SPARE, SPARE_ID, 1, 16, 0) && words_of(&desk, BEHIND)[ID] == 0xa5a5a5a5);
    CHECK(has_value(&desk, ANNOUNCEMENT, 0, 0.5f, 0.5f, 0) && has_value(&desk, ANNOUNCEMENT, 1, 0.25f, 0.25f, 0));
    start(&desk, 16, 1);
    CHECK(has_words(&desk, ANNOUNCEMENT, ANNOUNCEMENT_ID, 2, 16, 1));
    CHECK(has_value(&desk, ANNOUNCEMENT, 0, 0, 0.5f, 0.5f / 16) && has_value(&desk, ANNOUNCEMENT, 1, 0, 0.25f, 0.25f / 16));
}

/* An id may be the len, the left or the safe of another node, and names its own node. */
static void ids_apart(void)
{
    memset(&desk, PAINT, sizeof desk);
    desk.plan = mixer_new(BLOCK).plan;
    add_node(&desk, 2, (const float[]){1, 1, 1}, 3, 4, 1);
    add_node(&desk, 1, (const float[]){1}, 1, 5, 0);
    add_node(&desk, 3, (const float[]){1, 1}, 2, 6, 1);
    add_node(&desk, 0, (const float[]){1}, 1, 7, 0);
    REFUSED(set(&desk, 4, 8, 8, 9), MIXER_UNKNOWN_ID, 0);
    ACCEPTED(set(&desk, 1, 8, 8, 9));
    ACCEPTED(set(&desk, 0, 8, 8, 11));
    CHECK(has_words(&desk, 0, 2, 3, 4, 1) && has_words(&desk, 1, 1, 1, 9, 0) && has_words(&desk, 2, 3, 2, 6, 1) && has_words(&desk, 3, 0, 1, 11, 0));
}

/* An insert's nodes have a safe of 0, whatever the areas had there, and it does not look at that of another node. */
static void inserted(void)
{
    const mixer_insert_point i = {.src = {.start = 0, .len = 1}, .ids = {1, 2, 3, 4, 5, 6}, .returns = true, .back = {.input = 1, .channel = 1}};
    mixer_span_reply r;
    uint32_t n;
    start(&desk, 0, 1);
    words_of(&desk, SPARE)[SAFE] = 2;
    r = mixer_insert(desk.plan, i, AREA(desk.indices), AREA(desk.coefficients), AREA(desk.node_floats), AREA(desk.node_words), AREA(desk.steps));
    ACCEPTED(r.status);
    CHECK(r.plan.nodes == LENT && words_of(&desk, ANNOUNCEMENT)[SAFE] == 1 && words_of(&desk, SPARE)[SAFE] == 2);
    for (n = 0; n < INSERTED; n++) {
        CHECK(has_words(&desk, NODES + n, n + 1, 1, 0, 0));
    }
}

/* The plan is as `other`, which had the same calls and whose announcement is not safe, but for that word. */
static bool alike(void)
{
    bool same = words_of(&desk, ANNOUNCEMENT)[SAFE] == 1 && words_of(&other, ANNOUNCEMENT)[SAFE] == 0;
    words_of(&other, ANNOUNCEMENT)[SAFE] = 1;
    same = same && memcmp(&desk, &other, sizeof desk) == 0;
    words_of(&other, ANNOUNCEMENT)[SAFE] = 0;
    return same;
}

static void both_run(uint32_t left)
{
    ACCEPTED(run(&desk, 2 * MIXER_ENTRY_WORDS, OUTPUT));
    ACCEPTED(run(&other, 2 * MIXER_ENTRY_WORDS, OUTPUT));
    CHECK(alike() && has_words(&desk, ANNOUNCEMENT, ANNOUNCEMENT_ID, 2, left, 1));
}

static void both_set(uint32_t ramp)
{
    ACCEPTED(set(&desk, ANNOUNCEMENT_ID, 3, 5, ramp));
    ACCEPTED(set(&other, ANNOUNCEMENT_ID, 3, 5, ramp));
    CHECK(alike() && has_words(&desk, ANNOUNCEMENT, ANNOUNCEMENT_ID, 2, ramp, 1));
}

/* Set and run do to a safe node what they do to another: on a ramp, at its end, and at rest. */
static void set_and_run(void)
{
    start(&desk, 3, 1);
    start(&other, 3, 0);
    CHECK(alike());
    both_run(1);
    both_run(0);
    both_run(0);
    both_set(4);
    both_run(2);
    both_set(MIXER_MAX_RAMP);
    both_run(MIXER_MAX_RAMP - BLOCK);
    both_set(0);
    CHECK(has_value(&desk, ANNOUNCEMENT, 0, 3, 3, desk.node_floats[2 * MIXER_MAX_VALUES]));
    both_run(0);
}

/* Lists in which the new node of every pair but the strip's is safe: the strip alone goes on from its old node. */
static void adopted_beside(void)
{
    static const struct {
        uint32_t pairs[6];
        size_t len;
    } lists[] = {
        {{ANNOUNCEMENT, ANNOUNCEMENT, STRIP, STRIP}, 4},
        {{STRIP, STRIP, ANNOUNCEMENT, ANNOUNCEMENT}, 4},
        {{ANNOUNCEMENT, ANNOUNCEMENT, STRIP, STRIP, ANNOUNCEMENT, STRIP}, 6},
    };
    uint32_t ramp, k;
    for (ramp = 0; ramp <= 16; ramp += 16) {
        for (k = 0; k < sizeof lists / sizeof lists[0]; k++) {
            start_both(ramp, 1, 0);
            keep();
            ACCEPTED(adopt(lists[k].pairs, lists[k].len, 8));
            CHECK(has_words(&desk, STRIP, STRIP_ID, 2, 8, 0) && has_words(&desk, ANNOUNCEMENT, ANNOUNCEMENT_ID, 2, ramp, 1));
            CHECK(has_value(&desk, STRIP, 0, 1, 2, 1.0f / 8) && has_value(&desk, STRIP, 1, 0.5f, 8, 7.5f / 8) && kept_but(STRIP));
        }
    }
}

/* A list that leaves every byte, over any ramp, whatever the ramp of the new node and the safe of the old one. The node behind those that the plan
 * counts is safe too. */
static void skips(const uint32_t *pairs, size_t len)
{
    static const uint32_t ramps[] = {0, 8, MIXER_MAX_RAMP}, behind[MIXER_NODE_WORDS] = {NEW_ID, 2, 0, 1};
    uint32_t k, own, safe;
    for (k = 0; k < sizeof ramps / sizeof ramps[0]; k++) {
        for (own = 0; own <= 16; own += 16) {
            for (safe = 0; safe < 2; safe++) {
                start_both(own, 1, safe);
                memcpy(words_of(&desk, BEHIND), behind, sizeof behind);
                keep();
                ACCEPTED(adopt(pairs, len, ramps[k]));
                CHECK(kept());
            }
        }
    }
}

/* A safe node once and twice, with an old node of another len, with none, and one that is no node of the plan. */
static void skipped(void)
{
    skips((const uint32_t[]){ANNOUNCEMENT, ANNOUNCEMENT}, 2);
    skips((const uint32_t[]){ANNOUNCEMENT, ANNOUNCEMENT, ANNOUNCEMENT, ANNOUNCEMENT}, 4);
    skips((const uint32_t[]){ANNOUNCEMENT, STRIP, ANNOUNCEMENT, ANNOUNCEMENT}, 4);
    skips((const uint32_t[]){ANNOUNCEMENT, SPARE}, 2);
    skips((const uint32_t[]){ANNOUNCEMENT, NODES, ANNOUNCEMENT, UINT32_MAX}, 4);
    skips((const uint32_t[]){BEHIND, ANNOUNCEMENT, UINT32_MAX, ANNOUNCEMENT}, 4);
}

/* The old node's safe does not count: a new node that is not safe goes on from it, and does not take that word over. */
static void old_safe(void)
{
    uint32_t safe;
    for (safe = 0; safe < 2; safe++) {
        start_both(16, 0, safe);
        keep();
        ACCEPTED(adopt((const uint32_t[]){ANNOUNCEMENT, ANNOUNCEMENT}, 2, 8));
        CHECK(has_words(&desk, ANNOUNCEMENT, ANNOUNCEMENT_ID, 2, 8, 0) && has_value(&desk, ANNOUNCEMENT, 0, 4, 0.5f, -3.5f / 8));
        CHECK(has_value(&desk, ANNOUNCEMENT, 1, 16, 0.25f, -15.75f / 8) && kept_but(ANNOUNCEMENT));
    }
}

/* After an adoption of both: the announcement, if it is safe, at its own gains, or fading in from 0; the strip always from its old ones. */
static void heard(void)
{
    static const struct {
        uint32_t ramp, safe;
        float output[OUTPUT];
    } cases[] = {
        {0, 1, {0.5f, 0.5f, 4, 4, 1.5f, 2, 68, 128}},
        {2, 1, {0.25f, 0.5f, 2, 4, 1.5f, 2, 68, 128}},
        {0, 0, {2.25f, 0.5f, 130, 4, 1.5f, 2, 68, 128}},
    };
    size_t k;
    for (k = 0; k < sizeof cases / sizeof cases[0]; k++) {
        start_both(cases[k].ramp, cases[k].safe, 0);
        ACCEPTED(adopt((const uint32_t[]){ANNOUNCEMENT, ANNOUNCEMENT, STRIP, STRIP}, 4, 2));
        ACCEPTED(run(&desk, 2 * MIXER_ENTRY_WORDS, OUTPUT));
        CHECK(memcmp(desk.output, cases[k].output, sizeof desk.output) == 0);
    }
}

int main(void)
{
    built();
    ids_apart();
    inserted();
    set_and_run();
    adopted_beside();
    skipped();
    old_safe();
    heard();
    return failures != 0;
}
