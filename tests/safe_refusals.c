/* A safe above 1, which is 14: at the builder, and in the areas, where a setting, a run and an adoption find it and no other call does. A call that
 * is refused leaves every byte. */
#include "safe.h"

static const uint32_t safes[] = {0, 1, 2, UINT32_MAX};

/* A new node, and how much of the areas is lent. */
struct call {
    uint32_t id;
    size_t len;
    uint32_t ramp;
    size_t floats, words;
};

static uint32_t answer(struct call c, uint32_t safe)
{
    static const float values[MIXER_MAX_VALUES + 1];
    mixer_node_reply r;
    keep();
    r = mixer_node(desk.plan, c.id, values, c.len, c.ramp, safe, desk.node_floats, c.floats, desk.node_words, c.words);
    CHECK(r.status.place == 0);
    if (r.status.number == MIXER_ACCEPTED) {
        CHECK(r.node == NODES && r.plan.nodes == NODES + 1 && has_words(&desk, NODES, c.id, (uint32_t)c.len, c.ramp, safe) && kept_but(NODES));
    } else {
        CHECK(r.node == 0 && memcmp(&r.plan, &desk.plan, sizeof r.plan) == 0 && kept());
    }
    return r.status.number;
}

/* 14 where nothing else is wrong, and after each other refusal. */
static void at_builder(void)
{
    static const struct {
        struct call call;
        size_t nodes;
        uint32_t number;
    } cases[] = {
        {{NEW_ID, 2, 0, LENT_FLOATS, LENT_WORDS}, NODES, MIXER_ACCEPTED},
        {{NEW_ID, 24, MIXER_MAX_RAMP, (NODES + 1) * MIXER_NODE_FLOATS, (NODES + 1) * MIXER_NODE_WORDS}, NODES, MIXER_ACCEPTED},
        {{NEW_ID, 2, MIXER_MAX_RAMP + 1, LENT_FLOATS, LENT_WORDS}, NODES, MIXER_LONG_RAMP},
        {{NEW_ID, 2, UINT32_MAX, LENT_FLOATS, LENT_WORDS}, NODES, MIXER_LONG_RAMP},
        {{SPARE_ID, 2, 0, LENT_FLOATS, LENT_WORDS}, NODES, MIXER_ID_TAKEN},
        {{NEW_ID, 25, 0, LENT_FLOATS, LENT_WORDS}, NODES, MIXER_TOO_MANY_VALUES},
        {{NEW_ID, 2, 0, (NODES + 1) * MIXER_NODE_FLOATS - 1, LENT_WORDS}, NODES, MIXER_SHORT_AREA},
        {{NEW_ID, 2, 0, LENT_FLOATS, (NODES + 1) * MIXER_NODE_WORDS - 1}, NODES, MIXER_SHORT_AREA},
        {{NEW_ID, 2, 0, LENT_FLOATS, LENT_WORDS}, MIXER_MAX_NODES, MIXER_OVER_LIMIT},
    };
    size_t k, s;
    for (k = 0; k < sizeof cases / sizeof cases[0]; k++) {
        for (s = 0; s < 4; s++) {
            uint32_t last = safes[s] > 1 ? MIXER_BAD_NODE : MIXER_ACCEPTED;
            start(&desk, 0, 0);
            desk.plan.nodes = cases[k].nodes;
            CHECK(answer(cases[k].call, safes[s]) == (cases[k].number == MIXER_ACCEPTED ? last : cases[k].number));
        }
    }
}

static mixer_status set_strip(void)
{
    return set(&desk, STRIP_ID, 1, 1, 8);
}

static mixer_status run_block(void)
{
    return run(&desk, 2 * MIXER_ENTRY_WORDS, OUTPUT);
}

static mixer_status adopt_strip(void)
{
    return adopt((const uint32_t[]){STRIP, STRIP}, 2, 8);
}

/* In the areas of the new plan or of the old one: of each node that the plan counts, used or not; the safe of the node behind them may be any. */
static void found_by(mixer_status (*call)(void), struct desk *d)
{
    static const uint32_t behind[MIXER_NODE_WORDS] = {NEW_ID, 2, 0, 0};
    size_t n, s;
    for (n = 0; n <= BEHIND; n++) {
        for (s = 0; s < 4; s++) {
            uint32_t number = n < NODES && safes[s] > 1 ? MIXER_BAD_NODE : MIXER_ACCEPTED;
            start_both(0, 0, 0);
            memcpy(words_of(d, BEHIND), behind, sizeof behind);
            words_of(d, n)[SAFE] = safes[s];
            keep();
            REFUSED(call(), number, 0);
            CHECK(number == MIXER_ACCEPTED || kept());
            CHECK(words_of(d, n)[SAFE] == safes[s]);
        }
    }
}

static void in_areas(void)
{
    found_by(set_strip, &desk);
    found_by(run_block, &desk);
    found_by(adopt_strip, &desk);
    found_by(adopt_strip, &old);
}

/* The plan check, the trace and the clean answer take any safe. */
static void not_found(void)
{
    uint16_t list[MIXER_INPUTS], lists[(SLOT + 1) * MIXER_INPUTS];
    uint32_t counts[SLOT + 1];
    size_t n;
    start(&desk, 0, 0);
    for (n = 0; n < NODES; n++) {
        mixer_clean_reply c;
        words_of(&desk, n)[SAFE] = n == STRIP ? UINT32_MAX : 2;
        keep();
        ACCEPTED(mixer_check_plan(desk.plan, AREA(desk.indices), AREA(desk.coefficients), AREA(desk.node_floats), AREA(desk.node_words),
                                  AREA(desk.steps), AREA(desk.buffers)));
        CHECK(mixer_output_sources(desk.plan, SLOT, AREA(desk.indices), AREA(desk.node_words), AREA(desk.steps), AREA(list)).count == 1);
        CHECK(mixer_all_sources(desk.plan, AREA(desk.indices), AREA(desk.node_words), AREA(desk.steps), AREA(counts), AREA(lists)).count == SLOT + 1);
        CHECK(list[0] == INPUT && counts[SLOT] == 1 && lists[SLOT * MIXER_INPUTS] == INPUT);
        c = mixer_clean_answer(desk.plan, AREA(desk.indices), AREA(desk.node_words), AREA(desk.steps));
        ACCEPTED(c.status);
        CHECK(c.clean && kept());
    }
}

/* ---- The order: a call with every fault, which are mended in the order in which they are found. */

static uint32_t set_answer(uint32_t id, uint32_t ramp, size_t words)
{
    mixer_status s;
    keep();
    s = mixer_set_param(desk.plan, id, (const float[]){1}, 1, ramp, AREA(desk.node_floats), desk.node_words, words);
    CHECK(s.place == 0 && (s.number == MIXER_ACCEPTED || kept()));
    return s.number;
}

static void order_of_set(void)
{
    const size_t words = NODES * MIXER_NODE_WORDS;
    start(&desk, 0, 0);
    desk.plan.nodes = MIXER_MAX_NODES + 1;
    words_of(&desk, SPARE)[SAFE] = 2;
    words_of(&desk, STRIP)[ID] = ANNOUNCEMENT_ID;
    CHECK(set_answer(NEW_ID, MIXER_MAX_RAMP + 1, words - 1) == MIXER_OVER_LIMIT);
    desk.plan.nodes = NODES;
    CHECK(set_answer(NEW_ID, MIXER_MAX_RAMP + 1, words - 1) == MIXER_SHORT_AREA);
    CHECK(set_answer(NEW_ID, MIXER_MAX_RAMP + 1, words) == MIXER_BAD_NODE);
    words_of(&desk, SPARE)[SAFE] = 1;
    CHECK(set_answer(NEW_ID, MIXER_MAX_RAMP + 1, words) == MIXER_ID_TAKEN);
    words_of(&desk, STRIP)[ID] = STRIP_ID;
    CHECK(set_answer(NEW_ID, MIXER_MAX_RAMP + 1, words) == MIXER_LONG_RAMP);
    CHECK(set_answer(NEW_ID, MIXER_MAX_RAMP, words) == MIXER_UNKNOWN_ID);
    CHECK(set_answer(SPARE_ID, MIXER_MAX_RAMP, words) == MIXER_ACCEPTED);
}

static void run_answers(size_t directory_len, size_t output_len, uint32_t number, uint32_t place)
{
    keep();
    REFUSED(run(&desk, directory_len, output_len), number, place);
    CHECK(number == MIXER_ACCEPTED || kept());
}

static void order_of_run(void)
{
    start(&desk, 0, 0);
    desk.steps[0] = 1;
    words_of(&desk, SPARE)[SAFE] = 2;
    run_answers(MIXER_ENTRY_WORDS + 1, OUTPUT - 1, MIXER_UNREADABLE_STEP, 1);
    desk.steps[0] = MIXER_PATCH;
    run_answers(MIXER_ENTRY_WORDS + 1, OUTPUT - 1, MIXER_BAD_NODE, 0);
    words_of(&desk, SPARE)[SAFE] = 1;
    run_answers(MIXER_ENTRY_WORDS + 1, OUTPUT - 1, MIXER_BAD_DIRECTORY, 0);
    run_answers(MIXER_ENTRY_WORDS, OUTPUT - 1, MIXER_SHORT_OUTPUT, 0);
    run_answers(MIXER_ENTRY_WORDS, OUTPUT, MIXER_ACCEPTED, 0);
}

static uint32_t adopt_answer(size_t old_words, size_t pairs_len, uint32_t ramp)
{
    static const uint32_t pairs[] = {STRIP, STRIP, SPARE, SPARE};
    mixer_status s;
    keep();
    s = mixer_adopt(desk.plan, AREA(desk.node_floats), AREA(desk.node_words), old.plan, AREA(old.node_floats), old.node_words, old_words, pairs,
                    pairs_len, ramp);
    CHECK(s.place == 0 && (s.number == MIXER_ACCEPTED || kept()));
    return s.number;
}

static void order_of_adoption(void)
{
    const size_t words = NODES * MIXER_NODE_WORDS;
    start_both(0, 0, 0);
    old.plan.nodes = MIXER_MAX_NODES + 1;
    words_of(&desk, ANNOUNCEMENT)[SAFE] = 2;
    words_of(&old, SPARE)[SAFE] = 2;
    CHECK(adopt_answer(words - 1, 3, MIXER_MAX_RAMP + 1) == MIXER_OVER_LIMIT);
    old.plan.nodes = NODES;
    CHECK(adopt_answer(words - 1, 3, MIXER_MAX_RAMP + 1) == MIXER_SHORT_AREA);
    CHECK(adopt_answer(words, 3, MIXER_MAX_RAMP + 1) == MIXER_ODD_LIST);
    CHECK(adopt_answer(words, 4, MIXER_MAX_RAMP + 1) == MIXER_BAD_NODE);
    words_of(&desk, ANNOUNCEMENT)[SAFE] = 1;
    CHECK(adopt_answer(words, 4, MIXER_MAX_RAMP + 1) == MIXER_BAD_NODE);
    words_of(&old, SPARE)[SAFE] = 1;
    CHECK(adopt_answer(words, 4, MIXER_MAX_RAMP + 1) == MIXER_LONG_RAMP);
    CHECK(adopt_answer(words, 4, MIXER_MAX_RAMP) == MIXER_ACCEPTED);
}

int main(void)
{
    at_builder();
    in_areas();
    not_found();
    order_of_set();
    order_of_run();
    order_of_adoption();
    return failures != 0;
}
