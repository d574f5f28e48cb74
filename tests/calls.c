/* Calls each function that include/mixer.h declares, once accepted and once refused where it can be, and looks at the reply and at the areas; but
 * mixer_insert is in tests/inserts.c and tests/insert_refusals.c, mixer_width_matrix_with in tests/tables.c and tests/tables_refusals.c.
 * A proof cannot see a field or a parameter of the header that stands in another's place. So the fields of a struct and the parameters of one type
 * in a call differ here in some call, fields are named where a record is made, and areas are lent in different lengths. */
#include <math.h>
#include <string.h>

#include "check.h"

enum { BLOCK = 2, BUFFERS = 5, INDICES = 8, COEFFICIENTS = 4, NODES = 3, STEPS = 7, WORDS = 35 };
enum { NODE_FLOATS = NODES * MIXER_NODE_FLOATS, NODE_WORDS = NODES * MIXER_NODE_WORDS, SOUND = BUFFERS * BLOCK };
enum { DIRECTORY = 3 * MIXER_ENTRY_WORDS, SAMPLES = 5, OUTPUT = 6, SOURCES = 2, SLOTS = 2, LISTS = SLOTS * MIXER_INPUTS };
enum { OLD_NODES = 2, OLD_FLOATS = OLD_NODES * MIXER_NODE_FLOATS, OLD_WORDS = OLD_NODES * MIXER_NODE_WORDS, PAIRS = 4 };

/* As much room for every area as the longest has, so that the length of another one stays within it too. */
enum { ROOM = LISTS };

static uint32_t indices[ROOM], node_words[ROOM], steps[ROOM];
static float coefficients[ROOM], node_floats[ROOM], buffers[ROOM];

/* The words of a node and its three rows, and where each stands. */
enum { ID, LEN, LEFT, SAFE, CUR = 0, TARGET = MIXER_MAX_VALUES, STEP = 2 * MIXER_MAX_VALUES };

static const uint32_t *words_of(size_t node)
{
    return node_words + node * MIXER_NODE_WORDS;
}

static const float *floats_of(size_t node)
{
    return node_floats + node * MIXER_NODE_FLOATS;
}

static bool same(mixer_plan a, mixer_plan b)
{
    return memcmp(&a, &b, sizeof a) == 0;
}

/* Five buffers, and eight index entries: the three between the two calls are the caller's own. */
static mixer_plan with_buffers(void)
{
    mixer_plan p = mixer_new(BLOCK).plan;
    mixer_span_reply s;
    REFUSED(mixer_new(1025).status, MIXER_BLOCK_LENGTH, 0);
    CHECK(mixer_new(1025).plan.block == 1025);
    CHECK(p.block == 2 && p.buffers == 0 && p.indices == 0 && p.coefficients == 0 && p.nodes == 0 && p.steps == 0 && p.words == 0);
    s = mixer_buffers(p, 3, indices, 3);
    ACCEPTED(s.status);
    CHECK(s.span.start == 0 && s.span.len == 3 && s.plan.buffers == 3 && s.plan.indices == 3);
    p = s.plan;
    indices[3] = 2;
    indices[4] = 0;
    indices[5] = 1;
    p.indices = 6;
    s = mixer_buffers(p, 2, indices, INDICES - 1);
    REFUSED(s.status, MIXER_SHORT_AREA, 0);
    CHECK(s.span.start == 0 && s.span.len == 0 && same(s.plan, p) && indices[6] == 0);
    s = mixer_buffers(p, 2, indices, INDICES);
    ACCEPTED(s.status);
    CHECK(s.span.start == 6 && s.span.len == 2 && s.plan.block == BLOCK && s.plan.buffers == BUFFERS && s.plan.indices == INDICES);
    CHECK(indices[0] == 0 && indices[1] == 1 && indices[2] == 2 && indices[3] == 2 && indices[6] == 3 && indices[7] == 4 && indices[8] == 0);
    return s.plan;
}

static void spans(mixer_plan p)
{
    const mixer_span last = {.start = 6, .len = 2};
    mixer_buffer_reply b = mixer_buffer(p, last, 1, indices, INDICES);
    CHECK(mixer_first(last, 1).start == 6 && mixer_first(last, 1).len == 1 && mixer_first(last, 9).start == 6 && mixer_first(last, 9).len == 2);
    ACCEPTED(b.status);
    CHECK(b.buffer == 4);
    b = mixer_buffer(p, last, 2, indices, INDICES + 1);
    REFUSED(b.status, MIXER_SHORT_AREA, 0);
    CHECK(b.buffer == 0);
}

static mixer_plan with_coefficients(mixer_plan p)
{
    static float one[ROOM] = {100.0f}, three[ROOM] = {0.5f, 0.25f, 200.0f};
    mixer_span_reply s = mixer_coefficients(p, one, 1, coefficients, 1);
    ACCEPTED(s.status);
    CHECK(s.span.start == 0 && s.span.len == 1 && s.plan.coefficients == 1 && coefficients[0] == 100.0f);
    p = s.plan;
    s = mixer_coefficients(p, three, 3, coefficients, COEFFICIENTS - 1);
    REFUSED(s.status, MIXER_SHORT_AREA, 0);
    CHECK(s.span.start == 0 && s.span.len == 0 && same(s.plan, p) && coefficients[1] == 0.0f);
    s = mixer_coefficients(p, three, 3, coefficients, COEFFICIENTS);
    ACCEPTED(s.status);
    CHECK(s.span.start == 1 && s.span.len == 3 && s.plan.coefficients == COEFFICIENTS);
    CHECK(coefficients[0] == 100.0f && coefficients[1] == 0.5f && coefficients[2] == 0.25f && coefficients[3] == 200.0f);
    return s.plan;
}

/* Node 0 with two values, node 1 with two, safe, node 2 with one, which fades in over 16 samples. */
static mixer_plan with_nodes(mixer_plan p)
{
    static float levels[ROOM] = {0.5f, 0.25f}, row[ROOM] = {2.0f, 8.0f}, send[ROOM] = {4.0f};
    mixer_node_reply n = mixer_node(p, 70, levels, 2, 0, 0, node_floats, MIXER_NODE_FLOATS, node_words, MIXER_NODE_WORDS);
    ACCEPTED(n.status);
    CHECK(n.node == 0 && n.plan.nodes == 1);
    n = mixer_node(n.plan, 71, row, 2, 0, 1, node_floats, 2 * MIXER_NODE_FLOATS, node_words, 2 * MIXER_NODE_WORDS);
    ACCEPTED(n.status);
    CHECK(n.node == 1 && n.plan.nodes == 2);
    p = n.plan;
    n = mixer_node(p, 71, send, 1, 16, 0, node_floats, NODE_FLOATS, node_words, NODE_WORDS);
    REFUSED(n.status, MIXER_ID_TAKEN, 0);
    CHECK(n.node == 0 && same(n.plan, p) && words_of(2)[ID] == 0);
    n = mixer_node(p, 72, send, 1, 16, 0, node_floats, NODE_FLOATS, node_words, NODE_WORDS);
    ACCEPTED(n.status);
    CHECK(n.node == 2 && n.plan.nodes == NODES);
    CHECK(words_of(0)[ID] == 70 && words_of(0)[LEN] == 2 && words_of(0)[LEFT] == 0 && words_of(0)[SAFE] == 0);
    CHECK(words_of(1)[ID] == 71 && words_of(1)[LEN] == 2 && words_of(1)[LEFT] == 0 && words_of(1)[SAFE] == 1);
    CHECK(words_of(2)[ID] == 72 && words_of(2)[LEN] == 1 && words_of(2)[LEFT] == 16 && words_of(2)[SAFE] == 0 && node_words[NODE_WORDS] == 0);
    CHECK(floats_of(0)[CUR] == 0.5f && floats_of(0)[CUR + 1] == 0.25f && floats_of(0)[TARGET] == 0.5f && floats_of(0)[TARGET + 1] == 0.25f);
    CHECK(floats_of(2)[CUR] == 0.0f && floats_of(2)[TARGET] == 4.0f && floats_of(2)[STEP] == 0.25f);
    return n.plan;
}

/* The steps, one of each map and a second Patch, each with what is behind it as words past its record; then the plan is finished. */
static mixer_plan with_steps(mixer_plan p)
{
    static uint32_t records[ROOM] = {MIXER_PATCH, 255, 3, 0, MIXER_PATCH, 9, 6, 2, MIXER_CLEAR, 5, 1, MIXER_GAIN, 0, 3, 3, 6, 2, MIXER_MATRIX,
                                     1, 6, 2, 1, 1, MIXER_SEND, 2, 0, 1, 6, 2, 1, 2, MIXER_OUTPUT, 5, 3, 1};
    static const size_t ends[STEPS] = {4, 8, 11, 17, 23, 31, WORDS};
    mixer_plan_reply r = mixer_step(p, records, 3, steps, 4);
    size_t i, at = 0;
    REFUSED(r.status, MIXER_UNREADABLE_STEP, 0);
    CHECK(same(r.plan, p));
    for (i = 0; i < STEPS; i++) {
        r = mixer_step(p, records + at, WORDS - at, steps, ends[i]);
        ACCEPTED(r.status);
        CHECK(r.plan.steps == i + 1 && r.plan.words == ends[i] && memcmp(steps, records, ends[i] * sizeof steps[0]) == 0);
        p = r.plan;
        at = ends[i];
    }
    buffers[0] = 1.0f;
    r = mixer_finish(p, buffers, SOUND - 1);
    REFUSED(r.status, MIXER_SHORT_AREA, 0);
    CHECK(same(r.plan, p) && buffers[0] == 1.0f);
    r = mixer_finish(p, buffers, SOUND);
    ACCEPTED(r.status);
    CHECK(same(r.plan, p) && buffers[0] == 0.0f);
    CHECK(p.block == BLOCK && p.buffers == BUFFERS && p.indices == INDICES && p.coefficients == COEFFICIENTS);
    CHECK(p.nodes == NODES && p.steps == STEPS && p.words == WORDS && steps[WORDS] == 0);
    return p;
}

static mixer_status check(mixer_plan p)
{
    return mixer_check_plan(p, indices, INDICES, coefficients, COEFFICIENTS, node_floats, NODE_FLOATS, node_words, NODE_WORDS, steps, WORDS,
                            buffers, SOUND);
}

static void checked(mixer_plan p)
{
    ACCEPTED(check(p));
    steps[11] = 1;
    REFUSED(check(p), MIXER_UNREADABLE_STEP, 4);
    steps[11] = MIXER_GAIN;
}

static void set(mixer_plan p)
{
    static float values[ROOM] = {3.0f, 9.0f};
    REFUSED(mixer_set_param(p, 73, values, 2, 4, node_floats, NODE_FLOATS, node_words, NODE_WORDS), MIXER_UNKNOWN_ID, 0);
    CHECK(words_of(2)[LEFT] == 16);
    ACCEPTED(mixer_set_param(p, 72, values, 2, 4, node_floats, NODE_FLOATS, node_words, NODE_WORDS));
    CHECK(words_of(2)[ID] == 72 && words_of(2)[LEN] == 1 && words_of(2)[LEFT] == 4);
    CHECK(floats_of(2)[CUR] == 0.0f && floats_of(2)[TARGET] == 3.0f && floats_of(2)[TARGET + 1] == 0.0f && floats_of(2)[STEP] == 0.75f);
    values[0] = 4.0f;
    ACCEPTED(mixer_set_param(p, 72, values, 1, 0, node_floats, NODE_FLOATS, node_words, NODE_WORDS));
    CHECK(words_of(2)[LEFT] == 0 && floats_of(2)[CUR] == 4.0f && floats_of(2)[TARGET] == 4.0f);
}

/* Node 2 takes over from node 0 of an old plan of two nodes, node 0 from its node 1. */
static void adopted(mixer_plan p)
{
    static float old_floats[ROOM];
    static uint32_t old_words[ROOM] = {[ID] = 80, [LEN] = 1, [MIXER_NODE_WORDS + ID] = 81, [MIXER_NODE_WORDS + LEN] = 2}, pairs[ROOM] = {2, 0, 0, 1};
    mixer_plan old = p;
    old.nodes = OLD_NODES;
    old_floats[0] = 3.0f;
    old_floats[MIXER_NODE_FLOATS] = 1.0f;
    old_floats[MIXER_NODE_FLOATS + 1] = 0.5f;
    REFUSED(mixer_adopt(p, node_floats, NODE_FLOATS, node_words, NODE_WORDS, old, old_floats, OLD_FLOATS, old_words, OLD_WORDS, pairs, 3, 2),
            MIXER_ODD_LIST, 0);
    CHECK(words_of(2)[LEFT] == 0 && floats_of(2)[CUR] == 4.0f);
    ACCEPTED(mixer_adopt(p, node_floats, NODE_FLOATS, node_words, NODE_WORDS, old, old_floats, OLD_FLOATS, old_words, OLD_WORDS, pairs, PAIRS, 2));
    CHECK(words_of(0)[LEFT] == 2 && floats_of(0)[CUR] == 1.0f && floats_of(0)[CUR + 1] == 0.5f);
    CHECK(floats_of(0)[TARGET] == 0.5f && floats_of(0)[STEP] == -0.25f);
    CHECK(words_of(1)[LEFT] == 0 && floats_of(1)[CUR] == 2.0f && floats_of(1)[CUR + 1] == 8.0f);
    CHECK(words_of(2)[LEFT] == 2 && floats_of(2)[CUR] == 3.0f && floats_of(2)[TARGET] == 4.0f && floats_of(2)[STEP] == 0.5f);
}

/* An entry of no samples, and one for each Patch; the last sample is the end of a part. */
static uint32_t directory[ROOM] = {0, 0, 5, 0, 9, 6, 3, 2, 255, 3, 1, 2};
static float samples[ROOM] = {64, 4, 2, 16, 32};

static mixer_count_reply run(mixer_plan p, size_t entries, size_t sounds, float *output, size_t output_len)
{
    return mixer_process(p, indices, INDICES, coefficients, COEFFICIENTS, node_floats, NODE_FLOATS, node_words, NODE_WORDS, steps, WORDS, buffers,
                         SOUND, entries > 0 ? directory : NULL, entries, sounds > 0 ? samples : NULL, sounds, output, output_len);
}

static void ran(mixer_plan p)
{
    static const float first[OUTPUT] = {36, 36, 19, 20, 5, 2.5f}, silent[OUTPUT];
    static float output[ROOM] = {7, 7, 7, 7, 7, 7, 7};
    mixer_count_reply r = run(p, DIRECTORY, SAMPLES, output, OUTPUT - 1);
    REFUSED(r.status, MIXER_SHORT_OUTPUT, 0);
    CHECK(r.count == 0 && output[0] == 7 && words_of(0)[LEFT] == 2 && buffers[0] == 0);
    REFUSED(run(p, DIRECTORY, SAMPLES - 1, output, OUTPUT).status, MIXER_BAD_DIRECTORY, 0);
    REFUSED(run(p, DIRECTORY + 1, SAMPLES, output, OUTPUT).status, MIXER_BAD_DIRECTORY, 0);
    r = run(p, DIRECTORY, SAMPLES, output, OUTPUT);
    ACCEPTED(r.status);
    CHECK(r.count == OUTPUT && memcmp(output, first, sizeof first) == 0 && output[OUTPUT] == 7);
    CHECK(buffers[0] == 4 && buffers[1] == 2 && buffers[4] == 16 && buffers[5] == 32 && memcmp(buffers + 6, first + 2, 4 * sizeof first[0]) == 0);
    CHECK(words_of(0)[LEFT] == 0 && words_of(2)[LEFT] == 0 && floats_of(0)[CUR] == 0.5f && floats_of(2)[CUR] == 4.0f);
    r = run(p, 0, 0, output, OUTPUT);
    ACCEPTED(r.status);
    CHECK(r.count == OUTPUT && memcmp(output, silent, sizeof silent) == 0 && output[OUTPUT] == 7);
}

static void looked_up(void)
{
    static float part[ROOM] = {7, 7, 7};
    mixer_count_reply r = mixer_lookup(directory, DIRECTORY, samples, SAMPLES, 255, 3, part, 1);
    REFUSED(r.status, MIXER_SHORT_AREA, 0);
    CHECK(r.count == 0 && part[0] == 7);
    r = mixer_lookup(directory, DIRECTORY, samples, SAMPLES, 255, 3, part, 2);
    ACCEPTED(r.status);
    CHECK(r.count == 2 && part[0] == 4 && part[1] == 2 && part[2] == 7);
    r = mixer_lookup(directory, DIRECTORY, samples, SAMPLES, 255, 4, NULL, 0);
    ACCEPTED(r.status);
    CHECK(r.count == 0);
    CHECK(!mixer_directory_bad(directory, DIRECTORY, SAMPLES) && mixer_directory_bad(directory, DIRECTORY, SAMPLES - 1));
    CHECK(mixer_directory_bad(directory, SAMPLES, DIRECTORY));
}

/* Entries for one channel, another's among them: the last of them decides, one of no samples too. */
static void looked_up_last(void)
{
    static uint32_t again[ROOM] = {9, 0, 0, 2, 9, 0, 2, 1, 9, 1, 3, 2, 9, 0, 4, 0};
    static float part[ROOM] = {7, 7, 7};
    mixer_count_reply r = mixer_lookup(again, 8, samples, SAMPLES, 9, 0, part, 2);
    ACCEPTED(r.status);
    CHECK(r.count == 1 && part[0] == samples[2] && part[1] == 7);
    part[0] = 7;
    r = mixer_lookup(again, 12, samples, SAMPLES, 9, 0, part, 2);
    ACCEPTED(r.status);
    CHECK(r.count == 1 && part[0] == samples[2] && part[1] == 7);
    r = mixer_lookup(again, 12, samples, SAMPLES, 9, 1, part, 2);
    ACCEPTED(r.status);
    CHECK(r.count == 2 && part[0] == samples[3] && part[1] == samples[4] && part[2] == 7);
    r = mixer_lookup(again, 16, samples, SAMPLES, 9, 0, NULL, 0);
    ACCEPTED(r.status);
    CHECK(r.count == 0);
}

static mixer_count_reply sources(mixer_plan p, uint32_t slot, uint16_t *list, size_t list_len)
{
    return mixer_output_sources(p, slot, indices, INDICES, node_words, NODE_WORDS, steps, WORDS, list, list_len);
}

static void traced(mixer_plan p)
{
    static uint16_t list[ROOM] = {7, 7, 7};
    mixer_count_reply r = sources(p, 1, list, SOURCES - 1);
    mixer_clean_reply c = mixer_clean_answer(p, indices, INDICES, node_words, NODE_WORDS, steps, WORDS);
    REFUSED(r.status, MIXER_SHORT_AREA, 0);
    CHECK(r.count == 0 && list[0] == 7);
    r = sources(p, 1, list, SOURCES);
    ACCEPTED(r.status);
    CHECK(r.count == SOURCES && list[0] == 9 && list[1] == 255 && list[2] == 7);
    REFUSED(sources(p, 2, list, SOURCES).status, MIXER_NO_SLOT, 0);
    ACCEPTED(c.status);
    CHECK(c.clean);
    steps[9] = 4;
    c = mixer_clean_answer(p, indices, INDICES, node_words, NODE_WORDS, steps, WORDS);
    ACCEPTED(c.status);
    CHECK(!c.clean);
    steps[9] = 99;
    c = mixer_clean_answer(p, indices, INDICES, node_words, NODE_WORDS, steps, WORDS);
    REFUSED(c.status, MIXER_OUTSIDE_TABLE, 3);
    CHECK(!c.clean);
    steps[9] = 5;
}

static mixer_count_reply all(mixer_plan p, uint32_t *counts, size_t counts_len, uint16_t *lists, size_t lists_len)
{
    return mixer_all_sources(p, indices, INDICES, node_words, NODE_WORDS, steps, WORDS, counts, counts_len, lists, lists_len);
}

static void all_traced(mixer_plan p)
{
    static uint32_t counts[ROOM] = {7, 7, 7};
    static uint16_t lists[ROOM + 1];
    mixer_count_reply r;
    lists[0] = lists[258] = lists[LISTS] = 7;
    r = all(p, counts, SLOTS, lists, LISTS - 1);
    REFUSED(r.status, MIXER_SHORT_AREA, 0);
    CHECK(r.count == 0 && counts[0] == 7 && counts[1] == 7 && lists[256] == 0);
    REFUSED(all(p, counts, SLOTS - 1, lists, LISTS).status, MIXER_SHORT_AREA, 0);
    r = all(p, counts, SLOTS, lists, LISTS);
    ACCEPTED(r.status);
    CHECK(r.count == SLOTS && counts[0] == 0 && counts[1] == 2 && counts[2] == 7);
    CHECK(lists[0] == 7 && lists[256] == 9 && lists[257] == 255 && lists[258] == 7 && lists[LISTS] == 7);
}

static void formats(void)
{
    CHECK(mixer_format_channels(MIXER_SURROUND_514) == 10 && mixer_format_channels(7) == 0);
    CHECK(mixer_format_label(MIXER_LCR, 2) == MIXER_C && mixer_format_label(MIXER_LCR, 3) == MIXER_NO_LABEL);
    CHECK(mixer_format_index(MIXER_LCR, MIXER_C) == 2 && mixer_format_index(MIXER_SURROUND_51, MIXER_RS) == 5);
    CHECK(mixer_format_has(MIXER_LCR, MIXER_C) && !mixer_format_has(MIXER_STEREO, MIXER_C) && mixer_format_has(MIXER_STEREO, MIXER_R));
    CHECK(!mixer_format_has(MIXER_R, MIXER_MONO) && mixer_format_has(MIXER_MONO, MIXER_M) && !mixer_format_has(MIXER_MONO, MIXER_R));
    CHECK(mixer_to_f32(1.0 + 0x1p-24) == 1.0f && mixer_to_f32(1e39) == INFINITY && isnan(mixer_to_f32(NAN)));
}

static void balanced(void)
{
    static const float at_half[] = {0.5f, 1, 1, 1, 0.5f, 1, 7};
    float area[7] = {7, 7, 7, 7, 7, 7, 7};
    mixer_gains_reply g = mixer_balance_gains(0.5);
    mixer_stereo_reply s = mixer_stereo_matrix(0.5, 0.25);
    ACCEPTED(g.status);
    CHECK(g.left == 0.5 && g.right == 1.0);
    g = mixer_balance_gains(INFINITY);
    REFUSED(g.status, MIXER_OUT_OF_RANGE, 0);
    CHECK(g.left == 0.0 && g.right == 0.0);
    ACCEPTED(s.status);
    CHECK(s.left_from_left == 0.5625 && s.left_from_right == 0.1875 && s.right_from_left == 0.25 && s.right_from_right == 0.75);
    s = mixer_stereo_matrix(2.5, 0.0);
    REFUSED(s.status, MIXER_OUT_OF_RANGE, 0);
    CHECK(s.left_from_left == 0.0 && s.left_from_right == 0.0 && s.right_from_left == 0.0 && s.right_from_right == 0.0);
    REFUSED(mixer_balance_of(MIXER_SURROUND_51, 0.5, area, 5), MIXER_SHORT_AREA, 0);
    CHECK(area[0] == 7);
    ACCEPTED(mixer_balance_of(MIXER_SURROUND_51, 0.5, area, 6));
    CHECK(memcmp(area, at_half, sizeof area) == 0);
}

static void folded(void)
{
    const mixer_fold_gains gains = {.pan_left = 0.75, .pan_right = 0.25, .mono_sum = 0.625, .centre = 0.5, .surround = 0.375, .lfe = 0.125};
    static const float to_stereo[] = {1, 0, 0.5f, 0.125f, 0.375f, 0, 0, 1, 0.5f, 0.125f, 0, 0.375f, 7};
    mixer_fold_gains over = gains;
    float area[13] = {7, 7, 7, 7, 7, 7, 7, 7, 7, 7, 7, 7, 7};
    size_t i;
    over.lfe = 17.0;
    REFUSED(mixer_width_matrix(MIXER_SURROUND_51, MIXER_STEREO, over, false, area, 12), MIXER_OUT_OF_RANGE, 0);
    REFUSED(mixer_width_matrix(MIXER_SURROUND_51, 7, gains, false, area, 12), MIXER_NO_FORMAT, 0);
    REFUSED(mixer_width_matrix(MIXER_SURROUND_51, MIXER_STEREO, gains, false, area, 11), MIXER_SHORT_AREA, 0);
    CHECK(area[0] == 7);
    ACCEPTED(mixer_width_matrix(MIXER_SURROUND_51, MIXER_STEREO, gains, false, area, 12));
    CHECK(memcmp(area, to_stereo, sizeof area) == 0);
    ACCEPTED(mixer_width_matrix(MIXER_SURROUND_51, MIXER_STEREO, gains, true, area, 12));
    for (i = 0; i < 12; i++) {
        CHECK(area[i] == to_stereo[i] / 2);
    }
    ACCEPTED(mixer_width_matrix(MIXER_MONO, MIXER_STEREO, gains, false, area, 2));
    CHECK(area[0] == 0.75f && area[1] == 0.25f);
    ACCEPTED(mixer_width_matrix(MIXER_STEREO, MIXER_MONO, gains, false, area, 2));
    CHECK(area[0] == 0.625f && area[1] == 0.625f);
}

int main(void)
{
    mixer_plan p = with_buffers();
    spans(p);
    p = with_steps(with_nodes(with_coefficients(p)));
    checked(p);
    set(p);
    adopted(p);
    ran(p);
    looked_up();
    looked_up_last();
    traced(p);
    all_traced(p);
    formats();
    balanced();
    folded();
    return failures != 0;
}
