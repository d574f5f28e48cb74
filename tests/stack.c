/* How much of its thread's stack each call uses, against what include/mixer.h says. Each call runs on a painted stack, on plans with every map and on every
 * format, and what lost its paint is counted, the call's arguments and the frame of its caller included. Writes the bytes of each call. */
#define _POSIX_C_SOURCE 200809L
#include <pthread.h>
#include <stdlib.h>
#include <string.h>

#include "check.h"
#include "pairs.h"

enum { STACK = 256 * 1024, PAINT = 0xa5, KB = 1024 };
enum { BLOCK = 1024, BUFFERS = 6, NODES = 3, SLOTS = 32, WORDS = 256 };

static unsigned char *stack;
static void (*call)(void);
static size_t used;

/* The bytes from this frame down to the lowest that has lost its paint. */
static void *on_thread(void *none)
{
    const unsigned char *low = stack;
    call();
    while (*low == PAINT) {
        low++;
    }
    used = (size_t)((const unsigned char *)__builtin_frame_address(0) - low);
    return none;
}

/* The first time a call runs, the linker may look up memcpy on its stack, which is not the call's own use: so it runs before it is measured. */
static size_t bytes_of(void (*one)(void))
{
    pthread_attr_t attributes;
    pthread_t thread;
    bool ran;
    one();
    memset(stack, PAINT, STACK);
    call = one;
    used = 0;
    pthread_attr_init(&attributes);
    ran = pthread_attr_setstack(&attributes, stack, STACK) == 0 && pthread_create(&thread, &attributes, on_thread, NULL) == 0;
    CHECK(ran && pthread_join(thread, NULL) == 0);
    pthread_attr_destroy(&attributes);
    return used;
}

static mixer_plan plan;
static uint32_t indices[BUFFERS], node_words[NODES * MIXER_NODE_WORDS], steps[WORDS], counts[SLOTS];
static float coefficients[4], node_floats[NODES * MIXER_NODE_FLOATS], buffers[BUFFERS * BLOCK], samples[BLOCK], output[SLOTS * 2 * BLOCK];
static const float values[MIXER_MAX_VALUES] = {0.5f, 0.25f, 2, 4};
static const uint32_t directory[] = {3, 0, 0, BLOCK};
static uint16_t lists[SLOTS * MIXER_INPUTS];

#define AREA(a) (a), sizeof(a) / sizeof((a)[0])

static void step(const uint32_t *record, size_t len)
{
    mixer_plan_reply r = mixer_step(plan, record, len, AREA(steps));
    ACCEPTED(r.status);
    plan = r.plan;
}

/* Every map, and an Output for each slot; a node has 24 values. Neither the index list nor the ids ascend, so that the check looks at every pair of
 * buffers and of ids. */
static void build(void)
{
    static const uint32_t patch[] = {MIXER_PATCH, 3, 0, 0}, clear[] = {MIXER_CLEAR, 1, 1}, gain[] = {MIXER_GAIN, 0, 0, 2, 2, 2};
    static const uint32_t matrix[] = {MIXER_MATRIX, 1, 2, 2, 4, 2}, send[] = {MIXER_SEND, 2, 0, 2, 4, 2, 0, 4};
    uint32_t output_of[] = {MIXER_OUTPUT, 4, 2, 0}, i;
    plan = mixer_buffers(mixer_new(BLOCK).plan, BUFFERS, AREA(indices)).plan;
    plan = mixer_coefficients(plan, values, 4, AREA(coefficients)).plan;
    for (i = 0; i < BUFFERS; i++) {
        indices[i] = BUFFERS - 1 - i;
    }
    for (i = 0; i < NODES; i++) {
        plan = mixer_node(plan, NODES - i, AREA(values), 0, 0, AREA(node_floats), AREA(node_words)).plan;
    }
    step(patch, 4);
    step(clear, 3);
    step(gain, 6);
    step(matrix, 6);
    step(send, 8);
    for (i = 0; i < SLOTS; i++) {
        output_of[3] = i;
        step(output_of, 4);
    }
    ACCEPTED(mixer_finish(plan, AREA(buffers)).status);
}

/* The jobs: a call, or a call in each of its turns. What they answer is looked at elsewhere; here that they were not refused. */

static void job_new(void) { ACCEPTED(mixer_new(BLOCK).status); }
static void job_finish(void) { ACCEPTED(mixer_finish(plan, AREA(buffers)).status); }
static void job_balance_gains(void) { ACCEPTED(mixer_balance_gains(0.3).status); }
static void job_stereo_matrix(void) { ACCEPTED(mixer_stereo_matrix(0.3, 0.3).status); }
static void job_to_f32(void) { CHECK(mixer_to_f32(0.3) == 0.3f); }
static void job_directory_bad(void) { CHECK(!mixer_directory_bad(AREA(directory), BLOCK)); }
static void job_lookup(void) { ACCEPTED(mixer_lookup(AREA(directory), AREA(samples), 3, 0, AREA(output)).status); }
static void job_coefficients(void) { ACCEPTED(mixer_coefficients(mixer_new(BLOCK).plan, values, 4, AREA(coefficients)).status); }
static void job_clean_answer(void) { ACCEPTED(mixer_clean_answer(plan, AREA(indices), AREA(node_words), AREA(steps)).status); }

/* To an area of its own, so that the index list stays as it is. */
static void job_buffers(void)
{
    static uint32_t own[BUFFERS];
    ACCEPTED(mixer_buffers(mixer_new(BLOCK).plan, BUFFERS, AREA(own)).status);
}

static void job_spans(void)
{
    const mixer_span span = {.start = 1, .len = 2};
    CHECK(mixer_first(span, 1).len == 1);
    ACCEPTED(mixer_buffer(plan, span, 1, AREA(indices)).status);
}

/* With a ramp, safe, and behind other nodes; the areas are the call's own, so that the plan stays as it is. */
static void job_node(void)
{
    static float floats[NODES * MIXER_NODE_FLOATS];
    static uint32_t words[NODES * MIXER_NODE_WORDS];
    mixer_plan p = mixer_new(BLOCK).plan;
    uint32_t i;
    for (i = 0; i < NODES; i++) {
        mixer_node_reply r = mixer_node(p, i, AREA(values), 5 * i, i > 0, AREA(floats), AREA(words));
        ACCEPTED(r.status);
        p = r.plan;
    }
}

static void job_step(void)
{
    static const uint32_t send[] = {MIXER_SEND, 2, 0, 2, 4, 2, 0, 4};
    uint32_t area[8];
    ACCEPTED(mixer_step(mixer_new(BLOCK).plan, AREA(send), AREA(area)).status);
}

/* In every format, with a return and without; behind the plan's own nodes, whose ids are looked at, and to areas of the call's own. */
static void job_insert(void)
{
    static uint32_t own_indices[MIXER_MAX_INDICES], own_words[MIXER_MAX_NODES * MIXER_NODE_WORDS], own_steps[2 * WORDS];
    static float own_coefficients[MIXER_MAX_COEFFICIENTS], own_floats[MIXER_MAX_NODES * MIXER_NODE_FLOATS];
    mixer_insert_point i = {.src = {.start = 1, .len = 2}, .ramp = 5, .ids = {14, 15, 16, 17, 18, 19}, .back = {.input = 1, .channel = 1}};
    memcpy(own_words, node_words, sizeof node_words);
    for (i.format = 0; i.format <= MIXER_SURROUND_714; i.format++) {
        i.returns = false;
        ACCEPTED(mixer_insert(plan, i, AREA(own_indices), AREA(own_coefficients), AREA(own_floats), AREA(own_words), AREA(own_steps)).status);
        i.returns = true;
        ACCEPTED(mixer_insert(plan, i, AREA(own_indices), AREA(own_coefficients), AREA(own_floats), AREA(own_words), AREA(own_steps)).status);
    }
}

static void job_check_plan(void)
{
    ACCEPTED(mixer_check_plan(plan, AREA(indices), AREA(coefficients), AREA(node_floats), AREA(node_words), AREA(steps), AREA(buffers)));
}

static void set_all(uint32_t ramp)
{
    uint32_t i;
    for (i = 0; i < NODES; i++) {
        ACCEPTED(mixer_set_param(plan, NODES - i, AREA(values), ramp, AREA(node_floats), AREA(node_words)));
    }
}

static void job_set_param(void)
{
    set_all(0);
    set_all(5);
    set_all(MIXER_MAX_RAMP);
}

static void job_adopt(void)
{
    static float old_floats[NODES * MIXER_NODE_FLOATS];
    static uint32_t old_words[NODES * MIXER_NODE_WORDS], pairs[] = {0, 1, 1, 2, 2, 0}, i;
    memcpy(old_floats, node_floats, sizeof old_floats);
    memcpy(old_words, node_words, sizeof old_words);
    for (i = 0; i < 2; i++) {
        ACCEPTED(mixer_adopt(plan, AREA(node_floats), AREA(node_words), plan, AREA(old_floats), AREA(old_words), AREA(pairs), 5 * i));
    }
}

/* Nodes at rest, with a ramp that ends in the block, and with one that does not; setting them uses less than the run. */
static void job_process(void)
{
    static const uint32_t ramps[] = {0, 5, BLOCK, MIXER_MAX_RAMP};
    size_t i;
    for (i = 0; i < 4; i++) {
        set_all(ramps[i]);
        ACCEPTED(mixer_process(plan, AREA(indices), AREA(coefficients), AREA(node_floats), AREA(node_words), AREA(steps), AREA(buffers),
                               AREA(directory), AREA(samples), AREA(output))
                     .status);
    }
}

static void job_output_sources(void)
{
    uint32_t slot;
    for (slot = 0; slot < SLOTS; slot++) {
        ACCEPTED(mixer_output_sources(plan, slot, AREA(indices), AREA(node_words), AREA(steps), AREA(lists)).status);
    }
}

static void job_all_sources(void)
{
    ACCEPTED(mixer_all_sources(plan, AREA(indices), AREA(node_words), AREA(steps), AREA(counts), AREA(lists)).status);
}

static void job_formats(void)
{
    uint32_t format, label;
    for (format = 0; format <= MIXER_SURROUND_714; format++) {
        for (label = 0; label < MIXER_NO_LABEL; label++) {
            size_t channel = mixer_format_index(format, label);
            CHECK(mixer_format_has(format, label) == (channel < mixer_format_channels(format)));
            CHECK(mixer_format_label(format, channel) == (mixer_format_has(format, label) ? label : MIXER_NO_LABEL));
        }
    }
}

static void job_balance_of(void)
{
    uint32_t format;
    for (format = 0; format <= MIXER_SURROUND_714; format++) {
        ACCEPTED(mixer_balance_of(format, 0.3, AREA(output)));
    }
}

/* Every two formats, with every gain above 0, so that each label goes all its ways. */
static void job_width_matrix(void)
{
    const mixer_fold_gains gains = {0.5, 0.5, 0.5, 0.5, 0.5, 0.5};
    uint32_t src, dst;
    for (src = 0; src <= MIXER_SURROUND_714; src++) {
        for (dst = 0; dst <= MIXER_SURROUND_714; dst++) {
            ACCEPTED(mixer_width_matrix(src, dst, gains, false, AREA(output)));
            ACCEPTED(mixer_width_matrix(src, dst, gains, true, AREA(output)));
        }
    }
}

/* Every two formats with a table, so that covered pairs and others are asked for. */
static void job_width_matrix_with(void)
{
    static const float table_gains[GAINS];
    const mixer_fold_gains gains = {0.5, 0.5, 0.5, 0.5, 0.5, 0.5};
    uint32_t src, dst;
    for (src = 0; src <= MIXER_SURROUND_714; src++) {
        for (dst = 0; dst <= MIXER_SURROUND_714; dst++) {
            ACCEPTED(mixer_width_matrix_with(src, dst, gains, false, AREA(covered), AREA(table_gains), AREA(output)));
            ACCEPTED(mixer_width_matrix_with(src, dst, gains, true, AREA(covered), AREA(table_gains), AREA(output)));
        }
    }
}

/* No call of the mixer, but a known use, so that the measure itself is held. */
static void job_known(void)
{
    volatile unsigned char bytes[5000];
    size_t i;
    for (i = 0; i < sizeof bytes; i++) {
        bytes[i] = 1;
    }
}

static const struct {
    const char *name;
    void (*job)(void);
    size_t most;
} jobs[] = {
    {"new", job_new, 2 * KB},
    {"buffers", job_buffers, 2 * KB},
    {"first, buffer", job_spans, 2 * KB},
    {"coefficients", job_coefficients, 2 * KB},
    {"node", job_node, 2 * KB},
    {"step", job_step, 2 * KB},
    {"insert", job_insert, 4 * KB},
    {"finish", job_finish, 2 * KB},
    {"check_plan", job_check_plan, 2 * KB},
    {"set_param", job_set_param, 2 * KB},
    {"process", job_process, 2 * KB},
    {"lookup", job_lookup, 2 * KB},
    {"directory_bad", job_directory_bad, 2 * KB},
    {"adopt", job_adopt, 2 * KB},
    {"output_sources", job_output_sources, 10 * KB},
    {"all_sources", job_all_sources, 10 * KB},
    {"clean_answer", job_clean_answer, 2 * KB},
    {"format_channels, format_label, format_index, format_has", job_formats, 2 * KB},
    {"balance_gains", job_balance_gains, 2 * KB},
    {"balance_of", job_balance_of, 2 * KB},
    {"stereo_matrix", job_stereo_matrix, 2 * KB},
    {"width_matrix", job_width_matrix, 24 * KB},
    {"width_matrix_with", job_width_matrix_with, 24 * KB},
    {"to_f32", job_to_f32, 2 * KB},
};

int main(void)
{
    size_t i;
    void *memory = NULL;
    CHECK(posix_memalign(&memory, 4096, STACK) == 0);
    stack = memory;
    build();
    for (i = 0; i < sizeof jobs / sizeof jobs[0]; i++) {
        size_t bytes = bytes_of(jobs[i].job);
        printf("%6zu bytes of at most %5zu: %s\n", bytes, jobs[i].most, jobs[i].name);
        CHECK(bytes > 0 && bytes <= jobs[i].most);
    }
    used = bytes_of(job_known);
    CHECK(used >= 5000 && used < 5000 + KB);
    free(memory);
    return failures != 0;
}
