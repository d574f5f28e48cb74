/* Each number that include/mixer.h names is the library's: the refusals, the limits on both their sides, the layout, the formats and the labels.
 * The maps of steps are in tests/calls.c, which runs a step of each. */
#include <string.h>

#include "check.h"
#include "pairs.h"

#define AREA(a) (a), sizeof(a) / sizeof((a)[0])

/* Areas with room for a plan at each limit, and one more. */
static uint32_t indices[1025], node_words[65 * MIXER_NODE_WORDS], steps[513 * 3], directory[513 * 4];
static float coefficients[1025], node_floats[65 * MIXER_NODE_FLOATS], buffers[4], values[1025], samples[1];

static void tables_at_limits(void)
{
    mixer_plan p = mixer_new(MIXER_MAX_BLOCK).plan;
    ACCEPTED(mixer_new(MIXER_MAX_BLOCK).status);
    REFUSED(mixer_new(MIXER_MAX_BLOCK + 1).status, MIXER_BLOCK_LENGTH, 0);
    ACCEPTED(mixer_buffers(p, MIXER_MAX_BUFFERS, AREA(indices)).status);
    REFUSED(mixer_buffers(p, MIXER_MAX_BUFFERS + 1, AREA(indices)).status, MIXER_OVER_LIMIT, 0);
    ACCEPTED(mixer_coefficients(p, values, MIXER_MAX_COEFFICIENTS, AREA(coefficients)).status);
    REFUSED(mixer_coefficients(p, values, MIXER_MAX_COEFFICIENTS + 1, AREA(coefficients)).status, MIXER_OVER_LIMIT, 0);
    p.indices = MIXER_MAX_INDICES - 1;
    ACCEPTED(mixer_buffers(p, 1, AREA(indices)).status);
    REFUSED(mixer_buffers(p, 2, AREA(indices)).status, MIXER_OVER_LIMIT, 0);
}

static void nodes_at_limits(void)
{
    mixer_plan p = mixer_new(1).plan;
    uint32_t i;
    ACCEPTED(mixer_node(p, 0, values, MIXER_MAX_VALUES, MIXER_MAX_RAMP, 1, node_floats, MIXER_NODE_FLOATS, node_words, MIXER_NODE_WORDS).status);
    REFUSED(mixer_node(p, 0, values, MIXER_MAX_VALUES + 1, 0, 0, AREA(node_floats), AREA(node_words)).status, MIXER_TOO_MANY_VALUES, 0);
    REFUSED(mixer_node(p, 0, values, 1, MIXER_MAX_RAMP + 1, 0, AREA(node_floats), AREA(node_words)).status, MIXER_LONG_RAMP, 0);
    REFUSED(mixer_node(p, 0, values, 1, 0, 2, AREA(node_floats), AREA(node_words)).status, MIXER_BAD_NODE, 0);
    REFUSED(mixer_node(p, 0, values, 1, 0, 0, node_floats, MIXER_NODE_FLOATS - 1, AREA(node_words)).status, MIXER_SHORT_AREA, 0);
    REFUSED(mixer_node(p, 0, values, 1, 0, 0, AREA(node_floats), node_words, MIXER_NODE_WORDS - 1).status, MIXER_SHORT_AREA, 0);
    for (i = 0; i < MIXER_MAX_NODES; i++) {
        mixer_node_reply r = mixer_node(p, i, values, 1, 0, 0, AREA(node_floats), AREA(node_words));
        ACCEPTED(r.status);
        p = r.plan;
    }
    REFUSED(mixer_node(p, i, values, 1, 0, 0, AREA(node_floats), AREA(node_words)).status, MIXER_OVER_LIMIT, 0);
    REFUSED(mixer_set_param(p, i, values, 1, 0, AREA(node_floats), AREA(node_words)), MIXER_UNKNOWN_ID, 0);
    REFUSED(mixer_adopt(p, AREA(node_floats), AREA(node_words), p, NULL, 0, NULL, 0, indices, 1, 0), MIXER_SHORT_AREA, 0);
    REFUSED(mixer_adopt(p, AREA(node_floats), AREA(node_words), mixer_new(1).plan, NULL, 0, NULL, 0, indices, 1, 0), MIXER_ODD_LIST, 0);
    node_words[1] = MIXER_MAX_VALUES + 1;
    REFUSED(mixer_set_param(p, 0, values, 1, 0, AREA(node_floats), AREA(node_words)), MIXER_BAD_NODE, 0);
    node_words[1] = MIXER_MAX_VALUES;
    ACCEPTED(mixer_set_param(p, 0, values, 1, 0, AREA(node_floats), AREA(node_words)));
    node_words[MIXER_NODE_WORDS] = node_words[0];
    REFUSED(mixer_set_param(p, 0, values, 1, 0, AREA(node_floats), AREA(node_words)), MIXER_ID_TAKEN, 0);
}

/* The check of a plan of two buffers and one step. */
static mixer_status check(const uint32_t *record, size_t len)
{
    mixer_plan p = mixer_buffers(mixer_new(1).plan, 2, AREA(indices)).plan;
    p = mixer_node(p, 0, values, 1, 0, 0, AREA(node_floats), AREA(node_words)).plan;
    memcpy(steps, record, len * sizeof *record);
    p.steps = 1;
    p.words = len;
    return mixer_check_plan(p, AREA(indices), AREA(coefficients), AREA(node_floats), AREA(node_words), AREA(steps), AREA(buffers));
}

static void steps_at_limits(void)
{
    static const uint32_t clear[] = {MIXER_CLEAR, 0, 0}, shared[] = {MIXER_GAIN, 0, 0, 1, 0, 1}, wide[] = {MIXER_MATRIX, 0, 0, 5, 0, 5};
    uint32_t patch[] = {MIXER_PATCH, MIXER_INPUTS - 1, 0, 0}, output[] = {MIXER_OUTPUT, 0, 0, MIXER_SLOTS - 1}, i;
    mixer_plan p = mixer_new(1).plan;
    for (i = 0; i < MIXER_MAX_STEPS; i++) {
        mixer_plan_reply r = mixer_step(p, clear, 3, AREA(steps));
        ACCEPTED(r.status);
        p = r.plan;
    }
    REFUSED(mixer_step(p, clear, 3, AREA(steps)).status, MIXER_OVER_LIMIT, 0);
    REFUSED(mixer_step(mixer_new(1).plan, wide, 6, AREA(steps)).status, MIXER_TOO_MANY_VALUES, 0);
    REFUSED(check(shared, 6), MIXER_SHARED_BUFFER, 1);
    REFUSED(check(patch, 3), MIXER_UNREADABLE_STEP, 1);
    ACCEPTED(check(patch, 4));
    patch[1] = MIXER_INPUTS;
    REFUSED(check(patch, 4), MIXER_OUTSIDE_TABLE, 1);
    ACCEPTED(check(output, 4));
    output[3] = MIXER_SLOTS;
    REFUSED(check(output, 4), MIXER_OUTSIDE_TABLE, 1);
}

/* The last channel of a return at the largest number of four bytes, and one above it. */
static void returns_at_limits(void)
{
    mixer_insert_point i = {.returns = true, .ids = {1, 2, 3, 4, 5, 6}, .back = {.input = 1, .channel = UINT32_MAX}};
    mixer_plan p = mixer_new(1).plan;
    ACCEPTED(mixer_insert(p, i, AREA(indices), AREA(coefficients), AREA(node_floats), AREA(node_words), AREA(steps)).status);
    i.format = MIXER_STEREO;
    REFUSED(mixer_insert(p, i, AREA(indices), AREA(coefficients), AREA(node_floats), AREA(node_words), AREA(steps)).status, MIXER_BAD_RETURN, 0);
}

static mixer_status run(size_t entry_words)
{
    return mixer_process(mixer_new(1).plan, NULL, 0, NULL, 0, NULL, 0, NULL, 0, NULL, 0, NULL, 0, directory, entry_words, samples, 1, NULL, 0).status;
}

static void directories_at_limits(void)
{
    static const uint32_t output[] = {MIXER_OUTPUT, 0, 1, 3};
    mixer_plan p = mixer_buffers(mixer_new(1).plan, 2, AREA(indices)).plan;
    ACCEPTED(run(MIXER_MAX_ENTRIES * MIXER_ENTRY_WORDS));
    REFUSED(run((MIXER_MAX_ENTRIES + 1) * MIXER_ENTRY_WORDS), MIXER_BAD_DIRECTORY, 0);
    ACCEPTED(run(MIXER_ENTRY_WORDS));
    REFUSED(run(MIXER_ENTRY_WORDS + 1), MIXER_BAD_DIRECTORY, 0);
    CHECK(!mixer_directory_bad(directory, MIXER_MAX_ENTRIES * MIXER_ENTRY_WORDS, 0));
    CHECK(mixer_directory_bad(directory, (MIXER_MAX_ENTRIES + 1) * MIXER_ENTRY_WORDS, 0));
    CHECK(mixer_directory_bad(directory, MIXER_ENTRY_WORDS + 1, 0));
    p = mixer_step(p, output, 4, AREA(steps)).plan;
    REFUSED(mixer_process(p, AREA(indices), NULL, 0, NULL, 0, NULL, 0, AREA(steps), AREA(buffers), NULL, 0, NULL, 0, NULL, 0).status,
            MIXER_SHORT_OUTPUT, 0);
    REFUSED(mixer_output_sources(p, 4, AREA(indices), NULL, 0, AREA(steps), NULL, 0).status, MIXER_NO_SLOT, 0);
    ACCEPTED(mixer_output_sources(p, 3, AREA(indices), NULL, 0, AREA(steps), NULL, 0).status);
}

/* The labels of each format's channels, in their order; behind them MIXER_NO_LABEL. */
static const struct {
    uint32_t format, labels[13];
} formats[] = {
    {MIXER_MONO, {MIXER_M, MIXER_NO_LABEL}},
    {MIXER_STEREO, {MIXER_L, MIXER_R, MIXER_NO_LABEL}},
    {MIXER_LCR, {MIXER_L, MIXER_R, MIXER_C, MIXER_NO_LABEL}},
    {MIXER_SURROUND_51, {MIXER_L, MIXER_R, MIXER_C, MIXER_LFE, MIXER_LS, MIXER_RS, MIXER_NO_LABEL}},
    {MIXER_SURROUND_71, {MIXER_L, MIXER_R, MIXER_C, MIXER_LFE, MIXER_LSS, MIXER_RSS, MIXER_LRS, MIXER_RRS, MIXER_NO_LABEL}},
    {MIXER_SURROUND_514,
     {MIXER_L, MIXER_R, MIXER_C, MIXER_LFE, MIXER_LS, MIXER_RS, MIXER_LTF, MIXER_RTF, MIXER_LTR, MIXER_RTR, MIXER_NO_LABEL}},
    {MIXER_SURROUND_714,
     {MIXER_L, MIXER_R, MIXER_C, MIXER_LFE, MIXER_LSS, MIXER_RSS, MIXER_LRS, MIXER_RRS, MIXER_LTF, MIXER_RTF, MIXER_LTR, MIXER_RTR, MIXER_NO_LABEL}},
};

static void labels_of_formats(void)
{
    size_t f, c;
    for (f = 0; f < sizeof formats / sizeof formats[0]; f++) {
        uint32_t format = formats[f].format;
        for (c = 0; formats[f].labels[c] != MIXER_NO_LABEL; c++) {
            CHECK(mixer_format_label(format, c) == formats[f].labels[c]);
            CHECK(mixer_format_index(format, formats[f].labels[c]) == c && mixer_format_has(format, formats[f].labels[c]));
        }
        CHECK(mixer_format_channels(format) == c && mixer_format_label(format, c) == MIXER_NO_LABEL);
    }
    REFUSED(mixer_balance_of(MIXER_SURROUND_714 + 1, 0.0, AREA(values)), MIXER_NO_FORMAT, 0);
    REFUSED(mixer_stereo_matrix(-2.5, 0.0).status, MIXER_OUT_OF_RANGE, 0);
}

/* A table of the covered pairs with gains of 0, and then a pair more; the area has room for the one fold that is asked for. */
static mixer_status fold_with(size_t numbers, uint32_t src, uint32_t dst)
{
    const mixer_fold_gains gains = {0};
    uint32_t table[NUMBERS + 2];
    float matrix[2];
    memcpy(table, covered, sizeof covered);
    table[NUMBERS] = src;
    table[NUMBERS + 1] = dst;
    return mixer_width_matrix_with(MIXER_STEREO, MIXER_MONO, gains, false, table, numbers, AREA(values), AREA(matrix));
}

static void faults_of_tables(void)
{
    ACCEPTED(fold_with(NUMBERS, 0, 0));
    REFUSED(fold_with(NUMBERS - 2, 0, 0), MIXER_NO_ENTRY, 0);
    REFUSED(fold_with(NUMBERS + 2, MIXER_LCR, MIXER_MONO), MIXER_PAIR_TWICE, 0);
    REFUSED(fold_with(NUMBERS + 2, MIXER_MONO, MIXER_LCR), MIXER_PAIR_NOT_COVERED, 0);
    REFUSED(fold_with(NUMBERS + 2, MIXER_MONO, MIXER_SURROUND_714 + 1), MIXER_NO_FORMAT, 0);
}

int main(void)
{
    tables_at_limits();
    nodes_at_limits();
    steps_at_limits();
    returns_at_limits();
    directories_at_limits();
    labels_of_formats();
    faults_of_tables();
    return failures != 0;
}
