/* A small layout over the mixer's C interface: a microphone and a stereo band into the hall (slot 0), the microphone alone to the stage (slot 1).
 * On its way to the hall the microphone has an insert: it goes to an effects box (slot 2), and what the box sends back can be heard in its place.
 * Emergency announcements go to the hall too, at a gain that no new layout takes over from an old one. In the end a sound designer's own fold from
 * 5.1 to stereo is taken from a house table. */
#include <stdio.h>
#include <stdlib.h>
#include <string.h>

#include "mixer.h"

enum { BLOCK = 4, BUFFERS = 14, NODES = 10, CHANNELS = 4, HALL = 0, STAGE = 1, EFFECTS = 2 };
enum { MICROPHONE = 12, BAND = 40, BOX = 60, ANNOUNCEMENT = 80 };

/* The ids of the nodes, in the order in which the nodes are made. */
enum { STRIP_LEVEL = 100, BAND_LEVEL, STAGE_LEVEL, ANNOUNCEMENT_LEVEL, BOX_SEND, BOX_RETURN, BOX_DRY, BOX_WET, BOX_DRYIN, BOX_WETIN };

/* A house table: its 24 entries, two formats each, and their gains. */
enum { TABLE_FORMATS = 48, TABLE_GAINS = 1021 };

struct table {
    size_t pairs_len, gains_len;
    uint32_t pairs[TABLE_FORMATS];
    float gains[TABLE_GAINS];
};

static const mixer_fold_gains fold_gains = {0.5, 0.5, 0.5, 0.5, 0.5, 0.0};

/* The record of a plan and its areas, and the entries of the directory that it is run with. */
struct desk {
    mixer_plan plan;
    size_t entries;
    uint32_t indices[16];
    float coefficients[16];
    float node_floats[NODES * MIXER_NODE_FLOATS];
    uint32_t node_words[NODES * MIXER_NODE_WORDS];
    uint32_t steps[128];
    float buffers[BUFFERS * BLOCK];
};

#define AREA(a) (a), sizeof(a) / sizeof((a)[0])

static void expect(const char *call, mixer_status s)
{
    if (s.number != MIXER_ACCEPTED) {
        printf("%s: refused %u at %u\n", call, (unsigned)s.number, (unsigned)s.place);
        exit(1);
    }
}

static mixer_span buffers(struct desk *d, size_t n)
{
    mixer_span_reply r = mixer_buffers(d->plan, n, AREA(d->indices));
    expect("buffers", r.status);
    d->plan = r.plan;
    return r.span;
}

static mixer_span weights(struct desk *d, uint32_t src, uint32_t dst)
{
    float matrix[4];
    mixer_span_reply r;
    expect("width_matrix", mixer_width_matrix(src, dst, fold_gains, false, AREA(matrix)));
    r = mixer_coefficients(d->plan, matrix, mixer_format_channels(src) * mixer_format_channels(dst), AREA(d->coefficients));
    expect("coefficients", r.status);
    d->plan = r.plan;
    return r.span;
}

static uint32_t node(struct desk *d, uint32_t id, float value, uint32_t safe)
{
    mixer_node_reply r = mixer_node(d->plan, id, &value, 1, 0, safe, AREA(d->node_floats), AREA(d->node_words));
    expect("node", r.status);
    d->plan = r.plan;
    return r.node;
}

static void step(struct desk *d, const uint32_t *record, size_t len)
{
    mixer_plan_reply r = mixer_step(d->plan, record, len, AREA(d->steps));
    expect("step", r.status);
    d->plan = r.plan;
}

static void patch(struct desk *d, uint32_t input, uint32_t channel, mixer_span dst)
{
    mixer_buffer_reply r = mixer_buffer(d->plan, dst, channel, AREA(d->indices));
    expect("buffer", r.status);
    step(d, (const uint32_t[]){MIXER_PATCH, input, channel, r.buffer}, 4);
}

static void send(struct desk *d, uint32_t node, mixer_span src, mixer_span dst, mixer_span w)
{
    step(d, (const uint32_t[]){MIXER_SEND, node, src.start, src.len, dst.start, dst.len, w.start, w.len}, 8);
}

/* The insert of a mono strip, bypassed at first; it counts inputs and channels from 1. What it hands back goes on in the strip's place. */
static mixer_span insert(struct desk *d, mixer_span strip)
{
    const mixer_insert_point box = {.format = MIXER_MONO,
                                    .src = strip,
                                    .gain = 1.0f,
                                    .slot = EFFECTS,
                                    .ids = {BOX_SEND, BOX_RETURN, BOX_DRY, BOX_WET, BOX_DRYIN, BOX_WETIN},
                                    .returns = true,
                                    .back = {.input = BOX + 1, .channel = 1, .gain = 2.0f, .bypass = true}};
    mixer_span_reply r =
        mixer_insert(d->plan, box, AREA(d->indices), AREA(d->coefficients), AREA(d->node_floats), AREA(d->node_words), AREA(d->steps));
    expect("insert", r.status);
    d->plan = r.plan;
    return r.span;
}

static void build(struct desk *d)
{
    mixer_plan_reply r = mixer_new(BLOCK);
    mixer_span microphone, band, announcement, strip, hall, stage, inserted;
    uint32_t strip_level, band_level, stage_level, announcement_level;
    expect("new", r.status);
    d->plan = r.plan;
    microphone = buffers(d, 1);
    band = buffers(d, 2);
    announcement = buffers(d, 1);
    strip = buffers(d, 1);
    hall = buffers(d, 2);
    stage = buffers(d, 1);
    strip_level = node(d, STRIP_LEVEL, 0.5f, 0);
    band_level = node(d, BAND_LEVEL, 1.0f, 0);
    stage_level = node(d, STAGE_LEVEL, 1.0f, 0);
    announcement_level = node(d, ANNOUNCEMENT_LEVEL, 1.0f, 1);
    patch(d, MICROPHONE, 0, microphone);
    patch(d, BAND, 0, band);
    patch(d, BAND, 1, band);
    patch(d, ANNOUNCEMENT, 0, announcement);
    step(d, (const uint32_t[]){MIXER_GAIN, strip_level, microphone.start, microphone.len, strip.start, strip.len}, 6);
    inserted = insert(d, strip);
    step(d, (const uint32_t[]){MIXER_CLEAR, hall.start, hall.len}, 3);
    step(d, (const uint32_t[]){MIXER_CLEAR, stage.start, stage.len}, 3);
    send(d, band_level, band, hall, weights(d, MIXER_STEREO, MIXER_STEREO));
    send(d, band_level, inserted, hall, weights(d, MIXER_MONO, MIXER_STEREO));
    send(d, announcement_level, announcement, hall, weights(d, MIXER_MONO, MIXER_STEREO));
    send(d, stage_level, strip, stage, weights(d, MIXER_MONO, MIXER_MONO));
    step(d, (const uint32_t[]){MIXER_OUTPUT, hall.start, hall.len, HALL}, 4);
    step(d, (const uint32_t[]){MIXER_OUTPUT, stage.start, stage.len, STAGE}, 4);
    r = mixer_finish(d->plan, AREA(d->buffers));
    expect("finish", r.status);
    d->plan = r.plan;
    printf("built: %zu buffers, %zu nodes, %zu steps of %zu words\n", d->plan.buffers, d->plan.nodes, d->plan.steps, d->plan.words);
}

/* One block into an output area of n samples. Of the directory the first `entries` are lent: the microphone at 1, the band at 0.25 and -0.25, the box
 * at 0.5, a stand-in for the microphone at 0.5, and last an announcement at 1. */
static mixer_count_reply run(struct desk *d, float *output, size_t n)
{
    static const uint32_t directory[] = {MICROPHONE, 0, 0, BLOCK, BAND, 0, BLOCK, BLOCK, BAND, 1, 2 * BLOCK, BLOCK,
                                         BOX, 0, 3 * BLOCK, BLOCK, MICROPHONE, 0, 4 * BLOCK, BLOCK, ANNOUNCEMENT, 0, 5 * BLOCK, BLOCK};
    static const float samples[] = {1, 1, 1, 1, 0.25f, 0.25f, 0.25f, 0.25f, -0.25f, -0.25f, -0.25f, -0.25f,
                                    0.5f, 0.5f, 0.5f, 0.5f, 0.5f, 0.5f, 0.5f, 0.5f, 1, 1, 1, 1};
    return mixer_process(d->plan, AREA(d->indices), AREA(d->coefficients), AREA(d->node_floats), AREA(d->node_words), AREA(d->steps),
                         AREA(d->buffers), directory, MIXER_ENTRY_WORDS * d->entries, AREA(samples), output, n);
}

static void line(const char *name, const float *values, size_t n)
{
    size_t k;
    printf("  %-10s", name);
    for (k = 0; k < n; k++) {
        printf(" %.5f", (double)values[k]);
    }
    printf("\n");
}

static void block(struct desk *d)
{
    static const char *const names[CHANNELS] = {"effects", "hall left", "hall right", "stage"};
    float output[CHANNELS * BLOCK];
    mixer_count_reply r = run(d, AREA(output));
    size_t c;
    expect("process", r.status);
    printf("block of %zu samples\n", r.count);
    for (c = 0; c < CHANNELS; c++) {
        line(names[c], output + c * BLOCK, BLOCK);
    }
}

static mixer_status level(struct desk *d, uint32_t id, float value, uint32_t ramp)
{
    return mixer_set_param(d->plan, id, &value, 1, ramp, AREA(d->node_floats), AREA(d->node_words));
}

static void gain(const struct desk *d, const char *name, uint32_t id)
{
    const float *floats = d->node_floats + (id - STRIP_LEVEL) * MIXER_NODE_FLOATS;
    printf("  %-12s at %.5f, target %.5f\n", name, (double)floats[0], (double)floats[MIXER_MAX_VALUES]);
}

/* An announcement, then the layout built anew: each of its nodes goes on from where the old one of its number is, but for the safe one. */
static void announce(struct desk *old)
{
    static struct desk d;
    uint32_t pairs[2 * NODES], n;
    printf("an announcement, at a gain of 0.25\n");
    old->entries = 6;
    expect("set_param", level(old, ANNOUNCEMENT_LEVEL, 0.25f, 0));
    block(old);
    printf("the layout built anew, its nodes adopted over 8 samples, but for the announcement's gain, which is safe\n");
    build(&d);
    d.entries = 6;
    for (n = 0; n < NODES; n++) {
        pairs[2 * n] = pairs[2 * n + 1] = n;
    }
    expect("adopt", mixer_adopt(d.plan, AREA(d.node_floats), AREA(d.node_words), old->plan, AREA(old->node_floats), AREA(old->node_words),
                                AREA(pairs), 8));
    gain(&d, "strip", STRIP_LEVEL);
    gain(&d, "announcement", ANNOUNCEMENT_LEVEL);
    block(&d);
}

static void refused(const char *call, mixer_status s)
{
    printf("%s: refused %u, place %u\n", call, (unsigned)s.number, (unsigned)s.place);
}

static void cue_list(const struct desk *d, uint32_t slot)
{
    uint16_t list[MIXER_INPUTS];
    mixer_count_reply r = mixer_output_sources(d->plan, slot, AREA(d->indices), AREA(d->node_words), AREA(d->steps), AREA(list));
    size_t i;
    expect("output_sources", r.status);
    printf("slot %u: inputs", (unsigned)slot);
    for (i = 0; i < r.count; i++) {
        printf(" %u", (unsigned)list[i]);
    }
    printf("\n");
}

/* Whether a house table covers the pair: src has more than two channels, and dst lacks a label of one. */
static bool covers(uint32_t src, uint32_t dst)
{
    size_t c;
    for (c = 0; c < mixer_format_channels(src); c++) {
        if (!mixer_format_has(dst, mixer_format_label(src, c))) {
            return mixer_format_channels(src) > 2;
        }
    }
    return false;
}

/* The next entry of the table: the built-in fold, but from 5.1 to stereo the designer's own. */
static void add_entry(struct table *t, uint32_t src, uint32_t dst)
{
    static const float own[] = {1, 0, 0.75f, 0.25f, 0.375f, 0.125f, 0, 1, 0.75f, 0.25f, 0.125f, 0.375f};
    float *entry = t->gains + t->gains_len;
    t->pairs[t->pairs_len++] = src;
    t->pairs[t->pairs_len++] = dst;
    expect("width_matrix", mixer_width_matrix(src, dst, fold_gains, false, entry, TABLE_GAINS - t->gains_len));
    if (src == MIXER_SURROUND_51 && dst == MIXER_STEREO) {
        memcpy(entry, own, sizeof own);
    }
    t->gains_len += mixer_format_channels(src) * mixer_format_channels(dst);
}

static mixer_status fold(const struct table *t, uint32_t src, uint32_t dst, float *matrix, size_t len)
{
    return mixer_width_matrix_with(src, dst, fold_gains, false, t->pairs, t->pairs_len, t->gains, t->gains_len, matrix, len);
}

/* A fold to stereo, a line for each of its rows. */
static void rows(const char *name, const float *matrix, size_t columns)
{
    printf("%s\n", name);
    line("left", matrix, columns);
    line("right", matrix + columns, columns);
}

static void house_table(void)
{
    static struct table t;
    float matrix[12];
    uint32_t src, dst;
    for (src = MIXER_MONO; src <= MIXER_SURROUND_714; src++) {
        for (dst = MIXER_MONO; dst <= MIXER_SURROUND_714; dst++) {
            if (covers(src, dst)) {
                add_entry(&t, src, dst);
            }
        }
    }
    printf("a house table of %zu formats and %zu gains\n", t.pairs_len, t.gains_len);
    expect("width_matrix", mixer_width_matrix(MIXER_SURROUND_51, MIXER_STEREO, fold_gains, false, AREA(matrix)));
    rows("from 5.1 to stereo without the table", matrix, 6);
    expect("width_matrix_with", fold(&t, MIXER_SURROUND_51, MIXER_STEREO, AREA(matrix)));
    rows("from 5.1 to stereo with the table", matrix, 6);
    expect("width_matrix_with", fold(&t, MIXER_MONO, MIXER_STEREO, AREA(matrix)));
    rows("from mono to stereo, which no table covers", matrix, 1);
    t.pairs_len -= 2;
    refused("a table without its last entry", fold(&t, MIXER_SURROUND_51, MIXER_STEREO, AREA(matrix)));
}

int main(void)
{
    static struct desk d;
    float output[CHANNELS * BLOCK];
    uint16_t list[MIXER_INPUTS];
    mixer_clean_reply clean;
    build(&d);
    d.entries = 4;
    block(&d);
    printf("strip to 1 over 8 samples\n");
    expect("set_param", level(&d, STRIP_LEVEL, 1.0f, 8));
    block(&d);
    block(&d);
    block(&d);
    printf("a stand-in for the microphone appended to the directory\n");
    d.entries = 5;
    block(&d);
    printf("the box heard in place of the microphone, over 4 samples\n");
    expect("set_param", level(&d, BOX_DRY, 0.0f, 4));
    expect("set_param", level(&d, BOX_WET, 1.0f, 4));
    block(&d);
    announce(&d);
    refused("a setting of an unknown node", level(&d, 7, 1.0f, 0));
    refused("an output area that is short", run(&d, output, CHANNELS * BLOCK - 1).status);
    d.steps[0] = 1;
    refused("a damaged first step", run(&d, AREA(output)).status);
    d.steps[0] = MIXER_PATCH;
    clean = mixer_clean_answer(d.plan, AREA(d.indices), AREA(d.node_words), AREA(d.steps));
    expect("clean_answer", clean.status);
    printf("clean: %s\n", clean.clean ? "yes" : "no");
    cue_list(&d, HALL);
    cue_list(&d, STAGE);
    cue_list(&d, EFFECTS);
    refused("slot 3", mixer_output_sources(d.plan, 3, AREA(d.indices), AREA(d.node_words), AREA(d.steps), AREA(list)).status);
    house_table();
    return 0;
}
