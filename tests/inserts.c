/* What mixer_insert builds, in each format, with a return and without, and what is heard of it. What it refuses is in tests/insert_refusals.c. */
#include <math.h>

#include "inserts.h"

/* Word by word, of a stereo insert with a return. */
static void built(void)
{
    static const uint32_t steps[] = {MIXER_GAIN, 2, 1, 2, 29, 2, MIXER_OUTPUT, 29, 2, SLOT, MIXER_PATCH, 6, 4, 28, MIXER_PATCH, 6, 5, 29,
                                     MIXER_GAIN, 3, 31, 2, 33, 2, MIXER_GAIN, 4, 1, 2, 35, 2, MIXER_GAIN, 5, 33, 2, 37, 2, MIXER_CLEAR, 39, 2,
                                     MIXER_SEND, 6, 35, 2, 39, 2, 5, 4, MIXER_SEND, 7, 37, 2, 39, 2, 5, 4};
    static const uint32_t words[] = {90, 2, 16, 0, 80, 2, 16, 0, 100, 2, 16, 0, 60, 2, 16, 0, 110, 1, 16, 0, 50, 1, 16, 0};
    static const float weights[] = {1, 0, 0, 1}, targets[] = {0.25f, 2, 0, 1, 1, 1};
    mixer_span_reply r;
    size_t i;
    start(&desk);
    r = insert_lent(&desk, point(MIXER_STEREO), whole);
    ACCEPTED(r.status);
    CHECK(r.span.start == 39 && r.span.len == 2);
    CHECK(desk.plan.words == WORDS + 55 && memcmp(desk.steps + WORDS, steps, sizeof steps) == 0);
    CHECK(desk.plan.coefficients == COEFFICIENTS + 4 && memcmp(desk.coefficients + COEFFICIENTS, weights, sizeof weights) == 0);
    CHECK(desk.plan.nodes == NODES + 6 && memcmp(desk.node_words + NODES * MIXER_NODE_WORDS, words, sizeof words) == 0);
    for (i = 0; i < 12; i++) {
        CHECK(desk.indices[INDICES + i] == BUFFERS + i);
    }
    for (i = 0; i < 6; i++) {
        const float *node = desk.node_floats + (NODES + i) * MIXER_NODE_FLOATS, last = i < 4 ? targets[i] : 0.0f;
        CHECK(node[0] == 0 && node[24] == targets[i] && node[25] == last && node[26] == 0 && node[48] == targets[i] / 16 && node[49] == last / 16);
    }
}

static mixer_span add_gain(struct desk *d, uint32_t id, float gain, mixer_span src, const mixer_insert_point *i)
{
    uint32_t node = (uint32_t)d->plan.nodes;
    mixer_span dst;
    add_node(d, id, gain, mixer_format_channels(i->format), i->ramp);
    dst = add_buffers(d, mixer_format_channels(i->format));
    add_step(d, (const uint32_t[]){MIXER_GAIN, node, src.start, src.len, dst.start, dst.len}, 6);
    return dst;
}

static void add_send(struct desk *d, uint32_t id, mixer_span src, mixer_span dst, uint32_t weights, uint32_t len, uint32_t ramp)
{
    uint32_t node = (uint32_t)d->plan.nodes;
    add_node(d, id, 1, 1, ramp);
    add_step(d, (const uint32_t[]){MIXER_SEND, node, src.start, src.len, dst.start, dst.len, weights, len}, 8);
}

/* The same insert by single calls. */
static mixer_span singly(struct desk *d, const mixer_insert_point *i)
{
    static const float zeros[MOST * MOST];
    uint32_t n = (uint32_t)mixer_format_channels(i->format), first = (uint32_t)d->plan.coefficients, c;
    mixer_span sent = add_gain(d, i->ids.send, i->gain, i->src, i), raw, ret, dry, wet, out;
    add_step(d, (const uint32_t[]){MIXER_OUTPUT, sent.start, sent.len, i->slot}, 4);
    if (!i->returns) {
        return i->src;
    }
    raw = add_buffers(d, n);
    for (c = 0; c < n; c++) {
        add_step(d, (const uint32_t[]){MIXER_PATCH, i->back.input - 1, i->back.channel - 1 + c, d->indices[raw.start + c]}, 4);
    }
    ret = add_gain(d, i->ids.ret, i->back.gain, raw, i);
    dry = add_gain(d, i->ids.dry, i->back.bypass ? 1 : 0, i->src, i);
    wet = add_gain(d, i->ids.wet, i->back.bypass ? 0 : 1, ret, i);
    out = add_buffers(d, n);
    add_step(d, (const uint32_t[]){MIXER_CLEAR, out.start, out.len}, 3);
    d->plan = mixer_coefficients(d->plan, zeros, n * n, AREA(d->coefficients)).plan;
    for (c = 0; c < n; c++) {
        d->coefficients[first + c * n + c] = 1;
    }
    add_send(d, i->ids.dryin, dry, out, first, i->src.len > n ? 0 : n * n, i->ramp);
    add_send(d, i->ids.wetin, wet, out, first, n * n, i->ramp);
    return out;
}

/* In areas that are just long enough, with every byte that it leaves, and what the check and the clean answer then say. */
static void built_as_singly(mixer_insert_point i)
{
    size_t n = mixer_format_channels(i.format);
    bool longer = i.returns && i.src.len > n;
    mixer_span_reply r;
    mixer_span span;
    start(&desk);
    start(&other);
    span = singly(&other, &i);
    r = insert_lent(&desk, i, needed(n, i.returns));
    ACCEPTED(r.status);
    CHECK(r.span.start == span.start && r.span.len == span.len && memcmp(&desk, &other, sizeof desk) == 0);
    CHECK(span.start == (i.returns ? INDICES + 5 * n : 1) && span.len == (i.returns ? n : i.src.len));
    CHECK(r.plan.buffers == BUFFERS + (i.returns ? 6 * n : n) && r.plan.indices == INDICES + (i.returns ? 6 * n : n));
    CHECK(r.plan.coefficients == COEFFICIENTS + (i.returns ? n * n : 0) && r.plan.nodes == NODES + (i.returns ? 6u : 1u));
    CHECK(r.plan.steps == STEPS + (i.returns ? n + 8 : 2) && r.plan.words == WORDS + (i.returns ? 4 * n + 47 : 10) && r.plan.block == BLOCK);
    REFUSED(check(&desk), longer ? MIXER_OUTSIDE_TABLE : MIXER_ACCEPTED, longer ? STEPS + n + 7 : 0);
    CHECK(mixer_clean_answer(desk.plan, AREA(desk.indices), AREA(desk.node_words), AREA(desk.steps)).clean == (i.src.len >= n && !longer));
}

/* Every format, without a return, with one and at bypass, on sources shorter than the format, as long, and longer. */
static void built_in_formats(void)
{
    uint32_t format, turn, k;
    for (format = 0; format < FORMATS; format++) {
        uint32_t n = (uint32_t)mixer_format_channels(format);
        const uint32_t lens[] = {0, n - 1, n, n + 1, 25};
        for (turn = 0; turn < 3; turn++) {
            for (k = 0; k < 5; k++) {
                mixer_insert_point i = point(format);
                i.src.len = lens[k];
                i.returns = turn > 0;
                i.back.bypass = turn > 1;
                built_as_singly(i);
            }
        }
    }
}

/* The directory: twelve channels of the microphone, then twelve of the return; a block of channel c has the sample c + 1, of the return 40 + c. */
static mixer_count_reply run(struct desk *d, size_t entries, float *output, size_t output_len)
{
    uint32_t directory[2 * MOST * MIXER_ENTRY_WORDS], e;
    float samples[2 * MOST * BLOCK];
    for (e = 0; e < 2 * MOST; e++) {
        const uint32_t entry[] = {e < MOST ? MICROPHONE : RETURN, e < MOST ? e : e - MOST + RETURN_CHANNEL, e * BLOCK, BLOCK};
        memcpy(directory + e * MIXER_ENTRY_WORDS, entry, sizeof entry);
        samples[e * BLOCK] = samples[e * BLOCK + 1] = (float)(e < MOST ? e + 1 : e + 40 - MOST);
    }
    return mixer_process(d->plan, AREA(d->indices), AREA(d->coefficients), AREA(d->node_floats), AREA(d->node_words), AREA(d->steps),
                         AREA(d->buffers), directory, entries * MIXER_ENTRY_WORDS, samples, entries * BLOCK, output, output_len);
}

/* An insert, and an Output of what it hands back; the plan is ready to run. */
static void set_up(mixer_insert_point i)
{
    mixer_span_reply r;
    start(&desk);
    r = insert_lent(&desk, i, whole);
    ACCEPTED(r.status);
    add_step(&desk, (const uint32_t[]){MIXER_OUTPUT, r.span.start, r.span.len, AFTER}, 4);
    ACCEPTED(mixer_finish(desk.plan, AREA(desk.buffers)).status);
}

/* The send at a quarter, and after it the dry signal, or the return at its gain of 2 as far as the directory has its channels. */
static void sounds(size_t n, bool dry, size_t returns)
{
    float output[2 * MOST * BLOCK];
    mixer_count_reply r = run(&desk, MOST + returns, AREA(output));
    size_t c, k;
    ACCEPTED(r.status);
    CHECK(r.count == 2 * n * BLOCK);
    for (c = 0; c < n; c++) {
        for (k = 0; k < BLOCK; k++) {
            CHECK(output[c * BLOCK + k] == 0.25f * (float)(c + 1));
            CHECK(output[(n + c) * BLOCK + k] == (dry ? (float)(c + 1) : c < returns ? 2 * (float)(40 + c) : 0.0f));
        }
    }
}

/* At rest: the return, as far as it is there; bypass, set by the ids of dry and wet or at the insert; and no return. */
static void heard(void)
{
    static const float ones[MOST] = {1, 1, 1, 1, 1, 1, 1, 1, 1, 1, 1, 1}, zeros[MOST];
    uint32_t format;
    for (format = 0; format < FORMATS; format++) {
        size_t n = mixer_format_channels(format);
        mixer_insert_point i = point(format);
        i.ramp = 0;
        set_up(i);
        sounds(n, false, MOST);
        sounds(n, false, n - 1);
        sounds(n, false, 0);
        ACCEPTED(mixer_set_param(desk.plan, DRY_ID, ones, n, 0, AREA(desk.node_floats), AREA(desk.node_words)));
        ACCEPTED(mixer_set_param(desk.plan, WET_ID, zeros, n, 0, AREA(desk.node_floats), AREA(desk.node_words)));
        sounds(n, true, MOST);
        i.back.bypass = true;
        set_up(i);
        sounds(n, true, MOST);
        i.returns = false;
        set_up(i);
        sounds(n, true, MOST);
    }
}

/* Each node of an insert fades in: the return's gain, wet and the Send's own of the return's path. */
static void faded(void)
{
    mixer_insert_point i = point(MIXER_MONO);
    float output[2 * BLOCK];
    i.ramp = 2;
    set_up(i);
    CHECK(run(&desk, 2 * MOST, AREA(output)).count == 2 * BLOCK);
    CHECK(output[0] == 0.125f && output[1] == 0.25f && output[2] == 40 * 1 * 0.5f * 0.5f && output[3] == 40 * 2);
    i.back.bypass = true;
    set_up(i);
    CHECK(run(&desk, 2 * MOST, AREA(output)).count == 2 * BLOCK);
    CHECK(output[0] == 0.125f && output[1] == 0.25f && output[2] == 0.5f * 0.5f && output[3] == 1);
}

/* A gain may be any float. The return is infinite here: at bypass, too, its path is in the sum, and 0 times an infinity is a NaN. */
static void not_finite(void)
{
    mixer_insert_point i = point(MIXER_MONO);
    float output[2 * BLOCK];
    i.ramp = 0;
    i.back.gain = INFINITY;
    set_up(i);
    CHECK(run(&desk, 2 * MOST, AREA(output)).count == 2 * BLOCK);
    CHECK(output[0] == 0.25f && output[2] == INFINITY);
    i.back.bypass = true;
    set_up(i);
    CHECK(run(&desk, 2 * MOST, AREA(output)).count == 2 * BLOCK);
    CHECK(output[0] == 0.25f && isnan(output[2]));
}

static void behind(uint32_t slot, const uint16_t *inputs, size_t n)
{
    uint16_t list[MIXER_INPUTS];
    mixer_count_reply r = mixer_output_sources(desk.plan, slot, AREA(desk.indices), AREA(desk.node_words), AREA(desk.steps), AREA(list));
    ACCEPTED(r.status);
    CHECK(r.count == n && memcmp(list, inputs, n * sizeof *list) == 0);
}

/* The second insert, at bypass, stands on what the first hands back; its own return is input 20, which no entry of the directory names. */
static void two_in_a_row(void)
{
    mixer_insert_point first = point(MIXER_STEREO), second = point(MIXER_STEREO);
    const mixer_insert_ids ids = {1, 2, 3, 4, 5, 6};
    const float both[] = {0.25f, 0.25f, 0.5f, 0.5f, 40, 40, 41, 41, 80, 80, 82, 82};
    float output[12];
    mixer_span_reply r;
    first.ramp = 0;
    start(&desk);
    second.src = insert_lent(&desk, first, whole).span;
    second.gain = 0.5f;
    second.slot = SLOT + 1;
    second.ramp = 0;
    second.back.input = 21;
    second.back.bypass = true;
    CHECK(insert_lent(&desk, second, whole).status.number == MIXER_ID_TAKEN);
    second.ids = ids;
    r = insert_lent(&desk, second, whole);
    ACCEPTED(r.status);
    CHECK(r.span.start == INDICES + 6 * 2 + 5 * 2 && r.span.len == 2 && r.plan.nodes == NODES + 12 && r.plan.steps == STEPS + 20);
    add_step(&desk, (const uint32_t[]){MIXER_OUTPUT, r.span.start, r.span.len, AFTER}, 4);
    ACCEPTED(mixer_finish(desk.plan, AREA(desk.buffers)).status);
    CHECK(run(&desk, 2 * MOST, AREA(output)).count == 6 * BLOCK);
    CHECK(memcmp(output, both, sizeof both) == 0);
    behind(SLOT, (const uint16_t[]){MICROPHONE}, 1);
    behind(SLOT + 1, (const uint16_t[]){RETURN, MICROPHONE}, 2);
    behind(AFTER, (const uint16_t[]){RETURN, MICROPHONE, 20}, 3);
}

int main(void)
{
    built();
    built_in_formats();
    heard();
    faded();
    not_finite();
    two_in_a_row();
    return failures != 0;
}
