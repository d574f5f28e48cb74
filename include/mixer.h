/*
 * The mixer's interface for C99 and C++. Link with libmixer.a (`rt lib` in crates/mixer), on x86-64 Linux.
 *
 * The library keeps nothing between calls and allocates nothing. What a call works on is lent to it:
 *
 * - An area is a pointer and a length, counted in elements. A call may be lent more than it needs; the rest stays as it is.
 * - All else goes in and comes back by value, also a plan's record, which goes with the plan's areas.
 * - A call that can be refused replies with a mixer_status, beside its values where it has any. A refused call has written
 *   nothing, and its values are 0 and false; a record that it hands back is the one that was handed in.
 *
 * Every call ends, whatever the numbers, the floats and the lengths are, and its reply and the areas after it are proved to be those
 * that the definitions give (crates/mixer/src). C cannot check, and the caller sees to it, that
 *
 * - a length is not larger than the memory behind its pointer, and the pointer is aligned for its elements;
 * - a pointer is not null where its length is above 0;
 * - an area that a call writes (a pointer without const) overlaps no other area of that call;
 * - no other thread writes an area of a call while it runs, or reads one that it writes;
 * - a bool in a struct is true or false and no other byte, also where it does not matter;
 * - the thread's floating-point state is the default one: round to nearest, no flush-to-zero, no denormals-are-zero, exceptions masked. With
 *   flush-to-zero on, as audio hosts have it, a sample of 1e-38 times a gain of 0.1 is 0 and not the float with the bits 000ae398; with upward
 *   rounding bits differ; with exceptions unmasked mixer_balance_gains(0.3) can end the program (tests/floats.c);
 * - the thread has stack left for the call: mixer_width_matrix and mixer_width_matrix_with use at most 24 KB, mixer_output_sources and
 *   mixer_all_sources at most 10 KB, mixer_insert at most 4 KB, every other call at most 2 KB, the arguments included (tests/stack.c). The library calls
 *   memcpy and memset: where the linker looks these up at their first call, more comes on top once (some 3 KB where it was measured).
 */
#ifndef MIXER_H
#define MIXER_H

#include <stdbool.h>
#include <stddef.h>
#include <stdint.h>

#ifdef __cplusplus
extern "C" {
#endif

/* size_t has 64 bits, as it has in the library. */
typedef char mixer_size_has_64_bits[sizeof(size_t) == 8 ? 1 : -1];

/* ---- Refusals: the number of a mixer_status */

enum mixer_number {
    MIXER_ACCEPTED = 0,

    /* to the layout writer */
    MIXER_BLOCK_LENGTH = 1,    /* a block outside 1 to 1,024 */
    MIXER_SHORT_AREA = 2,      /* an area shorter than the call needs */
    MIXER_UNREADABLE_STEP = 3, /* a map that is none of mixer_map, or a map or field past the end of the step words */
    MIXER_OUTSIDE_TABLE = 4,   /* a span, buffer, index entry, node, input or slot outside its table, or a Send whose coefficients are too few */
    MIXER_OVER_LIMIT = 5,      /* a count above its limit */
    MIXER_SHARED_BUFFER = 6,   /* a Gain (its used channels), Matrix or Send with one buffer in both src and dst */
    MIXER_TOO_MANY_VALUES = 7, /* a node or a Gain of more than 24 values, or a Matrix of more than 24 entries */
    MIXER_ID_TAKEN = 8,        /* a node id that another node has */

    /* to the operator */
    MIXER_UNKNOWN_ID = 9, /* an id that no node has */
    MIXER_LONG_RAMP = 10, /* a ramp above 16,777,216 samples */
    MIXER_ODD_LIST = 11,  /* a list of pairs of odd length */

    /* to the feeder */
    MIXER_BAD_DIRECTORY = 12, /* a directory not in fours, of more than 512 entries, or with a part past the samples */
    MIXER_SHORT_OUTPUT = 13,  /* an output area shorter than the Outputs of the plan */

    /* to the keeper of the areas */
    MIXER_BAD_NODE = 14, /* a lent node, used or not, with len above 24, left above 16,777,216 or safe above 1; of mixer_node, a safe above 1 */

    /* to the reader of lists and folds */
    MIXER_NO_SLOT = 15,      /* a slot above the highest that an Output names */
    MIXER_NO_FORMAT = 16,    /* a format above 6, also of an entry of a house table; to the layout writer too, of an insert */
    MIXER_OUT_OF_RANGE = 17, /* a fold gain, a house table's too, not from +0 to 16, a balance that is not finite, a width not from -2 to 2 */

    /* to the layout writer, of an insert */
    MIXER_BAD_RETURN = 18, /* a return input or channel of 0, or a last channel above 4,294,967,295 */

    /* to the reader of folds, of a house table */
    MIXER_NO_ENTRY = 19,        /* no entry for a pair that a table covers */
    MIXER_PAIR_TWICE = 20,      /* two entries for one pair, covered or not */
    MIXER_PAIR_NOT_COVERED = 21 /* an entry for a pair that a table does not cover */
};

/* The number, and the step, from 1, that the plan check was at; the place is 0 in every other refusal. Both are 0 where the call was accepted. */
typedef struct {
    uint32_t number;
    uint32_t place;
} mixer_status;

/* ---- Limits */

enum mixer_limit {
    MIXER_MAX_BLOCK = 1024,
    MIXER_MAX_BUFFERS = 256,
    MIXER_MAX_INDICES = 1024,
    MIXER_MAX_COEFFICIENTS = 1024,
    MIXER_MAX_NODES = 64,
    MIXER_MAX_STEPS = 512,
    MIXER_MAX_VALUES = 24,   /* of a node */
    MIXER_MAX_ENTRIES = 512, /* of a directory */
    MIXER_MAX_RAMP = 16777216,
    MIXER_INPUTS = 256, /* inputs are 0 to 255 */
    MIXER_SLOTS = 32    /* slots are 0 to 31 */
};

/* ---- A plan: its record and its areas */

/* The samples of a block, and how much of each area is in use. The areas that go with it:
 *   indices       uint32_t  a buffer's number each; a span of them is a list of buffers
 *   coefficients  float     the weights of Sends
 *   node_floats   float     72 a node: 24 of cur, 24 of target, 24 of step
 *   node_words    uint32_t  four a node: its id, len (how many of the 24 are in use), left (samples left of its ramp), safe (0; 1: mixer_adopt skips it)
 *   steps         uint32_t  the records of the steps, one after the other; `words` counts them
 *   buffers       float     buffer i has the samples from i * block to (i + 1) * block */
typedef struct {
    size_t block;
    size_t buffers;
    size_t indices;
    size_t coefficients;
    size_t nodes;
    size_t steps;
    size_t words;
} mixer_plan;

enum mixer_layout {
    MIXER_NODE_FLOATS = 72,
    MIXER_NODE_WORDS = 4,
    MIXER_ENTRY_WORDS = 4 /* of a directory's entry: input, channel, start, length */
};

/* A run of entries in the index list or in the coefficients. */
typedef struct {
    uint32_t start;
    uint32_t len;
} mixer_span;

/* The first word of a step's record is its map, which says which words follow. */
enum mixer_map {
    MIXER_PATCH = 7,     /* input, channel, dst buffer: a channel of an input into a buffer */
    MIXER_GAIN = 248,    /* node, src start, src length, dst start, dst length: dst i is src i times value i of the node, as far as both go */
    MIXER_MATRIX = 2296, /* as Gain: value d * length of src + s is the gain from src s to dst d */
    MIXER_CLEAR = 192,   /* dst start, dst length: silence */
    MIXER_SEND = 1016,   /* as Gain, then coefficient start, coefficient length: adds; weight d * length of src + s times value 0 of the node */
    MIXER_OUTPUT = 1072  /* src start, src length, slot: the buffers go to the output area */
};

/* ---- Building a plan: mixer_new, then the others in any order, then mixer_finish */

/* The record after the call. */
typedef struct {
    mixer_status status;
    mixer_plan plan;
} mixer_plan_reply;

/* The record after the call, and the span of what was added. */
typedef struct {
    mixer_status status;
    mixer_plan plan;
    mixer_span span;
} mixer_span_reply;

/* The record after the call, and the number of the node that was added. */
typedef struct {
    mixer_status status;
    mixer_plan plan;
    uint32_t node;
} mixer_node_reply;

typedef struct {
    mixer_status status;
    uint32_t buffer;
} mixer_buffer_reply;

/* An empty plan for blocks of `block` samples, with the block in it also where that is refused. Refused: 1. */
mixer_plan_reply mixer_new(size_t block);

/* n new buffers, and a span of n index entries that name them. Refused: 5, 2. */
mixer_span_reply mixer_buffers(mixer_plan plan, size_t n, uint32_t *indices, size_t indices_len);

/* The first n buffers of a span, all of it where it has no more. Never refused. */
mixer_span mixer_first(mixer_span span, uint32_t n);

/* The number of buffer i of a span, counted from 0. Refused: 2, where the index list, as the plan counts it, has no such entry. */
mixer_buffer_reply mixer_buffer(mixer_plan plan, mixer_span span, size_t i, const uint32_t *indices, size_t indices_len);

/* Copies the values behind the other coefficients. Refused: 5, 2. */
mixer_span_reply mixer_coefficients(mixer_plan plan, const float *values, size_t values_len, float *coefficients, size_t coefficients_len);

/* A node at zero, set to the values over `ramp` samples: at once where that is 0, else it fades in from 0, a safe node too. So a node that has to start
 * at its own values, whatever an old plan had, is made with a ramp of 0 and a `safe` of 1. Refused: 5, 2, 7, 8, 10, 14. */
mixer_node_reply mixer_node(mixer_plan plan, uint32_t id, const float *values, size_t values_len, uint32_t ramp, uint32_t safe,
                            float *node_floats, size_t node_floats_len, uint32_t *node_words, size_t node_words_len);

/* The step whose record stands at the front of `record`; words past it are ignored. Refused: 5, 2, 3, 7. */
mixer_plan_reply mixer_step(mixer_plan plan, const uint32_t *record, size_t record_len, uint32_t *steps, size_t steps_len);

/* The ids of an insert's nodes, in the order in which the nodes are made: the nodes' numbers are the plan's count of nodes and those after it. Without
 * a return the send's alone is used. */
typedef struct {
    uint32_t send;
    uint32_t ret;
    uint32_t dry;
    uint32_t wet;
    uint32_t dryin;
    uint32_t wetin;
} mixer_insert_ids;

/* What comes back to an insert: an input and its first channel, both counted from 1, so that 1 and 1 are input 0 and channel 0 of a directory, at a
 * linear gain. At bypass the dry signal is heard in its place; the return is still in the sum, at 0, so that an infinity or a NaN that comes back is heard
 * as a NaN; likewise one of the dry signal where the insert is not at bypass. */
typedef struct {
    uint32_t input;
    uint32_t channel;
    float gain;
    bool bypass;
} mixer_insert_return;

/* An insert on the buffers `src`, of a format's channels: they go at a linear gain to the Output of a slot. `ramp` is that of every node of the insert.
 * Where `returns` is false `back` and the ids after the send's do not matter. */
typedef struct {
    uint32_t format;
    mixer_span src;
    float gain;
    uint32_t slot;
    uint32_t ramp;
    mixer_insert_ids ids;
    bool returns;
    mixer_insert_return back;
} mixer_insert_point;

/* An insert, all of it or nothing. Of n channels of its format it makes a Gain to n fresh buffers and their Output; with a return also n fresh buffers
 * with a Patch each, the return Gain, the dry Gain (from src) and the wet Gain (from the return), a Clear of the insert's output, n * n coefficients of
 * 1 and 0, and two Sends, dry and wet, into the output. That is n buffers and index entries, a node, and 2 steps of 10 words; with a return 6 * n
 * buffers and index entries, n * n coefficients, 6 nodes, and n + 8 steps of 4 * n + 47 words. Replies with the span that the strip goes on with: src,
 * or with a return the output's. The nodes have a safe of 0 and can be set by their ids as any other: all n values of dry to 1 and of wet to 0 is
 * bypass. Of a src shorter than n the channels past it are not written, and where no earlier step wrote them the plan is not clean. The plan check
 * finds as 4 a slot above 31 (at the insert's second step), a return input above 256 (its third) and, with a return, a src longer than n (its step
 * n + 7). Refused: 16; with a return 18; 4, a src past the index list as the plan counts it; then for the whole insert 5, 2, 8 (an id that another node
 * or another of its own nodes has), 10. */
mixer_span_reply mixer_insert(mixer_plan plan, mixer_insert_point insert, uint32_t *indices, size_t indices_len, float *coefficients,
                              size_t coefficients_len, float *node_floats, size_t node_floats_len, uint32_t *node_words,
                              size_t node_words_len, uint32_t *steps, size_t steps_len);

/* Zeroes the buffers; the plan is ready to run. Refused: 1, 5, 2. What the steps name is the plan check's matter. */
mixer_plan_reply mixer_finish(mixer_plan plan, float *buffers, size_t buffers_len);

/* ---- A plan in use */

/* How many entries of the area that a call is lent for its answer it has written, from the front on; of mixer_all_sources, how many slots there are. */
typedef struct {
    mixer_status status;
    size_t count;
} mixer_count_reply;

/* The plan check, of a plan that may come from anywhere. Refused: 1, 5, 2, 4, 8, then for each step in turn, with its place, 3, 4, 7, 6. */
mixer_status mixer_check_plan(mixer_plan plan, const uint32_t *indices, size_t indices_len, const float *coefficients,
                              size_t coefficients_len, const float *node_floats, size_t node_floats_len, const uint32_t *node_words,
                              size_t node_words_len, const uint32_t *steps, size_t steps_len, const float *buffers, size_t buffers_len);

/* Ramps the node of the id to the values over `ramp` samples, at once where that is 0. A node takes as many values as it has, and where fewer
 * are given keeps its other targets. Refused: 5, 2, 14, 8, 10, 9. */
mixer_status mixer_set_param(mixer_plan plan, uint32_t id, const float *values, size_t values_len, uint32_t ramp, float *node_floats,
                             size_t node_floats_len, uint32_t *node_words, size_t node_words_len);

/* One block: the steps in order. An input's channel is the part of the samples that its last entry in the directory names, and silent where it
 * has none or that part is shorter than a block, whatever the entries before it name. Each Output appends a block for each of its buffers to the
 * output area; the count is in samples. Refused: as the plan check, then 14, 12, 13. */
mixer_count_reply mixer_process(mixer_plan plan, const uint32_t *indices, size_t indices_len, const float *coefficients,
                                size_t coefficients_len, float *node_floats, size_t node_floats_len, uint32_t *node_words,
                                size_t node_words_len, const uint32_t *steps, size_t steps_len, float *buffers, size_t buffers_len,
                                const uint32_t *directory, size_t directory_len, const float *samples, size_t samples_len, float *output,
                                size_t output_len);

/* The channel lookup: copies the part of the samples that the last entry for the channel names to `part`, nothing where there is none or that
 * part is empty. A part past the samples ends where they end. Refused: 2. */
mixer_count_reply mixer_lookup(const uint32_t *directory, size_t directory_len, const float *samples, size_t samples_len, uint32_t input,
                               uint32_t channel, float *part, size_t part_len);

/* Whether mixer_process would refuse a directory over this many samples with 12. */
bool mixer_directory_bad(const uint32_t *directory, size_t directory_len, size_t samples);

/* Nodes of an old plan into a new one. `pairs` has two node numbers a pair, new and old: the new node takes the cur of the old one and ramps to
 * its own target again over `ramp` samples. A pair that names no node, nodes of different len, or a new node that is safe, is skipped; whether the old
 * one is safe does not matter. A safe node so stays as it is: at its own values, or on its own ramp, from 0 where mixer_node began it. Refused: 5, 2,
 * 11, 14, 10. */
mixer_status mixer_adopt(mixer_plan plan, float *node_floats, size_t node_floats_len, uint32_t *node_words, size_t node_words_len,
                         mixer_plan old_plan, const float *old_floats, size_t old_floats_len, const uint32_t *old_words,
                         size_t old_words_len, const uint32_t *pairs, size_t pairs_len, uint32_t ramp);

/* ---- The inputs behind the outputs */

typedef struct {
    mixer_status status;
    bool clean;
} mixer_clean_reply;

/* The inputs behind a slot, ascending, to `list`, whatever the gains are; 256 places are always enough. Each call checks and walks the plan again: for the
 * lists of all slots use mixer_all_sources, which does so once. Refused: as the plan check, then 15, 2. */
mixer_count_reply mixer_output_sources(mixer_plan plan, uint32_t slot, const uint32_t *indices, size_t indices_len,
                                       const uint32_t *node_words, size_t node_words_len, const uint32_t *steps, size_t steps_len,
                                       uint16_t *list, size_t list_len);

/* The inputs behind every slot at once: how many at the slot's place of `counts`, and the inputs, ascending, to `lists` from slot * 256 on. What
 * lies behind a slot's inputs stays as it is. The count is that of the slots, 0 where the plan has no Output. Refused: as the plan check, then 2,
 * where `counts` has fewer places than there are slots, or `lists` fewer than 256 for each. */
mixer_count_reply mixer_all_sources(mixer_plan plan, const uint32_t *indices, size_t indices_len, const uint32_t *node_words,
                                    size_t node_words_len, const uint32_t *steps, size_t steps_len, uint32_t *counts, size_t counts_len,
                                    uint16_t *lists, size_t lists_len);

/* Whether the plan is clean: no Gain has a dst longer than its src, and each buffer in a step's src, or a Send's dst, was earlier a dst of a
 * Patch, Clear, Gain or Matrix. The list behind a slot of a clean plan leaves no input out. Refused: as the plan check. */
mixer_clean_reply mixer_clean_answer(mixer_plan plan, const uint32_t *indices, size_t indices_len, const uint32_t *node_words,
                                     size_t node_words_len, const uint32_t *steps, size_t steps_len);

/* ---- Formats and labels */

enum mixer_format {
    MIXER_MONO = 0,
    MIXER_STEREO = 1,
    MIXER_LCR = 2,
    MIXER_SURROUND_51 = 3,
    MIXER_SURROUND_71 = 4,
    MIXER_SURROUND_514 = 5,
    MIXER_SURROUND_714 = 6
};

enum mixer_label {
    MIXER_M = 0, MIXER_L = 1, MIXER_R = 2, MIXER_C = 3, MIXER_LFE = 4, MIXER_LS = 5, MIXER_RS = 6, MIXER_LSS = 7, MIXER_RSS = 8,
    MIXER_LRS = 9, MIXER_RRS = 10, MIXER_LTF = 11, MIXER_RTF = 12, MIXER_LTR = 13, MIXER_RTR = 14, MIXER_NO_LABEL = 15
};

/* How many channels the format has, at most 12; none where there is no such format. */
size_t mixer_format_channels(uint32_t format);

/* The label of a channel, MIXER_NO_LABEL where the format has no such channel. */
uint32_t mixer_format_label(uint32_t format, size_t channel);

/* The channel of a label, the format's count of channels where it has none of that label. */
size_t mixer_format_index(uint32_t format, uint32_t label);

/* Whether one of the format's channels has the label. */
bool mixer_format_has(uint32_t format, uint32_t label);

/* ---- Balance, width and folds */

typedef struct {
    mixer_status status;
    double left;
    double right;
} mixer_gains_reply;

typedef struct {
    mixer_status status;
    double left_from_left;
    double left_from_right;
    double right_from_left;
    double right_from_right;
} mixer_stereo_reply;

/* Linear gains, each from +0 to 16. The pan pair is that of a mono signal in the centre. */
typedef struct {
    double pan_left;
    double pan_right;
    double mono_sum;
    double centre;
    double surround;
    double lfe;
} mixer_fold_gains;

/* The gains of the left and of the right channels at a balance: -1 left only, 0 both, 1 right only. Refused: 17. */
mixer_gains_reply mixer_balance_gains(double balance);

/* A gain for each channel of the format at a balance, to `gains`, as many as the format has channels. Refused: 16, 17, 2. */
mixer_status mixer_balance_of(uint32_t format, double balance, float *gains, size_t gains_len);

/* A stereo width (0 mono, 1 unchanged, 2 twice the side signal), then a balance. Refused: 17. */
mixer_stereo_reply mixer_stereo_matrix(double width, double balance);

/* The fold from one format to another, row by row to `matrix`: a row for each channel of dst, a column for each of src, in the order of a Matrix's
 * values and of a Send's weights. To normalise, a fold of more than two channels into fewer is divided by its largest row sum of magnitudes, where
 * that is above 1. Refused: 16, 17, 2. */
mixer_status mixer_width_matrix(uint32_t src, uint32_t dst, mixer_fold_gains gains, bool normalise, float *matrix, size_t matrix_len);

/* The same with a house table, the sound designer's own folds. It covers the 24 pairs of a source of more than two channels and a destination that
 * lacks one of its labels: LCR to mono and stereo; 5.1 to mono, stereo, LCR, 7.1 and 7.1.4; 7.1 to mono, stereo, LCR, 5.1 and 5.1.4; 5.1.4 and 7.1.4 to
 * every other format. `pairs` has two numbers an entry, its source and its destination; a last odd one is ignored. `table_gains` has their gains, each
 * from +0 to 16, entry after entry, each entry row by row as `matrix`: the channels of its source times those of its destination; the rest is ignored.
 * A table has one entry for each covered pair, in any order, and no other: 48 numbers, or 49, and at least 1,021 gains. The entry of a covered pair
 * goes to `matrix` as it is, whatever `normalise` is; any other pair gets what mixer_width_matrix writes. The table is tested for every pair, in time
 * linear in its lengths. Refused: 16, 17, 2 as mixer_width_matrix; then of the table 16, 2 (fewer gains than its entries need), 17, 19, 20, 21. Where
 * mixer_width_matrix takes the same src, dst, gains and area, a refusal is the table's. */
mixer_status mixer_width_matrix_with(uint32_t src, uint32_t dst, mixer_fold_gains gains, bool normalise, const uint32_t *pairs,
                                     size_t pairs_len, const float *table_gains, size_t table_gains_len, float *matrix, size_t matrix_len);

/* x rounded to the nearest float, a tie to the even one; what is too large is an infinity, and a NaN gives a NaN. */
float mixer_to_f32(double x);

#ifdef __cplusplus
}
#endif

#endif
