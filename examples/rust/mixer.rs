//! The part of the mixer's interface that desk.rs calls, as include/mixer.h declares it.

#[repr(C)]
#[derive(Clone, Copy, Default)]
pub struct Plan {
    pub block: usize,
    pub buffers: usize,
    pub indices: usize,
    pub coefficients: usize,
    pub nodes: usize,
    pub steps: usize,
    pub words: usize,
}

#[repr(C)]
#[derive(Clone, Copy)]
pub struct Span {
    pub start: u32,
    pub len: u32,
}

#[repr(C)]
pub struct InsertIds {
    pub send: u32,
    pub ret: u32,
    pub dry: u32,
    pub wet: u32,
    pub dryin: u32,
    pub wetin: u32,
}

/// What comes back to an insert, its input and channel counted from 1.
#[repr(C)]
pub struct InsertReturn {
    pub input: u32,
    pub channel: u32,
    pub gain: f32,
    pub bypass: bool,
}

#[repr(C)]
pub struct InsertPoint {
    pub format: u32,
    pub src: Span,
    pub gain: f32,
    pub slot: u32,
    pub ramp: u32,
    pub ids: InsertIds,
    pub returns: bool,
    pub back: InsertReturn,
}

#[repr(C)]
pub struct Status {
    pub number: u32,
    pub place: u32,
}

#[repr(C)]
pub struct PlanReply {
    pub status: Status,
    pub plan: Plan,
}

#[repr(C)]
pub struct SpanReply {
    pub status: Status,
    pub plan: Plan,
    pub span: Span,
}

#[repr(C)]
pub struct NodeReply {
    pub status: Status,
    pub plan: Plan,
    pub node: u32,
}

#[repr(C)]
pub struct BufferReply {
    pub status: Status,
    pub buffer: u32,
}

#[repr(C)]
pub struct CountReply {
    pub status: Status,
    pub count: usize,
}

#[repr(C)]
pub struct CleanReply {
    pub status: Status,
    pub clean: bool,
}

#[repr(C)]
#[derive(Clone, Copy)]
pub struct FoldGains {
    pub pan_left: f64,
    pub pan_right: f64,
    pub mono_sum: f64,
    pub centre: f64,
    pub surround: f64,
    pub lfe: f64,
}

#[rustfmt::skip]
extern "C" {
    pub fn mixer_new(block: usize) -> PlanReply;
    pub fn mixer_buffers(plan: Plan, n: usize, indices: *mut u32, len: usize) -> SpanReply;
    pub fn mixer_buffer(plan: Plan, span: Span, i: usize, indices: *const u32, len: usize) -> BufferReply;
    pub fn mixer_coefficients(plan: Plan, values: *const f32, values_len: usize, area: *mut f32, len: usize) -> SpanReply;
    pub fn mixer_node(plan: Plan, id: u32, values: *const f32, values_len: usize, ramp: u32, safe: u32,
        floats: *mut f32, floats_len: usize, words: *mut u32, words_len: usize) -> NodeReply;
    pub fn mixer_step(plan: Plan, record: *const u32, record_len: usize, steps: *mut u32, len: usize) -> PlanReply;
    pub fn mixer_insert(plan: Plan, insert: InsertPoint, indices: *mut u32, indices_len: usize,
        coefficients: *mut f32, coefficients_len: usize, floats: *mut f32, floats_len: usize, words: *mut u32, words_len: usize,
        steps: *mut u32, steps_len: usize) -> SpanReply;
    pub fn mixer_finish(plan: Plan, buffers: *mut f32, len: usize) -> PlanReply;
    pub fn mixer_set_param(plan: Plan, id: u32, values: *const f32, values_len: usize, ramp: u32,
        floats: *mut f32, floats_len: usize, words: *mut u32, words_len: usize) -> Status;
    pub fn mixer_process(plan: Plan, indices: *const u32, indices_len: usize, coefficients: *const f32, coefficients_len: usize,
        floats: *mut f32, floats_len: usize, words: *mut u32, words_len: usize, steps: *const u32, steps_len: usize,
        buffers: *mut f32, buffers_len: usize, directory: *const u32, directory_len: usize,
        samples: *const f32, samples_len: usize, output: *mut f32, output_len: usize) -> CountReply;
    pub fn mixer_adopt(plan: Plan, floats: *mut f32, floats_len: usize, words: *mut u32, words_len: usize,
        old_plan: Plan, old_floats: *const f32, old_floats_len: usize, old_words: *const u32, old_words_len: usize,
        pairs: *const u32, pairs_len: usize, ramp: u32) -> Status;
    pub fn mixer_output_sources(plan: Plan, slot: u32, indices: *const u32, indices_len: usize, words: *const u32, words_len: usize,
        steps: *const u32, steps_len: usize, list: *mut u16, list_len: usize) -> CountReply;
    pub fn mixer_clean_answer(plan: Plan, indices: *const u32, indices_len: usize, words: *const u32, words_len: usize,
        steps: *const u32, steps_len: usize) -> CleanReply;
    pub fn mixer_format_channels(format: u32) -> usize;
    pub fn mixer_format_label(format: u32, channel: usize) -> u32;
    pub fn mixer_format_has(format: u32, label: u32) -> bool;
    pub fn mixer_width_matrix(src: u32, dst: u32, gains: FoldGains, normalise: bool, matrix: *mut f32, len: usize) -> Status;
    pub fn mixer_width_matrix_with(src: u32, dst: u32, gains: FoldGains, normalise: bool, pairs: *const u32, pairs_len: usize,
        table_gains: *const f32, table_gains_len: usize, matrix: *mut f32, len: usize) -> Status;
}

pub const PATCH: u32 = 7;
pub const GAIN: u32 = 248;
pub const CLEAR: u32 = 192;
pub const SEND: u32 = 1016;
pub const OUTPUT: u32 = 1072;
pub const MONO: u32 = 0;
pub const STEREO: u32 = 1;
pub const SURROUND_51: u32 = 3;
pub const SURROUND_714: u32 = 6;

/// The floats and the words of a node in its areas, and the floats of each of its three rows: cur, target and step.
pub const NODE_FLOATS: usize = 72;
pub const NODE_WORDS: usize = 4;
pub const MAX_VALUES: usize = 24;

/// The words of an entry of a directory.
pub const ENTRY_WORDS: usize = 4;
