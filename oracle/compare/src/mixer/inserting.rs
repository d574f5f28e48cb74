//! The insert: one builder call that is lent five areas.
use super::{Plan, Span, SpanReply};

/// The ids of its nodes, in the order in which they are made.
#[repr(C)]
#[derive(Clone, Copy, Debug, Default, PartialEq)]
pub struct InsertIds {
    pub send: u32,
    pub ret: u32,
    pub dry: u32,
    pub wet: u32,
    pub dryin: u32,
    pub wetin: u32,
}

#[repr(C)]
#[derive(Clone, Copy, Debug, Default, PartialEq)]
pub struct InsertReturn {
    pub input: u32,
    pub channel: u32,
    pub gain: f32,
    pub bypass: bool,
}

#[repr(C)]
#[derive(Clone, Copy, Debug, Default, PartialEq)]
pub struct InsertPoint {
    pub format: u32,
    pub src: Span,
    pub gain: f32,
    pub slot: u32,
    pub ramp: u32,
    pub ids: InsertIds,
    pub returns: bool,
    pub back: InsertReturn,
}

extern "C" {
    fn mixer_insert(
        plan: Plan,
        insert: InsertPoint,
        indices: *mut u32,
        indices_len: usize,
        coefficients: *mut f32,
        coefficients_len: usize,
        floats: *mut f32,
        floats_len: usize,
        words: *mut u32,
        words_len: usize,
        steps: *mut u32,
        steps_len: usize,
    ) -> SpanReply;
}

pub fn insert(
    plan: Plan,
    insert: InsertPoint,
    indices: &mut [u32],
    coefficients: &mut [f32],
    floats: &mut [f32],
    words: &mut [u32],
    steps: &mut [u32],
) -> SpanReply {
    unsafe {
        mixer_insert(
            plan,
            insert,
            indices.as_mut_ptr(),
            indices.len(),
            coefficients.as_mut_ptr(),
            coefficients.len(),
            floats.as_mut_ptr(),
            floats.len(),
            words.as_mut_ptr(),
            words.len(),
            steps.as_mut_ptr(),
            steps.len(),
        )
    }
}
