//! `all_sources`: the lists of all slots from one call, 256 places a slot.
use crate::judge::{same, words, Fault, Found, Judge};
use crate::mixer::{self, CountReply, Status};
use crate::plan::Areas;

/// The places of a slot's list.
pub const PLACES: usize = 256;

/// What the areas hold that a call may not touch.
const COUNT: u32 = 0xabcd_ef01;
const INPUT: u16 = 0xabcd;

/// The areas after a call that lists these: every place behind the counts and behind a list is as it was.
fn expected(lists: &[Vec<u16>], more: usize) -> (Vec<u32>, Vec<u16>) {
    let (mut counts, mut inputs) = (vec![COUNT; lists.len() + more], vec![INPUT; PLACES * lists.len() + more]);
    for (slot, list) in lists.iter().enumerate() {
        counts[slot] = list.len() as u32;
        inputs[PLACES * slot..][..list.len()].copy_from_slice(list);
    }
    (counts, inputs)
}

fn asked(a: &Areas, counts: &mut [u32], lists: &mut [u16]) -> CountReply {
    mixer::all_sources(a.plan, &a.indices, &a.words, &a.steps, counts, lists)
}

/// The lists of an accepted plan, in areas that just fit and in longer ones, and number 2 for each area that is one entry short.
pub fn all(j: &mut Judge, a: &Areas, lists: &[Vec<u16>]) -> Found {
    let slots = lists.len();
    for more in [0, 2] {
        let (mut counts, mut inputs) = expected(lists, more);
        if j.plants_if(slots > 0, Fault::AllCount) {
            counts[slots - 1] += 1;
        }
        if j.plants_if(slots > 0, Fault::AllInput) {
            inputs[PLACES * (slots - 1)] ^= 1;
        }
        let (mut got_counts, mut got_inputs) = (vec![COUNT; counts.len()], vec![INPUT; inputs.len()]);
        let reply = asked(a, &mut got_counts, &mut got_inputs);
        j.counts.calls += 1;
        same("all source lists", &CountReply { count: slots, ..CountReply::default() }, &reply)?;
        words("counts of all source lists", &counts, &got_counts)?;
        words("all source lists", &inputs, &got_inputs)?;
    }
    if slots > 0 {
        for (counts, inputs) in [(slots - 1, PLACES * slots), (slots, PLACES * slots - 1)] {
            let reply = refused(a, counts, inputs)?;
            j.refusal("all_sources", Status { number: 2, place: 0 }, reply)?;
        }
    }
    Ok(())
}

/// The status of a call that must be refused, with areas of these lengths, which must stay as they are.
pub fn refused(a: &Areas, counts: usize, inputs: usize) -> Result<Status, String> {
    let (mut got_counts, mut got_inputs) = (vec![COUNT; counts], vec![INPUT; inputs]);
    let reply = asked(a, &mut got_counts, &mut got_inputs);
    same("count of a refused all_sources", &0, &reply.count)?;
    words("counts after a refusal", &vec![COUNT; counts], &got_counts)?;
    words("all source lists after a refusal", &vec![INPUT; inputs], &got_inputs)?;
    Ok(reply.status)
}
