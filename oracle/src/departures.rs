//! What a run against imago must know of docs/DIFFERENCES.md. A number that is not here needs nothing.
//!
//! 1, 2: the store gives zeroes past its end and takes padded writes there, for every side alike.
//! 5, 6, 7: 206 and 202 are answered from document 01's table (`document.rs`); imago is not asked.
//! 8: scratch is never compared.
//! 10: no vector is that long, so no list meets it.
//! 12: `parts` joins imago's vector after each call, and `replay` hands imago what the pushes of a script leave.

use crate::document::LONGEST_BOUNCE;
use crate::event::Event;
use crate::flight::Flight;
use crate::side::{Opening, Segment};

/// Whether a list may go on with this event, so that imago and document 01 are still to agree.
pub fn is_comparable(event: &Event, flight: &Flight) -> bool {
    match event {
        // 3: a padded write that reads nothing takes its bytes later in imago, so the data of jobs in flight stays as it is.
        Event::Data { offset, length, .. } => {
            *length == 0 || !flight.uses(&Segment { start: *offset, length: *length })
        }
        // 9: imago's chunks are of 1 MiB, so a zero request of a job longer than the share must not be answered 1.
        Event::Carry { slot, act } if act.code == 1 => flight.job(*slot).is_none_or(|job| {
            !job.job.is_zeroes() || job.length <= flight.opening.bounce || flight.opening.bounce == LONGEST_BOUNCE
        }),
        // The list's content of the store is fixed before its first job.
        Event::Store { .. } => flight.is_empty(),
        _ => true,
    }
}

/// Whether imago can be asked for a plan.
pub fn can_plan(opening: &Opening, offset: u64, length: u64) -> bool {
    // 4: imago's pure_write_full_zeroes does not check its sum.
    let sum = offset.checked_add(length).is_some();
    // 9: its chunks are of 1 MiB.
    sum && (opening.bounce == LONGEST_BOUNCE || length <= opening.bounce)
}
