//! Events, played.

use crate::effects::segments_of;
use cp_rpc::Message;
use cp_stream::view_in;
use cp_vat::Vat;
use cp_vat_machine::{Acted, Event, Value, VatFault};
use cp_words::Limits;
use std::alloc::Global;

/// How a vat takes in messages.
#[derive(Clone, Copy)]
pub enum Taken {
    /// As values.
    Owned,
    /// Where they lie in their frames.
    InPlace,
}

/// What a vat does at an event. `None` where it is a message that can't be written to be read in place.
pub fn act(
    alloc: Global,
    vat: &mut Vat,
    event: Event,
    taken: Taken,
) -> Option<Result<Acted<Value>, VatFault>> {
    match (event, taken) {
        (Event::Receive(message), Taken::InPlace) => receive(alloc, vat, message),
        (event, _) => Some(vat.act(event)),
    }
}

/// What a vat does with a message that it reads in place.
fn receive(
    alloc: Global,
    vat: &mut Vat,
    message: Message,
) -> Option<Result<Acted<Value>, VatFault>> {
    let segments = segments_of(alloc, &message);
    drop(message);
    let segments = segments?;
    let Ok(view) = view_in(&segments, Limits::standard()) else {
        return None;
    };
    match vat.receive_view(view) {
        Ok(Acted { effects, .. }) => {
            let value = Value::Nothing;
            Some(Ok(Acted { value, effects }))
        }
        Err(fault) => Some(Err(fault)),
    }
}
