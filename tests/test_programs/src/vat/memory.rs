//! What a vat does where an allocation fails.

use cp_scripts::event_of;
use cp_vat::Vat;
use cp_vat_machine::{Event, VatFault};
use std::alloc::Global;
use std::process::Abort;

/// Calls wait at answers and promises, are forwarded, and fail.
const SCRIPT: &str = "
    < bootstrap q=0
    < call q=1 to=import:0 i=0000000000000001 m=2 results=caller params={null caps[senderPromise:5]}
    < call q=2 to=answer:1[] i=0000000000000001 m=2 results=caller params={null caps[none]}
    < call q=3 to=import:0 i=0000000000000001 m=2 results=caller params={null caps[receiverAnswer:1[]]}
    promise
    call promise:1 i=0000000000000001 m=2 {null caps[promise:0]}
    call import:5 i=0000000000000001 m=2 {null caps[object:9]}
    answer answer:1 {cap:0 caps[promise:1]}
    resolve promise:1 import:5
    answer answer:3 {cap:0 caps[promise:1]}
    < return a=1 releaseParamCaps=true canceled
    < finish q=1 releaseResultCaps=true
    finish question:1
    idle
";

/// The event of a line. Where an allocation fails, it is read again.
fn read(rt: &impl Abort, alloc: Global, line: &str) -> Event {
    match event_of(alloc, line) {
        Some(event) => event,
        None => event_of(alloc, line).expect(rt, "an event"),
    }
}

/// Plays an event, and says whether the vat is closed then. An allocation failure is reported by V10, and
/// closes it.
fn play(rt: &impl Abort, vat: &mut Vat, event: Event, was_closed: bool) -> bool {
    match vat.act(event) {
        Ok(acted) => {
            drop(acted);
            check!(rt; !was_closed);
            false
        }
        Err(VatFault::Closed) => {
            check!(rt; was_closed);
            true
        }
        Err(fault) => {
            check!(rt; !was_closed && fault == VatFault::OutOfMemory);
            true
        }
    }
}

#[test]
fn allocation_failure_closes_the_vat(rt: HostRuntime) {
    let mut vat = Vat::new(rt.alloc(), Some(0));
    let mut is_closed = false;
    for line in SCRIPT.trim().lines() {
        let event = read(&rt, rt.alloc(), line.trim());
        is_closed = play(&rt, &mut vat, event, is_closed);
    }
    drop(vat);
}
