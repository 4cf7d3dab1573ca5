//! What stands at a path of an outcome, and of what is kept of it.

use cp_refs::{Cap, Caps, Gate, KeptOutcome, Origin, Outcome, Path, Request, WaitingCall};
use cp_rpc::{Exception, ExceptionKind, Text};
use cp_tree::{Body, Tree, Whole};
use cp_vat_machine::Ids;
use std::alloc::Global;
use std::process::Abort;

/// A struct of these pointers.
fn with_pointers(alloc: Global, ptrs: Vec<Tree>) -> Tree {
    Tree::Struct(Body {
        words: Vec::new(alloc),
        ptrs,
    })
}

/// Pointers to a capability, a struct with one, an index past the table, and a list.
fn results(rt: &impl Abort, alloc: Global) -> Outcome {
    let inner = vec![in alloc; Tree::Cap(1)].expect(rt, "memory");
    let inner = with_pointers(alloc, inner);
    let ptrs = vec![in alloc; Tree::Cap(0), inner, Tree::Cap(2), Tree::Voids(3)];
    let content = with_pointers(alloc, ptrs.expect(rt, "memory"));
    let caps = vec![in alloc; Cap::Object(5), Cap::Import(6)].expect(rt, "memory");
    Outcome::Results {
        content: Whole::new(content).ok().expect(rt, "a whole"),
        caps: Caps::new(caps),
    }
}

/// The number of an object or an import, 0 for null, and the reason of what is broken.
fn seen(cap: &Cap) -> (Option<u32>, &str) {
    match cap {
        Cap::None => (Some(0), ""),
        Cap::Object(id) => (Some(*id), ""),
        Cap::Import(id) => (Some(*id), ""),
        Cap::Broken(exception) => (None, exception.reason.as_str()),
        _ => (None, ""),
    }
}

/// What stands at a path is this.
fn expect_seen(rt: &impl Abort, cap: Cap, number: Option<u32>, reason: &str) {
    let is_right = seen(&cap) == (number, reason);
    drop(cap);
    check!(rt; is_right);
}

/// An outcome and what is kept of it give this at a path.
fn expect_at(
    rt: &impl Abort,
    outcome: &Outcome,
    kept: &KeptOutcome,
    (alloc, path): (Global, &[u16]),
    (number, reason): (Option<u32>, &str),
) {
    let cap = outcome.at(alloc, path).expect(rt, "memory");
    expect_seen(rt, cap, number, reason);
    let cap = kept.at(alloc, path).expect(rt, "memory");
    expect_seen(rt, cap, number, reason);
}

/// Paths of the results, and the number that stands there.
const PATHS: &[(&[u16], u32)] = &[
    (&[0], 5),
    (&[1], 0),
    (&[1, 0], 6),
    (&[2], 0),
    (&[3, 0], 0),
    (&[0, 0], 0),
    (&[4], 0),
    (&[], 0),
];

#[test]
fn results_give_what_stands_at_a_path(rt: HostRuntime) {
    let outcome = results(&rt, rt.alloc());
    let kept = KeptOutcome::of(rt.alloc(), &outcome).expect(&rt, "memory");
    for (path, number) in PATHS {
        expect_at(
            &rt,
            &outcome,
            &kept,
            (rt.alloc(), path),
            (Some(*number), ""),
        );
    }
    drop(kept);
    drop(outcome);
}

/// An outcome that failed for this reason.
fn failed(rt: &impl Abort, alloc: Global, reason: &str) -> Outcome {
    Outcome::Failed(Exception {
        kind: ExceptionKind::Overloaded,
        reason: Text::new(String::from_str(alloc, reason).expect(rt, "memory")),
        trace: Text::new(String::new(alloc)),
    })
}

/// An outcome gives a capability at a path that is broken for this reason.
fn expect_broken(rt: &impl Abort, alloc: Global, outcome: Outcome, path: &[u16], reason: &str) {
    let kept = KeptOutcome::of(alloc, &outcome).expect(rt, "memory");
    expect_at(rt, &outcome, &kept, (alloc, path), (None, reason));
    drop(kept);
    drop(outcome);
}

#[test]
fn what_failed_gives_its_exception_at_every_path(rt: HostRuntime) {
    let alloc = rt.alloc();
    expect_broken(&rt, alloc, failed(&rt, alloc, "no"), &[3], "no");
    expect_broken(&rt, alloc, Outcome::Canceled, &[0, 1], "canceled");
}

#[test]
fn memory_is_counted(rt: HostRuntime) {
    let alloc = rt.alloc();
    let outcome = results(&rt, alloc);
    // Five trees and two capabilities, 96 each.
    check!(&rt; outcome.memory() == 672);
    let kept = KeptOutcome::of(alloc, &outcome).expect(&rt, "memory");
    check!(&rt; kept.memory() == 672);
    drop(kept);
    drop(outcome);
    let outcome = failed(&rt, alloc, "no");
    check!(&rt; outcome.memory() == 2);
    drop(outcome);
    let fields = vec![in alloc; 3, 4].expect(&rt, "memory");
    let cap = Cap::Pipelined(1, Path::new(fields));
    check!(&rt; cap.memory() == 100);
    drop(cap);
}

/// A call with eight bytes of data that waits for what a question gives at a path of one field.
fn waiting_call(rt: &impl Abort, alloc: Global) -> WaitingCall {
    let content = Tree::Bytes(vec![in alloc; 1, 2, 3, 4, 5, 6, 7, 8].expect(rt, "memory"));
    let fields = vec![in alloc; 3].expect(rt, "memory");
    WaitingCall {
        ticket: 0,
        origin: Origin::Own(0),
        request: Request {
            interface: 1,
            method: 2,
            content: Whole::new(content).ok().expect(rt, "a whole"),
            caps: Caps::new(vec![in alloc; Cap::Object(5)].expect(rt, "memory")),
        },
        gate: Gate::Question(1, Path::new(fields)),
    }
}

#[test]
fn a_waiting_call_is_counted(rt: HostRuntime) {
    let call = waiting_call(&rt, rt.alloc());
    check!(&rt; call.request.memory() == 104 && call.memory() == 298);
    drop(call);
}

#[test]
fn a_path_gives_back_its_vector(rt: HostRuntime) {
    let fields = vec![in rt.alloc(); 3].expect(&rt, "memory");
    let fields = Path::new(fields).into_fields();
    check!(&rt; fields.len() == 1 && fields[0] == 3);
    drop(fields);
}

#[test]
fn a_table_gives_back_its_vector(rt: HostRuntime) {
    let caps = vec![in rt.alloc(); Cap::Object(5)].expect(&rt, "memory");
    let caps = Caps::new(caps).into_caps();
    check!(&rt; caps.len() == 1 && matches!(caps[0], Cap::Object(5)));
    drop(caps);
}

#[test]
fn numbers_give_back_their_vector(rt: HostRuntime) {
    let numbers = vec![in rt.alloc(); 5, 6].expect(&rt, "memory");
    let numbers = Ids::new(numbers).into_ids();
    check!(&rt; numbers.len() == 2 && numbers[1] == 6);
    drop(numbers);
}
