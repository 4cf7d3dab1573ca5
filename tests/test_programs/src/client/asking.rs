//! Questions of a client and their outcomes.

use crate::checks::expect_text;
use crate::client::peer::{Scene, call_twice, play, play_over};
use crate::devices::Fails;
use crate::frames::{DESK, FAILED, NEXT_SUM, SUM, bytes_of};
use cp_client::{CallError, Client, ClientFault, Question, request_of, word_at};
use cp_connection::ConnectionFault;
use cp_interfaces::NoResults;
use cp_objects::ServedObject;
use cp_refs::{Cap, Outcome};
use cp_vat_machine::VatFault;
use std::alloc::Global;
use std::io::{Read, Write};
use std::process::Abort;

/// The word of an outcome that comes.
fn word<R: Read + Drop, W: Write + Drop, O: ServedObject<Makes = O>>(
    rt: &impl Abort,
    client: &mut Client<R, W, O>,
    question: Question,
) -> Option<u64> {
    let outcome = client.wait(question).expect(rt, "an outcome");
    let word = word_at(&outcome, 0);
    drop(outcome);
    word
}

/// An outcome that comes for another question is kept for it, and each is given once.
pub(crate) fn expect_kept<R: Read + Drop, W: Write + Drop, O: ServedObject<Makes = O>>(
    rt: &impl Abort,
    alloc: Global,
    client: &mut Client<R, W, O>,
) {
    let (first, second) = call_twice(rt, alloc, client);
    check!(rt; word(rt, client, second) == Some(42));
    check!(rt; word(rt, client, first) == Some(41));
    check!(rt; client.wait(first).err() == Some(ClientFault::NotAsked));
    check!(rt; client.finish(second).is_ok());
    check!(rt; client.flush().is_ok());
    check!(rt; client.stats().sent == 4);
}

#[test]
fn outcomes_are_kept_and_given_once(rt: HostRuntime) {
    let frames = &[DESK, SUM, NEXT_SUM];
    check!(&rt; play(&rt, rt.alloc(), frames, Scene::Keeps).unread == 0);
}

/// Whether a call of method 0 of the peer's object, made and finished, has results.
fn has_results<R: Read + Drop, W: Write + Drop, O: ServedObject<Makes = O>>(
    rt: &impl Abort,
    alloc: Global,
    client: &mut Client<R, W, O>,
    desk: Question,
) -> bool {
    let request = request_of(alloc, 1, 0, &[]).expect(rt, "memory");
    let outcome = client
        .call_and_wait(desk.cap(alloc), request)
        .expect(rt, "an outcome");
    let has_results = matches!(&outcome, Outcome::Results { .. });
    drop(outcome);
    has_results
}

/// A call has results, and a second one fails; then what was held is given up, and the peer ends.
pub(crate) fn expect_whole<R: Read + Drop, W: Write + Drop, O: ServedObject<Makes = O>>(
    rt: &impl Abort,
    alloc: Global,
    client: &mut Client<R, W, O>,
) {
    let desk = client.bootstrap().expect(rt, "a bootstrap");
    check!(rt; has_results(rt, alloc, client, desk));
    check!(rt; !has_results(rt, alloc, client, desk));
    check!(rt; client.finish(desk).is_ok());
    // Its outcome came and was never given out: what it named went with the question.
    check!(rt; client.stats().sent == 7);
    check!(rt; client.release(0).is_err());
    check!(rt; client.serve().is_ok());
    check!(rt; client.closed().is_none());
}

#[test]
fn questions_are_asked_whole(rt: HostRuntime) {
    let frames = &[DESK, SUM, FAILED];
    check!(&rt; play(&rt, rt.alloc(), frames, Scene::AsksWhole).unread == 0);
}

/// Of two questions the first outcome that comes is given, and the other is kept for its own.
pub(crate) fn expect_any<R: Read + Drop, W: Write + Drop, O: ServedObject<Makes = O>>(
    rt: &impl Abort,
    alloc: Global,
    client: &mut Client<R, W, O>,
) {
    let (first, second) = call_twice(rt, alloc, client);
    check!(rt; matches!(client.take_outcome(first), Ok(None)));
    let (question, outcome) = client.wait_any(&[second, first]).expect(rt, "an outcome");
    check!(rt; question == first && word_at(&outcome, 0) == Some(41));
    drop(outcome);
    // The other one hasn't come: a step takes it.
    check!(rt; matches!(client.take_outcome(second), Ok(None)));
    check!(rt; client.step().is_ok());
    let outcome = client.take_outcome(second).expect(rt, "a question").expect(rt, "an outcome");
    check!(rt; word_at(&outcome, 0) == Some(42));
    drop(outcome);
    check!(rt; client.wait_any(&[first, second]).err() == Some(ClientFault::NotAsked));
    check!(rt; client.wait_any(&[]).err() == Some(ClientFault::NotAsked));
}

#[test]
fn the_first_of_several_is_waited_for(rt: HostRuntime) {
    let left = play(&rt, rt.alloc(), &[DESK, SUM, NEXT_SUM], Scene::TakesAny);
    // However many questions are looked at, the reader is called for bytes alone.
    check!(&rt; left.unread == 0 && left.reads == 1);
}

/// How many calls are made one after another. The peer answers each as question 1, whose number is free again each time.
const CALLS: u64 = 100;

/// Calls method 0 of the peer's object.
fn call<R: Read + Drop, W: Write + Drop, O: ServedObject<Makes = O>>(
    rt: &impl Abort,
    alloc: Global,
    client: &mut Client<R, W, O>,
    desk: Question,
) -> Result<Question, ClientFault> {
    let request = request_of(alloc, 1, 0, &[]).expect(rt, "memory");
    client.call(desk.cap(alloc), request)
}

/// There is room for each call, since the one before it was finished as its results were taken. One that failed is finished too.
pub(crate) fn expect_room<R: Read + Drop, W: Write + Drop, O: ServedObject<Makes = O>>(
    rt: &impl Abort,
    alloc: Global,
    client: &mut Client<R, W, O>,
) {
    let desk = client.bootstrap().expect(rt, "a bootstrap");
    for _ in 0..CALLS {
        let question = call(rt, alloc, client, desk).expect(rt, "a call");
        let results = client.results(question.number).expect(rt, "results");
        drop(results);
    }
    let failed = call(rt, alloc, client, desk).expect(rt, "a call");
    let results = client.results(failed.number);
    check!(rt; matches!(&results, Err(CallError::NoResults(NoResults::Failed(_)))));
    drop(results);
    check!(rt; client.finish(failed).is_err());
    check!(rt; client.flush().is_ok());
    // A Bootstrap, and a Call and a Finish for each.
    check!(rt; client.stats().sent == 3 + 2 * CALLS);
    // What the bootstrap's results named is held, though they are finished.
    let results = client.results(desk.number).expect(rt, "results");
    drop(results);
    check!(rt; client.release(0).is_ok());
}

#[test]
fn results_finish_their_question(rt: HostRuntime) {
    let alloc = rt.alloc();
    let mut bytes = bytes_of(&rt, alloc, &[DESK]);
    let sum = bytes_of(&rt, alloc, &[SUM]);
    for _ in 0..CALLS {
        bytes.extend_from_slice(&sum).expect(&rt, "memory");
    }
    let failed = bytes_of(&rt, alloc, &[FAILED]);
    bytes.extend_from_slice(&failed).expect(&rt, "memory");
    let never = (Fails::Never, usize::MAX);
    check!(&rt; play_over(&rt, alloc, &bytes, never, Scene::TakesResults).unread == 0);
    drop(failed);
    drop(sum);
    drop(bytes);
}

/// A path of results can be called that were taken so, until the question is finished.
pub(crate) fn expect_left_open<R: Read + Drop, W: Write + Drop, O: ServedObject<Makes = O>>(
    rt: &impl Abort,
    alloc: Global,
    client: &mut Client<R, W, O>,
) {
    let desk = client.bootstrap().expect(rt, "a bootstrap");
    let results = client.results_kept(desk.number).expect(rt, "results");
    drop(results);
    let first = call(rt, alloc, client, desk).expect(rt, "a call");
    let results = client.results(first.number).expect(rt, "results");
    drop(results);
    check!(rt; client.finish(desk).is_ok());
    let unknown = ClientFault::Connection(ConnectionFault::Refused(VatFault::UnknownQuestion));
    check!(rt; call(rt, alloc, client, desk).err() == Some(unknown));
    let request = request_of(alloc, 1, 0, &[]).expect(rt, "memory");
    check!(rt; client.call(Cap::Import(0), request).is_ok());
}

#[test]
fn kept_results_can_be_called(rt: HostRuntime) {
    check!(&rt; play(&rt, rt.alloc(), &[DESK, SUM], Scene::KeepsResults).unread == 0);
}

/// Questions that nobody finishes fill their table, which is told with what to do.
pub(crate) fn expect_full<R: Read + Drop, W: Write + Drop, O: ServedObject<Makes = O>>(
    rt: &impl Abort,
    alloc: Global,
    client: &mut Client<R, W, O>,
) {
    let desk = client.bootstrap().expect(rt, "a bootstrap");
    drop(client.wait(desk).expect(rt, "an outcome"));
    for _ in 1..65_536 {
        check!(rt; call(rt, alloc, client, desk).is_ok());
    }
    let full = call(rt, alloc, client, desk).err().expect(rt, "a fault");
    let said = format!(in alloc; "{full}").expect(rt, "memory");
    expect_text(rt, said.as_str(), "V8 Full");
    drop(said);
    let said = format!(in alloc; "{full:#}").expect(rt, "memory");
    check!(rt; said.as_str().ends_with("; finish the questions, and release the imports, that you no longer need"));
    drop(said);
    // One that was answered makes room once it is finished.
    check!(rt; client.finish(desk).is_ok());
    check!(rt; client.bootstrap().is_ok());
}

#[test]
fn a_full_table_says_what_to_do(rt: HostRuntime) {
    play(&rt, rt.alloc(), &[DESK], Scene::FinishesNone);
}
