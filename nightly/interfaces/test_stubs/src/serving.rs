//! Objects that are called through the glue.

ghost use Rattle.std.specs.Prelude.{IfOk};
ghost use Rattle.cp_interfaces.specs.Services.{at};
ghost use Rattle.directory.specs.Watcher.{WatcherTakes};

use crate::counter::{Counter, Counting};
use crate::shelf::{Shelf, Shelved};
use cp_builder::BuildError;
use cp_fields::PointerReader;
use cp_objects::{Context, ObjectTable, Objects, SessionCap};
use cp_refs::{Cap, Caps, Outcome, Request};
use cp_rpc::{Exception, ExceptionKind};
use cp_servants::{Reply, RequestView};
use cp_interfaces::{Dispatch, MethodCall, NamingError};
use cp_tree::{Tree, Whole};
use cp_vat_machine::Ids;
use directory::{
    DirectoryAddParamsBuilder, DirectoryClient, DirectoryDispatch, FriendClient, NamedClient,
    PersonBuilder, WatcherAddedParamsBuilder, WatcherClient, WatcherDispatch,
};
use std::alloc::{AllocError, Global};
use std::process::Abort;

/// A Shelf that is served.
fn shelf(alloc: Global) -> Result<Objects<Shelved>, AllocError> {
    let mut objects = Objects::new(alloc);
    objects.add(DirectoryDispatch::new(Shelf {
        count: 0,
        sought: None,
    }))?;
    Ok(objects)
}

/// What the first object answers, once it was polled too.
fn reply_of<H: ObjectTable>(
    alloc: Global,
    objects: &mut H,
    request: &Request,
) -> Result<Option<Reply>, AllocError> {
    if !objects.has(0) {
        return Ok(None);
    }
    let request = RequestView {
        interface: request.interface,
        method: request.method,
        content: PointerReader::of_whole(&request.content),
        caps: request.caps.copy(alloc)?,
    };
    let reply = objects.call_at(alloc, 0, 1, request)?;
    if objects.has(0) {
        drop(objects.poll_at(0)?);
    }
    Ok(Some(reply))
}

/// What a call comes to at once, and the imports that are given up. `None` says later.
fn came(rt: &impl Abort, alloc: Global, request: Request) -> Option<(Outcome, Ids)> {
    let mut objects = shelf(alloc).expect(rt, "memory");
    let reply = reply_of(alloc, &mut objects, &request).expect(rt, "memory");
    drop(objects);
    match reply {
        Some(Reply::Now { outcome, gives_up }) => Some((outcome, gives_up)),
        _ => None,
    }
}

/// The exception that a call fails with.
fn failed(rt: &impl Abort, alloc: Global, request: Request) -> Option<Exception> {
    let (outcome, _) = came(rt, alloc, request)?;
    match outcome {
        Outcome::Failed(exception) => Some(exception),
        _ => None,
    }
}

/// A call of a method of the directory whose params are no struct.
fn of_list(alloc: Global, interface: u64, method: u16) -> Request {
    Request {
        interface,
        method,
        content: Whole::from_shaped(Tree::Voids(1)),
        caps: Caps::new(Vec::new(alloc)),
    }
}

/// Whether a call fails with an exception of this kind, for this reason.
fn fails(
    rt: &impl Abort,
    alloc: Global,
    request: Request,
    kind: ExceptionKind,
    reason: &str,
) -> bool {
    match failed(rt, alloc, request) {
        Some(exception) => exception.kind == kind && exception.reason.as_str() == reason,
        None => false,
    }
}

/// Whether a call of a method that isn't there fails as such.
fn is_unimplemented(rt: &impl Abort, alloc: Global, request: Request) -> bool {
    let kind = ExceptionKind::Unimplemented;
    fails(rt, alloc, request, kind, "no such method")
}

#[test]
fn what_is_not_there_is_unimplemented(rt: HostRuntime) {
    let alloc = rt.alloc();
    check!(&rt; is_unimplemented(&rt, alloc, of_list(alloc, 7, 0)));
    check!(&rt; is_unimplemented(&rt, alloc, of_list(alloc, DirectoryClient::ID, 3)));
    let find = of_list(alloc, DirectoryClient::ID, 0);
    let (kind, reason) = (ExceptionKind::Failed, "a field is of another kind");
    check!(&rt; fails(&rt, alloc, find, kind, reason));
}

/// A capability of session 0.
fn own(cap: Cap) -> SessionCap {
    SessionCap::new(0, cap)
}

/// A client that is never asked: its requests alone are wanted.
fn directory(alloc: Global) -> DirectoryClient {
    DirectoryClient::new(alloc, own(Cap::None))
}

/// A call of `find`.
fn find(alloc: Global) -> Result<Request, BuildError> {
    Ok(directory(alloc).find_request("")?.request)
}

/// A call of `add`, of a person for whom import 4 speaks.
fn add(alloc: Global) -> Result<Request, NamingError> {
    let mut params = DirectoryAddParamsBuilder::new(alloc)?;
    let mut person = PersonBuilder::new(alloc)?;
    person.set_friend(&mut params.table, FriendClient::new(alloc, own(Cap::Import(4))))?;
    params.set_person(person);
    Ok(directory(alloc).add_request(params)?.request)
}

/// A call of `watch`, with import 5.
fn watch(alloc: Global) -> Result<Request, NamingError> {
    let watcher = WatcherClient::new(alloc, own(Cap::Import(5)));
    Ok(directory(alloc).watch_request(watcher)?.request)
}

/// A call of `name`.
fn name(alloc: Global) -> Result<Request, BuildError> {
    Ok(NamedClient::new(alloc, own(Cap::None)).name_request()?.request)
}

/// The imports that are given up with the results of a call.
fn given_up(rt: &impl Abort, alloc: Global, request: Request) -> Option<Ids> {
    match came(rt, alloc, request) {
        Some((Outcome::Results { .. }, gives_up)) => Some(gives_up),
        _ => None,
    }
}

#[test]
fn methods_answer_now_or_later(rt: HostRuntime) {
    let alloc = rt.alloc();
    let later = find(alloc).expect(&rt, "memory");
    check!(&rt; came(&rt, alloc, later).is_none());
    let added = given_up(&rt, alloc, add(alloc).expect(&rt, "memory"));
    check!(&rt; added.is_some_and(|ids| ids.ids() == [4].as_slice()));
    let watched = given_up(&rt, alloc, watch(alloc).expect(&rt, "memory"));
    check!(&rt; watched.is_some_and(|ids| ids.ids().is_empty()));
    let named = given_up(&rt, alloc, name(alloc).expect(&rt, "memory"));
    check!(&rt; named.is_some_and(|ids| ids.ids().is_empty()));
}

/// A counter counts a person of whom it is told by the glue. That follows from the counter's kind alone.
fn count(
    counter: &mut Counter,
    call: &MethodCall<'_>,
    context: &mut Context<Counting>,
) -> Result<Reply, AllocError>
    ensures { IfOk result (λ reply. WatcherTakes ⟦<Counter as WatcherServer>⟧.watcher_kind (at counter.old context.old) call.now reply (at counter.new context.new)) }
{
    WatcherClient::dispatch(counter, call, context)
}

#[test]
fn streams_are_called(rt: HostRuntime) {
    let alloc = rt.alloc();
    let mut objects: Objects<Counting> = Objects::new(alloc);
    let added = objects.add(WatcherDispatch::new(Counter { count: 0 }));
    drop(added.expect(&rt, "memory"));
    let params = WatcherAddedParamsBuilder::new(alloc).expect(&rt, "memory");
    let watcher = WatcherClient::new(alloc, own(Cap::None));
    let request = watcher.added_request(params).request;
    let reply = reply_of(alloc, &mut objects, &request).expect(&rt, "memory");
    check!(&rt; matches!(&reply, Some(Reply::Now { outcome: Outcome::Results { .. }, .. })));
}
