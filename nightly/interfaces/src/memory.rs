//! Serves a directory of people, and calls it, over two ends of a connection in memory; the directory tells an object of its
//! client's of each person that is added.

use crate::counter::Counter;
use crate::peer::Calling;
use crate::{Served, new_directory};
use directory::{
    DirectoryAddParamsBuilder, DirectoryClient, DirectoryFindResultsPipeline, PersonBuilder,
    WatcherClient, WatcherDispatch,
};
use jamdrosek::client::{Cap, Client};
use jamdrosek::server::{Either, Objects};
use jamdrosek::session::{DrivenSession, Session, SessionLimits, SessionOptions};
use jamdrosek::{Limits, Mode};
use std::alloc::Global;
use std::cell::RefCell;
use std::io::{Read, Write};
use std::rc::Rc;

/// Prints what the client is told.
pub fn run(rt: &HostRuntime) -> anyhow::Result<()> {
    let alloc = rt.alloc();
    let sent = served(alloc, &asked(alloc)?)?;
    println!(rt; "{}", answered(alloc, &sent)?.as_str())?;
    Ok(())
}

/// A client of these bytes, whose object 0 is told of people.
fn new_client<'b>(
    alloc: Global,
    from: &'b [u8],
    count: Rc<RefCell<u64>>,
) -> anyhow::Result<Calling<&'b [u8], Vec<u8>>> {
    let mut objects: Objects<Served> = Objects::new(alloc);
    objects.add(Either::Left(WatcherDispatch::new(Counter { count })))?;
    let (mode, limits) = (Mode::Plain, Limits::standard());
    Ok(Client::with_objects(alloc, from, Vec::new(alloc), mode, limits, objects))
}

/// Adds a person.
fn add<R: Read + Drop, W: Write + Drop>(
    alloc: Global,
    client: &mut Calling<R, W>,
    directory: &DirectoryClient,
) -> anyhow::Result<()> {
    let mut person = PersonBuilder::new(alloc)?;
    person.set_name("Ada")?;
    person.set_age(36);
    let mut params = DirectoryAddParamsBuilder::new(alloc)?;
    params.set_person(person);
    directory.add(client, params)?;
    Ok(())
}

/// Makes all calls, before the peer's object is known: has the client's object told of each person that is added, adds one, and finds it.
fn ask<R: Read + Drop, W: Write + Drop>(
    alloc: Global,
    client: &mut Calling<R, W>,
) -> anyhow::Result<DirectoryFindResultsPipeline> {
    let root = client.bootstrap()?.cap(alloc);
    let directory = DirectoryClient::new(alloc, client.own(root));
    directory.watch(client, WatcherClient::new(alloc, client.own(Cap::Object(0))))?;
    add(alloc, client, &directory)?;
    Ok(directory.find(client, "Ada")?)
}

/// What the calls came to, in words.
fn told<R: Read + Drop, W: Write + Drop>(
    alloc: Global,
    client: &mut Calling<R, W>,
    count: &Rc<RefCell<u64>>,
) -> anyhow::Result<String> {
    let found = ask(alloc, client)?;
    let came = client.results(found.question())?;
    let person = found.results(&came)?.person()?;
    let name = person.name()?.text(alloc)?;
    let (name, age, count) = (name.as_str(), person.age(), *count.try_borrow()?);
    Ok(format!(in alloc; "{name} is {age}, and the watcher was told of {count}")?)
}

/// No person yet.
fn none(alloc: Global) -> anyhow::Result<Rc<RefCell<u64>>> {
    Ok(Rc::new(alloc, RefCell::new(0_u64))?)
}

/// The bytes that a client sends for its calls.
fn asked(alloc: Global) -> anyhow::Result<Vec<u8>> {
    let mut client = new_client(alloc, &[], none(alloc)?)?;
    let asked = ask(alloc, &mut client);
    let flushed = client.flush();
    let (_, sent) = client.into_devices();
    let _ = (asked?, flushed?);
    Ok(sent)
}

/// What a server with a Shelf sends for these bytes.
fn served(alloc: Global, bytes: &[u8]) -> anyhow::Result<Vec<u8>> {
    let options = SessionOptions {
        mode: Mode::Plain,
        messages: Limits::standard(),
        bootstrap: Some(0),
        may_call: true,
        releases_idle: true,
        limits: SessionLimits::standard(),
    };
    let mut server = Session::new(alloc, &options, new_directory(alloc)?, 0);
    for byte in bytes {
        server.receive(&[*byte], 0)?;
    }
    let sent = Vec::from_slice(alloc, server.outgoing());
    drop(server);
    Ok(sent?)
}

/// What a client is told that gets these bytes for its calls.
fn answered(alloc: Global, bytes: &[u8]) -> anyhow::Result<String> {
    let count = none(alloc)?;
    let mut client = new_client(alloc, bytes, count.clone()?)?;
    let line = told(alloc, &mut client, &count);
    let _ = client.into_devices();
    line
}
