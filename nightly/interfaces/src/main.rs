//! Calls servers over the reference library by typed clients, with objects of its own that they call, and serves typed objects to
//! one client: `interfaces calculator|directory PORT` and `interfaces serve reckoner|directory PORT`. `interfaces memory` has both
//! ends in memory.
#![tactic(auto)]

mod counter;
mod directing;
mod evaluating;
mod functions;
mod memory;
mod peer;
mod reckoner;
mod shelf;

use anyhow::anyhow;
use calculator::{FunctionDispatch, ReckonerDispatch};
use counter::Counter;
use directing::{Directing, Echo};
use directory::{DirectoryDispatch, FriendDispatch, WatcherDispatch};
use evaluating::Evaluating;
use functions::{Binary, Function};
use jamdrosek::client::Client;
use jamdrosek::server::{Either, Objects};
use jamdrosek::{Limits, Mode};
use peer::Calling;
use reckoner::{Reckoner, new_reckoner};
use shelf::Shelf;
use std::alloc::Global;
use std::cell::RefCell;
use std::fmt::Display;
use std::io::{Read, Write};
use std::net::{Ipv4Addr, SocketAddr, TcpListener, TcpStream};
use std::rc::Rc;
use std::{env, fmt};

/// Objects that are served from one end.
type Own = Either<ReckonerDispatch<Reckoner>, DirectoryDispatch<Shelf>>;

/// The objects of this program.
pub type Served =
    Either<WatcherDispatch<Counter>, Either<FriendDispatch<Echo>, Either<FunctionDispatch<Function>, Own>>>;

/// Prints what a trial came to.
fn print<T: Display + Drop>(
    rt: &HostRuntime,
    what: &str,
    came: anyhow::Result<T>,
) -> anyhow::Result<()> {
    match came {
        Ok(came) => println!(rt; "{what}: {came}")?,
        Err(fault) => println!(rt; "{what}: {fault}")?,
    }
    Ok(())
}

/// All trials of a calculator.
fn evaluate<R: Read + Drop, W: Write + Drop>(
    rt: &HostRuntime,
    client: &mut Calling<R, W>,
) -> anyhow::Result<()> {
    let mut trials = Evaluating::new(rt.alloc(), client)?;
    print(rt, "123 + 45 - 67", trials.operators())?;
    print(rt, "4 * 6 + 3", trials.values())?;
    print(rt, "f(12, 34)", trials.definitions())?;
    print(rt, "2 ^ (4 + 5)", trials.own_functions())?;
    print(rt, "7.5", trials.superinterface())?;
    print(rt, "a param of no function", trials.exceptions())?;
    print(rt, "no value", trials.null())?;
    print(rt, "no function", trials.no_function())?;
    print(rt, "no value + 3", trials.no_value())
}

/// All trials of a directory.
fn direct<R: Read + Drop, W: Write + Drop>(
    rt: &HostRuntime,
    client: &mut Calling<R, W>,
) -> anyhow::Result<()> {
    let mut trials = Directing::new(rt.alloc(), client)?;
    print(rt, "name", trials.name())?;
    print(rt, "watch", trials.watch())?;
    print(rt, "add", trials.add())?;
    print(rt, "promised", trials.promised())?;
    print(rt, "found", trials.found())?;
    print(rt, "alone", trials.alone())?;
    print(rt, "nobody, promised", trials.promised_nobody())?;
    print(rt, "nobody, found", trials.found_nobody())?;
    print(rt, "watched by nobody", trials.watch_by_nobody())?;
    print(rt, "name again", trials.name())
}

/// The objects of a client: a watcher, a friend and a function.
fn new_objects(alloc: Global) -> anyhow::Result<Objects<Served>> {
    let count = Rc::new(alloc, RefCell::new(0_u64))?;
    let mut objects = Objects::new(alloc);
    objects.add(Either::Left(WatcherDispatch::new(Counter { count })))?;
    objects.add(Either::Right(Either::Left(FriendDispatch::new(Echo {}))))?;
    objects.add(Function::of(Binary::Power))?;
    Ok(objects)
}

/// A directory, as object 0.
fn new_directory(alloc: Global) -> anyhow::Result<Objects<Served>> {
    let shelf = DirectoryDispatch::new(Shelf::new(alloc));
    let mut objects = Objects::new(alloc);
    objects.add(Either::Right(Either::Right(Either::Right(Own::Right(shelf)))))?;
    Ok(objects)
}

/// Calls the server at a port.
fn call(rt: &HostRuntime, trial: &str, port: u16) -> anyhow::Result<()> {
    let alloc = rt.alloc();
    let address = SocketAddr::from((Ipv4Addr::LOCALHOST, port));
    let stream = TcpStream::connect(rt, address)?;
    stream.set_nodelay(true)?;
    let (mode, limits) = (Mode::Plain, Limits::standard());
    let objects = new_objects(alloc)?;
    let mut client = Client::with_objects(alloc, &stream, &stream, mode, limits, objects);
    let came = match trial {
        "calculator" => evaluate(rt, &mut client),
        _ => direct(rt, &mut client),
    };
    let _ = client.into_devices();
    came
}

/// Serves one client at a port.
fn serve(rt: &HostRuntime, trial: &str, port: u16) -> anyhow::Result<()> {
    let alloc = rt.alloc();
    let listener = TcpListener::bind(rt, SocketAddr::from((Ipv4Addr::LOCALHOST, port)))?;
    let (stream, _) = listener.accept()?;
    stream.set_nodelay(true)?;
    let (mode, limits) = (Mode::Plain, Limits::standard());
    let objects = match trial {
        "reckoner" => new_reckoner(alloc)?,
        _ => new_directory(alloc)?,
    };
    let mut client = Client::with_objects(alloc, &stream, &stream, mode, limits, objects);
    let served = client.serve();
    let _ = client.into_devices();
    Ok(served?)
}

fn main(rt: HostRuntime) -> anyhow::Result<()> {
    let words: Vec<String> = env::args(&rt)?.collect(rt.alloc())?;
    match words.as_slice() {
        [_, _] => memory::run(&rt),
        [_, trial, port] => call(&rt, trial.as_str(), port.as_str().parse::<u16>()?),
        [_, _, trial, port] => serve(&rt, trial.as_str(), port.as_str().parse::<u16>()?),
        _ => Err(anyhow!("usage: interfaces memory, or interfaces [serve] TRIAL PORT")),
    }
}
