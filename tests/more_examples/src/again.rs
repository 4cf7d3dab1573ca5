//! Adds a note to the notebook of `notebook_server` and reads it, though that server may go away meanwhile, and come again. It shows a call
//! that is safe to repeat, and one that isn't.

use anyhow::anyhow;
use jamdrosek::client::{Backoff, CallError, Client, ConnectOptions, DuplexStream, SocketClient};
use jamdrosek::interfaces::ResultPayload;
use jamdrosek::message::ExceptionKind;
use jamdrosek::{Limits, Mode};
use notebook::NotebookClient;

/// How often a call is made that is safe to repeat.
const TRIES: u32 = 3;

pub fn run(rt: &HostRuntime) -> anyhow::Result<()> {
    match add(rt, "hello")? {
        Some(id) => println!(rt; "note {id} says {}", read(rt, id)?.as_str())?,
        None => println!(rt; "hello may have been added: it isn't added again")?,
    }
    Ok(())
}

/// Adds a note. `None`: the connection was lost before its number came, so it may be there or not. A second call could add it twice, so
/// this isn't repeated here: who calls can look, or ask.
fn add(rt: &HostRuntime, text: &str) -> anyhow::Result<Option<u32>> {
    let stream = connect(rt)?;
    let mut client = client(rt, &stream);
    let notebook = notebook(rt, &mut client)?;
    let added = notebook.add(&mut client, text)?;
    match unless_lost(client.results(added.question()))? {
        Some(came) => Ok(Some(added.results(&came)?.id())),
        None => Ok(None),
    }
}

/// The text of a note. This changes nothing, so it is asked again, over a new connection, where the old one was lost.
fn read(rt: &HostRuntime, id: u32) -> anyhow::Result<String> {
    for _ in 0..TRIES {
        if let Some(text) = read_once(rt, id)? {
            return Ok(text);
        }
    }
    Err(anyhow!("the connection was lost {TRIES} times"))
}

/// The same over one connection. `None`: it was lost.
fn read_once(rt: &HostRuntime, id: u32) -> anyhow::Result<Option<String>> {
    let stream = connect(rt)?;
    let mut client = client(rt, &stream);
    let notebook = notebook(rt, &mut client)?;
    let opened = notebook.open_(&mut client, id)?;
    let read = opened.page()?.read(&mut client)?;
    match unless_lost(client.results(read.question()))? {
        Some(came) => Ok(Some(read.results(&came)?.text()?.text(rt.alloc())?)),
        None => Ok(None),
    }
}

/// A connection to the server, once there is one: it is tried again and again, after waits that grow.
fn connect(rt: &HostRuntime) -> anyhow::Result<DuplexStream<'_, HostRuntime>> {
    let options = ConnectOptions::standard();
    Ok(DuplexStream::reconnect(rt, "127.0.0.1:7001", &options, Backoff::standard())?)
}

/// A client over a connection.
fn client<'s, 'r>(
    rt: &HostRuntime,
    stream: &'s DuplexStream<'r, HostRuntime>,
) -> SocketClient<'s, 'r, HostRuntime> {
    Client::new(rt.alloc(), stream, stream, Mode::Plain, Limits::standard())
}

/// The notebook of a client's server.
fn notebook(
    rt: &HostRuntime,
    client: &mut SocketClient<'_, '_, HostRuntime>,
) -> anyhow::Result<NotebookClient> {
    let root = client.bootstrap()?.cap(rt.alloc());
    Ok(NotebookClient::new(rt.alloc(), client.own(root)))
}

/// The results of a call, unless the connection was lost before they came.
fn unless_lost(
    results: Result<ResultPayload, CallError>,
) -> anyhow::Result<Option<ResultPayload>> {
    match results {
        Ok(came) => Ok(Some(came)),
        Err(fault) if is_lost(&fault) => Ok(None),
        Err(fault) => Err(anyhow!("{fault}")),
    }
}

/// Whether the connection was lost, so that another one may go.
fn is_lost(fault: &CallError) -> bool {
    match fault {
        CallError::Client(fault) => fault.kind() == ExceptionKind::Disconnected,
        CallError::NoResults(_) => false,
    }
}
