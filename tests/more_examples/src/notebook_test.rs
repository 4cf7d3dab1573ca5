//! Tests `notebook_client` and `notebook_server` in memory: what one sends, the other receives. Then two clients of one host, each of which
//! is told what the other adds.

use crate::notebook_client::talk;
use crate::notebook_server::{Served, new_objects, new_shelf};
use anyhow::anyhow;
use jamdrosek::client::Client;
use jamdrosek::host::{Host, HostConfig, Listener, HostEvent};
use jamdrosek::session::{DrivenSession, Session, SessionLimits, SessionOptions};
use jamdrosek::{Limits, Mode};
use notebook::PageClient;
use std::alloc::Global;
use std::io::{Read, Write};
use std::net::{Ipv4Addr, Shutdown, SocketAddr, TcpStream};

pub fn run(rt: &HostRuntime) -> anyhow::Result<()> {
    let alloc = rt.alloc();
    // The second time the client goes on, as the answers are there.
    let (calls, _) = exchange(alloc, &[])?;
    let (answers, _, _) = answers_to(alloc, &calls)?;
    let (calls, said) = exchange(alloc, &answers)?;
    let (_, most, left) = answers_to(alloc, &calls)?;
    println!(rt; "{}", said?.as_str())?;
    println!(rt; "{most} objects, and {left} once the page is dropped")?;
    let (misread_calls, _) = misread(alloc, &[])?;
    let (answers, _, _) = answers_to(alloc, &misread_calls)?;
    let (_, said) = misread(alloc, &answers)?;
    println!(rt; "{}", said.as_str())?;
    let (first, second) = hellos(rt, &calls)?;
    println!(rt; "hello {first} times to the first client, {second} times to the second")?;
    Ok(())
}

/// What a client sends that receives these bytes, and what it says.
fn exchange(alloc: Global, from: &[u8]) -> anyhow::Result<(Vec<u8>, anyhow::Result<String>)> {
    talk(alloc, from, Vec::new(alloc))
}

/// What a client sends that takes a notebook for a page, and what it is told.
fn misread(alloc: Global, from: &[u8]) -> anyhow::Result<(Vec<u8>, String)> {
    let mut client = Client::new(alloc, from, Vec::new(alloc), Mode::Plain, Limits::standard());
    let root = client.bootstrap()?.cap(alloc);
    let page = PageClient::new(alloc, client.own(root));
    let read = page.read(&mut client)?;
    let said = match client.results(read.question()) {
        Ok(_) => String::new(alloc),
        Err(fault) => format!(in alloc; "{fault}")?,
    };
    let (_, to) = client.into_devices();
    Ok((to, said))
}

/// What a notebook sends for these bytes, how many objects there are at most, and how many once it had time to drop what nobody has.
fn answers_to(alloc: Global, bytes: &[u8]) -> anyhow::Result<(Vec<u8>, usize, usize)> {
    let options = SessionOptions {
        mode: Mode::Plain,
        messages: Limits::standard(),
        bootstrap: Some(0),
        may_call: true,
        releases_idle: true,
        limits: SessionLimits::standard(),
    };
    let objects = new_objects(alloc, &new_shelf(alloc)?, 1)?;
    let mut server = Session::new(alloc, &options, objects, 0);
    let mut most = 0;
    for byte in bytes {
        server.receive(&[*byte], 0)?;
        most = most.max(server.objects().len());
    }
    server.tick(1_000);
    let sent = Vec::from_slice(alloc, server.outgoing());
    let left = server.objects().len();
    drop(server);
    Ok((sent?, most, left))
}

/// How often a host sends a note's text to each of two clients that add it, one after another. The page says it, and the watcher is told of
/// it. The first one's is told of the second one's too.
fn hellos(rt: &HostRuntime, calls: &[u8]) -> anyhow::Result<(usize, usize)> {
    let listener = Listener::bind(rt, SocketAddr::from((Ipv4Addr::LOCALHOST, 0)))?;
    let address = listener.address()?.ok_or_else(|| anyhow!("no address"))?;
    let (first, second) = (client(rt, address, calls)?, client(rt, address, calls)?);
    second.shutdown(Shutdown::Write)?;
    let mut host = Host::new(rt, HostConfig::standard(), listener)?;
    serve_both(rt, &mut host, &first)?;
    drop(host);
    Ok((hellos_to(rt, first)?, hellos_to(rt, second)?))
}

/// A client that has sent these calls.
fn client(rt: &HostRuntime, address: SocketAddr, calls: &[u8]) -> anyhow::Result<TcpStream> {
    let mut client = TcpStream::connect(rt, address)?;
    client.write_all(calls)?;
    Ok(client)
}

/// Serves one shelf until the second client has ended, and then the first, which was silent meanwhile.
fn serve_both(
    rt: &HostRuntime,
    host: &mut Host<Served>,
    first: &TcpStream,
) -> anyhow::Result<()> {
    let shelf = new_shelf(rt.alloc())?;
    for _ in 0..u64::MAX {
        match host.next(rt)? {
            Some(HostEvent::Connected { number, .. }) => {
                host.admit(new_objects(rt.alloc(), &shelf, number)?)?;
            }
            Some(HostEvent::Ended { number: 2, .. }) => first.shutdown(Shutdown::Write)?,
            Some(HostEvent::Ended { .. }) | None => break,
            Some(_) => {}
        }
    }
    Ok(())
}

/// How often a client that was closed had been sent the text.
fn hellos_to(rt: &HostRuntime, mut client: TcpStream) -> anyhow::Result<usize> {
    let mut bytes = Vec::new(rt.alloc());
    client.read_to_end(&mut bytes)?;
    Ok(
        bytes
            .windows(5)
            .filter(|text| *text == b"hello".as_slice())
            .count(),
    )
}
