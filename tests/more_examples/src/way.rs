//! Serves a client that calls a notebook so many times, each after the answer before: `tools/way_of_a_call.py` counts what one call more runs.

use crate::notebook_server::{Served, Shared, new_objects, new_shelf};
use anyhow::anyhow;
use jamdrosek::client::Client;
use jamdrosek::host::{Host, HostConfig, Listener, HostEvent};
use jamdrosek::{Limits, Mode};
use notebook::NotebookClient;
use std::alloc::Global;
use std::env;
use std::io::Write;
use std::net::{Ipv4Addr, Shutdown, SocketAddr, TcpStream};

/// The milliseconds in which a host answers a call.
const PATIENCE: u64 = 50;

/// The bytes of a frame's head.
const HEAD: usize = 8;

pub fn run(rt: &HostRuntime) -> anyhow::Result<()> {
    let word = env::args(rt)?.nth(2);
    let count: usize = word.ok_or_else(|| anyhow!("how many?"))?.as_str().parse()?;
    let listener = Listener::bind(rt, SocketAddr::from((Ipv4Addr::LOCALHOST, 0)))?;
    let address = listener.address()?.ok_or_else(|| anyhow!("no address"))?;
    let client = TcpStream::connect(rt, address)?;
    let mut host = Host::new(rt, HostConfig::standard(), listener)?;
    let shelf = new_shelf(rt.alloc())?;
    let frames = calls(rt.alloc(), count)?;
    let served = serve_each(rt, &mut host, &shelf, &client, &frames);
    drop(host);
    served?;
    println!(rt; "{count} calls")?;
    Ok(())
}

/// What a client sends that asks for a notebook and adds so many notes.
fn calls(alloc: Global, count: usize) -> anyhow::Result<Vec<u8>> {
    let (from, to, limits) = (&[] as &[u8], Vec::new(alloc), Limits::standard());
    let mut client = Client::new(alloc, from, to, Mode::Plain, limits);
    let made = call_each(alloc, &mut client, count);
    let (_, to) = client.into_devices();
    made?;
    Ok(to)
}

fn call_each(alloc: Global, client: &mut Client<&[u8], Vec<u8>>, count: usize) -> anyhow::Result<()> {
    let root = client.bootstrap()?.cap(alloc);
    let notebook = NotebookClient::new(alloc, client.own(root));
    for _ in 0..count {
        notebook.add(client, "hello")?;
    }
    client.flush()?;
    Ok(())
}

/// Sends each of these frames, and has the host answer it before the next one.
fn serve_each(
    rt: &HostRuntime,
    host: &mut Host<Served>,
    shelf: &Shared,
    client: &TcpStream,
    frames: &[u8],
) -> anyhow::Result<()> {
    let mut rest = frames;
    for _ in 0..frames.len() {
        let Some(length) = frame_length(rest) else {
            break;
        };
        let (frame, back) = rest.split_at(length);
        let mut to = client;
        to.write_all(frame)?;
        serve(rt, host, shelf)?;
        rest = back;
    }
    client.shutdown(Shutdown::Write)?;
    serve(rt, host, shelf)
}

/// The length of the first frame of these, which have one segment each.
fn frame_length(frames: &[u8]) -> Option<usize> {
    let words = frames.get(4..HEAD)?;
    let words = u32::from_le_bytes([words[0], words[1], words[2], words[3]]);
    let length = (words as usize).checked_mul(8)?.checked_add(HEAD)?;
    if length <= frames.len() { Some(length) } else { None }
}

/// Serves for a while.
fn serve(rt: &HostRuntime, host: &mut Host<Served>, shelf: &Shared) -> anyhow::Result<()> {
    host.wake_after(rt, PATIENCE)?;
    for _ in 0..u64::MAX {
        match host.next(rt)? {
            Some(HostEvent::Connected { number, .. }) => {
                host.admit(new_objects(rt.alloc(), shelf, number)?)?;
            }
            Some(HostEvent::Woken) | None => break,
            Some(_) => {}
        }
    }
    Ok(())
}
