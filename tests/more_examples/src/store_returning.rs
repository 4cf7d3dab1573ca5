//! Puts texts into a store, one a call, and comes back where its connection is lost: after a wait that doubles, up to five seconds.
//! `store-returning PORT COUNT`

use anyhow::anyhow;
use jamdrosek::client::{CallError, Client, ClientFault};
use jamdrosek::message::ExceptionKind;
use jamdrosek::{Limits, Mode};
use std::net::{Ipv4Addr, SocketAddr, TcpStream};
use std::time::Duration;
use std::{env, thread};
use store::StoreClient;

/// The first wait and the longest one, in milliseconds.
const FIRST: u64 = 50;
const LONGEST: u64 = 5_000;

pub fn run(rt: &HostRuntime) -> anyhow::Result<()> {
    let address = SocketAddr::from((Ipv4Addr::LOCALHOST, number(rt, 2)? as u16));
    let count = number(rt, 3)?;
    let (mut done, mut lost, mut wait) = (0, 0, FIRST);
    for _ in 0..u64::MAX {
        let before = done;
        if visit(rt, address, count, &mut done)? {
            break;
        }
        lost += 1;
        // An answer shows that there was a way, so the next wait is short again.
        wait = if done > before { FIRST } else { LONGEST.min(wait * 2) };
        thread::sleep(rt, Duration::from_millis(wait));
    }
    println!(rt; "{done} texts were put, {lost} times its connection was lost")?;
    Ok(())
}

/// The word at a place, a number.
fn number(rt: &HostRuntime, place: usize) -> anyhow::Result<u64> {
    let word = env::args(rt)?.nth(place);
    Ok(word.ok_or_else(|| anyhow!("store-returning PORT COUNT"))?.as_str().parse()?)
}

/// Goes on over one connection, and counts the texts that were put. Says whether all were, or else the connection was lost.
fn visit(rt: &HostRuntime, address: SocketAddr, count: u64, done: &mut u64) -> anyhow::Result<bool> {
    let Ok(stream) = TcpStream::connect(rt, address) else {
        return Ok(false);
    };
    // A peer that is gone without a word is lost after this time.
    stream.set_read_timeout(Some(Duration::from_secs(10)))?;
    let mut client = Client::new(rt.alloc(), &stream, &stream, Mode::Plain, Limits::standard());
    match &put_all(rt, &mut client, count, done) {
        Ok(()) => Ok(true),
        Err(CallError::Client(fault)) if is_lost(*fault) => Ok(false),
        Err(fault) => Err(anyhow!("{fault}")),
    }
}

/// Whether the connection was lost, so that another one may go.
fn is_lost(fault: ClientFault) -> bool {
    fault.kind() == ExceptionKind::Disconnected
}

/// Puts the texts that are left. One whose answer is lost is put again: so a call that is made twice must do what it does once.
fn put_all(rt: &HostRuntime, client: &mut Client<&TcpStream, &TcpStream>, count: u64, done: &mut u64) -> Result<(), CallError> {
    let root = client.bootstrap()?.cap(rt.alloc());
    let store = StoreClient::new(rt.alloc(), client.own(root));
    for _ in *done..count {
        let put = store.put(client, "colour", "blue")?;
        let came = client.results(put.question())?;
        drop(came);
        *done += 1;
    }
    Ok(())
}
