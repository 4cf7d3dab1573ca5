//! Serves an object whose results hold 1 MiB, or what it is given: `giving PORT COUNT` serves COUNT connections on 127.0.0.1, one after another,
//! with a new Blob for each, as `server PORT COUNT blob` does. With `host` after these words a `Host` serves them, at once.
#![tactic(auto)]

use anyhow::anyhow;
use cp_builder::BuildError;
use cp_frame::Mode;
use cp_objects::{Objects, ServantObject};
use cp_refs::{Outcome, Request};
use cp_servants::{PayloadBuilder, Reply, Servant, Settled, named_imports, no_such_method, outcome_of};
use cp_serve::serve_each;
use cp_stream::Tap;
use net_host::{Host, HostConfig, HostEvent};
use net_sockets::Listener;
use std::alloc::{AllocError, Global};
use std::env;
use std::net::{Ipv4Addr, SocketAddr, TcpListener, TcpStream};

const BLOB: u64 = 0xe5a1_0000_0000_0004;

const GET: u16 = 0;

const ECHO: u16 = 1;

/// How many bytes it gives.
const LARGE: usize = 1 << 20;

/// Gives its bytes, and how often it was called.
#[derive(Drop)]
struct Blob {
    alloc: Global,
    bytes: Vec<u8>,
    calls: u64,
}

impl Blob {
    fn new(alloc: Global) -> Result<Blob, AllocError> {
        Ok(Blob {
            alloc,
            bytes: vec![in alloc; 0x5a; LARGE]?,
            calls: 0,
        })
    }

    fn get(&mut self) -> Result<Outcome, AllocError> {
        self.calls = self.calls.wrapping_add(1);
        outcome_of(self.alloc, self.content())
    }

    fn content(&self) -> Result<PayloadBuilder, BuildError> {
        let content = PayloadBuilder::new(self.alloc).word(self.calls)?;
        content.data(self.bytes.as_slice())
    }
}

impl Servant for Blob {
    fn call(&mut self, _ticket: u64, request: Request) -> Result<Reply, AllocError> {
        let gives_up = named_imports(self.alloc, &request.caps)?;
        let outcome = match (request.interface, request.method) {
            (BLOB, GET) => self.get()?,
            (BLOB, ECHO) => {
                let Request { content, caps, .. } = request;
                Outcome::Results { content, caps }
            }
            _ => no_such_method(self.alloc)?,
        };
        Ok(Reply::Now { outcome, gives_up })
    }

    fn poll(&mut self) -> Result<Option<Settled>, AllocError> {
        Ok(None)
    }

    fn has_more(&self) -> bool {
        false
    }
}

/// Serves a Blob on a connection, to its end.
fn serve_blob(alloc: Global, stream: &TcpStream) -> anyhow::Result<()> {
    stream.set_nodelay(true)?;
    let mut objects = Vec::new(alloc);
    objects.push(Blob::new(alloc)?)?;
    let (mut from, mut to) = (Tap::new(stream), Tap::new(stream));
    serve_each(alloc, &mut from, &mut to, &mut objects, Mode::Plain)?;
    Ok(())
}

/// Serves so many connections, one after another.
fn serve_in_turn(rt: &HostRuntime, address: SocketAddr, count: u64) -> anyhow::Result<()> {
    let listener = TcpListener::bind(rt, address)?;
    for _ in 0..count {
        let (stream, _) = listener.accept()?;
        serve_blob(rt.alloc(), &stream)?;
    }
    Ok(())
}

/// Serves so many connections, at once.
fn serve_hosted(rt: &HostRuntime, address: SocketAddr, count: u64) -> anyhow::Result<()> {
    let config = HostConfig {
        count: Some(count),
        ..HostConfig::standard()
    };
    let mut host = Host::new(rt, config, Listener::bind(rt, address)?)?;
    for _ in 0..u64::MAX {
        match host.next(rt)? {
            Some(HostEvent::Connected { .. }) => {
                let mut objects = Objects::new(rt.alloc());
                drop(objects.add(ServantObject::new(Blob::new(rt.alloc())?))?);
                host.admit(objects)?;
            }
            Some(_) => (),
            None => break,
        }
    }
    Ok(())
}

fn main(rt: HostRuntime) -> anyhow::Result<()> {
    let words: Vec<String> = env::args(&rt)?.collect(rt.alloc())?;
    let (port, count, is_hosted) = match words.as_slice() {
        [_, port, count] => (port, count, false),
        [_, port, count, last] if last.as_str() == "host" => (port, count, true),
        _ => return Err(anyhow!("usage: giving PORT COUNT [host]")),
    };
    let address = SocketAddr::from((Ipv4Addr::LOCALHOST, port.as_str().parse::<u16>()?));
    let count = count.as_str().parse::<u64>()?;
    if is_hosted {
        serve_hosted(&rt, address, count)
    } else {
        serve_in_turn(&rt, address, count)
    }
}
