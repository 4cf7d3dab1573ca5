//! Tests `directory_server` by clients of one host, in one thread: one finds what another one added, and calls it over the host.

use crate::directory_server::{Members, Served, new_objects};
use anyhow::anyhow;
use directory::{DirectoryClient, MemberClient, MemberDispatch, MemberSayCall, MemberServer};
use jamdrosek::client::{Cap, Client, ConnectOptions, DuplexStream, SocketClient};
use jamdrosek::host::{Host, HostConfig, HostEvent, Listener};
use jamdrosek::interfaces::{MethodResult, ResultPayload, ServiceObject};
use jamdrosek::server::{Context, Objects};
use jamdrosek::{Limits, Mode};
use std::cell::RefCell;
use std::collections::BTreeMap;
use std::net::{Ipv4Addr, SocketAddr};
use std::rc::Rc;
use std::time::Duration;

/// The objects of a client.
type Own = MemberDispatch<Echo>;

/// A host with its members.
#[derive(Drop)]
struct Server {
    host: Host<Served>,
    members: Members,
}

/// A client with the host's directory.
#[derive(Drop)]
struct Peer<'s, 'r> {
    stream: &'s DuplexStream<'r, HostRuntime>,
    client: SocketClient<'s, 'r, HostRuntime, Own>,
    directory: DirectoryClient,
}

pub fn run(rt: &HostRuntime) -> anyhow::Result<()> {
    let alloc = rt.alloc();
    let listener = Listener::bind(rt, SocketAddr::from((Ipv4Addr::LOCALHOST, 0)))?;
    let address = listener.address()?.ok_or_else(|| anyhow!("no address"))?;
    let host = Host::new(rt, HostConfig::standard(), listener)?;
    let members = Rc::new(alloc, RefCell::new(BTreeMap::new(alloc)))?;
    let mut server = Server { host, members };
    let streams = (connect(rt, address)?, connect(rt, address)?);
    let (mut ann, member) = begin(rt, &streams.0)?;
    let (mut bob, back) = begin(rt, &streams.1)?;
    let joined = ann.directory.join(&mut ann.client, "Ann", member)?;
    drop(results(rt, &mut server, &mut ann, &mut bob, joined.question())?);
    let found = bob.directory.find(&mut bob.client, "Ann")?.member_()?;
    let said = found.say(&mut bob.client, "hello", back)?;
    let came = results(rt, &mut server, &mut bob, &mut ann, said.question())?;
    println!(rt;
        "a member heard {}",
        said.results(&came)?.heard()?.text(alloc)?.as_str()
    )?;
    let other = said.results(&came)?.other_client(alloc, came.caps())?;
    let is_own = matches!(other.target.cap().cap(), Cap::Object(_));
    println!(rt; "and gave back what is the caller's own: {is_own}")?;
    Ok(())
}

/// A connection to the host.
fn connect(rt: &HostRuntime, address: SocketAddr) -> anyhow::Result<DuplexStream<'_, HostRuntime>> {
    let at = format!(in rt.alloc(); "{address}")?;
    Ok(DuplexStream::connect(rt, at.as_str(), &ConnectOptions::standard())?)
}

/// A client over a connection, and its member.
fn begin<'s, 'r>(
    rt: &HostRuntime,
    stream: &'s DuplexStream<'r, HostRuntime>,
) -> anyhow::Result<(Peer<'s, 'r>, MemberClient)> {
    let alloc = rt.alloc();
    let mut objects = Objects::new(alloc);
    let member = MemberClient::new(alloc, objects.add(MemberDispatch::new(Echo {}))?);
    let limits = Limits::standard();
    let mut client = Client::with_objects(alloc, stream, stream, Mode::Plain, limits, objects);
    let root = client.bootstrap()?.cap(alloc);
    let directory = DirectoryClient::new(alloc, client.own(root));
    let peer = Peer {
        stream,
        client,
        directory,
    };
    Ok((peer, member))
}

/// The results of a client's question: it, the host and the other client have their turns until they are there.
fn results(
    rt: &HostRuntime,
    server: &mut Server,
    peer: &mut Peer<'_, '_>,
    other: &mut Peer<'_, '_>,
    question: u32,
) -> anyhow::Result<ResultPayload> {
    let time = Duration::from_millis(1);
    for _ in 0..100 {
        if let Ok(came) = peer.stream.results_within(&mut peer.client, question, time) {
            return Ok(came);
        }
        turn(rt, server)?;
        other.stream.serve_for(&mut other.client, time)?;
    }
    Err(anyhow!("no results"))
}

/// What the host does in ten milliseconds.
fn turn(rt: &HostRuntime, server: &mut Server) -> anyhow::Result<()> {
    server.host.wake_after(rt, 10)?;
    for _ in 0..u64::MAX {
        match server.host.next(rt)? {
            Some(HostEvent::Connected { .. }) => {
                let objects = new_objects(rt.alloc(), &server.members)?;
                server.host.admit(objects)?;
            }
            Some(HostEvent::Woken) | None => break,
            Some(_) => {}
        }
    }
    Ok(())
}

/// A member that gives back what it is told, and what is named to it.
#[derive(Drop)]
struct Echo {}

impl ServiceObject for Echo {
    type Makes = Own;

    fn has_more(&self) -> bool {
        false
    }
}

impl MemberServer for Echo {
    fn say(&mut self, call: &mut MemberSayCall<'_>, context: &mut Context<Own>) -> MethodResult {
        let back = call.params.back_client(context.alloc(), call.caps())?;
        call.results.set_heard(call.params.text()?)?;
        Ok(call.results.set_other(back)?)
    }
}
