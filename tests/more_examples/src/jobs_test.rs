//! Tests `jobs_server` by clients of one host, in one thread: a job whose worker dies goes to another one, and none goes to a worker that
//! doesn't wait any longer.

use crate::jobs_server::{Served, Shared, new_jobs, new_objects};
use anyhow::anyhow;
use jamdrosek::client::{Client, ConnectOptions, DuplexStream, Question, SocketClient};
use jamdrosek::host::{Host, HostConfig, HostEvent, Listener};
use jamdrosek::interfaces::ResultPayload;
use jamdrosek::{Limits, Mode};
use jobs::{HandleWaitResultsPipeline, QueueClient, TaskClient};
use std::net::{Ipv4Addr, SocketAddr};
use std::time::Duration;

/// A host with its jobs.
#[derive(Drop)]
struct Server {
    host: Host<Served>,
    jobs: Shared,
}

/// A client with the host's queue.
#[derive(Drop)]
struct Peer<'s, 'r> {
    stream: &'s DuplexStream<'r, HostRuntime>,
    client: SocketClient<'s, 'r, HostRuntime>,
    queue: QueueClient,
}

pub fn run(rt: &HostRuntime) -> anyhow::Result<()> {
    let listener = Listener::bind(rt, SocketAddr::from((Ipv4Addr::LOCALHOST, 0)))?;
    let address = listener.address()?.ok_or_else(|| anyhow!("no address"))?;
    let host = Host::new(rt, HostConfig::standard(), listener)?;
    let jobs = new_jobs(rt.alloc())?;
    let mut server = Server { host, jobs };
    let stream = connect(rt, address)?;
    let mut peer = begin(rt, &stream)?;
    let output = submit(&mut peer, "stressed")?;
    send(rt, &mut server, &mut peer)?;
    dies(rt, &mut server, address)?;
    works(rt, &mut server, address)?;
    let came = results(rt, &mut server, &mut peer, output.question())?;
    println!(rt;
        "its output is {}",
        output.results(&came)?.output()?.text(rt.alloc())?.as_str()
    )?;
    Ok(())
}

/// A worker takes a job and dies.
fn dies(rt: &HostRuntime, server: &mut Server, address: SocketAddr) -> anyhow::Result<()> {
    let stream = connect(rt, address)?;
    let mut peer = begin(rt, &stream)?;
    let (job, _) = take(rt, server, &mut peer)?;
    println!(rt; "one worker has {}", job.as_str())?;
    Ok(())
}

/// A worker gives up a call that waits for a job. Another one takes the next two, and does the first.
fn works(rt: &HostRuntime, server: &mut Server, address: SocketAddr) -> anyhow::Result<()> {
    let streams = (connect(rt, address)?, connect(rt, address)?);
    let mut idle = begin(rt, &streams.0)?;
    let mut busy = begin(rt, &streams.1)?;
    let (job, task) = take(rt, server, &mut busy)?;
    println!(rt; "another worker has {}", job.as_str())?;
    let waits = idle.queue.take(&mut idle.client)?.question();
    send(rt, server, &mut idle)?;
    idle.client.finish(Question { number: waits })?;
    drop(submit(&mut idle, "level")?);
    send(rt, server, &mut idle)?;
    let (job, _) = take(rt, server, &mut busy)?;
    println!(rt; "and {}", job.as_str())?;
    let done = task.done(&mut busy.client, "desserts")?;
    drop(results(rt, server, &mut busy, done.question())?);
    Ok(())
}

/// A connection to the host.
fn connect(rt: &HostRuntime, address: SocketAddr) -> anyhow::Result<DuplexStream<'_, HostRuntime>> {
    let at = format!(in rt.alloc(); "{address}")?;
    Ok(DuplexStream::connect(rt, at.as_str(), &ConnectOptions::standard())?)
}

/// A client over a connection.
fn begin<'s, 'r>(
    rt: &HostRuntime,
    stream: &'s DuplexStream<'r, HostRuntime>,
) -> anyhow::Result<Peer<'s, 'r>> {
    let mut client = Client::new(rt.alloc(), stream, stream, Mode::Plain, Limits::standard());
    let root = client.bootstrap()?.cap(rt.alloc());
    let queue = QueueClient::new(rt.alloc(), client.own(root));
    Ok(Peer {
        stream,
        client,
        queue,
    })
}

/// Submits a job, and asks for its output.
fn submit(peer: &mut Peer<'_, '_>, job: &str) -> anyhow::Result<HandleWaitResultsPipeline> {
    let handle = peer.queue.submit(&mut peer.client, job)?.handle()?;
    Ok(handle.wait(&mut peer.client)?)
}

/// A job, once there is one.
fn take(
    rt: &HostRuntime,
    server: &mut Server,
    peer: &mut Peer<'_, '_>,
) -> anyhow::Result<(String, TaskClient)> {
    let taken = peer.queue.take(&mut peer.client)?;
    let came = results(rt, server, peer, taken.question())?;
    let job = taken.results(&came)?.job()?.text(rt.alloc())?;
    let task = taken.results(&came)?.task_client(rt.alloc(), came.caps())?;
    Ok((job, task))
}

/// The results of a question: the host and the client have their turns until they are there.
fn results(
    rt: &HostRuntime,
    server: &mut Server,
    peer: &mut Peer<'_, '_>,
    question: u32,
) -> anyhow::Result<ResultPayload> {
    for _ in 0..100 {
        let time = Duration::from_millis(1);
        if let Ok(came) = peer.stream.results_within(&mut peer.client, question, time) {
            return Ok(came);
        }
        turn(rt, server)?;
    }
    Err(anyhow!("no results"))
}

/// Has the host get what a client sends.
fn send(rt: &HostRuntime, server: &mut Server, peer: &mut Peer<'_, '_>) -> anyhow::Result<()> {
    peer.stream
        .serve_for(&mut peer.client, Duration::from_millis(1))?;
    turn(rt, server)
}

/// What the host does in ten milliseconds.
fn turn(rt: &HostRuntime, server: &mut Server) -> anyhow::Result<()> {
    server.host.wake_after(rt, 10)?;
    for _ in 0..u64::MAX {
        match server.host.next(rt)? {
            Some(HostEvent::Connected { .. }) => {
                server.host.admit(new_objects(rt.alloc(), &server.jobs)?)?;
            }
            Some(HostEvent::Woken) | None => break,
            Some(_) => {}
        }
    }
    Ok(())
}
