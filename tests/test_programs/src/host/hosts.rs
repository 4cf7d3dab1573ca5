//! A host of 127.0.0.1, and a client in the same thread.

use cp_connection::ConnectionStats;
use cp_dispatch::Limit;
use cp_frame::Mode;
use cp_objects::{Objects, ServedObject, ServantObject};
use cp_servants::Desk;
use cp_session::SessionLimits;
use cp_words::Limits;
use net_host::{End, Host, HostLimits, HostConfig, HostEvent};
use net_sockets::{Listener, Peer};
use std::alloc::Global;
use std::io::{Read, Write};
use std::net::{Ipv4Addr, Net, Shutdown, SocketAddr, TcpListener, TcpStream};
use std::process::Abort;
use std::time::Clock;

/// The frames of two Bootstraps, questions 7 and 8.
pub(super) const TWO: [u8; 96] = [
    0x00, 0x00, 0x00, 0x00, 0x05, 0x00, 0x00, 0x00, 0x00, 0x00, 0x00, 0x00, 0x01, 0x00, 0x01, 0x00,
    0x08, 0x00, 0x00, 0x00, 0x00, 0x00, 0x00, 0x00, 0x00, 0x00, 0x00, 0x00, 0x01, 0x00, 0x01, 0x00,
    0x07, 0x00, 0x00, 0x00, 0x00, 0x00, 0x00, 0x00, 0x00, 0x00, 0x00, 0x00, 0x00, 0x00, 0x00, 0x00,
    0x00, 0x00, 0x00, 0x00, 0x05, 0x00, 0x00, 0x00, 0x00, 0x00, 0x00, 0x00, 0x01, 0x00, 0x01, 0x00,
    0x08, 0x00, 0x00, 0x00, 0x00, 0x00, 0x00, 0x00, 0x00, 0x00, 0x00, 0x00, 0x01, 0x00, 0x01, 0x00,
    0x08, 0x00, 0x00, 0x00, 0x00, 0x00, 0x00, 0x00, 0x00, 0x00, 0x00, 0x00, 0x00, 0x00, 0x00, 0x00,
];

/// One connection, plain, of which each turn takes one message.
pub(super) fn plan() -> HostConfig {
    HostConfig {
        mode: Mode::Plain,
        messages: Limits::standard(),
        limits: HostLimits {
            messages: 1,
            ..HostLimits::standard()
        },
        count: Some(1),
    }
}

/// A client that has sent both frames, and sends no more.
fn client<R>(rt: &R, address: SocketAddr) -> TcpStream
where
    R: Net<Listener = TcpListener, Stream = TcpStream> + Abort,
{
    let mut client = TcpStream::connect(rt, address).expect(rt, "a connection");
    client.write_all(&TWO).expect(rt, "a stream");
    client.shutdown(Shutdown::Write).expect(rt, "a stream");
    client
}

/// What a host tells of connection 1, without why another one ended: so no test but `next_told` lets that go.
#[derive(Clone, Copy)]
enum Told {
    Nothing,
    Connected,
    Ended,
    Other,
}

fn next_told<R, O>(rt: &R, host: &mut Host<O>) -> Told
where
    R: Net + Clock + Abort,
    O: ServedObject<Makes = O>,
{
    let news = host.next(rt).expect(rt, "a host");
    let told = match &news {
        None => Told::Nothing,
        Some(HostEvent::Connected { number: 1, .. }) => Told::Connected,
        Some(
            HostEvent::Ended {
                number: 1,
                end: End::Ended,
                ..
            },
        ) => Told::Ended,
        Some(_) => Told::Other,
    };
    drop(news);
    told
}

/// Connection 1 comes, and gets these objects. It ends by itself, and none comes after it.
fn expect_one<R, O>(rt: &R, host: &mut Host<O>, objects: Objects<O>)
where
    R: Net + Clock + Abort,
    O: ServedObject<Makes = O>,
{
    check!(rt; matches!(next_told(rt, host), Told::Connected));
    host.admit(objects).expect(rt, "a connection");
    check!(rt; matches!(next_told(rt, host), Told::Ended));
    check!(rt; matches!(next_told(rt, host), Told::Nothing));
}

/// A client gets two Returns, of one length.
fn expect_returns(rt: &impl Abort, alloc: Global, mut client: TcpStream) {
    let mut answer = Vec::new(alloc);
    client.read_to_end(&mut answer).expect(rt, "a stream");
    drop(client);
    let half = answer.len() / 2;
    check!(rt; half > 40 && answer[16] == 3 && answer[half + 16] == 3);
    drop(answer);
}

#[test]
fn two_turns_of_one_connection(rt: HostRuntime) {
    let context = SocketAddr::from((Ipv4Addr::LOCALHOST, 0));
    let listener = Listener::bind(&rt, context).expect(&rt, "a port");
    let address = listener
        .address()
        .expect(&rt, "a socket")
        .expect(&rt, "a port");
    let client = client(&rt, address);
    let mut host = Host::new(&rt, plan(), listener).expect(&rt, "a host");
    let desk = Desk::new(rt.alloc());
    let mut objects = Objects::new(rt.alloc());
    drop(objects.add(ServantObject::new(desk)).expect(&rt, "memory"));
    expect_one(&rt, &mut host, objects);
    drop(host);
    expect_returns(&rt, rt.alloc(), client);
}

#[test]
fn figures_of_a_connection(rt: HostRuntime) {
    let context = SocketAddr::from((Ipv4Addr::LOCALHOST, 0));
    let listener = Listener::bind(&rt, context).expect(&rt, "a port");
    let address = listener
        .address()
        .expect(&rt, "a socket")
        .expect(&rt, "a port");
    let mut client = TcpStream::connect(&rt, address).expect(&rt, "a connection");
    client.write_all(&TWO).expect(&rt, "a stream");
    let mut host = Host::new(&rt, plan(), listener).expect(&rt, "a host");
    let mut objects = Objects::new(rt.alloc());
    drop(objects.add(ServantObject::new(Desk::new(rt.alloc()))).expect(&rt, "memory"));
    check!(&rt; matches!(next_told(&rt, &mut host), Told::Connected));
    host.admit(objects).expect(&rt, "a connection");
    host.wake_after(&rt, 200).expect(&rt, "a clock");
    check!(&rt; matches!(next_told(&rt, &mut host), Told::Other));
    let figures = host.figures();
    check!(&rt; figures.served == 1 && figures.messages == 2 && figures.bytes == 96);
    check!(&rt; figures.sent == 2 && figures.kept > 0);
    client.shutdown(Shutdown::Write).expect(&rt, "a stream");
    check!(&rt; matches!(next_told(&rt, &mut host), Told::Ended));
    check!(&rt; host.figures().served == 0 && host.figures().messages == 0);
    drop(host);
    expect_returns(&rt, rt.alloc(), client);
}

#[test]
fn connections_at_once(rt: HostRuntime) {
    let limits = HostLimits {
        connections: 2,
        ..HostLimits::standard()
    };
    check!(&rt; limits.has_room(1) && !limits.has_room(2));
    let standard = HostLimits::standard();
    check!(&rt; standard.has_room(999) && !standard.has_room(1_000));
    // Half of 4 GiB is shared out.
    check!(&rt; standard.share() == 2_147_483 && standard.pool() == 2_147_483_648);
}

/// A client that has sent one of the frames, and sends no more.
fn client_of<R>(rt: &R, address: SocketAddr, frame: &[u8]) -> TcpStream
where
    R: Net<Listener = TcpListener, Stream = TcpStream> + Abort,
{
    let mut client = TcpStream::connect(rt, address).expect(rt, "a connection");
    client.write_all(frame).expect(rt, "a stream");
    client.shutdown(Shutdown::Write).expect(rt, "a stream");
    client
}

/// A connection comes from this client, whose end is at this address.
fn expect_came_from<R>(rt: &R, host: &mut Host<ServantObject<Desk>>, client: &TcpStream)
where
    R: Net + Clock + Abort,
{
    let local = client.local_addr().expect(rt, "a stream");
    let news = host.next(rt).expect(rt, "a host");
    check!(rt; matches!(&news, Some(HostEvent::Connected { peer: Peer::Tcp(address), .. }) if *address == local));
    drop(news);
}

/// Serves the connection that came with a desk.
pub(super) fn admit_desk(rt: &impl Abort, alloc: Global, host: &mut Host<ServantObject<Desk>>) {
    let mut objects = Objects::new(alloc);
    drop(objects.add(ServantObject::new(Desk::new(alloc))).expect(rt, "memory"));
    host.admit(objects).expect(rt, "a connection");
}

/// A client gets the Return of this question, and its stream ends.
fn expect_return(rt: &impl Abort, alloc: Global, mut client: TcpStream, question: u8) {
    let mut answer = Vec::new(alloc);
    client.read_to_end(&mut answer).expect(rt, "a stream");
    drop(client);
    check!(rt; answer.len() > 40 && answer[16] == 3 && answer[32] == question);
    drop(answer);
}

/// Whether these are the numbers of a connection that took one of the frames, and sent its Return.
fn is_of_one(stats: &ConnectionStats) -> bool {
    stats.messages == 1 && stats.bytes == 48 && stats.sent == 1
}

#[test]
fn each_client_gets_its_own_answer(rt: HostRuntime) {
    let context = SocketAddr::from((Ipv4Addr::LOCALHOST, 0));
    let listener = Listener::bind(&rt, context).expect(&rt, "a port");
    let address = listener
        .address()
        .expect(&rt, "a socket")
        .expect(&rt, "a port");
    let first = client_of(&rt, address, &TWO[..48]);
    let second = client_of(&rt, address, &TWO[48..]);
    let plan = HostConfig {
        count: Some(2),
        ..plan()
    };
    let mut host = Host::new(&rt, plan, listener).expect(&rt, "a host");
    expect_came_from(&rt, &mut host, &first);
    admit_desk(&rt, rt.alloc(), &mut host);
    expect_came_from(&rt, &mut host, &second);
    admit_desk(&rt, rt.alloc(), &mut host);
    // The ends of both are heard, and each is reported before there is nothing more to tell.
    for _ in 0..2 {
        let news = host.next(&rt).expect(&rt, "a host");
        check!(&rt; matches!(&news, Some(HostEvent::Ended { end: End::Ended, stats, .. }) if is_of_one(stats)));
        drop(news);
    }
    check!(&rt; matches!(next_told(&rt, &mut host), Told::Nothing));
    drop(host);
    expect_return(&rt, rt.alloc(), first, 7);
    expect_return(&rt, rt.alloc(), second, 8);
}

#[test]
fn a_silent_client_meets_a_limit_of_time(rt: HostRuntime) {
    let context = SocketAddr::from((Ipv4Addr::LOCALHOST, 0));
    let listener = Listener::bind(&rt, context).expect(&rt, "a port");
    let address = listener
        .address()
        .expect(&rt, "a socket")
        .expect(&rt, "a port");
    let silent = TcpStream::connect(&rt, address).expect(&rt, "a connection");
    let mut plan = plan();
    plan.limits.session = SessionLimits {
        idle: 50,
        ..SessionLimits::standard()
    };
    let mut host = Host::new(&rt, plan, listener).expect(&rt, "a host");
    expect_came_from(&rt, &mut host, &silent);
    admit_desk(&rt, rt.alloc(), &mut host);
    let news = host.next(&rt).expect(&rt, "a host");
    check!(&rt; matches!(&news, Some(HostEvent::Ended { end: End::Limit(Limit::Idle), .. })));
    drop(news);
    drop(host);
    drop(silent);
}
