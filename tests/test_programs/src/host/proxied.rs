//! Connections that come by a proxy, and what it says of them.

use super::hosts::{TWO, admit_desk, plan};
use cp_objects::ServantObject;
use cp_servants::Desk;
use net_host::{Host, HostConfig, HostEvent};
use net_sockets::{Listener, Peer, ProxyHeader};
use std::io::{Read, Write};
use std::net::{Ipv4Addr, Ipv6Addr, Net, Shutdown, SocketAddr, TcpListener, TcpStream};
use std::process::Abort;
use std::time::Clock;

/// A header of version 2: 192.0.2.7, port 4660, over IPv4.
const OVER_IPV4: [u8; 28] = [
    0x0d, 0x0a, 0x0d, 0x0a, 0x00, 0x0d, 0x0a, 0x51, 0x55, 0x49, 0x54, 0x0a, 0x21, 0x11, 0x00, 0x0c,
    192, 0, 2, 7, 127, 0, 0, 1, 0x12, 0x34, 0x00, 0x50,
];

/// A header of version 2 by which a proxy looks whether one is there.
const LOCAL: [u8; 16] = [
    0x0d, 0x0a, 0x0d, 0x0a, 0x00, 0x0d, 0x0a, 0x51, 0x55, 0x49, 0x54, 0x0a, 0x20, 0x00, 0x00, 0x00,
];

/// A header of version 1: 2001:db8::7, port 4660.
const LINE: &[u8] = b"PROXY TCP6 2001:db8::7 ::1 4660 80\r\n";

/// The address of version 2's header.
fn sender() -> SocketAddr {
    SocketAddr::from((Ipv4Addr::new(192, 0, 2, 7), 4660))
}

/// Whether this header is whole, as it stands, and each beginning of it wants at least one byte more and at most what is left of it.
fn is_whole(rt: &impl Abort, header: &[u8], wanted: Option<SocketAddr>) {
    for count in 0..header.len() {
        let left = header.len() - count;
        let reads = ProxyHeader::read(&header[..count]);
        check!(rt; matches!(reads, ProxyHeader::Partial(more) if 0 < more && more <= left));
    }
    let peer = match ProxyHeader::read(header) {
        ProxyHeader::Whole(Some(Peer::Tcp(address))) => Some(address),
        ProxyHeader::Whole(None) => None,
        _ => {
            check!(rt; false);
            None
        }
    };
    check!(rt; peer == wanted);
}

#[test]
fn headers_of_both_versions(rt: HostRuntime) {
    is_whole(&rt, &OVER_IPV4, Some(sender()));
    is_whole(&rt, &LOCAL, None);
    let sixth = SocketAddr::from((Ipv6Addr::new(0x2001, 0xdb8, 0, 0, 0, 0, 0, 7), 4660));
    is_whole(&rt, LINE, Some(sixth));
    is_whole(&rt, b"PROXY TCP4 192.0.2.7 127.0.0.1 4660 80\r\n", Some(sender()));
    is_whole(&rt, b"PROXY UNKNOWN\r\n", None);
    is_whole(&rt, b"PROXY UNKNOWN ffff::1 x\r\n", None);
}

#[test]
fn headers_that_are_malformed(rt: HostRuntime) {
    let lines: [&[u8]; 9] = [
        b"GET / HTTP/1.0\r\n",
        b"PROXY TCP4 192.0.2.7 127.0.0.1 4660\r\n",
        b"PROXY TCP4 192.0.2.7 127.0.0.1 4660 80 9\r\n",
        b"PROXY TCP4  192.0.2.7 127.0.0.1 4660 80\r\n",
        b"PROXY TCP4 2001:db8::7 ::1 4660 80\r\n",
        b"PROXY TCP6 192.0.2.7 127.0.0.1 4660 80\r\n",
        b"PROXY TCP4 192.0.2.7 127.0.0.1 65536 80\r\n",
        b"PROXY UDP4 192.0.2.7 127.0.0.1 4660 80\r\n",
        b"PROXY UNKNOWN\n rest\r\n",
    ];
    for line in lines {
        check!(&rt; matches!(ProxyHeader::read(line), ProxyHeader::Malformed));
    }
    // The signature, the command, what it goes over, and how many bytes follow.
    for place in [1, 11, 12, 13, 14] {
        let mut header = OVER_IPV4;
        header[place] = 0x7f;
        check!(&rt; matches!(ProxyHeader::read(&header), ProxyHeader::Malformed));
    }
    let mut short = OVER_IPV4;
    short[15] = 11;
    check!(&rt; matches!(ProxyHeader::read(&short[..27]), ProxyHeader::Malformed));
    check!(&rt; matches!(ProxyHeader::read(&[b'P'; 107]), ProxyHeader::Malformed));
}

/// A host of connections that come by a proxy, and its address.
fn host_behind_proxy<R>(rt: &R, count: u64) -> (Host<ServantObject<Desk>>, SocketAddr)
where
    R: Net + Clock + Abort + std::alloc::AllocGlobal,
{
    let listener = Listener::bind(rt, SocketAddr::from((Ipv4Addr::LOCALHOST, 0)));
    let listener = listener.expect(rt, "a port").behind_proxy();
    let address = listener.address().expect(rt, "a socket").expect(rt, "a port");
    let plan = HostConfig {
        count: Some(count),
        ..plan()
    };
    (Host::new(rt, plan, listener).expect(rt, "a host"), address)
}

/// A client that has sent these bytes.
fn client<R>(rt: &R, address: SocketAddr, bytes: &[u8]) -> TcpStream
where
    R: Net<Listener = TcpListener, Stream = TcpStream> + Abort,
{
    let mut client = TcpStream::connect(rt, address).expect(rt, "a connection");
    client.write_all(bytes).expect(rt, "a stream");
    client
}

/// What came last is a connection of this peer.
fn expect_peer<R>(rt: &R, host: &mut Host<ServantObject<Desk>>, wanted: SocketAddr)
where
    R: Net + Clock + Abort,
{
    let news = host.next(rt).expect(rt, "a host");
    check!(rt; matches!(&news, Some(HostEvent::Connected { peer: Peer::Tcp(address), .. }) if *address == wanted));
    drop(news);
}

#[test]
fn the_peer_is_who_the_proxy_says(rt: HostRuntime) {
    let (mut host, address) = host_behind_proxy(&rt, 1);
    // One that isn't the proxy, one whose header is cut, and one that says nothing so far.
    let wrong = client(&rt, address, &TWO);
    let cut = client(&rt, address, &OVER_IPV4[..20]);
    cut.shutdown(Shutdown::Write).expect(&rt, "a stream");
    let silent = client(&rt, address, &[]);
    let mut first = client(&rt, address, &OVER_IPV4);
    first.write_all(&TWO).expect(&rt, "a stream");
    first.shutdown(Shutdown::Write).expect(&rt, "a stream");
    expect_peer(&rt, &mut host, sender());
    admit_desk(&rt, rt.alloc(), &mut host);
    let news = host.next(&rt).expect(&rt, "a host");
    check!(&rt; matches!(&news, Some(HostEvent::Ended { stats, .. }) if stats.messages == 2 && stats.bytes == 96));
    drop(news);
    drop(host);
    drop((wrong, cut, silent, first));
}

#[test]
fn a_header_that_comes_in_pieces(rt: HostRuntime) {
    let (mut host, address) = host_behind_proxy(&rt, 2);
    let mut late = client(&rt, address, &LINE[..20]);
    let own = client(&rt, address, &LOCAL);
    expect_peer(&rt, &mut host, own.local_addr().expect(&rt, "a stream"));
    admit_desk(&rt, rt.alloc(), &mut host);
    late.write_all(&LINE[20..]).expect(&rt, "a stream");
    let sixth = SocketAddr::from((Ipv6Addr::new(0x2001, 0xdb8, 0, 0, 0, 0, 0, 7), 4660));
    expect_peer(&rt, &mut host, sixth);
    drop(host);
    drop((late, own));
}
