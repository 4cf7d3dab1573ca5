//! Connections that the command serves, one after another.

use crate::checks::{expect_status, expect_text};
use crate::frames::{ADD_FIVE, BOOTSTRAP, LATER, PACKED, bytes_of};
use cli_connections::{LONGEST_LOOP, loop_bytes, serve_connections, serve_port};
use cp_commands::{Plan, act};
use cp_frame::Mode;
use cp_words::Limits;
use std::alloc::Global;
use std::io::{Read, Write};
use std::net::{Ipv4Addr, Net, Shutdown, SocketAddr, TcpListener, TcpStream};
use std::process::Abort;

/// What is sent for the bootstrap.
const FIRST_ANSWER: &str = "\
return a=0 releaseParamCaps=false results {cap:0 caps[senderHosted:0]}
";

/// What is sent for the bootstrap and the calls.
const ANSWERS: &str = "\
return a=0 releaseParamCaps=false results {cap:0 caps[senderHosted:0]}
return a=1 releaseParamCaps=false results {(;cap:0) caps[senderHosted:1]}
return a=2 releaseParamCaps=false results {(0500000000000000;) caps[]}
";

/// The bytes are the wanted text.
fn expect_said(rt: &impl Abort, bytes: Vec<u8>, wanted: &str) {
    let text = String::from_utf8(bytes).expect(rt, "UTF-8");
    expect_text(rt, text.as_str(), wanted);
    drop(text);
}

/// What `loop_bytes` writes, says and ends with.
fn expect_loop<R>(rt: &R, bytes: &[u8], mode: Mode, wanted: (&str, &str, u8))
where
    R: Net<Listener = TcpListener, Stream = TcpStream> + AllocGlobal + Abort,
{
    let (mut out, mut err) = (Vec::new(rt.alloc()), Vec::new(rt.alloc()));
    let status = loop_bytes(rt, bytes, mode, &mut out, &mut err);
    let (lines, said, ends) = wanted;
    expect_said(rt, out, lines);
    expect_said(rt, err, said);
    expect_status(rt, status, ends);
}

/// The same for these texts in hexadecimal.
fn expect_loop_of<R>(rt: &R, texts: &[&str], mode: Mode, wanted: (&str, &str, u8))
where
    R: Net<Listener = TcpListener, Stream = TcpStream> + AllocGlobal + Abort,
{
    let bytes = bytes_of(rt, rt.alloc(), texts);
    expect_loop(rt, &bytes, mode, wanted);
    drop(bytes);
}

#[test]
fn calls_are_answered(rt: HostRuntime) {
    let plain = Mode::Plain;
    expect_loop_of(&rt, &[BOOTSTRAP, LATER, ADD_FIVE], plain, (ANSWERS, "", 0));
    expect_loop_of(&rt, &[PACKED], Mode::Packed, (ANSWERS, "", 0));
    expect_loop_of(&rt, &[], plain, ("", "", 0));
    // What was answered is shown after a fault, too.
    let said = "refused at byte 48: F3 Truncated\n";
    expect_loop_of(&rt, &[BOOTSTRAP, "000000"], plain, (FIRST_ANSWER, said, 1));
}

#[test]
fn a_loop_has_a_longest(rt: HostRuntime) {
    let mut bytes = vec![in rt.alloc(); 0u8; LONGEST_LOOP].expect(&rt, "memory");
    let said = "refused at byte 0: G1 NoRoot segment 0 word 0\n";
    expect_loop(&rt, &bytes, Mode::Plain, ("", said, 1));
    bytes.push(0).expect(&rt, "memory");
    expect_loop(&rt, &bytes, Mode::Plain, ("", "too long\n", 2));
    drop(bytes);
}

/// The bytes of bootstraps, whose questions are 0 and those that follow.
fn bootstraps(rt: &impl Abort, alloc: Global, count: u8) -> Vec<u8> {
    let mut bytes = Vec::new(alloc);
    for question in 0..count {
        let mut frame = bytes_of(rt, alloc, &[BOOTSTRAP]);
        check!(rt; frame.len() == 48);
        frame[32] = question;
        bytes.extend_from_slice(&frame).expect(rt, "memory");
        drop(frame);
    }
    bytes
}

// An answer has 96 bytes, so 170 of them are taken.
#[test]
fn answers_have_a_longest(rt: HostRuntime) {
    let alloc = rt.alloc();
    let bytes = bootstraps(&rt, alloc, 200);
    let (mut out, mut err) = (Vec::new(alloc), Vec::new(alloc));
    check!(&rt; loop_bytes(&rt, &bytes, Mode::Plain, &mut out, &mut err) == 2);
    expect_said(&rt, err, "device\n");
    let lines = String::from_utf8(out).expect(&rt, "UTF-8");
    check!(&rt; lines.lines().count() == 170);
    drop(lines);
    drop(bytes);
}

/// A port of 127.0.0.1, and its number.
fn bound<R>(rt: &R) -> (TcpListener, u16)
where
    R: Net<Listener = TcpListener, Stream = TcpStream> + Abort,
{
    let address = SocketAddr::from((Ipv4Addr::LOCALHOST, 0));
    let listener = TcpListener::bind(rt, address).expect(rt, "a port");
    let port = listener.local_addr().expect(rt, "an address").port();
    (listener, port)
}

#[test]
fn a_port_may_be_taken(rt: HostRuntime) {
    let (listener, port) = bound(&rt);
    let mut err = Vec::new(rt.alloc());
    check!(&rt; serve_port(&rt, port, 0, Mode::Plain, &mut err) == 2);
    check!(&rt; err.starts_with(b"device: 127.0.0.1:"));
    drop(listener);
    err.clear();
    check!(&rt; serve_port(&rt, port, 0, Mode::Plain, &mut err) == 0);
    check!(&rt; err.is_empty());
    drop(err);
}

/// A client that has sent these bytes, and sends no more.
fn client<R>(rt: &R, port: u16, texts: &[&str]) -> TcpStream
where
    R: Net<Listener = TcpListener, Stream = TcpStream> + AllocGlobal + Abort,
{
    let address = SocketAddr::from((Ipv4Addr::LOCALHOST, port));
    let mut stream = TcpStream::connect(rt, address).expect(rt, "a connection");
    let bytes = bytes_of(rt, rt.alloc(), texts);
    stream.write_all(&bytes).expect(rt, "a write");
    drop(bytes);
    stream.shutdown(Shutdown::Write).expect(rt, "an end");
    stream
}

/// A client gets the messages of these lines.
fn expect_answers(rt: &impl Abort, alloc: Global, mut stream: TcpStream, wanted: &str) {
    let (mode, limits) = (Mode::Plain, Limits::standard());
    let (mut out, mut err) = (Vec::new(alloc), Vec::new(alloc));
    let show = Plan::Show { mode, limits };
    let status = act(alloc, &show, &mut stream, &mut out, &mut err);
    expect_status(rt, status, 0);
    expect_said(rt, out, wanted);
    drop(err);
}

/// Three connections are served, of which this peer's is refused.
fn expect_served(rt: &impl Abort, alloc: Global, listener: &TcpListener, peer: SocketAddr) {
    let mut err = Vec::new(alloc);
    let status = serve_connections(alloc, listener, 3, Mode::Plain, &mut err);
    expect_status(rt, status, 1);
    let said = format!(in alloc; "refused at byte 48: F3 Truncated (peer {peer})\n");
    let said = said.expect(rt, "memory");
    expect_said(rt, err, said.as_str());
    drop(said);
}

// Each connection has a Desk and a Cell of its own, also after a fault.
#[test]
fn connections_are_served_in_turn(rt: HostRuntime) {
    let (listener, port) = bound(&rt);
    let first = client(&rt, port, &[BOOTSTRAP, LATER, ADD_FIVE]);
    let cut = client(&rt, port, &[BOOTSTRAP, "000000"]);
    let last = client(&rt, port, &[BOOTSTRAP, LATER, ADD_FIVE]);
    let peer = cut.local_addr().expect(&rt, "an address");
    expect_served(&rt, rt.alloc(), &listener, peer);
    drop(listener);
    expect_answers(&rt, rt.alloc(), first, ANSWERS);
    expect_answers(&rt, rt.alloc(), cut, FIRST_ANSWER);
    expect_answers(&rt, rt.alloc(), last, ANSWERS);
}
