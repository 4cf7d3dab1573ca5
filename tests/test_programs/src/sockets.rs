//! A client over a socket of its own. A host or a bare stream in the same thread is its peer, so no end waits long for the other.

use crate::frames::{ADD_FIVE, BOOTSTRAP, LATER, bytes_of};
use cp_client::{Client, ClientFault, Question};
use cp_frame::Mode;
use cp_messages::ExceptionKind;
use cp_objects::{Objects, ServantObject};
use cp_refs::{Outcome, Request};
use cp_servants::{
    Desk, PayloadBuilder, Reply, Servant, Settled, data_in, named_imports, results_of, word_in,
};
use cp_words::Limits;
use net_client::{Address, Backoff, ConnectOptions, DuplexStream, SocketClient};
use net_host::{Host, HostConfig, HostEvent};
use net_sockets::Listener;
use std::alloc::{AllocError, Global};
use std::fs::Files;
use std::io::{self, ErrorKind, Read, Write};
use std::net::{Ipv4Addr, Net, SocketAddr, TcpListener, TcpStream};
use std::os::unix::net::UnixListener;
use std::process::Abort;
use std::time::{Clock, Duration, Instant};

/// The interface of an echo.
const ECHO: u64 = 1;

/// Its method that gives the params back. Each other one is never answered.
const SAY: u16 = 0;

/// How many calls are made in one go, and the bytes of each, both ways: several times what a socket and a host keep.
const CALLS: u64 = 40;
const LARGE: usize = 65_536;

/// Gives the params of a call back, or never answers it.
#[derive(Drop)]
struct Echo {
    alloc: Global,
}

impl Servant for Echo {
    fn call(&mut self, _ticket: u64, request: Request) -> Result<Reply, AllocError> {
        if request.method != SAY {
            drop(request);
            return Ok(Reply::Later);
        }
        let gives_up = named_imports(self.alloc, &request.caps)?;
        let Request { content, caps, .. } = request;
        let outcome = Outcome::Results { content, caps };
        Ok(Reply::Now { outcome, gives_up })
    }

    fn poll(&mut self) -> Result<Option<Settled>, AllocError> {
        Ok(None)
    }

    fn has_more(&self) -> bool {
        false
    }
}

/// A host of echoes, which listens on the path `socket`.
fn host<R: Net + Clock + Files + AllocGlobal + Abort>(rt: &R) -> Host<ServantObject<Echo>> {
    let listener = Listener::bind_path(rt, "socket").expect(rt, "a path");
    Host::new(rt, HostConfig::standard(), listener).expect(rt, "a host")
}

/// The host goes on for a millisecond.
fn go_on<R: Net + Clock + AllocGlobal + Abort>(rt: &R, host: &mut Host<ServantObject<Echo>>) {
    host.wake_after(rt, 1).expect(rt, "a clock");
    for _ in 0..u64::MAX {
        match host.next(rt).expect(rt, "a host") {
            Some(HostEvent::Connected { .. }) => {
                let mut objects = Objects::new(rt.alloc());
                let echo = Echo { alloc: rt.alloc() };
                drop(objects.add(ServantObject::new(echo)).expect(rt, "memory"));
                host.admit(objects).expect(rt, "a connection");
            }
            Some(HostEvent::Woken) => return,
            _ => (),
        }
    }
}

/// A connection to `socket`.
fn connect<R>(rt: &R) -> DuplexStream<'_, R>
where
    R: Net<Listener = TcpListener, Stream = TcpStream> + Clock + AllocGlobal + Abort,
{
    DuplexStream::connect(rt, "unix:socket", &ConnectOptions::standard()).expect(rt, "a socket")
}

/// A client over a stream.
fn client<'s, 'r, R: Clock + AllocGlobal>(rt: &R, stream: &'s DuplexStream<'r, R>) -> SocketClient<'s, 'r, R> {
    Client::new(rt.alloc(), stream, stream, Mode::Plain, Limits::standard())
}

/// Calls a method of the echo with a number and bytes.
fn call<R: Clock + AllocGlobal + Abort>(
    rt: &R,
    client: &mut SocketClient<'_, '_, R>,
    (echo, method): (Question, u16),
    (number, bytes): (u64, &[u8]),
) -> Question {
    let content = PayloadBuilder::new(rt.alloc()).word(number).expect(rt, "a word");
    let content = content.data(bytes).expect(rt, "data");
    let request = content.request(ECHO, method);
    client.call(echo.cap(rt.alloc()), request).expect(rt, "a call")
}

/// Whether an outcome is the echo of a number and of so many bytes.
fn is_echo(outcome: Outcome, number: u64, length: usize) -> bool {
    let is_echo = match results_of(&outcome) {
        Some(content) => {
            let bytes = data_in(content, 0);
            word_in(content, 0) == number && bytes.is_some_and(|bytes| bytes.len() == length)
        }
        None => false,
    };
    drop(outcome);
    is_echo
}

/// The outcome of a question, while both ends go on in turn.
fn outcome_of<'r, R: Net + Clock + AllocGlobal + Abort>(
    rt: &R,
    (stream, client): (&DuplexStream<'r, R>, &mut SocketClient<'_, 'r, R>),
    host: &mut Host<ServantObject<Echo>>,
    question: Question,
) -> Outcome {
    for _ in 0..10_000 {
        if let Some(outcome) = stream.poll(client, question).expect(rt, "a stream") {
            return outcome;
        }
        go_on(rt, host);
    }
    None.expect(rt, "an outcome")
}

#[test]
fn large_calls_both_ways_never_stand_still(rt: HostRuntime) {
    let mut host = host(&rt);
    let stream = connect(&rt);
    let mut client = client(&rt, &stream);
    let bytes = vec![in rt.alloc(); 0x5a; LARGE].expect(&rt, "memory");
    let echo = client.bootstrap().expect(&rt, "a bootstrap");
    let mut asked = Vec::new(rt.alloc());
    for number in 0..CALLS {
        let question = call(&rt, &mut client, (echo, SAY), (number, &bytes));
        asked.push(question).expect(&rt, "memory");
    }
    for (number, question) in asked.iter().enumerate() {
        let outcome = outcome_of(&rt, (&stream, &mut client), &mut host, *question);
        check!(&rt; is_echo(outcome, number as u64, LARGE));
    }
    drop(asked);
    drop(bytes);
}

#[test]
fn waits_end_in_time(rt: HostRuntime) {
    let mut host = host(&rt);
    let stream = connect(&rt);
    let mut client = client(&rt, &stream);
    let echo = client.bootstrap().expect(&rt, "a bootstrap");
    let never = call(&rt, &mut client, (echo, SAY + 1), (0, &[]));
    let said = call(&rt, &mut client, (echo, SAY), (7, &[1, 2]));
    let timed_out = ClientFault::from(io::Error::from(ErrorKind::TimedOut));
    let began = Instant::now(&rt).expect(&rt, "a clock");
    stream.set_deadline(Some(Duration::from_millis(20))).expect(&rt, "a clock");
    check!(&rt; client.wait(never).err() == Some(timed_out));
    let took = began.elapsed(&rt).expect(&rt, "a clock");
    check!(&rt; took.as_millis() >= 20);
    stream.set_deadline(None).expect(&rt, "a clock");
    stream.set_silence(Some(Duration::from_millis(5))).expect(&rt, "a stream");
    check!(&rt; client.wait(never).err() == Some(timed_out));
    let time = Duration::from_millis(5);
    check!(&rt; stream.results_within(&mut client, never.number, time).is_err());
    check!(&rt; stream.wait_any_within(&mut client, &[never, said], time).err() == Some(timed_out));
    check!(&rt; stream.serve_for(&mut client, Duration::from_millis(2)).is_ok());
    for _ in 0..100 {
        go_on(&rt, &mut host);
    }
    // Nothing was lost by it, and the one that is answered is found behind the one that isn't.
    let (question, outcome) = stream.wait_any_within(&mut client, &[never, said], time).expect(&rt, "a stream");
    check!(&rt; question == said);
    check!(&rt; is_echo(outcome, 7, 2));
    check!(&rt; matches!(stream.poll(&mut client, never), Ok(None)));
    check!(&rt; matches!(client.take_outcome(never), Ok(None)));
}

#[test]
fn objects_are_called_while_nothing_is_awaited(rt: HostRuntime) {
    let listener = UnixListener::bind(&rt, "socket").expect(&rt, "a path");
    let stream = connect(&rt);
    let (mut peer, _) = listener.accept().expect(&rt, "a connection");
    let mut objects = Objects::new(rt.alloc());
    let desk = ServantObject::new(Desk::new(rt.alloc()));
    drop(objects.add(desk).expect(&rt, "memory"));
    let mut client = Client::with_objects(rt.alloc(), &stream, &stream, Mode::Plain, Limits::standard(), objects);
    let frames = bytes_of(&rt, rt.alloc(), &[BOOTSTRAP, LATER, ADD_FIVE]);
    peer.write_all(&frames).expect(&rt, "a stream");
    drop(frames);
    let time = Duration::from_millis(100);
    check!(&rt; stream.serve_for(&mut client, time).is_ok());
    // The messages of three Returns came before, and an end comes after them.
    drop(client.into_devices());
    drop(stream);
    let mut answers = Vec::new(rt.alloc());
    peer.read_to_end(&mut answers).expect(&rt, "a stream");
    check!(&rt; answers.len() > 200 && answers[16] == 3);
    drop(answers);
}

#[test]
fn who_went_away_is_connected_to_again(rt: HostRuntime) {
    let backoff = Backoff {
        first: 1,
        most: 3,
        tries: 3,
    };
    let options = ConnectOptions::standard();
    let began = Instant::now(&rt).expect(&rt, "a clock");
    check!(&rt; DuplexStream::reconnect(&rt, "unix:socket", &options, backoff).is_err());
    // Waits of 1, 2 and 3 milliseconds.
    let took = began.elapsed(&rt).expect(&rt, "a clock");
    check!(&rt; took.as_millis() >= 6);
    let listener = UnixListener::bind(&rt, "socket").expect(&rt, "a path");
    let stream = DuplexStream::reconnect(&rt, "unix:socket", &options, backoff).expect(&rt, "a socket");
    let mut client = client(&rt, &stream);
    let first = client.bootstrap().expect(&rt, "a bootstrap");
    let second = call(&rt, &mut client, (first, SAY), (0, &[]));
    let (peer, _) = listener.accept().expect(&rt, "a connection");
    drop(peer);
    check!(&rt; kind_of(client.wait(first)) == Some(ExceptionKind::Disconnected));
    check!(&rt; kind_of(client.wait(second)) == Some(ExceptionKind::Disconnected));
    let again = connect(&rt);
    drop(again);
}

/// Of what kind the fault is by which an outcome doesn't come.
fn kind_of(waited: Result<Outcome, ClientFault>) -> Option<ExceptionKind> {
    match waited {
        Ok(outcome) => {
            drop(outcome);
            None
        }
        Err(fault) => Some(fault.kind()),
    }
}

#[test]
fn waits_between_tries_grow(rt: HostRuntime) {
    let mut backoff = Backoff {
        tries: 4,
        ..Backoff::standard()
    };
    check!(&rt; backoff.next() == Some(100) && backoff.next() == Some(200) && backoff.next() == Some(400));
    backoff.first = u64::MAX;
    check!(&rt; backoff.next() == Some(10_000) && backoff.next().is_none());
}

#[test]
fn addresses_are_told_apart(rt: HostRuntime) {
    check!(&rt; matches!(Address::of("unix:a"), Some(Address::Unix("a"))));
    check!(&rt; matches!(Address::of("./a"), Some(Address::Unix("./a"))));
    check!(&rt; matches!(Address::of("localhost:7"), Some(Address::Tcp("localhost:7"))));
    check!(&rt; Address::of("localhost").is_none() && Address::of(":7").is_none() && Address::of("a:70000").is_none());
    let options = ConnectOptions::standard();
    let refused = DuplexStream::connect(&rt, "nowhere", &options).err();
    check!(&rt; refused.is_some_and(|error| error.kind() == ErrorKind::InvalidInput));
    check!(&rt; options.silence.is_none() && options.ahead == 1 << 30);
    let listener = TcpListener::bind(&rt, SocketAddr::from((Ipv4Addr::LOCALHOST, 0))).expect(&rt, "a port");
    let address = listener.local_addr().expect(&rt, "a socket");
    let address = format!(in rt.alloc(); "{address}").expect(&rt, "memory");
    let stream = DuplexStream::connect(&rt, address.as_str(), &options);
    check!(&rt; stream.is_ok());
    drop(stream);
    drop(address);
}
