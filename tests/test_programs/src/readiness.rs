//! Which of a listener and some streams are ready.

use mio::event::Event;
use mio::net::UnixStream;
use net_sockets::{Incoming, Listener, NonblockingStream, Readiness, Watched};
use slab::Slab;
use std::mem;
use std::time::Duration;

/// An entry with two streams, and how many events there were of each.
#[derive(Drop)]
struct Pair {
    first: NonblockingStream,
    second: NonblockingStream,
    is_queued: bool,
    events: (u8, u8),
}

impl Watched for Pair {
    ghost kept = { λ _. tt };

    ghost is_queued = { λ pair. pair.is_queued };

    fn mark(&mut self, is_second: bool, event: &Event) -> bool {
        if is_second {
            self.second.mark(event);
            self.events.1 = self.events.1.saturating_add(1);
        } else {
            self.first.mark(event);
            self.events.0 = self.events.0.saturating_add(1);
        }
        let was_queued = mem::replace(&mut self.is_queued, true);
        !was_queued
    }
}

#[test]
fn readiness_names_whose_stream_it_is(rt: HostRuntime) {
    let wait = Some(Duration::from_secs(1));
    let listener = Listener::bind_path(&rt, "socket").expect(&rt, "a path");
    let mut incoming = Incoming::new(listener, None);
    let mut readiness = Readiness::new(&rt, &mut incoming).expect(&rt, "a set of sockets");
    let mut pairs = Slab::new(rt.alloc());
    let near = UnixStream::connect(&rt, "socket").expect(&rt, "a connection");
    check!(&rt; readiness.wait(wait, &mut pairs).expect(&rt, "an event of the listener"));
    check!(&rt; readiness.queue.is_empty());
    let (far, _) = incoming.accept().expect(&rt, "a connection");
    let pair = Pair {
        first: NonblockingStream::of_unix(near),
        second: far,
        is_queued: false,
        events: (0, 0),
    };
    // So keys and tokens differ.
    drop(readiness.queue.push_back(7));
    let key = pairs.insert(pair).expect(&rt, "memory");
    let pair = pairs.get_mut(key).expect(&rt, "a pair");
    readiness.watch(&mut pair.second, key, true).expect(&rt, "the second stream");
    check!(&rt; !readiness.wait(wait, &mut pairs).expect(&rt, "an event of a stream"));
    check!(&rt; readiness.queue.pop_front() == Some(7));
    check!(&rt; readiness.queue.pop_front() == Some(key) && readiness.queue.is_empty());
    let pair = pairs.get_mut(key).expect(&rt, "a pair");
    check!(&rt; pair.events == (0, 1));
    // It comes into the queue once.
    readiness.watch(&mut pair.first, key, false).expect(&rt, "the first stream");
    pair.first.write(b"x").expect(&rt, "a byte");
    check!(&rt; !readiness.wait(wait, &mut pairs).expect(&rt, "events of both"));
    check!(&rt; readiness.queue.is_empty());
    let pair = pairs.get_mut(key).expect(&rt, "a pair");
    check!(&rt; pair.events == (1, 2));
}
