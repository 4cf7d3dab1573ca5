//! A host's program has an object woken while its client is silent, and is told when its time has come.

use cp_objects::{Objects, Context, ServedObject, Waker};
use cp_refs::Outcome;
use cp_servants::{OutgoingCall, Reply, RequestView, Settled};
use net_host::{Host, HostConfig, HostEvent};
use net_sockets::Listener;
use std::alloc::AllocError;
use std::cell::RefCell;
use std::net::{Ipv4Addr, Net, SocketAddr, TcpStream};
use std::process::Abort;
use std::rc::Rc;
use std::time::{Clock, Instant};

/// What wakes an object, once for each time it was polled.
type Polled = Rc<RefCell<Vec<Waker>>>;

/// An object that notes when it is polled.
#[derive(Drop)]
struct Bell {
    polled: Polled,
}

impl ServedObject for Bell {
    type Makes = Bell;

    fn call(
        &mut self,
        _ticket: u64,
        request: RequestView<'_>,
        _context: &mut Context<Bell>,
    ) -> Result<Reply, AllocError> {
        drop(request);
        Ok(Reply::Later)
    }

    fn poll(&mut self, context: &mut Context<Bell>) -> Result<Option<Settled>, AllocError> {
        if let Ok(mut polled) = self.polled.try_borrow_mut() {
            let pushed = polled.push(context.waker());
            drop(polled);
            pushed?;
        }
        Ok(None)
    }

    fn has_more(&self) -> bool {
        false
    }

    fn next_call(&mut self, _context: &mut Context<Bell>) -> Result<Option<OutgoingCall>, AllocError> {
        Ok(None)
    }

    fn on_response(
        &mut self,
        _mark: u64,
        outcome: Outcome,
        _context: &mut Context<Bell>,
    ) -> Result<(), AllocError> {
        drop(outcome);
        Ok(())
    }

    fn on_cancel(&mut self, _ticket: u64, _context: &mut Context<Bell>) -> Result<(), AllocError> {
        Ok(())
    }
}

/// The last poll's waker, where there were so many polls.
fn waker_of(rt: &impl Abort, polled: &Polled, polls: usize) -> Waker {
    let waker = match polled.try_borrow() {
        Ok(polled) if polled.len() == polls => polled.last().copied(),
        _ => None,
    };
    waker.expect(rt, "a waker")
}

/// The only connection comes.
fn expect_came<R: Net + Clock + Abort>(rt: &R, host: &mut Host<Bell>) {
    let news = host.next(rt).expect(rt, "a host");
    check!(rt; matches!(&news, Some(HostEvent::Connected { number: 1, .. })));
    drop(news);
}

/// The program names a time, and is told when that has come. A millisecond has begun at both ends.
fn expect_woken<R: Net + Clock + Abort>(rt: &R, host: &mut Host<Bell>) {
    let began = Instant::now(rt).expect(rt, "a clock");
    host.wake_after(rt, 50).expect(rt, "a clock");
    let news = host.next(rt).expect(rt, "a host");
    check!(rt; matches!(&news, Some(HostEvent::Woken)));
    drop(news);
    let now = Instant::now(rt).expect(rt, "a clock");
    check!(rt; now.duration_since(began).as_millis() >= 49);
}

#[test]
fn an_object_of_a_silent_client_is_woken(rt: HostRuntime) {
    let context = SocketAddr::from((Ipv4Addr::LOCALHOST, 0));
    let listener = Listener::bind(&rt, context).expect(&rt, "a port");
    let address = listener
        .address()
        .expect(&rt, "a socket")
        .expect(&rt, "a port");
    let silent = TcpStream::connect(&rt, address).expect(&rt, "a connection");
    let mut host = Host::new(&rt, HostConfig::standard(), listener).expect(&rt, "a host");
    expect_came(&rt, &mut host);
    let polled: Polled = Rc::new(rt.alloc(), RefCell::new(Vec::new(rt.alloc()))).expect(
        &rt, "memory",
    );
    let mut family = Objects::new(rt.alloc());
    let bell = Bell {
        polled: Rc::clone(&polled).expect(&rt, "memory"),
    };
    drop(family.add(bell).expect(&rt, "memory"));
    host.admit(family).expect(&rt, "a connection");
    expect_woken(&rt, &mut host);
    host.wake(waker_of(&rt, &polled, 1)).expect(&rt, "memory");
    // It was told of the first time once.
    expect_woken(&rt, &mut host);
    waker_of(&rt, &polled, 2);
    drop(host);
    drop(silent);
    drop(polled);
}
