//! Serves a pool over TCP: workers join it, each over its own connection, and `find` gives the next one each time. So a call that a client makes
//! in one go with that goes to one worker, and its next call to the next. A worker that dies loses its own calls alone.

use directory::{DirectoryDispatch, DirectoryFindCall, DirectoryJoinCall, DirectoryServer, MemberShared};
use jamdrosek::host::{Host, HostConfig, HostEvent, Listener};
use jamdrosek::interfaces::{MethodFault, MethodResult, ServiceObject, failed};
use jamdrosek::server::{Context, Objects};
use std::cell::RefCell;
use std::collections::VecDeque;
use std::net::{Ipv4Addr, SocketAddr};
use std::rc::Rc;

/// The workers of all connections, with the number of each one's connection: the first is the next.
type Workers = Rc<RefCell<VecDeque<(u64, MemberShared)>>>;

/// The pool, as the connection of this number has it.
#[derive(Drop)]
struct Pool {
    workers: Workers,
    number: u64,
}

pub fn run(rt: &HostRuntime) -> anyhow::Result<()> {
    let listener = Listener::bind(rt, SocketAddr::from((Ipv4Addr::LOCALHOST, 7006)))?;
    let mut host = Host::new(rt, HostConfig::standard(), listener)?;
    let workers = Rc::new(rt.alloc(), RefCell::new(VecDeque::new(rt.alloc())))?;
    for _ in 0..u64::MAX {
        if let Some(HostEvent::Connected { number, .. }) = host.next(rt)? {
            let workers = workers.clone()?;
            let mut objects = Objects::new(rt.alloc());
            objects.add(DirectoryDispatch::new(Pool { workers, number }))?;
            host.admit(objects)?;
        }
    }
    Ok(())
}

impl DirectoryServer for Pool {
    fn join(&mut self, call: &mut DirectoryJoinCall, context: &mut Context<Self::Makes>) -> MethodResult {
        let worker = call.params.member_client(context.alloc(), call.caps())?;
        let worker = call.share(worker, context)?;
        self.workers.try_borrow_mut()?.push_back((self.number, worker))?;
        Ok(())
    }

    fn find(&mut self, call: &mut DirectoryFindCall, context: &mut Context<Self::Makes>) -> MethodResult {
        let mut workers = self.workers.try_borrow_mut()?;
        let Some((number, worker)) = workers.pop_front() else {
            return Err(MethodFault::from(failed(context.alloc(), "there is no worker")?));
        };
        let found = worker.here(context);
        workers.push_back((number, worker))?;
        Ok(call.results.set_member(found?)?)
    }
}

impl ServiceObject for Pool {
    type Makes = DirectoryDispatch<Pool>;

    fn has_more(&self) -> bool {
        false
    }

    /// The connection ended, or nobody has the pool: its workers go.
    fn ended(&mut self, _context: &mut Context<Self::Makes>) -> MethodResult {
        let number = self.number;
        self.workers.try_borrow_mut()?.retain(|worker| worker.0 != number);
        Ok(())
    }
}
