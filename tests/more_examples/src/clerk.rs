//! Serves a clerk over TCP, whom the store of another server tells what it says, that of `store_server`: it asks there, and answers once the
//! store has.

use directory::{MemberDispatch, MemberSayCall, MemberSayLater, MemberSayResultsBuilder, MemberServer};
use jamdrosek::client::Outcome;
use jamdrosek::host::{Host, HostConfig, HostEvent, Listener};
use jamdrosek::interfaces::{MethodFault, MethodResult, NoResults, ResultPayload, ServiceObject, failed, payload_of};
use jamdrosek::server::{Context, Objects};
use std::alloc::Global;
use std::collections::BTreeMap;
use std::net::{Ipv4Addr, SocketAddr};
use store::{StoreGetResultsReader, StoreShared};

/// A clerk, as one connection has it, with the calls that wait for the store, by their tickets.
#[derive(Drop)]
struct Clerk {
    store: StoreShared,
    waiting: BTreeMap<u64, MemberSayLater>,
}

pub fn run(rt: &HostRuntime) -> anyhow::Result<()> {
    let listener = Listener::bind(rt, SocketAddr::from((Ipv4Addr::LOCALHOST, 7005)))?;
    let mut host = Host::new(rt, HostConfig::standard(), listener)?;
    let server = SocketAddr::from((Ipv4Addr::LOCALHOST, 7001));
    let (_, store) = host.connect(rt, server, Objects::new(rt.alloc()))?;
    for _ in 0..u64::MAX {
        if let Some(HostEvent::Connected { .. }) = host.next(rt)? {
            let (store, waiting) = (StoreShared::new(store.copy()?), BTreeMap::new(rt.alloc()));
            let mut objects = Objects::new(rt.alloc());
            objects.add(MemberDispatch::new(Clerk { store, waiting }))?;
            host.admit(objects)?;
        }
    }
    Ok(())
}

impl MemberServer for Clerk {
    /// Asks the store for the text of a key.
    fn say(&mut self, call: &mut MemberSayCall, context: &mut Context<Self::Makes>) -> MethodResult {
        let key = call.params.text()?.text(context.alloc())?;
        let (store, waits) = (self.store.here(context)?, call.later(context)?);
        context.send(store.get_request(key.as_str())?.outgoing(waits.ticket())?)?;
        drop(self.waiting.insert(waits.ticket(), waits)?);
        Ok(())
    }
}

impl ServiceObject for Clerk {
    type Makes = MemberDispatch<Clerk>;

    fn has_more(&self) -> bool {
        false
    }

    /// The store has answered.
    fn on_response(&mut self, ticket: u64, outcome: Outcome, context: &mut Context<Self::Makes>) -> MethodResult {
        let Some(waits) = self.waiting.remove(&ticket) else {
            return Ok(());
        };
        let answer = match outcome {
            Outcome::Failed(exception) => Err(MethodFault::from(exception)),
            other => heard(context.alloc(), payload_of(context.session(), other)),
        };
        match answer {
            Ok(answer) => Ok(waits.answer(context, answer)?),
            Err(fault) => Ok(waits.fail(context, fault)?),
        }
    }

    /// Nobody waits for a call's answer any more: so the store needn't give it.
    fn on_cancel(&mut self, ticket: u64, context: &mut Context<Self::Makes>) -> MethodResult {
        drop(self.waiting.remove(&ticket));
        Ok(context.cancel(ticket)?)
    }
}

/// What the store has, as the clerk's answer.
fn heard(alloc: Global, came: Result<ResultPayload, NoResults>) -> Result<MemberSayResultsBuilder, MethodFault> {
    let Ok(came) = came else {
        return Err(MethodFault::from(failed(alloc, "the store gave no answer")?));
    };
    let mut answer = MemberSayResultsBuilder::new(alloc)?;
    answer.set_heard(StoreGetResultsReader { body: came.results()? }.value()?)?;
    Ok(answer)
}
