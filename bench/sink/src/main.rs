//! Serves a Sink to each client: `sinking PLACE COUNT` on 127.0.0.1, or at a path of a Unix socket.
#![tactic(auto)]

use anyhow::anyhow;
use jamdrosek::host::{Host, HostConfig, HostEvent, Listener};
use jamdrosek::interfaces::{MethodResult, ServiceObject};
use jamdrosek::server::{Context, Either, Objects};
use sink::{
    ItemBuilder, ItemListBuilder, PageClient, PageDispatch, PageReadCall, PageServer, SinkDispatch,
    SinkGetCall, SinkOpenCall, SinkPutCall, SinkRaiseCall, SinkServer,
};
use std::alloc::Global;
use std::env;
use std::net::{Ipv4Addr, SocketAddr};

/// The objects of a connection: its Sink, and the pages that are open.
type Served = Either<SinkDispatch<Sink>, PageDispatch<Page>>;

/// The most bytes that it gives.
const MOST: usize = 16 << 20;

/// Sums the first and the last byte of all that comes.
#[derive(Drop)]
struct Sink {
    sum: u64,
    bytes: Vec<u8>,
}

impl ServiceObject for Sink {
    type Makes = Served;

    fn has_more(&self) -> bool {
        false
    }
}

impl SinkServer for Sink {
    fn put(&mut self, call: &mut SinkPutCall<'_>, _context: &mut Context<Served>) -> MethodResult {
        let data = call.params.data_()?;
        if !data.is_empty() {
            let edges = data.get(0) as u64 + data.get(data.len() - 1) as u64;
            self.sum = self.sum.wrapping_add(edges);
        }
        call.results.set_sum(self.sum);
        Ok(())
    }

    fn get(&mut self, call: &mut SinkGetCall<'_>, context: &mut Context<Served>) -> MethodResult {
        let bytes = self.bytes.get(..call.params.size_() as usize).unwrap_or(&[]);
        Ok(call.results.set_data(Vec::from_slice(context.alloc(), bytes)?)?)
    }

    fn raise(
        &mut self,
        call: &mut SinkRaiseCall<'_>,
        context: &mut Context<Served>,
    ) -> MethodResult {
        let alloc = context.alloc();
        let mut items = ItemListBuilder::new(alloc);
        for item in call.params.items()? {
            let mut raised = ItemBuilder::new(alloc)?;
            raised.set_id(item.id());
            raised.set_price(item.price().wrapping_add(1));
            raised.set_name(item.name()?)?;
            items.push(raised)?;
        }
        Ok(call.results.set_items(items)?)
    }

    fn open_(
        &mut self,
        call: &mut SinkOpenCall<'_>,
        context: &mut Context<Served>,
    ) -> MethodResult {
        let number = call.params.number();
        let page = context.make(Served::Right(PageDispatch::new(Page { number })))?;
        Ok(call.results.set_page(PageClient::new(context.alloc(), page))?)
    }
}

#[derive(Drop)]
struct Page {
    number: u64,
}

impl ServiceObject for Page {
    type Makes = Served;

    fn has_more(&self) -> bool {
        false
    }
}

impl PageServer for Page {
    fn read(&mut self, call: &mut PageReadCall<'_>, _context: &mut Context<Served>) -> MethodResult {
        call.results.set_number(self.number);
        Ok(call.results.set_text("A page without much on it.")?)
    }
}

fn new_objects(alloc: Global) -> anyhow::Result<Objects<Served>> {
    let bytes = vec![in alloc; 0x5a; MOST]?;
    let mut objects = Objects::new(alloc);
    objects.add(Served::Left(SinkDispatch::new(Sink { sum: 0, bytes })))?;
    Ok(objects)
}

/// Listens on a port of 127.0.0.1, or at a path.
fn listen(rt: &HostRuntime, place: &str) -> anyhow::Result<Listener> {
    Ok(match place.parse::<u16>() {
        Ok(port) => Listener::bind(rt, SocketAddr::from((Ipv4Addr::LOCALHOST, port)))?,
        Err(_) => Listener::bind_path(rt, place)?,
    })
}

fn main(rt: HostRuntime) -> anyhow::Result<()> {
    let words: Vec<String> = env::args(&rt)?.collect(rt.alloc())?;
    let [_, place, count] = words.as_slice() else {
        return Err(anyhow!("usage: sinking PORT|PATH COUNT"));
    };
    let mut plan = HostConfig::standard();
    plan.count = Some(count.as_str().parse::<u64>()?);
    let mut host = Host::new(&rt, plan, listen(&rt, place.as_str())?)?;
    for _ in 0..u64::MAX {
        match host.next(&rt)? {
            Some(HostEvent::Connected { .. }) => host.admit(new_objects(rt.alloc())?)?,
            Some(_) => {}
            None => break,
        }
    }
    Ok(())
}
