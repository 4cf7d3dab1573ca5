//! Serves one store of texts, the interface of tests/store/store.capnp, to many clients at once, over TCP.

use jamdrosek::host::{Host, HostConfig, HostEvent, Listener};
use jamdrosek::interfaces::{MethodResult, ServiceObject};
use jamdrosek::server::{Context, Objects};
use std::cell::RefCell;
use std::collections::BTreeMap;
use std::net::{Ipv4Addr, SocketAddr};
use std::rc::Rc;
use store::{StoreDispatch, StoreGetCall, StorePutCall, StoreServer};

/// The texts by their keys, which all clients share.
#[derive(Drop)]
pub struct Shelf(pub Rc<RefCell<BTreeMap<String, String>>>);

impl ServiceObject for Shelf {
    type Makes = StoreDispatch<Shelf>;

    fn has_more(&self) -> bool {
        false
    }
}

impl StoreServer for Shelf {
    fn put(&mut self, call: &mut StorePutCall, context: &mut Context<Self::Makes>) -> MethodResult {
        let key = call.params.key()?.text(context.alloc())?;
        let value = call.params.value()?.text(context.alloc())?;
        self.0.try_borrow_mut()?.insert(key, value)?;
        Ok(())
    }

    fn get(&mut self, call: &mut StoreGetCall, context: &mut Context<Self::Makes>) -> MethodResult {
        let key = call.params.key()?.text(context.alloc())?;
        if let Some(value) = self.0.try_borrow()?.get(&key) {
            call.results.set_value(value.as_str())?;
        }
        Ok(())
    }
}

pub fn run(rt: &HostRuntime) -> anyhow::Result<()> {
    let listener = Listener::bind(rt, SocketAddr::from((Ipv4Addr::LOCALHOST, 7001)))?;
    let mut host = Host::new(rt, HostConfig::standard(), listener)?;
    let shelf = Rc::new(rt.alloc(), RefCell::new(BTreeMap::new(rt.alloc())))?;
    for _ in 0..u64::MAX {
        if let Some(HostEvent::Connected { .. }) = host.next(rt)? {
            let mut objects = Objects::new(rt.alloc());
            objects.add(StoreDispatch::new(Shelf(shelf.clone()?)))?;
            host.admit(objects)?;
        }
    }
    Ok(())
}
