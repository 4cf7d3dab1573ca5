//! Serves a directory over TCP: its members find one another, and call one another, each over its own connection.

use directory::{
    DirectoryDispatch, DirectoryFindCall, DirectoryJoinCall, DirectoryServer, MemberShared,
};
use jamdrosek::host::{Host, HostConfig, HostEvent, Listener};
use jamdrosek::interfaces::{MethodFault, MethodResult, ServiceObject, failed};
use jamdrosek::server::{Context, Objects};
use std::alloc::Global;
use std::cell::RefCell;
use std::collections::BTreeMap;
use std::net::{Ipv4Addr, SocketAddr};
use std::rc::Rc;

/// The objects of a connection.
pub type Served = DirectoryDispatch<Directory>;

/// The members of all connections, by their names.
pub type Members = Rc<RefCell<BTreeMap<String, MemberShared>>>;

pub fn run(rt: &HostRuntime) -> anyhow::Result<()> {
    let listener = Listener::bind(rt, SocketAddr::from((Ipv4Addr::LOCALHOST, 7003)))?;
    let mut host = Host::new(rt, HostConfig::standard(), listener)?;
    let members = Rc::new(rt.alloc(), RefCell::new(BTreeMap::new(rt.alloc())))?;
    for _ in 0..u64::MAX {
        match host.next(rt)? {
            Some(HostEvent::Connected { .. }) => host.admit(new_objects(rt.alloc(), &members)?)?,
            Some(_) => {}
            None => break,
        }
    }
    Ok(())
}

/// The objects of a new connection.
pub fn new_objects(alloc: Global, members: &Members) -> anyhow::Result<Objects<Served>> {
    let members = members.clone()?;
    let mut objects = Objects::new(alloc);
    objects.add(DirectoryDispatch::new(Directory { members }))?;
    Ok(objects)
}

/// The directory, as one connection has it.
#[derive(Drop)]
pub struct Directory {
    members: Members,
}

impl ServiceObject for Directory {
    type Makes = Served;

    fn has_more(&self) -> bool {
        false
    }
}

impl DirectoryServer for Directory {
    fn join(
        &mut self,
        call: &mut DirectoryJoinCall<'_>,
        context: &mut Context<Served>,
    ) -> MethodResult {
        let name = call.params.name()?.text(context.alloc())?;
        let member = call.params.member_client(context.alloc(), call.caps())?;
        let member = call.share(member, context)?;
        let mut members = self.members.try_borrow_mut()?;
        drop(members.insert(name, member)?);
        Ok(())
    }

    fn find(
        &mut self,
        call: &mut DirectoryFindCall<'_>,
        context: &mut Context<Served>,
    ) -> MethodResult {
        let name = call.params.name()?.text(context.alloc())?;
        let members = self.members.try_borrow()?;
        let Some(member) = members.get(&name) else {
            return Err(MethodFault::from(failed(context.alloc(), "there is no such member")?));
        };
        Ok(call.results.set_member(member.here(context)?)?)
    }
}
