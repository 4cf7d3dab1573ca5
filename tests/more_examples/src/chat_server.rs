//! Serves a chat room to many clients at once, over TCP: all members hear what each one says.

use chat::{
    ChatJoinCall, ChatDispatch, ChatServer, ListenerClient, MemberClient, MemberSayCall,
    MemberDispatch, MemberServer,
};
use jamdrosek::host::{Host, HostConfig, Listener, HostEvent};
use jamdrosek::interfaces::{MethodFault, MethodResult, ServiceObject};
use jamdrosek::server::{Either, Objects, Context, Settled, Waker};
use std::alloc::Global;
use std::cell::RefCell;
use std::collections::BTreeMap;
use std::net::{Ipv4Addr, SocketAddr};
use std::rc::Rc;

/// The objects of a connection: its chat, and the members that its client has.
pub type Served = Either<ChatDispatch<Chat>, MemberDispatch<Member>>;

/// What all clients share.
#[derive(Drop)]
pub struct Room {
    /// What was said, with the names of those who said it.
    lines: Vec<(Rc<String>, String)>,
    /// What wakes the members, by their numbers.
    pub members: BTreeMap<u64, Waker>,
    /// How many have joined.
    joined: u64,
}

pub fn run(rt: &HostRuntime) -> anyhow::Result<()> {
    let listener = Listener::bind(rt, SocketAddr::from((Ipv4Addr::LOCALHOST, 7002)))?;
    let mut host = Host::new(rt, HostConfig::standard(), listener)?;
    let room = new_room(rt.alloc())?;
    for _ in 0..u64::MAX {
        match host.next(rt)? {
            Some(HostEvent::Connected { .. }) => host.admit(new_objects(rt.alloc(), &room)?)?,
            Some(_) => {}
            None => break,
        }
    }
    Ok(())
}

/// A room without members.
pub fn new_room(alloc: Global) -> anyhow::Result<Rc<RefCell<Room>>> {
    let room = Room {
        lines: Vec::new(alloc),
        members: BTreeMap::new(alloc),
        joined: 0,
    };
    Ok(Rc::new(alloc, RefCell::new(room))?)
}

/// The objects of a connection: a chat at first.
pub fn new_objects(alloc: Global, room: &Rc<RefCell<Room>>) -> anyhow::Result<Objects<Served>> {
    let object = Chat(room.clone()?);
    let mut objects = Objects::new(alloc);
    objects.add(Served::Left(ChatDispatch::new(object)))?;
    Ok(objects)
}

/// The room, as one client has it.
#[derive(Drop)]
pub struct Chat(Rc<RefCell<Room>>);

impl ServiceObject for Chat {
    type Makes = Served;

    fn has_more(&self) -> bool {
        false
    }
}

impl ChatServer for Chat {
    fn join(&mut self, call: &mut ChatJoinCall<'_>, context: &mut Context<Served>) -> MethodResult {
        let listener = call.params.listener_client(context.alloc(), call.caps())?;
        let heard = listener.target.copy()?;
        let name = Rc::new(context.alloc(), call.params.name()?.text(context.alloc())?)?;
        let mut room = self.0.try_borrow_mut()?;
        room.joined = room.joined.saturating_add(1);
        let object = Member {
            room: self.0.clone()?,
            number: room.joined,
            name,
            listener,
            told: room.lines.len(),
        };
        let member = context.make(Served::Right(MemberDispatch::new(object)))?;
        call.keep_for(&member, &heard, context)?;
        let member = MemberClient::new(context.alloc(), member);
        Ok(call.results.set_member(member)?)
    }
}

/// One in the room. It leaves once its client drops it, or is gone.
pub struct Member {
    room: Rc<RefCell<Room>>,
    number: u64,
    name: Rc<String>,
    listener: ListenerClient,
    /// How many lines the listener was told.
    told: usize,
}

impl Drop for Member {
    fn drop(self) {
        if let Ok(mut room) = self.room.try_borrow_mut() {
            let _ = room.members.remove(&self.number);
        }
        let Member {
            room: _,
            number: _,
            name: _,
            listener: _,
            told: _,
        } = self;
    }
}

impl ServiceObject for Member {
    type Makes = Served;

    fn poll(&mut self, context: &mut Context<Served>) -> Result<Option<Settled>, MethodFault> {
        let mut room = self.room.try_borrow_mut()?;
        room.members.insert(self.number, context.waker())?;
        for (name, text) in room.lines.iter().skip(self.told) {
            let heard = self.listener.heard_request(name.as_str(), text.as_str())?;
            context.send(heard.outgoing(0)?)?;
        }
        self.told = room.lines.len();
        Ok(None)
    }

    fn has_more(&self) -> bool {
        false
    }
}

impl MemberServer for Member {
    fn say(&mut self, call: &mut MemberSayCall<'_>, context: &mut Context<Served>) -> MethodResult {
        let text = call.params.text()?.text(context.alloc())?;
        let mut room = self.room.try_borrow_mut()?;
        room.lines.push((self.name.clone()?, text))?;
        for (_, waker) in &room.members {
            context.wake(*waker)?;
        }
        Ok(())
    }
}
