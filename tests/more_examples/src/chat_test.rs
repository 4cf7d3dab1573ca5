//! Tests `chat_server` in memory: a client that says nothing hears what another one says.

use crate::chat_server::{Room, Served, new_objects, new_room};
use chat::{ChatClient, ListenerClient, ListenerHeardCall, ListenerDispatch, ListenerServer};
use jamdrosek::client::Client;
use jamdrosek::interfaces::{MethodResult, ServiceObject};
use jamdrosek::server::{Context, Letter, Objects};
use jamdrosek::session::{DrivenSession, Session, SessionLimits, SessionOptions};
use jamdrosek::{Limits, Mode};
use std::alloc::Global;
use std::cell::RefCell;
use std::io::{Read, Write};
use std::rc::Rc;

/// The objects of a client: what hears.
type Hearing = ListenerDispatch<Ear>;

pub fn run(rt: &HostRuntime) -> anyhow::Result<()> {
    let alloc = rt.alloc();
    let room = new_room(alloc)?;
    let told = told(alloc, &room)?;
    let (_, heard) = talk(alloc, &told, "Ann", None)?;
    println!(rt; "{}", heard.as_str())?;
    println!(rt;
        "{} members, once both are gone",
        room.try_borrow()?.members.len()
    )?;
    Ok(())
}

/// What the room sends a silent client, while another one talks.
fn told(alloc: Global, room: &Rc<RefCell<Room>>) -> anyhow::Result<Vec<u8>> {
    let (joins, _) = talk(alloc, &[], "Ann", None)?;
    let (talks, _) = talk(alloc, &[], "Bob", Some("hello"))?;
    let mut silent = serve(alloc, room, 1, &joins)?;
    if let Some(letter) = woken(alloc, room, &talks)? {
        silent.deliver(letter.body)?;
    }
    silent.poll(0)?;
    let sent = Vec::from_slice(alloc, silent.outgoing());
    drop(silent);
    Ok(sent?)
}

/// What the session of a client that talks sends to another one: whom that is to wake.
fn woken(alloc: Global, room: &Rc<RefCell<Room>>, bytes: &[u8]) -> anyhow::Result<Option<Letter>> {
    let mut session = serve(alloc, room, 2, bytes)?;
    let letter = session.next_letter();
    drop(session);
    Ok(letter)
}

/// The session of this number, once it took these bytes.
fn serve(
    alloc: Global,
    room: &Rc<RefCell<Room>>,
    number: u64,
    bytes: &[u8],
) -> anyhow::Result<Session<Served>> {
    let options = SessionOptions {
        mode: Mode::Plain,
        messages: Limits::standard(),
        bootstrap: Some(0),
        may_call: true,
        releases_idle: true,
        limits: SessionLimits::standard(),
    };
    let objects = new_objects(alloc, room)?;
    let mut session = Session::begin(alloc, &options, number, objects, 0);
    for byte in bytes {
        session.receive(&[*byte], 0)?;
    }
    Ok(session)
}

/// What a client sends that receives these bytes, and what it hears. It joins, and says this, if anything.
fn talk(
    alloc: Global,
    from: &[u8],
    name: &str,
    text: Option<&str>,
) -> anyhow::Result<(Vec<u8>, String)> {
    let heard = Rc::new(alloc, RefCell::new(String::new(alloc)))?;
    let object = Ear {
        heard: heard.clone()?,
    };
    let mut objects = Objects::new(alloc);
    let listener = ListenerClient::new(alloc, objects.add(ListenerDispatch::new(object))?);
    let (to, limits) = (Vec::new(alloc), Limits::standard());
    let mut client = Client::with_objects(alloc, from, to, Mode::Plain, limits, objects);
    let done = join(alloc, &mut client, listener, name, text);
    let (_, to) = client.into_devices();
    done?;
    let heard = copied(alloc, &heard)?;
    Ok((to, heard))
}

/// A copy of what was heard.
fn copied(alloc: Global, heard: &Rc<RefCell<String>>) -> anyhow::Result<String> {
    let heard = heard.try_borrow()?;
    Ok(format!(in alloc; "{}", heard.as_str())?)
}

/// Joins a chat, says this if it is anything, and hears the others until the chat ends.
fn join<R: Read + Drop, W: Write + Drop>(
    alloc: Global,
    client: &mut Client<R, W, Hearing>,
    listener: ListenerClient,
    name: &str,
    text: Option<&str>,
) -> anyhow::Result<()> {
    let root = client.bootstrap()?.cap(alloc);
    let chat = ChatClient::new(alloc, client.own(root));
    let member = chat.join(client, name, listener)?.member_()?;
    if let Some(text) = text {
        member.say(client, text)?;
    }
    Ok(client.serve()?)
}

/// Hears what members say.
#[derive(Drop)]
struct Ear {
    heard: Rc<RefCell<String>>,
}

impl ServiceObject for Ear {
    type Makes = Hearing;

    fn has_more(&self) -> bool {
        false
    }
}

impl ListenerServer for Ear {
    fn heard(
        &mut self,
        call: &mut ListenerHeardCall<'_>,
        context: &mut Context<Hearing>,
    ) -> MethodResult {
        let name = call.params.name()?.text(context.alloc())?;
        let text = call.params.text()?.text(context.alloc())?;
        let mut heard = self.heard.try_borrow_mut()?;
        heard.push_str(name.as_str())?;
        heard.push_str(": ")?;
        heard.push_str(text.as_str())?;
        Ok(())
    }
}
