//! A directory that holds its people in memory.

use crate::Served;
use directory::{
    DirectoryAddCall, DirectoryFindCall, DirectoryServer, DirectoryWatchCall, FriendClient,
    NamedNameCall, NamedServer, PersonBuilder, WatcherAddedParamsBuilder, WatcherClient,
};
use jamdrosek::interfaces::{MethodFault, MethodResult, ServiceObject};
use jamdrosek::server::Context;
use std::alloc::Global;

/// A person on the shelf.
#[derive(Drop)]
struct Person {
    name: String,
    age: u8,
    /// Who speaks for the person.
    friend: FriendClient,
}

/// A directory that holds its people in memory.
#[derive(Drop)]
pub struct Shelf {
    people: Vec<Person>,
    watchers: Vec<WatcherClient>,
}

impl Shelf {
    /// Nobody.
    pub fn new(alloc: Global) -> Shelf {
        Shelf {
            people: Vec::new(alloc),
            watchers: Vec::new(alloc),
        }
    }

    /// Tells each watcher of a person.
    fn tell(&mut self, name: &str, age: u8, context: &mut Context<Served>) -> MethodResult {
        for watcher in &self.watchers {
            let mut params = WatcherAddedParamsBuilder::new(context.alloc())?;
            params.set_person(built(context.alloc(), name, age)?);
            context.send(watcher.added_request(params).outgoing(0)?)?;
        }
        Ok(())
    }
}

/// A person, to be written.
fn built(alloc: Global, name: &str, age: u8) -> Result<PersonBuilder, MethodFault> {
    let mut person = PersonBuilder::new(alloc)?;
    person.set_name(name)?;
    person.set_age(age);
    Ok(person)
}

impl ServiceObject for Shelf {
    type Makes = Served;

    fn has_more(&self) -> bool {
        false
    }
}

impl NamedServer for Shelf {
    fn name(&mut self, call: &mut NamedNameCall<'_>, context: &mut Context<Served>) -> MethodResult {
        Ok(call.results.set_name("the shelf")?)
    }
}

impl DirectoryServer for Shelf {
    fn find(&mut self, call: &mut DirectoryFindCall<'_>, context: &mut Context<Served>) -> MethodResult {
        let name = call.params.name()?.text(context.alloc())?;
        for each in &self.people {
            if each.name.as_str() == name.as_str() {
                let mut person = built(context.alloc(), each.name.as_str(), each.age)?;
                let target = each.friend.target.copy()?;
                person.set_friend(&mut call.results.table, FriendClient { target })?;
                call.results.set_person(person);
            }
        }
        Ok(())
    }

    fn add(&mut self, call: &mut DirectoryAddCall<'_>, context: &mut Context<Served>) -> MethodResult {
        let person = call.params.person()?;
        let (name, age) = (person.name()?.text(context.alloc())?, person.age());
        let friend = person.friend_client(context.alloc(), call.caps())?;
        self.tell(name.as_str(), age, context)?;
        call.keep(&friend.target, context)?;
        self.people.push(Person { name, age, friend })?;
        call.results.set_count(u32::try_from(self.people.len())?);
        Ok(())
    }

    fn watch(&mut self, call: &mut DirectoryWatchCall<'_>, context: &mut Context<Served>) -> MethodResult {
        let watcher = call.params.watcher_client(context.alloc(), call.caps())?;
        call.keep(&watcher.target, context)?;
        self.watchers.push(watcher)?;
        Ok(())
    }
}
