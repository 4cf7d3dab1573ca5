//! Calls of a directory.

use crate::Served;
use crate::peer::{Calling, came};
use directory::{
    DirectoryAddParamsBuilder, DirectoryClient, DirectoryFindResultsPipeline, FriendClient,
    FriendGreetCall, FriendServer, PersonBuilder, WatcherClient,
};
use jamdrosek::client::Cap;
use jamdrosek::interfaces::{MethodResult, ServiceObject};
use jamdrosek::server::Context;
use std::alloc::Global;
use std::io::{Read, Write};

/// Answers a greeting with itself, twice.
#[derive(Drop)]
pub struct Echo {}

impl ServiceObject for Echo {
    type Makes = Served;

    fn has_more(&self) -> bool {
        false
    }
}

impl FriendServer for Echo {
    fn greet(&mut self, call: &mut FriendGreetCall<'_>, context: &mut Context<Served>) -> MethodResult {
        let greeting = call.params.greeting()?.text(context.alloc())?;
        let said = greeting.as_str();
        let answer = format!(in context.alloc(); "{said}, {said}")?;
        Ok(call.results.set_answer(answer.as_str())?)
    }
}

/// A directory that is called.
#[derive(Drop)]
pub struct Directing<'a, R, W> {
    alloc: Global,
    client: &'a mut Calling<R, W>,
    directory: DirectoryClient,
}

impl<'a, R: Read + Drop, W: Write + Drop> Directing<'a, R, W> {
    /// Calls the peer's directory.
    pub fn new(alloc: Global, client: &'a mut Calling<R, W>) -> anyhow::Result<Directing<'a, R, W>> {
        let cap = client.bootstrap()?.cap(alloc);
        let root = client.own(cap);
        Ok(Directing {
            alloc,
            client,
            directory: DirectoryClient::new(alloc, root),
        })
    }

    /// The directory's name, by the interface that its own extends.
    pub fn name(&mut self) -> anyhow::Result<String> {
        let promise = self.directory.as_named()?.name(self.client)?;
        let came = came(self.client, promise.question())?;
        Ok(promise.results(&came)?.name()?.text(self.alloc)?)
    }

    /// Has an object of this end's told of each person that is added.
    pub fn watch(&mut self) -> anyhow::Result<String> {
        self.watch_by(Cap::Object(0))
    }

    /// Has nobody told of people: the capability is null.
    pub fn watch_by_nobody(&mut self) -> anyhow::Result<String> {
        self.watch_by(Cap::None)
    }

    /// Has a watcher told of each person that is added.
    fn watch_by(&mut self, watcher: Cap) -> anyhow::Result<String> {
        let alloc = self.alloc;
        let watcher = WatcherClient::new(alloc, self.client.own(watcher));
        let promise = self.directory.watch(self.client, watcher)?;
        let came = came(self.client, promise.question())?;
        let _ = promise.results(&came)?;
        Ok(String::from_str(alloc, "done")?)
    }

    /// Adds a person for whom an object of this end's speaks.
    pub fn add(&mut self) -> anyhow::Result<String> {
        let friend = FriendClient::new(self.alloc, self.client.own(Cap::Object(1)));
        self.add_person("Ada", 36, friend)
    }

    /// Adds a person for whom nobody speaks: the capability is null.
    pub fn alone(&mut self) -> anyhow::Result<String> {
        let nobody = FriendClient::new(self.alloc, self.client.own(Cap::None));
        self.add_person("Alan", 41, nobody)
    }

    /// Adds a person, and says how many there are.
    fn add_person(&mut self, name: &str, age: u8, friend: FriendClient) -> anyhow::Result<String> {
        let alloc = self.alloc;
        let mut params = DirectoryAddParamsBuilder::new(alloc)?;
        let mut person = PersonBuilder::new(alloc)?;
        person.set_name(name)?;
        person.set_age(age);
        person.set_friend(&mut params.table, friend)?;
        params.set_person(person);
        let promise = self.directory.add(self.client, params)?;
        let came = came(self.client, promise.question())?;
        Ok(format!(in alloc; "{}", promise.results(&came)?.count())?)
    }

    /// Asks for a person.
    fn find(&mut self, name: &str) -> anyhow::Result<DirectoryFindResultsPipeline> {
        Ok(self.directory.find(self.client, name)?)
    }

    /// Greets whom a capability names.
    fn greet(&mut self, friend: &FriendClient) -> anyhow::Result<String> {
        let promise = friend.greet(self.client, "hello")?;
        let came = came(self.client, promise.question())?;
        Ok(promise.results(&came)?.answer()?.text(self.alloc)?)
    }

    /// Greets Grace, whom the server knows, before she is found.
    pub fn promised(&mut self) -> anyhow::Result<String> {
        let friend = self.find("Grace")?.person()?.friend()?;
        self.greet(&friend)
    }

    /// Greets who speaks for Alan, before he is found: nobody.
    pub fn promised_nobody(&mut self) -> anyhow::Result<String> {
        let friend = self.find("Alan")?.person()?.friend()?;
        self.greet(&friend)
    }

    /// The same once he is found.
    pub fn found_nobody(&mut self) -> anyhow::Result<String> {
        let promise = self.find("Alan")?;
        let came = came(self.client, promise.question())?;
        let person = promise.results(&came)?.person()?;
        let friend = person.friend_client(self.alloc, &came.caps)?;
        self.greet(&friend)
    }

    /// Greets Ada once she is found: she is an object of this end's.
    pub fn found(&mut self) -> anyhow::Result<String> {
        let promise = self.find("Ada")?;
        let came = came(self.client, promise.question())?;
        let person = promise.results(&came)?.person()?;
        let (name, age) = (person.name()?.text(self.alloc)?, person.age());
        let friend = person.friend_client(self.alloc, &came.caps)?;
        let said = self.greet(&friend)?;
        Ok(format!(in self.alloc; "{}, {age}, says {}", name.as_str(), said.as_str())?)
    }
}
