//! What the clients and the servers over the Rust library share: structs by the places of their fields (Debian has no plugin of
//! `capnp compile` that writes Rust), calls and objects by the numbers of their methods, and a connection.
use async_io::Async;
use capnp::capability::{self, FromClientHook, FromServer, Promise, RemotePromise};
use capnp::private::capability::ClientHook;
use capnp::private::layout::{PointerBuilder, PointerReader, StructBuilder, StructReader, StructSize};
use capnp::traits::{FromPointerBuilder, FromPointerReader};
use capnp::{any_pointer, Error, Result, Word};
use capnp_rpc::twoparty::{VatId, VatNetwork};
use capnp_rpc::{Disconnector, RpcSystem};
use futures::executor::LocalSpawner;
use futures::task::LocalSpawnExt;
use futures::{future, AsyncReadExt};
use std::future::Future;
use std::net::TcpStream;

pub type Params = capability::Params<any_pointer::Owned>;
pub type Results = capability::Results<any_pointer::Owned>;
pub type Called = RemotePromise<any_pointer::Owned>;
type Request = capability::Request<any_pointer::Owned, any_pointer::Owned>;

/// A method: its interface and its number.
pub type Method = (u64, u16);

const DESK: u64 = 0xe5a1_0000_0000_0001;
const CELL: u64 = 0xe5a1_0000_0000_0002;
const TRIAL: u64 = 0xe5a1_0000_0000_0003;
pub const NOW: Method = (DESK, 0);
pub const LATER: Method = (DESK, 1);
pub const NEVER: Method = (DESK, 2);
pub const ADD: Method = (CELL, 0);
pub const GET: Method = (CELL, 1);
pub const ECHO: Method = (TRIAL, 0);
pub const AFTER: Method = (TRIAL, 1);
pub const BECOME: Method = (TRIAL, 2);
pub const TELL: Method = (TRIAL, 3);

/// The methods of ../../../tails/tails.capnp but those of a Cell.
pub mod tails {
    use super::Method;

    const MAKER: u64 = 0xe5a1_0000_0000_00c1;
    const TAILS: u64 = 0xe5a1_0000_0000_00c2;
    pub const MAKE: Method = (MAKER, 0);
    pub const PASS: Method = (MAKER, 1);
    pub const COUNT: Method = (TAILS, 0);
    pub const MADE: Method = (TAILS, 1);
    pub const PASSED: Method = (TAILS, 2);
    pub const BECOME: Method = (TAILS, 3);
    pub const ASKS: Method = (TAILS, 4);
    pub const HOLD: Method = (TAILS, 5);
    pub const HELD: Method = (TAILS, 6);
    pub const GIVE: Method = (TAILS, 7);
    pub const AFTER: Method = (TAILS, 8);
}

/// A struct that came. No struct of these schemas has more than one pointer.
pub struct View<'a>(StructReader<'a>);

impl<'a> FromPointerReader<'a> for View<'a> {
    fn get_from_pointer(pointer: &PointerReader<'a>, default: Option<&'a [Word]>) -> Result<Self> {
        Ok(View(pointer.get_struct(default)?))
    }
}

impl<'a> View<'a> {
    pub fn word(&self, place: usize) -> u64 {
        self.0.get_data_field(place)
    }

    pub fn content(&self) -> PointerReader<'a> {
        self.0.get_pointer_field(0)
    }

    pub fn cap(&self) -> Result<Option<Remote>> {
        let pointer = self.content();
        if pointer.is_null() {
            return Ok(None);
        }
        Ok(Some(Remote(pointer.get_capability()?)))
    }
}

/// A struct of so many words and pointers that is to be sent.
pub struct Draft<'a, const WORDS: u16, const POINTERS: u16>(StructBuilder<'a>);

impl<'a, const WORDS: u16, const POINTERS: u16> Draft<'a, WORDS, POINTERS> {
    const SIZE: StructSize = StructSize { data: WORDS, pointers: POINTERS };

    pub fn set_word(&mut self, place: usize, word: u64) {
        self.0.set_data_field(place, word);
    }

    pub fn content(self) -> PointerBuilder<'a> {
        self.0.get_pointer_field(0)
    }

    pub fn set_cap(self, cap: &Remote) {
        self.content().set_capability(cap.0.add_ref());
    }
}

impl<'a, const WORDS: u16, const POINTERS: u16> FromPointerBuilder<'a> for Draft<'a, WORDS, POINTERS> {
    fn init_pointer(pointer: PointerBuilder<'a>, _size: u32) -> Self {
        Draft(pointer.init_struct(Self::SIZE))
    }

    fn get_from_pointer(pointer: PointerBuilder<'a>, default: Option<&'a [Word]>) -> Result<Self> {
        Ok(Draft(pointer.get_struct(Self::SIZE, default)?))
    }
}

/// A capability, of whatever interface.
#[derive(Clone)]
pub struct Remote(Box<dyn ClientHook>);

impl FromClientHook for Remote {
    fn new(hook: Box<dyn ClientHook>) -> Self {
        Remote(hook)
    }
}

impl Remote {
    /// A capability for an object of this end.
    pub fn of(object: impl Object + 'static) -> Self {
        capnp_rpc::new_client(Served(Box::new(object)))
    }

    /// Sends a call.
    pub fn call(&self, method: Method, words: &[u64], cap: Option<&Remote>) -> Called {
        self.request(method, words, cap).send()
    }

    /// Params are as wide as the widest of the schemas.
    fn request(&self, method: Method, words: &[u64], cap: Option<&Remote>) -> Request {
        let mut request = self.0.new_call(method.0, method.1, None);
        let mut params = request.get().init_as::<Draft<2, 1>>();
        for (place, word) in words.iter().enumerate() {
            params.set_word(place, *word);
        }
        if let Some(cap) = cap {
            params.set_cap(cap);
        }
        request
    }

    /// Answers a call by another one to the peer that made it, as a tail call: it sends that, and a Return that takes its results.
    /// This library makes one only through the hook of the results, and not to the end: it would answer again as the method ends, it
    /// knows no `resultsSentElsewhere` unless the call was given up, and it never frees the number of the call that is answered.
    pub fn answer(&self, results: Results, method: Method, words: &[u64], cap: Option<&Remote>) -> Promise<(), Error> {
        drop(results.hook.direct_tail_call(self.request(method, words, cap).hook));
        Promise::from_future(future::pending())
    }

    /// A promise, which comes to what a future gives.
    pub fn promise(future: impl Future<Output = Result<Remote>> + 'static) -> Self {
        capnp_rpc::new_promise_client(Box::pin(async { Ok(capability::Client::new(future.await?.0)) }))
    }

    /// Waits until a promise came to what it stands for.
    pub async fn resolved(&self) -> Result<()> {
        self.0.when_resolved().await
    }

    pub fn into_client(self) -> capability::Client {
        capability::Client::new(self.0)
    }
}

/// The capability that a call will give.
pub fn promised(called: &Called) -> Remote {
    Remote(called.pipeline.get_pointer_field(0).as_cap())
}

/// The number that a call gives.
pub async fn number(called: Called) -> Result<u64> {
    Ok(called.promise.await?.get()?.get_as::<View>()?.word(0))
}

/// The capability that a call gives.
pub async fn given(called: Called) -> Result<Remote> {
    let response = called.promise.await?;
    let cap = response.get()?.get_as::<View>()?.cap()?;
    cap.ok_or_else(|| Error::failed("no capability".into()))
}

/// An object, which answers calls.
pub trait Object {
    fn call(&mut self, method: Method, params: Params, results: Results) -> Promise<(), Error>;
}

/// As the library has an object.
pub struct Served(Box<dyn Object>);

impl capability::Server for Box<Served> {
    fn dispatch_call(&mut self, interface: u64, number: u16, params: Params, results: Results) -> Promise<(), Error> {
        self.0.call((interface, number), params, results)
    }
}

impl FromServer<Served> for Remote {
    type Dispatch = Box<Served>;

    fn from_server(object: Served) -> Box<Served> {
        Box::new(object)
    }
}

/// A Cell, of either end, and its number.
pub struct Cell {
    pub held: u64,
}

impl Object for Cell {
    fn call(&mut self, method: Method, params: Params, mut results: Results) -> Promise<(), Error> {
        match method {
            ADD => self.held = self.held.wrapping_add(capnp_rpc::pry!(capnp_rpc::pry!(params.get()).get_as::<View>()).word(0)),
            GET => {}
            _ => return Promise::err(Error::unimplemented("no such method".into())),
        }
        results.get().init_as::<Draft<1, 0>>().set_word(0, self.held);
        Promise::ok(())
    }
}

/// Connects to the server of a port: the object that it offers, and what ends the connection.
pub async fn connect(port: u16, spawner: &LocalSpawner) -> Result<(Remote, Disconnector<VatId>)> {
    let stream = Async::<TcpStream>::connect(([127, 0, 0, 1], port)).await?;
    stream.get_ref().set_nodelay(true)?;
    let mut system = vat(stream, VatId::Client, None);
    let (bootstrap, disconnector) = (system.bootstrap(VatId::Server), system.get_disconnector());
    run(system, spawner);
    Ok((bootstrap, disconnector))
}

/// Runs one end of a connection until it ends.
pub fn run(system: RpcSystem<VatId>, spawner: &LocalSpawner) {
    spawner.spawn_local(async { system.await.unwrap_or_else(|error| eprintln!("{error}")) }).expect("a task");
}

/// One end of a connection.
pub fn vat(stream: Async<TcpStream>, side: VatId, bootstrap: Option<capability::Client>) -> RpcSystem<VatId> {
    let (reader, writer) = stream.split();
    RpcSystem::new(Box::new(VatNetwork::new(reader, writer, side, Default::default())), bootstrap)
}
