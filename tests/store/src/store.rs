//! `store` of store.capnp, made by capnpc_rattle.

ghost use Rattle.std.specs.Prelude.{◌≡◌, IfOk, OnOk, OnErr, Err, ◌≤◌, ◌^◌, length, ◌+◌, ◌⊎◌, []};
ghost use Rattle.cp_tree.specs.Seen.{pointee_of};
ghost use Rattle.cp_fields.specs.Pointers.{text_field};
ghost use Rattle.cp_builder.specs.declared.fault.BuildError.TheVariants.{TooLong};
ghost use Rattle.cp_builder.specs.Copies.{Sets};
ghost use Rattle.cp_builder.specs.Drafts.{blank, text_tree, with_pointer};
ghost use Rattle.cp_interfaces.specs.Calls.{IsCall, MakesOf, request_of};
ghost use Rattle.cp_interfaces.specs.Faults.{Unbuilt};
ghost use Rattle.cp_interfaces.specs.ServiceCalls.{Answers};
ghost use Rattle.cp_interfaces.specs.Streams.{no_streams};
ghost use Rattle.cp_interfaces.specs.Tables.{none_named};
ghost use Rattle.cp_interfaces.specs.Services.{At, at};
ghost use Rattle.store.specs.Store.{StoreKind, StoreTakes, any_store};

use cp_builder::{BuildError, FieldValue, StructBuilder};
use cp_fields::{StructReader, TextReader, WrongKind};
use cp_interfaces::{
    CallTarget, Caller, CapTableBuilder, Dispatch, LaterAnswer, Lends, MethodCall, MethodFault,
    MethodRequest, MethodResult, NoFieldsBuilder, NoFieldsPipeline, NoFieldsReader, ObjectDispatch,
    Results, ServiceCall, ServiceObject, SharedClient, TypedClient, TypedPipeline, TypedResolver,
    refuse, refuse_method,
};
use cp_objects::{Context, SessionCap};
use cp_servants::Reply;
use cp_tree::Whole;
use std::alloc::{AllocError, Global};

/// Keeps texts by their keys.
#[derive(Drop)]
pub struct StoreClient {
    /// The capability that is called.
    pub target: CallTarget,
}

impl StoreClient {
    /// The interface's number.
    pub const ID: u64 = 0xea2f6e3bf233ec72;

    /// The object that a capability stands for.
    pub fn new(alloc: Global, cap: SessionCap) -> StoreClient
        ensures { result.target ≡ cap }
    {
        StoreClient {
            target: CallTarget::new(alloc, cap),
        }
    }

    /// A call of `put @0`.
    pub fn put_request(&self, key: &str, value: &str) -> Result<MethodRequest<'_>, BuildError>
        ensures request { IfOk result (λ r. IsCall r self.now.target (request_of 0xea2f6e3bf233ec72 0 (with_pointer (with_pointer (blank 0 2) 0 (text_tree key.now)) 1 (text_tree value.now)) [])) }
        ensures long { result ≡ Err TooLong → (2 ^ 29 ≤ length key.now + 1) ⊎ (2 ^ 29 ≤ length value.now + 1) }
    {
        let mut params: StructBuilder<0, 2> = StructBuilder::new(self.target.alloc())?;
        params.set_pointer(0, cp_builder::text_of(self.target.alloc(), key)?);
        params.set_pointer(1, cp_builder::text_of(self.target.alloc(), value)?);
        let content = params.into_whole();
        Ok(self.target.request(0xea2f6e3bf233ec72, 0, content))
    }

    /// Keeps a text under a key, in place of the one before.
    pub fn put<C: Caller>(
        &self,
        caller: &mut C,
        key: &str,
        value: &str,
    ) -> Result<StorePutResultsPipeline, C::Fault>
        ensures { MakesOf (λ p. p.at) C.number C.sends C.Fault.From-2.from_gives (Unbuilt C.Fault.From-1.from_gives ((2 ^ 29 ≤ length key.now + 1) ⊎ (2 ^ 29 ≤ length value.now + 1))) caller.old self.now.target 0xea2f6e3bf233ec72 0 (with_pointer (with_pointer (blank 0 2) 0 (text_tree key.now)) 1 (text_tree value.now)) [] result caller.new }
    {
        let call = self.put_request(key, value)?;
        Ok(StorePutResultsPipeline::of(self.target.call(caller, call.request)?))
    }

    /// A call of `get @1`.
    pub fn get_request(&self, key: &str) -> Result<MethodRequest<'_>, BuildError>
        ensures request { IfOk result (λ r. IsCall r self.now.target (request_of 0xea2f6e3bf233ec72 1 (with_pointer (blank 0 1) 0 (text_tree key.now)) [])) }
        ensures long { result ≡ Err TooLong → 2 ^ 29 ≤ length key.now + 1 }
    {
        let mut params: StructBuilder<0, 1> = StructBuilder::new(self.target.alloc())?;
        params.set_pointer(0, cp_builder::text_of(self.target.alloc(), key)?);
        let content = params.into_whole();
        Ok(self.target.request(0xea2f6e3bf233ec72, 1, content))
    }

    /// The text of a key, or none.
    pub fn get<C: Caller>(
        &self,
        caller: &mut C,
        key: &str,
    ) -> Result<StoreGetResultsPipeline, C::Fault>
        ensures { MakesOf (λ p. p.at) C.number C.sends C.Fault.From-2.from_gives (Unbuilt C.Fault.From-1.from_gives (2 ^ 29 ≤ length key.now + 1)) caller.old self.now.target 0xea2f6e3bf233ec72 1 (with_pointer (blank 0 1) 0 (text_tree key.now)) [] result caller.new }
    {
        let call = self.get_request(key)?;
        Ok(StoreGetResultsPipeline::of(self.target.call(caller, call.request)?))
    }
}

impl TypedClient for StoreClient {
    ghost called = { λ c. c.target };

    fn of(target: CallTarget) -> StoreClient {
        StoreClient { target }
    }

    fn into_target(self) -> CallTarget {
        self.target
    }
}

/// A call of `put`.
pub type StorePutCall<'c> = ServiceCall<'c, StorePutParamsReader<'c>, StorePutResultsBuilder>;

/// The answer of a call of `put` that is given later.
pub type StorePutLater = LaterAnswer<StorePutResultsBuilder>;

/// A call of `get`.
pub type StoreGetCall<'c> = ServiceCall<'c, StoreGetParamsReader<'c>, StoreGetResultsBuilder>;

/// The answer of a call of `get` that is given later.
pub type StoreGetLater = LaterAnswer<StoreGetResultsBuilder>;

/// An object of `interface Store`.
pub trait StoreServer: ServiceObject {
    /// What calls of its methods lead to. Of an object that doesn't say it nothing is known.
    ghost store_kind: { StoreKind (At Self Self.Makes) } = { any_store };

    /// Keeps a text under a key, in place of the one before.
    fn put(
        &mut self,
        call: &mut StorePutCall<'_>,
        context: &mut Context<Self::Makes>,
    ) -> MethodResult
        ensures { Answers (λ p. p.body) (λ d. d.body) (λ d. none_named) store_kind.on_put (at self.old context.old) call.old call.new result (at self.new context.new) };

    /// The text of a key, or none.
    fn get(
        &mut self,
        call: &mut StoreGetCall<'_>,
        context: &mut Context<Self::Makes>,
    ) -> MethodResult
        ensures { Answers (λ p. p.body) (λ d. d.body) (λ d. none_named) store_kind.on_get (at self.old context.old) call.old call.new result (at self.new context.new) };
}

/// An object of `interface Store`, as a connection serves it.
pub type StoreDispatch<T> = ObjectDispatch<T, StoreClient>;

/// Resolves a promise of an object of `interface Store`: one that is named before it is there.
pub type StoreResolver = TypedResolver<StoreClient>;

/// An object of `interface Store` that all connections of a host may name.
pub type StoreShared = SharedClient<StoreClient>;

impl<T: StoreServer> Dispatch<T> for StoreClient {
    ghost takes = { StoreTakes T.store_kind };

    ghost streams = { no_streams };

    fn dispatch(
        object: &mut T,
        call: &MethodCall<'_>,
        context: &mut Context<T::Makes>,
    ) -> Result<Reply, AllocError> {
        match (call.request.interface, call.request.method, call.params()) {
            (0xea2f6e3bf233ec72, 0, Ok(body)) => {
                let results = StorePutResultsBuilder::new(context.alloc())?;
                let params = StorePutParamsReader { body };
                let mut passed = ServiceCall::new(context.alloc(), call, params, results);
                let done = StoreServer::put(object, &mut passed, context);
                passed.reply(call, done)
            }
            (0xea2f6e3bf233ec72, 1, Ok(body)) => {
                let results = StoreGetResultsBuilder::new(context.alloc())?;
                let params = StoreGetParamsReader { body };
                let mut passed = ServiceCall::new(context.alloc(), call, params, results);
                let done = StoreServer::get(object, &mut passed, context);
                passed.reply(call, done)
            }
            (0xea2f6e3bf233ec72, 0..=1, Err(fault)) => {
                refuse(context.alloc(), call, MethodFault::WrongKind(fault))
            }
            _ => refuse_method(context.alloc(), call, "Store"),
        }
    }

    fn is_stream(interface: u64, method: u16) -> bool {
        let _ = (interface, method);
        false
    }
}

/// `struct Store.put$Params`.
#[derive(Drop)]
pub struct StorePutParamsReader<'a> {
    /// The struct, by the places of its fields.
    pub body: StructReader<'a>,
}

impl<'a> StorePutParamsReader<'a> {
    /// `key @0`.
    pub fn key(&self) -> Result<TextReader<'a>, WrongKind>
        ensures { result ≡ text_field [] (pointee_of self.now.body 0) }
    {
        self.body.text(0)
    }

    /// `value @1`.
    pub fn value(&self) -> Result<TextReader<'a>, WrongKind>
        ensures { result ≡ text_field [] (pointee_of self.now.body 1) }
    {
        self.body.text(1)
    }
}

/// `struct Store.put$Results`.
pub type StorePutResultsReader<'a> = NoFieldsReader<'a>;

/// `struct Store.put$Results`, to be written.
pub type StorePutResultsBuilder = NoFieldsBuilder;

/// `struct Store.put$Results`, as a question will give it.
pub type StorePutResultsPipeline = NoFieldsPipeline;

/// `struct Store.get$Params`.
#[derive(Drop)]
pub struct StoreGetParamsReader<'a> {
    /// The struct, by the places of its fields.
    pub body: StructReader<'a>,
}

impl<'a> StoreGetParamsReader<'a> {
    /// `key @0`.
    pub fn key(&self) -> Result<TextReader<'a>, WrongKind>
        ensures { result ≡ text_field [] (pointee_of self.now.body 0) }
    {
        self.body.text(0)
    }
}

/// `struct Store.get$Results`.
#[derive(Drop)]
pub struct StoreGetResultsReader<'a> {
    /// The struct, by the places of its fields.
    pub body: StructReader<'a>,
}

impl<'a> StoreGetResultsReader<'a> {
    /// `value @0`.
    pub fn value(&self) -> Result<TextReader<'a>, WrongKind>
        ensures { result ≡ text_field [] (pointee_of self.now.body 0) }
    {
        self.body.text(0)
    }
}

/// `struct Store.get$Results`, to be written.
#[derive(Drop)]
pub struct StoreGetResultsBuilder {
    /// The struct, by the places of its fields.
    pub body: StructBuilder<0, 1>,
}

impl StoreGetResultsBuilder {
    /// A struct whose fields are all as by default.
    pub fn new(alloc: Global) -> Result<StoreGetResultsBuilder, AllocError>
        ensures { IfOk result (λ d. d.body ≡ blank 0 1) }
    {
        Ok(StoreGetResultsBuilder {
            body: StructBuilder::new(alloc)?,
        })
    }

    /// Sets `value`.
    pub fn set_value<'a, V: FieldValue<TextReader<'a>>>(
        &mut self,
        value: V,
    ) -> Result<(), BuildError>
        ensures set { OnOk result (Sets (V.stands value) self.old.body 0 self.new.body) }
        ensures left { OnErr result (self.new ≡ self.old) }
        ensures long { result ≡ Err TooLong → V.is_long value }
    {
        let whole = value.into_whole(self.body.alloc())?;
        self.body.set_pointer(0, whole);
        Ok(())
    }
}

impl Results for StoreGetResultsBuilder {
    ghost content = { λ d. d.body };

    ghost names = { λ d. none_named };

    fn into_parts(self, alloc: Global) -> (Whole, CapTableBuilder) {
        (self.body.into_whole(), CapTableBuilder::new(alloc))
    }
}

/// `struct Store.get$Results`, as a question will give it.
pub type StoreGetResultsPipeline = TypedPipeline<StoreGetResultsBuilder>;

impl<'a> Lends<'a> for StoreGetResultsBuilder {
    type Reader = StoreGetResultsReader<'a>;

    ghost read = { λ x. x.body };

    fn reader(body: StructReader<'a>) -> StoreGetResultsReader<'a> {
        StoreGetResultsReader { body }
    }
}
