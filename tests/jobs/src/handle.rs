//! `handle` of jobs.capnp, made by capnpc_rattle.

ghost use Rattle.std.specs.Prelude.{◌≡◌, IfOk, OnOk, OnErr, Err, []};
ghost use Rattle.cp_tree.specs.Seen.{pointee_of};
ghost use Rattle.cp_fields.specs.Pointers.{text_field};
ghost use Rattle.cp_builder.specs.declared.fault.BuildError.TheVariants.{TooLong};
ghost use Rattle.cp_builder.specs.Copies.{Sets};
ghost use Rattle.cp_builder.specs.Drafts.{blank};
ghost use Rattle.cp_interfaces.specs.Calls.{IsCall, MakesOf, request_of};
ghost use Rattle.cp_interfaces.specs.Faults.{Unbuilt};
ghost use Rattle.cp_interfaces.specs.ServiceCalls.{Answers};
ghost use Rattle.cp_interfaces.specs.Streams.{no_streams};
ghost use Rattle.cp_interfaces.specs.Tables.{none_named};
ghost use Rattle.cp_interfaces.specs.Services.{At, at};
ghost use Rattle.jobs.specs.Handle.{HandleKind, HandleTakes, any_handle};

use cp_builder::{BuildError, FieldValue, StructBuilder};
use cp_fields::{StructReader, TextReader, WrongKind};
use cp_interfaces::{
    CallTarget, Caller, CapTableBuilder, Dispatch, LaterAnswer, Lends, MethodCall, MethodFault,
    MethodRequest, MethodResult, NoFieldsReader, ObjectDispatch, Results, ServiceCall,
    ServiceObject, SharedClient, TypedClient, TypedPipeline, TypedResolver, refuse, refuse_method,
};
use cp_objects::{Context, SessionCap};
use cp_servants::Reply;
use cp_tree::Whole;
use std::alloc::{AllocError, Global};

/// A job, as the client has it that submitted it.
#[derive(Drop)]
pub struct HandleClient {
    /// The capability that is called.
    pub target: CallTarget,
}

impl HandleClient {
    /// The interface's number.
    pub const ID: u64 = 0x97fca19f41a8b292;

    /// The object that a capability stands for.
    pub fn new(alloc: Global, cap: SessionCap) -> HandleClient
        ensures { result.target ≡ cap }
    {
        HandleClient {
            target: CallTarget::new(alloc, cap),
        }
    }

    /// A call of `wait @0`.
    pub fn wait_request(&self) -> Result<MethodRequest<'_>, BuildError>
        ensures request { IfOk result (λ r. IsCall r self.now.target (request_of 0x97fca19f41a8b292 0 (blank 0 0) [])) }
        ensures long { result ≡ Err TooLong → ⊥ }
    {
        let params: StructBuilder<0, 0> = StructBuilder::new(self.target.alloc())?;
        let content = params.into_whole();
        Ok(self.target.request(0x97fca19f41a8b292, 0, content))
    }

    /// The output, once the job is done.
    pub fn wait<C: Caller>(&self, caller: &mut C) -> Result<HandleWaitResultsPipeline, C::Fault>
        ensures { MakesOf (λ p. p.at) C.number C.sends C.Fault.From-2.from_gives (Unbuilt C.Fault.From-1.from_gives ⊥) caller.old self.now.target 0x97fca19f41a8b292 0 (blank 0 0) [] result caller.new }
    {
        let call = self.wait_request()?;
        Ok(HandleWaitResultsPipeline::of(self.target.call(caller, call.request)?))
    }
}

impl TypedClient for HandleClient {
    ghost called = { λ c. c.target };

    fn of(target: CallTarget) -> HandleClient {
        HandleClient { target }
    }

    fn into_target(self) -> CallTarget {
        self.target
    }
}

/// A call of `wait`.
pub type HandleWaitCall<'c> = ServiceCall<'c, HandleWaitParamsReader<'c>, HandleWaitResultsBuilder>;

/// The answer of a call of `wait` that is given later.
pub type HandleWaitLater = LaterAnswer<HandleWaitResultsBuilder>;

/// An object of `interface Handle`.
pub trait HandleServer: ServiceObject {
    /// What calls of its methods lead to. Of an object that doesn't say it nothing is known.
    ghost handle_kind: { HandleKind (At Self Self.Makes) } = { any_handle };

    /// The output, once the job is done.
    fn wait(
        &mut self,
        call: &mut HandleWaitCall<'_>,
        context: &mut Context<Self::Makes>,
    ) -> MethodResult
        ensures { Answers (λ p. p.body) (λ d. d.body) (λ d. none_named) handle_kind.on_wait (at self.old context.old) call.old call.new result (at self.new context.new) };
}

/// An object of `interface Handle`, as a connection serves it.
pub type HandleDispatch<T> = ObjectDispatch<T, HandleClient>;

/// Resolves a promise of an object of `interface Handle`: one that is named before it is there.
pub type HandleResolver = TypedResolver<HandleClient>;

/// An object of `interface Handle` that all connections of a host may name.
pub type HandleShared = SharedClient<HandleClient>;

impl<T: HandleServer> Dispatch<T> for HandleClient {
    ghost takes = { HandleTakes T.handle_kind };

    ghost streams = { no_streams };

    fn dispatch(
        object: &mut T,
        call: &MethodCall<'_>,
        context: &mut Context<T::Makes>,
    ) -> Result<Reply, AllocError> {
        match (call.request.interface, call.request.method, call.params()) {
            (0x97fca19f41a8b292, 0, Ok(body)) => {
                let results = HandleWaitResultsBuilder::new(context.alloc())?;
                let params = HandleWaitParamsReader { body };
                let mut passed = ServiceCall::new(context.alloc(), call, params, results);
                let done = HandleServer::wait(object, &mut passed, context);
                passed.reply(call, done)
            }
            (0x97fca19f41a8b292, 0, Err(fault)) => {
                refuse(context.alloc(), call, MethodFault::WrongKind(fault))
            }
            _ => refuse_method(context.alloc(), call, "Handle"),
        }
    }

    fn is_stream(interface: u64, method: u16) -> bool {
        let _ = (interface, method);
        false
    }
}

/// `struct Handle.wait$Params`.
pub type HandleWaitParamsReader<'a> = NoFieldsReader<'a>;

/// `struct Handle.wait$Results`.
#[derive(Drop)]
pub struct HandleWaitResultsReader<'a> {
    /// The struct, by the places of its fields.
    pub body: StructReader<'a>,
}

impl<'a> HandleWaitResultsReader<'a> {
    /// `output @0`.
    pub fn output(&self) -> Result<TextReader<'a>, WrongKind>
        ensures { result ≡ text_field [] (pointee_of self.now.body 0) }
    {
        self.body.text(0)
    }
}

/// `struct Handle.wait$Results`, to be written.
#[derive(Drop)]
pub struct HandleWaitResultsBuilder {
    /// The struct, by the places of its fields.
    pub body: StructBuilder<0, 1>,
}

impl HandleWaitResultsBuilder {
    /// A struct whose fields are all as by default.
    pub fn new(alloc: Global) -> Result<HandleWaitResultsBuilder, AllocError>
        ensures { IfOk result (λ d. d.body ≡ blank 0 1) }
    {
        Ok(HandleWaitResultsBuilder {
            body: StructBuilder::new(alloc)?,
        })
    }

    /// Sets `output`.
    pub fn set_output<'a, V: FieldValue<TextReader<'a>>>(
        &mut self,
        value: V,
    ) -> Result<(), BuildError>
        ensures set { OnOk result (Sets (V.stands value) self.old.body 0 self.new.body) }
        ensures left { OnErr result (self.new ≡ self.old) }
        ensures long { result ≡ Err TooLong → V.is_long value }
    {
        let whole = value.into_whole(self.body.alloc())?;
        self.body.set_pointer(0, whole);
        Ok(())
    }
}

impl Results for HandleWaitResultsBuilder {
    ghost content = { λ d. d.body };

    ghost names = { λ d. none_named };

    fn into_parts(self, alloc: Global) -> (Whole, CapTableBuilder) {
        (self.body.into_whole(), CapTableBuilder::new(alloc))
    }
}

/// `struct Handle.wait$Results`, as a question will give it.
pub type HandleWaitResultsPipeline = TypedPipeline<HandleWaitResultsBuilder>;

impl<'a> Lends<'a> for HandleWaitResultsBuilder {
    type Reader = HandleWaitResultsReader<'a>;

    ghost read = { λ x. x.body };

    fn reader(body: StructReader<'a>) -> HandleWaitResultsReader<'a> {
        HandleWaitResultsReader { body }
    }
}
