//! `listener` of chat.capnp, made by capnpc_rattle.

ghost use Rattle.std.specs.Prelude.{◌≡◌, IfOk, Err, ◌≤◌, ◌^◌, length, ◌+◌, ◌⊎◌, []};
ghost use Rattle.cp_tree.specs.Seen.{pointee_of};
ghost use Rattle.cp_fields.specs.Pointers.{text_field};
ghost use Rattle.cp_builder.specs.declared.fault.BuildError.TheVariants.{TooLong};
ghost use Rattle.cp_builder.specs.Drafts.{blank, text_tree, with_pointer};
ghost use Rattle.cp_interfaces.specs.Calls.{IsCall, MakesOf, request_of};
ghost use Rattle.cp_interfaces.specs.Faults.{Unbuilt};
ghost use Rattle.cp_interfaces.specs.ServiceCalls.{Answers};
ghost use Rattle.cp_interfaces.specs.Streams.{no_streams};
ghost use Rattle.cp_interfaces.specs.Tables.{none_named};
ghost use Rattle.cp_interfaces.specs.Services.{At, at};
ghost use Rattle.chat.specs.Listener.{ListenerKind, ListenerTakes, any_listener};

use cp_builder::{BuildError, StructBuilder};
use cp_fields::{StructReader, TextReader, WrongKind};
use cp_interfaces::{
    CallTarget, Caller, Dispatch, LaterAnswer, MethodCall, MethodFault, MethodRequest,
    MethodResult, NoFieldsBuilder, NoFieldsPipeline, NoFieldsReader, ObjectDispatch, ServiceCall,
    ServiceObject, SharedClient, TypedClient, TypedResolver, refuse, refuse_method,
};
use cp_objects::{Context, SessionCap};
use cp_servants::Reply;
use std::alloc::{AllocError, Global};

/// `interface Listener`.
#[derive(Drop)]
pub struct ListenerClient {
    /// The capability that is called.
    pub target: CallTarget,
}

impl ListenerClient {
    /// The interface's number.
    pub const ID: u64 = 0xba75a021af22dd5e;

    /// The object that a capability stands for.
    pub fn new(alloc: Global, cap: SessionCap) -> ListenerClient
        ensures { result.target ≡ cap }
    {
        ListenerClient {
            target: CallTarget::new(alloc, cap),
        }
    }

    /// A call of `heard @0`.
    pub fn heard_request(&self, name: &str, text: &str) -> Result<MethodRequest<'_>, BuildError>
        ensures request { IfOk result (λ r. IsCall r self.now.target (request_of 0xba75a021af22dd5e 0 (with_pointer (with_pointer (blank 0 2) 0 (text_tree name.now)) 1 (text_tree text.now)) [])) }
        ensures long { result ≡ Err TooLong → (2 ^ 29 ≤ length name.now + 1) ⊎ (2 ^ 29 ≤ length text.now + 1) }
    {
        let mut params: StructBuilder<0, 2> = StructBuilder::new(self.target.alloc())?;
        params.set_pointer(0, cp_builder::text_of(self.target.alloc(), name)?);
        params.set_pointer(1, cp_builder::text_of(self.target.alloc(), text)?);
        let content = params.into_whole();
        Ok(self.target.request(0xba75a021af22dd5e, 0, content))
    }

    /// Takes what the member of this name said.
    pub fn heard<C: Caller>(
        &self,
        caller: &mut C,
        name: &str,
        text: &str,
    ) -> Result<ListenerHeardResultsPipeline, C::Fault>
        ensures { MakesOf (λ p. p.at) C.number C.sends C.Fault.From-2.from_gives (Unbuilt C.Fault.From-1.from_gives ((2 ^ 29 ≤ length name.now + 1) ⊎ (2 ^ 29 ≤ length text.now + 1))) caller.old self.now.target 0xba75a021af22dd5e 0 (with_pointer (with_pointer (blank 0 2) 0 (text_tree name.now)) 1 (text_tree text.now)) [] result caller.new }
    {
        let call = self.heard_request(name, text)?;
        Ok(ListenerHeardResultsPipeline::of(self.target.call(caller, call.request)?))
    }
}

impl TypedClient for ListenerClient {
    ghost called = { λ c. c.target };

    fn of(target: CallTarget) -> ListenerClient {
        ListenerClient { target }
    }

    fn into_target(self) -> CallTarget {
        self.target
    }
}

/// A call of `heard`.
pub type ListenerHeardCall<'c> = ServiceCall<
    'c,
    ListenerHeardParamsReader<'c>,
    ListenerHeardResultsBuilder,
>;

/// The answer of a call of `heard` that is given later.
pub type ListenerHeardLater = LaterAnswer<ListenerHeardResultsBuilder>;

/// An object of `interface Listener`.
pub trait ListenerServer: ServiceObject {
    /// What calls of its methods lead to. Of an object that doesn't say it nothing is known.
    ghost listener_kind: { ListenerKind (At Self Self.Makes) } = { any_listener };

    /// Takes what the member of this name said.
    fn heard(
        &mut self,
        call: &mut ListenerHeardCall<'_>,
        context: &mut Context<Self::Makes>,
    ) -> MethodResult
        ensures { Answers (λ p. p.body) (λ d. d.body) (λ d. none_named) listener_kind.on_heard (at self.old context.old) call.old call.new result (at self.new context.new) };
}

/// An object of `interface Listener`, as a connection serves it.
pub type ListenerDispatch<T> = ObjectDispatch<T, ListenerClient>;

/// Resolves a promise of an object of `interface Listener`: one that is named before it is there.
pub type ListenerResolver = TypedResolver<ListenerClient>;

/// An object of `interface Listener` that all connections of a host may name.
pub type ListenerShared = SharedClient<ListenerClient>;

impl<T: ListenerServer> Dispatch<T> for ListenerClient {
    ghost takes = { ListenerTakes T.listener_kind };

    ghost streams = { no_streams };

    fn dispatch(
        object: &mut T,
        call: &MethodCall<'_>,
        context: &mut Context<T::Makes>,
    ) -> Result<Reply, AllocError> {
        match (call.request.interface, call.request.method, call.params()) {
            (0xba75a021af22dd5e, 0, Ok(body)) => {
                let results = ListenerHeardResultsBuilder::new(context.alloc())?;
                let params = ListenerHeardParamsReader { body };
                let mut passed = ServiceCall::new(context.alloc(), call, params, results);
                let done = ListenerServer::heard(object, &mut passed, context);
                passed.reply(call, done)
            }
            (0xba75a021af22dd5e, 0, Err(fault)) => {
                refuse(context.alloc(), call, MethodFault::WrongKind(fault))
            }
            _ => refuse_method(context.alloc(), call, "Listener"),
        }
    }

    fn is_stream(interface: u64, method: u16) -> bool {
        let _ = (interface, method);
        false
    }
}

/// `struct Listener.heard$Params`.
#[derive(Drop)]
pub struct ListenerHeardParamsReader<'a> {
    /// The struct, by the places of its fields.
    pub body: StructReader<'a>,
}

impl<'a> ListenerHeardParamsReader<'a> {
    /// `name @0`.
    pub fn name(&self) -> Result<TextReader<'a>, WrongKind>
        ensures { result ≡ text_field [] (pointee_of self.now.body 0) }
    {
        self.body.text(0)
    }

    /// `text @1`.
    pub fn text(&self) -> Result<TextReader<'a>, WrongKind>
        ensures { result ≡ text_field [] (pointee_of self.now.body 1) }
    {
        self.body.text(1)
    }
}

/// `struct Listener.heard$Results`.
pub type ListenerHeardResultsReader<'a> = NoFieldsReader<'a>;

/// `struct Listener.heard$Results`, to be written.
pub type ListenerHeardResultsBuilder = NoFieldsBuilder;

/// `struct Listener.heard$Results`, as a question will give it.
pub type ListenerHeardResultsPipeline = NoFieldsPipeline;
