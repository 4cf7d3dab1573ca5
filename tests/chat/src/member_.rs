//! `member_` of chat.capnp, made by capnpc_rattle.

ghost use Rattle.std.specs.Prelude.{◌≡◌, IfOk, Err, ◌≤◌, ◌^◌, length, ◌+◌, []};
ghost use Rattle.cp_tree.specs.Seen.{pointee_of};
ghost use Rattle.cp_fields.specs.Pointers.{text_field};
ghost use Rattle.cp_builder.specs.declared.fault.BuildError.TheVariants.{TooLong};
ghost use Rattle.cp_builder.specs.Drafts.{blank, text_tree, with_pointer};
ghost use Rattle.cp_interfaces.specs.Calls.{IsCall, MakesOf, request_of};
ghost use Rattle.cp_interfaces.specs.Faults.{Unbuilt};
ghost use Rattle.cp_interfaces.specs.ServiceCalls.{Answers};
ghost use Rattle.cp_interfaces.specs.Streams.{no_streams};
ghost use Rattle.cp_interfaces.specs.Tables.{none_named};
ghost use Rattle.cp_interfaces.specs.Services.{At, at};
ghost use Rattle.chat.specs.Member_.{MemberKind, MemberTakes, any_member};

use cp_builder::{BuildError, StructBuilder};
use cp_fields::{StructReader, TextReader, WrongKind};
use cp_interfaces::{
    CallTarget, Caller, Dispatch, LaterAnswer, MethodCall, MethodFault, MethodRequest,
    MethodResult, NoFieldsBuilder, NoFieldsPipeline, NoFieldsReader, ObjectDispatch, ServiceCall,
    ServiceObject, SharedClient, TypedClient, TypedResolver, refuse, refuse_method,
};
use cp_objects::{Context, SessionCap};
use cp_servants::Reply;
use std::alloc::{AllocError, Global};

/// `interface Member`.
#[derive(Drop)]
pub struct MemberClient {
    /// The capability that is called.
    pub target: CallTarget,
}

impl MemberClient {
    /// The interface's number.
    pub const ID: u64 = 0xe5edd802c7f5c6ea;

    /// The object that a capability stands for.
    pub fn new(alloc: Global, cap: SessionCap) -> MemberClient
        ensures { result.target ≡ cap }
    {
        MemberClient {
            target: CallTarget::new(alloc, cap),
        }
    }

    /// A call of `say @0`.
    pub fn say_request(&self, text: &str) -> Result<MethodRequest<'_>, BuildError>
        ensures request { IfOk result (λ r. IsCall r self.now.target (request_of 0xe5edd802c7f5c6ea 0 (with_pointer (blank 0 1) 0 (text_tree text.now)) [])) }
        ensures long { result ≡ Err TooLong → 2 ^ 29 ≤ length text.now + 1 }
    {
        let mut params: StructBuilder<0, 1> = StructBuilder::new(self.target.alloc())?;
        params.set_pointer(0, cp_builder::text_of(self.target.alloc(), text)?);
        let content = params.into_whole();
        Ok(self.target.request(0xe5edd802c7f5c6ea, 0, content))
    }

    /// Says this to all members.
    pub fn say<C: Caller>(
        &self,
        caller: &mut C,
        text: &str,
    ) -> Result<MemberSayResultsPipeline, C::Fault>
        ensures { MakesOf (λ p. p.at) C.number C.sends C.Fault.From-2.from_gives (Unbuilt C.Fault.From-1.from_gives (2 ^ 29 ≤ length text.now + 1)) caller.old self.now.target 0xe5edd802c7f5c6ea 0 (with_pointer (blank 0 1) 0 (text_tree text.now)) [] result caller.new }
    {
        let call = self.say_request(text)?;
        Ok(MemberSayResultsPipeline::of(self.target.call(caller, call.request)?))
    }
}

impl TypedClient for MemberClient {
    ghost called = { λ c. c.target };

    fn of(target: CallTarget) -> MemberClient {
        MemberClient { target }
    }

    fn into_target(self) -> CallTarget {
        self.target
    }
}

/// A call of `say`.
pub type MemberSayCall<'c> = ServiceCall<'c, MemberSayParamsReader<'c>, MemberSayResultsBuilder>;

/// The answer of a call of `say` that is given later.
pub type MemberSayLater = LaterAnswer<MemberSayResultsBuilder>;

/// An object of `interface Member`.
pub trait MemberServer: ServiceObject {
    /// What calls of its methods lead to. Of an object that doesn't say it nothing is known.
    ghost member_kind: { MemberKind (At Self Self.Makes) } = { any_member };

    /// Says this to all members.
    fn say(
        &mut self,
        call: &mut MemberSayCall<'_>,
        context: &mut Context<Self::Makes>,
    ) -> MethodResult
        ensures { Answers (λ p. p.body) (λ d. d.body) (λ d. none_named) member_kind.on_say (at self.old context.old) call.old call.new result (at self.new context.new) };
}

/// An object of `interface Member`, as a connection serves it.
pub type MemberDispatch<T> = ObjectDispatch<T, MemberClient>;

/// Resolves a promise of an object of `interface Member`: one that is named before it is there.
pub type MemberResolver = TypedResolver<MemberClient>;

/// An object of `interface Member` that all connections of a host may name.
pub type MemberShared = SharedClient<MemberClient>;

impl<T: MemberServer> Dispatch<T> for MemberClient {
    ghost takes = { MemberTakes T.member_kind };

    ghost streams = { no_streams };

    fn dispatch(
        object: &mut T,
        call: &MethodCall<'_>,
        context: &mut Context<T::Makes>,
    ) -> Result<Reply, AllocError> {
        match (call.request.interface, call.request.method, call.params()) {
            (0xe5edd802c7f5c6ea, 0, Ok(body)) => {
                let results = MemberSayResultsBuilder::new(context.alloc())?;
                let params = MemberSayParamsReader { body };
                let mut passed = ServiceCall::new(context.alloc(), call, params, results);
                let done = MemberServer::say(object, &mut passed, context);
                passed.reply(call, done)
            }
            (0xe5edd802c7f5c6ea, 0, Err(fault)) => {
                refuse(context.alloc(), call, MethodFault::WrongKind(fault))
            }
            _ => refuse_method(context.alloc(), call, "Member"),
        }
    }

    fn is_stream(interface: u64, method: u16) -> bool {
        let _ = (interface, method);
        false
    }
}

/// `struct Member.say$Params`.
#[derive(Drop)]
pub struct MemberSayParamsReader<'a> {
    /// The struct, by the places of its fields.
    pub body: StructReader<'a>,
}

impl<'a> MemberSayParamsReader<'a> {
    /// `text @0`.
    pub fn text(&self) -> Result<TextReader<'a>, WrongKind>
        ensures { result ≡ text_field [] (pointee_of self.now.body 0) }
    {
        self.body.text(0)
    }
}

/// `struct Member.say$Results`.
pub type MemberSayResultsReader<'a> = NoFieldsReader<'a>;

/// `struct Member.say$Results`, to be written.
pub type MemberSayResultsBuilder = NoFieldsBuilder;

/// `struct Member.say$Results`, as a question will give it.
pub type MemberSayResultsPipeline = NoFieldsPipeline;
