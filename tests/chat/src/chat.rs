//! `chat` of chat.capnp, made by capnpc_rattle.

ghost use Rattle.std.specs.Prelude.{◌≡◌, IfOk, OnOk, OnErr, Err, ◌↔◌, ◌≤◌, ◌^◌, length, ◌+◌, ◌∷◌, [], true, false};
ghost use Rattle.cp_tree.specs.Seen.{pointee_of};
ghost use Rattle.cp_fields.specs.Pointers.{Reads, cap_field, struct_field, text_field};
ghost use Rattle.cp_builder.specs.declared.fault.BuildError.TheVariants.{TooLong};
ghost use Rattle.cp_builder.specs.Drafts.{blank, text_tree, with_pointer};
ghost use Rattle.cp_servants.specs.Naming.{pointer_naming};
ghost use Rattle.cp_interfaces.specs.Calls.{IsCall, MakesOf, request_of};
ghost use Rattle.cp_interfaces.specs.Faults.{Unnamed};
ghost use Rattle.cp_interfaces.specs.Promises.{Finds, promised_cap};
ghost use Rattle.cp_interfaces.specs.ServiceCalls.{Answers};
ghost use Rattle.cp_interfaces.specs.Streams.{no_streams};
ghost use Rattle.cp_interfaces.specs.Tables.{IsFull, may_name, may_name_all, naming, none_named};
ghost use Rattle.cp_interfaces.specs.Services.{At, at};
ghost use Rattle.cp_interfaces.specs.declared.naming_error.NamingError.TheVariants as errors;
ghost use Rattle.chat.specs.Chat.{ChatKind, ChatTakes, any_chat};

use crate::listener::ListenerClient;
use crate::member_::MemberClient;
use cp_builder::StructBuilder;
use cp_fields::{StructReader, TextReader, WrongKind};
use cp_interfaces::{
    CallTarget, Caller, CapFault, CapTable, CapTableBuilder, Dispatch, LaterAnswer, MethodCall,
    MethodFault, MethodRequest, MethodResult, NamingError, ObjectDispatch, Pipeline, ResultPayload,
    Results, ServiceCall, ServiceObject, SharedClient, TypedClient, TypedResolver, refuse,
    refuse_method,
};
use cp_objects::{Context, SessionCap};
use cp_servants::Reply;
use cp_tree::Whole;
use std::alloc::{AllocError, Global};

/// `interface Chat`.
#[derive(Drop)]
pub struct ChatClient {
    /// The capability that is called.
    pub target: CallTarget,
}

impl ChatClient {
    /// The interface's number.
    pub const ID: u64 = 0x9be749cc343d65aa;

    /// The object that a capability stands for.
    pub fn new(alloc: Global, cap: SessionCap) -> ChatClient
        ensures { result.target ≡ cap }
    {
        ChatClient {
            target: CallTarget::new(alloc, cap),
        }
    }

    /// A call of `join @0`.
    pub fn join_request(
        &self,
        name: &str,
        listener: ListenerClient,
    ) -> Result<MethodRequest<'_>, NamingError>
        ensures request { IfOk result (λ r. IsCall r self.now.target (request_of 0x9be749cc343d65aa 0 (with_pointer (with_pointer (blank 0 2) 0 (text_tree name.now)) 1 (pointer_naming (none_named).caps listener.target.cap)) ((naming none_named listener.target)).caps)) }
        ensures long { result ≡ Err errors.TooLong → 2 ^ 29 ≤ length name.now + 1 }
        ensures own { OnOk result (may_name_all self.now.target.session none_named (listener.target ∷ []) ≡ true) }
        ensures other { result ≡ Err errors.OtherSession → may_name_all self.now.target.session none_named (listener.target ∷ []) ≡ false }
    {
        let mut params: StructBuilder<0, 2> = StructBuilder::new(self.target.alloc())?;
        let mut table = CapTableBuilder::new(self.target.alloc());
        params.set_pointer(0, cp_builder::text_of(self.target.alloc(), name)?);
        params.set_pointer(1, table.add(listener.target.into_cap())?);
        let content = params.into_whole();
        self.target
            .request_naming(0x9be749cc343d65aa, 0, content, table)
    }

    /// Makes a member, whose listener hears all that is said from now on. Who drops it has left.
    pub fn join<C: Caller>(
        &self,
        caller: &mut C,
        name: &str,
        listener: ListenerClient,
    ) -> Result<ChatJoinResultsPipeline, C::Fault>
        ensures { MakesOf (λ p. p.at) C.number C.sends C.Fault.From-2.from_gives (Unnamed C.Fault.From-2.from_gives (2 ^ 29 ≤ length name.now + 1) (may_name_all self.now.target.session none_named (listener.target ∷ []))) caller.old self.now.target 0x9be749cc343d65aa 0 (with_pointer (with_pointer (blank 0 2) 0 (text_tree name.now)) 1 (pointer_naming (none_named).caps listener.target.cap)) ((naming none_named listener.target)).caps result caller.new }
    {
        let call = self.join_request(name, listener)?;
        Ok(ChatJoinResultsPipeline::of(self.target.call(caller, call.request)?))
    }
}

impl TypedClient for ChatClient {
    ghost called = { λ c. c.target };

    fn of(target: CallTarget) -> ChatClient {
        ChatClient { target }
    }

    fn into_target(self) -> CallTarget {
        self.target
    }
}

/// A call of `join`.
pub type ChatJoinCall<'c> = ServiceCall<'c, ChatJoinParamsReader<'c>, ChatJoinResultsBuilder>;

/// The answer of a call of `join` that is given later.
pub type ChatJoinLater = LaterAnswer<ChatJoinResultsBuilder>;

/// An object of `interface Chat`.
pub trait ChatServer: ServiceObject {
    /// What calls of its methods lead to. Of an object that doesn't say it nothing is known.
    ghost chat_kind: { ChatKind (At Self Self.Makes) } = { any_chat };

    /// Makes a member, whose listener hears all that is said from now on. Who drops it has left.
    fn join(
        &mut self,
        call: &mut ChatJoinCall<'_>,
        context: &mut Context<Self::Makes>,
    ) -> MethodResult
        ensures { Answers (λ p. p.body) (λ d. d.body) (λ d. d.table) chat_kind.on_join (at self.old context.old) call.old call.new result (at self.new context.new) };
}

/// An object of `interface Chat`, as a connection serves it.
pub type ChatDispatch<T> = ObjectDispatch<T, ChatClient>;

/// Resolves a promise of an object of `interface Chat`: one that is named before it is there.
pub type ChatResolver = TypedResolver<ChatClient>;

/// An object of `interface Chat` that all connections of a host may name.
pub type ChatShared = SharedClient<ChatClient>;

impl<T: ChatServer> Dispatch<T> for ChatClient {
    ghost takes = { ChatTakes T.chat_kind };

    ghost streams = { no_streams };

    fn dispatch(
        object: &mut T,
        call: &MethodCall<'_>,
        context: &mut Context<T::Makes>,
    ) -> Result<Reply, AllocError> {
        match (call.request.interface, call.request.method, call.params()) {
            (0x9be749cc343d65aa, 0, Ok(body)) => {
                let results = ChatJoinResultsBuilder::new(context.alloc())?;
                let params = ChatJoinParamsReader { body };
                let mut passed = ServiceCall::new(context.alloc(), call, params, results);
                let done = ChatServer::join(object, &mut passed, context);
                passed.reply(call, done)
            }
            (0x9be749cc343d65aa, 0, Err(fault)) => {
                refuse(context.alloc(), call, MethodFault::WrongKind(fault))
            }
            _ => refuse_method(context.alloc(), call, "Chat"),
        }
    }

    fn is_stream(interface: u64, method: u16) -> bool {
        let _ = (interface, method);
        false
    }
}

/// `struct Chat.join$Params`.
#[derive(Drop)]
pub struct ChatJoinParamsReader<'a> {
    /// The struct, by the places of its fields.
    pub body: StructReader<'a>,
}

impl<'a> ChatJoinParamsReader<'a> {
    /// `name @0`.
    pub fn name(&self) -> Result<TextReader<'a>, WrongKind>
        ensures { result ≡ text_field [] (pointee_of self.now.body 0) }
    {
        self.body.text(0)
    }

    /// `listener @1`.
    pub fn listener(&self) -> Result<Option<u32>, WrongKind>
        ensures { result ≡ cap_field (pointee_of self.now.body 1) }
    {
        self.body.cap(1)
    }

    /// `listener @1`, of those that a table has.
    pub fn listener_client(
        &self,
        alloc: Global,
        caps: CapTable<'_>,
    ) -> Result<ListenerClient, CapFault>
        ensures { Finds result (λ c. c.target) (cap_field (pointee_of self.now.body 1)) caps.entry }
    {
        let place = self.listener()?;
        Ok(ListenerClient {
            target: CallTarget::of_field(alloc, place, caps)?,
        })
    }
}

/// `struct Chat.join$Results`.
#[derive(Drop)]
pub struct ChatJoinResultsReader<'a> {
    /// The struct, by the places of its fields.
    pub body: StructReader<'a>,
}

impl<'a> ChatJoinResultsReader<'a> {
    /// `member @0`.
    pub fn member_(&self) -> Result<Option<u32>, WrongKind>
        ensures { result ≡ cap_field (pointee_of self.now.body 0) }
    {
        self.body.cap(0)
    }

    /// `member @0`, of those that a table has.
    pub fn member_client(&self, alloc: Global, caps: CapTable<'_>) -> Result<MemberClient, CapFault>
        ensures { Finds result (λ c. c.target) (cap_field (pointee_of self.now.body 0)) caps.entry }
    {
        let place = self.member_()?;
        Ok(MemberClient {
            target: CallTarget::of_field(alloc, place, caps)?,
        })
    }
}

/// `struct Chat.join$Results`, to be written.
#[derive(Drop)]
pub struct ChatJoinResultsBuilder {
    /// The struct, by the places of its fields.
    pub body: StructBuilder<0, 1>,
    /// The capabilities that it names.
    pub table: CapTableBuilder,
}

impl ChatJoinResultsBuilder {
    /// A struct whose fields are all as by default.
    pub fn new(alloc: Global) -> Result<ChatJoinResultsBuilder, AllocError>
        ensures blank { IfOk result (λ d. d.body ≡ blank 0 1) }
        ensures names { IfOk result (λ d. d.table ≡ none_named) }
    {
        Ok(ChatJoinResultsBuilder {
            body: StructBuilder::new(alloc)?,
            table: CapTableBuilder::new(alloc),
        })
    }

    /// Sets `member`.
    pub fn set_member(&mut self, value: MemberClient) -> Result<(), NamingError>
        ensures set { OnOk result (self.new.body ≡ with_pointer self.old.body 0 (pointer_naming self.old.table.caps value.target.cap)) }
        ensures added { OnOk result (self.new.table ≡ naming self.old.table value.target) }
        ensures left { OnErr result (self.new ≡ self.old) }
        ensures full { result ≡ Err errors.TooLong ↔ IsFull self.old.table }
        ensures own { OnOk result (may_name self.old.table value.target ≡ true) }
        ensures other { result ≡ Err errors.OtherSession → may_name self.old.table value.target ≡ false }
    {
        let pointer = self.table.add(value.target.into_cap())?;
        self.body.set_pointer(0, pointer);
        Ok(())
    }
}

impl Results for ChatJoinResultsBuilder {
    ghost content = { λ d. d.body };

    ghost names = { λ d. d.table };

    fn into_parts(self, alloc: Global) -> (Whole, CapTableBuilder) {
        let _ = alloc;
        (self.body.into_whole(), self.table)
    }
}

/// `struct Chat.join$Results`, as a question will give it.
#[derive(Drop)]
pub struct ChatJoinResultsPipeline {
    /// The question, and the path to the struct.
    pub at: Pipeline,
}

impl ChatJoinResultsPipeline {
    /// What is promised there.
    pub fn of(at: Pipeline) -> ChatJoinResultsPipeline
        ensures { result.at ≡ at }
    {
        ChatJoinResultsPipeline { at }
    }

    /// The number of the question, whose outcome can be waited for.
    pub fn question(&self) -> u32
        ensures { result ≡ self.now.at.question }
    {
        self.at.question()
    }

    /// The results that came.
    pub fn results<'a>(
        &self,
        came: &'a ResultPayload,
    ) -> Result<ChatJoinResultsReader<'a>, WrongKind>
        ensures { Reads result (λ x. x.body) (struct_field came.now.content) }
    {
        Ok(ChatJoinResultsReader {
            body: came.results()?,
        })
    }

    /// `member @0`.
    pub fn member_(&self) -> Result<MemberClient, AllocError>
        ensures { IfOk result (λ c. c.target ≡ promised_cap self.now.at 0) }
    {
        Ok(MemberClient {
            target: self.at.target(0)?,
        })
    }
}
