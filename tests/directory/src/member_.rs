//! `member_` of directory.capnp, made by capnpc_rattle.

ghost use Rattle.std.specs.Prelude.{◌≡◌, IfOk, OnOk, OnErr, Err, ◌↔◌, ◌≤◌, ◌^◌, length, ◌+◌, ◌∷◌, [], true, false};
ghost use Rattle.cp_tree.specs.Seen.{pointee_of};
ghost use Rattle.cp_fields.specs.Pointers.{Reads, cap_field, struct_field, text_field};
ghost use Rattle.cp_builder.specs.declared.fault.BuildError.TheVariants.{TooLong};
ghost use Rattle.cp_builder.specs.Copies.{Sets};
ghost use Rattle.cp_builder.specs.Drafts.{blank, text_tree, with_pointer};
ghost use Rattle.cp_servants.specs.Naming.{pointer_naming};
ghost use Rattle.cp_interfaces.specs.Calls.{IsCall, MakesOf, request_of};
ghost use Rattle.cp_interfaces.specs.Faults.{Unnamed};
ghost use Rattle.cp_interfaces.specs.Promises.{Finds, promised_cap};
ghost use Rattle.cp_interfaces.specs.ServiceCalls.{Answers};
ghost use Rattle.cp_interfaces.specs.Streams.{no_streams};
ghost use Rattle.cp_interfaces.specs.Tables.{IsFull, may_name, may_name_all, naming, none_named};
ghost use Rattle.cp_interfaces.specs.Services.{At, at};
ghost use Rattle.cp_interfaces.specs.declared.naming_error.NamingError.TheVariants as errors;
ghost use Rattle.directory.specs.Member_.{MemberKind, MemberTakes, any_member};

use cp_builder::{BuildError, FieldValue, StructBuilder};
use cp_fields::{StructReader, TextReader, WrongKind};
use cp_interfaces::{
    CallTarget, Caller, CapFault, CapTable, CapTableBuilder, Dispatch, LaterAnswer, MethodCall,
    MethodFault, MethodRequest, MethodResult, NamingError, ObjectDispatch, Pipeline, ResultPayload,
    Results, ServiceCall, ServiceObject, SharedClient, TypedClient, TypedResolver, refuse,
    refuse_method,
};
use cp_objects::{Context, SessionCap};
use cp_servants::Reply;
use cp_tree::Whole;
use std::alloc::{AllocError, Global};

/// `interface Member`.
#[derive(Drop)]
pub struct MemberClient {
    /// The capability that is called.
    pub target: CallTarget,
}

impl MemberClient {
    /// The interface's number.
    pub const ID: u64 = 0x8b9177faba082d08;

    /// The object that a capability stands for.
    pub fn new(alloc: Global, cap: SessionCap) -> MemberClient
        ensures { result.target ≡ cap }
    {
        MemberClient {
            target: CallTarget::new(alloc, cap),
        }
    }

    /// A call of `say @0`.
    pub fn say_request(
        &self,
        text: &str,
        back: MemberClient,
    ) -> Result<MethodRequest<'_>, NamingError>
        ensures request { IfOk result (λ r. IsCall r self.now.target (request_of 0x8b9177faba082d08 0 (with_pointer (with_pointer (blank 0 2) 0 (text_tree text.now)) 1 (pointer_naming (none_named).caps back.target.cap)) ((naming none_named back.target)).caps)) }
        ensures long { result ≡ Err errors.TooLong → 2 ^ 29 ≤ length text.now + 1 }
        ensures own { OnOk result (may_name_all self.now.target.session none_named (back.target ∷ []) ≡ true) }
        ensures other { result ≡ Err errors.OtherSession → may_name_all self.now.target.session none_named (back.target ∷ []) ≡ false }
    {
        let mut params: StructBuilder<0, 2> = StructBuilder::new(self.target.alloc())?;
        let mut table = CapTableBuilder::new(self.target.alloc());
        params.set_pointer(0, cp_builder::text_of(self.target.alloc(), text)?);
        params.set_pointer(1, table.add(back.target.into_cap())?);
        let content = params.into_whole();
        self.target
            .request_naming(0x8b9177faba082d08, 0, content, table)
    }

    /// Says something to a member, who may call back.
    pub fn say<C: Caller>(
        &self,
        caller: &mut C,
        text: &str,
        back: MemberClient,
    ) -> Result<MemberSayResultsPipeline, C::Fault>
        ensures { MakesOf (λ p. p.at) C.number C.sends C.Fault.From-2.from_gives (Unnamed C.Fault.From-2.from_gives (2 ^ 29 ≤ length text.now + 1) (may_name_all self.now.target.session none_named (back.target ∷ []))) caller.old self.now.target 0x8b9177faba082d08 0 (with_pointer (with_pointer (blank 0 2) 0 (text_tree text.now)) 1 (pointer_naming (none_named).caps back.target.cap)) ((naming none_named back.target)).caps result caller.new }
    {
        let call = self.say_request(text, back)?;
        Ok(MemberSayResultsPipeline::of(self.target.call(caller, call.request)?))
    }
}

impl TypedClient for MemberClient {
    ghost called = { λ c. c.target };

    fn of(target: CallTarget) -> MemberClient {
        MemberClient { target }
    }

    fn into_target(self) -> CallTarget {
        self.target
    }
}

/// A call of `say`.
pub type MemberSayCall<'c> = ServiceCall<'c, MemberSayParamsReader<'c>, MemberSayResultsBuilder>;

/// The answer of a call of `say` that is given later.
pub type MemberSayLater = LaterAnswer<MemberSayResultsBuilder>;

/// An object of `interface Member`.
pub trait MemberServer: ServiceObject {
    /// What calls of its methods lead to. Of an object that doesn't say it nothing is known.
    ghost member_kind: { MemberKind (At Self Self.Makes) } = { any_member };

    /// Says something to a member, who may call back.
    fn say(
        &mut self,
        call: &mut MemberSayCall<'_>,
        context: &mut Context<Self::Makes>,
    ) -> MethodResult
        ensures { Answers (λ p. p.body) (λ d. d.body) (λ d. d.table) member_kind.on_say (at self.old context.old) call.old call.new result (at self.new context.new) };
}

/// An object of `interface Member`, as a connection serves it.
pub type MemberDispatch<T> = ObjectDispatch<T, MemberClient>;

/// Resolves a promise of an object of `interface Member`: one that is named before it is there.
pub type MemberResolver = TypedResolver<MemberClient>;

/// An object of `interface Member` that all connections of a host may name.
pub type MemberShared = SharedClient<MemberClient>;

impl<T: MemberServer> Dispatch<T> for MemberClient {
    ghost takes = { MemberTakes T.member_kind };

    ghost streams = { no_streams };

    fn dispatch(
        object: &mut T,
        call: &MethodCall<'_>,
        context: &mut Context<T::Makes>,
    ) -> Result<Reply, AllocError> {
        match (call.request.interface, call.request.method, call.params()) {
            (0x8b9177faba082d08, 0, Ok(body)) => {
                let results = MemberSayResultsBuilder::new(context.alloc())?;
                let params = MemberSayParamsReader { body };
                let mut passed = ServiceCall::new(context.alloc(), call, params, results);
                let done = MemberServer::say(object, &mut passed, context);
                passed.reply(call, done)
            }
            (0x8b9177faba082d08, 0, Err(fault)) => {
                refuse(context.alloc(), call, MethodFault::WrongKind(fault))
            }
            _ => refuse_method(context.alloc(), call, "Member"),
        }
    }

    fn is_stream(interface: u64, method: u16) -> bool {
        let _ = (interface, method);
        false
    }
}

/// `struct Member.say$Params`.
#[derive(Drop)]
pub struct MemberSayParamsReader<'a> {
    /// The struct, by the places of its fields.
    pub body: StructReader<'a>,
}

impl<'a> MemberSayParamsReader<'a> {
    /// `text @0`.
    pub fn text(&self) -> Result<TextReader<'a>, WrongKind>
        ensures { result ≡ text_field [] (pointee_of self.now.body 0) }
    {
        self.body.text(0)
    }

    /// `back @1`.
    pub fn back(&self) -> Result<Option<u32>, WrongKind>
        ensures { result ≡ cap_field (pointee_of self.now.body 1) }
    {
        self.body.cap(1)
    }

    /// `back @1`, of those that a table has.
    pub fn back_client(&self, alloc: Global, caps: CapTable<'_>) -> Result<MemberClient, CapFault>
        ensures { Finds result (λ c. c.target) (cap_field (pointee_of self.now.body 1)) caps.entry }
    {
        let place = self.back()?;
        Ok(MemberClient {
            target: CallTarget::of_field(alloc, place, caps)?,
        })
    }
}

/// `struct Member.say$Results`.
#[derive(Drop)]
pub struct MemberSayResultsReader<'a> {
    /// The struct, by the places of its fields.
    pub body: StructReader<'a>,
}

impl<'a> MemberSayResultsReader<'a> {
    /// `heard @0`.
    pub fn heard(&self) -> Result<TextReader<'a>, WrongKind>
        ensures { result ≡ text_field [] (pointee_of self.now.body 0) }
    {
        self.body.text(0)
    }

    /// `other @1`.
    pub fn other(&self) -> Result<Option<u32>, WrongKind>
        ensures { result ≡ cap_field (pointee_of self.now.body 1) }
    {
        self.body.cap(1)
    }

    /// `other @1`, of those that a table has.
    pub fn other_client(&self, alloc: Global, caps: CapTable<'_>) -> Result<MemberClient, CapFault>
        ensures { Finds result (λ c. c.target) (cap_field (pointee_of self.now.body 1)) caps.entry }
    {
        let place = self.other()?;
        Ok(MemberClient {
            target: CallTarget::of_field(alloc, place, caps)?,
        })
    }
}

/// `struct Member.say$Results`, to be written.
#[derive(Drop)]
pub struct MemberSayResultsBuilder {
    /// The struct, by the places of its fields.
    pub body: StructBuilder<0, 2>,
    /// The capabilities that it names.
    pub table: CapTableBuilder,
}

impl MemberSayResultsBuilder {
    /// A struct whose fields are all as by default.
    pub fn new(alloc: Global) -> Result<MemberSayResultsBuilder, AllocError>
        ensures blank { IfOk result (λ d. d.body ≡ blank 0 2) }
        ensures names { IfOk result (λ d. d.table ≡ none_named) }
    {
        Ok(MemberSayResultsBuilder {
            body: StructBuilder::new(alloc)?,
            table: CapTableBuilder::new(alloc),
        })
    }

    /// Sets `heard`.
    pub fn set_heard<'a, V: FieldValue<TextReader<'a>>>(
        &mut self,
        value: V,
    ) -> Result<(), BuildError>
        ensures set { OnOk result (Sets (V.stands value) self.old.body 0 self.new.body) }
        ensures names { self.new.table ≡ self.old.table }
        ensures left { OnErr result (self.new ≡ self.old) }
        ensures long { result ≡ Err TooLong → V.is_long value }
    {
        let whole = value.into_whole(self.body.alloc())?;
        self.body.set_pointer(0, whole);
        Ok(())
    }

    /// Sets `other`.
    pub fn set_other(&mut self, value: MemberClient) -> Result<(), NamingError>
        ensures set { OnOk result (self.new.body ≡ with_pointer self.old.body 1 (pointer_naming self.old.table.caps value.target.cap)) }
        ensures added { OnOk result (self.new.table ≡ naming self.old.table value.target) }
        ensures left { OnErr result (self.new ≡ self.old) }
        ensures full { result ≡ Err errors.TooLong ↔ IsFull self.old.table }
        ensures own { OnOk result (may_name self.old.table value.target ≡ true) }
        ensures other { result ≡ Err errors.OtherSession → may_name self.old.table value.target ≡ false }
    {
        let pointer = self.table.add(value.target.into_cap())?;
        self.body.set_pointer(1, pointer);
        Ok(())
    }
}

impl Results for MemberSayResultsBuilder {
    ghost content = { λ d. d.body };

    ghost names = { λ d. d.table };

    fn into_parts(self, alloc: Global) -> (Whole, CapTableBuilder) {
        let _ = alloc;
        (self.body.into_whole(), self.table)
    }
}

/// `struct Member.say$Results`, as a question will give it.
#[derive(Drop)]
pub struct MemberSayResultsPipeline {
    /// The question, and the path to the struct.
    pub at: Pipeline,
}

impl MemberSayResultsPipeline {
    /// What is promised there.
    pub fn of(at: Pipeline) -> MemberSayResultsPipeline
        ensures { result.at ≡ at }
    {
        MemberSayResultsPipeline { at }
    }

    /// The number of the question, whose outcome can be waited for.
    pub fn question(&self) -> u32
        ensures { result ≡ self.now.at.question }
    {
        self.at.question()
    }

    /// The results that came.
    pub fn results<'a>(
        &self,
        came: &'a ResultPayload,
    ) -> Result<MemberSayResultsReader<'a>, WrongKind>
        ensures { Reads result (λ x. x.body) (struct_field came.now.content) }
    {
        Ok(MemberSayResultsReader {
            body: came.results()?,
        })
    }

    /// `other @1`.
    pub fn other(&self) -> Result<MemberClient, AllocError>
        ensures { IfOk result (λ c. c.target ≡ promised_cap self.now.at 1) }
    {
        Ok(MemberClient {
            target: self.at.target(1)?,
        })
    }
}
