//! `directory` of directory.capnp, made by capnpc_rattle.

ghost use Rattle.std.specs.Prelude.{◌≡◌, IfOk, OnOk, OnErr, Err, ◌↔◌, ◌≤◌, ◌^◌, length, ◌+◌, ◌∷◌, [], true, false};
ghost use Rattle.cp_tree.specs.Seen.{pointee_of};
ghost use Rattle.cp_fields.specs.Pointers.{Reads, cap_field, struct_field, text_field};
ghost use Rattle.cp_builder.specs.declared.fault.BuildError.TheVariants.{TooLong};
ghost use Rattle.cp_builder.specs.Drafts.{blank, text_tree, with_pointer};
ghost use Rattle.cp_servants.specs.Naming.{pointer_naming};
ghost use Rattle.cp_interfaces.specs.Calls.{IsCall, MakesOf, request_of};
ghost use Rattle.cp_interfaces.specs.Faults.{Unbuilt, Unnamed};
ghost use Rattle.cp_interfaces.specs.Promises.{Finds, promised_cap};
ghost use Rattle.cp_interfaces.specs.ServiceCalls.{Answers};
ghost use Rattle.cp_interfaces.specs.Streams.{no_streams};
ghost use Rattle.cp_interfaces.specs.Tables.{IsFull, may_name, may_name_all, naming, none_named};
ghost use Rattle.cp_interfaces.specs.Services.{At, at};
ghost use Rattle.cp_interfaces.specs.declared.naming_error.NamingError.TheVariants as errors;
ghost use Rattle.directory.specs.Directory.{DirectoryKind, DirectoryTakes, any_directory};

use crate::member_::MemberClient;
use cp_builder::{BuildError, StructBuilder};
use cp_fields::{StructReader, TextReader, WrongKind};
use cp_interfaces::{
    CallTarget, Caller, CapFault, CapTable, CapTableBuilder, Dispatch, LaterAnswer, MethodCall,
    MethodFault, MethodRequest, MethodResult, NamingError, NoFieldsBuilder, NoFieldsPipeline,
    NoFieldsReader, ObjectDispatch, Pipeline, ResultPayload, Results, ServiceCall, ServiceObject,
    SharedClient, TypedClient, TypedResolver, refuse, refuse_method,
};
use cp_objects::{Context, SessionCap};
use cp_servants::Reply;
use cp_tree::Whole;
use std::alloc::{AllocError, Global};

/// `interface Directory`.
#[derive(Drop)]
pub struct DirectoryClient {
    /// The capability that is called.
    pub target: CallTarget,
}

impl DirectoryClient {
    /// The interface's number.
    pub const ID: u64 = 0xfd258ab81d1a8a22;

    /// The object that a capability stands for.
    pub fn new(alloc: Global, cap: SessionCap) -> DirectoryClient
        ensures { result.target ≡ cap }
    {
        DirectoryClient {
            target: CallTarget::new(alloc, cap),
        }
    }

    /// A call of `join @0`.
    pub fn join_request(
        &self,
        name: &str,
        member_: MemberClient,
    ) -> Result<MethodRequest<'_>, NamingError>
        ensures request { IfOk result (λ r. IsCall r self.now.target (request_of 0xfd258ab81d1a8a22 0 (with_pointer (with_pointer (blank 0 2) 0 (text_tree name.now)) 1 (pointer_naming (none_named).caps member_.target.cap)) ((naming none_named member_.target)).caps)) }
        ensures long { result ≡ Err errors.TooLong → 2 ^ 29 ≤ length name.now + 1 }
        ensures own { OnOk result (may_name_all self.now.target.session none_named (member_.target ∷ []) ≡ true) }
        ensures other { result ≡ Err errors.OtherSession → may_name_all self.now.target.session none_named (member_.target ∷ []) ≡ false }
    {
        let mut params: StructBuilder<0, 2> = StructBuilder::new(self.target.alloc())?;
        let mut table = CapTableBuilder::new(self.target.alloc());
        params.set_pointer(0, cp_builder::text_of(self.target.alloc(), name)?);
        params.set_pointer(1, table.add(member_.target.into_cap())?);
        let content = params.into_whole();
        self.target
            .request_naming(0xfd258ab81d1a8a22, 0, content, table)
    }

    /// Has others find a member by this name.
    pub fn join<C: Caller>(
        &self,
        caller: &mut C,
        name: &str,
        member_: MemberClient,
    ) -> Result<DirectoryJoinResultsPipeline, C::Fault>
        ensures { MakesOf (λ p. p.at) C.number C.sends C.Fault.From-2.from_gives (Unnamed C.Fault.From-2.from_gives (2 ^ 29 ≤ length name.now + 1) (may_name_all self.now.target.session none_named (member_.target ∷ []))) caller.old self.now.target 0xfd258ab81d1a8a22 0 (with_pointer (with_pointer (blank 0 2) 0 (text_tree name.now)) 1 (pointer_naming (none_named).caps member_.target.cap)) ((naming none_named member_.target)).caps result caller.new }
    {
        let call = self.join_request(name, member_)?;
        Ok(DirectoryJoinResultsPipeline::of(self.target.call(caller, call.request)?))
    }

    /// A call of `find @1`.
    pub fn find_request(&self, name: &str) -> Result<MethodRequest<'_>, BuildError>
        ensures request { IfOk result (λ r. IsCall r self.now.target (request_of 0xfd258ab81d1a8a22 1 (with_pointer (blank 0 1) 0 (text_tree name.now)) [])) }
        ensures long { result ≡ Err TooLong → 2 ^ 29 ≤ length name.now + 1 }
    {
        let mut params: StructBuilder<0, 1> = StructBuilder::new(self.target.alloc())?;
        params.set_pointer(0, cp_builder::text_of(self.target.alloc(), name)?);
        let content = params.into_whole();
        Ok(self.target.request(0xfd258ab81d1a8a22, 1, content))
    }

    /// The member of this name, whichever connection it came by.
    pub fn find<C: Caller>(
        &self,
        caller: &mut C,
        name: &str,
    ) -> Result<DirectoryFindResultsPipeline, C::Fault>
        ensures { MakesOf (λ p. p.at) C.number C.sends C.Fault.From-2.from_gives (Unbuilt C.Fault.From-1.from_gives (2 ^ 29 ≤ length name.now + 1)) caller.old self.now.target 0xfd258ab81d1a8a22 1 (with_pointer (blank 0 1) 0 (text_tree name.now)) [] result caller.new }
    {
        let call = self.find_request(name)?;
        Ok(DirectoryFindResultsPipeline::of(self.target.call(caller, call.request)?))
    }
}

impl TypedClient for DirectoryClient {
    ghost called = { λ c. c.target };

    fn of(target: CallTarget) -> DirectoryClient {
        DirectoryClient { target }
    }

    fn into_target(self) -> CallTarget {
        self.target
    }
}

/// A call of `join`.
pub type DirectoryJoinCall<'c> = ServiceCall<
    'c,
    DirectoryJoinParamsReader<'c>,
    DirectoryJoinResultsBuilder,
>;

/// The answer of a call of `join` that is given later.
pub type DirectoryJoinLater = LaterAnswer<DirectoryJoinResultsBuilder>;

/// A call of `find`.
pub type DirectoryFindCall<'c> = ServiceCall<
    'c,
    DirectoryFindParamsReader<'c>,
    DirectoryFindResultsBuilder,
>;

/// The answer of a call of `find` that is given later.
pub type DirectoryFindLater = LaterAnswer<DirectoryFindResultsBuilder>;

/// An object of `interface Directory`.
pub trait DirectoryServer: ServiceObject {
    /// What calls of its methods lead to. Of an object that doesn't say it nothing is known.
    ghost directory_kind: { DirectoryKind (At Self Self.Makes) } = { any_directory };

    /// Has others find a member by this name.
    fn join(
        &mut self,
        call: &mut DirectoryJoinCall<'_>,
        context: &mut Context<Self::Makes>,
    ) -> MethodResult
        ensures { Answers (λ p. p.body) (λ d. d.body) (λ d. none_named) directory_kind.on_join (at self.old context.old) call.old call.new result (at self.new context.new) };

    /// The member of this name, whichever connection it came by.
    fn find(
        &mut self,
        call: &mut DirectoryFindCall<'_>,
        context: &mut Context<Self::Makes>,
    ) -> MethodResult
        ensures { Answers (λ p. p.body) (λ d. d.body) (λ d. d.table) directory_kind.on_find (at self.old context.old) call.old call.new result (at self.new context.new) };
}

/// An object of `interface Directory`, as a connection serves it.
pub type DirectoryDispatch<T> = ObjectDispatch<T, DirectoryClient>;

/// Resolves a promise of an object of `interface Directory`: one that is named before it is there.
pub type DirectoryResolver = TypedResolver<DirectoryClient>;

/// An object of `interface Directory` that all connections of a host may name.
pub type DirectoryShared = SharedClient<DirectoryClient>;

impl<T: DirectoryServer> Dispatch<T> for DirectoryClient {
    ghost takes = { DirectoryTakes T.directory_kind };

    ghost streams = { no_streams };

    fn dispatch(
        object: &mut T,
        call: &MethodCall<'_>,
        context: &mut Context<T::Makes>,
    ) -> Result<Reply, AllocError> {
        match (call.request.interface, call.request.method, call.params()) {
            (0xfd258ab81d1a8a22, 0, Ok(body)) => {
                let results = DirectoryJoinResultsBuilder::new(context.alloc())?;
                let params = DirectoryJoinParamsReader { body };
                let mut passed = ServiceCall::new(context.alloc(), call, params, results);
                let done = DirectoryServer::join(object, &mut passed, context);
                passed.reply(call, done)
            }
            (0xfd258ab81d1a8a22, 1, Ok(body)) => {
                let results = DirectoryFindResultsBuilder::new(context.alloc())?;
                let params = DirectoryFindParamsReader { body };
                let mut passed = ServiceCall::new(context.alloc(), call, params, results);
                let done = DirectoryServer::find(object, &mut passed, context);
                passed.reply(call, done)
            }
            (0xfd258ab81d1a8a22, 0..=1, Err(fault)) => {
                refuse(context.alloc(), call, MethodFault::WrongKind(fault))
            }
            _ => refuse_method(context.alloc(), call, "Directory"),
        }
    }

    fn is_stream(interface: u64, method: u16) -> bool {
        let _ = (interface, method);
        false
    }
}

/// `struct Directory.join$Params`.
#[derive(Drop)]
pub struct DirectoryJoinParamsReader<'a> {
    /// The struct, by the places of its fields.
    pub body: StructReader<'a>,
}

impl<'a> DirectoryJoinParamsReader<'a> {
    /// `name @0`.
    pub fn name(&self) -> Result<TextReader<'a>, WrongKind>
        ensures { result ≡ text_field [] (pointee_of self.now.body 0) }
    {
        self.body.text(0)
    }

    /// `member @1`.
    pub fn member_(&self) -> Result<Option<u32>, WrongKind>
        ensures { result ≡ cap_field (pointee_of self.now.body 1) }
    {
        self.body.cap(1)
    }

    /// `member @1`, of those that a table has.
    pub fn member_client(&self, alloc: Global, caps: CapTable<'_>) -> Result<MemberClient, CapFault>
        ensures { Finds result (λ c. c.target) (cap_field (pointee_of self.now.body 1)) caps.entry }
    {
        let place = self.member_()?;
        Ok(MemberClient {
            target: CallTarget::of_field(alloc, place, caps)?,
        })
    }
}

/// `struct Directory.join$Results`.
pub type DirectoryJoinResultsReader<'a> = NoFieldsReader<'a>;

/// `struct Directory.join$Results`, to be written.
pub type DirectoryJoinResultsBuilder = NoFieldsBuilder;

/// `struct Directory.join$Results`, as a question will give it.
pub type DirectoryJoinResultsPipeline = NoFieldsPipeline;

/// `struct Directory.find$Params`.
#[derive(Drop)]
pub struct DirectoryFindParamsReader<'a> {
    /// The struct, by the places of its fields.
    pub body: StructReader<'a>,
}

impl<'a> DirectoryFindParamsReader<'a> {
    /// `name @0`.
    pub fn name(&self) -> Result<TextReader<'a>, WrongKind>
        ensures { result ≡ text_field [] (pointee_of self.now.body 0) }
    {
        self.body.text(0)
    }
}

/// `struct Directory.find$Results`.
#[derive(Drop)]
pub struct DirectoryFindResultsReader<'a> {
    /// The struct, by the places of its fields.
    pub body: StructReader<'a>,
}

impl<'a> DirectoryFindResultsReader<'a> {
    /// `member @0`.
    pub fn member_(&self) -> Result<Option<u32>, WrongKind>
        ensures { result ≡ cap_field (pointee_of self.now.body 0) }
    {
        self.body.cap(0)
    }

    /// `member @0`, of those that a table has.
    pub fn member_client(&self, alloc: Global, caps: CapTable<'_>) -> Result<MemberClient, CapFault>
        ensures { Finds result (λ c. c.target) (cap_field (pointee_of self.now.body 0)) caps.entry }
    {
        let place = self.member_()?;
        Ok(MemberClient {
            target: CallTarget::of_field(alloc, place, caps)?,
        })
    }
}

/// `struct Directory.find$Results`, to be written.
#[derive(Drop)]
pub struct DirectoryFindResultsBuilder {
    /// The struct, by the places of its fields.
    pub body: StructBuilder<0, 1>,
    /// The capabilities that it names.
    pub table: CapTableBuilder,
}

impl DirectoryFindResultsBuilder {
    /// A struct whose fields are all as by default.
    pub fn new(alloc: Global) -> Result<DirectoryFindResultsBuilder, AllocError>
        ensures blank { IfOk result (λ d. d.body ≡ blank 0 1) }
        ensures names { IfOk result (λ d. d.table ≡ none_named) }
    {
        Ok(DirectoryFindResultsBuilder {
            body: StructBuilder::new(alloc)?,
            table: CapTableBuilder::new(alloc),
        })
    }

    /// Sets `member`.
    pub fn set_member(&mut self, value: MemberClient) -> Result<(), NamingError>
        ensures set { OnOk result (self.new.body ≡ with_pointer self.old.body 0 (pointer_naming self.old.table.caps value.target.cap)) }
        ensures added { OnOk result (self.new.table ≡ naming self.old.table value.target) }
        ensures left { OnErr result (self.new ≡ self.old) }
        ensures full { result ≡ Err errors.TooLong ↔ IsFull self.old.table }
        ensures own { OnOk result (may_name self.old.table value.target ≡ true) }
        ensures other { result ≡ Err errors.OtherSession → may_name self.old.table value.target ≡ false }
    {
        let pointer = self.table.add(value.target.into_cap())?;
        self.body.set_pointer(0, pointer);
        Ok(())
    }
}

impl Results for DirectoryFindResultsBuilder {
    ghost content = { λ d. d.body };

    ghost names = { λ d. d.table };

    fn into_parts(self, alloc: Global) -> (Whole, CapTableBuilder) {
        let _ = alloc;
        (self.body.into_whole(), self.table)
    }
}

/// `struct Directory.find$Results`, as a question will give it.
#[derive(Drop)]
pub struct DirectoryFindResultsPipeline {
    /// The question, and the path to the struct.
    pub at: Pipeline,
}

impl DirectoryFindResultsPipeline {
    /// What is promised there.
    pub fn of(at: Pipeline) -> DirectoryFindResultsPipeline
        ensures { result.at ≡ at }
    {
        DirectoryFindResultsPipeline { at }
    }

    /// The number of the question, whose outcome can be waited for.
    pub fn question(&self) -> u32
        ensures { result ≡ self.now.at.question }
    {
        self.at.question()
    }

    /// The results that came.
    pub fn results<'a>(
        &self,
        came: &'a ResultPayload,
    ) -> Result<DirectoryFindResultsReader<'a>, WrongKind>
        ensures { Reads result (λ x. x.body) (struct_field came.now.content) }
    {
        Ok(DirectoryFindResultsReader {
            body: came.results()?,
        })
    }

    /// `member @0`.
    pub fn member_(&self) -> Result<MemberClient, AllocError>
        ensures { IfOk result (λ c. c.target ≡ promised_cap self.now.at 0) }
    {
        Ok(MemberClient {
            target: self.at.target(0)?,
        })
    }
}
