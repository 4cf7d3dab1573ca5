//! `queue` of jobs.capnp, made by capnpc_rattle.

ghost use Rattle.std.specs.Prelude.{◌≡◌, IfOk, OnOk, OnErr, Err, ◌↔◌, ◌≤◌, ◌^◌, length, ◌+◌, [], true, false};
ghost use Rattle.cp_tree.specs.Seen.{pointee_of};
ghost use Rattle.cp_fields.specs.Pointers.{Reads, cap_field, struct_field, text_field};
ghost use Rattle.cp_builder.specs.declared.fault.BuildError.TheVariants.{TooLong};
ghost use Rattle.cp_builder.specs.Copies.{Sets};
ghost use Rattle.cp_builder.specs.Drafts.{blank, text_tree, with_pointer};
ghost use Rattle.cp_servants.specs.Naming.{pointer_naming};
ghost use Rattle.cp_interfaces.specs.Calls.{IsCall, MakesOf, request_of};
ghost use Rattle.cp_interfaces.specs.Faults.{Unbuilt};
ghost use Rattle.cp_interfaces.specs.Promises.{Finds, promised_cap};
ghost use Rattle.cp_interfaces.specs.ServiceCalls.{Answers};
ghost use Rattle.cp_interfaces.specs.Streams.{no_streams};
ghost use Rattle.cp_interfaces.specs.Tables.{IsFull, may_name, naming, none_named};
ghost use Rattle.cp_interfaces.specs.Services.{At, at};
ghost use Rattle.cp_interfaces.specs.declared.naming_error.NamingError.TheVariants as errors;
ghost use Rattle.jobs.specs.Queue.{QueueKind, QueueTakes, any_queue};

use crate::handle::HandleClient;
use crate::task::TaskClient;
use cp_builder::{BuildError, FieldValue, StructBuilder};
use cp_fields::{StructReader, TextReader, WrongKind};
use cp_interfaces::{
    CallTarget, Caller, CapFault, CapTable, CapTableBuilder, Dispatch, LaterAnswer, MethodCall,
    MethodFault, MethodRequest, MethodResult, NamingError, NoFieldsReader, ObjectDispatch,
    Pipeline, ResultPayload, Results, ServiceCall, ServiceObject, SharedClient, TypedClient,
    TypedResolver, refuse, refuse_method,
};
use cp_objects::{Context, SessionCap};
use cp_servants::Reply;
use cp_tree::Whole;
use std::alloc::{AllocError, Global};

/// `interface Queue`.
#[derive(Drop)]
pub struct QueueClient {
    /// The capability that is called.
    pub target: CallTarget,
}

impl QueueClient {
    /// The interface's number.
    pub const ID: u64 = 0xaa61c3d66832ee82;

    /// The object that a capability stands for.
    pub fn new(alloc: Global, cap: SessionCap) -> QueueClient
        ensures { result.target ≡ cap }
    {
        QueueClient {
            target: CallTarget::new(alloc, cap),
        }
    }

    /// A call of `submit @0`.
    pub fn submit_request(&self, job: &str) -> Result<MethodRequest<'_>, BuildError>
        ensures request { IfOk result (λ r. IsCall r self.now.target (request_of 0xaa61c3d66832ee82 0 (with_pointer (blank 0 1) 0 (text_tree job.now)) [])) }
        ensures long { result ≡ Err TooLong → 2 ^ 29 ≤ length job.now + 1 }
    {
        let mut params: StructBuilder<0, 1> = StructBuilder::new(self.target.alloc())?;
        params.set_pointer(0, cp_builder::text_of(self.target.alloc(), job)?);
        let content = params.into_whole();
        Ok(self.target.request(0xaa61c3d66832ee82, 0, content))
    }

    /// Adds a job. It is given up once its handle is dropped, unless a worker has it.
    pub fn submit<C: Caller>(
        &self,
        caller: &mut C,
        job: &str,
    ) -> Result<QueueSubmitResultsPipeline, C::Fault>
        ensures { MakesOf (λ p. p.at) C.number C.sends C.Fault.From-2.from_gives (Unbuilt C.Fault.From-1.from_gives (2 ^ 29 ≤ length job.now + 1)) caller.old self.now.target 0xaa61c3d66832ee82 0 (with_pointer (blank 0 1) 0 (text_tree job.now)) [] result caller.new }
    {
        let call = self.submit_request(job)?;
        Ok(QueueSubmitResultsPipeline::of(self.target.call(caller, call.request)?))
    }

    /// A call of `take @1`.
    pub fn take_request(&self) -> Result<MethodRequest<'_>, BuildError>
        ensures request { IfOk result (λ r. IsCall r self.now.target (request_of 0xaa61c3d66832ee82 1 (blank 0 0) [])) }
        ensures long { result ≡ Err TooLong → ⊥ }
    {
        let params: StructBuilder<0, 0> = StructBuilder::new(self.target.alloc())?;
        let content = params.into_whole();
        Ok(self.target.request(0xaa61c3d66832ee82, 1, content))
    }

    /// The oldest job that no worker has, once there is one.
    pub fn take<C: Caller>(&self, caller: &mut C) -> Result<QueueTakeResultsPipeline, C::Fault>
        ensures { MakesOf (λ p. p.at) C.number C.sends C.Fault.From-2.from_gives (Unbuilt C.Fault.From-1.from_gives ⊥) caller.old self.now.target 0xaa61c3d66832ee82 1 (blank 0 0) [] result caller.new }
    {
        let call = self.take_request()?;
        Ok(QueueTakeResultsPipeline::of(self.target.call(caller, call.request)?))
    }
}

impl TypedClient for QueueClient {
    ghost called = { λ c. c.target };

    fn of(target: CallTarget) -> QueueClient {
        QueueClient { target }
    }

    fn into_target(self) -> CallTarget {
        self.target
    }
}

/// A call of `submit`.
pub type QueueSubmitCall<'c> = ServiceCall<
    'c,
    QueueSubmitParamsReader<'c>,
    QueueSubmitResultsBuilder,
>;

/// The answer of a call of `submit` that is given later.
pub type QueueSubmitLater = LaterAnswer<QueueSubmitResultsBuilder>;

/// A call of `take`.
pub type QueueTakeCall<'c> = ServiceCall<'c, QueueTakeParamsReader<'c>, QueueTakeResultsBuilder>;

/// The answer of a call of `take` that is given later.
pub type QueueTakeLater = LaterAnswer<QueueTakeResultsBuilder>;

/// An object of `interface Queue`.
pub trait QueueServer: ServiceObject {
    /// What calls of its methods lead to. Of an object that doesn't say it nothing is known.
    ghost queue_kind: { QueueKind (At Self Self.Makes) } = { any_queue };

    /// Adds a job. It is given up once its handle is dropped, unless a worker has it.
    fn submit(
        &mut self,
        call: &mut QueueSubmitCall<'_>,
        context: &mut Context<Self::Makes>,
    ) -> MethodResult
        ensures { Answers (λ p. p.body) (λ d. d.body) (λ d. d.table) queue_kind.on_submit (at self.old context.old) call.old call.new result (at self.new context.new) };

    /// The oldest job that no worker has, once there is one.
    fn take(
        &mut self,
        call: &mut QueueTakeCall<'_>,
        context: &mut Context<Self::Makes>,
    ) -> MethodResult
        ensures { Answers (λ p. p.body) (λ d. d.body) (λ d. d.table) queue_kind.on_take (at self.old context.old) call.old call.new result (at self.new context.new) };
}

/// An object of `interface Queue`, as a connection serves it.
pub type QueueDispatch<T> = ObjectDispatch<T, QueueClient>;

/// Resolves a promise of an object of `interface Queue`: one that is named before it is there.
pub type QueueResolver = TypedResolver<QueueClient>;

/// An object of `interface Queue` that all connections of a host may name.
pub type QueueShared = SharedClient<QueueClient>;

impl<T: QueueServer> Dispatch<T> for QueueClient {
    ghost takes = { QueueTakes T.queue_kind };

    ghost streams = { no_streams };

    fn dispatch(
        object: &mut T,
        call: &MethodCall<'_>,
        context: &mut Context<T::Makes>,
    ) -> Result<Reply, AllocError> {
        match (call.request.interface, call.request.method, call.params()) {
            (0xaa61c3d66832ee82, 0, Ok(body)) => {
                let results = QueueSubmitResultsBuilder::new(context.alloc())?;
                let params = QueueSubmitParamsReader { body };
                let mut passed = ServiceCall::new(context.alloc(), call, params, results);
                let done = QueueServer::submit(object, &mut passed, context);
                passed.reply(call, done)
            }
            (0xaa61c3d66832ee82, 1, Ok(body)) => {
                let results = QueueTakeResultsBuilder::new(context.alloc())?;
                let params = QueueTakeParamsReader { body };
                let mut passed = ServiceCall::new(context.alloc(), call, params, results);
                let done = QueueServer::take(object, &mut passed, context);
                passed.reply(call, done)
            }
            (0xaa61c3d66832ee82, 0..=1, Err(fault)) => {
                refuse(context.alloc(), call, MethodFault::WrongKind(fault))
            }
            _ => refuse_method(context.alloc(), call, "Queue"),
        }
    }

    fn is_stream(interface: u64, method: u16) -> bool {
        let _ = (interface, method);
        false
    }
}

/// `struct Queue.submit$Params`.
#[derive(Drop)]
pub struct QueueSubmitParamsReader<'a> {
    /// The struct, by the places of its fields.
    pub body: StructReader<'a>,
}

impl<'a> QueueSubmitParamsReader<'a> {
    /// `job @0`.
    pub fn job(&self) -> Result<TextReader<'a>, WrongKind>
        ensures { result ≡ text_field [] (pointee_of self.now.body 0) }
    {
        self.body.text(0)
    }
}

/// `struct Queue.submit$Results`.
#[derive(Drop)]
pub struct QueueSubmitResultsReader<'a> {
    /// The struct, by the places of its fields.
    pub body: StructReader<'a>,
}

impl<'a> QueueSubmitResultsReader<'a> {
    /// `handle @0`.
    pub fn handle(&self) -> Result<Option<u32>, WrongKind>
        ensures { result ≡ cap_field (pointee_of self.now.body 0) }
    {
        self.body.cap(0)
    }

    /// `handle @0`, of those that a table has.
    pub fn handle_client(&self, alloc: Global, caps: CapTable<'_>) -> Result<HandleClient, CapFault>
        ensures { Finds result (λ c. c.target) (cap_field (pointee_of self.now.body 0)) caps.entry }
    {
        let place = self.handle()?;
        Ok(HandleClient {
            target: CallTarget::of_field(alloc, place, caps)?,
        })
    }
}

/// `struct Queue.submit$Results`, to be written.
#[derive(Drop)]
pub struct QueueSubmitResultsBuilder {
    /// The struct, by the places of its fields.
    pub body: StructBuilder<0, 1>,
    /// The capabilities that it names.
    pub table: CapTableBuilder,
}

impl QueueSubmitResultsBuilder {
    /// A struct whose fields are all as by default.
    pub fn new(alloc: Global) -> Result<QueueSubmitResultsBuilder, AllocError>
        ensures blank { IfOk result (λ d. d.body ≡ blank 0 1) }
        ensures names { IfOk result (λ d. d.table ≡ none_named) }
    {
        Ok(QueueSubmitResultsBuilder {
            body: StructBuilder::new(alloc)?,
            table: CapTableBuilder::new(alloc),
        })
    }

    /// Sets `handle`.
    pub fn set_handle(&mut self, value: HandleClient) -> Result<(), NamingError>
        ensures set { OnOk result (self.new.body ≡ with_pointer self.old.body 0 (pointer_naming self.old.table.caps value.target.cap)) }
        ensures added { OnOk result (self.new.table ≡ naming self.old.table value.target) }
        ensures left { OnErr result (self.new ≡ self.old) }
        ensures full { result ≡ Err errors.TooLong ↔ IsFull self.old.table }
        ensures own { OnOk result (may_name self.old.table value.target ≡ true) }
        ensures other { result ≡ Err errors.OtherSession → may_name self.old.table value.target ≡ false }
    {
        let pointer = self.table.add(value.target.into_cap())?;
        self.body.set_pointer(0, pointer);
        Ok(())
    }
}

impl Results for QueueSubmitResultsBuilder {
    ghost content = { λ d. d.body };

    ghost names = { λ d. d.table };

    fn into_parts(self, alloc: Global) -> (Whole, CapTableBuilder) {
        let _ = alloc;
        (self.body.into_whole(), self.table)
    }
}

/// `struct Queue.submit$Results`, as a question will give it.
#[derive(Drop)]
pub struct QueueSubmitResultsPipeline {
    /// The question, and the path to the struct.
    pub at: Pipeline,
}

impl QueueSubmitResultsPipeline {
    /// What is promised there.
    pub fn of(at: Pipeline) -> QueueSubmitResultsPipeline
        ensures { result.at ≡ at }
    {
        QueueSubmitResultsPipeline { at }
    }

    /// The number of the question, whose outcome can be waited for.
    pub fn question(&self) -> u32
        ensures { result ≡ self.now.at.question }
    {
        self.at.question()
    }

    /// The results that came.
    pub fn results<'a>(
        &self,
        came: &'a ResultPayload,
    ) -> Result<QueueSubmitResultsReader<'a>, WrongKind>
        ensures { Reads result (λ x. x.body) (struct_field came.now.content) }
    {
        Ok(QueueSubmitResultsReader {
            body: came.results()?,
        })
    }

    /// `handle @0`.
    pub fn handle(&self) -> Result<HandleClient, AllocError>
        ensures { IfOk result (λ c. c.target ≡ promised_cap self.now.at 0) }
    {
        Ok(HandleClient {
            target: self.at.target(0)?,
        })
    }
}

/// `struct Queue.take$Params`.
pub type QueueTakeParamsReader<'a> = NoFieldsReader<'a>;

/// `struct Queue.take$Results`.
#[derive(Drop)]
pub struct QueueTakeResultsReader<'a> {
    /// The struct, by the places of its fields.
    pub body: StructReader<'a>,
}

impl<'a> QueueTakeResultsReader<'a> {
    /// `job @0`.
    pub fn job(&self) -> Result<TextReader<'a>, WrongKind>
        ensures { result ≡ text_field [] (pointee_of self.now.body 0) }
    {
        self.body.text(0)
    }

    /// `task @1`.
    pub fn task(&self) -> Result<Option<u32>, WrongKind>
        ensures { result ≡ cap_field (pointee_of self.now.body 1) }
    {
        self.body.cap(1)
    }

    /// `task @1`, of those that a table has.
    pub fn task_client(&self, alloc: Global, caps: CapTable<'_>) -> Result<TaskClient, CapFault>
        ensures { Finds result (λ c. c.target) (cap_field (pointee_of self.now.body 1)) caps.entry }
    {
        let place = self.task()?;
        Ok(TaskClient {
            target: CallTarget::of_field(alloc, place, caps)?,
        })
    }
}

/// `struct Queue.take$Results`, to be written.
#[derive(Drop)]
pub struct QueueTakeResultsBuilder {
    /// The struct, by the places of its fields.
    pub body: StructBuilder<0, 2>,
    /// The capabilities that it names.
    pub table: CapTableBuilder,
}

impl QueueTakeResultsBuilder {
    /// A struct whose fields are all as by default.
    pub fn new(alloc: Global) -> Result<QueueTakeResultsBuilder, AllocError>
        ensures blank { IfOk result (λ d. d.body ≡ blank 0 2) }
        ensures names { IfOk result (λ d. d.table ≡ none_named) }
    {
        Ok(QueueTakeResultsBuilder {
            body: StructBuilder::new(alloc)?,
            table: CapTableBuilder::new(alloc),
        })
    }

    /// Sets `job`.
    pub fn set_job<'a, V: FieldValue<TextReader<'a>>>(&mut self, value: V) -> Result<(), BuildError>
        ensures set { OnOk result (Sets (V.stands value) self.old.body 0 self.new.body) }
        ensures names { self.new.table ≡ self.old.table }
        ensures left { OnErr result (self.new ≡ self.old) }
        ensures long { result ≡ Err TooLong → V.is_long value }
    {
        let whole = value.into_whole(self.body.alloc())?;
        self.body.set_pointer(0, whole);
        Ok(())
    }

    /// Sets `task`.
    pub fn set_task(&mut self, value: TaskClient) -> Result<(), NamingError>
        ensures set { OnOk result (self.new.body ≡ with_pointer self.old.body 1 (pointer_naming self.old.table.caps value.target.cap)) }
        ensures added { OnOk result (self.new.table ≡ naming self.old.table value.target) }
        ensures left { OnErr result (self.new ≡ self.old) }
        ensures full { result ≡ Err errors.TooLong ↔ IsFull self.old.table }
        ensures own { OnOk result (may_name self.old.table value.target ≡ true) }
        ensures other { result ≡ Err errors.OtherSession → may_name self.old.table value.target ≡ false }
    {
        let pointer = self.table.add(value.target.into_cap())?;
        self.body.set_pointer(1, pointer);
        Ok(())
    }
}

impl Results for QueueTakeResultsBuilder {
    ghost content = { λ d. d.body };

    ghost names = { λ d. d.table };

    fn into_parts(self, alloc: Global) -> (Whole, CapTableBuilder) {
        let _ = alloc;
        (self.body.into_whole(), self.table)
    }
}

/// `struct Queue.take$Results`, as a question will give it.
#[derive(Drop)]
pub struct QueueTakeResultsPipeline {
    /// The question, and the path to the struct.
    pub at: Pipeline,
}

impl QueueTakeResultsPipeline {
    /// What is promised there.
    pub fn of(at: Pipeline) -> QueueTakeResultsPipeline
        ensures { result.at ≡ at }
    {
        QueueTakeResultsPipeline { at }
    }

    /// The number of the question, whose outcome can be waited for.
    pub fn question(&self) -> u32
        ensures { result ≡ self.now.at.question }
    {
        self.at.question()
    }

    /// The results that came.
    pub fn results<'a>(
        &self,
        came: &'a ResultPayload,
    ) -> Result<QueueTakeResultsReader<'a>, WrongKind>
        ensures { Reads result (λ x. x.body) (struct_field came.now.content) }
    {
        Ok(QueueTakeResultsReader {
            body: came.results()?,
        })
    }

    /// `task @1`.
    pub fn task(&self) -> Result<TaskClient, AllocError>
        ensures { IfOk result (λ c. c.target ≡ promised_cap self.now.at 1) }
    {
        Ok(TaskClient {
            target: self.at.target(1)?,
        })
    }
}
