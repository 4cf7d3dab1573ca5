//! `task` of jobs.capnp, made by capnpc_rattle.

ghost use Rattle.std.specs.Prelude.{◌≡◌, IfOk, Err, ◌≤◌, ◌^◌, length, ◌+◌, []};
ghost use Rattle.cp_tree.specs.Seen.{pointee_of};
ghost use Rattle.cp_fields.specs.Pointers.{text_field};
ghost use Rattle.cp_builder.specs.declared.fault.BuildError.TheVariants.{TooLong};
ghost use Rattle.cp_builder.specs.Drafts.{blank, text_tree, with_pointer};
ghost use Rattle.cp_interfaces.specs.Calls.{IsCall, MakesOf, request_of};
ghost use Rattle.cp_interfaces.specs.Faults.{Unbuilt};
ghost use Rattle.cp_interfaces.specs.ServiceCalls.{Answers};
ghost use Rattle.cp_interfaces.specs.Streams.{no_streams};
ghost use Rattle.cp_interfaces.specs.Tables.{none_named};
ghost use Rattle.cp_interfaces.specs.Services.{At, at};
ghost use Rattle.jobs.specs.Task.{TaskKind, TaskTakes, any_task};

use cp_builder::{BuildError, StructBuilder};
use cp_fields::{StructReader, TextReader, WrongKind};
use cp_interfaces::{
    CallTarget, Caller, Dispatch, LaterAnswer, MethodCall, MethodFault, MethodRequest,
    MethodResult, NoFieldsBuilder, NoFieldsPipeline, NoFieldsReader, ObjectDispatch, ServiceCall,
    ServiceObject, SharedClient, TypedClient, TypedResolver, refuse, refuse_method,
};
use cp_objects::{Context, SessionCap};
use cp_servants::Reply;
use std::alloc::{AllocError, Global};

/// A job, as the worker has it that took it. If it is dropped before the job is done, another worker gets the job.
#[derive(Drop)]
pub struct TaskClient {
    /// The capability that is called.
    pub target: CallTarget,
}

impl TaskClient {
    /// The interface's number.
    pub const ID: u64 = 0x91cc45f7342761dd;

    /// The object that a capability stands for.
    pub fn new(alloc: Global, cap: SessionCap) -> TaskClient
        ensures { result.target ≡ cap }
    {
        TaskClient {
            target: CallTarget::new(alloc, cap),
        }
    }

    /// A call of `done @0`.
    pub fn done_request(&self, output: &str) -> Result<MethodRequest<'_>, BuildError>
        ensures request { IfOk result (λ r. IsCall r self.now.target (request_of 0x91cc45f7342761dd 0 (with_pointer (blank 0 1) 0 (text_tree output.now)) [])) }
        ensures long { result ≡ Err TooLong → 2 ^ 29 ≤ length output.now + 1 }
    {
        let mut params: StructBuilder<0, 1> = StructBuilder::new(self.target.alloc())?;
        params.set_pointer(0, cp_builder::text_of(self.target.alloc(), output)?);
        let content = params.into_whole();
        Ok(self.target.request(0x91cc45f7342761dd, 0, content))
    }

    /// The job is done.
    pub fn done<C: Caller>(
        &self,
        caller: &mut C,
        output: &str,
    ) -> Result<TaskDoneResultsPipeline, C::Fault>
        ensures { MakesOf (λ p. p.at) C.number C.sends C.Fault.From-2.from_gives (Unbuilt C.Fault.From-1.from_gives (2 ^ 29 ≤ length output.now + 1)) caller.old self.now.target 0x91cc45f7342761dd 0 (with_pointer (blank 0 1) 0 (text_tree output.now)) [] result caller.new }
    {
        let call = self.done_request(output)?;
        Ok(TaskDoneResultsPipeline::of(self.target.call(caller, call.request)?))
    }
}

impl TypedClient for TaskClient {
    ghost called = { λ c. c.target };

    fn of(target: CallTarget) -> TaskClient {
        TaskClient { target }
    }

    fn into_target(self) -> CallTarget {
        self.target
    }
}

/// A call of `done`.
pub type TaskDoneCall<'c> = ServiceCall<'c, TaskDoneParamsReader<'c>, TaskDoneResultsBuilder>;

/// The answer of a call of `done` that is given later.
pub type TaskDoneLater = LaterAnswer<TaskDoneResultsBuilder>;

/// An object of `interface Task`.
pub trait TaskServer: ServiceObject {
    /// What calls of its methods lead to. Of an object that doesn't say it nothing is known.
    ghost task_kind: { TaskKind (At Self Self.Makes) } = { any_task };

    /// The job is done.
    fn done(
        &mut self,
        call: &mut TaskDoneCall<'_>,
        context: &mut Context<Self::Makes>,
    ) -> MethodResult
        ensures { Answers (λ p. p.body) (λ d. d.body) (λ d. none_named) task_kind.on_done (at self.old context.old) call.old call.new result (at self.new context.new) };
}

/// An object of `interface Task`, as a connection serves it.
pub type TaskDispatch<T> = ObjectDispatch<T, TaskClient>;

/// Resolves a promise of an object of `interface Task`: one that is named before it is there.
pub type TaskResolver = TypedResolver<TaskClient>;

/// An object of `interface Task` that all connections of a host may name.
pub type TaskShared = SharedClient<TaskClient>;

impl<T: TaskServer> Dispatch<T> for TaskClient {
    ghost takes = { TaskTakes T.task_kind };

    ghost streams = { no_streams };

    fn dispatch(
        object: &mut T,
        call: &MethodCall<'_>,
        context: &mut Context<T::Makes>,
    ) -> Result<Reply, AllocError> {
        match (call.request.interface, call.request.method, call.params()) {
            (0x91cc45f7342761dd, 0, Ok(body)) => {
                let results = TaskDoneResultsBuilder::new(context.alloc())?;
                let params = TaskDoneParamsReader { body };
                let mut passed = ServiceCall::new(context.alloc(), call, params, results);
                let done = TaskServer::done(object, &mut passed, context);
                passed.reply(call, done)
            }
            (0x91cc45f7342761dd, 0, Err(fault)) => {
                refuse(context.alloc(), call, MethodFault::WrongKind(fault))
            }
            _ => refuse_method(context.alloc(), call, "Task"),
        }
    }

    fn is_stream(interface: u64, method: u16) -> bool {
        let _ = (interface, method);
        false
    }
}

/// `struct Task.done$Params`.
#[derive(Drop)]
pub struct TaskDoneParamsReader<'a> {
    /// The struct, by the places of its fields.
    pub body: StructReader<'a>,
}

impl<'a> TaskDoneParamsReader<'a> {
    /// `output @0`.
    pub fn output(&self) -> Result<TextReader<'a>, WrongKind>
        ensures { result ≡ text_field [] (pointee_of self.now.body 0) }
    {
        self.body.text(0)
    }
}

/// `struct Task.done$Results`.
pub type TaskDoneResultsReader<'a> = NoFieldsReader<'a>;

/// `struct Task.done$Results`, to be written.
pub type TaskDoneResultsBuilder = NoFieldsBuilder;

/// `struct Task.done$Results`, as a question will give it.
pub type TaskDoneResultsPipeline = NoFieldsPipeline;
