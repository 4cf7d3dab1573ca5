//! Serves a queue of jobs over TCP: clients submit jobs and wait for their outputs, workers take them, and a job whose worker dies goes to
//! another one.

use jamdrosek::host::{Host, HostConfig, HostEvent, Listener};
use jamdrosek::interfaces::{MethodFault, MethodResult, ServiceObject};
use jamdrosek::server::{Context, Either, Objects, Settled, Waker};
use jobs::{
    HandleClient, HandleDispatch, HandleServer, HandleWaitCall, HandleWaitLater,
    HandleWaitResultsBuilder, QueueDispatch, QueueServer, QueueSubmitCall, QueueTakeCall,
    QueueTakeLater, QueueTakeResultsBuilder, TaskClient, TaskDispatch, TaskDoneCall, TaskServer,
};
use std::alloc::Global;
use std::cell::RefCell;
use std::collections::{BTreeMap, VecDeque};
use std::net::{Ipv4Addr, SocketAddr};
use std::rc::Rc;

/// The objects of a connection: its queue, the handles of what it submitted, and the tasks that it took.
pub type Served = Either<QueueDispatch<Queue>, Either<HandleDispatch<Handle>, TaskDispatch<Task>>>;

/// What all connections share.
pub type Shared = Rc<RefCell<Jobs>>;

/// The jobs by their numbers, which go up.
#[derive(Drop)]
pub struct Jobs {
    submitted: u64,
    /// Those that no worker has.
    open: BTreeMap<u64, String>,
    /// What those came to that are done.
    outputs: BTreeMap<u64, String>,
    /// What wakes the handle of each.
    handles: BTreeMap<u64, Waker>,
    /// What wakes the queues whose workers wait, by the numbers of their sessions.
    idle: BTreeMap<u64, Waker>,
}

impl Jobs {
    /// Adds a job that no worker has, and wakes those who wait for one.
    fn open(&mut self, number: u64, job: String, context: &mut Context<Served>) -> MethodResult {
        self.open.insert(number, job)?;
        while let Some((_, waker)) = self.idle.pop_first() {
            context.wake(waker)?;
        }
        Ok(())
    }
}

pub fn run(rt: &HostRuntime) -> anyhow::Result<()> {
    let listener = Listener::bind(rt, SocketAddr::from((Ipv4Addr::LOCALHOST, 7003)))?;
    let mut host = Host::new(rt, HostConfig::standard(), listener)?;
    let jobs = new_jobs(rt.alloc())?;
    while let Some(event) = host.next(rt)? {
        if let HostEvent::Connected { .. } = event {
            host.admit(new_objects(rt.alloc(), &jobs)?)?;
        }
    }
    Ok(())
}

/// No jobs.
pub fn new_jobs(alloc: Global) -> anyhow::Result<Shared> {
    let jobs = Jobs {
        submitted: 0,
        open: BTreeMap::new(alloc),
        outputs: BTreeMap::new(alloc),
        handles: BTreeMap::new(alloc),
        idle: BTreeMap::new(alloc),
    };
    Ok(Rc::new(alloc, RefCell::new(jobs))?)
}

/// The objects of a connection: a queue at first.
pub fn new_objects(alloc: Global, jobs: &Shared) -> anyhow::Result<Objects<Served>> {
    let (jobs, takes) = (jobs.clone()?, VecDeque::new(alloc));
    let mut objects = Objects::new(alloc);
    objects.add(Served::Left(QueueDispatch::new(Queue { jobs, takes })))?;
    Ok(objects)
}

/// The queue, as one connection has it, with the calls of workers that wait for a job.
#[derive(Drop)]
pub struct Queue {
    jobs: Shared,
    takes: VecDeque<QueueTakeLater>,
}

impl QueueServer for Queue {
    fn submit(
        &mut self,
        call: &mut QueueSubmitCall,
        context: &mut Context<Served>,
    ) -> MethodResult {
        let job = call.params.job()?.text(context.alloc())?;
        let mut jobs = self.jobs.try_borrow_mut()?;
        jobs.submitted = jobs.submitted.saturating_add(1);
        let (number, waits) = (jobs.submitted, Vec::new(context.alloc()));
        let handle = Handle { jobs: self.jobs.clone()?, number, waits };
        let handle = context.make(Served::Right(Either::Left(HandleDispatch::new(handle))))?;
        let handle = HandleClient::new(context.alloc(), handle);
        call.results.set_handle(handle)?;
        jobs.open(number, job, context)
    }

    fn take(&mut self, call: &mut QueueTakeCall, context: &mut Context<Served>) -> MethodResult {
        self.takes.push_back(call.later(context)?)?;
        Ok(())
    }
}

impl ServiceObject for Queue {
    type Makes = Served;

    fn has_more(&self) -> bool {
        false
    }

    /// It was called or woken: gives jobs to those who wait for one.
    fn poll(&mut self, context: &mut Context<Served>) -> Result<Option<Settled>, MethodFault> {
        let mut jobs = self.jobs.try_borrow_mut()?;
        while let Some(take) = self.takes.pop_front() {
            let Some((number, job)) = jobs.open.pop_first() else {
                self.takes.push_front(take)?;
                jobs.idle.insert(context.session(), context.waker())?;
                break;
            };
            let mut results = QueueTakeResultsBuilder::new(context.alloc())?;
            results.set_job(job.as_str())?;
            let (jobs, job) = (self.jobs.clone()?, Some(job));
            let task = TaskDispatch::new(Task { jobs, number, job });
            let task = context.make(Served::Right(Either::Right(task)))?;
            results.set_task(TaskClient::new(context.alloc(), task))?;
            take.answer(context, results)?;
        }
        Ok(None)
    }

    /// A worker doesn't wait any longer.
    fn on_cancel(&mut self, ticket: u64, _context: &mut Context<Served>) -> MethodResult {
        self.takes.retain(|take| take.ticket() != ticket);
        Ok(())
    }
}

/// A job, as who submitted it has it.
#[derive(Drop)]
pub struct Handle {
    jobs: Shared,
    number: u64,
    waits: Vec<HandleWaitLater>,
}

impl HandleServer for Handle {
    fn wait(&mut self, call: &mut HandleWaitCall, context: &mut Context<Served>) -> MethodResult {
        self.waits.push(call.later(context)?)?;
        Ok(())
    }
}

impl ServiceObject for Handle {
    type Makes = Served;

    fn has_more(&self) -> bool {
        false
    }

    /// It was made, called or woken.
    fn poll(&mut self, context: &mut Context<Served>) -> Result<Option<Settled>, MethodFault> {
        let mut jobs = self.jobs.try_borrow_mut()?;
        jobs.handles.insert(self.number, context.waker())?;
        if let Some(output) = jobs.outputs.get(&self.number) {
            while let Some(wait) = self.waits.pop() {
                let mut results = HandleWaitResultsBuilder::new(context.alloc())?;
                results.set_output(output.as_str())?;
                wait.answer(context, results)?;
            }
        }
        Ok(None)
    }

    /// Nobody wants the output.
    fn ended(&mut self, _context: &mut Context<Served>) -> MethodResult {
        let mut jobs = self.jobs.try_borrow_mut()?;
        let _ = jobs.handles.remove(&self.number);
        let _ = jobs.outputs.remove(&self.number);
        let _ = jobs.open.remove(&self.number);
        Ok(())
    }
}

/// A job, as its worker has it. `None` once it is done.
#[derive(Drop)]
pub struct Task {
    jobs: Shared,
    number: u64,
    job: Option<String>,
}

impl TaskServer for Task {
    fn done(&mut self, call: &mut TaskDoneCall, context: &mut Context<Served>) -> MethodResult {
        self.job = None;
        let mut jobs = self.jobs.try_borrow_mut()?;
        if let Some(waker) = jobs.handles.get(&self.number) {
            context.wake(*waker)?;
            let output = call.params.output()?.text(context.alloc())?;
            jobs.outputs.insert(self.number, output)?;
        }
        Ok(())
    }
}

impl ServiceObject for Task {
    type Makes = Served;

    fn has_more(&self) -> bool {
        false
    }

    /// The worker dropped it, or died: where the job isn't done, another one gets it, if anybody wants its output.
    fn ended(&mut self, context: &mut Context<Served>) -> MethodResult {
        let mut jobs = self.jobs.try_borrow_mut()?;
        match self.job.take() {
            Some(job) if jobs.handles.contains_key(&self.number) => {
                jobs.open(self.number, job, context)
            }
            _ => Ok(()),
        }
    }
}
