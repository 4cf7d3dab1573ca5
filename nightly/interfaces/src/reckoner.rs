//! A reckoner: it calls the functions that an expression names, one after another, and answers when the last has answered.

use crate::Served;
use crate::functions::{Binary, Function};
use calculator::{
    ExpressionMember, ExpressionReader, FunctionCallResultsReader,
    FunctionClient, Operator, ReckonerOperatorCall, ReckonerReckonCall, ReckonerReckonLater,
    ReckonerReckonResultsBuilder, ReckonerDispatch, ReckonerServer,
};
use jamdrosek::client::{Cap, Outcome};
use jamdrosek::interfaces::{
    CapTable, MethodFault, MethodResult, ResultPayload, ServiceObject, failed, payload_of,
};
use jamdrosek::server::{Context, Either, Objects};
use std::alloc::Global;

/// The most parts that an expression may have.
const PARTS: usize = 1000;

/// What is to be done for an expression.
#[derive(Drop)]
enum Step {
    Number(f64),
    /// Calls a function with the last numbers, so many.
    Call(FunctionClient, usize),
}

/// An expression whose call waits.
#[derive(Drop)]
struct Job {
    call: ReckonerReckonLater,
    /// By which what its functions give is told.
    call_id: u64,
    /// What is still to be done, the next at the end.
    steps: Vec<Step>,
    numbers: Vec<f64>,
}

/// A reckoner, whose operators are the objects after it.
#[derive(Drop)]
pub struct Reckoner {
    jobs: Vec<Job>,
    /// The mark of the last job.
    last: u64,
}

/// A reckoner, as object 0, and its operators.
pub fn new_reckoner(alloc: Global) -> anyhow::Result<Objects<Served>> {
    let reckoner = ReckonerDispatch::new(Reckoner {
        jobs: Vec::new(alloc),
        last: 0,
    });
    let mut objects = Objects::new(alloc);
    objects.add(Either::Right(Either::Right(Either::Right(Either::Left(reckoner)))))?;
    for number in 0..4 {
        objects.add(Function::of(Binary::Operator(Operator::of(number))))?;
    }
    Ok(objects)
}

impl Reckoner {
    /// Does what is to be done for an expression until a function is called, or the last number is there.
    fn go_on(&mut self, mut job: Job, context: &mut Context<Served>) -> MethodResult {
        for _ in 0..PARTS {
            match job.steps.pop() {
                Some(Step::Number(number)) => job.numbers.push(number)?,
                Some(Step::Call(function, count)) => return self.call(job, &function, count, context),
                None => return self.end(job, context),
            }
        }
        self.fail(job, "too many steps", context)
    }

    /// Calls a function with the last numbers. The job waits for it.
    fn call(
        &mut self,
        mut job: Job,
        function: &FunctionClient,
        count: usize,
        context: &mut Context<Served>,
    ) -> MethodResult {
        let mut numbers = Vec::new(context.alloc());
        for _ in 0..count {
            numbers.push(job.numbers.pop().unwrap_or(0.0))?;
        }
        numbers.reverse();
        let Ok(request) = function.call_request(&numbers) else {
            return self.fail(job, "too many params", context);
        };
        context.send(request.outgoing(job.call_id)?)?;
        self.jobs.push(job)?;
        Ok(())
    }

    /// Goes on with what a function gave.
    fn came(&mut self, mut job: Job, came: &ResultPayload, context: &mut Context<Served>) -> MethodResult {
        let Ok(body) = came.results() else {
            return self.fail(job, "no number came", context);
        };
        job.numbers.push(FunctionCallResultsReader { body }.number())?;
        self.go_on(job, context)
    }

    /// Answers with the last number.
    fn end(&mut self, mut job: Job, context: &mut Context<Served>) -> MethodResult {
        let mut results = ReckonerReckonResultsBuilder::new(context.alloc())?;
        results.set_number(job.numbers.pop().unwrap_or(0.0));
        Ok(job.call.answer(context, results)?)
    }

    /// Answers with an exception.
    fn fail(&mut self, job: Job, reason: &str, context: &mut Context<Served>) -> MethodResult {
        let fault = MethodFault::Fails(failed(context.alloc(), reason)?);
        Ok(job.call.fail(context, fault)?)
    }

    /// Takes the job of this mark.
    fn take(&mut self, call_id: u64) -> Option<Job> {
        for at in 0..self.jobs.len() {
            if self.jobs.get(at).is_some_and(|job| job.call_id == call_id) {
                return Some(self.jobs.swap_remove(at));
            }
        }
        None
    }
}

/// What is to be done for an expression, the last first.
fn steps_of(
    alloc: Global,
    expression: ExpressionReader<'_>,
    caps: CapTable<'_>,
) -> Result<Vec<Step>, MethodFault> {
    let mut steps = Vec::new(alloc);
    let mut left = vec![in alloc; expression]?;
    for _ in 0..PARTS {
        let Some(part) = left.pop() else {
            return Ok(steps);
        };
        match part.member()? {
            ExpressionMember::Number(number) => steps.push(Step::Number(number))?,
            ExpressionMember::Call(call) => {
                let params = call.params()?;
                let function = call.function_client(alloc, caps)?;
                steps.push(Step::Call(function, params.len()))?;
                for each in params {
                    left.push(each)?;
                }
            }
            _ => return Err(MethodFault::Fails(failed(alloc, "no number")?)),
        }
    }
    Err(MethodFault::TooLong)
}

impl ServiceObject for Reckoner {
    type Makes = Served;

    fn has_more(&self) -> bool {
        false
    }

    fn on_response(&mut self, call_id: u64, outcome: Outcome, context: &mut Context<Served>) -> MethodResult {
        let Some(job) = self.take(call_id) else {
            return Ok(());
        };
        match outcome {
            Outcome::Failed(exception) => {
                let fault = MethodFault::Fails(exception);
                Ok(job.call.fail(context, fault)?)
            }
            other => match payload_of(context.session(), other) {
                Ok(came) => self.came(job, &came, context),
                Err(_) => self.fail(job, "canceled", context),
            },
        }
    }
}

impl ReckonerServer for Reckoner {
    fn reckon(&mut self, call: &mut ReckonerReckonCall<'_>, context: &mut Context<Served>) -> MethodResult {
        let steps = steps_of(context.alloc(), call.params.expression()?, call.caps())?;
        self.last = self.last.saturating_add(1);
        let job = Job {
            call: call.later(context)?,
            call_id: self.last,
            steps,
            numbers: Vec::new(context.alloc()),
        };
        self.go_on(job, context)
    }

    fn operator(
        &mut self,
        call: &mut ReckonerOperatorCall<'_>,
        context: &mut Context<Served>,
    ) -> MethodResult {
        let place = Cap::Object(u32::from(call.params.operator().number()).saturating_add(1));
        let function = FunctionClient::new(context.alloc(), context.own(place));
        Ok(call.results.set_function(function)?)
    }
}
