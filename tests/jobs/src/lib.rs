//! The types of jobs.capnp, made by capnpc_rattle.
#![tactic(auto)]

mod handle;
mod queue;
mod task;

pub use handle::{
    HandleClient, HandleDispatch, HandleResolver, HandleServer, HandleShared, HandleWaitCall,
    HandleWaitLater, HandleWaitParamsReader, HandleWaitResultsBuilder, HandleWaitResultsPipeline,
    HandleWaitResultsReader,
};
pub use queue::{
    QueueClient, QueueDispatch, QueueResolver, QueueServer, QueueShared, QueueSubmitCall,
    QueueSubmitLater, QueueSubmitParamsReader, QueueSubmitResultsBuilder,
    QueueSubmitResultsPipeline, QueueSubmitResultsReader, QueueTakeCall, QueueTakeLater,
    QueueTakeParamsReader, QueueTakeResultsBuilder, QueueTakeResultsPipeline,
    QueueTakeResultsReader,
};
pub use task::{
    TaskClient, TaskDispatch, TaskDoneCall, TaskDoneLater, TaskDoneParamsReader,
    TaskDoneResultsBuilder, TaskDoneResultsPipeline, TaskDoneResultsReader, TaskResolver,
    TaskServer, TaskShared,
};
