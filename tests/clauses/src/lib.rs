//! The types of clauses.capnp, made by capnpc_rattle.
#![tactic(auto)]

mod blank;
mod held;
mod not;

pub use blank::{
    BlankClient, BlankDispatch, BlankGiveCall, BlankGiveLater, BlankGiveParamsReader,
    BlankGiveResultsBuilder, BlankGiveResultsPipeline, BlankGiveResultsReader, BlankHoldCall,
    BlankHoldLater, BlankHoldParamsReader, BlankHoldResultsBuilder, BlankHoldResultsPipeline,
    BlankHoldResultsReader, BlankResolver, BlankServer, BlankShared, BlankTakeCall, BlankTakeLater,
    BlankTakeParamsReader, BlankTakeResultsBuilder, BlankTakeResultsPipeline,
    BlankTakeResultsReader,
};
pub use held::{
    HeldBuilder, HeldLengthReader, HeldListBuilder, HeldMember, HeldPipeline, HeldReader, HeldWhich,
};
pub use not::Not;
