//! The types of store.capnp, made by capnpc_rattle.
#![tactic(auto)]

mod store;

pub use store::{
    StoreClient, StoreDispatch, StoreGetCall, StoreGetLater, StoreGetParamsReader,
    StoreGetResultsBuilder, StoreGetResultsPipeline, StoreGetResultsReader, StorePutCall,
    StorePutLater, StorePutParamsReader, StorePutResultsBuilder, StorePutResultsPipeline,
    StorePutResultsReader, StoreResolver, StoreServer, StoreShared,
};
