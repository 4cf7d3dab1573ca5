//! The types of chat.capnp, made by capnpc_rattle.
#![tactic(auto)]

mod chat;
mod listener;
mod member_;

pub use chat::{
    ChatClient, ChatDispatch, ChatJoinCall, ChatJoinLater, ChatJoinParamsReader,
    ChatJoinResultsBuilder, ChatJoinResultsPipeline, ChatJoinResultsReader, ChatResolver,
    ChatServer, ChatShared,
};
pub use listener::{
    ListenerClient, ListenerDispatch, ListenerHeardCall, ListenerHeardLater,
    ListenerHeardParamsReader, ListenerHeardResultsBuilder, ListenerHeardResultsPipeline,
    ListenerHeardResultsReader, ListenerResolver, ListenerServer, ListenerShared,
};
pub use member_::{
    MemberClient, MemberDispatch, MemberResolver, MemberSayCall, MemberSayLater,
    MemberSayParamsReader, MemberSayResultsBuilder, MemberSayResultsPipeline,
    MemberSayResultsReader, MemberServer, MemberShared,
};
