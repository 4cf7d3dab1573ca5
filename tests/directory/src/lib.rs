//! The types of directory.capnp, made by capnpc_rattle.
#![tactic(auto)]

mod directory;
mod member_;

pub use directory::{
    DirectoryClient, DirectoryDispatch, DirectoryFindCall, DirectoryFindLater,
    DirectoryFindParamsReader, DirectoryFindResultsBuilder, DirectoryFindResultsPipeline,
    DirectoryFindResultsReader, DirectoryJoinCall, DirectoryJoinLater, DirectoryJoinParamsReader,
    DirectoryJoinResultsBuilder, DirectoryJoinResultsPipeline, DirectoryJoinResultsReader,
    DirectoryResolver, DirectoryServer, DirectoryShared,
};
pub use member_::{
    MemberClient, MemberDispatch, MemberResolver, MemberSayCall, MemberSayLater,
    MemberSayParamsReader, MemberSayResultsBuilder, MemberSayResultsPipeline,
    MemberSayResultsReader, MemberServer, MemberShared,
};
