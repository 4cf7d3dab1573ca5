//! Whole jobs of the crates, for the programs in C and C++ of `bench/` and `nightly/` alone, which time and try them. What a program of its
//! own takes is `jamdrosek_c`.
//!
//! A slice crosses as a pointer and then a length, an allocator as nothing. An answer of 0 says that there
//! was nothing, a fault, or no memory.
#![tactic(auto)]

mod book;
mod call;
mod fill;
mod pieces;
mod play;
mod read;
mod relay;
mod serve;
mod write;

pub use book::cpb_read_book;
pub use call::cpb_call;
pub use fill::Told;
pub use play::cpb_play;
pub use read::{
    cpb_packed_frames, cpb_packed_frames_within, cpb_read_frames, cpb_read_frames_within,
};
pub use relay::cpb_relay;
pub use serve::{Served, cpb_serve};
pub use write::{cpb_write_frames, cpb_write_frames_within};
