//! Scripts of exchanges: lines of events, read, and what follows each, as lines. Messages are written as
//! `show` prints them.
#![tactic(auto)]

mod acting;
mod effects;
mod events;
mod lines;

pub use acting::{Taken, act};
pub use events::event_of;
pub use lines::Lines;
