//! A session of the Trial of ../../services/serving, which makes objects and promises and answers in time, over memory, for ../made.cpp alone. A
//! slice crosses as a pointer and then a length, an allocator as nothing.
#![tactic(auto)]

mod cell;
mod later;
mod play;
mod trial;

use crate::cell::Cell;
use crate::trial::Trial;
use cp_objects::Either;
pub use play::mp_serve;

/// The objects of a session: its Trial, and the Cells that this made.
type Served = Either<Trial, Cell>;
