//! The commands, and the connections that they serve.

mod acting;
mod connections;
mod figures;
mod recordings;
mod replays;
