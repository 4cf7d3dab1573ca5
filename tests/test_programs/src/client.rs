//! Conversations of a client with peers whose bytes are in memory.

mod asking;
mod contents;
mod devices;
mod endings;
mod exporting;
mod memory;
mod peer;
mod streaming;
