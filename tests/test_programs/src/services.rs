//! Objects that make others: a notebook whose pages are objects, watchers of other sessions, times, and a plain model of who is there.

mod canceling;
mod closing;
mod ending;
mod ends;
mod foreign;
mod holding;
mod later;
mod lists;
mod model;
mod names;
mod notebook;
mod pages;
mod pair;
mod promising;
mod resting;
mod ringing;
mod sharing;
mod streaming;
mod watching;
