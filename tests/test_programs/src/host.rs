//! A host: how many it serves, one connection that is served, those that come by a proxy, and what its program has woken.

mod hosts;
mod proxied;
mod waking;
