//! Tests of what programs stand on, where no row of a file can say it: allocations and devices that fail, calls that are lent, a client and its
//! objects, objects that make others, a host, and the commands. They are one crate, since how each type is dropped is proved anew for each.
#![tactic(auto)]

/// Ends the test unless the condition holds, with the condition's text.
#[cfg(test)]
macro_rules! check {
    ($rt:expr; $($condition:tt)*) => {
        crate::checks::expect_right($rt, $($condition)*, stringify!($($condition)*))
    };
}

#[cfg(test)]
mod checks;
#[cfg(test)]
mod client;
#[cfg(test)]
mod command;
#[cfg(test)]
mod devices;
#[cfg(test)]
mod embedded;
#[cfg(test)]
mod frames;
#[cfg(test)]
mod host;
#[cfg(test)]
mod readiness;
#[cfg(test)]
mod server;
#[cfg(test)]
mod services;
#[cfg(test)]
mod session;
#[cfg(test)]
mod sockets;
#[cfg(test)]
mod vat;
