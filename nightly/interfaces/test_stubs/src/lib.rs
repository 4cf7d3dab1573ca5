//! Tests of cp_interfaces, by what the plugin made of directory.capnp: objects that are called through the glue, and typed clients.
#![tactic(auto)]

/// Ends the test unless the condition holds, with the condition's text.
#[cfg(test)]
macro_rules! check {
    ($rt:expr; $($condition:tt)*) => {
        crate::checks::expect_right($rt, $($condition)*, stringify!($($condition)*))
    };
}

#[cfg(test)]
mod calling;
#[cfg(test)]
mod checks;
#[cfg(test)]
mod counter;
#[cfg(test)]
mod serving;
#[cfg(test)]
mod shelf;
