//! Tests of what the plugin made of workshop.capnp: lists by their builders, and tables of capabilities.
#![tactic(auto)]

/// Ends the test unless the condition holds, with the condition's text.
#[cfg(test)]
macro_rules! check {
    ($rt:expr; $($condition:tt)*) => {
        crate::checks::expect_right($rt, $($condition)*, stringify!($($condition)*))
    };
}

#[cfg(test)]
mod checks;
#[cfg(test)]
mod lists;
#[cfg(test)]
mod naming;
