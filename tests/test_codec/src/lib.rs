//! Tests of the codec, over its libraries: cp_words, cp_tree, cp_reading, cp_writing, cp_canonical, cp_packed, cp_frame, cp_fields, cp_builder, cp_rpc,
//! cp_stream and cp_relay, and of cp_tables, cp_refs and cp_vat_machine. They are one crate, since what std and these libraries say is read anew for each. What holds a message, a
//! tree or a reader lets it go by `drop`: where one goes at the end of its scope, each function proves anew what that does.
#![tactic(auto)]

/// Ends the test unless the condition holds, with the condition's text.
#[cfg(test)]
macro_rules! check {
    ($rt:expr; $($condition:tt)*) => {
        crate::checks::expect_right($rt, $($condition)*, stringify!($($condition)*))
    };
}

#[cfg(test)]
mod canonical;
#[cfg(test)]
mod checks;
#[cfg(test)]
mod connections;
#[cfg(test)]
mod copies;
#[cfg(test)]
mod decoded;
#[cfg(test)]
mod drafts;
#[cfg(test)]
mod editions;
#[cfg(test)]
mod faults;
#[cfg(test)]
mod field_samples;
#[cfg(test)]
mod fields;
#[cfg(test)]
mod frame_samples;
#[cfg(test)]
mod frames;
#[cfg(test)]
mod full;
#[cfg(test)]
mod groups;
#[cfg(test)]
mod handles;
#[cfg(test)]
mod lists;
#[cfg(test)]
mod look;
#[cfg(test)]
mod message_samples;
#[cfg(test)]
mod messages;
#[cfg(test)]
mod outcomes;
#[cfg(test)]
mod packed;
#[cfg(test)]
mod parts;
#[cfg(test)]
mod relays;
#[cfg(test)]
mod samples;
#[cfg(test)]
mod streams;
#[cfg(test)]
mod tables;
#[cfg(test)]
mod trees;
#[cfg(test)]
mod trees_written;
#[cfg(test)]
mod wholes;
#[cfg(test)]
mod words;
