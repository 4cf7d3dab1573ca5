//! `capnp_files`: the commands of `capnp_cli` on files alone. It stands on fewer crates, and so is compiled, and proved, sooner.
#![tactic(auto)]

use cli_words::{Acts, run};
use cp_commands::{BROKEN, Task, act_on_file, failed};
use std::process::ExitCode;

/// The commands on files.
struct Files;

impl Acts for Files {
    fn act(rt: &HostRuntime, task: &Task) -> u8 {
        if let Task::OnFile(task) = task {
            return act_on_file(rt, task);
        }
        let _ = eprintln!(rt; "error: not a command on a file: see capnp_cli help");
        BROKEN
    }
}

fn main(rt: HostRuntime) -> ExitCode {
    let status = run::<Files>(&rt).unwrap_or_else(|error| failed(&rt, "command line", error));
    ExitCode::from(status)
}
