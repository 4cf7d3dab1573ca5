//! Recorded calls that are made again.

use crate::checks::{expect_status, expect_text};
use crate::frames::{ADD_FIVE, ANSWER, BOOTSTRAP, CELL_ANSWER, DESK_ANSWER, LATER, bytes_of};
use cli_connections::replay_streams;
use cp_commands::{CallPlan, ReplayPlan};
use cp_frame::Mode;
use cp_recordings::Recording;
use cp_schema::Notation;
use cp_words::Limits;
use std::alloc::AllocGlobal;
use std::process::Abort;

/// Calls the Desk, under questions 1 and 3, which answers at once.
const NOW: &str = "\
    000000000f0000000000000001000100020000000000000000000000030003000100000001000000\
    010000000000a1e50000000000000000080000000100010014000000000002000000000000000000\
    0000000001000000000000000100010000000000000000000000000000000000000000000000000000\
    00000000000000";

const NOW_AGAIN: &str = "\
    000000000f0000000000000001000100020000000000000000000000030003000300000001000000\
    010000000000a1e50000000000000000080000000100010014000000000002000000000000000000\
    0000000001000000000000000100010000000000000000000000000000000000000000000000000000\
    00000000000000";

/// Finishes question 1, and releases import 1.
const LEAVE: &str = "\
    00000000040000000000000001000100040000000000000000000000010000000100000001000000\
    00000000040000000000000001000100060000000000000000000000010000000100000001000000";

/// Calls import 1, a Cell, under question 2: its number.
const GET: &str = "\
    000000000d0000000000000001000100020000000000000000000000030003000200000001000000\
    020000000000a1e5000000000000000008000000010001000c000000000002000000000000000000\
    0100000000000000000000000000000000000000000000000000000000000000";

/// What a Desk sends: export 1 or 4, for a call under question 3, 1 or 2.
const DESK_THIRD: &str = "\
    000000000c0000000000000001000100030000000000000000000000020001000300000001000000\
    00000000000000000000000000000200040000000000010005000000170000000300000000000000\
    040000000100010001000000010000000000000000000000";

const DESK_OTHER: &str = "\
    000000000c0000000000000001000100030000000000000000000000020001000100000001000000\
    00000000000000000000000000000200040000000000010005000000170000000300000000000000\
    040000000100010001000000040000000000000000000000";

const DESK_SECOND: &str = "\
    000000000c0000000000000001000100030000000000000000000000020001000200000001000000\
    00000000000000000000000000000200040000000000010005000000170000000300000000000000\
    040000000100010001000000010000000000000000000000";

const DESK_OTHER_SECOND: &str = "\
    000000000c0000000000000001000100030000000000000000000000020001000200000001000000\
    00000000000000000000000000000200040000000000010005000000170000000300000000000000\
    040000000100010001000000040000000000000000000000";

const DESK_OTHER_THIRD: &str = "\
    000000000c0000000000000001000100030000000000000000000000020001000300000001000000\
    00000000000000000000000000000200040000000000010005000000170000000300000000000000\
    040000000100010001000000040000000000000000000000";

/// What a Cell sends for `ADD_FIVE` that had 1.
const CELL_OTHER: &str = "\
    00000000090000000000000001000100030000000000000000000000020001000200000001000000\
    00000000000000000000000000000200040000000100000000000000000000000600000000000000";

/// An exception in place of `DESK_ANSWER`.
const FAILED: &str = "\
    000000000a0000000000000001000100030000000000000000000000020001000100000001000100\
    000000000000000000000000010002000000000000000000050000001a0000000000000000000000\
    6e6f000000000000";

/// A recording.
#[derive(Clone, Copy)]
struct Recorded<'a> {
    times: &'a str,
    client: &'a [&'a str],
    server: &'a [&'a str],
}

/// A bootstrap, a call of it, and a call of what that will give.
const PIPELINED: Recorded<'static> = Recorded {
    times: "client plain server plain began 7\n> 10 328\n< 20 96\n< 30 280\nend 40\n",
    client: &[BOOTSTRAP, LATER, ADD_FIVE],
    server: &[ANSWER, DESK_ANSWER, CELL_ANSWER],
};

/// A call, whose result is let go, the same call again, whose result has the same number, and a call of that.
const LET_GO: Recorded<'static> = Recorded {
    times: "client plain server plain began 7\n> 10 176\n< 20 200\n> 30 256\n> 40 384\n< 50 304\n> 60 496\n< 70 384\nend 80\n",
    client: &[BOOTSTRAP, NOW, LEAVE, NOW_AGAIN, GET],
    server: &[ANSWER, DESK_ANSWER, DESK_THIRD, CELL_ANSWER],
};

/// The same call twice, which gives two objects.
const TWO: Recorded<'static> = Recorded {
    times: "client plain server plain began 7\n> 10 176\n< 20 200\n> 30 304\n< 40 304\nend 50\n",
    client: &[BOOTSTRAP, NOW, NOW_AGAIN],
    server: &[ANSWER, DESK_ANSWER, DESK_OTHER_THIRD],
};

/// Has the calls of a recording made again, to a server that says this: what is printed, why it stopped, and the status.
fn expect_replayed<R: Abort + AllocGlobal>(
    rt: &R,
    recorded: Recorded<'_>,
    comes: &[&str],
    wanted: (&str, &str, u8),
) {
    let alloc = rt.alloc();
    let client = bytes_of(rt, alloc, recorded.client);
    let server = bytes_of(rt, alloc, recorded.server);
    let comes = bytes_of(rt, alloc, comes);
    let (mut sent, mut out, mut err) = (Vec::new(alloc), Vec::new(alloc), Vec::new(alloc));
    let limits = Limits::standard();
    let plan = ReplayPlan {
        path: "seen/1",
        call: CallPlan {
            mode: Mode::Plain,
            limits,
            shows_messages: false,
            timeout: None,
            request: None,
            notation: Notation::Text,
            address: "",
            calls: &[],
        },
    };
    let (printed, said, status) = wanted;
    match Recording::new(alloc, limits, recorded.times, client.as_slice(), server.as_slice()) {
        Ok(mut recording) => {
            let ended = replay_streams(
                alloc,
                (comes.as_slice(), &mut sent),
                &plan,
                &mut recording,
                &mut out,
                &mut err,
            );
            drop(recording);
            expect_status(rt, ended, status);
        }
        Err(_) => check!(rt; false),
    }
    expect_said(rt, out, printed);
    expect_said(rt, err, said);
    drop(sent);
    drop(comes);
    drop(server);
    drop(client);
}

/// The bytes are the wanted text.
fn expect_said(rt: &impl Abort, bytes: Vec<u8>, wanted: &str) {
    let text = String::from_utf8(bytes).expect(rt, "UTF-8");
    expect_text(rt, text.as_str(), wanted);
    drop(text);
}

#[test]
fn what_comes_again_is_counted(rt: HostRuntime) {
    let comes = [ANSWER, DESK_ANSWER, CELL_ANSWER];
    expect_replayed(&rt, PIPELINED, &comes, ("calls 2, otherwise 0\n", "", 0));
    // Numbers of exports don't matter.
    let comes = [ANSWER, DESK_OTHER, CELL_ANSWER];
    expect_replayed(&rt, PIPELINED, &comes, ("calls 2, otherwise 0\n", "", 0));
}

#[test]
fn what_comes_otherwise_is_printed(rt: HostRuntime) {
    expect_replayed(
        &rt,
        PIPELINED,
        &[ANSWER, DESK_ANSWER, CELL_OTHER],
        (
            "- question:2 results {(0500000000000000;) caps[]}\n\
             + question:2 results {(0600000000000000;) caps[]}\n\
             calls 2, otherwise 1\n",
            "",
            1,
        ),
    );
}

// Question 3 of the recording is question 1 again here, as that is finished by then.
#[test]
fn what_is_let_go_comes_anew(rt: HostRuntime) {
    for again in [DESK_ANSWER, DESK_OTHER] {
        let comes = [ANSWER, DESK_ANSWER, again, CELL_ANSWER];
        expect_replayed(&rt, LET_GO, &comes, ("calls 3, otherwise 0\n", "", 0));
    }
}

#[test]
fn one_object_in_place_of_two_is_told(rt: HostRuntime) {
    let comes = [ANSWER, DESK_ANSWER, DESK_OTHER_SECOND];
    expect_replayed(&rt, TWO, &comes, ("calls 2, otherwise 0\n", "", 0));
    expect_replayed(
        &rt,
        TWO,
        &[ANSWER, DESK_ANSWER, DESK_SECOND],
        (
            "- question:3 results {(;cap:0) caps[question:3[0]]}\n\
             + question:3 results {(;cap:0) caps[question:1[0]]}\n\
             calls 2, otherwise 1\n",
            "",
            1,
        ),
    );
}

#[test]
fn what_a_result_lacks_is_not_called(rt: HostRuntime) {
    expect_replayed(
        &rt,
        LET_GO,
        &[ANSWER, DESK_ANSWER, FAILED],
        (
            "- question:3 results {(;cap:0) caps[question:3[0]]}\n\
             + question:3 exception failed \"no\"\n\
             - question:2 results {(0500000000000000;) caps[]}\n\
             + not made\n\
             calls 3, otherwise 2\n",
            "",
            1,
        ),
    );
}

#[test]
fn a_replay_may_end_early(rt: HostRuntime) {
    let comes = [ANSWER, DESK_ANSWER, CELL_ANSWER];
    expect_replayed(&rt, PIPELINED, &comes[..1], ("", "the peer's messages ended\n", 1));
    let lines = "client plain server plain began 7\n> 10 328\n< 20\n";
    let broken = Recorded {
        times: lines,
        ..PIPELINED
    };
    let said = "seen/1/times: line 3 isn't one of a recording\n";
    expect_replayed(&rt, broken, &comes, ("", said, 2));
    let short = Recorded {
        server: &[ANSWER],
        ..PIPELINED
    };
    let said = "server.bin has fewer bytes than times says\n";
    expect_replayed(&rt, short, &comes, ("", said, 1));
}
