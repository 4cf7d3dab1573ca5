//! Recordings: what is written of what went through, up to a bound or to a full disk, and pictures. What is told of recordings is in the
//! rows of test_interop.

use crate::checks::expect_text;
use crate::devices::{Device, Fails};
use crate::frames::{ADD_FIVE, BOOTSTRAP, bytes_of};
use cp_frame::Mode;
use cp_recordings::{Picture, RecordFault, Recorder, Recording, Side, TimesLine};
use cp_words::Limits;
use std::alloc::Global;
use std::io::Write;
use std::process::Abort;

/// The three files of a recording.
#[derive(Drop)]
struct RecordedFiles {
    client: Vec<u8>,
    server: Vec<u8>,
    times: Vec<u8>,
}

impl RecordedFiles {
    fn new(alloc: Global) -> RecordedFiles {
        RecordedFiles {
            client: Vec::new(alloc),
            server: Vec::new(alloc),
            times: Vec::new(alloc),
        }
    }
}

/// Records two bytes of the client, three of the server and one of the client, and the end.
fn record_six<W: Write + Drop>(
    recorder: &mut Recorder<W>,
    left: &mut u64,
) -> Result<(), RecordFault> {
    let (client, server) = (Mode::Plain, Mode::Packed);
    recorder.note(left, TimesLine::Began {
        client,
        server,
        at: 7,
    })?;
    recorder.record(left, Side::Client, 10, &[1, 2])?;
    recorder.record(left, Side::Server, 20, &[3, 4, 5])?;
    recorder.record(left, Side::Client, 30, &[6])?;
    recorder.note(left, TimesLine::Ended { time: 40 })
}

/// The times of it: 36 + 7 + 7 + 7 + 7 bytes.
const TIMES: &str = "client plain server packed began 7\n> 10 2\n< 20 3\n> 30 3\nend 40\n";

/// The bytes are this text.
fn expect_times(rt: &impl Abort, bytes: &[u8], wanted: &str) {
    check!(rt; bytes == wanted.as_bytes());
}

#[test]
fn what_went_through_is_recorded(rt: HostRuntime) {
    let alloc = rt.alloc();
    let mut files = RecordedFiles::new(alloc);
    let mut left = 1_000;
    let mut recorder = Recorder::new(
        alloc,
        &mut files.client,
        &mut files.server,
        &mut files.times,
    );
    check!(&rt; record_six(&mut recorder, &mut left).is_ok());
    drop(recorder);
    check!(&rt; files.client.as_slice() == [1, 2, 6].as_slice());
    check!(&rt; files.server.as_slice() == [3, 4, 5].as_slice());
    expect_times(&rt, &files.times, TIMES);
    check!(&rt; left == 1_000 - 6 - TIMES.len() as u64);
    drop(files);
}

// 54 bytes are enough for the first line and the first two frames.
#[test]
fn a_recording_has_a_bound(rt: HostRuntime) {
    let alloc = rt.alloc();
    let mut files = RecordedFiles::new(alloc);
    let mut left = 54;
    let mut recorder = Recorder::new(
        alloc,
        &mut files.client,
        &mut files.server,
        &mut files.times,
    );
    let recorded = record_six(&mut recorder, &mut left);
    check!(&rt; matches!(recorded, Err(RecordFault::Bound)));
    drop(recorder);
    check!(&rt; files.client.as_slice() == [1, 2].as_slice());
    check!(&rt; files.server.as_slice() == [3, 4, 5].as_slice());
    expect_times(&rt, &files.times, "client plain server packed began 7\n> 10 2\n< 20 3\n");
    check!(&rt; left == 0);
    drop(files);
}

/// Records to files whose server's takes a byte, and then fails. What had come before is there, and a line comes only after its bytes.
fn expect_cut(rt: &impl Abort, alloc: Global, fails: Fails) {
    let mut files = RecordedFiles::new(alloc);
    let mut left = 1_000;
    let mut recorder = Recorder::new(
        alloc,
        Device::new(&mut files.client, Fails::Never, 1),
        Device::new(&mut files.server, fails, 1),
        Device::new(&mut files.times, Fails::InterruptedButEachThird, 5),
    );
    let recorded = record_six(&mut recorder, &mut left);
    check!(rt; matches!(recorded, Err(RecordFault::Device(_))));
    drop(recorder);
    check!(rt; files.client.as_slice() == [1, 2].as_slice());
    check!(rt; files.server.as_slice() == [3].as_slice());
    expect_times(rt, &files.times, "client plain server packed began 7\n> 10 2\n");
    drop(files);
}

#[test]
fn a_disk_may_be_full(rt: HostRuntime) {
    expect_cut(&rt, rt.alloc(), Fails::At(2));
    expect_cut(&rt, rt.alloc(), Fails::TakesNone(2));
}

#[test]
fn times_have_lines(rt: HostRuntime) {
    let alloc = rt.alloc();
    for line in TIMES.lines() {
        let read = TimesLine::read(line);
        check!(&rt; read.is_some());
        let Some(read) = read else {
            return;
        };
        let text = format!(in alloc; "{read}").expect(&rt, "memory");
        expect_text(&rt, text.as_str(), line);
        drop(text);
    }
    for line in ["", ">", "> 1", "> 1 2 3", "> 1 x", "> -1 2", "= 1 2", "end", "client plain"] {
        check!(&rt; TimesLine::read(line).is_none());
    }
}

/// The times of a bootstrap and a call of it, which are never answered.
const ASKED: &str = "client plain server plain began 7\n> 10 48\n> 2500 200\nend 3000\n";

#[test]
fn a_recording_has_a_picture(rt: HostRuntime) {
    let alloc = rt.alloc();
    let bytes = bytes_of(&rt, alloc, &[BOOTSTRAP, ADD_FIVE]);
    check!(&rt; bytes.len() == 200);
    let mut out = Vec::new(alloc);
    let (client, server) = bytes.split_at(bytes.len());
    match Recording::new(alloc, Limits::standard(), ASKED, client, server) {
        Ok(mut recording) => {
            let mut picture = Picture::new(alloc, None, 100);
            let ending = recording.play(&mut picture);
            let drawn = match ending {
                Ok(ending) => picture.write(ending, &mut out),
                Err(fault) => Err(fault),
            };
            check!(&rt; drawn.is_ok());
            drop(picture);
            drop(recording);
        }
        Err(_) => check!(&rt; false),
    }
    let text = String::from_utf8(out).expect(&rt, "UTF-8");
    check!(&rt; text.as_str().starts_with("<svg "));
    check!(&rt; text.as_str().ends_with("<text x=\"60\" y=\"168\">open &gt; q=2 for=0.500</text>\n</svg>\n"));
    check!(&rt; text.as_str().contains(">2.500</text><path class=\"call\" d=\"M180,96 H620 m-8,-4 l8,4 l-8,4\"/>"));
    drop(text);
    drop(bytes);
}
