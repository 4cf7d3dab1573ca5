//! Numbers that commands write into files.

use crate::checks::expect_text;
use cp_commands::{FiguresFile, count, push_counts, push_figure};
use std::alloc::{AllocError, AllocGlobal, Global};
use std::fs;
use std::process::Abort;

/// A gauge and a counter, as text.
fn text_of(alloc: Global, calls: &[(&'static str, u64)]) -> Result<String, AllocError> {
    let mut text = String::new(alloc);
    push_figure(&mut text, "gauge", "open", 3)?;
    push_counts(&mut text, "calls_total", "method", calls)?;
    Ok(text)
}

/// What was said is this text.
fn expect_said(rt: &impl Abort, said: Vec<u8>, wanted: &str) {
    let text = String::from_utf8(said).expect(rt, "UTF-8");
    expect_text(rt, text.as_str(), wanted);
    drop(text);
}

#[test]
fn numbers_take_the_place_of_the_last_ones(rt: HostRuntime) {
    let alloc = rt.alloc();
    let mut err = Vec::new(alloc);
    let mut calls = [("get", 0), ("other", u64::MAX)];
    let mut file = FiguresFile::new("figures");
    file.write(&rt, text_of(alloc, &calls), &mut err);
    for name in ["get", "other", "get", "put"] {
        count(&mut calls, name);
    }
    file.write(&rt, text_of(alloc, &calls), &mut err);
    let text = fs::read_to_string(&rt, "figures").expect(&rt, "what was written");
    expect_text(
        &rt,
        text.as_str(),
        "# TYPE open gauge\n\
         open 3\n\
         # TYPE calls_total counter\n\
         calls_total{method=\"get\"} 2\n\
         calls_total{method=\"other\"} 18446744073709551615\n",
    );
    drop(text);
    expect_said(&rt, err, "");
}

#[test]
fn a_file_that_fails_is_told_once(rt: HostRuntime) {
    let alloc = rt.alloc();
    let mut err = Vec::new(alloc);
    let mut file = FiguresFile::new("none/figures");
    for _ in 0..2 {
        file.write(&rt, text_of(alloc, &[]), &mut err);
    }
    let said = "device: none/figures: No such file or directory (os error 2)\n";
    expect_said(&rt, err, said);
    // It is told anew once a writing went well.
    let mut err = Vec::new(alloc);
    check!(&rt; fs::create_dir(&rt, "none").is_ok());
    file.write(&rt, text_of(alloc, &[]), &mut err);
    check!(&rt; fs::remove_file(&rt, "none/figures").is_ok());
    check!(&rt; fs::remove_dir(&rt, "none").is_ok());
    file.write(&rt, text_of(alloc, &[]), &mut err);
    expect_said(&rt, err, said);
}
