//! Names each call, so that it is compiled.

use crate::codec::{jd_check, jd_pack, jd_unpack};
use crate::connection::{
    jd_connection_answer, jd_connection_bootstrap, jd_connection_call, jd_connection_cap,
    jd_connection_close, jd_connection_content, jd_connection_end, jd_connection_fail,
    jd_connection_fault, jd_connection_finish, jd_connection_forget, jd_connection_next,
    jd_connection_open, jd_connection_outgoing, jd_connection_promise, jd_connection_reason,
    jd_connection_receive, jd_connection_release, jd_connection_resolve, jd_connection_uses,
    jd_connection_wrote,
};
use crate::reader::{
    jd_reader_canonical, jd_reader_check, jd_reader_check_canonical, jd_reader_close, jd_reader_copy, jd_reader_end, jd_reader_message,
    jd_reader_needs, jd_reader_next, jd_reader_open, jd_reader_recut, jd_reader_write,
};
use crate::relay::{jd_relay_close, jd_relay_end, jd_relay_feed, jd_relay_open};
use crate::text::jd_text;

/// Is never called: of a program only those functions are compiled that it may call, and those that C alone calls aren't among them.
pub(crate) fn name_all() {
    let _ = jd_pack(none(), none(), none(), none());
    let _ = jd_unpack(none(), none(), none(), none());
    let _ = jd_check(none(), none(), none(), none(), none(), none(), none());
    let _ = jd_connection_open(none(), none(), none(), none(), none(), none());
    let _ = jd_connection_receive(none(), none(), none(), none());
    let _ = jd_connection_end(none(), none());
    let _ = jd_connection_outgoing(none(), none(), none());
    let _ = jd_connection_wrote(none(), none(), none());
    let _ = jd_connection_next(none(), none(), none());
    let _ = jd_connection_content(none(), none(), none());
    let _ = jd_connection_bootstrap(none(), none(), none());
    let _ = jd_connection_call(none(), none(), none(), none(), none(), none(), none());
    let _ = jd_connection_answer(none(), none(), none(), none(), none());
    let _ = jd_connection_fail(none(), none(), none(), none(), none());
    let _ = jd_connection_finish(none(), none(), none());
    let _ = jd_connection_release(none(), none(), none());
    let _ = jd_connection_resolve(none(), none(), none(), none());
    let _ = jd_connection_forget(none(), none(), none());
    let _ = jd_connection_promise(none(), none(), none());
    let _ = jd_connection_uses(none(), none(), none(), none());
    let _ = jd_connection_cap(none(), none(), none(), none());
    let _ = jd_connection_reason(none(), none(), none());
    let _ = jd_connection_fault(none(), none(), none(), none());
    jd_connection_close(none(), none());
    let _ = jd_reader_open(none(), none(), none(), none());
    let _ = jd_reader_next(none(), none(), none(), none());
    let _ = jd_reader_end(none(), none());
    let _ = jd_reader_needs(none(), none());
    let _ = jd_reader_message(none(), none(), none(), none());
    let _ = jd_reader_check(none(), none(), none());
    let _ = jd_reader_write(none(), none(), none(), none());
    let _ = jd_reader_recut(none(), none(), none(), none(), none(), none());
    let _ = jd_reader_canonical(none(), none(), none(), none(), none());
    let _ = jd_reader_check_canonical(none(), none(), none());
    let _ = jd_reader_copy(none(), none(), none(), none());
    jd_reader_close(none(), none());
    let _ = jd_relay_open(none(), none(), none(), none(), none(), none(), none());
    let _ = jd_relay_feed(none(), none(), none(), none(), none(), none());
    let _ = jd_relay_end(none(), none(), none(), none());
    jd_relay_close(none(), none());
    let _ = jd_text(none(), none(), none(), none());
}

/// A value that nobody asks for.
fn none<T>() -> T {
    unreachable!()
}
