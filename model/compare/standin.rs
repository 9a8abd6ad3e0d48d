//! A stand-in for the library: the same functions of the C interface, answered by
//! the model, with an error of `wrong.rs` or with none.
//!
//! Callers lend pointers to as many elements as the length beside them says.

use crate::made::Made;
use crate::wrong::answer;
use std::slice::{from_raw_parts, from_raw_parts_mut};

#[no_mangle]
pub unsafe extern "C" fn palustrode_fresh_start(
    there: u64,
    sizes: *const u16,
    sizes_len: usize,
    door: u64,
    state: *mut u8,
    state_len: usize,
) -> i64 {
    answer(Made::Start {
        there,
        door,
        sizes: from_raw_parts(sizes, sizes_len),
        state: from_raw_parts_mut(state, state_len),
    })
}

#[no_mangle]
pub unsafe extern "C" fn palustrode_request(
    state: *mut u8,
    state_len: usize,
    memory: *mut u8,
    memory_len: usize,
    message: *const u8,
    message_len: usize,
    reply: *mut u8,
    reply_len: usize,
) -> i64 {
    answer(Made::Request {
        state: from_raw_parts_mut(state, state_len),
        memory: from_raw_parts_mut(memory, memory_len),
        message: from_raw_parts(message, message_len),
        reply: from_raw_parts_mut(reply, reply_len),
    })
}

#[no_mangle]
pub unsafe extern "C" fn palustrode_report(
    state: *mut u8,
    state_len: usize,
    memory: *mut u8,
    memory_len: usize,
    process: u64,
    kind: u64,
    reason: u64,
    words: *const u8,
    words_len: usize,
    notice: *mut u8,
    notice_len: usize,
    line: *mut u8,
    line_len: usize,
) -> i64 {
    answer(Made::Report {
        state: from_raw_parts_mut(state, state_len),
        memory: from_raw_parts_mut(memory, memory_len),
        numbers: [process, kind, reason],
        words: from_raw_parts(words, words_len),
        notice: from_raw_parts_mut(notice, notice_len),
        line: from_raw_parts_mut(line, line_len),
    })
}

#[no_mangle]
pub unsafe extern "C" fn palustrode_line(
    state: *mut u8,
    state_len: usize,
    memory: *mut u8,
    memory_len: usize,
    text: *const u8,
    text_len: usize,
    line: *mut u8,
    line_len: usize,
) -> i64 {
    answer(Made::Line {
        state: from_raw_parts_mut(state, state_len),
        memory: from_raw_parts_mut(memory, memory_len),
        text: from_raw_parts(text, text_len),
        line: from_raw_parts_mut(line, line_len),
    })
}

#[no_mangle]
pub unsafe extern "C" fn palustrode_packet(
    state: *mut u8,
    state_len: usize,
    memory: *mut u8,
    memory_len: usize,
    kind: u64,
    id: u64,
    words: *const u16,
    words_count: usize,
    ack: *mut u16,
    ack_count: usize,
) -> i64 {
    answer(Made::Packet {
        state: from_raw_parts_mut(state, state_len),
        memory: from_raw_parts_mut(memory, memory_len),
        kind,
        id,
        words: from_raw_parts(words, words_count),
        ack: from_raw_parts_mut(ack, ack_count),
    })
}

/// State and message are lent to be read; a wrong library writes into them all the same.
#[no_mangle]
pub unsafe extern "C" fn palustrode_why(
    state: *const u8,
    state_len: usize,
    message: *const u8,
    message_len: usize,
    facts: *mut u64,
    facts_count: usize,
) -> i64 {
    answer(Made::Why {
        state: from_raw_parts_mut(state.cast_mut(), state_len),
        message: from_raw_parts_mut(message.cast_mut(), message_len),
        facts: from_raw_parts_mut(facts, facts_count),
    })
}

#[no_mangle]
pub unsafe extern "C" fn palustrode_tick(state: *mut u8, state_len: usize) -> i64 {
    answer(Made::Tick { state: from_raw_parts_mut(state, state_len) })
}

#[no_mangle]
pub unsafe extern "C" fn palustrode_write_request(
    host: u64,
    cmd: u64,
    pid: u64,
    arg1: u64,
    arg2: u64,
    string: *const u8,
    string_len: usize,
    request: *mut u8,
    request_len: usize,
) -> i64 {
    answer(Made::Write {
        fields: [host, cmd, pid, arg1, arg2],
        string: from_raw_parts(string, string_len),
        request: from_raw_parts_mut(request, request_len),
    })
}

#[no_mangle]
pub unsafe extern "C" fn palustrode_read_answer(
    message: *const u8,
    message_len: usize,
    fields: *mut u16,
    fields_count: usize,
) -> i64 {
    answer(Made::Read {
        message: from_raw_parts(message, message_len),
        fields: from_raw_parts_mut(fields, fields_count),
    })
}
