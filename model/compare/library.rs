//! The library's functions as include/palustrode.h declares them. The fuzzer and
//! the measurement use this too.

extern "C" {
    pub fn palustrode_fresh_start(
        there: u64,
        sizes: *const u16,
        sizes_len: usize,
        door: u64,
        state: *mut u8,
        state_len: usize,
    ) -> i64;
    pub fn palustrode_request(
        state: *mut u8,
        state_len: usize,
        memory: *mut u8,
        memory_len: usize,
        message: *const u8,
        message_len: usize,
        reply: *mut u8,
        reply_len: usize,
    ) -> i64;
    pub fn palustrode_report(
        state: *mut u8,
        state_len: usize,
        memory: *mut u8,
        memory_len: usize,
        process: u64,
        kind: u64,
        reason: u64,
        words: *const u8,
        words_len: usize,
        notice: *mut u8,
        notice_len: usize,
        line: *mut u8,
        line_len: usize,
    ) -> i64;
    pub fn palustrode_line(
        state: *mut u8,
        state_len: usize,
        memory: *mut u8,
        memory_len: usize,
        text: *const u8,
        text_len: usize,
        line: *mut u8,
        line_len: usize,
    ) -> i64;
    pub fn palustrode_packet(
        state: *mut u8,
        state_len: usize,
        memory: *mut u8,
        memory_len: usize,
        kind: u64,
        id: u64,
        words: *const u16,
        words_count: usize,
        ack: *mut u16,
        ack_count: usize,
    ) -> i64;
    pub fn palustrode_why(
        state: *const u8,
        state_len: usize,
        message: *const u8,
        message_len: usize,
        facts: *mut u64,
        facts_count: usize,
    ) -> i64;
    pub fn palustrode_tick(state: *mut u8, state_len: usize) -> i64;
    pub fn palustrode_write_request(
        host: u64,
        cmd: u64,
        pid: u64,
        arg1: u64,
        arg2: u64,
        string: *const u8,
        string_len: usize,
        request: *mut u8,
        request_len: usize,
    ) -> i64;
    pub fn palustrode_read_answer(
        message: *const u8,
        message_len: usize,
        fields: *mut u16,
        fields_count: usize,
    ) -> i64;
}
