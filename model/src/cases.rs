//! The paper's cases P1 to P12, its other cases and its list of easy errors. The desk's end,
//! and what the change requests add, have files of their own.

mod blocks;
mod desk;
mod doors;
mod gateway;
mod goes;
mod layout;
mod lines;
mod owed;
mod packets;
mod passing;
mod sizes;
mod status;
mod watching;
mod why;

use super::*;
use gateway::*;

#[test]
fn p1_nop_comes_back_the_same() {
    let mut g = Gateway::new(0);
    let nop = [0, 5, 255, 0, 0, 0, 0, 0, 0, 0];
    assert_eq!(g.send(&nop), 10);
    assert_eq!(g.written(10), nop);
}

#[test]
fn p2_p3_p4_debug() {
    let mut g = Gateway::new(1 << 2);
    let debug = [0, 5, 255, 0, 1, 2, 0, 0, 0, 0];
    assert_eq!(g.send(&debug), 10);
    assert_eq!(g.written(10), debug);
    assert_eq!(g.send(&[0, 6, 255, 0, 1, 2, 0, 0, 0, 0]), -8);
    assert_eq!(g.written(10), [0, 6, 255, 0, 129, 2, 0, 0, 0, 0]);
    assert_eq!(g.send(&debug), 10);
    assert_eq!(g.process().host, 5);
}

#[test]
fn p5_p6_examine_at_the_end_of_memory() {
    let mut g = Gateway::debugged();
    g.store(4094, [7, 8]);
    assert_eq!(g.ask(5, EXAMINE, 2, 4092, 4, &[]), 14);
    assert_eq!(g.written(14), [0, 5, 255, 0, 6, 2, 15, 252, 0, 4, 0, 0, 7, 8]);
    assert_eq!(g.ask(5, EXAMINE, 2, 4093, 4, &[]), -10);
    assert_eq!(g.written(10), [0, 5, 255, 0, 134, 2, 15, 253, 0, 4]);
    assert_eq!(g.ask(5, EXAMINE, 2, 4096, 0, &[]), 10);
    assert_eq!(g.written(10), [0, 5, 255, 0, 6, 2, 16, 0, 0, 0]);
}

#[test]
fn p7_p8_a_planted_word_is_not_seen() {
    let mut g = Gateway::debugged();
    g.store(256, [18, 52]);
    assert_eq!(g.ask(5, BREAK, 2, 256, 0, &[]), 10);
    assert_eq!(g.held(256), [3, 0]);
    assert_eq!(g.ask(5, EXAMINE, 2, 256, 2, &[]), 12);
    assert_eq!(g.written(12)[10..], [18, 52]);
    assert_eq!(g.ask(5, DEPOSIT, 2, 257, 1, &[99]), 10);
    assert_eq!(g.held(256), [3, 0]);
    assert_eq!(g.ask(5, UNBREAK, 2, 256, 0, &[]), 10);
    assert_eq!(g.held(256), [18, 99]);
    assert_eq!(g.process().breakpoints, [FREE; 8]);
}

#[test]
fn p9_a_ninth_address() {
    let mut g = Gateway::debugged();
    for i in 0..8 {
        assert_eq!(g.ask(5, BREAK, 2, 2 * i, 0, &[]), 10);
    }
    assert_eq!(g.ask(5, BREAK, 2, 16, 0, &[]), -11);
    assert_eq!(g.ask(5, BREAK, 2, 14, 9, &[]), 10);
    assert_eq!(g.process().breakpoints[7].remaining, 9);
}

/// K3: "Case P10 becomes BPT, TTRAP, BPT, TTRAP, BPT."
#[test]
fn p10_count_of_two() {
    let mut g = Gateway::debugged();
    g.store(256, [18, 52]);
    assert_eq!(g.ask(5, BREAK, 2, 256, 2, &[]), 10);
    for left in [1, 0] {
        assert_eq!(g.report(2, BPT, 0, 256), 0);
        g.written(0);
        assert_eq!(g.process().breakpoints[0].remaining, left);
        assert_eq!(g.process().run, Run::Passing);
        assert_eq!(g.held(256), [18, 52]);
        assert_eq!(g.report(2, TTRAP, 0, 258), 0);
        g.written(0);
        assert_eq!(g.process().run, Run::Running);
        assert_eq!(g.held(256), [3, 0]);
    }
    assert_eq!(g.report(2, BPT, 0, 256), 28);
    let notice = g.written(28);
    assert_eq!(notice[..10], [0, 5, 255, 0, 66, 2, 0, 0, 0, 0]);
    assert_eq!(notice[10..], [2, 1, 1, 0, 2, 0, 3, 0, 4, 0, 5, 0, 6, 0, 0, 1, 8, 0]);
    assert_eq!(g.process().run, Run::AtBreakpoint);
    assert_eq!(g.held(256), [3, 0]);
}

#[test]
fn p11_create() {
    for sizes in [EIGHT, FULL] {
        let mut g = Gateway::with_sizes(0b1011, &sizes);
        g.memory.fill(77);
        assert_eq!(g.ask(5, CREATE_PROCESS, 0, 0, 0, &[]), 10);
        assert_eq!(g.written(10), [0, 5, 255, 0, 12, 2, 0, 0, 0, 0]);
        // K9: "a new one last, zeroed to its size"
        let begin = 3 * sizes[0];
        let created = Process { there: true, host: 5, run: Run::Stopped, begin, ..CLEARED };
        assert_eq!(*g.process(), created);
        let new = usize::from(begin)..usize::from(begin) + 4096;
        assert!((0..MEMORY).all(|at| g.memory[at] == if new.contains(&at) { 0 } else { 77 }));
    }
    let mut g = Gateway::with_sizes(255, &EIGHT);
    assert_eq!(g.ask(5, CREATE_PROCESS, 0, 0, 0, &[]), -13);
    assert_eq!(g.written(10), [0, 5, 255, 0, 140, 0, 0, 0, 0, 0]);
}

#[test]
fn p12_vector_deposit() {
    let mut g = Gateway::debugged();
    assert_eq!(g.ask(5, DEPOSIT_STATE_VECTOR, 2, 16, 2, &[1, 2]), 10);
    assert_eq!(g.process().vector, [0, 0, 0, 0, 0, 0, 0, 0, 0x0201]);
    assert_eq!(g.ask(5, DEPOSIT_STATE_VECTOR, 2, 17, 2, &[1, 2]), -10);
    assert_eq!(g.written(10), [0, 5, 255, 0, 135, 2, 0, 17, 0, 2]);
    assert_eq!(g.ask(5, DEPOSIT_STATE_VECTOR, 2, 3, 1, &[9]), 10);
    assert_eq!(g.process().vector[1], 0x0900);
}

#[test]
fn stranger_with_a_bad_address() {
    let mut g = Gateway::debugged();
    for (cmd, string) in [(DEPOSIT, &[1u8, 2][..]), (EXAMINE, &[]), (BREAK, &[])] {
        assert_eq!(g.ask(6, cmd, 2, 65535, 2, string), -8);
    }
    assert_eq!(g.ask(6, UNBREAK, 2, 65535, 0, &[]), -8);
}

#[test]
fn examine_of_256_and_257() {
    let mut g = Gateway::debugged();
    assert_eq!(g.ask(5, EXAMINE, 2, 0, 256, &[]), 266);
    assert_eq!(g.ask(5, EXAMINE, 2, 0, 257, &[]), -10);
}

#[test]
fn sums_are_not_made_in_16_bits() {
    let mut g = Gateway::debugged();
    assert_eq!(g.ask(5, DEPOSIT, 2, 65535, 2, &[1, 2]), -10);
    assert_eq!(g.ask(5, EXAMINE, 2, 65535, 2, &[]), -10);
    assert_eq!(g.ask(5, DEPOSIT_STATE_VECTOR, 2, 65535, 2, &[1, 2]), -10);
}

#[test]
fn end_debug_leaves_no_bpt_in_memory() {
    let mut g = Gateway::debugged();
    g.store(0, [1, 2]);
    g.store(4094, [5, 6]);
    g.ask(5, BREAK, 2, 0, 0, &[]);
    g.ask(5, BREAK, 2, 4094, 3, &[]);
    g.ask(5, STOP, 2, 0, 0, &[]);
    assert_eq!(g.ask(5, END_DEBUG, 2, 0, 0, &[]), 10);
    assert_eq!((g.held(0), g.held(4094)), ([1, 2], [5, 6]));
    assert_eq!(*g.process(), Process { there: true, ..CLEARED });
}

/// An entry that is free and not all zero, as no call leaves one.
const OLD: Breakpoint =
    Breakpoint { lifted: true, setter: NOBODY, address: 7, remaining: 8, saved: [9, 10] };

#[test]
fn end_debug_and_create_leave_eight_entries_of_zeros() {
    let mut g = Gateway::debugged();
    g.ask(5, BREAK, 2, 0, 0, &[]);
    g.process().breakpoints[3] = OLD;
    assert_eq!(g.ask(5, END_DEBUG, 2, 0, 0, &[]), 10);
    assert_eq!(*g.process(), Process { there: true, ..CLEARED });
    g.state.processes[0] = Process { vector: [1; WORDS], breakpoints: [OLD; 8], ..CLEARED };
    assert_eq!(g.ask(5, CREATE_PROCESS, 0, 0, 0, &[]), 10);
    let created = Process { there: true, host: 5, run: Run::Stopped, begin: 4096, ..CLEARED };
    assert_eq!(g.state.processes[0], created);
}

#[test]
fn end_debug_leaves_ended_as_it_is() {
    let mut g = Gateway::debugged();
    assert_eq!(g.report(2, HALT, 0, 0), 28);
    assert_eq!(g.ask(5, END_DEBUG, 2, 0, 0, &[]), 10);
    assert_eq!(g.process().run, Run::Ended);
    assert_eq!(g.report(2, HALT, 0, 0), -9);
}

#[test]
fn create_hands_over_no_bytes_of_a_destroyed_process() {
    let mut g = Gateway::debugged();
    g.store(10, [1, 2]);
    g.ask(5, BREAK, 2, 10, 0, &[]);
    assert_eq!(g.ask(5, DESTROY_PROCESS, 2, 0, 0, &[]), 10);
    assert_eq!(*g.process(), CLEARED);
    assert!(g.memory.iter().all(|&b| b == 0));
    for p in 0..3 {
        g.memory[used_bytes(&g.state)..].fill(77);
        assert_eq!(g.ask(6, CREATE_PROCESS, 0, 0, 0, &[]), 10);
        assert_eq!(g.written(10)[5], p);
        assert!(g.memory[..used_bytes(&g.state)].iter().all(|&b| b == 0));
    }
}

#[test]
fn lifting_and_planting_again() {
    let mut g = Gateway::debugged();
    g.store(6, [1, 2]);
    g.ask(5, BREAK, 2, 6, 0, &[]);
    assert_eq!(g.report(2, BPT, 0, 6), 28);
    assert_eq!(g.ask(5, SINGLE_STEP, 2, 0, 0, &[]), 10);
    assert_eq!((g.held(6), g.process().run), ([1, 2], Run::Stepping));
    // A word stored while the breakpoint is lifted is the one saved next.
    g.store(6, [8, 9]);
    assert_eq!(g.report(2, TTRAP, 0, 8), 28);
    assert_eq!(g.held(6), [3, 0]);
    assert_eq!(g.process().breakpoints[0].saved, [8, 9]);
    assert_eq!(g.process().run, Run::Stopped);
    // Stepping from stopped lifts nothing.
    g.process().vector[PC] = 6;
    assert_eq!(g.ask(5, SINGLE_STEP, 2, 0, 0, &[]), 10);
    assert_eq!(g.held(6), [3, 0]);
    assert_eq!(g.report(2, BPT, 0, 6), 28);
    assert_eq!(g.ask(5, PROCEED_BPT, 2, 0, 0, &[]), 10);
    assert_eq!((g.held(6), g.process().run), ([8, 9], Run::Passing));
    assert_eq!(g.ask(5, STOP, 2, 0, 0, &[]), 10);
    assert_eq!((g.held(6), g.process().run), ([3, 0], Run::Stopped));
    assert_eq!(g.ask(5, PROCEED_BPT, 2, 0, 0, &[]), -9);
}

#[test]
fn a_store_into_a_planted_word_is_not_seen() {
    let mut g = Gateway::debugged();
    g.store(6, [1, 2]);
    g.ask(5, BREAK, 2, 6, 0, &[]);
    g.store(6, [70, 71]);
    assert_eq!(g.ask(5, EXAMINE, 2, 5, 2, &[]), 12);
    assert_eq!(g.written(12)[10..], [0, 1]);
    assert_eq!(g.ask(5, DEPOSIT, 2, 7, 1, &[4]), 10);
    assert_eq!(g.held(6), [70, 71]);
    assert_eq!(g.ask(5, UNBREAK, 2, 6, 0, &[]), 10);
    assert_eq!(g.held(6), [1, 4]);
}

#[test]
fn the_order_of_a_reports_tests() {
    let mut g = Gateway::new(1);
    assert_eq!(g.report(9, 4u8, 0, 0), -14);
    assert_eq!(g.report(9, HALT, 1, 0), -14);
    assert_eq!(g.report(9, TTRAP, 0, 0), -7);
    assert_eq!(g.report(1, TTRAP, 0, 0), -7);
    assert_eq!(g.report(0, TTRAP, 0, 0), -9);
    assert_eq!(g.report(0, TRAP, 4, 0), 0);
    assert_eq!(g.report(0, TRAP, 4, 0), -9);
    g.written(0);
}

#[test]
fn numbers_that_no_field_holds() {
    let mut g = Gateway::debugged();
    assert_eq!(g.report(258, 257u64, 0, 0), -14);
    assert_eq!(g.report(258, TRAP, 65_536, 0), -14);
    assert_eq!(g.report(258, HALT, 65_536, 0), -14);
    assert_eq!(g.report(258, HALT, 0, 0), -7);
    assert_eq!(g.report(1 << 32, HALT, 0, 0), -7);
    g.written(0);
    let mut state = [9; STATE_BYTES];
    assert_eq!(fresh_start_bytes(256, &FULL, 255, &mut state), -7);
    assert_eq!(fresh_start_bytes(1 << 63, &FULL, 255, &mut state), -7);
    assert_eq!(state, [9; STATE_BYTES]);
    assert_eq!(fresh_start_bytes(256, &FULL, 255, &mut state[1..]), -1);
    assert_eq!(fresh_start_bytes(255, &EIGHT, 255, &mut state), 0);
}

#[test]
fn a_trap_carries_its_reason() {
    let mut g = Gateway::debugged();
    assert_eq!(g.report(2, TRAP, 0x1234, 0), 28);
    assert_eq!(g.written(28)[..10], [0, 5, 255, 0, 64, 2, 0x12, 0x34, 0, 0]);
}

#[test]
fn the_order_of_a_requests_tests() {
    let mut g = Gateway::debugged();
    let Gateway { state, memory, output, .. } = &mut g;
    let unsound = {
        let mut state = state.clone();
        state.processes[0].host = 1;
        state
    };
    assert_eq!(request(&mut unsound.clone(), &mut memory[1..], &[], output), -1);
    assert_eq!(request(&mut unsound.clone(), memory, &[], &mut output[1..]), -1);
    assert_eq!(request(&mut unsound.clone(), memory, &[], output), -2);
    assert_eq!(g.send(&[0; 9]), -3);
    assert_eq!(g.send(&[0; 267]), -3);
    assert_eq!(g.send(&[0, 0, 255, 0, 17, 2, 0, 0, 0, 0]), -4);
    assert_eq!(g.send(&[0, 5, 255, 0, 17, 2, 0, 0, 0, 0, 0]), -5);
    assert_eq!(g.send(&[0, 5, 255, 0, 1, 9, 0, 0, 0, 1]), -6);
    assert_eq!(g.send(&[0, 5, 255, 0, 4, 9, 0, 0, 0, 1]), -6);
    g.written(0);
    assert_eq!(g.send(&[0, 5, 255, 0, 1, 9, 0, 0, 0, 0]), -7);
    assert_eq!(g.written(10), [0, 5, 255, 0, 129, 9, 0, 0, 0, 0]);
}

#[test]
fn sound_states() {
    let mut state = fresh_start(3, &FULL, NO_DOOR).unwrap();
    assert!(sound(&state));
    let entry = Breakpoint { setter: 9, address: 4094, ..FREE };
    state.processes[0].breakpoints[3] = entry;
    count_again(&mut state.processes[0]);
    assert!(!sound(&state), "a process with no host has none");
    state.processes[0].host = 9;
    assert!(sound(&state));
    let changed = |change: fn(&mut Process)| {
        let mut state = state.clone();
        change(&mut state.processes[0]);
        count_again(&mut state.processes[0]);
        sound(&state)
    };
    assert!(!changed(|p| p.there = false));
    assert!(!changed(|p| p.breakpoints[3].address = 4095));
    assert!(!changed(|p| p.breakpoints[3].address = 4096));
    assert!(!changed(|p| p.breakpoints[6] = p.breakpoints[3]));
    assert!(!changed(|p| {
        p.run = Run::Stepping;
        p.breakpoints[3].lifted = true;
        p.breakpoints[0] = Breakpoint { address: 2, ..p.breakpoints[3] };
    }));
    // A free entry's other fields play no part.
    assert!(changed(|p| {
        p.run = Run::Stopped;
        p.breakpoints[0] = Breakpoint { setter: NOBODY, lifted: true, ..p.breakpoints[3] };
        p.breakpoints[1] = Breakpoint { address: 4099, ..p.breakpoints[0] };
    }));
}

#[test]
fn the_byte_form() {
    let mut bytes = [9; STATE_BYTES];
    assert_eq!((STATE_BYTES, RECORD_BYTES, BEGINS_AT), (785, 96, 768));
    assert_eq!(fresh_start_bytes(0b100, &[FEED; PROCESSES], 255, &mut bytes), 0);
    assert_eq!(bytes[BEGINS_AT..DOOR_AT], [0; 16]);
    assert_eq!((DOOR_AT, bytes[DOOR_AT]), (784, 255));
    for (p, record) in bytes[..BEGINS_AT].chunks_exact(RECORD_BYTES).enumerate() {
        let head = if p == 2 { [1, 0, 0, 0, 6] } else { [0, 0, 0, 0, 16] };
        assert_eq!(record[..5], head);
        assert!(record[5..].iter().all(|&b| b == 0));
    }
    assert_eq!(fresh_start_bytes(0, &FULL, 255, &mut bytes[1..]), -1);
    let mut memory = vec![0; MEMORY];
    let (mut output, mut line) = (vec![0; LONGEST], vec![0; LONGEST_LINE]);
    memory[256..][..2].copy_from_slice(&[18, 52]);
    for m in [message(5, DEBUG, 2, 0, 0, &[]), message(5, BREAK, 2, 256, 515, &[])] {
        assert_eq!(request_bytes(&mut bytes, &mut memory, &m, &mut output), 10);
    }
    assert_eq!(bytes[192..200], [1, 5, 0, 0, 6, 1, 0, 0]);
    assert_eq!(bytes[224..232], [0, 5, 0, 1, 3, 2, 18, 52]);
    let words = vector_bytes(&words_with(256));
    let (b, m, o, l) = (&mut bytes, &mut memory, &mut output, &mut line);
    assert_eq!(report_bytes(b, m, 2, BPT.into(), 0, &words[1..], o, l), -1);
    assert_eq!(report_bytes(b, m, 2, BPT.into(), 0, &words, o, &mut l[1..]), -1);
    assert_eq!(report_bytes(b, m, 2, BPT.into(), 0, &words, o, l), 0);
    assert_eq!(b[192..200], [1, 5, 5, 0, 6, 1, 0, 0]);
    assert_eq!(b[206..224], words);
    assert_eq!(b[224..232], [1, 5, 0, 1, 2, 2, 18, 52]);
    assert_eq!(encode(&decode(b).unwrap()), *b);
    for (at, byte) in
        [(0, 2), (192, 255), (2, 6), (198, 3), (8, 2), (200, 255), (224, 2), (232, 255), (760, 2)]
    {
        let mut damaged = *b;
        damaged[at] = byte;
        assert_eq!(decode(&damaged), None);
        let before = damaged;
        assert_eq!(request_bytes(&mut damaged, m, &[], o), -2);
        assert_eq!(report_bytes(&mut damaged, m, 2, 9, 0, &words, o, l), -2);
        assert_eq!(line_bytes(&mut damaged, m, &[], l), -2);
        assert_eq!(line_bytes(&mut damaged, m, &[], &mut l[1..]), -1);
        assert_eq!(request_bytes(&mut damaged, &mut [], &[], o), -1);
        assert_eq!(damaged, before);
    }
    assert_eq!(decode(&b[1..]), None);
    assert_eq!(request_bytes(&mut b[1..], m, &[], o), -2);
}

/// The input of the paper's bench program, whose whole output is
/// `0 00 05 ff ..`, `8 00 06 ff 00 81 ..`, `3 -`.
#[test]
fn the_bench_programs_input() {
    let mut g = Gateway::new(1 << 2);
    assert_eq!(g.send(&[0, 5, 255, 0, 1, 2, 0, 0, 0, 0]), 10);
    assert_eq!(g.written(10), [0, 5, 255, 0, 1, 2, 0, 0, 0, 0]);
    assert_eq!(g.send(&[0, 6, 255, 0, 1, 2, 0, 0, 0, 0]), -8);
    assert_eq!(g.written(10), [0, 6, 255, 0, 0x81, 2, 0, 0, 0, 0]);
    assert_eq!(g.send(&[0, 6, 255]), -3);
    g.written(0);
}
