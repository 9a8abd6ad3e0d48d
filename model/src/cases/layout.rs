//! K9, one memory for all: where processes lie, what CREATE and DESTROY do to the memory,
//! and what is refused.

use super::*;

/// Each byte of the memory differs from those around it, and none is 0.
fn lent_memory() -> Vec<u8> {
    (0..MEMORY).map(|at| 1 + (at % 251) as u8).collect()
}

/// Processes of these sizes, from number 0 on, each debugged by host 5.
fn all_debugged(sizes: &[u16]) -> Gateway {
    let mut eight = FULL;
    eight[..sizes.len()].copy_from_slice(sizes);
    let mut g = Gateway::with_sizes(((1u32 << sizes.len()) - 1) as u8, &eight);
    g.memory = lent_memory();
    for p in 0..sizes.len() {
        assert_eq!(g.ask(5, DEBUG, p as u8, 0, 0, &[]), 10);
    }
    g
}

fn create(g: &mut Gateway, size: u16) -> i64 {
    g.ask(5, CREATE_PROCESS, 0, size, 0, &[])
}

fn destroy(g: &mut Gateway, p: u8) {
    assert_eq!(g.ask(5, DESTROY_PROCESS, p, 0, 0, &[]), 10);
    assert_eq!(g.state.processes[usize::from(p)], CLEARED);
}

fn begins(g: &Gateway) -> [u16; PROCESSES] {
    g.state.processes.map(|process| process.begin)
}

/// What the debugging host sees of a whole process.
fn seen(g: &Gateway, p: u8) -> Vec<u8> {
    let mut copy = Gateway {
        state: g.state.clone(),
        memory: g.memory.clone(),
        output: vec![UNTOUCHED; LONGEST],
        line: vec![UNTOUCHED; LONGEST_LINE],
        ack: Vec::new(),
    };
    let Process { host, size, .. } = g.state.processes[usize::from(p)];
    let mut bytes = Vec::new();
    for first in (0..size).step_by(256) {
        let count = (size - first).min(256);
        assert_eq!(copy.ask(host, EXAMINE, p, first, count, &[]), 10 + i64::from(count));
        bytes.extend_from_slice(&copy.written(10 + usize::from(count))[10..]);
    }
    bytes
}

// ---------------------------------------------------------------- fresh start

#[test]
fn k9_a_fresh_start_lays_them_in_number_order() {
    let state = fresh_start(0b1010_1101, &[2, 9, 1536, 4094, 9, 4096, 9, 4], NO_DOOR).unwrap();
    let begins = state.processes.map(|process| process.begin);
    assert_eq!(begins, [0, 0, 2, 1538, 0, 5632, 0, 9728]);
    assert!(sound(&state));
    assert_eq!((used_bytes(&state), free_bytes(&state)), (9732, 6652));
    let bytes = encode(&state);
    assert_eq!(bytes[BEGINS_AT..DOOR_AT], [0, 0, 0, 0, 2, 0, 2, 6, 0, 0, 0, 22, 0, 0, 0, 38]);
}

#[test]
fn k9_a_fresh_start_of_16384_and_of_more() {
    assert!(fresh_start(255, &EIGHT, NO_DOOR).is_ok());
    assert!(fresh_start(0b1111, &FULL, NO_DOOR).is_ok());
    assert!(fresh_start(255, &[4096, 4096, 4096, 4088, 2, 2, 2, 2], NO_DOOR).is_ok());
    let over = [4096, 4096, 4096, 4090, 2, 2, 2, 2];
    assert_eq!(fresh_start(255, &over, NO_DOOR), Err(NOT_SOUND));
    assert_eq!(fresh_start(255, &FULL, NO_DOOR), Err(NOT_SOUND));
    assert_eq!(fresh_start(0b1_1111, &FULL, NO_DOOR), Err(NOT_SOUND));
    // Those that are not there take no bytes.
    assert!(fresh_start(0b0111_1111, &over, NO_DOOR).is_ok());
    let mut state = [9; STATE_BYTES];
    assert_eq!(fresh_start_bytes(255, &over, 255, &mut state), -2);
    assert_eq!(fresh_start_bytes(256 + 255, &over, 255, &mut state), -2);
    assert_eq!(fresh_start_bytes(255, &over, 255, &mut state[1..]), -1);
    assert_eq!(fresh_start_bytes(255, &over[1..], 255, &mut state), -1);
    assert_eq!(fresh_start_bytes(255, &over, 255, &mut [9; 696]), -1);
    assert_eq!(state, [9; STATE_BYTES]);
}

#[test]
fn k9_the_memory_has_16384_bytes() {
    let mut g = Gateway::debugged();
    let nop = message(5, NOP, 0, 0, 0, &[]);
    for length in [0, 4096, 16_383, 16_385, 32_768] {
        let mut memory = vec![0; length];
        assert_eq!(request(&mut g.state, &mut memory, &nop, &mut g.output), -1);
    }
    assert_eq!(g.send(&nop), 10);
}

// ---------------------------------------------------------------- CREATE

#[test]
fn k9_create_takes_its_size() {
    for (asked, size) in [(0, 4096), (2, 2), (4, 4), (1536, 1536), (4094, 4094), (4096, 4096)] {
        let mut g = all_debugged(&[1536]);
        let before = lent_memory();
        assert_eq!(create(&mut g, asked), 10);
        // "Reply: the request's CMD, PID, ARG1, ARG2": as it was asked.
        let [high, low] = asked.to_be_bytes();
        assert_eq!(g.written(10), [0, 5, 255, 0, 12, 1, high, low, 0, 0]);
        let begin = 1536;
        let created = Process { there: true, host: 5, run: Run::Stopped, size, begin, ..CLEARED };
        assert_eq!(g.state.processes[1], created);
        let end = 1536 + usize::from(size);
        assert!(g.memory[1536..end].iter().all(|&b| b == 0));
        assert_eq!(g.memory[..1536], before[..1536]);
        // "Bytes in the free end": as they were lent.
        assert_eq!(g.memory[end..], before[end..]);
        assert_eq!(g.ask(5, EXAMINE, 1, size - 2, 2, &[]), 12);
        assert_eq!(g.ask(5, EXAMINE, 1, size - 1, 2, &[]), -10);
    }
}

#[test]
fn k9_create_of_an_odd_or_greater_size() {
    // With room, without bytes, and with all numbers taken: 6 is the lower.
    for sizes in [&[2][..], &[4096; 4], &EIGHT] {
        let mut g = all_debugged(sizes);
        for size in [1, 3, 4095, 4097, 4098, 8192, 32_768, 65_534, 65_535] {
            assert_eq!(create(&mut g, size), -6);
            g.written(0);
        }
        assert_eq!(g.ask(5, CREATE_PROCESS, 0, 2, 2, &[]), -6);
        assert_eq!(g.ask(5, CREATE_PROCESS, 1, 2, 0, &[]), -6);
        assert_eq!(g.ask(5, CREATE_PROCESS, 0, 2, 0, &[1]), -6);
    }
}

#[test]
fn k9_13_by_number_and_by_bytes() {
    // Bytes are free, but no number is.
    let mut g = all_debugged(&[2; 8]);
    assert_eq!(create(&mut g, 2), -13);
    assert_eq!(g.written(10), [0, 5, 255, 0, 140, 0, 0, 2, 0, 0]);
    // A number is free, but too few bytes are.
    let mut g = all_debugged(&[4096, 4096, 4096, 4000]);
    assert_eq!(create(&mut g, 98), -13);
    assert_eq!(g.written(10), [0, 5, 255, 0, 140, 0, 0, 98, 0, 0]);
    assert_eq!(create(&mut g, 0), -13);
    assert_eq!(g.written(10), [0, 5, 255, 0, 140, 0, 0, 0, 0, 0]);
    let before = (g.state.clone(), g.memory.clone());
    assert_eq!(create(&mut g, 4096), -13);
    assert_eq!((&g.state, &g.memory), (&before.0, &before.1));
    // Just the free bytes.
    assert_eq!(create(&mut g, 96), 10);
    assert_eq!(free_bytes(&g.state), 0);
    assert_eq!(create(&mut g, 2), -13);
    // Neither.
    let mut g = all_debugged(&EIGHT);
    assert_eq!(create(&mut g, 2), -13);
}

// ---------------------------------------------------------------- DESTROY

/// Five processes of different sizes; 3 has a planted word, one that the machine has
/// stored over, and a lifted one, and so has 1.
fn with_breakpoints() -> Gateway {
    let mut g = all_debugged(&[100, 512, 2, 1536, 4096]);
    for p in [1, 3] {
        for address in [0, 18, 510] {
            assert_eq!(g.ask(5, BREAK, p, address, 7, &[]), 10);
        }
        let at = g.state.processes[usize::from(p)].place().start;
        g.memory[at + 18..at + 20].copy_from_slice(&[70, 71]);
        assert_eq!(g.report(p.into(), BPT, 0, 510), 0);
    }
    g
}

#[test]
fn k9_destroy_moves_those_above() {
    for gone in 0..5 {
        let mut g = with_breakpoints();
        let (before, memory) = (g.state.clone(), g.memory.clone());
        let views: Vec<_> = (0..5).map(|p| seen(&g, p)).collect();
        destroy(&mut g, gone);
        let size = before.processes[usize::from(gone)].size;
        for p in (0..5).filter(|&p| p != gone) {
            let (old, new) = (before.processes[usize::from(p)], g.state.processes[usize::from(p)]);
            let begin = if p > gone { old.begin - size } else { old.begin };
            assert_eq!(new, Process { begin, ..old });
            // The bytes stand as they were: planted, lifted and stored over.
            assert_eq!(g.memory[new.place()], memory[old.place()]);
            assert_eq!(seen(&g, p), views[usize::from(p)]);
        }
        let (end, old_end) = (used_bytes(&g.state), used_bytes(&before));
        assert_eq!(old_end - end, usize::from(size));
        assert!(g.memory[end..old_end].iter().all(|&b| b == 0));
        assert_eq!(g.memory[old_end..], memory[old_end..]);
    }
}

#[test]
fn k9_breakpoints_go_on_after_a_move() {
    let mut g = with_breakpoints();
    let views = seen(&g, 3);
    destroy(&mut g, 0);
    destroy(&mut g, 2);
    assert_eq!(begins(&g), [0, 0, 0, 512, 2048, 0, 0, 0]);
    let held = |g: &Gateway, address: usize| g.memory[512 + address..][..2].to_vec();
    let was = views[510..512].to_vec();
    assert_eq!(held(&g, 510), was);
    assert_eq!(g.ask(5, STOP, 3, 0, 0, &[]), 10);
    assert_eq!((held(&g, 0), held(&g, 18), held(&g, 510)), (vec![3, 0], vec![70, 71], vec![3, 0]));
    assert_eq!(g.ask(5, END_DEBUG, 3, 0, 0, &[]), 10);
    assert_eq!(g.memory[512..2048], views[..]);
}

#[test]
fn k9_created_again_out_of_number_order() {
    let mut g = all_debugged(&[4096, 100, 2048]);
    destroy(&mut g, 0);
    assert_eq!(begins(&g), [0, 0, 100, 0, 0, 0, 0, 0]);
    assert_eq!(create(&mut g, 4), 10);
    assert_eq!(g.written(10)[5], 0);
    assert_eq!(create(&mut g, 0), 10);
    assert_eq!(g.written(10)[5], 3);
    assert_eq!(begins(&g), [2148, 0, 100, 2152, 0, 0, 0, 0]);
    // 0 and 3 lie above 1 and 2, and 1 lies lowest.
    destroy(&mut g, 1);
    assert_eq!(begins(&g), [2048, 0, 0, 2052, 0, 0, 0, 0]);
    destroy(&mut g, 0);
    assert_eq!(begins(&g), [0, 0, 0, 2048, 0, 0, 0, 0]);
    destroy(&mut g, 2);
    assert_eq!(begins(&g), [0; 8]);
    assert_eq!(used_bytes(&g.state), 4096);
}

/// An absent record's begin stays what it is, unless DESTROY clears that record or
/// CREATE takes its number.
#[test]
fn k9_the_begin_of_an_absent_record() {
    let mut g = all_debugged(&[100, 200, 300]);
    for p in 3..8 {
        g.state.processes[p].begin = 65_535 - p as u16;
    }
    assert!(sound(&g.state));
    destroy(&mut g, 0);
    assert_eq!(begins(&g), [0, 0, 200, 65_532, 65_531, 65_530, 65_529, 65_528]);
    assert_eq!(create(&mut g, 2), 10);
    assert_eq!(create(&mut g, 4), 10);
    assert_eq!(begins(&g), [500, 0, 200, 502, 65_531, 65_530, 65_529, 65_528]);
}

/// The natural picture: processes are blocks in a row, DESTROY takes one out, CREATE puts
/// one of zeros at the end; in memory they lie one after another.
#[test]
fn k9_a_row_of_blocks() {
    let mut g = Gateway::with_sizes(0, &FULL);
    let mut row: Vec<(u8, Vec<u8>)> = Vec::new();
    let mut number = 1usize;
    for turn in 0..4000 {
        number = number.wrapping_mul(6_364_136_223_846_793_005).wrapping_add(1_442_695);
        let (choice, pick) = (number >> 33, number >> 40);
        let free = MEMORY - row.iter().map(|(_, block)| block.len()).sum::<usize>();
        assert_eq!(free_bytes(&g.state), free);
        if choice % 2 == 0 {
            let size = [2, 4094, 4096, 2048, free.min(4096), 2 + pick % 512 * 2][pick % 6].max(2);
            let answer = create(&mut g, size as u16);
            let number = (0..8).find(|p| row.iter().all(|(q, _)| p != q));
            match number.filter(|_| size <= free) {
                Some(p) => {
                    assert_eq!((answer, g.written(10)[5]), (10, p));
                    row.push((p, vec![0; size]));
                }
                None => assert_eq!(answer, -13),
            }
        } else if !row.is_empty() {
            let (p, _) = row.remove(pick % row.len());
            destroy(&mut g, p);
        }
        if let Some((p, block)) = row.last_mut() {
            // the machine stores within the process's own bytes
            let at = pick % block.len();
            block[at] = turn as u8;
            g.memory[g.state.processes[usize::from(*p)].place().start + at] = turn as u8;
        }
        let blocks: Vec<u8> = row.iter().flat_map(|(_, block)| block.clone()).collect();
        assert_eq!(g.memory[..blocks.len()], blocks);
        assert!(g.memory[blocks.len()..].iter().all(|&b| b == 0));
        assert!(sound(&g.state));
    }
}

// ---------------------------------------------------------------- soundness

#[test]
fn k9_sound_includes_the_layout() {
    let state = fresh_start(0b1011, &[100, 200, 9, 300, 9, 9, 9, 9], NO_DOOR).unwrap();
    let with = |begins: [u16; 3]| {
        let mut state = state.clone();
        for (p, begin) in [0, 1, 3].into_iter().zip(begins) {
            state.processes[p].begin = begin;
        }
        state
    };
    for right in [[0, 100, 300], [0, 400, 100], [200, 0, 300], [500, 0, 200], [300, 400, 0]] {
        assert!(sound(&with(right)), "{right:?}");
    }
    for wrong in [
        [2, 102, 302],
        [0, 100, 302],
        [0, 102, 302],
        [0, 98, 300],
        [0, 100, 298],
        [0, 0, 300],
        [0, 0, 0],
        [0, 100, 100],
        [100, 200, 400],
        [0, 100, 65_535],
    ] {
        let mut state = with(wrong);
        assert!(!sound(&state), "{wrong:?}");
        let nop = message(5, NOP, 0, 0, 0, &[]);
        let (mut memory, mut output) = (vec![0; MEMORY], vec![UNTOUCHED; LONGEST]);
        assert_eq!(request(&mut state, &mut memory, &nop, &mut output), -2);
    }
}

#[test]
fn k9_sound_up_to_the_end_of_memory() {
    let mut state = fresh_start(255, &EIGHT, NO_DOOR).unwrap();
    assert!(sound(&state));
    state.processes[7].size = 2050;
    assert!(!sound(&state));
    state.processes[7].size = 2046;
    assert!(sound(&state));
    // Without gaps, but past the end: four of 4,096 and one of 2.
    let mut state = fresh_start(0b1111, &FULL, NO_DOOR).unwrap();
    state.processes[4] = Process { there: true, size: 2, begin: 16_384, ..CLEARED };
    assert!(!sound(&state));
    state.processes[4].there = false;
    assert!(sound(&state));
}

// ---------------------------------------------------------------- the desk

#[test]
fn k9_the_desk_refuses_an_odd_or_greater_size() {
    let mut output = vec![UNTOUCHED; LONGEST];
    for (size, right) in [(0, true), (2, true), (1536, true), (4094, true), (4096, true)]
        .into_iter()
        .chain([1, 3, 4095, 4097, 4098, 8192, 65_534, 65_535].map(|size| (size, false)))
    {
        let written = write_request(5, CREATE_PROCESS.into(), 0, size.into(), 0, &[], &mut output);
        assert_eq!(written, if right { 10 } else { -6 });
        for (cmd, pid) in [(12, 7), (140, 0)] {
            let mut fields = [9; FIELDS];
            let read = read_answer(&message(5, cmd, pid, size, 0, &[]), &mut fields);
            assert_eq!(read, if right { 0 } else { -6 });
            let new = [5, cmd.into(), pid.into(), size, 0];
            assert_eq!(fields, if right { new } else { [9; FIELDS] });
        }
    }
    assert_eq!(write_request(5, 12, 0, 65_536, 0, &[], &mut output), -6);
    assert_eq!(write_request(5, 12, 0, 65_538, 0, &[], &mut output), -6);
    assert_eq!(write_request(5, 12, 0, 2, 2, &[], &mut output), -6);
}
