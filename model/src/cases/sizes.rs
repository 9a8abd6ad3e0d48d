//! The edges of the sizes that K2 gives to processes.

use super::*;

#[test]
fn k2_examine_and_deposit_end_at_the_size() {
    let mut g = Gateway::feed();
    g.store(1534, [7, 8]);
    assert_eq!(g.ask(5, EXAMINE, 2, 1532, 4, &[]), 14);
    assert_eq!(g.written(14), [0, 5, 255, 0, 6, 2, 5, 252, 0, 4, 77, 77, 7, 8]);
    assert_eq!(g.ask(5, EXAMINE, 2, 1533, 4, &[]), -10);
    assert_eq!(g.written(10), [0, 5, 255, 0, 134, 2, 5, 253, 0, 4]);
    assert_eq!(g.ask(5, EXAMINE, 2, 1536, 0, &[]), 10);
    assert_eq!(g.ask(5, EXAMINE, 2, 1537, 0, &[]), -10);
    assert_eq!(g.ask(5, EXAMINE, 2, 1536, 1, &[]), -10);
    assert_eq!(g.ask(5, EXAMINE, 2, 1280, 256, &[]), 266);
    assert_eq!(g.ask(5, EXAMINE, 2, 1281, 256, &[]), -10);
    assert_eq!(g.ask(5, EXAMINE, 2, 0, 257, &[]), -10);
    assert_eq!(g.ask(5, DEPOSIT, 2, 1535, 1, &[9]), 10);
    assert_eq!(g.ask(5, DEPOSIT, 2, 1535, 2, &[9, 9]), -10);
    assert_eq!(g.ask(5, DEPOSIT, 2, 1536, 0, &[]), 10);
    assert_eq!(g.ask(5, DEPOSIT, 2, 1536, 1, &[9]), -10);
    assert_eq!(g.ask(5, DEPOSIT, 2, 65535, 2, &[9, 9]), -10);
    assert_eq!((g.held(1534), g.held(1536)), ([7, 9], [77, 77]));
    assert_eq!(g.ask(6, EXAMINE, 2, 1536, 1, &[]), -8);
}

#[test]
fn k2_break_at_most_size_less_2() {
    let mut g = Gateway::feed();
    assert_eq!(g.ask(5, BREAK, 2, 1533, 0, &[]), -10);
    assert_eq!(g.ask(5, BREAK, 2, 1534, 0, &[]), 10);
    assert_eq!(g.held(1534), [3, 0]);
    for address in [1535, 1536, 1538, 4094, 65534] {
        assert_eq!(g.ask(5, BREAK, 2, address, 0, &[]), -10);
        assert_eq!(g.ask(5, UNBREAK, 2, address, 0, &[]), -12);
    }
    assert_eq!(g.held(1536), [77, 77]);
    // A PC past the size is not tested: no breakpoint is there.
    assert_eq!(g.report(2, BPT, 0, 1536), 28);
    assert_eq!(g.ask(5, PROCEED_BPT, 2, 0, 0, &[]), 10);
    assert_eq!((g.held(1534), g.held(1536)), ([3, 0], [77, 77]));
}

#[test]
fn k2_a_process_of_two_bytes() {
    let mut g = Gateway::with_sizes(1 << 2, &[2; PROCESSES]);
    g.ask(5, DEBUG, 2, 0, 0, &[]);
    assert_eq!(g.ask(5, EXAMINE, 2, 0, 2, &[]), 12);
    assert_eq!(g.ask(5, EXAMINE, 2, 0, 3, &[]), -10);
    assert_eq!(g.ask(5, BREAK, 2, 0, 0, &[]), 10);
    assert_eq!(g.ask(5, BREAK, 2, 2, 0, &[]), -10);
}

#[test]
fn k2_a_cleared_record_gives_4096() {
    let mut g = Gateway::feed();
    assert_eq!(g.ask(5, DESTROY_PROCESS, 2, 0, 0, &[]), 10);
    assert_eq!(*g.process(), CLEARED);
    assert_eq!(CLEARED.size, 4096);
    // An absent record of another size is sound, and CREATE looks at none of it.
    g.state.processes[0].size = FEED;
    assert_eq!(g.ask(5, CREATE_PROCESS, 0, 0, 0, &[]), 10);
    assert_eq!(g.state.processes[0].size, 4096);
    assert!(g.memory[..4096].iter().all(|&b| b == 0));
    assert_eq!(g.memory[4096], 77);
    assert_eq!(g.ask(5, EXAMINE, 0, 4092, 4, &[]), 14);
}

#[test]
fn k2_sound_covers_the_size_of_every_record() {
    let state = fresh_start(1, &FULL, NO_DOOR).unwrap();
    for p in [0, 7] {
        for (size, right) in [(2, true), (4, true), (1536, true), (4094, true), (4096, true)]
            .into_iter()
            .chain([0, 1, 3, 1535, 4095, 4097, 4098, 65534, 65535].map(|size| (size, false)))
        {
            let mut state = state.clone();
            state.processes[p].size = size;
            assert_eq!(sound(&state), right, "process {p} of {size}");
        }
    }
    let mut g = Gateway::feed();
    g.ask(5, BREAK, 2, 1000, 0, &[]);
    g.process().size = 1002;
    assert!(sound(&g.state));
    g.process().size = 1000;
    assert!(!sound(&g.state), "a breakpoint past the size");
    assert_eq!(g.ask(5, NOP, 0, 0, 0, &[]), -2);
    assert_eq!(g.report(2, HALT, 0, 0), -2);
    g.written(0);
}

#[test]
fn k2_a_fresh_start_with_bad_sizes() {
    let sizes = |p: usize, size: u16| {
        let mut sizes = FULL;
        sizes[p] = size;
        sizes
    };
    for bad in [0, 1, 3, 1537, 4095, 4097, 4098, 65535] {
        let mut state = [9; STATE_BYTES];
        assert_eq!(fresh_start_bytes(0b100, &sizes(2, bad), 255, &mut state), -2);
        // "The lowest-numbered test that fails gives the answer"
        assert_eq!(fresh_start_bytes(0b1_0000_0100, &sizes(2, bad), 255, &mut state), -2);
        assert_eq!(fresh_start_bytes(0b100, &sizes(2, bad), 255, &mut state[1..]), -1);
        assert_eq!(fresh_start_bytes(0b100, &sizes(2, bad)[1..], 255, &mut state), -1);
        assert_eq!(fresh_start_bytes(0b1_0000_0000, &sizes(2, bad), 255, &mut state), -7);
        assert_eq!(state, [9; STATE_BYTES]);
        // A process that is not there then has a cleared record.
        assert_eq!(fresh_start_bytes(0b11, &sizes(2, bad), 255, &mut state), 0);
        assert_eq!(state, encode(&fresh_start(0b11, &FULL, NO_DOOR).unwrap()));
    }
    let mut state = [9; STATE_BYTES];
    assert_eq!(fresh_start_bytes(0, &[], 255, &mut state), -1);
    assert_eq!(fresh_start_bytes(256, &[2; 9], 255, &mut state), -1);
}
