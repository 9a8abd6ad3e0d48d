//! K1, "A Pup door": requests and reports while a Go waits, the process of the door, sound
//! states and their bytes.

use super::packets::{acked, refused, stopped, to, TYPES};
use super::*;

const ID: u32 = 0x0403_0201;

/// A Go of 99 ticks that waits in process 2.
fn about_to_run() -> Gateway {
    let mut g = stopped();
    assert_eq!(g.packet(GO, ID, &[]), 0);
    g.ticks(99);
    g
}

const WAITING: Go = Go { waits: true, ticks: 99, id: ID };

// ---------------------------------------------------------------- requests and reports

/// "and so do END DEBUG and DESTROY"
#[test]
fn k1_end_debug_and_destroy_abandon() {
    let mut g = about_to_run();
    assert_eq!(to(&mut g, END_DEBUG), 10);
    assert_eq!(*g.process(), Process { there: true, ..CLEARED });
    assert!(sound(&g.state));
    assert_eq!(to(&mut g, DEBUG), 10);
    assert_eq!(to(&mut g, STOP), 10);
    g.ticks(1);
    assert_eq!(g.packet(GO_REPLY, ID + 1, &[]), 0);
    assert_eq!((g.process().go, g.process().run), (NO_GO, Run::Stopped));
    let mut g = about_to_run();
    assert_eq!(to(&mut g, DESTROY_PROCESS), 10);
    assert_eq!(*g.process(), CLEARED);
    g.ticks(1);
    refused(&mut g, GO_REPLY, u64::from(ID) + 1, &[], 7);
    // one that host 254 creates in its place has the door, and no Go
    for _ in 0..3 {
        assert_eq!(g.ask(PUP_HOST, CREATE_PROCESS, 0, 8, 0, &[]), 10);
    }
    assert_eq!((g.process().go, g.process().run), (NO_GO, Run::Stopped));
    assert_eq!(g.packet(GO_REPLY, ID + 1, &[]), 0);
    g.ticks(100);
    assert_eq!(g.process().run, Run::Stopped);
    assert_eq!(acked(&mut g, FETCH, &[3, 0, 256]), [3, 0, 4, 0, 0, 0, 0]);
    refused(&mut g, FETCH, 1, &[4], 10);
    assert_eq!(g.packet(GO, ID, &[]), 0);
    g.ticks(100);
    assert_eq!(g.process().run, Run::Running);
}

/// A refused END DEBUG or DESTROY leaves it, and so do other processes' requests.
#[test]
fn k1_refused_requests_leave_it() {
    let mut g = about_to_run();
    for cmd in [DEBUG, END_DEBUG, DESTROY_PROCESS, STOP, RESUME] {
        assert_eq!(g.ask(5, cmd, 2, 0, 0, &[]), -8);
    }
    assert_eq!(g.ask(5, CREATE_PROCESS, 0, 8, 0, &[]), 10);
    for cmd in [RESUME, END_DEBUG, DEBUG, DESTROY_PROCESS] {
        assert_eq!(g.ask(5, cmd, 0, 0, 0, &[]), 10);
    }
    assert_eq!(g.process().go, WAITING);
    g.ticks(1);
    assert_eq!(g.process().run, Run::Running);
}

/// "any other granted packet abandons the Go": not requests in messages, by host 254 or its
/// watcher, nor lines, nor reports.
#[test]
fn k1_what_leaves_it_waiting() {
    let mut g = about_to_run();
    g.process().vector[PC] = 512;
    for (cmd, arg1, arg2, string) in [
        (NOP, 0, 0, &[][..]),
        (DEBUG, 0, 0, &[]),
        (STOP, 0, 0, &[]),
        (DEPOSIT, 0, 2, &[1, 2]),
        (EXAMINE, 0, 2, &[]),
        (DEPOSIT_STATE_VECTOR, 0, 2, &[1, 2]),
        (BREAK, 512, 1, &[]),
        (BREAK, 514, 0, &[]),
        (UNBREAK, 514, 0, &[]),
        (STATUS, 0, 0, &[]),
        (SINGLE_STEP, 0, 0, &[]),
        (STOP, 0, 0, &[]),
        (RESUME, 0, 0, &[]),
    ] {
        let pid = if cmd == NOP { 0 } else { 2 };
        assert!(g.ask(PUP_HOST, cmd, pid, arg1, arg2, string) >= 10, "{cmd}");
        assert_eq!(g.process().go, WAITING, "{cmd}");
    }
    for cmd in [WATCH, STATUS, END_WATCH] {
        assert_eq!(g.ask(5, cmd, 2, 0, 0, &[]), 10);
    }
    assert_eq!(g.line("0x2 i 0x0 0x0"), -101);
    assert_eq!(g.report(2, BPT, 0, 512), 0);
    assert_eq!(g.report(2, TTRAP, 0, 514), 0);
    assert_eq!(g.report(2, BPT, 0, 512), 28);
    assert_eq!(to(&mut g, PROCEED_BPT), 10);
    assert_eq!(g.report(2, TRAP, 0, 0), 28);
    assert_eq!((g.process().go, g.process().run), (WAITING, Run::Stopped));
    // it has stopped again by then, and is resumed
    g.ticks(1);
    assert_eq!((g.process().go, g.process().run), (NO_GO, Run::Running));
}

/// "If RESUME would then be refused, the Go just ends."
#[test]
fn k1_a_go_that_just_ends() {
    for by_reply in [true, false] {
        for run in Run::ALL {
            let mut g = about_to_run();
            g.process().run = run;
            let before = Process { go: NO_GO, ..*g.process() };
            if by_reply {
                assert_eq!(g.packet(GO_REPLY, ID + 1, &[]), 0);
            } else {
                g.ticks(1);
            }
            let waited = matches!(run, Run::Stopped | Run::AtBreakpoint);
            let after = if waited { Run::Running } else { run };
            assert_eq!(*g.process(), Process { run: after, ..before }, "{run:?}");
        }
    }
    // by calls: it runs already; it ends
    let mut g = about_to_run();
    assert_eq!(to(&mut g, RESUME), 10);
    assert_eq!(g.report(2, HALT, 0, 0), 28);
    assert_eq!(g.process().go, WAITING);
    g.ticks(1);
    assert_eq!((g.process().go, g.process().run), (NO_GO, Run::Ended));
    // a lifted breakpoint stays lifted: the process goes on passing
    let mut g = about_to_run();
    g.store(512, [1, 2]);
    assert_eq!(g.ask(PUP_HOST, BREAK, 2, 512, 1, &[]), 10);
    assert_eq!(to(&mut g, RESUME), 10);
    assert_eq!(g.report(2, BPT, 0, 512), 0);
    g.ticks(1);
    assert_eq!((g.process().go, g.process().run), (NO_GO, Run::Passing));
    assert_eq!((g.held(512), g.process().breakpoints[0].lifted), ([1, 2], true));
}

// ---------------------------------------------------------------- the door

/// "on one process set at start": absent, over 7 or none it is 7 for the four types, and a
/// tick is granted.
#[test]
fn k1_no_process_has_the_door() {
    for door in [0, 1, 3, 7, 8, 9, 130, 254, 255] {
        let mut g = Gateway::with_door(1 << 2, &FULL, door);
        assert_eq!(g.state.door, door);
        assert_eq!(to(&mut g, DEBUG), 10);
        assert_eq!(to(&mut g, STOP), 10);
        for kind in TYPES {
            refused(&mut g, kind, 1, &[3, 9], 7);
        }
        // a Go in another process than the door's is never ticked
        g.process().go = WAITING;
        assert!(sound(&g.state));
        let before = g.state.clone();
        g.ticks(250);
        assert_eq!(g.state, before);
        refused(&mut g, GO_REPLY, u64::from(ID) + 1, &[], 7);
        assert_eq!(to(&mut g, END_DEBUG), 10);
        assert_eq!(g.process().go, NO_GO);
    }
}

#[test]
fn k1_only_the_doors_process() {
    let mut g = Gateway::with_door(0b1100, &EIGHT, 3);
    for p in [2, 3] {
        for cmd in [DEBUG, STOP] {
            assert_eq!(g.ask(PUP_HOST, cmd, p, 0, 0, &[]), 10);
        }
    }
    g.process().go = WAITING;
    let other = *g.process();
    assert_eq!(acked(&mut g, STORE, &[0, 9]), [0, 0]);
    assert_eq!((g.memory[0], g.memory[2048]), (0, 9));
    assert_eq!(g.packet(GO, ID, &[]), 0);
    g.ticks(100);
    assert_eq!(g.state.processes[3].run, Run::Running);
    assert_eq!(g.packet(GO_REPLY, ID + 1, &[]), 0);
    assert_eq!(*g.process(), other);
    // the door stays where it is when its process goes and another comes there
    assert_eq!(g.ask(PUP_HOST, DESTROY_PROCESS, 3, 0, 0, &[]), 10);
    refused(&mut g, FETCH, 1, &[0], 7);
    for _ in [0, 1, 3] {
        assert_eq!(g.ask(6, CREATE_PROCESS, 0, 64, 0, &[]), 10);
    }
    assert!(g.state.processes[3].there);
    assert_eq!(g.state.door, 3);
    refused(&mut g, FETCH, 1, &[0], 8);
    assert_eq!(g.ask(PUP_HOST, WATCH, 3, 0, 0, &[]), 10);
    assert_eq!(acked(&mut g, FETCH, &[0]), [0, 0]);
}

#[test]
fn k1_the_door_at_a_fresh_start() {
    for (door, byte) in (0..=255).map(|door| (door, door as u8)).chain(
        [256, 257, 258, 511, 65_536, 1 << 32, (1 << 32) + 2, u64::MAX].map(|door| (door, 255)),
    ) {
        let mut bytes = [9; STATE_BYTES];
        assert_eq!(fresh_start_bytes(0b100, &FULL, door, &mut bytes), 0);
        assert_eq!((bytes[784], bytes[200..206] == [0; 6]), (byte, true));
        assert_eq!(decode(&bytes).unwrap(), fresh_start(0b100, &FULL, byte).unwrap());
        assert_eq!(tick_bytes(&mut bytes), 0);
        let answer = if byte == 2 { -8 } else { -7 };
        let mut ack = [UNTOUCHED_WORD; ACK_WORDS];
        let memory = &mut vec![0; MEMORY];
        assert_eq!(packet_bytes(&mut bytes, memory, 129, 1, &[0], &mut ack), answer);
        let mut bytes = [9; STATE_BYTES];
        assert_eq!(fresh_start_bytes(256, &FULL, door, &mut bytes), -7);
        assert_eq!(bytes, [9; STATE_BYTES]);
    }
}

// ---------------------------------------------------------------- states and their bytes

/// "A Go waits only while host 254 debugs the process, with at most 99 ticks counted; sound
/// includes this", in every process.
#[test]
fn k1_sound() {
    let state = fresh_start(255, &EIGHT, 2).unwrap();
    for p in 0..PROCESSES {
        for (host, watcher) in [(254, 0), (254, 5), (5, 254), (253, 254), (5, 0), (0, 0)] {
            for ticks in [0, 1, 98, 99, 100, 101, 255] {
                for waits in [false, true] {
                    let mut state = state.clone();
                    let process = &mut state.processes[p];
                    (process.host, process.watcher) = (host, watcher);
                    process.go = Go { waits, ticks, id: ID };
                    let right = !waits || host == 254 && ticks <= 99;
                    assert_eq!(sound(&state), right);
                    unsound_is_refused(&state, right);
                }
            }
        }
    }
    // an absent process has no host, and so no Go
    let mut state = fresh_start(0, &EIGHT, 2).unwrap();
    state.processes[2].go = Go { waits: false, ..WAITING };
    assert!(sound(&state));
    state.processes[2].go = WAITING;
    assert!(!sound(&state));
    unsound_is_refused(&state, false);
}

/// Every call refuses such a state with 2, and writes nothing.
fn unsound_is_refused(state: &State, right: bool) {
    let mut g = Gateway::new(0);
    g.state = state.clone();
    if right {
        assert_eq!(g.ask(5, NOP, 0, 0, 0, &[]), 10);
        return;
    }
    assert_eq!(g.ask(5, NOP, 0, 0, 0, &[]), -2);
    assert_eq!(g.report(2, 9u8, 0, 0), -2);
    assert_eq!(g.line(""), -2);
    assert_eq!(g.packet(9u64, 1u64 << 32, &[]), -2);
    assert_eq!(tick(&mut g.state), -2);
    assert_eq!(g.state, *state);
    let mut bytes = encode(state);
    assert_eq!(tick_bytes(&mut bytes), -2);
    assert_eq!(bytes, encode(state));
}

#[test]
fn k1_the_byte_form() {
    assert_eq!([GO_WAITS_AT, GO_TICKS_AT, GO_ID_AT, VECTOR_AT, ENTRIES_AT], [8, 9, 10, 14, 32]);
    assert_eq!((PUP_HOST, NO_DOOR, GO_TICKS), (254, 255, 100));
    let mut g = about_to_run();
    let mut bytes = encode(&g.state);
    assert_eq!(bytes[192..206], [1, 254, 2, 0, 16, 0, 0, 0, 1, 99, 1, 2, 3, 4]);
    assert_eq!(bytes[784], 2);
    assert_eq!(decode(&bytes), Some(g.state.clone()));
    for p in 0..PROCESSES {
        for byte in 0..=255 {
            let mut changed = bytes;
            changed[96 * p + 8] = byte;
            let before = changed;
            let right = byte == 0 || byte == 1 && p == 2;
            assert_eq!(decode(&changed).is_some(), byte <= 1);
            assert_eq!(decode(&changed).is_some_and(|state| sound(&state)), right);
            assert_eq!(tick_bytes(&mut changed), if right { 0 } else { -2 });
            if !right {
                let (memory, ack) = (&mut g.memory, &mut g.ack);
                assert_eq!(packet_bytes(&mut changed, memory, 9, 1, &[], ack), -2);
                assert_eq!(packet_bytes(&mut changed, memory, 9, 1, &[], &mut ack[..34]), -1);
                assert_eq!(packet_bytes(&mut changed, &mut [], 9, 1, &[], ack), -1);
                assert_eq!(changed, before);
            }
        }
    }
    // the hundredth tick
    assert_eq!(tick_bytes(&mut bytes), 0);
    assert_eq!(bytes[192..206], [1, 254, 0, 0, 16, 0, 0, 0, 0, 0, 0, 0, 0, 0]);
    // the length
    for length in [0, 736, 784] {
        let (memory, ack) = (&mut g.memory, &mut g.ack);
        assert_eq!(tick_bytes(&mut bytes[..length]), -2);
        assert_eq!(packet_bytes(&mut bytes[..length], memory, 129, 1, &[0], ack), -2);
    }
    assert_eq!(tick_bytes(&mut [0; STATE_BYTES + 1]), -2);
    // a granted packet clears what is left where no Go waits, a tick keeps it
    bytes[201..206].copy_from_slice(&[255, 1, 2, 3, 4]);
    let before = bytes;
    assert_eq!(tick_bytes(&mut bytes), 0);
    assert_eq!(bytes, before);
    let (memory, ack) = (&mut g.memory, &mut g.ack);
    assert_eq!(packet_bytes(&mut bytes, memory, 129, 1, &[2048], ack), -10);
    assert_eq!(bytes, before);
    assert_eq!(packet_bytes(&mut bytes, memory, 129, 1, &[0], ack), 2);
    assert_eq!(bytes[200..206], [0; 6]);
}
