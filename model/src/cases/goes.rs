//! K1, "A Pup door": the Go that waits, and each way in which it ends.

use super::packets::{refused, sized, stopped, to};
use super::*;

/// The ID of the Go in these cases.
const ID: u32 = 77;

/// A stopped process with a waiting Go, so many ticks old.
fn waiting(ticks: usize) -> Gateway {
    let mut g = stopped();
    assert_eq!(g.packet(GO, ID, &[]), 0);
    assert!(g.acked(0).is_empty());
    g.ticks(ticks);
    waits(&mut g, ID, ticks as u8);
    g
}

#[track_caller]
fn waits(g: &mut Gateway, id: u32, ticks: u8) {
    assert_eq!(g.process().go, Go { waits: true, ticks, id });
    assert!(sound(&g.state));
}

/// No Go waits, nothing is left of it, and the process is in this run state.
#[track_caller]
fn ended(g: &mut Gateway, run: Run) {
    assert_eq!((g.process().go, g.process().run), (NO_GO, run));
    assert!(sound(&g.state));
    // later ticks do nothing
    let before = g.state.clone();
    g.ticks(250);
    assert_eq!(g.state, before);
}

// ---------------------------------------------------------------- ticks

/// "at the hundredth tenth-second tick from the first Go of that ID", "and no sooner"
#[test]
fn k1_the_hundredth_tick() {
    let mut g = waiting(0);
    for ticks in 1..=99 {
        g.ticks(1);
        waits(&mut g, ID, ticks);
        assert_eq!(g.process().run, Run::Stopped);
    }
    g.ticks(1);
    ended(&mut g, Run::Running);
}

/// Ticks before a Go are not counted, and a tick without one changes nothing.
#[test]
fn k1_ticks_without_a_go() {
    let mut g = stopped();
    let before = g.state.clone();
    g.ticks(350);
    assert_eq!(g.state, before);
    assert_eq!(g.packet(GO, ID, &[]), 0);
    g.ticks(99);
    waits(&mut g, ID, 99);
    g.ticks(1);
    ended(&mut g, Run::Running);
}

/// Gos of the waiting ID are acknowledged and leave its ticks, however many come.
#[test]
fn k1_the_same_go_again() {
    let mut g = waiting(0);
    for ticks in 1..=99 {
        g.ticks(1);
        for _ in 0..3 {
            assert_eq!(g.packet(GO, ID, &[1, 2, 3]), 0);
            assert!(g.acked(0).is_empty());
        }
        waits(&mut g, ID, ticks);
    }
    g.ticks(1);
    ended(&mut g, Run::Running);
    // and it is 9 from then on
    refused(&mut g, GO, ID.into(), &[], 9);
}

/// "one of another ID counts afresh"
#[test]
fn k1_a_go_of_another_id() {
    for other in [ID + 1, ID - 1, 0, u32::MAX] {
        let mut g = waiting(99);
        assert_eq!(g.packet(GO, other, &[]), 0);
        waits(&mut g, other, 0);
        // back to the first: afresh too
        g.ticks(50);
        assert_eq!(g.packet(GO, ID, &[]), 0);
        waits(&mut g, ID, 0);
        g.ticks(99);
        waits(&mut g, ID, 99);
        g.ticks(1);
        ended(&mut g, Run::Running);
    }
}

// ---------------------------------------------------------------- GoReply

/// "The process resumes on a GoReply with the next ID (wrapping at 32 bits)"
#[test]
fn k1_the_right_reply() {
    for ticks in [0, 1, 99] {
        let mut g = waiting(ticks);
        assert_eq!(g.packet(GO_REPLY, ID + 1, &[]), 0);
        assert!(g.acked(0).is_empty());
        ended(&mut g, Run::Running);
    }
    for (id, next) in [(0, 1), (65_535, 65_536), (0x7fff_ffff, 0x8000_0000), (u32::MAX, 0u32)] {
        let mut g = stopped();
        assert_eq!(g.packet(GO, id, &[]), 0);
        waits(&mut g, id, 0);
        assert_eq!(g.packet(GO_REPLY, next, &[]), 0);
        ended(&mut g, Run::Running);
    }
    // the next ID has 32 bits: 4,294,967,296 is none
    let mut g = stopped();
    assert_eq!(g.packet(GO, u32::MAX, &[]), 0);
    refused(&mut g, GO_REPLY, 1 << 32, &[], 5);
    waits(&mut g, u32::MAX, 0);
}

/// A GoReply of a wrong ID is "any other granted packet".
#[test]
fn k1_a_wrong_reply() {
    for id in [ID, ID + 2, ID - 1, 0, ID + 257, ID + 65_537, u32::MAX] {
        let mut g = waiting(7);
        assert_eq!(g.packet(GO_REPLY, id, &[]), 0);
        ended(&mut g, Run::Stopped);
        // the right one comes too late
        assert_eq!(g.packet(GO_REPLY, ID + 1, &[]), 0);
        ended(&mut g, Run::Stopped);
    }
    let mut g = stopped();
    assert_eq!(g.packet(GO, u32::MAX, &[]), 0);
    assert_eq!(g.packet(GO_REPLY, u32::MAX, &[]), 0);
    ended(&mut g, Run::Stopped);
}

/// With none waiting: granted, nothing. No Go of ID 4,294,967,295 is seen in the zeros of a
/// record without one.
#[test]
fn k1_a_reply_to_no_go() {
    for run in Run::ALL {
        for id in [0u32, 1, ID + 1, u32::MAX] {
            let mut g = stopped();
            g.process().run = run;
            let before = g.state.clone();
            assert_eq!(g.packet(GO_REPLY, id, &[]), 0);
            assert_eq!(g.state, before);
            // what is left of an older one is no Go either
            g.process().go = Go { waits: false, ticks: 99, id: id.wrapping_sub(1) };
            g.ticks(3);
            assert_eq!(g.process().go.ticks, 99);
            assert_eq!(g.packet(GO_REPLY, id, &[]), 0);
            assert_eq!(g.state, before);
        }
    }
}

/// A reply to the first of two Gos: it is the second that waits.
#[test]
fn k1_a_reply_to_an_earlier_go() {
    let mut g = waiting(3);
    assert_eq!(g.packet(GO, ID + 5, &[]), 0);
    assert_eq!(g.packet(GO_REPLY, ID + 1, &[]), 0);
    ended(&mut g, Run::Stopped);
    let mut g = waiting(3);
    assert_eq!(g.packet(GO, ID + 1, &[]), 0);
    assert_eq!(g.packet(GO_REPLY, ID + 2, &[]), 0);
    ended(&mut g, Run::Running);
}

// ---------------------------------------------------------------- other packets

/// "any other granted packet abandons the Go"
#[test]
fn k1_store_and_fetch_abandon() {
    for (kind, words, count) in [
        (STORE, &[3, 9][..], 2),
        (STORE, &[3, 9, 4], 7),
        (FETCH, &[3], 2),
        (FETCH, &[3, 0, 1], 4),
        (FETCH, &[3, 0, 3], 2),
    ] {
        for id in [ID, ID + 1] {
            let mut g = waiting(99);
            assert_eq!(g.packet(kind, id, words), count);
            ended(&mut g, Run::Stopped);
            // the Go afterwards counts afresh
            assert_eq!(g.packet(GO, ID, &[]), 0);
            waits(&mut g, ID, 0);
        }
    }
}

/// "any other granted packet": a refused one leaves it
#[test]
fn k1_refused_packets_leave_it() {
    let mut g = waiting(99);
    refused(&mut g, STORE, 1, &[3], 3);
    refused(&mut g, FETCH, 1, &[], 3);
    refused(&mut g, 132u64, 1, &[3, 9], 5);
    refused(&mut g, GO, 1 << 32, &[], 5);
    refused(&mut g, STORE, 1, &[2048, 9], 10);
    refused(&mut g, FETCH, 1, &[2048], 10);
    waits(&mut g, ID, 99);
    // 9: a Go, of the same ID or another, while the process runs meanwhile
    assert_eq!(to(&mut g, RESUME), 10);
    refused(&mut g, GO, ID.into(), &[], 9);
    refused(&mut g, GO, 1, &[], 9);
    let (memory, ack) = (&mut g.memory, &mut g.ack);
    let short = packet(&mut g.state, memory, FETCH.into(), 1, &[3], &mut ack[..34]);
    assert_eq!(short, -1);
    waits(&mut g, ID, 99);
    g.ticks(1);
    ended(&mut g, Run::Running);
}

/// A new Go takes the place of what a record without one has left.
#[test]
fn k1_what_is_left_where_none_waits() {
    let left = Go { waits: false, ticks: 255, id: 0x0403_0201 };
    let with = |run| {
        let mut g = stopped();
        (g.process().run, g.process().go) = (run, left);
        assert!(sound(&g.state));
        g
    };
    let mut g = with(Run::Stopped);
    assert_eq!(g.packet(GO, left.id, &[]), 0);
    waits(&mut g, left.id, 0);
    for kind in [STORE, FETCH, GO_REPLY] {
        let mut g = with(Run::Stopped);
        assert!(g.packet(kind, left.id + 1, &[3, 9]) >= 0);
        ended(&mut g, Run::Stopped);
    }
    // all else but END DEBUG and DESTROY keeps it
    let mut g = with(Run::Running);
    refused(&mut g, GO, left.id.into(), &[], 9);
    g.ticks(3);
    for cmd in [DEBUG, STOP, RESUME] {
        assert_eq!(to(&mut g, cmd), 10);
    }
    assert_eq!(g.report(2, TRAP, 0, 0), 28);
    assert_eq!(g.process().go, left);
    assert_eq!(to(&mut g, END_DEBUG), 10);
    assert_eq!(*g.process(), Process { there: true, vector: words_with(0), ..CLEARED });
    let mut g = with(Run::Running);
    assert_eq!(to(&mut g, DESTROY_PROCESS), 10);
    assert_eq!(*g.process(), CLEARED);
    // a fresh record has none of it
    g.process().go = left;
    for p in 0..3 {
        assert_eq!(g.ask(PUP_HOST, CREATE_PROCESS, 0, 2, 0, &[]), 10);
        assert_eq!(g.state.processes[p].go, NO_GO);
    }
}

// ---------------------------------------------------------------- where it is granted

/// "A Go is granted only where RESUME would be."
#[test]
fn k1_where_a_go_is_granted() {
    for run in Run::ALL {
        let mut g = sized(4096);
        g.process().run = run;
        let granted = to(&mut g, RESUME);
        g.process().run = run;
        if granted == 10 {
            assert_eq!(g.packet(GO, ID, &[]), 0);
            assert_eq!(g.process().run, run, "it waits");
            waits(&mut g, ID, 0);
        } else {
            assert_eq!(granted, -9);
            refused(&mut g, GO, ID.into(), &[], 9);
        }
        assert_eq!(granted == 10, matches!(run, Run::Stopped | Run::AtBreakpoint));
    }
}

/// A Go at a breakpoint resumes as RESUME does: nothing is lifted.
#[test]
fn k1_a_go_at_a_breakpoint() {
    for by_reply in [true, false] {
        let mut g = stopped();
        g.store(256, [18, 52]);
        assert_eq!(g.ask(PUP_HOST, BREAK, 2, 256, 0, &[]), 10);
        assert_eq!(to(&mut g, RESUME), 10);
        assert_eq!(g.report(2, BPT, 0, 256), 28);
        assert_eq!(g.packet(GO, ID, &[]), 0);
        let (before, breakpoints) = (g.memory.clone(), g.process().breakpoints);
        if by_reply {
            assert_eq!(g.packet(GO_REPLY, ID + 1, &[]), 0);
        } else {
            g.ticks(99);
            assert_eq!(g.process().run, Run::AtBreakpoint);
            g.ticks(1);
        }
        ended(&mut g, Run::Running);
        assert_eq!(g.process().breakpoints, breakpoints);
        assert_eq!(g.memory, before);
        assert_eq!(g.process().vector, words_with(256));
    }
}
