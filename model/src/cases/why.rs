//! K8, "Why was I refused?": each test, and each of its facts.

use super::*;

/// The one who debugs process 2, the one who watches it, and a third.
const OWNER: u8 = 5;
const WATCHER: u8 = 6;
const THIRD: u8 = 7;

/// This is why a message is refused: nothing changes, and the request gets the same number.
#[track_caller]
fn told(g: &Gateway, message: &[u8], reason: Reason) {
    let before = g.state.clone();
    assert_eq!(why(&g.state, message), reason);
    assert_eq!(before, g.state);
    let (mut facts, bytes) = ([77, 78], encode(&g.state));
    assert_eq!(why_bytes(&bytes, message, &mut facts), -reason.number());
    assert_eq!(facts, reason.facts());
    let (mut state, mut memory) = (before, g.memory.clone());
    let answer = request(&mut state, &mut memory, message, &mut [0; LONGEST]);
    assert_eq!(answer.min(0), -reason.number());
}

/// The same of a request to process 2, with the string that it carries.
#[track_caller]
fn asked(g: &Gateway, host: u8, cmd: u8, arg1: u16, arg2: u16, reason: Reason) {
    let carries = matches!(cmd, DEPOSIT | DEPOSIT_STATE_VECTOR);
    let string = vec![1; if carries { arg2.into() } else { 0 }];
    told(g, &message(host, cmd, 2, arg1, arg2, &string), reason);
}

/// Process 2 alone, debugged by host 5 and watched by host 6.
fn watched() -> Gateway {
    let mut g = Gateway::debugged();
    assert_eq!(g.ask(WATCHER, WATCH, 2, 0, 0, &[]), 10);
    g
}

/// A host sets so many breakpoints from an address on.
#[track_caller]
fn set(g: &mut Gateway, host: u8, from: u16, count: u16) {
    for n in 0..count {
        assert_eq!(g.ask(host, BREAK, 2, from + 2 * n, 0, &[]), 10);
    }
}

#[test]
fn k8_granted_has_no_facts() {
    let g = watched();
    told(&g, &message(THIRD, NOP, 0, 0, 0, &[]), Reason::Granted);
    told(&g, &message(THIRD, CREATE_PROCESS, 0, 0, 0, &[]), Reason::Granted);
    for (host, cmd, arg1, arg2) in [
        (OWNER, DEBUG, 0, 0),
        (OWNER, DEPOSIT, 4092, 4),
        (OWNER, DEPOSIT_STATE_VECTOR, 18, 0),
        (WATCHER, EXAMINE, 3840, 256),
        (WATCHER, BREAK, 4094, 9),
        (WATCHER, WATCH, 0, 0),
        (WATCHER, END_WATCH, 0, 0),
        (WATCHER, STATUS, 0, 0),
        (OWNER, DESTROY_PROCESS, 0, 0),
    ] {
        asked(&g, host, cmd, arg1, arg2, Reason::Granted);
    }
    assert_eq!(Reason::Granted.facts(), [0, 0]);
}

#[test]
fn k8_two_facts_are_lent() {
    let (g, nop) = (Gateway::debugged(), message(OWNER, NOP, 0, 0, 0, &[]));
    let bytes = encode(&g.state);
    for count in (0..9).filter(|&count| count != 2) {
        let mut facts = vec![77; count];
        assert_eq!(why_bytes(&bytes, &nop, &mut facts), -1);
        assert_eq!(why_bytes(&bytes[1..], &[], &mut facts), -1);
        assert_eq!(facts, vec![77; count]);
    }
}

/// A state that is not sound, or none: no facts, and both numbers are written.
#[test]
fn k8_test_2() {
    let mut g = Gateway::debugged();
    g.process().set = 1;
    for text in [message(OWNER, NOP, 0, 0, 0, &[]), vec![], vec![9; 400]] {
        told(&g, &text, Reason::Other(NOT_SOUND));
        for length in [0, 784, 786] {
            let mut facts = [77, 78];
            assert_eq!(why_bytes(&vec![0; length], &text, &mut facts), -2);
            assert_eq!(facts, [0, 0]);
        }
    }
}

#[test]
fn k8_3_the_length() {
    let g = Gateway::debugged();
    for length in [0, 1, 9, 267, 268, 270, 65_546, 70_000] {
        told(&g, &vec![0; length], Reason::Length(length));
        assert_eq!(Reason::Length(length).facts(), [length as u64, 0]);
    }
    told(&g, &[0; 10], Reason::Other(WRONG_HEAD));
    told(&g, &[0; 266], Reason::Other(WRONG_HEAD));
}

#[test]
fn k8_others_none() {
    let mut g = Gateway::with_sizes(0xff, &EIGHT);
    told(&g, &message(NOBODY, NOP, 0, 0, 0, &[]), Reason::Other(WRONG_HEAD));
    told(&g, &message(OWNER, 17, 0, 0, 0, &[]), Reason::Other(UNKNOWN_CMD));
    told(&g, &message(OWNER, NOP, 1, 0, 0, &[]), Reason::Other(WRONG_FIELDS));
    told(&g, &message(OWNER, CREATE_PROCESS, 0, 4097, 0, &[]), Reason::Other(WRONG_FIELDS));
    told(&g, &message(OWNER, DEBUG, 8, 0, 0, &[]), Reason::Other(ABSENT));
    told(&g, &message(OWNER, CREATE_PROCESS, 0, 2, 0, &[]), Reason::Other(NO_ROOM));
    assert_eq!(g.ask(OWNER, DEBUG, 2, 0, 0, &[]), 10);
    asked(&g, OWNER, UNBREAK, 65_535, 0, Reason::Other(NO_BREAKPOINT));
    assert_eq!(g.ask(OWNER, DESTROY_PROCESS, 2, 0, 0, &[]), 10);
    told(&g, &message(OWNER, CREATE_PROCESS, 0, 2050, 0, &[]), Reason::Other(NO_ROOM));
    asked(&g, OWNER, DEBUG, 0, 0, Reason::Other(ABSENT));
    assert_eq!(Reason::Other(NO_ROOM).facts(), [0, 0]);
}

/// "8 who debugs it", whoever asks and whatever for; to a stranger neither address nor run
/// state matters.
#[test]
fn k8_8_who_debugs_it() {
    let free = Gateway::new(1 << 2);
    for cmd in [EXAMINE, STATUS, WATCH, END_WATCH, DESTROY_PROCESS] {
        asked(&free, THIRD, cmd, 0, 0, Reason::Debugger(NOBODY));
    }
    let g = watched();
    for cmd in [DEBUG, END_DEBUG, STOP, RESUME, PROCEED_BPT, STATUS, END_WATCH] {
        asked(&g, THIRD, cmd, 0, 0, Reason::Debugger(OWNER));
    }
    asked(&g, THIRD, EXAMINE, 65_535, 65_535, Reason::Debugger(OWNER));
    asked(&g, THIRD, BREAK, 4095, 0, Reason::Debugger(OWNER));
    asked(&g, WATCHER, DEPOSIT, 4096, 1, Reason::Debugger(OWNER));
    asked(&g, WATCHER, RESUME, 0, 0, Reason::Debugger(OWNER));
    asked(&g, WATCHER, DEBUG, 0, 0, Reason::Debugger(OWNER));
    // the debugging host itself, which is told first
    asked(&g, OWNER, WATCH, 0, 0, Reason::Debugger(OWNER));
    asked(&g, OWNER, END_WATCH, 0, 0, Reason::Debugger(OWNER));
}

#[test]
fn k8_9_what_run_state() {
    let mut g = watched();
    for run in Run::ALL {
        g.process().run = run;
        for cmd in [RESUME, SINGLE_STEP, PROCEED_BPT] {
            let fits = run == Run::AtBreakpoint || run == Run::Stopped && cmd != PROCEED_BPT;
            let reason = if fits { Reason::Granted } else { Reason::RunState(run) };
            asked(&g, OWNER, cmd, 0, 0, reason);
            asked(&g, THIRD, cmd, 0, 0, Reason::Debugger(OWNER));
        }
    }
    assert_eq!(Run::ALL.map(|run| Reason::RunState(run).facts()[0]), [0, 1, 2, 3, 4, 5]);
}

/// "10 which limit (the first passed of the end, 256, BREAK's last address) by how much"
#[test]
fn k8_10_which_limit() {
    use Limit::*;
    for (size, g) in [(1536, Gateway::feed()), (4096, Gateway::debugged())] {
        let most = u32::from(size);
        asked(&g, OWNER, DEPOSIT, size, 1, Reason::Passed(End, 1));
        asked(&g, OWNER, DEPOSIT, size - 3, 256, Reason::Passed(End, 253));
        asked(&g, OWNER, DEPOSIT, 65_535, 256, Reason::Passed(End, 65_791 - most));
        asked(&g, OWNER, EXAMINE, size + 1, 0, Reason::Passed(End, 1));
        asked(&g, OWNER, EXAMINE, 0, size + 1, Reason::Passed(End, 1));
        asked(&g, OWNER, EXAMINE, 65_535, 65_535, Reason::Passed(End, 131_070 - most));
        asked(&g, OWNER, EXAMINE, 0, 257, Reason::Passed(Count, 1));
        asked(&g, OWNER, EXAMINE, 0, size, Reason::Passed(Count, most - 256));
        asked(&g, OWNER, EXAMINE, size - 257, 257, Reason::Passed(Count, 1));
        asked(&g, OWNER, EXAMINE, size - 256, 257, Reason::Passed(End, 1));
        asked(&g, OWNER, DEPOSIT_STATE_VECTOR, 17, 2, Reason::Passed(End, 1));
        asked(&g, OWNER, DEPOSIT_STATE_VECTOR, 19, 0, Reason::Passed(End, 1));
        asked(&g, OWNER, DEPOSIT_STATE_VECTOR, 65_535, 256, Reason::Passed(End, 65_773));
        asked(&g, OWNER, BREAK, 1, 0, Reason::Passed(Last, 0));
        asked(&g, OWNER, BREAK, size - 3, 0, Reason::Passed(Last, 0));
        asked(&g, OWNER, BREAK, size - 1, 0, Reason::Passed(Last, 1));
        asked(&g, OWNER, BREAK, size, 0, Reason::Passed(Last, 2));
        asked(&g, OWNER, BREAK, 65_534, 0, Reason::Passed(Last, 65_536 - most));
        asked(&g, OWNER, BREAK, 65_535, 0, Reason::Passed(Last, 65_537 - most));
    }
    let facts = [End, Count, Last].map(|limit| Reason::Passed(limit, 9).facts());
    assert_eq!(facts, [[0, 9], [1, 9], [2, 9]]);
}

/// "11 whether 8 or 4 (8 first)"
#[test]
fn k8_11_whether_8_or_4() {
    let mut g = Gateway::debugged();
    set(&mut g, OWNER, 0, 8);
    asked(&g, OWNER, BREAK, 16, 0, Reason::Full(8));
    asked(&g, OWNER, BREAK, 14, 0, Reason::Granted);
    asked(&g, OWNER, BREAK, 17, 0, Reason::Passed(Limit::Last, 0));
    let mut g = watched();
    set(&mut g, OWNER, 0, 4);
    asked(&g, OWNER, BREAK, 8, 0, Reason::Full(4));
    asked(&g, WATCHER, BREAK, 8, 0, Reason::Granted);
    set(&mut g, WATCHER, 512, 4);
    // all eight are used, and each has four
    for host in [OWNER, WATCHER] {
        asked(&g, host, BREAK, 8, 0, Reason::Full(8));
    }
    // six from before the watch: the watcher may set two
    let mut g = Gateway::debugged();
    set(&mut g, OWNER, 0, 6);
    assert_eq!(g.ask(WATCHER, WATCH, 2, 0, 0, &[]), 10);
    asked(&g, OWNER, BREAK, 40, 0, Reason::Full(4));
    set(&mut g, WATCHER, 512, 2);
    asked(&g, WATCHER, BREAK, 40, 0, Reason::Full(8));
}

/// "15 the watcher", after 8.
#[test]
fn k8_15_the_watcher() {
    let g = watched();
    asked(&g, THIRD, WATCH, 0, 0, Reason::Watcher(WATCHER));
    asked(&g, WATCHER, WATCH, 0, 0, Reason::Granted);
}

/// "16 who set it", where no new one would be set, so that 11 does not fail.
#[test]
fn k8_16_who_set_it() {
    let mut g = watched();
    set(&mut g, OWNER, 0, 4);
    set(&mut g, WATCHER, 512, 4);
    for cmd in [BREAK, UNBREAK] {
        asked(&g, OWNER, cmd, 512, 0, Reason::Setter(WATCHER));
        asked(&g, WATCHER, cmd, 6, 0, Reason::Setter(OWNER));
        asked(&g, THIRD, cmd, 6, 0, Reason::Debugger(OWNER));
        asked(&g, OWNER, cmd, 6, 0, Reason::Granted);
    }
}
