//! K5, "Owner and installer together": watchers, whose a breakpoint is, and who is told.

use super::*;

/// The one who debugs process 2, the one who watches it, and a third.
const OWNER: u8 = 5;
const WATCHER: u8 = 6;
const THIRD: u8 = 7;

/// Process 2 alone, debugged by host 5 and watched by host 6.
fn watched() -> Gateway {
    let mut g = Gateway::debugged();
    assert_eq!(to(&mut g, WATCHER, WATCH), 10);
    g
}

/// A request to process 2 without arguments.
fn to(g: &mut Gateway, host: u8, cmd: u8) -> i64 {
    g.ask(host, cmd, 2, 0, 0, &[])
}

fn set(g: &mut Gateway, host: u8, address: u16) -> i64 {
    g.ask(host, BREAK, 2, address, 0, &[])
}

fn unset(g: &mut Gateway, host: u8, address: u16) -> i64 {
    g.ask(host, UNBREAK, 2, address, 0, &[])
}

/// Host 5 sets so many from address 0 on, host 6 so many from 512 on.
fn set_many(g: &mut Gateway, owners: u16, watchers: u16) {
    for (host, first, count) in [(OWNER, 0, owners), (WATCHER, 512, watchers)] {
        for at in (0..count).map(|i| first + 2 * i) {
            assert_eq!(set(g, host, at), 10, "{host} {at}");
        }
    }
}

/// A refusal with a CAN'T.
fn cant(g: &mut Gateway, host: u8, cmd: u8, number: i64) {
    let before = (g.state.clone(), g.memory.clone());
    assert_eq!(to(g, host, cmd), -number, "{host} {cmd}");
    assert_eq!(g.written(10), [0, host, 255, 0, 128 + cmd, 2, 0, 0, 0, 0]);
    assert!(before == (g.state.clone(), g.memory.clone()));
}

// ---------------------------------------------------------------- who may watch, and what

#[test]
fn k5_watch_and_end_watch() {
    let mut g = Gateway::debugged();
    assert_eq!(to(&mut g, WATCHER, WATCH), 10);
    assert_eq!(g.written(10), [0, 6, 255, 0, 14, 2, 0, 0, 0, 0]);
    assert_eq!((g.process().host, g.process().watcher), (OWNER, WATCHER));
    // "the same is granted again"
    assert_eq!(to(&mut g, WATCHER, WATCH), 10);
    cant(&mut g, THIRD, WATCH, 15);
    // "15, after 8"
    cant(&mut g, OWNER, WATCH, 8);
    cant(&mut g, OWNER, END_WATCH, 8);
    cant(&mut g, THIRD, END_WATCH, 8);
    assert_eq!(to(&mut g, WATCHER, END_WATCH), 10);
    assert_eq!(g.written(10), [0, 6, 255, 0, 15, 2, 0, 0, 0, 0]);
    assert_eq!(g.process().watcher, NOBODY);
    cant(&mut g, WATCHER, END_WATCH, 8);
    assert_eq!(to(&mut g, THIRD, WATCH), 10);
    assert!(sound(&g.state));
}

#[test]
fn k5_watch_with_no_debugging_host() {
    let mut g = Gateway::new(1 << 2);
    cant(&mut g, WATCHER, WATCH, 8);
    cant(&mut g, WATCHER, END_WATCH, 8);
    for cmd in [WATCH, END_WATCH] {
        assert_eq!(g.ask(WATCHER, cmd, 1, 0, 0, &[]), -7);
        assert_eq!(g.ask(WATCHER, cmd, 8, 0, 0, &[]), -7);
        assert_eq!(g.ask(WATCHER, cmd, 2, 1, 0, &[]), -6);
        assert_eq!(g.ask(WATCHER, cmd, 2, 0, 1, &[]), -6);
        assert_eq!(g.ask(WATCHER, cmd, 2, 0, 0, &[0]), -6);
    }
}

/// "A watcher may EXAMINE, Fetch, BREAK and UNBREAK"; "8 for a watcher's other requests"
#[test]
fn k5_what_a_watcher_may() {
    let mut g = watched();
    g.store(256, [18, 52]);
    assert_eq!(g.ask(WATCHER, EXAMINE, 2, 256, 2, &[]), 12);
    assert_eq!(g.written(12)[10..], [18, 52]);
    assert_eq!(set(&mut g, WATCHER, 256), 10);
    assert_eq!((g.held(256), g.process().breakpoints[0].setter), (BPT_WORD, WATCHER));
    assert_eq!(g.ask(OWNER, EXAMINE, 2, 256, 2, &[]), 12);
    assert_eq!(g.written(12)[10..], [18, 52]);
    assert_eq!(unset(&mut g, WATCHER, 256), 10);
    assert_eq!((g.held(256), g.process().breakpoints), ([18, 52], [FREE; 8]));
    for run in Run::ALL {
        g.process().run = run;
        for cmd in [DEBUG, END_DEBUG, STOP, RESUME, SINGLE_STEP, PROCEED_BPT, DESTROY_PROCESS] {
            cant(&mut g, WATCHER, cmd, 8);
        }
        for cmd in [DEPOSIT, DEPOSIT_STATE_VECTOR] {
            assert_eq!(g.ask(WATCHER, cmd, 2, 65_535, 2, &[1, 2]), -8);
            assert_eq!(g.ask(WATCHER, cmd, 2, 0, 0, &[]), -8);
        }
    }
    // and a third may nothing
    for cmd in [EXAMINE, BREAK, UNBREAK] {
        assert_eq!(g.ask(THIRD, cmd, 2, 1, 0, &[]), -8);
    }
    // "10" comes before all that is asked of breakpoints
    assert_eq!(set(&mut g, WATCHER, 257), -10);
    assert_eq!(set(&mut g, WATCHER, 4096), -10);
    assert_eq!(g.ask(WATCHER, EXAMINE, 2, 4096, 1, &[]), -10);
}

#[test]
fn k5_end_debug_and_destroy_end_the_watch() {
    let mut g = watched();
    g.store(0, [1, 2]);
    g.store(512, [5, 6]);
    set_many(&mut g, 1, 1);
    assert_eq!(to(&mut g, OWNER, END_DEBUG), 10);
    assert_eq!((g.held(0), g.held(512)), ([1, 2], [5, 6]));
    assert_eq!(*g.process(), Process { there: true, ..CLEARED });
    cant(&mut g, WATCHER, EXAMINE, 8);
    // the watcher may debug it now
    assert_eq!(to(&mut g, WATCHER, DEBUG), 10);
    assert_eq!(to(&mut g, OWNER, WATCH), 10);
    assert_eq!(to(&mut g, WATCHER, DESTROY_PROCESS), 10);
    assert_eq!(*g.process(), CLEARED);
    assert_eq!(g.ask(THIRD, CREATE_PROCESS, 0, 0, 0, &[]), 10);
    assert_eq!(g.state.processes[0].watcher, NOBODY);
}

// ---------------------------------------------------------------- whose a breakpoint is

/// "only he may change or remove it"; "16, after 12"
#[test]
fn k5_the_others_breakpoints() {
    let mut g = watched();
    set_many(&mut g, 1, 1);
    for (host, at) in [(OWNER, 512), (WATCHER, 0)] {
        assert_eq!(g.ask(host, BREAK, 2, at, 9, &[]), -16);
        assert_eq!(g.written(10)[4..], [136, 2, (at >> 8) as u8, 0, 0, 9]);
        assert_eq!(unset(&mut g, host, at), -16);
        assert_eq!(g.written(10)[4..], [137, 2, (at >> 8) as u8, 0, 0, 0]);
        assert_eq!(unset(&mut g, host, 514), -12);
        assert_eq!(unset(&mut g, THIRD, at), -8);
        assert_eq!(g.ask(THIRD, BREAK, 2, at, 9, &[]), -8);
    }
    assert!(g.process().breakpoints.iter().all(|b| b.remaining == 0));
    // his own: the count changes, and he stays who set it
    assert_eq!(g.ask(WATCHER, BREAK, 2, 512, 9, &[]), 10);
    assert_eq!(g.ask(OWNER, BREAK, 2, 0, 8, &[]), 10);
    let shown =
        [0, 1].map(|e| (g.process().breakpoints[e].setter, g.process().breakpoints[e].remaining));
    assert_eq!(shown, [(OWNER, 8), (WATCHER, 9)]);
}

/// "While watched, neither may set one that makes his more than 4"
#[test]
fn k5_a_fifth_while_watched() {
    let mut g = watched();
    set_many(&mut g, 4, 3);
    assert_eq!(set(&mut g, OWNER, 100), -11);
    assert_eq!(g.written(10)[4], 136);
    assert_eq!(set(&mut g, WATCHER, 518), 10);
    assert_eq!(set(&mut g, WATCHER, 100), -11);
    // a count is no new one, nor is the other's address
    assert_eq!(g.ask(OWNER, BREAK, 2, 6, 3, &[]), 10);
    assert_eq!(set(&mut g, OWNER, 512), -16);
    assert_eq!(set(&mut g, WATCHER, 6), -16);
    // "10" before "11"
    assert_eq!(set(&mut g, OWNER, 101), -10);
    // without the watch there is room for eight
    assert_eq!(to(&mut g, WATCHER, END_WATCH), 10);
    for at in 100..104 {
        assert_eq!(set(&mut g, OWNER, 2 * at), 10);
    }
    assert_eq!(set(&mut g, OWNER, 300), -11);
}

/// "those already there stay, and all share the eight entries"
#[test]
fn k5_those_from_before_the_watch() {
    let mut g = Gateway::debugged();
    set_many(&mut g, 5, 0);
    assert_eq!(to(&mut g, WATCHER, WATCH), 10);
    assert!(sound(&g.state));
    assert_eq!(set(&mut g, OWNER, 100), -11);
    set_many(&mut g, 0, 3);
    // the eighth entry is taken
    assert_eq!(set(&mut g, WATCHER, 520), -11);
    assert_eq!(set(&mut g, WATCHER, 8), -16);
    for left in [4, 3] {
        assert_eq!(unset(&mut g, OWNER, 2 * left), 10);
        assert_eq!(set(&mut g, OWNER, 100), if left == 4 { -11 } else { 10 });
    }
    let mut g = Gateway::debugged();
    set_many(&mut g, 8, 0);
    assert_eq!(to(&mut g, WATCHER, WATCH), 10);
    assert_eq!(set(&mut g, WATCHER, 512), -11);
    assert_eq!(g.ask(OWNER, BREAK, 2, 14, 3, &[]), 10);
}

/// "END WATCH removes the watcher's breakpoints."
#[test]
fn k5_end_watch_removes_the_watchers() {
    let mut g = watched();
    for (at, word) in [(0, [1, 2]), (2, [3, 4]), (512, [5, 6]), (514, [7, 8])] {
        g.store(at, word);
    }
    set_many(&mut g, 2, 2);
    let owners = g.process().breakpoints;
    assert_eq!(to(&mut g, OWNER, STOP), 10);
    // the machine stored into a planted word: the saved one is put back
    g.store(512, [70, 71]);
    assert_eq!(to(&mut g, WATCHER, END_WATCH), 10);
    assert_eq!([0, 2, 512, 514].map(|at| g.held(at)), [BPT_WORD, BPT_WORD, [5, 6], [7, 8]]);
    assert_eq!(g.process().breakpoints, [owners[0], owners[1], FREE, FREE, FREE, FREE, FREE, FREE]);
    assert_eq!(g.process().run, Run::Stopped);
    // an entry that is free is no breakpoint, whatever it says
    let mut g = watched();
    g.process().breakpoints[3] = OLD;
    assert_eq!(to(&mut g, WATCHER, END_WATCH), 10);
    assert_eq!(g.process().breakpoints[3], OLD);
}

/// A watcher's breakpoint that is lifted when END WATCH comes.
#[test]
fn k5_end_watch_with_a_lifted_one() {
    for run in [Run::Passing, Run::Stepping] {
        let mut g = watched();
        g.store(512, [5, 6]);
        set_many(&mut g, 1, 1);
        assert_eq!(g.report(2, BPT, 0, 512), 28);
        let cmd = if run == Run::Passing { PROCEED_BPT } else { SINGLE_STEP };
        assert_eq!(to(&mut g, OWNER, cmd), 10);
        assert_eq!((g.process().run, g.held(512)), (run, [5, 6]));
        g.store(512, [50, 60]);
        assert_eq!(to(&mut g, WATCHER, END_WATCH), 10);
        assert_eq!((g.process().run, g.held(512)), (run, [50, 60]));
        assert_eq!(g.process().breakpoints[1], FREE);
        assert!(sound(&g.state));
        let silent = if run == Run::Passing { 0 } else { 28 };
        assert_eq!(g.report(2, TTRAP, 0, 514), silent);
        assert_eq!(g.held(512), [50, 60]);
    }
}

// ---------------------------------------------------------------- who is told

/// "A BPT notice at a breakpoint goes to the one who set it, other notices to the debugging
/// host."
#[test]
fn k5_who_is_told() {
    for (kind, pc, host) in [
        (BPT, 512, WATCHER),
        (BPT, 0, OWNER),
        (BPT, 2, OWNER),
        (TRAP, 512, OWNER),
        (HALT, 512, OWNER),
        (TTRAP, 512, OWNER),
    ] {
        let mut g = watched();
        set_many(&mut g, 1, 1);
        g.process().run = Run::Stepping;
        assert_eq!(g.report(2, kind, 0, pc), 28);
        assert_eq!(g.written(28)[..6], [0, host, 255, 0, 64 + kind, 2]);
    }
}

/// "A silent pass at a watcher's breakpoint": nobody is told, and he stays who set it.
#[test]
fn k5_a_watchers_breakpoint_in_a_loop() {
    let mut g = watched();
    assert_eq!(g.ask(WATCHER, BREAK, 2, 512, 1, &[]), 10);
    for told in [0, 28, 28] {
        assert_eq!(g.report(2, BPT, 0, 512), told);
        if told == 28 {
            assert_eq!(g.written(28)[1], WATCHER);
            cant(&mut g, WATCHER, PROCEED_BPT, 8);
            assert_eq!(to(&mut g, OWNER, PROCEED_BPT), 10);
        }
        assert_eq!((g.process().run, g.process().breakpoints[0].setter), (Run::Passing, WATCHER));
        assert_eq!(g.report(2, TTRAP, 0, 514), 0);
        assert_eq!((g.held(512), g.process().breakpoints[0].setter), (BPT_WORD, WATCHER));
    }
}

// ---------------------------------------------------------------- soundness and bytes

#[test]
fn k5_sound_states() {
    let mut g = watched();
    set_many(&mut g, 1, 1);
    let changed = |change: fn(&mut Process)| {
        let mut state = g.state.clone();
        change(&mut state.processes[2]);
        count_again(&mut state.processes[2]);
        sound(&state)
    };
    assert!(changed(|_| ()));
    assert!(!changed(|p| p.watcher = OWNER), "the debugging host does not watch");
    assert!(!changed(|p| p.watcher = NOBODY), "who set a breakpoint debugs or watches");
    assert!(!changed(|p| p.watcher = THIRD));
    assert!(!changed(|p| p.host = THIRD));
    assert!(changed(|p| p.breakpoints[0].setter = NOBODY), "the entry is free");
    assert!(!changed(|p| p.breakpoints[0].setter = THIRD));
    assert!(changed(|p| p.breakpoints[0].setter = WATCHER));
    assert!(changed(|p| (p.host, p.watcher) = (WATCHER, OWNER)));
    // nobody debugs it, and it is not there
    assert!(!changed(|p| (p.host, p.breakpoints) = (NOBODY, [FREE; 8])));
    assert!(!changed(|p| (p.there, p.host, p.breakpoints) = (false, NOBODY, [FREE; 8])));
    // "the limit of 4 aside"
    assert!(changed(|p| {
        let set = p.breakpoints[1];
        p.breakpoints = std::array::from_fn(|i| Breakpoint { address: 2 * i as u16, ..set });
    }));
    // a free entry says nothing, until somebody set it
    assert!(changed(|p| p.breakpoints[7] = OLD));
    assert!(!changed(|p| p.breakpoints[7].setter = THIRD));
}

#[test]
fn k5_the_byte_form() {
    let mut g = watched();
    set_many(&mut g, 0, 1);
    assert_eq!(g.report(2, BPT, 0, 512), 28);
    assert_eq!(to(&mut g, OWNER, SINGLE_STEP), 10);
    let mut bytes = encode(&g.state);
    assert_eq!(bytes[2 * 96..][..8], [1, 5, 1, 0, 16, 1, 0, 6]);
    assert_eq!(bytes[2 * 96 + 32..][..8], [1, 6, 0, 2, 0, 0, 0, 0]);
    assert_eq!(decode(&bytes), Some(g.state.clone()));
    // neither lifted nor not, in a breakpoint and in a free entry; a free one stays as it is
    for lifted in 0..=255 {
        for entry in [0, 1] {
            let mut bytes = bytes;
            bytes[2 * 96 + 32 + 8 * entry] = lifted;
            let state = decode(&bytes);
            assert_eq!(state.is_some(), lifted < 2);
            assert!(state.is_none_or(|state| encode(&state) == bytes && sound(&state)));
        }
    }
    // whoever set it; 0 makes it free, and what else it holds stays
    for setter in 0..=255 {
        bytes[2 * 96 + 32 + 1] = setter;
        bytes[2 * 96 + 5] = u8::from(setter != 0);
        let state = decode(&bytes).unwrap();
        let used = state.processes[2].breakpoints[0].used();
        assert_eq!((sound(&state), used), ([0, 5, 6].contains(&setter), setter != 0));
        assert_eq!(encode(&state), bytes);
    }
}

// ---------------------------------------------------------------- lines, and the desk

/// "A watcher may only `i` and `d`."
#[test]
fn k5_lines_of_a_watcher() {
    let mut g = Gateway::debugged();
    g.store(4, [1, 2]);
    assert_eq!(set(&mut g, OWNER, 4), 10);
    for watching in [false, true] {
        if watching {
            assert_eq!(to(&mut g, TEXT_HOST, WATCH), 10);
        }
        for letter in LETTERS.map(char::from) {
            let granted = watching && matches!(letter, 'i' | 'd');
            let told = g.line(&format!("0x2 {letter} 0x4 0x0"));
            let answer = if granted { "0x0 0x201" } else { "0xffffffff 0x1" };
            assert_eq!(g.answered(), format!("0x2 {letter} {answer}"));
            assert_eq!(told, if granted { g.answered().len() as i64 + 1 } else { -101 });
        }
    }
    assert_eq!(g.line("0x2 i 0x2 0x0"), -114);
    assert_eq!(g.line("0x2 c 0x1 0x"), -122);
    assert_eq!(to(&mut g, TEXT_HOST, END_WATCH), 10);
    assert_eq!(g.line("0x2 i 0x4 0x0"), -101);
}

/// A watcher's breakpoint stops a process that owes an answer: the notice goes to the
/// watcher, the line is answered beside it.
#[test]
fn k5_an_owed_line_beside_a_notice_to_the_watcher() {
    let mut g = super::lines::stopped();
    assert_eq!(to(&mut g, WATCHER, WATCH), 10);
    assert_eq!(set(&mut g, WATCHER, 512), 10);
    assert_eq!(g.line("0x2 c 0x1 0x0"), 0);
    // the watch, and what the watcher asks, cancels nothing
    assert_eq!(set(&mut g, WATCHER, 514), 10);
    assert_eq!(unset(&mut g, WATCHER, 514), 10);
    assert_eq!(to(&mut g, WATCHER, WATCH), 10);
    assert_eq!(g.process().owed, Owed::Continue);
    assert_eq!(g.report(2, BPT, 0, 512), 28 + 256 * 16);
    assert_eq!(g.written(28)[..6], [0, WATCHER, 255, 0, 66, 2]);
    assert_eq!(g.answered(), "0x2 c 0x0 0x57f");
    assert_eq!(g.line("0x2 c 0x1 0x0"), 0);
    assert_eq!(to(&mut g, WATCHER, END_WATCH), 10);
    assert_eq!(g.process().owed, Owed::Continue);
}

#[test]
fn k5_the_desk() {
    let mut output = vec![UNTOUCHED; LONGEST];
    let mut fields = [0; FIELDS];
    for cmd in [WATCH, END_WATCH] {
        assert_eq!(write_request(6, cmd.into(), 2, 0, 0, &[], &mut output), 10);
        assert_eq!(output[..10], [0, 6, 255, 0, cmd, 2, 0, 0, 0, 0]);
        assert_eq!(write_request(6, cmd.into(), 2, 1, 0, &[], &mut output), -6);
        assert_eq!(write_request(6, cmd.into(), 2, 0, 1, &[], &mut output), -6);
        assert_eq!(write_request(6, cmd.into(), 2, 0, 0, &[1], &mut output), -6);
        for cmd in [cmd, cmd + 128] {
            assert_eq!(read_answer(&message(6, cmd, 255, 0, 0, &[]), &mut fields), 0);
            assert_eq!(fields, [6, cmd.into(), 255, 0, 0]);
            assert_eq!(read_answer(&message(6, cmd, 2, 1, 0, &[]), &mut fields), -6);
            assert_eq!(read_answer(&message(6, cmd, 2, 0, 1, &[]), &mut fields), -6);
            assert_eq!(read_answer(&message(6, cmd, 2, 0, 0, &[1]), &mut fields), -6);
        }
    }
}
