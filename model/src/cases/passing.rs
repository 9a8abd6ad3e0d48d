//! K3, "Breakpoints in loops never come back": the run state passing.

use super::*;

/// Where the breakpoint of these cases is, and the word under it.
const AT: u16 = 256;
const WORD_THERE: [u8; 2] = [18, 52];

/// Process 2, debugged by host 5, with a breakpoint of this count.
fn with_count(count: u16) -> Gateway {
    let mut g = Gateway::debugged();
    g.store(AT.into(), WORD_THERE);
    assert_eq!(g.ask(5, BREAK, 2, AT, count, &[]), 10);
    g
}

/// One that has passed its breakpoint by PROCEED BPT, and executes one instruction now.
fn passing() -> Gateway {
    let mut g = with_count(0);
    assert_eq!(g.report(2, BPT, 0, AT), 28);
    assert_eq!(to(&mut g, PROCEED_BPT), 10);
    assert_eq!(shown(&mut g), (Run::Passing, WORD_THERE));
    g
}

/// A request to process 2 without arguments.
fn to(g: &mut Gateway, cmd: u8) -> i64 {
    g.ask(5, cmd, 2, 0, 0, &[])
}

/// The run state, and the word that memory holds under the breakpoint.
fn shown(g: &mut Gateway) -> (Run, [u8; 2]) {
    (g.process().run, g.held(AT.into()))
}

// ---------------------------------------------------------------- loops and steps

#[test]
fn k3_a_loop_of_ten_turns() {
    let mut g = with_count(0);
    for turn in 0..10 {
        assert_eq!(g.report(2, BPT, 0, AT), 28, "turn {turn}");
        assert_eq!(g.written(28)[4], 66);
        assert_eq!(shown(&mut g), (Run::AtBreakpoint, BPT_WORD));
        assert_eq!(to(&mut g, PROCEED_BPT), 10);
        assert_eq!(shown(&mut g), (Run::Passing, WORD_THERE));
        assert_eq!(g.report(2, TTRAP, 0, AT + 2), 0);
        g.written(0);
        assert_eq!(shown(&mut g), (Run::Running, BPT_WORD));
        assert!(sound(&g.state));
    }
}

#[test]
fn k3_a_count_of_nine_in_a_loop_of_ten_turns() {
    let mut g = with_count(9);
    for turn in 0..9 {
        assert_eq!(g.report(2, BPT, 0, AT), 0, "turn {turn}");
        assert_eq!(shown(&mut g), (Run::Passing, WORD_THERE));
        assert_eq!(g.report(2, TTRAP, 0, AT + 2), 0);
        assert_eq!(shown(&mut g), (Run::Running, BPT_WORD));
    }
    assert_eq!(g.report(2, BPT, 0, AT), 28);
    // The count stays 0, so each turn from now on stops.
    assert_eq!(to(&mut g, PROCEED_BPT), 10);
    assert_eq!(g.report(2, TTRAP, 0, AT + 2), 0);
    assert_eq!(g.report(2, BPT, 0, AT), 28);
}

/// "A stepping process that passes silently stays stepping; its TTRAP sends a notice and
/// stops it."
#[test]
fn k3_steps_through_a_breakpoint() {
    let mut g = with_count(2);
    for left in [1, 0] {
        assert_eq!(to(&mut g, STOP), 10);
        assert_eq!(to(&mut g, SINGLE_STEP), 10);
        assert_eq!(g.report(2, BPT, 0, AT), 0);
        assert_eq!(shown(&mut g), (Run::Stepping, WORD_THERE));
        assert_eq!(g.process().breakpoints[0].remaining, left);
        assert_eq!(g.report(2, TTRAP, 0, AT + 2), 28);
        assert_eq!(g.written(28)[4], 67);
        assert_eq!(shown(&mut g), (Run::Stopped, BPT_WORD));
    }
    // SINGLE STEP at a breakpoint lifts, and is no passing either.
    assert_eq!(to(&mut g, RESUME), 10);
    assert_eq!(g.report(2, BPT, 0, AT), 28);
    assert_eq!(to(&mut g, SINGLE_STEP), 10);
    assert_eq!(shown(&mut g), (Run::Stepping, WORD_THERE));
    assert_eq!(g.report(2, TTRAP, 0, AT + 2), 28);
    assert_eq!(shown(&mut g), (Run::Stopped, BPT_WORD));
}

/// "is entered only where a breakpoint was lifted"
#[test]
fn k3_proceed_with_no_breakpoint_at_pc_runs() {
    for pc in [AT + 2, AT + 1, 0, 4096, 65_535] {
        let mut g = with_count(3);
        assert_eq!(g.report(2, BPT, 0, pc), 28);
        assert_eq!(to(&mut g, PROCEED_BPT), 10);
        assert_eq!(shown(&mut g), (Run::Running, BPT_WORD));
        assert_eq!(g.report(2, TTRAP, 0, pc), -9);
    }
    // The one at PC counts when the request comes: moved there, and moved away.
    let mut g = with_count(0);
    for (told, set, run) in [(0, AT, Run::Passing), (AT, 0, Run::Running)] {
        assert_eq!(g.report(2, BPT, 0, told), 28);
        assert_eq!(g.ask(5, DEPOSIT_STATE_VECTOR, 2, 14, 2, &set.to_le_bytes()), 10);
        assert_eq!(to(&mut g, PROCEED_BPT), 10);
        assert_eq!(g.process().run, run);
    }
}

// ---------------------------------------------------------------- requests while passing

#[test]
fn k3_stop_and_end_debug_while_passing() {
    let mut g = passing();
    assert_eq!(to(&mut g, STOP), 10);
    assert_eq!(shown(&mut g), (Run::Stopped, BPT_WORD));
    assert_eq!(g.report(2, TTRAP, 0, AT + 2), -9);
    let mut g = passing();
    assert_eq!(to(&mut g, END_DEBUG), 10);
    assert_eq!(shown(&mut g), (Run::Running, WORD_THERE));
    assert_eq!(g.process().breakpoints, [FREE; 8]);
    // The TTRAP that was on its way is refused then.
    assert_eq!(g.report(2, TTRAP, 0, AT + 2), -9);
}

#[test]
fn k3_resume_step_and_proceed_while_passing() {
    let mut g = passing();
    let before = (g.state.clone(), g.memory.clone());
    for cmd in [RESUME, SINGLE_STEP, PROCEED_BPT] {
        assert_eq!(to(&mut g, cmd), -9);
        assert_eq!(g.written(10), [0, 5, 255, 0, cmd + 128, 2, 0, 0, 0, 0]);
        assert_eq!(g.ask(6, cmd, 2, 0, 0, &[]), -8);
        assert_eq!((&g.state, &g.memory), (&before.0, &before.1));
    }
}

#[test]
fn k3_unbreak_while_passing() {
    let mut g = passing();
    g.store(AT.into(), [8, 9]);
    assert_eq!(g.ask(5, UNBREAK, 2, AT, 0, &[]), 10);
    assert_eq!(shown(&mut g), (Run::Passing, [8, 9]));
    assert_eq!(g.process().breakpoints, [FREE; 8]);
    assert!(sound(&g.state));
    assert_eq!(to(&mut g, RESUME), -9);
    assert_eq!(g.report(2, TTRAP, 0, AT + 2), 0);
    assert_eq!(shown(&mut g), (Run::Running, [8, 9]));
    assert_eq!(g.process().vector[PC], AT + 2);
    // One that is set there again meanwhile is planted, and the TTRAP leaves it so.
    let mut g = passing();
    assert_eq!(g.ask(5, UNBREAK, 2, AT, 0, &[]), 10);
    assert_eq!(g.ask(5, BREAK, 2, AT, 0, &[]), 10);
    assert_eq!(shown(&mut g), (Run::Passing, BPT_WORD));
    assert_eq!(g.report(2, TTRAP, 0, AT + 2), 0);
    assert_eq!(shown(&mut g), (Run::Running, BPT_WORD));
}

/// Passing with none lifted: STOP, and reports that stop, as from running.
#[test]
fn k3_none_lifted_while_passing() {
    let unbroken = || {
        let mut g = passing();
        assert_eq!(g.ask(5, UNBREAK, 2, AT, 0, &[]), 10);
        g
    };
    let mut g = unbroken();
    assert_eq!(to(&mut g, STOP), 10);
    assert_eq!(shown(&mut g), (Run::Stopped, WORD_THERE));
    for (kind, run) in [(TRAP, Run::Stopped), (HALT, Run::Ended), (BPT, Run::AtBreakpoint)] {
        let mut g = unbroken();
        assert_eq!(g.report(2, kind, 0, AT), 28);
        assert_eq!(shown(&mut g), (run, WORD_THERE));
    }
    let mut g = unbroken();
    assert_eq!(g.ask(5, BREAK, 2, 4, 1, &[]), 10);
    assert_eq!(g.report(2, BPT, 0, 4), 0);
    assert_eq!((g.process().run, g.process().breakpoints[0].lifted), (Run::Passing, true));
}

#[test]
fn k3_other_requests_leave_it_passing() {
    let mut g = passing();
    assert_eq!(to(&mut g, DEBUG), 10);
    assert_eq!(g.ask(5, BREAK, 2, 4, 0, &[]), 10);
    assert_eq!(g.ask(5, BREAK, 2, AT, 7, &[]), 10);
    assert_eq!(g.ask(5, UNBREAK, 2, 4, 0, &[]), 10);
    assert_eq!(g.ask(5, DEPOSIT_STATE_VECTOR, 2, 14, 2, &[4, 0]), 10);
    assert_eq!(g.ask(5, DEPOSIT, 2, AT, 2, &[70, 71]), 10);
    assert_eq!(shown(&mut g), (Run::Passing, [70, 71]));
    assert_eq!(g.ask(5, EXAMINE, 2, AT, 2, &[]), 12);
    assert_eq!(g.written(12)[10..], [70, 71]);
    assert_eq!(g.report(2, TTRAP, 0, AT + 2), 0);
    assert_eq!(shown(&mut g), (Run::Running, BPT_WORD));
    let saved = [70, 71];
    let planted = Breakpoint { setter: 5, address: AT, remaining: 7, saved, ..FREE };
    assert_eq!(g.process().breakpoints[0], planted);
}

// ---------------------------------------------------------------- reports while passing

/// "a lifted breakpoint planted again", with the word that memory holds then.
#[test]
fn k3_the_silent_ttrap_stores_the_vector_and_the_word() {
    let mut g = passing();
    g.store(AT.into(), [8, 9]);
    assert_eq!(g.report(2, TTRAP, 0, 1000), 0);
    assert_eq!(g.process().vector, words_with(1000));
    assert_eq!(g.process().breakpoints[0].saved, [8, 9]);
    assert_eq!(shown(&mut g), (Run::Running, BPT_WORD));
    assert_eq!(g.ask(5, EXAMINE, 2, AT, 2, &[]), 12);
    assert_eq!(g.written(12)[10..], [8, 9]);
    // An instruction that jumps to itself: PC is at the breakpoint, and no count plays a part.
    let mut g = with_count(5);
    assert_eq!(g.report(2, BPT, 0, AT), 0);
    assert_eq!(g.report(2, TTRAP, 0, AT), 0);
    assert_eq!(g.process().breakpoints[0].remaining, 4);
    assert_eq!(shown(&mut g), (Run::Running, BPT_WORD));
}

#[test]
fn k3_reports_that_stop_it_while_passing() {
    for (kind, reason, run) in
        [(TRAP, 4, Run::Stopped), (HALT, 0, Run::Ended), (BPT, 0, Run::AtBreakpoint)]
    {
        for pc in [AT, AT + 2] {
            let mut g = passing();
            assert_eq!(g.report(2, kind, reason, pc), 28);
            assert_eq!(g.written(28)[..8], [0, 5, 255, 0, 64 + kind, 2, 0, reason as u8]);
            assert_eq!(shown(&mut g), (run, BPT_WORD));
            assert_eq!(g.process().vector[PC], pc);
        }
    }
}

/// The next instruction has a breakpoint too, and passes it silently: the first is planted,
/// the other lifted.
#[test]
fn k3_from_one_breakpoint_to_the_next() {
    let mut g = passing();
    g.store(usize::from(AT) + 2, [70, 71]);
    assert_eq!(g.ask(5, BREAK, 2, AT + 2, 1, &[]), 10);
    assert_eq!(g.report(2, BPT, 0, AT + 2), 0);
    assert_eq!(shown(&mut g), (Run::Passing, BPT_WORD));
    assert_eq!(g.held(usize::from(AT) + 2), [70, 71]);
    assert_eq!(g.process().breakpoints.map(|b| b.lifted)[..2], [false, true]);
    assert_eq!(g.report(2, TTRAP, 0, AT + 4), 0);
    assert_eq!(g.held(usize::from(AT) + 2), BPT_WORD);
    assert_eq!(g.process().run, Run::Running);
}

/// "9 no longer for a report while passing, TTRAP included": every kind in every run state.
#[test]
fn k3_which_report_is_accepted_when() {
    for run in Run::ALL {
        for kind in [TRAP, HALT, BPT, TTRAP] {
            let mut g = with_count(0);
            g.process().run = run;
            let answer = match (run, kind) {
                (Run::Passing, TTRAP) => 0,
                (Run::Running, TTRAP) => -9,
                (Run::Running | Run::Stepping | Run::Passing, _) => 28,
                _ => -9,
            };
            assert_eq!(g.report(2, kind, 0, AT), answer, "{run:?}, kind {kind}");
        }
    }
}

#[test]
fn k3_only_one_ttrap_for_a_passing() {
    let mut g = passing();
    assert_eq!(g.report(2, TTRAP, 0, AT + 2), 0);
    assert_eq!(g.report(2, TTRAP, 0, AT + 4), -9);
    assert_eq!(g.process().vector[PC], AT + 2);
}

// ---------------------------------------------------------------- states

/// "Sound now allows a lifted one only while stepping or passing."
#[test]
fn k3_sound() {
    for run in Run::ALL {
        let mut g = with_count(0);
        g.process().run = run;
        assert!(sound(&g.state), "{run:?}, none lifted");
        g.process().breakpoints[0].lifted = true;
        let right = matches!(run, Run::Stepping | Run::Passing);
        assert_eq!(sound(&g.state), right, "{run:?}, one lifted");
        assert_eq!(g.ask(5, NOP, 0, 0, 0, &[]), if right { 10 } else { -2 });
        g.process().breakpoints[1] = Breakpoint { address: 4, ..g.process().breakpoints[0] };
        assert!(!sound(&g.state), "{run:?}, two lifted");
    }
}

/// Sound, though no call leads there.
#[test]
fn k3_a_passing_process_without_a_host() {
    for (kind, run) in
        [(TRAP, Run::Stopped), (HALT, Run::Ended), (BPT, Run::AtBreakpoint), (TTRAP, Run::Running)]
    {
        let mut g = Gateway::new(1 << 2);
        g.process().run = Run::Passing;
        assert!(sound(&g.state));
        assert_eq!(g.report(2, kind, 0, AT), 0);
        assert_eq!(*g.process(), Process { run, there: true, vector: words_with(AT), ..CLEARED });
    }
    let mut g = Gateway::new(1 << 2);
    g.process().run = Run::Passing;
    assert_eq!(to(&mut g, DEBUG), 10);
    assert_eq!(g.process().run, Run::Passing);
    g.process().there = false;
    g.process().host = NOBODY;
    assert!(sound(&g.state), "an absent one");
}

#[test]
fn k3_run_states_in_bytes() {
    let mut g = passing();
    let bytes = encode(&g.state);
    assert_eq!(bytes[2 * RECORD_BYTES + 2], 5);
    assert_eq!(decode(&bytes), Some(g.state.clone()));
    for byte in 0..=255 {
        let mut changed = bytes;
        changed[2 * RECORD_BYTES + 2] = byte;
        let run = decode(&changed).map(|state| state.processes[2].run);
        assert_eq!(run.map(|run| run as u8), (byte < 6).then_some(byte));
        let nop = message(5, NOP, 0, 0, 0, &[]);
        let answer = request_bytes(&mut changed, &mut g.memory, &nop, &mut g.output);
        assert_eq!(answer, if byte == 1 || byte == 5 { 10 } else { -2 });
    }
}

#[test]
fn k3_a_passing_process_moves() {
    let mut g = Gateway::with_sizes(0b101, &EIGHT);
    g.memory.fill(77);
    assert_eq!(g.ask(5, DEBUG, 0, 0, 0, &[]), 10);
    assert_eq!(to(&mut g, DEBUG), 10);
    assert_eq!(g.ask(5, BREAK, 2, AT, 1, &[]), 10);
    assert_eq!(g.report(2, BPT, 0, AT), 0);
    assert_eq!(g.ask(5, DESTROY_PROCESS, 0, 0, 0, &[]), 10);
    assert_eq!(shown(&mut g), (Run::Passing, [77, 77]));
    assert_eq!(g.report(2, TTRAP, 0, AT + 2), 0);
    assert_eq!(shown(&mut g), (Run::Running, BPT_WORD));
    assert_eq!(g.memory[256..258], BPT_WORD);
    assert_eq!(g.ask(5, DESTROY_PROCESS, 2, 0, 0, &[]), 10);
    assert_eq!(*g.process(), CLEARED);
}
