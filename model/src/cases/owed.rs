//! K7, "The bench's text debugger": how a process goes on, and the answers that are owed.

use super::lines::{asked, at_breakpoint, bench, refused, stopped, to};
use super::*;

/// A report that is told in a notice and a line.
fn answers(g: &mut Gateway, kind: u8, pc: u16, line: &str) {
    let told = g.report(2, kind, 0, pc);
    assert_eq!((notice_length(told), answered_length(told)), (28, line.len() + 1));
    assert_eq!(g.written(28)[..2], [0, 253]);
    assert_eq!(g.answered(), line);
    assert_eq!(g.process().owed, Owed::Nothing);
}

/// One that is silent, and leaves the answer owed.
fn passes(g: &mut Gateway, kind: u8, pc: u16) {
    let owed = g.process().owed;
    assert_ne!(owed, Owed::Nothing);
    assert_eq!(g.report(2, kind, 0, pc), 0);
    assert_eq!((g.written(0).len(), g.answered()), (0, ""));
    assert_eq!(g.process().owed, owed);
}

#[test]
fn k7_c_from_stopped_resumes() {
    let mut g = at_breakpoint();
    g.process().run = Run::Stopped;
    assert_eq!(g.line("0x2 c 0x1 0x0"), 0);
    assert_eq!((g.process().run, g.process().owed), (Run::Running, Owed::Continue));
    assert_eq!((g.process().vector[PC], g.held(256)), (256, BPT_WORD));
    answers(&mut g, BPT, 512, "0x2 c 0x0 0x57f");
    assert_eq!(g.report(2, BPT, 0, 512), -9);
}

#[test]
fn k7_c_at_a_breakpoint_proceeds() {
    let mut g = at_breakpoint();
    assert_eq!(g.line("0x2 c 0x1 0x9"), 0);
    assert_eq!((g.process().run, g.held(256)), (Run::Passing, [18, 52]));
    // the TTRAP that ends passing answers nothing
    passes(&mut g, TTRAP, 258);
    assert_eq!((g.process().run, g.held(256)), (Run::Running, BPT_WORD));
    answers(&mut g, TRAP, 260, "0x2 c 0x0 0x47f");
    // and it is answered once
    assert_eq!(to(&mut g, RESUME), 10);
    assert_eq!(g.report(2, TRAP, 0, 260), 28);
    assert_eq!(g.answered(), "");
}

/// "an address other than 1 becomes the PC first": what is lifted is the one there.
#[test]
fn k7_c_with_a_new_pc() {
    let mut g = at_breakpoint();
    assert_eq!(g.line("0x2 c 0x200 0x0"), 0);
    assert_eq!((g.process().run, g.process().vector[PC]), (Run::Passing, 512));
    assert_eq!((g.held(256), g.held(512)), (BPT_WORD, [86, 120]));
    answers(&mut g, HALT, 514, "0x2 c 0x0 0x0");
    assert_eq!(g.process().run, Run::Ended);
    let mut g = at_breakpoint();
    assert_eq!(g.line("0x2 c 0xffe 0x0"), 0);
    assert_eq!((g.process().run, g.process().vector[PC]), (Run::Running, 4094));
    assert_eq!(g.held(256), BPT_WORD);
    let mut g = at_breakpoint();
    assert_eq!(g.line("0x2 c 0x0 0x0"), 0);
    assert_eq!(g.process().vector[PC], 0);
}

#[test]
fn k7_s_is_a_single_step() {
    let mut g = at_breakpoint();
    assert_eq!(g.line("0x2 s 0x1 0x0"), 0);
    assert_eq!((g.process().run, g.process().owed), (Run::Stepping, Owed::Step));
    assert_eq!(g.held(256), [18, 52]);
    answers(&mut g, TTRAP, 258, "0x2 s 0x0 0x57f");
    assert_eq!((g.process().run, g.held(256)), (Run::Stopped, BPT_WORD));
    // from stopped nothing is lifted
    assert_eq!(g.line("0x2 s 0x200 0x0"), 0);
    assert_eq!((g.process().run, g.held(512)), (Run::Stepping, BPT_WORD));
    answers(&mut g, BPT, 512, "0x2 s 0x0 0x57f");
    assert_eq!(g.process().run, Run::AtBreakpoint);
}

#[test]
fn k7_silent_passes_answer_nothing() {
    let mut g = at_breakpoint();
    assert_eq!(g.ask(TEXT_HOST, BREAK, 2, 256, 2, &[]), 10);
    assert_eq!(g.line("0x2 c 0x1 0x0"), 0);
    for _ in 0..2 {
        passes(&mut g, TTRAP, 258);
        passes(&mut g, BPT, 256);
    }
    passes(&mut g, TTRAP, 258);
    answers(&mut g, BPT, 256, "0x2 c 0x0 0x57f");
    assert_eq!(g.ask(TEXT_HOST, BREAK, 2, 512, 1, &[]), 10);
    assert_eq!(g.line("0x2 s 0x1 0x0"), 0);
    passes(&mut g, BPT, 512);
    assert_eq!(g.process().run, Run::Stepping);
    answers(&mut g, TTRAP, 514, "0x2 s 0x0 0x57f");
}

/// "STOP, END DEBUG and DESTROY cancel an owed answer"
#[test]
fn k7_what_cancels() {
    for (cmd, letter) in [(STOP, 'c'), (STOP, 's'), (END_DEBUG, 'c'), (END_DEBUG, 's')] {
        let mut g = stopped();
        assert_eq!(g.line(&format!("0x2 {letter} 0x1 0x0")), 0);
        assert_eq!(to(&mut g, cmd), 10);
        assert_eq!(g.process().owed, Owed::Nothing);
        assert!(sound(&g.state));
        assert_eq!(to(&mut g, DEBUG), 10);
        g.process().run = Run::Running;
        assert_eq!(g.report(2, TRAP, 0, 0), 28);
        assert_eq!(g.answered(), "");
    }
    let mut g = stopped();
    assert_eq!(g.line("0x2 c 0x1 0x0"), 0);
    assert_eq!(to(&mut g, DESTROY_PROCESS), 10);
    assert_eq!(*g.process(), CLEARED);
    // any granted STOP cancels, in a state that no call leads to
    for run in Run::ALL {
        let mut g = bench();
        (g.process().run, g.process().owed) = (run, Owed::Step);
        assert_eq!(g.ask(5, STOP, 2, 0, 0, &[]), -8);
        assert_eq!(g.process().owed, Owed::Step);
        assert_eq!(to(&mut g, STOP), 10);
        assert_eq!(g.process().owed, Owed::Nothing);
    }
}

#[test]
fn k7_create_owes_nothing() {
    let mut g = Gateway::new(0);
    assert_eq!(g.ask(TEXT_HOST, CREATE_PROCESS, 0, 8, 0, &[]), 10);
    assert_eq!(g.state.processes[0].owed, Owed::Nothing);
    assert_eq!(asked(&mut g, "0x0 i 0x4 0x0"), "0x0 i 0x0 0x0");
    refused(&mut g, "0x0 i 0x8 0x0", 114);
    refused(&mut g, "0x0 c 0x8 0x0", 114);
    assert_eq!(g.line("0x0 c 0x6 0x0"), 0);
    assert_eq!(g.state.processes[0].vector[PC], 6);
}

#[test]
fn k7_the_owed_answer_in_the_byte_form() {
    let mut g = stopped();
    for (letter, byte) in [('c', 1), ('s', 2)] {
        assert_eq!(g.line(&format!("0x2 {letter} 0x1 0x0")), 0);
        let mut bytes = encode(&g.state);
        assert_eq!(bytes[2 * RECORD_BYTES + OWED_AT], byte);
        assert_eq!(decode(&bytes), Some(g.state.clone()));
        for other in 3..=255 {
            bytes[2 * RECORD_BYTES + OWED_AT] = other;
            assert_eq!(decode(&bytes), None);
        }
        assert_eq!(to(&mut g, STOP), 10);
    }
}
