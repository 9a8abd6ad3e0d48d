//! K6, "How many are set": the number that each record keeps, and STATUS.

use super::*;

/// The one who debugs process 2, the one who watches it, and a third.
const OWNER: u8 = 5;
const WATCHER: u8 = 6;
const THIRD: u8 = 7;

fn to(g: &mut Gateway, host: u8, cmd: u8) -> i64 {
    g.ask(host, cmd, 2, 0, 0, &[])
}

fn set(g: &mut Gateway, host: u8, address: u16) -> i64 {
    g.ask(host, BREAK, 2, address, 1, &[])
}

/// Process 2 alone, debugged by host 5 and watched by host 6.
fn watched() -> Gateway {
    let mut g = Gateway::debugged();
    assert_eq!(to(&mut g, WATCHER, WATCH), 10);
    g
}

/// Both who may ask are answered with this number and this run state, a third is not, and
/// nothing changes.
#[track_caller]
fn told(g: &mut Gateway, number: u8, run: u8) {
    let (before, memory) = (g.state.clone(), g.memory.clone());
    for host in [OWNER, WATCHER] {
        if g.process().host == host || g.process().watcher == host {
            assert_eq!(to(g, host, STATUS), 10);
            assert_eq!(g.written(10), [0, host, 255, 0, 16, 2, 0, number, 0, run]);
        }
    }
    assert_eq!(to(g, THIRD, STATUS), -8);
    assert_eq!(g.written(10), [0, THIRD, 255, 0, 144, 2, 0, 0, 0, 0]);
    assert_eq!((&before, &memory), (&g.state, &g.memory));
}

/// "the run state in ARG2 (0 to 4 in document 01's listed order, 5 passing)": "running,
/// stepping, stopped, at a breakpoint, ended".
#[test]
fn k6_the_run_states() {
    let mut g = watched();
    told(&mut g, 0, 0);
    assert_eq!(set(&mut g, OWNER, 256), 10);
    assert_eq!(to(&mut g, OWNER, STOP), 10);
    told(&mut g, 1, 2);
    assert_eq!(to(&mut g, OWNER, SINGLE_STEP), 10);
    told(&mut g, 1, 1);
    // a silent pass while stepping, then the breakpoint is met
    assert_eq!(g.report(2, BPT, 0, 256), 0);
    told(&mut g, 1, 1);
    assert_eq!(g.report(2, TTRAP, 0, 258), 28);
    assert_eq!(to(&mut g, OWNER, RESUME), 10);
    assert_eq!(g.report(2, BPT, 0, 256), 28);
    told(&mut g, 1, 3);
    // a lifted one counts
    assert_eq!(to(&mut g, OWNER, PROCEED_BPT), 10);
    told(&mut g, 1, 5);
    assert_eq!(g.report(2, TTRAP, 0, 258), 0);
    told(&mut g, 1, 0);
    assert_eq!(g.report(2, HALT, 0, 258), 28);
    told(&mut g, 1, 4);
}

/// "Each process record keeps its number of breakpoints, true after every operation"
#[test]
fn k6_the_number_after_every_operation() {
    let mut g = watched();
    for n in 0..4 {
        told(&mut g, 2 * n, 0);
        assert_eq!(set(&mut g, OWNER, 2 * u16::from(n)), 10);
        told(&mut g, 2 * n + 1, 0);
        assert_eq!(set(&mut g, WATCHER, 512 + 2 * u16::from(n)), 10);
    }
    told(&mut g, 8, 0);
    // refused ones and a new count leave it
    assert_eq!(set(&mut g, OWNER, 1024), -11);
    assert_eq!(set(&mut g, OWNER, 512), -16);
    assert_eq!(set(&mut g, OWNER, 1), -10);
    assert_eq!(g.ask(OWNER, UNBREAK, 2, 1024, 0, &[]), -12);
    assert_eq!(g.ask(OWNER, UNBREAK, 2, 512, 0, &[]), -16);
    assert_eq!(set(&mut g, OWNER, 0), 10);
    told(&mut g, 8, 0);
    assert_eq!(g.ask(OWNER, UNBREAK, 2, 2, 0, &[]), 10);
    told(&mut g, 7, 0);
    assert_eq!(g.ask(WATCHER, UNBREAK, 2, 514, 0, &[]), 10);
    told(&mut g, 6, 0);
    // the watcher's three go
    assert_eq!(to(&mut g, WATCHER, END_WATCH), 10);
    told(&mut g, 3, 0);
    assert_eq!(to(&mut g, WATCHER, WATCH), 10);
    told(&mut g, 3, 0);
    assert_eq!(set(&mut g, WATCHER, 512), 10);
    assert_eq!(to(&mut g, OWNER, END_DEBUG), 10);
    assert_eq!(g.process().set, 0);
    assert_eq!(to(&mut g, OWNER, STATUS), -8);
    assert_eq!(to(&mut g, OWNER, DEBUG), 10);
    told(&mut g, 0, 0);
    // DESTROY leaves none, and so does CREATE
    assert_eq!(set(&mut g, OWNER, 512), 10);
    assert_eq!(to(&mut g, OWNER, DESTROY_PROCESS), 10);
    assert_eq!(*g.process(), CLEARED);
    assert_eq!(to(&mut g, OWNER, STATUS), -7);
    assert_eq!(g.written(10), [0, OWNER, 255, 0, 144, 2, 0, 0, 0, 0]);
    for p in 0..3 {
        assert_eq!(g.ask(OWNER, CREATE_PROCESS, 0, 0, 0, &[]), 10);
        assert_eq!(g.written(10)[5], p);
    }
    told(&mut g, 0, 2);
}

/// UNBREAK, END WATCH and END DEBUG of a lifted one.
#[test]
fn k6_a_lifted_one_that_goes() {
    for cmd in [UNBREAK, END_WATCH, END_DEBUG] {
        let mut g = watched();
        let setter = if cmd == END_WATCH { WATCHER } else { OWNER };
        for (host, address) in [(OWNER, 0), (WATCHER, 2), (setter, 256)] {
            assert_eq!(set(&mut g, host, address), 10);
        }
        assert_eq!(g.report(2, BPT, 0, 256), 0);
        told(&mut g, 3, 5);
        let arg1 = if cmd == UNBREAK { 256 } else { 0 };
        assert_eq!(g.ask(setter, cmd, 2, arg1, 0, &[]), 10);
        match cmd {
            UNBREAK => told(&mut g, 2, 5),
            END_WATCH => told(&mut g, 1, 5),
            _ => assert_eq!((g.process().set, g.process().run), (0, Run::Running)),
        }
    }
}

/// "Debugging host or watcher only." The tests before it are those of every request.
#[test]
fn k6_refusals() {
    let mut g = Gateway::new(1 << 2);
    assert_eq!(to(&mut g, OWNER, STATUS), -8);
    assert_eq!(g.written(10), [0, OWNER, 255, 0, 144, 2, 0, 0, 0, 0]);
    for pid in [0, 1, 3, 8, 255] {
        assert_eq!(g.ask(OWNER, STATUS, pid, 0, 0, &[]), -7);
        assert_eq!(g.written(10), [0, OWNER, 255, 0, 144, pid, 0, 0, 0, 0]);
    }
    let mut g = watched();
    for (arg1, arg2, string) in [(1, 0, 0), (0, 1, 0), (256, 256, 0), (0, 0, 1)] {
        assert_eq!(g.ask(OWNER, STATUS, 2, arg1, arg2, &[7, 7][..string]), -6);
        g.written(0);
    }
    assert_eq!(g.ask(NOBODY, STATUS, 2, 0, 0, &[]), -4);
    assert_eq!(g.ask(OWNER, 17, 2, 0, 0, &[]), -5);
    assert_eq!(to(&mut g, WATCHER, END_WATCH), 10);
    assert_eq!(to(&mut g, WATCHER, STATUS), -8);
}

/// "2 covers a wrong stored number", in every record.
#[test]
fn k6_sound_states() {
    let mut g = watched();
    assert_eq!((set(&mut g, OWNER, 0), set(&mut g, WATCHER, 2)), (10, 10));
    // what a free entry says is not counted
    g.process().breakpoints[5] = OLD;
    let right = encode(&g.state);
    for p in 0..PROCESSES {
        for number in 0..=255 {
            let mut bytes = right;
            bytes[96 * p + 5] = number;
            let state = decode(&bytes).unwrap();
            assert_eq!(state.processes[p].set, number);
            assert_eq!(encode(&state), bytes);
            assert_eq!(sound(&state), number == if p == 2 { 2 } else { 0 });
            let before = bytes;
            let m = message(OWNER, STATUS, 2, 0, 0, &[]);
            let mut reply = vec![UNTOUCHED; LONGEST];
            let answer = request_bytes(&mut bytes, &mut g.memory, &m, &mut reply);
            assert_eq!(answer, if sound(&state) { 10 } else { -2 });
            assert_eq!(bytes, before);
            assert_eq!(reply[HEAD..], [UNTOUCHED; LONGEST - HEAD]);
            assert_eq!(reply[0] == UNTOUCHED, answer < 0);
        }
    }
}

#[test]
fn k6_the_desk() {
    let mut output = vec![UNTOUCHED; LONGEST];
    assert_eq!(write_request(6, 16, 2, 0, 0, &[], &mut output), 10);
    assert_eq!(output[..11], [0, 6, 255, 0, 16, 2, 0, 0, 0, 0, UNTOUCHED]);
    assert_eq!(write_request(6, 16, 2, 1, 0, &[], &mut output), -6);
    assert_eq!(write_request(6, 16, 2, 0, 1, &[], &mut output), -6);
    assert_eq!(write_request(6, 16, 2, 0, 0, &[1], &mut output), -6);
    assert_eq!(write_request(6, 17, 2, 0, 0, &[], &mut output), -5);
    let mut fields = [0; FIELDS];
    // any values: "Neither tests ranges."
    for (arg1, arg2) in [(0, 0), (8, 5), (9, 6), (65_535, 65_535), (0, 256)] {
        let status = message(6, 16, 255, arg1, arg2, &[]);
        assert_eq!(read_answer(&status, &mut fields), 0);
        assert_eq!(fields, [6, 16, 255, arg1, arg2]);
        let cant = message(6, 144, 255, arg1, arg2, &[]);
        let zeros = (arg1, arg2) == (0, 0);
        assert_eq!(read_answer(&cant, &mut fields), if zeros { 0 } else { -6 });
    }
    assert_eq!(read_answer(&message(6, 16, 2, 0, 1, &[1]), &mut fields), -6);
    assert_eq!(read_answer(&message(6, 144, 2, 0, 0, &[1]), &mut fields), -6);
    assert_eq!(read_answer(&message(6, 145, 2, 0, 0, &[]), &mut fields), -5);
}
