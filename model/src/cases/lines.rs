//! K7, "The bench's text debugger": lines, what can be read of them, and what they do.

use super::*;

/// Process 2 alone, debugged by host 253.
pub fn bench() -> Gateway {
    let mut g = Gateway::new(1 << 2);
    assert_eq!(to(&mut g, DEBUG), 10);
    g
}

/// A request of host 253 to process 2 without arguments.
pub fn to(g: &mut Gateway, cmd: u8) -> i64 {
    g.ask(TEXT_HOST, cmd, 2, 0, 0, &[])
}

/// The same, stopped.
pub fn stopped() -> Gateway {
    let mut g = bench();
    assert_eq!(to(&mut g, STOP), 10);
    g
}

/// The same at a breakpoint at 256, with a second one at 512.
pub fn at_breakpoint() -> Gateway {
    let mut g = bench();
    g.store(256, [18, 52]);
    g.store(512, [86, 120]);
    for at in [256, 512] {
        assert_eq!(g.ask(TEXT_HOST, BREAK, 2, at, 0, &[]), 10);
    }
    assert_eq!(g.report(2, BPT, 0, 256), 28);
    assert_eq!(g.answered(), "");
    g
}

/// What a line is answered with; the length is that of the answer.
pub fn asked(g: &mut Gateway, text: &str) -> String {
    let length = g.line(text);
    let answer = g.answered().to_string();
    assert_eq!(length, answer.len() as i64 + 1, "{text}");
    answer
}

/// A line that is refused with this number: its errno is in the line, and nothing changes.
pub fn refused(g: &mut Gateway, text: &str, number: i64) {
    let before = (g.state.clone(), g.memory.clone());
    assert_eq!(g.line(text), -number, "{text}");
    let head: Vec<&str> = text.splitn(3, ' ').take(2).collect();
    assert_eq!(g.answered(), format!("{} 0xffffffff {:#x}", head.join(" "), number - 100));
    assert!(before == (g.state.clone(), g.memory.clone()));
}

fn silent(g: &mut Gateway, text: &[u8]) {
    assert_eq!(g.raw(text), -6, "{text:?}");
    assert_eq!(g.answered(), "");
}

// ---------------------------------------------------------------- words and registers

#[test]
fn k7_words_are_four_seen_bytes_low_byte_first() {
    let mut g = bench();
    g.store(4, [1, 2]);
    g.store(6, [3, 4]);
    assert_eq!(asked(&mut g, "0x2 i 0x4 0x0"), "0x2 i 0x0 0x4030201");
    assert_eq!(g.ask(TEXT_HOST, BREAK, 2, 6, 0, &[]), 10);
    assert_eq!(asked(&mut g, "0x2 d 0x4 0xffffffff"), "0x2 d 0x0 0x4030201");
    assert_eq!(asked(&mut g, "0x2 I 0x4 0xa0b0c0d"), "0x2 I 0x0 0x4030201");
    assert_eq!((g.held(4), g.held(6)), ([0x0d, 0x0c], [3, 0]));
    assert_eq!(asked(&mut g, "0x2 D 0x4 0x0"), "0x2 D 0x0 0xa0b0c0d");
    assert_eq!(asked(&mut g, "0x2 i 0x4 0x0"), "0x2 i 0x0 0x0");
    assert_eq!(g.ask(TEXT_HOST, UNBREAK, 2, 6, 0, &[]), 10);
    assert_eq!(g.held(6), [0, 0]);
    for (letter, number) in [('i', 114), ('d', 114), ('I', 114), ('D', 114)] {
        for at in ["0x1", "0x2", "0x3", "0xffd", "0xffe", "0x1000", "0x10004", "0xfffffffc"] {
            refused(&mut g, &format!("0x2 {letter} {at} 0x5"), number);
        }
    }
    assert_eq!(asked(&mut g, "0x2 I 0xffc 0xffffffff"), "0x2 I 0x0 0x0");
    assert_eq!(asked(&mut g, "0x2 i 0xffc 0x0"), "0x2 i 0x0 0xffffffff");
}

/// A word that reaches past the size, which is no multiple of 4.
#[test]
fn k7_a_word_is_outside_where_one_byte_is() {
    let mut g = Gateway::with_sizes(1 << 2, &[6; PROCESSES]);
    assert_eq!(to(&mut g, DEBUG), 10);
    assert_eq!(asked(&mut g, "0x2 i 0x0 0x0"), "0x2 i 0x0 0x0");
    refused(&mut g, "0x2 i 0x4 0x0", 114);
    refused(&mut g, "0x2 i 0x8 0x0", 114);
}

#[test]
fn k7_registers_are_0_to_8_in_vector_order() {
    let mut g = bench();
    for n in 0..9 {
        let value = 0x1100 + n;
        let set = format!("0x2 R 0x{n:x} 0x{value:x}");
        assert_eq!(asked(&mut g, &set), "0x2 R 0x0 0x0");
        assert_eq!(g.process().vector[n], value as u16);
        assert_eq!(asked(&mut g, &set), format!("0x2 R 0x0 0x{value:x}"));
        assert_eq!(asked(&mut g, &format!("0x2 r 0x{n:x} 0x77")), format!("0x2 r 0x0 0x{value:x}"));
    }
    assert_eq!(asked(&mut g, "0x2 R 0x0 0xffff"), "0x2 R 0x0 0x1100");
    for text in ["0x2 r 0x9 0x0", "0x2 R 0x9 0xffff", "0x2 r 0xffffffff 0x0"] {
        refused(&mut g, text, 114);
    }
    for text in ["0x2 R 0x0 0x10000", "0x2 R 0x9 0x10000", "0x2 R 0x0 0xffffffff"] {
        refused(&mut g, text, 122);
    }
}

// ---------------------------------------------------------------- what can be read

/// "silent, [..] 6 a PID or request that cannot be read"
#[test]
fn k7_a_pid_or_request_that_cannot_be_read() {
    let mut g = bench();
    let no_pid = [
        "",
        "\n",
        " ",
        "2 i 0x0 0x0\n",
        "0x i 0x0 0x0\n",
        "0x02 i 0x0 0x0\n",
        "0X2 i 0x0 0x0\n",
        "0xA i 0x0 0x0\n",
        "0x100000000 i 0x0 0x0\n",
        " 0x2 i 0x0 0x0\n",
        "-0x2 i 0x0 0x0\n",
        "0x+2 i 0x0 0x0\n",
        "0x2g i 0x0 0x0\n",
        "0x2i 0x0 0x0\n",
        "0x2\ti 0x0 0x0\n",
        "0x2\ni 0x0 0x0\n",
        "0x000000002 i 0x0 0x0\n",
        "x2 i 0x0 0x0\n",
    ];
    let no_request = [
        "0x2",
        "0x2\n",
        "0x2 ",
        "0x2 \n",
        "0x2  i 0x0 0x0\n",
        "0x2 ii 0x0 0x0\n",
        "0x2 x 0x0 0x0\n",
        "0x2 C 0x1 0x0\n",
        "0x2 S 0x1 0x0\n",
        "0x2 i\r\n",
        "0x2 i\t0x0 0x0\n",
        "0x2 0x0 0x0\n",
        "0x2 \0 0x0 0x0\n",
        "0x2 i0x0 0x0\n",
    ];
    for text in no_pid.iter().chain(&no_request) {
        silent(&mut g, text.as_bytes());
    }
    silent(&mut g, &[0x30, 0x78, 0x32, 0x20, 0xe9, 0x20]);
}

/// "22 anything else in the line unreadable", before all other tests as errno.
#[test]
fn k7_anything_else_unreadable() {
    let mut g = bench();
    let texts = [
        "0x2 i",
        "0x2 i\n",
        "0x2 i \n",
        "0x2 i 0x0",
        "0x2 i 0x0\n",
        "0x2 i 0x0 \n",
        "0x2 i 0x0 0x0",
        "0x2 i 0x0 0x0\n\n",
        "0x2 i 0x0 0x0\r\n",
        "0x2 i 0x0 0x0 \n",
        "0x2 i  0x0 0x0\n",
        "0x2 i 0x0  0x0\n",
        "0x2 i 0x00 0x0\n",
        "0x2 i 0x0 0x00\n",
        "0x2 i 0x0 0x0a\n",
        "0x2 i 0x0 0xA\n",
        "0x2 i 0 0x0\n",
        "0x2 i 0x100000000 0x0\n",
        "0x2 i 0x0 0x100000000\n",
        "0x2 i 0x0 0x0 0x0\n",
        "0x2 i 0x0 0x\n",
        "0x2 i 0x0 0x0\nx",
        "0x2 i\n0x0 0x0\n",
        "0x2 i 0x0\n0x0\n",
    ];
    for text in texts {
        for pid in ["0x2", "0x3", "0xffffffff"] {
            let text = text.replacen("0x2", pid, 1);
            assert_eq!(g.raw(text.as_bytes()), -122, "{text:?}");
            assert_eq!(g.answered(), format!("{pid} i 0xffffffff 0x16"));
        }
    }
}

/// "Reading a printed line gives its meaning, and no other line does."
#[test]
fn k7_reading_a_printed_line_gives_its_meaning() {
    let numbers = [0, 1, 9, 10, 15, 16, 255, 256, 0xabcdef, 0x7fff_ffff, 0x8000_0000, u32::MAX];
    for letter in LETTERS {
        for (i, &n) in numbers.iter().enumerate() {
            let (m, k) = (numbers[(i + 5) % 12], numbers[(i + 7) % 12]);
            let mut buffer = [UNTOUCHED; LONGEST_LINE + 1];
            let length = write_line(n, letter, m, k, &mut buffer);
            let printed = format!("{n:#x} {} {m:#x} {k:#x}\n", char::from(letter));
            assert_eq!(buffer[..length], *printed.as_bytes());
            assert!(buffer[length..].iter().all(|&b| b == UNTOUCHED));
            let read = LineRead { pid: n, request: letter, arguments: Some((m, k)) };
            assert_eq!(read_line(&buffer[..length]), Some(read));
        }
    }
    let mut buffer = [0; LONGEST_LINE];
    assert_eq!(write_line(u32::MAX, b'i', u32::MAX, u32::MAX, &mut buffer), LONGEST_LINE);
}

// ---------------------------------------------------------------- the order of tests

#[test]
fn k7_no_such_process_and_no_right() {
    let mut g = Gateway::new(0b1111);
    assert_eq!(g.ask(5, DEBUG, 2, 0, 0, &[]), 10);
    for letter in LETTERS.map(char::from) {
        for pid in [4, 7, 8, 258, 0x1_0002, u32::MAX] {
            refused(&mut g, &format!("{pid:#x} {letter} 0x3 0x10000"), 103);
        }
        for pid in [0, 2] {
            refused(&mut g, &format!("{pid:#x} {letter} 0x3 0x10000"), 101);
        }
    }
}

#[test]
fn k7_an_answer_owed_whatever_is_asked() {
    let mut g = stopped();
    assert_eq!(g.line("0x2 c 0x1 0x0"), 0);
    assert_eq!(g.answered(), "");
    for letter in LETTERS.map(char::from) {
        refused(&mut g, &format!("0x2 {letter} 0x0 0x0"), 116);
        refused(&mut g, &format!("0x2 {letter} 0x3 0x10000"), 116);
    }
    assert_eq!(g.raw(b"0x2 i 0x0 0x0"), -122);
    assert_eq!(g.raw(b"0x2 x 0x0 0x0\n"), -6);
    // "whatever is asked" is said of lines
    assert_eq!(g.ask(TEXT_HOST, EXAMINE, 2, 0, 4, &[]), 14);
    assert_eq!(to(&mut g, DEBUG), 10);
    assert_eq!(g.process().owed, Owed::Continue);
}

#[test]
fn k7_a_wrong_state_comes_before_a_bad_pc() {
    let mut g = bench();
    for run in [Run::Running, Run::Stepping, Run::Ended, Run::Passing] {
        g.process().run = run;
        for text in ["0x2 c 0x1 0x0", "0x2 s 0x1 0x0", "0x2 c 0x3 0x0", "0x2 s 0x1000 0x0"] {
            refused(&mut g, text, 122);
        }
        assert_eq!(asked(&mut g, "0x2 i 0x0 0x0"), "0x2 i 0x0 0x0");
        assert_eq!(asked(&mut g, "0x2 R 0x1 0x0"), "0x2 R 0x0 0x0");
    }
    for run in [Run::Stopped, Run::AtBreakpoint] {
        g.process().run = run;
        for at in ["0x3", "0xfff", "0x1000", "0x1001", "0x10000", "0x10001", "0xffffffff"] {
            refused(&mut g, &format!("0x2 c {at} 0x0"), 114);
            refused(&mut g, &format!("0x2 s {at} 0x0"), 114);
        }
    }
}

#[test]
fn k7_lengths_and_states() {
    let mut g = bench();
    g.line = vec![UNTOUCHED; 34];
    assert_eq!(g.line("0x2 i 0x0 0x0"), -1);
    assert_eq!(g.report(2, TRAP, 0, 0), -1);
    g.line = vec![UNTOUCHED; 36];
    assert_eq!(asked(&mut g, "0x2 i 0x0 0x0"), "0x2 i 0x0 0x0");
    g.process().host = 5;
    for owed in [Owed::Continue, Owed::Step] {
        g.process().owed = owed;
        assert!(!sound(&g.state));
        assert_eq!(g.raw(b""), -2);
        assert_eq!(g.report(2, TRAP, 0, 0), -2);
    }
    g.process().host = TEXT_HOST;
    for run in Run::ALL {
        g.process().run = run;
        assert!(sound(&g.state));
    }
    g.memory.pop();
    assert_eq!(g.raw(b""), -1);
}
