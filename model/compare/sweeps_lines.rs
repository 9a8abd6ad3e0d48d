//! Every byte at every place of a line, every value of its fields, every run state with an
//! answer owed or not before each line and report, and every length of its buffer.

use crate::lines::printed;
use crate::sides::Call;
use crate::sweeps::{message, report_at, Sweep};
use model::*;

/// The process of host 253, of 2,048 bytes, and its breakpoint.
const BENCH: u8 = 1;
const AT: u16 = 256;

fn line(request: u8, addr: u32, data: u32) -> Call {
    line_to(BENCH.into(), request, addr, data)
}

fn line_to(pid: u32, request: u8, addr: u32, data: u32) -> Call {
    Call::Line { text: printed(pid, request, addr, data) }
}

/// A request of host 253.
fn to(pid: u8, cmd: u8, arg1: u16) -> Call {
    Call::Request { message: message(TEXT_HOST, cmd, pid, arg1, 0, 0) }
}

fn told(kind: u8, pc: u16) -> Call {
    report_at(BENCH.into(), kind.into(), 0, pc)
}

/// An address that each letter is granted with.
fn right(request: u8) -> u32 {
    match request {
        b'r' | b'R' => 8,
        b'c' | b's' => 0x102,
        _ => 0x100,
    }
}

impl Sweep<'_> {
    pub fn lines(&mut self) -> Result<(), String> {
        for call in [to(BENCH, DEBUG, 0), to(BENCH, BREAK, AT), to(BENCH, STOP, 0)] {
            self.make(&call)?;
        }
        let base = self.rebase();
        self.texts()?;
        self.line_numbers()?;
        self.small_processes()?;
        self.responses()?;
        self.owed()?;
        self.owed_hosts()?;
        self.each_process()?;
        self.line_buffers()?;
        self.restore(base);
        Ok(())
    }

    /// Each byte at each place, one left out or put in there, and all after it cut off.
    fn texts(&mut self) -> Result<(), String> {
        for request in LETTERS {
            let text = printed(BENCH.into(), request, right(request), 0x1a);
            for at in 0..text.len() {
                for byte in 0..=255 {
                    let mut text = text.clone();
                    text[at] = byte;
                    self.apart(Call::Line { text })?;
                }
                for byte in *b" \n\r\t\x000x19afAFgics" {
                    let mut text = text.clone();
                    text.insert(at, byte);
                    self.apart(Call::Line { text })?;
                }
                self.apart(Call::Line { text: text[..at].to_vec() })?;
                self.apart(Call::Line { text: text[at..].to_vec() })?;
                let mut text = text.clone();
                text.remove(at);
                self.apart(Call::Line { text })?;
            }
        }
        Ok(())
    }

    /// Each number of 16 bits in each field, and each bit above.
    fn line_numbers(&mut self) -> Result<(), String> {
        for n in (0..=u32::from(u16::MAX)).chain((16..32).map(|bit| 1 << bit)) {
            for request in *b"iIrRcs" {
                self.apart(line(request, n, 5))?;
            }
            self.apart(line(b'R', 3, n))?;
            self.apart(line_to(n, b'i', AT.into(), 0))?;
        }
        for bit in 3..32 {
            let more = 1 << bit;
            for request in LETTERS {
                self.apart(line(request, right(request) | more, 0))?;
                self.apart(line(request, right(request), more))?;
                self.apart(line_to(u32::from(BENCH) | more, request, right(request), 0))?;
                self.apart(line(request, 1 | more, 0))?;
            }
        }
        Ok(())
    }

    /// Each address around the ends of the others, each debugged by host 253.
    fn small_processes(&mut self) -> Result<(), String> {
        for pid in [0, 4, 5, 6] {
            for call in [to(pid, DEBUG, 0), to(pid, STOP, 0)] {
                self.make(&call)?;
            }
            let base = self.rebase();
            for n in (0..40).chain(4080..4110) {
                for request in LETTERS {
                    self.apart(line_to(pid.into(), request, n, 7))?;
                }
            }
            self.restore(base);
            self.back();
        }
        Ok(())
    }

    /// Each word of a register, and each half of a word of memory.
    fn responses(&mut self) -> Result<(), String> {
        for n in 0..=u32::from(u16::MAX) {
            self.make(&line(b'R', 3, n))?;
            self.make(&line(b'I', AT.into(), n << 16 | (n ^ 0xffff)))?;
        }
        for call in [line(b'r', 3, 0), line(b'i', AT.into(), 0), line(b'd', 252, 0)] {
            self.make(&call)?;
        }
        self.back();
        Ok(())
    }

    /// Each run state, with each answer owed and a breakpoint planted, lifted or with a
    /// count, before each line and report and what cancels it; one more report follows.
    fn owed(&mut self) -> Result<(), String> {
        for (run, owed) in (0..8).flat_map(|run| (0..5).map(move |owed| (run, owed))) {
            for (lifted, count) in [(0, 0), (1, 0), (0, 2)] {
                self.on_owed([run, owed, lifted, count])?;
            }
        }
        for owed in 0..=255 {
            for call in [line(b'i', 0, 0), to(BENCH, STOP, 0), told(TRAP, AT)] {
                self.put_owed([Run::Running as u8, owed, 0, 0]);
                self.apart(call)?;
            }
        }
        Ok(())
    }

    fn put_owed(&mut self, [run, owed, lifted, count]: [u8; 4]) {
        let record = RECORD_BYTES * usize::from(BENCH);
        self.pair.change(|side| {
            let state = side.state.change();
            state[record + 2] = run;
            state[record + OWED_AT] = owed;
            state[record + VECTOR_AT + 2 * PC..][..2].copy_from_slice(&AT.to_le_bytes());
            state[record + ENTRIES_AT] = lifted;
            state[record + ENTRIES_AT + 4] = count;
        });
    }

    fn on_owed(&mut self, setting: [u8; 4]) -> Result<(), String> {
        let lines = LETTERS.iter().map(|&request| line(request, right(request), 0));
        let here = [line(b'c', 1, 0), line(b's', 1, 0), line(b'c', AT.into(), 0)];
        let cmds =
            [DEBUG, END_DEBUG, STOP, RESUME, SINGLE_STEP, PROCEED_BPT, DESTROY_PROCESS, STATUS];
        let asked = cmds.map(|cmd| to(BENCH, cmd, 0));
        let reports = [AT, AT + 2].map(|pc| [TRAP, HALT, BPT, TTRAP].map(|kind| told(kind, pc)));
        let calls = lines.chain(here).chain(asked).chain(reports.into_iter().flatten());
        for call in calls.chain([to(BENCH, UNBREAK, AT)]) {
            self.put_owed(setting);
            self.make(&call)?;
            for next in [told(TTRAP, AT + 2), told(BPT, AT), told(TRAP, AT)] {
                self.make(&next)?;
            }
            self.back();
        }
        Ok(())
    }

    /// Each host with each answer owed, before a line, and a report.
    fn owed_hosts(&mut self) -> Result<(), String> {
        let record = RECORD_BYTES * usize::from(BENCH);
        for (host, owed) in (0..=255).flat_map(|host| [0, 1, 2].map(|owed| (host, owed))) {
            for call in [line(b'i', 0, 0), line(b'c', 1, 0), told(TRAP, AT)] {
                self.pair.change(|side| {
                    let state = side.state.change();
                    (state[record + 1], state[record + OWED_AT]) = (host, owed);
                    state[record + ENTRIES_AT + 1] = host;
                    if host == NOBODY {
                        state[record + ENTRIES_AT] = 0;
                    }
                });
                self.apart(call)?;
            }
        }
        Ok(())
    }

    /// Each process is debugged by host 253, goes on, and answers by each kind of report.
    fn each_process(&mut self) -> Result<(), String> {
        for pid in 0..9 {
            for request in *b"cs" {
                for kind in [TRAP, HALT, BPT, TTRAP] {
                    let go = line_to(pid.into(), request, 0, 0);
                    let answer = report_at(pid.into(), kind.into(), 0, 0);
                    let reason = report_at(pid.into(), TRAP.into(), 1, 0);
                    let begin = [to(0, CREATE_PROCESS, 2), to(pid, DEBUG, 0), to(pid, STOP, 0)];
                    for call in begin.into_iter().chain([go, answer, reason]) {
                        self.make(&call)?;
                    }
                    self.back();
                }
            }
        }
        Ok(())
    }

    /// Each length of the line buffer.
    fn line_buffers(&mut self) -> Result<(), String> {
        self.make(&line(b'c', 1, 0))?;
        let base = self.rebase();
        for length in 0..=1000 {
            for call in [told(TRAP, AT), line(b'i', 0, 0), line_to(u32::MAX, b'i', 0, 0)] {
                self.pair.change(|side| side.line = side.line.resized(length));
                self.make(&call)?;
            }
            self.back();
        }
        self.restore(base);
        Ok(())
    }
}
