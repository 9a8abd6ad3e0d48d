//! Every run state, with a breakpoint planted or lifted, before each request and report;
//! and each PC and each count with which a breakpoint is passed.

use crate::sides::Call;
use crate::sweeps::{report_at, to, Sweep, P};
use model::*;

/// What the process is set to before a call.
#[derive(Clone, Copy)]
struct Setting {
    run: u8,
    lifted: bool,
    pc: u16,
    count: u16,
}

/// The process's breakpoint, in its first entry, and another one, of count 1.
const AT: u16 = 256;
const OTHER: u16 = 258;

const PASSING: Setting = Setting { run: Run::Passing as u8, lifted: true, pc: AT, count: 0 };
const RUNNING: Setting = Setting { run: Run::Running as u8, lifted: false, pc: AT, count: 0 };
const AT_BREAKPOINT: Setting = Setting { run: Run::AtBreakpoint as u8, ..RUNNING };

fn told(kind: u8, pc: u16) -> Call {
    report_at(P.into(), kind.into(), 0, pc)
}

impl Sweep<'_> {
    pub fn runs(&mut self) -> Result<(), String> {
        for run in 0..=255 {
            let counts = if run < 8 { &[0, 1, 2][..] } else { &[0] };
            for &count in counts {
                for lifted in [false, true] {
                    self.in_run_state(Setting { run, lifted, pc: AT, count })?;
                }
            }
        }
        self.without_host()?;
        self.each_pc_and_count()?;
        self.loops()
    }

    /// Puts the process into a run state. Where its breakpoint is lifted, memory holds
    /// another word there than the one that was saved.
    fn put(&mut self, Setting { run, lifted, pc, count }: Setting) {
        let p = usize::from(P);
        let (record, entry) = (RECORD_BYTES * p, RECORD_BYTES * p + ENTRIES_AT);
        let begin = decode(self.pair.model.state.bytes()).map_or(0, |s| s.processes[p].begin);
        self.pair.change(|side| {
            let state = side.state.change();
            state[record + 2] = run;
            state[record + VECTOR_AT + 2 * PC..][..2].copy_from_slice(&pc.to_le_bytes());
            state[entry] = u8::from(lifted);
            state[entry + 4..entry + 6].copy_from_slice(&count.to_le_bytes());
            if lifted {
                side.memory.change()[usize::from(begin + AT)..][..2].copy_from_slice(&[70, 71]);
            }
        });
    }

    /// Calls one after the other, on the process so set.
    fn from(&mut self, setting: Setting, calls: &[Call]) -> Result<(), String> {
        self.put(setting);
        for call in calls {
            self.make(call)?;
        }
        self.back();
        Ok(())
    }

    /// The same where it has the other breakpoint too.
    fn beside(&mut self, setting: Setting, calls: &[Call]) -> Result<(), String> {
        self.make(&to(BREAK, OTHER, 1, 0))?;
        self.from(setting, calls)
    }

    /// Each request, and each report from several places, after which one more comes.
    fn in_run_state(&mut self, setting: Setting) -> Result<(), String> {
        let ttrap = || told(TTRAP, AT + 4);
        let plain =
            [DEBUG, END_DEBUG, STOP, RESUME, SINGLE_STEP, PROCEED_BPT, DESTROY_PROCESS, STATUS];
        for cmd in plain {
            self.beside(setting, &[to(cmd, 0, 0, 0), ttrap()])?;
        }
        for (cmd, first, count) in [(EXAMINE, AT - 1, 4), (BREAK, AT, 3), (BREAK, 300, 0)] {
            self.beside(setting, &[to(cmd, first, count, 0), ttrap()])?;
        }
        self.beside(setting, &[to(UNBREAK, AT, 0, 0), ttrap()])?;
        self.beside(setting, &[to(UNBREAK, OTHER, 0, 0), ttrap()])?;
        self.beside(setting, &[to(DEPOSIT, AT, 2, 2), ttrap()])?;
        for pc in [AT, AT + 1, OTHER, 300, 65_535] {
            self.beside(Setting { pc, ..setting }, &[to(PROCEED_BPT, 0, 0, 0), ttrap()])?;
            self.beside(Setting { pc, ..setting }, &[to(SINGLE_STEP, 0, 0, 0), ttrap()])?;
            for kind in [TRAP, HALT, BPT, TTRAP] {
                self.beside(setting, &[told(kind, pc), ttrap()])?;
            }
        }
        Ok(())
    }

    /// Each run state of a process that nobody debugs, before each report and DEBUG.
    fn without_host(&mut self) -> Result<(), String> {
        for run in 0..8 {
            for call in [TRAP, HALT, BPT, TTRAP].map(|kind| told(kind, AT)) {
                self.make(&to(END_DEBUG, 0, 0, 0))?;
                self.put_run(run);
                self.make(&call)?;
                self.make(&to(DEBUG, 0, 0, 0))?;
                self.back();
            }
        }
        Ok(())
    }

    fn put_run(&mut self, run: u8) {
        let at = RECORD_BYTES * usize::from(P) + 2;
        self.pair.change(|side| side.state.change()[at] = run);
    }

    /// Each PC at which a breakpoint is passed or not, each PC after it, and each count.
    fn each_pc_and_count(&mut self) -> Result<(), String> {
        let counted = Setting { count: 2, ..RUNNING };
        for n in 0..=u16::MAX {
            self.from(Setting { pc: n, ..AT_BREAKPOINT }, &[to(PROCEED_BPT, 0, 0, 0)])?;
            self.from(counted, &[told(BPT, n)])?;
            self.from(PASSING, &[told(TTRAP, n)])?;
            self.from(Setting { count: n, ..RUNNING }, &[told(BPT, AT)])?;
        }
        Ok(())
    }

    /// Loops of ten turns that stop at each, and one that passes all but the last.
    fn loops(&mut self) -> Result<(), String> {
        for count in [0, 9] {
            self.put(Setting { count, ..RUNNING });
            for _ in 0..11 {
                self.make(&told(BPT, AT))?;
                self.make(&to(PROCEED_BPT, 0, 0, 0))?;
                self.make(&to(EXAMINE, AT, 2, 0))?;
                self.make(&told(TTRAP, AT + 2))?;
            }
            self.back();
        }
        Ok(())
    }
}
