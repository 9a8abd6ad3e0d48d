//! Every number of ticks in every run state, each way a Go ends after each number of ticks,
//! every ID beside the one that is waited for, and every call while a Go waits.

use crate::sides::Call;
use crate::sweeps::{message, Sweep, OWNER, P};
use crate::sweeps_packets::{ask, packet, KINDS};
use crate::sweeps_watches::{by, line, told, AT, THIRD, WATCHER};
use model::*;

const ID: u32 = 0xfffe_feff;

fn go(id: u32) -> Call {
    packet(GO, id, &[])
}

fn go_reply(id: u32) -> Call {
    packet(GO_REPLY, id, &[])
}

/// Calls that leave a Go as it is, abandon it, or are refused, to the process and to another.
fn calls() -> Vec<Call> {
    let cmds = 0..17;
    let asked = cmds.clone().map(|cmd| ask(cmd, if cmd == CREATE_PROCESS { 2 } else { 0 }, 0));
    let others = cmds.map(|cmd| by(THIRD, cmd, 0, 0));
    let points = [ask(BREAK, 20, 1), ask(UNBREAK, AT, 0), ask(DEPOSIT, AT, 2), ask(EXAMINE, AT, 4)];
    let reports =
        [TRAP, HALT, BPT, TTRAP].into_iter().flat_map(|kind| [told(kind, AT), told(kind, 20)]);
    let destroyed = |pid| Call::Request { message: message(OWNER, DESTROY_PROCESS, pid, 0, 0, 0) };
    let packets = [
        go(ID),
        go(ID + 1),
        go_reply(ID),
        go_reply(ID + 1),
        go_reply(ID + 2),
        packet(FETCH, 0, &[0]),
        packet(FETCH, ID, &[0, 0, 32]),
        packet(FETCH, ID + 1, &[4096]),
        packet(FETCH, ID, &[]),
        packet(STORE, 0, &[AT / 2, 5]),
        packet(STORE, ID + 1, &[2048, 5, 1]),
        packet(STORE, 0, &[1]),
        packet(ACK, ID + 1, &[]),
        Call::Packet { kind: GO.into(), id: 1 << 32 | u64::from(ID), words: Vec::new() },
        Call::Packet { kind: GO_REPLY.into(), id: 1 << 32 | u64::from(ID + 1), words: Vec::new() },
    ];
    let rest = [by(WATCHER, WATCH, 0, 0), line(b'i', 0), line(b'c', 1), destroyed(3), destroyed(P)];
    let calls = asked.chain(others).chain(points).chain(reports);
    calls.chain(packets).chain(rest).chain([Call::Tick]).collect()
}

impl Sweep<'_> {
    /// On the state that the packets are sent to: host 254 has stopped the process.
    pub fn goes(&mut self) -> Result<(), String> {
        self.ticks_in_run_states()?;
        self.go_bytes()?;
        self.ends_after_ticks()?;
        self.ids()?;
        self.while_waiting()?;
        self.left_of_a_go()
    }

    /// Puts a Go, with these three of its bytes, and the run state.
    fn put_go(&mut self, [run, waits, ticks]: [u8; 3], id: u32) {
        self.put_byte(2, run);
        self.put_byte(GO_WAITS_AT, waits);
        self.put_byte(GO_TICKS_AT, ticks);
        for (i, byte) in id.to_le_bytes().into_iter().enumerate() {
            self.put_byte(GO_ID_AT + i, byte);
        }
    }

    /// Each number of ticks in each run state, and in some that there are not, with a Go that
    /// waits and with none; a breakpoint is planted or lifted.
    fn ticks_in_run_states(&mut self) -> Result<(), String> {
        let calls = || [Call::Tick, go(ID), go(5), go_reply(ID + 1), go_reply(ID)];
        for (run, waits) in (0..8).flat_map(|run| [0, 1].map(|waits| (run, waits))) {
            for ticks in 0..=255 {
                for call in calls().into_iter().chain([packet(FETCH, 0, &[AT / 2])]) {
                    self.put_go([run, waits, ticks], ID);
                    self.make(&call)?;
                    self.apart(Call::Tick)?;
                }
            }
            for ticks in [0, 98, 99] {
                for call in calls() {
                    self.put_go([run, waits, ticks], ID);
                    self.put_byte(ENTRIES_AT, 1);
                    self.make(&call)?;
                    self.apart(Call::Tick)?;
                }
            }
        }
        Ok(())
    }

    /// Each first byte of a Go in each process, there and absent.
    fn go_bytes(&mut self) -> Result<(), String> {
        for (p, waits) in (0..PROCESSES).flat_map(|p| (0..=255).map(move |byte| (p, byte))) {
            for ticks in [0, 99, 100] {
                for call in [Call::Tick, packet(FETCH, 0, &[0]), ask(EXAMINE, 0, 2), told(TRAP, AT)]
                {
                    let at = RECORD_BYTES * p + GO_WAITS_AT;
                    self.pair.change(|side| {
                        side.state.change()[at..at + 2].copy_from_slice(&[waits, ticks])
                    });
                    self.apart(call)?;
                }
            }
        }
        Ok(())
    }

    fn tick_on(&mut self, count: usize) -> Result<(), String> {
        for _ in 0..count {
            self.make(&Call::Tick)?;
        }
        Ok(())
    }

    /// A Go, some ticks, and then the same Go, another, a reply, or nothing, up to some ticks
    /// after the hundredth: of each number of ticks.
    fn ends_after_ticks(&mut self) -> Result<(), String> {
        for before in 0..=101 {
            let next = [go(ID), go(ID + 1), go(7), go_reply(ID + 1), go_reply(ID), Call::Tick];
            for call in next {
                self.make(&go(ID))?;
                self.tick_on(before)?;
                self.make(&call)?;
                self.tick_on(102 - before)?;
                self.make(&ask(STATUS, 0, 0))?;
                self.back();
            }
        }
        // the same Go after each tick, and after each second one
        for every in [1, 2, 10] {
            self.make(&go(ID))?;
            for _ in 0..=100 / every {
                self.tick_on(every)?;
                self.make(&go(ID))?;
            }
            self.back();
        }
        Ok(())
    }

    /// Each ID beside the next one, and each bit of it, of telling Gos.
    fn ids(&mut self) -> Result<(), String> {
        for id in [0, 1, 254, 255, 256, 65_535, 0x7fff_ffff, u32::MAX - 1, u32::MAX, ID] {
            let beside = (0..600).map(|n| id.wrapping_add(n).wrapping_sub(300));
            let bits = (0..32).map(|bit| id.wrapping_add(1) ^ 1 << bit);
            for other in beside.chain(bits) {
                for call in [go_reply(other), go(other)] {
                    self.make(&go(id))?;
                    self.make(&Call::Tick)?;
                    self.make(&call)?;
                    self.make(&go_reply(id.wrapping_add(1)))?;
                    self.back();
                }
            }
        }
        Ok(())
    }

    /// Each call while a Go waits, in each run state, and then a reply, or ticks to the end.
    fn while_waiting(&mut self) -> Result<(), String> {
        for (run, ticks) in (0..6).flat_map(|run| [3, 97, 98].map(|ticks| (run, ticks))) {
            for call in calls() {
                self.put_go([run, 1, ticks], ID);
                self.make(&call)?;
                self.tick_on(4)?;
                self.back();
                self.put_go([run, 1, ticks], ID);
                self.make(&call)?;
                self.make(&go_reply(ID + 1))?;
                self.back();
            }
        }
        // two calls after each other
        let first = [RESUME, SINGLE_STEP, STOP, DEBUG].map(|cmd| ask(cmd, 0, 0));
        let first = first.into_iter().chain([TRAP, BPT, HALT].map(|kind| told(kind, AT)));
        for first in first {
            for call in calls() {
                self.put_go([Run::Stopped as u8, 1, 98], ID);
                for call in [&first, &call, &Call::Tick, &Call::Tick, &Call::Tick] {
                    self.make(call)?;
                }
                self.back();
            }
        }
        Ok(())
    }

    /// Each call where no Go waits and bytes of one are left, at the door and elsewhere.
    fn left_of_a_go(&mut self) -> Result<(), String> {
        for door in [P, 3, 255] {
            for (run, ticks) in [(0, 99), (2, 99), (2, 255), (3, 0), (5, 7)] {
                for call in calls() {
                    self.put_door(door);
                    self.put_go([run, 0, ticks], ID);
                    self.make(&call)?;
                    self.make(&Call::Tick)?;
                    self.make(&go_reply(ID + 1))?;
                    self.back();
                }
            }
        }
        for kind in KINDS {
            self.put_go([2, 0, 99], ID);
            self.make(&packet(kind, ID + 1, &[0, 0, 4]))?;
            self.tick_on(2)?;
            self.back();
        }
        // of the absent process, which is created again
        self.pair.change(|side| {
            let at = RECORD_BYTES * 7 + GO_TICKS_AT;
            side.state.change()[at..at + 5].copy_from_slice(&[99, 1, 2, 3, 4]);
        });
        for call in [Call::Tick, ask(CREATE_PROCESS, 2, 0), Call::Tick] {
            self.make(&call)?;
        }
        self.back();
        Ok(())
    }
}
