//! Every address, third word, value, type, number of words and room for an acknowledgement of
//! a packet; every block at the end of processes of many sizes; and every place of the door.

use crate::lent::Lent;
use crate::sides::Call;
use crate::sweeps::{message, Sweep, OWNER, P};
use crate::sweeps_watches::{by, AT};
use model::*;

pub const KINDS: [u8; 4] = [STORE, FETCH, GO, GO_REPLY];

/// The ID of packets that need none.
const ID: u64 = 0x0102_0304;

pub fn packet(kind: u8, id: u32, words: &[u16]) -> Call {
    Call::Packet { kind: kind.into(), id: id.into(), words: words.to_vec() }
}

fn fetch(words: &[u16]) -> Call {
    packet(FETCH, ID as u32, words)
}

fn store(words: &[u16]) -> Call {
    packet(STORE, ID as u32, words)
}

/// A request of host 254 to the process of the door.
pub fn ask(cmd: u8, arg1: u16, arg2: u16) -> Call {
    by(PUP_HOST, cmd, arg1, arg2)
}

impl Sweep<'_> {
    /// Host 254 debugs process 2, at which the door is, and has stopped it.
    pub fn packets(&mut self) -> Result<(), String> {
        let calls = [by(OWNER, END_DEBUG, 0, 0), ask(DEBUG, 0, 0), ask(BREAK, AT, 1)];
        for call in calls.into_iter().chain([ask(STOP, 0, 0)]) {
            self.make(&call)?;
        }
        let base = self.rebase();
        self.words_of_packets()?;
        self.kinds_and_ids()?;
        self.packet_buffers()?;
        self.doors()?;
        self.packet_hosts()?;
        self.goes()?;
        self.restore(base);
        self.blocks()
    }

    /// Each address, third word and value, and each number of words.
    fn words_of_packets(&mut self) -> Result<(), String> {
        for n in 0..=u16::MAX {
            self.apart(fetch(&[n]))?;
            self.apart(fetch(&[n, 0, 32]))?;
            self.apart(store(&[n, 0x1234]))?;
            self.apart(fetch(&[AT / 2 + 3, 0, n]))?;
            self.apart(store(&[AT / 2 + 3, 0x1234, n]))?;
            self.apart(fetch(&[AT / 2 + 3, n, 4]))?;
        }
        // into a planted word and beside it; each is looked at
        for n in 0..=u16::MAX {
            for address in [AT / 2, AT / 2 + 1] {
                self.make(&store(&[address, n, 2]))?;
            }
            self.make(&fetch(&[AT / 2]))?;
        }
        self.back();
        for count in 0..=300 {
            for kind in KINDS.into_iter().chain([0, 127, 132]) {
                for third in [0, 2, 32] {
                    let words: Vec<u16> = [AT / 2, 7, third].into_iter().chain(9..309).collect();
                    self.apart(packet(kind, 5, &words[..count]))?;
                }
            }
        }
        Ok(())
    }

    /// Each type of ten bits and each bit above, and each bit of an ID.
    fn kinds_and_ids(&mut self) -> Result<(), String> {
        let words = || vec![AT / 2, 7, 4];
        for kind in (0..1024).chain((10..64).map(|bit| 1 << bit)) {
            self.apart(Call::Packet { kind, id: ID, words: words() })?;
            self.apart(Call::Packet { kind, id: ID, words: Vec::new() })?;
            self.apart(Call::Packet { kind, id: u64::MAX, words: words() })?;
        }
        for kind in KINDS.map(u64::from) {
            for bit in 0..64 {
                self.apart(Call::Packet { kind, id: 1 << bit, words: words() })?;
                self.apart(Call::Packet { kind, id: ID | 1 << bit, words: words() })?;
                self.apart(Call::Packet { kind, id: ID | 1 << bit, words: Vec::new() })?;
                self.apart(Call::Packet { kind: kind | 1 << bit, id: ID, words: words() })?;
            }
        }
        Ok(())
    }

    /// Each room for an acknowledgement, each length of the memory, and of the state.
    fn packet_buffers(&mut self) -> Result<(), String> {
        let calls = || {
            let words = [AT / 2, 7, 32];
            KINDS.into_iter().chain([127]).map(move |kind| packet(kind, 5, &words))
        };
        for room in 0..=300 {
            for call in calls().chain([fetch(&[0]), store(&[0, 1])]) {
                self.pair.change(|side| side.ack = Lent::new(&vec![0xee; 2 * room], 0));
                self.apart(call)?;
            }
        }
        for length in (0..600).chain(MEMORY - 300..MEMORY + 300).chain([32_768, 65_536]) {
            for call in calls() {
                self.pair.change(|side| side.memory = side.memory.resized(length));
                self.apart(call)?;
            }
        }
        for length in 0..=1700 {
            for call in calls().chain([Call::Tick]) {
                self.pair.change(|side| side.state = side.state.resized(length));
                self.apart(call)?;
            }
        }
        Ok(())
    }

    pub fn put_door(&mut self, door: u8) {
        self.pair.change(|side| side.state.change()[DOOR_AT] = door);
    }

    /// Each door in a state, each at a fresh start, and each call after it.
    fn doors(&mut self) -> Result<(), String> {
        let calls = || KINDS.map(|kind| packet(kind, 5, &[AT / 2, 7, 4])).into_iter();
        for door in 0..=255 {
            for call in calls().chain([Call::Tick, ask(EXAMINE, 0, 2), ask(RESUME, 0, 0)]) {
                self.put_door(door);
                self.apart(call)?;
            }
        }
        let wide = (8..64).flat_map(|bit| [1u64 << bit, 2 | 1 << bit]);
        for door in (0..1024).chain(wide) {
            for there in [0, 4, 255] {
                let sizes = vec![2048; PROCESSES];
                self.make(&Call::FreshStart { there, sizes, door })?;
                let debug = message(PUP_HOST, DEBUG, (door % 8) as u8, 0, 0, 0);
                self.make(&Call::Request { message: debug })?;
                for call in calls().chain([Call::Tick]) {
                    self.make(&call)?;
                }
                self.back();
            }
        }
        Ok(())
    }

    /// Each host debugs the process, and each watches it; a Go waits or not.
    fn packet_hosts(&mut self) -> Result<(), String> {
        let calls = || KINDS.map(|kind| packet(kind, 5, &[AT / 2, 7, 4])).into_iter();
        for host in 0..=255 {
            for (watcher, waits) in [(NOBODY, 0), (PUP_HOST, 0), (78, 0), (NOBODY, 1), (254, 1)] {
                for call in calls().chain([Call::Tick, by(host, EXAMINE, 0, 2)]) {
                    self.put_byte(1, host);
                    self.put_byte(ENTRIES_AT + 1, host);
                    self.put_byte(WATCHER_AT, watcher);
                    self.put_byte(GO_WAITS_AT, waits);
                    self.count_again();
                    self.apart(call)?;
                }
            }
            for call in calls() {
                self.put_byte(WATCHER_AT, host);
                self.apart(call)?;
            }
        }
        Ok(())
    }

    /// Processes of many sizes, each with a breakpoint in every second word at their end, and
    /// each length of a block around each of the last 70 words, and after them.
    fn blocks(&mut self) -> Result<(), String> {
        let sizes = (2..=140).step_by(2).chain([254, 256, 258, 1534, 1536, 4092, 4094, 4096]);
        for size in sizes {
            let mut all = vec![18; PROCESSES];
            all[usize::from(P)] = size;
            self.make(&Call::FreshStart { there: 0x1f, sizes: all, door: P.into() })?;
            self.make(&ask(DEBUG, 0, 0))?;
            for k in (0..8).take_while(|k| 4 * k + 2 <= size) {
                self.make(&ask(BREAK, size - 2 - 4 * k, 0))?;
            }
            let base = self.rebase();
            let words = size / 2;
            for address in words.saturating_sub(70)..words + 40 {
                for asked in (0..=10).map(|bit| 1 << bit) {
                    self.apart(fetch(&[address, 0, asked]))?;
                }
                for asked in [1, 8, 32, 256] {
                    self.apart(store(&[address, 0x5678, asked]))?;
                }
            }
            self.restore(base);
        }
        Ok(())
    }
}
