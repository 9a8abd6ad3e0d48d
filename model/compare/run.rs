//! The run: lists of calls, each on what the one before left, then every value of
//! each field, and what was met.
//!
//! A list begins with a fresh start. First come lists without damage, then lists
//! in which the bytes of the state are damaged now and then, in some from the
//! first call on. Where they are still those of a sound state, the list goes on
//! from it; where not, the call has to be refused by 2, and the bytes are put
//! back. Calls on damaged states, and on what follows from them, are counted
//! apart.

use crate::calls::{make_call, make_request, some_output, used_address};
use crate::damage::{damage_state, STATE_LENGTHS};
use crate::describe::describe;
use crate::desk::make_desk_call;
use crate::lent::{Lent, GUARD};
use crate::line_table::LineTable;
use crate::lines::some_line_buffer;
use crate::moods::{Mood, MOODS, PUP_MOODS};
use crate::packet_table::PacketTable;
use crate::packets::some_ack;
use crate::passages::{self, open, Open, Passages};
use crate::random::Random;
use crate::reasons::Reasons;
use crate::sides::{is_sound, Call, Pair, Side};
use crate::states::some_sound_state;
use crate::sweeps::Sweep;
use crate::table::{DeskTable, Table};
use crate::values::Values;
use model::*;

/// What was met, on states that a fresh start leads to or on damaged ones.
struct Met {
    table: Table,
    lines: LineTable,
    packets: PacketTable,
    passages: Passages,
    /// Stores by the machine into a planted word.
    stores: u64,
    /// Those into the first or the last byte of a process.
    stores_at_edge: u64,
}

impl Met {
    fn new(damaged: bool) -> Met {
        Met {
            table: Table::new(damaged),
            lines: LineTable::new(damaged),
            packets: PacketTable::new(damaged),
            passages: Passages::new(),
            stores: 0,
            stores_at_edge: 0,
        }
    }
}

pub struct Comparison {
    pub random: Random,
    pub pair: Pair,
    pub calls: u64,
    /// Which requests are asked about and not made. It has numbers of its own, so that
    /// the calls of a list are the same with it and without.
    pub asker: Random,
    /// How often it was asked why.
    pub asked: u64,
    print_each: bool,
    /// Whether the list goes on from a damaged state.
    pub damaged: bool,
    met: [Met; 2],
    desk: DeskTable,
    values: Values,
    pub reasons: Reasons,
}

impl Comparison {
    pub fn new(seed: u64, print_each: bool) -> Comparison {
        Comparison {
            random: Random(seed),
            pair: Pair::new(Side::new(&[0; STATE_BYTES], &[0; MEMORY], &[0; LONGEST])),
            calls: 0,
            asker: Random(!seed),
            asked: 0,
            print_each,
            damaged: false,
            met: [false, true].map(Met::new),
            desk: DeskTable::new(),
            values: Values::new(),
            reasons: Reasons::new(),
        }
    }

    /// Makes so many calls in lists without damage, as many in lists with it, of each half
    /// as many more in lists at the Pup door, and then those with every value: nothing, or
    /// the first difference.
    pub fn run(&mut self, limit: u64) -> Result<(), String> {
        for with_damage in [false, true] {
            self.lists(limit, with_damage, &MOODS)?;
            self.lists(limit / 2, with_damage, &PUP_MOODS)?;
        }
        let (calls, desk, reasons) = (&mut self.calls, &mut self.desk, &mut self.reasons);
        Sweep::all(&mut |call, side, answer| {
            *calls += 1;
            desk.count(call, answer);
            reasons.count_swept(call, side, answer);
        })
    }

    /// Lists of so many calls together.
    fn lists(&mut self, count: u64, with_damage: bool, moods: &[Mood]) -> Result<(), String> {
        let limit = self.calls + count;
        while self.calls < limit {
            let length = 100 + self.random.below(500) as u64;
            let mood = &moods[self.random.below(moods.len())];
            self.list(limit.min(self.calls + length), with_damage, mood)?;
        }
        Ok(())
    }

    /// One list, up to so many calls in all.
    fn list(&mut self, end: u64, with_damage: bool, mood: &Mood) -> Result<(), String> {
        self.start(mood.packets > 0)?;
        if with_damage && self.random.one_in(3) {
            let state = some_sound_state(&mut self.random);
            self.lend_state(&encode(&state));
            self.damaged = true;
        }
        while self.calls < end {
            self.stores();
            self.calls += 1;
            match self.random.below(40) {
                0 | 1 => self.call_with_wrong_buffers(mood)?,
                2..=5 => self.desk_call(mood)?,
                6..=13 if with_damage => self.call_on_damage(mood)?,
                _ => self.call(mood)?,
            }
            if self.calls % 8 == 0 {
                self.ask_why(mood, with_damage)?;
            }
        }
        Ok(())
    }

    /// Where a buffer is to lie.
    pub fn offset(&mut self) -> usize {
        self.random.below(GUARD)
    }

    pub fn lend_state(&mut self, state: &[u8]) {
        let offset = self.offset();
        self.pair.change(|side| side.state = Lent::new(state, offset));
    }

    pub fn state_bytes(&self) -> &[u8] {
        self.pair.model.state.bytes()
    }

    pub fn state(&self) -> State {
        decode(self.state_bytes()).expect("between calls the state is sound")
    }

    fn met(&mut self) -> &mut Met {
        &mut self.met[usize::from(self.damaged)]
    }

    /// "Between calls the machine may store into memory"
    fn stores(&mut self) {
        while self.random.one_in(4) {
            self.store();
        }
    }

    /// One store, often into a word under a breakpoint. K9: "the machine stores only
    /// within a process's own bytes"
    fn store(&mut self) {
        let state = self.state();
        let there: Vec<&Process> = state.processes.iter().filter(|p| p.there).collect();
        if there.is_empty() {
            return;
        }
        let process = self.random.pick(&there);
        let last = usize::from(process.size) - 1;
        let a = match self.random.below(8) {
            0 | 1 => self.random.below(last + 1),
            2 | 3 => self.random.below(48).min(last),
            4 => self.random.pick(&[0, last]),
            _ => usize::from(used_address(&mut self.random, process)) + self.random.below(2),
        };
        let (a, byte) = (a.min(last), self.random.byte());
        self.pair.change(|side| side.memory.change()[process.place()][a] = byte);
        let planted = |b: &Breakpoint| b.planted() && usize::from(b.address) == a & !1;
        let met = self.met();
        met.stores += u64::from(process.breakpoints.iter().any(planted));
        met.stores_at_edge += u64::from(a == 0 || a == last);
    }

    fn call(&mut self, mood: &Mood) -> Result<(), String> {
        let state = self.state();
        let call = make_call(&mut self.random, &state, mood);
        self.lend_output();
        let open = open(&state, self.pair.model.memory.bytes(), &call);
        self.compare(&call, Some(&open))
    }

    /// A call of the desk's end: a request is written, or an answer read, often the
    /// one before.
    fn desk_call(&mut self, mood: &Mood) -> Result<(), String> {
        let state = self.state();
        let request = make_request(&mut self.random, &state, mood);
        let last = self.pair.model.output.bytes();
        let length = if last.get(4) == Some(&EXAMINE) { LONGEST } else { HEAD };
        let answer = last[..length.min(last.len())].to_vec();
        let call = make_desk_call(&mut self.random, &request, &answer);
        match call {
            Call::Read { .. } => self.lend_fields(),
            _ => self.lend_output(),
        }
        if self.random.one_in(16) {
            let length = self.random.length(&[0, 1, 9, 10, 27, 28, 265], 265) & !1;
            self.pair.change(|side| side.output = side.output.resized(length));
        }
        self.compare(&call, None)?;
        self.lend_output();
        Ok(())
    }

    /// Five words, or at times another number of them.
    fn lend_fields(&mut self) {
        let count = if self.random.one_in(16) { self.random.below(40) } else { FIELDS };
        let (bytes, offset) = (self.random.bytes(2 * count), self.offset() & !1);
        self.pair.change(|side| side.output = Lent::new(&bytes, offset));
    }

    /// A call on damaged bytes. Where they are those of a sound state the list
    /// goes on from it.
    fn call_on_damage(&mut self, mood: &Mood) -> Result<(), String> {
        let (before, was_damaged) = (self.state_bytes().to_vec(), self.damaged);
        let mut state = before.clone();
        damage_state(&mut self.random, &mut state);
        self.lend_state(&state);
        self.damaged = true;
        if is_sound(&state) {
            return self.call(mood);
        }
        let near = decode(&state).or_else(|| decode(&before));
        let call = make_call(&mut self.random, &near.unwrap_or(NONE_THERE), mood);
        self.lend_output();
        self.compare(&call, None)?;
        self.lend_state(&before);
        self.damaged = was_damaged;
        Ok(())
    }

    /// A call with buffers of a wrong length, at times on damaged bytes; then
    /// back to the right ones.
    fn call_with_wrong_buffers(&mut self, mood: &Mood) -> Result<(), String> {
        let (before, was_damaged) = (self.pair.clone(), self.damaged);
        let state = self.state();
        let mut call = make_call(&mut self.random, &state, mood);
        self.lend_output();
        if self.random.one_in(4) {
            let mut state = self.state_bytes().to_vec();
            damage_state(&mut self.random, &mut state);
            self.lend_state(&state);
            self.damaged = true;
        }
        self.spoil_buffer(&mut call);
        if self.random.one_in(2) {
            self.spoil_buffer(&mut call);
        }
        self.compare(&call, None)?;
        (self.pair, self.damaged) = (before, was_damaged);
        Ok(())
    }

    /// Makes one of the lent buffers shorter or longer than test 1 allows.
    fn spoil_buffer(&mut self, call: &mut Call) {
        let random = &mut self.random;
        match (random.below(4), call) {
            (_, Call::Tick) => {
                let length = random.length(&STATE_LENGTHS, 2000);
                self.pair.change(|side| side.state = side.state.resized(length));
            }
            (0, _) => {
                let length = random.length(&[0, 1, 16_383, 16_385, 32_768, 65_536], 100_000);
                self.pair.change(|side| side.memory = side.memory.resized(length));
            }
            (_, Call::Packet { .. }) => {
                let length = random.length(&[0, 1, 2, 17, 33, 34, 34], ACK_WORDS - 1);
                self.pair.change(|side| side.ack = side.ack.resized(2 * length));
            }
            (1, Call::Report { words, .. }) => {
                words.resize(random.length(&[0, 1, 16, 17, 19, 20, 36], 100), 0);
            }
            (1, Call::Line { .. }) | (2, Call::Line { .. } | Call::Report { .. }) => {
                let length = random.length(&[0, 1, 17, 33, 34, 34], LONGEST_LINE - 1);
                self.pair.change(|side| side.line = side.line.resized(length));
            }
            _ => {
                let length = random.length(&[0, 1, 9, 10, 27, 28, 265], 265);
                self.pair.change(|side| side.output = side.output.resized(length));
            }
        }
    }

    fn lend_output(&mut self) {
        let output = some_output(&mut self.random);
        let offset = self.offset();
        self.pair.change(|side| side.output = Lent::new(&output, offset));
        let line = some_line_buffer(&mut self.random);
        let offset = self.offset();
        self.pair.change(|side| side.line = Lent::new(&line, offset));
        let ack = some_ack(&mut self.random);
        let offset = self.offset() & !1;
        self.pair.change(|side| side.ack = Lent::new(&ack, offset));
    }

    /// Prints a call before it is made, if each is to be printed.
    pub fn show(&self, call: &Call) {
        if self.print_each {
            println!("{} {}", self.calls, describe(call, &self.pair.model));
        }
    }

    /// Makes the call on both sides and counts what was met.
    pub fn compare(&mut self, call: &Call, open: Option<&Open>) -> Result<(), String> {
        self.show(call);
        let odd = usize::from(!call.of_words());
        let offset = self.offset() & (!1 | odd);
        self.pair.change(|side| side.input = Lent::new(&[], offset));
        let answer = self.pair.call(call)?;
        self.desk.count(call, answer);
        self.values.count(call, &self.pair.model, answer);
        self.reasons.count(call, &self.pair.model, answer, self.damaged);
        let met = self.met();
        met.table.count(call, answer);
        met.lines.count(call, answer);
        met.packets.count(call, answer);
        if let Some(open) = open {
            met.passages.count(open, answer);
        }
        Ok(())
    }

    /// Prints what was met; returns what should have been and was not, or the
    /// other way round.
    pub fn print(&self) -> Vec<String> {
        let [fresh, damaged] = &self.met;
        println!("calls on states that a fresh start leads to");
        fresh.table.print();
        fresh.lines.print();
        fresh.packets.print();
        println!("\ncalls on damaged states and on what follows from them");
        damaged.table.print();
        damaged.lines.print();
        damaged.packets.print();
        println!("\n   fresh  damaged");
        passages::print(&fresh.passages, &damaged.passages);
        println!("{:>8} {:>8}  store into a planted word", fresh.stores, damaged.stores);
        let edge = [fresh.stores_at_edge, damaged.stores_at_edge];
        println!("{:>8} {:>8}  store into the first or last byte of a process", edge[0], edge[1]);
        self.desk.print();
        self.values.print();
        self.reasons.print();
        let mut wrong = passages::wrong(&fresh.passages, &damaged.passages);
        if fresh.stores == 0 || damaged.stores == 0 {
            wrong.push("store into a planted word".to_string());
        }
        if edge.contains(&0) {
            wrong.push("store into the first or last byte of a process".to_string());
        }
        let tables = [fresh.table.wrong(), damaged.table.wrong(), self.desk.wrong()].concat();
        let lines = [fresh.lines.wrong(), damaged.lines.wrong()].concat();
        let packets = [fresh.packets.wrong(), damaged.packets.wrong()].concat();
        [tables, lines, packets, self.values.wrong(), self.reasons.wrong(), wrong].concat()
    }
}
