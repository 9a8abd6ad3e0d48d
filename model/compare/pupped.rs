//! A packet or a tick as the stand-in gets it, and other things that could come of it than the
//! model says.

use crate::made::Made;
use model::*;

/// A packet, on bytes that are a state's, with the process of the door as it is before, if
/// there is such a number.
pub struct Asked {
    pub kind: u64,
    pub id: u64,
    pub words: Vec<u16>,
    pub process: Option<Process>,
    /// The memory before.
    memory: Vec<u8>,
}

impl Asked {
    pub fn is(&self, kind: u8) -> bool {
        self.kind == kind.into()
    }

    pub fn looks(&self) -> bool {
        self.is(STORE) || self.is(FETCH)
    }

    pub fn address(&self) -> usize {
        self.words.first().copied().unwrap_or(0).into()
    }

    /// The third data word, 0 where there is none.
    pub fn third(&self) -> usize {
        self.words.get(2).copied().unwrap_or(0).into()
    }

    /// Whether such a thing holds of the door's process, which is there.
    pub fn of(&self, test: impl Fn(&Process) -> bool) -> bool {
        self.process.is_some_and(|process| process.there && test(&process))
    }

    pub fn owner(&self) -> bool {
        self.of(|process| process.host == PUP_HOST)
    }

    pub fn watcher(&self) -> bool {
        self.of(|process| process.watcher == PUP_HOST)
    }

    pub fn waits(&self) -> bool {
        self.of(|process| process.go.waits)
    }

    pub fn runs(&self, run: Run) -> bool {
        self.of(|process| process.run == run)
    }

    /// How many words the process has.
    pub fn room(&self) -> usize {
        self.process.map_or(0, |process| usize::from(process.size) / 2)
    }

    pub fn outside(&self) -> bool {
        self.address() >= self.room()
    }

    /// A word of the process before the packet, as it stands in memory; 0 behind its end.
    pub fn in_memory(&self, word: usize) -> u16 {
        let begin = self.process.map_or(0, |process| process.place().start);
        let bytes = self.memory.get(begin + 2 * word..begin + 2 * word + 2);
        bytes.map_or(0, |bytes| u16::from_le_bytes([bytes[0], bytes[1]]))
    }

    /// The breakpoint at a word.
    pub fn here(&self, word: usize) -> Option<Breakpoint> {
        let at = |b: &&Breakpoint| b.used() && usize::from(b.address) == 2 * word;
        self.process.and_then(|process| process.breakpoints.iter().find(at).copied())
    }

    /// A word of the process before the packet, as it is seen.
    pub fn seen(&self, word: usize) -> u16 {
        match self.here(word) {
            Some(b) if b.planted() => u16::from_le_bytes(b.saved),
            _ => self.in_memory(word),
        }
    }

    /// The same after a granted packet.
    pub fn seen_after(&self, word: usize) -> u16 {
        match self.words[..] {
            [address, value, ..] if self.is(STORE) && usize::from(address) == word => value,
            _ => self.seen(word),
        }
    }
}

/// What a packet asks.
pub fn asked(made: &mut Made) -> Option<Asked> {
    let records = made.records()?;
    let Made::Packet { memory, kind, id, words, .. } = made else { return None };
    let process = records.processes.get(usize::from(records.door)).copied();
    Some(Asked { kind: *kind, id: *id, words: words.to_vec(), process, memory: memory.to_vec() })
}

/// The model's answer to a packet; nothing is written.
pub fn tried(made: &Made) -> i64 {
    let Made::Packet { state, memory, kind, id, words, ack } = made else { return 0 };
    packet_bytes(&mut state.to_vec(), &mut memory.to_vec(), *kind, *id, words, &mut ack.to_vec())
}

/// The model's answer to another packet, where there is one.
pub fn resent(made: Made, change: impl Fn(&mut u64, &mut u64, &mut Vec<u16>)) -> i64 {
    match made {
        Made::Packet { state, memory, mut kind, mut id, words, ack } => {
            let mut words = words.to_vec();
            change(&mut kind, &mut id, &mut words);
            packet_bytes(state, memory, kind, id, &words, ack)
        }
        mut made => made.right(),
    }
}

/// A packet is refused with this number where such a thing holds of it and of the model's
/// answer.
pub fn refuse(mut made: Made, number: i64, test: impl Fn(&Asked, i64) -> bool) -> i64 {
    match asked(&mut made) {
        Some(asked) if test(&asked, tried(&made)) => -number,
        _ => made.right(),
    }
}

/// The model's answer to a packet on a process that was changed first, where the change says
/// so; after it, or a refusal, what was changed is put back by the second.
pub fn on_changed(
    mut made: Made,
    change: impl Fn(&Asked, &mut Process) -> bool,
    back: impl Fn(&Process, &mut Process),
) -> i64 {
    let (Some(asked), Some(old)) = (asked(&mut made), made.records()) else { return made.right() };
    let (door, mut records) = (usize::from(old.door), old.clone());
    if !records.processes.get_mut(door).is_some_and(|process| change(&asked, process)) {
        return made.right();
    }
    made.put(&records);
    let answer = made.right();
    let Some(mut records) = made.records().filter(|_| answer >= 0) else {
        made.put(&old);
        return answer;
    };
    back(&old.processes[door], &mut records.processes[door]);
    made.put(&records);
    answer
}

/// The model's answer as if host 254 debugged the process, where this holds; the host stays.
pub fn as_owner(made: Made, test: impl Fn(&Asked) -> bool) -> i64 {
    let change = |asked: &Asked, process: &mut Process| {
        let meant = test(asked) && process.there && process.host != PUP_HOST;
        if meant {
            put_host(process, PUP_HOST);
            process.owed = Owed::Nothing;
        }
        meant
    };
    on_changed(made, change, |old, new| {
        put_host(new, old.host);
        (new.watcher, new.owed, new.breakpoints) = (old.watcher, old.owed, setters(old, new));
    })
}

fn put_host(process: &mut Process, host: u8) {
    process.host = host;
    process.watcher = NOBODY;
    process.breakpoints.iter_mut().filter(|b| b.used()).for_each(|b| b.setter = host);
}

/// The breakpoints of the second with who set those of the first.
fn setters(old: &Process, new: &Process) -> [Breakpoint; BREAKPOINTS] {
    let mut points = new.breakpoints;
    points.iter_mut().zip(&old.breakpoints).for_each(|(to, from)| to.setter = from.setter);
    points
}

/// What can be changed after a granted packet or tick: the process and its bytes.
pub struct Granted<'a> {
    pub old: &'a Process,
    pub new: &'a mut Process,
    pub bytes: &'a mut [u8],
}

/// The model's answer to a packet; where it is granted, what came of it is changed.
pub fn after(mut made: Made, change: impl Fn(&Asked, &mut Granted)) -> i64 {
    let Some(asked) = asked(&mut made) else { return made.right() };
    let answer = made.right();
    let (Some(mut records), Some(old)) = (made.records().filter(|_| answer >= 0), asked.process)
    else {
        return answer;
    };
    let door = usize::from(records.door);
    let Made::Packet { memory, .. } = &mut made else { return answer };
    let (new, bytes) = (&mut records.processes[door], &mut memory[old.place()]);
    change(&asked, &mut Granted { old: &old, new, bytes });
    made.put(&records);
    answer
}

/// The model's answer to a packet; where it is refused, the process is changed.
pub fn after_refusal(mut made: Made, change: impl Fn(&Asked, i64, &mut Process)) -> i64 {
    let Some(asked) = asked(&mut made) else { return made.right() };
    let answer = made.right();
    if let Some(mut records) = made.records().filter(|_| answer < -2) {
        let door = usize::from(records.door);
        if let Some(process) = records.processes.get_mut(door) {
            change(&asked, -answer, process);
        }
        made.put(&records);
    }
    answer
}

/// The model's answer to a Store or Fetch; where it is granted, the acknowledgement is
/// changed, its length too.
pub fn acknowledged(mut made: Made, change: impl Fn(&Asked, &mut Vec<u16>)) -> i64 {
    let Some(asked) = asked(&mut made).filter(Asked::looks) else { return made.right() };
    let before = match &made {
        Made::Packet { ack, .. } => ack.to_vec(),
        _ => Vec::new(),
    };
    let answer = made.right();
    let Made::Packet { ack, .. } = made else { return answer };
    if answer < 0 {
        return answer;
    }
    let mut words = ack[..answer as usize].to_vec();
    change(&asked, &mut words);
    words.truncate(ack.len());
    ack.copy_from_slice(&before);
    ack[..words.len()].copy_from_slice(&words);
    words.len() as i64
}

/// The model's answer to a tick; where it is granted, the records after it are changed.
pub fn ticked(mut made: Made, change: impl Fn(&State, &mut State)) -> i64 {
    let (Some(old), Made::Tick { .. }) = (made.records(), &made) else { return made.right() };
    let answer = made.right();
    if let (0, Some(mut new)) = (answer, made.records()) {
        change(&old, &mut new);
        made.put(&new);
    }
    answer
}

/// The same of the process of the door, which is there.
pub fn ticked_at_door(made: Made, change: impl Fn(&Process, &mut Process)) -> i64 {
    ticked(made, |old, new| {
        let door = usize::from(old.door);
        if let Some(was) = old.processes.get(door).filter(|process| process.there) {
            change(was, &mut new.processes[door]);
        }
    })
}
