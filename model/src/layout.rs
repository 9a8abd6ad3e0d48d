//! K9, "One memory for all": where each process lies, and what CREATE and DESTROY do there.

use super::*;
use std::ops::Range;

impl Process {
    /// The process's own bytes in memory. Addresses within it count from the first of
    /// them, so a move changes none.
    pub fn place(&self) -> Range<usize> {
        let begin = usize::from(self.begin);
        begin..begin + usize::from(self.size)
    }
}

/// Where the free bytes begin: "Processes lie without gaps"; "Free bytes follow the last".
pub fn used_bytes(state: &State) -> usize {
    let there = state.processes.iter().filter(|process| process.there);
    there.map(|process| usize::from(process.size)).sum()
}

/// "Free bytes plus the sizes [..] always make 16,384." The state is sound.
pub fn free_bytes(state: &State) -> usize {
    MEMORY - used_bytes(state)
}

/// "sound includes the layout": the first of those there lies at byte 0, each other one
/// where one before it ends, in any order, and none past the memory's end. A size is at
/// least 2, so no process is found twice. The begin of an absent record is not asked.
pub(super) fn layout_sound(state: &State) -> bool {
    let there = || state.processes.iter().filter(|process| process.there);
    let mut end = 0;
    for _ in there() {
        match there().map(Process::place).find(|place| place.start == end) {
            Some(place) => end = place.end,
            None => return false,
        }
    }
    end <= MEMORY
}

/// "CREATE takes an even size in ARG1, up to 4,096, 0 meaning 4,096." Nothing where ARG1
/// is "an odd or greater size".
pub fn asked_size(arg1: u16) -> Option<u16> {
    match arg1 {
        0 => Some(LARGEST),
        size => right_size(size).then_some(size),
    }
}

/// Whether ARG1 is no size that test 6 refuses in a CREATE, a CREATED or a CAN'T CREATE.
pub(super) fn size_fits(cmd: u8, arg1: u16) -> bool {
    cmd & !CANT != CREATE_PROCESS || asked_size(arg1).is_some()
}

/// "CREATE: the lowest absent number; [..] vector zero, stopped, debugged by the asker."
/// K9: "a new one last, zeroed to its size"
pub(super) fn create(
    state: &mut State,
    memory: &mut [u8],
    host: u8,
    size: u16,
) -> Result<u8, Refusal> {
    // 13: "exactly when all numbers are taken or free bytes are fewer than the size"
    let Some(p) = state.processes.iter().position(|process| !process.there) else {
        return Err(NO_ROOM);
    };
    if free_bytes(state) < usize::from(size) {
        return Err(NO_ROOM);
    }
    let begin = used_bytes(state) as u16;
    let created = Process { there: true, host, run: Run::Stopped, size, begin, ..CLEARED };
    memory[created.place()].fill(0);
    state.processes[p] = created;
    Ok(p as u8)
}

/// "DESTROY: the process is absent, its record cleared", with what it owed, who watched
/// it and a Go that waits. K9: "at a DESTROY those above move down, what is seen in them unchanged"; "DESTROY zeroes the
/// bytes it adds to the free end." Planted words move as they stand.
pub(super) fn destroy(state: &mut State, memory: &mut [u8], p: usize) {
    let Process { begin, size, .. } = state.processes[p];
    let (gone, end) = (state.processes[p].place(), used_bytes(state));
    memory.copy_within(gone.end..end, gone.start);
    memory[end - gone.len()..end].fill(0);
    state.processes[p] = CLEARED;
    for process in &mut state.processes {
        if process.there && process.begin > begin {
            process.begin -= size;
        }
    }
}
