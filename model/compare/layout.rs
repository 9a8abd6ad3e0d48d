//! Where processes lie: laying them out, what is wrong with a layout, and what a granted
//! call may change in it. The fuzzer uses this too.

use crate::sides::{Call, Side};
use model::*;

/// The numbers of those there, in the order in which they lie.
pub fn order(state: &State) -> Vec<usize> {
    let mut order: Vec<usize> = (0..PROCESSES).filter(|&p| state.processes[p].there).collect();
    order.sort_by_key(|&p| state.processes[p].begin);
    order
}

/// Lays these without gaps, in this order.
pub fn lay_out(state: &mut State, order: &[usize]) {
    let mut end = 0u16;
    for &p in order {
        state.processes[p].begin = end;
        end = end.wrapping_add(state.processes[p].size);
    }
}

/// Lays those there without gaps, in the order in which they lie.
pub fn close_gaps(state: &mut State) {
    lay_out(state, &order(state));
}

/// Whether those there lie in another order than that of their numbers.
pub fn out_of_order(state: &State) -> bool {
    order(state).windows(2).any(|pair| pair[0] > pair[1])
}

/// What is wrong with a layout: the lowest place of it.
#[derive(Clone, Copy, PartialEq, Debug)]
pub enum Fault {
    /// The lowest process does not begin at byte 0.
    NotAtZero,
    /// A process begins after the end of the one before it.
    Gap,
    /// Two begin at the same byte.
    OneBegin,
    /// A process begins before the end of the one before it.
    Overlap,
    /// There is no gap, but the last ends after the memory.
    PastEnd,
}

pub fn fault(state: &State) -> Option<Fault> {
    let places: Vec<_> = order(state).iter().map(|&p| state.processes[p].place()).collect();
    if places.first()?.start != 0 {
        return Some(Fault::NotAtZero);
    }
    for pair in places.windows(2) {
        match pair[1].start {
            start if start == pair[0].start => return Some(Fault::OneBegin),
            start if start > pair[0].end => return Some(Fault::Gap),
            start if start < pair[0].end => return Some(Fault::Overlap),
            _ => {}
        }
    }
    (places.last()?.end > MEMORY).then_some(Fault::PastEnd)
}

/// Whether the layout is all that is not sound.
pub fn fault_alone(state: &State) -> bool {
    let mut apart = state.clone();
    // two bytes each, or as many as breakpoints need, mostly have room
    for process in apart.processes.iter_mut().filter(|process| right_size(process.size)) {
        let needed = last_word(process).map_or(SMALLEST, |address| address.saturating_add(2));
        process.size = process.size.min(needed);
    }
    close_gaps(&mut apart);
    fault(state).is_some() && sound(&apart)
}

/// The highest address of a process's breakpoints.
pub fn last_word(process: &Process) -> Option<u16> {
    process.breakpoints.iter().filter(|b| b.used()).map(|b| b.address).max()
}

// ---------------------------------------------------------------- what calls may change

/// Whether a call on a state came past test 2 though the layout is not sound.
pub fn accepted_fault(call: &Call, answer: i64, before: &Side) -> bool {
    let tested = call.on_state() && !matches!(-answer, WRONG_BUFFER | NOT_SOUND);
    tested && decode(before.state.bytes()).is_some_and(|state| fault(&state).is_some())
}

/// The process that a granted call changes, if any.
pub fn changed(call: &Call, after: &Side) -> Option<usize> {
    match call {
        Call::Request { message } => match message[4] {
            NOP => None,
            CREATE_PROCESS => Some(after.output.bytes()[5].into()),
            _ => Some(message[5].into()),
        },
        Call::Report { process, .. } => Some(*process as usize),
        Call::Line { text } => Some(read_line(text)?.pid as usize),
        Call::Packet { .. } | Call::Tick => {
            let state = decode(after.state.bytes())?;
            let door = usize::from(state.door);
            state.processes.get(door).is_some_and(|process| process.there).then_some(door)
        }
        _ => None,
    }
}

/// What K9 says of every granted call on a state, should both sides break it.
pub fn broken_layout(call: &Call, before: &Side, after: &Side) -> Option<&'static str> {
    let new = decode(after.state.bytes())?;
    match call {
        Call::FreshStart { .. } => broken_start(&new),
        _ if call.on_state() => broken_call(call, before, after, &new),
        _ => None,
    }
}

/// "at fresh start in number order"; an absent one begins at 0.
fn broken_start(new: &State) -> Option<&'static str> {
    let begun = new.processes.iter().any(|process| !process.there && process.begin != 0);
    (begun || out_of_order(new)).then_some("both: a fresh start does not lie in number order")
}

fn broken_call(call: &Call, before: &Side, after: &Side, new: &State) -> Option<&'static str> {
    let old = decode(before.state.bytes())?;
    let (old_memory, new_memory) = (before.memory.bytes(), after.memory.bytes());
    let changed = changed(call, after);
    for p in (0..PROCESSES).filter(|&p| Some(p) != changed) {
        let (was, is) = (&old.processes[p], &new.processes[p]);
        let begin = if is.there { is.begin } else { was.begin };
        if *is != (Process { begin, ..*was }) {
            return Some("both: another process's record is changed");
        }
        if is.there && old_memory[was.place()] != new_memory[is.place()] {
            return Some("both: another process's bytes are changed");
        }
    }
    let (was_used, is_used) = (used_bytes(&old), used_bytes(new));
    if is_used != expected(call, &old, was_used) {
        return Some("both: free bytes and sizes do not make 16,384");
    }
    if new_memory[is_used..was_used.max(is_used)].iter().any(|&byte| byte != 0) {
        return Some("both: bytes added to the free end are not zero");
    }
    let free = was_used.max(is_used)..;
    if old_memory[free.clone()] != new_memory[free] {
        return Some("both: the free end is changed");
    }
    None
}

/// The sizes "summed from fresh start and the granted CREATEs and DESTROYs", after a
/// granted call.
fn expected(call: &Call, old: &State, used: usize) -> usize {
    let Call::Request { message } = call else { return used };
    match message[4] {
        CREATE_PROCESS => {
            let asked = u16::from_be_bytes([message[6], message[7]]);
            used + usize::from(if asked == 0 { LARGEST } else { asked })
        }
        DESTROY_PROCESS => used - usize::from(old.processes[usize::from(message[5])].size),
        _ => used,
    }
}
