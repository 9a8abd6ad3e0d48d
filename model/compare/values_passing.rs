//! Values of K3 in states: run states, and in which of them one is lifted.

use crate::sides::{is_sound, Call, Side};
use crate::values::{on_state, value, Value};
use model::*;

pub const PASSING_VALUES: &[Value] = &[
    // one lifted in a run state that allows none, being all that is not sound
    value(NOT_SOUND, "state, one lifted while running", |c, s| wrongly_lifted(c, s, Run::Running)),
    value(NOT_SOUND, "state, one lifted while stopped", |c, s| wrongly_lifted(c, s, Run::Stopped)),
    value(NOT_SOUND, "state, one lifted at a breakpoint", |c, s| {
        wrongly_lifted(c, s, Run::AtBreakpoint)
    }),
    value(NOT_SOUND, "state, one lifted when ended", |c, s| wrongly_lifted(c, s, Run::Ended)),
    // two lifted, being all that is not sound
    value(NOT_SOUND, "state, two lifted while stepping", |c, s| two_lifted(c, s, Run::Stepping)),
    value(NOT_SOUND, "state, two lifted while passing", |c, s| two_lifted(c, s, Run::Passing)),
    // sound ones
    value(0, "state, one lifted while stepping", |c, s| {
        any(c, s, |p| p.run == Run::Stepping && lifted(p) == 1)
    }),
    value(0, "state, one lifted while passing", |c, s| passes(c, s, |p| lifted(p) == 1)),
    value(0, "state, passing with breakpoints and none lifted", |c, s| {
        passes(c, s, |p| lifted(p) == 0 && p.breakpoints.iter().any(|b| b.used()))
    }),
    value(0, "state, passing with no breakpoint", |c, s| {
        passes(c, s, |p| p.host != NOBODY && p.breakpoints.iter().all(|b| !b.used()))
    }),
    value(0, "state, passing with no host", |c, s| passes(c, s, |p| p.there && p.host == NOBODY)),
    value(0, "state, an absent process that is passing", |c, s| passes(c, s, |p| !p.there)),
    value(0, "state, two processes that are passing", |c, s| {
        on_state(c) && processes(s).iter().filter(|p| p.there && p.run == Run::Passing).count() > 1
    }),
    // run states that there are not, being all that is wrong
    value(NOT_SOUND, "state, run state 6", |c, s| unformed(c, s, |run| run == 6)),
    value(NOT_SOUND, "state, run state 7 to 127", |c, s| {
        unformed(c, s, |run| run > 6 && run < 128)
    }),
    value(NOT_SOUND, "state, run state over 127", |c, s| unformed(c, s, |run| run > 127)),
];

/// The processes of the state after a call; none where its bytes are no state.
fn processes(side: &Side) -> Vec<Process> {
    decode(side.state.bytes()).map_or_else(Vec::new, |state| state.processes.to_vec())
}

fn any(call: &Call, side: &Side, test: impl Fn(&Process) -> bool) -> bool {
    on_state(call) && processes(side).iter().any(test)
}

fn passes(call: &Call, side: &Side, test: impl Fn(&Process) -> bool) -> bool {
    any(call, side, |p| p.run == Run::Passing && test(p))
}

fn lifted(process: &Process) -> usize {
    process.breakpoints.iter().filter(|b| b.used() && b.lifted).count()
}

/// Whether one is lifted in a process in this run state, and would be sound if it were
/// passing.
fn wrongly_lifted(call: &Call, side: &Side, run: Run) -> bool {
    let Some(mut state) = decode(side.state.bytes()) else { return false };
    let wrong = state.processes.iter_mut().find(|p| p.run == run && lifted(p) == 1);
    wrong.map(|process| process.run = Run::Passing).is_some() && on_state(call) && sound(&state)
}

/// Whether two are lifted in a process in this run state, and would be sound if they were
/// planted.
fn two_lifted(call: &Call, side: &Side, run: Run) -> bool {
    let Some(mut state) = decode(side.state.bytes()) else { return false };
    let wrong = state.processes.iter_mut().find(|p| p.run == run && lifted(p) == 2);
    let plant = |process: &mut Process| {
        process.breakpoints.iter_mut().for_each(|b| b.lifted = false);
    };
    wrong.map(plant).is_some() && on_state(call) && sound(&state)
}

/// Whether a run state is such a number that none has, in bytes that are those of a sound
/// state otherwise.
fn unformed(call: &Call, side: &Side, test: impl Fn(u8) -> bool) -> bool {
    let mut bytes = side.state.bytes().to_vec();
    if bytes.len() != STATE_BYTES || !on_state(call) {
        return false;
    }
    let wrong = (0..PROCESSES).map(|p| RECORD_BYTES * p + 2).find(|&at| bytes[at] > 5);
    let Some(at) = wrong.filter(|&at| test(bytes[at])) else { return false };
    bytes[at] = Run::Passing as u8;
    is_sound(&bytes)
}
