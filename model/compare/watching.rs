//! What K5 says of every granted call: who watches after it, whose breakpoints it may change,
//! and whom a notice goes to. The fuzzer uses this too.

use crate::layout::changed;
use crate::sides::{Call, Side};
use model::*;

/// What K5 says of the process that a granted call changes, should both sides break it.
pub fn broken_watch(call: &Call, answer: i64, before: &Side, after: &Side) -> Option<&'static str> {
    let p = changed(call, after)?;
    let was = decode(before.state.bytes())?.processes[p];
    let is = decode(after.state.bytes())?.processes[p];
    if is.watcher != expected_watcher(call, &was) {
        return Some("both: another watches after a call");
    }
    let asked = match call {
        Call::Request { message } => Some((message[1], message[4])),
        _ => None,
    };
    broken_setters(asked, &was, &is)
        .or_else(|| broken_limit(asked, &was, &is))
        .or_else(|| broken_notice(call, answer, &was, after))
}

/// "END DEBUG and DESTROY end the watch"; WATCH and END WATCH alone change it otherwise.
fn expected_watcher(call: &Call, was: &Process) -> u8 {
    let Call::Request { message } = call else { return was.watcher };
    match message[4] {
        WATCH => message[1],
        END_WATCH | END_DEBUG | DESTROY_PROCESS | CREATE_PROCESS => NOBODY,
        _ => was.watcher,
    }
}

fn at(process: &Process, address: u16) -> Option<&Breakpoint> {
    process.breakpoints.iter().find(|b| b.used() && b.address == address)
}

/// "Each breakpoint records who set it; only he may change or remove it": of the requests
/// BREAK, UNBREAK and END WATCH leave those of the other as they are.
fn broken_setters(asked: Option<(u8, u8)>, was: &Process, is: &Process) -> Option<&'static str> {
    for old in was.breakpoints.iter().filter(|b| b.used()) {
        let new = at(is, old.address);
        if new.is_some_and(|new| new.setter != old.setter) {
            return Some("both: who set a breakpoint is changed");
        }
        let Some((host, BREAK | UNBREAK | END_WATCH)) = asked else { continue };
        if old.setter != host && new != Some(old) {
            return Some("both: the other's breakpoint is changed");
        }
    }
    let Some((host, BREAK)) = asked else { return None };
    let new = is.breakpoints.iter().find(|b| b.used() && at(was, b.address).is_none());
    let his = new.is_none_or(|b| b.setter == host);
    (!his).then_some("both: a new breakpoint is not his who set it")
}

/// "While watched, neither may set one that makes his more than 4"; "END WATCH removes the
/// watcher's breakpoints."
fn broken_limit(asked: Option<(u8, u8)>, was: &Process, is: &Process) -> Option<&'static str> {
    let (host, cmd) = asked?;
    let count = |p: &Process| p.breakpoints.iter().filter(|b| b.used() && b.setter == host).count();
    match cmd {
        BREAK if is.watcher != NOBODY && count(is) > 4 && count(is) > count(was) => {
            Some("both: a fifth is set while watched")
        }
        END_WATCH if count(is) > 0 => Some("both: a watcher's breakpoint outlives his watch"),
        _ => None,
    }
}

/// "A BPT notice at a breakpoint goes to the one who set it, other notices to the debugging
/// host."
fn broken_notice(call: &Call, answer: i64, was: &Process, after: &Side) -> Option<&'static str> {
    let Call::Report { kind, words, .. } = call else { return None };
    if notice_length(answer) == 0 {
        return None;
    }
    let pc = u16::from_le_bytes([words[2 * PC], words[2 * PC + 1]]);
    let told = match at(was, pc) {
        Some(b) if *kind == u64::from(BPT) => b.setter,
        _ => was.host,
    };
    (after.output.bytes()[1] != told).then_some("both: a notice goes to another host")
}
