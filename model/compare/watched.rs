//! A request to a process as the stand-in gets it, with who asks, and other things that could
//! come of it than the model says.

use crate::made::Made;
use model::*;

/// A request to a process that is there, with its record before.
pub struct Asked {
    pub host: u8,
    pub cmd: u8,
    pub p: usize,
    pub arg1: u16,
    pub arg2: u16,
    pub process: Process,
}

impl Asked {
    pub fn is(&self, cmd: u8) -> bool {
        self.cmd == cmd
    }

    pub fn watched(&self) -> bool {
        self.process.watcher != NOBODY
    }

    pub fn watcher(&self) -> bool {
        self.process.watcher == self.host
    }

    pub fn owner(&self) -> bool {
        self.process.host == self.host
    }

    pub fn knows(&self) -> bool {
        self.watcher() || self.owner()
    }

    pub fn used(&self) -> usize {
        self.process.breakpoints.iter().filter(|b| b.used()).count()
    }

    /// How many breakpoints are the asker's.
    pub fn his(&self) -> usize {
        let his = |b: &&Breakpoint| b.used() && b.setter == self.host;
        self.process.breakpoints.iter().filter(his).count()
    }

    /// The breakpoint at ARG1.
    pub fn here(&self) -> Option<&Breakpoint> {
        self.process.breakpoints.iter().find(|b| b.used() && b.address == self.arg1)
    }

    /// Whether a range ends past the process.
    pub fn outside(&self) -> bool {
        u32::from(self.arg1) + u32::from(self.arg2) > self.process.size.into()
    }
}

/// What a request asks, on a state whose bytes are one.
pub fn asked(made: &mut Made) -> Option<Asked> {
    let [host, cmd, pid] = [made.byte(1)?, made.byte(4)?, made.byte(5)?];
    let (arg1, arg2) = (made.word(6)?, made.word(8)?);
    let p = usize::from(pid);
    let process = *made.records()?.processes.get(p).filter(|process| process.there)?;
    Some(Asked { host, cmd, p, arg1, arg2, process })
}

/// The model's answer to a request; nothing is written.
pub fn tried(made: &Made) -> i64 {
    let Made::Request { state, memory, message, reply } = made else { return 0 };
    request_bytes(&mut state.to_vec(), &mut memory.to_vec(), message, &mut reply.to_vec())
}

/// A request is refused with this number and a CAN'T, where such a thing holds of it and of
/// the model's answer.
pub fn cant(mut made: Made, number: i64, test: impl Fn(&Asked, i64) -> bool) -> i64 {
    let meant = asked(&mut made).filter(|a| !matches!(a.cmd, NOP | CREATE_PROCESS));
    if !meant.is_some_and(|a| test(&a, tried(&made))) {
        return made.right();
    }
    if let Made::Request { message, reply, .. } = made {
        reply[..HEAD].copy_from_slice(&message[..HEAD]);
        reply[4] += 128;
    }
    -number
}

/// The model's answer to one of these requests as if the debugging host had asked, where this
/// holds; it goes to the asker.
pub fn as_if_asked_by(mut made: Made, cmds: &[u8], test: impl Fn(&Asked) -> bool) -> i64 {
    let meant = asked(&mut made).filter(|a| cmds.contains(&a.cmd) && test(a));
    let (Some(a), Made::Request { state, memory, message, reply }) = (meant, &mut made) else {
        return made.right();
    };
    let mut message = message.to_vec();
    message[1] = a.process.host;
    let answer = request_bytes(state, memory, &message, reply);
    if answer > 0 || (-16..=-7).contains(&answer) {
        reply[1] = a.host;
    }
    answer
}

/// The model's answer to a request that it refuses with this number, on a record that was
/// changed first.
pub fn on_records(
    mut made: Made,
    cmd: u8,
    number: i64,
    change: impl Fn(&Asked, &mut Process),
) -> i64 {
    let meant = asked(&mut made).filter(|a| a.is(cmd) && tried(&made) == number);
    let (Some(a), Some(mut records)) = (meant, made.records()) else { return made.right() };
    let old = records.clone();
    change(&a, &mut records.processes[a.p]);
    made.put(&records);
    let answer = made.right();
    if answer < 0 {
        made.put(&old);
    }
    answer
}

/// Removes the breakpoints that a host set.
pub fn ended(process: &mut Process, bytes: &mut [u8], host: u8) {
    for b in process.breakpoints.iter_mut().filter(|b| b.used() && b.setter == host) {
        if b.planted() {
            bytes[usize::from(b.address)..][..2].copy_from_slice(&b.saved);
        }
        *b = NONE_THERE.processes[0].breakpoints[0];
        process.set -= 1;
    }
}
