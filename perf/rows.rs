//! The rows of the table that `perf/run` prints: what each starts from, and the calls of one turn.

use model::{Go, Owed, Run, FIELDS, PROCESSES, PUP_HOST, TEXT_HOST, VECTOR, WORDS};

/// What a row starts from: the processes that are there, and the sizes of all.
#[derive(Clone, Copy)]
pub struct Start {
    pub there: u8,
    pub sizes: [u16; PROCESSES],
}

/// Processes 0 to 6 are there, and host 5 debugs process 2; 6,144 bytes are free.
const SEVEN: Start = Start { there: 0x7f, sizes: [1024, 1024, 4096, 1024, 1024, 1024, 1024, 0] };
/// Processes 0 to 3 fill the memory.
const FOUR: Start = Start { there: 0x0f, sizes: [4096, 4096, 4096, 4096, 0, 0, 0, 0] };
pub const P: u8 = 2;
const OWNER: u8 = 5;
/// The process that the text debugger asks for, of 1,024 bytes.
const BENCH: u8 = 3;
/// The process at which the Pup door is, of 1,024 bytes.
pub const DOOR: u8 = 4;
const STRANGER: u8 = 6;
/// The one who watches process 2 in some rows.
const WATCHER: u8 = 7;
/// Where EXAMINE, DEPOSIT and breakpoints are.
const AT: u16 = 256;

pub enum Step {
    Request(Vec<u8>),
    Report {
        pid: u8,
        kind: u8,
        words: [u16; WORDS],
        bytes: [u8; VECTOR],
    },
    /// A line of the text debugger.
    Line(Vec<u8>),
    /// A packet of a console: type, ID, and data words.
    Packet(u8, u32, Vec<u16>),
    Tick,
    /// Asks why a request would be refused.
    Why(Vec<u8>),
    /// The desk writes a request with these fields and this string.
    Write([u64; FIELDS], Vec<u8>),
    /// The desk reads an answer.
    Read(Vec<u8>),
    /// No call: a process is set back to this run state and to what it owes, by two stores into the state.
    Put {
        pid: u8,
        run: Run,
        owed: Owed,
    },
    /// No call: the process at the door is set back to this run state and to this Go, by a few stores into the state.
    PutGo(Run, Go),
    /// No call: a process is set back to being there, debugged by this host, or not there; and all of them to where they lay at the
    /// start.
    Back {
        pid: u8,
        there: bool,
        host: u8,
        begins: [u16; PROCESSES],
    },
}

pub struct Row {
    pub name: String,
    pub what: String,
    pub start: Start,
    pub before: Vec<Step>,
    pub turn: Vec<Step>,
    /// The sum of the answers of one turn.
    pub answers: i64,
}

fn ask(host: u8, cmd: u8, pid: u8, arg1: u16, arg2: u16, string: usize) -> Step {
    let [a, b] = arg1.to_be_bytes();
    let [c, d] = arg2.to_be_bytes();
    let mut message = vec![0, host, 255, 0, cmd, pid, a, b, c, d];
    message.extend((0..string).map(|i| i as u8));
    Step::Request(message)
}

pub fn to(cmd: u8, arg1: u16, arg2: u16) -> Step {
    let string = if cmd == model::DEPOSIT || cmd == model::DEPOSIT_STATE_VECTOR { arg2 } else { 0 };
    ask(OWNER, cmd, P, arg1, arg2, usize::from(string))
}

fn tell(kind: u8, pc: u16) -> Step {
    tell_of(P, kind, pc)
}

fn tell_of(pid: u8, kind: u8, pc: u16) -> Step {
    let words = [1, 2, 3, 4, 5, 6, 7, pc, 9];
    Step::Report { pid, kind, words, bytes: model::vector_bytes(&words) }
}

fn put(run: Run) -> Step {
    Step::Put { pid: P, run, owed: Owed::Nothing }
}

fn text(text: &str) -> Step {
    Step::Line(format!("{text}\n").into_bytes())
}

fn row(name: &str, what: &str, before: Vec<Step>, turn: Vec<Step>, answers: i64) -> Row {
    Row { name: name.to_string(), what: what.to_string(), start: SEVEN, before, turn, answers }
}

/// Asks why, in place of a request.
fn why(step: Step) -> Vec<Step> {
    let Step::Request(message) = step else { unreachable!() };
    vec![Step::Why(message)]
}

/// Sets a process of a row back to what it was at the start.
fn back(start: Start, pid: u8, host: u8) -> Step {
    let began = model::fresh_start(start.there, &start.sizes, DOOR).expect("sizes that have room");
    let begins = began.processes.map(|process| process.begin);
    Step::Back { pid, there: start.there >> pid & 1 == 1, host, begins }
}

/// CREATE of a size, which zeroes as many bytes.
fn creating(size: u16) -> Row {
    let create = ask(OWNER, model::CREATE_PROCESS, 0, size, 0, 0);
    let turn = vec![create, back(SEVEN, 7, model::NOBODY)];
    row(&format!("create-{size}"), &format!("CREATE of {size}"), vec![], turn, 10)
}

/// DESTROY of one of four processes of 4,096 bytes: so many bytes above it move, and 4,096 are zeroed.
fn destroying(pid: u8) -> Row {
    let moved = 4096 * (3 - u16::from(pid));
    let before = vec![ask(OWNER, model::DEBUG, pid, 0, 0, 0)];
    let destroy = ask(OWNER, model::DESTROY_PROCESS, pid, 0, 0, 0);
    let turn = vec![destroy, back(FOUR, pid, OWNER)];
    let what = format!("DESTROY, {moved} moved");
    Row { start: FOUR, ..row(&format!("destroy-{moved}"), &what, before, turn, 10) }
}

/// EXAMINE or DEPOSIT of some bytes, with no breakpoint or with eight, 32 bytes apart from the first byte on.
fn moving(name: &str, cmd: u8, bytes: u16, planted: u16) -> Row {
    let what = format!("{} of {bytes}, {planted} planted", name.to_uppercase());
    let before = (0..planted).map(|k| to(model::BREAK, AT + 32 * k, 0)).collect();
    let answer = if cmd == model::EXAMINE { 10 + i64::from(bytes) } else { 10 };
    row(&format!("{name}-{bytes}-{planted}"), &what, before, vec![to(cmd, AT, bytes)], answer)
}

pub fn rows() -> Vec<Row> {
    use model::*;
    let mut rows = vec![
        row("nop", "NOP", vec![], vec![ask(OWNER, NOP, 0, 0, 0, 0)], 10),
        row("debug", "DEBUG, again by the same host", vec![], vec![to(DEBUG, 0, 0)], 10),
        row("status", "STATUS", vec![], vec![to(STATUS, 0, 0)], 10),
    ];
    for (name, cmd) in [("examine", EXAMINE), ("deposit", DEPOSIT)] {
        for planted in [0, 8] {
            rows.extend([1, 16, 256].map(|bytes| moving(name, cmd, bytes, planted)));
        }
    }
    let pair = vec![to(BREAK, AT, 0), to(UNBREAK, AT, 0)];
    rows.push(row("break", "BREAK and UNBREAK, a pair", vec![], pair, 20));
    let pair =
        vec![ask(OWNER, CREATE_PROCESS, 0, 0, 0, 0), ask(OWNER, DESTROY_PROCESS, 7, 0, 0, 0)];
    rows.push(row("create", "CREATE and DESTROY, a pair", vec![], pair, 20));
    rows.extend([2, 4096].map(creating));
    rows.extend([3, 2, 0].map(destroying));
    let counted = vec![to(BREAK, AT, 65_535)];
    rows.push(row("silent", "BPT report, silent", counted, vec![tell(BPT, AT)], 0));
    // PC is at the breakpoint again after the one instruction, which jumps to itself.
    let counted = vec![to(BREAK, AT, 65_535)];
    let pair = vec![tell(BPT, AT), tell(TTRAP, AT)];
    rows.push(row("silent-pair", "BPT and TTRAP report, silent, a pair", counted, pair, 0));
    let stopped = vec![to(BREAK, AT, 0), tell(BPT, AT)];
    let back = put(Run::AtBreakpoint);
    let pair = vec![to(PROCEED_BPT, 0, 0), tell(TTRAP, AT), back];
    rows.push(row("proceed", "PROCEED BPT and silent TTRAP, a pair", stopped, pair, 10));
    let back = vec![tell(TRAP, AT), put(Run::Running)];
    rows.push(row("notice", "TRAP report with notice", vec![], back, 28));
    let turn = vec![ask(STRANGER, EXAMINE, P, AT, 16, 0)];
    rows.push(row("stranger", "EXAMINE of 16 by a stranger, refused", vec![], turn, -8));
    rows.extend(watching());
    let turn = vec![Step::Write([5, DEPOSIT.into(), 2, AT.into(), 16], vec![7; 16])];
    rows.push(row("write", "the desk writes DEPOSIT of 16", vec![], turn, 26));
    let Step::Request(head) = ask(OWNER, EXAMINE, P, AT, 16, 0) else { unreachable!() };
    let turn = vec![Step::Read([head, vec![7; 16]].concat())];
    rows.push(row("read", "the desk reads CONTENTS of 16", vec![], turn, 16));
    let session = vec![
        to(DEBUG, 0, 0),
        to(DEPOSIT_STATE_VECTOR, 0, 18),
        to(BREAK, AT, 0),
        tell(BPT, AT),
        to(SINGLE_STEP, 0, 0),
        tell(TTRAP, AT + 2),
        to(RESUME, 0, 0),
        tell(BPT, AT),
        to(PROCEED_BPT, 0, 0),
        to(STOP, 0, 0),
        to(END_DEBUG, 0, 0),
    ];
    let ended = vec![to(END_DEBUG, 0, 0)];
    rows.push(row("session", "a debugging session of 11 calls", ended, session, 8 * 10 + 3 * 28));
    rows.extend(lines());
    rows.extend(packets().into_iter().chain(whys()));
    rows
}

/// What a watcher asks.
fn watching() -> [Row; 2] {
    use model::{EXAMINE, WATCH};
    let watch = || vec![ask(WATCHER, WATCH, P, 0, 0, 0)];
    let look = vec![ask(WATCHER, EXAMINE, P, AT, 16, 0)];
    [
        row("watch", "WATCH, again by the same host", watch(), watch(), 10),
        row("watcher", "EXAMINE of 16 by the watcher", watch(), look, 26),
    ]
}

/// Lines of the text debugger, and the report that answers one of them. A number in an answer has eight digits, an answered line 16 bytes.
fn lines() -> [Row; 6] {
    use model::{BREAK, DEBUG, STOP, TRAP};
    let debugged =
        || vec![ask(TEXT_HOST, DEBUG, BENCH, 0, 0, 0), ask(TEXT_HOST, STOP, BENCH, 0, 0, 0)];
    let planted = (0..8).map(|k| ask(TEXT_HOST, BREAK, BENCH, AT + 32 * k, 0, 0));
    let planted = debugged().into_iter().chain(planted).collect();
    let stopped = Step::Put { pid: BENCH, run: Run::Stopped, owed: Owed::Nothing };
    let owing = Step::Put { pid: BENCH, run: Run::Running, owed: Owed::Continue };
    let store = vec![text("0x3 I 0x100 0x12345678")];
    let look = || vec![text("0x3 i 0x100 0x0")];
    let answered = vec![owing, tell_of(BENCH, TRAP, AT)];
    [
        row("line-i", "a line i", debugged(), look(), 21),
        row("line-i-8", "a line i, 8 planted", planted, look(), 21),
        row("line-store", "a line I", debugged(), store, 21),
        row("line-c", "a line c", debugged(), vec![text("0x3 c 0x1 0x0"), stopped], 0),
        row("line-stranger", "a line i, no right", vec![], vec![text("0x2 i 0x100 0x0")], -101),
        row("answered", "TRAP report with notice and line", debugged(), answered, 28 + 256 * 16),
    ]
}

/// Packets to a process that host 254 has stopped, and ticks. The block begins at its first word, with no breakpoint or with eight, each in every
/// fourth word.
fn packets() -> [Row; 10] {
    use model::{BREAK, DEBUG, FETCH, GO, GO_REPLY, STOP, STORE};
    let debugged = || vec![ask(PUP_HOST, DEBUG, DOOR, 0, 0, 0), ask(PUP_HOST, STOP, DOOR, 0, 0, 0)];
    let planted = (0..8).map(|k| ask(PUP_HOST, BREAK, DOOR, AT + 8 * k, 0, 0));
    let planted = debugged().into_iter().chain(planted).collect();
    let send = |kind: u8, words: &[u16]| Step::Packet(kind, 9, words.to_vec());
    let word = AT / 2;
    let fetch = || vec![send(FETCH, &[word, 0, 32])];
    let waiting = |ticks: u8| Step::PutGo(Run::Stopped, Go { waits: true, ticks, id: 8 });
    let stopped = || Step::PutGo(Run::Stopped, Go { waits: false, ticks: 0, id: 0 });
    let go = vec![send(GO, &[]), stopped()];
    let reply = vec![waiting(7), send(GO_REPLY, &[])];
    [
        row("fetch", "a Fetch of one word", debugged(), vec![send(FETCH, &[word])], 2),
        row("fetch-32", "a Fetch, a block of 32", debugged(), fetch(), 35),
        row("fetch-32-8", "a Fetch, a block of 32, 8 planted", planted, fetch(), 35),
        row("store", "a Store", debugged(), vec![send(STORE, &[word, 7])], 2),
        row(
            "store-32",
            "a Store, a block of 32",
            debugged(),
            vec![send(STORE, &[word, 7, 32])],
            35,
        ),
        row("go", "a Go", debugged(), go, 0),
        row("go-reply", "a GoReply that resumes", debugged(), reply, 0),
        row("tick", "a tick, no Go waits", debugged(), vec![Step::Tick], 0),
        row("tick-go", "a tick, a Go waits", debugged(), vec![waiting(7), Step::Tick], 0),
        row(
            "packet-stranger",
            "a Fetch of one word, no right",
            vec![],
            vec![send(FETCH, &[word])],
            -8,
        ),
    ]
}

/// Why a request is refused, or granted.
fn whys() -> [Row; 4] {
    use model::{BREAK, EXAMINE, NOP, UNBREAK, WATCH};
    let planted = (0..8).map(|k| to(BREAK, AT + 32 * k, 0)).collect();
    let his = vec![ask(WATCHER, WATCH, P, 0, 0, 0), ask(WATCHER, BREAK, P, AT, 0, 0)];
    let stranger = ask(STRANGER, EXAMINE, P, AT, 16, 0);
    [
        row("why", "why, granted (NOP)", vec![], why(ask(OWNER, NOP, 0, 0, 0, 0)), 0),
        row("why-8", "why, a stranger's EXAMINE of 16", vec![], why(stranger), -8),
        row("why-11", "why, BREAK with 8 planted, refused 11", planted, why(to(BREAK, 2, 0)), -11),
        row("why-16", "why, 16", his, why(to(UNBREAK, AT, 0)), -16),
    ]
}
