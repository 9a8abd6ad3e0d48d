//! A call made by the model and by the library, each on buffers of its own, and
//! the comparison of all that they leave. The fuzzer uses this too.

use crate::answers::{broken_line, line_written};
use crate::describe::describe;
use crate::layout::{accepted_fault, broken_layout};
use crate::lent::{Lent, GUARD};
use crate::library::*;
use crate::passing::broken_passing;
use crate::pup::broken_pup;
use crate::stack::on_painted;
use crate::status::{broken_numbers, broken_status};
use crate::watching::broken_watch;
use crate::why::{broken_promise, broken_why};
use model::*;
use std::borrow::Cow;

pub enum Call {
    FreshStart { there: u64, sizes: Vec<u16>, door: u64 },
    Request { message: Vec<u8> },
    Why { message: Vec<u8> },
    Report { process: u64, kind: u64, reason: u64, words: Vec<u8> },
    Line { text: Vec<u8> },
    Packet { kind: u64, id: u64, words: Vec<u16> },
    Tick,
    Write { fields: [u64; FIELDS], string: Vec<u8> },
    Read { message: Vec<u8> },
}

impl Call {
    /// The message, the nine words, the text, the string, or the sizes or a packet's words
    /// as the processor keeps them.
    pub fn input(&self) -> Cow<'_, [u8]> {
        match self {
            Call::FreshStart { sizes: words, .. } | Call::Packet { words, .. } => {
                words.iter().flat_map(|word| word.to_ne_bytes()).collect()
            }
            Call::Tick => Cow::default(),
            Call::Request { message } | Call::Why { message } | Call::Read { message } => {
                message.into()
            }
            Call::Report { words, .. } => words.into(),
            Call::Line { text } => text.into(),
            Call::Write { string, .. } => string.into(),
        }
    }

    /// Whether what is lent as input is words, which are aligned.
    pub fn of_words(&self) -> bool {
        matches!(self, Call::FreshStart { .. } | Call::Packet { .. })
    }

    /// Whether the call is one on a state, which test 2 is about.
    pub fn on_state(&self) -> bool {
        !matches!(self, Call::FreshStart { .. } | Call::Write { .. } | Call::Read { .. })
    }
}

// ---------------------------------------------------------------- buffers

/// The buffers lent to one of the two; `input` is the message, the words, the text, the
/// string or the sizes, `output` the reply, the notice or the request, or the fields that
/// are read, two bytes each, `line` the line that is answered, `ack` the words of an
/// acknowledgement, two bytes each, and `facts` those of a refusal, eight bytes each.
#[derive(Default)]
pub struct Side {
    pub state: Lent,
    pub memory: Lent,
    pub input: Lent,
    pub output: Lent,
    pub line: Lent,
    pub ack: Lent,
    pub facts: Lent,
}

impl Clone for Side {
    fn clone(&self) -> Side {
        let mut side = Side::default();
        side.clone_from(self);
        side
    }

    fn clone_from(&mut self, from: &Side) {
        self.state.clone_from(&from.state);
        self.memory.clone_from(&from.memory);
        self.input.clone_from(&from.input);
        self.output.clone_from(&from.output);
        self.line.clone_from(&from.line);
        self.ack.clone_from(&from.ack);
        self.facts.clone_from(&from.facts);
    }
}

impl Side {
    pub fn new(state: &[u8], memory: &[u8], output: &[u8]) -> Side {
        let (line, ack) = ([0xee; LONGEST_LINE], [0xee; 2 * ACK_WORDS]);
        let [state, memory, input, output, line, ack, facts] =
            [state, memory, &[], output, &line, &ack, &[0xee; 8 * FACTS]]
                .map(|bytes| Lent::new(bytes, 0));
        Side { state, memory, input, output, line, ack, facts }
    }

    pub fn by_model(&mut self, call: &Call) -> i64 {
        let (s, m, i, o) =
            (self.state.change(), self.memory.change(), self.input.bytes(), self.output.change());
        let l = self.line.change();
        match *call {
            Call::FreshStart { there, door, .. } => fresh_start_bytes(there, &words_of(i), door, s),
            Call::Request { .. } => request_bytes(s, m, i, o),
            Call::Why { .. } => why_bytes(s, i, self.facts.numbers()),
            Call::Report { process, kind, reason, .. } => {
                report_bytes(s, m, process, kind, reason, i, o, l)
            }
            Call::Line { .. } => line_bytes(s, m, i, l),
            Call::Packet { kind, id, .. } => {
                let mut ack = words_of(self.ack.bytes());
                let answer = packet_bytes(s, m, kind, id, &words_of(i), &mut ack);
                put_words(self.ack.change(), &ack);
                answer
            }
            Call::Tick => tick_bytes(s),
            Call::Write { fields: [host, cmd, pid, arg1, arg2], .. } => {
                write_request(host, cmd, pid, arg1, arg2, i, o)
            }
            Call::Read { .. } => {
                let mut fields = words_of(o);
                let answer = read_answer(i, &mut fields);
                put_words(o, &fields);
                answer
            }
        }
    }

    /// The call, on the painted stack.
    pub fn by_library(&mut self, call: &Call) -> i64 {
        let mut answer = 0;
        on_painted(&mut || answer = self.by_library_here(call));
        answer
    }

    fn by_library_here(&mut self, call: &Call) -> i64 {
        let (s, m, i, o) =
            (self.state.change(), self.memory.change(), self.input.change(), self.output.change());
        let (s_len, m_len, i_len, o_len) = (s.len(), m.len(), i.len(), o.len());
        let (s, m, i, o) = (s.as_mut_ptr(), m.as_mut_ptr(), i.as_mut_ptr(), o.as_mut_ptr());
        let (l_len, l) = (self.line.bytes().len(), self.line.change().as_mut_ptr());
        let (a_len, a) = (self.ack.bytes().len(), self.ack.change().as_mut_ptr());
        if call.of_words() {
            assert!(i as usize % 2 == 0 && i_len % 2 == 0, "sizes and a packet's data are words");
        }
        match *call {
            Call::FreshStart { there, door, .. } => unsafe {
                palustrode_fresh_start(there, i.cast(), i_len / 2, door, s, s_len)
            },
            Call::Request { .. } => unsafe {
                palustrode_request(s, s_len, m, m_len, i, i_len, o, o_len)
            },
            Call::Why { .. } => unsafe {
                let facts = self.facts.numbers();
                palustrode_why(s, s_len, i, i_len, facts.as_mut_ptr(), facts.len())
            },
            Call::Report { process: p, kind: k, reason: r, .. } => unsafe {
                palustrode_report(s, s_len, m, m_len, p, k, r, i, i_len, o, o_len, l, l_len)
            },
            Call::Line { .. } => unsafe { palustrode_line(s, s_len, m, m_len, i, i_len, l, l_len) },
            Call::Packet { kind, id, .. } => unsafe {
                assert!(a as usize % 2 == 0 && a_len % 2 == 0, "an acknowledgement is words");
                let (i, a) = (i.cast(), a.cast());
                palustrode_packet(s, s_len, m, m_len, kind, id, i, i_len / 2, a, a_len / 2)
            },
            Call::Tick => unsafe { palustrode_tick(s, s_len) },
            Call::Write { fields: [host, cmd, pid, arg1, arg2], .. } => unsafe {
                palustrode_write_request(host, cmd, pid, arg1, arg2, i, i_len, o, o_len)
            },
            Call::Read { .. } => unsafe {
                assert!(o as usize % 2 == 0 && o_len % 2 == 0, "fields are words");
                palustrode_read_answer(i, i_len, o.cast(), o_len / 2)
            },
        }
    }
}

/// The words of a buffer, as the processor keeps them.
pub fn words_of(bytes: &[u8]) -> Vec<u16> {
    bytes.chunks_exact(2).map(|pair| u16::from_ne_bytes([pair[0], pair[1]])).collect()
}

fn put_words(bytes: &mut [u8], words: &[u16]) {
    for (pair, word) in bytes.chunks_exact_mut(2).zip(words) {
        pair.copy_from_slice(&word.to_ne_bytes());
    }
}

// ---------------------------------------------------------------- the model and the library

/// The two sides. They are alike before a call and have to be alike after it.
pub struct Pair {
    pub model: Side,
    pub library: Side,
    /// What the model was lent in the call before.
    before: Side,
}

impl Clone for Pair {
    fn clone(&self) -> Pair {
        let (model, library) = (self.model.clone(), self.library.clone());
        Pair { model, library, before: Side::default() }
    }

    fn clone_from(&mut self, from: &Pair) {
        self.model.clone_from(&from.model);
        self.library.clone_from(&from.library);
    }
}

impl Pair {
    pub fn new(side: Side) -> Pair {
        Pair { library: side.clone(), model: side, before: Side::default() }
    }

    /// Changes both sides alike.
    pub fn change(&mut self, change: impl Fn(&mut Side)) {
        change(&mut self.model);
        change(&mut self.library);
    }

    /// The message, the words, the text, the string or the sizes, where the one before was.
    fn lend_input(&mut self, bytes: &[u8]) {
        self.change(|side| side.input.lend(bytes));
    }

    /// Makes a call on both sides and compares the results and all bytes of all
    /// buffers, those around them included: the answer, or what is wrong. Before a
    /// request is made both are asked why they would refuse it.
    pub fn call(&mut self, call: &Call) -> Result<i64, String> {
        self.lend_input(&call.input());
        let mut before = std::mem::take(&mut self.before);
        before.clone_from(&self.model);
        let answer = self.compared(call, &before);
        let answer = answer.map_err(|text| format!("{}\n{text}", describe(call, &before)));
        self.before = before;
        answer
    }

    fn compared(&mut self, call: &Call, before: &Side) -> Result<i64, String> {
        let told = match call {
            Call::Request { .. } => Some(self.ask_why(before)?),
            _ => None,
        };
        let answers = [self.model.by_model(call), self.library.by_library(call)];
        let broken = || match call {
            Call::Why { .. } => broken_why(answers[0], before, &self.model),
            _ => broken_rule(call, answers[0], before, &self.model)
                .or_else(|| broken_promise(told, answers[0])),
        };
        match self.difference(answers).or_else(|| broken().map(str::to_string)) {
            None => Ok(answers[0]),
            Some(text) => Err(text),
        }
    }

    fn difference(&self, answers: [i64; 2]) -> Option<String> {
        let (model, library) = (&self.model, &self.library);
        let place = |at: usize| at.to_string();
        let owner = |at: usize| owner(model.state.bytes(), at);
        let byte = first_difference("memory", owner, &model.memory, &library.memory)
            .or_else(|| first_difference("output", place, &model.output, &library.output))
            .or_else(|| first_difference("line", place, &model.line, &library.line))
            .or_else(|| first_difference("acknowledgement", place, &model.ack, &library.ack));
        self.difference_told(answers, byte)
    }

    /// The same of what is lent to one who asks why, and such a byte, if there is one.
    pub fn difference_told(&self, [a, b]: [i64; 2], byte: Option<String>) -> Option<String> {
        let (model, library) = (&self.model, &self.library);
        let place = |at: usize| at.to_string();
        let byte = first_difference("state", in_state, &model.state, &library.state)
            .or(byte)
            .or_else(|| {
                let name = "message, words, text, string or sizes";
                first_difference(name, place, &model.input, &library.input)
            })
            .or_else(|| first_difference("facts", place, &model.facts, &library.facts));
        if a == b && byte.is_none() {
            return None;
        }
        let byte = byte.unwrap_or_else(|| "none".to_string());
        Some(format!("results: model {a}, library {b}\nfirst differing byte: {byte}"))
    }
}

/// The name of a byte of a state.
fn in_state(at: usize) -> String {
    match at.checked_sub(BEGINS_AT) {
        _ if at == DOOR_AT => format!("{at} (the door)"),
        None => format!("{at} (process {}, byte {})", at / RECORD_BYTES, at % RECORD_BYTES),
        Some(begin) => format!("{at} (begin of process {})", begin / 2),
    }
}

/// The name of a byte of memory, by the process that has it.
fn owner(state: &[u8], at: usize) -> String {
    let records = decode(state).unwrap_or(NONE_THERE);
    let has = |process: &Process| process.there && process.place().contains(&at);
    match records.processes.iter().position(has) {
        None => format!("{at} (free)"),
        Some(p) => {
            format!("{at} (process {p}, byte {})", at - records.processes[p].place().start)
        }
    }
}

fn first_difference(
    name: &str,
    place: impl Fn(usize) -> String,
    model: &Lent,
    library: &Lent,
) -> Option<String> {
    if model == library {
        return None;
    }
    let i = model.all().iter().zip(library.all()).position(|(a, b)| a != b)?;
    let start = GUARD + model.offset();
    let place = match i.checked_sub(start) {
        None => format!("{} before the buffer", start - i),
        Some(at) if at >= model.bytes().len() => {
            format!("{} behind the buffer", at + 1 - model.bytes().len())
        }
        Some(at) => place(at),
    };
    Some(format!("{name}, {place}: model {}, library {}", model.all()[i], library.all()[i]))
}

/// What the paper says of every call alike, should both sides break it.
fn broken_rule(call: &Call, answer: i64, before: &Side, after: &Side) -> Option<&'static str> {
    let written = match (call, answer) {
        (Call::FreshStart { .. }, _) => 0,
        (Call::Read { .. }, 0..) => 2 * FIELDS,
        (Call::Report { .. }, _) => notice_length(answer),
        (Call::Line { .. } | Call::Packet { .. } | Call::Tick, _) => 0,
        (_, 0..) => answer as usize,
        (Call::Request { .. }, -16..=-7) => HEAD,
        _ => 0,
    };
    let refused = answer < 0;
    if refused && (before.state != after.state || before.memory != after.memory) {
        return Some("both: state and memory are not unchanged by a refusal");
    }
    if before.output.bytes()[written..] != after.output.bytes()[written..] {
        return Some("both: buffer bytes past those written are touched");
    }
    let answered = line_written(call, answer, after);
    if before.line.bytes()[answered..] != after.line.bytes()[answered..] {
        return Some("both: bytes past the line that is written are touched");
    }
    let left = call.on_state() || matches!(call, Call::FreshStart { .. });
    if !refused && left && !is_sound(after.state.bytes()) {
        return Some("both: the state is not sound after a granted call");
    }
    if accepted_fault(call, answer, before) {
        return Some("both: a layout that is not sound is accepted");
    }
    let wrong = broken_line(call, answer, before, after)
        .or_else(|| broken_status(call, answer, before, after))
        .or_else(|| broken_pup(call, answer, before, after));
    // a tick, which is lent no memory, is granted with one of any length here
    if refused || wrong.is_some() || after.memory.bytes().len() != MEMORY {
        return wrong;
    }
    broken_layout(call, before, after)
        .or_else(|| broken_passing(call, before, after))
        .or_else(|| broken_watch(call, answer, before, after))
        .or_else(|| broken_numbers(call, after))
}

/// Whether bytes are those of a sound state.
pub fn is_sound(state: &[u8]) -> bool {
    decode(state).is_some_and(|state| sound(&state))
}
