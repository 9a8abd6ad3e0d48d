//! K8: both sides are asked why they would refuse a request before it is made, and what the
//! paper says of the answer. It looks at the bytes alone. The fuzzer uses this too.

use crate::sides::{Call, Pair, Side};
use model::*;

impl Pair {
    /// Asks both sides why they would refuse the message that is lent: the answer, or what is
    /// wrong. The two numbers for the facts hold other bytes before.
    pub fn ask_why(&mut self, before: &Side) -> Result<i64, String> {
        self.change(|side| side.facts.lend(&[0xee; 8 * FACTS]));
        // the message is lent already
        let call = Call::Why { message: Vec::new() };
        let answers = [self.model.by_model(&call), self.library.by_library(&call)];
        let wrong = self
            .difference_told(answers, None)
            .or_else(|| broken_why(answers[0], before, &self.model).map(str::to_string));
        match wrong {
            None => Ok(answers[0]),
            Some(text) => Err(format!("call: why, before it\n{text}")),
        }
    }
}

/// The request gets the number that was told, or is refused with 1: "test 1 taken as passed".
pub fn broken_promise(told: Option<i64>, answer: i64) -> Option<&'static str> {
    let kept = answer == -WRONG_BUFFER || told.is_none_or(|told| told == answer.min(0));
    (!kept).then_some("both: a request gets another number than was told")
}

/// What K8 says of an answer, should both sides break it.
pub fn broken_why(answer: i64, before: &Side, after: &Side) -> Option<&'static str> {
    if before.state != after.state || before.input != after.input {
        return Some("both: asking why changes the state or the message");
    }
    if answer == -WRONG_BUFFER || after.facts.bytes().len() != 8 * FACTS {
        let right = answer == -WRONG_BUFFER
            && after.facts.bytes().len() != 8 * FACTS
            && before.facts == after.facts;
        return (!right)
            .then_some("both: other than two facts are lent, and that is not the answer");
    }
    let (state, message) = (after.state.bytes(), after.input.bytes());
    let right = expected(-answer, state, message) == Some(facts(after));
    (!right).then_some("both: the facts are wrong")
}

/// The two facts that are told.
pub fn facts(side: &Side) -> [u64; FACTS] {
    let number = |at: usize| {
        let bytes = side.facts.bytes().get(8 * at..8 * at + 8);
        bytes.map_or(0, |bytes| u64::from_ne_bytes(bytes.try_into().unwrap_or_default()))
    };
    [number(0), number(1)]
}

/// The facts that go with a number, by the bytes of state and message; nothing where no
/// request gets it.
fn expected(number: i64, state: &[u8], message: &[u8]) -> Option<[u64; FACTS]> {
    match number {
        0 | NOT_SOUND | WRONG_HEAD..=ABSENT | NO_BREAKPOINT | NO_ROOM => return Some([0, 0]),
        WRONG_LENGTH => return Some([message.len() as u64, 0]),
        _ => {}
    }
    let pid = usize::from(*message.get(5)?);
    let record = state.get(RECORD_BYTES * pid..RECORD_BYTES * (pid + 1))?;
    let [debugger, watcher] = [record[1], record[WATCHER_AT]];
    let entries = record[ENTRIES_AT..].chunks_exact(ENTRY_BYTES);
    let first: u64 = match number {
        NO_RIGHT => debugger.into(),
        WRONG_RUN => record[2].into(),
        OUTSIDE => return past_limit(record, message),
        NINTH if entries.clone().all(|entry| entry[1] != NOBODY) => 8,
        NINTH => 4,
        WATCHED => watcher.into(),
        // of the two who may have set it, the one who does not ask
        THE_OTHERS if message[1] == debugger => watcher.into(),
        THE_OTHERS => debugger.into(),
        _ => return None,
    };
    Some([first, 0])
}

/// Which limit is passed and by how much, where one is.
fn past_limit(record: &[u8], message: &[u8]) -> Option<[u64; FACTS]> {
    let word = |at: usize| u64::from(message[at]) << 8 | u64::from(message[at + 1]);
    let (arg1, arg2) = (word(6), word(8));
    let size = u64::from(u16::from_le_bytes([record[SIZE_AT], record[SIZE_AT + 1]]));
    let most = if message[4] == DEPOSIT_STATE_VECTOR { 18 } else { size };
    match message[4] {
        BREAK => Some([2, (arg1 + 2).saturating_sub(size)]),
        EXAMINE if arg1 + arg2 <= size => Some([1, arg2.checked_sub(256)?]),
        _ => Some([0, (arg1 + arg2).checked_sub(most)?]),
    }
}
