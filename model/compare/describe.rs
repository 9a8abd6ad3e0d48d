//! Says in words what was called. The fuzzer uses this too.

use crate::sides::{Call, Side};

fn decimal(bytes: &[u8]) -> String {
    let numbers: Vec<String> = bytes.iter().map(u8::to_string).collect();
    format!("{} bytes: {}", bytes.len(), numbers.join(" "))
}

pub fn describe(call: &Call, side: &Side) -> String {
    let input = decimal(&call.input());
    let call = match call {
        Call::FreshStart { there, sizes, door } => {
            format!("fresh start, processes {there:#b}, sizes {sizes:?}, door {door}")
        }
        Call::Request { .. } => format!("request, message of {input}"),
        Call::Why { .. } => format!("why, message of {input}"),
        Call::Report { process, kind, reason, .. } => {
            format!("report, process {process}, kind {kind}, reason {reason}, words of {input}")
        }
        Call::Line { text } => {
            format!("line, {:?}, text of {input}", String::from_utf8_lossy(text))
        }
        Call::Packet { kind, id, words } => {
            format!("packet, type {kind}, ID {id}, words {words:?}")
        }
        Call::Tick => "tick".to_string(),
        Call::Write { fields: [host, cmd, pid, arg1, arg2], .. } => format!(
            "write request, HOST {host}, CMD {cmd}, PID {pid}, ARG1 {arg1}, ARG2 {arg2}, string of {input}"
        ),
        Call::Read { .. } => format!("read answer, message of {input}"),
    };
    let Side { state, memory, output, line, ack, facts, .. } = side;
    let [s, m, o, l, a, f] =
        [state, memory, output, line, ack, facts].map(|lent| lent.bytes().len());
    format!(
        "call: {call}\nlent: state of {s} bytes, memory of {m}, output buffer of {o}, line buffer of {l}, acknowledgement of {a}, facts of {f}"
    )
}
