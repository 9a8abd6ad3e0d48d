//! K7, "The bench's text debugger": the four fields of a line as text, after source
//! document 002.

/// K7: "1 asks 35 bytes of line buffer": three numbers of eight digits, the request, the
/// blanks between them and the newline.
pub const LONGEST_LINE: usize = 35;

/// What can be read of a line in which PID and request can be read: "PID REQUEST ADDR
/// DATA".
#[derive(Clone, Copy, PartialEq, Eq, Debug)]
pub struct LineRead {
    pub pid: u32,
    pub request: u8,
    /// ADDR and DATA; nothing where "anything else in the line" is "unreadable".
    pub arguments: Option<(u32, u32)>,
}

/// "The following REQUEST characters are recognized"
pub const LETTERS: [u8; 8] = *b"idIDrRcs";

/// Reads a line; nothing where it has "a PID or request that cannot be read". Fields are
/// "blank separated"; the request ends at a blank too, at the newline or at the end.
pub fn read_line(text: &[u8]) -> Option<LineRead> {
    let (pid, rest) = at_blank(text)?;
    let pid = number(pid)?;
    let end = rest.iter().position(|byte| matches!(byte, b' ' | b'\n')).unwrap_or(rest.len());
    match rest.split_at(end) {
        (&[request], rest) if LETTERS.contains(&request) => {
            Some(LineRead { pid, request, arguments: arguments(rest) })
        }
        _ => None,
    }
}

/// ADDR and DATA: "a line ends with one newline", and nothing stands after it.
fn arguments(rest: &[u8]) -> Option<(u32, u32)> {
    let (addr, data) = at_blank(rest.strip_prefix(b" ")?.strip_suffix(b"\n")?)?;
    Some((number(addr)?, number(data)?))
}

/// What stands before the first blank, and what after it.
fn at_blank(text: &[u8]) -> Option<(&[u8], &[u8])> {
    let blank = text.iter().position(|&byte| byte == b' ')?;
    Some((&text[..blank], &text[blank + 1..]))
}

/// A number, `0x%x`: "Numbers are lower-case hex without leading zeros". It has 32 bits.
fn number(field: &[u8]) -> Option<u32> {
    let digits = field.strip_prefix(b"0x")?;
    if digits.is_empty() || digits.len() > 8 || digits.len() > 1 && digits[0] == b'0' {
        return None;
    }
    digits.iter().try_fold(0, |n, digit| match digit {
        b'0'..=b'9' => Some(n << 4 | u32::from(digit - b'0')),
        b'a'..=b'f' => Some(n << 4 | u32::from(digit - b'a' + 10)),
        _ => None,
    })
}

/// Writes "PID REQUEST ERRFLG RESPONSE", and returns its length.
pub fn write_line(pid: u32, request: u8, flag: u32, response: u32, buffer: &mut [u8]) -> usize {
    let mut at = 0;
    let mut put = |byte: u8| {
        buffer[at] = byte;
        at += 1;
    };
    write_number(pid, &mut put);
    put(b' ');
    put(request);
    put(b' ');
    write_number(flag, &mut put);
    put(b' ');
    write_number(response, &mut put);
    put(b'\n');
    at
}

/// `0x%x`
fn write_number(n: u32, put: &mut impl FnMut(u8)) {
    put(b'0');
    put(b'x');
    let digits = (35 - (n | 1).leading_zeros()) / 4;
    for place in (0..digits).rev() {
        put(b"0123456789abcdef"[(n >> (4 * place) & 15) as usize]);
    }
}
