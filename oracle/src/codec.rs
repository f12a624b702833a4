//! Calls, answers and lines as bytes, by docs/CALLS.md.

/// A customer's call.
#[derive(Clone, Copy, PartialEq, Eq, Debug)]
pub enum Call {
    Put { log: u8, time: u64, key: u64, value: u64 },
    Still { log: u8, time: u64 },
    Out { from: u64, most: u16 },
    Drop { before: u64 },
}

#[derive(Clone, Copy, PartialEq, Eq, Debug)]
pub struct Event {
    pub time: u64,
    pub key: u64,
    pub value: u64,
}

#[derive(Clone, PartialEq, Eq, Debug)]
pub enum Reply {
    Refused(u8),
    Yes,
    Out(Vec<Event>),
    Full,
}

fn number(bytes: &[u8]) -> u64 {
    bytes.iter().fold(0, |n, b| n << 8 | u64::from(*b))
}

/// The call, or the number of the refusal.
pub fn decode(bytes: &[u8]) -> Result<Call, u8> {
    match (bytes.first(), bytes.len()) {
        (Some(1), 26) => Ok(Call::Put {
            log: bytes[1],
            time: number(&bytes[2..10]),
            key: number(&bytes[10..18]),
            value: number(&bytes[18..26]),
        }),
        (Some(2), 10) => Ok(Call::Still { log: bytes[1], time: number(&bytes[2..10]) }),
        (Some(3), 11) => Ok(Call::Out { from: number(&bytes[1..9]), most: number(&bytes[9..11]) as u16 }),
        (Some(4), _) => Err(12),
        _ => Err(1),
    }
}

/// Writes the call's bytes behind those of `out`.
pub fn encode(call: Call, out: &mut Vec<u8>) {
    match call {
        Call::Put { log, time, key, value } => {
            out.extend([1, log]);
            for n in [time, key, value] {
                out.extend(n.to_be_bytes());
            }
        }
        Call::Still { log, time } => {
            out.extend([2, log]);
            out.extend(time.to_be_bytes());
        }
        Call::Out { from, most } => {
            out.push(3);
            out.extend(from.to_be_bytes());
            out.extend(most.to_be_bytes());
        }
        Call::Drop { before } => {
            out.push(4);
            out.extend(before.to_be_bytes());
        }
    }
}

/// The refusal that bytes get by themselves, by number.
pub fn refusal(bytes: &[u8], logs: u16) -> Option<u8> {
    const TIMES: u64 = 1 << 62;
    match decode(bytes) {
        Err(number) => Some(number),
        Ok(Call::Put { time, .. } | Call::Still { time, .. }) if time >= TIMES => Some(1),
        Ok(Call::Put { log, .. } | Call::Still { log, .. }) if u16::from(log) >= logs => Some(2),
        Ok(Call::Out { most, .. }) if most > 1024 => Some(1),
        Ok(_) => None,
    }
}

/// The answer, if these are the bytes of one.
pub fn decode_reply(bytes: &[u8]) -> Option<Reply> {
    let (kind, rest) = bytes.split_first()?;
    match kind {
        0 if rest.len() == 1 && [1, 2, 3, 4, 11, 12].contains(&rest[0]) => Some(Reply::Refused(rest[0])),
        1 if rest.is_empty() => Some(Reply::Yes),
        2 if rest.len() >= 2 && rest.len() - 2 == 24 * number(&rest[..2]) as usize => Some(Reply::Out(
            rest[2..]
                .chunks(24)
                .map(|e| Event { time: number(&e[..8]), key: number(&e[8..16]), value: number(&e[16..]) })
                .collect(),
        )),
        3 if rest.is_empty() => Some(Reply::Full),
        _ => None,
    }
}

pub fn encode_reply(reply: &Reply, out: &mut Vec<u8>) {
    match reply {
        Reply::Refused(number) => out.extend([0, *number]),
        Reply::Yes => out.push(1),
        Reply::Out(events) => {
            out.push(2);
            out.extend((events.len() as u16).to_be_bytes());
            for e in events {
                for n in [e.time, e.key, e.value] {
                    out.extend(n.to_be_bytes());
                }
            }
        }
        Reply::Full => out.push(3),
    }
}

#[derive(Clone, PartialEq, Eq, Debug)]
pub enum Line {
    Whole { number: u64, body: Vec<u8> },
    NotYet,
    TooLong,
    TooShort,
}

#[derive(Clone, Copy, PartialEq, Eq, Debug)]
pub enum Traffic {
    Calls,
    Replies,
}

/// The line at the front of bytes; a whole one takes 12 bytes and its body.
pub fn read_line(traffic: Traffic, bytes: &[u8]) -> Line {
    if bytes.len() < 4 {
        return Line::NotYet;
    }
    let length = number(&bytes[..4]) as usize;
    if length > 1 << 20 {
        return Line::TooLong;
    }
    if length < 9 {
        return Line::TooShort;
    }
    let Some(kind) = bytes.get(12) else { return Line::NotYet };
    let least = match (traffic, kind) {
        (Traffic::Calls, 1) => 26,
        (Traffic::Calls, 2) => 10,
        (Traffic::Calls, 3) => 11,
        (Traffic::Replies, 0) => 2,
        (Traffic::Replies, 2) => 3,
        _ => 1,
    };
    if length < 8 + least {
        return Line::TooShort;
    }
    match bytes.get(12..4 + length) {
        Some(body) => Line::Whole { number: number(&bytes[4..12]), body: body.to_vec() },
        None => Line::NotYet,
    }
}

pub fn write_line(number: u64, body: &[u8], out: &mut Vec<u8>) {
    out.extend((8 + body.len() as u32).to_be_bytes());
    out.extend(number.to_be_bytes());
    out.extend(body);
}
