//! The functions of crates/calls_c. Nothing checks these declarations against their source: keep them alike.
use oracle::codec::{Call, Event, Line, Reply, Traffic};

#[repr(C)]
#[derive(Clone, Copy, Default)]
struct CallFields {
    kind: u8,
    refused: u8,
    log: u8,
    most: u16,
    at: u64,
    key: u64,
    value: u64,
}

#[repr(C)]
struct ReplyFields {
    kind: u8,
    refused: u8,
    events: usize,
}

#[repr(C)]
struct EventFields {
    found: u8,
    time: u64,
    key: u64,
    value: u64,
}

#[repr(C)]
struct LineFields {
    kind: u8,
    number: u64,
    size: usize,
}

// A slice crosses as a pointer and then a length.
extern "C" {
    fn calls_decode(bytes: *const u8, len: usize) -> CallFields;
    fn calls_encode(call: &CallFields, out: *mut u8, len: usize) -> usize;
    fn calls_refusal(bytes: *const u8, len: usize, logs: u16) -> u8;
    fn replies_decode(bytes: *const u8, len: usize) -> ReplyFields;
    fn replies_event(events: *const u8, len: usize, i: usize) -> EventFields;
    fn replies_encode(kind: u8, refused: u8, events: *const u8, events_len: usize, out: *mut u8, len: usize) -> usize;
    fn lines_read(traffic: u8, bytes: *const u8, len: usize) -> LineFields;
    fn lines_write(number: u64, body: *const u8, body_len: usize, out: *mut u8, len: usize) -> usize;
}

pub fn decode(bytes: &[u8]) -> Result<Call, u8> {
    let f = unsafe { calls_decode(bytes.as_ptr(), bytes.len()) };
    match f.kind {
        0 => Err(f.refused),
        1 => Ok(Call::Put { log: f.log, time: f.at, key: f.key, value: f.value }),
        2 => Ok(Call::Still { log: f.log, time: f.at }),
        3 => Ok(Call::Out { from: f.at, most: f.most }),
        _ => Ok(Call::Drop { before: f.at }),
    }
}

/// How many bytes were written, 0 for no room.
pub fn encode(call: Call, out: &mut [u8]) -> usize {
    let none = CallFields::default();
    let fields = match call {
        Call::Put { log, time, key, value } => CallFields { kind: 1, log, at: time, key, value, ..none },
        Call::Still { log, time } => CallFields { kind: 2, log, at: time, ..none },
        Call::Out { from, most } => CallFields { kind: 3, at: from, most, ..none },
        Call::Drop { before } => CallFields { kind: 4, at: before, ..none },
    };
    unsafe { calls_encode(&fields, out.as_mut_ptr(), out.len()) }
}

pub fn refusal(bytes: &[u8], logs: u16) -> Option<u8> {
    match unsafe { calls_refusal(bytes.as_ptr(), bytes.len(), logs) } {
        0 => None,
        number => Some(number),
    }
}

/// The event at a place of an answer's events, which are a part of its bytes.
pub fn event(events: &[u8], i: usize) -> Option<Event> {
    let e = unsafe { replies_event(events.as_ptr(), events.len(), i) };
    (e.found == 1).then_some(Event { time: e.time, key: e.key, value: e.value })
}

pub fn decode_reply(bytes: &[u8]) -> Option<Reply> {
    let f = unsafe { replies_decode(bytes.as_ptr(), bytes.len()) };
    match f.kind {
        0 => Some(Reply::Refused(f.refused)),
        1 => Some(Reply::Yes),
        2 => (0..f.events).map(|i| event(&bytes[3..], i)).collect::<Option<Vec<_>>>().map(Reply::Out),
        3 => Some(Reply::Full),
        _ => None,
    }
}

/// How many bytes were written, 0 for no room; an answer's events are given as bytes.
pub fn encode_reply(kind: u8, refused: u8, events: &[u8], out: &mut [u8]) -> usize {
    unsafe { replies_encode(kind, refused, events.as_ptr(), events.len(), out.as_mut_ptr(), out.len()) }
}

pub fn read_line(traffic: Traffic, bytes: &[u8]) -> Line {
    let f = unsafe { lines_read((traffic == Traffic::Replies) as u8, bytes.as_ptr(), bytes.len()) };
    match f.kind {
        0 => Line::Whole { number: f.number, body: bytes[12..12 + f.size].to_vec() },
        1 => Line::NotYet,
        2 => Line::TooLong,
        _ => Line::TooShort,
    }
}

pub fn write_line(number: u64, body: &[u8], out: &mut [u8]) -> usize {
    unsafe { lines_write(number, body.as_ptr(), body.len(), out.as_mut_ptr(), out.len()) }
}
