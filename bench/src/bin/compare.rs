//! Checks a table of bytes, worked out by hand, through both codecs, and compares these on bytes made from seeds by
//! changing, cutting and joining. Prints what differs, and as its last line how many passed and failed.
use bench::proved;
use oracle::random::Random;
use oracle::codec::{self as plain, Call, Line, Reply, Traffic};

#[derive(Default)]
struct Count {
    passed: u32,
    failed: u32,
}

impl Count {
    fn note(&mut self, what: &str, bytes: &[u8], ok: bool) {
        if ok {
            self.passed += 1;
        } else {
            self.failed += 1;
            println!("{what}: {}", hex(bytes));
        }
    }
}

fn hex(bytes: &[u8]) -> String {
    bytes.iter().map(|b| format!("{b:02x}")).collect()
}

fn unhex(text: &str) -> Vec<u8> {
    let digits: Vec<u8> = text.bytes().filter(|b| !b.is_ascii_whitespace()).collect();
    digits
        .chunks(2)
        .map(|d| u8::from_str_radix(std::str::from_utf8(d).expect("digits"), 16).expect("hexadecimal"))
        .collect()
}

fn call_words(call: &Result<Call, u8>) -> String {
    match call {
        Ok(Call::Put { log, time, key, value }) => format!("put {log} {time} {key} {value}"),
        Ok(Call::Still { log, time }) => format!("still {log} {time}"),
        Ok(Call::Out { from, most }) => format!("out {from} {most}"),
        Ok(Call::Drop { before }) => format!("drop {before}"),
        Err(number) => format!("refused {number}"),
    }
}

fn reply_words(reply: &Option<Reply>) -> String {
    match reply {
        Some(Reply::Refused(number)) => format!("refused {number}"),
        Some(Reply::Yes) => "yes".into(),
        Some(Reply::Out(events)) => {
            events.iter().fold("out".into(), |text, e| format!("{text} {},{},{}", e.time, e.key, e.value))
        }
        Some(Reply::Full) => "full".into(),
        None => "none".into(),
    }
}

fn line_words(line: &Line) -> String {
    match line {
        Line::Whole { number, body } => format!("{number} {}", hex(body)),
        Line::NotYet => "not yet".into(),
        Line::TooLong => "too long".into(),
        Line::TooShort => "too short".into(),
    }
}

/// A row: what the bytes are (`call LOGS`, `reply`, `calls`, `replies`), the bytes, and what they mean in words; of a
/// call also the number of its refusal, 0 for none.
fn table_row(row: &str, count: &mut Count) {
    let parts: Vec<&str> = row.split('|').map(str::trim).collect();
    let bytes = unhex(parts[1]);
    let words = parts[2];
    let mut say = |codec: &str, got: String| {
        let ok = got == words;
        count.note(&format!("{codec} says {got}, not {words}"), &bytes, ok);
    };
    match parts[0].split_whitespace().collect::<Vec<_>>()[..] {
        ["call", logs] => {
            say("proved", call_words(&proved::decode(&bytes)));
            say("plain", call_words(&plain::decode(&bytes)));
            let logs = logs.parse().expect("how many logs");
            let number: u8 = parts[3].parse().expect("a refusal's number");
            let got = (proved::refusal(&bytes, logs).unwrap_or(0), plain::refusal(&bytes, logs).unwrap_or(0));
            count.note(&format!("refusals are {got:?}, not {number}"), &bytes, got == (number, number));
        }
        ["reply"] => {
            say("proved", reply_words(&proved::decode_reply(&bytes)));
            say("plain", reply_words(&plain::decode_reply(&bytes)));
        }
        ["calls"] => {
            say("proved", line_words(&proved::read_line(Traffic::Calls, &bytes)));
            say("plain", line_words(&plain::read_line(Traffic::Calls, &bytes)));
        }
        ["replies"] => {
            say("proved", line_words(&proved::read_line(Traffic::Replies, &bytes)));
            say("plain", line_words(&plain::read_line(Traffic::Replies, &bytes)));
        }
        _ => count.note("not a row", row.as_bytes(), false),
    }
}

fn some_call(random: &mut Random) -> Call {
    let log = random.below(256) as u8;
    match random.below(4) {
        0 => Call::Put { log, time: random.word(), key: random.word(), value: random.word() },
        1 => Call::Still { log, time: random.word() },
        2 => Call::Out { from: random.word(), most: (1020 + random.below(10)) as u16 * random.below(2) as u16 },
        _ => Call::Drop { before: random.word() },
    }
}

fn some_reply(random: &mut Random) -> Reply {
    match random.below(4) {
        0 => Reply::Refused([1, 2, 3, 4, 11, 12][random.below(6)]),
        1 => Reply::Yes,
        2 => {
            let event = |s: &mut Random| plain::Event { time: s.word(), key: s.word(), value: s.word() };
            Reply::Out((0..random.below(6)).map(|_| event(random)).collect())
        }
        _ => Reply::Full,
    }
}

/// One change: a byte, a byte too many, a byte too few, or none.
fn changed(bytes: &[u8], random: &mut Random) -> Vec<u8> {
    let mut bytes = bytes.to_vec();
    match random.below(4) {
        0 if !bytes.is_empty() => {
            let i = if random.below(2) == 0 { 0 } else { random.below(bytes.len()) };
            bytes[i] = if random.below(2) == 0 { random.below(6) as u8 } else { random.next() as u8 };
        }
        1 => bytes.push(random.next() as u8),
        2 => bytes.truncate(random.below(bytes.len() + 1)),
        _ => {}
    }
    bytes
}

/// Both codecs on the bytes of a call or an answer, and what each writes again.
fn compare_bodies(bytes: &[u8], logs: u16, count: &mut Count) {
    let call = proved::decode(bytes);
    let mut ok = call == plain::decode(bytes) && proved::refusal(bytes, logs) == plain::refusal(bytes, logs);
    if let Ok(call) = call {
        let mut out = [0xa5; 40];
        let n = proved::encode(call, &mut out);
        ok &= &out[..n] == bytes && out[n..].iter().all(|b| *b == 0xa5);
        let mut small = vec![0x5a; n - 1];
        ok &= proved::encode(call, &mut small) == 0 && small.iter().all(|b| *b == 0x5a);
    }
    count.note("a call differs", bytes, ok);
    let reply = proved::decode_reply(bytes);
    let mut ok = reply == plain::decode_reply(bytes);
    if let Some(reply) = reply {
        let (kind, refused, events) = match &reply {
            Reply::Refused(number) => (0, *number, &bytes[..0]),
            Reply::Yes => (1, 0, &bytes[..0]),
            Reply::Out(_) => (2, 0, &bytes[3..]),
            Reply::Full => (3, 0, &bytes[..0]),
        };
        let mut out = vec![0; bytes.len()];
        ok &= proved::encode_reply(kind, refused, events, &mut out) == bytes.len() && out == bytes;
        let mut again = Vec::new();
        plain::encode_reply(&reply, &mut again);
        ok &= again == bytes;
    }
    count.note("an answer differs", bytes, ok);
}

/// The lines of bytes that come in these pieces, read by `read` off a growing buffer.
fn lines(pieces: &[&[u8]], read: impl Fn(&[u8]) -> Line) -> (Vec<String>, String) {
    let (mut buffer, mut lines) = (Vec::new(), Vec::new());
    let mut end = line_words(&Line::NotYet);
    for piece in pieces {
        buffer.extend_from_slice(piece);
        loop {
            let line = read(&buffer);
            end = line_words(&line);
            let Line::Whole { body, .. } = line else { break };
            lines.push(end.clone());
            buffer.drain(..12 + body.len());
        }
    }
    (lines, format!("{end} {}", hex(&buffer)))
}

fn compare_streams(seed: u64, count: &mut Count) {
    let mut random = Random::new(seed);
    let traffic = if seed % 2 == 0 { Traffic::Calls } else { Traffic::Replies };
    let mut stream = Vec::new();
    for _ in 0..1 + random.below(6) {
        let mut body = Vec::new();
        match traffic {
            Traffic::Calls => plain::encode(some_call(&mut random), &mut body),
            Traffic::Replies => plain::encode_reply(&some_reply(&mut random), &mut body),
        }
        let body = if random.below(3) == 0 { changed(&body, &mut random) } else { body };
        let number = random.word();
        let mut out = vec![0; 12 + body.len()];
        let n = proved::write_line(number, &body, &mut out);
        let mut line = Vec::new();
        plain::write_line(number, &body, &mut line);
        count.note("a written line differs", &line, n == line.len() && out == line);
        stream.extend(if random.below(8) == 0 { changed(&line, &mut random) } else { line });
    }
    let cuts = [random.below(stream.len() + 1), random.below(stream.len() + 1)];
    let (a, b) = (cuts[0].min(cuts[1]), cuts[0].max(cuts[1]));
    let whole = lines(&[&stream], |bytes| plain::read_line(traffic, bytes));
    let pieces = [&stream[..a], &stream[a..b], &stream[b..]];
    let bytes: Vec<&[u8]> = stream.chunks(1).collect();
    count.note("a stream differs", &stream, lines(&[&stream], |x| proved::read_line(traffic, x)) == whole);
    count.note("a cut stream differs", &stream, lines(&pieces, |x| proved::read_line(traffic, x)) == whole);
    count.note("a stream by bytes differs", &stream, lines(&bytes, |x| proved::read_line(traffic, x)) == whole);
}

fn main() {
    let path = std::env::args().nth(1).expect("the table's path");
    let table = std::fs::read_to_string(path).expect("the table");
    let mut count = Count::default();
    for row in table.lines().filter(|row| !row.is_empty() && !row.starts_with('#')) {
        table_row(row, &mut count);
    }
    for seed in 0..4000 {
        let mut random = Random::new(seed);
        let mut bytes = Vec::new();
        match seed % 2 {
            0 => plain::encode(some_call(&mut random), &mut bytes),
            _ => plain::encode_reply(&some_reply(&mut random), &mut bytes),
        }
        let logs = 1 + random.below(256) as u16;
        compare_bodies(&changed(&bytes, &mut random), logs, &mut count);
    }
    for seed in 0..1500 {
        compare_streams(seed, &mut count);
    }
    println!("{} passed, {} failed", count.passed, count.failed);
    std::process::exit((count.failed > 0) as i32);
}
