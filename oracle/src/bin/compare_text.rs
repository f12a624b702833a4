//! Compares the program `plan` with the reader and the printer of this package: first on the texts of a table that was
//! worked out by hand, then on texts made by changing good plans at random, with fixed seeds.
//! Usage: compare_text PLAN TABLE

use oracle::text::{position, print, read, Refusal, Why};
use std::io::Write;
use std::path::Path;
use std::process::{Command, Stdio};

/// What a text comes to: a plan, printed, or a refusal.
#[derive(Debug, PartialEq)]
enum Outcome {
    Printed(String),
    Refused(Refusal),
}

/// Small and fixed: the same numbers on every machine.
struct Random(u64);

impl Random {
    fn below(&mut self, n: usize) -> usize {
        self.0 ^= self.0 << 13;
        self.0 ^= self.0 >> 7;
        self.0 ^= self.0 << 17;
        (self.0 % n as u64) as usize
    }

    fn one<'a, T>(&mut self, of: &'a [T]) -> &'a T {
        &of[self.below(of.len())]
    }
}

const GOOD: [&str; 10] = [
    "late 60000; keep value < 40000 key key / 10 value 1 in 900000 count; key key in 86400000 greatest",
    "late 0; in 1 count",
    "late 1099511627776; keep !(key = 3) + time * 2 key (value + 1) % 7 in 1099511627776 total",
    "late 7; keep 1 in 5 least; key 8 - (4 - 2) value time / 1000 in 10 total; in 20 greatest",
    "late 12;keep(key<5)=(value<5)key!time value 18446744073709551615 in 3 least",
    "late 5; keep ((((((1+2)*3)-4)/5)%6)<7) in 60000 count",
    "late 1; key !!!key - 1 - 2 + 3 value 2 * (3 + 4) * 5 / 6 in 5 total\n; in 6 count",
    "late\n10 ;\tkeep time < 100 key 1 value key in\r\n20 greatest",
    "late 3; in 1 count; in 2 total; in 3 least; in 4 greatest; in 5 count; in 6 total; in 7 least; in 8 greatest",
    "late 9; keep 1+1+1+1+1+1+1+1+1+1+1+1+1+1+1+1+1+1+1+1+1+1+1+1+1+1+1+1+1+1+1+1 in 5 count",
];

const PIECES: [&str; 40] = [
    " ", "\n", "\t", ";", "(", ")", "!", "+", "-", "*", "/", "%", "<", "=", "0", "1", "9", "late", "keep", "key", "value",
    "time", "in", "count", "total", "least", "greatest", " key ", " value ", "; in 5 count", "18446744073709551615",
    "18446744073709551616", "1099511627776", "1099511627777", "((((((((((((((((", "))))))))))))))))", "!!!!!!!!!!!!!!!!",
    "+1+1+1+1+1+1+1+1", "x", "\u{e9}",
];

/// A good plan in which digits, signs and white space are replaced by others of their kind: mostly a plan again.
fn varied(random: &mut Random) -> Vec<u8> {
    let mut text = Vec::new();
    for c in random.one(&GOOD).bytes() {
        let signs: &[u8] = match c {
            b'0'..=b'9' => b"0123456789",
            b'+' | b'-' | b'*' | b'/' | b'%' => b"+-*/%",
            b'<' | b'=' => b"<=",
            b' ' => b" \n\t",
            _ => &[],
        };
        text.push(if signs.is_empty() || random.below(3) > 0 { c } else { *random.one(signs) });
        if !c.is_ascii_alphanumeric() && random.below(20) == 0 {
            text.extend_from_slice(b" \r\n");
        }
    }
    text
}

/// A good plan with one to four changes: pieces put in, bytes taken out, replaced or doubled, the end cut off.
fn changed(random: &mut Random) -> Vec<u8> {
    let mut text = random.one(&GOOD).as_bytes().to_vec();
    for _ in 0..1 + random.below(4) {
        let at = random.below(text.len() + 1);
        let long = 1 + random.below(8);
        let end = (at + long).min(text.len());
        match random.below(6) {
            0 | 1 => drop(text.splice(at..at, random.one(&PIECES).bytes())),
            2 => drop(text.drain(at..end)),
            3 => drop(text.splice(at..end, random.one(&PIECES).bytes())),
            4 => {
                let copy = text[at..end].to_vec();
                drop(text.splice(at..at, copy));
            }
            _ if random.below(4) == 0 => text.truncate(at),
            _ if at < text.len() => text[at] = random.below(256) as u8,
            _ => {}
        }
    }
    text
}

fn ours(text: &[u8]) -> Outcome {
    match read(text) {
        Ok(plan) => Outcome::Printed(print(&plan)),
        Err(refusal) => Outcome::Refused(refusal),
    }
}

/// What standard error must say of a refusal: line, column and reason, the line, and a caret under the place.
fn complaint(text: &[u8], refusal: Refusal) -> Vec<u8> {
    let (line, column) = position(text, refusal.at);
    let begin = refusal.at + 1 - column;
    let end = text[refusal.at..].iter().position(|c| *c == b'\n').map_or(text.len(), |n| refusal.at + n);
    let mut said = format!("line {line}, column {column}: {}\n", refusal.why.said()).into_bytes();
    said.extend_from_slice(&text[begin..end]);
    said.push(b'\n');
    said.extend(text[begin..refusal.at].iter().map(|c| if *c == b'\t' { b'\t' } else { b' ' }));
    said.extend_from_slice(b"^\n");
    said
}

/// Runs the program on a text, by standard input or by a file: does it do what the outcome says, and nothing else?
fn agrees(program: &str, file: Option<&Path>, text: &[u8], outcome: &Outcome) -> Result<(), String> {
    if let Some(file) = file {
        std::fs::write(file, text).map_err(|e| e.to_string())?;
    }
    let mut child = Command::new(program)
        .args(file)
        .stdin(Stdio::piped())
        .stdout(Stdio::piped())
        .stderr(Stdio::piped())
        .spawn()
        .map_err(|e| format!("{program}: {e}"))?;
    let mut input = child.stdin.take().ok_or("no standard input")?;
    if file.is_none() {
        input.write_all(text).map_err(|e| e.to_string())?;
    }
    drop(input);
    let output = child.wait_with_output().map_err(|e| e.to_string())?;
    let (status, out, err) = match outcome {
        Outcome::Printed(plan) => (0, format!("{plan}\n").into_bytes(), Vec::new()),
        Outcome::Refused(refusal) => (1, Vec::new(), complaint(text, *refusal)),
    };
    if output.status.code() == Some(status) && output.stdout == out && output.stderr == err {
        return Ok(());
    }
    Err(format!(
        "expected {outcome:?}, got {:?}, {:?}, {:?}",
        output.status.code(),
        String::from_utf8_lossy(&output.stdout),
        String::from_utf8_lossy(&output.stderr)
    ))
}

/// A text of the table without its escapes.
fn plain(escaped: &str) -> Result<Vec<u8>, String> {
    let mut bytes = Vec::new();
    let mut rest = escaped;
    while let Some(c) = rest.chars().next() {
        rest = &rest[c.len_utf8()..];
        if c == '{' {
            let (inside, more) = rest.split_once('}').ok_or("no }")?;
            let (times, what) = inside.split_once('*').ok_or("no *")?;
            let times = times.parse::<usize>().map_err(|e| e.to_string())?;
            bytes.extend(plain(what)?.repeat(times));
            rest = more;
        } else if c == '\\' {
            let kind = rest.chars().next().ok_or("no escape")?;
            rest = &rest[1..];
            match kind {
                'n' => bytes.push(b'\n'),
                't' => bytes.push(b'\t'),
                'r' => bytes.push(b'\r'),
                'x' => {
                    bytes.push(u8::from_str_radix(&rest[..2], 16).map_err(|e| e.to_string())?);
                    rest = &rest[2..];
                }
                _ => return Err(format!("escape {kind}")),
            }
        } else {
            bytes.extend(c.to_string().bytes());
        }
    }
    Ok(bytes)
}

/// A line of the table: the text and what it must come to.
fn entry(line: &str) -> Result<(Vec<u8>, Outcome), String> {
    let (text, result) = line.split_once(" => ").ok_or("no =>")?;
    let text = plain(text)?;
    if let Some(plan) = result.strip_prefix("ok ") {
        let plan = String::from_utf8(plain(plan)?).map_err(|e| e.to_string())?;
        return Ok((text, Outcome::Printed(plan)));
    }
    let (at, why) = result.strip_prefix("no ").and_then(|r| r.split_once(' ')).ok_or("no result")?;
    let at = at.parse::<usize>().map_err(|e| e.to_string())?;
    let why = Why::ALL.into_iter().find(|w| format!("{w:?}") == why).ok_or("no such reason")?;
    Ok((text, Outcome::Refused(Refusal { at, why })))
}

fn main() {
    let arguments: Vec<String> = std::env::args().collect();
    let [_, program, table] = arguments.as_slice() else {
        eprintln!("usage: compare_text PLAN TABLE");
        std::process::exit(2);
    };
    let table = std::fs::read_to_string(table).unwrap_or_default();
    let (mut passed, mut failed) = (0, 0);
    let mut count = |name: &str, result: Result<(), String>| match result {
        Ok(()) => passed += 1,
        Err(e) => {
            failed += 1;
            println!("{name}: {e}");
        }
    };
    let lines = table.lines().filter(|l| !l.is_empty() && !l.starts_with('#'));
    let mut entries = 0;
    for line in lines {
        entries += 1;
        let result = entry(line).and_then(|(text, outcome)| {
            if ours(&text) != outcome {
                return Err(format!("the plain reader says {:?}", ours(&text)));
            }
            agrees(program, None, &text, &outcome)
        });
        count(line, result);
    }
    if entries < 60 {
        count("table", Err(format!("only {entries} entries")));
    }
    let file = std::env::temp_dir().join(format!("compare_text.{}", std::process::id()));
    for text in [GOOD[0], GOOD[7], "", "late 5;\n\tin 0 count\n"] {
        count(&format!("file with {text:?}"), agrees(program, Some(&file), text.as_bytes(), &ours(text.as_bytes())));
    }
    let _ = std::fs::remove_file(&file);
    let mut plans = 0;
    for seed in 1..=3000u64 {
        let mut random = Random(seed.wrapping_mul(0x9e37_79b9_7f4a_7c15));
        let text = if seed % 3 == 0 { varied(&mut random) } else { changed(&mut random) };
        let outcome = ours(&text);
        plans += usize::from(matches!(outcome, Outcome::Printed(_)));
        count(&format!("seed {seed}, {:?}", String::from_utf8_lossy(&text)), agrees(program, None, &text, &outcome));
    }
    if plans < 500 {
        count("plans", Err(format!("only {plans} of the changed texts are plans")));
    }
    println!("{entries} texts of the table, 3000 changed ones, of which {plans} are plans");
    println!("{passed} passed, {failed} failed");
    std::process::exit(i32::from(failed > 0));
}
