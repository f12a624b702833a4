//! Compares the program `rehearse` with the scripts of this package: first on scripts whose output was worked out by hand
//! (NAME.txt and NAME.out of each FOLDER), then on scripts made at random, with fixed seeds.
//! Usage: compare_rehearse REHEARSE FOLDER ..

use oracle::random::Random;
use oracle::rehearse::play;
use std::io::Write;
use std::path::Path;
use std::process::{Command, Stdio};

const PLANS: [&str; 8] = [
    "late 10; in 100 count; key 0 in 1000 greatest",
    "late 0; in 1 total",
    "late 60; keep value % 3 key key % 4 value value * 18446744073709551615 in 50 total; in 200 least",
    "late 5; keep key < 6 key key / 2 in 20 count; keep value < 4 key value in 100 count; in 1000 total",
    "late 1000; key value value time in 7 greatest",
    "late 3; keep 0 in 10 count",
    "late 20; key 1 value value - 5 in 30 least; key 2 in 30 total",
    "late 1; in 2 count; in 4 count; in 8 count; in 16 count; in 32 count; in 64 count; in 128 count; in 256 count",
];

const BAD: [&str; 20] = [
    "put", "put 0", "put 0 1 2", "put 0 1 2 3 4", "put x 1 2 3", "put 0 1x 2 3", "still", "still 0 5 6", "out 1", "out x",
    "outs", "drop", "drop 0", "plan", "plan late 5", "logs 0", "logs 257", "logs 3 3", "put 0 18446744073709551616 1 1",
    "\u{e9}t\u{e9}",
];

const EDGES: [u64; 7] = [0, 1, (1 << 62) - 1, 1 << 62, u64::MAX, (1 << 63) + 5, 1_099_511_627_776];

/// A script: a plan and logs or neither, then calls whose times mostly rise, with some late, some equal, and bad lines.
fn script(seed: u64) -> String {
    let mut r = Random::new(seed);
    let logs = 1 + r.below(4);
    let mut lines = Vec::new();
    if r.below(4) > 0 {
        lines.push(format!("plan {}", r.one(&PLANS)));
    }
    if logs > 1 || r.below(2) == 0 {
        lines.push(format!("logs {logs}"));
    }
    let long = if seed % 10 == 0 { 1500 } else { 5 + r.below(60) };
    let step = 1 + r.below(60);
    let mut time = 0u64;
    for _ in 0..long {
        time += r.below(step) as u64;
        lines.push(call(&mut r, logs, time));
    }
    for log in 0..logs {
        lines.push(format!("still {log} {}", time + r.below(3000) as u64));
    }
    lines.push("out".into());
    lines.join(if r.below(8) == 0 { "\r\n" } else { "\n" })
}

fn call(r: &mut Random, logs: usize, time: u64) -> String {
    let one_too_far = usize::from(r.below(20) == 0);
    let log = r.below(logs + one_too_far);
    let time = match r.below(12) {
        0 => time.saturating_sub(r.below(200) as u64),
        1 if r.below(6) == 0 => *r.one(&EDGES),
        _ => time,
    };
    match r.below(40) {
        0 => r.one(&BAD).to_string(),
        1 => format!("out {} {}", r.below(9), *r.one(&[0, 1, 3, 1024, 1025, 65536])),
        2 => "out".into(),
        3 | 4 => format!("still {log} {time}"),
        5 => format!("  put\t{log} {time}  {} {} ", r.one(&EDGES), r.one(&EDGES)),
        _ => format!("put {log} {time} {} {}", r.below(7), r.below(9)),
    }
}

fn run(program: &str, script: &[u8]) -> std::io::Result<String> {
    let mut child = Command::new(program).stdin(Stdio::piped()).stdout(Stdio::piped()).spawn()?;
    child.stdin.take().expect("a pipe").write_all(script)?;
    Ok(String::from_utf8_lossy(&child.wait_with_output()?.stdout).into_owned())
}

fn main() -> std::io::Result<()> {
    let args: Vec<String> = std::env::args().collect();
    let (mut passed, mut failed) = (0, 0);
    let mut check = |name: &str, script: &[u8], got: &str, expected: &str| {
        if got == expected {
            passed += 1;
        } else {
            failed += 1;
            println!("{name} differs\n--- script\n{}\n--- printed\n{got}\n--- expected\n{expected}", String::from_utf8_lossy(script));
        }
    };
    let mut names = Vec::new();
    for folder in &args[2..] {
        for file in std::fs::read_dir(folder)? {
            names.push(file?.path());
        }
    }
    names.sort();
    for path in names.iter().filter(|p| p.extension().is_some_and(|e| e == "txt")) {
        let script = std::fs::read(path)?;
        let expected = std::fs::read_to_string(Path::new(path).with_extension("out"))?;
        check(&path.display().to_string(), &script, &run(&args[1], &script)?, &expected);
        check(&path.display().to_string(), &script, &play(&script), &expected);
    }
    for seed in 1..=600 {
        let script = script(seed);
        check(&format!("seed {seed}"), script.as_bytes(), &run(&args[1], script.as_bytes())?, &play(script.as_bytes()));
    }
    println!("{passed} passed, {failed} failed");
    std::process::exit(i32::from(failed > 0))
}
