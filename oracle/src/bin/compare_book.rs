//! Plays the plain Rust book, which is as docs/BOXES.md has it, on random runs: batches into logs, takes and steps, where takers may
//! hold an old log box; with tiny and with real sizes. After each take and step, what came out of the boxes must be a first
//! part of what comes out of the logs (docs/MEANING.md), in the end all of it, and each content must be read back from its bytes.
//! Seeds are fixed.

use oracle::book::*;
use oracle::meaning::{outcome, Entry, Event};
use oracle::random::Random;
use oracle::text::{read, Plan};
use std::collections::BTreeMap;
use std::io::Write;
use std::process::{Command, Stdio};

const TINY: Sizes = Sizes { front: 6, buffer: 8, rows: 4, segments: 3, emits: 2, outs: 3, log: 12 };

const PLANS: [&str; 7] = [
    "late 10; in 100 count; key 0 in 1000 greatest",
    "late 0; in 1 total",
    "late 60; keep value % 3 key key % 4 value value * 18446744073709551615 in 50 total; in 200 least",
    "late 1000; key value value time in 7 greatest",
    "late 20; key 1 value value - 5 in 30 least; key 2 in 30 total",
    "late 1; in 2 count; in 4 count; in 8 count; in 16 count; in 32 count; in 64 count; in 128 count; in 256 count",
    "late 5; in 1000000 total; key key % 100 in 2000000 greatest",
];

/// The boxes, and what was put into the logs.
struct World<'a> {
    rules: Rules<'a>,
    ledger: Ledger,
    logs: Vec<LogBox>,
    /// what a log's box held some time ago
    old: Vec<LogBox>,
    pages: BTreeMap<u64, Vec<u8>>,
    put: Vec<Vec<Entry>>,
    /// how often each kind of step was done
    done: BTreeMap<&'static str, usize>,
    /// the same as commands of the program `boxes`, and what it must print
    script: String,
    prints: String,
}

/// A box that is filled, as `boxes` prints it: its number, how many words, and what they come to.
fn filled(number: u64, bytes: &[u8]) -> String {
    let words = bytes.chunks_exact(8).map(|w| u64::from_be_bytes(w.try_into().expect("they are eight")));
    let sum = words.clone().fold(14_695_981_039_346_656_037u64, |sum, w| (sum ^ w).wrapping_mul(1_099_511_628_211));
    format!("box {number} {} {sum}\n", words.len())
}

fn kind(step: Step) -> &'static str {
    match step {
        Step::Publish => "publish",
        Step::Pack(_) => "pack",
        Step::Spill(_) => "spill",
        Step::Lower => "lower",
        Step::Sift(_) => "sift",
        Step::Emit => "emit",
        Step::Unpack(_) => "unpack",
        Step::Open => "open",
    }
}

impl World<'_> {
    fn new(plan: &Plan, sizes: Sizes, logs: usize) -> World<'_> {
        World {
            rules: Rules { plan, sizes },
            ledger: Ledger::empty(logs),
            logs: vec![LogBox::empty(); logs],
            old: vec![LogBox::empty(); logs],
            pages: BTreeMap::new(),
            put: vec![Vec::new(); logs],
            done: BTreeMap::new(),
            script: String::new(),
            prints: String::new(),
        }
    }

    /// A batch by chance, of a worker that knows of some of what is taken.
    fn batch(&mut self, r: &mut Random, time: u64) {
        let log = r.below(self.logs.len());
        let batch: Vec<Entry> = (0..1 + r.below(8)).map(|_| entry(r, time)).collect();
        if r.below(2) == 0 {
            self.old[log] = self.logs[log].clone();
            self.script += &format!("keep {log}\n");
        }
        self.put_in(log, r.below(3) as u64, r.below(64), (r.next(), r.next()), batch);
    }

    fn still(&mut self, log: usize, time: u64) {
        self.put_in(log, 0, 0, (1, 1), vec![Entry::Still(time)]);
    }

    /// If there is no room for a batch, the log is taken until there is.
    fn put_in(&mut self, log: usize, behind: u64, worker: usize, mine: (u64, u64), batch: Vec<Entry>) {
        loop {
            let floor = self.ledger.logs[log].taken.saturating_sub(behind);
            for entry in &batch {
                self.script += &match entry {
                    Entry::Event(Event { time, key, value }) => format!("event {time} {key} {value}\n"),
                    Entry::Still(time) => format!("still {time}\n"),
                };
            }
            self.script += &format!("put {log} {worker} {} {} {floor}\n", mine.0, mine.1);
            if let Some(new) = self.rules.add(&self.logs[log], floor, worker, mine, &batch) {
                self.prints += &filled(log_box(log as u64), &log_bytes(&new));
                self.logs[log] = new;
                break;
            }
            self.prints += "full\n";
            self.rest();
            self.take(log, false);
        }
        assert!(self.logs[log].has(worker, mine.0, mine.1), "a batch that is in is seen to be in");
        assert_eq!(log_from(&log_bytes(&self.logs[log])).as_ref(), Some(&self.logs[log]), "a log box is read back");
        self.put[log].extend(batch);
    }

    /// The step that is due, its pages filled; each page number is called for with one content only.
    fn step(&mut self) -> bool {
        self.script += "step\n";
        let Some(step) = self.rules.due(&self.ledger) else {
            self.prints += "rest\n";
            return false;
        };
        let shown = self.rules.shows(&self.ledger, step).map(|b| page_from(&self.pages[&b]).expect("a page that is called for is filled"));
        let done = self.rules.done(&self.ledger, step, shown.as_ref());
        for (number, bytes) in done.writes {
            self.prints += &filled(number, &bytes);
            assert!(self.pages.insert(number, bytes).is_none(), "a page is filled once");
        }
        self.ledger = done.ledger;
        self.prints += &filled(LEDGER, &ledger_bytes(&self.ledger));
        *self.done.entry(kind(step)).or_default() += 1;
        assert_eq!(ledger_from(&ledger_bytes(&self.ledger)).as_ref(), Some(&self.ledger), "a ledger is read back");
        true
    }

    fn rest(&mut self) {
        while self.step() {}
    }

    /// A log taken, with nothing due, from its box as it is or as it was; false where nothing was new.
    fn take(&mut self, log: usize, old: bool) -> bool {
        let shown = if old { &self.old[log] } else { &self.logs[log] };
        if shown.entries == 0 {
            return false;
        }
        self.script += &format!("{} {log}\n", if old { "takeold" } else { "take" });
        let Some(new) = self.rules.take(&self.ledger, log, shown) else {
            self.prints += "refused\n";
            return false;
        };
        self.prints += &filled(LEDGER, &ledger_bytes(&new));
        let changed = new != self.ledger;
        self.ledger = new;
        changed
    }

    /// What came out, by the boxes.
    fn came_out(&self) -> Vec<Event> {
        let show = |t: u64| out_from(&self.pages[&out_box(t)]).expect("an out page that is called for is filled");
        self.rules.answer(&self.ledger, 0, usize::MAX, show)
    }

    fn check(&self) {
        let all = outcome(self.rules.plan, &self.put);
        let came = self.came_out();
        assert!(all.starts_with(&came), "what came out stands: {came:?} of {all:?}");
    }
}

fn entry(r: &mut Random, time: u64) -> Entry {
    let time = if r.below(8) == 0 { time.saturating_sub(r.below(200) as u64) } else { time + r.below(40) as u64 };
    if r.below(8) == 0 {
        return Entry::Still(time);
    }
    let key = if r.below(4) == 0 { r.below(7) as u64 } else { r.below(60000) as u64 };
    Entry::Event(Event { time, key, value: r.below(9) as u64 })
}

fn play(seed: u64, text: &str, sizes: Sizes, batches: usize) -> Played {
    let plan = read(text.as_bytes()).expect("it is a plan");
    let mut r = Random::new(seed);
    let mut world = World::new(&plan, sizes, 1 + r.below(4));
    world.script = format!("plan {text}\nlogs {}\n", world.logs.len());
    let mut time = 0;
    for turn in 0..batches {
        time += r.below(30) as u64;
        world.batch(&mut r, time);
        for _ in 0..r.below(4) {
            if !world.step() {
                let log = r.below(world.logs.len());
                let old = r.below(4) == 0;
                world.take(log, old);
            }
        }
        if turn % (batches / 20) == 0 {
            world.check();
        }
    }
    // in the end all windows that there are have ended, or some are left open
    if seed % 4 > 0 {
        (0..world.logs.len()).for_each(|log| world.still(log, time + 4_000_000));
    }
    loop {
        world.rest();
        if !(0..world.logs.len()).any(|log| world.take(log, false)) {
            break;
        }
    }
    assert_eq!(world.came_out(), outcome(&plan, &world.put), "all comes out");
    Played { done: world.done, script: world.script, prints: world.prints }
}

/// What a run came to.
struct Played {
    done: BTreeMap<&'static str, usize>,
    script: String,
    prints: String,
}

/// The first line in which the program `boxes` prints something else of a script.
fn differs(program: &str, played: &Played) -> std::io::Result<Option<String>> {
    let mut child = Command::new(program).stdin(Stdio::piped()).stdout(Stdio::piped()).spawn()?;
    let mut input = child.stdin.take().expect("a pipe");
    let script = played.script.clone();
    let writer = std::thread::spawn(move || input.write_all(script.as_bytes()));
    let output = child.wait_with_output()?;
    writer.join().expect("it writes")?;
    let printed = String::from_utf8_lossy(&output.stdout).into_owned();
    let mut lines = (1..).zip(printed.lines().zip(played.prints.lines()));
    let first = lines.find(|(_, (printed, expected))| printed != expected);
    if let Some((at, (printed, expected))) = first {
        return Ok(Some(format!("line {at}: printed {printed}, expected {expected}")));
    }
    let (printed, expected) = (printed.lines().count(), played.prints.lines().count());
    Ok((printed != expected).then(|| format!("{printed} lines printed, {expected} expected")))
}

fn main() -> std::io::Result<()> {
    let program = std::env::args().nth(1).expect("the program `boxes`");
    let (mut passed, mut failed) = (0, 0);
    for (name, sizes, batches, seeds) in [("tiny", TINY, 60, 1..=600u64), ("real", SIZES, 9000, 601..=607)] {
        let mut steps: BTreeMap<&str, usize> = BTreeMap::new();
        for seed in seeds {
            let text = PLANS[seed as usize % PLANS.len()];
            let Ok(played) = std::panic::catch_unwind(|| play(seed, text, sizes, batches)) else {
                failed += 1;
                println!("seed {seed} fails");
                continue;
            };
            passed += 1;
            // the program has the real sizes
            if name == "real" {
                match differs(&program, &played)? {
                    None => passed += played.prints.lines().count(),
                    Some(what) => {
                        failed += 1;
                        println!("seed {seed}: {what}");
                    }
                }
            }
            played.done.into_iter().for_each(|(kind, count)| *steps.entry(kind).or_default() += count);
        }
        println!("steps with {name} sizes: {steps:?}");
        // a kind of step that never came up was not tried
        if steps.len() == 8 {
            passed += 1;
        } else {
            failed += 1;
        }
    }
    println!("{passed} passed, {failed} failed");
    std::process::exit(i32::from(failed > 0))
}
