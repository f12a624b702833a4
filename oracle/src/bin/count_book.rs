//! Counts what one worker alone does until all is out: so many events are put into one log in batches of eight, each with a row of its
//! own in one window, and then still behind its end. Of the plain Rust book of docs/BOXES.md, with the real sizes; counts, no times.

use oracle::book::*;
use oracle::meaning::{Entry, Event};
use oracle::random::Random;
use oracle::text::read;
use std::collections::BTreeMap;

#[derive(Default)]
struct Counts {
    takes: usize,
    steps: usize,
    shown: usize,
    written: usize,
    /// the largest number of segments of the ledger
    segments: usize,
}

struct World<'a> {
    rules: Rules<'a>,
    ledger: Ledger,
    log: LogBox,
    pages: BTreeMap<u64, Vec<u8>>,
    counts: Counts,
}

impl World<'_> {
    fn rest(&mut self) {
        while let Some(step) = self.rules.due(&self.ledger) {
            let shown = self.rules.shows(&self.ledger, step).map(|b| page_from(&self.pages[&b]).expect("it is filled"));
            self.counts.steps += 1;
            self.counts.shown += usize::from(shown.is_some());
            let done = self.rules.done(&self.ledger, step, shown.as_ref());
            self.counts.written += done.writes.len();
            self.pages.extend(done.writes);
            self.ledger = done.ledger;
            self.counts.segments = self.counts.segments.max(self.ledger.segments.len());
        }
    }

    /// Takes as much as there is room for; false if nothing was new.
    fn take(&mut self) -> bool {
        self.rest();
        let new = self.rules.take(&self.ledger, 0, &self.log).expect("the ledger is no old one");
        let changed = new != self.ledger;
        self.counts.takes += usize::from(changed);
        self.ledger = new;
        changed
    }

    fn put(&mut self, batch: &[Entry]) {
        loop {
            let floor = self.ledger.logs[0].taken;
            if let Some(new) = self.rules.add(&self.log, floor, 0, (1, 1), batch) {
                self.log = new;
                return;
            }
            self.take();
        }
    }
}

fn run(keys: impl Iterator<Item = u64>) -> Counts {
    let plan = read(b"late 0; in 1000 count").expect("it is a plan");
    let mut world = World {
        rules: Rules { plan: &plan, sizes: SIZES },
        ledger: Ledger::empty(1),
        log: LogBox::empty(),
        pages: BTreeMap::new(),
        counts: Counts::default(),
    };
    let events: Vec<Entry> = keys.map(|key| Entry::Event(Event { time: 5, key, value: 1 })).collect();
    events.chunks(8).for_each(|batch| world.put(batch));
    world.put(&[Entry::Still(1000)]);
    while world.take() {}
    world.rest();
    let out = world.ledger.pages as usize * SIZES.outs + world.ledger.tail.len();
    assert_eq!(out, events.len(), "all comes out");
    world.counts
}

fn main() {
    println!("| events | order of keys | takes | steps | pages shown | pages written | segments at most | steps and takes an event |");
    println!("|---|---|---|---|---|---|---|---|");
    for events in [2_000, 20_000, 200_000] {
        let mut random = Random::new(1);
        let mut by_chance: Vec<u64> = (0..events).collect();
        (1..by_chance.len()).rev().for_each(|i| by_chance.swap(i, random.below(i + 1)));
        for (order, counts) in [("by chance", run(by_chance.into_iter())), ("rising", run(0..events)), ("falling", run((0..events).rev()))] {
            let Counts { takes, steps, shown, written, segments } = counts;
            let each = (takes + steps) as f64 / events as f64;
            println!("| {events} | {order} | {takes} | {steps} | {shown} | {written} | {segments} | {each:.3} |");
        }
    }
}
