//! The journal of a live run: the entries of a monitor under its lock, and the text with all receipts.

use crate::commands::{Command, Commands};
use crate::digits::{put_decimal, PageAddress};
use crate::lines;
use crate::live_script::Worker;
use crate::monitor::{Monitor, Phase};
use crate::output::{Output, Written};
use crate::space::{Space, PAGE};
use crate::text_report;

/// A monitor and what was done with it so far.
pub struct Journal {
    pub monitor: Monitor,
    entries: Output,
}

impl Journal {
    pub fn new(monitor: Monitor) -> Journal {
        Journal { monitor, entries: Output::in_memory() }
    }

    pub fn prepare(&mut self) {
        self.entries.field("prepare ", self.monitor.pass()).field(" at ", self.monitor.drawn()).str("\n");
        self.monitor.prepare();
        self.monitor.phase = Phase::Armed;
    }

    /// Ends a pass with what its loads found, and carries out an aggregation that is due.
    pub fn check(&mut self, loaded: &[u8]) {
        self.entries.field("check ", self.monitor.pass()).str(" ");
        let room = self.entries.room(loaded.len());
        room.iter_mut().zip(loaded).for_each(|(digit, &bit)| *digit = b'0' + bit);
        self.entries.add(loaded.len());
        self.entries.str("\n");
        self.monitor.observe(loaded);
        self.aggregate();
    }

    pub fn void(&mut self) {
        self.entries.field("void ", self.monitor.pass()).str("\n");
        self.monitor.observe_void();
        self.aggregate();
    }

    fn aggregate(&mut self) {
        if self.monitor.phase == Phase::Due {
            self.entries.field("aggregate ", self.monitor.ticks).field(" at ", self.monitor.drawn()).str("\n");
            self.monitor.aggregate();
            self.monitor.split();
        }
    }

    /// Carries out a call of a controller.
    pub fn call(&mut self, controller: usize, index: usize, call: &Command) {
        let entries = &mut self.entries;
        entries.field("call ", controller as u64).field(" ", index as u64);
        if let Command::Commit(commit) = call {
            entries.str(" commit\n");
            lines::commit(entries, commit);
            entries.str("answer ");
            text_report::answer(entries, &self.monitor.commit(commit));
        } else {
            entries
                .field(" show\nanswer shown tick=", self.monitor.ticks)
                .field(" rows=", self.monitor.rows.len() as u64);
        }
        entries.str("\n");
    }

    /// Writes the whole text. `head` has the lines before the entries, and each worker its tags.
    pub fn write(&self, head: &Output, workers: &[(Worker, Vec<u32>)], output: &mut Output) -> Written {
        for part in [head.text(), self.entries.text()] {
            for piece in part.chunks(64 * 1024) {
                output.bytes(piece).settle()?;
            }
        }
        output.str("receipts\n");
        for (number, (worker, tags)) in workers.iter().enumerate() {
            receipts(output, number, &worker.accesses, tags, &self.monitor.space)?;
        }
        output.str("settled\n");
        text_report::show(output, &self.monitor)?;
        text_report::end(output, &self.monitor);
        Ok(())
    }
}

/// Hands on each page of a list of accesses, in order.
pub fn for_pages(accesses: &Commands, mut each: impl FnMut(u32)) {
    let mut place = 0;
    while let Some((access, next)) = accesses.at(place) {
        match access {
            Command::Touches(pages) => pages.iter().for_each(|&page| each(page)),
            Command::Sweep { first, end } => (first..end).for_each(&mut each),
            _ => {}
        }
        place = next;
    }
}

const RECEIPT_ROOM: usize = 96;

fn receipts(output: &mut Output, worker: usize, accesses: &Commands, tags: &[u32], space: &Space) -> Written {
    let mut written = Ok(());
    let mut tags = tags.iter();
    let mut number = 0;
    for_pages(accesses, |page| {
        let target = &space.targets[number];
        if page < target.first || page - target.first >= target.pages {
            number = space.target_of(page);
        }
        let target = &space.targets[number];
        let place = (target.base / PAGE).wrapping_add(page as u64).wrapping_sub(target.first as u64);
        let tag = tags.next().map_or(0, |&tag| tag as u64);
        let length = put_receipt(output.room(RECEIPT_ROOM), worker, number, &PageAddress::of(place), tag);
        output.add(length);
        if written.is_ok() {
            written = output.settle();
        } else {
            output.clear();
        }
    });
    written
}

#[inline]
fn put_receipt(room: &mut [u8], worker: usize, target: usize, address: &PageAddress, tag: u64) -> usize {
    let room = &mut room[..RECEIPT_ROOM];
    room[..5].copy_from_slice(b"seen ");
    let mut at = 5 + put_decimal(&mut room[5..], worker as u64);
    room[at] = b' ';
    at += 1;
    at += put_decimal(&mut room[at..], target as u64);
    room[at..at + 3].copy_from_slice(b" 0x");
    at += 3;
    room[at..at + 16].copy_from_slice(&address.digits);
    at += address.length;
    room[at] = b' ';
    at += 1;
    at += put_decimal(&mut room[at..], tag);
    room[at] = b'\n';
    at + 1
}
