//! The report as lines of text.

use crate::commit::{Answer, Refusal};
use crate::digits::{put_decimal, PageAddress};
use crate::engine::{Run, Served};
use crate::monitor::Monitor;
use crate::output::{Output, Written};
use crate::report::Report;
use crate::space::{Space, PAGE};

/// The most bytes that a row takes, with room for stores that go too far.
const ROW_ROOM: usize = 192;
/// The number of rows after which the text is written if it is long enough.
const ROWS_AT_ONCE: usize = 64;

pub struct TextReport {
    pub output: Output,
}

impl Report for TextReport {
    fn shown(&mut self, monitor: &Monitor) -> Written {
        show(&mut self.output, monitor)
    }

    fn aggregated(&mut self, monitor: &Monitor) -> Written {
        let output = &mut self.output;
        output.field("aggregate tick=", monitor.ticks).field(" threshold=", monitor.threshold as u64);
        output.field(" rows=", monitor.rows.len() as u64).str("\n");
        let mut at = 0;
        for served in &monitor.engine.served {
            for run in &monitor.engine.runs[at..served.runs_end] {
                apply(output, served, run, &monitor.space);
                output.settle()?;
            }
            at = served.runs_end;
            slot(output, served);
        }
        rows(output, monitor)
    }

    fn answered(&mut self, tick: u64, answer: &Answer) -> Written {
        self.output.field("commit tick=", tick).str(" ");
        self::answer(&mut self.output, answer);
        self.output.str("\n");
        self.output.settle()
    }

    fn ended(&mut self, monitor: &Monitor) -> Written {
        end(&mut self.output, monitor);
        Ok(())
    }
}

/// The lines of a show.
pub fn show(output: &mut Output, monitor: &Monitor) -> Written {
    output.field("show tick=", monitor.ticks).str(" phase=").str(monitor.phase.name());
    output.field(" rows=", monitor.rows.len() as u64).str("\n");
    rows(output, monitor)?;
    for (number, slot) in monitor.slots.iter().enumerate() {
        if let Some(held) = &slot.held {
            output.field("scheme ", number as u64).str(" ").str(held.scheme.action.name());
            output.str(if held.active { " active=yes" } else { " active=no" });
            output.field(" charged=", slot.charged).field(" start=", slot.start).field(" tried=", held.tried);
            output.field(" applied=", held.applied).field(" exceeds=", held.exceeds).str("\n");
        }
    }
    output.settle()
}

pub fn end(output: &mut Output, monitor: &Monitor) {
    output.field("end ticks=", monitor.ticks).field(" rows=", monitor.rows.len() as u64);
    output.field(" checks=", monitor.checks).field(" hits=", monitor.hits).str("\n");
}

/// The words of an answer, which JSON has too.
pub fn answer(output: &mut Output, answer: &Answer) {
    let refusal = match answer {
        Answer::Ok { rows, void } => {
            output.field("ok rows=", *rows as u64).str(if *void { " void=yes" } else { " void=no" });
            return;
        }
        Answer::Refused(refusal) => refusal,
    };
    output.str("refused ");
    match *refusal {
        Refusal::Busy { next } => output.field("busy next=", next as u64),
        Refusal::BadRange { index, why } => output.field("bad-range index=", index as u64).str(" ").str(why),
        Refusal::RangesOverMax { ranges, max } => {
            output.field("ranges-over-max ranges=", ranges as u64).field(" max=", max as u64)
        }
        Refusal::BadAttrs(why) => output.str("bad-attrs ").str(why),
        Refusal::OverCap { max, cap } => output.field("over-cap max=", max as u64).field(" cap=", cap as u64),
        Refusal::BadScheme(why) => output.str("bad-scheme ").str(why),
        Refusal::BadCost { slot } => output.field("bad-cost slot=", slot as u64),
    };
}

fn apply(output: &mut Output, served: &Served, run: &Run, space: &Space) {
    let target = &space.targets[run.target as usize];
    let address = |page: u32| PageAddress::of((target.base / PAGE).wrapping_add((page - target.first) as u64));
    let (first, end) = (address(run.first), address(run.end));
    output.field("apply ", served.slot as u64).str(" ").str(served.action.name()).field(" ", run.target as u64);
    let room = &mut output.room(ROW_ROOM)[..ROW_ROOM];
    room[..4].copy_from_slice(b" 0x ");
    let mut at = 3;
    room[at..at + 16].copy_from_slice(&first.digits);
    at += first.length;
    room[at..at + 4].copy_from_slice(b"-0x ");
    at += 3;
    room[at..at + 16].copy_from_slice(&end.digits);
    at += end.length;
    room[at..at + 8].copy_from_slice(b" score= ");
    at += 7;
    at += put_decimal(&mut room[at..], run.score as u64);
    room[at] = b'\n';
    output.add(at + 1);
}

fn slot(output: &mut Output, served: &Served) {
    output.field("slot ", served.slot as u64);
    if !served.active {
        output.str(" inactive\n");
        return;
    }
    number_or_none(output, " left=", served.left);
    output.field(" taken=", served.taken);
    number_or_none(output, " lowest=", served.lowest.map(u64::from));
    output.str("\n");
}

fn number_or_none(output: &mut Output, name: &str, number: Option<u64>) {
    match number {
        Some(number) => output.field(name, number),
        None => output.str(name).str("none"),
    };
}

/// The lines of all rows.
pub fn rows(output: &mut Output, monitor: &Monitor) -> Written {
    let rows = &monitor.rows;
    let mut from = 0;
    while from < rows.len() {
        let number = rows.range[from];
        let target = monitor.ranges[number as usize].target;
        let same = rows.range[from..].iter().take(ROWS_AT_ONCE).position(|&it| it != number);
        let end = from + same.unwrap_or(ROWS_AT_ONCE.min(rows.len() - from));
        let place = &monitor.space.targets[target as usize];
        let prefix = Prefix::of(target as u64, (place.base / PAGE).wrapping_sub(place.first as u64));
        let mut start = PageAddress::of(prefix.address_page(rows.start[from]));
        for at in from..end {
            let stop = PageAddress::of(prefix.address_page(rows.start[at] + rows.pages[at]));
            let room = output.room(ROW_ROOM);
            let length = put_row(room, &prefix, [start, stop], [rows.count[at], rows.last[at], rows.age[at]]);
            output.add(length);
            // Rows of one range lie side by side.
            start = stop;
        }
        output.settle()?;
        from = end;
    }
    Ok(())
}

/// The words before the address of a row, which are the same for all rows of a target.
struct Prefix {
    words: [u8; 16],
    length: usize,
    /// What is added to the number of a page for its place among all addresses.
    offset: u64,
}

impl Prefix {
    fn of(target: u64, offset: u64) -> Prefix {
        let mut words = [0; 16];
        words[..4].copy_from_slice(b"row ");
        let length = 4 + put_decimal(&mut words[4..], target);
        words[length..length + 3].copy_from_slice(b" 0x");
        Prefix { words, length: length + 3, offset }
    }

    #[inline]
    fn address_page(&self, page: u32) -> u64 {
        self.offset.wrapping_add(page as u64)
    }
}

#[inline]
fn put_row(room: &mut [u8], prefix: &Prefix, addresses: [PageAddress; 2], numbers: [u32; 3]) -> usize {
    let room = &mut room[..ROW_ROOM];
    room[..16].copy_from_slice(&prefix.words);
    let mut at = prefix.length;
    room[at..at + 16].copy_from_slice(&addresses[0].digits);
    at += addresses[0].length;
    room[at..at + 4].copy_from_slice(b"-0x ");
    at += 3;
    room[at..at + 16].copy_from_slice(&addresses[1].digits);
    at += addresses[1].length;
    if numbers[0] < 10 && numbers[1] < 10 {
        // Most counts have one digit.
        room[at..at + 20].copy_from_slice(b" count=0 last=0 age=");
        room[at + 7] += numbers[0] as u8;
        room[at + 14] += numbers[1] as u8;
        at += 20;
    } else {
        room[at..at + 8].copy_from_slice(b" count= ");
        at += 7;
        at += put_decimal(&mut room[at..], numbers[0] as u64);
        room[at..at + 8].copy_from_slice(b" last=  ");
        at += 6;
        at += put_decimal(&mut room[at..], numbers[1] as u64);
        room[at..at + 5].copy_from_slice(b" age=");
        at += 5;
    }
    at += put_decimal(&mut room[at..], numbers[2] as u64);
    room[at] = b'\n';
    at + 1
}
