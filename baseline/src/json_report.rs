//! The report as JSON lines. The members of an object come in the order of their names.

use crate::commit::Answer;
use crate::digits::{put_decimal, PageAddress};
use crate::monitor::Monitor;
use crate::output::{Output, Written};
use crate::report::Report;
use crate::space::PAGE;
use crate::text_report;

const ROW_ROOM: usize = 256;
const ROWS_AT_ONCE: usize = 64;

pub struct JsonReport {
    pub output: Output,
}

impl Report for JsonReport {
    fn shown(&mut self, monitor: &Monitor) -> Written {
        let output = &mut self.output;
        output.str("{\"kind\":\"show\",\"phase\":\"").str(monitor.phase.name()).str("\",\"rows\":[");
        rows(output, monitor)?;
        output.str("],\"slots\":[");
        slots(output, monitor);
        output.field("],\"tick\":", monitor.ticks).str("}\n");
        output.settle()
    }

    fn aggregated(&mut self, monitor: &Monitor) -> Written {
        let output = &mut self.output;
        output.str("{\"applied\":[");
        applied(output, monitor)?;
        output.str("],\"choices\":[");
        choices(output, monitor);
        output.str("],\"kind\":\"aggregate\",\"rows\":[");
        rows(output, monitor)?;
        output.field("],\"threshold\":", monitor.threshold as u64).field(",\"tick\":", monitor.ticks).str("}\n");
        output.settle()
    }

    fn answered(&mut self, tick: u64, answer: &Answer) -> Written {
        self.output.str("{\"answer\":\"");
        text_report::answer(&mut self.output, answer);
        self.output.str("\",\"kind\":\"commit\"").field(",\"tick\":", tick).str("}\n");
        self.output.settle()
    }

    fn ended(&mut self, monitor: &Monitor) -> Written {
        let output = &mut self.output;
        output.field("{\"checks\":", monitor.checks).field(",\"hits\":", monitor.hits).str(",\"kind\":\"end\"");
        output.field(",\"rows\":", monitor.rows.len() as u64).field(",\"ticks\":", monitor.ticks).str("}\n");
        Ok(())
    }
}

fn slots(output: &mut Output, monitor: &Monitor) {
    let mut comma = "";
    for (number, slot) in monitor.slots.iter().enumerate() {
        if let Some(held) = &slot.held {
            output.str(comma).str("{\"action\":\"").str(held.scheme.action.name());
            output.str(if held.active { "\",\"active\":true" } else { "\",\"active\":false" });
            output.field(",\"applied\":", held.applied).field(",\"charged\":", slot.charged);
            output.field(",\"exceeds\":", held.exceeds).field(",\"slot\":", number as u64);
            output.field(",\"start\":", slot.start).field(",\"tried\":", held.tried).str("}");
            comma = ",";
        }
    }
}

fn applied(output: &mut Output, monitor: &Monitor) -> Written {
    let mut comma = "";
    let mut at = 0;
    for served in &monitor.engine.served {
        for run in &monitor.engine.runs[at..served.runs_end] {
            let target = &monitor.space.targets[run.target as usize];
            output.str(comma).str("{\"action\":\"").str(served.action.name()).str("\",\"end\":\"");
            output.address(target.address(run.end)).field("\",\"score\":", run.score as u64);
            output.field(",\"slot\":", served.slot as u64).str(",\"start\":\"").address(target.address(run.first));
            output.field("\",\"target\":", run.target as u64).str("}");
            output.settle()?;
            comma = ",";
        }
        at = served.runs_end;
    }
    Ok(())
}

fn choices(output: &mut Output, monitor: &Monitor) {
    let mut comma = "";
    for served in &monitor.engine.served {
        output.str(comma).str(if served.active { "{\"active\":true" } else { "{\"active\":false" });
        number_or_null(output, ",\"left\":", served.left);
        number_or_null(output, ",\"lowest\":", served.lowest.map(u64::from));
        output.field(",\"slot\":", served.slot as u64).field(",\"taken\":", served.taken).str("}");
        comma = ",";
    }
}

fn number_or_null(output: &mut Output, name: &str, number: Option<u64>) {
    match number {
        Some(number) => output.field(name, number),
        None => output.str(name).str("null"),
    };
}

fn rows(output: &mut Output, monitor: &Monitor) -> Written {
    let rows = &monitor.rows;
    let mut from = 0;
    while from < rows.len() {
        let number = rows.range[from];
        let target = monitor.ranges[number as usize].target;
        let same = rows.range[from..].iter().take(ROWS_AT_ONCE).position(|&it| it != number);
        let end = from + same.unwrap_or(ROWS_AT_ONCE.min(rows.len() - from));
        let place = &monitor.space.targets[target as usize];
        let address =
            |page: u32| PageAddress::of((place.base / PAGE).wrapping_add(page as u64).wrapping_sub(place.first as u64));
        let tail = Tail::of(target);
        let mut start = address(rows.start[from]);
        for at in from..end {
            let stop = address(rows.start[at] + rows.pages[at]);
            let room = &mut output.room(ROW_ROOM)[..ROW_ROOM];
            let comma = at > 0;
            room[0] = b',';
            let front = comma as usize;
            let numbers = [rows.age[at], rows.count[at], rows.last[at]];
            let length = put_row(&mut room[front..], &tail, [start, stop], numbers);
            output.add(front + length);
            start = stop;
        }
        output.settle()?;
        from = end;
    }
    Ok(())
}

/// The words behind the address of a row, which are the same for all rows of a target.
struct Tail {
    words: [u8; 16],
    length: usize,
}

impl Tail {
    fn of(target: u8) -> Tail {
        let mut words = [b'}'; 16];
        words[..11].copy_from_slice(b"\",\"target\":");
        let digits = put_decimal(&mut words[11..], target as u64);
        Tail { words, length: 11 + digits + 1 }
    }
}

#[inline]
fn put_row(room: &mut [u8], tail: &Tail, addresses: [PageAddress; 2], numbers: [u32; 3]) -> usize {
    let room = &mut room[..ROW_ROOM - 1];
    room[..8].copy_from_slice(b"{\"age\": ");
    let mut at = 7;
    at += put_decimal(&mut room[at..], numbers[0] as u64);
    at += put_between(&mut room[at..], b",\"count\":0,\"end\":\"0x  ", 9, numbers[1]) - 2;
    room[at..at + 16].copy_from_slice(&addresses[1].digits);
    at += addresses[1].length;
    at += put_between(&mut room[at..], b"\",\"last\":0,\"start\":\"0x", 9, numbers[2]);
    room[at..at + 16].copy_from_slice(&addresses[0].digits);
    at += addresses[0].length;
    room[at..at + 16].copy_from_slice(&tail.words);
    at + tail.length
}

/// Writes words with a number in the place of the digit that they have at `place`, and gives the length of all.
#[inline]
fn put_between(room: &mut [u8], words: &[u8; 22], place: usize, number: u32) -> usize {
    room[..22].copy_from_slice(words);
    if number < 10 {
        room[place] = b'0' + number as u8;
        return 22;
    }
    let digits = put_decimal(&mut room[place..], number as u64);
    room[place + digits..place + digits + 21 - place].copy_from_slice(&words[place + 1..]);
    21 + digits
}
