//! Heat tables: what each aggregation of a journal found, as columns, frequencies and working sets.

use crate::monitor::Monitor;
use crate::output::{Output, WriteFailed, Written};
use crate::verify::{check, Watcher};

/// Tables of more bytes are not kept, but made again when they are written.
const MOST_KEPT: usize = 4 * 1024 * 1024;
const TENTHS: usize = 11;

/// The heat tables of a text that was checked.
pub struct Heat<'a> {
    text: &'a [u8],
    tables: Tables,
}

struct Tables {
    columns: u32,
    output: Output,
    sizes: Vec<u32>,
    keeps_all: bool,
    heat: Vec<u64>,
    written: Written,
}

/// Checks a text and makes its tables, or gives the number of its first rejected line.
pub fn checked(text: &[u8], columns: u32) -> Result<Heat<'_>, u64> {
    let mut tables = Tables::new(columns, Output::in_memory());
    check(text, &mut tables)?;
    Ok(Heat { text, tables })
}

impl Heat<'_> {
    pub fn write(mut self, output: &mut Output) -> Written {
        if self.tables.keeps_all {
            for part in self.tables.output.text().chunks(64 * 1024) {
                output.bytes(part).settle()?;
            }
        } else {
            let mut again = Tables::new(self.tables.columns, std::mem::replace(output, Output::in_memory()));
            again.sizes = Vec::new();
            check(self.text, &mut again).map_err(|_| WriteFailed)?;
            *output = std::mem::replace(&mut again.output, Output::in_memory());
            again.written?;
        }
        self.all(output);
        Ok(())
    }

    /// The last line.
    fn all(&mut self, output: &mut Output) {
        let sizes = &mut self.tables.sizes;
        sizes.sort_unstable();
        output.field("all reports=", sizes.len() as u64);
        if let (Some(least), Some(greatest)) = (sizes.first(), sizes.last()) {
            let median = sizes[(sizes.len() - 1) / 2];
            output.field(" least=", *least as u64).field(" median=", median as u64);
            output.field(" greatest=", *greatest as u64);
        }
        output.str("\n");
    }
}

impl Tables {
    fn new(columns: u32, output: Output) -> Tables {
        Tables { columns, output, sizes: Vec::new(), keeps_all: true, heat: vec![0; columns as usize], written: Ok(()) }
    }

    fn lines(&mut self, monitor: &Monitor) {
        let mut row = 0;
        for number in 0..monitor.space.targets.len() {
            row = self.heat_of(monitor, number, row);
            self.output.field("heat ", monitor.ticks).field(" ", number as u64);
            for &heat in &self.heat {
                self.output.field(" ", heat);
            }
            self.output.str("\n");
        }
        let mut tenths = [0u64; TENTHS];
        let mut size = 0;
        for (&count, &pages) in monitor.rows.count.iter().zip(&monitor.rows.pages) {
            if count > 0 {
                let tenth = 10 * count as u64 / monitor.attrs.aggr as u64;
                tenths[tenth.min(10) as usize] += pages as u64;
                size += pages;
            }
        }
        tenths[0] += (monitor.total - size) as u64;
        self.output.field("freq ", monitor.ticks);
        for pages in tenths {
            self.output.field(" ", pages);
        }
        self.output.field("\nwss ", monitor.ticks).field(" ", size as u64).str("\n");
        self.sizes.push(size);
    }

    /// Finds the heat of the columns of a target, whose rows begin with `row`, and gives the first row behind it.
    fn heat_of(&mut self, monitor: &Monitor, number: usize, row: usize) -> usize {
        let target = &monitor.space.targets[number];
        let edge = |column: u64| target.first + (column * target.pages as u64 / self.columns as u64) as u32;
        let rows = &monitor.rows;
        self.heat.fill(0);
        let (mut column, mut next) = (0, edge(1));
        let mut at = row;
        while at < rows.len() && rows.start[at] < target.first + target.pages {
            let (mut from, end, count) = (rows.start[at], rows.start[at] + rows.pages[at], rows.count[at] as u64);
            at += 1;
            if count == 0 {
                continue;
            }
            while from < end {
                while next <= from {
                    column += 1;
                    next = edge(column as u64 + 1);
                }
                let to = end.min(next);
                self.heat[column] += count * (to - from) as u64;
                from = to;
            }
        }
        at
    }
}

impl Watcher for Tables {
    fn aggregated(&mut self, monitor: &Monitor) {
        self.lines(monitor);
        if self.written.is_ok() {
            self.written = self.output.settle();
        }
        if self.written.is_err() || !self.keeps_all {
            self.output.clear();
        } else if self.output.text().len() > MOST_KEPT {
            self.keeps_all = false;
            self.output.clear();
        }
    }
}
