//! Checking the text of a journal: each line must be the next one that may stand after the lines before it.

use crate::commit::{Change, CommitReader};
use crate::lines;
use crate::monitor::{Monitor, Phase};
use crate::output::Output;
use crate::passes::Passes;
use crate::scheme::Scheme;
use crate::script::hex_of;
use crate::setup::{SetupReader, Was};
use crate::space::PAGE;
use crate::text_report;
use crate::words::line_end;

pub const MOST_CONTROLLERS: usize = 4;
pub const MOST_WORKERS: usize = 16;

pub struct Counts {
    pub passes: u64,
    pub loads: u64,
    pub hits: u64,
}

/// What is told of each aggregation while a journal is checked.
pub trait Watcher {
    /// The state is that between the two halves of an aggregation.
    fn aggregated(&mut self, monitor: &Monitor);
}

pub struct NoWatcher;

impl Watcher for NoWatcher {
    fn aggregated(&mut self, _: &Monitor) {}
}

/// The current line is rejected.
struct Rejected;

type Lawful<T> = Result<T, Rejected>;

/// Checks a text, and gives its counts or the number of its first rejected line.
pub fn check(text: &[u8], watcher: &mut impl Watcher) -> Result<Counts, u64> {
    let mut lines = Lines { text, at: 0, number: 1 };
    counts_of(&mut lines, watcher).map_err(|Rejected| lines.number)
}

fn counts_of(lines: &mut Lines, watcher: &mut impl Watcher) -> Lawful<Counts> {
    let monitor = setup(lines)?;
    let passes = Passes::new(monitor.space.pages);
    let (expected, loaded) = (Output::in_memory(), Vec::new());
    let mut journal = Journal { monitor, passes, expected, loaded, calls: [0; MOST_CONTROLLERS] };
    while journal.entry(lines, watcher)? {}
    journal.receipts(lines)?;
    journal.settled(lines)?;
    let Monitor { ticks, checks, hits, .. } = journal.monitor;
    Ok(Counts { passes: ticks, loads: checks, hits })
}

/// The text, and the place of the current line.
struct Lines<'a> {
    text: &'a [u8],
    at: usize,
    number: u64,
}

impl<'a> Lines<'a> {
    fn rest(&self) -> &'a [u8] {
        &self.text[self.at..]
    }

    /// The current line, which must end with an LF.
    fn line(&self) -> Lawful<&'a [u8]> {
        let end = line_end(self.text, self.at);
        if end == self.text.len() {
            return Err(Rejected);
        }
        Ok(&self.text[self.at..end])
    }

    /// Moves to the line after this one, which has `length` bytes without its LF.
    fn pass(&mut self, length: usize) {
        self.at += length + 1;
        self.number += 1;
    }

    /// Takes these whole lines, each with its LF.
    fn expect(&mut self, expected: &[u8]) -> Lawful<()> {
        for line in expected.split_inclusive(|&byte| byte == b'\n') {
            if !self.rest().starts_with(line) {
                return Err(Rejected);
            }
            self.pass(line.len() - 1);
        }
        Ok(())
    }
}

fn setup(lines: &mut Lines) -> Lawful<Monitor> {
    let mut reader = SetupReader::new([b"damon journal 1", b"damon journal 2"]);
    loop {
        let line = lines.line()?;
        if reader.line(line, &[b"begin"]).map_err(|_| Rejected)? == Was::Behind {
            lines.expect(b"begin\n")?;
            return Ok(Monitor::new(reader.setup));
        }
        if line.starts_with(b"scheme ") {
            let (slot, scheme) = reader.setup.schemes.last().ok_or(Rejected)?;
            expect_spelling(line, *slot, scheme)?;
        }
        lines.pass(line.len());
    }
}

/// Of all lines only those of schemes have several spellings, since a key may be given with its default.
fn expect_spelling(line: &[u8], slot: u8, scheme: &Scheme) -> Lawful<()> {
    let mut spelt = Output::in_memory();
    lines::scheme(&mut spelt, slot, scheme);
    if spelt.text().strip_suffix(b"\n") == Some(line) {
        Ok(())
    } else {
        Err(Rejected)
    }
}

struct Journal {
    monitor: Monitor,
    passes: Passes,
    /// Room for lines that are expected.
    expected: Output,
    loaded: Vec<u8>,
    /// The calls of each controller so far.
    calls: [u64; MOST_CONTROLLERS],
}

impl Journal {
    /// Carries out the next entry; false for the line `receipts`.
    fn entry(&mut self, lines: &mut Lines, watcher: &mut impl Watcher) -> Lawful<bool> {
        let rest = lines.rest();
        if self.monitor.phase != Phase::Due && rest.starts_with(b"call ") {
            return self.call(lines).map(|()| true);
        }
        self.expected.clear();
        let expected = &mut self.expected;
        match self.monitor.phase {
            Phase::Idle if rest.starts_with(b"receipts\n") => {
                lines.pass(b"receipts".len());
                return Ok(false);
            }
            Phase::Idle => {
                expected.field("prepare ", self.monitor.pass()).field(" at ", self.monitor.drawn()).str("\n");
                lines.expect(expected.text())?;
                self.monitor.prepare();
                self.monitor.phase = Phase::Armed;
                self.passes.add(self.monitor.picks());
            }
            Phase::Void => {
                expected.field("void ", self.monitor.pass()).str("\n");
                lines.expect(expected.text())?;
                self.monitor.observe_void();
            }
            Phase::Due => {
                expected.field("aggregate ", self.monitor.ticks).field(" at ", self.monitor.drawn()).str("\n");
                lines.expect(expected.text())?;
                self.monitor.aggregate();
                watcher.aggregated(&self.monitor);
                self.monitor.split();
            }
            _ => self.check(lines)?,
        }
        Ok(true)
    }

    fn check(&mut self, lines: &mut Lines) -> Lawful<()> {
        self.expected.field("check ", self.monitor.pass()).str(" ");
        let rest = lines.rest().strip_prefix(self.expected.text()).ok_or(Rejected)?;
        let rows = self.monitor.rows.len();
        if rest.get(rows) != Some(&b'\n') {
            return Err(Rejected);
        }
        self.loaded.clear();
        self.loaded.extend(rest[..rows].iter().map(|&byte| byte ^ b'0'));
        if self.loaded.iter().fold(0, |all, &bit| all | bit) > 1 {
            return Err(Rejected);
        }
        for (group, bits) in self.loaded.chunks(8).enumerate() {
            if bits != [0; 8] {
                for (at, _) in bits.iter().enumerate().filter(|it| *it.1 == 1) {
                    self.passes.hit(rows - 8 * group - at);
                }
            }
        }
        self.monitor.observe(&self.loaded);
        lines.pass(self.expected.text().len() + rows);
        Ok(())
    }

    fn call(&mut self, lines: &mut Lines) -> Lawful<()> {
        let line = lines.line()?;
        let controller = match line.get(b"call ".len()) {
            Some(digit @ b'0'..=b'3') => (digit - b'0') as usize,
            _ => return Err(Rejected),
        };
        self.expected.clear();
        self.expected.field("call ", controller as u64).field(" ", self.calls[controller]).str(" ");
        let what = line.strip_prefix(self.expected.text()).ok_or(Rejected)?;
        self.calls[controller] += 1;
        self.expected.clear();
        match what {
            b"show" => {
                lines.pass(line.len());
                self.expected.field("answer shown tick=", self.monitor.ticks);
                self.expected.field(" rows=", self.monitor.rows.len() as u64);
            }
            b"commit" => {
                lines.pass(line.len());
                let commit = commit(lines, self.monitor.version)?;
                let answer = self.monitor.commit(&commit);
                self.expected.str("answer ");
                text_report::answer(&mut self.expected, &answer);
            }
            _ => return Err(Rejected),
        }
        self.expected.str("\n");
        lines.expect(self.expected.text())
    }

    /// Takes the lines `seen`.
    fn receipts(&mut self, lines: &mut Lines) -> Lawful<()> {
        // The last receipt of each page, with its worker in the high bits and its tag in the low ones. The next one
        // of the same worker must not have a lower tag.
        let mut last = vec![0u32; self.monitor.space.pages as usize];
        let mut worker = 0;
        while let Some((receipt, length)) = receipt_of(lines.rest()) {
            if receipt.worker < worker || receipt.worker >= MOST_WORKERS as u32 {
                return Err(Rejected);
            }
            worker = receipt.worker;
            let target = self.monitor.space.targets.get(receipt.target as usize).ok_or(Rejected)?;
            let page = target.page_of(receipt.address).filter(|_| receipt.address % PAGE == 0).ok_or(Rejected)?;
            if receipt.tag > 0 && !self.passes.take(receipt.tag, page) {
                return Err(Rejected);
            }
            let key = worker << TAG_BITS | receipt.tag;
            if key < last[page as usize] {
                return Err(Rejected);
            }
            last[page as usize] = key;
            lines.pass(length);
        }
        Ok(())
    }

    fn settled(&mut self, lines: &mut Lines) -> Lawful<()> {
        if !self.passes.are_settled() {
            return Err(Rejected);
        }
        let mut expected = Output::in_memory();
        expected.str("settled\n");
        text_report::show(&mut expected, &self.monitor).map_err(|_| Rejected)?;
        text_report::end(&mut expected, &self.monitor);
        lines.expect(expected.text())?;
        if lines.rest().is_empty() {
            Ok(())
        } else {
            Err(Rejected)
        }
    }
}

fn commit(lines: &mut Lines, version: u8) -> Lawful<crate::commit::Commit> {
    let mut reader = CommitReader::new(version);
    loop {
        let line = lines.line()?;
        let is_last = reader.line(line).map_err(|_| Rejected)?;
        if let (true, Some(Change::Set(slot, scheme))) = (line.starts_with(b"scheme "), &reader.commit.change) {
            expect_spelling(line, *slot, scheme)?;
        }
        lines.pass(line.len());
        if is_last {
            return Ok(reader.commit);
        }
    }
}

/// A text of at most 16 MiB has fewer passes than this allows, since each takes two lines.
const TAG_BITS: u32 = 20;

struct Receipt {
    worker: u32,
    target: u32,
    address: u64,
    tag: u32,
}

/// The receipt with which a text begins, and the length of its line without the LF.
#[inline]
fn receipt_of(text: &[u8]) -> Option<(Receipt, usize)> {
    let rest = text.strip_prefix(b"seen ")?;
    let (worker, rest) = short_of(rest, b' ')?;
    let (target, rest) = short_of(rest, b' ')?;
    let rest = rest.strip_prefix(b"0x")?;
    let (address, digits) = hex_of(rest)?;
    let rest = rest[digits..].strip_prefix(b" ")?;
    let (tag, rest) = short_of(rest, b'\n')?;
    (tag < 1 << TAG_BITS).then(|| (Receipt { worker, target, address, tag }, text.len() - rest.len() - 1))
}

/// A decimal number of at most seven digits, and the text behind the byte that must end it.
#[inline]
fn short_of(text: &[u8], end: u8) -> Option<(u32, &[u8])> {
    let first = text.first()?.wrapping_sub(b'0');
    if first > 9 {
        return None;
    }
    let mut number = first as u32;
    let mut at = 1;
    while at < 8 {
        let byte = *text.get(at)?;
        if byte == end {
            return Some((number, &text[at + 1..]));
        }
        let digit = byte.wrapping_sub(b'0');
        if digit > 9 || number == 0 {
            return None;
        }
        number = 10 * number + digit as u32;
        at += 1;
    }
    None
}
