//! Reading scripts, a line at a time.

use crate::commands::Commands;
use crate::commit::CommitReader;
use crate::fault::{Fault, FaultKind, OfLine};
use crate::setup::{within, Setup, SetupReader, Was};
use crate::space::{Space, PAGE};
use crate::words::{address, exactly, first_word, line_end, n32, HEX};

pub const MOST_WORK: u64 = 16_777_216;
pub const MOST_STEPS: u32 = 1_000_000;

enum State {
    Setup,
    Body,
    Commit(Box<CommitReader>),
    Ended,
}

pub struct Script {
    pub setup: Setup,
    pub commands: Commands,
    /// The lines of the commands that may write something, and of `end`, where they were asked for.
    pub stops: Vec<u32>,
}

pub struct ScriptReader {
    setup: SetupReader,
    state: State,
    commands: Commands,
    work: u64,
    /// The lines that were read.
    lines: u64,
    keeps_stops: bool,
    stops: Vec<u32>,
}

/// Reads a whole text.
pub fn read(text: &[u8]) -> Result<Script, Fault> {
    let mut reader = ScriptReader::new(false);
    let mut at = 0;
    while at < text.len() {
        match reader.take(&text[at..])? {
            Some(length) => at += length,
            None => return reader.end(true),
        }
    }
    reader.end(false)
}

impl ScriptReader {
    pub fn new(keeps_stops: bool) -> ScriptReader {
        ScriptReader {
            setup: SetupReader::new([b"damon script 1", b"damon script 2"]),
            state: State::Setup,
            commands: Commands::default(),
            work: 0,
            lines: 0,
            keeps_stops,
            stops: Vec::new(),
        }
    }

    fn fault(&self, kind: FaultKind) -> Fault {
        Fault { line: self.lines, kind }
    }

    /// Takes the first line of a text, and gives its length with its LF; nothing where the text has no LF.
    #[inline]
    pub fn take(&mut self, text: &[u8]) -> Result<Option<usize>, Fault> {
        if let (State::Body, Some((page, length))) = (&self.state, touch_of(text, &self.setup.setup.space)) {
            self.lines += 1;
            return self.touch(page).map(|()| Some(length)).map_err(|kind| self.fault(kind));
        }
        let end = line_end(text, 0);
        if end == text.len() {
            return Ok(None);
        }
        self.lines += 1;
        self.line(&text[..end]).map(|()| Some(end + 1)).map_err(|kind| self.fault(kind))
    }

    /// The script that the lines so far spell, or their fault. `has_rest` says that bytes without an LF follow them.
    pub fn end(mut self, has_rest: bool) -> Result<Script, Fault> {
        self.lines += 1;
        match self.state {
            State::Ended if has_rest => Err(self.fault(FaultKind::After)),
            State::Ended => Ok(Script { setup: self.setup.setup, commands: self.commands, stops: self.stops }),
            _ => Err(self.fault(FaultKind::Cut)),
        }
    }

    fn line(&mut self, line: &[u8]) -> OfLine<()> {
        match &mut self.state {
            State::Setup => {
                if self.setup.line(line, &[b"begin"])? == Was::Behind {
                    exactly::<1>(line)?;
                    self.state = State::Body;
                }
                Ok(())
            }
            State::Body => self.body(line),
            State::Commit(reader) => {
                if reader.line(line)? {
                    let commit = std::mem::take(&mut reader.commit);
                    self.state = State::Body;
                    self.add_work(1)?;
                    self.commands.commit(commit);
                    self.stop();
                }
                Ok(())
            }
            State::Ended => Err(FaultKind::After),
        }
    }

    fn body(&mut self, line: &[u8]) -> OfLine<()> {
        let word = first_word(line);
        if word == b"touch" || word == b"sweep" {
            return self.accesses(line);
        }
        match word {
            b"step" => {
                let [_, steps] = exactly(line)?;
                let steps = within(n32(steps)?, 1, MOST_STEPS)?;
                self.add_work(steps as u64)?;
                self.commands.step(steps);
            }
            b"arm" | b"finish" | b"show" => {
                exactly::<1>(line)?;
                let pass = 2 * self.setup.setup.cap as u64 + 3;
                self.add_work(if word == b"show" { 1 } else { pass })?;
                match word {
                    b"arm" => self.commands.arm(),
                    b"finish" => self.commands.finish(),
                    _ => self.commands.show(),
                }
            }
            b"commit" => {
                exactly::<1>(line)?;
                self.state = State::Commit(Box::new(CommitReader::new(self.setup.setup.version)));
                return Ok(());
            }
            b"end" => {
                exactly::<1>(line)?;
                self.state = State::Ended;
            }
            _ => return Err(FaultKind::Word),
        }
        self.stop();
        Ok(())
    }

    fn accesses(&mut self, line: &[u8]) -> OfLine<()> {
        let (first, end) = accesses_of(line, &self.setup.setup.space)?;
        if line.starts_with(b"touch") {
            return self.touch(first);
        }
        self.add_work((end - first) as u64)?;
        self.commands.sweep(first, end);
        Ok(())
    }

    #[inline]
    fn touch(&mut self, page: u32) -> OfLine<()> {
        self.add_work(1)?;
        self.commands.touch(page);
        Ok(())
    }

    #[inline]
    fn add_work(&mut self, work: u64) -> OfLine<()> {
        self.work += work;
        if self.work > MOST_WORK {
            return Err(FaultKind::TooMuch);
        }
        Ok(())
    }

    fn stop(&mut self) {
        if self.keeps_stops {
            self.stops.push(self.lines as u32);
        }
    }
}

/// The pages of a line `touch` or `sweep`, as the first one and the one behind the last.
pub fn accesses_of(line: &[u8], space: &Space) -> OfLine<(u32, u32)> {
    if first_word(line) == b"touch" {
        let [_, target, at] = exactly(line)?;
        let page = space.page_of(n32(target)?, address(at)?).ok_or(FaultKind::Outside);
        return page.map(|page| (page, page + 1));
    }
    let [_, target, from, to] = exactly(line)?;
    let (target, from, to) = (n32(target)?, address(from)?, address(to)?);
    if from % PAGE != 0 || to % PAGE != 0 || from >= to {
        return Err(FaultKind::Limit);
    }
    space.span_of(target, from, to).ok_or(FaultKind::Outside)
}

/// The page of a touch line with which a text begins, and the length of that line; nothing where the line is of another
/// kind, or not as plain as most.
#[inline]
pub fn touch_of(text: &[u8], space: &Space) -> Option<(u32, usize)> {
    let rest = text.strip_prefix(b"touch ")?;
    let (target, rest) = match rest {
        [digit @ b'0'..=b'9', b' ', b'0', b'x', rest @ ..] => ((digit - b'0') as u32, rest),
        [tens @ b'1'..=b'9', ones @ b'0'..=b'9', b' ', b'0', b'x', rest @ ..] => {
            ((tens - b'0') as u32 * 10 + (ones - b'0') as u32, rest)
        }
        _ => return None,
    };
    let (address, digits) = hex_of(rest)?;
    if rest.get(digits) != Some(&b'\n') {
        return None;
    }
    Some((space.page_of(target, address)?, text.len() - rest.len() + digits + 1))
}

/// The hexadecimal number with which a text begins, and its length.
#[inline]
pub fn hex_of(text: &[u8]) -> Option<(u64, usize)> {
    let mut value = 0;
    let mut digits = 0;
    for &byte in text.iter().take(17) {
        let digit = HEX[byte as usize];
        if digit > 15 {
            break;
        }
        value = value << 4 | digit as u64;
        digits += 1;
    }
    let is_plain = (1..=16).contains(&digits) && (text[0] != b'0' || digits == 1);
    is_plain.then(|| (value, digits))
}

#[cfg(test)]
mod tests {
    use super::*;

    const SETUP: &str =
        "damon script 1\nseed 1\nunit 1\ncap 3\nattrs 3 3 1\ntarget 0x1000 2\nrange 0 0x1000 0x3000 0\nbegin\n";

    fn fault_of(body: &str) -> Option<(u64, FaultKind)> {
        read(format!("{SETUP}{body}").as_bytes()).err().map(|it| (it.line, it.kind))
    }

    #[test]
    fn the_quick_reader_of_touches_takes_what_the_other_takes() {
        let mut space = Space::default();
        assert!((0..12).all(|target| space.add(target * 0x10000, 3)));
        for word in ["0", "9", "11", "12", "00", "01", "", "1a"] {
            for at in [
                "0x0",
                "0x1",
                "0x90fff",
                "0xb2fff",
                "0xb3000",
                "0x00",
                "0x01",
                "0xA000",
                "0x",
                "x1000",
                "0x1000 ",
                "0xffffffffffffffff",
            ] {
                let line = format!("touch {word} {at}");
                let whole = format!("{line}\nend\n");
                let slow = accesses_of(line.as_bytes(), &space).ok().map(|(page, _)| (page, line.len() + 1));
                assert_eq!(touch_of(whole.as_bytes(), &space), slow, "{line}");
                assert_eq!(touch_of(line.as_bytes(), &space), None);
            }
        }
    }

    #[test]
    fn the_first_kind_of_a_line_is_its_fault() {
        assert_eq!(fault_of("end\n"), None);
        assert_eq!(fault_of("end\nx"), Some((10, FaultKind::After)));
        assert_eq!(fault_of("end"), Some((9, FaultKind::Cut)));
        assert_eq!(fault_of("step 01 2\nend\n"), Some((9, FaultKind::Form)));
        assert_eq!(fault_of("sweep 9 0x1 0x0\nend\n"), Some((9, FaultKind::Limit)));
        assert_eq!(fault_of("touch 0 0x3000\nend\n"), Some((9, FaultKind::Outside)));
        assert_eq!(fault_of(&"step 1000000\n".repeat(17)), Some((25, FaultKind::TooMuch)));
    }
}
