//! Several contexts in one input, a line of a script each by turns.

use crate::fault::{Fault, FaultKind};
use crate::output::{Output, Written};
use crate::run::{Plain, Run};
use crate::script::{Script, ScriptReader};
use crate::text_report::TextReport;
use crate::words::line_end;

const CONTEXTS: usize = 8;

/// A context while its lines are read.
struct Reading {
    /// What its lines are so far; the reader is gone after a fault.
    read: Result<ScriptReader, Fault>,
    lines: u32,
}

/// A context whose lines are carried out.
struct Context {
    run: Run<TextReport, Plain>,
    script: Script,
    /// The next of its commands, and the next line that may write something.
    place: usize,
    stop: usize,
}

enum Carried {
    Context(Box<Context>),
    /// What its last line writes.
    Fault(Fault),
}

/// The lines of an input, each as its context and the text from there on.
struct Lines<'a> {
    text: &'a [u8],
    at: usize,
}

pub struct Admin<'a> {
    body: &'a [u8],
    contexts: Vec<Option<(Carried, u32)>>,
}

impl<'a> Admin<'a> {
    /// Reads all lines, or says which of them is refused.
    pub fn read(text: &'a [u8]) -> Result<Admin<'a>, Fault> {
        let head = line_end(text, 0);
        if head == text.len() {
            return Err(Fault { line: 1, kind: FaultKind::Cut });
        }
        if &text[..head] != b"damon admin 1" {
            return Err(Fault { line: 1, kind: FaultKind::Header });
        }
        let body = &text[head + 1..];
        let mut reading: Vec<Option<Reading>> = (0..CONTEXTS).map(|_| None).collect();
        let mut number = 1;
        let mut at = 0;
        while at < body.len() {
            number += 1;
            at += read_line(&body[at..], &mut reading).map_err(|kind| Fault { line: number, kind })?;
        }
        Ok(Admin { body, contexts: reading.into_iter().map(|it| it.map(Reading::carried)).collect() })
    }

    /// Carries out all lines in their order.
    pub fn run(&mut self, output: &mut Output) -> Written {
        let mut seen = [0u32; CONTEXTS];
        for context in (Lines { text: self.body, at: 0 }) {
            seen[context] += 1;
            match &mut self.contexts[context] {
                Some((Carried::Context(it), _)) if it.script.stops.get(it.stop) == Some(&seen[context]) => {
                    it.carry_out_stop()?;
                    let written = &mut it.run.report.output;
                    for line in written.text().split_inclusive(|&byte| byte == b'\n') {
                        output.decimal(context as u64).str(" ").bytes(line);
                        output.settle()?;
                    }
                    written.clear();
                }
                Some((Carried::Fault(fault), lines)) if *lines == seen[context] => {
                    output.decimal(context as u64).field(" fault line=", fault.line).str(" ");
                    output.str(fault.kind.text()).str("\n");
                    output.settle()?;
                }
                _ => {}
            }
        }
        Ok(())
    }
}

/// Gives a line to its context, and gives the line's length.
fn read_line(text: &[u8], reading: &mut [Option<Reading>]) -> Result<usize, FaultKind> {
    let context = match text {
        [digit @ b'0'..=b'7', b' ', ..] => (digit - b'0') as usize,
        _ if line_end(text, 0) == text.len() => return Err(FaultKind::Cut),
        _ => return Err(FaultKind::Form),
    };
    let reading = reading[context].get_or_insert_with(|| Reading { read: Ok(ScriptReader::new(true)), lines: 0 });
    reading.lines += 1;
    let line = &text[2..];
    let taken = match &mut reading.read {
        Ok(reader) => reader.take(line),
        Err(fault) => Err(*fault),
    };
    match taken {
        Ok(Some(length)) => Ok(2 + length),
        Ok(None) => Err(FaultKind::Cut),
        Err(fault) => {
            reading.read = Err(fault);
            match line_end(line, 0) {
                end if end == line.len() => Err(FaultKind::Cut),
                end => Ok(2 + end + 1),
            }
        }
    }
}

impl Reading {
    /// The context that these lines are.
    fn carried(self) -> (Carried, u32) {
        let carried = match self.read.and_then(|reader| reader.end(false)) {
            Ok(mut script) => {
                let setup = std::mem::take(&mut script.setup);
                let run = Run::new(setup, TextReport { output: Output::in_memory() }, Plain);
                Carried::Context(Box::new(Context { run, script, place: 0, stop: 0 }))
            }
            Err(fault) => Carried::Fault(fault),
        };
        (carried, self.lines)
    }
}

impl Context {
    /// Carries out the commands up to the one of the next stop, or the end of the script.
    fn carry_out_stop(&mut self) -> Written {
        use crate::commands::Command;
        self.stop += 1;
        while let Some((command, next)) = self.script.commands.at(self.place) {
            let is_access = matches!(command, Command::Touches(_) | Command::Sweep { .. });
            self.run.command(command)?;
            self.place = next;
            if !is_access {
                return Ok(());
            }
        }
        self.run.end()
    }
}

impl Iterator for Lines<'_> {
    type Item = usize;

    fn next(&mut self) -> Option<usize> {
        let context = (self.text.get(self.at)? - b'0') as usize;
        self.at = line_end(self.text, self.at) + 1;
        Some(context)
    }
}
