//! Reading live scripts.

use crate::commands::Commands;
use crate::commit::CommitReader;
use crate::fault::{Fault, FaultKind, OfLine};
use crate::script::{accesses_of, touch_of};
use crate::setup::{within, Setup, SetupReader, Was};
use crate::verify::{MOST_CONTROLLERS, MOST_WORKERS};
use crate::words::{exactly, first_word, line_end, n32};

const MOST_PASSES: u32 = 1_000_000;
const MOST_TOUCHES: u64 = 1_048_576;
const MOST_CALLS: u64 = 65_536;

#[derive(Default)]
pub struct Worker {
    pub accesses: Commands,
    /// The number of pages that it touches.
    pub touches: usize,
}

#[derive(Default)]
pub struct LiveScript {
    pub setup: Setup,
    pub passes: u32,
    pub workers: Vec<Worker>,
    pub controllers: Vec<Commands>,
}

enum State {
    Setup,
    Passes,
    Worker,
    Controller,
    Commit(Box<CommitReader>),
    Ended,
}

struct Reader {
    setup: SetupReader,
    state: State,
    script: LiveScript,
    touches: u64,
    calls: u64,
}

/// Reads a whole text.
pub fn read(text: &[u8]) -> Result<LiveScript, Fault> {
    let setup = SetupReader::new([b"damon live 1", b"damon live 2"]);
    let mut reader = Reader { setup, state: State::Setup, script: LiveScript::default(), touches: 0, calls: 0 };
    let mut at = 0;
    let mut line = 1;
    while at < text.len() {
        let rest = &text[at..];
        let fault = |kind| Fault { line, kind };
        if let (State::Worker, Some((page, length))) = (&reader.state, touch_of(rest, &reader.setup.setup.space)) {
            reader.access(page, page + 1, true).map_err(fault)?;
            at += length;
        } else {
            let end = line_end(rest, 0);
            if matches!(reader.state, State::Ended) {
                return Err(fault(FaultKind::After));
            }
            if end == rest.len() {
                return Err(fault(FaultKind::Cut));
            }
            reader.line(&rest[..end]).map_err(fault)?;
            at += end + 1;
        }
        line += 1;
    }
    match reader.state {
        State::Ended => Ok(LiveScript { setup: reader.setup.setup, ..reader.script }),
        _ => Err(Fault { line, kind: FaultKind::Cut }),
    }
}

impl Reader {
    fn line(&mut self, line: &[u8]) -> OfLine<()> {
        let word = first_word(line);
        match &mut self.state {
            State::Setup => {
                if self.setup.line(line, &[b"passes"])? == Was::Behind {
                    let [_, passes] = exactly(line)?;
                    self.script.passes = within(n32(passes)?, 1, MOST_PASSES)?;
                    self.state = State::Passes;
                }
                Ok(())
            }
            State::Commit(reader) => {
                if reader.line(line)? {
                    let commit = std::mem::take(&mut reader.commit);
                    self.state = State::Controller;
                    self.controller()?.commit(commit);
                }
                Ok(())
            }
            State::Worker if word == b"touch" || word == b"sweep" => {
                let (first, end) = accesses_of(line, &self.setup.setup.space)?;
                self.access(first, end, word == b"touch")
            }
            State::Controller if word == b"show" => {
                exactly::<1>(line)?;
                self.controller()?.show();
                Ok(())
            }
            State::Controller if word == b"commit" => {
                exactly::<1>(line)?;
                self.state = State::Commit(Box::new(CommitReader::new(self.setup.setup.version)));
                Ok(())
            }
            State::Passes | State::Worker if word == b"worker" => {
                exactly::<1>(line)?;
                self.state = State::Worker;
                add(&mut self.script.workers, MOST_WORKERS)
            }
            State::Passes | State::Worker | State::Controller if word == b"controller" => {
                exactly::<1>(line)?;
                self.state = State::Controller;
                add(&mut self.script.controllers, MOST_CONTROLLERS)
            }
            State::Passes | State::Worker | State::Controller if word == b"end" => {
                exactly::<1>(line)?;
                self.state = State::Ended;
                Ok(())
            }
            _ => Err(FaultKind::Word),
        }
    }

    fn access(&mut self, first: u32, end: u32, is_touch: bool) -> OfLine<()> {
        let pages = end - first;
        self.touches += pages as u64;
        if self.touches > MOST_TOUCHES {
            return Err(FaultKind::TooMuch);
        }
        if let Some(worker) = self.script.workers.last_mut() {
            worker.touches += pages as usize;
            if is_touch {
                worker.accesses.touch(first);
            } else {
                worker.accesses.sweep(first, end);
            }
        }
        Ok(())
    }

    /// The current controller, with one call more.
    fn controller(&mut self) -> OfLine<&mut Commands> {
        self.calls += 1;
        if self.calls > MOST_CALLS {
            return Err(FaultKind::TooMuch);
        }
        self.script.controllers.last_mut().ok_or(FaultKind::Word)
    }
}

fn add<T: Default>(list: &mut Vec<T>, most: usize) -> OfLine<()> {
    if list.len() == most {
        return Err(FaultKind::Limit);
    }
    list.push(T::default());
    Ok(())
}
