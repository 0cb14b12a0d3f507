//! The command of `damond`.

use crate::journal::Journal;
use crate::lines;
use crate::live;
use crate::live_script::{self, LiveScript};
use crate::monitor::Monitor;
use crate::output::{Output, Written};
use crate::process::{input, output};
use crate::status::Status;
use std::ffi::OsString;

const USAGE: &str = "damond run";
const MOST_RESULTS: u64 = 4_194_304;

pub fn run(words: &[OsString]) -> Status {
    if words.len() != 1 || words[0] != "run" {
        return Status::Usage(USAGE);
    }
    let text = match input() {
        Ok(text) => text,
        Err(status) => return status,
    };
    let script = match live_script::read(&text) {
        Ok(script) => script,
        Err(fault) => return Status::Script(fault),
    };
    drop(text);
    if script.passes as u64 * script.setup.cap as u64 > MOST_RESULTS {
        return Status::TooManyPasses;
    }
    carry_out(script).map_or(Status::WriteFault, |()| Status::Ok)
}

fn carry_out(script: LiveScript) -> Written {
    let LiveScript { setup, passes, workers, controllers } = script;
    let mut head = Output::in_memory();
    head.field("damon journal ", setup.version as u64).str("\n");
    lines::setup(&mut head, &setup);
    head.str("begin\n");
    let (journal, tags) = live::run(Journal::new(Monitor::new(setup)), passes, &workers, &controllers);
    let workers: Vec<_> = workers.into_iter().zip(tags).collect();
    let mut output = Output::to(output());
    journal.write(&head, &workers, &mut output)?;
    output.flush()
}
