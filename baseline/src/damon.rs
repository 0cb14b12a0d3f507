//! The commands of `damon`.

use crate::admin::Admin;
use crate::gen;
use crate::heat;
use crate::json_report::JsonReport;
use crate::output::{Output, Written};
use crate::process::{input, output};
use crate::reclaim::Reclaim;
use crate::report::Report;
use crate::run::{Mode, Plain, Run};
use crate::script::{self, Script};
use crate::status::Status;
use crate::text_report::TextReport;
use crate::tune::{Goal, Tune};
use crate::verify;
use crate::words::n64;
use std::ffi::OsString;
use std::os::unix::ffi::OsStrExt;

const USAGE: &str = "damon replay, json, verify, gen N, tune GOALS, heat N, admin or reclaim";
const MOST_GOALS: usize = 16;

pub fn run(words: &[OsString]) -> Status {
    let words: Vec<&[u8]> = words.iter().map(|it| it.as_bytes()).collect();
    chosen(&words).unwrap_or(Status::Usage(USAGE))
}

/// What the words ask for is done; nothing where they are not those of a command.
fn chosen(words: &[&[u8]]) -> Option<Status> {
    match words {
        [b"replay"] => Some(of_script(|script| carry_out(script, text_report(), Plain, flush_text))),
        [b"json"] => Some(of_script(|script| carry_out(script, json_report(), Plain, flush_json))),
        [b"reclaim"] => Some(of_script(|script| {
            let mode = Reclaim::new(script.setup.space.pages);
            carry_out(script, text_report(), mode, flush_text)
        })),
        [b"tune", goals @ ..] if (1..=MOST_GOALS).contains(&goals.len()) => {
            let goals: Vec<Goal> = goals.iter().map(|it| Goal::of(it).ok()).collect::<Option<_>>()?;
            Some(of_script(|script| {
                let mode = Tune::new(goals, &script.setup.schemes);
                carry_out(script, text_report(), mode, flush_text)
            }))
        }
        [b"admin"] => Some(of_input(admin)),
        [b"verify"] => Some(of_input(verify)),
        [b"gen", number] => {
            let number = n64(number).ok()?;
            Some(written(|output| {
                gen::run(number, output);
                Ok(())
            }))
        }
        [b"heat", columns @ (b"8" | b"16" | b"64")] => {
            let columns = n64(columns).ok()? as u32;
            Some(of_input(|text| match heat::checked(&text, columns) {
                Ok(heat) => written(|output| heat.write(output)),
                Err(line) => Status::Unlawful(line),
            }))
        }
        _ => None,
    }
}

fn of_input(run: impl FnOnce(Vec<u8>) -> Status) -> Status {
    input().map_or_else(|status| status, run)
}

fn of_script(run: impl FnOnce(Script) -> Status) -> Status {
    of_input(|text| match script::read(&text) {
        Ok(script) => {
            drop(text);
            run(script)
        }
        Err(fault) => Status::Script(fault),
    })
}

fn status_of(written: Written) -> Status {
    written.map_or(Status::WriteFault, |()| Status::Ok)
}

/// Writes to standard output.
fn written(write: impl FnOnce(&mut Output) -> Written) -> Status {
    let mut output = Output::to(output());
    status_of(write(&mut output).and_then(|()| output.flush()))
}

fn text_report() -> TextReport {
    TextReport { output: Output::to(output()) }
}

fn json_report() -> JsonReport {
    JsonReport { output: Output::to(output()) }
}

fn flush_text(report: &mut TextReport) -> Written {
    report.output.flush()
}

fn flush_json(report: &mut JsonReport) -> Written {
    report.output.flush()
}

fn carry_out<R: Report, M: Mode<R>>(script: Script, report: R, mode: M, flush: fn(&mut R) -> Written) -> Status {
    let Script { setup, commands, .. } = script;
    let mut run = Run::new(setup, report, mode);
    status_of(run.all(&commands).and_then(|()| flush(&mut run.report)))
}

fn admin(text: Vec<u8>) -> Status {
    match Admin::read(&text) {
        Ok(mut admin) => written(|output| admin.run(output)),
        Err(fault) => Status::Script(fault),
    }
}

fn verify(text: Vec<u8>) -> Status {
    match verify::check(&text, &mut verify::NoWatcher) {
        Ok(counts) => written(|output| {
            output.field("lawful passes=", counts.passes).field(" loads=", counts.loads);
            output.field(" hits=", counts.hits).str("\n");
            Ok(())
        }),
        Err(line) => Status::Unlawful(line),
    }
}
