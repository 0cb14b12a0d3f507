//! The generated runs of `damon gen`.

use crate::output::Output;
use crate::report::NoReport;
use crate::run::{Plain, Run};
use crate::scheme::SLOTS;
use crate::script;
use crate::setup::Setup;
use crate::world::Goal;

const BLOCKS: u32 = 2000;
const PAGES: u32 = 1024;

/// Runs the script of a number, and writes the line of its end.
pub fn run(number: u64, output: &mut Output) {
    let mut run = Run::new(setup_of(number), NoReport, Plain);
    let part = (number / 4 % 16) as u32;
    let mut pages = Vec::with_capacity(PAGES as usize / 8);
    for block in 0..BLOCKS {
        run.advance(Goal::Armed).expect("no report is written");
        match number % 4 {
            0 => {
                let first = 16 * block % PAGES;
                run.sweep(first, first + 16);
            }
            1 => {
                pages.clear();
                pages.extend((0..128).map(|at| (8 * at + block) % PAGES));
                run.touch(&pages);
            }
            2 => run.sweep(64 * part, 64 * part + 64),
            _ => {
                let first = 64 * ((part + block / 500) % 16);
                run.sweep(first, first + 64);
            }
        }
        run.advance(Goal::Idle).expect("no report is written");
    }
    let monitor = &run.world.monitor;
    let applied: [u64; SLOTS] =
        std::array::from_fn(|slot| monitor.slots[slot].held.as_ref().map_or(0, |it| it.applied));
    output.field("gen ", number).field(" ticks=", monitor.ticks).field(" rows=", monitor.rows.len() as u64);
    output.field(" checks=", monitor.checks).field(" hits=", monitor.hits).field(" applied=", applied[0]).str("\n");
}

fn setup_of(number: u64) -> Setup {
    let text = format!(
        "damon script 1\nseed {number}\nunit 1\ncap 100\nattrs 10 100 20\ntarget 0x0 {PAGES}\nrange 0 0x0 0x400000 0\n\
         scheme 0 pageout count=0,0 age=2,4294967295 quota=409600,20 prefer=cold\nbegin\nend\n"
    );
    script::read(text.as_bytes()).expect("the setup keeps the rules").setup
}
