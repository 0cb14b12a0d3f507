#![no_main]

use damon_baseline::process::{run, Memory};

#[global_allocator]
static MEMORY: Memory = Memory;

#[no_mangle]
pub extern "C" fn main() -> i32 {
    run(damon_baseline::damond::run)
}
